/* What can be done with a list of audits: find some of them, check all again, and save the list. */

import { NO, REFUSED, YES } from "../auditor/statuses.js";
import { csvOf } from "../files/csv.js";
import { pathOf } from "../files/pieces.js";
import { grouped } from "../words/formats.js";
import { fill } from "../words/words.js";
import { optionsIn } from "./asked.js";
import { inOrder, isRead } from "./audits.js";
import { element, elementOf, input } from "./elements.js";
import { shortColumns } from "./short.js";
import { badgeOf, groupsIn, ofWhat, sentenceOf } from "./told.js";
import type { Audit } from "./audits.js";
import type { Page } from "./page.js";

/** The answers that somebody may ask for, by their values in the page. */
const IS_ASKED: Readonly<Record<string, (audit: Audit) => boolean>> = {
  no: audit => audit.status === NO, yes: audit => audit.status === YES && !isRead(audit),
  refused: audit => audit.status === REFUSED, open: audit => audit.status === undefined,
};

const which = (): HTMLSelectElement => elementOf("which", HTMLSelectElement);

const namesOf = ({ task: { certificate, election, outcome } }: Audit): string =>
  [certificate, election, outcome].map(piece => piece ? pathOf(piece) : "").join("\n").toLowerCase();

/** The audits that are asked for, in the order of the list. A short list is shown whole. */
export function listed(audits: readonly Audit[]): Audit[] {
  if (audits.length < 2) return [...audits];
  const asked = IS_ASKED[which().value] ?? (() => true), text = input("search").value.toLowerCase();
  return inOrder(audits).filter(audit => asked(audit) && namesOf(audit).includes(text));
}

/** Shows the tools of a list, and how much of it is shown. */
export function drawTools({ words, audits }: Page, shown: number): void {
  element("tools").hidden = audits.length < 2;
  const count = { count: grouped(shown), all: grouped(audits.length) };
  element("shown-of").textContent = shown < audits.length ? fill(words.shownOf, count) : "";
}

export function listenToTools(page: Page): void {
  input("search").addEventListener("input", () => page.draw());
  which().addEventListener("change", () => page.draw());
  element("check-all").addEventListener("click", () => page.againAll());
  element("save-list").addEventListener("click", () => page.saveList());
}

/** The list as a table, which has names and lines as they are. */
export function tableOf(page: Page): string {
  const head = [
    "certificate", "election", "outcome", "answer", "of", "asked", "sentence", "groups", "line",
    "by_cost", "group_by_cost", "by_count", "group_by_count",
  ];
  return csvOf([head, ...listed(page.audits).map(audit => rowOf(page, audit))]);
}

/** An audit as a row of the table. Of what its answer is, and what was asked, have columns of their own. */
function rowOf(page: Page, audit: Audit): string[] {
  const { words } = page, { task, mode, line = "" } = audit;
  const names = [task.certificate, task.election, task.outcome].map(piece => piece ? pathOf(piece) : "");
  const answer = badgeOf(words, audit).textContent ?? "", what = ofWhat(words, audit);
  const sentence = sentenceOf(page, audit, true).textContent?.trim() ?? "";
  const asked = mode && what && task.certificate?.kind === "prices" ? optionsIn(words, mode) : "";
  const said = [answer, what, asked, sentence, groupsIn(words, audit), line];
  return [...names, ...said, ...shortColumns(page, audit)];
}
