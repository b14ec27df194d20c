/* The lists of the page: the files that were given, and the audits with their answers. */

import { shownName, toldName } from "../files/names.js";
import { pathOf } from "../files/pieces.js";
import { fill } from "../words/words.js";
import { askedIn } from "./asked.js";
import { fileOf } from "./audits.js";
import { choicesOf } from "./choices.js";
import { make, makeButton, makeChoice, sizeOf } from "./elements.js";
import { sumItems } from "./sums.js";
import { badgeOf, groupsIn, noteLine, ofWhat, sentenceOf } from "./told.js";
import type { Kind } from "../auditor/kinds.js";
import type { Piece } from "../files/pieces.js";
import type { Words } from "../words/words.js";
import type { Audit } from "./audits.js";
import type { Page } from "./page.js";

const KINDS: readonly Kind[] = ["election", "prices", "violation", "refutation", "outcome"];

export const kindWord = (words: Words, kind: Kind): string => ({
  election: words.isElection, prices: words.isPrices, violation: words.isViolation,
  refutation: words.isRefutation, outcome: words.isOutcome, unknown: words.isUnknown,
})[kind];

const nameOf = (piece: Piece): HTMLElement => make("bdi", {}, shownName(pathOf(piece)));

/** What a file is: a word where the auditor told it, and else a choice. */
function kindItem(page: Page, piece: Piece): HTMLElement {
  const { words } = page;
  if (piece.isTold) return make("span", { class: "soft kind" }, kindWord(words, piece.kind));
  const kinds = piece.kind === "unknown" ? [...KINDS, piece.kind] : KINDS;
  const label = fill(words.kindOf, { file: toldName(piece.file.name) });
  return makeChoice(label, kinds.map(kind => kindWord(words, kind)), kinds.indexOf(piece.kind),
                    at => page.setKind(piece, kinds[at]));
}

/** A file, with what it is. */
export function pieceItem(page: Page, piece: Piece): HTMLElement {
  const { words } = page, file = toldName(piece.file.name);
  return make(
    "li", {},
    make("span", { class: "grows" }, nameOf(piece)),
    make("span", { class: "soft" }, sizeOf(piece.file.size, page.language)),
    ...sumItems(words, page.checksums, piece),
    kindItem(page, piece),
    makeButton(words.replace, fill(words.replaceFile, { file }), () => page.replace(piece)),
    makeButton(words.remove, fill(words.removeFile, { file }), () => page.remove(piece)),
  );
}

/** Whether there is one audit alone. */
export const isAlone = ({ audits }: Page): boolean => audits.length < 2;

/**
 * What is below an answer: the election and the outcome that a certificate is checked with, what was asked of prices,
 * what their yes says of groups (in a list that it says little, since all else stands on the answer's page), and what
 * is remarked on the election.
 */
function belowOf(page: Page, audit: Audit): HTMLElement[] {
  const { words } = page, { task, notes, mode, groups } = audit, { certificate, election, outcome } = task;
  const below: HTMLElement[] = [];
  if (certificate && election) {
    const whose = task.asks ? "?" : outcome ? toldName(outcome.file.name) : words.ownOutcome;
    const told = fill(words.checkedWith, { election: toldName(election.file.name), outcome: whose });
    below.push(make("span", { class: "soft with" }, told));
  }
  if (!certificate && outcome) {
    below.push(make("span", { class: "soft with" }, `${words.outcome}: ${toldName(outcome.file.name)}`));
  }
  if (mode && certificate?.kind === "prices" && ofWhat(words, audit)) {
    below.push(make("span", { class: "soft with asked" }, askedIn(words, mode)));
  }
  if (groups && (isAlone(page) || groups === "little")) {
    below.push(make("span", { class: "groups" }, groupsIn(words, audit)));
  }
  return [...below, ...(notes ?? []).map(note => make("span", { class: "note" }, noteLine(page, note)))];
}

const isShown = ({ shown, short }: Page, audit: Audit): boolean => shown === audit || short === audit;

/** The buttons of an audit: to show its answer, or to make it again where it has none. */
function buttonsOf(page: Page, audit: Audit): HTMLElement[] {
  const { words } = page, { task, state, problem, remaining } = audit, file = toldName(fileOf(audit).name);
  const canShow = audit.page !== undefined || audit.refused || audit.short || (task.certificate && !problem);
  if (state === "stopped" || problem || remaining === "stopped" || remaining === "failed") {
    return [makeButton(words.checkAgain, `${words.checkAgain}: ${file}`, () => page.again(audit))];
  }
  if (state !== "done" || isShown(page, audit) || !canShow) return [];
  return [makeButton(words.show, fill(words.showPage, { file }), () => page.show(audit))];
}

/** An audit, with its answer. */
export function auditItem(page: Page, audit: Audit): HTMLElement {
  const { task, state } = audit, piece = (task.certificate ?? task.election)!;
  return make(
    "li", { "data-state": state, ...isShown(page, audit) ? { class: "shown" } : {} },
    badgeOf(page.words, audit),
    make("span", { class: "grows" }, nameOf(piece), make("br"), sentenceOf(page, audit), ...belowOf(page, audit)),
    ...buttonsOf(page, audit),
    ...choicesOf(page, audit),
  );
}
