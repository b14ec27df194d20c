/* What the parts of the page share that make certificates of one election. */

import { amountIn, downToHundredths } from "../elections/amounts.js";
import { shownName, toldName } from "../files/names.js";
import { fill } from "../words/words.js";
import { make } from "./elements.js";
import { TRAP } from "./finder.js";
import { madeFile } from "./made.js";
import { titleOf } from "./projects.js";
import type { Mode } from "../auditor/statuses.js";
import type { Piece } from "../files/pieces.js";
import type { Summary } from "../elections/election.js";
import type { Words } from "../words/words.js";
import type { Answer } from "../worker/orders.js";
import type { FindEnding, Finder } from "./finder.js";
import type { Page } from "./page.js";

/** A condition on the outcome alone that fails, and the line that says so: no payments would change it. */
export interface FailedAnyway {
  readonly name: "Feasible" | "Exhaustive";
  readonly line: string;
}

/** Which condition on the outcome alone fails, by the auditor's answer to prices by which nobody pays anything. */
export function failingBy({ said, line = "" }: Answer): FailedAnyway | undefined {
  const name = said?.says === "failed" ? said.condition : "";
  return name === "Feasible" || name === "Exhaustive" ? { name, line } : undefined;
}

export interface Desk {
  readonly page: Page;
  readonly finder: Finder;
  readonly election: Piece;
  readonly outcome: Piece | null;
  readonly summary: Summary;
  /** The first unfunded project that could be added within the limit. */
  readonly addable: number | undefined;
  /** Why no prices support the outcome, or none that are asked about what could be added, as the auditor answers it. */
  readonly failed: FailedAnyway | undefined;
}

const LONGEST_CURRENCY = 12;

/** The currency that the file names, or nothing. */
export const currencyOf = ({ summary }: Pick<Desk, "summary">): string =>
  toldName([...summary.facts.get("currency") ?? ""].slice(0, LONGEST_CURRENCY).join(""));

/** An amount, with the currency. */
export function moneyIn(desk: Pick<Desk, "page" | "summary">, amount: bigint): string {
  const currency = currencyOf(desk);
  return `${amountIn(amount, desk.page.language)}${currency ? ` ${currency}` : ""}`;
}

/** A share of the limit, which may have no end, without what is less than hundredths. */
export const shareIn = (desk: Desk, share: bigint): string => moneyIn(desk, downToHundredths(share));

/** The names of projects inside a sentence. */
export const namesOf = ({ summary }: Desk, projects: readonly number[]): string =>
  projects.map(at => toldName(titleOf(summary.projects[at]))).join(", ");

export const nameOf = ({ summary }: Desk, project: number): string => shownName(titleOf(summary.projects[project]));

/** Whether there is no answer since a file was changed. */
export const isOfChange = (told: FindEnding): boolean =>
  told.tells === "failed" && (told.why === "changed" || told.why === "unreadable");

/** Why there is no answer of the worker that looks for certificates. */
export function failureIn(words: Words, told: FindEnding, election: Piece): string {
  const { why, file: name = election.file.name } = told.tells === "failed" ? told : TRAP, file = toldName(name);
  return {
    unlike: words.readsOtherwise, unreadable: fill(words.unreadable, { file }), memory: words.outOfMemory,
    changed: fill(words.changedSinceRead, { file }), trap: words.trap,
  }[why];
}

export const failureItem = ({ page: { words }, election }: Desk, told: FindEnding): HTMLElement =>
  make("p", { class: "problem" }, failureIn(words, told, election));

/** Of an election with more voters, what searches hold in memory is given back before an audit. */
const MOST_KEPT = 100_000;

/** Gives a certificate to the auditor, as a file beside the election. `mode` is what prices were made for. */
export function handOver(
  { page, finder, summary, election, outcome }: Desk, content: Blob, ending: string, mode?: Mode,
): File {
  const file = madeFile(content, election, ending);
  if (summary.voters > MOST_KEPT && finder.isIdle) finder.rest();
  page.takeMade(file, election, outcome, mode);
  return file;
}
