/* What the page says of an audit, in its language: the word on it, the sentence, and what is remarked. */

import { LONGEST_FILE, NO, REFUSED, YES } from "../auditor/statuses.js";
import { shownLine, toldName } from "../files/names.js";
import { grouped } from "../words/formats.js";
import { headlineOf } from "../words/headlines.js";
import { fill } from "../words/words.js";
import { fileOf, isBad, isRead } from "./audits.js";
import { make } from "./elements.js";
import { headOf, isShortAudit, shortSentence } from "./short.js";
import type { Note } from "../auditor/elections.js";
import type { Failed } from "../auditor/says.js";
import type { Words } from "../words/words.js";
import type { Audit, Problem } from "./audits.js";
import type { Page } from "./page.js";

type Colour = "good" | "bad" | "plain";

/** The word for how an audit stands, and its colour. */
function badgeWord(words: Words, audit: Audit): readonly [Colour, string] {
  const { state, status, task, problem, short } = audit;
  if (state !== "done") {
    const told = { waiting: words.isWaiting, running: words.isRunning, stopped: words.isStopped, incomplete: "–" };
    return ["plain", told[state]];
  }
  if (problem || status === undefined) return ["bad", words.isFailed];
  if (status === REFUSED) return ["bad", words.isRefused];
  if (!task.certificate) return short ? [isBad(audit) ? "bad" : "good", words.proved] : ["plain", words.isRead];
  // A violation or a refutation that was shown is no good news, and one that wasn't shown is none either.
  const isPrices = task.certificate.kind === "prices";
  return status === YES ? [isPrices ? "good" : "bad", words.yes] : [isPrices ? "bad" : "plain", words.no];
}

export function badgeOf(words: Words, audit: Audit): HTMLElement {
  const [colour, word] = badgeWord(words, audit);
  return make("span", { class: `badge ${colour}` }, word);
}

/** What an election has. */
function readLine({ words }: Page, { read, short }: Audit): string {
  if (!read) return "";
  const count = short?.cost.funded ?? read.funded, funded = count === undefined ? words.noneSaid : grouped(count);
  return fill(words.readLine, { voters: grouped(read.voters), projects: grouped(read.projects), funded });
}

/** What is remarked on an election. */
export function noteLine({ words }: Page, note: Note): string {
  if (note.says === "oddSelected") return fill(words.oddSelected, { count: grouped(note.projects) });
  if (note.says === "unusedColumn") return fill(words.unusedColumn, { column: note.column });
  const counts = { said: grouped(note.said), counted: grouped(note.counted) };
  return fill(note.of === "votes" ? words.otherVotes : words.otherProjects, counts);
}

/** The condition or the test that failed, and where. */
function failureIn(words: Words, { condition, voter, project }: Failed): string {
  const names: Readonly<Record<string, string>> = {
    Feasible: words.nameFeasible, Exhaustive: words.nameExhaustive, Cover: words.nameCover, C1: words.nameC1,
    C2: words.nameC2, C3: words.nameC3, C4: words.nameC4, C5: words.nameC5, S5: words.nameS5, V1: words.nameV1,
    V2: words.nameV2, V3: words.nameV3, V4: words.nameV4, U1: words.nameU1, U2: words.nameU2, U3: words.nameU3,
  };
  const name = names[condition] ?? condition, its = project === undefined ? undefined : toldName(project);
  const row = voter === undefined ? "" : grouped(voter);
  if (row && its !== undefined) return fill(words.atBoth, { condition: name, voter: row, project: its });
  if (row) return fill(words.atVoter, { condition: name, voter: row });
  if (its !== undefined) return fill(words.atProject, { condition: name, project: its });
  return fill(words.atAll, { condition: name });
}

/** Of what an answer is a yes or a no. */
export function ofWhat(words: Words, audit: Audit): string {
  const { state, status, task, problem } = audit, kind = task.certificate?.kind;
  if (state !== "done" || problem || (status !== YES && status !== NO)) return "";
  if (kind === "prices") return status === YES ? words.ofPricesYes : words.ofPricesNo;
  if (kind === "violation") return status === YES ? words.ofViolationYes : words.ofViolationNo;
  if (kind === "refutation") return status === YES ? words.ofRefutationYes : words.ofRefutationNo;
  return isShortAudit(audit) ? headOf(words, audit) : "";
}

/** What a yes to prices says of groups, and what it leaves open. */
export function groupsIn(words: Words, { groups }: Audit): string {
  if (!groups) return "";
  if (groups === "little") return words.saysLittle;
  return `${groups === "strict" ? words.groupsBelowReach : words.groupsWithinReach} ${words.notSaidDeserved}`;
}

/** What the answer says of a certificate, in a sentence: that alone which its page begins with, where this stands below. */
function answerIn({ words }: Page, { task, mode, said, refused }: Audit, isBelow: boolean): string {
  const kind = task.certificate?.kind;
  if (refused) return `${fill(words.refused, { file: toldName(refused.file) })} `;
  if (!said || said.says === "refused" || said.says === "read") return "";
  if (kind !== "prices" && kind !== "violation" && kind !== "refutation") return "";
  const answer = words[headlineOf(kind, said, mode?.stable ?? false)];
  if (isBelow) return answer;
  return said.says === "failed" ? `${fill(words.notMet, { answer, condition: failureIn(words, said) })} ` : `${answer}. `;
}

/**
 * The sentence beside the badge: the answer's, or what is missing. Before it stands of what the answer is, and behind it what
 * the program prints or the browser says; alone it has neither.
 */
export function sentenceOf(page: Page, audit: Audit, isAlone = false): HTMLElement {
  const { words } = page, { task, line, problem } = audit, { election } = task;
  if (problem) return make("span", {}, ...isAlone ? [problemSentence(words, problem)] : problemText(words, problem));
  if (!election) {
    return make("span", { class: "soft" }, page.hasElections() ? words.asksElection : words.wantsElection);
  }
  if (task.asks === "outcome") return make("span", { class: "soft" }, words.asksOutcome);
  if (isRead(audit)) {
    return make("span", {}, readLine(page, audit), make("span", { class: "soft" }, ` ${words.needsOutcome}`));
  }
  const isBelow = audit.page !== undefined && page.audits.length < 2, what = isAlone ? "" : ofWhat(words, audit);
  // The page of the only answer has the line.
  const printed = line && !isBelow && !isAlone ? [make("code", { lang: "en" }, shownLine(line))] : [];
  const head = what ? [make("strong", { class: "of" }, what), ". "] : [];
  if (isShortAudit(audit)) {
    return make("span", {}, ...head, `${shortSentence(page, audit)} `, make("span", { class: "soft" }, readLine(page, audit)));
  }
  return make("span", {}, ...head, answerIn(page, audit, isBelow), ...printed);
}

/** What is read out of an audit. */
export function saidOf(page: Page, audit: Audit): string {
  const { words } = page, badge = audit.state === "incomplete" ? null : badgeOf(words, audit).textContent;
  const notes = (audit.notes ?? []).map(note => noteLine(page, note));
  const told = [badge, sentenceOf(page, audit).textContent?.trim(), groupsIn(words, audit), ...notes];
  return fill(words.said, { file: toldName(fileOf(audit).name), answer: told.filter(Boolean).join(". ") });
}

export function problemSentence(words: Words, { why, file = "" }: Problem): string {
  const name = { file: toldName(file) };
  return {
    memory: words.outOfMemory, unreadable: fill(words.unreadable, name), trap: words.trap, engine: words.broken,
    tooLong: fill(words.tooLong, { ...name, count: grouped(LONGEST_FILE) }),
  }[why];
}

/** Why there is no answer, with what the browser says of it. */
export function problemText(words: Words, problem: Problem): (string | Node)[] {
  const detail = problem.detail ? [" ", make("code", { lang: "en" }, shownLine(problem.detail))] : [];
  return [problemSentence(words, problem), ...detail];
}
