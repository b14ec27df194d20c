/* The audits: what is to be done, and what became of it. */

import { weightOf } from "../auditor/groups.js";
import { isSameMode, LONGEST_FILE, NO, REFUSED, USUAL_MODE, YES } from "../auditor/statuses.js";
import type { Command } from "../auditor/commands.js";
import type { Note, ReadElection } from "../auditor/elections.js";
import type { FirstAnswers } from "../auditor/groups.js";
import type { OnGroups } from "../auditor/objects.js";
import type { Line } from "../auditor/says.js";
import type { Mode } from "../auditor/statuses.js";
import type { Piece, Task } from "../files/pieces.js";
import type { Answer, Ending, Files, Nothing, Order, Refused, Sums } from "../worker/orders.js";
import type { NoAnswer, Runners } from "./engine.js";

export type State = "waiting" | "running" | "done" | "stopped" | "incomplete";

export interface Problem {
  readonly why: Nothing["why"] | "tooLong";
  readonly file?: string;
  readonly detail?: string;
}

/** What becomes of the part of an answer that comes after the first. */
export type Remaining = "awaited" | "stopped" | "failed";

/**
 * An audit and how far it is. `mode` is how prices were asked, `line` what the program prints first, `said` what that
 * says of an answer, `notes` what it remarks on the election, `groups` what a yes to prices says of groups; of an
 * election alone `read` is what it has, and `short` whether a group of its voters falls short; `page` is the answer for
 * people, once it was asked for. All that is told is of one look at the files, whose bytes have these sums. Where an
 * answer isn't whole, `remaining` says why.
 */
export interface Audit {
  readonly task: Task;
  readonly state: State;
  readonly mode?: Mode;
  readonly sums?: Sums;
  readonly status?: number;
  readonly line?: string;
  readonly said?: Line;
  readonly notes?: readonly Note[];
  readonly groups?: OnGroups | null;
  readonly read?: ReadElection;
  readonly short?: FirstAnswers;
  readonly page?: string;
  readonly remaining?: Remaining;
  readonly refused?: Refused;
  readonly problem?: Problem;
}

export const newAudit = (task: Task): Audit =>
  ({ task, state: task.election && !task.asks ? "waiting" : "incomplete" });

/** The file that an audit is called by. */
export const fileOf = ({ task }: Audit): File => (task.certificate ?? task.election)!.file;

/** Which answers are bad news: a No to prices, a violation or a refutation that was shown, a group that falls short. */
export const isBad = ({ task, status, problem, short }: Audit): boolean => {
  if (problem || status === undefined) return false;
  if (!task.certificate) return short !== undefined && status === NO;
  return task.certificate.kind === "prices" ? status === NO : status === YES;
};

/**
 * The elections of a list by how near they are to having a group that falls short, or by how large a part of the voters
 * falls short. Those without a group come last.
 */
function nearer({ short: one }: Audit, { short: other }: Audit): number {
  const [a, b] = [one?.cost, other?.cost], [first, second] = [a && weightOf(a), b && weightOf(b)];
  if (!first || !second) return Number(!first) - Number(!second);
  return Number(second.numerator * first.denominator - first.numerator * second.denominator);
}

/** The audits as they are listed: bad news, refusals and what has no answer come first. */
export function inOrder(audits: readonly Audit[]): Audit[] {
  const rank = (audit: Audit): number => {
    if (audit.state === "waiting" || audit.state === "running") return 3;
    return isBad(audit) ? 0 : audit.status === REFUSED || audit.problem ? 1 : audit.state === "done" ? 3 : 2;
  };
  const isAlone = audits.every(({ task }) => !task.certificate);
  return [...audits].sort((a, b) => rank(a) - rank(b) || (isAlone ? nearer(a, b) : 0));
}

/** An election that has no certificate and was read, and doesn't say which projects are funded. */
export const isRead = ({ task, state, status, short }: Audit): boolean =>
  !task.certificate && state === "done" && status === YES && !short;

/** A file of the task that is longer than any that is read. */
export const tooLong = ({ election, certificate, outcome }: Task): Piece | undefined =>
  [election, certificate, outcome].find(piece => piece && piece.file.size > LONGEST_FILE) ?? undefined;

const filesOf = ({ election, outcome, certificate }: Task): Files =>
  ({ election: election!.file, outcome: outcome?.file ?? null, certificate: certificate?.file ?? null });

/** The order that does a task. `next` is the task that comes after it. */
export function orderOf(task: Task, command: Command, mode: Mode, language: string, next?: Task): Order {
  const ahead = next?.election ? { ahead: filesOf(next) } : {};
  return { command, mode, language, files: filesOf(task), ...ahead };
}

const WARMING_ROUNDS = 100;

/**
 * Has the browser compile well what it compiles quickly at first: what was run often. So a first large audit takes four
 * fifths of the time.
 */
export const warm = (runners: Runners, task: Task): Promise<unknown> =>
  runners.run({ ...orderOf(task, "page", USUAL_MODE, "en"), rounds: WARMING_ROUNDS });

/** Whether two looks at an election, and at an outcome file where both were at one, saw the same bytes. */
export const isSameLook = (one: Sums = [], other: Sums = []): boolean =>
  [0, 1].every(at => !one[at] || !other[at] || one[at] === other[at]);

/** What an answer says. */
function foundBy(command: Command, { text, line, said, notes, groups, read, short }: Answer): Partial<Audit> {
  const page = command === "page" && text ? { page: new TextDecoder().decode(text) } : {};
  const its = line === undefined ? {} : { line, said, notes, groups };
  return { ...page, ...its, ...read ? { read, short } : {} };
}

/** That an answer isn't whole, since it was stopped, or since there is none to the rest. */
const withoutRest = (audit: Audit, told: NoAnswer | undefined): Audit =>
  ({ ...audit, remaining: told ? "failed" : "stopped" });

/**
 * The audit with what was told of it. What was told before is kept if it was of the same bytes, asked in the same way.
 */
export function answered(now: Audit, told: Ending | NoAnswer | undefined, command: Command, before: Audit): Audit {
  const { task, mode } = now;
  if (now.remaining && (!told || told.tells === "nothing")) return withoutRest(now, told);
  if (!told) return { task, state: "stopped" };
  if (told.tells === "refused") {
    return { task, mode, state: "done", status: REFUSED, line: told.text, refused: told, sums: told.sums };
  }
  if (told.tells === "nothing") return { task, mode, state: "done", problem: told };
  if (told.tells !== "answer") throw new Error(`an audit is told ${told.tells}`);
  const { status, sums } = told;
  const isSame = `${before.sums}` === `${sums}` && isSameMode(before.mode, mode);
  const kept = isSame ? { line: before.line, said: before.said, notes: before.notes, groups: before.groups } : {};
  return { task, mode, state: "done", status, sums, ...kept, ...foundBy(command, told) };
}
