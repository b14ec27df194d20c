/* What the package answers: the program's text and status, and what it says as facts. */

import { electionOf } from "../auditor/elections.js";
import { lineOf, readLineOf, refusedLineOf, verdictOf } from "../auditor/says.js";
import { headlineOf, HEADLINES } from "../words/headlines.js";
import type { Measure } from "../auditor/commands.js";
import type { Note } from "../auditor/elections.js";
import type { BothObject, OnGroups, ReadObject, RefusalObject, VerdictObject } from "../auditor/objects.js";
import type { Hint } from "../auditor/replies.js";
import type { Line } from "../auditor/says.js";

/** What the program prints, and the status that it ends with. */
interface Said {
  readonly text: string;
}

/** A file that is refused: which, why, and where. The hint's sentences are for people and may change. */
export interface Refused extends Said {
  readonly status: 2;
  readonly answer: "refused";
  readonly input: "election" | "outcome" | "certificate" | "prices" | "violation" | "folder";
  readonly number: number;
  readonly name: string;
  readonly record: number;
  /** The line of the file on which the record begins, as an editor counts. */
  readonly line?: number;
  readonly hint: readonly string[];
  readonly saysOfGroups: null;
}

/**
 * The certificate shows what it claims, or no group of voters falls short. `form` is that of prices; `stable` and `cover`
 * say of a refutation that it is about stable prices, and about prices that satisfy condition Cover; `measure` is that of
 * groups. `saysOfGroups` is what a yes to prices says of groups of voters, and null where the question isn't one of
 * prices. `notes` are lines of the program beside the answer.
 */
export interface Yes extends Said {
  readonly status: 0;
  readonly answer: "yes";
  readonly form?: "priceable" | "stable";
  readonly stable?: boolean;
  readonly cover?: boolean;
  readonly measure?: Measure;
  readonly saysOfGroups: OnGroups | null;
  readonly notes: readonly string[];
}

/**
 * The first condition or test that is false, and the voter and the project at which it is. Where a group of voters falls
 * short, that is `EJR+`, with the measure, and how many voters the largest such group for the project has.
 */
export interface No extends Said {
  readonly status: 1;
  readonly answer: "no";
  readonly condition: string;
  readonly measure?: Measure;
  readonly voters?: number;
  readonly voter?: number;
  readonly project?: string;
  readonly saysOfGroups: null;
  readonly notes: readonly string[];
}

export type Verdict = Yes | No | Refused;

/** An election that was read. `remarks` say what the notes below its line say. */
export interface Reading extends Said {
  readonly status: 0;
  readonly answer: "read";
  readonly voters: number;
  readonly projects: number;
  /** How many projects are funded, if the election says it. */
  readonly funded?: number;
  readonly notes: readonly string[];
  readonly remarks: readonly Note[];
}

/**
 * A verdict on prices and one on a violation, for one outcome, each with its line as text. The program tells no notes on the
 * election here. That a yes to the prices says little is in their `notes`.
 */
export interface Both extends Said {
  readonly status: 0 | 1;
  readonly answer: "yes" | "no";
  readonly prices: Yes | No;
  readonly violation: Yes | No;
}

/** A table, or a certificate in its canonical form. */
export interface Written extends Said {
  readonly status: 0;
  readonly answer: "written";
}

/** A page in plain words, and the sentence at its head. */
export interface Page extends Said {
  readonly status: 0 | 1;
  readonly answer: "yes" | "no";
  readonly sentence: string;
  readonly saysOfGroups: OnGroups | null;
}

/** The report on a folder, and what it says of each file, by its name and in its order. */
export interface Report extends Said {
  readonly status: 0 | 1 | 2;
  readonly answer: "report";
  readonly files: readonly Reported[];
}

export interface Reported {
  readonly file: string;
  readonly says: Line;
}

/** A yes or a no, with the text that says it. */
export function verdictIn(object: VerdictObject, text: string, notes: readonly string[]): Yes | No {
  const said = verdictOf(object);
  if (said.says === "failed") {
    const { says: _, ...facts } = said;
    return { status: 1, answer: "no", ...facts, saysOfGroups: null, notes, text };
  }
  const { says: _, ...facts } = said;
  return { status: 0, answer: "yes", ...facts, saysOfGroups: onGroups(object), notes, text };
}

const onGroups = (object: VerdictObject): OnGroups | null => object.kind === "prices" ? object.groups : null;

export function readingIn(object: ReadObject, text: string, notes: readonly string[]): Reading {
  const { says: _, ...facts } = readLineOf(object);
  return { status: 0, answer: "read", ...facts, notes, remarks: electionOf(object.election).notes, text };
}

/** The only note that comes with `both` is that on a yes to the prices, which is theirs. */
export function bothIn({ answer, prices, violation }: BothObject, text: string, notes: readonly string[]): Both {
  const one = (object: VerdictObject, its: readonly string[]): Yes | No =>
    verdictIn(object, `${lineOf(verdictOf(object))}\n`, its);
  return { ...yesOrNo(answer), prices: one(prices, notes), violation: one(violation, []), text };
}

export function pageIn(object: VerdictObject, text: string, language: keyof typeof HEADLINES): Page {
  const headline = headlineOf(object.kind, verdictOf(object), object.kind === "refutation" && object.stable);
  return { ...yesOrNo(object.answer), sentence: HEADLINES[language][headline], saysOfGroups: onGroups(object), text };
}

const yesOrNo = (answer: "yes" | "no"): { status: 0 | 1; answer: "yes" | "no" } =>
  ({ status: answer === "yes" ? 0 : 1, answer });

export function refusalIn(refusal: RefusalObject, text: string, hint: Hint | null): Refused {
  const { says: _, ...facts } = refusedLineOf(refusal), line = hint?.line ?? null;
  return {
    status: 2, answer: "refused", ...facts, input: refusal.input, ...line === null ? {} : { line },
    hint: hint?.sentences ?? [], saysOfGroups: null, text,
  };
}
