/* The library's JSON objects (docs/JSON.md), as far as they are read here. Amounts are texts there, since a number doesn't
   hold them. */

import type { Measure } from "./commands.js";
import type { Mode } from "./statuses.js";

/** What an input is called that is refused. Those before the last are of `both`. */
export type InputName = "election" | "outcome" | "certificate" | "prices" | "violation" | "folder";

/** What a yes to prices says of groups of voters (docs/WEB.md, For JavaScript). */
export type OnGroups = "little" | "weak" | "strict";

/** The object `election`. What a file declares is made a text, since it may be more than a number holds. */
export interface ElectionObject {
  readonly limit: string;
  readonly projects: number;
  readonly voters: number;
  readonly funded: number | null;
  readonly declared_projects: string | null;
  readonly declared_voters: string | null;
  readonly other_selected: number;
  readonly unused_columns: readonly ("weight" | "points" | "sign")[];
}

/** The first condition or test that is false, and where. */
export interface FailedObject {
  readonly name: string;
  readonly voter: number | null;
  readonly project: string | null;
}

interface Verdict<Kind extends string> {
  readonly kind: Kind;
  readonly answer: "yes" | "no";
  readonly election: ElectionObject;
  readonly failed: FailedObject | null;
}

export interface ReadObject {
  readonly kind: "election";
  readonly answer: "yes";
  readonly election: ElectionObject;
}

/** The outcome that is asked about: how many projects it funds, and what they cost together. */
export interface OutcomeObject {
  readonly funded: number;
  readonly cost: string;
}

/** A part of the limit, or what is missing of one, over the number of all voters. */
export interface PartObject {
  readonly numerator: string;
  readonly denominator: number;
}

export interface GroupObject {
  readonly project: string;
  readonly number: number;
  readonly cost: string;
  readonly supporters: number;
  readonly voters: number;
  readonly most: string;
  readonly need: string;
  readonly share: PartObject;
  readonly missing: PartObject;
}

export interface GroupsObject extends Verdict<"groups"> {
  readonly measure: Measure;
  readonly group: GroupObject | null;
  readonly outcome: OutcomeObject;
}

export interface PricesObject extends Verdict<"prices"> {
  readonly mode: Mode;
  readonly groups: OnGroups | null;
}

export type ViolationObject = Verdict<"violation">;

export type Proves = "unpriceable" | "unpriceable cover" | "unpriceable stable" | "unpriceable stable cover";

export interface RefutationObject extends Verdict<"refutation"> {
  readonly stable: boolean;
  readonly proves: Proves | null;
}

/** The answer on one certificate, or on an election alone. */
export type VerdictObject = GroupsObject | PricesObject | ViolationObject | RefutationObject;

export interface BothObject {
  readonly kind: "both";
  readonly answer: "yes" | "no";
  readonly prices: PricesObject;
  readonly violation: ViolationObject;
}

/** The figures of a project by a price certificate, in grains. */
export interface ProjectObject {
  readonly project: string;
  readonly number: number;
  readonly funded: boolean;
  readonly supporters: number;
  readonly cost: string;
  readonly paid: string;
  readonly left: string;
  readonly offer: string;
}

interface Table<Kind extends string> {
  readonly kind: Kind;
  readonly answer: "yes";
  readonly version: 1;
  readonly election: ElectionObject;
  readonly outcome: OutcomeObject;
}

/** The table of margins of a price certificate. */
export interface MarginsObject extends Table<"margins"> {
  readonly grains_per_unit: number;
  readonly projects: readonly ProjectObject[];
}

/** The table of margins of groups. */
export interface GroupMarginsObject extends Table<"group_margins"> {
  readonly measure: Measure;
  readonly groups: readonly GroupObject[];
}

/** A file that is refused: which, the number and the name of its error, and the record at which it stands (0: at none). */
export interface RefusalObject {
  readonly kind: "refusal";
  readonly answer: "refused";
  readonly input: InputName;
  readonly name: string;
  readonly number: number;
  readonly record: number;
  readonly version: 1;
}

/** What is said in one line. */
export type LineObject = ReadObject | VerdictObject | RefusalObject;

/** What is found of an election of a folder and of its certificates, which are null where they aren't audited. */
export interface EntryObject {
  readonly kind: "entry";
  readonly name: string;
  readonly election: ReadObject | RefusalObject;
  readonly prices: PricesObject | RefusalObject | null;
  readonly violation: ViolationObject | RefusalObject | null;
}

export type AnswerObject = LineObject | BothObject | MarginsObject | GroupMarginsObject;

/** The number of the refusal for want of an outcome. */
export const NO_OUTCOME = 17;

/** The value of a text of JSON, in which what a file declares is made a text. */
export const objectIn = (text: string): unknown =>
  JSON.parse(text.replace(/"(declared_projects|declared_voters)":(\d+)/g, '"$1":"$2"'));
