/* What the page and the worker that looks for certificates say to each other. */

import type { Outcomes, OutcomesStep } from "../comparing/outcomes.js";
import type { Completion } from "../comparing/shares.js";
import type { Summary } from "../elections/election.js";
import type { Progress } from "../finding/deciding.js";
import type { Measure } from "../finding/groups.js";
import type { Seeks } from "../finding/seeking.js";
import type { Need } from "../finding/shares.js";
import type { Sums } from "./orders.js";

/** Asks to read an election, and the outcome file where that says which projects are funded. It has to be the first. */
export interface ReadOrder {
  readonly asks: "read";
  readonly election: File;
  readonly outcome: File | null;
  /** Sums of their bytes, where they were read before: others are refused. */
  readonly sums?: Sums;
}

/** Asks for the figures of some projects. */
export interface FiguresOrder {
  readonly asks: "figures";
  readonly projects: readonly number[];
}

/** Asks for the certificate of a group that demands these projects, and what can be made of it besides. */
export interface ViolationOrder {
  readonly asks: "violation";
  readonly measure: Measure;
  readonly projects: readonly number[];
}

/** Asks for the outcomes of rules, to be compared. */
export interface OutcomesOrder {
  readonly asks: "outcomes";
  readonly completion: Completion;
}

/** Asks to look for prices, for a refutation, or for a refutation where there are no prices. */
export interface PricesOrder {
  readonly asks: "prices";
  readonly seeks: Seeks;
  readonly need: Need;
}

export type Search = { readonly asks: "groups" } | PricesOrder;

/** Asks to end the search that runs, which tells what it found so far. */
export interface StopOrder {
  readonly asks: "stop";
}

export type FindOrder = ReadOrder | FiguresOrder | ViolationOrder | OutcomesOrder | Search | StopOrder;

/** What a group can claim by one measure, as `Claim` without the voters. */
export interface ShownClaim {
  readonly members: number;
  readonly share: bigint;
  readonly most: bigint;
  readonly isViolation: boolean;
}

export interface ShownFigures {
  readonly tells: "figures";
  readonly projects: readonly number[];
  readonly cost: bigint;
  readonly approving: number;
  readonly share: bigint;
  readonly claims: Readonly<Record<Measure, ShownClaim>>;
}

/** What a search for groups by one measure came to. Without projects nothing was found. */
export interface SearchedGroups {
  readonly measure: Measure;
  readonly projects: readonly number[];
  readonly voters: number;
  readonly tried: number;
  readonly isAll: boolean;
}

export interface FoundGroups {
  readonly tells: "groups";
  readonly isStopped: boolean;
  readonly found: readonly SearchedGroups[];
}

/** What a search for prices and for a refutation came to: with a refutation, whether it is one of these prices alone. */
export type PricesTold =
  | { readonly tells: "prices"; readonly says: "found"; readonly cover: boolean; readonly file: Blob }
  | { readonly tells: "prices"; readonly says: "infeasible" | "none" | "stopped" }
  | { readonly tells: "prices"; readonly says: "unpaid"; readonly project: number; readonly refutation: Blob }
  | { readonly tells: "prices"; readonly says: "refuted"; readonly refutation: Blob } & Need;

export type FindProgress =
  | { readonly tells: "progress"; readonly of: "groups"; readonly measure: Measure; readonly size: number }
  | { readonly tells: "progress"; readonly of: "outcomes" } & OutcomesStep
  | { readonly tells: "progress"; readonly of: "prices" } & Progress;

export type FindTold =
  | {
    readonly tells: "summary"; readonly summary: Summary; readonly isFeasible: boolean;
    readonly addable: number | undefined; readonly sums: Sums;
  }
  | ShownFigures
  | { readonly tells: "violation"; readonly file: Blob; readonly refutation?: Blob }
  | FoundGroups
  | { readonly tells: "outcomes" } & Outcomes
  | { readonly tells: "stopped" }
  | PricesTold
  | FindProgress
  | {
    readonly tells: "failed"; readonly why: "unlike" | "unreadable" | "changed" | "memory" | "trap";
    readonly file?: string;
  };

/** An order, and what is told of it, has a number. */
export interface Numbered<Content> {
  readonly number: number;
  readonly content: Content;
}
