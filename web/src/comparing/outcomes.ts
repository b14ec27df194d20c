/* The outcomes of an election that are compared: the one that was asked about, most votes first, and Equal Shares by cost and
   by number of projects. None of this is proved. */

import { MILLION } from "../elections/amounts.js";
import { fieldOf } from "../finding/certificates.js";
import { costOf, placesWhere } from "../finding/decided_election.js";
import { gotOf } from "./got.js";
import { byVotes } from "./rule.js";
import { equalShares } from "./shares.js";
import type { Measure } from "../finding/groups.js";
import type { Spread } from "./got.js";
import type { Electorate } from "./rule.js";
import type { Completion } from "./shares.js";

/** Whose outcome it is: the one that was asked about, that of most votes first, or of Equal Shares by a measure. */
export type RuleName = "own" | "votes" | Measure;

/** Which rule is computed now, and for how many budgets it was gone through. */
export interface OutcomesStep {
  readonly rule: Measure;
  readonly run: number;
}

/** How many voters got what, by cost: in each range of equal width, the last of which has its end too. */
export interface ShownSpread {
  readonly least: bigint;
  readonly middle: bigint;
  readonly voters: readonly number[];
}

export interface RuleOutcome {
  readonly rule: RuleName;
  /** Places of projects, rising. */
  readonly funded: readonly number[];
  readonly cost: bigint;
  readonly got: ShownSpread;
}

export interface Outcomes {
  readonly outcomes: readonly RuleOutcome[];
  /** The width of a range of what voters got, in millionths. */
  readonly width: bigint;
}

const MOST_RANGES = 6n;

/** The least of 1, 2, 5, 10, 20 and so on of which a few reach an amount; where that is nothing, 1 in the currency. */
export function widthFor(most: bigint): bigint {
  if (most === 0n) return MILLION;
  for (let ten = 1n; ; ten *= 10n) {
    const width = [1n, 2n, 5n].map(digit => digit * ten).find(each => each * MOST_RANGES >= most);
    if (width !== undefined) return width;
  }
}

/** The number of ranges that reach an amount. */
export const rangesFor = (most: bigint, width: bigint): number => Number((most + width - 1n) / width) || 1;

export function shownSpread({ all, least, middle }: Spread, width: bigint, ranges: number): ShownSpread {
  const voters = new Array<number>(ranges).fill(0);
  for (const got of all) voters[Math.min(ranges - 1, Number(got.amount / width))] += got.voters;
  return { least, middle, voters };
}

export function* outcomesOf(electorate: Electorate, completion: Completion): Generator<OutcomesStep, Outcomes> {
  const { decided } = electorate, funded: [RuleName, readonly number[]][] = [
    ["own", placesWhere(decided, place => decided.isFunded[place])], ["votes", byVotes(electorate)],
  ];
  for (const rule of ["cost", "count"] as const) {
    const steps = equalShares(electorate, rule, completion);
    let next = steps.next();
    for (; !next.done; next = steps.next()) yield { rule, run: next.value.run };
    funded.push([rule, next.value.funded]);
  }
  const spreads = funded.map(([, projects]) => gotOf(electorate, projects).cost);
  const most = spreads.reduce((largest, spread) => spread.most > largest ? spread.most : largest, 0n);
  const width = widthFor(most), ranges = rangesFor(most, width);
  const outcomes = funded.map(([rule, projects], at): RuleOutcome => ({
    rule, funded: [...projects].sort((one, other) => one - other), cost: costOf(decided, projects),
    got: shownSpread(spreads[at], width, ranges),
  }));
  return { outcomes, width };
}

/** The text of an outcome file. */
export const outcomeText = (ids: readonly string[], funded: readonly number[]): string =>
  ["pb-outcome,1", ...funded.map(project => `project,${fieldOf(ids[project])}`)].map(line => `${line}\n`).join("");
