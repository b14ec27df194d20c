/* Payments as whole numerators over one denominator. Each funded project is paid for exactly, and C2, C5 or S5, and
   Cover hold exactly, or there are none: all sums are whole numbers below 2^53, which a number has exactly. */

import { MILLION } from "../elections/amounts.js";
import { sumsOf } from "./cohorts.js";
import { votersIn } from "./decided_election.js";
import type { Need, Problem, Shares } from "./shares.js";

/** What the voters of each cohort pay together, beside the payers; and the budget of a voter. */
export interface Whole {
  readonly denominator: number;
  readonly budget: number;
  readonly numerators: Float64Array;
}

/** The numerator of an amount, rounded down. */
const numeratorOf = (millionths: bigint, denominator: number): bigint => millionths * BigInt(denominator) / MILLION;

/**
 * Shares the cost of a project as its payers pay: what all up to each of them pay together is rounded down, so that
 * each pays less than one numerator more or less than before, and together they pay the cost.
 */
function shareCost(problem: Problem, shares: Shares, place: number, cost: number, numerators: Float64Array): void {
  const { payers, paid } = shares, { sizes } = problem.cohorts;
  const start = payers.starts[place], end = payers.starts[place + 1];
  let all = 0, sum = 0, before = 0;
  for (let at = start; at < end; at++) all += paid[at] * sizes[payers.cohorts[at]];
  for (let at = start; at < end; at++) {
    sum += paid[at] * sizes[payers.cohorts[at]];
    const upTo = Math.floor(cost * (sum / all));
    numerators[at] = upTo - before;
    before = upTo;
  }
}

/** What the voters of each cohort spend together. */
function spentBy(shares: Shares, numerators: Float64Array): Float64Array {
  const spent = new Float64Array(shares.spent.length);
  shares.payers.cohorts.forEach((cohort, at) => { spent[cohort] += numerators[at]; });
  return spent;
}

/** The least budget of a voter by which C2 holds, and Cover where that is needed. */
function leastBudget({ decided, cohorts: { sizes } }: Problem, spent: Float64Array, denominator: number,
    cover: boolean): number {
  let least = 0;
  spent.forEach((sum, cohort) => { least = Math.max(least, Math.ceil(sum / sizes[cohort])); });
  if (!cover) return least;
  const share = decided.limit * BigInt(denominator) / (MILLION * BigInt(votersIn(decided)));
  return Math.max(least, Number(share) + 1);
}

/** What the voters of each cohort offer together at most: in the stable form, one may pay or have left one more. */
function offersOf({ cohorts: { sizes } }: Problem, shares: Shares, { budget, numerators }: Whole, spent: Float64Array,
    stable: boolean): Float64Array {
  const offers = spent.map((sum, cohort) => sizes[cohort] * budget - sum);
  if (!stable) return offers;
  const raise = (cohort: number, amount: number): void => {
    offers[cohort] = Math.max(offers[cohort], sizes[cohort] * Math.ceil(amount / sizes[cohort]));
  };
  offers.forEach((offer, cohort) => raise(cohort, offer));
  shares.payers.cohorts.forEach((cohort, at) => raise(cohort, numerators[at]));
  return offers;
}

/** Whether what the supporters of each unfunded project offer is no more than it costs. */
function isKept({ decided, cohorts, unfunded }: Problem, denominator: number, offers: Float64Array): boolean {
  const sums = sumsOf(cohorts, cohort => offers[cohort], decided.ids.length);
  return unfunded.every(project => BigInt(sums[project]) <= numeratorOf(decided.costs[project], denominator));
}

/** Payments over a denominator by which what is funded costs whole numbers; undefined where a
    condition isn't kept. */
export function wholeBy(problem: Problem, shares: Shares, denominator: number, need: Need): Whole | undefined {
  const { decided, funded } = problem, numerators = new Float64Array(shares.paid.length);
  const costs = funded.map(project => numeratorOf(decided.costs[project], denominator));
  if (costs.some(cost => cost > BigInt(Number.MAX_SAFE_INTEGER))) return undefined;
  costs.forEach((cost, place) => shareCost(problem, shares, place, Number(cost), numerators));
  const spent = spentBy(shares, numerators), budget = leastBudget(problem, spent, denominator, need.cover);
  // No sum is more than twice what all voters have.
  if (2 * budget * votersIn(decided) > Number.MAX_SAFE_INTEGER) return undefined;
  const whole = { denominator, budget, numerators };
  return isKept(problem, denominator, offersOf(problem, shares, whole, spent, need.stable)) ? whole : undefined;
}
