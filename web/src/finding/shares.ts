/* What cohorts of voters pay, in floats: what a search for prices comes to before it is made exact. */

import { sumsOf } from "./cohorts.js";
import { placesWhere, votersIn } from "./decided_election.js";
import type { Cohorts } from "./cohorts.js";
import type { DecidedElection } from "./decided_election.js";

/** How often the greatest budget of the stable form is looked for by halving. */
const HALVINGS = 60;

/** Which prices are looked for. */
export interface Need {
  readonly stable: boolean;
  readonly cover: boolean;
}

/**
 * An election with its outcome for a search: what projects cost in a unit by which a voter's share of the limit is 1
 * (where the limit is 0, in the currency), the funded projects that cost something, and the unfunded ones that somebody
 * approves.
 */
export interface Problem {
  readonly decided: DecidedElection;
  readonly cohorts: Cohorts;
  readonly costs: Float64Array;
  /** A voter's share of the limit. */
  readonly share: number;
  readonly funded: readonly number[];
  readonly unfunded: readonly number[];
  readonly supporters: Float64Array;
}

export function problemOf(decided: DecidedElection, cohorts: Cohorts): Problem {
  const unit = votersIn(decided) && decided.limit ? Number(decided.limit) / votersIn(decided) : 1e6;
  const supporters = sumsOf(cohorts, cohort => cohorts.sizes[cohort], decided.ids.length);
  return {
    decided, cohorts, share: decided.limit ? 1 : 0, supporters,
    costs: Float64Array.from(decided.costs, cost => Number(cost) / unit),
    funded: placesWhere(decided, at => decided.isFunded[at] && decided.costs[at] > 0n),
    unfunded: placesWhere(decided, at => !decided.isFunded[at] && supporters[at] > 0),
  };
}

/** A funded project that costs something and that nobody approves. */
export const unpaid = ({ funded, supporters }: Problem): number | undefined =>
  funded.find(project => !supporters[project]);

/** Which of some projects each cohort approves, by their places among these: those of a cohort from starts[cohort] on. */
export interface Approvals {
  readonly starts: Uint32Array;
  readonly places: Uint16Array;
}

/** What some cohorts approve of some projects, whose places are counted from one on. */
export function approvalsOf({ decided, cohorts: { first, ballots } }: Problem, projects: readonly number[],
    members: Uint32Array, from = 0): Approvals {
  const placeOf = new Int32Array(decided.ids.length).fill(-1), starts = new Uint32Array(members.length + 1);
  projects.forEach((project, place) => { placeOf[project] = from + place; });
  const found = new Uint16Array(ballots.places.length);
  let end = 0;
  members.forEach((cohort, number) => {
    const voter = first[cohort];
    for (let at = ballots.starts[voter]; at < ballots.starts[voter + 1]; at++) {
      const place = placeOf[ballots.places[at]];
      if (place >= 0) found[end++] = place;
    }
    starts[number + 1] = end;
  });
  return { starts, places: found.slice(0, end) };
}

/** The payers of each funded project, one after the other: those of the project at place k from starts[k] on. */
export interface Payers {
  readonly starts: Uint32Array;
  readonly cohorts: Uint32Array;
}

export const everyCohort = ({ cohorts: { sizes } }: Problem): Uint32Array => Uint32Array.from(sizes.keys());

/** All supporters of the funded projects. */
export function payersOf(problem: Problem): Payers {
  const { starts: from, places } = approvalsOf(problem, problem.funded, everyCohort(problem));
  const starts = new Uint32Array(problem.funded.length + 1), found = new Uint32Array(places.length);
  for (const place of places) starts[place + 1]++;
  for (let place = 0; place < problem.funded.length; place++) starts[place + 1] += starts[place];
  const ends = starts.slice();
  for (let cohort = 0; cohort + 1 < from.length; cohort++) {
    for (let at = from[cohort]; at < from[cohort + 1]; at++) found[ends[places[at]]++] = cohort;
  }
  return { starts, cohorts: found };
}

/** What a voter of each cohort pays, beside the payers; and what it spends. */
export interface Shares {
  readonly payers: Payers;
  readonly paid: Float64Array;
  readonly spent: Float64Array;
}

export const largest = (numbers: Iterable<number>, least: number): number => {
  let most = least;
  for (const number of numbers) most = Math.max(most, number);
  return most;
};

/** By how much more the supporters of each unfunded project have left together, or can offer, than it costs. */
export function excesses({ cohorts, costs, unfunded, decided }: Problem, { spent }: Shares, budget: number,
    dearest: Float64Array | undefined): number[] {
  const offer = (cohort: number): number => Math.max(budget - spent[cohort], dearest ? dearest[cohort] : -Infinity);
  const sums = sumsOf(cohorts, cohort => cohorts.sizes[cohort] * offer(cohort), decided.ids.length);
  return unfunded.map(project => sums[project] - costs[project]);
}

/** The largest payment of a voter of each cohort. */
function dearestOf({ payers, paid, spent }: Shares): Float64Array {
  const most = new Float64Array(spent.length);
  payers.cohorts.forEach((cohort, at) => { most[cohort] = Math.max(most[cohort], paid[at]); });
  return most;
}

/**
 * The least and the greatest budget of a voter by which the payments keep C2, and C5 or S5. The least may be the
 * greater one.
 */
export function budgetsOf(problem: Problem, shares: Shares, stable: boolean): [number, number] {
  const least = largest(shares.spent, 0), { unfunded, supporters } = problem;
  if (!unfunded.length) return [least, Infinity];
  if (stable) return [least, greatestStable(problem, shares, least)];
  const room = excesses(problem, shares, least, undefined).map((over, at) => over / supporters[unfunded[at]]);
  return [least, least - largest(room, -Infinity)];
}

/** The greatest budget that keeps S5; less than the least where that doesn't. */
function greatestStable(problem: Problem, shares: Shares, least: number): number {
  const dearest = dearestOf(shares);
  const over = (budget: number): number => largest(excesses(problem, shares, budget, dearest), -Infinity);
  if (over(least) > 0) return least - over(least);
  let low = least, high = 2 * least + largest(problem.costs, 0) + 1;
  for (let turn = 0; turn < HALVINGS; turn++) {
    const middle = (low + high) / 2;
    if (over(middle) > 0) high = middle;
    else low = middle;
  }
  return low;
}
