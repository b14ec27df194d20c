/* Groups of voters who all approve some projects: what they could demand, and what they get. */

import { costOf, votersIn } from "./decided_election.js";
import type { Demand, Weight } from "./certificates.js";
import type { DecidedElection } from "./decided_election.js";

/** How what a voter gets is counted: funded projects on the ballot, or what these cost. */
export type Measure = "count" | "cost";

export const MEASURES: readonly Measure[] = ["count", "cost"];

/** What a group can claim by one measure. Amounts are millionths, and a count of projects is a number of them. */
export interface Claim {
  /** Those who approve all of the demand and get less than it is worth, counted from 0. */
  readonly voters: Uint32Array;
  /** Their share of the limit, rounded down. */
  readonly share: bigint;
  /** The least and the most that one of them gets; 0 where there are none. */
  readonly least: bigint;
  readonly most: bigint;
  readonly isViolation: boolean;
}

/** What is to be seen of some projects. */
export interface Figures {
  readonly projects: readonly number[];
  readonly cost: bigint;
  /** How many voters approve all of them, and their share of the limit, rounded down. */
  readonly approving: number;
  readonly share: bigint;
  readonly claims: Readonly<Record<Measure, Claim>>;
}

/** The voters who approve all of these projects. */
function approvingAll({ ballots: { starts, places }, ids }: DecidedElection, projects: readonly number[]): Uint32Array {
  const isWanted = new Uint8Array(ids.length), voters: number[] = [];
  for (const project of projects) isWanted[project] = 1;
  for (let voter = 0; voter + 1 < starts.length; voter++) {
    let found = 0;
    for (let at = starts[voter]; at < starts[voter + 1]; at++) found += isWanted[places[at]];
    if (found === projects.length) voters.push(voter);
  }
  return Uint32Array.from(voters);
}

/** What a project is worth to one who approves it, if it is funded. */
const worthOf = (decided: DecidedElection, measure: Measure, project: number): bigint =>
  measure === "count" ? 1n : decided.costs[project];

function gotBy(decided: DecidedElection, measure: Measure, voter: number): bigint {
  const { starts, places } = decided.ballots;
  let got = 0n;
  for (let at = starts[voter]; at < starts[voter + 1]; at++) {
    if (decided.isFunded[places[at]]) got += worthOf(decided, measure, places[at]);
  }
  return got;
}

/** What so many voters have of the limit, rounded down. */
const shareOf = (decided: DecidedElection, voters: number): bigint =>
  votersIn(decided) ? decided.limit * BigInt(voters) / BigInt(votersIn(decided)) : 0n;

/** Whether the share of so many voters covers a cost, exactly. */
export const covers = (decided: DecidedElection, voters: number, cost: bigint): boolean =>
  decided.limit * BigInt(voters) >= cost * BigInt(votersIn(decided));

function claimOf(decided: DecidedElection, measure: Measure, projects: readonly number[], approving: Uint32Array): Claim {
  const worth = projects.reduce((sum, project) => sum + worthOf(decided, measure, project), 0n), voters: number[] = [];
  let least = worth, most = 0n;
  for (const voter of approving) {
    const got = gotBy(decided, measure, voter);
    if (got >= worth) continue;
    voters.push(voter);
    if (got < least) least = got;
    if (got > most) most = got;
  }
  return {
    voters: Uint32Array.from(voters), share: shareOf(decided, voters.length), least: voters.length ? least : 0n, most,
    isViolation: voters.length > 0 && covers(decided, voters.length, costOf(decided, projects)),
  };
}

/** The figures of some projects, each once. */
export function figuresOf(decided: DecidedElection, projects: readonly number[]): Figures {
  const approving = projects.length ? approvingAll(decided, projects) : new Uint32Array();
  return {
    projects, cost: costOf(decided, projects), approving: approving.length, share: shareOf(decided, approving.length),
    claims: {
      count: claimOf(decided, "count", projects, approving), cost: claimOf(decided, "cost", projects, approving),
    },
  };
}

/** The voters whose claim is made: those who get less than some projects are worth, or where there are none, all who
    approve these. */
export function claimantsOf(decided: DecidedElection, measure: Measure, projects: readonly number[]): Uint32Array {
  const { voters } = figuresOf(decided, projects).claims[measure];
  return voters.length ? voters : approvingAll(decided, projects);
}

/** The funded projects that some voter of a group approves. */
function reachOf({ ballots: { starts, places }, isFunded }: DecidedElection, voters: Uint32Array): number[] {
  const reached = new Set<number>();
  for (const voter of voters) {
    for (let at = starts[voter]; at < starts[voter + 1]; at++) {
      if (isFunded[places[at]]) reached.add(places[at]);
    }
  }
  return [...reached].sort((one, other) => one - other);
}

/** Weights by which no prices support the outcome, or with a weight of Cover none with budgets above the limit. */
export interface Refutation {
  readonly cover: number;
  readonly weights: readonly Weight[];
}

/**
 * The refutation that a group gives whose share was enough: it covers an unfunded project that all of it approve,
 * and all that was funded for any of them, together. Undefined where the group isn't so.
 */
export function refutationOf(decided: DecidedElection, { voters, projects }: Demand): Refutation | undefined {
  const reach = reachOf(decided, voters), reached = costOf(decided, reach), members = voters.length;
  const project = projects.find(each => !decided.isFunded[each] && covers(decided, members, decided.costs[each] + reached));
  if (project === undefined || !members) return undefined;
  const weight = votersIn(decided), bought: Weight[] = reach.map(each => ({ role: "most", project: each, weight }));
  return { cover: members, weights: [{ role: "left", project, weight }, ...bought] };
}

/** The refutation of all prices where nobody approves a funded project that costs something: nobody may pay for it. */
export const unpaidRefutation = (project: number): Refutation =>
  ({ cover: 0, weights: [{ role: "least", project, weight: 1 }] });

/** Whether the outcome costs more than the limit, and the first unfunded project that could be added within it. */
export function roomOf(decided: DecidedElection): { isFeasible: boolean; addable: number | undefined } {
  const funded = decided.costs.reduce((sum, cost, at) => decided.isFunded[at] ? sum + cost : sum, 0n);
  const at = decided.costs.findIndex((cost, place) => !decided.isFunded[place] && funded + cost <= decided.limit);
  return { isFeasible: funded <= decided.limit, addable: at < 0 ? undefined : at };
}
