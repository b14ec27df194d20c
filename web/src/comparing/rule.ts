/* An election as rules that choose projects need it, with equal ballots together. Amounts are millionths. */

import { votersOf } from "../elections/ballots.js";
import { costOf } from "../finding/decided_election.js";
import type { Cohorts } from "../finding/cohorts.js";
import type { DecidedElection } from "../finding/decided_election.js";
import type { Measure } from "../finding/groups.js";

/** What a project is worth to each who approves it: what it costs, or the same as any other. */
export const worthOf = (measure: Measure, cost: bigint): bigint => measure === "cost" ? cost : 1n;

export class Electorate {
  readonly voters: number;
  /** For each project the cohorts that approve it, and how many voters these have. */
  readonly supporters: readonly (readonly number[])[];
  readonly votes: readonly number[];

  constructor(readonly decided: DecidedElection, readonly cohorts: Cohorts) {
    const supporters: number[][] = decided.ids.map(() => []), votes = new Array<number>(decided.ids.length).fill(0);
    const { first, sizes, ballots: { starts, places } } = cohorts;
    first.forEach((voter, cohort) => {
      for (let at = starts[voter]; at < starts[voter + 1]; at++) {
        supporters[places[at]].push(cohort);
        votes[places[at]] += sizes[cohort];
      }
    });
    this.voters = votersOf(cohorts.ballots);
    this.supporters = supporters;
    this.votes = votes;
  }

  cost(projects: Iterable<number>): bigint {
    return costOf(this.decided, [...projects]);
  }

  /** Whether another project that somebody approves fits within the limit. */
  hasRoom(funded: ReadonlySet<number>): boolean {
    const left = this.decided.limit - this.cost(funded);
    return this.decided.costs.some((cost, project) => cost <= left && !funded.has(project) && this.votes[project] > 0);
  }
}

/**
 * What most votes first would fund: one project after the other, by their votes, where it still fits within the limit. Of
 * those with as many votes, the one that stands first in the election comes first.
 */
export function byVotes({ decided, votes }: Electorate): number[] {
  const order = decided.ids.map((_, project) => project).filter(project => votes[project] > 0)
    .sort((one, other) => votes[other] - votes[one] || one - other);
  let left = decided.limit;
  return order.filter(project => {
    const fits = decided.costs[project] <= left;
    if (fits) left -= decided.costs[project];
    return fits;
  });
}
