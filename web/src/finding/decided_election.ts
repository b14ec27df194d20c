/* An election with its outcome, as searches take it. */

import { votersOf } from "../elections/ballots.js";
import type { Ballots } from "../elections/ballots.js";
import type { Election } from "../elections/election.js";

/** Projects are places from 0, and amounts millionths. */
export interface DecidedElection {
  readonly ids: readonly string[];
  readonly costs: readonly bigint[];
  readonly isFunded: readonly boolean[];
  readonly limit: bigint;
  readonly ballots: Ballots;
}

export const decidedOf = ({ summary: { projects, limit }, ballots }: Election): DecidedElection => ({
  ids: projects.map(({ id }) => id), costs: projects.map(({ cost }) => cost),
  isFunded: projects.map(({ isFunded }) => isFunded), limit, ballots,
});

export const votersIn = (decided: DecidedElection): number => votersOf(decided.ballots);

/** The places of the projects for which this is so. */
export const placesWhere = (decided: DecidedElection, is: (place: number) => boolean): number[] =>
  decided.ids.map((_, place) => place).filter(is);

export const costOf = (decided: DecidedElection, projects: readonly number[]): bigint =>
  projects.reduce((sum, project) => sum + decided.costs[project], 0n);
