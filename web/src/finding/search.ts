/* The search for violations: sets of demanded projects, smallest first, by branch and bound.

   A group only loses voters, and its demand only gains cost, as projects are added: a set whose supporters' share
   doesn't cover it is in no violation. Voters with equal ballots count together. */

import { commonPart } from "../elections/amounts.js";
import { cohortsOf } from "./cohorts.js";
import { costOf, placesWhere, votersIn } from "./decided_election.js";
import { covers, figuresOf } from "./groups.js";
import type { Cohorts } from "./cohorts.js";
import type { Demand } from "./certificates.js";
import type { DecidedElection } from "./decided_election.js";
import type { Measure } from "./groups.js";

/** Larger sets aren't tried. */
export const MOST_PROJECTS = 6;

/** How many approvals are looked at between two looks at whether to go on. */
const BETWEEN = 100_000;
/** Sums are rounded where they are beyond what a number has exactly: bounds leave that room, and what is found is then
    checked exactly. */
const ROOM = 1e-9;

/** What a search came to: a violation; up to how many projects all sets were tried; and whether there are no others. */
export interface Searched {
  readonly demand: Demand | undefined;
  readonly tried: number;
  readonly isAll: boolean;
}

interface Best {
  readonly over: bigint;
  readonly projects: readonly number[];
}

/** The candidates on the ballot of each cohort, by their ranks. */
interface Ranked {
  readonly starts: Uint32Array;
  readonly ranks: Uint16Array;
}

/** What is known of a set of projects while it grows: who of the cohorts approve all of it, and what it costs. */
interface Grown {
  readonly demand: readonly number[];
  readonly group: Uint32Array;
  readonly cost: number;
  /** The first candidate that may come to it. */
  readonly from: number;
}

/** The cohorts of a group as they are listed, how many voters they have, and what a member has to get less than. */
interface Listed {
  readonly list: Uint32Array;
  end: number;
  members: number;
  readonly most: number;
}

export class Search {
  private size = 0;
  private tried = 0;
  private looked = 0;
  private best: Best | undefined;
  private isAll = false;
  private readonly costs: Float64Array;
  private readonly limit: number;
  private readonly voters: number;
  private readonly candidates: number[];
  private readonly ranked: Ranked;
  /** What a voter of each cohort gets. */
  private readonly got: Float64Array;

  constructor(private readonly decided: DecidedElection, private readonly measure: Measure,
      private readonly cohorts: Cohorts = cohortsOf(decided.ballots)) {
    const part = commonPart([decided.limit, ...decided.costs]);
    this.costs = Float64Array.from(decided.costs, cost => Number(cost / part));
    this.limit = Number(decided.limit / part);
    this.voters = votersIn(decided);
    this.candidates = this.demandable();
    this.ranked = rankedBy(cohorts, this.candidates, decided.ids.length);
    this.got = this.gains();
  }

  /** What was found so far, also where the search was left in the middle. */
  searched(): Searched {
    return { demand: this.best && this.demandOf(this.best.projects), tried: this.tried, isAll: this.isAll };
  }

  /** Searches, and says from time to time how many projects the sets have that are tried. */
  *run(): Generator<number, Searched> {
    const most = this.mostProjects();
    this.isAll = most === 0;
    while (!this.best && !this.isAll && this.tried < MOST_PROJECTS) {
      this.size = this.tried + 1;
      const isAny: boolean = yield* this.extend({ demand: [], group: this.everyone(), cost: 0, from: 0 });
      this.tried = this.size;
      this.isAll = this.size === most || this.measure === "cost" && !isAny;
    }
    return this.searched();
  }

  /** The projects that could be demanded by themselves, unfunded ones first, so that one of these is in each demand. */
  private demandable(): number[] {
    const { decided } = this, { isFunded } = decided, supporters = new Float64Array(decided.ids.length);
    for (const place of decided.ballots.places) supporters[place]++;
    const price = (project: number): number => this.costs[project] / supporters[project];
    const state = (project: number): number => Number(isFunded[project]);
    return placesWhere(decided, at => supporters[at] > 0 && covers(decided, supporters[at], decided.costs[at]))
      .sort((one, other) => state(one) - state(other) || price(one) - price(other) || one - other);
  }

  private gains(): Float64Array {
    const { first, ballots: { starts, places } } = this.cohorts, { isFunded } = this.decided;
    return Float64Array.from(first, voter => {
      let got = 0;
      for (let at = starts[voter]; at < starts[voter + 1]; at++) {
        if (isFunded[places[at]]) got += this.measure === "count" ? 1 : this.costs[places[at]];
      }
      return got;
    });
  }

  /** How many projects a demand has at most: so many as a voter approves, and as the limit covers. */
  private mostProjects(): number {
    const { starts } = this.ranked;
    let approved = 0, total = 0, most = 0;
    for (let cohort = 0; cohort + 1 < starts.length; cohort++) {
      approved = Math.max(approved, starts[cohort + 1] - starts[cohort]);
    }
    for (const cost of this.candidates.map(project => this.costs[project]).sort((one, other) => one - other)) {
      total += cost;
      if (total > this.limit * (1 + ROOM)) break;
      most++;
    }
    return Math.min(most, approved);
  }

  /** The cohorts that may be in a group: by counting, those who get less than so many projects. */
  private everyone(): Uint32Array {
    const all = Uint32Array.from(this.cohorts.first.keys());
    return this.measure === "count" ? all.filter(cohort => this.got[cohort] < this.size) : all;
  }

  private fits(members: number, cost: number): boolean {
    return members > 0 && members * this.limit * (1 + ROOM) >= cost * this.voters;
  }

  /** Tries the sets of this size that extend a demand. Whether the share of a group covers one of them. */
  private *extend(grown: Grown): Generator<number, boolean> {
    const missing = this.size - grown.demand.length;
    if (this.looked > BETWEEN) {
      this.looked = 0;
      yield this.size;
    }
    if (missing === 1) return this.judgeAll(grown);
    const fitting = this.fitting(grown);
    let isAny = false;
    for (const [at, { rank, group }] of fitting.entries()) {
      const project = this.candidates[rank];
      // A demand without an unfunded project is no violation.
      if (fitting.length - at < missing || !grown.demand.length && this.decided.isFunded[project]) break;
      const demand = [...grown.demand, project], cost = grown.cost + this.costs[project];
      if (yield* this.extend({ demand, group, cost, from: rank + 1 })) isAny = true;
    }
    return isAny;
  }

  /** The candidates by which a demand can grow, each with the cohorts who approve it as well. */
  private fitting({ group, cost, from }: Grown): { rank: number; group: Uint32Array }[] {
    const { sizes } = this.cohorts, count = this.candidates.length;
    const members = new Float64Array(count), rows = new Uint32Array(count);
    this.eachRank(group, from, (rank, cohort) => {
      members[rank] += sizes[cohort];
      rows[rank]++;
    });
    const lists = new Map<number, Listed>();
    for (let rank = from; rank < count; rank++) {
      if (!this.fits(members[rank], cost + this.costs[this.candidates[rank]])) continue;
      // By cost, those who get no less than what the group's share can cover are in no group.
      const most = this.measure === "count" ? Infinity : members[rank] * this.limit * (1 + ROOM) / this.voters;
      lists.set(rank, { list: new Uint32Array(rows[rank]), end: 0, members: 0, most });
    }
    this.eachRank(group, from, (rank, cohort) => {
      const into = lists.get(rank);
      if (!into || this.got[cohort] >= into.most) return;
      into.list[into.end++] = cohort;
      into.members += sizes[cohort];
    });
    return [...lists].filter(([rank, { members: kept }]) => this.fits(kept, cost + this.costs[this.candidates[rank]]))
      .map(([rank, { list, end }]) => ({ rank, group: list.subarray(0, end) }));
  }

  /** Does something for each candidate from a rank on of each cohort of a group. */
  private eachRank(group: Uint32Array, from: number, does: (rank: number, cohort: number) => void): void {
    const { starts, ranks } = this.ranked;
    for (const cohort of group) {
      for (let at = starts[cohort + 1] - 1; at >= starts[cohort] && ranks[at] >= from; at--) does(ranks[at], cohort);
      this.looked += starts[cohort + 1] - starts[cohort] + 1;
    }
  }

  /** Judges the demands by one project more. Whether the share of a group covers one of them. */
  private judgeAll({ demand, group, cost, from }: Grown): boolean {
    const { sizes } = this.cohorts, count = this.candidates.length, isCount = this.measure === "count";
    const members = new Float64Array(count), needy = new Float64Array(count);
    this.eachRank(group, from, (rank, cohort) => {
      members[rank] += sizes[cohort];
      if (isCount || this.got[cohort] < cost + this.costs[this.candidates[rank]]) needy[rank] += sizes[cohort];
    });
    let isAny = false;
    for (let rank = from; rank < count; rank++) {
      const project = this.candidates[rank];
      if (!demand.length && this.decided.isFunded[project]) break;
      if (!this.fits(members[rank], cost + this.costs[project])) continue;
      isAny = true;
      if (this.fits(needy[rank], cost + this.costs[project])) this.judge([...demand, project], needy[rank]);
    }
    return isAny;
  }

  /** Keeps a demand where the group's share is exactly more over its cost than that of the one before. */
  private judge(projects: readonly number[], members: number): void {
    const { decided } = this;
    const over = BigInt(members) * decided.limit - BigInt(this.voters) * costOf(decided, projects);
    if (over >= 0n && (!this.best || over > this.best.over)) this.best = { over, projects };
  }

  /** The group of a demand, exactly. Undefined where rounded sums took for a violation what is none. */
  private demandOf(projects: readonly number[]): Demand | undefined {
    const sorted = [...projects].sort((one, other) => one - other);
    const { voters, isViolation } = figuresOf(this.decided, sorted).claims[this.measure];
    return isViolation ? { voters, projects: sorted } : undefined;
  }
}

function rankedBy({ first, ballots }: Cohorts, candidates: readonly number[], projects: number): Ranked {
  const rankOf = new Int32Array(projects).fill(-1), starts = new Uint32Array(first.length + 1);
  candidates.forEach((project, rank) => { rankOf[project] = rank; });
  const isCandidate = (at: number): boolean => rankOf[ballots.places[at]] >= 0;
  let end = 0;
  first.forEach((voter, cohort) => {
    for (let at = ballots.starts[voter]; at < ballots.starts[voter + 1]; at++) end += Number(isCandidate(at));
    starts[cohort + 1] = end;
  });
  const ranks = new Uint16Array(end);
  first.forEach((voter, cohort) => {
    let to = starts[cohort];
    for (let at = ballots.starts[voter]; at < ballots.starts[voter + 1]; at++) {
      if (isCandidate(at)) ranks[to++] = rankOf[ballots.places[at]];
    }
    ranks.subarray(starts[cohort], to).sort();
  });
  return { starts, ranks };
}
