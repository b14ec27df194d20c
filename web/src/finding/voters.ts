/* What voters contribute to U2: one convex function of the weights, which is computed in a pass over the ballots.

   With weights s of funded projects and w of unfunded ones, where Z is the sum of w over a voter's ballot, a voter contributes
   the most that a unit of its budget can bring: s for each part that it pays for a project, less Z for each part that it has
   left; in the stable form less Z for each part that it can offer, which is the larger of what it has left and of its largest
   payment. In the plain form it spends all on the project with the best s, or nothing: U(i) - Z(i). In the stable one it pays
   equally for the best projects, and may leave as much: X(i) - Z(i), where X(i) needn't be whole. */

import { approvalsOf, everyCohort, payersOf } from "./shares.js";
import type { Approvals, Payers, Problem } from "./shares.js";

/** How often weights are doubled at most, to find how great they can be. */
const DOUBLINGS = 10;

/**
 * Weights of the funded projects that cost something, below 0 for `most`; of the unfunded ones that somebody approves; and of
 * Cover, for each voter.
 */
export interface Weights {
  readonly funded: Float64Array;
  readonly unfunded: Float64Array;
  readonly cover: number;
}

/** With those of funded projects and of Cover so many times as great. */
export const scaled = ({ funded, unfunded, cover }: Weights, part: number): Weights =>
  ({ funded: funded.map(weight => weight * part), unfunded, cover: cover * part });

/** What funded projects and Cover are worth by the weights. */
export function worthOf({ costs, funded, share, cohorts }: Problem, weights: Weights): number {
  return funded.reduce((sum, project, at) => sum + costs[project] * weights.funded[at],
                       weights.cover * share * cohorts.ofVoter.length);
}

/** What unfunded projects cost by the weights. */
export const owedBy = ({ costs, unfunded }: Problem, weights: Weights): number =>
  unfunded.reduce((sum, project, at) => sum + costs[project] * weights.unfunded[at], 0);

/** The cohorts of a problem, as weights are weighed by them, in the plain form or the stable one. */
export class Voters {
  private readonly payers: Payers;
  private readonly hoping: Approvals;
  private readonly voters: number;

  constructor(private readonly problem: Problem, private readonly stable: boolean) {
    this.payers = payersOf(problem);
    this.hoping = approvalsOf(problem, problem.unfunded, everyCohort(problem));
    this.voters = problem.cohorts.ofVoter.length;
  }

  /** What each voter has of unfunded projects, with the other sign: -Z. */
  private hopeless({ unfunded }: Weights): Float64Array {
    const { starts, places } = this.hoping;
    return this.problem.cohorts.sizes.map((_, cohort) => {
      let hope = 0;
      for (let at = starts[cohort]; at < starts[cohort + 1]; at++) hope += unfunded[places[at]];
      return -hope;
    });
  }

  /** What each voter contributes. */
  contributions(weights: Weights): Float64Array {
    const least = this.hopeless(weights);
    return this.stable ? this.offered(weights, least) : this.kept(weights, least);
  }

  /** Does something for each supporter of a funded project. */
  private eachPayer(place: number, does: (cohort: number) => void): void {
    const { starts, cohorts } = this.payers;
    for (let at = starts[place]; at < starts[place + 1]; at++) does(cohorts[at]);
  }

  private kept({ funded }: Weights, best: Float64Array): Float64Array {
    funded.forEach((weight, place) => this.eachPayer(place, cohort => { best[cohort] = Math.max(best[cohort], weight); }));
    return best;
  }

  private offered({ funded }: Weights, least: Float64Array): Float64Array {
    const best = least.slice(), gain = least.slice(), count = new Uint32Array(least.length);
    // What is paid for one more project is worth it as long as that brings more than the others do.
    const places = [...funded.keys()].sort((one, other) => funded[other] - funded[one]);
    for (const place of places) {
      this.eachPayer(place, cohort => {
        const mine = gain[cohort] += funded[place], parts = ++count[cohort];
        best[cohort] = Math.max(best[cohort], mine / (mine >= 0 ? parts : parts + 1));
      });
    }
    return best;
  }

  /** The same exactly for whole weights, with U(i) or X(i) whole. */
  wholeContributions(weights: Weights): Float64Array {
    const least = this.hopeless(weights);
    if (!this.stable) return this.kept(weights, least);
    const found = this.offered(weights, least).map(Math.ceil);
    // By floats it may be off a little.
    let lacking = this.lacking(weights, least, found);
    while (lacking.includes(1)) {
      lacking.forEach((more, cohort) => { found[cohort] += more; });
      lacking = this.lacking(weights, least, found);
    }
    const lower = this.lacking(weights, least, found.map(each => each - 1));
    return found.map((each, cohort) => !lower[cohort] && each > least[cohort] ? each - 1 : each);
  }

  /** Of which cohorts what they are said to contribute is too little: 1, and 0 of the others. */
  private lacking({ funded }: Weights, least: Float64Array, tried: Float64Array): Uint8Array {
    const over = least.map((own, cohort) => own - Math.min(tried[cohort], 0));
    funded.forEach((weight, place) => this.eachPayer(place, cohort => { over[cohort] += Math.max(weight - tried[cohort], 0); }));
    return Uint8Array.from(over, each => Number(each > 0));
  }

  /** The least that a supporter of a project contributes, or 0 where that is more. */
  leastOf(project: number, contributions: Float64Array): number {
    const { starts, places } = approvalsOf(this.problem, [project], everyCohort(this.problem));
    return places.length ? contributions.reduce((least, own, cohort) =>
      starts[cohort + 1] > starts[cohort] ? Math.min(least, own) : least, 0) : 0;
  }

  /** What all voters contribute together with Cover, which U2 wants to be at most 0. */
  total(weights: Weights): number {
    const { sizes } = this.problem.cohorts;
    return this.contributions(weights).reduce((sum, own, cohort) => sum + own * sizes[cohort], weights.cover * this.voters);
  }

  /** The same exactly of whole weights. */
  wholeTotal(weights: Weights): bigint {
    const { sizes } = this.problem.cohorts;
    let sum = 0, total = BigInt(weights.cover) * BigInt(this.voters);
    this.wholeContributions(weights).forEach((own, cohort) => {
      const mine = own * sizes[cohort], next = sum + mine;
      if (Number.isSafeInteger(next) && Number.isSafeInteger(mine)) sum = next;
      else total += BigInt(own) * BigInt(sizes[cohort]);
    });
    return total + BigInt(sum);
  }

  /**
   * How many times as great the weights of funded projects and of Cover can be so that U2 holds. Since the total is convex, it
   * is no more than on the line between two totals.
   */
  greatest(weights: Weights): number {
    let high = 1, most = this.total(weights), low = 0, least = most > 0 ? this.total(scaled(weights, 0)) : 0;
    if (least > 0 || most > 0 && !least) return 0;
    for (let turn = 0; turn < DOUBLINGS && most <= 0; turn++) {
      [low, least, high] = [high, most, high * 2];
      most = this.total(scaled(weights, high));
    }
    return most > 0 ? low + (high - low) * least / (least - most) : high;
  }
}
