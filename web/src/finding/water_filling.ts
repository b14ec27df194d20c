/* Water-filling: prices without a solver.

   Each funded project in its turn is paid for so that those of its supporters who have spent least pay, up to one
   level; again and again, until nothing moves: what voters spend is then as equal as can be. Where the supporters of an
   unfunded project have more left than it costs, they are taken for richer by what they lack of spending, and the water
   flows anew. Amounts are floats, in shares of the limit. */

import { sumsOf } from "./cohorts.js";
import { budgetsOf, largest, payersOf } from "./shares.js";
import type { Need, Payers, Problem, Shares } from "./shares.js";

const SWEEPS = 60, MORE_SWEEPS = 8;
export const ROUNDS = 60;
const STILL = 1e-9;
/** How far C5 is to be kept, as a part of what a project costs. */
const ROOM = 1e-3;
/** After so many rounds by which the budget that C5 allows isn't nearer to the one that is needed, it is given up. */
const PATIENCE = 10, NEARER = 0.99;

/** Payments of the supporters of funded projects, and how rich the cohorts are taken for. */
export class WaterFilling implements Shares {
  readonly payers: Payers;
  /** What a voter of each cohort pays, beside the payers; and what it spends. */
  readonly paid: Float64Array;
  readonly spent: Float64Array;
  private readonly richer: Float64Array;
  private readonly levels: Float64Array;
  /** Of the payers of one project: how high each stands, and how many voters it is. */
  private readonly heights: Float64Array;
  private readonly sizes: Float64Array;

  constructor(private readonly problem: Problem) {
    const { cohorts, funded } = problem, count = cohorts.sizes.length;
    this.payers = payersOf(problem);
    this.paid = new Float64Array(this.payers.cohorts.length);
    [this.spent, this.richer] = [new Float64Array(count), new Float64Array(count)];
    const { starts } = this.payers, most = largest(funded.map((_, place) => starts[place + 1] - starts[place]), 0);
    [this.heights, this.sizes] = [new Float64Array(most), new Float64Array(most)];
    this.levels = new Float64Array(funded.length).fill(Infinity);
  }

  /** Sweeps over the projects until nothing moves, or so often. After each it says in which round. */
  *settle(most: number, round: number): Generator<number, void> {
    for (let sweep = 0; sweep < most; sweep++) {
      let moved = 0;
      for (let place = 0; place < this.levels.length; place++) moved = Math.max(moved, this.fill(place));
      if (moved < STILL) return;
      yield round;
    }
  }

  /** Takes the supporters of projects for richer by what is asked for each. */
  ask(asked: Float64Array): void {
    const { first, ballots: { starts, places } } = this.problem.cohorts;
    first.forEach((voter, cohort) => {
      let sum = 0;
      for (let at = starts[voter]; at < starts[voter + 1]; at++) sum += asked[places[at]];
      this.richer[cohort] = sum;
    });
  }

  /** Shares the cost of one project, and answers how far a payment moved. */
  private fill(place: number): number {
    const { payers, paid, spent, richer, heights } = this, start = payers.starts[place], end = payers.starts[place + 1];
    for (let at = start; at < end; at++) {
      const cohort = payers.cohorts[at];
      heights[at - start] = spent[cohort] - paid[at] - richer[cohort];
      this.sizes[at - start] = this.problem.cohorts.sizes[cohort];
    }
    const cost = this.problem.costs[this.problem.funded[place]];
    const level = this.levels[place] = this.level(end - start, cost, this.levels[place]);
    let moved = 0;
    for (let at = start; at < end; at++) {
      const amount = Math.max(level - heights[at - start], 0), more = amount - paid[at];
      moved = Math.max(moved, Math.abs(more));
      spent[payers.cohorts[at]] += more;
      paid[at] = amount;
    }
    return moved;
  }

  /**
   * The level up to which a cost fills the heights, by Newton's method from the last level. Since the sum is convex,
   * the level only falls after the first step, and ever fewer heights are below it.
   */
  private level(count: number, cost: number, last: number): number {
    let before = Infinity;
    let { level } = this.step(count, cost, last) ?? this.step(count, cost, Infinity) ?? { level: 0 };
    for (;;) {
      const next = this.step(count, cost, level);
      if (!next || next.below >= before) return level;
      ({ level, below: before } = next);
    }
  }

  /** The level up to which a cost fills those heights that are below a level, and how many these are. */
  private step(count: number, cost: number, start: number): { level: number; below: number } | undefined {
    const { heights, sizes } = this;
    let weight = 0, held = 0, below = 0;
    for (let at = 0; at < count; at++) {
      if (heights[at] >= start) continue;
      weight += sizes[at];
      held += sizes[at] * heights[at];
      below++;
    }
    return below ? { level: (cost + held) / weight, below } : undefined;
  }
}

/** Looks for payments that keep all conditions in floats, and says before each round of more how many there were. */
export function* byWaterFilling(problem: Problem, need: Need): Generator<number, WaterFilling | undefined> {
  const filling = new WaterFilling(problem), { unfunded, supporters, costs, cohorts } = problem;
  yield* filling.settle(SWEEPS, 0);
  const asked = new Float64Array(costs.length), least = need.cover ? problem.share + STILL : 0;
  let best = Infinity, since = 0;
  for (let round = 1; round <= ROUNDS; round++) {
    const [spent, high] = budgetsOf(problem, filling, need.stable), low = Math.max(spent, least);
    if (low <= high) return filling;
    [best, since] = low - high < NEARER * best ? [low - high, 0] : [best, since + 1];
    if (need.stable || since > PATIENCE) return undefined;
    const left = sumsOf(cohorts, at => cohorts.sizes[at] * (low - filling.spent[at]), costs.length);
    for (const project of unfunded) {
      const over = left[project] - (1 - ROOM) * costs[project];
      asked[project] = Math.max(asked[project] + (over > 0 ? 1 : 0.25) * over / supporters[project], 0);
    }
    filling.ask(asked);
    yield* filling.settle(MORE_SWEEPS, round);
  }
  return undefined;
}
