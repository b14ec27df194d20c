/* Prices with the largest margin, or weights that refute them, by an interior-point method.

   The linear programme for prices has some variables for each voter, but what binds voters together is a row for each
   project. So each step (Mehrotra's predictor and corrector) comes to equations in the weights of projects alone: it takes a
   few passes over the ballots, and the number of steps hardly depends on that of voters.

   Amounts are parts of the voter budget, of which projects cost the more the smaller it is: by the inverse of the budget,
   which is bounded where Cover is wanted. The margin is what each unfunded project could still have besides, as a part of its
   cost, or of what it is taken to cost where that is next to nothing. */

import { Bounds } from "./bounds.js";
import { Offerers } from "./offering.js";
import { approvalsOf, everyCohort, largest, payersOf } from "./shares.js";
import { solvable, solved, squareOf } from "./solving.js";
import { Spenders } from "./spending.js";
import type { Need, Payers, Problem, Shares } from "./shares.js";
import type { Solvable } from "./solving.js";
import type { Members } from "./spending.js";
import type { Weights } from "./voters.js";

/** How far from the bounds amounts are at first, as a product of an amount and its multiplier. */
const START = 3;
/** Which part of a budget is paid at most at first; and how much room there is at first for the margin. */
const PAID = 0.8, ROOM = 20;
/** Which part of the way to a bound a step goes. */
const BOLD = 0.99;
/** Steps of less than this don't lead on. */
const STILL = 1e-6;
/** How far the budgets have to be over the limit for Cover, where a voter's share of it is 1. */
const COVERED = 1e-6;
/** What costs less than this part of what costs most is eased by another part of that. */
const FAR = 1e-6, INSTEAD = 0.1;
/** The inverse of the budget is at most this at first. */
const MOST_INVERSE = 1e6;

/** The method gets no farther. */
export class Stuck extends Error {}

/** Where a step leads: the weights of projects, funded ones first, and the margin at its end; and by how much more the inverse
    of the budget is then. */
interface Direction {
  readonly weights: Float64Array;
  readonly margin: number;
  readonly rise: number;
}

/** The method's state: prices that are paid for whole, and weights. */
export class Interior {
  margin: number;
  private readonly kinds: readonly Spenders[];
  /** What projects cost for each voter, funded ones first; and what the margin is a part of. */
  private readonly costs: Float64Array;
  private readonly eased: Float64Array;
  private readonly paid: number;
  private readonly funded: Float64Array;
  private readonly room: Bounds;
  private readonly inverse: Bounds;
  private readonly cover: Bounds | undefined;
  private readonly most: number;
  private readonly bounds: readonly Bounds[];
  private readonly count: number;

  constructor(private readonly problem: Problem, need: Need) {
    const voters = problem.cohorts.ofVoter.length, { funded, unfunded } = problem;
    this.paid = funded.length;
    this.costs = Float64Array.from([...funded, ...unfunded], project => problem.costs[project] / voters);
    const most = largest(this.costs, 0);
    this.eased = this.costs.map(cost => cost > FAR * most ? cost : INSTEAD * most).fill(0, 0, this.paid);
    this.funded = new Float64Array(this.paid);
    // At first all supporters of a funded project pay the same.
    const each = funded.map((project, place) => this.costs[place] * voters / problem.supporters[project]);
    this.most = need.cover ? 1 / (1 + COVERED) : Infinity;
    const begin = Math.min(0.5 * this.most, PAID / largest(spentBy(problem, each), 0), MOST_INVERSE);
    this.kinds = kindsOf(problem, need.stable).map(([kind, members]) =>
      new kind(members, Float64Array.from(members.funded.places, place => begin * each[place]), START));
    const offered = this.totals().subarray(this.paid);
    const room = (margin: number): Float64Array =>
      offered.map((own, at) => this.costs[this.paid + at] * begin - own - margin * this.eased[this.paid + at]);
    this.margin = -largest(room(0).map((own, at) => -own / this.eased[this.paid + at]), -Infinity) - ROOM;
    this.room = new Bounds(room(this.margin), undefined, START);
    this.inverse = new Bounds(Float64Array.of(begin), undefined, START);
    this.cover = need.cover ? new Bounds(Float64Array.of(this.most - begin), undefined, START) : undefined;
    const own = [this.room, this.inverse, ...this.cover ? [this.cover] : []];
    this.bounds = [...this.kinds.flatMap(({ bounds }) => bounds), ...own];
    this.count = this.bounds.reduce((sum, { count }) => sum + count, 0);
  }

  /** The weights so far. */
  weights(): Weights {
    return {
      funded: this.funded.slice(), unfunded: this.room.multipliers.slice(), cover: this.cover?.multipliers[0] ?? 0,
    };
  }

  /** How great the margin can be at most by the weights, once these are near to being right. */
  get bound(): number {
    const { unfunded, cover } = this.weights(), weights = Float64Array.of(...this.funded, ...unfunded);
    return this.kinds.reduce((sum, kind) => sum + kind.value(weights), cover && cover * this.most);
  }

  /** One step. Throws Stuck. */
  advance(): void {
    const gap = this.gapAfter(0, 0), equations = this.equations(), totals = this.totals();
    this.aim(0, 0);
    const first = this.turn(equations, totals), [far, high] = this.lengths();
    const target = gap / this.count * (this.gapAfter(far, high) / gap) ** 3;
    // What the first step leaves out counts as far as that step can be made; otherwise steps may go in a circle.
    this.aim(target, far * high);
    for (const kind of this.kinds) kind.addSteps(new Float64Array(this.costs.length), totals);
    const second = this.turn(equations, totals);
    const [amounts, multipliers] = this.lengths().map(length => Math.min(1, BOLD * length));
    const isFinite = Number.isFinite(first.margin) && Number.isFinite(second.margin);
    if (!isFinite || !(Math.max(amounts, multipliers) > STILL)) throw new Stuck();
    for (const each of this.bounds) each.move(amounts, multipliers);
    this.margin += amounts * (second.margin - this.margin);
    this.funded.forEach((weight, at) => { this.funded[at] += multipliers * (second.weights[at] - weight); });
  }

  /** The equations in the weights, those of unfunded projects with the other sign, and the margin. */
  private equations(): Solvable {
    const { costs, paid } = this, count = costs.length + 1, square = squareOf(count), { numbers } = square;
    for (const kind of this.kinds) kind.addMatrix(square);
    const hold = this.hold();
    for (let row = 0; row < costs.length; row++) {
      for (let column = row; column < costs.length; column++) {
        numbers[row * count + column] += costs[row] * costs[column] / hold;
        numbers[column * count + row] = numbers[row * count + column];
      }
      if (row >= paid) numbers[row * count + row] += 1 / this.room.stiffness(row - paid);
      numbers[row * count + costs.length] = numbers[costs.length * count + row] = this.eased[row];
    }
    const found = solvable(square);
    if (!found) throw new Stuck();
    return found;
  }

  /** How stiff the inverse of the budget is held by its bounds. */
  private hold(): number {
    return this.inverse.stiffness(0) + (this.cover?.stiffness(0) ?? 0);
  }

  private aim(target: number, part: number): void {
    for (const each of this.bounds) each.aim(target, part);
  }

  /** Makes the steps to what is aimed at, which draws the totals to these. */
  private turn(equations: Solvable, totals: Float64Array): Direction {
    const { room, inverse, cover, paid } = this, drawn = inverse.rises[0] - (cover?.rises[0] ?? 0);
    const direction = this.direction(equations, totals, drawn), { weights, rise } = direction;
    for (const kind of this.kinds) kind.turn(weights);
    for (let at = 0; at < room.amounts.length; at++) room.take(at, (room.rises[at] - weights[paid + at]) / room.stiffness(at));
    inverse.take(0, rise);
    cover?.take(0, -rise);
    return direction;
  }

  private direction(equations: Solvable, totals: Float64Array, drawn: number): Direction {
    const { room, inverse, costs, paid } = this, hold = this.hold();
    const right = new Float64Array(costs.length + 1);
    costs.forEach((cost, at) => { right[at] = cost * (inverse.amounts[0] + drawn / hold) - totals[at]; });
    room.amounts.forEach((own, at) => { right[paid + at] -= own + room.rises[at] / room.stiffness(at); });
    right[costs.length] = -1;
    const found = solved(equations, right), weights = found.slice(0, -1);
    const rise = (drawn - weights.reduce((sum, weight, at) => sum + weight * costs[at], 0)) / hold;
    for (let at = paid; at < weights.length; at++) weights[at] = -weights[at];
    return { weights, margin: found[costs.length], rise };
  }

  private totals(): Float64Array {
    const totals = new Float64Array(this.costs.length);
    for (const kind of this.kinds) kind.addTotals(totals);
    return totals;
  }

  /** How far amounts, and multipliers, can go until one is 0. */
  private lengths(): [number, number] {
    let far = 1, high = 1;
    for (const each of this.bounds) {
      const [amounts, multipliers] = each.lengths();
      [far, high] = [Math.min(far, amounts), Math.min(high, multipliers)];
    }
    return [far, high];
  }

  private gapAfter(far: number, high: number): number {
    return this.bounds.reduce((sum, each) => sum + each.gapAfter(far, high), 0);
  }

  /**
   * The payments so far, but for those of less than this part of the budget that aren't the largest for a project; what is left
   * of those for a project is scaled to what it costs.
   */
  shares(least: number): Shares {
    const { problem } = this, { sizes } = problem.cohorts, payers = payersOf(problem), { starts, cohorts } = payers;
    const paid = this.payments(payers), spent = new Float64Array(sizes.length);
    problem.funded.forEach((project, place) => {
      const own = paid.subarray(starts[place], starts[place + 1]), kept = Math.min(least, largest(own, 0));
      let sum = 0;
      own.forEach((amount, at) => { sum += own[at] = amount >= kept ? amount * sizes[cohorts[starts[place] + at]] : 0; });
      own.forEach((amount, at) => {
        const cohort = cohorts[starts[place] + at];
        spent[cohort] += own[at] = amount * problem.costs[project] / sum / sizes[cohort];
      });
    });
    return { payers, paid, spent };
  }

  /** The parts of the budget that are paid, beside the payers. */
  private payments({ starts, cohorts }: Payers): Float64Array {
    const paid = new Float64Array(cohorts.length), ends = starts.slice(), next = this.kinds.map(() => 0);
    for (let cohort = 0; cohort < this.problem.cohorts.sizes.length; cohort++) {
      const number = this.kinds.findIndex(({ members }, at) => members.cohorts[next[at]] === cohort);
      const { members: { funded }, spent } = this.kinds[number], member = next[number]++;
      for (let at = funded.starts[member]; at < funded.starts[member + 1]; at++) {
        paid[ends[funded.places[at]]++] = spent.amounts[at];
      }
    }
    return paid;
  }
}

/** What each voter of a cohort pays together, where it pays so much for each funded project. */
function spentBy(problem: Problem, each: readonly number[]): number[] {
  const { starts, places } = approvalsOf(problem, problem.funded, everyCohort(problem));
  return Array.from(problem.cohorts.first, (_, cohort) =>
    places.subarray(starts[cohort], starts[cohort + 1]).reduce((sum, place) => sum + each[place], 0));
}

/** The cohorts of each kind. Those who approve no unfunded project offer nothing to anyone. */
function kindsOf(problem: Problem, stable: boolean): [typeof Spenders, Members][] {
  const every = everyCohort(problem), { starts } = approvalsOf(problem, problem.unfunded, every);
  const isOffering = (cohort: number): boolean => stable && starts[cohort + 1] > starts[cohort];
  const kinds: [typeof Spenders, Uint32Array][] = [
    [Offerers, every.filter(isOffering)], [Spenders, every.filter(cohort => !isOffering(cohort))],
  ];
  return kinds.filter(([, cohorts]) => cohorts.length).map(([kind, cohorts]) => [kind, membersOf(problem, cohorts)]);
}

const membersOf = (problem: Problem, cohorts: Uint32Array): Members => ({
  cohorts, parts: Float64Array.from(cohorts, cohort => problem.cohorts.sizes[cohort] / problem.cohorts.ofVoter.length),
  funded: approvalsOf(problem, problem.funded, cohorts),
  unfunded: approvalsOf(problem, problem.unfunded, cohorts, problem.funded.length),
});
