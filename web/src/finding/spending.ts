/* What voters do with a unit of their budget, as an interior-point method has it (interior.ts): how they answer to weights.

   Each voter pays a part of its budget for each funded project of its ballot, and keeps the rest. Nothing of this may be
   below 0. Once the weights of projects are known, the step of each voter is known by itself; so what the voters of all
   cohorts come to is a matrix with a row for each project. */

import { Bounds } from "./bounds.js";
import type { Approvals } from "./shares.js";
import type { Square } from "./solving.js";

/** Some cohorts, which part of all voters each is, and what they approve: first come the columns of funded projects. */
export interface Members {
  readonly cohorts: Uint32Array;
  readonly parts: Float64Array;
  readonly funded: Approvals;
  readonly unfunded: Approvals;
}

/** For each payment what its cohort has. */
function ofEach({ starts, places }: Approvals, ofMember: Float64Array): Float64Array {
  const each = new Float64Array(places.length);
  ofMember.forEach((own, member) => each.fill(own, starts[member], starts[member + 1]));
  return each;
}

/** Cohorts who pay, and keep the rest: that is what they have left for the unfunded projects of their ballots. */
export class Spenders {
  readonly spent: Bounds;
  readonly kept: Bounds;
  /** How easily each payment moves, and how it moves where the cohort offers more. */
  protected readonly ease: Float64Array;
  protected readonly answers: Float64Array;
  /** How payments are tied by the budget that they share, and how easily a cohort offers. */
  protected readonly tie: Float64Array;
  protected readonly offering: Float64Array;

  /** `spent` is what is paid at first, by the entries of the funded approvals. */
  constructor(readonly members: Members, spent: Float64Array, target: number) {
    const { parts, funded } = members, count = parts.length;
    this.spent = new Bounds(spent, ofEach(funded, parts), target);
    this.kept = new Bounds(parts.map((_, member) => 1 - this.sumOf(spent, member)), parts, target);
    [this.ease, this.answers] = [new Float64Array(spent.length), new Float64Array(spent.length)];
    [this.tie, this.offering] = [new Float64Array(count), new Float64Array(count)];
  }

  /** All amounts that have to stay above 0. */
  get bounds(): readonly Bounds[] {
    return [this.spent, this.kept];
  }

  /** What a voter of a cohort has for the unfunded projects of its ballot. */
  protected offer(member: number): number {
    return this.kept.amounts[member];
  }

  /** What the voters contribute by the multipliers, with these weights of projects. */
  value(weights: Float64Array): number {
    return this.members.parts.reduce((sum, part, member) => sum + part * this.worth(member, weights), 0);
  }

  protected worth(member: number, weights: Float64Array): number {
    return this.kept.multipliers[member] - this.hope(member, weights);
  }

  /** What a voter has of the weights of unfunded projects. */
  protected hope(member: number, weights: Float64Array): number {
    const { starts, places } = this.members.unfunded;
    let hope = 0;
    for (let at = starts[member]; at < starts[member + 1]; at++) hope += weights[places[at]];
    return hope;
  }

  /** What the payments of a cohort have together. */
  protected sumOf(ofPayment: Float64Array, member: number): number {
    const { starts } = this.members.funded;
    let sum = 0;
    for (let at = starts[member]; at < starts[member + 1]; at++) sum += ofPayment[at];
    return sum;
  }

  /** Adds what is paid for each funded project, and what the supporters of each unfunded one offer. */
  addTotals(totals: Float64Array): void {
    this.members.parts.forEach((_, member) => this.add(member, this.spent.amounts, this.offer(member), totals));
  }

  /** Adds by how much more that is after the step to what is aimed at, by these weights. */
  addSteps(weights: Float64Array, totals: Float64Array): void {
    this.members.parts.forEach((_, member) => this.add(member, this.spent.steps, this.draw(member, weights), totals));
  }

  private add(member: number, paid: Float64Array, offered: number, totals: Float64Array): void {
    const { parts, funded, unfunded } = this.members, part = parts[member], last = unfunded.starts[member + 1];
    for (let at = funded.starts[member]; at < funded.starts[member + 1]; at++) totals[funded.places[at]] += part * paid[at];
    for (let at = unfunded.starts[member]; at < last; at++) totals[unfunded.places[at]] += part * offered;
  }

  /** Makes the step of all amounts, to what is aimed at by these weights. */
  turn(weights: Float64Array): void {
    this.members.parts.forEach((_, member) => this.take(member, this.draw(member, weights)));
  }

  /** Sets the steps of a cohort's payments, and answers by how much more it offers. */
  protected draw(member: number, weights: Float64Array): number {
    this.drawFreely(member, weights, this.hope(member, weights) - this.kept.rises[member], this.spent.rises);
    return -this.sumOf(this.spent.steps, member);
  }

  /** The steps of payments that are drawn by this and by what is aimed at, as they are tied. */
  protected drawFreely(member: number, weights: Float64Array, draws: number, aims: Float64Array): void {
    const { ease } = this, { steps } = this.spent, { starts, places } = this.members.funded;
    const start = starts[member], end = starts[member + 1];
    let sum = 0;
    for (let at = start; at < end; at++) sum += steps[at] = ease[at] * (aims[at] + draws + weights[places[at]]);
    const back = this.tie[member] * sum;
    for (let at = start; at < end; at++) steps[at] -= ease[at] * back;
  }

  protected take(member: number, _: number): void {
    const { starts } = this.members.funded;
    this.kept.take(member, -this.sumOf(this.spent.steps, member));
    for (let at = starts[member]; at < starts[member + 1]; at++) this.spent.take(at, this.spent.steps[at]);
  }

  /** Adds how the totals answer to the weights of projects: of each pair once. */
  addMatrix(square: Square): void {
    this.members.parts.forEach((_, member) => this.addOwn(member, this.ready(member), square));
  }

  /** Sets how a cohort answers, and tells how its payments are tied in the matrix. */
  protected ready(member: number): number {
    const { ease, answers } = this, { starts } = this.members.funded, kept = this.kept.stiffness(member);
    let sum = 0;
    for (let at = starts[member]; at < starts[member + 1]; at++) sum += ease[at] = 1 / this.spent.stiffness(at);
    for (let at = starts[member]; at < starts[member + 1]; at++) answers[at] = -ease[at] / sum;
    this.tie[member] = kept / (1 + kept * sum);
    this.offering[member] = sum / (1 + kept * sum);
    return sum ? 1 / sum : 0;
  }

  private addOwn(member: number, tied: number, { count, numbers }: Square): void {
    const { members: { parts, funded, unfunded }, ease, answers } = this, part = parts[member];
    const own = part * this.offering[member], end = funded.starts[member + 1], last = unfunded.starts[member + 1];
    for (let at = funded.starts[member]; at < end; at++) {
      const row = funded.places[at] * count, answer = own * answers[at], held = part * tied * ease[at];
      numbers[row + funded.places[at]] += part * ease[at];
      for (let to = at; to < end; to++) numbers[row + funded.places[to]] += answer * answers[to] - held * ease[to];
      for (let to = unfunded.starts[member]; to < last; to++) numbers[row + unfunded.places[to]] += answer;
    }
    for (let at = unfunded.starts[member]; at < last; at++) {
      const row = unfunded.places[at] * count;
      for (let to = at; to < last; to++) numbers[row + unfunded.places[to]] += own;
    }
  }
}
