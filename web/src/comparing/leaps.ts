/* Budgets in a row by which the Method of Equal Shares buys the same, so that they needn't be gone through one by one. The
   rule is run for all budgets from one to another at once: of what a voter has left only the least and the most are known.
   What is bought is the same for all of them where the prices of a unit are as far apart as that. */

import { ceiling, shared } from "./level.js";
import { worthOf } from "./rule.js";
import type { Measure } from "../finding/groups.js";
import type { Purse } from "./level.js";
import type { Electorate } from "./rule.js";

interface Fraction {
  readonly part: bigint;
  readonly whole: bigint;
}

/** The least and the greatest price of a unit, and what a supporter pays at least and at most, unless it has less left. */
interface Prices {
  readonly low: Fraction;
  readonly high: Fraction;
  readonly least: bigint;
  readonly most: bigint;
}

/** It isn't sure. */
class Unsure extends Error {}

/** Whether a project with a price comes before another with another. */
const isBefore = (one: Fraction, project: number, other: Fraction, beside: number): boolean => {
  const left = one.part * other.whole, right = other.part * one.whole;
  return left < right || (left === right && project < beside);
};

class Between {
  private readonly low: bigint[];
  private readonly high: bigint[];
  private readonly scale: bigint;
  /** The least price of a unit that each project has, whoever is left to pay. */
  private readonly bounds = new Map<number, Fraction>();

  constructor(private readonly electorate: Electorate, private readonly measure: Measure, low: bigint, high: bigint) {
    const cohorts = electorate.cohorts.first.length;
    this.scale = BigInt(Math.max(1, electorate.voters));
    [this.low, this.high] = [low, high].map(budget => new Array<bigint>(cohorts).fill(budget));
    electorate.decided.costs.forEach((cost, project) => {
      const votes = BigInt(electorate.votes[project]);
      if (cost > 0n && votes > 0n) this.bounds.set(project, { part: cost, whole: votes * worthOf(measure, cost) });
    });
    while (this.bounds.size > 0) this.buyNext();
  }

  /** The project with the least bound. */
  private first(): number {
    let [[best, least], ...others] = this.bounds;
    for (const [project, bound] of others) {
      if (isBefore(bound, project, least, best)) [best, least] = [project, bound];
    }
    return best;
  }

  /** Buys the project whose price is the least by all budgets, where there is one that can be paid for. */
  private buyNext(): void {
    const fresh = new Map<number, Prices>();
    let project = this.first();
    while (!fresh.has(project)) {
      this.lookAt(project, fresh);
      if (this.bounds.size === 0) return;
      project = this.first();
    }
    const { high, least, most } = fresh.get(project)!;
    for (const [other, bound] of [...this.bounds]) {
      if (other === project || !isBefore(bound, other, high, project)) continue;
      if (!fresh.has(other)) this.lookAt(other, fresh);
      const now = this.bounds.get(other);
      if (now && isBefore(now, other, high, project)) throw new Unsure();
    }
    this.bounds.delete(project);
    const without = (left: bigint, paid: bigint): bigint => left > paid ? left - paid : 0n;
    for (const cohort of this.electorate.supporters[project]) {
      this.low[cohort] = without(this.low[cohort], most);
      this.high[cohort] = without(this.high[cohort], least);
    }
  }

  /** Has the prices of a project among the fresh ones; one that can't be paid for is left out from now on. */
  private lookAt(project: number, fresh: Map<number, Prices>): void {
    const prices = this.prices(project);
    if (!prices) {
      this.bounds.delete(project);
      return;
    }
    fresh.set(project, prices);
    this.bounds.set(project, prices.low);
  }

  private prices(project: number): Prices | undefined {
    const { supporters, cohorts: { sizes }, decided } = this.electorate, cost = decided.costs[project];
    const [cheap, dear] = [this.high, this.low].map(lefts => {
      const purses: Purse[] = [];
      for (const cohort of supporters[project]) {
        if (lefts[cohort] > 0n) purses.push({ left: lefts[cohort], size: sizes[cohort] });
      }
      return shared(purses, cost * this.scale);
    });
    if (!cheap) return undefined;
    if (!dear) throw new Unsure();
    const unit = worthOf(this.measure, cost) * this.scale, [few, many] = [BigInt(cheap.payers), BigInt(dear.payers)];
    return {
      low: { part: cheap.missing, whole: few * unit }, high: { part: dear.missing, whole: many * unit },
      least: cheap.missing / few, most: ceiling(dear.missing, many),
    };
  }
}

/** Whether the same is bought by all budgets from one to another. Only a yes is sure. */
export function isSureBetween(electorate: Electorate, measure: Measure, low: bigint, high: bigint): boolean {
  try {
    return new Between(electorate, measure, low, high) !== undefined;
  } catch (error) {
    if (error instanceof Unsure) return false;
    throw error;
  }
}

const LONGEST_PAUSE = 64;

/** How many steps to try at once. They double as long as that holds; after a failure it is tried again ever later. */
export class Leap {
  steps = 1;
  private pause = 1;
  private left = 1;

  /** One step was made. */
  step(): void {
    if (--this.left === 0) this.steps = 2;
  }

  /** Whether the same was bought by all steps that were tried at once. */
  note(hasHeld: boolean): void {
    if (hasHeld) {
      this.steps *= 2;
      this.pause = 1;
      return;
    }
    this.steps /= 2;
    if (this.steps === 1) this.left = this.pause = Math.min(2 * this.pause, LONGEST_PAUSE);
  }
}
