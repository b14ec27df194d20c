/* What voters with equal ballots have left, in exact numbers, with doubles beside them that tell most comparisons without these.
   Where doubles leave a doubt, the exact numbers decide. */

import { divisor, shared } from "./level.js";
import type { Purse, Shared } from "./level.js";

/** The most by which a sum or a difference of doubles below 1 in size is off. */
const ROUNDING = 2 ** -52;

/** It isn't sure by doubles. */
const UNSURE = Symbol("unsure");

export class Purses {
  /** What each has left, over the scale of the payment with this number: it is brought to the scale of now when it is asked for. */
  private readonly left: bigint[];
  private readonly since: Uint32Array;
  /** By what has to be multiplied what stands over the scale of each payment. */
  private factors: bigint[] = [1n];
  /** What is left as a part of the budget at first. What is 0 is 0 here too. */
  private readonly about: Float64Array;
  /** By how much each of these is off at most. */
  private error = ROUNDING;

  /** Amounts are whole numbers over `scale`, which grows, and with it what the budget is over it. */
  constructor(private readonly sizes: Float64Array, private budget: bigint, public scale: bigint) {
    this.left = new Array<bigint>(sizes.length).fill(budget);
    this.since = new Uint32Array(sizes.length);
    this.about = new Float64Array(sizes.length).fill(budget > 0n ? 1 : 0);
  }

  /** How a cost, over the scale, is shared among these; undefined where they can't pay for it. */
  shared(cohorts: readonly number[], cost: bigint): Shared | undefined {
    const found = this.sharedByDoubles(cohorts, cost);
    return found === UNSURE ? shared(this.pursesOf(cohorts), cost) : found;
  }

  /** What one has left, over the scale of now. */
  private exact(cohort: number): bigint {
    const now = this.factors.length - 1, since = this.since[cohort];
    if (since === now) return this.left[cohort];
    this.since[cohort] = now;
    return this.left[cohort] *= this.factors[since];
  }

  private pursesOf(cohorts: readonly number[]): Purse[] {
    const purses: Purse[] = [];
    for (const cohort of cohorts) {
      if (this.about[cohort] !== 0) purses.push({ left: this.exact(cohort), size: this.sizes[cohort] });
    }
    return purses;
  }

  private sharedByDoubles(cohorts: readonly number[], cost: bigint): Shared | undefined | typeof UNSURE {
    const { about, sizes } = this, rich: number[] = [], aboutCost = ratio(cost, this.budget);
    let payers = 0, sum = 0;
    for (const cohort of cohorts) {
      if (about[cohort] === 0) continue;
      rich.push(cohort);
      payers += sizes[cohort];
      sum += sizes[cohort] * about[cohort];
    }
    if (payers === 0) return undefined;
    // Sums add up to as many numbers, none of which is more than the sum or the cost.
    const off = payers * this.error + (rich.length + 4) * ROUNDING * (sum + aboutCost);
    if (Math.abs(sum - aboutCost) <= off || !Number.isFinite(aboutCost)) return UNSURE;
    return sum < aboutCost ? undefined : this.levelled(rich, { missing: cost, payers }, aboutCost, off);
  }

  /** How these share what is missing, which is about so much, and is known with this error. */
  private levelled(among: readonly number[], { missing, payers }: Shared, about: number, off: number): Shared | typeof UNSURE {
    let rich = among;
    for (;;) {
      const share = about / payers, doubt = off / payers + 2 * this.error, next: number[] = [];
      for (const cohort of rich) {
        const more = this.about[cohort] - share;
        if (Math.abs(more) <= doubt) return UNSURE;
        if (more > 0) {
          next.push(cohort);
          continue;
        }
        missing -= this.exact(cohort) * BigInt(this.sizes[cohort]);
        about -= this.sizes[cohort] * this.about[cohort];
        payers -= this.sizes[cohort];
      }
      if (next.length === rich.length) return { missing, payers };
      if (next.length === 0) return UNSURE;
      rich = next;
    }
  }

  /** Has these pay for a project, each the same or all that is left. */
  pay(cohorts: readonly number[], { missing, payers }: Shared): void {
    const whole = BigInt(payers), factor = whole / divisor(missing, whole);
    if (factor > 1n) {
      this.scale *= factor;
      this.budget *= factor;
      this.factors = [...this.factors.map(each => each * factor), 1n];
    }
    const share = missing * factor / whole, aboutShare = ratio(share, this.budget);
    this.error += 2 * ROUNDING;
    for (const cohort of cohorts) {
      if (this.about[cohort] === 0) continue;
      const left = this.exact(cohort) - share;
      this.left[cohort] = left > 0n ? left : 0n;
      this.about[cohort] = left > 0n ? Math.max(this.about[cohort] - aboutShare, Number.MIN_VALUE) : 0;
    }
  }
}

const DIGITS = 1000;

/** A part of a whole as a double, also where both are too large for one. */
function ratio(part: bigint, whole: bigint): number {
  const long = BigInt(Math.max(0, 4 * (whole.toString(16).length - DIGITS / 4)));
  return Number(part >> long) / Number(whole >> long);
}
