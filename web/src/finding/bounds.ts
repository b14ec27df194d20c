/* Amounts that have to stay above 0, as an interior-point method has them. */

/**
 * Amounts with their multipliers, and the step of both; and which part of all voters each is of, or 1 where it is no voter's.
 * Before a step is known, the rises are the multipliers that are aimed at.
 */
export class Bounds {
  readonly multipliers: Float64Array;
  readonly steps: Float64Array;
  readonly rises: Float64Array;

  /** Amounts that are as far from 0 as their multipliers are. */
  constructor(readonly amounts: Float64Array, readonly parts: Float64Array | undefined, target: number) {
    this.multipliers = amounts.map(amount => target / amount);
    this.steps = new Float64Array(amounts.length);
    this.rises = new Float64Array(amounts.length);
  }

  /** By how much a multiplier falls where its amount grows. */
  stiffness(at: number): number {
    return this.multipliers[at] / this.amounts[at];
  }

  /** How many products there are, each as often as it counts. */
  get count(): number {
    return this.parts ? this.parts.reduce((sum, part) => sum + part, 0) : this.amounts.length;
  }

  /** The sum of the products once these parts of a step are made. */
  gapAfter(far: number, high: number): number {
    const { amounts, multipliers, steps, rises, parts } = this;
    let gap = 0;
    for (let at = 0; at < amounts.length; at++) {
      const product = (amounts[at] + far * steps[at]) * (multipliers[at] + high * rises[at]);
      gap += parts ? product * parts[at] : product;
    }
    return gap;
  }

  /** Aims at products of this size, less so many times those that the last step leaves out. */
  aim(target: number, part: number): void {
    const { amounts, steps, rises } = this;
    if (!target && !part) return void rises.fill(0);
    for (let at = 0; at < amounts.length; at++) {
      rises[at] = (target - (part ? part * steps[at] * rises[at] : 0)) / amounts[at];
    }
  }

  /** Takes the step of an amount, by which its multiplier is the one that was aimed at. */
  take(at: number, step: number): void {
    this.steps[at] = step;
    this.rises[at] -= this.multipliers[at] + this.stiffness(at) * step;
  }

  /** How many times the step can be made, at most once, until an amount is 0, and until a multiplier is. */
  lengths(): [number, number] {
    return [lengthOf(this.amounts, this.steps), lengthOf(this.multipliers, this.rises)];
  }

  move(far: number, high: number): void {
    const { amounts, multipliers, steps, rises } = this;
    for (let at = 0; at < amounts.length; at++) {
      amounts[at] += far * steps[at];
      multipliers[at] += high * rises[at];
    }
  }
}

function lengthOf(numbers: Float64Array, steps: Float64Array): number {
  let length = 1;
  for (let at = 0; at < numbers.length; at++) {
    if (numbers[at] + length * steps[at] < 0) length = -numbers[at] / steps[at];
  }
  return length;
}
