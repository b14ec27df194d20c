/* The Method of Equal Shares in exact numbers, as python/pbaudit/shares.py computes it. It isn't proved. Each voter begins with
   the same budget. Of the projects that their supporters can still pay for, the one is bought whose supporters pay least
   for a unit of its worth, each the same or all that is left; of several the one that stands first in the election. */

import { MILLION } from "../elections/amounts.js";
import { isSureBetween, Leap } from "./leaps.js";
import { Purses } from "./purses.js";
import { worthOf } from "./rule.js";
import type { Measure } from "../finding/groups.js";
import type { Shared } from "./level.js";
import type { Electorate } from "./rule.js";

/** A whole budget is raised by so much for each voter, in the currency of the costs. */
const STEP = MILLION;

export type Completion = "none" | "add1";

/** How far the rule is: which run of it this is. */
export interface SharesStep {
  readonly run: number;
}

/** What is bought, in order, and for how many budgets the rule was gone through. */
export interface EqualShares {
  readonly funded: readonly number[];
  /** What each voter has at first: so many millionths over the number of voters. */
  readonly budget: bigint;
  readonly runs: number;
}

/** The price of a unit of a project, of which the least waits first. */
interface Price {
  readonly part: bigint;
  readonly whole: bigint;
  readonly project: number;
}

function compare(one: Price, other: Price): number {
  const left = one.part * other.whole, right = other.part * one.whole;
  return left < right ? -1 : left > right ? 1 : one.project - other.project;
}

/** Puts a price among others that rise. */
function insert(waiting: Price[], price: Price): void {
  let low = 0, high = waiting.length;
  while (low < high) {
    const middle = (low + high) >> 1;
    if (compare(waiting[middle], price) < 0) low = middle + 1;
    else high = middle;
  }
  waiting.splice(low, 0, price);
}

/** One run of the rule. Amounts are whole numbers over one denominator, which grows as projects are bought. */
class Run {
  readonly bought: number[] = [];
  private readonly purses: Purses;
  /** Money only falls, so the price of a unit only rises: a price that was found earlier is found again before it counts. */
  private readonly waiting: Price[] = [];

  constructor(private readonly electorate: Electorate, private readonly measure: Measure, budget: bigint) {
    this.purses = new Purses(electorate.cohorts.sizes, budget, BigInt(Math.max(1, electorate.voters)));
    electorate.decided.costs.forEach((cost, project) => {
      const votes = BigInt(electorate.votes[project]);
      if (votes === 0n) return;
      if (cost === 0n) this.bought.push(project);
      else insert(this.waiting, { part: cost, whole: votes * worthOf(measure, cost), project });
    });
  }

  /** Buys until nothing can be paid for any more. It pauses after each project that it looks at. */
  *run(): Generator<undefined, readonly number[]> {
    const fresh = new Map<number, Shared | undefined>();
    for (let next = this.waiting.shift(); next; next = this.waiting.shift()) {
      const { project } = next;
      if (!fresh.has(project)) fresh.set(project, this.shared(project));
      yield undefined;
      const found = fresh.get(project);
      if (!found) continue;
      const price = this.price(project, found);
      if (this.waiting.length > 0 && compare(this.waiting[0], price) < 0) {
        insert(this.waiting, price);
        continue;
      }
      this.buy(project, found);
      fresh.clear();
    }
    return this.bought;
  }

  private price(project: number, { missing, payers }: Shared): Price {
    const worth = worthOf(this.measure, this.electorate.decided.costs[project]);
    return { part: missing, whole: BigInt(payers) * worth * this.purses.scale, project };
  }

  private shared(project: number): Shared | undefined {
    const { supporters, decided } = this.electorate;
    return this.purses.shared(supporters[project], decided.costs[project] * this.purses.scale);
  }

  private buy(project: number, found: Shared): void {
    this.purses.pay(this.electorate.supporters[project], found);
    this.bought.push(project);
  }
}

function* fundedBy(electorate: Electorate, measure: Measure, budget: bigint, run: number):
    Generator<SharesStep, readonly number[]> {
  const steps = new Run(electorate, measure, budget).run();
  for (;;) {
    const { done, value } = steps.next();
    if (done) return value;
    yield { run };
  }
}

/**
 * What the rule funds. With the completion `add1` the budget of a voter is raised by 1 as often as another project still
 * fits within the limit and the next outcome doesn't cost more than the limit.
 */
export function* equalShares(electorate: Electorate, measure: Measure, completion: Completion):
    Generator<SharesStep, EqualShares> {
  const { limit } = electorate.decided, step = STEP * BigInt(Math.max(1, electorate.voters)), leap = new Leap();
  let budget = limit, runs = 1, funded = yield* fundedBy(electorate, measure, budget, 1), isLate = false;
  while (completion === "add1" && electorate.hasRoom(new Set(funded))) {
    if (leap.steps > 1) {
      const far = budget + BigInt(leap.steps) * step, isSure = isSureBetween(electorate, measure, budget, far);
      yield { run: runs };
      if (isSure) [budget, runs, isLate] = [far, runs + leap.steps, true];
      leap.note(isSure);
      continue;
    }
    const more = yield* fundedBy(electorate, measure, budget + step, ++runs);
    if (electorate.cost(more) > limit) break;
    [funded, budget, isLate] = [more, budget + step, false];
    leap.step();
  }
  // Steps that were taken at once bought the same, perhaps in another order.
  return { funded: isLate ? yield* fundedBy(electorate, measure, budget, runs) : funded, budget, runs };
}
