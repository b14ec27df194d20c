/* Decides by the interior-point method whether there are prices: payments that keep C5 or S5 with room, or weights by which U2
   and U3 hold with room, whichever comes first. */

import { Interior, Stuck } from "./interior.js";
import { byProgramme } from "./programme.js";
import { budgetsOf, largest } from "./shares.js";
import { owedBy, scaled, Voters, worthOf } from "./voters.js";
import { byWaterFilling } from "./water_filling.js";
import type { Solved } from "./programme.js";
import type { Need, Problem, Shares } from "./shares.js";
import type { Weights } from "./voters.js";

/** Margins within this of 0 are taken for 0. */
const TOLERANCE = 1e-7;
/** A margin that is good enough; and which part of the one that can still be hoped for is. */
const GOOD = 0.01, ENOUGH = 0.5;
const MOST_STEPS = 200;
/** Payments of less than these parts of a budget are left out, the most first, as long as this part of the room remains. */
const SMALL = [0.05, 0.01, 1e-3, 1e-5, 1e-8], REMAINING = 0.5;

/** Weights without Cover are taken where they hold with so much room. */
const ROOM = 1e-4;

/** Weights, and by how much U3 holds by them where U2 does. */
interface Weighed {
  readonly over: number;
  readonly weights?: Weights;
}

/** Payments by which C5 or S5 is kept, or weights that refute all of them. */
export interface Decision {
  readonly shares?: Shares;
  readonly weights?: Weights;
}

/** Whether the method is for a problem: something has to be paid or offered. */
const suits = ({ unfunded, costs }: Problem): boolean => unfunded.length > 0 && largest(costs, 0) > 0;

/** How far a search is: by which method it looks for which prices, and the number of its round or step. */
export interface Progress extends Need {
  readonly by: "waterFilling" | "interior" | "programme" | "whole";
  readonly count: number;
}

/** What is known of some prices: that there are some in floats, or weights that refute them, or that neither was found. */
interface Known {
  readonly need: Need;
  readonly isPriced: boolean;
  readonly weights?: Weights;
}

/** What was decided of a problem, for each kind of prices. */
export class Decisions {
  private readonly decided: Known[] = [];
  /** What the exact programmes came to, in the plain form and in the stable one. */
  private readonly solved = new Map<boolean, Solved | undefined>();

  constructor(readonly problem: Problem) {}

  /** What is known by this or other decisions: weights that refute all prices refute those with Cover, and so on. */
  known(need: Need): Known | undefined {
    return this.decided.find(({ need: other, isPriced, weights }) => {
      if (weights) return (need.stable || !other.stable) && (need.cover || !weights.cover);
      if (isPriced) return (other.stable || !need.stable) && (other.cover || !need.cover);
      return need.stable === other.stable && need.cover === other.cover;
    });
  }

  /** Prices by water-filling. */
  *byWaterFilling(need: Need): Generator<Progress, Shares | undefined> {
    const shares = yield* told("waterFilling", need, byWaterFilling(this.problem, need));
    if (shares) this.decided.push({ need, isPriced: true });
    return shares;
  }

  /** Prices or weights by the interior-point method, or none of them. */
  *byInterior(need: Need): Generator<Progress, Decision> {
    if (!suits(this.problem)) return {};
    const decision = yield* told("interior", need, new Search(this.problem, need).decision());
    this.decided.push({ need, isPriced: decision.shares !== undefined, weights: decision.weights });
    return decision;
  }

  /** What the exact programme comes to, where there are few voters. */
  *byProgramme(need: Need): Generator<Progress, Solved | undefined> {
    const { stable } = need;
    if (!this.solved.has(stable)) this.solved.set(stable, yield* told("programme", need, byProgramme(this.problem, stable)));
    return this.solved.get(stable);
  }
}

/** What a search yields, with what it looks for. */
export function* told<Answer>(by: Progress["by"], { stable, cover }: Need, steps: Generator<number, Answer>):
    Generator<Progress, Answer> {
  for (;;) {
    const { done, value } = steps.next();
    if (done) return value;
    yield { by, stable, cover, count: value };
  }
}

/** A search that ends in a decision. */
class Search {
  private readonly voters: Voters;
  private readonly method: Interior;
  /** The best weights so far by which U2 holds, and by how much U3 does; and the best without Cover, which refute more. */
  private best: Weighed = { over: TOLERANCE };
  private bare: Weighed = { over: ROOM };

  constructor(private readonly problem: Problem, private readonly need: Need) {
    [this.voters, this.method] = [new Voters(problem, need.stable), new Interior(problem, need)];
  }

  *decision(): Generator<number, Decision> {
    for (let step = 1; step <= MOST_STEPS && this.advance(); step++) {
      yield step;
      const decided = this.decided();
      if (decided) return decided;
    }
    const shares = this.method.margin > TOLERANCE ? this.shares() : undefined;
    return shares ? { shares } : { weights: this.weights };
  }

  /** Whether the method gets farther. */
  private advance(): boolean {
    try {
      this.method.advance();
      return true;
    } catch (error) {
      if (error instanceof Stuck) return false;
      throw error;
    }
  }

  private decided(): Decision | undefined {
    const { margin, bound } = this.method, isNear = Math.abs(bound - margin) < ENOUGH * Math.abs(bound);
    if (margin > TOLERANCE && (margin >= GOOD || isNear)) {
      const shares = this.shares();
      if (shares) return { shares };
    }
    if (bound >= -TOLERANCE) return undefined;
    const weights = this.method.weights();
    this.best = this.better(this.best, weights);
    if (this.need.cover) this.bare = this.better(this.bare, { ...weights, cover: 0 });
    const isEnough = this.best.over >= GOOD || this.bare.over >= GOOD || isNear;
    return this.weights && isEnough ? { weights: this.weights } : undefined;
  }

  private get weights(): Weights | undefined {
    return this.bare.weights ?? this.best.weights;
  }

  /** The payments so far without small ones, where they keep C5 or S5. */
  private shares(): Shares | undefined {
    const whole = this.method.shares(0), spare = this.spare(whole);
    if (spare <= TOLERANCE) return undefined;
    for (const least of SMALL) {
      const shares = this.method.shares(least);
      if (this.spare(shares) >= REMAINING * spare) return shares;
    }
    return whole;
  }

  private spare(shares: Shares): number {
    const [low, high] = budgetsOf(this.problem, shares, this.need.stable);
    return high / Math.max(low, this.need.cover ? this.problem.share : 0) - 1;
  }

  /** The better of two weights, with room in U2 and in U3 alike. */
  private better(before: Weighed, weights: Weights): Weighed {
    const { problem } = this, worth = worthOf(problem, weights), owed = owedBy(problem, weights);
    if (!(worth > 0)) return before;
    const greatest = this.voters.greatest(weights), least = owed / worth, over = least ? greatest / least - 1 : Infinity;
    if (!(greatest > 0) || !(over > before.over)) return before;
    return { over, weights: scaled(weights, least ? Math.sqrt(greatest * least) : greatest / 2) };
  }
}
