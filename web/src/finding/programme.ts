/* The linear programme for prices of few voters, exactly: the greatest budget of a voter by which C1 to C4 hold and C5 or S5,
   with payments that do it, and the weights by which it is no greater, or by which there is none at all. */

import { commonPart, MILLION } from "../elections/amounts.js";
import { votersIn } from "./decided_election.js";
import { approvalsOf, everyCohort, payersOf } from "./shares.js";
import { Tableau } from "./simplex.js";
import type { Whole } from "./rounding.js";
import type { Payers, Problem } from "./shares.js";
import type { Row } from "./simplex.js";
import type { Weights } from "./voters.js";

/** So many numbers a programme may have. */
const MOST_NUMBERS = 400_000;
const MOST_DENOMINATOR = 1_000_000_000n;

/** Payments that are whole numerators, and whose they are. */
export interface Exact {
  readonly payers: Payers;
  readonly whole: Whole;
}

/**
 * What a programme comes to: prices with the greatest budget, unless they need too large a denominator, and whether all voters
 * have more than the limit by it; and where they don't, weights that refute all prices, or those with Cover.
 */
export interface Solved {
  readonly isPriced: boolean;
  readonly isCovered: boolean;
  readonly prices?: Exact;
  readonly weights?: Weights;
}

/** The programme: first what each payer pays, then the budget, and what each cohort offers. */
class Programme {
  readonly payers: Payers;
  readonly budget: number;
  readonly rows: Row[] = [];
  readonly part: bigint;
  private readonly sizes: readonly bigint[];

  constructor(readonly problem: Problem, private readonly stable: boolean) {
    const { decided, cohorts: { sizes } } = problem;
    this.payers = payersOf(problem);
    this.budget = this.payers.cohorts.length;
    this.part = commonPart([decided.limit, ...decided.costs]);
    this.sizes = Array.from(sizes, BigInt);
    this.addFunded();
    this.addUnfunded();
    this.addCohorts();
  }

  get variables(): number {
    return this.budget + 1 + (this.stable ? this.sizes.length : 0);
  }

  private offer(cohort: number): number {
    return this.budget + 1 + cohort;
  }

  /** What a project costs, in what all amounts are multiples of. */
  private cost(project: number): bigint {
    return this.problem.decided.costs[project] / this.part;
  }

  /** What a voter of a cohort has left, so many times. */
  private left(cohort: number, factor: bigint): [number, bigint][] {
    const paid: [number, bigint][] = [];
    this.payers.cohorts.forEach((payer, at) => { if (payer === cohort) paid.push([at, -factor]); });
    return [[this.budget, factor], ...paid];
  }

  /** C3. */
  private addFunded(): void {
    const { starts, cohorts } = this.payers;
    this.problem.funded.forEach((project, place) => {
      const terms: [number, bigint][] = [];
      for (let at = starts[place]; at < starts[place + 1]; at++) terms.push([at, this.sizes[cohorts[at]]]);
      this.rows.push({ terms, sum: this.cost(project), isEqual: true });
    });
  }

  /** C5, or S5 with what is offered. */
  private addUnfunded(): void {
    const { problem, sizes } = this;
    for (const project of problem.unfunded) {
      const { starts } = approvalsOf(problem, [project], everyCohort(problem));
      const supporters = [...sizes.keys()].filter(cohort => starts[cohort + 1] > starts[cohort]);
      const terms = supporters.flatMap((cohort): [number, bigint][] =>
        this.stable ? [[this.offer(cohort), sizes[cohort]]] : this.left(cohort, sizes[cohort]));
      this.rows.push({ terms, sum: this.cost(project) });
    }
  }

  /** C2; and an offer is what is left, or a payment where that is more. */
  private addCohorts(): void {
    this.sizes.forEach((_, cohort) => {
      this.rows.push({ terms: this.left(cohort, -1n), sum: 0n });
      if (this.stable) this.rows.push({ terms: [...this.left(cohort, 1n), [this.offer(cohort), -1n]], sum: 0n });
    });
    if (!this.stable) return;
    this.payers.cohorts.forEach((cohort, at) => this.rows.push({ terms: [[at, 1n], [this.offer(cohort), -1n]], sum: 0n }));
  }

  /** The weights of a solution, so many times each; of Cover so many for each voter. */
  weights({ each }: { each: readonly bigint[] }, factor: bigint, cover: bigint): Weights | undefined {
    const { funded, unfunded } = this.problem, own = each.slice(0, funded.length + unfunded.length);
    const all = [...own.map(weight => weight * factor), cover];
    const part = commonPart(all.map(weight => weight < 0n ? -weight : weight));
    const numbers = all.map(weight => Number(weight / part));
    if (!numbers.every(Number.isSafeInteger)) return undefined;
    return {
      funded: Float64Array.from(numbers.slice(0, funded.length), weight => 0 - weight),
      unfunded: Float64Array.from(numbers.slice(funded.length, -1)), cover: numbers[numbers.length - 1],
    };
  }

  /** The payments of a solution as numerators, where a denominator is small enough. */
  prices(values: readonly (readonly [bigint, bigint])[]): Exact | undefined {
    const { payers, part, budget, sizes } = this, told = values.slice(0, budget + 1);
    let denominator = 1n;
    for (const [amount, whole] of told) {
      const below = whole * MILLION / commonPart([amount * part, whole * MILLION]);
      denominator *= below / commonPart([below, denominator]);
      if (denominator > MOST_DENOMINATOR) return undefined;
    }
    const whole = told.map(([amount, below], at) =>
      Number(amount * part * denominator / (below * MILLION) * (at < budget ? sizes[payers.cohorts[at]] : 1n)));
    if (!whole.every(Number.isSafeInteger)) return undefined;
    const numerators = Float64Array.from(whole.slice(0, budget));
    return { payers, whole: { denominator: Number(denominator), budget: whole[budget], numerators } };
  }
}

/** Solves the programme, and says how many steps were made. Undefined where it has too many numbers. */
export function* byProgramme(problem: Problem, stable: boolean): Generator<number, Solved | undefined> {
  const { decided, funded, cohorts: { sizes } } = problem, payments = payersOf(problem).cohorts.length;
  const rows = funded.length + problem.unfunded.length + sizes.length + (stable ? sizes.length + payments : 0);
  if (rows * (payments + sizes.length + rows) > MOST_NUMBERS || !problem.unfunded.length) return undefined;
  const programme = new Programme(problem, stable), tableau = new Tableau(programme.variables, programme.rows, programme.budget);
  const isPriced = yield* tableau.solve(), multipliers = tableau.multipliers();
  if (!isPriced) return { isPriced, isCovered: false, weights: programme.weights(multipliers, 1n, 0n) };
  const values = tableau.values(), [budget, whole] = values[programme.budget], voters = BigInt(votersIn(decided));
  const isCovered = budget * programme.part * voters > decided.limit * whole, prices = programme.prices(values);
  return isCovered ? { isPriced, isCovered, prices }
    : { isPriced, isCovered, prices, weights: programme.weights(multipliers, voters, multipliers.scale) };
}
