/* The search for prices: by water-filling, then by an interior-point method, and of few voters by an exact programme; and how
   what is found is made exact. That nothing is found is no proof. */

import { commonDenominator } from "../elections/amounts.js";
import { fieldOf, pricesHead } from "./certificates.js";
import { votersIn } from "./decided_election.js";
import { wholeBy } from "./rounding.js";
import type { Decisions, Progress } from "./deciding.js";
import type { Exact } from "./programme.js";
import type { Whole } from "./rounding.js";
import type { Need, Payers, Problem, Shares } from "./shares.js";

const DENOMINATORS = [100, 1e4, 1e6, 1e9];
const MOST_DENOMINATOR = 1e9;
/** The file is made in pieces of about so many letters. */
const PIECE = 1 << 16;

/** Prices as the pieces of a certificate, and whether their budgets are more than the limit together. */
export interface FoundPrices {
  readonly cover: boolean;
  readonly pieces: readonly Uint8Array[];
}

/** The denominators to try: multiples near round numbers by which what is funded costs whole numbers. */
function denominatorsFor({ decided, funded }: Problem): number[] {
  const unit = commonDenominator(funded.map(project => decided.costs[project]));
  return DENOMINATORS.map(wanted => Math.min(Math.ceil(wanted / unit), Math.floor(MOST_DENOMINATOR / unit)) * unit);
}

/** Looks for prices; where budgets needn't be more than the limit together, first for such, and then for others. */
export function* findPrices(decisions: Decisions, wanted: Need): Generator<Progress, FoundPrices | undefined> {
  const { problem } = decisions;
  // Nobody's budgets aren't more than any limit.
  const covers = [...votersIn(problem.decided) ? [true] : [], ...wanted.cover ? [] : [false]];
  for (const cover of covers) {
    const exact = yield* exactPrices(decisions, { ...wanted, cover });
    if (exact) return { cover, pieces: [...piecesOf(problem, exact)] };
  }
  return undefined;
}

/** Looks for prices of one kind. */
function* exactPrices(decisions: Decisions, need: Need): Generator<Progress, Exact | undefined> {
  const { problem } = decisions;
  if (decisions.known(need)?.weights) return undefined;
  const filled = yield* decisions.byWaterFilling(need), found = filled && exactBy(problem, filled, need);
  if (found) return found;
  const { shares } = yield* decisions.byInterior(need), exact = shares && exactBy(problem, shares, need);
  if (exact) return exact;
  const solved = yield* decisions.byProgramme(need);
  return solved?.isCovered || !need.cover ? solved?.prices : undefined;
}

/** Payments near these that keep all conditions exactly. */
function exactBy(problem: Problem, shares: Shares, need: Need): Exact | undefined {
  for (const denominator of denominatorsFor(problem)) {
    const whole = wholeBy(problem, shares, denominator, need);
    if (whole) return { payers: shares.payers, whole };
  }
  return undefined;
}

/** Payments by cohorts: those of a cohort from starts[cohort] on, by rising project. */
interface ByCohort {
  readonly starts: Uint32Array;
  readonly places: Uint16Array;
  readonly amounts: Float64Array;
}

function byCohort({ cohorts: { sizes } }: Problem, payers: Payers, { numerators }: Whole): ByCohort {
  const starts = new Uint32Array(sizes.length + 1);
  payers.cohorts.forEach((cohort, at) => { starts[cohort + 1] += Number(numerators[at] > 0); });
  for (let cohort = 0; cohort < sizes.length; cohort++) starts[cohort + 1] += starts[cohort];
  const count = starts[sizes.length], ends = starts.slice();
  const places = new Uint16Array(count), amounts = new Float64Array(count);
  for (let place = 0; place + 1 < payers.starts.length; place++) {
    for (let at = payers.starts[place]; at < payers.starts[place + 1]; at++) {
      if (!numerators[at]) continue;
      const to = ends[payers.cohorts[at]]++;
      places[to] = place;
      amounts[to] = numerators[at];
    }
  }
  return { starts, places, amounts };
}

/**
 * The text of the certificate, piece by piece. What a cohort pays is dealt out to its voters in a circle, project by
 * project, so that no two of them spend more than one numerator apart.
 */
function* piecesOf(problem: Problem, { payers, whole }: Exact): Generator<Uint8Array> {
  const { decided, funded, cohorts: { sizes, ofVoter } } = problem, encoder = new TextEncoder();
  const { starts, places, amounts } = byCohort(problem, payers, whole);
  const fields = funded.map(project => fieldOf(decided.ids[project])), seen = new Float64Array(sizes.length);
  let text = pricesHead(whole.denominator, whole.budget);
  for (let voter = 0; voter < ofVoter.length; voter++) {
    const cohort = ofVoter[voter], size = sizes[cohort], member = seen[cohort]++;
    let first = 0;
    for (let at = starts[cohort]; at < starts[cohort + 1]; at++) {
      const rest = amounts[at] % size, isOneMore = (member - first + size) % size < rest;
      const amount = (amounts[at] - rest) / size + Number(isOneMore);
      first = (first + rest) % size;
      if (amount > 0) text += `${voter + 1},${fields[places[at]]},${amount}\n`;
    }
    if (text.length < PIECE) continue;
    yield encoder.encode(text);
    text = "";
  }
  yield encoder.encode(text);
}
