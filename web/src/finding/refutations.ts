/* The search for refutations: weights of the projects by which no prices can support an outcome. They are those of the
   interior-point method, made whole, or of few voters those of the exact programme. */

import { votersIn } from "./decided_election.js";
import { told } from "./deciding.js";
import { exactWeights, wholeWeights } from "./whole.js";
import type { Decisions, Progress } from "./deciding.js";
import type { Refutation } from "./groups.js";
import type { Need } from "./shares.js";
import type { Weights } from "./voters.js";

/** A refutation, and whether it is one of stable prices alone. */
export interface FoundRefutation extends Refutation {
  readonly stable: boolean;
}

/**
 * The kinds of prices whose refutation is one of those that are wanted: plain ones first, since that says more, and those
 * with Cover first, since where there are some nothing refutes all prices.
 */
export const refutingNeeds = ({ stable, cover }: Need): Need[] => [false, ...stable ? [true] : []].flatMap(each =>
  [...cover ? [true] : [], false].map(covered => ({ stable: each, cover: covered })));

/** Looks for a refutation of prices. One of those with Cover alone is kept where there is none of all. */
export function* findRefutation(decisions: Decisions, wanted: Need): Generator<Progress, FoundRefutation | undefined> {
  // Nobody's budgets aren't more than any limit.
  if (!votersIn(decisions.problem.decided)) return wanted.cover ? { cover: 1, weights: [], stable: false } : undefined;
  let kept: FoundRefutation | undefined;
  for (const need of refutingNeeds(wanted)) {
    const found = yield* refutationOfKind(decisions, need);
    if (found && !found.cover) return found;
    kept ??= found;
  }
  return kept;
}

/** Looks for a refutation of prices of one kind. */
function* refutationOfKind(decisions: Decisions, need: Need): Generator<Progress, FoundRefutation | undefined> {
  const { problem } = decisions, { stable } = need, known = yield* knownOf(decisions, need);
  if (known.isPriced) return undefined;
  const found = known.weights && (yield* told("whole", need, wholeWeights(problem, stable, known.weights)));
  if (found) return { ...found, stable };
  const weights = (yield* decisions.byProgramme(need))?.weights;
  const exact = weights && (need.cover || !weights.cover) ? exactWeights(problem, stable, weights) : undefined;
  return exact && { ...exact, stable };
}

/** What is known of prices of a kind, by the methods in floats. */
function* knownOf(decisions: Decisions, need: Need): Generator<Progress, { isPriced: boolean; weights?: Weights }> {
  const known = decisions.known(need);
  if (known) return known;
  if (yield* decisions.byWaterFilling(need)) return { isPriced: true };
  const { shares, weights } = yield* decisions.byInterior(need);
  return { isPriced: shares !== undefined, weights };
}
