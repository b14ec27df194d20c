/* Makes weights whole, by which U1 to U3 then hold exactly: first as they are, by small numbers; and then with room in U2 and
   in U3, in ever finer parts. They are rounded so that U2 holds: `least` and the weight of Cover down, `most` and `left` up. */

import { largest } from "./shares.js";
import { owedBy, scaled, Voters, worthOf } from "./voters.js";
import type { Refutation } from "./groups.js";
import type { Weight } from "./certificates.js";
import type { Problem } from "./shares.js";
import type { Weights } from "./voters.js";

/** What a float may be off where it is meant for a whole number. */
const NEAR = 1e-9;
/** The greatest weight that a file may have. */
const MOST = 1e12;
const SCALES = [1, 2, 6, 12, 60, 1e3, 1e4, 1e6, 1e9, 1e12];
/** What X(i), which is whole, may need besides the parts of the weights. */
const BESIDES = [1, 2, 3, 4, 5, 6, 12, 60, 840, 2520, 27720];

/** Whole weights near these that refute; those of small numbers first. */
export function* wholeWeights(problem: Problem, stable: boolean, weights: Weights):
    Generator<number, Refutation | undefined> {
  const voters = new Voters(problem, stable);
  const tried = [unit(weights), roomy(problem, voters, weights)].flatMap(each => SCALES.map(scale => ({ each, scale })));
  for (const { each, scale } of tried) {
    yield scale;
    const found = roundedBy(each, scale).find(rounded => holds(problem, voters, rounded));
    if (found) return refutationBy(problem, voters, lowest(problem, voters, found));
  }
  return undefined;
}

/** The refutation by weights that are whole and exact, but for what X(i) needs to be whole. */
export function exactWeights(problem: Problem, stable: boolean, weights: Weights): Refutation | undefined {
  const voters = new Voters(problem, stable), { funded, unfunded, cover } = weights;
  for (const more of BESIDES) {
    const each = (weight: number): number => weight * more;
    const tried = { funded: funded.map(each), unfunded: unfunded.map(each), cover: each(cover) };
    if (largest([...tried.funded.map(Math.abs), ...tried.unfunded], tried.cover) > MOST) return undefined;
    if (holds(problem, voters, tried)) return refutationBy(problem, voters, tried);
  }
  return undefined;
}

/** The weights, of which the greatest is made 1. */
function unit({ funded, unfunded, cover }: Weights): Weights {
  const part = 1 / largest([...funded.map(Math.abs), ...unfunded], cover);
  return scaled({ funded, unfunded: unfunded.map(weight => weight * part), cover }, part);
}

/** The weights with those of funded projects and of Cover so great that U2 and U3 have room alike. */
function roomy(problem: Problem, voters: Voters, weights: Weights): Weights {
  const worth = worthOf(problem, weights), greatest = voters.greatest(weights);
  const least = worth > 0 ? owedBy(problem, weights) / worth : greatest;
  return unit(scaled(weights, greatest > least && least > 0 ? Math.sqrt(greatest * least) : greatest));
}

/** Whole weights, so many times as great: those that are near a whole number taken for it, and then not. */
const roundedBy = ({ funded, unfunded, cover }: Weights, scale: number): Weights[] => [NEAR, 0].map(near => ({
  funded: funded.map(weight => Math.floor(weight * scale + near)),
  unfunded: unfunded.map(weight => Math.max(0, Math.ceil(weight * scale - near))),
  cover: Math.floor(cover * scale + near),
}));

/** U2 and U3, exactly. */
function holds({ decided, funded, unfunded }: Problem, voters: Voters, weights: Weights): boolean {
  const sum = (places: readonly number[], own: Float64Array): bigint =>
    places.reduce((all, place, at) => all + decided.costs[place] * BigInt(own[at]), 0n);
  const over = sum(funded, weights.funded) + decided.limit * BigInt(weights.cover) - sum(unfunded, weights.unfunded);
  return (over > 0n || over === 0n && weights.cover > 0) && voters.wholeTotal(weights) <= 0n;
}

const divisor = (one: number, other: number): number => other ? divisor(other, one % other) : Math.abs(one);

/** These weights over what divides all of them, since their proportions matter alone, but for what X(i) needs to be whole. */
function lowest(problem: Problem, voters: Voters, weights: Weights): Weights {
  const { funded, unfunded, cover } = weights, part = [...funded, ...unfunded].reduce(divisor, cover) || 1;
  for (const more of BESIDES.filter(each => each < part)) {
    const each = (weight: number): number => weight / part * more;
    const lower = { funded: funded.map(each), unfunded: unfunded.map(each), cover: each(cover) };
    if (holds(problem, voters, lower)) return lower;
  }
  return weights;
}

/** What the weights say of projects, with some for funded ones that cost nothing, by which these have no part in U2. */
function refutationBy(problem: Problem, voters: Voters, weights: Weights): Refutation {
  const { decided, funded, unfunded } = problem, contributions = voters.wholeContributions(weights), rows: Weight[] = [];
  const put = (project: number, weight: number): void => {
    if (!weight) return;
    const role = !decided.isFunded[project] ? "left" : weight > 0 ? "least" : "most";
    rows.push({ role, project, weight: Math.abs(weight) });
  };
  funded.forEach((project, at) => put(project, weights.funded[at]));
  unfunded.forEach((project, at) => put(project, weights.unfunded[at]));
  decided.ids.forEach((_, project) => {
    if (decided.isFunded[project] && !decided.costs[project]) put(project, voters.leastOf(project, contributions));
  });
  return { cover: weights.cover, weights: rows.sort((one, other) => one.project - other.project) };
}
