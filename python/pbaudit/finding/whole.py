"""Makes weights whole, by which U1 to U3 then hold exactly: first as they are, by small numbers, which the corners of a
linear programme often are; then as they are over what their parts have in common; and then with room in U2 and in U3, in ever
finer parts. They are rounded so that U2 holds: `least` and the weight of Cover down, `most` and `left` up.
"""
from dataclasses import dataclass
from fractions import Fraction
from functools import reduce
from math import gcd, lcm
from typing import Any, Dict, Iterator

from .needs import needed
from .shares import Problem
from .voters import Voters, Weights

np = needed("numpy")

# What a float may be off where it is meant for a whole number.
NEAR = 1e-9
SCALES = (1, 2, 6, 12, 60, 10**3, 10**4, 10**6, 10**9, 10**12)
# Parts of corners are at most of this; and what X(i), which is whole, may need besides.
MOST_PART, BESIDES = 1000, (1, 2, 3, 4, 5, 6, 12, 60, 840, 2520, 27720)
MOST = 10**12


@dataclass(frozen=True)
class Whole:
    """Whole weights of projects by their places, below 0 for `most`, and of Cover."""

    projects: Dict[int, int]
    cover: int


def whole_weights(problem: Problem, stable: bool, weights: Weights) -> Iterator[Whole]:
    """Whole weights near these that refute, as far as numbers of 64 bits tell; those of small numbers first."""
    voters, weights = Voters(problem, stable), _scaled(weights)
    common = _common(weights)
    scales = [*SCALES, *(common * more for more in BESIDES if common and common * more <= MOST)]
    for tried in (weights, _roomy(problem, voters, weights)):
        for scale in scales:
            for rounded in _rounded(tried, scale):
                if holds(problem, voters, rounded):
                    yield whole_of(problem, voters, _lowest(problem, voters, rounded))


def _scaled(weights: Weights) -> Weights:
    """The weights, of which the greatest is made 1."""
    most = max(np.abs(weights.funded).max(initial=0.0), weights.unfunded.max(initial=0.0), weights.cover)
    return Weights(weights.funded / most, weights.unfunded / most, weights.cover / most)


def _common(weights: Weights) -> int:
    """The common denominator of weights that are fractions of small numbers, or 0 where they aren't."""
    common = 1
    for weight in (*weights.funded.tolist(), *weights.unfunded.tolist(), float(weights.cover)):
        near = Fraction(weight).limit_denominator(MOST_PART)
        if abs(near - Fraction(weight)) > NEAR:
            return 0
        common = lcm(common, near.denominator)
        if common > MOST:
            return 0
    return common


def _roomy(problem: Problem, voters: Voters, weights: Weights) -> Weights:
    """The weights with those of funded projects and of Cover so great that U2 and U3 have room alike."""
    worth = float(_worth(problem, weights))
    greatest = voters.greatest(weights)
    least = float(problem.costs[problem.unfunded] @ weights.unfunded) / worth if worth > 0 else greatest
    return _scaled(weights.scaled((greatest * least)**0.5 if greatest > least > 0 else greatest))


def _worth(problem: Problem, weights: Weights) -> Any:
    """What funded projects and Cover are worth by the weights."""
    limit = problem.share * len(problem.decided.ballots)
    return problem.costs[problem.funded] @ weights.funded + weights.cover * limit


def _rounded(weights: Weights, scale: int) -> Iterator[Weights]:
    """Whole weights, so many times as great: those that are near a whole number taken for it, and then not."""
    for near in (NEAR, 0.0):
        yield Weights(np.floor(weights.funded * scale + near), np.ceil(weights.unfunded * scale - near),
                      int(np.floor(weights.cover * scale + near)))


def holds(problem: Problem, voters: Voters, weights: Weights) -> bool:
    """U2 and U3, exactly."""
    each = zip(voters.sizes.tolist(), voters.whole_contributions(weights).tolist())
    if sum(int(size) * own for size, own in each) + len(problem.decided.ballots) * weights.cover > 0:
        return False
    costs = problem.decided.costs
    over = sum((costs[at] * int(weight) for at, weight in zip(problem.funded, weights.funded)), Fraction(0))
    over += problem.decided.limit * weights.cover
    over -= sum(costs[at] * int(weight) for at, weight in zip(problem.unfunded, weights.unfunded))
    return over > 0 or over == 0 and weights.cover > 0


def _lowest(problem: Problem, voters: Voters, weights: Weights) -> Weights:
    """These weights over what divides all of them, since their proportions matter alone, but for what X(i) needs to be
    whole."""
    part = reduce(gcd, map(int, (*weights.funded, *weights.unfunded)), weights.cover) or 1
    for more in BESIDES:
        lower = Weights(weights.funded // part * more, weights.unfunded // part * more, weights.cover // part * more)
        if more < part and holds(problem, voters, lower):
            return lower
    return weights


def whole_of(problem: Problem, voters: Voters, weights: Weights) -> Whole:
    """The weights by the places of projects, with some for funded projects that cost nothing, by which these have no part in
    U2."""
    whole = {at: int(weight) for places, given in ((problem.funded, weights.funded), (problem.unfunded, weights.unfunded))
             for at, weight in zip(places, given) if weight}
    free, contributions = problem.decided.funded.difference(problem.funded), voters.whole_contributions(weights)
    for project in sorted(free):
        least = int(contributions[voters.supporters(project)].min(initial=0))
        if least:
            whole[project] = least
    return Whole(whole, weights.cover)
