"""The search for refutations: weights of the projects by which no prices can support an outcome.

They are the marginals of the linear programme for prices where its best margin is below 0; or where there are many
different ballots an interior-point method has them. They are made whole, and audited.
"""
from dataclasses import replace
from typing import Any, List, Optional, Tuple

from ..auditing import audit_refutation
from ..helpers import Helper
from ..writing import write_refutation
from .clock import Clock
from .needs import needed
from .prices import NONE, ROUNDING, TIME, UNSOLVED, Given
from .programme import (
    FIRST, TOLERANCE, Answer, NoPrices, OutOfTime, Programme, Unsolved, Variables, answer_to, programme_of, shares_of,
    unseen,
)
from .results import FoundRefutation
from .shares import Need, Problem, unpaid
from .voters import Weights
from .water_filling import by_water_filling
from .whole import Whole, whole_weights

np, sparse = needed("numpy"), needed("scipy.sparse")

# What costs less than this part of a voter's share is taken for what costs nothing.
LITTLE = 1e-4
# How many weights that should refute are audited at most.
MOST_AUDITS = 3


class NoWeights(Exception):
    """There are none: there are prices."""


def refuting_needs(stable: bool, cover: bool) -> List[Need]:
    """The kinds of prices whose refutation is one of those that are wanted: plain ones first, since that says more, and
    those with Cover first, since where there are some nothing refutes all prices."""
    return [Need(each, covered) for each in (False, True)[:1 + stable] for covered in (True, False)[not cover:]]


def find_refutation(given: Given, need: Need, solver: Helper, clock: Clock) -> Tuple[Optional[FoundRefutation], str]:
    """A refutation of all prices of a kind; or None and why none was found."""
    problem = given.problem
    nobody = unpaid(problem)
    if nobody is not None:
        return audited(given, Whole({nobody: 1}, 0), need), ROUNDING
    if need.cover and not len(problem.decided.ballots):
        # Nobody's budgets aren't more than any limit.
        return audited(given, Whole({}, 1), need), ROUNDING
    try:
        return _exact(given, need, _weights(given, need, solver, clock), clock), ROUNDING
    except NoWeights:
        return None, NONE
    except OutOfTime:
        return None, TIME
    except (Unsolved, NoPrices):
        return None, UNSOLVED


def _weights(given: Given, need: Need, solver: Helper, clock: Clock) -> Weights:
    """Weights in floats. Raises NoWeights where there are prices, OutOfTime and Unsolved."""
    known = given.decisions.known(need)
    if known is None:
        shares, worst = by_water_filling(given.problem, need, clock)
        if shares is not None:
            raise NoWeights
        known = given.decisions.of(need, clock)
        if known is None:
            return _marginals(given.problem, need, worst, solver, clock)
    if known.weights is None:
        raise NoWeights
    return known.weights


def _marginals(problem: Problem, need: Need, worst: List[int], solver: Helper, clock: Clock) -> Weights:
    """The weights by the programme for prices. Raises NoWeights where its best margin isn't below 0, OutOfTime and
    Unsolved."""
    seen = problem.unfunded if need.stable else sorted(worst[:FIRST] or problem.unfunded[:1])
    while True:
        clock.tell(f"refutation of {need}: linear programme over {len(seen)} of {len(problem.unfunded)} unfunded projects")
        groups = problem.groups.merged([*problem.funded, *seen])
        programme, paying, column = programme_of(problem, groups, seen, need)
        answer = answer_to(_relaxed(programme, problem.costs[seen]), solver, clock)
        budget, margin = answer.values[Variables.BUDGET], answer.values[Variables.MARGIN]
        if margin < -TOLERANCE:
            return _of_programme(problem, answer, len(groups), seen)
        shares = shares_of(problem, groups, answer.values, paying, column)
        more = unseen(problem, need, shares, budget, margin, seen)
        if not more:
            raise NoWeights
        seen = sorted({*seen, *more})


def _of_programme(problem: Problem, answer: Answer, groups: int, seen: Any) -> Weights:
    """The weights that the marginals of a programme over so many groups are."""
    unfunded = np.zeros(len(problem.costs))
    unfunded[seen] = np.maximum(-answer.rows[:len(seen)], 0.0)
    funded = answer.sums[groups:groups + len(problem.funded)]
    cover = max(float(answer.low[Variables.BUDGET]), 0.0) / len(problem.decided.ballots)
    return Weights(funded, unfunded[problem.unfunded], cover)


def _relaxed(programme: Programme, costs: Any) -> Programme:
    """The programme where the margin counts also for what costs nothing, or so little that HiGHS takes it for nothing, so that
    it can be satisfied; and no budget is preferred, since that would leave a part of U2 open."""
    free = np.flatnonzero(costs < LITTLE)
    at = free, np.full(len(free), Variables.MARGIN)
    return replace(programme, rows=programme.rows + sparse.csr_matrix((np.ones(len(free)), at), programme.rows.shape),
                   objective=np.where(programme.objective < 0, programme.objective, 0.0))


def _exact(given: Given, need: Need, weights: Weights, clock: Clock) -> Optional[FoundRefutation]:
    """The first of several roundings that the auditor accepts, of small weights first."""
    clock.tell(f"refutation of {need}: whole weights")
    for _, whole in zip(range(MOST_AUDITS), whole_weights(given.problem, need.stable, weights)):
        found = audited(given, whole, need)
        if found:
            return found
    return None


def audited(given: Given, whole: Whole, need: Need) -> Optional[FoundRefutation]:
    """The refutation of these weights, where the auditor accepts it."""
    names, funded = given.projects.ids, given.problem.decided.funded
    left = {names[at]: weight for at, weight in whole.projects.items() if at not in funded}
    least = {names[at]: weight for at, weight in whole.projects.items() if at in funded and weight > 0}
    most = {names[at]: -weight for at, weight in whole.projects.items() if at in funded and weight < 0}
    file = write_refutation(least=least, most=most, left=left, cover=whole.cover)
    verdict = audit_refutation(given.election, file, given.outcome, stable=need.stable)
    return FoundRefutation(least, most, left, whole.cover, verdict, file) if verdict else None
