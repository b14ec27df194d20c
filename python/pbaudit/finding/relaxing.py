"""By how much the condition on unfunded projects has to give way until prices support an outcome; and how large a voter
budget can be where they do.

The linear programme for prices has the smallest relaxation in floats. One that is a little greater is exact: with the
unfunded projects costing so much more, prices are looked for and audited as for any election.
"""
from dataclasses import replace
from fractions import Fraction
from typing import Any, Dict, List, Optional, Tuple

from ..amounts import MILLION, MOST_COST, MOST_DENOMINATOR, common_denominator
from ..certificates import PriceCertificate, certified
from ..decided import DecidedElection
from ..helpers import Helper
from ..rounding import CannotKeep
from ..tables import PriceSystem
from ..values import Payments, Projects
from ..writing import election_file
from .clock import Clock
from .needs import needed
from .prices import Given, find_prices
from .programme import NoPrices, OutOfTime, Programme, Unsolved, Variables, answer_to, programme_of, shares_of
from .results import By, Found, FoundPrices, Relaxation, Wanted
from .search import Seeker
from .shares import Need, Problem, payments_of, unpaid

np, sparse = needed("numpy"), needed("scipy.sparse")

# How much more than the smallest relaxation is tried, in parts of what it is measured by, until exact prices are found.
ROOMS = (Fraction(1, 10**6), Fraction(1, 10**5), Fraction(1, 10**4), Fraction(1, 1000), Fraction(1, 100))


def relaxed(election: bytes, by: By, stable: bool, cover: bool, clock: Clock) -> Optional[Relaxation]:
    """The relaxation with the smallest beta for the outcome of an election, or None where none was found."""
    seeker = Seeker(Found(), election, None, Wanted(stable, cover), None)
    problem = seeker.given.problem
    if not problem.unfunded:
        raise ValueError("nobody approves an unfunded project, so that there is nothing to relax")
    if seeker.bare.condition == "Feasible":
        return None
    with Helper() as solver:
        try:
            least = _least(problem, Need(stable, cover), by, solver, clock)
        except (NoPrices, OutOfTime, Unsolved):
            return None
        for room in ROOMS:
            found = _exact(seeker.given, _beta(problem, least, room, by), by, Need(stable, cover), solver, clock)
            if found or not clock.left():
                return found
    return None


def _least(problem: Problem, need: Need, by: By, solver: Helper, clock: Clock) -> float:
    """The smallest beta in floats, of "min_add" in the currency. Raises NoPrices, OutOfTime and Unsolved."""
    clock.tell(f"smallest relaxation of {need}: linear programme")
    groups = problem.groups.merged([*problem.funded, *problem.unfunded])
    programme, _, _ = programme_of(problem, groups, problem.unfunded, need)
    if by == "min_mul":
        return 1.0 - float(answer_to(programme, solver, clock).values[Variables.MARGIN])
    answer = answer_to(_by_amount(programme, problem), solver, clock)
    return -float(answer.values[Variables.MARGIN]) * problem.unit


def _by_amount(programme: Programme, problem: Problem) -> Programme:
    """The programme with a margin that is an amount, the same for each unfunded project, and no part of its cost. No project
    costs less than nothing, whether or not somebody approves it."""
    costs = problem.costs[problem.unfunded]
    at = np.arange(len(costs)), np.full(len(costs), Variables.MARGIN)
    high = programme.high.copy()
    high[Variables.MARGIN] = float(np.min(problem.costs[problem.decided.unfunded]))
    return replace(programme, rows=programme.rows + sparse.csr_matrix((1.0 - costs, at), programme.rows.shape), high=high)


def _beta(problem: Problem, least: float, room: Fraction, by: By) -> Fraction:
    """A beta with a little room, of few digits."""
    costs = problem.decided.costs
    measure = Fraction(1) if by == "min_mul" else (
        max(costs[project] for project in problem.unfunded) or max(costs) or Fraction(1))
    return (-(-Fraction(least) / measure // room) + 1) * room * measure


def _exact(given: Given, beta: Fraction, by: By, need: Need, solver: Helper, clock: Clock) -> Optional[Relaxation]:
    """Exact prices in the election whose unfunded projects cost so much more, or None."""
    decided, names = given.problem.decided, given.projects
    costs = [cost if project in decided.funded else cost * beta if by == "min_mul" else max(cost + beta, Fraction(0))
             for project, cost in enumerate(decided.costs)]
    scale = common_denominator(amount * MILLION for amount in (*costs, decided.limit))
    if max((*costs, decided.limit)) * scale > MOST_COST:
        return None
    clock.tell(f"relaxation by {float(beta):.9g}")
    found = _prices_of(names, DecidedElection(names.ids, [cost * scale for cost in costs], decided.limit * scale,
                                              decided.funded, decided.ballots), need, solver, clock)
    if found is None:
        return None
    system = found.certificate.price_system
    assert system.voter_budget is not None and system.payment_functions is not None, "prices have both"
    paid = [{name: amount / scale for name, amount in mine.items()} for mine in system.payment_functions]
    return Relaxation(by, beta, found.verdict, PriceSystem(system.status, system.voter_budget / scale, paid))


def _prices_of(projects: Projects, decided: DecidedElection, need: Need, solver: Helper, clock: Clock) -> Optional[FoundPrices]:
    election = election_file(projects, decided.costs, decided.limit, decided.ballots, decided.funded)
    seeker = Seeker(Found(), election, None, Wanted(need.stable, need.cover), None)
    found, _ = find_prices(seeker.given, need.stable, need.cover, solver, clock, lambda _: None)
    return found


def with_largest_budget(election: bytes, stable: bool, clock: Clock) -> Optional[PriceCertificate]:
    """Prices with the largest voter budget for the outcome of an election, or None where none were found."""
    seeker = Seeker(Found(), election, None, Wanted(stable), None)
    problem, need = seeker.given.problem, Need(stable)
    if not problem.unfunded:
        raise ValueError("nobody approves an unfunded project, so that a voter budget can be as large as you like")
    if seeker.bare.condition == "Feasible" or unpaid(problem) is not None:
        return None
    unit = common_denominator(problem.decided.costs[project] for project in problem.funded)
    with Helper() as solver:
        try:
            clock.tell(f"largest voter budget of {need}: linear programme")
            most = _with_budget(problem, need, None, solver, clock)[0]
            for room in (Fraction(0), *ROOMS):
                budget = _digits(Fraction(most) * Fraction(problem.unit) * (1 - room))
                found = _budgeted(seeker.given, need, budget, MOST_DENOMINATOR // unit * unit, solver, clock)
                if found:
                    return found
        except (NoPrices, OutOfTime, Unsolved):
            pass
    return None


def _budgeted(given: Given, need: Need, budget: Fraction, denominator: int, solver: Helper,
              clock: Clock) -> Optional[PriceCertificate]:
    """A certificate with this voter budget, or None. Raises OutOfTime."""
    problem = given.problem
    clock.tell(f"voter budget {float(budget):.9g}")
    try:
        _, paid = _with_budget(problem, need, float(budget) / problem.unit, solver, clock)
        return certified(problem.decided, given.projects, budget, Payments(paid), need.stable, given.exhaustive, denominator,
                         clock=clock)
    except (CannotKeep, NoPrices, Unsolved):
        return None


def _digits(amount: Fraction) -> Fraction:
    """The amount, rounded down to so many digits as it has room for."""
    grain = Fraction(1, 10**9)
    while grain * 10**9 < amount:
        grain *= 10
    return amount // grain * grain


def _with_budget(problem: Problem, need: Need, budget: Optional[float], solver: Helper,
                 clock: Clock) -> Tuple[float, List[Dict[str, float]]]:
    """The largest voter budget where none is given, and else the payments by this one that leave the most room."""
    groups = problem.groups.merged([*problem.funded, *problem.unfunded])
    programme, paying, column = programme_of(problem, groups, problem.unfunded, need)
    objective, low, high = programme.objective, programme.low.copy(), programme.high.copy()
    if budget is None:
        objective = np.zeros(len(objective))
        objective[Variables.BUDGET] = -1.0
        low[Variables.MARGIN] = high[Variables.MARGIN] = 0.0
    else:
        low[Variables.BUDGET] = high[Variables.BUDGET] = budget
    values = answer_to(replace(programme, objective=objective, low=low, high=high), solver, clock).values
    return float(values[Variables.BUDGET]), payments_of(problem, shares_of(problem, groups, values, paying, column))
