"""The search for prices: by water-filling, then by the linear programme, or by an interior-point method where there are many
different ballots; and how what is found is made exact.

Of many prices those are looked for that keep C5 or S5 with room, since only these stay prices when they are rounded.
They are made exact by `price_certificate`'s own rounding, and audited.
"""
from dataclasses import dataclass, replace
from fractions import Fraction
from functools import cached_property
from typing import Callable, Iterator, List, Optional, Tuple

from ..amounts import MOST_DENOMINATOR, common_denominator
from ..auditing import audit_prices
from ..certificates import DENOMINATORS, certified
from ..helpers import Helper
from ..rounding import CannotKeep
from ..values import Payments, Projects
from .clock import Clock
from .deciding import Decision, Decisions
from .programme import TOLERANCE, NoPrices, OutOfTime, Unsolved, by_programme
from .results import FoundPrices
from .shares import Need, Problem, Shares, budgets, payments_of, unpaid
from .water_filling import by_water_filling

# Why no prices were found.
NONE, TIME, UNSOLVED, ROUNDING, UNPAID = "none", "time", "unsolved", "rounding", "unpaid"
# For how many seconds what was found may be rounded even where time is over.
LAST = 5.0
# Is told of prices that are kept while better ones are looked for.
Keep = Callable[[FoundPrices], None]


@dataclass(frozen=True)
class Given:
    """What a search is about: the files, as the auditor gets them, and the problem that they pose."""

    election: bytes
    outcome: Optional[bytes]
    projects: Projects
    problem: Problem
    exhaustive: bool

    @cached_property
    def decisions(self) -> Decisions:
        """What is decided by the interior-point method, which serves prices and refutations."""
        return Decisions(self.problem)


def find_prices(given: Given, stable: bool, covered: bool, solver: Helper, clock: Clock,
                keep: Keep) -> Tuple[Optional[FoundPrices], str]:
    """Prices, with Cover where there are some, or None and why none were found. Where `covered`, those without Cover
    don't count; else `keep` is told of them before those with Cover are looked for."""
    if unpaid(given.problem) is not None:
        return None, UNPAID
    try:
        found, why = _found(given, stable, covered, solver, clock, keep)
        return found and also_with_cover(given, found), why
    except NoPrices:
        return None, NONE
    except OutOfTime:
        return None, TIME
    except Unsolved:
        return None, UNSOLVED


def _found(given: Given, stable: bool, covered: bool, solver: Helper, clock: Clock,
           keep: Keep) -> Tuple[Optional[FoundPrices], str]:
    problem, with_cover, without = given.problem, Need(stable, True), Need(stable, False)
    shares, failed = by_water_filling(problem, with_cover, clock)
    found = shares and _exact(given, shares, with_cover, clock)
    if found or covered:
        found = found or _exact(given, _solved(given, with_cover, failed, solver, clock), with_cover, clock)
        return found, "" if found else ROUNDING
    decision = given.decisions.of(with_cover, clock)
    if decision is not None:
        return _decided(given, decision, without, solver, clock)
    # Where there are none without Cover there are none with it.
    shares, failed = by_water_filling(problem, without, clock)
    spare = shares and _exact(given, shares, without, clock)
    if spare and also_with_cover(given, spare).cover:
        return spare, ""
    if not spare:
        shares = _solved(given, without, failed, solver, clock)
        found = _exact(given, shares, with_cover, clock)
        spare = None if found else _exact(given, shares, without, clock)
    if spare:
        keep(spare)
    try:
        found = found or _exact(given, _solved(given, with_cover, failed, solver, clock), with_cover, clock)
    except (NoPrices, OutOfTime, Unsolved):
        pass
    return found or spare, "" if found or spare else ROUNDING


def _decided(given: Given, with_cover: Decision, without: Need, solver: Helper,
             clock: Clock) -> Tuple[Optional[FoundPrices], str]:
    """Prices by what was decided of those with Cover, and otherwise without. Raises NoPrices, OutOfTime and Unsolved."""
    found = with_cover.shares and _exact(given, with_cover.shares, replace(without, cover=True), clock)
    if not found:
        spare, failed = by_water_filling(given.problem, without, clock)
        found = _exact(given, spare or _solved(given, without, failed, solver, clock), without, clock)
    return found, "" if found else ROUNDING


def _solved(given: Given, need: Need, failed: List[int], solver: Helper, clock: Clock) -> Shares:
    """Prices by the interior-point method, where this suits, or by the programme. Raises NoPrices, OutOfTime and
    Unsolved."""
    decision = given.decisions.of(need, clock)
    if decision is None:
        return by_programme(given.problem, need, failed, solver, clock)
    if decision.shares is None:
        raise NoPrices
    return decision.shares


def _exact(given: Given, shares: Shares, need: Need, clock: Clock) -> Optional[FoundPrices]:
    """A certificate near these payments that the auditor accepts, or None. One is tried even where time is over."""
    clock.tell(f"{need}: rounding")
    payments = Payments(payments_of(given.problem, shares))
    unit = common_denominator(given.problem.decided.costs[project] for project in given.problem.funded)
    for budget in _voter_budgets(given.problem, shares, need):
        # A finer denominator may keep Cover where the first that keeps all else doesn't.
        finer = DENOMINATORS[1:] if need.cover else DENOMINATORS[1:-1]
        for wanted in (None, *(min(-(-each // unit), MOST_DENOMINATOR // unit) * unit for each in finer)):
            found = rounded(given, payments, budget, wanted, need, clock)
            if found or not clock.left():
                return found
    return None


def rounded(given: Given, payments: Payments, budget: Optional[Fraction], denominator: Optional[int], need: Need,
             clock: Clock) -> Optional[FoundPrices]:
    decided = given.problem.decided
    try:
        made = certified(decided, given.projects, budget, payments, need.stable, given.exhaustive, denominator,
                         clock=Clock(max(clock.left(), LAST)))
    except CannotKeep:
        return None
    verdict = audit_prices(given.election, made.file, given.outcome, stable=need.stable, exhaustive=given.exhaustive,
                           cover=need.cover)
    return FoundPrices(made, verdict, need.stable, given.exhaustive, need.cover) if verdict else None


def also_with_cover(given: Given, found: FoundPrices) -> FoundPrices:
    """The same prices, as those that were asked for with Cover where they have it, however they were found."""
    verdict = found.verdict if found.cover else audit_prices(given.election, found.file, given.outcome, stable=found.stable,
                                                             exhaustive=found.exhaustive, cover=True)
    return replace(found, verdict=verdict, cover=True) if verdict else found


def _voter_budgets(problem: Problem, shares: Shares, need: Need) -> Iterator[Optional[Fraction]]:
    """Budgets of a voter to try, in the currency: a short one that leaves room on both sides, then the ends."""
    low, high = budgets(problem, shares, need.stable)
    low = max(low, problem.share) if need.cover else low
    if low > high * (1 + TOLERANCE) + TOLERANCE:
        return
    if low < high:
        yield _short(low * problem.unit, min(high, 1.25 * low + 1e-3) * problem.unit)
    yield None
    if not need.cover and problem.decided.limit:
        yield problem.decided.limit / len(problem.decided.ballots)


def _short(low: float, high: float) -> Fraction:
    """A number of few digits in the middle half between two others."""
    first, last = Fraction(low + (high - low) / 4), Fraction(high - (high - low) / 4)
    scale = 1
    while True:
        number = Fraction(-(-first.numerator * scale // first.denominator), scale)
        if number <= last or scale > 10**12:
            return number
        scale *= 10
