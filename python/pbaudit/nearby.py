"""The check of prices near the given ones: where they are floats, or have denominators that no certificate has.

A yes is the auditor's to exact prices that keep all conditions, and that are off by no more than noise (noise.py). A no
is its answer to prices that are only rounded, and counts where the given ones fail at that place by more than noise.
"""
from dataclasses import dataclass, field
from fractions import Fraction
from typing import TYPE_CHECKING, Dict, List, Optional, Set, Tuple

from ._auditor import Mode, Question
from .amounts import MOST_DENOMINATOR, common_denominator
from .auditing import Verdict, verdict, with_moved
from .certificates import certified, payable, scale_of, scaled_election
from .decided import DecidedElection
from .noise import NOISE, beyond_noise
from .rounding import CannotKeep, LeftOut
from .values import Payments, Projects, check_count
from .writing import Payers, price_file

if TYPE_CHECKING:
    from .finding.clock import Clock

# A condition, and the voter (from 1) and the place of the project where it fails, as far as it names them.
Place = Tuple[str, Optional[int], Optional[int]]


def verdict_near(decided: DecidedElection, projects: Projects, voter_budget: object, payments: Payments, mode: Mode,
                 clock: "Clock") -> Verdict:
    """The verdict on prices near these. Raises CannotKeep where neither a yes nor a no is found."""
    check_count(len(decided.ballots), len(payments.functions))
    budget = payable(voter_budget, "the voter budget")
    scale = scale_of(decided, budget)
    election = scaled_election(decided, projects, scale)
    try:
        made = certified(decided, projects, budget, payments, mode.stable, mode.exhaustive, is_near=True, clock=clock)
    except CannotKeep:
        # One below 0 is so by no more than noise.
        rounded = _rounded(decided, projects, max(budget, Fraction(0)), payments, scale)
        found = verdict(Question("prices", election, rounded.file(projects), mode=mode))
        if not rounded.is_plain_no(found, projects, mode.stable):
            raise
        return with_moved(found, rounded.moved, rounded.certificate_budget - budget)
    return with_moved(verdict(Question("prices", election, made.file, mode=mode)), made.moved, made.raised)


def _rounded(decided: DecidedElection, projects: Projects, budget: Fraction, payments: Payments, scale: int) -> "_Rounded":
    """The payments, each rounded by itself. Raises ValueError where one is below 0 by more than noise."""
    rounded = _Rounded(decided, budget, scale)
    for voter, function in enumerate(payments.functions, 1):
        what = f"voter {voter} pays for"
        places = projects.once(projects.places(function, what), what)
        rounded.add(voter, dict(zip(places, payments.own(voter, function))))
    rounded.leave_noise_out()
    return rounded


@dataclass
class _Rounded:
    """Payments rounded to numerators over one fine denominator, in a unit that is so many times smaller. What is noise
    where nothing should be is left out."""

    decided: DecidedElection
    budget: Fraction
    scale: int
    denominator: int = field(init=False)
    noise: Fraction = field(init=False)
    moved: Fraction = Fraction(0)
    certificate_budget: Fraction = Fraction(0)
    paid: List[Dict[int, int]] = field(default_factory=list)
    # Payments where nothing should be; and where those stand that are more than noise.
    odd: List[LeftOut] = field(default_factory=list)
    misplaced: Set[Place] = field(default_factory=set)
    # What each funded project is paid before it is paid for exactly, and what each voter spends.
    totals: Dict[int, int] = field(default_factory=dict)
    spent: List[int] = field(default_factory=list)

    def __post_init__(self) -> None:
        unit = common_denominator(cost * self.scale for cost in self.decided.costs)
        self.denominator = MOST_DENOMINATOR // unit * unit * self.scale
        self.noise = self.budget * NOISE

    def add(self, voter: int, given: Dict[int, object]) -> None:
        """Takes what a voter pays."""
        ballot, mine = set(self.decided.ballots[voter - 1]), {}
        for place, amount in given.items():
            exact = payable(amount, f"what voter {voter} pays for {self.decided.names[place]}")
            numerator = exact.numerator * self.denominator // exact.denominator
            if exact > 0 and place in ballot and place in self.decided.funded:
                mine[place] = numerator
                self.moved = max(self.moved, exact - Fraction(numerator, self.denominator))
            elif exact:
                condition = "C2" if exact < 0 else "C1" if place not in ballot else "C4"
                self.odd.append(LeftOut(voter - 1, place, exact, condition))
        self.paid.append(mine)

    def leave_noise_out(self) -> None:
        """Takes what is more than noise for payments, and leaves out the rest. Raises ValueError where more than noise
        is below 0."""
        beyond = set(beyond_noise(self.decided, self.odd, self.noise))
        for one in self.odd:
            if one not in beyond:
                self.moved = max(self.moved, abs(one.amount))
                continue
            if one.amount < 0:
                raise ValueError(f"voter {one.voter + 1} pays {one.amount} for {self.decided.names[one.project]}, and a "
                                 "certificate has no payments below 0")
            # No payment is rounded to none.
            numerator = max(1, one.amount.numerator * self.denominator // one.amount.denominator)
            self.paid[one.voter][one.project] = numerator
            if one.condition == "C1":
                self.misplaced.add(("C1", one.voter + 1, one.project))
            if one.project not in self.decided.funded:
                self.misplaced.add(("C4", None, one.project))
        for mine in self.paid:
            self.spent.append(sum(mine.values()))
            for place, numerator in mine.items():
                self.totals[place] = self.totals.get(place, 0) + numerator

    def _missing(self, place: int) -> int:
        return int(self.decided.costs[place] * self.denominator) - self.totals.get(place, 0)

    def _fails_by_much(self, place: int) -> bool:
        """Whether a funded project isn't paid for, by more than rounding and noise."""
        noise = self.decided.costs[place] * NOISE * self.denominator
        return abs(self._missing(place)) > noise + len(self.decided.slots[place])

    def _is_over(self, voter: int) -> bool:
        """Whether a voter (from 1) spends more than the budget by more than noise."""
        return self.spent[voter - 1] > (self.budget + self.noise) * self.denominator

    def file(self, projects: Projects) -> bytes:
        """The certificate, in which projects are paid for exactly where no more than noise is missing, and the budget is
        one by which nobody is over it by noise alone."""
        missing = {place: self._missing(place) for place in self.decided.funded if not self._fails_by_much(place)}
        totals, settled = dict(self.totals), []
        for mine in self.paid:
            kept = dict(mine)
            for place, numerator in mine.items():
                # Each payment has its part of what is missing, and the last one the rest.
                more = missing[place] * numerator // totals[place] if missing.get(place) and numerator else 0
                kept[place] += more
                missing[place] = missing.get(place, 0) - more
                totals[place] -= numerator
            settled.append(kept)
        exact = self.budget * self.denominator
        budget = max([-(-exact.numerator // exact.denominator),
                      *(sum(kept.values()) for voter, kept in enumerate(settled, 1) if not self._is_over(voter))])
        self.certificate_budget = Fraction(budget, self.denominator)
        return price_file(self.denominator // self.scale, budget, projects, _payers(settled))

    def is_plain_no(self, found: Verdict, projects: Projects, stable: bool) -> bool:
        """Whether the auditor found that the rounded prices fail where the given ones do by more than noise."""
        place = None if found.project is None else projects.place[found.project]
        if found or found.condition in ("Feasible", "Exhaustive"):
            return not found
        if found.condition == "C2":
            return found.voter is not None and self._is_over(found.voter)
        assert place is not None, "all other conditions name a project"
        if found.condition == "C3":
            return self._fails_by_much(place)
        if found.condition in ("C5", "S5"):
            return self._has_too_much(place, stable)
        return (str(found.condition), found.voter, place) in self.misplaced

    def _has_too_much(self, place: int, stable: bool) -> bool:
        """Whether the supporters of an unfunded project have more left, or can offer more, than it costs."""
        budget = self.budget * self.denominator
        total, supporters = Fraction(0), self.decided.supporters[place]
        for voter in supporters:
            offer = budget - self.spent[voter]
            if stable:
                offer = max(offer, Fraction(max(self.paid[voter].values(), default=0)))
            total += offer
        payments = sum(len(self.paid[voter]) for voter in supporters)
        return total > self.decided.costs[place] * (1 + NOISE) * self.denominator + payments


def _payers(paid: List[Dict[int, int]]) -> Payers:
    """The payments of voters as a certificate has them."""
    for voter, mine in enumerate(paid, 1):
        yield [voter] * len(mine), list(mine), list(mine.values())
