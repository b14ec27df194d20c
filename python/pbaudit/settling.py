"""How payments come to be numerators by which all conditions hold: the ways to try, one after the other.

First they are only rounded, over each denominator; then the simplest fractions near them are, since those of a solver
often have such; then what a linear programme finds near them. Where that can't be had, parts of payments are moved.
"""
from array import array
from dataclasses import dataclass, field
from fractions import Fraction
from numbers import Real
from typing import TYPE_CHECKING, Any, Callable, List, Optional, Sequence

from .amounts import MOST_DENOMINATOR, least_multiple, near
from .decided import DecidedElection
from .files import checked_call
from .noise import NOISE, check_moves
from .rounding import CannotKeep, Given, Rounding

if TYPE_CHECKING:
    from .finding.clock import Clock, Tell

SECONDS = 60.0
# How far payments may move that needn't stay near, in parts of the voter budget.
FARTHER = (NOISE, Fraction(1, 1000), Fraction(1))
# How many times as much as the finest amount that is, at least.
GRAINS = 20
# For how many seconds payments are moved where the programme knows none near them.
MOVING = 0.5


def clock_of(seconds: float = SECONDS, on_progress: "Optional[Tell]" = None) -> "Clock":
    """The time that a repair has. Raises TypeError and ValueError for what isn't a time, or can't be called."""
    # It can't be loaded before what searches load of this package.
    from .finding.clock import Clock
    checked_call("on_progress", on_progress)
    if isinstance(seconds, bool) or not isinstance(seconds, Real):
        raise TypeError(f"seconds is {seconds!r}, not a number")
    if not seconds >= 0:
        raise ValueError(f"seconds is {seconds!r}, and a repair takes at least 0")
    return Clock(float(seconds), on_progress)


@dataclass
class Settling:
    """The payments to settle, whether they have to stay near, how many times smaller the unit is, and the time there
    is."""

    decided: DecidedElection
    given: Given
    stable: bool
    is_near: bool
    scale: int
    clock: "Clock"
    _failed: Optional[CannotKeep] = field(init=False, default=None)
    _has_programme: bool = field(init=False, default=False)

    def settled(self, denominators: Sequence[int], of_simple: Optional[Callable[[Given], Optional[int]]]) -> Rounding:
        """Numerators over one of these denominators, or, where that is given, over the one that simple fractions have.
        Raises CannotKeep."""
        ways = (self._rounded, lambda tried: self._simple(of_simple), self._corrected, self._moved)
        for way in ways:
            found = way(denominators)
            if found is not None:
                return found
        failed = self._failed
        assert failed is not None, "something was tried"
        if not self.clock.left():
            told = f"{failed.args[1]}; there was too little time to look for other payments near these"
            raise CannotKeep(failed.condition, told, failed.voter, failed.project)
        raise failed

    def _rounded(self, denominators: Sequence[int]) -> Optional[Rounding]:
        # A finer denominator is found sooner than a repair.
        for tried in denominators:
            self.clock.tell(f"rounding over the denominator {tried}")
            found = self._tried(self.given, tried)
            if found is not None:
                return found
        return None

    def _simple(self, of_simple: Optional[Callable[[Given], Optional[int]]]) -> Optional[Rounding]:
        """A corner of a linear programme, where conditions are tight: the simplest fraction near each amount."""
        if of_simple is None:
            return None
        self.clock.tell("rounding to simple fractions")
        simple = _simplified(self.given)
        tried = None if simple is None else of_simple(simple)
        return None if simple is None or tried is None else self._tried(simple, tried)

    def _corrected(self, denominators: Sequence[int]) -> Optional[Rounding]:
        """What the programme finds within ever farther reaches, or within noise alone."""
        try:
            from .corrections import MOST_SLOTS, Reach, corrected
        except ImportError:
            return None
        self._has_programme = len(self.decided.project_of) <= MOST_SLOTS
        finest = max(denominators)
        # What was given exactly isn't repaired, but for what rounding needs.
        for part in FARTHER[:1] if self.is_near or self.given.is_exact else FARTHER:
            amount = self.given.budget * part
            if amount * finest * self.scale < GRAINS:
                continue
            reach = Reach(float(amount), finest * self.scale, self.is_near)
            found = corrected(self.decided, self.given, self.stable, reach, self.clock)
            rounding = None if found is None else self._tried(found, finest)
            if rounding is not None:
                return rounding
        return None

    def _moved(self, denominators: Sequence[int]) -> Optional[Rounding]:
        """Numerators over the first denominator by which parts of payments can be moved so that all conditions hold."""
        seconds = self.clock.left()
        moving = clock_of(min(MOVING, seconds) if self._has_programme else seconds)
        for tried in denominators:
            self.clock.tell(f"moving parts of payments over the denominator {tried}")
            found = self._tried(self.given, tried, moving)
            if found is not None:
                return found
        return None

    def _tried(self, given: Given, denominator: int, moving: "Optional[Clock]" = None) -> Optional[Rounding]:
        """Numerators of payments over a denominator; with a clock, parts of payments are moved in its time."""
        try:
            rounding = Rounding(self.decided, given, denominator * self.scale, self.stable, self.is_near)
            rounding.settle(moving or self.clock, moving is not None)
            if self.is_near:
                check_moves(rounding, self.given, Fraction(1, MOST_DENOMINATOR * self.scale))
        except CannotKeep as why:
            self._failed = self._failed or why
            return None
        return rounding


def _simplified(given: Given) -> Optional[Given]:
    """The simplest fractions, or None where these have no common denominator that a certificate has."""
    amounts: List[Any] = []
    common = 1
    for amount in given.amounts:
        amounts.append(_simple(near(amount, "a payment"), given.noise) if amount else 0)
        common = least_multiple((common, amounts[-1].denominator))
        if common > MOST_DENOMINATOR:
            return None
    return Given(amounts, array("d", map(float, amounts)), _simple(given.budget, given.noise), given.noise)


def _simple(amount: Fraction, noise: Fraction) -> Fraction:
    """The simplest fraction that is so near that it is likely meant."""
    for most in (1, 10, 100, 1000, 10**4):
        simple = amount.limit_denominator(most)
        if abs(amount - simple) <= min(noise, max(Fraction(1, 1000 * most**2), Fraction(1, 10**9))):
            return simple
    return amount
