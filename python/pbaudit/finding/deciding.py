"""Decides by the interior-point method whether there are prices: payments that keep C5 or S5 with room, or weights by which
U2 and U3 hold with room, whichever comes first."""
from dataclasses import dataclass, replace
from typing import Any, Dict, Optional, Set

from .clock import Clock
from .interior import Interior, Stuck
from .needs import needed
from .programme import TOLERANCE, OutOfTime, Unsolved
from .shares import Need, Problem, Shares, budgets
from .voters import Voters, Weights

np = needed("numpy")

# The method is for more groups than these, in the plain form and in the stable one; and not where what isn't funded costs
# less than this part of what costs most.
MANY, MANY_STABLE, FAR = 500, 200, 1e-6
# A margin that is good enough; and which part of the one that can still be hoped for is.
GOOD, ENOUGH = 0.05, 0.5
MOST_STEPS = 200
# Payments of less than these parts of a budget are left out, the most first, as long as this part of the room remains.
SMALL, REMAINING = (0.05, 0.01, 1e-3, 1e-5, 1e-8), 0.5


@dataclass(frozen=True)
class Decision:
    """Payments by which C5 or S5 is kept, or weights that refute all of them."""

    shares: Optional[Shares] = None
    weights: Optional[Weights] = None


def suit(problem: Problem, stable: bool) -> bool:
    """Whether the method is sooner than HiGHS: where there are many different ballots, and everything that isn't funded
    costs enough for C5 to be kept with a margin."""
    least = FAR * float(problem.costs.max(initial=0.0))
    return bool(len(problem.groups) > (MANY_STABLE if stable else MANY) and problem.funded and problem.unfunded
                and (problem.costs[problem.unfunded] > least).all())


class Decisions:
    """What was decided of a problem, for each kind of prices."""

    def __init__(self, problem: Problem):
        self.problem = problem
        self._decided: Dict[Need, Decision] = {}
        self._unsolved: Set[bool] = set()

    def suit(self, need: Need) -> bool:
        """Whether these prices are decided here, and not by HiGHS."""
        return need.stable not in self._unsolved and suit(self.problem, need.stable)

    def of(self, need: Need, clock: Clock) -> Optional[Decision]:
        """Payments or weights; None where HiGHS is to be asked. Raises OutOfTime."""
        known = self.known(need)
        if known is None and self.suit(need):
            try:
                known = self._decided[need] = Search(self.problem, need).decision(clock)
            except Unsolved:
                self._unsolved.add(need.stable)
        return known

    def known(self, need: Need) -> Optional[Decision]:
        """What is known by this or other decisions: weights that refute all prices refute those with Cover, and so on."""
        for other, decision in self._decided.items():
            weights, shares = decision.weights, decision.shares
            if weights is not None and (need.stable or not other.stable) and (need.cover or not weights.cover):
                return decision
            if shares is not None and (other.stable or not need.stable) and (other.cover or not need.cover):
                return decision
        return None


class Search:
    """A search that ends in a decision."""

    def __init__(self, problem: Problem, need: Need):
        self._problem, self._need = problem, need
        self._voters, self._method = Voters(problem, need.stable), Interior(problem, need)
        # The best weights so far by which U2 holds, and by how much U3 does.
        self._weights: Optional[Weights] = None
        self._over = TOLERANCE
        self._paid, self._owed = problem.costs[problem.funded], problem.costs[problem.unfunded]

    def decision(self, clock: Clock) -> Decision:
        """Payments or weights. Raises OutOfTime and Unsolved."""
        for number in range(1, MOST_STEPS + 1):
            clock.tell(f"{self._need}: interior-point method, step {number}")
            if not clock.left():
                return self._so_far(OutOfTime)
            try:
                self._method.advance()
            except Stuck:
                break
            decision = self._decided()
            if decision is not None:
                return decision
        return self._so_far(Unsolved)

    def _decided(self) -> Optional[Decision]:
        margin, bound = self._method.margin, self._method.bound
        is_near = abs(bound - margin) < ENOUGH * abs(bound)
        if margin > TOLERANCE and (margin >= GOOD or is_near):
            shares = self._shares()
            if shares is not None:
                return Decision(shares=shares)
        if bound < -TOLERANCE:
            self._weigh(self._method.weights())
            if self._weights is not None and (self._over >= GOOD or is_near):
                return Decision(weights=self._weights)
        return None

    def _so_far(self, otherwise: Any) -> Decision:
        """What is known when nothing more is done. Raises this where that is nothing."""
        shares = self._shares() if self._method.margin > TOLERANCE else None
        if shares is None and self._weights is None:
            raise otherwise
        return Decision(shares=shares) if shares is not None else Decision(weights=self._weights)

    def _shares(self) -> Optional[Shares]:
        """The payments so far without small ones, where they keep C5 or S5."""
        whole = self._method.shares(0.0)
        spare = self._spare(whole)
        if spare <= TOLERANCE:
            return None
        fewer = map(self._method.shares, SMALL)
        return next((shares for shares in fewer if self._spare(shares) >= REMAINING * spare), whole)

    def _spare(self, shares: Shares) -> float:
        low, high = budgets(self._problem, shares, self._need.stable)
        return high / max(low, self._problem.share if self._need.cover else 0.0) - 1

    def _weigh(self, weights: Weights) -> None:
        """Keeps weights where they are the best so far; those without Cover, which refute more prices, where they are good."""
        if self._need.cover:
            self._try(replace(weights, cover=0.0))
        if self._over < GOOD:
            self._try(weights)

    def _try(self, weights: Weights) -> None:
        """Keeps weights where they are the best so far, with room in U2 and in U3."""
        owed = float(self._owed @ weights.unfunded)
        worth = float(self._paid @ weights.funded) + weights.cover * self._problem.share * len(self._problem.decided.ballots)
        if not worth > 0 or not owed > 0:
            return
        greatest, least = self._voters.greatest(weights), owed / worth
        if greatest / least - 1 > self._over:
            self._over, self._weights = greatest / least - 1, weights.scaled(float(np.sqrt(greatest * least)))
