"""Budgets in a row by which the Method of Equal Shares buys the same, so that they needn't be gone through one by one.

The rule is run for all budgets from one to another at once: of what a voter has left only the least and the most are
known. What is bought is the same for all of them where the prices of a unit are as far apart as that.
"""
from dataclasses import dataclass
from fractions import Fraction
from typing import Dict, List, Optional, Protocol, Sequence, Tuple

from .amounts import least_multiple


class Unsure(Exception):
    """Rounded amounts leave a doubt."""


class ValuedElection(Protocol):
    """An election as the rule needs it: what each project costs, what it is worth, and who approves it."""

    @property
    def costs(self) -> Sequence[Fraction]: ...

    @property
    def worth(self) -> Sequence[Fraction]: ...

    @property
    def supporters(self) -> Sequence[Sequence[int]]: ...

    @property
    def voters(self) -> int: ...


def level(lefts: List[int], missing: int) -> Optional[Tuple[int, List[int], int]]:
    """How supporters who have so much left, and not nothing, share a cost: what those pay together who don't pay all
    that is left, what these have, and the most that another one has, who pays that; None where it isn't enough."""
    if sum(lefts) < missing:
        return None
    richest = 0
    while True:
        # Who has less than an equal share of what is missing pays all.
        most = -(-missing // len(lefts))
        poor = [left for left in lefts if left < most]
        if not poor:
            return missing, lefts, richest
        richest = max(richest, max(poor))
        missing -= sum(poor)
        # Somebody is left, since all together have as much as is missing.
        lefts = [left for left in lefts if left >= most]


@dataclass(frozen=True)
class Prices:
    """The least and the greatest price of a unit of a project, and what a supporter pays at least and at most, unless it
    has less left."""

    low: Fraction
    high: Fraction
    least: int
    most: int


class Between:
    """The rule for all budgets from one to another. Raises Unsure where it isn't sure that all of them buy the same."""

    def __init__(self, rule: ValuedElection, low: Fraction, high: Fraction):
        self._rule = rule
        self._scale = least_multiple(amount.denominator for amount in (low, high, *rule.costs))
        self._low, self._high = ([int(budget * self._scale)] * rule.voters for budget in (low, high))
        # The least price of a unit that each project has, whoever is left to pay.
        self._bounds = {project: cost / len(supporters) / worth for project, (cost, supporters, worth)
                        in enumerate(zip(rule.costs, rule.supporters, rule.worth)) if cost and supporters}
        while self._bounds:
            self._buy_next()

    def _buy_next(self) -> None:
        """Buys the project whose price is the least by all budgets, where there is one that can be paid for."""
        fresh: Dict[int, Prices] = {}
        while True:
            project = min(self._bounds, key=lambda each: (self._bounds[each], each))
            if project in fresh:
                break
            self._look_at(project, fresh)
            if not self._bounds:
                return
        prices = fresh[project]
        for other in [each for each, bound in self._bounds.items() if (bound, each) < (prices.high, project)]:
            if other not in fresh:
                self._look_at(other, fresh)
            if other != project and other in self._bounds and (self._bounds[other], other) < (prices.high, project):
                raise Unsure
        del self._bounds[project]
        for voter in self._rule.supporters[project]:
            self._low[voter] = max(0, self._low[voter] - prices.most)
            self._high[voter] = max(0, self._high[voter] - prices.least)

    def _look_at(self, project: int, fresh: Dict[int, Prices]) -> None:
        """Has the prices of a project among the fresh ones; one that can't be paid for is left out from now on."""
        prices = self._prices(project)
        if prices is None:
            del self._bounds[project]
        else:
            fresh[project], self._bounds[project] = prices, prices.low

    def _prices(self, project: int) -> Optional[Prices]:
        supporters = self._rule.supporters[project]
        cost = int(self._rule.costs[project] * self._scale)
        cheap, dear = (level(list(filter(None, map(left.__getitem__, supporters))), cost)
                       for left in (self._high, self._low))
        if cheap is None:
            return None
        if dear is None:
            raise Unsure
        worth = self._rule.worth[project] * self._scale
        return Prices(Fraction(cheap[0], len(cheap[1])) / worth, Fraction(dear[0], len(dear[1])) / worth,
                      cheap[0] // len(cheap[1]), -(-dear[0] // len(dear[1])))


class Leap:
    """How many steps to try at once. They double as long as that holds; after a failure it is tried again ever later."""

    _LONGEST_PAUSE = 64

    def __init__(self) -> None:
        self.steps, self._pause, self._left = 1, 1, 1

    def has_stepped(self) -> None:
        """One step was made."""
        self._left -= 1
        if not self._left:
            self.steps = 2

    def has_held(self) -> None:
        """All steps were made at once."""
        self.steps, self._pause = 2 * self.steps, 1

    def has_failed(self) -> None:
        """It wasn't sure that the same is bought."""
        self.steps //= 2
        if self.steps == 1:
            self._left = self._pause = min(2 * self._pause, self._LONGEST_PAUSE)
