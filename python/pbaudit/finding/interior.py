"""Prices with the largest margin, or weights that refute them, by an interior-point method for many different ballots.

The linear programme for prices has some variables for each voter, but what binds voters together is a row for each project.
So each step (Mehrotra's predictor and corrector) comes to equations in the weights of projects alone: it takes a few passes
over the ballots, whose memory it needs some twenty times, and the number of steps hardly depends on that of voters.

Amounts are parts of the voter budget, of which projects cost the more the smaller it is: by the inverse of the budget, which
is bounded where Cover is wanted. The margin is what each unfunded project could still have besides, as a part of its cost.
"""
from dataclasses import dataclass
from typing import Any, List, Tuple, Type

from .needs import needed
from .programme import COVERED
from .shares import Need, Problem, Shares
from .spending import Bounds, Offerers, Spenders, Steps
from .voters import Weights

np = needed("numpy")

# How far from the bounds amounts are at first, as a product of an amount and its multiplier.
START = 0.1
# Which part of a budget is paid at most at first; and how much room there is at first for the margin.
PAID, ROOM = 0.8, 0.5
# Which part of the way to a bound a step goes.
BOLD = 0.99
# Steps of less than this don't lead on.
STILL = 1e-6


class Stuck(Exception):
    """The method gets no farther."""


@dataclass(frozen=True)
class Direction:
    """Where a step leads: the weights, those of unfunded projects with the other sign, and the margin at its end; and the
    steps of all bounds."""

    weights: Any
    margin: float
    bounds: List[Steps]


class Interior:
    """The method's state: prices that are paid for whole, and weights."""

    def __init__(self, problem: Problem, need: Need):
        voters = len(problem.decided.ballots)
        self._problem = problem
        self._paid, self._owed = (problem.costs[each] / voters for each in (problem.funded, problem.unfunded))
        self._costs = np.concatenate([self._paid, self._owed])
        approvals = problem.groups.approvals
        funded, unfunded = (approvals[:, each].tocsr() for each in (problem.funded, problem.unfunded))
        # At first all supporters of a funded project pay the same.
        each = self._paid / (funded.T @ (problem.groups.sizes / voters))
        most = 1 / (1 + COVERED) if need.cover else np.inf
        inverse = min(0.5 * most, PAID / float((funded @ each).max()))
        kinds, parts = _kinds(unfunded, need.stable), problem.groups.sizes / voters
        self._numbers = [numbers for numbers, _ in kinds]
        self._groups = [
            kind(funded[numbers], unfunded[numbers], parts[numbers], inverse * each[funded[numbers].indices], START)
            for numbers, kind in kinds]
        self._begin(inverse, most)

    def _begin(self, inverse: float, most: float) -> None:
        offered = self._totals()[len(self._paid):]
        self.margin = float((inverse - offered / self._owed).min()) - ROOM
        self._funded = np.zeros(len(self._paid))
        self._room = Bounds.of(self._owed * (inverse - self.margin) - offered, 1.0, START)
        self._inverse = Bounds.of(np.array([inverse]), 1.0, START)
        self._cover = Bounds.of(np.array([most - inverse]), 1.0, START) if most < np.inf else None
        self._most = most if most < np.inf else 0.0
        own = [self._room, self._inverse] + ([] if self._cover is None else [self._cover])
        self._bounds = [each for group in self._groups for each in group.bounds] + own
        self._count = sum(float(each.parts.sum()) for each in self._bounds)

    def weights(self) -> Weights:
        """The weights so far."""
        cover = 0.0 if self._cover is None else float(self._cover.multipliers[0])
        return Weights(self._funded, self._room.multipliers, cover)

    @property
    def bound(self) -> float:
        """How great the margin can be at most by the weights, once these are near to being right."""
        own = sum(float(group.value(self._room.multipliers)) for group in self._groups)
        return float(own + self.weights().cover * self._most)

    def shares(self, least: float) -> Shares:
        """The payments so far, but for those of less than this part of the budget that aren't the largest for a project; what
        is left of those for a project is scaled to what it costs."""
        made = [group.payments() for group in self._groups]
        group = np.concatenate([numbers[groups] for numbers, (groups, _, _) in zip(self._numbers, made)])
        place, amount = (np.concatenate([each[at] for each in made]) for at in (1, 2))
        largest = np.zeros(len(self._paid))
        np.maximum.at(largest, place, amount)
        kept = amount >= np.minimum(least, largest[place])
        group, place, amount = group[kept], place[kept], amount[kept]
        paid = np.bincount(place, amount * self._problem.groups.sizes[group], len(self._paid))
        costs = self._problem.costs[self._problem.funded]
        scales = np.divide(costs, paid, out=np.zeros(len(costs)), where=paid > 0)
        return Shares(self._problem.groups, group, np.array(self._problem.funded, np.int64)[place], amount * scales[place])

    def advance(self) -> None:
        """One step. Raises Stuck."""
        gap = sum(each.gap() for each in self._bounds)
        with np.errstate(all="ignore"):
            equations = self._equations()
            free = [np.zeros(len(each.amounts)) for each in self._bounds]
            first = self._direction(equations, free)
            target = gap / self._count * (self._gap_after(first) / gap)**3
            # What the first step leaves out counts as far as that step can be made; otherwise steps may go in a circle.
            far, high = self._lengths(first)
            second = self._direction(equations, [
                target - far * high * amounts * multipliers for amounts, multipliers in first.bounds])
            amounts, multipliers = (min(1.0, BOLD * length) for length in self._lengths(second))
        if not max(amounts, multipliers) > STILL or not np.isfinite(second.margin):
            raise Stuck
        self._move(second, amounts, multipliers)

    def _equations(self) -> Any:
        """The equations in the weights, those of unfunded projects with the other sign, and the margin."""
        count, paid = len(self._costs), len(self._paid)
        made = np.zeros((count + 1, count + 1))
        for group in self._groups:
            made[:count, :count] += group.matrix()
        at = np.arange(paid, count)
        made[at, at] += 1 / self._room.stiffness
        made[:count, :count] += np.outer(self._costs, self._costs) / self._hold()
        made[paid:count, count] = made[count, paid:count] = self._owed
        return made

    def _hold(self) -> float:
        """How stiff the inverse of the budget is held by its bounds."""
        return float(self._inverse.stiffness[0] + (0.0 if self._cover is None else self._cover.stiffness[0]))

    def _direction(self, equations: Any, targets: List[Any]) -> Direction:
        """The step to where the products are these."""
        paid = len(self._paid)
        aims = [target / each.amounts for target, each in zip(targets, self._bounds)]
        pulls, at = [], 0
        for group in self._groups:
            pulls.append(group.pulls(aims[at:at + len(group.bounds)]))
            at += len(group.bounds)
        room, low, *high = aims[at:]
        drawn = float(low[0]) - sum(float(each[0]) for each in high)
        totals = self._totals() + sum(group.totals(*group.step(pull)) for group, pull in zip(self._groups, pulls))
        right = self._costs * (float(self._inverse.amounts[0]) + drawn / self._hold()) - totals
        right[paid:] -= self._room.amounts + room / self._room.stiffness
        try:
            solved = np.linalg.solve(equations, np.append(right, -1.0))
        except np.linalg.LinAlgError:
            raise Stuck from None
        weights, rise = solved[:-1], float(drawn - self._costs @ solved[:-1]) / self._hold()
        amounts: List[Any] = []
        for group, pull in zip(self._groups, pulls):
            amounts += group.steps(*group.step(group.pulled(pull, weights[:paid], -weights[paid:])))
        amounts += [(room + weights[paid:]) / self._room.stiffness, np.array([rise]), np.array([-rise])]
        return Direction(weights, float(solved[-1]), [
            (step, aim - each.multipliers - each.stiffness * step) for step, aim, each in zip(amounts, aims, self._bounds)])

    def _totals(self) -> Any:
        return sum(group.totals(group.spent.amounts, group.offers) for group in self._groups)

    def _lengths(self, direction: Direction) -> Tuple[float, float]:
        """How far amounts, and multipliers, can go until one is 0."""
        pairs = list(zip(self._bounds, direction.bounds))
        return (min(_length(each.amounts, amounts) for each, (amounts, _) in pairs),
                min(_length(each.multipliers, multipliers) for each, (_, multipliers) in pairs))

    def _gap_after(self, direction: Direction) -> float:
        far, high = self._lengths(direction)
        return sum(float(((each.amounts + far * amounts) * (each.multipliers + high * multipliers)) @ each.parts)
                   for each, (amounts, multipliers) in zip(self._bounds, direction.bounds))

    def _move(self, direction: Direction, far: float, high: float) -> None:
        for each, (amounts, multipliers) in zip(self._bounds, direction.bounds):
            each.amounts = each.amounts + far * amounts
            each.multipliers = each.multipliers + high * multipliers
        self.margin += far * (direction.margin - self.margin)
        self._funded = self._funded + high * (direction.weights[:len(self._paid)] - self._funded)


def _kinds(unfunded: Any, stable: bool) -> List[Tuple[Any, Type[Spenders]]]:
    """The groups of each kind, by their numbers. Those who approve no unfunded project offer nothing to anyone."""
    offering = (np.diff(unfunded.indptr) > 0) & stable
    kinds = [(np.flatnonzero(offering), Offerers), (np.flatnonzero(~offering), Spenders)]
    return [(numbers, kind) for numbers, kind in kinds if len(numbers)]


def _length(amounts: Any, steps: Any) -> float:
    """How many times a step can be made until an amount is 0, at most once."""
    falling = steps < 0
    return min(1.0, float((-amounts[falling] / steps[falling]).min())) if falling.any() else 1.0
