"""Water-filling: prices without a solver.

Each funded project in its turn is paid for so that those of its supporters who have spent least pay, up to one level;
again and again, until nothing moves: what voters spend is then as equal as can be. Where the supporters of an unfunded
project have more left than it costs, they are taken for richer by what they lack of spending, and the water flows anew.
"""
from typing import Any, List, Optional, Tuple

from .clock import Clock
from .needs import needed
from .shares import Need, Problem, Shares, budgets

np = needed("numpy")

SWEEPS, MORE_SWEEPS, ROUNDS = 60, 8, 60
STILL = 1e-9
# How far C5 is to be kept, as a part of what a project costs.
ROOM = 1e-3
# After so many rounds by which the budget that C5 allows isn't nearer to the one that is needed, it is given up.
PATIENCE, NEARER = 10, 0.99


class WaterFilling:
    """Payments of the supporters of funded projects, and how rich the groups are taken for."""

    def __init__(self, problem: Problem):
        self.problem, groups = problem, problem.groups
        columns = groups.approvals.tocsc()
        self.payers = [columns.indices[columns.indptr[at]:columns.indptr[at + 1]] for at in problem.funded]
        self.sizes = [groups.sizes[payers] for payers in self.payers]
        self.paid = [np.zeros(len(payers)) for payers in self.payers]
        self.levels = [np.inf] * len(self.payers)
        self.spent, self.richer = np.zeros(len(groups)), np.zeros(len(groups))

    def settle(self, most: int, clock: Clock) -> None:
        """Sweeps over the projects until nothing moves, or so often."""
        for _ in range(most):
            if max((self._fill(at) for at in range(len(self.payers))), default=0.0) < STILL or not clock.left():
                return

    def _fill(self, at: int) -> float:
        """Shares the cost of one project, and answers how far a payment moved."""
        payers = self.payers[at]
        rest = self.spent[payers] - self.paid[at]
        height = rest - self.richer[payers]
        self.levels[at] = _level(height, self.sizes[at], self.problem.costs[self.problem.funded[at]], self.levels[at])
        paid = np.maximum(self.levels[at] - height, 0.0)
        moved = float(np.abs(paid - self.paid[at]).max())
        self.spent[payers], self.paid[at] = rest + paid, paid
        return moved

    def shares(self) -> Shares:
        """The payments as they are."""
        group = np.concatenate([*self.payers, np.zeros(0, np.int64)]).astype(np.int64)
        project = np.repeat(np.array(self.problem.funded, np.int64), [len(payers) for payers in self.payers])
        return Shares(self.problem.groups, group, project, np.concatenate([*self.paid, np.zeros(0)]))


def _level(height: Any, sizes: Any, cost: float, start: float) -> float:
    """The level up to which a cost fills heights, by Newton's method from another level. Since the sum is convex, the
    level only falls after the first step, and ever fewer heights are below it."""
    below = height < start
    if not below.any():
        below[:] = True
    count = len(height) + 1
    while True:
        weights = sizes[below]
        level = float((cost + (weights * height[below]).sum()) / weights.sum())
        below = height < level
        found = int(below.sum())
        if not found or found >= count:
            return level
        count = found


def by_water_filling(problem: Problem, need: Need, clock: Clock) -> Tuple[Optional[Shares], List[int]]:
    """Prices, or None where none were found so; and the unfunded projects by which they failed, the worst first."""
    filling = WaterFilling(problem)
    clock.tell(f"{need}: water-filling")
    filling.settle(SWEEPS, clock)
    costs, unfunded = problem.costs[problem.unfunded], problem.unfunded
    supporters = problem.groups.sums(np.ones(len(problem.groups)))[unfunded]
    asked, over = np.zeros(len(problem.costs)), np.zeros(len(unfunded))
    least, best, since = problem.share + STILL if need.cover else 0.0, np.inf, 0
    for number in range(ROUNDS):
        shares = filling.shares()
        low, high = budgets(problem, shares, need.stable)
        low = max(low, least)
        if low <= high:
            return shares, []
        best, since = (low - high, 0) if low - high < NEARER * best else (best, since + 1)
        if need.stable or since > PATIENCE or not clock.left():
            break
        clock.tell(f"{need}: water-filling, round {number + 1} of at most {ROUNDS}")
        left = problem.groups.sums(low - filling.spent)[unfunded]
        over = left - (1 - ROOM) * costs
        asked[unfunded] = np.maximum(asked[unfunded] + np.where(over > 0, 1.0, 0.25) * over / supporters, 0.0)
        filling.richer = problem.groups.approvals @ asked
        filling.settle(MORE_SWEEPS, clock)
    worst = sorted((-by / max(problem.costs[at], ROOM), at) for by, at in zip(over.tolist(), unfunded) if by > 0)
    return None, [project for _, project in worst]
