"""What groups of voters pay, in floats: what a search for prices comes to before it is made exact."""
from dataclasses import dataclass
from typing import Any, Dict, List, Optional, Tuple

from ..decided import DecidedElection
from .groups import Groups
from .needs import needed

np = needed("numpy")


@dataclass(frozen=True)
class Need:
    """Which prices are looked for."""

    stable: bool = False
    cover: bool = False

    def __str__(self) -> str:
        return ("stable prices" if self.stable else "prices") + (" with Cover" if self.cover else "")


@dataclass(frozen=True)
class Problem:
    """An election with its outcome for a search: its groups, what projects cost in a unit by which a voter's share of
    the limit is 1 (where the limit is 0, in the currency), the funded projects that cost something, and the unfunded
    ones that somebody approves."""

    decided: DecidedElection
    groups: Groups
    unit: float
    costs: Any
    funded: List[int]
    unfunded: List[int]

    @property
    def share(self) -> float:
        """A voter's share of the limit."""
        return 1.0 if self.decided.limit else 0.0


def problem_of(decided: DecidedElection, groups: Groups) -> Problem:
    """The problem that an election poses."""
    voters = len(decided.ballots)
    unit = float(decided.limit / voters) if voters and decided.limit else 1.0
    costs = np.array([float(cost) for cost in decided.costs]) / unit
    funded = [project for project in sorted(decided.funded) if decided.costs[project]]
    unfunded = [project for project in decided.unfunded if len(decided.supporters[project])]
    return Problem(decided, groups, unit, costs, funded, unfunded)


@dataclass(frozen=True)
class Shares:
    """What each voter of a group pays: the groups, projects and amounts of payments, and the budget of a voter. The
    voters of these groups have the same payments; groups may be merged from those of the problem."""

    groups: Groups
    group: Any
    project: Any
    amount: Any

    def spent(self) -> Any:
        """What each voter of a group spends."""
        return np.bincount(self.group, weights=self.amount, minlength=len(self.groups))

    def dearest(self) -> Any:
        """The largest payment of each voter of a group."""
        most = np.zeros(len(self.groups))
        np.maximum.at(most, self.group, self.amount)
        return most


def excesses(problem: Problem, shares: Shares, budget: float, stable: bool) -> Any:
    """By how much more the supporters of each unfunded project have left together, or can offer, than it costs."""
    each = budget - shares.spent()
    if stable:
        each = np.maximum(each, shares.dearest())
    # Voter by voter, since the groups of the shares may be merged ones; and back to the groups of the problem.
    of_group = np.zeros(len(problem.groups))
    of_group[problem.groups.of_voter] = each[shares.groups.of_voter]
    return problem.groups.sums(of_group)[problem.unfunded] - problem.costs[problem.unfunded]


def budgets(problem: Problem, shares: Shares, stable: bool) -> Tuple[float, float]:
    """The least and the greatest budget of a voter by which these payments keep C2, and C5 or S5. The least may be the
    greater one."""
    least = float(shares.spent().max(initial=0.0))
    supporters = problem.groups.sums(np.ones(len(problem.groups)))[problem.unfunded]
    if not len(supporters):
        return least, float("inf")
    if not stable:
        over = excesses(problem, shares, least, False)
        return least, least + float((-over / supporters).min())
    return least, _greatest_stable(problem, shares, least)


def _greatest_stable(problem: Problem, shares: Shares, least: float) -> float:
    """The greatest budget that keeps S5, by halving; less than the least where that doesn't."""
    if excesses(problem, shares, least, True).max() > 0:
        return least - float(excesses(problem, shares, least, True).max())
    low, high = least, 2 * least + float(problem.costs.max()) + 1
    for _ in range(60):
        middle = (low + high) / 2
        if excesses(problem, shares, middle, True).max() > 0:
            high = middle
        else:
            low = middle
    return low


def payments_of(problem: Problem, shares: Shares) -> List[Dict[str, float]]:
    """The payments of each voter by the ids of projects, in the currency. Those for one project are scaled to what it
    costs, since what is a rounding beside a large payment may be much of a small one."""
    names = problem.decided.names
    by_group: List[Dict[str, float]] = [{} for _ in range(len(shares.groups))]
    paid = np.bincount(shares.project, shares.groups.sizes[shares.group] * shares.amount, len(problem.costs))
    scales = np.divide(problem.costs, paid, out=np.ones(len(paid)), where=paid > 0)
    amounts = (shares.amount * scales[shares.project] * problem.unit).tolist()
    for group, project, amount in zip(shares.group.tolist(), shares.project.tolist(), amounts):
        if amount > 0:
            by_group[group][names[project]] = amount
    return [by_group[group] for group in shares.groups.of_voter.tolist()]


def unpaid(problem: Problem) -> Optional[int]:
    """A funded project that costs something and that nobody approves, or None."""
    return next((project for project in problem.funded if not len(problem.decided.slots[project])), None)
