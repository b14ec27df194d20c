"""The search for violations: sets of demanded projects, smallest first, by branch and bound.

A group of voters is the bits of a whole number. Voters stand by rising worth of what they get, so that those who get
less than a demand is worth are the lowest bits. A group only loses voters, and its demand only gains cost, as projects
are added: a set by whose supporters the demand isn't covered is in no violation.
"""
from bisect import bisect_left
from dataclasses import dataclass
from fractions import Fraction
from typing import Callable, Dict, List, Optional, Sequence, Set, Tuple

from ..amounts import common_denominator
from ..decided import DecidedElection
from ..writing import Satisfaction

MEASURES: Tuple[Satisfaction, ...] = ("count", "cost")
# How many sets are looked at between two looks at the clock.
BETWEEN = 2000


def _ones(group: int) -> int:
    return bin(group).count("1")


# How many members a group has. Python has it from 3.10 on.
_members: Callable[[int], int] = getattr(int, "bit_count", _ones)


@dataclass(frozen=True)
class Demand:
    """A violation: the voters of the group, numbered from 1, and the places of the projects that it demands."""

    voters: List[int]
    projects: List[int]


@dataclass(frozen=True)
class Searched:
    """What a search came to: a violation or None; up to how many demanded projects all sets were tried; and whether
    there are no larger sets to try."""

    demand: Optional[Demand]
    tried: int
    is_all: bool


class _OutOfTime(Exception):
    """There was too little time."""


class Search:
    """The search for a violation by one measure. Amounts are whole numbers of one unit."""

    def __init__(self, decided: DecidedElection, by: str, go_on: Callable[[int], bool]):
        self.decided, self._is_count, self._go_on = decided, by == "count", go_on
        unit = common_denominator([decided.limit, *decided.costs])
        self.costs, self.limit = [int(cost * unit) for cost in decided.costs], int(decided.limit * unit)
        self._size = self._looked = 0
        self._best: Optional[Tuple[int, List[int], int]] = None
        self._rank()

    def _rank(self) -> None:
        """Puts the voters in order, and the projects that could be demanded by themselves: unfunded ones first, so that
        one of these is in each demand."""
        decided, costs = self.decided, self.costs
        worth = [(1 if self._is_count else cost) if at in decided.funded else 0 for at, cost in enumerate(costs)]
        got = [sum(map(worth.__getitem__, ballot)) for ballot in decided.ballots]
        self.order = sorted(range(len(got)), key=got.__getitem__)
        self.got = [got[voter] for voter in self.order]
        supporters = [0] * len(costs)
        for ballot in decided.ballots:
            for project in ballot:
                supporters[project] += 1
        candidates = [at for at, count in enumerate(supporters) if count and self._covers(count, costs[at])]
        candidates.sort(key=lambda project: (project in decided.funded, Fraction(costs[project], supporters[project])))
        groups = _bits([decided.ballots[voter] for voter in self.order], candidates)
        self.candidates = [(project, groups[project]) for project in candidates]
        self._most = self._most_projects(set(candidates))

    def _most_projects(self, candidates: Set[int]) -> int:
        """How many projects a demand has at most: so many as a voter approves, and as the limit covers."""
        total = most = 0
        for cost in sorted(self.costs[project] for project in candidates):
            total += cost
            if total > self.limit:
                break
            most += 1
        return min(most, max((len(candidates.intersection(ballot)) for ballot in self.decided.ballots), default=0))

    def _covers(self, members: int, cost: int) -> bool:
        """Whether the share of so many voters in the limit covers a cost."""
        return members * self.limit >= cost * len(self.decided.ballots)

    def found(self) -> Searched:
        """The smallest demand of a violation, and of these the one whose group's share is most over its cost."""
        is_all = self._most == 0
        while self._best is None and not is_all:
            self._size += 1
            # By counting, only those who get less than so many projects are in the group.
            group = (1 << (bisect_left(self.got, self._size) if self._is_count else len(self.got))) - 1
            try:
                is_any = self._extend([], group, 0, self.candidates)
            except _OutOfTime:
                return Searched(self._demand(), self._size - 1, False)
            is_all = self._size == self._most or not self._is_count and not is_any
        return Searched(self._demand(), self._size, is_all)

    def _extend(self, demand: List[int], group: int, cost: int, others: Sequence[Tuple[int, int]]) -> bool:
        """Tries the sets of this size that extend a demand, whose supporters are the group, by some of the others.
        Whether the share of a group covers one of them."""
        self._look(len(others))
        fitting = []
        for project, supporters in others:
            members = self._needy(group & supporters)
            if members and self._covers(_members(members), cost + self.costs[project]):
                fitting.append((project, members))
        missing, is_any = self._size - len(demand), False
        for at, (project, members) in enumerate(fitting):
            # A demand without an unfunded project is no violation.
            if len(fitting) - at < missing or not demand and project in self.decided.funded:
                break
            if missing == 1:
                self._judge([*demand, project], members, cost + self.costs[project])
                is_any = True
            elif self._extend([*demand, project], members, cost + self.costs[project], fitting[at + 1:]):
                is_any = True
        return is_any

    def _look(self, count: int) -> None:
        """Looks at the clock from time to time."""
        self._looked += count
        if self._looked > BETWEEN:
            self._looked = 0
            if not self._go_on(self._size):
                raise _OutOfTime

    def _needy(self, group: int) -> int:
        """A group without the members who by cost get no less than what the group's share can cover."""
        if self._is_count or not group:
            return group
        share = _members(group) * self.limit // len(self.got)
        return group & ((1 << bisect_left(self.got, share)) - 1)

    def _judge(self, demand: List[int], group: int, cost: int) -> None:
        """Keeps a demand where it is a violation, and the group's share is more over its cost than that of the one
        before."""
        worth = len(demand) if self._is_count else cost
        members = group & ((1 << bisect_left(self.got, worth)) - 1)
        count = _members(members)
        over = count * self.limit - cost * len(self.got)
        if count and over >= 0 and (self._best is None or over > self._best[0]):
            self._best = over, demand, members

    def _demand(self) -> Optional[Demand]:
        if self._best is None:
            return None
        _, projects, group = self._best
        voters = sorted(self.order[at] + 1 for at, bit in enumerate(reversed(f"{group:b}")) if bit == "1")
        return Demand(voters, sorted(projects))


def _bits(ballots: Sequence[Sequence[int]], projects: Sequence[int]) -> Dict[int, int]:
    """The supporters of these projects, each group as the bits of a whole number, by the order of the ballots."""
    bits = {project: bytearray(len(ballots) // 8 + 1) for project in projects}
    for voter, ballot in enumerate(ballots):
        byte, bit = voter >> 3, 1 << (voter & 7)
        for project in ballot:
            if project in bits:
                bits[project][byte] |= bit
    return {project: int.from_bytes(group, "little") for project, group in bits.items()}
