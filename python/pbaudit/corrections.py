"""Payments near given ones that keep all conditions with room to be rounded, by a linear programme of HiGHS.

It says how far payments, the voter budget and offers move, in parts of a reach: noise, where payments are to stay near.
Few conditions can come to fail within a reach, and the others are left out, so that the programme is small. It computes in
floats: what comes of it is rounded to whole numerators over the denominator, and the conditions are checked there.
"""
from array import array
from dataclasses import dataclass
from fractions import Fraction
from typing import Any, List, Optional, Tuple

from .amounts import ratio
from .decided import DecidedElection
from .finding.clock import Clock
from .finding.needs import needed
from .helpers import Helper, Late, Lost
from .noise import NOISE
from .rounding import Given

np, sparse = needed("numpy"), needed("scipy.sparse")

# More payments than these aren't looked at: the programme would take much memory.
MOST_SLOTS = 10**5
# A programme of more columns is solved in another process, which can be stopped.
SMALL = 20_000
# How much longer than it may HiGHS takes to give up.
GRACE = 5.0
SOLVED = 0
# Room for each payment, in parts of the reach at least, since HiGHS keeps a row but for 1e-7.
ROOM = 1e-5
# How many reaches two offers of one voter come nearer to each other at most; and by how many a voter's offer rises.
CLOSER, RISES = 4.0, 2.0
# How much more it counts that a condition has room than that one of several offers is the largest.
WEIGHT = 10.0


@dataclass(frozen=True)
class Reach:
    """How far a voter's payments, and the voter budget, may move, in the currency; the denominator to which they are
    rounded afterwards; and whether this is noise, which binds what is paid for a project as well."""

    amount: float
    denominator: int
    is_noise: bool

    @property
    def grain(self) -> float:
        """The finest amount, in parts of the reach."""
        return 1 / (self.denominator * self.amount)


@dataclass(frozen=True)
class Programme:
    """Maximise `goal @ x` by `rows @ x <= most` and `equal @ x == sums`, each x from `low` to `high`."""

    goal: Any
    rows: Any
    most: Any
    equal: Any
    sums: Any
    low: Any
    high: Any


def corrected(decided: DecidedElection, given: Given, stable: bool, reach: Reach, clock: Clock) -> Optional[Given]:
    """Payments within the reach that keep all conditions with room for rounding, as far as there is such room; or None."""
    if not 0 < len(decided.project_of) <= MOST_SLOTS:
        return None
    rows = _Rows(decided, given, stable, reach)
    clock.tell(f"linear programme over {rows.count} payments")
    values = _answer(rows.programme(), clock)
    if values is not None and -ROOM < values[rows.room_at] < 1 - ROOM:
        # A condition has no room: it is kept exactly at best. So each has what room it can have.
        clock.tell(f"linear programme over {rows.count} payments, condition by condition")
        values = _answer(rows.programme(is_apart=True), clock)
    elif values is not None and values[rows.room_at] < 0:
        return None
    return None if values is None else rows.given(values)


def _answer(programme: Programme, clock: Clock) -> Any:
    seconds = clock.left()
    if not seconds:
        return None
    if len(programme.goal) <= SMALL:
        return solve(programme, seconds)
    with Helper() as solver:
        try:
            return solver.call(solve, programme, seconds, seconds=seconds + GRACE, tick=clock.tick)
        except (Late, Lost, MemoryError):
            return None


def solve(programme: Programme, seconds: float) -> Any:
    """The values of the columns, or None where HiGHS finds none."""
    found = needed("scipy.optimize").linprog(
        -programme.goal, A_ub=programme.rows, b_ub=programme.most, A_eq=programme.equal, b_eq=programme.sums,
        bounds=np.column_stack([programme.low, programme.high]), method="highs-ds", options={"time_limit": seconds})
    return found.x if found.status == SOLVED else None


def _numbers(numbers: "array[int]") -> Any:
    return np.array(numbers, np.int64)


class _Rows:
    """The rows of the programme. Its columns are by how much each payment goes up, and by how much down, the voter budget,
    the room that all conditions have, and each voter's offer; amounts are parts of the reach."""

    def __init__(self, decided: DecidedElection, given: Given, stable: bool, reach: Reach):
        self.decided, self.source, self.stable, self.reach = decided, given, stable, reach
        self.voter, self.project, voters = _numbers(decided.voter_of), _numbers(decided.project_of), len(decided.ballots)
        self.count, self.sizes = len(self.voter), np.bincount(self.voter, minlength=voters)
        self.budget_at, self.room_at, self.offer_at = 2 * self.count, 2 * self.count + 1, 2 * self.count + 2
        self.paid = np.maximum(np.array(given.floats), 0.0) / reach.amount
        spent, dearest = np.bincount(self.voter, self.paid, voters), np.zeros(voters)
        np.maximum.at(dearest, self.voter, self.paid)
        # A lower budget breaks nothing that a higher one keeps.
        has = float(given.budget) / reach.amount
        self.budget = has if reach.is_noise else min(has, float(spent.max()))
        self.left = self.budget - spent
        self.offers = np.maximum(self.left, dearest) if stable else self.left
        self._entries: List[Tuple[Any, Any, Any]] = []
        self._most: List[Any] = []
        # The room of each row where all have the same part of theirs, and where each has its own.
        self._rooms: List[Tuple[Any, Any]] = []
        self._size = 0
        self._limit_moves()
        self._keep_budgets()
        self._keep_offers(self._keep_unfunded())

    def _add(self, most: Any, room: Any = 0.0, own: Any = None) -> Any:
        """Adds rows by their right sides, and answers their numbers."""
        rows = self._size + np.arange(len(most))
        self._size += len(most)
        self._most.append(most)
        each = np.broadcast_to(np.asarray(room, float), (len(most),))
        self._rooms.append((each, each if own is None else np.broadcast_to(np.asarray(own, float), (len(most),))))
        return rows

    def _enter(self, rows: Any, columns: Any, value: float) -> None:
        self._entries.append((rows, np.broadcast_to(columns, rows.shape), np.full(rows.shape, value)))

    def _enter_changes(self, rows: Any, slots: Any, up: float, down: float) -> None:
        self._enter(rows, slots, up)
        self._enter(rows, self.count + slots, down)

    def _enter_spending(self, rows: Any, voters: Any, value: float) -> None:
        """How much more each of these voters spends, in its row."""
        row_of = np.full(len(self.sizes), -1)
        row_of[voters] = rows
        slots = np.flatnonzero(row_of[self.voter] >= 0)
        self._enter_changes(row_of[self.voter[slots]], slots, value, -value)

    @property
    def _room(self) -> float:
        """For one payment that is rounded."""
        return max(2 * self.reach.grain, ROOM)

    def _limit_moves(self) -> None:
        """How far all payments of a voter may move together, and where that is noise all for a project."""
        by_voter, by_project = np.zeros(len(self.sizes)), np.zeros(len(self.decided.names))
        for one in self.source.left_out:
            by_voter[one.voter] += abs(float(one.amount)) / self.reach.amount
            by_project[one.project] += abs(float(one.amount)) / self.reach.amount
        grains = 2 * self.reach.grain
        every = np.arange(self.count)
        rows = self._add(np.maximum(1.0 - by_voter - grains * self.sizes, 0.0))
        self._enter_changes(rows[self.voter], every, 1.0, 1.0)
        if self.reach.is_noise:
            most = np.array([float(cost * NOISE) for cost in self.decided.costs]) / self.reach.amount - by_project
            rows = self._add(np.maximum(most - grains * np.bincount(self.project, minlength=len(most)), 0.0))
            self._enter_changes(rows[self.project], every, 1.0, 1.0)

    def _keep_budgets(self) -> None:
        """C2."""
        near = np.flatnonzero(self.left < CLOSER)
        rows = self._add(self.left[near], (self.sizes[near] + 1) * self._room)
        self._enter_spending(rows, near, 1.0)
        self._enter(rows, self.budget_at, -1.0)

    def _keep_unfunded(self) -> Any:
        """C5 or S5. Answers the voters on whose offers a row depends."""
        voters = np.zeros(len(self.sizes), bool)
        for project in self.decided.unfunded:
            supporters = _numbers(self.decided.supporters[project])
            slack = float(self.decided.costs[project]) / self.reach.amount - float(self.offers[supporters].sum())
            if slack < RISES * len(supporters) + 1:
                row = self._add(np.array([slack]), float((self.sizes[supporters] + 1).sum()) * self._room)
                self._enter(np.repeat(row, len(supporters)), self.offer_at + supporters, 1.0)
                voters[supporters] = True
        return voters

    def _keep_offers(self, voters: Any) -> None:
        """An offer is what a voter has left, or in the stable form its dearest payment where that is more."""
        near = np.flatnonzero(voters & (self.offers - self.left < CLOSER))
        rows = self._add((self.offers - self.left)[near], own=(self.sizes[near] + 1) * self._room)
        self._enter_spending(rows, near, -1.0)
        self._enter(rows, self.budget_at, 1.0)
        self._enter(rows, self.offer_at + near, -1.0)
        if self.stable:
            below = self.offers[self.voter] - self.paid
            dear = np.flatnonzero(voters[self.voter] & (below < CLOSER))
            rows = self._add(below[dear], own=2 * self._room)
            self._enter_changes(rows, dear, 1.0, -1.0)
            self._enter(rows, self.offer_at + self.voter[dear], -1.0)

    def programme(self, is_apart: bool = False) -> Programme:
        """The programme by which all conditions have the same part of their room, at most all of it; or each its own."""
        common, own = (np.concatenate(each) for each in zip(*self._rooms))
        columns = self.offer_at + len(self.sizes)
        apart = np.flatnonzero(own) if is_apart else np.zeros(0, np.int64)
        entries = [*self._entries, *([(apart, columns + np.arange(len(apart)), own[apart])] if is_apart else
                                     [(np.arange(self._size), np.full(self._size, self.room_at), common)])]
        at, column, value = (np.concatenate(each) for each in zip(*entries))
        size = columns + len(apart)
        goal, low, high = np.zeros(size), np.zeros(size), np.ones(size)
        high[self.count:self.budget_at] = np.minimum(self.paid, 1.0)
        # It is rounded as well.
        most = max(0.0, 1.0 - 4 * self.reach.grain)
        low[self.budget_at] = -min(most, self.budget)
        high[self.budget_at] = min(most, float(self.source.budget + self.source.noise) / self.reach.amount - self.budget)
        low[self.room_at], high[self.room_at] = (0.0, 0.0) if is_apart else (-np.inf, 1.0)
        low[self.offer_at:columns], high[self.offer_at:columns] = -np.inf, np.inf
        goal[self.room_at] = 1.0
        goal[columns:] = np.where(common[apart] > 0, WEIGHT, 1.0)
        equal, sums = self._equal(size)
        rows = sparse.csr_matrix((value, (at, column)), shape=(self._size, size))
        return Programme(goal, rows, np.concatenate(self._most), equal, sums, low, high)

    def _equal(self, size: int) -> Tuple[Any, Any]:
        """C3."""
        paid = np.bincount(self.project, self.paid, len(self.decided.names))
        costs = np.array([float(cost) for cost in self.decided.costs]) / self.reach.amount
        bought, rows = np.unique(self.project, return_inverse=True)
        values = np.concatenate([np.ones(self.count), np.full(self.count, -1.0)])
        at = np.concatenate([rows, rows])
        return (sparse.csr_matrix((values, (at, np.arange(2 * self.count))), shape=(len(bought), size)),
                (costs - paid)[bought])

    def given(self, values: Any) -> Given:
        """The payments that these values of the columns make of the given ones."""
        source, denominator = self.source, self.reach.denominator
        scale = self.reach.amount * denominator
        changes = values[:self.count] - values[self.count:self.budget_at]
        amounts: List[Any] = list(source.amounts)
        for slot, grains in enumerate(np.rint(changes * scale).tolist()):
            if grains:
                exact = Fraction(*ratio(amounts[slot], "a payment")) + Fraction(int(grains), denominator)
                amounts[slot] = max(exact, Fraction(0))
        budget = source.budget
        if not self.reach.is_noise:
            budget = min(budget, Fraction(self.budget * self.reach.amount))
        budget += Fraction(int(round(float(values[self.budget_at]) * scale)), denominator)
        return Given(amounts, array("d", map(float, amounts)), max(budget, Fraction(0)), Fraction(0))
