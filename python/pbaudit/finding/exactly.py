"""Decides exactly whether there are prices, of few different ballots: the last resort of a search, where floats decide
nothing, since costs are far apart, or conditions can be kept just so and no better.

The programme for prices is solved in fractions. Where no prices keep its rows, their multipliers are weights that refute
all prices; and where the budgets can't be together more than the limit, weights that refute those with Cover.
"""
from dataclasses import dataclass, replace
from fractions import Fraction
from math import lcm
from typing import Dict, Iterator, List, Optional, Tuple, Union

from ..values import Payments
from .clock import Clock
from .needs import needed
from .prices import Given, also_with_cover, rounded
from .programme import OutOfTime
from .refutations import audited
from .results import FoundPrices, FoundRefutation, Wanted
from .shares import Need, Problem
from .voters import Voters, Weights
from .whole import BESIDES, MOST, Whole, holds, whole_of

np = needed("numpy")

# For how many groups, and payments of groups, fractions are fast enough.
MOST_PAYMENTS = 200
# The constant of a row, and the number that makes all rows true; the others are numbered from 0.
ONE, EXTRA = -2, -1
# What each number counts for.
Row = Dict[int, Fraction]


@dataclass(frozen=True)
class Solved:
    """The largest budget of a voter, with payments of each voter by the ids of projects; or weights that refute."""

    budget: Optional[Fraction] = None
    payments: Optional[List[Dict[str, Fraction]]] = None
    weights: Optional[Whole] = None


class Simplex:
    """Numbers of at least 0 that keep rows: sums that are at most so much. Bland's rule keeps it from going in a circle."""

    def __init__(self, rows: List[Tuple[Row, Fraction]], count: int, clock: Clock):
        self._count, self._clock = count, clock
        # Each number that is none of 0, by the others: what a row has left to its most, at first.
        self._basic: Dict[int, Row] = {
            count + at: {ONE: most, EXTRA: Fraction(1), **{name: -value for name, value in row.items()}}
            for at, (row, most) in enumerate(rows)}
        self._goal: Row = {EXTRA: Fraction(-1)}

    def satisfy(self) -> bool:
        """Finds numbers that keep all rows, where there are some. Raises OutOfTime."""
        worst = min(self._basic, key=lambda name: self._basic[name][ONE])
        if self._basic[worst][ONE] < 0:
            self._pivot(worst, EXTRA)
            self._raise()
        if self._goal.get(ONE, 0):
            return False
        if EXTRA in self._basic:
            self._pivot(EXTRA, next(name for name in self._basic[EXTRA] if name != ONE))
        for row in self._basic.values():
            row.pop(EXTRA, None)
        return True

    def most(self, name: int) -> Fraction:
        """The largest value of a number that has one. Raises OutOfTime."""
        self._goal = dict(self._basic.get(name, {name: Fraction(1)}))
        self._raise()
        return self.value(name)

    def value(self, name: int) -> Fraction:
        """The value of a number."""
        return self._basic.get(name, {}).get(ONE, Fraction(0))

    def multiplier(self, row: int) -> Fraction:
        """What a row counts for in what was raised last."""
        return -self._goal.get(self._count + row, Fraction(0))

    def _raise(self) -> None:
        while True:
            if not self._clock.left():
                raise OutOfTime
            entering = min((name for name, value in self._goal.items() if name != ONE and value > 0), default=None)
            if entering is None:
                return
            bounds = [(row.get(ONE, Fraction(0)) / -row[entering], name) for name, row in self._basic.items()
                      if row.get(entering, 0) < 0]
            self._pivot(min(bounds)[1], entering)

    def _pivot(self, leaving: int, entering: int) -> None:
        """Solves the row of a number for another, which takes its place."""
        row = self._basic.pop(leaving)
        part = row.pop(entering)
        solved = {leaving: 1 / part, **{name: -value / part for name, value in row.items()}}
        for other in (*self._basic.values(), self._goal):
            times = other.pop(entering, Fraction(0))
            for name, value in solved.items() if times else ():
                new = other.get(name, 0) + times * value
                if new:
                    other[name] = new
                else:
                    other.pop(name, None)
        self._basic[entering] = solved


class Programme:
    """The rows for prices: of the voter budget, of what each voter of a group pays, and of what it offers."""

    BUDGET = 0

    def __init__(self, problem: Problem, stable: bool):
        self._problem, self._stable = problem, stable
        approvals = problem.groups.approvals
        self._ballots = [approvals.indices[start:end].tolist() for start, end in zip(approvals.indptr, approvals.indptr[1:])]
        self._sizes = [Fraction(int(size)) for size in problem.groups.sizes]
        paying = [(group, at) for group, ballot in enumerate(self._ballots) for at in ballot if at in set(problem.funded)]
        self.pays = {each: 1 + number for number, each in enumerate(paying)}
        self._offers = [1 + len(paying) + group for group in range(len(self._ballots))]
        self.count = 1 + len(paying) + len(self._ballots)
        self.rows: List[Tuple[Row, Fraction]] = []
        self._keep_budgets()
        # Where the rows of a project stand: what is paid for it is at most, and at least, its cost.
        self.paid, self.owed = len(self.rows), len(self.rows) + 2 * len(problem.funded)
        self._pay_costs()

    def _keep_budgets(self) -> None:
        """C2, and what a voter offers: what it has left, or in the stable form a payment where that is more."""
        one = Fraction(1)
        for group, ballot in enumerate(self._ballots):
            mine, offer = [self.pays[group, at] for at in ballot if (group, at) in self.pays], self._offers[group]
            self.rows.append(({self.BUDGET: -one, **dict.fromkeys(mine, one)}, Fraction(0)))
            self.rows.append(({self.BUDGET: one, offer: -one, **dict.fromkeys(mine, -one)}, Fraction(0)))
            self.rows += [({each: one, offer: -one}, Fraction(0)) for each in mine if self._stable]

    def _pay_costs(self) -> None:
        """C3, and C5 or S5."""
        costs, groups = self._problem.decided.costs, range(len(self._ballots))
        for at in self._problem.funded:
            paid = {self.pays[group, at]: self._sizes[group] for group in groups if (group, at) in self.pays}
            self.rows += [(paid, costs[at]), ({name: -size for name, size in paid.items()}, -costs[at])]
        for at in self._problem.unfunded:
            self.rows.append(({self._offers[group]: self._sizes[group] for group in groups if at in self._ballots[group]},
                              costs[at]))
        if not self._problem.unfunded:
            # Any budget will do that is large enough.
            self.rows.append(({self.BUDGET: Fraction(1)}, 1 + self._problem.decided.limit))

    def payments(self, simplex: Simplex) -> List[Dict[str, Fraction]]:
        """What each voter pays, by the ids of projects."""
        by_group: List[Dict[str, Fraction]] = [{} for _ in self._ballots]
        for (group, at), name in self.pays.items():
            if simplex.value(name):
                by_group[group][self._problem.decided.names[at]] = simplex.value(name)
        return [by_group[group] for group in self._problem.groups.of_voter.tolist()]

    def weights(self, simplex: Simplex, cover: Fraction) -> Iterator[Whole]:
        """Whole weights by the multipliers that refute."""
        funded = [simplex.multiplier(self.paid + 2 * at + 1) - simplex.multiplier(self.paid + 2 * at)
                  for at in range(len(self._problem.funded))]
        unfunded = [simplex.multiplier(self.owed + at) for at in range(len(self._problem.unfunded))]
        part, voters = lcm(*(each.denominator for each in (*funded, *unfunded, cover))), Voters(self._problem, self._stable)
        # X(i) is whole.
        for more in BESIDES:
            whole = [int(each * part * more) for each in (*funded, *unfunded, cover)]
            if max(abs(each) for each in whole) > MOST:
                return
            weights = Weights(np.array(whole[:len(funded)], float), np.array(whole[len(funded):-1], float), whole[-1])
            if holds(self._problem, voters, weights):
                yield whole_of(self._problem, voters, weights)


def solve(problem: Problem, need: Need, clock: Clock) -> Optional[Solved]:
    """Prices with the largest voter budget, or if there is none with a large one, or weights that refute all such prices;
    None where there are too many payments, or no whole weights. Raises OutOfTime."""
    if max(len(problem.groups), problem.groups.approvals[:, problem.funded].nnz) > MOST_PAYMENTS:
        return None
    clock.tell(f"{need}: in fractions")
    programme = Programme(problem, need.stable)
    simplex, cover = Simplex(programme.rows, programme.count, clock), Fraction(0)
    if simplex.satisfy():
        budget = simplex.most(Programme.BUDGET)
        if not need.cover or budget * len(problem.decided.ballots) > problem.decided.limit:
            return Solved(budget, programme.payments(simplex))
        cover = Fraction(1, len(problem.decided.ballots))
    whole = next(programme.weights(simplex, cover), None)
    return None if whole is None else Solved(weights=whole)


def find_exactly(given: Given, wanted: Wanted, clock: Clock) -> Union[FoundPrices, FoundRefutation, None]:
    """Prices of the kind that is wanted, or a refutation of them, and of all prices if it can be; or None."""
    need = Need(wanted.stable, wanted.cover)
    try:
        own = solve(given.problem, need, clock)
        if own is not None and own.payments is not None:
            found = rounded(given, Payments(own.payments), own.budget, None, need, clock) if wanted.prices else None
            return found and also_with_cover(given, found)
        for each in (replace(need, stable=False), need) if own is not None and wanted.refutation else ():
            more = own if each == need else solve(given.problem, each, clock)
            refutation = more and more.weights and audited(given, more.weights, each)
            if refutation:
                return refutation
    except OutOfTime:
        pass
    return None
