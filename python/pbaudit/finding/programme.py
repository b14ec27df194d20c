"""The linear programme for prices: which payments keep C5 or S5 by the largest margin.

Voters whose ballots have the same funded projects, and the same of the unfunded ones that are looked at, pay the same.
Unfunded projects are looked at once they are violated. That the programme finds nothing is no proof that there is
nothing: it computes in floats.
"""
from dataclasses import dataclass
from typing import Any, List, Optional, Tuple

from ..helpers import Helper, Late, Lost
from .clock import Clock
from .groups import Groups
from .needs import needed
from .shares import Need, Problem, Shares, excesses

np, sparse = needed("numpy"), needed("scipy.sparse")

# How far the budgets have to be over the limit for Cover, where a voter's share of it is 1.
COVERED = 1e-6
TOLERANCE = 1e-7
# Of equal margins the one with the smaller budget is taken.
PREFER = 1e-7
# How many unfunded projects are looked at first.
FIRST = 5
# How much longer than it may HiGHS takes to give up.
GRACE = 5.0
# A programme of so many variables is solved at once, and so in this process.
SMALL = 2000
# What scipy says of a programme.
SOLVED, LIMIT, INFEASIBLE = 0, 1, 2


class NoPrices(Exception):
    """The programme says that there are no prices."""


class OutOfTime(Exception):
    """There was too little time."""


class Unsolved(Exception):
    """The programme wasn't solved: it takes more memory than there is, or its numbers are too far apart."""


@dataclass(frozen=True)
class Programme:
    """Minimise `objective` by `rows @ x <= most` and `equal @ x == sums`, each x from `low` to `high`, by a method of
    HiGHS."""

    method: str
    objective: Any
    rows: Any
    most: Any
    equal: Any
    sums: Any
    low: Any
    high: Any


@dataclass(frozen=True)
class Answer:
    """What a programme comes to: the values of the variables, and the marginals of the equal rows, of the others, and of
    the least and the greatest values."""

    values: Any
    sums: Any
    rows: Any
    low: Any
    high: Any


class Entries:
    """The entries of a matrix that is put together."""

    def __init__(self) -> None:
        self._rows: List[Any] = []
        self._columns: List[Any] = []
        self._values: List[Any] = []

    def add(self, rows: Any, columns: Any, values: Any) -> None:
        """Adds entries, one for each row; a column or a value may be the same for all."""
        rows = np.asarray(rows)
        self._rows.append(rows)
        self._columns.append(np.broadcast_to(columns, rows.shape))
        self._values.append(np.broadcast_to(np.asarray(values, float), rows.shape))

    def matrix(self, rows: int, columns: int) -> Any:
        parts = (np.concatenate(part) for part in (self._values, self._rows, self._columns))
        values, at, column = parts
        return sparse.csr_matrix((values, (at, column)), shape=(rows, columns))


class Variables:
    """Where the variables stand: the voter budget, the margin, what groups pay, and what they have left; and for the
    stable form what those can offer that support a project that is looked at. Amounts are those of all voters of a
    group together."""

    BUDGET, MARGIN = 0, 1

    def __init__(self, groups: Groups, paying: Any, offering: Any):
        self.payments = 2 + np.arange(len(paying))
        self.left = 2 + len(paying) + np.arange(len(groups))
        self.offers = self.left.copy()
        self.count = 2 + len(paying) + len(groups) + len(offering)
        self.offers[offering] = np.arange(self.count - len(offering), self.count)


def programme_of(problem: Problem, groups: Groups, seen: List[int], need: Need) -> Tuple[Programme, Any, Any]:
    """The programme over merged groups, whose columns are the funded projects and then those that are looked at; and
    the groups and the columns of payments."""
    funded = len(problem.funded)
    pairs, approving = (part.tocoo() for part in (groups.approvals[:, :funded], groups.approvals[:, funded:]))
    paying, column = pairs.row.astype(np.int64), pairs.col.astype(np.int64)
    offering = np.unique(approving.row) if need.stable else np.zeros(0, np.int64)
    at = Variables(groups, paying, offering)
    every = np.arange(len(groups))
    equal = Entries()
    # C2: a group's budgets are what it pays and what it has left.
    equal.add(every, at.BUDGET, groups.sizes)
    equal.add(paying, at.payments, -1)
    equal.add(every, at.left, -1)
    # C3: what is paid for a funded project is its cost.
    equal.add(len(groups) + column, at.payments, 1)
    sums = np.concatenate([np.zeros(len(groups)), problem.costs[problem.funded]])
    # C5 or S5, with a margin that is a part of the cost.
    rows, costs, count = Entries(), problem.costs[seen], len(seen)
    rows.add(approving.col, at.offers[approving.row], 1)
    rows.add(np.arange(count), at.MARGIN, costs)
    # An offer is what is left, or a payment where that is more.
    rows.add(count + np.arange(len(offering)), at.left[offering], 1)
    rows.add(count + np.arange(len(offering)), at.offers[offering], -1)
    dear = np.flatnonzero(np.isin(paying, offering))
    count += len(offering)
    rows.add(count + np.arange(len(dear)), at.payments[dear], 1)
    rows.add(count + np.arange(len(dear)), at.offers[paying[dear]], -1)
    count += len(dear)
    most = np.concatenate([costs, np.zeros(count - len(seen))])
    objective, low, high = _bounds(problem, at, need)
    made = Programme("highs-ipm" if need.stable else "highs-ds", objective, rows.matrix(count, at.count), most,
                     equal.matrix(len(sums), at.count), sums, low, high)
    return made, paying, column


def _bounds(problem: Problem, at: Variables, need: Need) -> Tuple[Any, Any, Any]:
    """The objective, and the least and the greatest values of the variables."""
    objective, low, high = np.zeros(at.count), np.zeros(at.count), np.full(at.count, np.inf)
    objective[at.MARGIN], objective[at.BUDGET] = -1.0, PREFER
    low[at.BUDGET] = problem.share + COVERED if need.cover else 0.0
    low[at.MARGIN], high[at.MARGIN] = -np.inf, 1.0
    return objective, low, high


def by_programme(problem: Problem, need: Need, seen: List[int], solver: Helper, clock: Clock) -> Shares:
    """Prices by the programme, which first looks at the first of these unfunded projects. Raises NoPrices, OutOfTime
    and Unsolved."""
    # By offers nearly all groups differ, so that to look at few projects saves nothing.
    seen = problem.unfunded if need.stable else sorted(seen[:FIRST] or problem.unfunded[:1])
    while True:
        clock.tell(f"{need}: linear programme over {len(seen)} of {len(problem.unfunded)} unfunded projects")
        shares, budget, margin = _solved(problem, need, seen, solver, clock)
        if margin < -TOLERANCE:
            raise NoPrices
        more = unseen(problem, need, shares, budget, margin, seen)
        if not more:
            return shares
        seen = sorted({*seen, *more})


def unseen(problem: Problem, need: Need, shares: Shares, budget: float, margin: float, seen: List[int]) -> List[int]:
    """The projects to look at besides: those whose margin is less, the worst first."""
    over = excesses(problem, shares, budget, need.stable) + max(margin, 0.0) * problem.costs[problem.unfunded]
    room = TOLERANCE * (1 + problem.costs[problem.unfunded])
    worst = sorted((-float(by), project) for project, by, most in zip(problem.unfunded, over, room)
                   if by > most and project not in seen)
    return [project for _, project in worst[:max(5, len(problem.unfunded) // 8)]]


def _solved(problem: Problem, need: Need, seen: List[int], solver: Helper, clock: Clock) -> Tuple[Shares, float, float]:
    """What the programme over some unfunded projects comes to: payments, the voter budget, and the margin."""
    groups = problem.groups.merged([*problem.funded, *seen])
    programme, paying, column = programme_of(problem, groups, seen, need)
    values = answer_to(programme, solver, clock).values
    budget, margin = float(values[Variables.BUDGET]), float(values[Variables.MARGIN])
    return shares_of(problem, groups, values, paying, column), budget, margin


def shares_of(problem: Problem, groups: Groups, values: Any, paying: Any, column: Any) -> Shares:
    """The payments that these values of the variables are."""
    amounts = np.maximum(values[2:2 + len(paying)], 0.0) / groups.sizes[paying]
    return Shares(groups, paying, np.array(problem.funded, np.int64)[column], amounts)


def answer_to(programme: Programme, solver: Optional[Helper], clock: Clock) -> Answer:
    """What a programme comes to. Raises NoPrices where it can't be satisfied, OutOfTime and Unsolved."""
    seconds = clock.left()
    if not seconds:
        raise OutOfTime
    try:
        if solver is None or len(programme.objective) <= SMALL:
            status, answer = solve(programme, seconds)
        else:
            status, answer = solver.call(solve, programme, seconds, seconds=seconds + GRACE, tick=clock.tick)
    except Late:
        raise OutOfTime from None
    except (Lost, MemoryError):
        raise Unsolved from None
    if answer is None:
        raise {LIMIT: OutOfTime, INFEASIBLE: NoPrices}.get(status, Unsolved)
    return answer


def solve(programme: Programme, seconds: float) -> Tuple[int, Optional[Answer]]:
    """Solves a programme: its status, and the answer where it is solved."""
    found = by_highs(programme, seconds)
    if found.status != SOLVED:
        return found.status, None
    return SOLVED, Answer(found.x, found.eqlin.marginals, found.ineqlin.marginals, found.lower.marginals,
                          found.upper.marginals)


def by_highs(programme: Programme, seconds: float) -> Any:
    """What scipy answers on a programme by HiGHS."""
    return needed("scipy.optimize").linprog(
        programme.objective, A_ub=programme.rows, b_ub=programme.most, A_eq=programme.equal, b_eq=programme.sums,
        bounds=np.column_stack([programme.low, programme.high]), method=programme.method,
        options={"time_limit": seconds})
