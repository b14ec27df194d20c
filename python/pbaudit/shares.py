"""The Method of Equal Shares, computed exactly: where prices come from. It isn't proved; the certificate that is made
of its payments is audited by what is.

Each voter begins with the same budget. Of the projects that their supporters can still pay for, the one is bought whose
supporters pay least for a unit of its worth, each the same or all that is left. Of several the one that stands first in
the election is bought.
"""
from array import array
from dataclasses import dataclass, field, replace
from fractions import Fraction
from heapq import heapify, heappop, heappush
from math import gcd
from typing import Any, Callable, Dict, Iterator, List, Literal, Optional, Sequence, Set, Tuple

from ._auditor import switch
from .amounts import Amount, exact_cost, least_multiple
from .certificates import certified
from .decided import DecidedElection
from .leaps import Between, Leap, Unsure, level
from .tables import Result, payment_rows
from .values import AnyInstance, Ballots, Payments, Profile, Projects, ballots_of, projects_of

Measure = Literal["cost", "count"]
Completion = Literal["none", "add1"]
MEASURES, COMPLETIONS = ("cost", "count"), ("none", "add1")


@dataclass(frozen=True)
class Progress:
    """How far the rule is: which run of it this is, by what budget of a voter, what the projects bought so far cost,
    and the limit."""

    run: int
    voter_budget: Fraction
    spent: Fraction
    limit: Fraction


Tell = Callable[[Progress], None]


@dataclass(frozen=True)
class EqualShares(Result):
    """What the Method of Equal Shares comes to: the ids of the funded projects in the order of their purchase, the
    budget of each voter, and for each voter what it pays, by the ids of projects. Amounts are exact, in the currency
    of the costs. `runs` is how many budgets of a voter the rule was gone through for, which is one without a completion.
    `moved` and `raised` are 0, but of near prices how far a payment moved from the rule's at most, and how far the voter
    budget rose, or fell where it is below 0.

    >>> shares = equal_shares(Instance([Project("a", 6)], 10), [["a"], ["a"]])
    >>> shares.payments
    [{'a': Fraction(3, 1)}, {'a': Fraction(3, 1)}]
    """

    funded: List[str]
    voter_budget: Fraction
    payments: List[Dict[str, Fraction]] = field(repr=False)
    runs: int = 1
    moved: Fraction = Fraction(0)
    raised: Fraction = Fraction(0)
    # It has lists and dictionaries.
    __hash__ = None  # type: ignore[assignment]

    def rows_of_table(self) -> List[Dict[str, Any]]:
        """A row for each payment: the voter, from 1, the project and the amount."""
        return payment_rows(self.payments)


@dataclass(frozen=True)
class Purchase:
    """A project that is bought: its place, what each supporter pays, and, by voter, what those pay who have less left.
    The last is known of an exact run alone."""

    project: int
    share: Fraction
    rests: Dict[int, Fraction]


def equal_shares(instance: AnyInstance, profile: Profile, *, by: Measure = "cost", completion: Completion = "none",
                 increment: Amount = 1, near: bool = False) -> EqualShares:
    """The outcome and the payments of the Method of Equal Shares, exactly.

    A project is worth to each supporter what it costs (`by="cost"`), or 1 (`by="count"`). The budget of a voter is the
    limit over the number of voters. With `completion="add1"` it is raised by 1, in the currency of the costs, until no
    other project fits within the limit or the next outcome would cost more than the limit. `increment` is another step
    than 1, by which it may end at another outcome. Steps that change nothing are mostly taken together. Ties go to the
    project that stands first. A project that costs nothing is bought where it has a supporter.

    Amounts whose common denominator is over 10^9 stand in no certificate. With `near` they are replaced by those of a
    certificate near them, which was audited, in the plain form and without Exhaustive. Raises ValueError and TypeError,
    and with `near` CannotKeep and MemoryError.

    >>> town = Instance([Project("a", 6), Project("b", 4)], 10)
    >>> shares = equal_shares(town, [["a", "b"], ["a"]])
    >>> shares.funded, shares.voter_budget
    (['a'], Fraction(5, 1))
    """
    step, is_near = checked_increment(increment), switch("near", near)
    projects, costs, limit = projects_of(instance)
    ballots = ballots_of(profile, projects)
    rule = Rule(costs, limit, ballots, by)
    made = result(projects, rule, *rule.completed(completion, step))
    if not is_near:
        return made
    funded = {projects.place[name] for name in made.funded}
    return _near(made, DecidedElection(projects.ids, costs, limit, funded, ballots), projects)


def _near(made: EqualShares, decided: DecidedElection, projects: Projects) -> EqualShares:
    """The same outcome with the prices of a certificate."""
    certificate = certified(decided, projects, made.voter_budget, Payments(made.payments), stable=False, exhaustive=False)
    payments: List[Dict[str, Fraction]] = [{} for _ in made.payments]
    for voter, name, numerator in certificate.rows:
        payments[voter - 1][name] = Fraction(numerator, certificate.denominator)
    budget = Fraction(certificate.voter_budget, certificate.denominator)
    return replace(made, voter_budget=budget, payments=payments, moved=certificate.moved, raised=certificate.raised)


def checked_increment(increment: Amount) -> Fraction:
    """By how much `add1` raises the budget of a voter. Raises ValueError and TypeError."""
    step = exact_cost(increment, "the increment")
    if not step:
        raise ValueError("the increment is 0, by which no budget is raised")
    return step


class Rule:
    """An election as the rule needs it: what each project costs, the voters who approve it, and what it is worth."""

    def __init__(self, costs: Sequence[Fraction], limit: Fraction, ballots: Ballots, by: str):
        if by not in MEASURES:
            raise ValueError(f"by is {by!r}, not 'cost' or 'count'")
        self.costs, self.limit, self.voters = costs, limit, len(ballots)
        self.worth = [cost if by == "cost" else Fraction(1) for cost in costs]
        self.supporters = [array("I") for _ in costs]
        for voter, ballot in enumerate(ballots):
            for project in ballot:
                self.supporters[project].append(voter)

    def completed(self, completion: str, step: Fraction = Fraction(1),
                  tell: Optional[Tell] = None) -> Tuple[List[Purchase], Fraction, int]:
        """What is bought, the budget of a voter, and for how many budgets the rule was gone through."""
        if completion not in COMPLETIONS:
            raise ValueError(f"the completion is {completion!r}, not 'none' or 'add1'")
        budget, runs = self.limit / max(1, self.voters), 1
        if completion == "add1":
            budget, runs = self._raised(budget, step, tell)
        return Run(self, budget, runs, tell).bought, budget, runs

    def _raised(self, budget: Fraction, step: Fraction, tell: Optional[Tell]) -> Tuple[Fraction, int]:
        """The budget of a voter that is raised by a step as often as that can be, and for how many budgets the rule was
        gone through: one by one, or many at once where it is sure that the same is bought by all of them."""
        runs, funded, leap = 1, self.funded_by(budget, 1, tell), Leap()
        while self._has_room(funded):
            if leap.steps > 1:
                if self._is_same_up_to(budget, budget + leap.steps * step):
                    runs, budget = runs + leap.steps, budget + leap.steps * step
                    leap.has_held()
                else:
                    leap.has_failed()
                continue
            runs += 1
            more = self.funded_by(budget + step, runs, tell)
            if self._spent(more) > self.limit:
                break
            funded, budget = more, budget + step
            leap.has_stepped()
        return budget, runs

    def _is_same_up_to(self, low: Fraction, high: Fraction) -> bool:
        """Whether the same is bought by all budgets from one to another. Only a yes is sure."""
        try:
            Between(self, low, high)
        except Unsure:
            return False
        return True

    def funded_by(self, budget: Fraction, number: int = 1, tell: Optional[Tell] = None) -> Set[int]:
        """What is bought by a budget of each voter. That is found from rounded amounts where these leave no doubt."""
        try:
            return {purchase.project for purchase in Run(self, budget, number, tell, is_exact=False).bought}
        except Unsure:
            return {purchase.project for purchase in Run(self, budget, number, tell).bought}

    def _spent(self, funded: Set[int]) -> Fraction:
        return sum((self.costs[project] for project in funded), Fraction(0))

    def _has_room(self, funded: Set[int]) -> bool:
        """Whether a project that has supporters could be added within the limit."""
        left = self.limit - self._spent(funded)
        return any(cost <= left for project, cost in enumerate(self.costs)
                   if project not in funded and self.supporters[project])


@dataclass(frozen=True)
class Shared:
    """What those supporters of a project pay together who don't pay all that is left of their budgets, and how many
    they are; and by how much the share of each may be off."""

    missing: int
    payers: int
    error: int


class Run:
    """One run of the rule. Amounts are whole numbers over one denominator. In an exact run that grows as projects are
    bought. In another it stays, shares are rounded down, and where that leaves a doubt on what is bought or who pays
    all that is left, Unsure is raised."""

    _BITS = 320

    def __init__(self, rule: Rule, budget: Fraction, number: int, tell: Optional[Tell], is_exact: bool = True):
        self.rule, self._is_exact = rule, is_exact
        self.bought: List[Purchase] = []
        self._scale = least_multiple(amount.denominator for amount in (budget, *rule.costs))
        self._scale <<= 0 if is_exact else self._BITS
        # By how much what a voter has left may be off. What is 0 is 0.
        self._error = 0
        self._left = [int(budget * self._scale)] * rule.voters
        self._buy_free()
        spent = Fraction(0)
        for project, shared in self._purchases():
            self._buy(project, shared)
            spent += rule.costs[project]
            if tell:
                tell(Progress(number, budget, spent, rule.limit))

    def _buy_free(self) -> None:
        for project, cost in enumerate(self.rule.costs):
            if not cost and self.rule.supporters[project]:
                self.bought.append(Purchase(project, Fraction(0), {}))

    def _purchases(self) -> Iterator[Tuple[int, Shared]]:
        """The project to buy next and how its cost is shared, as long as there is one.

        Money only falls, and so the price of a unit only rises. So the least price that was found earlier is found
        again before it is taken, and the others wait. The first of each project is what it is where nobody pays all
        that is left."""
        rule = self.rule
        waiting = [(cost / len(supporters) / worth, project, Fraction(0))
                   for project, (cost, supporters, worth) in enumerate(zip(rule.costs, rule.supporters, rule.worth))
                   if cost and supporters]
        heapify(waiting)
        # What was found since the last purchase.
        fresh: Dict[int, Optional[Shared]] = {}
        while waiting:
            _, project, _ = heappop(waiting)
            if project not in fresh:
                fresh[project] = self._shared(project)
            shared = fresh[project]
            if shared is None:
                continue
            worth = rule.worth[project] * self._scale
            price, error = Fraction(shared.missing, shared.payers) / worth, shared.error / worth
            if waiting and waiting[0] < (price, project):
                heappush(waiting, (price, project, error))
                continue
            if any(0 < error + other >= bound - price for bound, _, other in waiting):
                raise Unsure
            yield project, shared
            fresh.clear()

    def _shared(self, project: int) -> Optional[Shared]:
        """How the cost of a project is shared; None where the supporters can't pay for it."""
        lefts = list(filter(None, map(self._left.__getitem__, self.rule.supporters[project])))
        payers, cost = len(lefts), self._cost(project)
        self._check_sure(sum(lefts) - cost, payers * self._error)
        found = level(lefts, cost)
        if found is None:
            return None
        missing, lefts, richest = found
        error = (payers - len(lefts)) * self._error // len(lefts) + 1 if len(lefts) < payers and self._error else 0
        if self._error:
            share = missing // len(lefts)
            self._check_sure(min(lefts) - share, self._error + error + 1)
            self._check_sure(richest - share, self._error + error + 1)
        return Shared(missing, len(lefts), error)

    @staticmethod
    def _check_sure(difference: int, error: int) -> None:
        if error and -error <= difference <= error:
            raise Unsure

    def _cost(self, project: int) -> int:
        cost = self.rule.costs[project]
        return cost.numerator * (self._scale // cost.denominator)

    def _buy(self, project: int, shared: Shared) -> None:
        factor = shared.payers // gcd(shared.missing, shared.payers)
        if not self._is_exact:
            self._error += shared.error + (1 if factor > 1 else 0)
            factor = 1
        elif factor > 1:
            self._scale *= factor
            self._left = [left * factor for left in self._left]
        share, left = shared.missing * factor // shared.payers, self._left
        rests: Dict[int, Fraction] = {}
        for voter in self.rule.supporters[project]:
            rest = left[voter] - share
            if rest >= 0:
                left[voter] = rest
            else:
                if self._is_exact:
                    rests[voter] = Fraction(left[voter], self._scale)
                left[voter] = 0
        self.bought.append(Purchase(project, Fraction(share, self._scale), rests))


def result(projects: Projects, rule: Rule, bought: Sequence[Purchase], budget: Fraction, runs: int) -> EqualShares:
    """The result of the rule by names."""
    payments: List[Dict[str, Fraction]] = [{} for _ in range(rule.voters)]
    for purchase in bought:
        name = projects.ids[purchase.project]
        for voter in rule.supporters[purchase.project]:
            paid = purchase.rests.get(voter, purchase.share)
            if paid:
                payments[voter][name] = paid
    return EqualShares([projects.ids[purchase.project] for purchase in bought], budget, payments, runs)
