"""Rounds the payments of a price system to whole numerators over a denominator, so that the conditions hold.

Payments are floored, and what is missing for a project goes to the payments with the largest remainders and then to
supporters who have budget left; where none has, along a chain: a voter without budget pays for this project in place of
another one, for which somebody else pays. Where C5 or S5 fails, the voter budget is lowered to the most that anyone
spends, and payments are moved among supporters. Nothing here is trusted: what comes out is audited.
"""
from array import array
from dataclasses import dataclass
from fractions import Fraction
from functools import lru_cache, partial
from typing import TYPE_CHECKING, Any, Callable, Dict, Iterable, List, Optional, Sequence, Tuple, Union

from .amounts import ratio, ratio_of_float
from .decided import DecidedElection
from .shown import visible

if TYPE_CHECKING:
    from .finding.clock import Clock


class CannotKeep(ValueError):
    """No certificate near the given payments keeps `condition`; `voter` (from 1) and `project` (an id) say where, and
    are None where no single one is to blame.

    >>> try:
    ...     price_certificate(Instance([Project("a", 6)], 6), [["a"]], ["a"], 6, [{"a": 5}])
    ... except CannotKeep as why:
    ...     print(why)
    C3: 5 is paid for a, which costs 6
    """

    def __init__(self, condition: str, text: str, voter: Optional[int] = None, project: Optional[str] = None):
        super().__init__(condition, text, voter, project)
        self.condition, self.voter, self.project = condition, voter, project

    def __str__(self) -> str:
        return f"{self.args[0]}: {visible(self.args[1])}"


# Many numbers. Where they are small an array has them, which takes a fourth of the memory.
Numbers = Union[List[int], "array[int]"]
SMALL = 2**62


@dataclass(frozen=True)
class LeftOut:
    """A payment that was left out, since it is below 0, or for a project that isn't funded: the voter, the project, the
    amount, and the condition that it breaks where it is more than noise."""

    voter: int
    project: int
    amount: Fraction
    condition: str


@dataclass
class Given:
    """Payments as they were given, by slot, 0 where there is none, and as floats; the voter budget, how much of it may
    be noise, and by how much it was given below 0; whether all payments were given as floats, or all that was given is
    exact; and the payments that were left out."""

    amounts: Sequence[Any]
    floats: "array[float]"
    budget: Fraction
    noise: Fraction
    below: Fraction = Fraction(0)
    is_float: bool = False
    is_exact: bool = False
    left_out: Sequence[LeftOut] = ()


@dataclass
class Floors:
    """Payments rounded down to numerators, by slot; and for each funded project the slots of payments by falling
    remainder, and what the floors leave missing."""

    paid: Numbers
    order: Dict[int, "array[int]"]
    missing: Dict[int, int]


# A step of a chain: the slot that pays less, or none at the chain's beginning, and the slot that pays more.
Step = Tuple[Optional[int], int]


class Rounding:
    """Numerators over one denominator: what each slot pays, each voter has spent, and each may spend."""

    # Bounds on the repairs, so that one that doesn't come to an end is given up. A shift may look at each approval.
    MOST_SHIFTS, MOST_LOOKS, MOST_ROUNDS, MOST_MOVES = 5000, 5 * 10**6, 100, 3000

    def __init__(self, decided: DecidedElection, given: Given, denominator: int, stable: bool, keeps_budget: bool = False):
        self.decided, self.given, self.denominator, self.stable = decided, given, denominator, stable
        self.keeps_budget = keeps_budget
        self.budget = 0
        self.paid: Numbers = []
        self.spent: Numbers = []
        self.slack: Dict[int, int] = {}
        # No payment or budget that is tried comes near the double of this.
        most = max([given.budget, *(decided.costs[project] for project in decided.funded)])
        self._is_small = most * denominator < SMALL
        self._floors = self._floor_all()

    def settle(self, clock: "Clock", repairs: bool) -> None:
        """Finds numerators that keep all conditions, by voter budgets near the given one, or raises CannotKeep. With
        repairs, payments are moved among supporters where C5 or S5 fails. Where the clock has run out, what is begun isn't
        gone on with."""
        self._clock = clock
        low, noise = self._floor(self.given.budget), self._floor(self.given.noise)
        failed: Optional[CannotKeep] = None
        for budget in dict.fromkeys((low, low + 1, low + 2, low - 1, low - 2, low + noise, low - noise)):
            if budget < 0 or failed and not clock.left():
                continue
            try:
                self._settle_by(budget, repairs)
            except CannotKeep as why:
                # That there is too little money says less than what is the matter where there is enough.
                failed = failed if failed and why.condition == "C2" else why
                continue
            return
        assert failed is not None
        raise failed

    def _settle_by(self, budget: int, repairs: bool) -> None:
        self._share_costs(budget)
        if self._failing():
            # A lower budget breaks nothing that a higher one keeps.
            if not self.keeps_budget:
                self.budget = max(self.spent, default=0)
            if repairs:
                self._shift_payments()
            if repairs and self.stable:
                self._ease_offers()
        self._check()

    def _floor(self, amount: Fraction) -> int:
        return amount.numerator * self.denominator // amount.denominator

    def _cost(self, project: int) -> int:
        """What a project costs, rounded down. Of a funded one that is exact."""
        return self._floor(self.decided.costs[project])

    def _pay(self, slot: int, more: int) -> None:
        self.paid[slot] += more
        self.spent[self.decided.voter_of[slot]] += more

    def _left(self, voter: int) -> int:
        return self.budget - self.spent[voter]

    def _offer(self, voter: int) -> int:
        slots = self.decided.slots_of(voter)
        return max(self._left(voter), max(self.paid[slots.start:slots.stop], default=0))

    # C1 to C4: each funded project is paid for exactly, and nobody is over the budget.

    def _numbers(self, numbers: Iterable[int]) -> Numbers:
        return array("q", numbers) if self._is_small else list(numbers)

    def _floor_all(self) -> Floors:
        floors = Floors(self._numbers(0 for _ in self.decided.project_of), {}, {})
        amounts, paid, split = self.given.amounts, floors.paid, self._split()
        for project in sorted(self.decided.funded):
            rests, total = [], 0
            for slot in self.decided.slots[project]:
                if amounts[slot]:
                    floor, rest = split(amounts[slot])
                    paid[slot] = floor
                    total += floor
                    rests.append((rest, slot))
            rests.sort()
            floors.order[project] = array("I", (slot for _, slot in rests))
            floors.missing[project] = self._cost(project) - total
        return floors

    def _split(self) -> Callable[[Any], Tuple[int, float]]:
        """What splits an amount into a numerator and the remainder, which is told as a number below 0."""
        denominator, is_float = self.denominator, self.given.is_float
        parts: Callable[[Any], Tuple[int, int]] = partial(ratio, what="a payment")
        if is_float:
            parts = ratio_of_float

        def split(amount: Any) -> Tuple[int, float]:
            numerator, part = parts(amount)
            floor, rest = divmod(numerator * denominator, part)
            return floor, -rest / part

        # Many may pay the same. To find a Fraction again takes longer than to split it.
        known: Callable[[Any], Tuple[int, float]] = lru_cache(maxsize=2**12)(split)
        return known if is_float else split

    def _share_costs(self, budget: int) -> None:
        decided = self.decided
        self.budget, self.paid = budget, self._floors.paid[:]
        self.spent = self._numbers(sum(self.paid[start:end]) for start, end in zip(decided.starts, decided.starts[1:]))
        missing = dict(self._floors.missing)
        for voter, spent in enumerate(self.spent):
            if spent > budget:
                self._cut_noise(voter, missing)
        for project in sorted(decided.funded):
            payers = self._floors.order[project]
            missing[project] = self._give_back(payers, missing[project])
            missing[project] = self._take_more(project, payers, missing[project])
        for project in sorted(decided.funded):
            while missing[project] > 0:
                if not self._clock.left():
                    raise CannotKeep("C3", f"there was too little time to pay exactly for {decided.names[project]}",
                                     project=decided.names[project])
                missing[project] -= self._pass_on(project, missing[project])

    def _cut_noise(self, voter: int, missing: Dict[int, int]) -> None:
        """Lowers the largest payments of a voter who is over the budget."""
        while self.spent[voter] > self.budget:
            slot = max(self.decided.slots_of(voter), key=self.paid.__getitem__)
            cut = min(self.paid[slot], self.spent[voter] - self.budget)
            self._pay(slot, -cut)
            missing[self.decided.project_of[slot]] += cut

    def _give_back(self, payers: Sequence[int], missing: int) -> int:
        """Where too much is paid, the payments with the smallest remainders go down. Answers what is missing then."""
        while missing < 0:
            part = max(1, -missing // max(1, len(payers)))
            for slot in reversed(payers):
                cut = min(part, self.paid[slot], -missing)
                self._pay(slot, -cut)
                missing += cut
        return missing

    def _take_more(self, project: int, payers: Sequence[int], missing: int) -> int:
        """Where too little is paid, the payments with the largest remainders go up by one, twice at most, and then
        those of any supporter. Answers what is missing then."""
        for _ in range(2):
            missing -= self._raise_each(payers, 1, missing)
        part = 1
        while missing > 0:
            given = self._raise_each(self.decided.slots[project], part, missing)
            if not given:
                break
            missing -= given
            part *= 2
        return missing

    def _raise_each(self, slots: Iterable[int], part: int, missing: int) -> int:
        given, voter_of, spent = 0, self.decided.voter_of, self.spent
        for slot in slots:
            if given >= missing:
                break
            more = min(part, self.budget - spent[voter_of[slot]], missing - given)
            if more > 0:
                self.paid[slot] += more
                spent[voter_of[slot]] += more
                given += more
        return given

    def _pass_on(self, start: int, most: int) -> int:
        """Pays for a project along a shortest chain to a voter who has budget left, and answers how much."""
        decided = self.decided
        reached_from: Dict[int, Step] = {start: (None, 0)}
        line = [start]
        for project in line:
            for slot in decided.slots[project]:
                voter = decided.voter_of[slot]
                if self._left(voter) > 0:
                    return self._pay_along(reached_from, slot, most)
                for other in decided.slots_of(voter):
                    at = decided.project_of[other]
                    if self.paid[other] > 0 and at not in reached_from:
                        reached_from[at] = (other, slot)
                        line.append(at)
        raise self._too_little(start, line)

    def _too_little(self, start: int, line: List[int]) -> CannotKeep:
        decided = self.decided
        voters = {decided.voter_of[slot] for project in line for slot in decided.slots[project]}
        names = ", ".join(decided.names[project] for project in line[:5]) + (" and others" if len(line) > 5 else "")
        cost = float(sum(decided.costs[project] for project in line))
        told = f"the {len(voters)} supporters of {names} have a budget of {self._told(self.budget)} each"
        return CannotKeep("C2", f"{told}, and these projects cost {cost:.9g}", project=decided.names[start])

    def _pay_along(self, reached_from: Dict[int, Step], slot: int, most: int) -> int:
        most = min(most, self._left(self.decided.voter_of[slot]))
        gives, takes = [], [slot]
        while True:
            less, more = reached_from[self.decided.project_of[takes[-1]]]
            if less is None:
                break
            gives.append(less)
            takes.append(more)
            most = min(most, self.paid[less])
        self._move_along(gives, takes, most)
        return most

    def _move_along(self, gives: List[int], takes: List[int], amount: int) -> None:
        for slot in gives:
            self._pay(slot, -amount)
        for slot in takes:
            self._pay(slot, amount)

    # C5: what the supporters of an unfunded project have left is no more than it costs.

    def _shift_payments(self) -> None:
        """Repairs C5, where the supporters of an unfunded project have more left than it costs."""
        for project in self.decided.unfunded:
            left = sum(self._left(voter) for voter in self.decided.supporters[project])
            self.slack[project] = self._cost(project) - left
        looks = len(self.decided.ballots.places)
        for _ in range(min(self.MOST_SHIFTS, self.MOST_LOOKS // max(1, looks))):
            over = [project for project in self.decided.unfunded if self.slack[project] < 0]
            if not over or not self._clock.left() or not self._shift_one(min(over, key=self.slack.__getitem__)):
                return

    def _shift_one(self, unfunded: int) -> bool:
        """Lets a supporter of an unfunded project who has something left pay in the place of a voter who isn't one,
        along a chain. Whether one was found."""
        decided = self.decided
        inside = set(decided.supporters[unfunded])
        reached_from: Dict[int, Step] = {}
        for voter in decided.supporters[unfunded]:
            if self._left(voter) > 0:
                for slot in decided.slots_of(voter):
                    reached_from.setdefault(decided.project_of[slot], (None, slot))
        line = list(reached_from)
        for project in line:
            for slot in decided.slots[project]:
                if self.paid[slot] <= 0:
                    continue
                voter = decided.voter_of[slot]
                if voter not in inside:
                    if self._shift_along(reached_from, unfunded, slot):
                        return True
                    continue
                for other in decided.slots_of(voter):
                    if decided.project_of[other] not in reached_from:
                        reached_from[decided.project_of[other]] = (slot, other)
                        line.append(decided.project_of[other])
        return False

    def _shift_along(self, reached_from: Dict[int, Step], unfunded: int, last: int) -> bool:
        decided = self.decided
        most, gives, takes = self.paid[last], [last], []
        while True:
            less, more = reached_from[decided.project_of[gives[-1]]]
            takes.append(more)
            if less is None:
                break
            gives.append(less)
            most = min(most, self.paid[less])
        payer, relieved = decided.voter_of[takes[-1]], decided.voter_of[last]
        bounds = [self.slack[other] for other in decided.others(relieved) - decided.others(payer)]
        most = min([most, self._left(payer), -self.slack[unfunded], *bounds])
        if most <= 0:
            return False
        self._move_along(gives, takes, most)
        for other in decided.others(payer):
            self.slack[other] += most
        for other in decided.others(relieved):
            self.slack[other] -= most
        return True

    # S5: what the supporters of an unfunded project can offer is no more than it costs.

    def _ease_offers(self) -> None:
        """Moves parts of payments between two supporters of a funded project, while that lessens by how much S5 fails
        in all."""
        excess = {project: sum(map(self._offer, self.decided.supporters[project])) - self._cost(project)
                  for project in self.decided.unfunded}
        for _ in range(self.MOST_ROUNDS):
            moves = 0
            for project in sorted(excess, key=excess.__getitem__, reverse=True):
                for voter in self.decided.supporters[project]:
                    while (excess[project] > 0 and moves < self.MOST_MOVES and self._clock.left()
                           and self._lessen(excess, project, voter)):
                        moves += 1
            if not moves or max(excess.values(), default=0) <= 0:
                return

    def _lessen(self, excess: Dict[int, int], unfunded: int, voter: int) -> bool:
        """Lessens what one supporter of an unfunded project can offer: its dearest payment, where that is the offer, or
        else what it has left. Whether a move was found."""
        decided, slots = self.decided, self.decided.slots_of(voter)
        dearest = max(slots, key=self.paid.__getitem__, default=None)
        is_payment = dearest is not None and self.paid[dearest] >= self._left(voter)
        for mine in [dearest] if dearest is not None and is_payment else slots:
            for theirs in decided.slots[decided.project_of[mine]]:
                other = decided.voter_of[theirs]
                gives, takes = (mine, theirs) if is_payment else (theirs, mine)
                most = min(self.paid[gives], self._left(decided.voter_of[takes]))
                gains_nothing = unfunded in decided.others(other) and self._offer(other) >= self._offer(voter)
                if other == voter or most <= 0 or gains_nothing:
                    continue
                for part in {min(most, excess[unfunded]), min(most, -(-excess[unfunded] // 8)), 1}:
                    if self._move(excess, gives, takes, part):
                        return True
        return False

    def _move(self, excess: Dict[int, int], gives: int, takes: int, part: int) -> bool:
        """Moves a part of a payment from one voter to another, if by that S5 fails by less in all. Whether it does."""
        voters = [self.decided.voter_of[slot] for slot in (gives, takes)]
        before = {voter: self._offer(voter) for voter in voters}
        self._move_along([gives], [takes], part)
        change: Dict[int, int] = {}
        for voter, old in before.items():
            by = self._offer(voter) - old
            for other in self.decided.others(voter) if by else ():
                change[other] = change.get(other, 0) + by
        if sum(max(0, excess[other] + by) - max(0, excess[other]) for other, by in change.items()) < 0:
            for other, by in change.items():
                excess[other] += by
            return True
        self._move_along([takes], [gives], part)
        return False

    # The end.

    def _failing(self) -> List[Tuple[int, int]]:
        """The unfunded projects by which C5 or S5 fails, with what their supporters have left or can offer."""
        share = self._offer if self.stable else self._left
        shares = self._numbers(map(share, range(len(self.spent))))
        sums = {project: sum(map(shares.__getitem__, self.decided.supporters[project])) for project in self.decided.unfunded}
        return [(project, total) for project, total in sums.items()
                if total > self.decided.costs[project] * self.denominator]

    def _check(self) -> None:
        for project, total in self._failing():
            name, voters = self.decided.names[project], len(self.decided.supporters[project])
            condition, can = ("S5", "can offer") if self.stable else ("C5", "have left")
            cost = float(self.decided.costs[project])
            raise CannotKeep(condition, f"the {voters} supporters of {name} {can} {self._told(total)} together, and it "
                             f"costs {cost:.12g} (denominator {self.denominator}); other payments may keep it: let the "
                             "solver maximise the slack of this condition", project=name)

    def _told(self, numerator: int) -> str:
        return f"{float(Fraction(numerator, self.denominator)):.12g}"
