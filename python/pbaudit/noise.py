"""Whether payments keep the conditions as they were given: exact ones exactly, and others but for noise.

Noise is what a solver or a float is off: a millionth of the voter budget for each voter, and a millionth of its cost for
each project, of all their payments together.
"""
from array import array
from dataclasses import dataclass, field
from fractions import Fraction
from typing import Dict, Iterable, List, Sequence, Tuple

from .amounts import ratio
from .decided import DecidedElection
from .rounding import CannotKeep, Given, LeftOut, Rounding

NOISE = Fraction(1, 10**6)
# Floats tell amounts apart that differ by more than this part of them.
SURE = 1e-9
# Exact sums are compared over 2 to the power of this, and over a denominator of a certificate that makes no difference.
BITS = 256
WHY = {
    "C1": "which it doesn't approve, and no part of that is left out; are ballots and payments in one order?",
    "C2": "and payments are at least 0",
    "C4": "which isn't funded",
}


def left_out_told(decided: DecidedElection, one: LeftOut) -> CannotKeep:
    """That a payment breaks its condition."""
    name = decided.names[one.project]
    told = f"voter {one.voter + 1} pays {float(one.amount):.9g} for {name}, {WHY[one.condition]}"
    return CannotKeep(one.condition, told, one.voter + 1, name)


def beyond_noise(decided: DecidedElection, left_out: Iterable[LeftOut], noise: Fraction) -> List[LeftOut]:
    """The payments that are too much to be left out as noise: of a voter together more than this, or of a project
    together more than a millionth of its cost."""
    by_voter: Dict[int, Fraction] = {}
    by_project: Dict[int, Fraction] = {}
    beyond = []
    for one in left_out:
        of_voter = by_voter[one.voter] = by_voter.get(one.voter, Fraction(0)) + abs(one.amount)
        of_project = by_project[one.project] = by_project.get(one.project, Fraction(0)) + abs(one.amount)
        if of_voter > noise or of_project > decided.costs[one.project] * NOISE:
            beyond.append(one)
    return beyond


@dataclass
class Conditions:
    """The conditions of the given payments, with C5, or S5 where `stable`, by a budget that a voter is taken to have."""

    decided: DecidedElection
    given: Given
    stable: bool
    budget: float
    spent: List[float] = field(init=False)

    def __post_init__(self) -> None:
        self.spent = spent_by(self.decided, self.given.floats)

    def check(self) -> None:
        """Raises CannotKeep where a condition fails, of others than exact payments by more than noise."""
        for one in beyond_noise(self.decided, self.given.left_out, self.given.noise)[:1]:
            raise left_out_told(self.decided, one)
        self._check_spent()
        for project in sorted(self.decided.funded):
            self._check_paid(project)
        shares = self._shares()
        for project in self.decided.unfunded:
            self._check_unfunded(project, shares)

    def _check_spent(self) -> None:
        """C2."""
        has = float(self.given.budget)
        most = has * (1 - SURE if self.given.is_exact else 1 + float(NOISE))
        for voter, total in enumerate(self.spent):
            if total > most and not (self.given.is_exact and self._can_spend(voter)):
                raise CannotKeep("C2", f"voter {voter + 1} spends {_beside(total, has)} of {has:.9g}", voter + 1)

    def _can_spend(self, voter: int) -> bool:
        low, _ = self._sum(self.decided.slots_of(voter))
        return low <= _fixed(self.given.budget)

    def _check_paid(self, project: int) -> None:
        """C3."""
        slots, cost = self.decided.slots[project], self.decided.costs[project]
        paid = sum(map(self.given.floats.__getitem__, slots))
        fails = abs(paid - float(cost)) > float(cost) * float(NOISE)
        if self.given.is_exact and not fails:
            low, parts = self._sum(slots)
            fails = not low <= _fixed(cost) <= low + parts
        if fails:
            name = self.decided.names[project]
            told = f"{_beside(paid, float(cost))} is paid for {name}, which costs {float(cost):.9g}"
            raise CannotKeep("C3", told, project=name)

    def _shares(self) -> List[float]:
        """What each voter has left, or can offer."""
        decided, floats = self.decided, self.given.floats
        shares = [self.budget - each for each in self.spent]
        if self.stable:
            shares = [max(left, max(floats[start:end], default=0.0))
                      for left, start, end in zip(shares, decided.starts, decided.starts[1:])]
        return shares

    def _check_unfunded(self, project: int, shares: Sequence[float]) -> None:
        """C5 or S5."""
        supporters, cost = self.decided.supporters[project], float(self.decided.costs[project])
        total = sum(map(shares.__getitem__, supporters))
        fails = total > cost * (1.0 if self.given.is_exact else 1 + float(NOISE))
        if self.given.is_exact and abs(total - cost) <= (cost + len(supporters) * self.budget) * SURE:
            fails = self._is_too_much(project)
        if fails:
            name, condition, can = self.decided.names[project], *(("S5", "can offer") if self.stable else ("C5", "have left"))
            told = f"the supporters of {name} {can} {_beside(total, cost)} together, and it costs {cost:.9g}"
            raise CannotKeep(condition, told, project=name)

    def _is_too_much(self, project: int) -> bool:
        """Whether what the supporters of an unfunded project have left, or can offer, is exactly more than it costs."""
        total = off = 0
        for voter in self.decided.supporters[project]:
            slots = self.decided.slots_of(voter)
            spent, parts = self._sum(slots)
            share = _fixed(self.given.budget) - spent
            if self.stable:
                share = max(share, *(self._sum([slot])[0] for slot in slots), 0)
            total, off = total + share, off + parts + 1
        return total - off > _fixed(self.decided.costs[project])

    def _sum(self, slots: Iterable[int]) -> Tuple[int, int]:
        """What is paid in some slots, rounded down, and by how many units that may be too little."""
        whole = rest = parts = 0
        for slot in slots:
            amount = self.given.amounts[slot]
            if type(amount) is int:
                whole += amount
            elif amount:
                rest, parts = rest + _fixed(amount), parts + 1
        return (whole << BITS) + rest, parts


def _beside(amount: float, other: float) -> str:
    """An amount as it is told beside another from which it differs, maybe by less than is shown."""
    return f"about {amount:.9g}" if f"{amount:.9g}" == f"{other:.9g}" else f"{amount:.9g}"


def _fixed(amount: object) -> int:
    numerator, denominator = ratio(amount, "an amount")
    return (numerator << BITS) // denominator


def spent_by(decided: DecidedElection, floats: "array[float]") -> List[float]:
    """What each voter spends."""
    return [sum(floats[start:end]) for start, end in zip(decided.starts, decided.starts[1:])]


def check_moves(rounding: Rounding, given: Given, finest: Fraction) -> None:
    """Raises CannotKeep where payments or the voter budget have moved by more than noise. A budget may be off by the
    finest amount that a certificate has, though it is less."""
    decided, denominator, more = rounding.decided, rounding.denominator, 1 + SURE
    if abs(Fraction(rounding.budget, denominator) - given.budget) > max(given.noise, finest):
        raise CannotKeep("C2", "the conditions hold by voter budgets alone that are off by more than noise")
    by_voter, by_project = array("d", bytes(8 * len(decided.ballots))), array("d", bytes(8 * len(decided.names)))
    for numerator, amount, voter, project in zip(rounding.paid, given.floats, decided.voter_of, decided.project_of):
        move = abs(numerator / denominator - amount)
        by_voter[voter] += move
        by_project[project] += move
    for one in given.left_out:
        by_voter[one.voter] += abs(float(one.amount))
        by_project[one.project] += abs(float(one.amount))
    most = float(given.noise) * more
    for voter, moved in enumerate(by_voter, 1):
        if moved > most:
            raise CannotKeep("C2", f"what voter {voter} pays has to move by more than noise", voter)
    for project, moved in enumerate(by_project):
        if moved > float(decided.costs[project] * NOISE) * more:
            name = decided.names[project]
            raise CannotKeep("C3", f"what is paid for {name} has to move by more than noise", project=name)
