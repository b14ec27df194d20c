"""What voters do with a unit of their budget, as an interior-point method has it (interior.py): how they answer to weights.

Each voter pays a part of its budget for each funded project of its ballot, and keeps the rest. Nothing of this may be below
0: each such amount has a multiplier, and the method goes on while their products are more than 0. Once the weights of
projects are known, the step of each voter is known by itself; so what the voters of all groups come to is a matrix with a
row for each project.
"""
from dataclasses import dataclass
from typing import Any, List, Tuple

from .needs import needed

np, sparse = needed("numpy"), needed("scipy.sparse")

# By how much more than they have to those offer at first who offer.
MORE = 1.3


@dataclass
class Bounds:
    """Amounts that have to stay above 0, with their multipliers; and which part of all voters each is of, or 1 where it is
    no voter's."""

    amounts: Any
    multipliers: Any
    parts: Any

    @classmethod
    def of(cls, amounts: Any, parts: Any, target: float) -> "Bounds":
        """Amounts that are as far from 0 as their multipliers are."""
        return cls(amounts, target / amounts, np.broadcast_to(parts, amounts.shape))

    @property
    def stiffness(self) -> Any:
        """By how much a multiplier falls where its amount grows."""
        return self.multipliers / self.amounts

    def gap(self) -> float:
        """The sum of the products."""
        return float((self.amounts * self.multipliers) @ self.parts)


# Steps of the amounts and of the multipliers of bounds.
Steps = Tuple[Any, Any]


class Spenders:
    """Groups of voters who pay, and keep the rest: that is what they have left for the unfunded projects of their
    ballots."""

    def __init__(self, funded: Any, unfunded: Any, parts: Any, spent: Any, target: float):
        """`funded` and `unfunded` are matrices of their approvals, and `parts` which part of all voters each group is;
        `spent` is what they pay at first, by the entries of `funded`."""
        self._funded, self._unfunded, self._parts = funded, unfunded, parts
        self._counts = np.diff(funded.indptr)
        self._projects = funded.indices
        self._each = self._of_each(parts)
        self.spent = Bounds.of(spent, self._each, target)
        self.kept = Bounds.of(1 - self._sums(spent), parts, target)

    def _of_each(self, of_group: Any) -> Any:
        """For each payment what its group has."""
        return np.repeat(of_group, self._counts)

    def _sums(self, payments: Any) -> Any:
        """What the payments of each group come to."""
        group = self._of_each(np.arange(len(self._counts)))
        return np.bincount(group, payments, len(self._counts))

    @property
    def bounds(self) -> List[Bounds]:
        """All amounts that have to stay above 0."""
        return [self.spent, self.kept]

    @property
    def offers(self) -> Any:
        """What each voter has for the unfunded projects of its ballot."""
        return self.kept.amounts

    def totals(self, spent: Any, offers: Any) -> Any:
        """What is paid for each funded project, and then what the supporters of each unfunded one offer."""
        paid = np.bincount(self._projects, self._each * spent, self._funded.shape[1])
        return np.concatenate([paid, self._unfunded.T @ (self._parts * offers)])

    def value(self, unfunded: Any) -> float:
        """What the voters contribute by the multipliers, with these weights of unfunded projects."""
        return float(self._parts @ (self.kept.multipliers - self._unfunded @ unfunded))

    def matrix(self) -> Any:
        """How the totals answer to the weights of projects."""
        self._ease = 1 / self.spent.stiffness
        ease, kept = self._sums(self._ease), self.kept.stiffness
        self._tie = kept / (1 + kept * ease)
        inverse = np.divide(1.0, ease, out=np.zeros(len(ease)), where=ease > 0)
        return self._gram(self._ease * self._of_each(inverse), -1.0, ease / (1 + kept * ease), inverse)

    def _gram(self, answers: Any, sign: float, offering: Any, tied: Any) -> Any:
        """The matrix of what voters pay where they offer one more, of how easily they offer, and of how payments are tied
        by the budget that they share."""
        shape, count = self._funded.shape, self._funded.shape[1]
        offered, eased = (sparse.csr_matrix((each, self._projects, self._funded.indptr), shape)
                          for each in (answers, self._ease))
        made = _squares(sparse.hstack([offered, sign * self._unfunded], format="csr"), self._parts * offering)
        made[:count, :count] -= _squares(eased, self._parts * tied)
        made[np.arange(count), np.arange(count)] += np.bincount(self._projects, self._each * self._ease, count)
        return made

    def pulls(self, aims: List[Any]) -> Tuple[Any, Any]:
        """What draws payments, and then offers, where the multipliers are to be these once the step is made."""
        spent, kept = aims
        return spent - self._of_each(kept), 0.0

    def pulled(self, pulls: Tuple[Any, Any], funded: Any, unfunded: Any) -> Tuple[Any, Any]:
        """The same with weights of projects."""
        return pulls[0] + funded[self._projects] + self._of_each(self._unfunded @ unfunded), 0.0

    def step(self, pulls: Tuple[Any, Any]) -> Tuple[Any, Any]:
        """By how much more each pays, and offers, where it is drawn so."""
        spent = self._eased(pulls[0])
        return spent, -self._sums(spent)

    def _eased(self, pulls: Any) -> Any:
        free = self._ease * pulls
        return free - self._ease * self._of_each(self._tie * self._sums(free))

    def steps(self, spent: Any, offers: Any) -> List[Any]:
        """The steps of all amounts where payments and offers make these."""
        return [spent, -self._sums(spent)]

    def payments(self) -> Tuple[Any, Any, Any]:
        """The groups, the places of projects, and the parts of the budget that are paid."""
        return self._of_each(np.arange(len(self._counts))), self._projects, self.spent.amounts


class Offerers(Spenders):
    """Groups of voters who offer as much as they have left, and as they pay for any project."""

    def __init__(self, funded: Any, unfunded: Any, parts: Any, spent: Any, target: float):
        super().__init__(funded, unfunded, parts, spent, target)
        dearest = self.kept.amounts.copy()
        np.maximum.at(dearest, self._of_each(np.arange(len(parts))), spent)
        offers = MORE * dearest
        self.over_kept = Bounds.of(offers - self.kept.amounts, parts, target)
        self.over_spent = Bounds.of(self._of_each(offers) - spent, self._each, target)

    @property
    def bounds(self) -> List[Bounds]:
        return [self.spent, self.kept, self.over_kept, self.over_spent]

    @property
    def offers(self) -> Any:
        return self.kept.amounts + self.over_kept.amounts

    def value(self, unfunded: Any) -> float:
        return float(self._parts @ (self.kept.multipliers - self.over_kept.multipliers))

    def matrix(self) -> Any:
        spent, kept, over_kept, over_spent = (each.stiffness for each in self.bounds)
        self._ease = 1 / (spent + over_spent)
        ease, pushed = self._sums(self._ease), self._sums(self._ease * over_spent)
        whole = 1 + (kept + over_kept) * ease
        self._tie = (kept + over_kept) / whole
        self._offering = 1 / (self._sums(spent * over_spent * self._ease) + (
            kept * pushed**2 + over_kept * (1 + pushed)**2 + kept * over_kept * ease) / whole)
        self._answers = self._ease * (over_spent - self._of_each((over_kept + (kept + over_kept) * pushed) / whole))
        return self._gram(self._answers, 1.0, self._offering, self._tie)

    def pulls(self, aims: List[Any]) -> Tuple[Any, Any]:
        spent, kept, over_kept, over_spent = aims
        return spent - over_spent + self._of_each(over_kept - kept), over_kept + self._sums(over_spent)

    def pulled(self, pulls: Tuple[Any, Any], funded: Any, unfunded: Any) -> Tuple[Any, Any]:
        return pulls[0] + funded[self._projects], pulls[1] - self._unfunded @ unfunded

    def step(self, pulls: Tuple[Any, Any]) -> Tuple[Any, Any]:
        offers = (pulls[1] + self._sums(self._answers * pulls[0])) * self._offering
        return self._eased(pulls[0]) + self._answers * self._of_each(offers), offers

    def steps(self, spent: Any, offers: Any) -> List[Any]:
        kept = -self._sums(spent)
        return [spent, kept, offers - kept, self._of_each(offers) - spent]


def _squares(rows: Any, weights: Any) -> Any:
    """The sum of the products of each row with itself, as often as it weighs."""
    weighed = sparse.csr_matrix((rows.data * np.repeat(weights, np.diff(rows.indptr)), rows.indices, rows.indptr),
                                rows.shape)
    return np.asarray((rows.T @ weighed).todense())
