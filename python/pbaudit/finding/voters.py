"""What voters contribute to U2: one convex function of the weights, which is computed in a pass over the ballots.

With weights s of funded projects and w of unfunded ones, where Z is the sum of w over a voter's ballot, a voter contributes
the most that a unit of its budget can bring: s for each part that it pays for a project, less Z for each part that it has
left; in the stable form less Z for each part that it can offer, which is the larger of what it has left and of its largest
payment. In the plain form it spends all on the project with the best s, or nothing: U(i) - Z(i). In the stable one it pays
equally for the best projects, and may leave as much: X(i) - Z(i), where X(i) needn't be whole.
"""
from dataclasses import dataclass
from typing import Any

from .needs import needed
from .shares import Problem

np = needed("numpy")

# How often weights are doubled at most, to find how great they can be.
DOUBLINGS = 10


@dataclass(frozen=True)
class Weights:
    """Weights of the funded projects that cost something, below 0 for `most`; of the unfunded ones that somebody
    approves; and of Cover, for each voter."""

    funded: Any
    unfunded: Any
    cover: Any

    def scaled(self, part: float) -> "Weights":
        """With those of funded projects and of Cover so many times as great."""
        return Weights(self.funded * part, self.unfunded, self.cover * part)


class Voters:
    """The groups of a problem, as weights are weighed by them, in the plain form or the stable one."""

    def __init__(self, problem: Problem, stable: bool):
        approvals = problem.groups.approvals
        self._columns, self._stable = approvals.tocsc(), stable
        self.sizes = problem.groups.sizes
        self._payers = [self.supporters(project) for project in problem.funded]
        self._hoping = approvals[:, problem.unfunded].tocsr()

    def supporters(self, project: int) -> Any:
        """The groups that approve a project."""
        columns = self._columns
        return columns.indices[columns.indptr[project]:columns.indptr[project + 1]]

    def hopes(self, weights: Weights) -> Any:
        """What each voter has of unfunded projects: Z."""
        return self._hoping @ weights.unfunded

    def contributions(self, weights: Weights) -> Any:
        """What each voter contributes."""
        hopes = self.hopes(weights)
        return self._offered(weights, hopes) if self._stable else self._kept(weights, -hopes)

    def _kept(self, weights: Weights, best: Any) -> Any:
        for payers, weight in zip(self._payers, weights.funded):
            best[payers] = np.maximum(best[payers], weight)
        return best

    def _offered(self, weights: Weights, hopes: Any) -> Any:
        best, gain, count = -hopes, -hopes, np.zeros(len(hopes))
        # What is paid for one more project is worth it as long as that brings more than the others do.
        for at in np.argsort(-weights.funded, kind="stable").tolist():
            payers = self._payers[at]
            gain[payers] += weights.funded[at]
            count[payers] += 1
            mine, parts = gain[payers], count[payers]
            best[payers] = np.maximum(best[payers], mine / np.where(mine >= 0, parts, parts + 1))
        return best

    def whole_contributions(self, weights: Weights) -> Any:
        """The same exactly for whole weights, with U(i) or X(i) whole."""
        hopes = np.rint(self.hopes(weights)).astype(np.int64)
        funded = weights.funded.astype(np.int64)
        if not self._stable:
            return self._kept(Weights(funded, None, None), -hopes)
        least = np.ceil(self._offered(weights, hopes.astype(float))).astype(np.int64)
        # By floats it may be off a little.
        while True:
            lacking = self._lacking(funded, hopes, least)
            if not lacking.any():
                break
            least += lacking
        lower = ~self._lacking(funded, hopes, least - 1) & (least > -hopes)
        return least - lower

    def _lacking(self, funded: Any, hopes: Any, tried: Any) -> Any:
        """Whether what each voter is said to contribute is too little."""
        over = -hopes - np.minimum(tried, 0)
        for payers, weight in zip(self._payers, funded.tolist()):
            over[payers] += np.maximum(weight - tried[payers], 0)
        return over > 0

    def total(self, weights: Weights) -> float:
        """What all voters contribute together with Cover, which U2 wants to be at most 0."""
        return float(self.sizes @ self.contributions(weights)) + float(weights.cover) * float(self.sizes.sum())

    def greatest(self, weights: Weights) -> float:
        """How many times as great the weights of funded projects and of Cover can be so that U2 holds. Since the total is
        convex, it is no more than on the line between two totals."""
        high, most = 1.0, self.total(weights)
        low, least = 0.0, self.total(weights.scaled(0.0)) if most > 0 else 0.0
        if least > 0 or most > 0 and not least:
            return 0.0
        for _ in range(DOUBLINGS):
            if most > 0:
                break
            low, least, high = high, most, high * 2
            most = self.total(weights.scaled(high))
        return low + (high - low) * least / (least - most) if most > 0 else high
