"""Voters merged by equal ballots: what searches for prices compute with."""
from array import array
from dataclasses import dataclass
from itertools import chain
from typing import Any, Dict, List, Sequence

from ..decided import DecidedElection
from .needs import needed

np, sparse = needed("numpy"), needed("scipy.sparse")


@dataclass(frozen=True)
class Groups:
    """Groups of voters: how many each has, which voter is in which, and whether a group approves a project, as a matrix
    of ones with a row for each group."""

    sizes: Any
    of_voter: Any
    approvals: Any

    def __len__(self) -> int:
        return len(self.sizes)

    def sums(self, each: Any) -> Any:
        """What the supporters of each project have together, where each voter of a group has so much."""
        return self.approvals.T @ (self.sizes * each)

    def merged(self, projects: Sequence[int]) -> "Groups":
        """Groups by what their ballots have of these projects alone; the columns are those."""
        return _grouped(self.approvals[:, list(projects)], self.sizes, self.of_voter)


def groups_of(decided: DecidedElection) -> Groups:
    """The voters of an election, merged by equal ballots, in the order of the first voter of each group."""
    known: Dict[bytes, int] = {}
    of_voter, places, ends = [], [], [0]
    for ballot in decided.ballots:
        key = array("I", ballot).tobytes()
        if key not in known:
            known[key] = len(known)
            places.append(ballot)
            ends.append(ends[-1] + len(ballot))
        of_voter.append(known[key])
    indices = np.fromiter(chain.from_iterable(places), np.int32, ends[-1])
    shape = (len(known), len(decided.names))
    approvals = sparse.csr_matrix((np.ones(ends[-1]), indices, ends), shape=shape)
    numbers = np.array(of_voter, np.int64)
    return Groups(np.bincount(numbers, minlength=len(known)).astype(float), numbers, approvals)


def _grouped(approvals: Any, sizes: Any, of_voter: Any) -> Groups:
    """Rows that are equal put together."""
    approvals.sort_indices()
    known: Dict[bytes, int] = {}
    rows: List[int] = []
    starts, indices = approvals.indptr.tolist(), approvals.indices
    numbers = np.empty(len(sizes), np.int64)
    for row, (start, end) in enumerate(zip(starts, starts[1:])):
        key = indices[start:end].tobytes()
        if key not in known:
            known[key] = len(known)
            rows.append(row)
        numbers[row] = known[key]
    merged = np.bincount(numbers, weights=sizes, minlength=len(known)) if len(sizes) else np.zeros(0)
    return Groups(merged, numbers[of_voter], approvals[rows])
