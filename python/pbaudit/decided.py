"""An election with its outcome, for what computes payments."""
from array import array
from dataclasses import dataclass, field
from fractions import Fraction
from typing import Dict, FrozenSet, List, Set

from .values import Ballots


@dataclass
class DecidedElection:
    """An election with its outcome. Projects and voters are places, from 0. Each approval of a funded project is a
    slot, since it may have a payment; slots are numbered by rising voter and then by rising project."""

    names: List[str]
    costs: List[Fraction]
    limit: Fraction
    funded: Set[int]
    ballots: Ballots
    # The slots of a funded project, and the voters who approve one that isn't.
    slots: List["array[int]"] = field(init=False)
    supporters: List["array[int]"] = field(init=False)
    # Of each slot, and where those of each voter begin.
    project_of: "array[int]" = field(init=False)
    voter_of: "array[int]" = field(init=False)
    starts: "array[int]" = field(init=False)
    _others: Dict[int, FrozenSet[int]] = field(init=False, default_factory=dict)

    def __post_init__(self) -> None:
        self.slots, self.supporters = ([array("I") for _ in self.names] for _ in range(2))
        self.project_of, self.voter_of, self.starts = array("I"), array("I"), array("I", [0])
        is_funded = [project in self.funded for project in range(len(self.names))]
        slot = 0
        for voter, ballot in enumerate(self.ballots):
            for project in ballot:
                if is_funded[project]:
                    self.slots[project].append(slot)
                    self.project_of.append(project)
                    self.voter_of.append(voter)
                    slot += 1
                else:
                    self.supporters[project].append(voter)
            self.starts.append(slot)

    @property
    def unfunded(self) -> List[int]:
        """The projects that aren't funded, in their order."""
        return [project for project in range(len(self.names)) if project not in self.funded]

    def slots_of(self, voter: int) -> range:
        """The slots of a voter."""
        return range(self.starts[voter], self.starts[voter + 1])

    def others(self, voter: int) -> FrozenSet[int]:
        """What of a ballot isn't funded."""
        if voter not in self._others:
            self._others[voter] = frozenset(project for project in self.ballots[voter] if project not in self.funded)
        return self._others[voter]
