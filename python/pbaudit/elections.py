"""Elections as Python values, for whoever has no pabutools."""
from dataclasses import dataclass
from typing import Any, Collection, Iterable, Iterator


@dataclass(frozen=True)
class Project:
    """A project: its id, and what it costs, in the currency of the election: a whole number, a Fraction or a Decimal
    from 0 to 10^12. What else is given is an error where it is used.

    >>> Project("a", Fraction("4.50")).cost
    Fraction(9, 2)
    """

    name: str
    cost: Any


@dataclass(frozen=True)
class Instance:
    """The projects of an election, in their order, and its budget limit, in the currency of the costs and as one of
    them. A set of projects is put in order by their ids.

    >>> [project.name for project in Instance([Project("b", 4), Project("a", 6)], 10)]
    ['b', 'a']
    """

    projects: Iterable[Project]
    budget_limit: Any

    def __post_init__(self) -> None:
        # What can be gone through once only is kept.
        if hasattr(self.projects, "__next__") and not isinstance(self.projects, Collection):
            object.__setattr__(self, "projects", list(self.projects))

    def __iter__(self) -> Iterator[Project]:
        return iter(self.projects)
