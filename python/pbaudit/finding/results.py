"""What a search for certificates answers."""
import html
from dataclasses import dataclass, field
from fractions import Fraction
from typing import Any, Callable, Dict, List, Literal, Optional, Tuple, Union

from ..auditing import Verdict
from ..certificates import PriceCertificate
from ..groups import GroupsVerdict
from ..shown import visible
from ..tables import PriceSystem, Result, html_of
from ..writing import Satisfaction

SECONDS = 60.0
# How a relaxation is measured.
By = Literal["min_mul", "min_add"]


@dataclass(frozen=True)
class FoundPrices(Result):
    """A price certificate that was found, with the auditor's verdict on it, which is a yes, and the mode in which that
    was asked.

    >>> prices = find("town.pb").prices
    >>> str(prices.verdict), prices.cover
    ('supported priceable', True)
    """

    certificate: PriceCertificate
    verdict: Verdict
    stable: bool
    exhaustive: bool
    cover: bool

    def rows_of_table(self) -> List[Dict[str, Any]]:
        """A row for each payment."""
        return self.certificate.rows_of_table()

    @property
    def file(self) -> bytes:
        """The certificate as a file."""
        return self.certificate.file

    @property
    def options(self) -> List[str]:
        """The options by which `pbaudit prices` gives this verdict."""
        options = [("--stable", self.stable), ("--no-exhaustive", not self.exhaustive), ("--cover", self.cover)]
        return [option for option, is_on in options if is_on]


@dataclass(frozen=True)
class FoundViolation(Result):
    """A violation certificate that was found, with the auditor's verdict on it, which is a yes: the group, by the
    numbers of its voters, from 1, and the ids of the projects that it demands; and the measure, "count" or "cost".

    >>> park, bench, school = Project("park", 2), Project("bench", 2), Project("school", 8)
    >>> town = write_election(Instance([park, bench, school], 8), [{park, bench}] * 2 + [{school}] * 2, [school])
    >>> for violation in find(town, prices=False).violations:
    ...     print(violation.by, violation.voters, violation.verdict)
    count [1, 2] violation
    cost [1, 2] violation
    """

    by: Satisfaction
    voters: List[int] = field(repr=False)
    projects: List[str]
    verdict: Verdict
    file: bytes = field(repr=False)
    # It has lists.
    __hash__ = None  # type: ignore[assignment]


@dataclass(frozen=True)
class FoundRefutation(Result):
    """A refutation that was found, with the auditor's verdict on it, which is a yes: the weights of projects by their
    ids and roles, and that of Cover, which is 0 where it isn't of prices with Cover alone. `stable` says whether it is of
    stable prices alone.

    >>> park, school = Project("park", 2), Project("school", 8)
    >>> town = write_election(Instance([park, school], 8), [{park}] * 2 + [{school}] * 2, [school])
    >>> refutation = find(town, violation=False).refutation
    >>> print(refutation.verdict)
    unpriceable
    >>> refutation.least, refutation.most, refutation.left, refutation.cover
    ({'school': 1}, {}, {'park': 1}, 0)
    """

    least: Dict[str, int]
    most: Dict[str, int]
    left: Dict[str, int]
    cover: int
    verdict: Verdict
    file: bytes = field(repr=False)
    # It has dictionaries.
    __hash__ = None  # type: ignore[assignment]

    @property
    def stable(self) -> bool:
        """Whether it refutes stable prices alone."""
        return self.verdict.refutes in ("stable", "stable with Cover")

    @property
    def options(self) -> List[str]:
        """The options by which `pbaudit refutation` gives this verdict."""
        return ["--stable"] if self.stable else []

    def rows_of_table(self) -> List[Dict[str, Any]]:
        """A row for each weight."""
        return [{"project": project, "role": role, "weight": weight} for role in ("least", "most", "left")
                for project, weight in getattr(self, role).items()]


@dataclass
class Found(Result):
    """What a search found: prices, or None; a refutation, or None; violations, at most one by each measure; and
    sentences on what was found and on what wasn't. It is true where any of these was found. `groups` is the answer of
    `audit_groups`, by cost, for which nothing has to be found, and None where the auditor is older. `str` shows that and
    the sentences. `unfinished` is what was looked for when the search was stopped, or None.

    >>> found = find("town.pb", violation=False)
    >>> bool(found), found.violations, found.unfinished
    (True, [], None)
    >>> print(found.groups)
    satisfied ejr+ by cost
    """

    prices: Optional[FoundPrices] = None
    refutation: Optional[FoundRefutation] = None
    violations: List[FoundViolation] = field(default_factory=list)
    sentences: List[str] = field(default_factory=list)
    unfinished: Optional[str] = None
    groups: Optional[GroupsVerdict] = None

    @property
    def price_system(self) -> PriceSystem:
        """The prices that were found as amounts, with the names that pabutools has for them; or that a refutation was
        found, or nothing."""
        if self.prices is not None:
            return self.prices.certificate.price_system
        return PriceSystem("unknown" if self.refutation is None else str(self.refutation.verdict))

    def rows_of_table(self) -> List[Dict[str, Any]]:
        """A row for each certificate that was found, with the projects that a group demands."""
        found = [("prices", self.prices, ""), ("refutation", self.refutation, ""),
                 *((f"violation by {each.by}", each, ", ".join(each.projects)) for each in self.violations)]
        return [{"found": kind, "verdict": str(each.verdict), "demanded": demanded}
                for kind, each, demanded in found if each is not None]

    def _repr_html_(self) -> str:
        """The answer on groups, what was found as a table, and the sentences, as a notebook shows it."""
        def shown(lines: List[str]) -> str:
            return "".join(f"<p>{html.escape(visible(line))}</p>" for line in lines)
        return shown(self._first()) + html_of(self.rows_of_table()) + shown(self.sentences)

    def _first(self) -> List[str]:
        """The line on groups, where there is one."""
        return [] if self.groups is None else [self.groups.line]

    def __bool__(self) -> bool:
        return self.prices is not None or self.refutation is not None or bool(self.violations)

    def __str__(self) -> str:
        return "\n".join(self._first() + self.sentences)


# Is told of each certificate as soon as it is found.
OnFound = Callable[[Union[FoundPrices, FoundRefutation, FoundViolation]], None]


class Stopped(KeyboardInterrupt):
    """A search that the keyboard stopped, as Ctrl+C does. `found` is what it had found by then: of `find` a `Found`, whose
    `unfinished` says what was looked for, and of `find_folder` a `FoundFolder`, whose certificates and table are written.
    The next call goes on, with `earlier` or with `resume`.

    >>> park, school = Project("park", 2), Project("school", 8)
    >>> town = write_election(Instance([park, school], 8), [{park}] * 2 + [{school}] * 2, [school])
    >>> def stop(found):
    ...     raise KeyboardInterrupt
    >>> try:
    ...     find(town, on_found=stop)
    ... except Stopped as why:
    ...     print(why.found.refutation.verdict, find(town, earlier=why.found).violations[0].by)
    unpriceable count
    """

    def __init__(self, found: "Union[Found, FoundFolder]"):
        super().__init__(found)
        self.found = found

    def __str__(self) -> str:
        return "the search was stopped; `found` of this exception is what it had found"


@dataclass(frozen=True)
class FoundRow(Result):
    """What the table of a folder says of an election: its rule, by its file; the line of `audit_groups`, by cost; whether
    prices were found, and whether these are stable; whether all prices are refuted; by which measures violations were
    found, all of these now or before; how long that took; and what went wrong, with the files that no longer belong to
    the outcome. What wasn't looked for, and isn't there, is empty.

    >>> row, = find_folder("elections", output="mine", violation=False).rows
    >>> row.election, row.prices, row.refuted
    ('town.pb', 'with Cover', '')
    """

    election: str
    rule: str = ""
    groups: str = ""
    prices: str = ""
    stable: str = ""
    refuted: str = ""
    violation: str = ""
    seconds: str = ""
    note: str = ""


@dataclass(frozen=True)
class FoundFolder(Result):
    """What was found for the elections of a folder: a row for each, as `pandas.DataFrame(found.rows)` takes them, and
    a status as that of `find --folder`. It is true where the status is 0, and `str` is the table as it is printed.

    >>> found = find_folder("elections", output="mine", violation=False)
    >>> found.status, str(found).split()[:3]
    (0, ['election', 'rule', 'groups'])
    """

    rows: Tuple[FoundRow, ...]
    status: int

    def rows_of_table(self) -> List[Dict[str, Any]]:
        """A row for each election."""
        return [row.to_dict() for row in self.rows]

    def __bool__(self) -> bool:
        return self.status == 0

    def __str__(self) -> str:
        from .folders import table_lines
        return "\n".join(table_lines(list(self.rows)))


@dataclass(frozen=True)
class Relaxation(Result):
    """Prices that keep all conditions but C5 or S5, and keep this by a relaxation: each unfunded project may cost `beta`
    times as much ("min_mul"), or `beta` more ("min_add"). The `verdict` is the auditor's on these prices in the election
    in which it does. That there are such prices by this `beta` is exact; that there are none by a smaller one is what the
    solver says, but for a millionth mostly.

    >>> park, school = Project("park", 2), Project("school", 8)
    >>> town = Instance([park, school], 8), [{park}] * 2 + [{school}] * 2, [school]
    >>> relaxed = smallest_relaxation(*town)
    >>> print(relaxed.verdict, round(float(relaxed.beta), 3))
    supported stable 4.0
    """

    by: By
    beta: Fraction
    verdict: Verdict
    price_system: PriceSystem
    # It has lists.
    __hash__ = None  # type: ignore[assignment]

    def rows_of_table(self) -> List[Dict[str, Any]]:
        """A row for each payment."""
        return self.price_system.rows_of_table()


@dataclass(frozen=True)
class Wanted:
    """What is looked for, and for how many seconds."""

    stable: bool = False
    cover: bool = False
    prices: bool = True
    refutation: bool = True
    violation: bool = True
    seconds: float = SECONDS
