"""An election file as Python values. It takes a file that the auditor accepted, and checks nothing again."""
from dataclasses import dataclass
from fractions import Fraction
from itertools import groupby
from operator import itemgetter
from typing import Dict, Iterator, List, Optional, Set, Tuple

from .records import records
from .values import Ballots, Projects

SECTIONS = (b"meta", b"projects", b"votes")
# The places of columns by their names in small letters, and the fields of a row.
Row = Tuple[Dict[bytes, int], List[bytes]]


@dataclass(frozen=True)
class Election:
    """An election: its projects with their costs, the budget limit, and the ballots; and the places of the funded
    projects, or None where it states no outcome."""

    projects: Projects
    costs: List[Fraction]
    limit: Fraction
    ballots: Ballots
    funded: Optional[Set[int]]


def election_of(data: bytes) -> Election:
    """The election of a file."""
    limit, ballots = Fraction(0), Ballots([])
    costs: Dict[str, Fraction] = {}
    funded: Optional[Set[int]] = None
    for section, group in groupby(_rows(data), key=itemgetter(0)):
        rows = ((header, row) for _, header, row in group)
        if section == b"meta":
            facts = {row[0].lower(): row[1] for _, row in rows if len(row) > 1}
            limit = _amount(facts[b"budget"])
        elif section == b"projects":
            costs, funded = _projects_of(rows)
        else:
            place = {name.encode("utf-8"): at for at, name in enumerate(costs)}
            votes = (map(bytes.strip, _cell(header, row, b"vote").split(b",")) for header, row in rows)
            ballots = Ballots([place[name] for name in vote if name] for vote in votes)
    return Election(Projects(costs), list(costs.values()), limit, ballots, funded)


def description_of(data: bytes) -> str:
    """What a file calls its election, or an empty text."""
    for section, _, row in _rows(data):
        if section != b"meta":
            break
        if row[0].lower() == b"description":
            return b"".join(row[1:2]).decode("utf-8")
    return ""


def _projects_of(rows: Iterator[Row]) -> Tuple[Dict[str, Fraction], Optional[Set[int]]]:
    """What the projects cost, by id, and the places of those that are funded, where there is a column `selected`."""
    costs: Dict[str, Fraction] = {}
    funded: Optional[Set[int]] = None
    for header, row in rows:
        if b"selected" in header:
            funded = funded or set()
            if _cell(header, row, b"selected") == b"1":
                funded.add(len(costs))
        costs[_cell(header, row, b"project_id").decode("utf-8")] = _amount(_cell(header, row, b"cost"))
    return costs, funded


def _amount(text: bytes) -> Fraction:
    """The amount that a text states. It may have more zeros ahead and behind than Python takes in a number."""
    whole, _, decimals = text.decode("ascii").replace(",", ".").partition(".")
    return Fraction(f"{whole.lstrip('0') or '0'}.{decimals.rstrip('0') or '0'}")


def _rows(election: bytes) -> Iterator[Tuple[bytes, Dict[bytes, int], List[bytes]]]:
    """The rows of an election, each with its section and that section's columns."""
    section, header = b"", None
    for fields in records(election, b";"):
        if fields[0].lower() in SECTIONS and not any(fields[1:]):
            section, header = fields[0].lower(), None
        elif header is None:
            header = {name.lower(): at for at, name in reversed(list(enumerate(fields)))}
        else:
            yield section, header, fields


def _cell(header: Dict[bytes, int], row: List[bytes], column: bytes) -> bytes:
    """The field of a row in a column; empty where there is none."""
    at = header.get(column, len(row))
    return row[at] if at < len(row) else b""
