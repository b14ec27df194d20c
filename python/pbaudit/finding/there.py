"""The certificates that are there before a search: what the auditor says of each, and which no longer belong to the
outcome."""
import os
from dataclasses import dataclass, replace
from typing import List, Tuple

from ..auditing import Refusal, Refutes, audit_prices, audit_refutation, audit_violation
from ..files import bytes_of
from ..folders import UNREAD
from ..records import records
from ..writing import Satisfaction
from .prices import Given
from .results import Wanted
from .writing import BY_COST, PRICES, REFUTATION, VIOLATION

NAMES = {"count": "counting", "cost": "cost"}
# What the table of a folder says of what a refutation refutes.
REFUTED = {"all": "yes", "with Cover": "with Cover", "stable": "stable", "stable with Cover": "stable with Cover"}


@dataclass(frozen=True)
class There:
    """A file that is there: how its name ends, and the auditor's line on it. Where that is a yes, `fact` and `stable` are
    what the table of a folder says of it, and it `answers` where it is of the form that is looked for. It can be removed
    where it was read."""

    ending: str
    line: str
    holds: bool = False
    fact: str = ""
    stable: str = ""
    answers: bool = False
    was_read: bool = True


def there_at(stem: str, given: Given, wanted: Wanted) -> List[There]:
    """The files whose paths begin so, audited for this outcome. Raises MemoryError."""
    return [_there(stem + ending, ending, given, wanted) for ending in (PRICES, REFUTATION, VIOLATION, BY_COST)
            if os.path.lexists(stem + ending)]


def _there(path: str, ending: str, given: Given, wanted: Wanted) -> There:
    try:
        file = bytes_of(path)
    except OSError:
        return There(ending, UNREAD.format("certificate"), was_read=False)
    try:
        if ending == PRICES:
            return _prices(file, given, wanted)
        if ending == REFUTATION:
            return _refutation(file, given, wanted)
        found = audit_violation(given.election, file, given.outcome)
    except Refusal as refusal:
        return There(ending, refusal.printed)
    return There(ending, found.line, found.holds, f"by {NAMES[measure_of(file)]}", answers=found.holds and wanted.violation)


def _prices(file: bytes, given: Given, wanted: Wanted) -> There:
    def asked(stable: bool, cover: bool) -> bool:
        return bool(audit_prices(given.election, file, given.outcome, stable=stable, cover=cover,
                                 exhaustive=given.exhaustive))
    found = audit_prices(given.election, file, given.outcome, exhaustive=given.exhaustive)
    if not found:
        return There(PRICES, found.line)
    has_cover = asked(False, True)
    stable = "yes" if asked(True, has_cover) else "not these"
    return There(PRICES, found.line, True, "with Cover" if has_cover else "without Cover", stable,
                 wanted.prices and asked(wanted.stable, wanted.cover))


def _refutation(file: bytes, given: Given, wanted: Wanted) -> There:
    found = audit_refutation(given.election, file, given.outcome, stable=True)
    return There(REFUTATION, found.line, found.holds, REFUTED.get(str(found.refutes), ""),
                 answers=(wanted.refutation or wanted.prices) and found.refutes in refuting(wanted))


def refuting(wanted: Wanted) -> List[Refutes]:
    """What a refutation may refute that answers what is looked for."""
    covers: List[Refutes] = ["with Cover"] if wanted.cover else []
    stable: List[Refutes] = ["stable", "stable with Cover"] if wanted.stable else []
    return ["all", *covers, *stable[:1 + wanted.cover]]


def measure_of(violation: bytes) -> Satisfaction:
    """The measure of a violation certificate that was accepted."""
    second = list(records(violation, b","))[1]
    return "cost" if second == [b"satisfaction", b"cost"] else "count"


def left_beside(there: List[There], wanted: Wanted) -> Wanted:
    """What is still to be looked for where nothing that is there is replaced. Beside prices no refutation is, unless
    that alone is looked for, nor prices beside a refutation; and nothing whose file couldn't be written."""
    endings, answered = {each.ending for each in there}, {each.ending for each in there if each.answers}
    return replace(
        wanted, prices=wanted.prices and PRICES not in endings and REFUTATION not in answered,
        refutation=wanted.refutation and REFUTATION not in endings and not (wanted.prices and PRICES in answered),
        violation=wanted.violation and not endings & {VIOLATION, BY_COST})


def kept_and_stale(there: List[There], written: List[str]) -> Tuple[List[There], List[There]]:
    """Of what wasn't written anew, what still is a certificate of the outcome, and what isn't."""
    rest = [each for each in there if each.ending not in written]
    return [each for each in rest if each.holds], [each for each in rest if not each.holds]
