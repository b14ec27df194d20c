"""The files that a search writes: `NAME.prices.csv`, or `NAME.refutation.csv`, and `NAME.violation.csv`; where there is a
violation by each measure, the one by cost is `NAME.cost.violation.csv`."""
import errno
import os
from typing import List, Optional, Tuple

from ..auditing import Verdict
from .results import Found, Wanted

PRICES, REFUTATION, VIOLATION, BY_COST = ".prices.csv", ".refutation.csv", ".violation.csv", ".cost.violation.csv"
# The command by which each is audited.
COMMANDS = {PRICES: "prices", REFUTATION: "refutation", VIOLATION: "violation", BY_COST: "violation"}


def stem_of(election: str, folder: Optional[str]) -> str:
    """The paths of what is found begin with this: those of files in this folder; without one, in that of the election,
    or in the current one where the election is no regular file."""
    name = os.path.basename(election)
    if folder is None:
        folder = os.path.dirname(election) if os.path.isfile(election) else ""
    return os.path.join(folder, name[:-3] if name.endswith(".pb") and name != ".pb" else name)


def endings(wanted: Wanted) -> List[str]:
    """How the names of the files end that may be written."""
    return [PRICES] * wanted.prices + [REFUTATION] * wanted.refutation + [VIOLATION, BY_COST] * wanted.violation


def files_of(found: Found) -> List[Tuple[str, Verdict, bytes]]:
    """The files of what was found: how each name ends, the auditor's verdict, and the bytes; prices first."""
    whole = [(PRICES, found.prices), (REFUTATION, found.refutation)]
    files = [(ending, each.verdict, each.file) for ending, each in whole if each is not None]
    return files + [(ending, violation.verdict, violation.file)
                    for ending, violation in zip((VIOLATION, BY_COST), found.violations)]


def check_folder(path: str) -> None:
    """Raises OSError where no file can be written to a folder, which needn't be there yet. That it can isn't sure."""
    there = os.path.abspath(path)
    while not os.path.lexists(there):
        there = os.path.dirname(there)
    number = errno.ENOTDIR if not os.path.isdir(there) else 0 if os.access(there, os.W_OK | os.X_OK) else errno.EACCES
    if number:
        raise OSError(number, os.strerror(number), there)


def write_new(path: str, data: bytes, replace: bool) -> None:
    """Writes a file, over another only if that is to be replaced. One that can't be written whole isn't left. Raises
    OSError."""
    os.makedirs(os.path.dirname(path) or ".", exist_ok=True)
    with open(path, "wb" if replace else "xb") as file:
        try:
            file.write(data)
            file.flush()
        except BaseException:
            # The keyboard leaves none either.
            os.unlink(path)
            raise
