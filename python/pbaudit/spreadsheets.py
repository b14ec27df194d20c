"""Tables for spreadsheets, as CSV files in which no cell is taken for a formula.

Where a cell, or what a separator begins within it, starts with `=`, `+`, `-` or `@`, be it behind blanks, with a tab or
another control letter, or with an apostrophe, an apostrophe goes ahead of it. Whoever reads a cell takes one apostrophe
away from where each of these begins. Files that the auditor reads are never written so.
"""
import csv
import io
import re
from typing import Iterable, Sequence

# The begin of a cell, or a separator of some spreadsheet; ahead of what one might run, and of an apostrophe.
_AHEAD = re.compile("(^|[,;|\t\r\n\"])(?='|[\x00-\x1f]|\\s*[=+\\-@\uff1d\uff0b\uff0d\uff20])")


def cell(text: str) -> str:
    """A text as the cell of a table."""
    return _AHEAD.sub(r"\1'", text)


def table(rows: Iterable[Sequence[str]]) -> bytes:
    """A CSV file of rows."""
    written = io.StringIO()
    csv.writer(written, lineterminator="\n").writerows([list(map(cell, row)) for row in rows])
    return written.getvalue().encode("utf-8")
