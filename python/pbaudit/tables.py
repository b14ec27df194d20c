"""What every result has beside its own: a dictionary, a table of pandas, and a table for a notebook."""
import html
from dataclasses import dataclass, fields, is_dataclass
from fractions import Fraction
from importlib import import_module
from typing import Any, Dict, Iterable, List, Mapping, Optional, Sequence, Tuple

from .shown import visible

# How many rows a notebook shows.
SHOWN = 100
NO_PANDAS = "pandas isn't installed, which to_frame makes a table of: pip install pandas, or take rows_of_table()"


class Result:
    """A result, which is a dataclass."""

    def to_dict(self) -> Dict[str, Any]:
        """Its fields by their names: results within it are dictionaries too, amounts stay exact, and the bytes of files are
        left out. `json.dumps(.., default=str)` writes it."""
        own: Any = self
        return {each.name: plain(getattr(own, each.name)) for each in fields(own)
                if not isinstance(getattr(own, each.name), bytes)}

    def rows_of_table(self) -> List[Dict[str, Any]]:
        """The rows of its table, by the names of the columns."""
        return [self.to_dict()]

    def to_frame(self) -> Any:
        """Its table as a DataFrame of pandas. Raises ImportError where that isn't installed."""
        return frame_of(self.rows_of_table())

    def _repr_html_(self) -> Optional[str]:
        """Its table, as a notebook shows it."""
        return html_of(self.rows_of_table())


@dataclass(frozen=True)
class PriceSystem(Result):
    """Prices, with the names that `priceable` of pabutools has for them: the `status`, which is what the auditor says of
    the prices, such as "supported priceable", or of a refutation, such as "unpriceable", or otherwise "unknown"; and if
    there are prices the voter budget, and for each voter what it pays, by the ids of projects. Amounts are exact, in the
    currency of the costs.

    >>> system = find("town.pb").price_system
    >>> system.status, len(system.payment_functions)
    ('supported priceable', 3)
    """

    status: str
    voter_budget: Optional[Fraction] = None
    payment_functions: Optional[List[Dict[str, Fraction]]] = None
    # It has lists and dictionaries.
    __hash__ = None  # type: ignore[assignment]

    def rows_of_table(self) -> List[Dict[str, Any]]:
        """A row for each payment."""
        return payment_rows(self.payment_functions or ())


def payment_rows(payments: Iterable[Mapping[str, Fraction]]) -> List[Dict[str, Any]]:
    """A row for each payment: the voter, from 1, the project and the amount."""
    return [{"voter": voter, "project": project, "payment": amount}
            for voter, mine in enumerate(payments, 1) for project, amount in mine.items()]


def plain(value: Any) -> Any:
    """A value without results in it: these as dictionaries, and lists for tuples."""
    if isinstance(value, Result):
        return value.to_dict()
    if is_dataclass(value) and not isinstance(value, type):
        return {each.name: plain(getattr(value, each.name)) for each in fields(value)}
    if isinstance(value, Mapping):
        return {key: plain(each) for key, each in value.items()}
    if isinstance(value, tuple) and hasattr(value, "_asdict"):
        return value._asdict()
    return [plain(each) for each in value] if isinstance(value, (list, tuple)) else value


def frame_of(rows: Sequence[Mapping[str, Any]]) -> Any:
    """Rows as a DataFrame of pandas."""
    try:
        pandas = import_module("pandas")
    except ImportError:
        raise ImportError(NO_PANDAS) from None
    return pandas.DataFrame(list(rows))


def html_of(rows: Sequence[Mapping[str, Any]]) -> str:
    """Rows as a table of HTML. Whatever a name is, it stands there as text."""
    columns: Tuple[str, ...] = tuple(dict.fromkeys(name for row in rows for name in row))
    lines = [_line("th", columns), *(_line("td", [_told(row.get(name)) for name in columns]) for row in rows[:SHOWN])]
    more = f"<p>and {len(rows) - SHOWN} rows more</p>" if len(rows) > SHOWN else ""
    return f"<table>{''.join(lines)}</table>{more}"


def _line(tag: str, cells: Iterable[str]) -> str:
    return "<tr>" + "".join(f"<{tag}><bdi>{html.escape(visible(cell))}</bdi></{tag}>" for cell in cells) + "</tr>"


def _told(value: Any) -> str:
    return "" if value is None else str(value)
