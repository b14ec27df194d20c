"""Matrices in the place of ballots and of payments, as numpy has them: a row for each voter, and a column for each
project in the order of the instance; and tables of pandas, whose columns have the names of projects. They are taken by
their shape, so that neither is needed."""
from typing import Any, Callable, Dict, Iterator, List, Sequence, Set, Tuple

# How many voters are looked at together.
AT_ONCE = 4096


def is_matrix(values: object) -> bool:
    """Whether values are an array of two dimensions."""
    return getattr(values, "ndim", None) == 2


def array_of(table: Any, ids: Sequence[str], columns: Callable[[], Sequence[str]], what: str) -> Any:
    """A matrix as it is, and a table as one with its columns in the order of the ids. `columns` gives these, or raises
    ValueError where projects have no order. Raises ValueError where the columns aren't those of the projects."""
    if not hasattr(table, "columns") or not callable(getattr(table, "to_numpy", None)):
        columns()
        return table
    labels = list(table.columns)
    names = list(map(label_of, labels))
    if len(set(names)) != len(names):
        raise ValueError(f"{what} has two columns of one name")
    if labels == list(range(len(labels))) and names != list(ids):
        # Numbers that nobody gave.
        if set(names) == set(ids):
            raise ValueError(f"{what} has columns that may be named by projects or numbered: name them by the ids")
        columns()
    elif set(names) != set(ids):
        odd = next((name for name in names if name not in ids), None)
        missing = next((name for name in ids if name not in names), None)
        told = f"has a column {odd!r}, which isn't a project" if odd else f"has no column for the project {missing!r}"
        raise ValueError(f"{what} {told} of the instance")
    else:
        place = {name: at for at, name in enumerate(names)}
        table = table.iloc[:, [place[name] for name in ids]]
    # Else columns of whole numbers beside others would be rounded.
    return table.to_numpy() if len(set(table.dtypes)) <= 1 else table.to_numpy(dtype=object)


def label_of(label: Any) -> str:
    """The name that a label of a table stands for: a project, its id, or a number that is its id."""
    return str(getattr(label, "name", label))


def check_rows(profile: Any, payments: Any) -> None:
    """Raises ValueError where two tables name their rows differently, so that they may be in another order."""
    rows, others = (getattr(table, "index", None) for table in (profile, payments))
    if is_matrix(profile) and is_matrix(payments) and rows is not None and others is not None:
        if list(rows) != list(others):
            raise ValueError("the rows of the profile and of the payments have other names, or another order")


def is_series(values: Any) -> bool:
    """Whether values are a series of pandas: one column with labels."""
    return getattr(values, "ndim", None) == 1 and hasattr(values, "index") and callable(getattr(values, "tolist", None))


def mapping_of(series: Any, what: str) -> Dict[Any, Any]:
    """A series as a mapping from its labels to Python's own values. Raises ValueError for one that is there twice."""
    made: Dict[Any, Any] = {}
    for label, value in zip(series.index, series.tolist()):
        name = label if isinstance(label, str) or hasattr(label, "name") else label_of(label)
        if name in made:
            raise ValueError(f"{what} {name} twice")
        made[name] = value
    return made


def ballots_in(matrix: Any, ids: Sequence[str]) -> Iterator[Tuple[List[int], List[int]]]:
    """The rising places of the projects that voters approve, which are those of the ones in their rows, and where each
    voter's end; the rest is 0. Raises TypeError and ValueError."""
    if matrix.dtype.kind not in "biufO":
        raise TypeError(f"the profile is a matrix of {matrix.dtype.name}, not of 0 and 1: only approvals are audited")
    for first, ends, places, approved in _blocks(matrix, ids, "the profile"):
        is_one = approved == 1
        if not is_one.all():
            at = is_one.tolist().index(False)
            voter = first + next(row for row, end in enumerate(ends) if at < end)
            raise TypeError(f"the row of voter {voter} has {approved[at]}, not only 0 and 1: only approvals are "
                            "audited")
        yield places, ends


class PlacedRow:
    """A row of a matrix of payments: a mapping from ids to what isn't 0, whose places are known."""

    __slots__ = ("places", "_amounts", "_ids")

    def __init__(self, places: List[int], amounts: Sequence[Any], ids: Sequence[str]):
        self.places, self._amounts, self._ids = places, amounts, ids

    def __len__(self) -> int:
        return len(self.places)

    def __iter__(self) -> Iterator[str]:
        return map(self._ids.__getitem__, self.places)

    def __getitem__(self, name: str) -> Any:
        return dict(self.items())[name]

    def keys(self) -> List[str]:
        """The ids."""
        return list(self)

    def values(self) -> Sequence[Any]:
        """The amounts, in the order of the ids."""
        return self._amounts

    def items(self) -> Iterator[Tuple[str, Any]]:
        """The ids with the amounts."""
        return zip(self, self._amounts)


class PlacedRows(Sequence[PlacedRow]):
    """Rows of a matrix of payments that are looked at together: the places and the amounts of all, one row after the
    other. Each row is made when it is asked for."""

    def __init__(self, ends: List[int], places: List[int], amounts: Sequence[Any], ids: Sequence[str]):
        self.places, self.amounts = places, amounts
        self._ends, self._ids = ends, ids

    def sizes(self) -> List[int]:
        """How many amounts each row has."""
        return [end - start for start, end in zip([0, *self._ends], self._ends)]

    def __len__(self) -> int:
        return len(self._ends)

    def __iter__(self) -> Iterator[PlacedRow]:
        return (PlacedRow(self.places[start:end], self.amounts[start:end], self._ids)
                for start, end in zip([0, *self._ends], self._ends))

    def __getitem__(self, row: Any) -> Any:
        return list(self)[row]


class PaymentRows(Sequence[PlacedRow]):
    """The rows of a matrix of payments. They are made anew each time, so that they take no memory."""

    # Numbers of Python are taken faster than those of numpy, and are the same where they have as many bits.
    _SAME_IN_PYTHON = "biuO"
    _SIZE_OF_A_FLOAT = 8

    def __init__(self, matrix: Any, ids: Sequence[str]):
        self._matrix, self._ids = matrix, ids

    def __len__(self) -> int:
        return int(self._matrix.shape[0])

    def kinds(self) -> Set[type]:
        """The types of the amounts: one, but where the matrix has objects."""
        kinds: Set[type] = set()
        for _, rows in self.blocks():
            kinds.update(map(type, rows.amounts))
            if kinds and self._matrix.dtype.kind != "O":
                break
        return kinds

    def blocks(self) -> Iterator[Tuple[int, PlacedRows]]:
        """Some thousand rows at a time, behind the number of the first voter."""
        kind = self._matrix.dtype
        is_same = kind.kind in self._SAME_IN_PYTHON or kind.kind == "f" and kind.itemsize == self._SIZE_OF_A_FLOAT
        for first, ends, places, amounts in _blocks(self._matrix, self._ids, "the matrix of payments"):
            yield first, PlacedRows(ends, places, amounts.tolist() if is_same else list(amounts), self._ids)

    def __iter__(self) -> Iterator[PlacedRow]:
        for _, rows in self.blocks():
            yield from rows

    def __getitem__(self, voter: Any) -> Any:
        return list(self)[voter]


def _blocks(matrix: Any, ids: Sequence[str], what: str) -> Iterator[Tuple[int, List[int], List[int], Any]]:
    """Rows that are looked at together: the number of the first voter, where each row ends among the entries that
    aren't 0, and the columns and the values of these."""
    columns = matrix.shape[1]
    if columns != len(ids):
        raise ValueError(f"{what} has {columns} columns, and the instance has {len(ids)} projects")
    mask = getattr(matrix, "mask", None)
    if mask is not None and mask.any():
        raise TypeError(f"{what} has masked entries, of which nothing is known: fill them in")
    for start in range(0, matrix.shape[0], AT_ONCE):
        block = matrix[start:start + AT_ONCE]
        if getattr(block[0], "ndim", None) != 1:
            raise TypeError(f"{what} is a {type(matrix).__name__}, whose rows aren't arrays: give it as an array of "
                            "numpy")
        try:
            rows, places = block.nonzero()
        except (TypeError, ValueError):
            voter = start + 1 + next(at for at, row in enumerate(block) if not _has_numbers(row))
            raise TypeError(f"the row of voter {voter} in {what} has an entry that is no number") from None
        ends = rows.searchsorted(range(1, block.shape[0] + 1)).tolist()
        yield start + 1, ends, places.tolist(), block[rows, places]


def _has_numbers(row: Any) -> bool:
    """Whether each entry is 0 or isn't, which one of pandas that is missing doesn't tell."""
    try:
        row.nonzero()
    except (TypeError, ValueError):
        return False
    return True
