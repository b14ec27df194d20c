"""Takes elections and payments as Python values, by their shape, which is that of pabutools.

An instance is an iterable of projects with `name` and `cost`, and has a `budget_limit`; a profile is an iterable of
approval ballots, one for each voter, and each is an iterable of projects; a project may also be named by its id, a
`str`. A profile or payments may also be a matrix (matrices.py). Within the package projects are places in the order of
the instance, from 0.

What takes long for many voters is done for some thousand of them at a time by functions that Python has built in. Where
one of these stumbles, the values are gone through one by one, which tells what is wrong with which.
"""
import reprlib
from array import array
from collections.abc import Collection as AnyCollection, Mapping as AnyMapping, Set as AnySet
from decimal import Decimal
from fractions import Fraction
from functools import lru_cache
from itertools import chain, islice
from numbers import Rational, Real
from operator import attrgetter, index, methodcaller
from typing import (
    Any, Collection, Dict, Iterable, Iterator, List, Mapping, Optional, Protocol, Sequence, Set, Sized, Tuple, TypeVar,
    Union, cast,
)

from .amounts import Amount, NearAmount, exact_cost, exact_price, near, own, ratio
from .elections import Instance
from .matrices import (
    AT_ONCE, PaymentRows, PlacedRow, PlacedRows, array_of, ballots_in, is_matrix, is_series, mapping_of,
)

BLANKS = " \t\n\v\f\r"
PROJECTS = "projects or their ids"
MERGED = ("the profile is a mapping, as merged ballots with counts are, so its voters have no order that payments "
          "could be in: give a list with one ballot for each voter")


class Named(Protocol):
    """A project as a ballot or a payment function may have it."""

    @property
    def name(self) -> Any: ...


class AnyInstance(Protocol):
    """An instance as pabutools has it."""

    @property
    def budget_limit(self) -> Any: ...

    def __iter__(self) -> Iterator[Any]: ...


AnyProject = Union[str, Named]
AnyBallot = Iterable[AnyProject]
Profile = Iterable[AnyBallot]
PaymentFunction = Mapping[Any, Amount]
NearPaymentFunction = Mapping[Any, NearAmount]
Row = TypeVar("Row")
Entry = TypeVar("Entry")


class Projects:
    """Projects by their places, and the places of what names them."""

    # More than two elections have.
    _MOST_SEEN = 2**16

    def __init__(self, ids: Iterable[str], is_open: bool = False, has_order: bool = True):
        """An open one takes in each project that is named; otherwise one that isn't known is a ValueError. Those of a
        set have no order of their own."""
        self.ids, self._has_order = list(ids), has_order
        self.place = {name: at for at, name in enumerate(self.ids)}
        self._is_open, self._are_texts = is_open, False
        # The places of projects that were met, by `id`. They are kept, so that no other has the same.
        self._places: Dict[int, int] = {}
        self._kept: List[object] = []

    def columns(self) -> List[str]:
        """The ids, as those of a matrix's columns. Raises ValueError where the projects have no order."""
        if not self._has_order:
            raise ValueError("the instance is a set, whose projects have no order that columns could be in: give a list "
                             "of them, as in Instance(projects, budget_limit)")
        return self.ids

    def places(self, projects: Collection[AnyProject], what: str) -> List[int]:
        """The places of projects, in their order. Raises TypeError and ValueError, which begin with `what`."""
        if isinstance(projects, PlacedRow):
            return projects.places
        try:
            # Mostly all are given in one way. No text is among the projects that were met.
            if not self._are_texts:
                return list(map(self._places.__getitem__, map(id, projects)))
            return list(map(self.place.__getitem__, projects))  # type: ignore[arg-type]
        except (KeyError, TypeError):
            self._are_texts = type(next(iter(projects))) is str
            return [self._place(project, what) for project in projects]

    def places_of_each(self, rows: Sequence[Collection[AnyProject]], first: int, does: str,
                       is_once: bool = False) -> List[int]:
        """The places of the projects that voters name, one voter after the other. The first has that number; what they
        do is told in errors. With `is_once` the rows are mappings, and a project that one has twice is a ValueError."""
        return _as_many(first, rows, self._placed(rows, first, does, is_once))

    def met_before(self, rows: Sequence[Collection[AnyProject]]) -> Optional[List[int]]:
        """The places of the projects that voters name, one voter after the other, where all are given in one way and
        were met before. Otherwise None."""
        projects = chain.from_iterable(rows)
        try:
            if not self._are_texts:
                return list(map(self._places.__getitem__, map(id, projects)))
            return list(map(self.place.__getitem__, projects))  # type: ignore[arg-type]
        except (KeyError, TypeError):
            return None

    def are_single(self) -> bool:
        """Whether no project was met as several objects."""
        return len(set(self._places.values())) == len(self._places)

    def _placed(self, rows: Sequence[Collection[AnyProject]], first: int, does: str, is_once: bool) -> List[int]:
        if isinstance(rows, PlacedRows):
            return rows.places
        # No key is in a mapping twice. So a project is only where it is met as several objects.
        met = self.met_before(rows) if not is_once or self.are_single() else None
        if met is not None:
            return met
        placed: List[int] = []
        for voter, row in enumerate(rows, first):
            what = f"voter {voter} {does}"
            places = self.places(row, what)
            placed += self.once(places, what) if is_once else places
        return placed

    def _place(self, project: AnyProject, what: str) -> int:
        name = id_of(project, what)
        if name not in self.place:
            if not self._is_open:
                raise ValueError(f"{what} {name}, which isn't a project of the instance")
            self.place[name] = len(self.ids)
            self.ids.append(name)
        at = self.place[name]
        if not isinstance(project, str):
            if len(self._kept) >= self._MOST_SEEN:
                self._kept.clear()
                self._places.clear()
            self._places[id(project)] = at
            self._kept.append(project)
        return at

    def once(self, places: List[int], what: str) -> List[int]:
        """These places, where none is there twice, by its id and as itself. Otherwise a ValueError."""
        if len(set(places)) != len(places):
            once([self.ids[at] for at in places], what)
        return places


class Ballots:
    """Ballots, each as rising places of projects."""

    def __init__(self, ballots: Iterable[Iterable[int]]):
        self.places, self._ends = array("I"), array("I")
        for ballot in ballots:
            self.places.fromlist(sorted(set(ballot)))
            self._ends.append(len(self.places))

    def add(self, places: List[int], ends: List[int]) -> None:
        """Adds ballots: their rising places, one ballot after the other, and where each ends among these."""
        before = len(self.places)
        self.places.fromlist(places)
        self._ends.extend(before + end for end in ends)

    def blocks(self) -> Iterator[Tuple[int, Sequence[int], List[int]]]:
        """Some thousand ballots at a time: the number of the first voter, their places, one ballot after the other, and
        where each ends among these."""
        start = 0
        for first in range(0, len(self), AT_ONCE):
            ends = self._ends[first:first + AT_ONCE]
            yield first + 1, self.places[start:ends[-1]], [end - start for end in ends]
            start = ends[-1]

    def __len__(self) -> int:
        return len(self._ends)

    def __iter__(self) -> Iterator[Sequence[int]]:
        start = 0
        for end in self._ends:
            yield self.places[start:end]
            start = end

    def __getitem__(self, voter: int) -> Sequence[int]:
        return self.places[self._ends[voter - 1] if voter else 0:self._ends[voter]]


# What makes a number rational; and numbers of Python that hold no others.
_PARTS = attrgetter("numerator"), attrgetter("denominator")
_OWN = (int, float, Decimal)


class Payments:
    """What voters pay, as it was given: for each voter a mapping from projects to amounts."""

    def __init__(self, payment_functions: Iterable[NearPaymentFunction], projects: Optional[Projects] = None):
        """A matrix is taken where its columns are those of projects. Raises TypeError where what is given is no list of
        mappings from projects to amounts."""
        self.functions: Sequence[NearPaymentFunction]
        self.kinds: Set[type]
        if projects is not None and is_matrix(payment_functions):
            matrix = array_of(payment_functions, projects.ids, projects.columns, "the matrix of payments")
            # They have what is asked of mappings here.
            rows = PaymentRows(matrix, projects.ids)
            self.functions, self.kinds = cast(Sequence[NearPaymentFunction], rows), rows.kinds()
        else:
            self.functions = functions_of(payment_functions)
            self.kinds = self._kinds()
        self._is_whole, self._is_own = self.kinds <= {int}, self.kinds <= {int, float, Decimal}
        self._is_rational = all(issubclass(kind, Rational) and not issubclass(kind, bool) for kind in self.kinds)
        self._is_exact = self.kinds <= {int, Fraction}

    def _kinds(self) -> Set[type]:
        """The types of all amounts. Raises TypeError where a function is no mapping."""
        wrong = {type(one) for one in _first_of_each_type(self.functions) if not callable(getattr(one, "values", None))}
        for voter, function in enumerate(self.functions, 1) if wrong else ():
            if type(function) in wrong:
                raise TypeError(f"the payment function of voter {voter} is {reprlib.repr(function)}, not a mapping "
                                "from projects to amounts")
        return set(map(type, _amounts(self.functions)))

    def blocks(self) -> Iterator[Tuple[int, Sequence[NearPaymentFunction]]]:
        """The functions of some thousand voters at a time, behind the number of the first."""
        if isinstance(self.functions, PaymentRows):
            return cast(Iterator[Tuple[int, Sequence[NearPaymentFunction]]], self.functions.blocks())
        return in_blocks(self.functions)

    @property
    def has_floats(self) -> bool:
        """Whether an amount is a rounded number, of whatever kind."""
        return any(issubclass(kind, Real) and not issubclass(kind, Rational) for kind in self.kinds)

    def check_exact(self) -> None:
        """Raises TypeError where an amount is a float or no number, and ValueError where one is no amount."""
        for voter, function in enumerate(self.functions, 1) if not (self._is_rational or self._is_exact) else ():
            for project, amount in function.items():
                exact_price(amount, _what(voter, project))

    def denominators(self) -> Iterator[int]:
        """The denominators of all amounts, some of them more than once. They needn't be the least."""
        if self._is_whole:
            return
        seen: Set[int] = set()
        for first, functions in self.blocks():
            found = {denominator for _, denominator in self.ratios(first, functions)}
            yield from found - seen
            if len(seen) < 2**16:
                seen |= found

    def ratios(self, first: int, functions: Sequence[NearPaymentFunction]) -> Sequence[Tuple[int, int]]:
        """A numerator and a denominator of each amount of voters, the first of whom has that number, as Python's own
        numbers."""
        values = _as_many(first, functions, list(_amounts(functions)))
        try:
            if self._is_rational:
                numerators, denominators = (list(map(index, map(part, values))) for part in _PARTS)
                if min(denominators, default=1) > 0:
                    return list(zip(numerators, denominators))
            elif self._is_exact:
                return [amount.as_integer_ratio() for amount in values]  # type: ignore[union-attr]
        except (TypeError, ValueError, OverflowError):
            pass
        return [ratio(amount, _what(voter, project)) for voter, function in enumerate(functions, first)
                for project, amount in function.items()]

    def own(self, voter: int, function: NearPaymentFunction) -> Collection[NearAmount]:
        """The amounts of a voter as numbers of Python and of its library, which are exact."""
        if self._is_own:
            return function.values()
        return [amount if _is_own(amount) else near(amount, _what(voter, project))
                for project, amount in function.items()]

    def numerators(self, first: int, functions: Sequence[NearPaymentFunction], denominator: int) -> List[int]:
        """The amounts of voters, the first of whom has that number, as numerators over a common denominator."""
        if self._is_whole:
            values: List[Any] = _as_many(first, functions, list(_amounts(functions)))
            return values if denominator == 1 else [amount * denominator for amount in values]
        return [numerator * (denominator // part) for numerator, part in self.ratios(first, functions)]


def _amounts(functions: Iterable[NearPaymentFunction]) -> Iterator[NearAmount]:
    """All amounts, one voter after the other."""
    if isinstance(functions, PlacedRows):
        return iter(functions.amounts)
    return chain.from_iterable(map(methodcaller("values"), functions))


def _as_many(first: int, rows: Sequence[Sized], entries: List[Entry]) -> List[Entry]:
    """The entries of voters, the first of whom has that number. A row that has more or fewer than its length says is a
    ValueError, since the entries behind it would be taken for another voter's."""
    if sum(sizes_of(rows)) != len(entries):
        raise ValueError(f"of the voters {first} to {first + len(rows) - 1} one has more or fewer projects, or amounts, "
                         "than its length says")
    return entries


def sizes_of(rows: Sequence[Sized]) -> Iterable[int]:
    """How many projects or amounts each voter has, by the length that is told."""
    return rows.sizes() if isinstance(rows, PlacedRows) else map(len, rows)


def in_blocks(rows: Iterable[Row]) -> Iterator[Tuple[int, List[Row]]]:
    """What voters gave, for some thousand of them at a time, behind the number of the first."""
    rest, first = iter(rows), 1
    while True:
        block = list(islice(rest, AT_ONCE))
        if not block:
            return
        yield first, block
        first += len(block)


def _is_own(amount: object) -> bool:
    """Whether an amount is a number of Python or of its library that holds no number of others."""
    if type(amount) is Fraction:
        return type(amount.numerator) is int is type(amount.denominator)
    return type(amount) in _OWN


def _what(voter: int, project: AnyProject) -> str:
    return f"what voter {voter} pays for {id_of(project, f'voter {voter} pays for')}"


def costs_of(instance: AnyInstance) -> Dict[str, Fraction]:
    """What each project costs, by id and in the instance's order. An instance that is a set, as in pabutools, is put in
    order by the ids."""
    costs: Dict[str, Fraction] = {}
    given = instance.projects if isinstance(instance, Instance) else instance
    projects = listed(given, "the instance is", "projects with a budget_limit")
    for project in projects if _has_order(instance) else sorted(projects, key=id_of):
        name = id_of(project)
        if not hasattr(project, "cost"):
            raise TypeError(f"the instance's project {name} has no cost")
        if name in costs:
            raise ValueError(f"two projects have the id {name!r}")
        costs[name] = exact_cost(project.cost, f"the cost of {name}")
    return costs


def _has_order(instance: AnyInstance) -> bool:
    """Whether the projects of an instance have an order of their own."""
    return not isinstance(instance.projects if isinstance(instance, Instance) else instance, AnySet)


def projects_of(instance: AnyInstance) -> Tuple[Projects, List[Fraction], Fraction]:
    """The projects of an instance, what they cost, and the budget limit."""
    costs = costs_of(instance)
    projects = Projects(costs, has_order=_has_order(instance))
    return projects, list(costs.values()), limit_of(instance)


def limit_of(instance: AnyInstance) -> Fraction:
    """The budget limit of an instance."""
    if not hasattr(instance, "budget_limit"):
        raise TypeError(f"the instance is {reprlib.repr(instance)}, which has no budget_limit")
    return exact_cost(instance.budget_limit, "the budget limit")


def ballots_of(profile: Profile, projects: Projects) -> Ballots:
    """The ballots of a profile."""
    if is_matrix(profile):
        blocks = ballots_in(array_of(profile, projects.ids, projects.columns, "the profile"), projects.ids)
    else:
        blocks = _placed(profile, projects)
    ballots = Ballots([])
    for places, ends in blocks:
        ballots.add(places, ends)
    return ballots


def _placed(profile: Profile, projects: Projects) -> Iterator[Tuple[List[int], List[int]]]:
    """The rising places of some thousand ballots, one after the other, and where each ends."""
    for first, ballots in in_blocks(_ballots(profile)):
        met = projects.met_before(ballots)
        # Nothing is in a set twice. So a project is only where it is met as several objects.
        are_sets = all(issubclass(kind, (set, frozenset)) for kind in set(map(type, ballots)))
        is_once = are_sets and met is not None and projects.are_single()
        named = projects.places_of_each(ballots, first, "approves") if met is None else _as_many(first, ballots, met)
        places: List[int] = []
        ends, start = [], 0
        for size in map(len, ballots):
            mine = named[start:start + size]
            if not is_once:
                mine = list(set(mine))
            mine.sort()
            places += mine
            ends.append(len(places))
            start += size
        yield places, ends


def _first_of_each_type(values: Sequence[Row]) -> Collection[Row]:
    """The first value of each type that there is."""
    return dict(zip(map(type, reversed(values)), reversed(values))).values()


def _ballots(profile: Profile) -> Iterator[Collection[AnyProject]]:
    """The ballots of a profile, each as it is given, or as a list where it can be read once only."""
    if isinstance(profile, AnyMapping):
        raise ValueError(MERGED)
    if isinstance(profile, (set, frozenset)):
        raise ValueError("the profile is a set, whose voters have no order that payments could be in: give a list")
    # Most are of one type, which needs to be looked at once.
    known: Set[type] = set()
    for voter, ballot in enumerate(listed(profile, "the profile is", "ballots"), 1):
        if type(ballot) in known:
            yield ballot
            continue
        if isinstance(ballot, AnyMapping):
            raise TypeError(f"the ballot of voter {voter} is {reprlib.repr(ballot)}, a mapping as cardinal ballots "
                            f"are, not a list of {PROJECTS}: only approvals are audited")
        approved = listed(ballot, f"the ballot of voter {voter} is", PROJECTS)
        if isinstance(approved, AnyCollection):
            known.add(type(approved))
        yield approved if isinstance(approved, AnyCollection) else list(approved)


def voters_of_each(profile: Any) -> List[int]:
    """How many voters have each ballot of a mapping from ballots to that. Raises ValueError for another mapping."""
    counts = []
    for ballot, count in profile.items():
        if isinstance(count, bool) or not hasattr(count, "__index__") or own(count) < 1:
            raise ValueError(f"the profile has {reprlib.repr(count)} voters with the ballot {reprlib.repr(ballot)}, which "
                             "isn't a whole number from 1")
        counts.append(own(count))
    return counts


def with_each_voter(profile: Any, payment_functions: Any) -> Tuple[Any, Any]:
    """A profile with a ballot for each voter, where it was a mapping from ballots to how many voters have each, and the
    payment functions of these. Raises ValueError where there is neither one for each ballot nor one for each voter."""
    if not isinstance(profile, AnyMapping) or is_matrix(profile):
        return profile, payment_functions
    counts = voters_of_each(profile)
    functions = functions_of(payment_functions)
    if len(functions) == len(counts):
        functions = [function for function, count in zip(functions, counts) for _ in range(count)]
    elif len(functions) != sum(counts):
        raise ValueError(f"there are {len(counts)} ballots of {sum(counts)} voters and {len(functions)} payment functions")
    return each_ballot(profile), functions


def each_ballot(profile: Any) -> Any:
    """A profile with a ballot for each voter, in the order of the ballots."""
    if not isinstance(profile, AnyMapping) or is_matrix(profile):
        return profile
    return [ballot for ballot, count in zip(profile, voters_of_each(profile)) for _ in range(count)]


def functions_of(payment_functions: Iterable[NearPaymentFunction]) -> List[NearPaymentFunction]:
    """The payment functions as a list, also where they are an iterator. Series of pandas are mappings as well."""
    functions = list(listed(payment_functions, "the payment functions are", "mappings, one for each voter", AnyMapping))
    series = {type(one) for one in _first_of_each_type(functions) if is_series(one)}
    return functions if not series else [
        mapping_of(function, f"voter {voter} pays for") if type(function) in series else function
        for voter, function in enumerate(functions, 1)]


def check_count(ballots: int, functions: int) -> None:
    """Raises ValueError where there isn't one payment function for each ballot."""
    if ballots != functions:
        raise ValueError(f"there are {ballots} ballots and {functions} payment functions")


def funded_of(budget_allocation: Iterable[AnyProject], projects: Projects) -> List[int]:
    """The places of the funded projects."""
    funded = listed(budget_allocation, "the budget allocation is", PROJECTS, AnyMapping)
    return projects.once(projects.places(list(funded), "the outcome names"), "the outcome names")


def ids_of(projects: Iterable[AnyProject], what: str, names: str) -> List[str]:
    """The ids of projects, none of them twice. Errors tell what they are, or what names one that isn't right."""
    return once([id_of(project, names) for project in listed(projects, what, PROJECTS, AnyMapping)], names)


def listed(values: Any, what: str, wanted: str, *unwanted: type) -> Iterable[Any]:
    """Values that are an iterable. A text isn't what is wanted, since it would be taken letter by letter, nor are others
    of which only a part would be taken, as the keys of a mapping."""
    if isinstance(values, (str, bytes, *unwanted)) or not hasattr(values, "__iter__"):
        raise TypeError(f"{what} {reprlib.repr(values)}, not a list of {wanted}")
    return values  # type: ignore[no-any-return]


def once(names: List[Any], what: str) -> List[Any]:
    """These names, where none is there twice. Otherwise a ValueError."""
    seen = set()
    for name in names:
        if name in seen:
            raise ValueError(f"{what} {name} twice")
        seen.add(name)
    return names


def id_of(project: AnyProject, names: str = "the instance has") -> str:
    """The id of a project, which is its name or itself. A TypeError says what names it."""
    if isinstance(project, str):
        return _checked_id(project)
    if getattr(project, "name", None) is None:
        raise TypeError(f"{names} {reprlib.repr(project)}, which isn't a project: one has a name, or is given by its "
                        "id, a str")
    return _checked_id(str(project.name))


# More ids than two elections have.
@lru_cache(maxsize=2**16)
def _checked_id(name: str) -> str:
    if not name or name != name.strip(BLANKS) or any(letter < " " or letter == "\x7f" for letter in name):
        raise ValueError(f"the id {name!r} can't be written: it is empty, has a blank at an end, or a control byte")
    if not name.isascii() and any("\ud800" <= letter <= "\udfff" for letter in name):
        raise ValueError(f"the id {name!r} can't be written: it has half of a surrogate pair, which isn't a letter")
    return name
