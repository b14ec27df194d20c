"""Writes the files of docs/FORMATS.md from Python values.

Each function answers the file's bytes, and writes them to `path` as well where one is given. What no file can say is
refused by a ValueError with the reason, and a value of another kind than is wanted, such as an amount that is a float,
by a TypeError. Values are taken by their shape, as values.py says.
"""
import io
import reprlib
from collections.abc import Mapping as AnyMapping
from fractions import Fraction
from itertools import chain, repeat, starmap
from types import MappingProxyType
from typing import Any, Collection, Iterable, Iterator, List, Mapping, Optional, Sequence, Sized, Tuple

from ._auditor import Satisfaction as Satisfaction, measured
from .amounts import (
    MOST_DENOMINATOR, MOST_NUMERATOR, Amount, TooManyDenominators, exact_price, least_multiple, money, own, shortly,
)
from .files import MOST_BYTES, Path, write_to
from .values import (
    AnyInstance, AnyProject, Ballots, PaymentFunction, Payments, Profile, Projects, ballots_of, funded_of, id_of, ids_of,
    listed, once, projects_of, sizes_of,
)

# Whole numbers by projects.
Weights = Mapping[Any, int]
# How many of each an election has at most, and how many rows a price certificate.
MOST_PROJECTS, MOST_VOTERS, MOST_APPROVALS = 20_000, 10**6, 2 * 10**7
MOST_PAYMENTS = 10**7
MOST_WEIGHT = 10**12
# Payments, many at a time: the numbers of the voters, which rise, the places of the projects, and the numerators.
Payers = Iterable[Tuple[Sequence[int], Sequence[int], Sequence[int]]]


def write_election(instance: AnyInstance, profile: Profile, budget_allocation: Optional[Iterable[AnyProject]] = None,
                   path: Optional[Path] = None) -> bytes:
    """An election file; its outcome is the budget allocation, and without one it states none. Costs and the limit are
    in the currency of the election, from 0 to 10^12 with at most six decimals. Raises ValueError, TypeError and
    OSError.

    >>> made = write_election(Instance([Project("a", 6)], 10), [["a"], []], ["a"])
    >>> print(read(made))
    read 2 voters 1 projects 1 funded
    """
    projects, costs, limit = projects_of(instance)
    ballots = ballots_of(profile, projects)
    funded = None if budget_allocation is None else funded_of(budget_allocation, projects)
    return write_to(path, election_file(projects, costs, limit, ballots, funded))


def write_outcome(budget_allocation: Iterable[AnyProject], path: Optional[Path] = None) -> bytes:
    r"""An outcome file of the funded projects. Raises ValueError, TypeError and OSError.

    >>> write_outcome(["a", "b"])
    b'pb-outcome,1\nproject,a\nproject,b\n'
    """
    ids = ids_of(budget_allocation, "the budget allocation is", "the outcome names")
    return write_to(path, _written([["pb-outcome", "1"]] + [["project", project] for project in ids]))


def write_prices(voter_budget: Amount, payment_functions: Iterable[PaymentFunction],
                 path: Optional[Path] = None) -> bytes:
    """A price certificate: the budget of each voter, and for each voter, in the order of the profile, a mapping from
    projects to what the voter pays, in the currency of the costs. Amounts are exact, over a common denominator of at
    most 10^9. Raises ValueError, TypeError and OSError.

    >>> print(write_prices(4, [{"a": 2, "b": 2}, {"a": 4}]).decode(), end="")
    pb-prices,1
    denominator,1
    voter_budget,4
    voter,project,payment
    1,a,2
    1,b,2
    2,a,4
    """
    budget, payments = exact_price(voter_budget, "the voter budget"), Payments(payment_functions)
    payments.check_exact()
    denominator = least_multiple((budget.denominator, *payments.denominators()))
    projects = Projects([], is_open=True)
    numerator = budget.numerator * (denominator // budget.denominator)
    return write_to(path, price_file(denominator, numerator, projects, payers_of(payments, projects, denominator)))


def write_violation(voters: Iterable[int], projects: Iterable[AnyProject],
                    satisfaction: Optional[Satisfaction] = None, path: Optional[Path] = None) -> bytes:
    """A violation certificate: the group, by the numbers of its voters (from 1, in the order of the profile), and the
    projects that it demands. `satisfaction` is "count" or "cost"; None is "count" in the older version of the file.
    Raises ValueError, TypeError and OSError.

    >>> write_violation([1, 2], ["a"], "cost").split()
    [b'pb-violation,2', b'satisfaction,cost', b'project,a', b'voter,1', b'voter,2']
    """
    head = [["pb-violation", "1"]]
    if satisfaction is not None:
        head = [["pb-violation", "2"], ["satisfaction", measured(satisfaction)]]
    ids = ids_of(projects, "the demand is", "the demand names")
    group = [_whole(voter, "the group names voter")
             for voter in listed(voters, "the group is", "numbers of voters", AnyMapping)]
    for voter in once(group, "the group names voter"):
        if not 1 <= voter <= MOST_VOTERS:
            raise ValueError(f"the group names voter {shortly(voter)}, and voters are numbered from 1 to {MOST_VOTERS}")
    rows = [["project", project] for project in ids] + [["voter", str(voter)] for voter in group]
    return write_to(path, _written(head + rows))


def write_refutation(*, least: Weights = MappingProxyType({}), most: Weights = MappingProxyType({}),
                     left: Weights = MappingProxyType({}), cover: int = 0, path: Optional[Path] = None) -> bytes:
    """A refutation: the weights of projects, by their roles, `least` and `most` of funded ones and `left` of unfunded
    ones, and the weight of Cover, all of them whole numbers from 0 to 10^12. Raises ValueError, TypeError and OSError.

    >>> write_refutation(left={"c": 5}, most={"a": 5, "b": 5}, cover=3).split()
    [b'pb-refutation,1', b'cover,3', b'role,project,weight', b'most,a,5', b'most,b,5', b'left,c,5']
    """
    rows = []
    for role, weights in (("least", least), ("most", most), ("left", left)):
        if not isinstance(weights, AnyMapping):
            raise TypeError(f"the weights of {role} are {reprlib.repr(weights)}, not a mapping from projects to numbers")
        for project, weight in weights.items():
            name = id_of(project, "the refutation names")
            rows.append([role, name, str(_weight(weight, f"the weight of {name}"))])
    once([name for _, name, _ in rows], "the refutation names")
    head = [["pb-refutation", "1"], ["cover", str(_weight(cover, "the weight of Cover"))], ["role", "project", "weight"]]
    return write_to(path, _written(head + rows))


def _weight(weight: object, what: str) -> int:
    number = _whole(weight, f"{what} is")
    if not 0 <= number <= MOST_WEIGHT:
        raise ValueError(f"{what} is {shortly(number)}, and weights are from 0 to 10^12")
    return number


def election_file(projects: Projects, costs: Sequence[Fraction], limit: Fraction, ballots: Ballots,
                  funded: Optional[Collection[int]]) -> bytes:
    """An election, whose outcome is that of the funded places, or none."""
    _at_most(MOST_PROJECTS, len(projects.ids), "projects")
    _at_most(MOST_VOTERS, len(ballots), "voters")
    _at_most(MOST_APPROVALS, len(ballots.places), "approvals")
    _check_commas(projects, ballots)
    shown = [money(cost, f"the cost of {name}") for name, cost in zip(projects.ids, costs)]
    columns: List[Sequence[str]] = [["project_id", *projects.ids], ["cost", *shown]]
    if funded is not None:
        marks = set(funded)
        columns.append(["selected", *(str(int(at in marks)) for at in range(len(shown)))])
    lines = _Lines([
        "META", "key;value", f"num_projects;{len(shown)}", f"num_votes;{len(ballots)}",
        f"budget;{money(limit, 'the budget limit')}", "vote_type;approval", "PROJECTS",
        *(";".join(_field(text, ";") for text in row) for row in zip(*columns)), "VOTES", "voter_id;vote",
    ])
    for votes in _votes(projects, ballots):
        lines.add(votes)
    return lines.data()


def _votes(projects: Projects, ballots: Ballots) -> Iterator[List[str]]:
    """The lines of ballots, many at a time."""
    is_odd = any(set('";') & set(name) for name in projects.ids)
    for first, places, ends in ballots.blocks():
        names, start = list(map(projects.ids.__getitem__, places)), 0
        votes = []
        for voter, end in enumerate(ends, first):
            vote = ",".join(names[start:end])
            votes.append(f"{voter};{_field(vote, ';') if is_odd else vote}")
            start = end
        yield votes


def _check_commas(projects: Projects, ballots: Ballots) -> None:
    odd = {at for at, name in enumerate(projects.ids) if "," in name}
    for place in ballots.places if odd else ():
        if place in odd:
            raise ValueError(f"a ballot can't name the project {projects.ids[place]!r}, whose id has a comma")


def price_file(denominator: int, voter_budget: int, projects: Projects, payers: Payers) -> bytes:
    """A price certificate of numerators over a denominator. What is 0 isn't written."""
    if denominator > MOST_DENOMINATOR:
        raise TooManyDenominators(f"the amounts' common denominator is {shortly(denominator)}, and a certificate's is at most "
                                  "10^9: price_certificate rounds to a smaller one where the conditions still hold, and of the "
                                  "package's own prices equal_shares with near=True does")
    if voter_budget > MOST_NUMERATOR:
        raise ValueError("the numerator of the voter budget is over 10^21, the most that a certificate has")
    if voter_budget < 0:
        raise ValueError("the voter budget is below 0")
    head = ["pb-prices,1", f"denominator,{denominator}", f"voter_budget,{voter_budget}", "voter,project,payment"]
    lines = _Lines(head)
    payments = last = 0
    fields: List[str] = []
    for voters, places, numerators in payers:
        if len(fields) < len(projects.ids):
            fields += (f",{_field(name, ',')}," for name in projects.ids[len(fields):])
        if numerators and not (min(numerators) >= 0 and max(numerators) <= MOST_NUMERATOR):
            raise _beyond(voters, [projects.ids[at] for at in places], numerators, denominator)
        # Most numbers are there several times.
        texts = {number: str(number) for number in {*voters, *numerators}}.__getitem__
        columns = map(texts, voters), map(fields.__getitem__, places), map(texts, numerators)
        rows = [f"{voter}{field}{paid}" for voter, field, paid in zip(*columns) if paid != "0"]
        if rows:
            last, payments = int(rows[-1].partition(",")[0]), payments + len(rows)
            lines.add(rows)
    _at_most(MOST_PAYMENTS, payments, "payments")
    _at_most(MOST_VOTERS, last, "voters")
    return lines.data()


def _beyond(voters: Sequence[int], names: List[str], numerators: Sequence[int], denominator: int) -> ValueError:
    voter, name, numerator = next(payment for payment in zip(voters, names, numerators)
                                  if not 0 <= payment[2] <= MOST_NUMERATOR)
    if numerator < 0:
        amount = shortly(Fraction(numerator, denominator))
        return ValueError(f"voter {voter} pays {amount} for {name}, and a certificate has no payments below 0")
    return ValueError(f"the numerator of what voter {voter} pays for {name} is over 10^21, the most that a certificate "
                      "has")


def payers_of(payments: Payments, projects: Projects, denominator: int) -> Payers:
    """Payments as numerators over a common denominator."""
    for first, functions in payments.blocks():
        places = projects.places_of_each(functions, first, "pays for", is_once=True)
        yield voters_of(first, functions), places, payments.numerators(first, functions, denominator)


def voters_of(first: int, functions: Sequence[Sized]) -> List[int]:
    """For each payment of some functions the number of the voter, where the first voter has that number."""
    return list(chain.from_iterable(starmap(repeat, enumerate(sizes_of(functions), first))))


class _Lines:
    """The lines of a file, which are put together by and by, so that they take little more memory than the file."""

    _AT_ONCE = 20_000

    def __init__(self, lines: List[str]):
        self._lines, self._data = lines, io.BytesIO()

    def add(self, lines: List[str]) -> None:
        self._lines += lines
        if len(self._lines) >= self._AT_ONCE:
            self._put_together()

    def _put_together(self) -> None:
        if self._lines:
            self._data.write(("\n".join(self._lines) + "\n").encode("utf-8"))
            self._lines.clear()

    def data(self) -> bytes:
        self._put_together()
        data = self._data.getvalue()
        _at_most(MOST_BYTES, len(data), "bytes")
        return data


def _whole(value: object, what: str) -> int:
    """A whole number. A TypeError for another value begins with what that is."""
    try:
        if not isinstance(value, bool):
            return own(value)
    except TypeError:
        pass
    raise TypeError(f"{what} {value!r}, which isn't a whole number")


def _at_most(most: int, number: int, what: str) -> None:
    if number > most:
        raise ValueError(f"there are {number} {what}, and a file has at most {most}")


def _written(records: List[List[str]]) -> bytes:
    return _Lines([",".join(_field(text, ",") for text in record) for record in records]).data()


def _field(text: str, separator: str) -> str:
    quoted = text.startswith('"') or separator in text
    return '"' + text.replace('"', '""') + '"' if quoted else text
