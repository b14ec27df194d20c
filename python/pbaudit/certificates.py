"""Price certificates from a solver's floats, or from the fractions of a rule."""
from array import array
from dataclasses import dataclass, field, replace
from fractions import Fraction
from functools import cached_property
from typing import TYPE_CHECKING, Any, Dict, Iterable, Iterator, List, Optional, Sequence, Set, Tuple

from ._auditor import Mode
from .amounts import (
    MILLION, MOST_COST, MOST_DENOMINATOR, MOST_NUMERATOR, NearAmount, common_denominator, is_float, least_multiple, near,
    own, ratio,
)
from .auditing import audit_prices
from .decided import DecidedElection
from .files import Path, checked_path, write_to
from .matrices import AT_ONCE, check_rows
from .noise import NOISE, SURE, Conditions, left_out_told, spent_by
from .records import records
from .rounding import CannotKeep, Given, LeftOut, Rounding
from .settling import SECONDS, Settling, clock_of
from .tables import PriceSystem, Result
from .values import (
    AnyInstance, AnyProject, NearPaymentFunction, Payments, Profile, Projects, ballots_of, check_count, funded_of,
    projects_of, with_each_voter,
)
from .writing import Payers, election_file, price_file

if TYPE_CHECKING:
    from .finding.clock import Clock, Tell

DENOMINATORS = (100, 10**4, 10**6, MOST_DENOMINATOR)
# How many times as much as noise is, at least, rounding should be finer.
FINE = 100
# How many times as much as the largest cost payments can be, at least, in the files.
HEADROOM = 1000


@dataclass(frozen=True)
class PriceCertificate(Result):
    """A price certificate that supports the outcome that it was made for.

    `denominator` is D; `voter_budget` is a numerator over it, so it is divided by D to be an amount; a row is a voter
    (from 1), a project's id and a numerator. `moved` is the farthest that a payment moved from what was given, and
    `raised` by how much the voter budget rose (or fell, where it is below 0), in the currency of the costs. `status` is
    what the auditor says of it, and `file` the certificate as a file. `price_system` has the same as amounts, with the
    names that pabutools has for them.

    >>> made = price_certificate(Instance([Project("a", 1)], 1), [["a"]], ["a"], None, [{"a": 1}])
    >>> made.moved, made.raised
    (Fraction(0, 1), Fraction(0, 1))
    """

    denominator: int
    voter_budget: int
    moved: Fraction
    raised: Fraction
    file: bytes = field(repr=False)
    voters: int = field(default=0, repr=False)
    status: str = ""

    @property
    def price_system(self) -> PriceSystem:
        """The status, the voter budget and what each voter pays, as amounts."""
        payments: List[Dict[str, Fraction]] = [{} for _ in range(self.voters)]
        for voter, project, numerator in self.rows:
            payments[voter - 1][project] = Fraction(numerator, self.denominator)
        return PriceSystem(self.status, Fraction(self.voter_budget, self.denominator), payments)

    def to_dict(self) -> Dict[str, Any]:
        """Its fields by their names, with the rows in the place of the file."""
        return {**super().to_dict(), "rows": [list(row) for row in self.rows]}

    def rows_of_table(self) -> List[Dict[str, Any]]:
        """A row for each payment: the voter, from 1, the project and the amount."""
        return [{"voter": voter, "project": project, "payment": Fraction(numerator, self.denominator)}
                for voter, project, numerator in self.rows]

    @cached_property
    def rows(self) -> List[Tuple[int, str, int]]:
        """The payments: voters (from 1) by rising number, ids of projects, and numerators."""
        return [(int(voter), project.decode(), int(numerator))
                for voter, project, numerator in list(records(self.file, b","))[4:]]

    def write(self, path: Path) -> None:
        """Writes the file. Raises OSError."""
        write_to(checked_path(path), self.file)


def price_certificate(instance: AnyInstance, profile: Profile, budget_allocation: Iterable[AnyProject],
                      voter_budget: Optional[NearAmount], payment_functions: Iterable[NearPaymentFunction],
                      stable: bool = False, exhaustive: bool = True, *,
                      denominator: Optional[int] = None, seconds: float = SECONDS,
                      on_progress: "Optional[Tell]" = None) -> PriceCertificate:
    """A certificate near the given payments that the auditor supports, or CannotKeep.

    The arguments are those of `validate_price_system`, but payments and the voter budget may be floats too, which count
    as the decimals that they print as, and costs and the limit are those of an election file, with at most six decimals
    (`validate_price_system` takes others too); a voter budget of None is the most that a voter spends, which is the
    best for C5 and S5. A profile may also be a mapping from ballots to how many voters have each, as a MultiProfile of
    pabutools is: then there is a payment function for each ballot, which each of its voters pays, or one for each voter.

    Exact numbers have to keep all conditions as they are: nothing is repaired, and they stay as they are where their
    common denominator is at most 10^9. Floats may be off by a solver's noise: a millionth of the voter budget for each
    voter, and of its cost for each project; what a voter pays for a project that it doesn't approve is never left out.
    Their voter budget may be lowered for C5 and S5, and payments may be moved among supporters: within noise where that
    does, and otherwise farther, with a linear program if scipy is installed. `moved` and `raised` say how far.
    `denominator` asks for this one; without it the exact one is tried where it is at most 10^9, and then 100, 10^4, 10^6
    and 10^9 (or multiples near them where costs have other parts). `seconds` is how long a repair may take; where it runs
    out that is a CannotKeep too. `on_progress` is called with what is tried and how many seconds are left.

    What comes out was audited. That CannotKeep is raised doesn't say that there is no such certificate. Raises
    ValueError, TypeError and MemoryError too.

    >>> town = Instance([Project("a", 1)], 1)
    >>> made = price_certificate(town, [["a"]] * 3, ["a"], None, [{"a": 0.33333333}] * 3, denominator=3)
    >>> made.rows
    [(1, 'a', 1), (2, 'a', 1), (3, 'a', 1)]
    """
    mode, clock = Mode(stable, exhaustive), clock_of(seconds, on_progress)
    profile, payment_functions = with_each_voter(profile, payment_functions)
    check_rows(profile, payment_functions)
    projects, costs, limit = projects_of(instance)
    funded = funded_of(budget_allocation, projects)
    ballots, payments = ballots_of(profile, projects), Payments(payment_functions, projects)
    decided = DecidedElection(projects.ids, costs, limit, set(funded), ballots)
    wanted = None if denominator is None else _whole(denominator)
    return certified(decided, projects, voter_budget, payments, mode.stable, mode.exhaustive, wanted, clock=clock)


def certified(decided: DecidedElection, projects: Projects, voter_budget: Optional[NearAmount], payments: Payments,
              stable: bool, exhaustive: bool, wanted: Optional[int] = None, is_near: bool = False,
              clock: "Optional[Clock]" = None) -> PriceCertificate:
    """The certificate that `price_certificate` answers; or, where `is_near`, one of the election by `scale_of` whose
    payments and voter budget are off by no more than noise. Without a clock it may take as long as by default."""
    scale = scale_of(decided, payable(voter_budget, "the voter budget")) if is_near else 1
    # This also refuses what no election has.
    election = scaled_election(decided, projects, scale)
    _check_outcome(decided, exhaustive)
    given = _given(decided, projects, voter_budget, payments, is_near)
    _check_given(decided, given, stable, is_near)
    rounding = _rounded(decided, given, stable, wanted, is_near, scale, clock or clock_of())
    certificate = _certificate(rounding, given, projects, scale)
    verdict = audit_prices(election, certificate.file, stable=stable, exhaustive=exhaustive)
    if not verdict:
        told = f"the rounded payments are answered '{verdict}'"
        raise CannotKeep(str(verdict.condition), told, verdict.voter, verdict.project)
    return replace(certificate, status=str(verdict))


def scaled_election(decided: DecidedElection, projects: Projects, scale: int) -> bytes:
    """The election as a file whose unit is so many times smaller. No condition depends on the unit."""
    costs = [cost * scale for cost in decided.costs]
    return election_file(projects, costs, decided.limit * scale, decided.ballots, decided.funded)


def scale_of(decided: DecidedElection, budget: Fraction) -> int:
    """How many times smaller the unit of files is for prices near given ones, so that they can state the costs, and
    that rounding moves payments by less than noise, as far as the largest cost allows."""
    amounts = [*decided.costs, decided.limit]
    scale, most = common_denominator(amount * MILLION for amount in amounts), max(amounts) or Fraction(1)
    if most * scale > MOST_COST:
        return 1
    parts = [budget, *(decided.costs[project] / (len(decided.slots[project]) + 1) for project in decided.funded)]
    least = min((part for part in parts if part > 0), default=Fraction(1))
    while least * NOISE * MOST_DENOMINATOR * scale < FINE and most * scale * 10 * HEADROOM <= MOST_COST:
        scale *= 10
    return scale


def _whole(denominator: object) -> int:
    if isinstance(denominator, bool) or not hasattr(denominator, "__index__"):
        raise TypeError(f"the denominator is {denominator!r}, not a whole number")
    return own(denominator)


def _check_outcome(decided: DecidedElection, exhaustive: bool) -> None:
    """What no payments can change."""
    total = sum((decided.costs[project] for project in decided.funded), Fraction(0))
    if total > decided.limit:
        raise CannotKeep("Feasible", f"the funded projects cost {total}, and the limit is {decided.limit}")
    for project in decided.unfunded if exhaustive else ():
        if total + decided.costs[project] <= decided.limit:
            name = decided.names[project]
            told = f"{name} could be added within the limit (exhaustive=False leaves this out)"
            raise CannotKeep("Exhaustive", told, project=name)


def _given(decided: DecidedElection, projects: Projects, voter_budget: Optional[NearAmount], payments: Payments,
           is_near: bool) -> Given:
    """The payments by slot, without those that are none where there should be none."""
    check_count(len(decided.ballots), len(payments.functions))
    amounts, floats, left_out = _amounts_by_slot(decided, projects, payments)
    budget = _most(decided, amounts, floats) if voter_budget is None else payable(voter_budget, "the voter budget")
    is_exact = not (is_near or payments.has_floats or is_float(voter_budget))
    below = max(-budget, Fraction(0))
    if below > (0 if is_exact else decided.limit / max(1, len(decided.ballots)) * NOISE):
        raise ValueError("the voter budget is below 0")
    noise = Fraction(0) if is_exact else (budget + below) * NOISE
    return Given(amounts, floats, budget + below, noise, below, payments.kinds == {float}, is_exact, left_out)


def _check_given(decided: DecidedElection, given: Given, stable: bool, is_near: bool) -> None:
    """Raises CannotKeep where the payments as they were given fail a condition: that isn't a matter of rounding. C5 and
    S5 are those by the given budget; but where floats are made a certificate of, by the lowest that they allow."""
    conditions = Conditions(decided, given, stable, float(given.budget))
    if not (is_near or given.is_exact):
        conditions.budget = min(conditions.budget, max(conditions.spent, default=0.0))
    conditions.check()


def _amounts_by_slot(decided: DecidedElection, projects: Projects,
                     payments: Payments) -> Tuple[List[Any], "array[float]", List[LeftOut]]:
    """What is paid in each slot, as it was given and as a float; and the payments that are left out."""
    amounts: List[Any] = []
    floats, left_out = array("d"), []
    for voter, function in enumerate(payments.functions):
        what = f"voter {voter + 1} pays for"
        places = projects.once(projects.places(function, what), what)
        mine: Dict[int, Any] = dict(zip(places, payments.own(voter + 1, function)))
        slots = decided.slots_of(voter)
        expected = decided.project_of[slots.start:slots.stop]
        if not _is_in_place(mine, expected):
            odd = [LeftOut(voter, *each) for each in _misplaced(decided, voter, mine)]
            left_out += odd
            for each in odd:
                del mine[each.project]
        amounts += [mine.get(project, 0) for project in expected]
        floats.extend(map(float, amounts[slots.start:]))
    return amounts, floats, left_out


def _is_in_place(mine: Dict[int, Any], expected: Sequence[int]) -> bool:
    """Whether a voter's payments are amounts of a certificate and for its funded projects. Only a yes is sure."""
    if not mine:
        return True
    try:
        amounts = list(map(float, mine.values()))
    except (OverflowError, ValueError):
        return False
    is_amount = sum(amounts) < MOST_NUMERATOR and min(amounts) >= 0
    return is_amount and mine.keys() <= set(expected)


def _misplaced(decided: DecidedElection, voter: int, mine: Dict[int, Any]) -> Iterator[Tuple[int, Fraction, str]]:
    """What a voter (from 0) pays where a certificate has nothing: the projects, the amounts, and the conditions that
    these break where they are more than noise. Raises CannotKeep for what isn't approved, however little it is."""
    ballot = set(decided.ballots[voter])
    for at, given in mine.items():
        amount = payable(given, f"what voter {voter + 1} pays for {decided.names[at]}")
        if amount < 0:
            yield at, amount, "C2"
        elif amount and at not in ballot:
            raise left_out_told(decided, LeftOut(voter, at, amount, "C1"))
        elif amount and at not in decided.funded:
            yield at, amount, "C4"


def payable(amount: object, what: str) -> Fraction:
    """An amount of any kind, but none beyond what a certificate has. One a little below 0 may be noise."""
    exact = near(amount, what)
    if abs(exact) > MOST_NUMERATOR:
        raise ValueError(f"{what} isn't from 0 to 10^21, as a certificate's amounts are")
    return exact


def _most(decided: DecidedElection, amounts: Sequence[Any], floats: "array[float]") -> Fraction:
    """The most that a voter spends, exactly."""
    spent = spent_by(decided, floats)
    near_most = max(spent, default=0.0) * (1 - SURE)
    sums = (sum((near(amounts[slot], "a payment") for slot in decided.slots_of(voter)), Fraction(0))
            for voter, rounded in enumerate(spent) if rounded >= near_most)
    return max(sums, default=Fraction(0))


def _rounded(decided: DecidedElection, given: Given, stable: bool, denominator: Optional[int], is_near: bool, scale: int,
             clock: "Clock") -> Rounding:
    """The first denominator by which all conditions can be kept, with numerators over it; the finest first where they
    are to be as near as can be. Numerators are in a unit that is so many times smaller."""
    # Funded projects are paid for exactly, so their costs are whole numbers over each denominator.
    unit = common_denominator(decided.costs[project] * scale for project in decided.funded)
    if denominator is not None:
        _check_denominator(denominator, unit)
    exact = _exact_denominator(given)
    denominators = [denominator] if denominator else list(_denominators(unit, exact, given.budget.denominator))
    if is_near:
        denominators.sort(key=lambda tried: (exact is None or tried % exact != 0, -tried))

    def of_simple(simple: Given) -> Optional[int]:
        part = _exact_denominator(simple)
        tried = MOST_DENOMINATOR + 1 if part is None else least_multiple((unit, part, simple.budget.denominator))
        return tried if tried <= MOST_DENOMINATOR else None
    settling = Settling(decided, given, stable, is_near, scale, clock)
    return settling.settled(denominators, of_simple if denominator is None and exact is None else None)


def _check_denominator(denominator: int, unit: int) -> None:
    if denominator % unit or not 0 < denominator <= MOST_DENOMINATOR:
        multiple = f" and a multiple of {unit}, so that what is funded can be paid for exactly" if unit > 1 else ""
        raise ValueError(f"the denominator has to be from 1 to 10^9{multiple}")


def _exact_denominator(given: Given) -> Optional[int]:
    """The common denominator of the payments, or None where it is more than a certificate has."""
    common = 1
    known: Set[float] = set()
    for amount in given.amounts:
        if isinstance(amount, int) or isinstance(amount, float) and amount in known:
            continue
        if isinstance(amount, float) and len(known) < 10**4:
            known.add(amount)
        part = amount.denominator if isinstance(amount, Fraction) else Fraction(*ratio(amount, "a payment")).denominator
        common = least_multiple((common, part))
        if common > MOST_DENOMINATOR:
            return None
    return common


def _denominators(unit: int, exact: Optional[int], of_budget: int) -> Iterator[int]:
    """The exact denominator where it fits, that of the payments with a finer one for the budget where only this has too
    large a one, and then multiples of the unit, near round numbers and rising."""
    if exact is not None and exact % unit == 0:
        both = least_multiple((exact, of_budget))
        yield both if both <= MOST_DENOMINATOR else _finer(exact)
    yield from sorted({min(-(-round_number // unit), MOST_DENOMINATOR // unit) * unit for round_number in DENOMINATORS})


def _finer(denominator: int) -> int:
    """The largest multiple by a power of ten that a certificate has."""
    while denominator * 10 <= MOST_DENOMINATOR:
        denominator *= 10
    return denominator


def _certificate(rounding: Rounding, given: Given, projects: Projects, scale: int) -> PriceCertificate:
    moved, raised = _farthest(rounding, given), Fraction(rounding.budget, rounding.denominator) - given.budget + given.below
    denominator = rounding.denominator // scale
    file = price_file(denominator, rounding.budget, projects, _payers(rounding))
    return PriceCertificate(denominator, rounding.budget, moved, raised, file, len(rounding.decided.ballots))


def _farthest(rounding: Rounding, given: Given) -> Fraction:
    """The farthest that a payment moved, exactly. Floats tell which payments it may be."""
    denominator, paid = rounding.denominator, rounding.paid
    moves = array("d", (abs(numerator / denominator - amount) for numerator, amount in zip(paid, given.floats)))
    # A quotient, an amount and their difference are off by less than this together.
    error = max(max(given.floats, default=0.0), max(moves, default=0.0)) * 2.0**-50
    least = max(moves, default=0.0) - 2 * error
    # A number of parts of the denominator.
    away, part_away = 0, 1
    for numerator, amount, move in zip(paid, given.amounts, moves):
        if move >= least and not (type(amount) is int and amount * denominator == numerator):
            whole, part = ratio(amount, "a payment")
            moved = abs(numerator * part - whole * denominator)
            if moved * part_away > away * part:
                away, part_away = moved, part
    return max([Fraction(away, part_away * denominator), *(abs(each.amount) for each in given.left_out)])


def _payers(rounding: Rounding) -> Payers:
    decided = rounding.decided
    for start in range(0, len(rounding.paid), AT_ONCE):
        these = slice(start, start + AT_ONCE)
        yield [voter + 1 for voter in decided.voter_of[these]], decided.project_of[these], rounding.paid[these]
