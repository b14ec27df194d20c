"""The check of prices over Python values, with the arguments of `validate_price_system` of pabutools."""
from fractions import Fraction
from itertools import chain
from math import gcd
from typing import TYPE_CHECKING, Iterable, List, Optional, Tuple

from ._auditor import Mode, Question, switch
from .amounts import (
    MILLION, MOST_COST, MOST_DENOMINATOR, NearAmount, TooManyDenominators, common_denominator, exact_price, is_float,
)
from .auditing import Verdict, verdict
from .coarse import told_by_signs
from .decided import DecidedElection
from .matrices import check_rows
from .nearby import verdict_near
from .rounding import CannotKeep
from .settling import SECONDS, clock_of
from .values import (
    AnyInstance, AnyProject, NearPaymentFunction, Payments, Profile, Projects, ballots_of, check_count, funded_of,
    projects_of,
)
from .writing import election_file, payers_of, price_file

if TYPE_CHECKING:
    from .finding.clock import Clock, Tell

TOO_MANY = ("the amounts have too large a common denominator for a certificate (at most 10^9, in the unit in which the "
            "largest cost is 10^12): near=True audits exact prices near these, which price_certificate makes, and of the "
            "package's own prices equal_shares with near=True")


def validate_price_system(instance: AnyInstance, profile: Profile, budget_allocation: Iterable[AnyProject],
                          voter_budget: NearAmount, payment_functions: Iterable[NearPaymentFunction],
                          stable: bool = False, exhaustive: bool = True, relaxation: None = None, *,
                          verbose: bool = False, near: bool = False, seconds: float = SECONDS,
                          on_progress: "Optional[Tell]" = None) -> Verdict:
    """Whether the payments support the budget allocation: a Verdict, which is true or false, and names what fails
    first.

    An instance is an iterable of projects with `name` and `cost`, and has a `budget_limit`; a profile is an iterable
    of approval ballots, each a set of projects; payments are, for each voter in the order of the profile, a mapping
    from projects or their names to amounts. Both may also be matrices, as numpy has them, with a row for each voter
    and a column for each project in the order of the instance, or tables of pandas with the ids as the columns' names.
    Amounts are whole numbers, Fractions or Decimals, and are taken exactly. A float is a TypeError, since a check of
    rounded numbers shows nothing, but with `near` (below). What no certificate can say (a payment below 0, amounts that
    are too large) is a ValueError, and so is a voter who pays for a project twice, by its name and as itself.

    Amounts whose common denominator is too large for a certificate get a no where that is seen without their size:
    Feasible, Exhaustive, C1, C3 of a project that nobody pays for, and C4, of which the last two need not be the first
    that fail. Else they are TooManyDenominators, a ValueError.

    With `near` such amounts, and floats, are answered by exact prices near them. Noise is a millionth: of the voter
    budget for each voter, and of its cost for each project. It is yes where prices keep all conditions that are off by
    no more: all payments of one voter together, all payments for one project together, and the voter budget. What is
    below 0, or paid for an unfunded project, may be left out so, and what a voter pays for a project that it doesn't
    approve never is. It is no where the given prices fail by more than that: a voter spends more than the budget and
    a millionth of it (C2); what is paid for a project is off by more than a millionth of its cost (C3), or the
    supporters of an unfunded project have left, or can offer, more than its cost and a millionth of it (C5 and S5); or
    more than noise is paid where nothing should be (C1 and C4). What lies between is a CannotKeep, which is no answer.
    `moved` of the verdict is how far a payment moved, and `raised` how far the voter budget. `seconds` is how long to look
    for such prices; where it runs out before any are found, that is a CannotKeep too. `on_progress` is called with what is
    tried and how many seconds are left.

    `relaxation` is there for callers of pabutools, and has to be None: relaxed forms aren't audited, so another is a
    ValueError. `verbose` prints what each condition comes to, as `explain` of the verdict has it.

    >>> town = Instance([Project("a", 6), Project("b", 4)], 10)
    >>> ballots, payments = [["a", "b"], ["a"], ["b"]], [{"a": 2, "b": 2}, {"a": 4}, {"b": 2}]
    >>> print(validate_price_system(town, ballots, ["a", "b"], 4, payments))
    supported priceable
    >>> print(validate_price_system(town, ballots, ["a", "b"], 3.5, payments, near=True))
    failed C2 voter 1
    """
    mode, is_near, is_told = Mode(stable, exhaustive), switch("near", near), switch("verbose", verbose)
    if relaxation is not None:
        raise ValueError(f"the relaxation is {relaxation!r}, and only None is audited")
    clock = clock_of(seconds, on_progress)
    found = _validated(instance, profile, budget_allocation, voter_budget, payment_functions, mode,
                       clock if is_near else None)
    if is_told:
        print(found.explain(), end="")
    return found


def _validated(instance: AnyInstance, profile: Profile, budget_allocation: Iterable[AnyProject],
               voter_budget: NearAmount, payment_functions: Iterable[NearPaymentFunction], mode: Mode,
               clock: "Optional[Clock]") -> Verdict:
    """The verdict; with a clock by near prices too."""
    check_rows(profile, payment_functions)
    projects, costs, limit = projects_of(instance)
    ballots, funded = ballots_of(profile, projects), funded_of(budget_allocation, projects)
    payments = Payments(payment_functions, projects)
    check_count(len(ballots), len(payments.functions))

    def decided() -> DecidedElection:
        return DecidedElection(projects.ids, costs, limit, set(funded), ballots)
    if clock and (is_float(voter_budget) or payments.has_floats):
        return verdict_near(decided(), projects, voter_budget, payments, mode, clock)
    budget = exact_price(voter_budget, "the voter budget")
    payments.check_exact()
    try:
        factor, denominator = _scale([limit, *costs], chain([budget.denominator], payments.denominators()))
    except TooManyDenominators:
        return _beyond_certificates(decided(), projects, budget, payments, mode, clock)
    election = election_file(projects, [cost * factor for cost in costs], limit * factor, ballots, funded)
    scaled = denominator * factor
    numerator = budget.numerator * (scaled // budget.denominator)
    certificate = price_file(denominator, numerator, projects, payers_of(payments, projects, scaled))
    return verdict(Question("prices", election, certificate, mode=mode))


def _beyond_certificates(decided: DecidedElection, projects: Projects, budget: Fraction, payments: Payments, mode: Mode,
                         clock: "Optional[Clock]") -> Verdict:
    """The verdict where no certificate states the amounts. A no that is seen without their size stands before a yes to
    prices near these."""
    sure = told_by_signs(decided, projects, payments, mode)
    if clock:
        try:
            found = verdict_near(decided, projects, budget, payments, mode, clock)
        except CannotKeep:
            if sure is None:
                raise
            return sure
        return sure if found and sure is not None else found
    if sure is None:
        raise TooManyDenominators(TOO_MANY)
    return sure


def _scale(costs: List[Fraction], denominators: Iterable[int]) -> Tuple[int, int]:
    """A whole number by which all amounts are multiplied, so that files can state them, and the denominator of payments
    then: costs to a millionth, payments over a denominator of at most 10^9. No condition depends on the unit in which
    amounts are measured."""
    factor, common = common_denominator(cost * MILLION for cost in costs), 1
    # What the two can be together.
    most = MOST_DENOMINATOR * MOST_COST / max([*costs, Fraction(1, MILLION)])
    for denominator in denominators:
        common *= denominator // gcd(common, denominator)
        if common > most:
            raise TooManyDenominators(TOO_MANY)
    rest = common // gcd(common, factor)
    while rest > MOST_DENOMINATOR:
        prime = next((number for number in range(2, 10**5) if rest % number == 0), rest)
        rest //= prime
        factor *= prime
    if max(costs) * factor > MOST_COST:
        raise TooManyDenominators(TOO_MANY)
    return factor, rest
