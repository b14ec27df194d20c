"""Price certificates, outcome files, violation certificates and refutations."""
from dataclasses import dataclass, field

from . import numbers
from .records import Refused, records, refuse_lowest

MOST_DENOMINATOR = 10**9
MOST_NUMERATOR = 10**21
MOST_ROWS = 10_000_000
MOST_WEIGHT = 10**12
ROLES = (b"least", b"most", b"left")

NOT_UTF8, BAD_HEAD, BAD_ROW, BAD_NUMBER, UNKNOWN_VOTER = 20, 21, 22, 23, 24
UNKNOWN_PROJECT, OUT_OF_ORDER, REPEATED, TOO_MANY = 25, 26, 27, 28


@dataclass
class Prices:
    """Numerators over one denominator. A pair of voter and project that isn't there has payment 0."""

    denominator: int = 1
    budget: int = 0
    payments: dict = field(default_factory=dict)


@dataclass
class Violation:
    group: set = field(default_factory=set)
    demand: set = field(default_factory=set)
    by_cost: bool = False


@dataclass
class Refutation:
    """The weight of Cover, and of each project that a row names its role and its weight."""

    cover: int = 0
    roles: dict = field(default_factory=dict)
    weights: dict = field(default_factory=dict)


def rows_of(data):
    """The records of such a file without the empty fields at their ends."""
    for place, fields in records(data, b",", NOT_UTF8):
        while fields and fields[-1] == b"":
            fields.pop()
        yield place, fields


def take_head(rows, head):
    """Takes a head record that has to be just this."""
    place, fields = next(rows)
    refuse_lowest([BAD_HEAD] if fields != head else [], place)


def take_head_number(rows, name, least, most):
    """Takes a head record of a name and a whole number in a range."""
    place, fields = next(rows)
    if fields is None or len(fields) != 2 or fields[0] != name:
        raise Refused(BAD_HEAD, place)
    number = numbers.whole(fields[1], most)
    refuse_lowest([BAD_NUMBER] if number is None or number < least else [], place)
    return number


def faults_of_voter(election, text):
    if not numbers.is_digits(text):
        return [BAD_NUMBER]
    number = numbers.whole(text, len(election.ballots))
    return [UNKNOWN_VOTER] if number is None or number < 1 else []


def voter_of(election, text):
    """The voter, or None where the text names none."""
    return None if faults_of_voter(election, text) else numbers.whole(text, len(election.ballots))


def faults_of_project(election, text):
    return [UNKNOWN_PROJECT] if text not in election.number_of else []


def read_prices(data, election):
    """The prices that the bytes state; else they are refused."""
    rows = rows_of(data)
    take_head(rows, [b"pb-prices", b"1"])
    prices = Prices()
    prices.denominator = take_head_number(rows, b"denominator", 1, MOST_DENOMINATOR)
    prices.budget = take_head_number(rows, b"voter_budget", 0, MOST_NUMERATOR)
    take_head(rows, [b"voter", b"project", b"payment"])
    pairs, last, count = set(), 0, 0
    for place, fields in rows:
        if fields is None:
            break
        count += 1
        faults = [TOO_MANY] if count > MOST_ROWS else []
        if len(fields) != 3:
            raise Refused(BAD_ROW, place)
        faults += faults_of_voter(election, fields[0]) + faults_of_project(election, fields[1])
        payment = numbers.whole(fields[2], MOST_NUMERATOR)
        if payment is None:
            faults.append(BAD_NUMBER)
        voter, project = voter_of(election, fields[0]), election.number_of.get(fields[1])
        if voter is not None and voter < last:
            faults.append(OUT_OF_ORDER)
        if (voter, project) in pairs:
            faults.append(REPEATED)
        refuse_lowest(faults, place)
        pairs.add((voter, project))
        last = voter
        if payment:
            prices.payments[voter, project] = payment
    return prices


def read_outcome(data, election):
    """The funded projects that the bytes state; else they are refused."""
    rows = rows_of(data)
    take_head(rows, [b"pb-outcome", b"1"])
    funded = set()
    for place, fields in rows:
        if fields is None:
            break
        if len(fields) != 2 or fields[0] != b"project":
            raise Refused(BAD_ROW, place)
        take_once(election, funded, fields, place)
    return funded


def read_violation(data, election):
    """The group and the demand that the bytes state; else they are refused."""
    rows = rows_of(data)
    place, fields = next(rows)
    if fields not in [[b"pb-violation", b"1"], [b"pb-violation", b"2"]]:
        raise Refused(BAD_HEAD, place)
    violation = Violation()
    if fields[1] == b"2":
        place, fields = next(rows)
        if fields not in [[b"satisfaction", b"count"], [b"satisfaction", b"cost"]]:
            raise Refused(BAD_HEAD, place)
        violation.by_cost = fields[1] == b"cost"
    for place, fields in rows:
        if fields is None:
            break
        if len(fields) != 2 or fields[0] not in (b"project", b"voter"):
            raise Refused(BAD_ROW, place)
        take_once(election, violation.demand if fields[0] == b"project" else violation.group, fields, place)
    return violation


def read_refutation(data, election):
    """The weights that the bytes state; else they are refused."""
    rows = rows_of(data)
    take_head(rows, [b"pb-refutation", b"1"])
    refutation = Refutation(take_head_number(rows, b"cover", 0, MOST_WEIGHT))
    take_head(rows, [b"role", b"project", b"weight"])
    for place, fields in rows:
        if fields is None:
            break
        if len(fields) != 3 or fields[0] not in ROLES:
            raise Refused(BAD_ROW, place)
        role, project, weight = fields[0], election.number_of.get(fields[1]), numbers.whole(fields[2], MOST_WEIGHT)
        faults = [BAD_NUMBER] if weight is None else []
        faults += faults_of_project(election, fields[1])
        if project in refutation.roles:
            faults.append(REPEATED)
        refuse_lowest(faults, place)
        refutation.roles[project], refutation.weights[project] = role, weight
    return refutation


def take_once(election, members, fields, place):
    """Takes a row that names a project or a voter, which may be named once."""
    if fields[0] == b"project":
        faults, member = faults_of_project(election, fields[1]), election.number_of.get(fields[1])
    else:
        faults, member = faults_of_voter(election, fields[1]), voter_of(election, fields[1])
    if member in members:
        faults.append(REPEATED)
    refuse_lowest(faults, place)
    members.add(member)


def quoted(project_id):
    """An id as a field of the canonical form."""
    if b"," in project_id or b'"' in project_id:
        return b'"' + project_id.replace(b'"', b'""') + b'"'
    return project_id


def canonical(prices, election):
    """The canonical form of prices."""
    lines = [b"pb-prices,1", b"denominator,%d" % prices.denominator, b"voter_budget,%d" % prices.budget]
    lines.append(b"voter,project,payment")
    for (voter, project), payment in sorted(prices.payments.items()):
        lines.append(b"%d,%s,%d" % (voter, quoted(election.id(project)), payment))
    return b"".join(line + b"\n" for line in lines)
