"""What each condition or test comes to, in a sentence with the amounts that it compares, and what a yes to prices says of
groups: the sentences of `explain`, by the object that answers (docs/JSON.md)."""
from collections import Counter
from fractions import Fraction
from typing import Callable, Dict, List, NamedTuple, Union

from .amounts import MILLION
from .objects import Found
from .records import records

# How a condition is asked for that may be left out.
_HOW = {"Exhaustive": "without --no-exhaustive", "Cover": "with --cover", "C5": "without --stable", "S5": "with --stable"}
_ALL_FUNDED = "every project is funded"
# How many records of a refutation stand before its rows.
_HEAD = 3
_EQUAL_PART = "take any voters who all approve an unfunded project: their equal part of the limit is"
_REACH = "that project's cost plus the cost of all funded projects that at least one of them approves"
# What a yes to prices says of groups.
_OF_GROUPS = {
    "strict": f"{_EQUAL_PART} less than {_REACH}",
    "weak": f"{_EQUAL_PART} no more than {_REACH}",
    "little": "of groups of voters this says little: all voter budgets together are less than the limit",
}


class Row(NamedTuple):
    """A condition or a test, "holds", "fails" or "not asked", and the sentence."""

    name: str
    state: str
    sentence: str


def rows_of(found: Found, certificate: bytes) -> List[Row]:
    """A row for each condition or test of an answer on this certificate, in their order."""
    told = _Told(found, certificate)
    return [_row(each, _SENTENCES[each["name"]](told, each))
            for each in found["conditions" if found["kind"] == "prices" else "tests"]]


def group_sentences(found: Found) -> List[str]:
    """What a yes to prices says of groups of voters, and the one that comes nearest to that, where there is one. Of any other
    answer there are none."""
    said, nearest = found.get("groups"), found.get("nearest")
    return [*([] if said is None else [_OF_GROUPS[said]]), *([] if nearest is None else [_nearest(nearest)])]


def _nearest(group: Found) -> str:
    cost, funded_for = (amount_text(group[name], MILLION) for name in ("cost", "funded_for"))
    return (f"nearest to that comes project {group['project']}: the share of its {group['supporters']} supporters is "
            f"{_share_text(group['share'])}, it costs {cost}, and {funded_for} was funded for them")


def _row(each: Found, sentence: str) -> Row:
    name, state = each["name"], "holds" if each["holds"] else "fails"
    # A test is always asked for.
    if each.get("asked", True):
        return Row(name, state, sentence)
    return Row(name, "not asked", f"{_HOW[name]} it {state}: {sentence}")


def amount_text(parts: Union[int, str], unit: int) -> str:
    """An amount of so many parts, of which the unit of the currency has a number: a decimal with two to six places, or where
    none states it a whole number and a fraction."""
    amount = Fraction(int(parts), unit)
    sign, (whole, rest) = "-" if amount < 0 else "", divmod(abs(amount), 1)
    if (rest * MILLION).denominator == 1:
        return f"{sign}{whole}.{f'{int(rest * MILLION):06}'.rstrip('0').ljust(2, '0')}"
    return sign + (f"{whole} {rest}" if whole else str(rest))


def _share_text(share: Found) -> str:
    """A share of the limit: millionths over the number of voters."""
    return amount_text(share["numerator"], MILLION * share["denominator"])


def _many(what: str, each: Found) -> str:
    """At how many places something fails."""
    return f" ({what}: {each['culprits']})"


class _Sums:
    """The two sums that a condition on prices compares, as texts, and the place that they are of."""

    def __init__(self, found: Found, condition: Found):
        shown = condition["shown"]
        self.amount, self.bound = (amount_text(shown[name], found["grains_per_unit"]) for name in ("amount", "bound"))
        self.voter, self.project = shown["voter"], shown["project"]


class _Told:
    """The sentences on an answer."""

    def __init__(self, found: Found, certificate: bytes):
        self._found, self._certificate = found, certificate

    def feasible(self, condition: Found) -> str:
        sums = _Sums(self._found, condition)
        return f"the funded projects cost {sums.amount}; the limit is {sums.bound}"

    def exhaustive(self, condition: Found) -> str:
        if condition["shown"] is None:
            return _ALL_FUNDED
        sums = _Sums(self._found, condition)
        remains = f"{sums.amount} of the limit remains"
        if condition["holds"]:
            return f"{remains}; the cheapest unfunded project, {sums.project}, costs {sums.bound}"
        return (f"{remains}, and project {sums.project} costs {sums.bound}"
                + _many("unfunded projects that still fit", condition))

    def cover(self, condition: Found) -> str:
        sums = _Sums(self._found, condition)
        return f"all voter budgets come to {sums.amount} together; the limit is {sums.bound}"

    def c1(self, condition: Found) -> str:
        first = condition["first"]
        if first is None:
            return "no voter pays for a project that isn't on its ballot"
        return (f"voter {first['voter']} pays for project {first['project']}, which isn't on its ballot"
                + _many("such payments", condition))

    def c2(self, condition: Found) -> str:
        if condition["shown"] is None:
            return "there are no voters"
        sums = _Sums(self._found, condition)
        if condition["holds"]:
            return f"voter {sums.voter} spends most, {sums.amount} of its budget of {sums.bound}"
        return (f"voter {sums.voter} spends {sums.amount} and has a budget of {sums.bound}"
                + _many("voters who spend more than that", condition))

    def c3(self, condition: Found) -> str:
        if condition["shown"] is None:
            return "each funded project is paid for exactly"
        sums = _Sums(self._found, condition)
        return (f"project {sums.project} costs {sums.bound}, and {sums.amount} is paid for it"
                + _many("funded projects not paid exactly", condition))

    def c4(self, condition: Found) -> str:
        if condition["shown"] is None:
            return "nothing is paid for an unfunded project"
        sums = _Sums(self._found, condition)
        return (f"{sums.amount} is paid for project {sums.project}, which isn't funded"
                + _many("unfunded projects that are paid for", condition))

    def c5(self, condition: Found) -> str:
        return self._supporters("leftovers", condition)

    def s5(self, condition: Found) -> str:
        return self._supporters("offers", condition)

    def _supporters(self, sums_of: str, condition: Found) -> str:
        """What an unfunded project costs, and what its supporters have left or can offer."""
        if condition["shown"] is None:
            return _ALL_FUNDED
        sums = _Sums(self._found, condition)
        come_to = f"and its supporters' {sums_of} come to {sums.amount}"
        if condition["holds"]:
            return f"project {sums.project}, the closest, costs {sums.bound}, {come_to}"
        return (f"project {sums.project} costs {sums.bound}, {come_to}"
                + _many("unfunded projects where that is more than the cost", condition))

    def v1(self, test: Found) -> str:
        return f"{test['members']} of {self._found['election']['voters']} voters are in the group"

    def v2(self, test: Found) -> str:
        first = test["first"]
        if first is None:
            return "each member approves each demanded project"
        return (f"voter {first['voter']} doesn't approve project {first['project']}"
                + _many("such pairs of a member and a project", test))

    def v3(self, test: Found) -> str:
        share = test["share"]
        if share["denominator"] == 0:
            return "there are no voters"
        cost = amount_text(test["cost"], MILLION)
        return f"the group's share of the limit is {_share_text(share)}; the demanded projects cost {cost}"

    def v4(self, test: Found) -> str:
        measure, first = self._found["measure"], test["first"]
        demanded, gets = (amount_text(test[name], MILLION) if measure == "cost" else test[name]
                          for name in ("demanded", "gets"))
        told = f"by {measure} the demanded projects are worth {demanded}, and"
        if first is None:
            return f"{told} each member gets at most {gets}"
        return f"{told} voter {first['voter']} gets {gets}" + _many("members who get enough", test)

    def u1(self, test: Found) -> str:
        if test["first"] is not None:
            return (f"the row of project {test['first']['project']} doesn't fit whether it is funded"
                    + _many("such rows", test))
        # What the object lacks: how many rows the certificate has of each role.
        rows = Counter(role for role, *_ in list(records(self._certificate, b","))[_HEAD:])
        return ("each row fits whether its project is funded; rows of least: "
                f"{rows[b'least']}, of most: {rows[b'most']}, of left: {rows[b'left']}")

    def u2(self, test: Found) -> str:
        counted, taken, stable = test["counted"], test["taken"], test["counted_stable"]
        if stable is None:
            return f"the weights count at most {counted} voter budgets, and take {taken}"
        return (f"the weights count at most {stable} voter budgets if prices are stable, and take {taken}; for all prices "
                f"they count at most {counted}")

    def u3(self, test: Found) -> str:
        least, most = (amount_text(test[name], MILLION) for name in ("at_least", "at_most"))
        return (f"costs times weights come to {least} for least and Cover, whose weight is {test['cover']}, and to {most} "
                "for most and left")


_SENTENCES: Dict[str, Callable[[_Told, Found], str]] = {
    "Feasible": _Told.feasible, "Exhaustive": _Told.exhaustive, "Cover": _Told.cover, "C1": _Told.c1, "C2": _Told.c2,
    "C3": _Told.c3, "C4": _Told.c4, "C5": _Told.c5, "S5": _Told.s5, "V1": _Told.v1, "V2": _Told.v2, "V3": _Told.v3,
    "V4": _Told.v4, "U1": _Told.u1, "U2": _Told.u2, "U3": _Told.u3,
}
