"""What can be told of prices without the size of payments: where no certificate states them exactly.

Which conditions hold is the auditor's answer here as well. It gets a certificate of which each payment is 0 where the
given one is, and otherwise more; the first payer of a funded project pays what the others, who pay next to nothing, leave.
"""
from fractions import Fraction
from typing import Dict, Optional

from ._auditor import Mode, Question
from .amounts import MILLION, MOST_COST, MOST_DENOMINATOR, MOST_NUMERATOR, common_denominator
from .auditing import Verdict, verdict
from .decided import DecidedElection
from .values import Payments, Projects
from .writing import Payers, election_file, price_file, voters_of

# Whether these hold is the same by both certificates; or, of C3, where the auditor sees that it fails.
TOLD = ("Feasible", "Exhaustive", "C1", "C3", "C4")


def told_by_signs(decided: DecidedElection, projects: Projects, payments: Payments, mode: Mode) -> Optional[Verdict]:
    """A no that follows from the outcome and from which payments are 0, or None where there is none. Raises ValueError
    where a payment is below 0."""
    factor = common_denominator(cost * MILLION for cost in [decided.limit, *decided.costs])
    costs, limit = [cost * factor for cost in decided.costs], decided.limit * factor
    if max([limit, *costs]) > MOST_COST:
        return None
    rests = _rests(projects, payments, {place: int(costs[place] * MOST_DENOMINATOR) for place in decided.funded})
    if rests is None:
        return None
    election = election_file(projects, costs, limit, decided.ballots, decided.funded)
    # Nobody pays more than this for projects within the limit.
    certificate = price_file(MOST_DENOMINATOR, MOST_NUMERATOR, projects, _payers(projects, payments, rests))
    found = verdict(Question("prices", election, certificate, mode=mode))
    return found if found.condition in TOLD else None


def _rests(projects: Projects, payments: Payments, costs: Dict[int, int]) -> Optional[Dict[int, int]]:
    """What the first payer of each funded project pays, where the others pay 1 each; None where they pay too much
    so."""
    rests: Dict[int, int] = {}
    for _, places, numerators in _signs(projects, payments):
        for place, numerator in zip(places, numerators):
            if numerator and place in costs:
                rests[place] = rests.get(place, costs[place] + 1) - 1
    # What costs nothing isn't paid for exactly by anyone who pays.
    if any(rest < 1 and costs[place] for place, rest in rests.items()):
        return None
    return {place: max(1, rest) for place, rest in rests.items()}


def _payers(projects: Projects, payments: Payments, rests: Dict[int, int]) -> Payers:
    waiting = dict(rests)
    for voters, places, numerators in _signs(projects, payments):
        yield voters, places, [waiting.pop(place, 1) if numerator else 0 for place, numerator in zip(places, numerators)]


def _signs(projects: Projects, payments: Payments) -> Payers:
    """For each payment 1, or 0 where it is 0."""
    for first, functions in payments.blocks():
        voters = voters_of(first, functions)
        places = projects.places_of_each(functions, first, "pays for", is_once=True)
        ratios = payments.ratios(first, functions)
        for voter, place, (numerator, denominator) in zip(voters, places, ratios):
            if numerator < 0:
                paid = f"voter {voter} pays {Fraction(numerator, denominator)} for {projects.ids[place]}"
                raise ValueError(f"{paid}, and a certificate has no payments below 0")
        yield voters, places, [int(numerator > 0) for numerator, _ in ratios]
