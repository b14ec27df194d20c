"""A search: what is looked for one after the other, and what is said of it."""
from dataclasses import replace
from functools import cached_property
from typing import Dict, List, Optional

from .. import auditing
from .._auditor import Question, auditor
from ..decided import DecidedElection
from ..election_files import election_of
from ..files import File, bytes_of
from ..helpers import Helper
from ..records import records
from ..shown import visible
from ..writing import Satisfaction, write_refutation, write_violation
from .clock import Clock, Tell
from .earlier import PRICES_UNFINISHED, Kept, taken
from .exactly import find_exactly
from .groups import groups_of
from .prices import NONE, ROUNDING, TIME, UNPAID, UNSOLVED, Given, find_prices
from .refutations import find_refutation, refuting_needs
from .results import Found, FoundPrices, FoundRefutation, FoundViolation, OnFound, Wanted
from .shares import problem_of, unpaid
from .there import NAMES
from .violations import MEASURES, Search, Searched

# How many projects a sentence names.
SHOWN = 12
NO_PROOF = "That proves nothing: there may be some."
REASONS = {
    NONE: "the linear programme has none. It computes in rounded numbers, so that this is no proof.",
    TIME: f"there was too little time. {NO_PROOF}",
    UNSOLVED: f"the linear programme wasn't solved, since memory ran out, or its numbers are too far apart. {NO_PROOF}",
    ROUNDING: f"the linear programme has some in rounded numbers, and no exact ones were found near them. {NO_PROOF}",
}
NOT_REFUTED = {
    NONE: "by the linear programme there are prices. It computes in rounded numbers, so that this is no proof.",
    ROUNDING: ("the linear programme has one in rounded numbers, and no exact one was found near it. That proves nothing: "
               "there may be one."),
    **{why: REASONS[why].replace("there may be some", "there may be one") for why in (TIME, UNSOLVED)},
}
NO_AUDITOR = "No refutation was looked for, since the auditor is older than this package and can't check one."
# How the time is shared among what is still to be looked for.
PRICES, REFUTATION, VIOLATION = 4, 2, 1
NOT_FEASIBLE = ("No prices can support this outcome: the funded projects cost more than the limit, so that every "
                "certificate is answered 'failed Feasible'.")
NO_CONTRADICTION = (
    "Prices and a violation beside each other are no contradiction: prices say what the supporters of a project have "
    "left to pay for it, and a violation what the members of a group get. Only stable prices rule out a violation, and "
    "only one by counting, if the voter budgets are more than the limit together, or just the limit with Exhaustive."
)
# A certificate by which the auditor says whether the election and the outcome are accepted, and what of the outcome
# fails whatever the payments.
_NO_PAYMENTS = b"pb-prices,1\ndenominator,1\nvoter_budget,0\nvoter,project,payment\n"


class Seeker:
    """A search. What it finds is in `found` as soon as it is found."""

    def __init__(self, found: Found, election: File, outcome: Optional[File], wanted: Wanted, tell: Optional[Tell],
                 on_found: Optional[OnFound] = None):
        self.found, self.wanted = found, wanted
        self._clock, self._on_found, self._kept = Clock(wanted.seconds, tell), on_found or (lambda _: None), Kept()
        # Why nothing was found so far.
        self._whys: List[str] = []
        data, chosen = bytes_of(election), None if outcome is None else bytes_of(outcome)
        question = Question("prices", data, _NO_PAYMENTS, None, chosen)
        files: Dict[str, File] = {"election": election}
        if outcome is not None:
            files["outcome"] = outcome
        auditing.answered(question, files)
        self.bare = auditing.verdict(question)
        values = election_of(data)
        funded = set(values.funded or ()) if chosen is None else {
            values.projects.place[row[1].decode("utf-8")] for row in list(records(chosen, b","))[1:]}
        self.decided = DecidedElection(values.projects.ids, values.costs, values.limit, funded, values.ballots)
        problem = problem_of(self.decided, groups_of(self.decided))
        self.given = Given(data, chosen, values.projects, problem, self.bare.condition != "Exhaustive")

    def take(self, earlier: Found) -> None:
        """Has what an earlier search found, as far as the auditor accepts it for these files and in this form. That isn't
        looked for again."""
        self._kept = taken(earlier, self.given, self.wanted, self.found)

    def run(self) -> None:
        """Looks for all that is wanted."""
        found, wanted = self.found, self.wanted
        if wanted.prices or wanted.refutation:
            with Helper() as solver:
                self._look_for_prices_or_a_refutation(solver)
        for number, by in enumerate(MEASURES if wanted.violation else (), 1):
            kept = next((each for each in found.violations if each.by == by), None)
            if kept is not None:
                found.sentences.append(_told_violation(kept))
                continue
            found.unfinished = f"a violation by {NAMES[by]}"
            self._look_for_violation(by, self._part(VIOLATION, VIOLATION * (len(MEASURES) - number)))
        found.unfinished = None
        found.violations.sort(key=lambda each: MEASURES.index(each.by))
        if found.prices and found.violations:
            found.sentences.append(NO_CONTRADICTION)

    def _part(self, share: int, *later: int) -> Clock:
        """The time of a part of the search, which has this share of what is left, where others have theirs later."""
        return self._clock.part(share / (share + sum(later)))

    def _look_for_prices_or_a_refutation(self, solver: Helper) -> None:
        """Looks for prices; and where none were found, or none are wanted, for a refutation."""
        found, wanted = self.found, self.wanted
        if self.bare.condition == "Feasible" and wanted.prices:
            found.sentences.append(NOT_FEASIBLE)
            return
        told: List[str] = []
        violations = VIOLATION * len(MEASURES) * wanted.violation
        if wanted.prices and not self._kept.refutation:
            clock = self._part(PRICES, REFUTATION * wanted.refutation, violations)
            told += self._look_for_prices(solver, clock)
        if wanted.refutation and not found.prices and not self._kept.refutation:
            told += self._look_for_a_refutation(solver, self._part(REFUTATION, violations))
        if self._is_undecided():
            told = self._look_exactly(self._part(REFUTATION, violations)) or told
        if found.refutation:
            told = [" ".join(filter(None, [_refuted(found.refutation), self._unpaid]))]
        found.sentences += told

    def _look_for_prices(self, solver: Helper, clock: Clock) -> List[str]:
        """Looks for prices, and answers what there is to say of them."""
        found, wanted = self.found, self.wanted
        found.unfinished, why = PRICES_UNFINISHED, ""
        if not self._kept.prices:
            prices, why = find_prices(self.given, wanted.stable, wanted.cover, solver, clock, self._keep_prices)
            if prices and prices != found.prices:
                self._keep_prices(prices)
        self._whys.append(why)
        return self._with_exhaustive(_told(found.prices) if found.prices else self._no_prices(why))

    def _with_exhaustive(self, told: str) -> List[str]:
        """What is said of prices, and ahead of it that Exhaustive isn't asked for, where it isn't."""
        if self.given.exhaustive:
            return [told]
        return [f"{visible(str(self.bare.project))} could be added within the limit, so that Exhaustive is left out.", told]

    def _is_undecided(self) -> bool:
        """Whether nothing was found, and floats don't tell whether there are prices: by them there is neither, or something
        that isn't so exactly."""
        is_found = self.found.prices is not None or self.found.refutation is not None
        is_each = self.wanted.prices and self.wanted.refutation
        return not is_found and UNPAID not in self._whys and (is_each or UNSOLVED in self._whys or ROUNDING in self._whys)

    def _look_exactly(self, clock: Clock) -> List[str]:
        """Looks for either in fractions. What there is to say of prices that were found."""
        is_refutable = self.wanted.refutation and auditor().has("refutation")
        found = find_exactly(self.given, replace(self.wanted, refutation=is_refutable), clock)
        if isinstance(found, FoundPrices):
            self._keep_prices(found)
            return self._with_exhaustive(_told(found))
        if found is not None:
            self.found.refutation = found
            self._on_found(found)
        return []

    def _keep_prices(self, prices: FoundPrices) -> None:
        self.found.prices = prices
        self._on_found(prices)

    def _no_prices(self, why: str) -> str:
        """What is said where no prices were found."""
        if self._unpaid:
            return f"No prices can support this outcome: {self._unpaid}"
        return f"No {_form(self.wanted.stable)}{' with Cover' if self.wanted.cover else ''} were found: {REASONS[why]}"

    @cached_property
    def _unpaid(self) -> str:
        """A sentence on a funded project that nobody can pay for, or nothing. A refutation that has this project alone is
        accepted only where that is so."""
        project = unpaid(self.given.problem)
        if project is None:
            return ""
        name = self.given.projects.ids[project]
        if auditor().has("refutation"):
            answer = auditing.audit_refutation(self.given.election, write_refutation(least={name: 1}), self.given.outcome)
            if not answer:
                raise RuntimeError(f"that nobody can pay for {name} is answered '{answer}'")
        return f"{visible(name)} is funded, it costs something, and nobody approves it."

    def _look_for_a_refutation(self, solver: Helper, clock: Clock) -> List[str]:
        """Looks for a refutation of all prices, and where those with Cover alone are asked for, or stable ones, of these.
        What there is to say where none was found."""
        found = self.found
        if not auditor().has("refutation"):
            return [NO_AUDITOR]
        found.unfinished = "a refutation"
        needs, whys = refuting_needs(self.wanted.stable, self.wanted.cover), []
        for number, need in enumerate(needs):
            refutation, why = find_refutation(self.given, need, solver, clock.part(1 / (len(needs) - number)))
            if refutation:
                found.refutation = refutation
                self._on_found(refutation)
            whys.append(why)
            self._whys.append(why)
            # One of prices with Cover alone is kept where there is none of all prices.
            if found.refutation and not (found.refutation.cover and need.cover):
                return []
        if found.refutation:
            return []
        why = next((each for each in whys if each != NONE), NONE)
        return [f"No refutation was found: {NOT_REFUTED[why]}"]

    def _look_for_violation(self, by: Satisfaction, clock: Clock) -> None:
        def go_on(size: int) -> bool:
            clock.tell(f"violation by {NAMES[by]}: demands of {_projects(size)}")
            return clock.left() > 0
        searched = Search(self.decided, by, go_on).found()
        demand = searched.demand
        if demand is None:
            self.found.sentences.append(_no_violation(searched, by))
            return
        names = [self.given.projects.ids[project] for project in demand.projects]
        file = write_violation(demand.voters, names, by)
        verdict = auditing.audit_violation(self.given.election, file, self.given.outcome)
        if not verdict:
            raise RuntimeError(f"the violation that was found is answered '{verdict}'")
        violation = FoundViolation(by, demand.voters, names, verdict, file)
        self.found.violations.append(violation)
        self.found.sentences.append(_told_violation(violation))
        self._on_found(violation)


def _form(stable: bool) -> str:
    return "stable prices" if stable else "prices"


def _told(prices: FoundPrices) -> str:
    """What is said of prices that were found."""
    cover = ("The voter budgets together are more than the limit." if prices.cover else
             "None were found whose voter budgets together are more than the limit (Cover).")
    return f"There are {_form(prices.stable)} that support this outcome. {cover}"


def _refuted(refutation: FoundRefutation) -> str:
    """What is said of a refutation that was found."""
    kind = f"{_form(refutation.stable)}{' with Cover' if refutation.cover else ''}"
    others = " There may be prices that aren't stable." if refutation.stable else ""
    return (f"No {kind} can support this outcome, whatever the payments and the voter budget: that is what the refutation "
            f"proves.{others}")


def _told_violation(violation: FoundViolation) -> str:
    """What is said of a violation that was found."""
    voters, names = len(violation.voters), violation.projects
    group, each = ("one voter", "it gets") if voters == 1 else (f"{voters} voters", "each of them gets")
    shown = ", ".join(map(visible, names[:SHOWN])) + (f" and {len(names) - SHOWN} others" if len(names) > SHOWN else "")
    return f"By {NAMES[violation.by]}, the outcome fails a group: {group} could demand {shown}, and {each} less."


def _no_violation(searched: Searched, by: str) -> str:
    """What is said where no violation was found."""
    tried = "not even all demands of one project were tried"
    if searched.is_all:
        tried = "all demands that the share of a group covers were tried"
    elif searched.tried:
        tried = f"all demands of up to {_projects(searched.tried)} were tried"
    return f"No violation by {NAMES[by]} was found: {tried}. That is no proof."


def _projects(count: int) -> str:
    return f"{count} project" + ("s" if count > 1 else "")
