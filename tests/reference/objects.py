"""What each command answers with --json: the object that docs/JSON.md describes, and its text."""
import json
import os

from . import conditions, group_figures, refutations, violations
from .answers import (
    NAMES, NO, REFUSED, YES, RefusedInput, entries_of, kind_of, take, take_outcome, verdict_on_refutation, words_apart,
)
from .certificates import read_prices, read_refutation, read_violation
from .election import read_election
from .explaining import closest, said_of_groups
from .records import Refused

VERSION = 1
MILLION = 10**6
# What is asked where --groups stands in the certificate's place.
ON_GROUPS = {"explain": "groups", "margins": "group_margins"}
STATUSES = {"yes": YES, "no": NO, "refused": REFUSED}
WITH_JSON = ("read", "groups", "prices", "violation", "refutation", "both", "explain", "margins")


def an_object(kind, answer, **keys):
    return {"answer": answer, "kind": kind, "version": VERSION, **keys}


def yes_or_no(failure):
    return "no" if failure else "yes"


def of_election(election):
    """What the file of an election states, with amounts in millionths of the currency."""
    return {
        "declared_projects": election.declared.get(b"num_projects"),
        "declared_voters": election.declared.get(b"num_votes"),
        "funded": len(election.funded()) if election.has_selected else None,
        "limit": str(election.limit),
        "other_selected": election.other_selected(),
        "projects": len(election.ids),
        "unused_columns": [column.decode() for column in election.weighing],
        "voters": len(election.ballots),
    }


def of_outcome(election, funded):
    return {"cost": str(sum(election.costs[project] for project in funded)), "funded": len(funded)}


def of_place(election, place):
    """A voter and a project, either of which may be None."""
    voter, project = place
    return {"project": None if project is None else election.id(project).decode(), "voter": voter}


def of_failure(election, failure):
    """The condition or test that fails first, with its first culprit; None where all hold."""
    if failure is None:
        return None
    name, place = failure
    return {"name": name, **of_place(election, place)}


def of_test(name, failing, **keys):
    return {"holds": not failing, "name": name, **keys}


def millionths(amount):
    """An amount of the currency in millionths, of which it is a whole number."""
    whole = amount * MILLION
    assert whole == int(whole)
    return str(int(whole))


class PriceObject:
    """The object about prices."""

    def __init__(self, claim, mode, explained):
        self.claim, self.election, self.mode, self.explained = claim, claim.election, mode, explained
        self.grains_per_unit = MILLION * claim.prices.denominator
        self.total = claim.cost_of(claim.funded())
        self.budgets = len(self.election.ballots) * claim.budget

    def grains(self, amount):
        """An amount of the currency in grains, of which it is a whole number."""
        grains = amount * self.grains_per_unit
        assert grains.denominator == 1
        return str(grains.numerator)

    def whole(self):
        failure = conditions.first_failure(self.claim, self.mode)
        return an_object(
            "prices",
            yes_or_no(failure),
            budgets=self.grains(self.budgets),
            conditions=self.conditions(),
            election=of_election(self.election),
            failed=of_failure(self.election, failure),
            grains_per_unit=self.grains_per_unit,
            groups=None if failure else said_of_groups(self.claim, self.mode),
            limit=self.grains(self.claim.limit),
            nearest=None if failure or not self.explained else self.nearest(),
            mode={
                "cover": "--cover" in self.mode,
                "exhaustive": "--no-exhaustive" not in self.mode,
                "stable": "--stable" in self.mode,
            },
            outcome=of_outcome(self.election, self.claim.funded_set),
            total=self.grains(self.total),
            voter_budget=self.grains(self.claim.budget),
        )

    def nearest(self):
        """The unfunded project whose supporters come nearest to what a yes says of groups, unless that is little."""
        voters, claim = len(self.election.ballots), self.claim
        if said_of_groups(claim, self.mode) == "little" or not voters:
            return None
        project = closest(claim.unfunded(), claim.surplus)
        return project and {
            "cost": millionths(claim.cost(project)),
            "funded_for": millionths(claim.funded_for(project)),
            "number": project,
            "project": self.election.id(project).decode(),
            "share": {"denominator": voters, "numerator": millionths(claim.share(project) * voters)},
            "supporters": len(self.election.supporters(project)),
        }

    def conditions(self):
        """Each condition, with the two sums that it compares at a place."""
        asked = {name for name, _ in conditions.conditions_of(self.mode)}
        claim, remains = self.claim, self.claim.limit - self.total
        rows = [
            ("Feasible", conditions.feasible, lambda culprits: (self.total, claim.limit, (None, None))),
            ("Exhaustive", conditions.exhaustive, self.at_unfunded(lambda project: remains)),
            ("Cover", conditions.cover, lambda culprits: (self.budgets, claim.limit, (None, None))),
            ("C1", conditions.c1, lambda culprits: None),
            ("C2", conditions.c2, self.at_voter),
            ("C3", conditions.c3, self.at_culprit(claim.cost)),
            ("C4", conditions.c4, self.at_culprit(lambda project: 0 * claim.limit)),
            ("C5", conditions.c5, self.at_unfunded(claim.left_of_supporters)),
            ("S5", conditions.s5, self.at_unfunded(claim.offer_of_supporters)),
        ]  # fmt: skip
        return [self.condition(name, name in asked, culprits_of(claim), sums_of) for name, culprits_of, sums_of in rows]

    def condition(self, name, asked, culprits, sums_of):
        first = culprits[0] if culprits and culprits[0] != (None, None) else None
        return {
            "asked": asked,
            "culprits": len(culprits),
            "first": first and of_place(self.election, first),
            "holds": not culprits,
            "name": name,
            "shown": self.shown(sums_of(culprits)),
        }

    def shown(self, sums):
        if sums is None:
            return None
        amount, bound, place = sums
        return {"amount": self.grains(amount), "bound": self.grains(bound), **of_place(self.election, place)}

    def at_unfunded(self, amount_of):
        """The amount and the cost of the first project at which there is too much, else of the one that comes closest."""
        def sums(culprits):
            cost = self.claim.cost
            nearest = closest(self.claim.unfunded(), lambda project: amount_of(project) - cost(project))
            project = culprits[0][1] if culprits else nearest
            return None if project is None else (amount_of(project), cost(project), (None, project))
        return sums

    def at_voter(self, culprits):
        """What the first voter spends who spends too much, else the one who spends most."""
        voter = culprits[0][0] if culprits else closest(self.election.voters, self.claim.spends)
        return None if voter is None else (self.claim.spends(voter), self.claim.budget, (voter, None))

    def at_culprit(self, bound_of):
        """What is paid for the first project for which it isn't as much as it has to be."""
        def sums(culprits):
            if not culprits:
                return None
            _, project = culprits[0]
            return self.claim.paid(project), bound_of(project), (None, project)
        return sums


def of_violation(election, funded, violation):
    """The object about a group and its demand."""
    failure = violations.first_failure(election, funded, violation)
    v1, v2, v3, v4 = (culprits_of(election, funded, violation) for _, culprits_of in violations.TESTS)
    members, voters = len(violation.group), len(election.ballots)

    def gets(voter):
        return violations.worth(election, election.ballot(voter) & funded, violation.by_cost)

    demanded = violations.worth(election, violation.demand, violation.by_cost)
    shown = gets(v4[0][0]) if v4 else max(map(gets, violation.group), default=0)
    share = {"denominator": voters, "numerator": str(members * election.limit)}
    return an_object(
        "violation",
        yes_or_no(failure),
        election=of_election(election),
        failed=of_failure(election, failure),
        measure="cost" if violation.by_cost else "count",
        outcome=of_outcome(election, funded),
        tests=[
            of_test("V1", v1, members=members),
            of_test("V2", v2, culprits=len(v2), first=of_place(election, v2[0]) if v2 else None),
            of_test("V3", v3, cost=str(violations.worth(election, violation.demand, True)), share=share),
            of_test("V4", v4, culprits=len(v4), first={"voter": v4[0][0]} if v4 else None, demanded=str(demanded), gets=str(shown)),
        ],
    )


def of_refutation(election, funded, refutation, stable):
    """The object about weights that are to prove that no prices support the outcome, or no stable ones."""
    failure = refutations.first_failure(election, funded, refutation, stable)
    weighing = refutations.Weighing(election, funded, refutation, stable)
    u1, u2, u3 = (culprits_of(weighing) for _, culprits_of in refutations.TESTS)
    counted, (_, taken) = weighing.spending(False), weighing.u2_sums()
    counted_stable = str(weighing.spending(True)) if stable else None
    paid, owed = weighing.u3_sums()
    # What is below 0 on one side stands on the other.
    at_least, at_most = ((side + weighing.cost_of_most()) * MILLION for side in (paid, owed))
    assert at_least.denominator == at_most.denominator == 1
    verdict, _ = verdict_on_refutation(election, funded, refutation, ["--stable"] if stable else [])
    return an_object(
        "refutation",
        yes_or_no(failure),
        election=of_election(election),
        failed=of_failure(election, failure),
        outcome=of_outcome(election, funded),
        proves=None if failure else verdict.decode().rstrip("\n"),
        stable=stable,
        tests=[
            of_test("U1", u1, culprits=len(u1), first={"project": election.id(u1[0][1]).decode()} if u1 else None),
            of_test("U2", u2, counted=str(counted), counted_stable=counted_stable, taken=str(taken)),
            of_test("U3", u3, at_least=str(at_least), at_most=str(at_most), cover=refutation.cover),
        ],
    )


def of_groups(election, funded, by_cost):
    """The object about groups that fall short, by this measure."""
    figures = group_figures.of_all(election, funded, by_cost)
    short = next((each for each in figures if each.is_short), None)
    failure = short and ("EJR+", (None, short.project))
    return an_object(
        "groups",
        yes_or_no(failure),
        election=of_election(election),
        failed=of_failure(election, failure),
        group=of_group(election, short or group_figures.closest(figures)),
        measure="cost" if by_cost else "count",
        outcome=of_outcome(election, funded),
    )


def of_group_margins(election, funded, by_cost):
    """The object about one group for each unfunded project that somebody approves."""
    return an_object(
        "group_margins",
        "yes",
        election=of_election(election),
        groups=[of_group(election, each) for each in group_figures.of_all(election, funded, by_cost)],
        measure="cost" if by_cost else "count",
        outcome=of_outcome(election, funded),
    )


def of_margins(election, funded, prices):
    """The object about what each project costs, is paid and could be offered, in grains."""
    claim = conditions.Claim(election, funded, prices)
    grains_per_unit = MILLION * prices.denominator

    def figures(project):
        sums = {
            "cost": claim.cost(project),
            "left": claim.left_of_supporters(project),
            "offer": claim.offer_of_supporters(project),
            "paid": claim.paid(project),
        }
        grains = {name: amount * grains_per_unit for name, amount in sums.items()}
        assert all(amount.denominator == 1 for amount in grains.values())
        return {
            "funded": project in funded,
            "number": project,
            "project": election.id(project).decode(),
            "supporters": len(election.supporters(project)),
            **{name: str(amount.numerator) for name, amount in grains.items()},
        }

    return an_object(
        "margins",
        "yes",
        election=of_election(election),
        grains_per_unit=grains_per_unit,
        outcome=of_outcome(election, funded),
        projects=[figures(project) for project in election.projects],
    )


def of_group(election, group):
    """A group for a project, with its share of the limit and what is missing of what it has to come to."""
    def over_voters(numerator):
        return {"denominator": len(election.ballots), "numerator": str(numerator)}

    return group and {
        "cost": str(election.costs[group.project]),
        "missing": over_voters(len(election.ballots) * group.need - group.voters * election.limit),
        "most": str(group.most),
        "need": str(group.need),
        "number": group.project,
        "project": election.id(group.project).decode(),
        "share": over_voters(group.voters * election.limit),
        "supporters": group.supporters,
        "voters": group.voters,
    }


class Objects:
    """The object of each command that has --json, by its name. The inputs are taken in the order of 'Commands'."""

    def __init__(self, mode, outcome, measure):
        self.mode, self.outcome, self.by_cost = mode, outcome, measure == "cost"
        self.explained = False

    def read(self, election):
        return an_object("election", "yes", election=of_election(take("election", read_election, election)))

    def groups(self, election):
        return of_groups(*self.audited(election), self.by_cost)

    def margins(self, election, certificate):
        election, funded = self.audited(election)
        return of_margins(election, funded, take("certificate", read_prices, certificate, election))

    def group_margins(self, election):
        return of_group_margins(*self.audited(election), self.by_cost)

    def prices(self, election, certificate):
        election, funded = self.audited(election)
        prices = take("certificate", read_prices, certificate, election)
        return of_prices(election, funded, prices, self.mode, self.explained)

    def violation(self, election, certificate):
        election, funded = self.audited(election)
        return of_violation(election, funded, take("certificate", read_violation, certificate, election))

    def refutation(self, election, certificate):
        election, funded = self.audited(election)
        refutation = take("certificate", read_refutation, certificate, election)
        return of_refutation(election, funded, refutation, "--stable" in self.mode)

    def both(self, election, prices, violation):
        election, funded = self.audited(election)
        prices = of_prices(election, funded, take("prices", read_prices, prices, election), self.mode)
        violation = of_violation(election, funded, take("violation", read_violation, violation, election))
        answer = yes_or_no("no" in (prices["answer"], violation["answer"]))
        return an_object("both", answer, prices=prices, violation=violation)

    def explain(self, election, certificate):
        """That of the command for the kind of the certificate; of prices with the group that comes nearest."""
        self.audited(election)
        self.explained = True
        command = kind_of(take("certificate", bytes, certificate))
        return getattr(self, command)(election, certificate)

    def audited(self, path):
        """The election, and the funded projects."""
        election = take("election", read_election, path)
        return election, take_outcome(election, self.outcome)


def of_prices(election, funded, prices, mode, explained=False):
    return PriceObject(conditions.Claim(election, funded, prices), mode, explained).whole()


def of_refusal(name, refusal):
    return an_object("refusal", "refused", input=name, name=NAMES[refusal.number], number=refusal.number, record=refusal.record)


def text_of(value):
    """An object in one line: without blanks, with its keys in order, and each character as it is that needs no escape."""
    return json.dumps(value, ensure_ascii=False, separators=(",", ":"), sort_keys=True).encode() + b"\n"


def entry(path, name, files, mode):
    """What `folder` prints of one election and its certificates."""
    def of(work, *paths):
        try:
            return work(*paths)
        except RefusedInput as refused:
            return of_refusal(*refused.args)

    objects, election = Objects(mode, None, "cost"), path + b".pb"
    read, found = of(objects.read, election), {"prices": None, "violation": None}
    for kind, work in (("prices", objects.prices), ("violation", objects.violation)):
        end = b".%s.csv" % kind.encode()
        if read["answer"] != "refused" and name + end in files:
            found[kind] = of(work, election, path + end)
    return {"election": read, "kind": "entry", "name": name.decode(), "version": 1, **found}


def total(entries):
    """What `folder` prints last."""
    certificates = [each[kind]["answer"] for each in entries for kind in ("prices", "violation") if each[kind]]
    refused = [each["election"] for each in entries if each["election"]["answer"] == "refused"]
    return {"elections": len(entries), "kind": "total", "no": certificates.count("no"),
            "refused": certificates.count("refused") + len(refused), "version": 1, "yes": certificates.count("yes")}  # fmt: skip


def folder(words):
    """The objects of `folder`, and the status."""
    _, (path,), mode, *_ = words_apart(words)
    try:
        names, files = entries_of(path)
    except Refused as refusal:
        return [of_refusal("folder", refusal)], STATUSES["refused"]
    entries = [entry(os.path.join(os.fsencode(path), name), name, files, mode) for name in names]
    last = total(entries)
    status = "refused" if last["refused"] else "no" if last["no"] else "yes"
    return [*entries, last], STATUSES[status]


def answers(words):
    """The objects and the status for the words of a command line, without the word --json."""
    if words[0] == "folder":
        return folder(words)
    value, status = answer(words)
    return [value], status


def answer(words):
    """The object and the status for the words of a command line, without the word --json."""
    command, paths, mode, outcome, others = words_apart(words)
    if "--groups" in mode:
        command = ON_GROUPS[command]
    try:
        value = getattr(Objects(mode, outcome, others.get("--satisfaction", "cost")), command)(*paths)
    except RefusedInput as refused:
        value = of_refusal(*refused.args)
    return value, STATUSES[value["answer"]]
