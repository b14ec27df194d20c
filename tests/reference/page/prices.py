"""What is found of a price certificate, and what the page says of it."""
from .. import conditions, explaining
from . import amounts
from .findings import comes_to
from .nodes import element
from .projects import funded, unfunded
from .states import Explained, condition_item

CONDITIONS = {
    "Feasible": conditions.feasible, "Exhaustive": conditions.exhaustive, "Cover": conditions.cover,
    "C1": conditions.c1, "C2": conditions.c2, "C3": conditions.c3, "C4": conditions.c4,
    "C5": conditions.c5, "S5": conditions.s5,
}  # fmt: skip


class SummedClaim(conditions.Claim):
    """Prices whose sums are kept, since a page asks for each of them often."""

    def __init__(self, election, funded, prices):
        super().__init__(election, funded, prices)
        by_voter = {voter: [0] for voter in election.voters}
        by_project = {project: 0 for project in election.projects}
        for voter, project in prices.payments:
            by_voter[voter].append(self.pays(voter, project))
            by_project[project] += self.pays(voter, project)
        self.largest_payments = {voter: max(each) for voter, each in by_voter.items()}
        self.paid_for = by_project
        self.left_for = {each: super(SummedClaim, self).left_of_supporters(each) for each in election.projects}
        self.offer_for = {each: super(SummedClaim, self).offer_of_supporters(each) for each in election.projects}

    def largest(self, voter):
        return self.largest_payments[voter]

    def paid(self, project):
        return self.paid_for[project]

    def left_of_supporters(self, project):
        return self.left_for[project]

    def offer_of_supporters(self, project):
        return self.offer_for[project]


class PriceFigures(Explained):
    """What is found of prices: the places at which each condition fails, whether asked or not."""

    words = ("certificate", "prices", "supporter", "left", "offer")

    def __init__(self, election, funded, prices, mode):
        self.claim, self.mode = SummedClaim(election, funded, prices), mode
        self.culprits = {name: culprits_of(self.claim) for name, culprits_of in CONDITIONS.items()}
        self.asked = [name for name, _ in conditions.conditions_of(mode)]
        self.failed = next((name for name in self.asked if self.culprits[name]), None)
        self.total = self.claim.cost_of(self.claim.funded())
        self.budgets = len(election.ballots) * self.claim.budget
        self.spent = sum(map(self.claim.paid, election.projects))

    def form(self):
        return "stable" if "--stable" in self.mode else "plain"

    def has(self, project):
        """What the supporters of a project have left, or in the stable form could offer."""
        stable = self.form() == "stable"
        return self.claim.offer_of_supporters(project) if stable else self.claim.left_of_supporters(project)

    def state(self, name):
        if name not in self.asked:
            return "not_asked"
        return "fails" if self.culprits[name] else "holds"

    def fails_as_stable_alone(self):
        """Whether the stable form was asked and fails, and the plain one holds."""
        plain = [name for name, _ in conditions.conditions_of(self.mode - {"--stable"})]
        return self.failed is not None and not any(self.culprits[name] for name in plain)

    def fails_by_outcome(self):
        """Whether what fails is of the outcome, so that no payments change it."""
        return self.failed in ("Feasible", "Exhaustive")

    def options(self):
        return [option for option in ("--stable", "--no-exhaustive", "--cover") if option in self.mode]

    # What is said of it.

    def answer(self):
        if self.failed:
            return "answer.prices.no"
        return "answer.prices.yes_stable" if self.form() == "stable" else "answer.prices.yes"

    def news(self):
        """What kind of news the answer is: a class, none for good news."""
        return "bad" if self.failed else ""

    def why(self, case):
        if self.failed:
            return comes_to(case, self, self.failed)
        return [case.say("why.prices.yes_stable" if self.form() == "stable" else "why.prices.yes")]

    def case_of_groups(self):
        """What a yes says of every group: "strict", "weak" or "little"; None where the answer is a no."""
        return None if self.failed else explaining.said_of_groups(self.claim, self.mode)

    def said_of_groups(self):
        """The meaning that says it, unless it is little."""
        return {"strict": "groups.below_reach", "weak": "groups.within_reach"}.get(self.case_of_groups())

    def of_groups(self, case):
        """That, with the supporters of an unfunded project who come nearest to their share."""
        if not self.said_of_groups():
            return []
        voted = self.claim.unfunded() if self.claim.election.ballots else []
        nearest = max(voted, key=self.claim.surplus, default=None)
        return element("p", case.say(self.said_of_groups()), self.nearest(case, nearest) if nearest else [])

    def nearest(self, case, project):
        count = len(self.claim.election.supporters(project))
        told = case.filled(
            "groups.nearest", count, project=case.project(project), count=amounts.grouped(count),
            share=case.money(self.claim.share(project)), cost=case.money(self.claim.cost(project)),
            funded=case.money(self.claim.funded_for(project)),
        )  # fmt: skip
        return [" ", *told]

    def says_little(self):
        """That a yes says little, where that is so: a meaning."""
        if self.case_of_groups() != "little":
            return None
        return "caution.little" if "--no-exhaustive" in self.mode else "caution.less"

    def caution(self, case):
        if not self.says_little():
            return []
        words = case.filled(self.says_little(), budgets=case.money(self.budgets), limit=case.money(case.limit))
        return element("p", words, class_="caution")

    def asked_for(self, case):
        """What was asked, with what the other form answers."""
        told = [
            f"asked.form.{self.form()}",
            "asked.exhaustive.no" if "--no-exhaustive" in self.mode else "asked.exhaustive.yes",
            "asked.cover.yes" if "--cover" in self.mode else "asked.cover.no",
        ]
        return [self.other_form(case), [element("li", case.say(each)) for each in told]]

    def other_form(self, case):
        if self.fails_as_stable_alone():
            said = [case.say("asked.other_form.plain_holds")]
        elif self.failed or self.form() == "stable":
            return []
        elif self.culprits["S5"]:
            count = len(self.culprits["S5"])
            said = case.filled("asked.other_form.not_stable", count, count=amounts.grouped(count))
        else:
            said = [case.say("asked.other_form.stable_too")]
        return element("li", said, class_="stable")

    def figures(self, case):
        listed = [
            condition_item(case, name, self.state(name), f"state.{self.state(name)}", comes_to(case, self, name))
            for name in CONDITIONS
        ]
        return [
            unfunded(case, self),
            funded(case, self),
            element("section", element("h2", case.say("state.conditions")), element("ol", listed)),
        ]

    def not_said(self):
        """What the answer doesn't say, as meanings."""
        if self.failed:
            return ["not_said.prices.no_by_outcome" if self.fails_by_outcome() else "not_said.prices.no_by_payments"]
        return ["not_said.prices.yes", "not_said.deserved", *(["not_said.groups"] if self.says_little() else [])]

    def may_be_said(self):
        """What may be said in public, as meanings."""
        if not self.failed:
            yes = "claims.prices.yes_stable" if self.form() == "stable" else "claims.prices.yes"
            if self.says_little():
                return [yes, f"claims.{self.says_little()}"]
            return [self.said_of_groups(), yes]
        if self.fails_by_outcome():
            return ["claims.prices.no_by_outcome"]
        return ["claims.prices.plain_alone" if self.fails_as_stable_alone() else "claims.prices.no_by_payments"]
