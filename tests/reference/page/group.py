"""What the page says of a violation certificate."""
from fractions import Fraction

from .. import violations
from . import amounts
from .bars import bar, bar_against, part_in_words
from .nodes import element
from .projects import part_label
from .states import Tested
from .tables import BAR, MONEY, WORDS, table

MILLION = 10**6


class GroupFigures(Tested):
    """What is found of a group and its demand."""

    words = ("certificate", "share", "demand")

    def __init__(self, election, funded, violation):
        super().__init__(violations.TESTS, election, funded, violation)
        self.election, self.violation = election, violation
        self.funded = funded
        self.members, self.voters = len(violation.group), len(election.ballots)
        self.demand = sorted(violation.demand)
        self.cost = Fraction(sum(election.costs[project] for project in self.demand), MILLION)
        self.share = self.share_of_limit()

    def share_of_limit(self):
        """The group's share of the limit, by its number of voters."""
        return Fraction(self.election.limit * self.members, MILLION * max(self.voters, 1))

    def answer(self):
        return "answer.violation.no" if self.failed else "answer.violation.yes"

    def not_said(self):
        return ["not_said.violation.no" if self.failed else "not_said.violation.yes"]

    def may_be_said(self):
        """What may be said in public, as meanings: of a violation also by which measure it is one."""
        if self.failed:
            return ["claims.violation.no"]
        return ["claims.violation.yes", "claims.violation.by_" + ("cost" if self.violation.by_cost else "count")]

    # What projects are worth.

    def demanded(self):
        return violations.worth(self.election, self.violation.demand, self.violation.by_cost)

    def enough(self):
        """The first member that gets as much as is demanded."""
        return self.culprits["V4"][0][0] if self.culprits["V4"] else None

    def gets(self):
        """What the first member gets that gets enough, or else the most that a member gets."""
        members = self.violation.group if self.enough() is None else [self.enough()]
        return max((self.gets_of(voter) for voter in members), default=0)

    def gets_of(self, voter):
        return violations.worth(self.election, self.election.ballot(voter) & self.funded, self.violation.by_cost)

    def worth(self, case, worth):
        """What projects are worth: an amount, or a number of projects."""
        return case.money(Fraction(worth, MILLION)) if self.violation.by_cost else [amounts.grouped(worth)]

    # The parts of the page.

    def why(self, case):
        return self.comes_to(case, self.failed) if self.failed else [case.say("why.violation.yes")]

    def asked_for(self, case):
        return element("li", case.say("asked.measure." + ("cost" if self.violation.by_cost else "count")))

    def figures(self, case):
        return [
            element("section", element("h2", case.say("group.title")), self.tiles(case),
                    self.bar_of_share(case), self.bar_of_gets(case)),
            element("section", element("h2", case.say("demand.title")), self.demand_table(case)),
            self.tests(case),
        ]

    def tiles(self, case):
        count, all_ = amounts.grouped(self.members), amounts.grouped(self.voters)
        return [
            tile(case, "group.members", case.filled("glance.some_of_all", count=count, all=all_)),
            money_tile(case, "group.share", self.share),
            money_tile(case, "group.cost", self.cost),
        ]

    def bar_of_share(self, case):
        label = case.wording.label("comes_to.V3.holds", share=case.money(self.share), cost=case.money(self.cost))
        against = case.filled("group.against", amount=case.money(self.share), bound=case.money(self.cost))
        return [
            element("p", case.say("group.bar_of_share")),
            bar_against(label, self.share, self.cost, False),
            element("span", against, class_="verdict"),
        ]

    def bar_of_gets(self, case):
        if self.enough() is None:
            caption = [case.say("group.bar_of_gets.most")]
        else:
            caption = case.filled("group.bar_of_gets.enough", voter=case.voter(self.enough()))
        gets, demanded = self.worth(case, self.gets()), self.worth(case, self.demanded())
        return [
            element("p", caption),
            bar_against(self.gets_label(case), self.gets(), self.demanded(), self.enough() is not None),
            element("span", case.filled("group.against", amount=gets, bound=demanded), class_="verdict"),
        ]

    def gets_label(self, case):
        figures = {"gets": self.worth(case, self.gets()), "demanded": self.worth(case, self.demanded())}
        if self.enough() is None:
            return case.wording.label("comes_to.V4.holds", **figures)
        return case.wording.label("comes_to.V4.fails", voter=case.voter(self.enough()), **figures)

    def demand_table(self, case):
        if not self.demand:
            return element("p", case.say("demand.none"))
        columns = [("projects.project", WORDS), ("projects.cost", MONEY), ("demand.state", WORDS), ("demand.part", BAR)]
        return table(case, "demand.title", columns, [self.demand_row(case, project) for project in self.demand])

    def demand_row(self, case, project):
        state = case.say("demand.funded" if project in self.funded else "demand.unfunded")
        cost = case.cost(project)
        part = [
            bar(part_label(case, project, self.share), cost, self.share),
            element("span", part_in_words(case, cost, self.share), class_="verdict"),
        ]
        return project, None, case.amount(cost), state, part

    def comes_to(self, case, name):
        """What a test comes to; and at how many places it fails, where these are several."""
        culprits = self.culprits[name]
        meaning = f"comes_to.{name}." + ("fails" if culprits else "holds")
        return self.SENTENCES[name](self, case, meaning) + self.places(case, name)

    def said_of_v1(self, case, meaning):
        return case.filled(meaning, members=amounts.grouped(self.members), voters=amounts.grouped(self.voters))

    def said_of_v2(self, case, meaning):
        if not self.culprits["V2"]:
            return [case.say(meaning)]
        voter, project = self.culprits["V2"][0]
        return case.filled(meaning, voter=case.voter(voter), project=case.project(project))

    def said_of_v3(self, case, meaning):
        if not self.voters:
            return [case.say("comes_to.C2.nobody")]
        return case.filled(meaning, share=case.money(self.share), cost=case.money(self.cost))

    def said_of_v4(self, case, meaning):
        named = {} if self.enough() is None else {"voter": case.voter(self.enough())}
        worths = {"gets": self.worth(case, self.gets()), "demanded": self.worth(case, self.demanded())}
        return case.filled(meaning, **named, **worths)

    SENTENCES = {"V1": said_of_v1, "V2": said_of_v2, "V3": said_of_v3, "V4": said_of_v4}

    def places(self, case, name):
        count, kind = len(self.culprits[name]), {"V2": "approvals", "V4": "voters"}.get(name)
        if count < 2:
            return []
        return [" ", case.filled(f"places.{kind}", count, count=amounts.grouped(count))]


def tile(case, name, content):
    return [element("dt", case.say(name)), element("dd", content)]


def money_tile(case, name, value):
    unit = element("span", element("bdi", case.currency)) if case.currency else []
    return tile(case, name, [case.amount(value), unit])
