"""What the page says of groups that fall short, for which it takes no certificate."""
from fractions import Fraction

from .. import group_figures
from . import amounts
from .bars import bar_against, part_in_words
from .nodes import element
from .states import Explained
from .tables import BAR, MONEY, WORDS, table

MILLION = 10**6
COLUMNS = [("projects.project", WORDS), ("projects.cost", MONEY), ("short.group", WORDS), ("short.part", MONEY),
           ("short.need", MONEY), ("short.against", BAR)]  # fmt: skip


def short_first(groups):
    """The groups that fall short, the largest first, and then the others as they are in the file."""
    short = [each for each in groups if each.is_short]
    return sorted(short, key=lambda each: -each.voters) + [each for each in groups if not each.is_short]


class ShortFigures(Explained):
    """What is found of the groups: for each unfunded project with a supporter those of the group that is told."""

    words = ("short", "part", "ejr_plus")

    def __init__(self, election, funded, measure):
        self.election, self.funded, self.measure = election, funded, measure
        self.groups = group_figures.of_all(election, funded, measure == "cost")
        self.short = [each for each in self.groups if each.is_short]

    def shown(self):
        """The group that the answer tells of: of the first project for which one falls short, or else the closest."""
        return self.short[0] if self.short else group_figures.closest(self.groups)

    # Amounts.

    def part(self, group):
        """The part of the limit that falls to a group."""
        return Fraction(self.election.limit * group.voters, MILLION * len(self.election.ballots))

    def need(self, group):
        return Fraction(group.need, MILLION)

    def most(self, case, group):
        """The most that a member got: an amount, or a number of projects."""
        return case.money(Fraction(group.most, MILLION)) if self.measure == "cost" else [amounts.grouped(group.most)]

    # What is said of it.

    def answer(self):
        return "answer.groups.some" if self.short else "answer.groups.none"

    def news(self):
        return "bad" if self.short else ""

    def why(self, case):
        if self.short:
            return self.told_of(case, self.shown(), f"why.groups.some_by_{self.measure}")
        return [case.say(f"why.groups.none_by_{self.measure}" if self.groups else "why.groups.nobody_wants_more")]

    def told_of(self, case, group, meaning):
        """A sentence about a group with its figures."""
        return case.filled(
            meaning, count=amounts.grouped(group.voters), all=amounts.grouped(group.supporters),
            project=case.project(group.project), share=case.money(self.part(group)), cost=case.money(case.cost(group.project)),
            most=self.most(case, group), need=case.money(self.need(group)),
        )  # fmt: skip

    def of_groups(self, case):
        """The group that comes closest, where none falls short."""
        if self.short or not self.groups:
            return []
        return element("p", self.told_of(case, self.shown(), "short.closest"))

    def caution(self, case):
        """That the funded projects cost more than the limit."""
        beyond = case.cost_of(self.funded) - case.limit
        return element("p", case.filled("caution.beyond_limit", amount=case.money(beyond)), class_="caution") if beyond > 0 else []

    def asked_for(self, case):
        return element("li", case.say(f"asked.groups.{self.measure}"))

    def not_said(self):
        """What the answer doesn't say, as meanings."""
        if self.short:
            return ["not_said.short.added", "not_said.violation.yes", "not_said.short.prices"]
        # Where all that anybody wants was funded, no group got less than it deserves.
        meant = ("limit", "prices") if self.shown() is None else ("room", "limit", "little", "prices")
        return [f"not_said.short.{each}" for each in meant]

    def may_be_said(self):
        return [f"claims.short.{'some' if self.short else 'none'}_by_{self.measure}"]

    def means(self, word):
        """By count another sum is enough."""
        return "words.short.means_by_count" if (word, self.measure) == ("short", "count") else super().means(word)

    def options(self):
        return ["--groups", *(["--satisfaction count"] if self.measure == "count" else [])]

    # The table.

    def figures(self, case):
        return element("section", element("h2", case.say("unfunded.title")), self.without_group(case), self.table(case))

    def without_group(self, case):
        """For how many unfunded projects nobody voted, or that there are none."""
        unfunded = len(self.election.ids) - len(self.funded)
        count = unfunded - len(self.groups)
        if not unfunded:
            return element("p", case.none_unfunded())
        return element("p", case.filled("short.unwanted", count, count=amounts.grouped(count))) if count else []

    def table(self, case):
        if not self.groups:
            return []
        rows = [self.row(case, group) for group in short_first(self.groups)]
        return [element("p", case.say("short.how")), table(case, "unfunded.title", COLUMNS, rows)]

    def row(self, case, group):
        size = case.filled("glance.some_of_all", count=amounts.grouped(group.voters), all=amounts.grouped(group.supporters))
        cost, part, need = case.cost(group.project), self.part(group), self.need(group)
        return group.project, None, case.amount(cost), size, case.amount(part), case.amount(need), self.against(case, group)

    def against(self, case, group):
        """The part of the limit against what it would take, and how much of that it covers, where the group doesn't fall short."""
        part, need = self.part(group), self.need(group)
        label = case.wording.label("short.label", project=case.project_name(group.project), share=case.money(part),
                                   need=case.money(need))
        if group.is_short:
            verdict = element("span", "\u2717 ", case.say("short.falls_short"), class_="note fails")
        else:
            verdict = element("span", part_in_words(case, part, need), class_="note")
        return [bar_against(label, part, need, group.is_short), verdict]
