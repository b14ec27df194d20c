"""Changes of the reference for pages, by each of which it writes a page that says something else."""
import contextlib
import unittest.mock
from fractions import Fraction

from common import HERE
from reference.page import amounts, bars, findings, labels, prices, projects, short_groups, states, tables, whole, wording
from reference.page import case as case_of_page
from reference.page.case import Case, InputFile
from reference.page.group import GroupFigures
from reference.page.nodes import element
from reference.page.prices import PriceFigures
from reference.page.short_groups import ShortFigures
from reference.page.weights import WeightFigures
from reference.page.wording import Wording


class Turn:
    """What is turned, and in which places: of each the object, the name, and what makes the new one of the old one."""

    def __init__(self, what, *places):
        self.what, self.places = what, places

    @contextlib.contextmanager
    def made(self):
        with contextlib.ExitStack() as stack:
            for holder, name, make in self.places:
                stack.enter_context(unittest.mock.patch.object(holder, name, make(getattr(holder, name))))
            yield


def exchanged(one, other):
    """Each of two sentences stands where the other has to stand."""
    turned = {one: other, other: one}

    def say_turned(old):
        return lambda self, meaning, count=None: old(self, turned.get(meaning, meaning), count)

    return Turn(f"{one} and {other} exchanged", (Wording, "say", say_turned))


def instead(new):
    """Something else in the place of what there was."""
    return lambda old: new


def answers(change):
    """The old answer, changed."""
    return lambda old: lambda *given, **named: change(old(*given, **named))


def asked(change):
    """The old answer to other words."""
    return lambda old: lambda *given: old(*change(*given))


EXCHANGED = [exchanged(*line.split()) for line in (HERE / "tables/exchanged.txt").read_text("utf-8").splitlines() if line[0] != "#"]
STATES = [
    Turn("each condition on prices holds", (PriceFigures, "state", instead(lambda self, name: "holds"))),
    Turn("each condition on prices is asked",
         (PriceFigures, "state", instead(lambda self, name: "fails" if self.culprits[name] else "holds"))),
    Turn("signs exchanged", (states, "SIGNS", lambda old: {**old, "holds": old["fails"], "fails": old["holds"]})),
    Turn("a badge that fails looks good", (states, "CLASSES", lambda old: {**old, "fails": "state"})),
    Turn("good and bad news of prices exchanged", (PriceFigures, "news", answers(lambda news: "" if news else "bad"))),
    Turn("no violation as good news", (GroupFigures, "news", answers(lambda news: "" if news == "neither" else news))),
    Turn("no caution", (PriceFigures, "caution", instead(lambda self, case: []))),
    Turn("a caution where the budgets come to the limit",
         (PriceFigures, "says_little", instead(lambda self: None if self.failed else "caution.less"))),
    Turn("the plain form isn't told apart", (PriceFigures, "fails_as_stable_alone", instead(lambda self: False))),
    Turn("stable prices aren't told apart from all", (WeightFigures, "told", instead(lambda self, meaning: meaning))),
    Turn("the outcome is never to blame", (PriceFigures, "fails_by_outcome", instead(lambda self: False))),
    Turn("the outcome is always to blame", (PriceFigures, "fails_by_outcome", instead(lambda self: True))),
]
FIGURES = [
    Turn("what a member gets and what is demanded exchanged",
         (GroupFigures, "gets", lambda old: GroupFigures.demanded),
         (GroupFigures, "demanded", lambda old: GroupFigures.gets)),
    Turn("amounts as numbers of projects",
         (GroupFigures, "worth", instead(lambda self, case, worth: [amounts.grouped(worth)]))),
    Turn("the whole limit for the share",
         (GroupFigures, "share_of_limit", instead(lambda self: Fraction(self.election.limit, 10**6)))),
    Turn("leftovers and offers exchanged",
         (findings, "sums_of", asked(lambda figures, name: (figures, "S5" if name == "C5" else "C5")))),
    Turn("leftovers where offers are asked",
         (PriceFigures, "has", instead(lambda self, project: self.claim.left_of_supporters(project)))),
    Turn("too much as if it were within the limit",
         (findings, "said_of_feasible", asked(lambda case, found, _: (case, found, "comes_to.Feasible.holds")))),
    Turn("the first place that fails isn't named",
         (findings, "first_project", instead(lambda figures, name, otherwise: otherwise))),
    Turn("another spender",
         (findings, "spends_most", instead(lambda found: min(found.claim.election.voters, key=found.claim.spends)))),
    Turn("voters counted from 0", (Case, "voter", asked(lambda self, voter: (self, voter - 1)))),
    Turn("no word on an election without projects",
         (Case, "none_funded", instead(lambda self: self.say("funded.none")))),
    Turn("nothing on other places", (findings, "places", instead(lambda case, figures, name: []))),
    Turn("costs without decimals", (Case, "cost", answers(Fraction.__floor__))),
]
GROUPS = [
    Turn("groups that fall short as good news", (ShortFigures, "news", answers(lambda news: "" if news else "bad"))),
    Turn("the group of the last project that is told", (ShortFigures, "shown", instead(lambda self: (self.short or self.groups)[-1]))),
    Turn("the first project for the closest", (ShortFigures, "shown", instead(lambda self: (self.short or self.groups)[0]))),
    Turn("the largest group is told",
         (ShortFigures, "shown", instead(lambda self: short_groups.short_first(self.short or self.groups)[0]))),
    Turn("no group that comes closest", (ShortFigures, "of_groups", instead(lambda self, case: []))),
    Turn("the part of all voters",
         (ShortFigures, "part", instead(lambda self, group: Fraction(self.election.limit, 10**6)))),
    Turn("the part of all supporters", (ShortFigures, "part", lambda old: lambda self, group: old(
        self, unittest.mock.Mock(voters=group.supporters)))),
    Turn("part and need exchanged",
         (ShortFigures, "part", lambda old: ShortFigures.need), (ShortFigures, "need", lambda old: ShortFigures.part)),
    Turn("the cost for the need",
         (ShortFigures, "need", instead(lambda self, group: Fraction(self.election.costs[group.project], 10**6)))),
    Turn("numbers of projects as amounts",
         (ShortFigures, "most", instead(lambda self, case, group: case.money(Fraction(group.most, 10**6))))),
    Turn("amounts as numbers of projects that were got",
         (ShortFigures, "most", instead(lambda self, case, group: [amounts.grouped(group.most)]))),
    Turn("nothing on what costs more than the limit", (ShortFigures, "caution", instead(lambda self, case: []))),
    Turn("a caution on what costs as much as the limit", (ShortFigures, "caution", instead(
        lambda self, case: element("p", case.filled("caution.beyond_limit", amount=case.money(0)), class_="caution")
        if case.cost_of(self.funded) == case.limit else []))),
    Turn("groups as in the file", (short_groups, "short_first", instead(lambda groups: groups))),
    Turn("the smallest group first", (short_groups, "short_first", instead(lambda groups: (
        sorted((each for each in groups if each.is_short), key=lambda each: each.voters)
        + [each for each in groups if not each.is_short])))),
    Turn("those that don't fall short first", (short_groups, "short_first", instead(lambda groups: (
        [each for each in groups if not each.is_short]
        + sorted((each for each in groups if each.is_short), key=lambda each: -each.voters))))),
    Turn("the others by the size of their groups too",
         (short_groups, "short_first", instead(lambda groups: sorted(groups, key=lambda each: (not each.is_short, -each.voters))))),
    Turn("nothing on what nobody wants", (ShortFigures, "without_group", instead(lambda self, case: []))),
    Turn("a part in words where a group falls short", (short_groups, "bar_against", asked(
        lambda label, part, need, _: (label, part, need, False)))),
    Turn("a part in words that is rounded up", (short_groups, "part_in_words", asked(
        lambda case, part, need: (case, part + need / 20_000, need)))),
]
SHOWN = [
    Turn("no minus", (amounts, "MINUS", instead(""))),
    Turn("no ellipsis", (amounts, "CUT", instead(""))),
    Turn("no thousands", (amounts, "THOUSANDS", instead(""))),
    Turn("points for commas", (amounts, "POINT", lambda old: {language: "." for language in old})),
    Turn("two decimals always", (amounts, "decimals_for", instead(lambda amounts: 2))),
    Turn("one decimal alone", (amounts, "decimals_for", instead(lambda all_: max(map(amounts.places, all_))))),
    Turn("nothing for a little", (amounts, "first_place", instead(lambda amount: 0))),
    Turn("the cost per supporter cut",
         (amounts, "rounded", instead(lambda *given: amounts.shown(*given).rstrip(amounts.CUT)))),
    Turn("percents rounded",
         (amounts, "length", asked(lambda part, whole, width: (part + Fraction(whole, 2 * width), whole, width)))),
    Turn("marks elsewhere", (amounts, "MARK", instead(8_000))),
    Turn("stripes where a bar ends at its mark",
         (projects, "bar_against", asked(lambda label, amount, bound, _: (label, amount, bound, amount >= bound)))),
    Turn("no stripes", (bars, "drawn", asked(lambda *given: (*given[:-1], False)))),
    Turn("bars without labels", (bars, "drawn", asked(lambda label, *rest: ("", *rest)))),
    Turn("amounts without currency", (Case, "money", instead(lambda self, value: [self.amount(value)]))),
    Turn("columns without currency", (Case, "unit", instead(lambda self: []))),
    Turn("two forms in Polish", (wording, "form_for", asked(lambda language, count: ("en", count)))),
    Turn("12 as 2 in Polish", (wording, "form_for", asked(lambda language, count: (
        language, count % 10 + 20 if language == "pl" and count > 9 else count)))),
]
NAMES = [
    Turn("hidden characters stay", (labels, "is_hidden", instead(lambda c: False))),
    Turn("every joiner is hidden", (labels, "is_spelling", instead(lambda *three: False))),
    Turn("every joiner stays", (labels, "is_spelling", instead(lambda before, c, after: c in "\u200c\u200d"))),
    Turn("names cut elsewhere", (case_of_page, "cut", lambda old: lambda text, most=79: old(text, most))),
    Turn("less under the pointer",
         (Case, "words_of_others", asked(lambda self, text, *class_: (self, text[:100], *class_)))),
    Turn("names of others without a frame",
         (Case, "framed", instead(lambda self, text: self.words_of_others(labels.cut(text))))),
    Turn("names in no language", (labels.Labels, "language", instead(lambda self: None))),
    Turn("ids for names", (Case, "project_name", instead(lambda self, project: labels.cut(self.id(project))))),
    Turn("another order of places", (whole, "place", answers(lambda told: told[::-1]))),
    Turn("the last day alone", (whole, "dates", instead(lambda case: whole.fact(case, "date_end")))),
    Turn("the file for the title", (whole, "title", instead(lambda case: labels.visible(case.files[0].name)))),
]
ROWS = [
    Turn("the furthest first", (projects, "closest_first", answers(lambda projects: projects[::-1]))),
    Turn("funded projects as in the file",
         (projects, "wrongly_paid_first", instead(lambda found: found.claim.funded()))),
    Turn("two orders exchanged",
         (projects, "places_in_orders", answers(lambda places: {each: two[::-1] for each, two in places.items()}))),
    Turn("the smallest first", (projects, "largest_first", answers(lambda listed: listed[::-1]))),
    Turn("all voters as supporters", (Case, "supporters", instead(lambda self, project: len(self.election.ballots)))),
    Turn("cells exchanged", (tables, "row", asked(lambda *given: (*given[:4], *given[:3:-1])))),
    Turn("cells without heads", (tables, "cell", instead(lambda case, column, told: element("td", told, role="cell")))),
    Turn("nothing paid in vain", (prices.SummedClaim, "paid", instead(lambda self, project: 0))),
    Turn("each project paid exactly", (projects, "payment", asked(lambda case, paid, cost: (case, cost, cost)))),
]
CHECKED = [
    Turn("the command without options", (PriceFigures, "options", instead(lambda self: []))),
    Turn("the command on groups without options", (ShortFigures, "options", instead(lambda self: []))),
    Turn("the command on groups without its measure", (ShortFigures, "options", instead(lambda self: ["--groups"]))),
    Turn("a certificate among the words on groups", (ShortFigures, "words", instead(("certificate", "short", "part", "ejr_plus")))),
    Turn("the command on weights without options", (WeightFigures, "options", instead(lambda self: []))),
    Turn("options in the command on a group", (GroupFigures, "options", instead(lambda self: ["--stable"]))),
    Turn("names of files without quotes", (whole, "shell_word", instead(lambda name: name))),
    Turn("another sum", (InputFile, "sum", instead(property(lambda self: "0" * 64)))),
    Turn("files exchanged", (whole.Audit, "files", answers(lambda files: files[:1] + files[:0:-1]))),
    Turn("another line", (whole, "footer", asked(lambda case, audit: (
        case, unittest.mock.Mock(line=b"supported\n", found=audit.found))))),
    Turn("another version", (whole, "version", instead(lambda: "0.0.0"))),
    Turn("commands for all names", (whole, "is_word", instead(lambda name: True))),
    Turn("no commands", (whole, "is_word", instead(lambda name: False))),
    Turn("a line with all that it has", (whole, "shown_line", instead(lambda line: line.decode().rstrip("\n")))),
    Turn("words in another order", (GroupFigures, "words", instead(("certificate", "demand", "share")))),
]
TURNS = EXCHANGED + STATES + FIGURES + GROUPS + SHOWN + NAMES + ROWS + CHECKED
