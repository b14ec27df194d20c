"""The whole page, from the title to the command that checks it."""
import os
import re

from .. import answers
from ..certificates import read_prices, read_refutation, read_violation
from ..election import read_election
from . import amounts
from .bars import bar
from .case import Case, InputFile
from .group import GroupFigures, money_tile, tile
from .labels import cut, visible
from .nodes import element, text_of
from .prices import PriceFigures
from .short_groups import ShortFigures
from .weights import WeightFigures

POLICY = "default-src 'none'; style-src 'unsafe-inline'; base-uri 'none'; form-action 'none'"
PLAIN_WORD = re.compile(r"[A-Za-z0-9._/-]*")
MOST_IN_A_LINE, MOST_IN_A_WORD = 120, 255
KINDS = {
    "prices": (read_prices, answers.verdict_on_prices, PriceFigures),
    "violation": (read_violation, answers.verdict_on_violation, GroupFigures),
    "refutation": (read_refutation, answers.verdict_on_refutation, WeightFigures),
}


class Audit:
    """The files of a command `page`, what is found of them, and the line and the status that the program gives. With a measure the
    page is about groups that fall short by it, and there is no certificate."""

    def __init__(self, election, certificate=None, mode=(), outcome=None, measure=None):
        self.paths = {"election": election, "outcome": outcome, "certificate": certificate}
        self.mode, self.said = set(mode), set()
        self.election = answers.take("election", read_election, election)
        self.funded = answers.take_outcome(self.election, outcome)
        self.found, (self.line, self.status) = self.of_groups(measure) if measure else self.of_certificate(certificate)

    def of_groups(self, measure):
        """What is found of groups, and the verdict on them."""
        found = self.election, self.funded, measure
        return ShortFigures(*found), answers.verdict_on_groups(*found)

    def of_certificate(self, certificate):
        """The same of a certificate."""
        kind = answers.kind_of(answers.take("certificate", bytes, certificate))
        reads, verdict_on, figures = KINDS[kind]
        found = [self.election, self.funded, answers.take("certificate", reads, certificate, self.election)]
        found += [] if kind == "violation" else [self.mode]
        return figures(*found), verdict_on(*found)

    def files(self):
        given = [(role, os.fsencode(path)) for role, path in self.paths.items() if path is not None]
        return [InputFile(role, os.path.basename(path), answers.load(path)) for role, path in given]

    def page(self, language):
        """The page in a language."""
        case = Case(language, self.election, self.funded, self.files())
        page = element("page", element(
            "html", head(case, self.found),
            element("body", top(case), element("main", body(case, self.found)), footer(case, self)),
            lang=language,
        ))  # fmt: skip
        self.said |= case.wording.said
        return page


def head(case, found):
    return element(
        "head",
        element("meta", charset="utf-8"),
        element("meta", http_equiv="Content-Security-Policy", content=POLICY),
        element("meta", name="viewport", content="width=device-width, initial-scale=1"),
        element("meta", name="generator", content="pbaudit"),
        element("title", cut(title(case)), " \u2013 ", case.say(found.answer())),
        element("style"),
    )


def title(case):
    """What the election says that it is, or else the name of its file."""
    return case.labels.fact("description") or visible(case.files[0].name)


def top(case):
    """What the vote was, where and when, as far as its file has that."""
    facts = [
        ("head.place", place(case)), ("head.dates", dates(case)), ("head.rule", fact(case, "rule")),
        ("head.voters", [amounts.grouped(len(case.election.ballots))]), ("head.turnout", fact(case, "turnout")),
        ("head.currency", fact(case, "currency")),
    ]  # fmt: skip
    return element(
        "header",
        element("p", case.say("head.kicker")),
        element("h1", case.words_of_others(title(case))),
        [tile(case, name, told) for name, told in facts if told],
    )


def fact(case, key):
    return [case.words_of_others(case.labels.fact(key))] if case.labels.fact(key) else []


def place(case):
    known = [fact(case, key) for key in ("district", "unit", "country") if case.labels.fact(key)]
    return [[", " if at else "", each] for at, each in enumerate(known)]


def dates(case):
    begin, end = case.labels.fact("date_begin"), case.labels.fact("date_end")
    if begin and end and begin != end:
        return case.filled("head.from_to", begin=case.words_of_others(begin), end=case.words_of_others(end))
    return fact(case, "date_end") or fact(case, "date_begin")


def body(case, found):
    return [
        element(
            "section",
            element("h2", case.say(found.answer())),
            element("p", found.why(case)),
            found.of_groups(case),
            found.caution(case),
            element("ul", found.asked_for(case)),
            class_=f"answer {found.news()}",
        ),
        glance(case, found),
        found.figures(case),
        behind_figures(case, found),
    ]


def glance(case, found):
    """How much of the limit is used, and by prices of the budgets."""
    is_of_prices = isinstance(found, PriceFigures)
    count, all_ = amounts.grouped(len(case.funded)), amounts.grouped(len(case.election.ids))
    return element(
        "section",
        element("h2", case.say("glance.title")),
        tile(case, "glance.funded", case.filled("glance.some_of_all", count=count, all=all_)),
        tile(case, "head.voters", amounts.grouped(len(case.election.ballots))),
        money_tile(case, "glance.limit", case.limit),
        money_tile(case, "glance.voter_budget", found.claim.budget) if is_of_prices else [],
        use(case, "limit", case.limit, case.cost_of(case.funded)),
        use(case, "budgets", found.budgets, found.spent) if is_of_prices else [],
    )


def use(case, name, whole, used):
    """How a whole is used, and what is left of it or goes beyond it."""
    said = f"glance.of_the_{name}"
    caption = case.filled(f"{said}.whole", **{name: case.money(whole)})
    used_words = case.filled(f"{said}.used", amount=case.money(used))
    is_over = used > whole
    rest = case.filled(f"{said}.over" if is_over else f"{said}.left", amount=case.money(abs(whole - used)))
    patch = element("span", class_="patch beyond" if is_over else "patch")
    return [
        element("p", caption),
        bar(text_of([caption, ": ", used_words]), used, whole),
        element("li", patch, used_words),
        element("li", [] if is_over else element("span", class_="patch rest"), rest),
    ]


def behind_figures(case, found):
    """What the answer doesn't say, what it lets one say, and the words of the page."""
    explained = [
        [element("dt", case.say(f"words.{word}.word")), element("dd", case.say(found.means(word)))]
        for word in found.words
    ]
    return [
        element("section", element("h2", case.say("not_said.title")),
                [element("li", case.say(each)) for each in (*found.not_said(), "not_said.files")]),
        element("section", element("h2", case.say("claims.title")),
                element("p", " ".join(map(case.say, found.may_be_said())), class_="claim"),
                element("p", case.say("claims.how"))),
        element("section", element("h2", case.say("words.title")), explained),
    ]  # fmt: skip


def footer(case, audit):
    """The files, and how to check the page."""
    return element(
        "footer",
        element("h2", case.say("files.title")),
        [file_facts(case, file) for file in case.files],
        element("p", by_program(case, audit.found), element("br"), case.say("files.answers"), " ",
                element("code", shown_line(audit.line))),
        element("p", case.say("files.by_browser")),
        element("p", case.say("files.trust")),
        element("p", case.filled("files.made_by", version=version())),
    )  # fmt: skip


def shown_line(line):
    """The line that the program prints, as names are shown."""
    return cut(visible(line.removesuffix(b"\n")), MOST_IN_A_LINE)


def file_facts(case, file):
    size = case.filled("files.bytes", len(file.data), count=amounts.grouped(len(file.data)))
    name = case.words_of_others(visible(file.name), "named")
    return tile(case, f"files.{file.role}", [name, ", ", size, element("br"), "SHA-256 ", element("code", file.sum)])


def by_program(case, found):
    """The command that gives the same answer, with whole names; or where a name isn't one for a command, what to give
    to it."""
    names = [file.name for file in case.files]
    if all(map(is_word, names)) and len(set(names)) == len(names):
        return [case.say("files.by_program"), element("br"), element("code", command(case, found))]
    options = (["--outcome"] if "outcome" in [file.role for file in case.files] else []) + found.options()
    told = [" ", case.filled("files.options", options=" ".join(options))] if options else []
    return [case.say("files.by_hand"), told]


def command(case, found):
    words = {file.role: element("bdi", shell_word(file.name.decode())) for file in case.files}
    told = ["pbaudit explain ", words["election"]]
    if "certificate" in words:
        told += [" ", words["certificate"]]
    if "outcome" in words:
        told += [" --outcome ", words["outcome"]]
    return told + [" " + option for option in found.options()]


def is_word(name):
    """Whether a name can stand in a command: a text of at most 255 characters, which all are seen, and which shells and
    browsers take as they are."""
    text = name.decode("utf-8", "replace")
    is_kept = all(c == " " or not (c.isspace() or c == "\\") for c in text)
    return text.encode() == name and visible(name) == text and 0 < len(text) <= MOST_IN_A_WORD and is_kept


def shell_word(name):
    """A name of a file as a word of a shell. What begins with a dash would be an option."""
    word = "./" + name if name.startswith("-") else name
    return word if PLAIN_WORD.fullmatch(word) else "'" + word.replace("'", "'\\''") + "'"


def version():
    """The version that is stated at the top of the list of changes."""
    changes = os.path.join(os.path.dirname(__file__), "..", "..", "..", "CHANGELOG.md")
    with open(changes, encoding="utf-8") as file:
        return re.search(r"^## \[([0-9.]+)\]", file.read(), re.MULTILINE)[1]
