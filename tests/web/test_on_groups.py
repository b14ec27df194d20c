"""An election alone: the answer on groups that fall short comes first, at once, with its figures, in each language. The
answers were worked out by hand."""
import csv
import io
import subprocess

import browsers
import pytest

from downloaded import saved
from screens import PHONE, narrow

pytestmark = pytest.mark.parametrize("address", ["disk"], indirect=True)
IS_SHOWN = "return !document.querySelector('#on-groups').hidden && document.querySelector('#work').hidden"
IS_NAMED = "return document.querySelector('#on-groups-about').textContent.includes(arguments[0])"
PARTS = """
return Object.fromEntries(['about', 'word', 'lead', 'means', 'not', 'count'].map(part =>
  [part, document.querySelector('#on-groups-' + part).textContent]));
"""
FIGURES = "return [...document.querySelectorAll('.sum tr')].map(row => [...row.children].map(cell => cell.textContent))"
WIDTHS = "return [...document.querySelectorAll('.sum rect')].map(each => each.getAttribute('width'))"
IN_FRAME = "return document.querySelector('#groups-frame').contentDocument?.querySelector(arguments[0])?.textContent || null"
LANGUAGE_IN_FRAME = "return document.querySelector('#groups-frame').contentDocument?.documentElement?.lang"
TOP = "return document.querySelector(arguments[0]).getBoundingClientRect().top"
ORDER = """
return document.querySelector('#on-groups').compareDocumentPosition(document.querySelector(arguments[0])) & 4;
"""
IS_FURTHER = """
return document.querySelector('#looking').hidden && document.querySelector('#work').hidden
  && document.querySelector('#looked').textContent.includes('That is all that this page looks for');
"""
SHOW = "document.querySelector(`#audit-list [aria-label='Show the answer on ${arguments[0]}']`).click()"


def town(path, limit, projects, ballots, facts="", head="project_id;cost;name;selected"):
    """An election file: projects as rows, and ballots of voters from 1."""
    votes = [f"{at};{ballot}" for at, ballot in enumerate(ballots, 1)]
    lines = ["META", "key;value", "vote_type;approval", f"budget;{limit}", *facts.split("\n"), "PROJECTS", head, *projects,
             "VOTES", "voter_id;vote", *votes]  # fmt: skip
    path.write_text("\n".join(filter(None, lines)) + "\n", encoding="utf-8")
    return path


def yard(room, name="yard.pb"):
    """Three of four voters approve the yard, for 2. One of them has got the mural, for 6. Their part is 9 of 12."""
    facts = "description;A yard\ncurrency;EUR"
    return town(room / name, 12, ["x;6;The mural;1", "y;2;The yard;0"], ["y", "y", "x,y", "x"], facts)


def show(opened, *paths, named=""):
    opened.open()
    opened.give(*paths)
    opened.browser.wait(IS_SHOWN, "the answer on groups")
    opened.browser.wait(IS_NAMED, f"what is known of {named}", named)


def test_a_group_that_falls_short(opened, tmp_path):
    show(opened, yard(tmp_path), named="A yard")
    told = opened.browser.ask(PARTS)
    assert told["about"] == "A yardVoters: 4. Limit: 12\u00a0EUR. Funded: 1 of 2 projects, for 6\u00a0EUR."
    assert told["word"] == "A group of voters falls short"
    assert told["lead"] == (
        "3 of the 3 voters who want “The yard”: their equal part of the limit is 9\u00a0EUR. The project costs 2\u00a0EUR; on no "
        "one’s ballot among them do the funded projects cost more than 6\u00a0EUR. 2 + 6 = 8 is no more than 9. This doesn’t say "
        "that the project could simply be added.")
    assert told["means"].startswith("The limit, handed out in equal parts, would have given this group 9\u00a0EUR.")
    assert "for whom no more than 6\u00a0EUR was funded" in told["means"]
    # By count they have to have twice the cost, since one of them got one project.
    assert told["count"] == (
        "By this measure a group falls short. 3 of the 3 voters who want “The yard”: their equal part of the limit is "
        "9\u00a0EUR. The project costs 2\u00a0EUR; on no one’s ballot among them are there more funded projects than 1. "
        "2 × (1 + 1) = 4 is no more than 9. This doesn’t say that the project could simply be added.")
    assert opened.browser.ask(FIGURES) == [["Their part of the limit", "", "9\u00a0EUR"],
                                           ["They would have needed", "", "8\u00a0EUR"]]
    # On one scale to 9: the part, what the project costs, what was funded for the one who got most, and both.
    assert opened.browser.ask(WIDTHS) == ["100.00%", "22.22%", "66.66%", "88.88%"]
    assert opened.browser.ask("return document.querySelector('#on-groups').className") == "short"


def test_no_group_falls_short(opened, tmp_path):
    """Two of four have 6 of the limit. For the yard on top of the mural they need 8; by count, twice the cost of the yard."""
    path = town(tmp_path / "both.pb", 12, ["x;6;The mural;1", "y;2;The yard;0"], ["x,y", "x,y", "x", "x"], "description;Both")
    show(opened, path, named="Both")
    told = opened.browser.ask(PARTS)
    assert told["word"] == "No group of voters falls short"
    assert told["lead"] == (
        "Take any voters who all voted for a project that wasn’t funded. Their equal part of the limit is less than that "
        "project’s cost plus the cost of the funded projects on at least one member’s own ballot.")
    assert told["means"].endswith("Closest come 2 of the 2 voters who want “The yard”. Their part is 6. They would have needed "
                                  "8: 2 + 6 = 8.")  # fmt: skip
    assert "It leaves room for one project" in told["not"]
    assert told["count"].startswith("By this measure a group falls short. 2 of the 2 voters who want “The yard”")
    assert opened.browser.ask(WIDTHS) == ["75.00%", "25.00%", "75.00%", "100.00%"]
    assert opened.browser.ask("return document.querySelector('#on-groups').className") == ""


def test_nothing_to_hand_out_and_nothing_to_pay(opened, tmp_path):
    """A limit of 0, and a project for 0 that one voter wants: the part is the need, and both bars are empty."""
    show(opened, town(tmp_path / "free.pb", 0, ["y;0;Y;0"], ["y"], "description;Free"), named="Free")
    assert opened.text("#on-groups-word") == "A group of voters falls short"
    assert "0 + 0 = 0 is no more than 0." in opened.text("#on-groups-lead")
    assert opened.browser.ask(FIGURES) == [["Their part of the limit", "", "0"], ["They would have needed", "", "0"]]
    assert opened.browser.ask(WIDTHS) == ["0.00%"] * 4
    assert "NaN" not in opened.text("main")


@pytest.mark.parametrize("limit, word, wanted", [
    (7, "No group of voters falls short", "Here the outcome keeps to it: it costs 6, and the limit is 7."),
    (5, "No group of voters falls short, but the outcome costs more than the limit",
     "Here the outcome costs more: 6, and the limit is 5."),
    (13, "No group of voters falls short", "Little was funded here: 6 of 13."),
], ids=["kept", "broken", "little"])  # fmt: skip
def test_what_a_yes_leaves_open(opened, tmp_path, limit, word, wanted):
    """The one voter who wants y has half of the limit at most, and needs 9."""
    path = town(tmp_path / "one.pb", limit, ["x;6;X;1", "y;9;Y;0"], ["x", "y"])
    show(opened, path, named="one.pb")
    told = opened.browser.ask(PARTS)
    assert told["word"] == word and wanted in told["not"]
    assert ("Little was funded" in told["not"]) == (limit == 13)


@pytest.mark.parametrize("projects, ballots", [
    (["x;6;X;1", "y;4;Y;1"], ["x", "y"]), (["x;6;X;1", "y;4;Y;0"], ["x", "x"]), (["x;6;X;0"], []),
], ids=["all", "all that is wanted", "no voters"])  # fmt: skip
def test_nobody_misses_anything(opened, tmp_path, projects, ballots):
    """Where all that anybody wants was funded, no group got less than it deserves, so that nothing is said to be left open."""
    show(opened, town(tmp_path / "all.pb", 12, projects, ballots), named="all.pb")
    told = opened.browser.ask(PARTS)
    assert told["means"] == "Every project that anybody voted for was funded, so no group can fall short."
    assert "It leaves room" not in told["not"] and "Here the outcome keeps to it" in told["not"]


def test_short_and_beyond_the_limit(opened, tmp_path):
    """The second voter has half of the limit of 5 for a project that costs 1; the other project costs 6."""
    show(opened, town(tmp_path / "over.pb", 5, ["x;6;X;1", "y;1;Y;0"], ["x", "y"]), named="over.pb")
    told = opened.browser.ask(PARTS)
    assert told["word"] == "A group of voters falls short"
    assert "Here the outcome costs more: 6, and the limit is 5." in told["not"]


def test_it_is_first(opened, tmp_path):
    """Ahead of all else on the page, and on a phone high up; files and the election are folded, and there are no options."""
    narrow(opened.browser)
    show(opened, yard(tmp_path), named="A yard")
    assert 0 <= opened.browser.ask(TOP, "#on-groups-word") < PHONE[1] / 2
    for other in ("#audits", "#drop", "#files", "#options", "#election"):
        assert opened.browser.ask(ORDER, other), other
    for folded in ("#files-open", "#election-open"):
        assert not opened.browser.ask(f"return document.querySelector('{folded}').open"), folded
    assert opened.browser.ask("return document.querySelector('#options').hidden")


def test_check_further(opened, tmp_path):
    """What is found is given to the auditor, and the answer on groups stays."""
    show(opened, yard(tmp_path), named="A yard")
    opened.browser.click("#check-further")
    opened.browser.wait(IS_FURTHER, "all that is looked for")
    assert opened.text("#looked-tag .tag") == "Not proved"
    assert opened.text("#on-groups-word") == "A group of voters falls short"
    # Two who approve the yard alone have got nothing, and 6 of the limit for its 2.
    wanted = {"yard.found.violation.csv": "Yes", "yard.found.cost.violation.csv": "Yes"}.items()
    browsers.until(lambda: wanted <= {name: word for name, word, _ in opened.answers()}.items(), "the violations")


def test_by_an_outcome_file(opened, tmp_path):
    """The outcome file of the election's name is taken, also where the election itself says nothing."""
    path = town(tmp_path / "open.pb", 12, ["x;6", "y;2"], ["y", "y", "x,y", "x"], head="project_id;cost")
    opened.open()
    opened.give(path)
    assert opened.answers(1) == [("open.pb", "Read", None)]
    assert opened.browser.ask("return document.querySelector('#on-groups').hidden")
    assert "which says which projects are funded" in opened.text("#audit-list")
    outcome = tmp_path / "open.outcome.csv"
    outcome.write_text("pb-outcome,1\nproject,x\nproject,y\n")
    opened.give(outcome)
    opened.browser.wait(IS_SHOWN, "the answer on groups")
    assert opened.answers(1) == [("open.pb", "Proved", None)]
    told = opened.browser.ask(PARTS)
    assert told["word"] == "No group of voters falls short"
    assert told["lead"] == "Every project that anybody voted for was funded, so no group can fall short."
    assert "Funded projects: open.outcome.csv." in told["about"]


def test_a_folder_has_columns(opened, tmp_path):
    """The election with a group that falls short comes first; each has its answer and its group in the list that is saved."""
    town(tmp_path / "a.pb", 7, ["x;6;X;1", "y;9;Y;0"], ["x", "y"])
    yard(tmp_path, name="b.pb")
    opened.open()
    opened.give(tmp_path / "a.pb", tmp_path / "b.pb")
    assert [(name, word) for name, word, _ in opened.answers(2)] == [("b.pb", "Proved"), ("a.pb", "Proved")]
    assert opened.text("#totals") == "Elections in which a group of voters falls short: 1, in which none does: 1."
    path = saved(opened.browser, lambda: opened.browser.click("#save-list"), "audits.csv")
    rows = {row["election"]: row for row in csv.DictReader(io.StringIO(path.read_text(encoding="utf-8-sig")))}
    assert rows["b.pb"]["by_cost"] == rows["b.pb"]["by_count"] == "A group of voters falls short"
    assert rows["b.pb"]["group_by_cost"].startswith("3 of 3 who want project y; their part covers 112\u00a0%")
    assert rows["a.pb"]["by_cost"] == "No group of voters falls short"
    # Half of 7 is 38 % of 9.
    assert rows["a.pb"]["group_by_cost"].startswith("Closest: 1 of 1 who want project y; their part covers 38\u00a0%")
    opened.browser.ask(SHOW, "a.pb")
    opened.browser.wait(IS_SHOWN, "the answer on groups")
    assert opened.text("#on-groups-word") == "No group of voters falls short"
    opened.browser.ask(SHOW, "b.pb")
    opened.browser.wait(IS_NAMED, "its title", "A yard")
    assert "“The yard”" in opened.text("#on-groups-lead")


@pytest.mark.parametrize("code, word, sum_", [
    ("de", "Eine Gruppe von Abstimmenden kommt zu kurz", "2 + 6 = 8 ist nicht mehr als 9."),
    ("fr", "Un groupe de votants est laissé pour compte", "2 + 6 = 8 n’est pas plus que 9."),
    ("pl", "Pewna grupa głosujących dostała za mało", "2 + 6 = 8 to nie więcej niż 9."),
])  # fmt: skip
def test_in_another_language(opened, tmp_path, code, word, sum_):
    show(opened, yard(tmp_path), named="A yard")
    opened.speak(code)
    opened.browser.wait(IS_SHOWN, "the answer on groups")
    told = opened.browser.ask(PARTS)
    assert told["word"] == word and sum_ in told["lead"]


# Keeps back that an order is done from when an answer came ahead of it.
KEEP_BACK = """
const { set } = Object.getOwnPropertyDescriptor(Worker.prototype, 'onmessage');
window.kept = [];
window.isEarly = false;
Object.defineProperty(Worker.prototype, 'onmessage', {set(listener) {
  set.call(this, event => {
    window.isEarly ||= event.data.tells === 'answer';
    if (window.isEarly && event.data.tells === 'done') window.kept.push(() => listener(event));
    else listener(event);
  });
}});
"""
GO_ON = "window.isEarly = false; window.kept.forEach(each => each())"
IS_EARLY = "return !document.querySelector('#on-groups').hidden && window.kept.length > 0"
COUNTED = """
return [!document.querySelector('#on-groups-count-tags').hidden, !document.querySelector('#compare-outcomes').disabled,
        document.querySelector('#on-groups-count').textContent.split('. ')[0]];
"""


@pytest.mark.parametrize("is_stopped", [False, True], ids=["done", "stopped"])
def test_the_answer_by_cost_comes_first(opened, tmp_path, is_stopped):
    """It is shown whole before there is one by count, of which nothing is said to be proved meanwhile, and stays when that is stopped."""
    opened.open()
    opened.browser.ask(KEEP_BACK)
    opened.give(yard(tmp_path))
    opened.browser.wait(IS_EARLY, "the answer by cost")
    first = opened.browser.ask(PARTS)
    assert first["word"] == "A group of voters falls short" and "2 + 6 = 8 is no more than 9." in first["lead"]
    assert opened.browser.ask(COUNTED) == [False, False, "Checking yard.pb"]
    assert [name for name, *_ in opened.browser.ask("return [[document.querySelector('#audit-list .badge').textContent]]")] == ["Proved"]
    if is_stopped:
        opened.browser.click("#stop")
        opened.browser.wait(IS_SHOWN, "the end")
        assert opened.browser.ask(COUNTED) == [False, False, "Stopped"]
        assert opened.browser.ask(PARTS)["lead"] == first["lead"]
        opened.browser.ask("window.isEarly = false; window.kept = []; document.querySelector('#audit-list button').click()")
        opened.browser.wait(IS_EARLY, "the answer again")
    opened.browser.ask(GO_ON)
    opened.browser.wait(IS_SHOWN, "the answer by count")
    assert opened.browser.ask(COUNTED) == [True, True, "By this measure a group falls short"]


def test_page_about_all_projects(opened, program, tmp_path):
    """The program's page by cost, once it is opened, in the language that is chosen; it goes with the answer."""
    show(opened, yard(tmp_path), named="A yard")
    assert opened.browser.ask(IN_FRAME, "body") is None
    opened.browser.click("#groups-open summary")
    browsers.until(lambda: "The yard" in (opened.browser.ask(IN_FRAME, "body") or ""), "the page")
    for code in ("de", "en"):
        opened.speak(code)
        browsers.until(lambda code=code: opened.browser.ask(LANGUAGE_IN_FRAME) == code, code)
        path = saved(opened.browser, lambda: opened.browser.click("#save-groups"), "yard.groups.html")
        words = [program, "page", "yard.pb", "--groups", "--language", code]
        assert path.read_bytes() == subprocess.run(words, cwd=tmp_path, stdout=subprocess.PIPE, check=False).stdout
    opened.give(town(tmp_path / "a.pb", 7, ["x;6;X;1", "y;9;Y;0"], ["x", "y"]))
    opened.answers(2)
    opened.browser.ask(SHOW, "a.pb")
    opened.browser.wait(IS_NAMED, "the other answer", "a.pb")
    assert not opened.browser.ask("return document.querySelector('#groups-open').open")


def test_hostile_names(opened, tmp_path):
    """Markup of a file is shown as it is, and hidden characters by their numbers."""
    bad = "<img src=x onerror=document.title=1>\u202e"
    path = town(tmp_path / "bad.pb", 12, ["x;6;X;1", f"y;2;{bad};0"], ["y", "y", "x,y", "x"], f"description;{bad}\ncurrency;<b>")
    show(opened, path, named="<img")
    shown = "<img src=x onerror=document.title=1>\\u{202e}"
    assert f"“{shown}”" in opened.text("#on-groups-lead") and shown in opened.text("#on-groups-about")
    assert opened.browser.ask("return document.querySelectorAll('#on-groups img, #on-groups b').length") == 0
