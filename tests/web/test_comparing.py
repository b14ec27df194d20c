"""What other rules would have funded, beside the outcome of an election: computed by a script and told so, with the auditor's answer
on each. What is expected was worked out by hand."""
import pytest

import looks
from downloaded import saved
from screens import colour, narrow, widen
from test_on_groups import show, town

pytestmark = pytest.mark.parametrize("address", ["disk"], indirect=True)
ROWS = """
return [...document.querySelectorAll(`${arguments[0]} tbody tr`)].map(row => [...row.children].map(cell => cell.textContent.trim()));
"""
HEADS = "return [...document.querySelectorAll(`${arguments[0]} thead th`)].map(cell => cell.textContent)"
IS_COMPARED = "return !document.querySelector('#compared').hidden && document.querySelector('#work').hidden"
WIDTHS = "return [...document.querySelectorAll('#compared-got rect')].map(each => each.getAttribute('width'))"
CHOOSE = """
const choice = document.querySelector('#completion');
choice.value = arguments[0];
choice.dispatchEvent(new Event('change'));
"""
SHORT, NONE = "A group of voters falls short", "No group of voters falls short"
ALL_FUNDED = f"{NONE} Every project that anybody voted for was funded, so no group can fall short."
RULES = ["This outcome", "Most votes first", "Equal Shares, by cost", "Equal Shares, by number of projects"]


def park(room, name="park.pb", title="The park"):
    """All four voters want the park, for 8 of the limit of 10; two of them also want the pond, for 2, which alone is funded."""
    return town(room / name, 10, [f"p;8;{title};0", "q;2;The pond;1"], ["p,q", "p,q", "p", "p"], "description;A park\ncurrency;EUR")


def compare(opened, path, completion=None, named="A park"):
    show(opened, path, named=named)
    opened.browser.click("#compare-outcomes")
    opened.browser.wait(IS_COMPARED, "the comparison")
    if completion:
        opened.browser.ask(CHOOSE, completion)
        opened.browser.wait(IS_COMPARED, "the other comparison")


def test_what_other_rules_fund(opened, tmp_path):
    """Each voter has 2.5. By cost the park is first, for 2 each, and the two who want the pond have 1 of its 2 left. By number the pond
    is first, for 1 each, and all that is left, 8, buys the park."""
    compare(opened, park(tmp_path), "none")
    ask = opened.browser.ask
    assert [row[0] for row in ask(ROWS, "#compared-answers")] == [*RULES[:3], f"{RULES[3]} the same as “{RULES[1]}”"]
    own, votes, by_cost, by_count = (row[1:] for row in ask(ROWS, "#compared-answers"))
    # Four have all of the limit, and need 8 beside the 2 that one of them got most; by number twice 8.
    assert own[0] == f"{SHORT} 4 of 4 who want “The park”; their part covers 100\u00a0% of what they would have needed."
    assert own[1].startswith(NONE) and own[2] == "2\u00a0EUR"
    assert votes == by_count == [ALL_FUNDED, ALL_FUNDED, "10\u00a0EUR"]
    # Two have 5, and need 2 beside 8; by number twice 2.
    assert by_cost == [f"{NONE} Closest: 2 of 2 who want “The pond”; their part covers 50\u00a0% of what they would have needed.",
                       f"{SHORT} 2 of 2 who want “The pond”; their part covers 125\u00a0% of what they would have needed.", "8\u00a0EUR"]
    assert ask(HEADS, "#compared-projects") == ["Project", "Cost", "Supporters", *RULES]
    assert ask(ROWS, "#compared-projects") == [
        ["The park", "8\u00a0EUR", "4", "not funded", "funded", "funded", "funded"],
        ["The pond", "2\u00a0EUR", "2", "funded", "funded", "not funded", "funded"]]
    assert opened.text("#compared-rest") == "The other projects are the same in each: 0 funded, 0 not."


def test_what_each_voter_got(opened, tmp_path):
    """By this outcome two got the pond and two nothing; by most votes two got both, and two the park."""
    compare(opened, park(tmp_path), "none")
    assert opened.browser.ask(HEADS, "#compared-got") == ["Amount", *RULES]
    assert opened.browser.ask(ROWS, "#compared-got") == [
        ["0 to 2", "2", "0", "0", "0"], ["2 to 4", "2", "0", "0", "0"], ["4 to 6", "0", "0", "0", "0"], ["6 to 8", "0", "0", "0", "0"],
        ["8 to 10", "0", "4", "4", "4"],
        ["At least half of the voters got this or more", "2\u00a0EUR", "10\u00a0EUR", "8\u00a0EUR", "10\u00a0EUR"],
        ["The least that a voter got", "0\u00a0EUR", "8\u00a0EUR", "8\u00a0EUR", "8\u00a0EUR"]]
    assert opened.browser.ask(WIDTHS)[:8] == ["50.00%", "0.00%", "0.00%", "0.00%", "50.00%", "0.00%", "0.00%", "0.00%"]
    assert opened.browser.ask(WIDTHS)[-3:] == ["100.00%"] * 3


def test_what_is_left_is_used_up(opened, tmp_path):
    """By budgets of 3.5 the two have 1.5 each after the park, and buy the pond: then all that anybody wants is funded."""
    compare(opened, park(tmp_path))
    rows = opened.browser.ask(ROWS, "#compared-answers")
    assert [row[0] for row in rows[2:]] == [f"{rule} the same as “{RULES[1]}”" for rule in RULES[2:]]
    assert [row[3] for row in rows] == ["2\u00a0EUR", *["10\u00a0EUR"] * 3]


def test_what_is_proved_is_told_apart(opened, tmp_path):
    compare(opened, park(tmp_path))
    tags = opened.browser.ask("return [...document.querySelectorAll('#compare .tag')].map(each => each.textContent)")
    assert tags == ["Not proved", "Proved", "Not proved", "Not proved"]
    assert "computed by a script" in opened.text("#compare .tags")


def test_an_outcome_beyond_the_limit(opened, tmp_path):
    """Beside outcomes that keep to the limit it is said of the one that doesn't."""
    compare(opened, town(tmp_path / "over.pb", 5, ["x;6;X;1", "y;9;Y;0"], ["x", "y"]), named="over.pb")
    own, other = opened.browser.ask(ROWS, "#compared-answers")[:2]
    assert all(told.startswith(f"{NONE}, but the outcome costs more than the limit") for told in own[1:3])
    assert "more than the limit" not in "".join(other)


def test_outcomes_can_be_saved(opened, tmp_path):
    """Under names by which they belong to the election. The file is audited like any other."""
    compare(opened, park(tmp_path), "none")
    names = [f"park.{rule}.outcome.csv" for rule in ("most-votes", "equal-shares-cost", "equal-shares-count")]
    words = opened.browser.ask("return [...document.querySelectorAll('#compared-files button')].map(each => each.textContent)")
    assert words == [f"Save {name}" for name in names]
    path = saved(opened.browser, lambda: opened.browser.ask("document.querySelectorAll('#compared-files button')[1].click()"), names[1])
    assert path.read_bytes() == b"pb-outcome,1\nproject,p\n"
    told = opened.says("groups", tmp_path / "park.pb", "--outcome", path, "--satisfaction", "count")
    assert told == "failed EJR+ by count voters 2 project q\n"


def test_another_election_ends_it(opened, tmp_path):
    compare(opened, park(tmp_path))
    opened.browser.ask("document.querySelector('#clear').click()")
    opened.browser.wait("return document.querySelector('#compare').hidden", "an end of the comparison")


def test_stopping(opened, tmp_path):
    """A computation that takes long is ended at once, and nothing is shown of it."""
    many = [f"p{at};{1_000_000 + 7919 * at};P{at};{1 if at == 0 else 0}" for at in range(40)]
    ballots = [",".join(f"p{(at * step + at // 7) % 40}" for step in range(1, 9)) for at in range(20_000)]
    ballots = [",".join(dict.fromkeys(ballot.split(","))) for ballot in ballots]
    path = town(tmp_path / "many.pb", 30_000_000, many, ballots, "description;Many")
    show(opened, path, named="Many")
    opened.browser.click("#compare-outcomes")
    opened.browser.wait("return !document.querySelector('#comparing').hidden", "a computation")
    opened.browser.ask("document.querySelector('#stop-comparing').click()")
    assert opened.text("#compare-problem") == "Stopped. Nothing is compared."
    assert opened.browser.ask("return document.querySelector('#compared').hidden")
    assert not opened.browser.ask("return document.querySelector('#compare-outcomes').disabled")


def test_hostile_names(opened, tmp_path):
    bad = "<img src=x onerror=document.title=1>\u202e"
    compare(opened, park(tmp_path, title=bad))
    assert opened.browser.ask(ROWS, "#compared-projects")[0][0] == "<img src=x onerror=document.title=1>\\u{202e}"
    assert opened.browser.ask("return document.querySelectorAll('#compare img').length") == 0


@pytest.mark.parametrize("code", ["en", "de", "fr", "pl"])
def test_looks(opened, tmp_path, code):
    """On a phone and on a computer, light and dark, nothing is too wide, faint, unnamed or out of reach."""
    compare(opened, park(tmp_path))
    opened.speak(code)
    opened.browser.wait(IS_COMPARED, "the comparison")
    for screen in (narrow, widen):
        screen(opened.browser)
        for scheme in ("dark", "light"):
            colour(opened.browser, scheme)
            assert looks.wrong(opened.browser) == {}, (screen.__name__, scheme)


def test_a_screen_reader_is_told_of_tables(opened, tmp_path):
    """Also on a phone, where rows are blocks."""
    compare(opened, park(tmp_path))
    for screen in (widen, narrow):
        screen(opened.browser)
        assert opened.browser.told("#compared-answers") == ("table", "The answer on each outcome")
        assert opened.browser.told("#compared-answers tbody tr")[0] == "row"
        assert opened.browser.told("#compared-answers tbody th")[0] == "rowheader"
        assert opened.browser.told("#compared-answers thead th")[0] == "columnheader"
    widen(opened.browser)
