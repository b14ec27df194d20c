"""What is asked of each price certificate, and what its yes says: on its row, in the list that is saved, in the totals; and
prices that the page looks for as somebody asks."""
import csv
import shutil

import pytest

from downloaded import saved
from tables import EXAMPLES
from visiting import CHOOSE, IS_LISTED, sentence

pytestmark = pytest.mark.parametrize("address", ["disk"], indirect=True)
LANGUAGES = ("en", "pl", "de", "fr")
ROWS = """
return Object.fromEntries([...document.querySelectorAll('#audit-list > li')].map(item => [
  item.querySelector('bdi').textContent,
  ['.badge', '.of', '.asked', '.groups'].map(part => item.querySelector(part)?.textContent ?? null)]));
"""
SHOWN = "return !document.querySelector('#election-told').hidden"
PRESS = """
[...document.querySelectorAll(arguments[0] + ' button')].find(each => each.textContent.startsWith(arguments[1])).click();
"""
LOOKED = "return document.querySelector('#looked').textContent"
USUAL = "Asked: Plain form, Nothing left affordable. Not asked: Budgets beyond the limit."
NOT_EXHAUSTIVE = "Asked: Plain form. Not asked: Nothing left affordable, Budgets beyond the limit."
LITTLE = "This yes says little: the budgets of all voters together are less than the limit."
# Three voters and a limit of 12. The two who approve A pay 2 each, and B costs more than the limit has left.
TOWN = ("META\nkey;value\nbudget;12\nvote_type;approval\nPROJECTS\nproject_id;cost;name;selected\na;4;A;1\nb;9;B;0\n"
        "VOTES\nvoter_id;vote\n1;a\n2;a\n3;b\n")  # fmt: skip
# By its budget, and whether Exhaustive is asked: together they are more than 12, just that, or less.
CASES = [(5, False, "GroupsBelowReach"), (4, True, "GroupsBelowReach"), (4, False, "GroupsWithinReach"), (3, True, None)]


def prices(budget):
    return f"pb-prices,1\ndenominator,1\nvoter_budget,{budget}\nvoter,project,payment\n1,a,2\n2,a,2\n"


def row(opened, name):
    """The row of a file, which may be on its way to the list, once all is answered."""
    opened.browser.wait(IS_LISTED, name, name)
    opened.answers()
    return opened.browser.ask(ROWS)[name]


def saved_list(opened):
    """The list that is saved, by the certificates."""
    path = saved(opened.browser, lambda: opened.browser.click("#save-list"), "audits.csv")
    return {each["certificate"]: each for each in csv.DictReader(path.read_text(encoding="utf-8-sig").splitlines())}


def show(opened, *paths):
    """Gives files, waits until the election that is alone is shown, and unfolds it, which shows what to ask of prices."""
    opened.give(*paths)
    opened.browser.wait(SHOWN, "the election")
    opened.answers()
    opened.browser.ask("document.querySelector('#election-open').open = true")
    opened.browser.wait("return !document.querySelector('#options').hidden", "what to ask of prices")


def look(opened, button="Look for prices", place="#making"):
    opened.browser.ask(PRESS, place, button)
    opened.browser.wait(LOOKED, "what the search came to")
    opened.answers()


def test_a_search_asks_its_own_certificate_alone(opened):
    """B could be added to `room`. So nothing is found before that isn't asked, and of no other certificate that is asked
    less."""
    room = opened.new_room()
    for name in ("school.pb", "school.prices.csv"):
        shutil.copy(EXAMPLES / name, room / name)
    (room / "room.pb").write_text(TOWN.replace("b;9;B;0", "b;8;B;0"), encoding="utf-8")
    opened.open()
    opened.give(*sorted(room.iterdir()))
    assert row(opened, "school.prices.csv") == ["No", "Not shown to be fair by these prices", USUAL, None]
    opened.browser.ask("document.querySelector('#election-open').open = true")
    opened.browser.wait("return document.querySelector('#election-choice select')", "the choice of an election")
    opened.browser.ask(CHOOSE, "#election-choice select", "room.pb")
    opened.browser.wait(SHOWN, "the election")
    look(opened)
    told = opened.text("#looked")
    assert "B could be added" in told and "failed Exhaustive project b" in told
    assert "room.found.prices.csv" not in opened.text("#audit-list")
    look(opened, "Look for prices without asking for “Nothing left affordable”", "#looked")
    opened.browser.wait("return document.querySelector('.made')", "the prices")
    assert row(opened, "room.found.prices.csv")[:3] == ["Yes", "Fair by prices", NOT_EXHAUSTIVE]
    assert row(opened, "school.prices.csv") == ["No", "Not shown to be fair by these prices", USUAL, None]
    assert opened.browser.ask("return document.querySelector('#exhaustive').checked")
    totals = opened.text("#totals")
    assert "1, don't support it: 0 (asked: Plain form)." in totals
    assert "0, don't support it: 1 (asked: Plain form, Nothing left affordable)." in totals
    rows = saved_list(opened)
    assert {name: (each["answer"], each["of"], each["asked"]) for name, each in rows.items()} == {
        "room.found.prices.csv": ("Yes", "Fair by prices", "Plain form"),
        "school.prices.csv": ("No", "Not shown to be fair by these prices", "Plain form, Nothing left affordable")}


def test_little_is_told_in_lists(opened):
    opened.open()
    opened.give(EXAMPLES / "school.pb", EXAMPLES / "school.prices.csv", EXAMPLES / "school.refutation.csv")
    opened.answers(2)
    opened.browser.click("#exhaustive")
    assert row(opened, "school.refutation.csv") == ["Yes", "Refutation proved", None, None]
    opened.browser.wait("return document.querySelector('#audit-list .groups')", "what the yes says of groups")
    assert row(opened, "school.prices.csv") == ["Yes", "Fair by prices", NOT_EXHAUSTIVE, LITTLE]
    assert "Yes to prices that says little: 1." in opened.text("#totals")
    rows = saved_list(opened)
    assert rows["school.prices.csv"]["groups"] == LITTLE and rows["school.refutation.csv"]["groups"] == ""


@pytest.mark.parametrize("budget, exhaustive, said", CASES)
def test_what_a_yes_says_of_groups(opened, budget, exhaustive, said):
    """The sentence of the page about the certificate, in each language, and that another test can still show more."""
    room = opened.new_room()
    (room / "town.pb").write_text(TOWN, encoding="utf-8")
    (room / "town.prices.csv").write_text(prices(budget), encoding="utf-8")
    opened.open()
    if not exhaustive:
        opened.browser.ask("document.querySelector('#exhaustive').click()")
    opened.give(*room.iterdir())
    assert opened.answers(1) == [("town.prices.csv", "Yes", None)]
    for code in LANGUAGES:
        opened.speak(code)
        opened.answers(1)
        opened.browser.wait("return document.querySelector('#audit-list .groups')", "what the yes says of groups")
        told = opened.text("#audit-list .groups")
        if said:
            front, rest = sentence(code, said), told[len(sentence(code, said)) + 1:]
            assert told.startswith(front) and rest and sentence(code, "NotSaidDeserved").endswith(rest)
        else:
            others = [sentence(code, name) for name in ("GroupsBelowReach", "GroupsWithinReach", "NotSaidDeserved")]
            assert not any(each in told for each in others)
            assert code != "en" or told == LITTLE


def test_options_before_a_certificate(opened):
    """What is ticked before there is a certificate is what prices are looked for, and what they are asked."""
    opened.open()
    show(opened, EXAMPLES / "district.pb")
    assert "Asked: Plain form, Nothing left affordable." in opened.text("#look-asks")
    opened.browser.click("#cover")
    assert "Asked: Plain form, Nothing left affordable, Budgets beyond the limit." in opened.text("#look-asks")
    look(opened)
    opened.browser.wait("return document.querySelector('.made')", "the prices")
    assert row(opened, "district.found.prices.csv")[:3] == [
        "Yes", "Fair by prices", "Asked: Plain form, Nothing left affordable, Budgets beyond the limit."]


def test_options_after_a_search(opened):
    """Prices that were made for the plain form are asked in that form, and it is said that another one is chosen by now;
    looked for again they are made for that."""
    opened.open()
    show(opened, EXAMPLES / "district.pb")
    look(opened)
    opened.browser.wait("return document.querySelector('.made')", "the prices")
    assert row(opened, "district.found.prices.csv")[:3] == ["Yes", "Fair by prices", USUAL]
    assert "when something else was asked" not in opened.text("#looked")
    opened.browser.click("#stable")
    assert row(opened, "district.found.prices.csv")[:3] == ["Yes", "Fair by prices", USUAL]
    told = opened.text("#looked")
    assert "when something else was asked" in told and "Plain form, Nothing left affordable" in told
    opened.browser.click("#stable")
    assert "when something else was asked" not in opened.text("#looked")


def test_prices_in_the_stable_form(opened):
    """One voter pays 4 for A, and has nothing left: B costs 9, more than what could be offered."""
    room = opened.new_room()
    (room / "town.pb").write_text(TOWN, encoding="utf-8")
    opened.open()
    show(opened, room / "town.pb")
    opened.browser.click("#stable")
    look(opened)
    opened.browser.wait("return document.querySelector('.made')", "the prices")
    asked = "Asked: Stable form, Nothing left affordable. Not asked: Budgets beyond the limit."
    assert row(opened, "town.found.stable.prices.csv")[:3] == ["Yes", "Fair by prices", asked]
