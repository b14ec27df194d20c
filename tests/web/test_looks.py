"""How the page looks, on a phone, a tablet and a computer, light and dark, in each language, whatever it shows."""
import itertools
import pathlib

import pytest

import looks
import screens
from tables import EXAMPLES
from visiting import IS_LISTED, districts

LANGUAGES = ("en", "pl", "de", "fr")
SCREENS = (screens.PHONE, (768, 900), (1100, 900))
DISTRICT, SCHOOL = EXAMPLES / "district.pb", EXAMPLES / "school.pb"
TOLD = "return !document.querySelector('#election-told').hidden"
TICK = "for (const each of [...document.querySelectorAll('#projects input')].slice(0, arguments[0])) each.click();"
# Where the first verdict begins, and where the first control does.
PLACES = """
const topOf = each => each ? each.getBoundingClientRect().top + scrollY : null;
const isAlone = document.querySelector('#on-groups')?.hidden === false;
return [isAlone ? '#on-groups .tag' : '#audit-list .badge', '#choose'].map(each => topOf(document.querySelector(each)));
"""
OPEN = "for (const each of document.querySelectorAll('details')) each.open = true;"


def alone(opened, _):
    opened.give(DISTRICT)
    opened.browser.wait(TOLD, "the election")


def group(opened, _):
    """Two projects are ticked, and groups were looked for."""
    alone(opened, _)
    opened.browser.ask(TICK, 2)
    opened.browser.wait("return document.querySelector('#group .claim')", "the figures of a group")
    opened.browser.ask("document.querySelector('#look-for-groups').click()")
    opened.browser.wait("return document.querySelector('#looked').textContent", "the groups")


def found(opened, _):
    alone(opened, _)
    opened.browser.ask("document.querySelector('#look-for-prices').click()")
    opened.browser.wait(IS_LISTED, "the prices", "district.found.prices.csv")


def refused(opened, room):
    (room / "district.prices.csv").write_text("pb-prices,1\ndenominator,1\nvoter_budget,x\n")
    opened.give(DISTRICT, room / "district.prices.csv")


def violation(opened, _):
    opened.give(DISTRICT, EXAMPLES / "district.violation.csv", EXAMPLES / "district.other.outcome.csv")
    opened.answers(1)
    opened.choose("#audit-list select", "district.other.outcome.csv")


def many(opened, room):
    districts(room)
    opened.give(*sorted(room.iterdir()))


def sheets(opened, room):
    """Two sheets that don't say what is funded, with long names."""
    (room / "projects.csv").write_text(f"project_id;name;cost\na;{'Park ' * 20};6\n{'b' * 100};{'L' * 100};1234567,50\n")
    (room / "ballots.csv").write_text("projects\na\n")
    opened.give(room / "projects.csv", room / "ballots.csv")
    opened.browser.wait("return !document.querySelector('#sheets-form').hidden", "the sheets")
    opened.browser.ask("document.querySelector('#sheets-ticked').click(); document.querySelector('#make-election').click()")


def faulty_sheets(opened, room):
    (room / "projects.csv").write_text("project_id;name;cost\na;Park;6 EUR\n")
    (room / "ballots.csv").write_text("projects\n" + "".join(f"{str(at) * 90}\n" for at in range(30)))
    opened.give(room / "projects.csv", room / "ballots.csv")
    opened.browser.wait("return !document.querySelector('#sheets-faulty').hidden", "the faults")


def made_of_sheets(opened, room):
    sheets(opened, room)
    opened.browser.ask("document.querySelector('#sheets-limit').value = '10'; document.querySelector('#make-election').click()")
    opened.browser.wait("return !document.querySelector('#sheets-made').hidden", "the election")


# What is shown: how somebody comes there, and the first verdict in English.
STATES = {
    "start": (lambda opened, room: None, None),
    "an election": (alone, "Proved"),
    "a group": (group, "Proved"),
    "found prices": (found, "Yes"),
    "yes": (lambda opened, room: opened.give(DISTRICT, EXAMPLES / "district.prices.csv"), "Yes"),
    "no": (lambda opened, room: opened.give(DISTRICT, EXAMPLES / "district.short.prices.csv"), "No"),
    "refused": (refused, "Refused"),
    "a violation": (violation, "Yes"),
    "a refutation": (lambda opened, room: opened.give(SCHOOL, EXAMPLES / "school.refutation.csv"), "Yes"),
    "many": (many, "No"),
    "sheets": (sheets, None),
    "faulty sheets": (faulty_sheets, None),
    "made of sheets": (made_of_sheets, "Proved"),
}  # fmt: skip


def look(opened, screen, what):
    """Nothing is wrong on the screen, and on a phone the first verdict stands above the controls, and high up."""
    opened.browser.settle()
    assert looks.wrong(opened.browser) == {}, what
    first, control = opened.browser.ask(PLACES)
    if first is not None and screen == screens.PHONE:
        assert first < control and first < 2 / 3 * screen[1], what


@pytest.mark.parametrize("state", STATES)
def test_looks(opened, option, tmp_path, state):
    """Nothing is too wide, faint or cut, all can be reached and has a name, and on a phone the verdict stands first."""
    come, verdict = STATES[state]
    come(opened, tmp_path)
    if verdict:
        assert opened.answers()[0][1] == verdict
    for screen, language in itertools.product(SCREENS, LANGUAGES):
        screens.show_on(opened.browser, *screen)
        opened.speak(language)
        if verdict:
            opened.answers()
        for scheme in ("light", "dark"):
            screens.colour(opened.browser, scheme)
            look(opened, screen, f"{language} {scheme} {screen}")
            if option("pictures"):
                name = f"{opened.browser.name}-{state.replace(' ', '-')}-{language}-{screen[0]}-{scheme}.png"
                opened.browser.picture(pathlib.Path(option("pictures")) / name)
    opened.browser.ask(OPEN)
    for screen in SCREENS:
        screens.show_on(opened.browser, *screen)
        assert looks.wrong(opened.browser) == {}, f"all is open on {screen}"
    screens.colour(opened.browser, "light")
