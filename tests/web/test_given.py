"""The files that are given to the page: what each is, which belong together, and what the page shows of them."""
import re
import shutil

import pytest

import browsers
import by_node
from tables import EXAMPLES

pytestmark = pytest.mark.parametrize("address", ["disk", "server"], indirect=True)
ELECTION_CHOICE = "#audit-list [aria-label=Election]"
OUTCOME_CHOICE = "#audit-list [aria-label='Funded projects']"
# Each file of the list with what it is said to be, by a word or by the choice.
KINDS = """
const chosen = item => `choose: ${item.querySelector('select').selectedOptions[0].textContent}`;
return [...document.querySelectorAll('#file-list > li')].map(item =>
  [item.querySelector('bdi').textContent, item.querySelector('.kind')?.textContent ?? chosen(item)]);
"""
LISTED = "return document.querySelectorAll('#file-list > li').length === arguments[0]"
ROW = "return document.querySelector('#audit-list > li:nth-child(' + arguments[0] + ') .grows').innerText"
PRICES = (EXAMPLES / "sample.prices.csv").read_text(encoding="utf-8")
ELECTION = (EXAMPLES / "sample.pb").read_text(encoding="utf-8")
# The ways in which a file of each kind may begin (docs/FORMATS.md, Records), under a name that says nothing.
BEGINNINGS = {
    "election": [ELECTION, ELECTION.replace("META", "meta"), ELECTION.replace("META", '"Meta" ;;'),
                 "\n" * 5000 + ELECTION, "\n" * 20_000 + ELECTION, ";;\n" * 3000 + ELECTION, "\ufeff\ufeff" + ELECTION, "META\n"],
    "price certificate": [PRICES, PRICES.replace("pb-prices,1", '"pb-prices", 1 ,,'), "\r\n" * 5000 + PRICES, "\r\n" * 10_000 + PRICES,
                          "\t\n , \n" + PRICES, "pb-prices,1\rdenominator"],
    "violation certificate": ["pb-violation,1\n", '"pb-violation","1"\nproject,a\n', "\ufeff\n\npb-violation,2\n"],
    "outcome": ["pb-outcome,1\n", "\n\n\"pb-outcome\",1\nproject,a\n"],
    "choose: What is it?": ["METADATA\n" + ELECTION, "pb-prices,15\n", "pb-pricesless\n", "", "\n\n\n",
                            "%PDF-1.4\nMETA\n"],
}  # fmt: skip


def test_kinds(opened):
    """What a file is said to be is what the auditor takes it for, however it begins and whatever it is called."""
    room = opened.new_room()
    wanted = {}
    for kind, beginnings in BEGINNINGS.items():
        for number, text in enumerate(beginnings):
            name = f"{kind.split(':')[0].replace(' ', '-')}-{number}.txt"
            (room / name).write_text(text, encoding="utf-8", newline="")
            wanted[name] = kind
    opened.open()
    for count, name in enumerate(wanted, 1):
        opened.give(room / name)
        opened.browser.wait(LISTED, f"{name} in the list", count)
    assert dict(map(tuple, opened.browser.ask(KINDS))) == wanted


def test_kind_by_name(opened):
    """A name that says otherwise than the file: the totals, the word, its colour and the options are the file's."""
    room = opened.new_room()
    for name, old in {"a.pb": "district.pb", "a.prices.csv": "district.violation.csv",
                      "a.outcome.csv": "district.other.outcome.csv", "b.pb": "sample.pb"}.items():
        shutil.copy(EXAMPLES / old, room / name)
    (room / "a.prices.csv").write_bytes(b"\n" * 5000 + (room / "a.prices.csv").read_bytes())
    opened.open()
    opened.give(*sorted(room.iterdir()))
    assert ("a.prices.csv", "Yes", "violation") in opened.answers(2)
    assert opened.text("#totals") == (
        "Elections in which a group of voters falls short: 0, in which none does: 1. Violation proved: 1, not proved: 0.")
    colour = "return document.querySelector('#audit-list .badge').className"
    assert opened.browser.ask(colour) == "badge bad"
    opened.browser.click("[aria-label='Show the answer on a.prices.csv']")
    opened.browser.wait("return !document.querySelector('#answer').hidden", "its page")
    for part in ("margins", "tidy"):
        assert opened.browser.ask(f"return document.querySelector('#{part}').hidden")


def test_colours(opened):
    """The colours of each answer: a violation that isn't shown is neither good news nor bad."""
    opened.open()
    answers = (("prices", "Yes", "good"), ("short.prices", "No", "bad"), ("violation", "No", "plain"))
    for certificate, word, wanted in answers:
        opened.give(EXAMPLES / "district.pb", EXAMPLES / f"district.{certificate}.csv")
        assert [each[:2] for each in opened.answers(1)] == [(f"district.{certificate}.csv", word)]
        badge = opened.browser.ask("return document.querySelector('#audit-list .badge').className")
        assert badge == f"badge {wanted}"
        opened.browser.ask("document.querySelector('#clear').click()")


def test_other_names(opened):
    """A certificate whose name doesn't begin with the election's is asked about, and its row names what it is checked
    with."""
    room = opened.new_room()
    shutil.copy(EXAMPLES / "district.prices.csv", room / "claim.prices.csv")
    shutil.copy(EXAMPLES / "district.stable.outcome.csv", room / "winners.csv")
    opened.open()
    opened.give(EXAMPLES / "district.pb", room / "claim.prices.csv")
    assert ("claim.prices.csv", "\u2013", None) in opened.answers(2)
    assert "Which election is it about?" in opened.text("#audit-list")
    opened.choose(ELECTION_CHOICE, "district.pb")
    assert opened.answers(1) == [("claim.prices.csv", "Yes", None)]
    row, wanted = opened.browser.ask(ROW, 1), "Election: district.pb. Funded projects: as the election says."
    assert wanted in row
    opened.give(room / "winners.csv")
    opened.browser.wait(LISTED, "the outcome in the list", 3)
    assert opened.answers(1) == [("claim.prices.csv", "\u2013", None)]
    opened.choose(OUTCOME_CHOICE, "winners.csv")
    words = ["prices", "district.pb", "district.prices.csv", "--outcome", "district.stable.outcome.csv"]
    word = "Yes" if opened.says(*words).startswith("supported") else "No"
    assert opened.answers(1) == [("claim.prices.csv", word, None)]
    row = opened.browser.ask(ROW, 1)
    assert "Election: district.pb. Funded projects: winners.csv." in row


def test_one_name(opened):
    """Of files of one name the last is used, and that is told."""
    one, two = opened.new_room(), opened.new_room()
    (one / "a.pb").write_text(ELECTION.replace("budget;10", "budget;1"), encoding="utf-8")
    (two / "a.pb").write_text(ELECTION, encoding="utf-8")
    (two / "a.prices.csv").write_text(PRICES, encoding="utf-8")
    wanted = "More than one file of this name was given, and the last one is used: a.pb"
    for files, word in (([one / "a.pb", two / "a.pb", two / "a.prices.csv"], "Yes"),
                        ([two / "a.pb", one / "a.pb", two / "a.prices.csv"], "No")):  # fmt: skip
        opened.open()
        opened.give(*files)
        assert opened.answers(1) == [("a.prices.csv", word, None)]
        assert [opened.text("#files-head"), opened.text("#notes")] == ["Files (2)", wanted]
        assert wanted in opened.text("#spoken")
    opened.give(two / "a.pb")
    opened.browser.wait("return document.querySelector('.badge')?.textContent === 'Yes'", "the other election")
    assert [opened.text("#files-head"), opened.text("#notes")] == ["Files (2)", wanted]
    if isinstance(opened.browser, browsers.Chromium):
        opened.browser.ask("document.querySelector('#clear').click()")
        opened.give(EXAMPLES / "sample.pb", two / "a.pb")
        opened.answers(2)
        opened.browser.ask("document.querySelector('#replace-input').click = () => {}")
        opened.browser.ask("document.querySelector('#files-open').open = true")
        opened.browser.click("[aria-label='Replace sample.pb']")
        opened.give(one / "a.pb", to="#replace-input")
        is_one = "return document.querySelector('#files-head').textContent === 'Files (1)'"
        opened.browser.wait(is_one, "one file of the name")


def test_notes(opened):
    """What the program remarks on an election is told, in the page's language and aloud, with a certificate and
    without."""
    room = opened.new_room()
    text = ELECTION.replace("num_votes;3", "num_votes;9990").replace("num_projects;3", "num_projects;4")
    (room / "a.pb").write_text(text.replace("c;9;Pool;0", "c;9;Pool;2"), encoding="utf-8")
    (room / "a.prices.csv").write_text(PRICES, encoding="utf-8")
    english = ["Note: the election gives 4 as its number of projects, and has 3.",
               "Note: the election gives 9\u202f990 as its number of votes, and has 3.",
               "Note: projects in which “selected” is neither 0 nor 1: 1. They count as not funded."]
    assert opened.says("read", "a.pb", folder=room).count("note: ") == 3
    others = {"de": ["9\u202f990 als Zahl der Stimmen", "4 als Zahl der Projekte", "weder 0 noch 1 ist: 1"],
              "pl": ["liczbę głosów 9\u202f990", "liczbę projektów 4", "ani 0, ani 1: 1"],
              "fr": ["9\u202f990 comme nombre de votes", "4 comme nombre de projets", "ni 0 ni 1\u00a0: 1"]}  # fmt: skip
    opened.open()
    for files in (["a.pb"], ["a.prices.csv"]):
        opened.give(*[room / name for name in files])
        is_there = f"return document.querySelector('#audit-list bdi')?.textContent === '{files[0]}'"
        opened.browser.wait(is_there, files[0])
        opened.answers(1)
        opened.browser.wait("return document.querySelectorAll('#audit-list .note').length === 3", f"notes on {files[0]}")
        told = opened.browser.ask("return [...document.querySelectorAll('#audit-list .note')].map(e => e.textContent)")
        assert told == english
        spoken = opened.text("#spoken")
        assert all(each in spoken for each in english)
    for code, wanted in others.items():
        opened.speak(code)
        opened.answers(1)
        opened.browser.wait("return document.querySelectorAll('#audit-list .note').length === 3", f"notes in {code}")
        told = opened.text("#audit-list")
        assert all(each in told for each in wanted)
    opened.speak("en")
    opened.give(EXAMPLES / "district.pb", EXAMPLES / "district.prices.csv")
    opened.answers(2)
    assert english[0] in opened.browser.ask(ROW, 1)


def test_unused_columns(opened):
    """Columns of ballots that would weigh votes, and aren't used, are told in each language."""
    path = opened.new_room() / "a.pb"
    path.write_text(ELECTION.replace("voter_id;vote\n", "voter_id;vote;weight;points;sign\n"), encoding="utf-8")
    wanted = {"en": "Note: the column “{}” of the ballots isn't used.", "de": "Die Spalte „{}“ der Stimmzettel wird nicht benutzt.",
              "pl": "Kolumna „{}” w głosach nie jest używana.", "fr": "la colonne «\u00a0{}\u00a0» des bulletins n’est pas utilisée."}  # fmt: skip
    opened.open()
    opened.give(path)
    for code, note in wanted.items():
        opened.speak(code)
        opened.answers(1)
        told = opened.browser.ask("return [...document.querySelectorAll('#audit-list .note')].map(e => e.textContent)")
        assert len(told) == 3
        assert all(note.format(name).lower() in each.lower() for name, each in zip(("weight", "points", "sign"), told))


def test_numbers(opened):
    """Numbers of voters are grouped as on the page about a certificate."""
    room = opened.new_room()
    head, _, _ = ELECTION.partition("voter_id;vote\n")
    (room / "many.pb").write_text(f"{head}voter_id;vote\n" + "1;a\n" * 12345, encoding="utf-8")
    opened.open()
    opened.give(room / "many.pb")
    for code, wanted in {"en": "Voters: 12\u202f345.", "de": "Abstimmende: 12\u202f345.",
                         "pl": "Głosujący: 12\u202f345.", "fr": "Votants\u00a0: 12\u202f345."}.items():  # fmt: skip
        opened.speak(code)
        opened.answers(1)
        assert wanted in opened.text("#audit-list")


LONG, HIDDEN = "x" * 100_000, "a\u202edetroppus"
WIDEST = """
return Math.max(...[...document.querySelectorAll('body *:not(script)')]
  .map(each => each.childElementCount ? 0 : each.textContent.length));
"""
BARE_HEAD = "META\nkey;value\nbudget;5\nvote_type;approval\nPROJECTS\nproject_id;cost;selected\n"


def test_long_and_hidden(opened):
    """An id of any length or of hidden characters is cut and seen, on a row and in a refusal."""
    room = opened.new_room()
    for name, project in (("long", LONG), ("hidden", HIDDEN)):
        text = f"{BARE_HEAD}{project};5;1\nVOTES\nvoter_id;vote\n"
        (room / f"{name}.pb").write_text(text, encoding="utf-8")
        (room / f"{name}.prices.csv").write_text("pb-prices,1\ndenominator,1\nvoter_budget,1\nvoter,project,payment\n")
        (room / f"{name}.violation.csv").write_text(f"pb-violation,1\nproject,{project}{project}\n", encoding="utf-8")
    opened.open()
    opened.give(*sorted(room.iterdir()))
    rows = {name: (word, line) for name, word, line in opened.answers(4)}
    wanted = ("No", "failed C3 project a\\u{202e}detroppus")
    assert rows["hidden.prices.csv"] == wanted
    assert rows["long.prices.csv"] == ("No", f"failed C3 project {LONG}"[:300] + "…")
    for name in ("long", "hidden"):
        opened.browser.click(f"[aria-label='Show the answer on {name}.violation.csv']")
        opened.browser.wait("return !document.querySelector('#refusal').hidden", f"the refusal of {name}")
        opened.answers(4)
        told = opened.text("#refusal")
        assert "\u202e" not in told and len(told) < 2500
        stands = opened.text("#refusal pre")
        wanted = {"long": f"project,{LONG}"[:300] + "…", "hidden": "project,a\\u{202e}detroppusa\\u{202e}detroppus"}
        assert stands == wanted[name]
    assert opened.browser.ask(WIDEST) < 2000


BIDI = {"a\u202egpj.pb": "a\\u{202e}gpj.pb", "b\u200b.pb": "b\\u{200b}.pb",
        "c\u3164\u2800\ufe0f.pb": "c\\u{3164}\\u{2800}\\u{fe0f}.pb",
        "d\U000e0041\u00ad.pb": "d\\u{e0041}\\u{ad}.pb",
        "e\u00a0\u3000\u200d\ue000.pb": "e\\u{a0}\\u{3000}\\u{200d}\\u{e000}.pb",
        # Joiners that belong to how a word or an emoji is written.
        "\u0645\u06cc\u200c\u062e.pb": "\u0645\u06cc\u200c\u062e.pb",
        "\u0627\u200c\u062e.pb": "\u0627\\u{200c}\u062e.pb",
        "\u0915\u094d\u200d\u0937.pb": "\u0915\u094d\u200d\u0937.pb",
        "\U0001f468\u200d\U0001f469.pb": "\U0001f468\u200d\U0001f469.pb"}  # fmt: skip
LOOSE = """
return [...document.querySelectorAll('bdi, code')]
  .filter(each => getComputedStyle(each).unicodeBidi !== 'isolate').length;
"""
HEBREW = "\u05d0\u05d1 1"


def test_names_shown(opened):
    """Names of files that hide or turn what they say are shown as the answer's page shows them, and letters from right
    to left turn no sentence round them."""
    room = opened.new_room()
    for name in BIDI:
        (room / name).write_text(ELECTION, encoding="utf-8")
    opened.open()
    opened.give(*[room / name for name in BIDI])
    found = sorted(name for name, _, _ in opened.answers(len(BIDI)))
    assert found == sorted(BIDI.values())
    labels = opened.browser.ask("return [...document.querySelectorAll('[aria-label]')].map(e => e.ariaLabel).join()")
    assert not set("".join(BIDI)) & set(labels) & set("\u202e\u200b\u3164\u2800")
    opened.open()
    (room / "a\u202egpj.prices.csv").write_text(PRICES, encoding="utf-8")
    opened.give(room / "a\u202egpj.pb", room / "a\u202egpj.prices.csv")
    assert opened.answers(1) == [("a\\u{202e}gpj.prices.csv", "Yes", None)]
    assert "a\\u{202e}gpj.prices.csv" in opened.shown()
    about = "a\\u{202e}gpj.prices.csv, checked against a\\u{202e}gpj.pb"
    assert opened.text("#about") == about
    opened.browser.ask("document.querySelector('#clear').click()")
    for ending, text in ((".pb", ELECTION), (".prices.csv", PRICES)):
        (room / f"{HEBREW}{ending}").write_text(text, encoding="utf-8")
    opened.give(room / f"{HEBREW}.pb", room / f"{HEBREW}.prices.csv")
    opened.answers(1)
    isolated = [f"\u2068{HEBREW}{ending}\u2069" for ending in (".prices.csv", ".pb")]
    assert opened.text("#about") == f"{isolated[0]}, checked against {isolated[1]}"
    assert opened.browser.ask(LOOSE) == 0


def test_changed(opened, downloads):
    """A file that is changed between two looks at it: no row tells of both, and no figures of another answer are saved.
    Chromium doesn't read such a file any more."""
    room = opened.new_room()
    for name in ("a.pb", "b.pb"):
        shutil.copy(EXAMPLES / "sample.pb", room / name)
    certificate, other = room / "a.prices.csv", PRICES.replace("1,b,2", "1,b,1")
    certificate.write_text(PRICES, encoding="utf-8")
    assert len(other) == len(PRICES) and other != PRICES
    opened.open()
    opened.give(*sorted(room.iterdir()))
    assert ("a.prices.csv", "Yes", "supported priceable") in opened.answers(2)
    certificate.write_text(other, encoding="utf-8")
    opened.browser.click("[aria-label='Show the answer on a.prices.csv']")
    opened.browser.wait("return document.querySelector('#audit-list .badge').textContent !== 'Yes'", "the second look")
    _, word, line = opened.answers(2)[0]
    row = opened.browser.ask(ROW, 1)
    assert word in ("No", "No answer") and "supported" not in row
    if word == "No":
        wanted = opened.says("page", "a.pb", "a.prices.csv", folder=room)
        assert opened.shown() == wanted
        certificate.write_text(PRICES, encoding="utf-8")
        opened.browser.click("#margins")
        is_yes = "return document.querySelector('#audit-list .badge').textContent === 'Yes'"
        opened.browser.wait(is_yes, "the third look")
        opened.answers(2)
        assert not (downloads / "a.prices.margins.csv").exists()


def test_changed_kind(opened):
    """A price certificate that becomes a violation certificate of the same length is one then."""
    room = opened.new_room()
    shutil.copy(EXAMPLES / "district.pb", room / "a.pb")
    shutil.copy(EXAMPLES / "sample.pb", room / "b.pb")
    certificate = room / "a.prices.csv"
    shutil.copy(EXAMPLES / "district.prices.csv", certificate)
    violation = (EXAMPLES / "district.violation.csv").read_text(encoding="utf-8")
    opened.open()
    opened.give(*sorted(room.iterdir()))
    assert ("a.prices.csv", "Yes", "supported priceable") in opened.answers(2)
    certificate.write_text(violation.ljust(certificate.stat().st_size, "\n"), encoding="utf-8")
    opened.browser.click("[aria-label='Show the answer on a.prices.csv']")
    opened.browser.wait("return document.querySelector('#audit-list .badge').textContent !== 'Yes'", "the second look")
    opened.answers(2)
    if opened.answers(2)[0][1] != "No answer":
        total = "Violation proved: 0, not proved: 1"
        is_told = f"return document.querySelector('#totals').textContent.includes('{total}')"
        opened.browser.wait(is_told, "the totals then")
        assert dict(map(tuple, opened.browser.ask(KINDS))) == dict.fromkeys(["a.pb", "b.pb"], "election") | {"a.prices.csv": "violation certificate"}


# Files that are refused, and what is told of them depends on what they had to be.
REFUSED = {
    "a.prices.csv": "pb-prices,2\n", "b.violation.csv": "pb-violation,9\n", "c.prices.csv": "pb-prices,1\n",
    "d.violation.csv": "pb-violation,2\nvoter,1\n", "e.prices.csv": "", "f.violation.csv": "",
    "g.prices.csv": "pb-prices,1\r\ndenominator,1\r\nvoter_budget,1\r\nvoter,project,payment\r\n1;101;1\r\n",
    "h.violation.csv": "pb-violation,1\r\rvoter,1\rvoter,x\rvoter,3\r",
    "i.violation.csv": "\n\npb-violation,1\n\nvoter,1\nvoter,1",
    "j.prices.csv": "pb-prices,1\rdenominator,1\nvoter_budget,1\r\nvoter,project,payment\r\n\r1,101,\t\r\n",
}  # fmt: skip


def test_refusals(opened):
    """Each refusal with the program's sentences, its line, and what stands on that line, whatever ends the lines: of a
    file alone as `page` tells it, and among others as the command of its kind does."""
    room = opened.new_room()
    for name, text in REFUSED.items():
        shutil.copy(EXAMPLES / "district.pb", room / f"{name[0]}.pb")
        (room / name).write_text(text, encoding="utf-8", newline="")
    opened.open()
    for name in REFUSED:
        opened.browser.ask("document.querySelector('#clear').click()") if name != "a.prices.csv" else None
        opened.give(room / f"{name[0]}.pb", room / name)
        assert [each[:2] for each in opened.answers(1)] == [(name, "Refused")]
        refused_as(opened, room, name, "page")
    opened.browser.ask("document.querySelector('#clear').click()")
    opened.give(*sorted(room.iterdir()))
    opened.answers(len(REFUSED))
    for name in REFUSED:
        opened.browser.click(f"[aria-label='Show the answer on {name}']")
        refused_as(opened, room, name, name.split(".")[1])


def refused_as(opened, room, name, command):
    """The refusal that is shown is what the program says of it."""
    ran = opened.ran(command, f"{name[0]}.pb", name, folder=room)
    line, sentences = by_node.told_hints(ran.stderr)
    told = opened.browser.ask("""return [[...document.querySelectorAll('#refusal p[lang=en]')].map(e => e.textContent),
      document.querySelector('#refusal pre')?.textContent ?? null, document.querySelector('#refusal code').textContent,
      document.querySelector('#refusal').textContent];""")
    stands = re.split("\r\n|\r|\n", REFUSED[name])[line - 1] if line else None
    assert told[:3] == [sentences, stands, ran.stdout.decode().strip()]
    assert not line or f"{name}, line {line}:" in told[3]
