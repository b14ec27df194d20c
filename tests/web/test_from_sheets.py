"""Two sheets in the page, in the place of an election: the file that is made of them, and what is told of faulty rows, as
tables/sheets.txt has them; which files are taken for sheets; and that names and cells stay texts."""
import shutil
import subprocess

import tables
from downloaded import saved
from tables import EXAMPLES

HAS_FORM = "return !document.querySelector('#sheets-form').hidden"
IS_MADE = "return !document.querySelector('#sheets-made').hidden"
IN_SIGHT = "return document.querySelector(arguments[0]).checkVisibility()"
TYPE = """
const input = document.querySelector('#sheets-limit');
input.value = arguments[0];
input.dispatchEvent(new Event('input', {bubbles: true}));
"""
FAULTS = "return [...document.querySelectorAll('#sheets-faults li')].map(item => item.textContent.trim());"
# The sheets are read, or something is told of them; and this as if nothing had been told before.
IS_READ = """
return ['#sheets-form', '#sheets-faulty'].some(each => !document.querySelector(each).hidden)
  || document.querySelector('#sheets-told').textContent.startsWith('Which sheet');
"""
FORGET = """
for (const part of document.querySelector('#sheets').children) part.hidden = true;
for (const each of ['#sheets-faults', '#sheets-told']) document.querySelector(each).replaceChildren();
"""
SHEETS = ("projects.csv", "ballots.csv")
OPEN_SHEETS = {"projects.csv": "project_id;name;cost\na;Park;6\nb;Library;4\n", "ballots.csv": "voter;a;b\n1;x;\n2;;x\n"}
LIMIT = "Budget limit: "


def write(room, sheets):
    for name, text in sheets.items():
        (room / name).write_text(text, encoding="utf-8")
    return [room / name for name in sheets]


def make(browser, limit):
    browser.ask(TYPE, limit)
    browser.click("#make-election")


def made(opened, name="election.pb"):
    """The bytes of the election that was made, whatever its file is called where there is no name. It is answered first: the button
    moves once it is."""
    browser = opened.browser
    browser.wait(IS_MADE, "the election")
    opened.answers(1)
    path = saved(browser, lambda: browser.click("#sheets-made button"), name)
    assert path.suffix == ".pb"
    return path.read_bytes()


def give(opened, *paths):
    opened.give(*paths)
    opened.browser.wait(IS_READ, "the sheets")


def told_of(opened, limit):
    """What is told of the sheets that were given, and else of the limit; or the bytes of the election that is made of them."""
    faults = opened.browser.ask(FAULTS)
    if faults:
        assert not opened.browser.ask(HAS_FORM)
        return faults
    if opened.browser.ask(IN_SIGHT, "#sheets-untold"):
        opened.browser.click("#sheets-untold")
    make(opened.browser, limit)
    if opened.browser.ask(IN_SIGHT, "#sheets-wrong"):
        return [opened.text("#sheets-wrong")]
    election = made(opened)
    opened.browser.ask("document.querySelector('#clear').click()")
    return election


def test_as_the_table_says(opened, tmp_path):
    """One after the other; what is wrong with the limit is told once nothing else is."""
    cases = tables.sheet_cases()
    for case in cases:
        case.write(tmp_path)
        opened.browser.ask(FORGET)
        give(opened, *(tmp_path / name for name in SHEETS))
        of_sheets = [line for line in case.told if not line.startswith(LIMIT)]
        assert told_of(opened, case.limit) == (of_sheets or case.told or case.election), case.name
    assert len(cases) > 20


def test_goes_on_as_if_it_had_been_dropped(opened, tmp_path):
    """With the certificate that came along: the sheets of the examples say what sample.pb does."""
    shutil.copy(EXAMPLES / "sample.prices.csv", tmp_path / "sheet.prices.csv")
    give(opened, EXAMPLES / "sheet.ballots.csv", EXAMPLES / "sheet.projects.csv", tmp_path / "sheet.prices.csv")
    assert opened.text("#sheets-told") == "Projects in sheet.projects.csv: 3. Voters in sheet.ballots.csv: 3."
    assert opened.text("#sheets-told") in opened.text("#spoken")
    assert "Ignored" not in opened.text("#notes")
    make(opened.browser, "10")
    opened.browser.wait(IS_MADE, "the election")
    assert [each[:2] for each in opened.answers(1)] == [("sheet.prices.csv", "Yes")]
    assert opened.text("#files-head") == "Files (2)"
    assert "sheet.pb was made of your sheets" in opened.text("#sheets-made")
    assert opened.browser.ask("return document.activeElement.textContent") == "Save sheet.pb"
    opened.speak("de")
    assert "aus Ihren Tabellen erstellt" in opened.text("#sheets-made")
    opened.browser.ask("document.querySelector('#clear').click()")
    assert not opened.browser.ask(IN_SIGHT, "#sheets")


def test_ticked_projects_are_funded(opened, tmp_path):
    """Whether the file says what is funded has to be chosen. Enter makes the file as the button does."""
    give(opened, *write(tmp_path, OPEN_SHEETS))
    make(opened.browser, "10")
    assert opened.text("#sheets-wrong") == "The sheet of projects has no column “selected”. Which projects were funded?"
    opened.browser.click("#sheets-ticked")
    assert not opened.browser.ask(IN_SIGHT, "#sheets-wrong")
    opened.browser.click("#sheets-projects li:nth-child(2) input")
    opened.browser.ask("document.querySelector('#sheets-limit').dispatchEvent(new KeyboardEvent('keydown', {key: 'Enter'}))")
    data = made(opened)
    assert b"\nPROJECTS\nproject_id;cost;name;selected\na;6;Park;0\nb;4;Library;1\nVOTES\n" in data
    (tmp_path / "made.pb").write_bytes(data)
    assert opened.says("read", "made.pb", folder=tmp_path) == "read 2 voters 2 projects 1 funded\n"
    opened.answers(1)
    assert "Funded: 1." in opened.browser.ask("return document.querySelector('#audit-list').textContent")


def test_many_projects_are_ticked(opened, tmp_path):
    """A hundred are shown at first; those that are ticked stay so."""
    ids = [f"p{at}" for at in range(250)]
    sheets = {"projects.csv": "project_id;name;cost\n" + "".join(f"{each};;1\n" for each in ids), "ballots.csv": "projects\np0\n"}
    give(opened, *write(tmp_path, sheets))
    opened.browser.click("#sheets-ticked")
    count = "return document.querySelectorAll('#sheets-projects li').length"
    shown = [opened.browser.ask(count)]
    opened.browser.click("#sheets-projects li:nth-child(3) input")
    for word in ("Show 100 more", "Show 50 more"):
        assert opened.text("#sheets-more-projects") == word
        opened.browser.click("#sheets-more-projects button")
        shown.append(opened.browser.ask(count))
    assert shown == [100, 200, 250] and not opened.browser.ask(IN_SIGHT, "#sheets-more-projects")
    opened.browser.click("#sheets-projects li:nth-child(250) input")
    make(opened.browser, "10")
    lines = made(opened).decode().splitlines()
    assert [line.split(";")[0] for line in lines if line.endswith(";1") and line.startswith("p")] == ["p2", "p249"]


def test_corrected_sheets(opened, tmp_path):
    """One that is given alone takes its old one's place; both are told of in the language that is chosen."""
    projects, ballots = write(tmp_path, OPEN_SHEETS)
    ballots.write_text("voter;a;b\n1;y;\n", encoding="utf-8")
    give(opened, projects, ballots)
    fault = "ballots.csv, row 2: “y” in the column “a” is no mark. Write x or 1 for yes, and nothing or 0 for no."
    assert opened.browser.ask(FAULTS) == [fault] and fault in opened.text("#spoken")
    opened.speak("de")
    wanted = "ballots.csv, Zeile 2: „y“ in der Spalte „a“ ist kein Zeichen. Schreiben Sie x oder 1 für Ja und nichts oder 0 für Nein."
    assert opened.browser.ask(FAULTS) == [wanted]
    opened.speak("en")
    ballots.write_text("voter;a;b\n1;x;\n", encoding="utf-8")
    opened.give(ballots)
    opened.browser.wait(HAS_FORM, "the corrected sheets")
    assert opened.text("#sheets-told") == "Projects in projects.csv: 2. Voters in ballots.csv: 1."
    assert "isn't an election" not in opened.text("#notes")


def test_which_files_are_sheets(opened, tmp_path):
    """Two, one after the other; three aren't, nor others, nor beside an election; and one of two has to list projects."""
    projects, ballots, other = write(tmp_path, {**OPEN_SHEETS, "other.tsv": "a\tb\n"})
    told = "Drop the sheet of projects and the sheet of ballots here"
    opened.give(projects)
    opened.browser.wait("return document.querySelector('#notes').textContent", "a note on one sheet")
    assert told in opened.text("#notes") and not opened.browser.ask(IN_SIGHT, "#sheets")
    give(opened, ballots)
    assert opened.browser.ask(HAS_FORM) and opened.text("#notes") == ""
    opened.browser.ask("document.querySelector('#clear').click()")
    opened.give(projects, ballots, other)
    opened.browser.wait("return document.querySelector('#notes').textContent", "a note on three sheets")
    assert told in opened.text("#notes") and not opened.browser.ask(IN_SIGHT, "#sheets")
    give(opened, ballots, other)
    assert "Exactly one of them needs the columns" in opened.text("#sheets-told") and not opened.browser.ask(HAS_FORM)
    opened.give(EXAMPLES / "sample.pb", projects, ballots)
    opened.answers(1)
    assert "Ignored" in opened.text("#notes") and not opened.browser.ask(IN_SIGHT, "#sheets")


def test_what_sheets_hold_stays_text(opened, tmp_path):
    """Markup in cells and in names of files, and letters from right to left."""
    evil = "<img src=x onerror=document.title=1>"
    names = {f"{evil} a.csv": f"project_id;name;cost\n{evil};{evil};6\n", f"{evil} b.csv": f"voter;projects\n1;{evil}\n"}
    give(opened, *write(tmp_path, names))
    opened.browser.click("#sheets-ticked")
    assert evil in opened.text("#sheets-told") and opened.text("#sheets-projects li bdi") == evil
    make(opened.browser, "10")
    # A browser writes other letters where the name of a file can't have one.
    data = made(opened, name=None).decode()
    assert f"\n{evil};6;{evil};0\nVOTES\nvoter_id;vote\n1;{evil}\n" in data
    opened.browser.ask("document.querySelector('#clear').click()")
    (tmp_path / f"{evil} b.csv").write_text("voter;projects\n1;\u202e<b>x</b>,\u05d0\n", encoding="utf-8")
    give(opened, *(tmp_path / name for name in names))
    assert opened.browser.ask(FAULTS) == [f"{evil} b.csv, row 2: “\\u{{202e}}<b>x</b>” isn't the id of a project."]
    assert opened.browser.ask("return document.querySelectorAll('#sheets img, #sheets b, #notes img').length") == 0
    assert opened.browser.ask("return document.title") != "1"


def test_the_script_that_reads_sheets_crashes(opened, tmp_path):
    projects, ballots = write(tmp_path, OPEN_SHEETS)
    opened.browser.ask("document.querySelector('#sheets-worker').textContent = 'throw new Error()'")
    opened.give(projects, ballots)
    opened.browser.wait("return document.querySelector('#sheets-told').textContent.includes('crashed')", "that it crashed")
    assert not opened.browser.ask(HAS_FORM)


def test_a_hundred_thousand_voters(opened, tmp_path):
    """Beside examples/sheets.py."""
    ids = [f"p{at}" for at in range(30)]
    rows = [";".join([str(at), *("x" if at * place % 7 == 1 else "" for place in range(30))]) for at in range(100_000)]
    projects = [f"{each};{each};{at};{at % 2}" for at, each in enumerate(ids)]
    write(tmp_path, {
        "projects.csv": "\n".join(["project_id;name;cost;selected", *projects, ""]),
        "ballots.csv": "\n".join(["voter;" + ";".join(ids), *rows, ""]),
    })
    give(opened, *(tmp_path / name for name in SHEETS))
    make(opened.browser, "100")
    words = ["python3", EXAMPLES / "sheets.py", *(tmp_path / name for name in SHEETS), "100"]
    assert made(opened) == subprocess.run(words, capture_output=True, check=True).stdout
