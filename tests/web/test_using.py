"""The page in a browser: what somebody who has it open can do, and what nobody can do to them."""
import functools
import pathlib
import shutil
import subprocess
import sys

import pytest

import browsers
import looks
import variants
from common import TOP
from downloaded import forget, saved, whole
from tables import EXAMPLES
from visiting import districts

pytestmark = pytest.mark.parametrize("address", ["disk", "server"], indirect=True)
AUDITS_IN_A_ROW = 50
LONGEST_FILE = 2**28
HEADS = {"en": "Was the money shared fairly among the voters?",
         "pl": "Czy pieniądze podzielono sprawiedliwie między głosujących?",
         "de": "Wurde das Geld gerecht unter den Abstimmenden aufgeteilt?",
         "fr": "L’argent a-t-il été partagé équitablement entre les votants\u00a0?"}
# What is asked of prices unless somebody ticks otherwise.
USUAL = "asked: Plain form, Nothing left affordable"
# What is told of sample.pb.
READ = "Voters: 3. Projects: 3. Funded: 2."
BAD_NAME = "<img src=x onerror=\"document.title='taken'\"><b>.pb"

# What the policy refuses, and ways to reach another machine, or to run what isn't of the page: each answers a word, and all
# answer once each of these is refused.
DIRECTIVES = ["connect-src", "img-src", "script-src", "style-src-elem", "style-src-attr", "form-action"]
CONNECTIONS = """
const [url, directives] = arguments, refused = new Set();
document.addEventListener('securitypolicyviolation', event => refused.add(event.violatedDirective.split(' ')[0]));
const settled = promise => Promise.race([promise.then(() => 'made', () => 'refused'),
                                         new Promise(resolve => setTimeout(() => resolve('refused'), 3000))]);
const loads = element => settled(new Promise((resolve, reject) => {
  element.onload = resolve;
  element.onerror = reject;
  document.body.append(element);
}));
const socket = () => new Promise((resolve, reject) => {
  const made = new WebSocket(url.replace('http', 'ws'));
  made.onopen = resolve;
  made.onerror = reject;
});
const request = () => new Promise((resolve, reject) => {
  const made = new XMLHttpRequest();
  made.onload = resolve;
  made.onerror = reject;
  made.open('GET', url);
  made.send();
});
const tried = action => settled(new Promise(resolve => resolve(action())));
return (async () => {
  const made = {
    fetch: await tried(() => fetch(url, {mode: 'no-cors'})),
    XMLHttpRequest: await tried(request),
    WebSocket: await tried(socket),
    image: await loads(Object.assign(new Image(), {src: url + '/x.png'})),
    script: await loads(Object.assign(document.createElement('script'), {src: url + '/x.js'})),
    style: await loads(Object.assign(document.createElement('link'), {rel: 'stylesheet', href: url + '/x.css'})),
  };
  setTimeout("document.title = 'taken'", 0);
  navigator.sendBeacon(url + '/beacon', 'x');
  const inline = document.createElement('script');
  inline.textContent = "document.title = 'taken'";
  document.body.append(inline);
  const styled = document.createElement('p');
  styled.setAttribute('style', 'color: red');
  document.body.append(styled);
  const form = Object.assign(document.createElement('form'), {action: url + '/form'});
  document.body.append(form);
  // Firefox tells a form that is refused by an exception.
  try { form.submit(); } catch {}
  // A refusal is told once the browser gets to it.
  while (!directives.every(directive => [...refused].some(each => each.startsWith(directive)))) {
    await new Promise(resolve => setTimeout(resolve, 50));
  }
  await new Promise(resolve => setTimeout(resolve, 300));
  return [made, document.title];
})();
"""
# What is done to the page in the frame is done once it is loaded; before, there is an empty one.
IS_LOADED = "return inside?.readyState === 'complete' && inside.body.children.length > 0"
SENTENCE = "return document.querySelector('#audit-list .grows').textContent"


def test_answers(opened):
    """A yes, a no by an option, a certificate of the other kind, another outcome: each the program's page."""
    opened.open()
    opened.give(EXAMPLES / "district.pb", EXAMPLES / "district.prices.csv")
    assert opened.answers(1) == [("district.prices.csv", "Yes", None)]
    assert opened.shown() == opened.says("page", "district.pb", "district.prices.csv")
    assert "The prices support this outcome" in opened.browser.ask(SENTENCE)
    opened.browser.click("#stable")
    assert opened.answers(1) == [("district.prices.csv", "No", None)]
    wanted = opened.says("page", "district.pb", "district.prices.csv", "--stable")
    assert opened.shown() == wanted
    assert "The prices don\u2019t support this outcome" in opened.browser.ask(SENTENCE)
    opened.browser.ask("document.querySelector('#clear').click()")
    opened.give(EXAMPLES / "district.pb", EXAMPLES / "district.violation.csv", EXAMPLES / "district.other.outcome.csv")
    opened.answers(1)
    opened.choose("#audit-list [aria-label='Funded projects']", "district.other.outcome.csv")
    assert opened.answers(1) == [("district.violation.csv", "Yes", None)]
    words = ["page", "district.pb", "district.violation.csv", "--outcome", "district.other.outcome.csv"]
    assert opened.shown() == opened.says(*words)
    wanted = "district.violation.csv: Yes. Unfair treatment proved. This group was treated worse than it deserves"
    assert opened.text("#spoken") == wanted


def test_frame(opened):
    """The frame has the library's style, no script runs in it, and it is as high as its page."""
    opened.open()
    opened.browser.click("#example")
    assert opened.answers(1) == [("example.prices.csv", "Yes", None)]
    ask = "const frame = document.querySelector('#frame'), inside = frame.contentDocument; "
    opened.browser.wait(ask + IS_LOADED, "the frame")
    is_styled = opened.browser.ask(ask + "return inside.styleSheets[0]?.cssRules.length > 0")
    assert is_styled
    bars = opened.browser.ask(ask + """return [...inside.querySelectorAll('[data-style]')].map(each =>
  [each.dataset.style.replace(/[ ;]/g, ''), each.style.cssText.replace(/[ ;]/g, '')]);""")
    assert len(bars) > 0 and all(wanted == found for wanted, found in bars)
    assert not opened.browser.ask("return document.querySelector('#frame').sandbox.contains('allow-scripts')")
    fits = "return Math.abs(inside.documentElement.scrollHeight - frame.clientHeight) < 40"
    opened.browser.wait(ask + fits, "the frame's height")
    before, after = opened.browser.ask("""scrollTo(0, 1e6);
const before = scrollY;
dispatchEvent(new Event('resize'));
return [before, scrollY];""")
    assert before > 0 and after == before


def test_drops(opened):
    """Files that are dropped; one more of the same name takes the other's place."""
    room = opened.new_room()
    certificate = room / "sample.prices.csv"
    shutil.copy(EXAMPLES / "sample.prices.csv", certificate)
    opened.open()
    opened.browser.drop("#drop", EXAMPLES / "sample.pb", certificate)
    assert opened.answers(1) == [("sample.prices.csv", "Yes", None)]
    for text, word in (("pb-prices,1\nnothing", "Refused"), ((EXAMPLES / "sample.prices.csv").read_text(), "Yes")):
        certificate.write_text(text)
        opened.browser.drop("#drop", certificate)
        is_word = f"return document.querySelector('.badge')?.textContent === '{word}'"
        opened.browser.wait(is_word, f"the next file, {word}")
    assert opened.text("#files-head") == "Files (2)"


def test_folder_drop(opened):
    """A folder that is dropped, with a folder in it."""
    folder = opened.new_room() / "districts"
    (folder / "inner").mkdir(parents=True)
    districts(folder / "inner")
    opened.open()
    opened.browser.drop("#drop", folder)
    names = [name for name, _, _ in opened.answers(5)]
    assert "districts/inner/north.prices.csv" in names


def test_brought(opened, page):
    """A page that files were put into audits them by itself; and what the page is made of makes the same page again."""
    room = opened.new_room()
    (room / "module.wasm").write_bytes(variants.module_of(page))
    assemble = [sys.executable, TOP / "web" / "assemble.py", room / "module.wasm"]
    for name, files in (("plain.html", []), ("brought.html", [EXAMPLES / "sample.pb", EXAMPLES / "sample.prices.csv"])):
        subprocess.run([*assemble, room / name, *files], check=True)
    assert (room / "plain.html").read_bytes() == pathlib.Path(page).read_bytes()
    opened.open((room / "brought.html").as_uri())
    assert opened.answers(1) == [("sample.prices.csv", "Yes", None)]


def test_refusal(opened):
    """A refused file: the line, what stands there, and why."""
    opened.open()
    opened.give(EXAMPLES / "district.pb", EXAMPLES / "district.voter-id.violation.csv")
    line = "refused certificate 24 UnknownVoter record 4"
    assert opened.answers(1) == [("district.voter-id.violation.csv", "Refused", line)]
    told = opened.text("#refusal")
    wanted = ["district.voter-id.violation.csv, line 4:", "voter,20582",
              "there is no voter '20582'; the election has 60 voters", line]  # fmt: skip
    for each in wanted:
        assert each in told
    english = opened.browser.ask("return [...document.querySelectorAll('#refusal [lang=en]')].map(e => e.textContent)")
    assert set(wanted[2:]) <= set(english)
    unsaid = opened.new_room() / "unsaid.pb"
    unsaid.write_text((EXAMPLES / "sample.pb").read_text(encoding="utf-8").replace("selected", "chosen"))
    opened.browser.ask("document.querySelector('#clear').click()")
    shutil.copy(EXAMPLES / "sample.prices.csv", unsaid.with_name("unsaid.prices.csv"))
    opened.give(unsaid, unsaid.with_name("unsaid.prices.csv"))
    opened.answers(1)
    told = opened.text("#refusal")
    assert "Add the outcome file" in told


def test_choices(opened):
    """A certificate whose name says nothing of its election, an outcome and a kind: each is chosen by hand."""
    room = opened.new_room()
    shutil.copy(EXAMPLES / "district.violation.csv", room / "claim.csv")
    (room / "what.csv").write_text("nothing,1\n")
    opened.open()
    elections = [EXAMPLES / "sample.pb", EXAMPLES / "district.pb"]
    opened.give(*elections, room / "claim.csv", EXAMPLES / "district.other.outcome.csv")
    found = [each for each in opened.answers(3) if each[0] == "claim.csv"]
    assert found == [("claim.csv", "\u2013", None)]
    opened.choose("#audit-list [aria-label=Election]", "district.pb")
    assert ("claim.csv", "\u2013", None) in opened.answers(2)
    opened.choose("#audit-list [aria-label='Funded projects']", "as the election says")
    assert ("claim.csv", "No", "failed V4 voter 9") in opened.answers(2)
    opened.choose("#audit-list [aria-label='Funded projects']", "district.other.outcome.csv")
    assert ("claim.csv", "Yes", "violation") in opened.answers(2)
    opened.browser.ask("document.querySelector('#clear').click()")
    opened.give(EXAMPLES / "sample.pb")
    assert opened.answers(1) == [("sample.pb", "Proved", None)]
    opened.give(room / "what.csv")
    is_asked = "return document.querySelector(\"#file-list [aria-label='What what.csv is']\") !== null"
    opened.browser.wait(is_asked, "a file of no kind")
    opened.choose("#file-list [aria-label='What what.csv is']", "price certificate")
    opened.choose("#audit-list [aria-label=Election]", "sample.pb")
    refused = ("what.csv", "Refused", "refused certificate 21 BadHead record 1")
    assert opened.answers(1) == [refused]


LAST_FILE = "return [...document.querySelectorAll('#file-list bdi')].pop().textContent"


def give_anew(opened, path):
    """Gives a file that is there and isn't the last of the list. It comes to its end."""
    assert opened.browser.ask(LAST_FILE) != path.name
    opened.give(path)
    browsers.until(lambda: opened.browser.ask(LAST_FILE) == path.name, f"{path.name} once more")


def test_corrected(opened):
    """What was chosen holds for a file that was corrected since, and not for one that is gone: an answer is about the
    files that are there."""
    room = opened.new_room()
    good = (EXAMPLES / "sample.pb").read_text(encoding="utf-8")
    bad = good.replace("budget;10", "budget;1")
    one, two, claim = room / "one.pb", room / "two.pb", room / "claim.csv"
    two.write_text(bad, encoding="utf-8")
    shutil.copy(EXAMPLES / "sample.prices.csv", claim)

    def claimed(count):
        chosen = "return document.querySelector('#audit-list [aria-label=Election]').selectedOptions[0].textContent"
        rows = [each[1:] for each in opened.answers(count) if each[0] == "claim.csv"]
        return [*rows, opened.browser.ask(chosen)]

    one.write_text(good, encoding="utf-8")
    opened.open()
    opened.give(one, two, claim)
    opened.answers(3)
    opened.choose("#audit-list [aria-label=Election]", "one.pb")
    assert claimed(2) == [("Yes", "supported priceable"), "one.pb"]
    one.write_text(bad, encoding="utf-8")
    give_anew(opened, one)
    wanted = opened.says("prices", "one.pb", "claim.csv", folder=room).split("\n")[0]
    assert claimed(2) == [("No", wanted), "one.pb"]
    give_anew(opened, claim)
    assert claimed(2) == [("No", wanted), "one.pb"]
    one.write_text(good, encoding="utf-8")
    give_anew(opened, one)
    assert claimed(2) == [("Yes", "supported priceable"), "one.pb"]
    opened.browser.click("[aria-label='Remove one.pb']")
    found = [(name, word) for name, word, _ in opened.answers(2)]
    wanted = [("claim.csv", "\u2013"), ("two.pb", "Proved")]
    assert found == wanted


def test_corrected_outcome(opened):
    """The same with an outcome that is chosen."""
    outcome = opened.new_room() / "winners.csv"
    shutil.copy(EXAMPLES / "district.other.outcome.csv", outcome)
    opened.open()
    opened.give(outcome, EXAMPLES / "sample.pb", EXAMPLES / "district.pb", EXAMPLES / "district.violation.csv")
    opened.answers(2)
    opened.choose("#audit-list [aria-label='Funded projects']", "winners.csv")
    assert ("district.violation.csv", "Yes", "violation") in opened.answers(2)
    shutil.copy(EXAMPLES / "district.stable.outcome.csv", outcome)
    give_anew(opened, outcome)
    words = ["violation", "district.pb", "district.violation.csv", "--outcome", "district.stable.outcome.csv"]
    wanted = ("district.violation.csv", "No", opened.says(*words).split("\n")[0])
    assert wanted in opened.answers(2)
    opened.browser.click("[aria-label='Remove winners.csv']")
    wanted = ("district.violation.csv", "No", "failed V4 voter 9")
    assert wanted in opened.answers(2)


def test_totals(opened):
    """The totals count each audit, prices and violations apart, and are read out."""
    room = opened.new_room()
    (room / "empty.pb").write_bytes(b"")
    (room / "wide.pb").write_text((EXAMPLES / "sample.pb").read_text(encoding="utf-8"), encoding="utf-16")
    shutil.copy(EXAMPLES / "sample.prices.csv", room / "stray.csv")
    opened.open()
    opened.give(EXAMPLES / "sample.pb", EXAMPLES / "sample.prices.csv", *room.iterdir())
    opened.answers(4)
    wanted = f"Prices support the outcome: 1, don't support it: 0 ({USUAL}). Refused: 2. Not answered: 1."
    assert [opened.text("#totals"), opened.text("#spoken")] == [wanted, wanted]


def test_unused(opened):
    """An outcome that fits no certificate by its name is asked about at each, is named where it is used, and told where
    it isn't used."""
    choice = "#audit-list > li:nth-child({}) [aria-label='Funded projects']"
    opened.open()
    opened.give(EXAMPLES / "district.pb", EXAMPLES / "district.violation.csv", EXAMPLES / "district.other.outcome.csv")
    assert opened.answers(1) == [("district.violation.csv", "\u2013", None)]
    assert "Which projects are to be checked as funded?" in opened.browser.ask(SENTENCE)
    assert opened.text("#notes") == ""
    opened.choose(choice.format(1), "district.other.outcome.csv")
    assert opened.answers(1) == [("district.violation.csv", "Yes", None)]
    about = "checked against district.pb, with the funded projects of district.other.outcome.csv"
    assert about in opened.text("#about")
    opened.give(EXAMPLES / "district.prices.csv")
    told = [(name, word) for name, word, _ in opened.answers(2)]
    wanted = [("district.violation.csv", "Yes"), ("district.prices.csv", "\u2013")]
    assert told == wanted
    opened.choose(choice.format(2), "as the election says")
    assert [word for _, word, _ in opened.answers(2)] == ["Yes", "Yes"]
    totals = f"Prices support the outcome: 1, don't support it: 0 ({USUAL}). Violation proved: 1, not proved: 0."
    assert [opened.text("#totals"), opened.text("#notes")] == [totals, ""]
    opened.choose(choice.format(1), "as the election says")
    assert [word for _, word, _ in opened.answers(2)] == ["Yes", "No"]
    wanted = ("Not used: district.other.outcome.csv. An outcome is chosen under “Funded projects”, beside its "
              "certificate.")  # fmt: skip
    assert opened.text("#notes") == wanted
    assert opened.text("#spoken").endswith(wanted)
    opened.browser.ask("document.querySelector('#clear').click()")
    opened.give(EXAMPLES / "district.other.outcome.csv")
    opened.browser.wait("return document.querySelector('#notes').textContent", "an outcome alone")
    assert "is used with an election (NAME.pb)" in opened.text("#notes")


IS_OPEN = "return document.querySelector('#files-open').open"
IN_SIGHT = "return document.querySelector(arguments[0]).checkVisibility?.() !== false"


def test_no_kind(opened):
    """A file of no kind is told, also in a list that is folded, and several are ignored."""
    room = opened.new_room()
    report, other = room / "report.pdf", room / "notes.txt"
    for path in (report, other):
        path.write_bytes(b"%PDF-1.4")
    wanted = ("report.pdf isn't an election, a certificate or an outcome. If it is one, choose which in the list of "
              "files.")  # fmt: skip
    opened.open()
    for files in ([], [EXAMPLES / "district.pb", *sorted(EXAMPLES.glob("district.*.csv"))]):
        if files:
            opened.browser.ask("document.querySelector('#clear').click()")
            opened.give(*files)
            opened.answers()
            assert not opened.browser.ask(IS_OPEN)
        opened.give(report)
        opened.browser.wait("return document.querySelector('#notes .problem')", "a file of no kind")
        assert opened.text("#notes .problem") == wanted
        assert wanted in opened.text("#spoken")
        assert opened.browser.ask(IS_OPEN)
        assert opened.browser.ask(IN_SIGHT, "[data-word=needed]") == (not files)
    opened.browser.ask("document.querySelector('#clear').click()")
    assert [opened.text("#notes"), opened.text("#spoken")] == ["", "Files (0)"]
    opened.give(report, other)
    opened.browser.wait("return document.querySelector('#notes').textContent", "two files of no kind")
    wanted = "Ignored, since they aren't files for an audit: report.pdf, notes.txt"
    assert opened.text("#notes") == wanted
    assert opened.text("#spoken") == f"Files (0) {wanted}"
    assert not opened.browser.ask(IN_SIGHT, "#files")


def test_spreadsheets(opened):
    """A single sheet, or a spreadsheet that isn't saved as a text: what can be made of such is told, but not beside an election."""
    told = "A spreadsheet isn't an election file, but this page makes one of two sheets."
    book = opened.new_room() / "book.xlsx"
    book.write_bytes(b"PK\3\4")
    for path in (EXAMPLES / "sheet.projects.csv", book):
        opened.open()
        opened.give(path)
        opened.browser.wait("return document.querySelector('#notes').textContent", "a sheet")
        assert told in opened.text("#notes") and "docs/SPREADSHEET.md" in opened.text("#notes")
        assert told in opened.text("#spoken")
    opened.open()
    opened.give(EXAMPLES / "sample.pb", book, EXAMPLES / "sheet.ballots.csv")
    opened.answers(1)
    assert "Ignored" in opened.text("#notes") and told not in opened.text("#notes")


def test_no_certificate(opened):
    """An election alone: whether a group falls short, and what was read; but not for one that is refused."""
    room = opened.new_room()
    (room / "empty.pb").write_bytes(b"")
    command = "python -m pbaudit equal-shares NAME.pb --completion add1 -o NAME.prices.csv"
    opened.open()
    opened.give(EXAMPLES / "sample.pb")
    assert opened.answers(1) == [("sample.pb", "Proved", None)]
    for each in ("No group of voters falls short. Closest: ", READ):
        assert each in opened.browser.ask(SENTENCE)
    assert opened.text("#makes-prices") == command
    opened.browser.ask("document.querySelector('#clear').click()")
    opened.give(room / "empty.pb")
    assert [word for _, word, _ in opened.answers(1)] == ["Refused"]
    assert "certificate" not in opened.browser.ask(SENTENCE) + opened.text("#notes")
    opened.browser.ask("document.querySelector('#clear').click()")
    opened.give(EXAMPLES / "sample.prices.csv")
    assert opened.answers(1) == [("sample.prices.csv", "\u2013", None)]
    wanted = "sample.prices.csv: Add the election that this certificate is about (NAME.pb)."
    assert opened.text("#spoken") == wanted


def test_names_of_files(opened):
    """Files whose names differ in capitals belong together, and a size is in words."""
    room = opened.new_room()
    for name, old in {"NORTH.PB": "sample.pb", "North.Prices.csv": "sample.prices.csv"}.items():
        shutil.copy(EXAMPLES / old, room / name)
    opened.open()
    opened.give(EXAMPLES / "district.pb", *room.iterdir())
    assert ("North.Prices.csv", "Yes", "supported priceable") in opened.answers(2)
    both = opened.new_room()
    for name, old in {"A.pb": "sample.pb", "a.pb": "district.pb", "a.prices.csv": "district.prices.csv",
                      "A.outcome.csv": "sample.outcome.csv", "a.outcome.csv": "district.stable.outcome.csv"}.items():
        shutil.copy(EXAMPLES / old, both / name)
    wanted = opened.says("prices", "a.pb", "a.prices.csv", "--outcome", "a.outcome.csv", folder=both).split("\n")[0]
    opened.browser.ask("document.querySelector('#clear').click()")
    opened.give(*sorted(both.iterdir()))
    told = [line for name, _, line in opened.answers(2) if name == "a.prices.csv"]
    assert told == [wanted]
    assert "Funded projects: A.outcome.csv" in opened.text("#audit-list") and "Not used" not in opened.text("#notes")
    (room / "small.csv").write_bytes(b"x" * 201)
    opened.give(room / "small.csv")
    opened.browser.wait("return document.querySelector('#notes .problem')", "a small file")
    assert "201 bytes" in opened.text("#file-list")


PRINT_BY_KEYS = """
const frame = document.querySelector('#frame'), keys = {key: 'p', ctrlKey: true, bubbles: true, cancelable: true};
let printed = 0;
frame.contentWindow.print = () => { printed += 1; };
const dispatch = element => element.dispatchEvent(new element.ownerDocument.defaultView.KeyboardEvent('keydown', keys));
return [dispatch(document.body), dispatch(frame.contentDocument.body), printed];
"""


def test_printing(opened):
    """The keys that print have the answer printed, wherever they are pressed, and what prints else has no buttons."""
    opened.open()
    pressed = "new KeyboardEvent('keydown', {key: 'p', ctrlKey: true, bubbles: true, cancelable: true})"
    is_left = opened.browser.ask(f"return document.body.dispatchEvent({pressed})")
    assert is_left
    opened.browser.click("#example")
    opened.answers(1)
    opened.browser.wait("const inside = document.querySelector('#frame').contentDocument; " + IS_LOADED, "the frame")
    assert opened.browser.ask(PRINT_BY_KEYS) == [False, False, 2]
    if isinstance(opened.browser, browsers.Chromium):
        opened.browser.tools("Emulation.setEmulatedMedia", media="print")
        parts = ("#drop", "#files", "#print", "#audits bdi", "#frame")
        seen = [name for name in parts if opened.browser.ask(IN_SIGHT, name)]
        opened.browser.tools("Emulation.setEmulatedMedia", media="")
        assert seen == ["#audits bdi", "#frame"]


def test_replacing(opened):
    """A file is replaced by its button. The chooser of files is the browser's, so the page's call of it is left out."""
    if not isinstance(opened.browser, browsers.Chromium):
        return
    opened.open()
    opened.give(EXAMPLES / "district.pb", EXAMPLES / "district.short.prices.csv")
    assert opened.answers(1) == [("district.short.prices.csv", "No", None)]
    opened.browser.ask("document.querySelector('#replace-input').click = () => {}")
    opened.browser.click("[aria-label='Replace district.short.prices.csv']")
    opened.give(EXAMPLES / "district.prices.csv", to="#replace-input")
    is_other = "return document.querySelector('#audit-list bdi').textContent === 'district.prices.csv'"
    opened.browser.wait(is_other, "another file")
    assert opened.answers(1) == [("district.prices.csv", "Yes", None)]
    assert opened.text("#files-head") == "Files (2)"
    claim = opened.new_room() / "claim.csv"
    shutil.copy(EXAMPLES / "district.prices.csv", claim)
    opened.browser.ask("document.querySelector('#clear').click()")
    opened.give(EXAMPLES / "district.pb", EXAMPLES / "sample.pb", claim)
    opened.answers(3)
    opened.choose("#audit-list [aria-label=Election]", "district.pb")
    opened.answers(2)
    opened.browser.click("[aria-label='Replace claim.csv']")
    opened.give(EXAMPLES / "sample.wrong.prices.csv", to="#replace-input")
    opened.browser.wait("return document.body.textContent.includes('sample.wrong.prices.csv')", "a file of another name")
    chosen = "return document.querySelector('#audit-list [aria-label=Election]').selectedOptions[0].textContent"
    opened.answers(2)
    assert opened.browser.ask(chosen) == "district.pb"


def test_folder(opened):
    """A folder: the lines of the program's report, and the page of the one that is chosen."""
    folder = opened.new_room() / "districts"
    folder.mkdir()
    districts(folder)
    opened.open()
    opened.browser.give_folder("#folder-input", folder)
    found = {name.split("/")[-1]: line for name, _, line in opened.answers(5)}
    report = dict(each.split(": ", 1) for each in opened.says("folder", str(folder)).splitlines() if ": " in each)
    wanted = {name: None if name == "alone.pb" else report[name] for name in found}
    assert found == wanted
    assert READ in opened.text("#audit-list")
    assert "notes.txt" in opened.text("#notes")
    wanted = ("Elections in which a group of voters falls short: 0, in which none does: 1. "
              f"Prices support the outcome: 1, don't support it: 1 ({USUAL}). Violation proved: 0, not proved: 1. "
              "Refused: 1.")  # fmt: skip
    assert opened.text("#totals") == wanted
    opened.browser.click("#audit-list [aria-label='Show the answer on north.prices.csv']")
    opened.browser.wait("return !document.querySelector('#answer').hidden", "the answer")
    wanted = opened.says("page", "north.pb", "north.prices.csv", folder=folder)
    assert opened.shown() == wanted


def test_hostile_names(opened):
    """Names and texts of files that would be markup are text."""
    room = opened.new_room()
    election = (EXAMPLES / "sample.pb").read_text(encoding="utf-8")
    bad = election.replace("a;", "<img src=x onerror=document.title='taken'>;", 1)
    (room / BAD_NAME).write_text(bad, encoding="utf-8")
    (room / "<script>document.title='taken'<.prices.csv").write_bytes((EXAMPLES / "sample.prices.csv").read_bytes())
    opened.open()
    opened.give(*sorted(room.iterdir()))
    opened.answers(2)
    opened.choose("#audit-list [aria-label=Election]", BAD_NAME)
    told = opened.answers(1)
    assert "<script>" in told[0][0]
    names = opened.browser.ask("return document.querySelector('#file-list').innerText")
    assert BAD_NAME in names
    made = "return document.querySelectorAll('img, #audit-list script, #file-list script, #answer script').length"
    assert opened.browser.ask(made) == 0
    assert "taken" not in opened.browser.ask("return document.title")


def test_many(opened):
    """Many audits in a row, each with the right answer."""
    opened.open()
    opened.give(EXAMPLES / "district.pb", EXAMPLES / "district.prices.csv")
    opened.answers(1)
    for number in range(AUDITS_IN_A_ROW):
        wanted = "Yes" if number % 2 else "No"
        opened.browser.click("#stable")
        assert opened.answers(1) == [("district.prices.csv", wanted, None)]


def test_connections(opened, server):
    """The policy refuses each way to a server that would answer, and scripts that aren't the page's."""
    opened.open()
    before = len(server.asked)
    made, title = opened.browser.ask(CONNECTIONS, server.address, DIRECTIVES)
    assert made == dict.fromkeys(made, "refused")
    assert "taken" not in title
    assert server.asked[before:] == []
    opened.browser.ask("document.querySelector('details:has(#connect)').open = true")
    opened.browser.click("#connect")
    opened.browser.wait("return document.querySelector('#connected').textContent", "the refusal of a connection")
    assert opened.text("#connected") == "The browser refused the connection."


def large_files(room, voters=300_000):
    """An election whose audit takes a while."""
    with open(room / "large.pb", "w") as out:
        out.write("META\nkey;value\nbudget;1\nvote_type;approval\nPROJECTS\nproject_id;cost;selected\na;1;1\n")
        out.write("VOTES\nvoter_id;vote\n")
        out.writelines(f"{number};a\n" for number in range(voters))
    with open(room / "large.prices.csv", "w") as out:
        out.write(f"pb-prices,1\ndenominator,{voters}\nvoter_budget,1\nvoter,project,payment\n")
        out.writelines(f"{number},a,1\n" for number in range(1, voters + 1))
    return room / "large.pb", room / "large.prices.csv"


def test_stop(opened):
    """An audit is stopped, and then made again."""
    paths = large_files(opened.new_room())
    opened.open()
    opened.browser.ask("""
new MutationObserver((_, observer) => {
  if (!document.querySelector('#work').hidden) { observer.disconnect(); document.querySelector('#stop').click(); }
}).observe(document.querySelector('#work'), {attributes: true});""")
    opened.give(*paths)
    assert opened.answers(1) == [("large.prices.csv", "Stopped", None)]
    focus = "return document.activeElement.id"
    assert opened.browser.ask(focus) == "audit-list"
    opened.browser.click("#audit-list [aria-label='Check again: large.prices.csv']")
    assert opened.browser.ask(focus) == "audit-list"
    assert opened.answers(1) == [("large.prices.csv", "Yes", None)]


# Does what is asked once an audit runs and another has a button to show its answer. Then it notes what the last audit
# does as the answer comes in sight, and has the figures saved.
WHILE_BUSY = """
window.whenShown = null;
const observer = new MutationObserver(() => {
  const button = document.querySelector("[aria-label='Show the answer on a.prices.csv']");
  const isRunning = document.querySelector('[data-state=running]');
  if (button && isRunning && !window.isPressed) { window.isPressed = true; button.click(); }
  if (document.querySelector('#answer').hidden || window.whenShown) return;
  window.whenShown = document.querySelector('#audit-list > li:last-child').dataset.state;
  setTimeout(() => document.querySelector('#margins').click());
});
observer.observe(document.querySelector('#audit-list'), {childList: true});
observer.observe(document.querySelector('#answer'), {attributes: true});
"""


def test_while_busy(opened):
    """What is asked for while audits run is done ahead of those that wait."""
    room = opened.new_room()
    shutil.copy(EXAMPLES / "sample.pb", room / "a.pb")
    shutil.copy(EXAMPLES / "sample.prices.csv", room / "a.prices.csv")
    for name, path in zip((".pb", ".prices.csv"), large_files(room)):
        shutil.copy(path, room / f"b{name}")
        path.rename(room / f"c{name}")
    opened.open()
    forget(opened.browser)
    opened.browser.ask(WHILE_BUSY)
    opened.give(*sorted(room.iterdir()))
    assert [word for _, word, _ in opened.answers(3)] == ["Yes"] * 3
    state = opened.browser.ask("return window.whenShown")
    assert state in ("waiting", "running")
    assert opened.shown() == opened.says("page", "a.pb", "a.prices.csv", folder=room)
    wanted = opened.says("margins", "a.pb", "a.prices.csv", folder=room)
    browsers.until(lambda: "a.prices.margins.csv" in whole(opened.browser), "saving between audits")
    assert (opened.browser.downloads / "a.prices.margins.csv").read_text() == wanted


# Presses or chooses something once an audit of this file runs.
ONCE_IT_RUNS = """
const [name, selector, value] = arguments;
const observer = new MutationObserver(() => {
  if (document.querySelector('[data-state=running] bdi')?.textContent !== name) return;
  observer.disconnect();
  const element = document.querySelector(selector);
  if (value === null) element.click();
  else { element.value = value; element.dispatchEvent(new Event('change')); }
});
observer.observe(document.querySelector('#audit-list'), {childList: true});
"""


def test_changes_while_busy(opened):
    """An option of prices leaves a violation alone that is being checked; the language is that of the page, whenever it
    is chosen."""
    election, certificate = large_files(opened.new_room())
    violation = election.parent / "large.violation.csv"
    violation.write_text("pb-violation,1\nproject,a\nvoter,1\n")
    opened.open()
    opened.browser.ask(ONCE_IT_RUNS, violation.name, "#stable", None)
    opened.give(election, violation, EXAMPLES / "sample.prices.csv", EXAMPLES / "sample.pb")
    found = opened.answers(2)
    assert [word for _, word, _ in found] == ["No", "Yes"]
    assert opened.browser.ask("return document.querySelector('#stable').checked")
    opened.browser.ask("document.querySelector('#clear').click()")
    opened.browser.ask(ONCE_IT_RUNS, certificate.name, "#language", "de")
    opened.give(election, certificate)
    assert opened.answers(1) == [(certificate.name, "Ja", None)]
    assert 'lang="de"' in opened.shown()[:200]


def test_bad_files(opened):
    """A file that is too long, and one that was changed since it was chosen; the next audit works."""
    room = opened.new_room()
    with open(room / "long.pb", "wb") as file:
        file.truncate(LONGEST_FILE + 1)
    changing = room / "sample.pb"
    shutil.copy(EXAMPLES / "sample.pb", changing)
    opened.open()
    opened.give(room / "long.pb")
    opened.answers(1)
    assert "more than 268\u202f435\u202f456 bytes" in opened.text("#audit-list")
    opened.browser.ask("document.querySelector('#clear').click()")
    opened.give(changing, EXAMPLES / "sample.prices.csv")
    opened.answers(1)
    changing.unlink()
    opened.browser.click("#stable")
    opened.answers(1)
    told = opened.text("#audit-list")
    assert "sample.pb can't be read" in told
    opened.give(EXAMPLES / "sample.pb")
    opened.browser.wait("return document.querySelector('.badge')?.textContent === 'Yes'", "the file again")


def test_faults(opened, page):
    """A module without memory, and one that traps: a sentence each, and then the next audit."""
    room = opened.new_room()
    small, trapping = room / "small.html", room / "trapping.html"
    variants.write(page, small, functools.partial(variants.with_fixed_memory, megabytes=8))
    opened.open(small.as_uri())
    paths = large_files(room)
    opened.give(*paths)
    opened.answers(1)
    assert "doesn't have enough memory" in opened.text("#audit-list")
    opened.browser.ask("document.querySelector('#clear').click()")
    opened.give(EXAMPLES / "sample.pb", EXAMPLES / "sample.prices.csv")
    assert opened.answers(1) == [("sample.prices.csv", "Yes", None)]
    words = ["wasm-as", "-", "-o", room / "trapping.wasm"]
    assembled = subprocess.run(words, input=variants.TRAPPING, text=True, check=False)
    if assembled.returncode == 0:
        variants.write(page, trapping, lambda _: (room / "trapping.wasm").read_bytes())
        opened.open(trapping.as_uri())
        for _ in range(2):
            opened.give(EXAMPLES / "sample.pb", EXAMPLES / "sample.prices.csv")
            opened.answers(1)
            told = opened.text("#audit-list")
            assert "The auditor crashed" in told
            opened.browser.ask("document.querySelector('#clear').click()")


def test_saving(opened):
    """What is saved is the page, and what the program writes."""
    opened.open()
    opened.give(EXAMPLES / "sample.pb", EXAMPLES / "sample.untidy.prices.csv")
    opened.answers(1)
    files = ["sample.pb", "sample.untidy.prices.csv"]
    buttons = {"save": ("sample.untidy.prices.html", "page"), "margins": ("sample.untidy.prices.margins.csv", "margins"),
               "tidy": ("sample.untidy.prices.tidy.csv", "tidy")}
    for button, (name, command) in buttons.items():
        path = saved(opened.browser, lambda button=button: opened.browser.click(f"#{button}"), name)
        assert path.read_bytes().decode() == opened.says(command, *files)


def test_languages(opened):
    """Each language of the page, and the answer in it."""
    opened.open()
    opened.give(EXAMPLES / "sample.pb", EXAMPLES / "sample.prices.csv")
    opened.answers(1)
    for code, head in HEADS.items():
        opened.speak(code)
        opened.answers(1)
        assert opened.text("h1") == head
        wanted = opened.says("page", "sample.pb", "sample.prices.csv", "--language", code)
        assert opened.shown() == wanted
        assert opened.browser.ask(looks.WORDLESS) == []
    opened.speak("en")
    opened.give(EXAMPLES / "district.pb", EXAMPLES / "district.voter-id.violation.csv")
    opened.answers(2)
    opened.speak("fr")
    opened.answers(2)
    wanted = opened.says("page", "sample.pb", "sample.prices.csv", "--language", "fr")
    assert opened.shown() == wanted
    opened.browser.click("[aria-label='Montrer la réponse sur district.voter-id.violation.csv']")
    opened.speak("de")
    told = opened.browser.ask("return document.querySelector('#refusal').innerText")
    assert "enthält einen Fehler" in told
