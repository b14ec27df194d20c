"""The answer comes first: on a phone above all else, and in lists the bad news ahead of the good, each in a sentence."""
import csv
import hashlib
import io
import shutil

import pytest

import districts
from downloaded import saved
from screens import PHONE, narrow
from tables import EXAMPLES
from visiting import districts as kinds_of_districts

TOP = "return document.querySelector(arguments[0]).getBoundingClientRect().top + scrollY"
ROWS = """
return [...document.querySelectorAll('#audit-list > li')].map(item =>
  [item.querySelector('bdi').textContent, item.querySelector('.badge').textContent,
   item.querySelector('.grows').innerText.replace(/\\s+/g, ' ').trim()]);
"""
CHOOSE = """
const choice = document.querySelector('#which');
choice.value = arguments[0];
choice.dispatchEvent(new Event('change'));
"""
SEARCH = """
const search = document.querySelector('#search');
search.value = arguments[0];
search.dispatchEvent(new Event('input'));
"""
SUMS = "return [...document.querySelectorAll('#file-list .sum')].map(each => each.textContent)"
# The list of many is drawn once in so many seconds, and a few times more.
PAUSE, MORE = 0.25, 20
# Many districts take 3 s at most by the clock where nothing else runs. A machine that is busy spends more on the same.
MOST_SECONDS = 3 * 3


@pytest.fixture
def folder(tmp_path):
    made = tmp_path / "districts"
    made.mkdir()
    kinds_of_districts(made)
    return made


def names(rows):
    return [each[0].split("/")[-1] for each in rows]


def test_on_a_phone_the_verdict_is_above_the_controls(opened):
    narrow(opened.browser)
    opened.open()
    opened.give(EXAMPLES / "district.pb", EXAMPLES / "district.prices.csv")
    opened.answers(1)
    verdict = opened.browser.ask(TOP, "#audit-list .badge")
    for control in ("#choose", "#files", "#options", "#answer"):
        assert verdict < opened.browser.ask(TOP, control), control
    assert verdict < PHONE[1] / 2
    assert opened.browser.ask("return document.querySelector('#audit-list').getBoundingClientRect().top") >= 0


def test_bad_news_comes_first(opened, folder):
    opened.give(*sorted(folder.iterdir()))
    opened.answers(5)
    rows = opened.browser.ask(ROWS)
    assert names(rows) == ["south.prices.csv", "west.prices.csv", "alone.pb", "east.violation.csv", "north.prices.csv"]
    assert [each[1] for each in rows] == ["No", "Refused", "Proved", "No", "Yes"]


# What each row begins with in each language, behind its name, and the file of the election that it names.
SENTENCES = {
    "en": ["Not shown to be fair by these prices. The prices don\u2019t support this outcome. Not met: \u201cPaid only for approved "
           "projects\u201d (voter 2, project b).", "There is no answer: west.prices.csv has an error.",
           "Fair by prices. The prices support this outcome."],
    "de": ["Mit diesen Preisen nicht als gerecht gezeigt. Die Preise st\u00fctzen dieses Ergebnis nicht. Nicht erf\u00fcllt: "
           "\u201eNur f\u00fcr Unterst\u00fctztes bezahlt\u201c", "Es gibt keine Antwort: west.prices.csv enth\u00e4lt einen Fehler.",
           "Gerecht nach Preisen. Die Preise st\u00fctzen dieses Ergebnis."],
    "fr": ["Ces prix ne montrent pas que c\u2019est \u00e9quitable. Les prix ne soutiennent pas ce r\u00e9sultat. Non rempli :",
           "Il n\u2019y a pas de r\u00e9ponse :", "\u00c9quitable par les prix. Les prix soutiennent ce r\u00e9sultat."],
    "pl": ["Te ceny nie wykazuj\u0105, \u017ce jest sprawiedliwie. Ceny nie wspieraj\u0105 tego wyniku. Niespe\u0142nione:",
           "Nie ma odpowiedzi: w pliku west.prices.csv jest b\u0142\u0105d.",
           "Sprawiedliwie wed\u0142ug cen. Ceny wspieraj\u0105 ten wynik."],
}  # fmt: skip


def test_each_row_is_a_sentence_in_each_language(opened, folder):
    opened.give(*sorted(folder.iterdir()))
    opened.answers(5)
    for code, sentences in SENTENCES.items():
        opened.speak(code)
        rows = {name: told for name, _, told in opened.browser.ask(ROWS)}
        for name, sentence in zip(("south", "west", "north"), sentences):
            told = rows[f"{name}.prices.csv"]
            assert told.startswith(f"{name}.prices.csv {sentence}"), told
            assert f": {name}.pb." in told, "the election is named"


def test_sentences_of_a_list_are_those_of_the_pages(opened, folder):
    """The words of the list are the page's own, and say the same as the library's."""
    opened.give(*sorted(folder.iterdir()))
    opened.answers(5)
    for name in ("north.prices.csv", "south.prices.csv", "east.violation.csv"):
        page = opened.says("page", f"{name.split('.')[0]}.pb", name, folder=folder)
        sentence = page.split('<section class="answer', 1)[1].split("<h2>", 1)[1].split("</h2>")[0]
        told = next(each[2] for each in opened.browser.ask(ROWS) if each[0] == name)
        assert f". {sentence}." in told, told


def test_filter(opened, folder):
    opened.give(*sorted(folder.iterdir()))
    opened.answers(5)
    wanted = {"no": ["south.prices.csv", "east.violation.csv"], "yes": ["alone.pb", "north.prices.csv"], "refused": ["west.prices.csv"],
              "open": [], "all": ["south.prices.csv", "west.prices.csv", "alone.pb", "east.violation.csv", "north.prices.csv"]}
    for value, found in wanted.items():
        opened.browser.ask(CHOOSE, value)
        assert names(opened.browser.ask(ROWS)) == found, value
    opened.browser.ask(SEARCH, "NORTH")
    assert names(opened.browser.ask(ROWS)) == ["north.prices.csv"]
    assert opened.text("#shown-of") == "1 of 5 are shown."
    totals = "Prices support the outcome: 1, don't support it: 1 (asked: Plain form, Nothing left affordable)."
    alone = "Elections in which a group of voters falls short: 0, in which none does: 1."
    assert opened.text("#totals").startswith(f"{alone} {totals}"), "totals are of all"


def test_check_all_again(opened, folder):
    opened.give(*sorted(folder.iterdir()))
    opened.answers(5)
    shutil.copy(EXAMPLES / "sample.prices.csv", folder / "west.prices.csv")
    opened.browser.click("#check-all")
    opened.browser.wait("return document.querySelector('#work').hidden", "all again")
    found = {name: word for name, word, _ in opened.answers(5)}
    # A file that was changed since it was given is read anew, or the browser no longer lets it be read.
    assert found["west.prices.csv"] in ("Yes", "No answer") and found["south.prices.csv"] == "No"


def test_list_as_csv(opened, folder):
    shutil.copy(EXAMPLES / "sample.pb", folder / "=cmd.pb")
    opened.give(*sorted(folder.iterdir()))
    opened.answers(6)
    path = saved(opened.browser, lambda: opened.browser.click("#save-list"), "audits.csv")
    rows = list(csv.reader(io.StringIO(path.read_text(encoding="utf-8-sig"))))
    assert rows[0] == ["certificate", "election", "outcome", "answer", "of", "asked", "sentence", "groups", "line",
                       "by_cost", "group_by_cost", "by_count", "group_by_count"]
    assert rows[1][:5] == ["south.prices.csv", "south.pb", "", "No", "Not shown to be fair by these prices"]
    assert rows[1][5] == "Plain form, Nothing left affordable" and rows[1][6].startswith("The prices don\u2019t support")
    assert rows[1][8] == opened.says("prices", "south.pb", "south.prices.csv", folder=folder).splitlines()[0]
    alone = next(row for row in rows if row[1] == "alone.pb")
    assert alone[3:5] == ["Proved", "No group of voters falls short"] and alone[8] == "satisfied ejr+ by cost"
    # The third voter's share, 10 / 3, is 25 % of 9 + 4 and 18 % of 9 * 2.
    closest = "Closest: 1 of 1 who want project c; their part covers {}\u00a0% of what they would have needed."
    none = "No group of voters falls short"
    assert alone[9:] == [none, closest.format(25), none, closest.format(18)]
    assert [row for row in rows if row[1].startswith("=")] == [] and any(row[1] == "'=cmd.pb" for row in rows)


def test_checksums(opened, folder):
    lines = []
    for path in sorted(folder.iterdir()):
        if path.name != "alone.pb":
            sum_of = hashlib.sha256(path.read_bytes()).hexdigest() if path.name != "north.pb" else "0" * 64
            lines.append(f"{sum_of}  {path.name}\n")
    (folder / "SHA256SUMS").write_text("".join(lines) + "1" * 64 + "  gone.pb\n")
    opened.give(*sorted(folder.iterdir()))
    opened.answers(5)
    opened.browser.wait("return document.querySelectorAll('#file-list .sum').length === 9", "checksums")
    told = opened.browser.ask(SUMS)
    assert told.count("as in SHA256SUMS") == 7 and told.count("not as in SHA256SUMS") == 1
    assert told.count("not named in SHA256SUMS") == 1
    notes = opened.text("#notes")
    assert "Other bytes than in SHA256SUMS: north.pb." in notes
    # notes.txt is no file for an audit, and is compared as well.
    assert "SHA256SUMS: 8 of your files match their checksums. Named in SHA256SUMS, and not given: gone.pb." in notes
    opened.browser.ask("document.querySelector('#clear').click()")
    opened.give(folder / "north.pb")
    opened.answers(1)
    assert opened.browser.ask(SUMS) == [], "the checksums are gone with the files"
    opened.give(folder / "SHA256SUMS")
    opened.browser.wait("return document.querySelectorAll('#file-list .sum').length === 1", "checksums after the file")
    assert opened.browser.ask(SUMS) == ["not as in SHA256SUMS"]


# Notes what the page sends to its workers, and how often its list changes.
NOTE_SENDING = """
window.sent = new Map();
window.isTwice = false;
const post = Worker.prototype.postMessage;
Worker.prototype.postMessage = function (message, ...rest) {
  const files = window.sent.get(this) ?? new Set();
  for (const file of message.files ?? []) {
    window.isTwice ||= files.has(file);
    files.add(file);
  }
  window.sent.set(this, files);
  return post.call(this, message, ...rest);
};
window.changes = 0;
new MutationObserver(() => window.changes++).observe(document.querySelector('#audit-list'), {childList: true});
"""


def test_many_districts_at_once(opened, tmp_path):
    """A worker goes on from one audit to the next and is sent each file once, and the list is drawn a few times."""
    folder = tmp_path / "many"
    districts.write(folder)
    opened.browser.ask(NOTE_SENDING)
    took, spent = districts.cost(opened.browser, folder)
    answers = opened.answers(districts.MANY)
    assert [word for _, word, _ in answers].count("No") == districts.MANY / 3
    workers, files, is_twice = opened.browser.ask(
        "return [window.sent.size, [...window.sent.values()].map(each => each.size), window.isTwice]")
    assert workers <= 2 and sum(files) >= 2 * districts.MANY and not is_twice, (workers, files)
    assert opened.browser.ask("return window.changes") <= took / PAUSE + MORE, "not each answer draws the list"
    print(f"{opened.browser.name}: {districts.MANY} districts took {took:.1f} s, and {spent:.1f} s of processors")
    assert spent < MOST_SECONDS
