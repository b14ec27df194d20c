"""An answer is saved as a page that holds the files which it is about: they come out byte for byte, under harmless names, and the
command that the page gives audits them anew."""
import base64
import hashlib
import html.parser
import os
import pathlib
import shutil
import subprocess

import downloaded
import pytest

from tables import EXAMPLES

pytestmark = pytest.mark.parametrize("address", ["disk"], indirect=True)
ENDING = ".with-files.html"
DATA = "data:application/octet-stream;base64,"
# A name that would be markup, would leave its attribute, end a script, run a command, and turn letters round.
HOSTILE = "a\"><b onclick='x'>&amp;-->`$(touch PWNED)`\u202ec|d"
SAVED = "a___b onclick='x'_&amp;--_`$(touch PWNED)`_c_d"
# Projects whose ids would end a script or a comment.
ELECTION = """META
key;value
budget;10
vote_type;approval
PROJECTS
project_id;cost;selected
</script>;4;1
-->;6;1
b;7;0
VOTES
voter_id;vote
1;</script>,-->
2;</script>,-->
3;b
"""
PRICES = """pb-prices,1
denominator,1
voter_budget,5
voter,project,payment
1,</script>,2
1,-->,3
2,</script>,2
2,-->,3
"""
# What could run in a page, and what a page could load.
ACTIVE = "return document.querySelectorAll('script, img, iframe, object, embed, link, [onclick], [onerror], b').length"
CODES = "return [...document.querySelectorAll('footer code')].map(each => each.textContent)"
TEXT = "return document.querySelector('body > section:last-child').innerText"


class Links(html.parser.HTMLParser):
    """The links of a page that save something: names, and what they have."""

    def __init__(self, text):
        super().__init__()
        self.files = {}
        self.feed(text)

    def handle_starttag(self, tag, attrs):
        told = dict(attrs)
        if tag == "a" and "download" in told:
            assert told["href"].startswith(DATA)
            self.files[told["download"]] = base64.b64decode(told["href"].removeprefix(DATA), validate=True)


def saved(opened, button="#save-with-files"):
    """The page that a button saves, in a folder of its own."""
    found = downloaded.saved(opened.browser, lambda: opened.browser.click(button))
    assert found.name.endswith(ENDING)
    return found.rename(opened.new_room() / found.name)


def taken_out(opened, page):
    """What the links of a page save, when it is opened from the disk and each is followed."""
    opened.browser.go(page.as_uri())
    names = opened.browser.ask("return [...document.querySelectorAll('a[download]')].map(each => each.download)")

    def follow():
        for at in range(len(names)):
            opened.browser.ask("document.querySelectorAll('a[download]')[arguments[0]].id = `link-${arguments[0]}`", at)
            opened.browser.click(f"#link-{at}")
    found = downloaded.all_saved(opened.browser, follow, len(names))
    assert {*found} == {*names}
    return found


def shown(opened, *paths):
    opened.open()
    opened.give(*paths)
    opened.browser.wait("return !document.querySelector('#found').hidden && document.querySelector('#work').hidden", "the answer")


def test_files_come_out(opened, program):
    names = ["district.pb", "district.other.outcome.csv", "district.violation.csv"]
    wanted = {name: (EXAMPLES / name).read_bytes() for name in names}
    room = opened.new_room()
    shutil.copy(EXAMPLES / names[1], room / "district.outcome.csv")
    shown(opened, EXAMPLES / names[0], room / "district.outcome.csv", EXAMPLES / names[2])
    page = saved(opened)
    text = page.read_text(encoding="utf-8")
    held = dict(zip(["district.pb", "district.outcome.csv", "district.violation.csv"], wanted.values()))
    assert Links(text).files == held
    # Twice: the page of the library has them, and the links beside them.
    assert [text.count(hashlib.sha256(data).hexdigest()) for data in held.values()] == [2] * 3
    assert {name: path.read_bytes() for name, path in taken_out(opened, page).items()} == held
    assert opened.browser.ask(ACTIVE) == 0
    told = opened.browser.ask(TEXT)
    assert "The files are in this page" in told and "Violation certificate" in told and "Save district.outcome.csv" in told
    assert page.name == f"district.violation{ENDING}"


def audited_anew(opened, program):
    """What the command of the page answers on the files that were saved, and what the page says that it answers."""
    command, line = [code for code in opened.browser.ask(CODES) if len(code) != 64]
    tools = opened.new_room()
    (tools / "pbaudit").symlink_to(program)
    environment = {**os.environ, "PATH": f"{tools}:{os.environ['PATH']}"}
    ran = subprocess.run(["bash", "-c", command], cwd=opened.browser.downloads, env=environment, capture_output=True, check=False)
    return ran.stdout.decode().split("\n")[0], line


def test_hostile_names_and_files(opened, program, tmp_path):
    for ending, text in (("pb", ELECTION), ("prices.csv", PRICES)):
        (tmp_path / f"{HOSTILE}.{ending}").write_text(text, encoding="utf-8")
    shown(opened, tmp_path / f"{HOSTILE}.pb", tmp_path / f"{HOSTILE}.prices.csv")
    page = saved(opened)
    assert page.name == f"{SAVED}.prices{ENDING}"
    held = {f"{SAVED}.pb": ELECTION.encode(), f"{SAVED}.prices.csv": PRICES.encode()}
    assert Links(page.read_text(encoding="utf-8")).files == held
    console = getattr(opened.browser, "messages", list)
    console()
    found = taken_out(opened, page)
    assert {name: path.read_bytes() for name, path in found.items()} == held
    assert opened.browser.ask(ACTIVE) == 0
    assert f"Save {SAVED}.pb" in opened.browser.ask(TEXT)
    assert audited_anew(opened, program) == ("supported priceable", "supported priceable")
    assert {each.name for each in opened.browser.downloads.iterdir()} == {*held}, "the command made no file"
    assert console() == []


def test_the_page_on_groups_holds_the_election(opened, program, tmp_path):
    path = shutil.copy(EXAMPLES / "school.pb", tmp_path / "town hall.pb")
    opened.open()
    opened.give(path)
    opened.browser.wait("return !document.querySelector('#on-groups').hidden && document.querySelector('#work').hidden", "the answer")
    opened.browser.ask("document.querySelector('#groups-open').open = true")
    opened.browser.wait("return !document.querySelector('#groups-made').hidden", "the page on groups")
    page = saved(opened, "#save-groups-with-files")
    assert Links(page.read_text(encoding="utf-8")).files == {"town hall.pb": (EXAMPLES / "school.pb").read_bytes()}
    taken_out(opened, page)
    answer, line = audited_anew(opened, program)
    assert answer == line and answer.startswith("failed EJR+ by cost voters 100 project school")


@pytest.mark.parametrize("code, head", [
    ("de", "Diese Seite enthält die Dateien"), ("fr", "Les fichiers sont dans cette page"), ("pl", "Pliki są w tej stronie"),
])  # fmt: skip
def test_in_another_language(opened, code, head):
    """The page and what is added to it."""
    shown(opened, EXAMPLES / "sample.pb", EXAMPLES / "sample.prices.csv")
    opened.speak(code)
    opened.browser.wait("return !document.querySelector('#found').hidden && document.querySelector('#work').hidden", "the answer")
    text = saved(opened).read_text(encoding="utf-8")
    assert f'<html lang="{code}">' in text and f"<h2>{head}</h2>" in text


def test_a_file_that_was_changed(opened, tmp_path):
    """It isn't what the answer was about, and no page is saved with it. Chromium doesn't read such a file any more."""
    shutil.copy(EXAMPLES / "sample.pb", tmp_path)
    certificate = pathlib.Path(shutil.copy(EXAMPLES / "sample.prices.csv", tmp_path))
    shown(opened, tmp_path / "sample.pb", certificate)
    certificate.write_bytes(certificate.read_bytes().replace(b"1,b,2", b"1,b,1"))
    opened.browser.click("#save-with-files")
    opened.browser.wait("return document.querySelector('#saved').textContent || document.querySelector('.badge').textContent !== 'Yes'",
                       "what is wrong")  # fmt: skip
    assert [word for _, word, _ in opened.answers(1)] in (["No"], ["Yes"])
    assert [*opened.browser.downloads.glob(f"sample*{ENDING}")] == []
