"""The page, opened in a browser, and the program beside it."""
import pathlib
import re
import shutil
import subprocess
import tempfile

from common import TOP
from tables import EXAMPLES

# What the list of audits says: the file, the word on it, the line of the program, and what is beside it.
AUDITS = """
return [...document.querySelectorAll('#audit-list > li')].map(item => [
  item.querySelector('bdi').textContent, item.querySelector('.badge').textContent,
  item.querySelector('code')?.textContent ?? null, item.querySelector('.grows').textContent]);
"""
# Whether nothing is being done, and something was.
IS_DONE = """
return document.querySelectorAll('#audit-list > li').length > 0 && document.querySelector('#work').hidden
  && !document.querySelector('[data-state=waiting], [data-state=running]');
"""
# Whether a file has a row.
IS_LISTED = "return [...document.querySelectorAll('#audit-list bdi')].some(each => each.textContent === arguments[0])"
CHOOSE = """
const choice = document.querySelector(arguments[0]);
choice.selectedIndex = [...choice.options].findIndex(option => option.textContent === arguments[1]);
choice.dispatchEvent(new Event('change'));
"""
SPEAK = """
const choice = document.querySelector('#language');
choice.value = arguments[0];
choice.dispatchEvent(new Event('change'));
"""


class Visit:
    """The page, opened in a browser, and the program beside it."""

    def __init__(self, browser, url, program, room):
        self.browser, self.url, self.program, self.room = browser, url, program, room

    def open(self, page=None):
        self.browser.go(page or self.url)
        self.browser.wait("return document.querySelectorAll('#language option').length > 0", "the page")

    def give(self, *paths, to="#files-input"):
        self.browser.give(to, *paths)

    def answers(self, count=None):
        """Each audit's file, word and line, once all are done and, where it is given, there are so many."""
        is_there = f"return document.querySelectorAll('#audit-list > li').length === {count}" if count else IS_DONE
        self.browser.wait(is_there, f"{count} audits")
        self.browser.wait(IS_DONE, "the audits")
        return [tuple(each[:3]) for each in self.browser.ask(AUDITS)]

    def choose(self, selector, word):
        """Chooses a word of a list."""
        self.browser.ask(CHOOSE, selector, word)

    def speak(self, code):
        """Chooses a language."""
        self.browser.ask(SPEAK, code)

    def shown(self):
        """The page in the frame, in which attributes of style go by another name."""
        return self.browser.ask("return document.querySelector('#frame').srcdoc").replace(' data-style="', ' style="')

    def text(self, selector):
        return self.browser.ask("return document.querySelector(arguments[0]).textContent", selector)

    def ran(self, *words, folder=EXAMPLES):
        return subprocess.run([self.program, *words], cwd=folder, stdin=subprocess.DEVNULL, capture_output=True, check=False)

    def says(self, *words, folder=EXAMPLES):
        """What the program writes."""
        return self.ran(*words, folder=folder).stdout.decode()

    def new_room(self):
        return pathlib.Path(tempfile.mkdtemp(dir=self.room))


def districts(room):
    """A folder of districts with answers of each kind, and files that are none."""
    parts = {"north": ("district", "prices"), "south": ("sample", "wrong.prices"), "east": ("district", "violation"),
             "west": ("sample", "prices")}  # fmt: skip
    for name, (election, certificate) in parts.items():
        shutil.copy(EXAMPLES / f"{election}.pb", room / f"{name}.pb")
        shutil.copy(EXAMPLES / f"{election}.{certificate}.csv", room / f"{name}.{certificate.split('.')[-1]}.csv")
    (room / "west.prices.csv").write_bytes(b"pb-prices,1\ndenominator,x\n")
    (room / "notes.txt").write_text("nothing")
    (room / "alone.pb").write_bytes((EXAMPLES / "sample.pb").read_bytes())


def said(path, pattern):
    """A text of the pages' words, by a pattern of what stands before it."""
    source = (TOP / "crates/pb_words/src" / path).read_text(encoding="utf-8")
    text = re.sub(r"\\\n *", "", re.search(rf'{pattern} =>\s*"([^"]*)"', source, re.DOTALL)[1])
    return re.sub(r"\\u\{(\w+)\}", lambda found: chr(int(found[1], 16)), text)


def sentence(code, name):
    """A sentence of the page about a certificate."""
    return said(f"wording/{code}.rt", rf"Sentence::{name}")


def sentence_on_groups(code, name):
    """A sentence of the page about groups that fall short."""
    return said(f"wording/short_groups/{code}.rt", rf"ShortGroups::{name}")


def headline(language, name):
    """The answer in a sentence, as the pages say it."""
    return said("headlines.rt", rf"fn {language}\(.*?Headline::{name}")
