"""Opens pages about certificates in Chromium without a window, and measures what it shows of them.

Each page is opened in several ways, and each test is run on it. Then pages are turned as page_mutations.py says, and the test named
there has to fail: each test has to fail once. Rules of accessibility are checked by axe as well, which Chromium has in its developer
tools, and what is printed by pdftotext and pdfinfo (poppler-utils). With --pictures a picture of each page at two widths, and those
of docs/, are written into a folder.
"""
import base64
import pathlib
import re
import subprocess
import tempfile
from collections import Counter

import pytest

import browsers
import pbaudit
from axe import faults_by_axe, source_of_axe
from common import needs
from page_mutations import MUTATIONS
from page_scripts import (
    BARE_AMOUNTS, BARS, FAINT, FOCUS, LOOKS, LOOSE_NAMES, OWN_WORDS, SEEN_ORDER, STRANGE, TOO_WIDE, UNREADABLE,
)  # fmt: skip
from pages import GroupBars, PriceBars, cases, language_of, shortened
from pixels import Picture, contrast
from reference.hidden import shown
from serving import Server

PHONE, SCREEN = 390, 1100
HIGHEST_PICTURE = 6000
# The pictures of docs/: a page, a width, the element at which they begin, and their height.
SHOWN = {
    "page-phone.png": ("stable", PHONE, "header", 860),
    "page-projects.png": ("stable", SCREEN, ".sorted", 800),
}
HEADS = 10
NO = "The prices don\u2019t support this outcome"
HEADLINES = {
    "yes": "The prices support this outcome", "stable": NO,
    "sturdy": "The prices support this outcome in the stable form", "over": NO,
    "violation": "This group was treated worse than it deserves",
    "small": "This certificate doesn’t prove unfair treatment",
    "polish": "Ceny wspieraj\u0105 ten wynik", "german": "Die Preise st\u00fctzen dieses Ergebnis nicht",
    "french": "Ce certificat ne prouve aucun traitement injuste",
    "many": "The prices support this outcome", "hostile": NO,
}  # fmt: skip
# How each page is opened: a width, a scheme of colours, and a medium. 550 is 1100 zoomed to 200 %.
WAYS = [(PHONE, "light", "screen"), (PHONE, "dark", "screen"), (SCREEN, "light", "screen"), (SCREEN, "dark", "screen"),
        (550, "light", "screen"), (320, "dark", "screen"), (680, "light", "print")]
# A page of more projects than these is opened in every third way, and isn't given to axe.
MOST_ROWS = 100
# The line of the program is cut behind so many characters.
MOST_IN_A_LINE = 120
# What is painted is looked at so much larger, and so far to both sides of an edge.
SCALE, ASIDE = 3, 24
# The line of a row of a table, on paper, in which the project's id stands.
ROW_ON_PAPER = re.compile(r"^\s*(project|projekt|Projekt|projet) \S+(\s{2,}.*)?$", re.MULTILINE)


def of_project(bar):
    """Whether a bar of `pages.py` is that of a project."""
    return bar[0] is not None


class Page:
    """A page that was made, and what has to stand on it."""

    def __init__(self, name, files, asked, folder):
        self.name, self.file, self.files = name, f"{name}.html", files
        self.language = asked.get("language", "en")
        switches = {key: value for key, value in asked.items() if key != "language"}
        self.line = str(pbaudit.explain(*files, **switches).verdict)
        self.is_violation = "violation" in files[1].name
        figures = (GroupBars if self.is_violation else PriceBars)(files, switches)
        self.stated, self.bars = figures.stated, list(figures.bars())
        self.headline = HEADLINES[name]
        pbaudit.write_page(*files[:2], outcome=files[2] if files[2:] else None, path=folder / self.file, **asked)


class Shown(browsers.Chromium):
    """Chromium, with what is measured of a page."""

    def __init__(self, room):
        super().__init__(room / "profile", room, words=["--hide-scrollbars"])
        self.axe = source_of_axe(self)

    def open(self, url, width, scheme="light", media="screen"):
        features = [{"name": "prefers-color-scheme", "value": scheme}]
        self.tools("Emulation.setEmulatedMedia", media=media, features=features)
        self.is_paper = media == "print"
        size = {"width": width, "height": 800, "deviceScaleFactor": 1, "mobile": width < 500}
        self.tools("Emulation.setDeviceMetricsOverride", **size)
        self.requests()
        self.go(url)

    def title(self):
        return self.ask("return document.title")

    def taken(self, left, top, width, height, scale):
        """A picture of a part of the page, as a PNG."""
        clip = {"x": left, "y": top, "width": width, "height": height, "scale": scale}
        return base64.b64decode(self.tools("Page.captureScreenshot", clip=clip, captureBeyondViewport=True)["data"])

    def painted(self, left, top, right, bottom):
        """What is painted in a part of the page, larger."""
        return Picture(self.taken(left, top, right - left, bottom - top, SCALE))

    def printed(self):
        """The page as a PDF."""
        return base64.b64decode(self.tools("Page.printToPDF", preferCSSPageSize=True)["data"])

    def picture(self, path, width, first="html", height=HIGHEST_PICTURE):
        """A picture that begins at the first such element."""
        top = self.ask(f"return document.querySelector('{first}').getBoundingClientRect().top + scrollY")
        height = min(height, self.ask("return document.documentElement.scrollHeight") - top)
        path.write_bytes(self.taken(0, max(0, top - 16), width, height, 1))


@pytest.fixture(scope="module")
def browser(tmp_path_factory):
    needs(browsers.CHROMIUM, "chromedriver", "pdftotext", "pdfinfo")
    pytest.importorskip("selenium", reason="selenium is not installed")
    started = Shown(tmp_path_factory.mktemp("chromium"))
    yield started
    started.close()


class Made:
    """The pages, each made once it is asked for, in a folder with a server of its own."""

    def __init__(self, folder):
        self.folder, self.server, self.pages = folder, Server(folder), {}
        self.cases = {name: (files, asked) for name, files, asked in cases(folder)}

    def page(self, name):
        if name not in self.pages:
            self.pages[name] = Page(name, *self.cases[name], self.folder)
        return self.pages[name]


@pytest.fixture(scope="module")
def made(auditor):
    pbaudit._auditor._found = auditor
    with tempfile.TemporaryDirectory() as folder:
        made = Made(pathlib.Path(folder))
        yield made
        made.server.close()
    pbaudit._auditor._found = None


def ways():
    """Each page with each way of opening it; a long one in every third."""
    for name in HEADLINES:
        for way in WAYS[::3] if name == "many" else WAYS:
            yield pytest.param((name, way), id="-".join(map(str, (name, *way))), marks=pytest.mark.xdist_group(f"page {name}"))


@pytest.fixture(scope="module", params=ways())
def opened(request, browser, made, option):
    """A page that is opened: the browser, the address, and what has to stand on it."""
    name, way = request.param
    page = made.page(name)
    url = f"{made.server.address}/{page.file}"
    browser.open(url, *way)
    if option("pictures"):
        take_pictures(browser, pathlib.Path(option("pictures")), page, *way)
    yield browser, url, page
    assert [path for path in made.server.asked if not path.endswith((".html", ".ico"))] == []


def take_pictures(browser, folder, page, width, scheme, media):
    if media == "screen" and width in (PHONE, SCREEN) and len(page.bars) <= MOST_ROWS:
        browser.picture(folder / f"{page.name}-{width}-{scheme}.png", width)
    for name, (pictured, wide, first, height) in SHOWN.items():
        if (pictured, wide, "light") == (page.name, width, scheme):
            browser.picture(folder / name, width, first, height)


def test_nothing_is_fetched(opened):
    browser, url, page = opened
    assert [each for each in browser.requests() if not each.endswith("/favicon.ico")] == [url]
    assert browser.ask("return performance.getEntriesByType('resource').length") == 0


def test_answer(opened):
    """The answer, the line of the program, and the language."""
    browser, url, page = opened
    title = f"{shortened(shown(page.stated.meta.get('description', page.files[0].name)))} \u2013 {page.headline}"
    assert browser.title() == title
    assert browser.ask("return document.querySelector('.answer h2').textContent") == page.headline
    line = browser.ask("return [...document.querySelectorAll('footer code')].pop().textContent")
    assert line == shortened(shown(page.line), MOST_IN_A_LINE)
    assert browser.ask("return document.documentElement.lang") == page.language


def test_nothing_is_changed(opened):
    browser, url, page = opened
    assert browser.ask(STRANGE) == 0
    assert browser.ask("return document.querySelectorAll('h1, h2').length") == HEADS
    own = browser.ask(OWN_WORDS)
    assert "{" not in own and "}" not in own


def test_names(opened):
    """Each project stands there by its id and name as they are shown, isolated and in the language of the election."""
    browser, url, page = opened
    rows = browser.ask("return [...document.querySelectorAll('tbody th')].map(head => "
                       "[...head.querySelectorAll('.name, .id bdi')].map(each => each.textContent))")
    for (project, _, _), told in zip(filter(of_project, page.bars), rows):
        assert told == [shortened(shown(text)) for text in (page.stated.names[project], project) if text]
    assert browser.ask(LOOSE_NAMES) == 0
    found = browser.ask("return [...document.querySelectorAll('th .name bdi, .id bdi, h1 bdi')].map(each => each.lang)")
    assert set(found) == {language_of(page.stated.meta)}


def test_currency(opened):
    """Beside each amount stands the currency, where the election has one."""
    browser, url, page = opened
    currency = page.stated.meta.get("currency")
    bare = browser.ask(BARE_AMOUNTS, currency) if currency else []
    assert not bare


def test_it_fits(opened):
    browser, url, page = opened
    assert not browser.ask(TOO_WIDE)


def test_bars(opened):
    browser, url, page = opened
    bars = browser.ask(BARS)
    assert len(bars) == len(page.bars)
    for bar, (project, part, has_mark) in zip(bars, page.bars):
        assert bar["id"] == (project and shortened(shown(project)))
        length = min(float(part), 1) * bar["room"]
        assert abs(length - bar["part"]) <= 1
        assert bar["cut"] == (part > 1)
        assert (bar["mark"] is not None) == has_mark
        assert not has_mark or abs(bar["mark"] - 0.75 * bar["room"]) <= 1
        is_named = bar["label"].startswith(bar["name"]) if bar["name"] else bar["label"][:1].isalpha()
        assert is_named


def test_contrast(opened):
    browser, url, page = opened
    assert not browser.ask(FAINT)


def test_painted(opened):
    """What is painted of a bar is told apart: the part from the room, stripes from each other, the edge, the mark."""
    browser, url, page = opened
    for bar in browser.ask(LOOKS):
        whole, part, mark = bar["whole"], bar["part"], bar["mark"]
        end = min(part["right"], whole["right"])
        if bar["is_clear"]:
            check_around(browser.painted(end - ASIDE, whole["top"] - 4, end + ASIDE, whole["bottom"] + 4))
        if bar["is_over"]:
            left = whole["left"] + 2
            stripes = browser.painted(left, whole["top"] + 2, left + ASIDE, whole["bottom"] - 2).colours()
            assert len(stripes) == 2 and contrast(*stripes) >= 3
        if mark:
            middle = (mark["left"] + mark["right"]) / 2
            across = browser.painted(middle - 4, whole["top"] + 4, middle + 4, whole["bottom"] - 4)
            columns = [across.colours(left=at, right=at + 1)[0] for at in range(across.width)]
            ink = columns[len(columns) // 2]
            assert columns[0] != ink and columns[-1] != ink
            beside = [next(each for each in side if each != ink) for side in (columns[len(columns) // 2::-1],
                                                                             columns[len(columns) // 2:])]
            assert not [each for each in beside if contrast(ink, each) < 3]


def check_around(around):
    """The picture of the end of a part in a bar, with the page above it."""
    middle, edge = around.width // 2, 4 * SCALE
    inside = {"top": edge + 2 * SCALE, "bottom": around.height - edge - 2 * SCALE}
    page = around.colours(bottom=2 * SCALE)[0]
    line = around.colours(left=middle + 3 * SCALE, top=edge, bottom=edge + SCALE)[0]
    room = around.colours(left=middle + 3 * SCALE, **inside)[0]
    part = around.colours(right=middle - 3 * SCALE, **inside)
    assert contrast(line, page) >= 3
    assert max(contrast(each, room) for each in part) >= 3


def test_it_can_be_heard(opened):
    browser, url, page = opened
    assert not browser.ask(UNREADABLE)
    nodes = browser.tools("Accessibility.getFullAXTree")["nodes"]
    roles = Counter(node["role"]["value"] for node in nodes if not node["ignored"])
    rows = browser.ask("return document.querySelectorAll('tr').length")
    heads = len(list(filter(of_project, page.bars)))
    assert roles["row"] == rows and roles["rowheader"] == heads


def test_axe(opened):
    """The rules of axe."""
    browser, url, page = opened
    if browser.axe is None or len(page.bars) > MOST_ROWS:
        return
    wrong, kept = faults_by_axe(browser)
    assert not wrong and kept > 10


def test_orders(opened):
    """A choice puts the rows in another order, by the style alone."""
    browser, url, page = opened
    if page.is_violation or browser.is_paper:
        return
    ids = [project for project, _, has_mark in page.bars if has_mark]
    if not ids:
        assert not browser.ask("return document.querySelectorAll('.sort').length")
        return
    supporters = Counter(project for ballot in page.stated.ballots for project in ballot)
    for choice, key in (("closest", None), ("dearest", page.stated.costs), ("supported", supporters)):
        browser.ask(f"document.querySelector('.{choice}').click()")
        wanted = sorted(ids, key=lambda project: -key[project]) if key else ids
        assert browser.ask(SEEN_ORDER) == [shortened(shown(project)) for project in wanted]
    browser.ask("document.querySelector('.closest').click()")


def test_focus(opened):
    """The keyboard reaches the choice of an order and nothing else, and it is seen where it is."""
    browser, url, page = opened
    if browser.is_paper:
        return
    browser.ask("document.activeElement.blur()")
    browser.press(browsers.TAB)
    reached = browser.ask(FOCUS)
    if page.is_violation or not browser.ask("return document.querySelectorAll('.sort').length"):
        assert reached["at"] == "BODY"
        return
    assert reached["at"] == "closest" and reached["checked"]
    assert reached["width"] >= 2 and reached["contrast"] >= 3
    browser.press(browsers.RIGHT)
    reached = browser.ask(FOCUS)
    assert reached["at"] == "dearest" and reached["checked"]
    browser.ask("document.querySelector('.closest').click()")
    browser.ask("document.activeElement.blur()")


def test_print(opened):
    """On paper each sheet has its number, and those with rows of a table the table's heads."""
    browser, url, page = opened
    if not browser.is_paper:
        return
    pdf = browser.printed()
    title = asked_of_pdf(pdf, "pdfinfo", "-").splitlines()[0]
    assert title == f"Title:           {browser.title()}"
    *sheets, rest = asked_of_pdf(pdf, "pdftotext", "-layout", "-", "-").split("\f")
    assert len(sheets) > 1 and not rest.strip()
    assert [(sheet.split() or [""])[-1] for sheet in sheets] == [str(at) for at in range(1, len(sheets) + 1)]
    head = re.escape(browser.ask("return document.querySelector('thead th').textContent"))
    for sheet in sheets:
        is_headed = re.search(rf"^\s*{head}\s{{2,}}", sheet, re.MULTILINE)
        assert is_headed or not ROW_ON_PAPER.search(sheet)


def asked_of_pdf(pdf, *words):
    return subprocess.run(words, input=pdf, capture_output=True, check=True).stdout.decode()


TESTS = {name: test for name, test in globals().items() if name.startswith("test_")}


@pytest.mark.xdist_group("mutations")
@pytest.mark.parametrize("mutation", MUTATIONS, ids=[mutation.what for mutation in MUTATIONS])
def test_mutation_is_caught(browser, made, mutation):
    page, turned = made.page(mutation.page), "turned.html"
    text = (made.folder / page.file).read_bytes().decode()
    assert mutation.old in text
    (made.folder / turned).write_bytes(text.replace(mutation.old, mutation.new, mutation.times).encode())
    url = f"{made.server.address}/{turned}"
    browser.open(url, *mutation.way)
    with pytest.raises((AssertionError, browsers.BrowserError)):
        TESTS[mutation.test]((browser, url, page))


def test_each_test_has_mutations():
    assert {mutation.test for mutation in MUTATIONS} == {*TESTS}
