"""The boxes of the page and its example: an answer is always to what the boxes say, and an example is no answer."""
import shutil

import pytest

from tables import EXAMPLES

pytestmark = pytest.mark.parametrize("address", ["disk", "server"], indirect=True)
FILES = [EXAMPLES / "district.pb", EXAMPLES / "district.prices.csv"]
# District's prices hold in the plain form and not in the stable one.
WORDS = {False: "Yes", True: "No"}
IS_STABLE = "return document.querySelector('#stable').checked"
# A page that is kept is told so when it is shown again; a new one knows nothing of it.
KEPT = "window.isKept = null; addEventListener('pageshow', event => { window.isKept = event.persisted; });"
IS_KEPT, IS_SHOWN = "return window.isKept === true", "return window.isKept !== null"
NO_ROWS = "return document.querySelectorAll('#audit-list > li').length === 0"
# A browser that restores a box tells it to no script.
RESTORE = "document.querySelector('#stable').checked = arguments[0];"
SHOW_AGAIN = "dispatchEvent(new PageTransitionEvent('pageshow', {persisted: arguments[0]}));"


def agrees(opened, what):
    """The only answer is to the form that the box asks for, on the row and on its page."""
    is_stable = opened.browser.ask(IS_STABLE)
    assert opened.answers(1) == [("district.prices.csv", WORDS[is_stable], None)]
    words = ["page", "district.pb", "district.prices.csv", *["--stable"] * is_stable]
    assert opened.shown() == opened.says(*words)


def load_again(opened):
    """As the key F5 does. WebDriver's own command has browsers forget what was ticked."""
    opened.browser.ask("window.isOld = true; setTimeout(() => location.reload());")
    is_new = "return window.isOld === undefined && document.querySelectorAll('#language option').length > 0"
    opened.browser.wait_for_another(is_new, "the page, loaded again")


def leave_and_return(opened):
    opened.browser.go("about:blank")
    opened.browser.back()
    opened.browser.wait("return document.querySelectorAll('#language option').length > 0", "the page again")


def test_restored(opened):
    """A box that is ticked, and then the page is loaded again, or left and come back to."""
    for name, again in (("after a reload", load_again), ("after Back", leave_and_return)):
        opened.open()
        opened.browser.ask(KEPT)
        opened.give(*FILES)
        opened.answers(1)
        opened.browser.click("#stable")
        agrees(opened, "before")
        again(opened)
        opened.browser.wait(IS_SHOWN, f"the page {name}")
        if opened.browser.ask(IS_KEPT):
            agrees(opened, f"{name}, with a page that was kept")
            opened.browser.ask("document.querySelector('#clear').click()")
        opened.browser.wait(NO_ROWS, f"no audits {name}")
        opened.give(*FILES)
        agrees(opened, name)


def test_boxes(opened):
    """Boxes that the browser sets without a word are read at the next audit, and when the page is shown again."""
    for is_persisted in (True, False):
        opened.open()
        opened.browser.ask(RESTORE, True)
        opened.give(*FILES)
        agrees(opened, "a box that was set silently")
        opened.browser.ask(RESTORE, False)
        opened.browser.ask(SHOW_AGAIN, is_persisted)
        agrees(opened, "a box that was set silently, and the page is shown")
    open_to = "input:not([autocomplete=off]), select:not([autocomplete=off])"
    restored = f"return document.querySelectorAll('{open_to}').length"
    assert opened.browser.ask(restored) == 0


def test_example(opened):
    """The example has names of its own, says what it is, and goes when files come."""
    is_seen = "return document.querySelector(arguments[0]).checkVisibility?.() !== false"
    own = opened.new_room()
    for name in ("sample.pb", "sample.wrong.prices.csv"):
        shutil.copy(EXAMPLES / name, own / name)
    opened.open()
    opened.browser.click("#example")
    assert opened.answers(1) == [("example.prices.csv", "Yes", None)]
    assert opened.browser.ask(is_seen, "#is-example")
    assert "This is the example" in opened.text("#is-example")
    assert "example.prices.csv" in opened.text("#about")
    opened.give(*sorted(own.iterdir()))
    is_own = "return document.querySelector('#audit-list bdi')?.textContent.startsWith('sample')"
    opened.browser.wait(is_own, "own files")
    assert opened.answers(1) == [("sample.wrong.prices.csv", "No", None)]
    assert opened.text("#files-head") == "Files (2)"
    for part in ("#is-example", "#example"):
        assert not opened.browser.ask(is_seen, part)
    opened.browser.ask("document.querySelector('#clear').click()")
    assert opened.browser.ask(is_seen, "#example")
