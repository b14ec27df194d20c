"""The page by its keys and for those who hear it: what Tab comes to, and what a screen reader is told."""

import pytest

import browsers
from downloaded import saved
from tables import EXAMPLES
from visiting import sentence

pytestmark = pytest.mark.parametrize("address", ["disk", "server"], indirect=True)
MOST_TABS = 40
IS_IN_FRAME = "return document.querySelector('#frame').contentDocument?.body?.textContent.includes(arguments[0])"
# What a browser would show of its own is noted instead.
NOTE_CHOOSING = "document.querySelector('#files-input').click = () => { window.isAsked = true; };"
NOTE_PRINTING = "document.querySelector('#frame').contentWindow.print = () => { window.isPrinted = true; };"
DESCRIPTION = """
return document.getElementById(document.querySelector('#stable').getAttribute('aria-describedby')).textContent;
"""
# What has the focus, as a selector, and how wide the line round it is where the keyboard brought it there.
FOCUS = """
const has = document.activeElement;
return [has.id ? '#' + has.id : has.getAttribute('aria-label') ?? has.tagName.toLowerCase(),
        has.matches(':focus-visible') ? parseFloat(getComputedStyle(has).outlineWidth) : 0];
"""
# What a screen reader is told, by its role and its name.
TOLD = {
    "#language": ("combobox", "Language"),
    "#drop": ("region", "Drop files or folders here"),
    "#choose": ("button", "Choose files"),
    "#file-list": ("list", ""),
    "#file-list button": ("button", "Replace example.pb"),
    "#stable": ("checkbox", "Stable form"),
    "#cover": ("checkbox", "Budgets beyond the limit"),
    "#audits": ("region", "Audits"),
    "#spoken": ("status", ""),
    "#answer": ("region", "Answer"),
    "#answer-head": ("heading", "Answer"),
}


def tab_to(opened, wanted):
    """Presses Tab until the element has the focus. Each element on the way shows that it has it."""
    for _ in range(MOST_TABS):
        opened.browser.press(browsers.TAB)
        where, line = opened.browser.ask(FOCUS)
        if where not in ("body", "#frame"):
            assert line >= 2
        if where == wanted:
            return
    pytest.fail(f"Tab doesn't reach {wanted}")


def test_keyboard(opened):
    """The whole way without a mouse: files, an option, an audit, what is saved and printed. The dialogs for files and
    for printing are the browser's, so that they are asked for is all that is seen."""
    opened.open()
    opened.browser.ask(NOTE_CHOOSING)
    tab_to(opened, "#choose")
    opened.browser.press(browsers.ENTER)
    assert opened.browser.ask("return window.isAsked === true")
    opened.give(EXAMPLES / "sample.pb", EXAMPLES / "sample.prices.csv")
    assert opened.answers(1) == [("sample.prices.csv", "Yes", None)]
    wanted = f"Yes. Fair by prices. The prices support this outcome. {sentence('en', 'GroupsBelowReach')}"
    assert opened.text("#spoken").startswith(f"sample.prices.csv: {wanted}")
    tab_to(opened, "#exhaustive")
    opened.browser.press(browsers.SPACE)
    is_checked = opened.browser.ask("return document.querySelector('#exhaustive').checked")
    assert not is_checked
    assert opened.answers(1) == [("sample.prices.csv", "Yes", None)]
    assert opened.browser.ask(FOCUS)[0] == "#exhaustive"
    wanted = opened.says("page", "sample.pb", "sample.prices.csv", "--no-exhaustive")
    assert opened.shown() == wanted
    tab_to(opened, "#save")
    assert saved(opened.browser, lambda: opened.browser.press(browsers.ENTER), "sample.prices.html").read_text() == wanted
    opened.browser.wait(IS_IN_FRAME, "the answer in the frame", "--no-exhaustive")
    opened.browser.ask(NOTE_PRINTING)
    tab_to(opened, "#print")
    opened.browser.press(browsers.SPACE)
    assert opened.browser.ask("return window.isPrinted === true")
    opened.browser.ask("document.querySelector('#language').focus()")
    tab_to(opened, "Remove sample.prices.csv")
    opened.browser.press(browsers.ENTER)
    assert opened.answers(1) == [("sample.pb", "Proved", None)]
    assert opened.browser.ask(FOCUS)[0] == "Remove sample.pb"
    opened.browser.press(browsers.ENTER)
    assert opened.browser.ask(FOCUS)[0] == "#choose"
    assert opened.text("#spoken") == "Files (0)"


def test_names(opened):
    """What a screen reader is told of the parts of the page, and of an answer once it is there."""
    opened.open()
    opened.browser.click("#example")
    opened.answers(1)
    for selector, told in TOLD.items():
        assert tuple(opened.browser.told(selector)) == told
    assert opened.browser.told("#frame")[1] == "Answer"
    assert opened.browser.ask(DESCRIPTION).startswith("Asks more")
    spoken = "return document.querySelector('#spoken').ariaLive"
    assert opened.browser.ask(spoken) == "polite"
