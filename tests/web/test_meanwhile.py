"""What happens while the page works: files come, are changed or removed, and Stop is pressed. No answer is taken for a good one, and
nothing that was asked for is lost without a word. Orders to workers are kept back, so that nothing here depends on time."""
import browsers
import pytest

from test_asked import TOWN
from test_election import PRESS, slow
from test_on_groups import town, yard

pytestmark = pytest.mark.parametrize("address", ["disk"], indirect=True)
# Keeps orders of these names back until they are let go, notes all, and answers some in the worker's place.
KEEP_BACK = """
const post = Worker.prototype.postMessage;
Object.assign(window, {orders: [], kept: [], names: arguments, answers: {}});
Worker.prototype.postMessage = function (message, ...rest) {
  const name = message.order?.command ?? message.content?.asks ?? 'module', go = () => post.call(this, message, ...rest);
  window.orders.push(name);
  if (window.answers[name]) this.onmessage({data: {tells: 'done', ending: window.answers[name], taken: 0}});
  else if ([...window.names].includes(name)) window.kept.push(go);
  else go();
};
"""
IS_KEPT = "return window.kept.length > 0"
LET_GO = "window.names = []; window.kept.splice(0).forEach(each => each());"
ORDERS = "return window.orders.filter(each => each === arguments[0]).length"
IS_IDLE = """
return document.querySelector('#work').hidden && document.querySelector('#looking').hidden
  && !document.querySelector('[data-state=waiting], [data-state=running]');
"""
SHOWN, HIDDEN = "return !document.querySelector(arguments[0]).hidden", "return document.querySelector(arguments[0]).hidden"
CLICK = "document.querySelector(arguments[0]).click()"
MEMORY = "This browser doesn't have enough memory for these files."


def room(folder, name="room.pb"):
    """B could be added, so that prices fail while it is asked that nothing can be."""
    path = folder / name
    path.write_text(TOWN.replace("b;9;B;0", "b;8;B;0"), encoding="utf-8")
    return path


def until(ask, what):
    browsers.until(ask, what)


def shows(opened, selector):
    until(lambda: opened.browser.ask(SHOWN, selector), selector)


def idle(opened):
    opened.browser.wait(IS_IDLE, "the end of the work")


def says(opened, selector, told):
    until(lambda: told in opened.text(selector), told)


def keep(opened, *names):
    opened.browser.ask(KEEP_BACK, *names)


def kept(opened):
    opened.browser.wait(IS_KEPT, "an order that is kept back")


def let_go(opened):
    opened.browser.ask(LET_GO)


def click(opened, selector):
    opened.browser.ask(CLICK, selector)


def given(opened, path, *names):
    """An election by itself, of which orders of these names are kept back."""
    opened.open()
    keep(opened, *names)
    opened.give(path)
    kept(opened)


def unfold(opened):
    opened.browser.ask("document.querySelector('#election-open').open = true")
    shows(opened, "#election-told")


def test_files_come_while_it_is_asked_whether_the_outcome_fails(opened, tmp_path):
    """That prices fail whatever they are is known as if none had come: none are made that ask too much."""
    given(opened, room(tmp_path), "prices")
    opened.give(town(tmp_path / "other.pb", 12, ["x;6;X;1"], ["x"]))
    opened.browser.wait("return document.querySelectorAll('#file-list > li').length === 2", "both files")
    let_go(opened)
    opened.answers(2)
    unfold(opened)
    opened.browser.ask(PRESS, "#making", "Look for prices")
    says(opened, "#looked", "B could be added within the budget limit.")
    assert [word for _, word, _ in opened.answers(2)] == ["Proved", "Proved"]


def test_no_answer_whether_the_outcome_fails(opened, tmp_path):
    """Then nothing is offered to be looked for, and it is said why; opened again it is asked again."""
    opened.open()
    keep(opened)
    opened.browser.ask("window.answers = {prices: {tells: 'nothing', why: 'memory'}}")
    opened.give(room(tmp_path))
    says(opened, "#election-remark", MEMORY)
    idle(opened)
    assert opened.browser.ask(HIDDEN, "#election-told") and opened.browser.ask(ORDERS, "prices") == 1
    opened.browser.ask("window.answers = {}")
    unfold(opened)
    opened.browser.ask(PRESS, "#making", "Look for prices")
    says(opened, "#looked", "B could be added within the budget limit.")


@pytest.mark.parametrize("order", ["read", "prices"])
def test_stop_while_an_election_is_read(opened, tmp_path, order):
    """It isn't read again by itself, but once somebody asks for something that takes it."""
    given(opened, room(tmp_path), order)
    click(opened, "#stop")
    idle(opened)
    asked = opened.browser.ask(ORDERS, order)
    let_go(opened)
    opened.speak("de")
    opened.speak("en")
    assert opened.browser.ask(HIDDEN, "#election-told") and opened.browser.ask(HIDDEN, "#work")
    assert opened.browser.ask(ORDERS, order) == asked
    click(opened, "#check-further")
    says(opened, "#looked", "B could be added within the budget limit.")
    says(opened, "#looked", "That is all that this page looks for.")


def test_files_come_after_check_further_was_pressed(opened, tmp_path):
    """What was asked for is done, though the election had still to be read."""
    given(opened, room(tmp_path), "read")
    click(opened, "#check-further")
    opened.give(town(tmp_path / "other.pb", 12, ["x;6;X;1"], ["x"]))
    opened.browser.wait("return document.querySelectorAll('#file-list > li').length === 2", "both files")
    let_go(opened)
    says(opened, "#looked", "That is all that this page looks for.")


@pytest.mark.parametrize("button", ["#look-for-groups", "#check-further"])
def test_an_election_is_removed_during_a_search(opened, tmp_path, button):
    """Nothing of the search is shown any more, and the next election is searched as if there had been none."""
    opened.open()
    opened.give(slow(tmp_path / "slow.pb"))
    unfold(opened)
    keep(opened, "groups")
    click(opened, button)
    kept(opened)
    click(opened, "#clear")
    opened.browser.wait("return document.querySelectorAll('#file-list > li').length === 0", "no files")
    assert opened.browser.ask(HIDDEN, "#further") and "crashed" not in opened.text("#further")
    let_go(opened)
    opened.give(room(tmp_path))
    opened.answers(1)
    unfold(opened)
    assert not opened.browser.ask("return document.querySelector('#look-for-groups').disabled")
    click(opened, "#check-further")
    says(opened, "#looked", "That is all that this page looks for.")
    assert "crashed" not in opened.text("#further")


def test_a_search_is_stopped_before_it_has_begun(opened, tmp_path):
    opened.open()
    opened.give(slow(tmp_path / "slow.pb"))
    unfold(opened)
    opened.browser.ask("for (const id of ['look-for-groups', 'stop-looking']) document.querySelector(`#${id}`).click()")
    until(lambda: opened.browser.ask(HIDDEN, "#looking"), "the end of the search")
    assert "stopped. No group was found." in opened.text("#looked")


def test_stop_between_two_searches(opened, tmp_path):
    """The one that comes next doesn't begin, which is said."""
    opened.open()
    opened.give(yard(tmp_path))
    unfold(opened)
    keep(opened, "prices")
    click(opened, "#check-further")
    kept(opened)
    click(opened, "#stop-looking")
    let_go(opened)
    until(lambda: opened.browser.ask(HIDDEN, "#looking"), "the end of the search")
    assert "Stopped" in opened.text("#looked") and "That is all" not in opened.text("#looked")
    assert opened.browser.ask(ORDERS, "groups") == 0


def test_a_file_is_changed_before_its_names_are_read(opened, tmp_path):
    """An answer isn't told with names of other bytes: Chromium reads them no more, and with Firefox it is asked for again."""
    path = yard(tmp_path)
    given(opened, path, "read")
    first = opened.text("#on-groups-lead")
    town(path, 12, ["x;6;The mural;1", "y;2;Another name;1"], ["y", "y", "x,y", "x"], "description;Another title")
    let_go(opened)
    says(opened, "#election-remark", "changed")
    idle(opened)
    if "can't be read" in opened.text("#election-remark"):
        assert opened.text("#on-groups-lead") == first and opened.browser.ask(ORDERS, "read") == 1
        opened.give(path)
        says(opened, "#on-groups-about", "Another title")
        assert opened.browser.ask(HIDDEN, "#election-remark"), "it was said of the file that was given before"
    else:
        assert opened.text("#election-remark") == "The files were changed since this answer. They are being checked again."
        says(opened, "#on-groups-about", "Another title")
        assert opened.text("#on-groups-lead") == "Every project that anybody voted for was funded, so no group can fall short."


def test_the_page_about_groups_is_stopped(opened, tmp_path):
    """It is asked for again when it is opened again."""
    given(opened, yard(tmp_path), "read")
    click(opened, "#groups-open summary")
    opened.browser.wait("return document.querySelector('#groups-open').open", "the place of the page")
    click(opened, "#stop")
    until(lambda: not opened.browser.ask("return document.querySelector('#groups-open').open"), "that it is closed")
    let_go(opened)
    click(opened, "#groups-open summary")
    shows(opened, "#groups-made")


def compares(opened, path, *names):
    """A comparison, of which orders of these names are kept back."""
    opened.open()
    opened.give(path)
    unfold(opened)
    idle(opened)
    keep(opened, *names)
    click(opened, "#compare-outcomes")
    kept(opened)


def test_files_come_while_outcomes_are_compared(opened, tmp_path):
    compares(opened, room(tmp_path), "groups")
    opened.give(town(tmp_path / "other.pb", 12, ["x;6;X;1"], ["x"]))
    opened.browser.wait("return document.querySelectorAll('#file-list > li').length === 2", "both files")
    let_go(opened)
    shows(opened, "#compared")
    assert opened.browser.ask(HIDDEN, "#compare-problem")


def test_why_outcomes_are_not_compared(opened, tmp_path):
    opened.open()
    opened.give(room(tmp_path))
    unfold(opened)
    idle(opened)
    keep(opened)
    opened.browser.ask("window.answers = {groups: {tells: 'nothing', why: 'memory'}}")
    click(opened, "#compare-outcomes")
    says(opened, "#compare-problem", MEMORY)


def test_a_file_is_changed_while_outcomes_are_compared(opened, tmp_path):
    """Its answer is asked for again, which is said."""
    path = room(tmp_path)
    compares(opened, path, "outcomes")
    path.write_text(TOWN.replace("b;9;B;0", "b;8;B;1"), encoding="utf-8")
    let_go(opened)
    says(opened, "#election-remark", "The files were changed since this answer.")
    idle(opened)
    assert opened.browser.ask(HIDDEN, "#compare")
