"""Bars, with the words for who can't see them."""
from . import amounts
from .nodes import element


def bar(label, part, whole):
    """A part of a whole; it is striped where it is more than that."""
    return drawn(label, part, whole, amounts.WIDTH, part > whole)


def bar_against(label, amount, bound, is_over):
    """An amount against a bound, at which a mark stands; it is striped where it breaks a condition."""
    return drawn(label, amount, bound, amounts.MARK, is_over)


def drawn(label, part, whole, width_of_whole, is_over):
    """A bar; one that is longer than there is room ends in a sign that says so."""
    share = amounts.percent(amounts.length(part, whole, width_of_whole), ".")
    is_cut = part * width_of_whole > whole * amounts.WIDTH
    return element(
        "div",
        element("span", class_="part", style=f"--share:{share}"),
        element("span", class_="mark") if width_of_whole == amounts.MARK else [],
        element("span", "\u00bb", class_="cut") if is_cut else [],
        class_="bar over" if is_over else "bar", role="img", aria_label=label,
    )  # fmt: skip


def part_in_words(case, part, whole):
    """A part of a whole in percent, or in words where it is more than the whole."""
    if part > whole:
        return case.say("projects.more_than_the_whole")
    return amounts.percent(amounts.length(part, whole, amounts.WIDTH), case.point()) + amounts.PERCENT
