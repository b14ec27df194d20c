"""Conditions and tests with what became of them, and what pages on certificates share."""
from .nodes import element

SIGNS = {"holds": "\u2713 ", "fails": "\u2717 ", "not_asked": "\u2013 "}
CLASSES = {"holds": "state", "fails": "state fails", "not_asked": "state unasked"}


def condition_item(case, name, state, words, told, asks=None):
    """A condition or a test: its plain name, its name in the lines of the program, its state, what it comes to, and
    what it asks, which is `asks` where the page speaks of something else than usual."""
    badge = element("span", SIGNS[state], case.say(words), class_=CLASSES[state])
    return element(
        "li",
        element("h3", case.say(f"name.{name}")), element("div", name), badge,
        element("p", told), element("p", case.say(asks or f"asks.{name}")),
    )  # fmt: skip


class Explained:
    """What is found of something, of which some words are explained."""

    def means(self, word):
        """What a word means, by its meaning."""
        return f"words.{word}.means"


class Tested(Explained):
    """What is found by tests, all of which are asked: `culprits` has where each fails, and `failed` is the first that does."""

    def __init__(self, tests, *given):
        self.culprits = {name: culprits_of(*given) for name, culprits_of in tests}
        self.failed = next((name for name in self.culprits if self.culprits[name]), None)

    def state(self, name):
        return "fails" if self.culprits[name] else "holds"

    def news(self):
        """What kind of news the answer is: a class. That nothing is proved is neither good nor bad."""
        return "neither" if self.failed else "bad"

    def tests(self, case):
        listed = [
            condition_item(
                case, name, self.state(name), f"state.test_{self.state(name)}", self.comes_to(case, name), self.asks(name)
            )
            for name in self.culprits
        ]
        return element("section", element("h2", case.say("state.tests")), element("ol", listed))

    def asks(self, name):
        """What a test asks, by its meaning."""
        return f"asks.{name}"

    # What only prices have.

    def options(self):
        return []

    def of_groups(self, case):
        return []

    def says_little(self):
        return None

    def caution(self, case):
        return []
