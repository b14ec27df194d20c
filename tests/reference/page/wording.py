"""The sentences of a language, by what they mean, with their placeholders filled."""
import functools
import pathlib
import re
import tomllib

from .nodes import text_of

SENTENCES = pathlib.Path(__file__).parent / "sentences"
LANGUAGES = ("en", "pl", "de", "fr")
PLACEHOLDER = re.compile(r"\{(\w+)\}")


@functools.cache
def sentences(language):
    return tomllib.loads((SENTENCES / f"{language}.toml").read_text(encoding="utf-8"))


def meanings(language):
    """The meaning of each sentence of a language."""
    return list(paths_in(sentences(language), ""))


def paths_in(table, front):
    for word, below in table.items():
        yield from [front + word] if isinstance(below, str) else paths_in(below, f"{front}{word}.")


def is_never_needed(meaning):
    """Whether no page says it: no file that is accepted has one byte, and places are counted where there are two or
    more."""
    return meaning == "files.bytes.one" or meaning.startswith("places.") and meaning.endswith(".one")


def form_for(language, count):
    """Which form a language has for so many things, as 1 projekt, 2 projekty, 5 projektów."""
    if language == "pl":
        if count == 1:
            return "one"
        return "few" if count % 10 in (2, 3, 4) and count % 100 not in (12, 13, 14) else "many"
    return "one" if count == 1 or (language == "fr" and count == 0) else "many"


class Wording:
    """The sentences of a language; 'said' are the meanings that were asked for, each with its language."""

    def __init__(self, language):
        self.language, self.table, self.said = language, sentences(language), set()

    def say(self, meaning, count=None):
        """A sentence as it stands in the table; where it speaks of a number of things, in the form for so many."""
        if count is not None:
            meaning += "." + form_for(self.language, count)
        self.said.add((self.language, meaning))
        sentence = self.table
        for word in meaning.split("."):
            sentence = sentence[word]
        return sentence

    def filled(self, meaning, number=None, /, **fillings):
        """A sentence as nodes, each placeholder filled with nodes."""
        nodes = PLACEHOLDER.split(self.say(meaning, number))
        nodes[1::2] = [fillings[name] for name in nodes[1::2]]
        return nodes

    def label(self, meaning, /, **fillings):
        """A filled sentence as a text, for who can't see what it stands at."""
        return text_of(self.filled(meaning, **fillings))
