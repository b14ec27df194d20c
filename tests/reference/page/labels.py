"""What an election's file says for people: the facts of META and the names of projects; and how others' words are
shown."""
from ..election import marker
from ..hidden import is_hidden, number
from ..records import lower, records
from .joiners import is_spelling

MOST_SHOWN, MOST_UNDER_POINTER, MOST_OF_A_CURRENCY = 80, 2000, 12
LANGUAGE_OF = {
    "pl": ["pl", "Poland", "Polska"],
    "de": ["de", "Germany", "Deutschland", "Austria", "Österreich"],
    "fr": ["fr", "France"],
    "en": ["en", "United Kingdom", "UK", "United States", "USA", "Ireland"],
    "nl": ["nl", "Netherlands"],
    "cs": ["cs", "Czechia", "Czech Republic"],
    "es": ["es", "Spain"],
    "pt": ["pt", "Portugal", "Brazil"],
    "it": ["it", "Italy"],
}


def visible(data):
    """What others wrote, with each character that can't be seen as its number, but joiners in words and emoji."""
    text = data.decode("utf-8", "replace")
    return "".join(map(shown_between, ["", *text], text, [*text[1:], ""]))


def shown_between(before, c, after):
    """A character as it is shown between two others."""
    return number(c) if is_hidden(c) and not is_spelling(before, c, after) else c


def cut(text, most=MOST_SHOWN):
    return text if len(text) <= most else text[:most] + "\u2026"


class Labels:
    """The facts and the names of an election that was read, as they are shown."""

    def __init__(self, data):
        self.facts, self.names = {}, []
        section, header = None, None
        for _, fields in records(data, b";", None):
            if fields is None or marker(fields) == b"votes":
                break
            if marker(fields):
                section, header = marker(fields), None
            elif header is None:
                header = [lower(name) for name in fields]
            elif section == b"meta":
                self.facts.setdefault(lower(fields[0]).decode(), visible(fields[1] if len(fields) > 1 else b""))
            else:
                column = header.index(b"name") if b"name" in header else len(fields)
                self.names.append(visible(fields[column] if column < len(fields) else b""))

    def fact(self, key):
        return self.facts.get(key, "")

    def name(self, project):
        return self.names[project - 1]

    def language(self):
        """The language in which the file names things, by what it says of its language, or else of its country."""
        for fact in (self.fact("language"), self.fact("country")):
            for code, named in LANGUAGE_OF.items():
                if fact in named:
                    return code
        return None
