"""Which characters can't be seen as themselves, by the data of Unicode that Python has, and how these are shown."""
import unicodedata

# Controls, marks of format, surrogates, private ones and those without a character; lines, paragraphs and spaces.
CATEGORIES = {"Cc", "Cf", "Cs", "Co", "Cn", "Zl", "Zp", "Zs"}
# What is to be ignored where it isn't known, besides the marks of format; and blanks that are symbols, by their names.
IGNORED = ("VARIATION SELECTOR", "COMBINING GRAPHEME JOINER", "KHMER VOWEL INHERENT", "HANGUL FILLER", "SEONG FILLER")
BLANK = ("BRAILLE PATTERN BLANK", "OBJECT REPLACEMENT CHARACTER", "KHITAN SMALL SCRIPT FILLER",
         "MUSICAL SYMBOL NULL NOTEHEAD")  # fmt: skip


def is_hidden(c):
    """Whether a character can't be seen as itself, and isn't the space."""
    if c == " " or unicodedata.category(c) in CATEGORIES:
        return c != " "
    name = unicodedata.name(c, "")
    return name in BLANK or any(words in name for words in IGNORED)


def number(c):
    return f"\\u{{{ord(c):x}}}"


def shown(text):
    """A text without joiners, or with joiners that are no part of a word, as a page shows it."""
    return "".join(number(c) if is_hidden(c) else c for c in text)
