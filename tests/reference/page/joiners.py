"""Where a joiner is part of how a word or an emoji is written, and so is shown as it is (docs/TROUBLE.md)."""
import functools
import unicodedata

NON_JOINER, JOINER = "\u200c", "\u200d"
# The combining class of signs that take the vowel from a letter.
VIRAMA = 9
# The letters with forms for the places in a word, as far as these have numbers of their own.
PRESENTATION_FORMS = range(0xFB50, 0xFEFD)
# Where emoji are; others that are as wide and have no colours are elsewhere.
EMOJI = (range(0x2600, 0x27C0), range(0x1F300, 0x1FB00))


def is_spelling(before, c, after):
    """Whether a character is a joiner that belongs to what stands before and after it."""
    if c not in (NON_JOINER, JOINER) or not before or not after:
        return False
    if unicodedata.combining(before) == VIRAMA and unicodedata.category(after).startswith("L"):
        return True
    if c == NON_JOINER:
        return before in with_form("<initial>") and after in with_form("<final>")
    return is_emoji(before) and is_emoji(after)


@functools.cache
def with_form(form):
    """The letters that have a form for such a place."""
    told = [unicodedata.decomposition(chr(code)).split() for code in PRESENTATION_FORMS]
    return {chr(int(each[1], 16)) for each in told if len(each) == 2 and each[0] == form}


def is_emoji(c):
    """Whether a character is a picture in colours by itself, or the colour of a skin."""
    is_wide = unicodedata.east_asian_width(c) == "W" and unicodedata.category(c) in ("So", "Sk")
    return is_wide and any(ord(c) in each for each in EMOJI)
