"""Names out of files, as they are shown to people: what can't be seen, or moves what stands beside it, gets a visible
form."""
import unicodedata

# How many letters of a name are shown.
MOST = 80
# Control, formatting and private letters, halves of pairs, those that aren't assigned, and ends of lines.
_HIDDEN = ("Cc", "Cf", "Cs", "Co", "Cn", "Zl", "Zp", "Zs")
# Letters that nothing is drawn for, by their first and last: fillers, variation selectors and the like.
_EMPTY = ((0x034F, 0x034F), (0x115F, 0x1160), (0x17B4, 0x17B5), (0x180B, 0x180F), (0x2800, 0x2800), (0x3164, 0x3164),
          (0xFE00, 0xFE0F), (0xFFA0, 0xFFA0), (0xFFFC, 0xFFFC), (0x16FE4, 0x16FE4), (0x1D159, 0x1D159), (0x1D173, 0x1D17A),
          (0xE0000, 0xE0FFF))
# What has a name of its own.
_SHORT = {"\n": "\\n", "\t": "\\t", "\r": "\\r"}


def shown(name: str) -> str:
    """A name in a visible form, and cut where it is long."""
    return visible(name[:MOST]) + ("\u2026" if len(name) > MOST else "")


def visible(text: str) -> str:
    """A text with the hidden letters in a visible form, as `a\\u{202e}b`, which is that of the program."""
    return "".join(_form(letter) if is_hidden(letter) else letter for letter in text)


def _form(letter: str) -> str:
    return _SHORT.get(letter) or f"\\u{{{ord(letter):x}}}"


def is_hidden(letter: str) -> bool:
    """Whether a letter isn't seen where it stands."""
    if letter == " ":
        return False
    number = ord(letter)
    return unicodedata.category(letter) in _HIDDEN or any(first <= number <= last for first, last in _EMPTY)
