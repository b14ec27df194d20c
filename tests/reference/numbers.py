"""Amounts and whole numbers."""
import re

MOST_UNITS = 10**12
MILLION = 10**6


def amount(text):
    """The amount in millionths, or None where the text isn't one."""
    parts = re.fullmatch(rb"([0-9]+)(?:[.,]([0-9]+))?", text)
    if not parts:
        return None
    units = parts[1].lstrip(b"0")
    fraction = (parts[2] or b"").rstrip(b"0")
    if len(fraction) > 6 or len(units) > len(str(MOST_UNITS)):
        return None
    millionths = int(units or b"0") * MILLION + int(fraction.ljust(6, b"0"))
    return millionths if millionths <= MOST_UNITS * MILLION else None


def is_digits(text):
    return re.fullmatch(rb"[0-9]+", text) is not None


def whole(text, most):
    """The whole number, or None where the text isn't one or it is more than that."""
    if not is_digits(text):
        return None
    digits = text.lstrip(b"0")
    if len(digits) > len(str(most)):
        return None
    number = int(digits or b"0")
    return number if number <= most else None
