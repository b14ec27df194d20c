"""How amounts, numbers and parts of a whole are shown."""
import itertools
from fractions import Fraction

MINUS, THOUSANDS, CUT, PERCENT, NO_BREAK = "\u2212", "\u202f", "\u2026", "\u00a0%", "\u00a0"
POINT = {"en": ".", "pl": ",", "de": ",", "fr": ","}
# A bar is so wide, in hundredths of a percent, and the mark of a bound stands there.
WIDTH, MARK = 10_000, 7_500


def places(amount):
    """How many decimals an amount of a file has."""
    return next(count for count in range(7) if amount * 10**count % 1 == 0)


def decimals_for(amounts):
    """With how many decimals amounts are shown: as many as these have at most, but not one alone."""
    most = max(map(places, amounts))
    return 2 if most == 1 else most


def grouped(number):
    return f"{number:,}".replace(",", THOUSANDS)


def shown(amount, decimals, language):
    """An amount with so many decimals; where it has more, it is cut and ends in an ellipsis. One of less than a unit
    has at least as many as it takes for its first digit that isn't 0."""
    decimals = max(decimals, first_place(abs(amount)))
    whole, rest = divmod(abs(amount) * 10**decimals, 1)
    digits = f"{int(whole):0{decimals + 1}}"
    units, fraction = (digits[:-decimals], digits[-decimals:]) if decimals else (digits, "")
    text = grouped(int(units)) + (POINT[language] + fraction if fraction else "")
    return (MINUS if amount < 0 else "") + text + (CUT if rest else "")


def first_place(amount):
    """Which decimal of less than a unit is the first that isn't 0; of nothing, and of a unit or more, there is none."""
    if amount == 0:
        return 0
    return next(place for place in itertools.count() if amount * 10**place >= 1)


def rounded(amount, decimals, language):
    """The amount with so many decimals that is nearest, of two the larger; with more where that would be nothing."""
    while True:
        nearest = Fraction(int(amount * 10**decimals + Fraction(1, 2)), 10**decimals)
        if nearest or not amount:
            return shown(nearest, decimals, language)
        decimals += 1


def length(part, whole, width_of_whole):
    """How long a bar is, in hundredths of a percent of its room, cut; not longer than that."""
    if part <= 0 or part * width_of_whole >= whole * WIDTH:
        return WIDTH if part > 0 else 0
    return int(Fraction(part) * width_of_whole / whole)


def percent(hundredths, point):
    return f"{hundredths // 100}{point}{hundredths % 100:02}"
