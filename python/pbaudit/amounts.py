"""Amounts as exact fractions, and how a file writes them."""
import numbers
import operator
from decimal import Decimal
from fractions import Fraction
from math import gcd
from typing import Any, Iterable, Protocol, Tuple, Union

MILLION = 10**6
# Limits of the files.
MOST_COST = 10**12
MOST_DENOMINATOR = 10**9
MOST_NUMERATOR = 10**21
# The digits that are told of a number, and those that one can have here, which Python still writes.
TOLD_DIGITS, MOST_DIGITS = 60, 4000
# No float has so many decimals where it is printed without an exponent.
_TENS = tuple(10**decimals for decimals in range(40))


class TooManyDenominators(ValueError):
    """Exact amounts whose common denominator is larger than one that a certificate has, as with shares of many costs.
    The check of prices near these may answer: `validate_price_system` with `near=True`, or `price_certificate`; and
    `equal_shares` with `near=True` has prices of its own that a certificate can have.

    >>> try:
    ...     write_prices(1, [{"a": Fraction(1, 10**9 + 7)}])
    ... except TooManyDenominators as why:
    ...     print(str(why).split(",")[0])
    the amounts' common denominator is 1000000007
    """


class Rational(Protocol):
    """A whole number or a fraction of any kind, as those of numpy and gmpy2."""

    @property
    def numerator(self) -> Any: ...

    @property
    def denominator(self) -> Any: ...


# What counts as exact; and what may be rounded, where that is allowed.
Amount = Union[int, Fraction, Decimal, Rational]
NearAmount = Union[Amount, float, numbers.Real]


def is_float(amount: object) -> bool:
    """Whether an amount is a rounded number, of whatever kind, as numpy's float32 and gmpy2's mpfr."""
    return isinstance(amount, numbers.Real) and not isinstance(amount, numbers.Rational)


def exact(amount: object, what: str, advice: str = "") -> Fraction:
    """An amount that is a whole number, a fraction or a Decimal. A float is a TypeError that names what it was for."""
    if is_float(amount):
        raise TypeError(f"{what} is the float {amount!r}, and a check of rounded numbers shows nothing: "
                        f"give whole numbers, Fractions or Decimals{advice}")
    return near(amount, what)


def exact_price(amount: object, what: str) -> Fraction:
    """What a price certificate states, which may be made of floats elsewhere."""
    return exact(amount, what, ", or let price_certificate make exact payments of a solver's floats")


def exact_cost(amount: object, what: str) -> Fraction:
    """A cost or the limit, which is from 0 to 10^12."""
    cost = exact(amount, what)
    if not 0 <= cost <= MOST_COST:
        raise ValueError(f"{what} is {shortly(cost)}, and an election's amounts are from 0 to 10^12")
    return cost


def shortly(amount: Union[int, Fraction]) -> str:
    """An amount as an error tells it."""
    if max(abs(amount.numerator), amount.denominator) < 10**TOLD_DIGITS:
        return str(amount)
    return f"a number of more than {TOLD_DIGITS} digits"


def near(amount: object, what: str) -> Fraction:
    """An amount of any kind; a float counts as the shortest decimal that it prints as."""
    return Fraction(*ratio(amount, what))


def ratio(amount: object, what: str) -> Tuple[int, int]:
    """The numerator and the denominator of an amount of any kind. They are Python's own numbers: those of others, also
    within a Fraction, may have no room for a product. Those of a float needn't be in lowest terms."""
    if type(amount) is int and abs(amount) <= MOST_NUMERATOR:
        return amount, 1
    if isinstance(amount, bool):
        raise TypeError(f"{what} is {amount!r}, not a number")
    if isinstance(amount, Decimal) and amount.is_finite():
        if not amount:
            return 0, 1
        # The fraction that it stands for may have more digits than there is memory.
        digits, first = len(amount.as_tuple().digits), amount.adjusted()
        _check_digits(max(digits, abs(first), digits - first), what)
    try:
        if isinstance(amount, float):
            return ratio_of_float(float(amount))
        if isinstance(amount, Decimal):
            return amount.as_integer_ratio()
        if is_float(amount):
            return Fraction(str(amount)).as_integer_ratio()
    except (ValueError, OverflowError):
        raise ValueError(f"{what} is {amount!r}, which isn't an amount") from None
    try:
        numerator, denominator = own(getattr(amount, "numerator", None)), own(getattr(amount, "denominator", None))
    except TypeError:
        raise TypeError(f"{what} is {amount!r}, not a number") from None
    if denominator < 1:
        raise ValueError(f"{what} is {amount!r}, which isn't an amount")
    _check_digits(max(numerator.bit_length(), denominator.bit_length()) * 3 // 10, what)
    common = gcd(numerator, denominator)
    return numerator // common, denominator // common


def _check_digits(digits: int, what: str) -> None:
    if digits > MOST_DIGITS:
        raise ValueError(f"{what} is a number of more than {MOST_DIGITS} digits, which isn't an amount")


def own(number: Any) -> int:
    """A whole number of any kind as Python's own. Raises TypeError for another number."""
    return int(operator.index(number))


def ratio_of_float(amount: float) -> Tuple[int, int]:
    """The shortest decimal that a float prints as, over a power of ten. Raises ValueError where it is no number."""
    whole, point, decimals = repr(amount).partition(".")
    if point and decimals.isdigit():
        return int(whole + decimals), _TENS[len(decimals)]
    return Fraction(repr(amount)).as_integer_ratio()


def common_denominator(amounts: Iterable[Fraction]) -> int:
    """The least number by which each amount is a whole number."""
    return least_multiple(amount.denominator for amount in amounts)


def least_multiple(numbers_: Iterable[int]) -> int:
    """The least common multiple of numbers."""
    common = 1
    for number in numbers_:
        common *= number // gcd(common, number)
    return common


def money(amount: Fraction, what: str) -> str:
    """An exact cost as an election file writes it. It has at most six decimals."""
    whole, rest = divmod(amount * MILLION, MILLION)
    if rest.denominator != 1:
        raise ValueError(f"{what} is {amount}, and an election's amounts have at most six decimals")
    decimals = f"{int(rest):06}".rstrip("0")
    return f"{whole}.{decimals}" if decimals else str(whole)
