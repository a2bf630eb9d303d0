"""Amounts in whole billionths, from what a desk writes."""
import operator
from decimal import Decimal, InvalidOperation
from typing import Any, Iterable, Union

from ._limits import ONE

Amount = Union[int, Decimal, str]
Amounts = Iterable[Amount]


class InexactAmount(ValueError):
    """An amount that is no whole number of billionths. Nothing was rounded."""


def shown(given: Any) -> str:
    """What was given, for a sentence: cut where it is long, and a whole number by its bits, since Python may not print its digits."""
    if isinstance(given, int) and given.bit_length() > 256:
        return f"a number of {given.bit_length()} bits"
    try:
        text = str(given) if isinstance(given, (int, Decimal)) else repr(given)
    except ValueError:
        return f"a {type(given).__name__} of too many digits"
    return text if len(text) <= 80 else text[:77] + "..."


def billionths(amount: Amount, name: str = "amount") -> int:
    """The amount in whole billionths: a whole number as it is, a Decimal or a str times ONE.

    So 1 is one billionth, while "1" and Decimal(1) are ONE. The result is exact: an amount with a part of a billionth raises
    InexactAmount, a str that is no number ValueError, a float TypeError. The messages begin with name.
    """
    if isinstance(amount, str):
        return _exact(_decimal(amount, name), name)
    if isinstance(amount, Decimal):
        return _exact(amount, name)
    if isinstance(amount, float):
        raise TypeError(f"{name}: {shown(amount)} is a float; give whole billionths, or a Decimal or a str such as '1.01'")
    try:
        return operator.index(amount)
    except TypeError:
        raise TypeError(f"{name}: {shown(amount)} is no amount; give whole billionths, or a Decimal or a str such as '1.01'") from None


def _decimal(text: str, name: str) -> Decimal:
    try:
        return Decimal(text)
    except InvalidOperation:
        raise ValueError(f"{name}: {shown(text)} is no number") from None


def _exact(amount: Decimal, name: str) -> int:
    if not amount.is_finite():
        raise ValueError(f"{name}: {shown(amount)} is no amount")
    if not amount:
        return 0
    if amount.adjusted() > 30:
        raise OverflowError(f"{name}: {shown(amount)} does not fit its parameter")
    if amount.adjusted() < -9:
        raise InexactAmount(f"{name}: {shown(amount)} is no whole number of billionths")
    numerator, denominator = amount.as_integer_ratio()
    whole, rest = divmod(numerator * ONE, denominator)
    if rest:
        raise InexactAmount(f"{name}: {shown(amount)} is no whole number of billionths")
    return whole
