"""The spread of a market price by fits on moved curves. Beside the proved core; the prices are the engine's, the search
is not proved."""
from decimal import Decimal
from typing import Callable, NamedTuple, Optional, Tuple

from ._desk_bond import Instrument, frequency_of
from ._desk_curve import Curve, Model
from ._desk_inputs import InputError, Number, number
from ._desk_prices import Priced, checked, once
from .refusals import Refused

WIDEST, FINEST = 2_000, Decimal("0.0001")


class Spread(NamedTuple):
    """An option-adjusted spread: the parallel move of the continuous zero rates, in basis points, at which the tree
    gives the market's price. From low to high the bounds of the prices leave it open."""

    basis_points: Decimal
    low: Decimal
    high: Decimal
    market: Decimal
    price: Priced

    def __str__(self) -> str:
        return (f"{self.basis_points:f} basis points, {self.low:f} to {self.high:f} by the bounds; the price there is "
                f"{self.price}")


def oas(instrument: Instrument, curve: Curve, model: Model, *, clean: Optional[Number] = None,
        dirty: Optional[Number] = None,
        frequency: Optional[int] = None) -> Spread:
    """The spread of a market price per 100, clean or dirty, found by bisection between -2,000 and 2,000 basis
    points."""
    checked(instrument, curve, model)
    if (clean is None) == (dirty is None):
        raise InputError("clean: give the market's price, either clean= or dirty=")
    accrued = Decimal(0) if clean is None else once(instrument, curve, model, frequency).accrued
    market = (number("dirty", dirty) if clean is None else number("clean", clean)) + accrued
    each, name = frequency_of(instrument, frequency), "clean" if dirty is None else "dirty"

    def at(basis_points: Decimal) -> Priced:
        return once(instrument, curve.moved(basis_points), model, each).total

    middle = _crossing(name, at, market)
    found = at(middle)
    low, high = (_crossing(name, at, market + sign * (found.bound + at(middle + sign).bound)) for sign in (1, -1))
    return Spread(middle, low - FINEST, high + FINEST, market, found)


def _crossing(name: str, at: Callable[[Decimal], Priced], market: Decimal) -> Decimal:
    """Where the price falls to the market's, to the finest move."""
    low, high = _bracket(name, at, market)
    while high - low > FINEST:
        middle = ((low + high) / 2).quantize(FINEST / 10)
        if at(middle).value >= market:
            low = middle
        else:
            high = middle
    return ((low + high) / 2).quantize(FINEST)


def _bracket(name: str, at: Callable[[Decimal], Priced], market: Decimal) -> Tuple[Decimal, Decimal]:
    """Two moves about which the price goes from the market's or above it to below."""
    edges = []
    for sign in (-1, 1):
        size = Decimal(25)
        while True:
            try:
                value = at(sign * size).value
            except Refused as refused:
                raise InputError(f"{name}: {market:f} is not reached before a move of {sign * size} basis points, which "
                                 f"is refused: {refused}") from None
            if (value >= market) == (sign < 0):
                edges.append(sign * size)
                break
            if size >= WIDEST:
                raise InputError(f"{name}: {market:f} is not reached within {WIDEST} basis points of the curve")
            size = min(2 * size, Decimal(WIDEST))
    return edges[0], edges[1]
