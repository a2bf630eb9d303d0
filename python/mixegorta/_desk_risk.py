"""Sensitivities by fits on moved curves. Beside the proved core; the prices are the engine's, the differences are not
proved."""
import os
from concurrent.futures import ThreadPoolExecutor
from decimal import ROUND_CEILING, ROUND_FLOOR, ROUND_HALF_EVEN, Decimal
from typing import Any, Callable, Dict, Iterable, List, NamedTuple, Optional, Sequence, Tuple, Union

from ._desk_bond import Instrument, frequency_of, other_frequency
from ._desk_curve import Curve, Model
from ._desk_inputs import InputError, Number, number, steps_a_year
from ._desk_prices import Priced, checked, once
from ._desk_tables import Table, Tabled
from .refusals import Refused

Case = Tuple[Curve, Model]
# What moves, and by how many basis points: the whole curve, the curve about a key, or the volatility; nothing for the
# base.
Move = Tuple[str, Decimal]
BASE: Move = ("", Decimal(0))
Quotient = Tuple[Decimal, Decimal]
Figure = Callable[["_Prices", Decimal], Quotient]
CURVE, VOLATILITY = "curve", "volatility"
DIGITS = Decimal(1).scaleb(-12)
# Moves for convexity, the first that the engine prices, and what it is held against. In a narrow move the exercise of a
# node or two changes or of none, and a second difference tells of these nodes and not of the note.
CONVEXITY_MOVES, CONVEXITY_AGAINST = (Decimal(100), Decimal(50), Decimal(25)), (Decimal(100), Decimal(75), Decimal(50))
# What a slope is held against, and the widest move.
SLOPE_AGAINST, WIDEST_MOVE = (Decimal(25), Decimal(50)), Decimal(100)
PER_POINT, VEGA_UNIT = "per 100 and basis point", "per 100 and basis point of volatility"
COLUMNS = ("what", "value", "from", "to", "what the steps cost, an estimate", "which is", "move, bp", "unit", "note")
UNSUPPORTED = "not supported: what the steps cost, an estimate, is more than the figure"
EXPLAINED = ("The intervals are what the bounds of the prices leave: exact on this tree. They are no distance from a "
             "market, and what the steps cost comes on top: an estimate, the same with other steps or over another move.")


class Sensitivity(NamedTuple):
    """A difference of prices over a move, and from low to high the interval in which the same difference of exact
    prices on these trees lies.

    estimate is how far the figure goes with other steps or over another move, whichever is further, and by says which:
    what the steps cost. It is an estimate and no bound; None where there is nothing to hold the figure against.
    """

    name: str
    value: Decimal
    low: Decimal
    high: Decimal
    unit: str
    move_bp: Decimal
    estimate: Optional[Decimal] = None
    by: str = ""

    @property
    def supported(self) -> bool:
        """Whether the figure is more than what the steps cost by the estimate, or both are within the interval of the
        bounds about nothing."""
        return self.estimate is None or abs(self.estimate) <= max(abs(self.value), self.high - self.low)

    @property
    def shown(self) -> Decimal:
        """The figure with the digits that interval and estimate leave: two of the larger of both."""
        return _cut(self.value, max(self.high - self.low, abs(self.estimate or Decimal(0))))

    @property
    def interval(self) -> Tuple[Decimal, Decimal]:
        """The interval with two digits of its width, its ends rounded outwards."""
        width = self.high - self.low
        return _cut(self.low, width, ROUND_FLOOR), _cut(self.high, width, ROUND_CEILING)

    @property
    def cost(self) -> str:
        """What the steps cost, in words."""
        if self.estimate is None:
            return "what the steps cost: there is no estimate, since nothing else is priced to hold it against"
        return f"what the steps cost, an estimate: {_cut(self.estimate, abs(self.estimate)):+f} {self.by}"

    def __str__(self) -> str:
        low, high = self.interval
        told = (f"{self.name} {self.shown:f} {self.unit}, over moves of {self.move_bp:f} bp; {self.cost}; "
                f"{low:f} to {high:f} by the bounds")
        return told if self.supported else f"{told}; {UNSUPPORTED}"


def _cut(value: Decimal, uncertain: Decimal, rounding: str = ROUND_HALF_EVEN) -> Decimal:
    """A figure to the second digit of what is uncertain of it, in plain digits."""
    if not uncertain:
        return value.normalize() if value else Decimal(0)
    place = uncertain.adjusted() - 1
    found = value.quantize(Decimal(1).scaleb(place), rounding=rounding)
    return Decimal(int(found)) if place > 0 else found if found else Decimal(0)


class Sensitivities(Tabled):
    """What a price does when curve or volatility move: by name, each a Sensitivity."""

    def __init__(self, price: Priced, found: List[Sensitivity]) -> None:
        self.price, self.found = price, found

    def __getitem__(self, name: str) -> Sensitivity:
        for each in self.found:
            if each.name == name:
                return each
        raise KeyError(name)

    def rows(self) -> Table:
        """A line for each, with the digits that interval and estimate leave, its interval, and what the steps cost."""
        lines: List[Tuple[Any, ...]] = []
        for each in self.found:
            cost = None if each.estimate is None else _cut(each.estimate, abs(each.estimate))
            lines.append((each.name, each.shown, *each.interval, cost, each.by or None, each.move_bp, each.unit,
                          None if each.supported else "not supported"))
        return Table(COLUMNS, lines)

    def __str__(self) -> str:
        lines = [str(self.rows()), EXPLAINED]
        lines += [f"{each.name} is {UNSUPPORTED}." for each in self.found if not each.supported]
        return "\n".join(lines)


class _Prices:
    """The totals of all moves at one frequency, on all processors; a move that the engine refuses has its refusal."""

    def __init__(self, instrument: Instrument, cases: Dict[Move, Case], frequency: int) -> None:
        def total(case: Case) -> Union[Priced, Refused]:
            try:
                return once(instrument, case[0], case[1], frequency).total
            except Refused as refused:
                return refused

        self.frequency, self.volatility_bp = frequency, cases[BASE][1].volatility_bp
        with ThreadPoolExecutor(max_workers=os.cpu_count()) as pool:
            self.found = dict(zip(cases, pool.map(total, cases.values())))

    def priced(self, move: Move) -> Priced:
        """The price under a move; its refusal is raised."""
        found = self.found[move]
        if isinstance(found, Refused):
            raise found
        return found

    def quotient(self, parts: Sequence[Tuple[int, Move]], over: Decimal) -> Quotient:
        """A sum of prices with these factors, over a number above zero, and how far the bounds leave it open to either
        side."""
        prices = [(factor, self.priced(move)) for factor, move in parts]
        value = sum((factor * price.value for factor, price in prices), Decimal(0)) / over
        return value, sum((abs(factor) * price.bound for factor, price in prices), Decimal(0)) / over

    def slope(self, what: str, size: Decimal) -> Quotient:
        """The fall of the price for one basis point of the curve, or its rise for one of volatility, which does not go
        below zero."""
        if what == VOLATILITY:
            down = min(size, self.volatility_bp)
            return self.quotient(((1, (what, size)), (-1, (what, -down))), size + down)
        return self.quotient(((1, (what, -size)), (-1, (what, size))), 2 * size)

    def convexity(self, size: Decimal) -> Quotient:
        """The second difference over a move, over the price."""
        base = self.priced(BASE)
        if base.value <= 0:
            raise InputError("instrument: its price is zero, and has no convexity")
        return self.quotient(((1, (CURVE, -size)), (1, (CURVE, size)), (-2, BASE)), base.value * (size / 10_000) ** 2)


def _cases(curve: Curve, model: Model, keys: Sequence[str], slopes: Iterable[Decimal],
           wides: Iterable[Decimal]) -> Dict[Move, Case]:
    """The curve and the model of each move: of the slopes those of the curve, of its keys and of the volatility, of the
    wide ones the curve's alone."""
    found: Dict[Move, Case] = {BASE: (curve, model)}
    for size in {*slopes, *wides}:
        found.update({(CURVE, sign * size): (curve.moved(sign * size), model) for sign in (-1, 1)})
    for size in slopes:
        found.update({(key, sign * size): (curve.moved(sign * size, at=key, keys=keys), model)
                      for key in keys for sign in (-1, 1)})
        down = min(size, model.volatility_bp)
        found.update({(VOLATILITY, move): (curve, model.with_volatility(model.volatility_bp + move))
                      for move in (-down, size)})
    return found


def _held_against(figure: Figure, here: _Prices, there: Optional[_Prices], size: Decimal,
                  others: Iterable[Decimal]) -> List[Tuple[Decimal, str]]:
    """How far a figure goes with other steps, and over other moves; what is refused there is left out."""
    value, found = figure(here, size)[0], []
    tries = [(there, size, f"with {steps_a_year(there.frequency)} in their place")] if there else []
    for prices, move, words in (*tries, *((here, other, f"over moves of {other.normalize():f} bp")
                                          for other in others)):
        try:
            found.append((figure(prices, move)[0] - value, words))
        except Refused:
            pass
    return found


def _judged(name: str, unit: str, figure: Figure, here: _Prices, there: Optional[_Prices], size: Decimal,
            others: Iterable[Decimal]) -> Sensitivity:
    """A figure over a move, with what the steps cost: the furthest that it goes otherwise."""
    value, width = figure(here, size)
    against = _held_against(figure, here, there, size, others)
    estimate, by = max(against, key=lambda pair: abs(pair[0])) if against else (None, "")
    return Sensitivity(name, value.quantize(DIGITS), (value - width).quantize(DIGITS), (value + width).quantize(DIGITS),
                       unit, size, None if estimate is None else estimate.quantize(DIGITS), by)


def _convexity(here: _Prices, there: Optional[_Prices], moves: Sequence[Decimal]) -> Sensitivity:
    """The convexity over the first of some moves that the engine prices; where it prices none, the last refusal."""
    for size in moves:
        try:
            return _judged("convexity", "years squared", _Prices.convexity, here, there, size,
                           _but(size, CONVEXITY_AGAINST))
        except Refused:
            if size == moves[-1]:
                raise
    raise AssertionError("there is no move")


def _but(size: Decimal, moves: Iterable[Decimal]) -> List[Decimal]:
    """Moves to hold a figure against: all but its own."""
    return [each for each in moves if each != size]


def _sizes(move_bp: Number, convexity_bp: Optional[Number]) -> Tuple[Decimal, Tuple[Decimal, ...]]:
    """The move of the slopes, and those of convexity of which the first that is priced is taken."""
    size = number("move_bp", move_bp)
    wide = None if convexity_bp is None else number("convexity_bp", convexity_bp)
    for name, figure in (("move_bp", size), ("convexity_bp", wide)):
        if figure is not None and not 0 < figure <= WIDEST_MOVE:
            raise InputError(f"{name}: {figure} is not above 0 and at most {WIDEST_MOVE} basis points")
    return size, CONVEXITY_MOVES if wide is None else (wide,)


def sensitivities(instrument: Instrument, curve: Curve, model: Model, *, frequency: Optional[int] = None, keys: Sequence[str] = (), move_bp: Number = 1,
                  convexity_bp: Optional[Number] = 25) -> Sensitivities:
    """Parallel and key-rate DV01, convexity and vega of the dirty price per 100, each with what the steps cost, an
    estimate.

    dv01 is half of the price at minus move_bp less that at plus, for one basis point of the continuous zero rates; each key's is the same about one
    of the key tenors. convexity is the second difference over a move, over the price, in years squared: over
    convexity_bp, or where that is None over the first of 100, 50 and 25 basis points that the engine prices. vega is for
    one basis point of volatility. A figure that is less than its estimate is marked as not supported.
    """
    checked(instrument, curve, model)
    size, moves = _sizes(move_bp, convexity_bp)
    if not isinstance(keys, (list, tuple)) or not all(isinstance(key, str) for key in keys) or len(set(keys)) != len(keys):
        raise InputError("keys: give a list of tenors, each once, such as ['2Y', '5Y', '10Y']")
    each = frequency_of(instrument, frequency)
    other, others = other_frequency(instrument, each), _but(size, SLOPE_AGAINST)
    cases = _cases(curve, model, keys, (size, *others), (*moves, *CONVEXITY_AGAINST))
    here, there = _Prices(instrument, cases, each), None if other is None else _Prices(instrument, cases, other)

    def slope(name: str, unit: str, what: str) -> Sensitivity:
        return _judged(name, unit, lambda prices, move: prices.slope(what, move), here, there, size, others)

    found = [slope("dv01", PER_POINT, CURVE), *(slope(f"dv01 {key}", PER_POINT, key) for key in keys)]
    found += [_convexity(here, there, moves), slope("vega", VEGA_UNIT, VOLATILITY)]
    return Sensitivities(here.priced(BASE), found)
