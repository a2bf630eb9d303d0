"""Curves and models as a desk quotes them. Beside the proved core; nothing here is proved."""
import csv
import math
from datetime import date
from decimal import Decimal
from fractions import Fraction
from typing import Any, Callable, Dict, Iterable, List, Mapping, NamedTuple, Optional, Sequence, Tuple, Union

from . import _desk_picture as picture
from ._desk_inputs import FREQUENCIES, MONTHS_A_YEAR, InputError, Number, When, day_of, later, months, number, tenor, warn, whole, years
from ._desk_tables import Table, Tabled, framed
from ._engine import DISCOUNT_FACTOR, Curve as Quotes, Point, curve_discounts
from ._limits import MAX_STEPS
from .amounts import shown

COMPOUNDINGS = ("simple", "yearly", "continuous")
BASIS_POINTS = 10_000
Times = Union[When, Number]


class Asked(NamedTuple):
    """A point as it was given: its time in years, its name, its figure, and the discount that it means."""

    years: Fraction
    name: str
    figure: Decimal
    discount: float


class Curve(Tabled):
    """A discount curve from points at tenors ("3M", "10Y", "1Y6M"), numbers of years, or dates counted from valuation.

    rates maps each to its rate in percent, -0.25 for −0.25 %. compounding says what the rates are: "simple", "yearly" or "continuous"; there
    is no default. Between points, and from today to the first, discounts are log-linear; past the last point every question is an error.
    """

    def __init__(self, rates: Mapping[Any, Number], *, compounding: str, valuation: Optional[When] = None) -> None:
        if not isinstance(compounding, str) or compounding not in COMPOUNDINGS:
            raise InputError(f"compounding: {shown(compounding)} is none of {', '.join(COMPOUNDINGS)}")
        self.valuation = day_of("valuation", valuation)
        self.compounding: Optional[str] = compounding
        self._moves: Tuple[Tuple[Tuple[Fraction, float], ...], ...] = ()
        self.points = self._asked("rates", rates, lambda name, time, figure: _of_rate(name, compounding, time, figure))
        _warn_of_rates([point.figure for point in self.points])

    @classmethod
    def from_discounts(cls, discounts: Mapping[Any, Number], *, valuation: Optional[When] = None) -> "Curve":
        """A curve from discount factors, such as {"1Y": "0.9975"}."""
        made = cls.__new__(cls)
        made.valuation, made.compounding, made._moves = day_of("valuation", valuation), None, ()
        made.points = made._asked("discounts", discounts, lambda name, time, figure: _positive(name, float(figure)))
        return made

    @classmethod
    def from_csv(cls, path: str, *, compounding: Optional[str] = None, valuation: Optional[When] = None) -> "Curve":
        """A curve from a file whose first line names its columns: tenor, years or date (as 2027-03-31), and percent or discount. compounding is
        needed for percent and only there."""
        kind, figures = _csv_figures(path)
        if kind == "discount":
            if compounding is not None:
                raise InputError(f"compounding: {path} has discounts, which need none")
            return cls.from_discounts(figures, valuation=valuation)
        if compounding is None:
            raise InputError(f"compounding: {path} has percent, so say which: {', '.join(COMPOUNDINGS)}")
        return cls(figures, compounding=compounding, valuation=valuation)

    @classmethod
    def from_series(cls, series: Any, *, compounding: str, valuation: Optional[When] = None) -> "Curve":
        """A curve from a pandas Series of percent, indexed by tenors, years or dates."""
        if not hasattr(series, "items"):
            raise InputError(f"series: a {type(series).__name__} is no Series")
        found: Dict[Any, Number] = {}
        for when, figure in series.items():
            if when in found:
                raise InputError(f"series: {shown(when)} stands there twice")
            found[when] = figure
        return cls(found, compounding=compounding, valuation=valuation)

    @classmethod
    def from_quantlib(cls, structure: Any, *, until: When, every: str = "1M") -> "Curve":
        """A curve from a QuantLib term structure: its discounts on each day from its reference date on, every so many
        months. What QuantLib itself refuses, such as a day past its curve's last one, is an InputError with its
        words."""
        if not hasattr(structure, "discount") or not hasattr(structure, "referenceDate"):
            raise InputError(f"structure: a {type(structure).__name__} is no QuantLib term structure")
        start = _of_quantlib("structure", structure.referenceDate)
        valuation = date(start.year(), int(start.month()), start.dayOfMonth())
        last, step = months("until", until, valuation), months("every", every, None)
        if last > MAX_STEPS * MONTHS_A_YEAR:
            raise InputError(f"until: {until} is past the longest tree, {MAX_STEPS} years")
        if not 1 <= step <= last:
            raise InputError(f"every: {every} is not between 1M and until, {until}")
        found = {}
        for count in range(step, last + 1, step):
            day = later(valuation, count)
            asked = type(start)(day.day, day.month, day.year)
            found[tenor(count)] = float(_of_quantlib("until", structure.discount, asked))
        return cls.from_discounts(found, valuation=valuation)

    def _asked(self, name: str, given: Any, discount: Any) -> List[Asked]:
        if isinstance(given, (str, bytes)) or not hasattr(given, "items"):
            raise InputError(f"{name}: a {type(given).__name__} maps no tenors to figures; give a dict such as {{'1Y': 0.1}}")
        found: Dict[Fraction, Asked] = {}
        for when, figure in given.items():
            named = f"{name}[{when!r}]" if isinstance(when, str) else f"{name}[{when}]"
            time, value = years(named, when, self.valuation), number(named, figure)
            if time <= 0:
                raise InputError(f"{named}: a point stands after today")
            if time in found:
                raise InputError(f"{named}: {found[time].name} is the same time")
            found[time] = Asked(time, str(when), value, discount(named, time, value))
        if not found:
            raise InputError(f"{name}: there is no point")
        return [found[time] for time in sorted(found)]

    @property
    def last(self) -> Fraction:
        """The time of the last point in years."""
        return self.points[-1].years

    def moved(self, basis_points: Number, *, at: Optional[str] = None, keys: Sequence[str] = ()) -> "Curve":
        """The curve with its continuous zero rates moved: all of them, or with keys those about one of the key tenors, by so much there and
        nothing from the next key on. The moves of all keys add up to that of the whole curve."""
        size = float(number("basis_points", basis_points))
        if not isinstance(keys, (list, tuple)) or not all(isinstance(each, str) for each in keys):
            raise InputError(f"keys: {shown(keys)} are no tenors")
        knots: Tuple[Tuple[Fraction, float], ...] = ((Fraction(0), size),)
        if at is not None:
            times = {each: years("keys", each, self.valuation) for each in keys}
            if not isinstance(at, str) or at not in times:
                raise InputError(f"at: {shown(at)} is none of the keys")
            knots = tuple(sorted((time, size if each == at else 0.0) for each, time in times.items()))
        made = Curve.__new__(Curve)
        made.__dict__.update(self.__dict__)
        made._moves = (*self._moves, knots)
        return made

    def discount(self, when: Times) -> float:
        """The discount at a tenor, a number of years or a date, by log-linear discounts."""
        return self._discount("when", years("when", when, self.valuation))

    def _discount(self, name: str, time: Fraction) -> float:
        if not 0 <= time <= self.last:
            raise InputError(f"{name}: {float(time):g} years are not on the curve, which goes from today to {self.points[-1].name}")
        before = Asked(Fraction(0), "today", Decimal(0), 1.0)
        for after in self.points:
            if time <= after.years:
                break
            before = after
        part = float((time - before.years) / (after.years - before.years))
        logarithm = math.log(after.discount) if part == 1 else (1 - part) * math.log(before.discount) + part * math.log(after.discount)
        if not self._moves:
            return after.discount if part == 1 else math.exp(logarithm)
        moved = sum(_interpolated(knots, time) for knots in self._moves)
        return _positive(name, power(math.e, logarithm - moved / BASIS_POINTS * float(time)))

    def quotes(self, frequency: int, steps: int) -> Quotes:
        """What the engine is handed: a discount factor for each row, 1 to steps."""
        whole("frequency", frequency, FREQUENCIES)
        whole("steps", steps, range(1, MAX_STEPS + 1))
        return Quotes([Point(row, DISCOUNT_FACTOR, self._discount("steps", Fraction(row, frequency))) for row in range(1, steps + 1)])

    def rows(self, frequency: Optional[int] = None) -> Table:
        """A line for each row: what was asked there, whether its discount is quoted or log-linear, the float that the engine is handed, and the
        billionths that it takes for it. Without a frequency the finest that reaches the last point with at most 60 rows."""
        if frequency is None:
            frequency = next((each for each in FREQUENCIES if self.last * each <= MAX_STEPS), 1)
        steps = min(MAX_STEPS, int(self.last * whole("frequency", frequency, FREQUENCIES)))
        if steps == 0:
            raise InputError(f"frequency: at {frequency} steps a year no row is on the curve, which ends at {self.points[-1].name}")
        quotes = list(self.quotes(frequency, steps))
        taken = curve_discounts(frequency, steps, quotes)
        asked = {point.years: point for point in self.points}
        lines: List[Tuple[Any, ...]] = []
        for point, discount in zip(quotes, taken):
            time = Fraction(point.row, frequency)
            found = asked.get(time)
            zero = Decimal(repr(round(-100 * math.log(point.figure) / float(time), 6)))
            lines.append((point.row, tenor(int(time * MONTHS_A_YEAR)), found and found.figure, "quoted" if found else "log-linear", point.figure,
                          discount, zero))
        unit = "discount" if self.compounding is None else f"{self.compounding} percent"
        return Table(("row", "tenor", f"asked, {unit}", "how", "handed to the engine", "taken, billionths", "continuous zero rate, percent"), lines)

    def table(self, frequency: Optional[int] = None) -> Any:
        """The rows of a frequency, as a pandas DataFrame where pandas is installed."""
        return framed(self.rows(frequency))

    def __repr__(self) -> str:
        kind = "discounts" if self.compounding is None else f"{self.compounding} percent"
        moved = ", moved" if self._moves else ""
        return f"<Curve of {len(self.points)} points to {self.points[-1].name}, {kind}, log-linear discounts between{moved}>"

    def _repr_svg_(self) -> str:
        times = [self.last * k / 120 for k in range(1, 121)]
        rates = [(float(time), -100 * math.log(self._discount("when", time)) / float(time)) for time in times]
        marks = [(float(point.years), -100 * math.log(self._discount("when", point.years)) / float(point.years)) for point in self.points]
        return picture.curve_svg(rates, marks)


def _of_quantlib(name: str, function: Callable[..., Any], *given: Any) -> Any:
    """What QuantLib answers; what it refuses in its own words is told as an input's fault."""
    try:
        return function(*given)
    except RuntimeError as error:
        raise InputError(f"{name}: QuantLib refuses: {error}") from None


def _of_rate(name: str, compounding: str, time: Fraction, percent: Decimal) -> float:
    rate, length = float(percent) / 100, float(time)
    if compounding == "continuous":
        return _positive(name, power(math.e, -rate * length))
    grown = 1 + rate * length if compounding == "simple" else 1 + rate
    if grown <= 0:
        raise InputError(f"{name}: at {percent} % nothing is left")
    return 1 / grown if compounding == "simple" else _positive(name, power(grown, -length))


def power(base: float, exponent: float) -> float:
    """A power, infinite where floats end."""
    try:
        return math.exp(exponent) if base == math.e else math.pow(base, exponent)
    except OverflowError:
        return math.inf


def _positive(name: str, discount: float) -> float:
    if not 0 < discount < math.inf:
        raise InputError(f"{name}: {discount} is no discount factor")
    return discount


def _warn_of_rates(rates: Iterable[Decimal]) -> None:
    sizes = [abs(rate) for rate in rates]
    if max(sizes) > 20:
        warn("rates", f"{max(sizes)} % is above 20 %; rates are in percent")
    elif 0 < max(sizes) < Decimal("0.1"):
        warn("rates", f"none is above {max(sizes)} %; rates are in percent, 3 for 3 %")


def _interpolated(knots: Sequence[Tuple[Fraction, float]], time: Fraction) -> float:
    """The size of a move at a time: linear between its knots, level before the first and after the last."""
    if time <= knots[0][0]:
        return knots[0][1]
    for (start, low), (end, high) in zip(knots, knots[1:]):
        if time <= end:
            return low + (high - low) * float((time - start) / (end - start))
    return knots[-1][1]


def _csv_figures(path: str) -> Tuple[str, Dict[Any, Number]]:
    """The kind of the figures, percent or discount, and the figures by time."""
    try:
        with open(path, newline="", encoding="utf-8-sig") as file:
            first = file.readline()
            lines = list(csv.reader([first, *file], delimiter=";" if ";" in first else ","))
    except (OSError, ValueError, TypeError, csv.Error) as error:
        raise InputError(f"path: {shown(path)} cannot be read ({getattr(error, 'strerror', None) or 'no text in UTF-8'})") from None
    heads = [head.strip().lower() for head in lines[0]] if lines else []
    time, kind = _csv_column(path, heads, ("tenor", "years", "date")), _csv_column(path, heads, ("percent", "discount"))
    found: Dict[Any, Number] = {}
    for place, line in enumerate(lines[1:], 2):
        if any(cell.strip() for cell in line):
            if len(line) > len(heads):
                warn(f"line {place} of {path}", f"{len(line)} cells, and the first line has {len(heads)}; the further ones are passed over, "
                                                "and with decimal commas the cells stand between semicolons")
            key, figure = _csv_point(f"line {place} of {path}", dict(zip(heads, line)), time, kind)
            if key in found:
                raise InputError(f"line {place} of {path}: {key} stands there before")
            found[key] = figure
    return kind, found


def _csv_column(path: str, heads: List[str], words: Tuple[str, ...]) -> str:
    """The one column of these names."""
    found = [head for head in heads if head in words]
    listed = f"{', '.join(words[:-1])} or {words[-1]}"
    if len(found) != 1:
        which = f"the columns {' and '.join(found)}, and one is wanted: {listed}" if found else f"no column {listed}"
        raise InputError(f"path: the first line of {path} names {which}")
    return found[0]


def _csv_point(name: str, cells: Dict[str, str], time: str, kind: str) -> Tuple[Any, str]:
    when, figure = cells.get(time, "").strip(), cells.get(kind, "").strip().replace(",", ".")
    number(name, figure)
    if time != "date":
        return when, figure
    try:
        return date.fromisoformat(when), figure
    except ValueError:
        raise InputError(f"{name}: {when!r} is no date such as 2027-03-31") from None


class Model(Tabled):
    """The model's yearly figures: volatility_bp, absolute, in basis points a year (70 is 0.7 %), and reversion a year (0.03 is 3 %).

    version is how the engine takes the reversion over a step, 1 or 2. The engine's own units are millionths a year and ten-thousandths a step:
    handed() gives them for a frequency, to the nearest, and rows() what of the yearly figures is left.
    """

    def __init__(self, volatility_bp: Number, reversion: Number, *, version: int = 1) -> None:
        self.volatility_bp, self.reversion = number("volatility_bp", volatility_bp), number("reversion", reversion)
        self.version = whole("version", version, (1, 2))
        for name, figure in (("volatility_bp", self.volatility_bp), ("reversion", self.reversion)):
            if figure < 0:
                raise InputError(f"{name}: {figure} is below zero")
        if self.volatility_bp > 500:
            warn("volatility_bp", f"{self.volatility_bp} is above 500; it is in basis points a year, 70 for 0.7 %")
        elif 0 < self.volatility_bp < 1:
            warn("volatility_bp", f"{self.volatility_bp} is below 1; it is in basis points a year, 70 for 0.7 %")
        if self.reversion > 1:
            warn("reversion", f"{self.reversion} is above 1 a year; it is a part of one, 0.03 for 3 %")

    def handed(self, frequency: int) -> Tuple[int, int]:
        """Reversion and volatility in the engine's units for so many steps a year."""
        whole("frequency", frequency, FREQUENCIES)
        return _nearest(Fraction(self.reversion) * BASIS_POINTS / frequency), _nearest(Fraction(self.volatility_bp) * 100)

    def with_volatility(self, volatility_bp: Number) -> "Model":
        """The same model with another volatility."""
        made = Model.__new__(Model)
        made.volatility_bp, made.reversion, made.version = number("volatility_bp", volatility_bp), self.reversion, self.version
        if made.volatility_bp < 0:
            raise InputError(f"volatility_bp: {made.volatility_bp} is below zero")
        return made

    def rows(self, frequency: Optional[int] = None) -> Table:
        """For one frequency, or all: what was asked, what the engine is handed, and which yearly figure that is."""
        lines: List[Tuple[Any, ...]] = []
        for each in FREQUENCIES if frequency is None else (frequency,):
            reversion, volatility = self.handed(each)
            taken = Decimal(reversion * each) / BASIS_POINTS
            lines += [(each, "reversion", self.reversion, reversion, taken, "exact" if taken == self.reversion else "rounded"),
                      (each, "volatility, bp", self.volatility_bp, volatility, Decimal(volatility) / 100,
                       "exact" if Decimal(volatility) / 100 == self.volatility_bp else "rounded")]
        return Table(("steps a year", "figure", "asked, a year", "handed to the engine", "which is a year", "how"), lines)

    def rounding(self, frequency: int) -> List[str]:
        """A sentence for each figure that the engine's units round."""
        return [f"{line['figure']} {line['asked, a year']} a year was handed over as {line['which is a year']}" for line in self.rows(frequency)
                if line["how"] == "rounded"]

    def __repr__(self) -> str:
        return f"Model(volatility_bp={self.volatility_bp}, reversion={self.reversion}, version={self.version})"

    __str__ = __repr__


def _nearest(value: Fraction) -> int:
    """The nearest whole number, a half upwards; the values are not below zero."""
    return math.floor(value + Fraction(1, 2))
