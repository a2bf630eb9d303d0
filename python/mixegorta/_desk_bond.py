"""Bonds with flows and exercise days on the rows of a tree. Beside the proved core; nothing here is proved."""
from datetime import date
from decimal import Decimal
from fractions import Fraction
from typing import Any, Iterable, List, Optional, Tuple, Union

from ._desk_inputs import FREQUENCIES, MONTHS_A_YEAR, InputError, Number, When, day_of, fitting_frequencies, later
from ._desk_inputs import months, number, row, steps_a_year, steps_of, tenor, warn, whole
from ._engine import CALL, PUT
from ._limits import MAX_STEPS, ONE

Days = Union[When, Iterable[When]]
HUNDRED = 100
# So many days are named in a sentence.
MOST_NAMED = 6


class Bond:
    """A bond per 100 of its notional: coupon in percent a year, paid coupons_a_year times, counted back from maturity.

    maturity is a tenor such as "10Y", or a date with valuation, the date of today's row. redemption is paid with the last coupon. Today's
    coupon, if today is its day, is not part of the bond. Accrued interest is by whole months: the coupon times the part of its period that is gone.
    Days are whole months apart and not adjusted to a calendar.
    """

    def __init__(self, coupon: Number, maturity: When, *, coupons_a_year: int = 1, redemption: Number = HUNDRED,
                 valuation: Optional[When] = None) -> None:
        self.coupon, self.redemption = number("coupon", coupon), number("redemption", redemption)
        self.valuation = day_of("valuation", valuation)
        self.coupons_a_year = whole("coupons_a_year", coupons_a_year, (1, 2, 4, 12))
        self.months = months("maturity", maturity, self.valuation)
        if self.months < 1:
            raise InputError(f"maturity: {maturity} is not after today")
        for name, figure in (("coupon", self.coupon), ("redemption", self.redemption)):
            if figure < 0:
                raise InputError(f"{name}: {figure} is below zero, and flows are not")
        if self.coupon > 20:
            warn("coupon", f"{self.coupon} % a year is above 20 %")
        elif 0 < self.coupon / self.coupons_a_year < Decimal("0.1"):
            warn("coupon", f"{self.coupon} % a year are flows below a thousandth of the notional; it is in percent, 1.5 for 1.5 %")
        if not 10 <= self.redemption <= 200:
            warn("redemption", f"{self.redemption} is far from par; it is per 100 of the notional")

    @property
    def period(self) -> int:
        """Months from coupon to coupon."""
        return MONTHS_A_YEAR // self.coupons_a_year

    def coupon_months(self) -> List[int]:
        """The coupon days from now on, in months from today."""
        return sorted(range(self.months, 0, -self.period))

    def coupon_days(self, first: Optional[When] = None, last: Optional[When] = None) -> List[str]:
        """The coupon days before maturity as tenors, from a first to a last; such as a note's call days."""
        low = 0 if first is None else months("first", first, self.valuation)
        high = self.months if last is None else months("last", last, self.valuation)
        return [tenor(count) for count in self.coupon_months() if low <= count <= high and count < self.months]

    def accrued(self, count: int = 0) -> Fraction:
        """The interest that has accrued since the last coupon, so many months from today, per 100."""
        left = (self.months - count) % self.period
        return Fraction(self.coupon) / self.coupons_a_year * Fraction(self.period - left if left else 0, self.period)

    def flows(self, frequency: int) -> Tuple[List[int], List[str]]:
        """The flows of rows 1 to n in billionths, and a sentence where they are rounded."""
        steps = row("maturity", self.months, frequency, MAX_STEPS, self.valuation)
        coupon = Fraction(self.coupon) / self.coupons_a_year / HUNDRED * ONE
        last = coupon + Fraction(self.redemption) / HUNDRED * ONE
        flows = [0] * steps
        for count in self.coupon_months():
            place = row("coupons_a_year", count, frequency, MAX_STEPS, self.valuation)
            flows[place - 1] = round(last if count == self.months else coupon)
        notes = [] if coupon.denominator == last.denominator == 1 else ["the flows were handed over to the nearest billionth"]
        return flows, notes

    def days(self) -> List[int]:
        """The months from today that must fall on rows."""
        return self.coupon_months()

    def callable(self, on: Days, at: Number = HUNDRED) -> "BondWithOption":
        """The bond that its issuer may call, on these days, at this clean price per 100."""
        return BondWithOption(self, "callable", on, at)

    def puttable(self, on: Days, at: Number = HUNDRED) -> "BondWithOption":
        """The bond that its holder may sell back, on these days, at this clean price per 100."""
        return BondWithOption(self, "puttable", on, at)

    def __repr__(self) -> str:
        return f"<Bond {self.coupon} % {self.coupons_a_year} times a year to {self.named(self.months)}>"

    def named(self, count: int) -> str:
        """A day as a tenor, with its date where the valuation date is known."""
        return tenor(count) if self.valuation is None else f"{tenor(count)} ({later(self.valuation, count)})"


class BondWithOption:
    """A bond with the right to call or to put it, on listed days at one price. The holder's price is bond less call, or bond and put."""

    def __init__(self, bond: Bond, kind: str, on: Days, at: Number) -> None:
        self.bond, self.kind, self.at = bond, kind, number("at", at)
        self.exercise = _exercise_months(on, bond)
        if not 10 <= self.at <= 200:
            warn("at", f"{self.at} is far from par; the price of exercise is per 100 of the notional")
        if self.at < 0:
            raise InputError(f"at: {self.at} is below zero")
        accrued = {bond.accrued(count) for count in self.exercise}
        if len(accrued) > 1:
            raise InputError("on: the days have different accrued interest, and the engine has one strike for all; give coupon days, as coupon_days() does, "
                             "or days that stand alike between two coupons")
        self.accrued = accrued.pop()

    @property
    def side(self) -> int:
        """CALL or PUT, as the engine calls it."""
        return CALL if self.kind == "callable" else PUT

    def strike(self, at: Optional[Number] = None) -> int:
        """The strike in billionths: the clean price and what has accrued on the days of exercise."""
        clean = self.at if at is None else number("at", at)
        return round((Fraction(clean) + self.accrued) / HUNDRED * ONE)

    def dates(self, frequency: int) -> List[int]:
        """The rows of exercise."""
        return [row("on", count, frequency, MAX_STEPS, self.bond.valuation) for count in self.exercise]

    def days(self) -> List[int]:
        """The months from today that must fall on rows."""
        return sorted({*self.bond.days(), *self.exercise})

    def __repr__(self) -> str:
        return f"<{self.kind} {self.bond!r} at {self.at} on {', '.join(map(self.bond.named, self.exercise))}>"


Instrument = Union[Bond, BondWithOption]


def _exercise_months(on: Any, bond: Bond) -> List[int]:
    listed = [on] if isinstance(on, (str, date)) else on
    if isinstance(listed, (bytes, dict, set, frozenset)) or not hasattr(listed, "__iter__"):
        raise InputError(f"on: a {type(on).__name__} is no list of days")
    found = [months(f"on[{place}]", each, bond.valuation) for place, each in enumerate(listed)]
    if not found:
        raise InputError("on: there is no day")
    if sorted(set(found)) != found:
        raise InputError("on: the days are not in order, each once")
    if found[-1] >= bond.months:
        raise InputError(f"on: {bond.named(found[-1])} is not before maturity, {bond.named(bond.months)}")
    return found


def frequency_of(instrument: Instrument, frequency: Optional[int]) -> int:
    """The frequency that was asked for, or the finest on whose rows everything falls."""
    if frequency is not None:
        return whole("frequency", frequency, FREQUENCIES)
    fits = fitting_frequencies(instrument.days(), MAX_STEPS)
    if not fits:
        bond = instrument if isinstance(instrument, Bond) else instrument.bond
        raise InputError(_no_frequency(bond, instrument.days()))
    return fits[0]


def _no_frequency(bond: Bond, days: List[int]) -> str:
    """Why no frequency will do: days between the rows of a year, and more rows than a tree has where they fall on some;
    where every day falls on a year's row, years alone are too many."""
    between = [bond.named(count) for count in days if steps_of(count, 1) is None]
    if not between:
        return f"maturity: {bond.named(bond.months)} is row {steps_of(bond.months, 1)} at {steps_a_year(1)}, and a tree has at most {MAX_STEPS}"
    more = f" and {len(between) - MOST_NAMED} more" if len(between) > MOST_NAMED else ""
    return (f"maturity: no frequency has all days to {bond.named(bond.months)} on at most {MAX_STEPS} rows; "
            f"days that do not fall on a year's row: {', '.join(between[:MOST_NAMED])}{more}")


def other_frequency(instrument: Instrument, frequency: int) -> Optional[int]:
    """The frequency to compare with: the next finer one on which everything falls, else the next coarser."""
    fits = fitting_frequencies(instrument.days(), MAX_STEPS)
    finer, coarser = [each for each in fits if each > frequency], [each for each in fits if each < frequency]
    return finer[-1] if finer else coarser[0] if coarser else None
