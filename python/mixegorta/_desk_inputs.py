"""What a desk writes, as numbers: percent, tenors and days. Beside the proved core; nothing here is proved."""
import calendar
import operator
import os
import re
import sys
import warnings
from datetime import date, datetime
from decimal import Decimal, InvalidOperation
from fractions import Fraction
from typing import Any, Iterable, List, Optional, Union

from .amounts import shown

FREQUENCIES = (12, 4, 2, 1)
MONTHS_A_YEAR = 12
# Simple yearly rates and yearly yields as the engine calls them, and what of them looks like percent.
RATE_KINDS, ODD_RATE = (6, 9), 0.2
ISO_DATE = re.compile(r"\d{4}-\d{2}-\d{2}", re.ASCII)
TENOR = re.compile(r"(?:(\d{1,3})Y)?(?:(\d{1,4})M)?", re.ASCII | re.IGNORECASE)
NUMBER = re.compile(r"[+-]?(\d+\.?\d*|\.\d+)(e[+-]?\d+)?", re.ASCII | re.IGNORECASE)
Number = Union[int, float, str, Decimal]
When = Union[str, date]


class InputError(ValueError):
    """An input that cannot be taken. The sentence begins with the argument's name."""


class UnitWarning(UserWarning):
    """A figure that looks as if it were given in another unit. It is taken as it stands."""


def warn(name: str, words: str) -> None:
    """Says that a figure looks like a wrong unit, at the line of whoever called the package."""
    level, frame = 1, sys._getframe()
    while frame.f_back is not None and os.path.dirname(frame.f_code.co_filename) == os.path.dirname(__file__):
        level, frame = level + 1, frame.f_back
    warnings.warn(f"{name}: {words}", UnitWarning, stacklevel=level)


def warn_of_quotes(name: str, rows: Iterable[int], kinds: Iterable[int], figures: Iterable[float]) -> None:
    """Says of the first rate or yield that looks like percent, as mixegorta.desk and texts do; it is taken as it
    stands."""
    for row, kind, figure in zip(rows, kinds, figures):
        if kind in RATE_KINDS and ODD_RATE < abs(figure) < float("inf"):
            warn(name, f"row {row} has a rate of {figure:g}, which is {100 * figure:g} % a year; it is a part of one, "
                       f"{figure / 100:g} for {figure:g} %")
            return


def number(name: str, given: Any) -> Decimal:
    """A finite number as the digits that were written; of a float the shortest that give it."""
    if isinstance(given, bool) or not isinstance(given, (int, float, str, Decimal)):
        given = _plain(name, given)
    try:
        found = Decimal(repr(given)) if isinstance(given, float) else Decimal(given)
    except (InvalidOperation, ValueError):
        raise InputError(f"{name}: {shown(given)} is no number") from None
    if not found.is_finite():
        raise InputError(f"{name}: {shown(given)} is no finite number")
    if found and not -15 <= found.adjusted() <= 15:
        raise InputError(f"{name}: {shown(given)} is no figure of a desk")
    return found


def _plain(name: str, given: Any) -> Any:
    """A number of another library, such as numpy's, as a plain one."""
    try:
        plain = given.item() if type(given).__module__ == "numpy" and hasattr(given, "item") else None
    except ValueError:
        raise InputError(f"{name}: an array of {given.size} is no number") from None
    if isinstance(plain, bool) or not isinstance(plain, (int, float)):
        raise InputError(f"{name}: {shown(given)} is no number")
    return plain


def whole(name: str, given: Any, allowed: Any) -> int:
    """One of the whole numbers that are allowed."""
    try:
        found = None if isinstance(given, bool) else operator.index(given)
    except TypeError:
        found = None
    if found is None or found not in allowed:
        listed = f"{allowed.start} to {allowed.stop - 1}" if isinstance(allowed, range) else ", ".join(map(str, sorted(allowed)))
        raise InputError(f"{name}: {shown(given)} is none of {listed}")
    return found


def day_of(name: str, given: Any) -> Optional[date]:
    """A day without its time, also of a text such as 2027-03-31; None where none is given."""
    try:
        if isinstance(given, datetime):
            return given.date()
        if isinstance(given, str) and ISO_DATE.fullmatch(given.strip()):
            return date.fromisoformat(given.strip())
    except ValueError:
        raise InputError(f"{name}: {shown(given)} is no date of the calendar") from None
    if given is None or isinstance(given, date):
        return given
    raise InputError(f"{name}: {shown(given)} is no date; give a datetime.date, or a text such as '2027-03-31'")


def _is_day(given: Any) -> bool:
    """Whether what stands for a time is a date, as such or as a text."""
    return isinstance(given, date) or isinstance(given, str) and ISO_DATE.fullmatch(given.strip()) is not None


def later(start: date, months: int) -> date:
    """The same day so many months later, or the month's last where it has no such day."""
    year, month = divmod(start.year * MONTHS_A_YEAR + start.month - 1 + months, MONTHS_A_YEAR)
    if not 1 <= year <= 9999:
        raise InputError(f"valuation: {start} and {tenor(abs(months))} leave the calendar")
    return date(year, month + 1, min(start.day, calendar.monthrange(year, month + 1)[1]))


def tenor(months: int) -> str:
    """Whole months as a tenor such as 10Y, 3M or 1Y6M; today is 0M."""
    years, rest = divmod(months, MONTHS_A_YEAR)
    return (f"{years}Y" if years else "") + (f"{rest}M" if rest or not years else "")


def _whole_months(start: date, end: date) -> int:
    """The most months after which the day is not past the end."""
    months = (end.year - start.year) * MONTHS_A_YEAR + end.month - start.month
    return months - (later(start, months) > end)


def months(name: str, given: Any, valuation: Optional[date]) -> int:
    """Whole months from today: of a tenor, or of a day, which needs the valuation date and falls on its day of a month."""
    if isinstance(given, str) and not _is_day(given):
        return _months_of_tenor(name, given)
    day = day_of(name, given) if _is_day(given) else None
    if day is None:
        raise InputError(f"{name}: {shown(given)} is no tenor such as '10Y', '3M' or '1Y6M', and no date")
    if valuation is None:
        raise InputError(f"{name}: the date {day} needs a valuation date, valuation=")
    if day < valuation:
        raise InputError(f"{name}: {day} is before the valuation date {valuation}")
    found = _whole_months(valuation, day)
    if later(valuation, found) != day:
        near = [later(valuation, each) for each in (found, found + 1)]
        raise InputError(f"{name}: {day} is no whole number of months after the valuation date {valuation}; the nearest days that are: "
                         + ", ".join(map(str, near)))
    return found


def _months_of_tenor(name: str, text: str) -> int:
    found = TENOR.fullmatch(text.strip())
    if not found or not any(found.groups()):
        raise InputError(
            f"{name}: {shown(text)} is no tenor such as '10Y', '3M' or '1Y6M', and no date such as '2027-03-31'")
    return int(found[1] or 0) * MONTHS_A_YEAR + int(found[2] or 0)


def years(name: str, given: Any, valuation: Optional[date]) -> Fraction:
    """Years from today: of a tenor, a number of years, or a day, which is counted in months and the part of the month it ends in."""
    if isinstance(given, str) and TENOR.fullmatch(given.strip()):
        return Fraction(_months_of_tenor(name, given), MONTHS_A_YEAR)
    if isinstance(given, str) and not _is_day(given) and not NUMBER.fullmatch(given.strip()):
        raise InputError(f"{name}: {shown(given)} is no tenor such as '10Y', '3M' or '1Y6M', no number of years and no "
                         "date such as '2027-03-31'; weeks and days are dates or parts of a year")
    if not _is_day(given):
        return Fraction(number(name, given))
    day = day_of(name, given)
    if valuation is None or day is None:
        raise InputError(f"{name}: the date {day} needs a valuation date, valuation=")
    if day < valuation:
        raise InputError(f"{name}: {day} is before the valuation date {valuation}")
    count = _whole_months(valuation, day)
    start, end = later(valuation, count), later(valuation, count + 1)
    return (count + Fraction((day - start).days, (end - start).days)) / MONTHS_A_YEAR


def steps_of(count: int, frequency: int) -> Optional[int]:
    """The row on which so many months end; None where they end between two."""
    row, rest = divmod(count * frequency, MONTHS_A_YEAR)
    return None if rest else row


def steps_a_year(frequency: int) -> str:
    """How a sentence tells a frequency."""
    return f"{frequency} step{'s' if frequency > 1 else ''} a year"


def fitting_frequencies(days: List[int], most: int) -> List[int]:
    """The frequencies, finest first, on whose rows all these months fall, with at most so many rows."""
    return [each for each in FREQUENCIES if all(steps_of(count, each) is not None for count in days) and max(days) * each <= most * MONTHS_A_YEAR]


def row(name: str, count: int, frequency: int, most: int, valuation: Optional[date]) -> int:
    """The row of so many months; what falls on none is an error that names what would."""
    found = steps_of(count, frequency)
    if found is not None and found <= most:
        return found
    fits = fitting_frequencies([count], most)
    told = f"frequencies that do: {', '.join(map(str, fits))}" if fits else "no frequency does"
    if found is not None:
        raise InputError(f"{name}: {tenor(count)} is row {found} at {frequency} steps a year, and a tree has at most {most}; {told}")
    length = MONTHS_A_YEAR // frequency
    near = [count - count % length, count - count % length + length]
    days = [f"{tenor(each)} ({later(valuation, each)})" if valuation else tenor(each) for each in near]
    raise InputError(f"{name}: {tenor(count)} falls on no row of {frequency} steps a year; the nearest rows: {' and '.join(days)}; {told}")
