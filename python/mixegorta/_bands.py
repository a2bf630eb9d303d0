"""Haircut bands: what is lent on a bond by its last row and its price."""
from typing import Any, Iterable, Iterator, NamedTuple, Optional, Tuple, Union

from ._arguments import Slice, amount, amounts, columns, numbers, u64
from ._faults import accepted, call, refusal
from .amounts import Amount, Amounts
from .refusals import Refused

__all__ = ["Band", "Bands", "check_bands", "lending_worth"]

BAND = "Band(first_row, last_row, lowest_price, highest_price, haircut)"


class Band(NamedTuple):
    """A band of a table: rows first_row to last_row, 1 to 60, prices lowest_price to highest_price, 0 to MAX_VALUE, both ends in it, and the
    haircut, 0 to MAX_HAIRCUT ten-thousandths. A row is a bond's last row n."""

    first_row: int
    last_row: int
    lowest_price: Amount
    highest_price: Amount
    haircut: int


BandLike = Union[Band, Tuple[int, int, Amount, Amount, int]]


def _lists(first_rows: Iterable[int], last_rows: Iterable[int], lowest_prices: Amounts, highest_prices: Amounts, haircuts: Iterable[int]) -> Tuple[Slice, ...]:
    return (numbers("first_rows", first_rows), numbers("last_rows", last_rows), amounts("lowest_prices", lowest_prices),
            amounts("highest_prices", highest_prices), numbers("haircuts", haircuts))


def _worth(*given: Any) -> int:
    answer = call("lending_worth", *given)
    accepted(answer.verdict.number, "lending_worth", given, answer.verdict)
    return int(answer.worth)


def check_bands(first_rows: Iterable[int], last_rows: Iterable[int], lowest_prices: Amounts, highest_prices: Amounts, haircuts: Iterable[int]) -> None:
    """Raises what is wrong with a table in five lists, of which the k-th numbers are the k-th band; nothing where it is accepted."""
    given = _lists(first_rows, last_rows, lowest_prices, highest_prices, haircuts)
    verdict = call("check_bands", *given)
    accepted(verdict.number, "check_bands", given, verdict)


def lending_worth(first_rows: Iterable[int], last_rows: Iterable[int], lowest_prices: Amounts, highest_prices: Amounts, haircuts: Iterable[int],
                  row: int, price: Amount) -> int:
    """What is lent on a bond of this last row and price by a table in five lists, in billionths: the price less the haircut of its band, down."""
    return _worth(*_lists(first_rows, last_rows, lowest_prices, highest_prices, haircuts), u64("row", row), amount("price", price))


class Bands:
    """A table of bands. It is accepted where it has at most MAX_BANDS good bands and each row 1 to 60 with each price 0 to MAX_VALUE is in
    precisely one of them. Nothing is judged before verdict() or worth()."""

    def __init__(self, bands: Iterable[BandLike]) -> None:
        fields = ("Q", u64), ("Q", u64), ("Q", amount), ("Q", amount), ("Q", u64)
        self._columns = columns("bands", BAND, bands, fields)

    def __iter__(self) -> Iterator[Band]:
        return map(Band, *self._columns)

    def __len__(self) -> int:
        return self._columns[0].count

    def __repr__(self) -> str:
        return f"Bands({list(self)})"

    def verdict(self) -> Optional[Refused]:
        """What is wrong with the table: a BadBand with its place, a PairInNoBand or a PairInSeveralBands with row and price; None where it is
        accepted."""
        verdict = call("check_bands", *self._columns)
        return refusal(verdict.number, "check_bands", tuple(self._columns), verdict) if verdict.number else None

    def worth(self, row: int, price: Amount) -> int:
        """What is lent on a bond of this last row, 1 to 60, and price, in billionths: the price less the haircut of its band, down. Raises
        NotInTree for a row and ValueTooLarge for a price that is out of range, then what verdict() tells of the table."""
        return _worth(*self._columns, u64("row", row), amount("price", price))
