"""The haircut bands of document 02, request (xi): the verdict on a table of bands, and the lending worth of a price by it.

A table is five lists of one length: first rows, last rows, lowest prices, highest prices and haircuts. The verdict tries every row and, of its
prices, those at which the bands that hold a pair can change; between two of them every price is in the same bands as the earlier one.
"""
from collections import namedtuple

from reference import ONE

ROWS = range(1, 61)
HIGHEST_PRICE = 8 * ONE
WHOLE = 10_000
MOST_BANDS = 40

Band = namedtuple('Band', 'first_row last_row lowest highest haircut')
# The pair of row and price that fails, or the place of the bad band; number 0 and zeros where the table is accepted.
Verdict = namedtuple('Verdict', 'number row price place')
Worth = namedtuple('Worth', 'number worth row price place')
ACCEPTED = Verdict(0, 0, 0, 0)


def is_price(price):
    return 0 <= price <= HIGHEST_PRICE


def is_good(band):
    """Each start and end is in range by itself, and no end stands before its start."""
    return (band.first_row in ROWS and band.last_row in ROWS and band.first_row <= band.last_row
            and is_price(band.lowest) and is_price(band.highest) and band.lowest <= band.highest and 0 <= band.haircut <= WHOLE)


def holds(band, row, price):
    return band.first_row <= row <= band.last_row and band.lowest <= price <= band.highest


def bad_place(bands):
    """The place of the first bad band, from 1; 41 where only the number of bands is wrong; 0 where nothing is."""
    for place, band in enumerate(bands, 1):
        if not is_good(band):
            return place
    return MOST_BANDS + 1 if len(bands) > MOST_BANDS else 0


def change_points(bands):
    """The prices at which a row's bands can change, rising: a band begins at its lowest price and is over after its highest."""
    points = {0} | {band.lowest for band in bands} | {band.highest + 1 for band in bands}
    return sorted(price for price in points if is_price(price))


def verdict(first_rows, last_rows, lowest, highest, haircuts):
    columns = first_rows, last_rows, lowest, highest, haircuts
    if len(set(map(len, columns))) > 1:
        return Verdict(6, 0, 0, 0)
    bands = [Band(*band) for band in zip(*columns)]
    place = bad_place(bands)
    if place:
        return Verdict(16, 0, 0, place)
    for row in ROWS:
        for price in change_points(bands):
            holding = sum(holds(band, row, price) for band in bands)
            if holding != 1:
                return Verdict(18 if holding else 17, row, price, 0)
    return ACCEPTED


def lending_worth(first_rows, last_rows, lowest, highest, haircuts, row, price):
    """The causes that a call alone has come before those of its table: 6, 12, then what the verdict says."""
    columns = first_rows, last_rows, lowest, highest, haircuts
    if row not in ROWS or len(set(map(len, columns))) > 1:
        return Worth(6, 0, 0, 0, 0)
    if not is_price(price):
        return Worth(12, 0, 0, 0, 0)
    number, *shown = verdict(*columns)
    if number:
        return Worth(number, 0, *shown)
    [band] = [band for band in map(Band._make, zip(*columns)) if holds(band, row, price)]
    return Worth(0, price * (WHOLE - band.haircut) // WHOLE, 0, 0, 0)
