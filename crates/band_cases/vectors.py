#!/usr/bin/env python3
"""The input of the program of this crate, and what it must write for it, worked out from document 02, request (xi), alone.

    vectors.py    writes the files stdin and stdout beside itself

A verdict comes from a walk over all change points, of rows and of prices: the bands that contain a pair can change only where a band begins or after it ends.
"""
import os
import random
import struct

ONE = 10 ** 9
TOP = 8 * ONE
ROWS = 60
WHOLE = 1, ROWS, 0, TOP, 250
random.seed(11)


# ---- what document 02 says

def bad(first, last, lowest, highest, haircut):
    rows_wrong = not 1 <= first <= ROWS or not 1 <= last <= ROWS or last < first
    prices_wrong = lowest > TOP or highest > TOP or highest < lowest
    return rows_wrong or prices_wrong or haircut > 10_000


def starts(pieces, least, most):
    """Where something begins, or begins to be over: the change points of pieces from first to last, both included."""
    return sorted({least} | {point for first, last in pieces for point in (first, last + 1) if least <= point <= most})


def verdict(columns):
    if len({len(column) for column in columns}) > 1:
        return 6, 0, 0, 0
    table = list(zip(*columns))
    for place, band in enumerate(table):
        if bad(*band):
            return 16, 0, 0, place + 1
    if len(table) > 40:
        return 16, 0, 0, 41
    for row in starts([band[0:2] for band in table], 1, ROWS):
        here = [band for band in table if band[0] <= row <= band[1]]
        for price in starts([band[2:4] for band in here], 0, TOP):
            found = [band for band in here if band[2] <= price <= band[3]]
            if len(found) != 1:
                return (18 if found else 17), row, price, 0
    return 0, 0, 0, 0


def worth(columns, row, price):
    if not 1 <= row <= ROWS or len({len(column) for column in columns}) > 1:
        return 0, 6, 0, 0, 0
    if price > TOP:
        return 0, 12, 0, 0, 0
    found = verdict(columns)
    if found[0]:
        return 0, *found
    haircuts = [band[4] for band in zip(*columns) if band[0] <= row <= band[1] and band[2] <= price <= band[3]]
    return price * (10_000 - haircuts[0]) // 10_000, 0, 0, 0, 0


# ---- tables

def columns(*bands):
    return [list(column) for column in zip(*bands)] if bands else [[] for _ in range(5)]


def cut(pieces, first, last, lowest, highest):
    """A partition of a rectangle into so many bands, by random cuts."""
    if pieces == 1:
        return [(first, last, lowest, highest, random.randrange(10_001))]
    left = random.randrange(1, pieces)
    if first < last and (lowest == highest or random.random() < 0.4):
        end = random.randrange(first, last)
        return cut(left, first, end, lowest, highest) + cut(pieces - left, end + 1, last, lowest, highest)
    if lowest < highest:
        end = random.randrange(lowest, highest)
        return cut(left, first, last, lowest, end) + cut(pieces - left, first, last, end + 1, highest)
    return [(first, last, lowest, highest, random.randrange(10_001))]


def partition(pieces):
    made = cut(pieces, 1, ROWS, 0, TOP)
    random.shuffle(made)
    return made


def spoiled(bands):
    """The table with one number changed, one band lost or one twice."""
    bands = [list(band) for band in bands]
    k, field = random.randrange(len(bands)), random.randrange(5)
    how = random.randrange(4)
    if how == 0:
        bands.pop(k)
    elif how == 1:
        bands.insert(random.randrange(len(bands) + 1), list(bands[k]))
    elif how == 2:
        bands[k][field] = max(bands[k][field] + random.choice((-1, 1)), 0)
    else:
        bands[k][field] = random.choice((0, 61, TOP + 1, 10_001, bands[k][field] + 256, bands[k][field] + 2 ** 32, 2 ** 64 - 1))
    return [tuple(band) for band in bands]


def rows_of_bands(count, extra=()):
    """A band for each of the rows 1 to count - 1, one for all later rows, and more behind."""
    return [(row, row, 0, TOP, row) for row in range(1, count)] + [(count, ROWS, 0, TOP, 0)] + list(extra)


def told():
    """The limits, and what is easily got wrong."""
    yield columns()
    yield columns(WHOLE)
    for field, value in ((0, 0), (0, 2), (0, 61), (1, 59), (1, 61), (1, 0), (2, 1), (2, TOP), (2, TOP + 1), (3, TOP - 1), (3, TOP + 1), (4, 0),
                         (4, 10_000), (4, 10_001)):
        yield columns(WHOLE[:field] + (value,) + WHOLE[field + 1:])
    yield columns((1, 60, 0, 99, 0), (1, 60, 100, TOP, 0))
    yield columns((1, 60, 0, 100, 0), (1, 60, 100, TOP, 0))
    yield columns((1, 60, 0, 98, 0), (1, 60, 100, TOP, 0))
    # an overlap at row 1 before a gap at row 2, a gap at row 1 before an overlap at row 2, and both in one row
    yield columns((1, 1, 0, TOP, 0), (1, 1, 7, 7, 0), (3, 60, 0, TOP, 0))
    yield columns((1, 1, 1, TOP, 0), (2, 60, 0, TOP, 0), (2, 60, 0, TOP, 0))
    yield columns((1, 60, 0, 9, 0), (1, 60, 11, TOP, 0), (1, 60, 20, 20, 0))
    yield columns((1, 60, 0, 9, 0), (1, 60, 9, 9, 0), (1, 60, 11, TOP, 0))
    # the first pair and the last alone
    yield columns((1, 60, 1, TOP, 0), (2, 60, 0, 0, 0))
    yield columns((1, 59, 0, TOP, 0), (60, 60, 0, TOP - 1, 0))
    yield columns((60, 60, 0, TOP, 0), (1, 59, 0, TOP, 0), (60, 60, TOP, TOP, 0))
    # 16 before pairs, the first bad band of two, 40 bands, 41, and bad ones behind the 40th
    yield columns((1, 1, 0, 5, 0), (1, 60, 0, TOP, 10_001), (0, 60, 0, TOP, 0))
    yield columns(*rows_of_bands(40))
    yield columns(*rows_of_bands(41))
    yield columns(*rows_of_bands(40, [WHOLE]))
    yield columns(*rows_of_bands(43, [(1, 61, 0, TOP, 0)]))
    yield columns(*rows_of_bands(39, [(1, 61, 0, TOP, 0)]))
    # lengths that differ, each list once
    for place in range(5):
        table = columns(WHOLE)
        yield table[:place] + [table[place] * 2] + table[place + 1:]
    yield [[], [], [], [], [250]]


def tables():
    yield from told()
    for pieces in (1, 2, 2, 3, 3, 4, 5, 6, 8, 10, 13, 20, 40):
        made = partition(pieces)
        yield columns(*made)
        for _ in range(6):
            yield columns(*spoiled(made))


def pairs(table):
    """Pairs at the limits and one past them, and some on the edges of bands."""
    fixed = [(1, 0), (60, TOP), (0, 0), (61, 0), (60, TOP + 1), (256 + 1, ONE), (2 ** 32 + 1, ONE), (60, 2 ** 32 + TOP), (60, 1_000_000_001)]
    edges = [(band[k % 2], band[2 + k // 2 % 2]) for k, band in enumerate(random.sample(list(zip(*table)), min(4, len(table[0]), len(table[4]))))]
    return fixed + edges


# ---- the files

def frame(table, asked):
    numbers = [len(column) for column in table] + [len(asked)] + sum(table, []) + [row for row, _ in asked] + [price for _, price in asked]
    return struct.pack('>H', 8 * len(numbers)) + struct.pack('>%dQ' % len(numbers), *numbers)


def lines(table, asked):
    yield 'table %d %d %d %d' % verdict(table)
    for row, price in asked:
        yield 'worth %d %d %d %d %d' % worth(table, row, price)


if __name__ == '__main__':
    here = os.path.dirname(os.path.abspath(__file__))
    made = [(table, pairs(table)) for table in tables()]
    with open(os.path.join(here, 'stdin'), 'wb') as out:
        out.write(b''.join(frame(*each) for each in made))
    with open(os.path.join(here, 'stdout'), 'w') as out:
        out.write(''.join(line + '\n' for each in made for line in lines(*each)))
