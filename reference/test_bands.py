#!/usr/bin/env python3
"""Tables of haircut bands that were worked out by hand from document 02, request (xi), against the reference; its walk over change points against
every pair of small tables, where the highest price is made small; and the tables of crates/band_cases, whose output was worked out apart.

    python3 reference/test_bands.py
"""
import itertools
import pathlib
import random
import struct
import sys
import unittest
from unittest import mock

sys.dont_write_bytecode = True
import bands
from bands import ACCEPTED, HIGHEST_PRICE, ROWS, Band, lending_worth, verdict
from reference import ONE

FIGURES = pathlib.Path(__file__).resolve().parent.parent / 'crates/band_cases'
ALL = Band(1, 60, 0, HIGHEST_PRICE, 250)


def columns(*table):
    return [list(column) for column in zip(*table)] if table else [[]] * 5


def rows(count, *more):
    """A band for each of the rows 1 to count - 1, one for all later ones, and more behind."""
    return [ALL._replace(first_row=row, last_row=row) for row in range(1, count)] + [ALL._replace(first_row=count), *more]


class Verdicts(unittest.TestCase):
    def says(self, wanted, *table):
        self.assertEqual(tuple(verdict(*columns(*table))), wanted, table)

    def test_one_band(self):
        self.says(ACCEPTED, ALL)
        self.says((17, 1, 0, 0))
        for change, wanted in (({'first_row': 2}, (17, 1, 0, 0)), ({'last_row': 59}, (17, 60, 0, 0)), ({'lowest': 1}, (17, 1, 0, 0)),
                               ({'highest': HIGHEST_PRICE - 1}, (17, 1, HIGHEST_PRICE, 0)), ({'haircut': 0}, ACCEPTED), ({'haircut': 10_000}, ACCEPTED)):
            self.says(wanted, ALL._replace(**change))

    def test_bad_bands(self):
        """Each start and end is in range by itself, not only in order."""
        for change in ({'first_row': 0}, {'first_row': 61, 'last_row': 61}, {'last_row': 61}, {'last_row': 0}, {'first_row': 3, 'last_row': 2},
                       {'highest': HIGHEST_PRICE + 1}, {'lowest': HIGHEST_PRICE + 1, 'highest': HIGHEST_PRICE + 1}, {'lowest': 2, 'highest': 1},
                       {'haircut': 10_001}, {'first_row': 256 + 1}, {'haircut': 2 ** 32 + 250}):
            self.says((16, 0, 0, 1), ALL._replace(**change))
            self.says((16, 0, 0, 3), ALL, ALL, ALL._replace(**change), ALL._replace(first_row=0))

    def test_places(self):
        self.says(ACCEPTED, *rows(40))
        self.says((16, 0, 0, 41), *rows(41))
        self.says((16, 0, 0, 42), *rows(41, ALL._replace(first_row=0)))
        self.says((16, 0, 0, 45), *rows(44, ALL._replace(first_row=0), ALL._replace(last_row=61)))
        self.says((16, 0, 0, 41), *[ALL] * 41)

    def test_ends_belong_to_their_band(self):
        for highest, wanted in ((98, (17, 1, 99, 0)), (99, ACCEPTED), (100, (18, 1, 100, 0))):
            self.says(wanted, ALL._replace(highest=highest), ALL._replace(lowest=100))
        for last, wanted in ((9, (17, 10, 0, 0)), (10, ACCEPTED), (11, (18, 11, 0, 0))):
            self.says(wanted, ALL._replace(last_row=last), ALL._replace(first_row=11))

    def test_the_earlier_pair_decides(self):
        self.says((18, 1, 7, 0), Band(1, 1, 0, HIGHEST_PRICE, 0), Band(1, 1, 7, 7, 0), Band(3, 60, 0, HIGHEST_PRICE, 0))
        self.says((17, 1, 0, 0), Band(1, 1, 1, HIGHEST_PRICE, 0), ALL._replace(first_row=2), ALL._replace(first_row=2))
        self.says((17, 1, 10, 0), Band(1, 60, 0, 9, 0), Band(1, 60, 11, HIGHEST_PRICE, 0), Band(1, 60, 20, 20, 0))
        self.says((18, 1, 9, 0), Band(1, 60, 0, 9, 0), Band(1, 60, 9, 9, 0), Band(1, 60, 11, HIGHEST_PRICE, 0))
        self.says((17, 60, HIGHEST_PRICE, 0), ALL._replace(last_row=59), Band(60, 60, 0, HIGHEST_PRICE - 1, 0))

    def test_lengths(self):
        for place in range(5):
            lists = columns(ALL)
            lists[place] = lists[place] * 2
            self.assertEqual(tuple(verdict(*lists)), (6, 0, 0, 0))
            self.assertEqual(tuple(lending_worth(*lists, 1, HIGHEST_PRICE + 1)), (6, 0, 0, 0, 0))


class Worths(unittest.TestCase):
    def test_worths(self):
        table = columns(Band(1, 20, 0, ONE, 250), Band(1, 20, ONE + 1, HIGHEST_PRICE, 10_000), ALL._replace(first_row=21, haircut=0))
        for row, price, worth in ((20, ONE, 975_000_000), (20, ONE + 1, 0), (1, 1, 0), (1, 41, 39), (21, ONE + 1, ONE + 1), (60, HIGHEST_PRICE, HIGHEST_PRICE)):
            self.assertEqual(tuple(lending_worth(*table, row, price)), (0, worth, 0, 0, 0))

    def test_refusals(self):
        good, bad, gap = columns(ALL), columns(ALL, ALL._replace(haircut=10_001)), columns(ALL._replace(lowest=5))
        for table, row, price, wanted in ((good, 0, 0, (6, 0, 0, 0, 0)), (bad, 61, 2 ** 64 - 1, (6, 0, 0, 0, 0)), (bad, 1, HIGHEST_PRICE + 1, (12, 0, 0, 0, 0)),
                                          (bad, 1, 0, (16, 0, 0, 0, 2)), (gap, 60, 9, (17, 0, 1, 0, 0)), (columns(ALL, ALL), 60, 9, (18, 0, 1, 0, 0))):
            self.assertEqual(tuple(lending_worth(*table, row, price)), wanted)


class Change(unittest.TestCase):
    def test_against_every_pair(self):
        """With prices of 0 to 9 every pair of a table is looked at, by row and then price."""
        random.seed(1105)
        with mock.patch.object(bands, 'HIGHEST_PRICE', 9):
            for _ in range(3_000):
                table = []
                for _ in range(random.randrange(5)):
                    (first, last), (lowest, highest) = (sorted(random.choices((1, 2, 30, 31, 60), k=2)), sorted(random.choices((0, 3, 4, 8, 9), k=2)))
                    table.append(Band(first, last, lowest, highest, 0))
                if random.random() < 0.5:
                    table = [Band(1, 30, 0, 9, 0), Band(31, 60, 0, 4, 0), *table][:3]
                held = ((sum(bands.holds(band, *pair) for band in table), pair) for pair in itertools.product(ROWS, range(10)))
                failing = next(((18 if count else 17, *pair, 0) for count, pair in held if count != 1), tuple(ACCEPTED))
                self.assertEqual(tuple(verdict(*columns(*table))), failing, table)


class Figures(unittest.TestCase):
    def frames(self):
        """The five lists and the pairs of each table of the program's input."""
        rest = (FIGURES / 'stdin').read_bytes()
        while rest:
            size = 2 + int.from_bytes(rest[:2], 'big')
            numbers, rest = struct.unpack('>%dQ' % (size // 8), rest[2:size]), rest[size:]
            lengths, numbers = numbers[:6], numbers[6:]
            cuts = list(itertools.accumulate((*lengths, lengths[5]), initial=0))
            *lists, rows, prices = (list(numbers[start:end]) for start, end in zip(cuts, cuts[1:]))
            yield lists, list(zip(rows, prices))

    def lines(self):
        for lists, pairs in self.frames():
            yield 'table %d %d %d %d' % verdict(*lists)
            for pair in pairs:
                number, worth, *shown = lending_worth(*lists, *pair)
                yield 'worth %d %d %d %d %d' % (worth, number, *shown)

    def test_the_program_of_the_gate(self):
        self.assertEqual(list(self.lines()), (FIGURES / 'stdout').read_text().splitlines())


if __name__ == '__main__':
    unittest.main()
