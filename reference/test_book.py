#!/usr/bin/env python3
"""Files of jobs that were worked out by hand from document 02, request (xiv), against the reference; the exact total against the printed sum; and the
files of crates/book_cases, whose reports were worked out apart, from printed sheets.

    python3 reference/test_book.py
"""
import functools
import pathlib
import struct
import sys
import unittest

sys.dont_write_bytecode = True
import book
from book import framed, text
from reference import ONE, pattern_of

CRATES = pathlib.Path(__file__).resolve().parent.parent / 'crates'


def field(tag, data):
    return bytes([tag]) + struct.pack('>H', len(data)) + data


def job(flow, option=None, f=1, discount=0.9, version=None, b=0, s=0, n=1):
    """A job with one flow, on its last row, and level discounts; the bond of one step is flow × discount."""
    version = b'' if version is None else field(11, bytes([version]))
    quotes = b''.join(field(5, struct.pack('>Q', pattern_of(discount ** t))) for t in range(1, n + 1))
    flows = b''.join(field(7, struct.pack('>I', flow if t == n else 0)) for t in range(1, n + 1))
    return (field(1, bytes([f])) + field(2, bytes([n])) + field(3, struct.pack('>H', b)) + field(4, struct.pack('>I', s)) + version + quotes + flows
            + (b'' if option is None else option))


def of_kind(kind, expiry, strike):
    return field(8, struct.pack('>BBI', kind, expiry, strike))


def dated(side, strike, *dates):
    return field(10, struct.pack('>BI', side, strike) + bytes(dates))


def file(*jobs):
    return b''.join(map(framed, jobs))


def lines(priced=0, refused=(), bonds='0.000000000', options='0.000000000', allowances=0, dearest=0):
    """The eighteen lines, with the counts of these numbers and of no others."""
    counts = [0] * 14
    for number in refused:
        counts[number] += 1
    told = ['priced %d' % priced] + ['refused %d %d' % (number, counts[number]) for number in range(1, 14)]
    return '\n'.join(told + ['bonds ' + bonds, 'options ' + options, 'allowances %d' % allowances, 'dearest %d' % dearest, '']).encode()


MID, HIGH, LOW = job(ONE), job(2 * ONE), job(0)
OTHER_TAGS = field(0x0A, MID), field(0x11, b''), b'\x00'
CUT_SHORT = b'\x10', b'\x10\x00', b'\x10\x00\x01', framed(HIGH)[:-1]


class Reports(unittest.TestCase):
    def prints(self, given, **wanted):
        self.assertEqual(text(given), lines(**wanted))

    def test_nothing(self):
        self.prints(b'')
        self.assertEqual(text(b'').decode().splitlines()[0], 'priced 0')
        self.assertEqual(len(text(b'').splitlines()), 18)

    def test_sums(self):
        """A bond of one step is 0.9 times its flow; its allowance is 2 a step, more only where a discount is above one."""
        self.prints(file(MID), priced=1, bonds='0.900000000', allowances=2, dearest=1)
        self.prints(file(MID, HIGH, MID), priced=3, bonds='3.600000000', allowances=6, dearest=2)
        self.prints(file(job(ONE, of_kind(1, 0, ONE // 2)), job(ONE, dated(2, ONE, 0))), priced=2, bonds='1.800000000', options='0.500000000', allowances=4, dearest=1)
        self.prints(file(job(ONE, f=2, n=2)), priced=1, bonds='0.810000000', allowances=4, dearest=1)

    def test_many(self):
        """Sums past 32 bits."""
        self.prints(file(HIGH) * 500, priced=500, bonds='900.000000000', allowances=1_000, dearest=1)

    def test_dearest(self):
        """The first one if equal, even at price 0; places count refused fields."""
        self.prints(file(LOW), priced=1, allowances=2, dearest=1)
        self.prints(file(LOW, LOW), priced=2, allowances=4, dearest=1)
        self.prints(file(b'', LOW, b'', LOW), priced=2, refused=(1, 1), allowances=4, dearest=2)
        self.prints(file(b'', MID, HIGH, HIGH), priced=3, refused=(1,), bonds='4.500000000', allowances=6, dearest=3)
        self.prints(file(HIGH, MID), priced=2, bonds='2.700000000', allowances=4, dearest=1)

    def test_refused_options(self):
        """A job with any refusal adds to no sum, though its bond has a price, and is not the dearest."""
        for option, number in ((of_kind(5, 0, 0), 11), (of_kind(1, 1, 0), 11), (dated(1, 0), 13), (dated(1, 0, 1), 13), (dated(3, 0, 0), 11)):
            self.prints(file(job(2 * ONE, option), MID), priced=1, refused=(number,), bonds='0.900000000', allowances=2, dearest=2)

    def test_each_number(self):
        """But for 6, which no job has."""
        wrong = {1: b'\x01', 2: job(ONE, f=3), 3: job(ONE, n=61), 4: job(ONE, b=6_001), 5: job(ONE, s=50_001), 7: job(ONE, discount=0.05),
                 8: job(ONE, n=13, s=50_000), 9: job(ONE, discount=1.2), 10: job(2 * ONE + 1), 11: job(ONE, of_kind(0, 0, 0)), 13: job(ONE, dated(1, 0, 1))}
        for number, refused in wrong.items():
            self.prints(file(MID, refused), priced=1, refused=(number,), bonds='0.900000000', allowances=2, dearest=1)
        self.prints(file(*wrong.values()), refused=wrong)

    def test_versions(self):
        """A version other than 1 and 2 is malformed."""
        tree = dict(n=4, b=5_000, s=20_000)
        both = [book.prices(job(ONE, version=version, **tree)) for version in (None, 1, 2)]
        self.assertEqual(both[0], both[1])
        self.assertEqual([answer.number for answer in both], [0, 0, 0])
        for version in (0, 3, 255):
            self.prints(file(job(ONE, version=version, **tree)), refused=(1,))

    def test_long_and_empty(self):
        """A job of more than 4,700 bytes in a sound field is refused, and the file goes on; so is one without a byte."""
        for wrong in (b'', bytes(4_700), bytes(4_701), bytes(65_535)):
            self.prints(file(wrong, MID), priced=1, refused=(1,), bonds='0.900000000', allowances=2, dearest=2)

    def test_broken(self):
        """What is no whole field of the tag ends the file and counts once, whatever follows."""
        for broken in (*CUT_SHORT, *OTHER_TAGS, *(wrong + file(HIGH, HIGH) for wrong in OTHER_TAGS)):
            self.prints(broken, refused=(1,))
            self.prints(file(MID) + broken, priced=1, refused=(1,), bonds='0.900000000', allowances=2, dearest=1)

    def test_five_hundred(self):
        """500 fields are taken; any byte more ends the file, whatever it starts."""
        empty = file(b'')
        self.prints(empty * 499 + file(MID), priced=1, refused=[1] * 499, bonds='0.900000000', allowances=2, dearest=500)
        for more in (file(MID), empty, b'\x10', b'\x00', file(MID, HIGH)):
            self.prints(empty * 499 + file(MID) + more, priced=1, refused=[1] * 500, bonds='0.900000000', allowances=2, dearest=500)
        self.prints(empty * 501, refused=[1] * 501)


class ExactTotals(unittest.TestCase):
    def test_within_the_allowances(self):
        trees = [dict(n=n, b=b, s=15_000, f=4, discount=discount, version=version)
                 for n in (1, 3, 8) for b in (0, 700, 5_000) for discount in (0.99, 1.005) for version in (None, 2)]
        whole = file(*(job(ONE, **tree) for tree in trees), b'', MID)
        found = book.report(list(map(book.prices, book.taken(whole)[0])), False)
        self.assertEqual((found.priced, found.refused[0]), (len(trees) + 1, 1))
        self.assertLessEqual(abs(book.exact_total(whole) - found.bonds), found.allowances)
        self.assertNotEqual(book.exact_total(whole), found.bonds)


class Cases(unittest.TestCase):
    def test_files_of_the_crates(self):
        given, told, prices = (CRATES / 'book_cases/stdin').read_bytes(), b'', functools.cache(book.prices)
        at = count = 0
        while at < len(given):
            end = at + 2 + int.from_bytes(given[at:at + 2], 'big')
            told += text(given[at + 2:end], prices)
            at, count = end, count + 1
        self.assertEqual(told, (CRATES / 'book_cases/stdout').read_bytes())
        self.assertGreaterEqual(count, 69)

    def test_the_long_file(self):
        self.assertEqual(text((CRATES / 'book/stdin').read_bytes()), (CRATES / 'book/stdout').read_bytes())


if __name__ == '__main__':
    unittest.main()
