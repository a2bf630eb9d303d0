#!/usr/bin/env python3
"""Reports of books that are joined, worked out by hand, and those of all files of crates/report_cases, whose totals were worked out apart.

    python3 reference/test_reports.py
"""
import pathlib
import sys
import unittest

sys.dont_write_bytecode = True
import book
import reports
from reference import ONE, Refused
from reports import MOST_SIZE, Report

CASES = pathlib.Path(__file__).resolve().parent.parent / 'crates/report_cases'
NONE = Report(0, 0, 0, (0,) * 13, 0, 0, 0, 0, 0, 0)
ONE_BOND = Report(1, 1, 1, (0,) * 13, ONE, 0, 2, ONE, 1, 1)


def of_file(file):
    jobs, broken = book.taken(file)
    answers = [book.prices(job) for job in jobs]
    found = book.report(answers, broken)
    dearest = answers[found.dearest - 1].bond if found.dearest else 0
    return Report(1, len(jobs), found.priced, tuple(found.refused), found.bonds, found.options, found.allowances, dearest, int(found.dearest > 0), found.dearest)


class Reports(unittest.TestCase):
    def refused(self, number, *given):
        with self.assertRaises(Refused) as caught:
            reports.joined(*given)
        self.assertEqual(caught.exception.number, number)

    def test_by_hand(self):
        higher = ONE_BOND._replace(fields=2, refused=(1,) + (0,) * 12, bonds=2 * ONE, dearest=2 * ONE, place=2)
        self.assertEqual(reports.joined(ONE_BOND, higher), Report(2, 3, 2, (1,) + (0,) * 12, 3 * ONE, 0, 4, 2 * ONE, 2, 2))
        self.assertEqual(reports.joined(higher, ONE_BOND)[7:], (2 * ONE, 1, 2))
        self.assertEqual(reports.joined(ONE_BOND, ONE_BOND)[7:], (ONE, 1, 1))
        self.assertEqual((reports.joined(NONE, higher), reports.joined(higher, NONE)), (higher, higher))

    def test_refusals(self):
        self.assertEqual(MOST_SIZE, 2_305_843_009)
        self.refused(1, NONE._replace(bonds=1), NONE)
        self.refused(1, NONE, ONE_BOND._replace(fields=501))
        most = NONE._replace(books=MOST_SIZE - 2)
        self.assertEqual(reports.joined(most, ONE_BOND).books, MOST_SIZE - 1)
        self.refused(12, reports.joined(most, ONE_BOND), ONE_BOND)
        self.refused(1, NONE._replace(books=MOST_SIZE + 1), NONE)

    def test_all_files_of_the_cases(self):
        framed, found = (CASES / 'stdin').read_bytes(), NONE
        while framed:
            size = int.from_bytes(framed[:2], 'big')
            found, framed = reports.joined(found, of_file(framed[2:2 + size])), framed[2 + size:]
        lines = [f'books {found.books}', f'fields {found.fields}', f'priced {found.priced}', *(f'refused {k} {n}' for k, n in enumerate(found.refused, 1))]
        lines += [f'{word} {value // ONE}.{value % ONE:09}' for word, value in (('bonds', found.bonds), ('options', found.options))]
        lines += [f'allowances {found.error_bounds}', f'price {found.dearest // ONE}.{found.dearest % ONE:09}', f'dearest {found.book} {found.place}', '']
        self.assertEqual('\n'.join(lines) * 2, (CASES / 'stdout').read_text())


if __name__ == '__main__':
    unittest.main()
