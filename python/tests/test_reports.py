"""Reports of books that add up: the files of crates/book_cases in any grouping, what is no report, and what is none at all."""
import functools
import random
import re
import unittest

import mixegorta as m
from mixegorta import MAX_FIELDS, MAX_REPORT_SIZE, ONE, Report
from test_books import CASES, job, put


@functools.lru_cache(1)
def files():
    framed, found = (CASES / "stdin").read_bytes(), []
    while framed:
        size = int.from_bytes(framed[:2], "big")
        found.append(framed[2:2 + size])
        framed = framed[2 + size:]
    return found


def lines(report):
    """A report of one book as the lines of book_report."""
    counts = "".join(f"refused {number} {count}\n" for number, count in enumerate(report.refused, 1))
    amounts = "".join(f"{word} {value // ONE}.{value % ONE:09}\n" for word, value in (("bonds", report.bonds), ("options", report.options)))
    return f"priced {report.priced}\n{counts}{amounts}allowances {report.error_bounds}\ndearest {report.place}\n"


def grouped(reports, draw):
    """The reports joined in an order of its own: two neighbours, then any two neighbours again."""
    row = list(reports)
    while len(row) > 1:
        at = draw.randrange(len(row) - 1)
        row[at:at + 2] = [m.joined_reports(*row[at:at + 2])]
    return row[0]


class Reports(unittest.TestCase):
    def test_of_files(self):
        for file in files():
            report = m.report_of_file(file)
            self.assertEqual(lines(report), m.book_report(file))
            self.assertEqual((report.books, report.book), (1, min(report.place, 1)))

    def test_any_grouping(self):
        reports = [m.report_of_file(file) for file in files()]
        whole = m.all_joined(reports)
        told = re.findall(r"^(?:\w+(?: \d+)?) (\S+)$", (CASES.parent / "report_cases/stdout").read_text(), re.M)[:21]
        figures = [whole.books, whole.fields, whole.priced, *whole.refused, *(f"{v // ONE}.{v % ONE:09}" for v in whole[4:6]), whole.error_bounds]
        self.assertEqual([str(figure) for figure in figures], told[:19])
        self.assertEqual((whole.dearest, whole.book, whole.place), (8 * ONE, 57, 11))
        for seed in range(50):
            self.assertEqual(grouped(reports, random.Random(seed)), whole)

    def test_first_of_equals(self):
        low, high = m.report_of_file(m.book_of_jobs([job()])), m.report_of_file(m.book_of_jobs([job(5), job(2 * ONE)]))
        for reports, book, place in (([low, high, high], 2, 2), ([high, low, high], 1, 2), ([low, low], 1, 1), ([m.empty_report(), low], 1, 1)):
            found = m.all_joined(reports)
            self.assertEqual((found.book, found.place), (book, place))
        self.assertEqual(m.all_joined([]), m.empty_report())

    def test_empty(self):
        none, one = m.empty_report(), m.report_of_file(m.book_of_jobs([job(option=put(ONE))] * MAX_FIELDS))
        self.assertEqual(none, Report(0, 0, 0, (0,) * 13, 0, 0, 0, 0, 0, 0))
        self.assertEqual([m.joined_reports(none, one), m.joined_reports(one, none)], [one, one])
        self.assertEqual(one.bonds, 450 * ONE)

    def test_refusals(self):
        none, one = m.empty_report(), m.report_of_file(m.book_of_jobs([job()]))
        for wrong in ({"fields": 0}, {"fields": 501}, {"priced": 2}, {"bonds": 8 * ONE + 1}, {"options": 8 * ONE + 1}, {"error_bounds": 1_000_001}, {"dearest": ONE},
                      {"book": 0}, {"book": 2}, {"place": 0}, {"place": 501}, {"refused": (0,) * 12 + (2,)}, {"books": 0}, {"books": 2 ** 64 - 1}):
            report = one._replace(**wrong)
            for given, name in (((report, none), "first"), ((none, report), "second")):
                with self.assertRaises(m.NoReport) as caught:
                    m.joined_reports(*given)
                self.assertEqual((caught.exception.number, caught.exception.argument), (1, name))
        most = none._replace(books=MAX_REPORT_SIZE - 2)
        self.assertEqual(m.joined_reports(most, one).books, MAX_REPORT_SIZE - 1)
        with self.assertRaisesRegex(m.ReportTooLarge, "refused 12: both reports together have more than 2,305,843,009 books and fields"):
            m.joined_reports(m.joined_reports(most, one), one)

    def test_what_is_no_report(self):
        one = m.report_of_file(b"")
        for wrong, kind, said in ((tuple(one), TypeError, "first is a Report, not tuple"), (None, TypeError, "first is a Report"),
                                  (one._replace(books=1.0), TypeError, "first.books is a whole number"), (one._replace(books=True), TypeError, "first.books"),
                                  (one._replace(bonds=-1), OverflowError, "first.bonds is 0 to"), (one._replace(bonds=2 ** 64), OverflowError, "first.bonds"),
                                  (one._replace(refused=(0,) * 12), TypeError, "first.refused has 13 counts"), (one._replace(refused=(2 ** 64,) * 13), OverflowError, "refused.0.")):
            with self.assertRaisesRegex(kind, said):
                m.joined_reports(wrong, one)
        with self.assertRaises(TypeError):
            m.report_of_file("text")


if __name__ == "__main__":
    unittest.main()
