"""Jobs without their sheets, and books of jobs: figures worked out by hand, the files of crates/book_cases, and what is no book."""
import pathlib
import struct
import unittest
from array import array

import mixegorta as m
from mixegorta import BOOK_ROOM, MAX_FIELDS, MAX_FLOW, MAX_JOB, MAX_STRIKE, ONE, JobPrices, Price
from test_arguments import Masked

CASES = pathlib.Path(__file__).resolve().parents[2] / "crates/book_cases"


def field(tag, content):
    return struct.pack(">BH", tag, len(content)) + content


def job(flow=ONE, option=b"", figure=0.9):
    """A job of one step: its bond is the discount times the flow."""
    return (field(1, b"\1") + field(2, b"\1") + field(3, bytes(2)) + field(4, bytes(4)) + field(5, struct.pack(">d", figure))
            + field(7, struct.pack(">I", flow)) + option)


def put(strike):
    return field(8, struct.pack(">BBI", 2, 0, strike))


def lines(priced=0, refused=(), bonds="0.000000000", options="0.000000000", allowances=0, dearest=0):
    counts = "".join(f"refused {number} {list(refused).count(number)}\n" for number in range(1, 14))
    return f"priced {priced}\n{counts}bonds {bonds}\noptions {options}\nallowances {allowances}\ndearest {dearest}\n"


class Prices(unittest.TestCase):
    def test_by_hand(self):
        self.assertEqual(m.prices_of_job(job()), JobPrices(Price(900_000_000, 2), None))
        self.assertEqual(m.prices_of_job(bytearray(job(option=put(ONE)))), JobPrices(Price(900_000_000, 2), Price(100_000_000, 2)))
        self.assertEqual(m.prices_of_job(job(0, put(0))), JobPrices(Price(0, 2), Price(0, 2)))

    def test_refusals(self):
        for kind, row, wrong in ((m.FlowTooLarge, 1, job(MAX_FLOW + 1)), (m.OptionTermsOutOfRange, None, job(option=put(MAX_STRIKE + 1))), (m.MalformedJob, None, b""),
                                 (m.MalformedJob, None, bytes(MAX_JOB + 1)), (m.QuoteOutOfRange, 1, job(figure=11.0)), (m.NodeDiscountOutOfRange, 1, job(figure=1.2))):
            with self.assertRaises(kind) as caught:
                m.prices_of_job(wrong)
            self.assertEqual((caught.exception.argument, caught.exception.row), ("job", row))

    def test_trees(self):
        discounts, state_prices = array("Q", [7] * 3), array("Q", [7] * 5)
        m.prices_of_job_into(job(), discounts, state_prices)
        self.assertEqual([*discounts], [900_000_000, 7, 7])
        self.assertEqual([*state_prices], [ONE, 150_000_000, 600_000_000, 150_000_000, 7])

    def test_short_memories(self):
        for few, fewer, name in ((0, 4, "discounts"), (1, 3, "state_prices"), (0, 0, "discounts")):
            discounts, state_prices = array("Q", [7] * few), array("Q", [7] * fewer)
            with self.assertRaises(m.NotInTree) as caught:
                m.prices_of_job_into(job(), discounts, state_prices)
            self.assertEqual(caught.exception.argument, name)
            self.assertEqual({*discounts, *state_prices} - {7}, set())

    def test_memories_apart(self):
        one = array("Q", [0] * 8)
        with self.assertRaises(ValueError):
            m.prices_of_job_into(job(), one, one)
        whole = memoryview(bytearray(job() + bytes(64)))
        with self.assertRaises((ValueError, TypeError)):
            m.prices_of_job_into(whole[:64], whole[:64].cast("Q"), array("Q", [0] * 4))

    def test_no_job(self):
        for wrong in ("text", 7, None, [1, 2], {1: 2}, {1}):
            with self.assertRaises(TypeError):
                m.prices_of_job(wrong)


class Reports(unittest.TestCase):
    def test_by_hand(self):
        self.assertEqual(m.book_report(b""), lines())
        over = job(2 * ONE, put(MAX_STRIKE + 1))
        book = m.book_of_jobs([over, job(option=put(ONE)), job(), b""])
        wanted = dict(priced=2, bonds="1.800000000", options="0.100000000", allowances=4, dearest=2)
        self.assertEqual(m.book_report(book), lines(refused=(1, 11), **wanted))
        for broken in (b"\x10", b"\x10\0", b"\x10\0\1", b"\x0a\0\0", b"\0"):
            self.assertEqual(m.book_report(book + broken), lines(refused=(1, 1, 11), **wanted))

    def test_five_hundred(self):
        wanted = dict(priced=500, bonds="900.000000000", allowances=1_000, dearest=1)
        one = [job(2 * ONE)]
        self.assertEqual(m.book_report(m.book_of_jobs(one * MAX_FIELDS)), lines(**wanted))
        for more in (MAX_FIELDS + 1, MAX_FIELDS + 256):
            self.assertEqual(m.book_report(m.book_of_jobs(one * more)), lines(refused=(1,), **wanted))

    def test_frames(self):
        self.assertEqual(m.book_of_jobs([]), b"")
        self.assertEqual(m.book_of_jobs([b"", bytearray(b"\7"), memoryview(bytes(258))]), b"\x10\0\0\x10\0\1\7\x10\1\2" + bytes(258))
        self.assertEqual(m.book_of_jobs(iter([b"\7"])), b"\x10\0\1\7")
        self.assertEqual(m.book_report(m.book_of_jobs([bytes(65_535), job(0)])), lines(priced=1, refused=(1,), allowances=2, dearest=2))
        with self.assertRaisesRegex(ValueError, r"jobs\[1\]: 65,536 bytes"):
            m.book_of_jobs([b"", bytes(65_536)])
        for wrong in ("text", {b"": b""}, {b""}, b"job", 7, [7], ["text"], [[1]], Masked([1])):
            with self.assertRaises(TypeError):
                m.book_of_jobs(wrong)

    def test_room(self):
        wanted = lines().encode()
        out = bytearray(b"\7" * (BOOK_ROOM + 3))
        self.assertEqual(m.book_report_into(b"", out), len(wanted))
        self.assertEqual(out, b"\7" * (BOOK_ROOM + 3 - len(wanted)) + wanted)
        short = bytearray(b"\7" * (BOOK_ROOM - 1))
        with self.assertRaises(m.NotInTree) as caught:
            m.book_report_into(b"", short)
        self.assertEqual((caught.exception.argument, short), ("out", b"\7" * (BOOK_ROOM - 1)))
        with self.assertRaises(ValueError):
            m.book_report_into(out, out)
        for wrong in (bytes(BOOK_ROOM), [0] * BOOK_ROOM, array("Q", [0] * BOOK_ROOM)):
            with self.assertRaises(TypeError):
                m.book_report_into(b"", wrong)

    def test_no_book(self):
        for wrong in ("text", 7, None, [b""], {1: 2}):
            with self.assertRaises(TypeError):
                m.book_report(wrong)

    def test_every_case(self):
        files, told, at, count = (CASES / "stdin").read_bytes(), "", 0, 0
        while at < len(files):
            end = at + 2 + int.from_bytes(files[at:at + 2], "big")
            told, at, count = told + m.book_report(files[at + 2:end]), end, count + 1
        self.assertEqual(told, (CASES / "stdout").read_text())
        self.assertGreaterEqual(count, 69)


if __name__ == "__main__":
    unittest.main()
