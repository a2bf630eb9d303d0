"""Jobs as records: both round trips, the document's job by hand, what no bytes are read as, and lists that no record has room for."""
import pathlib
import pickle
import struct
import unittest
from array import array
from decimal import Decimal

import mixegorta as m
from mixegorta import MAX_JOB, MAX_JOB_DATES, MAX_JOB_STEPS, ONE, DatedOption, Job, JobQuote, KindOption
from test_arguments import Masked

CASES = pathlib.Path(__file__).resolve().parents[2] / "crates/sheet_cases/stdin"
# document 01's job, and its fields by hand
PRINTED = bytes.fromhex("01000101 02000101 0300020000 04000400000000 0500083FF00A3D70A3D70A 0700043B9ACA00 08000604013C336080")
BY_HAND = Job(1, 0, 0, (JobQuote(5, 0x3FF00A3D70A3D70A),), (ONE,), KindOption(4, 1, 1_010_000_000))
STRANGE = 0x7FF0000000000001, 0x7FF8000000000123, 1 << 63, 0, 0xFFF0000000000000, 2**64 - 1
WIDTHS = {"frequency": 8, "reversion": 16, "volatility": 32, "version": 8}


def made(steps, version=None, option=None):
    """A job that has nothing but its form."""
    quotes = tuple(JobQuote((5, 6, 9)[place % 3], STRANGE[place % 6]) for place in range(steps))
    return Job(3, 65_535, 2**32 - 1, quotes, tuple((0, 1, 2**32 - 1)[place % 3] for place in range(steps)), option, version)


def dated(count):
    return DatedOption(2, 7, tuple(255 - row % 256 for row in range(count)))


def framed(data):
    while data:
        size = struct.unpack_from(">H", data)[0]
        yield data[2:2 + size]
        data = data[2 + size:]


class Test(unittest.TestCase):
    def round_trips(self, job):
        found = job.to_bytes()
        self.assertEqual(Job.read(found), job)
        out = bytearray(b"\xa5" * (len(found) + 3))
        self.assertEqual(job.write_into(out), len(found))
        self.assertEqual(out, found + b"\xa5" * 3)
        short = array("B", b"\xa5" * (len(found) - 1))
        with self.assertRaises(m.NotInTree) as caught:
            job.write_into(short)
        self.assertEqual((caught.exception.argument, set(short)), ("out", {0xA5}))
        return found

    def unwritten(self, job):
        """1, also where there is no room."""
        with self.assertRaises(m.MalformedJob) as caught:
            job.to_bytes()
        self.assertEqual((caught.exception.number, caught.exception.argument), (1, "job"))
        with self.assertRaises(m.MalformedJob):
            job.write_into(bytearray())

    def test_the_documents_job(self):
        self.assertEqual(Job.read(PRINTED), BY_HAND)
        self.assertEqual(self.round_trips(BY_HAND), PRINTED)
        self.assertEqual(BY_HAND.quotes[0].figure, 1.0025)
        self.assertEqual(JobQuote.of(m.DISCOUNT_FACTOR, 1.0025), BY_HAND.quotes[0])
        self.assertEqual(Job.read(bytearray(PRINTED)), Job.read(memoryview(PRINTED)))
        self.assertEqual(pickle.loads(pickle.dumps(BY_HAND)), BY_HAND)
        for size in {*range(len(PRINTED))} - {38}:
            with self.assertRaises(m.MalformedJob) as caught:
                Job.read(PRINTED[:size])
            self.assertEqual(caught.exception.argument, "job")
        with self.assertRaises(m.MalformedJob):
            Job.read(PRINTED + b"\0")

    def test_amounts(self):
        """Flows and strike may be texts or decimals, quotes plain pairs, and lists any lists."""
        same = Job(1, 0, 0, [(5, 0x3FF00A3D70A3D70A)], ["1"], KindOption(4, 1, Decimal("1.01")))
        self.assertEqual(same.to_bytes(), PRINTED)
        self.assertEqual(same._replace(flows=array("Q", [ONE])).to_bytes(), PRINTED)
        listed = [BY_HAND._replace(option=DatedOption(1, "1", dates)).to_bytes() for dates in ([0, 255], b"\0\xff", array("B", [0, 255]), range(0, 256, 255))]
        self.assertEqual(set(listed), {PRINTED[:38] + bytes.fromhex("0A0007 01 3B9ACA00 00FF")})

    def test_every_form(self):
        for steps in (0, 1, 2, 61, 200, MAX_JOB_STEPS):
            for version in (None, 1, 2):
                for option, more in ((None, 0), (KindOption(3, 7, ONE), 9), (KindOption(255, 255, 2**32 - 1), 9), (dated(0), 8), (dated(60), 68)):
                    self.assertEqual(len(self.round_trips(made(steps, version, option))), 20 + 4 * bool(version) + 18 * steps + more)

    def test_longest(self):
        for steps, version, count in ((255, None, 82), (255, 1, 78), (255, 2, 78), (0, None, MAX_JOB_DATES), (0, 2, MAX_JOB_DATES - 4)):
            self.assertEqual(len(self.round_trips(made(steps, version, dated(count)))), MAX_JOB)
            if count < MAX_JOB_DATES:
                self.unwritten(made(steps, version, dated(count + 1)))

    def test_told_otherwise(self):
        """Version 1 by its field and by absence, and one right in both forms."""
        plain = made(5, None, KindOption(1, 2, 7))
        for other in (plain._replace(version=1), plain._replace(option=DatedOption(1, 7, (2,)))):
            self.assertNotEqual(self.round_trips(plain), self.round_trips(other))

    def test_numbers_past_their_field(self):
        base = made(2, 2, KindOption(1, 1, 1))
        for name, width in WIDTHS.items():
            for number in (2**width, 2**width + 1, 2**32 + getattr(base, name), 2**64 - 1):
                self.unwritten(base._replace(**{name: number}))
        for option in (KindOption(256, 1, 1), KindOption(1, 256 + 1, 1), KindOption(1, 1, 2**32 + 1), DatedOption(256 + 1, 1, ()), DatedOption(1, 2**32, ())):
            self.unwritten(base._replace(option=option))
        self.unwritten(base._replace(flows=(0, 2**32)))
        self.unwritten(base._replace(version=3))
        for kind in {*range(256)} - {5, 6, 9}:
            self.unwritten(base._replace(quotes=(base.quotes[0], JobQuote(kind, 0))))

    def test_numbers_past_their_parameter(self):
        base = made(1, 2, KindOption(1, 1, 1))
        for change in ({"frequency": 2**64}, {"reversion": -1}, {"volatility": 2**64}, {"version": 2**64 + 2}, {"quotes": [(256 + 5, 0)]},
                       {"quotes": [(5, 2**64)]}, {"quotes": [(5, -1)]}, {"flows": [2**64]}, {"flows": [-1]}, {"option": KindOption(2**64 + 1, 1, 1)},
                       {"option": KindOption(1, -1, 1)}, {"option": KindOption(1, 1, 2**64)}, {"option": DatedOption(2**64 + 1, 1, ())},
                       {"option": DatedOption(1, 1, [256])}, {"option": DatedOption(1, 1, [-1])}):
            with self.subTest(change=change), self.assertRaises(OverflowError):
                base._replace(**change).to_bytes()

    def test_lists_without_places(self):
        """What no record has places for is an error of the package, and the memory is as it was."""
        out = bytearray(b"\xa5" * MAX_JOB)
        for job, error in ((made(256), OverflowError), (made(2)._replace(flows=[0] * 256), OverflowError), (made(0, None, dated(MAX_JOB_DATES + 1)), OverflowError),
                           (made(0, None, dated(65_536)), OverflowError), (made(2)._replace(flows=[0]), ValueError), (made(2)._replace(flows=[0] * 3), ValueError),
                           (made(2)._replace(version=0), ValueError)):
            for write in (job.to_bytes, lambda: job.write_into(out)):
                with self.assertRaises(error) as caught:
                    write()
                self.assertNotIsInstance(caught.exception, m.Refused)
        self.assertEqual(set(out), {0xA5})

    def test_what_is_no_list(self):
        base = made(1)
        for quotes in ({5: 0}, {(5, 0)}, "50", [{5: 0, 6: 0}], [{5, 0}], ["50"], [(5,)], [(5, 0, 0)], [5], 5, [(5, 0.98)], [(5, "0")]):
            with self.subTest(quotes=quotes), self.assertRaises(TypeError):
                base._replace(quotes=quotes).to_bytes()
        for flows in ({0: 1}, {0}, "1", 1, [1.0], Masked([1]), [None]):
            with self.subTest(flows=flows), self.assertRaises(TypeError):
                base._replace(flows=flows).to_bytes()
        for dates in ({0: 1}, {0}, "0", 0, [0.0], Masked([0])):
            with self.subTest(dates=dates), self.assertRaises(TypeError):
                base._replace(option=DatedOption(1, 1, dates)).to_bytes()
        for option in ((1, 1, 1), "call", 8, [1, 1, 1]):
            with self.subTest(option=option), self.assertRaises(TypeError):
                base._replace(option=option).to_bytes()
        for figure in ("0.98", None, [0.98]):
            with self.assertRaises(TypeError):
                JobQuote.of(5, figure)
        for job in ("0100", [1, 0, 1], None, 5):
            with self.subTest(job=job), self.assertRaises(TypeError):
                Job.read(job)
        for out in (bytes(MAX_JOB), [0] * MAX_JOB, array("Q", bytes(8 * MAX_JOB)), None):
            with self.assertRaises(TypeError):
                base.write_into(out)

    def test_jobs_of_the_gate(self):
        """Every job of crates/sheet_cases that is well formed is written as its own bytes; every other is malformed for the sheet too."""
        written = 0
        for job in framed(CASES.read_bytes()):
            try:
                self.assertEqual(Job.read(job).to_bytes(), job)
                written += 1
            except m.MalformedJob:
                with self.assertRaises(m.MalformedJob):
                    m.sheet(job)
        self.assertGreater(written, 100)


if __name__ == "__main__":
    unittest.main()
