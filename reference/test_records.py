#!/usr/bin/env python3
"""Job records that were worked out by hand from documents 01 and 02, request (xii), against the reference; both round trips over every form; and records
that no job is read as.

    python3 reference/test_records.py
"""
import pathlib
import sys
import unittest

sys.dont_write_bytecode = True
from records import DATED, DATES, OF_KIND, STEPS, Record, padded, reading, written
from reference import LONGEST_JOB, ONE, Refused, pattern_of

EXAMPLES = pathlib.Path(__file__).resolve().parent.parent / 'crates/sheet_cases'
# Document 01's job, and its record by hand.
PRINTED = bytes.fromhex('01000101 02000101 0300020000 04000400000000 0500083FF00A3D70A3D70A 0700043B9ACA00 08000604013C336080')
BY_HAND = Record(1, 1, 0, 0, 0, padded([5], STEPS), padded([0x3FF00A3D70A3D70A], STEPS), padded([ONE], STEPS), OF_KIND, 4, 1, 1_010_000_000, 0,
                 padded([], DATES))
STRANGE = [0x7FF0000000000001, 0x7FF8000000000123, 1 << 63, 0, 0xFFF0000000000000, 2 ** 64 - 1, pattern_of(-0.0025)]


def made(n=2, version=0, tag=0, **changes):
    """A record of n quotes, with an option of the tag."""
    option = {0: (0, 0, 0, 0, 0, []), OF_KIND: (8, 1, 1, ONE, 0, []), DATED: (10, 2, 0, ONE, 3, [4, 255, 0])}[tag]
    record = Record(3, n, 65_535, 2 ** 32 - 1, version, padded([(5, 6, 9)[i % 3] for i in range(n)], STEPS),
                    padded([STRANGE[i % 7] for i in range(n)], STEPS), padded([(0, 1, 2 ** 32 - 1)[i % 3] for i in range(n)], STEPS), *option[:5],
                    padded(option[5], DATES))
    return record._replace(**changes)


def with_dates(record, count):
    return record._replace(tag=DATED, kind=1, expiry=0, count=count, dates=padded([7] * min(count, DATES), DATES))


def put(numbers, place, number):
    return numbers[:place] + [number] + numbers[place + 1:]


def framed(data):
    """The jobs of a file in which a length of two bytes stands before each."""
    while data:
        size = int.from_bytes(data[:2], 'big')
        yield data[2:2 + size]
        data = data[2 + size:]


class Records(unittest.TestCase):
    def refused(self, number, record, room=LONGEST_JOB):
        with self.assertRaises(Refused) as caught:
            written(record, room)
        self.assertEqual(caught.exception.number, number)

    def unwritten(self, record):
        """1, also where there is no room."""
        self.refused(1, record)
        self.refused(1, record, 0)

    def round_trips(self, record):
        job = written(record, LONGEST_JOB)
        self.assertEqual(reading(job), record)
        self.assertEqual(written(reading(job), len(job)), job)
        self.refused(6, record, len(job) - 1)
        return job

    def test_documents_job(self):
        self.assertEqual(reading(PRINTED), BY_HAND)
        self.assertEqual(written(BY_HAND, len(PRINTED)), PRINTED)
        self.refused(6, BY_HAND, len(PRINTED) - 1)
        self.refused(6, BY_HAND, 0)

    def test_every_form(self):
        for n in (0, 1, 2, 61, 200, 255):
            for version in (0, 1, 2):
                for tag in (0, OF_KIND, DATED):
                    size = 20 + 4 * (version > 0) + 18 * n + {0: 0, OF_KIND: 9, DATED: 11}[tag]
                    self.assertEqual(len(self.round_trips(made(n, version, tag))), size)

    def test_told_otherwise(self):
        """Version 1 by its field and by absence, and one right from 08 and from 0A, are different records with different bytes."""
        one = made(5, tag=OF_KIND, expiry=2)
        other = one._replace(tag=DATED, expiry=0, count=1, dates=padded([2], DATES))
        jobs = {self.round_trips(record) for record in (one, other, one._replace(version=1), other._replace(version=1))}
        self.assertEqual(sorted(map(len, jobs)), [119, 119, 123, 123])

    def test_longest(self):
        for n, version, count in ((255, 0, 82), (255, 1, 78), (255, 2, 78), (0, 0, DATES), (0, 2, DATES - 4), (60, 0, 3_592)):
            self.assertEqual(len(self.round_trips(with_dates(made(n, version), count))), LONGEST_JOB)
            self.unwritten(with_dates(made(n, version), count + 1))

    def test_list_of_no_rows(self):
        self.assertEqual(self.round_trips(with_dates(made(0), 0))[20:], bytes.fromhex('0A0005 01 00000000'))
        self.assertEqual(self.round_trips(made(0, tag=DATED))[-3:], bytes([4, 255, 0]))

    def test_numbers_past_their_field(self):
        record = made(2, 2, OF_KIND)
        for name, past in dict(f=256, n=256, b=65_536, s=2 ** 32, kind=256, expiry=256, strike=2 ** 32, count=1).items():
            for number in (past, past + getattr(record, name), 2 ** 32 + getattr(record, name), 2 ** 64 - 1):
                self.unwritten(record._replace(**{name: number}))
        for flow in (2 ** 32, 2 ** 32 + 1, 2 ** 64 - 1):
            self.unwritten(record._replace(flows=put(record.flows, 1, flow)))
        for version in (3, 255, 256, 256 + 1, 2 ** 32 + 2):
            self.unwritten(record._replace(version=version))

    def test_tags(self):
        """A tag of no option is refused beside zeros too."""
        for tag in {*range(1, 300), 2 ** 32, 2 ** 32 + 8} - {OF_KIND, DATED}:
            self.unwritten(made(2)._replace(tag=tag))
            self.unwritten(made(2, 1, OF_KIND)._replace(tag=tag))

    def test_kinds(self):
        record = made(2)
        for kind in set(range(256)) - {5, 6, 9}:
            self.unwritten(record._replace(kinds=put(record.kinds, 1, kind)))
        for n in (0, 1, 3, 255):
            self.unwritten(record._replace(n=n))

    def test_unused_places(self):
        for record in (made(2), made(2, 1, OF_KIND), made(2, 2, DATED)):
            for place in (2, 3, 100, STEPS - 1):
                for name, number in (('kinds', 5), ('figures', 1 << 63), ('flows', 1)):
                    self.unwritten(record._replace(**{name: put(getattr(record, name), place, number)}))
            for place in (record.count, 100, DATES - 1):
                self.unwritten(record._replace(dates=put(record.dates, place, 1)))

    def test_numbers_of_another_tag(self):
        for record, names in ((made(2), ('kind', 'expiry', 'strike', 'count')), (made(2, tag=OF_KIND), ('count',)), (made(2, tag=DATED), ('expiry',))):
            for name in names:
                self.unwritten(record._replace(**{name: 1}))

    def test_jobs_of_the_gate(self):
        """Every job of crates/sheet_cases that is well formed is written as its own bytes."""
        count = 0
        for job in framed((EXAMPLES / 'stdin').read_bytes()):
            try:
                record = reading(job)
            except Refused as refusal:
                self.assertEqual(refusal.number, 1)
                continue
            self.assertEqual(written(record, len(job)), job)
            count += 1
        self.assertGreater(count, 100)


if __name__ == '__main__':
    unittest.main()
