"""Job records of document 02, request (xii): a job's bytes as a record with a place for every number, and a record as the one form that the reader takes.

The reader is that of reference.py. A record is written by putting its fields into their widths and reading the bytes again: where a number does not fit, the
bytes are malformed or too long, or they are read as another record, no job is read as this one.
"""
from collections import namedtuple

from reference import Kind, Option, Refused, read, refuse_if

STEPS = 255
DATES = 4_672
OF_KIND, DATED = 0x08, 0x0A

# version and tag are 0 where the job has no such field; lists have all their places, zeros behind those that are used.
Record = namedtuple('Record', 'f n b s version kinds figures flows tag kind expiry strike count dates')


def padded(numbers, places):
    return list(numbers) + [0] * (places - len(numbers))


def option_places(option):
    """tag, kind or side, expiry, strike, count and dates."""
    if isinstance(option, Kind):
        return OF_KIND, option.kind, option.expiry, option.strike, 0, padded([], DATES)
    if isinstance(option, Option):
        return DATED, option.side, 0, option.strike, len(option.dates), padded(option.dates, DATES)
    return 0, 0, 0, 0, 0, padded([], DATES)


def reading(job):
    """The record of a job's bytes, or Refused with 1."""
    found = read(job)
    return Record(found.f, found.n, found.b, found.s, found.version or 0, padded([kind for kind, _ in found.quotes], STEPS),
                  padded([pattern for _, pattern in found.quotes], STEPS), padded(found.flows, STEPS), *option_places(found.option))


def field(tag, *numbers):
    """A field whose data are numbers, each with its width in bytes. A number that does not fit is an OverflowError."""
    data = b''.join(number.to_bytes(width, 'big') for number, width in numbers)
    return bytes([tag]) + len(data).to_bytes(2, 'big') + data


def option_field(record):
    if record.tag == OF_KIND:
        return field(OF_KIND, (record.kind, 1), (record.expiry, 1), (record.strike, 4))
    if record.tag == DATED:
        return field(DATED, (record.kind, 1), (record.strike, 4), *((row, 1) for row in record.dates[:record.count]))
    return b''


def form(record):
    """The bytes that the record's fields give, whether they are a job or not."""
    head = field(1, (record.f, 1)) + field(2, (record.n, 1)) + field(3, (record.b, 2)) + field(4, (record.s, 4))
    version = field(0x0B, (record.version, 1)) if record.version else b''
    quotes = b''.join(field(kind, (figure, 8)) for kind, figure in zip(record.kinds[:record.n], record.figures))
    flows = b''.join(field(7, (flow, 4)) for flow in record.flows[:record.n])
    return head + version + quotes + flows + option_field(record)


def written(record, room):
    """The bytes that a record is written as; Refused with 1 where no job is read as it, then with 6 where they do not fit the room."""
    try:
        job = form(record)
    except OverflowError:
        raise Refused(1) from None
    refuse_if(reading(job) != record, 1)
    refuse_if(room < len(job), 6)
    return job
