"""Jobs without their sheets, and books of jobs."""
from typing import TYPE_CHECKING, Iterable, NamedTuple, Optional

from ._arguments import Slice, apart, book_bytes, job_bytes, jobs_listed, memory, own_memory
from ._engine import Price
from ._faults import accepted, call
from ._limits import BOOK_ROOM, MAX_DISCOUNTS, MAX_STATE_PRICES

if TYPE_CHECKING:
    from _typeshed import ReadableBuffer, WriteableBuffer

__all__ = ["JobPrices", "prices_of_job", "prices_of_job_into", "book_of_jobs", "book_report", "book_report_into"]

# the tag of a book's fields, and the most bytes that one holds
TAG, LONGEST_FIELD = 0x10, 65_535


class JobPrices(NamedTuple):
    """What a job is worth: its bond and, where it has one, its option, else None."""

    bond: Price
    option: Optional[Price]


def _prices(job: Slice, discounts: Slice, state_prices: Slice) -> JobPrices:
    given = job, discounts, state_prices
    answer = call("prices_of_job", *given)
    accepted(answer.number, "prices_of_job", given)
    option = Price(answer.option.value, answer.option.bound) if answer.has_option else None
    return JobPrices(Price(answer.bond.value, answer.bond.bound), option)


def prices_of_job_into(job: "ReadableBuffer", discounts: "WriteableBuffer", state_prices: "WriteableBuffer") -> JobPrices:
    """Prices a job, bytes, without its sheet, and leaves its tree at the start of two memories: writable, contiguous buffers of 64-bit unsigned
    numbers, such as array('Q'), sized by its steps and its working reversion; MAX_DISCOUNTS and MAX_STATE_PRICES numbers serve every job. A refusal leaves
    both as they were."""
    given = job_bytes("job", job), memory("discounts", "Q", discounts), memory("state_prices", "Q", state_prices)
    apart(discounts=given[1], state_prices=given[2])
    apart(job=given[0], discounts=given[1])
    apart(job=given[0], state_prices=given[2])
    return _prices(*given)


def prices_of_job(job: "ReadableBuffer") -> JobPrices:
    """The prices of a job, bytes, without its sheet."""
    return _prices(job_bytes("job", job), own_memory(MAX_DISCOUNTS), own_memory(MAX_STATE_PRICES))


def book_of_jobs(jobs: "Iterable[ReadableBuffer]") -> bytes:
    """A book of jobs, bytes each: every one in a field, in this order. A job of more than 65,535 bytes, which no field holds, is a ValueError; any other
    is left to the report, and so are more than MAX_FIELDS of them."""
    listed = jobs_listed("jobs", jobs)
    for place, job in enumerate(listed):
        if len(job) > LONGEST_FIELD:
            raise ValueError(f"jobs[{place}]: {len(job):,} bytes, and a field holds at most {LONGEST_FIELD:,}")
    return b"".join(bytes([TAG]) + len(job).to_bytes(2, "big") + job for job in listed)


def _report(file: Slice, out: Slice) -> int:
    written = call("book_report", file, out)
    accepted(written.number, "book_report", (file, out))
    return int(written.size)


def book_report_into(file: "ReadableBuffer", out: "WriteableBuffer") -> int:
    """Writes the report of a book, bytes, at the end of out, a writable buffer of at least BOOK_ROOM bytes such as array('B') or a bytearray; gives the
    report's size. The one refusal, of fewer bytes, leaves out as it was."""
    given = book_bytes("file", file), memory("out", "B", out)
    apart(file=given[0], out=given[1])
    return _report(*given)


def book_report(file: "ReadableBuffer") -> str:
    """The report of a book, bytes, as its eighteen lines, each ended by a newline. Jobs that are refused are counted in it."""
    out = own_memory(BOOK_ROOM, "B")
    size = _report(book_bytes("file", file), out)
    return bytes(out.values[BOOK_ROOM - size:]).decode("ascii")
