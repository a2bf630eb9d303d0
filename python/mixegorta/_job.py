"""A job as a record: bytes to its fields, and its fields to bytes."""
from array import array
from typing import TYPE_CHECKING, Any, NamedTuple, Optional, Sequence, Tuple, Union

from ._arguments import Slice, amount, amounts, columns, dates as exercise_dates, job_bytes, memory, own_memory, u8, u64
from ._declarations import CJob, COptionRecord
from ._faults import accepted, call
from ._limits import MAX_JOB
from .amounts import Amount, Amounts

if TYPE_CHECKING:
    from _typeshed import ReadableBuffer, WriteableBuffer

__all__ = ["Job", "JobQuote", "KindOption", "DatedOption"]

QUOTE = "JobQuote(kind, bits)"
OF_KIND, DATED = 8, 10


class JobQuote(NamedTuple):
    """A quote as a job has it: its kind, DISCOUNT_FACTOR, YEARLY_RATE or YEARLY_YIELD, and the 64 bits of its figure, which are kept, NaN or not."""

    kind: int
    bits: int

    @classmethod
    def of(cls, kind: int, figure: float) -> "JobQuote":
        """The quote of a figure."""
        return cls(kind, array("Q", array("d", [figure]).tobytes())[0])

    @property
    def figure(self) -> float:
        """The figure that the bits are."""
        return array("d", array("Q", [self.bits]).tobytes())[0]


class KindOption(NamedTuple):
    """An option as field 08 has it: kind, 1 to 4 where it is good, the expiry's row and the strike."""

    kind: int
    expiry: int
    strike: Amount


class DatedOption(NamedTuple):
    """An option as field 0A has it: side, CALL or PUT where it is good, strike and listed rows. The same rights as a KindOption are another job."""

    side: int
    strike: Amount
    dates: Sequence[int]


JobOption = Union[KindOption, DatedOption]


class Job(NamedTuple):
    """A job as its fields say it, good or not: only the form counts here, and limits are left to sheet(). A job has as many steps as quotes, at most
    MAX_JOB_STEPS, and as many flows. Without a version, which means version 1, it is another job than with version 1.

    A job that is read and written again is its own bytes, and one that is written and read again has the same fields."""

    frequency: int
    reversion: int
    volatility: int
    quotes: Sequence[Union[JobQuote, Tuple[int, int]]]
    flows: Amounts
    option: Optional[JobOption] = None
    version: Optional[int] = None

    @classmethod
    def read(cls, job: "ReadableBuffer") -> "Job":
        """Reads a job's bytes; quotes, flows and dates come as tuples. MalformedJob where they are malformed or more than MAX_JOB."""
        given = job_bytes("job", job)
        found = call("read_job", given)
        accepted(found.number, "read_job", (given,))
        record, steps = found.job, found.job.steps
        quotes = tuple(map(JobQuote, record.kinds[:steps], record.figures[:steps]))
        return cls(record.frequency, record.reversion, record.volatility, quotes, tuple(record.flows[:steps]), _option_of(record.option),
                   record.version or None)

    def write_into(self, out: "WriteableBuffer") -> int:
        """Writes the job at the front of out, a writable buffer such as array('B') or a bytearray; gives the count of bytes. MalformedJob where no
        bytes are read as this job, then NotInTree where out is too short. Whatever is raised, out is as it was."""
        return _written(_record(self), memory("out", "B", out))

    def to_bytes(self) -> bytes:
        """The job's bytes, as sheet() and the sheet program take them. MalformedJob where no bytes are read as this job."""
        out = own_memory(MAX_JOB, "B")
        return bytes(out.values[:_written(_record(self), out)])


def _written(record: CJob, out: Slice) -> int:
    answer = call("write_job", record, out)
    accepted(answer.number, "write_job", (record, out))
    return int(answer.value)


def _option_of(record: COptionRecord) -> Optional[JobOption]:
    if record.tag == OF_KIND:
        return KindOption(record.kind, record.expiry, record.strike)
    if record.tag == DATED:
        return DatedOption(record.kind, record.strike, tuple(record.dates[:record.count]))
    return None


def _placed(name: str, given: Slice, places: Any) -> None:
    """Puts a list into the first places of a record, which it must fit."""
    if given.count > len(places):
        raise OverflowError(f"{name}: {given.count} of them, and a job record has {len(places)} places")
    places[:given.count] = list(given)


def _option_record(option: Optional[JobOption]) -> COptionRecord:
    if option is None:
        return COptionRecord()
    if isinstance(option, KindOption):
        return COptionRecord(OF_KIND, u64("kind", option.kind), u64("expiry", option.expiry), amount("strike", option.strike))
    if not isinstance(option, DatedOption):
        raise TypeError("option: a KindOption, a DatedOption or None")
    rows = exercise_dates("dates", option.dates)
    record = COptionRecord(DATED, u64("side", option.side), 0, amount("strike", option.strike), rows.count)
    _placed("dates", rows, record.dates)
    return record


def _record(job: Job) -> CJob:
    """The record with every number in its place, and zeros in all others."""
    version = 0 if job.version is None else u64("version", job.version)
    if job.version is not None and not version:
        raise ValueError("version: 0 is none; a job without a version has version=None")
    kinds, figures = columns("quotes", QUOTE, job.quotes, (("B", u8), ("Q", u64)))
    flows = amounts("flows", job.flows)
    record = CJob(u64("frequency", job.frequency), kinds.count, u64("reversion", job.reversion), u64("volatility", job.volatility), version)
    _placed("quotes", kinds, record.kinds)
    _placed("quotes", figures, record.figures)
    _placed("flows", flows, record.flows)
    if flows.count != kinds.count:
        raise ValueError(f"flows: {flows.count} of them, and {kinds.count} quotes; a job has as many of one as of the other")
    record.option = _option_record(job.option)
    return record
