"""Reports of books that add up: the totals of one file, and of any number of them."""
from typing import TYPE_CHECKING, Any, Iterable, NamedTuple, Tuple

from ._arguments import book_bytes
from ._declarations import CReport
from ._faults import call
from ._limits import MAX_REPORT_SIZE
from .refusals import MalformedJob, Refused, ValueTooLarge

if TYPE_CHECKING:
    from _typeshed import ReadableBuffer

__all__ = ["Report", "NoReport", "ReportTooLarge", "empty_report", "report_of_file", "joined_reports", "all_joined"]

MOST_NUMBER, BITS = 13, 64
NO_REPORT, TOO_LARGE = 1, 12


class Report(NamedTuple):
    """The totals over so many books. refused has the count of refusal k at place k - 1; sums and dearest are whole billionths, error_bounds sums how far
    each bond may be from its exact price. The dearest bond, the first one if equal, is that of the field `place` of the book with the number `book`, both
    from 1; these three are 0 where none is priced."""

    books: int
    fields: int
    priced: int
    refused: Tuple[int, ...]
    bonds: int
    options: int
    error_bounds: int
    dearest: int
    book: int
    place: int


class NoReport(MalformedJob):
    """1: a report that is joined has figures that no files give."""

    def __str__(self) -> str:
        return f"refused 1: {self.argument} is a report that no files give"

    @property
    def advice(self) -> str:
        """What to do about it, without a full stop."""
        return "join only what report_of_file, empty_report and joined_reports gave"


class ReportTooLarge(ValueTooLarge):
    """12: the books and fields of two reports together are more than a sum of 64 bits can hold."""

    def __str__(self) -> str:
        return f"refused 12: both reports together have more than {MAX_REPORT_SIZE:,} books and fields, whose sums could pass 64 bits"

    @property
    def advice(self) -> str:
        """What to do about it, without a full stop."""
        return "keep the two reports apart"


def _whole(name: str, value: Any) -> int:
    if isinstance(value, bool) or not isinstance(value, int):
        raise TypeError(f"{name} is a whole number, not {type(value).__name__}")
    if not 0 <= value < 1 << BITS:
        raise OverflowError(f"{name} is 0 to 2^64 - 1, not {value}")
    return value


def _handed(name: str, report: Any) -> CReport:
    """The report as the engine takes it."""
    if not isinstance(report, Report):
        raise TypeError(f"{name} is a Report, not {type(report).__name__}")
    if not isinstance(report.refused, (tuple, list)) or len(report.refused) != MOST_NUMBER:
        raise TypeError(f"{name}.refused has {MOST_NUMBER} counts")
    made = CReport(**{word: _whole(f"{name}.{word}", getattr(report, word)) for word in Report._fields if word != "refused"})
    made.refused[:] = [_whole(f"{name}.refused[{place}]", count) for place, count in enumerate(report.refused)]
    return made


def _taken(answer: Any) -> Report:
    return Report(answer.books, answer.fields, answer.priced, tuple(answer.refused), answer.bonds, answer.options, answer.error_bounds, answer.dearest,
                  answer.book, answer.place)


def empty_report() -> Report:
    """The report of no book, which changes no report that it is joined with."""
    return _taken(call("empty_report"))


def report_of_file(file: "ReadableBuffer") -> Report:
    """The totals of a book, bytes: a report of one book. Jobs that are refused are counted in it."""
    return _taken(call("report_of_file", book_bytes("file", file)))


def joined_reports(first: Report, second: Report) -> Report:
    """The report of the books of both, the second's numbered after the first's. It is the same however the reports of many books are grouped, as long as
    their order stays. NoReport where one has figures that no files give, ReportTooLarge where both are over more than MAX_REPORT_SIZE books and fields."""
    one, other = _handed("first", first), _handed("second", second)
    answer = call("joined_reports", one, other)
    if answer.number == NO_REPORT:
        alone = call("joined_reports", one, call("empty_report"))
        raise NoReport(NO_REPORT, "first" if alone.number else "second")
    if answer.number:
        raise (ReportTooLarge if answer.number == TOO_LARGE else Refused)(int(answer.number))
    return _taken(answer.report)


def all_joined(reports: Iterable[Report]) -> Report:
    """The report of all reports in their order, joined by twos: neighbours, then the pairs, and so on."""
    row = list(reports)
    while len(row) > 1:
        row = [joined_reports(*row[k:k + 2]) if k + 1 < len(row) else row[k] for k in range(0, len(row), 2)]
    return row[0] if row else empty_report()
