//! Reports of books that add up: the totals of one file, and of any number of them.
use crate::raw;
use crate::MAX_REPORT_SIZE;
use std::fmt;

/// The totals over so many books. All amounts are billionths.
#[derive(Clone, Copy, Debug, PartialEq, Eq)]
pub struct Report {
    /// How many books.
    pub books: u64,
    /// How many fields these have.
    pub fields: u64,
    /// How many of them are priced.
    pub priced: u64,
    /// How many are refused with number k, at place k - 1. What ends a file counts once under 1.
    pub refused: [u64; 13],
    /// The sum of the priced bonds.
    pub bonds: u64,
    /// The sum of the priced options.
    pub options: u64,
    /// The sum of the bonds' error bounds: the exact total of the bonds is no further from `bonds`.
    pub error_bounds: u64,
    /// The dearest bond, the first one if equal; 0 where none is priced.
    pub dearest: u64,
    /// The number of its book, from 1, or 0.
    pub book: u64,
    /// Its place among that book's fields, from 1, or 0.
    pub place: u64,
}

/// Why two reports are not joined.
#[derive(Clone, Copy, Debug, PartialEq, Eq, Hash)]
pub enum JoinRefusal {
    /// 1: one of them has figures that no files give.
    NoReport,
    /// 12: together they are over more than [`MAX_REPORT_SIZE`] books and fields, whose sums could pass 64 bits.
    TooLarge,
}

impl JoinRefusal {
    /// The engine's number.
    pub fn number(self) -> u64 {
        match self {
            JoinRefusal::NoReport => 1,
            JoinRefusal::TooLarge => 12,
        }
    }
}

impl fmt::Display for JoinRefusal {
    fn fmt(&self, f: &mut fmt::Formatter<'_>) -> fmt::Result {
        match self {
            JoinRefusal::NoReport => write!(f, "refused 1: a report is one that no files give"),
            JoinRefusal::TooLarge => write!(
                f,
                "refused 12: both reports together have more than {MAX_REPORT_SIZE} books and fields"
            ),
        }
    }
}

impl std::error::Error for JoinRefusal {}

fn taken(report: raw::Report) -> Report {
    Report {
        books: report.books,
        fields: report.fields,
        priced: report.priced,
        refused: report.refused,
        bonds: report.bonds,
        options: report.options,
        error_bounds: report.error_bounds,
        dearest: report.dearest,
        book: report.book,
        place: report.place,
    }
}

fn handed(report: &Report) -> raw::Report {
    raw::Report {
        books: report.books,
        fields: report.fields,
        priced: report.priced,
        refused: report.refused,
        bonds: report.bonds,
        options: report.options,
        error_bounds: report.error_bounds,
        dearest: report.dearest,
        book: report.book,
        place: report.place,
    }
}

/// The report of no book, which changes no report that it is joined with.
pub fn empty_report() -> Report {
    taken(unsafe { raw::mixegorta_empty_report() })
}

/// The totals of a file of jobs: a report of one book. Jobs that are refused are counted in it.
pub fn report_of_file(file: &[u8]) -> Report {
    taken(unsafe { raw::mixegorta_report_of_file(file.as_ptr(), file.len()) })
}

/// The report of the books of both, the second's numbered after the first's. It is the same however the reports of many books are
/// grouped, as long as their order stays.
pub fn joined_reports(first: &Report, second: &Report) -> Result<Report, JoinRefusal> {
    let joined = unsafe { raw::mixegorta_joined_reports(handed(first), handed(second)) };
    match joined.number {
        0 => Ok(taken(joined.report)),
        1 => Err(JoinRefusal::NoReport),
        _ => Err(JoinRefusal::TooLarge),
    }
}
