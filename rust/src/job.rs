//! A job as a record: bytes to its fields, and its fields to bytes.

use crate::raw::{self, OptionRecord};
use crate::{accepted, value_of, DatedTerms, OptionTerms, Quote, Refusal};
use crate::{MAX_JOB, MAX_JOB_DATES, MAX_JOB_STEPS};
use std::fmt;

/// A quote as a job has it: its kind, 5, 6 or 9, and the 64 bits of its figure, which are kept, NaN or not.
#[derive(Clone, Copy, Debug, PartialEq, Eq, Hash)]
pub struct JobQuote {
    /// 5 a discount factor, 6 a simple yearly rate, 9 a yearly yield by continuous compounding.
    pub kind: u8,
    /// The figure's bits.
    pub bits: u64,
}

impl JobQuote {
    /// The figure that the bits are.
    pub fn figure(self) -> f64 {
        f64::from_bits(self.bits)
    }
}

impl From<Quote> for JobQuote {
    fn from(quote: Quote) -> JobQuote {
        JobQuote {
            kind: quote.kind(),
            bits: quote.figure().to_bits(),
        }
    }
}

/// An option as a job has it, good or not. The same rights in the other form are another job.
#[derive(Clone, Debug, PartialEq, Eq, Hash)]
pub enum JobOption {
    /// Field 08: one of the four kinds, as [`OptionKind`](crate::OptionKind) numbers them.
    OfKind {
        /// 1 to 4 where it is good; one byte.
        kind: u64,
        /// The last row of exercise; one byte.
        expiry: u64,
        /// What is paid for the bond, in billionths; four bytes.
        strike: u64,
    },
    /// Field 0A: listed rows.
    Dated {
        /// 1 a call, 2 a put, as [`Side`](crate::Side) numbers them, where it is good; one byte.
        side: u64,
        /// What is paid for the bond, in billionths; four bytes.
        strike: u64,
        /// The rows, rising or not, or none.
        dates: Vec<u8>,
    },
}

impl From<OptionTerms> for JobOption {
    fn from(terms: OptionTerms) -> JobOption {
        JobOption::OfKind {
            kind: terms.kind as u64,
            expiry: terms.expiry as u64,
            strike: terms.strike,
        }
    }
}

impl From<DatedTerms<'_>> for JobOption {
    fn from(terms: DatedTerms<'_>) -> JobOption {
        JobOption::Dated {
            side: terms.side as u64,
            strike: terms.strike,
            dates: terms.dates.to_vec(),
        }
    }
}

/// A job as its fields say it, good or not: only the form counts here, and limits are left to [`sheet`](crate::sheet). A job has as many steps
/// as it has quotes.
///
/// A job that is read and written again is its own bytes, and one that is written and read again is the same `Job`.
///
#[cfg_attr(without_library, doc = "```ignore")]
#[cfg_attr(not(without_library), doc = "```")]
/// use mixegorta::{sheet, Job, OptionKind, OptionTerms, Quote, ONE};
///
/// let put = OptionTerms { kind: OptionKind::AmericanPut, expiry: 0, strike: 1_010_000_000 };
/// let job = Job {
///     frequency: 1,
///     quotes: vec![Quote::DiscountFactor(1.0025).into()],
///     flows: vec![ONE],
///     option: Some(put.into()),
///     ..Job::default()
/// };
/// let bytes = job.to_bytes()?;
/// assert!(sheet(&bytes)?.ends_with("option 0.007500000 2\n"));
/// assert_eq!(Job::read(&bytes)?, job);
/// # Ok::<(), mixegorta::JobError>(())
/// ```
#[derive(Clone, Debug, Default, PartialEq, Eq, Hash)]
pub struct Job {
    /// Steps a year; one byte.
    pub frequency: u64,
    /// Reversion per step in ten-thousandths; two bytes.
    pub reversion: u64,
    /// Yearly volatility in millionths; four bytes.
    pub volatility: u64,
    /// 1 or 2 where the job says so. `None`, which means version 1, and `Some(1)` are two jobs.
    pub version: Option<u64>,
    /// The quotes of rows 1, 2 and so on, at most [`MAX_JOB_STEPS`].
    pub quotes: Vec<JobQuote>,
    /// The flows of the same rows in billionths, four bytes each.
    pub flows: Vec<u64>,
    /// The option, if there is one.
    pub option: Option<JobOption>,
}

/// Why a [`Job`] was not written.
#[derive(Clone, Copy, Debug, PartialEq, Eq)]
pub enum JobError {
    /// The engine's refusal: [`Refusal::JOB`] where no bytes are read as this job, [`Refusal::LENGTH_OR_ROW`] where the memory is too short.
    Refused(Refusal),
    /// There are more than [`MAX_JOB_STEPS`] quotes or flows, or not as many flows as quotes.
    Lists {
        /// How many quotes there are.
        quotes: usize,
        /// How many flows there are.
        flows: usize,
    },
    /// There are more than [`MAX_JOB_DATES`] dates.
    Dates(usize),
    /// The version is `Some(0)`, which would be written as none.
    VersionZero,
}

impl fmt::Display for JobError {
    fn fmt(&self, f: &mut fmt::Formatter<'_>) -> fmt::Result {
        match self {
            JobError::Refused(refusal) => refusal.fmt(f),
            JobError::Lists { quotes, flows } => write!(
                f,
                "{quotes} quotes and {flows} flows: a job has as many of one as of the other, at most {MAX_JOB_STEPS}"
            ),
            JobError::Dates(count) => {
                write!(f, "{count} dates: a job has at most {MAX_JOB_DATES}")
            }
            JobError::VersionZero => write!(f, "version 0: a job without a version has none"),
        }
    }
}

impl std::error::Error for JobError {}

impl From<Refusal> for JobError {
    fn from(refusal: Refusal) -> JobError {
        JobError::Refused(refusal)
    }
}

impl Job {
    /// Reads a job's bytes. [`Refusal::JOB`] where they are malformed or more than [`MAX_JOB`].
    pub fn read(bytes: &[u8]) -> Result<Job, Refusal> {
        let reading = unsafe { raw::mixegorta_read_job(bytes.as_ptr(), bytes.len()) };
        accepted(reading.number, ())?;
        Ok(Job::of_record(&reading.job))
    }

    /// Writes the job at the front of `out`, and shows it as the part of `out` that it is. An error leaves `out` as it was.
    pub fn write_into<'a>(&self, out: &'a mut [u8]) -> Result<&'a [u8], JobError> {
        let record = self.record()?;
        let answer = unsafe { raw::mixegorta_write_job(record, out.as_mut_ptr(), out.len()) };
        let count = value_of(answer)?;
        Ok(&out[..count as usize])
    }

    /// The job's bytes, as [`sheet`](crate::sheet) and the sheet program take them.
    pub fn to_bytes(&self) -> Result<Vec<u8>, JobError> {
        let mut out = [0; MAX_JOB];
        Ok(self.write_into(&mut out)?.to_vec())
    }

    /// The fields of a record that was read: its counts are within its places.
    fn of_record(record: &raw::Job) -> Job {
        let steps = record.steps;
        let quotes = record.kinds[..steps].iter().zip(&record.figures);
        Job {
            frequency: record.frequency,
            reversion: record.reversion,
            volatility: record.volatility,
            version: (record.version != 0).then_some(record.version),
            quotes: quotes
                .map(|(&kind, &bits)| JobQuote { kind, bits })
                .collect(),
            flows: record.flows[..steps].to_vec(),
            option: option_of(&record.option),
        }
    }

    /// The record with every number in its place, and zeros in all others.
    fn record(&self) -> Result<raw::Job, JobError> {
        let (quotes, flows) = (self.quotes.len(), self.flows.len());
        if quotes != flows || quotes > MAX_JOB_STEPS {
            return Err(JobError::Lists { quotes, flows });
        }
        if self.version == Some(0) {
            return Err(JobError::VersionZero);
        }
        let mut record = raw::Job {
            frequency: self.frequency,
            steps: quotes,
            reversion: self.reversion,
            volatility: self.volatility,
            version: self.version.unwrap_or(0),
            kinds: [0; MAX_JOB_STEPS],
            figures: [0; MAX_JOB_STEPS],
            flows: [0; MAX_JOB_STEPS],
            option: record_of(self.option.as_ref())?,
        };
        for (place, quote) in self.quotes.iter().enumerate() {
            record.kinds[place] = quote.kind;
            record.figures[place] = quote.bits;
        }
        record.flows[..flows].copy_from_slice(&self.flows);
        Ok(record)
    }
}

fn option_of(record: &OptionRecord) -> Option<JobOption> {
    match record.tag {
        8 => Some(JobOption::OfKind {
            kind: record.kind,
            expiry: record.expiry,
            strike: record.strike,
        }),
        10 => Some(JobOption::Dated {
            side: record.kind,
            strike: record.strike,
            dates: record.dates[..record.count].to_vec(),
        }),
        _ => None,
    }
}

fn record_of(option: Option<&JobOption>) -> Result<OptionRecord, JobError> {
    let mut record = OptionRecord {
        tag: 0,
        kind: 0,
        expiry: 0,
        strike: 0,
        count: 0,
        dates: [0; MAX_JOB_DATES],
    };
    match option {
        None => {}
        Some(&JobOption::OfKind {
            kind,
            expiry,
            strike,
        }) => {
            (record.tag, record.kind, record.expiry, record.strike) = (8, kind, expiry, strike);
        }
        Some(JobOption::Dated {
            side,
            strike,
            dates,
        }) => {
            let places = record.dates.get_mut(..dates.len());
            places
                .ok_or(JobError::Dates(dates.len()))?
                .copy_from_slice(dates);
            (record.tag, record.kind, record.strike) = (10, *side, *strike);
            record.count = dates.len();
        }
    }
    Ok(record)
}
