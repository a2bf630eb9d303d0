//! Jobs without their sheets, and books of jobs.
use crate::{accepted, raw, Price, Refusal, BOOK_ROOM, MAX_DISCOUNTS, MAX_STATE_PRICES};

/// The tag of a book's fields, 10 in hex.
const TAG: u8 = 0x10;

/// What a job is worth: its bond and, where it has one, its option.
#[derive(Clone, Copy, Debug, PartialEq, Eq)]
pub struct JobPrices {
    /// The bond.
    pub bond: Price,
    /// The option, none where the job has none.
    pub option: Option<Price>,
}

fn price_of(price: raw::Price) -> Price {
    Price {
        value: price.value,
        bound: price.bound,
    }
}

/// Prices a job without its sheet, and leaves its tree at the start of two memories, sized by its steps and its working reversion;
/// [`MAX_DISCOUNTS`] and [`MAX_STATE_PRICES`] numbers serve every job. A refusal leaves both as they were.
pub fn prices_of_job_into(
    job: &[u8],
    discounts: &mut [u64],
    state_prices: &mut [u64],
) -> Result<JobPrices, Refusal> {
    let found = unsafe {
        raw::mixegorta_prices_of_job(
            job.as_ptr(),
            job.len(),
            discounts.as_mut_ptr(),
            discounts.len(),
            state_prices.as_mut_ptr(),
            state_prices.len(),
        )
    };
    accepted(
        found.number,
        JobPrices {
            bond: price_of(found.bond),
            option: found.has_option.then(|| price_of(found.option)),
        },
    )
}

/// Prices a job without its sheet.
pub fn prices_of_job(job: &[u8]) -> Result<JobPrices, Refusal> {
    let (mut discounts, mut state_prices) = (vec![0; MAX_DISCOUNTS], vec![0; MAX_STATE_PRICES]);
    prices_of_job_into(job, &mut discounts, &mut state_prices)
}

/// A book of jobs: each in a field, in the order handed in. [`Refusal::JOB`] where a job has more than 65,535 bytes, which no field
/// holds; any other is left to the report, and so are more than [`MAX_FIELDS`](crate::MAX_FIELDS) of them.
pub fn book_of_jobs<J: AsRef<[u8]>>(jobs: &[J]) -> Result<Vec<u8>, Refusal> {
    let mut book = Vec::new();
    for job in jobs.iter().map(AsRef::as_ref) {
        let length = u16::try_from(job.len()).map_err(|_| Refusal::JOB)?;
        book.push(TAG);
        book.extend(length.to_be_bytes());
        book.extend(job);
    }
    Ok(book)
}

/// Writes the report of a book at the end of `out`, which has at least [`BOOK_ROOM`] bytes, and shows it as the part of `out` that it
/// is. The one refusal, of fewer bytes, leaves `out` as it was.
pub fn book_report_into<'a>(file: &[u8], out: &'a mut [u8]) -> Result<&'a [u8], Refusal> {
    let written = unsafe {
        raw::mixegorta_book_report(file.as_ptr(), file.len(), out.as_mut_ptr(), out.len())
    };
    accepted(written.number, ())?;
    Ok(&out[out.len() - written.size..])
}

/// The report of a book: eighteen lines of ASCII, each ended by a newline. Jobs that are refused are counted in it.
pub fn book_report(file: &[u8]) -> String {
    let mut out = [0; BOOK_ROOM];
    let lines = book_report_into(file, &mut out).expect("room for every report");
    String::from_utf8_lossy(lines).into_owned()
}
