//! A job built field by field, without a byte written by hand: that of `examples/callable-note.txt`.
//!
//!     cargo run --example job > callable-note.job
//!
//! writes the job, which the sheet program, `tools/price` and every other reader of jobs take. With `--sheet` it prints the job's sheet
//! instead, and with `--read` it reads the job of standard input, changes its strike to the one that follows, and writes it again.

use mixegorta::{sheet, DatedTerms, Job, JobOption, Quote, Side, ONE};
use std::error::Error;
use std::io::{self, Read, Write};

/// Simple yearly rates.
const RATES: [f64; 12] = [
    0.0380, 0.0383, 0.0387, 0.0391, 0.0395, 0.0399, 0.0404, 0.0409, 0.0414, 0.0419, 0.0425, 0.0431,
];
const COUPON: u64 = 22_500_000;

fn main() -> Result<(), Box<dyn Error>> {
    let words: Vec<String> = std::env::args().skip(1).collect();
    match words.iter().map(String::as_str).collect::<Vec<_>>()[..] {
        [] => io::stdout().write_all(&callable_note().to_bytes()?)?,
        ["--sheet"] => print!("{}", sheet(&callable_note().to_bytes()?)?),
        ["--read", strike] => io::stdout().write_all(&with_strike(strike.parse()?)?)?,
        _ => return Err("usage: job [--sheet | --read STRIKE]".into()),
    }
    Ok(())
}

/// Coupons on every second row, the principal with the last; the issuer may call at par on coupon days from the first year on.
fn callable_note() -> Job {
    let mut flows: Vec<u64> = (1..=12).map(|row| (1 - row % 2) * COUPON).collect();
    flows[11] += ONE;
    let right = DatedTerms {
        side: Side::Call,
        dates: &[4, 6, 8, 10],
        strike: ONE,
    };
    Job {
        frequency: 4,
        reversion: 500,
        volatility: 9_000,
        version: None,
        quotes: RATES.map(|rate| Quote::YearlyRate(rate).into()).to_vec(),
        flows,
        option: Some(right.into()),
    }
}

/// The job of standard input with another strike, everything else being kept to the bit.
fn with_strike(new: u64) -> Result<Vec<u8>, Box<dyn Error>> {
    let mut bytes = Vec::new();
    io::stdin().read_to_end(&mut bytes)?;
    let mut job = Job::read(&bytes)?;
    match &mut job.option {
        Some(JobOption::OfKind { strike, .. } | JobOption::Dated { strike, .. }) => *strike = new,
        None => return Err("the job has no option".into()),
    }
    Ok(job.to_bytes()?)
}
