//! Jobs without their sheets, and books of jobs: figures worked out by hand, and the files of crates/book_cases.
#![cfg(not(without_library))]
use mixegorta::*;
use std::fs;

fn field(tag: u8, content: &[u8]) -> Vec<u8> {
    let length = (content.len() as u16).to_be_bytes();
    [&[tag], &length[..], content].concat()
}

/// A job of one step at a discount of 0.9: its bond is 0.9 times the flow.
fn job(flow: u64, option: &[u8]) -> Vec<u8> {
    let figure = 0.9f64.to_bits().to_be_bytes();
    [
        field(1, &[1]),
        field(2, &[1]),
        field(3, &[0; 2]),
        field(4, &[0; 4]),
        field(5, &figure),
        field(7, &(flow as u32).to_be_bytes()),
        option.to_vec(),
    ]
    .concat()
}

fn put(strike: u64) -> Vec<u8> {
    field(8, &[&[2, 0], &(strike as u32).to_be_bytes()[..]].concat())
}

fn price(value: u64, bound: u64) -> Price {
    Price { value, bound }
}

#[test]
fn prices_of_jobs() {
    let (bond, none) = (price(900_000_000, 2), None);
    assert_eq!(
        prices_of_job(&job(ONE, &[])),
        Ok(JobPrices { bond, option: none })
    );
    let option = Some(price(100_000_000, 2));
    assert_eq!(
        prices_of_job(&job(ONE, &put(ONE))),
        Ok(JobPrices { bond, option })
    );
    let worthless = Some(price(0, 2));
    assert_eq!(
        prices_of_job(&job(ONE, &put(0))).map(|prices| prices.option),
        Ok(worthless)
    );
    let refusals = [
        (job(MAX_FLOW + 1, &[]), Refusal::FLOW),
        (job(ONE, &put(MAX_STRIKE + 1)), Refusal::OPTION),
        (vec![], Refusal::JOB),
        (vec![0; MAX_JOB + 1], Refusal::JOB),
    ];
    for (wrong, refusal) in refusals {
        assert_eq!(prices_of_job(&wrong), Err(refusal));
    }
}

#[test]
fn trees_of_jobs() {
    let (mut discounts, mut state_prices) = ([7; 3], [7; 5]);
    let found = prices_of_job_into(&job(ONE, &[]), &mut discounts, &mut state_prices);
    assert!(found.is_ok());
    assert_eq!(discounts, [900_000_000, 7, 7]);
    assert_eq!(
        state_prices,
        [ONE, 150_000_000, 600_000_000, 150_000_000, 7]
    );
    for (few, fewer) in [(0, 4), (1, 3)] {
        let (mut discounts, mut state_prices) = (vec![7; few], vec![7; fewer]);
        let found = prices_of_job_into(&job(ONE, &[]), &mut discounts, &mut state_prices);
        assert_eq!(found, Err(Refusal::LENGTH_OR_ROW));
        assert!(discounts.iter().chain(&state_prices).all(|v| *v == 7));
    }
}

/// The lines of a report with the counts of these numbers and of no others.
fn lines(priced: u64, refused: &[u64], sums: &str) -> String {
    let counts: String = (1..=13)
        .map(|k| {
            format!(
                "refused {k} {}\n",
                refused.iter().filter(|r| **r == k).count()
            )
        })
        .collect();
    format!("priced {priced}\n{counts}{sums}")
}

const NOTHING: &str = "bonds 0.000000000\noptions 0.000000000\nallowances 0\ndearest 0\n";

#[test]
fn reports_by_hand() {
    assert_eq!(book_report(&[]), lines(0, &[], NOTHING));
    let over = job(2 * ONE, &put(MAX_STRIKE + 1));
    let jobs = [over, job(ONE, &put(ONE)), job(ONE, &[]), vec![]];
    let book = book_of_jobs(&jobs).expect("short jobs");
    let sums = "bonds 1.800000000\noptions 0.100000000\nallowances 4\ndearest 2\n";
    assert_eq!(book_report(&book), lines(2, &[1, 11], sums));
    for broken in [&[16][..], &[16, 0], &[16, 0, 1], &[10, 0, 0], &[0]] {
        let file = [&book, broken].concat();
        assert_eq!(
            book_report(&file),
            lines(2, &[1, 1, 11], sums),
            "{broken:?}"
        );
    }
}

#[test]
fn five_hundred_fields() {
    let book = |count: usize| book_of_jobs(&vec![job(2 * ONE, &[]); count]).expect("short jobs");
    let sums = "bonds 900.000000000\noptions 0.000000000\nallowances 1000\ndearest 1\n";
    assert_eq!(book_report(&book(MAX_FIELDS)), lines(500, &[], sums));
    assert_eq!(book_report(&book(MAX_FIELDS + 1)), lines(500, &[1], sums));
    assert_eq!(book_report(&book(MAX_FIELDS + 9)), lines(500, &[1], sums));
}

/// A job that no field holds, and the longest that one does.
#[test]
fn long_jobs() {
    assert_eq!(book_of_jobs(&[vec![0; 1 << 16]]), Err(Refusal::JOB));
    let book = book_of_jobs(&[vec![0; (1 << 16) - 1], job(0, &[])]).expect("a field");
    let sums = "bonds 0.000000000\noptions 0.000000000\nallowances 2\ndearest 2\n";
    assert_eq!(book_report(&book), lines(1, &[1], sums));
}

#[test]
fn room_of_a_report() {
    let wanted = lines(0, &[], NOTHING);
    let mut out = [7; BOOK_ROOM + 3];
    assert_eq!(book_report_into(&[], &mut out), Ok(wanted.as_bytes()));
    assert!(out[..out.len() - wanted.len()]
        .iter()
        .all(|byte| *byte == 7));
    let mut short = [7; BOOK_ROOM - 1];
    assert_eq!(
        book_report_into(&[], &mut short),
        Err(Refusal::LENGTH_OR_ROW)
    );
    assert_eq!(short, [7; BOOK_ROOM - 1]);
}

#[test]
fn reports_of_every_case() {
    let read = |name: &str| {
        let path = format!("{}/../crates/book_cases/{name}", env!("CARGO_MANIFEST_DIR"));
        fs::read(path).expect("the cases")
    };
    let (files, mut reports, mut count) = (read("stdin"), String::new(), 0);
    let mut rest = &files[..];
    while let [high, low, more @ ..] = rest {
        let (file, later) = more.split_at(*high as usize * 256 + *low as usize);
        reports += &book_report(file);
        (rest, count) = (later, count + 1);
    }
    assert!(
        reports.as_bytes() == read("stdout"),
        "the reports of crates/book_cases"
    );
    assert!(count >= 69);
}
