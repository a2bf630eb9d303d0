//! Reports of books that add up: the files of crates/book_cases, in groups of any size, and what is no report.
#![cfg(not(without_library))]
use mixegorta::*;
use std::fs;

fn cases() -> Vec<Vec<u8>> {
    let framed = fs::read(concat!(
        env!("CARGO_MANIFEST_DIR"),
        "/../crates/book_cases/stdin"
    ))
    .unwrap();
    let (mut files, mut rest) = (vec![], &framed[..]);
    while rest.len() >= 2 {
        let size = usize::from(rest[0]) * 256 + usize::from(rest[1]);
        files.push(rest[2..2 + size].to_vec());
        rest = &rest[2 + size..];
    }
    files
}

fn all_joined(reports: &[Report]) -> Report {
    let first = empty_report();
    reports
        .iter()
        .fold(first, |sum, one| joined_reports(&sum, one).unwrap())
}

#[test]
fn groups_of_any_size_give_the_same() {
    let reports: Vec<Report> = cases().iter().map(|file| report_of_file(file)).collect();
    let whole = all_joined(&reports);
    assert_eq!((whole.books, whole.fields, whole.priced), (69, 2_705, 81));
    assert_eq!(
        (whole.bonds, whole.options),
        (87_416_503_240, 10_479_946_074)
    );
    assert_eq!((whole.error_bounds, whole.dearest), (468, 8 * ONE));
    assert_eq!((whole.book, whole.place), (57, 11));
    for size in 1..reports.len() {
        let groups: Vec<Report> = reports.chunks(size).map(all_joined).collect();
        assert_eq!(all_joined(&groups), whole);
    }
}

#[test]
fn refusals() {
    let (none, one) = (empty_report(), report_of_file(&[]));
    assert_eq!(joined_reports(&none, &one), Ok(one));
    assert_eq!(joined_reports(&one, &none), Ok(one));
    let wrong = [
        Report { bonds: 1, ..one },
        Report { fields: 501, ..one },
        Report {
            place: 1,
            book: 1,
            ..one
        },
        Report {
            priced: u64::MAX,
            ..one
        },
        Report {
            books: MAX_REPORT_SIZE + 1,
            ..none
        },
        Report {
            refused: [2; 13],
            ..one
        },
    ];
    for report in wrong {
        assert_eq!(joined_reports(&report, &none), Err(JoinRefusal::NoReport));
        assert_eq!(joined_reports(&none, &report), Err(JoinRefusal::NoReport));
    }
    let most = Report {
        books: MAX_REPORT_SIZE,
        ..none
    };
    assert_eq!(joined_reports(&most, &none), Ok(most));
    assert_eq!(joined_reports(&most, &one), Err(JoinRefusal::TooLarge));
    assert_eq!(JoinRefusal::TooLarge.number(), 12);
}
