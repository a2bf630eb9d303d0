//! Jobs as records: both round trips, the document's job by hand, what no bytes are read as, and lists that no record has room for.
#![cfg(not(without_library))]
use mixegorta::*;

/// The job that document 01 prints.
const PRINTED: [u8; 47] = [
    1, 0, 1, 1, 2, 0, 1, 1, 3, 0, 2, 0, 0, 4, 0, 4, 0, 0, 0, 0, 5, 0, 8, 0x3F, 0xF0, 0x0A, 0x3D,
    0x70, 0xA3, 0xD7, 0x0A, 7, 0, 4, 0x3B, 0x9A, 0xCA, 0, 8, 0, 6, 4, 1, 0x3C, 0x33, 0x60, 0x80,
];
/// Signalling and quiet NaN, both zeros, an infinity, all ones.
const STRANGE: [u64; 6] = [
    0x7FF0_0000_0000_0001,
    0x7FF8_0000_0000_0123,
    1 << 63,
    0,
    0xFFF0_0000_0000_0000,
    u64::MAX,
];

fn of_kind(kind: u64, expiry: u64, strike: u64) -> Option<JobOption> {
    Some(JobOption::OfKind {
        kind,
        expiry,
        strike,
    })
}

fn dated(count: usize) -> Option<JobOption> {
    Some(JobOption::Dated {
        side: 2,
        strike: 7,
        dates: (0..count).map(|row| 255 - (row % 256) as u8).collect(),
    })
}

/// A job of so many steps that has nothing but its form.
fn job(steps: usize, version: Option<u64>, option: Option<JobOption>) -> Job {
    let quote = |place: usize| JobQuote {
        kind: [5, 6, 9][place % 3],
        bits: STRANGE[place % 6],
    };
    Job {
        frequency: 3,
        reversion: 65_535,
        volatility: u32::MAX as u64,
        version,
        quotes: (0..steps).map(quote).collect(),
        flows: (0..steps)
            .map(|place| [0, 1, u32::MAX as u64][place % 3])
            .collect(),
        option,
    }
}

/// The bytes of a job, read again, and written into just enough memory and into too little.
fn round_trips(job: &Job) -> Vec<u8> {
    let bytes = job.to_bytes().expect("a form");
    assert_eq!(Job::read(&bytes).as_ref(), Ok(job));
    let mut out = vec![0xA5; bytes.len() + 3];
    assert_eq!(job.write_into(&mut out), Ok(&bytes[..]));
    assert_eq!(out[bytes.len()..], [0xA5; 3]);
    let mut short = vec![0xA5; bytes.len() - 1];
    let refused = Err(JobError::Refused(Refusal::LENGTH_OR_ROW));
    assert_eq!(job.write_into(&mut short), refused);
    assert!(short.iter().all(|byte| *byte == 0xA5));
    bytes
}

fn unwritten(job: &Job) {
    assert_eq!(
        job.to_bytes(),
        Err(JobError::Refused(Refusal::JOB)),
        "{job:?}"
    );
    assert_eq!(
        job.write_into(&mut []),
        Err(JobError::Refused(Refusal::JOB))
    );
}

#[test]
fn the_documents_job() {
    let by_hand = Job {
        frequency: 1,
        quotes: vec![Quote::DiscountFactor(1.0025).into()],
        flows: vec![ONE],
        option: of_kind(4, 1, 1_010_000_000),
        ..Job::default()
    };
    assert_eq!(Job::read(&PRINTED), Ok(by_hand.clone()));
    assert_eq!(round_trips(&by_hand), PRINTED);
    assert_eq!(by_hand.quotes[0].figure(), 1.0025);
    for size in (0..PRINTED.len()).filter(|size| *size != 38) {
        assert_eq!(Job::read(&PRINTED[..size]), Err(Refusal::JOB), "{size}");
    }
    assert_eq!(Job::read(&[&PRINTED[..], &[0]].concat()), Err(Refusal::JOB));
}

#[test]
fn every_form() {
    for steps in [0, 1, 2, 61, 200, MAX_JOB_STEPS] {
        for version in [None, Some(1), Some(2)] {
            let options = [
                None,
                of_kind(3, 7, ONE),
                of_kind(255, 255, u32::MAX as u64),
                dated(0),
                dated(1),
                dated(60),
            ];
            for (option, more) in options.into_iter().zip([0, 9, 9, 8, 9, 68]) {
                let size = 20 + 4 * version.is_some() as usize + 18 * steps + more;
                assert_eq!(round_trips(&job(steps, version, option)).len(), size);
            }
        }
    }
}

#[test]
fn longest() {
    let cases = [
        (255, None, 82),
        (255, Some(1), 78),
        (255, Some(2), 78),
        (0, None, MAX_JOB_DATES),
        (0, Some(2), MAX_JOB_DATES - 4),
    ];
    for (steps, version, count) in cases {
        assert_eq!(
            round_trips(&job(steps, version, dated(count))).len(),
            MAX_JOB
        );
        if count < MAX_JOB_DATES {
            unwritten(&job(steps, version, dated(count + 1)));
        }
    }
}

/// Version 1 by its field and by absence, and one right in both forms.
#[test]
fn told_otherwise() {
    let terms = OptionTerms {
        kind: OptionKind::EuropeanCall,
        expiry: 2,
        strike: 7,
    };
    let listed = DatedTerms {
        side: Side::Call,
        dates: &[2],
        strike: 7,
    };
    let plain = job(5, None, Some(terms.into()));
    let others = [
        job(5, Some(1), Some(terms.into())),
        job(5, None, Some(listed.into())),
    ];
    for other in &others {
        assert_ne!(round_trips(&plain), round_trips(other));
        assert_ne!(&plain, other);
    }
}

/// Numbers one past their field, and valid ones with 256 or 2^32 added.
#[test]
fn numbers_past_their_field() {
    let base = job(2, Some(2), of_kind(1, 1, 1));
    for add in [1 << 8, 1 << 16, 1 << 32, 1 << 63] {
        unwritten(&Job {
            frequency: base.frequency + add,
            ..base.clone()
        });
        unwritten(&Job {
            version: Some(2 + add),
            ..base.clone()
        });
        unwritten(&Job {
            option: of_kind(1 + add, 1, 1),
            ..base.clone()
        });
        unwritten(&Job {
            option: of_kind(1, 1 + add, 1),
            ..base.clone()
        });
        if add > 1 << 16 {
            unwritten(&Job {
                option: of_kind(1, 1, 1 + add),
                ..base.clone()
            });
            unwritten(&Job {
                flows: vec![1, add],
                ..base.clone()
            });
            unwritten(&Job {
                volatility: 1 + add,
                ..base.clone()
            });
        }
        if add > 1 << 8 {
            unwritten(&Job {
                reversion: 1 + add,
                ..base.clone()
            });
        }
    }
    unwritten(&Job {
        frequency: 256,
        ..base.clone()
    });
    unwritten(&Job {
        reversion: 65_536,
        ..base.clone()
    });
    unwritten(&Job {
        version: Some(3),
        ..base.clone()
    });
    for kind in (0..=255).filter(|kind| ![5, 6, 9].contains(kind)) {
        let quotes = vec![base.quotes[0], JobQuote { kind, bits: 0 }];
        unwritten(&Job {
            quotes,
            ..base.clone()
        });
    }
}

/// What no record has places for is an error of this crate, and the memory is as it was.
#[test]
fn lists_without_places() {
    let base = job(2, None, None);
    let mut out = [0xA5; MAX_JOB];
    let mut wrong = |job: Job, error: JobError| {
        assert_eq!(job.to_bytes(), Err(error));
        assert_eq!(job.write_into(&mut out), Err(error));
        assert_eq!(out, [0xA5; MAX_JOB]);
    };
    wrong(
        job(256, None, None),
        JobError::Lists {
            quotes: 256,
            flows: 256,
        },
    );
    for flows in [1, 3, 258] {
        let longer = Job {
            flows: vec![0; flows],
            ..base.clone()
        };
        wrong(longer, JobError::Lists { quotes: 2, flows });
    }
    wrong(
        job(0, None, dated(MAX_JOB_DATES + 1)),
        JobError::Dates(MAX_JOB_DATES + 1),
    );
    wrong(job(0, None, dated(65_536)), JobError::Dates(65_536));
    wrong(
        Job {
            version: Some(0),
            ..base
        },
        JobError::VersionZero,
    );
    let words = JobError::Lists {
        quotes: 2,
        flows: 3,
    }
    .to_string();
    assert_eq!(
        words,
        "2 quotes and 3 flows: a job has as many of one as of the other, at most 255"
    );
    assert_eq!(
        JobError::from(Refusal::JOB).to_string(),
        Refusal::JOB.to_string()
    );
}
