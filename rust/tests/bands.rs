//! Haircut bands: the limits and one past them, what each refusal shows, and worths worked out by hand.
#![cfg(not(without_library))]
use mixegorta::*;

const ALL: Band = Band {
    first_row: 1,
    last_row: 60,
    lowest_price: 0,
    highest_price: MAX_VALUE,
    haircut: 250,
};

fn refused(bands: &[Band]) -> (u64, Shown) {
    let refused = Bands::new(bands).check().unwrap_err();
    (refused.refusal.number(), refused.shown)
}

fn pair(number: u64, row: u64, price: u64) -> (u64, Shown) {
    (number, Shown::Pair { row, price })
}

fn place(place: u64) -> (u64, Shown) {
    (16, Shown::Place(place))
}

/// A band for each of the rows 1 to count - 1, and one for all later ones.
fn rows(count: u64) -> Vec<Band> {
    let last_row = |row| if row == count { 60 } else { row };
    (1..=count)
        .map(|row| Band {
            first_row: row,
            last_row: last_row(row),
            haircut: 100 * (row - 1),
            ..ALL
        })
        .collect()
}

#[test]
fn one_band() {
    assert_eq!(Bands::new(&[ALL]).check(), Ok(()));
    assert_eq!(refused(&[]), pair(17, 1, 0));
    assert!(Bands::new(&[]).is_empty() && Bands::new(&[ALL, ALL]).len() == 2);
    for first_row in [0, 61, 256 + 1, (1 << 32) + 1, u64::MAX] {
        assert_eq!(refused(&[Band { first_row, ..ALL }]), place(1));
    }
    for last_row in [0, 61, 256 + 60, (1 << 32) + 60, u64::MAX] {
        assert_eq!(refused(&[Band { last_row, ..ALL }]), place(1));
    }
    for price in [MAX_VALUE + 1, MAX_VALUE + (1 << 32), u64::MAX] {
        let (lowest_price, highest_price) = (price, price);
        assert_eq!(
            refused(&[Band {
                lowest_price,
                ..ALL
            }]),
            place(1)
        );
        assert_eq!(
            refused(&[Band {
                highest_price,
                ..ALL
            }]),
            place(1)
        );
    }
    for haircut in [10_001, 65_536 + 250, (1 << 32) + 250, u64::MAX] {
        assert_eq!(refused(&[Band { haircut, ..ALL }]), place(1));
    }
    for haircut in [0, MAX_HAIRCUT] {
        assert_eq!(Bands::new(&[Band { haircut, ..ALL }]).check(), Ok(()));
    }
}

#[test]
fn the_earlier_pair_decides() {
    let to = |highest_price| Band {
        highest_price,
        ..ALL
    };
    let from = |lowest_price| Band {
        lowest_price,
        ..ALL
    };
    assert_eq!(Bands::new(&[to(99), from(100)]).check(), Ok(()));
    assert_eq!(refused(&[to(100), from(100)]), pair(18, 1, 100));
    assert_eq!(refused(&[to(98), from(100)]), pair(17, 1, 99));
    let rows = |first_row, last_row| Band {
        first_row,
        last_row,
        ..ALL
    };
    assert_eq!(
        refused(&[rows(1, 1), rows(1, 1), rows(3, 60)]),
        pair(18, 1, 0)
    );
    assert_eq!(
        refused(&[rows(1, 1), rows(3, 60), rows(3, 60)]),
        pair(17, 2, 0)
    );
    let last = Band {
        highest_price: MAX_VALUE - 1,
        ..rows(60, 60)
    };
    assert_eq!(refused(&[rows(1, 59), last]), pair(17, 60, MAX_VALUE));
}

#[test]
fn places() {
    let bad = Band {
        last_row: 61,
        ..ALL
    };
    assert_eq!(Bands::new(&rows(MAX_BANDS as u64)).check(), Ok(()));
    assert_eq!(refused(&rows(41)), place(MAX_BANDS as u64 + 1));
    assert_eq!(refused(&[rows(41), vec![bad]].concat()), place(42));
    assert_eq!(refused(&[vec![ALL, bad], rows(41)].concat()), place(2));
}

#[test]
fn lengths_that_differ() {
    let [one, two] = [[1].as_slice(), &[1, 1]];
    let nothing = Err(BandRefusal {
        refusal: Refusal::LENGTH_OR_ROW,
        shown: Shown::Nothing,
    });
    for at in 0..5 {
        let list = |k| if k == at { two } else { one };
        let [a, b, c, d, e] = [0, 1, 2, 3, 4].map(list);
        assert_eq!(check_bands(a, b, c, d, e), nothing);
        let worth = lending_worth(a, b, c, d, e, 1, MAX_VALUE + 1);
        assert_eq!(worth.map(|_| ()), nothing);
    }
}

#[test]
fn worths() {
    let table = Bands::new(&rows(3));
    assert_eq!(table.worth(1, ONE), Ok(ONE));
    assert_eq!(table.worth(2, ONE + 1), Ok(990_000_000));
    assert_eq!(table.worth(3, 1), Ok(0));
    assert_eq!(table.worth(60, MAX_VALUE), Ok(7_840_000_000));
    let number = |row, price| table.worth(row, price).unwrap_err().refusal;
    for row in [0, 61, 256 + 1, (1 << 32) + 1, u64::MAX] {
        assert_eq!(number(row, MAX_VALUE + 1), Refusal::LENGTH_OR_ROW);
    }
    for price in [MAX_VALUE + 1, (1 << 32) + MAX_VALUE, u64::MAX] {
        assert_eq!(number(60, price), Refusal::VALUE);
    }
    let all = Band {
        haircut: MAX_HAIRCUT,
        ..ALL
    };
    assert_eq!(Bands::new(&[all]).worth(60, MAX_VALUE), Ok(0));
    let several = Bands::new(&[ALL, ALL]).worth(60, 5).unwrap_err();
    assert_eq!((several.refusal.number(), several.shown), pair(18, 1, 0));
}

#[test]
fn words() {
    let said = |bands: &[Band]| Bands::new(bands).check().unwrap_err().to_string();
    assert_eq!(
        said(&[]),
        "refused 17: a row and a price are in no band (row 1, price 0)"
    );
    assert!(said(&rows(41)).ends_with("more than 40 bands (band 41)"));
    let refusal: Refusal = Bands::new(&[]).check().unwrap_err().into();
    assert_eq!(refusal, Refusal::NO_BAND);
}
