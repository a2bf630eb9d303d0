//! Strips of strikes: each answer against the call for its strike alone, and the causes of the strip itself.
#![cfg(not(without_library))]
use mixegorta::*;

const STEPS: usize = 9;
const LIMIT: u64 = MAX_STRIKE;

fn steep() -> Vec<u64> {
    vec![MAX_NODE_DISCOUNT; STEPS * STEPS]
}

fn priced(value: u64, bound: u64) -> Result<Price, Refusal> {
    Ok(Price { value, bound })
}

fn fitted() -> Tree {
    let quotes: Vec<Quote> = (1..=5)
        .map(|t| Quote::YearlyRate(0.01 * t as f64))
        .collect();
    Tree::fit(1, 5, 1_000, 10_000, &Curve::of_quotes(&quotes)).expect("a tree")
}

const COUPONS: [u64; 5] = [
    50_000_000,
    50_000_000,
    50_000_000,
    50_000_000,
    1_050_000_000,
];

/// Strikes in no order, with equal ones and one above the limit.
fn strikes(count: usize) -> Vec<u64> {
    let all = [ONE, 0, LIMIT + 1, ONE, 980_000_000, LIMIT, 1_020_000_000];
    (0..count).map(|place| all[place % all.len()]).collect()
}

/// Of 4 x one on 1.1 eight times the value passes its limit, of 3 x one and of one it does not.
#[test]
fn figures_by_hand() {
    let strikes = [4 * ONE, 3 * ONE, 4 * ONE, ONE];
    let over = Err(Refusal::VALUE);
    let wanted = [
        over,
        priced(6_430_766_430, 33),
        over,
        priced(2_143_588_810, 33),
    ];
    let (discounts, flows) = (steep(), [0; STEPS]);
    let dated = option_strip(STEPS, 0, &discounts, &flows, Side::Put, &[8], &strikes);
    assert_eq!(dated.expect("a strip"), wanted);
    let european = OptionKind::EuropeanPut;
    let of_kind = option_strip_of_kind(STEPS, 0, &discounts, &flows, european, 8, &strikes);
    assert_eq!(of_kind.expect("a strip"), wanted);
}

#[test]
fn each_answer_is_a_call_alone() {
    let tree = fitted();
    for count in [1, 2, 15, 16] {
        let strikes = strikes(count);
        for dates in [&[0, 2, 4][..], &[3], &[], &[5], &[2, 2]] {
            for side in [Side::Call, Side::Put] {
                let strip = tree.option_strip(&COUPONS, side, dates, &strikes);
                let alone = |strike: &u64| DatedTerms {
                    side,
                    dates,
                    strike: *strike,
                };
                let each = strikes
                    .iter()
                    .map(|s| tree.dated_option_price(&COUPONS, alone(s)));
                assert_eq!(strip.expect("a strip"), each.collect::<Strip>());
            }
        }
        use OptionKind::*;
        for kind in [EuropeanCall, EuropeanPut, AmericanCall, AmericanPut] {
            for expiry in [0, 4, 5] {
                let strip = tree.option_strip_of_kind(&COUPONS, kind, expiry, &strikes);
                let alone = |strike: &u64| OptionTerms {
                    kind,
                    expiry,
                    strike: *strike,
                };
                let each = strikes
                    .iter()
                    .map(|s| tree.option_price(&COUPONS, alone(s)));
                assert_eq!(strip.expect("a strip"), each.collect::<Strip>());
            }
        }
    }
}

/// 3, 4, then the number of strikes, whatever the list and the flows are.
#[test]
fn causes_of_the_strip_itself() {
    let discounts = steep();
    let made = |steps, reversion, strikes: &[u64]| {
        let dated = option_strip(steps, reversion, &discounts, &[], Side::Call, &[], strikes);
        let european = OptionKind::EuropeanCall;
        let of_kind =
            option_strip_of_kind(steps, reversion, &discounts, &[], european, 99, strikes);
        assert_eq!(dated, of_kind);
        dated
    };
    for count in [0, 17, 18, 272] {
        let strikes = vec![ONE; count];
        assert_eq!(made(0, 6_001, &strikes), Err(Refusal::STEPS));
        assert_eq!(made(61, 0, &strikes), Err(Refusal::STEPS));
        assert_eq!(made(60, 6_001, &strikes), Err(Refusal::REVERSION));
        assert_eq!(made(9, 0, &strikes), Err(Refusal::LENGTH_OR_ROW));
    }
    for count in [1, 16] {
        let strikes = vec![LIMIT + 1; count];
        let each = vec![Err(Refusal::LENGTH_OR_ROW); count];
        assert_eq!(made(9, 0, &strikes), Ok(each), "flows that are not n");
    }
}

/// A strike above its limit is refused in its place alone, also where the list is bad; a bond above its limit leaves no other price.
#[test]
fn one_refusal_reaches_no_neighbour() {
    let (discounts, strikes) = (steep(), [ONE, LIMIT + 1, LIMIT]);
    let made = |flows: &[u64], dates: &[u8]| {
        let strip = option_strip(STEPS, 0, &discounts, flows, Side::Call, dates, &strikes);
        strip
            .expect("a strip")
            .into_iter()
            .map(|each| each.map(|price| price.bound))
    };
    let each = |number: Refusal| [Err(number), Err(Refusal::OPTION), Err(number)];
    let (none, most) = ([0; STEPS], [MAX_FLOW; STEPS]);
    assert!(made(&none, &[9]).eq(each(Refusal::DATES)));
    assert!(made(&most, &[8]).eq(each(Refusal::VALUE)));
    assert!(made(&most, &[]).eq(each(Refusal::DATES)));
    assert!(made(&none, &[8]).eq([Ok(33), Err(Refusal::OPTION), Ok(33)]));
}

#[test]
fn on_a_shelf() {
    let mut shelf = Shelf::new();
    let call = (Side::Call, [0, 1]);
    let dated = |shelf: &Shelf, name: usize, flows: &[u64], strikes: &[u64]| {
        shelf.option_strip(name, flows, call.0, &call.1, strikes)
    };
    for count in [0, 1, 17] {
        assert_eq!(dated(&shelf, 2, &[], &vec![ONE; count]), Err(Refusal::NAME));
    }
    shelf.ask(2, 2, 0).expect("nodes");
    for (flows, number) in [
        (&[ONE][..], Refusal::LENGTH_OR_ROW),
        (&[0, 3 * ONE], Refusal::DISCOUNT),
    ] {
        assert_eq!(
            dated(&shelf, 2, flows, &[LIMIT + 1, 0]),
            Ok(vec![Err(number); 2])
        );
        assert_eq!(dated(&shelf, 2, flows, &[]), Err(Refusal::LENGTH_OR_ROW));
    }
    let curve = Curve::of_quotes(&[Quote::DiscountFactor(1.1), Quote::DiscountFactor(1.1)]);
    shelf.commit(2, 1, 0, &curve).expect("a fit");
    let (flows, strikes) = ([0, ONE], [ONE, LIMIT + 1, 900_000_000, ONE]);
    let strip = dated(&shelf, 2, &flows, &strikes).expect("a strip");
    let refused = Err(Refusal::OPTION);
    assert_eq!(strip[..2], [priced(100_000_000, 5), refused]);
    let alone = |strike: &u64| DatedTerms {
        side: call.0,
        dates: &call.1,
        strike: *strike,
    };
    let each = strikes
        .iter()
        .map(|s| shelf.dated_option_price(2, &flows, alone(s)));
    assert_eq!(strip, each.collect::<Strip>());
    let kind = OptionKind::AmericanCall;
    assert_eq!(
        shelf.option_strip_of_kind(2, &flows, kind, 1, &strikes),
        Ok(strip)
    );
    let expired = shelf.option_strip_of_kind(2, &flows, kind, 2, &strikes);
    assert_eq!(expired, Ok(vec![refused; 4]));
    assert_eq!(
        shelf.option_strip_of_kind(9, &flows, kind, 1, &[]),
        Err(Refusal::NAME)
    );
}

/// A tree of version 2 is priced by its working reversion.
#[test]
fn by_version() {
    let quotes = [Quote::YearlyRate(0.03); 4];
    let tree =
        Tree::fit_version(2, 1, 4, 2_034, 10_000, &Curve::of_quotes(&quotes)).expect("a tree");
    let (flows, strikes) = ([0, 0, 0, ONE], [900_000_000, 950_000_000]);
    let strip = tree
        .option_strip(&flows, Side::Put, &[1, 2, 3], &strikes)
        .expect("a strip");
    let terms = |strike| DatedTerms {
        side: Side::Put,
        dates: &[1, 2, 3],
        strike,
    };
    assert_eq!(
        strip,
        strikes.map(|strike| tree.dated_option_price(&flows, terms(strike)))
    );
    let bound = tree.price_error_bound().expect("a bound");
    assert!(strip
        .iter()
        .all(|each| each.is_ok_and(|price| price.bound == bound)));
    let other = option_strip(
        4,
        tree.reversion(),
        tree.discounts(),
        &flows,
        Side::Put,
        &[1, 2, 3],
        &strikes,
    );
    assert_ne!(other, Ok(strip));
}
