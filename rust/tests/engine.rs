//! The figures of the scope (document 01) and its requests (02), refusals and memories, through the safe functions.
#![cfg(not(without_library))]
use mixegorta::*;

const PATTERN: u64 = 0xA5A5_A5A5_A5A5_A5A5;

fn falling(part: f64, steps: usize) -> Curve {
    let quotes: Vec<Quote> = (1..=steps)
        .map(|row| Quote::DiscountFactor(part.powi(row as i32)))
        .collect();
    Curve::of_quotes(&quotes)
}

fn lone(figure: f64) -> Curve {
    Curve::of_quotes(&[Quote::DiscountFactor(figure)])
}

#[test]
fn shapes_of_trees() {
    assert_eq!(half_width(1_840, 60), Ok(2));
    assert_eq!(half_width(1_841, 60), Ok(1));
    assert_eq!(half_width(1_000, 60), Ok(2));
    assert_eq!(half_width(6_001, 61), Err(Refusal::REVERSION));
    assert_eq!(node_count(0, 60), Ok(MAX_NODES as u64));
    assert_eq!(node_count(0, 61), Err(Refusal::LENGTH_OR_ROW));
    assert_eq!(row_start(1_000, 4), Ok(1 + 3 + 5 + 5));
    assert_eq!(discounts_needed(MAX_STEPS, 0), Ok(MAX_DISCOUNTS as u64));
    assert_eq!(
        state_prices_needed(MAX_STEPS, 0),
        Ok(MAX_STATE_PRICES as u64)
    );
    assert_eq!(discounts_needed(0, 6_001), Err(Refusal::STEPS));
    assert_eq!(state_prices_needed(usize::MAX, 0), Err(Refusal::STEPS));
}

#[test]
fn branches_of_nodes() {
    let ordinary = Branches {
        lowest: 0,
        up: 73_000_000,
        middle: 394_000_000,
        down: 133_000_000,
    };
    assert_eq!(branches(1_000, 1, 1), Ok(ordinary));
    let edge = Branches {
        lowest: 0,
        up: 532_000_000,
        middle: 16_000_000,
        down: 52_000_000,
    };
    assert_eq!(branches(1_000, 2, 2), Ok(edge));
    assert_eq!(branches(1_000, 2, 3), Err(Refusal::LENGTH_OR_ROW));
    assert_eq!(branches(0, 60, 0), Err(Refusal::LENGTH_OR_ROW));
    assert_eq!(branches(0, 59, i64::MIN), Err(Refusal::LENGTH_OR_ROW));
    let b = branches(345, 40, -5).unwrap();
    assert_eq!(b.up + b.middle + b.down, PROBABILITY_ONE);
}

#[test]
fn quotes_and_rates() {
    assert_eq!(
        quote_discount(1, 1, Quote::YearlyRate(-0.0025)),
        Ok(1_002_506_265)
    );
    let half_away = ONE * ONE / (ONE + 976_563);
    assert_eq!(
        quote_discount(1, 1, Quote::YearlyRate(0.0009765625)),
        Ok(half_away)
    );
    assert_eq!(
        quote_discount(3, 0, Quote::YearlyRate(f64::NAN)),
        Err(Refusal::FREQUENCY)
    );
    assert_eq!(
        quote_discount(1, 61, Quote::YearlyRate(f64::NAN)),
        Err(Refusal::LENGTH_OR_ROW)
    );
    for figure in [f64::NAN, f64::INFINITY, 10.1, 2.1, 0.0, -0.0] {
        assert_eq!(
            quote_discount(1, 1, Quote::DiscountFactor(figure)),
            Err(Refusal::QUOTE)
        );
    }
    assert_eq!(step_rate(1_000_000_001), Ok(-1));
    assert_eq!(step_rate(1_002_500_000), Ok(-2_493_766));
    assert_eq!(step_rate(0), Err(Refusal::DISCOUNT));
}

#[test]
fn yields_and_continuous_rates() {
    let of_yield = |figure| quote_discount(2, 1, Quote::YearlyYield(figure));
    assert_eq!(of_yield(0.000000007), Ok(1_000_000_000));
    assert_eq!(of_yield(-0.000000007), Ok(1_000_000_004));
    assert_eq!(of_yield(8.1), Err(Refusal::QUOTE));
    assert_eq!(continuous_rate(484_106_437), Ok(725_450_480));
    assert_eq!(continuous_rate(1_000_000_003), Ok(-4));
    assert_eq!(continuous_rate(0), Err(Refusal::DISCOUNT));
}

#[test]
fn curve_into_memory() {
    let mut memory = [PATTERN; 4];
    assert_eq!(
        curve_discounts(4, 3, &falling(0.98, 3), &mut memory),
        Ok(())
    );
    assert_eq!(memory, [980_000_000, 960_400_000, 941_192_000, PATTERN]);
    let mut memory = [PATTERN; 2];
    assert_eq!(
        curve_discounts(4, 3, &falling(0.98, 3), &mut memory),
        Err(Refusal::LENGTH_OR_ROW)
    );
    let misplaced = Curve::of_points(&[(2, Quote::DiscountFactor(0.9))]);
    assert_eq!(
        curve_discounts(4, 1, &misplaced, &mut memory),
        Err(Refusal::LENGTH_OR_ROW)
    );
    assert_eq!(
        curve_discounts(4, 1, &lone(11.0), &mut memory),
        Err(Refusal::QUOTE)
    );
    assert_eq!(memory, [PATTERN; 2]);
    assert_eq!(
        curve_discounts(4, 1, &Curve::default(), &mut []),
        Err(Refusal::LENGTH_OR_ROW)
    );
}

#[test]
fn printed_example() {
    let tree = Tree::fit(1, 1, 0, 0, &lone(1.0025)).unwrap();
    assert_eq!(tree.discounts(), [1_002_500_000]);
    assert_eq!(
        tree.row(RowKind::StatePrices, 1),
        Some(&[167_083_333, 668_333_333, 167_083_333][..])
    );
    assert_eq!(tree.row(RowKind::Discounts, 1), None);
    assert_eq!(tree.state_price_error_bound(1), Ok(4));
    assert_eq!(tree.price_error_bound(), Ok(2));
    let known = tree.bounds().unwrap();
    assert_eq!((known.bound, known.greatest[0]), (2, 1_002_500_000));
    assert_eq!(
        tree.bond_price(&[ONE]),
        Ok(Price {
            value: 1_002_500_000,
            bound: 2
        })
    );
    let put = OptionTerms {
        kind: OptionKind::AmericanPut,
        expiry: 0,
        strike: 1_010_000_000,
    };
    assert_eq!(
        tree.option_price(&[ONE], put),
        Ok(Price {
            value: 7_500_000,
            bound: 2
        })
    );
    let last = OptionTerms { expiry: 1, ..put };
    assert_eq!(tree.option_price(&[ONE], last), Err(Refusal::OPTION));
    let both = tree.bond_and_option(&[ONE], put);
    assert_eq!(both.bond, tree.bond_price(&[ONE]));
    assert_eq!(both.option, tree.option_price(&[ONE], put));
    assert_eq!(
        tree.value(1, &[ONE; 3]),
        Ok(Price {
            value: 1_002_499_999,
            bound: 5
        })
    );
    assert_eq!(tree.value(2, &[ONE; 3]), Err(Refusal::LENGTH_OR_ROW));
}

#[test]
fn refused_fits_and_their_memories() {
    let mut discounts = [PATTERN; 3];
    let mut prices = [PATTERN; 6];
    let curve = lone(1.0025);
    let mut refused = |frequency, steps, reversion, volatility, curve: &Curve| {
        let result = fit(
            frequency,
            steps,
            reversion,
            volatility,
            curve,
            &mut discounts,
            &mut prices,
        );
        assert_eq!((discounts, prices), ([PATTERN; 3], [PATTERN; 6]));
        result.unwrap_err()
    };
    assert_eq!(refused(5, 0, 6_001, 50_001, &curve), Refusal::FREQUENCY);
    assert_eq!(refused(1, 0, 6_001, 50_001, &curve), Refusal::STEPS);
    assert_eq!(refused(1, 1, 6_001, 50_001, &curve), Refusal::REVERSION);
    assert_eq!(refused(1, 1, 0, 50_001, &curve), Refusal::VOLATILITY);
    assert_eq!(refused(1, 2, 0, 0, &curve), Refusal::LENGTH_OR_ROW);
    assert_eq!(refused(1, 1, 0, 0, &lone(0.05)), Refusal::QUOTE);
    assert_eq!(
        fit(1, 1, 0, 0, &lone(1.2), &mut discounts, &mut prices),
        Err(Refusal::DISCOUNT)
    );
    assert_eq!(discounts, [0, PATTERN, PATTERN]);
    assert_eq!(prices, [0, 0, 0, 0, PATTERN, PATTERN]);
    assert_eq!(
        Tree::fit(1, 13, 0, 50_000, &falling(0.9, 13)),
        Err(Refusal::SPACING)
    );
    assert_eq!(Tree::fit(3, 61, 0, 0, &curve), Err(Refusal::FREQUENCY));
}

/// On row 1, too, whose state prices sum to two less than one.
#[test]
fn the_greatest_node_discount_of_a_fit() {
    let curve = |figures: &[f64]| {
        let quotes: Vec<Quote> = figures.iter().map(|f| Quote::DiscountFactor(*f)).collect();
        Curve::of_quotes(&quotes)
    };
    for (figures, beyond) in [
        (vec![1.1], vec![1.100000001]),
        (vec![1.0, 1.099999998], vec![1.0, 1.099999999]),
    ] {
        let tree = Tree::fit(1, figures.len(), 0, 0, &curve(&figures)).unwrap();
        assert_eq!(tree.discounts().last(), Some(&1_100_000_000));
        let refused = Tree::fit(1, beyond.len(), 0, 0, &curve(&beyond));
        assert_eq!(refused, Err(Refusal::DISCOUNT));
    }
}

#[test]
fn every_row_reprices_its_quote() {
    let steps = 60;
    let curve = falling(0.99, steps);
    let mut quoted = [0; 60];
    curve_discounts(12, steps, &curve, &mut quoted).unwrap();
    let tree = Tree::fit(12, steps, 50, 10_000, &curve).unwrap();
    for (row, quote) in (1..).zip(quoted) {
        let prices = tree.row(RowKind::StatePrices, row).unwrap();
        let total: u64 = prices.iter().sum();
        assert!(
            total.abs_diff(quote) <= 300,
            "row {row}: {total} for {quote}"
        );
        let value = tree.value(row, &vec![ONE; prices.len()]).unwrap();
        assert_eq!(
            value,
            Price {
                value: total,
                bound: tree.state_price_error_bound(row).unwrap() + 1
            }
        );
    }
    assert_eq!(tree.row(RowKind::StatePrices, 61), None);
}

#[test]
fn prices_on_lent_discounts() {
    let flat = [ONE; 4];
    assert_eq!(
        bond_price(2, 0, &flat, &[0, ONE]),
        Ok(Price {
            value: ONE,
            bound: 4
        })
    );
    assert_eq!(
        bond_price(2, 0, &flat[1..], &[0, ONE]),
        Err(Refusal::LENGTH_OR_ROW)
    );
    assert_eq!(bond_price(2, 0, &[], &[]), Err(Refusal::LENGTH_OR_ROW));
    assert_eq!(
        bond_price(2, 0, &[0; 4], &[2 * ONE + 1, 0]),
        Err(Refusal::DISCOUNT)
    );
    assert_eq!(
        bond_price(2, 0, &flat, &[2 * ONE + 1, 0]),
        Err(Refusal::FLOW)
    );
    assert_eq!(
        bond_price(5, 0, &[ONE; 25], &[2 * ONE; 5]),
        Err(Refusal::VALUE)
    );
    let call = OptionTerms {
        kind: OptionKind::EuropeanCall,
        expiry: 1,
        strike: 900_000_000,
    };
    assert_eq!(
        option_price(2, 0, &flat, &[0, ONE], call),
        Ok(Price {
            value: 100_000_000,
            bound: 4
        })
    );
    for expiry in [2, 3] {
        let late = OptionTerms { expiry, ..call };
        assert_eq!(
            option_price(2, 0, &flat, &[0, ONE], late),
            Err(Refusal::OPTION)
        );
    }
    assert_eq!(
        value_by_state_prices(&[ONE, ONE, 100], &[ONE, 2 * ONE, 3 * ONE]),
        Ok(3 * ONE + 300)
    );
    assert_eq!(
        value_by_state_prices(&[ONE, ONE, 101], &[ONE; 3]),
        Err(Refusal::VALUE)
    );
    assert_eq!(
        value_by_state_prices(&[ONE; 2], &[ONE; 2]),
        Err(Refusal::LENGTH_OR_ROW)
    );
    assert_eq!(
        valuation_error_bound(2, 0, &flat, 2, &[0, 0, 2 * ONE, 0, 0]),
        Ok(2 * 12 + 1)
    );
    assert_eq!(
        row_range(&flat, &[ONE; 9], RowKind::StatePrices, 2, 0, 2),
        Some(4..9)
    );
    assert_eq!(
        row_view(&flat, &[ONE; 8], RowKind::Discounts, 2, 0, 1),
        None
    );
}

/// 2 a step where no discount is above one; above one by the rule, where the last row's adds nothing.
#[test]
fn bounds_of_trees() {
    let mut discounts = [900_000_000, 1, ONE, 2, 3, 4, 5, 6, 700_000_000, 0];
    for (place, discount, bound) in [
        (0, 900_000_000, 6),
        (8, MAX_NODE_DISCOUNT, 6),
        (2, ONE + 1, 7),
        (0, MAX_NODE_DISCOUNT, 8),
    ] {
        discounts[place] = discount;
        let known = tree_bounds(3, 0, &discounts).unwrap();
        assert_eq!(known.bound, bound);
        assert_eq!(
            known.greatest[..3],
            [discounts[0], discounts[2], discounts[8]]
        );
        assert_eq!(known.greatest[3..], [0; 57]);
        assert_eq!(price_error_bound(3, 0, &discounts[..9]), Ok(bound));
        let bond = bond_price(3, 0, &discounts, &[0, 0, ONE]).unwrap();
        assert_eq!(bond.bound, bound);
    }
    discounts[5] = 0;
    for (steps, reversion, count, cause) in [
        (0, 6_001, 0, Refusal::STEPS),
        (61, 6_001, 9, Refusal::STEPS),
        (3, 6_001, 0, Refusal::REVERSION),
        (3, 0, 8, Refusal::LENGTH_OR_ROW),
        (3, 0, 9, Refusal::DISCOUNT),
    ] {
        let lent = &discounts[..count];
        assert_eq!(price_error_bound(steps, reversion, lent), Err(cause));
        assert_eq!(tree_bounds(steps, reversion, lent), Err(cause));
    }
}

/// Halves go up. The values of row 1 are tenths of a flow of 10; their mean is a sixth of the outer two and four times the middle one.
#[test]
fn rolls_to_the_nearest() {
    let half = ONE / 2;
    for (flow, discount, value) in [(1, half - 1, 0), (1, half, 1), (3, half, 2), (5, half, 3)] {
        let price = Price { value, bound: 2 };
        assert_eq!(bond_price(1, 0, &[discount], &[flow]), Ok(price));
    }
    for (tenths, root, value, bound) in [
        ([4, 4, 6], ONE, 4, 4),
        ([5, 2, 2], ONE, 3, 4),
        ([4, 4, 7], ONE, 5, 4),
        ([5, 2, 2], half, 2, 3),
        ([4, 4, 6], 1_100_000_000, 4, 5),
    ] {
        let [low, middle, high] = tenths.map(|tenth: u64| tenth * ONE / 10);
        let price = Price { value, bound };
        assert_eq!(
            bond_price(2, 0, &[root, low, middle, high], &[0, 10]),
            Ok(price)
        );
    }
}

/// On row 1 the bond is worth 1 without its coupon of 0.1.
#[test]
fn the_coupon_of_the_exercise_day_stays_with_the_seller() {
    let price = |kind, expiry, strike| {
        let terms = OptionTerms {
            kind,
            expiry,
            strike,
        };
        option_price(2, 0, &[ONE; 4], &[100_000_000, ONE], terms).map(|price| price.value)
    };
    assert_eq!(
        price(OptionKind::EuropeanCall, 1, 900_000_000),
        Ok(100_000_000)
    );
    assert_eq!(
        price(OptionKind::AmericanCall, 1, 900_000_000),
        Ok(200_000_000)
    );
    assert_eq!(
        price(OptionKind::EuropeanPut, 1, 1_050_000_000),
        Ok(50_000_000)
    );
    assert_eq!(
        price(OptionKind::AmericanPut, 1, 1_050_000_000),
        Ok(50_000_000)
    );
    assert_eq!(
        price(OptionKind::EuropeanCall, 2, 900_000_000),
        Err(Refusal::OPTION)
    );
}

#[test]
fn bond_and_option_at_once() {
    let flat = [ONE; 4];
    let call = OptionTerms {
        kind: OptionKind::EuropeanCall,
        expiry: 1,
        strike: 900_000_000,
    };
    let price = |value| Price { value, bound: 4 };
    let both = |discounts: &[u64], terms| {
        let both = bond_and_option(2, 0, discounts, &[0, ONE], terms);
        assert_eq!(both.bond, bond_price(2, 0, discounts, &[0, ONE]));
        assert_eq!(both.option, option_price(2, 0, discounts, &[0, ONE], terms));
        (both.bond, both.option)
    };
    assert_eq!(both(&flat, call), (Ok(price(ONE)), Ok(price(100_000_000))));
    let late = OptionTerms { expiry: 2, ..call };
    assert_eq!(both(&flat, late), (Ok(price(ONE)), Err(Refusal::OPTION)));
    let short = Err(Refusal::LENGTH_OR_ROW);
    assert_eq!(both(&flat[1..], call), (short, short));
    assert_eq!(both(&[], late), (short, short));
    let unfit = Err(Refusal::DISCOUNT);
    assert_eq!(both(&[0; 4], late), (unfit, unfit));
}

#[test]
fn an_option_above_the_limit_leaves_the_bond() {
    let put = OptionTerms {
        kind: OptionKind::EuropeanPut,
        expiry: 8,
        strike: 4 * ONE,
    };
    let both = bond_and_option(9, 0, &[1_100_000_000; 81], &[0; 9], put);
    assert_eq!(both.bond.map(|bond| bond.value), Ok(0));
    assert_eq!(both.option, Err(Refusal::VALUE));
}

/// A note of six steps, whose nodes have their row's discount: without the flow of its row it is worth 1.05 on row 4, 1.1 on row 3, 1.078 on
/// row 2, 1.0152 on row 1 and 0.91368 on row 0.
fn note() -> (Vec<u64>, [u64; 6]) {
    let rows = [900_000_000, 900_000_000, 980_000_000, ONE, ONE, ONE];
    let nodes = rows.iter().zip((1..).step_by(2));
    let discounts = nodes.flat_map(|(&discount, count)| vec![discount; count]);
    let flows = [0, 50_000_000, 0, 50_000_000, 0, 1_050_000_000];
    (discounts.collect(), flows)
}

#[test]
fn a_note_callable_on_coupon_days() {
    let (discounts, flows) = note();
    let bond = bond_price(6, 0, &discounts, &flows);
    assert_eq!(bond.map(|bond| bond.value), Ok(913_680_000));
    let price = |side, dates: &[u8], strike| {
        let terms = DatedTerms {
            side,
            dates,
            strike,
        };
        let both = bond_and_dated_option(6, 0, &discounts, &flows, terms);
        let option = dated_option_price(6, 0, &discounts, &flows, terms);
        assert_eq!((both.bond, both.option), (bond, option));
        option.map(|option| option.value)
    };
    assert_eq!(price(Side::Call, &[2, 4], ONE), Ok(63_180_000));
    assert_eq!(price(Side::Call, &[4], ONE), Ok(39_690_000));
    assert_eq!(price(Side::Call, &[0, 1, 2, 3, 4], ONE), Ok(79_380_000));
    assert_eq!(price(Side::Put, &[2, 4], 1_100_000_000), Ok(39_690_000));
    assert_eq!(price(Side::Put, &[2], 1_100_000_000), Ok(17_820_000));
}

#[test]
fn a_kind_is_a_list() {
    let steps = 12;
    let tree = Tree::fit(4, steps, 1_000, 10_000, &falling(0.99, steps)).unwrap();
    let flows: Vec<u64> = (1..=steps).map(|row| 9_000_000 + row as u64).collect();
    let kinds = [
        (OptionKind::EuropeanCall, Side::Call),
        (OptionKind::EuropeanPut, Side::Put),
        (OptionKind::AmericanCall, Side::Call),
        (OptionKind::AmericanPut, Side::Put),
    ];
    let rows: Vec<u8> = (0..=steps as u8).collect();
    for expiry in 0..=steps {
        for (kind, side) in kinds {
            let european = matches!(kind, OptionKind::EuropeanCall | OptionKind::EuropeanPut);
            let dates = &rows[if european { expiry } else { 0 }..=expiry];
            let strike = 90_000_000;
            let listed = tree.bond_and_dated_option(
                &flows,
                DatedTerms {
                    side,
                    dates,
                    strike,
                },
            );
            let terms = OptionTerms {
                kind,
                expiry,
                strike,
            };
            if expiry < steps {
                assert_eq!(listed, tree.bond_and_option(&flows, terms));
                assert!(listed.option.is_ok());
            } else {
                assert_eq!(listed.option, Err(Refusal::DATES));
                assert_eq!(tree.option_price(&flows, terms), Err(Refusal::OPTION));
            }
        }
    }
}

/// The dates are judged after the strike, and before a bond above the limit.
#[test]
fn refused_dates() {
    let number = |flow, dates: &[u8], strike| {
        let terms = DatedTerms {
            side: Side::Call,
            dates,
            strike,
        };
        dated_option_price(5, 0, &[ONE; 25], &[flow; 5], terms).map(|option| option.value)
    };
    assert_eq!(number(2 * ONE, &[1], ONE), Err(Refusal::VALUE));
    assert_eq!(number(ONE, &[1], ONE), Ok(3 * ONE));
    for dates in [&[][..], &[5], &[1, 1], &[3, 1], &[1, 255], &[0; 4_672]] {
        for flow in [ONE, 2 * ONE] {
            assert_eq!(number(flow, dates, ONE), Err(Refusal::DATES));
            assert_eq!(number(flow, dates, 4 * ONE + 1), Err(Refusal::OPTION));
        }
        assert_eq!(number(2 * ONE + 1, dates, 4 * ONE + 1), Err(Refusal::FLOW));
    }
}

/// The scope's job with an option for today: one yearly step, a discount factor of 1.0025, an American put.
const EXAMPLE: [u8; 47] = [
    1, 0, 1, 1, 2, 0, 1, 1, 3, 0, 2, 0, 0, 4, 0, 4, 0, 0, 0, 0, 5, 0, 8, 0x3F, 0xF0, 0x0A, 0x3D,
    0x70, 0xA3, 0xD7, 0x0A, 7, 0, 4, 0x3B, 0x9A, 0xCA, 0x00, 8, 0, 6, 4, 0, 0x3C, 0x33, 0x60, 0x80,
];
const WITHOUT_OPTION: usize = EXAMPLE.len() - 9;
const SHEET: &str = "node 0 0 1.002500000 -0.2493766
row 1 1.002500000 1.002499999 4
bond 1.002500000 2
option 0.007500000 2
";

#[test]
fn sheets_of_jobs() {
    assert_eq!(sheet(&EXAMPLE).as_deref(), Ok(SHEET));
    let bond_alone = SHEET.split_inclusive('\n').take(3).collect::<String>();
    assert_eq!(sheet(&EXAMPLE[..WITHOUT_OPTION]), Ok(bond_alone));
    for size in (0..EXAMPLE.len()).filter(|&size| size != WITHOUT_OPTION) {
        assert_eq!(sheet(&EXAMPLE[..size]), Err(Refusal::JOB), "{size} bytes");
    }
    let mut long = EXAMPLE.to_vec();
    long.resize(MAX_JOB + 1, 0);
    assert_eq!(sheet(&long), Err(Refusal::JOB));
    assert_eq!(sheet(b"node 0 0 1.002500000"), Err(Refusal::JOB));
    let with = |place: usize, byte: u8| {
        let mut job = EXAMPLE;
        job[place] = byte;
        sheet(&job).unwrap_err()
    };
    assert_eq!(with(3, 3), Refusal::FREQUENCY);
    assert_eq!(with(11, 0xFF), Refusal::REVERSION);
    assert_eq!(with(16, 1), Refusal::VOLATILITY);
    assert_eq!(with(23, 0x7F), Refusal::QUOTE);
    assert_eq!(with(34, 0xFF), Refusal::FLOW);
    assert_eq!(with(42, 1), Refusal::OPTION);
    assert_eq!(with(42, 2), Refusal::OPTION);
}

/// The same put by its list, row 0 alone, in field 0A; then lists that are empty, reach row 1 or do not rise.
#[test]
fn sheets_of_jobs_with_dates() {
    let sheet_with = |option: &[u8]| sheet(&[&EXAMPLE[..WITHOUT_OPTION], option].concat());
    let dated = |side: u8, dates: &[u8]| {
        let head = [10, 0, 5 + dates.len() as u8, side, 0x3C, 0x33, 0x60, 0x80];
        [&head, dates].concat()
    };
    assert_eq!(sheet_with(&dated(2, &[0])).as_deref(), Ok(SHEET));
    for dates in [&[][..], &[1], &[0, 0]] {
        assert_eq!(sheet_with(&dated(2, dates)), Err(Refusal::DATES));
        assert_eq!(sheet_with(&dated(3, dates)), Err(Refusal::OPTION));
    }
    let short = [10, 0, 4, 2, 0x3C, 0x33, 0x60];
    assert_eq!(sheet_with(&short), Err(Refusal::JOB));
    let twice = [&EXAMPLE[WITHOUT_OPTION..], &dated(2, &[0])].concat();
    assert_eq!(sheet_with(&twice), Err(Refusal::JOB));
}

#[test]
fn room_of_a_sheet() {
    let mut out = vec![0xA5; SHEET_ROOM + 2];
    assert_eq!(sheet_into(&EXAMPLE, &mut out), Ok(SHEET.as_bytes()));
    let start = out.len() - SHEET.len();
    assert_eq!(&out[start..], SHEET.as_bytes());
    assert!(out[..start].iter().all(|&byte| byte == 0xA5));
    let mut short = vec![0xA5; SHEET_ROOM - 1];
    assert_eq!(
        sheet_into(&EXAMPLE, &mut short),
        Err(Refusal::LENGTH_OR_ROW)
    );
    assert_eq!(sheet_into(&[], &mut short), Err(Refusal::JOB));
    assert!(short.iter().all(|&byte| byte == 0xA5));
    assert_eq!(sheet_into(&EXAMPLE, &mut []), Err(Refusal::LENGTH_OR_ROW));
}

#[test]
fn a_refusal_says_its_number() {
    let refusal = step_rate(0).unwrap_err();
    assert_eq!(refusal.number(), 9);
    assert_eq!(
        refusal.to_string(),
        "refused 9: a node discount is 0 or above 1,100,000,000"
    );
    assert_eq!(Refusal::DATES.number(), 13);
    assert_eq!(
        Refusal::DATES.to_string(),
        "refused 13: the exercise dates are none, not strictly rising, or reach the last row"
    );
}

#[test]
fn a_refusal_is_an_error() {
    let boxed: Box<dyn std::error::Error + Send + Sync> =
        Box::new(half_width(6_001, 0).unwrap_err());
    assert_eq!(boxed.to_string(), "refused 4: the reversion is above 6,000");
    assert!(boxed.source().is_none());
}
