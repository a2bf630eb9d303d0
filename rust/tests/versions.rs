//! Request (ix): trees by version, their working reversion and the sizes that go by it.
#![cfg(not(without_library))]
use mixegorta::*;

const PATTERN: u64 = 0xA5A5_A5A5_A5A5_A5A5;
const UNKNOWN: [u64; 7] = [
    0,
    3,
    256 + 1,
    256 + 2,
    (1 << 32) + 1,
    (1 << 32) + 2,
    u64::MAX,
];
const FLOWS: [u64; 3] = [40_000_000, 40_000_000, 1_040_000_000];

fn falling(part: f64, steps: usize) -> Curve {
    let quotes: Vec<Quote> = (1..=steps)
        .map(|row| Quote::DiscountFactor(part.powi(row as i32)))
        .collect();
    Curve::of_quotes(&quotes)
}

#[test]
fn working_reversions() {
    let figures = [
        (0, 0),
        (1, 1),
        (100, 100),
        (101, 100),
        (1_000, 952),
        (2_034, 1_840),
        (2_035, 1_841),
        (6_000, 4_512),
    ];
    for (reversion, working) in figures {
        assert_eq!(working_reversion(1, reversion), Ok(reversion));
        assert_eq!(working_reversion(2, reversion), Ok(working));
    }
    for version in UNKNOWN {
        assert_eq!(working_reversion(version, 6_000), Err(Refusal::QUOTE));
        assert_eq!(working_reversion(version, 6_001), Err(Refusal::REVERSION));
    }
    assert_eq!(working_reversion(2, u64::MAX), Err(Refusal::REVERSION));
}

#[test]
fn version_1_is_the_fit() {
    let curve = falling(0.98, 30);
    for reversion in [0, 1, 103, 1_000, 2_034, 6_000] {
        let first = Tree::fit(4, 30, reversion, 9_000, &curve).unwrap();
        assert_eq!(
            Tree::fit_version(1, 4, 30, reversion, 9_000, &curve).as_ref(),
            Ok(&first)
        );
        assert_eq!(
            (
                first.version(),
                first.reversion(),
                first.working_reversion()
            ),
            (1, reversion, reversion)
        );
        let (mut discounts, mut prices) = (
            vec![0; first.discounts().len()],
            vec![0; first.state_prices().len()],
        );
        fit(4, 30, reversion, 9_000, &curve, &mut discounts, &mut prices).unwrap();
        assert_eq!(
            (first.discounts(), first.state_prices()),
            (&discounts[..], &prices[..])
        );
        let second = Tree::fit_version(2, 4, 30, reversion, 9_000, &curve).unwrap();
        assert_eq!(second.discounts() == first.discounts(), reversion == 0);
    }
}

/// Three yearly steps with reversion 1,000: branches by 952, a spacing of 16,489,507, and prices by the working reversion.
#[test]
fn a_tree_of_version_2() {
    let tree = Tree::fit_version(2, 1, 3, 1_000, 10_000, &falling(0.98, 3)).unwrap();
    assert_eq!(
        (tree.version(), tree.reversion(), tree.working_reversion()),
        (2, 1_000, 952)
    );
    let last = [
        1_012_691_750,
        996_129_886,
        979_838_881,
        963_814_302,
        948_051_795,
    ];
    assert_eq!(tree.row(RowKind::Discounts, 2), Some(&last[..]));
    assert_eq!(tree.branches(2, 2), branches(952, 2, 2));
    assert_ne!(tree.branches(2, 2), branches(1_000, 2, 2));
    let call = OptionTerms {
        kind: OptionKind::AmericanCall,
        expiry: 2,
        strike: ONE,
    };
    let price = Price {
        value: 56_455_684,
        bound: 6,
    };
    assert_eq!(tree.option_price(&FLOWS, call), Ok(price));
    assert_eq!(tree.bond_and_option(&FLOWS, call).option, Ok(price));
    let dated = DatedTerms {
        side: Side::Call,
        dates: &[0, 1, 2],
        strike: ONE,
    };
    assert_eq!(tree.dated_option_price(&FLOWS, dated), Ok(price));
    assert_eq!(tree.bond_and_dated_option(&FLOWS, dated).option, Ok(price));
    assert_eq!(
        option_price(3, 952, tree.discounts(), &FLOWS, call),
        Ok(price)
    );
    assert_ne!(
        option_price(3, 1_000, tree.discounts(), &FLOWS, call),
        Ok(price)
    );
    assert_eq!(
        tree.bond_price(&FLOWS),
        bond_price(3, 952, tree.discounts(), &FLOWS)
    );
    assert_eq!(tree.price_error_bound(), Ok(6));
}

/// With reversion 103 and 60 steps version 2 has 1,960 discounts where version 1 has 1,878.
#[test]
fn a_wider_tree() {
    let curve = falling(0.995, 60);
    let sizes = [1, 2].map(|version| {
        Tree::fit_version(version, 12, 60, 103, 5_000, &curve)
            .unwrap()
            .discounts()
            .len()
    });
    assert_eq!(sizes, [1_878, 1_960]);
    let needed = |reversion| {
        [
            discounts_needed(60, reversion),
            state_prices_needed(60, reversion),
        ]
        .map(|size| size.unwrap() as usize)
    };
    let fitted = |version: u64, [discounts, prices]: [usize; 2]| {
        let (mut first, mut second) = (vec![PATTERN; discounts], vec![PATTERN; prices]);
        let found = fit_version(version, 12, 60, 103, 5_000, &curve, &mut first, &mut second);
        assert!(found.is_ok() || first.iter().chain(&second).all(|v| *v == PATTERN));
        found
    };
    assert_eq!(fitted(2, needed(103)), Err(Refusal::LENGTH_OR_ROW));
    assert_eq!(fitted(2, needed(102)), Ok(()));
    for version in UNKNOWN {
        let [discounts, prices] = needed(103);
        assert_eq!(
            fitted(version, [discounts - 1, prices]),
            Err(Refusal::LENGTH_OR_ROW)
        );
        assert_eq!(fitted(version, [discounts, prices]), Err(Refusal::QUOTE));
    }
    let tree = Tree::fit_version(2, 12, 60, 103, 5_000, &curve).unwrap();
    for row in 0..=60 {
        let prices = tree.row(RowKind::StatePrices, row).unwrap();
        assert_eq!(prices.len() as u64, node_count(102, row).unwrap());
        let worth = tree.value(row, &vec![ONE; prices.len()]).unwrap();
        assert_eq!(worth.value, prices.iter().sum::<u64>());
        assert_eq!(worth.bound, tree.state_price_error_bound(row).unwrap() + 1);
    }
}

#[test]
fn refused_versions() {
    for version in UNKNOWN {
        let refused = |frequency, steps, reversion, volatility, part| {
            Tree::fit_version(
                version,
                frequency,
                steps,
                reversion,
                volatility,
                &falling(part, 13),
            )
            .unwrap_err()
        };
        assert_eq!(refused(3, 13, 0, 0, 0.9), Refusal::FREQUENCY);
        assert_eq!(refused(1, 61, 0, 0, 0.9), Refusal::STEPS);
        assert_eq!(refused(1, 13, 6_001, 0, 0.9), Refusal::REVERSION);
        assert_eq!(refused(1, 13, 103, 50_001, 0.9), Refusal::VOLATILITY);
        assert_eq!(refused(1, 12, 103, 50_000, 0.9), Refusal::LENGTH_OR_ROW);
        assert_eq!(refused(1, 13, 103, 50_000, 0.9), Refusal::QUOTE);
    }
    for (version, refusal) in [(1, Refusal::DISCOUNT), (2, Refusal::SPACING)] {
        assert_eq!(
            Tree::fit_version(version, 1, 13, 168, 50_000, &falling(0.9, 13)),
            Err(refusal)
        );
    }
}

/// Tag 0B straight after the volatility, once, with 1 or 2. Without reversion both versions have one sheet.
#[test]
fn jobs_with_versions() {
    let job = [
        1, 0, 1, 1, 2, 0, 1, 1, 3, 0, 2, 0, 0, 4, 0, 4, 0, 0, 0, 0, 5, 0, 8, 0x3F, 0xF0, 0x0A,
        0x3D, 0x70, 0xA3, 0xD7, 0x0A, 7, 0, 4, 0x3B, 0x9A, 0xCA, 0,
    ];
    let with = |place: usize, bytes: &[u8]| sheet(&[&job[..place], bytes, &job[place..]].concat());
    let plain = sheet(&job);
    assert!(plain.is_ok());
    for version in [1, 2] {
        assert_eq!(with(20, &[11, 0, 1, version]), plain);
    }
    for wrong in [
        &[11, 0, 1, 0][..],
        &[11, 0, 1, 3],
        &[11, 0, 0],
        &[11, 0, 2, 0, 2],
        &[11, 0, 1, 2, 11, 0, 1, 2],
    ] {
        assert_eq!(with(20, wrong), Err(Refusal::JOB));
    }
    for place in [0, 4, 8, 13, 31, 38] {
        assert_eq!(with(place, &[11, 0, 1, 2]), Err(Refusal::JOB), "at {place}");
    }
}
