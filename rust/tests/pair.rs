//! A rate tree and a spread tree together: figures by hand, the order of the causes, the limits and one past them, and a tree of ones on either side.
#![cfg(not(without_library))]
use mixegorta::*;

const TOP: u64 = MAX_NODE_DISCOUNT;
const NODES: usize = MAX_PAIR_STEPS * MAX_PAIR_STEPS;

fn lent(steps: usize, reversion: u64, discounts: &[u64]) -> LentTree<'_> {
    LentTree {
        steps,
        reversion,
        discounts,
    }
}

fn call_on(dates: &[u8], strike: u64) -> DatedTerms<'_> {
    DatedTerms {
        side: Side::Call,
        dates,
        strike,
    }
}

/// Value and bound, or the number of a refusal.
fn shown(found: Result<Price, Refusal>) -> Result<(u64, u64), u64> {
    found
        .map(|price| (price.value, price.bound))
        .map_err(Refusal::number)
}

/// Bond and option are refused alike.
fn refused(rates: LentTree, spreads: LentTree, flows: &[u64], number: u64) {
    assert_eq!(shown(pair_bond_price(rates, spreads, flows)), Err(number));
    let option = pair_dated_option_price(rates, spreads, flows, call_on(&[], MAX_STRIKE + 1));
    assert_eq!(shown(option), Err(number));
}

#[test]
fn by_hand() {
    let one_step = |v: u64| pair_bond_price(lent(1, 0, &[v]), lent(1, 6_000, &[v]), &[ONE]);
    assert_eq!(shown(one_step(TOP)), Ok((1_210_000_000, 2)));
    assert_eq!(one_step(30_000), Err(Refusal::DISCOUNT));
    assert_eq!(shown(one_step(31_623)), Ok((1, 2)));
    let high = lent(1, 0, &[TOP]);
    let put = DatedTerms {
        side: Side::Put,
        dates: &[0],
        strike: 1_300_000_000,
    };
    let found = pair_dated_option_price(high, high, &[ONE], put);
    assert_eq!(shown(found), Ok((90_000_000, 2)));
    let found = pair_dated_option_price(high, high, &[ONE], call_on(&[0], ONE));
    assert_eq!(shown(found), Ok((210_000_000, 2)));
}

#[test]
fn order_of_causes() {
    let (zeros, low, ones) = ([0; NODES], [30_000; NODES], [ONE; NODES]);
    let flows = [MAX_FLOW + 1; MAX_PAIR_STEPS];
    let good = lent(20, 0, &zeros);
    for steps in [0, 61, 256 + 20, (1 << 32) + 20, usize::MAX] {
        refused(lent(steps, 6_001, &zeros), good, &flows, 3);
        refused(good, lent(steps, 6_001, &zeros), &flows, 3);
    }
    refused(lent(21, 7_000, &zeros), lent(21, 0, &zeros), &flows, 19);
    refused(lent(60, 6_001, &[]), lent(60, 6_001, &[]), &[], 19);
    refused(good, lent(19, 6_001, &[]), &flows, 19);
    refused(lent(19, 6_001, &[]), good, &flows, 19);
    for reversion in [6_001, 65_536, (1 << 32) + 300, u64::MAX] {
        refused(lent(20, reversion, &[]), good, &[], 4);
        refused(good, lent(20, reversion, &[]), &[], 4);
    }
    refused(lent(20, 0, &zeros[1..]), good, &flows, 6);
    refused(good, lent(20, 0, &zeros[1..]), &flows, 6);
    refused(lent(20, 0, &low), lent(20, 0, &low), &flows[1..], 6);
    refused(lent(20, 0, &ones), good, &flows, 9);
    refused(good, lent(20, 0, &ones), &flows, 9);
    refused(lent(20, 0, &low), lent(20, 0, &low), &flows, 9);
    refused(lent(20, 0, &ones), lent(20, 0, &ones), &flows, 10);
    refused_options(&ones);
}

/// 11, then 13, then 12, behind everything about trees and flows.
fn refused_options(ones: &[u64]) {
    let (tree, high) = (lent(20, 0, ones), [TOP; NODES]);
    let rising = lent(20, 0, &high);
    let option = |terms| shown(pair_dated_option_price(rising, rising, &[ONE; 20], terms));
    assert_eq!(option(call_on(&[], MAX_STRIKE + 1)), Err(11));
    assert_eq!(option(call_on(&[20], MAX_STRIKE)), Err(13));
    assert_eq!(option(call_on(&[19], MAX_STRIKE)), Err(12));
    assert_eq!(Refusal::PAIR_STEPS.number(), 19);
    for dates in [&[][..], &[3, 3], &[4, 3], &[20], &[255]] {
        let found = pair_dated_option_price(tree, tree, &[0; 20], call_on(dates, 0));
        assert_eq!(shown(found), Err(13));
    }
    let last = pair_dated_option_price(tree, tree, &[0; 20], call_on(&[0, 19], MAX_STRIKE));
    assert_eq!(shown(last), Ok((0, 40)));
}

/// Only pairs of one row count, and only the part of a memory that its tree needs.
#[test]
fn pairs_of_one_row() {
    let flows = [0, ONE];
    let rates = [30_000, ONE, ONE, ONE, 0, TOP + 1];
    let spreads = [ONE, 30_000, 30_000, 30_000];
    let found = pair_bond_price(lent(2, 0, &rates), lent(2, 0, &spreads), &flows);
    assert_eq!(shown(found), Ok((1, 3)));
    let rates = [ONE, ONE, ONE, 30_000];
    let spreads = [ONE, 30_000, ONE, ONE];
    refused(lent(2, 0, &rates), lent(2, 0, &spreads), &flows, 9);
}

/// Beside a tree of ones every answer is the other tree's, a refusal and the bound too.
#[test]
fn a_tree_of_ones() -> Result<(), Refusal> {
    let quotes = |rate: f64| {
        let of_row = |row| Quote::YearlyRate(rate + 0.0007 * f64::from(row));
        Curve::of_quotes(&(1..=12).map(of_row).collect::<Vec<_>>())
    };
    let ones = [ONE; 144];
    for version in [1, 2] {
        let tree = Tree::fit_version(version, 4, 12, 500, 9_000, &quotes(0.02))?;
        for reversion in [0, 500, MAX_REVERSION] {
            let (own, beside) = ((&tree).into(), lent(12, reversion, &ones));
            for flows in [[20_000_000; 12], [MAX_FLOW; 12], [MAX_FLOW + 1; 12]] {
                let bond = tree.bond_price(&flows);
                assert_eq!(pair_bond_price(own, beside, &flows), bond);
                assert_eq!(pair_bond_price(beside, own, &flows), bond);
                let terms = call_on(&[0, 5, 9], 200_000_000);
                let option = tree.dated_option_price(&flows, terms);
                let found = pair_dated_option_price(own, beside, &flows, terms);
                assert_eq!(found, option);
                let found = pair_dated_option_price(beside, own, &flows, terms);
                assert_eq!(found, option);
            }
        }
    }
    Ok(())
}
