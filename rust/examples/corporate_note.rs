//! A corporate note of three years: a tree of the rate and a tree of the issuer's credit spread, priced together.
//!
//!     cargo run --example corporate_note
//!
//! Both trees are fitted to curves of their own; the spread's curve says what one of the issuer is worth against one of the state. The issuer may
//! call the note at par on coupon days.

use mixegorta::{pair_bond_price, pair_dated_option_price};
use mixegorta::{Curve, DatedTerms, Quote, Refusal, Side, Tree, ONE};

const FREQUENCY: u64 = 4;
const STEPS: usize = 12;
const COUPON: u64 = 30_000_000;

/// A tree of simple yearly rates that rise by a little each quarter.
fn tree(first: f64, rise: f64, reversion: u64, volatility: u64) -> Result<Tree, Refusal> {
    let rates: Vec<Quote> = (0..STEPS)
        .map(|row| Quote::YearlyRate(first + rise * row as f64))
        .collect();
    Tree::fit(
        FREQUENCY,
        STEPS,
        reversion,
        volatility,
        &Curve::of_quotes(&rates),
    )
}

fn main() -> Result<(), Refusal> {
    let rates = tree(0.0380, 0.0004, 500, 9_000)?;
    let spreads = tree(0.0120, 0.0003, 1_200, 6_000)?;
    let mut flows = [0; STEPS];
    for row in [1, 3, 5, 7, 9, 11] {
        flows[row] = COUPON;
    }
    flows[STEPS - 1] += ONE;
    let call = DatedTerms {
        side: Side::Call,
        dates: &[4, 6, 8, 10],
        strike: ONE,
    };
    println!("without a spread {}", rates.bond_price(&flows)?);
    let (rates, spreads) = ((&rates).into(), (&spreads).into());
    println!("bond {}", pair_bond_price(rates, spreads, &flows)?);
    let option = pair_dated_option_price(rates, spreads, &flows, call)?;
    println!("option {option}");
    Ok(())
}
