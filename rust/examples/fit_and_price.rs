//! A curve of five yearly yields, the tree fitted to it, and a bond with a European call: the job of `examples/yield-curve.txt`.
//!
//!     cargo run --example fit_and_price

use mixegorta::{Curve, OptionKind, OptionTerms, Quote, RowKind, Tree, ONE};
use std::error::Error;

const FREQUENCY: u64 = 1;
const STEPS: usize = 5;
/// 0.1 a step, in ten-thousandths.
const REVERSION: u64 = 1_000;
/// 1% a year, in millionths.
const VOLATILITY: u64 = 10_000;
/// Yearly yields by continuous compounding.
const YIELDS: [f64; STEPS] = [
    0.038236489,
    0.045116184,
    0.050862587,
    0.055662387,
    0.059671517,
];
const COUPON: u64 = 55_000_000;

fn main() -> Result<(), Box<dyn Error>> {
    let curve = Curve::of_quotes(&YIELDS.map(Quote::YearlyYield));
    let tree = Tree::fit(FREQUENCY, STEPS, REVERSION, VOLATILITY, &curve)?;
    show_rates(&tree)?;

    let flows = [COUPON, COUPON, COUPON, COUPON, COUPON + ONE];
    let call = OptionTerms {
        kind: OptionKind::EuropeanCall,
        expiry: 3,
        strike: 960_000_000,
    };
    let both = tree.bond_and_option(&flows, call);
    println!("bond {}", both.bond?);
    println!("option {}", both.option?);
    Ok(())
}

/// Each row's step rates in percent, lowest node first.
fn show_rates(tree: &Tree) -> Result<(), Box<dyn Error>> {
    for row in 0..tree.steps() {
        print!("rates of row {row}:");
        for &discount in tree.row(RowKind::Discounts, row).unwrap_or(&[]) {
            print!(" {:.4}%", mixegorta::step_rate(discount)? as f64 / 1e7);
        }
        println!();
    }
    Ok(())
}
