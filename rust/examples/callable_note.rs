//! A note of three years that its issuer may call at par on coupon days only: the job of `examples/callable-note.txt`.
//!
//!     cargo run --example callable_note
//!
//! The issuer's right is a dated call on the note; what a buyer pays is the bond's price less the option's. A strip gives the right at several call
//! prices.

use mixegorta::{Curve, DatedTerms, Quote, Refusal, Side, Tree, ONE};

const FREQUENCY: u64 = 4;
const STEPS: usize = 12;
/// 0.05 a step, in ten-thousandths.
const REVERSION: u64 = 500;
/// 0.9% a year, in millionths.
const VOLATILITY: u64 = 9_000;
/// Simple yearly rates.
const RATES: [f64; STEPS] = [
    0.0380, 0.0383, 0.0387, 0.0391, 0.0395, 0.0399, 0.0404, 0.0409, 0.0414, 0.0419, 0.0425, 0.0431,
];
const COUPON: u64 = 22_500_000;
/// Par, and other prices at which the issuer might call.
const CALL_PRICES: [u64; 4] = [990_000_000, ONE, 1_010_000_000, 1_020_000_000];
/// The coupon days from the first year on.
const CALL_DAYS: [u8; 4] = [4, 6, 8, 10];

fn main() -> Result<(), Refusal> {
    let tree = Tree::fit(
        FREQUENCY,
        STEPS,
        REVERSION,
        VOLATILITY,
        &Curve::of_quotes(&RATES.map(Quote::YearlyRate)),
    )?;
    let flows = half_yearly_flows();
    let right = |dates| DatedTerms {
        side: Side::Call,
        dates,
        strike: ONE,
    };
    let both = tree.bond_and_dated_option(&flows, right(&CALL_DAYS));
    let (bond, call) = (both.bond?, both.option?);
    println!("bond {bond}");
    println!("option {call}");
    println!(
        "a buyer of the note pays {} billionths",
        bond.value - call.value
    );

    // The right at other call prices, the note rolled once for all of them.
    let strip = tree.option_strip(&flows, Side::Call, &CALL_DAYS, &CALL_PRICES)?;
    for (strike, price) in CALL_PRICES.iter().zip(strip) {
        println!("called at {strike} billionths: {}", price?);
    }

    // A list that does not rise is refused by number, and the number has words.
    if let Err(refusal) = tree.dated_option_price(&flows, right(&[6, 4])) {
        println!("rows 6 and 4: {refusal}");
    }
    Ok(())
}

/// A coupon on every second row, and the principal with the last.
fn half_yearly_flows() -> [u64; STEPS] {
    let mut flows = [0; STEPS];
    for flow in flows.iter_mut().skip(1).step_by(2) {
        *flow = COUPON;
    }
    flows[STEPS - 1] += ONE;
    flows
}
