//! The note of `examples/callable-note.txt` on a shelf: on its own curve, and on the curve half a percent higher and lower.
//!
//!     cargo run --example shelf
//!
//! Each curve has a tree of its own under a name, all in one memory. When the market moves, its tree is released and asked for anew.

use mixegorta::{Curve, DatedTerms, Quote, Refusal, Shelf, Side, ONE, SHELF_ROOM};

const FREQUENCY: u64 = 4;
const STEPS: usize = 12;
const REVERSION: u64 = 500;
const VOLATILITY: u64 = 9_000;
const RATES: [f64; STEPS] = [
    0.0380, 0.0383, 0.0387, 0.0391, 0.0395, 0.0399, 0.0404, 0.0409, 0.0414, 0.0419, 0.0425, 0.0431,
];
const COUPON: u64 = 22_500_000;
const CALL: DatedTerms = DatedTerms {
    side: Side::Call,
    dates: &[4, 6, 8, 10],
    strike: ONE,
};
/// The names of the three curves.
const MARKET: usize = 1;
const HIGHER: usize = 2;
const LOWER: usize = 3;

fn main() -> Result<(), Refusal> {
    let mut shelf = Shelf::new();
    let flows = half_yearly_flows();
    for (name, shift) in [(MARKET, 0.0), (HIGHER, 0.005), (LOWER, -0.005)] {
        put_tree(&mut shelf, name, shift)?;
    }
    let both = shelf.bond_and_dated_option(MARKET, &flows, CALL);
    println!("bond {}", both.bond?);
    println!("option {}", both.option?);
    for (words, name) in [("higher", HIGHER), ("lower", LOWER)] {
        println!("{words}: {}", buyer_pays(&shelf, name, &flows)?);
    }
    println!("{} nodes of {SHELF_ROOM} are held", shelf.nodes_held());

    // A fitted tree takes no other commit: the name is released first.
    if let Err(refusal) = shelf.commit(MARKET, FREQUENCY, VOLATILITY, &curve(0.001)) {
        println!("{refusal}");
    }
    shelf.release(MARKET)?;
    put_tree(&mut shelf, MARKET, 0.001)?;
    println!("moved: {}", buyer_pays(&shelf, MARKET, &flows)?);
    Ok(())
}

fn curve(shift: f64) -> Curve {
    Curve::of_quotes(&RATES.map(|rate| Quote::YearlyRate(rate + shift)))
}

fn put_tree(shelf: &mut Shelf, name: usize, shift: f64) -> Result<(), Refusal> {
    shelf.ask(name, STEPS, REVERSION)?;
    shelf.commit(name, FREQUENCY, VOLATILITY, &curve(shift))
}

/// The bond's price less the option's, which is the issuer's.
fn buyer_pays(shelf: &Shelf, name: usize, flows: &[u64]) -> Result<u64, Refusal> {
    let both = shelf.bond_and_dated_option(name, flows, CALL);
    Ok(both.bond?.value - both.option?.value)
}

/// A coupon on every second row, and the principal with the last.
fn half_yearly_flows() -> [u64; STEPS] {
    let mut flows = [0; STEPS];
    for flow in flows.iter_mut().skip(1).step_by(2) {
        *flow = COUPON;
    }
    flows[STEPS - 1] += ONE;
    flows
}
