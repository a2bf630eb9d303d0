// The library, by the declarations of the Rust crate, which tools/declarations.py writes.
use crate::pairs::Lent;
use crate::records::Record;
use crate::rules::{self, Carried, Contract, Curve, DatedOption, FitInput, Outcome, Tree, MOST_STRIKES};
use std::ptr;

#[allow(dead_code)]
#[path = "../../rust/src/raw.rs"]
mod raw;

use raw::*;

/// An empty list is handed over as the null pointer.
fn start<T>(list: &[T]) -> *const T {
    if list.is_empty() { ptr::null() } else { list.as_ptr() }
}

fn start_of_lent<T>(memory: &mut [T]) -> *mut T {
    if memory.is_empty() { ptr::null_mut() } else { memory.as_mut_ptr() }
}

/// A refusal must come with zeros.
fn outcome<T: PartialEq + Default + std::fmt::Debug>(number: u64, value: T) -> Outcome<T> {
    if number == 0 {
        return Ok(value);
    }
    assert_eq!(value, T::default(), "refusal {number} with a value");
    Err(number)
}

fn answered(answer: Answer) -> Outcome<u64> {
    outcome(answer.number, answer.value)
}

fn priced(price: Price) -> Outcome<(u64, u64)> {
    outcome(price.number, (price.value, price.bound))
}

pub fn half_width(reversion: u64, row: usize) -> Outcome<u64> {
    answered(unsafe { mixegorta_half_width(reversion, row) })
}

pub fn node_count(reversion: u64, row: usize) -> Outcome<u64> {
    answered(unsafe { mixegorta_node_count(reversion, row) })
}

pub fn row_start(reversion: u64, row: usize) -> Outcome<u64> {
    answered(unsafe { mixegorta_row_start(reversion, row) })
}

pub fn discounts_needed(tree: &Tree) -> Outcome<u64> {
    answered(unsafe { mixegorta_discounts_needed(tree.steps, tree.reversion) })
}

pub fn state_prices_needed(tree: &Tree) -> Outcome<u64> {
    answered(unsafe { mixegorta_state_prices_needed(tree.steps, tree.reversion) })
}

/// The lowest target, and the probabilities up, middle, down.
pub fn branches(reversion: u64, row: usize, node: i64) -> Outcome<(i64, [u64; 3])> {
    let made = unsafe { mixegorta_branches(reversion, row, node) };
    outcome(made.number, (made.lowest, made.probabilities))
}

pub fn lone_quote(frequency: u64, row: u64, kind: u8, figure: f64) -> Outcome<u64> {
    answered(unsafe { mixegorta_quote_discount(frequency, kind, Point { row, figure }) })
}

pub fn convert(frequency: u64, steps: usize, curve: &Curve, memory: &mut [u64]) -> u64 {
    let (rows, kinds, figures) = (&curve.rows, &curve.kinds, &curve.figures);
    unsafe {
        mixegorta_curve_discounts(
            frequency, steps, start(rows), rows.len(), start(kinds), kinds.len(), start(figures), figures.len(),
            start_of_lent(memory), memory.len(),
        )
    }
}

pub fn fit(input: &FitInput, discounts: &mut [u64], state_prices: &mut [u64]) -> u64 {
    let (rows, kinds, figures) = (&input.curve.rows, &input.curve.kinds, &input.curve.figures);
    unsafe {
        mixegorta_fit(
            input.frequency, input.tree.steps, input.tree.reversion, input.volatility, start(rows), rows.len(),
            start(kinds), kinds.len(), start(figures), figures.len(), start_of_lent(discounts), discounts.len(),
            start_of_lent(state_prices), state_prices.len(),
        )
    }
}

pub fn working_reversion(version: u64, reversion: u64) -> Outcome<u64> {
    answered(unsafe { mixegorta_working_reversion(version, reversion) })
}

pub fn fit_version(version: u64, input: &FitInput, discounts: &mut [u64], state_prices: &mut [u64]) -> u64 {
    let (rows, kinds, figures) = (&input.curve.rows, &input.curve.kinds, &input.curve.figures);
    unsafe {
        mixegorta_fit_version(
            version, input.frequency, input.tree.steps, input.tree.reversion, input.volatility, start(rows), rows.len(),
            start(kinds), kinds.len(), start(figures), figures.len(), start_of_lent(discounts), discounts.len(),
            start_of_lent(state_prices), state_prices.len(),
        )
    }
}

pub fn row_range(discounts: &[u64], state_prices: &[u64], kind: u64, tree: &Tree, row: usize) -> (usize, usize) {
    let range = unsafe {
        mixegorta_row_range(
            start(discounts), discounts.len(), start(state_prices), state_prices.len(), kind, tree.steps, tree.reversion, row,
        )
    };
    (range.start, range.count)
}

pub fn step_rate(discount: u64) -> Outcome<i64> {
    let rate = unsafe { mixegorta_step_rate(discount) };
    outcome(rate.number, rate.value)
}

pub fn continuous_rate(discount: u64) -> Outcome<i64> {
    let rate = unsafe { mixegorta_continuous_rate(discount) };
    outcome(rate.number, rate.value)
}

pub fn state_price_bound(tree: &Tree, discounts: &[u64], row: usize) -> Outcome<u64> {
    answered(unsafe { mixegorta_state_price_error_bound(tree.steps, tree.reversion, start(discounts), discounts.len(), row) })
}

pub fn price_bound(tree: &Tree, discounts: &[u64]) -> Outcome<u64> {
    answered(unsafe { mixegorta_price_error_bound(tree.steps, tree.reversion, start(discounts), discounts.len()) })
}

pub fn tree_bounds(tree: &Tree, discounts: &[u64]) -> Outcome<Carried> {
    let TreeErrorBounds { number, bound, greatest } =
        unsafe { mixegorta_tree_bounds(tree.steps, tree.reversion, start(discounts), discounts.len()) };
    outcome(number, Carried { bound, greatest })
}

pub fn bond(tree: &Tree, discounts: &[u64], flows: &[u64]) -> Outcome<(u64, u64)> {
    priced(unsafe {
        mixegorta_bond_price(tree.steps, tree.reversion, start(discounts), discounts.len(), start(flows), flows.len())
    })
}

pub fn option(tree: &Tree, discounts: &[u64], flows: &[u64], c: &Contract) -> Outcome<(u64, u64)> {
    priced(unsafe {
        mixegorta_option_price(
            tree.steps, tree.reversion, start(discounts), discounts.len(), start(flows), flows.len(), c.kind, c.expiry, c.strike,
        )
    })
}

pub fn dated_option(tree: &Tree, discounts: &[u64], flows: &[u64], o: &DatedOption) -> Outcome<(u64, u64)> {
    priced(unsafe {
        mixegorta_dated_option_price(
            tree.steps, tree.reversion, start(discounts), discounts.len(), start(flows), flows.len(), o.side, start(&o.dates),
            o.dates.len(), o.strike,
        )
    })
}

/// The bond's outcome and the option's, from one call.
pub type Both = (Outcome<(u64, u64)>, Outcome<(u64, u64)>);

pub fn bond_and_option(tree: &Tree, discounts: &[u64], flows: &[u64], c: &Contract) -> Both {
    let both = unsafe {
        mixegorta_bond_and_option(
            tree.steps, tree.reversion, start(discounts), discounts.len(), start(flows), flows.len(), c.kind, c.expiry, c.strike,
        )
    };
    (priced(both.bond), priced(both.option))
}

pub fn bond_and_dated_option(tree: &Tree, discounts: &[u64], flows: &[u64], o: &DatedOption) -> Both {
    let both = unsafe {
        mixegorta_bond_and_dated_option(
            tree.steps, tree.reversion, start(discounts), discounts.len(), start(flows), flows.len(), o.side, start(&o.dates),
            o.dates.len(), o.strike,
        )
    };
    (priced(both.bond), priced(both.option))
}

/// A job's bond and, where it has one, its option. A refusal must come with zeros, and so must the option of a job without one.
pub fn prices_of_job(job: &[u8], discounts: &mut [u64], state_prices: &mut [u64]) -> Outcome<rules::JobPrices> {
    let JobPrices { number, bond, has_option, option } = unsafe {
        mixegorta_prices_of_job(
            start(job), job.len(), start_of_lent(discounts), discounts.len(), start_of_lent(state_prices), state_prices.len(),
        )
    };
    assert_eq!((bond.number, option.number), (0, 0), "a number beside the job's own");
    assert!(has_option || (option.value, option.bound) == (0, 0), "a price of no option");
    outcome(number, rules::JobPrices { bond: (bond.value, bond.bound), option: has_option.then_some((option.value, option.bound)) })
}

/// The size of a report, which stands at the end of the room.
pub fn book_report(file: &[u8], out: &mut [u8]) -> Outcome<usize> {
    let written = unsafe { mixegorta_book_report(start(file), file.len(), start_of_lent(out), out.len()) };
    outcome(written.number, written.size)
}

/// The answers of a strip. Its own refusal must come with zeros in every place, and any other strip with zeros past its strikes.
fn struck(strip: Strip, strikes: &[u64]) -> rules::Strip {
    let count = if strip.number == 0 { strikes.len().min(MOST_STRIKES) } else { 0 };
    let places = (0..MOST_STRIKES).map(|k| (strip.numbers[k], strip.values[k], strip.bounds[k]));
    assert!(places.clone().skip(count).all(|place| place == (0, 0, 0)), "strip of {} strikes: places past {count} are not 0", strikes.len());
    let answers = places.take(count).map(|(number, value, bound)| outcome(number, (value, bound))).collect();
    outcome(strip.number, answers)
}

pub fn dated_strip(tree: &Tree, discounts: &[u64], flows: &[u64], o: &DatedOption, strikes: &[u64]) -> rules::Strip {
    let strip = unsafe {
        mixegorta_option_strip(
            tree.steps, tree.reversion, start(discounts), discounts.len(), start(flows), flows.len(), o.side, start(&o.dates),
            o.dates.len(), start(strikes), strikes.len(),
        )
    };
    struck(strip, strikes)
}

pub fn kind_strip(tree: &Tree, discounts: &[u64], flows: &[u64], c: &Contract, strikes: &[u64]) -> rules::Strip {
    let strip = unsafe {
        mixegorta_option_strip_of_kind(
            tree.steps, tree.reversion, start(discounts), discounts.len(), start(flows), flows.len(), c.kind, c.expiry, start(strikes),
            strikes.len(),
        )
    };
    struck(strip, strikes)
}

pub fn weighing(state_prices: &[u64], payoffs: &[u64]) -> Outcome<u64> {
    answered(unsafe {
        mixegorta_value_by_state_prices(start(state_prices), state_prices.len(), start(payoffs), payoffs.len())
    })
}

pub fn weighing_bound(tree: &Tree, discounts: &[u64], row: usize, payoffs: &[u64]) -> Outcome<u64> {
    answered(unsafe {
        mixegorta_valuation_error_bound(
            tree.steps, tree.reversion, start(discounts), discounts.len(), row, start(payoffs), payoffs.len(),
        )
    })
}

// Haircut bands

/// Number, row, price and place of the verdict on five lists.
pub fn check_bands(lists: &[Vec<u64>; 5]) -> [u64; 4] {
    let [a, b, c, d, e] = lists;
    let v = unsafe {
        mixegorta_check_bands(start(a), a.len(), start(b), b.len(), start(c), c.len(), start(d), d.len(), start(e), e.len())
    };
    [v.number, v.row, v.price, v.place]
}

/// The worth, and the verdict's fields.
pub fn lending_worth(lists: &[Vec<u64>; 5], row: u64, price: u64) -> (u64, [u64; 4]) {
    let [a, b, c, d, e] = lists;
    let w = unsafe {
        mixegorta_lending_worth(start(a), a.len(), start(b), b.len(), start(c), c.len(), start(d), d.len(), start(e), e.len(), row, price)
    };
    (w.worth, [w.verdict.number, w.verdict.row, w.verdict.price, w.verdict.place])
}

// Job records

/// The record of a job's bytes, which is all zeros where refused.
pub fn read_job(bytes: &[u8]) -> Outcome<Record> {
    let r = unsafe { mixegorta_read_job(start(bytes), bytes.len()) };
    let (j, o) = (r.job, r.job.option);
    let record = Record {
        head: [j.frequency, j.steps as u64, j.reversion, j.volatility, j.version],
        kinds: j.kinds,
        figures: j.figures,
        flows: j.flows,
        option: [o.tag, o.kind, o.expiry, o.strike, o.count as u64],
        dates: o.dates,
    };
    if r.number != 0 {
        assert_eq!(record, Record::EMPTY, "refusal {} with a record", r.number);
        return Err(r.number);
    }
    Ok(record)
}

/// The bytes of a record in so much room; whatever is not written must be as it was.
pub fn write_job(record: &Record, room: usize) -> Outcome<Vec<u8>> {
    const OLD: u8 = 0xA5;
    let ([frequency, steps, reversion, volatility, version], [tag, kind, expiry, strike, count]) = (record.head, record.option);
    let option = OptionRecord { tag, kind, expiry, strike, count: count as usize, dates: record.dates };
    let job = Job {
        frequency, steps: steps as usize, reversion, volatility, version, kinds: record.kinds, figures: record.figures, flows: record.flows, option,
    };
    let mut memory = vec![OLD; room];
    let number = answered(unsafe { mixegorta_write_job(job, start_of_lent(&mut memory), room) });
    let size = number.unwrap_or(0) as usize;
    assert!(memory[size..].iter().all(|byte| *byte == OLD), "written behind {size} bytes");
    memory.truncate(size);
    number.map(|_| memory)
}

// A rate tree and a spread tree together

pub fn pair_bond(rates: &Lent, spreads: &Lent, flows: &[u64]) -> Outcome<(u64, u64)> {
    let (r, s) = (&rates.discounts, &spreads.discounts);
    priced(unsafe {
        mixegorta_pair_bond_price(
            rates.tree.steps, rates.tree.reversion, start(r), r.len(), spreads.tree.steps, spreads.tree.reversion, start(s), s.len(), start(flows),
            flows.len(),
        )
    })
}

pub fn pair_option(rates: &Lent, spreads: &Lent, flows: &[u64], o: &DatedOption) -> Outcome<(u64, u64)> {
    let (r, s) = (&rates.discounts, &spreads.discounts);
    priced(unsafe {
        mixegorta_pair_dated_option_price(
            rates.tree.steps, rates.tree.reversion, start(r), r.len(), spreads.tree.steps, spreads.tree.reversion, start(s), s.len(), start(flows),
            flows.len(), o.side, start(&o.dates), o.dates.len(), o.strike,
        )
    })
}

// The shelf

pub const SHELF_MEMORY: usize = 3_600;
const SHELF_GUARD: usize = 8;
const GUARDED: u64 = 0x0DDB_A115_CA1E_D0FF;

/// Status, steps and reversion.
pub type Held = (u64, usize, u64);
/// What a slot holds of its name, and the numbers that it carries.
pub type Slot = (Held, Carried);

/// A shelf and its memory as a desk keeps them, with guards on both sides of the memory.
pub struct Desk {
    shelf: Shelf,
    lent: Vec<u64>,
}

impl Desk {
    /// The empty shelf beside any memory.
    pub fn new(memory: &[u64]) -> Desk {
        let mut lent = vec![GUARDED; SHELF_MEMORY + 2 * SHELF_GUARD];
        lent[SHELF_GUARD..][..SHELF_MEMORY].copy_from_slice(memory);
        Desk { shelf: unsafe { mixegorta_empty_shelf() }, lent }
    }

    pub fn memory(&self) -> &[u64] {
        let (before, rest) = self.lent.split_at(SHELF_GUARD);
        let (memory, behind) = rest.split_at(SHELF_MEMORY);
        assert!(before.iter().chain(behind).all(|word| *word == GUARDED), "written outside the memory");
        memory
    }

    pub fn slots(&self) -> [Slot; 8] {
        let carried = |slot: raw::Slot| Carried { bound: slot.bound, greatest: slot.greatest };
        self.shelf.slots.map(|slot| ((slot.status, slot.steps, slot.reversion), carried(slot)))
    }

    /// Alters a slot, as no entry does.
    pub fn alter(&mut self, place: usize, ((status, steps, reversion), carried): Slot) {
        self.shelf.slots[place] = raw::Slot { status, steps, reversion, bound: carried.bound, greatest: carried.greatest };
    }

    fn read(&self) -> *const [u64; SHELF_MEMORY] {
        self.lent[SHELF_GUARD..].as_ptr().cast()
    }

    fn write(&mut self) -> *mut [u64; SHELF_MEMORY] {
        self.lent[SHELF_GUARD..].as_mut_ptr().cast()
    }

    fn kept(&mut self, shelved: Shelved) -> u64 {
        self.shelf = shelved.shelf;
        shelved.number
    }

    pub fn part(&self, name: usize) -> (usize, usize) {
        let part = unsafe { mixegorta_shelf_part(self.shelf, name) };
        (part.start, part.count)
    }

    pub fn ask(&mut self, name: usize, tree: &Tree) -> u64 {
        let shelved = unsafe { mixegorta_shelf_ask(self.shelf, self.write(), name, tree.steps, tree.reversion) };
        self.kept(shelved)
    }

    pub fn commit(&mut self, name: usize, frequency: u64, volatility: u64, curve: &Curve) -> u64 {
        let Curve { rows, kinds, figures } = curve;
        let shelved = unsafe {
            mixegorta_shelf_commit(
                self.shelf, self.write(), name, frequency, volatility, start(rows), rows.len(), start(kinds), kinds.len(), start(figures),
                figures.len(),
            )
        };
        self.kept(shelved)
    }

    pub fn release(&mut self, name: usize) -> u64 {
        let shelved = unsafe { mixegorta_shelf_release(self.shelf, self.write(), name) };
        self.kept(shelved)
    }

    pub fn bond(&self, name: usize, flows: &[u64]) -> Outcome<(u64, u64)> {
        priced(unsafe { mixegorta_shelf_bond_price(self.shelf, self.read(), name, start(flows), flows.len()) })
    }

    pub fn option(&self, name: usize, flows: &[u64], c: &Contract) -> Outcome<(u64, u64)> {
        priced(unsafe {
            mixegorta_shelf_option_price(self.shelf, self.read(), name, start(flows), flows.len(), c.kind, c.expiry, c.strike)
        })
    }

    pub fn dated_option(&self, name: usize, flows: &[u64], o: &DatedOption) -> Outcome<(u64, u64)> {
        priced(unsafe {
            mixegorta_shelf_dated_option_price(
                self.shelf, self.read(), name, start(flows), flows.len(), o.side, start(&o.dates), o.dates.len(), o.strike,
            )
        })
    }

    pub fn bond_and_option(&self, name: usize, flows: &[u64], c: &Contract) -> Both {
        let both = unsafe {
            mixegorta_shelf_bond_and_option(self.shelf, self.read(), name, start(flows), flows.len(), c.kind, c.expiry, c.strike)
        };
        (priced(both.bond), priced(both.option))
    }

    pub fn bond_and_dated_option(&self, name: usize, flows: &[u64], o: &DatedOption) -> Both {
        let both = unsafe {
            mixegorta_shelf_bond_and_dated_option(
                self.shelf, self.read(), name, start(flows), flows.len(), o.side, start(&o.dates), o.dates.len(), o.strike,
            )
        };
        (priced(both.bond), priced(both.option))
    }

    pub fn dated_strip(&self, name: usize, flows: &[u64], o: &DatedOption, strikes: &[u64]) -> rules::Strip {
        let strip = unsafe {
            mixegorta_shelf_option_strip(
                self.shelf, self.read(), name, start(flows), flows.len(), o.side, start(&o.dates), o.dates.len(), start(strikes),
                strikes.len(),
            )
        };
        struck(strip, strikes)
    }

    pub fn kind_strip(&self, name: usize, flows: &[u64], c: &Contract, strikes: &[u64]) -> rules::Strip {
        let strip = unsafe {
            mixegorta_shelf_option_strip_of_kind(
                self.shelf, self.read(), name, start(flows), flows.len(), c.kind, c.expiry, start(strikes), strikes.len(),
            )
        };
        struck(strip, strikes)
    }
}
