// Compares the library with the rules of documents 01 and 02 and with the exact pricer, on random inputs, on random scripts of calls on a shelf, on
// random tables of haircut bands, on random job records, on random pairs of a rate tree and a spread tree, and on random jobs and books of them.
mod bands;
mod books;
mod checks;
mod engine;
mod exact;
mod inputs;
mod natural;
mod pairs;
mod records;
mod rules;
mod scripts;
mod shelf;
mod shelves;
mod strips;

use checks::Tally;
use std::panic;

/// So many inputs have bonds above and bonds below their exact prices, and trees that are wider by version 2.
const LARGE_RUN: u64 = 1_000;
/// Every so many seeds have a script of calls on a shelf too.
const SEEDS_A_SCRIPT: u64 = 8;
/// So many tables of haircut bands have every verdict, and tell every wrong rule.
const MANY_TABLES: u64 = 16_000;
/// So many job records have every number, and tell every wrong rule.
const MANY_RECORDS: u64 = 3_000;
/// So many pairs of trees have every number, and tell every wrong rule.
const MANY_PAIRS: u64 = 16_000;
/// So many books tell every wrong rule.
const MANY_BOOKS: u64 = 16_000;
/// So many scripts have every order of causes, every refused commit tried again, and every alteration, of the carried numbers too.
const MANY_SCRIPTS: u64 = 1_000;

/// An argument of the program, or what stands for it.
fn argument(place: usize, otherwise: u64) -> u64 {
    match std::env::args().nth(place).map(|word| word.parse()) {
        Some(Ok(number)) => number,
        Some(Err(_)) => {
            eprintln!("usage: compare/run [COUNT [SEED]], two whole numbers");
            std::process::exit(2);
        }
        None => otherwise,
    }
}

fn different(own: u64) -> ! {
    eprintln!("DIFFERENT. To see it again: compare/run 1 {own}");
    std::process::exit(1);
}

/// What has no seed: figures worked out by hand, borders, widths, every working reversion, every length and cause of a strip, and every order of four
/// trees on a shelf.
fn without_seed(tally: &mut Tally, shelves: &mut shelves::Tally) {
    natural::check();
    checks::rates_at_borders(tally);
    checks::dates_by_hand();
    checks::rolls_by_hand();
    checks::limit_by_hand();
    checks::discount_limit_by_hand();
    checks::bounds_by_hand();
    checks::causes_of_bounds(tally);
    checks::versions_by_hand();
    checks::every_working_reversion(tally);
    checks::causes_of_versions(tally);
    checks::numbers_past_a_width(tally);
    strips::by_hand();
    strips::limit_by_hand();
    strips::every_length(tally.strips());
    strips::causes(tally.strips());
    shelves::by_hand();
    shelves::carried_by_hand();
    shelves::every_order(shelves);
    shelves::numbers_past_a_width(shelves);
    bands::by_hand();
    records::by_hand();
    pairs::by_hand();
    books::by_hand();
}

fn input(own: u64, tally: &mut Tally) {
    let case = inputs::case(&mut inputs::Random::new(own));
    if panic::catch_unwind(panic::AssertUnwindSafe(|| checks::all(&case, tally))).is_err() {
        eprintln!("input: {case:?}");
        different(own);
    }
}

fn script(own: u64, sizes: &scripts::Sizes, tally: &mut shelves::Tally) {
    let mut calls = Vec::new();
    let run = || shelves::script(&mut inputs::Random::new(own), sizes, &mut calls, tally);
    if panic::catch_unwind(panic::AssertUnwindSafe(run)).is_err() {
        eprintln!("call {} of a script: {:?}", calls.len(), calls.last());
        different(own);
    }
}

fn table(own: u64, tally: &mut bands::Tally) {
    if panic::catch_unwind(panic::AssertUnwindSafe(|| bands::check(&mut inputs::Random::new(own), own, tally))).is_err() {
        different(own);
    }
}

fn record(own: u64, tally: &mut records::Tally) {
    if panic::catch_unwind(panic::AssertUnwindSafe(|| records::check(&mut inputs::Random::new(own), own, tally))).is_err() {
        different(own);
    }
}

fn pair(own: u64, tally: &mut pairs::Tally) {
    if panic::catch_unwind(panic::AssertUnwindSafe(|| pairs::check(&mut inputs::Random::new(own), own, tally))).is_err() {
        different(own);
    }
}

fn job_and_book(own: u64, tally: &mut books::Tally) {
    if panic::catch_unwind(panic::AssertUnwindSafe(|| books::check(&mut inputs::Random::new(own), own, tally))).is_err() {
        different(own);
    }
}

fn main() {
    run(argument(1, 20_000), argument(2, 1));
}

/// Compares so many inputs from a seed on; anything that differs ends the program.
fn run(count: u64, seed: u64) {
    let (mut tally, mut shelves, sizes) = (Tally::default(), shelves::Tally::default(), scripts::Sizes::new());
    let (mut tables, mut records, mut paired) = (bands::Tally::default(), records::Tally::default(), pairs::Tally::default());
    let mut books = books::Tally::default();
    without_seed(&mut tally, &mut shelves);
    for own in seed..seed + count {
        input(own, &mut tally);
        if own % SEEDS_A_SCRIPT == 0 {
            script(own, &sizes, &mut shelves);
        }
        table(own, &mut tables);
        record(own, &mut records);
        pair(own, &mut paired);
        job_and_book(own, &mut books);
    }
    println!("{tally}");
    assert!(count < LARGE_RUN || tally.bonds_on_both_sides(), "bonds on one side of their exact prices alone");
    assert!(count < LARGE_RUN || tally.wider_trees() > 0, "no tree that version 2 makes wider");
    let (dated, priced) = tally.dated_options();
    println!("{dated} dated options compared, {priced} of them priced and held against the exact pricer\n\n{}\n\n{shelves}", tally.strips());
    let missing = if count < LARGE_RUN { Vec::new() } else { tally.strips().missing(strips::ON_ANY_TREE) };
    assert!(missing.is_empty(), "no strip has {missing:?}");
    let missing = if count < MANY_SCRIPTS * SEEDS_A_SCRIPT { Vec::new() } else { shelves.missing() };
    assert!(missing.is_empty(), "no script has {missing:?}");
    println!("\n{tables}\n");
    let missing = if count < MANY_TABLES { Vec::new() } else { tables.missing() };
    assert!(missing.is_empty(), "no run has {missing:?}");
    println!("{records}\n");
    let missing = if count < MANY_RECORDS { Vec::new() } else { records.missing() };
    assert!(missing.is_empty(), "no run has {missing:?}");
    println!("{paired}\n");
    let missing = if count < MANY_PAIRS { Vec::new() } else { paired.missing() };
    assert!(missing.is_empty(), "no run has {missing:?}");
    println!("{books}\n");
    let missing = if count < MANY_BOOKS { Vec::new() } else { books.missing() };
    assert!(missing.is_empty(), "no run has {missing:?}");
    println!("{count} inputs from seed {seed}: every result equal, every bound kept");
}

#[cfg(all(test, not(without_library)))]
mod tests {
    #[test]
    fn a_short_run() {
        super::run(200, 1);
    }
}

#[cfg(test)]
mod rules_alone {
    #[test]
    fn whole_numbers_of_any_size() {
        super::natural::check();
    }
}
