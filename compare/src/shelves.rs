// What is compared of a script of calls on a shelf. After every call: its number, the slots, the used part of the memory, where each name's part
// starts and how long it is; what each slot carries against the model, and against the rules on the discounts that are read back from the shelf;
// after a refused call and after a price the whole memory, which must be as it was; after a release the zeros that the header tells at the end. A
// difference panics.
use crate::checks::{self, Terms};
use crate::engine::{Both, Desk, Slot, SHELF_MEMORY};
use crate::inputs::{self, Case, Random};
use crate::rules::{Carried, Contract, Curve, DatedOption, Outcome, Strip, Tree, ONE};
use crate::scripts::{self, Alteration, Call, Sizes};
use crate::shelf::{Causes, Shelf, Shelved, MEMORY, NAMES};
use crate::strips;
use std::collections::BTreeMap;
use std::fmt;

const ASK: &str = "ask";
const COMMIT: &str = "commit";
const RELEASE: &str = "release";
const BOND: &str = "bond";
const OPTION: &str = "option";
const DATED: &str = "dated option";
const BOTH: &str = "bond and option";
const BOTH_DATED: &str = "bond and dated";
const KIND_STRIP: &str = "strip of a kind";
const DATED_STRIP: &str = "strip of dates";

/// The refusals of a fit that is tried again.
const OF_A_FIT: [u64; 6] = [2, 5, 6, 7, 8, 9];
/// Causes of which the first is tried before the second.
const ORDERS: [(&str, u64, u64); 24] = [
    (ASK, 15, 3), (ASK, 15, 4), (ASK, 15, 14), (ASK, 3, 4), (ASK, 3, 14), (ASK, 4, 14),
    (COMMIT, 15, 2), (COMMIT, 15, 5), (COMMIT, 15, 6), (COMMIT, 15, 7), (COMMIT, 15, 8), (COMMIT, 15, 9),
    (BOND, 15, 6), (BOND, 15, 10), (BOND, 6, 9), (BOND, 9, 10),
    (OPTION, 15, 11), (OPTION, 6, 9), (OPTION, 9, 10), (OPTION, 9, 11),
    (DATED, 15, 13), (DATED, 6, 9), (DATED, 9, 11), (DATED, 9, 13),
];
const ALTERED: [&str; 4] = ["status", "steps", "reversion", "too many nodes"];
/// What of the carried numbers is altered before a price.
const STRANGE: [&str; 5] = ["bound", "greatest", "greatest of another row", "greatest of no row", "bound and greatest"];
/// The calls that write over altered numbers.
const CLEARED: [&str; 3] = [ASK, COMMIT, RELEASE];

#[derive(Default)]
pub struct Tally {
    scripts: u64,
    calls: u64,
    results: BTreeMap<&'static str, BTreeMap<u64, u64>>,
    orders: BTreeMap<(&'static str, u64, u64), u64>,
    again: BTreeMap<u64, u64>,
    altered: BTreeMap<&'static str, u64>,
    /// Prices of trees whose carried numbers were altered, and calls that wrote over such numbers.
    strange: BTreeMap<&'static str, u64>,
    cleared: BTreeMap<&'static str, u64>,
    /// Slots of fitted trees whose numbers are those of the rules on their discounts.
    read_back: u64,
    /// Askings that used the memory up, and ones that would have passed it by one node.
    filled: u64,
    one_too_many: u64,
    /// Askings and releases behind which a fitted tree moved.
    moved: u64,
    prices: checks::Tally,
    strips: strips::Tally,
}

impl Tally {
    fn result(&mut self, entry: &'static str, number: u64) {
        self.calls += 1;
        *self.results.entry(entry).or_default().entry(number).or_default() += 1;
    }

    /// What a large run has at least once, and this one has not.
    pub fn missing(&self) -> Vec<String> {
        let orders = ORDERS.iter().filter(|order| !self.orders.contains_key(order)).map(|order| format!("{order:?}"));
        let again = OF_A_FIT.iter().filter(|number| !self.again.contains_key(number)).map(|number| format!("{number} and tried again"));
        let altered = ALTERED.iter().filter(|what| !self.altered.contains_key(*what)).map(|what| format!("altered {what}"));
        let strange = STRANGE.iter().filter(|what| !self.strange.contains_key(*what)).map(|what| format!("a price with altered {what}"));
        let cleared = CLEARED.iter().filter(|entry| !self.cleared.contains_key(*entry)).map(|entry| format!("{entry} over altered numbers"));
        let counts = [(self.filled, "filled"), (self.one_too_many, "one node too many"), (self.moved, "moved")];
        let counts = counts.iter().filter(|count| count.0 == 0).map(|count| count.1.to_string());
        orders.chain(again).chain(altered).chain(strange).chain(cleared).chain(counts).chain(self.strips.missing(strips::ON_A_SHELF)).collect()
    }
}

impl fmt::Display for Tally {
    fn fmt(&self, f: &mut fmt::Formatter) -> fmt::Result {
        writeln!(f, "calls of scripts on a shelf, by refusal number (0: accepted)")?;
        for (entry, numbers) in &self.results {
            let words: Vec<String> = numbers.iter().map(|(number, count)| format!("{number}: {count}")).collect();
            writeln!(f, "  {entry:<22}{}", words.join("  "))?;
        }
        writeln!(f, "calls with two causes, the one that is tried first and a later one")?;
        for entry in [ASK, COMMIT, BOND, OPTION, DATED] {
            let of_entry = self.orders.iter().filter(|(order, _)| order.0 == entry);
            let words: Vec<String> = of_entry.map(|((_, first, later), count)| format!("{first} {later}: {count}")).collect();
            writeln!(f, "  {entry:<22}{}", words.join("  "))?;
        }
        let again: Vec<String> = self.again.iter().map(|(number, count)| format!("{number}: {count}")).collect();
        writeln!(f, "commits accepted after a refused one\n  {:<22}{}", "by its number", again.join("  "))?;
        let altered: Vec<String> = self.altered.iter().map(|(what, count)| format!("{what}: {count}")).collect();
        writeln!(f, "calls on altered shelves, each 15\n  {:<22}{}", "by what is wrong", altered.join("  "))?;
        let strange: Vec<String> = self.strange.iter().map(|(what, count)| format!("{what}: {count}")).collect();
        writeln!(f, "prices of trees that carry altered numbers, each with the bound as it stands\n  {:<22}{}", "by what was altered", strange.join("  "))?;
        let cleared: Vec<String> = self.cleared.iter().map(|(entry, count)| format!("{entry}: {count}")).collect();
        writeln!(f, "calls that wrote over altered numbers\n  {:<22}{}", "by entry", cleared.join("  "))?;
        writeln!(f, "carried numbers of fitted trees equal to the rules on the discounts read back {}", self.read_back)?;
        writeln!(f, "askings that used the memory up {}, that passed it by one node {}; changes that moved a fitted tree {}",
            self.filled, self.one_too_many, self.moved)?;
        writeln!(f, "prices of shelved trees and their exact ones\n{}", self.prices.sides())?;
        writeln!(f, "{}", self.strips)?;
        write!(f, "{} scripts, {} calls: slots, parts and memory equal after each", self.scripts, self.calls)
    }
}

/// A shelf of the library beside the model of it.
struct Run<'a> {
    desk: Desk,
    shelf: Shelf,
    /// The slots as they were altered, and what is wrong with them.
    altered: Option<([Slot; NAMES], &'static str)>,
    /// By name what was altered of the numbers that it carries.
    strange: [Option<&'static str>; NAMES],
    /// By name the number of the last commit, where it was refused.
    refused: [Option<u64>; NAMES],
    tally: &'a mut Tally,
}

impl<'a> Run<'a> {
    fn new(memory: &[u64], tally: &'a mut Tally) -> Run<'a> {
        tally.scripts += 1;
        let mut run = Run { desk: Desk::new(memory), shelf: Shelf::default(), altered: None, strange: [None; NAMES], refused: [None; NAMES], tally };
        run.same_state("empty shelf", memory, true);
        run
    }

    /// What each slot carries, against the rules on the discounts that the library shows under its name; zeros without a fitted tree.
    fn same_bounds(&mut self, entry: &str) {
        for (place, ((status, steps, reversion), carried)) in self.desk.slots().into_iter().enumerate() {
            if self.strange[place].is_some() {
                continue;
            }
            let (start, count) = self.desk.part(place + 1);
            let read = &self.desk.memory()[start..start + count];
            let ruled = if status == 2 { Tree { steps, reversion }.carried(read) } else { Carried::default() };
            assert_eq!(carried, ruled, "{entry}: what name {} carries, library left, rules on its discounts right", place + 1);
            self.tally.read_back += (status == 2) as u64;
        }
    }

    /// Slots, parts and the used part of the memory against the model; the whole memory against what it was, where nothing may change.
    fn same_state(&mut self, entry: &str, before: &[u64], unchanged: bool) {
        let slots = self.altered.map_or_else(|| self.shelf.slots(), |altered| altered.0);
        for (place, (found, slot)) in self.desk.slots().iter().zip(&slots).enumerate() {
            assert_eq!(found, slot, "{entry}: slot of name {}, library left, model right", place + 1);
        }
        if self.altered.is_none() {
            self.same_bounds(entry);
        }
        let memory = self.desk.memory();
        let stored = self.shelf.stored();
        let place = (0..stored.len()).find(|place| memory[*place] != stored[*place]);
        assert!(place.is_none(), "{entry}: memory differs at {place:?}");
        assert!(!unchanged || memory == before, "{entry}: memory changed by a call that may not change it");
        let wide = (1..=NAMES).flat_map(|name| [name + (1 << 8), name + (1 << 32)]);
        for name in (0..=NAMES + 1).chain(wide).chain([usize::MAX]) {
            let part = if self.altered.is_some() { (0, 0) } else { self.shelf.part(name) };
            assert_eq!(self.desk.part(name), part, "{entry}: part of {name}, library left");
        }
    }

    /// A call's number against the causes that apply.
    fn judged(&mut self, entry: &'static str, number: u64, causes: &Causes) {
        assert_eq!(number, causes.first().copied().unwrap_or(0), "{entry}: library left, rules right");
        self.counted(entry, number, causes);
    }

    fn counted(&mut self, entry: &'static str, number: u64, causes: &Causes) {
        self.tally.result(entry, number);
        if let Some((_, what)) = self.altered {
            *self.tally.altered.entry(what).or_default() += 1;
        }
        for later in causes.iter().skip(1) {
            *self.tally.orders.entry((entry, causes[0], *later)).or_default() += 1;
        }
    }

    /// What the model answers; on an altered shelf every call gives 15.
    fn ruled<T>(&mut self, rule: impl FnOnce(&mut Shelf) -> T, broken: T) -> T {
        if self.altered.is_some() { broken } else { rule(&mut self.shelf) }
    }

    /// A call that is accepted writes what its name carries, whatever stood there.
    fn written(&mut self, entry: &'static str, number: u64, name: usize) {
        if number == 0 && self.strange[name - 1].take().is_some() {
            *self.tally.cleared.entry(entry).or_default() += 1;
        }
    }

    fn fitted_behind(&self, name: usize) -> bool {
        self.shelf.names(&[2]).iter().any(|other| *other > name)
    }

    fn ask(&mut self, name: usize, tree: Tree) {
        let (before, held) = (self.desk.memory().to_vec(), self.shelf.held());
        let number = self.desk.ask(name, &tree);
        let causes = self.ruled(|shelf| shelf.ask(name, tree), vec![15]);
        self.judged(ASK, number, &causes);
        self.written(ASK, number, name);
        self.same_state(ASK, &before, number != 0);
        if number == 0 {
            self.refused[name - 1] = None;
            self.tally.filled += (self.shelf.held() == MEMORY) as u64;
            self.tally.moved += self.fitted_behind(name) as u64;
        }
        self.tally.one_too_many += (number == 14 && held + tree.discounts_needed() == MEMORY + 1) as u64;
    }

    fn commit(&mut self, name: usize, frequency: u64, volatility: u64, curve: &Curve) {
        let before = self.desk.memory().to_vec();
        let number = self.desk.commit(name, frequency, volatility, curve);
        let causes = self.ruled(|shelf| shelf.commit(name, frequency, volatility, curve), vec![15]);
        self.judged(COMMIT, number, &causes);
        self.written(COMMIT, number, name);
        self.same_state(COMMIT, &before, number != 0);
        if number == 0 {
            if let Some(former) = self.refused[name - 1].take() {
                *self.tally.again.entry(former).or_default() += 1;
            }
        } else if number != 15 {
            self.refused[name - 1] = Some(number);
        }
    }

    fn release(&mut self, name: usize) {
        let (before, count) = (self.desk.memory().to_vec(), self.shelf.part(name).1);
        let number = self.desk.release(name);
        let causes = self.ruled(|shelf| shelf.release(name), vec![15]);
        self.judged(RELEASE, number, &causes);
        self.written(RELEASE, number, name);
        self.same_state(RELEASE, &before, number != 0);
        if number == 0 {
            self.tally.moved += self.fitted_behind(name) as u64;
            assert!(self.desk.memory()[SHELF_MEMORY - count..].iter().all(|word| *word == 0), "release: the end of the memory is not 0");
        }
    }

    fn price(&mut self, name: usize, terms: &Terms) {
        let before = self.desk.memory().to_vec();
        let broken = || (vec![15], Err(15));
        let bond = self.ruled(|shelf| shelf.bond(name, terms.flows), broken());
        let option = self.ruled(|shelf| shelf.option(name, terms.flows, terms.contract), broken());
        let dated = self.ruled(|shelf| shelf.dated_option(name, terms.flows, terms.dated), broken());
        let found = self.desk.bond(name, terms.flows);
        self.priced(BOND, found, &bond, &before);
        let found = self.desk.option(name, terms.flows, terms.contract);
        self.priced(OPTION, found, &option, &before);
        let found = self.desk.dated_option(name, terms.flows, terms.dated);
        self.priced(DATED, found, &dated, &before);
        let found = self.desk.bond_and_option(name, terms.flows, terms.contract);
        self.both(BOTH, found, (bond.1, option.1), &before);
        let found = self.desk.bond_and_dated_option(name, terms.flows, terms.dated);
        self.both(BOTH_DATED, found, (bond.1, dated.1), &before);
        self.strips(name, terms, &before);
        if let (Ok(bond), Some(Shelved { tree, discounts: Some(discounts) })) = (bond.1, self.shelf.named(name)) {
            // An altered bound is held against nothing.
            let bound = tree.carried(discounts).bound;
            let [option, dated] = [option.1, dated.1].map(|price| price.ok().map(|price| (price.0, bound)));
            checks::exact_prices(tree, discounts, terms, (bond.0, bound), [option, dated], &mut self.tally.prices);
            if let Some(what) = self.strange[name - 1] {
                *self.tally.strange.entry(what).or_default() += 1;
            }
        }
    }

    fn priced(&mut self, entry: &'static str, found: Outcome<(u64, u64)>, ruled: &(Causes, Outcome<(u64, u64)>), before: &[u64]) {
        assert_eq!(found, ruled.1, "{entry}: library left, rules right");
        self.counted(entry, found.err().unwrap_or(0), &ruled.0);
        self.same_state(entry, before, true);
    }

    /// Each of a pair is what its own entry gives; counted by the option's number.
    fn both(&mut self, entry: &'static str, found: Both, ruled: Both, before: &[u64]) {
        assert_eq!(found, ruled, "{entry}: library left, rules right");
        self.counted(entry, found.1.err().unwrap_or(0), &Vec::new());
        self.same_state(entry, before, true);
    }

    /// A strip of the kind and one of the list, against the model and against the shelf's own single entries.
    fn strips(&mut self, name: usize, terms: &Terms, before: &[u64]) {
        let Terms { flows, contract, dated, strikes } = *terms;
        let ruled = self.ruled(|shelf| shelf.kind_strip(name, flows, contract, strikes), Err(15));
        let found = self.desk.kind_strip(name, flows, contract, strikes);
        let each = strikes.iter().map(|strike| self.desk.option(name, flows, &Contract { strike: *strike, ..*contract })).collect();
        self.strip(KIND_STRIP, &found, &ruled, each, before);
        let ruled = self.ruled(|shelf| shelf.dated_strip(name, flows, dated, strikes), Err(15));
        let found = self.desk.dated_strip(name, flows, dated, strikes);
        let each = strikes.iter().map(|strike| self.desk.dated_option(name, flows, &dated.struck(*strike))).collect();
        self.strip(DATED_STRIP, &found, &ruled, each, before);
    }

    /// Counted by the strip's own number, which 15 and a wrong count of the strikes alone give.
    fn strip(&mut self, entry: &'static str, found: &Strip, ruled: &Strip, each: Vec<Outcome<(u64, u64)>>, before: &[u64]) {
        assert_eq!(found, ruled, "{entry}: library left, rules right");
        if let Ok(answers) = found {
            assert_eq!(answers, &each, "{entry}: the strip left, each strike alone right");
        }
        self.tally.strips.count(found);
        self.counted(entry, found.as_ref().err().copied().unwrap_or(0), &Vec::new());
        self.same_state(entry, before, true);
    }

    fn call(&mut self, call: &Call) {
        match call {
            Call::Ask { name, tree } => self.ask(*name, *tree),
            Call::Commit { name, frequency, volatility, curve } => self.commit(*name, *frequency, *volatility, curve),
            Call::Release { name } => self.release(*name),
            Call::Price { name, flows, contract, dated, strikes } => self.price(*name, &Terms { flows, contract, dated, strikes }),
        }
    }

    fn alter(&mut self, alteration: &Alteration) {
        let slots = self.desk.slots();
        for (place, held) in &alteration.slots {
            self.desk.alter(*place, (*held, slots[*place].1));
        }
        self.altered = Some((self.desk.slots(), alteration.called));
    }

    /// Other numbers for a slot to carry, by which no call is refused.
    fn carry(&mut self, (place, called, carried): (usize, &'static str, Carried)) {
        let (held, own) = self.desk.slots()[place];
        if carried != own {
            self.desk.alter(place, (held, carried));
            self.shelf.carry(place, carried);
            self.strange[place] = Some(called);
        }
    }

    /// The slots as the calls left them.
    fn mend(&mut self) {
        for (place, slot) in self.shelf.slots().into_iter().enumerate() {
            self.desk.alter(place, slot);
        }
        self.altered = None;
    }
}

/// A script from the empty shelf beside any memory. The calls are shown, so that a difference can be told with the last of them.
pub fn script(r: &mut Random, sizes: &Sizes, calls: &mut Vec<Call>, tally: &mut Tally) {
    let memory: Vec<u64> = (0..SHELF_MEMORY).map(|_| r.bits()).collect();
    let (style, length, altering) = (scripts::style(r), r.within(20, 100), r.chance(30));
    let mut run = Run::new(&memory, tally);
    let mut made = |run: &mut Run, call: Call| {
        calls.push(call);
        run.call(&calls[calls.len() - 1]);
    };
    for _ in 0..length {
        if r.chance(3) {
            run.alter(&scripts::alteration(r, &run.shelf, sizes));
            for _ in 0..r.within(1, 4) {
                let call = scripts::call(r, &run.shelf, style, sizes);
                made(&mut run, call);
            }
            run.mend();
        }
        if altering && r.chance(10) {
            let strange = scripts::carried(r, &run.shelf);
            run.carry(strange);
            let call = scripts::price_of(r, &run.shelf, style, strange.0 + 1);
            made(&mut run, call);
        }
        let call = scripts::call(r, &run.shelf, style, sizes);
        made(&mut run, call);
    }
}

fn level(steps: usize, factor: f64) -> Curve {
    Curve { rows: (1..=steps as u64).collect(), kinds: vec![5; steps], figures: vec![factor; steps] }
}

/// Every order of four things.
fn orders() -> Vec<[usize; 4]> {
    let all = (0..256).map(|code| [code / 64, code / 16 % 4, code / 4 % 4, code % 4]);
    all.filter(|order| (0..4).all(|each| order.contains(&each))).collect()
}

/// Four trees of different sizes, asked for in every order and released in every order; each is fitted at once, or after the last asking.
pub fn every_order(tally: &mut Tally) {
    let trees = [(2, 4, 0), (3, 1, 0), (5, 3, 1_841), (8, 2, 0)];
    for asked in orders() {
        for released in orders() {
            let mut run = Run::new(&[u64::MAX; SHELF_MEMORY], tally);
            let later = released[0] > 1;
            for (name, steps, reversion) in asked.map(|place| trees[place]) {
                run.ask(name, Tree { steps, reversion });
                if !later {
                    run.commit(name, 1, 0, &level(steps, 1.0 - 0.01 * name as f64));
                }
            }
            for (name, steps, _) in trees.iter().filter(|_| later) {
                run.commit(*name, 1, 0, &level(*steps, 1.0 - 0.01 * *name as f64));
            }
            for (name, _, _) in released.map(|place| trees[place]) {
                run.release(name);
            }
            assert_eq!(run.shelf.held(), 0);
        }
    }
}

/// Numbers that would pass for valid ones if they were cut to 8, 16 or 32 bits, each number of each call alone. What is refused is asked for and
/// committed again in good order, so that the call after it finds its tree.
pub fn numbers_past_a_width(tally: &mut Tally) {
    let (steady, names) = (inputs::steady(), [5 + (1 << 8), 5 + (1 << 16), 5 + (1 << 32), 5]);
    for Case { fit, flows, contract, dated, strikes, .. } in inputs::widths() {
        let mut run = Run::new(&[7; SHELF_MEMORY], tally);
        for (tree, name) in [fit.tree, steady.fit.tree].into_iter().flat_map(|tree| names.map(|name| (tree, name))) {
            run.ask(name, tree);
        }
        for (fit, name) in [&fit, &steady.fit].into_iter().flat_map(|fit| names.map(|name| (fit, name))) {
            run.commit(name, fit.frequency, fit.volatility, &fit.curve);
        }
        for name in names {
            run.price(name, &Terms { flows: &flows, contract: &contract, dated: &dated, strikes: &strikes });
        }
        for name in names {
            run.release(name);
        }
        assert_eq!(run.shelf.held(), 0);
    }
}

/// A life of one desk with the numbers that request (vii) gives, worked out by hand: all 3,600 nodes, 15 before 3, 4 and 14, 6 before 9, a refused
/// commit that is tried again, and a second one.
pub fn by_hand() {
    let mut desk = Desk::new(&[7; SHELF_MEMORY]);
    let (whole, one) = (Tree { steps: 60, reversion: 0 }, Tree { steps: 1, reversion: 0 });
    let past = Tree { steps: 61, reversion: 6_001 };
    let asked = [desk.ask(9, &past), desk.ask(3, &past), desk.ask(3, &Tree { steps: 60, ..past }), desk.ask(3, &whole), desk.ask(3, &one)];
    assert_eq!(asked, [15, 3, 4, 0, 15], "asking by hand");
    assert_eq!([desk.ask(2, &past), desk.ask(2, &Tree { steps: 60, ..past }), desk.ask(2, &one)], [3, 4, 14], "asking a full shelf by hand");
    assert_eq!((desk.part(3), desk.memory()), ((0, 3_600), &[0; SHELF_MEMORY][..]), "a new tree by hand");
    assert_eq!([desk.release(2), desk.release(3), desk.release(3), desk.ask(2, &one), desk.ask(1, &one)], [15, 0, 15, 0, 0], "releasing by hand");
    assert_eq!([desk.bond(1, &[]), desk.bond(1, &[3 * ONE]), desk.bond(3, &[])], [Err(6), Err(9), Err(15)], "an unfitted tree by hand");
    let committed = [(3, 1.0), (1, 1.2), (1, 0.98), (3, 1.0)].map(|(frequency, factor)| desk.commit(1, frequency, 0, &level(1, factor)));
    assert_eq!(committed, [2, 9, 0, 15], "commits by hand");
    assert_eq!((desk.bond(1, &[ONE]), desk.bond(2, &[ONE])), (Ok((980_000_000, 2)), Err(9)), "prices by hand");
    let put = DatedOption { side: 2, strike: ONE, dates: vec![0] };
    assert_eq!(desk.dated_option(1, &[ONE], &put), Ok((20_000_000, 2)), "an option by hand");
    assert_eq!(desk.option(1, &[ONE], &Contract { kind: 2, expiry: 0, strike: ONE }), Ok((20_000_000, 2)), "an option by hand");
    let slots = [((2, 1, 0), Carried::of(2, &[980_000_000])), ((1, 1, 0), Carried::default()), ((0, 0, 0), Carried::default())];
    assert_eq!(desk.slots()[..3], slots, "slots by hand");
    assert_eq!(desk.memory()[..2], [980_000_000, 0], "memory by hand");
}

/// What a tree of two steps carries over its life. Its quotes of 1.1 give 1.1 on row 0; the state prices of row 1 are one billionth short of 1.1, so
/// that its discounts are one. 1.1 × 2 is 3, up, and 2 more. Zeros stand after the asking, after commits that are refused, with 9 on row 0 and on
/// row 1, and after the release.
pub fn carried_by_hand() {
    let mut desk = Desk::new(&[u64::MAX; SHELF_MEMORY]);
    let (tree, none) = (Tree { steps: 2, reversion: 0 }, Carried::default());
    let (curve, flows) = (|figures: [f64; 2]| Curve { figures: figures.to_vec(), ..level(2, 1.0) }, [0, ONE]);
    let call = DatedOption { side: 1, strike: ONE, dates: vec![0] };
    for _ in 0..2 {
        assert_eq!((desk.ask(5, &tree), desk.slots()[4]), (0, ((1, 2, 0), none)), "an asking carries");
        for (figures, volatility, number) in [([1.2, 1.0], 0, 9), ([1.1, 1.3], 0, 9), ([2.1, 1.0], 0, 7), ([1.1, 1.1], 50_001, 5)] {
            assert_eq!(desk.commit(5, 1, volatility, &curve(figures)), number, "a commit by hand");
            assert_eq!(desk.slots()[4], ((1, 2, 0), none), "a commit refused with {number} carries");
        }
        assert_eq!(desk.commit(5, 1, 0, &curve([1.1, 1.1])), 0, "a commit by hand");
        let carried = Carried::of(5, &[1_100_000_000, ONE]);
        assert_eq!(desk.slots()[4], ((2, 2, 0), carried), "a commit carries");
        assert_eq!(desk.bond(5, &flows), Ok((1_100_000_000, 5)), "a bond by hand");
        desk.alter(4, ((2, 2, 0), Carried { bound: 1 << 40, ..carried }));
        assert_eq!(desk.bond(5, &flows), Ok((1_100_000_000, 1 << 40)), "a bond with an altered bound");
        assert_eq!(desk.dated_option(5, &flows, &call), Ok((100_000_000, 1 << 40)), "an option with an altered bound");
        assert_eq!((desk.release(5), desk.slots()[4]), (0, ((0, 0, 0), none)), "a release carries");
    }
}
