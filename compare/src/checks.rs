// What is compared of one input. A difference panics.
use crate::engine;
use crate::exact::{near_fourth_power, Exact, ExactBond};
use crate::inputs::{self, Case};
use crate::natural::Natural;
use crate::rules::{
    self, Carried, Contract, Curve, DatedOption, Fitted, Outcome, Tree, CALL, DISCOUNT_LIMIT, FLOW_LIMIT, MOST_REVERSION, ONE, PUT,
};
use crate::strips;
use std::cmp::Ordering;
use std::collections::BTreeMap;
use std::fmt;

const UNTOUCHED: u64 = 0xA5A5_5A5A_DEAD_BEEF;
const GUARD: usize = 4;
const REPRICED_WITHIN: u64 = 300;
const YIELD_WITHIN: u64 = 100;
const RATES_OF_A_CASE: usize = 8;
/// What options are called: prices of them, and those that are exercised on a flow.
type Called = (&'static str, &'static str);
const KINDS: [Called; 4] = [
    ("European call prices", "European calls, exercised on a flow"),
    ("European put prices", "European puts, exercised on a flow"),
    ("American call prices", "American calls, exercised on a flow"),
    ("American put prices", "American puts, exercised on a flow"),
];
const DATED: [Called; 2] = [
    ("dated call prices", "dated calls, exercised on a flow"),
    ("dated put prices", "dated puts, exercised on a flow"),
];
/// The entries of prices, by where their discounts come from.
struct Entries {
    bond: &'static str,
    option: &'static str,
    dated: &'static str,
}
const ON_A_FIT: Entries = Entries { bond: "bond on a fit", option: "option on a fit", dated: "dated on a fit" };
const ON_A_FIT_BY_VERSION: Entries = Entries { bond: "bond by version", option: "option by version", dated: "dated by version" };
const ON_LENT: Entries = Entries { bond: "bond on lent", option: "option on lent", dated: "dated on lent" };

/// How many prices lie on which side of their exact ones, and the greatest part of an error bound that one of them used.
#[derive(Default)]
struct Sides {
    above: u64,
    below: u64,
    equal: u64,
    thousandths: u64,
}

impl Sides {
    /// A price, its exact one and its bound, all held alike.
    fn count(&mut self, price: &Natural, exact: &Natural, bound: &Natural) {
        match price.cmp(exact) {
            Ordering::Greater => self.above += 1,
            Ordering::Less => self.below += 1,
            Ordering::Equal => self.equal += 1,
        }
        let used = price.distance(exact).times(1_000);
        while bound.times(self.thousandths + 1) <= used {
            self.thousandths += 1;
        }
    }
}

impl fmt::Display for Sides {
    fn fmt(&self, f: &mut fmt::Formatter) -> fmt::Result {
        let (whole, tenth) = (self.thousandths / 10, self.thousandths % 10);
        write!(f, "{} above, {} below, {} equal; greatest share of a bound used {whole}.{tenth} %", self.above, self.below, self.equal)
    }
}

#[derive(Default)]
pub struct Tally {
    results: BTreeMap<&'static str, BTreeMap<u64, u64>>,
    shapes: BTreeMap<&'static str, (u64, u64)>,
    exact: BTreeMap<&'static str, u64>,
    rights: BTreeMap<&'static str, (u64, u64)>,
    bonds: Sides,
    options: Sides,
    strips: strips::Tally,
}

impl Tally {
    fn result<T>(&mut self, entry: &'static str, outcome: &Outcome<T>) {
        let number = outcome.as_ref().err().copied().unwrap_or(0);
        *self.results.entry(entry).or_default().entry(number).or_default() += 1;
    }

    fn exact(&mut self, what: &'static str) {
        *self.exact.entry(what).or_default() += 1;
    }

    /// On which side of the exact prices bonds and options lie.
    pub fn sides(&self) -> String {
        format!("  {:<22}{}\n  {:<22}{}", "bonds", self.bonds, "options", self.options)
    }

    /// The strips on lent discounts and on fits.
    pub fn strips(&mut self) -> &mut strips::Tally {
        &mut self.strips
    }

    pub fn bonds_on_both_sides(&self) -> bool {
        self.bonds.above > 0 && self.bonds.below > 0
    }

    /// How many trees of version 2 were priced that are wider than those of version 1.
    pub fn wider_trees(&self) -> u64 {
        self.results.get("version 2, 1: wider").and_then(|wider| wider.get(&1)).copied().unwrap_or(0)
    }

    /// How many dated options were compared, and how many of them were priced.
    pub fn dated_options(&self) -> (u64, u64) {
        let of = |entries: &Entries| self.results.get(entries.dated).into_iter().flatten();
        let found = || of(&ON_A_FIT).chain(of(&ON_A_FIT_BY_VERSION)).chain(of(&ON_LENT));
        (found().map(|(_, count)| count).sum(), found().filter(|(number, _)| **number == 0).map(|(_, count)| count).sum())
    }
}

impl fmt::Display for Tally {
    fn fmt(&self, f: &mut fmt::Formatter) -> fmt::Result {
        writeln!(f, "results compared, by refusal number (0: accepted)")?;
        for (entry, numbers) in &self.results {
            let words: Vec<String> = numbers.iter().map(|(number, count)| format!("{number}: {count}")).collect();
            writeln!(f, "  {entry:<22}{}", words.join("  "))?;
        }
        writeln!(f, "curves, of which fitted")?;
        for (shape, (all, fitted)) in &self.shapes {
            writeln!(f, "  {shape:<22}{all}, {fitted}")?;
        }
        writeln!(f, "pairs of options of which one has every right of the other, and costs more")?;
        for (what, (pairs, dearer)) in &self.rights {
            writeln!(f, "  {what:<26}{pairs}, {dearer}")?;
        }
        writeln!(f, "held against exact fractions, multiplied out")?;
        for (what, count) in &self.exact {
            writeln!(f, "  {what:<38}{count}")?;
        }
        writeln!(f, "prices and their exact ones")?;
        writeln!(f, "{}", self.sides())
    }
}

pub fn all(case: &Case, tally: &mut Tally) {
    shape_of_tree(case, tally);
    quotes(case, tally);
    let fitted = fit(case, tally);
    views(case, tally);
    match &fitted {
        Some(fitted) => {
            laws_of_fit(case, fitted, tally);
            prices(case, &fitted.discounts, &ON_A_FIT, tally);
        }
        None => rates(&case.lent, tally),
    }
    prices(case, &case.lent, &ON_LENT, tally);
    weighing(case, fitted.as_ref(), tally);
    versions(case, tally);
}

fn agree<T: PartialEq + fmt::Debug>(entry: &'static str, engine: Outcome<T>, rules: Outcome<T>, tally: &mut Tally) -> Option<T> {
    assert_eq!(engine, rules, "{entry}: library left, rules right");
    tally.result(entry, &rules);
    rules.ok()
}

// Rows, counts, branches

fn shape_of_tree(case: &Case, tally: &mut Tally) {
    let (tree, row, node) = (case.fit.tree, case.row, case.node);
    let b = tree.reversion;
    let shown = rules::lowest(&[(4, rules::reversion_wrong(b)), (6, row > 60)]);
    agree("half width", engine::half_width(b, row), shown.map(|_| tree.half_width(row) as u64), tally);
    agree("node count", engine::node_count(b, row), shown.map(|_| tree.node_count(row) as u64), tally);
    agree("row start", engine::row_start(b, row), shown.map(|_| tree.start(row) as u64), tally);
    let whole = rules::lowest(&[(3, rules::steps_wrong(tree.steps)), (4, rules::reversion_wrong(b))]);
    agree("discounts needed", engine::discounts_needed(&tree), whole.map(|_| tree.discounts_needed() as u64), tally);
    agree("state prices needed", engine::state_prices_needed(&tree), whole.map(|_| tree.state_prices_needed() as u64), tally);
    let wide = row <= 59 && b <= 6_000 && node.unsigned_abs() <= tree.half_width(row) as u64;
    let there = rules::lowest(&[(4, b > 6_000), (6, !wide)]);
    let branch = there.map(|_| {
        let branches = tree.branches(node);
        (branches[2].0, branches.map(|to| to.1))
    });
    agree("branches", engine::branches(b, row, node), branch, tally);
}

// Quotes and fit

fn quotes(case: &Case, tally: &mut Tally) {
    let (f, curve) = (case.fit.frequency, &case.fit.curve);
    let Curve { rows, kinds, figures } = curve;
    for i in 0..rows.len().min(kinds.len()).min(figures.len()) {
        let rules = rules::lone_quote(f, rows[i], kinds[i], figures[i]);
        let entry = if kinds[i] == 9 { "quote, a yield" } else { "quote" };
        let quoted = agree(entry, engine::lone_quote(f, rows[i], kinds[i], figures[i]), rules, tally);
        if let (9, Some(discount)) = (kinds[i], quoted) {
            let y = rules::yield_amount(f, rows[i], figures[i]).expect("a yield with a discount");
            assert!(near_fourth_power(y, discount, YIELD_WITHIN), "yield {}: {discount} is further than 100 from the exact one", figures[i]);
            tally.exact("discounts of yields");
        }
    }
    let length = case.fit.discounts_length.min(case.fit.tree.steps.saturating_add(3)).min(70);
    let mut memory = vec![UNTOUCHED; length + GUARD];
    let number = engine::convert(f, case.fit.tree.steps, curve, &mut memory[..length]);
    let rules = rules::convert(f, case.fit.tree.steps, curve, length);
    let mut expected = rules.clone().unwrap_or_default();
    expected.resize(length + GUARD, UNTOUCHED);
    assert_eq!(memory, expected, "curve: memory");
    agree("curve", if number == 0 { Ok(()) } else { Err(number) }, rules.map(|_| ()), tally);
}

/// A memory after a fit: the tree or, for 9, zeros, and what was there before past the needed part.
fn memory_after(outcome: Outcome<&Vec<u64>>, needed: usize, length: usize) -> Vec<u64> {
    let mut made = match outcome {
        Ok(stored) => stored.clone(),
        Err(9) => vec![0; needed],
        Err(_) => Vec::new(),
    };
    made.resize(length, UNTOUCHED);
    made
}

fn fit(case: &Case, tally: &mut Tally) -> Option<Fitted> {
    let input = &case.fit;
    let (first, second) = (input.discounts_length, input.state_prices_length);
    let mut discounts = vec![UNTOUCHED; first + GUARD];
    let mut state_prices = vec![UNTOUCHED; second + GUARD];
    let number = engine::fit(input, &mut discounts[..first], &mut state_prices[..second]);
    let rules = input.fit();
    let (needed, also) = match input.tree.accepted() {
        true => (input.tree.discounts_needed(), input.tree.state_prices_needed()),
        false => (0, 0),
    };
    let outcome = rules.as_ref().map_err(|e| *e);
    assert_eq!(outcome.map(|_| ()).err().unwrap_or(0), number, "fit: rules left, library right");
    assert_eq!(memory_after(outcome.map(|t| &t.discounts), needed, first + GUARD), discounts, "fit: discounts");
    assert_eq!(memory_after(outcome.map(|t| &t.state_prices), also, second + GUARD), state_prices, "fit: state prices");
    tally.result("fit", &rules);
    let shape = tally.shapes.entry(case.shape).or_default();
    shape.0 += 1;
    shape.1 += rules.is_ok() as u64;
    rules.ok()
}

// Versions

/// Both memories after a fit by version, with guards.
fn memories_by_version(version: u64, input: &rules::FitInput) -> (u64, Vec<u64>, Vec<u64>) {
    let (first, second) = (input.discounts_length, input.state_prices_length);
    let (mut discounts, mut state_prices) = (vec![UNTOUCHED; first + GUARD], vec![UNTOUCHED; second + GUARD]);
    let number = engine::fit_version(version, input, &mut discounts[..first], &mut state_prices[..second]);
    (number, discounts, state_prices)
}

/// A fit by version against the rules, number and memories.
fn fit_version(version: u64, input: &rules::FitInput, entry: &'static str, tally: &mut Tally) -> Option<Fitted> {
    let (number, discounts, state_prices) = memories_by_version(version, input);
    let (rules, tree) = (input.fit_version(version), input.worked(version));
    let (needed, also) = if tree.accepted() { (tree.discounts_needed(), tree.state_prices_needed()) } else { (0, 0) };
    let outcome = rules.as_ref().map_err(|e| *e);
    assert_eq!(outcome.map(|_| ()).err().unwrap_or(0), number, "fit by version {version}: rules left, library right");
    assert_eq!(memory_after(outcome.map(|t| &t.discounts), needed, discounts.len()), discounts, "fit by version {version}: discounts");
    assert_eq!(memory_after(outcome.map(|t| &t.state_prices), also, state_prices.len()), state_prices, "fit by version {version}: state prices");
    tally.result(entry, &rules);
    rules.ok()
}

/// The input with memories that are as much longer or shorter than the working tree needs as they were for the tree itself.
fn resized(version: u64, input: &rules::FitInput) -> rules::FitInput {
    let (tree, worked) = (input.tree, input.worked(version));
    let mut made = input.clone();
    if tree.accepted() {
        let moved = |length: usize, from: usize, to: usize| (length + to).saturating_sub(from);
        made.discounts_length = moved(made.discounts_length, tree.discounts_needed(), worked.discounts_needed());
        made.state_prices_length = moved(made.state_prices_length, tree.state_prices_needed(), worked.state_prices_needed());
    }
    made
}

/// Version 1 is the fit itself, number and memories.
fn version_1_is_the_fit(input: &rules::FitInput) {
    let (first, second) = (input.discounts_length, input.state_prices_length);
    let (mut discounts, mut state_prices) = (vec![UNTOUCHED; first + GUARD], vec![UNTOUCHED; second + GUARD]);
    let number = engine::fit(input, &mut discounts[..first], &mut state_prices[..second]);
    assert_eq!(memories_by_version(1, input), (number, discounts, state_prices), "version 1 left, the fit right");
}

/// The case on a tree of version 2, with as many payoffs as its row has where they were as many as theirs.
fn worked_case(case: &Case) -> Case {
    let (tree, worked) = (case.fit.tree, case.fit.worked(2));
    let mut made = Case { fit: resized(2, &case.fit), ..case.clone() };
    made.fit.tree = worked;
    if case.row <= tree.steps && case.payoffs.len() == tree.node_count(case.row) {
        made.payoffs.resize(worked.node_count(case.row), ONE);
    }
    made
}

fn versions(case: &Case, tally: &mut Tally) {
    let input = &case.fit;
    working_reversion(case.version, input.tree.reversion, tally);
    version_1_is_the_fit(input);
    fit_version(2, input, "version 2, own memory", tally);
    if rules::version_wrong(case.version) {
        fit_version(case.version, input, "unknown version", tally);
        fit_version(case.version, &resized(2, input), "unknown version", tally);
    }
    let Some(fitted) = fit_version(2, &resized(2, input), "version 2", tally) else { return };
    if input.tree.reversion == 0 {
        let first = input.fit().expect("without reversion version 1 is fitted too");
        assert_eq!((&fitted.discounts, &fitted.state_prices), (&first.discounts, &first.state_prices), "without reversion: version 2 left, 1 right");
        return;
    }
    let worked = worked_case(case);
    let wider = worked.fit.tree.discounts_needed() > input.tree.discounts_needed();
    *tally.results.entry("version 2, 1: wider").or_default().entry(wider as u64).or_default() += 1;
    laws_of_fit(&worked, &fitted, tally);
    prices(&worked, &fitted.discounts, &ON_A_FIT_BY_VERSION, tally);
    weighing(&worked, Some(&fitted), tally);
}

fn working_reversion(version: u64, reversion: u64, tally: &mut Tally) {
    agree("working reversion", engine::working_reversion(version, reversion), rules::working_reversion(version, reversion), tally);
}

/// Every reversion by every version, and past the limits; each F is within 100 of the exact one.
pub fn every_working_reversion(tally: &mut Tally) {
    let past = [MOST_REVERSION + 1, MOST_REVERSION + 2, 65_535, 65_536, 1 << 32, (1 << 32) + 1_000, u64::MAX];
    for reversion in (0..=MOST_REVERSION).chain(past) {
        for version in [1, 2].into_iter().chain(inputs::UNKNOWN_VERSIONS) {
            working_reversion(version, reversion, tally);
        }
    }
    for y in (0..=MOST_REVERSION).flat_map(|b| [rules::continuous_reversion(b), 2 * rules::continuous_reversion(b)]) {
        assert!(near_fourth_power(y, rules::continuous(y), YIELD_WITHIN), "F of {y} is further than 100 from the exact one");
    }
}

fn flat_input(steps: usize, reversion: u64, volatility: u64, [discounts_length, state_prices_length]: [usize; 2]) -> rules::FitInput {
    let figures = (1..=steps).map(|t| 0.9f64.powi(t as i32).max(0.12)).collect();
    let curve = Curve { rows: (1..=steps as u64).collect(), kinds: vec![5; steps], figures };
    rules::FitInput { frequency: 1, tree: Tree { steps, reversion }, volatility, curve, discounts_length, state_prices_length }
}

/// Figures of request (ix): working reversions, a spacing, and a tree that is wider by version 2.
pub fn versions_by_hand() {
    let figures = [(0, 0), (1, 1), (100, 100), (101, 100), (1_000, 952), (2_034, 1_840), (2_035, 1_841), (6_000, 4_512)];
    for (reversion, working) in figures {
        assert_eq!(engine::working_reversion(2, reversion), Ok(working), "reversion {reversion}: library left, by hand right");
        assert_eq!(engine::working_reversion(1, reversion), Ok(reversion), "reversion {reversion}: library left, by hand right");
    }
    assert_eq!([1_840, 1_841].map(|working| engine::half_width(working, 60)), [Ok(2), Ok(1)]);
    assert_eq!(rules::version_spacing(2, 1, 10_000, 1_000), 16_489_507);
    assert_eq!([103, 102].map(|reversion| Tree { steps: 60, reversion }.discounts_needed()), [1_878, 1_960]);
}

/// The memories of 60 steps with reversion 103 by both versions, and 13 steps whose half width of 12 passes the limit by version 2 alone: a bad version
/// comes after 6, which then goes by the reversion itself, and before 8.
pub fn causes_of_versions(tally: &mut Tally) {
    let by = |reversion| Tree { steps: 60, reversion };
    let rooms = [102, 103].map(|reversion| [by(reversion).discounts_needed(), by(reversion).state_prices_needed()]);
    let mut expect = |version: u64, input: &rules::FitInput, number: u64| {
        let found = fit_version(version, input, "fits by hand", tally).is_some();
        assert_eq!(memories_by_version(version, input).0, number, "version {version}: library left, by hand right");
        assert_eq!(found, number == 0);
    };
    for version in [1, 2].into_iter().chain(inputs::UNKNOWN_VERSIONS) {
        let known = !rules::version_wrong(version);
        let [discounts, state_prices] = rooms[(version != 2) as usize];
        let whole = flat_input(60, 103, 100, [discounts, state_prices]);
        expect(version, &whole, if known { 0 } else { 7 });
        expect(version, &rules::FitInput { discounts_length: discounts - 1, ..whole.clone() }, 6);
        expect(version, &rules::FitInput { state_prices_length: state_prices - 1, ..whole.clone() }, 6);
        expect(version, &flat_input(13, 168, 50_000, [3_600, 3_721]), match version { 1 => 9, 2 => 8, _ => 7 });
        expect(version, &flat_input(13, 145, 50_000, [3_600, 3_721]), if known { 8 } else { 7 });
    }
    expect(2, &flat_input(60, 103, 100, rooms[1]), 6);
}

fn views(case: &Case, tally: &mut Tally) {
    let (tree, row) = (case.fit.tree, case.row);
    let discounts = vec![ONE; case.fit.discounts_length];
    let state_prices = vec![ONE; case.fit.state_prices_length];
    let range = engine::row_range(&discounts, &state_prices, case.row_kind, &tree, row);
    let rules = match case.row_kind {
        1 | 2 => rules::row_part(discounts.len(), state_prices.len(), case.row_kind == 2, &tree, row),
        _ => None,
    };
    assert_eq!(range, rules.unwrap_or((0, 0)), "row range: library left, rules right");
    *tally.results.entry("row range, 1: empty").or_default().entry(rules.is_none() as u64).or_default() += 1;
}

/// Rates worked out by hand from request (i), and every discount within 3,000 of 1, of one and of 1.1 × one.
pub fn rates_at_borders(tally: &mut Tally) {
    let figures = [
        (0, Err(9)), (1, Ok(3_999_999_988)), (18_315_638, Ok(3_999_999_988)), (484_106_437, Ok(725_450_480)), (999_999_997, Ok(4)),
        (999_999_998, Ok(0)), (1_000_000_002, Ok(0)), (1_000_000_003, Ok(-4)), (DISCOUNT_LIMIT + 1, Err(9)), (u64::MAX, Err(9)),
    ];
    for (discount, rate) in figures {
        assert_eq!(engine::continuous_rate(discount), rate, "continuous rate of {discount}: library left, by hand right");
    }
    for border in [1, ONE, DISCOUNT_LIMIT] {
        for discount in border.saturating_sub(3_000)..=border + 3_000 {
            continuous_rate(discount, tally);
        }
    }
}

/// Request (iii): five steps, all discounts one, flows of two, so that the bond passes its limit. A bad list comes before that.
pub fn dates_by_hand() {
    let (tree, flows) = (Tree { steps: 5, reversion: 0 }, [FLOW_LIMIT; 5]);
    let discounts = vec![ONE; tree.discounts_needed()];
    for (dates, number) in [(vec![1], 12), (vec![5], 13), (vec![1, 1], 13), (vec![], 13)] {
        for side in [CALL, PUT] {
            let option = DatedOption { side, strike: ONE, dates: dates.clone() };
            assert_eq!(engine::dated_option(&tree, &discounts, &flows, &option), Err(number), "dates {dates:?}");
            assert_eq!(engine::bond_and_dated_option(&tree, &discounts, &flows, &option), (Err(12), Err(number)), "dates {dates:?}");
        }
    }
}

/// Rolls that end in one half, which goes up. One step: the flow by the discount. Two: three values from a flow of 10, whose mean is a sixth
/// of the outer two and four times the middle one, by the discount of row 0; each division is rounded on its own.
pub fn rolls_by_hand() {
    let half = ONE / 2;
    for (flow, discount, price) in [(1, half - 1, 0), (1, half, 1), (2, half, 1), (3, half, 2), (5, half, 3), (5, half - 1, 2)] {
        let tree = Tree { steps: 1, reversion: 0 };
        assert_eq!(engine::bond(&tree, &[discount], &[flow]), Ok((price, 2)), "flow {flow}, discount {discount}");
    }
    for (tenths, root, price, bound) in [
        ([1, 0, 1], ONE, 0, 4), ([1, 0, 2], ONE, 1, 4), ([5, 2, 2], ONE, 3, 4), ([2, 2, 5], ONE, 3, 4), ([3, 4, 2], ONE, 4, 4),
        ([1, 0, 2], half, 1, 3), ([5, 2, 2], half, 2, 3), ([4, 4, 6], DISCOUNT_LIMIT, 4, 5), ([4, 4, 7], DISCOUNT_LIMIT, 6, 5),
    ] {
        let tree = Tree { steps: 2, reversion: 0 };
        let [low, middle, high] = tenths.map(|tenth: u64| (tenth * ONE / 10).max(1));
        assert_eq!(engine::bond(&tree, &[root, low, middle, high], &[0, 10]), Ok((price, bound)), "values {tenths:?}, discount {root}");
    }
}

/// The limit is judged after rounding: past 8 × one these bonds have 0.488, 0.5 and 0.998 billionths more.
pub fn limit_by_hand() {
    let tree = Tree { steps: 4, reversion: 0 };
    let figures = [(7_999_936_001, 1_000_008_000, Ok(8 * ONE)), (7_746_425_600, 1_032_734_375, Err(12)), (7_999_996_001, 1_000_000_500, Err(12))];
    for (value, discount, price) in figures {
        let mut discounts = vec![ONE; tree.discounts_needed()];
        discounts[0] = discount;
        let flows = [value - 3 * FLOW_LIMIT, FLOW_LIMIT, FLOW_LIMIT, FLOW_LIMIT];
        assert_eq!(engine::bond(&tree, &discounts, &flows).map(|bond| bond.0), price, "value {value}, discount {discount}");
    }
}

/// A node discount of 1.1 × one is accepted and one billionth more is refused with 9, on row 0 and on row 1, whose state prices sum to two less
/// than one.
pub fn discount_limit_by_hand() {
    let limit = Ok(DISCOUNT_LIMIT);
    for (figures, last) in [(vec![1.1], limit), (vec![1.100000001], Err(9)), (vec![1.0, 1.099999998], limit), (vec![1.0, 1.099999999], Err(9))] {
        let tree = Tree { steps: figures.len(), reversion: 0 };
        let curve = Curve { rows: (1..=tree.steps as u64).collect(), kinds: vec![5; tree.steps], figures };
        let (discounts_length, state_prices_length) = (tree.discounts_needed(), tree.state_prices_needed());
        let input = rules::FitInput { frequency: 1, tree, volatility: 0, curve, discounts_length, state_prices_length };
        let (mut discounts, mut state_prices) = (vec![UNTOUCHED; discounts_length], vec![UNTOUCHED; state_prices_length]);
        let number = engine::fit(&input, &mut discounts, &mut state_prices);
        let found = if number == 0 { Ok(discounts[discounts_length - 1]) } else { Err(number) };
        assert_eq!(found, last, "fit of {:?}: library left, by hand right", input.curve.figures);
        let ruled = input.fit().map(|fitted| fitted.discounts[discounts_length - 1]);
        assert_eq!(ruled, last, "fit of {:?}: rules left, by hand right", input.curve.figures);
    }
}

/// Numbers that would pass for valid ones if they were cut to 8, 16 or 32 bits, each number of a case alone.
pub fn numbers_past_a_width(tally: &mut Tally) {
    for case in inputs::widths() {
        all(&case, tally);
        rates(&case.lent, tally);
    }
}

/// Where the rate is not 0, its sign is the step rate's.
fn continuous_rate(discount: u64, tally: &mut Tally) {
    let rate = engine::continuous_rate(discount);
    assert_eq!(rate, rules::continuous_rate(discount), "continuous rate of {discount}: library left, every quotient right");
    tally.result("continuous rate", &rate);
    if let (Ok(rate), Ok(step)) = (rate, rules::step_rate(discount)) {
        assert!(rate == 0 || (rate < 0) == (step < 0), "sign of the continuous rate of {discount}");
    }
}

fn rates(discounts: &[u64], tally: &mut Tally) {
    for v in discounts.iter().step_by(discounts.len() / RATES_OF_A_CASE + 1) {
        continuous_rate(*v, tally);
    }
    for v in discounts {
        let rate = rules::step_rate(*v);
        assert_eq!(engine::step_rate(*v), rate, "step rate of {v}: library left, rules right");
        assert!(rate.map_or(true, |r| (r < 0) == (*v > ONE)), "sign of the step rate of {v}");
    }
}

// Demand 2, and the state prices' error bound

fn laws_of_fit(case: &Case, fitted: &Fitted, tally: &mut Tally) {
    let tree = case.fit.tree;
    rates(&fitted.discounts, tally);
    let rows = Exact::new(tree, &fitted.discounts);
    let exact = rows.state_prices();
    for t in 1..=tree.steps {
        let row = tree.row(&fitted.state_prices, t);
        let total: u64 = row.iter().sum();
        assert!(total.abs_diff(fitted.quotes[t - 1]) <= REPRICED_WITHIN, "quote of row {t} repriced as {total}");
        let bound = engine::state_price_bound(&tree, &fitted.discounts, t).expect("a fitted tree's bound");
        let mut short = Natural::zero();
        for (price, exact) in row.iter().zip(&exact[t]) {
            let held = rows.held(*price, t);
            assert!(held <= *exact, "a state price of row {t} above the exact one");
            short = short.plus(&exact.less(&held));
        }
        assert!(short <= rows.held(bound, t), "state prices of row {t} short by more than {bound}");
        tally.exact("rows of state prices");
    }
    let every = (0..=tree.steps + 1).map(|t| engine::state_price_bound(&tree, &fitted.discounts, t));
    for (t, bound) in every.enumerate() {
        agree("state price bound", bound, tree.state_price_bound(&fitted.discounts, t), tally);
    }
}

// Demand 3

/// A price within its bound on either side of the exact one.
fn within(bond: &ExactBond, priced: (u64, u64), exact: &Natural, what: &str, sides: &mut Sides) {
    let (price, bound) = (bond.held(priced.0), bond.held(priced.1));
    assert!(price.distance(exact) <= bound, "{what}: {} is further than {} from the exact price", priced.0, priced.1);
    sides.count(&price, exact, &bound);
}

fn at_most_two_a_step(tree: &Tree, discounts: &[u64], bound: u64) {
    let shown = &discounts[..tree.discounts_needed()];
    assert!(shown.iter().any(|v| *v > ONE) || bound <= 2 * tree.steps as u64, "bound {bound} above two a step");
}

/// The answers of both at once, of which each must be what its own entry gives.
fn both(found: engine::Both, bond: Outcome<(u64, u64)>, option: Outcome<(u64, u64)>, names: [&'static str; 2], tally: &mut Tally) {
    assert_eq!(found, (bond, option), "{}: library left, rules right", names[0]);
    tally.result(names[bond.is_err() as usize], &option);
}

/// The same rights by a kind and by its list: one whole answer.
fn one_right_twice(case: &Case, discounts: &[u64], tally: &mut Tally) {
    let (tree, flows, contract) = (case.fit.tree, &case.flows, &case.contract);
    let Some(list) = contract.dated(tree.steps) else { return };
    let (kind, dated) = (engine::option(&tree, discounts, flows, contract), engine::dated_option(&tree, discounts, flows, &list));
    assert_eq!(dated, kind, "a list left, its kind right");
    let pairs = (engine::bond_and_option(&tree, discounts, flows, contract), engine::bond_and_dated_option(&tree, discounts, flows, &list));
    assert_eq!(pairs.1, pairs.0, "bond and option: a list left, its kind right");
    tally.result("kind and its list", &kind);
}

/// Of two rights to one bond, side and strike, the one with every row of the other costs no less where both are priced.
fn no_less(fewer: Outcome<(u64, u64)>, more: Outcome<(u64, u64)>, what: &'static str, tally: &mut Tally) {
    let (Ok(fewer), Ok(more)) = (fewer, more) else { return };
    assert!(fewer.0 <= more.0, "{what}: {} with fewer rows, {} with more", fewer.0, more.0);
    let (pairs, dearer) = tally.rights.entry(what).or_default();
    *pairs += 1;
    *dearer += (fewer.0 < more.0) as u64;
}

fn more_rights(case: &Case, discounts: &[u64], tally: &mut Tally) {
    let (tree, flows, contract) = (case.fit.tree, &case.flows, &case.contract);
    let fewer = DatedOption { dates: case.fewer.clone(), ..case.dated };
    let priced = |option: &DatedOption| engine::dated_option(&tree, discounts, flows, option);
    no_less(priced(&fewer), priced(&case.dated), "lists, one in the other", tally);
    let of_kind = |kind: u64| engine::option(&tree, discounts, flows, &Contract { kind, ..*contract });
    if contract.kind <= 2 {
        no_less(of_kind(contract.kind), of_kind(contract.kind + 2), "European and American", tally);
    }
}

/// A tree's bound alone, and with the greatest discounts of its rows.
fn tree_bounds(tree: &Tree, discounts: &[u64], tally: &mut Tally) {
    let ruled = tree.bounds(discounts);
    agree("tree bounds", engine::tree_bounds(tree, discounts), ruled, tally);
    agree("price bound", engine::price_bound(tree, discounts), ruled.map(|carried| carried.bound), tally);
}

/// The bounds of trees by hand: from the last row, times the row's greatest, up, and 2 more.
pub fn bounds_by_hand() {
    let (half, high) = (ONE / 2, DISCOUNT_LIMIT);
    let trees: [(u64, &[u64], u64, &[u64]); 7] = [
        (0, &[ONE], 2, &[ONE]),
        (0, &[1, 1, 1, 1], 3, &[1, 1]),
        (0, &[high; 4], 5, &[high, high]),
        (6_000, &[high; 7], 8, &[high, high, high]),
        (0, &[ONE, 1, half, 2, ONE, 1, 1, 1, 1], 5, &[ONE, half, ONE]),
        (0, &[half, 1, 1, ONE, 1, 1, 1, 1, ONE], 4, &[half, ONE, ONE]),
        (0, &[half + 1, ONE, 1, 1, 1, 1, 2, 1, 1, 0, u64::MAX], 5, &[half + 1, ONE, 2]),
    ];
    for (reversion, discounts, bound, rows) in trees {
        let made = Carried::of(bound, rows);
        let tree = Tree { steps: rows.len(), reversion };
        assert_eq!(engine::tree_bounds(&tree, discounts), Ok(made), "bounds of {discounts:?}: library left, by hand right");
        assert_eq!(engine::price_bound(&tree, discounts), Ok(bound), "bound of {discounts:?}: library left, by hand right");
        assert_eq!(tree.bounds(discounts), Ok(made), "bounds of {discounts:?}: rules left, by hand right");
    }
}

/// A tree and its discounts, with a set of the causes 3, 4, 6 and 9 in one of many ways.
fn with_causes(tree: Tree, wrong: [bool; 4], way: usize) -> (Tree, Vec<u64>) {
    let Tree { steps, reversion } = tree;
    let strange_steps = [0, 61, 62, 70, steps + (1 << 8), steps + (1 << 16), steps + (1 << 32), usize::MAX];
    let strange_reversions = [6_001, 65_535, reversion + (1 << 16), reversion + (1 << 32), u64::MAX];
    let strange_discounts = [0, DISCOUNT_LIMIT + 1, ONE + (1 << 32), ONE + (1 << 33), u64::MAX];
    let (mut made, needed) = (tree, tree.discounts_needed());
    let length = if wrong[2] { needed - 1 - way % (needed - 1) } else { needed };
    let mut discounts = vec![ONE; length];
    if wrong[0] {
        made.steps = strange_steps[way % strange_steps.len()];
    }
    if wrong[1] {
        made.reversion = strange_reversions[way % strange_reversions.len()];
    }
    if wrong[3] {
        discounts[[0, length / 2, length - 1][way % 3]] = strange_discounts[way / 3 % strange_discounts.len()];
    }
    (made, discounts)
}

/// Every set of the causes 3, 4, 6 and 9: the lowest is the answer.
pub fn causes_of_bounds(tally: &mut Tally) {
    for (steps, reversion) in [(2, 0), (3, 800), (60, 0), (60, 6_000), (17, 83)] {
        for (way, set) in (0..120).flat_map(|way| (0..16).map(move |set| (way, set))) {
            let wrong = [0, 1, 2, 3].map(|place| set >> place & 1 == 1);
            let (tree, discounts) = with_causes(Tree { steps, reversion }, wrong, way);
            let lowest = [3, 4, 6, 9].into_iter().zip(wrong).find(|cause| cause.1).map(|cause| cause.0);
            let found = (engine::tree_bounds(&tree, &discounts).err(), engine::price_bound(&tree, &discounts).err());
            assert_eq!(found, (lowest, lowest), "{tree:?}, {} discounts: library left, lowest cause right", discounts.len());
            tree_bounds(&tree, &discounts, tally);
        }
    }
}

fn bounds(case: &Case, discounts: &[u64], tally: &mut Tally) {
    let (tree, row, payoffs) = (case.fit.tree, case.row, &case.payoffs);
    agree("state price bound", engine::state_price_bound(&tree, discounts, row), tree.state_price_bound(discounts, row), tally);
    tree_bounds(&tree, discounts, tally);
    let bound = tree.weighing_bound(discounts, row, payoffs);
    agree("weighing bound", engine::weighing_bound(&tree, discounts, row, payoffs), bound, tally);
}

fn prices(case: &Case, discounts: &[u64], entries: &Entries, tally: &mut Tally) {
    let (tree, flows, contract, dated) = (case.fit.tree, &case.flows, &case.contract, &case.dated);
    let terms = Terms { flows, contract, dated, strikes: &case.strikes };
    let bond = tree.bond(discounts, flows);
    let (of_kind, of_dates) = (tree.option(discounts, flows, contract), tree.dated_option(discounts, flows, dated));
    let pair = engine::bond_and_option(&tree, discounts, flows, contract);
    both(pair, bond, of_kind, ["both, bond priced", "both, bond refused"], tally);
    let pair = engine::bond_and_dated_option(&tree, discounts, flows, dated);
    both(pair, bond, of_dates, ["dated, bond priced", "dated, bond refused"], tally);
    let bond = agree(entries.bond, engine::bond(&tree, discounts, flows), bond, tally);
    let of_kind = agree(entries.option, engine::option(&tree, discounts, flows, contract), of_kind, tally);
    let of_dates = agree(entries.dated, engine::dated_option(&tree, discounts, flows, dated), of_dates, tally);
    one_right_twice(case, discounts, tally);
    more_rights(case, discounts, tally);
    bounds(case, discounts, tally);
    if let Some(bond) = bond {
        exact_prices(&tree, discounts, &terms, bond, [of_kind, of_dates], tally);
    }
    strips::on_lent(&tree, discounts, &terms, &mut tally.strips);
}

/// A bond by its flows, and two options on it.
#[derive(Clone, Copy)]
pub struct Terms<'a> {
    pub flows: &'a [u64],
    pub contract: &'a Contract,
    pub dated: &'a DatedOption,
    /// For strips of both.
    pub strikes: &'a [u64],
}

/// A bond, and what was priced of option by kind and dated option, each against the exact pricer.
pub fn exact_prices(tree: &Tree, discounts: &[u64], terms: &Terms, bond: (u64, u64), options: [Option<(u64, u64)>; 2], tally: &mut Tally) {
    let Terms { flows, contract, dated, .. } = *terms;
    let exact = ExactBond::new(*tree, discounts, flows);
    within(&exact, bond, exact.price(), "bond", &mut tally.bonds);
    at_most_two_a_step(tree, discounts, bond.1);
    tally.exact("bond prices");
    let mut option_within = |option: &DatedOption, price: (u64, u64), called: Called| {
        within(&exact, price, &exact.option(option), called.0, &mut tally.options);
        at_most_two_a_step(tree, discounts, price.1);
        tally.exact(called.0);
        if tree.exercised_on_a_flow(discounts, flows, option) {
            tally.exact(called.1);
        }
    };
    if let Some(price) = options[0] {
        let list = contract.dated(tree.steps).expect("the list of a priced kind");
        option_within(&list, price, KINDS[contract.kind as usize - 1]);
    }
    if let Some(price) = options[1] {
        option_within(dated, price, DATED[dated.side as usize - 1]);
    }
}

fn weighing(case: &Case, fitted: Option<&Fitted>, tally: &mut Tally) {
    let (tree, row, payoffs) = (case.fit.tree, case.row, &case.payoffs);
    agree("weighing", engine::weighing(&case.weighed, payoffs), rules::weighing(&case.weighed, payoffs), tally);
    let Some(fitted) = fitted.filter(|_| row <= tree.steps) else { return };
    let state_prices = tree.row(&fitted.state_prices, row);
    let value = agree("weighing of a fit", engine::weighing(state_prices, payoffs), rules::weighing(state_prices, payoffs), tally);
    let Some(value) = value else { return };
    let bound = engine::weighing_bound(&tree, &fitted.discounts, row, payoffs).expect("a bound of what was weighed");
    let rows = Exact::new(tree, &fitted.discounts);
    let (exact, held) = (rows.payoffs(row, payoffs), rows.held(value, row));
    assert!(held <= exact, "weighing: {value} is above the exact price");
    assert!(exact.less(&held) <= rows.held(bound, row), "weighing: {value} is short by more than {bound}");
    tally.exact("weighings");
}
