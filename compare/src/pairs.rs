// A rate tree and a spread tree together: the library against the rule of document 02, request (xiii), and against the exact pricer on the combined discounts, on
// random pairs, some with one or two things wrong. Beside a tree of ones, on either side, every answer is the single tree's. So that a difference would be
// seen, wrong rules stand beside the rule, each with one thing that is easily got wrong: a large run has a pair on which each of them answers otherwise. A
// difference panics.
use crate::engine;
use crate::inputs::{self, Random};
use crate::natural::Natural;
use crate::rules::{flow_of, nearest, reversion_wrong, steps_wrong, up, DatedOption, Outcome, Tree};
use crate::rules::{CALL, DISCOUNT_LIMIT, FLOW_LIMIT, ONE, PUT, STRIKE_LIMIT, VALUE_LIMIT, WHOLE};
use std::collections::BTreeMap;
use std::fmt;

const MOST_STEPS: usize = 20;
/// Exact prices are worked out of pairs of so few steps, and of one of so many longer ones.
const FEW_STEPS: usize = 6;
const LONGER_PAIRS: u64 = 24;
/// Pairs of which the wrong rules are tried on one.
const PAIRS_A_TRIAL: u64 = 4;

/// What a wrong rule gets wrong.
const FAULTS: [&str; 18] = [
    "spread side first", "rate side down", "spread side down", "discounted down", "combined to nearest", "one table of probabilities", "rate discount alone",
    "pairs above 1.1 refused", "no pair of 0 refused", "pairs of two rows", "a pair of 0 after the flows", "19 after 4", "19 before 3", "21 steps allowed",
    "bound of the rates", "3 a step", "coupon to the buyer", "dates after values",
];

type Priced = Outcome<(u64, u64)>;

#[derive(Clone, Debug)]
pub struct Lent {
    pub tree: Tree,
    pub discounts: Vec<u64>,
}

#[derive(Clone, Debug)]
struct Pair {
    rates: Lent,
    spreads: Lent,
    flows: Vec<u64>,
    option: DatedOption,
}

impl Lent {
    fn short(&self) -> bool {
        self.discounts.len() < self.tree.discounts_needed()
    }

    fn discount(&self, row: usize, node: i64) -> u64 {
        self.tree.row(&self.discounts, row)[(node + self.tree.half_width(row)) as usize]
    }

    fn nodes(&self, row: usize) -> std::ops::RangeInclusive<i64> {
        -self.tree.half_width(row)..=self.tree.half_width(row)
    }

    fn ones(tree: Tree) -> Lent {
        Lent { tree, discounts: vec![ONE; tree.discounts_needed()] }
    }
}

impl Pair {
    fn steps(&self) -> usize {
        self.rates.tree.steps
    }

    /// The pairs of a row, in the order of their places.
    fn nodes(&self, row: usize) -> Vec<(i64, i64)> {
        self.rates.nodes(row).flat_map(|j| self.spreads.nodes(row).map(move |k| (j, k))).collect()
    }

    fn place(&self, row: usize, j: i64, k: i64) -> usize {
        let (lines, width) = (self.rates.tree.half_width(row), self.spreads.tree.half_width(row));
        ((j + lines) * (2 * width + 1) + k + width) as usize
    }

    fn bond(&self) -> Priced {
        engine::pair_bond(&self.rates, &self.spreads, &self.flows)
    }

    fn dated(&self) -> Priced {
        engine::pair_option(&self.rates, &self.spreads, &self.flows, &self.option)
    }
}

/// The rule, or a wrong one by its name.
#[derive(Clone, Copy)]
struct Rule(&'static str);

impl Rule {
    fn is(self, fault: &str) -> bool {
        self.0 == fault
    }

    fn divide(self, fault: &str, sum: u128, by: u64) -> u64 {
        (if self.is(fault) { sum / by as u128 } else { nearest(sum, by as u128) }) as u64
    }

    fn combined(self, p: &Pair, row: usize, j: i64, k: i64) -> u64 {
        let product = p.rates.discount(row, j) as u128 * p.spreads.discount(row, k) as u128;
        if self.is("rate discount alone") {
            return p.rates.discount(row, j);
        }
        (if self.is("combined to nearest") { nearest(product, ONE as u128) } else { product / ONE as u128 }) as u64
    }

    /// The branches of a spread node; by the wrong table they stay within the next row.
    fn spread_branches(self, p: &Pair, row: usize, k: i64) -> [(i64, u64); 3] {
        let width = p.spreads.tree.half_width(row + 1);
        if self.is("one table of probabilities") {
            let top = p.rates.tree.half_width(row);
            return p.rates.tree.branches(k.clamp(-top, top)).map(|(to, chance)| (to.clamp(-width, width), chance));
        }
        p.spreads.tree.branches(k)
    }

    fn mean(self, p: &Pair, row: usize, later: &[u64], j: i64, k: i64) -> u64 {
        let (rates, spreads) = (p.rates.tree.branches(j), self.spread_branches(p, row, k));
        let along_rates = |to_spread: i64| {
            let sum = rates.iter().map(|(to, chance)| *chance as u128 * later[p.place(row + 1, *to, to_spread)] as u128).sum();
            self.divide("rate side down", sum, WHOLE)
        };
        let along_spreads = |to_rate: i64| {
            let sum = spreads.iter().map(|(to, chance)| *chance as u128 * later[p.place(row + 1, to_rate, *to)] as u128).sum();
            self.divide("spread side down", sum, WHOLE)
        };
        if self.is("spread side first") {
            let sum = rates.iter().map(|(to, chance)| *chance as u128 * along_spreads(*to) as u128).sum();
            return self.divide("rate side down", sum, WHOLE);
        }
        let sum = spreads.iter().map(|(to, chance)| *chance as u128 * along_rates(*to) as u128).sum();
        self.divide("spread side down", sum, WHOLE)
    }

    fn roll(self, p: &Pair, row: usize, later: &[u64]) -> Vec<u64> {
        let discounted = |mean: u64, discount: u64| self.divide("discounted down", mean as u128 * discount as u128, ONE);
        p.nodes(row).into_iter().map(|(j, k)| discounted(self.mean(p, row, later, j, k), self.combined(p, row, j, k))).collect()
    }

    fn no_pair_wrong(self, p: &Pair) -> bool {
        let rows = 0..p.steps();
        let wrong = |v: u64| v == 0 && !self.is("no pair of 0 refused") || v > DISCOUNT_LIMIT && self.is("pairs above 1.1 refused");
        if self.is("pairs of two rows") {
            let least = |lent: &Lent| *lent.discounts[..lent.tree.discounts_needed()].iter().min().unwrap() as u128;
            return least(&p.rates) * least(&p.spreads) >= ONE as u128;
        }
        !rows.into_iter().any(|row| p.nodes(row).into_iter().any(|(j, k)| wrong(self.combined(p, row, j, k))))
    }

    fn steps_causes(self, p: &Pair) -> Outcome<()> {
        let [rates, spreads] = [p.rates.tree, p.spreads.tree];
        let outside = steps_wrong(rates.steps) || steps_wrong(spreads.steps);
        let most = MOST_STEPS + self.is("21 steps allowed") as usize;
        let together = rates.steps > most || rates.steps != spreads.steps;
        let strong = reversion_wrong(rates.reversion) || reversion_wrong(spreads.reversion);
        let order = if self.is("19 after 4") { [3, 4, 19] } else if self.is("19 before 3") { [19, 3, 4] } else { [3, 19, 4] };
        let applies = |number: &u64| match number {
            3 => outside,
            4 => strong,
            _ => together,
        };
        order.into_iter().find(applies).map_or(Ok(()), Err)
    }

    fn causes(self, p: &Pair) -> Outcome<()> {
        self.steps_causes(p)?;
        if p.rates.short() || p.spreads.short() || p.flows.len() != p.steps() {
            return Err(6);
        }
        if [&p.rates, &p.spreads].iter().any(|lent| lent.tree.discounts_wrong(&lent.discounts)) {
            return Err(9);
        }
        let flows = p.flows.iter().any(|flow| *flow > FLOW_LIMIT);
        let late = self.is("a pair of 0 after the flows");
        match (self.no_pair_wrong(p), flows) {
            (false, false) => Err(9),
            (false, true) => Err(if late { 10 } else { 9 }),
            (true, true) => Err(10),
            (true, false) => Ok(()),
        }
    }

    fn limited(row: Vec<u64>) -> Outcome<Vec<u64>> {
        if row.iter().any(|value| *value > VALUE_LIMIT) { Err(12) } else { Ok(row) }
    }

    /// The bond's values of rows 0 to n.
    fn bonds(self, p: &Pair) -> Outcome<Vec<Vec<u64>>> {
        let n = p.steps();
        let mut rows = vec![vec![p.flows[n - 1]; p.nodes(n).len()]];
        for i in (0..n).rev() {
            let rolled = self.roll(p, i, &rows[n - 1 - i]);
            rows.push(Rule::limited(rolled.into_iter().map(|value| value + flow_of(&p.flows, i)).collect())?);
        }
        rows.reverse();
        Ok(rows)
    }

    fn exercised(self, p: &Pair, bonds: &[Vec<u64>], row: usize) -> Vec<u64> {
        let flow = if self.is("coupon to the buyer") { 0 } else { flow_of(&p.flows, row) };
        bonds[row].iter().map(|bond| p.option.exercise(bond - flow)).collect()
    }

    fn bound(self, p: &Pair) -> u64 {
        let greatest = |row: usize| match self.is("bound of the rates") {
            true => p.rates.tree.greatest(&p.rates.discounts, row),
            false => p.nodes(row).into_iter().map(|(j, k)| self.combined(p, row, j, k)).max().unwrap() as u128,
        };
        let loss = 2 + self.is("3 a step") as u128;
        (0..p.steps()).rev().fold(0, |later, row| up(greatest(row) * later, ONE as u128) + loss) as u64
    }

    fn bond(self, p: &Pair) -> Priced {
        self.causes(p)?;
        Ok((self.bonds(p)?[0][0], self.bound(p)))
    }

    fn dated(self, p: &Pair) -> Priced {
        self.causes(p)?;
        if p.option.wrong() {
            return Err(11);
        }
        if self.is("dates after values") {
            self.bonds(p)?;
        }
        if p.option.dates_wrong(p.steps()) {
            return Err(13);
        }
        let (bonds, last) = (self.bonds(p)?, p.option.last());
        let mut row = Rule::limited(self.exercised(p, &bonds, last))?;
        for i in (0..last).rev() {
            row = self.roll(p, i, &row);
            if p.option.listed(i) {
                row = row.into_iter().zip(self.exercised(p, &bonds, i)).map(|(held, now)| held.max(now)).collect();
            }
            row = Rule::limited(row)?;
        }
        Ok((row[0], self.bound(p)))
    }
}

// The exact pricer: a value with k rows left to row n is held times (600,000,000 × 600,000,000 × one)^k.

struct Exact<'a> {
    pair: &'a Pair,
    powers: Vec<Natural>,
}

impl<'a> Exact<'a> {
    fn new(pair: &'a Pair) -> Exact<'a> {
        let mut powers = vec![Natural::from(1)];
        for k in 0..pair.steps() {
            powers.push(powers[k].times(WHOLE).times(WHOLE).times(ONE));
        }
        Exact { pair, powers }
    }

    fn held(&self, amount: u64, row: usize) -> Natural {
        self.powers[self.pair.steps() - row].times(amount)
    }

    fn roll(&self, row: usize, later: &[Natural]) -> Vec<Natural> {
        let p = self.pair;
        let rolled = |(j, k): (i64, i64)| {
            let mut sum = Natural::zero();
            for (to, chance) in p.rates.tree.branches(j) {
                for (other, beside) in p.spreads.tree.branches(k) {
                    sum.add_times(&later[p.place(row + 1, to, other)], chance * beside);
                }
            }
            sum.times(Rule("").combined(p, row, j, k))
        };
        p.nodes(row).into_iter().map(rolled).collect()
    }

    fn bonds(&self) -> Vec<Vec<Natural>> {
        let (p, n) = (self.pair, self.pair.steps());
        let mut rows = vec![vec![Natural::from(p.flows[n - 1]); p.nodes(n).len()]];
        for i in (0..n).rev() {
            let flow = self.held(flow_of(&p.flows, i), i);
            rows.push(self.roll(i, &rows[n - 1 - i]).iter().map(|value| value.plus(&flow)).collect());
        }
        rows.reverse();
        rows
    }

    fn exercised(&self, bonds: &[Vec<Natural>], row: usize) -> Vec<Natural> {
        let option = &self.pair.option;
        let (strike, flow) = (self.held(option.strike, row), self.held(flow_of(&self.pair.flows, row), row));
        let now = |bare: Natural| if option.side == CALL { bare.less(&strike) } else { strike.less(&bare) };
        bonds[row].iter().map(|bond| now(bond.less(&flow))).collect()
    }

    fn option(&self, bonds: &[Vec<Natural>]) -> Natural {
        let option = &self.pair.option;
        let mut row = self.exercised(bonds, option.last());
        for i in (0..option.last()).rev() {
            row = self.roll(i, &row);
            if option.listed(i) {
                row = row.into_iter().zip(self.exercised(bonds, i)).map(|(held, now)| held.max(now)).collect();
            }
        }
        row[0].clone()
    }

    fn near(&self, what: &str, (value, bound): (u64, u64), exact: &Natural) {
        let distance = self.held(value, 0).distance(exact);
        assert!(distance <= self.held(bound, 0), "{what}: {value} is further than {bound} from the exact price\n{:?}", self.pair);
    }
}

// Random pairs

fn discounts(r: &mut Random, count: usize) -> Vec<u64> {
    let (low, high) = r.pick(&[(950_000_000, 1_030_000_000), (950_000_000, ONE), (500_000_000, DISCOUNT_LIMIT), (1_090_000_000, DISCOUNT_LIMIT),
                               (ONE, ONE), (1, 200_000), (30_000, 33_000), (1, DISCOUNT_LIMIT)]);
    let shown = |r: &mut Random| if r.chance(3) { r.pick(&[ONE, DISCOUNT_LIMIT, 31_622, 31_623, 1]) } else { r.within(low, high) };
    (0..count).map(|_| shown(r)).collect()
}

fn lent(r: &mut Random, steps: usize) -> Lent {
    let tree = Tree { steps, reversion: inputs::reversion(r) };
    let mut found = Lent { tree, discounts: discounts(r, tree.discounts_needed()) };
    if r.chance(20) {
        found.discounts.extend([0, u64::MAX, 1]);
    }
    found
}

fn pair(r: &mut Random) -> Pair {
    let steps = match r.below(20) {
        0..=12 => r.within(1, 5),
        13..=17 => r.within(6, 12),
        _ => r.within(13, 20),
    } as usize;
    let (rates, spreads) = (lent(r, steps), lent(r, steps));
    let most = r.pick(&[60_000_000, 60_000_000, ONE, FLOW_LIMIT]);
    let flows = (0..steps).map(|_| if r.chance(20) { 0 } else { r.within(0, most) }).collect();
    let mut dates: Vec<u8> = (0..steps as u8).filter(|_| r.chance(40)).collect();
    if dates.is_empty() {
        dates.push(r.below(steps) as u8);
    }
    let any = r.within(0, 2 * ONE);
    let strike = r.pick(&[0, ONE, STRIKE_LIMIT, any, any]);
    Pair { rates, spreads, flows, option: DatedOption { side: r.pick(&[CALL, PUT]), strike, dates } }
}

/// One thing made wrong, or nearly.
fn spoil(r: &mut Random, p: &mut Pair) {
    let steps = p.steps();
    let lent = if r.chance(50) { &mut p.rates } else { &mut p.spreads };
    let place = r.below(lent.discounts.len().max(1));
    match r.below(10) {
        0 => lent.tree.steps = r.pick(&[0, 21, 60, 61, steps + 1, steps.saturating_sub(1), steps + 256, steps + (1 << 32)]),
        1 => {
            let longer = r.pick(&[20, 21, 60, 61]);
            p.rates.tree.steps = longer;
            p.spreads.tree.steps = longer;
            for lent in [&mut p.rates, &mut p.spreads] {
                lent.discounts.resize(lent.tree.discounts_needed(), 990_000_000);
            }
            p.flows.resize(longer, 0);
        }
        2 => lent.tree.reversion = r.pick(&[6_000, 6_001, lent.tree.reversion + 65_536, lent.tree.reversion + (1 << 32)]),
        3 => lent.discounts.truncate(place),
        4 if !lent.discounts.is_empty() => {
            let old = lent.discounts[place];
            lent.discounts[place] = r.pick(&[0, DISCOUNT_LIMIT + 1, DISCOUNT_LIMIT, old.wrapping_add(1 << 32), u64::MAX]);
        }
        5 => p.flows.resize(r.pick(&[steps + 1, steps.saturating_sub(1), steps + 256]), 0),
        6 if !p.flows.is_empty() => {
            let row = r.below(p.flows.len());
            p.flows[row] = r.pick(&[FLOW_LIMIT, FLOW_LIMIT + 1, p.flows[row].wrapping_add(1 << 32)]);
        }
        7 => {
            p.flows.fill(FLOW_LIMIT);
            p.option.dates.clear();
        }
        8 => p.option.side = r.pick(&[0, 3, 257, (1 << 32) + 1]),
        _ => match r.below(3) {
            0 => p.option.strike = r.pick(&[STRIKE_LIMIT + 1, STRIKE_LIMIT, (1 << 32) + ONE]),
            1 => p.option.dates.push(r.pick(&[0, steps as u8, 255])),
            _ => p.option.dates.clear(),
        },
    }
}

// What is compared

#[derive(Default)]
pub struct Tally {
    pairs: u64,
    bonds: BTreeMap<u64, u64>,
    options: BTreeMap<u64, u64>,
    exact: u64,
    ones: u64,
    above: u64,
    below: u64,
    caught: BTreeMap<&'static str, u64>,
}

fn number(priced: &Priced) -> u64 {
    priced.as_ref().err().copied().unwrap_or(0)
}

impl Tally {
    /// What a large run has at least once, and this one has not.
    pub fn missing(&self) -> Vec<String> {
        let caught = FAULTS.iter().filter(|fault| !self.caught.contains_key(*fault)).map(|fault| format!("a pair that tells: {fault}"));
        let bonds = [0, 3, 4, 6, 9, 10, 12, 19].into_iter().filter(|number| !self.bonds.contains_key(number)).map(|number| format!("a bond's {number}"));
        let options = [11, 13].into_iter().filter(|number| !self.options.contains_key(number)).map(|number| format!("an option's {number}"));
        let sides = (self.above == 0 || self.below == 0).then(|| "bonds on both sides of their exact prices".to_string());
        caught.chain(bonds).chain(options).chain(sides).collect()
    }
}

impl fmt::Display for Tally {
    fn fmt(&self, f: &mut fmt::Formatter) -> fmt::Result {
        let words = |numbers: &BTreeMap<u64, u64>| numbers.iter().map(|(number, count)| format!("{number}: {count}")).collect::<Vec<_>>().join("  ");
        writeln!(f, "pairs of a rate tree and a spread tree, by refusal number (0: priced)")?;
        writeln!(f, "  {:<22}{}\n  {:<22}{}", "bonds", words(&self.bonds), "options", words(&self.options))?;
        writeln!(f, "bonds above and below their exact price {} {}; pairs with a tree of ones {}", self.above, self.below, self.ones)?;
        writeln!(f, "wrong rules, and the pairs on which they answer otherwise than the library")?;
        for fault in FAULTS {
            writeln!(f, "  {fault:<34}{}", self.caught.get(fault).unwrap_or(&0))?;
        }
        write!(f, "{} pairs: every answer equal; {} exact prices: every bound kept", self.pairs, self.exact)
    }
}

/// Prices against exact ones, and the bound against 2 a step.
fn exactly(p: &Pair, bond: (u64, u64), option: &Priced, tally: &mut Tally) {
    let exact = Exact::new(p);
    let bonds = exact.bonds();
    exact.near("bond of a pair", bond, &bonds[0][0]);
    let held = exact.held(bond.0, 0);
    tally.above += (held > bonds[0][0]) as u64;
    tally.below += (held < bonds[0][0]) as u64;
    if let Ok(option) = option {
        exact.near("option of a pair", *option, &exact.option(&bonds));
    }
    tally.exact += 1;
}

/// Beside a tree of ones, of any reversion, bond and option are the other tree's, refusals and bounds too; and more dates cost no less.
fn beside_ones(r: &mut Random, p: &Pair, tally: &mut Tally) {
    let steps = p.steps();
    if steps > MOST_STEPS {
        return;
    }
    let ones = Lent::ones(Tree { steps, reversion: inputs::reversion(r) });
    let single = (engine::bond(&p.rates.tree, &p.rates.discounts, &p.flows), engine::dated_option(&p.rates.tree, &p.rates.discounts, &p.flows, &p.option));
    for (rates, spreads) in [(&p.rates, &ones), (&ones, &p.rates)] {
        let both = Pair { rates: rates.clone(), spreads: spreads.clone(), ..p.clone() };
        assert_eq!((both.bond(), both.dated()), single, "a tree of ones: pair left, single tree right\n{both:?}");
    }
    tally.ones += 1;
}

fn more_dates(p: &Pair, option: &Priced) {
    if p.option.dates.len() > 1 {
        let mut fewer = p.clone();
        fewer.option.dates.remove(0);
        if let (Ok(few), Ok(many)) = (fewer.dated(), option) {
            assert!(few.0 <= many.0, "more rights cost less\n{p:?}");
        }
    }
}

pub fn check(r: &mut Random, own: u64, tally: &mut Tally) {
    let mut p = pair(r);
    for percent in [45, 30] {
        if r.chance(percent) {
            spoil(r, &mut p);
        }
    }
    let (bond, option) = (p.bond(), p.dated());
    assert_eq!(bond, Rule("").bond(&p), "bond of a pair: library left, rule right\n{p:?}");
    assert_eq!(option, Rule("").dated(&p), "option of a pair: library left, rule right\n{p:?}");
    *tally.bonds.entry(number(&bond)).or_default() += 1;
    *tally.options.entry(number(&option)).or_default() += 1;
    tally.pairs += 1;
    if let Ok(priced) = bond {
        let low = (0..p.steps()).all(|row| p.nodes(row).into_iter().all(|(j, k)| Rule("").combined(&p, row, j, k) <= ONE));
        assert!(!low || priced.1 <= 2 * p.steps() as u64, "more than 2 a step\n{p:?}");
        if p.steps() <= FEW_STEPS || own % LONGER_PAIRS == 0 {
            exactly(&p, priced, &option, tally);
        }
    }
    more_dates(&p, &option);
    beside_ones(r, &p, tally);
    if own % PAIRS_A_TRIAL == 0 {
        for fault in FAULTS {
            if Rule(fault).bond(&p) != bond || Rule(fault).dated(&p) != option {
                *tally.caught.entry(fault).or_default() += 1;
            }
        }
    }
}

/// Figures that were worked out by hand.
pub fn by_hand() {
    let flat = |steps: usize, reversion: u64, discount: u64| {
        let tree = Tree { steps, reversion };
        Lent { tree, discounts: vec![discount; tree.discounts_needed()] }
    };
    let call = DatedOption { side: CALL, strike: 0, dates: vec![0] };
    let both = |rates: Lent, spreads: Lent, flows: Vec<u64>| Pair { rates, spreads, flows, option: call.clone() };
    let one_step = |discount: u64| both(flat(1, 0, discount), flat(1, 6_000, discount), vec![ONE]).bond();
    assert_eq!(one_step(DISCOUNT_LIMIT), Ok((1_210_000_000, 2)), "1.1 twice");
    assert_eq!(one_step(30_000), Err(9), "0.00003 twice");
    assert_eq!(one_step(31_623), Ok((1, 2)), "the least product");
    for (rates, spreads, number) in [((21, 7_000), (21, 0), 19), ((61, 0), (61, 0), 3), ((20, 0), (19, 0), 19), ((20, 6_001), (20, 0), 4)] {
        let wrong = both(flat(rates.0, rates.1, ONE), flat(spreads.0, spreads.1, ONE), vec![ONE; rates.0]);
        assert_eq!((wrong.bond(), wrong.dated()), (Err(number), Err(number)), "{rates:?} {spreads:?}");
    }
}
