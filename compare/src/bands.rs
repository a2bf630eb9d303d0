// Haircut bands: the library against the rule of document 02, request (xi), on tables cut from a partition of all rows and prices and then spoiled by
// one edit, some by two. The rule walks every row and, of its prices, those at which the bands of a pair can change. So that a difference would be seen, wrong rules
// stand beside it, each with one thing that is easily got wrong: a large run has a table on which each of them answers otherwise. A difference panics.
use crate::engine;
use crate::inputs::Random;
use std::collections::{BTreeMap, BTreeSet};
use std::fmt;

const ROWS: u64 = 60;
const TOP: u64 = 8_000_000_000;
const ALL: u64 = 10_000;
const MOST: usize = 40;

/// First and last row, lowest and highest price, haircut.
type Band = [u64; 5];
type Lists = [Vec<u64>; 5];
/// Number, row, price, place.
type Verdict = [u64; 4];

/// What a wrong rule gets wrong.
const FAULTS: [&str; 15] = [
    "a band without its highest price", "a band without its last row", "rows to 59", "prices below 8 x one", "first row 0 allowed", "last row 61 allowed",
    "price above 8 x one allowed", "haircut above 10,000 allowed", "places from 0", "bad bands behind the 40th as 41", "41 bands allowed",
    "pairs before bad bands", "17 before 18", "by price and then row", "worth up",
];
/// Tables of which the wrong rules are tried on one.
const TABLES_A_TRIAL: u64 = 4;

fn columns(bands: &[Band]) -> Lists {
    std::array::from_fn(|field| bands.iter().map(|band| band[field]).collect())
}

fn bands_of(lists: &Lists) -> Vec<Band> {
    (0..lists[0].len()).map(|k| std::array::from_fn(|field| lists[field][k])).collect()
}

/// The rule, or a wrong one by its name.
#[derive(Clone, Copy)]
struct Rule(&'static str);

impl Rule {
    fn is(self, fault: &str) -> bool {
        self.0 == fault
    }

    fn good(self, [first, last, lowest, highest, haircut]: Band) -> bool {
        let rows = (if self.is("first row 0 allowed") { 0 } else { 1 })..=(if self.is("last row 61 allowed") { ROWS + 1 } else { ROWS });
        let prices = 0..=(if self.is("price above 8 x one allowed") { u64::MAX } else { TOP });
        let haircuts = 0..=(if self.is("haircut above 10,000 allowed") { u64::MAX } else { ALL });
        let in_range = rows.contains(&first) && rows.contains(&last) && prices.contains(&lowest) && prices.contains(&highest);
        in_range && first <= last && lowest <= highest && haircuts.contains(&haircut)
    }

    fn holds(self, [first, last, lowest, highest, _]: Band, row: u64, price: u64) -> bool {
        let last = last - self.is("a band without its last row") as u64;
        let in_price = if self.is("a band without its highest price") { price < highest } else { price <= highest };
        first <= row && row <= last && lowest <= price && in_price
    }

    /// The place of the first bad band, or one that says that there are too many; 0 where nothing is wrong.
    fn bad_place(self, bands: &[Band]) -> u64 {
        let most = MOST + self.is("41 bands allowed") as usize;
        let too_many = if bands.len() > most { MOST as u64 + 1 } else { 0 };
        let place = |k: usize| k as u64 + !self.is("places from 0") as u64;
        match bands.iter().position(|band| !self.good(*band)) {
            Some(k) if k >= MOST && self.is("bad bands behind the 40th as 41") => too_many,
            Some(k) => place(k),
            None => too_many,
        }
    }

    /// The first pair that is not in precisely one band, with its number.
    fn failing(self, bands: &[Band]) -> Option<Verdict> {
        let mut points: BTreeSet<u64> = bands.iter().flat_map(|band| [band[2], band[3].saturating_add(1)]).collect();
        points.insert(0);
        let (last, top) = (ROWS - self.is("rows to 59") as u64, TOP - self.is("prices below 8 x one") as u64);
        let prices: Vec<u64> = points.into_iter().filter(|price| *price <= top).collect();
        let mut pairs: Vec<(u64, u64)> = (1..=last).flat_map(|row| prices.iter().map(move |price| (row, *price))).collect();
        if self.is("by price and then row") {
            pairs.sort_by_key(|(row, price)| (*price, *row));
        }
        let number = |(row, price)| match bands.iter().filter(|band| self.holds(**band, row, price)).count() {
            0 => 17,
            1 => 0,
            _ => 18,
        };
        let first = |wanted: &[u64]| {
            let found = pairs.iter().map(|pair| (number(*pair), *pair)).find(|(number, _)| wanted.contains(number));
            found.map(|(number, (row, price))| [number, row, price, 0])
        };
        if self.is("17 before 18") { first(&[17]).or_else(|| first(&[18])) } else { first(&[17, 18]) }
    }

    fn verdict(self, lists: &Lists) -> Verdict {
        if lists.iter().any(|list| list.len() != lists[0].len()) {
            return [6, 0, 0, 0];
        }
        let bands = bands_of(lists);
        let bad = match self.bad_place(&bands) {
            0 => None,
            place => Some([16, 0, 0, place]),
        };
        let found = if self.is("pairs before bad bands") { self.failing(&bands).or(bad) } else { bad.or_else(|| self.failing(&bands)) };
        found.unwrap_or_default()
    }

    fn worth(self, lists: &Lists, row: u64, price: u64) -> (u64, Verdict) {
        if row < 1 || row > ROWS || lists.iter().any(|list| list.len() != lists[0].len()) {
            return (0, [6, 0, 0, 0]);
        }
        if price > TOP {
            return (0, [12, 0, 0, 0]);
        }
        let verdict = self.verdict(lists);
        if verdict[0] != 0 {
            return (0, verdict);
        }
        let band = bands_of(lists).into_iter().find(|band| self.holds(*band, row, price));
        let kept = price as u128 * (ALL - band.map_or(0, |band| band[4].min(ALL))) as u128;
        ((if self.is("worth up") { kept.div_ceil(ALL as u128) } else { kept / ALL as u128 }) as u64, verdict)
    }
}

// Tables

/// A partition of a rectangle into at most so many bands.
fn cut(r: &mut Random, pieces: usize, [first, last, lowest, highest, _]: Band) -> Vec<Band> {
    if pieces == 1 || first == last && lowest == highest {
        return vec![[first, last, lowest, highest, r.within(0, ALL)]];
    }
    let left = r.within(1, pieces as u64 - 1) as usize;
    let (below, above) = if first < last && (lowest == highest || r.chance(40)) {
        let end = r.within(first, last - 1);
        ([first, end, lowest, highest, 0], [end + 1, last, lowest, highest, 0])
    } else {
        let end = if r.chance(50) { r.within(lowest, highest - 1) } else { lowest + r.within(0, (highest - lowest - 1).min(9)) };
        ([first, last, lowest, end, 0], [first, last, end + 1, highest, 0])
    };
    [cut(r, left, below), cut(r, pieces - left, above)].concat()
}

fn shuffled(r: &mut Random, mut bands: Vec<Band>) -> Vec<Band> {
    for k in (1..bands.len()).rev() {
        bands.swap(k, r.below(k + 1));
    }
    bands
}

fn pieces(r: &mut Random) -> usize {
    match r.below(20) {
        0..=5 => r.within(1, 3) as usize,
        6..=16 => r.within(4, 14) as usize,
        17 => r.within(15, 39) as usize,
        _ => r.within(39, 46) as usize,
    }
}

/// A number that a field does not allow, or nearly not.
fn strange(r: &mut Random, field: usize, old: u64) -> u64 {
    let past = [[0, ROWS + 1], [0, ROWS + 1], [TOP, TOP + 1], [TOP + 1, TOP - 1], [ALL, ALL + 1]][field];
    r.pick(&[past[0], past[1], past[1], old + (1 << 8), old + (1 << 16), old + (1 << 32), u64::MAX])
}

/// One edit, by its name: a number moved by a little or made strange, a band lost, one twice, one more, or two ends exchanged.
fn spoil(r: &mut Random, bands: &mut Vec<Band>) -> &'static str {
    let late = bands.len() > MOST && r.chance(50);
    let k = if late { r.within(MOST as u64, bands.len() as u64 - 1) as usize } else { r.below(bands.len()) };
    let field = r.below(5);
    let old = bands[k][field];
    match r.below(8) {
        0 => {
            bands.remove(k);
            "band lost"
        }
        1 => {
            let at = r.below(bands.len() + 1);
            bands.insert(at, bands[k]);
            "band twice"
        }
        2 => {
            let row = r.within(1, ROWS);
            let at = r.below(bands.len() + 1);
            bands.insert(at, [row, row, r.within(0, TOP), TOP, 0]);
            "band more"
        }
        3 => {
            bands[k].swap(2 * (field % 2), 2 * (field % 2) + 1);
            "ends exchanged"
        }
        4 => {
            bands[k][field] = strange(r, field, old);
            "strange number"
        }
        _ => {
            let by = r.pick(&[1, 1, 2, 5]);
            bands[k][field] = if r.chance(50) { old + by } else { old.saturating_sub(by) };
            "number moved"
        }
    }
}

fn table(r: &mut Random) -> (&'static str, Lists) {
    let pieces = pieces(r);
    let made = cut(r, pieces, [1, ROWS, 0, TOP, 0]);
    let mut bands = shuffled(r, made);
    let mut edit = if r.chance(20) { "as it was cut" } else { spoil(r, &mut bands) };
    if r.chance(15) && !bands.is_empty() {
        spoil(r, &mut bands);
        edit = "two edits";
    }
    let mut lists = columns(&bands);
    if r.chance(3) {
        let (list, count) = (r.below(5), r.pick(&[1, 1 << 8]));
        let longer = lists[list].len() + count;
        lists[list].resize(longer, 0);
        return ("one list longer", lists);
    }
    (edit, lists)
}

/// A pair at an edge of a band or anywhere, at the limits, or past one of them.
fn pair(r: &mut Random, lists: &Lists) -> (u64, u64) {
    let edge = |r: &mut Random, list: &Vec<u64>| if list.is_empty() { 1 } else { r.pick(list).wrapping_add(r.pick(&[0, 0, 1, u64::MAX])) };
    match r.below(6) {
        0 => (r.pick(&[0, 61, 1 + (1 << 8), 60 + (1 << 32), u64::MAX]), r.within(0, TOP + 1)),
        1 => (r.within(1, ROWS), r.pick(&[TOP, TOP + 1, TOP + (1 << 32), u64::MAX])),
        2 => (r.within(1, ROWS), r.within(0, TOP)),
        _ => {
            let (rows, prices) = (r.pick(&[0, 1]), r.pick(&[2, 3]));
            (edge(r, &lists[rows]), edge(r, &lists[prices]))
        }
    }
}

// What is compared

#[derive(Default)]
pub struct Tally {
    tables: u64,
    edits: BTreeMap<&'static str, BTreeMap<u64, u64>>,
    worths: BTreeMap<u64, u64>,
    caught: BTreeMap<&'static str, u64>,
}

impl Tally {
    /// What a large run has at least once, and this one has not.
    pub fn missing(&self) -> Vec<String> {
        let caught = FAULTS.iter().filter(|fault| !self.caught.contains_key(*fault)).map(|fault| format!("a table that tells: {fault}"));
        let numbers = [0, 6, 16, 17, 18].into_iter().filter(|number| !self.edits.values().any(|seen| seen.contains_key(number)));
        caught.chain(numbers.map(|number| format!("a verdict of {number}"))).collect()
    }
}

impl fmt::Display for Tally {
    fn fmt(&self, f: &mut fmt::Formatter) -> fmt::Result {
        let words = |numbers: &BTreeMap<u64, u64>| numbers.iter().map(|(number, count)| format!("{number}: {count}")).collect::<Vec<_>>().join("  ");
        writeln!(f, "tables of haircut bands, by their edit and verdict (0: accepted)")?;
        for (edit, numbers) in &self.edits {
            writeln!(f, "  {edit:<22}{}", words(numbers))?;
        }
        writeln!(f, "lending worths\n  {:<22}{}", "by refusal number", words(&self.worths))?;
        writeln!(f, "wrong rules, and the tables on which they answer otherwise than the library")?;
        for fault in FAULTS {
            writeln!(f, "  {fault:<34}{}", self.caught.get(fault).unwrap_or(&0))?;
        }
        write!(f, "{} tables: every verdict and every worth equal", self.tables)
    }
}

pub fn check(r: &mut Random, own: u64, tally: &mut Tally) {
    let (edit, lists) = table(r);
    let verdict = engine::check_bands(&lists);
    assert_eq!(verdict, Rule("").verdict(&lists), "{edit}: library left, rule right\n{lists:?}");
    let pairs: Vec<(u64, u64)> = (0..4).map(|_| pair(r, &lists)).collect();
    let worths: Vec<(u64, Verdict)> = pairs.iter().map(|(row, price)| engine::lending_worth(&lists, *row, *price)).collect();
    for ((row, price), worth) in pairs.iter().zip(&worths) {
        assert_eq!(*worth, Rule("").worth(&lists, *row, *price), "{edit}: worth of {row} {price}, library left, rule right\n{lists:?}");
        assert!(worth.0 <= *price, "a worth above its price");
        *tally.worths.entry(worth.1[0]).or_default() += 1;
    }
    tally.tables += 1;
    *tally.edits.entry(edit).or_default().entry(verdict[0]).or_default() += 1;
    if own % TABLES_A_TRIAL == 0 {
        for fault in FAULTS {
            let wrong = Rule(fault);
            let told = |((row, price), worth): (&(u64, u64), &(u64, Verdict))| wrong.worth(&lists, *row, *price) != *worth;
            if wrong.verdict(&lists) != verdict || pairs.iter().zip(&worths).any(told) {
                *tally.caught.entry(fault).or_default() += 1;
            }
        }
    }
}

/// Tables that were worked out by hand.
pub fn by_hand() {
    let whole = [1, ROWS, 0, TOP, 250];
    let says = |bands: &[Band], wanted: Verdict| assert_eq!(engine::check_bands(&columns(bands)), wanted, "{bands:?}");
    says(&[], [17, 1, 0, 0]);
    says(&[whole], [0; 4]);
    says(&[[1, 60, 0, 99, 0], [1, 60, 100, TOP, 0]], [0; 4]);
    says(&[[1, 60, 0, 100, 0], [1, 60, 100, TOP, 0]], [18, 1, 100, 0]);
    says(&[[1, 1, 0, TOP, 0], [1, 1, 7, 7, 0], [3, 60, 0, TOP, 0]], [18, 1, 7, 0]);
    says(&[[1, 60, 5, 4, 0], [0, 60, 0, TOP, 0]], [16, 0, 0, 1]);
    let rows = |count: u64| (1..=count).map(|row| [row, if row == count { ROWS } else { row }, 0, TOP, 0]).collect::<Vec<Band>>();
    says(&rows(40), [0; 4]);
    says(&rows(41), [16, 0, 0, 41]);
    says(&[rows(41), vec![[1, 61, 0, TOP, 0]]].concat(), [16, 0, 0, 42]);
    assert_eq!(engine::lending_worth(&columns(&[whole]), 60, 1_000_000_001), (975_000_000, [0; 4]));
    assert_eq!(engine::lending_worth(&columns(&[whole]), 61, TOP + 1), (0, [6, 0, 0, 0]));
    assert_eq!(engine::lending_worth(&columns(&[]), 60, TOP + 1), (0, [12, 0, 0, 0]));
}
