// Random inputs: curves and trees as a desk has them, and ones with something wrong.
use crate::rules::{spacing, Contract, Curve, DatedOption, FitInput, Tree, DISCOUNT_LIMIT, FLOW_LIMIT, ONE, STRIKE_LIMIT, VALUE_LIMIT};

pub struct Random(u64);

impl Random {
    pub fn new(seed: u64) -> Random {
        Random(seed)
    }

    pub fn bits(&mut self) -> u64 {
        self.0 = self.0.wrapping_add(0x9E37_79B9_7F4A_7C15);
        let mut x = self.0;
        x = (x ^ (x >> 30)).wrapping_mul(0xBF58_476D_1CE4_E5B9);
        x = (x ^ (x >> 27)).wrapping_mul(0x94D0_49BB_1331_11EB);
        x ^ (x >> 31)
    }

    /// From low to high, both within.
    pub fn within(&mut self, low: u64, high: u64) -> u64 {
        low + (self.bits() as u128 * (high - low + 1) as u128 >> 64) as u64
    }

    pub fn below(&mut self, limit: usize) -> usize {
        self.within(0, limit as u64 - 1) as usize
    }

    pub fn real(&mut self, low: f64, high: f64) -> f64 {
        low + (high - low) * (self.bits() >> 11) as f64 / (1u64 << 53) as f64
    }

    pub fn chance(&mut self, percent: u64) -> bool {
        self.within(1, 100) <= percent
    }

    pub fn pick<T: Copy>(&mut self, from: &[T]) -> T {
        from[self.below(from.len())]
    }
}

#[derive(Clone, Debug)]
pub struct Case {
    pub shape: &'static str,
    pub version: u64,
    pub fit: FitInput,
    pub lent: Vec<u64>,
    pub flows: Vec<u64>,
    pub contract: Contract,
    pub dated: DatedOption,
    /// Some of the dated option's rows, and never none of them where it has any.
    pub fewer: Vec<u8>,
    /// For a strip of the contract's kind, and for one of the dated option's list.
    pub strikes: Vec<u64>,
    pub row: usize,
    pub node: i64,
    pub row_kind: u64,
    pub payoffs: Vec<u64>,
    pub weighed: Vec<u64>,
}

pub fn steps(r: &mut Random) -> usize {
    match r.below(100) {
        0..=7 => 1,
        8..=54 => r.within(2, 12) as usize,
        55..=94 => r.within(13, 59) as usize,
        _ => 60,
    }
}

pub fn reversion(r: &mut Random) -> u64 {
    match r.below(6) {
        0 => 0,
        1 => r.within(1, 100),
        2 => r.within(100, 2_000),
        3 => r.within(2_000, 6_000),
        4 => r.pick(&[1, 83, 920, 1_000, 1_839, 1_840, 1_841, 5_999, 6_000]),
        _ => r.within(0, 40),
    }
}

/// A volatility that passes cause 8 in most cases.
fn volatility(r: &mut Random, frequency: u64, tree: &Tree) -> u64 {
    let width = tree.half_width(tree.steps - 1).max(1) as f64;
    let greatest = 50_000.0 * ONE as f64 / (width * spacing(frequency, 50_000) as f64);
    let share = match r.below(10) {
        0 => return r.within(0, 3),
        1 => return r.within(40_000, 50_000),
        2 => 1.0,
        3..=5 => 0.3,
        _ => 0.1,
    };
    (r.real(0.0, share * greatest) as u64).min(50_000)
}

const SHAPES: [&str; 7] = ["flat", "steep", "shallow negative", "deep negative", "walk", "wild", "edges"];

/// Discount factors of rows 1 to n.
fn factors(r: &mut Random, shape: &str, frequency: u64, n: usize) -> Vec<f64> {
    let f = frequency as f64;
    let (first, last) = match shape {
        "flat" => { let rate = r.real(0.0, 0.1); (rate, rate) }
        "steep" => (r.real(-0.01, 0.02), r.real(0.05, 0.2)),
        "shallow negative" => { let rate = r.real(-0.005, 0.0); (rate, rate + r.real(-0.001, 0.001)) }
        "deep negative" => { let rate = r.real(-0.08, -0.005); (rate, rate + r.real(-0.02, 0.02)) }
        _ => (0.0, 0.0),
    };
    let mut current = r.real(0.8, 1.05);
    let mut one = |t: usize| match shape {
        "walk" => { current = (current * r.real(0.93, 1.06)).clamp(0.11, 1.9); current }
        "wild" => r.real(0.1, 2.0),
        "edges" => r.pick(&[0.1, 2.0, 1.0, 0.5, 1.1, 1.1000000005, 1.100000001]),
        _ => {
            let rate = first + (last - first) * t as f64 / n as f64;
            f / (f + rate * t as f64).max(0.55 * f)
        }
    };
    (1..=n).map(|t| one(t)).collect()
}

fn curve(r: &mut Random, shape: &str, frequency: u64, n: usize) -> Curve {
    let quoting = r.pick(&[Some(5), Some(6), Some(9), None]);
    let coarse = r.chance(10);
    let mut made = Curve { rows: (1..=n as u64).collect(), kinds: Vec::new(), figures: Vec::new() };
    for (t, factor) in (1..).zip(factors(r, shape, frequency, n)) {
        let kind = quoting.unwrap_or_else(|| r.pick(&[5, 6, 9]));
        let figure = match kind {
            5 => factor,
            6 => (1.0 / factor - 1.0) * frequency as f64 / t as f64,
            _ => -factor.ln() * frequency as f64 / t as f64,
        };
        made.kinds.push(kind);
        made.figures.push(if coarse { (figure * 4_096.0).round() / 4_096.0 } else { figure });
    }
    made
}

/// Discounts of any range, or quarters of one, by which rolls often end in one half.
fn lent(r: &mut Random, needed: usize) -> Vec<u64> {
    let (grain, low, high) = match r.below(8) {
        0 => (1, ONE, ONE),
        1 => (1, 950_000_000, ONE),
        2 => (1, ONE, DISCOUNT_LIMIT),
        3 => (1, 1, 1_000),
        4 => (1, 1, DISCOUNT_LIMIT),
        5 => (1, DISCOUNT_LIMIT - 3, DISCOUNT_LIMIT),
        6 => (ONE / 4, 1, 4),
        _ => (1, 900_000_000, 1_050_000_000),
    };
    let extra = if r.chance(30) { r.below(9) } else { 0 };
    (0..needed + extra).map(|_| grain * r.within(low, high)).collect()
}

/// Level coupons and the principal, as a desk has them, or any flows.
fn flows(r: &mut Random, n: usize) -> Vec<u64> {
    if r.chance(25) {
        let mut made = vec![r.within(1, ONE / 10); n];
        made[n - 1] += ONE;
        return made;
    }
    let most = match r.below(6) {
        0 => 0,
        1 => FLOW_LIMIT,
        2 => (VALUE_LIMIT / n as u64).min(FLOW_LIMIT),
        _ => 5 * ONE / n as u64 / 2,
    };
    let mut made: Vec<u64> = (0..n).map(|_| r.within(0, most.min(FLOW_LIMIT))).collect();
    if r.chance(60) {
        made[n - 1] = (made[n - 1] + ONE).min(FLOW_LIMIT);
    }
    made
}

/// As many strikes as a strip takes or just not, some of them equal, some at their limit and, in one strip of two, some past it.
fn strikes(r: &mut Random, low: u64, high: u64) -> Vec<u64> {
    let count = match r.below(40) {
        0..=1 => 0,
        2..=3 => 17,
        4 => r.within(18, 300),
        5..=9 => 1,
        10..=14 => 2,
        15..=18 => 15,
        19..=23 => 16,
        _ => r.within(3, 14),
    };
    let (spoiled, mut made) = (r.chance(50), Vec::new());
    for _ in 0..count {
        let any = r.within(low, high);
        made.push(match r.below(12) {
            0 => r.pick(&[0, STRIKE_LIMIT]),
            1 => r.within(STRIKE_LIMIT / 2, STRIKE_LIMIT),
            2..=3 if !made.is_empty() => r.pick(&made),
            4..=5 if spoiled => r.pick(&[STRIKE_LIMIT + 1, any + (1 << 32), u64::MAX]),
            _ => any,
        });
    }
    made
}

/// Rows that rise and stay below n: any, every few, every one to some row, or one alone.
fn dates(r: &mut Random, n: usize) -> Vec<u8> {
    let some = r.below(n) as u8;
    let chance = r.within(5, 95);
    match r.below(5) {
        0 => vec![some],
        1 => (0..=some).collect(),
        2 => (some..n as u8).step_by(r.within(1, 6) as usize).collect(),
        _ => (0..n as u8).filter(|row| *row == some || r.chance(chance)).collect(),
    }
}

/// Dates that are empty, do not rise, reach row n, or are more than a tree has rows.
fn wrong_dates(r: &mut Random, n: usize, mut dates: Vec<u8>) -> Vec<u8> {
    let (reached, count) = (n.min(255) as u8, r.within(62, 5_000) as usize);
    match r.below(9) {
        0 => return Vec::new(),
        1 => dates.push(reached),
        2 => dates.push(255),
        3 => dates.extend(dates.last().copied()),
        4 => dates = (0..=reached).collect(),
        5 => dates = (0..=255).collect(),
        6 => dates = vec![r.below(60) as u8; count],
        7 => dates = (0..r.within(2, 300)).map(|_| r.bits() as u8).collect(),
        _ => {
            let place = r.below(dates.len() + 1);
            dates.insert(place, r.below(60) as u8);
        }
    }
    dates
}

fn some_of(r: &mut Random, dates: &[u8]) -> Vec<u8> {
    let kept = r.pick(&[10, 50, 90]);
    let some: Vec<u8> = dates.iter().copied().filter(|_| r.chance(kept)).collect();
    if some.is_empty() && !dates.is_empty() {
        return vec![r.pick(dates)];
    }
    some
}

fn payoffs(r: &mut Random, count: usize) -> Vec<u64> {
    let most = r.pick(&[0, 1, 1_000, ONE, 4 * ONE, VALUE_LIMIT]);
    if r.chance(15) {
        let only = r.below(count);
        return (0..count).map(|k| if k == only { most } else { 0 }).collect();
    }
    (0..count).map(|_| r.within(0, most)).collect()
}

/// A row of state prices to weigh, some with a sum at its limit.
fn weighed(r: &mut Random, count: usize) -> Vec<u64> {
    let share = 2_000_000_100 / count as u64;
    let most = r.pick(&[share, 2 * share, share / 2, 3]);
    let mut made: Vec<u64> = (0..count).map(|_| r.within(0, most)).collect();
    let rest: u64 = made[1..].iter().sum();
    if r.chance(30) && rest <= 2_000_000_100 {
        made[0] = 2_000_000_100 - rest + r.within(0, 1);
    }
    made
}

pub fn case(r: &mut Random) -> Case {
    let frequency = r.pick(&[1, 2, 4, 12]);
    let tree = Tree { steps: steps(r), reversion: reversion(r) };
    let mut made = in_order(r, frequency, tree);
    if r.chance(40) {
        for _ in 0..r.within(1, 3) {
            damage(r, &mut made);
        }
    }
    // Last, since damage to the dates may leave a good list of others.
    made.fewer = some_of(r, &made.dated.dates);
    made
}

/// A case of a tree with nothing wrong that its entries could see before they fit or roll.
pub fn in_order(r: &mut Random, frequency: u64, tree: Tree) -> Case {
    let shape = if r.chance(93) { r.pick(&SHAPES[..5]) } else { r.pick(&SHAPES[5..]) };
    let row = r.below(tree.steps + 1);
    let (needed, count) = (tree.discounts_needed(), tree.node_count(row));
    let fit = FitInput {
        frequency,
        tree,
        volatility: volatility(r, frequency, &tree),
        curve: curve(r, shape, frequency, tree.steps),
        discounts_length: needed + if r.chance(50) { 0 } else { r.below(40) },
        state_prices_length: tree.state_prices_needed() + if r.chance(50) { 0 } else { r.below(40) },
    };
    let strikes = r.pick(&[(0, 3 * ONE), (0, STRIKE_LIMIT), (0, 3 * ONE / 2), (9 * ONE / 10, 11 * ONE / 10), (0, 1)]);
    let contract = Contract { kind: r.within(1, 4), expiry: r.below(tree.steps), strike: r.within(strikes.0, strikes.1) };
    let dated = DatedOption { side: r.within(1, 2), strike: r.within(strikes.0, strikes.1), dates: dates(r, tree.steps) };
    let half = tree.half_width(row);
    let strip = self::strikes(r, strikes.0, strikes.1);
    Case {
        shape,
        version: r.within(1, 2),
        fit,
        lent: lent(r, needed),
        flows: flows(r, tree.steps),
        contract,
        dated,
        fewer: Vec::new(),
        strikes: strip,
        row,
        node: r.within(0, 2 * half as u64) as i64 - half,
        row_kind: r.within(1, 2),
        payoffs: payoffs(r, count),
        weighed: weighed(r, count),
    }
}

/// Makes a list longer, shorter, empty or two longer.
fn resize<T: Copy>(r: &mut Random, list: &mut Vec<T>, filler: T) {
    match r.below(4) {
        0 => list.push(filler),
        1 => list.clear(),
        2 => list.extend([filler, filler]),
        _ => { list.pop(); }
    }
}

fn strange_figure(r: &mut Random) -> f64 {
    match r.below(7) {
        0 => r.pick(&[f64::NAN, -f64::NAN, f64::INFINITY, f64::NEG_INFINITY, 1e300, -1e300]),
        1 => r.pick(&[10.0, -10.0, f64::from_bits(10f64.to_bits() + 1), -f64::from_bits(10f64.to_bits() + 1)]),
        2 => r.pick(&[0.0, -0.0, 5e-324, -5e-324, 1e-300, 4.9e-10, 5e-10, -5e-10]),
        3 => r.pick(&[0.1, 0.0999999995, 0.0999999994, 2.0, 2.0000000004, 2.0000000006, -1.0, -0.5, -0.25]),
        4 => f64::from_bits(r.bits()),
        5 => r.real(-10.5, 10.5),
        _ => r.within(0, 4_000_000_000) as f64 / 2_048_000_000.0,
    }
}

/// A yield whose y is about the limit, about where its discount leaves the range, or about 0.
fn strange_yield(r: &mut Random, frequency: u64, row: u64) -> f64 {
    let about = r.pick(&[4_000_000_000, -4_000_000_000, 2_302_585_093, -693_147_180, 0, 10_000_000_000, -10_000_000_000]);
    let y = about + r.within(0, 12) as i64 - 6;
    let figure = y as f64 * frequency as f64 / row.max(1) as f64;
    (figure.round() + r.pick(&[0.0, 0.0, 0.5, -0.5])) / ONE as f64
}

fn spoil_by_yield(r: &mut Random, frequency: u64, curve: &mut Curve) {
    let count = curve.rows.len().min(curve.kinds.len()).min(curve.figures.len());
    if count > 0 {
        let place = r.below(count);
        curve.kinds[place] = 9;
        curve.figures[place] = if r.chance(80) { strange_yield(r, frequency, curve.rows[place]) } else { strange_figure(r) };
    }
}

fn spoil<T>(r: &mut Random, list: &mut Vec<T>, made: T) {
    if !list.is_empty() {
        let place = r.below(list.len());
        list[place] = made;
    }
}

/// The damages to what a commit, and to what a price on a shelf takes.
pub const TO_A_COMMIT: [usize; 16] = [0, 3, 3, 4, 5, 6, 7, 8, 9, 10, 11, 23, 24, 30, 31, 32];
pub const TO_A_PRICE: [usize; 13] = [14, 14, 15, 16, 17, 18, 26, 27, 29, 30, 32, 36, 37];
const DAMAGES: usize = 38;

/// Numbers that are no version, some of which pass for one where they are cut.
pub const UNKNOWN_VERSIONS: [u64; 9] = [0, 3, 4, 1 + (1 << 8), 2 + (1 << 8), 1 + (1 << 32), 2 + (1 << 32), 2 + (1 << 63), u64::MAX];

fn damage(r: &mut Random, case: &mut Case) {
    let which = r.below(DAMAGES);
    damage_by(r, case, which);
}

pub fn damage_by(r: &mut Random, case: &mut Case, which: usize) {
    let (huge, n) = (u64::MAX, case.fit.tree.steps);
    match which {
        0 => case.fit.frequency = r.pick(&[0, 3, 5, 6, 11, 13, 255, huge, 1 << 32]),
        1 => case.fit.tree.steps = r.pick(&[0, 61, 62, 255, 1 << 32, usize::MAX]),
        2 => case.fit.tree.reversion = r.pick(&[6_001, 65_535, 1 << 32, huge]),
        3 => case.fit.volatility = r.pick(&[50_001, 1 << 32, huge]),
        4 => resize(r, &mut case.fit.curve.rows, n as u64 + 1),
        5 => resize(r, &mut case.fit.curve.kinds, 5),
        6 => resize(r, &mut case.fit.curve.figures, 0.5),
        7 => { let row = r.pick(&[0, 1, 2, 60, 61, huge]); spoil(r, &mut case.fit.curve.rows, row) }
        8 => { let kind = r.pick(&[0, 4, 5, 6, 7, 8, 9, 10, 255]); spoil(r, &mut case.fit.curve.kinds, kind) }
        9..=11 => { let figure = strange_figure(r); spoil(r, &mut case.fit.curve.figures, figure) }
        12 => case.fit.discounts_length = case.fit.discounts_length.saturating_sub(r.within(1, 50) as usize),
        13 => case.fit.state_prices_length = case.fit.state_prices_length.saturating_sub(r.within(1, 50) as usize),
        14 => resize(r, &mut case.flows, ONE),
        15 => { let flow = r.pick(&[FLOW_LIMIT, FLOW_LIMIT + 1, 1 << 32, huge]); spoil(r, &mut case.flows, flow) }
        16 => case.contract.kind = r.pick(&[0, 5, 256, 257, huge]),
        17 => case.contract.expiry = r.pick(&[n, n, n.wrapping_add(1), 61, 1 << 32, usize::MAX]),
        18 => case.contract.strike = r.pick(&[STRIKE_LIMIT, STRIKE_LIMIT + 1, huge]),
        19 => { let discount = r.pick(&[0, DISCOUNT_LIMIT + 1, ONE + 1, huge]); spoil(r, &mut case.lent, discount) }
        20 => resize(r, &mut case.lent, ONE),
        21 => case.row = r.pick(&[n.wrapping_add(1), n, 60, 61, usize::MAX]),
        22 => spoil_weighing(r, case),
        23..=25 => spoil_by_yield(r, case.fit.frequency, &mut case.fit.curve),
        26..=28 => case.dated.dates = wrong_dates(r, n, std::mem::take(&mut case.dated.dates)),
        29 => spoil_dated(r, &mut case.dated),
        30..=31 => { let (which, bits) = (r.below(NUMBERS), r.pick(&WIDTHS)); widen(case, which, bits) }
        32 => { let which = r.below(COUNTS); lengthen(case, which, 8) }
        33..=34 => case.version = r.pick(&UNKNOWN_VERSIONS),
        36 => { let count = r.pick(&[0, 16, 17, 272]); case.strikes.resize(count, ONE) }
        37 => { let strike = r.pick(&[STRIKE_LIMIT, STRIKE_LIMIT + 1, huge]); spoil(r, &mut case.strikes, strike) }
        _ => strange_view(r, case),
    }
}

/// The widths to which a number could be cut in silence.
const WIDTHS: [u32; 3] = [8, 16, 32];
const LONE_NUMBERS: usize = 14;
const NUMBERS: usize = LONE_NUMBERS + 6 * 3;

/// Adds to one number of a case what it would lose if it were cut to so many bits. Of a list the first, the middle or the last is changed.
fn widen(case: &mut Case, which: usize, bits: u32) {
    let (more, size) = (1u64 << bits, 1usize << bits);
    let add = |number: &mut u64| *number = number.wrapping_add(more);
    let add_size = |number: &mut usize| *number = number.wrapping_add(size);
    match which {
        0 => add(&mut case.fit.frequency),
        1 => add_size(&mut case.fit.tree.steps),
        2 => add(&mut case.fit.tree.reversion),
        3 => add(&mut case.fit.volatility),
        4 => add(&mut case.contract.kind),
        5 => add_size(&mut case.contract.expiry),
        6 => add(&mut case.contract.strike),
        7 => add(&mut case.dated.side),
        8 => add(&mut case.dated.strike),
        9 => add_size(&mut case.row),
        10 => case.node = case.node.wrapping_add(more as i64),
        11 => case.node = case.node.wrapping_sub(more as i64),
        12 => add(&mut case.row_kind),
        13 => add(&mut case.version),
        _ => {
            let lists =
                [&mut case.fit.curve.rows, &mut case.flows, &mut case.lent, &mut case.payoffs, &mut case.weighed, &mut case.strikes];
            let (list, part) = ((which - LONE_NUMBERS) / 3, (which - LONE_NUMBERS) % 3);
            let length = lists[list].len();
            if length > 0 {
                add(&mut lists[list][part * (length - 1) / 2]);
            }
        }
    }
}

/// The widths to which a count could be cut: more memory than these take no test has.
const COUNT_WIDTHS: [u32; 2] = [8, 16];
const COUNTS: usize = 11;

/// Makes one list or memory of a case longer by what its count would lose if it were cut to so many bits; where more than needed may be lent, to a
/// count that would be 0.
fn lengthen(case: &mut Case, which: usize, bits: u32) {
    let more = 1usize << bits;
    fn longer<T: Copy>(list: &mut Vec<T>, more: usize, filler: T) {
        list.resize(list.len() + more, filler);
    }
    match which {
        0 => longer(&mut case.fit.curve.rows, more, 0),
        1 => longer(&mut case.fit.curve.kinds, more, 5),
        2 => longer(&mut case.fit.curve.figures, more, 0.5),
        3 => longer(&mut case.flows, more, 0),
        4 => longer(&mut case.dated.dates, more, 0),
        5 => longer(&mut case.payoffs, more, 0),
        6 => longer(&mut case.weighed, more, 0),
        10 => longer(&mut case.strikes, more, ONE),
        7 => case.lent.resize(case.lent.len().next_multiple_of(more), 0),
        8 => case.fit.discounts_length = case.fit.discounts_length.next_multiple_of(more),
        _ => case.fit.state_prices_length = case.fit.state_prices_length.next_multiple_of(more),
    }
}

/// A case in good order, small enough that each of its numbers counts in some answer.
pub fn steady() -> Case {
    let tree = Tree { steps: 3, reversion: 800 };
    let factors = [0.98, 0.03, 0.02];
    Case {
        shape: "widths",
        version: 2,
        fit: FitInput {
            frequency: 2,
            tree,
            volatility: 10_000,
            curve: Curve { rows: vec![1, 2, 3], kinds: vec![5, 6, 9], figures: factors.to_vec() },
            discounts_length: tree.discounts_needed(),
            state_prices_length: tree.state_prices_needed(),
        },
        lent: vec![ONE; tree.discounts_needed()],
        flows: vec![ONE / 25, ONE / 25, ONE],
        contract: Contract { kind: 2, expiry: 2, strike: 2 * ONE },
        dated: DatedOption { side: 2, strike: 2 * ONE, dates: vec![1, 2] },
        fewer: vec![2],
        strikes: vec![2 * ONE, ONE, 2 * ONE],
        row: 3,
        node: 1,
        row_kind: 2,
        payoffs: vec![ONE; tree.node_count(3)],
        weighed: vec![ONE / 8; tree.node_count(3)],
    }
}

/// The steady case, then each number of it made wider by each width, then each count.
pub fn widths() -> Vec<Case> {
    let changed = |change: fn(&mut Case, usize, u32), which: usize, bits: u32| {
        let mut case = steady();
        change(&mut case, which, bits);
        case
    };
    let widened = (0..NUMBERS).flat_map(|which| WIDTHS.map(|bits| changed(widen, which, bits)));
    let longer = (0..COUNTS).flat_map(|which| COUNT_WIDTHS.map(|bits| changed(lengthen, which, bits)));
    std::iter::once(steady()).chain(widened).chain(longer).collect()
}

fn spoil_dated(r: &mut Random, dated: &mut DatedOption) {
    match r.below(2) {
        0 => dated.side = r.pick(&[0, 3, 4, 255, 256, 257, 1 << 32, u64::MAX]),
        _ => dated.strike = r.pick(&[STRIKE_LIMIT, STRIKE_LIMIT + 1, u64::MAX]),
    }
}

fn spoil_weighing(r: &mut Random, case: &mut Case) {
    match r.below(4) {
        0 => resize(r, &mut case.payoffs, ONE),
        1 => { let payoff = r.pick(&[VALUE_LIMIT, VALUE_LIMIT + 1, u64::MAX]); spoil(r, &mut case.payoffs, payoff) }
        2 => { let price = r.pick(&[2_000_000_100, 2_000_000_101, u64::MAX]); spoil(r, &mut case.weighed, price) }
        _ => {
            let length = r.pick(&[121, 122, 123, 0]);
            case.payoffs = vec![r.within(0, VALUE_LIMIT); length];
            case.weighed = vec![r.within(0, 16_528_926); length];
        }
    }
}

fn strange_view(r: &mut Random, case: &mut Case) {
    match r.below(2) {
        0 => case.row_kind = r.pick(&[0, 3, 256, u64::MAX]),
        _ => case.node = r.pick(&[case.node + 61, -61, 121, i64::MIN, i64::MAX]),
    }
}
