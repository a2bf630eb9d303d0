// The rules of document 01, as the requests of document 02 changed them, in 128-bit numbers, written from the documents. Amounts are billionths.

pub const ONE: u64 = 1_000_000_000;
pub const MOST_STEPS: usize = 60;
pub const MOST_REVERSION: u64 = 6_000;
pub const WHOLE: u64 = 600_000_000;
pub const DISCOUNT_LIMIT: u64 = 1_100_000_000;
pub const VALUE_LIMIT: u64 = 8 * ONE;
pub const FLOW_LIMIT: u64 = 2 * ONE;
pub const STRIKE_LIMIT: u64 = 4 * ONE;
pub const MOST_STRIKES: usize = 16;
pub const STATE_PRICES_LIMIT: u128 = 2_000_000_100;
pub const QUOTE_RANGE: std::ops::RangeInclusive<u64> = 100_000_000..=2_000_000_000;
const FOURFOLD_LIMIT: i128 = 4 * ONE as i128;

pub type Outcome<T> = Result<T, u64>;

/// The lowest number whose cause applies. Where 13 and 12 both do, 13 is tried in an earlier call.
pub fn lowest(causes: &[(u64, bool)]) -> Outcome<()> {
    match causes.iter().filter(|c| c.1).map(|c| c.0).min() {
        Some(number) => Err(number),
        None => Ok(()),
    }
}

pub fn up(numerator: u128, denominator: u128) -> u128 {
    numerator / denominator + (numerator % denominator > 0) as u128
}

/// Halves up.
pub fn nearest(numerator: u128, denominator: u128) -> u128 {
    (2 * numerator + denominator) / (2 * denominator)
}

// The tree

#[derive(Clone, Copy, Debug)]
pub struct Tree {
    pub steps: usize,
    pub reversion: u64,
}

/// What a fitted tree carries: its price error bound, and the greatest discount of each row, 0 for rows that it has not.
#[derive(Clone, Copy, Debug, PartialEq)]
pub struct Carried {
    pub bound: u64,
    pub greatest: [u64; MOST_STEPS],
}

impl Carried {
    /// By the greatest discounts of the rows that a tree has.
    pub fn of(bound: u64, rows: &[u64]) -> Carried {
        Carried { bound, greatest: std::array::from_fn(|row| rows.get(row).copied().unwrap_or(0)) }
    }
}

impl Default for Carried {
    fn default() -> Carried {
        Carried::of(0, &[])
    }
}

pub fn steps_wrong(steps: usize) -> bool {
    steps < 1 || steps > MOST_STEPS
}

pub fn reversion_wrong(reversion: u64) -> bool {
    reversion > MOST_REVERSION
}

impl Tree {
    pub fn accepted(&self) -> bool {
        !steps_wrong(self.steps) && !reversion_wrong(self.reversion)
    }

    fn highest(&self) -> Option<i64> {
        match self.reversion {
            0 => None,
            b => Some(1_840 / b as i64 + 1),
        }
    }

    pub fn half_width(&self, row: usize) -> i64 {
        self.highest().map_or(row as i64, |top| top.min(row as i64))
    }

    pub fn node_count(&self, row: usize) -> usize {
        2 * self.half_width(row) as usize + 1
    }

    pub fn start(&self, row: usize) -> usize {
        (0..row).map(|i| self.node_count(i)).sum()
    }

    pub fn discounts_needed(&self) -> usize {
        self.start(self.steps)
    }

    pub fn state_prices_needed(&self) -> usize {
        self.start(self.steps + 1)
    }

    /// Target node and probability: up, middle, down.
    pub fn branches(&self, node: i64) -> [(i64, u64); 3] {
        let z = node * self.reversion as i64;
        let square = 3 * z * z;
        let (j, hundred) = (node, 100_000_000i64);
        let signed = if Some(j) == self.highest() {
            [(j, 7 * hundred + square - 90_000 * z), (j - 1, -2 * hundred - 2 * square + 120_000 * z), (j - 2, hundred + square - 30_000 * z)]
        } else if Some(-j) == self.highest() {
            [(j + 2, hundred + square + 30_000 * z), (j + 1, -2 * hundred - 2 * square - 120_000 * z), (j, 7 * hundred + square + 90_000 * z)]
        } else {
            [(j + 1, hundred + square - 30_000 * z), (j, 4 * hundred - 2 * square), (j - 1, hundred + square + 30_000 * z)]
        };
        let probabilities = signed.map(|(target, p)| (target, u64::try_from(p).expect("a probability below 0")));
        assert_eq!(probabilities.iter().map(|b| b.1).sum::<u64>(), WHOLE);
        probabilities
    }

    /// The discounts of a row as a part of a memory.
    pub fn row<'a>(&self, memory: &'a [u64], row: usize) -> &'a [u64] {
        &memory[self.start(row)..self.start(row + 1)]
    }

    pub fn greatest(&self, discounts: &[u64], row: usize) -> u128 {
        self.row(discounts, row).iter().copied().max().unwrap() as u128
    }

    pub fn discounts_wrong(&self, discounts: &[u64]) -> bool {
        let needed = &discounts[..self.discounts_needed()];
        needed.iter().any(|v| *v < 1 || *v > DISCOUNT_LIMIT)
    }
}

// Quotes

/// The float's value times one, nearest: magnitude and sign. NaN, infinity and figures beyond ten give 7.
pub fn figure(x: f64) -> Outcome<i128> {
    let bits = x.to_bits();
    let exponent = (bits >> 52) & 0x7FF;
    let fraction = (bits & ((1 << 52) - 1)) as u128;
    if exponent == 0x7FF || exponent >= 1_075 {
        return Err(7);
    }
    let significand = if exponent == 0 { fraction } else { fraction + (1 << 52) };
    let shift = if exponent == 0 { 1_074 } else { 1_075 - exponent };
    if shift > 100 {
        return Ok(0);
    }
    if significand > 10u128 << shift {
        return Err(7);
    }
    let size = nearest(significand * ONE as u128, 1 << shift) as i128;
    Ok(if bits >> 63 == 1 { -size } else { size })
}

pub fn volatility_wrong(volatility: u64) -> bool {
    volatility > 50_000
}

pub fn frequency_wrong(frequency: u64) -> bool {
    ![1, 2, 4, 12].contains(&frequency)
}

pub fn quote(frequency: u64, row: u64, kind: u8, x: f64) -> Outcome<u64> {
    let figure = figure(x)?;
    let (one, frequency) = (ONE as i128, frequency as i128);
    let discount = match kind {
        5 => figure,
        6 => {
            let divisor = frequency * one + row as i128 * figure;
            lowest(&[(7, divisor <= 0)])?;
            one * one * frequency / divisor
        }
        9 => continuous(amount(frequency, row, figure)?) as i128,
        _ => return Err(7),
    };
    let discount = u64::try_from(discount).unwrap_or(0);
    lowest(&[(7, !QUOTE_RANGE.contains(&discount))])?;
    Ok(discount)
}

/// y of a yearly yield. Down of a negative one is away from zero.
fn amount(frequency: i128, row: u64, figure: i128) -> Outcome<i64> {
    let y = (figure * row as i128).div_euclid(frequency);
    lowest(&[(7, y < -FOURFOLD_LIMIT || y > FOURFOLD_LIMIT)])?;
    Ok(y as i64)
}

/// y of a quote of kind 9.
pub fn yield_amount(frequency: u64, row: u64, x: f64) -> Outcome<i64> {
    amount(frequency as i128, row, figure(x)?)
}

pub fn lone_quote(frequency: u64, row: u64, kind: u8, x: f64) -> Outcome<u64> {
    lowest(&[(2, frequency_wrong(frequency)), (6, row < 1 || row > 60)])?;
    quote(frequency, row, kind, x)
}

#[derive(Clone, Debug)]
pub struct Curve {
    pub rows: Vec<u64>,
    pub kinds: Vec<u8>,
    pub figures: Vec<f64>,
}

impl Curve {
    fn places_wrong(&self, steps: usize) -> bool {
        let lengths = [self.rows.len(), self.kinds.len(), self.figures.len()];
        lengths.iter().any(|l| *l != steps) || self.rows.iter().zip(1..).any(|(row, place)| *row != place)
    }

    fn quotes(&self, frequency: u64) -> Outcome<Vec<u64>> {
        (0..self.rows.len()).map(|i| quote(frequency, self.rows[i], self.kinds[i], self.figures[i])).collect()
    }
}

pub fn convert(frequency: u64, steps: usize, curve: &Curve, memory: usize) -> Outcome<Vec<u64>> {
    lowest(&[(2, frequency_wrong(frequency)), (3, steps_wrong(steps)), (6, curve.places_wrong(steps) || memory < steps)])?;
    curve.quotes(frequency)
}

// Spacing and fit

/// The greatest h with h² × f³ at most so much.
fn spacing_below(frequency: u64, most: u128) -> u64 {
    let cube = (frequency as u128).pow(3);
    let (mut low, mut high) = (0u128, 1u128 << 40);
    while high - low > 1 {
        let middle = (low + high) / 2;
        if middle * middle * cube <= most {
            low = middle;
        } else {
            high = middle;
        }
    }
    low as u64
}

fn tripled_square(volatility: u64) -> u128 {
    3 * (1_000 * volatility as u128).pow(2)
}

pub fn spacing(frequency: u64, volatility: u64) -> u64 {
    spacing_below(frequency, tripled_square(volatility))
}

// Versions, request (ix)

pub fn version_wrong(version: u64) -> bool {
    version != 1 && version != 2
}

/// y of a reversion a step: its ten-thousandths as billionths.
pub fn continuous_reversion(reversion: u64) -> i64 {
    reversion as i64 * 100_000
}

/// For an accepted reversion and a known version.
pub fn working(version: u64, reversion: u64) -> u64 {
    if version == 1 {
        return reversion;
    }
    let lost = ONE - continuous(continuous_reversion(reversion));
    nearest(10_000 * lost as u128, ONE as u128) as u64
}

pub fn working_reversion(version: u64, reversion: u64) -> Outcome<u64> {
    lowest(&[(4, reversion_wrong(reversion)), (7, version_wrong(version))])?;
    Ok(working(version, reversion))
}

/// For an accepted reversion and a known version. 3 × (1,000 s)² × c is below 2^84.
pub fn version_spacing(version: u64, frequency: u64, volatility: u64, reversion: u64) -> u64 {
    if version == 1 || reversion == 0 {
        return spacing(frequency, volatility);
    }
    let twice = 2 * continuous_reversion(reversion);
    let share = ONE as u128 * (ONE - continuous(twice)) as u128 / twice as u128;
    spacing_below(frequency, tripled_square(volatility) * share / ONE as u128)
}

/// The series at an amount up to one, where no product passes 64 bits.
fn series(amount: u64, alternating: bool) -> u64 {
    assert!(amount <= ONE);
    let (mut term, mut even, mut odd) = (ONE, ONE, 0);
    for k in 1..=12 {
        term = term * amount / (k * ONE);
        *if k % 2 == 0 { &mut even } else { &mut odd } += term;
    }
    if alternating { even - odd } else { even + odd }
}

pub fn factor(node: i64, spacing: u64) -> u64 {
    series(node.unsigned_abs() * spacing, node >= 0)
}

/// F of y: P before any range test.
pub fn continuous(y: i64) -> u64 {
    let root = series(y.unsigned_abs() / 4, y >= 0) as u128;
    let square = root * root / ONE as u128;
    (square * square / ONE as u128) as u64
}

pub struct Fitted {
    pub quotes: Vec<u64>,
    pub discounts: Vec<u64>,
    pub state_prices: Vec<u64>,
}

#[derive(Clone, Debug)]
pub struct FitInput {
    pub frequency: u64,
    pub tree: Tree,
    pub volatility: u64,
    pub curve: Curve,
    pub discounts_length: usize,
    pub state_prices_length: usize,
}

impl FitInput {
    /// The tree by its working reversion; by the reversion itself where that or the version is refused.
    pub fn worked(&self, version: u64) -> Tree {
        let reversion = working_reversion(version, self.tree.reversion).unwrap_or(self.tree.reversion);
        Tree { reversion, ..self.tree }
    }

    fn memory_short(&self, tree: &Tree) -> bool {
        tree.accepted() && (self.discounts_length < tree.discounts_needed() || self.state_prices_length < tree.state_prices_needed())
    }

    pub fn fit(&self) -> Outcome<Fitted> {
        self.fit_version(1)
    }

    pub fn fit_version(&self, version: u64) -> Outcome<Fitted> {
        let (steps, tree) = (self.tree.steps, self.worked(version));
        lowest(&[
            (2, frequency_wrong(self.frequency)),
            (3, steps_wrong(steps)),
            (4, reversion_wrong(self.tree.reversion)),
            (5, volatility_wrong(self.volatility)),
            (6, self.curve.places_wrong(steps) || self.memory_short(&tree)),
        ])?;
        let quotes = self.curve.quotes(self.frequency)?;
        lowest(&[(7, version_wrong(version))])?;
        let spacing = version_spacing(version, self.frequency, self.volatility, self.tree.reversion);
        lowest(&[(8, tree.half_width(steps - 1) as u128 * spacing as u128 > ONE as u128)])?;
        grow(&tree, spacing, quotes)
    }
}

fn grow(tree: &Tree, spacing: u64, quotes: Vec<u64>) -> Outcome<Fitted> {
    let (mut discounts, mut state_prices, mut row) = (Vec::new(), vec![ONE], vec![ONE]);
    for i in 0..tree.steps {
        let w = tree.half_width(i);
        let factors: Vec<u128> = (-w..=w).map(|j| factor(j, spacing) as u128).collect();
        let z = row.iter().zip(&factors).map(|(q, u)| *q as u128 * u).sum::<u128>() / ONE as u128;
        let shown: Vec<u64> = factors.iter().map(|u| (quotes[i] as u128 * u / z) as u64).collect();
        lowest(&[(9, shown.iter().any(|v| *v == 0 || *v > DISCOUNT_LIMIT))])?;
        let next = tree.half_width(i + 1);
        let mut later = vec![0u128; tree.node_count(i + 1)];
        for j in -w..=w {
            let place = (j + w) as usize;
            let carried = row[place] as u128 * shown[place] as u128 / ONE as u128;
            for (target, probability) in tree.branches(j) {
                later[(target + next) as usize] += probability as u128 * carried;
            }
        }
        row = later.iter().map(|sum| (sum / WHOLE as u128) as u64).collect();
        discounts.extend(shown);
        state_prices.extend(&row);
    }
    Ok(Fitted { quotes, discounts, state_prices })
}

pub fn step_rate(discount: u64) -> Outcome<i64> {
    lowest(&[(9, discount < 1 || discount > DISCOUNT_LIMIT)])?;
    let size = nearest(ONE.abs_diff(discount) as u128 * ONE as u128, discount as u128) as i64;
    Ok(if discount > ONE { -size } else { size })
}

/// A quotient, below 0 for negative amounts, whose discount is not below this one while the next one's is; or the last of all.
fn crossing(discount: u64) -> i64 {
    let (mut low, mut high) = (-(ONE as i64), ONE as i64 + 1);
    while high - low > 1 {
        let middle = (low + high) / 2;
        if continuous(4 * middle) >= discount {
            low = middle;
        } else {
            high = middle;
        }
    }
    low
}

/// A discount falls from a quotient to a greater one, give or take this: a P up to 1.2 × one is within 100 of the exact one, and those of
/// negative amounts never turn. Over all quotients it rises by 4 at most.
const TURN: u64 = 200;

/// The continuous rate by trying every quotient about the crossing, to both sides, until none can be as near. Whole y of one quotient have
/// one discount; the least of them is four times the quotient.
pub fn continuous_rate(discount: u64) -> Outcome<i64> {
    lowest(&[(9, discount < 1 || discount > DISCOUNT_LIMIT)])?;
    let judged = |quotient: i64| (continuous(4 * quotient).abs_diff(discount), (4 * quotient).unsigned_abs(), 4 * quotient);
    let start = crossing(discount);
    let mut best = judged(start);
    let mut improves = |found: (u64, u64, i64)| {
        best = best.min(found);
        found.0 <= best.0 + TURN
    };
    for quotient in start + 1..=ONE as i64 {
        if !improves(judged(quotient)) {
            break;
        }
    }
    for quotient in (-(ONE as i64)..start).rev() {
        if !improves(judged(quotient)) {
            break;
        }
    }
    Ok(best.2)
}

// Prices

/// An option by its kind.
#[derive(Clone, Copy, Debug)]
pub struct Contract {
    pub kind: u64,
    pub expiry: usize,
    pub strike: u64,
}

impl Contract {
    pub fn wrong(&self, steps: usize) -> bool {
        !(1..=4).contains(&self.kind) || self.expiry >= steps || self.strike > STRIKE_LIMIT
    }

    /// The same rights by a list: the expiry alone, or every row from 0 to it. None where no list means the same.
    pub fn dated(&self, steps: usize) -> Option<DatedOption> {
        if !(1..=4).contains(&self.kind) || self.expiry >= steps {
            return None;
        }
        let last = u8::try_from(self.expiry).ok()?;
        let first = if self.kind >= 3 { 0 } else { last };
        Some(DatedOption { side: if self.kind % 2 == 1 { CALL } else { PUT }, strike: self.strike, dates: (first..=last).collect() })
    }
}

/// What a job's bond and option are worth, each with its bound; no option, no price.
#[derive(Clone, Debug, Default, PartialEq)]
pub struct JobPrices {
    pub bond: (u64, u64),
    pub option: Option<(u64, u64)>,
}

pub const CALL: u64 = 1;
pub const PUT: u64 = 2;

/// The right to buy or to sell at the strike on the listed rows.
#[derive(Clone, Debug)]
pub struct DatedOption {
    pub side: u64,
    pub strike: u64,
    pub dates: Vec<u8>,
}

impl DatedOption {
    pub fn wrong(&self) -> bool {
        ![CALL, PUT].contains(&self.side) || self.strike > STRIKE_LIMIT
    }

    /// The same rights at another strike.
    pub fn struck(&self, strike: u64) -> DatedOption {
        DatedOption { strike, ..self.clone() }
    }

    pub fn dates_wrong(&self, steps: usize) -> bool {
        let rising = self.dates.windows(2).all(|pair| pair[0] < pair[1]);
        !rising || self.dates.last().map_or(true, |last| *last as usize >= steps)
    }

    pub fn last(&self) -> usize {
        self.dates[self.dates.len() - 1] as usize
    }

    pub fn listed(&self, row: usize) -> bool {
        self.dates.iter().any(|date| *date as usize == row)
    }

    pub fn exercise(&self, bond: u64) -> u64 {
        if self.side == CALL {
            bond.saturating_sub(self.strike)
        } else {
            self.strike.saturating_sub(bond)
        }
    }
}

/// The answers of a strip in the order of its strikes, or its own refusal.
pub type Strip = Outcome<Vec<Outcome<(u64, u64)>>>;

/// Each answer is what the rule for one strike gives. The strip's own causes before its 6 are tried in their order; every other stands in the answers.
pub fn strip(causes: &[(u64, bool)], strikes: &[u64], single: impl Fn(u64) -> Outcome<(u64, u64)>) -> Strip {
    let count_wrong = strikes.is_empty() || strikes.len() > MOST_STRIKES;
    match causes.iter().chain(&[(6, count_wrong)]).find(|cause| cause.1) {
        Some((number, _)) => Err(*number),
        None => Ok(strikes.iter().map(|strike| single(*strike)).collect()),
    }
}

/// The flow of a row; row 0 has none.
pub fn flow_of(flows: &[u64], row: usize) -> u64 {
    if row == 0 { 0 } else { flows[row - 1] }
}

fn limited(values: Vec<u64>) -> Outcome<Vec<u64>> {
    lowest(&[(12, values.iter().any(|v| *v > VALUE_LIMIT))])?;
    Ok(values)
}

impl Tree {
    /// Two divisions, each to nearest on its own.
    fn roll(&self, discounts: &[u64], row: usize, later: &[u64]) -> Vec<u64> {
        let (w, next) = (self.half_width(row), self.half_width(row + 1));
        let shown = self.row(discounts, row);
        let rolled = |j: i64| {
            let sum: u128 = self.branches(j).iter().map(|(t, p)| *p as u128 * later[(t + next) as usize] as u128).sum();
            nearest(nearest(sum, WHOLE as u128) * shown[(j + w) as usize] as u128, ONE as u128) as u64
        };
        (-w..=w).map(rolled).collect()
    }

    fn bond_rows(&self, discounts: &[u64], flows: &[u64]) -> Outcome<Vec<Vec<u64>>> {
        let mut rows = vec![limited(vec![flows[self.steps - 1]; self.node_count(self.steps)])?];
        for i in (0..self.steps).rev() {
            let rolled = self.roll(discounts, i, rows.last().unwrap());
            rows.push(limited(rolled.iter().map(|v| v + flow_of(flows, i)).collect())?);
        }
        rows.reverse();
        Ok(rows)
    }

    fn price_bound(&self, discounts: &[u64]) -> u64 {
        let step = |later: u128, row: usize| up(self.greatest(discounts, row) * later, ONE as u128) + 2;
        (0..self.steps).rev().fold(0, step) as u64
    }

    /// What 01's rule, as request (vi) left it, gives for accepted discounts.
    pub fn carried(&self, discounts: &[u64]) -> Carried {
        let greatest = std::array::from_fn(|row| if row < self.steps { self.greatest(discounts, row) as u64 } else { 0 });
        Carried { bound: self.price_bound(discounts), greatest }
    }

    /// The same for any lent discounts.
    pub fn bounds(&self, discounts: &[u64]) -> Outcome<Carried> {
        lowest(&self.lent_causes(discounts, false))?;
        Ok(self.carried(discounts))
    }

    fn lent_causes(&self, discounts: &[u64], wrong: bool) -> [(u64, bool); 4] {
        let accepted = self.accepted();
        let short = accepted && discounts.len() < self.discounts_needed();
        let unfit = accepted && !short && self.discounts_wrong(discounts);
        [(3, steps_wrong(self.steps)), (4, reversion_wrong(self.reversion)), (6, short || wrong), (9, unfit)]
    }

    /// Price and bound.
    pub fn bond(&self, discounts: &[u64], flows: &[u64]) -> Outcome<(u64, u64)> {
        let lent = self.lent_causes(discounts, flows.len() != self.steps);
        lowest(&lent)?;
        lowest(&[(10, flows.iter().any(|flow| *flow > FLOW_LIMIT))])?;
        Ok((self.bond_rows(discounts, flows)?[0][0], self.price_bound(discounts)))
    }

    /// The option's value at row 0, and whether exercise gives some node's value on a row with a flow. That flow stays with the seller of
    /// the bond: exercise is on the bond without it.
    fn option_value(&self, discounts: &[u64], flows: &[u64], option: &DatedOption) -> Outcome<(u64, bool)> {
        let bonds = self.bond_rows(discounts, flows)?;
        let exercised = |i: usize| bonds[i].iter().map(|bond| option.exercise(*bond - flow_of(flows, i))).collect::<Vec<u64>>();
        let mut row = limited(exercised(option.last()))?;
        let mut on_a_flow = flow_of(flows, option.last()) > 0 && row.iter().any(|now| *now > 0);
        for i in (0..option.last()).rev() {
            let rolled = self.roll(discounts, i, &row);
            row = rolled.clone();
            if option.listed(i) {
                row = rolled.iter().zip(exercised(i)).map(|(rolled, now)| (*rolled).max(now)).collect();
            }
            on_a_flow |= flow_of(flows, i) > 0 && row != rolled;
            row = limited(row)?;
        }
        Ok((row[0], on_a_flow))
    }

    /// Whether a priced option is exercised at some node of a row with a flow.
    pub fn exercised_on_a_flow(&self, discounts: &[u64], flows: &[u64], option: &DatedOption) -> bool {
        self.option_value(discounts, flows, option).map_or(false, |found| found.1)
    }

    fn option_causes(&self, discounts: &[u64], flows: &[u64], wrong: bool, dates_wrong: bool) -> Outcome<()> {
        lowest(&self.lent_causes(discounts, flows.len() != self.steps))?;
        lowest(&[(10, flows.iter().any(|flow| *flow > FLOW_LIMIT)), (11, wrong), (13, dates_wrong)])
    }

    pub fn dated_option(&self, discounts: &[u64], flows: &[u64], option: &DatedOption) -> Outcome<(u64, u64)> {
        self.option_causes(discounts, flows, option.wrong(), option.dates_wrong(self.steps))?;
        Ok((self.option_value(discounts, flows, option)?.0, self.price_bound(discounts)))
    }

    pub fn option(&self, discounts: &[u64], flows: &[u64], contract: &Contract) -> Outcome<(u64, u64)> {
        self.option_causes(discounts, flows, contract.wrong(self.steps), false)?;
        self.dated_option(discounts, flows, &contract.dated(self.steps).expect("the list of an accepted kind"))
    }

    fn strip(&self, strikes: &[u64], single: impl Fn(u64) -> Outcome<(u64, u64)>) -> Strip {
        strip(&[(3, steps_wrong(self.steps)), (4, reversion_wrong(self.reversion))], strikes, single)
    }

    /// A strip of an option's side and dates; its own strike counts for nothing.
    pub fn dated_strip(&self, discounts: &[u64], flows: &[u64], option: &DatedOption, strikes: &[u64]) -> Strip {
        self.strip(strikes, |strike| self.dated_option(discounts, flows, &option.struck(strike)))
    }

    pub fn kind_strip(&self, discounts: &[u64], flows: &[u64], contract: &Contract, strikes: &[u64]) -> Strip {
        self.strip(strikes, |strike| self.option(discounts, flows, &Contract { strike, ..*contract }))
    }

    fn state_price_bound_of(&self, discounts: &[u64], row: usize) -> u128 {
        let counts = |i: usize| (self.node_count(i) + self.node_count(i + 1)) as u128;
        (0..row).fold(0, |former, i| up(self.greatest(discounts, i) * former, ONE as u128) + counts(i))
    }

    pub fn state_price_bound(&self, discounts: &[u64], row: usize) -> Outcome<u64> {
        lowest(&self.lent_causes(discounts, row > self.steps))?;
        Ok(self.state_price_bound_of(discounts, row) as u64)
    }

    pub fn weighing_bound(&self, discounts: &[u64], row: usize, payoffs: &[u64]) -> Outcome<u64> {
        let wrong = self.accepted() && (row > self.steps || payoffs.len() != self.node_count(row));
        lowest(&self.lent_causes(discounts, wrong))?;
        let greatest = *payoffs.iter().max().unwrap();
        lowest(&[(12, greatest > VALUE_LIMIT)])?;
        Ok(up(greatest as u128 * self.state_price_bound_of(discounts, row), ONE as u128) as u64 + 1)
    }
}

pub fn weighing(state_prices: &[u64], payoffs: &[u64]) -> Outcome<u64> {
    let length = state_prices.len();
    lowest(&[(6, length != payoffs.len() || length % 2 == 0 || length > 121)])?;
    let total: u128 = state_prices.iter().map(|q| *q as u128).sum();
    lowest(&[(12, total > STATE_PRICES_LIMIT || payoffs.iter().any(|x| *x > VALUE_LIMIT))])?;
    let value = state_prices.iter().zip(payoffs).map(|(q, x)| *q as u128 * *x as u128).sum::<u128>() / ONE as u128;
    lowest(&[(12, value > VALUE_LIMIT as u128)])?;
    Ok(value as u64)
}

/// Where a row stands in its memory, or None: discounts have rows 0 to n − 1, state prices rows 0 to n.
pub fn row_part(discounts: usize, state_prices: usize, of_state_prices: bool, tree: &Tree, row: usize) -> Option<(usize, usize)> {
    if !tree.accepted() || discounts < tree.discounts_needed() || state_prices < tree.state_prices_needed() {
        return None;
    }
    let last = if of_state_prices { tree.steps } else { tree.steps - 1 };
    (row <= last).then(|| (tree.start(row), tree.node_count(row)))
}
