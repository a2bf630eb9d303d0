//! Numbers that would pass for valid ones if they were cut to 8, 16 or 32 bits, for every argument of every function: the lines of
//! reference/widths.txt, whose form reference/widths.py tells. Then every job of crates/sheet_cases.
#![cfg(not(without_library))]
use mixegorta::*;
use std::collections::BTreeMap;
use std::fs;

const PATTERN: u64 = 0xA5A5_A5A5_A5A5_A5A5;

fn path(below: &str) -> String {
    format!("{}/../{below}", env!("CARGO_MANIFEST_DIR"))
}

/// The arguments of a line: numbers, and lists or memories.
struct Given(Vec<Vec<u64>>);

impl Given {
    fn number(&self, place: usize) -> u64 {
        self.0[place][0]
    }

    fn size(&self, place: usize) -> usize {
        self.number(place) as usize
    }

    fn list(&self, place: usize) -> &[u64] {
        &self.0[place]
    }

    fn bytes(&self, place: usize) -> Vec<u8> {
        self.list(place).iter().map(|v| *v as u8).collect()
    }

    /// The dates of an entry that takes some.
    fn dates(&self, name: &str) -> Vec<u8> {
        match name.contains("dated") || name.ends_with("option_strip") {
            true => self.bytes(5),
            false => Vec::new(),
        }
    }

    /// The curve of three lists, or none where they differ in length, which no curve of this crate does.
    fn curve(&self, place: usize) -> Option<Curve> {
        let [rows, kinds, figures] = [0, 1, 2].map(|k| self.list(place + k));
        if rows.len() != kinds.len() || rows.len() != figures.len() {
            return None;
        }
        let points: Vec<(u64, Quote)> = (0..rows.len())
            .map(|i| (rows[i], quote(kinds[i], figures[i]).expect("a kind")))
            .collect();
        Some(Curve::of_points(&points))
    }

    /// A kind, or none where it is no number of `OptionKind`.
    fn kind(&self) -> Option<OptionKind> {
        use OptionKind::*;
        let kinds = [EuropeanCall, EuropeanPut, AmericanCall, AmericanPut];
        kinds.into_iter().find(|k| *k as u64 == self.number(4))
    }

    fn side(&self) -> Option<Side> {
        let sides = [Side::Call, Side::Put];
        sides.into_iter().find(|s| *s as u64 == self.number(4))
    }

    fn terms(&self) -> Option<OptionTerms> {
        Some(OptionTerms {
            kind: self.kind()?,
            expiry: self.size(5),
            strike: self.number(6),
        })
    }

    fn dated<'a>(&self, dates: &'a [u8]) -> Option<DatedTerms<'a>> {
        Some(DatedTerms {
            side: self.side()?,
            dates,
            strike: self.number(6),
        })
    }
}

fn quote(kind: u64, bits: u64) -> Option<Quote> {
    let figure = f64::from_bits(bits);
    match kind {
        5 => Some(Quote::DiscountFactor(figure)),
        6 => Some(Quote::YearlyRate(figure)),
        9 => Some(Quote::YearlyYield(figure)),
        _ => None,
    }
}

/// A number, a list [3,5,0*256], or a memory @9.
fn argument(word: &str) -> Vec<u64> {
    if let Some(length) = word.strip_prefix('@') {
        return vec![PATTERN; length.parse().expect("a length")];
    }
    let number = |text: &str| match text.strip_prefix('-') {
        Some(size) => (size.parse::<i64>().expect("a number")).wrapping_neg() as u64,
        None => text.parse().expect("a number"),
    };
    let items = word.trim_matches(['[', ']']).split(',');
    items
        .flat_map(|item| match item.split_once('*') {
            Some((value, times)) => vec![number(value); times.parse().expect("a count")],
            None => vec![number(item)],
        })
        .collect()
}

fn answered<const N: usize>(found: Result<[u64; N], Refusal>) -> Vec<u64> {
    match found {
        Ok(fields) => std::iter::once(0).chain(fields).collect(),
        Err(refusal) => vec![refusal.number()],
    }
}

fn one(found: Result<u64, Refusal>) -> Vec<u64> {
    answered(found.map(|value| [value]))
}

fn price(found: Result<Price, Refusal>) -> Vec<u64> {
    answered(found.map(|p| [p.value, p.bound]))
}

fn bounds(found: Result<TreeErrorBounds, Refusal>) -> Vec<u64> {
    match found {
        Ok(known) => [vec![0, known.bound], known.greatest.to_vec()].concat(),
        Err(refusal) => vec![refusal.number()],
    }
}

/// Two answers side by side, each with its number and zeros where refused.
fn both(found: BondAndOption) -> Vec<u64> {
    [found.bond, found.option]
        .into_iter()
        .flat_map(|each| {
            let mut fields = price(each);
            fields.resize(3, 0);
            fields
        })
        .collect()
}

/// Sixteen numbers, values and bounds of a strip, those past its strikes 0.
fn strip(found: Result<Strip, Refusal>) -> Vec<u64> {
    let Ok(prices) = found else {
        return vec![found.unwrap_err().number()];
    };
    let mut columns = [[0; MAX_STRIKES]; 3];
    for (place, each) in prices.into_iter().enumerate() {
        for (column, field) in price(each).into_iter().enumerate() {
            columns[column][place] = field;
        }
    }
    [vec![0], columns.concat()].concat()
}

/// What is said of a table of bands, in the order of the archive's fields.
fn verdict(found: Result<(), BandRefusal>) -> [u64; 4] {
    let Err(BandRefusal { refusal, shown }) = found else {
        return [0; 4];
    };
    let (row, price, place) = match shown {
        Shown::Nothing => (0, 0, 0),
        Shown::Place(place) => (0, 0, place),
        Shown::Pair { row, price } => (row, price, 0),
    };
    [refusal.number(), row, price, place]
}

fn checked(g: &Given) -> Vec<u64> {
    let [firsts, lasts, lowest, highest, haircuts] = [0, 1, 2, 3, 4].map(|k| g.list(k));
    verdict(check_bands(firsts, lasts, lowest, highest, haircuts)).to_vec()
}

fn lent(g: &Given) -> Vec<u64> {
    let [firsts, lasts, lowest, highest, haircuts] = [0, 1, 2, 3, 4].map(|k| g.list(k));
    let (row, price) = (g.number(5), g.number(6));
    let found = lending_worth(firsts, lasts, lowest, highest, haircuts, row, price);
    let fields = verdict(found.map(|_| ()));
    [vec![found.unwrap_or(0)], fields.to_vec()].concat()
}

/// All numbers of a job's record, in the order of its places.
fn places(job: &Job) -> Vec<u64> {
    let padded = |numbers: Vec<u64>, count: usize| {
        let zeros = vec![0; count - numbers.len()];
        [numbers, zeros].concat()
    };
    let (option, dates) = match &job.option {
        None => ([0; 5], Vec::new()),
        Some(JobOption::OfKind {
            kind,
            expiry,
            strike,
        }) => ([8, *kind, *expiry, *strike, 0], Vec::new()),
        Some(JobOption::Dated {
            side,
            strike,
            dates,
        }) => {
            let rows: Vec<u64> = dates.iter().map(|row| *row as u64).collect();
            ([10, *side, 0, *strike, rows.len() as u64], rows)
        }
    };
    let (frequency, steps) = (job.frequency, job.quotes.len() as u64);
    let version = job.version.unwrap_or(0);
    [
        vec![frequency, steps, job.reversion, job.volatility, version],
        padded(
            job.quotes.iter().map(|q| q.kind as u64).collect(),
            MAX_JOB_STEPS,
        ),
        padded(job.quotes.iter().map(|q| q.bits).collect(), MAX_JOB_STEPS),
        padded(job.flows.clone(), MAX_JOB_STEPS),
        option.to_vec(),
        padded(dates, MAX_JOB_DATES),
    ]
    .concat()
}

/// The job of a record's numbers, or none where no `Job` has them in these places.
fn job_of(numbers: &[u64]) -> Option<Job> {
    let (head, lists) = numbers.split_at(5);
    let (lists, option) = lists.split_at(3 * MAX_JOB_STEPS);
    let steps = usize::try_from(head[1])
        .ok()
        .filter(|n| *n <= MAX_JOB_STEPS)?;
    let column = |k: usize| &lists[k * MAX_JOB_STEPS..][..steps];
    let quotes = column(0).iter().zip(column(1));
    let (kind, expiry, strike, count) = (option[1], option[2], option[3], option[4] as usize);
    let dates = option[5..].get(..count)?;
    let job = Job {
        frequency: head[0],
        reversion: head[2],
        volatility: head[3],
        version: Some(head[4]).filter(|version| *version != 0),
        quotes: quotes
            .map(|(kind, bits)| JobQuote {
                kind: *kind as u8,
                bits: *bits,
            })
            .collect(),
        flows: column(2).to_vec(),
        option: match option[0] {
            8 => Some(JobOption::OfKind {
                kind,
                expiry,
                strike,
            }),
            10 => Some(JobOption::Dated {
                side: kind,
                strike,
                dates: dates.iter().map(|row| *row as u8).collect(),
            }),
            _ => None,
        },
    };
    (places(&job) == numbers).then_some(job)
}

fn read_job(g: &Given) -> Vec<u64> {
    match Job::read(&g.bytes(0)) {
        Ok(job) => [vec![0], places(&job)].concat(),
        Err(refusal) => vec![refusal.number()],
    }
}

fn write_job(g: &Given) -> Option<Vec<u64>> {
    let job = job_of(g.list(0))?;
    let mut out = vec![PATTERN as u8; g.list(1).len()];
    let found = job.write_into(&mut out).map(<[u8]>::len);
    let end = found.unwrap_or(0);
    assert!(out[end..].iter().all(|byte| *byte == PATTERN as u8));
    match found {
        Ok(count) => {
            let bytes = out[..end].iter().map(|byte| *byte as u64);
            Some([0, count as u64].into_iter().chain(bytes).collect())
        }
        Err(JobError::Refused(refusal)) => Some(vec![refusal.number()]),
        Err(error) => panic!("{error}"),
    }
}

/// The rate tree and the spread tree of a line.
fn pair_of(g: &Given) -> [LentTree<'_>; 2] {
    [0, 3].map(|k| LentTree {
        steps: g.size(k),
        reversion: g.number(k + 1),
        discounts: g.list(k + 2),
    })
}

fn paired(g: &Given) -> Vec<u64> {
    let [rates, spreads] = pair_of(g);
    price(pair_bond_price(rates, spreads, g.list(6)))
}

fn paired_option(g: &Given) -> Option<Vec<u64>> {
    let ([rates, spreads], dates) = (pair_of(g), g.bytes(8));
    let sides = [Side::Call, Side::Put];
    let terms = DatedTerms {
        side: sides.into_iter().find(|s| *s as u64 == g.number(7))?,
        dates: &dates,
        strike: g.number(9),
    };
    Some(price(pair_dated_option_price(
        rates,
        spreads,
        g.list(6),
        terms,
    )))
}

/// The number of a call that writes, and what it wrote; everything else of its memories must be as it was.
fn written(found: Result<(), Refusal>, memories: &[(&[u64], usize)]) -> Vec<u64> {
    let mut answer = vec![found.map_or_else(|refusal| refusal.number(), |_| 0)];
    for (memory, needed) in memories {
        let count = if found.is_ok() { *needed } else { 0 };
        answer.extend(&memory[..count]);
        assert!(
            memory[count..].iter().all(|v| *v == PATTERN),
            "a memory past its part"
        );
    }
    answer
}

fn fitted(g: &Given) -> Option<Vec<u64>> {
    let (steps, reversion) = (g.size(1), g.number(2));
    let (mut discounts, mut prices) = (g.list(7).to_vec(), g.list(8).to_vec());
    let found = fit(
        g.number(0),
        steps,
        reversion,
        g.number(3),
        &g.curve(4)?,
        &mut discounts,
        &mut prices,
    );
    let needed = |size: Result<u64, Refusal>| size.unwrap_or(0) as usize;
    let (first, second) = (
        needed(discounts_needed(steps, reversion)),
        needed(state_prices_needed(steps, reversion)),
    );
    Some(written(found, &[(&discounts, first), (&prices, second)]))
}

fn fitted_by_version(g: &Given) -> Option<Vec<u64>> {
    let (version, steps, reversion) = (g.number(0), g.size(2), g.number(3));
    let (mut discounts, mut prices) = (g.list(8).to_vec(), g.list(9).to_vec());
    let found = fit_version(
        version,
        g.number(1),
        steps,
        reversion,
        g.number(4),
        &g.curve(5)?,
        &mut discounts,
        &mut prices,
    );
    let working = working_reversion(version, reversion).unwrap_or(reversion);
    let needed = |size: Result<u64, Refusal>| size.unwrap_or(0) as usize;
    let (first, second) = (
        needed(discounts_needed(steps, working)),
        needed(state_prices_needed(steps, working)),
    );
    Some(written(found, &[(&discounts, first), (&prices, second)]))
}

fn curve_written(g: &Given) -> Option<Vec<u64>> {
    let mut memory = g.list(5).to_vec();
    let found = curve_discounts(g.number(0), g.size(1), &g.curve(2)?, &mut memory);
    Some(written(found, &[(&memory, g.size(1))]))
}

fn ranged(g: &Given) -> Option<Vec<u64>> {
    let kinds = [RowKind::Discounts, RowKind::StatePrices];
    let kind = kinds.into_iter().find(|k| *k as u64 == g.number(2))?;
    let range = row_range(
        g.list(0),
        g.list(1),
        kind,
        g.size(3),
        g.number(4),
        g.size(5),
    )
    .unwrap_or(0..0);
    Some(vec![range.start as u64, range.len() as u64])
}

/// The prices of a job, and its tree where it is not refused.
fn job_prices(g: &Given) -> Vec<u64> {
    let (mut discounts, mut state_prices) = (g.list(1).to_vec(), g.list(2).to_vec());
    let found = prices_of_job_into(&g.bytes(0), &mut discounts, &mut state_prices);
    let fields = found.as_ref().map_or(Vec::new(), |prices| {
        let option = prices.option.map_or([0; 3], |o| [1, o.value, o.bound]);
        [vec![prices.bond.value, prices.bond.bound], option.to_vec()].concat()
    });
    let mut memories = written(found.map(|_| ()), &[(&discounts, 9), (&state_prices, 16)]);
    memories.splice(1..1, fields);
    memories
}

/// A report is its 22 numbers.
fn report(numbers: &[u64]) -> Report {
    Report {
        books: numbers[0],
        fields: numbers[1],
        priced: numbers[2],
        refused: numbers[3..16].try_into().expect("thirteen counts"),
        bonds: numbers[16],
        options: numbers[17],
        error_bounds: numbers[18],
        dearest: numbers[19],
        book: numbers[20],
        place: numbers[21],
    }
}

fn joined(g: &Given) -> Vec<u64> {
    match joined_reports(&report(g.list(0)), &report(g.list(1))) {
        Err(refusal) => vec![refusal.number()],
        Ok(r) => {
            let mut found = vec![0, r.books, r.fields, r.priced];
            found.extend(r.refused);
            found.extend([r.bonds, r.options, r.error_bounds, r.dearest]);
            found.extend([r.book, r.place]);
            found
        }
    }
}

/// What a call of level one answers; none where the types of this crate have no such argument.
fn shape_or_fit(name: &str, g: &Given) -> Option<Vec<u64>> {
    match name {
        "half_width" => Some(one(half_width(g.number(0), g.size(1)))),
        "node_count" => Some(one(node_count(g.number(0), g.size(1)))),
        "row_start" => Some(one(row_start(g.number(0), g.size(1)))),
        "discounts_needed" => Some(one(discounts_needed(g.size(0), g.number(1)))),
        "state_prices_needed" => Some(one(state_prices_needed(g.size(0), g.number(1)))),
        "branches" => Some(answered(
            branches(g.number(0), g.size(1), g.number(2) as i64)
                .map(|b| [b.lowest as u64, b.up, b.middle, b.down]),
        )),
        "quote_discount" => Some(one(quote_discount(
            g.number(0),
            g.number(2),
            quote(g.number(1), g.number(3))?,
        ))),
        "curve_discounts" => curve_written(g),
        "fit" => fitted(g),
        "fit_version" => fitted_by_version(g),
        "working_reversion" => Some(one(working_reversion(g.number(0), g.number(1)))),
        "row_range" => ranged(g),
        "step_rate" => Some(one(step_rate(g.number(0)).map(|rate| rate as u64))),
        "continuous_rate" => Some(one(continuous_rate(g.number(0)).map(|rate| rate as u64))),
        "price_error_bound" => {
            let (steps, reversion) = (g.size(0), g.number(1));
            Some(one(price_error_bound(steps, reversion, g.list(2))))
        }
        "check_bands" => Some(checked(g)),
        "prices_of_job" => Some(job_prices(g)),
        "lending_worth" => Some(lent(g)),
        "joined_reports" => Some(joined(g)),
        "read_job" => Some(read_job(g)),
        "write_job" => write_job(g),
        "pair_bond_price" => Some(paired(g)),
        "pair_dated_option_price" => paired_option(g),
        "tree_bounds" => Some(bounds(tree_bounds(g.size(0), g.number(1), g.list(2)))),
        "state_price_error_bound" => Some(one(state_price_error_bound(
            g.size(0),
            g.number(1),
            g.list(2),
            g.size(3),
        ))),
        _ => on_shelf(name, g),
    }
}

/// How many numbers a line has for a name of a shelf.
const SLOT: usize = 4 + MAX_STEPS;

/// A shelf as a line has it: status, steps, reversion, bound and greatest discounts of each name, and its memory.
fn seen(shelf: &Shelf) -> (Vec<u64>, Vec<u64>) {
    let (mut slots, mut memory) = (Vec::new(), Vec::new());
    for name in 1..=MAX_NAME {
        if let (Some(tree), Some(carried)) = (shelf.tree(name), shelf.bounds(name)) {
            slots.extend([1 + tree.fitted as u64, tree.steps as u64, tree.reversion]);
            slots.push(carried.bound);
            slots.extend(carried.greatest);
        }
        slots.resize(name * SLOT, 0);
        memory.extend(shelf.discounts(name));
    }
    memory.resize(SHELF_ROOM, 0);
    (slots, memory)
}

/// A shelf with these slots, or none where no calls of this crate lead to it.
fn with_slots(slots: &[u64]) -> Option<Shelf> {
    let curve = Curve::of_quotes(&[
        Quote::DiscountFactor(0.98),
        Quote::YearlyRate(0.03),
        Quote::YearlyYield(0.02),
    ]);
    let mut shelf = Shelf::new();
    for (name, slot) in (1..).zip(slots.chunks(SLOT)) {
        if slot[0] > 0 {
            shelf.ask(name, slot[1] as usize, slot[2]).ok()?;
        }
        if slot[0] > 1 {
            shelf.commit(name, 2, 10_000, &curve).ok()?;
        }
    }
    (seen(&shelf).0 == slots).then_some(shelf)
}

/// The shelf of a line with its memory, likewise.
fn prepared(g: &Given) -> Option<Shelf> {
    with_slots(g.list(0)).filter(|shelf| seen(shelf).1 == g.list(1))
}

/// The number of a call that may change a shelf, and the shelf after it; one that is refused must leave it as it was.
fn changed(shelf: &mut Shelf, call: impl Fn(&mut Shelf) -> Result<(), Refusal>) -> Vec<u64> {
    let before = seen(shelf);
    let found = call(shelf);
    let after = seen(shelf);
    match found {
        Ok(()) => [vec![0], after.0, after.1].concat(),
        Err(refusal) => {
            assert_eq!(before, after);
            vec![refusal.number()]
        }
    }
}

/// Where a name's discounts stand: behind those of the names before it.
fn part(g: &Given) -> Option<Vec<u64>> {
    let shelf = with_slots(g.list(0))?;
    let count = shelf.discounts(g.size(1)).len();
    let before = (1..g.size(1).min(MAX_NAME + 1)).map(|name| shelf.discounts(name).len());
    let start = if count == 0 { 0 } else { before.sum() };
    Some(vec![start as u64, count as u64])
}

/// What a price on a shelf answers; none where the types of this crate have no such argument.
fn shelf_price(name: &str, g: &Given) -> Option<Vec<u64>> {
    let shelf = prepared(g)?;
    let (tree, flows) = (g.size(2), g.list(3));
    let dates = g.dates(name);
    Some(match name {
        "shelf_bond_price" => price(shelf.bond_price(tree, flows)),
        "shelf_option_price" => price(shelf.option_price(tree, flows, g.terms()?)),
        "shelf_bond_and_option" => both(shelf.bond_and_option(tree, flows, g.terms()?)),
        "shelf_dated_option_price" => {
            price(shelf.dated_option_price(tree, flows, g.dated(&dates)?))
        }
        "shelf_bond_and_dated_option" => {
            both(shelf.bond_and_dated_option(tree, flows, g.dated(&dates)?))
        }
        "shelf_option_strip" => {
            strip(shelf.option_strip(tree, flows, g.side()?, &dates, g.list(6)))
        }
        "shelf_option_strip_of_kind" => {
            strip(shelf.option_strip_of_kind(tree, flows, g.kind()?, g.size(5), g.list(6)))
        }
        _ => panic!("no function {name}"),
    })
}

fn on_shelf(name: &str, g: &Given) -> Option<Vec<u64>> {
    let call: Box<dyn Fn(&mut Shelf) -> Result<(), Refusal>> = match name {
        "shelf_part" => return part(g),
        "shelf_ask" => Box::new(|shelf| shelf.ask(g.size(2), g.size(3), g.number(4))),
        "shelf_commit" => {
            let curve = g.curve(5)?;
            Box::new(move |shelf| shelf.commit(g.size(2), g.number(3), g.number(4), &curve))
        }
        "shelf_release" => Box::new(|shelf| shelf.release(g.size(2))),
        _ => return shelf_price(name, g),
    };
    Some(changed(&mut prepared(g)?, call))
}

fn call(name: &str, g: &Given) -> Option<Vec<u64>> {
    let dates = g.dates(name);
    let tree = |g: &Given| (g.size(0), g.number(1));
    match name {
        "bond_price" => Some(price(bond_price(
            tree(g).0,
            tree(g).1,
            g.list(2),
            g.list(3),
        ))),
        "option_price" => Some(price(option_price(
            tree(g).0,
            tree(g).1,
            g.list(2),
            g.list(3),
            g.terms()?,
        ))),
        "bond_and_option" => Some(both(bond_and_option(
            tree(g).0,
            tree(g).1,
            g.list(2),
            g.list(3),
            g.terms()?,
        ))),
        "dated_option_price" => Some(price(dated_option_price(
            tree(g).0,
            tree(g).1,
            g.list(2),
            g.list(3),
            g.dated(&dates)?,
        ))),
        "bond_and_dated_option" => Some(both(bond_and_dated_option(
            tree(g).0,
            tree(g).1,
            g.list(2),
            g.list(3),
            g.dated(&dates)?,
        ))),
        "option_strip" => Some(strip(option_strip(
            tree(g).0,
            tree(g).1,
            g.list(2),
            g.list(3),
            g.side()?,
            &dates,
            g.list(6),
        ))),
        "option_strip_of_kind" => Some(strip(option_strip_of_kind(
            tree(g).0,
            tree(g).1,
            g.list(2),
            g.list(3),
            g.kind()?,
            g.size(5),
            g.list(6),
        ))),
        "value_by_state_prices" => Some(one(value_by_state_prices(g.list(0), g.list(1)))),
        "valuation_error_bound" => Some(one(valuation_error_bound(
            tree(g).0,
            tree(g).1,
            g.list(2),
            g.size(3),
            g.list(4),
        ))),
        _ => shape_or_fit(name, g),
    }
}

#[test]
fn numbers_past_a_width() {
    let table = fs::read_to_string(path("reference/widths.txt")).expect("the table");
    let mut called: BTreeMap<&str, u32> = BTreeMap::new();
    for line in table.lines() {
        let (given, wanted) = line.split_once(" = ").expect("an answer");
        let (name, words) = given.split_once(' ').expect("arguments");
        let given = Given(words.split(' ').map(argument).collect());
        if let Some(found) = call(name, &given) {
            let wanted: Vec<u64> = wanted.split(' ').flat_map(argument).collect();
            assert_eq!(found, wanted, "{line}");
            *called.entry(name).or_default() += 1;
        }
    }
    assert_eq!(called.len(), 45, "{called:?}");
    assert!(called.values().all(|lines| *lines > 2), "{called:?}");
}

/// Bytes behind a whole job make it malformed, however many.
#[test]
fn a_job_past_a_width() {
    let cases = fs::read(path("crates/sheet_cases/stdin")).expect("the jobs");
    let job = &cases[2..2 + cases[0] as usize * 256 + cases[1] as usize];
    assert!(sheet(job).is_ok());
    for more in [1 << 8, 1 << 16] {
        let longer = [job, &vec![0; more]].concat();
        assert_eq!(sheet(&longer), Err(Refusal::JOB));
    }
}

#[test]
fn sheets_of_every_case() {
    let jobs = fs::read(path("crates/sheet_cases/stdin")).expect("the jobs");
    let (mut rest, mut sheets) = (&jobs[..], String::new());
    while let [high, low, more @ ..] = rest {
        let (job, later) = more.split_at(*high as usize * 256 + *low as usize);
        sheets += &sheet(job).unwrap_or_else(|refusal| format!("refused {}\n", refusal.number()));
        rest = later;
    }
    let wanted = fs::read_to_string(path("crates/sheet_cases/stdout")).expect("the sheets");
    assert!(sheets == wanted, "the sheets of crates/sheet_cases");
}
