// Jobs without their sheets, and books of them: the library against the rules of documents 01 and 02, request (xiv). A seed has four jobs, and one book
// of them, whole or damaged. Wrong rules stand beside the right one, each with one thing that is easily got wrong: a large
// run has a book on which each of them prints otherwise. A difference panics.
use crate::engine;
use crate::inputs::{self, Case, Random};
use crate::rules::{lowest, Contract, Curve, DatedOption, FitInput, JobPrices, Outcome, Tree};
use std::collections::BTreeMap;
use std::fmt;

const TAG: u8 = 0x10;
const MOST_FIELDS: usize = 500;
const LONGEST_JOB: usize = 4_700;
const ROOM: usize = 2_304;
const MEMORIES: (usize, usize) = (3_600, 3_721);
/// Seeds of which one has a book of about 500 fields.
const SEEDS_A_LONG_BOOK: u64 = 32;
/// Jobs of few steps in a book, beside one of any.
const SMALL_JOBS: usize = 3;

/// What a wrong rule gets wrong.
const FAULTS: [&str; 13] = [
    "tag 0A", "499 fields", "501 fields", "500 whole fields end the file", "what ends the file uncounted", "a refused option's bond added",
    "the last of the dearest", "no dearest bond of 0", "places among the priced", "a long job ends the file", "an empty field ends the file",
    "low byte of a length first", "allowances of all bonds and options",
];

// A job

#[derive(Clone, Debug)]
enum Terms {
    Nothing,
    Kind(u8, u8, u32),
    Dates(u8, u32, Vec<u8>),
}

#[derive(Clone, Debug)]
struct Job {
    frequency: u8,
    reversion: u16,
    volatility: u32,
    version: Option<u8>,
    quotes: Vec<(u8, f64)>,
    flows: Vec<u32>,
    terms: Terms,
}

fn put(to: &mut Vec<u8>, tag: u8, content: &[u8]) {
    to.push(tag);
    to.extend((content.len() as u16).to_be_bytes());
    to.extend(content);
}

/// What a case has, cut to the widths of a job's fields; lists that are not as long as the steps are filled up.
fn job_of(r: &mut Random, case: &Case) -> Job {
    let steps = case.fit.tree.steps.min(255);
    let curve = &case.fit.curve;
    let mut quotes: Vec<(u8, f64)> = curve.kinds.iter().copied().zip(curve.figures.iter().copied()).collect();
    quotes.resize(steps, (5, 0.9));
    let mut flows: Vec<u32> = case.flows.iter().map(|flow| *flow as u32).collect();
    flows.resize(steps, 0);
    let terms = match r.below(3) {
        0 => Terms::Nothing,
        1 => Terms::Kind(case.contract.kind as u8, case.contract.expiry as u8, case.contract.strike as u32),
        _ => Terms::Dates(case.dated.side as u8, case.dated.strike as u32, case.dated.dates.clone()),
    };
    let version = match r.below(3) {
        0 => None,
        _ => Some(case.version as u8),
    };
    let tree = case.fit.tree;
    Job { frequency: case.fit.frequency as u8, reversion: tree.reversion as u16, volatility: case.fit.volatility as u32, version, quotes, flows, terms }
}

impl Job {
    fn bytes(&self) -> Vec<u8> {
        let mut made = Vec::new();
        put(&mut made, 0x01, &[self.frequency]);
        put(&mut made, 0x02, &[self.quotes.len() as u8]);
        put(&mut made, 0x03, &self.reversion.to_be_bytes());
        put(&mut made, 0x04, &self.volatility.to_be_bytes());
        if let Some(version) = self.version {
            put(&mut made, 0x0B, &[version]);
        }
        for (kind, figure) in &self.quotes {
            put(&mut made, *kind, &figure.to_bits().to_be_bytes());
        }
        for flow in &self.flows {
            put(&mut made, 0x07, &flow.to_be_bytes());
        }
        match &self.terms {
            Terms::Nothing => {}
            Terms::Kind(kind, expiry, strike) => put(&mut made, 0x08, &[&[*kind, *expiry], &strike.to_be_bytes()[..]].concat()),
            Terms::Dates(side, strike, dates) => put(&mut made, 0x0A, &[&[*side], &strike.to_be_bytes()[..], dates].concat()),
        }
        made
    }

    fn malformed(&self) -> bool {
        let known = self.quotes.iter().all(|(kind, _)| [5, 6, 9].contains(kind));
        !known || self.version.is_some_and(|version| ![1, 2].contains(&version)) || self.bytes().len() > LONGEST_JOB
    }

    fn input(&self, (discounts_length, state_prices_length): (usize, usize)) -> FitInput {
        let steps = self.quotes.len();
        let (kinds, figures) = self.quotes.iter().copied().unzip();
        FitInput {
            frequency: self.frequency.into(),
            tree: Tree { steps, reversion: self.reversion.into() },
            volatility: self.volatility.into(),
            curve: Curve { rows: (1..=steps as u64).collect(), kinds, figures },
            discounts_length,
            state_prices_length,
        }
    }

    /// The prices and both memories of the tree, or the number; beside it the bond's own outcome, which an option's refusal leaves.
    fn priced(&self, lent: (usize, usize)) -> (Outcome<(JobPrices, Vec<u64>, Vec<u64>)>, Outcome<(u64, u64)>) {
        let (input, version) = (self.input(lent), self.version.map_or(1, u64::from));
        let fitted = lowest(&[(1, self.malformed())]).and_then(|_| input.fit_version(version));
        let fitted = match fitted {
            Ok(fitted) => fitted,
            Err(number) => return (Err(number), Err(number)),
        };
        let (tree, flows) = (input.worked(version), self.flows.iter().map(|flow| u64::from(*flow)).collect::<Vec<u64>>());
        let bond = tree.bond(&fitted.discounts, &flows);
        let option = match &self.terms {
            Terms::Nothing => None,
            Terms::Kind(kind, expiry, strike) => {
                let contract = Contract { kind: (*kind).into(), expiry: (*expiry).into(), strike: (*strike).into() };
                Some(tree.option(&fitted.discounts, &flows, &contract))
            }
            Terms::Dates(side, strike, dates) => {
                let option = DatedOption { side: (*side).into(), strike: (*strike).into(), dates: dates.clone() };
                Some(tree.dated_option(&fitted.discounts, &flows, &option))
            }
        };
        let prices = option.transpose().and_then(|option| Ok(JobPrices { bond: bond?, option }));
        (prices.map(|prices| (prices, fitted.discounts, fitted.state_prices)), bond)
    }
}

/// Memory that no call has written.
fn untouched(length: usize) -> Vec<u64> {
    (0..length as u64).map(|k| 0xA5A5_0000_0000_0000 + k).collect()
}

fn memory_after(part: &[u64], length: usize) -> Vec<u64> {
    let mut made = untouched(length);
    made[..part.len()].copy_from_slice(part);
    made
}

/// Lengths that hold every tree, the job's own, or one number too few of either.
fn lengths(r: &mut Random, job: &Job) -> (usize, usize) {
    let tree = job.input(MEMORIES).worked(job.version.map_or(1, u64::from));
    if !tree.accepted() || r.chance(50) {
        return MEMORIES;
    }
    let (discounts, prices) = (tree.discounts_needed(), tree.state_prices_needed());
    r.pick(&[(discounts, prices), (discounts + 3, prices + 5), (discounts - 1, prices), (discounts, prices - 1)])
}

fn check_job(job: &Job, lent: (usize, usize)) -> u64 {
    let (wanted, _) = job.priced(lent);
    let (mut discounts, mut prices) = (untouched(lent.0), untouched(lent.1));
    let found = engine::prices_of_job(&job.bytes(), &mut discounts, &mut prices);
    let number = found.as_ref().err().copied().unwrap_or(0);
    assert_eq!(found, wanted.as_ref().map(|given| given.0.clone()).map_err(|number| *number), "library left, rule right\n{job:?} {lent:?}");
    let (wanted_discounts, wanted_prices) = wanted.map_or((Vec::new(), Vec::new()), |given| (given.1, given.2));
    assert!(discounts == memory_after(&wanted_discounts, lent.0), "discounts after {number}\n{job:?}");
    assert!(prices == memory_after(&wanted_prices, lent.1), "state prices after {number}\n{job:?}");
    number
}

// A book

/// A job as a book takes it: its number, its bond with its bound, its option, and the bond's own price where the option alone is refused.
#[derive(Clone, Debug)]
struct Known {
    bytes: Vec<u8>,
    number: u64,
    prices: JobPrices,
    bond_alone: (u64, u64),
}

fn known(bytes: Vec<u8>, answer: Outcome<JobPrices>, bond: Outcome<(u64, u64)>) -> Known {
    let number = answer.as_ref().err().copied().unwrap_or(0);
    Known { bytes, number, prices: answer.unwrap_or_default(), bond_alone: bond.unwrap_or_default() }
}

fn malformed(bytes: Vec<u8>) -> Known {
    known(bytes, Err(1), Err(1))
}

/// The rule, or a wrong one by its name.
#[derive(Clone, Copy)]
struct Rule(&'static str);

impl Rule {
    fn is(self, fault: &str) -> bool {
        self.0 == fault
    }

    fn most(self) -> usize {
        if self.is("499 fields") { 499 } else if self.is("501 fields") { 501 } else { MOST_FIELDS }
    }

    /// The place behind the field that starts at a place, or none where it is broken.
    fn field_end(self, file: &[u8], at: usize) -> Option<usize> {
        let [tag, high, low] = *file[at..].first_chunk()?;
        let length = usize::from(if self.is("low byte of a length first") { u16::from_le_bytes([high, low]) } else { u16::from_be_bytes([high, low]) });
        let ends = self.is("a long job ends the file") && length > LONGEST_JOB || self.is("an empty field ends the file") && length == 0;
        let tagged = tag == if self.is("tag 0A") { 10 } else { TAG };
        (tagged && !ends && at + 3 + length <= file.len()).then_some(at + 3 + length)
    }

    /// The jobs of a file, and whether something ends it.
    fn taken(self, file: &[u8]) -> (Vec<&[u8]>, bool) {
        let (mut jobs, mut at) = (Vec::new(), 0);
        while at < file.len() {
            match self.field_end(file, at) {
                Some(end) if jobs.len() < self.most() => {
                    jobs.push(&file[at + 3..end]);
                    at = end;
                }
                _ => return (jobs, true),
            }
        }
        let full = self.is("500 whole fields end the file") && jobs.len() == MOST_FIELDS;
        (jobs, full)
    }

    fn report(self, file: &[u8], known: &BTreeMap<&[u8], &Known>) -> String {
        let (jobs, ended) = self.taken(file);
        let (mut counts, mut sums, mut dearest, mut priced) = ([0u64; 14], [0u64; 3], None, 0);
        counts[1] += (ended && !self.is("what ends the file uncounted")) as u64;
        let unknown = malformed(Vec::new());
        for (place, job) in jobs.iter().enumerate() {
            let job = known.get(job).copied().unwrap_or(&unknown);
            if job.number != 0 {
                counts[job.number as usize] += 1;
                sums[0] += if self.is("a refused option's bond added") { job.bond_alone.0 } else { 0 };
                continue;
            }
            let place = if self.is("places among the priced") { priced } else { place };
            priced += 1;
            let (bond, bound) = job.prices.bond;
            let option = job.prices.option.unwrap_or_default();
            let more = if self.is("allowances of all bonds and options") { option.1 } else { 0 };
            sums = [sums[0] + bond, sums[1] + option.0, sums[2] + bound + more];
            let best = dearest.map_or(if self.is("no dearest bond of 0") { bond > 0 } else { true }, |(_, best)| {
                if self.is("the last of the dearest") { bond >= best } else { bond > best }
            });
            if best {
                dearest = Some((place + 1, bond));
            }
        }
        let amount = |sum: u64| format!("{}.{:09}", sum / 1_000_000_000, sum % 1_000_000_000);
        let refused: String = (1..14).map(|number| format!("refused {number} {}\n", counts[number])).collect();
        let place = dearest.map_or(0, |(place, _)| place);
        format!("priced {priced}\n{refused}bonds {}\noptions {}\nallowances {}\ndearest {place}\n", amount(sums[0]), amount(sums[1]), sums[2])
    }
}

fn framed(tag: u8, job: &[u8]) -> Vec<u8> {
    let mut made = Vec::new();
    put(&mut made, tag, job);
    made
}

/// A file of these jobs, one in two with something wrong in it.
fn file(r: &mut Random, jobs: &[Known], long: bool) -> (&'static str, Vec<u8>) {
    let count = if long { 496 + r.below(7) } else { r.below(9) };
    let small: Vec<&Known> = jobs.iter().filter(|job| !long || job.bytes.len() < 120).collect();
    let mut fields: Vec<Vec<u8>> = Vec::new();
    for _ in 0..count {
        let empty = small.is_empty() || r.chance(if long { 60 } else { 6 });
        fields.push(framed(TAG, if empty { &[] } else { &small[r.below(small.len())].bytes }));
    }
    let place = r.below(fields.len() + 1);
    let damage = if r.chance(45) { "whole" } else { r.pick(&["cut", "another tag", "long job", "bytes behind", "a field again"]) };
    match damage {
        "another tag" => fields.insert(place, framed(r.pick(&[0, 1, 8, 10, 11, 15, 17, 255]), &[])),
        "long job" => fields.insert(place, framed(TAG, &vec![0; r.pick(&[4_700, 4_701, 65_535])])),
        "bytes behind" => fields.push((0..r.within(1, 4)).map(|_| r.pick(&[0, TAG, 10])).collect()),
        "a field again" if place < fields.len() => fields.insert(place, fields[place].clone()),
        _ => {}
    }
    let mut made = fields.concat();
    if damage == "cut" {
        made.truncate(r.below(made.len() + 1));
    }
    (damage, made)
}

fn check_report(file: &[u8], room: usize, wanted: &str) {
    let pattern: Vec<u8> = (0..room).map(|k| 0x80 | (k % 127) as u8).collect();
    let mut out = pattern.clone();
    match engine::book_report(file, &mut out) {
        Ok(size) => {
            assert!(room >= ROOM, "a room of {room} bytes");
            assert_eq!(std::str::from_utf8(&out[room - size..]), Ok(wanted), "library left, rule right");
            assert!(out[..room - size] == pattern[..room - size], "bytes before the report");
        }
        Err(number) => {
            assert_eq!((number, room < ROOM), (6, true), "a refusal of {room} bytes");
            assert!(out == pattern, "a refused room");
        }
    }
}

// What is compared

#[derive(Default)]
pub struct Tally {
    numbers: BTreeMap<u64, u64>,
    books: BTreeMap<&'static str, u64>,
    caught: BTreeMap<&'static str, u64>,
}

impl Tally {
    /// What a large run has at least once, and this one has not.
    pub fn missing(&self) -> Vec<String> {
        let caught = FAULTS.iter().filter(|fault| !self.caught.contains_key(*fault)).map(|fault| format!("a book that tells: {fault}"));
        let numbers = (0..14).filter(|number| !self.numbers.contains_key(number));
        caught.chain(numbers.map(|number| format!("a job of {number}"))).collect()
    }
}

impl fmt::Display for Tally {
    fn fmt(&self, f: &mut fmt::Formatter) -> fmt::Result {
        let numbers: Vec<String> = self.numbers.iter().map(|(number, count)| format!("{number}: {count}")).collect();
        writeln!(f, "prices of jobs, by refusal number (0: priced)\n  {}", numbers.join("  "))?;
        writeln!(f, "books of jobs, by what is wrong with them")?;
        for (damage, count) in &self.books {
            writeln!(f, "  {damage:<38}{count}")?;
        }
        writeln!(f, "wrong rules, and the books on which they print otherwise than the library")?;
        for fault in FAULTS {
            writeln!(f, "  {fault:<38}{}", self.caught.get(fault).unwrap_or(&0))?;
        }
        write!(f, "{} books: every report equal", self.books.values().sum::<u64>())
    }
}

/// A case of few steps, in two of five with something wrong.
fn small_case(r: &mut Random) -> Case {
    let tree = Tree { steps: r.within(1, 4) as usize, reversion: inputs::reversion(r) };
    let frequency = r.pick(&[1, 2, 4, 12]);
    let mut made = inputs::in_order(r, frequency, tree);
    if r.chance(40) {
        let which = if r.chance(50) { r.pick(&inputs::TO_A_COMMIT) } else { r.pick(&inputs::TO_A_PRICE) };
        inputs::damage_by(r, &mut made, which);
    }
    made
}

/// A job, made malformed in one case of ten by its bytes alone.
fn job(r: &mut Random, case: &Case, tally: &mut Tally) -> Known {
    let job = job_of(r, case);
    let lent = lengths(r, &job);
    *tally.numbers.entry(check_job(&job, lent)).or_default() += 1;
    let (answer, bond) = job.priced(MEMORIES);
    let mut bytes = job.bytes();
    if !r.chance(10) {
        return known(bytes, answer.map(|given| given.0), bond);
    }
    match r.below(3) {
        0 => bytes.truncate(bytes.len() - 1 - r.below(3)),
        1 => bytes.push(r.pick(&[0, 8, 10])),
        _ => bytes[0] = 2,
    }
    let (mut discounts, mut prices) = (untouched(MEMORIES.0), untouched(MEMORIES.1));
    assert_eq!(engine::prices_of_job(&bytes, &mut discounts, &mut prices), Err(1), "a malformed job");
    malformed(bytes)
}

pub fn check(r: &mut Random, own: u64, tally: &mut Tally) {
    let mut made = Vec::new();
    for k in 0..=SMALL_JOBS {
        let case = if k == 0 { inputs::case(r) } else { small_case(r) };
        made.push(job(r, &case, tally));
    }
    let (damage, file) = file(r, &made, own % SEEDS_A_LONG_BOOK == 0);
    let jobs: BTreeMap<&[u8], &Known> = made.iter().map(|job| (&job.bytes[..], job)).collect();
    let wanted = Rule("").report(&file, &jobs);
    check_report(&file, r.pick(&[ROOM, ROOM, ROOM + 1, 3_000, ROOM - 1, 0]), &wanted);
    check_report(&file, ROOM, &wanted);
    *tally.books.entry(damage).or_default() += 1;
    for fault in FAULTS {
        if Rule(fault).report(&file, &jobs) != wanted {
            *tally.caught.entry(fault).or_default() += 1;
        }
    }
}

/// Books that were worked out by hand: a bond of one step is its discount times its flow, with bound 2.
pub fn by_hand() {
    let job = |flow: u32, terms: Terms| Job { frequency: 1, reversion: 0, volatility: 0, version: None, quotes: vec![(5, 0.9)], flows: vec![flow], terms };
    let refused = |numbers: &[usize]| (1..14).map(|k| format!("refused {k} {}\n", numbers.iter().filter(|number| **number == k).count())).collect::<String>();
    let says = |jobs: &[Vec<u8>], behind: &[u8], priced: u64, numbers: &[usize], rest: &str| {
        let file: Vec<u8> = jobs.iter().flat_map(|job| framed(TAG, job)).chain(behind.iter().copied()).collect();
        check_report(&file, ROOM, &format!("priced {priced}\n{}{rest}", refused(numbers)));
    };
    let nothing = "bonds 0.000000000\noptions 0.000000000\nallowances 0\ndearest 0\n";
    let (low, high) = (job(0, Terms::Nothing).bytes(), job(2_000_000_000, Terms::Nothing).bytes());
    says(&[], &[], 0, &[], nothing);
    says(&[], &[TAG], 0, &[1], nothing);
    says(&[Vec::new()], &[10, 0, 0], 0, &[1, 1], nothing);
    says(&[low.clone(), low.clone()], &[], 2, &[], "bonds 0.000000000\noptions 0.000000000\nallowances 4\ndearest 1\n");
    let over = job(2_000_000_000, Terms::Dates(1, 0, vec![1])).bytes();
    says(&[over, low, high], &[], 2, &[13], "bonds 1.800000000\noptions 0.000000000\nallowances 4\ndearest 3\n");
    let put = job(1_000_000_000, Terms::Kind(2, 0, 1_000_000_000)).bytes();
    says(&vec![put; 500], &[], 500, &[], "bonds 450.000000000\noptions 50.000000000\nallowances 1000\ndearest 1\n");
    says(&vec![Vec::new(); 500], &[], 0, &[1; 500], nothing);
    says(&vec![Vec::new(); 500], &[TAG], 0, &[1; 501], nothing);
    says(&vec![Vec::new(); 502], &[], 0, &[1; 501], nothing);
}
