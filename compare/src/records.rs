// Job records: the library against the rule of document 02, request (xii), on random records, sound and spoiled by one edit, and on random jobs, whole and
// damaged. The rule forms a record's fields, reads the bytes again, and refuses with 1 what is not read as the same record. So that a difference would be seen,
// wrong rules stand beside it, each with one thing that is easily got wrong: a large run has a record or a job on which each of them answers otherwise.
use crate::engine;
use crate::inputs::Random;
use std::collections::BTreeMap;
use std::fmt;

pub const STEPS: usize = 255;
pub const DATES: usize = 4_672;
const LONGEST: usize = 4_700;
const OF_KIND: u64 = 8;
const DATED: u64 = 10;
const VERSION: u8 = 11;
const VERSION_AT: usize = 20;

// Places of the two lists of numbers.
const FREQUENCY: usize = 0;
const COUNT_OF_STEPS: usize = 1;
const VERSION_NUMBER: usize = 4;
const TAG: usize = 0;
const KIND: usize = 1;
const EXPIRY: usize = 2;
const STRIKE: usize = 3;
const COUNT: usize = 4;

/// Every place of a record.
#[derive(Clone, Debug, PartialEq, Eq)]
pub struct Record {
    /// Frequency, steps, reversion, volatility, version.
    pub head: [u64; 5],
    pub kinds: [u8; STEPS],
    pub figures: [u64; STEPS],
    pub flows: [u64; STEPS],
    /// Tag, kind or side, expiry, strike, count.
    pub option: [u64; 5],
    pub dates: [u8; DATES],
}

impl Record {
    pub const EMPTY: Record =
        Record { head: [0; 5], kinds: [0; STEPS], figures: [0; STEPS], flows: [0; STEPS], option: [0; 5], dates: [0; DATES] };
}

/// What a wrong rule gets wrong.
const FAULTS: [&str; 21] = [
    "low byte first", "version 1 written as none", "no version written as version 1", "a list of one row as a kind", "an empty list as no option",
    "NaN made quiet", "-0.0 as 0.0", "numbers cut to their fields", "4,701 bytes allowed", "4,699 bytes at most", "junk left out",
    "numbers of another tag left out", "limits judged", "version 3 allowed", "kind 7 allowed", "no kind 9", "a row of 255 refused", "6 before 1",
    "exact room refused", "bytes behind a job allowed", "no version read as version 1",
];
/// Records of which the wrong rules are tried on one.
const RECORDS_A_TRIAL: u64 = 4;

/// The rule, or a wrong one by its name.
#[derive(Clone, Copy)]
struct Rule(&'static str);

/// What is left of a job that is being read.
struct Fields<'a>(&'a [u8]);

impl<'a> Fields<'a> {
    fn tag(&self) -> Option<u8> {
        self.0.first().copied()
    }

    fn data(&mut self) -> Option<&'a [u8]> {
        let [_, high, low, rest @ ..] = self.0 else { return None };
        let size = *high as usize * 256 + *low as usize;
        let data = rest.get(..size)?;
        self.0 = &rest[size..];
        Some(data)
    }

    fn number(&mut self, tag: u8, width: usize) -> Option<u64> {
        let found = self.tag()?;
        let data = self.data()?;
        (found == tag && data.len() == width).then(|| number(data))
    }
}

fn number(data: &[u8]) -> u64 {
    data.iter().fold(0, |value, byte| value * 256 + *byte as u64)
}

impl Rule {
    fn is(self, fault: &str) -> bool {
        self.0 == fault
    }

    fn is_kind(self, tag: u8) -> bool {
        match tag {
            5 | 6 => true,
            7 => self.is("kind 7 allowed"),
            9 => !self.is("no kind 9"),
            _ => false,
        }
    }

    fn longest(self) -> usize {
        LONGEST + self.is("4,701 bytes allowed") as usize - self.is("4,699 bytes at most") as usize
    }

    fn version(self, fields: &mut Fields) -> Option<u64> {
        if fields.tag() != Some(VERSION) {
            return Some(self.is("no version read as version 1") as u64);
        }
        let version = fields.number(VERSION, 1)?;
        (version == 1 || version == 2 || version == 3 && self.is("version 3 allowed")).then_some(version)
    }

    fn option(self, fields: &mut Fields, record: &mut Record) -> Option<()> {
        let tag = fields.tag()? as u64;
        let data = fields.data()?;
        match (tag, data) {
            (OF_KIND, [kind, expiry, strike @ ..]) if strike.len() == 4 => {
                record.option = [tag, *kind as u64, *expiry as u64, number(strike), 0];
            }
            (DATED, [side, rest @ ..]) if rest.len() >= 4 => {
                let (strike, dates) = rest.split_at(4);
                if self.is("a row of 255 refused") && dates.contains(&255) {
                    return None;
                }
                record.option = [tag, *side as u64, 0, number(strike), dates.len() as u64];
                record.dates[..dates.len()].copy_from_slice(dates);
            }
            _ => return None,
        }
        Some(())
    }

    /// The record of a job's bytes.
    fn read(self, bytes: &[u8]) -> Option<Record> {
        let (mut fields, mut record) = (Fields(bytes), Record::EMPTY);
        for (place, width) in [1, 1, 2, 4].into_iter().enumerate() {
            record.head[place] = fields.number(place as u8 + 1, width)?;
        }
        record.head[VERSION_NUMBER] = self.version(&mut fields)?;
        let steps = record.head[COUNT_OF_STEPS] as usize;
        for place in 0..steps {
            record.kinds[place] = fields.tag().filter(|tag| self.is_kind(*tag))?;
            record.figures[place] = fields.number(record.kinds[place], 8)?;
        }
        for place in 0..steps {
            record.flows[place] = fields.number(7, 4)?;
        }
        if matches!(fields.tag(), Some(8 | 10)) {
            self.option(&mut fields, &mut record)?;
        }
        let ended = fields.0.is_empty() || self.is("bytes behind a job allowed");
        (ended && bytes.len() <= self.longest()).then_some(record)
    }

    /// A number in its field; nothing where it does not fit.
    fn put(self, out: &mut Vec<u8>, value: u64, width: usize) -> Option<()> {
        if width < 8 && value >> (8 * width) != 0 {
            return None;
        }
        let mut bytes = value.to_be_bytes()[8 - width..].to_vec();
        if self.is("low byte first") {
            bytes.reverse();
        }
        out.extend(bytes);
        Some(())
    }

    fn field(self, out: &mut Vec<u8>, tag: u8, numbers: &[(u64, usize)]) -> Option<()> {
        let size: usize = numbers.iter().map(|(_, width)| width).sum();
        out.extend([tag, (size / 256) as u8, size as u8]);
        numbers.iter().try_for_each(|(value, width)| self.put(out, *value, *width))
    }

    fn figure(self, bits: u64) -> u64 {
        match f64::from_bits(bits) {
            figure if figure.is_nan() && self.is("NaN made quiet") => bits | 1 << 51,
            figure if figure == 0.0 && self.is("-0.0 as 0.0") => 0,
            _ => bits,
        }
    }

    fn option_form(self, out: &mut Vec<u8>, record: &Record) -> Option<()> {
        let [tag, kind, expiry, strike, count] = record.option;
        let dates = record.dates.get(..count as usize)?;
        match tag {
            DATED if count == 0 && self.is("an empty list as no option") => Some(()),
            DATED if count == 1 && self.is("a list of one row as a kind") => self.field(out, 8, &[(kind, 1), (dates[0] as u64, 1), (strike, 4)]),
            DATED => {
                let rows = dates.iter().map(|row| (*row as u64, 1));
                self.field(out, 10, &[(kind, 1), (strike, 4)].into_iter().chain(rows).collect::<Vec<_>>())
            }
            OF_KIND => self.field(out, 8, &[(kind, 1), (expiry, 1), (strike, 4)]),
            _ => Some(()),
        }
    }

    /// The bytes that the fields give, whether they are a job or not.
    fn form(self, record: &Record) -> Option<Vec<u8>> {
        let (mut out, [frequency, steps, reversion, volatility, version]) = (Vec::new(), record.head);
        for (tag, value, width) in [(1, frequency, 1), (2, steps, 1), (3, reversion, 2), (4, volatility, 4)] {
            self.field(&mut out, tag, &[(value, width)])?;
        }
        match version {
            0 if self.is("no version written as version 1") => self.field(&mut out, VERSION, &[(1, 1)])?,
            0 => {}
            1 if self.is("version 1 written as none") => {}
            _ => self.field(&mut out, VERSION, &[(version, 1)])?,
        }
        let steps = steps as usize;
        let (kinds, flows) = (record.kinds.get(..steps)?, record.flows.get(..steps)?);
        for (kind, bits) in kinds.iter().zip(&record.figures) {
            self.field(&mut out, *kind, &[(self.figure(*bits), 8)])?;
        }
        for flow in flows {
            self.field(&mut out, 7, &[(*flow, 4)])?;
        }
        self.option_form(&mut out, record)?;
        Some(out)
    }

    /// The record without what this rule does not look at.
    fn judged(self, record: &Record) -> Record {
        let mut seen = record.clone();
        if self.is("junk left out") {
            let [steps, count] = [record.head[COUNT_OF_STEPS], record.option[COUNT]].map(|count| count as usize);
            seen.kinds[steps.min(STEPS)..].fill(0);
            seen.figures[steps.min(STEPS)..].fill(0);
            seen.flows[steps.min(STEPS)..].fill(0);
            seen.dates[count.min(DATES)..].fill(0);
        }
        if self.is("numbers cut to their fields") {
            let cut = |value: &mut u64, width: u32| *value &= (1 << (8 * width)) - 1;
            seen.head.iter_mut().zip([1, 1, 2, 4, 1]).for_each(|(value, width)| cut(value, width));
            seen.option.iter_mut().zip([1, 1, 1, 4, 2]).for_each(|(value, width)| cut(value, width));
            seen.flows.iter_mut().for_each(|flow| cut(flow, 4));
        }
        if self.is("numbers of another tag left out") {
            let unused: &[usize] = match record.option[TAG] {
                OF_KIND => &[COUNT],
                DATED => &[EXPIRY],
                _ => &[KIND, EXPIRY, STRIKE, COUNT],
            };
            unused.iter().for_each(|place| seen.option[*place] = 0);
        }
        seen
    }

    /// The bytes that a record is written as, or a refusal's number.
    fn write(self, record: &Record, room: usize) -> Result<Vec<u8>, u64> {
        let (judged, limited) = (self.judged(record), self.is("limits judged"));
        let formed = self.form(&judged);
        let size = formed.as_ref().map_or(0, Vec::len);
        if self.is("6 before 1") && room < size {
            return Err(6);
        }
        if limited && (![1, 2, 4, 12].contains(&record.head[FREQUENCY]) || record.head[COUNT_OF_STEPS] > 60) {
            return Err(1);
        }
        let job = formed.filter(|job| self.read(job).as_ref() == Some(&judged)).ok_or(1u64)?;
        if room < size + self.is("exact room refused") as usize {
            return Err(6);
        }
        Ok(job)
    }
}

// Records and jobs

/// NaN of both kinds, both zeros, infinities, all ones, a discount factor and a rate.
const STRANGE: [u64; 9] = [
    0x7FF0_0000_0000_0001, 0x7FF8_0000_0000_0123, 0xFFF4_0000_0000_0000, 1 << 63, 0, 0x7FF0_0000_0000_0000, u64::MAX, 0x3FEF_5C28_F5C2_8F5C,
    0x3F9E_B851_EB85_1EB8,
];

fn within(r: &mut Random, width: u32) -> u64 {
    let most = (1u64 << (8 * width)) - 1;
    match r.below(4) {
        0 => r.pick(&[0, 1, most, most - 1]),
        1 => r.within(0, 12),
        _ => r.within(0, most),
    }
}

fn dates(r: &mut Random, record: &mut Record, used: usize) {
    let room = LONGEST - used - 8;
    let count = match r.below(8) {
        0 => 0,
        1 => 1,
        2 => room,
        3 => room + 1,
        4 => r.within(0, room as u64) as usize,
        _ => r.within(1, 60.min(room as u64)) as usize,
    };
    let count = count.min(DATES);
    record.option = [DATED, within(r, 1), 0, within(r, 4), count as u64];
    record.dates[..count].iter_mut().for_each(|row| *row = r.pick(&[0, 3, 7, 255]));
}

/// A record in good order, which may be too long by one row.
fn sound(r: &mut Random) -> Record {
    let mut record = Record::EMPTY;
    let steps = match r.below(6) {
        0 => r.pick(&[0, 60, 61, 254, 255]),
        1 => r.within(0, 255) as usize,
        _ => r.within(0, 12) as usize,
    };
    let frequency = if r.chance(60) { r.pick(&[1, 2, 4, 12]) } else { within(r, 1) };
    record.head = [frequency, steps as u64, within(r, 2), within(r, 4), r.within(0, 2)];
    for place in 0..steps {
        record.kinds[place] = r.pick(&[5, 6, 9]);
        record.figures[place] = if r.chance(50) { r.pick(&STRANGE) } else { r.bits() };
        record.flows[place] = within(r, 4);
    }
    let used = 20 + 4 * (record.head[VERSION_NUMBER] != 0) as usize + 18 * steps;
    match r.below(4) {
        0 => {}
        1 => record.option = [OF_KIND, within(r, 1), within(r, 1), within(r, 4), 0],
        _ => dates(r, &mut record, used),
    }
    record
}

/// Any place from one on, mostly the first or the last of them.
fn place_from(r: &mut Random, from: usize, places: usize) -> Option<usize> {
    let last = places.checked_sub(1).filter(|last| from <= *last)?;
    Some(if r.chance(50) { r.pick(&[from, last]) } else { r.within(from as u64, last as u64) as usize })
}

fn junk(r: &mut Random, record: &mut Record) {
    let (steps, count) = (record.head[COUNT_OF_STEPS] as usize, record.option[COUNT] as usize);
    let (place, date) = (place_from(r, steps, STEPS), place_from(r, count, DATES));
    match (r.below(4), place, date) {
        (0, Some(place), _) => record.kinds[place] = r.pick(&[1, 5, 7, 9]),
        (1, Some(place), _) => record.figures[place] = r.pick(&[1, 1 << 63, 256]),
        (2, Some(place), _) => record.flows[place] = r.pick(&[1, 1 << 32, 256]),
        (_, _, Some(date)) => record.dates[date] = r.pick(&[1, 255]),
        _ => record.option[TAG] = 7,
    }
}

/// Adds what a narrower number would lose.
fn enlarge(r: &mut Random, number: &mut u64) {
    *number = number.wrapping_add(r.pick(&[1 << 8, 1 << 16, 1 << 32, 1 << 63, u64::MAX - *number]));
}

/// One edit, by its name.
fn spoil(r: &mut Random, record: &mut Record) -> &'static str {
    let steps = record.head[COUNT_OF_STEPS] as usize;
    match r.below(9) {
        0 | 1 => {
            junk(r, record);
            "unused place"
        }
        2 => {
            let place = r.below(5);
            enlarge(r, &mut record.head[place]);
            "head made larger"
        }
        3 => {
            let place = r.below(5);
            enlarge(r, &mut record.option[place]);
            "option made larger"
        }
        4 if steps > 0 => {
            let place = r.below(steps);
            enlarge(r, &mut record.flows[place]);
            "flow made larger"
        }
        5 if steps > 0 => {
            record.kinds[r.below(steps)] = r.pick(&[0, 4, 7, 7, 7, 8, 10, 11, 255]);
            "kind of a quote"
        }
        6 => {
            record.head[VERSION_NUMBER] = r.pick(&[3, 255, 256 + 1, (1 << 32) + 2]);
            "version"
        }
        7 => {
            record.option[r.pick(&[KIND, EXPIRY, STRIKE, COUNT])] = r.within(1, 3);
            "number of the option"
        }
        _ => {
            let count = &mut record.head[COUNT_OF_STEPS];
            *count = if r.chance(50) { *count + 1 } else { count.saturating_sub(1) };
            "steps by one"
        }
    }
}

/// Bytes changed, lost, added, cut off, or a version's field put in.
fn damaged(r: &mut Random, mut job: Vec<u8>) -> (&'static str, Vec<u8>) {
    let place = match r.below(3) {
        0 => r.below(job.len()),
        1 => r.below(job.len().min(28)),
        _ => job.len() - 1 - r.below(job.len().min(16)),
    };
    let edit = r.pick(&["cut short", "byte lost", "byte more", "byte behind", "version put in", "byte changed"]);
    match edit {
        "cut short" => job.truncate(place),
        "byte lost" => drop(job.remove(place)),
        "byte more" => job.insert(place, r.bits() as u8),
        "byte behind" => job.push(r.bits() as u8),
        "version put in" => drop(job.splice(VERSION_AT..VERSION_AT, [VERSION, 0, 1, r.below(4) as u8])),
        _ => job[place] = r.bits() as u8,
    }
    (edit, job)
}

/// Room for a record: just enough, one short, none, any, or more than every job.
fn room(r: &mut Random, size: usize) -> usize {
    match r.below(6) {
        0 => size.saturating_sub(1),
        1 => 0,
        2 => r.within(0, LONGEST as u64) as usize,
        3 => LONGEST + 1,
        _ => size,
    }
}

// What is compared

#[derive(Default)]
pub struct Tally {
    records: u64,
    written: BTreeMap<&'static str, BTreeMap<u64, u64>>,
    read: BTreeMap<&'static str, BTreeMap<u64, u64>>,
    caught: BTreeMap<&'static str, u64>,
}

impl Tally {
    /// What a large run has at least once, and this one has not.
    pub fn missing(&self) -> Vec<String> {
        let caught = FAULTS.iter().filter(|fault| !self.caught.contains_key(*fault)).map(|fault| format!("a record or a job that tells: {fault}"));
        let numbers = [0, 1, 6].into_iter().filter(|number| !self.written.values().any(|seen| seen.contains_key(number)));
        caught.chain(numbers.map(|number| format!("a record written with {number}"))).collect()
    }
}

impl fmt::Display for Tally {
    fn fmt(&self, f: &mut fmt::Formatter) -> fmt::Result {
        let words = |numbers: &BTreeMap<u64, u64>| numbers.iter().map(|(number, count)| format!("{number}: {count}")).collect::<Vec<_>>().join("  ");
        for (heading, seen) in [("job records written, by their edit and number (0: written)", &self.written), ("jobs read, by number (0: read)", &self.read)] {
            writeln!(f, "{heading}")?;
            for (edit, numbers) in seen {
                writeln!(f, "  {edit:<22}{}", words(numbers))?;
            }
        }
        writeln!(f, "wrong rules, and the records on which they answer otherwise than the library")?;
        for fault in FAULTS {
            writeln!(f, "  {fault:<34}{}", self.caught.get(fault).unwrap_or(&0))?;
        }
        write!(f, "{} records and as many jobs: every byte and every field equal, both ways", self.records)
    }
}

/// What the library reads, which must be what the rule reads; a job that is read is written again as its own bytes.
fn read(job: &[u8]) -> Option<Record> {
    let found = engine::read_job(job).ok();
    assert_eq!(found, Rule("").read(job), "library left, rule right: {job:?}");
    if let Some(record) = &found {
        assert_eq!(engine::write_job(record, job.len()), Ok(job.to_vec()), "a job that is not written as its own bytes");
    }
    found
}

/// What the library writes, which must be what the rule writes; a record that is written is read again as itself.
fn write(record: &Record, room: usize) -> Result<Vec<u8>, u64> {
    let found = engine::write_job(record, room);
    assert_eq!(found, Rule("").write(record, room), "library left, rule right, room {room}: {record:?}");
    if let Ok(job) = &found {
        assert_eq!(engine::read_job(job).as_ref(), Ok(record), "a record that is not read as itself");
    }
    found
}

pub fn check(r: &mut Random, own: u64, tally: &mut Tally) {
    let whole = sound(r);
    let (mut record, mut edit) = (whole.clone(), "as it was made");
    if r.chance(60) {
        edit = spoil(r, &mut record);
    }
    let formed = Rule("").form(&record).map_or(LONGEST, |job| job.len());
    let room = room(r, formed);
    let written = write(&record, room);
    *tally.written.entry(edit).or_default().entry(written.as_ref().err().copied().unwrap_or(0)).or_default() += 1;
    let job = Rule("").form(&whole).expect("a sound record has a form");
    let (edit, job) = if r.chance(40) { damaged(r, job) } else { ("whole", job) };
    let found = read(&job);
    *tally.read.entry(edit).or_default().entry(found.is_none() as u64).or_default() += 1;
    tally.records += 1;
    if own % RECORDS_A_TRIAL == 0 {
        for fault in FAULTS {
            if Rule(fault).write(&record, room) != written || Rule(fault).read(&job) != found {
                *tally.caught.entry(fault).or_default() += 1;
            }
        }
    }
}

/// The job that document 01 prints with its record by hand, and jobs of 4,700 bytes with a row more.
pub fn by_hand() {
    let printed: Vec<u8> = vec![
        1, 0, 1, 1, 2, 0, 1, 1, 3, 0, 2, 0, 0, 4, 0, 4, 0, 0, 0, 0, 5, 0, 8, 0x3F, 0xF0, 0x0A, 0x3D, 0x70, 0xA3, 0xD7, 0x0A, 7, 0, 4, 0x3B, 0x9A, 0xCA, 0, 8, 0,
        6, 4, 1, 0x3C, 0x33, 0x60, 0x80,
    ];
    let mut record = Record::EMPTY;
    (record.head, record.option) = ([1, 1, 0, 0, 0], [OF_KIND, 4, 1, 1_010_000_000, 0]);
    (record.kinds[0], record.figures[0], record.flows[0]) = (5, 0x3FF0_0A3D_70A3_D70A, 1_000_000_000);
    assert_eq!(engine::read_job(&printed).as_ref(), Ok(&record));
    assert_eq!(engine::write_job(&record, printed.len()).as_ref(), Ok(&printed));
    assert_eq!(engine::write_job(&record, printed.len() - 1), Err(6));
    for (version, rows) in [(0, 82), (1, 78), (2, 78)] {
        let mut longest = Record::EMPTY;
        longest.head = [3, 255, 65_535, 0, version];
        longest.kinds.fill(9);
        longest.option = [DATED, 1, 0, 0, rows];
        assert_eq!(write(&longest, LONGEST).map(|job| job.len()), Ok(LONGEST));
        assert_eq!(write(&longest, LONGEST - 1), Err(6));
        longest.option[COUNT] += 1;
        assert_eq!(write(&longest, LONGEST + 1), Err(1));
        assert_eq!(write(&longest, 0), Err(1));
    }
}
