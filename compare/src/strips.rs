// What is compared of a strip of strikes (document 02, request (x)): each answer with the rule for its strike and with the single call for it, the
// places past the strikes, and the strip's own causes. A difference panics.
use crate::checks::Terms;
use crate::engine;
use crate::rules::{Contract, DatedOption, Outcome, Strip, Tree, CALL, DISCOUNT_LIMIT, FLOW_LIMIT, MOST_STRIKES, ONE, PUT, STRIKE_LIMIT};
use std::collections::BTreeMap;
use std::fmt;

/// The lengths that a large run has, accepted and refused.
const LENGTHS: [usize; 4] = [1, 2, 15, 16];
/// Numbers that stand beside each other in one strip: a strike above its limit beside prices and beside a bad list; then also beside a bond above its limit,
/// and an option above the limit beside prices, which few trees of a shelf have.
pub const ON_A_SHELF: &[(u64, u64)] = &[(0, 11), (11, 13)];
pub const ON_ANY_TREE: &[(u64, u64)] = &[(0, 11), (11, 13), (11, 12), (0, 12)];

#[derive(Default)]
pub struct Tally {
    /// By the strip's own number.
    own: BTreeMap<u64, u64>,
    /// Accepted ones by their length, and answers by their number.
    lengths: BTreeMap<usize, u64>,
    answers: BTreeMap<u64, u64>,
    beside: BTreeMap<(u64, u64), u64>,
    /// Answers of strikes that stood in their strip before.
    equal: u64,
}

fn number<T>(outcome: &Outcome<T>) -> u64 {
    outcome.as_ref().err().copied().unwrap_or(0)
}

fn counts<K: fmt::Debug, N: fmt::Display>(map: &BTreeMap<K, N>) -> String {
    map.iter().map(|(key, count)| format!("{key:?}: {count}")).collect::<Vec<_>>().join("  ")
}

impl Tally {
    pub fn count(&mut self, strip: &Strip) {
        *self.own.entry(number(strip)).or_default() += 1;
        let Ok(answers) = strip else { return };
        *self.lengths.entry(answers.len()).or_default() += 1;
        let mut numbers: Vec<u64> = answers.iter().map(number).collect();
        for (place, answer) in answers.iter().enumerate() {
            *self.answers.entry(numbers[place]).or_default() += 1;
            self.equal += (answer.is_ok() && answers[..place].contains(answer)) as u64;
        }
        numbers.sort();
        numbers.dedup();
        for (place, first) in numbers.iter().enumerate() {
            for second in &numbers[place + 1..] {
                *self.beside.entry((*first, *second)).or_default() += 1;
            }
        }
    }

    /// What a large run has at least once, and this one has not.
    pub fn missing(&self, beside: &[(u64, u64)]) -> Vec<String> {
        let lengths = LENGTHS.iter().filter(|length| !self.lengths.contains_key(length)).map(|length| format!("{length} strikes"));
        let beside = beside.iter().filter(|pair| !self.beside.contains_key(pair)).map(|(one, other)| format!("{one} beside {other}"));
        let own = [0, 6].into_iter().filter(|own| !self.own.contains_key(own)).map(|own| format!("own number {own}"));
        lengths.chain(beside).chain(own).chain((self.equal == 0).then(|| "equal answers".to_string())).collect()
    }
}

impl fmt::Display for Tally {
    fn fmt(&self, f: &mut fmt::Formatter) -> fmt::Result {
        writeln!(f, "strips, by their own number (0: accepted)\n  {}", counts(&self.own))?;
        writeln!(f, "accepted strips, by their length\n  {}", counts(&self.lengths))?;
        writeln!(f, "answers of strips, by refusal number (0: priced)\n  {}", counts(&self.answers))?;
        writeln!(f, "strips in which two numbers stand beside each other\n  {}", counts(&self.beside))?;
        write!(f, "priced answers equal to one before them in their strip {}", self.equal)
    }
}

/// A strip against the rules and, where it is accepted, against the single calls.
fn same(what: &str, found: &Strip, ruled: &Strip, each: impl Iterator<Item = Outcome<(u64, u64)>>, tally: &mut Tally) {
    assert_eq!(found, ruled, "{what}: library left, rules right");
    if let Ok(answers) = found {
        assert!(answers.iter().copied().eq(each), "{what}: not what each strike alone gives: {answers:?}");
    }
    tally.count(found);
}

/// Strips of a kind and of a list on any discounts; the same rights by both are one whole answer.
pub fn on_lent(tree: &Tree, discounts: &[u64], terms: &Terms, tally: &mut Tally) {
    let Terms { flows, contract, dated, strikes } = *terms;
    let of_kind = engine::kind_strip(tree, discounts, flows, contract, strikes);
    let each = strikes.iter().map(|strike| engine::option(tree, discounts, flows, &Contract { strike: *strike, ..*contract }));
    same("strip of a kind", &of_kind, &tree.kind_strip(discounts, flows, contract, strikes), each, tally);
    let found = engine::dated_strip(tree, discounts, flows, dated, strikes);
    let each = strikes.iter().map(|strike| engine::dated_option(tree, discounts, flows, &dated.struck(*strike)));
    same("strip of dates", &found, &tree.dated_strip(discounts, flows, dated, strikes), each, tally);
    if let Some(list) = contract.dated(tree.steps) {
        assert_eq!(engine::dated_strip(tree, discounts, flows, &list, strikes), of_kind, "a strip of a list left, of its kind right");
    }
}

fn priced(value: u64) -> Outcome<(u64, u64)> {
    Ok((value, 33))
}

/// Nine steps, every discount 1.1, no flows, puts on row 8: a value of 4 × one times 1.1 eight times is above the limit on the way, those of 3 × one and
/// of one are not; the bound is 0 times 1.1, up, and 2 more, nine times. With every flow at its limit the bond itself is above the limit.
pub fn by_hand() {
    let tree = Tree { steps: 9, reversion: 0 };
    let (discounts, none, most) = ([DISCOUNT_LIMIT; 81], [0; 9], [FLOW_LIMIT; 9]);
    let put = |dates: &[u8]| DatedOption { side: PUT, strike: 0, dates: dates.to_vec() };
    let european = Contract { kind: 2, expiry: 8, strike: 0 };
    let (strikes, above) = ([4 * ONE, 3 * ONE, 4 * ONE, ONE], [ONE, STRIKE_LIMIT + 1, STRIKE_LIMIT]);
    let wanted = Ok(vec![Err(12), priced(6_430_766_430), Err(12), priced(2_143_588_810)]);
    assert_eq!(engine::dated_strip(&tree, &discounts, &none, &put(&[8]), &strikes), wanted, "a strip by hand");
    assert_eq!(engine::kind_strip(&tree, &discounts, &none, &european, &strikes), wanted, "a strip by hand");
    assert_eq!(tree.dated_strip(&discounts, &none, &put(&[8]), &strikes), wanted, "rules of a strip by hand");
    for (flows, dates, number) in [(none, vec![9], 13), (most, vec![8], 12), (most, vec![], 13), (most, vec![8, 8], 13)] {
        let wanted = Ok(vec![Err(number), Err(11), Err(number)]);
        assert_eq!(engine::dated_strip(&tree, &discounts, &flows, &put(&dates), &above), wanted, "a strip of {dates:?} by hand");
    }
    assert_eq!(engine::dated_strip(&tree, &discounts, &none, &put(&[]), &[]), Err(6), "an empty strip of a bad list");
    let (last, wanted) = ([3_732_059_042, 3_732_059_041], Ok(vec![Err(12), priced(7_999_999_999)]));
    assert_eq!(engine::dated_strip(&tree, &discounts, &none, &put(&[8]), &last), wanted, "the last strike before 12");
    assert_eq!((discounts, none), ([DISCOUNT_LIMIT; 81], [0; 9]), "a strip has written what it was lent");
}

/// Of five steps at discounts of one, a bond that pays 2 × one on rows 2 to 5 is worth 8 × one on row 1 and today: so is a call at 0 on row 1, whose value
/// stands at its limit on the way.
pub fn limit_by_hand() {
    let (tree, discounts, flows) = (Tree { steps: 5, reversion: 0 }, [ONE; 25], [0, FLOW_LIMIT, FLOW_LIMIT, FLOW_LIMIT, FLOW_LIMIT]);
    let call = DatedOption { side: CALL, strike: 0, dates: vec![1] };
    let wanted = Ok(vec![Ok((8 * ONE, 10)), Ok((8 * ONE - 1, 10)), Err(11), Ok((8 * ONE, 10))]);
    assert_eq!(engine::dated_strip(&tree, &discounts, &flows, &call, &[0, 1, STRIKE_LIMIT + 1, 0]), wanted, "values at their limit");
}

/// Every length from 0 to 20 and some that a narrower count would lose: all from 1 to 16 are taken. A strip is the beginning of a longer one.
pub fn every_length(tally: &mut Tally) {
    let some = [ONE, 980_000_000, STRIKE_LIMIT + 1, 0, ONE, 2 * ONE, STRIKE_LIMIT];
    let strikes: Vec<u64> = (0..66_000).map(|place| some[place % some.len()] + place as u64 / 7).collect();
    for tree in [Tree { steps: 5, reversion: 0 }, Tree { steps: 60, reversion: 1_000 }] {
        let (discounts, flows) = (vec![990_000_000; tree.discounts_needed()], vec![ONE / 20; tree.steps]);
        let contract = Contract { kind: 4, expiry: tree.steps - 1, strike: 0 };
        let dated = DatedOption { side: PUT, strike: 0, dates: vec![0, 3] };
        let whole = engine::dated_strip(&tree, &discounts, &flows, &dated, &strikes[..MOST_STRIKES]).expect("a strip");
        for length in (0..=20).chain([256 + 3, 256 + 16, 65_536 + 3]) {
            let terms = Terms { flows: &flows, contract: &contract, dated: &dated, strikes: &strikes[..length] };
            on_lent(&tree, &discounts, &terms, tally);
            let found = engine::dated_strip(&tree, &discounts, &flows, &dated, terms.strikes);
            assert_eq!(found.ok().as_deref(), whole.get(..length).filter(|_| length > 0), "the beginning of a strip");
        }
    }
}

/// A tree, its discounts, flows, side, dates and count of strikes, with a set of the causes 3, 4, 6 of the strikes, 6 of the flows, 9, 10, 11 and 13.
fn with_causes(set: u32, way: usize) -> (Tree, Vec<u64>, Vec<u64>, DatedOption, Vec<u64>) {
    let has = |place: u32| set >> place & 1 == 1;
    let steps = if has(0) { [0, 61, 3 + (1 << 8), 3 + (1 << 32), usize::MAX][way % 5] } else { 3 };
    let reversion = if has(1) { [6_001, 1 << 16, 1 << 32, u64::MAX][way % 4] } else { 0 };
    let count = if has(2) { [0, 17, 256 + 1, 0][way % 4] } else { [1, 2, 15, 16][way % 4] };
    let mut discounts = vec![ONE; 9];
    discounts[way % 9] = if has(4) { [0, DISCOUNT_LIMIT + 1, ONE + (1 << 32)][way % 3] } else { ONE };
    let mut flows = vec![0; if has(3) { [0, 2, 4, 256 + 3][way % 4] } else { 3 }];
    if let (true, Some(flow)) = (has(5), flows.last_mut()) {
        *flow = [FLOW_LIMIT + 1, ONE + (1 << 32)][way % 2];
    }
    let side = if has(6) { [0, 3, PUT + (1 << 8), PUT + (1 << 32)][way % 4] } else { PUT };
    let dates = if has(7) { [vec![], vec![3], vec![1, 1], vec![2, 1]][way % 4].clone() } else { vec![0, 2] };
    let strikes = (0..count).map(|k| if k % 3 == 1 { STRIKE_LIMIT + 1 + way as u64 } else { ONE }).collect();
    (Tree { steps, reversion }, discounts, flows, DatedOption { side, strike: 0, dates }, strikes)
}

/// Every set of causes: the strip's own are 3, 4 and 6 of its strikes, in this order, and all others stand in the answers.
pub fn causes(tally: &mut Tally) {
    for (set, way) in (0..256).flat_map(|set| (0..60).map(move |way| (set, way))) {
        let (tree, discounts, flows, dated, strikes) = with_causes(set, way);
        let own = [3, 4, 6].into_iter().zip(0..).find(|(_, place)| set >> place & 1 == 1).map(|(own, _)| own);
        let found = engine::dated_strip(&tree, &discounts, &flows, &dated, &strikes);
        assert_eq!(found.err(), own, "{tree:?}, {} strikes: library left, the strip's own cause right", strikes.len());
        let contract = Contract { kind: dated.side, expiry: dated.dates.last().map_or(3, |last| *last as usize), strike: 0 };
        on_lent(&tree, &discounts, &Terms { flows: &flows, contract: &contract, dated: &dated, strikes: &strikes }, tally);
    }
}
