// Random scripts of calls on a shelf, each call drawn from what the shelf holds by then: calls as a desk makes them, and ones with something wrong.
use crate::engine::Held;
use crate::inputs::{self, Case, Random};
use crate::rules::{Carried, Contract, Curve, DatedOption, Tree, MOST_STEPS};
use crate::shelf::{Shelf, MEMORY, NAMES};
use std::collections::BTreeMap;

#[derive(Clone, Debug)]
pub enum Call {
    Ask { name: usize, tree: Tree },
    Commit { name: usize, frequency: u64, volatility: u64, curve: Curve },
    Release { name: usize },
    /// All seven entries of prices.
    Price { name: usize, flows: Vec<u64>, contract: Contract, dated: DatedOption, strikes: Vec<u64> },
}

/// Slots as no calls leave them, by what is wrong with them.
#[derive(Clone, Debug)]
pub struct Alteration {
    pub called: &'static str,
    pub slots: Vec<(usize, Held)>,
}

/// Trees by the nodes that they need.
pub struct Sizes(BTreeMap<usize, Vec<Tree>>);

impl Sizes {
    /// Reversions of every half width that differs, and the greatest.
    pub fn new() -> Sizes {
        let mut sizes: BTreeMap<usize, Vec<Tree>> = BTreeMap::new();
        for steps in 1..=60 {
            let mut former = usize::MAX;
            for reversion in (0..=1_841).chain([6_000]) {
                let tree = Tree { steps, reversion };
                let nodes = tree.discounts_needed();
                if nodes != former || reversion == 6_000 {
                    sizes.entry(nodes).or_default().push(tree);
                    former = nodes;
                }
            }
        }
        Sizes(sizes)
    }

    fn at_most(&self, r: &mut Random, nodes: usize) -> Option<Tree> {
        self.0.range(..=nodes).next_back().map(|(_, trees)| r.pick(trees))
    }

    fn above(&self, r: &mut Random, nodes: usize) -> Option<Tree> {
        self.0.range(nodes + 1..).next().map(|(_, trees)| r.pick(trees))
    }
}

/// What a script's trees are like: their greatest number of steps, and how often a tree is asked for by the nodes that are left.
#[derive(Clone, Copy, Debug)]
pub struct Style {
    most_steps: u64,
    filling: u64,
}

pub fn style(r: &mut Random) -> Style {
    match r.below(20) {
        0..=11 => Style { most_steps: 6, filling: 5 },
        12..=18 => Style { most_steps: 18, filling: 60 },
        _ => Style { most_steps: 60, filling: 20 },
    }
}

/// A name out of the wanted ones or any, at times with what it would lose if it were cut to fewer bits, at times outside.
fn name(r: &mut Random, wanted: &[usize]) -> usize {
    let name = if wanted.is_empty() || r.chance(8) { 1 + r.below(NAMES) } else { r.pick(wanted) };
    match r.below(50) {
        0..=1 => name + r.pick(&[1 << 8, 1 << 16, 1 << 32]),
        2 => r.pick(&[0, 9, 1 << 8, 1 << 32, usize::MAX]),
        _ => name,
    }
}

/// Steps or reversion at their limits, past them, or wider.
fn spoil_tree(r: &mut Random, tree: &mut Tree) {
    let (n, b) = (tree.steps, tree.reversion);
    if r.chance(60) {
        tree.steps = r.pick(&[0, 1, 60, 61, 70, n + (1 << 8), n + (1 << 16), n + (1 << 32), usize::MAX]);
    }
    if r.chance(60) {
        tree.reversion = r.pick(&[0, 6_000, 6_001, 65_535, b + (1 << 8), b + (1 << 16), b + (1 << 32), u64::MAX]);
    }
}

/// A tree to ask for: any, one that just fits what is left, or one that just does not.
fn asked(r: &mut Random, shelf: &Shelf, style: Style, sizes: &Sizes) -> Tree {
    let any = Tree { steps: r.within(1, style.most_steps) as usize, reversion: inputs::reversion(r) };
    let left = MEMORY - shelf.held();
    let mut tree = any;
    if r.chance(style.filling) {
        let share = r.within(1, 4);
        tree = match r.below(4) {
            0 => sizes.at_most(r, left),
            1 => sizes.above(r, left),
            _ => sizes.at_most(r, left / share as usize),
        }
        .unwrap_or(any);
    }
    if r.chance(8) {
        spoil_tree(r, &mut tree);
    }
    tree
}

/// A case for a name's tree, or for any tree where it has none.
fn case_of(r: &mut Random, shelf: &Shelf, name: usize, style: Style) -> Case {
    let frequency = r.pick(&[1, 2, 4, 12]);
    let any = Tree { steps: r.within(1, style.most_steps) as usize, reversion: 0 };
    let tree = shelf.named(name).map_or(any, |shelved| shelved.tree);
    inputs::in_order(r, frequency, tree)
}

fn damaged(r: &mut Random, case: &mut Case, percent: u64, ways: &[usize]) {
    if r.chance(percent) {
        for _ in 0..r.within(1, 3) {
            let which = r.pick(ways);
            inputs::damage_by(r, case, which);
        }
    }
}

fn ask(r: &mut Random, shelf: &Shelf, style: Style, sizes: &Sizes) -> Call {
    let wanted = shelf.names(&[0]);
    Call::Ask { name: name(r, &wanted), tree: asked(r, shelf, style, sizes) }
}

fn commit(r: &mut Random, shelf: &Shelf, style: Style, wanted: &[usize]) -> Call {
    let name = name(r, wanted);
    let mut case = case_of(r, shelf, name, style);
    if r.chance(5) {
        (case.fit.frequency, case.fit.volatility) = (1, 50_000);
    }
    damaged(r, &mut case, 30, &inputs::TO_A_COMMIT);
    Call::Commit { name, frequency: case.fit.frequency, volatility: case.fit.volatility, curve: case.fit.curve }
}

fn price(r: &mut Random, shelf: &Shelf, style: Style, wanted: &[usize]) -> Call {
    let name = name(r, wanted);
    let mut case = case_of(r, shelf, name, style);
    damaged(r, &mut case, 35, &inputs::TO_A_PRICE);
    Call::Price { name, flows: case.flows, contract: case.contract, dated: case.dated, strikes: case.strikes }
}

/// A price of one name.
pub fn price_of(r: &mut Random, shelf: &Shelf, style: Style, name: usize) -> Call {
    let case = case_of(r, shelf, name, style);
    Call::Price { name, flows: case.flows, contract: case.contract, dated: case.dated, strikes: case.strikes }
}

/// Mostly commits of trees that await one, and prices of fitted trees; where there is none, mostly an asking in its place.
pub fn call(r: &mut Random, shelf: &Shelf, style: Style, sizes: &Sizes) -> Call {
    let (which, status) = (r.below(100), if r.chance(85) { 0 } else { 1 });
    let wanted = match which {
        0..=29 => shelf.names(&[[1, 2][status]]),
        30..=49 => shelf.names(&[[2, 1][status]]),
        _ => shelf.names(&[1, 2]),
    };
    match which {
        0..=69 if wanted.is_empty() && r.chance(85) => ask(r, shelf, style, sizes),
        0..=29 => commit(r, shelf, style, &wanted),
        30..=49 => price(r, shelf, style, &wanted),
        50..=69 => Call::Release { name: name(r, &wanted) },
        _ => ask(r, shelf, style, sizes),
    }
}

/// Slots that hold more than the memory does: one name's tree is so great that the others have no room beside it.
fn too_many(r: &mut Random, shelf: &Shelf, sizes: &Sizes, place: usize) -> Vec<(usize, Held)> {
    let others = shelf.held() - shelf.part(place + 1).1;
    let status = r.within(1, 2);
    if others == 0 {
        return vec![(place, (status, 60, 0)), ((place + 1) % NAMES, (1, 1, 0))];
    }
    let tree = sizes.above(r, MEMORY - others).expect("a tree of more nodes");
    vec![(place, (status, tree.steps, tree.reversion))]
}

pub fn alteration(r: &mut Random, shelf: &Shelf, sizes: &Sizes) -> Alteration {
    let place = r.below(NAMES);
    let tree = shelf.named(place + 1).map_or(Tree { steps: 2, reversion: 83 }, |shelved| shelved.tree);
    let (n, b, status) = (tree.steps, tree.reversion, r.within(1, 2));
    let altered = |held: Held| vec![(place, held)];
    let (called, slots) = match r.below(4) {
        0 => ("status", altered((r.pick(&[3, 4, 255, status + (1 << 8), status + (1 << 16), status + (1 << 32), u64::MAX]), n, b))),
        1 => ("steps", altered((status, r.pick(&[0, 61, 70, n + (1 << 8), n + (1 << 16), n + (1 << 32), usize::MAX]), b))),
        2 => ("reversion", altered((status, n, r.pick(&[6_001, b + (1 << 16), b + (1 << 32), u64::MAX])))),
        _ => ("too many nodes", too_many(r, shelf, sizes, place)),
    };
    Alteration { called, slots }
}

/// A place, mostly of a fitted tree, and numbers for it to carry that are not the rule's: another bound, another row's greatest, a row too
/// many, a row too few, or numbers of any size.
pub fn carried(r: &mut Random, shelf: &Shelf) -> (usize, &'static str, Carried) {
    let fitted = shelf.names(&[2]);
    let place = if fitted.is_empty() || r.chance(15) { r.below(NAMES) } else { r.pick(&fitted) - 1 };
    let ((_, steps, _), own) = shelf.slots()[place];
    let (mut bound, mut greatest, any) = (own.bound, own.greatest, r.bits());
    let called = match r.below(5) {
        0 => { bound = r.pick(&[0, 1, bound.wrapping_add(1), bound.wrapping_sub(1), bound.wrapping_add(1 << 32), u64::MAX, any]); "bound" }
        1 => { greatest[r.below(MOST_STEPS)] = r.pick(&[0, 1, 1_100_000_001, u64::MAX, any]); "greatest" }
        2 => { greatest.rotate_left(1); "greatest of another row" }
        3 => { greatest[steps.min(MOST_STEPS - 1)..].fill(any); "greatest of no row" }
        _ => { (bound, greatest) = (any, std::array::from_fn(|_| r.bits())); "bound and greatest" }
    };
    (place, called, Carried { bound, greatest })
}
