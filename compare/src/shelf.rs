// The shelf of document 02, requests (vii) and (viii), with strips by (x), as a desk sees it: under each name a tree with its own list of discounts, or
// none. Nothing here moves; where a tree stands follows from the trees of the names before it.
use crate::engine::Slot;
use crate::rules::{
    frequency_wrong, reversion_wrong, steps_wrong, strip, volatility_wrong, Carried, Contract, Curve, DatedOption, FitInput, Outcome, Strip, Tree,
    FLOW_LIMIT, MOST_STEPS,
};

pub const NAMES: usize = 8;
pub const MEMORY: usize = 3_600;

#[derive(Clone, Debug)]
pub struct Shelved {
    pub tree: Tree,
    /// None for a tree that awaits a commit.
    pub discounts: Option<Vec<u64>>,
}

impl Shelved {
    fn nodes(&self) -> usize {
        self.tree.discounts_needed()
    }
}

/// The causes that apply, in the order in which they are tried: the first is the answer.
pub type Causes = Vec<u64>;

fn tried(causes: &[(u64, bool)]) -> Causes {
    causes.iter().filter(|cause| cause.1).map(|cause| cause.0).collect()
}

#[derive(Clone, Debug, Default)]
pub struct Shelf {
    /// The tree of name k has place k − 1.
    trees: [Option<Shelved>; NAMES],
    /// Beside the trees, since a slot that was altered may carry numbers without one.
    carried: [Carried; NAMES],
}

impl Shelf {
    pub fn named(&self, name: usize) -> Option<&Shelved> {
        self.trees.get(name.checked_sub(1)?)?.as_ref()
    }

    pub fn held(&self) -> usize {
        self.trees.iter().flatten().map(Shelved::nodes).sum()
    }

    pub fn ask(&mut self, name: usize, tree: Tree) -> Causes {
        let absent = (1..=NAMES).contains(&name) && self.named(name).is_none();
        // A tree of more steps than the memory has nodes passes it by the steps alone.
        let asked = Tree { steps: tree.steps.min(MEMORY + 1), ..tree }.discounts_needed();
        let (steps, reversion) = (steps_wrong(tree.steps), reversion_wrong(tree.reversion));
        let causes = tried(&[(15, !absent), (3, steps), (4, reversion), (14, asked + self.held() > MEMORY)]);
        if causes.is_empty() {
            self.trees[name - 1] = Some(Shelved { tree, discounts: None });
            self.carried[name - 1] = Carried::default();
        }
        causes
    }

    /// 15 and then what the fit gives for the tree; without a tree, of the fit's causes those that no tree would change.
    pub fn commit(&mut self, name: usize, frequency: u64, volatility: u64, curve: &Curve) -> Causes {
        let Some(found) = self.named(name) else {
            return tried(&[(15, true), (2, frequency_wrong(frequency)), (5, volatility_wrong(volatility))]);
        };
        let tree = found.tree;
        let (discounts_length, state_prices_length) = (tree.discounts_needed(), tree.state_prices_needed());
        let input = FitInput { frequency, tree, volatility, curve: curve.clone(), discounts_length, state_prices_length };
        let (fitted, second) = (input.fit(), found.discounts.is_some());
        let number = fitted.as_ref().err().copied();
        let causes = tried(&[(15, second), (number.unwrap_or(0), number.is_some())]);
        if let (Ok(fitted), false) = (fitted, second) {
            self.carried[name - 1] = tree.carried(&fitted.discounts);
            self.trees[name - 1] = Some(Shelved { tree, discounts: Some(fitted.discounts) });
        }
        causes
    }

    pub fn release(&mut self, name: usize) -> Causes {
        let causes = tried(&[(15, self.named(name).is_none())]);
        if causes.is_empty() {
            self.trees[name - 1] = None;
            self.carried[name - 1] = Carried::default();
        }
        causes
    }

    /// The causes of a price but for 12; without a tree, those that no tree would change.
    fn price_causes(&self, name: usize, flows: &[u64], wrong: impl Fn(usize) -> bool, dates_wrong: impl Fn(usize) -> bool) -> Causes {
        let found = self.named(name);
        let (steps, unfitted) = (found.map(|shelved| shelved.tree.steps), found.map_or(false, |shelved| shelved.discounts.is_none()));
        let count_wrong = steps.map_or(steps_wrong(flows.len()), |steps| flows.len() != steps);
        let above = flows.iter().any(|flow| *flow > FLOW_LIMIT);
        let steps = steps.unwrap_or(MOST_STEPS);
        tried(&[(15, found.is_none()), (6, count_wrong), (9, unfitted), (10, above), (11, wrong(steps)), (13, dates_wrong(steps))])
    }

    /// The value that the plain rule gives for a tree's own list, where nothing is tried before, with the bound that the tree carries.
    fn price(&self, name: usize, causes: &Causes, rule: impl Fn(&Tree, &[u64]) -> Outcome<(u64, u64)>) -> Outcome<(u64, u64)> {
        match (causes.first(), self.named(name)) {
            (Some(number), _) => Err(*number),
            (None, Some(Shelved { tree, discounts: Some(discounts) })) => Ok((rule(tree, discounts)?.0, self.carried[name - 1].bound)),
            (None, _) => panic!("a price without a fitted tree"),
        }
    }

    pub fn bond(&self, name: usize, flows: &[u64]) -> (Causes, Outcome<(u64, u64)>) {
        let causes = self.price_causes(name, flows, |_| false, |_| false);
        let outcome = self.price(name, &causes, |tree, discounts| tree.bond(discounts, flows));
        (causes, outcome)
    }

    pub fn option(&self, name: usize, flows: &[u64], contract: &Contract) -> (Causes, Outcome<(u64, u64)>) {
        let causes = self.price_causes(name, flows, |steps| contract.wrong(steps), |_| false);
        let outcome = self.price(name, &causes, |tree, discounts| tree.option(discounts, flows, contract));
        (causes, outcome)
    }

    pub fn dated_option(&self, name: usize, flows: &[u64], option: &DatedOption) -> (Causes, Outcome<(u64, u64)>) {
        let causes = self.price_causes(name, flows, |_| option.wrong(), |steps| option.dates_wrong(steps));
        let outcome = self.price(name, &causes, |tree, discounts| tree.dated_option(discounts, flows, option));
        (causes, outcome)
    }

    /// 15 is a strip's own; steps and reversion were judged at the asking.
    fn strip(&self, name: usize, strikes: &[u64], single: impl Fn(u64) -> Outcome<(u64, u64)>) -> Strip {
        strip(&[(15, self.named(name).is_none())], strikes, single)
    }

    pub fn kind_strip(&self, name: usize, flows: &[u64], contract: &Contract, strikes: &[u64]) -> Strip {
        self.strip(name, strikes, |strike| self.option(name, flows, &Contract { strike, ..*contract }).1)
    }

    pub fn dated_strip(&self, name: usize, flows: &[u64], option: &DatedOption, strikes: &[u64]) -> Strip {
        self.strip(name, strikes, |strike| self.dated_option(name, flows, &option.struck(strike)).1)
    }

    /// Where a name's discounts start, and how many they are; zeros without a tree.
    pub fn part(&self, name: usize) -> (usize, usize) {
        match self.named(name) {
            Some(shelved) => (self.trees[..name - 1].iter().flatten().map(Shelved::nodes).sum(), shelved.nodes()),
            None => (0, 0),
        }
    }

    /// The used part of the memory: a tree that awaits a commit is all 0.
    pub fn stored(&self) -> Vec<u64> {
        let mut stored = Vec::with_capacity(MEMORY);
        for shelved in self.trees.iter().flatten() {
            match &shelved.discounts {
                Some(discounts) => stored.extend(discounts),
                None => stored.resize(stored.len() + shelved.nodes(), 0),
            }
        }
        stored
    }

    /// Status, steps and reversion of each name, and what it carries: 0 no tree, 1 a tree that awaits a commit, 2 a fitted one.
    pub fn slots(&self) -> [Slot; NAMES] {
        std::array::from_fn(|place| match &self.trees[place] {
            Some(Shelved { tree, discounts }) => ((1 + discounts.is_some() as u64, tree.steps, tree.reversion), self.carried[place]),
            None => ((0, 0, 0), self.carried[place]),
        })
    }

    /// Numbers that a slot carries though no entry wrote them.
    pub fn carry(&mut self, place: usize, carried: Carried) {
        self.carried[place] = carried;
    }

    /// The names whose slots have one of these statuses.
    pub fn names(&self, statuses: &[u64]) -> Vec<usize> {
        let slots = self.slots();
        (1..=NAMES).filter(|name| statuses.contains(&slots[name - 1].0 .0)).collect()
    }
}
