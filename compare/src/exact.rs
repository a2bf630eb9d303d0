// Exact discounts of yields, and the exact pricer of document 01, multiplied out: with m = 600,000,000 × one, a value with k rows left to
// its last row is held times m^k, and an exact state price of row i times m^i. It is fed what document 01 lists alone.
use crate::natural::Natural;
use crate::rules::{flow_of, DatedOption, Tree, CALL, ONE, WHOLE};

/// The exact series at an amount, times 12! × one^11.
fn series(amount: u64, alternating: bool) -> Natural {
    let (mut even, mut odd) = (Natural::zero(), Natural::zero());
    for k in 0..=12u64 {
        let mut term = Natural::from((k + 1..=12).product());
        for place in 0..12 {
            term = term.times(if place < k { amount } else { ONE });
        }
        let sum = if k % 2 == 0 { &mut even } else { &mut odd };
        *sum = sum.plus(&term);
    }
    if alternating { even.less(&odd) } else { even.plus(&odd) }
}

/// Whether a discount is within so many billionths of the fourth power of the exact series at a quarter of y. That power is held times
/// 12!^4 × one^47: four series, and one³ by which the power of an amount is divided.
pub fn near_fourth_power(y: i64, discount: u64, within: u64) -> bool {
    let series = series(y.unsigned_abs() / 4, y >= 0);
    let square = series.product(&series);
    let mut scale = Natural::from(1);
    for _ in 0..4 {
        scale = scale.times((1..=12).product());
    }
    for _ in 0..47 {
        scale = scale.times(ONE);
    }
    scale.times(discount).distance(&square.product(&square)) <= scale.times(within)
}

pub struct Exact<'a> {
    tree: Tree,
    discounts: &'a [u64],
    powers: Vec<Natural>,
}

impl<'a> Exact<'a> {
    pub fn new(tree: Tree, discounts: &'a [u64]) -> Exact<'a> {
        let mut powers = vec![Natural::from(1)];
        for k in 0..tree.steps {
            powers.push(powers[k].times(WHOLE * ONE));
        }
        Exact { tree, discounts, powers }
    }

    /// An amount held times m^k.
    pub fn held(&self, amount: u64, k: usize) -> Natural {
        self.powers[k].times(amount)
    }

    fn roll(&self, row: usize, later: &[Natural]) -> Vec<Natural> {
        let (w, next) = (self.tree.half_width(row), self.tree.half_width(row + 1));
        let shown = self.tree.row(self.discounts, row);
        let rolled = |j: i64| {
            let mut sum = Natural::zero();
            for (target, probability) in self.tree.branches(j) {
                sum.add_times(&later[(target + next) as usize], probability * shown[(j + w) as usize]);
            }
            sum
        };
        (-w..=w).map(rolled).collect()
    }

    /// The exact price, times m^row, of payoffs on a row.
    pub fn payoffs(&self, row: usize, payoffs: &[u64]) -> Natural {
        let mut values: Vec<Natural> = payoffs.iter().map(|x| Natural::from(*x)).collect();
        for i in (0..row).rev() {
            values = self.roll(i, &values);
        }
        values[0].clone()
    }

    /// Exact state prices of rows 0 to n, row i times m^i.
    pub fn state_prices(&self) -> Vec<Vec<Natural>> {
        let mut rows = vec![vec![Natural::from(ONE)]];
        for i in 0..self.tree.steps {
            let (w, next) = (self.tree.half_width(i), self.tree.half_width(i + 1));
            let shown = self.tree.row(self.discounts, i);
            let mut later = vec![Natural::zero(); self.tree.node_count(i + 1)];
            for j in -w..=w {
                let place = (j + w) as usize;
                for (target, probability) in self.tree.branches(j) {
                    later[(target + next) as usize].add_times(&rows[i][place], probability * shown[place]);
                }
            }
            rows.push(later);
        }
        rows
    }
}

/// A bond's exact values on rows 0 to n, row i times m^(n−i), and the options on it.
pub struct ExactBond<'a> {
    rows: Exact<'a>,
    flows: &'a [u64],
    values: Vec<Vec<Natural>>,
}

impl<'a> ExactBond<'a> {
    pub fn new(tree: Tree, discounts: &'a [u64], flows: &'a [u64]) -> ExactBond<'a> {
        let (rows, n) = (Exact::new(tree, discounts), tree.steps);
        let mut values = vec![vec![Natural::from(flows[n - 1]); tree.node_count(n)]];
        for i in (0..n).rev() {
            let flow = rows.held(flow_of(flows, i), n - i);
            let rolled = rows.roll(i, values.last().unwrap());
            values.push(rolled.iter().map(|v| v.plus(&flow)).collect());
        }
        values.reverse();
        ExactBond { rows, flows, values }
    }

    /// An amount as prices of row 0 are held: times m^n.
    pub fn held(&self, amount: u64) -> Natural {
        self.rows.held(amount, self.rows.tree.steps)
    }

    pub fn price(&self) -> &Natural {
        &self.values[0][0]
    }

    /// Exercise values of a row, on the bond without the flow of that row.
    fn exercised(&self, option: &DatedOption, row: usize) -> Vec<Natural> {
        let left = self.rows.tree.steps - row;
        let (strike, flow) = (self.rows.held(option.strike, left), self.rows.held(flow_of(self.flows, row), left));
        let now = |bare: Natural| if option.side == CALL { bare.less(&strike) } else { strike.less(&bare) };
        self.values[row].iter().map(|bond| now(bond.less(&flow))).collect()
    }

    /// The option's exact price, which is fed the list.
    pub fn option(&self, option: &DatedOption) -> Natural {
        let mut row = self.exercised(option, option.last());
        for i in (0..option.last()).rev() {
            row = self.rows.roll(i, &row);
            if option.listed(i) {
                row = row.into_iter().zip(self.exercised(option, i)).map(|(rolled, now)| rolled.max(now)).collect();
            }
        }
        row[0].clone()
    }
}
