//! A fitted tree with memories of its own.

use crate::{BondAndOption, Branches, Curve, DatedTerms, OptionTerms, Price, Refusal, RowKind};
use crate::{OptionKind, Side, Strip, TreeErrorBounds};

/// A tree that was fitted to a curve and not refused.
#[derive(Clone, Debug, PartialEq, Eq)]
pub struct Tree {
    version: u64,
    steps: usize,
    reversion: u64,
    working_reversion: u64,
    discounts: Vec<u64>,
    state_prices: Vec<u64>,
}

impl Tree {
    /// Fits a tree of version 1: steps a year, steps, reversion per step in ten-thousandths, yearly volatility in millionths.
    pub fn fit(
        frequency: u64,
        steps: usize,
        reversion: u64,
        volatility: u64,
        curve: &Curve,
    ) -> Result<Tree, Refusal> {
        Tree::fit_version(1, frequency, steps, reversion, volatility, curve)
    }

    /// Fits a tree by version, 1 or 2. It has the size of its working reversion, and all that is asked of it goes by that.
    pub fn fit_version(
        version: u64,
        frequency: u64,
        steps: usize,
        reversion: u64,
        volatility: u64,
        curve: &Curve,
    ) -> Result<Tree, Refusal> {
        // Where the version or a size is refused the fit refuses too, and it alone knows the lowest number; an unknown version is
        // judged with the memories that the reversion itself asks for.
        let working_reversion = crate::working_reversion(version, reversion).unwrap_or(reversion);
        let discounts = crate::discounts_needed(steps, working_reversion).unwrap_or(0);
        let state_prices = crate::state_prices_needed(steps, working_reversion).unwrap_or(0);
        let mut tree = Tree {
            version,
            steps,
            reversion,
            working_reversion,
            discounts: vec![0; discounts as usize],
            state_prices: vec![0; state_prices as usize],
        };
        crate::fit_version(
            version,
            frequency,
            steps,
            reversion,
            volatility,
            curve,
            &mut tree.discounts,
            &mut tree.state_prices,
        )?;
        Ok(tree)
    }

    /// How the fit took the reversion: 1 or 2.
    pub fn version(&self) -> u64 {
        self.version
    }

    /// The steps n.
    pub fn steps(&self) -> usize {
        self.steps
    }

    /// The reversion per step in ten-thousandths, as it was handed in.
    pub fn reversion(&self) -> u64 {
        self.reversion
    }

    /// The reversion by which the tree branches, which is to be handed to functions that take a tree's discounts. In version 1 it is the
    /// reversion itself.
    pub fn working_reversion(&self) -> u64 {
        self.working_reversion
    }

    /// The discounts of rows 0 to n - 1, row after row, lowest node first.
    pub fn discounts(&self) -> &[u64] {
        &self.discounts
    }

    /// The state prices of rows 0 to n, row after row, lowest node first.
    pub fn state_prices(&self) -> &[u64] {
        &self.state_prices
    }

    /// The discounts or the state prices of a row; `None` where the tree has no such row.
    pub fn row(&self, kind: RowKind, row: usize) -> Option<&[u64]> {
        crate::row_view(
            &self.discounts,
            &self.state_prices,
            kind,
            self.steps,
            self.working_reversion,
            row,
        )
    }

    /// Where a node of a row, 0 to n - 1, leads.
    pub fn branches(&self, row: usize, node: i64) -> Result<Branches, Refusal> {
        // The engine answers for the longest tree: that this one has the row, its memory tells.
        self.row(RowKind::Discounts, row)
            .ok_or(Refusal::LENGTH_OR_ROW)?;
        crate::branches(self.working_reversion, row, node)
    }

    /// How far below the exact ones the state prices of a row may be in sum.
    pub fn state_price_error_bound(&self, row: usize) -> Result<u64, Refusal> {
        crate::state_price_error_bound(self.steps, self.working_reversion, &self.discounts, row)
    }

    /// The error bound of every bond and option on the tree, without pricing any.
    pub fn price_error_bound(&self) -> Result<u64, Refusal> {
        crate::price_error_bound(self.steps, self.working_reversion, &self.discounts)
    }

    /// The same bound with the greatest discount of each row.
    pub fn bounds(&self) -> Result<TreeErrorBounds, Refusal> {
        crate::tree_bounds(self.steps, self.working_reversion, &self.discounts)
    }

    /// The price of the bond with these flows of rows 1 to n.
    pub fn bond_price(&self, flows: &[u64]) -> Result<Price, Refusal> {
        crate::bond_price(self.steps, self.working_reversion, &self.discounts, flows)
    }

    /// The price of an option on that bond.
    pub fn option_price(&self, flows: &[u64], terms: OptionTerms) -> Result<Price, Refusal> {
        crate::option_price(
            self.steps,
            self.working_reversion,
            &self.discounts,
            flows,
            terms,
        )
    }

    /// Bond and option in one roll, each priced or refused by itself.
    pub fn bond_and_option(&self, flows: &[u64], terms: OptionTerms) -> BondAndOption {
        crate::bond_and_option(
            self.steps,
            self.working_reversion,
            &self.discounts,
            flows,
            terms,
        )
    }

    /// The price of an option on that bond which may be exercised on listed rows.
    pub fn dated_option_price(&self, flows: &[u64], terms: DatedTerms) -> Result<Price, Refusal> {
        crate::dated_option_price(
            self.steps,
            self.working_reversion,
            &self.discounts,
            flows,
            terms,
        )
    }

    /// Bond and dated option in one roll, each priced or refused by itself.
    pub fn bond_and_dated_option(&self, flows: &[u64], terms: DatedTerms) -> BondAndOption {
        crate::bond_and_dated_option(
            self.steps,
            self.working_reversion,
            &self.discounts,
            flows,
            terms,
        )
    }

    /// Up to 16 strikes of one side and one list of dates, each answer what [`Tree::dated_option_price`] gives for its strike; no strike or more
    /// than 16 is refused with 6.
    pub fn option_strip(
        &self,
        flows: &[u64],
        side: Side,
        dates: &[u8],
        strikes: &[u64],
    ) -> Result<Strip, Refusal> {
        crate::option_strip(
            self.steps,
            self.working_reversion,
            &self.discounts,
            flows,
            side,
            dates,
            strikes,
        )
    }

    /// The same for one of the four kinds, each answer what [`Tree::option_price`] gives for its strike.
    pub fn option_strip_of_kind(
        &self,
        flows: &[u64],
        kind: OptionKind,
        expiry: usize,
        strikes: &[u64],
    ) -> Result<Strip, Refusal> {
        crate::option_strip_of_kind(
            self.steps,
            self.working_reversion,
            &self.discounts,
            flows,
            kind,
            expiry,
            strikes,
        )
    }

    /// What payoffs on a row are worth: never above the exact price, and at most the bound below it.
    pub fn value(&self, row: usize, payoffs: &[u64]) -> Result<Price, Refusal> {
        let state_prices = self.row(RowKind::StatePrices, row).unwrap_or(&[]);
        let value = crate::value_by_state_prices(state_prices, payoffs)?;
        let bound = crate::valuation_error_bound(
            self.steps,
            self.working_reversion,
            &self.discounts,
            row,
            payoffs,
        )?;
        Ok(Price { value, bound })
    }
}
