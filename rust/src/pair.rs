//! A rate tree and a spread tree together, as corporate notes need them.

use crate::{priced, raw, DatedTerms, Price, Refusal, Tree};

/// A tree whose discounts the caller lends: its steps, the reversion by which it branches, and its discounts row after row, lowest node
/// first. More discounts than it needs may follow. A [`Tree`] is lent by `(&tree).into()`.
#[derive(Clone, Copy, Debug, PartialEq, Eq)]
pub struct LentTree<'a> {
    /// The steps n.
    pub steps: usize,
    /// The reversion per step in ten-thousandths; of a tree of version 2 its working reversion.
    pub reversion: u64,
    /// The discounts of rows 0 to n - 1.
    pub discounts: &'a [u64],
}

impl<'a> From<&'a Tree> for LentTree<'a> {
    fn from(tree: &'a Tree) -> LentTree<'a> {
        LentTree {
            steps: tree.steps(),
            reversion: tree.working_reversion(),
            discounts: tree.discounts(),
        }
    }
}

/// The price of the bond with these flows of rows 1 to n on a rate tree and a spread tree, whose moves are independent. Both have the same
/// number of steps, at most [`MAX_PAIR_STEPS`](crate::MAX_PAIR_STEPS), else [`Refusal::PAIR_STEPS`]. A node is a pair of one row; its
/// discount is the product of the two over one, down, and 0 is [`Refusal::DISCOUNT`].
///
#[cfg_attr(without_library, doc = "```ignore")]
#[cfg_attr(not(without_library), doc = "```")]
/// use mixegorta::{pair_bond_price, LentTree, Refusal, ONE};
///
/// let lent = |discounts| LentTree { steps: 1, reversion: 0, discounts };
/// let high = pair_bond_price(lent(&[1_100_000_000]), lent(&[1_100_000_000]), &[ONE])?;
/// assert_eq!((high.value, high.bound), (1_210_000_000, 2));
/// assert_eq!(pair_bond_price(lent(&[30_000]), lent(&[30_000]), &[ONE]), Err(Refusal::DISCOUNT));
/// # Ok::<(), Refusal>(())
/// ```
pub fn pair_bond_price(
    rates: LentTree,
    spreads: LentTree,
    flows: &[u64],
) -> Result<Price, Refusal> {
    priced(unsafe {
        raw::mixegorta_pair_bond_price(
            rates.steps,
            rates.reversion,
            rates.discounts.as_ptr(),
            rates.discounts.len(),
            spreads.steps,
            spreads.reversion,
            spreads.discounts.as_ptr(),
            spreads.discounts.len(),
            flows.as_ptr(),
            flows.len(),
        )
    })
}

/// The price of an option on that bond which may be exercised on listed rows.
pub fn pair_dated_option_price(
    rates: LentTree,
    spreads: LentTree,
    flows: &[u64],
    terms: DatedTerms,
) -> Result<Price, Refusal> {
    priced(unsafe {
        raw::mixegorta_pair_dated_option_price(
            rates.steps,
            rates.reversion,
            rates.discounts.as_ptr(),
            rates.discounts.len(),
            spreads.steps,
            spreads.reversion,
            spreads.discounts.as_ptr(),
            spreads.discounts.len(),
            flows.as_ptr(),
            flows.len(),
            terms.side as u64,
            terms.dates.as_ptr(),
            terms.dates.len(),
            terms.strike,
        )
    })
}
