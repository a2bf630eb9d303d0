//! Several trees in one memory.

use crate::shapes::Kept;
use crate::{each_priced, each_strike, priced, raw, MAX_NAME, SHELF_ROOM};
use crate::{BondAndOption, Curve, DatedTerms, OptionTerms, Price, Refusal, TreeErrorBounds};
use crate::{OptionKind, Side, Strip};
use std::fmt;

/// A tree on a shelf, as it was asked for.
#[derive(Clone, Copy, Debug, PartialEq, Eq)]
pub struct ShelvedTree {
    /// The steps n.
    pub steps: usize,
    /// The reversion per step in ten-thousandths.
    pub reversion: u64,
    /// Whether a commit has fitted it; else it awaits one.
    pub fitted: bool,
}

/// Up to eight trees under the names 1 to [`MAX_NAME`], which share a memory of [`SHELF_ROOM`] discounts.
///
/// A tree is asked for, which sets aside the nodes that its discounts need, all 0; then it is committed, which fits it to a curve; then
/// it is priced by its name until it is released. A refused call leaves the shelf as it was, and work on one name changes no discount
/// of another. From its commit on a tree carries its error bound, which its prices read: see [`Shelf::bounds`].
///
#[cfg_attr(without_library, doc = "```ignore")]
#[cfg_attr(not(without_library), doc = "```")]
/// use mixegorta::{Curve, Quote, Refusal, Shelf, ONE};
///
/// let mut shelf = Shelf::new();
/// shelf.ask(1, 1, 0)?;
/// assert_eq!(shelf.bond_price(1, &[ONE]), Err(Refusal::DISCOUNT)); // it awaits its commit
/// shelf.commit(1, 1, 0, &Curve::of_quotes(&[Quote::DiscountFactor(1.0025)]))?;
/// assert_eq!(shelf.bond_price(1, &[ONE])?.value, 1_002_500_000);
/// shelf.release(1)?;
/// assert_eq!(shelf.bond_price(1, &[ONE]), Err(Refusal::NAME));
/// # Ok::<(), Refusal>(())
/// ```
///
/// Trees move in the memory when others are asked for or released, so the compiler ends a view of discounts with the next change:
///
/// ```compile_fail,E0502
/// let mut shelf = mixegorta::Shelf::new();
/// let view = shelf.discounts(1);
/// let refused = shelf.release(1);
/// assert_eq!(view, []);
/// ```
#[derive(Clone)]
pub struct Shelf {
    kept: Kept<raw::Shelf, SHELF_ROOM>,
}

impl Shelf {
    /// The empty shelf.
    pub fn new() -> Shelf {
        let kept = Kept::new(unsafe { raw::mixegorta_empty_shelf() });
        Shelf { kept }
    }

    /// Asks for a tree under a name that has none: steps, reversion per step in ten-thousandths.
    pub fn ask(&mut self, name: usize, steps: usize, reversion: u64) -> Result<(), Refusal> {
        self.kept.change(|shelf, memory| {
            let after = unsafe { raw::mixegorta_shelf_ask(shelf, memory, name, steps, reversion) };
            (after.number, after.shelf)
        })
    }

    /// Fits the tree of a name that awaits its commit: steps a year, yearly volatility in millionths, as many quotes as it has steps.
    /// Where the fit is refused the tree still awaits a commit; one that is fitted takes no other.
    pub fn commit(
        &mut self,
        name: usize,
        frequency: u64,
        volatility: u64,
        curve: &Curve,
    ) -> Result<(), Refusal> {
        self.kept.change(|shelf, memory| {
            let after = unsafe {
                raw::mixegorta_shelf_commit(
                    shelf,
                    memory,
                    name,
                    frequency,
                    volatility,
                    curve.rows.as_ptr(),
                    curve.rows.len(),
                    curve.kinds.as_ptr(),
                    curve.kinds.len(),
                    curve.figures.as_ptr(),
                    curve.figures.len(),
                )
            };
            (after.number, after.shelf)
        })
    }

    /// Releases the tree of a name, fitted or not: its nodes are free for any later asking.
    pub fn release(&mut self, name: usize) -> Result<(), Refusal> {
        self.kept.change(|shelf, memory| {
            let after = unsafe { raw::mixegorta_shelf_release(shelf, memory, name) };
            (after.number, after.shelf)
        })
    }

    /// What the shelf keeps of a name that has a tree.
    fn slot(&self, name: usize) -> Option<raw::Slot> {
        self.kept
            .ask(|shelf, _| shelf.slots.get(name.wrapping_sub(1)).copied())
            .filter(|slot| slot.status != 0)
    }

    /// The tree of a name; `None` where it has none.
    pub fn tree(&self, name: usize) -> Option<ShelvedTree> {
        self.slot(name).map(|slot| ShelvedTree {
            steps: slot.steps,
            reversion: slot.reversion,
            fitted: slot.status == 2,
        })
    }

    /// What the tree of a name carries: the error bound of its prices and the greatest discount of each row, worked out once, by its
    /// commit. All are 0 while it awaits that; `None` where the name has no tree.
    pub fn bounds(&self, name: usize) -> Option<TreeErrorBounds> {
        self.slot(name).map(|slot| TreeErrorBounds {
            bound: slot.bound,
            greatest: slot.greatest,
        })
    }

    /// How many nodes the trees of all names hold, of [`SHELF_ROOM`].
    pub fn nodes_held(&self) -> usize {
        (1..=MAX_NAME).map(|name| self.discounts(name).len()).sum()
    }

    /// The discounts of a name's tree for rows 0 to n - 1, row after row, lowest node first: all 0 while it awaits its commit, and none
    /// where the name has no tree.
    pub fn discounts(&self, name: usize) -> &[u64] {
        let part = self
            .kept
            .ask(|shelf, _| unsafe { raw::mixegorta_shelf_part(shelf, name) });
        self.kept.part(part.start, part.count).unwrap_or(&[])
    }

    /// The price of the bond with these flows of rows 1 to n, on the tree of a name; its error bound is the one that the tree carries.
    pub fn bond_price(&self, name: usize, flows: &[u64]) -> Result<Price, Refusal> {
        priced(self.kept.ask(|shelf, memory| unsafe {
            raw::mixegorta_shelf_bond_price(shelf, memory, name, flows.as_ptr(), flows.len())
        }))
    }

    /// The price of an option on that bond.
    pub fn option_price(
        &self,
        name: usize,
        flows: &[u64],
        terms: OptionTerms,
    ) -> Result<Price, Refusal> {
        priced(self.kept.ask(|shelf, memory| unsafe {
            raw::mixegorta_shelf_option_price(
                shelf,
                memory,
                name,
                flows.as_ptr(),
                flows.len(),
                terms.kind as u64,
                terms.expiry,
                terms.strike,
            )
        }))
    }

    /// Bond and option in one roll, each priced or refused by itself.
    pub fn bond_and_option(&self, name: usize, flows: &[u64], terms: OptionTerms) -> BondAndOption {
        each_priced(self.kept.ask(|shelf, memory| unsafe {
            raw::mixegorta_shelf_bond_and_option(
                shelf,
                memory,
                name,
                flows.as_ptr(),
                flows.len(),
                terms.kind as u64,
                terms.expiry,
                terms.strike,
            )
        }))
    }

    /// The price of an option on that bond which may be exercised on listed rows.
    pub fn dated_option_price(
        &self,
        name: usize,
        flows: &[u64],
        terms: DatedTerms,
    ) -> Result<Price, Refusal> {
        priced(self.kept.ask(|shelf, memory| unsafe {
            raw::mixegorta_shelf_dated_option_price(
                shelf,
                memory,
                name,
                flows.as_ptr(),
                flows.len(),
                terms.side as u64,
                terms.dates.as_ptr(),
                terms.dates.len(),
                terms.strike,
            )
        }))
    }

    /// Bond and dated option in one roll, each priced or refused by itself.
    pub fn bond_and_dated_option(
        &self,
        name: usize,
        flows: &[u64],
        terms: DatedTerms,
    ) -> BondAndOption {
        each_priced(self.kept.ask(|shelf, memory| unsafe {
            raw::mixegorta_shelf_bond_and_dated_option(
                shelf,
                memory,
                name,
                flows.as_ptr(),
                flows.len(),
                terms.side as u64,
                terms.dates.as_ptr(),
                terms.dates.len(),
                terms.strike,
            )
        }))
    }

    /// Up to 16 strikes of one side and one list of dates, each answer what [`Shelf::dated_option_price`] gives for its strike. The strip itself is
    /// refused with 15 for the name, then with 6 for no strike or more than 16.
    pub fn option_strip(
        &self,
        name: usize,
        flows: &[u64],
        side: Side,
        dates: &[u8],
        strikes: &[u64],
    ) -> Result<Strip, Refusal> {
        let strip = self.kept.ask(|shelf, memory| unsafe {
            raw::mixegorta_shelf_option_strip(
                shelf,
                memory,
                name,
                flows.as_ptr(),
                flows.len(),
                side as u64,
                dates.as_ptr(),
                dates.len(),
                strikes.as_ptr(),
                strikes.len(),
            )
        });
        each_strike(strip, strikes)
    }

    /// The same for one of the four kinds, each answer what [`Shelf::option_price`] gives for its strike.
    pub fn option_strip_of_kind(
        &self,
        name: usize,
        flows: &[u64],
        kind: OptionKind,
        expiry: usize,
        strikes: &[u64],
    ) -> Result<Strip, Refusal> {
        let strip = self.kept.ask(|shelf, memory| unsafe {
            raw::mixegorta_shelf_option_strip_of_kind(
                shelf,
                memory,
                name,
                flows.as_ptr(),
                flows.len(),
                kind as u64,
                expiry,
                strikes.as_ptr(),
                strikes.len(),
            )
        });
        each_strike(strip, strikes)
    }
}

impl Default for Shelf {
    fn default() -> Shelf {
        Shelf::new()
    }
}

/// The trees by name, without their discounts.
impl fmt::Debug for Shelf {
    fn fmt(&self, f: &mut fmt::Formatter<'_>) -> fmt::Result {
        let trees = (1..=MAX_NAME).filter_map(|name| Some((name, self.tree(name)?)));
        f.write_str("Shelf ")?;
        f.debug_map().entries(trees).finish()
    }
}
