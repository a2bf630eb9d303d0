//! A Hull-White trinomial rate tree in whole billionths, over the proved archive `libmixegorta.a`.
//!
//! [`ONE`] is 1,000,000,000 billionths. Any arguments may be passed: each call gives its full answer or a [`Refusal`], and the engine
//! itself judges every argument. Discounts stand row after row, lowest node first, for rows 0 to n - 1, state prices for rows 0 to n.
//! A [`Tree`] is one fitted tree with memories of its own, a [`Shelf`] up to eight trees in one memory, and [`Bands`] a table of haircuts. [`Tree::fit_version`]
//! takes a version: 2 has the model's own mean and variance of a step. [`Tree::option_strip`] prices up to 16 strikes of one option together,
//! [`pair_bond_price`] and [`pair_dated_option_price`] price on a rate tree and a spread tree together. A [`Job`] is read from bytes and written to the
//! same bytes, and [`sheet`] draws its sheet. [`book_report`] values a whole book of jobs, [`prices_of_job`] one of them;
//! [`report_of_file`] gives the totals of a book and [`joined_reports`] those of many.
//!
#![cfg_attr(without_library, doc = "```ignore")]
#![cfg_attr(not(without_library), doc = "```")]
//! use mixegorta::{Curve, OptionKind, OptionTerms, Quote, Tree, ONE};
//!
//! let curve = Curve::of_quotes(&[Quote::DiscountFactor(1.0025)]);
//! let tree = Tree::fit(1, 1, 0, 0, &curve)?;
//! assert_eq!(tree.discounts(), [1_002_500_000]);
//!
//! let flows = [ONE];
//! let bond = tree.bond_price(&flows)?;
//! assert_eq!((bond.value, bond.bound), (1_002_500_000, 2));
//!
//! let put = OptionTerms { kind: OptionKind::AmericanPut, expiry: 0, strike: 1_010_000_000 };
//! assert_eq!(tree.option_price(&flows, put)?.value, 7_500_000);
//! # Ok::<(), mixegorta::Refusal>(())
//! ```

#![deny(missing_docs)]

// Only this crate's own build may go without the archive: see build.rs.
#[cfg(without_library)]
const _: () = assert!(
    option_env!("CARGO_PRIMARY_PACKAGE").is_some(),
    "there is no libmixegorta.a: run tools/archive, or set MIXEGORTA_ARCHIVE_DIR to its folder"
);

mod bands;
mod books;
mod job;
mod limits;
mod pair;
mod raw;
mod refusals;
mod reports;
mod shapes;
mod shelf;
mod tree;

pub use bands::{check_bands, lending_worth, Band, BandRefusal, Bands, Shown};
pub use books::{book_of_jobs, book_report, book_report_into};
pub use books::{prices_of_job, prices_of_job_into, JobPrices};
pub use job::{Job, JobError, JobOption, JobQuote};
pub use limits::*;
pub use pair::{pair_bond_price, pair_dated_option_price, LentTree};
pub use reports::{empty_report, joined_reports, report_of_file, JoinRefusal, Report};
pub use shelf::{Shelf, ShelvedTree};
pub use tree::Tree;

use shapes::{column, prices_of};
use std::fmt;
use std::ops::Range;

/// The version of this crate, which is that of the header, the Python package and CHANGELOG.md.
pub const VERSION: &str = env!("CARGO_PKG_VERSION");

/// Why a call was refused: the engine's number, as `c/mixegorta.h` lists them. Where several apply the lowest is given, save that 13 is
/// tried before 12, 19 before 4 and, of a [`Shelf`], 15 before all others and 14 after 4. A [`BandRefusal`] shows more than its number.
#[derive(Clone, Copy, Debug, PartialEq, Eq, PartialOrd, Ord, Hash)]
pub struct Refusal(u64);

impl Refusal {
    /// The engine's number.
    pub fn number(self) -> u64 {
        self.0
    }

    fn cause(self) -> &'static str {
        let place = Refusal::LISTED.iter().position(|listed| *listed == self);
        place.map_or("not listed", |place| refusals::CAUSES[place])
    }
}

impl fmt::Display for Refusal {
    fn fmt(&self, f: &mut fmt::Formatter<'_>) -> fmt::Result {
        write!(f, "refused {}: {}", self.0, self.cause())
    }
}

impl std::error::Error for Refusal {}

fn accepted<T>(number: u64, value: T) -> Result<T, Refusal> {
    if number == 0 {
        Ok(value)
    } else {
        Err(Refusal(number))
    }
}

fn value_of(answer: raw::Answer) -> Result<u64, Refusal> {
    accepted(answer.number, answer.value)
}

/// A quoted figure.
#[derive(Clone, Copy, Debug, PartialEq)]
pub enum Quote {
    /// What one paid on the row is worth today.
    DiscountFactor(f64),
    /// A simple yearly rate: 0.03 is 3 percent.
    YearlyRate(f64),
    /// A yearly yield by continuous compounding: 0.03 is 3 percent.
    YearlyYield(f64),
}

impl Quote {
    fn kind(self) -> u8 {
        match self {
            Quote::DiscountFactor(_) => 5,
            Quote::YearlyRate(_) => 6,
            Quote::YearlyYield(_) => 9,
        }
    }

    fn figure(self) -> f64 {
        match self {
            Quote::DiscountFactor(figure)
            | Quote::YearlyRate(figure)
            | Quote::YearlyYield(figure) => figure,
        }
    }
}

/// The quotes of a curve with the row of each.
#[derive(Clone, Debug, Default, PartialEq)]
pub struct Curve {
    rows: Vec<u64>,
    kinds: Vec<u8>,
    figures: Vec<f64>,
}

impl Curve {
    /// Quotes of rows 1, 2 and so on.
    pub fn of_quotes(quotes: &[Quote]) -> Curve {
        Curve {
            rows: (1..=quotes.len() as u64).collect(),
            kinds: column(quotes, |quote| quote.kind()),
            figures: column(quotes, |quote| quote.figure()),
        }
    }

    /// Quotes with rows of their own; the engine refuses one that is not in its place.
    pub fn of_points(points: &[(u64, Quote)]) -> Curve {
        Curve {
            rows: column(points, |point| point.0),
            kinds: column(points, |point| point.1.kind()),
            figures: column(points, |point| point.1.figure()),
        }
    }

    /// How many quotes there are.
    pub fn len(&self) -> usize {
        self.rows.len()
    }

    /// Whether there are none.
    pub fn is_empty(&self) -> bool {
        self.rows.is_empty()
    }
}

/// Which of the two memories of a tree.
#[derive(Clone, Copy, Debug, PartialEq, Eq)]
pub enum RowKind {
    /// The discounts of rows 0 to n - 1.
    Discounts = 1,
    /// The state prices of rows 0 to n.
    StatePrices = 2,
}

/// The right to buy or to sell a bond, at expiry alone or on every row up to it.
#[derive(Clone, Copy, Debug, PartialEq, Eq)]
pub enum OptionKind {
    /// To buy, at expiry.
    EuropeanCall = 1,
    /// To sell, at expiry.
    EuropeanPut = 2,
    /// To buy, on every row from 0 to expiry.
    AmericanCall = 3,
    /// To sell, on every row from 0 to expiry.
    AmericanPut = 4,
}

/// An option on a bond: expiry is a row, 0 to n - 1; the strike is 0 to 4,000,000,000 billionths. Exercise is on the bond without the flow of its
/// row, which stays with the seller.
#[derive(Clone, Copy, Debug, PartialEq, Eq)]
pub struct OptionTerms {
    /// The right.
    pub kind: OptionKind,
    /// The last row of exercise.
    pub expiry: usize,
    /// What is paid for the bond, in billionths.
    pub strike: u64,
}

/// What an option on listed dates gives the right to: to buy the bond, or to sell it.
#[derive(Clone, Copy, Debug, PartialEq, Eq)]
pub enum Side {
    /// To buy the bond.
    Call = 1,
    /// To sell the bond.
    Put = 2,
}

/// An option that may be exercised on listed rows: `dates` are strictly rising, each 0 to n - 1, at least one. On the last of them the option is
/// worth its exercise value, on earlier ones the larger of that and of holding it. Strike and exercise are as in [`OptionTerms`].
#[derive(Clone, Copy, Debug, PartialEq, Eq)]
pub struct DatedTerms<'a> {
    /// To buy or to sell.
    pub side: Side,
    /// The rows of exercise.
    pub dates: &'a [u8],
    /// What is paid for the bond, in billionths.
    pub strike: u64,
}

/// A price in billionths; the exact price is at most `bound` above or below.
#[derive(Clone, Copy, Debug, PartialEq, Eq)]
pub struct Price {
    /// The price.
    pub value: u64,
    /// The error bound.
    pub bound: u64,
}

/// As the sheet prints it: nine decimals, then the error bound in billionths.
impl fmt::Display for Price {
    fn fmt(&self, f: &mut fmt::Formatter<'_>) -> fmt::Result {
        let (whole, part) = (self.value / ONE, self.value % ONE);
        write!(f, "{whole}.{part:09} {}", self.bound)
    }
}

/// What is known of a tree from its discounts.
#[derive(Clone, Copy, Debug, PartialEq, Eq)]
pub struct TreeErrorBounds {
    /// The error bound of every bond and option on the tree, in billionths.
    pub bound: u64,
    /// The greatest discount of each row from 0 on, 0 from row n on.
    pub greatest: [u64; MAX_STEPS],
}

/// A bond and an option on it, each priced or refused by itself.
#[derive(Clone, Copy, Debug, PartialEq, Eq)]
pub struct BondAndOption {
    /// What the bond alone would give.
    pub bond: Result<Price, Refusal>,
    /// What the option alone would give.
    pub option: Result<Price, Refusal>,
}

/// The answers of a strip of strikes, in the order of the strikes: each is what a call for its strike alone gives.
pub type Strip = Vec<Result<Price, Refusal>>;

/// Where a node leads: to `lowest` and the two nodes above it, with probabilities over [`PROBABILITY_ONE`].
#[derive(Clone, Copy, Debug, PartialEq, Eq)]
pub struct Branches {
    /// The lowest of the three nodes of the next row.
    pub lowest: i64,
    /// How likely `lowest + 2` is.
    pub up: u64,
    /// How likely `lowest + 1` is.
    pub middle: u64,
    /// How likely `lowest` is.
    pub down: u64,
}

// Why each `unsafe` below is sound: the archive asks that a slice's pointer is aligned and reaches its count of elements, and that
// what it may write overlaps nothing else of the call. Rust's own references keep both, and empty slices are allowed.

/// The version that the archive itself tells: 1,000,000 for each of its first number, 1,000 for each of its second, 1 for each of its
/// third. The build refuses an archive that tells another than [`VERSION`].
pub fn archive_version() -> u64 {
    unsafe { raw::mixegorta_version() }
}

/// The half width of a row, 0 to 60.
pub fn half_width(reversion: u64, row: usize) -> Result<u64, Refusal> {
    value_of(unsafe { raw::mixegorta_half_width(reversion, row) })
}

/// The number of nodes of a row, 0 to 60.
pub fn node_count(reversion: u64, row: usize) -> Result<u64, Refusal> {
    value_of(unsafe { raw::mixegorta_node_count(reversion, row) })
}

/// The element at which a row, 0 to 60, starts in either memory.
pub fn row_start(reversion: u64, row: usize) -> Result<u64, Refusal> {
    value_of(unsafe { raw::mixegorta_row_start(reversion, row) })
}

/// How many discounts a tree has.
pub fn discounts_needed(steps: usize, reversion: u64) -> Result<u64, Refusal> {
    value_of(unsafe { raw::mixegorta_discounts_needed(steps, reversion) })
}

/// How many state prices a tree has.
pub fn state_prices_needed(steps: usize, reversion: u64) -> Result<u64, Refusal> {
    value_of(unsafe { raw::mixegorta_state_prices_needed(steps, reversion) })
}

/// Where a node of a row, 0 to 59, leads.
pub fn branches(reversion: u64, row: usize, node: i64) -> Result<Branches, Refusal> {
    let answer = unsafe { raw::mixegorta_branches(reversion, row, node) };
    let [up, middle, down] = answer.probabilities;
    accepted(
        answer.number,
        Branches {
            lowest: answer.lowest,
            up,
            middle,
            down,
        },
    )
}

/// The working reversion of a reversion per step, by which a tree of that version, 1 or 2, branches: itself in version 1, never more in
/// version 2. Of a tree of version 2 it goes wherever a function here takes a tree and not a version.
pub fn working_reversion(version: u64, reversion: u64) -> Result<u64, Refusal> {
    value_of(unsafe { raw::mixegorta_working_reversion(version, reversion) })
}

/// The discount of one quote for a row, 1 to 60.
pub fn quote_discount(frequency: u64, row: u64, quote: Quote) -> Result<u64, Refusal> {
    let point = raw::Point {
        row,
        figure: quote.figure(),
    };
    value_of(unsafe { raw::mixegorta_quote_discount(frequency, quote.kind(), point) })
}

/// Puts the discounts of a curve of n quotes at the start of `discounts`. A refusal leaves it as it was.
pub fn curve_discounts(
    frequency: u64,
    steps: usize,
    curve: &Curve,
    discounts: &mut [u64],
) -> Result<(), Refusal> {
    let number = unsafe {
        raw::mixegorta_curve_discounts(
            frequency,
            steps,
            curve.rows.as_ptr(),
            curve.rows.len(),
            curve.kinds.as_ptr(),
            curve.kinds.len(),
            curve.figures.as_ptr(),
            curve.figures.len(),
            discounts.as_mut_ptr(),
            discounts.len(),
        )
    };
    accepted(number, ())
}

/// Fits a tree to a curve of n quotes, at the start of both memories. [`Refusal::DISCOUNT`] leaves zeros in the parts that the tree
/// needs; any other refusal leaves both memories as they were. Nothing past those parts ever changes.
pub fn fit(
    frequency: u64,
    steps: usize,
    reversion: u64,
    volatility: u64,
    curve: &Curve,
    discounts: &mut [u64],
    state_prices: &mut [u64],
) -> Result<(), Refusal> {
    let number = unsafe {
        raw::mixegorta_fit(
            frequency,
            steps,
            reversion,
            volatility,
            curve.rows.as_ptr(),
            curve.rows.len(),
            curve.kinds.as_ptr(),
            curve.kinds.len(),
            curve.figures.as_ptr(),
            curve.figures.len(),
            discounts.as_mut_ptr(),
            discounts.len(),
            state_prices.as_mut_ptr(),
            state_prices.len(),
        )
    };
    accepted(number, ())
}

/// Fits a tree by version, 1 or 2, as [`fit`] does by version 1. The memories are sized by what [`working_reversion`] answers, and the tree is
/// priced with it: it can be lower than the reversion and the tree wider, and [`Tree::fit_version`] sees to both.
#[allow(clippy::too_many_arguments)]
pub fn fit_version(
    version: u64,
    frequency: u64,
    steps: usize,
    reversion: u64,
    volatility: u64,
    curve: &Curve,
    discounts: &mut [u64],
    state_prices: &mut [u64],
) -> Result<(), Refusal> {
    let number = unsafe {
        raw::mixegorta_fit_version(
            version,
            frequency,
            steps,
            reversion,
            volatility,
            curve.rows.as_ptr(),
            curve.rows.len(),
            curve.kinds.as_ptr(),
            curve.kinds.len(),
            curve.figures.as_ptr(),
            curve.figures.len(),
            discounts.as_mut_ptr(),
            discounts.len(),
            state_prices.as_mut_ptr(),
            state_prices.len(),
        )
    };
    accepted(number, ())
}

/// Where a row stands in the memory of its kind; `None` where steps, reversion, row or a length is refused.
pub fn row_range(
    discounts: &[u64],
    state_prices: &[u64],
    kind: RowKind,
    steps: usize,
    reversion: u64,
    row: usize,
) -> Option<Range<usize>> {
    let range = unsafe {
        raw::mixegorta_row_range(
            discounts.as_ptr(),
            discounts.len(),
            state_prices.as_ptr(),
            state_prices.len(),
            kind as u64,
            steps,
            reversion,
            row,
        )
    };
    (range.count != 0).then(|| range.start..range.start + range.count)
}

/// A row as the part of the memory that holds it; `None` where refused.
pub fn row_view<'a>(
    discounts: &'a [u64],
    state_prices: &'a [u64],
    kind: RowKind,
    steps: usize,
    reversion: u64,
    row: usize,
) -> Option<&'a [u64]> {
    let range = row_range(discounts, state_prices, kind, steps, reversion, row)?;
    match kind {
        RowKind::Discounts => discounts.get(range),
        RowKind::StatePrices => state_prices.get(range),
    }
}

/// The signed rate of one step, in billionths, of a discount from 1 to 1,100,000,000.
pub fn step_rate(discount: u64) -> Result<i64, Refusal> {
    let rate = unsafe { raw::mixegorta_step_rate(discount) };
    accepted(rate.number, rate.value)
}

/// The signed, continuously compounded rate over one step, in billionths, of a discount from 1 to 1,100,000,000.
pub fn continuous_rate(discount: u64) -> Result<i64, Refusal> {
    let rate = unsafe { raw::mixegorta_continuous_rate(discount) };
    accepted(rate.number, rate.value)
}

/// How far below the exact ones the fitted state prices of a row may be in sum.
pub fn state_price_error_bound(
    steps: usize,
    reversion: u64,
    discounts: &[u64],
    row: usize,
) -> Result<u64, Refusal> {
    value_of(unsafe {
        raw::mixegorta_state_price_error_bound(
            steps,
            reversion,
            discounts.as_ptr(),
            discounts.len(),
            row,
        )
    })
}

fn priced(price: raw::Price) -> Result<Price, Refusal> {
    accepted(
        price.number,
        Price {
            value: price.value,
            bound: price.bound,
        },
    )
}

fn each_priced(both: raw::BondAndOption) -> BondAndOption {
    BondAndOption {
        bond: priced(both.bond),
        option: priced(both.option),
    }
}

fn each_strike(strip: raw::Strip, strikes: &[u64]) -> Result<Strip, Refusal> {
    let mut prices = prices_of(&strip.numbers, &strip.values, &strip.bounds);
    prices.truncate(strikes.len());
    accepted(strip.number, prices)
}

/// The error bound that every bond and option on a tree has, without pricing any.
pub fn price_error_bound(steps: usize, reversion: u64, discounts: &[u64]) -> Result<u64, Refusal> {
    value_of(unsafe {
        raw::mixegorta_price_error_bound(steps, reversion, discounts.as_ptr(), discounts.len())
    })
}

/// The same bound with the greatest discount of each row.
pub fn tree_bounds(
    steps: usize,
    reversion: u64,
    discounts: &[u64],
) -> Result<TreeErrorBounds, Refusal> {
    let answer = unsafe {
        raw::mixegorta_tree_bounds(steps, reversion, discounts.as_ptr(), discounts.len())
    };
    accepted(
        answer.number,
        TreeErrorBounds {
            bound: answer.bound,
            greatest: answer.greatest,
        },
    )
}

/// The price at row 0 of the bond with these flows of rows 1 to n.
pub fn bond_price(
    steps: usize,
    reversion: u64,
    discounts: &[u64],
    flows: &[u64],
) -> Result<Price, Refusal> {
    priced(unsafe {
        raw::mixegorta_bond_price(
            steps,
            reversion,
            discounts.as_ptr(),
            discounts.len(),
            flows.as_ptr(),
            flows.len(),
        )
    })
}

/// The price at row 0 of an option on that bond.
pub fn option_price(
    steps: usize,
    reversion: u64,
    discounts: &[u64],
    flows: &[u64],
    terms: OptionTerms,
) -> Result<Price, Refusal> {
    priced(unsafe {
        raw::mixegorta_option_price(
            steps,
            reversion,
            discounts.as_ptr(),
            discounts.len(),
            flows.as_ptr(),
            flows.len(),
            terms.kind as u64,
            terms.expiry,
            terms.strike,
        )
    })
}

/// Bond and option in one roll: what [`bond_price`] and [`option_price`] answer.
pub fn bond_and_option(
    steps: usize,
    reversion: u64,
    discounts: &[u64],
    flows: &[u64],
    terms: OptionTerms,
) -> BondAndOption {
    each_priced(unsafe {
        raw::mixegorta_bond_and_option(
            steps,
            reversion,
            discounts.as_ptr(),
            discounts.len(),
            flows.as_ptr(),
            flows.len(),
            terms.kind as u64,
            terms.expiry,
            terms.strike,
        )
    })
}

/// The price at row 0 of an option on that bond which may be exercised on listed rows.
pub fn dated_option_price(
    steps: usize,
    reversion: u64,
    discounts: &[u64],
    flows: &[u64],
    terms: DatedTerms,
) -> Result<Price, Refusal> {
    priced(unsafe {
        raw::mixegorta_dated_option_price(
            steps,
            reversion,
            discounts.as_ptr(),
            discounts.len(),
            flows.as_ptr(),
            flows.len(),
            terms.side as u64,
            terms.dates.as_ptr(),
            terms.dates.len(),
            terms.strike,
        )
    })
}

/// Bond and dated option in one roll: what [`bond_price`] and [`dated_option_price`] answer.
pub fn bond_and_dated_option(
    steps: usize,
    reversion: u64,
    discounts: &[u64],
    flows: &[u64],
    terms: DatedTerms,
) -> BondAndOption {
    each_priced(unsafe {
        raw::mixegorta_bond_and_dated_option(
            steps,
            reversion,
            discounts.as_ptr(),
            discounts.len(),
            flows.as_ptr(),
            flows.len(),
            terms.side as u64,
            terms.dates.as_ptr(),
            terms.dates.len(),
            terms.strike,
        )
    })
}

/// Up to 16 strikes of one side and one list of dates, the bond rolled once for all of them: each answer is what [`dated_option_price`]
/// gives for its strike. The strip itself is refused for steps, for reversion, and with 6 for no strike or more than [`MAX_STRIKES`]; every other
/// refusal stands in the answers.
pub fn option_strip(
    steps: usize,
    reversion: u64,
    discounts: &[u64],
    flows: &[u64],
    side: Side,
    dates: &[u8],
    strikes: &[u64],
) -> Result<Strip, Refusal> {
    let strip = unsafe {
        raw::mixegorta_option_strip(
            steps,
            reversion,
            discounts.as_ptr(),
            discounts.len(),
            flows.as_ptr(),
            flows.len(),
            side as u64,
            dates.as_ptr(),
            dates.len(),
            strikes.as_ptr(),
            strikes.len(),
        )
    };
    each_strike(strip, strikes)
}

/// The same for one of the four kinds: each answer is what [`option_price`] gives for its strike.
pub fn option_strip_of_kind(
    steps: usize,
    reversion: u64,
    discounts: &[u64],
    flows: &[u64],
    kind: OptionKind,
    expiry: usize,
    strikes: &[u64],
) -> Result<Strip, Refusal> {
    let strip = unsafe {
        raw::mixegorta_option_strip_of_kind(
            steps,
            reversion,
            discounts.as_ptr(),
            discounts.len(),
            flows.as_ptr(),
            flows.len(),
            kind as u64,
            expiry,
            strikes.as_ptr(),
            strikes.len(),
        )
    };
    each_strike(strip, strikes)
}

/// What payoffs on a row are worth by the row's state prices.
pub fn value_by_state_prices(state_prices: &[u64], payoffs: &[u64]) -> Result<u64, Refusal> {
    value_of(unsafe {
        raw::mixegorta_value_by_state_prices(
            state_prices.as_ptr(),
            state_prices.len(),
            payoffs.as_ptr(),
            payoffs.len(),
        )
    })
}

/// How far below the exact price that value may be, for the fitted state prices of a row.
pub fn valuation_error_bound(
    steps: usize,
    reversion: u64,
    discounts: &[u64],
    row: usize,
    payoffs: &[u64],
) -> Result<u64, Refusal> {
    value_of(unsafe {
        raw::mixegorta_valuation_error_bound(
            steps,
            reversion,
            discounts.as_ptr(),
            discounts.len(),
            row,
            payoffs.as_ptr(),
            payoffs.len(),
        )
    })
}

/// Draws the sheet of a job at the end of `out`, which has at least [`SHEET_ROOM`] bytes, and shows it as the part of `out` that it is.
/// A refusal leaves `out` as it was.
pub fn sheet_into<'a>(job: &[u8], out: &'a mut [u8]) -> Result<&'a [u8], Refusal> {
    let written =
        unsafe { raw::mixegorta_sheet(job.as_ptr(), job.len(), out.as_mut_ptr(), out.len()) };
    accepted(written.number, ())?;
    Ok(&out[out.len() - written.size..])
}

/// The sheet of a job: lines of ASCII, each ended by a newline.
pub fn sheet(job: &[u8]) -> Result<String, Refusal> {
    let mut out = vec![0; SHEET_ROOM];
    let lines = sheet_into(job, &mut out)?;
    Ok(String::from_utf8_lossy(lines).into_owned())
}
