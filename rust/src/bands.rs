//! Haircut bands: what is lent on a bond.

use crate::shapes::column;
use crate::{raw, Refusal};
use std::fmt;

/// A band of a table: rows `first_row` to `last_row`, prices `lowest_price` to `highest_price`, both ends in it. A row is a bond's last row n.
#[derive(Clone, Copy, Debug, PartialEq, Eq)]
pub struct Band {
    /// The first row, 1 to 60.
    pub first_row: u64,
    /// The last row, 1 to 60.
    pub last_row: u64,
    /// The lowest price in billionths, 0 to 8,000,000,000.
    pub lowest_price: u64,
    /// The highest price in billionths, 0 to 8,000,000,000.
    pub highest_price: u64,
    /// What is taken off a price, in ten-thousandths, 0 to 10,000.
    pub haircut: u64,
}

/// What a refusal shows beside its number.
#[derive(Clone, Copy, Debug, PartialEq, Eq)]
pub enum Shown {
    /// Nothing: a row, a price or lengths were refused before the table was judged.
    Nothing,
    /// The place of the first bad band, counted from 1, or [`MAX_BANDS`](crate::MAX_BANDS) + 1 where only the number of bands is wrong.
    Place(u64),
    /// The first pair that is in no band or in several, by row and then price.
    Pair {
        /// The row.
        row: u64,
        /// The price in billionths.
        price: u64,
    },
}

/// Why a table of bands, or a worth by it, was refused.
#[derive(Clone, Copy, Debug, PartialEq, Eq)]
pub struct BandRefusal {
    /// The engine's number.
    pub refusal: Refusal,
    /// What is wrong.
    pub shown: Shown,
}

impl fmt::Display for BandRefusal {
    fn fmt(&self, f: &mut fmt::Formatter<'_>) -> fmt::Result {
        match self.shown {
            Shown::Nothing => self.refusal.fmt(f),
            Shown::Place(place) => write!(f, "{} (band {place})", self.refusal),
            Shown::Pair { row, price } => write!(f, "{} (row {row}, price {price})", self.refusal),
        }
    }
}

impl std::error::Error for BandRefusal {}

impl From<BandRefusal> for Refusal {
    fn from(refused: BandRefusal) -> Refusal {
        refused.refusal
    }
}

fn judged<T>(verdict: raw::Verdict, value: T) -> Result<T, BandRefusal> {
    let refusal = Refusal(verdict.number);
    let shown = match refusal {
        Refusal(0) => return Ok(value),
        Refusal::BAND => Shown::Place(verdict.place),
        Refusal::NO_BAND | Refusal::SEVERAL_BANDS => Shown::Pair {
            row: verdict.row,
            price: verdict.price,
        },
        _ => Shown::Nothing,
    };
    Err(BandRefusal { refusal, shown })
}

/// A table of bands. It is accepted where it has at most 40 good bands and each row 1 to 60 with each price 0 to 8,000,000,000 is in
/// precisely one of them.
///
#[cfg_attr(without_library, doc = "```ignore")]
#[cfg_attr(not(without_library), doc = "```")]
/// use mixegorta::{Band, Bands, Refusal, Shown, MAX_VALUE, ONE};
///
/// let short = Band { first_row: 1, last_row: 20, lowest_price: 0, highest_price: MAX_VALUE, haircut: 250 };
/// let long = Band { first_row: 21, last_row: 60, haircut: 800, ..short };
/// let table = Bands::new(&[short, long]);
/// table.check()?;
/// assert_eq!(table.worth(20, ONE)?, 975_000_000);
///
/// let gap = Bands::new(&[short, Band { first_row: 22, ..long }]).check().unwrap_err();
/// assert_eq!((gap.refusal, gap.shown), (Refusal::NO_BAND, Shown::Pair { row: 21, price: 0 }));
/// # Ok::<(), mixegorta::BandRefusal>(())
/// ```
#[derive(Clone, Debug, Default, PartialEq, Eq)]
pub struct Bands {
    first_rows: Vec<u64>,
    last_rows: Vec<u64>,
    lowest_prices: Vec<u64>,
    highest_prices: Vec<u64>,
    haircuts: Vec<u64>,
}

impl Bands {
    /// The table of these bands; nothing is judged yet.
    pub fn new(bands: &[Band]) -> Bands {
        Bands {
            first_rows: column(bands, |band| band.first_row),
            last_rows: column(bands, |band| band.last_row),
            lowest_prices: column(bands, |band| band.lowest_price),
            highest_prices: column(bands, |band| band.highest_price),
            haircuts: column(bands, |band| band.haircut),
        }
    }

    /// How many bands there are.
    pub fn len(&self) -> usize {
        self.first_rows.len()
    }

    /// Whether there are none.
    pub fn is_empty(&self) -> bool {
        self.first_rows.is_empty()
    }

    /// The verdict on the table, as [`check_bands`] gives it.
    pub fn check(&self) -> Result<(), BandRefusal> {
        check_bands(
            &self.first_rows,
            &self.last_rows,
            &self.lowest_prices,
            &self.highest_prices,
            &self.haircuts,
        )
    }

    /// What is lent on a bond of this last row, 1 to 60, and price, as [`lending_worth`] gives it.
    pub fn worth(&self, row: u64, price: u64) -> Result<u64, BandRefusal> {
        lending_worth(
            &self.first_rows,
            &self.last_rows,
            &self.lowest_prices,
            &self.highest_prices,
            &self.haircuts,
            row,
            price,
        )
    }
}

/// The verdict on a table in five lists, of which the k-th numbers are the k-th band: [`Refusal::LENGTH_OR_ROW`] where their lengths differ, then
/// [`Refusal::BAND`] with the place of the first bad band, then whichever of [`Refusal::NO_BAND`] and [`Refusal::SEVERAL_BANDS`] comes at the
/// earlier pair, with that pair.
pub fn check_bands(
    first_rows: &[u64],
    last_rows: &[u64],
    lowest_prices: &[u64],
    highest_prices: &[u64],
    haircuts: &[u64],
) -> Result<(), BandRefusal> {
    let verdict = unsafe {
        raw::mixegorta_check_bands(
            first_rows.as_ptr(),
            first_rows.len(),
            last_rows.as_ptr(),
            last_rows.len(),
            lowest_prices.as_ptr(),
            lowest_prices.len(),
            highest_prices.as_ptr(),
            highest_prices.len(),
            haircuts.as_ptr(),
            haircuts.len(),
        )
    };
    judged(verdict, ())
}

/// What is lent on a bond of this last row and price by a table in five lists: the price less the haircut of its band, down.
/// [`Refusal::LENGTH_OR_ROW`] and [`Refusal::VALUE`], of the price, come before the table's own refusals.
pub fn lending_worth(
    first_rows: &[u64],
    last_rows: &[u64],
    lowest_prices: &[u64],
    highest_prices: &[u64],
    haircuts: &[u64],
    row: u64,
    price: u64,
) -> Result<u64, BandRefusal> {
    let found = unsafe {
        raw::mixegorta_lending_worth(
            first_rows.as_ptr(),
            first_rows.len(),
            last_rows.as_ptr(),
            last_rows.len(),
            lowest_prices.as_ptr(),
            lowest_prices.len(),
            highest_prices.as_ptr(),
            highest_prices.len(),
            haircuts.as_ptr(),
            haircuts.len(),
            row,
            price,
        )
    };
    judged(found.verdict, found.worth)
}
