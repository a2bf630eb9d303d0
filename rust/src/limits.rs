//! Limits and units. Written by tools/declarations.py from tools/limits.txt.

/// Billionths in one.
pub const ONE: u64 = 1_000_000_000;
/// The whole of which probabilities are parts.
pub const PROBABILITY_ONE: u64 = 600_000_000;
/// The largest number of steps.
pub const MAX_STEPS: usize = 60;
/// The largest number of nodes of a row.
pub const MAX_NODES: usize = 121;
/// The largest number of discounts of a tree.
pub const MAX_DISCOUNTS: usize = 3_600;
/// The largest number of state prices of a tree.
pub const MAX_STATE_PRICES: usize = 3_721;
/// The largest number of strikes of a strip; the least is 1.
pub const MAX_STRIKES: usize = 16;
/// The largest name of a tree on a shelf; the least is 1.
pub const MAX_NAME: usize = 8;
/// Numbers in the memory of a shelf, which are the nodes that it has for all its trees.
pub const SHELF_ROOM: usize = 3_600;
/// The most bands of a table of haircuts.
pub const MAX_BANDS: usize = 40;
/// The largest haircut of a band, in ten-thousandths: all of a price.
pub const MAX_HAIRCUT: u64 = 10_000;
/// The largest number of steps of a rate tree and a spread tree together.
pub const MAX_PAIR_STEPS: usize = 20;
/// The longest job in bytes.
pub const MAX_JOB: usize = 4_700;
/// The places of a job record for quotes and for flows: as many steps as one byte can tell.
pub const MAX_JOB_STEPS: usize = 255;
/// The places of a job record for listed rows: as many as a job has room for.
pub const MAX_JOB_DATES: usize = 4_672;
/// Room for the sheet of every job in bytes.
pub const SHEET_ROOM: usize = 468_736;
/// The most fields of a book of jobs.
pub const MAX_FIELDS: usize = 500;
/// Room for the report of every book in bytes.
pub const BOOK_ROOM: usize = 2_304;
/// The most books and fields of a report together.
pub const MAX_REPORT_SIZE: u64 = 2_305_843_009;
/// The largest reversion per step, in ten-thousandths.
pub const MAX_REVERSION: u64 = 6_000;
/// The largest yearly volatility, in millionths.
pub const MAX_VOLATILITY: u64 = 50_000;
/// The smallest quoted discount, in billionths.
pub const MIN_QUOTE_DISCOUNT: u64 = 100_000_000;
/// The largest quoted discount, in billionths.
pub const MAX_QUOTE_DISCOUNT: u64 = 2_000_000_000;
/// The largest discount of a node, in billionths.
pub const MAX_NODE_DISCOUNT: u64 = 1_100_000_000;
/// The largest flow, in billionths.
pub const MAX_FLOW: u64 = 2_000_000_000;
/// The largest strike, in billionths.
pub const MAX_STRIKE: u64 = 4_000_000_000;
/// The largest value of a bond, an option or a payoff, in billionths.
pub const MAX_VALUE: u64 = 8_000_000_000;
/// The largest sum of state prices by which payoffs are valued, in billionths.
pub const MAX_STATE_PRICE_SUM: u64 = 2_000_000_100;
