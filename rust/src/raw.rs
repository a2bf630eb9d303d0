//! What the archive exports. Written by tools/declarations.py from the crates.

/// An answer that can be a refusal: number 0 with the value, or the refusal's number with value 0.
#[repr(C)]
#[derive(Clone, Copy)]
pub struct Answer {
    pub number: u64,
    pub value: u64,
}

/// Where a node leads: to `lowest` and the two nodes above it, with probabilities up, middle, down over 600,000,000.
#[repr(C)]
#[derive(Clone, Copy)]
pub struct Branches {
    pub number: u64,
    pub lowest: i64,
    pub probabilities: [u64; 3],
}

/// A quoted point: a row number and a figure.
#[repr(C)]
#[derive(Clone, Copy)]
pub struct Point {
    pub row: u64,
    pub figure: f64,
}

/// A row's place in the memory of its kind: where it starts, and how many nodes it has.
#[repr(C)]
#[derive(Clone, Copy)]
pub struct RowRange {
    pub start: usize,
    pub count: usize,
}

/// Number 0 with the signed rate in billionths, or refusal 9 with value 0.
#[repr(C)]
#[derive(Clone, Copy)]
pub struct Rate {
    pub number: u64,
    pub value: i64,
}

/// What is known of a tree: its error bound, and the greatest discount of each row, 0 for rows that the tree has not; a refusal's
/// number with zeros.
#[repr(C)]
#[derive(Clone, Copy)]
pub struct TreeErrorBounds {
    pub number: u64,
    pub bound: u64,
    pub greatest: [u64; 60],
}

/// A price in billionths with its error bound; a refusal's number with zeros.
#[repr(C)]
#[derive(Clone, Copy)]
pub struct Price {
    pub number: u64,
    pub value: u64,
    pub bound: u64,
}

/// A bond and an option on it.
#[repr(C)]
#[derive(Clone, Copy)]
pub struct BondAndOption {
    pub bond: Price,
    pub option: Price,
}

/// Up to 16 answers in order, a number, a value and a bound for each, zeros after them; or the strip's own refusal with zeros.
#[repr(C)]
#[derive(Clone, Copy)]
pub struct Strip {
    pub number: u64,
    pub numbers: [u64; 16],
    pub values: [u64; 16],
    pub bounds: [u64; 16],
}

/// A sheet that stands at the end of the lent room and is so many bytes long; a refusal's number with a zero.
#[repr(C)]
#[derive(Clone, Copy)]
pub struct Written {
    pub number: u64,
    pub size: usize,
}

/// The prices of a job: number 0 with the bond and, where the job has one, the option; a refusal's number with zeros.
#[repr(C)]
#[derive(Clone, Copy)]
pub struct JobPrices {
    pub number: u64,
    pub bond: Price,
    pub has_option: bool,
    pub option: Price,
}

/// The option of a job as it was read: tag 8 or 10, or 0 and zeros where the job has none.
#[repr(C)]
#[derive(Clone, Copy)]
pub struct OptionRecord {
    pub tag: u64,
    pub kind: u64,
    pub expiry: u64,
    pub strike: u64,
    pub count: usize,
    pub dates: [u8; 4672],
}

/// A job: its quotes and flows stand in the first `steps` places, zeros after them. A figure is the pattern of a float, NaN or
/// not.
#[repr(C)]
#[derive(Clone, Copy)]
pub struct Job {
    pub frequency: u64,
    pub steps: usize,
    pub reversion: u64,
    pub volatility: u64,
    pub version: u64,
    pub kinds: [u8; 255],
    pub figures: [u64; 255],
    pub flows: [u64; 255],
    pub option: OptionRecord,
}

/// Number 0 with the job, or refusal 1 with zeros.
#[repr(C)]
#[derive(Clone, Copy)]
pub struct Reading {
    pub number: u64,
    pub job: Job,
}

/// The lines of a book, which stand at the end of the lent room and are so many bytes long; a refusal's number with a zero.
#[repr(C)]
#[derive(Clone, Copy)]
pub struct BookText {
    pub number: u64,
    pub size: usize,
}

/// The totals over so many books. The count of refusals with number k stands at place k - 1. The dearest bond is that of the
/// field `place` of the book with the number `book`, both from 1, and both are 0 where none is priced.
#[repr(C)]
#[derive(Clone, Copy)]
pub struct Report {
    pub books: u64,
    pub fields: u64,
    pub priced: u64,
    pub refused: [u64; 13],
    pub bonds: u64,
    pub options: u64,
    pub error_bounds: u64,
    pub dearest: u64,
    pub book: u64,
    pub place: u64,
}

/// Number 0 and a report, or a refusal's number with the empty report.
#[repr(C)]
#[derive(Clone, Copy)]
pub struct Joined {
    pub number: u64,
    pub report: Report,
}

/// What a shelf keeps of a name: status 0 no tree, 1 a tree that awaits a commit, 2 a fitted tree; then its steps and its
/// reversion. A fitted tree carries its price error bound and the greatest discount of each of its rows; all else is 0.
#[repr(C)]
#[derive(Clone, Copy)]
pub struct Slot {
    pub status: u64,
    pub steps: usize,
    pub reversion: u64,
    pub bound: u64,
    pub greatest: [u64; 60],
}

/// The slot of name k has index k - 1.
#[repr(C)]
#[derive(Clone, Copy)]
pub struct Shelf {
    pub slots: [Slot; 8],
}

/// Where a tree's discounts stand in the memory, and how many they are; zeros where there is no tree.
#[repr(C)]
#[derive(Clone, Copy)]
pub struct Part {
    pub start: usize,
    pub count: usize,
}

/// A call's number, 0 or a refusal's, and the shelf after the call.
#[repr(C)]
#[derive(Clone, Copy)]
pub struct Shelved {
    pub number: u64,
    pub shelf: Shelf,
}

/// The answer to a table: 0 where it is accepted, else the number of the refusal, with the first failing pair (17 in no band, 18
/// in two or more) or the place of the first bad band, counted from 1 (16; 41 where only the number of bands is wrong).
#[repr(C)]
#[derive(Clone, Copy)]
pub struct Verdict {
    pub number: u64,
    pub row: u64,
    pub price: u64,
    pub place: u64,
}

/// The lending worth, 0 where it is refused, and the verdict.
#[repr(C)]
#[derive(Clone, Copy)]
pub struct Worth {
    pub worth: u64,
    pub verdict: Verdict,
}

extern "C" {
    pub fn mixegorta_version() -> u64;
    pub fn mixegorta_half_width(reversion: u64, row: usize) -> Answer;
    pub fn mixegorta_node_count(reversion: u64, row: usize) -> Answer;
    pub fn mixegorta_row_start(reversion: u64, row: usize) -> Answer;
    pub fn mixegorta_discounts_needed(steps: usize, reversion: u64) -> Answer;
    pub fn mixegorta_state_prices_needed(steps: usize, reversion: u64) -> Answer;
    pub fn mixegorta_branches(reversion: u64, row: usize, node: i64) -> Branches;
    pub fn mixegorta_working_reversion(version: u64, reversion: u64) -> Answer;
    pub fn mixegorta_quote_discount(frequency: u64, kind: u8, point: Point) -> Answer;
    pub fn mixegorta_curve_discounts(
        frequency: u64,
        steps: usize,
        rows: *const u64,
        rows_len: usize,
        kinds: *const u8,
        kinds_len: usize,
        figures: *const f64,
        figures_len: usize,
        discounts: *mut u64,
        discounts_len: usize,
    ) -> u64;
    pub fn mixegorta_fit(
        frequency: u64,
        steps: usize,
        reversion: u64,
        volatility: u64,
        rows: *const u64,
        rows_len: usize,
        kinds: *const u8,
        kinds_len: usize,
        figures: *const f64,
        figures_len: usize,
        discounts: *mut u64,
        discounts_len: usize,
        state_prices: *mut u64,
        state_prices_len: usize,
    ) -> u64;
    pub fn mixegorta_fit_version(
        version: u64,
        frequency: u64,
        steps: usize,
        reversion: u64,
        volatility: u64,
        rows: *const u64,
        rows_len: usize,
        kinds: *const u8,
        kinds_len: usize,
        figures: *const f64,
        figures_len: usize,
        discounts: *mut u64,
        discounts_len: usize,
        state_prices: *mut u64,
        state_prices_len: usize,
    ) -> u64;
    pub fn mixegorta_row_range(
        discounts: *const u64,
        discounts_len: usize,
        state_prices: *const u64,
        state_prices_len: usize,
        kind: u64,
        steps: usize,
        reversion: u64,
        row: usize,
    ) -> RowRange;
    pub fn mixegorta_step_rate(discount: u64) -> Rate;
    pub fn mixegorta_continuous_rate(discount: u64) -> Rate;
    pub fn mixegorta_state_price_error_bound(
        steps: usize,
        reversion: u64,
        discounts: *const u64,
        discounts_len: usize,
        row: usize,
    ) -> Answer;
    pub fn mixegorta_price_error_bound(
        steps: usize,
        reversion: u64,
        discounts: *const u64,
        discounts_len: usize,
    ) -> Answer;
    pub fn mixegorta_tree_bounds(
        steps: usize,
        reversion: u64,
        discounts: *const u64,
        discounts_len: usize,
    ) -> TreeErrorBounds;
    pub fn mixegorta_bond_price(
        steps: usize,
        reversion: u64,
        discounts: *const u64,
        discounts_len: usize,
        flows: *const u64,
        flows_len: usize,
    ) -> Price;
    pub fn mixegorta_option_price(
        steps: usize,
        reversion: u64,
        discounts: *const u64,
        discounts_len: usize,
        flows: *const u64,
        flows_len: usize,
        kind: u64,
        expiry: usize,
        strike: u64,
    ) -> Price;
    pub fn mixegorta_bond_and_option(
        steps: usize,
        reversion: u64,
        discounts: *const u64,
        discounts_len: usize,
        flows: *const u64,
        flows_len: usize,
        kind: u64,
        expiry: usize,
        strike: u64,
    ) -> BondAndOption;
    pub fn mixegorta_dated_option_price(
        steps: usize,
        reversion: u64,
        discounts: *const u64,
        discounts_len: usize,
        flows: *const u64,
        flows_len: usize,
        side: u64,
        dates: *const u8,
        dates_len: usize,
        strike: u64,
    ) -> Price;
    pub fn mixegorta_bond_and_dated_option(
        steps: usize,
        reversion: u64,
        discounts: *const u64,
        discounts_len: usize,
        flows: *const u64,
        flows_len: usize,
        side: u64,
        dates: *const u8,
        dates_len: usize,
        strike: u64,
    ) -> BondAndOption;
    pub fn mixegorta_option_strip(
        steps: usize,
        reversion: u64,
        discounts: *const u64,
        discounts_len: usize,
        flows: *const u64,
        flows_len: usize,
        side: u64,
        dates: *const u8,
        dates_len: usize,
        strikes: *const u64,
        strikes_len: usize,
    ) -> Strip;
    pub fn mixegorta_option_strip_of_kind(
        steps: usize,
        reversion: u64,
        discounts: *const u64,
        discounts_len: usize,
        flows: *const u64,
        flows_len: usize,
        kind: u64,
        expiry: usize,
        strikes: *const u64,
        strikes_len: usize,
    ) -> Strip;
    pub fn mixegorta_value_by_state_prices(
        state_prices: *const u64,
        state_prices_len: usize,
        payoffs: *const u64,
        payoffs_len: usize,
    ) -> Answer;
    pub fn mixegorta_valuation_error_bound(
        steps: usize,
        reversion: u64,
        discounts: *const u64,
        discounts_len: usize,
        row: usize,
        payoffs: *const u64,
        payoffs_len: usize,
    ) -> Answer;
    pub fn mixegorta_sheet(job: *const u8, job_len: usize, out: *mut u8, out_len: usize)
        -> Written;
    pub fn mixegorta_prices_of_job(
        job: *const u8,
        job_len: usize,
        discounts: *mut u64,
        discounts_len: usize,
        state_prices: *mut u64,
        state_prices_len: usize,
    ) -> JobPrices;
    pub fn mixegorta_read_job(bytes: *const u8, bytes_len: usize) -> Reading;
    pub fn mixegorta_write_job(job: Job, out: *mut u8, out_len: usize) -> Answer;
    pub fn mixegorta_book_report(
        file: *const u8,
        file_len: usize,
        out: *mut u8,
        out_len: usize,
    ) -> BookText;
    pub fn mixegorta_empty_report() -> Report;
    pub fn mixegorta_report_of_file(file: *const u8, file_len: usize) -> Report;
    pub fn mixegorta_joined_reports(first: Report, second: Report) -> Joined;
    pub fn mixegorta_empty_shelf() -> Shelf;
    pub fn mixegorta_shelf_part(shelf: Shelf, name: usize) -> Part;
    pub fn mixegorta_shelf_ask(
        shelf: Shelf,
        memory: *mut [u64; 3600],
        name: usize,
        steps: usize,
        reversion: u64,
    ) -> Shelved;
    pub fn mixegorta_shelf_commit(
        shelf: Shelf,
        memory: *mut [u64; 3600],
        name: usize,
        frequency: u64,
        volatility: u64,
        rows: *const u64,
        rows_len: usize,
        kinds: *const u8,
        kinds_len: usize,
        figures: *const f64,
        figures_len: usize,
    ) -> Shelved;
    pub fn mixegorta_shelf_release(shelf: Shelf, memory: *mut [u64; 3600], name: usize) -> Shelved;
    pub fn mixegorta_shelf_bond_price(
        shelf: Shelf,
        memory: *const [u64; 3600],
        name: usize,
        flows: *const u64,
        flows_len: usize,
    ) -> Price;
    pub fn mixegorta_shelf_option_price(
        shelf: Shelf,
        memory: *const [u64; 3600],
        name: usize,
        flows: *const u64,
        flows_len: usize,
        kind: u64,
        expiry: usize,
        strike: u64,
    ) -> Price;
    pub fn mixegorta_shelf_bond_and_option(
        shelf: Shelf,
        memory: *const [u64; 3600],
        name: usize,
        flows: *const u64,
        flows_len: usize,
        kind: u64,
        expiry: usize,
        strike: u64,
    ) -> BondAndOption;
    pub fn mixegorta_shelf_dated_option_price(
        shelf: Shelf,
        memory: *const [u64; 3600],
        name: usize,
        flows: *const u64,
        flows_len: usize,
        side: u64,
        dates: *const u8,
        dates_len: usize,
        strike: u64,
    ) -> Price;
    pub fn mixegorta_shelf_bond_and_dated_option(
        shelf: Shelf,
        memory: *const [u64; 3600],
        name: usize,
        flows: *const u64,
        flows_len: usize,
        side: u64,
        dates: *const u8,
        dates_len: usize,
        strike: u64,
    ) -> BondAndOption;
    pub fn mixegorta_shelf_option_strip(
        shelf: Shelf,
        memory: *const [u64; 3600],
        name: usize,
        flows: *const u64,
        flows_len: usize,
        side: u64,
        dates: *const u8,
        dates_len: usize,
        strikes: *const u64,
        strikes_len: usize,
    ) -> Strip;
    pub fn mixegorta_shelf_option_strip_of_kind(
        shelf: Shelf,
        memory: *const [u64; 3600],
        name: usize,
        flows: *const u64,
        flows_len: usize,
        kind: u64,
        expiry: usize,
        strikes: *const u64,
        strikes_len: usize,
    ) -> Strip;
    pub fn mixegorta_check_bands(
        first_rows: *const u64,
        first_rows_len: usize,
        last_rows: *const u64,
        last_rows_len: usize,
        lowest_prices: *const u64,
        lowest_prices_len: usize,
        highest_prices: *const u64,
        highest_prices_len: usize,
        haircuts: *const u64,
        haircuts_len: usize,
    ) -> Verdict;
    pub fn mixegorta_lending_worth(
        first_rows: *const u64,
        first_rows_len: usize,
        last_rows: *const u64,
        last_rows_len: usize,
        lowest_prices: *const u64,
        lowest_prices_len: usize,
        highest_prices: *const u64,
        highest_prices_len: usize,
        haircuts: *const u64,
        haircuts_len: usize,
        row: u64,
        price: u64,
    ) -> Worth;
    pub fn mixegorta_pair_bond_price(
        rate_steps: usize,
        rate_reversion: u64,
        rate_discounts: *const u64,
        rate_discounts_len: usize,
        spread_steps: usize,
        spread_reversion: u64,
        spread_discounts: *const u64,
        spread_discounts_len: usize,
        flows: *const u64,
        flows_len: usize,
    ) -> Price;
    pub fn mixegorta_pair_dated_option_price(
        rate_steps: usize,
        rate_reversion: u64,
        rate_discounts: *const u64,
        rate_discounts_len: usize,
        spread_steps: usize,
        spread_reversion: u64,
        spread_discounts: *const u64,
        spread_discounts_len: usize,
        flows: *const u64,
        flows_len: usize,
        side: u64,
        dates: *const u8,
        dates_len: usize,
        strike: u64,
    ) -> Price;
}
