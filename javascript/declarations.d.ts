// What the module exports, the refusals and the limits. Written by tools/declarations.py from the crates.

/** A whole number: a BigInt, or a Number that is whole and at most 2^53 - 1 in size. */
export type Whole = bigint | number;

/** An answer that can be a refusal: number 0 with the value, or the refusal's number with value 0. */
export interface Answer {
    number: bigint;
    value: bigint;
}
export interface AnswerGiven {
    number: Whole;
    value: Whole;
}

/** Where a node leads: to `lowest` and the two nodes above it, with probabilities up, middle, down over
 *  600,000,000. */
export interface Branches {
    number: bigint;
    lowest: bigint;
    probabilities: bigint[];
}
export interface BranchesGiven {
    number: Whole;
    lowest: Whole;
    probabilities: ArrayLike<Whole>;
}

/** A quoted point: a row number and a figure. */
export interface Point {
    row: bigint;
    figure: number;
}
export interface PointGiven {
    row: Whole;
    figure: number;
}

/** A row's place in the memory of its kind: where it starts, and how many nodes it has. */
export interface RowRange {
    start: bigint;
    count: bigint;
}
export interface RowRangeGiven {
    start: Whole;
    count: Whole;
}

/** Number 0 with the signed rate in billionths, or refusal 9 with value 0. */
export interface Rate {
    number: bigint;
    value: bigint;
}
export interface RateGiven {
    number: Whole;
    value: Whole;
}

/** What is known of a tree: its error bound, and the greatest discount of each row, 0 for rows that the tree has
 *  not; a refusal's number with zeros. */
export interface TreeErrorBounds {
    number: bigint;
    bound: bigint;
    greatest: bigint[];
}
export interface TreeErrorBoundsGiven {
    number: Whole;
    bound: Whole;
    greatest: ArrayLike<Whole>;
}

/** A price in billionths with its error bound; a refusal's number with zeros. */
export interface Price {
    number: bigint;
    value: bigint;
    bound: bigint;
}
export interface PriceGiven {
    number: Whole;
    value: Whole;
    bound: Whole;
}

/** A bond and an option on it. */
export interface BondAndOption {
    bond: Price;
    option: Price;
}
export interface BondAndOptionGiven {
    bond: PriceGiven;
    option: PriceGiven;
}

/** Up to 16 answers in order, a number, a value and a bound for each, zeros after them; or the strip's own refusal
 *  with zeros. */
export interface Strip {
    number: bigint;
    numbers: bigint[];
    values: bigint[];
    bounds: bigint[];
}
export interface StripGiven {
    number: Whole;
    numbers: ArrayLike<Whole>;
    values: ArrayLike<Whole>;
    bounds: ArrayLike<Whole>;
}

/** A sheet that stands at the end of the lent room and is so many bytes long; a refusal's number with a zero. */
export interface Written {
    number: bigint;
    size: bigint;
}
export interface WrittenGiven {
    number: Whole;
    size: Whole;
}

/** The prices of a job: number 0 with the bond and, where the job has one, the option; a refusal's number with
 *  zeros. */
export interface JobPrices {
    number: bigint;
    bond: Price;
    has_option: boolean;
    option: Price;
}
export interface JobPricesGiven {
    number: Whole;
    bond: PriceGiven;
    has_option: boolean;
    option: PriceGiven;
}

/** The option of a job as it was read: tag 8 or 10, or 0 and zeros where the job has none. */
export interface OptionRecord {
    tag: bigint;
    kind: bigint;
    expiry: bigint;
    strike: bigint;
    count: bigint;
    dates: number[];
}
export interface OptionRecordGiven {
    tag: Whole;
    kind: Whole;
    expiry: Whole;
    strike: Whole;
    count: Whole;
    dates: ArrayLike<Whole>;
}

/** A job: its quotes and flows stand in the first `steps` places, zeros after them. A figure is the pattern of a
 *  float, NaN or not. */
export interface Job {
    frequency: bigint;
    steps: bigint;
    reversion: bigint;
    volatility: bigint;
    version: bigint;
    kinds: number[];
    figures: bigint[];
    flows: bigint[];
    option: OptionRecord;
}
export interface JobGiven {
    frequency: Whole;
    steps: Whole;
    reversion: Whole;
    volatility: Whole;
    version: Whole;
    kinds: ArrayLike<Whole>;
    figures: ArrayLike<Whole>;
    flows: ArrayLike<Whole>;
    option: OptionRecordGiven;
}

/** Number 0 with the job, or refusal 1 with zeros. */
export interface Reading {
    number: bigint;
    job: Job;
}
export interface ReadingGiven {
    number: Whole;
    job: JobGiven;
}

/** The lines of a book, which stand at the end of the lent room and are so many bytes long; a refusal's number
 *  with a zero. */
export interface BookText {
    number: bigint;
    size: bigint;
}
export interface BookTextGiven {
    number: Whole;
    size: Whole;
}

/** The totals over so many books. The count of refusals with number k stands at place k - 1. The dearest bond is
 *  that of the field `place` of the book with the number `book`, both from 1, and both are 0 where none is priced. */
export interface Report {
    books: bigint;
    fields: bigint;
    priced: bigint;
    refused: bigint[];
    bonds: bigint;
    options: bigint;
    error_bounds: bigint;
    dearest: bigint;
    book: bigint;
    place: bigint;
}
export interface ReportGiven {
    books: Whole;
    fields: Whole;
    priced: Whole;
    refused: ArrayLike<Whole>;
    bonds: Whole;
    options: Whole;
    error_bounds: Whole;
    dearest: Whole;
    book: Whole;
    place: Whole;
}

/** Number 0 and a report, or a refusal's number with the empty report. */
export interface Joined {
    number: bigint;
    report: Report;
}
export interface JoinedGiven {
    number: Whole;
    report: ReportGiven;
}

/** What a shelf keeps of a name: status 0 no tree, 1 a tree that awaits a commit, 2 a fitted tree; then its steps
 *  and its reversion. A fitted tree carries its price error bound and the greatest discount of each of its rows;
 *  all else is 0. */
export interface Slot {
    status: bigint;
    steps: bigint;
    reversion: bigint;
    bound: bigint;
    greatest: bigint[];
}
export interface SlotGiven {
    status: Whole;
    steps: Whole;
    reversion: Whole;
    bound: Whole;
    greatest: ArrayLike<Whole>;
}

/** The slot of name k has index k - 1. */
export interface Shelf {
    slots: Slot[];
}
export interface ShelfGiven {
    slots: ArrayLike<SlotGiven>;
}

/** Where a tree's discounts stand in the memory, and how many they are; zeros where there is no tree. */
export interface Part {
    start: bigint;
    count: bigint;
}
export interface PartGiven {
    start: Whole;
    count: Whole;
}

/** A call's number, 0 or a refusal's, and the shelf after the call. */
export interface Shelved {
    number: bigint;
    shelf: Shelf;
}
export interface ShelvedGiven {
    number: Whole;
    shelf: ShelfGiven;
}

/** The answer to a table: 0 where it is accepted, else the number of the refusal, with the first failing pair (17
 *  in no band, 18 in two or more) or the place of the first bad band, counted from 1 (16; 41 where only the number
 *  of bands is wrong). */
export interface Verdict {
    number: bigint;
    row: bigint;
    price: bigint;
    place: bigint;
}
export interface VerdictGiven {
    number: Whole;
    row: Whole;
    price: Whole;
    place: Whole;
}

/** The lending worth, 0 where it is refused, and the verdict. */
export interface Worth {
    worth: bigint;
    verdict: Verdict;
}
export interface WorthGiven {
    worth: Whole;
    verdict: VerdictGiven;
}

/** The exported functions as they are: BigInt out, and a refusal is a number of the answer, not thrown.
 *  What a typed array receives is in it when the call ends. */
export interface Raw {
    version(): bigint;
    half_width(reversion: Whole, row: Whole): Answer;
    node_count(reversion: Whole, row: Whole): Answer;
    row_start(reversion: Whole, row: Whole): Answer;
    discounts_needed(steps: Whole, reversion: Whole): Answer;
    state_prices_needed(steps: Whole, reversion: Whole): Answer;
    branches(reversion: Whole, row: Whole, node: Whole): Branches;
    working_reversion(version: Whole, reversion: Whole): Answer;
    quote_discount(frequency: Whole, kind: Whole, point: PointGiven): Answer;
    curve_discounts(
        frequency: Whole, steps: Whole, rows: ArrayLike<Whole>, kinds: ArrayLike<Whole>, figures: ArrayLike<number>,
        discounts: BigUint64Array
    ): bigint;
    fit(
        frequency: Whole, steps: Whole, reversion: Whole, volatility: Whole, rows: ArrayLike<Whole>,
        kinds: ArrayLike<Whole>, figures: ArrayLike<number>, discounts: BigUint64Array, state_prices: BigUint64Array
    ): bigint;
    fit_version(
        version: Whole, frequency: Whole, steps: Whole, reversion: Whole, volatility: Whole, rows: ArrayLike<Whole>,
        kinds: ArrayLike<Whole>, figures: ArrayLike<number>, discounts: BigUint64Array, state_prices: BigUint64Array
    ): bigint;
    row_range(
        discounts: ArrayLike<Whole>, state_prices: ArrayLike<Whole>, kind: Whole, steps: Whole, reversion: Whole,
        row: Whole
    ): RowRange;
    step_rate(discount: Whole): Rate;
    continuous_rate(discount: Whole): Rate;
    state_price_error_bound(steps: Whole, reversion: Whole, discounts: ArrayLike<Whole>, row: Whole): Answer;
    price_error_bound(steps: Whole, reversion: Whole, discounts: ArrayLike<Whole>): Answer;
    tree_bounds(steps: Whole, reversion: Whole, discounts: ArrayLike<Whole>): TreeErrorBounds;
    bond_price(steps: Whole, reversion: Whole, discounts: ArrayLike<Whole>, flows: ArrayLike<Whole>): Price;
    option_price(
        steps: Whole, reversion: Whole, discounts: ArrayLike<Whole>, flows: ArrayLike<Whole>, kind: Whole,
        expiry: Whole, strike: Whole
    ): Price;
    bond_and_option(
        steps: Whole, reversion: Whole, discounts: ArrayLike<Whole>, flows: ArrayLike<Whole>, kind: Whole,
        expiry: Whole, strike: Whole
    ): BondAndOption;
    dated_option_price(
        steps: Whole, reversion: Whole, discounts: ArrayLike<Whole>, flows: ArrayLike<Whole>, side: Whole,
        dates: ArrayLike<Whole>, strike: Whole
    ): Price;
    bond_and_dated_option(
        steps: Whole, reversion: Whole, discounts: ArrayLike<Whole>, flows: ArrayLike<Whole>, side: Whole,
        dates: ArrayLike<Whole>, strike: Whole
    ): BondAndOption;
    option_strip(
        steps: Whole, reversion: Whole, discounts: ArrayLike<Whole>, flows: ArrayLike<Whole>, side: Whole,
        dates: ArrayLike<Whole>, strikes: ArrayLike<Whole>
    ): Strip;
    option_strip_of_kind(
        steps: Whole, reversion: Whole, discounts: ArrayLike<Whole>, flows: ArrayLike<Whole>, kind: Whole,
        expiry: Whole, strikes: ArrayLike<Whole>
    ): Strip;
    value_by_state_prices(state_prices: ArrayLike<Whole>, payoffs: ArrayLike<Whole>): Answer;
    valuation_error_bound(
        steps: Whole, reversion: Whole, discounts: ArrayLike<Whole>, row: Whole, payoffs: ArrayLike<Whole>
    ): Answer;
    sheet(job: ArrayLike<Whole>, out: Uint8Array): Written;
    prices_of_job(job: ArrayLike<Whole>, discounts: BigUint64Array, state_prices: BigUint64Array): JobPrices;
    read_job(bytes: ArrayLike<Whole>): Reading;
    write_job(job: JobGiven, out: Uint8Array): Answer;
    book_report(file: ArrayLike<Whole>, out: Uint8Array): BookText;
    empty_report(): Report;
    report_of_file(file: ArrayLike<Whole>): Report;
    joined_reports(first: ReportGiven, second: ReportGiven): Joined;
    empty_shelf(): Shelf;
    shelf_part(shelf: ShelfGiven, name: Whole): Part;
    shelf_ask(shelf: ShelfGiven, memory: BigUint64Array, name: Whole, steps: Whole, reversion: Whole): Shelved;
    shelf_commit(
        shelf: ShelfGiven, memory: BigUint64Array, name: Whole, frequency: Whole, volatility: Whole,
        rows: ArrayLike<Whole>, kinds: ArrayLike<Whole>, figures: ArrayLike<number>
    ): Shelved;
    shelf_release(shelf: ShelfGiven, memory: BigUint64Array, name: Whole): Shelved;
    shelf_bond_price(shelf: ShelfGiven, memory: ArrayLike<Whole>, name: Whole, flows: ArrayLike<Whole>): Price;
    shelf_option_price(
        shelf: ShelfGiven, memory: ArrayLike<Whole>, name: Whole, flows: ArrayLike<Whole>, kind: Whole, expiry: Whole,
        strike: Whole
    ): Price;
    shelf_bond_and_option(
        shelf: ShelfGiven, memory: ArrayLike<Whole>, name: Whole, flows: ArrayLike<Whole>, kind: Whole, expiry: Whole,
        strike: Whole
    ): BondAndOption;
    shelf_dated_option_price(
        shelf: ShelfGiven, memory: ArrayLike<Whole>, name: Whole, flows: ArrayLike<Whole>, side: Whole,
        dates: ArrayLike<Whole>, strike: Whole
    ): Price;
    shelf_bond_and_dated_option(
        shelf: ShelfGiven, memory: ArrayLike<Whole>, name: Whole, flows: ArrayLike<Whole>, side: Whole,
        dates: ArrayLike<Whole>, strike: Whole
    ): BondAndOption;
    shelf_option_strip(
        shelf: ShelfGiven, memory: ArrayLike<Whole>, name: Whole, flows: ArrayLike<Whole>, side: Whole,
        dates: ArrayLike<Whole>, strikes: ArrayLike<Whole>
    ): Strip;
    shelf_option_strip_of_kind(
        shelf: ShelfGiven, memory: ArrayLike<Whole>, name: Whole, flows: ArrayLike<Whole>, kind: Whole, expiry: Whole,
        strikes: ArrayLike<Whole>
    ): Strip;
    check_bands(
        first_rows: ArrayLike<Whole>, last_rows: ArrayLike<Whole>, lowest_prices: ArrayLike<Whole>,
        highest_prices: ArrayLike<Whole>, haircuts: ArrayLike<Whole>
    ): Verdict;
    lending_worth(
        first_rows: ArrayLike<Whole>, last_rows: ArrayLike<Whole>, lowest_prices: ArrayLike<Whole>,
        highest_prices: ArrayLike<Whole>, haircuts: ArrayLike<Whole>, row: Whole, price: Whole
    ): Worth;
    pair_bond_price(
        rate_steps: Whole, rate_reversion: Whole, rate_discounts: ArrayLike<Whole>, spread_steps: Whole,
        spread_reversion: Whole, spread_discounts: ArrayLike<Whole>, flows: ArrayLike<Whole>
    ): Price;
    pair_dated_option_price(
        rate_steps: Whole, rate_reversion: Whole, rate_discounts: ArrayLike<Whole>, spread_steps: Whole,
        spread_reversion: Whole, spread_discounts: ArrayLike<Whole>, flows: ArrayLike<Whole>, side: Whole,
        dates: ArrayLike<Whole>, strike: Whole
    ): Price;
}

/** Billionths in one. */
export const ONE: bigint;
/** The whole of which probabilities are parts. */
export const PROBABILITY_ONE: bigint;
/** The largest number of steps. */
export const MAX_STEPS: number;
/** The largest number of nodes of a row. */
export const MAX_NODES: number;
/** The largest number of discounts of a tree. */
export const MAX_DISCOUNTS: number;
/** The largest number of state prices of a tree. */
export const MAX_STATE_PRICES: number;
/** The largest number of strikes of a strip; the least is 1. */
export const MAX_STRIKES: number;
/** The largest name of a tree on a shelf; the least is 1. */
export const MAX_NAME: number;
/** Numbers in the memory of a shelf, which are the nodes that it has for all its trees. */
export const SHELF_ROOM: number;
/** The most bands of a table of haircuts. */
export const MAX_BANDS: number;
/** The largest haircut of a band, in ten-thousandths: all of a price. */
export const MAX_HAIRCUT: bigint;
/** The largest number of steps of a rate tree and a spread tree together. */
export const MAX_PAIR_STEPS: number;
/** The longest job in bytes. */
export const MAX_JOB: number;
/** The places of a job record for quotes and for flows: as many steps as one byte can tell. */
export const MAX_JOB_STEPS: number;
/** The places of a job record for listed rows: as many as a job has room for. */
export const MAX_JOB_DATES: number;
/** Room for the sheet of every job in bytes. */
export const SHEET_ROOM: number;
/** The most fields of a book of jobs. */
export const MAX_FIELDS: number;
/** Room for the report of every book in bytes. */
export const BOOK_ROOM: number;
/** The most books and fields of a report together. */
export const MAX_REPORT_SIZE: bigint;
/** The largest reversion per step, in ten-thousandths. */
export const MAX_REVERSION: bigint;
/** The largest yearly volatility, in millionths. */
export const MAX_VOLATILITY: bigint;
/** The smallest quoted discount, in billionths. */
export const MIN_QUOTE_DISCOUNT: bigint;
/** The largest quoted discount, in billionths. */
export const MAX_QUOTE_DISCOUNT: bigint;
/** The largest discount of a node, in billionths. */
export const MAX_NODE_DISCOUNT: bigint;
/** The largest flow, in billionths. */
export const MAX_FLOW: bigint;
/** The largest strike, in billionths. */
export const MAX_STRIKE: bigint;
/** The largest value of a bond, an option or a payoff, in billionths. */
export const MAX_VALUE: bigint;
/** The largest sum of state prices by which payoffs are valued, in billionths. */
export const MAX_STATE_PRICE_SUM: bigint;

/** A call that the engine refused. */
export class Refused extends Error {
    readonly number: number;
    readonly cause: string;
    readonly advice: string;
    readonly entry: string;
}
/** 1: The job is malformed or longer than 4,700 bytes. */
export class MalformedJob extends Refused {}
/** 2: The steps a year are not 1, 2, 4 or 12. */
export class UnknownFrequency extends Refused {}
/** 3: The steps are outside 1 to 60. */
export class StepsOutOfRange extends Refused {}
/** 4: The reversion is above 6,000. */
export class ReversionTooLarge extends Refused {}
/** 5: The volatility is above 50,000. */
export class VolatilityTooLarge extends Refused {}
/** 6: A length, row or node is not in the tree, a memory is too short, or the strikes are none or more than 16. */
export class NotInTree extends Refused {}
/** 7: A quote's kind, figure or discount is outside its limits, or the version is not 1 or 2. */
export class QuoteOutOfRange extends Refused {}
/** 8: The nodes are too far apart. The half width of the last row but one times the spacing of the nodes is above
 *  one. */
export class NodesTooFarApart extends Refused {}
/** 9: A node discount is 0 or above 1,100,000,000. */
export class NodeDiscountOutOfRange extends Refused {}
/** 10: A flow is above 2,000,000,000. */
export class FlowTooLarge extends Refused {}
/** 11: The option's kind, side, expiry or strike is outside its limit. */
export class OptionTermsOutOfRange extends Refused {}
/** 12: A value is above 8,000,000,000, or state prices sum above 2,000,000,100. */
export class ValueTooLarge extends Refused {}
/** 13: The exercise dates are none, not strictly rising, or reach the last row. */
export class ExerciseDatesOutOfOrder extends Refused {}
/** 14: The asked nodes and those held are more than 3,600. */
export class ShelfFull extends Refused {}
/** 15: The name is outside 1 to 8, already present at asking, not awaiting a commit at commit, or absent at
 *  release or pricing. */
export class WrongName extends Refused {}
/** 16: A band has an end before its start, or a haircut, start or end out of range, or there are more than 40
 *  bands. */
export class BadBand extends Refused {}
/** 17: A row and a price are in no band. */
export class PairInNoBand extends Refused {}
/** 18: A row and a price are in two or more bands. */
export class PairInSeveralBands extends Refused {}
/** 19: The steps of a pair are above 20, or its two trees differ in them. */
export class PairStepsOutOfRange extends Refused {}
