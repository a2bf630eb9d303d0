// The types of mixegorta for browsers and node.
import type { Raw, Refused, Report, ReportGiven, Verdict, Whole } from './declarations.js';

export * from './declarations.js';

export const DISCOUNT_FACTOR: 5;
export const YEARLY_RATE: 6;
export const YEARLY_YIELD: 9;
export const DISCOUNTS: 1;
export const STATE_PRICES: 2;
export const EUROPEAN_CALL: 1;
export const EUROPEAN_PUT: 2;
export const AMERICAN_CALL: 3;
export const AMERICAN_PUT: 4;
export const CALL: 1;
export const PUT: 2;
export const OPTION_OF_KIND: 8;
export const DATED_OPTION: 10;
/** The refusals by number, from 1. */
export const CLASSES: Array<new (number: number, entry: string) => Refused>;

/** An amount: whole billionths, or a decimal string such as '1.01', which is exact or an error. */
export type Amount = Whole | string;
export type Amounts = ArrayLike<Amount>;

/** A price and how far the exact one on the same tree may be from it, in billionths. */
export interface PriceOf {
    value: bigint;
    bound: bigint;
}

/** A quote of row k + 1 at place k: a kind and its figure. A Number alone is a discount factor. */
export type Quote = number | { kind: number; figure: number };

export interface TreeInputs {
    /** Steps a year: 1, 2, 4 or 12. */
    frequency: Whole;
    /** A step, in ten-thousandths. */
    reversion: Whole;
    /** A year, absolute, in millionths. */
    volatility: Whole;
    points: Iterable<Quote>;
    /** How the fit takes the reversion: 1 or 2. */
    version?: Whole;
}

/** A fitted tree. It holds its own numbers and never changes. */
export class Tree {
    private constructor();
    readonly frequency: number;
    readonly steps: number;
    readonly reversion: number;
    readonly volatility: number;
    readonly version: number;
    readonly workingReversion: number;
    readonly discounts: BigUint64Array;
    readonly statePrices: BigUint64Array;
    rowDiscounts(row: Whole): BigUint64Array;
    rowStatePrices(row: Whole): BigUint64Array;
    stepRates(row: Whole): BigInt64Array;
    branches(row: Whole, node: Whole): { lowest: bigint; probabilities: bigint[] };
    priceErrorBound(): bigint;
    statePriceErrorBound(row: Whole): bigint;
    bounds(): { bound: bigint; greatest: bigint[] };
    bondPrice(flows: Amounts): PriceOf;
    optionPrice(flows: Amounts, kind: Whole, expiry: Whole, strike: Amount): PriceOf;
    datedOptionPrice(flows: Amounts, side: Whole, dates: ArrayLike<Whole>, strike: Amount): PriceOf;
    bondAndOption(flows: Amounts, kind: Whole, expiry: Whole, strike: Amount): BondAndOptionOf;
    bondAndDatedOption(flows: Amounts, side: Whole, dates: ArrayLike<Whole>, strike: Amount): BondAndOptionOf;
    optionStrip(flows: Amounts, side: Whole, dates: ArrayLike<Whole>, strikes: Amounts): Array<PriceOf | Refused>;
    optionStripOfKind(flows: Amounts, kind: Whole, expiry: Whole, strikes: Amounts): Array<PriceOf | Refused>;
    value(row: Whole, payoffs: Amounts): PriceOf;
    pairBondPrice(spreads: Tree, flows: Amounts): PriceOf;
    pairDatedOptionPrice(
        spreads: Tree, flows: Amounts, side: Whole, dates: ArrayLike<Whole>, strike: Amount,
    ): PriceOf;
}

export interface BondAndOptionOf {
    bond: PriceOf | Refused;
    option: PriceOf | Refused;
}

export type OptionOfJob =
    | { kind: number; expiry: number; strike: bigint }
    | { side: number; strike: bigint; dates: number[] };

/** A job as its fields say it, good or not. bits are the 64 bits of a figure, which are kept. */
export interface JobOf {
    frequency: number;
    reversion: number;
    volatility: number;
    quotes: Array<{ kind: number; figure: number; bits: bigint }>;
    flows: bigint[];
    option: OptionOfJob | null;
    version: number | null;
}

export interface JobGivenBy {
    frequency: Whole;
    reversion: Whole;
    volatility: Whole;
    quotes: Iterable<{ kind: Whole; figure: number } | { kind: Whole; bits: bigint }>;
    flows: Amounts;
    option?: { kind: Whole; expiry: Whole; strike: Amount }
        | { side: Whole; strike: Amount; dates: ArrayLike<Whole> } | null;
    version?: Whole | null;
}

export interface Band {
    firstRow: Whole;
    lastRow: Whole;
    lowestPrice: Whole;
    highestPrice: Whole;
    haircut: Whole;
}

type Bytes = ArrayLike<Whole>;

/** The engine in use. Its memory is handled inside; a refusal is thrown by its name. */
export class Engine {
    constructor(module: WebAssembly.Module);
    /** The version of the module as one number: 14002 is 0.14.2. */
    readonly version: number;
    /** Bytes of memory that the engine has. */
    readonly memory: number;
    /** Every exported function as it is. */
    readonly raw: Raw;
    halfWidth(reversion: Whole, row: Whole): bigint;
    nodeCount(reversion: Whole, row: Whole): bigint;
    rowStart(reversion: Whole, row: Whole): bigint;
    discountsNeeded(steps: Whole, reversion: Whole): bigint;
    statePricesNeeded(steps: Whole, reversion: Whole): bigint;
    workingReversion(version: Whole, reversion: Whole): bigint;
    stepRate(discount: Whole): bigint;
    continuousRate(discount: Whole): bigint;
    branches(reversion: Whole, row: Whole, node: Whole): { lowest: bigint; probabilities: bigint[] };
    quoteDiscount(frequency: Whole, kind: Whole, row: Whole, figure: number): bigint;
    curveDiscounts(frequency: Whole, points: Iterable<Quote>): BigUint64Array;
    tree(inputs: TreeInputs): Tree;
    sheet(job: Bytes): string;
    pricesOfJob(job: Bytes): { bond: PriceOf; option: PriceOf | null };
    readJob(bytes: Bytes): JobOf;
    writeJob(job: JobGivenBy): Uint8Array;
    bookOfJobs(jobs: Iterable<Bytes>): Uint8Array;
    bookReport(book: Bytes): string;
    emptyReport(): Report;
    reportOfFile(book: Bytes): Report;
    joinedReports(first: ReportGiven, second: ReportGiven): Report;
    checkBands(bands: Iterable<Band>): Verdict;
    lendingWorth(bands: Iterable<Band>, row: Whole, price: Whole): bigint;
}

/** The engine of a module, of its bytes or of an address; without any, of mixegorta.wasm beside the package. */
export function load(source?: WebAssembly.Module | BufferSource | URL | string): Promise<Engine>;
export function bookOfJobs(jobs: Iterable<Bytes>): Uint8Array;
/** Whole billionths of an amount, exactly. */
export function billionths(amount: Amount, name?: string): bigint;
/** Billionths as a decimal string with nine decimals. */
export function decimal(amount: Whole): string;
export function bitsOf(figure: number): bigint;
export function figureOf(bits: bigint): number;
