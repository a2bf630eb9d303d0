// The engine: what the module exports, in the form that JavaScript expects. Answers are BigInts; a refusal is thrown.
import { list } from './arguments.js';
import { Calls } from './calls.js';
import { BOOK_ROOM, MAX_DISCOUNTS, MAX_JOB, MAX_STATE_PRICES, SHEET_ROOM } from './declarations.js';
import { bookOfJobs, jobOf, jobRecord } from './jobs.js';
import { CLASSES, Refused } from './refusals.js';
import { Tree, columns, priced } from './tree.js';

const ASCII = new TextDecoder();

/** The refusal of a number, as its class. */
export function refusal(number, entry) {
    const known = CLASSES[Number(number) - 1] ?? Refused;
    return new known(Number(number), entry);
}

export class Engine {
    #calls;
    #job = new Uint8Array(MAX_JOB);

    /** module: a compiled WebAssembly.Module of mixegorta.wasm. load() compiles it. */
    constructor(module) {
        this.#calls = new Calls(module);
        this.raw = this.#calls.raw;
        this.version = Number(this.raw.version());
    }

    /** Bytes of memory that the engine has; it grows only where one call is handed more than that. */
    get memory() {
        return this.#calls.memory;
    }

    /** The answer of an exported function whose number is 0; any other number is thrown as its refusal. */
    accepted(entry, ...given) {
        const answer = this.raw[entry](...given);
        const number = typeof answer === 'bigint' ? answer : answer.number;
        if (number) throw refusal(number, entry);
        return answer;
    }

    /** A price, or its refusal as a value. */
    priceOr(entry, price) {
        return price.number ? refusal(price.number, entry) : priced(price);
    }

    halfWidth(reversion, row) { return this.accepted('half_width', reversion, row).value; }
    nodeCount(reversion, row) { return this.accepted('node_count', reversion, row).value; }
    rowStart(reversion, row) { return this.accepted('row_start', reversion, row).value; }
    discountsNeeded(steps, reversion) { return this.accepted('discounts_needed', steps, reversion).value; }
    statePricesNeeded(steps, reversion) { return this.accepted('state_prices_needed', steps, reversion).value; }
    workingReversion(version, reversion) { return this.accepted('working_reversion', version, reversion).value; }
    stepRate(discount) { return this.accepted('step_rate', discount).value; }
    continuousRate(discount) { return this.accepted('continuous_rate', discount).value; }

    branches(reversion, row, node) {
        const { lowest, probabilities } = this.accepted('branches', reversion, row, node);
        return { lowest, probabilities };
    }

    quoteDiscount(frequency, kind, row, figure) {
        return this.accepted('quote_discount', frequency, kind, { row, figure }).value;
    }

    /** The discounts that the engine takes for the quotes of rows 1 to n. */
    curveDiscounts(frequency, points) {
        const given = columns(points);
        const discounts = new BigUint64Array(given[0].length);
        this.accepted('curve_discounts', frequency, discounts.length, ...given, discounts);
        return discounts;
    }

    /** Fits a tree: { frequency, reversion, volatility, points, version }, in the engine's units. */
    tree(inputs) {
        return new Tree(this, inputs);
    }

    /** The sheet of a job's bytes, as text. */
    sheet(job) {
        return this.#text('sheet', job, SHEET_ROOM);
    }

    /** The prices of a job's bytes: bond, and option or null. */
    pricesOfJob(job) {
        const memories = [new BigUint64Array(MAX_DISCOUNTS), new BigUint64Array(MAX_STATE_PRICES)];
        const answer = this.accepted('prices_of_job', job, ...memories);
        return { bond: priced(answer.bond), option: answer.has_option ? priced(answer.option) : null };
    }

    readJob(bytes) {
        return jobOf(this.accepted('read_job', bytes).job);
    }

    writeJob(job) {
        const { value } = this.accepted('write_job', jobRecord(job), this.#job);
        return this.#job.slice(0, Number(value));
    }

    /** The report of a book's bytes, as its eighteen lines. */
    bookReport(book) {
        return this.#text('book_report', book, BOOK_ROOM);
    }

    #text(entry, given, room) {
        const { number, bytes } = this.#calls.written(entry, given, room);
        if (number) throw refusal(number, entry);
        return ASCII.decode(bytes);
    }

    bookOfJobs(jobs) { return bookOfJobs(jobs); }
    emptyReport() { return this.raw.empty_report(); }
    reportOfFile(book) { return this.raw.report_of_file(book); }
    joinedReports(first, second) { return this.accepted('joined_reports', first, second).report; }

    /** Whether a table of haircut bands is accepted: its verdict, with number 0 where it is. */
    checkBands(bands) {
        return this.raw.check_bands(...bandColumns(bands));
    }

    /** The lending worth of a price on a row; where it is refused, the refusal has the verdict. */
    lendingWorth(bands, row, price) {
        const { worth, verdict } = this.raw.lending_worth(...bandColumns(bands), row, price);
        if (verdict.number) throw Object.assign(refusal(verdict.number, 'lending_worth'), { verdict });
        return worth;
    }
}

const BAND = ['firstRow', 'lastRow', 'lowestPrice', 'highestPrice', 'haircut'];

function bandColumns(bands) {
    const given = Array.from(bands);
    return BAND.map(name => list(name, given.map(band => band?.[name]), 'u64'));
}
