// Jobs as records, and books of jobs as bytes. A record here has plain lists; the engine's own has all its places.
import { amount, amounts, list, shown, whole } from './arguments.js';
import { DATED_OPTION, OPTION_OF_KIND } from './constants.js';
import { MAX_JOB_DATES, MAX_JOB_STEPS } from './declarations.js';

const [TAG, LONGEST_FIELD] = [0x10, 65_535];

/** The 64 bits of a figure as a BigInt, and a figure of its bits. */
export function bitsOf(figure) {
    return new BigUint64Array(new Float64Array([figure]).buffer)[0];
}

export function figureOf(bits) {
    return new Float64Array(new BigUint64Array([bits]).buffer)[0];
}

function filled(name, given, kind, places) {
    if (given.length > places) throw new RangeError(`${name}: ${given.length} of them, and a job has ${places} places`);
    const found = kind === 'u8' ? new Uint8Array(places) : new BigUint64Array(places);
    found.set(given);
    return found;
}

function optionRecord(option) {
    const empty = { tag: 0n, kind: 0n, expiry: 0n, strike: 0n, count: 0n, dates: new Uint8Array(MAX_JOB_DATES) };
    if (option === null || option === undefined) return empty;
    if (typeof option !== 'object') throw new TypeError(`option: ${shown(option)} is none`);
    const strike = amount('option.strike', option.strike);
    if (option.dates === undefined) {
        const [kind, expiry] = [whole('option.kind', option.kind), whole('option.expiry', option.expiry)];
        return { ...empty, tag: BigInt(OPTION_OF_KIND), kind, expiry, strike };
    }
    const rows = list('option.dates', option.dates, 'u8');
    const dates = filled('option.dates', rows, 'u8', MAX_JOB_DATES);
    const side = whole('option.side', option.side);
    return { ...empty, tag: BigInt(DATED_OPTION), kind: side, strike, count: BigInt(rows.length), dates };
}

/** The engine's record of a job: quotes of { kind, figure } or { kind, bits }, flows, an option and a version. */
export function jobRecord({ frequency, reversion, volatility, quotes, flows, option = null, version = null }) {
    const listed = Array.from(quotes);
    const kinds = list('quotes', listed.map(each => each?.kind), 'u8');
    const bits = list('quotes', listed.map(each => each?.bits ?? bitsOf(each?.figure)), 'u64');
    const paid = amounts('flows', flows);
    if (paid.length !== kinds.length) {
        throw new RangeError(`flows: ${paid.length} of them, and ${kinds.length} quotes; a job has as many of both`);
    }
    if (version !== null && !whole('version', version)) throw new RangeError('version: 0 is none; leave it out');
    return {
        frequency, steps: kinds.length, reversion, volatility, version: version ?? 0,
        kinds: filled('quotes', kinds, 'u8', MAX_JOB_STEPS), figures: filled('quotes', bits, 'u64', MAX_JOB_STEPS),
        flows: filled('flows', paid, 'u64', MAX_JOB_STEPS), option: optionRecord(option),
    };
}

function optionOf({ tag, kind, expiry, strike, count, dates }) {
    if (tag === BigInt(OPTION_OF_KIND)) return { kind: Number(kind), expiry: Number(expiry), strike };
    return tag === BigInt(DATED_OPTION) ? { side: Number(kind), strike, dates: dates.slice(0, Number(count)) } : null;
}

/** A job of the engine's record. */
export function jobOf(record) {
    const steps = Number(record.steps);
    const quotes = Array.from({ length: steps }, (_, k) => ({
        kind: record.kinds[k], figure: figureOf(record.figures[k]), bits: record.figures[k],
    }));
    return {
        frequency: Number(record.frequency), reversion: Number(record.reversion), volatility: Number(record.volatility),
        quotes, flows: record.flows.slice(0, steps), option: optionOf(record.option),
        version: record.version ? Number(record.version) : null,
    };
}

/** A book: every job in a field, in this order. */
export function bookOfJobs(jobs) {
    const parts = Array.from(jobs, (job, k) => list(`jobs[${k}]`, job, 'u8'));
    const longest = parts.findIndex(part => part.length > LONGEST_FIELD);
    if (longest >= 0) throw new RangeError(`jobs[${longest}]: a field holds at most ${LONGEST_FIELD} bytes`);
    const book = new Uint8Array(parts.reduce((sum, part) => sum + part.length + 3, 0));
    let place = 0;
    for (const part of parts) {
        book.set([TAG, part.length >> 8, part.length & 255], place);
        book.set(part, place + 3);
        place += part.length + 3;
    }
    return book;
}
