// Texts of the command `mixegorta job`, and the jobs they give.
import { bitsOf } from '../javascript/jobs.js';
import { decimal } from '../javascript/arguments.js';

const [BYTE, TWO, FOUR] = [0xFFn, 0xFFFFn, 0xFFFFFFFFn];
const NUMBERS = { frequency: BYTE, steps: BYTE, reversion: TWO, volatility: FOUR, version: BYTE };
const QUOTES = { discount: 5, rate: 6, yield: 9 };
const KINDS = { 'european call': 1, 'european put': 2, 'american call': 3, 'american put': 4 };
const SIDES = { call: 1, put: 2 };
const FLOAT = /^[+-]?((\d+\.?\d*|\.\d+)(e[+-]?\d+)?|nan|inf|infinity)$/i;
const AMOUNT = /^-?(\d+\.?\d*|\.\d+)$/;

/** What is wrong with a text, with the lines. */
export class TextError extends Error {}

function whole(word, name, most) {
    if (!/^-?\d+$/.test(word)) throw new TextError(`${name} is a whole number, not \u201c${word}\u201d`);
    const found = BigInt(word);
    if (found < 0n || found > most) throw new TextError(`${name} ${word} does not fit its field: 0 to ${most}`);
    return Number(found);
}

function amountOf(word, name) {
    if (!AMOUNT.test(word)) throw new TextError(`${name} is a decimal amount such as 1.025, not \u201c${word}\u201d`);
    const [front, back = ''] = word.split('.');
    if (back.length > 9) throw new TextError(`${name} ${word} has more than 9 decimals`);
    const found = BigInt(front.replace('-', '') || '0') * 1_000_000_000n + BigInt(back.padEnd(9, '0'));
    if (word.startsWith('-') && found
        || found > FOUR) throw new TextError(`${name} ${word} does not fit its field: 0 to 4.294967295`);
    return found;
}

function figure(word, name) {
    if (!FLOAT.test(word)) throw new TextError(`${name} is a number such as 0.03, not \u201c${word}\u201d`);
    const plain = word.toLowerCase();
    if (plain.includes('nan')) return NaN;
    return plain.includes('inf') ? Infinity * (plain.startsWith('-') ? -1 : 1) : Number(word);
}

function repeated(words, name) {
    if (words.length === 3 && words[1] === 'x') {
        const count = whole(words[2], 'the count', BYTE);
        if (!count) throw new TextError('the count is at least 1');
        return [words[0], count];
    }
    if (words.length !== 1) throw new TextError(`write \u201c${name} VALUE\u201d or \u201c${name} VALUE x COUNT\u201d`);
    return [words[0], 1];
}

function optionOf(words) {
    const style = (words[0] ?? '').toLowerCase();
    if (style === 'dated') {
        if (words.length < 3) throw new TextError('write \u201coption dated KIND STRIKE ROWS\u201d, such as option dated put 1.01 2 4 6');
        const side = SIDES[words[1].toLowerCase()];
        if (!side) throw new TextError(`a dated option is call or put, not ${words[1]}`);
        return { side, strike: amountOf(words[2], 'strike'),
            dates: words.slice(3).map(word => whole(word, 'a row of exercise', BYTE)) };
    }
    if (words.length !== 4) throw new TextError('write \u201coption STYLE KIND EXPIRY STRIKE\u201d, such as option american put 8 1.01');
    const kind = KINDS[`${style} ${words[1].toLowerCase()}`];
    if (!kind) throw new TextError(`an option is european, american or dated, call or put, not ${words[0]} ${words[1]}`);
    return { kind, expiry: whole(words[2], 'expiry', BYTE), strike: amountOf(words[3], 'strike') };
}

function put(found, words) {
    const [first, ...rest] = words;
    const name = first.toLowerCase() === 'pull' ? 'reversion' : first.toLowerCase();
    if (name in NUMBERS || name === 'option') {
        if (name in found.single) throw new TextError(`${name} is given twice`);
        if (name === 'option') found.single.option = optionOf(rest);
        else if (rest.length !== 1) throw new TextError(`write \u201c${name} NUMBER\u201d`);
        else found.single[name] = whole(rest[0], name, NUMBERS[name]);
    } else if (name in QUOTES) {
        const [word, count] = repeated(rest, name);
        const bits = bitsOf(figure(word, name));
        for (let k = 0; k < count; k += 1) found.quotes.push({ kind: QUOTES[name], bits });
    } else if (name === 'flow') {
        const [word, count] = repeated(rest, name);
        for (let k = 0; k < count; k += 1) found.flows.push(amountOf(word, name));
    } else {
        throw new TextError(`unknown entry \u201c${first}\u201d`);
    }
}

function lacking({ single, quotes, flows }) {
    const missing = ['frequency', 'reversion', 'volatility']
        .filter(name => !(name in single)).map(name => `no ${name} is given`);
    const steps = single.steps ?? quotes.length;
    if (!('steps' in single) && !quotes.length) missing.push('no discount, rate or yield is given');
    if (steps > 255) missing.push(`${steps} quotes do not fit a job: at most 255`);
    for (const [count, what] of [[quotes.length, 'quotes'], [flows.length, 'flows']]) {
        if (count !== steps) missing.push(`${steps} steps need ${steps} ${what}, one for each row; ${count} given`);
    }
    return missing;
}

/** The job of a text as a record; all that is wrong is one error of several lines. */
export function recordOf(text) {
    const found = { single: {}, quotes: [], flows: [] };
    const wrong = [];
    text.replace(/^\uFEFF/, '').split(/\r\n?|\n/).forEach((line, k) => {
        const words = line.split('#')[0].split(/\s+/).filter(Boolean);
        if (!words.length) return;
        try {
            put(found, words);
        } catch (error) {
            if (!(error instanceof TextError)) throw error;
            wrong.push(`line ${k + 1}: ${error.message}`);
        }
    });
    const all = wrong.length ? wrong : lacking(found);
    if (all.length) throw new TextError(all.slice(0, 20).join('\n'));
    const { frequency, reversion, volatility, version = null, option = null } = found.single;
    return { frequency, reversion, volatility, version, option, quotes: found.quotes, flows: found.flows };
}

// ---- the text of a job

const short = amount => decimal(amount).replace(/\.?0+$/, '');

export function floatText(value) {
    if (Number.isNaN(value)) return 'nan';
    if (!Number.isFinite(value)) return value > 0 ? 'inf' : '-inf';
    return Object.is(value, -0) ? '-0.0' : String(value);
}

/** Lines in which what stands several times is told with its count. */
function runs(name, words) {
    const lines = [];
    for (let k = 0; k < words.length;) {
        let end = k + 1;
        while (end < words.length && words[end] === words[k]) end += 1;
        lines.push(end - k > 1 ? `${name(k)} ${words[k]} x ${end - k}` : `${name(k)} ${words[k]}`);
        k = end;
    }
    return lines;
}

const named = (table, value) => Object.keys(table).find(name => table[name] === value);

function optionText(option) {
    if (option.dates) return `option dated ${named(SIDES, option.side)} ${short(option.strike)} ${option.dates.join(' ')}`;
    return `option ${named(KINDS, option.kind)} ${option.expiry} ${short(option.strike)}`;
}

/** The text of a job's record, or null where no text says it. */
export function textOf(job, heading) {
    const kinds = job.quotes.map(quote => named(QUOTES, quote.kind));
    if (job.option && !named(job.option.dates ? SIDES : KINDS, job.option.dates ? job.option.side
        : job.option.kind)) return null;
    const lines = [...heading.map(line => `# ${line}`), `frequency ${job.frequency}`, `reversion ${job.reversion}`,
        `volatility ${job.volatility}`];
    if (job.version) lines.push(`version ${job.version}`);
    let start = 0;
    while (start < kinds.length) {
        let end = start;
        while (end < kinds.length && kinds[end] === kinds[start]) end += 1;
        const kind = kinds[start];
        lines.push(...runs(() => kind, job.quotes.slice(start, end).map(quote => floatText(quote.figure))));
        start = end;
    }
    lines.push(...runs(() => 'flow', job.flows.map(short)));
    if (job.option) lines.push(optionText(job.option));
    return `${lines.join('\n')}\n`;
}
