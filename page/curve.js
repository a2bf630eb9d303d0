// Curves and models as a desk quotes them, worked out as mixegorta.desk does. Nothing here is proved.
import { years } from './days.js';
import { InputError, above, below, compared, float, minus, nearestUp, number, over, ratio, size,
    times } from './rationals.js';

export const COMPOUNDINGS = ['yearly', 'continuous', 'simple', 'discount'];
const BASIS_POINTS = 10_000;

// ---- what is pasted

const CELLS = /\t|;|\s+/;

function cells(line) {
    const parts = line.trim().split(CELLS).filter(cell => cell && cell !== '%');
    if (parts.length === 1 && parts[0].includes(',')) {
        const at = parts[0].indexOf(',');
        return [parts[0].slice(0, at), parts[0].slice(at + 1)].filter(Boolean);
    }
    return parts;
}

/** Pairs of time and figure, from two columns or from two rows of a spreadsheet; a heading is passed over. */
export function pasted(text) {
    const lines = text.split(/\r\n?|\n/).map((line, k) => ({ place: k + 1, parts: cells(line) }));
    const full = lines.filter(({ parts }) => parts.length);
    if (full.length === 2 && full.every(({ parts }) => parts.length > 2)
        && full[0].parts.length === full[1].parts.length) {
        const pairs = full[0].parts.map((time, k) => ({ place: `column ${k + 1}`, time, figure: full[1].parts[k] }));
        return headed(pairs);
    }
    const pairs = full.map(({ place, parts }) => {
        if (parts.length === 2) return { place: `line ${place}`, time: parts[0], figure: parts[1] };
        return { place: `line ${place}`, time: parts[0], wrong: parts };
    });
    return headed(pairs);
}

/** Without a first pair that names columns. */
function headed(pairs) {
    const word = pairs[0] && /[a-z]{3}/i.test(pairs[0].time) && !/\d/.test(pairs[0].time);
    const kept = word ? pairs.slice(1) : pairs;
    const broken = kept.find(pair => pair.wrong);
    if (broken) {
        throw new InputError('curve',
            `${broken.place}: \u201c${broken.wrong.join(' ')}\u201d is no pair of a tenor and a figure, ` +
            'such as 5Y 1,6; copy two columns of the spreadsheet');
    }
    if (!kept.length) throw new InputError('curve', 'curve: there is no point; paste tenors or dates and percent');
    return kept;
}

// ---- the curve

function discountOf(what, compounding, time, figure) {
    if (compounding === 'discount') return positive(what, Number(figure.text));
    const [rate, length] = [Number(figure.text) / 100, float(time)];
    if (compounding === 'continuous') return positive(what, Math.exp(-rate * length));
    const grown = compounding === 'simple' ? 1 + rate * length : 1 + rate;
    if (grown <= 0) throw new InputError('curve', `${what}: at ${figure.text} % nothing is left`);
    return compounding === 'simple' ? 1 / grown : positive(what, grown ** -length);
}

function positive(what, discount) {
    if (!(discount > 0 && discount < Infinity)) throw new InputError('curve',
        `${what}: ${discount} is no discount factor`);
    return discount;
}

/** A discount curve: points by time, log-linear discounts between them and from today to the first. */
export class Curve {
    constructor(points, compounding, moves = [], known = new Map()) {
        this.points = points;
        this.compounding = compounding;
        this.moves = moves;
        // What does not depend on the moves, by time.
        this.known = known;
    }

    /** The curve of a pasted text; what looks like another unit is told. */
    static of(text, compounding, valuation, warn) {
        const found = [];
        for (const { place, time, figure } of pasted(text)) {
            const what = `${place}, ${time}`;
            const at = years('curve', what, time, valuation);
            if (at.n <= 0n) throw new InputError('curve', `${what}: a point stands after today`);
            const same = found.find(each => compared(each.years, at) === 0);
            if (same) throw new InputError('curve', `${what}: ${same.name} is the same time`);
            const given = number('curve', what, figure);
            found.push({ name: time, years: at, figure: given, discount: discountOf(what, compounding, at, given) });
        }
        found.sort((a, b) => compared(a.years, b.years));
        warnOfFigures(found, compounding, warn);
        return new Curve(found, compounding);
    }

    /** The curve of discounts by row. */
    static ofDiscounts(discounts, frequency) {
        const points = discounts.map(
            (discount, k) => ({ name: `row ${k + 1}`, years: ratio(k + 1, frequency), discount }));
        return new Curve(points, 'discount');
    }

    get last() {
        return this.points[this.points.length - 1];
    }

    discount(time) {
        const key = `${time.n}/${time.d}`;
        if (!this.known.has(key)) this.known.set(key, this.#unmoved(time));
        const { discount, logarithm } = this.known.get(key);
        if (!this.moves.length) return discount;
        const moved = this.moves.reduce((sum, knots) => sum + interpolated(knots, time), 0);
        return positive('curve', Math.exp(logarithm - moved / BASIS_POINTS * float(time)));
    }

    #unmoved(time) {
        let before = { years: ratio(0n), discount: 1 };
        let after = this.last;
        for (const point of this.points) {
            if (compared(time, point.years) <= 0) {
                after = point;
                break;
            }
            before = point;
        }
        const part = float(over(minus(time, before.years), minus(after.years, before.years)));
        const logarithm = part === 1 ? Math.log(after.discount)
            : (1 - part) * Math.log(before.discount) + part * Math.log(after.discount);
        return { logarithm, discount: part === 1 ? after.discount : Math.exp(logarithm) };
    }

    /** What the engine is handed: a discount factor for each row. */
    quotes(frequency, steps) {
        const end = ratio(steps, frequency);
        if (compared(end, this.last.years) > 0) {
            throw new InputError('curve',
                `curve: it ends at ${this.last.name}, before the last row; add a later point`);
        }
        return Array.from({ length: steps }, (_, k) => this.discount(ratio(k + 1, frequency)));
    }

    /** The continuous zero rate in percent, for pictures. */
    zero(time) {
        return -100 * Math.log(this.discount(time)) / float(time);
    }
}

function interpolated(knots, time) {
    if (compared(time, knots[0].at) <= 0) return knots[0].by;
    for (let k = 1; k < knots.length; k += 1) {
        const [start, end] = [knots[k - 1], knots[k]];
        if (compared(time, end.at) <= 0) {
            return start.by + (end.by - start.by) * float(over(minus(time, start.at), minus(end.at, start.at)));
        }
    }
    return knots[knots.length - 1].by;
}

function warnOfFigures(points, compounding, warn) {
    const most = points.reduce(
        (best, { figure }) => compared(size(figure.value), size(best.value)) > 0 ? figure : best,
        points[0].figure);
    const [largest, text] = [size(most.value), most.text.replace('-', '')];
    if (compounding === 'discount') {
        if (above(largest, ratio(2n))) warn('curve',
            `discounts: ${text} is far from one; these look like percent, not discount factors`);
        return;
    }
    if (above(largest, ratio(20n))) warn('curve', `rates: ${text} % is above 20 %; rates are in percent`);
    else if (largest.n && below(largest, ratio(1n, 10n))) {
        warn('curve', `rates: none is above ${text} %; rates are in percent, 3 for 3 %`);
    }
}

// ---- the model

/** Volatility in basis points a year and reversion a year, and what of them the engine's units keep. */
export class Model {
    constructor(volatility, reversion, version, warn) {
        this.volatility = number('volatility', 'volatility', volatility);
        this.reversion = number('reversion', 'reversion', reversion);
        this.version = version;
        for (const [field, { value, text }] of Object.entries({ volatility: this.volatility,
            reversion: this.reversion })) {
            if (value.n < 0n) throw new InputError(field, `${field}: ${text} is below zero`);
        }
        const [{ value: bp, text }, { value: pull }] = [this.volatility, this.reversion];
        const unit = 'it is in basis points a year, 70 for 0.7 %';
        if (above(bp, ratio(500n))) warn('volatility', `volatility: ${text} is above 500; ${unit}`);
        else if (bp.n && below(bp, ratio(1n))) warn('volatility', `volatility: ${text} is below 1; ${unit}`);
        if (above(pull, ratio(1n))) {
            warn('reversion', `reversion: ${this.reversion.text} is above 1 a year; it is a part of one, 0.03 for 3 %`);
        }
    }

    /** Reversion and volatility in the engine's units for so many steps a year. */
    handed(frequency, volatility = this.volatility.value) {
        return {
            reversion: nearestUp(over(times(this.reversion.value, ratio(BASIS_POINTS)), ratio(frequency))),
            volatility: nearestUp(times(volatility, ratio(100n))),
        };
    }

    /** A sentence for each figure that the engine's units round. */
    rounding(frequency) {
        const { reversion, volatility } = this.handed(frequency);
        const taken = [['reversion', this.reversion, ratio(reversion * BigInt(frequency), BASIS_POINTS), 4],
            ['volatility, bp', this.volatility, ratio(volatility, 100n), 2]];
        return taken.filter(([, asked, got]) => compared(asked.value, got)).map(
            ([name, asked, got, digits]) => `${name} ${asked.text} a year was handed over as ${plain(got, digits)}`);
    }
}

function plain(value, digits) {
    const units = nearestUp(times(value, ratio(10n ** BigInt(digits))));
    const text = String(units).padStart(digits + 1, '0');
    return `${text.slice(0, -digits)}.${text.slice(-digits)}`.replace(/\.?0+$/, '');
}
