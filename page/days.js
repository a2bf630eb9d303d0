// Tenors, days and the rows they fall on.
import { InputError, number, plus, ratio } from './rationals.js';

export const FREQUENCIES = [12, 4, 2, 1];
export const MOST_ROWS = 60;
const TENOR = /^(?:(\d{1,3})Y)?(?:(\d{1,4})M)?$/i;
const DAY = /^(\d{4})-(\d{2})-(\d{2})$|^(\d{1,2})\.(\d{1,2})\.(\d{4})$/;

/** Whole months as a tenor such as 10Y, 3M or 1Y6M; today is 0M. */
export function tenor(months) {
    const [years, rest] = [Math.floor(months / 12), months % 12];
    return (years ? `${years}Y` : '') + (rest || !years ? `${rest}M` : '');
}

const lengthOf = (year, month) => new Date(Date.UTC(year, month, 0)).getUTCDate();

/** A day of a text such as 2027-03-31 or 31.3.2027 as { year, month, day }; null where it is none. */
export function dayOf(text) {
    const found = DAY.exec(text.trim());
    if (!found) return null;
    const [year, month, day] = (found[1] ? found.slice(1, 4) : [found[6], found[5], found[4]]).map(Number);
    return month >= 1 && month <= 12 && day >= 1 && day <= lengthOf(year, month) ? { year, month, day } : null;
}

/** The same day so many months later, or the month's last where it has no such day. */
export function later({ year, month, day }, months) {
    const count = year * 12 + month - 1 + months;
    const [to, at] = [Math.floor(count / 12), count % 12 + 1];
    return { year: to, month: at, day: Math.min(day, lengthOf(to, at)) };
}

export const order = ({ year, month, day }) => Date.UTC(year, month - 1, day) / 86_400_000;
export const shownDay = ({ year, month, day }) => [year, String(month).padStart(2, '0'),
    String(day).padStart(2, '0')].join('-');

function wholeMonths(start, end) {
    const months = (end.year - start.year) * 12 + end.month - start.month;
    return order(later(start, months)) > order(end) ? months - 1 : months;
}

function needed(field, what, valuation, day) {
    if (!valuation) throw new InputError(field, `${what}: the date ${shownDay(day)} needs a valuation date; set it`);
    if (order(day) < order(valuation)) {
        throw new InputError(field, `${what}: ${shownDay(day)} is before the valuation date ${shownDay(valuation)}`);
    }
    return wholeMonths(valuation, day);
}

/** Whole months from today of a tenor or a day. */
export function months(field, what, text, valuation) {
    const day = dayOf(text);
    if (!day) {
        const found = TENOR.exec(text.trim());
        if (!found || !(found[1] || found[2])) {
            throw new InputError(field,
                `${what}: \u201c${text}\u201d is no tenor such as 10Y, 3M or 1Y6M, and no date`);
        }
        return Number(found[1] ?? 0) * 12 + Number(found[2] ?? 0);
    }
    const count = needed(field, what, valuation, day);
    if (order(later(valuation, count)) !== order(day)) {
        const near = [count, count + 1].map(each => shownDay(later(valuation, each))).join(', ');
        throw new InputError(field, `${what}: ${shownDay(day)} is no whole number of months after the valuation date ` +
            `${shownDay(valuation)}; the nearest days that are: ${near}`);
    }
    return count;
}

/** Years from today of a tenor, a number of years or a day, which is counted in months and the part of its month. */
export function years(field, what, text, valuation) {
    const found = TENOR.exec(text.trim());
    if (found && (found[1] || found[2])) return ratio(Number(found[1] ?? 0) * 12 + Number(found[2] ?? 0), 12);
    const day = dayOf(text);
    if (!day) return yearsOfNumber(field, what, text);
    const count = needed(field, what, valuation, day);
    const [start, end] = [later(valuation, count), later(valuation, count + 1)];
    return plus(ratio(count, 12), ratio(order(day) - order(start), (order(end) - order(start)) * 12));
}

function yearsOfNumber(field, what, text) {
    try {
        return number(field, what, text).value;
    } catch {
        throw new InputError(field,
            `${what}: \u201c${text}\u201d is no tenor such as 10Y, 3M or 1Y6M, no date such as ` +
            '2027-03-31 and no number of years');
    }
}

/** The row on which so many months end; null where they end between two. */
export const rowOf = (months, frequency) => months * frequency % 12 ? null : months * frequency / 12;

/** The frequencies, finest first, on whose rows all these months fall, with at most so many rows. */
export function fitting(days) {
    return FREQUENCIES.filter(each => days.every(count => rowOf(count, each) !== null)
        && Math.max(...days) * each <= MOST_ROWS * 12);
}

/** The row of so many months; what falls on none is an error that names what would. */
export function row(field, what, count, frequency) {
    const found = rowOf(count, frequency);
    if (found !== null && found <= MOST_ROWS) return found;
    const fits = fitting([count]);
    const told = fits.length ? `steps a year that do: ${fits.join(', ')}` : 'no number of steps a year does';
    if (found !== null) {
        throw new InputError(field,
            `${what}: ${tenor(count)} is row ${found} at ${frequency} steps a year, and a tree has ` +
            `at most ${MOST_ROWS}; ${told}`);
    }
    const step = 12 / frequency;
    const near = [count - count % step, count - count % step + step].map(tenor).join(' and ');
    throw new InputError(field,
        `${what}: ${tenor(count)} falls on no row of ${frequency} steps a year; the nearest rows: ` +
        `${near}; ${told}`);
}
