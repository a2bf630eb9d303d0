// Exact fractions of BigInts, and numbers as a desk writes them.

/** A figure that cannot be taken. The sentence begins with its name; field names its place on the page. */
export class InputError extends Error {
    constructor(field, words) {
        super(words);
        this.name = 'InputError';
        this.field = field;
    }
}

function common(a, b) {
    while (b) [a, b] = [b, a % b];
    return a < 0n ? -a : a;
}

export function ratio(over, under = 1n) {
    const [n, d] = [BigInt(over), BigInt(under)];
    const shared = common(n, d) * (d < 0n ? -1n : 1n);
    return { n: n / shared, d: d / shared };
}

export const ZERO = ratio(0n);
export const plus = (a, b) => ratio(a.n * b.d + b.n * a.d, a.d * b.d);
export const minus = (a, b) => ratio(a.n * b.d - b.n * a.d, a.d * b.d);
export const times = (a, b) => ratio(a.n * b.n, a.d * b.d);
export const over = (a, b) => ratio(a.n * b.d, a.d * b.n);
export const compared = (a, b) => Number(a.n * b.d - b.n * a.d > 0n) - Number(a.n * b.d - b.n * a.d < 0n);
export const size = a => ({ n: a.n < 0n ? -a.n : a.n, d: a.d });

/** The nearest float. Numerators and denominators of a desk's times are small, so that one division rounds once. */
export const float = a => Number(a.n) / Number(a.d);

function floor(a) {
    const whole = a.n / a.d;
    return a.n < 0n && whole * a.d !== a.n ? whole - 1n : whole;
}

/** The nearest whole number, a half upwards. */
export const nearestUp = a => floor(plus(a, ratio(1n, 2n)));

/** The nearest whole number, a half to the even one. */
export function nearestEven(a) {
    const low = floor(a);
    const rest = compared(minus(a, ratio(low)), ratio(1n, 2n));
    return rest > 0 || rest === 0 && low % 2n ? low + 1n : low;
}

/** A whole number of units of 10^-digits as a text. */
export function fixed(units, digits, sign = false) {
    const text = String(units < 0n ? -units : units).padStart(digits + 1, '0');
    const lead = units < 0n ? '\u2212' : sign ? '+' : '';
    return digits ? `${lead}${text.slice(0, -digits)}.${text.slice(-digits)}` : `${lead}${text}`;
}

/** A fraction to so many digits as a text. */
export const rounded = (a, digits, sign = false) => fixed(nearestEven(times(a, ratio(10n ** BigInt(digits)))), digits,
    sign);

const MINUS = /[\u2212\u2013\u2011]/g;
const WRITTEN = /^([+-]?)(\d*)(?:[.,](\d*))?$/;

/** A number as it is written, with decimal point or comma, with or without a percent sign: digits and value. */
export function number(field, what, given) {
    const text = String(given).replace(MINUS, '-').replace(/\s|%/g, '');
    const found = WRITTEN.exec(text);
    if (!found || !(found[2] || found[3])) throw new InputError(field, `${what}: \u201c${given}\u201d is no number`);
    const [, sign, front, back = ''] = found;
    if (front.replace(/^0+/, '').length > 15 || back.length > 15) {
        throw new InputError(field, `${what}: ${given} is no figure of a desk`);
    }
    const value = ratio(BigInt(front + back), 10n ** BigInt(back.length));
    const digits = `${front || '0'}${back ? `.${back}` : ''}`;
    const negative = sign === '-' && value.n !== 0n;
    return { text: (negative ? '-' : '') + digits, value: negative ? ratio(-value.n, value.d) : value };
}

export const below = (a, limit) => compared(a, limit) < 0;
export const above = (a, limit) => compared(a, limit) > 0;
