// Bonds with flows and exercise days on the rows of a tree, worked out as mixegorta.desk does. Nothing here is proved.
import { fitting, months, row, tenor } from './days.js';
import { InputError, above, below, compared, nearestEven, number, over, plus, ratio, times } from './rationals.js';

const PER_100 = ratio(10_000_000n);

/** A bond per 100: coupons counted back from maturity, redemption with the last. */
export class Bond {
    constructor({ coupon, coupons, maturity, redemption, valuation }, warn) {
        this.coupon = number('coupon', 'coupon', coupon);
        this.redemption = number('redemption', 'redemption', redemption);
        this.couponsAYear = Number(coupons);
        this.valuation = valuation;
        this.months = months('maturity', 'maturity', maturity, valuation);
        if (this.months < 1) throw new InputError('maturity', `maturity: ${maturity} is not after today`);
        for (const field of ['coupon', 'redemption']) {
            if (this[field].value.n < 0n) {
                throw new InputError(field, `${field}: ${this[field].text} is below zero, and flows are not`);
            }
        }
        this.warnOfUnits(warn);
    }

    warnOfUnits(warn) {
        const [{ value, text }, part] = [this.coupon, over(this.coupon.value, ratio(this.couponsAYear))];
        if (above(value, ratio(20n))) warn('coupon', `coupon: ${text} % a year is above 20 %`);
        else if (value.n && below(part, ratio(1n, 10n))) {
            warn('coupon', `coupon: ${text} % a year are flows below a thousandth of the notional; it is in percent, 1.5 for 1.5 %`);
        }
        const { value: last, text: written } = this.redemption;
        if (below(last, ratio(1n, 10n)) || above(last, ratio(200n))) {
            warn('redemption', `redemption: ${written} is far from par; it is per 100 of the notional`);
        }
    }

    get period() {
        return 12 / this.couponsAYear;
    }

    /** The coupon days from now on, in months from today. */
    couponMonths() {
        const found = [];
        for (let count = this.months; count > 0; count -= this.period) found.unshift(count);
        return found;
    }

    /** The interest accrued so many months from today, per 100. */
    accrued(count = 0) {
        const left = ((this.months - count) % this.period + this.period) % this.period;
        const gone = ratio(left ? this.period - left : 0, this.period);
        return times(over(this.coupon.value, ratio(this.couponsAYear)), gone);
    }

    /** The flows of rows 1 to n in billionths, and a sentence where they are rounded. */
    flows(frequency) {
        const steps = row('maturity', 'maturity', this.months, frequency);
        const coupon = times(over(this.coupon.value, ratio(this.couponsAYear)), PER_100);
        const last = plus(coupon, times(this.redemption.value, PER_100));
        const flows = Array(steps).fill(0n);
        for (const count of this.couponMonths()) {
            const place = row('coupons', 'coupons a year', count, frequency);
            flows[place - 1] = nearestEven(count === this.months ? last : coupon);
        }
        const exact = coupon.d === 1n && last.d === 1n;
        return { flows, notes: exact ? [] : ['the flows were handed over to the nearest billionth'] };
    }
}

const RANGE = /^(.*?)\s*(?:\.\.|\u2026|to|bis)\s*(.*)$/i;

/** Days of exercise in months: a list of tenors or dates, or `5Y..9Y` for the coupon days from one to the other. */
export function exerciseMonths(text, bond) {
    const found = RANGE.exec(text.trim());
    if (found && found[1]) {
        const low = months('days', 'days', found[1], bond.valuation);
        const high = found[2] ? months('days', 'days', found[2], bond.valuation) : bond.months;
        const listed = bond.couponMonths().filter(count => low <= count && count <= high && count < bond.months);
        if (!listed.length) throw new InputError('days', `days: no coupon day before maturity lies in ${text}`);
        return listed;
    }
    const listed = text.split(/[;,\s]+/).filter(Boolean).map(each => months('days', 'days', each, bond.valuation));
    if (!listed.length) throw new InputError('days', 'days: there is no day; write 5Y..9Y, or a list such as 5Y 6Y 7Y');
    if (listed.some((count, k) => k && count <= listed[k - 1])) {
        throw new InputError('days', 'days: the days are not in order, each once');
    }
    const end = listed[listed.length - 1];
    if (end >= bond.months) throw new InputError('days',
        `days: ${tenor(end)} is not before maturity, ${tenor(bond.months)}`);
    return listed;
}

/** The right to call or to put a bond on listed days at one clean price. */
export class Right {
    constructor(bond, { right, days, at }, warn) {
        this.bond = bond;
        this.callable = right === 'callable';
        this.at = number('at', 'price of exercise', at);
        this.exercise = exerciseMonths(days, bond);
        if (this.at.value.n < 0n) throw new InputError('at', `price of exercise: ${this.at.text} is below zero`);
        if (below(this.at.value, ratio(10n)) || above(this.at.value, ratio(200n))) {
            warn('at', `price of exercise: ${this.at.text} is far from par; it is per 100 of the notional`);
        }
        const accrued = this.exercise.map(count => bond.accrued(count));
        if (accrued.some(each => compared(each, accrued[0]))) {
            throw new InputError('days',
                'days: the days have different accrued interest, and the engine has one strike for ' +
                'all; give coupon days, such as 5Y..9Y, or days that stand alike between two coupons');
        }
        this.accrued = accrued[0];
    }

    get side() {
        return this.callable ? 1 : 2;
    }

    /** The strike in billionths: a clean price and what has accrued on the days of exercise. */
    strike(clean = this.at.value) {
        return nearestEven(times(plus(clean, this.accrued), PER_100));
    }

    dates(frequency) {
        return this.exercise.map(count => row('days', 'days', count, frequency));
    }
}

/** The months from today that must fall on rows. */
export function daysOf(bond, right) {
    return [...new Set([...bond.couponMonths(), ...right ? right.exercise : []])].sort((a, b) => a - b);
}

/** The frequency that was asked for, or the finest on whose rows everything falls. */
export function frequencyOf(days, asked) {
    if (asked) return asked;
    const [first] = fitting(days);
    if (!first) {
        throw new InputError('maturity',
            `maturity: no number of steps a year has all days to ${tenor(Math.max(...days))} on ` +
            'at most 60 rows; take a shorter bond, or days that fall on whole years');
    }
    return first;
}

/** The frequency to compare with: the next finer one on which everything falls, else the next coarser. */
export function otherFrequency(days, frequency) {
    const fits = fitting(days);
    const finer = fits.filter(each => each > frequency);
    return finer.length ? finer[finer.length - 1] : fits.find(each => each < frequency) ?? null;
}
