// Prices per 100 and strips over the engine, as mixegorta.desk has them. The prices and their bounds are
// the engine's; what is made of them is not proved. A price is { value, bound } in billionths, units of 10^-7 per 100.
import { Refused } from '../javascript/refusals.js';
import { daysOf, frequencyOf, otherFrequency } from './bond.js';
import { InputError, fixed, nearestEven, number, ratio, rounded, times } from './rationals.js';

const INTERPOLATION = 'the curve was brought to the rows by log-linear discounts';
export const MOST_STRIKES = 16;

export const per100 = (units, sign = false) => fixed(units, 7, sign);
const halved = (units, by) => nearestEven(ratio(units, by));

/** Everything that is priced: a bond, its right or null, a curve and a model, on so many steps a year. */
export class Terms {
    constructor(engine, bond, right, curve, model, asked) {
        Object.assign(this, { engine, bond, right, curve, model, days: daysOf(bond, right) });
        if (bond.months > Number(curve.last.years.n * 12n) / Number(curve.last.years.d)) {
            throw new InputError('curve', `curve: it ends at ${curve.last.name}, before maturity; add a later point`);
        }
        this.frequency = frequencyOf(this.days, asked);
    }

    /** The fitted tree of these terms, or of others in their place. */
    tree(frequency = this.frequency, curve = this.curve, volatility = undefined) {
        const { flows, notes } = this.bond.flows(frequency);
        const quotes = curve.quotes(frequency, flows.length);
        const handed = this.model.handed(frequency, volatility);
        const tree = this.engine.tree({ frequency, ...handed, points: quotes, version: this.model.version });
        return { tree, flows, quotes, notes };
    }

    /** Bond, option and total on a tree, and what was rounded on the way. */
    once(frequency, curve, volatility) {
        const made = this.tree(frequency, curve, volatility);
        return { ...made, ...this.priced(made, frequency) };
    }

    priced({ tree, flows }, frequency = this.frequency) {
        if (!this.right) {
            const bond = tree.bondPrice(flows);
            return { bond, option: null, total: bond };
        }
        const found = tree.bondAndDatedOption(flows, this.right.side, this.right.dates(frequency), this.right.strike());
        for (const each of [found.bond, found.option]) if (each instanceof Refused) throw each;
        return { ...found, total: withRight(this.right, found.bond, found.option) };
    }
}

function withRight(right, bond, option) {
    return { value: right.callable ? bond.value - option.value : bond.value + option.value,
        bound: bond.bound + option.bound };
}

/** The answer of a desk: prices, accrued interest, notes and an estimate of what the steps cost. */
export function price(terms) {
    const found = terms.once();
    const accrued = nearestEven(times(terms.bond.accrued(), ratio(10_000_000n)));
    const notes = [INTERPOLATION, ...terms.model.rounding(terms.frequency), ...found.notes, fitNote(terms, found)];
    return { ...found, accrued, clean: found.total.value - accrued, notes, estimate: estimate(terms, found, notes) };
}

/** How far the tree's bond is from the flows discounted by the quotes that the engine took. */
function fitNote(terms, { flows, quotes, bond }) {
    const taken = terms.engine.curveDiscounts(terms.frequency, quotes);
    const sum = flows.reduce((all, flow, k) => all + flow * taken[k], 0n);
    const left = halved(bond.value * 1_000_000_000n - sum, 1_000_000_000n);
    const alone = halved(sum, 1_000_000_000n);
    return `the quotes alone give the bond ${per100(alone)}; the tree meets them to ${per100(left, true)}`;
}

function estimate(terms, found, notes) {
    const other = otherFrequency(terms.days, terms.frequency);
    if (other === null) return null;
    try {
        const { total } = terms.once(other);
        return { frequency: other, difference: total.value - found.total.value };
    } catch (error) {
        if (!(error instanceof Refused)) throw error;
        notes.push(`with ${other} steps a year the engine refuses the tree, so there is no estimate of what the steps cost`);
        return null;
    }
}

/** Numbers of a list: parted by semicolons or spaces, with decimal point or comma. */
export function listed(field, what, text) {
    return text.split(/;|\s+|,(?=\s)/).filter(Boolean).map(each => number(field, what, each));
}

/** The prices of exercise of a strip: each as it is written, and the engine's strike. */
export function strikesOf(terms, text) {
    const asked = terms.right ? listed('strikes', 'prices of exercise', text) : [];
    if (asked.length > MOST_STRIKES) {
        throw new InputError('strikes',
            `prices of exercise: ${asked.length} of them, and a strip has 1 to ${MOST_STRIKES}`);
    }
    return asked.map(({ value, text: written }) => {
        if (value.n < 0n) throw new InputError('strikes', `prices of exercise: ${written} is below zero`);
        return { text: written, strike: terms.right.strike(value) };
    });
}

/** Option and total at several prices of exercise, on a tree that is fitted already. */
export function strip(terms, made, asked) {
    if (!asked.length) return [];
    const strikes = asked.map(({ strike }) => strike);
    const accrued = nearestEven(times(terms.bond.accrued(), ratio(10_000_000n)));
    const found = made.tree.optionStrip(made.flows, terms.right.side, terms.right.dates(terms.frequency), strikes);
    return found.map((option, k) => {
        if (option instanceof Refused) return { at: asked[k].text, refused: option };
        const total = withRight(terms.right, made.bond, option);
        return { at: asked[k].text, option, total, clean: total.value - accrued };
    });
}
