// A fitted tree with discounts and state prices of its own.
import { amount, amounts, list, whole } from './arguments.js';
import { DISCOUNT_FACTOR, DISCOUNTS, STATE_PRICES } from './constants.js';
import { NotInTree } from './refusals.js';

/** The three columns of quotes: rows, kinds and figures. A quote's row is its place, from 1; a Number is a discount. */
export function columns(points) {
    const given = Array.from(points);
    return [
        BigUint64Array.from(given, (_, k) => BigInt(k + 1)),
        list('kinds', given.map(each => each?.kind ?? DISCOUNT_FACTOR), 'u8'),
        list('figures', given.map(each => typeof each === 'number' ? each : each?.figure), 'f64'),
    ];
}

export class Tree {
    #engine;
    #discounts;
    #statePrices;

    constructor(engine, { frequency, reversion, volatility, points, version = 1 }) {
        const [rows, kinds, figures] = columns(points);
        this.#engine = engine;
        this.frequency = Number(whole('frequency', frequency));
        this.steps = rows.length;
        this.reversion = Number(whole('reversion', reversion));
        this.volatility = Number(whole('volatility', volatility));
        this.version = Number(whole('version', version));
        const working = engine.raw.working_reversion(version, reversion);
        this.workingReversion = Number(working.number ? whole('reversion', reversion) : working.value);
        [this.#discounts, this.#statePrices] = ['discounts_needed', 'state_prices_needed'].map(
            name => new BigUint64Array(Number(engine.raw[name](this.steps, this.workingReversion).value)));
        engine.accepted('fit_version', version, frequency, this.steps, reversion, volatility, rows, kinds, figures,
            this.#discounts, this.#statePrices);
        Object.freeze(this);
    }

    /** A copy of the discounts of rows 0 to n - 1, row after row, lowest node first. */
    get discounts() {
        return this.#discounts.slice();
    }

    /** A copy of the state prices of rows 0 to n, likewise. */
    get statePrices() {
        return this.#statePrices.slice();
    }

    #row(kind, row) {
        const { start, count } = this.#engine.raw.row_range(this.#discounts, this.#statePrices, kind, this.steps,
            this.workingReversion, row);
        if (!count) throw new NotInTree(6, 'row_range');
        const memory = kind === DISCOUNTS ? this.#discounts : this.#statePrices;
        return memory.slice(Number(start), Number(start + count));
    }

    rowDiscounts(row) {
        return this.#row(DISCOUNTS, row);
    }

    rowStatePrices(row) {
        return this.#row(STATE_PRICES, row);
    }

    /** The signed rates of one step in a row, lowest node first, in billionths. */
    stepRates(row) {
        return BigInt64Array.from(this.rowDiscounts(row), discount => this.#engine.stepRate(discount));
    }

    branches(row, node) {
        return this.#engine.branches(this.workingReversion, row, node);
    }

    priceErrorBound() {
        return this.#engine.accepted('price_error_bound', ...this.#start()).value;
    }

    statePriceErrorBound(row) {
        return this.#engine.accepted('state_price_error_bound', ...this.#start(), row).value;
    }

    bounds() {
        const { bound, greatest } = this.#engine.accepted('tree_bounds', ...this.#start());
        return { bound, greatest: greatest.slice(0, this.steps) };
    }

    #start() {
        return [this.steps, this.workingReversion, this.#discounts];
    }

    #flows(flows) {
        return [...this.#start(), amounts('flows', flows)];
    }

    bondPrice(flows) {
        return priced(this.#engine.accepted('bond_price', ...this.#flows(flows)));
    }

    optionPrice(flows, kind, expiry, strike) {
        const given = [...this.#flows(flows), kind, expiry, amount('strike', strike)];
        return priced(this.#engine.accepted('option_price', ...given));
    }

    datedOptionPrice(flows, side, dates, strike) {
        const given = [...this.#flows(flows), side, dates, amount('strike', strike)];
        return priced(this.#engine.accepted('dated_option_price', ...given));
    }

    /** Bond and option in one roll; each is a price, or the refusal that its own function would throw. */
    bondAndOption(flows, kind, expiry, strike) {
        return this.#both('bond_and_option', ...this.#flows(flows), kind, expiry, amount('strike', strike));
    }

    bondAndDatedOption(flows, side, dates, strike) {
        return this.#both('bond_and_dated_option', ...this.#flows(flows), side, dates, amount('strike', strike));
    }

    #both(entry, ...given) {
        const { bond, option } = this.#engine.raw[entry](...given);
        return { bond: this.#engine.priceOr(entry, bond), option: this.#engine.priceOr(entry, option) };
    }

    /** Up to 16 strikes of one side and one list of dates: each a price, or the refusal of that strike alone. */
    optionStrip(flows, side, dates, strikes) {
        return this.#strip('option_strip', strikes, ...this.#flows(flows), side, dates);
    }

    optionStripOfKind(flows, kind, expiry, strikes) {
        return this.#strip('option_strip_of_kind', strikes, ...this.#flows(flows), kind, expiry);
    }

    #strip(entry, strikes, ...given) {
        const asked = amounts('strikes', strikes);
        const { numbers, values, bounds } = this.#engine.accepted(entry, ...given, asked);
        const place = k => ({ number: numbers[k], value: values[k], bound: bounds[k] });
        return Array.from(asked, (_, k) => this.#engine.priceOr(entry, place(k)));
    }

    /** What payoffs on a row are worth: never above the exact price, and at most the bound below it. */
    value(row, payoffs) {
        const given = amounts('payoffs', payoffs);
        const { value: bound } = this.#engine.accepted('valuation_error_bound', ...this.#start(), row, given);
        const { value } = this.#engine.accepted('value_by_state_prices', this.rowStatePrices(row), given);
        return { value, bound };
    }

    /** The bond on this rate tree and a spread tree together. */
    pairBondPrice(spreads, flows) {
        return priced(this.#engine.accepted('pair_bond_price', ...this.#pair(spreads), amounts('flows', flows)));
    }

    pairDatedOptionPrice(spreads, flows, side, dates, strike) {
        const given = [...this.#pair(spreads), amounts('flows', flows), side, dates, amount('strike', strike)];
        return priced(this.#engine.accepted('pair_dated_option_price', ...given));
    }

    #pair(spreads) {
        if (!(spreads instanceof Tree)) throw new TypeError('spreads: give a Tree');
        return [...this.#start(), ...spreads.#start()];
    }
}

/** A price without its number. */
export function priced({ value, bound }) {
    return { value, bound };
}
