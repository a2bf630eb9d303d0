// From the inputs to everything that is shown. Nothing here touches the page.
import { decimal } from '../javascript/arguments.js';
import { CALL } from '../javascript/constants.js';
import { Refused } from '../javascript/refusals.js';
import { Bond, Right } from './bond.js';
import { Curve, Model } from './curve.js';
import { dayOf, later, shownDay, tenor } from './days.js';
import { per100, price, strikesOf, strip, Terms } from './prices.js';
import { InputError, fixed, float, ratio, rounded, times } from './rationals.js';
import { recordOf, textOf } from './texts.js';

const QUOTE_ROW = 7;

// ---- a tree as it is drawn

/** The rows of a tree: discounts, state prices, their sum, and yearly rates as floats for the picture. */
export function drawn(engine, tree) {
    const [discounts, prices] = [tree.discounts, tree.statePrices];
    const [rows, sums] = [[], []];
    for (let row = 0, at = 0; row <= tree.steps; row += 1) {
        const count = Number(engine.nodeCount(tree.workingReversion, row));
        const [own, statePrices] = [discounts, prices].map(all => Array.from(all.subarray(at, at + count)));
        sums.push(statePrices.reduce((all, each) => all + each, 0n));
        if (row < tree.steps) {
            const rates = own.map(discount => (1e9 / Number(discount) - 1) * 100 * tree.frequency);
            rows.push({ discounts: own, statePrices, rates, prices: statePrices.map(each => Number(each) / 1e9) });
        }
        at += count;
    }
    const lowest = new Map();
    // Where a node leads does not depend on its row.
    const lowestOf = (row, node) => {
        if (!lowest.has(node)) lowest.set(node, Number(tree.branches(row, node).lowest));
        return lowest.get(node);
    };
    return { rows, sums, frequency: tree.frequency, lowestOf };
}

/** A node's numbers as the engine gives them. */
export function nodeOf(engine, tree, picture, row, number) {
    const { discounts, statePrices } = picture.rows[row];
    const place = number + (discounts.length - 1) / 2;
    const rate = engine.stepRate(discounts[place]);
    const { lowest, probabilities } = tree.branches(row, number);
    const percent = units => fixed(units, QUOTE_ROW);
    return {
        discount: decimal(discounts[place]), statePrice: decimal(statePrices[place]), below: rate < 0n,
        rate: percent(rate), yearly: percent(rate * BigInt(tree.frequency)),
        branches: [2, 1, 0].map(k => [Number(lowest) + k, rounded(ratio(probabilities[2 - k], 600_000_000n), 9)]),
    };
}

// ---- the curve and how it is repriced

/** A line for each row: quote, the tree's sum of state prices, and how far the exact sum may be above it. */
function repriced(engine, tree, sums, quotes, asked, dateOf) {
    const taken = engine.curveDiscounts(tree.frequency, quotes);
    return Array.from(taken, (discount, k) => {
        const row = k + 1;
        const sum = sums[row];
        return {
            row, tenor: tenor(row * 12 / tree.frequency), date: dateOf(row), asked: asked(row),
                discount: decimal(discount),
            sum: decimal(sum), difference: fixed(sum - discount, 9, true),
                bound: String(tree.statePriceErrorBound(row)),
        };
    });
}

// ---- a desk's inputs

function settings(inputs, warn) {
    const valuation = inputs.valuation.trim() ? dayOf(inputs.valuation) : null;
    if (inputs.valuation.trim() && !valuation) {
        throw new InputError('valuation',
            `valuation date: \u201c${inputs.valuation}\u201d is no date such as 2026-11-18`);
    }
    const curve = Curve.of(inputs.curve, inputs.compounding, valuation, warn);
    const model = new Model(inputs.volatility, inputs.reversion, Number(inputs.version), warn);
    const bond = new Bond({ ...inputs, valuation }, warn);
    const right = inputs.right === 'none' ? null : new Right(bond, inputs, warn);
    return { valuation, curve, model, bond, right };
}

function jobOf(engine, terms, found) {
    const record = {
        frequency: terms.frequency, reversion: found.tree.reversion, volatility: found.tree.volatility,
        version: terms.model.version === 1 ? null : terms.model.version,
        quotes: found.quotes.map(figure => ({ kind: 5, figure })), flows: found.flows,
        option: terms.right && { side: terms.right.side, strike: terms.right.strike(),
            dates: terms.right.dates(terms.frequency) },
    };
    return engine.writeJob(record);
}

function lines(answer, right) {
    const line = (name, value, bound = null) =>
        ({ name, value: per100(value), bound: bound === null ? '' : String(bound) });
    const kind = !right ? 'bond' : right.callable ? 'callable bond' : 'puttable bond';
    return {
        kind,
        table: [line('bond', answer.bond.value, answer.bond.bound),
            ...answer.option ? [line(right.callable ? 'call' : 'put', answer.option.value, answer.option.bound)] : [],
            line(`${kind}, dirty`, answer.total.value, answer.total.bound), { name: 'accrued', value: answer.accrued ? per100(answer.accrued) : '0', bound: '' },
            line(`${kind}, clean`, answer.clean, answer.total.bound)],
    };
}

/** Everything of a desk's inputs; later() works out what is below the tree. warn is told of doubtful units. */
export function ofDesk(engine, inputs, warn) {
    const { valuation, curve, model, bond, right } = settings(inputs, warn);
    const terms = new Terms(engine, bond, right, curve, model, Number(inputs.steps));
    const found = price(terms);
    const { frequency } = terms;
    const dateOf = row => valuation && row * 12 % frequency === 0 ? shownDay(later(valuation, row * 12 / frequency))
        : '';
    const asked = row => curve.points.find(({ years }) => years.n * BigInt(frequency) === BigInt(row) * years.d)?.figure.text ?? '';
    const end = ratio(found.flows.length, frequency);
    const picture = drawn(engine, found.tree);
    const strikes = strikesOf(terms, inputs.strikes);
    return {
        ...lines(found, right), tree: found.tree, estimate: found.estimate, notes: found.notes, total: found.total,
        picture: { ...picture, exercised: right ? right.dates(frequency) : [], side: right
            && (right.callable ? 'call' : 'put') },
        job: jobOf(engine, terms, found), hasDates: Boolean(valuation), unit: curve.compounding,
        later: () => ({
            rows: repriced(engine, found.tree, picture.sums, found.quotes, asked, dateOf),
            strip: strip(terms, found, strikes),
            zero: { along: alongOf(curve, end),
                points: curve.points.map(({ years }) => [float(years), curve.zero(years)]) },
        }),
    };
}

export const told = error => `refused ${error.number}: ${error.cause}`;

function alongOf(curve, least) {
    const last = curve.last.years;
    const end = float(last) > float(least) ? last : least;
    return Array.from({ length: 120 },
        (_, k) => times(end, ratio(k + 1, 120))).map(time => [float(time), curve.zero(time)]);
}

// ---- a job's text

/** The terms of a job, in the form by which prices, strips and sensitivities are asked for. */
class JobTerms {
    constructor(engine, job) {
        Object.assign(this, { engine, job, frequency: job.frequency });
        const discounts = engine.curveDiscounts(job.frequency, job.quotes);
        this.curve = Curve.ofDiscounts(Array.from(discounts, each => Number(each) / 1e9), job.frequency);
        this.bond = { valuation: null, accrued: () => ratio(0n) };
        this.model = { volatility: { value: ratio(job.volatility, 100n) } };
        this.right = job.option && { callable: callOf(job.option), side: 0 };
    }

    once(frequency, curve, volatility) {
        const { job } = this;
        const points = curve ? curve.quotes(job.frequency, job.quotes.length) : job.quotes;
        const given = volatility === undefined ? job.volatility : Number(volatility.n * 100n / volatility.d);
        const tree = this.engine.tree({ frequency: job.frequency, reversion: job.reversion, volatility: given, points,
            version: job.version ?? 1 });
        const bond = tree.bondPrice(job.flows);
        if (!job.option) return { tree, flows: job.flows, bond, option: null, total: bond };
        const option = optionPrice(tree, job, job.option.strike);
        const value = this.right.callable ? bond.value - option.value : bond.value + option.value;
        return { tree, flows: job.flows, bond, option, total: { value, bound: bond.bound + option.bound } };
    }
}

const callOf = option => option.dates ? option.side === CALL : option.kind % 2 === 1;

function optionPrice(tree, { flows, option }, strike) {
    return option.dates ? tree.datedOptionPrice(flows, option.side, option.dates, strike)
        : tree.optionPrice(flows, option.kind, option.expiry, strike);
}

function exercisedRows(option) {
    if (!option) return [];
    if (option.dates) return option.dates;
    return option.kind > 2 ? Array.from({ length: option.expiry + 1 }, (_, row) => row) : [option.expiry];
}

/** Strikes about the job's own, a hundredth apart. */
function jobStrip(found, job) {
    if (!job.option) return [];
    const strikes = [-3n, -2n, -1n, 0n, 1n, 2n, 3n].map(k => job.option.strike
        + k * 10_000_000n).filter(each => each >= 0n);
    const { dates, side, kind, expiry } = job.option;
    const priced = dates ? found.tree.optionStrip(job.flows, side, dates, strikes)
        : found.tree.optionStripOfKind(job.flows, kind, expiry, strikes);
    return priced.map((option, k) => {
        const at = fixed(strikes[k], 7);
        if (option instanceof Refused) return { at, refused: option };
        const value = callOf(job.option) ? found.bond.value - option.value : found.bond.value + option.value;
        return { at, option, total: { value, bound: found.bond.bound + option.bound }, clean: null };
    });
}

/** Everything of a job's bytes. */
export function ofJob(engine, bytes) {
    const { bond, option } = engine.pricesOfJob(bytes);
    const job = engine.readJob(bytes);
    const terms = new JobTerms(engine, job);
    const found = terms.once();
    if (found.bond.value !== bond.value || found.option
        && found.option.value !== option.value) throw new Error('two prices of one job');
    const right = terms.right;
    const kind = !right ? 'bond' : right.callable ? 'bond less call' : 'bond and put';
    const line = (name, price) => ({ name, value: per100(price.value), bound: String(price.bound) });
    const discounts = engine.curveDiscounts(job.frequency, job.quotes);
    const names = { 5: 'discount', 6: 'rate', 9: 'yield' };
    const picture = drawn(engine, found.tree);
    const asked = row => `${names[job.quotes[row - 1].kind]} ${job.quotes[row - 1].figure}`;
    return {
        kind, table: [line('bond', bond), ...option
            ? [line(right.callable ? 'call' : 'put', option), line(kind, found.total)] : []],
        total: found.total, tree: found.tree, estimate: null,
            notes: ['the prices are those of the job as it stands; it has no day of its own, so nothing has accrued'],
        picture: { ...picture, exercised: exercisedRows(job.option), side: right && (right.callable ? 'call' : 'put') },
        job: bytes, hasDates: false, unit: 'job',
        later: () => ({
            rows: repriced(engine, found.tree, picture.sums, job.quotes, asked, () => ''),
            strip: jobStrip(found, job),
            zero: { along: zeroOf(discounts, job.frequency), points: [] },
        }),
    };
}

function zeroOf(discounts, frequency) {
    return Array.from(discounts,
        (each, k) => [(k + 1) / frequency, -100 * Math.log(Number(each) / 1e9) * frequency / (k + 1)]);
}

/** The bytes of a job's text. */
export function bytesOfText(engine, text) {
    return engine.writeJob(recordOf(text));
}

/** The text of a job's bytes, or null where no text says the same. */
export function textOfBytes(engine, bytes, heading = []) {
    const text = textOf(engine.readJob(bytes), heading);
    if (text === null) return null;
    const again = bytesOfText(engine, text);
    return again.length === bytes.length && again.every((each, k) => each === bytes[k]) ? text : null;
}

/** The greatest volatility in basis points that the same inputs are accepted with, or null. */
export function acceptedVolatility(tryWith, most) {
    let [low, high] = [0, most];
    const works = volatility => {
        try {
            tryWith(volatility);
            return true;
        } catch (error) {
            if (!(error instanceof Refused)) throw error;
            return false;
        }
    };
    if (!works(0)) return null;
    while (high - low > 1) {
        const middle = Math.floor((low + high) / 2);
        if (works(middle)) low = middle;
        else high = middle;
    }
    return low;
}

/** Fits the tree of a desk's inputs with another volatility. */
export function fitWith(engine, inputs, volatility) {
    const { curve, model, bond, right } = settings({ ...inputs, volatility: String(volatility) }, () => {});
    new Terms(engine, bond, right, curve, model, Number(inputs.steps)).tree();
}

