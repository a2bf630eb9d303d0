// What the engine answers: the examples' sheets, prices, strips, jobs, books, bands, pairs and refusals.
import assert from 'node:assert/strict';
import { readFileSync, readdirSync } from 'node:fs';
import test from 'node:test';
import * as m from '../mixegorta.js';
import { ROOT, engine } from './engine_of_tests.js';

const PLAIN = { frequency: 1, reversion: 0, volatility: 0 };
const NOTE = { frequency: 4, reversion: 75, volatility: 7000 };
const points = Array.from({ length: 40 }, (_, k) => ({ kind: m.YEARLY_YIELD, figure: -0.0025 + 0.0006 * k }));
const flows = points.map((_, k) => k === 39 ? '1.015' : k % 4 === 3 ? '0.015' : '0');
const dates = [20, 24, 28, 32, 36];
const note = engine.tree({ ...NOTE, points });

test('the module is of the package\'s version', () => {
    const { version } = JSON.parse(readFileSync(new URL('javascript/package.json', ROOT)));
    const [major, minor, patch] = version.split('.').map(Number);
    assert.equal(engine.version, major * 1_000_000 + minor * 1_000 + patch);
});

test('the sheets of the examples, byte for byte', () => {
    const folder = new URL('target/javascript/examples/', ROOT);
    const names = readdirSync(folder).filter(name => name.endsWith('.job'));
    assert.ok(names.length >= 9);
    for (const name of names) {
        const job = readFileSync(new URL(name, folder));
        const expected = readFileSync(new URL(`examples/${name.replace('.job', '.sheet')}`, ROOT), 'utf-8');
        const refused = /^refused (\d+)\n$/.exec(expected);
        if (refused) assert.throws(() => engine.sheet(job), error => error.number === Number(refused[1]), name);
        else assert.equal(engine.sheet(job), expected, name);
    }
});

test('a first price, and its refusals by name', () => {
    const tree = engine.tree({ ...PLAIN, points: [1.0025] });
    assert.deepEqual(tree.bondPrice([m.ONE]), { value: 1_002_500_000n, bound: 2n });
    assert.deepEqual(tree.bondPrice(['1']), { value: 1_002_500_000n, bound: 2n });
    assert.throws(() => tree.bondPrice(['2.000000001']), m.CLASSES[9]);
    assert.throws(() => engine.tree({ ...PLAIN, frequency: 3, points: [1] }), error => {
        assert.ok(error instanceof m.UnknownFrequency && error instanceof m.Refused && error instanceof Error);
        assert.deepEqual([error.number, error.name, error.entry], [2, 'UnknownFrequency', 'fit_version']);
        assert.match(error.message, /^refused 2: the steps a year are not 1, 2, 4 or 12$/);
        assert.ok(error.advice.length > 10);
        return true;
    });
});

test('every refusal has a class of its own, in the order of the numbers', () => {
    assert.equal(m.CLASSES.length, m.REFUSALS.length);
    m.REFUSALS.forEach(([number, name], k) => {
        assert.equal(number, k + 1);
        assert.equal(m.CLASSES[k].name, name);
        assert.equal(m[name], m.CLASSES[k]);
    });
});

test('a tree: rows, rates, branches and bounds', () => {
    assert.equal(note.steps, 40);
    assert.equal(note.discounts.length, Number(engine.discountsNeeded(40, note.workingReversion)));
    let place = 0;
    for (let row = 0; row < 40; row += 1) {
        const discounts = note.rowDiscounts(row);
        assert.equal(discounts.length, Number(engine.nodeCount(note.workingReversion, row)));
        assert.deepEqual(discounts, note.discounts.slice(place, place + discounts.length));
        assert.deepEqual(note.stepRates(row), BigInt64Array.from(discounts, each => engine.stepRate(each)));
        place += discounts.length;
    }
    const { lowest, probabilities } = note.branches(3, -1);
    assert.equal(probabilities.reduce((sum, each) => sum + each), m.PROBABILITY_ONE);
    assert.ok(lowest >= -3n && lowest <= -1n);
    assert.equal(note.bounds().bound, note.priceErrorBound());
    assert.equal(note.bounds().greatest.length, 40);
    assert.throws(() => note.rowDiscounts(40), m.NotInTree);
    assert.equal(note.rowStatePrices(40).length, Number(engine.nodeCount(note.workingReversion, 40)));
    note.discounts.fill(0n);
    assert.ok(note.discounts[0] > 0n);
    assert.ok(note.stepRates(0)[0] < 0n);
});

test('bond and option in one roll, and a strip, are the single prices', () => {
    const both = note.bondAndDatedOption(flows, m.CALL, dates, '1');
    assert.deepEqual(both.bond, note.bondPrice(flows));
    assert.deepEqual(both.option, note.datedOptionPrice(flows, m.CALL, dates, m.ONE));
    const strikes = ['0.98', '1', '4.000000001', '1.02'];
    const strip = note.optionStrip(flows, m.CALL, dates, strikes);
    strikes.forEach((strike, k) => {
        if (k === 2) assert.equal(strip[k].number, 11);
        else assert.deepEqual(strip[k], note.datedOptionPrice(flows, m.CALL, dates, strike));
    });
    assert.throws(() => note.optionStrip(flows, m.CALL, dates, []), m.NotInTree);
    const american = note.optionStripOfKind(flows, m.AMERICAN_PUT, 8, ['1']);
    assert.deepEqual(american[0], note.optionPrice(flows, m.AMERICAN_PUT, 8, '1'));
    assert.deepEqual(note.bondAndOption(flows, m.AMERICAN_PUT, 8, '1').option, american[0]);
    const refused = note.bondAndDatedOption(flows, m.CALL, [], '1');
    assert.ok(refused.option instanceof m.Refused && refused.bond.value === both.bond.value);
});

test('payoffs by state prices', () => {
    const ones = Array(note.rowStatePrices(8).length).fill('1');
    const { value, bound } = note.value(8, ones);
    assert.equal(value, note.rowStatePrices(8).reduce((sum, each) => sum + each));
    assert.ok(bound > 0n);
});

test('jobs are read and written, and priced as their sheets say', () => {
    const call = { side: m.CALL, strike: '1', dates };
    const job = engine.writeJob({ ...NOTE, quotes: points, flows, option: call, version: 2 });
    const read = engine.readJob(job);
    assert.deepEqual(engine.writeJob(read), job);
    assert.deepEqual([read.version, read.option.dates, read.flows.length], [2, dates, 40]);
    const { bond, option } = engine.pricesOfJob(job);
    const lines = engine.sheet(job).trimEnd().split('\n').slice(-2);
    const line = (name, price) => `${name} ${m.decimal(price.value)} ${price.bound}`;
    assert.deepEqual(lines, [line('bond', bond), line('option', option)]);
    const put = { kind: m.EUROPEAN_PUT, expiry: 4, strike: '1' };
    const kind = engine.writeJob({ ...NOTE, quotes: points, flows, option: put });
    assert.deepEqual(engine.readJob(kind).option, { kind: 2, expiry: 4, strike: m.ONE });
    assert.equal(engine.readJob(kind).version, null);
    const odd = { kind: m.DISCOUNT_FACTOR, bits: 0x7FF8000000000001n };
    const strange = engine.readJob(engine.writeJob({ ...PLAIN, quotes: [odd], flows: ['1'] }));
    assert.equal(strange.quotes[0].bits, odd.bits);
    assert.throws(() => engine.readJob(job.slice(1)), m.MalformedJob);
});

test('books and their reports', () => {
    const jobs = ['coupon-put', 'callable-note', 'refused'].map(
        name => readFileSync(new URL(`target/javascript/examples/${name}.job`, ROOT)));
    const book = engine.bookOfJobs(jobs);
    assert.equal(engine.bookReport(book), readFileSync(new URL('target/javascript/book.report', ROOT), 'utf-8'));
    const [one, rest] = [jobs.slice(0, 1), jobs.slice(1)].map(each => engine.reportOfFile(engine.bookOfJobs(each)));
    const joined = engine.joinedReports(one, rest);
    const same = { books: 1n, book: 1n, place: 0n };
    assert.deepEqual({ ...joined, ...same }, { ...engine.reportOfFile(book), ...same });
    assert.deepEqual(engine.joinedReports(engine.emptyReport(), one), one);
    assert.throws(() => engine.joinedReports({ ...one, priced: 7n }, rest), m.MalformedJob);
});

test('bands, shelves and pairs through the declared functions', () => {
    const band = { firstRow: 1, lastRow: 60, lowestPrice: 0, highestPrice: m.MAX_VALUE, haircut: 500 };
    assert.equal(engine.checkBands([band]).number, 0n);
    assert.equal(engine.lendingWorth([band], 4, m.ONE), 950_000_000n);
    const twice = () => engine.lendingWorth([band, band], 4, m.ONE);
    assert.throws(twice, error => error.number === 18 && error.verdict.row === 1n);
    const memory = new BigUint64Array(3600);
    const asked = engine.raw.shelf_ask(engine.raw.empty_shelf(), memory, 1, 1, 0);
    const kept = engine.raw.shelf_commit(asked.shelf, memory, 1, 1, 0, [1], [m.DISCOUNT_FACTOR], [1.0025]);
    assert.equal(kept.number, 0n);
    assert.deepEqual(engine.raw.shelf_part(kept.shelf, 1), { start: 0n, count: 1n });
    const bond = engine.raw.shelf_bond_price(kept.shelf, memory, 1, [m.ONE]);
    assert.deepEqual(bond, { number: 0n, value: 1_002_500_000n, bound: 2n });
    const rates = engine.tree({ ...PLAIN, points: [0.99, 0.97] });
    const ones = Array(rates.discounts.length).fill(m.ONE);
    const paired = engine.raw.pair_bond_price(2, 0, rates.discounts, 2, 0, ones, [10_000_000n, m.ONE]);
    assert.deepEqual(paired, { number: 0n, ...rates.bondPrice(['0.01', '1']) });
    assert.ok(rates.pairBondPrice(rates, ['0', '1']).value < rates.bondPrice(['0', '1']).value);
    assert.throws(() => rates.pairBondPrice({}, ['0', '1']), TypeError);
});

test('amounts as decimal strings, exactly', () => {
    const exact = { '1': m.ONE, '0.000000001': 1n, '.5': 500_000_000n, '-2.': -2n * m.ONE, ' 1.010 ': 1_010_000_000n };
    for (const [text, value] of Object.entries(exact)) assert.equal(m.billionths(text), value);
    assert.equal(m.billionths(7n), 7n);
    assert.equal(m.billionths('1.0000000000'), m.ONE);
    for (const wrong of ['', '.', 'one', '1e3', '1,5', '0x10', '--1', NaN, 1.5, null, undefined, {}, []]) {
        assert.throws(() => m.billionths(wrong), TypeError);
    }
    assert.throws(() => m.billionths('0.0000000001'), RangeError);
    for (const value of [0n, 1n, -1n, 999_999_999n, -1_234_567_890n, 10n ** 18n]) {
        assert.equal(m.billionths(m.decimal(value)), value);
    }
});
