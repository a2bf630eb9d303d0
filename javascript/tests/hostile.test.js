// Hostile arguments: whatever is handed over, a call gives its answer, a refusal or an error that names the argument.
import assert from 'node:assert/strict';
import test from 'node:test';
import * as m from '../mixegorta.js';
import { engine } from './engine_of_tests.js';

const PLAIN = { frequency: 1, reversion: 0, volatility: 0 };
const ODD = [undefined, null, true, '1', '', {}, [], () => 1, Symbol.iterator, NaN, Infinity, 1.5, -1, -1n, 2 ** 53,
    2 ** 64, 2n ** 64n, 2n ** 300n];
const WIDEST = [0, 1, 60, 61, 2 ** 32, 2n ** 32n + 1n, 2n ** 63n, 2n ** 64n - 1n];

/** A value of each parameter's kind that is in good order. */
function good(kind) {
    if (kind === 'f64') return 1;
    if (kind === 'bool') return false;
    if (typeof kind === 'string' && m.RECORDS[kind]) {
        return Object.fromEntries(m.RECORDS[kind].map(([name, type]) => [name, good(type)]));
    }
    if (typeof kind === 'string') return 1;
    if (kind[0] === 'array') return Array.from({ length: kind[2] }, () => good(kind[1]));
    const [element, length] = kind[0] === 'pointer' ? kind[1].slice(1) : [kind[1], 9];
    if (kind[2]) return element === 'u8' ? new Uint8Array(length) : new BigUint64Array(length);
    return Array.from({ length }, () => good(element));
}

function called(name, given) {
    try {
        return engine.raw[name](...given);
    } catch (error) {
        assert.ok(error instanceof TypeError || error instanceof RangeError, `${name}: ${error}`);
        assert.ok(!(error instanceof WebAssembly.RuntimeError), name);
        return null;
    }
}

test('every function takes good arguments, and odd ones are errors that name them', () => {
    for (const [name, [, parameters]] of Object.entries(m.FUNCTIONS)) {
        const given = parameters.map(([, kind]) => good(kind));
        assert.notEqual(called(name, given), null, name);
        assert.throws(() => engine.raw[name](...given, 1), TypeError);
        parameters.forEach(([parameter, kind], k) => {
            for (const odd of ODD) {
                const changed = given.map((each, place) => place === k ? odd : each);
                tryOdd(name, parameter, kind, changed, odd);
            }
        });
    }
});

/** Whether a value of ODD is in order for a kind after all. */
function inOrder(kind, odd) {
    if (kind === 'f64') return typeof odd === 'number';
    if (kind === 'bool') return odd === true;
    if (kind === 'i64') return odd === -1 || odd === -1n;
    return Array.isArray(kind) && kind[0] === 'slice' && !kind[2] && Array.isArray(odd);
}

function tryOdd(name, parameter, kind, given, odd) {
    let thrown = null;
    try {
        engine.raw[name](...given);
    } catch (error) {
        thrown = error;
    }
    assert.equal(thrown === null, inOrder(kind, odd), `${name}, ${parameter}: ${String(odd)}`);
    if (thrown === null) return;
    assert.ok(thrown instanceof TypeError || thrown instanceof RangeError, `${name}: ${thrown}`);
    assert.ok(thrown.message.includes(parameter), `${name}: ${thrown.message}`);
}

test('any numbers give an answer', () => {
    let seed = 1n;
    const next = most => {
        seed = BigInt.asUintN(64, seed * 6364136223846793005n + 1442695040888963407n);
        return Number((seed >> 33n) % BigInt(most));
    };
    for (const [name, [, parameters]] of Object.entries(m.FUNCTIONS)) {
        for (let round = 0; round < 40; round += 1) {
            const given = parameters.map(
                ([, kind]) => ['u64', 'usize'].includes(kind) ? WIDEST[next(WIDEST.length)] : good(kind));
            assert.notEqual(called(name, given), null, name);
        }
    }
});

test('what a refused call must leave is left, and what is written is only the tree', () => {
    const [discounts, prices] = [new BigUint64Array(5).fill(7n), new BigUint64Array(5).fill(8n)];
    assert.equal(engine.raw.fit(3, 1, 0, 0, [1], [5], [1.0025], discounts, prices), 2n);
    assert.deepEqual([...discounts, ...prices], [7n, 7n, 7n, 7n, 7n, 8n, 8n, 8n, 8n, 8n]);
    assert.equal(engine.raw.fit(1, 1, 0, 0, [1], [5], [1.0025], discounts, prices), 0n);
    assert.deepEqual([...discounts], [1_002_500_000n, 7n, 7n, 7n, 7n]);
    assert.equal(prices[4], 8n);
});

test('a list that calls the engine while it is read does no harm', () => {
    const tree = engine.tree({ ...PLAIN, points: [0.99, 0.97] });
    const expected = tree.bondPrice(['0.02', '1.02']);
    const flows = {
        length: 2,
        get 0() {
            tree.bondPrice(['1', '1']);
            engine.tree({ ...PLAIN, points: [0.5] });
            return '0.02';
        },
        1: '1.02',
    };
    assert.deepEqual(tree.bondPrice(flows), expected);
    const dates = new Proxy([0, 1], { get: (list, name) => (engine.halfWidth(0, 3), list[name]) });
    const put = given => tree.datedOptionPrice(['0.02', '1.02'], m.PUT, given, '1');
    assert.deepEqual(put(dates), put([0, 1]));
});

test('lists that lie about their length, and lists too long', () => {
    const tree = engine.tree({ ...PLAIN, points: [0.99] });
    for (const length of [-1, 1.5, NaN, '2', 2 ** 53, 2n ** 70n]) {
        assert.throws(() => tree.bondPrice({ length, 0: '1' }), /flows/);
    }
    assert.throws(() => engine.sheet({ length: 2 ** 40 }), RangeError);
    const before = engine.memory;
    assert.throws(() => engine.reportOfFile(new Uint8Array(80 << 20)), RangeError);
    assert.equal(engine.memory, before);
    assert.deepEqual(tree.bondPrice(['1']), { value: 990_000_000n, bound: 2n });
    assert.throws(() => engine.sheet(new Uint8Array(4701)), m.MalformedJob);
});

test('a buffer that was given away is an error, not a crash', () => {
    const bytes = new Uint8Array(8);
    structuredClone(bytes.buffer, { transfer: [bytes.buffer] });
    assert.throws(() => engine.sheet(bytes), error => error instanceof TypeError || error instanceof m.MalformedJob);
});

test('60,000 steps, a NaN and infinite figures are refused, not taken', () => {
    assert.throws(() => engine.tree({ ...PLAIN, points: Array(61).fill(1) }), m.StepsOutOfRange);
    assert.throws(() => engine.tree({ ...PLAIN, points: Array(60_000).fill(1) }), m.StepsOutOfRange);
    for (const figure of [NaN, Infinity, -Infinity, 0, -1, 11]) {
        assert.throws(() => engine.tree({ ...PLAIN, points: [figure] }), m.CLASSES[6]);
    }
    assert.throws(() => engine.tree({ ...PLAIN, points: ['1'] }), TypeError);
});
