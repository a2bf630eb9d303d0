// 3,000 jobs of compare's generator against the reference, byte for byte, and a memory that stays as it is.
import assert from 'node:assert/strict';
import { readFileSync } from 'node:fs';
import test from 'node:test';
import * as m from '../mixegorta.js';
import { ROOT, engine } from './engine_of_tests.js';

const place = process.env.MIXEGORTA_JOBS ?? new URL('target/javascript/jobs.txt', ROOT);
const cases = readFileSync(place, 'utf-8').trimEnd().split('\n').map(line => JSON.parse(line));
const FEWEST = 3_000;

function sheetOf(job) {
    try {
        return engine.sheet(job);
    } catch (error) {
        assert.ok(error instanceof m.Refused);
        return `refused ${error.number}\n`;
    }
}

test('every sheet is the reference\'s, byte for byte', () => {
    assert.ok(cases.length >= FEWEST);
    const seen = new Set();
    for (const [hex, expected] of cases) {
        assert.equal(sheetOf(Buffer.from(hex, 'hex')), expected, hex);
        seen.add(/^refused \d+/.exec(expected)?.[0] ?? 'printed');
    }
    assert.ok(seen.size >= 10, [...seen].join());
});

test('a job that is read is written as its own bytes, and priced as its sheet', () => {
    for (const [hex, expected] of cases) {
        const job = Buffer.from(hex, 'hex');
        let read = null;
        try {
            read = engine.readJob(job);
        } catch (error) {
            assert.equal(expected, `refused ${error.number}\n`);
            continue;
        }
        assert.ok(job.equals(engine.writeJob(read)), hex);
        if (expected.startsWith('refused')) continue;
        const { bond, option } = engine.pricesOfJob(job);
        assert.ok(expected.includes(`\nbond ${m.decimal(bond.value)} ${bond.bound}\n`));
        assert.equal(expected.includes('\noption '), option !== null);
    }
});

test('the memory never grows over 100,000 calls', () => {
    const points = Array.from({ length: 60 }, (_, k) => 0.998 ** k);
    const tree = engine.tree({ frequency: 12, reversion: 25, volatility: 7000, points });
    const flows = Array(60).fill('0.01');
    const jobs = cases.slice(0, 500).map(([hex]) => Buffer.from(hex, 'hex'));
    const first = engine.memory;
    const expected = tree.bondPrice(flows);
    for (let k = 0; k < 100_000; k += 1) {
        if (k % 20 === 0) sheetOf(jobs[k / 20 % jobs.length]);
        else if (k % 5 === 1) engine.branches(25, k % 60, 0);
        else if (k % 5 === 2) engine.stepRate(k + 1);
        else if (k % 1000 === 3) assert.deepEqual(tree.bondPrice(flows), expected);
        else engine.nodeCount(k % 6000, k % 61);
    }
    assert.equal(engine.memory, first);
    assert.equal(first, 8 << 20);
});
