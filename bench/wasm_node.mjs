// The WebAssembly side of bench/wasm: as bench/wasm_native.c, by the module's own exports; a work whose name ends with
// `+` goes through javascript/ instead, arguments and answers copied.
import { readFileSync } from 'node:fs';
import { createInterface } from 'node:readline';
import { Engine } from '../javascript/engine.js';

const [, , path, jobPath] = process.argv;
const module = new WebAssembly.Module(readFileSync(path));
const engine = new Engine(module);
const wasm = new WebAssembly.Instance(module, {}).exports;
const bytes = new Uint8Array(readFileSync(jobPath));
const job = engine.readJob(bytes);
const steps = job.quotes.length;
const [frequency, n, reversion, volatility] = [job.frequency, steps, job.reversion, job.volatility].map(BigInt);
let free = wasm.__heap_base.value;

function room(size) {
    const start = free;
    free += Math.ceil(size / 16) * 16;
    return start;
}

function placed(list) {
    const start = room(list.byteLength);
    new Uint8Array(wasm.memory.buffer).set(new Uint8Array(list.buffer, list.byteOffset, list.byteLength), start);
    return start;
}

const strikesGiven = BigUint64Array.from({ length: 16 }, (_, k) => job.option.strike + BigInt(k) * 10_000_000n - 60_000_000n);
const [rows, kinds, figures, flows, strikes, given] = [
    BigUint64Array.from(job.quotes, (_, k) => BigInt(k + 1)), Uint8Array.from(job.quotes, each => each.kind),
    Float64Array.from(job.quotes, each => each.figure), BigUint64Array.from(job.flows), strikesGiven, bytes].map(placed);
const [discounts, prices, answer, sheet] = [8 * 3600, 8 * 3721, 4096, 468_736].map(room);
const numbers = new BigUint64Array(wasm.memory.buffer);
const at = place => numbers[place / 8];
const points = job.quotes.map(({ kind, figure }) => ({ kind, figure }));
const { kind, expiry, strike } = job.option;
const [kindGiven, expiryGiven] = [BigInt(kind), BigInt(expiry)];
let tree = null;

const WORKS = {
    fit: () => wasm.mixegorta_fit(frequency, n, reversion, volatility, rows, n, kinds, n, figures, n, discounts, 3600n, prices, 3721n)
        + at(discounts + 8),
    'bond-and-option': () => {
        wasm.mixegorta_bond_and_option(answer, n, reversion, discounts, 3600n, flows, n, kindGiven, expiryGiven, strike);
        return at(answer + 8) + at(answer + 32);
    },
    strip: () => {
        wasm.mixegorta_option_strip_of_kind(answer, n, reversion, discounts, 3600n, flows, n, kindGiven, expiryGiven, strikes, 16n);
        return at(answer + 8 + 128) + at(answer + 8 + 128 + 120);
    },
    job: () => {
        wasm.mixegorta_prices_of_job(answer, given, BigInt(bytes.length), discounts, 3600n, prices, 3721n);
        return at(answer + 16) + at(answer + 48);
    },
    sheet: () => {
        wasm.mixegorta_sheet(answer, given, BigInt(bytes.length), sheet, 468_736n);
        return at(answer + 8);
    },
    'fit+': () => {
        tree = engine.tree({ frequency, reversion, volatility, points });
        return tree.discounts[1];
    },
    'bond-and-option+': () => {
        const both = tree.bondAndOption(job.flows, kind, expiry, strike);
        return both.bond.value + both.option.value;
    },
    'strip+': () => {
        const found = tree.optionStripOfKind(job.flows, kind, expiry, strikesGiven);
        return found[0].value + found[15].value;
    },
    'job+': () => {
        const { bond, option } = engine.pricesOfJob(bytes);
        return bond.value + option.value;
    },
    'sheet+': () => BigInt(engine.sheet(bytes).length),
};

for await (const line of createInterface({ input: process.stdin })) {
    const [name, count] = line.split(' ');
    const work = WORKS[name];
    let sum = 0n;
    const start = process.cpuUsage();
    for (let k = 0; k < Number(count); k += 1) sum = BigInt.asUintN(64, sum + work());
    const { user, system } = process.cpuUsage(start);
    console.log(`${Math.round((user + system) * 1000 / Number(count))} ${sum}`);
}
