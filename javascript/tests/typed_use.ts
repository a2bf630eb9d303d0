// Uses the package as a program with types does; the compiler checks it, and nothing runs it.
import * as m from '../mixegorta.js';

export async function use(): Promise<string> {
    const engine: m.Engine = await m.load();
    const points = [1.0025, { kind: m.YEARLY_RATE, figure: 0.01 }];
    const tree = engine.tree({ frequency: 1, reversion: 0, volatility: 0n, points });
    const bond: m.PriceOf = tree.bondPrice(['0.02', m.ONE]);
    const strip: Array<m.PriceOf | m.Refused> = tree.optionStrip([0n, '1'], m.CALL, [0, 1], ['0.99', 1_000_000_000]);
    const answer: m.Price = engine.raw.bond_price(1, 0, tree.discounts, [m.ONE]);
    const job: Uint8Array = engine.writeJob({ ...engine.readJob(new Uint8Array()), version: null });
    try {
        engine.sheet(job);
    } catch (error) {
        if (error instanceof m.MalformedJob) return `${error.number} ${error.advice}`;
    }
    return m.decimal(bond.value + answer.value) + String(strip.length) + String(m.MAX_STEPS);
}
