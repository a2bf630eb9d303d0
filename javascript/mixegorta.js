// Mixegorta for browsers and node: a Hull-White trinomial rate tree in whole billionths. The engine is proved up to its
// LLVM module; the WebAssembly that is compiled from it, and this code around it, are tested.
import { Engine } from './engine.js';

export * from './constants.js';
export * from './declarations.js';
export * from './refusals.js';
export { billionths, decimal } from './arguments.js';
export { Engine } from './engine.js';
export { Tree } from './tree.js';
export { bitsOf, bookOfJobs, figureOf } from './jobs.js';

async function bytesOf(url) {
    if (url.protocol !== 'file:') {
        const answer = await fetch(url);
        if (!answer.ok) throw new Error(`${url} cannot be loaded: ${answer.status}`);
        return answer.arrayBuffer();
    }
    const { readFile } = await import('node:fs/promises');
    return readFile(url);
}

/** The engine of a WebAssembly.Module, of its bytes or of an address; else of mixegorta.wasm beside this file. */
export async function load(source = new URL('mixegorta.wasm', import.meta.url)) {
    const given = source instanceof URL || typeof source === 'string' ? await bytesOf(new URL(source)) : source;
    return new Engine(given instanceof WebAssembly.Module ? given : await WebAssembly.compile(given));
}
