// The engine that the tests use: MIXEGORTA_WASM names its file, else that of the clone.
import { readFileSync } from 'node:fs';
import { load } from '../mixegorta.js';

export const ROOT = new URL('../../', import.meta.url);
const place = process.env.MIXEGORTA_WASM ?? new URL('target/targets/wasm32/mixegorta.wasm', ROOT);
export const engine = await load(readFileSync(place));
