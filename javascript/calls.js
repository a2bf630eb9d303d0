// Calls of the module's functions: arguments into its memory, answers out of it. The module was compiled with the
// layout of 64-bit C, so a length is eight bytes; a pointer that is handed over is four, as WebAssembly has it.
import { FUNCTIONS, RECORDS } from './declarations.js';
import { list, scalar, shown, writable } from './arguments.js';

const SIZES = { u64: 8, usize: 8, i64: 8, f64: 8, u8: 1, bool: 1 };
const PAGE = 65_536;
// A struct of at most so many bytes is handed over as its numbers, a larger one by a pointer to a copy.
const BY_NUMBERS = 16;
const layouts = new Map();

function up(place, align) {
    return Math.ceil(place / align) * align;
}

/** Size and alignment of a type, and of a record where its fields are. */
export function layout(kind) {
    const key = typeof kind === 'string' ? kind : JSON.stringify(kind);
    if (!layouts.has(key)) layouts.set(key, worked(kind));
    return layouts.get(key);
}

function worked(kind) {
    if (typeof kind !== 'string') {
        const { size, align } = layout(kind[1]);
        return { size: size * kind[2], align };
    }
    if (SIZES[kind]) return { size: SIZES[kind], align: SIZES[kind] };
    let [size, align] = [0, 1];
    const fields = [];
    for (const [name, type] of RECORDS[kind]) {
        const inner = layout(type);
        size = up(size, inner.align);
        fields.push([name, type, size]);
        size += inner.size;
        align = Math.max(align, inner.align);
    }
    return { size: up(size, align), align, fields };
}

/** What a caller handed over for a type, as our own plain values. */
function taken(name, given, kind) {
    if (typeof kind !== 'string') return list(name, given, kind[1], kind[2]);
    if (SIZES[kind]) return scalar(name, given, kind);
    if (typeof given !== 'object' || given === null) throw new TypeError(`${name}: ${shown(given)} is no ${kind}`);
    return RECORDS[kind].map(([field, type]) => takenField(`${name}.${field}`, given[field], type));
}

function takenField(name, given, kind) {
    // An array of records, as a shelf has it.
    if (typeof kind === 'string' || SIZES[kind[1]]) return taken(name, given, kind);
    if (typeof given !== 'object' || given === null || given.length !== kind[2]) {
        throw new TypeError(`${name}: there must be ${kind[2]} of ${kind[1]}`);
    }
    return Array.from({ length: kind[2] }, (_, k) => taken(`${name}[${k}]`, given[k], kind[1]));
}

/** The module in use: its functions by name, without prefix, and a memory of which each call has the free part. */
export class Calls {
    #exports;
    #base;
    #free;
    #view;
    #bytes;

    constructor(module) {
        this.#exports = new WebAssembly.Instance(module, {}).exports;
        this.#base = up(this.#exports.__heap_base.value, 16);
        this.#look();
        const entries = Object.entries(FUNCTIONS).map(
            ([name, [result, parameters]]) => [name, (...given) => this.#call(name, result, parameters, given)]);
        this.raw = Object.freeze(Object.fromEntries(entries));
    }

    /** Bytes of memory that the module has. */
    get memory() {
        return this.#exports.memory.buffer.byteLength;
    }

    #look() {
        this.#view = new DataView(this.#exports.memory.buffer);
        this.#bytes = new Uint8Array(this.#exports.memory.buffer);
    }

    /** What a function that takes bytes and a room for its text wrote there: its number, and the bytes. The room is the
     *  engine's own, so that nothing of it is copied but the text. */
    written(name, given, room) {
        const bytes = list(FUNCTIONS[name][1][0][0], given, 'u8');
        this.#free = this.#base;
        const answer = this.#room(name, 16, 8);
        const { words: [start, length] } = this.#placed(name, ['slice', 'u8', false], bytes);
        const out = this.#room(name, room, 8);
        this.#exports[`mixegorta_${name}`](answer, start, length, out, BigInt(room));
        const size = Number(this.#view.getBigUint64(answer + 8, true));
        const number = this.#view.getBigUint64(answer, true);
        return { number, bytes: this.#bytes.slice(out + room - size, out + room) };
    }

    #call(name, result, parameters, given) {
        if (given.length !== parameters.length) {
            throw new TypeError(`${name}: ${given.length} arguments, and it takes ${parameters.length}`);
        }
        const own = parameters.map(([parameter, kind], k) => this.#own(parameter, kind, given[k]));
        this.#free = this.#base;
        const struct = result !== null && !SIZES[result];
        const answer = struct ? this.#room(result, layout(result).size, 8) : 0;
        const placed = own.map((value, k) => this.#placed(parameters[k][0], parameters[k][1], value));
        const words = placed.flatMap(each => each.words);
        const found = this.#exports[`mixegorta_${name}`](...struct ? [answer, ...words] : words);
        placed.forEach((each, k) => { if (each.back) this.#fetch(each, given[k]); });
        return struct ? this.#read(result, answer) : result === null ? undefined : BigInt.asUintN(64, found);
    }

    #own(name, kind, given) {
        if (typeof kind === 'string') return taken(name, given, kind);
        const [form, inner, written] = kind;
        const [element, count] = form === 'pointer' ? [inner[1], inner[2]] : [inner, null];
        return (written ? writable : list)(name, given, element, count);
    }

    /** A place in the memory, which grows where it is too small. */
    #room(name, size, align) {
        const start = up(this.#free, align);
        this.#free = start + size;
        const lacking = this.#free - this.memory;
        if (lacking > 0) {
            try {
                this.#exports.memory.grow(Math.ceil(lacking / PAGE));
            } catch {
                throw new RangeError(`${name}: ${size} bytes are more than the engine's memory holds`);
            }
            this.#look();
        }
        return start;
    }

    /** Puts a value into the memory; the words that the function takes for it. */
    #placed(name, kind, value) {
        if (typeof kind !== 'string') {
            const start = this.#room(name, value.byteLength, 8);
            this.#bytes.set(new Uint8Array(value.buffer, value.byteOffset, value.byteLength), start);
            const words = kind[0] === 'slice' ? [start, BigInt(value.length)] : [start];
            return { words, back: kind[2] ? start : 0, value };
        }
        if (SIZES[kind]) return { words: [kind === 'bool' ? Number(value) : value] };
        const { size, fields } = layout(kind);
        if (size <= BY_NUMBERS && fields.every(([, type]) => SIZES[type] === 8)) return { words: value };
        const start = this.#room(name, size, 8);
        this.#bytes.fill(0, start, start + size);
        this.#write(kind, start, value);
        return { words: [start] };
    }

    #fetch({ back, value }, given) {
        const found = new value.constructor(this.#exports.memory.buffer, back, value.length);
        given.set(found);
    }

    #write(kind, place, value) {
        if (kind === 'f64') this.#view.setFloat64(place, value, true);
        else if (kind === 'u8' || kind === 'bool') this.#view.setUint8(place, Number(value));
        else if (SIZES[kind]) this.#view.setBigUint64(place, BigInt.asUintN(64, value), true);
        else if (typeof kind !== 'string') this.#writeAll(kind[1], place, value);
        else layout(kind).fields.forEach(([, type, offset], k) => this.#write(type, place + offset, value[k]));
    }

    #writeAll(kind, place, values) {
        const { size } = layout(kind);
        values.forEach((each, k) => this.#write(kind, place + k * size, each));
    }

    #read(kind, place) {
        if (kind === 'f64') return this.#view.getFloat64(place, true);
        if (kind === 'u8') return this.#view.getUint8(place);
        if (kind === 'bool') return this.#view.getUint8(place) !== 0;
        if (kind === 'i64') return this.#view.getBigInt64(place, true);
        if (SIZES[kind]) return this.#view.getBigUint64(place, true);
        if (typeof kind === 'string') {
            const { fields } = layout(kind);
            return Object.fromEntries(fields.map(([name, type, offset]) => [name, this.#read(type, place + offset)]));
        }
        const { size } = layout(kind[1]);
        return Array.from({ length: kind[2] }, (_, k) => this.#read(kind[1], place + k * size));
    }
}
