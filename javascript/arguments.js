// What a caller hands over, as plain numbers and typed arrays of our own. Reading it may run the caller's code, so all
// of it is read before a call touches the engine's memory.

const LEAST = { u64: 0n, usize: 0n, i64: -(2n ** 63n) };
const MOST = { u64: 2n ** 64n - 1n, usize: 2n ** 64n - 1n, i64: 2n ** 63n - 1n };
const OWN = { u64: BigUint64Array, usize: BigUint64Array, i64: BigInt64Array, u8: Uint8Array, f64: Float64Array };
const ARRAY_LENGTH = Object.getOwnPropertyDescriptor(Object.getPrototypeOf(Uint8Array.prototype), 'length').get;

/** A value for a sentence: short, whatever it is. */
export function shown(given) {
    if (typeof given === 'bigint') return BigInt.asIntN(256, given) === given ? `${given}` : 'a number past 256 bits';
    if (typeof given === 'string') return JSON.stringify(given.length > 80 ? `${given.slice(0, 77)}...` : given);
    if (given === null || ['number', 'boolean', 'undefined'].includes(typeof given)) return String(given);
    return Array.isArray(given) ? 'an array' : `a value of type ${typeof given}`;
}

/** A whole number of a width: a BigInt, or a Number that is whole and safe. */
export function whole(name, given, width = 'u64') {
    if (typeof given !== 'bigint' && typeof given !== 'number') {
        throw new TypeError(`${name}: ${shown(given)} is no whole number`);
    }
    if (typeof given === 'number' && !Number.isSafeInteger(given)) {
        throw new TypeError(`${name}: ${given} is no whole number that a Number holds; give a BigInt`);
    }
    const found = BigInt(given);
    if (found < LEAST[width] || found > MOST[width]) {
        throw new RangeError(`${name}: ${shown(given)} does not fit ${width === 'i64' ? '' : 'unsigned '}64 bits`);
    }
    return found;
}

function byte(name, given) {
    const found = whole(name, given);
    if (found > 255n) throw new RangeError(`${name}: ${shown(given)} does not fit a byte`);
    return Number(found);
}

function float(name, given) {
    if (typeof given !== 'number') throw new TypeError(`${name}: ${shown(given)} is no Number`);
    return given;
}

function bool(name, given) {
    if (typeof given !== 'boolean') throw new TypeError(`${name}: ${shown(given)} is neither true nor false`);
    return given;
}

/** One number of the engine's. */
export function scalar(name, given, kind) {
    if (kind === 'u8') return byte(name, given);
    if (kind === 'f64') return float(name, given);
    return kind === 'bool' ? bool(name, given) : whole(name, given, kind);
}

function counted(name, length, count) {
    if (count !== null && length !== count) throw new RangeError(`${name}: ${length} elements, not ${count}`);
}

/** A copy of a list of numbers as a typed array of the engine's width. */
export function list(name, given, kind, count = null) {
    if (typeof given !== 'object' || given === null) throw new TypeError(`${name}: ${shown(given)} is no list`);
    const length = whole(`${name}.length`, given.length ?? -1);
    counted(name, Number(length), count);
    if (length > 2n ** 26n) throw new RangeError(`${name}: ${length} elements are more than the engine's memory holds`);
    if (given instanceof OWN[kind]) return given.slice();
    const found = new OWN[kind](Number(length));
    for (let k = 0; k < found.length; k += 1) found[k] = scalar(`${name}[${k}]`, given[k], kind);
    return found;
}

/** A typed array that the engine writes: the very one, and a copy to hand over. */
export function writable(name, given, kind, count = null) {
    if (!(given instanceof OWN[kind])) throw new TypeError(`${name}: give a ${OWN[kind].name}, which the call writes`);
    const length = ARRAY_LENGTH.call(given);
    counted(name, length, count);
    return given.slice();
}

// ---- amounts

const ONE = 1_000_000_000n;
const DECIMAL = /^([+-]?)(\d*)(?:\.(\d*))?$/;

/** An amount in whole billionths: a BigInt or a whole Number as it is, a string such as '1.01' times one, exactly. */
export function billionths(amount, name = 'amount') {
    if (typeof amount !== 'string') {
        if (typeof amount === 'number' && !Number.isInteger(amount)) {
            throw new TypeError(`${name}: ${amount} has a part; give whole billionths, or a string such as '1.01'`);
        }
        return whole(name, amount, amount < 0 ? 'i64' : 'u64');
    }
    const found = DECIMAL.exec(amount.trim());
    if (!found || !(found[2] || found[3])) throw new TypeError(`${name}: ${shown(amount)} is no decimal number`);
    const [, sign, front, back = ''] = found;
    if (front.length > 20) throw new RangeError(`${name}: ${shown(amount)} does not fit 64 bits`);
    if (/[1-9]/.test(back.slice(9))) throw new RangeError(`${name}: ${shown(amount)} is no whole number of billionths`);
    const value = BigInt(front || '0') * ONE + BigInt(back.slice(0, 9).padEnd(9, '0'));
    return sign === '-' ? -value : value;
}

/** Billionths as a decimal string with nine decimals. */
export function decimal(amount) {
    const found = whole('amount', amount, 'i64');
    const size = String(found < 0n ? -found : found).padStart(10, '0');
    return `${found < 0n ? '-' : ''}${size.slice(0, -9)}.${size.slice(-9)}`;
}

/** A list of amounts in billionths. */
export function amounts(name, given) {
    if (given instanceof BigUint64Array) return given.slice();
    if (typeof given !== 'object' || given === null) {
        throw new TypeError(`${name}: ${shown(given)} is no list of amounts`);
    }
    const length = Number(whole(`${name}.length`, given.length ?? -1));
    if (length > 2 ** 20) throw new RangeError(`${name}: ${length} amounts are more than any tree has`);
    const found = new BigUint64Array(length);
    for (let k = 0; k < length; k += 1) found[k] = amount(`${name}[${k}]`, given[k]);
    return found;
}

/** One amount in billionths, zero or above. */
export function amount(name, given) {
    const found = billionths(given, name);
    if (found < 0n) throw new RangeError(`${name}: ${shown(given)} is below zero`);
    return found;
}
