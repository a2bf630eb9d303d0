// What every refusal has in common.
import { REFUSALS } from './declarations.js';

const UNKNOWN = [0, 'Refused', 'not a refusal of this version', ''];

/** A call that the engine refused: number, cause, what to do about it, and the exported function that refused. */
export class Refused extends Error {
    constructor(number, entry) {
        const [, name, cause, advice] = REFUSALS[number - 1] ?? UNKNOWN;
        super(`refused ${number}: ${cause}`);
        this.name = name;
        this.number = number;
        this.cause = cause;
        this.advice = advice;
        this.entry = entry;
    }
}
