// The refusals by name. Written by tools/declarations.py from tools/refusals.txt.
import { Refused } from './refused.js';

export { Refused };
export class MalformedJob extends Refused {}
export class UnknownFrequency extends Refused {}
export class StepsOutOfRange extends Refused {}
export class ReversionTooLarge extends Refused {}
export class VolatilityTooLarge extends Refused {}
export class NotInTree extends Refused {}
export class QuoteOutOfRange extends Refused {}
export class NodesTooFarApart extends Refused {}
export class NodeDiscountOutOfRange extends Refused {}
export class FlowTooLarge extends Refused {}
export class OptionTermsOutOfRange extends Refused {}
export class ValueTooLarge extends Refused {}
export class ExerciseDatesOutOfOrder extends Refused {}
export class ShelfFull extends Refused {}
export class WrongName extends Refused {}
export class BadBand extends Refused {}
export class PairInNoBand extends Refused {}
export class PairInSeveralBands extends Refused {}
export class PairStepsOutOfRange extends Refused {}

// By number, from 1.
export const CLASSES = [
    MalformedJob, UnknownFrequency, StepsOutOfRange, ReversionTooLarge, VolatilityTooLarge, NotInTree, QuoteOutOfRange,
    NodesTooFarApart, NodeDiscountOutOfRange, FlowTooLarge, OptionTermsOutOfRange, ValueTooLarge,
    ExerciseDatesOutOfOrder, ShelfFull, WrongName, BadBand, PairInNoBand, PairInSeveralBands, PairStepsOutOfRange
];
