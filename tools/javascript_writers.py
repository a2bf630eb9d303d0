"""The declarations of JavaScript and of its types as text: what the crates export, the refusals and the limits."""
import json
import textwrap

from exports import PREFIX, Array, Number, Reference, Slice, Struct
from writers import SOURCE, sentence

WIDTH = 120
TYPED_ARRAYS = {'u64': 'BigUint64Array', 'usize': 'BigUint64Array', 'i64': 'BigInt64Array', 'u8': 'Uint8Array',
                'f64': 'Float64Array'}
REFUSED = ['', '/** A call that the engine refused. */', 'export class Refused extends Error {',
           '    readonly number: number;', '    readonly cause: string;', '    readonly advice: string;',
           '    readonly entry: string;', '}']
RAW = ['', '/** The exported functions as they are: BigInt out, and a refusal is a number of the answer, not thrown.',
       ' *  What a typed array receives is in it when the call ends. */', 'export interface Raw {']


def quoted(words):
    return "'" + words.replace('\\', '\\\\').replace("'", "\\'") + "'"


def wrapped(head, items, tail):
    """One line, or the items in as many lines as they need between the two ends."""
    line = f'{head}{", ".join(items)}{tail}'
    if len(line) <= WIDTH:
        return [line]
    indent = ' ' * (len(head) - len(head.lstrip()))
    joined = ', '.join(item.replace(' ', '\0') for item in items)
    lines = textwrap.wrap(joined, WIDTH - len(indent) - 5, break_long_words=False, break_on_hyphens=False)
    return [head, *(f'{indent}    {part}'.replace('\0', ' ') for part in lines), indent + tail]


# ---- what the code reads

def kind(given):
    """A type as the code reads it: a name, or a list of what it is and what of."""
    if isinstance(given, (Number, Struct)):
        return quoted(given.name)
    if isinstance(given, Array):
        return f"['array', {kind(given.element)}, {given.count}]"
    if isinstance(given, Slice):
        return f"['slice', {kind(given.element)}, {json.dumps(given.writable)}]"
    return f"['pointer', {kind(given.target)}, {json.dumps(given.writable)}]"


def pairs(listed):
    return [f'[{quoted(name)}, {kind(given)}]' for name, given in listed]


def javascript(functions, records, refusals, limits):
    lines = [f'// What the module exports, the refusals and the limits. {SOURCE} from the crates.', '',
             '// The structs, each after those that it holds.', 'export const RECORDS = {']
    for record in records:
        lines += wrapped(f'    {record.name}: [', pairs(record.fields), '],')
    lines += ['};', '', '// Each exported function with its result and its parameters.', 'export const FUNCTIONS = {']
    for function in functions:
        result = kind(function.result) if function.result else 'null'
        lines += wrapped(f'    {function.name.removeprefix(PREFIX)}: [{result}, [', pairs(function.parameters), ']],')
    lines += ['};', '', '// Each refusal: its number, its name, its cause and what to do about it.',
              'export const REFUSALS = [']
    for refusal in refusals:
        lines += [f'    [{refusal.number}, {quoted(refusal.exception)},', f'        {quoted(refusal.cause)},',
                  f'        {quoted(refusal.remedy)}],']
    lines += ['];', '']
    for limit in limits:
        lines += [f'// {limit.says}', f'export const {limit.name} = {limit_value(limit)};']
    return '\n'.join([*lines, ''])


def limit_value(limit):
    """A count as a number, an amount as a BigInt."""
    return f'{limit.value:_}' if limit.type == 'usize' else f'{limit.value:_}n'


# ---- types

def given_type(given):
    """What a caller may hand over for a type."""
    if isinstance(given, Number):
        return {'f64': 'number', 'bool': 'boolean'}.get(given.name, 'Whole')
    if isinstance(given, Struct):
        return f'{given.name}Given'
    if isinstance(given, Array):
        return f'ArrayLike<{given_type(given.element)}>'
    return slice_type(given.element if isinstance(given, Slice) else given.target, given.writable)


def slice_type(element, writable):
    if isinstance(element, Array):
        element = element.element
    if writable:
        return TYPED_ARRAYS[element.name]
    return f'ArrayLike<{given_type(element)}>'


def answer_type(given):
    """What a caller gets for a type."""
    if isinstance(given, Number):
        return {'f64': 'number', 'bool': 'boolean', 'u8': 'number'}.get(given.name, 'bigint')
    return given.name if isinstance(given, Struct) else f'{answer_type(given.element)}[]'


def comment(words, indent=''):
    return textwrap.wrap(words, WIDTH - 5, initial_indent=f'{indent}/** ', subsequent_indent=f'{indent} *  ',
                         break_long_words=False)


def commented(words, indent=''):
    lines = comment(words, indent)
    return [*lines[:-1], f'{lines[-1]} */']


def interfaces(record):
    fields = [f'    {name}: {answer_type(given)};' for name, given in record.fields]
    taken = [f'    {name}: {given_type(given)};' for name, given in record.fields]
    return ['', *commented(record.comment), f'export interface {record.name} {{', *fields, '}',
            f'export interface {record.name}Given {{', *taken, '}']


def types(functions, records, refusals, limits):
    lines = [f'// What the module exports, the refusals and the limits. {SOURCE} from the crates.', '',
             '/** A whole number: a BigInt, or a Number that is whole and at most 2^53 - 1 in size. */',
             'export type Whole = bigint | number;']
    for record in records:
        lines += interfaces(record)
    lines += RAW
    for function in functions:
        listed = [f'{name}: {given_type(given)}' for name, given in function.parameters]
        result = answer_type(function.result) if function.result else 'void'
        lines += wrapped(f'    {function.name.removeprefix(PREFIX)}(', listed, f'): {result};')
    lines += ['}', '']
    for limit in limits:
        kind_of = 'number' if limit.type == 'usize' else 'bigint'
        lines += [*commented(limit.says), f'export const {limit.name}: {kind_of};']
    lines += REFUSED
    for refusal in refusals:
        note = ' '.join(part for part in (sentence(refusal.cause), refusal.note) if part)
        lines += [*commented(f'{refusal.number}: {note}'), f'export class {refusal.exception} extends Refused {{}}']
    return '\n'.join([*lines, ''])


def refusal_classes(refusals):
    """The classes of the refusals, which a program catches by name."""
    lines = [f'// The refusals by name. {SOURCE} from tools/refusals.txt.', "import { Refused } from './refused.js';",
             '', 'export { Refused };']
    lines += [f'export class {refusal.exception} extends Refused {{}}' for refusal in refusals]
    names = [refusal.exception for refusal in refusals]
    lines += ['', '// By number, from 1.', *wrapped('export const CLASSES = [', names, '];')]
    return '\n'.join([*lines, ''])
