"""The declarations of C, Rust and Python as text: what the crates export, the refusals and the limits."""
import re
import textwrap

from exports import PREFIX, Array, Number, Reference, Slice, c_struct

C_NUMBERS = {'u8': 'uint8_t', 'u64': 'uint64_t', 'usize': 'size_t', 'i64': 'int64_t', 'f64': 'double', 'bool': 'bool'}
PYTHON_NUMBERS = {'u8': 'U8', 'u64': 'U64', 'usize': 'SIZE', 'i64': 'I64', 'f64': 'F64', 'bool': 'BOOL'}
PYTHON_TYPES = ('BOOL', 'F64', 'I64', 'SIZE', 'U8', 'U64', 'PointerTo', 'SliceOf')
RUST_WIDTH, PYTHON_WIDTH = 100, 140
SOURCE = 'Written by tools/declarations.py'


def sentence(words):
    return words[0].upper() + words[1:] + '.'


# ---- C, which the header is compared with

def c_type(kind):
    return C_NUMBERS[kind.name] if isinstance(kind, Number) else f'struct {PREFIX}{c_struct(kind.name)}'


def c_array(name, kind):
    """A name with the element type before it and its lengths behind it."""
    lengths = ''
    while isinstance(kind, Array):
        lengths, kind = f'{lengths}[{kind.count}]', kind.element
    return f'{c_type(kind)} {name}{lengths}'


def c_parameter(name, kind):
    if isinstance(kind, Slice):
        return f'{"" if kind.writable else "const "}{c_type(kind.element)} *{name}, size_t {name}_len'
    if isinstance(kind, Reference):
        pointer = c_array(name, kind.target) if isinstance(kind.target, Array) else f'{c_type(kind.target)} *{name}'
        return f'{"" if kind.writable else "const "}{pointer}'
    return c_array(name, kind)


def c_declarations(functions, records):
    """Each function and each struct as one line."""
    for function in functions:
        listed = ', '.join(c_parameter(*parameter) for parameter in function.parameters) or 'void'
        yield f'{c_type(function.result) if function.result else "void"} {function.name}({listed});'
    for record in records:
        fields = ' '.join(f'{c_array(*field)};' for field in record.fields)
        yield f'struct {PREFIX}{c_struct(record.name)} {{{fields}}};'


# ---- Rust, in the form of rustfmt

def rust_type(kind):
    return f'[{rust_type(kind.element)}; {kind.count}]' if isinstance(kind, Array) else kind.name


def rust_parameters(name, kind):
    if isinstance(kind, Slice):
        return [f'{name}: *{"mut" if kind.writable else "const"} {rust_type(kind.element)}', f'{name}_len: usize']
    if isinstance(kind, Reference):
        return [f'{name}: *{"mut" if kind.writable else "const"} {rust_type(kind.target)}']
    return [f'{name}: {rust_type(kind)}']


def rust_function(function):
    listed = [part for parameter in function.parameters for part in rust_parameters(*parameter)]
    head, result = f'    pub fn {function.name}(', f' -> {rust_type(function.result)}' if function.result else ''
    line = f'{head}{", ".join(listed)})'
    if len(f'{line}{result};') < RUST_WIDTH:
        return [f'{line}{result};']
    if len(line) < RUST_WIDTH - 4 and result:
        return [line, f'       {result};']
    return [head, *(f'        {part},' for part in listed), f'    ){result};']


def rust_record(record):
    fields = [f'    pub {name}: {rust_type(kind)},' for name, kind in record.fields]
    return ['', *rust_comment(record.comment, ''), '#[repr(C)]', '#[derive(Clone, Copy)]', f'pub struct {record.name} {{', *fields, '}']


def rust_comment(words, indent):
    return textwrap.wrap(words, 130, initial_indent=f'{indent}/// ', subsequent_indent=f'{indent}/// ')


def rust_raw(functions, records):
    lines = [f'//! What the archive exports. {SOURCE} from the crates.']
    for record in records:
        lines += rust_record(record)
    lines += ['', 'extern "C" {']
    for function in functions:
        lines += rust_function(function)
    return '\n'.join([*lines, '}', ''])


def rust_refusals(refusals):
    lines = [f'//! The listed refusals. {SOURCE} from tools/refusals.txt.', '', 'use crate::Refusal;', '', 'impl Refusal {']
    for refusal in refusals:
        lines += rust_comment(f'{sentence(refusal.cause)} {refusal.note}', '    ')
        lines.append(f'    pub const {refusal.constant}: Refusal = Refusal({refusal.number});')
    lines += ['    /// Every listed refusal, by number.', f'    pub const LISTED: [Refusal; {len(refusals)}] = [']
    lines += [f'        Refusal::{refusal.constant},' for refusal in refusals]
    lines += ['    ];', '}', '', '/// What each of them says, in the same order.', f'pub(crate) const CAUSES: [&str; {len(refusals)}] = [']
    lines += [f'    "{refusal.cause}",' for refusal in refusals]
    return '\n'.join([*lines, '];', ''])


def rust_limits(limits):
    lines = [f'//! Limits and units. {SOURCE} from tools/limits.txt.', '']
    for limit in limits:
        lines += [*rust_comment(limit.says, ''), f'pub const {limit.name}: {limit.type} = {limit.value:_};']
    return '\n'.join([*lines, ''])


# ---- Python

def python_type(kind):
    if isinstance(kind, Array):
        return f'{python_type(kind.element)} * {kind.count}'
    if isinstance(kind, Slice):
        return f'SliceOf({python_type(kind.element)})'
    if isinstance(kind, Reference):
        return f'PointerTo({python_type(kind.target)})'
    return PYTHON_NUMBERS[kind.name] if isinstance(kind, Number) else f'C{kind.name}'


def packed(items, indent):
    """The items in as many lines as they need, each ended by a comma."""
    lines = [indent]
    for item in items:
        joined = f'{lines[-1]}{item}, '
        if len(joined) - 1 > PYTHON_WIDTH and lines[-1] != indent:
            lines.append(indent)
            joined = f'{indent}{item}, '
        lines[-1] = joined
    return [line.rstrip() for line in lines]


def python_wrapped(head, items, tail):
    """One line, or the items in lines of their own between the two ends."""
    line = f'{head}{", ".join(items)}{tail}'
    if len(line) <= PYTHON_WIDTH:
        return [line]
    indent = ' ' * (len(head) - len(head.lstrip()))
    return [head, *packed(items, indent + '    '), indent + tail]


def python_record(record):
    pairs = [f'("{name}", {python_type(kind)})' for name, kind in record.fields]
    return ['', '', f'class C{record.name}(ctypes.Structure):', f'    """{record.comment}"""', '',
            *python_wrapped('    _fields_ = [', pairs, ']')]


def python_declarations(functions, records):
    lines = []
    for record in records:
        lines += python_record(record)
    lines += ['', '', '# each exported function with its result and its parameters', 'DECLARATIONS: Dict[str, Tuple[Any, Dict[str, Any]]] = {']
    for function in functions:
        pairs = [f'"{name}": {python_type(kind)}' for name, kind in function.parameters]
        result = python_type(function.result) if function.result else 'None'
        lines += python_wrapped(f'    "{function.name[len(PREFIX):]}": ({result}, {{', pairs, '}),')
    used = [name for name in PYTHON_TYPES if any(re.search(rf'\b{name}\b', line) for line in lines)]
    return '\n'.join([f'"""What the shared object exports, for ctypes. {SOURCE} from the crates."""', 'import ctypes',
                      'from typing import Any, Dict, Tuple', '', f'from ._types import {", ".join(used)}', *lines, '}', ''])


def python_limits(limits):
    names = python_wrapped('__all__ = [', [f'"{limit.name}"' for limit in limits], ']')
    lines = [f'"""Limits and units. {SOURCE} from tools/limits.txt."""', '', *names, '']
    for limit in limits:
        lines += [f'# {limit.says[0].lower()}{limit.says[1:].rstrip(".")}', f'{limit.name} = {limit.value:_}']
    return '\n'.join([*lines, ''])


def python_causes(refusals):
    names = ['"ADVICE"', '"CAUSES"', '"Refused"', *(f'"{refusal.exception}"' for refusal in refusals)]
    lines = [*python_wrapped('__all__ = [', names, ']'), '', 'CAUSES: Dict[int, str] = {']
    lines += [*(f'    {refusal.number}: "{refusal.cause}",' for refusal in refusals), '}', '', '# what to do about each', 'ADVICE: Dict[int, str] = {']
    return [*lines, *(f'    {refusal.number}: "{refusal.remedy}",' for refusal in refusals), '}']


def python_classes(refusals):
    lines = []
    for refusal in refusals:
        words = ' '.join(part for part in (f'{refusal.number}: {refusal.cause}.', refusal.note, refusal.row) if part)
        lines += [f'class {refusal.exception}(Refused):', *textwrap.wrap(f'"""{words}"""', PYTHON_WIDTH, initial_indent='    ', subsequent_indent='    '),
                  '', '']
    pairs = [f'{refusal.number}: {refusal.exception}' for refusal in refusals]
    return [*lines, *python_wrapped('CLASSES: Dict[int, Type[Refused]] = {', pairs, '}')]


def command_words(refusals):
    lines = [f'"""What each refusal says and what to do about it. {SOURCE} from tools/refusals.txt."""', '', 'REFUSALS = {']
    for refusal in refusals:
        lines += [f'    {refusal.number}: (', f'        {refusal.cause!r},', f'        {refusal.remedy!r},', '    ),']
    return '\n'.join([*lines, '}', ''])


# ---- C, what the header includes

def c_text(words):
    return '"' + words.replace('\\', '\\\\').replace('"', '\\"') + '"'


def c_causes(refusals):
    """A header with the words of each refusal. It is no export: the library holds proved functions alone."""
    lines = [f'/* What each refusal says. {SOURCE} from tools/refusals.txt; mixegorta.h includes it. */', '#ifndef MIXEGORTA_CAUSES_H', '#define MIXEGORTA_CAUSES_H', '',
             '#include <stdint.h>', '', '/* The cause that a refusal names, without a full stop: a text that lasts as long as the program. 0 is no refusal, and any',
             '   other number is none of this version. */', f'static inline const char *{PREFIX}cause(uint64_t number) {{', '    switch (number) {',
             '    case 0:', '        return "not refused";']
    for refusal in refusals:
        lines += [f'    case {refusal.number}:', f'        return {c_text(refusal.cause)};']
    return '\n'.join([*lines, '    default:', '        return "not a refusal of this version";', '    }', '}', '', '#endif', ''])
