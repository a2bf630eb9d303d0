"""The C functions around the module's own, for targets on which C hands structs over in another way than the module.

The module is made for x86-64 Linux: a struct of more than two numbers that is returned goes by a pointer, the first
argument, and one that is handed over lies on the stack. In the module's text each exported function is renamed to
mixegorta_module_NAME and takes pointers in both cases; a C function of the old name, which the target's C compiler
compiles with the header, hands over the addresses of its own structs. So no struct of more than two numbers crosses
from one compiler to the other. Each function of the module is first compared with what crates/capi exports."""
import re

import compiling
import exports
import writers
from exports import Array, Number, Reference, Slice, Struct

SIZES = {'u8': 1, 'u64': 8, 'usize': 8, 'i64': 8, 'f64': 8, 'bool': 1}
MODULE_TYPES = {'u8': 'i8', 'u64': 'i64', 'usize': 'i64', 'i64': 'i64', 'f64': 'double'}
# A struct of so many bytes and no more goes in two registers.
TWO_WORDS = 16
INNER = f'{exports.PREFIX}module_'
HEAD = re.compile(rf'^define (?:noundef )?(void|ptr|i64|\{{ i64, i64 \}}) @({exports.PREFIX}\w+)\((.*)\) #0 \{{$', re.M)
BY_VALUE = re.compile(r'byval\(\[(\d+) x i8\]\) align 8 ?')
FIRST_LINES = '''/* Written by tools/wrapping.py: functions around the module's, which take structs by pointers. */
#include "mixegorta.h"
'''


class Layout:
    """The sizes of the structs as C lays them out."""

    def __init__(self, records):
        self.records = {record.name: record for record in records}

    def of(self, kind):
        """The size and the alignment of a type, in bytes."""
        if isinstance(kind, Number):
            return SIZES[kind.name], SIZES[kind.name]
        if isinstance(kind, Array):
            size, alignment = self.of(kind.element)
            return size * kind.count, alignment
        size, widest = 0, 1
        for _, field in self.records[kind.name].fields:
            own, alignment = self.of(field)
            size, widest = -(-size // alignment) * alignment + own, max(widest, alignment)
        return -(-size // widest) * widest, widest

    def is_large(self, kind):
        return isinstance(kind, Struct) and self.of(kind)[0] > TWO_WORDS


# The module

def words(kind, layout):
    """The types of the module's arguments for one of C's."""
    if isinstance(kind, Slice):
        return ['ptr', 'i64']
    if isinstance(kind, Reference):
        return ['ptr']
    if isinstance(kind, Number):
        return [MODULE_TYPES[kind.name]]
    if layout.is_large(kind):
        return [f'ptr of {layout.of(kind)[0]} bytes']
    return [word for _, field in layout.records[kind.name].fields for word in words(field, layout)]


def expected(function, layout):
    """The result and the arguments that a function must have in the module."""
    result = function.result
    taken = [word for _, kind in function.parameters for word in words(kind, layout)]
    if layout.is_large(result):
        return 'ptr', ['ptr', *taken]
    if isinstance(result, Struct) and layout.of(result)[0] != TWO_WORDS:
        size = layout.of(result)[0]
        raise compiling.Failed(f'{function.name} gives a struct of {size} bytes, which no wrapper knows')
    if isinstance(result, Struct):
        return '{ i64, i64 }', taken
    return MODULE_TYPES[result.name] if result else 'void', taken


def found_words(listed):
    """The types of a function's arguments as the module has them."""
    taken = BY_VALUE.sub(lambda match: f'of {match[1]} bytes ', listed.replace('noundef ', ''))
    return [part.rpartition(' ')[0] for part in taken.split(', ')] if taken else []


def compare(text, functions, layout):
    """Tells where the module's functions are not those that are exported."""
    found = {name: (result, found_words(listed)) for result, name, listed in HEAD.findall(text)}
    wanted = {function.name: expected(function, layout) for function in functions}
    for name in sorted(found.keys() | wanted.keys()):
        if found.get(name) != wanted.get(name):
            raise compiling.Failed(f'{name} is {found.get(name)} in the module, and {wanted.get(name)} in crates/capi')
    if re.search(rf'^ .*@{exports.PREFIX}', text, re.M):
        raise compiling.Failed('the module uses its own exports, whose names change')


def module_text(text, functions, records, marks):
    """The module with its exports renamed, their structs behind pointers, and marks such as a calling convention."""
    compare(text, functions, Layout(records))

    def renamed(match):
        line = match[0].replace(f'@{exports.PREFIX}', f'@{INNER}', 1).replace('define ', f'define {marks} ', 1)
        return BY_VALUE.sub('', line)
    return HEAD.sub(renamed, text)


# The functions of C

def c_arguments(name, kind, layout):
    """What the module's function is declared with and handed over for one of C's parameters: pairs."""
    if isinstance(kind, Slice):
        pointer = writers.c_parameter(name, kind).partition(',')[0]
        return [(pointer, name), (f'size_t {name}_len', f'{name}_len')]
    if layout.is_large(kind):
        return [(f'{writers.c_type(kind)} *{name}', f'&{name}')]
    if isinstance(kind, Struct):
        fields = layout.records[kind.name].fields
        return [(f'{writers.c_type(field)} {name}_{part}', f'{name}.{part}') for part, field in fields]
    return [(writers.c_parameter(name, kind), name)]


def c_function(function, layout, attribute):
    """The declaration of the module's function, and the function around it."""
    pairs = [pair for name, kind in function.parameters for pair in c_arguments(name, kind, layout)]
    declared, given = [pair[0] for pair in pairs], [pair[1] for pair in pairs]
    inner = INNER + function.name.removeprefix(exports.PREFIX)
    result = writers.c_type(function.result) if function.result else 'void'
    head = ', '.join(writers.c_parameter(*parameter) for parameter in function.parameters) or 'void'
    lines = [f'{result} {function.name}({head}) {{']
    if layout.is_large(function.result):
        declared, given = [f'{result} *answer', *declared], ['&answer', *given]
        lines += [f'    {result} answer;', f'    {inner}({", ".join(given)});', '    return answer;', '}']
        result = 'void *'
    else:
        lines += [f'    {"return " if function.result else ""}{inner}({", ".join(given)});', '}']
    return ['', f'{attribute}{result} {inner}({", ".join(declared) or "void"});', *lines]


def c_text(functions, records, attribute=''):
    """The C functions around the module's, which are declared with an attribute."""
    layout = Layout(records)
    lines = [FIRST_LINES.rstrip()]
    for kind in map(Struct, layout.records):
        told, (size, _) = writers.c_type(kind), layout.of(kind)
        lines.append(f'_Static_assert(sizeof({told}) == {size}, "the size of {told}");')
    for function in functions:
        lines += c_function(function, layout, attribute)
    return '\n'.join(lines) + '\n'
