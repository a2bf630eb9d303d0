"""What the crate capi exports: its functions, and the structs laid out for C that they take and give.

A type is a Number, a Struct, an Array by value, a Slice (a pointer followed by its count) or a Reference (a pointer alone, to an array of
a known length or to a struct)."""
import ast
import operator
import pathlib
import re
from collections import namedtuple

ROOT = pathlib.Path(__file__).resolve().parent.parent
PREFIX = 'mixegorta_'
NUMBERS = ('u8', 'u64', 'usize', 'i64', 'f64', 'bool')
OPERATORS = {ast.Add: operator.add, ast.Sub: operator.sub, ast.Mult: operator.mul}

# C++ takes no type and function of one name, so these structs have names of their own in the header.
C_NAMES = {'BondAndOption': 'bond_and_option_prices', 'Branches': 'node_branches', 'RowRange': 'row_place'}

Number = namedtuple('Number', 'name')
Struct = namedtuple('Struct', 'name')
Array = namedtuple('Array', 'element count')
Slice = namedtuple('Slice', 'element writable')
Reference = namedtuple('Reference', 'target writable')
Function = namedtuple('Function', 'name parameters result')
Record = namedtuple('Record', 'name comment fields')


class NotUnderstood(Exception):
    """What of the sources cannot be declared."""


def without_comments(text):
    return re.sub(r'//.*', '', text)


def split(listed):
    """Pairs of name and type, from `a: T, b: U`."""
    parts = [part.strip() for part in re.split(r',(?![^\[]*\])', listed) if part.strip()]
    return [tuple(word.strip() for word in part.split(':', 1)) for part in parts]


class Crate:
    """The sources of one crate, of which a type or a constant is asked for by its name."""

    def __init__(self, folder):
        self.folder = folder
        self.source = '\n'.join(path.read_text() for path in sorted(folder.glob('src/*.rt')))
        self.code = without_comments(self.source)

    def home(self, name):
        """The crate that the name comes from, through as many `use` as there are."""
        found = re.search(rf'^(?:pub )?use (\w+)::(?:\w+::)*(?:{name}|\{{[^}}]*\b{name}\b[^}}]*\}});', self.code, re.M)
        return self.crate(found[1]).home(name) if found and found[1] not in ('crate', 'self') else self

    def crate(self, name):
        folder = self.folder.parent / name
        if not folder.is_dir():
            raise NotUnderstood(f'there is no crate {name}, which {self.folder.name} uses')
        return Crate(folder)

    def record(self, name):
        """The struct of this name, with the comment above it."""
        found = re.search(rf'((?:^//[^\n]*\n)*)^#\[repr\(C\)\]\s*(?:^#\[derive\([^\]]*\)\]\s*)?^pub struct {name} \{{(.*?)^\}}', self.source, re.M | re.S)
        if not found:
            raise NotUnderstood(f'crate {self.folder.name} has no struct {name} laid out for C')
        comment = ' '.join(line.removeprefix('//').strip() for line in found[1].splitlines())
        fields = [(field.removeprefix('pub '), self.type(kind)) for field, kind in split(without_comments(found[2]))]
        return Record(name, comment, fields)

    def count(self, text):
        """The whole number that an array's length or a constant is."""
        return self._value(ast.parse(text.replace('::', '.').strip(), mode='eval').body)

    def _value(self, node):
        if isinstance(node, ast.Constant) and isinstance(node.value, int):
            return node.value
        if isinstance(node, ast.BinOp) and type(node.op) in OPERATORS:
            return OPERATORS[type(node.op)](self._value(node.left), self._value(node.right))
        if isinstance(node, ast.Attribute) and isinstance(node.value, ast.Name):
            return self.crate(node.value.id).constant(node.attr)
        if isinstance(node, ast.Name):
            return self.home(node.id).constant(node.id)
        raise NotUnderstood(f'crate {self.folder.name} has a length that is no number: {ast.unparse(node)}')

    def constant(self, name):
        found = re.search(rf'\bconst {name}: \w+ = ([^;]+);', self.code)
        if not found:
            raise NotUnderstood(f'crate {self.folder.name} has no constant {name}')
        return self.count(found[1])

    def type(self, text):
        """The type that a parameter or a field has."""
        text = ' '.join(text.split())
        if text.startswith('&'):
            writable = text.startswith('&mut ')
            return self._behind(text.removeprefix('&').removeprefix('mut ').strip(), writable)
        array = re.fullmatch(r'\[(.+); ([^;\]]+)\]', text)
        if array:
            return Array(self.type(array[1]), self.count(array[2]))
        if text in NUMBERS:
            return Number(text)
        if re.fullmatch(r'[A-Z]\w*', text):
            return Struct(text)
        raise NotUnderstood(f'crate {self.folder.name} has a type that no declaration knows: {text}')

    def _behind(self, text, writable):
        slice_of = re.fullmatch(r'\[([^;]+)\]', text)
        if slice_of:
            return Slice(self.type(slice_of[1]), writable)
        target = self.type(text)
        if isinstance(target, Number):
            raise NotUnderstood(f'crate {self.folder.name} has a pointer to one number: {text}')
        return Reference(target, writable)


def structs_in(kind):
    """The names of the structs that a type is made of."""
    if isinstance(kind, Struct):
        return [kind.name]
    return structs_in(kind[0]) if isinstance(kind, (Array, Slice, Reference)) else []


def reached(crate, kind, records):
    """Adds the structs of a type, those that a struct holds before it."""
    for name in structs_in(kind):
        home = crate.home(name)
        record = home.record(name)
        if name in records and records[name] != record:
            raise NotUnderstood(f'two structs {name} are exported')
        for _, field in record.fields:
            reached(home, field, records)
        records[name] = record


def c_struct(name):
    """The name of a struct in the header, without prefix."""
    return C_NAMES.get(name) or re.sub(r'(?<!^)(?=[A-Z])', '_', name).lower()


def exported(root=ROOT):
    """The exported functions in their order, and the structs that they need, each after those that it holds."""
    capi = Crate(root / 'crates/capi')
    found = re.finditer(r'#\[unsafe\(no_mangle\)\]\s*pub extern "C" fn (\w+)\(([^)]*)\)(?:\s*->\s*(\[[^\]]*\]|\w+))?', capi.code)
    functions = [Function(m[1], [(name, capi.type(kind)) for name, kind in split(m[2])], capi.type(m[3]) if m[3] else None) for m in found]
    if len(functions) != capi.code.count('extern "C"'):
        raise NotUnderstood('a function of crates/capi is not marked or not understood')
    records = {}
    for function in functions:
        for kind in [kind for _, kind in function.parameters] + ([function.result] if function.result else []):
            if isinstance(kind, Array):
                raise NotUnderstood(f'{function.name} hands over an array by value, which C cannot: put it into a struct')
            reached(capi, kind, records)
    both = {function.name for function in functions} & {PREFIX + c_struct(name) for name in records}
    if both:
        raise NotUnderstood(f'struct and function of one name do not compile in C++: {", ".join(sorted(both))}; give the struct a name in C_NAMES')
    return functions, list(records.values())
