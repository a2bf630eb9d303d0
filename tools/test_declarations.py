#!/usr/bin/env python3
"""Tests of tools/declarations.py on made-up crates: what is read, that C, Rust and ctypes lay the same structs out alike and hand them over,
and that every kind of difference is named. Needs a C compiler and rustc for the layouts. Usage: tools/test_declarations.py"""
import ctypes
import os
import pathlib
import re
import shutil
import subprocess
import sys
import tempfile
import types
import unittest

sys.dont_write_bytecode = True
HERE = pathlib.Path(__file__).resolve().parent
sys.path[:0] = [str(HERE)]
import declarations
import exports
import source_tables
import writers

CC = os.environ.get('CC', 'cc')
CRATES = {
    'sizes': 'pub const MOST: usize = 15 + 1;\npub const NAMES: usize = 8; // not 9\n',
    'slots': '''use sizes::MOST;
// A slot.
#[repr(C)]
#[derive(Drop)]
pub struct Slot {
    pub status: u8, // 0, 1 or 2
    pub fitted: bool,
    pub steps: usize,
    pub greatest: [u64; MOST],
}
pub struct Hidden { pub slot: Slot }
''',
    'shelf': '''pub use slots::Slot;
// A shelf
// of slots.
#[repr(C)]
#[derive(Drop)]
pub struct Shelf {
    pub slots: [Slot; sizes::NAMES],
    pub last: f64,
}
#[repr(C)]
#[derive(Drop)]
pub struct Shelved {
    pub open: bool,
    pub shelf: Shelf,
    pub dates: [u8; 4672],
    pub moved: i64,
}
''',
    'capi': '''use shelf::Shelf;
use shelf::Shelved;
// #[unsafe(no_mangle)] pub extern fn left_out()
#[unsafe(no_mangle)]
pub extern "C" fn mixegorta_ask(shelf: Shelf, memory: &mut [u64; 3600], name: usize, open: bool) -> Shelved { }
#[unsafe(no_mangle)]
pub extern "C" fn mixegorta_sum(
    memory: &[u64; 3600],
    weights: &[u64],
    last: &Shelf,
) -> u64
    ensures { result ≡ 0 }
{ }
#[unsafe(no_mangle)]
pub extern "C" fn mixegorta_clear(memory: &mut [u64]) { }
''',
}
LIBRARY = '''
struct mixegorta_shelved mixegorta_ask(struct mixegorta_shelf shelf, uint64_t memory[3600], size_t name, bool open) {
    struct mixegorta_shelved answer = {open, shelf, {0}, -(int64_t)name};
    answer.shelf.slots[name].greatest[15] = memory[3599];
    answer.dates[4671] = 9;
    memory[0] = name;
    return answer;
}
uint64_t mixegorta_sum(const uint64_t memory[3600], const uint64_t *weights, size_t weights_len, const struct mixegorta_shelf *last) {
    return memory[3599] + weights[weights_len - 1] + (uint64_t)last->last;
}
void mixegorta_clear(uint64_t *memory, size_t memory_len) { for (size_t i = 0; i < memory_len; i++) memory[i] = 0; }
'''
RUST_CALLS = '''
    let slot = raw::Slot { status: 1, fitted: true, steps: 3, greatest: [7; 16] };
    let shelf = raw::Shelf { slots: [slot; 8], last: 2.0 };
    let mut memory = [0u64; 3600];
    memory[3599] = 5;
    let weights = [1, 30];
    unsafe {
        let sum = raw::mixegorta_sum(&memory, weights.as_ptr(), weights.len(), &shelf);
        let got = raw::mixegorta_ask(shelf, &mut memory, 6, true);
        let slot = got.shelf.slots[6];
        println!("{sum} {} {} {} {} {}", memory[0], slot.greatest[15], got.dates[4671], got.moved, got.open && slot.fitted);
    }
'''
CALLED = '37 6 5 9 -6 true'


def made_up(folder, **changed):
    """A root whose crates are these, each with its source replaced where it is given."""
    for name, source in {**CRATES, **changed}.items():
        (folder / 'crates' / name / 'src').mkdir(parents=True)
        (folder / 'crates' / name / 'src/lib.rt').write_text(source)
    return exports.exported(folder)


def ran(*command, **more):
    return subprocess.run(command, check=True, stdout=subprocess.PIPE, text=True, **more).stdout


class InFolder(unittest.TestCase):
    def setUp(self):
        folder = tempfile.TemporaryDirectory()
        self.addCleanup(folder.cleanup)
        self.folder = pathlib.Path(folder.name)


class Reading(InFolder):
    def test_types(self):
        functions, records = made_up(self.folder)
        self.assertEqual([record.name for record in records], ['Slot', 'Shelf', 'Shelved'])
        self.assertEqual([record.comment for record in records], ['A slot.', 'A shelf of slots.', ''])
        u64 = exports.Number('u64')
        self.assertEqual(dict(records[0].fields)['greatest'], exports.Array(u64, 16))
        self.assertEqual(dict(records[1].fields)['slots'], exports.Array(exports.Struct('Slot'), 8))
        self.assertEqual([function.name for function in functions], ['mixegorta_ask', 'mixegorta_sum', 'mixegorta_clear'])
        self.assertEqual(dict(functions[0].parameters)['memory'], exports.Reference(exports.Array(u64, 3600), True))
        self.assertEqual(functions[1].parameters[1:], [('weights', exports.Slice(u64, False)), ('last', exports.Reference(exports.Struct('Shelf'), False))])
        self.assertIsNone(functions[2].result)

    def test_what_cannot_be_declared_is_named(self):
        capi, slots = CRATES['capi'], CRATES['slots']
        for words, changed in (
                ('array by value', {'capi': capi.replace('name: usize', 'name: [u8; 2]')}),
                ('array by value', {'capi': capi.replace('-> Shelved', '-> [u8; 2]')}),
                ('no struct Slot laid out for C', {'slots': slots.replace('#[repr(C)]', '')}),
                ('no struct Hidden laid out for C', {'capi': capi.replace('use shelf::Shelved', 'use slots::Hidden').replace('-> Shelved', '-> Hidden')}),
                ('no constant NAMES', {'sizes': CRATES['sizes'].replace('NAMES', 'OTHERS')}),
                ('no crate others', {'capi': capi.replace('use shelf::Shelved', 'use others::Shelved')}),
                ('type that no declaration knows: u128', {'capi': capi.replace('name: usize', 'name: u128')}),
                ('pointer to one number', {'capi': capi.replace('name: usize', 'name: &u64')}),
                ('not marked', {'capi': capi.replace('#[unsafe(no_mangle)]\npub extern "C" fn mixegorta_sum', 'pub extern "C" fn mixegorta_sum')}),
                ('one name do not compile in C\\+\\+: mixegorta_shelved', {'capi': capi.replace('mixegorta_clear', 'mixegorta_shelved')})):
            with self.subTest(words), self.assertRaisesRegex(exports.NotUnderstood, words):
                made_up(self.folder / f'case{len(list(self.folder.iterdir()))}', **changed)

    def test_two_structs_of_one_name(self):
        other = '#[repr(C)]\n#[derive(Drop)]\npub struct Shelved {\n    pub number: u64,\n}\n#[repr(C)]\n#[derive(Drop)]\npub struct Part {\n    pub from: Shelved,\n}\n'
        capi = CRATES['capi'].replace('use shelf::Shelf;', 'use shelf::Shelf;\nuse parts::Part;').replace('name: usize', 'name: Part')
        with self.assertRaisesRegex(exports.NotUnderstood, 'two structs Shelved'):
            made_up(self.folder, parts=other, capi=capi)


class Layouts(InFolder):
    """The same structs as C, Rust and ctypes have them, and one call of each shape through all three."""

    def setUp(self):
        super().setUp()
        self.functions, self.records = made_up(self.folder)
        declared = list(writers.c_declarations(self.functions, self.records))
        count = len(self.functions)
        self.header = '\n'.join(['#include <stdbool.h>', '#include <stddef.h>', '#include <stdint.h>', *declared[count:], *declared[:count]])

    def places(self, sized, placed):
        """Lines of a struct's size and of each field's place, in the language's own words."""
        for record in self.records:
            yield sized(record.name)
            for field, _ in record.fields:
                yield placed(record.name, field)

    def by_c(self):
        lines = self.places(lambda name: f'    printf("%zu\\n", sizeof(struct mixegorta_{exports.c_struct(name)}));',
                            lambda name, field: f'    printf("%zu\\n", offsetof(struct mixegorta_{exports.c_struct(name)}, {field}));')
        (self.folder / 'places.c').write_text('\n'.join([self.header, '#include <stdio.h>', 'int main(void) {', *lines, '}']))
        ran(CC, '-std=c11', '-Wall', '-Werror', '-o', self.folder / 'places', self.folder / 'places.c')
        return ran(self.folder / 'places')

    def by_rust(self, library):
        lines = self.places(lambda name: f'    println!("{{}}", std::mem::size_of::<raw::{name}>());',
                            lambda name, field: f'    println!("{{}}", std::mem::offset_of!(raw::{name}, {field}));')
        (self.folder / 'raw.rs').write_text(writers.rust_raw(self.functions, self.records))
        (self.folder / 'main.rs').write_text('\n'.join(['#[allow(dead_code)]', 'mod raw;', 'fn main() {', *lines, RUST_CALLS, '}']))
        ran('rustc', '--edition', '2021', '-D', 'warnings', '-o', self.folder / 'rust', '-C', f'link-arg={library}', self.folder / 'main.rs')
        *found, called = ran(self.folder / 'rust', env={'LD_LIBRARY_PATH': str(self.folder)}).splitlines()
        return '\n'.join(found) + '\n', called

    def package(self):
        """The written module of Python beside the types that it takes."""
        package = types.ModuleType('made_up')
        package.__path__ = [str(HERE.parent / 'python/mixegorta')]
        sys.modules['made_up'] = package
        self.addCleanup(lambda: [sys.modules.pop(name) for name in list(sys.modules) if name.split('.')[0] == 'made_up'])
        names = {'__name__': 'made_up._declarations', '__package__': 'made_up'}
        exec(writers.python_declarations(self.functions, self.records), names)
        return types.SimpleNamespace(**names)

    def by_ctypes(self, module):
        lines = self.places(lambda name: ctypes.sizeof(getattr(module, 'C' + name)), lambda name, field: getattr(getattr(module, 'C' + name), field).offset)
        return ''.join(f'{line}\n' for line in lines)

    @unittest.skipUnless(shutil.which(CC) and shutil.which('rustc'), 'a C compiler or rustc is not installed')
    def test_layouts_and_calls(self):
        library = self.folder / 'libmade_up.so'
        (self.folder / 'library.c').write_text(self.header + LIBRARY)
        ran(CC, '-std=c11', '-shared', '-fPIC', '-Wall', '-Werror', '-o', library, self.folder / 'library.c')
        wanted = self.by_c()
        self.assertEqual(len(wanted.splitlines()), 3 + 4 + 2 + 4)
        self.assertEqual(self.by_rust(library), (wanted, CALLED))
        module = self.package()
        self.assertEqual(self.by_ctypes(module), wanted)
        self.assertEqual(self.called_by_ctypes(ctypes.CDLL(str(library)), module), CALLED)

    def called_by_ctypes(self, library, module):
        def function(name):
            result, parameters = module.DECLARATIONS[name]
            found = getattr(library, 'mixegorta_' + name)
            found.restype, found.argtypes = result, []
            for kind in parameters.values():
                lent = isinstance(kind, (module.SliceOf, module.PointerTo))
                found.argtypes = [*found.argtypes, *([ctypes.c_void_p] if lent else [kind]), *([ctypes.c_size_t] if isinstance(kind, module.SliceOf) else [])]
            return found

        shelf = module.CShelf(last=2.0)
        shelf.slots[6].fitted = True
        memory, weights = (ctypes.c_uint64 * 3600)(), (ctypes.c_uint64 * 2)(1, 30)
        memory[3599] = 5
        total = function('sum')(ctypes.byref(memory), weights, 2, ctypes.byref(shelf))
        got = function('ask')(shelf, memory, 6, True)
        slot, first = got.shelf.slots[6], memory[0]
        function('clear')(memory, 3600)
        self.assertEqual(set(memory), {0})
        return f'{total} {first} {slot.greatest[15]} {got.dates[4671]} {got.moved} {str(got.open and slot.fitted).lower()}'


class Differences(unittest.TestCase):
    """The committed files with one thing changed."""

    def setUp(self):
        self.header = (declarations.ROOT / 'c/mixegorta.h').read_text()
        self.functions, self.records = exports.exported()
        self.refusals, self.limits = source_tables.refusals(), source_tables.limits()

    def changed(self, old, new):
        self.assertIn(old, self.header)
        return self.header.replace(old, new, 1)

    def test_declarations(self):
        wanted = list(writers.c_declarations(self.functions, self.records))
        for old, new in (('size_t row, int64_t node', 'size_t row, uint64_t node'), ('uint64_t probabilities[3]', 'uint64_t probabilities[2]'),
                         ('mixegorta_step_rate(', 'mixegorta_rate_of('), ('const uint8_t *dates', 'uint8_t *dates')):
            given = declarations.header_declarations(self.changed(old, new))
            self.assertEqual(len(list(declarations.different_declarations(wanted, given))), 2, new)
        named = declarations.header_declarations(self.changed('#define MIXEGORTA_ONE', '#define MIXEGORTA_BRANCHES 3\n#define MIXEGORTA_ONE').replace(
            'probabilities[3]', 'probabilities[MIXEGORTA_BRANCHES]'))
        self.assertEqual(list(declarations.different_declarations(wanted, named)), [])

    def test_limits(self):
        for old, new in (('#define MIXEGORTA_MAX_STEPS 60', '#define MIXEGORTA_MAX_STEPS 61'), ('#define MIXEGORTA_MAX_FLOW', '#define MIXEGORTA_FLOW'),
                         ('#define MIXEGORTA_ONE', '#define MIXEGORTA_MAX_OTHERS 40\n#define MIXEGORTA_ONE')):
            self.assertEqual(len(list(declarations.different_limits(self.limits, self.changed(old, new)))), 1, new)
        steps = next(limit for limit in self.limits if limit.name == 'MAX_STEPS')
        for place in ('limits/src/lib.rt const MOST_REVERSION: u64 = {};', 'limits/src/lib.rt const NO_SUCH: u64 = {};'):
            changed = [limit._replace(stands=[place]) if limit is steps else limit for limit in self.limits]
            self.assertEqual(len(list(declarations.different_limits(changed, self.header))), 1, place)

    def test_every_limit_stands_somewhere(self):
        for limit in self.limits:
            self.assertTrue(limit.stands, limit.name)
            self.assertTrue(all(place.count('{}') == 1 for place in limit.stands), limit.name)

    def test_causes(self):
        for old, new in (('   9  a node discount', '   9  node discount'), ('   9  a node discount', '      a node discount'),
                         ('  4  the reversion is above 6,000', '  4  the reversion is above 6,0001')):
            given = declarations.header_causes(self.changed(old, new))
            self.assertEqual(len(list(declarations.different_causes('header', self.refusals, given))), 1, new)

    def test_entries(self):
        for old, new in (('Refusals: 4 reversion, 6 row. */', 'Refusals: 4 reversion. */'), ('2 to 5 and 7 to 9 its fit', '2 to 5 and 8 to 9 its fit'),
                         ('Refusal: 9 the discount. */', 'Refusal: 8 the discount. */')):
            self.assertEqual(len(list(declarations.different_entries(self.refusals, self.functions, self.changed(old, new)))), 1, new)
        more = [self.refusals[0]._replace(entries=[*self.refusals[0].entries, 'no_such']), *self.refusals[1:]]
        self.assertEqual(len(list(declarations.different_entries(more, self.functions, self.header))), 1)

    def test_every_export_has_a_comment_that_is_compared(self):
        compared = re.findall(r'\*/\n(?:struct )?\w+ (mixegorta_\w+)\(', self.header)
        self.assertEqual(sorted(compared), sorted(function.name for function in self.functions))

    def test_written_files(self):
        files = declarations.written(self.functions, self.records, self.refusals, self.limits)
        self.assertEqual(list(declarations.stale(files, check=True)), [])
        other = declarations.written(self.functions[1:], self.records, self.refusals[:-1], self.limits[1:])
        self.assertEqual(len(list(declarations.stale(other, check=True))), len(files))


class Tables(unittest.TestCase):
    def test_broken_tables_say_so(self):
        for text in ('limit\n', '    value 3\n', 'limit A\n    value 3\n', 'limit A\n    value 3\n    type u64\n    says B\n    more C\n', 'limits A B\nlost\n'):
            with self.assertRaises(source_tables.Broken):
                source_tables.limits(text)
        fields = '    constant A\n    exception B\n    cause c {MAX_STEPS}\n    remedy d\n    entries e f\n'
        self.assertEqual(source_tables.refusals('refusal 1\n' + fields)[0], source_tables.Refusal(1, 'A', 'B', 'c 60', '', '', 'd', ['e', 'f']))
        for text in ('refusal 2\n' + fields, 'refusal 1\n' + fields + '    cause d\n', 'refusal 1\n' + fields.replace('remedy', 'advice')):
            with self.assertRaises(source_tables.Broken):
                source_tables.refusals(text)

    def test_names_stand_once(self):
        found = source_tables.refusals()
        for field in ('constant', 'exception', 'cause'):
            self.assertEqual(len({getattr(refusal, field) for refusal in found}), len(found), field)


if __name__ == '__main__':
    unittest.main()
