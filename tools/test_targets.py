#!/usr/bin/env python3
"""Tests the module and the targets that are compiled from it: the same bytes twice, the exports and no import.

    tools/test_targets.py [-v]
"""
import contextlib
import importlib.machinery
import importlib.util
import io
import pathlib
import re
import subprocess
import sys
import tempfile
import unittest

sys.dont_write_bytecode = True
import building
import compiling
import exports
import wrapping

# The kinds of a WebAssembly import or export, and the sections that are read here.
IMPORTS, EXPORTS, FUNCTION, MEMORY, GLOBAL = 2, 7, 0, 2, 3


def number(data, place):
    """A number of WebAssembly, and the place behind it."""
    value = shift = 0
    while True:
        byte = data[place]
        value, shift, place = value | (byte & 127) << shift, shift + 7, place + 1
        if byte < 128:
            return value, place


def sections(data):
    """The sections of a WebAssembly file by their number."""
    place, found = 8, {}
    while place < len(data):
        kind, (size, start) = data[place], number(data, place + 1)
        found[kind] = data[start:start + size]
        place = start + size
    return found


def exported(data):
    """The names of the exports with their kinds."""
    content = sections(data)[EXPORTS]
    count, place = number(content, 0)
    found = {}
    for _ in range(count):
        size, place = number(content, place)
        name, kind = content[place:place + size].decode(), content[place + size]
        _, place = number(content, place + size + 1)
        found[name] = kind
    return found


class Targets(unittest.TestCase):
    @classmethod
    def setUpClass(cls):
        cls.logic = compiling.module()
        cls.text = compiling.assembly(compiling.MODULE)
        names = [name for name in compiling.BUILDERS if not compiling.lacking(name)]
        cls.made = {name: compiling.target(name, cls.text) for name in names}

    def test_the_module_is_that_of_the_archive(self):
        archive, module, logic = compiling.KEPT_FOR.read_text().split()
        self.assertEqual((archive, module), (compiling.digest(building.ARCHIVE), compiling.digest(compiling.MODULE)))
        said = (building.ROOT / 'target/archive.log').read_text(errors='replace')
        self.assertEqual(compiling.SUM.findall(said)[-1], logic)
        self.assertTrue(compiling.IDENTITY.search(self.text)[1].startswith(logic))
        self.assertNotIn('ptrtoint', self.text)
        self.assertNotIn('inttoptr', self.text)

    def test_a_module_of_another_archive_is_not_taken(self):
        kept = compiling.KEPT_FOR.read_text()
        taken = []
        saved = compiling.kept_module
        compiling.kept_module = lambda place: taken.append(place) or (compiling.MODULE, self.logic)
        copied, compiling.shutil.copyfile = compiling.shutil.copyfile, lambda *_: None
        try:
            compiling.KEPT_FOR.write_text(kept.replace(kept[:8], '00000000', 1))
            compiling.module()
        finally:
            compiling.kept_module, compiling.shutil.copyfile = saved, copied
            compiling.KEPT_FOR.write_text(kept)
        self.assertEqual(len(taken), 1)

    def test_two_runs_give_the_same_bytes(self):
        for name, paths in self.made.items():
            first = [path.read_bytes() for path in paths]
            with tempfile.TemporaryDirectory() as place:
                again = compiling.BUILDERS[name](self.text, pathlib.Path(place))
                self.assertEqual(first, [path.read_bytes() for path in again], name)

    def test_no_path_of_a_machine(self):
        for name, paths in self.made.items():
            for path in paths:
                for place in (building.ROOT, compiling.kit(), tempfile.gettempdir()):
                    self.assertNotIn(str(place).encode(), path.read_bytes(), name)

    def test_webassembly_exports_the_functions_and_imports_nothing(self):
        data = self.made['wasm32'][0].read_bytes()
        self.assertEqual(data[:4], b'\0asm')
        self.assertNotIn(IMPORTS, sections(data))
        wanted = {**dict.fromkeys(compiling.names(), FUNCTION), 'memory': MEMORY, '__heap_base': GLOBAL}
        self.assertEqual(exported(data), wanted)
        self.assertLess(len(data), 100_000)

    def test_what_is_not_in_a_module_is_an_error(self):
        with self.assertRaises(compiling.Failed):
            compiling.plain(self.text.replace('"target-cpu"="x86-64"', ''))

    def test_a_module_of_other_functions_is_not_wrapped(self):
        functions, records = exports.exported()
        changed = [self.text.replace(old, new, 1) for old, new in (
            ('i8 noundef %a1, i64 %a2, double %a3', 'i8 noundef %a1, double %a2, i64 %a3'),
            ('byval([9088 x i8])', 'byval([9096 x i8])'),
            ('@mixegorta_version()', '@mixegorta_versions()'),
            ('define noundef i64 @mixegorta_version', 'define noundef ptr @mixegorta_version'),
            ('\n  ret ', '\n  %own = call i64 @mixegorta_version()\n  ret '))]
        for text in changed:
            self.assertNotEqual(text, self.text)
            with self.assertRaises(compiling.Failed):
                wrapping.module_text(text, functions, records, 'hidden')
        text = wrapping.module_text(self.text, functions, records, 'hidden')
        self.assertNotIn('byval(', text)
        found = re.findall(r'^define hidden .*@mixegorta_module_(\w+)\(', text, re.M)
        self.assertEqual(len(set(found)), len(functions))

    def test_a_compiler_that_is_not_installed_is_named(self):
        saved, compiling.shutil.which = compiling.shutil.which, lambda name: None
        try:
            with self.assertRaisesRegex(compiling.Failed, 'there is no aarch64-linux-gnu-gcc'):
                compiling.target('linux-aarch64', self.text)
        finally:
            compiling.shutil.which = saved

    def test_what_is_not_installed_is_said_and_named_in_the_last_line(self):
        with tempfile.TemporaryDirectory() as place:
            for script, emulator in (('test_windows.py', 'wine'), ('test_arm.py', 'qemu-aarch64')):
                made = subprocess.run([sys.executable, '-B', building.ROOT / 'tools' / script], env={'PATH': place},
                                      capture_output=True, text=True)
                self.assertEqual((made.returncode, made.stderr), (2, ''))
                self.assertRegex(made.stdout, rf'\A\S+ is not tested, since .* and {emulator} are not installed\n\Z')
        loader = importlib.machinery.SourceFileLoader('check', str(building.ROOT / 'tools/check'))
        check = importlib.util.module_from_spec(importlib.util.spec_from_loader('check', loader))
        loader.exec_module(check)
        check.run = lambda name, command, may_lack: (0, 0, 1) if may_lack else (1, 0, 0)
        with contextlib.redirect_stdout(io.StringIO()) as out:
            self.assertEqual(check.main(['targets', 'windows', 'arm']), 0)
        self.assertEqual(out.getvalue(), '1 passed, 0 failed, 2 not run: windows, arm\n')

    def test_the_scripts_answer(self):
        for script in ('module', 'targets'):
            helped = subprocess.run([building.ROOT / 'tools' / script, '--help'], capture_output=True, text=True)
            self.assertEqual((helped.returncode, helped.stderr), (0, ''))
            self.assertIn('proved', helped.stdout)
        wrong = subprocess.run([building.ROOT / 'tools/targets', 'vax'], capture_output=True, text=True)
        self.assertEqual((wrong.returncode, wrong.stdout), (2, ''))
        self.assertIn("'vax' is none of wasm32, windows-x86_64, linux-aarch64", wrong.stderr)


if __name__ == '__main__':
    unittest.main()
