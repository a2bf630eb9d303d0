#!/usr/bin/env python3
"""Tests mixegorta.dll under wine: the tests in C, the C examples of the documents, jobs, the stack and the exports.

    tools/test_windows.py [-v]

Needs the Rattle kit, MinGW's gcc and wine; without one of the last two it says so, with exit status 2. Wine is not
Windows: docs/TRUST.md says what was never run.
"""
import os
import re
import subprocess
import sys
import unittest

sys.dont_write_bytecode = True
import compiling
import target_tests
import windows

OBJDUMP = 'x86_64-w64-mingw32-objdump'
PREFIX = compiling.ROOT / 'target/wine'


class Windows(target_tests.OnTarget, unittest.TestCase):
    target, emulator, suffix = 'windows-x86_64', ('wine',), '.exe'
    settings = {**{name: value for name, value in os.environ.items() if name != 'DISPLAY'}, 'WINEPREFIX': str(PREFIX),
                'WINEDEBUG': '-all', 'WINEDLLOVERRIDES': 'mscoree,mshtml=;winemenubuilder.exe=d'}

    @classmethod
    def prepare(cls):
        """The DLL stands beside the programs, where Windows looks for it."""
        cls.libraries = [cls.made[windows.IMPORTS]]
        (cls.folder / windows.DLL).write_bytes(cls.made[windows.DLL].read_bytes())

    def loadable(self):
        return 'Z:' + str(self.folder / windows.DLL).replace('/', '\\')

    def dumped(self, *words):
        command = [OBJDUMP, *words, self.made[windows.DLL]]
        return subprocess.run(command, check=True, capture_output=True, text=True).stdout

    def test_exports_and_imports(self):
        text = self.dumped('-p')
        imports, exported = text.partition('The Import Tables')[2].split('The Export Tables')
        self.assertEqual(re.findall(r'DLL Name: (\S+)', imports), ['msvcrt.dll'])
        self.assertLessEqual(set(re.findall(r'^\t\w+\t +\d+  (\w+)', imports, re.M)), {'memcpy', 'memmove', 'memset'})
        names = re.findall(r'\[ *\d+\] (?:\+base\[ *\d+\]  \w+ )?(mixegorta_\w+)', exported)
        self.assertEqual(sorted(names), sorted(compiling.names()))
        for word in ('DYNAMIC_BASE', 'NX_COMPAT', 'HIGH_ENTROPY_VA'):
            self.assertIn(word, text)

    def test_no_page_of_the_stack_is_left_out(self):
        """A frame of a page or more is taken after a call that touches its pages; a smaller one by a number."""
        code = self.dumped('-d')
        for size in re.findall(r'\bsub +\$0x([0-9a-f]+),%rsp', code):
            self.assertLess(int(size, 16), 4096)
        lines = code.splitlines()
        taken = [place for place, line in enumerate(lines) if re.search(r'\bsub +%\w+,%rsp', line)]
        self.assertGreater(len(taken), 10)
        for place in taken:
            self.assertRegex(lines[place], r'\bsub +%rax,%rsp')
            self.assertRegex(lines[place - 1], r'\bcall\b')

    def test_the_list_of_exports(self):
        lines = self.made[windows.DEFINITIONS].read_text().splitlines()
        self.assertEqual(lines[:2], ['LIBRARY mixegorta.dll', 'EXPORTS'])
        self.assertEqual([line.strip() for line in lines[2:]], compiling.names())


if __name__ == '__main__':
    target_tests.run('windows-x86_64', (compiling.COMPILERS['windows-x86_64'], OBJDUMP, 'wine'))
