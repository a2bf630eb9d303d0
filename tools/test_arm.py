#!/usr/bin/env python3
"""Tests libmixegorta for 64-bit ARM under qemu: the tests in C, the C examples of the documents, jobs and the stack.

    tools/test_arm.py [-v]

Needs the Rattle kit, gcc for aarch64 with its C library, and qemu's user emulation; without one of the last two it says
so, with exit status 2.
"""
import os
import re
import subprocess
import sys
import unittest

sys.dont_write_bytecode = True
import arm
import compiling
import target_tests

EMULATOR, PREFIX = 'qemu-aarch64', '/usr/aarch64-linux-gnu'
TOOLS = 'aarch64-linux-gnu-'


class Arm(target_tests.OnTarget, unittest.TestCase):
    target, emulator, suffix, settings = 'linux-aarch64', (EMULATOR, '-L', PREFIX), '', dict(os.environ)

    @classmethod
    def prepare(cls):
        cls.libraries = [cls.made[arm.ARCHIVE], '-lm', '-lpthread']

    def loadable(self):
        return self.made[arm.SHARED]

    def shown(self, tool, *words):
        return subprocess.run([TOOLS + tool, *words], check=True, capture_output=True, text=True).stdout

    def test_the_shared_object(self):
        listed = self.shown('nm', '-D', self.made[arm.SHARED]).split('\n')
        defined = [line.split()[-1] for line in listed if ' T ' in line]
        self.assertEqual(sorted(defined), sorted(compiling.names()))
        needed = {line.split()[-1].partition('@')[0] for line in listed if ' U ' in line}
        self.assertLessEqual(needed, {'memcpy', 'memmove', 'memset'})
        described = self.shown('readelf', '-h', '-d', self.made[arm.SHARED])
        self.assertIn('AArch64', described)
        self.assertIn(f'[{arm.loader_name()}]', described)
        self.assertEqual(re.findall(r'\(NEEDED\).*\[(.*)\]', described), ['libc.so.6'])

    def test_no_page_of_the_stack_is_left_out(self):
        """A frame is taken a page at a time, each page being touched before the next."""
        code = self.shown('objdump', '-d', self.made[arm.SHARED])
        pages = re.findall(r'\bsub\tsp, sp, #0x([0-9a-f]+), lsl #12', code)
        self.assertGreater(len(pages), 20)
        self.assertEqual(set(pages), {'1'})
        self.assertNotRegex(code, r'\bsub\tsp, sp, x')

    def test_both_libraries_are_linked_alike(self):
        """The example of README.md with the shared object in place of the archive."""
        source = self.folder / 'example.c'
        source.write_text(target_tests.readme_example(), encoding='utf-8')
        (self.folder / arm.loader_name()).write_bytes(self.made[arm.SHARED].read_bytes())
        program = self.program(source, self.folder / arm.loader_name(), f'-Wl,-rpath,{self.folder}')
        self.assertEqual(self.printed(program), target_tests.README_PRICE)


if __name__ == '__main__':
    target_tests.run('linux-aarch64', (compiling.COMPILERS['linux-aarch64'], EMULATOR))
