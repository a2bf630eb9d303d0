#!/usr/bin/env python3
"""Tests that C, Rust, Python and tools/price say the same of each refusal. Needs a C compiler, cargo and the library, as tools/library builds it.

Usage: tools/test_words.py, at the root"""
import os
import pathlib
import shutil
import subprocess
import sys
import tempfile
import unittest

sys.dont_write_bytecode = True
ROOT = pathlib.Path(__file__).resolve().parent.parent
sys.path[:0] = [str(ROOT / 'python'), str(ROOT / 'tools')]
import source_tables
import usage

mixegorta = usage.library(__doc__)

WANTED = [f'refused {refusal.number}: {refusal.cause}' for refusal in source_tables.refusals()]


class Words(unittest.TestCase):
    def test_rust(self):
        run = ['cargo', 'run', '--quiet', '--offline', '--manifest-path', ROOT / 'rust/Cargo.toml', '--example', 'refusals']
        self.assertEqual(subprocess.run(run, check=True, stdout=subprocess.PIPE, text=True).stdout.splitlines(), WANTED)

    def test_c(self):
        """The same words by mixegorta_cause, as C and as C++; numbers that are no refusal have words of their own."""
        compilers = [['cc', '-std=c11', '-x', 'c'], *([['g++', '-std=c++11', '-x', 'c++']] if shutil.which('g++') else [])]
        for compiler in compilers:
            with tempfile.TemporaryDirectory() as folder:
                command = [*compiler, '-Wall', '-Wextra', '-Wpedantic', '-Werror', '-I', ROOT / 'c', '-o', f'{folder}/causes', ROOT / 'c/causes.c', '-x', 'none',
                           ROOT / 'target/libmixegorta.a']
                subprocess.run(command, check=True)
                printed = subprocess.run([f'{folder}/causes'], check=True, stdout=subprocess.PIPE, text=True).stdout.splitlines()
            self.assertEqual(printed[1:-1], WANTED)
            self.assertEqual((printed[0], printed[-1]), ('not refused', 'not a refusal of this version'))

    def test_python(self):
        self.assertEqual([str(mixegorta.refusals.CLASSES[number](number)) for number in mixegorta.CAUSES], WANTED)

    def test_price(self):
        for refusal, words in zip(source_tables.refusals(), WANTED):
            with tempfile.TemporaryDirectory() as folder:
                program = pathlib.Path(folder) / 'program'
                program.write_text(f'#!/bin/sh\ncat >/dev/null\necho refused {refusal.number}\n')
                program.chmod(0o755)
                made = subprocess.run([ROOT / 'tools/price', ROOT / 'examples/coupon-put.txt'], stdout=subprocess.PIPE, stderr=subprocess.PIPE, text=True,
                                      env={**os.environ, 'MIXEGORTA_SHEET': str(program)})
            self.assertEqual(made.stderr, f'{words}. What to do: {refusal.remedy}.\n')


if __name__ == '__main__':
    unittest.main()
