#!/usr/bin/env python3
"""Compares the bytes that tools/job writes with those that the library writes: for every text of examples/, and for texts of every form.

Usage: tools/test_job_bytes.py, after tools/library has built the library

The library is handed the text's entries as a record, and not the bytes. tools/job itself needs python3 alone.
"""
import pathlib
import subprocess
import sys
import unittest

sys.dont_write_bytecode = True
ROOT = pathlib.Path(__file__).resolve().parent.parent
sys.path[:0] = [str(ROOT / 'python'), str(ROOT / 'tools')]
import usage
from mixegorta_command import texts

m = usage.library(__doc__)

EXAMPLES = sorted((ROOT / 'examples').glob('*.txt'))
HEAD = 'frequency 3\nreversion 65535\nvolatility 4294967295\n'
CURVE = 'discount nan\nrate -0.0\nyield -inf\nflow 0\nflow 4.294967295\nflow 0.000000001\n'
FORMS = [f'{HEAD}{version}{CURVE}{option}' for version in ('', 'version 1\n', 'version 2\n')
         for option in ('', 'option european call 255 4.294967295', 'option dated put 1.01', 'option dated call 0 255 0 7')]


def job_of(text):
    """The record that a text's entries say."""
    found, errors = texts.read(text)
    if errors:
        raise AssertionError(errors)
    single, option = found.single, None
    if 'option' in single:
        tag, _, *terms = single['option']
        option = {8: m.KindOption, 10: m.DatedOption}[tag](*terms)
    quotes = [m.JobQuote.of(*quote) for quote in found.quotes]
    return m.Job(single['frequency'], single['reversion'], single['volatility'], quotes, found.flows, option, single.get('version'))


class Test(unittest.TestCase):
    def test_same_bytes(self):
        for text in [*(path.read_text(encoding='utf-8') for path in EXAMPLES), *FORMS]:
            made = subprocess.run([ROOT / 'tools/job'], input=text.encode(), stdout=subprocess.PIPE, check=True).stdout
            self.assertEqual(job_of(text).to_bytes(), made, text)
            self.assertEqual(m.Job.read(made).to_bytes(), made, text)

    def test_there_are_texts(self):
        self.assertGreaterEqual(len(EXAMPLES), 8)
        self.assertEqual(len({job_of(text).to_bytes() for text in FORMS}), 12)


if __name__ == '__main__':
    unittest.main()
