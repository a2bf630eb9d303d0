#!/usr/bin/env python3
"""Works out again what the programs that run cases are given and must print, by the script beside each, and compares it with the files that the gate uses.

    tools/test_cases.py

The scripts take their rules from reference/. They are run in a copy of their folders, so that nothing of the tree is written. Needs python3 alone.
"""
import pathlib
import shutil
import subprocess
import sys
import tempfile
import unittest

sys.dont_write_bytecode = True
ROOT = pathlib.Path(__file__).resolve().parent.parent
SCRIPTS = sorted((ROOT / 'crates').glob('*/vectors.py'))
FILES = ('stdin', 'stdout')
# Arguments of scripts that print what the program must print; the others write their files beside themselves.
PRINTING = {'exhibits': [], 'pricing_cases': [], 'quote_cases': ['stdout']}
# A script that also writes the files of other programs.
BESIDE = {'book_cases': ['book', 'report_cases']}


class Cases(unittest.TestCase):
    def folder(self):
        place = tempfile.TemporaryDirectory()
        self.addCleanup(place.cleanup)
        root = pathlib.Path(place.name)
        for script in SCRIPTS:
            (root / 'crates' / script.parent.name).mkdir(parents=True)
            shutil.copy(script, root / 'crates' / script.parent.name)
        for crate in sum(BESIDE.values(), []):
            (root / 'crates' / crate).mkdir()
        for name in ('reference', 'compare', 'examples', 'tools', 'python'):
            (root / name).symlink_to(ROOT / name)
        return root

    def test_every_script(self):
        self.assertGreaterEqual(len(SCRIPTS), 8)
        root = self.folder()
        for script in SCRIPTS:
            crate = script.parent.name
            with self.subTest(crate):
                made = subprocess.run([sys.executable, '-B', f'crates/{crate}/vectors.py', *(PRINTING.get(crate) or [])], cwd=root, capture_output=True)
                self.assertEqual((made.returncode, made.stderr), (0, b''))
                written = [f'{each}/{name}' for each in [crate, *BESIDE.get(crate, [])] for name in FILES if (root / 'crates' / each / name).exists()]
                for name in written:
                    self.assertEqual((root / 'crates' / name).read_bytes(), (ROOT / 'crates' / name).read_bytes(), name)
                if not written:
                    self.assertEqual(made.stdout, (script.parent / 'stdout').read_bytes())

    def test_the_tables_of_quotes(self):
        """What the script prints as tables stands in the program, whatever its layout."""
        made = subprocess.run([sys.executable, '-B', ROOT / 'crates/quote_cases/vectors.py', 'tables'], check=True, capture_output=True, text=True).stdout
        def words(text):
            return ''.join(text.split()).replace(',]', ']').replace(',)', ')')

        program = words((ROOT / 'crates/quote_cases/src/main.rt').read_text(encoding='utf-8'))
        for table in filter(str.strip, made.split('\n\n')):
            self.assertIn(words(table), program)


if __name__ == '__main__':
    unittest.main()
