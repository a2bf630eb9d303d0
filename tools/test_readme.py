#!/usr/bin/env python3
"""Runs every command of README.md, block after block, in a folder that holds links to the clone's files, a wheel and the examples' texts.

    tools/test_readme.py

What the gate, tools/check and tools/release do is left to them: the first is run on its own, the second runs this, and tools/test_release.py
runs the third. Lines that README shows as printed must be printed. Needs the archive and the sheet program, as tools/price makes them.
"""
import os
import pathlib
import re
import subprocess
import sys
import tempfile
import unittest

sys.dont_write_bytecode = True
ROOT = pathlib.Path(__file__).resolve().parent.parent
LEFT_OUT = ('.ci/run', 'tools/check', 'tools/release')
PRINTED = ('bond ', 'option ')


def blocks(text):
    """The indented blocks, each a list of lines without comments; examples between fences are run by tools/library."""
    plain = re.sub(r'^```.*?^```$', '', text, flags=re.M | re.S)
    found = re.findall(r'(?:^    \S.*\n?)+', plain, re.M)
    return [[re.split(r'\s{2,}# ', line)[0].strip() if not line.strip().startswith(PRINTED) else line.strip() for line in block.splitlines()] for block in found]


def example(language, text):
    return re.search(rf'^```{language}\n(.*?)^```$', text, re.M | re.S)[1]


class Readme(unittest.TestCase):
    def folder(self):
        place = tempfile.TemporaryDirectory()
        self.addCleanup(place.cleanup)
        folder = pathlib.Path(place.name).resolve()
        work = folder / 'work'
        work.mkdir()
        for path in ROOT.iterdir():
            if path.name not in ('dist', '.git'):
                (work / path.name).symlink_to(path)
        (work / 'coupon-put.txt').write_bytes((ROOT / 'examples/coupon-put.txt').read_bytes())
        (work / 'example.c').write_text(example('c', self.text), encoding='utf-8')
        subprocess.run([sys.executable, '-m', 'venv', folder / 'environment'], check=True)
        return folder, work

    def setUp(self):
        self.text = (ROOT / 'README.md').read_text(encoding='utf-8')

    def test_every_command(self):
        folder, work = self.folder()
        settings = {**os.environ, 'HOME': str(folder), 'PIP_NO_INDEX': '1', 'PATH': f'{folder}/environment/bin:{os.environ["PATH"]}'}
        wheel = 'import sys; sys.path.insert(0, "python"); import backend; print(backend.build_wheel("."))'
        subprocess.run([sys.executable, '-B', '-c', wheel], cwd=work, check=True, stdout=subprocess.DEVNULL)
        ran, printed = [], []
        for block in blocks(self.text):
            if all(line.startswith(PRINTED) for line in block):
                self.assertEqual(printed[-len(block):], block)
                continue
            script = '\n'.join(line for line in block if not line.startswith(LEFT_OUT))
            made = subprocess.run(['bash', '-e', '-o', 'pipefail'], input=script, cwd=work, env=settings, capture_output=True, text=True)
            self.assertEqual(made.returncode, 0, f'{script}\n{made.stdout}{made.stderr}')
            ran += script.splitlines()
            printed += [line for line in made.stdout.splitlines() if line.startswith(PRINTED)]
        self.assertGreaterEqual(len(ran), 10)
        self.assertTrue((work / 'tree.svg').read_text().startswith('<svg'))
        self.assertTrue((work / 'tree.html').read_text().startswith('<!DOCTYPE html>'))

    def test_every_script_that_is_left_out_is_there(self):
        for name in LEFT_OUT:
            self.assertTrue(os.access(ROOT / name, os.X_OK), name)
            self.assertIn(f'    {name} ', self.text)


if __name__ == '__main__':
    unittest.main()
