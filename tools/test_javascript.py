#!/usr/bin/env python3
"""Tests javascript/ by node's own runner, with the module that tools/targets compiles: the examples' sheets, hostile
arguments, 3,000 jobs of compare/jobs against the reference, and a memory that stays as it is; its types by tsc.

    tools/test_javascript.py

Without node nothing is tested: it says so, with exit status 2. Without tsc the types are not checked, and it says so.
"""
import importlib.machinery
import importlib.util
import json
import os
import re
import shutil
import subprocess
import sys

sys.dont_write_bytecode = True
import compiling
import usage

ROOT = compiling.ROOT
FOLDER = ROOT / 'target/javascript'
COUNT, SEED = 3_000, 520_000
PRICE = '1002500000 at most 2 from exact'
BOOK = ('coupon-put', 'callable-note', 'refused')
TYPES = ('--noEmit', '--strict', '--target', 'es2022', '--module', 'es2022', '--moduleResolution', 'node', '--lib',
         'es2022,dom')


def module_of(path):
    """A script without a suffix, as a module."""
    loader = importlib.machinery.SourceFileLoader(path.name, str(path))
    found = importlib.util.module_from_spec(importlib.util.spec_from_loader(path.name, loader))
    loader.exec_module(found)
    return found


def write_jobs():
    """A line for each job of compare's generator: its bytes, and its sheet by the reference."""
    jobs = module_of(ROOT / 'compare/jobs')
    with open(FOLDER / 'jobs.txt', 'w', encoding='utf-8') as out:
        for _, job, _ in jobs.cases(COUNT, SEED):
            out.write(json.dumps([job.hex(), jobs.reference.sheet(job).decode()]) + '\n')


def write_examples():
    """The jobs of the examples, as tools/job writes them, and the report of a book of some."""
    (FOLDER / 'examples').mkdir(parents=True, exist_ok=True)
    for path in sorted((ROOT / 'examples').glob('*.txt')):
        if path.with_suffix('.sheet').is_file():
            made = subprocess.run([ROOT / 'tools/job', path], check=True, capture_output=True).stdout
            (FOLDER / 'examples' / f'{path.stem}.job').write_bytes(made)
    sys.path.insert(0, str(ROOT / 'reference'))
    import book
    jobs = [(FOLDER / 'examples' / f'{name}.job').read_bytes() for name in BOOK]
    (FOLDER / 'book.report').write_bytes(book.text(b''.join(map(book.framed, jobs))))


def examples_print(files):
    """Whether the examples of the documents print what they say, with the package as a program finds it."""
    package = FOLDER / 'used/node_modules/mixegorta'
    shutil.rmtree(FOLDER / 'used', ignore_errors=True)
    package.mkdir(parents=True)
    for path in [*(ROOT / 'javascript').glob('*.js'), ROOT / 'javascript/package.json', *files]:
        shutil.copyfile(path, package / path.name)
    for document in ('README.md', 'javascript/README.md'):
        text = (ROOT / document).read_text(encoding='utf-8')
        (FOLDER / 'used/example.mjs').write_text(re.search(r'^```js\n(.*?)^```$', text, re.M | re.S)[1], encoding='utf-8')
        made = subprocess.run(['node', 'example.mjs'], cwd=FOLDER / 'used', capture_output=True, text=True)
        if not made.stdout.startswith(PRICE):
            print(f'{document}: its example prints {made.stdout}{made.stderr}')
            return False
    return True


def types():
    """Whether the types are right; None where there is no compiler for them."""
    if not shutil.which('tsc'):
        print('not checked: the types, since tsc is not installed')
        return None
    return subprocess.run(['tsc', *TYPES, 'javascript/tests/typed_use.ts'], cwd=ROOT).returncode == 0


def main(arguments):
    usage.answer(__doc__, arguments)
    if not shutil.which('node'):
        print('not tested: node is not installed')
        return 2
    try:
        files = compiling.targets(['wasm32'])['wasm32']
    except compiling.Failed as why:
        print(why)
        return 1
    write_examples()
    write_jobs()
    tests = sorted(map(str, (ROOT / 'javascript/tests').glob('*.test.js')))
    settings = {**os.environ, 'MIXEGORTA_WASM': str(files[0])}
    status = subprocess.run(['node', '--test', *tests], cwd=ROOT, env=settings).returncode
    return 1 if status or not examples_print(files) or types() is False else 0


if __name__ == '__main__':
    sys.exit(main(sys.argv[1:]))
