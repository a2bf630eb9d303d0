#!/usr/bin/env python3
"""Tests of the command mixegorta as people type it: its parts, their forms, what is refused or wrong, and that everything answers --help.

    tools/test_command.py

Sheets are worked out by reference/reference.py in place of the proved program. Needs python3 alone.
"""
import csv
import io
import json
import os
import pathlib
import subprocess
import sys
import tempfile
import unittest
from fractions import Fraction

sys.dont_write_bytecode = True
ROOT = pathlib.Path(__file__).resolve().parent.parent
sys.path[:0] = [str(ROOT / 'reference'), str(ROOT / 'python'), str(ROOT / 'tools')]
import building
import reference
import source_tables
from mixegorta_command import command, exact, examples, kinds, pages, streams

EXAMPLES = sorted((ROOT / 'examples').glob('*.txt'))
COUPON = ROOT / 'examples/coupon-put.txt'
PRICES = [('bond', '1.025255843', '24'), ('option', '0.009597675', '24')]
QUICK_SECONDS = 60


def mixegorta(*arguments, given=b'', program=None):
    settings = {**os.environ, 'PYTHONPATH': str(ROOT / 'python'), **({'MIXEGORTA_SHEET': str(program)} if program else {})}
    return subprocess.run([sys.executable, '-B', '-m', 'mixegorta_command', *map(str, arguments)], input=given, env=settings, capture_output=True)


def rows_of(made):
    return list(csv.reader(io.StringIO(made.stdout.decode())))


class Command(unittest.TestCase):
    @classmethod
    def setUpClass(cls):
        cls.place = tempfile.TemporaryDirectory()
        cls.program = pathlib.Path(cls.place.name) / 'program'
        cls.program.write_text(f'#!/bin/sh\nexec "{sys.executable}" -B "{ROOT}/reference/reference.py"\n')
        cls.program.chmod(0o755)
        cls.addClassCleanup(cls.place.cleanup)

    def run_part(self, *arguments, given=b''):
        return mixegorta(*arguments, given=given, program=self.program)

    def shown(self, *arguments, given=b''):
        made = self.run_part(*arguments, given=given)
        self.assertEqual((made.returncode, made.stderr), (0, b''))
        return made

    def test_prices_first(self):
        wanted = ''.join(f'{name:6}  {price}   exact on this tree to {bound} billionths\n' for name, price, bound in PRICES)
        job = self.shown('job', COUPON).stdout
        for arguments, given in (((COUPON,), b''), ((), COUPON.read_bytes()), (('-',), job)):
            self.assertEqual(self.shown('price', *arguments, given=given).stdout.decode(), wanted)
        self.assertEqual(self.shown('price', COUPON, '--tree').stdout, COUPON.with_suffix('.sheet').read_bytes())

    def test_prices_in_other_forms(self):
        found = json.loads(self.shown('price', '--json', COUPON).stdout)
        self.assertEqual([(name, told['price'], str(told['error_bound_in_billionths'])) for name, told in found.items()], PRICES)
        self.assertEqual(list(map(tuple, rows_of(self.shown('price', '--csv', COUPON))[1:])), PRICES)

    def test_trees_in_other_forms(self):
        lines = [line.split() for line in COUPON.with_suffix('.sheet').read_text().splitlines()]
        nodes = [line[1:] for line in lines if line[0] == 'node']
        self.assertEqual(rows_of(self.shown('price', '--csv', '--tree', COUPON))[1:], nodes)
        told = json.loads(self.shown('price', '--json', '--tree', COUPON).stdout)
        self.assertEqual([[str(value) for value in node.values()] for node in told['nodes']], nodes)
        self.assertEqual([[str(value) for value in row.values()] for row in told['rows']], [line[1:] for line in lines if line[0] == 'row'])

    def test_a_refusal_in_every_form(self):
        path, words = ROOT / 'examples/refused.txt', source_tables.refusals()[8]
        for form, read in ((None, lambda made: made.stdout.decode()), ('--json', lambda made: json.loads(made.stdout)), ('--csv', rows_of)):
            made = self.run_part('price', path, *([form] if form else []))
            wanted = {None: 'refused 9\n', '--json': {'refused': 9, 'cause': words.cause, 'remedy': words.remedy},
                      '--csv': [['refused', 'cause', 'remedy'], ['9', words.cause, words.remedy]]}[form]
            self.assertEqual((made.returncode, read(made)), (1, wanted))
            self.assertEqual(made.stderr.decode(), f'refused 9: {words.cause}. What to do: {words.remedy}.\n')
            self.assertEqual(self.run_part('check', path).returncode, 1)

    def test_jobs_as_data(self):
        for path in EXAMPLES:
            job = self.shown('job', path).stdout
            read = reference.read(job)
            for given in (path.read_bytes(), job):
                told = json.loads(self.shown('job', '--json', given=given).stdout)
                self.assertEqual((told['frequency'], told['steps'], told['reversion'], told['volatility'], told['version']), read[:5])
                self.assertEqual([reference.pattern_of(quote['figure']) for quote in told['quotes']], [pattern for _, pattern in read.quotes])
                self.assertEqual(told['flows'], [reference.amount(flow) for flow in read.flows])
                self.assertEqual(told['option'] is None, read.option is None)
            self.assertEqual(len(rows_of(self.shown('job', '--csv', path))), read.n + 1)
        self.assertEqual(self.run_part('job', '--json', given=job[:-1]).returncode, 1)

    def test_draws_a_job_a_text_and_a_sheet(self):
        sheet, picture = COUPON.with_suffix('.sheet').read_bytes(), (ROOT / 'docs/pictures/coupon-put.svg').read_bytes()
        job = self.shown('job', COUPON).stdout
        for arguments, given in (((COUPON,), b''), ((), COUPON.read_bytes()), ((), job), (('--job', COUPON), sheet)):
            self.assertEqual(self.shown('draw', *arguments, given=given).stdout, picture)
        self.assertNotEqual(self.shown('draw', given=sheet).stdout, picture)
        nodes = json.loads(self.shown('draw', '--json', COUPON).stdout)['nodes']
        self.assertEqual(len(nodes), sheet.count(b'node'))
        self.assertEqual(nodes[0]['state_price'], '1.000000000')
        self.assertEqual(len(rows_of(self.shown('draw', '--csv', given=sheet))), len(nodes) + 1)

    def test_exact_prices(self):
        """The exact bond of one step by hand, and for every example that the difference is what the two prices say."""
        today = json.loads(self.shown('check', '--json', ROOT / 'examples/one-step-today.txt').stdout)
        self.assertEqual((today['bond']['exact_price'], today['bond']['difference_in_billionths']), ('1.002500000000000', '0.000000'))
        for path in EXAMPLES:
            made = self.run_part('check', '--csv', path)
            if path.with_suffix('.sheet').read_bytes().startswith(b'refused'):
                self.assertEqual(made.returncode, 1)
                continue
            self.assertEqual((made.returncode, made.stderr), (0, b''), path.name)
            for _, price, exact_price, difference, share, bound in rows_of(made)[1:]:
                wanted = (Fraction(price) - Fraction(exact_price)) * 10 ** 9
                self.assertLessEqual(abs(Fraction(difference) - wanted), Fraction(2, 10 ** 6))
                self.assertLessEqual(abs(Fraction(share) - abs(wanted) * 100 / int(bound)), Fraction(1, 100))
                self.assertLessEqual(abs(wanted), int(bound))

    def test_a_wrong_engine_is_told(self):
        """A sheet with one billionth more, and one with a price far out."""
        sheet = (ROOT / 'examples/one-step-today.sheet').read_text()
        for wrong in (sheet.replace('bond 1.002500000', 'bond 1.002500001'), sheet.replace('option 0.0075', 'option 0.0076')):
            program = pathlib.Path(self.place.name) / 'wrong'
            program.write_text(f"#!/bin/sh\ncat >/dev/null\nprintf '%s' '{wrong}'\n")
            program.chmod(0o755)
            made = mixegorta('check', ROOT / 'examples/one-step-today.txt', program=program)
            self.assertEqual((made.returncode, made.stderr.count(b'please report it')), (3, 1))

    def test_decimals(self):
        for number, places, text in ((Fraction(1, 3), 3, '0.333'), (Fraction(-2, 3), 2, '-0.67'), (Fraction(-1, 1000), 2, '0.00'), (Fraction(5, 2), 1, '2.5'), (12, 2, '12.00')):
            self.assertEqual(exact.decimal(number, places), text)

    def test_what_is_wrong_is_one_sentence(self):
        for arguments in ((), ('prices',), ('price', 'a', 'b'), ('price', '--xml'), ('price', 'no-such-file'), ('draw', COUPON, '--job', COUPON), ('draw', '--job'),
                          ('check', 'no-such-file'), ('job', 'no-such-file'), ('book', 'no-such-file')):
            made = self.run_part(*arguments)
            self.assertIn(made.returncode, (1, 2), arguments)
            self.assertEqual((made.stdout, made.stderr.count(b'\n')), (b'', 1), made.stderr)
            self.assertNotIn(b'Traceback', made.stderr)


class Kinds(unittest.TestCase):
    """A file that is handed to a part which takes another kind; tools/test_books.py has `mixegorta books`, which needs
    the library."""

    BOOK, TEXT, SHEET = ROOT / 'examples/desk.book', COUPON, COUPON.with_suffix('.sheet')
    CURVES, JOB = ROOT / 'examples/notes/curves.csv', ROOT / 'examples/one-step-today.job'

    def test_what_a_file_is(self):
        given = {
            self.BOOK: kinds.BOOK, self.TEXT: kinds.TEXT, self.SHEET: kinds.SHEET, self.CURVES: kinds.CURVES,
            self.JOB: kinds.JOB, ROOT / 'examples/desk.report': kinds.REPORT,
            ROOT / 'docs/pictures/coupon-put.svg': kinds.PICTURE, ROOT / 'LICENSE': kinds.PLAIN,
            ROOT / 'examples/refused.sheet': kinds.SHEET}
        self.assertEqual({path: kinds.kind_of(path.read_bytes()) for path in given}, given)
        for path in EXAMPLES:
            self.assertEqual(kinds.kind_of(path.read_bytes()), kinds.TEXT, path.name)
        for content in (b'', b'\0', b'\xff\xfef\0', bytes(range(200, 255)), b'f\0\0'):
            self.assertIsNone(kinds.kind_of(content), content)
        self.assertEqual(kinds.kind_of(b'{"books": 1, "fields": 1, "priced": 0}'), kinds.PART)
        self.assertEqual(kinds.kind_of(b'\xef\xbb\xbfScenario;Frequency;Kind;1\n'), kinds.CURVES)

    def test_each_part_says_what_it_was_handed(self):
        for arguments, what, takes in ((('books', '--join', self.BOOK), 'a book of jobs',
                                        'mixegorta books'), (('book', self.BOOK), 'a book of jobs', 'mixegorta books'),
                                       (('book', self.TEXT, self.SHEET), 'a sheet',
                                        'mixegorta draw'), (('price', self.BOOK), 'a book of jobs', 'mixegorta books'),
                                       (('price', self.SHEET), 'a sheet', 'mixegorta draw'),
                                       (('price', self.CURVES), 'a table of curves', 'mixegorta scenarios'),
                                       (('check', self.BOOK), 'a book of jobs',
                                        'mixegorta books'), (('draw', self.BOOK), 'a book of jobs', 'mixegorta books'),
                                       (('draw', '--job', self.BOOK), 'a book of jobs',
                                        'mixegorta books'), (('scenarios', self.TEXT, '--curves', self.CURVES),
                                                             'the text of a job', 'mixegorta price'),
                                       (('scenarios', self.CURVES, '--curves', self.BOOK), 'a table of curves',
                                        'mixegorta scenarios'), (('scenarios', self.BOOK, '--curves', self.TEXT),
                                                                 'the text of a job', 'mixegorta price')):
            made = mixegorta(*arguments, given=self.SHEET.read_bytes())
            self.assertEqual((made.returncode, made.stdout, made.stderr.count(b'\n')), (2, b'', 1),
                             (arguments, made.stderr))
            self.assertIn(f': this is {what}', made.stderr.decode(), arguments)
            self.assertIn(takes, made.stderr.decode(), arguments)
        for arguments, content, what in ((('book', ), self.TEXT, 'the text of a job'), (('book', ), self.JOB, 'a job'),
                                         (('draw', ), self.BOOK, 'a book of jobs')):
            made = mixegorta(*arguments, given=content.read_bytes())
            self.assertEqual((made.returncode, made.stdout), (2, b''), arguments)
            self.assertIn(f'standard input: no {"sheet" if arguments == ("draw",) else "book"}: this is {what}',
                          made.stderr.decode())
        made = mixegorta('job', self.BOOK)
        self.assertEqual((made.returncode, made.stdout, b'a book of jobs' in made.stderr), (1, b'', True))


class Carried(unittest.TestCase):
    """The examples that the command carries."""

    def test_a_first_result(self):
        """README's first lines: print an example, price it."""
        self.assertEqual(mixegorta('example', 'coupon-put').stdout, COUPON.read_bytes())
        self.assertEqual(mixegorta('example', 'coupon-put.txt').stdout, COUPON.read_bytes())
        made = mixegorta('example', 'nothing')
        self.assertEqual((made.returncode, made.stdout, made.stderr.count(b'\n')), (2, b'', 1))

    def test_the_list_names_each_once(self):
        listed = [line.split()[0] for line in mixegorta('example').stdout.decode().splitlines()]
        self.assertEqual(listed, list(examples.files()))
        self.assertLess({'coupon-put', 'desk.book', 'desk-curves.csv', 'notes.book', 'curves.csv'}, set(listed))
        self.assertEqual([row['example'] for row in json.loads(mixegorta('example', '--json').stdout)], listed)
        self.assertEqual([row[0] for row in rows_of(mixegorta('example', '--csv'))[1:]], listed)
        for name in listed:
            self.assertEqual(mixegorta('example', name).stdout, examples.files()[name].read_bytes(), name)


class Faults(unittest.TestCase):
    def test_an_exception_that_nobody_expected(self):
        """It has a status of its own, and a sentence; the traceback is shown to who asks for it."""
        code = 'import sys; from mixegorta_command import answers, command; answers.answer = lambda *given: 1 / 0; sys.exit(command.main(["price", sys.argv[1]]))'
        cancelled = 'import asyncio, sys; from mixegorta_command import streams\ndef main(): raise asyncio.CancelledError\nsys.exit(streams.run(main, 2))'
        made = subprocess.run([sys.executable, '-B', '-c', cancelled],
                              env={**os.environ, 'PYTHONPATH': str(ROOT / 'python')},
                              capture_output=True)
        self.assertEqual((made.returncode, made.stderr.count(b'\n')), (streams.FAULT, 1))
        for more, traces in (({}, 0), ({'MIXEGORTA_TRACEBACK': '1'}, 1)):
            settings = {**os.environ, 'PYTHONPATH': str(ROOT / 'python'), **more}
            made = subprocess.run([sys.executable, '-B', '-c', code, COUPON],
                                  env=settings,
                                  capture_output=True,
                                  text=True)
            self.assertEqual((made.returncode, made.stdout, made.stderr.count('Traceback')),
                             (streams.FAULT, '', traces))
            self.assertIn('this is a fault of the command itself (ZeroDivisionError: division by zero)',
                          made.stderr.splitlines()[-1])
        self.assertNotIn(streams.FAULT, (0, 1, 2, 3, streams.INTERRUPTED))


class Odd(unittest.TestCase):
    def test_a_volatility_in_basis_points(self):
        """80 for 80 basis points; 8000 are meant, and 800, 8 basis points, may be."""
        text = COUPON.read_text()
        for volatility, warned in (('80', True), ('1', True), ('500', True), ('501', False), ('0', False), ('8000',
                                                                                                            False)):
            made = mixegorta('job', given=text.replace('volatility 8000', f'volatility {volatility}').encode())
            self.assertEqual((made.returncode, b'warning: volatility' in made.stderr), (0, warned), volatility)
        self.assertIn(b'standard input:6: warning: volatility 80 is 0.008 % a year; it is in millionths',
                      mixegorta('job', given=text.replace('volatility 8000', 'volatility 80').encode()).stderr)


class Books(unittest.TestCase):
    REPORT = ('priced 2\n' + ''.join(f'refused {number} {int(number == 9)}\n' for number in range(1, 14))
              + 'bonds 2.050511686\noptions 0.009597675\nallowances 48\ndearest 1\n')

    def test_forms(self):
        with tempfile.TemporaryDirectory() as folder:
            program = pathlib.Path(folder) / 'book'
            program.write_text(f"#!/bin/sh\ncat >{folder}/given\nprintf '%s' '{self.REPORT}'\n")
            program.chmod(0o755)
            settings = {**os.environ, 'PYTHONPATH': str(ROOT / 'python'), 'MIXEGORTA_BOOK': str(program)}
            made = {form: subprocess.run([sys.executable, '-B', '-m', 'mixegorta_command', 'book', *form.split(), COUPON, EXAMPLES[0]], env=settings, capture_output=True)
                    for form in ('', '--json', '--csv', '--frame')}
            given = (pathlib.Path(folder) / 'given').read_bytes()
        self.assertEqual([each.returncode for each in made.values()], [0] * 4)
        self.assertEqual((made[''].stdout.decode(), made['--frame'].stdout), (self.REPORT, given))
        told = json.loads(made['--json'].stdout)
        self.assertEqual((told['priced'], told['refused']['9'], told['bonds'], told['dearest']), (2, 1, '2.050511686', 1))
        self.assertEqual(rows_of(made['--csv'])[1], ['priced', '2'])
        job = mixegorta('job', COUPON).stdout
        self.assertEqual(given[:3 + len(job)], b'\x10' + len(job).to_bytes(2, 'big') + job)


class Help(unittest.TestCase):
    def test_every_part(self):
        for part in command.PARTS:
            made = mixegorta(part, '--help')
            self.assertEqual((made.returncode, made.stderr), (0, b''))
            for word in ('--json', '--csv', 'FILE', 'Exit status'):
                self.assertIn(word, made.stdout.decode(), part)
        self.assertIn(b'mixegorta check', mixegorta('--help').stdout)
        self.assertRegex(mixegorta('--version').stdout, rb'\Amixegorta \d+\.\d+\.\d+\n\Z')

    def test_everything_that_people_start(self):
        """At once, with status 0 and without an installed library, from a folder of another name."""
        settings = {'PATH': os.environ['PATH'], 'MIXEGORTA_LIBRARY': '/nowhere'}
        for path in sorted(path for folder in ('tools', 'compare', 'studies', 'bench') for path in (ROOT / folder).iterdir()):
            if path.is_file() and os.access(path, os.X_OK):
                made = subprocess.run([path, '--help'], cwd='/', env=settings, stdin=subprocess.DEVNULL, capture_output=True, timeout=QUICK_SECONDS)
                self.assertEqual((made.returncode, made.stderr), (0, b''), path)
                self.assertGreater(len(made.stdout), 20, path)

    def test_completion_and_page_name_every_part_and_option(self):
        completion, page = pages.completion(), pages.page().replace('\\-', '-')
        self.assertEqual(subprocess.run(['bash', '-n'], input=completion.encode(), capture_output=True).stderr, b'')
        for part in command.PARTS:
            self.assertIn(f'.SS {part}\n', page)
            for option, _ in pages.options(part):
                self.assertIn(option.split()[0], completion)
                self.assertIn(option, page)

    def test_completion(self):
        ask = 'source /dev/stdin 2>/dev/null; COMP_WORDS=({}); COMP_CWORD={}; compopt() {{ :; }}; _mixegorta; echo "${{COMPREPLY[@]}}"'
        for words, place, wanted in (('mixegorta pr', 1, 'price'), ('mixegorta draw --p', 2, '--page'), ('mixegorta price --', 2, '--json --csv --tree --help')):
            made = subprocess.run(['bash', '-c', ask.format(words, place)], input=pages.completion().encode(), capture_output=True)
            self.assertEqual(made.stdout.decode().strip(), wanted)


class Building(unittest.TestCase):
    def test_what_is_needed(self):
        self.assertLess({'arithmetic', 'job_sheet', 'sheet'}, building.needed('sheet'))
        self.assertNotIn('shelf', building.needed('sheet'))
        self.assertEqual(building.needed('no-such-crate'), set())
        made = subprocess.run([ROOT / 'tools/building.py', 'no-such-crate'], capture_output=True, text=True)
        self.assertEqual((made.returncode, made.stdout), (1, 'crates/ has no program no-such-crate\n'))

    def test_progress(self):
        """Lines of rt as it prints them, in a clone with a kit that only prints."""
        with tempfile.TemporaryDirectory() as folder:
            root = pathlib.Path(folder)
            for name in ('tools', 'bin', 'crates/low/src', 'crates/below/src', 'crates/sheet/src', 'crates/sheet/must-fail', 'crates/sheet/out'):
                (root / name).mkdir(parents=True)
            (root / 'crates.txt').write_text('low:\nbelow: low\nsheet: below\nother:\n')
            (root / 'crates/sheet/stdin').write_text('a job')
            (root / 'crates/sheet/stdout').write_text('a job, priced')
            (root / 'tools/building.py').write_bytes((ROOT / 'tools/building.py').read_bytes())
            kit = root / 'bin/rt'
            kit.write_text('#!/bin/sh\necho "rt: chose --jobs 2 for below" >&2\nsleep 3\necho "rt: chose --jobs 2 for sheet" >&2\n'
                           f'echo "$PWD $*" >>{root}/target/runs\n: >out/sheet\necho "$(cat), priced" | tr -d "\\n"\n')
            kit.chmod(0o755)
            settings = {'PATH': f'{root}/bin:{os.environ["PATH"]}'}
            runs = []
            for change in (None, None, 'crates/sheet/must-fail/a.edit', 'crates/sheet/out/sheet.o', 'crates/below/src/lib.rt'):
                if change:
                    path = root / change
                    path.write_text('')
                    os.utime(path, (path.stat().st_mtime + 100,) * 2)
                made = subprocess.run(['setsid', sys.executable, '-B', root / 'tools/building.py', 'sheet'], env=settings, capture_output=True, text=True)
                self.assertEqual((made.returncode, made.stdout), (0, ''), made.stderr)
                runs.append((root / 'target/runs').read_text().count(f'{root}/crates/sheet run --cpu x86-64\n'))
                told = made.stderr.splitlines()[-1:]
            self.assertEqual((runs, told), ([1, 1, 1, 1, 2], ['proving: 3 of 3 crates']))
            self.assertRegex((root / 'target/times.txt').read_text(), r'\Abelow [3-9]\nsheet \d\n\Z')
            self.assertTrue((root / 'target/bin/sheet').is_file())
            (root / 'crates/sheet/stdout').write_text('another job, priced')
            made = subprocess.run(['setsid', sys.executable, '-B', root / 'tools/building.py', 'sheet'], env=settings, capture_output=True, text=True)
            self.assertEqual((made.returncode, made.stdout), (1, 'target/bin/sheet is older than crates/below/src/lib.rt, and what it printed, '
                                                                 'target/sheet.printed, is not crates/sheet/stdout\n'))


if __name__ == '__main__':
    unittest.main()
