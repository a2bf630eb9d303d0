#!/usr/bin/env python3
"""Tests of one book under many curves: the books that are kept, their totals, the exact differences by the reference, and tables that are wrong.

    tools/test_scenarios.py

Needs the shared object.
"""
import csv
import io
import json
import os
import pathlib
import subprocess
import sys
import tempfile
import unittest
import xml.etree.ElementTree
from fractions import Fraction

sys.dont_write_bytecode = True
ROOT = pathlib.Path(__file__).resolve().parent.parent
sys.path[:0] = [str(ROOT / 'python'), str(ROOT / 'tools'), str(ROOT / 'reference')]
import book as reference
import usage
from mixegorta_command import curves, exact, scenarios, splices, texts

m = usage.library(__doc__)
HEAD = 'scenario,frequency,kind,' + ','.join(map(str, range(1, 61)))
ONE_STEP = ROOT / 'examples/one-step-today.txt'
NOTES = ROOT / 'examples/notes'


def command(part, *arguments, given=None):
    settings = {**os.environ, 'PYTHONPATH': str(ROOT / 'python'), 'PYTHONDONTWRITEBYTECODE': '1'}
    return subprocess.run([sys.executable, '-m', 'mixegorta_command', part, *map(str, arguments)], input=given, env=settings, capture_output=True, timeout=120)


def held(job):
    """What a desk holds of a job, exactly, in billionths: the bond, less a call, with a put."""
    bond, *option = exact.exact_prices(job)
    return bond + splices.sign_of(m, m.Job.read(job).option) * sum(option)


def line(name, frequency, kind, *figures):
    return ','.join([name, str(frequency), kind, *map(repr, figures)])


class Scenarios(unittest.TestCase):
    def setUp(self):
        place = tempfile.TemporaryDirectory()
        self.addCleanup(place.cleanup)
        self.folder = pathlib.Path(place.name)
        self.jobs = [texts.job_of(path.read_bytes(), str(path)) for path in sorted((ROOT / 'examples').glob('*.txt'))]
        self.book = self.put('desk.book', m.book_of_jobs(self.jobs))

    def put(self, name, content):
        path = self.folder / name
        path.write_bytes(content if isinstance(content, bytes) else content.encode())
        return path

    def table(self, *lines):
        return self.put('curves.csv', '\n'.join([HEAD, *lines]) + '\n')

    def levels(self, **levels):
        return self.table(*(line(name, frequency, 'rate', *[level] * 60) for name, level in levels.items() for frequency in (1, 2, 4, 12)))

    def shown(self, *arguments):
        made = command('scenarios', *arguments)
        self.assertEqual((made.returncode, made.stderr), (0, b''))
        return made.stdout

    def test_rows_are_the_totals_of_the_books_that_are_kept(self):
        rows = json.loads(self.shown(self.book, '--curves', self.levels(low=0.01, high=0.05, middle=0.03), '--keep', self.folder / 'kept', '--json'))
        self.assertEqual([row['scenario'] for row in rows], ['base', 'high', 'middle', 'low'])
        for row in rows:
            content = (self.folder / f'kept/{row["scenario"]}.book').read_bytes()
            told = json.loads(command('books', '--json', self.folder / f'kept/{row["scenario"]}.book').stdout)
            self.assertEqual([row[word] for word in ('priced', 'bonds', 'options', 'error_bound_in_billionths')],
                             [told[word] for word in ('priced', 'bonds', 'options', 'error_bounds_in_billionths')])
            self.assertEqual((row['refused'], len(reference.taken(content)[0])), (sum(told['refused'].values()), len(self.jobs)))
        self.assertEqual((self.folder / 'kept/base.book').read_bytes(), self.book.read_bytes())

    def test_only_the_quotes_change(self):
        self.shown(self.book, '--curves', self.levels(low=0.01), '--keep', self.folder / 'kept')
        kept = reference.taken((self.folder / 'kept/low.book').read_bytes())[0]
        for former, job in zip(self.jobs, kept):
            record, own = m.Job.read(former), m.Job.read(job)
            self.assertEqual(own, record._replace(quotes=tuple(m.JobQuote.of(m.YEARLY_RATE, 0.01) for _ in record.quotes)))

    def test_the_jobs_are_those_that_the_proved_writer_writes(self):
        """Quotes are put in by bytes: every job of the examples, with a version and without, with every kind of quote
        and option."""
        path = self.table(*(line('a', frequency, kind, *[0.02 + 0.0001 * row
                                                         for row in range(60)])
                            for frequency, kind in ((1, 'discount'), (2, 'rate'), (4, 'yield'), (12, 'rate'))))
        wanted, kinds = [], {1: m.DISCOUNT_FACTOR, 2: m.YEARLY_RATE, 4: m.YEARLY_YIELD, 12: m.YEARLY_RATE}
        for record in map(m.Job.read, self.jobs):
            quotes = [m.JobQuote.of(kinds[record.frequency], 0.02 + 0.0001 * row) for row in range(len(record.quotes))]
            wanted.append(record._replace(quotes=quotes).to_bytes())
        self.assertEqual(
            splices.Plan(self.book.read_bytes()).whole.filled(curves.curves_of(str(path))['a']), m.book_of_jobs(wanted))

    def test_a_scenario_that_is_the_base(self):
        job = m.Job.read(texts.job_of(ONE_STEP.read_bytes(), 'one'))
        book = self.put('one.book', m.book_of_jobs([job.to_bytes()] * 3))
        given = book, '--curves', self.table(line('same', 1, 'discount', job.quotes[0].figure)), '--keep', self.folder, '--json'
        row, both = (json.loads(self.shown(*given, *more))[1] for more in ((), ('--held',)))
        self.assertEqual((row['from_base'], row['from_base_most'], row['compared']), ('0.000000000', '0.000000012', 3))
        # two billionths of bond and two of option, in base and scenario, for each of three jobs
        self.assertEqual((both['from_base'], both['from_base_most'], both['compared']), ('0.000000000', '0.000000024', 3))
        self.assertEqual((self.folder / 'same.book').read_bytes(), book.read_bytes())

    def test_exact_differences(self):
        """Over the jobs that base and scenario both price: the reference's exact bonds, and what is held with its exact
        options."""
        for more, worth in ((('--held',), held), ((), lambda job: reference.exact_total(reference.framed(job)))):
            given = self.book, '--curves', self.levels(a=0.02, b=-0.004), '--keep', self.folder, '--csv', *more
            rows = list(csv.DictReader(io.StringIO(self.shown(*given).decode())))
            base, *books = (reference.taken((self.folder / f'{row["scenario"]}.book').read_bytes())[0] for row in rows)
            for row, jobs in zip(rows[1:], books):
                both = [
                    pair for pair in zip(base, jobs) if all(
                        m.report_of_file(splices.framed(job)).priced for job in pair)]
                difference = sum(worth(own) - worth(former) for former, own in both) / 10 ** 9
                self.assertTrue(
                    Fraction(row['from_base_least']) <= difference <= Fraction(row['from_base_most']), (more, row))
                self.assertEqual((len(both), Fraction(row['from_base_least']) < Fraction(row['from_base'])),
                                 (int(row['compared']), True))

    def test_what_is_held(self):
        """Bonds less calls and with puts, by the prices of the jobs; without --held the options are left out, which may
        rank otherwise."""
        job = m.Job.read(texts.job_of((NOTES / 'callable.txt').read_bytes(), 'callable'))
        called = job._replace(flows=[5 * 10 ** 7] * 9 + [m.ONE], option=m.DatedOption(m.CALL, m.ONE, tuple(range(10))))
        book = self.put('held.book', m.book_of_jobs([called.to_bytes(), self.jobs[0]]))
        table = self.levels(low=0.001, high=0.02)
        rows, bonds = (json.loads(self.shown(book, '--curves', table, '--json', *more)) for more in (('--held',), ()))
        for row in rows:
            self.shown(book, '--curves', table, '--keep', self.folder)
            jobs = splices.fields_of((self.folder / f'{row["scenario"]}.book').read_bytes())[0]
            prices = [m.prices_of_job(each) for each in jobs]
            signs = [splices.sign_of(m, m.Job.read(each).option) for each in jobs]
            wanted = sum(price.bond.value + sign * price.option.value for price, sign in zip(prices, signs))
            self.assertEqual(row['held'], f'{wanted // m.ONE}.{wanted % m.ONE:09}')
            self.assertEqual(signs, [splices.CALL, splices.CALL])
            self.assertTrue(all(price.bond.bound == price.option.bound for price in prices))
        self.assertNotEqual([row['from_base'] for row in rows[1:]], [row['from_base'] for row in bonds[1:]])
        self.assertEqual([row['bonds'] for row in sorted(rows, key=str)],
                         [row['bonds'] for row in sorted(bonds, key=str)])

    def test_scenarios_that_refuse_what_the_base_prices(self):
        """They come first, the one that lacks most first of all, are marked, and are told; a scenario without any job
        shows no difference."""
        table = self.table(
            *(line(name, frequency, 'discount', *[level] * 60)
              for name, level in (('none', 5.0), ('few', 1.05))
              for frequency in (1, 2, 4, 12)),
            *(line(name, frequency, 'rate', *[level] * 60)
              for name, level in (('loss', 0.05), ('gain', 0.0))
              for frequency in (1, 2, 4, 12)))
        made = command('scenarios', self.book, '--curves', table, '--json')
        rows = json.loads(made.stdout)
        self.assertEqual([row['scenario'] for row in rows][:2], ['base', 'none'])
        none, lacking = rows[1], [row for row in rows if row['not_priced']]
        self.assertEqual((none['priced'], none['compared'], none['not_priced'], none['from_base']),
                         (0, 0, rows[0]['priced'], None))
        self.assertEqual([row['scenario'] for row in rows[1:]][:len(lacking)], [row['scenario'] for row in lacking])
        self.assertEqual([row['not_priced'] for row in lacking],
                         sorted((row['not_priced'] for row in lacking), reverse=True))
        self.assertEqual([float(row['from_base']) for row in rows[1 + len(lacking):]],
                         sorted(float(row['from_base']) for row in rows[1 + len(lacking):]))
        self.assertEqual((made.returncode, len(made.stderr.splitlines())), (0, len(lacking)))
        self.assertIn(
            f"scenario 'none': {rows[0]['priced']} of the {rows[0]['priced']} jobs that the base prices are refused",
            made.stderr.decode())
        lines = command('scenarios', self.book, '--curves', table).stdout.decode().splitlines()
        self.assertTrue(
            lines[2].startswith('none') and lines[2].endswith('jobs of the base not priced') and ' none ' in lines[2],
            lines[2])
        self.assertFalse(lines[-1].endswith('priced'))
        for count in (1, 2):
            self.assertEqual(
                command('scenarios', self.book, '--curves', table, '--json', '--processes', count).stdout, made.stdout)

    def test_the_example_of_the_readme(self):
        """Three notes on one curve, and curves that are that curve moved: what goes up by 100 basis points loses, what
        goes down gains."""
        jobs = [
            texts.job_of((NOTES / f'{name}.txt').read_bytes(), name) for name in ('straight', 'callable', 'puttable')]
        self.assertEqual((NOTES / 'notes.book').read_bytes(), m.book_of_jobs(jobs))
        records = [*map(m.Job.read, jobs)]
        self.assertEqual({record.quotes for record in records}, {records[0].quotes})
        self.assertEqual([splices.sign_of(m, record.option) for record in records],
                         [splices.NONE, splices.CALL, splices.PUT])
        with open(NOTES / 'curves.csv', newline='') as file:
            moved = {cells[0]: [float(cell) for cell in cells[3:]] for cells in csv.reader(file)}
        base = [quote.figure for quote in records[0].quotes]
        for name, move in (('up 100 bp', 0.01), ('down 100 bp', -0.01)):
            self.assertEqual([round(own - figure, 9) for own, figure in zip(moved[name], base)], [move] * len(base))
        rows = json.loads(self.shown(NOTES / 'notes.book', '--curves', NOTES / 'curves.csv', '--held', '--json'))
        self.assertEqual([row['scenario'] for row in rows], ['base', 'up 100 bp', 'steeper', 'flatter', 'down 100 bp'])
        self.assertTrue(float(rows[1]['from_base']) < -0.1 and float(rows[-1]['from_base']) > 0.1)

    def test_tables_as_a_desk_writes_them(self):
        """Semicolons, decimal commas, any letter case, and percent for fractions, which is warned of."""
        plain = self.shown(NOTES / 'notes.book', '--curves', NOTES / 'curves.csv')
        text = (NOTES / 'curves.csv').read_text()
        for other in (text.replace(',', ';'), text.replace(',', ';').replace('.', ','), text.upper().replace(
                'UP 100 BP',
                'up 100 bp').replace('DOWN', 'down').replace('BP',
                                                             'bp').replace('STEEPER',
                                                                           'steeper').replace('FLATTER', 'flatter'),
                      '\ufeff' + text.replace('\n', '\r\n')):
            self.assertEqual(self.shown(NOTES / 'notes.book', '--curves', self.put('other.csv', other)), plain)
        made = command(
            'scenarios', NOTES / 'notes.book', '--curves',
            self.put(
                'percent.csv', 'scenario,frequency,kind,' + ','.join(map(str, range(1, 11))) + '\n' + 'up,2,yield' +
                ',3.1' * 10 + '\n'))
        self.assertEqual(made.returncode, 0)
        self.assertIn('percent.csv:2: warning: yield 3.1 is 310 % a year; it is a part of one, 0.031 for 3.1 %',
                      made.stderr.decode().splitlines()[0])
        made = command('scenarios', NOTES / 'notes.book', '--curves', self.put('commas.csv', text.replace('0.', '0,')))
        self.assertEqual((made.returncode, made.stdout, b'between semicolons' in made.stderr
                          or b'cells, and the head has' in made.stderr), (2, b'', True))

    def test_progress(self):
        made = command('scenarios', NOTES / 'notes.book', '--curves', NOTES / 'curves.csv', '--progress')
        self.assertRegex(made.stderr.decode().splitlines()[-1],
                         r'\A\[#{24}\] 4 of 4 scenarios  12 jobs  [\d,]+ jobs/s  0:00 left *\Z')

    def test_order_and_forms(self):
        table = self.levels(first=0.02, higher=0.03, second=0.02, lowest=0.0)
        outputs = [self.shown(self.book, '--curves', table, '--processes', count, *form) for form in ([], ['--json'], ['--csv']) for count in (1, 2)]
        self.assertEqual(outputs[::2], outputs[1::2])
        self.assertEqual([text.split()[0] for text in outputs[0].decode().splitlines()[1:]], ['base', 'higher', 'first', 'second', 'lowest'])
        self.assertEqual([*csv.reader(io.StringIO(outputs[4].decode()))][0], list(scenarios.COLUMNS))

    def test_broken_books_and_jobs(self):
        """What breaks the file and what no quotes can mend counts in every scenario."""
        odd = m.Job.read(self.jobs[0])._replace(frequency=3).to_bytes()
        book = self.put('odd.book', m.book_of_jobs([odd, b'', self.jobs[0], b'x' * 4_701]) + b'\x10\0')
        rows = json.loads(self.shown(book, '--curves', self.levels(a=0.02), '--json'))
        self.assertEqual([row['refused'] for row in rows], [4 + (not row['priced']) for row in rows])

    def test_picture(self):
        path = self.folder / 'totals.svg'
        self.shown(self.book, '--curves', self.levels(**{f'a<b>{k}': k / 1_000 for k in range(70)}), '--picture', path)
        text = path.read_text()
        self.assertEqual(xml.etree.ElementTree.fromstring(text).tag, '{http://www.w3.org/2000/svg}svg')
        self.assertEqual((text.count('a&lt;b&gt;'), 'and 10 scenarios' in text), (60, True))
        drawn = xml.etree.ElementTree.fromstring(text)
        self.assertEqual(drawn.get('viewBox'), f'0 0 {drawn.get("width")} {drawn.get("height")}')

    def test_what_is_wrong_is_one_sentence(self):
        good = line('a', 1, 'rate', 0.02)
        for lines, said in (((), 'no scenario'), (('a,1,rate',), 'cells'), (('a,3,rate,0.1',), 'steps a year'), (('a,1,price,0.1',), 'a kind is'), (('a,1,rate,x',), 'no figure'),
                            (('a,1,rate,nan',), 'no figure'), (('base,1,rate,0.1',), 'needs a name'), ((',1,rate,0.1',), 'needs a name'), ((good, good), 'already'),
                            ((good,), 'has no curve of'), ((good + ',' * 70,), 'cells'), (('"a',), 'no CSV')):
            made = command('scenarios', self.book, '--curves', self.table(*lines))
            self.assertEqual((made.returncode, made.stdout, made.stderr.count(b'\n')), (2, b'', 1), (lines, made.stderr))
            self.assertIn(said, made.stderr.decode())
        table = self.levels(**{'a/b': 0.02})
        for arguments in ((self.book,), (self.book, '--curves', '/nowhere'), ('/nowhere', '--curves', table), ('-', '--curves', '-'), (self.book, '--curves', self.book),
                          (self.book, '--curves', table, '--keep', self.folder / 'kept'), (self.book, '--curves', table, '--picture', '/nowhere/a'),
                          (self.book, '--curves', table, '--processes', 0), (self.book, '--curves', self.put('head.csv', 'scenario,kind\n'))):
            made = command('scenarios', *arguments, given=b'')
            self.assertEqual((made.returncode, made.stdout, made.stderr.count(b'\n')), (2, b'', 1), (arguments, made.stderr))
            self.assertNotIn(b'Traceback', made.stderr)


if __name__ == '__main__':
    unittest.main()
