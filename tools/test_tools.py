#!/usr/bin/env python3
"""Tests of tools/job, tools/price and tools/draw, and that the examples' texts, sheets and pictures belong together.

    python3 tools/test_tools.py

Sheets are worked out by reference/reference.py. The tools stand outside the proved core; tools/test_page.py tests pages in a browser.
"""
import functools
import os
import pathlib
import re
import shutil
import subprocess
import sys
import tempfile
import unittest
import xml.etree.ElementTree as ElementTree

ROOT = pathlib.Path(__file__).resolve().parent.parent
sys.path[:0] = [str(ROOT / 'reference'), str(ROOT / 'tools')]
sys.dont_write_bytecode = True
import book
import records
import reference
import source_tables

EXAMPLES = sorted((ROOT / 'examples').glob('*.txt'))
PICTURES = sorted((ROOT / 'docs/pictures').glob('*.svg'))
DOCUMENT_JOB = bytes.fromhex('01000101 02000101 0300020000 04000400000000 0500083FF00A3D70A3D70A 0700043B9ACA00 08000604013C336080')
TODAY_SHEET = b'node 0 0 1.002500000 -0.2493766\nrow 1 1.002500000 1.002499999 4\nbond 1.002500000 2\noption 0.007500000 2\n'
SVG = '{http://www.w3.org/2000/svg}'
POSITIVE, NEGATIVE = '#0072B2', '#D55E00'
START = 'frequency 4\nreversion 0\nvolatility 5000\n'


@functools.lru_cache(None)
def run(tool, text, *arguments):
    content = text if isinstance(text, bytes) else text.encode()
    return subprocess.run([sys.executable, '-B', str(ROOT / 'tools' / tool), *arguments], input=content, capture_output=True)


def sheet_of(text):
    made = run('job', text)
    if made.returncode:
        raise AssertionError(made.stderr.decode())
    return reference.sheet(made.stdout)


def text_of(frequency=4, reversion=0, volatility=5000, quotes=('discount 0.99',), flows=('flow 1',), option=''):
    return '\n'.join([f'frequency {frequency}', f'reversion {reversion}', f'volatility {volatility}', *quotes, *flows, option])


class Examples(unittest.TestCase):
    def test_there_are_examples(self):
        self.assertGreaterEqual(len(EXAMPLES), 5)
        self.assertGreaterEqual(len(PICTURES), 2)

    def test_jobs_are_written_as_they_are_read(self):
        """The bytes of every text are those of their record, by the reference; tools/test_job_bytes.py asks the library."""
        for path in EXAMPLES:
            job = run('job', '', str(path)).stdout
            self.assertEqual(records.written(records.reading(job), len(job)), job, path.name)

    def test_the_example_of_the_document(self):
        today = DOCUMENT_JOB[:42] + b'\x00' + DOCUMENT_JOB[43:]
        for name, job, sheet in (('one-step', DOCUMENT_JOB, b'refused 11\n'), ('one-step-today', today, TODAY_SHEET)):
            path = ROOT / f'examples/{name}.txt'
            self.assertEqual(run('job', '', str(path)).stdout, job)
            self.assertEqual(path.with_suffix('.sheet').read_bytes(), sheet)

    def test_sheets_are_those_of_the_texts(self):
        for path in EXAMPLES:
            with self.subTest(path.name):
                self.assertEqual(sheet_of(path.read_bytes()), path.with_suffix('.sheet').read_bytes())

    def test_every_sheet_has_its_text(self):
        self.assertEqual(sorted((ROOT / 'examples').glob('*.sheet')), [path.with_suffix('.sheet') for path in EXAMPLES])

    def test_pictures_are_those_of_the_sheets(self):
        for path in PICTURES:
            with self.subTest(path.name):
                example = (ROOT / 'examples' / path.name).with_suffix('.txt')
                sheet = example.with_suffix('.sheet').read_bytes()
                self.assertEqual(run('draw', sheet, '--job', str(example)).stdout, path.read_bytes())

    def test_what_the_comments_say(self):
        rates = {path.stem: [line.split()[4] for line in path.with_suffix('.sheet').read_text().splitlines() if line.startswith('node')]
                 for path in EXAMPLES}
        below = {name: sum(rate.startswith('-') for rate in found) for name, found in rates.items()}
        self.assertEqual(below['coupon-put'], 0)
        self.assertGreater(below['negative-curve'], len(rates['negative-curve']) / 2)
        self.assertLess(below['negative-curve'], len(rates['negative-curve']))
        self.assertEqual((ROOT / 'examples/refused.sheet').read_bytes(), b'refused 9\n')


class Jobs(unittest.TestCase):
    def test_every_entry_reaches_its_field(self):
        text = ('# a comment\n\nOption European call 2 1.010000001 # and one behind\nflow .5 x 2\nflow 1.025\nPULL 17\nvolatility 50000\n'
                'frequency 12\nrate -2.5e-3\ndiscount 0.75 x 2\n')
        f, n, b, s, version, quotes, flows, option = reference.read(run('job', text).stdout)
        self.assertEqual((f, n, b, s, version), (12, 3, 17, 50_000, None))
        self.assertEqual(quotes, [(6, reference.pattern_of(-0.0025)), (5, reference.pattern_of(0.75)), (5, reference.pattern_of(0.75))])
        self.assertEqual(flows, [500_000_000, 500_000_000, 1_025_000_000])
        self.assertEqual(option, (1, 2, 1_010_000_001))

    def test_option_kinds(self):
        for kind, name in enumerate(('european call', 'european put', 'american call', 'american put'), 1):
            job = run('job', text_of(option=f'option {name} 1 1')).stdout
            self.assertEqual(reference.read(job).option, (kind, 1, reference.ONE))

    def test_dated_options(self):
        for words, option in (('dated put 1.01 2 4 6', (2, 1_010_000_000, [2, 4, 6])), ('DATED Call 0 255 0 0', (1, 0, [255, 0, 0])), ('dated put 1', (2, 10 ** 9, [])),
                              (f'dated call 1 {"7 " * 4_500}', (1, 10 ** 9, [7] * 4_500))):
            self.assertEqual(reference.read(run('job', text_of(option=f'option {words}')).stdout).option, option)

    def test_versions(self):
        """In any place of the text; the field stands straight after the volatility's."""
        plain = run('job', text_of()).stdout
        for number in (1, 2, 0, 3, 255):
            job = run('job', f'VERSION {number}\n{text_of()}').stdout
            self.assertEqual(job, run('job', f'{text_of()}\nversion {number}').stdout)
            self.assertEqual(job, plain[:20] + bytes([11, 0, 1, number]) + plain[20:])
            self.assertEqual(reference.sheet(job) == b'refused 1\n', number not in (1, 2))
        self.assertEqual([reference.read(job).version for job in (plain, run('job', f'version 1\n{text_of()}').stdout)], [None, 1])
        strong = text_of(reversion=2_034, quotes=['rate 0.04 x 4'], flows=['flow 1 x 4'])
        sheets = [sheet_of(f'{strong}\n{line}') for line in ('', 'version 1', 'version 2')]
        self.assertEqual(sheets[0], sheets[1])
        self.assertEqual([sheet.count(b'node 3') for sheet in sheets[1:]], [3, 5])

    def test_kinds_and_dates_that_mean_the_same(self):
        note = dict(quotes=['rate 0.04 x 6'], flows=['flow 0.05 x 5', 'flow 1.05'])
        for kind, dates in (('european call 4 1.02', 'dated call 1.02 4'), ('european put 4 1.02', 'dated put 1.02 4'),
                            ('american call 3 1.02', 'dated call 1.02 0 1 2 3'), ('american put 5 1.02', 'dated put 1.02 0 1 2 3 4 5')):
            sheets = [sheet_of(text_of(option=f'option {words}', **note)) for words in (kind, dates)]
            self.assertIn(b'option', sheets[0])
            self.assertEqual(*sheets)

    def test_amounts_are_exact(self):
        for word, expected in (('0.1', 100_000_000), ('0.000000001', 1), ('4.294967295', 4_294_967_295), ('1.', 10 ** 9), ('007', None)):
            made = run('job', text_of(flows=[f'flow {word}']))
            if expected is None:
                self.assertIn(b'does not fit', made.stderr)
            else:
                self.assertEqual(reference.read(made.stdout).flows, [expected])

    def test_what_the_engine_refuses_is_written(self):
        cases = ((2, text_of(frequency=3)), (3, text_of(quotes=['rate 0.01 x 61'], flows=['flow 0 x 61'])),
                 (3, 'frequency 1\nsteps 0\nreversion 0\nvolatility 0\n'), (4, text_of(reversion=6001)), (5, text_of(volatility=50_001)),
                 (7, text_of(quotes=['rate 10.5'])), (7, text_of(quotes=['rate nan'])), (7, text_of(quotes=['discount -inf'])),
                 (8, text_of(frequency=1, volatility=50_000, quotes=['rate 0.05 x 13'], flows=['flow 0 x 13'])),
                 (9, text_of(quotes=['discount 1.2'])), (10, text_of(flows=['flow 2.000000001'])),
                 (11, text_of(option='option american call 1 1')), (11, text_of(option='option american call 0 4.000000001')),
                 (12, text_of(quotes=['discount 0.99 x 5'], flows=['flow 2 x 5'])),
                 (13, text_of(quotes=['discount 0.999 x 5'], flows=['flow 2 x 5'], option='option dated put 1')),
                 (13, text_of(option='option dated call 1 1')), (13, text_of(quotes=['discount 0.99 x 5'], flows=['flow 1 x 5'], option='option dated call 1 2 2')),
                 (11, text_of(option='option dated call 4.000000001 1')), (1, text_of(option='option dated call 1' + ' 0' * 4_700)))
        for number, text in cases:
            with self.subTest(number=number, text=text):
                self.assertEqual(sheet_of(text), b'refused %d\n' % number)

    def test_figures_of_another_unit_are_told_and_taken(self):
        note = dict(quotes=['rate 0.01', 'yield -0.2'], flows=['flow 0', 'flow 2'], option='option american put 1 0.001')
        plain = run('job', text_of(**note))
        self.assertEqual((plain.returncode, plain.stderr), (0, b''))
        for change, words in ((dict(quotes=['rate -0.25', 'rate 0.01']), 'rate -0.25 is -25 % a year'), (dict(quotes=['yield 0.21', 'rate 0.01']), 'yield 0.21 is 21 % a year'),
                              (dict(flows=['flow 0', 'flow 2.000000001']), 'flow 2.000000001 is far from one'), (dict(flows=['flow 0.0009', 'flow 1']), 'flow 0.0009 is far from one'),
                              (dict(option='option dated call 0.000000001 1'), 'strike 0.000000001 is far from one'),
                              (dict(option='option european call 1 2.1'), 'strike 2.1 is far from one'),
                              (dict(frequency=12, reversion=834), 'reversion 834 is 1.0008 a year')):
            made = run('job', text_of(**{**note, **change}))
            self.assertEqual(made.returncode, 0)
            self.assertRegex(made.stderr.decode(), rf'\Astandard input:\d+: warning: {re.escape(words)}; [^\n]+\n\Z')
            self.assertEqual(reference.read(made.stdout).n, 2)
        self.assertEqual(run('job', text_of(frequency=12, reversion=833, **note)).stderr, b'')
        many = run('job', text_of(quotes=['rate 0.3\n' * 25], flows=['flow 1 x 25']))
        self.assertEqual(many.stderr.decode().splitlines()[-1], 'standard input: 5 more warnings')

    def test_the_longest_job(self):
        job = run('job', text_of(quotes=['rate 0 x 255'], flows=['flow 0 x 255'], option='option american put 255 0')).stdout
        self.assertLessEqual(len(job), reference.LONGEST_JOB)
        self.assertEqual(reference.read(job).n, 255)

    def refused(self, text, *messages):
        made = run('job', text)
        self.assertEqual((made.returncode, made.stdout), (1, b''), text)
        self.assertEqual(made.stderr.decode().splitlines(), [f'standard input{message}' for message in messages])

    def test_wrong_lines_are_named(self):
        for line, message in (
                ('flow 1.0000000001', 'flow 1.0000000001 has more than 9 decimals'),
                ('flow -1', 'flow -1 does not fit its field: 0 to 4.294967295'),
                ('flow 1e2', "flow is a decimal amount such as 1.025, not '1e2'"),
                ('flow nan', "flow is a decimal amount such as 1.025, not 'nan'"),
                ('flow 1 x 0', 'the count is at least 1'),
                ('flow 1 2', 'write `flow VALUE` or `flow VALUE x COUNT`'),
                ('rate', 'write `rate VALUE` or `rate VALUE x COUNT`'),
                ('rate 3%', "rate is a number such as 0.03, not '3%'"),
                ('discount 1_0', "discount is a number such as 0.03, not '1_0'"),
                ('frequency 12', 'frequency is given twice, first on line 1'),
                ('pull 1', 'reversion is given twice, first on line 2'),
                ('version 256', 'version 256 does not fit its field: 0 to 255'), ('version', 'write `version NUMBER`'),
                ('version two', "version is a whole number, not 'two'"),
                ('steps 256', 'steps 256 does not fit its field: 0 to 255'),
                ('steps 1.5', "steps is a whole number, not '1.5'"),
                ('steps', 'write `steps NUMBER`'),
                ('option american put 1', 'write `option STYLE KIND EXPIRY STRIKE`, for example `option american put 8 1.01`'),
                ('option', 'write `option STYLE KIND EXPIRY STRIKE`, for example `option american put 8 1.01`'),
                ('option dated put', 'write `option dated KIND STRIKE ROWS`, for example `option dated put 1.01 2 4 6`'),
                ('option dated 2 1', 'a dated option is call or put, not 2'),
                ('option dated put 5 1', 'strike 5 does not fit its field: 0 to 4.294967295'),
                ('option dated put 1 256', 'a row of exercise 256 does not fit its field: 0 to 255'),
                ('option dated put 1 1.5', "a row of exercise is a whole number, not '1.5'"),
                ('option dated put 1' + ' 0' * 65_531, '65531 rows of exercise do not fit their field: at most 65530'),
                ('option asian put 1 1', 'an option is european, american or dated, call or put, not asian put'),
                ('option american put -1 1', 'expiry -1 does not fit its field: 0 to 255'),
                ('option american put 1 5', 'strike 5 does not fit its field: 0 to 4.294967295'),
                ('strike 1', "unknown entry 'strike'")):
            self.refused(f'{START}\n# comment\n{line}\n', f':6: {message}')

    def test_very_long_numbers(self):
        long = '9' * 5_000
        self.refused(f'steps {long}', f':1: steps {long} does not fit its field: 0 to 255')
        self.refused(f'flow {long}', f':1: flow {long} does not fit its field: 0 to 4.294967295')
        self.assertEqual(sheet_of(text_of(quotes=[f'rate {long}'])), b'refused 7\n')

    def test_line_ends(self):
        text = (ROOT / 'examples/one-step.txt').read_text()
        for end in ('\n', '\r\n', '\r'):
            self.assertEqual(run('job', text.replace('\n', end)).stdout, DOCUMENT_JOB)
        self.assertEqual(run('job', text + '# a comment\u2028 goes on').stdout, DOCUMENT_JOB)

    def test_all_wrong_lines_are_named(self):
        self.refused('flow x\nfrequency 256\n', ":1: flow is a decimal amount such as 1.025, not 'x'",
                     ':2: frequency 256 does not fit its field: 0 to 255')

    def test_what_is_lacking_is_named(self):
        self.refused('', ': no frequency is given', ': no reversion is given', ': no volatility is given', ': no discount, rate or yield is given')
        self.refused(START + 'rate 0.01 x 2\n', ': 2 steps need 2 flows, one for each row; 0 given')
        self.refused(START + 'rate 0.01 x 2\nsteps 3\nflow 1 x 3\n', ':5: 3 steps need 3 quotes, one for each row; 2 given')
        self.refused(START + 'rate 0.01 x 200\nrate 0.01 x 200\nflow 0 x 200\nflow 0 x 200\n', ': 400 quotes do not fit a job: at most 255')

    def test_files_that_cannot_be_read(self):
        self.assertIn(b'No such file', run('job', '', 'no-such-file.txt').stderr)
        self.refused(b'\xff\xfe', ': not a text in UTF-8')


class Tool(unittest.TestCase):
    """A tool that runs a proved program, of which a script may stand in the place."""
    NAME = SETTING = None

    def setUp(self):
        folder = tempfile.TemporaryDirectory()
        self.addCleanup(folder.cleanup)
        self.folder = pathlib.Path(folder.name)

    def program(self, script):
        path = self.folder / f'program{len(list(self.folder.iterdir()))}'
        path.write_text(f'#!/bin/sh\n{script}\n')
        path.chmod(0o755)
        return path

    def file(self, content):
        path = self.folder / f'file{len(list(self.folder.iterdir()))}'
        path.write_bytes(content if isinstance(content, bytes) else content.encode())
        return path

    def run_tool(self, *arguments, program=None, tools=ROOT / 'tools', path=os.environ['PATH'], **more):
        settings = {'PATH': str(path), **({self.SETTING: str(program)} if program else {})}
        return subprocess.run(['/bin/sh', str(tools / self.NAME), *map(str, arguments)], env=settings, stderr=subprocess.PIPE, **{'stdout': subprocess.PIPE, **more})

    def check_sentence(self, made, *words):
        """Nothing is shown, and one line tells why."""
        self.assertEqual((made.returncode, made.stdout or b''), (2, b''), made.stderr)
        self.assertEqual(made.stderr.count(b'\n'), 1, made.stderr)
        self.assertNotIn(b'Traceback', made.stderr)
        for word in words:
            self.assertIn(word, made.stderr.decode())


class Pricing(Tool):
    """Programs in place of the proved one are small scripts, most of them the reference."""
    NAME, SETTING = 'price', 'MIXEGORTA_SHEET'

    def setUp(self):
        super().setUp()
        self.reference = self.program(f'exec "{sys.executable}" -B "{ROOT}/reference/reference.py"')

    def price(self, *arguments, tree=True, **more):
        """tools/price, with the whole sheet shown unless it is told otherwise."""
        return self.run_tool(*arguments, *(['--tree'] if tree else []), **more)

    def test_texts_and_jobs_show_their_sheets(self):
        for path in EXAMPLES:
            with self.subTest(path.name):
                sheet = path.with_suffix('.sheet').read_bytes()
                job = self.file(run('job', path.read_bytes()).stdout)
                for file in (path, job):
                    made = self.price(file, program=self.reference)
                    self.assertEqual((made.stdout, made.returncode), (sheet, int(sheet.startswith(b'refused'))))

    @unittest.skipUnless((ROOT / 'target/bin/sheet').exists(), 'target/bin/sheet is not built: tools/building.py sheet')
    def test_the_proved_program(self):
        for path in EXAMPLES:
            self.assertEqual(self.price(path).stdout, path.with_suffix('.sheet').read_bytes(), path.name)

    def test_refusals_are_explained(self):
        for number in range(1, len(source_tables.refusals()) + 1):
            made = self.price(EXAMPLES[0], program=self.program(f'cat >/dev/null; echo refused {number}'))
            self.assertEqual((made.returncode, made.stdout), (1, b'refused %d\n' % number))
            self.assertRegex(made.stderr.decode(), rf'\Arefused {number}: [^\n]+\. What to do: [^\n]+\.\n\Z')
            self.assertNotIn(b'unknown', made.stderr)
        made = self.price(self.file(DOCUMENT_JOB[:-1]), program=self.reference)
        self.assertEqual((made.returncode, made.stdout), (1, b'refused 1\n'))

    def test_lost_output_of_the_program(self):
        file = ROOT / 'examples/one-step-today.txt'
        whole = TODAY_SHEET.decode()
        for shown in ('', 'node 0 0', whole[:-1], whole[:-2], whole[:whole.index('option')], whole[:whole.index('bond')], 'refused 1', 'refused \n'):
            made = self.price(file, program=self.program(f"cat >/dev/null; printf '%s' '{shown}'"))
            self.check_sentence(made, 'output is lost')
        self.check_sentence(self.price(file, program=self.program('kill -9 $$')), 'output is lost', 'signal 9')

    def test_lost_output_of_the_tool(self):
        file = ROOT / 'examples/one-step-today.txt'
        with open('/dev/full', 'wb') as full:
            self.check_sentence(self.price(file, program=self.reference, stdout=full), 'output is lost', 'No space')
        come, gone = os.pipe()
        os.close(come)
        self.check_sentence(self.price(file, program=self.reference, stdout=gone), 'output is lost')
        os.close(gone)
        closed = subprocess.run(f'exec "{ROOT}/tools/price" "{file}" >&-', shell=True, env={**os.environ, 'MIXEGORTA_SHEET': str(self.reference)}, stderr=subprocess.PIPE)
        self.check_sentence(closed, 'output is lost')

    def test_files_that_cannot_be_priced(self):
        for file, word in (('no-such-file', 'No such file'), (self.folder, 'Is a directory'), (self.file('flow x'), ':1: flow is a decimal'),
                           (self.file(b'\xff\xfeq\0'), 'not a text in UTF-8'), (self.file('\xe9'.encode('latin-1')), 'not a text in UTF-8')):
            self.check_sentence(self.price(file, program=self.reference), str(file), word)
        self.check_sentence(self.price('a', 'b'), 'unrecognized arguments: b', 'tools/price --help')
        self.check_sentence(self.price('--no-such-option'), 'tools/price --help')
        self.assertIn(b'20 more lines are wrong', self.price(self.file('x\n' * 40), program=self.reference).stderr)

    def test_a_zero_byte_makes_no_job_of_a_text(self):
        text = EXAMPLES[0].read_bytes()
        for content, line in ((text + b'\0', text.count(b'\n') + 1), (b'\0' + text, 1), (text.replace(b'\n', b'\0\n', 1), 1), (text.decode().encode('utf-16-le'), 1),
                              (b'\0\0', 1)):
            self.check_sentence(self.price(self.file(content), program=self.reference), f':{line}: a zero byte')
        for damaged in (DOCUMENT_JOB[:9], DOCUMENT_JOB[4:], b'\xff' + DOCUMENT_JOB[1:]):
            self.assertEqual(self.price(self.file(damaged), program=self.reference).stdout, b'refused 1\n')

    def test_a_file_without_a_name(self):
        self.check_sentence(self.price('', program=self.reference), "'': No such file")
        self.assertEqual(run('job', '', '').stderr, b"'': No such file or directory\n")

    def test_a_program_that_is_missing(self):
        for name in ('tools', 'python'):
            shutil.copytree(ROOT / name, self.folder / 'clone' / name)
        (self.folder / 'clone/crates.txt').write_text('sheet:\n')
        (self.folder / 'clone/crates/sheet/src').mkdir(parents=True)
        file, tools = ROOT / 'examples/one-step.txt', self.folder / 'clone/tools'
        commands = self.folder / 'commands'
        commands.mkdir()
        for name in ('python3', 'dirname', 'readlink'):
            (commands / name).symlink_to(sys.executable if name == 'python3' else shutil.which(name))
        self.check_sentence(self.price(file, tools=tools, path=commands), 'no Rattle kit', 'tools/job FILE | python3 reference/reference.py')
        self.program('echo no; exit 1').rename(commands / 'rt')
        failed = self.price(file, tools=tools, path=commands)
        self.assertEqual((failed.returncode, failed.stdout), (2, b''))
        self.assertIn(b'there is no target/bin/sheet, and `rt run` in crates/sheet failed: target/sheet.log says why', failed.stderr)
        self.check_sentence(self.price(file, program='no-such-program'), 'no-such-program', 'MIXEGORTA_SHEET')
        self.check_sentence(self.price(file, program=self.file('no program')), 'does not run here', 'tools/building.py sheet')
        self.check_sentence(self.price(file, path=self.folder / 'nothing'), 'needs python3')

    def test_other_tools_that_lose_output(self):
        for tool, content in (('job', (ROOT / 'examples/one-step.txt').read_bytes()), ('draw', TODAY_SHEET), ('draw', b'refused 1\n')):
            with open('/dev/full', 'wb') as full:
                made = subprocess.run([sys.executable, '-B', str(ROOT / 'tools' / tool)], input=content, stdout=full, stderr=subprocess.PIPE)
            self.assertIn(made.returncode, (1, 2))
            self.assertRegex(made.stderr, rb'\Aoutput is lost: [^\n]*\n\Z')


class Books(Tool):
    """Programs in place of the proved one are small scripts, most of them the reference."""
    NAME, SETTING = 'book', 'MIXEGORTA_BOOK'

    def setUp(self):
        super().setUp()
        self.reference = self.program(f'exec "{sys.executable}" -B "{ROOT}/reference/book.py"')

    def test_the_example(self):
        desk = ROOT / 'examples/desk.book'
        self.assertEqual(self.run_tool('--frame', *EXAMPLES).stdout, desk.read_bytes())
        self.assertEqual([book.prices(job).number for job in book.taken(desk.read_bytes())[0]].count(0), 7)
        made = self.run_tool(*EXAMPLES, program=self.reference)
        self.assertEqual((made.stdout, made.returncode, made.stderr), (desk.with_suffix('.report').read_bytes(), 0, b''))

    @unittest.skipUnless((ROOT / 'target/bin/book').exists(), 'target/bin/book is not built: tools/building.py book')
    def test_the_proved_program(self):
        self.assertEqual(self.run_tool(*EXAMPLES).stdout, (ROOT / 'examples/desk.report').read_bytes())

    def test_fields(self):
        """Texts and jobs in their order, each as often as it is named; what is no job is framed too, for the report to count."""
        text, job, wrong = EXAMPLES[0], self.file(DOCUMENT_JOB), self.file(DOCUMENT_JOB[:9])
        made = run('job', text.read_bytes()).stdout
        for files, jobs in (([text], [made]), ([job, text, job], [DOCUMENT_JOB, made, DOCUMENT_JOB]), ([wrong], [DOCUMENT_JOB[:9]])):
            self.assertEqual(self.run_tool('--frame', *files).stdout, b''.join(map(book.framed, jobs)))
        made = self.run_tool(wrong, job, program=self.reference)
        self.assertIn(b'priced 0\nrefused 1 1\n', made.stdout)
        self.assertIn(b'refused 11 1\n', made.stdout)

    def test_a_book_by_standard_input(self):
        with open(ROOT / 'examples/desk.book', 'rb') as desk:
            made = self.run_tool(program=self.reference, stdin=desk)
        self.assertEqual((made.stdout, made.returncode), ((ROOT / 'examples/desk.report').read_bytes(), 0))

    def test_five_hundred(self):
        job = self.file(DOCUMENT_JOB[:-9])
        for count, one in ((500, 0), (501, 1)):
            made = self.run_tool(*[job] * count, program=self.reference)
            self.assertTrue(made.stdout.startswith(b'priced 500\nrefused 1 %d\n' % one))

    def test_what_cannot_be_framed(self):
        long = self.file(DOCUMENT_JOB + bytes(65_536))
        for files, words in ((['no-such-file'], ('no-such-file', 'No such file')), ([EXAMPLES[0], self.folder], ('Is a directory',)), ([long], ('65,583 bytes', '65,535')),
                             ([self.file('flow x')], (':1: flow is a decimal',)), (['--other'], ('--other', 'tools/book --help'))):
            self.check_sentence(self.run_tool(*files, program=self.reference), *words)

    def test_lost_output(self):
        whole = (ROOT / 'examples/desk.report').read_text()
        for shown in ('', whole[:-1], whole[:whole.index('dearest')], whole.replace('refused 6 0\n', ''), 'refused 1\n', whole + whole):
            self.check_sentence(self.run_tool(EXAMPLES[0], program=self.program(f"cat >/dev/null; printf '%s' '{shown}'")), 'output is lost')
        self.check_sentence(self.run_tool(EXAMPLES[0], program=self.program('kill -9 $$')), 'output is lost', 'signal 9')
        with open('/dev/full', 'wb') as full:
            self.check_sentence(self.run_tool(EXAMPLES[0], program=self.reference, stdout=full), 'output is lost', 'No space')

    def test_a_program_that_is_missing(self):
        for name in ('tools', 'python'):
            shutil.copytree(ROOT / name, self.folder / 'clone' / name)
        (self.folder / 'clone/crates.txt').write_text('book:\n')
        (self.folder / 'clone/crates/book/src').mkdir(parents=True)
        tools, commands = self.folder / 'clone/tools', self.folder / 'commands'
        commands.mkdir()
        for name in ('python3', 'dirname', 'readlink'):
            (commands / name).symlink_to(sys.executable if name == 'python3' else shutil.which(name))
        self.check_sentence(self.run_tool(EXAMPLES[0], tools=tools, path=commands), 'no Rattle kit', 'tools/book --frame FILE.. | python3 reference/book.py')
        self.program('echo no; exit 1').rename(commands / 'rt')
        failed = self.run_tool(EXAMPLES[0], tools=tools, path=commands)
        self.assertEqual((failed.returncode, failed.stdout), (2, b''))
        self.assertIn(b'there is no target/bin/book, and `rt run` in crates/book failed: target/book.log says why', failed.stderr)
        self.check_sentence(self.run_tool(EXAMPLES[0], program='no-such-program'), 'no-such-program', 'MIXEGORTA_BOOK')
        self.check_sentence(self.run_tool(EXAMPLES[0], path=self.folder / 'nothing'), 'needs python3')


class Drawing(unittest.TestCase):
    def tree(self, sheet):
        made = run('draw', sheet)
        self.assertEqual((made.returncode, made.stderr), (0, b''))
        return ElementTree.fromstring(made.stdout)

    def check_nodes(self, sheet):
        """Every node line has its mark, in the colour of its rate's sign."""
        lines = [line.split() for line in sheet.decode().splitlines() if line.startswith('node')]
        marks = [mark for mark in self.tree(sheet).iter() if mark.get('class') == 'node']
        self.assertEqual(len(marks), len(lines))
        for mark, (_, row, number, discount, rate) in zip(marks, lines):
            self.assertEqual(mark.find(SVG + 'title').text, f'row {row}, node {number}: discount {discount}, rate {rate}%')
            self.assertEqual(mark.get('fill'), NEGATIVE if float(rate) < 0 else POSITIVE)
            self.assertEqual(mark.tag, SVG + ('rect' if float(rate) < 0 else 'circle'))

    def heights(self, sheet):
        """Rates and how far down their marks stand."""
        for mark in self.tree(sheet).iter():
            if mark.get('class') == 'node':
                down = float(mark.get('cy') or float(mark.get('y')) + float(mark.get('height')) / 2)
                yield float(mark.find(SVG + 'title').text.split()[-1].rstrip('%')), down

    def sheets(self):
        return [path.with_suffix('.sheet').read_bytes() for path in EXAMPLES if path.stem not in ('refused', 'one-step')]

    def test_marks_of_the_examples(self):
        for sheet in self.sheets():
            self.check_nodes(sheet)

    def test_the_widest_tree(self):
        sheet = sheet_of(text_of(frequency=12, volatility=10_000, quotes=['rate 0.03 x 60'], flows=['flow 0.01 x 60']))
        self.assertEqual(sheet.count(b'node'), 3_600)
        self.check_nodes(sheet)

    def test_marks_stand_on_their_side_of_zero(self):
        for sheet in self.sheets():
            root = self.tree(sheet)
            zero = float(next(part for part in root.iter() if part.get('id') == 'zero').get('y1'))
            for rate, down in self.heights(sheet):
                self.assertTrue(down <= zero + 0.11 if rate >= 0 else down >= zero - 0.11, (rate, down, zero))

    def test_branches_are_those_of_the_reference(self):
        for reversion in (0, 500, 1_841):
            sheet = sheet_of(text_of(reversion=reversion, volatility=2_000, quotes=['rate 0.08 x 9'], flows=['flow 0.1 x 9']))
            path = next(part for part in self.tree(sheet).iter() if part.get('id') == 'branches').get('d')
            marks = self.places(sheet)
            expected = sorted('%s%s' % (marks[i, j], marks[i + 1, end]) for i in range(8) for j in reference.nodes(reversion, i)
                              for end, _ in reference.branches(reversion, j))
            self.assertEqual(sorted(piece.replace('L', ' ') + ' ' for piece in path.split('M')[1:]), expected)

    def places(self, sheet):
        """Where each node stands, by row and number, in a tree without rates below zero."""
        found = {}
        for mark in self.tree(sheet).iter():
            if mark.tag == SVG + 'circle' and mark.get('class') == 'node':
                words = mark.find(SVG + 'title').text.replace(',', ' ').replace(':', ' ').split()
                found[int(words[1]), int(words[3])] = f'{mark.get("cx")} {mark.get("cy")} '
        return found

    def test_prices_and_rows_are_shown(self):
        for sheet in self.sheets():
            shown = [part.text for part in self.tree(sheet).iter(SVG + 'text')]
            for words in (line.split() for line in sheet.decode().splitlines()):
                if words[0] in ('bond', 'option'):
                    self.assertTrue(any(f'{words[0].title()} {words[1]} (at most {words[2]} billionths' in text for text in shown))
                elif words[0] == 'row':
                    self.assertLess(set(words[1:]), set(shown))

    def test_a_job_beside_the_sheet(self):
        for path in EXAMPLES:
            sheet = path.with_suffix('.sheet').read_bytes()
            if sheet.startswith(b'refused'):
                continue
            f, n, b, s, version, quoted, _, _ = reference.read(run('job', path.read_bytes()).stdout)
            quotes = [reference.quote(f, row, *quote) for row, quote in enumerate(quoted, 1)]
            _, prices = reference.fit(n, reference.working_reversion(version or 1, b), reference.version_spacing(version or 1, f, s, b), quotes)
            root = ElementTree.fromstring(run('draw', sheet, '--job', str(path)).stdout)
            titles = [mark.find(SVG + 'title').text for mark in root.iter() if mark.get('class') == 'node']
            lines = [line.split() for line in sheet.decode().splitlines() if line.startswith('node')]
            self.assertEqual(len(titles), len(lines))
            for title, (_, row, number, discount, rate) in zip(titles, lines):
                billionths = int(rate.replace('.', '')) * f
                self.assertEqual(title, f'row {row}, node {number}: discount {discount}, rate {rate}%; {float(f"{int(row) / f:.3f}"):g} years, '
                                        f'{reference.percent(billionths)}% a year, state price {reference.amount(prices[int(row)][int(number)])}')
            self.assertIn('years from today', [text.text for text in root.iter(SVG + 'text')])

    def test_the_version_of_a_job(self):
        for name, told in (('exact-reversion', 'Reversion 0.2034 a step, working as 0.184 by version 2 \u00b7 volatility 1.2% a year'),
                           ('coupon-put', 'Reversion 0.05 a step \u00b7 volatility 0.8% a year')):
            path = ROOT / f'examples/{name}.txt'
            root = ElementTree.fromstring(run('draw', path.with_suffix('.sheet').read_bytes(), '--job', str(path)).stdout)
            self.assertTrue(any((text.text or '').startswith(f'{told} \u00b7 ') for text in root.iter(SVG + 'text')), told)

    def test_the_scale_is_where_the_state_price_lies(self):
        """With a job 99 % of each row's state price stands on the scale, between the torn lines, and all of it in the frame; zero is drawn after the nodes."""
        text = text_of(frequency=4, reversion=75, volatility=7_000, quotes=[f'yield {(row - 4) * 0.0006:.4f}' for row in range(1, 41)], flows=['flow 0.01 x 40'])
        with tempfile.TemporaryDirectory() as folder:
            path = pathlib.Path(folder) / 'job.txt'
            path.write_text(text)
            root = ElementTree.fromstring(run('draw', sheet_of(text), '--job', str(path)).stdout)
        upper, lower = sorted(float(part.get('d').split('l')[0].split()[1]) for part in root.iter() if part.get('class') == 'cut')
        held, whole = {}, {}
        for mark in root.iter():
            if mark.get('class') == 'node':
                words = mark.find(SVG + 'title').text.split()
                row, price = int(words[1].rstrip(',')), float(words[-1])
                down = float(mark.get('cy') or float(mark.get('y')) + float(mark.get('height')) / 2)
                whole[row] = whole.get(row, 0) + price
                held[row] = held.get(row, 0) + price * (upper <= down <= lower)
                self.assertTrue(100 < down < 580, down)
        self.assertEqual(len(held), 40)
        for row, price in held.items():
            self.assertGreaterEqual(price, 0.99 * whole[row])
        order = [part.get('class') or part.get('id') for part in root.iter() if part.get('class') == 'node' or part.get('id') == 'zero']
        self.assertEqual(order[-1], 'zero')

    def test_areas_are_state_prices(self):
        path = ROOT / 'examples/negative-curve.txt'
        root = ElementTree.fromstring(run('draw', path.with_suffix('.sheet').read_bytes(), '--job', str(path)).stdout)
        marks = [(float(mark.find(SVG + 'title').text.split()[-1]), float(mark.get('width') or 2 * float(mark.get('r'))) ** 2)
                 for mark in root.iter() if mark.get('class') == 'node' and mark.tag == SVG + 'rect']
        for price, area in marks:
            self.assertTrue(abs(area - marks[0][1] * price) < 5 or price < 0.0225, (price, area))

    def test_jobs_as_bytes_and_of_other_sheets(self):
        sheet, text = TODAY_SHEET, ROOT / 'examples/one-step-today.txt'
        self.assertEqual(*(run('draw', sheet, '--page', '--job', str(path)).stdout for path in (text, text.with_suffix('.job'))))
        for other, line in (('coupon-put', 1), ('one-step', 1), ('refused', 1)):
            made = run('draw', sheet, '--job', str(ROOT / f'examples/{other}.txt'))
            self.assertEqual((made.returncode, made.stdout), (2, b''))
            self.assertIn(b"the sheet is not this job's: its line %d is " % line, made.stderr)
        cheaper = run('draw', sheet.replace(b'0.007500000 2', b'0.007500001 2'), '--job', str(text))
        self.assertIn(b'line 4', cheaper.stderr)
        shorter = run('draw', sheet[:sheet.index(b'option')], '--job', str(text))
        self.assertIn(b"line 4 is 'nothing'", shorter.stderr)

    def test_a_page_says_what_it_is_of(self):
        """The file, the day and the version; the same bytes at the time that SOURCE_DATE_EPOCH names."""
        path, version = ROOT / 'examples/coupon-put.txt', re.search(
            r'__version__ = "(.*)"', (ROOT / 'python/mixegorta/__init__.py').read_text())[1]
        settings = {**os.environ, 'SOURCE_DATE_EPOCH': '1795000000'}
        made = [
            subprocess.run([sys.executable, '-B', ROOT / 'tools/draw', '--page', '--job', path],
                           input=path.with_suffix('.sheet').read_bytes(),
                           env=settings,
                           capture_output=True).stdout for _ in range(2)]
        self.assertEqual(*made)
        self.assertIn(
            f'<p id="source" class="soft">coupon-put, drawn on 2026-11-18 by mixegorta {version}</p>',
            made[0].decode())
        for given in (path.with_suffix('.sheet').read_bytes(), b'refused 9\n'):
            self.assertRegex(
                run('draw', given, '--page').stdout.decode(),
                rf'<p id="source".*>standard input, drawn on \d{{4}}-\d\d-\d\d by mixegorta {version}<')

    def test_pages(self):
        for path in EXAMPLES:
            sheet = path.with_suffix('.sheet').read_bytes()
            page = run('draw', sheet, '--page', '--job', str(path))
            self.assertEqual((page.returncode, page.stderr), (int(sheet.startswith(b'refused')), b''))
            self.assertTrue(page.stdout.startswith(b'<!DOCTYPE html>'))
            self.assertEqual(page.stdout.count(b'class="node"'), sheet.count(b'node'))
            self.assertNotRegex(page.stdout, rb'(?i)(src|href)\s*=|@import|url\(')

    def test_wrong_arguments(self):
        for arguments in (('--job',), ('--sheet',), ('x',), ('--job', 'no-such-file')):
            made = run('draw', TODAY_SHEET, *arguments)
            self.assertEqual((made.returncode, made.stdout, made.stderr.count(b'\n')), (2, b'', 1))

    def test_a_refusal_is_drawn(self):
        for number in range(1, len(source_tables.refusals()) + 1):
            made = run('draw', f'refused {number}\n')
            self.assertEqual(made.returncode, 1)
            texts = [part.text for part in ElementTree.fromstring(made.stdout).iter(SVG + 'text')]
            self.assertEqual(texts[0], f'Refused {number}')
            self.assertNotIn('unknown', texts[1])

    def test_what_is_no_sheet(self):
        node, row, bond = 'node 0 0 1.000000000 0.0000000\n', 'row 1 1.000000000 1.000000000 4\n', 'bond 1.000000000 2\n'
        self.assertEqual(run('draw', node + row + bond).returncode, 0)
        for text in ('', node, node + row, row + bond, node + bond, bond + node + row, node + node + row + bond, node + row + bond + bond,
                     node.replace('0 0', '0 1') + row + bond, node.replace('0 0', '1 0') + row + bond, node + row + bond + 'refused 1\n',
                     'refused 1\nrefused 2\n', 'refused x\n', 'refused ' + '1' * 5_000, node.replace(' 0.0', ' ' + '9' * 400 + '.0') + row + bond, node + row + 'bond 1 2\n', b'\xff\n'):
            made = run('draw', text)
            self.assertEqual((made.returncode, made.stdout), (2, b''), text)
            self.assertTrue(made.stderr.startswith(b'no sheet: '), made.stderr)


if __name__ == '__main__':
    unittest.main()
