"""What the tests of another target's library have in common: the tests in C, the C examples of the documents, compare's
jobs and the stack that calls take. tools/test_windows.py and tools/test_arm.py run them by an emulator."""
import importlib.machinery
import importlib.util
import pathlib
import re
import shutil
import subprocess
import sys
import tempfile
import unittest

sys.dont_write_bytecode = True
import compiling
import manual
import source_tables
import stack

ROOT = compiling.ROOT
sys.path.insert(0, str(ROOT / 'reference'))
import reference

WARNINGS = ('-std=c11', '-O2', '-Wall', '-Wextra', '-Wpedantic', '-Werror', '-I', ROOT / 'c')
# The programs of c/ with what they are handed; each prints how much it checked and that nothing failed.
PROGRAMS = {'test': (), 'shelf': (), 'strips': (), 'bands': (), 'jobs': (), 'pair': (),
            'books': ('crates/book_cases/stdin', 'crates/book_cases/stdout'),
            'widths': ('reference/widths.txt', 'crates/sheet_cases/stdin', 'crates/sheet_cases/stdout')}
NOTHING_FAILED = re.compile(r'\b[1-9]\d* (?:checks|lines)\b.*, 0 fail(?:ed|ures)\s*\Z')
README_EXAMPLE, README_PRICE = re.compile(r'^```c\n(.*?)^```$', re.M | re.S), '1002500000 at most 2 from exact\n'
JOBS, SEED = 300, 1


def readme_example():
    """The C example of README.md, which prints README_PRICE."""
    return README_EXAMPLE.search((ROOT / 'README.md').read_text(encoding='utf-8'))[1]


def manual_examples():
    """The C examples of the manual, each with what it prints."""
    listed = manual.blocks()
    return [(code, wanted) for (language, code), (_, wanted) in zip(listed, listed[1:]) if language == 'c']


def compared_jobs():
    """The jobs that compare/jobs makes, each also as told otherwise where there is such a job, with their sheets."""
    loader = importlib.machinery.SourceFileLoader('compare_jobs', str(ROOT / 'compare/jobs'))
    module = importlib.util.module_from_spec(importlib.util.spec_from_loader('compare_jobs', loader))
    loader.exec_module(module)
    for _, job, same in module.cases(JOBS, SEED):
        sheet = reference.sheet(job)
        yield from ((each, sheet) for each in (job, same) if each)


def written_sheets(content):
    """The sheets that c/sheets.c has written, each behind its size."""
    found, place = [], 0
    while place < len(content):
        end = content.index(b'\n', place)
        size = int(content[place:end])
        found.append(content[end + 1:end + 1 + size])
        place = end + 1 + size
    return found


class OnTarget:
    """A library of another target: target, emulator, suffix of a program and libraries to link are the test's own."""

    @classmethod
    def setUpClass(cls):
        place = tempfile.TemporaryDirectory()
        cls.addClassCleanup(place.cleanup)
        cls.folder = pathlib.Path(place.name).resolve()
        cls.made = {path.name: path for path in compiling.targets([cls.target])[cls.target]}
        cls.prepare()

    def program(self, source, *libraries):
        """A program of a C source, compiled for the target without a warning."""
        made = self.folder / (pathlib.Path(source).stem + self.suffix)
        compiler = compiling.COMPILERS[self.target]
        command = [compiler, *WARNINGS, '-o', made, source, *libraries]
        done = subprocess.run(command, cwd=ROOT, capture_output=True, text=True)
        self.assertEqual(done.returncode, 0, done.stderr)
        return made

    def printed(self, program, *arguments):
        """What a program prints under the emulator, with the line ends of Linux."""
        done = subprocess.run([*self.emulator, program, *arguments], cwd=ROOT, env=self.settings,
                              stdin=subprocess.DEVNULL, stdout=subprocess.PIPE, stderr=subprocess.PIPE)
        self.assertEqual(done.returncode, 0, f'{program.name}: {done.stdout[-400:]} {done.stderr[-400:]}')
        return done.stdout.decode().replace('\r\n', '\n')

    def linked(self, name):
        return self.program(ROOT / 'c' / f'{name}.c', *self.libraries)

    def test_the_tests_in_c(self):
        for name, arguments in PROGRAMS.items():
            with self.subTest(name):
                self.assertRegex(self.printed(self.linked(name), *arguments), NOTHING_FAILED)

    def test_every_function_is_called(self):
        """So that every struct is handed over and returned by the target's own rules."""
        called = ''.join((ROOT / 'c' / f'{name}.c').read_text(encoding='utf-8') for name in PROGRAMS)
        self.assertEqual([name for name in compiling.names() if not re.search(rf'\b{name}\(', called)], [])

    def test_the_words_of_refusals(self):
        lines = self.printed(self.linked('causes')).splitlines()
        for refusal in source_tables.refusals():
            self.assertIn(f'refused {refusal.number}: {refusal.cause}', lines)

    def test_the_examples_of_the_documents(self):
        examples = manual_examples()
        self.assertGreater(len(examples), 5)
        source = self.folder / 'example.c'
        for code, wanted in [(readme_example(), README_PRICE), *examples]:
            source.write_text(code, encoding='utf-8')
            self.assertEqual(self.printed(self.program(source, *self.libraries)), wanted)

    def test_the_jobs_of_compare(self):
        cases = list(compared_jobs())
        jobs, out = self.folder / 'jobs', self.folder / 'sheets.out'
        jobs.write_bytes(b''.join(len(job).to_bytes(2, 'big') + job for job, _ in cases))
        self.printed(self.linked('sheets'), jobs, out)
        sheets = written_sheets(out.read_bytes())
        self.assertEqual(len(sheets), len(cases))
        self.assertGreater(sum(not sheet.startswith(b'refused') for sheet in sheets), JOBS // 2)
        for (job, wanted), sheet in zip(cases, sheets):
            self.assertEqual(sheet, wanted, job.hex())

    def test_the_stack_that_the_manual_gives(self):
        lines = self.printed(self.linked('stack')).splitlines()
        calls = {name: int(size) for name, size in map(str.split, lines)}
        manual = (ROOT / 'docs/MANUAL.md').read_text(encoding='utf-8')
        self.assertEqual(stack.faults_of_calls(calls, manual), [])

    def test_every_export_is_found_by_its_name(self):
        job = self.folder / 'note.job'
        job.write_bytes(subprocess.run([ROOT / 'tools/job', 'examples/callable-note.txt'], cwd=ROOT, check=True,
                                       stdout=subprocess.PIPE).stdout)
        shown = self.printed(self.program(ROOT / 'c/loaded.c'), self.loadable(), job, *compiling.names())
        sheet = (ROOT / 'examples/callable-note.sheet').read_text(encoding='utf-8')
        prices = sheet[sheet.index('\nbond ') + 1:]
        self.assertEqual(shown, sheet + prices)


def run(target, programs):
    """Runs the calling script's tests, or says in one line what they lack, with exit status 2."""
    lacks = [program for program in programs if not shutil.which(program)]
    if lacks and not {'-h', '--help'} & set(sys.argv):
        print(f'{target} is not tested, since {" and ".join(lacks)} {"is" if len(lacks) == 1 else "are"} not installed')
        sys.exit(2)
    unittest.main()
