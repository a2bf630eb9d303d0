#!/usr/bin/env python3
"""Tests of many books: equal bytes from one process, two and a cluster, nights that are broken off and go on, files and workers that are lost.

    tools/test_books.py

Needs the shared object. Cluster tests start a Dask scheduler and its workers on this machine, by a Python that has Dask; they are left out where none has.
"""
import functools
import json
import os
import pathlib
import random
import shutil
import signal
import socket
import subprocess
import sys
import tempfile
import time
import types
import unittest

sys.dont_write_bytecode = True
ROOT = pathlib.Path(__file__).resolve().parent.parent
sys.path[:0] = [str(ROOT / 'python'), str(ROOT / 'tools')]
import usage
from mixegorta_command import clusters, nights, streams, texts, valuing

m = usage.library(__doc__)
# Files of a small night, files of one that takes long enough to be broken off half way on a busy machine, and how long
# a command may take on such a one.
MANY, LONG, SECONDS = 2_000, 60, 600
# A package in place of mixegorta whose library dies: on every book, or on one with these bytes.
DEADLY = '''import importlib.util, os, sys
spec = importlib.util.spec_from_file_location('mixegorta', {real!r}, submodule_search_locations=[{folder!r}])
real = importlib.util.module_from_spec(spec)
sys.modules['mixegorta'] = real
spec.loader.exec_module(real)
whole = real.report_of_file
real.report_of_file = lambda file: os._exit(9) if {every} or bytes(file) == b'deadly' else whole(file)
'''


@functools.lru_cache(1)
def dask():
    """A Python that has Dask, or None."""
    for python in dict.fromkeys([sys.executable, '/usr/bin/python3', shutil.which('python3')]):
        if python and subprocess.run([python, '-c', 'import distributed'], capture_output=True).returncode == 0:
            return python
    return None


def jobs():
    return [texts.job_of(path.read_bytes(), str(path)) for path in sorted((ROOT / 'examples').glob('*.txt'))]


def settings(**more):
    return {**os.environ, 'PYTHONPATH': str(ROOT / 'python'), 'PYTHONDONTWRITEBYTECODE': '1', **more}


def alive(process):
    """Whether a process runs: it is there, and not only waits for its end to be told."""
    try:
        return pathlib.Path(f'/proc/{process}/stat').read_text().rpartition(')')[2].split()[0] != 'Z'
    except OSError:
        return False


def books(*arguments, python=sys.executable, path=None, given=None):
    more = {'PYTHONPATH': path} if path else {}
    return subprocess.run([python, '-m', 'mixegorta_command', 'books', *map(str, arguments)], input=given, env=settings(**more), capture_output=True,
                          timeout=SECONDS)


class Folder(unittest.TestCase):
    """Tests in a folder of their own, with books in it."""

    def setUp(self):
        place = tempfile.TemporaryDirectory()
        self.addCleanup(place.cleanup)
        self.folder = pathlib.Path(place.name)

    def book(self, name, content):
        path = self.folder / name
        path.write_bytes(content)
        return path

    def small(self, count, seed=1):
        """Books of a few jobs, some damaged, some empty, some equal."""
        draw, some = random.Random(seed), jobs()
        made = [m.book_of_jobs(draw.choices(some, k=draw.randrange(5))) for _ in range(count)]
        return [self.book(f'{place:05}.book', content[:-1] if place % 97 == 0 else content) for place, content in enumerate(made)]

    def large(self, count):
        """Books of 500 jobs of sixty steps, each of which takes a while."""
        path = ROOT / 'examples/sixty-months.txt'
        job = texts.job_of(path.read_bytes(), str(path))
        return [self.book(f'large-{place:02}.book', m.book_of_jobs([job] * (500 - place))) for place in range(count)]

    def deadly(self, every):
        """The path of a package whose library dies."""
        (self.folder / 'deadly').mkdir()
        init = ROOT / 'python/mixegorta/__init__.py'
        text = DEADLY.format(real=str(init), folder=str(init.parent), every=every)
        (self.folder / 'deadly/mixegorta.py').write_text(text)
        return f'{self.folder}/deadly:{ROOT}/python'

    def lines_of(self, files):
        """What the command must print, from the reports of the files by the library alone."""
        report = m.empty_report()
        for file in files:
            report = m.joined_reports(report, m.report_of_file(file.read_bytes()))
        counts = ''.join(f'refused {number} {count}\n' for number, count in enumerate(report.refused, 1))
        amounts = {word: f'{value // m.ONE}.{value % m.ONE:09}' for word, value in (('bonds', report.bonds), ('options', report.options), ('price', report.dearest))}
        return (f'books {report.books}\nunvalued 0\nfields {report.fields}\npriced {report.priced}\n{counts}bonds {amounts["bonds"]}\noptions {amounts["options"]}\n'
                f'allowances {report.error_bounds}\nprice {amounts["price"]}\ndearest {report.book} {report.place}\n').encode()


class Here(Folder):
    def test_equal_bytes(self):
        files = self.small(MANY)
        wanted = self.lines_of(files)
        for arguments in (('--processes', 1), ('--processes', 2), ('--processes', 5), ()):
            made = books(*arguments, *files)
            self.assertEqual((made.returncode, made.stdout, made.stderr), (0, wanted, b''))

    def test_names_by_standard_input_and_forms(self):
        files = self.small(40)
        listed = ''.join(f'{file}\n' for file in files[3:]).encode()
        for form in ([], ['--json'], ['--csv']):
            self.assertEqual(books(*form, *files[:3], '--names', '-', given=listed).stdout, books(*form, *files).stdout)
        told, report = json.loads(books('--json', *files).stdout), m.all_joined(m.report_of_file(file.read_bytes()) for file in files)
        self.assertEqual((told['dearest']['file'], told['dearest']['place']), (str(files[report.book - 1]), report.place))
        self.assertEqual((told['books'], told['refused']['1'], told['unvalued']), (40, report.refused[0], []))

    def test_parts_that_are_joined(self):
        files = self.small(60)
        cuts = [files[:7], files[7:8], files[8:33], files[33:]]
        parts = [self.book(f'part-{place}.json', books('--json', *cut).stdout) for place, cut in enumerate(cuts)]
        for form in ([], ['--json'], ['--csv']):
            self.assertEqual(books('--join', *form, *parts).stdout, books(*form, *files).stdout)
        self.assertNotEqual(books('--join', *parts[::-1]).stdout, books(*files).stdout)
        told = json.loads(parts[0].read_bytes())
        for change in ({'fields': 0}, {'bonds': '1000.5'}, {'bonds': '1.0000000001'}, {'priced': -1}, {'priced': 2 ** 64}, {'books': '7'}, {'bonds': 7}, {'version': '0.1.0'}, {'dearest': None}):
            made = books('--join', self.book('wrong.json', json.dumps({**told, **change}).encode()), parts[1])
            self.assertEqual((made.returncode, made.stdout, made.stderr.count(b'\n')), (2, b'', 1), change)
            self.assertNotIn(b'Traceback', made.stderr)

    def test_files_that_cannot_be_read(self):
        files = self.small(20)
        made = books(*files[:5], self.folder / 'missing', self.folder, *files[5:])
        self.assertEqual((made.returncode, made.stdout), (1, self.lines_of(files).replace(b'unvalued 0', b'unvalued 2')))
        self.assertEqual(made.stderr.decode(), f'{self.folder}/missing: not valued: No such file or directory\n{self.folder}: not valued: Is a directory\n')
        self.assertEqual(books('--processes', 1, '/nowhere').stdout.split(b'\n')[:2], [b'books 0', b'unvalued 1'])

    def test_files_of_another_kind(self):
        """A text, a job or a sheet is no book of zeros: it is named, with the command that takes it; alone it is no
        report at all."""
        files, text = self.small(6), ROOT / 'examples/coupon-put.txt'
        others = {
            text: 'the text of a job: `mixegorta price FILE` prices it',
            ROOT / 'examples/one-step-today.job': 'a job: `mixegorta price FILE` prices it',
            text.with_suffix('.sheet'): 'a sheet: `mixegorta draw < FILE` draws it',
            self.book('part.json',
                      books('--json', *files).stdout): 'a report that `mixegorta books --json` wrote: `mixegorta books --join FILE..` takes it'
        }
        for other, what in others.items():
            made = books(other)
            self.assertEqual((made.returncode, made.stdout, made.stderr.count(b'\n')), (2, b'', 1), made.stderr)
            self.assertIn(f'{other}: no book: this is {what}', made.stderr.decode())
        made = books(*others)
        self.assertEqual((made.returncode, made.stdout, b'none of the 4 files is a book' in made.stderr),
                         (2, b'', True))
        made = books(*files[:3], text, *files[3:])
        self.assertEqual((made.returncode, made.stdout),
                         (1, self.lines_of(files).replace(b'unvalued 0', b'unvalued 1')))
        self.assertIn(f'{text}: not valued: this is the text of a job', made.stderr.decode())
        # bytes of no kind that is known are taken for a book, and counted as the engine counts them
        for other in (ROOT / 'LICENSE', self.book('odd.book', b'odd'), self.book('none.book', b'')):
            made = books(*files, other)
            self.assertEqual((made.returncode, made.stdout, made.stderr), (0, self.lines_of([*files, other]), b''))

    def test_a_process_that_dies(self):
        files, path = self.small(30), self.deadly(every=False)
        made = books('--processes', 2, *files[:9], self.book('deadly.book', b'deadly'), *files[9:], path=path)
        self.assertEqual((made.returncode, made.stdout), (1, self.lines_of(files).replace(b'unvalued 0', b'unvalued 1')), made.stderr)
        self.assertIn(b'deadly.book: not valued: the process that valued it died', made.stderr)

    def test_processes_end_with_the_command(self):
        """Killed, it leaves no process behind."""
        files = self.large(6)
        with subprocess.Popen([sys.executable, '-m', 'mixegorta_command', 'books', '--processes', '2', *map(str, files)], env=settings(), stdout=subprocess.DEVNULL,
                              stderr=subprocess.DEVNULL) as running:
            children = pathlib.Path(f'/proc/{running.pid}/task/{running.pid}/children')
            if not children.exists():
                self.skipTest('the system does not tell the children of a process')
            while running.poll() is None and len(children.read_text().split()) < 2:
                time.sleep(0.005)
            left = children.read_text().split()
            running.kill()
        self.assertEqual(len(left), 2)
        until = time.monotonic() + SECONDS
        while any(map(alive, left)) and time.monotonic() < until:
            time.sleep(0.02)
        self.assertFalse(any(map(alive, left)))

    def test_more_bytes_than_a_book_has(self):
        """A file is read as far as its report depends on it."""
        book = m.book_of_jobs([bytes(65_535)] * 500)
        self.assertEqual(len(book), nights.MOST_BYTES - 1)
        long = self.book('long.book', book + bytes(10 ** 6))
        self.assertEqual(books(long).stdout, self.lines_of([long]))

    def test_what_is_wrong_is_one_sentence(self):
        part = self.book('part.json', b'{}')
        for arguments in ((), ('--processes', '0', part), ('--processes', 'x', part), ('--processes', 2, '--scheduler', 'tcp://a:1', part), ('--names', '/nowhere'),
                          ('--join', part), ('--join', '/nowhere'), ('--join', '--resume', 'x', part), ('--resume', part, part), ('--resume', '/proc/x', part)):
            made = books(*arguments)
            self.assertEqual((made.returncode, made.stdout, made.stderr.count(b'\n')), (2, b'', 1), (arguments, made.stderr))
            self.assertNotIn(b'Traceback', made.stderr)

    def test_progress(self):
        files = self.small(5)
        self.assertRegex(books('--progress', *files).stderr.decode().splitlines()[-1], r'\A\[#{24}\] 5 of 5 files  [\d,]+ jobs  [\d,]+ jobs/s  0:00 left *\Z')


class Resumed(Folder):
    def test_what_a_broken_run_left_half_written_is_cleared(self):
        """A file of a process that is gone, and one of an older version; what a process that lives writes stays, and
        nothing new is left."""
        files, state = self.small(5), self.folder / 'state'
        state.mkdir()
        gone = subprocess.Popen(['true'])
        gone.wait()
        host = socket.gethostname()
        left = [state / f'.part-{host}-{gone.pid}-abc', state / '.part-abcdefgh', state / f'.part-elsewhere-1-abc']
        kept = state / f'.part-{host}-{os.getpid()}-abc'
        for path in (*left, kept):
            path.write_bytes(b'{"half')
        os.utime(left[2], (0, 0))
        made = books('--resume', state, *files)
        self.assertEqual((made.returncode, made.stdout), (0, self.lines_of(files)))
        self.assertEqual([path.exists() for path in (*left, kept)], [False] * 3 + [True])
        self.assertEqual(sorted(state.glob('.part-*')), [kept])

    def test_a_full_disk(self):
        """What was kept stays, and is not called lost; nothing half written is left."""
        files, state = self.large(4), self.folder / 'state'
        self.assertEqual(books('--resume', state, *files[:2]).returncode, 0)
        before = sorted(state.iterdir())
        code = ('import os, sys; from mixegorta_command import command, nights\n'
                'def full(place): raise OSError(28, "No space left on device")\n'
                'nights.os.fsync = full; sys.exit(command.main(sys.argv[1:]))')
        made = subprocess.run(
            [sys.executable, '-c', code, 'books', '--processes', '1', '--resume',
             str(state), *map(str, files)],
            env=settings(),
            capture_output=True)
        self.assertEqual((made.returncode, made.stdout, made.stderr.count(b'\n')), (2, b'', 1), made.stderr)
        self.assertIn(b'No space left on device: no more reports can be kept there; those that are there stay',
                      made.stderr)
        self.assertNotIn(b'are not kept', made.stderr)
        self.assertEqual(sorted(state.iterdir()), before)
        self.assertEqual(books('--resume', state, *files).stdout, self.lines_of(files))

    def test_a_night_that_is_killed_goes_on(self):
        files, state = self.large(12), self.folder / 'state'
        wanted = self.lines_of(files)
        command = [sys.executable, '-m', 'mixegorta_command', 'books', '--processes', '2', '--resume', str(state), *map(str, files)]
        for kept in (2, 5):
            with subprocess.Popen(command, env=settings(), stdout=subprocess.PIPE, stderr=subprocess.PIPE, start_new_session=True) as running:
                while len(list(state.glob('*.json'))) < kept and running.poll() is None:
                    time.sleep(0.005)
                os.killpg(running.pid, signal.SIGKILL)
                self.assertEqual(running.communicate()[0], b'')
        done = len(list(state.glob('*.json')))
        self.assertTrue(5 <= done < len(files), done)
        made = books('--resume', state, '--progress', *files)
        self.assertEqual((made.returncode, made.stdout), (0, wanted))
        fields = sum(500 - place for place in range(len(files)))
        self.assertLess(int(made.stderr.decode().splitlines()[-1].split('files')[1].split()[0].replace(',', '')), fields)
        again = books('--resume', state, '--progress', *files[::-1])
        self.assertIn(' 0 jobs', again.stderr.decode())
        self.assertEqual(again.stdout, self.lines_of(files[::-1]))

    def test_damaged_and_foreign_files(self):
        files, state = self.small(50), self.folder / 'state'
        wanted = books('--resume', state, *files).stdout
        kept = sorted(state.glob('*.json'))
        whole = json.loads(kept[0].read_bytes())
        key = next(iter(whole['reports']))
        changed = {**whole, 'reports': {**whole['reports'], key: [1, 500, 0, [500] + [0] * 12, 0, 0, 0, 0, 0, 0]}}
        for content in (kept[0].read_bytes()[:-9], b'', b'\xff', b'[]', json.dumps(changed).encode(), json.dumps({**changed, 'version': '0.0.0'}).encode()):
            kept[0].write_bytes(content)
            made = books('--resume', state, *files)
            self.assertEqual((made.returncode, made.stdout), (0, wanted), content[:40])
            self.assertEqual(b'1 damaged' in made.stderr, b'0.0.0' not in content)


@unittest.skipUnless(dask(), 'no Python here has Dask')
class OnACluster(Folder):
    def setUp(self):
        super().setUp()
        self.started = []
        self.addCleanup(self.stop)
        self.scheduler()

    def scheduler(self):
        """Starts a scheduler at an address of its own."""
        with socket.socket() as free:
            free.bind(('127.0.0.1', 0))
            port = free.getsockname()[1]
        self.address = f'tcp://127.0.0.1:{port}'
        self.log = self.folder / f'scheduler-{len(self.started)}.log'
        return self.start('scheduler', '--host', '127.0.0.1', '--port', str(port), '--no-dashboard')

    def ready(self, workers):
        """Waits until so many workers have come to the last scheduler; on a busy machine they are longer than the
        command waits for them."""
        until = time.monotonic() + SECONDS
        while self.log.read_bytes().count(b'Register worker') < workers and time.monotonic() < until:
            time.sleep(0.05)
        self.assertGreaterEqual(self.log.read_bytes().count(b'Register worker'), workers, self.log.read_text())

    def start(self, name, *arguments, path=None):
        log = open(self.folder / f'{name}-{len(self.started)}.log', 'wb')
        more = {'DASK_DISTRIBUTED__SCHEDULER__ALLOWED_FAILURES': '1', **({'PYTHONPATH': path} if path else {})}
        self.started.append(subprocess.Popen([dask(), '-m', f'distributed.cli.dask_{name}', *arguments], env=settings(**more), stdout=log, stderr=log, cwd=self.folder,
                                             start_new_session=True))
        log.close()
        return self.started[-1]

    def worker(self, path=None, nanny=False):
        return self.start('worker', self.address, '--nthreads', '1', '--no-dashboard', '--nanny' if nanny else '--no-nanny', '--local-directory', str(self.folder), path=path)

    def stop(self):
        for process in reversed(self.started):
            if process.poll() is None:
                os.killpg(process.pid, signal.SIGKILL)
            process.wait()

    def books(self, *arguments):
        return books('--scheduler', self.address, *arguments, python=dask())

    def test_equal_bytes(self):
        files = self.small(MANY)
        self.worker(), self.worker()
        self.ready(2)
        made = self.books(*files)
        self.assertEqual((made.returncode, made.stdout), (0, self.lines_of(files)), made.stderr)

    def test_a_worker_is_killed_half_way(self):
        files, state = self.large(12), self.folder / 'state'
        lost, _ = self.worker(), self.worker()
        self.ready(2)
        command = [dask(), '-m', 'mixegorta_command', 'books', '--scheduler', self.address, '--resume', str(state), *map(str, files)]
        with subprocess.Popen(command, env=settings(), stdout=subprocess.PIPE, stderr=subprocess.PIPE) as running:
            while len(list(state.glob('*.json'))) < 3 and running.poll() is None:
                time.sleep(0.005)
            self.assertIsNone(running.poll())
            os.killpg(lost.pid, signal.SIGKILL)
            shown, told = running.communicate(timeout=SECONDS)
        self.assertEqual((running.returncode, shown), (0, self.lines_of(files)), told)

    def test_a_file_that_kills_its_workers(self):
        files, path = self.small(30), self.deadly(every=False)
        for _ in range(2):
            self.worker(path=path, nanny=True)
        self.ready(2)
        made = self.books(*files[:9], self.book('deadly.book', b'deadly'), *files[9:])
        self.assertEqual((made.returncode, made.stdout), (1, self.lines_of(files).replace(b'unvalued 0', b'unvalued 1')), made.stderr)
        self.assertIn(b'deadly.book: not valued', made.stderr)

    def test_that_workers_died_is_told(self):
        """Also where there is but one worker, and a nanny that starts it again."""
        files = self.small(30)
        self.worker(path=self.deadly(every=False), nanny=True)
        self.ready(1)
        made = self.books(*files[:9], self.book('deadly.book', b'deadly'), *files[9:])
        self.assertEqual((made.returncode, made.stdout), (1, self.lines_of(files).replace(b'unvalued 0', b'unvalued 1')), made.stderr)
        self.assertIn(b'31 files ran once more, each alone, since the workers that took them died; look at the logs of the workers\n', made.stderr)

    def test_a_scheduler_that_is_killed(self):
        """Wherever the command stands, it ends with a sentence and 2, keeps what was done, and goes on from there."""
        for kept in (0, 1, 3):
            files, state, scheduler = self.large(LONG), self.folder / f'state-{kept}', self.scheduler()
            self.worker()
            self.ready(1)
            command = [
                dask(), '-m', 'mixegorta_command', 'books', '--scheduler', self.address, '--resume',
                str(state), *map(str, files)]
            with subprocess.Popen(command, env=settings(), stdout=subprocess.PIPE, stderr=subprocess.PIPE) as running:
                while len(list(state.glob('*.json'))) < kept and running.poll() is None:
                    time.sleep(0.005)
                time.sleep(0.5 * (not kept))
                os.killpg(scheduler.pid, signal.SIGKILL)
                shown, told = running.communicate(timeout=SECONDS)
            self.assertEqual((running.returncode, shown, told.count(b'\n')), (2, b'', 1), told)
            self.assertNotIn(b'Traceback', told)
            self.assertIn(f'--scheduler {self.address}: '.encode(), told)
            self.assertEqual(books('--resume', state, *files).stdout, self.lines_of(files))

    def test_a_scheduler_without_workers(self):
        """One sentence and nothing more, after the time that it names."""
        code = 'import sys; from mixegorta_command import clusters, command; clusters.WORKER_SECONDS = 2; sys.exit(command.main(sys.argv[1:]))'
        while b'Scheduler at' not in self.log.read_bytes():
            time.sleep(0.05)
        made = subprocess.run([dask(), '-c', code, 'books', '--scheduler', self.address, *map(str, self.small(3))],
                              env=settings(),
                              capture_output=True,
                              timeout=SECONDS)
        self.assertEqual((made.returncode, made.stdout, made.stderr.count(b'\n')), (2, b'', 1), made.stderr)
        self.assertIn(b'it has no worker after 2 seconds; start one by', made.stderr)

    def test_a_worker_that_dies_on_every_task(self):
        self.worker(path=self.deadly(every=True), nanny=True)
        self.ready(1)
        made = self.books(*self.small(200))
        self.assertEqual((made.returncode, made.stdout, made.stderr.count(b'\n')), (2, b'', 1), made.stderr)
        self.assertIn(b'every worker that took a task died', made.stderr)

    def test_a_worker_of_another_version(self):
        (self.folder / 'old').mkdir()
        (self.folder / 'old/mixegorta.py').write_text("__version__ = '0.1.0'\nreport_of_file = lambda file: (0,) * 10\n")
        self.worker(path=f'{self.folder}/old:{ROOT}/python')
        self.ready(1)
        made = self.books(*self.small(3))
        self.assertEqual((made.returncode, made.stdout), (2, b''))
        self.assertIn(b'a worker has mixegorta 0.1.0 and this command', made.stderr)

    def test_a_worker_without_the_package(self):
        self.worker(path=str(self.folder))
        self.ready(1)
        made = self.books(*self.small(3))
        self.assertEqual((made.returncode, made.stdout, made.stderr.count(b'\n')), (2, b'', 1), made.stderr)
        self.assertIn(b'install mixegorta', made.stderr)


class Killed(Exception):
    """What Dask raises of a task whose workers died."""


class Future:
    """A task of a cluster that counts the death of a worker against every task that waited on it."""

    def __init__(self, contents):
        self.contents, self.status = contents, 'pending'

    def result(self, timeout):
        return valuing.valued(self.contents)

    def exception(self, timeout):
        return Killed('killed')


class Suspected(Folder):
    """Files whose workers die, on a cluster that is only acted."""

    def night(self, deadly, files, window=4):
        """A night on a cluster whose workers die on these bytes, with how many tasks waited together each time."""
        waited, cluster = [], clusters.Cluster.__new__(clusters.Cluster)

        def wait(futures, timeout, return_when):
            waited.append(len(futures))
            died = any(content in deadly for future in futures for content in future.contents)
            for future in futures:
                future.status = 'error' if died else 'finished'
            return types.SimpleNamespace(done=futures)

        cluster.distributed, cluster.address, cluster.window = types.SimpleNamespace(KilledWorker=Killed, wait=wait), 'tcp://nowhere', window
        cluster.client = types.SimpleNamespace(id='acted', submit=lambda task, contents, key, pure: Future(contents), close=lambda timeout: None)
        cluster.running, cluster.suspects, cluster.alone, cluster.late, cluster.closed = {}, [], None, (TimeoutError,), False
        cluster.deaths = cluster.deaths_alone = cluster.answered = cluster.number = cluster.apart = 0
        night = nights.Night([str(file) for file in files])
        night.value(cluster)
        return night, cluster, waited

    def test_healthy_files_that_waited_on_a_worker_that_died(self):
        """They are valued alone before any is called dead; the one that kills its workers then is."""
        files = self.small(150)
        deadly = self.book('deadly.book', b'deadly')
        night, cluster, waited = self.night([b'deadly'], [*files[:9], deadly, *files[9:]])
        self.assertEqual(night.unvalued, {9: nights.DIED})
        self.assertEqual([report for report in night.reports if report is not None], [m.report_of_file(file.read_bytes()) for file in files])
        self.assertEqual((waited[0], set(waited[2:]), cluster.told().split()[0]), (4, {1}, str(len(waited[2:]))))
        self.assertIsNone(self.night([], files)[1].told())

    def test_workers_that_die_on_every_task(self):
        """Three files that ran alone tell it where nothing was answered; of a small night too."""
        for count in (3, 200):
            files = self.small(count)
            with self.assertRaisesRegex(streams.Stop, 'every worker that took a task died'):
                self.night([file.read_bytes() for file in files], files)


class PlainProcesses(Folder):
    """The examples of examples/night, with a command `mixegorta` on the path that is this one."""

    def setUp(self):
        super().setUp()
        program = self.folder / 'bin/mixegorta'
        program.parent.mkdir()
        program.write_text(f'#!/bin/sh\nexec "{sys.executable}" -m mixegorta_command "$@"\n')
        program.chmod(0o755)
        (self.folder / 'books').mkdir()
        self.files = [file.rename(self.folder / 'books' / file.name) for file in self.small(250)]

    def script(self, name, *arguments, **more):
        path = {'PATH': f'{self.folder}/bin:{os.environ["PATH"]}'}
        return subprocess.run(['sh', ROOT / 'examples/night' / name, *map(str, arguments)], env=settings(**path, **more), capture_output=True, timeout=SECONDS)

    def test_xargs(self):
        for _ in range(2):
            made = self.script('xargs.sh', self.folder / 'books', self.folder / 'parts', 2)
            self.assertEqual((made.returncode, made.stdout, made.stderr), (0, self.lines_of(self.files), b''))
            (self.folder / 'parts/names.000001.json').unlink()

    def test_a_part_is_done_only_with_its_whole_report(self):
        """A command that fails, whatever its status, leaves no part; one that names a file which it could not value
        does."""
        self.script('names.sh', self.folder / 'books', self.folder / 'parts', 60)
        part, program = self.folder / 'parts/names.000001', self.folder / 'bin/mixegorta'
        real = program.read_text()
        for lines in ('exit 1', 'echo Traceback >&2; exit 1', "printf '{\\n'; exit 0", 'exit 2', 'exit 70',
                      "printf '{\\n}\\n'; exit 2"):
            program.write_text(f'#!/bin/sh\n{lines}\n')
            self.assertNotEqual(self.script('part.sh', part).returncode, 0, lines)
            self.assertFalse(pathlib.Path(f'{part}.json').exists(), lines)
        program.write_text(real)
        with open(part, 'a') as names:
            names.write('/nowhere\n')
        self.assertEqual(self.script('part.sh', part).returncode, 0)
        self.assertEqual(
            json.loads(pathlib.Path(f'{part}.json').read_bytes())['unvalued'],
            [{'file': '/nowhere', 'why': 'No such file or directory'}])

    def test_slurm(self):
        """The tasks of an array in another order, one of them twice, as Slurm runs them."""
        self.assertEqual(self.script('names.sh', self.folder / 'books', self.folder / 'parts', 60).stdout, b'5\n')
        for task in ('4', '1', '0', '1', '3', '2'):
            made = self.script('slurm.sh', self.folder / 'parts', SLURM_ARRAY_TASK_ID=task)
            self.assertEqual((made.returncode, made.stdout, made.stderr), (0, b'', b''))
        parts = sorted((self.folder / 'parts').glob('names.*.json'))
        self.assertEqual((len(parts), books('--join', *parts).stdout), (5, self.lines_of(self.files)))


class WithoutDask(unittest.TestCase):
    def test_a_sentence(self):
        made = books('--scheduler', 'tcp://127.0.0.1:1', '/nowhere', path=f'{ROOT}/python', python=sys.executable) if dask() != sys.executable else None
        if made:
            self.assertEqual((made.returncode, made.stdout, b'install Dask' in made.stderr), (2, b'', True))


if __name__ == '__main__':
    unittest.main()
