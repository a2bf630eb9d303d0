"""A night of books: files to batches, batches to workers, and each file's report to its place. The order in which answers come changes nothing."""
import ctypes
import hashlib
import json
import os
import signal
import socket
import sys
import tempfile
import time
from collections import namedtuple
from concurrent import futures
from concurrent.futures.process import BrokenProcessPool

from . import kinds
from .streams import Stop
from .valuing import MOST_BYTES, valued, valued_apart

# Some 50 milliseconds of work, so that a lost batch costs little and its way to a worker costs less.
BATCH_BYTES, BATCH_FILES = 65_536, 32
PARENT_DEATH_SIGNAL = 1
# A file that is being written: its name tells the machine and the process, so that what a broken run left is known.
PART, DAY_SECONDS = '.part-', 86_400
DIED = 'the process that valued it died, alone with it too'

# Files of a batch by their places among all, with their bytes and their keys.
Batch = namedtuple('Batch', 'places contents keys')
# What became of a batch: its reports, or None where its worker died.
Answer = namedtuple('Answer', 'batch reports')


def library():
    """The package mixegorta, or a sentence where its library is missing."""
    try:
        import mixegorta
    except ImportError as error:
        raise Stop(str(error))
    return mixegorta


def reports_of(answer):
    """The reports of a task's answer, where the library of whoever gave it is this one."""
    package = library()
    version, reports = answer
    if version != package.__version__:
        raise Stop(f'a worker has mixegorta {version} and this command {package.__version__}: install one version everywhere')
    return [package.Report(*report) for report in reports]


def is_written(folder, name):
    """Whether a run that is still there writes this file: a process of this machine that lives, or one of another
    machine within a day."""
    host, _, process = name[len(PART):].rpartition('-')[0].rpartition('-')
    try:
        if host != socket.gethostname():
            return bool(host) and time.time() - os.path.getmtime(os.path.join(folder, name)) < DAY_SECONDS
        os.kill(int(process), 0)
        return int(process) != os.getpid()
    except PermissionError:
        return True
    except (OSError, ValueError):
        return False


def unlinked(path):
    """Removes a file where it is there."""
    try:
        if path is not None:
            os.unlink(path)
    except OSError:
        pass


class State:
    """Reports of files that are done, in a folder: a file for each batch, written whole or not at all, by the hashes of the books' bytes."""

    def __init__(self, folder):
        self.folder, self.version, self.reports, self.damaged = folder, library().__version__, {}, 0
        try:
            os.makedirs(folder, exist_ok=True)
            names = sorted(name for name in os.listdir(folder) if name.endswith('.json'))
        except OSError as error:
            raise Stop(f'--resume {folder}: {error.strerror}')
        self._clear()
        for name in names:
            self.reports.update(self._kept(os.path.join(folder, name)))

    def _clear(self):
        """Removes what a broken run left half written; what another run writes at this time stays."""
        for name in os.listdir(self.folder):
            if name.startswith(PART) and not is_written(self.folder, name):
                try:
                    os.unlink(os.path.join(self.folder, name))
                except OSError:
                    pass

    def _sum(self, reports):
        return hashlib.sha256(json.dumps([self.version, reports], sort_keys=True).encode()).hexdigest()

    def _kept(self, path):
        """The reports of one file of this version; none of a file that is damaged, which is valued again."""
        try:
            with open(path, encoding='ascii') as file:
                found = json.load(file)
            if found['version'] != self.version:
                return {}
            if found['sum'] != self._sum(found['reports']):
                raise ValueError
            return {key: library().Report(*report[:3], tuple(report[3]), *report[4:]) for key, report in found['reports'].items()}
        except (OSError, ValueError, KeyError, TypeError):
            self.damaged += 1
            return {}

    def keep(self, keys, reports):
        """Writes the reports under another name, sees them on the disk, and only then gives them their own."""
        listed = {key: [*report[:3], list(report.refused), *report[4:]] for key, report in zip(keys, reports)}
        content = json.dumps({'version': self.version, 'reports': listed, 'sum': self._sum(listed)}).encode('ascii')
        name = hashlib.sha256(''.join([self.version, *sorted(listed)]).encode()).hexdigest() + '.json'
        path = None
        try:
            place, path = tempfile.mkstemp(prefix=f'{PART}{socket.gethostname()}-{os.getpid()}-', dir=self.folder)
            with os.fdopen(place, 'wb') as file:
                file.write(content)
                file.flush()
                os.fsync(file.fileno())
            os.replace(path, os.path.join(self.folder, name))
        except OSError as error:
            unlinked(path)
            raise Stop(f'--resume {self.folder}: {error.strerror}: no more reports can be kept there; those that are '
                       'there stay, and the same command goes on with them')


class Progress:
    """A line on standard error: files, or what else is counted, jobs, jobs a second and the time left."""

    WIDTH = 24

    def __init__(self, files, wanted, counted='files'):
        self.counted = counted
        terminal = sys.stderr is not None and sys.stderr.isatty()
        self.shown, self.end, self.pause = wanted or terminal, '\r' if terminal else '\n', 0.1 if terminal else 1.0
        self.files, self.done, self.known, self.jobs, self.began, self.told = files, 0, 0, 0, time.monotonic(), 0.0

    def add(self, files, jobs, known=False):
        """So many files more are done; what was known from before tells nothing of the speed."""
        self.done, self.known, self.jobs = self.done + files, self.known + files * known, self.jobs + jobs * (not known)
        now = time.monotonic()
        if self.shown and now - self.told >= self.pause:
            self.told = now
            self._tell(self.line(now - self.began), self.end)

    def line(self, took):
        part = self.done / self.files if self.files else 1.0
        left = took / (self.done - self.known) * (self.files - self.done) if self.done > self.known else 0.0
        bar = ('#' * int(part * self.WIDTH)).ljust(self.WIDTH, '.')
        speed = self.jobs / took if took else 0.0
        return f'[{bar}] {self.done:,} of {self.files:,} {self.counted}  {self.jobs:,} jobs  {speed:,.0f} jobs/s  {int(left) // 60}:{int(left) % 60:02} left'

    def close(self):
        if self.shown:
            self._tell(self.line(time.monotonic() - self.began), '\n')

    @staticmethod
    def _tell(words, end):
        try:
            sys.stderr.write(words.ljust(100) + end)
            sys.stderr.flush()
        except OSError:
            pass


class Here:
    """One process, this one."""

    def __init__(self):
        self.waiting = []

    def submit(self, batch):
        self.waiting.append(batch)

    def full(self):
        return bool(self.waiting)

    def busy(self):
        return bool(self.waiting)

    def finished(self):
        return [Answer(batch, reports_of(valued(batch.contents))) for batch in [self.waiting.pop()]]

    def told(self):
        """What a desk should know of a night that is done: nothing."""
        return None

    def close(self):
        pass


def obey(command):
    """A process of the pool leaves an interrupt to the command, and ends with it, killed or not, where the system is Linux."""
    signal.signal(signal.SIGINT, signal.SIG_IGN)
    if sys.platform == 'linux':
        ctypes.CDLL(None).prctl(PARENT_DEATH_SIGNAL, signal.SIGKILL)
    if os.getppid() != command:
        os._exit(1)


def pool_of(count):
    return futures.ProcessPoolExecutor(count, initializer=obey, initargs=(os.getpid(),))


class Processes:
    """Some processes of this machine. A process that dies takes the pool with it: what ran then is run again, each file alone."""

    def __init__(self, count):
        self.count, self.running, self.pool = count, {}, pool_of(count)

    def submit(self, batch):
        try:
            self.running[self.pool.submit(valued, batch.contents)] = batch
        except BrokenProcessPool:
            self._renew()
            self.running[self.pool.submit(valued, batch.contents)] = batch

    def full(self):
        return len(self.running) >= 2 * self.count

    def busy(self):
        return bool(self.running)

    def _renew(self):
        self.pool.shutdown()
        self.pool = pool_of(self.count)

    def _taken(self, done):
        """The answers of tasks that are done, and the batches of those whose pool broke."""
        answers, died = [], []
        for future in done:
            batch = self.running.pop(future)
            try:
                answers.append(Answer(batch, reports_of(future.result())))
            except BrokenProcessPool:
                died.append(batch)
        return answers, died

    def finished(self):
        answers, died = self._taken(futures.wait(self.running, return_when=futures.FIRST_COMPLETED).done)
        if died:
            more, also = self._taken(futures.wait(self.running).done)
            answers, died = answers + more, died + also
            self._renew()
        return answers + [answer for batch in died for answer in map(answered_apart, singles(batch))]

    def told(self):
        """What a desk should know of a night that is done: nothing."""
        return None

    def close(self):
        self.pool.shutdown(cancel_futures=True)


def answered_apart(batch):
    """The answer of a batch in a process of its own; without reports where that dies."""
    found = valued_apart(batch.contents)
    return Answer(batch, None if found is None else reports_of(found))


def singles(batch):
    """The files of a batch, each alone."""
    return [Batch(*([one] for one in each)) for each in zip(*batch)]


class Night:
    """The files of a night, the report of each that is valued, and why another is not."""

    def __init__(self, names, state=None, progress=False):
        self.names, self.state = names, state
        self.reports, self.unvalued, self.others = [None] * len(names), {}, set()
        self.progress = Progress(len(names), progress)

    def _content(self, place):
        """The bytes of a file, or None, with the reason kept, where it cannot be read or is of another kind."""
        try:
            with open(self.names[place], 'rb') as file:
                content = file.read(MOST_BYTES)
            wrong = kinds.mistaken(content, kinds.BOOK, kinds.PLAIN)
            if wrong is None:
                return content
            self.others.add(place)
        except (OSError, ValueError) as error:
            wrong = getattr(error, 'strerror', None) or 'no name of a file'
        self.unvalued[place] = wrong
        self.progress.add(1, 0)
        return None

    def batches(self):
        """The files that are still to be valued, read as they are asked for."""
        places, contents, keys, size = [], [], [], 0
        for place in range(len(self.names)):
            content = self._content(place)
            key = hashlib.sha256(content).hexdigest() if self.state and content is not None else None
            if key and key in self.state.reports:
                self._put(place, self.state.reports[key], known=True)
                continue
            if content is None:
                continue
            if contents and (size + len(content) > BATCH_BYTES or len(contents) == BATCH_FILES):
                yield Batch(places, contents, keys)
                places, contents, keys, size = [], [], [], 0
            places, contents, keys, size = [*places, place], [*contents, content], [*keys, key], size + len(content)
        if contents:
            yield Batch(places, contents, keys)

    def _put(self, place, report, known=False):
        self.reports[place] = report
        self.progress.add(1, report.fields, known)

    def take(self, answers):
        for batch, reports in answers:
            if reports is None:
                self.unvalued.update(dict.fromkeys(batch.places, DIED))
                self.progress.add(len(batch.places), 0)
                continue
            if self.state:
                self.state.keep(batch.keys, reports)
            for place, report in zip(batch.places, reports):
                self._put(place, report)

    def value(self, workers):
        """Hands every batch to the workers, never more than they take at once, and takes what they answer."""
        try:
            for batch in self.batches():
                while workers.full():
                    self.take(workers.finished())
                workers.submit(batch)
            while workers.busy():
                self.take(workers.finished())
        finally:
            workers.close()
            self.progress.close()

    def joined(self):
        """The report of all files that were valued, in the order of the files."""
        package = library()
        try:
            return package.all_joined(report for report in self.reports if report is not None)
        except package.Refused as refusal:
            raise Stop(f'{refusal}. What to do: {refusal.advice}.')


def processors():
    return len(os.sched_getaffinity(0)) if hasattr(os, 'sched_getaffinity') else os.cpu_count() or 1


def workers_here(count):
    return Here() if count == 1 else Processes(count)
