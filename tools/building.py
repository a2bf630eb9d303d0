#!/usr/bin/env python3
"""Makes what the engine is used by where it is missing or older than its crates, and shows how far the proof is while it runs.

    tools/building.py archive    target/libmixegorta.a, from which everything else is linked
    tools/building.py sheet      target/bin/sheet; any other program of crates/ likewise

The kit proves and builds in a crate's folder: `rt lib` makes the archive, `rt run` a program, which is run on its crate's file stdin and must print its
file stdout. Both are compiled for every x86-64 processor and copied into target/.
What cannot be made is told in one line on standard output, with exit status 1. Progress goes to standard error where that is a terminal, else to
the terminal itself, since pip keeps a build's output to itself; where there is none, a line now and then goes to standard error.
The time left is worked out from the times of the last run, target/times.txt, or of tools/times.txt where there was none.
"""
import os
import pathlib
import re
import select
import shutil
import subprocess
import sys
import time

ROOT = pathlib.Path(__file__).resolve().parent.parent
ARCHIVE, KIT_ARCHIVE = ROOT / 'target/libmixegorta.a', ROOT / 'crates/capi/out/libcapi.a'
LAST_TIMES, FIRST_TIMES = ROOT / 'target/times.txt', ROOT / 'tools/times.txt'
# The processor that the kit compiles for where nothing is said lacks some that are in use.
PROCESSOR = ('--cpu', 'x86-64')
# A crate's proof has begun, and those below it are done; a crate is done, in the gate's words.
BEGUN = re.compile(r'^rt: chose --jobs \d+ for (\w+)$')
DONE = re.compile(r'^rt: (\w+) (?:(proved)$|is kept:)')
# What is no part of what is built: wrong edits, and what the kit leaves in a crate's folder.
NOT_BUILT_FROM = ('must-fail', 'out')
# Without a terminal a line is told every so many seconds.
QUIET_SECONDS = 30
# Seconds of this run for one of the last, before so many of those are worked off.
FIRST_PACE, LEAST_WORK = 0.6, 20
USAGE = 'usage: tools/building.py archive, or the name of a program of crates/'


def listed():
    """The crates of crates.txt, each with those that it names; a static library has a word beside its name."""
    lines = (line.partition(':') for line in (ROOT / 'crates.txt').read_text(encoding='utf-8').splitlines() if ':' in line)
    return {name.split()[0]: below.split() for name, _, below in lines}


def order(name):
    """The crates that a crate is proved by, and itself, as the kit comes to them: each after those that it names."""
    below, found = listed(), []

    def add(each):
        for other in below[each]:
            if other in below and other not in found:
                add(other)
        found.append(each)
    if name in below:
        add(name)
    return found


def needed(name):
    """The crates that a crate is proved by, and itself."""
    return set(order(name))


def newer(crates, than):
    """A file of these crates that was changed after a time."""
    for crate in sorted(crates):
        for folder, folders, files in os.walk(ROOT / 'crates' / crate):
            folders[:] = [name for name in folders if name not in NOT_BUILT_FROM]
            for path in (os.path.join(folder, name) for name in sorted(files)):
                if os.path.getmtime(path) > than:
                    return os.path.relpath(path, ROOT)
    return 'crates.txt' if os.path.getmtime(ROOT / 'crates.txt') > than else None


def fault(product, crates):
    """Why a product has to be made, or None."""
    if not product.is_file():
        return f'there is no {product.relative_to(ROOT)}'
    changed = newer(crates, product.stat().st_mtime)
    return f'{product.relative_to(ROOT)} is older than {changed}' if changed else None


def times():
    """Seconds by crate, of the last run where there was one."""
    path = LAST_TIMES if LAST_TIMES.is_file() else FIRST_TIMES
    lines = path.read_text(encoding='utf-8').splitlines() if path.is_file() else []
    return {name: int(seconds) for name, seconds in (line.split() for line in lines if line and not line.startswith('#'))}


class Progress:
    """Crates done of all, and the time left: what the crates still to be proved took last time, by how fast this run is beside that one."""

    def __init__(self, crates):
        self.order, self.all, self.known = list(crates), len(crates), times()
        self.left, self.proved = set(crates), set()
        self.began, self.told, self.took, self.at = time.monotonic(), 0.0, {}, None
        self.ends = self.began + FIRST_PACE * self.usual(crates)
        self.out, self.terminal = self.stream()

    @staticmethod
    def stream():
        if sys.stderr.isatty():
            return sys.stderr, True
        try:
            return open('/dev/tty', 'w'), True
        except OSError:
            return sys.stderr, False

    def usual(self, crates):
        average = sum(self.known.values()) / len(self.known) if self.known else 10
        return sum(self.known.get(crate, average) for crate in crates)

    def done(self, line):
        """Takes a line of rt's. This run's pace is measured over all that it has proved, since the gate proves crates side by side."""
        begun, done = BEGUN.match(line), DONE.match(line)
        if begun and begun[1] in self.order:
            self.end_last()
            self.at = begun[1], time.monotonic()
            self.left -= set(self.order[:self.order.index(begun[1])])
        elif done:
            self.left.discard(done[1])
            self.proved |= {done[1]} if done[2] else set()
        else:
            return
        now, worked = time.monotonic(), self.usual(self.proved)
        pace = (now - self.began) / worked if worked > LEAST_WORK else FIRST_PACE
        self.ends = now + self.usual(self.left) * pace

    def end_last(self):
        """The crate whose proof began last is done."""
        if self.at:
            name, began = self.at
            self.took[name] = round(time.monotonic() - began)
            self.proved.add(name)
            self.left.discard(name)
            self.at = None

    def seconds_left(self):
        return max(0, self.ends - time.monotonic())

    def show(self, last=False):
        now = time.monotonic()
        if not last and now - self.told < (1 if self.terminal else QUIET_SECONDS):
            return
        self.told = now
        seconds = self.seconds_left()
        about = f'{seconds / 60:.0f} min' if seconds >= 90 else f'{seconds:.0f} s'
        text = f'proving: {self.all - len(self.left)} of {self.all} crates' + ('' if last else f', about {about} left')
        self.out.write(f'\r{text}\033[K{chr(10) if last else ""}' if self.terminal else f'{text}\n')
        self.out.flush()


def keep_times(took):
    if took:
        lines = [f'{name} {seconds}' for name, seconds in sorted({**times(), **took}.items())]
        LAST_TIMES.write_text('\n'.join(lines) + '\n', encoding='utf-8')


def proved(command, crates, log, folder=ROOT, given=subprocess.DEVNULL, printed=None):
    """Whether rt proves and builds; its lines go to a log, and a program that it runs is given one file and prints to another."""
    progress = Progress(crates)
    streams = {'stdout': subprocess.PIPE, 'stderr': subprocess.STDOUT} if printed is None else {'stdout': printed, 'stderr': subprocess.PIPE}
    with open(log, 'wb') as kept, subprocess.Popen(command, cwd=folder, stdin=given, **streams) as running:
        said = running.stdout or running.stderr
        os.set_blocking(said.fileno(), False)
        rest, open_end = b'', True
        while open_end:
            if select.select([said], [], [], 1)[0]:
                part = os.read(said.fileno(), 65_536)
                open_end = bool(part)
                kept.write(part)
                *whole, rest = (rest + part).split(b'\n')
                for line in whole:
                    progress.done(line.decode(errors='replace'))
            progress.show()
        status = running.wait()
    if status == 0:
        progress.end_last()
        progress.left.clear()
    progress.show(last=True)
    keep_times(progress.took)
    return status == 0


def archive(crates, log):
    """Proves and builds the archive; what is wrong, or None."""
    if not proved(['rt', 'lib', *PROCESSOR], crates, log, ROOT / 'crates/capi'):
        return f'`rt lib` in crates/capi failed: {log.relative_to(ROOT)} says why'
    shutil.copyfile(KIT_ARCHIVE, ARCHIVE)
    return None


def program(name, crates, log):
    """Proves, builds and runs a program; what is wrong, or None."""
    folder, product, printed = ROOT / 'crates' / name, ROOT / 'target/bin' / name, log.with_suffix('.printed')
    given = folder / 'stdin' if (folder / 'stdin').is_file() else os.devnull
    with open(given, 'rb') as taken, open(printed, 'wb') as out:
        ran = proved(['rt', 'run', *PROCESSOR], crates, log, folder, taken, out)
    if not ran:
        return f'`rt run` in crates/{name} failed: {log.relative_to(ROOT)} says why'
    if (folder / 'stdout').is_file() and printed.read_bytes() != (folder / 'stdout').read_bytes():
        return f'what it printed, {printed.relative_to(ROOT)}, is not crates/{name}/stdout'
    product.parent.mkdir(exist_ok=True)
    # A program that runs just now keeps its own file.
    product.unlink(missing_ok=True)
    shutil.copy(folder / 'out' / name, product)
    return None


def make(name):
    """Makes a product where that is needed; what is wrong, or None."""
    product = ARCHIVE if name == 'archive' else ROOT / 'target/bin' / name
    crates = order('capi' if name == 'archive' else name)
    if not crates:
        return f'crates/ has no program {name}'
    wrong = fault(product, crates)
    if wrong is None:
        return None
    if not shutil.which('rt'):
        return f"{wrong}: run `{'tools/archive' if name == 'archive' else f'tools/building.py {name}'}`, with the Rattle kit's rt on the path"
    log = ROOT / 'target' / f'{name}.log'
    log.parent.mkdir(exist_ok=True)
    began = time.time()
    failed = archive(crates, log) if name == 'archive' else program(name, crates, log)
    if failed:
        return f'{wrong}, and {failed}'
    # A crate that was changed meanwhile is newer than what was made of it.
    os.utime(product, (began, began))
    return None


def main(arguments):
    if arguments in (['-h'], ['--help']):
        print(__doc__.strip())
        return 0
    wrong = make(arguments[0]) if len(arguments) == 1 else USAGE
    if wrong:
        print(wrong)
    return 1 if wrong else 0


if __name__ == '__main__':
    try:
        sys.exit(main(sys.argv[1:]))
    except KeyboardInterrupt:
        sys.exit(130)
