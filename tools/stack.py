#!/usr/bin/env python3
"""Measures how much stack the programs and the library take, and holds the figures of docs/MANUAL.md and of the command mixegorta against it.

    tools/stack.py [MEASURED]    each program of target/bin/ that has a file stdout in its crate, and what the program MEASURED, c/stack.c compiled, prints

A program's stack is the least `ulimit -s` with which it prints its crate's stdout for its crate's stdin in every one of several runs, since the system
starts it at a random place; of the program `sheet` also that for a job of sixty steps. The figure that the documents give must leave room for an
environment and arguments. A program of the tests that keeps many jobs at once is left out: no desk runs it.
"""
import pathlib
import re
import subprocess
import sys

sys.dont_write_bytecode = True
import usage

ROOT = pathlib.Path(__file__).resolve().parent.parent
BINARIES = ROOT / 'target/bin'
PLACES = ('docs/MANUAL.md', 'python/mixegorta_command/engine.py')
STATED = re.compile(r'([0-9][0-9,]*) KiB of stack are enough')
CALL = re.compile(r'([0-9][0-9,]*) KiB for a (fit|price|strip|commit|pair|job|report|sheet|reading|writing)')
STEP, MOST, RUNS, RESERVE = 4, 8_192, 5, 64
LEFT_OUT = ('sheet_cases',)
LONGEST = ROOT / 'examples/sixty-months.txt'


def prints(program, size, given, expected):
    """Whether a program prints what it must in a stack of so many KiB and an empty environment."""
    command = ['sh', '-c', 'ulimit -s "$1" && exec env -i "$2"', 'sh', str(size), str(program)]
    return all(subprocess.run(command, input=given, capture_output=True).stdout == expected for _ in range(RUNS))


def least(program, given, expected):
    """The least size that is enough, or None where not even the most is."""
    low, high = 0, MOST
    if not prints(program, high, given, expected):
        return None
    while high - low > STEP:
        middle = (low + high) // 2 // STEP * STEP
        low, high = (low, middle) if prints(program, middle, given, expected) else (middle, high)
    return high


def number(text):
    return int(text.replace(',', ''))


def programs():
    """What is measured: its name, the program, what it is given and what it must print."""
    for program in sorted(BINARIES.glob('*')):
        crate = ROOT / 'crates' / program.name
        if program.name not in LEFT_OUT and (crate / 'stdout').is_file():
            given = (crate / 'stdin').read_bytes() if (crate / 'stdin').is_file() else b''
            yield program.name, program, given, (crate / 'stdout').read_bytes()
        if program.name == 'sheet':
            job = subprocess.run([ROOT / 'tools/job', LONGEST], capture_output=True, check=True).stdout
            yield 'sheet of sixty steps', program, job, LONGEST.with_suffix('.sheet').read_bytes()


def stated(texts):
    """The one figure that every place gives, or what is wrong."""
    found = {place: STATED.findall(text) for place, text in texts.items()}
    figures = {number(figure) for given in found.values() for figure in given}
    if len(figures) != 1 or not all(found.values()):
        return None, ['the places give %s' % ', '.join(f'{place}: {given or "no figure"}' for place, given in found.items())]
    return figures.pop(), []


def faults_of_programs(measured, texts):
    """What is wrong of the figure for programs, given the KiB of each."""
    figure, faults = stated(texts)
    if not measured:
        return faults + ['target/bin has no program to measure: run `tools/building.py sheet`']
    for name, size in measured.items():
        if size is None:
            faults.append(f'{name} does not print its stdout in {MOST} KiB')
        elif figure is not None and size + RESERVE > figure:
            faults.append(f'{name} takes {size} KiB, which with {RESERVE} to spare is more than the {figure} that the documents give')
    return faults


def faults_of_calls(measured, manual):
    """What is wrong of the manual's figures for calls, given the bytes of each."""
    figures = {name: number(figure) for figure, name in CALL.findall(manual)}
    if figures.keys() != measured.keys():
        return [f'docs/MANUAL.md gives {sorted(figures)}, measured were {sorted(measured)}']
    return [f'a {name} takes {measured[name]} bytes, more than the {figures[name]} KiB that docs/MANUAL.md gives' for name in figures
            if measured[name] > figures[name] * 1_024]


def main(arguments):
    usage.answer(__doc__, arguments, most=1)
    texts = {place: (ROOT / place).read_text(encoding='utf-8') for place in PLACES}
    measured = {name: least(program, given, expected) for name, program, given, expected in programs()}
    for name, size in measured.items():
        print(f'{name} {size} KiB')
    faults = faults_of_programs(measured, texts)
    if arguments:
        lines = subprocess.run([arguments[0]], capture_output=True, text=True, check=True).stdout.splitlines()
        calls = {name: int(size) for name, size in map(str.split, lines)}
        print(*(f'{name} {size} bytes' for name, size in calls.items()), sep='\n')
        faults += faults_of_calls(calls, texts['docs/MANUAL.md'])
    print(*faults, sep='\n', end='\n' if faults else '')
    return 1 if faults else 0


if __name__ == '__main__':
    sys.exit(main(sys.argv[1:]))
