"""One book under many curves: each scenario's quotes in place of the jobs' own, the totals of each, and how far they are from the base."""
import os
from collections import namedtuple
from concurrent import futures
from concurrent.futures.process import BrokenProcessPool

from . import answers, kinds
from .books import TOLD, amount, whole
from .curves import BASE, curves_of
from .nights import Progress, obey, processors
from .scenario_picture import picture_of
from .sheets import refusal_words
from .splices import Plan
from .streams import Stop, content_of, named, put, tell

COLUMNS = ('scenario', 'priced', 'refused', 'bonds', 'error_bound_in_billionths', 'options', 'held', 'compared',
           'not_priced', 'from_base', 'from_base_least', 'from_base_most')
# Some tens of milliseconds of work, so that the way to a process costs little beside it.
BATCH_JOBS, BATCH_SCENARIOS = 8_000, 64
# What a process values by: set once in each.
PLAN = []

Row = namedtuple('Row', COLUMNS)


# Valuing

def prepare(command, plan):
    """Makes a process ready: it ends with the command, and has the book at hand."""
    obey(command)
    PLAN[:] = [plan]


def valued(curves):
    """The totals of some scenarios, in a process that is ready."""
    return [PLAN[0].totals(each) for each in curves]


def batches_of(curves, jobs):
    """The names of the scenarios in parts of some work each."""
    names, size = list(curves), max(1, min(BATCH_SCENARIOS, BATCH_JOBS // max(1, jobs)))
    return [names[at:at + size] for at in range(0, len(names), size)]


def totals_here(plan, curves, progress):
    found = {}
    for name, each in curves.items():
        found[name] = plan.totals(each)
        progress.add(1, len(plan.jobs))
    return found


def totals_by_processes(plan, curves, count, progress):
    """The totals of each scenario by some processes, which take scenarios as they are free."""
    found, running = {}, {}
    left = batches_of(curves, len(plan.jobs))[::-1]
    with futures.ProcessPoolExecutor(count, initializer=prepare, initargs=(os.getpid(), plan)) as pool:
        try:
            while left or running:
                while left and len(running) < 2 * count:
                    names = left.pop()
                    running[pool.submit(valued, [curves[name] for name in names])] = names
                for future in futures.wait(running, return_when=futures.FIRST_COMPLETED).done:
                    names = running.pop(future)
                    found.update(zip(names, future.result()))
                    progress.add(len(names), len(names) * len(plan.jobs))
        except BrokenProcessPool:
            raise Stop(f'the process that valued scenario {names[0]!r} died')
    return found


def all_totals(plan, curves, count, wanted):
    """The totals of each scenario, in the order of the table."""
    for name, each in curves.items():
        plan.checked(name, each)
    progress = Progress(len(curves), wanted, 'scenarios')
    try:
        here = count == 1
        found = totals_here(plan, curves, progress) if here else totals_by_processes(plan, curves, count, progress)
    finally:
        progress.close()
    return {name: found[name] for name in curves}


def keep(folder, book, plan, curves):
    """Writes the book of each scenario, one after the other."""
    for scenario in curves:
        if os.sep in scenario or '\0' in scenario or scenario.startswith('.'):
            raise Stop(f'--keep: {scenario!r} is no name of a file')
    try:
        os.makedirs(folder, exist_ok=True)
        for scenario in (BASE, *curves):
            if scenario != BASE:
                plan.checked(scenario, curves[scenario])
            with open(os.path.join(folder, f'{scenario}.book'), 'wb') as file:
                file.write(book if scenario == BASE else plan.whole.filled(curves[scenario]))
    except OSError as error:
        raise Stop(f'--keep {folder}: {error.strerror}')


# What is shown

def signed(value):
    return ('-' if value < 0 else '') + amount(abs(value))


def moved(totals, bonds):
    """How far a scenario is from the base over the jobs that both price, and how far that may be from the exact
    difference."""
    return (totals.bonds_moved, totals.bonds_open) if bonds else (totals.held_moved, totals.held_open)


def row_of(scenario, totals, base, bonds):
    """A scenario's totals; without a job that both price there is no difference to show."""
    difference, bound = (0, 0) if scenario == BASE else moved(totals, bonds)
    told = totals.compared or scenario == BASE
    shown = [signed(value) if told else None for value in (difference, difference - bound, difference + bound)]
    return Row(scenario, totals.priced, totals.refused, amount(totals.bonds), totals.error_bounds,
               amount(totals.options), signed(totals.held), totals.compared, base.compared - totals.compared, *shown)


def ranked(found, base, bonds):
    """The names of the scenarios: those that lack most of the base's jobs first, then the greatest loss; equal ones in
    the order of the table."""
    return sorted(found, key=lambda name: (found[name].compared - base.compared, moved(found[name], bonds)[0]))


def mark_of(row):
    return f'{row.not_priced:,} job{"s" * (row.not_priced > 1)} of the base not priced' if row.not_priced else ''


def lines_of(rows, bonds):
    heads = ('scenario', 'bonds' if bonds else 'held', 'from base', 'exactly at least', 'at most',
             'options' if bonds else 'bonds', *([] if bonds else ['options']), 'priced', 'refused', 'compared', '')
    cells = [heads]
    for row in rows:
        amounts = [row.bonds, row.options] if bonds else [row.held, row.bonds, row.options]
        differences = [text or 'none' for text in (row.from_base, row.from_base_least, row.from_base_most)]
        cells.append((row.scenario, amounts[0], *differences, *amounts[1:], str(row.priced), str(row.refused),
                      str(row.compared), mark_of(row)))
    widths = [max(len(line[k]) for line in cells) for k in range(len(heads))]
    lines = []
    for first, *others, mark in cells:
        padded = [cell.rjust(width) for cell, width in zip(others, widths[1:])]
        lines.append('  '.join([first.ljust(widths[0]), *padded, mark]).rstrip() + '\n')
    return ''.join(lines)


def tell_lacking(names, found, base):
    """Names scenarios that do not price what the base prices, with what the engine says of it."""
    if not base.compared:
        tell('the base prices no job: there is nothing to compare a scenario with')
    lacking = [name for name in names if found[name].compared < base.compared]
    for name in lacking[:TOLD]:
        counts = [(number, count) for number, count in enumerate(found[name].causes, 1) if count]
        causes = '; '.join(f'{count} with {number}, {refusal_words(number)[0]}' for number, count in counts)
        tell(f'scenario {name!r}: {base.compared - found[name].compared} of the {base.compared} jobs that the base '
             f'prices are refused ({causes}); the difference is over the others')
    if len(lacking) > TOLD:
        tell(f'and {len(lacking) - TOLD:,} scenarios more do not price every job that the base prices: `not_priced` of '
             '--json and --csv tells of each')


def put_picture(path, rows, bonds):
    try:
        with open(path, 'w', encoding='utf-8') as file:
            file.write(picture_of(rows, bonds))
    except (OSError, ValueError) as error:
        raise Stop(f'--picture {path}: {getattr(error, "strerror", None) or "no name of a file"}')


def put_rows(rows, form, bonds):
    if form == 'json':
        answers.put_json([row._asdict() for row in rows])
    elif form == 'csv':
        answers.put_csv(COLUMNS, rows)
    else:
        put(lines_of(rows, bonds).encode())


def put_scenarios(given):
    if given.curves is None:
        raise Stop('--curves TABLE is needed: see `mixegorta scenarios --help`')
    if given.file in (None, '-') and given.curves == '-':
        raise Stop('the book and --curves cannot both come by standard input')
    count = processors() if given.processes is None else whole(given.processes)
    book = kinds.expected(content_of(given.file), named(given.file), 'book', kinds.BOOK, kinds.PLAIN)
    curves, plan, bonds = curves_of(given.curves), Plan(book), not given.held
    if given.keep is not None:
        keep(given.keep, book, plan, curves)
    found, base = all_totals(plan, curves, count, given.progress), plan.base_totals()
    names = ranked(found, base, bonds)
    shown = {BASE: base, **{name: found[name] for name in names}}
    rows = [row_of(name, totals, base, bonds) for name, totals in shown.items()]
    if given.picture is not None:
        put_picture(given.picture, rows, bonds)
    put_rows(rows, given.form, bonds)
    tell_lacking(names, found, base)
    return answers.SHOWN
