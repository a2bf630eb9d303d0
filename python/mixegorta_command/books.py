"""Many books: one report of them all, valued on the processors of this machine or on a cluster."""
import json
from decimal import Decimal, InvalidOperation

from . import answers, kinds
from .nights import Night, State, library, processors, workers_here
from .streams import Stop, content_of, put, tell

BILLION = 1_000_000_000
MOST_PROCESSES = 1_024
TOLD = 5


def amount(value):
    return f'{value // BILLION}.{value % BILLION:09}'


def entries(report, unvalued):
    """Pairs of a report's entry and its number, amounts as texts that keep every digit, in the order of the lines."""
    yield 'books', report.books
    yield 'unvalued', unvalued
    yield 'fields', report.fields
    yield 'priced', report.priced
    for number, count in enumerate(report.refused, 1):
        yield f'refused {number}', count
    yield 'bonds', amount(report.bonds)
    yield 'options', amount(report.options)
    yield 'allowances', report.error_bounds
    yield 'price', amount(report.dearest)
    yield 'dearest', f'{report.book} {report.place}'


def data(report, dearest_file, unvalued):
    """A report for programs; --join takes it back."""
    return {'version': library().__version__, 'books': report.books, 'fields': report.fields, 'priced': report.priced,
            'refused': dict(enumerate(report.refused, 1)), 'bonds': amount(report.bonds), 'options': amount(report.options),
            'error_bounds_in_billionths': report.error_bounds,
            'dearest': {'price': amount(report.dearest), 'book': report.book, 'place': report.place, 'file': dearest_file}, 'unvalued': unvalued}


def put_report(report, dearest_file, unvalued, form):
    """Shows the report and names what is not in it. The status."""
    if form == 'json':
        answers.put_json(data(report, dearest_file, unvalued))
    elif form == 'csv':
        answers.put_csv(('entry', 'number'), entries(report, len(unvalued)))
    else:
        put(''.join(f'{name} {number}\n' for name, number in entries(report, len(unvalued))).encode())
    for one in unvalued[:TOLD]:
        tell(f'{one["file"]}: not valued: {one["why"]}')
    if len(unvalued) > TOLD:
        tell(f'and {len(unvalued) - TOLD:,} files more are not valued: --json names them all')
    return answers.REFUSED if unvalued else answers.SHOWN


def names_of(given):
    """The files that are named: as arguments, or one to a line."""
    listed = content_of(given.names).decode(errors='surrogateescape').splitlines() if given.names is not None else []
    names = [*given.file, *(name for name in listed if name)]
    if not names:
        raise Stop('name the files of books, or hand their names in by --names FILE, one to a line: see `mixegorta books --help`')
    return names


def workers_of(given):
    if given.scheduler is not None and given.processes is not None:
        raise Stop('--scheduler and --processes: name one of the two')
    if given.scheduler is not None:
        from .clusters import Cluster
        return Cluster(given.scheduler)
    count = processors() if given.processes is None else whole(given.processes)
    return workers_here(count)


def whole(word):
    if not word.isascii() or not word.isdecimal() or not 1 <= int(word) <= MOST_PROCESSES:
        raise Stop(f'--processes {word}: a whole number from 1 to {MOST_PROCESSES:,}')
    return int(word)


def value(given):
    names = names_of(given)
    library()
    state = State(given.resume) if given.resume is not None else None
    if state and state.damaged:
        tell(f'--resume {given.resume}: {state.damaged} damaged files there are left out, and what they had is valued again')
    night = Night(names, state, given.progress)
    workers = workers_of(given)
    night.value(workers)
    if workers.told():
        tell(workers.told())
    if len(night.others) == len(names):
        more = f'; none of the {len(names):,} files is a book' if len(names) > 1 else ''
        raise Stop(f'{names[0]}: no book: {night.unvalued[0]}{more}')
    report = night.joined()
    valued = [name for name, one in zip(names, night.reports) if one is not None]
    unvalued = [{'file': names[place], 'why': why} for place, why in sorted(night.unvalued.items())]
    return put_report(report, valued[report.book - 1] if report.book else None, unvalued, given.form)


# Parts that were valued apart

def billionths(name, word):
    try:
        value = Decimal(word) * BILLION
        if not isinstance(word, str) or value != value.to_integral_value():
            raise InvalidOperation
        return int(value)
    except (InvalidOperation, TypeError, ValueError):
        raise Stop(f'{name}: an amount is no text with nine decimals')


def part(name):
    """A report that `mixegorta books --json` wrote, with the name of its dearest bond's file and what was not valued."""
    content = kinds.expected(content_of(name), name, 'report to join', kinds.PART, kinds.PLAIN)
    try:
        found = json.loads(content)
        dearest = found['dearest']
        if found['version'] != library().__version__:
            raise Stop(f'{name}: it is of mixegorta {found["version"]}, and this command is {library().__version__}')
        report = library().Report(found['books'], found['fields'], found['priced'], tuple(found['refused'][str(number)] for number in range(1, 14)),
                                  billionths(name, found['bonds']), billionths(name, found['options']), found['error_bounds_in_billionths'],
                                  billionths(name, dearest['price']), dearest['book'], dearest['place'])
        return report, dearest['file'], [{'file': str(one['file']), 'why': str(one['why'])} for one in found['unvalued']]
    except (ValueError, KeyError, TypeError):
        raise Stop(f'{name}: this is no report that `mixegorta books --json` wrote')


def join(given):
    """Joins reports that were written apart, in the order of their names."""
    parts = [part(name) for name in names_of(given)]
    package = library()
    try:
        report = package.all_joined(one for one, _, _ in parts)
    except (package.Refused, TypeError, OverflowError) as error:
        raise Stop(f'--join: {error}')
    before, dearest_file = 0, None
    for one, file, _ in parts:
        if before < report.book <= before + one.books:
            dearest_file = file
        before += one.books
    return put_report(report, dearest_file, [one for _, _, unvalued in parts for one in unvalued], given.form)


def put_books(given):
    if given.join and (given.scheduler or given.processes or given.resume):
        raise Stop('--join takes reports that are done: it has no workers and nothing to resume')
    return join(given) if given.join else value(given)
