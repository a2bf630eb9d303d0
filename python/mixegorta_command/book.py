"""Books of jobs and their reports."""
import re

from . import answers, engine, kinds, texts
from .streams import Stop, content_of, put

TAG, LONGEST_FIELD = 0x10, 65_535
AMOUNT = r'\d+\.\d{9}'
REPORT = re.compile(''.join([r'priced \d+\n', *(rf'refused {number} \d+\n' for number in range(1, 14)),
                             rf'bonds {AMOUNT}\noptions {AMOUNT}\nallowances \d+\ndearest \d+\n']), re.ASCII)


def field(name):
    """The field of a file's job."""
    job = texts.job_of(content_of(name), name)
    if len(job) > LONGEST_FIELD:
        raise Stop(f'{name}: {len(job):,} bytes, and a field of a book holds at most {LONGEST_FIELD:,}')
    return bytes([TAG]) + len(job).to_bytes(2, 'big') + job


def entries(report):
    """Pairs of a report's entry and its number: a text where it is an amount, which keeps every digit."""
    for line in report.decode('ascii').splitlines():
        name, _, number = line.rpartition(' ')
        yield name, number if '.' in number else int(number)


def report_data(report):
    found = dict(entries(report))
    counts = {number: found[f'refused {number}'] for number in range(1, 14)}
    return {'priced': found['priced'], 'refused': counts, 'bonds': found['bonds'], 'options': found['options'],
            'error_bounds_in_billionths': found['allowances'], 'dearest': found['dearest']}


def put_report(names, form, framed, standard_input):
    """Shows the report of the named jobs, or of a book by standard input; with framed it writes the book. The status."""
    book = b''.join(map(field, names)) if names else (
        kinds.expected(standard_input(), 'standard input', 'book', kinds.BOOK, kinds.PLAIN))
    report = book if framed else engine.printed('book', book)
    if not framed and not REPORT.fullmatch(report.decode('ascii', 'replace')):
        raise Stop('output is lost: the program printed no whole report; run it again')
    if framed or form is None:
        put(report)
    elif form == 'json':
        answers.put_json(report_data(report))
    else:
        answers.put_csv(('entry', 'number'), entries(report))
    return answers.SHOWN
