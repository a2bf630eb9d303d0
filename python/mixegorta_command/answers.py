"""What a job gives: its sheet by the engine, read, and how a refusal is told."""
import csv
import io
import json
from collections import namedtuple

from . import engine, sheets, texts
from .streams import Stop, put, tell

SHOWN, REFUSED, NOT_SHOWN, DIFFERENT = 0, 1, 2, 3

# A job's bytes, the bytes of its sheet, and the sheet as sheets.read gives it: a Sheet, or the number of a refusal.
Answer = namedtuple('Answer', 'job printed sheet')


def whole_sheet(printed, job):
    """The sheet, or the number of a refusal, where nothing of it is lost."""
    try:
        found = sheets.read(printed)
    except sheets.NoSheet as why:
        raise Stop(f'output is lost: the program printed no whole sheet ({why}); run it again')
    if not isinstance(found, int) and texts.has_option(job) and not found.option:
        raise Stop('output is lost: the job has an option and its sheet has no option line; run it again')
    return found


def answer(content, name):
    """The answer for a file's bytes, a text or a job."""
    job = texts.job_of(content, name)
    printed = engine.printed('sheet', job)
    return Answer(job, printed, whole_sheet(printed, job))


def prices(sheet):
    """Triples of a name, a price and its error bound."""
    return [('bond', *sheet.bond)] + ([('option', *sheet.option)] if sheet.option else [])


def put_json(data):
    put(f'{json.dumps(data, indent=2)}\n'.encode())


def put_csv(names, rows):
    text = io.StringIO()
    csv.writer(text, lineterminator='\n').writerows([names, *rows])
    put(text.getvalue().encode())


def refused(number, form):
    """Tells a refusal in words, and on standard output in the form that is wanted."""
    cause, remedy = sheets.refusal_words(number)
    if form == 'json':
        put_json({'refused': number, 'cause': cause, 'remedy': remedy})
    elif form == 'csv':
        put_csv(['refused', 'cause', 'remedy'], [[number, cause, remedy]])
    else:
        put(b'refused %d\n' % number)
    tell(f'refused {number}: {cause}. What to do: {remedy}.')
    return REFUSED
