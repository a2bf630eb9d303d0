"""Jobs from texts, and what a job says."""
import math
import struct

from . import answers, rules
from .streams import put
from .texts import OPTION_KINDS, QUOTE_KINDS, SIDES, job_of, job_of_text

KIND_NAMES = {number: name for name, number in QUOTE_KINDS.items()}


def figure(pattern):
    """A quote's float; one that JSON has no number for as a text."""
    value = struct.unpack('>d', struct.pack('>Q', pattern))[0]
    return value if math.isfinite(value) else str(value)


def option_data(reference, terms):
    if terms is None:
        return None
    strike = reference.amount(terms.strike)
    if isinstance(terms, reference.Kind):
        style, side = next((words for words, number in OPTION_KINDS.items() if number == terms.kind), (terms.kind, terms.kind))
        return {'style': style, 'side': side, 'expiry': terms.expiry, 'strike': strike}
    side = next((name for name, number in SIDES.items() if number == terms.side), terms.side)
    return {'style': 'dated', 'side': side, 'dates': list(terms.dates), 'strike': strike}


def data(reference, read):
    quotes = [{'row': row, 'kind': KIND_NAMES[kind], 'figure': figure(pattern)} for row, (kind, pattern) in enumerate(read.quotes, 1)]
    return {'frequency': read.f, 'steps': read.n, 'reversion': read.b, 'volatility': read.s, 'version': read.version, 'quotes': quotes,
            'flows': [reference.amount(flow) for flow in read.flows], 'option': option_data(reference, read.option)}


def put_job(content, name, form):
    """Writes the job of a text, or shows what a text or a job says; the status."""
    if form is None:
        put(job_of_text(content, name))
        return answers.SHOWN
    reference = rules.module()
    try:
        read = reference.read(job_of(content, name))
    except reference.Refused as refusal:
        return answers.refused(refusal.number, form)
    shown = data(reference, read)
    if form == 'json':
        answers.put_json(shown)
    else:
        answers.put_csv(('row', 'quote', 'figure', 'flow'), [(quote['row'], quote['kind'], quote['figure'], flow)
                                                             for quote, flow in zip(shown['quotes'], shown['flows'])])
    return answers.SHOWN
