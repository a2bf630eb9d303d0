"""What the reference works out from a job beside its sheet: how long a step is, and the state price of each node.

A sheet has no state prices. reference/reference.py works the job's own tree out by the same rules, apart from the engine, and a
sheet is taken for the job's only if every line of it is the reference's own.
"""
from collections import namedtuple

from . import rules
from .streams import Stop

OPTION_KINDS = {1: 'European call', 2: 'European put', 3: 'American call', 4: 'American put'}
SIDES = {1: 'call', 2: 'put'}

# State prices by row, each a list of texts from the lowest node up; branches by node, as pairs of an end and the text of its probability.
JobTree = namedtuple('JobTree', 'frequency reversion version working_reversion volatility state_prices branches option flows dates')


def compared(wanted, sheet):
    """Stops at the first line in which the sheet is not the job's."""
    wanted, given = wanted.decode().splitlines(), sheet.decode().splitlines()
    for number, (line, own) in enumerate(zip(given + ['nothing'], wanted + ['nothing']), 1):
        if line != own:
            raise Stop(f'the sheet is not this job\'s: its line {number} is {line!r}, and the job gives {own!r}')


def shown_share(share):
    """A probability over 600,000,000 in percent, to the nearest ten-thousandth."""
    return f'{share / 6_000_000:.4f} %'


def shown_row(row, frequency):
    when = f'{row / frequency:.4g} year{"s" * (row != frequency)}' if row else 'today'
    return f'row {row} ({when})'


def option_words(reference, terms, frequency):
    if terms is None:
        return None
    if isinstance(terms, reference.Kind):
        return f'{OPTION_KINDS[terms.kind]}, expiry {shown_row(terms.expiry, frequency)}, strike {reference.amount(terms.strike)}'
    return f'{SIDES[terms.side]} on rows {" ".join(map(str, terms.dates))}, strike {reference.amount(terms.strike)}'


def exercise_rows(reference, terms):
    """The rows on which the option may be exercised."""
    if terms is None:
        return ()
    if isinstance(terms, reference.Kind):
        return (terms.expiry,) if terms.kind in (1, 2) else tuple(range(terms.expiry + 1))
    return tuple(terms.dates)


def job_tree(job, sheet):
    """The job's tree, for the bytes of a sheet that is no refusal."""
    reference = rules.module()
    compared(reference.sheet(job), sheet)
    f, n, b, s, version, quoted, flows, terms = reference.read(job)
    version = version or 1
    quotes = [reference.quote(f, row, kind, pattern) for row, (kind, pattern) in enumerate(quoted, 1)]
    working = reference.working_reversion(version, b)
    _, prices = reference.fit(n, working, reference.version_spacing(version, f, s, b), quotes)
    state_prices = [[reference.amount(row[j]) for j in sorted(row)] for row in prices]
    branches = {j: [(end, shown_share(share)) for end, share in reference.branches(working, j)] for j in reference.nodes(working, n - 1)}
    return JobTree(f, b, version, working, s, state_prices, branches, option_words(reference, terms, f),
                   [reference.amount(flow) for flow in flows], exercise_rows(reference, terms))
