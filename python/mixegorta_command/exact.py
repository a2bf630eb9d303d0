"""Prices beside the exact ones, which the reference works out in fractions on the tree that it fits itself."""
from collections import namedtuple
from fractions import Fraction

from . import answers, rules
from .streams import put, tell

DECIMALS = 15

# A price in billionths, the exact one as a fraction of billionths, and the bound of their difference.
Line = namedtuple('Line', 'name price exact bound')


def billionths(text):
    return int(text.replace('.', ''))


def exact_prices(job):
    """The exact bond and, where the job has one, the exact option, in billionths."""
    reference = rules.module()
    f, n, b, s, version, quoted, flows, terms = reference.read(job)
    quotes = [reference.quote(f, row, *quote) for row, quote in enumerate(quoted, 1)]
    working = reference.working_reversion(version or 1, b)
    discounts, _ = reference.fit(n, working, reference.version_spacing(version or 1, f, s, b), quotes)
    bond = reference.exact_bond_rows(n, working, discounts, flows)[0][0]
    if terms is None:
        return [bond]
    return [bond, reference.exact_option(n, working, discounts, flows, reference.accepted_option(n, terms))]


def lines(job, sheet):
    shown = answers.prices(sheet)
    return [Line(name, billionths(price), exact, int(bound)) for (name, price, bound), exact in zip(shown, exact_prices(job))]


def decimal(number, places):
    """A fraction to the nearest decimal of so many places, with a minus sign where it is below zero."""
    size = abs(Fraction(number)) * 10 ** places
    whole = (2 * size.numerator + size.denominator) // (2 * size.denominator)
    text = f'{whole:0{places + 1}d}'
    return f'{"-" if number < 0 and whole else ""}{text[:-places]}.{text[-places:]}'


def row(line):
    """Name, price, exact price, their difference in billionths, the share of the bound in percent, and the bound."""
    difference = line.price - line.exact
    return (line.name, decimal(Fraction(line.price, 10 ** 9), 9), decimal(line.exact / 10 ** 9, DECIMALS), decimal(difference, DECIMALS - 9),
            decimal(abs(difference) / line.bound * 100, 2), line.bound)


NAMES = ('entry', 'price', 'exact_price', 'difference_in_billionths', 'percent_of_the_bound', 'error_bound_in_billionths')


def shown(rows):
    heads = ('', 'price', 'exact price', 'difference, billionths', 'of the bound')
    cells = [heads, *((name, price, exact, difference, f'{share} % of {bound}') for name, price, exact, difference, share, bound in rows)]
    widths = [max(len(line[k]) for line in cells) for k in range(5)]
    return ''.join('  '.join(cell.ljust(width) for cell, width in zip(line, widths)).rstrip() + '\n' for line in cells)


def put_check(found, form):
    """Shows the prices of an answer that is no refusal beside the exact ones; the status."""
    checked = lines(found.job, found.sheet)
    rows = [row(line) for line in checked]
    if form == 'json':
        answers.put_json({name: dict(zip(NAMES[1:], values)) for name, *values in rows})
    elif form == 'csv':
        answers.put_csv(NAMES, rows)
    else:
        put(shown(rows).encode())
    if rules.module().sheet(found.job) != found.printed:
        tell('the engine and the reference print different sheets of this job: please report it')
        return answers.DIFFERENT
    if any(abs(line.price - line.exact) > line.bound for line in checked):
        tell('a price is further from the exact one than its error bound: please report it')
        return answers.DIFFERENT
    return answers.SHOWN
