#!/usr/bin/env python3
"""Which volatilities are accepted: the largest one by frequency, steps, reversion and level of a flat curve, and the refusal that comes next.

    studies/accepted.py [--check]

Needs the library (tools/library). Writes the tables of docs/ACCEPTED.md and its picture; with --check it only says whether they are as
they would be written. A curve is flat by yearly yields. The bond pays 5% a year and one on the last row.
"""
import functools
import sys
from collections import namedtuple
from math import isqrt

import chart
import common

m = common.library()
LIMIT = 50_000
LEVELS = (-0.005, 0.0, 0.02, 0.04, 0.08)
REVERSIONS = (0.0, 0.01, 0.03, 0.05, 0.1, 0.2)
STEPS = (5, 10, 20, 30, 40, 60)
COUPON = 50_000_000
DRAWN_LEVEL, DRAWN_REVERSIONS = 0.02, (0.0, 0.03, 0.1)

Case = namedtuple('Case', 'frequency steps reversion level')
Largest = namedtuple('Largest', 'volatility refusal')


def fit_number(case, volatility):
    """The number of the refusal of a fit, or 0, and the tree."""
    points = [m.Point(t, m.YEARLY_YIELD, case.level) for t in range(1, case.steps + 1)]
    try:
        return 0, m.Tree(case.frequency, case.steps, case.reversion, volatility, points)
    except m.Refused as refusal:
        return refusal.number, None


def job_number(case, volatility):
    """The number of the refusal of a fit and the bond on it, or 0."""
    number, tree = fit_number(case, volatility)
    if number:
        return number
    coupon = COUPON // case.frequency
    try:
        tree.bond_price([coupon] * (case.steps - 1) + [coupon + m.ONE])
    except m.Refused as refusal:
        return refusal.number
    return 0


def largest(case, number_of):
    """By halving; volatility None where none is accepted."""
    accepted, refused = -1, LIMIT + 1
    while refused - accepted > 1:
        middle = (accepted + refused) // 2
        accepted, refused = (middle, refused) if number_of(case, middle) == 0 else (accepted, middle)
    return Largest(accepted if accepted >= 0 else None, number_of(case, refused))


@functools.lru_cache(None)
def answers(case):
    """The largest of the fit alone, and of fit and bond."""
    return largest(case, lambda *at: fit_number(*at)[0]), largest(case, job_number)


def first_refused_by_width(case):
    """The least volatility that gives 8, or None where that is beyond the limit: by the rule of the spacing, half width times spacing is above one."""
    width = m.half_width(case.reversion, case.steps - 1)
    spacing = m.ONE // width + 1
    least = isqrt((spacing ** 2 * case.frequency ** 3 - 1) // 3_000_000) + 1
    return least if least <= LIMIT else None


def case_of(frequency, steps, yearly_reversion, level):
    return Case(frequency, steps, common.whole_reversion(yearly_reversion, frequency), level)


def percent(found):
    """Rounded down, so that what is shown is accepted."""
    if found.volatility is None:
        return f'none ({found.refusal})'
    return f'{found.volatility // 100 / 100:.2f} ({found.refusal})'


def cell(case):
    fit, job = answers(case)
    return percent(fit) if fit == job else f'{percent(job)}, fit {percent(fit)}'


def all_cases():
    return [case_of(f, n, a, level) for f in common.FREQUENCIES for n in STEPS for a in REVERSIONS for level in LEVELS]


def level_table(level):
    """Rows in which nothing but the limit itself refuses are left out."""
    head = ['steps', *(f'reversion {a * 100:g}%' for a in REVERSIONS)]
    rows = []
    for f in common.FREQUENCIES:
        for n in STEPS:
            cells = [cell(case_of(f, n, a, level)) for a in REVERSIONS]
            if set(cells) != {'5.00 (5)'}:
                rows.append([f'{n} {common.STEP_NAMES[f]}', *cells])
    return common.table(head, rows)


def count_table():
    """How often each refusal comes next."""
    found = [answers(case) for case in all_cases()]
    numbers = sorted({largest_.refusal for pair in found for largest_ in pair})
    rows = [[name, *(sum(pair[k].refusal == number for pair in found) for number in numbers)]
            for k, name in enumerate(('the fit alone', 'fit and bond'))]
    return common.table([f'of {len(found)} cases, next is', *numbers], rows)


def width_sentence():
    """How far from 8 the accepted volatilities end."""
    ratios = []
    for case in all_cases():
        least, accepted = first_refused_by_width(case), answers(case)[0].volatility
        if least is not None and accepted is not None:
            ratios.append(least / accepted)
    return (f'Refusal 8 begins within the limit of volatility in {len(ratios)} of these cases, at {min(ratios):.1f} to {max(ratios):.1f} times '
            'the largest volatility that a fit accepts.\n')


def shorter_sentence():
    """What quarterly steps take for the same years, where 9 stops both."""
    ratios = []
    for level in LEVELS:
        for a in REVERSIONS:
            for years in range(5, 16):
                yearly, quarterly = (answers(case_of(f, f * years, a, level))[0] for f in (1, 4))
                if yearly.refusal == quarterly.refusal == 9:
                    ratios.append(quarterly.volatility / yearly.volatility)
    return (f'For 5 to 15 years quarterly steps take {min(ratios):.1f} to {max(ratios):.1f} times the volatility that yearly ones take, most on a low curve: '
            f'{len(ratios)} trees of these levels and reversions that 9 stops either way.\n')


def lines_of(yearly_reversion):
    for k, f in enumerate(common.FREQUENCIES):
        found = {n: answers(case_of(f, n, yearly_reversion, DRAWN_LEVEL)) for n in range(1, 61)}
        points = {n: pair[1].volatility / 10_000 for n, pair in found.items()}
        yield chart.Line(f'{common.STEP_NAMES[f]} steps', list(points.items()), chart.COLOURS[k], '', '')
        for refusal, shape in ((9, 'circle'), (12, 'square')):
            marked = [(n, points[n]) for n in range(5, 61, 5) if found[n][1].refusal == refusal]
            yield chart.Line('', marked, chart.COLOURS[k], shape, None)


def picture():
    x = chart.axis('number of steps', 0, 60, range(0, 61, 10))
    y = chart.axis('largest volatility, percent a year', 0, 5.2, range(6))
    keys = [chart.Line('next is 9', [], chart.SOFT, 'circle', None), chart.Line('next is 12', [], chart.SOFT, 'square', None),
            chart.Line('at 5: next is 5', [], chart.SOFT, '', None)]
    panels = [chart.Panel(f'reversion {a * 100:g}% a year', x, y, [*lines_of(a), *keys]) for a in DRAWN_REVERSIONS]
    return chart.chart('The largest volatility that is accepted',
                       f'A flat curve of {DRAWN_LEVEL * 100:g}%, fit and a bond of 5% a year; the marks say which refusal comes next', panels)


def main():
    if sys.argv[1:] not in ([], ['--check']):
        sys.exit(f'the one argument is --check: see {sys.argv[0]} --help')
    blocks = {f'level {level * 100:g}': level_table(level) for level in LEVELS}
    blocks |= {'next refusals': count_table(), 'width': width_sentence(), 'shorter': shorter_sentence()}
    return common.write_or_compare(common.outputs('ACCEPTED.md', blocks, {'largest-volatility.svg': picture()}))


if __name__ == '__main__':
    sys.exit(main())
