#!/usr/bin/env python3
"""How good the tree is: European options on zero bonds against the closed formula of the Hull-White model.

    studies/closed_form.py [--check]

Needs the library (tools/library). Writes the tables of docs/STUDY.md and its picture; with --check it only says whether they are as they
would be written. Differences are in basis points of the formula's price. The curve is a flat yearly yield of 3%; formula and tree take the
same curve. The option expires on row e, the bond pays one on row n.
"""
import math
import sys
from collections import namedtuple
from functools import lru_cache
from statistics import NormalDist

import chart
import common
import float_tree

m = common.library()
YIELD = 0.03
VOLATILITY = 0.006
REVERSIONS = (0.0, 0.01, 0.02, 0.05, 0.1, 0.2)
MOST_STEPS = 60

# years to expiry and to the bond's end
Terms = namedtuple('Terms', 'expiry end')
SPANS = (Terms(1, 5), Terms(2, 5), Terms(4, 5), Terms(5, 10))


# The closed formula

def discount(years):
    return math.exp(-YIELD * years)


def deviation(terms, reversion, volatility):
    """The standard deviation of the logarithm of the bond's forward price at expiry."""
    if reversion == 0:
        return volatility * (terms.end - terms.expiry) * math.sqrt(terms.expiry)
    loading = (1 - math.exp(-reversion * (terms.end - terms.expiry))) / reversion
    return volatility * loading * math.sqrt((1 - math.exp(-2 * reversion * terms.expiry)) / (2 * reversion))


def kept_by_a_step(reversion, version):
    """What a step leaves of the rate's distance from its mean, for a reversion a step."""
    return 1 - reversion if version == 1 else math.exp(-reversion)


def variance_share(reversion, version):
    """A step's variance, as a part of volatility squared times the step's length, likewise."""
    return 1.0 if version == 1 or reversion == 0 else -math.expm1(-2 * reversion) / (2 * reversion)


def stepped_deviation(terms, frequency, reversion, volatility, version=1):
    """The same where the rate changes once a step, by the tree's mean and variance."""
    step = 1 / frequency
    kept, variance = kept_by_a_step(reversion * step, version), step * variance_share(reversion * step, version)
    loading = step * sum(kept ** k for k in range(round((terms.end - terms.expiry) * frequency)))
    return volatility * loading * math.sqrt(variance * sum(kept ** (2 * k) for k in range(round(terms.expiry * frequency))))


def formula(terms, strike, spread, side):
    """The price of the call (1) or put (-1) for that standard deviation."""
    normal = NormalDist().cdf
    bond, paid = discount(terms.end), strike * discount(terms.expiry)
    first = math.log(bond / paid) / spread + spread / 2
    return side * (bond * normal(side * first) - paid * normal(side * (first - spread)))


def strike_at(terms, reversion, deviations):
    """So many standard deviations from the bond's forward price."""
    forward = discount(terms.end) / discount(terms.expiry)
    return forward * math.exp(deviations * deviation(terms, reversion, VOLATILITY))


def at_the_money(terms, reversion):
    """The strike, and the price of the call."""
    strike = strike_at(terms, reversion, 0)
    return strike, formula(terms, strike, deviation(terms, reversion, VOLATILITY), 1)


# The tree

@lru_cache(None)
def tree(frequency, steps, reversion, volatility, version=1):
    points = [m.Point(t, m.YEARLY_YIELD, YIELD) for t in range(1, steps + 1)]
    return m.Tree(frequency, steps, reversion, volatility, points, version=version)


def engine(terms, frequency, whole_reversion, volatility, strike, kind, version=1):
    """The engine's price; volatility as a yearly fraction."""
    steps = round(terms.end * frequency)
    flows = [0] * (steps - 1) + [m.ONE]
    found = tree(frequency, steps, whole_reversion, round(volatility * 10 ** 6), version)
    return found.option_price(flows, kind, round(terms.expiry * frequency), round(strike * m.ONE)).value / m.ONE


def difference(price, wanted):
    """In basis points of the wanted price."""
    return (price / wanted - 1) * 10_000


def tree_difference(terms, frequency, reversion, deviations=0.0, version=1):
    """Of a call at or above the forward price and of a put below it: in either, no intrinsic value hides the difference."""
    strike, side = strike_at(terms, reversion, deviations), -1 if deviations < 0 else 1
    wanted = formula(terms, strike, deviation(terms, reversion, VOLATILITY), side)
    whole = common.whole_reversion(reversion, frequency)
    kind = m.EUROPEAN_CALL if side == 1 else m.EUROPEAN_PUT
    return difference(engine(terms, frequency, whole, VOLATILITY, strike, kind, version), wanted)


@lru_cache(None)
def tree_range(terms, frequency, reversion, version=1):
    """The lowest and highest difference over strikes within one standard deviation."""
    found = [tree_difference(terms, frequency, reversion, k / 10, version) for k in range(-10, 11)]
    return min(found), max(found)


def step_difference(terms, frequency, reversion, version=1):
    """What the length of the step alone does to the reversion: formula against formula, at the money."""
    strike, wanted = at_the_money(terms, reversion)
    return difference(formula(terms, strike, stepped_deviation(terms, frequency, reversion, VOLATILITY, version), 1), wanted)


def rounding_difference(terms, reversion, taken):
    """What another reversion does, formula against formula, at the money."""
    strike, wanted = at_the_money(terms, reversion)
    return difference(formula(terms, strike, deviation(terms, taken, VOLATILITY), 1), wanted)


def adjusted(frequency, reversion):
    """Inputs for which a step keeps the model's own mean and variance: whole reversion a step, and yearly volatility."""
    pull = reversion / frequency
    kept = -math.expm1(-pull)
    share = math.sqrt(-math.expm1(-2 * pull) / (2 * pull)) * kept / pull if pull else 1.0
    return round(10_000 * kept), VOLATILITY * share


def adjusted_difference(terms, frequency, reversion):
    strike, wanted = at_the_money(terms, reversion)
    return difference(engine(terms, frequency, *adjusted(frequency, reversion), strike, m.EUROPEAN_CALL), wanted)


def averaged(frequency, reversion):
    """The yearly volatility by which version 2 has that of a rate over a whole step."""
    a_step = reversion / frequency
    return VOLATILITY * (-math.expm1(-a_step) / a_step if a_step else 1.0)


def averaged_difference(terms, frequency, reversion):
    strike, wanted = at_the_money(terms, reversion)
    whole = common.whole_reversion(reversion, frequency)
    return difference(engine(terms, frequency, whole, averaged(frequency, reversion), strike, m.EUROPEAN_CALL, 2), wanted)


# Tables

def shown(value, decimals=0):
    text = f'{value:+,.{decimals}f}'
    return text.replace('-', chart.MINUS) if float(text.replace(',', '')) else '0'


def row_name(terms, frequency):
    return f'{terms.expiry} to {terms.end}, {common.STEP_NAMES[frequency]}'


def by_reversion(of):
    """Rows by the option's years and the frequency, columns by reversion."""
    rows = []
    for terms in SPANS:
        for f in common.FREQUENCIES:
            if terms.end * f <= MOST_STEPS:
                rows.append([row_name(terms, f), terms.expiry * f, *(of(terms, f, a) for a in REVERSIONS)])
    return common.table(['years, steps', 'steps to expiry', *(f'{a * 100:g}%' for a in REVERSIONS)], rows)


def range_text(terms, frequency, reversion, version=1):
    return ' to '.join(map(shown, tree_range(terms, frequency, reversion, version)))


def spacing_of(whole, volatility):
    """The spacing of a yearly tree of version 2: the discount of node -1 is that of node 0 times e to it."""
    low, middle, _ = tree(1, 2, whole, volatility, 2).row(m.DISCOUNTS, 1)
    return math.log(low / middle)


def moments_table():
    """What a step keeps of the distance from the mean, and its variance: version 1, version 2 as it is stored, and the model."""
    rows, volatility = [], 20_000
    for b in (10, 100, 500, 1_000, 2_000, 6_000):
        reversion, working = b / 10_000, m.working_reversion(2, b)
        share = spacing_of(b, volatility) ** 2 / 3 / (volatility / 10 ** 6) ** 2
        rows.append([f'{b:,}', f'{working:,}', f'{1 - reversion:.4f}', f'{1 - working / 10_000:.4f}', f'{math.exp(-reversion):.7f}', '1', f'{share:.7f}',
                     f'{variance_share(reversion, 2):.7f}'])
    return common.table(['b', 'working', 'kept, version 1', 'kept, version 2', 'kept, model', 'variance, version 1', 'variance, version 2', 'variance, model'],
                        rows)


def strike_table():
    """By the strike's distance from the forward price, without reversion."""
    places = (-2, -1, -0.5, 0, 0.5, 1, 2)
    terms = Terms(2, 5)
    rows = [[row_name(terms, f), *(shown(tree_difference(terms, f, 0.0, place)) for place in places)] for f in common.FREQUENCIES]
    names = [f'{place:+g}'.replace('-', chart.MINUS) if place else 'at the money' for place in places]
    return common.table(['years, steps', *names], rows)


def rounding_table():
    """At usual yearly reversions, and where a reversion lies half way between two whole numbers."""
    usual, rows = (0.01, 0.02, 0.03, 0.05, 0.1), []
    for f in common.FREQUENCIES:
        for terms in dict.fromkeys((Terms(2, 5), Terms(MOST_STEPS // f // 2, MOST_STEPS // f))):
            half = 5e-5 * f
            cells = [rounding_difference(terms, a, common.whole_reversion(a, f) * f / 10_000) for a in usual]
            worst = max((rounding_difference(terms, half + a, a) for a in (0.0, *usual)), key=abs)
            rows.append([row_name(terms, f), terms.end * f, *(shown(value, 1) for value in (*cells, worst))])
    return common.table(['years, steps', 'steps to the end', *(f'{a * 100:g}%' for a in usual), 'half way, at most'], rows)


def limit_table():
    """The tree in floats with ever shorter steps."""
    terms, frequencies, rows = Terms(2, 5), (1, 2, 4, 12, 24, 48, 96), []
    for a in (0.0, 0.05, 0.2):
        strike, wanted = at_the_money(terms, a)
        found = [difference(float_tree.call(f, terms, a, VOLATILITY, YIELD, strike), wanted) for f in frequencies]
        rows.append([f'{a * 100:g}%', *(shown(value, 1) for value in found)])
        if a:
            rows.append([f'{a * 100:g}%, the step alone', *(shown(step_difference(terms, f, a), 1) for f in frequencies)])
    return common.table(['reversion', *(f'{f} a year' for f in frequencies)], rows)


def input_table():
    """What to give for a step that keeps the model's mean and variance."""
    rows = []
    for f in common.FREQUENCIES:
        given = [adjusted(f, a) for a in REVERSIONS[1:]]
        rows.append([common.STEP_NAMES[f], *(f'{b}, {volatility / VOLATILITY:.4f}' for b, volatility in given)])
    return common.table(['steps', *(f'{a * 100:g}%' for a in REVERSIONS[1:])], rows)


# The picture

def steps_panel():
    """Without reversion, where a difference hangs on the steps to expiry alone; the bond ends four steps after it."""
    lines = []
    for k, f in enumerate(common.FREQUENCIES):
        cases = [Terms(e / f, (e + 4) / f) for e in (1, 2, 3, 4, 6, 8, 12, 16, 24, 32, 48)]
        points = [(round(case.expiry * f), max(map(abs, tree_range(case, f, 0.0)))) for case in cases if tree_accepts(case, f)]
        lines.append(chart.Line(f'{common.STEP_NAMES[f]} steps', points, chart.COLOURS[k], ('circle', 'square', 'triangle', 'ring')[k], None))
    lines.append(chart.Line('5,000 / steps to expiry', [(e, 5_000 / e) for e in (1, 48)], chart.SOFT, '', '5 4'))
    x = chart.axis('steps to expiry', 0.9, 60, (1, 2, 4, 8, 16, 32, 48), True)
    y = chart.axis('basis points of the price', 50, 6_000, (50, 100, 200, 500, 1_000, 2_000, 5_000), True)
    return chart.Panel('without reversion: greatest within one deviation', x, y, lines)


def tree_accepts(terms, frequency):
    try:
        return bool(tree(frequency, round(terms.end * frequency), 0, round(VOLATILITY * 10 ** 6)))
    except m.Refused:
        return False


def reversion_panel():
    lines = []
    for k, f in enumerate(common.FREQUENCIES):
        points = [(a, step_difference(Terms(2, 5), f, a / 100)) for a in range(0, 21)]
        lines.append(chart.Line(f'{common.STEP_NAMES[f]} steps', points, chart.COLOURS[k], '', ''))
    x, y = chart.axis('reversion, percent a year', 0, 20, range(0, 21, 5)), chart.axis('basis points of the price', 0, 2_000, range(0, 2_001, 250))
    return chart.Panel('the length of the step in the reversion, at the money', x, y, lines)


def picture():
    return chart.chart('Options on zero bonds: the tree against the closed formula',
                       'Left: the engine, on either side of the formula by the strike. Right: two formulas, expiry 2 years, bond 5 years, always above.',
                       [steps_panel(), reversion_panel()])


def main():
    if sys.argv[1:] not in ([], ['--check']):
        sys.exit(f'the one argument is --check: see {sys.argv[0]} --help')
    blocks = {'at the money': by_reversion(lambda *case: shown(tree_difference(*case))), 'range': by_reversion(range_text),
              'step alone': by_reversion(lambda *case: shown(step_difference(*case))),
              'adjusted': by_reversion(lambda *case: shown(adjusted_difference(*case))),
              'at the money, version 2': by_reversion(lambda *case: shown(tree_difference(*case, version=2))),
              'range, version 2': by_reversion(lambda *case: range_text(*case, version=2)),
              'step alone, version 2': by_reversion(lambda *case: shown(step_difference(*case, version=2))),
              'averaged': by_reversion(lambda *case: shown(averaged_difference(*case))), 'moments': moments_table(),
              'inputs': input_table(), 'rounding': rounding_table(), 'strikes': strike_table(), 'limit': limit_table()}
    return common.write_or_compare(common.outputs('STUDY.md', blocks, {'closed-form.svg': picture()}))


if __name__ == '__main__':
    sys.exit(main())
