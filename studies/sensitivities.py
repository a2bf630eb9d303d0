#!/usr/bin/env python3
"""DV01, convexity and vega of forty notes on each of five curves: mixegorta.desk against a fine tree in floats.

    studies/sensitivities.py [--check]

Needs the library (tools/library). Writes the tables of docs/STUDY.md on sensitivities; with --check it only says
whether they are as they would be written. Some minutes: the fine tree has 60 steps a year.
"""
import statistics
import sys
from collections import namedtuple
from decimal import Decimal
from fractions import Fraction

import common

common.library()
import fine_tree
from mixegorta import desk

CURVES = {
    'falling': {'3M': '5.3', '1Y': '5', '2Y': '4.5', '5Y': '4.1', '10Y': '4.2'},
    'rising from below zero': {
        '3M': '-0.25', '6M': '-0.15', '1Y': '0.1', '2Y': '0.6', '3Y': '1.0', '5Y': '1.6', '7Y': '2.1', '10Y': '2.5'},
    'flat': {'1Y': '3', '10Y': '3'},
    'steep': {'1Y': '1', '2Y': '2', '5Y': '3.5', '10Y': '4.5'},
    'high': {'3M': '8', '1Y': '8.5', '5Y': '9', '10Y': '9'},
}
VOLATILITY_BP, REVERSION = 100, '0.05'
# Years to maturity, each with the first year of exercise; coupons above the par coupon; and the two rights.
MATURITIES = {3: 1, 5: 2, 7: 2, 10: 3}
ABOVE_PAR, KINDS = (-1, Fraction(-1, 2), 0, Fraction(1, 2), 1), ('callable', 'puttable')
FINE, LONGEST = 60, 10
# Moves on the fine tree: wide enough that the exercise of many of its nodes changes.
SLOPE_BP, VEGA_BP = 10, 5
FORMER_CONVEXITY_BP = 25
FIGURES = {'dv01': 4, 'convexity': 0, 'vega': 4}
HEAD = ['curve', 'figure', 'median size', 'median error', 'greatest error', 'median estimate',
        'error within the estimate', 'not supported']
MOVES_HEAD = ['curve', 'over 25 bp: median error', 'greatest', 'over the widest: median error', 'greatest',
              'moves taken, bp']

Note = namedtuple('Note', 'kind years first coupon')
# A figure of the desk beside that of the fine tree.
Compared = namedtuple('Compared', 'found fine')


def par_coupon(curve, years):
    """The coupon in percent, to the nearest quarter, at which a bond is worth about par."""
    discounts = [curve.discount(year) for year in range(1, years + 1)]
    return Fraction(round(400 * (1 - discounts[-1]) / sum(discounts)), 4)


def notes(curve):
    terms = [(kind, years, above) for kind in KINDS for years in MATURITIES for above in ABOVE_PAR]
    return [Note(kind, years, MATURITIES[years], max(Fraction(0), par_coupon(curve, years) + above))
            for kind, years, above in terms]


def instrument(note):
    bond = desk.Bond(coupon=str(Decimal(note.coupon.numerator) / note.coupon.denominator), maturity=f'{note.years}Y')
    return getattr(bond, note.kind)(on=bond.coupon_days(first=f'{note.first}Y'), at=100)


def trees(curve):
    """The fine tree of a curve, and those of less and more volatility."""
    discounts = [curve.discount(float(Fraction(row, FINE))) for row in range(1, LONGEST * FINE + 1)]
    return [
        fine_tree.FineTree(discounts, FINE, float(REVERSION), (VOLATILITY_BP + move) / 10_000)
        for move in (0, -VEGA_BP, VEGA_BP)]


def fine_price(tree, note, move=0.0):
    """The note per 100 on a fine tree."""
    flows = {year * FINE: float(note.coupon) / 100 + (year == note.years) for year in range(1, note.years + 1)}
    days, side = {year * FINE for year in range(note.first, note.years)}, -1 if note.kind == 'callable' else 1
    return 100 * tree.held(flows, days, 1.0, side, move, note.years * FINE)


def fine_figures(fitted, note, moves):
    """DV01, vega and the convexity over each of some moves."""
    tree, less, more = fitted
    base, (down, up) = fine_price(tree, note), (fine_price(tree, note, sign * SLOPE_BP) for sign in (-1, 1))
    convexities = {
        move: (fine_price(tree, note, -move) + fine_price(tree, note, move) - 2 * base) / base / (move / 10_000) ** 2
        for move in moves}
    return (down - up) / (2 * SLOPE_BP), (fine_price(more, note) - fine_price(less, note)) / (2 * VEGA_BP), convexities


def compared(curve, note, fitted):
    """Each figure of a note by the desk beside the fine tree's, and the convexity over the default move."""
    model, held = desk.Model(VOLATILITY_BP, REVERSION), instrument(note)
    found = desk.sensitivities(held, curve, model, convexity_bp=None)
    former = desk.sensitivities(held, curve, model)['convexity']
    taken = float(found['convexity'].move_bp)
    dv01, vega, convexities = fine_figures(fitted, note, {taken, float(FORMER_CONVEXITY_BP)})
    return {
        'dv01': Compared(found['dv01'], dv01), 'convexity': Compared(found['convexity'], convexities[taken]),
        'vega': Compared(found['vega'], vega), 'former': Compared(former, convexities[float(FORMER_CONVEXITY_BP)])}


def error(each):
    return abs(float(each.found.value) - each.fine)


def within(each):
    """Whether the fine tree's figure is no further than the estimate, or within the interval of the bounds."""
    return error(each) <= max(abs(float(each.found.estimate)), float(each.found.high - each.found.low))


def shown(value, places):
    return f'{value:.{places}f}'


def figure_line(curve, name, cases):
    errors, estimates = [error(each) for each in cases], [abs(float(each.found.estimate)) for each in cases]
    places = FIGURES[name]
    size = statistics.median(abs(each.fine) for each in cases)
    numbers = [size, statistics.median(errors), max(errors), statistics.median(estimates)]
    return [curve, name, *(shown(number, places) for number in numbers), f'{sum(map(within, cases))} of {len(cases)}',
            sum(not each.found.supported for each in cases)]


def move_line(curve, cases, former):
    taken = [int(each.found.move_bp) for each in cases]
    counts = ', '.join(f'{taken.count(move)} over {move}' for move in sorted(set(taken)))
    errors = [shown(rule(map(error, each)), 0) for each in (former, cases) for rule in (statistics.median, max)]
    return [curve, *errors, counts]


def tables():
    found = {}
    for name, rates in CURVES.items():
        curve = desk.Curve(rates, compounding='yearly')
        fitted = trees(curve)
        found[name] = [compared(curve, note, fitted) for note in notes(curve)]
    lines = [
        figure_line(curve, name, [case[name] for case in cases]) for name in FIGURES for curve, cases in found.items()]
    moves = [move_line(curve, *([case[name] for case in cases] for name in ('convexity', 'former')))
             for curve, cases in found.items()]
    return {'sensitivities': common.table(HEAD, lines), 'moves of convexity': common.table(MOVES_HEAD, moves)}


if __name__ == '__main__':
    sys.exit(common.write_or_compare(common.outputs('STUDY.md', tables(), {})))
