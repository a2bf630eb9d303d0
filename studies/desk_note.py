#!/usr/bin/env python3
"""A callable note on the curve of docs/notebooks: the engine against a fine tree in floats and, where it is installed, QuantLib.

    studies/desk_note.py [--check]

Needs the library (tools/library). Writes the two tables of docs/STUDY.md on that note; with --check it only says whether
they are as they would be written. Without QuantLib the table of its prices stays as it is.
"""
import importlib.util
import sys
from fractions import Fraction

import common
import float_tree

common.library()
sys.path.append(str(common.DOCS / 'notebooks'))
import with_desk
from mixegorta import desk

YEARS, CALLED, COUPON = 10, range(5, 10), 0.015
ENGINE, FLOAT, QUANTLIB = (1, 2, 4), (1, 2, 4, 12, 24, 48), (1, 2, 4, 12, 24)


def in_floats(frequency):
    """The note per 100 on a tree in floats, with as many steps as are asked for."""
    steps = YEARS * frequency
    curve = [with_desk.curve.discount(float(Fraction(row, frequency))) for row in range(1, steps + 1)]
    flows = [COUPON * (row % frequency == 0) + (row == steps) for row in range(1, steps + 1)]
    bond, call = float_tree.bond_and_call(curve, frequency, float(with_desk.model.reversion), float(with_desk.model.volatility_bp) / 10_000, flows,
                                          {year * frequency for year in CALLED}, 1.0)
    return 100 * (bond - call)


def by_engine(frequency):
    return desk.price(with_desk.note, with_desk.curve, with_desk.model, frequency=frequency)


def signed(value):
    return f'{value:+.4f}'.replace('-', '\u2212')


def engine_table(finest):
    lines = []
    for frequency in FLOAT:
        answer, fine = by_engine(frequency) if frequency in ENGINE else None, in_floats(frequency)
        told = [f'{answer.total.value:.4f}', signed(float(answer.total.value) - finest), f'{answer.total.bound:f}', signed(answer.estimate.difference)] if answer else [''] * 4
        lines.append([frequency, *told, f'{fine:.4f}', signed(fine - finest)])
    return common.table(['steps a year', 'engine', 'less the finest', 'exact on this tree to', 'what the steps cost, its estimate', 'tree in floats', 'less the finest'], lines)


def quantlib_table(finest):
    """QuantLib's prices, or None where it is not installed."""
    if not importlib.util.find_spec('QuantLib'):
        return None
    import with_quantlib
    prices = {frequency: with_quantlib.price(steps=YEARS * frequency) for frequency in QUANTLIB}
    return common.table(['steps a year', f'QuantLib {with_quantlib.ql.__version__}', 'less the finest tree in floats'],
                        [[frequency, f'{price:.4f}', signed(price - finest)] for frequency, price in prices.items()])


def main():
    finest = in_floats(FLOAT[-1])
    blocks = {'callable note': engine_table(finest), 'callable note in QuantLib': quantlib_table(finest)}
    return common.write_or_compare(common.outputs('STUDY.md', {name: block for name, block in blocks.items() if block is not None}, {}))


if __name__ == '__main__':
    sys.exit(main())
