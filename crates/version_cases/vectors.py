#!/usr/bin/env python3
"""What the program of this crate must write, worked out from documents 01 and 02 alone, in whole numbers of any size.

    vectors.py    writes the file stdout beside itself
"""
import math
import os

ONE = 10 ** 9


def discount(y):
    """F of request (i), for y at or above 0"""
    quarter, terms = y // 4, [ONE]
    for k in range(1, 13):
        terms.append(terms[-1] * quarter // (k * ONE))
    series = sum(term if k % 2 == 0 else -term for k, term in enumerate(terms))
    square = series * series // ONE
    return square * square // ONE


def working(b):
    return (2 * 10_000 * (ONE - discount(100_000 * b)) + ONE) // (2 * ONE)


def ratio(b):
    return ONE * (ONE - discount(200_000 * b)) // (200_000 * b) if b else ONE


def spacing(f, s, b):
    """the greatest h with h² × f³ at most 3 × (1,000 s)² × c / one, down"""
    most = 3 * (1_000 * s) ** 2
    if b:
        most = most * ratio(b) // ONE
    return math.isqrt(most // f ** 3)


def lines():
    for block in range(61):
        reversions = range(100 * block, min(100 * block + 99, 6_000) + 1)
        sums = [sum(map(working, reversions)), sum(map(ratio, reversions))]
        sums += [sum(spacing(f, s, b) for b in reversions) for f, s in ((1, 10_000), (2, 49_999), (4, 1_234), (12, 50_000))]
        yield ' '.join(['block', str(block), *map(str, sums)])


if __name__ == '__main__':
    here = os.path.dirname(os.path.abspath(__file__))
    with open(os.path.join(here, 'stdout'), 'w') as out:
        out.write(''.join(line + '\n' for line in lines()))
