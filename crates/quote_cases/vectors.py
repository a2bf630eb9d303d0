#!/usr/bin/env python3
"""The outside vectors of this crate, worked out by the rules of reference/, in whole numbers and exact fractions.

    vectors.py tables    the tables of src/main.rt
    vectors.py stdout    what the program must write
"""
import math
import os
import random
import sys

sys.dont_write_bytecode = True
sys.path.insert(0, os.path.join(os.path.dirname(os.path.abspath(__file__)), "..", "..", "reference"))
import reference as rules

ONE, pattern = rules.ONE, rules.pattern_of
random.seed(1990)


def answer(rule, *given):
    """(number, value) of a rule that gives a value or refuses"""
    try:
        return 0, rule(*given)
    except rules.Refused as refusal:
        return refusal.number, 0


def figure(bits):
    return answer(rules.whole_billionths, bits)


def point(frequency, kind, row, bits):
    rules.refuse_if(frequency not in (1, 2, 4, 12), 2)
    rules.refuse_if(not 1 <= row <= 60, 6)
    return rules.quote(frequency, row, kind, bits)


def discount(frequency, kind, row, bits):
    return answer(point, frequency, kind, row, bits)


def step_rate(v):
    rules.refuse_if(not 1 <= v <= rules.DISCOUNT_LIMIT, 9)
    return rules.step_rate(v)


def rate(v):
    return answer(step_rate, v)


def continuous_rate(v):
    return answer(rules.continuous_rate, v)


def curve(frequency, steps, last_row, kind, bits, kind_count, room):
    """the number, and a memory of five, each 4 before, of which the first `room` places are lent"""
    rows = [1, 2, last_row]
    kinds = [kind, 6, 5][:kind_count]
    figures = [bits, pattern(0.05), pattern(0.875)]
    memory = [4] * 5

    def number():
        if frequency not in (1, 2, 4, 12):
            return 2
        if not 1 <= steps <= 60:
            return 3
        if not len(rows) == len(kinds) == len(figures) == steps or room < steps:
            return 6
        if any(t != i + 1 for i, t in enumerate(rows)):
            return 6
        answers = [discount(frequency, k, t, x) for k, t, x in zip(kinds, rows, figures)]
        if any(n for n, _ in answers):
            return 7
        memory[:steps] = [p for _, p in answers]
        return 0

    return number(), memory


NAN, INFINITY = 0x7FF8000000000000, 0x7FF0000000000000
SIGN = 1 << 63
ten = pattern(10.0)
PATTERNS = [
    pattern(-0.0025), pattern(0.0009765625), SIGN, 0, 1, 0x000FFFFFFFFFFFFF, 0x0010000000000000, SIGN | 1,
    ten, ten | SIGN, ten + 1, (ten + 1) | SIGN, ten - 1, NAN, INFINITY, INFINITY | SIGN,
    0xFFF0000000000001, 0x7FEFFFFFFFFFFFFF, pattern(1.0), 0x3FF00A3D70A3D70A, pattern(-3 / 1024), pattern(10239 / 1024), pattern(-10239 / 1024), pattern(5e-10),
    pattern(5e-10) + 1, pattern(-5e-10) - 1, pattern(1 / 3), pattern(-0.1), pattern(2.0**-31), pattern(1.5e-9), pattern(9.9999999995), pattern(-9.9999999994),
] + [pattern(random.uniform(-10, 10) * 10 ** random.randrange(-8, 1)) for _ in range(8)]

POINTS = [
    (1, 6, 1, -0.0025), (1, 5, 1, 2.0), (1, 5, 1, 2.0000000006), (1, 5, 60, 0.1), (1, 5, 1, 0.0999999994), (4, 5, 1, -0.5), (12, 5, 7, 1.0025), (2, 5, 30, 0.0),
    (1, 6, 1, -0.5), (1, 6, 1, -0.500000001), (1, 6, 1, 9.0), (1, 6, 1, 9.000000001), (1, 6, 1, -1.0), (12, 6, 60, -0.2), (12, 6, 60, -0.1), (12, 6, 60, 10.0),
    (3, 6, 61, math.nan), (0, 5, 1, 1.0), (13, 5, 1, 1.0), (1, 5, 0, 1.0), (1, 5, 61, math.inf), (2, 7, 1, 1.0), (2, 0, 1, 1.0), (2, 255, 60, 1.0),
    (1, 5, 1, math.nan), (1, 6, 1, -math.inf), (1, 6, 1, 10.000000000000002), (4, 6, 60, 0.03), (2, 6, 7, -0.00000000049), (12, 6, 1, -0.000000001), (1, 6, 60, 0.15), (1, 6, 60, 0.150000001),
] + [(random.choice((1, 2, 4, 12)), 6, random.randrange(1, 61), random.uniform(-0.02, 0.12)) for _ in range(8)]

DISCOUNTS = [
    0, 1, 2, 3, ONE - 1, ONE, ONE + 1, 1_002_500_000, 1_100_000_000, 1_100_000_001, 2**64 - 1, 327_680_000, 2**19, 2**19 * 5, 2**19 * 25, 2**19 * 125,
    500_000_000, 666_666_667, 999_999_998, 1_000_000_002, 1_000_500_000, 950_000_000, 10, 7,
] + [random.randrange(1, 1_100_000_001) for _ in range(16)]

PATTERNS += [pattern(random.uniform(-10, 10) * 10 ** random.randrange(-8, 1)) for _ in range(24)]

# y of 3 and -4, the limit and beyond it, where P leaves its range, and others
POINTS += [
    (2, 9, 1, 7e-9), (2, 9, 1, -7e-9), (1, 9, 1, 4.0), (1, 9, 1, -4.0), (1, 9, 1, 4.000000001), (12, 9, 60, 0.8), (12, 9, 60, -0.8), (1, 9, 60, -10.0),
    (1, 9, 1, 2.302585083), (1, 9, 1, 2.302585084), (1, 9, 1, -0.693147195), (1, 9, 1, -0.693147196), (1, 9, 1, math.nan), (2, 9, 3, math.inf), (12, 9, 1, 10.0), (12, 9, 1, 10.000000000000002),
    (1, 9, 1, -0.0), (4, 9, 7, 0.0375), (1, 9, 60, -0.0115), (12, 9, 60, 0.4), (3, 9, 1, 0.05), (1, 9, 61, 0.05), (12, 9, 59, -0.0025), (4, 9, 3, -0.000000001),
]
DISCOUNTS += [
    18_315_637, 18_315_638, 18_315_639, 999_999_996, 999_999_997, 999_999_999, 1_000_000_003, 1_000_000_004, 484_106_437, 853_004_019, 853_004_020, 1_099_999_999,
    367_879_441, 135_335_283, 49_787_068, 20_000_000, 1_000_000_005, 1_000_000_006, 1_050_000_000, 990_049_834, 904_837_418, 740_818_221, 606_530_660, 1_001_000_500,
]

# frequency, steps, row of the third point, kind and figure of the first, kinds lent, room lent
FACTOR, BAD = pattern(0.96), NAN
CURVES = [
    (1, 3, 3, 5, FACTOR, 3, 5), (2, 3, 3, 6, pattern(-0.0025), 3, 3), (1, 3, 3, 5, BAD, 3, 5), (1, 3, 2, 5, BAD, 3, 5), (1, 3, 4, 5, FACTOR, 3, 5),
    (1, 3, 3, 5, BAD, 2, 5), (1, 3, 3, 5, FACTOR, 3, 2), (1, 3, 3, 5, BAD, 3, 0), (1, 2, 3, 5, FACTOR, 3, 5), (1, 4, 3, 5, FACTOR, 3, 5),
    (1, 0, 9, 5, BAD, 3, 5), (1, 61, 9, 5, BAD, 3, 5), (5, 61, 9, 5, BAD, 3, 0), (12, 3, 3, 7, FACTOR, 3, 4), (4, 3, 3, 5, pattern(2.5), 3, 5),
    (1, 3, 3, 9, pattern(0.04), 3, 5), (4, 3, 3, 9, pattern(-0.0025), 3, 4), (1, 3, 3, 9, pattern(4.000000001), 3, 5), (2, 3, 3, 9, BAD, 3, 3), (2, 3, 3, 8, FACTOR, 3, 5),
]


def told(answer):
    return f"refused {answer[0]}" if answer[0] else str(answer[1])


def table(name, kind, rows):
    print(f"const {name}: [{kind}; {len(rows)}] = [")
    for row in rows:
        print(f"    ({', '.join(row)}),")
    print("];\n")


spell_hex = lambda x: f"0x{x:016X}"
if sys.argv[1:] == ["tables"]:
    lines = zip(PATTERNS, POINTS, DISCOUNTS)
    table("LINES", "Line", [(spell_hex(bits), str(f), str(k), str(t), spell_hex(pattern(x)), str(v)) for bits, (f, k, t, x), v in lines])
    table("CURVES", "Curve", [(str(f), str(n), str(last), str(k), spell_hex(bits), str(kinds), str(room)) for f, n, last, k, bits, kinds, room in CURVES])
else:
    assert len(PATTERNS) == len(POINTS) == len(DISCOUNTS) == 64 and len(CURVES) == 20
    for bits, (f, k, t, x), v in zip(PATTERNS, POINTS, DISCOUNTS):
        print(told(figure(bits)), told(discount(f, k, t, pattern(x))), told(rate(v)), told(continuous_rate(v)), sep=", ")
    for c in CURVES:
        number, memory = curve(*c)
        print(number, *memory)
