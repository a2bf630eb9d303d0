#!/usr/bin/env python3
"""Works out what the program must print, by the rules of reference/, which share nothing with the engine.

    vectors.py > stdout
"""
import os
import sys
from fractions import Fraction

sys.dont_write_bytecode = True
sys.path.insert(0, os.path.join(os.path.dirname(os.path.abspath(__file__)), "..", "..", "reference"))
import reference as rules

ONE, WHOLE = rules.ONE, rules.D


def fit(f, b, s, quotes):
    """The number, the discounts and the state prices by row, node and value."""
    n, h = len(quotes), rules.spacing(f, s)
    if rules.half_width(b, n - 1) * h > ONE:
        return 8, [], []
    try:
        return 0, *rules.fit(n, b, h, quotes)
    except rules.Refused as refusal:
        return refusal.number, [], []


def compared(value, scale, printed, unit, units):
    return f" {value}" + (" met" if abs(value * scale - printed * unit) <= units * unit else " missed")


def main():
    h = rules.spacing(1, 10_000)
    # exhibit 2: rates in hundredths of a percent, one unit of the last digit
    print("rate" + compared(h, 1, 173, 100_000, 1))
    print("rate" + compared(2 * h, 1, 346, 100_000, 1))
    exhibit = {0: (167, 666, 167), 1: (122, 656, 222), -1: (222, 656, 122), 2: (887, 26, 87), -2: (87, 26, 887)}
    for j in (0, 1, -1, 2, -2):
        print("branch" + "".join(compared(p, 1000, q, WHOLE, 1) for p, q in zip((p for _, p in rules.branches(1000, j)), exhibit[j])))
    # exhibit 3's state prices in ten-thousandths, two units of the last digit; then its rates, one unit
    quotes = [rules.continuous(rules.nearest(Fraction(x) * ONE) * t) for t, x in enumerate(YIELDS, 1)]
    number, discounts, prices = fit(1, 1000, 10_000, quotes)
    print(f"fit {number}")
    for row, printed in ((1, (1604, 6417, 1604)), (2, (189, 2032, 4737, 1997, 183))):
        for q, x in zip(prices[row].values(), printed):
            print("price" + compared(q, 1, x, 100_000, 2))
    for row, printed in enumerate(((382,), (347, 520, 693), (279, 452, 625, 798, 971))):
        for v, x in zip(discounts[row].values(), printed):
            print("rate" + compared(rules.continuous_rate(v), 1, x, 100_000, 1))
    print(f"lone {fit(1, 0, 0, [rules.nearest(Fraction(1.2) * ONE)])[0]}")
    for n in (12, 13):
        print(f"wide {n} {fit(1, 0, 50_000, [ONE] * n)[0]}")


# 0.08 - 0.05 e^(-0.18 t) for t = 1, 2, 3, as the program has them
YIELDS = (0.0382364894294364, 0.04511618369644845, 0.05086258738130052)


if __name__ == "__main__":
    main()
