#!/usr/bin/env python3
"""Prices on a rate tree and a spread tree that were worked out by hand from document 02, request (xiii), against the reference; its promises on random pairs; a
tree of ones on either side; the order of its causes; and the output of crates/pair_cases, whose inputs stand here once more.

    python3 reference/test_pair.py
"""
import pathlib
import random
import sys
import unittest

sys.dont_write_bytecode = True
import pair
import reference as rules
import widths
from pair import Tree, bond_price, dated_option_price, exact_bond, exact_dated_option, needed, number_of
from reference import CALL, ONE, PUT, Refused

FIGURES = pathlib.Path(__file__).resolve().parent.parent / 'crates/pair_cases/stdout'
TOP = 1_100_000_000


def filled(n, b, value=ONE):
    return Tree(n, b, [value] * needed(Tree(n, b, [])))


def random_tree(chance, n, low=900_000_000, high=TOP):
    b = chance.choice((0, 0, 1, 92, 200, 1_000, 1_840, 1_841, 6_000))
    return Tree(n, b, [chance.randint(low, high) for _ in range(needed(Tree(n, b, [])))])


def random_terms(chance, n):
    dates = sorted(chance.sample(range(n), chance.randint(1, n)))
    return chance.choice((CALL, PUT)), dates, chance.randint(0, 2 * ONE)


class ByHand(unittest.TestCase):
    def one_step(self, rate, spread):
        return bond_price(filled(1, 0, rate), filled(1, 0, spread), [ONE])

    def test_one_step(self):
        """1.1 x 1.1 is above the limit of either tree, and accepted; 30,000 squared is below a billionth."""
        self.assertEqual(self.one_step(TOP, TOP), (1_210_000_000, 2))
        self.assertEqual(number_of(bond_price, filled(1, 0, 30_000), filled(1, 0, 30_000), [ONE]), 9)
        self.assertEqual(self.one_step(31_623, 31_623), (1, 2))
        self.assertEqual(number_of(bond_price, filled(1, 0, 31_622), filled(1, 0, 31_622), [ONE]), 9)
        self.assertEqual(self.one_step(999_999_999, 999_999_999), (999_999_998, 2))

    def test_two_steps(self):
        """All of row 1 alike: 1.04 x 0.9408 is 0.978432, and 1.018432 x 0.9603 is 0.9780002496."""
        rates, spreads = Tree(2, 0, [970_000_000] + [960_000_000] * 3), Tree(2, 6_000, [990_000_000] + [980_000_000] * 3)
        self.assertEqual(bond_price(rates, spreads, [40_000_000, 1_040_000_000]), (978_000_250, 4))

    def test_allowance(self):
        """With 1.21 on three rows: 2, then 2.42 up plus 2, then 6.05 up plus 2."""
        self.assertEqual(bond_price(filled(3, 0, TOP), filled(3, 0, TOP), [0, 0, ONE])[1], 9)

    def test_exercise(self):
        """A put on today's row at 1.3: the bond is worth 1.21."""
        trees = filled(1, 0, TOP), filled(1, 0, TOP)
        self.assertEqual(dated_option_price(*trees, [ONE], PUT, [0], 1_300_000_000), (90_000_000, 2))
        self.assertEqual(dated_option_price(*trees, [ONE], CALL, [0], 1_300_000_000), (0, 2))

    def test_coupon_of_the_day(self):
        """On row 1 the coupon of row 1 stays with the seller."""
        trees = filled(2, 0), filled(2, 0)
        self.assertEqual(dated_option_price(*trees, [2 * ONE, ONE], CALL, [1], 0), (ONE, 4))


class Causes(unittest.TestCase):
    def number(self, wanted, rates, spreads, flows, *terms):
        entry = dated_option_price if terms else bond_price
        self.assertEqual(number_of(entry, rates, spreads, flows, *terms), wanted)

    def test_order(self):
        """Each cause beside all that come after it: 3, 19, 4, 6, 9 of a tree, 9 of a pair, 10, 11, 13, 12."""
        bad, low, option = filled(2, 6_001, 0), filled(2, 0, 30_000), (3, [], 5 * ONE)
        self.number(3, filled(61, 6_001, 0), bad, [3 * ONE], *option)
        self.number(3, bad, filled(0, 6_001, 0), [3 * ONE], *option)
        self.number(3, filled(61, 0), filled(61, 0), [], *option)
        self.number(19, filled(21, 7_000, 0), filled(21, 0, 0), [], *option)
        self.number(19, filled(20, 0), filled(19, 0), [], *option)
        self.number(19, filled(60, 6_001), filled(1, 6_001), [], *option)
        self.number(4, bad, filled(2, 0, 0), [3 * ONE], *option)
        self.number(4, filled(2, 0, 0), bad, [3 * ONE], *option)
        self.number(6, Tree(2, 0, [0] * 3), filled(2, 0, 0), [3 * ONE] * 2, *option)
        self.number(6, filled(2, 0, 0), Tree(2, 0, [0] * 3), [3 * ONE] * 2, *option)
        self.number(6, filled(2, 0, 0), filled(2, 0, 0), [3 * ONE], *option)
        self.number(9, filled(2, 0, 0), filled(2, 0), [3 * ONE] * 2, *option)
        self.number(9, filled(2, 0), filled(2, 0, TOP + 1), [3 * ONE] * 2, *option)
        self.number(9, low, low, [3 * ONE] * 2, *option)
        self.number(10, filled(2, 0), filled(2, 0), [3 * ONE] * 2, *option)
        self.number(11, filled(2, 0), filled(2, 0), [ONE] * 2, *option)
        self.number(11, filled(2, 0), filled(2, 0), [ONE] * 2, CALL, [], 4 * ONE + 1)
        high = filled(20, 0, TOP), filled(20, 0, TOP), [2 * ONE] * 20
        self.number(13, *high, CALL, [20], ONE)
        self.number(12, *high, CALL, [0], ONE)
        self.number(12, *high)

    def test_pairs_of_one_row(self):
        """A low rate of row 0 beside a low spread of row 1 makes no pair."""
        self.number(0, Tree(2, 0, [30_000, ONE, ONE, ONE]), Tree(2, 0, [ONE, 30_000, 30_000, 30_000]), [0, ONE])
        self.number(9, Tree(2, 0, [ONE, ONE, ONE, 30_000]), Tree(2, 0, [ONE, 30_000, ONE, ONE]), [0, ONE])

    def test_a_put_above_its_bond(self):
        """12 by the option alone: the bond is worth nothing, the put grows by 1.21 a step."""
        trees = filled(5, 0, TOP), filled(5, 0, TOP)
        self.number(0, *trees, [0] * 5)
        self.number(12, *trees, [0] * 5, PUT, [4], 4 * ONE)
        self.number(0, *trees, [0] * 5, PUT, [3], 4 * ONE)


class Promises(unittest.TestCase):
    def test_within_the_allowance(self):
        chance = random.Random(13)
        for _ in range(120):
            n = chance.randint(1, 6)
            rates, spreads, flows = random_tree(chance, n), random_tree(chance, n), [chance.randint(0, ONE) for _ in range(n)]
            value, allowed = bond_price(rates, spreads, flows)
            self.assertLessEqual(abs(value - exact_bond(rates, spreads, flows)), allowed)
            terms = random_terms(chance, n)
            value, allowed = dated_option_price(rates, spreads, flows, *terms)
            self.assertLessEqual(abs(value - exact_dated_option(rates, spreads, flows, *terms)), allowed)

    def test_two_a_step(self):
        chance = random.Random(31)
        for n in range(1, 21):
            rates, spreads = (random_tree(chance, n, low, ONE) for low in (1_000_000, 900_000_000))
            self.assertLessEqual(bond_price(rates, spreads, [ONE] * n)[1], 2 * n)

    def test_a_tree_of_ones(self):
        """Beside a tree of ones, whatever its reversion and whatever stands past what it needs, every answer is the single tree's."""
        chance = random.Random(19)
        for _ in range(60):
            n, high = chance.randint(1, 8), chance.choice((TOP, TOP, TOP + 1))
            tree, ones = random_tree(chance, n, 900_000_000, high), filled(n, chance.choice((0, 300, 6_000)))
            ones = ones._replace(discounts=ones.discounts + [0, 5 * ONE])
            flows, terms = [chance.randint(0, 2 * ONE) for _ in range(n)], random_terms(chance, n)
            for entry, single, more in ((bond_price, widths.bond_price, ()), (dated_option_price, widths.dated_option_price, terms)):
                for trees in ((tree, ones), (ones, tree)):
                    self.assertEqual(self.answer(entry, *trees, flows, *more), self.answer(single, *tree, flows, *more))

    def answer(self, entry, *given):
        try:
            return list(entry(*given))
        except Refused as refused:
            return refused.number


class Figures(unittest.TestCase):
    """The program's own inputs, by its rule: base + place x factor % range."""

    def shown(self, word, entry, *given):
        try:
            return f'{word} 0 %d %d' % entry(*given)
        except Refused as refused:
            return f'{word} {refused.number} 0 0'

    def test_program(self):
        rates, spreads = ([base + k * factor % size for k in range(400)]
                          for base, factor, size in ((930_000_000, 7_919_003, 150_000_001), (960_000_000, 5_333_017, 50_000_003)))
        flows = [20_000_000 + k * 31_415_927 % 80_000_009 for k in range(20)]
        lines = [self.shown('bond', bond_price, Tree(1, 0, [v]), Tree(1, c, [v]), [ONE]) for v, c in ((TOP, 6_000), (30_000, 0), (31_623, 0))]
        options = (1, [0, 2, 3], 400_000_000), (2, [1, 2, 4, 5], 900_000_000), (2, [3], 900_000_000), (1, [0, 1, 5, 18], 100_000_000)
        for n, b, c in ((5, 0, 0), (6, 1_840, 300), (19, 6_000, 0), (20, 0, 0), (20, 1_000, 200)):
            given = Tree(n, b, rates), Tree(n, c, spreads), flows[:n]
            lines.append(self.shown('bond', bond_price, *given))
            lines += [self.shown('option', dated_option_price, *given, *terms) for terms in options]
        for n, b, m, c, count in ((21, 7_000, 21, 0, 20), (61, 0, 61, 0, 20), (20, 0, 19, 0, 20), (20, 0, 20, 6_001, 3)):
            lines.append(self.shown('bond', bond_price, Tree(n, b, rates), Tree(m, c, spreads), flows[:count]))
        whole = Tree(20, 0, rates), Tree(20, 0, spreads), flows
        lines.append(self.shown('bond', bond_price, whole[0], Tree(20, 0, spreads[:399]), flows))
        lines += [self.shown('option', dated_option_price, *whole, *terms) for terms in ((3, [20], 0), (2, [20], 4_000_000_001), (2, [4, 4], 0))]
        self.assertEqual('\n'.join(lines) + '\n', FIGURES.read_text())


if __name__ == '__main__':
    unittest.main()
