"""Signed rates of a fitted tree: what document 01 asks of a step rate, and what a reader of the buffers sees."""
import math
import unittest
from array import array
from fractions import Fraction

import mixegorta as m

FREQUENCY, STEPS, REVERSION, VOLATILITY = 4, 12, 250, 7_000
POINTS = [m.Point(row, m.YEARLY_YIELD, -0.0025 + 0.0002 * row) for row in range(1, STEPS + 1)]
TREE = m.Tree(FREQUENCY, STEPS, REVERSION, VOLATILITY, POINTS)


def nearest(value):
    """To the nearest whole number, halves away from zero."""
    size = math.floor(abs(value) + Fraction(1, 2))
    return size if value >= 0 else -size


class Test(unittest.TestCase):
    def test_of_one_step(self):
        tree = m.Tree(1, 1, 0, 0, [m.Point(1, m.DISCOUNT_FACTOR, 1.0025)])
        self.assertEqual(list(tree.step_rates(0)), [-2_493_766])

    def test_each_row_is_its_definition_with_its_sign(self):
        below = above = 0
        for row in range(STEPS):
            rates = TREE.step_rates(row)
            discounts = TREE.row(m.DISCOUNTS, row)
            self.assertEqual(list(rates), [nearest(Fraction(m.ONE * m.ONE, discount) - m.ONE) for discount in discounts])
            below, above = below + sum(rate < 0 for rate in rates), above + sum(rate > 0 for rate in rates)
        self.assertGreater(below, 20)
        self.assertGreater(above, 20)

    def test_continuous_rates_are_minus_the_logarithms(self):
        for row in range(STEPS):
            for rate, discount in zip(TREE.continuous_rates(row), TREE.row(m.DISCOUNTS, row)):
                # the engine takes the least of the rates whose rounded discount is nearest, by a series that is within 14
                self.assertAlmostEqual(rate, -math.log(discount / m.ONE) * m.ONE, delta=20)

    def test_whole_trees_stand_in_the_places_of_the_discounts(self):
        for whole in (TREE.step_rates, TREE.continuous_rates):
            joined = array("q")
            for row in range(STEPS):
                joined += whole(row)
            self.assertEqual((whole(), len(whole())), (joined, len(TREE.discounts)))

    def test_buffers_are_signed_and_of_64_bits(self):
        for rates in (TREE.step_rates(3), TREE.step_rates(), TREE.continuous_rates(3), TREE.continuous_rates()):
            view = memoryview(rates)
            self.assertEqual((view.format, view.itemsize, min(view) < 0), ("q", 8, True))

    def test_a_row_that_has_no_rates_is_refused(self):
        for row in (STEPS, STEPS + 1, 256, 2**32, 2**64 - 1):
            for rates in (TREE.step_rates, TREE.continuous_rates):
                with self.assertRaises(m.NotInTree) as raised:
                    rates(row)
                self.assertEqual((raised.exception.number, raised.exception.argument), (6, "row"))
        for row, kind in ((-1, OverflowError), (2**64, OverflowError), ("1", TypeError), (1.0, TypeError)):
            with self.assertRaisesRegex(kind, "^row: "):
                TREE.step_rates(row)


if __name__ == "__main__":
    unittest.main()
