"""A rate tree and a spread tree together: figures by hand, what each refusal is about, a tree of ones on either side, and what arguments may be."""
import unittest
from array import array
from decimal import Decimal

import mixegorta as m
from mixegorta import ONE

TOP = m.MAX_NODE_DISCOUNT


def flat(steps, discount=ONE, reversion=0, count=None):
    return steps, reversion, [discount] * (steps * steps if count is None else count)


def tree(rate, reversion=500, version=1):
    return m.Tree(4, 8, reversion, 9_000, [(row, m.YEARLY_RATE, rate + 0.0005 * row) for row in range(1, 9)], version=version)


def alone(function, *given):
    """What a call gives: its price, or class and number of its refusal."""
    try:
        return function(*given)
    except m.Refused as refused:
        return type(refused), refused.number


class Pairs(unittest.TestCase):
    def refused(self, refusal, argument, row, rates, spreads, flows, *terms):
        with self.assertRaises(refusal) as caught:
            (m.pair_dated_option_price if terms else m.pair_bond_price)(*rates, *spreads, flows, *terms)
        self.assertEqual((caught.exception.argument, caught.exception.row), (argument, row))

    def test_figures_by_hand(self):
        self.assertEqual(m.pair_bond_price(*flat(1, TOP), *flat(1, TOP, 6_000), [ONE]), m.Price(1_210_000_000, 2))
        self.assertEqual(m.pair_bond_price(*flat(1, 31_623), *flat(1, 31_623), [ONE]), m.Price(1, 2))
        self.assertEqual(m.pair_dated_option_price(*flat(1, TOP), *flat(1, TOP), [ONE], m.PUT, [0], "1.3"), m.Price(90_000_000, 2))
        self.refused(m.NodeDiscountOutOfRange, "spread_discounts", 0, flat(1, 30_000), flat(1, 30_000), [ONE])

    def test_order_and_places(self):
        """Each cause beside causes that come after it; a refusal names the tree that it is about."""
        bad, flows, terms = flat(2, 0, 6_001), [3 * ONE], (3, [], 5 * ONE)
        for more in ((), terms):
            self.refused(m.StepsOutOfRange, "rate_steps", None, flat(61, 0, 6_001), bad, flows, *more)
            self.refused(m.StepsOutOfRange, "spread_steps", None, bad, flat(0, 0, 6_001), flows, *more)
            self.refused(m.PairStepsOutOfRange, "rate_steps", None, flat(21, 0, 7_000), flat(21, 0), flows, *more)
            self.refused(m.PairStepsOutOfRange, "spread_steps", None, flat(20, 0), flat(19, 0, 6_001), flows, *more)
            self.refused(m.ReversionTooLarge, "rate_reversion", None, bad, flat(2, 0), flows, *more)
            self.refused(m.ReversionTooLarge, "spread_reversion", None, flat(2, 0), bad, flows, *more)
            self.refused(m.NotInTree, "rate_discounts", None, flat(2, 0, 0, 3), flat(2, 0), flows * 2, *more)
            self.refused(m.NotInTree, "spread_discounts", None, flat(2, 0), flat(2, 0, 0, 3), flows * 2, *more)
            self.refused(m.NotInTree, "flows", None, flat(2, 0), flat(2, 0), flows, *more)
            self.refused(m.NodeDiscountOutOfRange, "rate_discounts", 0, flat(2, 0), flat(2), flows * 2, *more)
            self.refused(m.NodeDiscountOutOfRange, "spread_discounts", 1, flat(2), (2, 0, [ONE, ONE, ONE, TOP + 1]), flows * 2, *more)
            self.refused(m.NodeDiscountOutOfRange, "spread_discounts", 1, (2, 0, [ONE, ONE, ONE, 30_000]), (2, 0, [ONE, 30_000, ONE, ONE]), flows * 2, *more)
            self.refused(m.FlowTooLarge, "flows", 1, flat(2), flat(2), flows * 2, *more)
        high = flat(20, TOP), flat(20, TOP), [ONE] * 20
        self.refused(m.OptionTermsOutOfRange, "strike", None, *high, 3, [], 5 * ONE)
        self.refused(m.OptionTermsOutOfRange, "side", None, *high, 3, [], ONE)
        self.refused(m.ExerciseDatesOutOfOrder, "dates", None, *high, m.CALL, [20], ONE)
        self.refused(m.ValueTooLarge, "flows", None, *high, m.CALL, [0], ONE)
        self.refused(m.ValueTooLarge, "flows", None, *high)
        self.refused(m.ValueTooLarge, "strike", None, flat(5, TOP), flat(5, TOP), [0] * 5, m.PUT, [4], 4 * ONE)

    def test_pairs_of_one_row(self):
        """A low rate of row 0 beside low spreads of row 1 makes no pair; past the needed part anything may stand."""
        rates, spreads = (2, 0, [30_000, ONE, ONE, ONE, 0]), (2, 0, [ONE, 30_000, 30_000, 30_000, 2**64 - 1])
        self.assertEqual(m.pair_bond_price(*rates, *spreads, [0, ONE]), m.Price(1, 3))

    def test_numbers_past_a_width(self):
        good = flat(3)
        for bits in (8, 16, 32):
            for place, number in ((0, 3), (1, 4)):
                wide = tuple(value + 2**bits * (k == place) if k < 2 else value for k, value in enumerate(good))
                for trees in ((wide, good), (good, wide)):
                    wanted = 0 if place == 1 and bits == 8 else number
                    found = alone(m.pair_bond_price, *trees[0], *trees[1], [ONE] * 3)
                    self.assertEqual(0 if isinstance(found, m.Price) else found[1], wanted)
        for place in range(2):
            with self.assertRaises(OverflowError):
                m.pair_bond_price(*(2**64 if k == place else value for k, value in enumerate(good)), *good, [ONE] * 3)

    def test_a_tree_of_ones(self):
        """Every answer is the other tree's, refusals and bounds too."""
        for version in (1, 2):
            own = tree(0.02, version=version)
            lent = own.steps, own.working_reversion, own.discounts
            for reversion in (0, 500, 6_000):
                ones = flat(8, ONE, reversion)
                for flows in ([20_000_000] * 7 + [ONE], [2 * ONE] * 8, [2 * ONE + 1] * 8, [ONE]):
                    for trees in ((lent, ones), (ones, lent)):
                        both = *trees[0], *trees[1], flows
                        self.assertEqual(alone(m.pair_bond_price, *both), alone(own.bond_price, flows))
                        for terms in ((m.CALL, [0, 3, 7], "0.9"), (m.PUT, b"\5", "1.2"), (m.PUT, [8], ONE), (0, [1], ONE)):
                            self.assertEqual(alone(m.pair_dated_option_price, *both, *terms), alone(own.dated_option_price, flows, *terms))

    def test_two_trees(self):
        rates, spreads = tree(0.03, version=2), tree(0.01, 1_200)
        pair, flows, terms = m.Pair(rates, spreads), [20_000_000] * 7 + [ONE], (m.CALL, [2, 5], Decimal("0.95"))
        lent = *(rates.steps, rates.working_reversion, list(rates.discounts)), *(8, 1_200, array("Q", spreads.discounts))
        self.assertEqual(pair.bond_price(flows), m.pair_bond_price(*lent, flows))
        self.assertEqual(pair.dated_option_price(flows, *terms), m.pair_dated_option_price(*lent, flows, *terms))
        self.assertLess(pair.bond_price(flows).value, rates.bond_price(flows).value)
        self.assertIn("Pair(<Tree", repr(pair))
        longer = m.Tree(4, 21, 0, 0, [(row, m.DISCOUNT_FACTOR, 0.99) for row in range(1, 22)])
        for other in (m.Pair(rates, longer), m.Pair(longer, longer)):
            with self.assertRaises(m.PairStepsOutOfRange):
                other.bond_price(flows)

    def test_arguments(self):
        for wrong in ({1: ONE}, {ONE}, "1.0", 5):
            for given in ((1, 0, wrong, 1, 0, [ONE], [ONE]), (1, 0, [ONE], 1, 0, wrong, [ONE]), (1, 0, [ONE], 1, 0, [ONE], wrong)):
                with self.assertRaises(TypeError):
                    m.pair_bond_price(*given)
        for wrong in ((1, 0, [ONE]), None, 5):
            with self.assertRaises(TypeError):
                m.Pair(wrong, tree(0.01))
            with self.assertRaises(TypeError):
                m.Pair(tree(0.01), wrong)


if __name__ == "__main__":
    unittest.main()
