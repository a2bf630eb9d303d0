"""Which exception a refusal is, and what it says of the argument and the row at fault."""
import math
import pickle
import struct
import unittest
from array import array

import mixegorta as m
from mixegorta import ONE, Point

FLAT = [ONE] * 4
JOB = bytes.fromhex("01000101 02000102 0300020000 04000400000000") + struct.pack(">BHdBHd", 5, 8, 0.97, 6, 8, 0.03) + bytes.fromhex(
    "07000400000000 0700043B9ACA00 08000604003C336080")


def falling(part, steps):
    return [Point(row, m.DISCOUNT_FACTOR, part**row) for row in range(1, steps + 1)]


def changed(points, place, **fields):
    return [point._replace(**fields) if point.row == place else point for point in points]


CURVE = falling(0.98, 5)
LONG = array("Q", bytes(80000))


def fit(*numbers, points=CURVE, discounts=LONG, state_prices=array("Q", LONG)):
    m.fit_into(*numbers, points, discounts, state_prices)


class Test(unittest.TestCase):
    def refused(self, kind, argument, row, function, *arguments, **named):
        with self.assertRaises(m.Refused) as caught:
            function(*arguments, **named)
        self.assertEqual((type(caught.exception), caught.exception.argument, caught.exception.row), (kind, argument, row))
        return caught.exception

    def test_each_number_has_its_class(self):
        self.assertEqual(list(m.refusals.CLASSES), list(range(1, len(m.CAUSES) + 1)))
        for number, kind in m.refusals.CLASSES.items():
            self.assertIs(getattr(m, kind.__name__), kind)
            self.assertTrue(issubclass(kind, m.Refused) and issubclass(kind, ValueError))
            self.assertTrue(" ".join(kind.__doc__.split()).startswith(f"{number}: {m.CAUSES[number]}."))

    def test_words(self):
        refusal = self.refused(m.QuoteOutOfRange, "points", 3, m.Tree, 1, 5, 0, 0, changed(CURVE, 3, figure=97.0))
        self.assertEqual(str(refusal), "refused 7: a quote's kind, figure or discount is outside its limits, or the version is not 1 or 2 (points, row 3)")
        self.assertEqual(repr(refusal), "QuoteOutOfRange(number=7, argument='points', row=3)")
        kept = pickle.loads(pickle.dumps(refusal))
        self.assertEqual((type(kept), kept.number, str(kept)), (m.QuoteOutOfRange, 7, str(refusal)))
        self.assertEqual(str(m.Refused(99)), "refused 99: not listed")

    def test_numbers(self):
        self.refused(m.UnknownFrequency, "frequency", None, fit, 3, 0, 0, 0)
        self.refused(m.StepsOutOfRange, "steps", None, fit, 1, 61, 6001, 0)
        self.refused(m.StepsOutOfRange, "steps", None, m.Tree, 1, 2**64 - 1, 6001, 0, CURVE)
        self.refused(m.ReversionTooLarge, "reversion", None, m.Tree, 1, 5, 6001, 0, CURVE)
        self.refused(m.VolatilityTooLarge, "volatility", None, m.Tree, 1, 5, 0, 50001, CURVE)
        self.refused(m.NodesTooFarApart, "volatility", None, m.Tree, 1, 13, 0, 50000, falling(0.9, 13))

    def test_rows_and_sizes(self):
        self.refused(m.NotInTree, "row", None, m.half_width, 0, 61)
        self.refused(m.NotInTree, "row", None, m.branches, 0, 60, 0)
        self.refused(m.NotInTree, "node", None, m.branches, 0, 59, 60)
        self.refused(m.NotInTree, "point", 61, m.quote_discount, 1, (61, m.DISCOUNT_FACTOR, 1.0))
        self.refused(m.NotInTree, "points", None, fit, 1, 4, 0, 0)
        self.refused(m.NotInTree, "points", 4, fit, 1, 5, 0, 0, points=changed(CURVE, 4, row=5))
        self.refused(m.NotInTree, "points", None, m.curve_discounts, 1, 4, CURVE)
        self.refused(m.NotInTree, "points", 1, m.curve_discounts, 1, 1, [(2, m.DISCOUNT_FACTOR, 1.0)])
        self.refused(m.NotInTree, "discounts", None, fit, 1, 5, 0, 0, discounts=array("Q", bytes(8 * 24)))
        self.refused(m.NotInTree, "state_prices", None, fit, 1, 5, 0, 0, state_prices=array("Q", bytes(8 * 35)))
        self.refused(m.NotInTree, "discounts", None, m.bond_price, 2, 0, FLAT[1:], [0])
        self.refused(m.NotInTree, "flows", None, m.bond_price, 2, 0, FLAT, [0])
        self.refused(m.NotInTree, "row", None, m.state_price_error_bound, 2, 0, FLAT, 3)
        self.refused(m.NotInTree, "discounts", None, m.tree_bounds, 2, 0, FLAT[1:])
        self.refused(m.NodeDiscountOutOfRange, "discounts", 1, m.price_error_bound, 2, 0, [*FLAT[:3], 0])
        self.refused(m.NotInTree, "row", None, m.valuation_error_bound, 2, 0, FLAT, 3, [0])
        self.refused(m.NotInTree, "payoffs", None, m.valuation_error_bound, 2, 0, FLAT, 2, [0] * 4)
        self.refused(m.NotInTree, "payoffs", None, m.value_by_state_prices, [0] * 3, [0] * 5)
        self.refused(m.NotInTree, "state_prices", None, m.value_by_state_prices, [0] * 4, [0] * 4)
        tree = m.Tree(1, 5, 0, 0, CURVE)
        self.refused(m.NotInTree, "row", None, tree.value, 6, [0])
        self.refused(m.NotInTree, "payoffs", None, tree.value, 5, [0])

    def test_quotes(self):
        for change in ({"kind": 7}, {"figure": math.nan}, {"figure": 10.1}, {"figure": 0.0}, {"kind": m.YEARLY_YIELD, "figure": 3.0}):
            points = changed(CURVE, 4, **change)
            self.refused(m.QuoteOutOfRange, "points", 4, m.Tree, 1, 5, 0, 0, points)
            self.refused(m.QuoteOutOfRange, "points", 4, m.curve_discounts, 1, 5, m.Curve(points))
            self.refused(m.QuoteOutOfRange, "point", 4, m.quote_discount, 1, points[3])

    def test_discounts(self):
        """Row 4 of a curve that falls by a fiftieth a row is quoted a fifth above row 3, which no discount up to 1.1 gives."""
        points = changed(CURVE, 4, figure=CURVE[2].figure * 1.2)
        refusal = self.refused(m.NodeDiscountOutOfRange, "points", 4, m.Tree, 1, 5, 0, 0, points)
        self.assertEqual(refusal.number, 9)
        self.refused(m.NodeDiscountOutOfRange, "points", 1, m.Tree, 1, 5, 0, 0, changed(CURVE, 1, figure=1.2))
        for place, row in ((0, 0), (1, 1), (3, 1)):
            lent = FLAT[:place] + [1_100_000_001] + FLAT[place + 1:]
            self.refused(m.NodeDiscountOutOfRange, "discounts", row, m.bond_price, 2, 0, lent, [0, 0])
        self.refused(m.NodeDiscountOutOfRange, "discount", None, m.step_rate, 0)

    def test_flows_values_and_options(self):
        self.refused(m.FlowTooLarge, "flows", 2, m.bond_price, 2, 0, FLAT, [2 * ONE, 2 * ONE + 1])
        five = [ONE] * 25
        self.refused(m.ValueTooLarge, "flows", None, m.bond_price, 5, 0, five, [2 * ONE] * 5)
        self.refused(m.ValueTooLarge, "strike", None, m.option_price, 9, 0, [1_100_000_000] * 81, [0] * 9, m.EUROPEAN_PUT, 8, 4 * ONE)
        self.refused(m.ValueTooLarge, "state_prices", None, m.value_by_state_prices, [ONE, ONE, 101], [ONE] * 3)
        self.refused(m.ValueTooLarge, "payoffs", None, m.value_by_state_prices, [0], [8 * ONE + 1])
        self.refused(m.ValueTooLarge, "payoffs", None, m.valuation_error_bound, 2, 0, FLAT, 0, [8 * ONE + 1])
        for argument, *terms in (("kind", 5, 1, ONE), ("expiry", 1, 2, ONE), ("strike", 1, 1, 4 * ONE + 1)):
            self.refused(m.OptionTermsOutOfRange, argument, None, m.option_price, 2, 0, FLAT, [0, 0], *terms)
        for argument, *terms in (("side", 3, [1], ONE), ("strike", 1, [1], 4 * ONE + 1)):
            self.refused(m.OptionTermsOutOfRange, argument, None, m.dated_option_price, 2, 0, FLAT, [0, 0], *terms)
        self.refused(m.ExerciseDatesOutOfOrder, "dates", None, m.dated_option_price, 2, 0, FLAT, [0, 0], m.CALL, [2], ONE)

    def test_bond_and_option_tell_their_own(self):
        both = m.bond_and_option(2, 0, FLAT, [0, ONE], m.AMERICAN_CALL, 2, ONE)
        self.assertEqual((both.bond, both.option.argument), (m.Price(ONE, 4), "expiry"))
        both = m.bond_and_dated_option(2, 0, FLAT, [0, 3 * ONE], m.CALL, [], ONE)
        self.assertEqual([(type(each), each.argument, each.row) for each in both], [(m.FlowTooLarge, "flows", 2)] * 2)

    def test_jobs(self):
        self.assertEqual(m.sheet(JOB).splitlines()[-1].split()[0], "option")

        def job(place, new):
            return JOB[:place] + new + JOB[place + len(new):]

        self.refused(m.MalformedJob, "job", None, m.sheet, JOB[:-1])
        self.refused(m.UnknownFrequency, "job", None, m.sheet, job(3, b"\3"))
        self.refused(m.QuoteOutOfRange, "job", 2, m.sheet, job(34, struct.pack(">d", 11.0)))
        self.refused(m.NodeDiscountOutOfRange, "job", 2, m.sheet, job(34, struct.pack(">d", -0.1)))
        self.refused(m.FlowTooLarge, "job", 2, m.sheet, job(52, b"\xff"))
        self.refused(m.NotInTree, "out", None, m.sheet_into, JOB, bytearray(9))


if __name__ == "__main__":
    unittest.main()
