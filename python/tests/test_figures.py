"""The figures of the scope (document 01) and its requests (02), refusals and memories, through the Python module."""
import math
import os
import unittest
from array import array

import mixegorta as m
from mixegorta import ONE, Branches, Point, Price

HERE = os.path.dirname(os.path.abspath(__file__))
ROOT = os.path.join(HERE, "..", "..")

PATTERN = 0xA5A5A5A5A5A5A5A5
EXAMPLE = bytes.fromhex("01000101 02000101 0300020000 04000400000000 0500083FF00A3D70A3D70A 0700043B9ACA00 08000604003C336080")
SHEET = "node 0 0 1.002500000 -0.2493766\nrow 1 1.002500000 1.002499999 4\nbond 1.002500000 2\noption 0.007500000 2\n"


def falling(part, steps):
    return [Point(row, m.DISCOUNT_FACTOR, part**row) for row in range(1, steps + 1)]


class Test(unittest.TestCase):
    def refused(self, number, function, *arguments):
        with self.assertRaises(m.Refused) as caught:
            function(*arguments)
        self.assertEqual(caught.exception.number, number)

    def alone(self, function, *arguments):
        """What one function answers, a refusal as its number."""
        try:
            return function(*arguments)
        except m.Refused as refusal:
            return refusal.number

    def test_shapes(self):
        self.assertEqual([m.half_width(b, 60) for b in (1840, 1841, 1000)], [2, 1, 2])
        self.assertEqual(m.node_count(0, 60), m.MAX_NODES)
        self.assertEqual(m.row_start(1000, 4), 1 + 3 + 5 + 5)
        self.assertEqual(m.discounts_needed(m.MAX_STEPS, 0), m.MAX_DISCOUNTS)
        self.assertEqual(m.state_prices_needed(m.MAX_STEPS, 0), m.MAX_STATE_PRICES)
        self.refused(4, m.half_width, 6001, 61)
        self.refused(6, m.node_count, 0, 61)
        self.refused(6, m.row_start, 0, 2**64 - 1)
        self.refused(3, m.discounts_needed, 0, 6001)
        self.refused(4, m.state_prices_needed, 60, 6001)

    def test_branches(self):
        self.assertEqual(m.branches(1000, 1, 1), Branches(0, 73_000_000, 394_000_000, 133_000_000))
        self.assertEqual(m.branches(1000, 2, 2), Branches(0, 532_000_000, 16_000_000, 52_000_000))
        self.refused(6, m.branches, 0, 59, -(2**63))
        self.refused(6, m.branches, 0, 60, 0)

    def test_quotes_and_rates(self):
        self.assertEqual(m.quote_discount(1, (1, m.YEARLY_RATE, -0.0025)), 1_002_506_265)
        self.assertEqual(m.quote_discount(1, (1, m.YEARLY_RATE, 0.0009765625)), ONE * ONE // (ONE + 976_563))
        for figure in (math.nan, math.inf, 10.1, 2.1, 0.0, -0.0):
            self.refused(7, m.quote_discount, 1, (1, m.DISCOUNT_FACTOR, figure))
        self.refused(7, m.quote_discount, 1, (1, 7, 1.0))
        self.refused(2, m.quote_discount, 3, (0, 0, 1.0))
        self.refused(6, m.quote_discount, 1, (61, m.DISCOUNT_FACTOR, 1.0))
        self.assertEqual(m.step_rate(1_000_000_001), -1)
        self.refused(9, m.step_rate, 0)

    def test_yields_and_continuous_rates(self):
        self.assertEqual(m.quote_discount(2, (1, m.YEARLY_YIELD, 0.000000007)), ONE)
        self.assertEqual(m.quote_discount(2, (1, m.YEARLY_YIELD, -0.000000007)), 1_000_000_004)
        self.refused(7, m.quote_discount, 2, (1, m.YEARLY_YIELD, 8.1))
        self.assertEqual(m.continuous_rate(484_106_437), 725_450_480)
        self.assertEqual(m.continuous_rate(1_000_000_003), -4)
        self.refused(9, m.continuous_rate, 0)

    def test_curve(self):
        self.assertEqual(list(m.curve_discounts(4, 3, falling(0.98, 3))), [980_000_000, 960_400_000, 941_192_000])
        self.refused(6, m.curve_discounts, 4, 2, falling(0.98, 3))
        self.refused(6, m.curve_discounts, 4, 1, [])
        self.refused(3, m.curve_discounts, 4, 0, [])
        self.refused(7, m.curve_discounts, 4, 1, falling(11.0, 1))

    def test_printed_example(self):
        tree = m.Tree(1, 1, 0, 0, [Point(1, m.DISCOUNT_FACTOR, 1.0025)])
        self.assertEqual(list(tree.discounts), [1_002_500_000])
        self.assertEqual(m.step_rate(tree.discounts[0]), -2_493_766)
        self.assertEqual(list(tree.row(m.STATE_PRICES, 1)), [167_083_333, 668_333_333, 167_083_333])
        self.assertIsNone(tree.row(m.DISCOUNTS, 1))
        self.assertIsNone(tree.row(3, 0))
        self.assertEqual(tree.state_price_error_bound(1), 4)
        self.assertEqual((tree.price_error_bound(), tree.bounds()), (2, m.TreeErrorBounds(2, (1_002_500_000, *[0] * 59))))
        self.assertEqual(tree.bond_price([ONE]), Price(1_002_500_000, 2))
        self.assertEqual(tree.option_price([ONE], m.AMERICAN_PUT, 0, 1_010_000_000), Price(7_500_000, 2))
        both = tree.bond_and_option([ONE], m.AMERICAN_PUT, 0, 1_010_000_000)
        self.assertEqual(both, (Price(1_002_500_000, 2), Price(7_500_000, 2)))
        self.refused(11, tree.option_price, [ONE], m.AMERICAN_PUT, 1, 1_010_000_000)
        self.assertEqual(tree.value(1, [ONE] * 3), Price(1_002_499_999, 5))
        self.refused(6, tree.value, 2, [ONE] * 3)

    def test_bounds_of_trees(self):
        """2 a step where no discount is above one; above one by the rule, where the last row's adds nothing."""
        discounts = [900_000_000, 1, ONE, 2, 3, 4, 5, 6, 700_000_000]
        self.assertEqual(m.tree_bounds(3, 0, discounts), (6, (900_000_000, ONE, 700_000_000, *[0] * 57)))
        for place, discount, bound in ((8, 1_100_000_000, 6), (2, ONE + 1, 7), (0, 1_100_000_000, 8)):
            discounts[place] = discount
            found = m.tree_bounds(3, 0, [*discounts, 0])
            self.assertEqual((found.bound, m.price_error_bound(3, 0, discounts)), (bound, bound))
        self.assertEqual(found.greatest, (1_100_000_000, ONE + 1, 1_100_000_000, *[0] * 57))
        self.assertEqual(found.bound, m.bond_price(3, 0, discounts, [0, 0, ONE]).bound)
        discounts[5] = 0
        for function in (m.price_error_bound, m.tree_bounds):
            for number, *given in ((3, 0, 6_001, []), (3, 61, 6_001, []), (4, 3, 6_001, []), (6, 3, 0, discounts[1:]), (9, 3, 0, discounts)):
                self.refused(number, function, *given)

    def test_refused_fits_and_their_memories(self):
        discounts, prices = array("Q", [PATTERN] * 3), array("Q", [PATTERN] * 6)
        curve = falling(1.0025, 1)
        for number, *numbers in ((2, 5, 0, 6001, 50001), (3, 1, 0, 6001, 50001), (4, 1, 1, 6001, 50001), (5, 1, 1, 0, 50001),
                                 (6, 1, 2, 0, 0)):
            self.refused(number, m.fit_into, *numbers, curve, discounts, prices)
        self.refused(7, m.fit_into, 1, 1, 0, 0, [(1, 4, 1.0)], discounts, prices)
        self.assertEqual((list(discounts), list(prices)), ([PATTERN] * 3, [PATTERN] * 6))
        self.refused(9, m.fit_into, 1, 1, 0, 0, falling(1.2, 1), discounts, prices)
        self.assertEqual((list(discounts), list(prices)), ([0] + [PATTERN] * 2, [0] * 4 + [PATTERN] * 2))
        self.refused(8, m.Tree, 1, 13, 0, 50000, falling(0.9, 13))
        self.refused(6, m.fit_into, 1, 1, 0, 0, curve, array("Q"), array("Q"))
        with self.assertRaises(ValueError):
            m.fit_into(1, 1, 0, 0, curve, discounts, discounts)
        with self.assertRaises(TypeError):
            m.fit_into(1, 1, 0, 0, curve, [0], [0] * 4)

    def test_the_greatest_node_discount_of_a_fit(self):
        """On row 1, too, whose state prices sum to two less than one."""
        def points(*figures):
            return [m.Point(row, m.DISCOUNT_FACTOR, figure) for row, figure in enumerate(figures, 1)]

        for figures, beyond in (((1.1,), (1.100000001,)), ((1.0, 1.099999998), (1.0, 1.099999999))):
            self.assertEqual(m.Tree(1, len(figures), 0, 0, points(*figures)).discounts[-1], 1_100_000_000)
            self.refused(9, m.Tree, 1, len(beyond), 0, 0, points(*beyond))

    def test_every_row_reprices_its_quote(self):
        curve = falling(0.99, 60)
        tree = m.Tree(12, 60, 50, 10000, curve)
        for row, quote in enumerate(m.curve_discounts(12, 60, curve), 1):
            prices = tree.row(m.STATE_PRICES, row)
            self.assertLessEqual(abs(sum(prices) - quote), 300)
            value = Price(sum(prices), tree.state_price_error_bound(row) + 1)
            self.assertEqual(tree.value(row, [ONE] * len(prices)), value)

    def test_prices_on_lent_discounts(self):
        flat = array("Q", [ONE] * 4)
        self.assertEqual(m.bond_price(2, 0, flat, (0, ONE)), Price(ONE, 4))
        self.assertEqual(m.option_price(2, 0, flat, (0, ONE), m.EUROPEAN_CALL, 1, 900_000_000), Price(100_000_000, 4))
        self.refused(6, m.bond_price, 2, 0, (), ())
        self.refused(9, m.bond_price, 2, 0, [0] * 4, [2 * ONE + 1, 0])
        self.refused(10, m.bond_price, 2, 0, flat, [2 * ONE + 1, 0])
        self.refused(11, m.option_price, 2, 0, flat, [0, ONE], 5, 1, ONE)
        self.refused(12, m.bond_price, 5, 0, [ONE] * 25, [2 * ONE] * 5)
        self.assertEqual(m.value_by_state_prices([ONE, ONE, 100], [ONE, 2 * ONE, 3 * ONE]), 3 * ONE + 300)
        self.refused(12, m.value_by_state_prices, [ONE, ONE, 101], [ONE] * 3)
        self.assertEqual(m.valuation_error_bound(2, 0, flat, 2, [0, 0, 2 * ONE, 0, 0]), 2 * 12 + 1)
        self.assertEqual(m.row_range(flat, [ONE] * 9, m.STATE_PRICES, 2, 0, 2), range(4, 9))
        self.assertIsNone(m.row_range(flat, [ONE] * 8, m.DISCOUNTS, 2, 0, 1))

    def test_rolls_to_the_nearest(self):
        """Halves go up. The values of row 1 are tenths of a flow of 10; their mean is a sixth of the outer two and four times the middle one."""
        for flow, discount, price in ((1, ONE // 2 - 1, 0), (1, ONE // 2, 1), (3, ONE // 2, 2), (5, ONE // 2, 3)):
            self.assertEqual(m.bond_price(1, 0, [discount], [flow]), Price(price, 2))
        for tenths, root, price in (((4, 4, 6), ONE, Price(4, 4)), ((5, 2, 2), ONE, Price(3, 4)), ((4, 4, 7), ONE, Price(5, 4)),
                                    ((5, 2, 2), ONE // 2, Price(2, 3)), ((4, 4, 6), 1_100_000_000, Price(4, 5))):
            discounts = [root] + [tenth * ONE // 10 for tenth in tenths]
            self.assertEqual(m.bond_price(2, 0, discounts, [0, 10]), price)
            self.assertEqual(m.dated_option_price(2, 0, discounts, [0, 10], m.CALL, [1], 0), price)

    def test_the_coupon_of_the_exercise_day(self):
        """It stays with the seller: on row 1 the bond is worth 1 without its coupon of 0.1."""
        flat, flows = [ONE] * 4, [100_000_000, ONE]
        for kind, strike, price in ((m.EUROPEAN_CALL, 900_000_000, 100_000_000), (m.AMERICAN_CALL, 900_000_000, 200_000_000),
                                    (m.EUROPEAN_PUT, 1_050_000_000, 50_000_000), (m.AMERICAN_PUT, 1_050_000_000, 50_000_000)):
            self.assertEqual(m.option_price(2, 0, flat, flows, kind, 1, strike), Price(price, 4))
            self.refused(11, m.option_price, 2, 0, flat, flows, kind, 2, strike)

    def both(self, together, option, *arguments):
        """Bond and option, a refusal as its number: together they are what each function answers alone."""
        alone = self.alone(m.bond_price, *arguments[:4]), self.alone(option, *arguments)
        self.assertEqual(tuple(getattr(price, "number", price) for price in together(*arguments)), alone)
        return alone

    def test_bond_and_option(self):
        def both(*arguments):
            return self.both(m.bond_and_option, m.option_price, *arguments)

        flat, flows, call = [ONE] * 4, [0, ONE], (m.EUROPEAN_CALL, 1, 900_000_000)
        self.assertEqual(both(2, 0, flat, flows, *call), (Price(ONE, 4), Price(100_000_000, 4)))
        self.assertEqual(both(2, 0, flat, flows, 5, 1, ONE), (Price(ONE, 4), 11))
        self.assertEqual(both(2, 0, flat, flows, m.EUROPEAN_CALL, 2, 900_000_000), (Price(ONE, 4), 11))
        self.assertEqual(both(9, 0, [1_100_000_000] * 81, [0] * 9, m.EUROPEAN_PUT, 8, 4 * ONE), (Price(0, 33), 12))
        self.assertEqual(both(2, 0, flat[1:], flows, *call), (6, 6))
        self.assertEqual(both(5, 0, [ONE] * 25, [2 * ONE] * 5, *call), (12, 12))
        self.assertEqual(both(5, 0, [ONE] * 25, [2 * ONE] * 5, 5, 1, ONE), (12, 11))
        refusal = m.bond_and_option(2, 0, flat, flows, 5, 1, ONE).option
        self.assertIsInstance(refusal, m.Refused)

    def test_a_note_callable_on_coupon_days(self):
        """Nodes have their row's discount: without the flow of its row the note is worth 1.05 on row 4, 1.1 on row 3, 1.078 on row 2, 1.0152 on
        row 1 and 0.91368 on row 0."""
        row_discounts = (900_000_000, 900_000_000, 980_000_000, ONE, ONE, ONE)
        discounts = [discount for row, discount in enumerate(row_discounts) for _ in range(2 * row + 1)]
        flows = [0, 50_000_000, 0, 50_000_000, 0, 1_050_000_000]
        bond = m.bond_price(6, 0, discounts, flows)
        self.assertEqual(bond.value, 913_680_000)
        for side, strike, dates, value in ((m.CALL, ONE, b"\2\4", 63_180_000), (m.CALL, ONE, [2, 4], 63_180_000),
                                           (m.CALL, ONE, (4,), 39_690_000), (m.CALL, ONE, range(5), 79_380_000),
                                           (m.PUT, 1_100_000_000, array("B", [2, 4]), 39_690_000),
                                           (m.PUT, 1_100_000_000, bytearray([2]), 17_820_000)):
            both = self.both(m.bond_and_dated_option, m.dated_option_price, 6, 0, discounts, flows, side, dates, strike)
            self.assertEqual(both, (bond, Price(value, bond.bound)))
        self.assertEqual(m.dated_option_price(6, 0, discounts, flows, m.CALL, (row for row in (2, 4)), ONE).value, 63_180_000)

    def test_a_kind_is_a_list(self):
        steps, strike = 12, 90_000_000
        tree = m.Tree(4, steps, 1000, 10000, falling(0.99, steps))
        flows = [9_000_000 + row for row in range(1, steps + 1)]
        for kind, side in ((m.EUROPEAN_CALL, m.CALL), (m.EUROPEAN_PUT, m.PUT), (m.AMERICAN_CALL, m.CALL), (m.AMERICAN_PUT, m.PUT)):
            lists = [range(expiry if kind <= m.EUROPEAN_PUT else 0, expiry + 1) for expiry in range(steps + 1)]
            for expiry, dates in enumerate(lists[:-1]):
                self.assertEqual(tree.dated_option_price(flows, side, dates, strike), tree.option_price(flows, kind, expiry, strike))
                self.assertEqual(tree.bond_and_dated_option(flows, side, dates, strike), tree.bond_and_option(flows, kind, expiry, strike))
            self.refused(11, tree.option_price, flows, kind, steps, strike)
            self.refused(13, tree.dated_option_price, flows, side, lists[-1], strike)

    def test_refused_dates(self):
        """The dates are judged after side and strike, and before a bond above the limit."""
        def both(flow, *terms):
            return self.both(m.bond_and_dated_option, m.dated_option_price, 5, 0, [ONE] * 25, [flow] * 5, *terms)

        high, bond = 2 * ONE, Price(5 * ONE, 10)
        self.assertEqual(both(high, m.CALL, [1], ONE), (12, 12))
        self.assertEqual(both(ONE, m.CALL, [1], ONE), (bond, Price(3 * ONE, 10)))
        for dates in ([5], [1, 1], [], b"", [3, 1], [1, 255], bytes(4672)):
            self.assertEqual(both(high, m.PUT, dates, ONE), (12, 13))
            self.assertEqual(both(ONE, m.PUT, dates, ONE), (bond, 13))
            self.assertEqual(both(high, m.PUT, dates, 4 * ONE + 1), (12, 11))
            self.assertEqual(both(high, 3, dates, ONE), (12, 11))
            self.assertEqual(both(high + 1, 0, dates, 4 * ONE + 1), (10, 10))
        self.assertEqual(both(ONE, 2**64 - 1, [1], ONE), (bond, 11))
        self.assertEqual(str(m.Refused(13)), "refused 13: the exercise dates are none, not strictly rising, or reach the last row")

    def test_sheet(self):
        self.assertEqual(m.sheet(EXAMPLE), SHEET)
        self.assertEqual(m.sheet(bytearray(EXAMPLE[:-9])), "".join(SHEET.splitlines(True)[:3]))
        self.refused(11, m.sheet, EXAMPLE[:42] + b"\1" + EXAMPLE[43:])  # the scope's own job: its option expires on the last row
        for job in (b"", EXAMPLE[:-1], EXAMPLE + b"\0", EXAMPLE.ljust(m.MAX_JOB + 1, b"\0"), bytes(range(256))):
            self.refused(1, m.sheet, job)
        for job in ("text", 47, None):
            with self.assertRaises(TypeError):
                m.sheet(job)

    def test_sheets_of_jobs_with_dates(self):
        """The same put by its list, row 0 alone, in field 0A; then lists that are empty, reach row 1 or do not rise."""
        def job(side, dates):
            return EXAMPLE[:-9] + bytes([10, 0, 5 + len(dates), side]) + EXAMPLE[-4:] + bytes(dates)

        self.assertEqual(m.sheet(job(m.PUT, [0])), SHEET)
        for dates in ([], [1], [0, 0]):
            self.refused(13, m.sheet, job(m.PUT, dates))
            self.refused(11, m.sheet, job(3, dates))
        self.refused(1, m.sheet, EXAMPLE[:-9] + bytes([10, 0, 4, m.PUT]) + EXAMPLE[-4:-1])
        self.refused(1, m.sheet, EXAMPLE + job(m.PUT, [0])[-9:])

    def test_room_of_a_sheet(self):
        out = array("B", [0xA5]) * (m.SHEET_ROOM + 2)
        size = m.sheet_into(EXAMPLE, out)
        self.assertEqual(out.tobytes(), b"\xA5" * (len(out) - size) + SHEET.encode())
        short = array("B", [0xA5]) * (m.SHEET_ROOM - 1)
        self.refused(6, m.sheet_into, EXAMPLE, short)
        self.refused(1, m.sheet_into, b"", short)
        self.assertEqual(short.tobytes(), b"\xA5" * len(short))
        with self.assertRaises(TypeError):
            m.sheet_into(EXAMPLE, array("Q", [0]))

    def test_sheets_of_the_listed_jobs(self):
        """The jobs of the crate sheet_cases, of every refusal, and their sheets, which the reference worked out."""
        cases = os.path.join(ROOT, "crates", "sheet_cases")
        with open(os.path.join(cases, "stdin"), "rb") as file:
            jobs = file.read()
        printed, numbers, at = [], set(), 0
        while at < len(jobs):
            size = int.from_bytes(jobs[at:at + 2], "big")
            try:
                printed.append(m.sheet(jobs[at + 2:at + 2 + size]))
            except m.Refused as refusal:
                printed.append(f"refused {refusal.number}\n")
                numbers.add(refusal.number)
            at += 2 + size
        with open(os.path.join(cases, "stdout"), encoding="ascii") as file:
            self.assertEqual("".join(printed), file.read())
        self.assertEqual(numbers, {1, 2, 3, 4, 5, 7, 8, 9, 10, 11, 12, 13})  # no job gives 6: its rows are in place

    def test_numbers_that_do_not_fit(self):
        for call in ((m.step_rate, -1), (m.step_rate, 2**64), (m.branches, 0, 1, 2**63), (m.bond_price, 1, 0, [-1], [0]),
                     (m.quote_discount, 1, (1, 256, 1.0)), (m.half_width, 0, 2**64),
                     *((m.dated_option_price, 1, 0, [ONE], [0], side, dates, 0)
                       for side, dates in ((m.CALL, [256]), (m.CALL, [-1]), (2**64, [0]), (-1, [0])))):
            with self.assertRaises(OverflowError):
                call[0](*call[1:])
        for call in ((m.step_rate, 1.0), (m.dated_option_price, 1, 0, [ONE], [0], m.CALL, [0.0], 0),
                     (m.dated_option_price, 1, 0, [ONE], [0], m.CALL, "0", 0)):
            with self.assertRaises(TypeError):
                call[0](*call[1:])


if __name__ == "__main__":
    unittest.main()
