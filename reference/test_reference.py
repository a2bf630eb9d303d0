#!/usr/bin/env python3
"""The figures that documents 01 and 02 print, and others worked out by hand, against the reference.

    python3 reference/test_reference.py
"""
import random
import sys
import unittest
from math import exp

sys.dont_write_bytecode = True
import reference
from reference import ONE, Kind, Option, Refused


def refusal(rule, *arguments):
    """The number that a rule refuses with, or 0."""
    try:
        rule(*arguments)
    except Refused as refused:
        return refused.number
    return 0


def quoted(f, row, kind, figure):
    return reference.quote(f, row, kind, reference.pattern_of(figure))


class Base(unittest.TestCase):
    def test_quotes(self):
        self.assertEqual(reference.whole_billionths(reference.pattern_of(-0.0025)), -2_500_000)
        self.assertEqual(reference.whole_billionths(reference.pattern_of(0.0009765625)), 976_563)
        self.assertEqual(quoted(1, 1, 6, -0.0025), 1_002_506_265)

    def test_series(self):
        self.assertEqual([reference.series(ONE, alternating) for alternating in (False, True)], [2_718_281_823, 367_879_441])

    def test_step_rate(self):
        self.assertEqual(reference.percent(reference.step_rate(ONE + 1)), '-0.0000001')


class Yields(unittest.TestCase):
    def test_down_is_away_from_zero_below_it(self):
        self.assertEqual([quoted(2, 1, 9, x / ONE) for x in (7, -7, 8, -8, 9, -9)],
                         [ONE, ONE + 4, ONE - 4, ONE + 4, ONE - 4, ONE + 4])

    def test_the_limit(self):
        for y in (4 * ONE, -4 * ONE):
            self.assertNotEqual(reference.continuous(y), ONE)
        # Within the limit the range refuses, beyond it the limit does: both are 7.
        for f, row, figure in ((1, 1, 4.0), (1, 1, -4.0), (1, 1, 4.000000001), (1, 60, 10.0), (12, 60, -10.0), (1, 1, float('nan')), (1, 1, float('inf'))):
            self.assertEqual(refusal(quoted, f, row, 9, figure), 7)

    def test_the_range(self):
        least = max(y for y in range(2_302_585_000, 2_302_585_200) if reference.continuous(y) >= 100_000_000)
        self.assertEqual(refusal(quoted, 1, 1, 9, least / ONE), 0)
        self.assertEqual(refusal(quoted, 1, 1, 9, (least + 1) / ONE), 7)

    def test_within_100_of_the_exact_series(self):
        chosen = random.Random(2)
        for _ in range(300):
            y = chosen.randrange(-700_000_000, 2_310_000_000)
            p = reference.continuous(y)
            if 100_000_000 <= p <= 2_000_000_000:
                self.assertLessEqual(abs(p - reference.exact_continuous(y)), 100)


class ContinuousRates(unittest.TestCase):
    def test_figures(self):
        for discounts, rate in (((1, 2, 1_000, 9_000_000, 18_315_637, 18_315_638), 3_999_999_988), (range(999_999_998, 1_000_000_003), 0),
                                ((1_000_000_003,), -4), ((484_106_437,), 725_450_480)):
            self.assertEqual([reference.continuous_rate(v) for v in discounts], [rate] * len(discounts))

    def test_refusals(self):
        self.assertEqual([refusal(reference.continuous_rate, v) for v in (0, 1, 1_100_000_000, 1_100_000_001)], [9, 0, 0, 9])

    def test_a_rate_by_the_definition(self):
        for discount in (853_004_020, 600_000_001, 1_087_654_321):
            found = reference.continuous_rate(discount)
            near = range(found - 1_000, found + 1_001)
            self.assertEqual(found, min(near, key=lambda y: (abs(reference.continuous(y) - discount), abs(y), y)))

    def test_the_sign_is_the_step_rate_s(self):
        chosen = random.Random(3)
        for discount in [chosen.randint(20_000_000, 1_100_000_000) for _ in range(200)] + list(range(ONE - 20, ONE + 21)):
            found = reference.continuous_rate(discount)
            self.assertTrue(found == 0 or (found < 0) == (reference.step_rate(discount) < 0))


def field(tag, data):
    return bytes([tag]) + len(data).to_bytes(2, 'big') + data


def of_kind(kind, expiry, strike):
    return field(0x08, bytes([kind, expiry]) + strike.to_bytes(4, 'big'))


def dated(side, strike, dates):
    return field(0x0A, bytes([side]) + strike.to_bytes(4, 'big') + bytes(dates))


def job_of(n, flows, *options, f=1, b=0, s=0, version=b'', factors=None):
    """A job whose quotes are all one unless factors are given, with any field after the volatility and any fields of options."""
    head = [(1, 1, f), (2, 1, n), (3, 2, b), (4, 4, s)]
    body = [(5, 8, reference.pattern_of(factor)) for factor in factors or [1.0] * n] + [(7, 4, flow) for flow in flows]
    head, body = (b''.join(field(tag, number.to_bytes(length, 'big')) for tag, length, number in part) for part in (head, body))
    return head + version + body + b''.join(options)


def level_tree(*discounts):
    """One discount a row, without reversion."""
    return [{j: discount for j in reference.nodes(0, i)} for i, discount in enumerate(discounts)]


def price_of(n, discounts, flows, terms):
    """What an entry for options gives after the causes about the tree and the flows."""
    return reference.option_value(n, 0, discounts, flows, reference.accepted_option(n, terms))


class ExerciseDay(unittest.TestCase):
    """n = 2, b = 0, all discounts one; the bond is worth 1.1 today, 1 and the coupon of 0.1 on row 1."""
    LEVEL = level_tree(ONE, ONE)
    FLOWS = [100_000_000, ONE]

    def priced(self, flows, kind, expiry, strike):
        """The option's price, which with these discounts is the exact one too."""
        price = price_of(2, self.LEVEL, flows, reference.Kind(kind, expiry, strike))
        self.assertEqual(reference.exact_option(2, 0, self.LEVEL, flows, reference.option_of_kind(kind, expiry, strike)), price)
        return price

    def test_the_seller_keeps_it(self):
        for kind, expiry, strike, price in ((1, 1, 900_000_000, 100_000_000), (3, 1, 900_000_000, 200_000_000), (3, 0, 900_000_000, 200_000_000),
                                            (2, 1, 1_050_000_000, 50_000_000), (4, 1, 1_050_000_000, 50_000_000), (4, 0, 1_050_000_000, 0),
                                            (2, 1, ONE, 0), (1, 1, ONE, 0)):
            self.assertEqual(self.priced(self.FLOWS, kind, expiry, strike), price, (kind, expiry, strike))

    def test_on_rows_before_the_expiry(self):
        """Coupons of 0.1 on rows 1 and 2, one on row 3; both options are best exercised on row 1, where the bond without its coupon is 1.1 and 0.99."""
        for kind, discounts, strike, price in ((3, (900_000_000, ONE, ONE), ONE, 90_000_000), (4, (ONE, 900_000_000, ONE), 1_050_000_000, 60_000_000)):
            for rule in (reference.option_value, reference.exact_option):
                option = reference.option_of_kind(kind, 2, strike)
                self.assertEqual(rule(3, 0, level_tree(*discounts), [100_000_000, 100_000_000, ONE], option), price)

    def test_without_coupons_nothing_changes(self):
        self.assertEqual([self.priced([0, ONE], kind, 1, 900_000_000) for kind in (1, 2, 3, 4)], [100_000_000, 0, 100_000_000, 0])

    def test_expiry_at_the_last_row(self):
        for kind in (1, 2, 3, 4):
            for n, expiry, number in ((2, 0, 0), (2, 1, 0), (2, 2, 11), (2, 3, 11), (1, 0, 0), (1, 1, 11)):
                sheet = reference.sheet(job_of(n, self.FLOWS[-n:], of_kind(kind, expiry, 900_000_000)))
                self.assertEqual(sheet == b'refused 11\n', number == 11, (kind, n, expiry))

    def test_the_job_of_document_01(self):
        job = bytes.fromhex('01000101' '02000101' '0300020000' '04000400000000' '0500083FF00A3D70A3D70A' '0700043B9ACA00' '08000604013C336080')
        self.assertEqual(reference.sheet(job), b'refused 11\n')
        self.assertEqual(reference.sheet(job[:-9]), b'node 0 0 1.002500000 -0.2493766\nrow 1 1.002500000 1.002499999 4\nbond 1.002500000 2\n')
        today = job[:42] + b'\x00' + job[43:]
        self.assertEqual(reference.sheet(today).splitlines()[2:], [b'bond 1.002500000 2', b'option 0.007500000 2'])


class ExerciseDates(unittest.TestCase):
    def test_the_lists_of_the_kinds(self):
        lists = [(1, [3]), (2, [3]), (1, [0, 1, 2, 3]), (2, [0, 1, 2, 3])]
        self.assertEqual([reference.option_of_kind(kind, 3, ONE) for kind in (1, 2, 3, 4)], [(side, ONE, dates) for side, dates in lists])
        self.assertEqual([reference.option_of_kind(kind, 0, ONE).dates for kind in (1, 4)], [[0], [0]])

    def test_each_row_by_hand(self):
        """Coupons of 0.1 on rows 1 and 2, one on row 3. The bond without its coupon is 1.08, 1.1 and 1 on rows 0 to 2 of the first tree, and 1.09,
        0.99 and 1 on those of the second."""
        calls = level_tree(900_000_000, ONE, ONE), 1, ONE
        puts = level_tree(ONE, 900_000_000, ONE), 2, 1_050_000_000
        for (tree, side, strike), dates, price in (
                (calls, [2], 0), (calls, [1], 90_000_000), (calls, [0], 80_000_000), (calls, [0, 2], 80_000_000), (calls, [1, 2], 90_000_000),
                (calls, [0, 1], 90_000_000), (calls, [0, 1, 2], 90_000_000), (puts, [2], 45_000_000), (puts, [1], 60_000_000), (puts, [0], 0),
                (puts, [0, 2], 45_000_000), (puts, [1, 2], 60_000_000), (puts, [0, 1], 60_000_000), (puts, [0, 1, 2], 60_000_000)):
            for rule in (reference.option_value, reference.exact_option):
                found = rule(3, 0, tree, [100_000_000, 100_000_000, ONE], reference.Option(side, strike, dates))
                self.assertEqual(found, price, (side, dates))

    def test_the_figures_of_the_request(self):
        """n = 5, all discounts one, flows of two: the bond passes its limit, and a bad list is tried before that."""
        tree, flows = level_tree(*[ONE] * 5), [2 * ONE] * 5
        for dates, number in (([1], 12), ([5], 13), ([1, 1], 13), ([], 13), ([4], 12), ([0, 4, 3], 13), ([255], 13), ([0, 1, 2, 3, 4], 12),
                              (range(256), 13)):
            for side in (1, 2):
                self.assertEqual(refusal(price_of, 5, tree, flows, reference.Option(side, ONE, list(dates))), number, dates)
                self.assertEqual(reference.sheet(job_of(5, flows, dated(side, ONE, dates))), b'refused %d\n' % number)

    def test_what_comes_before_13(self):
        for flow, side, strike, number in ((2 * ONE, 1, 4 * ONE + 1, 11), (2 * ONE, 0, ONE, 11), (2 * ONE, 3, ONE, 11), (2 * ONE + 1, 3, ONE, 10),
                                           (2 * ONE, 2, 4 * ONE, 13), (0, 1, 0, 13)):
            self.assertEqual(reference.sheet(job_of(5, [flow] * 5, dated(side, strike, [1, 1]))), b'refused %d\n' % number)

    def test_kinds_keep_their_number(self):
        flows = [100_000_000, ONE]
        for kind in (1, 2, 3, 4):
            self.assertEqual(reference.sheet(job_of(2, flows, of_kind(kind, 2, ONE))), b'refused 11\n')
        for dates in ([2], [0, 1, 2]):
            self.assertEqual(reference.sheet(job_of(2, flows, dated(1, ONE, dates))), b'refused 13\n')

    def test_kinds_and_lists_that_mean_the_same(self):
        flows = [60_000_000, 50_000_000, 0, ONE + 40_000_000]
        for kind in (1, 2, 3, 4):
            for expiry in range(4):
                for strike in (0, 900_000_000, 1_050_000_000, 4 * ONE):
                    option = reference.option_of_kind(kind, expiry, strike)
                    sheet = reference.sheet(job_of(4, flows, dated(*option)))
                    self.assertIn(b'option', sheet)
                    self.assertEqual(sheet, reference.sheet(job_of(4, flows, of_kind(kind, expiry, strike))))

    def test_within_the_allowance_of_the_exact_price(self):
        chosen = random.Random(4)
        for _ in range(60):
            n, b = chosen.randint(1, 9), chosen.choice((0, 700, 1_841))
            tree = [{j: chosen.randint(850_000_000, 1_100_000_000) for j in reference.nodes(b, i)} for i in range(n)]
            flows = [chosen.randint(0, 300_000_000) for _ in range(n)]
            dates = sorted(chosen.sample(range(n), chosen.randint(1, n)))
            option = reference.Option(chosen.choice((1, 2)), chosen.randint(0, ONE), dates)
            distance = reference.option_value(n, b, tree, flows, option) - reference.exact_option(n, b, tree, flows, option)
            self.assertLessEqual(abs(distance), reference.price_allowance(tree))


class Rolling(unittest.TestCase):
    def one_step(self, flow, discount):
        """The mean is the flow itself, so that the second division alone rounds."""
        return reference.bond_rows(1, 0, level_tree(discount), [flow])[0][0]

    def two_steps(self, values, root):
        """The three values of row 1 from a flow of 10, then the price by the discount of row 0. Without reversion the mean is a sixth of
        lowest, highest and four times the middle."""
        tree = [{0: root}, {j: max(value * ONE // 10, 1) for j, value in zip((-1, 0, 1), values)}]
        rows = reference.bond_rows(2, 0, tree, [0, 10])
        self.assertEqual([rows[1][j] for j in (-1, 0, 1)], values)
        return rows[0][0]

    def test_the_second_division(self):
        half = ONE // 2
        for flow, discount, price in ((0, half, 0), (1, half - 1, 0), (1, half, 1), (2, half, 1), (3, half, 2), (5, half, 3), (5, half - 1, 2), (7, half, 4),
                                      (1, 1, 0), (2 * ONE, 1, 2), (ONE + 1, ONE + 1, ONE + 2), (half, ONE + 1, half + 1), (half - 1, ONE + 1, half - 1)):
            self.assertEqual(self.one_step(flow, discount), price, (flow, discount))

    def test_the_first_division(self):
        for values, price in (([0, 0, 0], 0), ([1, 0, 1], 0), ([1, 0, 2], 1), ([2, 0, 1], 1), ([0, 1, 0], 1), ([5, 2, 2], 3), ([2, 2, 4], 2), ([2, 2, 5], 3),
                              ([3, 4, 2], 4), ([1, 3, 2], 3), ([0, 3, 2], 2), ([7, 10, 4], 9)):
            self.assertEqual(self.two_steps(values, ONE), price, values)

    def test_each_on_its_own(self):
        """The whole quotients are 0.25, 4.77, 1.25 and 4.95: rounded once they would be 0, 5, 1 and 5."""
        for values, root, price in (([1, 0, 2], 500_000_000, 1), ([4, 4, 6], 1_100_000_000, 4), ([5, 2, 2], 500_000_000, 2), ([4, 4, 7], 1_100_000_000, 6)):
            self.assertEqual(self.two_steps(values, root), price, (values, root))

    def test_options_roll_alike(self):
        """A call at strike 0 on row 1 is the bond."""
        tree = [{0: 500_000_000}, {-1: 100_000_000, 0: 1, 1: 200_000_000}]
        self.assertEqual(reference.option_value(2, 0, tree, [0, 10], reference.Option(1, 0, [1])), 1)

    def test_two_a_step(self):
        for discounts, allowance in (([ONE], 2), ([1], 2), ([1_100_000_000], 2), ([ONE] * 3, 6), ([ONE] * 60, 120), ([900_000_000] * 4, 8), ([500_000_000] * 5, 4),
                                     ([1_100_000_000] * 4, 11), ([ONE, ONE, 1_100_000_000], 6), ([1_100_000_000, ONE, ONE], 7), ([999_999_999] * 60, 120)):
            self.assertEqual(reference.price_allowance(level_tree(*discounts)), allowance, discounts)

    def test_state_prices_and_weighing_stay_down(self):
        """Sixths of 999,999,995 are 166,666,665.8 and, four of them, 666,666,663.3; the allowance is the node counts, one and three."""
        discounts, prices = reference.fit(1, 0, 0, [999_999_995])
        self.assertEqual([prices[1][j] for j in (-1, 0, 1)], [166_666_665, 666_666_663, 166_666_665])
        self.assertEqual(reference.state_price_allowance(0, discounts, 1), 4)
        self.assertEqual([reference.weighing([price], [1]) for price in (500_000_000, 999_999_999, ONE)], [0, 0, 1])
        self.assertEqual(reference.weighing_allowance(0, discounts, 1, [ONE] * 3), 5)

    def test_the_limit_comes_after_rounding(self):
        """Past 8 x one the bond of row 1 times the discount has 0.488, 0.5 and 0.998 billionths more; rounded down, each would be within it."""
        for value, discount, number in ((7_999_936_001, 1_000_008_000, 0), (7_746_425_600, 1_032_734_375, 12), (7_999_996_001, 1_000_000_500, 12)):
            tree, flows = level_tree(discount, ONE, ONE, ONE), [value - 6 * ONE, 2 * ONE, 2 * ONE, 2 * ONE]
            self.assertEqual(value * discount // ONE, 8 * ONE)
            self.assertEqual(refusal(reference.bond_rows, 4, 0, tree, flows), number, (value, discount))
            flows[0] -= 1
            self.assertEqual(reference.bond_rows(4, 0, tree, flows)[0][0], 8 * ONE if discount == 1_000_000_500 else 8 * ONE - 1)

    def test_on_either_side_of_the_exact_price(self):
        chosen, above, below = random.Random(6), 0, 0
        for _ in range(120):
            n, b = chosen.randint(1, 9), chosen.choice((0, 700, 1_841))
            most = chosen.choice((ONE, 1_100_000_000))
            tree = [{j: chosen.randint(850_000_000, most) for j in reference.nodes(b, i)} for i in range(n)]
            flows = [chosen.randint(0, 300_000_000) for _ in range(n)]
            exact, allowance = reference.exact_bond_rows(n, b, tree, flows)[0][0], reference.price_allowance(tree)
            price = reference.bond_rows(n, b, tree, flows)[0][0]
            self.assertLessEqual(abs(price - exact), allowance)
            if most == ONE:
                self.assertLessEqual(allowance, 2 * n)
            above, below = above + (price > exact), below + (price < exact)
        self.assertGreater(min(above, below), 30)


def tagged(number):
    return field(0x0B, bytes([number]))


def nodes_needed(b, n):
    return sum(len(reference.nodes(b, i)) for i in range(n))


class Versions(unittest.TestCase):
    CURVE = dict(f=1, b=1_000, s=10_000, factors=[0.97, 0.94, 0.9, 0.87])
    FLOWS = [50_000_000, 50_000_000, 50_000_000, ONE + 50_000_000]

    def test_working_reversions(self):
        for b, working in ((0, 0), (1, 1), (100, 100), (101, 100), (103, 102), (1_000, 952), (2_034, 1_840), (2_035, 1_841), (6_000, 4_512)):
            self.assertEqual(reference.working_reversion(2, b), working)
            self.assertEqual(reference.working_reversion(1, b), b)
        self.assertEqual([reference.highest(reference.working_reversion(2, b)) for b in (2_034, 2_035)], [2, 1])

    def test_every_working_reversion(self):
        """Near footnote 5's mean, 1 - e^(-b/10,000), and never falling; at most b and, above 0, at least 1."""
        found = [reference.working_reversion(2, b) for b in range(6_001)]
        self.assertEqual(found, sorted(found))
        for b, working in enumerate(found):
            self.assertTrue(min(b, 1) <= working <= b)
            self.assertLess(abs(working / 10_000 + exp(-b / 10_000) - 1), 0.000_050_2)

    def test_a_tree_of_version_2_can_be_wider(self):
        self.assertEqual([nodes_needed(reference.working_reversion(version, 103), 60) for version in (1, 2)], [1_878, 1_960])

    def test_spacings(self):
        self.assertEqual(reference.version_spacing(2, 1, 10_000, 1_000), 16_489_507)
        self.assertEqual([reference.version_spacing(version, 1, 10_000, b) for version, b in ((1, 0), (1, 1_000), (2, 0))], [17_320_508] * 3)
        self.assertEqual(reference.version_spacing(2, 12, 10_000, 0), 416_666)
        self.assertEqual(reference.version_spacing(2, 12, 0, 1_000), 0)

    def test_the_spacing_is_the_greatest(self):
        chosen = random.Random(9)
        for _ in range(300):
            f, s, b = chosen.choice((1, 2, 4, 12)), chosen.randint(1, 50_000), chosen.randint(1, 6_000)
            c = ONE * (ONE - reference.continuous(200_000 * b)) // (200_000 * b)
            h, most = reference.version_spacing(2, f, s, b), 3 * (1_000 * s) ** 2 * c // ONE
            self.assertTrue(h * h * f ** 3 <= most < (h + 1) ** 2 * f ** 3)
            self.assertLessEqual(h, reference.spacing(f, s))

    def test_the_spacing_is_near_footnote_5(self):
        """A third of the spacing's square is a step's variance: s squared times (1 - e^(-2 a dt)) / 2a, in rates over the step."""
        for f, s, b in ((1, 10_000, 1_000), (12, 10_000, 83), (4, 50_000, 6_000), (2, 7_001, 1)):
            reversion, length = b / 10_000 * f, 1 / f
            variance = (s / 10 ** 6) ** 2 * (1 - exp(-2 * reversion * length)) / (2 * reversion)
            h = reference.version_spacing(2, f, s, b) / ONE
            self.assertAlmostEqual(h * h / 3 / length ** 2 / variance, 1, delta=1e-4)

    def sheet(self, **others):
        return reference.sheet(job_of(4, self.FLOWS, **{**self.CURVE, **others}))

    def test_absent_is_version_1(self):
        absent = self.sheet()
        self.assertEqual(self.sheet(version=tagged(1)), absent)
        self.assertNotEqual(self.sheet(version=tagged(2)), absent)
        self.assertEqual(self.sheet(version=tagged(2), b=0), self.sheet(b=0))
        self.assertEqual([reference.read(job_of(1, [ONE], version=version)).version for version in (b'', tagged(1), tagged(2))], [None, 1, 2])

    def test_a_sheet_goes_by_the_working_reversion(self):
        """b = 2,034 is 1,840 in version 2, whose rows have five nodes where those of version 1 have three."""
        found = [self.sheet(version=tagged(version), b=2_034).count(b'node 3 ') for version in (1, 2)]
        self.assertEqual(found, [3, 5])
        discounts, prices = reference.fit(4, 1_840, reference.version_spacing(2, 1, 10_000, 2_034), [970_000_000, 940_000_000, 900_000_000, 870_000_000])
        lines = self.sheet(version=tagged(2), b=2_034).decode().splitlines()
        self.assertEqual(lines[-1], 'bond %s %d' % (reference.amount(reference.bond_rows(4, 1_840, discounts, self.FLOWS)[0][0]),
                                                    reference.price_allowance(discounts)))
        self.assertEqual(lines[-2].split()[-1], str(reference.state_price_allowance(1_840, discounts, 4)))
        self.assertEqual(lines[-2].split()[-2], reference.amount(sum(prices[4].values())))

    def test_tag_0b_elsewhere_is_malformed(self):
        """Before any other cause: these jobs have a frequency of 3."""
        tag, head = tagged(2), 20
        for version in (0, 3, 255):
            self.assertEqual(self.sheet(version=tagged(version), f=3), b'refused 1\n')
        for wrong in (field(0x0B, b''), field(0x0B, b'\x00\x02'), tag + tag, tag[:3], tag + b'\x00'):
            self.assertEqual(self.sheet(version=wrong, f=3), b'refused 1\n')
        self.assertEqual(self.sheet(version=tag, f=3), b'refused 2\n')
        job = job_of(4, self.FLOWS, **{**self.CURVE, 'f': 3})
        places = [0, 4, 8, 13] + [head + 11 * t for t in range(1, 5)] + [head + 44 + 7 * t for t in range(1, 5)]
        self.assertEqual(len(job), places[-1])
        for place in places:
            self.assertEqual(reference.sheet(job[:place] + tag + job[place:]), b'refused 1\n', place)
        self.assertEqual(reference.sheet(job[:head] + tag + job[head:]), b'refused 2\n')

    def test_cause_8_goes_by_the_working_reversion(self):
        """Half widths of 11 and 12 nodes, of which the wider passes the limit; then 13 both, of which that with the lower spacing keeps it."""
        for b, s, n, tops, passes in ((168, 50_000, 13, [11, 12], [True, False]), (145, 44_600, 14, [13, 13], [False, True])):
            self.assertEqual([reference.highest(reference.working_reversion(version, b)) for version in (1, 2)], tops)
            jobs = [job_of(n, [ONE // 10] * n, b=b, s=s, version=tagged(version), factors=[0.6 ** t for t in range(1, 5)] + [0.12] * (n - 4))
                    for version in (1, 2)]
            self.assertEqual([reference.sheet(job) != b'refused 8\n' for job in jobs], passes)


def level_rows(n, b, discount):
    return [{j: discount for j in reference.nodes(b, i)} for i in range(n)]


def single(n, b, rows, flows, terms):
    """Prices one strike of these terms, whose own counts for nothing."""
    def price(strike):
        option = reference.accepted_option(n, terms._replace(strike=strike))
        return reference.option_value(n, b, rows, flows, option), reference.price_allowance(rows)
    return price


class Strips(unittest.TestCase):
    N = 9
    STEEP = level_rows(9, 0, reference.DISCOUNT_LIMIT)

    def strip(self, strikes, terms, causes=(), flows=(0,) * 9):
        return reference.strip(causes, strikes, single(self.N, 0, self.STEEP, flows, terms))

    def test_by_hand(self):
        """A put on row 8 without a bond is its strike times 1.1, eight times, to the nearest: 4 x one passes 8 x one on the way, 3 x one does not. The bound is
        0 times 1.1, up, and 2 more, nine times."""
        terms, strikes = Option(reference.PUT, None, [8]), [4 * ONE, 3 * ONE, 4 * ONE, ONE]
        prices = [(12, 0, 0), (0, 6_430_766_430, 33), (12, 0, 0), (0, 2_143_588_810, 33)]
        self.assertEqual(self.strip(strikes, terms), (0, prices))
        self.assertEqual(self.strip(strikes, Kind(2, 8, None)), (0, prices))
        self.assertEqual(self.strip(strikes[::-1], terms), (0, prices[::-1]))

    def test_11_goes_by_strike_and_before_13(self):
        limit = reference.STRIKE_LIMIT
        for dates in ([], [8, 8], [9]):
            made = self.strip([ONE, limit, limit + 1, 0], Option(reference.PUT, None, dates))
            self.assertEqual(made, (0, [(13, 0, 0), (13, 0, 0), (11, 0, 0), (13, 0, 0)]))
        for terms in (Option(3, None, [1]), Kind(0, 1, None), Kind(5, 1, None), Kind(1, 9, None)):
            self.assertEqual(self.strip([ONE, limit + 1], terms), (0, [(11, 0, 0)] * 2))

    def test_12_of_the_bond_stands_wherever_11_and_13_do_not(self):
        flows = [2 * ONE] * 9
        self.assertEqual(self.strip([ONE, 5 * ONE, 0], Kind(1, 0, None), flows=flows), (0, [(12, 0, 0), (11, 0, 0), (12, 0, 0)]))
        self.assertEqual(self.strip([ONE, 5 * ONE, 0], Option(1, None, [9]), flows=flows), (0, [(13, 0, 0), (11, 0, 0), (13, 0, 0)]))

    def test_its_own_causes(self):
        """3, 4, then the number of strikes, whatever the list; none of them says anything of a strike."""
        bad = Option(reference.PUT, None, [])
        for count in (0, 17, 18, 272):
            self.assertEqual(self.strip([ONE] * count, bad), (6, []))
        for count in (1, 2, 15, 16):
            self.assertEqual(self.strip([ONE] * count, bad), (0, [(13, 0, 0)] * count))
        for n, b, number in ((0, 6_001, 3), (61, 0, 3), (60, 6_001, 4), (60, 6_000, 6), (1, 0, 6)):
            self.assertEqual(self.strip([], bad, reference.tree_causes(n, b)), (number, []))

    def test_each_is_what_its_strike_alone_gives(self):
        chosen = random.Random(10)
        for _ in range(60):
            n, b = chosen.randint(1, 12), chosen.choice((0, 83, 1_000, 6_000))
            rows = [{j: chosen.randint(700_000_000, reference.DISCOUNT_LIMIT) for j in reference.nodes(b, i)} for i in range(n)]
            flows = [chosen.randint(0, ONE) for _ in range(n)]
            dates = sorted(chosen.sample(range(n), chosen.randint(1, n)))
            terms = chosen.choice((Option(chosen.randint(1, 2), None, dates), Kind(chosen.randint(1, 4), dates[-1], None)))
            strikes = [chosen.choice((0, ONE, chosen.randint(0, 5 * ONE))) for _ in range(chosen.randint(1, 16))]
            price = single(n, b, rows, flows, terms)
            number, prices = reference.strip(reference.tree_causes(n, b), strikes, price)
            self.assertEqual((number, len(prices)), (0, len(strikes)))
            for strike, (refused, value, bound) in zip(strikes, prices):
                self.assertEqual(refused, refusal(price, strike))
                self.assertEqual((value, bound), (0, 0) if refused else price(strike))


class Jobs(unittest.TestCase):
    JOB = ('01000101' '02000101' '0300020000' '04000400000000' '%s0008%016X' '0700043B9ACA00')

    def test_tag_09(self):
        sheet = reference.sheet(bytes.fromhex(self.JOB % ('09', reference.pattern_of(0.0))))
        self.assertEqual(sheet.splitlines()[0], b'node 0 0 1.000000000 0.0000000')
        self.assertEqual(reference.sheet(bytes.fromhex(self.JOB % ('09', reference.pattern_of(4.0)))), b'refused 7\n')
        for tag in ('08', '0A'):
            self.assertEqual(reference.sheet(bytes.fromhex(self.JOB % (tag, reference.pattern_of(0.0)))), b'refused 1\n')


    def test_tag_0a(self):
        one, kind, listed = ONE.to_bytes(4, 'big'), of_kind(1, 1, ONE), dated(1, ONE, [1])
        for options, number in (((listed,), 0), ((kind,), 0), ((kind, listed), 1), ((listed, kind), 1), ((listed, listed), 1), ((kind, kind), 1),
                                ((field(0x0A, b''),), 1), ((field(0x0A, b'\x01' + one[:3]),), 1), ((field(0x0A, b'\x01' + one),), 13),
                                ((field(0x0A, b'\x03' + one),), 11), ((listed[:-1],), 1), ((listed + b'\x00',), 1), ((field(0x10, listed[3:]),), 1)):
            sheet = reference.sheet(job_of(2, [0, ONE], *options))
            self.assertEqual(sheet if number else sheet[:4], b'refused %d\n' % number if number else b'node', options)

    def test_form_comes_first(self):
        for f, count, length, number in ((1, 4_672, 4_700, 3), (3, 4_672, 4_700, 2), (1, 4_673, 4_701, 1)):
            job = job_of(0, [], dated(9, 0xFFFFFFFF, [7] * count), f=f)
            self.assertEqual((len(job), reference.sheet(job)), (length, b'refused %d\n' % number))
        long = job_of(3, [0, 0, ONE], dated(1, ONE, [0] * 4_600))
        self.assertEqual(reference.sheet(long), b'refused 13\n')


if __name__ == '__main__':
    unittest.main()
