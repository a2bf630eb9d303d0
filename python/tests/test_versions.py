"""Request (ix): trees by version, their working reversion, and the sizes and prices that go by it."""
import copy
import math
import pickle
import struct
import unittest
from array import array

import mixegorta as m
from mixegorta import ONE, Point

FLOWS = [40_000_000, 40_000_000, ONE + 40_000_000]
UNKNOWN = 0, 3, 256 + 1, 256 + 2, 2**32 + 1, 2**32 + 2, 2**64 - 1
PATTERN = 0xA5A5A5A5A5A5A5A5


def falling(part, steps):
    return [Point(row, m.DISCOUNT_FACTOR, part**row) for row in range(1, steps + 1)]


def job(volatility, version, points, flows):
    head = struct.pack(">BHBBHBBHHBHI", 1, 1, 1, 2, 1, len(points), 3, 2, 1_000, 4, 4, volatility) + version
    quotes = b"".join(struct.pack(">BHd", point.kind, 8, point.figure) for point in points)
    return head + quotes + b"".join(struct.pack(">BHI", 7, 4, flow) for flow in flows)


class Test(unittest.TestCase):
    def refused(self, kind, argument, row, function, *arguments, **named):
        with self.assertRaises(m.Refused) as caught:
            function(*arguments, **named)
        self.assertEqual((type(caught.exception), caught.exception.argument, caught.exception.row), (kind, argument, row))

    def test_working_reversions(self):
        for reversion, working in ((0, 0), (1, 1), (100, 100), (101, 100), (1_000, 952), (2_034, 1_840), (2_035, 1_841), (6_000, 4_512)):
            self.assertEqual([m.working_reversion(version, reversion) for version in (1, 2)], [reversion, working])
        for reversion in range(6_001):
            self.assertLess(abs(m.working_reversion(2, reversion) / 10_000 - 1 + math.exp(-reversion / 10_000)), 0.000_050_2)
        for version in UNKNOWN:
            self.refused(m.QuoteOutOfRange, "version", None, m.working_reversion, version, 6_000)
            self.refused(m.ReversionTooLarge, "reversion", None, m.working_reversion, version, 6_001)

    def test_version_1_is_meant_where_none_is_given(self):
        curve = m.Curve(falling(0.98, 30))
        for reversion in (0, 1, 103, 2_034, 6_000):
            plain, first, second = m.Tree(4, 30, reversion, 9_000, curve), *(m.Tree(4, 30, reversion, 9_000, curve, version=k) for k in (1, 2))
            self.assertEqual((plain.version, plain.reversion, plain.working_reversion, repr(plain)), (1, reversion, reversion, repr(first)))
            self.assertEqual((plain.discounts, plain.state_prices), (first.discounts, first.state_prices))
            self.assertEqual(plain.discounts == second.discounts, reversion == 0)

    def test_a_tree_of_version_2(self):
        tree = m.Tree(1, 3, 1_000, 10_000, falling(0.98, 3), version=2)
        self.assertEqual((tree.version, tree.reversion, tree.working_reversion), (2, 1_000, 952))
        self.assertEqual(list(tree.row(m.DISCOUNTS, 2)), [1_012_691_750, 996_129_886, 979_838_881, 963_814_302, 948_051_795])
        price = tree.option_price(FLOWS, m.AMERICAN_CALL, 2, ONE)
        self.assertEqual(price, m.Price(56_455_684, 6))
        self.assertEqual(tree.dated_option_price(FLOWS, m.CALL, [0, 1, 2], ONE), price)
        self.assertEqual((tree.bond_and_option(FLOWS, m.AMERICAN_CALL, 2, ONE), tree.bond_and_dated_option(FLOWS, m.CALL, [0, 1, 2], ONE)),
                         ((tree.bond_price(FLOWS), price),) * 2)
        self.assertEqual(m.option_price(3, 952, tree.discounts, FLOWS, m.AMERICAN_CALL, 2, ONE), price)
        self.assertNotEqual(m.option_price(3, 1_000, tree.discounts, FLOWS, m.AMERICAN_CALL, 2, ONE), price)
        self.assertEqual((tree.bounds().bound, tree.price_error_bound()), (6, 6))
        self.assertEqual(repr(tree), "<Tree frequency=1 steps=3 reversion=1000 volatility=10000 version=2>")

    def test_a_wider_tree(self):
        curve = m.Curve(falling(0.995, 60))
        tree = m.Tree(12, 60, 103, 5_000, curve, version=2)
        self.assertEqual((len(m.Tree(12, 60, 103, 5_000, curve).discounts), len(tree.discounts)), (1_878, 1_960))
        for row in range(61):
            prices = tree.row(m.STATE_PRICES, row)
            self.assertEqual(len(prices), m.node_count(102, row))
            self.assertEqual(tree.value(row, [ONE] * len(prices)), m.Price(sum(prices), tree.state_price_error_bound(row) + 1))

    def test_memories(self):
        curve = m.Curve(falling(0.995, 60))
        (narrow, narrow_prices), (wide, wide_prices) = ((m.discounts_needed(60, b), m.state_prices_needed(60, b)) for b in (103, 102))
        cases = [(2, narrow, narrow_prices, "discounts"), (2, wide - 1, wide_prices, "discounts"), (2, wide, wide_prices - 1, "state_prices")]
        cases += [(version, narrow - 1, narrow_prices, "discounts") for version in UNKNOWN]
        for version, first, second, argument in cases:
            memories = array("Q", [PATTERN] * first), array("Q", [PATTERN] * second)
            self.refused(m.NotInTree, argument, None, m.fit_into, 12, 60, 103, 5_000, curve, *memories, version=version)
            self.assertEqual(set(memories[0]) | set(memories[1]), {PATTERN})
        for version in UNKNOWN:
            memories = array("Q", [PATTERN] * narrow), array("Q", [PATTERN] * narrow_prices)
            self.refused(m.QuoteOutOfRange, "version", None, m.fit_into, 12, 60, 103, 5_000, curve, *memories, version=version)
        memories = array("Q", bytes(8 * wide)), array("Q", bytes(8 * wide_prices))
        m.fit_into(12, 60, 103, 5_000, curve, *memories, version=2)
        self.assertEqual(memories[0], array("Q", m.Tree(12, 60, 103, 5_000, curve, version=2).discounts))

    def test_unknown_versions(self):
        curve, far = falling(0.98, 5), falling(0.9, 13)
        for version in UNKNOWN:
            self.refused(m.QuoteOutOfRange, "version", None, m.Tree, 1, 5, 103, 5_000, curve, version=version)
            self.refused(m.QuoteOutOfRange, "version", None, m.Tree, 1, 13, 0, 50_000, far, version=version)
            self.refused(m.NotInTree, "points", None, m.Tree, 1, 4, 103, 5_000, curve, version=version)
        for version in (-1, 2**64):
            with self.assertRaises(OverflowError):
                m.Tree(1, 5, 103, 5_000, curve, version=version)
        for version in ("2", 2.0, None):
            with self.assertRaises(TypeError):
                m.Tree(1, 5, 103, 5_000, curve, version=version)

    def test_faults_of_version_2(self):
        """The working reversion decides over 8; the row of an unfitted quote is found by fits of the same version."""
        far = falling(0.9, 13)
        self.refused(m.NodesTooFarApart, "volatility", None, m.Tree, 1, 13, 168, 50_000, far, version=2)
        with self.assertRaises(m.NodeDiscountOutOfRange):
            m.Tree(1, 13, 168, 50_000, far)
        curve = falling(0.98, 5)
        for row in (1, 3, 5):
            broken = [point._replace(figure=1.2 * (curve[row - 2].figure if row > 1 else 1.0)) if point.row == row else point for point in curve]
            self.refused(m.NodeDiscountOutOfRange, "points", row, m.Tree, 1, 5, 2_034, 0, broken, version=2)
        self.refused(m.QuoteOutOfRange, "points", 4, m.Tree, 1, 5, 103, 0, [*curve[:3], Point(4, m.DISCOUNT_FACTOR, 11.0), curve[4]], version=2)

    def test_a_tree_can_be_kept(self):
        tree = m.Tree(1, 3, 1_000, 10_000, falling(0.98, 3), version=2)
        for kept in (pickle.loads(pickle.dumps(tree)), copy.deepcopy(tree)):
            self.assertEqual((repr(kept), kept.working_reversion, kept.discounts), (repr(tree), 952, tree.discounts))
            self.assertEqual(kept.option_price(FLOWS, m.AMERICAN_CALL, 2, ONE), tree.option_price(FLOWS, m.AMERICAN_CALL, 2, ONE))

    def test_a_tree_that_was_kept_before_versions(self):
        tree, old = m.Tree(1, 3, 1_000, 10_000, falling(0.98, 3)), m.Tree.__new__(m.Tree)
        numbers, *memories = tree.__getstate__()
        old.__setstate__((numbers[:4], *memories))
        self.assertEqual((repr(old), old.version, old.bond_price(FLOWS)), (repr(tree), 1, tree.bond_price(FLOWS)))

    def test_jobs(self):
        points = falling(0.98, 3)
        sheets = {version: m.sheet(job(10_000, version, points, FLOWS)) for version in (b"", b"\x0b\0\1\1", b"\x0b\0\1\2")}
        self.assertEqual(sheets[b""], sheets[b"\x0b\0\1\1"])
        self.assertIn("node 2 2 0.948051795 ", sheets[b"\x0b\0\1\2"])
        self.assertIn("node 2 2 0.946462224 ", sheets[b""])
        for wrong in (b"\x0b\0\1\0", b"\x0b\0\1\3", b"\x0b\0\0", b"\x0b\0\1\1\x0b\0\1\1"):
            self.refused(m.MalformedJob, "job", None, m.sheet, job(10_000, wrong, points, FLOWS))

    def test_faults_of_jobs(self):
        """A version moves the quotes and the flows by four bytes."""
        points = falling(0.98, 3)
        for version in (b"", b"\x0b\0\1\1", b"\x0b\0\1\2"):
            self.refused(m.QuoteOutOfRange, "job", 2, m.sheet, job(0, version, [points[0], Point(2, 5, 11.0), points[2]], FLOWS))
            self.refused(m.NodeDiscountOutOfRange, "job", 3, m.sheet, job(0, version, [*points[:2], Point(3, 5, 1.3)], FLOWS))
            self.refused(m.FlowTooLarge, "job", 2, m.sheet, job(0, version, points, [0, 2 * ONE + 1, ONE]))


if __name__ == "__main__":
    unittest.main()
