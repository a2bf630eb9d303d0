"""Strips of strikes: each answer against the call for its strike alone, the causes of the strip itself, and what its arguments may be."""
import unittest
from array import array
from decimal import Decimal
from types import SimpleNamespace

import mixegorta as m
from mixegorta import ONE

STEEP = 9, 0, [m.MAX_NODE_DISCOUNT] * 81
LIMIT = m.MAX_STRIKE
COUPONS = [ONE // 20] * 4 + [ONE + ONE // 20]
# in no order, with equal ones and one above the limit
STRIKES = [ONE, 0, LIMIT + 1, ONE, 980_000_000, LIMIT, 1_020_000_000] * 3


def shown(answer):
    """What an answer is, whole: a Price, or class, number, argument and row of a refusal."""
    return (type(answer), answer.number, answer.argument, answer.row) if isinstance(answer, m.Refused) else answer


def alone(call, *given):
    try:
        return call(*given)
    except m.Refused as refused:
        return refused


def numbers(strip):
    return [each.number if isinstance(each, m.Refused) else 0 for each in strip]


class Strips(unittest.TestCase):
    def setUp(self):
        points = [(row, m.YEARLY_RATE, 0.01 * row) for row in range(1, 6)]
        self.tree = m.Tree(1, 5, 1_000, 10_000, points)
        self.shelf = m.Shelf()
        self.shelf.ask(3, 5, 1_000)
        self.shelf.commit(3, 1, 10_000, points)

    def same(self, strip, call, given, strikes):
        """Each answer of the strip is what the call gives for its strike."""
        self.assertEqual([shown(each) for each in strip], [shown(alone(call, *given, strike)) for strike in strikes])

    def test_figures_by_hand(self):
        """On 1.1 eight times a put at 4 x one passes 8 x one, at 3 x one and at one it does not."""
        strikes = [4 * ONE, 3 * ONE, 4 * ONE, ONE]
        for strip in (m.option_strip(*STEEP, [0] * 9, m.PUT, [8], strikes), m.option_strip_of_kind(*STEEP, [0] * 9, m.EUROPEAN_PUT, 8, strikes)):
            self.assertEqual(strip[1::2], [m.Price(6_430_766_430, 33), m.Price(2_143_588_810, 33)])
            self.assertEqual([shown(each) for each in strip[::2]], [(m.ValueTooLarge, 12, "strike", None)] * 2)

    def test_each_answer_is_a_call_alone(self):
        for count in (1, 2, 15, 16):
            strikes = STRIKES[:count]
            for terms in ((m.CALL, [0, 2, 4]), (m.PUT, b"\3"), (m.PUT, []), (m.CALL, [5]), (m.PUT, [2, 2]), (3, [1]), (2**32 + 1, [1])):
                self.same(self.tree.option_strip(COUPONS, *terms, strikes), self.tree.dated_option_price, (COUPONS, *terms), strikes)
                self.same(self.shelf.option_strip(3, COUPONS, *terms, strikes), self.shelf.dated_option_price, (3, COUPONS, *terms), strikes)
            for terms in ((kind, expiry) for kind in range(6) for expiry in (0, 4, 5)):
                self.same(self.tree.option_strip_of_kind(COUPONS, *terms, strikes), self.tree.option_price, (COUPONS, *terms), strikes)
                self.same(self.shelf.option_strip_of_kind(3, COUPONS, *terms, strikes), self.shelf.option_price, (3, COUPONS, *terms), strikes)

    def test_one_refusal_reaches_no_neighbour(self):
        strikes = [ONE, LIMIT + 1, LIMIT]
        for flows, dates, number in (([0] * 9, [9], 13), ([m.MAX_FLOW] * 9, [8], 12), ([m.MAX_FLOW] * 9, [], 13), ([0] * 9, [8], 0)):
            self.assertEqual(numbers(m.option_strip(*STEEP, flows, m.CALL, dates, strikes)), [number, 11, number])

    def test_causes_of_the_tree_stand_in_the_answers(self):
        """A flow's row is told in each; on a shelf a tree that awaits its commit is 9, after 6."""
        for given, wanted in ((((9, 0, [ONE] * 80), [0] * 9), (m.NotInTree, 6, "discounts", None)), ((STEEP, [0] * 8), (m.NotInTree, 6, "flows", None)),
                              (((9, 0, [ONE] * 80 + [0]), [0] * 9), (m.NodeDiscountOutOfRange, 9, "discounts", 8)),
                              ((STEEP, [0, 0, 3 * ONE] + [0] * 6), (m.FlowTooLarge, 10, "flows", 3))):
            tree, flows = given
            self.assertEqual([shown(each) for each in m.option_strip(*tree, flows, m.CALL, [], [0, 5 * ONE])], [wanted] * 2)
            self.assertEqual([shown(each) for each in m.option_strip_of_kind(*tree, flows, 9, 9, [0, 5 * ONE])], [wanted] * 2)
        self.shelf.ask(1, 2, 0)
        for flows, wanted in (([ONE], (m.NotInTree, 6, "flows", None)), ([0, 3 * ONE], (m.NodeDiscountOutOfRange, 9, "name", None))):
            self.assertEqual([shown(each) for each in self.shelf.option_strip(1, flows, m.CALL, [], [0, 5 * ONE])], [wanted] * 2)

    def refused(self, refusal, argument, call, *given):
        with self.assertRaises(refusal) as caught:
            call(*given)
        self.assertEqual((type(caught.exception), caught.exception.argument, caught.exception.row), (refusal, argument, None))

    def test_causes_of_the_strip_itself(self):
        """3, 4, then the number of strikes; on a shelf 15, then that number; whatever else is wrong."""
        for count in (0, 17, 272):
            strikes = [ONE] * count
            for call, terms in ((m.option_strip, (m.CALL, [])), (m.option_strip_of_kind, (0, 9))):
                self.refused(m.StepsOutOfRange, "steps", call, 0, 6_001, [], [], *terms, strikes)
                self.refused(m.ReversionTooLarge, "reversion", call, 60, 6_001, [], [], *terms, strikes)
                self.refused(m.NotInTree, "strikes", call, 60, 6_000, [], [], *terms, strikes)
            for call, terms in ((self.shelf.option_strip, (m.CALL, [])), (self.shelf.option_strip_of_kind, (0, 9))):
                for name in (0, 1, 9, 256 + 3, 2**32 + 3):
                    self.refused(m.WrongName, "name", call, name, [], *terms, strikes)
                self.refused(m.NotInTree, "strikes", call, 3, [], *terms, strikes)
        for count in (1, 16):
            self.assertEqual(numbers(m.option_strip(5, 0, [], [], 0, [], [0] * count)), [6] * count)

    def test_what_strikes_may_be(self):
        wanted = self.tree.option_strip(COUPONS, m.PUT, [4], [ONE, 980_000_000])
        for strikes in ((ONE, "0.98"), [Decimal(1), Decimal("0.98")], array("Q", [ONE, 980_000_000]), iter([ONE, 980_000_000]),
                        memoryview(array("Q", [ONE, 980_000_000]))):
            self.assertEqual(self.tree.option_strip(COUPONS, m.PUT, [4], strikes), wanted)

    def test_what_strikes_may_not_be(self):
        masked = SimpleNamespace(mask=SimpleNamespace(any=lambda: True), filled=None)
        for strikes in ({ONE: 1}, {ONE}, frozenset([ONE]), {ONE: 1}.keys(), "1.0", ONE, None, [1.0], [[ONE]], masked):
            for call in (lambda: self.tree.option_strip(COUPONS, m.PUT, [4], strikes), lambda: self.shelf.option_strip(3, COUPONS, m.PUT, [4], strikes),
                         lambda: self.tree.option_strip_of_kind(COUPONS, 1, 4, strikes), lambda: self.shelf.option_strip_of_kind(3, COUPONS, 1, 4, strikes)):
                with self.assertRaises(TypeError) as caught:
                    call()
                self.assertIn("strikes", str(caught.exception))
        with self.assertRaises(OverflowError):
            self.tree.option_strip(COUPONS, m.PUT, [4], [ONE, 2**64 + ONE])

    def test_strikes_that_were_lent_are_given_back(self):
        """Where the strip is refused, and where its answers are: nobody holds the caller's memory."""
        strikes = array("Q", [LIMIT + 1])
        kept = self.tree.option_strip(COUPONS, m.PUT, [4], strikes)
        strikes.extend([ONE] * 16)
        try:
            self.tree.option_strip(COUPONS, m.PUT, [4], strikes)
        except m.NotInTree:
            strikes.pop()
        self.assertEqual((len(strikes), numbers(kept)), (16, [11]))

    def test_a_tree_of_version_2(self):
        tree = m.Tree(1, 4, 2_034, 10_000, [(row, m.YEARLY_RATE, 0.03) for row in range(1, 5)], version=2)
        given = [0, 0, 0, ONE], m.PUT, [1, 2, 3]
        strip = tree.option_strip(*given, [900_000_000, 950_000_000])
        self.same(strip, tree.dated_option_price, given, [900_000_000, 950_000_000])
        self.assertNotEqual(strip, m.option_strip(4, tree.reversion, tree.discounts, *given, [900_000_000, 950_000_000]))


if __name__ == "__main__":
    unittest.main()
