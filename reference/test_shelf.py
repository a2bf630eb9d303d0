#!/usr/bin/env python3
"""Figures of the shelf that were worked out by hand from document 02, requests (vii), (viii) and (x), against the reference.

    python3 reference/test_shelf.py
"""
import copy
import itertools
import sys
import unittest

sys.dont_write_bytecode = True
import reference
from reference import ONE, Refused
from shelf import MEMORY, NAMES, NOTHING, Carried, Price, Shelf, nodes_needed, tree_bounds

PAST = 0, 9, -1, 256 + 1, 2 ** 32 + 1, 2 ** 64 - 1


def number_of(call, *arguments):
    """The number that a call refuses with, or 0."""
    try:
        call(*arguments)
    except Refused as refused:
        return refused.number
    return 0


def curve(n, *factors):
    """Rows, kinds and figures of discount factors; all are one where none is given."""
    factors = factors or [1.0] * n
    return list(range(1, len(factors) + 1)), [5] * len(factors), [reference.pattern_of(factor) for factor in factors]


def carried(allowance, *greatest):
    """What a tree of these greatest discounts carries."""
    return Carried(allowance, list(greatest) + [0] * (60 - len(greatest)))


def desk(*trees):
    """A shelf with trees asked for under names 1, 2, ...: pairs of n and b."""
    made = Shelf()
    for name, (n, b) in enumerate(trees, 1):
        made.ask(name, n, b)
    return made


class Case(unittest.TestCase):
    def refused(self, number, shelf, entry, *arguments):
        """The call answers this number, 0 for a price, and leaves the shelf as it was."""
        before = copy.deepcopy(shelf.trees)
        self.assertEqual(number_of(getattr(shelf, entry), *arguments), number, (entry, arguments))
        self.assertEqual(shelf.trees, before)


class Nodes(Case):
    def test_nodes_of_a_tree(self):
        """Without reversion n x n; with J = 1 one and then three a row; with J = 2 one, three and then five."""
        for n, b, nodes in ((1, 0, 1), (2, 0, 4), (60, 0, 3_600), (60, 1, 3_600), (60, 6_000, 178), (2, 1_841, 4), (3, 1_841, 7), (3, 1_840, 9), (4, 1_840, 14),
                            (60, 1_000, 294)):
            self.assertEqual(nodes_needed(n, b), nodes, (n, b))

    def test_exactly_all_nodes(self):
        self.assertEqual(desk((60, 0)).held(), MEMORY)
        self.assertEqual(desk(*[(30, 0)] * 4).held(), MEMORY)
        self.refused(14, desk((60, 0)), 'ask', 2, 1, 0)
        self.refused(14, desk(*[(30, 0)] * 4), 'ask', 8, 1, 6_000)

    def test_one_node_too_many(self):
        """48 x 48 and 36 x 36 are 60 x 60. With 35 x 35 in place of the second 71 are left: 10 short of 9 x 9, and just enough for 64, 4 and three times 1."""
        self.assertEqual(desk((48, 0), (36, 0)).held(), MEMORY)
        self.refused(14, desk((48, 0), (1, 0)), 'ask', 3, 36, 0)
        shelf = desk((48, 0), (35, 0))
        self.assertEqual(MEMORY - shelf.held(), 71)
        self.refused(14, shelf, 'ask', 3, 9, 0)
        for name, (n, left) in enumerate(((8, 7), (2, 3), (1, 2), (1, 1), (1, 0)), 3):
            shelf.ask(name, n, 0)
            self.assertEqual(MEMORY - shelf.held(), left)
        self.refused(14, shelf, 'ask', 8, 1, 0)

    def test_released_nodes_serve_however_scattered(self):
        shelf = desk(*[(20, 0)] * 8)
        for name in (2, 4, 6):
            shelf.release(name)
        self.assertEqual(shelf.held(), 5 * 400)
        self.refused(14, shelf, 'ask', 4, 41, 0)
        shelf.ask(4, 40, 0)
        self.assertEqual((shelf.held(), shelf.part(4), shelf.part(5)), (MEMORY, (800, 1_600), (2_400, 400)))

    def test_held_is_askings_less_releases(self):
        shelf = desk((3, 0), (4, 1_840))
        shelf.release(1)
        shelf.ask(1, 5, 0)
        self.refused(15, shelf, 'ask', 1, 5, 0)
        shelf.commit(2, 1, 0, *curve(4))
        self.assertEqual(shelf.held(), 9 + 14 - 9 + 25)


class Order(Case):
    def test_asking_tries_15_3_4_14(self):
        full = desk((60, 0))
        for name, n, b, number in ((1, 0, 7_000, 15), (1, 1, 0, 15), (1, 61, 0, 15), (0, 0, 0, 15), (9, 1, 6_001, 15), (2, 0, 6_001, 3), (2, 61, 6_001, 3),
                                   (2, 61, 0, 3), (2, 60, 6_001, 4), (2, 1, 6_001, 4), (2, 60, 6_000, 14), (2, 1, 0, 14)):
            self.refused(number, full, 'ask', name, n, b)

    def test_names_outside(self):
        shelf = desk((1, 0))
        for name in PAST:
            self.refused(15, shelf, 'ask', name, 1, 0)
            self.refused(15, shelf, 'commit', name, 3, 50_001, *curve(1))
            self.refused(15, shelf, 'release', name)
            self.refused(15, shelf, 'bond', name, [ONE])
            self.refused(15, shelf, 'option', name, [ONE], 1, 0, ONE)
            self.refused(15, shelf, 'dated_option', name, [ONE], 1, [0], ONE)
            self.assertEqual((shelf.part(name), shelf.slot(name)), ((0, 0), (0, 0, 0, *NOTHING)))

    def test_absent_names(self):
        shelf = desk((1, 0))
        for name in range(2, 9):
            self.refused(15, shelf, 'commit', name, 1, 0, *curve(1))
            self.refused(15, shelf, 'release', name)
            self.refused(15, shelf, 'bond', name, [ONE])

    def test_a_commit_tries_15_and_then_the_fit_s(self):
        """n = 13 without reversion: with f = 1 and s = 50,000 the spacing is 86,602,540, and twelve times it passes one."""
        rows, kinds, figures = curve(13)
        shelf = desk((13, 0), (13, 0))
        shelf.commit(1, 1, 0, rows, kinds, figures)
        nan, high = [reference.pattern_of(x) for x in (float('nan'), 1.100000001)]
        for f, s, given, number in ((3, 50_001, (rows[1:], kinds, [nan] * 13), 2), (1, 50_001, (rows[1:], kinds, [nan] * 13), 5),
                                    (1, 50_000, (rows[1:], kinds, [nan] * 13), 6), (1, 50_000, (rows, kinds, [nan] * 13), 7),
                                    (1, 50_000, (rows, kinds, [high] * 13), 8), (1, 0, (rows, kinds, [high] * 13), 9)):
            self.refused(15, shelf, 'commit', 1, f, s, *given)
            self.refused(15, shelf, 'commit', 3, f, s, *given)
            self.refused(number, shelf, 'commit', 2, f, s, *given)
        shelf.commit(2, 1, 0, rows, kinds, figures)
        self.assertEqual(shelf.discounts(2), shelf.discounts(1))

    def test_pricing_tries_15_6_9_and_then_the_pricer_s(self):
        shelf = desk((1, 0), (1, 0))
        shelf.commit(1, 1, 0, *curve(1))
        for name, flows, kind, number in ((3, [], 5, 15), (2, [], 5, 6), (2, [ONE, ONE], 1, 6), (2, [3 * ONE], 5, 9), (2, [ONE], 5, 9), (2, [ONE], 1, 9),
                                          (1, [], 5, 6), (1, [3 * ONE], 5, 10), (1, [ONE], 5, 11), (1, [ONE], 1, 0)):
            self.refused(number, shelf, 'option', name, flows, kind, 0, ONE)
            self.refused(0 if number == 11 else number, shelf, 'bond', name, flows)
        for name, side, dates, number in ((2, 1, [], 9), (1, 3, [], 11), (1, 1, [], 13), (1, 1, [1], 13), (1, 1, [0], 0)):
            self.refused(number, shelf, 'dated_option', name, [ONE], side, dates, ONE)

    def test_the_list_is_tried_before_the_values(self):
        shelf = desk((5, 0))
        shelf.commit(1, 1, 0, *curve(5))
        self.refused(12, shelf, 'bond', 1, [2 * ONE] * 5)
        self.refused(12, shelf, 'dated_option', 1, [2 * ONE] * 5, 1, [4], ONE)
        self.refused(13, shelf, 'dated_option', 1, [2 * ONE] * 5, 1, [5], ONE)


class Life(Case):
    def test_a_tree_s_whole_life(self):
        """One step at 0.98: a bond of 1 is worth 0.98 today, within 2 billionths, and the right to sell it today at par 0.02."""
        shelf = Shelf()
        self.assertEqual(shelf.slot(3), (0, 0, 0, *NOTHING))
        shelf.ask(3, 1, 500)
        self.assertEqual((shelf.slot(3), shelf.discounts(3)), ((1, 1, 500, *NOTHING), [0]))
        shelf.commit(3, 1, 10_000, *curve(1, 0.98))
        self.assertEqual((shelf.slot(3), shelf.discounts(3)), ((2, 1, 500, *carried(2, 980_000_000)), [980_000_000]))
        self.assertEqual(shelf.bond(3, [ONE]), Price(980_000_000, 2))
        for put in (2, 4):
            self.assertEqual(shelf.option(3, [ONE], put, 0, ONE), Price(20_000_000, 2))
        self.assertEqual(shelf.dated_option(3, [ONE], 2, [0], ONE), Price(20_000_000, 2))
        shelf.release(3)
        self.assertEqual((shelf.slot(3), shelf.held(), shelf.stored()), ((0, 0, 0, *NOTHING), 0, []))
        self.refused(15, shelf, 'release', 3)

    def test_a_second_commit_is_15_and_a_refused_one_may_be_tried_again(self):
        shelf = desk((1, 0))
        for factor, s, number in ((1.2, 0, 9), (2.1, 0, 7), (0.5, 50_001, 5)):
            self.refused(number, shelf, 'commit', 1, 1, s, *curve(1, factor))
            self.assertEqual(shelf.slot(1), (1, 1, 0, *NOTHING))
        shelf.commit(1, 1, 0, *curve(1, 1.1))
        for factor, s in ((1.1, 0), (0.5, 50_001)):
            self.refused(15, shelf, 'commit', 1, 1, s, *curve(1, factor))
        self.assertEqual(shelf.discounts(1), [1_100_000_000])

    def test_a_new_tree_awaits_its_commit(self):
        """The same name, asked for again after its release, has nothing of its former tree."""
        shelf = desk((2, 0))
        shelf.commit(1, 1, 0, *curve(2))
        shelf.release(1)
        shelf.ask(1, 2, 0)
        self.assertEqual(shelf.discounts(1), [0, 0, 0, 0])
        self.refused(9, shelf, 'bond', 1, [0, ONE])

    def test_one_name_changes_no_other(self):
        """Each of the other calls, on every order of names, leaves a fitted tree's discounts and price under its own name."""
        for order in itertools.permutations((1, 4, 8)):
            shelf = Shelf()
            for name in order:
                shelf.ask(name, 2, 0)
            shelf.commit(4, 1, 0, *curve(2, 0.9, 0.8))
            kept, price = shelf.discounts(4), shelf.bond(4, [0, ONE])
            self.assertEqual((kept[0], price.allowance), (900_000_000, 4))
            for name in (name for name in order if name != 4):
                shelf.commit(name, 1, 0, *curve(2, 0.7, 0.6))
                shelf.release(name)
                shelf.ask(name, 3, 6_000)
                self.assertEqual((shelf.discounts(4), shelf.bond(4, [0, ONE])), (kept, price))

    def test_trees_stand_in_the_order_of_their_names(self):
        shelf = Shelf()
        for name, n in ((5, 3), (2, 2), (8, 1)):
            shelf.ask(name, n, 0)
        self.assertEqual([shelf.part(name) for name in NAMES], [(0, 0), (0, 4), (0, 0), (0, 0), (4, 9), (0, 0), (0, 0), (13, 1)])
        shelf.commit(8, 1, 0, *curve(1, 0.5))
        self.assertEqual(shelf.stored(), [0] * 13 + [500_000_000])
        shelf.release(2)
        self.assertEqual((shelf.part(5), shelf.part(8), shelf.stored()), ((0, 9), (9, 1), [0] * 9 + [500_000_000]))


class Prices(Case):
    def test_the_plain_prices(self):
        """A shelved tree's prices are those of the same fit by the plain rules, and within the allowance of the exact ones."""
        n, b, flows = 6, 700, [40_000_000] * 5 + [ONE + 40_000_000]
        rows, kinds, figures = curve(n, 0.98, 0.95, 0.93, 0.9, 0.87, 0.85)
        shelf = desk((9, 0), (n, b), (3, 0))
        shelf.commit(2, 2, 12_000, rows, kinds, figures)
        quotes = [reference.quote(2, *point) for point in zip(rows, kinds, figures)]
        tree = reference.fit(n, b, reference.spacing(2, 12_000), quotes)[0]
        bond, allowance = shelf.bond(2, flows)
        self.assertEqual((bond, allowance), (reference.bond_rows(n, b, tree, flows)[0][0], reference.price_allowance(tree)))
        self.assertLessEqual(abs(bond - reference.exact_bond_rows(n, b, tree, flows)[0][0]), allowance)
        for kind in (1, 2, 3, 4):
            option = reference.option_of_kind(kind, 4, ONE)
            found = shelf.option(2, flows, kind, 4, ONE)
            self.assertEqual(found, shelf.dated_option(2, flows, option.side, option.dates, ONE))
            self.assertEqual(found, (reference.option_value(n, b, tree, flows, option), allowance))
            self.assertLessEqual(abs(found.value - reference.exact_option(n, b, tree, flows, option)), allowance)


class CarriedNumbers(Case):
    HALF = ONE // 2

    def test_the_rule_by_hand(self):
        """From the last row, whose own greatest does not count: times it, up, and 2 more. Three steps at 1, 0.5, 1 and at 0.5, 1, 1: 2, 3, 5 and 2, 4, 4."""
        for rows, made in (([[ONE]], carried(2, ONE)), ([[1]], carried(2, 1)), ([[1], [1, 1, 1]], carried(3, 1, 1)),
                           ([[ONE], [1, self.HALF, 2], [ONE, 1, 1, 1, 1]], carried(5, ONE, self.HALF, ONE)),
                           ([[self.HALF], [1, 1, ONE], [1, 1, 1, 1, ONE]], carried(4, self.HALF, ONE, ONE)),
                           ([[self.HALF + 1], [ONE, 1, 1], [1, 1, 2, 1, 1]], carried(5, self.HALF + 1, ONE, 2))):
            self.assertEqual(tree_bounds(len(rows), 0, sum(rows, [])), made, rows)

    def test_discounts_above_one(self):
        """1.1 x 2 is 2.2, up 3, and 2 more. A fit of 1.1 and 1.1 without volatility: the state prices of row 1 are 183,333,333 twice and 733,333,333,
        one billionth short of 1.1, so that its discounts are 1,000,000,000, down."""
        high = 1_100_000_000
        self.assertEqual(tree_bounds(2, 0, [high] * 4), carried(5, high, high))
        self.assertEqual(tree_bounds(3, 6_000, [high] * 7), carried(8, high, high, high))
        shelf = desk((2, 0))
        shelf.commit(1, 1, 0, *curve(2, 1.1, 1.1))
        self.assertEqual(shelf.slot(1), (2, 2, 0, *carried(5, high, ONE)))
        self.assertEqual(shelf.bond(1, [0, ONE]).allowance, 5)

    def test_rows_from_n_on_are_0(self):
        for n in (1, 2, 59, 60):
            found = tree_bounds(n, 0, [ONE] * (n * n))
            self.assertEqual(found, carried(2 * n, *[ONE] * n))
            self.assertEqual((len(found.greatest), found.greatest[n:]), (60, [0] * (60 - n)))

    def test_only_the_needed_part_counts(self):
        self.assertEqual(tree_bounds(2, 0, [ONE, 1, 2, 3, 0, 2 ** 64 - 1]), carried(4, ONE, 3))

    def test_lent_trees_try_3_4_6_9(self):
        bad, short = [0] * 4, [0] * 3
        for n, b, discounts, number in ((0, 6_001, [], 3), (61, 6_001, short, 3), (2 + 256, 0, bad, 3), (2 ** 32 + 2, 6_001, bad, 3), (2, 6_001, short, 4),
                                        (2, 2 ** 16, bad, 4), (2, 0, short, 6), (2, 0, [], 6), (2, 0, bad, 9), (2, 0, [ONE, 1, 1_100_000_001, 1], 9),
                                        (2, 0, [ONE, 1, 1, 2 ** 64 - 1], 9), (2, 0, [0, 1, 1, 1], 9), (2, 0, [ONE, 1, 1_100_000_000, 1], 0)):
            self.assertEqual(number_of(tree_bounds, n, b, discounts), number, (n, b, discounts))

    def test_an_unfitted_tree_carries_zeros(self):
        """After its asking, after a commit that is refused, with 9 too, and after a release and another asking."""
        shelf = desk((1, 0), (2, 0))
        shelf.commit(1, 1, 0, *curve(1, 0.5))
        for factors, s, number in (((1.1, 1.3), 0, 9), ((1.2, 1.0), 0, 9), ((2.1, 1.0), 0, 7), ((1.0, 1.0), 50_001, 5), ((1.0,), 0, 6)):
            self.refused(number, shelf, 'commit', 2, 1, s, *curve(2, *factors))
            self.assertEqual(shelf.slot(2), (1, 2, 0, *NOTHING))
        shelf.commit(2, 1, 0, *curve(2))
        self.assertEqual(shelf.slot(2)[3:], carried(4, ONE, ONE + 2))
        shelf.release(2)
        self.assertEqual(shelf.slot(2), (0, 0, 0, *NOTHING))
        shelf.ask(2, 2, 0)
        self.assertEqual(shelf.slot(2), (1, 2, 0, *NOTHING))
        self.assertEqual(shelf.slot(1), (2, 1, 0, *carried(2, self.HALF)))

    def test_a_price_s_allowance_is_the_carried_one(self):
        """Also where it was altered, which the price does not judge."""
        shelf = desk((1, 0))
        shelf.commit(1, 1, 0, *curve(1, 0.5))
        shelf.trees[1] = shelf.trees[1]._replace(carried=Carried(77, [5] * 60))
        self.assertEqual(shelf.bond(1, [ONE]), Price(self.HALF, 77))
        self.assertEqual(shelf.option(1, [ONE], 2, 0, ONE), Price(self.HALF, 77))
        self.assertEqual(shelf.dated_option(1, [ONE], 2, [0], ONE), Price(self.HALF, 77))


class Strips(Case):
    def test_15_then_6_are_its_own(self):
        shelf = desk((2, 0))
        for count, number in ((0, 15), (1, 15), (17, 15)):
            for name in (2, *PAST):
                self.assertEqual(shelf.dated_strip(name, [0, ONE], 1, [], [ONE] * count), (number, []))
                self.assertEqual(shelf.strip_of_kind(name, [0, ONE], 0, 9, [ONE] * count), (number, []))
        for count in (0, 17):
            self.assertEqual(shelf.dated_strip(1, [0, ONE], 1, [], [ONE] * count), (6, []))
            self.assertEqual(shelf.strip_of_kind(1, [0, ONE], 0, 9, [ONE] * count), (6, []))

    def test_all_others_stand_in_the_answers(self):
        """Flows that are not n come before the 9 of a tree that awaits its commit."""
        shelf = desk((2, 0))
        for flows, number in (([ONE], 6), ([0, 3 * ONE], 9)):
            self.assertEqual(shelf.dated_strip(1, flows, 1, [], [5 * ONE, 0]), (0, [(number, 0, 0)] * 2))
        shelf.commit(1, 1, 0, *curve(2))
        self.assertEqual(shelf.dated_strip(1, [0, 3 * ONE], 1, [], [5 * ONE, 0]), (0, [(10, 0, 0)] * 2))
        self.assertEqual(shelf.dated_strip(1, [0, ONE], 1, [2], [5 * ONE, 0]), (0, [(11, 0, 0), (13, 0, 0)]))
        self.assertEqual(shelf.strip_of_kind(1, [0, ONE], 1, 2, [5 * ONE, 0]), (0, [(11, 0, 0)] * 2))

    def test_each_has_the_allowance_that_the_tree_carries(self):
        shelf = desk((1, 0))
        shelf.commit(1, 1, 0, *curve(1, 0.98))
        made = shelf.strip_of_kind(1, [ONE], 2, 0, [ONE, 5 * ONE, 990_000_000, 0])
        self.assertEqual(made, (0, [(0, 20_000_000, 2), (11, 0, 0), (0, 10_000_000, 2), (0, 0, 2)]))
        shelf.trees[1] = shelf.trees[1]._replace(carried=carried(7, 980_000_000))
        self.assertEqual(shelf.dated_strip(1, [ONE], 2, [0], [ONE, 5 * ONE]), (0, [(0, 20_000_000, 7), (11, 0, 0)]))


if __name__ == '__main__':
    unittest.main()
