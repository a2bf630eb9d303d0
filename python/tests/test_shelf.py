"""Requests (vii) and (viii) of document 02: which calls of a shelf are accepted, which cause comes first, what a call leaves as it was, that a shelved
tree is the tree that a fit of its own gives, and what it carries. Then shelves that no calls lead to, and threads."""
import copy
import pickle
import random
import threading
import unittest
from array import array

import mixegorta as m
from mixegorta import ONE
from mixegorta._declarations import CShelf, CSlot
from mixegorta._kept import Kept

NAMES = range(1, m.MAX_NAME + 1)
OUTSIDE = 0, 9, 258, 2**16 + 2, 2**32 + 2, 2**64 - 1
CALL, DATED = (m.AMERICAN_CALL, 1, ONE), (m.PUT, [0, 1], ONE)
NOTHING = m.TreeErrorBounds(0, (0,) * 60)


def falling(part, steps):
    return [m.Point(row, m.DISCOUNT_FACTOR, part**row) for row in range(1, steps + 1)]


def seen(shelf):
    """Each name's tree, what it carries, and its discounts."""
    return {name: (shelf.tree(name), shelf.bounds(name), shelf.discounts(name)) for name in NAMES}


def by_the_rule(steps, reversion, discounts):
    """What a fitted tree carries: each row's greatest discount, and from the last row back greatest x later / one, up, plus 2."""
    rows = [discounts[m.row_start(reversion, row):][:m.node_count(reversion, row)] for row in range(steps)]
    greatest, bound = [max(row) for row in rows], 0
    for each in reversed(greatest):
        bound = -(-each * bound // ONE) + 2
    return m.TreeErrorBounds(bound, (*greatest, *[0] * (60 - steps)))


def desk():
    """A fitted tree of two steps under 2, and one that awaits its commit under 5."""
    shelf = m.Shelf()
    shelf.ask(2, 2, 0)
    shelf.ask(5, 2, 0)
    shelf.commit(2, 1, 10_000, falling(0.97, 2))
    return shelf


def altered(*slots, memory=()):
    """A shelf with slots of the caller's own under the names 1 and so on."""
    shelf = m.Shelf()
    shelf._kept = Kept(CShelf((CSlot * 8)(*(CSlot(*slot) for slot in slots))), m.SHELF_ROOM)
    shelf._kept.both[1].values[:len(memory)] = memoryview(array("Q", memory))
    return shelf


class Model:
    """The rules of (vii) and (viii) without places: under each name steps, reversion, whether it is fitted, and a list of discounts; or nothing."""

    def __init__(self):
        self.trees = {}

    def carried(self):
        return {name: by_the_rule(steps, reversion, discounts) if fitted else NOTHING
                for name, (steps, reversion, fitted, discounts) in self.trees.items()}

    def held(self):
        return sum(len(discounts) for *_, discounts in self.trees.values())

    def ask(self, name, steps, reversion):
        if name not in NAMES or name in self.trees:
            raise m.Refused(15)
        nodes = m.discounts_needed(steps, reversion)
        if self.held() + nodes > 3_600:
            raise m.Refused(14)
        self.trees[name] = steps, reversion, False, [0] * nodes

    def commit(self, name, frequency, volatility, points):
        if name not in self.trees or self.trees[name][2]:
            raise m.Refused(15)
        steps, reversion, *_ = self.trees[name]
        self.trees[name] = steps, reversion, True, list(m.Tree(frequency, steps, reversion, volatility, points).discounts)

    def release(self, name):
        if self.trees.pop(name, None) is None:
            raise m.Refused(15)


def number_of(shelf, method, *given):
    """The number of a call, 0 where it is accepted."""
    try:
        getattr(shelf, method)(*given)
    except m.Refused as refusal:
        return refusal.number
    return 0


class Checks(unittest.TestCase):
    def refused(self, number, argument, shelf, method, name, *given, row=None):
        """The refusal of a call, which leaves every name as it was."""
        before = bytes(shelf._kept.both[0]), bytes(shelf._kept.both[1].values)
        with self.assertRaises(m.Refused) as caught:
            getattr(shelf, method)(name, *given)
        refusal = caught.exception
        self.assertEqual((refusal.number, refusal.argument, refusal.row), (number, argument, row), (method, name, given))
        self.assertIs(type(refusal), m.refusals.CLASSES[number])
        self.assertEqual((bytes(shelf._kept.both[0]), bytes(shelf._kept.both[1].values)), before)

    def accepted(self, shelf, method, name, *given):
        """A call that changes no other name."""
        before = seen(shelf)
        getattr(shelf, method)(name, *given)
        after = seen(shelf)
        self.assertEqual([other for other in NAMES if other != name and before[other] != after[other]], [])


class Calls(Checks):
    def test_the_empty_shelf(self):
        shelf = m.Shelf()
        self.assertEqual(seen(shelf), {name: (None, None, array("Q")) for name in NAMES})
        self.assertEqual((shelf.nodes_held, repr(shelf)), (0, "<Shelf {}>"))
        for name in OUTSIDE:
            self.assertEqual((shelf.tree(name), shelf.bounds(name), shelf.discounts(name)), (None, None, array("Q")))

    def test_causes_of_an_asking(self):
        shelf = desk()
        for name in (2, 5, *OUTSIDE):
            self.refused(15, "name", shelf, "ask", name, 61, 6_001)
        for number, argument, *given in ((3, "steps", 0, 6_001), (3, "steps", 61, 6_001), (4, "reversion", 60, 6_001), (14, "steps", 60, 0)):
            self.refused(number, argument, shelf, "ask", 1, *given)
        self.assertEqual(shelf.nodes_held, 8)

    def test_causes_of_a_commit(self):
        shelf = desk()
        shelf.ask(1, 13, 0)
        points = falling(0.97, 13)
        mistyped, jump = (points[:4] + [points[4]._replace(figure=figure)] + points[5:] for figure in (97.0, 1.5))
        for name in (2, 3, *OUTSIDE):
            self.refused(15, "name", shelf, "commit", name, 3, 50_001, mistyped[:2])
        self.refused(2, "frequency", shelf, "commit", 1, 3, 50_001, mistyped[:2])
        self.refused(5, "volatility", shelf, "commit", 1, 1, 50_001, mistyped[:2])
        self.refused(6, "points", shelf, "commit", 1, 1, 50_000, mistyped[:2])
        self.refused(6, "points", shelf, "commit", 1, 1, 50_000, mistyped[1:] + mistyped[:1], row=1)
        self.refused(7, "points", shelf, "commit", 1, 1, 50_000, mistyped, row=5)
        self.refused(8, "volatility", shelf, "commit", 1, 1, 50_000, jump)
        self.refused(9, "points", shelf, "commit", 1, 1, 10_000, jump, row=5)
        self.assertEqual(shelf.discounts(1), array("Q", [0] * 169))
        self.accepted(shelf, "commit", 1, 1, 1_000, points)
        self.assertEqual(shelf.discounts(1), array("Q", m.Tree(1, 13, 0, 1_000, points).discounts))

    def test_a_fitted_tree_takes_no_second_commit(self):
        shelf, points = desk(), falling(0.95, 2)
        self.refused(15, "name", shelf, "commit", 2, 1, 10_000, points)
        self.accepted(shelf, "release", 2)
        self.refused(15, "name", shelf, "release", 2)
        self.refused(15, "name", shelf, "commit", 2, 1, 10_000, points)
        self.accepted(shelf, "ask", 2, 2, 0)
        self.assertEqual(shelf.tree(2), m.ShelvedTree(2, 0, False))
        self.accepted(shelf, "commit", 2, 1, 10_000, points)
        self.assertEqual(shelf.tree(2), m.ShelvedTree(2, 0, True))

    def test_causes_of_a_price(self):
        shelf, long, large = desk(), [0, 0, 3 * ONE], [0, 3 * ONE]
        prices = (("bond_price",), ("option_price", *CALL), ("dated_option_price", *DATED))
        for method, *terms in prices:
            for name in (1, *OUTSIDE):
                self.refused(15, "name", shelf, method, name, long, *terms)
            for name in (2, 5):
                self.refused(6, "flows", shelf, method, name, long, *terms)
            self.refused(9, "name", shelf, method, 5, large, *terms)
            self.refused(10, "flows", shelf, method, 2, large, *terms, row=2)
        self.refused(11, "expiry", shelf, "option_price", 2, [0, ONE], m.EUROPEAN_CALL, 2, ONE)
        self.refused(11, "side", shelf, "dated_option_price", 2, [0, ONE], 3, [], ONE)
        self.refused(13, "dates", shelf, "dated_option_price", 2, [0, ONE], m.CALL, [1, 1], ONE)
        for both in (shelf.bond_and_option(5, large, *CALL), shelf.bond_and_dated_option(5, large, *DATED)):
            self.assertEqual([(each.number, each.argument) for each in both], [(9, "name")] * 2)
        bond, option = shelf.bond_and_option(2, [0, ONE], m.AMERICAN_CALL, 2, ONE)
        self.assertEqual((bond, option.number, option.argument), (shelf.bond_price(2, [0, ONE]), 11, "expiry"))

    def test_values_above_their_limit(self):
        shelf = m.Shelf()
        shelf.ask(4, 9, 0)
        shelf.commit(4, 1, 0, falling(1.05, 9))
        self.refused(12, "flows", shelf, "bond_price", 4, [2 * ONE] * 9)
        self.refused(12, "flows", shelf, "option_price", 4, [2 * ONE] * 9, m.EUROPEAN_PUT, 8, 4 * ONE)

    def test_exactly_3600_nodes_fit(self):
        shelf = m.Shelf()
        shelf.ask(8, 60, 0)
        self.assertEqual((shelf.nodes_held, m.SHELF_ROOM), (3_600, 3_600))
        for name in range(1, 8):
            self.refused(14, "steps", shelf, "ask", name, 1, 0)
        shelf.release(8)
        self.accepted(shelf, "ask", 3, 48, 0)
        self.accepted(shelf, "ask", 1, 36, 0)
        self.assertEqual(shelf.nodes_held, 3_600)
        self.refused(14, "steps", shelf, "ask", 2, 1, 6_000)

    def test_a_new_tree_is_all_0(self):
        """Beside any memory at first, and where released trees stood."""
        shelf = altered(memory=range(1, m.SHELF_ROOM + 1))
        for name in (3, 1, 2):
            self.accepted(shelf, "ask", name, 12, 0)
            self.assertEqual(set(shelf.discounts(name)), {0})
            self.accepted(shelf, "commit", name, 4, 1_000, falling(0.99, 12))
        for name in (1, 3):
            self.accepted(shelf, "release", name)
        for name in (8, 1):
            self.accepted(shelf, "ask", name, 20, 0)
            self.assertEqual(shelf.discounts(name), array("Q", [0] * 400))

    def test_prices_are_those_of_the_tree_alone(self):
        shelf, points, flows = desk(), falling(0.985, 12), [20_000_000] * 11 + [1_020_000_000]
        shelf.ask(3, 12, 700)
        shelf.commit(3, 2, 8_000, points)
        shelf.release(2)
        alone, before = m.Tree(2, 12, 700, 8_000, points), seen(shelf)
        self.assertEqual(shelf.discounts(3), array("Q", alone.discounts))
        self.assertEqual(shelf.bond_price(3, flows), m.bond_price(12, 700, shelf.discounts(3), flows))
        for method, *terms in (("bond_price",), ("option_price", m.AMERICAN_PUT, 9, "1.01"), ("bond_and_option", m.EUROPEAN_CALL, 9, ONE),
                               ("dated_option_price", m.PUT, b"\2\4\6", ONE), ("bond_and_dated_option", m.CALL, [3, 9], "0.99")):
            self.assertEqual(getattr(shelf, method)(3, array("Q", flows), *terms), getattr(alone, method)(flows, *terms), method)
        self.assertEqual(seen(shelf), before)

    def test_a_tree_carries_its_bounds_from_commit_to_release(self):
        shelf, rising = desk(), falling(1.01, 12)
        jump = rising[:5] + [rising[5]._replace(figure=1.6)] + rising[6:]
        shelf.ask(1, 12, 700)
        self.refused(9, "points", shelf, "commit", 1, 1, 8_000, jump, row=6)
        self.assertEqual(shelf.bounds(1), NOTHING)
        self.accepted(shelf, "commit", 1, 1, 8_000, rising)
        alone, carried = m.Tree(1, 12, 700, 8_000, rising), shelf.bounds(1)
        self.assertEqual(carried, by_the_rule(12, 700, list(alone.discounts)))
        self.assertEqual((carried, carried.bound), (alone.bounds(), alone.price_error_bound()))
        self.assertEqual(carried, m.tree_bounds(12, 700, shelf.discounts(1)))
        self.assertGreater(carried.bound, 2 * 12)
        for price in (shelf.bond_price(1, [0] * 12), *shelf.bond_and_option(1, [0] * 11 + [ONE], *CALL), shelf.dated_option_price(1, [0] * 12, *DATED)):
            self.assertEqual(price.bound, carried.bound)
        self.accepted(shelf, "release", 1)
        self.assertEqual((shelf.bounds(1), bytes(shelf._kept.both[0].slots[0])), (None, bytes(512)))
        self.accepted(shelf, "ask", 1, 3, 0)
        self.assertEqual(shelf.bounds(1), NOTHING)
        self.accepted(shelf, "commit", 1, 1, 0, falling(0.97, 3))
        self.assertEqual(shelf.bounds(1).bound, 6)

    def test_random_calls_against_a_list_for_each_name(self):
        given, shelf, model, numbers = random.Random(7), m.Shelf(), Model(), set()
        for _ in range(1_500):
            name, steps = given.randint(0, 9), given.choice((1, 2, 5, 30, 45, 61))
            reversion, frequency = given.choice((0, 0, 900, 6_001)), given.choice((1, 12, 12, 5))
            points = falling(0.99, given.choice((steps, *model.trees.get(name, (2,))[:1])))
            method, arguments = given.choice((("ask", (steps, reversion)), ("commit", (frequency, 2_000, points)), ("release", ())))
            number, wanted = number_of(shelf, method, name, *arguments), number_of(model, method, name, *arguments)
            self.assertEqual(number, wanted)
            numbers.add((method, number))
            self.assertEqual({name: (*shelf.tree(name), list(shelf.discounts(name))) for name in NAMES if shelf.tree(name)}, model.trees)
            self.assertEqual({name: shelf.bounds(name) for name in NAMES if shelf.tree(name)}, model.carried())
            self.assertEqual(shelf.nodes_held, model.held())
        self.assertLessEqual({("ask", number) for number in (0, 3, 4, 14, 15)} | {("commit", 2), ("commit", 15), ("release", 15)}, numbers)


class Altered(Checks):
    """Shelves that no calls lead to get an answer, or 15 for every name with nothing changed."""

    def test_broken_slots(self):
        for slot in ((3, 2, 0), (2**64 - 1, 2, 0), (2**32 + 1, 2, 0), (1, 70, 0), (2, 0, 0), (1, 2**32 + 2, 0), (2, 2, 6_001), (1, 2, 2**64 - 1)):
            shelf = altered((2, 2, 0), slot, memory=[ONE] * 8)
            for name in (*NAMES, *OUTSIDE):
                self.refused(15, "name", shelf, "ask", name, 1, 0)
                self.refused(15, "name", shelf, "commit", name, 1, 0, falling(0.97, 2))
                self.refused(15, "name", shelf, "release", name)
                self.refused(15, "name", shelf, "bond_price", name, [0, ONE])
                self.refused(15, "name", shelf, "option_price", name, [0, ONE], *CALL)
                self.refused(15, "name", shelf, "dated_option_price", name, [0, ONE], *DATED)
                self.assertEqual([each.number for each in shelf.bond_and_option(name, [0, ONE], *CALL)], [15, 15])
                self.assertEqual([each.number for each in shelf.bond_and_dated_option(name, [0, ONE], *DATED)], [15, 15])
                self.assertEqual(len(shelf.discounts(name)), 0)

    def test_too_many_nodes(self):
        shelf = altered((2, 60, 0), (0, 0, 0), (1, 1, 0), memory=[ONE] * 3_600)
        for name in NAMES:
            self.refused(15, "name", shelf, "release", name)
            self.refused(15, "name", shelf, "bond_price", name, [0] * 60)
        whole = altered((2, 60, 0), memory=[ONE] * 3_600)
        self.assertEqual(whole.bond_price(1, [0] * 59 + [ONE]).value, ONE)

    def test_an_altered_memory_is_answered(self):
        """A fitted tree of zeros is refused as lent zeros are; one that awaits its commit is priced by what stands there, as lent discounts are."""
        shelf = altered((2, 2, 0), (1, 2, 0), memory=[0] * 4 + [ONE] * 4)
        self.refused(9, "name", shelf, "bond_price", 1, [0, ONE])
        self.assertEqual(shelf.bond_price(2, [0, ONE]), m.Price(ONE, 0))
        shelf = altered((2, 9, 0), memory=[1_100_000_000] * 81)
        self.refused(12, "strike", shelf, "option_price", 1, [0] * 9, m.EUROPEAN_PUT, 8, 4 * ONE)

    def test_a_bound_comes_back_as_it_stands(self):
        for bound in (0, 3, 5, 2**64 - 1):
            shelf = altered((2, 2, 0, bound, (2**64 - 1,) * 60), memory=[ONE] * 4)
            self.assertEqual(shelf.bounds(1), (bound, (2**64 - 1,) * 60))
            self.assertEqual(shelf.bond_price(1, [0, ONE]), m.Price(ONE, bound))
            self.assertEqual((shelf.option_price(1, [0, ONE], *CALL).bound, shelf.dated_option_price(1, [0, ONE], *DATED).bound), (bound, bound))
            for both in (shelf.bond_and_option(1, [0, ONE], *CALL), shelf.bond_and_dated_option(1, [0, ONE], *DATED)):
                self.assertEqual([each.bound for each in both], [bound, bound])
            self.refused(6, "flows", shelf, "bond_price", 1, [0])
            shelf.release(1)
            self.assertEqual(bytes(shelf._kept.both[0]), bytes(4_096))

    def test_calls_write_a_slot_whole(self):
        """What stood in a slot that has no tree, or in one that awaits its commit, is in none that a call writes."""
        shelf = altered((0, 0, 0, 99, (99,) * 60), (1, 2, 0, 99, (99,) * 60))
        shelf.ask(1, 2, 0)
        shelf.commit(2, 1, 0, falling(0.97, 2))
        self.assertEqual((shelf.bounds(1), shelf.bounds(2)), (NOTHING, m.tree_bounds(2, 0, shelf.discounts(2))))

    def test_a_slot_without_a_tree_holds_nothing(self):
        shelf = altered((0, 70, 9_999), (2, 2, 0), memory=[ONE] * 4)
        self.assertEqual((shelf.nodes_held, shelf.bond_price(2, [0, ONE]).value), (4, ONE))
        shelf.ask(1, 1, 0)
        self.assertEqual((shelf.tree(1), list(shelf.discounts(2))), (m.ShelvedTree(1, 0, False), [ONE] * 4))


class Sharing(unittest.TestCase):
    def test_copies_go_their_own_way(self):
        shelf = desk()
        for other in (copy.copy(shelf), copy.deepcopy(shelf), pickle.loads(pickle.dumps(shelf))):
            self.assertEqual(seen(other), seen(shelf))
            other.release(2)
            self.assertEqual((other.tree(2), shelf.tree(2)), (None, m.ShelvedTree(2, 0, True)))

    def test_discounts_outlive_a_move(self):
        shelf = desk()
        before, wanted = shelf.discounts(2), list(shelf.discounts(2))
        shelf.ask(1, 30, 0)
        self.assertEqual((list(before), list(shelf.discounts(2))), (wanted, wanted))
        shelf.release(2)
        self.assertEqual(list(before), wanted)

    def test_a_shelf_is_asked_in_the_midst_of_a_call(self):
        """Flows that use the shelf while they are read: no thread waits for itself, and the price is that of one state."""
        shelf = desk()

        def flows():
            shelf.release(5)
            yield from (0, ONE)

        self.assertEqual(shelf.bond_price(2, flows()), shelf.bond_price(2, [0, ONE]))

    def test_threads(self):
        """One thread asks and releases under smaller names, which moves the tree that the others price."""
        shelf, found, stop = desk(), set(), threading.Event()
        wanted = shelf.bond_price(2, [0, ONE])

        def price():
            while not stop.is_set():
                found.add((shelf.bond_price(2, [0, ONE]), tuple(shelf.discounts(2))))

        threads = [threading.Thread(target=price) for _ in range(3)]
        for thread in threads:
            thread.start()
        try:
            for _ in range(300):
                shelf.ask(1, 40, 0)
                shelf.release(1)
        finally:
            stop.set()
            for thread in threads:
                thread.join()
        self.assertLessEqual(found, {(wanted, tuple(shelf.discounts(2)))})


if __name__ == "__main__":
    unittest.main()
