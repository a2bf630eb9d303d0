"""Amounts, buffers that are lent without a copy, and the interpreter's lock."""
import contextlib
import ctypes
import threading
import unittest
from array import array
from decimal import Decimal
from fractions import Fraction
from unittest import mock

import mixegorta as m
from mixegorta import ONE, Point, Price, _faults

try:
    import numpy
except ImportError:
    numpy = None

FLAT = [ONE] * 4
CURVE = [Point(row, m.DISCOUNT_FACTOR, 0.98**row) for row in (1, 2)]


@contextlib.contextmanager
def recorded():
    """The calls of the engine meanwhile: name, whether the lock was kept, and the arguments."""
    calls, tables = [], {True: _faults.LOCKED, False: _faults.UNLOCKED}
    kept = {locked: dict(table) for locked, table in tables.items()}

    def recording(name, locked, function):
        def call(*arguments):
            calls.append((name, locked, arguments))
            return function(*arguments)
        return call

    for locked, table in tables.items():
        table.update({name: recording(name, locked, function) for name, function in kept[locked].items()})
    try:
        yield calls
    finally:
        for locked, table in tables.items():
            table.update(kept[locked])


class Amounts(unittest.TestCase):
    def test_exact(self):
        for amount, wanted in ((7, 7), (0, 0), ("1.0025", 1_002_500_000), (Decimal("1.0025"), 1_002_500_000), ("0.000000001", 1), ("1", ONE),
                               (Decimal(2), 2 * ONE), ("1.50000000000000000000000000000000000", 1_500_000_000), (" 1e-9 ", 1), ("-0.1", -ONE // 10),
                               (Decimal("0E-40"), 0), (True, 1)):
            self.assertEqual(m.billionths(amount), wanted)

    def test_inexact_or_no_number(self):
        for amount in ("0.0000000001", Decimal("1.0000000005"), "1e-999999", Decimal(1) / 3):
            with self.assertRaises(m.InexactAmount):
                m.billionths(amount)
        for amount in ("", "1,01", "one", "nan", Decimal("Infinity")):
            with self.assertRaises(ValueError):
                m.billionths(amount)
        with self.assertRaises(OverflowError):
            m.billionths("1e999999")

    def test_wherever_billionths_are_asked_for(self):
        self.assertEqual(m.bond_price(2, 0, ["1"] * 4, [0, "1"]), Price(ONE, 4))
        self.assertEqual(m.bond_price(2, 0, FLAT, (Decimal("0.04"), "1.04")), m.bond_price(2, 0, FLAT, (40_000_000, 1_040_000_000)))
        self.assertEqual(m.option_price(2, 0, FLAT, [0, ONE], m.EUROPEAN_CALL, 1, "0.9"), Price(100_000_000, 4))
        self.assertEqual(m.dated_option_price(2, 0, FLAT, [0, ONE], m.CALL, [1], Decimal("0.9")), Price(100_000_000, 4))
        self.assertEqual(m.value_by_state_prices(["0.5"], ["0.3"]), 150_000_000)
        self.assertEqual(m.step_rate("1.000000001"), -1)
        tree = m.Tree(1, 2, 0, 0, CURVE)
        self.assertEqual(tree.value(2, ["1"] * 5), tree.value(2, [ONE] * 5))

    def test_floats_name_the_argument(self):
        calls = (("strike", m.option_price, 2, 0, FLAT, [0, 0], 1, 1, 0.9), ("flows[1]", m.bond_price, 2, 0, FLAT, [0, 1.0]),
                 ("discounts[0]", m.bond_price, 2, 0, [1.0] * 4, [0, 0]), ("payoffs[2]", m.value_by_state_prices, [0] * 3, [0, 0, 0.5]),
                 ("flows[0]", m.bond_price, 2, 0, FLAT, array("d", [1.0, 1.0])), ("discount", m.step_rate, 0.97),
                 ("dates[0]", m.dated_option_price, 2, 0, FLAT, [0, 0], 1, [1.0], 0), ("steps", m.bond_price, 2.0, 0, FLAT, [0, 0]),
                 ("flows", m.bond_price, 2, 0, FLAT, "12"), ("flows", m.bond_price, 2, 0, FLAT, 12),
                 ("points[1]", m.Tree, 1, 2, 0, 0, [CURVE[0], Point(2, 5, "1.0")]), ("points[0]", m.Tree, 1, 2, 0, 0, [(1, 5), (2, 5)]))
        for name, function, *arguments in calls:
            with self.assertRaisesRegex(TypeError, "^" + name.replace("[", r"\[") + ": "):
                function(*arguments)

    def test_numbers_that_do_not_fit_name_the_argument(self):
        for name, function, *arguments in (("strike", m.option_price, 2, 0, FLAT, [0, 0], 1, 1, "-1"), ("row", m.half_width, 0, -1),
                                           ("flows[1]", m.bond_price, 2, 0, FLAT, [0, 2**64]), ("points[1]", m.Curve, [(1, 5, 1.0), (2, 256, 1.0)])):
            with self.assertRaisesRegex(OverflowError, "^" + name.replace("[", r"\[") + ": "):
                function(*arguments)

    def test_what_is_no_list_of_numbers_is_refused(self):
        """A dict and a set iterate over numbers that nobody means, a masked array holds them."""
        tree, point = m.Tree(1, 2, 0, 0, CURVE), CURVE[0]
        flows = {1: 50_000_000, 2: ONE}
        for given in (flows, flows.keys(), {1, 2}, frozenset((1, 2)), "12", 12, None, Masked([0, ONE])):
            for name, function, *arguments in (("flows", m.bond_price, 2, 0, FLAT), ("payoffs", tree.value, 0), ("discounts", m.row_range),
                                               ("payoffs", m.value_by_state_prices, [0, 0]), ("dates", m.dated_option_price, 2, 0, FLAT, [0, 0], 1)):
                more = {"row_range": ([], 1, 1, 0, 0), "dated_option_price": (0,)}.get(function.__name__, ())
                with self.assertRaisesRegex(TypeError, f"^{name}: [^\n]+$"):
                    function(*arguments, given, *more)
        for given in ({1: CURVE}, {point}, "ab", 12, None, [point, 12], [point, "abc"], [point, {1: 1, 2: 2, 3: 3}], [point, {2, 5, 1.0}]):
            with self.assertRaisesRegex(TypeError, r"^points(\[1\])?: [^\n]+$"):
                m.Curve(given)
        for given in ("abc", {1: 1, 5: 5, 1.5: 1}, {1, 5, 1.5}, 12, (1, 5)):
            with self.assertRaisesRegex(TypeError, r"^point: [^\n]+$"):
                m.quote_discount(1, given)
        self.assertEqual(m.bond_price(2, 0, FLAT, flows.values()), m.bond_price(2, 0, FLAT, [50_000_000, ONE]))
        self.assertEqual(m.bond_price(2, 0, FLAT, Masked([0, ONE], masked=False)), m.bond_price(2, 0, FLAT, [0, ONE]))
        if numpy:
            with self.assertRaisesRegex(TypeError, "^flows: "):
                m.bond_price(2, 0, FLAT, numpy.ma.array([0, ONE], mask=[0, 1], dtype=numpy.uint64))

    def test_numbers_of_too_many_digits(self):
        for number in (10**5_000, -10**5_000):
            for name, function, *arguments in (("row", m.half_width, 0, number), ("strike", m.option_price, 2, 0, FLAT, [0, 0], 1, 1, number),
                                               ("flows[1]", m.bond_price, 2, 0, FLAT, [0, number])):
                with self.assertRaisesRegex(OverflowError, "^" + name.replace("[", r"\[") + ": a number of [0-9]+ bits does not fit"):
                    function(*arguments)
        with self.assertRaisesRegex(OverflowError, "^amount: 9{77}\\.\\.\\. does not fit"):
            m.billionths("9" * 5_000)
        with self.assertRaisesRegex(TypeError, "^amount: a Fraction of too many digits is no amount"):
            m.billionths(Fraction(10**5_000, 3))
        self.assertEqual([m.billionths(zero) for zero in ("0e50", "-0e50", Decimal("0e999999"), "0e-999999")], [0] * 4)


class Masked(array):
    """As much of a masked array as is looked at: a buffer with a mask."""

    def __new__(cls, numbers, masked=True):
        made = super().__new__(cls, "Q", numbers)
        made.mask = mock.Mock(any=lambda: masked)
        return made

    def filled(self):
        return list(self)


def lenders():
    """Ways to hold four 64-bit numbers, each with the address of the first."""
    listed = array("Q", FLAT)
    yield listed, listed.buffer_info()[0]
    yield memoryview(listed).toreadonly(), listed.buffer_info()[0]
    longer = array("L", [7] + FLAT)
    yield memoryview(longer)[1:], longer.buffer_info()[0] + 8
    numbers = (ctypes.c_uint64 * 4)(*FLAT)
    yield numbers, ctypes.addressof(numbers)
    if numpy:
        matrix = numpy.array([FLAT, FLAT], dtype=numpy.uint64)
        yield matrix[1], matrix[1].ctypes.data


class Buffers(unittest.TestCase):
    def test_lent_in_without_a_copy(self):
        for lent, address in lenders():
            with recorded() as calls:
                self.assertEqual(m.bond_price(2, 0, lent, [0, ONE]), Price(ONE, 4))
            self.assertEqual([(name, locked, arguments[2:4]) for name, locked, arguments in calls], [("bond_price", True, (address, 4))])

    def test_lent_out_without_a_copy(self):
        wanted = m.Tree(1, 2, 0, 0, CURVE)
        for lent, address in lenders():
            state_prices = array("Q", bytes(72))
            if memoryview(lent).readonly:
                with self.assertRaisesRegex(TypeError, "^discounts: "):
                    m.fit_into(1, 2, 0, 0, CURVE, lent, state_prices)
                continue
            with recorded() as calls:
                m.fit_into(1, 2, 0, 0, CURVE, lent, state_prices)
            self.assertEqual((calls[0][1], calls[0][2][11:13]), (True, (address, 4)))
            self.assertEqual((list(lent), list(state_prices)), (list(wanted.discounts), list(wanted.state_prices)))

    def test_copied_where_the_layout_does_not_fit(self):
        spaced = memoryview(array("Q", [n for one in FLAT for n in (one, 0)]))[::2]
        shifted = memoryview(bytearray(b"\0" + array("Q", FLAT).tobytes()))[1:].cast("Q")
        signed = array("q", FLAT)
        for given in (spaced, signed, shifted, tuple(FLAT), iter(FLAT), *([numpy.array(FLAT, dtype=">u8")] if numpy else ())):
            kept = m._engine.amounts("discounts", given)
            self.assertFalse(kept.lent)
            self.assertEqual(list(kept), FLAT)
        for memory in (spaced, signed, shifted, FLAT, b"\0" * 32):
            with self.assertRaisesRegex(TypeError, "^discounts: "):
                m.fit_into(1, 2, 0, 0, CURVE, memory, array("Q", bytes(72)))

    def test_memories_apart(self):
        both = array("Q", bytes(8 * 13))
        view = memoryview(both)
        m.fit_into(1, 2, 0, 0, CURVE, view[:4], view[4:])
        for discounts, state_prices in ((both, both), (view[:5], view[4:]), (view[4:], view[:5]), (view, view[2:4])):
            with self.assertRaises(ValueError):
                m.fit_into(1, 2, 0, 0, CURVE, discounts, state_prices)
        out = bytearray(m.SHEET_ROOM)
        with self.assertRaises(ValueError):
            m.sheet_into(memoryview(out)[:10], out)

    def test_empty_ones_have_no_address(self):
        for empty in ([], array("Q"), b"", memoryview(array("Q"))):
            with recorded() as calls, self.assertRaises(m.Refused):
                m.bond_price(2, 0, FLAT, empty)
            self.assertEqual(calls[0][2][4:], (0, 0))

    def test_a_lent_array_is_whole_again(self):
        lent = array("Q", FLAT)
        m.bond_price(2, 0, lent, [0, 0])
        lent.append(0)
        try:
            m.bond_price(3, 0, lent, [0, 0])
        except m.Refused:
            lent.append(0)
        with self.assertRaises(m.Refused):
            m.bond_price(3, 0, memoryview(lent), [0, 0])

    def test_views_of_a_tree(self):
        tree = m.Tree(1, 2, 0, 0, CURVE)
        self.assertEqual((tree.discounts.readonly, tree.discounts.format, len(tree.state_prices)), (True, "Q", 9))
        with recorded() as calls:
            m.bond_price(2, 0, tree.discounts, [0, 0])
        self.assertEqual(calls[0][2][2], tree._discounts.address)
        if numpy:
            self.assertEqual(numpy.asarray(tree.discounts).ctypes.data, tree._discounts.address)


class Lock(unittest.TestCase):
    def test_kept_where_a_caller_lends_and_given_up_elsewhere(self):
        tree, lent, copied = m.Tree(1, 2, 0, 0, CURVE), array("Q", [0, ONE]), [0, ONE]
        calls = (("fit_version", False, m.Tree, 1, 2, 0, 0, CURVE),
                 ("bond_price", False, tree.bond_price, copied), ("bond_price", True, tree.bond_price, lent),
                 ("bond_price", False, m.bond_price, 2, 0, FLAT, copied), ("bond_price", True, m.bond_price, 2, 0, tree.discounts, copied),
                 ("dated_option_price", False, tree.dated_option_price, copied, m.CALL, b"\1", ONE),
                 ("dated_option_price", True, tree.dated_option_price, copied, m.CALL, bytearray([1]), ONE),
                 ("half_width", True, m.half_width, 0, 1))
        for name, locked, function, *arguments in calls:
            with recorded() as made:
                function(*arguments)
            self.assertEqual([call[:2] for call in made if call[0] == name], [(name, locked)])

    def test_threads_agree(self):
        curve = m.Curve(CURVE)
        wanted, found = m.Tree(1, 2, 0, 0, curve).bond_price([0, ONE]), []

        def work():
            found.extend({m.Tree(1, 2, 0, 0, curve).bond_price([0, ONE]) for _ in range(100)})

        threads = [threading.Thread(target=work) for _ in range(4)]
        for thread in threads:
            thread.start()
        for thread in threads:
            thread.join()
        self.assertEqual(found, [wanted] * 4)


class Trees(unittest.TestCase):
    def test_a_curve_is_its_points(self):
        for points in (CURVE, tuple(CURVE), m.Curve(CURVE)):
            tree, wanted = m.Tree(1, 2, 1000, 5000, points), m.Tree(1, 2, 1000, 5000, list(CURVE))
            self.assertEqual((tree.discounts, tree.state_prices), (wanted.discounts, wanted.state_prices))

    def test_numbers_of_a_tree(self):
        m.Tree(1, 2, 0, 0, CURVE)
        for name, *numbers in (("steps", 1, 2.0, 0, 0), ("reversion", 1, 2, 0.0, 0), ("frequency", 1.0, 2, 0, 0), ("volatility", 1, 2, 0, 0.0)):
            with self.assertRaisesRegex(TypeError, f"^{name}: "):
                m.Tree(*numbers, CURVE)
        if numpy:
            self.assertEqual(repr(m.Tree(*numpy.array([1, 2, 0, 0]), CURVE)), repr(m.Tree(1, 2, 0, 0, CURVE)))


if __name__ == "__main__":
    unittest.main()
