"""A struct that is kept with its memory, columns of records, and prices that are each an answer of their own, on made-up calls."""
import contextlib
import copy
import ctypes
import os
import pickle
import subprocess
import tempfile
import threading
import unittest
from unittest import mock

import mixegorta as m
from mixegorta import _arguments, _declarations, _engine, _faults
from mixegorta._kept import Kept
from mixegorta._types import U64, PointerTo

COUNT = 5
LIBRARY = """
#include <stdint.h>
struct ring { uint64_t used; uint64_t turns; };
struct ringed { uint64_t number; struct ring ring; };
struct ringed put(struct ring ring, uint64_t memory[5], uint64_t value) {
    struct ringed answer = {value > 9 ? 10 : 0, ring};
    if (value > 9) return answer;
    for (int turn = 0; turn < 20000; turn++) memory[ring.used] = memory[ring.used] + 1;
    memory[ring.used] = value;
    answer.ring.used = (ring.used + 1) % 5;
    answer.ring.turns = ring.turns + 1;
    return answer;
}
uint64_t total(struct ring ring, const uint64_t memory[5]) {
    uint64_t sum = ring.turns;
    for (int i = 0; i < 5; i++) sum += memory[i];
    return sum;
}
"""


class Ring(ctypes.Structure):
    _fields_ = [("used", U64), ("turns", U64)]


class Ringed(ctypes.Structure):
    _fields_ = [("number", U64), ("ring", Ring)]


PUT = (Ringed, {"ring": Ring, "memory": PointerTo(U64 * COUNT), "flows": U64})
TOTAL = (U64, {"ring": Ring, "memory": PointerTo(U64 * COUNT)})


def declared(library, loaded):
    found = {"put": loaded(library).put, "total": loaded(library).total}
    found["put"].restype, found["put"].argtypes = Ringed, [Ring, ctypes.c_void_p, U64]
    found["total"].restype, found["total"].argtypes = U64, [Ring, ctypes.c_void_p]
    return found


@contextlib.contextmanager
def made_up():
    """The engine with two calls more."""
    with tempfile.TemporaryDirectory() as folder:
        library = os.path.join(folder, "made_up.so")
        subprocess.run([os.environ.get("CC", "cc"), "-shared", "-fPIC", "-x", "c", "-", "-o", library], input=LIBRARY.encode(), check=True)
        with mock.patch.dict(_declarations.DECLARATIONS, put=PUT, total=TOTAL), \
                mock.patch.dict(_faults.LOCKED, declared(library, ctypes.PyDLL)), mock.patch.dict(_faults.UNLOCKED, declared(library, ctypes.CDLL)), \
                mock.patch.dict(_faults.FINDERS, {10: ("flows", None)}):
            yield


def numbers(kept):
    return list(kept.both[1].values)


def total(kept):
    return _faults.call("total", *kept.both)


class Test(unittest.TestCase):
    def test_struct_and_memory_change_together(self):
        with made_up():
            kept = Kept(Ring(), COUNT)
            for value in (3, 4):
                kept.change("put", "ring", value)
            self.assertEqual((numbers(kept), total(kept)), ([3, 4, 0, 0, 0], 9))
            with self.assertRaises(m.FlowTooLarge) as caught:
                kept.change("put", "ring", 10)
            self.assertEqual((caught.exception.argument, total(kept)), ("flows", 9))
            for other in (copy.deepcopy(kept), pickle.loads(pickle.dumps(kept))):
                other.change("put", "ring", 5)
                self.assertEqual((numbers(other)[:3], total(other), total(kept)), ([3, 4, 5], 15, 9))

    def test_what_was_read_is_not_written_again(self):
        with made_up():
            kept = Kept(Ring(), COUNT)
            kept.change("put", "ring", 3)
            before = kept.both
            for _ in range(COUNT):
                kept.change("put", "ring", 9)
            self.assertEqual((_faults.call("total", *before), total(kept)), (4, COUNT * 9 + COUNT + 1))

    def test_an_interrupted_change_changes_nothing(self):
        """The call has written its memory when the interruption comes."""
        with made_up():
            kept = Kept(Ring(), COUNT)
            kept.change("put", "ring", 3)

            def interrupted(*given):
                _faults.call(*given)
                raise KeyboardInterrupt

            with mock.patch("mixegorta._kept.call", interrupted), self.assertRaises(KeyboardInterrupt):
                kept.change("put", "ring", 4)
            self.assertEqual((numbers(kept), total(kept)), ([3, 0, 0, 0, 0], 4))
            kept.change("put", "ring", 5)
            self.assertEqual(numbers(kept), [3, 5, 0, 0, 0])

    def test_threads_take_turns(self):
        with made_up():
            kept = Kept(Ring(), COUNT)
            threads = [threading.Thread(target=lambda: [kept.change("put", "ring", 1) for _ in range(200)]) for _ in range(4)]
            for thread in threads:
                thread.start()
            for thread in threads:
                thread.join()
            self.assertEqual(total(kept), 4 * 200 + COUNT)

    def test_columns_have_one_length(self):
        fields = (("Q", _arguments.u64),) * 2 + (("B", _arguments.u64),)
        given = _arguments.columns("bands", "Band(first, last, haircut)", [(1, 2, 3), [4, 5, 6]], fields)
        self.assertEqual([list(column) for column in given], [[1, 4], [2, 5], [3, 6]])
        self.assertEqual([column.count for column in _arguments.columns("bands", "Band", [], fields)], [0, 0, 0])
        for bands in ([(1, 2, 3), (4, 5)], [(1, 2, 3), {4, 5, 6}], [(1, 2, 3), 4]):
            with self.assertRaisesRegex(TypeError, r"^bands\[1\]: .* is no Band\(first, last, haircut\)$"):
                _arguments.columns("bands", "Band(first, last, haircut)", bands, fields)

    def test_prices_that_are_each_an_answer(self):
        bond = (2, 0, _arguments.amounts("discounts", [m.ONE] * 4), _arguments.amounts("flows", [0, m.ONE]))
        calls = [("option_price", (*bond, 1, 1, strike)) for strike in (m.ONE, 5 * m.ONE, 0)]
        columns = zip([0, 11, 0, 7], [1, 0, 2, 0], [4, 0, 4, 0])
        first, second, third = _engine._each(columns, calls)
        self.assertEqual((first, third), (m.Price(1, 4), m.Price(2, 4)))
        self.assertEqual((type(second), second.argument), (m.OptionTermsOutOfRange, "strike"))


if __name__ == "__main__":
    unittest.main()
