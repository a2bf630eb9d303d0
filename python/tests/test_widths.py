"""Numbers that would pass for valid ones if they were cut to 8, 16 or 32 bits, or by ctypes, for every argument of every function: the lines of
reference/widths.txt, whose form reference/widths.py tells."""
import pathlib
import struct
import unittest
from array import array
from itertools import chain

import mixegorta as m
from mixegorta._declarations import CShelf, CSlot
from mixegorta._kept import Kept

TABLE = pathlib.Path(__file__).resolve().parents[2] / "reference/widths.txt"
PATTERN = 0xA5A5A5A5A5A5A5A5


def argument(word):
    """A number; a list [3,5,0*256] as it stands; a memory @9 as array('Q')."""
    if word.startswith("@"):
        return array("Q", [PATTERN]) * int(word[1:])
    if not word.startswith("["):
        return int(word)
    items = (item.split("*") for item in word[1:-1].split(","))
    return list(chain.from_iterable([int(value)] * int(*times or [1]) for value, *times in items))


def figure(bits):
    return struct.unpack(">d", struct.pack(">Q", bits))[0]


def points(rows, kinds, figures):
    """The points of three lists, or None where they differ in length, which no list of points does."""
    return [m.Point(row, kind, figure(bits)) for row, kind, bits in zip(rows, kinds, figures)] if len(rows) == len(kinds) == len(figures) else None


def fields(found):
    """The fields of an answer in one list."""
    return list(found) if isinstance(found, (tuple, array)) else [found]


def number_and_fields(each):
    return [each.number, 0, 0] if isinstance(each, m.Refused) else [0, *each]


def both(function):
    return lambda *given: number_and_fields(function(*given).bond) + number_and_fields(function(*given).option)


def numbered(function):
    return lambda *given: [0, *fields(function(*given))]


def quote_discount(frequency, kind, row, bits):
    return [0, m.quote_discount(frequency, (row, kind, figure(bits)))]


def curve_discounts(frequency, steps, rows, kinds, figures, memory):
    quoted = points(rows, kinds, figures)
    return None if quoted is None or len(memory) != len(quoted) else [0, *m.curve_discounts(frequency, steps, quoted)]


def fit(frequency, steps, reversion, volatility, rows, kinds, figures, discounts, state_prices, **version):
    """What a fit writes: all that is no longer the pattern. Where it is refused, its memories must be as they were."""
    quoted = points(rows, kinds, figures)
    if quoted is None:
        return None
    try:
        m.fit_into(frequency, steps, reversion, volatility, quoted, discounts, state_prices, **version)
    except m.Refused:
        assert set(discounts) | set(state_prices) == {PATTERN}
        raise
    return [0, *(number for number in chain(discounts, state_prices) if number != PATTERN)]


def fit_version(version, *given):
    return fit(*given, version=version)


def row_range(*given):
    found = m.row_range(*given)
    return [found.start, len(found)] if found else [0, 0]


def tree_bounds(*given):
    found = m.tree_bounds(*given)
    return [0, found.bound, *found.greatest]


def shelf_with(slots, memory=()):
    """The shelf of a line: status, steps, reversion, bound and greatest discounts of each name, and its memory."""
    made = (CSlot(*slots[place:place + 4], tuple(slots[place + 4:place + 64])) for place in range(0, 512, 64))
    shelf = m.Shelf()
    shelf._kept = Kept(CShelf((CSlot * 8)(*made)), m.SHELF_ROOM)
    shelf._kept.both[1].values[:len(memory)] = array("Q", memory)
    return shelf


def seen(shelf):
    state, memory = shelf._kept.both
    numbers = ((slot.status, slot.steps, slot.reversion, slot.bound, *slot.greatest) for slot in state.slots)
    return [*chain.from_iterable(numbers), *memory.values]


def shelf_part(slots, name):
    """Where a name's discounts stand: behind those of the names before it."""
    shelf = shelf_with(slots)
    count = len(shelf.discounts(name))
    return [sum(len(shelf.discounts(other)) for other in range(1, name)) if count else 0, count]


def shelf_changed(method, slots, memory, *given):
    """The shelf and its memory after a call; one that is refused must leave both as they were."""
    shelf = shelf_with(slots, memory)
    try:
        getattr(shelf, method)(*given)
    except m.Refused:
        assert seen(shelf) == slots + memory
        raise
    return [0, *seen(shelf)]


def shelf_ask(*given):
    return shelf_changed("ask", *given)


def shelf_commit(slots, memory, name, frequency, volatility, rows, kinds, figures):
    quoted = points(rows, kinds, figures)
    return None if quoted is None else shelf_changed("commit", slots, memory, name, frequency, volatility, quoted)


def shelf_release(*given):
    return shelf_changed("release", *given)


def shelf_price(method):
    return lambda slots, memory, *given: [0, *getattr(shelf_with(slots, memory), method)(*given)]


def shelf_both(method):
    return lambda slots, memory, *given: [number for each in getattr(shelf_with(slots, memory), method)(*given) for number in number_and_fields(each)]


def strip(function):
    """Sixteen numbers, values and bounds, those past the strikes 0."""
    def columns(*given):
        rows = [number_and_fields(each) for each in function(*given)]
        return [0, *chain.from_iterable(zip(*rows, *[[0, 0, 0]] * (m.MAX_STRIKES - len(rows))))]
    return columns


def shelf_strip(method):
    return lambda slots, memory, *given: strip(getattr(shelf_with(slots, memory), method))(*given)


def shown(refused):
    """Number, row, price and place of what haircut bands answer."""
    return [0, 0, 0, 0] if refused is None else [refused.number, refused.row or 0, refused.price or 0, refused.place or 0]


def caught(function, *given):
    """What a call answers, and what it raises."""
    try:
        return function(*given), None
    except m.Refused as refused:
        return 0, refused


def check_bands(*given):
    return shown(caught(m.check_bands, *given)[1])


def lending_worth(*given):
    worth, refused = caught(m.lending_worth, *given)
    return [worth, *shown(refused)]


def places(job):
    """All numbers of a job's record, in the order of its places."""
    def padded(numbers, count):
        return [*numbers, *[0] * (count - len(numbers))]
    option, dates = [0] * 5, ()
    if isinstance(job.option, m.KindOption):
        option = [8, *job.option, 0]
    if isinstance(job.option, m.DatedOption):
        dates = job.option.dates
        option = [10, job.option.side, 0, job.option.strike, len(dates)]
    kinds, bits = zip(*job.quotes) if job.quotes else ((), ())
    return [job.frequency, len(job.quotes), job.reversion, job.volatility, job.version or 0, *padded(kinds, m.MAX_JOB_STEPS), *padded(bits, m.MAX_JOB_STEPS),
            *padded(job.flows, m.MAX_JOB_STEPS), *option, *padded(dates, m.MAX_JOB_DATES)]


def job_of(numbers):
    """The job of a record's numbers, or None where no job has them in these places."""
    (frequency, steps, reversion, volatility, version), lists, option = numbers[:5], numbers[5:-m.MAX_JOB_DATES - 5], numbers[-m.MAX_JOB_DATES - 5:]
    tag, kind, expiry, strike, count, *dates = option
    kinds, bits, flows = (lists[place * m.MAX_JOB_STEPS:(place + 1) * m.MAX_JOB_STEPS][:steps] for place in range(3))
    terms = {8: m.KindOption(kind, expiry, strike), 10: m.DatedOption(kind, strike, dates[:count])}.get(tag)
    job = m.Job(frequency, reversion, volatility, list(zip(kinds, bits)), flows, terms, version or None)
    return job if places(job) == numbers else None


def read_job(given):
    return [0, *places(m.Job.read(array("B", given)))]


def write_job(numbers, memory):
    job, out = job_of(numbers), bytearray(b"\xa5" * len(memory))
    if job is None:
        return None
    try:
        count = job.write_into(out)
    except m.Refused:
        assert set(out) == {0xA5}
        raise
    assert set(out[count:]) <= {0xA5}
    return [0, count, *out[:count]]


def prices_of_job(job, discounts, state_prices):
    """The prices of a job, and its tree; a refused one must leave its memories as they were."""
    try:
        found = m.prices_of_job_into(bytes(job), discounts, state_prices)
    except m.Refused:
        assert set(discounts) | set(state_prices) == {PATTERN}
        raise
    option = [0, 0, 0] if found.option is None else [1, *found.option]
    return [0, *found.bond, *option, *(number for number in chain(discounts, state_prices) if number != PATTERN)]


def joined_reports(*given):
    """A report is its 22 numbers."""
    found = m.joined_reports(*(m.Report(*each[:3], tuple(each[3:16]), *each[16:]) for each in given))
    return [0, *found[:3], *found.refused, *found[4:]]


LISTS_OF_QUOTES = "curve_discounts", "fit", "fit_version", "shelf_commit"
CALLS = {"read_job": read_job, "write_job": write_job, "prices_of_job": prices_of_job, "joined_reports": joined_reports,
         "check_bands": check_bands, "lending_worth": lending_worth,
         "quote_discount": quote_discount, "curve_discounts": curve_discounts, "fit": fit, "fit_version": fit_version, "row_range": row_range,
         "tree_bounds": tree_bounds, "bond_and_option": both(m.bond_and_option), "bond_and_dated_option": both(m.bond_and_dated_option),
         "shelf_part": shelf_part, "shelf_ask": shelf_ask, "shelf_commit": shelf_commit, "shelf_release": shelf_release}
for name in ("bond_price", "option_price", "dated_option_price"):
    CALLS["shelf_" + name] = shelf_price(name)
for name in ("bond_and_option", "bond_and_dated_option"):
    CALLS["shelf_" + name] = shelf_both(name)
for name in ("option_strip", "option_strip_of_kind"):
    CALLS[name], CALLS["shelf_" + name] = strip(getattr(m, name)), shelf_strip(name)
for name in ("half_width", "node_count", "row_start", "discounts_needed", "state_prices_needed", "branches", "working_reversion", "step_rate",
             "continuous_rate", "state_price_error_bound", "price_error_bound", "bond_price", "option_price", "dated_option_price", "value_by_state_prices",
             "valuation_error_bound", "pair_bond_price", "pair_dated_option_price"):
    CALLS[name] = numbered(getattr(m, name))


def answer(name, given):
    """What a call answers, a refusal as its number; None where no arguments of this package say the same."""
    try:
        return CALLS[name](*given) if name in CALLS else m.sheet(*given)
    except m.Refused as refusal:
        return [refusal.number]


def lines():
    for line in TABLE.read_text(encoding="utf-8").splitlines():
        call, wanted = line.split(" = ")
        name, *words = call.split(" ")
        yield line, name, words, [each for word in wanted.split(" ") for each in (argument(word) if word.startswith("[") else [int(word)])]


class Test(unittest.TestCase):
    def test_numbers_past_a_width(self):
        called = {}
        for line, name, words, wanted in lines():
            found = answer(name, [argument(word) for word in words])
            if found is not None:
                self.assertEqual(found, wanted, line)
                called[name] = called.get(name, 0) + 1
        self.assertEqual(called.keys(), CALLS.keys())
        self.assertGreater(min(called.values()), 2)

    def test_numbers_past_64_bits(self):
        """Each number and each element of the first line of an entry, with what ctypes would lose added to it."""
        first = {name: words for _, name, words, _ in reversed(list(lines()))}
        self.assertEqual(first.keys(), CALLS.keys())
        for name, words in first.items():
            for place, word in enumerate(words):
                given = [argument(each) for each in words]
                if word.startswith("@") or name == "prices_of_job" or name == "quote_discount" and place == 3 or isinstance(given[place], list) and (
                        name in LISTS_OF_QUOTES or name.startswith("shelf_") and place < 2):
                    continue
                wide = given[place] + 2**64 if isinstance(given[place], int) else [given[place][0] + 2**64, *given[place][1:]]
                with self.subTest(name=name, place=place), self.assertRaises(OverflowError):
                    answer(name, given[:place] + [wide] + given[place + 1:])

    def test_a_job_past_a_width(self):
        """Bytes behind a whole job make it malformed, however many."""
        job = bytes.fromhex("01000101 02000101 0300020000 04000400000000 0500083FF00A3D70A3D70A 0700043B9ACA00")
        self.assertTrue(m.sheet(job).endswith("bond 1.002500000 2\n"))
        for more in (2**8, 2**16):
            self.assertEqual(answer("sheet", [job + bytes(more)]), [1])

    def test_bytes_past_8_bits(self):
        """Kinds of quotes and dates are bytes: 256 more would be cut in silence."""
        tree = 3, 0, [m.ONE] * 9, [0, 0, m.ONE]
        for call in (lambda: m.quote_discount(1, (1, 256 + m.DISCOUNT_FACTOR, 0.9)), lambda: m.Curve([(1, 256 + m.DISCOUNT_FACTOR, 0.9)]),
                     lambda: m.Curve([(2**64 + 1, m.DISCOUNT_FACTOR, 0.9)]), lambda: m.curve_discounts(1, 1, [(1, 256 + m.YEARLY_RATE, 0.9)]),
                     lambda: m.dated_option_price(*tree, m.CALL, [256 + 1], m.ONE), lambda: m.bond_and_dated_option(*tree, m.CALL, [1, 256 + 2], m.ONE),
                     lambda: m.option_strip(*tree, m.CALL, [1, 256 + 2], [m.ONE])):
            with self.assertRaises(OverflowError):
                call()


if __name__ == "__main__":
    unittest.main()
