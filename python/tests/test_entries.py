"""Every pair of tools/refusals.txt, a refusal and a function that gives it, by a call that is accepted until one thing in it is changed."""
import os
import struct
import sys
import unittest

from mixegorta import BOOK_ROOM, MAX_REPORT_SIZE, ONE, SHEET_ROOM, SHELF_ROOM
from mixegorta._arguments import amounts, dates, job_bytes, kept_memory, own_memory, quotes
from mixegorta._declarations import DECLARATIONS, CJob, CPoint, CReport, CShelf, CSlot
from mixegorta._faults import call

TOOLS = os.path.join(os.path.dirname(os.path.abspath(__file__)), "..", "..", "tools")
HEAD = ">BHBBHBBHHBHI"


def columns(count, figure=0.97, kind=5, first=1):
    return dict(zip(("rows", "kinds", "figures"), quotes([(row, kind, figure**row) for row in range(first, first + count)])))


def flat(count, discount=ONE):
    return {"discounts": amounts("discounts", [discount] * count)}


def flows(*given):
    return {"flows": amounts("flows", given)}


def job(frequency=1, steps=2, reversion=0, volatility=0, figure=0.97, flow=ONE, kind=3, expiry=0, strike=ONE, option=None):
    """A job of as many quotes and flows as steps; with an option's bytes in place of a kind's."""
    fields = [struct.pack(HEAD, 1, 1, frequency, 2, 1, steps, 3, 2, reversion, 4, 4, volatility)]
    fields += [struct.pack(">BHd", 5, 8, figure**row) for row in range(1, steps + 1)] + [struct.pack(">BHI", 7, 4, flow)] * steps
    return {"job": job_bytes("job", b"".join(fields) + (option or struct.pack(">BHBBI", 8, 6, kind, expiry, strike)))}


def shelf(*slots, discount=ONE):
    """A shelf with these slots under the names 1 and so on, each of one status, steps and a reversion, and a memory of one number."""
    memory = kept_memory(SHELF_ROOM)
    memory.values[:] = amounts("memory", [discount] * SHELF_ROOM).values
    return {"shelf": CShelf((CSlot * 8)(*(CSlot(*slot) for slot in slots))), "memory": memory}


def bands(*table):
    """The lists of a table of bands."""
    names = "first_rows", "last_rows", "lowest_prices", "highest_prices", "haircuts"
    return dict(zip(names, (amounts(name, column) for name, column in zip(names, zip(*table)))))


def pair(steps, discount=ONE):
    """Two trees of one discount."""
    one = {"steps": steps, "reversion": 0, **flat(steps * steps, discount)}
    return {f"{side}_{name}": value for side in ("rate", "spread") for name, value in one.items()}


ROW, SIZE = {"reversion": 0, "row": 0}, {"steps": 2, "reversion": 0}
CURVE = {"frequency": 1, "steps": 2, **columns(2), "discounts": own_memory(4)}
FIT = {**CURVE, "reversion": 0, "volatility": 0, "state_prices": own_memory(9)}
BOND = {**SIZE, **flat(4), **flows(0, ONE)}
KIND = {**BOND, "kind": 1, "expiry": 1, "strike": ONE}
LISTED = {**BOND, "side": 1, "dates": dates("dates", [1]), "strike": ONE}
STRIKES = {"strikes": amounts("strikes", [ONE])}
SHAPE = {4: {"reversion": 6001}, 6: {"row": 61}}
LENT = {3: {"steps": 61}, 4: {"reversion": 6001}, 6: flat(3), 9: flat(4, 0)}
BONDS = {**LENT, 10: flows(0, 2 * ONE + 1), 12: {"steps": 5, **flat(25), **flows(*[2 * ONE] * 5)}}
KINDS = {**BONDS, 11: {"expiry": 2}}
LISTS = {**BONDS, 11: {"side": 3}, 13: {"dates": dates("dates", [2])}}
QUOTES = {2: {"frequency": 3}, 3: {"steps": 0}, 6: columns(2, first=2), 7: columns(2, kind=7)}
FITS = {**QUOTES, 4: SHAPE[4], 5: {"volatility": 50001}, 9: columns(2, 1.2),
        8: {"steps": 13, "volatility": 50000, **columns(13), "discounts": own_memory(169), "state_prices": own_memory(196)}}
PAYOFFS = {"payoffs": amounts("payoffs", [8 * ONE + 1])}
AWAITING, FITTED = (1, 2, 0), (2, 2, 0)
COMMIT = {**shelf(AWAITING), "name": 1, "frequency": 1, "volatility": 0, **columns(2)}
SHELF_BOND = {**shelf(FITTED), "name": 1, **flows(0, ONE)}
SHELF_BONDS = {6: flows(ONE), 9: shelf(AWAITING, discount=0), 10: BONDS[10], 12: {**shelf((2, 5, 0)), **flows(*[2 * ONE] * 5)}, 15: {"name": 2}}
SHELF_KIND, SHELF_LISTED = ({**SHELF_BOND, **{name: terms[name] for name in terms if name not in BOND}} for terms in (KIND, LISTED))
SHELF_KINDS, SHELF_LISTS = {**SHELF_BONDS, 11: KINDS[11]}, {**SHELF_BONDS, 11: LISTS[11], 13: LISTS[13]}
PAIR_BOND = {**pair(2), **flows(0, ONE)}
PAIR_BONDS = {3: {"spread_steps": 61}, 4: {"spread_reversion": 6001}, 6: flows(ONE), 9: pair(2, 30_000), 10: BONDS[10],
              12: {**pair(5), **flows(*[2 * ONE] * 5)}, 19: {"spread_steps": 1}}
PAIR_LISTED = {**PAIR_BOND, **{name: LISTED[name] for name in LISTED if name not in BOND}}
WHOLE = 1, 60, 0, 8 * ONE, 250
TABLES = {6: {"haircuts": amounts("haircuts", [1, 2])}, 16: bands((0, *WHOLE[1:])), 17: bands((2, *WHOLE[1:])), 18: bands(WHOLE, WHOLE)}

JOBS = {1: job(option=b"\x08"), 2: job(frequency=3), 3: job(steps=61), 4: job(reversion=6001), 5: job(volatility=50001), 7: job(figure=11.0),
        8: job(steps=13, volatility=50000), 9: job(figure=1.2), 10: job(flow=2 * ONE + 1), 11: job(kind=5), 12: job(steps=5, flow=2 * ONE, figure=1.0),
        13: job(option=struct.pack(">BHBI", 10, 5, 1, ONE))}

# for each function what it takes, and for each refusal what is changed
CASES = {
    "half_width": (ROW, SHAPE), "node_count": (ROW, SHAPE), "row_start": (ROW, SHAPE),
    "discounts_needed": (SIZE, {3: {"steps": 0}, 4: SHAPE[4]}), "state_prices_needed": (SIZE, {3: {"steps": 0}, 4: SHAPE[4]}),
    "branches": ({**ROW, "node": 0}, {**SHAPE, 6: {"node": 1}}),
    "quote_discount": ({"frequency": 1, "kind": 5, "point": CPoint(1, 0.97)}, {2: {"frequency": 3}, 6: {"point": CPoint(0, 0.97)}, 7: {"kind": 7}}),
    "curve_discounts": (CURVE, QUOTES),
    "fit": (FIT, FITS),
    "fit_version": ({**FIT, "version": 2}, {**FITS, 7: {"version": 3}}),
    "working_reversion": ({"version": 2, "reversion": 0}, {4: SHAPE[4], 7: {"version": 3}}),
    "step_rate": ({"discount": ONE}, {9: {"discount": 0}}), "continuous_rate": ({"discount": ONE}, {9: {"discount": 0}}),
    "state_price_error_bound": ({**SIZE, **flat(4), "row": 0}, LENT),
    "price_error_bound": ({**SIZE, **flat(4)}, LENT), "tree_bounds": ({**SIZE, **flat(4)}, LENT),
    "bond_price": (BOND, BONDS), "option_price": (KIND, KINDS), "bond_and_option": (KIND, KINDS),
    "dated_option_price": (LISTED, LISTS), "bond_and_dated_option": (LISTED, LISTS),
    "option_strip": ({**LISTED, **STRIKES}, LISTS), "option_strip_of_kind": ({**KIND, **STRIKES}, KINDS),
    "value_by_state_prices": ({"state_prices": amounts("state_prices", [ONE]), "payoffs": amounts("payoffs", [ONE])},
                              {6: {"payoffs": amounts("payoffs", [1, 2, 3])}, 12: PAYOFFS}),
    "valuation_error_bound": ({**SIZE, **flat(4), "row": 0, "payoffs": amounts("payoffs", [ONE])}, {**LENT, 12: PAYOFFS}),
    "shelf_ask": ({**shelf(FITTED), "name": 2, **SIZE}, {3: {"steps": 61}, 4: SHAPE[4], 14: {"steps": 60}, 15: {"name": 1}}),
    "shelf_commit": (COMMIT, {2: {"frequency": 3}, 5: {"volatility": 50001}, 6: QUOTES[6], 7: QUOTES[7], 9: columns(2, 1.2), 15: shelf(FITTED),
                              8: {**shelf((1, 13, 0)), "volatility": 50000, **columns(13)}}),
    "shelf_release": ({**shelf(FITTED), "name": 1}, {15: {"name": 2}}),
    "shelf_bond_price": (SHELF_BOND, SHELF_BONDS), "shelf_option_price": (SHELF_KIND, SHELF_KINDS), "shelf_bond_and_option": (SHELF_KIND, SHELF_KINDS),
    "shelf_dated_option_price": (SHELF_LISTED, SHELF_LISTS), "shelf_bond_and_dated_option": (SHELF_LISTED, SHELF_LISTS),
    "shelf_option_strip": ({**SHELF_LISTED, **STRIKES}, SHELF_LISTS), "shelf_option_strip_of_kind": ({**SHELF_KIND, **STRIKES}, SHELF_KINDS),
    "check_bands": (bands(WHOLE), TABLES),
    "lending_worth": ({**bands(WHOLE), "row": 1, "price": ONE}, {**TABLES, 6: {"row": 61}, 12: {"price": 8 * ONE + 1}}),
    "read_job": ({"bytes": job()["job"]}, {1: {"bytes": job(option=b"\x08")["job"]}}),
    "write_job": ({"job": CJob(1), "out": own_memory(20, "B")}, {1: {"job": CJob(256), "out": own_memory(9, "B")}, 6: {"out": own_memory(19, "B")}}),
    "pair_bond_price": (PAIR_BOND, PAIR_BONDS), "pair_dated_option_price": (PAIR_LISTED, {**PAIR_BONDS, 11: LISTS[11], 13: LISTS[13]}),
    "sheet": ({**job(), "out": own_memory(SHEET_ROOM, "B")}, {**JOBS, 6: {"out": own_memory(9, "B")}}),
    "prices_of_job": ({**job(), "discounts": own_memory(3600), "state_prices": own_memory(3721)}, {**JOBS, 6: {"discounts": own_memory(0)}}),
    "joined_reports": ({"first": CReport(books=1), "second": CReport(books=2)},
                       {1: {"second": CReport(bonds=1)}, 12: {"first": CReport(books=MAX_REPORT_SIZE)}}),
    "book_report": ({"file": own_memory(0, "B"), "out": own_memory(BOOK_ROOM, "B")}, {6: {"out": own_memory(BOOK_ROOM - 1, "B")}}),
}


def number(name, given):
    """The number that a call gives: its last price's where it answers two, its own or its first price's where it answers a strip; a job's own."""
    answer = call(name, *(given[parameter] for parameter in DECLARATIONS[name][1]))
    answer = answer if hasattr(answer, "has_option") else getattr(answer, "verdict", getattr(answer, "option", answer))
    return getattr(answer, "number", answer) or getattr(answer, "numbers", [0])[0]


class Test(unittest.TestCase):
    def test_each_listed_refusal_is_given(self):
        sys.path.append(TOOLS)
        self.addCleanup(sys.path.remove, TOOLS)
        import source_tables
        wanted = {name: {refusal.number for refusal in source_tables.refusals() if name in refusal.entries} for name in DECLARATIONS}
        self.assertEqual({name: set(changes) for name, (_, changes) in CASES.items()}, {name: numbers for name, numbers in wanted.items() if numbers})
        for name, (given, changes) in CASES.items():
            self.assertEqual(number(name, given), 0, name)
            for refused, changed in changes.items():
                self.assertEqual(number(name, {**given, **changed}), refused, name)


if __name__ == "__main__":
    unittest.main()
