"""What the shared object exports, for ctypes. Written by tools/declarations.py from the crates."""
import ctypes
from typing import Any, Dict, Tuple

from ._types import BOOL, F64, I64, SIZE, U8, U64, PointerTo, SliceOf


class CAnswer(ctypes.Structure):
    """An answer that can be a refusal: number 0 with the value, or the refusal's number with value 0."""

    _fields_ = [("number", U64), ("value", U64)]


class CBranches(ctypes.Structure):
    """Where a node leads: to `lowest` and the two nodes above it, with probabilities up, middle, down over 600,000,000."""

    _fields_ = [("number", U64), ("lowest", I64), ("probabilities", U64 * 3)]


class CPoint(ctypes.Structure):
    """A quoted point: a row number and a figure."""

    _fields_ = [("row", U64), ("figure", F64)]


class CRowRange(ctypes.Structure):
    """A row's place in the memory of its kind: where it starts, and how many nodes it has."""

    _fields_ = [("start", SIZE), ("count", SIZE)]


class CRate(ctypes.Structure):
    """Number 0 with the signed rate in billionths, or refusal 9 with value 0."""

    _fields_ = [("number", U64), ("value", I64)]


class CTreeErrorBounds(ctypes.Structure):
    """What is known of a tree: its error bound, and the greatest discount of each row, 0 for rows that the tree has not; a refusal's number with zeros."""

    _fields_ = [("number", U64), ("bound", U64), ("greatest", U64 * 60)]


class CPrice(ctypes.Structure):
    """A price in billionths with its error bound; a refusal's number with zeros."""

    _fields_ = [("number", U64), ("value", U64), ("bound", U64)]


class CBondAndOption(ctypes.Structure):
    """A bond and an option on it."""

    _fields_ = [("bond", CPrice), ("option", CPrice)]


class CStrip(ctypes.Structure):
    """Up to 16 answers in order, a number, a value and a bound for each, zeros after them; or the strip's own refusal with zeros."""

    _fields_ = [("number", U64), ("numbers", U64 * 16), ("values", U64 * 16), ("bounds", U64 * 16)]


class CWritten(ctypes.Structure):
    """A sheet that stands at the end of the lent room and is so many bytes long; a refusal's number with a zero."""

    _fields_ = [("number", U64), ("size", SIZE)]


class CJobPrices(ctypes.Structure):
    """The prices of a job: number 0 with the bond and, where the job has one, the option; a refusal's number with zeros."""

    _fields_ = [("number", U64), ("bond", CPrice), ("has_option", BOOL), ("option", CPrice)]


class COptionRecord(ctypes.Structure):
    """The option of a job as it was read: tag 8 or 10, or 0 and zeros where the job has none."""

    _fields_ = [("tag", U64), ("kind", U64), ("expiry", U64), ("strike", U64), ("count", SIZE), ("dates", U8 * 4672)]


class CJob(ctypes.Structure):
    """A job: its quotes and flows stand in the first `steps` places, zeros after them. A figure is the pattern of a float, NaN or not."""

    _fields_ = [
        ("frequency", U64), ("steps", SIZE), ("reversion", U64), ("volatility", U64), ("version", U64), ("kinds", U8 * 255),
        ("figures", U64 * 255), ("flows", U64 * 255), ("option", COptionRecord),
    ]


class CReading(ctypes.Structure):
    """Number 0 with the job, or refusal 1 with zeros."""

    _fields_ = [("number", U64), ("job", CJob)]


class CBookText(ctypes.Structure):
    """The lines of a book, which stand at the end of the lent room and are so many bytes long; a refusal's number with a zero."""

    _fields_ = [("number", U64), ("size", SIZE)]


class CReport(ctypes.Structure):
    """The totals over so many books. The count of refusals with number k stands at place k - 1. The dearest bond is that of the field `place` of the book with the number `book`, both from 1, and both are 0 where none is priced."""

    _fields_ = [
        ("books", U64), ("fields", U64), ("priced", U64), ("refused", U64 * 13), ("bonds", U64), ("options", U64), ("error_bounds", U64),
        ("dearest", U64), ("book", U64), ("place", U64),
    ]


class CJoined(ctypes.Structure):
    """Number 0 and a report, or a refusal's number with the empty report."""

    _fields_ = [("number", U64), ("report", CReport)]


class CSlot(ctypes.Structure):
    """What a shelf keeps of a name: status 0 no tree, 1 a tree that awaits a commit, 2 a fitted tree; then its steps and its reversion. A fitted tree carries its price error bound and the greatest discount of each of its rows; all else is 0."""

    _fields_ = [("status", U64), ("steps", SIZE), ("reversion", U64), ("bound", U64), ("greatest", U64 * 60)]


class CShelf(ctypes.Structure):
    """The slot of name k has index k - 1."""

    _fields_ = [("slots", CSlot * 8)]


class CPart(ctypes.Structure):
    """Where a tree's discounts stand in the memory, and how many they are; zeros where there is no tree."""

    _fields_ = [("start", SIZE), ("count", SIZE)]


class CShelved(ctypes.Structure):
    """A call's number, 0 or a refusal's, and the shelf after the call."""

    _fields_ = [("number", U64), ("shelf", CShelf)]


class CVerdict(ctypes.Structure):
    """The answer to a table: 0 where it is accepted, else the number of the refusal, with the first failing pair (17 in no band, 18 in two or more) or the place of the first bad band, counted from 1 (16; 41 where only the number of bands is wrong)."""

    _fields_ = [("number", U64), ("row", U64), ("price", U64), ("place", U64)]


class CWorth(ctypes.Structure):
    """The lending worth, 0 where it is refused, and the verdict."""

    _fields_ = [("worth", U64), ("verdict", CVerdict)]


# each exported function with its result and its parameters
DECLARATIONS: Dict[str, Tuple[Any, Dict[str, Any]]] = {
    "version": (U64, {}),
    "half_width": (CAnswer, {"reversion": U64, "row": SIZE}),
    "node_count": (CAnswer, {"reversion": U64, "row": SIZE}),
    "row_start": (CAnswer, {"reversion": U64, "row": SIZE}),
    "discounts_needed": (CAnswer, {"steps": SIZE, "reversion": U64}),
    "state_prices_needed": (CAnswer, {"steps": SIZE, "reversion": U64}),
    "branches": (CBranches, {"reversion": U64, "row": SIZE, "node": I64}),
    "working_reversion": (CAnswer, {"version": U64, "reversion": U64}),
    "quote_discount": (CAnswer, {"frequency": U64, "kind": U8, "point": CPoint}),
    "curve_discounts": (U64, {
        "frequency": U64, "steps": SIZE, "rows": SliceOf(U64), "kinds": SliceOf(U8), "figures": SliceOf(F64), "discounts": SliceOf(U64),
    }),
    "fit": (U64, {
        "frequency": U64, "steps": SIZE, "reversion": U64, "volatility": U64, "rows": SliceOf(U64), "kinds": SliceOf(U8),
        "figures": SliceOf(F64), "discounts": SliceOf(U64), "state_prices": SliceOf(U64),
    }),
    "fit_version": (U64, {
        "version": U64, "frequency": U64, "steps": SIZE, "reversion": U64, "volatility": U64, "rows": SliceOf(U64), "kinds": SliceOf(U8),
        "figures": SliceOf(F64), "discounts": SliceOf(U64), "state_prices": SliceOf(U64),
    }),
    "row_range": (CRowRange, {
        "discounts": SliceOf(U64), "state_prices": SliceOf(U64), "kind": U64, "steps": SIZE, "reversion": U64, "row": SIZE,
    }),
    "step_rate": (CRate, {"discount": U64}),
    "continuous_rate": (CRate, {"discount": U64}),
    "state_price_error_bound": (CAnswer, {"steps": SIZE, "reversion": U64, "discounts": SliceOf(U64), "row": SIZE}),
    "price_error_bound": (CAnswer, {"steps": SIZE, "reversion": U64, "discounts": SliceOf(U64)}),
    "tree_bounds": (CTreeErrorBounds, {"steps": SIZE, "reversion": U64, "discounts": SliceOf(U64)}),
    "bond_price": (CPrice, {"steps": SIZE, "reversion": U64, "discounts": SliceOf(U64), "flows": SliceOf(U64)}),
    "option_price": (CPrice, {
        "steps": SIZE, "reversion": U64, "discounts": SliceOf(U64), "flows": SliceOf(U64), "kind": U64, "expiry": SIZE, "strike": U64,
    }),
    "bond_and_option": (CBondAndOption, {
        "steps": SIZE, "reversion": U64, "discounts": SliceOf(U64), "flows": SliceOf(U64), "kind": U64, "expiry": SIZE, "strike": U64,
    }),
    "dated_option_price": (CPrice, {
        "steps": SIZE, "reversion": U64, "discounts": SliceOf(U64), "flows": SliceOf(U64), "side": U64, "dates": SliceOf(U8), "strike": U64,
    }),
    "bond_and_dated_option": (CBondAndOption, {
        "steps": SIZE, "reversion": U64, "discounts": SliceOf(U64), "flows": SliceOf(U64), "side": U64, "dates": SliceOf(U8), "strike": U64,
    }),
    "option_strip": (CStrip, {
        "steps": SIZE, "reversion": U64, "discounts": SliceOf(U64), "flows": SliceOf(U64), "side": U64, "dates": SliceOf(U8),
        "strikes": SliceOf(U64),
    }),
    "option_strip_of_kind": (CStrip, {
        "steps": SIZE, "reversion": U64, "discounts": SliceOf(U64), "flows": SliceOf(U64), "kind": U64, "expiry": SIZE,
        "strikes": SliceOf(U64),
    }),
    "value_by_state_prices": (CAnswer, {"state_prices": SliceOf(U64), "payoffs": SliceOf(U64)}),
    "valuation_error_bound": (CAnswer, {"steps": SIZE, "reversion": U64, "discounts": SliceOf(U64), "row": SIZE, "payoffs": SliceOf(U64)}),
    "sheet": (CWritten, {"job": SliceOf(U8), "out": SliceOf(U8)}),
    "prices_of_job": (CJobPrices, {"job": SliceOf(U8), "discounts": SliceOf(U64), "state_prices": SliceOf(U64)}),
    "read_job": (CReading, {"bytes": SliceOf(U8)}),
    "write_job": (CAnswer, {"job": CJob, "out": SliceOf(U8)}),
    "book_report": (CBookText, {"file": SliceOf(U8), "out": SliceOf(U8)}),
    "empty_report": (CReport, {}),
    "report_of_file": (CReport, {"file": SliceOf(U8)}),
    "joined_reports": (CJoined, {"first": CReport, "second": CReport}),
    "empty_shelf": (CShelf, {}),
    "shelf_part": (CPart, {"shelf": CShelf, "name": SIZE}),
    "shelf_ask": (CShelved, {"shelf": CShelf, "memory": PointerTo(U64 * 3600), "name": SIZE, "steps": SIZE, "reversion": U64}),
    "shelf_commit": (CShelved, {
        "shelf": CShelf, "memory": PointerTo(U64 * 3600), "name": SIZE, "frequency": U64, "volatility": U64, "rows": SliceOf(U64),
        "kinds": SliceOf(U8), "figures": SliceOf(F64),
    }),
    "shelf_release": (CShelved, {"shelf": CShelf, "memory": PointerTo(U64 * 3600), "name": SIZE}),
    "shelf_bond_price": (CPrice, {"shelf": CShelf, "memory": PointerTo(U64 * 3600), "name": SIZE, "flows": SliceOf(U64)}),
    "shelf_option_price": (CPrice, {
        "shelf": CShelf, "memory": PointerTo(U64 * 3600), "name": SIZE, "flows": SliceOf(U64), "kind": U64, "expiry": SIZE, "strike": U64,
    }),
    "shelf_bond_and_option": (CBondAndOption, {
        "shelf": CShelf, "memory": PointerTo(U64 * 3600), "name": SIZE, "flows": SliceOf(U64), "kind": U64, "expiry": SIZE, "strike": U64,
    }),
    "shelf_dated_option_price": (CPrice, {
        "shelf": CShelf, "memory": PointerTo(U64 * 3600), "name": SIZE, "flows": SliceOf(U64), "side": U64, "dates": SliceOf(U8),
        "strike": U64,
    }),
    "shelf_bond_and_dated_option": (CBondAndOption, {
        "shelf": CShelf, "memory": PointerTo(U64 * 3600), "name": SIZE, "flows": SliceOf(U64), "side": U64, "dates": SliceOf(U8),
        "strike": U64,
    }),
    "shelf_option_strip": (CStrip, {
        "shelf": CShelf, "memory": PointerTo(U64 * 3600), "name": SIZE, "flows": SliceOf(U64), "side": U64, "dates": SliceOf(U8),
        "strikes": SliceOf(U64),
    }),
    "shelf_option_strip_of_kind": (CStrip, {
        "shelf": CShelf, "memory": PointerTo(U64 * 3600), "name": SIZE, "flows": SliceOf(U64), "kind": U64, "expiry": SIZE,
        "strikes": SliceOf(U64),
    }),
    "check_bands": (CVerdict, {
        "first_rows": SliceOf(U64), "last_rows": SliceOf(U64), "lowest_prices": SliceOf(U64), "highest_prices": SliceOf(U64),
        "haircuts": SliceOf(U64),
    }),
    "lending_worth": (CWorth, {
        "first_rows": SliceOf(U64), "last_rows": SliceOf(U64), "lowest_prices": SliceOf(U64), "highest_prices": SliceOf(U64),
        "haircuts": SliceOf(U64), "row": U64, "price": U64,
    }),
    "pair_bond_price": (CPrice, {
        "rate_steps": SIZE, "rate_reversion": U64, "rate_discounts": SliceOf(U64), "spread_steps": SIZE, "spread_reversion": U64,
        "spread_discounts": SliceOf(U64), "flows": SliceOf(U64),
    }),
    "pair_dated_option_price": (CPrice, {
        "rate_steps": SIZE, "rate_reversion": U64, "rate_discounts": SliceOf(U64), "spread_steps": SIZE, "spread_reversion": U64,
        "spread_discounts": SliceOf(U64), "flows": SliceOf(U64), "side": U64, "dates": SliceOf(U8), "strike": U64,
    }),
}
