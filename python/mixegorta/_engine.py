"""The engine's functions: each is one call of the proved shared object."""
from array import array
from typing import TYPE_CHECKING, Any, Iterable, Iterator, List, NamedTuple, Optional, Tuple, Union

from ._arguments import Slice, amount, amounts, apart, dates as exercise_dates, job_bytes, memory, own_memory, point as row_kind_and_figure
from ._arguments import quotes, u64, whole
from ._declarations import CPoint
from ._desk_inputs import warn_of_quotes
from ._faults import accepted, call, refusal
from ._limits import SHEET_ROOM
from .amounts import Amount, Amounts
from .refusals import Refused

if TYPE_CHECKING:
    from _typeshed import ReadableBuffer, WriteableBuffer

__all__ = [
    "DISCOUNT_FACTOR", "YEARLY_RATE", "YEARLY_YIELD", "DISCOUNTS", "STATE_PRICES", "EUROPEAN_CALL", "EUROPEAN_PUT", "AMERICAN_CALL",
    "AMERICAN_PUT", "CALL", "PUT",
    "Point", "Curve", "Branches", "Price", "TreeErrorBounds", "BondAndOption", "Strip",
    "half_width", "node_count", "row_start", "discounts_needed", "state_prices_needed", "branches",
    "working_reversion", "quote_discount", "curve_discounts", "fit_into", "row_range", "step_rate", "continuous_rate", "state_price_error_bound",
    "price_error_bound", "tree_bounds", "bond_price", "option_price", "bond_and_option", "dated_option_price", "bond_and_dated_option",
    "option_strip", "option_strip_of_kind", "value_by_state_prices", "valuation_error_bound", "sheet_into", "sheet",
]

DISCOUNT_FACTOR, YEARLY_RATE, YEARLY_YIELD = 5, 6, 9
DISCOUNTS, STATE_PRICES = 1, 2
EUROPEAN_CALL, EUROPEAN_PUT, AMERICAN_CALL, AMERICAN_PUT = 1, 2, 3, 4
CALL, PUT = 1, 2


class Point(NamedTuple):
    """A quote: its row, its kind and its figure, a float. kind is DISCOUNT_FACTOR, YEARLY_RATE or YEARLY_YIELD."""

    row: int
    kind: int
    figure: float


class Branches(NamedTuple):
    """Where a node leads: to node lowest of the next row, down, and the two above it, middle and up, with probabilities over PROBABILITY_ONE."""

    lowest: int
    up: int
    middle: int
    down: int


class Price(NamedTuple):
    """A price and how far from the exact one it may be, both in billionths."""

    value: int
    bound: int


class TreeErrorBounds(NamedTuple):
    """What is known of a tree from its discounts: the error bound of every bond and option on it, and the greatest discount of each row from 0
    on, 60 of them, 0 from row n on."""

    bound: int
    greatest: Tuple[int, ...]


class BondAndOption(NamedTuple):
    """The prices of a bond and an option on it; each is a Price, or the Refused that its own function would raise."""

    bond: Union[Price, Refused]
    option: Union[Price, Refused]


# the answers of a strip in the order of its strikes: each is a Price, or the Refused that a call for its strike alone would raise
Strip = List[Union[Price, Refused]]
PointLike = Union[Point, Tuple[int, int, float]]


class Curve:
    """Points made ready once for many fits; it may stand wherever points are asked for."""

    def __init__(self, points: Iterable[PointLike]) -> None:
        self._columns = quotes(points)

    def __iter__(self) -> Iterator[Point]:
        return map(Point, *self._columns)

    def __len__(self) -> int:
        return self._columns[0].count

    def __repr__(self) -> str:
        return f"Curve({list(self)})"


Points = Union[Curve, Iterable[PointLike]]


def columns(points: Points) -> Tuple[Slice, Slice, Slice]:
    """Rows, kinds and figures of points."""
    return points._columns if isinstance(points, Curve) else quotes(points)


def _value(name: str, *given: Any) -> int:
    answer = call(name, *given)
    accepted(answer.number, name, given)
    return int(answer.value)


def _price(name: str, *given: Any) -> Price:
    answer = call(name, *given)
    accepted(answer.number, name, given)
    return Price(answer.value, answer.bound)


def _each(prices: Iterable[Tuple[int, int, int]], calls: Iterable[Tuple[str, Tuple[Any, ...]]]) -> Iterator[Union[Price, Refused]]:
    """Prices by number, value and bound, each as the call beside it would give it alone: a Price, or the Refused that it would raise."""
    for (number, value, bound), (name, given) in zip(prices, calls):
        yield refusal(number, name, given) if number else Price(value, bound)


def _both(name: str, bond_name: str, option_name: str, *given: Any) -> BondAndOption:
    answer = call(name, *given)
    prices = [(price.number, price.value, price.bound) for price in (answer.bond, answer.option)]
    return BondAndOption(*_each(prices, ((bond_name, given), (option_name, given))))


def _strip(name: str, option_name: str, terms: Tuple[Any, ...], strikes: Amounts) -> Strip:
    """A strip of these terms, which are those of an option but for its strike."""
    struck = amounts("strikes", strikes)
    given = *terms, struck
    answer = call(name, *given)
    accepted(answer.number, name, given)
    prices = zip(answer.numbers, answer.values, answer.bounds)
    return list(_each(prices, ((option_name, (*terms, strike)) for strike in struck)))


def _tree(steps: int, reversion: int, discounts: Amounts) -> Tuple[int, int, Slice]:
    return u64("steps", steps), u64("reversion", reversion), amounts("discounts", discounts)


def _bond(steps: int, reversion: int, discounts: Amounts, flows: Amounts) -> Tuple[Any, ...]:
    return *_tree(steps, reversion, discounts), amounts("flows", flows)


def _kind(kind: int, expiry: int) -> Tuple[int, int]:
    return u64("kind", kind), u64("expiry", expiry)


def _side(side: int, dates: Iterable[int]) -> Tuple[int, Slice]:
    return u64("side", side), exercise_dates("dates", dates)


def _option(kind: int, expiry: int, strike: Amount) -> Tuple[int, int, int]:
    return *_kind(kind, expiry), amount("strike", strike)


def _dated_option(side: int, dates: Iterable[int], strike: Amount) -> Tuple[int, Slice, int]:
    return *_side(side, dates), amount("strike", strike)


# ---- the shape of a tree

def half_width(reversion: int, row: int) -> int:
    """The half width of a row, 0 to 60."""
    return _value("half_width", u64("reversion", reversion), u64("row", row))


def node_count(reversion: int, row: int) -> int:
    """The number of nodes of a row, 0 to 60."""
    return _value("node_count", u64("reversion", reversion), u64("row", row))


def row_start(reversion: int, row: int) -> int:
    """The element at which a row, 0 to 60, starts in either memory."""
    return _value("row_start", u64("reversion", reversion), u64("row", row))


def discounts_needed(steps: int, reversion: int) -> int:
    """How many discounts a tree has."""
    return _value("discounts_needed", u64("steps", steps), u64("reversion", reversion))


def state_prices_needed(steps: int, reversion: int) -> int:
    """How many state prices a tree has."""
    return _value("state_prices_needed", u64("steps", steps), u64("reversion", reversion))


def branches(reversion: int, row: int, node: int) -> Branches:
    """Where a node of a row, 0 to 59, leads, and how likely."""
    given = u64("reversion", reversion), u64("row", row), whole("node", node, -(2**63), 2**63 - 1)
    answer = call("branches", *given)
    accepted(answer.number, "branches", given)
    return Branches(answer.lowest, *answer.probabilities)


def working_reversion(version: int, reversion: int) -> int:
    """The working reversion of a reversion per step, by which a tree of that version, 1 or 2, branches: itself in version 1, never more in
    version 2. Of a tree of version 2 it goes wherever a function takes a tree and not a version."""
    return _value("working_reversion", u64("version", version), u64("reversion", reversion))


# ---- level one

def quote_discount(frequency: int, point: PointLike) -> int:
    """The discount of one Point(row, kind, figure)."""
    row, kind, figure = row_kind_and_figure("point", point)
    given = u64("frequency", frequency), whole("point", kind, 0, 255), CPoint(u64("point", row), figure)
    return _value("quote_discount", *given)


def curve_discounts(frequency: int, steps: int, points: Points) -> "array[int]":
    """The discounts of rows 1 to n, from n points, as array('Q')."""
    quoted = columns(points)
    discounts = own_memory(quoted[0].count)
    given = u64("frequency", frequency), u64("steps", steps), *quoted, discounts
    accepted(call("curve_discounts", *given), "curve_discounts", given)
    return array("Q", discounts.values.tobytes())


def fit_into(frequency: int, steps: int, reversion: int, volatility: int, points: Points, discounts: "WriteableBuffer",
             state_prices: "WriteableBuffer", *, version: int = 1) -> None:
    """Fits a tree at the start of two memories: writable, contiguous buffers of 64-bit unsigned numbers, such as array('Q'). Refusal 9
    leaves zeros in the parts that the tree needs; any other leaves both as they were. Nothing past those parts ever changes. In version 2
    the memories are sized by what working_reversion answers, and the tree is priced with it."""
    memories = memory("discounts", "Q", discounts), memory("state_prices", "Q", state_prices)
    apart(discounts=memories[0], state_prices=memories[1])
    quoted = columns(points)
    warn_of_quotes("points", *quoted)
    given = (u64("version", version), u64("frequency", frequency), u64("steps", steps), u64("reversion", reversion),
             u64("volatility", volatility), *quoted, *memories)
    accepted(call("fit_version", *given), "fit_version", given)


def row_range(discounts: Amounts, state_prices: Amounts, kind: int, steps: int, reversion: int, row: int) -> Optional[range]:
    """Where a row stands in the memory of its kind, as a range; None where refused."""
    found = call("row_range", amounts("discounts", discounts), amounts("state_prices", state_prices), u64("kind", kind),
                 u64("steps", steps), u64("reversion", reversion), u64("row", row))
    return range(found.start, found.start + found.count) if found.count else None


def step_rate(discount: Amount) -> int:
    """The signed rate of one step, in billionths, of a discount."""
    return _value("step_rate", amount("discount", discount))


def continuous_rate(discount: Amount) -> int:
    """The signed, continuously compounded rate over one step, in billionths, of a discount."""
    return _value("continuous_rate", amount("discount", discount))


def state_price_error_bound(steps: int, reversion: int, discounts: Amounts, row: int) -> int:
    """How far below the exact ones the fitted state prices of a row may be in sum."""
    return _value("state_price_error_bound", *_tree(steps, reversion, discounts), u64("row", row))


# ---- level two

def price_error_bound(steps: int, reversion: int, discounts: Amounts) -> int:
    """The error bound that every bond and option on a tree has, without pricing any."""
    return _value("price_error_bound", *_tree(steps, reversion, discounts))


def tree_bounds(steps: int, reversion: int, discounts: Amounts) -> TreeErrorBounds:
    """The same bound with the greatest discount of each row, as TreeErrorBounds(bound, greatest)."""
    given = _tree(steps, reversion, discounts)
    answer = call("tree_bounds", *given)
    accepted(answer.number, "tree_bounds", given)
    return TreeErrorBounds(answer.bound, tuple(answer.greatest))


def bond_price(steps: int, reversion: int, discounts: Amounts, flows: Amounts) -> Price:
    """Price and error bound, at row 0, of the bond with these flows of rows 1 to n. The exact price is at most the bound above or below."""
    return _price("bond_price", *_bond(steps, reversion, discounts, flows))


def option_price(steps: int, reversion: int, discounts: Amounts, flows: Amounts, kind: int, expiry: int, strike: Amount) -> Price:
    """Price and error bound, at row 0, of an option on that bond. expiry is a row, 0 to n - 1; exercise is on the bond without the flow of its row,
    which stays with the seller."""
    return _price("option_price", *_bond(steps, reversion, discounts, flows), *_option(kind, expiry, strike))


def bond_and_option(steps: int, reversion: int, discounts: Amounts, flows: Amounts, kind: int, expiry: int,
                    strike: Amount) -> BondAndOption:
    """Bond and option in one roll, as BondAndOption(bond, option). Nothing is raised for a refusal: each of the two is a Price, or the
    Refused that its own function would raise."""
    return _both("bond_and_option", "bond_price", "option_price", *_bond(steps, reversion, discounts, flows), *_option(kind, expiry, strike))


def dated_option_price(steps: int, reversion: int, discounts: Amounts, flows: Amounts, side: int, dates: Iterable[int],
                       strike: Amount) -> Price:
    """Price and error bound, at row 0, of an option on that bond which may be exercised on listed rows. side is CALL or PUT; dates are rows,
    strictly rising, each 0 to n - 1, at least one, as bytes or whole numbers. On the last of them the option is worth its exercise value, on
    earlier ones the larger of that and of holding it."""
    return _price("dated_option_price", *_bond(steps, reversion, discounts, flows), *_dated_option(side, dates, strike))


def bond_and_dated_option(steps: int, reversion: int, discounts: Amounts, flows: Amounts, side: int, dates: Iterable[int],
                          strike: Amount) -> BondAndOption:
    """Bond and dated option in one roll, as bond_and_option gives them."""
    return _both("bond_and_dated_option", "bond_price", "dated_option_price", *_bond(steps, reversion, discounts, flows),
                 *_dated_option(side, dates, strike))


def option_strip(steps: int, reversion: int, discounts: Amounts, flows: Amounts, side: int, dates: Iterable[int], strikes: Amounts) -> Strip:
    """Up to 16 strikes of one side and one list of dates, the bond rolled once for all of them: in their order, each a Price, or the Refused
    that dated_option_price would raise for that strike. Raised are the refusals of the strip itself: steps, reversion, and NotInTree for no strike
    or more than MAX_STRIKES."""
    return _strip("option_strip", "dated_option_price", (*_bond(steps, reversion, discounts, flows), *_side(side, dates)), strikes)


def option_strip_of_kind(steps: int, reversion: int, discounts: Amounts, flows: Amounts, kind: int, expiry: int, strikes: Amounts) -> Strip:
    """The same for one of the four kinds: each answer is what option_price gives, or would raise, for its strike."""
    return _strip("option_strip_of_kind", "option_price", (*_bond(steps, reversion, discounts, flows), *_kind(kind, expiry)), strikes)


def value_by_state_prices(state_prices: Amounts, payoffs: Amounts) -> int:
    """What payoffs on a row are worth by the row's state prices."""
    return _value("value_by_state_prices", amounts("state_prices", state_prices), amounts("payoffs", payoffs))


def valuation_error_bound(steps: int, reversion: int, discounts: Amounts, row: int, payoffs: Amounts) -> int:
    """How far below the exact price that value may be, for the fitted state prices of a row."""
    return _value("valuation_error_bound", *_tree(steps, reversion, discounts), u64("row", row), amounts("payoffs", payoffs))


# ---- a whole job

def sheet_into(job: "ReadableBuffer", out: "WriteableBuffer") -> int:
    """Draws the sheet of a job, bytes, at the end of out, a writable buffer of at least SHEET_ROOM bytes such as array('B') or a bytearray;
    gives the sheet's size. A refusal leaves out as it was."""
    given = job_bytes("job", job), memory("out", "B", out)
    apart(job=given[0], out=given[1])
    return _sheet(*given)


def _sheet(job: Slice, out: Slice) -> int:
    written = call("sheet", job, out)
    accepted(written.number, "sheet", (job, out))
    return int(written.size)


def sheet(job: "ReadableBuffer") -> str:
    """The sheet of a job, bytes, as its lines, each ended by a newline."""
    out = own_memory(SHEET_ROOM, "B")
    size = _sheet(job_bytes("job", job), out)
    return bytes(out.values[SHEET_ROOM - size:]).decode("ascii")
