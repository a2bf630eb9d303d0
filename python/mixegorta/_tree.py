"""A fitted tree with memories of its own."""
from array import array
from functools import lru_cache
from typing import Any, Callable, Iterable, Optional, Tuple

from . import _engine as engine
from ._arguments import amounts, own_memory, u64
from ._desk_inputs import warn_of_quotes
from ._faults import call, refusal
from .amounts import Amount, Amounts
from .refusals import NotInTree


def _sizes(steps: int, reversion: int) -> Tuple[int, int]:
    """How many discounts and state prices a tree has; none where there is no such tree."""
    return _known_sizes(u64("steps", steps), u64("reversion", reversion))


@lru_cache
def _known_sizes(*size: int) -> Tuple[int, int]:
    return call("discounts_needed", *size).value, call("state_prices_needed", *size).value


@lru_cache
def _working(version: int, reversion: int) -> int:
    """The working reversion; the reversion itself where it or the version is refused, by which the fit then judges the memories."""
    answer = call("working_reversion", version, reversion)
    return reversion if answer.number else int(answer.value)


class Tree:
    """A fitted tree with memories of its own, which nobody writes once it is made: any number of threads may price on it.

    version, 1 or 2, is how the fit takes the reversion. working_reversion is the one by which the tree branches, the reversion itself in
    version 1: hand it, and not reversion, to functions that take the tree's discounts."""

    frequency: int
    steps: int
    reversion: int
    volatility: int
    version: int
    working_reversion: int

    def __init__(self, frequency: int, steps: int, reversion: int, volatility: int, points: engine.Points, *, version: int = 1) -> None:
        self._set(u64("frequency", frequency), u64("steps", steps), u64("reversion", reversion), u64("volatility", volatility),
                  u64("version", version))
        # where no tree has this size both are empty, and the fit says why
        self._discounts, self._state_prices = map(own_memory, _sizes(self.steps, self.working_reversion))
        quoted = engine.columns(points)
        warn_of_quotes("points", *quoted)
        given = (self.version, self.frequency, self.steps, self.reversion, self.volatility, *quoted, self._discounts,
                 self._state_prices)
        number = call("fit_version", *given)
        if number:
            raise refusal(number, "fit_version", given)

    def _set(self, *numbers: int) -> None:
        self.frequency, self.steps, self.reversion, self.volatility, self.version = numbers
        self.working_reversion = _working(self.version, self.reversion)

    def __repr__(self) -> str:
        version = f" version={self.version}" if self.version != 1 else ""
        return f"<Tree frequency={self.frequency} steps={self.steps} reversion={self.reversion} volatility={self.volatility}{version}>"

    def __getstate__(self) -> Tuple[Tuple[int, int, int, int, int], bytes, bytes]:
        numbers = self.frequency, self.steps, self.reversion, self.volatility, self.version
        return numbers, bytes(self.discounts), bytes(self.state_prices)

    def __setstate__(self, state: Any) -> None:
        numbers, discounts, state_prices = state
        # a tree that was kept before there were versions is of version 1
        self._set(*numbers, *(1,) * (5 - len(numbers)))
        self._discounts, self._state_prices = (own_memory(len(kept) // 8) for kept in (discounts, state_prices))
        self._discounts.values[:], self._state_prices.values[:] = (memoryview(kept).cast("Q") for kept in (discounts, state_prices))

    @property
    def discounts(self) -> memoryview:
        """The discounts of rows 0 to n - 1, row after row, lowest node first: the tree's own memory, to be read and not written."""
        view: memoryview = self._discounts.values.toreadonly()
        return view

    @property
    def state_prices(self) -> memoryview:
        """The state prices of rows 0 to n, row after row, lowest node first: the tree's own memory, to be read and not written."""
        view: memoryview = self._state_prices.values.toreadonly()
        return view

    def row(self, kind: int, row: int) -> "Optional[array[int]]":
        """The discounts or the state prices of a row, lowest node first, as array('Q'); None where the tree has no such row."""
        place = engine.row_range(self._discounts, self._state_prices, kind, self.steps, self.working_reversion, row)
        memory = self._discounts if kind == engine.DISCOUNTS else self._state_prices
        return array("Q", memory.values[place.start:place.stop].tobytes()) if place else None

    def step_rates(self, row: Optional[int] = None) -> "array[int]":
        """The signed rates of one step in a row, 0 to n - 1, lowest node first, in billionths; below 0 where a discount is above one. Without
        a row those of the whole tree, each in the place of its discount. As array('q'): signed numbers of 64 bits, which numpy takes as such."""
        return self._rates(engine.step_rate, row)

    def continuous_rates(self, row: Optional[int] = None) -> "array[int]":
        """The signed rates over one step by continuous compounding, as step_rates gives the simple ones."""
        return self._rates(engine.continuous_rate, row)

    def _rates(self, rate: Callable[[int], int], row: Optional[int]) -> "array[int]":
        discounts = self._discounts.values if row is None else self.row(engine.DISCOUNTS, row)
        if discounts is None:
            raise NotInTree(6, "row")
        return array("q", map(rate, discounts))

    def state_price_error_bound(self, row: int) -> int:
        """How far below the exact ones the state prices of a row may be in sum."""
        return engine.state_price_error_bound(self.steps, self.working_reversion, self._discounts, row)

    def price_error_bound(self) -> int:
        """The error bound of every bond and option on the tree, without pricing any."""
        return engine.price_error_bound(self.steps, self.working_reversion, self._discounts)

    def bounds(self) -> engine.TreeErrorBounds:
        """The same bound with the greatest discount of each row, as the function tree_bounds gives them."""
        return engine.tree_bounds(self.steps, self.working_reversion, self._discounts)

    def bond_price(self, flows: Amounts) -> engine.Price:
        """The bond with these flows of rows 1 to n, as the function bond_price gives it."""
        return engine.bond_price(self.steps, self.working_reversion, self._discounts, flows)

    def option_price(self, flows: Amounts, kind: int, expiry: int, strike: Amount) -> engine.Price:
        """An option on that bond, as the function option_price gives it."""
        return engine.option_price(self.steps, self.working_reversion, self._discounts, flows, kind, expiry, strike)

    def bond_and_option(self, flows: Amounts, kind: int, expiry: int, strike: Amount) -> engine.BondAndOption:
        """Bond and option in one roll; each is a Price, or the Refused that its own function would raise."""
        return engine.bond_and_option(self.steps, self.working_reversion, self._discounts, flows, kind, expiry, strike)

    def dated_option_price(self, flows: Amounts, side: int, dates: Iterable[int], strike: Amount) -> engine.Price:
        """An option on that bond with listed rows of exercise, as the function dated_option_price gives it."""
        return engine.dated_option_price(self.steps, self.working_reversion, self._discounts, flows, side, dates, strike)

    def bond_and_dated_option(self, flows: Amounts, side: int, dates: Iterable[int], strike: Amount) -> engine.BondAndOption:
        """Bond and dated option in one roll, as bond_and_option gives them."""
        return engine.bond_and_dated_option(self.steps, self.working_reversion, self._discounts, flows, side, dates, strike)

    def option_strip(self, flows: Amounts, side: int, dates: Iterable[int], strikes: Amounts) -> engine.Strip:
        """Up to 16 strikes of one side and one list of dates, as the function option_strip gives them: each a Price, or the Refused that
        dated_option_price would raise for that strike."""
        return engine.option_strip(self.steps, self.working_reversion, self._discounts, flows, side, dates, strikes)

    def option_strip_of_kind(self, flows: Amounts, kind: int, expiry: int, strikes: Amounts) -> engine.Strip:
        """The same for one of the four kinds, as the function option_strip_of_kind gives them."""
        return engine.option_strip_of_kind(self.steps, self.working_reversion, self._discounts, flows, kind, expiry, strikes)

    def value(self, row: int, payoffs: Amounts) -> engine.Price:
        """What payoffs on a row are worth: never above the exact price, and at most the bound below it."""
        kept = array("Q", amounts("payoffs", payoffs))
        bound = engine.valuation_error_bound(self.steps, self.working_reversion, self._discounts, row, kept)
        return engine.Price(engine.value_by_state_prices(self.row(engine.STATE_PRICES, row) or (), kept), bound)
