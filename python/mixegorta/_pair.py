"""A rate tree and a spread tree together, as corporate notes need them."""
from typing import Any, Iterable, Tuple

from ._arguments import amount, amounts, dates as exercise_dates, u64
from ._engine import Price
from ._faults import accepted, call
from ._tree import Tree
from .amounts import Amount, Amounts

__all__ = ["Pair", "pair_bond_price", "pair_dated_option_price"]


def _trees(rate_steps: int, rate_reversion: int, rate_discounts: Amounts, spread_steps: int, spread_reversion: int,
           spread_discounts: Amounts) -> Tuple[Any, ...]:
    return (u64("rate_steps", rate_steps), u64("rate_reversion", rate_reversion), amounts("rate_discounts", rate_discounts),
            u64("spread_steps", spread_steps), u64("spread_reversion", spread_reversion), amounts("spread_discounts", spread_discounts))


def _price(name: str, *given: Any) -> Price:
    answer = call(name, *given)
    accepted(answer.number, name, given)
    return Price(answer.value, answer.bound)


def pair_bond_price(rate_steps: int, rate_reversion: int, rate_discounts: Amounts, spread_steps: int, spread_reversion: int,
                    spread_discounts: Amounts, flows: Amounts) -> Price:
    """Price and error bound, at row 0, of the bond with these flows of rows 1 to n on a rate tree and a spread tree of n steps each, at most
    MAX_PAIR_STEPS, whose moves are independent. A node is a pair of one row, and its discount the product of the two over one, down."""
    trees = _trees(rate_steps, rate_reversion, rate_discounts, spread_steps, spread_reversion, spread_discounts)
    return _price("pair_bond_price", *trees, amounts("flows", flows))


def pair_dated_option_price(rate_steps: int, rate_reversion: int, rate_discounts: Amounts, spread_steps: int, spread_reversion: int,
                            spread_discounts: Amounts, flows: Amounts, side: int, dates: Iterable[int], strike: Amount) -> Price:
    """Price and error bound, at row 0, of an option on that bond which may be exercised on listed rows; side, dates and strike as in
    dated_option_price."""
    trees = _trees(rate_steps, rate_reversion, rate_discounts, spread_steps, spread_reversion, spread_discounts)
    terms = u64("side", side), exercise_dates("dates", dates), amount("strike", strike)
    return _price("pair_dated_option_price", *trees, amounts("flows", flows), *terms)


class Pair:
    """A rate tree and a spread tree, to be priced on together. Nothing is judged before a price is asked for: trees that differ in their steps,
    or have more than MAX_PAIR_STEPS, are PairStepsOutOfRange there."""

    rates: Tree
    spreads: Tree

    def __init__(self, rates: Tree, spreads: Tree) -> None:
        for name, tree in (("rates", rates), ("spreads", spreads)):
            if not isinstance(tree, Tree):
                raise TypeError(f"{name}: a {type(tree).__name__} is no Tree")
        self.rates, self.spreads = rates, spreads

    def __repr__(self) -> str:
        return f"Pair({self.rates!r}, {self.spreads!r})"

    def _lent(self) -> Tuple[int, int, Amounts, int, int, Amounts]:
        rates, spreads = self.rates, self.spreads
        return rates.steps, rates.working_reversion, rates.discounts, spreads.steps, spreads.working_reversion, spreads.discounts

    def bond_price(self, flows: Amounts) -> Price:
        """The bond with these flows of rows 1 to n, as the function pair_bond_price gives it."""
        return pair_bond_price(*self._lent(), flows)

    def dated_option_price(self, flows: Amounts, side: int, dates: Iterable[int], strike: Amount) -> Price:
        """An option on that bond with listed rows of exercise, as the function pair_dated_option_price gives it."""
        return pair_dated_option_price(*self._lent(), flows, side, dates, strike)
