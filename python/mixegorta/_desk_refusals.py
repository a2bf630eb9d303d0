"""The engine's refusals in a desk's units: the class and the number stay, the words are percent, basis points, tenors
and prices per 100.

Beside the proved core; nothing here is proved."""
from contextlib import contextmanager
from decimal import Decimal
from typing import TYPE_CHECKING, Dict, Iterator, Optional, Tuple

from ._desk_inputs import MONTHS_A_YEAR, steps_a_year, tenor
from ._limits import MAX_FLOW, MAX_QUOTE_DISCOUNT, MAX_REVERSION, MAX_STRIKE, MAX_VALUE, MAX_VOLATILITY
from ._limits import MIN_QUOTE_DISCOUNT, ONE
from .refusals import Refused

if TYPE_CHECKING:
    from ._desk_curve import Model

Words = Tuple[str, str]


def _plain(value: Decimal) -> str:
    return f"{value.normalize():f}"


def _per_100(billionths: int) -> str:
    return _plain(Decimal(billionths).scaleb(-7))


def _of_units(model: "Model", frequency: int) -> Dict[int, Words]:
    """What is wrong with the figures of a model, and what to do."""
    most, step = Decimal(MAX_VOLATILITY) / 100, Decimal(MAX_REVERSION).scaleb(-4)
    return {
        4: (f"reversion {model.reversion} a year is {_plain(model.reversion / frequency)} a step with "
            f"{steps_a_year(frequency)}, and a tree takes at most {_plain(step)} a step",
            "check that it is a part of one a year, 0.03 for 3 %; one that is truly so strong needs more steps a year"),
        5: (f"volatility_bp {model.volatility_bp} is above {_plain(most)}, the most that a tree takes",
            "check that it is in basis points a year, 70 for 0.7 %, and a change of the rate itself, not a part of it"),
    }


def _of_a_fit(refused: Refused, model: "Model", frequency: int) -> Dict[int, Words]:
    """What keeps a tree from being fitted to a curve, and what to do."""
    at = "" if refused.row is None else f" at {tenor(refused.row * MONTHS_A_YEAR // frequency)}"
    low, high = (Decimal(limit) / ONE for limit in (MIN_QUOTE_DISCOUNT, MAX_QUOTE_DISCOUNT))
    unfit = (f"no tree with {steps_a_year(frequency)} is fitted to this curve{at} with volatility_bp "
             f"{model.volatility_bp} and reversion {model.reversion}: rates of its outer nodes leave what a tree holds",
             "look for a point of the curve out of line with its neighbours; then try steps of another length, "
             "frequency=, or a shorter maturity")
    beyond = (f"the curve's discount{at} is outside {_plain(low)} to {_plain(high)}",
              "check the curve's figures and their unit, 3 for 3 %")
    return {7: beyond, 8: unfit, 9: unfit}


OF_AMOUNTS: Dict[int, Words] = {
    10: (f"a flow is above {_per_100(MAX_FLOW)} per 100 of the notional",
         "check coupon, in percent a year, and redemption, per 100"),
    11: (f"the price of exercise with its accrued interest is above {_per_100(MAX_STRIKE)} per 100 of the notional",
         "check at, a clean price per 100"),
    12: (f"a value on the tree is above {_per_100(MAX_VALUE)} per 100 of the notional",
         "check coupon, redemption and at, which are per 100, and the curve"),
}


def in_desk_units(refused: Refused, model: "Model", frequency: int) -> Refused:
    """The same refusal with a desk's words; one that a desk has no words for stays as it is."""
    words: Optional[Words] = {**_of_units(model, frequency), **_of_a_fit(refused, model, frequency),
                              **OF_AMOUNTS}.get(refused.number)
    if words is None:
        return refused
    refused.words, refused.remedy = words
    refused.__notes__ = [f"What to do: {refused.remedy}."]
    if refused.volatility is not None:
        most = Decimal(refused.volatility) / 100
        refused.__notes__ += [f"Up to volatility_bp {most} a tree is fitted; that is another model, and its prices are "
                              "not these.", f"As volatility_bp {most} is accepted."]
    return refused


@contextmanager
def desk_units(model: "Model", frequency: int) -> Iterator[None]:
    """Raises what is refused inside with a desk's words."""
    try:
        yield
    except Refused as refused:
        raise in_desk_units(refused, model, frequency)
