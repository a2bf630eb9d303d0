"""The engine's refusals, one exception class for each number."""
from typing import Dict, List, Optional, Type

# ---- begin: written by tools/declarations.py
__all__ = [
    "ADVICE", "CAUSES", "Refused", "MalformedJob", "UnknownFrequency", "StepsOutOfRange", "ReversionTooLarge", "VolatilityTooLarge",
    "NotInTree", "QuoteOutOfRange", "NodesTooFarApart", "NodeDiscountOutOfRange", "FlowTooLarge", "OptionTermsOutOfRange", "ValueTooLarge",
    "ExerciseDatesOutOfOrder", "ShelfFull", "WrongName", "BadBand", "PairInNoBand", "PairInSeveralBands", "PairStepsOutOfRange",
]

CAUSES: Dict[int, str] = {
    1: "the job is malformed or longer than 4,700 bytes",
    2: "the steps a year are not 1, 2, 4 or 12",
    3: "the steps are outside 1 to 60",
    4: "the reversion is above 6,000",
    5: "the volatility is above 50,000",
    6: "a length, row or node is not in the tree, a memory is too short, or the strikes are none or more than 16",
    7: "a quote's kind, figure or discount is outside its limits, or the version is not 1 or 2",
    8: "the nodes are too far apart",
    9: "a node discount is 0 or above 1,100,000,000",
    10: "a flow is above 2,000,000,000",
    11: "the option's kind, side, expiry or strike is outside its limit",
    12: "a value is above 8,000,000,000, or state prices sum above 2,000,000,100",
    13: "the exercise dates are none, not strictly rising, or reach the last row",
    14: "the asked nodes and those held are more than 3,600",
    15: "the name is outside 1 to 8, already present at asking, not awaiting a commit at commit, or absent at release or pricing",
    16: "a band has an end before its start, or a haircut, start or end out of range, or there are more than 40 bands",
    17: "a row and a price are in no band",
    18: "a row and a price are in two or more bands",
    19: "the steps of a pair are above 20, or its two trees differ in them",
}

# what to do about each
ADVICE: Dict[int, str] = {
    1: "compare the order of its fields, their lengths and byte order, and the counts of quotes and flows with the steps",
    2: "build the curve for one of these step lengths",
    3: "take fewer steps: 60 monthly steps are five years, 60 yearly ones sixty",
    4: "check its unit, ten-thousandths a step; a true reversion so strong needs shorter steps",
    5: "check its unit, millionths a year, and that it is absolute, not relative to the rate",
    6: "correct the calling program",
    7: "look for a rate in percent (3.2 for 0.032), or a rate given as a discount",
    8: "the tree is too wide: less volatility, fewer or shorter steps, or more reversion narrow it",
    9: "look for a quote out of line with its neighbours; then less volatility, more reversion, fewer or shorter steps help",
    10: "give flows for a notional of one and multiply the price",
    11: "expiry is a row before the last one, not a year, and the strike is for a notional of one",
    12: "give flows and strike for a smaller notional and multiply the price",
    13: "list rows in order, each once, the last one before the last row",
    14: "release a tree first, or ask for fewer steps or more reversion",
    15: "ask for a tree before its commit, commit it once, and release it before its name is asked for again",
    16: "correct the band at the place that is shown, counted from 1; place 41 says that only the number of bands is wrong",
    17: "add a band for the pair that is shown, or let one reach it; both ends belong to a band",
    18: "shorten one of the bands that have the pair that is shown; both ends belong to a band",
    19: "fit rate and spread with the same steps, at most 20; longer steps reach further",
}
# ---- end


class Refused(ValueError):
    """A refusal of the engine.

    number is the engine's. argument names the argument at fault. row is the row of the quote or flow at fault, of the lent
    discount, or of the pair that haircut bands fail; price is that pair's price in billionths, and place that of a bad band, counted
    from 1. volatility is a lower one, in millionths, that the same fit accepts. Each is None where there is no such thing. advice says what
    to do; Python 3.11 and later show it below the message.
    """

    number: int
    argument: Optional[str]
    row: Optional[int]
    price: Optional[int]
    place: Optional[int]
    volatility: Optional[int]
    # what mixegorta.desk says in its own units in place of the engine's words and advice
    words: Optional[str] = None
    remedy: Optional[str] = None

    def __init__(self, number: int, argument: Optional[str] = None, row: Optional[int] = None, price: Optional[int] = None,
                 place: Optional[int] = None, volatility: Optional[int] = None) -> None:
        super().__init__(number, argument, row, price, place, volatility)
        self.number, self.argument, self.row, self.price, self.place, self.volatility = number, argument, row, price, place, volatility
        self.__notes__: List[str] = [f"What to do: {self.advice}."]

    @property
    def advice(self) -> str:
        """What to do about it, without a full stop."""
        return ADVICE.get(self.number, "look it up in docs/MANUAL.md") if self.remedy is None else self.remedy

    def __str__(self) -> str:
        if self.words is not None:
            return f"refused {self.number}: {self.words}"
        shown = [f"{word} {value}" for word, value in (("row", self.row), ("price", self.price), ("band", self.place)) if value is not None]
        told = ", ".join(([self.argument] if self.argument else []) + shown)
        told += "" if self.volatility is None else f"; {self.volatility} millionths of volatility are accepted"
        return f"refused {self.number}: {CAUSES.get(self.number, 'not listed')}" + (f" ({told})" if told else "")

    def __repr__(self) -> str:
        more = "".join(f", {word}={value}" for word, value in (("price", self.price), ("place", self.place), ("volatility", self.volatility)) if value is not None)
        return f"{type(self).__name__}(number={self.number}, argument={self.argument!r}, row={self.row}{more})"


# ---- begin: written by tools/declarations.py
class MalformedJob(Refused):
    """1: the job is malformed or longer than 4,700 bytes."""


class UnknownFrequency(Refused):
    """2: the steps a year are not 1, 2, 4 or 12."""


class StepsOutOfRange(Refused):
    """3: the steps are outside 1 to 60."""


class ReversionTooLarge(Refused):
    """4: the reversion is above 6,000."""


class VolatilityTooLarge(Refused):
    """5: the volatility is above 50,000."""


class NotInTree(Refused):
    """6: a length, row or node is not in the tree, a memory is too short, or the strikes are none or more than 16."""


class QuoteOutOfRange(Refused):
    """7: a quote's kind, figure or discount is outside its limits, or the version is not 1 or 2."""


class NodesTooFarApart(Refused):
    """8: the nodes are too far apart. The half width of the last row but one times the spacing of the nodes is above one."""


class NodeDiscountOutOfRange(Refused):
    """9: a node discount is 0 or above 1,100,000,000. Of a fit, row is that of the first quote to which no tree can be fitted; where a
    lower volatility is accepted, argument is volatility, and volatility tells one."""


class FlowTooLarge(Refused):
    """10: a flow is above 2,000,000,000."""


class OptionTermsOutOfRange(Refused):
    """11: the option's kind, side, expiry or strike is outside its limit."""


class ValueTooLarge(Refused):
    """12: a value is above 8,000,000,000, or state prices sum above 2,000,000,100."""


class ExerciseDatesOutOfOrder(Refused):
    """13: the exercise dates are none, not strictly rising, or reach the last row."""


class ShelfFull(Refused):
    """14: the asked nodes and those held are more than 3,600."""


class WrongName(Refused):
    """15: the name is outside 1 to 8, already present at asking, not awaiting a commit at commit, or absent at release or pricing."""


class BadBand(Refused):
    """16: a band has an end before its start, or a haircut, start or end out of range, or there are more than 40 bands. place is that of
    the first bad band, counted from 1, or MAX_BANDS + 1 where only the number of bands is wrong."""


class PairInNoBand(Refused):
    """17: a row and a price are in no band. row and price are the first such pair, by row and then price."""


class PairInSeveralBands(Refused):
    """18: a row and a price are in two or more bands. row and price are the first such pair, by row and then price."""


class PairStepsOutOfRange(Refused):
    """19: the steps of a pair are above 20, or its two trees differ in them."""


CLASSES: Dict[int, Type[Refused]] = {
    1: MalformedJob, 2: UnknownFrequency, 3: StepsOutOfRange, 4: ReversionTooLarge, 5: VolatilityTooLarge, 6: NotInTree, 7: QuoteOutOfRange,
    8: NodesTooFarApart, 9: NodeDiscountOutOfRange, 10: FlowTooLarge, 11: OptionTermsOutOfRange, 12: ValueTooLarge,
    13: ExerciseDatesOutOfOrder, 14: ShelfFull, 15: WrongName, 16: BadBand, 17: PairInNoBand, 18: PairInSeveralBands,
    19: PairStepsOutOfRange,
}
# ---- end
