"""Prices per 100 of bonds with and without options. Beside the proved core: the engine prices, and what is made of its prices is not proved."""
from decimal import Decimal
from fractions import Fraction
from typing import Any, Iterable, List, NamedTuple, Optional, Tuple, Union

from . import _desk_picture as picture
from ._desk_bond import Bond, BondWithOption, Instrument, frequency_of, other_frequency
from ._desk_curve import Curve, Model
from ._desk_inputs import FREQUENCIES, MONTHS_A_YEAR, InputError, Number, months, number, row, tenor, whole
from ._desk_refusals import desk_units, in_desk_units
from ._desk_tables import Table, Tabled
from ._engine import STATE_PRICES, Price, curve_discounts
from ._limits import MAX_STEPS, MAX_STRIKES
from ._tree import Tree
from .refusals import Refused

PLACES = Decimal(1).scaleb(-7)
INTERPOLATION = "the curve was brought to the rows by log-linear discounts"


class Priced(NamedTuple):
    """A price per 100, and how far from it the exact price on the same tree may be, per 100 too."""

    value: Decimal
    bound: Decimal

    def __str__(self) -> str:
        return f"{self.value:.7f}, exact on this tree to {self.bound:.7f}"


def per_100(price: Price) -> Priced:
    """A price of the engine per 100, exactly."""
    return Priced(_decimal(Fraction(price.value, 10**7)), _decimal(Fraction(price.bound, 10**7)))


def of(found: Any) -> Price:
    """A price of a strip or of both prices; its refusal is raised."""
    if isinstance(found, Refused):
        raise found
    price: Price = found
    return price


class FittedTree(Tabled):
    """A tree that the engine fitted to a desk's curve and model; tree is the engine's own. A notebook shows it as a picture."""

    def __init__(self, curve: Curve, model: Model, frequency: int, steps: int) -> None:
        reversion, volatility = model.handed(frequency)
        self.curve, self.model, self.frequency, self.steps = curve, model, frequency, steps
        with desk_units(model, frequency):
            self.tree = Tree(frequency, steps, reversion, volatility, curve.quotes(frequency, steps), version=model.version)

    def rates(self) -> List[List[float]]:
        """The yearly rate of each node in percent, by row, lowest node first: the step rate times the steps a year."""
        return [[rate * self.frequency / 1e7 for rate in self.tree.step_rates(row)] for row in range(self.steps)]

    def state_prices(self) -> List[List[float]]:
        """What one paid at a node alone is worth today, by row, lowest node first."""
        return [[price / 1e9 for price in self.tree.row(STATE_PRICES, row) or ()] for row in range(self.steps)]

    def rows(self) -> Table:
        """A line for each row of the tree: its nodes, its lowest and highest yearly rate, its state price, and how far below the exact one that may be."""
        lines = []
        for place, (rates, prices) in enumerate(zip(self.rates(), self.state_prices())):
            lines.append((place, tenor(place * MONTHS_A_YEAR // self.frequency), len(rates), f"{rates[0]:.7f}", f"{rates[-1]:.7f}", f"{sum(prices):.9f}",
                          self.tree.state_price_error_bound(place)))
        return Table(("row", "tenor", "nodes", "lowest rate, percent", "highest rate, percent", "state price", "exact on this tree to, billionths"), lines)

    def __repr__(self) -> str:
        return f"<FittedTree of {self.steps} steps, {self.frequency} a year, {len(self.tree.discounts)} nodes>"

    def _repr_svg_(self) -> str:
        return picture.tree_svg(self.rates(), self.state_prices(), self.frequency)


class StepEstimate(NamedTuple):
    """An estimate of what the length of the steps costs: the price at another frequency less this one, per 100. It is no bound."""

    frequency: int
    price: Decimal
    difference: Decimal

    def __str__(self) -> str:
        return f"what the steps cost, an estimate: {self.difference:+.7f} with {self.frequency} steps a year in their place"


class Answer(Tabled):
    """A bond's price, with that of its option where it has one, per 100.

    bond and option are the engine's prices with their bounds; total is what the holder pays, dirty: the bond, bond less call with the sum of both bounds,
    or bond and put. clean is total less accrued. estimate is what the same at another frequency gives, where everything falls on its rows.
    """

    def __init__(self, instrument: Instrument, fitted: FittedTree, bond: Priced, option: Optional[Priced], notes: List[str]) -> None:
        self.instrument, self.fitted, self.bond, self.option, self.notes = instrument, fitted, bond, option, notes
        self.frequency, self.steps = fitted.frequency, fitted.steps
        self.total = bond if option is None else _with_option(instrument, bond, option)
        self.accrued = _decimal(_bond_of(instrument).accrued())
        self.clean = Priced(self.total.value - self.accrued, self.total.bound)
        self.estimate: Optional[StepEstimate] = None

    @property
    def dirty(self) -> Priced:
        """The price with accrued interest, which is the total."""
        return self.total

    def rows(self) -> Table:
        """Bond, option, dirty, accrued and clean, each per 100 with its bound."""
        lines: List[Tuple[Any, ...]] = [("bond", *self.bond)]
        if self.option is not None and isinstance(self.instrument, BondWithOption):
            lines += [("call" if self.instrument.kind == "callable" else "put", *self.option)]
        lines += [(f"{_kind(self.instrument)}, dirty", *self.total), ("accrued", self.accrued, None), (f"{_kind(self.instrument)}, clean", *self.clean)]
        return Table(("what", "per 100", "exact on this tree to"), lines, ("per 100", "exact on this tree to"))

    def __str__(self) -> str:
        estimate = self.estimate or "what the steps cost: there is no estimate, since no other tree has every day on a row"
        return "\n".join([f"{_kind(self.instrument)} {self.total} (dirty, per 100; {self.frequency} steps a year)", str(estimate), *self.notes])

    def __repr__(self) -> str:
        return f"<Answer {_kind(self.instrument)} {self.total}>"

    def _repr_svg_(self) -> str:
        return self.fitted._repr_svg_()


def _kind(instrument: Instrument) -> str:
    return "bond" if isinstance(instrument, Bond) else f"{instrument.kind} bond"


def _bond_of(instrument: Instrument) -> Bond:
    if isinstance(instrument, Bond):
        return instrument
    if isinstance(instrument, BondWithOption):
        return instrument.bond
    raise InputError(f"instrument: a {type(instrument).__name__} is no Bond, and none with an option")


def _decimal(value: Fraction) -> Decimal:
    """To as many decimals as a price per 100 has; nothing is plain 0, which Python would write as 0E-7."""
    return Decimal(round(value * 10**7)).scaleb(-7) if value else Decimal(0)


def _with_option(instrument: Instrument, bond: Priced, option: Priced) -> Priced:
    sign = -1 if isinstance(instrument, BondWithOption) and instrument.kind == "callable" else 1
    return Priced(bond.value + sign * option.value, bond.bound + option.bound)


def _of_kinds(curve: Curve, model: Model) -> None:
    for name, given, kind in (("curve", curve, Curve), ("model", model, Model)):
        if not isinstance(given, kind):
            raise InputError(f"{name}: a {type(given).__name__} is no {kind.__name__} of mixegorta.desk")


def checked(instrument: Instrument, curve: Curve, model: Model) -> Bond:
    """The instrument's bond, where all three are what their names say and of one day."""
    bond = _bond_of(instrument)
    _of_kinds(curve, model)
    if bond.valuation and curve.valuation and bond.valuation != curve.valuation:
        raise InputError(f"curve: its valuation date {curve.valuation} is not the bond's, {bond.valuation}")
    if bond.months > curve.last * MONTHS_A_YEAR:
        raise InputError(f"curve: it ends at {curve.points[-1].name}, before maturity, {bond.named(bond.months)}")
    return bond


def _terms(instrument: Instrument, curve: Curve, model: Model, frequency: Optional[int]) -> Tuple[FittedTree, List[int], List[str]]:
    """The tree, the flows, and what was rounded on the way."""
    bond = checked(instrument, curve, model)
    each = frequency_of(instrument, frequency)
    flows, notes = bond.flows(each)
    return FittedTree(curve, model, each, len(flows)), flows, [INTERPOLATION, *model.rounding(each), *notes]


def _fit_note(tree: FittedTree, flows: List[int], bond: Priced) -> str:
    """How far the tree's bond is from the flows discounted by the quotes that the engine took."""
    quotes = tree.curve.quotes(tree.frequency, tree.steps)
    by_quotes = Decimal(sum(flow * quote for flow, quote in zip(flows, curve_discounts(tree.frequency, tree.steps, quotes)))).scaleb(-16)
    return f"the quotes alone give the bond {by_quotes.quantize(PLACES):f}; the tree meets them to {(bond.value - by_quotes).quantize(PLACES):+f}"


def fitted(curve: Curve, model: Model, *, frequency: int, until: str) -> FittedTree:
    """The tree of a curve and a model, with so many steps a year, to a tenor."""
    _of_kinds(curve, model)
    whole("frequency", frequency, FREQUENCIES)
    return FittedTree(curve, model, frequency, row("until", months("until", until, None), frequency, MAX_STEPS, None))


def once(instrument: Instrument, curve: Curve, model: Model, frequency: Optional[int]) -> Answer:
    """The prices at one frequency, without the estimate of another."""
    tree, flows, notes = _terms(instrument, curve, model, frequency)
    with desk_units(model, tree.frequency):
        if isinstance(instrument, Bond):
            return Answer(instrument, tree, per_100(tree.tree.bond_price(flows)), None, notes)
        both = tree.tree.bond_and_dated_option(flows, instrument.side, instrument.dates(tree.frequency),
                                               instrument.strike())
        return Answer(instrument, tree, per_100(of(both.bond)), per_100(of(both.option)), notes)


def price(instrument: Instrument, curve: Curve, model: Model, *, frequency: Optional[int] = None) -> Answer:
    """The price of a bond, alone or with its option, and an estimate of what the steps cost.

    frequency is the steps a year, 1, 2, 4 or 12; without it the finest that has every day on one of at most 60 rows. A refusal of the engine is
    raised as it is.
    """
    answer = once(instrument, curve, model, frequency)
    answer.notes.append(_fit_note(answer.fitted, _bond_of(instrument).flows(answer.frequency)[0], answer.bond))
    other = other_frequency(instrument, answer.frequency)
    if other is not None:
        try:
            _estimate([answer], [once(instrument, curve, model, other)])
        except Refused:
            answer.notes.append(f"with {other} steps a year the engine refuses the tree, so there is no estimate of what the steps cost")
    return answer


def _estimate(answers: List[Answer], others: List[Answer]) -> None:
    """Sets beside each answer what the same costs at another frequency."""
    for answer, other in zip(answers, others):
        answer.estimate = StepEstimate(other.frequency, other.total.value, other.total.value - answer.total.value)


class Strip(Tabled):
    """The same bond and days of exercise at several prices of exercise, in one call of the engine: for each an Answer,
    or the engine's refusal of it."""

    def __init__(self, at: List[Decimal], answers: "List[Union[Answer, Refused]]") -> None:
        self.at, self.answers = at, answers

    def rows(self) -> Table:
        """A line for each price of exercise: option and total, per 100."""
        lines: List[Tuple[Any, ...]] = []
        for at, answer in zip(self.at, self.answers):
            if isinstance(answer, Refused):
                lines.append((at, *[None] * 6))
                continue
            option = answer.option or Priced(Decimal(0), Decimal(0))
            cost = None if answer.estimate is None else answer.estimate.difference
            lines.append((at, option.value, option.bound, answer.total.value, answer.total.bound, answer.clean.value, cost))
        columns = ("at", "option", "exact on this tree to", "dirty", "its exact on this tree to", "clean", "what the steps cost, an estimate")
        return Table(columns, lines, columns[1:])

    def __str__(self) -> str:
        refused = [(at, answer) for at, answer in zip(self.at, self.answers) if isinstance(answer, Refused)]
        told = [f"at {at}: {answer}. What to do: {answer.advice}." for at, answer in refused]
        return "\n".join([str(self.rows()), *told])


def strip(instrument: BondWithOption, curve: Curve, model: Model, at: Iterable[Number], *, frequency: Optional[int] = None) -> Strip:
    """Up to 16 clean prices of exercise per 100, one option each, priced together. One that is refused leaves the
    others as they are; where every one is, the first refusal is raised."""
    if not isinstance(instrument, BondWithOption):
        raise InputError(f"instrument: a {type(instrument).__name__} has no option; give bond.callable(..) or bond.puttable(..)")
    if isinstance(at, (str, bytes, dict, set, frozenset)) or not hasattr(at, "__iter__"):
        raise InputError(f"at: a {type(at).__name__} is no list of prices")
    prices = [number(f"at[{place}]", each) for place, each in enumerate(at)]
    if not 1 <= len(prices) <= MAX_STRIKES:
        raise InputError(f"at: {len(prices)} prices; a strip has 1 to {MAX_STRIKES}")
    answers = _strip(instrument, curve, model, prices, frequency)
    priced = [answer for answer in answers if isinstance(answer, Answer)]
    if not priced:
        raise next(answer for answer in answers if isinstance(answer, Refused))
    other = other_frequency(instrument, priced[0].frequency)
    if other is not None:
        try:
            found = _strip(instrument, curve, model,
                           [at for at, answer in zip(prices, answers) if isinstance(answer, Answer)], other)
            _estimate(priced, [answer for answer in found if isinstance(answer, Answer)])
        except Refused:
            pass
    return Strip(prices, answers)


def _strip(instrument: BondWithOption, curve: Curve, model: Model, prices: List[Decimal],
           frequency: Optional[int]) -> "List[Union[Answer, Refused]]":
    tree, flows, notes = _terms(instrument, curve, model, frequency)
    with desk_units(model, tree.frequency):
        bond = per_100(tree.tree.bond_price(flows))
        found = tree.tree.option_strip(flows, instrument.side, instrument.dates(tree.frequency),
                                       [instrument.strike(each) for each in prices])
    struck = [BondWithOption(instrument.bond, instrument.kind, [tenor(count) for count in instrument.exercise], each) for each in prices]
    return [in_desk_units(option, model, tree.frequency) if isinstance(option, Refused)
            else Answer(one, tree, bond, per_100(option), notes) for one, option in zip(struck, found)]
