"""A desk's day over the proved engine: percent, tenors and dates in; prices per 100, sensitivities and pictures out.

Everything here stands beside the proved core: nothing of it is proved. Each price that it shows is an answer of the engine's with its error bound; "exact on
this tree" is said of that bound, which is no distance from the market. What the length of the steps costs is estimated beside it.

    from mixegorta import desk

    curve = desk.Curve({"3M": "-0.25", "1Y": "0.1", "5Y": "1.6", "10Y": "2.5"}, compounding="yearly")
    model = desk.Model(volatility_bp=70, reversion="0.03")
    bond = desk.Bond(coupon="1.5", maturity="10Y")
    note = bond.callable(on=bond.coupon_days(first="5Y"), at=100)
    print(desk.price(note, curve, model))
    print(desk.strip(note, curve, model, at=[98, 99, 100, 101]))
    print(desk.sensitivities(note, curve, model, keys=["2Y", "5Y", "10Y"]))
    print(desk.oas(note, curve, model, clean="90"))

Rates and coupons are in percent, volatilities in basis points a year, reversions a part of one a year, prices per 100. Numbers may be int, float, Decimal
or str; answers are Decimals. A figure that looks like another unit gives a UnitWarning, an input that cannot be taken an InputError whose sentence begins
with the argument's name, and the engine's own refusals are raised as they are. Tables are pandas DataFrames where pandas is installed.
"""
from ._desk_bond import Bond, BondWithOption
from ._desk_curve import Curve, Model
from ._desk_inputs import InputError, UnitWarning
from ._desk_prices import Answer, FittedTree, Priced, StepEstimate, Strip, fitted, price, strip
from ._desk_risk import Sensitivities, Sensitivity, sensitivities
from ._desk_spread import Spread, oas
from ._desk_tables import Table

__all__ = ["Answer", "Bond", "BondWithOption", "Curve", "FittedTree", "InputError", "Model", "Priced", "Sensitivities", "Sensitivity", "Spread",
           "StepEstimate", "Strip", "Table", "UnitWarning", "fitted", "oas", "price", "sensitivities", "strip"]
