"""The desk's functions: what they hand to the engine and what they make of its prices, against figures worked out here."""
import datetime
import importlib.util
import math
import os
import pickle
import tempfile
import unittest
import warnings
from decimal import Decimal
from fractions import Fraction

import mixegorta as m
from mixegorta import desk

EUR = {"3M": "-0.25", "6M": "-0.15", "1Y": "0.1", "2Y": "0.6", "3Y": "1.0", "5Y": "1.6", "7Y": "2.1", "10Y": "2.5"}
CURVE = desk.Curve(EUR, compounding="yearly")
MODEL = desk.Model(volatility_bp=70, reversion="0.03")
BOND = desk.Bond(coupon="1.5", maturity="10Y")
NOTE = BOND.callable(on=BOND.coupon_days(first="5Y"), at=100)
TODAY = datetime.date(2026, 11, 16)


def discounts(frequency, steps):
    """Log-linear discounts of the curve above, written apart."""
    known = {0.0: 1.0, **{years: (1 + float(rate) / 100) ** -years for years, rate in zip((0.25, 0.5, 1, 2, 3, 5, 7, 10), EUR.values())}}
    found = []
    for row in range(1, steps + 1):
        time = row / frequency
        low, high = max(t for t in known if t < time), min(t for t in known if t >= time)
        part = (time - low) / (high - low)
        found.append(known[low] ** (1 - part) * known[high] ** part)
    return found


class Curves(unittest.TestCase):
    def test_compounding(self):
        for compounding, wanted in (("simple", 1 / (1 + 0.02 * 2.5)), ("yearly", 1.02 ** -2.5), ("continuous", math.exp(-0.05))):
            for when, asked in (("2Y6M", "2Y6M"), (2.5, "30M"), (datetime.date(2029, 5, 16), 2.5)):
                curve = desk.Curve({when: 2}, compounding=compounding, valuation=TODAY)
                self.assertAlmostEqual(curve.discount(asked), wanted, delta=1e-15)

    def test_between_points_discounts_are_log_linear(self):
        for frequency, steps in ((4, 40), (2, 20), (1, 10), (12, 60)):
            handed = [point.figure for point in CURVE.quotes(frequency, steps)]
            for found, wanted in zip(handed, discounts(frequency, steps)):
                self.assertAlmostEqual(found, wanted, delta=1e-14)

    def test_past_the_last_point_is_an_error(self):
        for ask in (lambda: CURVE.discount("10Y1M"), lambda: CURVE.quotes(1, 11), lambda: CURVE.discount(-1)):
            with self.assertRaisesRegex(desk.InputError, "^(when|steps): .* not on the curve, which goes from today to 10Y$"):
                ask()

    def test_the_table_shows_what_was_asked_and_what_the_engine_took(self):
        rows = CURVE.rows(4)
        self.assertEqual([row["asked, yearly percent"] for row in rows if row["how"] == "quoted"], [Decimal(rate) for rate in EUR.values()])
        self.assertEqual(len(rows), 40)
        for row in rows:
            self.assertEqual(row["taken, billionths"], round(Fraction(row["handed to the engine"]) * m.ONE))
        self.assertEqual(len(CURVE.rows()), 40)

    def test_from_discounts_csv_series_and_quantlib(self):
        curve = desk.Curve.from_discounts({"1Y": "0.99", "2Y": 0.97})
        self.assertEqual((curve.discount("1Y"), curve.discount("2Y")), (0.99, 0.97))
        self.assertEqual(desk.Curve.from_series(Series(EUR), compounding="yearly").discount("4Y"), CURVE.discount("4Y"))
        with tempfile.TemporaryDirectory() as folder:
            path = os.path.join(folder, "curve.csv")
            for text, how in (("tenor,percent\n1Y,2\n2Y,2.5\n", {"compounding": "yearly"}), ("Years;Percent\n1;2\n\n2;2.5\n", {"compounding": "yearly"}),
                              ("tenor;percent\n1Y;2,0\n2Y;2,5\n", {"compounding": "yearly"}),
                              ("date,note,discount\n2027-11-16,a,0.980392156862745\n2028-11-16,b,0.951814396192742\n", {"valuation": TODAY})):
                with open(path, "w") as file:
                    file.write(text)
                self.assertAlmostEqual(desk.Curve.from_csv(path, **how).discount(2), 1.025 ** -2, delta=1e-12)
        curve = desk.Curve.from_quantlib(Structure(), until="2Y", every="6M")
        self.assertEqual((len(curve.points), curve.valuation), (4, TODAY))
        self.assertAlmostEqual(curve.discount("1Y"), math.exp(-0.03 * 365 / 365), delta=1e-15)

    @unittest.skipUnless(importlib.util.find_spec("QuantLib"), "QuantLib is not installed")
    def test_from_quantlib_itself(self):
        import QuantLib
        flat = QuantLib.FlatForward(QuantLib.Date(16, 11, 2026), 0.03, QuantLib.Actual365Fixed())
        curve = desk.Curve.from_quantlib(flat, until="5Y")
        self.assertEqual((len(curve.points), curve.valuation), (60, TODAY))
        self.assertAlmostEqual(curve.discount("2Y"), math.exp(-0.03 * 731 / 365), delta=1e-14)

    def test_moves(self):
        for time in (0.25, 1, 3.5, 10):
            plain = CURVE.discount(time)
            self.assertAlmostEqual(CURVE.moved(10).discount(time), plain * math.exp(-0.001 * time), delta=1e-15)
            keyed = math.prod(CURVE.moved(10, at=key, keys=("1Y", "5Y", "10Y")).discount(time) / plain for key in ("1Y", "5Y", "10Y"))
            self.assertAlmostEqual(keyed, math.exp(-0.001 * time), delta=1e-14)
        self.assertEqual(CURVE.moved(10, at="5Y", keys=("1Y", "5Y", "10Y")).discount("1Y"), CURVE.discount("1Y"))


class Series:
    """What of a pandas Series is asked for."""

    def __init__(self, figures):
        self.figures = figures

    def items(self):
        return iter(self.figures.items())


class Twice:
    """A Series whose index has a tenor twice, as pandas allows."""

    def items(self):
        return iter([("1Y", 1), ("2Y", 2), ("1Y", 3)])


class Day:
    """What of a QuantLib date is asked for."""

    def __init__(self, day, month, year):
        self.date = datetime.date(year, month, day)

    def year(self):
        return self.date.year

    def month(self):
        return self.date.month

    def dayOfMonth(self):
        return self.date.day


class Structure:
    """A flat QuantLib term structure of 3 %."""

    def referenceDate(self):
        return Day(TODAY.day, TODAY.month, TODAY.year)

    def discount(self, day):
        return math.exp(-0.03 * (day.date - TODAY).days / 365)


class Models(unittest.TestCase):
    def test_units(self):
        self.assertEqual([MODEL.handed(frequency) for frequency in (1, 2, 4, 12)], [(300, 7000), (150, 7000), (75, 7000), (25, 7000)])
        self.assertEqual(MODEL.rounding(12), [])

    def test_rounding_is_shown(self):
        model = desk.Model(volatility_bp="70.123", reversion="0.01")
        self.assertEqual(model.handed(12), (8, 7012))
        self.assertEqual(model.rounding(12), ["reversion 0.01 a year was handed over as 0.0096", "volatility, bp 70.123 a year was handed over as 70.12"])
        self.assertIn("reversion 0.01 a year was handed over as 0.0096", desk.price(desk.Bond("1", "5Y"), CURVE, model, frequency=12).notes)


class Bonds(unittest.TestCase):
    def test_flows(self):
        flows, notes = desk.Bond("1.5", "2Y", coupons_a_year=2).flows(4)
        self.assertEqual((flows, notes), ([0, 7_500_000] * 3 + [0, 1_007_500_000], []))
        flows, notes = desk.Bond(1, "9M", coupons_a_year=1, redemption=101).flows(4)
        self.assertEqual((flows, notes), ([0, 0, 1_020_000_000], []))
        flows, notes = desk.Bond("1.3", "1Y", coupons_a_year=12).flows(12)
        self.assertEqual((flows[0], bool(notes)), (1_083_333, True))

    def test_accrued_clean_and_dirty(self):
        answer = desk.price(desk.Bond("1.5", datetime.date(2036, 8, 16), valuation=TODAY), CURVE, MODEL)
        self.assertEqual(answer.accrued, Decimal("0.375"))
        self.assertEqual(answer.clean.value, answer.dirty.value - Decimal("0.375"))
        self.assertEqual(desk.price(BOND, CURVE, MODEL).accrued, 0)

    def test_exercise_between_coupons_is_at_clean_and_accrued(self):
        note = desk.Bond("1.2", "5Y").callable(on=["2Y3M", "3Y3M"], at=101)
        self.assertEqual((note.strike(), note.dates(4)), (1_013_000_000, [9, 13]))
        with self.assertRaisesRegex(desk.InputError, "^on: the days have different accrued interest"):
            desk.Bond("1.2", "5Y").callable(on=["2Y3M", "3Y"], at=101)

    def test_days_that_fall_on_no_row_name_those_that_do(self):
        flat = desk.Curve({"10Y": 1}, compounding="yearly")
        for ask, words in (
                (lambda: desk.Bond(1, "10Y1M").flows(4), "maturity: 10Y1M falls on no row of 4 steps a year; "
                                                         "the nearest rows: 10Y and 10Y3M; no frequency does"),
                (lambda: desk.Bond(1, "2Y1M").flows(4), "maturity: 2Y1M falls on no row of 4 steps a year; "
                                                        "the nearest rows: 2Y and 2Y3M; frequencies that do: 12"),
                (lambda: desk.Bond(1, "10Y").flows(12), "maturity: 10Y is row 120 at 12 steps a year, and a tree has at most 60; frequencies that do: 4, 2, 1"),
                (lambda: desk.Bond(1, "5Y", coupons_a_year=4).flows(2), "coupons_a_year: 3M falls on no row of 2 steps a year; "
                                                                       "the nearest rows: 0M and 6M; frequencies that do: 12, 4"),
                (lambda: desk.Bond(1, "5Y").callable(on="2Y1M").dates(4), "on: 2Y1M falls on no row of 4 steps a year; "
                                                                         "the nearest rows: 2Y and 2Y3M; frequencies that do: 12"),
                (lambda: desk.Bond(1, datetime.date(2028, 11, 17), valuation=TODAY),
                 "maturity: 2028-11-17 is no whole number of months after the valuation date 2026-11-16; the nearest days that are: 2028-11-16, 2028-12-16"),
                (lambda: desk.price(desk.Bond(1, "61M"), flat, MODEL), "maturity: no frequency has all days to 5Y1M on at most 60 rows; "
                                                                       "days that do not fall on a year's row: 1M, 1Y1M, 2Y1M, 3Y1M, 4Y1M, 5Y1M"),
                (lambda: desk.price(desk.Bond(2, "61M", coupons_a_year=12), flat, MODEL),
                 "maturity: no frequency has all days to 5Y1M on at most 60 rows; days that do not fall on a year's row: 1M, 2M, 3M, 4M, 5M, 6M and 50 more"),
                (lambda: desk.price(desk.Bond(1, "61Y"), desk.Curve({"61Y": 1}, compounding="yearly"), MODEL),
                 "maturity: 61Y is row 61 at 1 step a year, and a tree has at most 60")):
            with self.assertRaises(desk.InputError) as raised:
                ask()
            self.assertEqual(str(raised.exception), words)

    def test_the_last_of_a_month(self):
        bond = desk.Bond(1, datetime.date(2027, 2, 28), valuation=datetime.date(2026, 8, 31))
        self.assertEqual(bond.months, 6)


class Words(unittest.TestCase):
    """What a desk is told is in its own units and names what it gave."""

    def said(self, ask):
        with self.assertRaises((desk.InputError, m.Refused)) as raised, warnings.catch_warnings():
            warnings.simplefilter("ignore")
            ask()
        return str(raised.exception), raised.exception

    def test_a_tenor_that_is_none(self):
        for when in ("1W", "2D", "1Q", "soon"):
            self.assertEqual(
                self.said(lambda: desk.Curve({when: 1}, compounding="yearly"))[0],
                f"rates['{when}']: '{when}' is no tenor such as '10Y', '3M' or '1Y6M', no number of years and no date such as '2027-03-31'; "
                "weeks and days are dates or parts of a year")

    def test_dates_as_texts(self):
        """As a CSV has them: for a curve's points, a maturity, days of exercise and the valuation."""
        by_text = desk.Curve({"2027-11-16": 2, "2036-11-16": 3}, compounding="yearly", valuation="2026-11-16")
        by_date = desk.Curve(
            {datetime.date(2027, 11, 16): 2, datetime.date(2036, 11, 16): 3}, compounding="yearly", valuation=TODAY)
        self.assertEqual((by_text.discount("2030-11-16"), by_text.valuation), (by_date.discount("4Y"), TODAY))
        bond = desk.Bond(1, "2036-11-16", valuation="2026-11-16")
        self.assertEqual((bond.months, bond.callable(on=["2030-11-16", "2031-11-16"]).exercise), (120, [48, 60]))
        self.assertIn("is no date of the calendar", self.said(lambda: desk.Bond(1, "2036-13-16", valuation=TODAY))[0])
        self.assertIn("is no date; give a datetime.date, or a text",
                      self.said(lambda: desk.Bond(1, "1Y", valuation="tomorrow"))[0])

    def test_a_maturity_before_the_valuation(self):
        for day in (datetime.date(2020, 1, 1), "2020-01-01"):
            self.assertEqual(
                self.said(lambda: desk.Bond(1, day, valuation=TODAY))[0],
                "maturity: 2020-01-01 is before the valuation date 2026-11-16")

    def test_a_refusal_is_in_a_desks_units(self):
        for number, words, ask in (
            (5, "volatility_bp 5000 is above 500, the most that a tree takes",
             lambda: desk.price(BOND, CURVE, desk.Model(5000, 0))),
            (4, "reversion 0.9 a year is 0.9 a step with 1 step a year, and a tree takes at most 0.6 a step",
             lambda: desk.price(BOND, CURVE, desk.Model(70, "0.9"), frequency=1)),
            (9, "no tree with 1 step a year is fitted to this curve at 3Y with volatility_bp 400 and reversion 0",
             lambda: desk.price(BOND, CURVE, desk.Model(400, 0), frequency=1)),
            (10, "a flow is above 200 per 100 of the notional",
             lambda: desk.price(desk.Bond(1, "10Y", redemption=201), CURVE, MODEL)),
            (11, "the price of exercise with its accrued interest is above 400 per 100 of the notional",
             lambda: desk.price(BOND.callable(on="5Y", at=401), CURVE, MODEL)),
            (7, "the curve's discount at 1Y is outside 0.1 to 2",
             lambda: desk.price(desk.Bond(1, "1Y"), desk.Curve.from_discounts({"1Y": "0.05"}), MODEL, frequency=1))):
            said, refused = self.said(ask)
            self.assertTrue(said.startswith(f"refused {number}: {words}"), said)
            self.assertEqual((refused.number, type(refused)), (number, m.refusals.CLASSES[number]))
            for unit in ("millionths", "billionths", "ten-thousandths", "50,000", "6,000", "notional of one", "expiry"):
                self.assertNotIn(unit, " ".join([said, refused.advice, *refused.__notes__]))
            self.assertEqual(str(pickle.loads(pickle.dumps(refused))), said)

    def test_the_advice_on_a_tree_that_is_not_fitted(self):
        """Another volatility is another model: the desk's advice does not offer it as a way to a price, and a note says
        so before the one that names what is accepted."""
        refused = self.said(lambda: desk.price(BOND, CURVE, desk.Model(400, 0), frequency=1))[1]
        self.assertNotIn("volatility", refused.advice)
        accepted = Decimal(refused.volatility) / 100
        self.assertEqual(refused.__notes__, [
            f"What to do: {refused.advice}.",
            f"Up to volatility_bp {accepted} a tree is fitted; that is another model, and its prices are not these.",
            f"As volatility_bp {accepted} is accepted."])

    def test_a_bad_strike_leaves_the_others(self):
        with warnings.catch_warnings():
            warnings.simplefilter("ignore")
            found, good = (desk.strip(NOTE, CURVE, MODEL, at=at) for at in ([98, 500, 100], [98, 100]))
            self.assertEqual(self.said(lambda: desk.strip(NOTE, CURVE, MODEL, at=[500, 600]))[1].number, 11)
        self.assertEqual([found.answers[place].total for place in (0, 2)], [answer.total for answer in good.answers])
        self.assertEqual([found.answers[place].estimate for place in (0, 2)],
                         [answer.estimate for answer in good.answers])
        self.assertEqual((found.answers[1].number, found.rows()[1]["dirty"], len(found.rows())), (11, None, 3))
        self.assertIn("at 500: refused 11: the price of exercise with its accrued interest is above 400 per 100",
                      str(found))

    def test_nothing_is_zero_in_plain_digits(self):
        answer = desk.price(BOND.callable(on="5Y", at=200), CURVE, MODEL)
        self.assertEqual((str(answer.accrued), str(answer.option.value), answer.option.value), ("0", "0", 0))
        self.assertEqual([line.split()[:2] for line in str(answer.rows()).splitlines() if line.split()[0] in ("call", "accrued")],
                         [["call", "0.0000000"], ["accrued", "0.0000000"]])
        self.assertTrue(str(answer.option).startswith("0.0000000, exact on this tree to 0.0000"))

    @unittest.skipUnless(importlib.util.find_spec("numpy"), "numpy is not installed")
    def test_arrays_of_numpy(self):
        import numpy
        self.assertEqual(desk.Bond(numpy.array(1.5), "10Y").coupon, Decimal("1.5"))
        for ask, name in ((lambda: desk.Bond(numpy.array([1.5, 2]), "10Y"),
                           "coupon"), (lambda: desk.Model(numpy.array([]), 0), "volatility_bp"),
                          (lambda: desk.Curve({"1Y": numpy.array([1, 2])}, compounding="yearly"), r"rates['1Y']"),
                          (lambda: desk.Curve({"1Y": 1}, compounding=numpy.array(["yearly", "simple"])), "compounding"),
                          (lambda: desk.strip(NOTE, CURVE, MODEL, at=numpy.array([[98, 99]])), "at[0]"),
                          (lambda: desk.price(BOND, CURVE, MODEL, frequency=numpy.array([4, 2])), "frequency")):
            said, error = self.said(ask)
            self.assertTrue(said.startswith(f"{name}: ") and isinstance(error, desk.InputError), said)

    def test_what_quantlib_refuses(self):
        class Short(Structure):
            def discount(self, day):
                raise RuntimeError("time (3) is past max curve time (2)")

        class Empty(Structure):
            def referenceDate(self):
                raise RuntimeError("empty Handle cannot be dereferenced")
        self.assertEqual(self.said(lambda: desk.Curve.from_quantlib(Short(), until="3Y"))[0],
                         "until: QuantLib refuses: time (3) is past max curve time (2)")
        self.assertEqual(self.said(lambda: desk.Curve.from_quantlib(Empty(), until="3Y"))[0],
                         "structure: QuantLib refuses: empty Handle cannot be dereferenced")
        self.assertEqual(len(desk.Curve.from_quantlib(Structure(), until="2027-11-16").points), 12)

    @unittest.skipUnless(importlib.util.find_spec("QuantLib"), "QuantLib is not installed")
    def test_what_quantlib_itself_refuses(self):
        import QuantLib
        days = [QuantLib.Date(16, 11, 2026), QuantLib.Date(16, 11, 2028)]
        curve = QuantLib.DiscountCurve(days, [1.0, 0.95], QuantLib.Actual365Fixed())
        self.assertTrue(
            self.said(lambda: desk.Curve.from_quantlib(curve, until="3Y"))[0].startswith("until: QuantLib refuses: "))
        self.assertEqual(len(desk.Curve.from_quantlib(curve, until="2Y").points), 24)


class Prices(unittest.TestCase):
    def test_a_callable_bond_is_bond_less_call(self):
        figures = discounts(4, 40)
        tree = m.Tree(4, 40, 75, 7000, [m.Point(row, m.DISCOUNT_FACTOR, figure) for row, figure in enumerate(figures, 1)])
        flows = [15_000_000 if row % 4 == 0 else 0 for row in range(1, 40)] + [1_015_000_000]
        bond, option = tree.bond_and_dated_option(flows, m.CALL, [20, 24, 28, 32, 36], m.ONE)
        answer = desk.price(NOTE, CURVE, MODEL)
        self.assertEqual((answer.frequency, answer.steps), (4, 40))
        self.assertEqual(answer.bond, (Decimal(bond.value) / 10**7, Decimal(bond.bound) / 10**7))
        self.assertEqual(answer.total, (Decimal(bond.value - option.value) / 10**7, Decimal(bond.bound + option.bound) / 10**7))
        put = tree.bond_and_dated_option(flows, m.PUT, [20, 24, 28, 32, 36], m.ONE).option
        answer = desk.price(BOND.puttable(on=BOND.coupon_days(first="5Y")), CURVE, MODEL)
        self.assertEqual(answer.total, (Decimal(bond.value + put.value) / 10**7, Decimal(bond.bound + put.bound) / 10**7))

    def test_a_bond_is_its_discounted_flows(self):
        exact = sum(Fraction(rate) * Fraction(3, 2) for rate in discounts(1, 10)) + 100 * Fraction(discounts(1, 10)[-1])
        for frequency in (1, 2, 4):
            answer = desk.price(BOND, CURVE, MODEL, frequency=frequency)
            # the quotes are taken to the nearest billionth, and the tree meets each but for the bound of its row's state prices
            missed = sum((answer.fitted.tree.state_price_error_bound(year * frequency) + 1) * (1.5 + 100 * (year == 10)) for year in range(1, 11)) / 1e9
            self.assertLess(abs(float(Fraction(answer.total.value) - exact)), float(answer.total.bound) + missed)
            self.assertLess(missed, 0.001)

    def test_the_cost_of_steps_is_an_estimate_beside_the_bound(self):
        answer, coarse = desk.price(NOTE, CURVE, MODEL), desk.price(NOTE, CURVE, MODEL, frequency=2)
        self.assertEqual((answer.estimate.frequency, answer.estimate.difference), (2, coarse.total.value - answer.total.value))
        self.assertEqual((coarse.estimate.frequency, coarse.estimate.difference), (4, answer.total.value - coarse.total.value))
        self.assertGreater(abs(answer.estimate.difference), 100 * answer.total.bound)
        self.assertIn("exact on this tree to", str(answer))
        self.assertIn("what the steps cost, an estimate: ", str(answer))
        self.assertIn("log-linear discounts", str(answer))

    def test_a_strip_is_its_single_prices(self):
        found = desk.strip(NOTE, CURVE, MODEL, at=[98, "99.5", Decimal(101)])
        for at, answer in zip(found.at, found.answers):
            single = desk.price(BOND.callable(on=BOND.coupon_days(first="5Y"), at=at), CURVE, MODEL)
            self.assertEqual((answer.option, answer.total, answer.clean, answer.estimate), (single.option, single.total, single.clean, single.estimate))
        self.assertEqual([row["at"] for row in found.rows()], [98, Decimal("99.5"), 101])

    def test_everything_is_decimal(self):
        for row in (*desk.price(NOTE, CURVE, MODEL).rows(), *desk.strip(NOTE, CURVE, MODEL, at=[100]).rows(), *desk.sensitivities(BOND, CURVE, MODEL).rows()):
            self.assertTrue(all(value is None or isinstance(value, (Decimal, str)) for value in row.values()), row)

    def test_a_refusal_is_the_engines(self):
        with self.assertRaises(m.VolatilityTooLarge), warnings.catch_warnings():
            warnings.simplefilter("ignore")
            desk.price(desk.Bond(1, "10Y"), CURVE, desk.Model(volatility_bp=5000, reversion=0), frequency=1)
        with self.assertRaises(m.NodeDiscountOutOfRange) as raised:
            desk.price(BOND, CURVE, desk.Model(volatility_bp=400, reversion=0), frequency=1)
        accepted = Decimal(raised.exception.volatility) / 100
        self.assertEqual(raised.exception.__notes__[-1], f"As volatility_bp {accepted} is accepted.")
        desk.price(BOND, CURVE, desk.Model(volatility_bp=accepted, reversion=0), frequency=1)
        with self.assertRaises(m.FlowTooLarge), warnings.catch_warnings():
            warnings.simplefilter("ignore")
            desk.price(desk.Bond(1, "10Y", redemption=201), CURVE, MODEL)


class Risk(unittest.TestCase):
    def test_of_a_bond_against_its_closed_form(self):
        found = desk.sensitivities(BOND, CURVE, MODEL, keys=["2Y", "5Y", "10Y"])
        flows = [(time, (1.5 + 100 * (time == 10)) * rate) for time, rate in zip(range(1, 11), discounts(1, 10))]
        dv01 = sum(value * math.sinh(time / 10_000) for time, value in flows)
        convexity = sum(2 * value * (math.cosh(0.0025 * time) - 1) for time, value in flows) / sum(value for _, value in flows) / 0.0025 ** 2
        for name, wanted in (("dv01", dv01), ("convexity", convexity), ("vega", 0)):
            self.assertLessEqual(float(found[name].low), wanted, name)
            self.assertGreaterEqual(float(found[name].high), wanted, name)
        wide = desk.sensitivities(BOND, CURVE, MODEL, convexity_bp=None)["convexity"]
        convexity = sum(2 * value * (math.cosh(0.01 * time) - 1) for time, value in flows) / sum(value for _, value in flows) / 0.01 ** 2
        self.assertEqual(wide.move_bp, 100)
        self.assertLessEqual(float(wide.low), convexity)
        self.assertGreaterEqual(float(wide.high), convexity)
        keyed = [found[f"dv01 {key}"] for key in ("2Y", "5Y", "10Y")]
        self.assertAlmostEqual(float(sum(each.value for each in keyed)), dv01, delta=float(4 * found.price.bound))
        self.assertIn("exact on this tree", str(found))

    def test_intervals_are_the_bounds_of_the_prices(self):
        found = desk.sensitivities(NOTE, CURVE, MODEL)
        down, up = (desk.price(NOTE, CURVE.moved(move), MODEL).total for move in (-1, 1))
        self.assertEqual(found["dv01"].value, (down.value - up.value) / 2)
        self.assertEqual(found["dv01"].high - found["dv01"].low, down.bound + up.bound)
        more, less = (desk.price(NOTE, CURVE, desk.Model(volatility_bp=figure, reversion="0.03")).total for figure in (71, 69))
        self.assertEqual(found["vega"].value, (more.value - less.value) / 2)
        self.assertLess(found["vega"].high, 0)

    def test_a_note_whose_steps_cost_more_than_the_bounds_tell(self):
        """A falling curve and a note that may be called yearly. A fine tree in floats has a DV01 of 0.0510 and a
        convexity of -93 over 100 basis points, and so has QuantLib with 1,200 steps; studies/sensitivities.py compares
        forty notes on five curves."""
        curve = desk.Curve({"3M": 5.3, "1Y": 5, "2Y": 4.5, "5Y": 4.1, "10Y": 4.2}, compounding="yearly")
        bond, model = desk.Bond("4.5", "10Y"), desk.Model(100, "0.05")
        note = bond.callable(on=bond.coupon_days(first="3Y"), at=100)
        found = desk.sensitivities(note, curve, model, convexity_bp=None)
        for name, fine in (("dv01", 0.0510), ("convexity", -92.5), ("vega", -0.0368)):
            figure = found[name]
            self.assertTrue(figure.supported)
            self.assertLessEqual(abs(float(figure.value) - fine), abs(float(figure.estimate)), name)
        self.assertFalse(found["dv01"].low <= Decimal("0.0510") <= found["dv01"].high)
        self.assertEqual((found["convexity"].move_bp, str(found["convexity"].shown), str(found["dv01"].shown)),
                         (100, "-87", "0.0499"))
        narrow = desk.sensitivities(note, curve, model)
        self.assertFalse(narrow["convexity"].supported)
        self.assertIn("not supported", str(narrow["convexity"]))
        self.assertIn("convexity is not supported: what the steps cost, an estimate, is more than the figure.",
                      str(narrow))
        self.assertEqual([row["note"] for row in narrow.rows()], [None, "not supported", None])
        self.assertNotIn("not supported", str(found))

    def test_the_cost_of_steps_is_the_furthest_that_a_figure_goes(self):
        found = desk.sensitivities(NOTE, CURVE, MODEL)["dv01"]

        def dv01(size, frequency):
            down, up = (desk.price(NOTE, CURVE.moved(sign * size), MODEL, frequency=frequency).total.value
                        for sign in (-1, 1))
            return (down - up) / (2 * size)

        others = {
            "with 2 steps a year in their place": dv01(1, 2), "over moves of 25 bp": dv01(25, 4),
            "over moves of 50 bp": dv01(50, 4)}
        self.assertEqual(found.value, dv01(1, 4))
        by, far = max(((by, other - found.value) for by, other in others.items()), key=lambda pair: abs(pair[1]))
        self.assertEqual((found.by, found.estimate), (by, far.quantize(Decimal("1e-12"))))
        self.assertIn(f"what the steps cost, an estimate: {far:+.2g}"[:40], str(found))

    def test_digits_are_those_that_interval_and_estimate_leave(self):
        for value, estimate, width, shown, low, high in (("0.0498505", "0.0025654", "0.0000512", "0.0499", "0.049824",
                                                          "0.049877"), ("-86.6666", "29.3", "0.02", "-87", "-86.677",
                                                                        "-86.656"), ("1234.5", "340", "2", "1230",
                                                                                     "1233.5", "1235.5"),
                                                         ("0.5", "0", "0", "0.5", "0.5",
                                                          "0.5"), ("0", "0.00012", "0.1", "0", "-0.05", "0.05")):
            half = Decimal(width) / 2
            found = desk.Sensitivity("dv01", Decimal(value),
                                     Decimal(value) - half,
                                     Decimal(value) + half, "", Decimal(1), Decimal(estimate), "")
            self.assertEqual((str(found.shown), *map(str, found.interval)), (shown, low, high))

    def test_a_move_that_is_refused_is_left_out(self):
        """On a curve at the edge of what is accepted the narrower moves are taken, and what is refused is held against
        nothing."""
        edge = next(rate for rate in range(-40, -900, -20) if self.refused(rate - 100) and not self.refused(rate - 50))
        found = desk.sensitivities(desk.Bond(1, "5Y"),
                                   desk.Curve({"5Y": Decimal(edge) / 100}, compounding="continuous"),
                                   desk.Model(50, 0),
                                   frequency=1,
                                   convexity_bp=None)
        self.assertEqual(found["convexity"].move_bp, 50)
        self.assertIsNotNone(found["convexity"].estimate)

    def refused(self, basis_points):
        try:
            desk.price(desk.Bond(1, "5Y"),
                       desk.Curve({"5Y": Decimal(basis_points) / 100}, compounding="continuous"),
                       desk.Model(50, 0),
                       frequency=1)
        except m.Refused:
            return True
        return False

    def test_without_volatility_vega_is_one_sided(self):
        found = desk.sensitivities(NOTE, CURVE, desk.Model(volatility_bp=0, reversion="0.03"))
        one, none = (desk.price(NOTE, CURVE, desk.Model(volatility_bp=figure, reversion="0.03")).total for figure in (1, 0))
        self.assertEqual(found["vega"].value, one.value - none.value)

    def test_a_spread_finds_the_move(self):
        for move in (-40, 0, 123):
            market = desk.price(NOTE, CURVE.moved(move), MODEL).total.value
            found = desk.oas(NOTE, CURVE, MODEL, dirty=market)
            self.assertAlmostEqual(found.basis_points, move, delta=Decimal("0.001"))
            self.assertTrue(found.low < move < found.high)
            self.assertLess(found.high - found.low, Decimal("0.01"))
        with self.assertRaisesRegex(desk.InputError, "^clean: 1000.* is not reached "):
            desk.oas(NOTE, CURVE, MODEL, clean=1000)


class BadInput(unittest.TestCase):
    def test_a_sentence_with_the_arguments_name(self):
        curve = {"compounding": "yearly"}
        for name, ask in (
                (r"rates\['1Q'\]", lambda: desk.Curve({"1Q": 1}, **curve)), (r"rates\['1Y'\]", lambda: desk.Curve({"1Y": "one"}, **curve)),
                (r"rates\['1Y'\]", lambda: desk.Curve({"1Y": float("nan")}, **curve)), (r"rates\['1Y'\]", lambda: desk.Curve({"1Y": True}, **curve)),
                (r"rates\['1Y'\]", lambda: desk.Curve({"1Y": None}, **curve)), (r"rates\['12M'\]", lambda: desk.Curve({"1Y": 1, "12M": 2}, **curve)),
                (r"rates\['0M'\]", lambda: desk.Curve({"0M": 1}, **curve)), (r"rates\['1Y'\]", lambda: desk.Curve({"1Y": -150}, **curve)),
                (r"rates\['1Y'\]", lambda: desk.Curve({"1Y": "1e400"}, **curve)),
                ("rates", lambda: desk.Curve([1, 2], **curve)), ("rates", lambda: desk.Curve({}, **curve)), ("rates", lambda: desk.Curve("1Y 2", **curve)),
                (r"rates\[2027-01-01\]", lambda: desk.Curve({datetime.date(2027, 1, 1): 1}, **curve)),
                ("compounding", lambda: desk.Curve({"1Y": 1}, compounding="daily")), ("valuation", lambda: desk.Curve({"1Y": 1}, valuation="today", **curve)),
                (r"discounts\['1Y'\]", lambda: desk.Curve.from_discounts({"1Y": 0})), ("path", lambda: desk.Curve.from_csv("/nowhere.csv", **curve)),
                ("series", lambda: desk.Curve.from_series([1], **curve)), ("series", lambda: desk.Curve.from_series(Twice(), **curve)),
                ("structure", lambda: desk.Curve.from_quantlib(1, until="1Y")),
                ("volatility_bp", lambda: desk.Model("many", 0)), ("volatility_bp", lambda: desk.Model(-1, 0)), ("reversion", lambda: desk.Model(1, -1)),
                ("version", lambda: desk.Model(1, 0, version=3)), ("frequency", lambda: MODEL.handed(3)), ("frequency", lambda: CURVE.quotes(256 + 4, 4)),
                ("steps", lambda: CURVE.quotes(4, 61)), ("steps", lambda: CURVE.quotes(4, 2**32 + 4)),
                ("coupon", lambda: desk.Bond([], "1Y")), ("coupon", lambda: desk.Bond(-1, "1Y")), ("maturity", lambda: desk.Bond(1, 10)),
                ("maturity", lambda: desk.Bond(1, "ten")), ("maturity", lambda: desk.Bond(1, "0Y")), ("maturity", lambda: desk.Bond(1, TODAY)),
                ("maturity", lambda: desk.Bond(1, TODAY, valuation=datetime.date(2027, 1, 1))), ("coupons_a_year", lambda: desk.Bond(1, "1Y", coupons_a_year=3)),
                ("on", lambda: BOND.callable(on=[])), ("on", lambda: BOND.callable(on=["6Y", "5Y"])), ("on", lambda: BOND.callable(on="10Y")),
                ("on", lambda: BOND.callable(on={"5Y": 100})), (r"on\[0\]", lambda: BOND.callable(on=[5])), ("at", lambda: BOND.callable(on="5Y", at="par")),
                ("at", lambda: desk.strip(NOTE, CURVE, MODEL, at=[])), ("at", lambda: desk.strip(NOTE, CURVE, MODEL, at=[100] * 17)),
                ("at", lambda: desk.strip(NOTE, CURVE, MODEL, at="100")), (r"at\[1\]", lambda: desk.strip(NOTE, CURVE, MODEL, at=[100, "x"])),
                ("instrument", lambda: desk.strip(BOND, CURVE, MODEL, at=[100])), ("instrument", lambda: desk.price(1, CURVE, MODEL)),
                ("curve", lambda: desk.price(BOND, EUR, MODEL)), ("model", lambda: desk.price(BOND, CURVE, 70)),
                ("frequency", lambda: desk.price(BOND, CURVE, MODEL, frequency=3)), ("volatility_bp", lambda: MODEL.with_volatility(-1)),
                ("curve", lambda: desk.price(desk.Bond(1, "11Y"), CURVE, MODEL)), ("curve", lambda: desk.sensitivities(BOND, EUR, MODEL)),
                ("keys", lambda: desk.sensitivities(BOND, CURVE, MODEL, keys="10Y")), ("keys", lambda: desk.sensitivities(BOND, CURVE, MODEL, keys=["x"])),
                ("move_bp", lambda: desk.sensitivities(BOND, CURVE, MODEL, move_bp=0)), ("instrument", lambda: desk.oas(None, CURVE, MODEL, clean=90)),
                ("clean", lambda: desk.oas(NOTE, CURVE, MODEL)), ("clean", lambda: desk.oas(NOTE, CURVE, MODEL, clean="par")),
                ("until", lambda: desk.fitted(CURVE, MODEL, frequency=4, until="16Y"))):
            with self.assertRaisesRegex(desk.InputError, f"^{name}: ", msg=name):
                ask()

    def test_a_csv_that_cannot_be_read_names_its_line(self):
        with tempfile.TemporaryDirectory() as folder:
            path = os.path.join(folder, "curve.csv")
            for text, words in (("tenor,percent\n1Y,2,5\n2Y,x\n", "line 3 of "), ("when,percent\n", "path: "), ("", "path: "),
                                ("tenor,percent\n1Y,\n", "line 2 of "), ("date,percent\nsoon,1\n", "line 2 of "), ("tenor,percent\n1Y,1\n1Y,2\n", "line 3 of ")):
                with open(path, "w") as file:
                    file.write(text)
                with self.assertRaisesRegex(desk.InputError, f"^{words}"):
                    desk.Curve.from_csv(path, compounding="yearly")

    def test_a_csv_with_two_columns_for_one_thing(self):
        with tempfile.TemporaryDirectory() as folder:
            path = os.path.join(folder, "curve.csv")
            for text, words in (("tenor,years,percent\n1Y,1,2\n", "tenor and years, and one is wanted"),
                                ("tenor,percent,discount\n1Y,2,0.98\n", "percent and discount, and one is wanted"),
                                ("tenor,percent,Percent\n1Y,2,3\n", "percent and percent")):
                with open(path, "w") as file:
                    file.write(text)
                with self.assertRaisesRegex(desk.InputError, f"^path: .* names the columns {words}"):
                    desk.Curve.from_csv(path, compounding="yearly")

    def test_further_cells_of_a_csv_are_passed_over_and_warned_of(self):
        """They may be decimals behind a comma."""
        with tempfile.TemporaryDirectory() as folder:
            path = os.path.join(folder, "curve.csv")
            with open(path, "w") as file:
                file.write("tenor,percent\n10Y,2,5\n")
            with self.assertWarnsRegex(desk.UnitWarning, "^line 2 of .*: 3 cells, and the first line has 2; the further ones are passed over") as caught:
                curve = desk.Curve.from_csv(path, compounding="yearly")
            self.assertEqual(os.path.abspath(caught.filename), os.path.abspath(__file__))
            self.assertEqual([point.figure for point in curve.points], [2])

    def test_odd_arguments_never_show_the_internals(self):
        """Whatever stands for one argument, the answer is one, or an InputError or a refusal."""
        odd = (None, True, -1, 0, 7, 2**32 + 4, 2**80, 1e300, float("inf"), "", "1e9", "9999Y", "4", b"1Y", [], [None], [[]], {}, {"1Y": None}, set(), object(),
               TODAY, datetime.datetime.now(), Decimal("sNaN"), 1j, BOND, CURVE, "\0")
        calls = (
            (desk.Curve, ({"1Y": 1},), {"compounding": "yearly", "valuation": None}), (desk.Curve.from_discounts, ({"1Y": 1},), {"valuation": None}),
            (desk.Curve.from_csv, ("/nowhere",), {"compounding": None, "valuation": None}), (desk.Curve.from_series, (Series({"1Y": 1}),), {"compounding": "simple"}),
            (desk.Curve.from_quantlib, (Structure(),), {"until": "1Y", "every": "3M"}), (CURVE.moved, (1,), {"at": "1Y", "keys": ["1Y"]}),
            (CURVE.discount, ("1Y",), {}), (CURVE.quotes, (4, 4), {}), (CURVE.rows, (4,), {}), (desk.Model, (70, 0), {"version": 1}),
            (MODEL.handed, (4,), {}), (MODEL.rows, (4,), {}), (MODEL.with_volatility, (4,), {}),
            (desk.Bond, (1, "1Y"), {"coupons_a_year": 1, "redemption": 100, "valuation": None}), (BOND.coupon_days, ("5Y", "6Y"), {}),
            (BOND.callable, ("5Y", 100), {}), (desk.price, (NOTE, CURVE, MODEL), {"frequency": 1}), (desk.strip, (NOTE, CURVE, MODEL, [100]), {"frequency": 1}),
            (desk.sensitivities, (NOTE, CURVE, MODEL), {"frequency": 1, "keys": ["1Y"], "move_bp": 1, "convexity_bp": 25}),
            (desk.oas, (NOTE, CURVE, MODEL), {"clean": 90, "frequency": 1}), (desk.fitted, (CURVE, MODEL), {"frequency": 1, "until": "5Y"}))
        wrong = []
        with warnings.catch_warnings():
            warnings.simplefilter("ignore")
            for function, given, named in calls:
                for value in odd:
                    tries = [((*given[:place], value, *given[place + 1:]), named) for place in range(len(given))]
                    tries += [(given, {**named, name: value}) for name in named]
                    for arguments, names in tries:
                        try:
                            function(*arguments, **names)
                        except (desk.InputError, m.Refused):
                            pass
                        except Exception as error:
                            wrong.append(f"{function.__name__}{arguments!r:.80} {names!r:.120}: {error!r}")
        self.assertEqual("\n".join(wrong), "")

    def test_figures_that_look_like_another_unit_are_warned_of(self):
        for name, ask in (
                ("rates", lambda: desk.Curve({"1Y": 25}, compounding="yearly")), ("rates", lambda: desk.Curve({"1Y": 0.03}, compounding="yearly")),
                ("volatility_bp", lambda: desk.Model(501, 0)), ("volatility_bp", lambda: desk.Model(0.007, 0)), ("reversion", lambda: desk.Model(70, 3)),
                ("coupon", lambda: desk.Bond(102, "1Y")), ("coupon", lambda: desk.Bond("0.015", "1Y")), ("redemption", lambda: desk.Bond(1, "1Y", redemption=1000)),
                ("redemption", lambda: desk.Bond(1, "1Y", redemption="0.05")), ("redemption", lambda: desk.Bond(1, "1Y", redemption=1)),
                ("points", lambda: m.Tree(1, 1, 0, 0, [m.Point(1, m.YEARLY_RATE, 3.2)])),
                ("points", lambda: m.Tree(1, 1, 0, 0, [m.Point(1, m.YEARLY_YIELD, 0.3)])), ("at", lambda: BOND.callable(on="5Y", at=1)),
                ("at", lambda: BOND.callable(on="5Y", at=1000))):
            with self.assertWarnsRegex(desk.UnitWarning, f"^{name}: ") as caught:
                ask()
            self.assertEqual(os.path.abspath(caught.filename), os.path.abspath(__file__))
        with warnings.catch_warnings():
            warnings.simplefilter("error")
            desk.Curve({"1Y": 20}, compounding="yearly")
            desk.Model(500, 1)
            desk.Bond(20, "1Y", redemption=200).callable(on="0M", at=200)
            m.Tree(1, 2, 0, 0, [m.Point(1, m.YEARLY_RATE, 0.2), m.Point(2, m.DISCOUNT_FACTOR, 0.9)])


if __name__ == "__main__":
    unittest.main()
