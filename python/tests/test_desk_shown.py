"""What a desk sees: tables with and without pandas, HTML and pictures of curve, tree and answers."""
import html.parser
import importlib.util
import inspect
import sys
import unittest
import xml.etree.ElementTree
from decimal import Decimal
from unittest import mock

from mixegorta import _desk_picture, desk

EUR = {"3M": "-0.25", "1Y": "0.1", "5Y": "1.6", "10Y": "2.5"}
CURVE = desk.Curve(EUR, compounding="yearly")
MODEL = desk.Model(volatility_bp=70, reversion="0.03")
BOND = desk.Bond(coupon="1.5", maturity="10Y")
NOTE = BOND.callable(on=BOND.coupon_days(first="5Y"), at=100)
TABLES = {"curve": CURVE, "model": MODEL, "answer": desk.price(NOTE, CURVE, MODEL), "strip": desk.strip(NOTE, CURVE, MODEL, at=[99, 100]),
          "sensitivities": desk.sensitivities(NOTE, CURVE, MODEL), "tree": desk.fitted(CURVE, MODEL, frequency=2, until="3Y")}
VOID = {"rect", "line", "circle", "path"}


class Balance(html.parser.HTMLParser):
    """Whether each tag that is opened is closed."""

    def __init__(self):
        super().__init__()
        self.open, self.text = [], ""

    def handle_starttag(self, tag, attributes):
        if tag not in VOID:
            self.open.append(tag)

    def handle_endtag(self, tag):
        if tag in VOID:
            return
        assert self.open.pop() == tag, tag

    def handle_data(self, data):
        self.text += data


def marks(svg, kind):
    """The elements of a class, of a picture that is whole XML."""
    return [each for each in xml.etree.ElementTree.fromstring(svg).iter() if each.get("class") == kind]


class Tables(unittest.TestCase):
    def test_without_pandas_plain_rows(self):
        with mock.patch.dict(sys.modules, {"pandas": None}):
            for name, thing in TABLES.items():
                found = thing.table()
                self.assertIsInstance(found, desk.Table, name)
                self.assertEqual(found, thing.rows())
                self.assertTrue(all(list(row) == found.columns for row in found))

    @unittest.skipUnless(importlib.util.find_spec("pandas"), "pandas is not installed")
    def test_with_pandas_a_frame_of_the_same(self):
        import pandas
        for name, thing in TABLES.items():
            frame, rows = thing.table(), thing.rows()
            self.assertIsInstance(frame, pandas.DataFrame, name)
            self.assertEqual((list(frame.columns), len(frame)), (rows.columns, len(rows)))
            self.assertEqual(frame[rows.columns[1]].tolist(), [row[rows.columns[1]] for row in rows])
        self.assertIsInstance(TABLES["answer"].table()["per 100"][0], Decimal)
        series = pandas.Series([-0.25, 0.1, 1.6, 2.5], index=list(EUR))
        self.assertEqual(desk.Curve.from_series(series, compounding="yearly").discount("7Y"), CURVE.discount("7Y"))
        days = pandas.Series([2.0, 2.5], index=pandas.to_datetime(["2027-11-16", "2028-11-16"]))
        today = pandas.Timestamp("2026-11-16")
        self.assertAlmostEqual(desk.Curve.from_series(days, compounding="yearly", valuation=today).discount("2Y"), 1.025 ** -2, delta=1e-15)

    def test_html(self):
        for name, thing in {**TABLES, "rows": CURVE.rows()}.items():
            page = Balance()
            page.feed(thing._repr_html_())
            self.assertEqual(page.open, [], name)
        for name in ("answer", "strip", "sensitivities", "tree"):
            page = Balance()
            page.feed(TABLES[name]._repr_html_())
            self.assertIn("exact on this tree", page.text, name)
            self.assertIn("Beside the proved core", page.text, name)

    def test_pictures_stand_in_the_html(self):
        for name in ("curve", "answer", "tree"):
            self.assertIn("<svg", TABLES[name]._repr_html_(), name)

    def test_everything_public_has_a_docstring(self):
        self.assertIn("beside the proved core", desk.__doc__)
        for name in desk.__all__:
            thing = getattr(desk, name)
            self.assertTrue(thing.__doc__, name)
            for method, member in vars(thing).items() if inspect.isclass(thing) else ():
                if not method.startswith("_") and (inspect.isfunction(member) or isinstance(member, (property, classmethod))):
                    self.assertTrue(member.__doc__, f"{name}.{method}")


class Pictures(unittest.TestCase):
    def test_the_tree_is_scaled_to_its_state_price(self):
        fitted = desk.fitted(CURVE, MODEL, frequency=4, until="10Y")
        rates, prices = fitted.rates(), fitted.state_prices()
        lowest, highest = _desk_picture.span(rates, prices)
        for row, weights in zip(rates, prices):
            self.assertGreaterEqual(sum(weight for rate, weight in zip(row, weights) if lowest <= rate <= highest) / sum(weights), 0.99)
        self.assertLess(highest - lowest, (max(map(max, rates)) - min(map(min, rates))) / 2)
        frame = _desk_picture.Frame(9.75, lowest, highest)
        shown = [rate for row in rates for rate in row if frame.holds(rate)]
        svg = fitted._repr_svg_()
        self.assertEqual((len(marks(svg, "below")), len(marks(svg, "above"))), (sum(rate < 0 for rate in shown), sum(rate >= 0 for rate in shown)))
        self.assertGreater(len(marks(svg, "below")), 50)
        beyond = sum(any(rate > frame.highest for rate in row) + any(rate < frame.lowest for rate in row) for row in rates)
        self.assertEqual(len(marks(svg, "cut")), beyond)
        self.assertGreater(beyond, 20)

    def test_zero_is_drawn_over_the_nodes(self):
        svg = desk.fitted(CURVE, MODEL, frequency=4, until="10Y")._repr_svg_()
        order = [each.get("class") for each in xml.etree.ElementTree.fromstring(svg).iter() if each.get("class") in ("below", "above", "zero")]
        self.assertEqual((order.count("zero"), order[-1]), (1, "zero"))

    def test_a_hundredth_of_a_percent_below_zero_is_a_square(self):
        for rate, kind in ((-0.01, "below"), (0.0, "above"), (0.01, "above")):
            svg = _desk_picture.tree_svg([[rate]], [[1.0]], 1)
            self.assertEqual([len(marks(svg, each)) for each in ("below", "above")], [kind == "below", kind == "above"])

    def test_curve_and_answers(self):
        svg = CURVE._repr_svg_()
        self.assertEqual((len(marks(svg, "below")), len(marks(svg, "above"))), (1, 3))
        self.assertIn("<svg", TABLES["answer"]._repr_svg_())
        self.assertIn("<svg", desk.Curve({"1Y": 0}, compounding="simple")._repr_svg_())


if __name__ == "__main__":
    unittest.main()
