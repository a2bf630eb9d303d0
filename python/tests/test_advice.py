"""What a refusal says to do, the volatility that would be accepted, and units in the documentation."""
import copy
import inspect
import pathlib
import pickle
import re
import subprocess
import sys
import unittest

import mixegorta as m
from mixegorta import _units

TABLE = pathlib.Path(__file__).resolve().parents[2] / "tools/refusals.txt"
LOW = [m.Point(row, m.YEARLY_YIELD, -0.0025) for row in range(1, 21)]
NEVER = [m.Point(row, m.DISCOUNT_FACTOR, 1.2) for row in range(1, 21)]
# arguments whose meaning is the whole of what they are
WITHOUT_UNITS = {"self", "cls", "amount", "figure", "number", "argument", "place"}


def refused(function, *given, **named):
    try:
        function(*given, **named)
    except m.Refused as refusal:
        return refusal
    raise AssertionError("not refused")


class Advice(unittest.TestCase):
    @unittest.skipUnless(TABLE.exists(), "the table stands in the repository")
    def test_it_is_that_of_the_table(self):
        remedies = re.findall(r"^    remedy +(.*)$", TABLE.read_text(), re.M)
        self.assertEqual([m.Refused(number).advice for number in m.CAUSES], remedies)
        self.assertEqual(list(m.ADVICE), list(m.CAUSES))

    def test_it_is_shown_below_the_message(self):
        self.assertEqual(m.Refused(3).__notes__, [f"What to do: {m.ADVICE[3]}."])
        self.assertEqual(m.Refused(99).advice, "look it up in docs/MANUAL.md")
        code = "import mixegorta as m; m.Tree(1, 61, 0, 0, [])"
        folder = str(pathlib.Path(m.__file__).parents[1])
        done = subprocess.run([sys.executable, "-B", "-c", code], stderr=subprocess.PIPE, text=True, env={"PYTHONPATH": folder, "MIXEGORTA_LIBRARY": m._library.PATH})
        lines = done.stderr.splitlines()
        wanted = ["mixegorta.refusals.StepsOutOfRange: refused 3: the steps are outside 1 to 60 (steps)"]
        wanted += [f"What to do: {m.ADVICE[3]}."] if sys.version_info >= (3, 11) else []
        self.assertEqual(lines[-len(wanted):], wanted)


class LowerVolatility(unittest.TestCase):
    def test_a_lower_one_is_accepted_and_the_next_is_not(self):
        for version, number, volatility, row in ((1, 9, 10_000, 7), (2, 9, 10_000, 7), (1, 8, 50_000, None)):
            refusal = refused(m.Tree, 1, 20, 0, volatility, LOW, version=version)
            self.assertEqual((refusal.number, refusal.argument, refusal.row), (number, "volatility", row))
            self.assertLess(refusal.volatility, volatility)
            m.Tree(1, 20, 0, refusal.volatility, LOW, version=version)
            self.assertEqual(refused(m.Tree, 1, 20, 0, refusal.volatility + 1, LOW, version=version).number, 9)
            self.assertIn(f"; {refusal.volatility} millionths of volatility are accepted)", str(refusal))
            for kept in (pickle.loads(pickle.dumps(refusal)), copy.copy(refusal)):
                self.assertEqual((kept.volatility, str(kept), repr(kept)), (refusal.volatility, str(refusal), repr(refusal)))

    def test_where_none_is_accepted_the_points_are_named(self):
        for volatility in (0, 10_000):
            refusal = refused(m.Tree, 1, 20, 0, volatility, NEVER)
            self.assertEqual((refusal.number, refusal.argument, refusal.row, refusal.volatility), (9, "points", 1, None))

    def test_on_a_shelf_and_of_a_job(self):
        wanted = refused(m.Tree, 1, 20, 0, 10_000, LOW).volatility
        shelf = m.Shelf()
        shelf.ask(1, 20, 0)
        refusal = refused(shelf.commit, 1, 1, 10_000, LOW)
        self.assertEqual((refusal.number, refusal.argument, refusal.row, refusal.volatility), (9, "volatility", 7, wanted))
        job = m.Job(1, 0, 10_000, [m.JobQuote.of(m.YEARLY_YIELD, -0.0025)] * 20, [0] * 20).to_bytes()
        refusal = refused(m.sheet, job)
        self.assertEqual((refusal.number, refusal.argument, refusal.row, refusal.volatility), (9, "job", 7, wanted))


class Units(unittest.TestCase):
    def public(self):
        """Every public function and method by its title, with what is shown of it."""
        for name in m.__all__:
            thing = getattr(m, name)
            if inspect.isfunction(thing):
                yield name, thing, thing
            if inspect.isclass(thing) and not issubclass(thing, Exception):
                if inspect.isfunction(vars(thing).get("__init__")):
                    yield name, thing.__init__, thing
                for method, member in vars(thing).items():
                    function = member.__func__ if isinstance(member, classmethod) else member
                    if inspect.isfunction(function) and not method.startswith("_"):
                        yield f"{name}.{method}", function, function

    def test_every_argument_has_its_unit_and_range(self):
        found = list(self.public())
        self.assertGreater(len(found), 60)
        for title, function, shown in found:
            units = _units.units_of(title, function)
            for name in inspect.signature(function).parameters:
                self.assertTrue(name in units or name in WITHOUT_UNITS, f"{title}: {name}")
            for name, words in units.items():
                self.assertIn(f"\n{name}: {words}.", shown.__doc__, title)

    def test_a_tree_says_its_units(self):
        for words in ("frequency: steps a year, 1, 2, 4 or 12.", "volatility: a year, absolute, in millionths, 0 to 50,000; ", "reversion: a step, in ten-thousandths, 0 to 6,000; "):
            self.assertIn(words, m.Tree.__doc__)


if __name__ == "__main__":
    unittest.main()
