"""Haircut bands: the limits and one past them, what each refusal shows, and what is no list of numbers."""
import pickle
import unittest
from array import array
from decimal import Decimal

import mixegorta as m
from mixegorta import MAX_BANDS, MAX_HAIRCUT, MAX_VALUE, ONE, Band, Bands
from test_arguments import Masked

ALL = Band(1, 60, 0, MAX_VALUE, 250)
COLUMNS = [list(column) for column in zip(ALL)]


def rows(count):
    """A band for each of the rows 1 to count - 1, and one for all later ones."""
    return [Band(row, row, 0, MAX_VALUE, 100 * (row - 1)) for row in range(1, count)] + [Band(count, 60, 0, MAX_VALUE, 0)]


class Test(unittest.TestCase):
    def shown(self, kind, row, price, place, bands):
        refused = Bands(bands).verdict()
        self.assertEqual((type(refused), refused.argument, refused.row, refused.price, refused.place), (kind, "bands", row, price, place))
        with self.assertRaises(kind) as caught:
            Bands(bands).worth(60, 0)
        self.assertEqual(caught.exception.args, refused.args)
        with self.assertRaises(kind) as caught:
            m.check_bands(*zip(*bands) if bands else [()] * 5)
        self.assertEqual(caught.exception.args, refused.args)
        return refused

    def test_one_band(self):
        self.assertIsNone(Bands([ALL]).verdict())
        self.assertIsNone(m.check_bands(*COLUMNS))
        self.shown(m.PairInNoBand, 1, 0, None, [])
        for field, past in (("first_row", (0, 61, 256 + 1, 2**32 + 1)), ("last_row", (0, 61, 256 + 60, 2**32 + 60)),
                            ("lowest_price", (MAX_VALUE + 1, 2**64 - 1)), ("highest_price", (MAX_VALUE + 1, MAX_VALUE + 2**32)),
                            ("haircut", (MAX_HAIRCUT + 1, 2**16 + 250, 2**32 + 250))):
            for number in past:
                self.shown(m.BadBand, None, None, 1, [ALL._replace(**{field: number})])
        for haircut in (0, MAX_HAIRCUT):
            self.assertIsNone(Bands([ALL._replace(haircut=haircut)]).verdict())

    def test_pairs(self):
        self.assertIsNone(Bands([ALL._replace(highest_price=99), ALL._replace(lowest_price=100)]).verdict())
        self.shown(m.PairInSeveralBands, 1, 100, None, [ALL._replace(highest_price=100), ALL._replace(lowest_price=100)])
        self.shown(m.PairInNoBand, 1, 99, None, [ALL._replace(highest_price=98), ALL._replace(lowest_price=100)])
        self.shown(m.PairInSeveralBands, 1, 7, None, [ALL._replace(last_row=1), Band(1, 1, 7, 7, 0), ALL._replace(first_row=3)])
        self.shown(m.PairInNoBand, 60, MAX_VALUE, None, [ALL._replace(last_row=59), Band(60, 60, 0, MAX_VALUE - 1, 0)])

    def test_places(self):
        bad = ALL._replace(last_row=61)
        self.assertIsNone(Bands(rows(MAX_BANDS)).verdict())
        self.shown(m.BadBand, None, None, MAX_BANDS + 1, rows(41))
        self.shown(m.BadBand, None, None, 42, [*rows(41), bad])
        self.shown(m.BadBand, None, None, 2, [ALL, bad, *rows(41)])

    def test_worths(self):
        table = Bands(rows(3))
        self.assertEqual([table.worth(1, ONE), table.worth(2, ONE + 1), table.worth(3, "0.000000001")], [ONE, 990_000_000, 1])
        self.assertEqual([table.worth(2, Decimal("1.5")), Bands([ALL._replace(haircut=10_000)]).worth(60, MAX_VALUE)], [1_485_000_000, 0])
        self.assertEqual(m.lending_worth(*COLUMNS, 60, ONE), 975_000_000)
        for row in (0, 61, 256 + 1, 2**32 + 1, 2**64 - 1):
            self.refused(m.NotInTree, "row", table.worth, row, MAX_VALUE + 1)
        for price in (MAX_VALUE + 1, 2**32 + MAX_VALUE, 2**64 - 1):
            self.refused(m.ValueTooLarge, "price", table.worth, 60, price)
        for number in (-1, 2**64 + 1):
            self.assertRaises(OverflowError, table.worth, number, 0)
            self.assertRaises(OverflowError, table.worth, 1, number)

    def refused(self, kind, argument, function, *given):
        with self.assertRaises(m.Refused) as caught:
            function(*given)
        refused = caught.exception
        self.assertEqual((type(refused), refused.argument, refused.row, refused.price, refused.place), (kind, argument, None, None, None))

    def test_lengths(self):
        names = "first_rows", "last_rows", "lowest_prices", "highest_prices", "haircuts"
        for place, name in enumerate(names):
            given = COLUMNS[:place] + [COLUMNS[place] * 2] + COLUMNS[place + 1:]
            self.refused(m.NotInTree, name if place else "last_rows", m.check_bands, *given)
            self.refused(m.NotInTree, name if place else "last_rows", m.lending_worth, *given, 1, MAX_VALUE + 1)

    def test_what_is_no_list_of_numbers(self):
        """A dict and a set iterate over numbers that nobody means, a masked array holds them, and a text is no list of rows."""
        for place in range(5):
            for given in ({1: 1}, {1: 1}.keys(), {1}, frozenset((1,)), "1", 1, None, Masked([1]), [None], [[1]], [1.0]):
                lists = COLUMNS[:place] + [given] + COLUMNS[place + 1:]
                self.assertRaises(TypeError, m.check_bands, *lists)
                self.assertRaises(TypeError, m.lending_worth, *lists, 1, 0)
            lists = [array("Q", column) for column in COLUMNS]
            self.assertIsNone(m.check_bands(*lists[:place], Masked(COLUMNS[place], masked=False), *lists[place + 1:]))
        for given in ({ALL: 1}, {ALL}, "12345", ["12345"], [{1, 60, 0, 8, 250}], [dict.fromkeys("abcde")], [ALL[:4]], [(*ALL, 0)], [None], 5):
            self.assertRaises(TypeError, Bands, given)
        for field in ("first_row", "last_row", "haircut"):
            self.assertRaises(TypeError, Bands, [ALL._replace(**{field: "1"})])
            self.assertRaises(TypeError, Bands, [ALL._replace(**{field: Decimal(1)})])
        self.assertRaises(TypeError, Bands, [ALL._replace(lowest_price=0.5)])

    def test_tables(self):
        table = Bands([(1, 60, "0", Decimal(8), 250)])
        self.assertEqual((list(table), len(table), len(Bands([]))), ([ALL], 1, 0))
        self.assertEqual(repr(table), f"Bands([{ALL!r}])")
        self.assertEqual(Bands(iter([ALL])).worth(1, ONE), table.worth(1, "1"))

    def test_words(self):
        several = self.shown(m.PairInSeveralBands, 1, 0, None, [ALL, ALL])
        self.assertEqual(str(several), "refused 18: a row and a price are in two or more bands (bands, row 1, price 0)")
        self.assertEqual(repr(several), "PairInSeveralBands(number=18, argument='bands', row=1, price=0)")
        bad = self.shown(m.BadBand, None, None, 2, [ALL, ALL._replace(haircut=10_001)])
        self.assertTrue(str(bad).endswith("more than 40 bands (bands, band 2)"))
        self.assertEqual(repr(bad), "BadBand(number=16, argument='bands', row=None, place=2)")
        for refused in (several, bad):
            kept = pickle.loads(pickle.dumps(refused))
            self.assertEqual((type(kept), kept.args, str(kept)), (type(refused), refused.args, str(refused)))


if __name__ == "__main__":
    unittest.main()
