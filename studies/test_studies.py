#!/usr/bin/env python3
"""Tests of the studies, and that their documents hold what they would write.

    python3 studies/test_studies.py      after tools/library has built the library
"""
import math
import subprocess
import sys
import unittest

import accepted
import closed_form as study
import common
import fine_tree
import float_tree

m = common.library()
sys.path.append(str(common.ROOT / 'reference'))
import reference


class Documents(unittest.TestCase):
    def test_tables_and_pictures_are_as_committed(self):
        for name in ('accepted.py', 'closed_form.py', 'desk_note.py'):
            run = subprocess.run([sys.executable, '-B', common.ROOT / 'studies' / name, '--check'], stdout=subprocess.PIPE, text=True)
            self.assertEqual(run.returncode, 0, run.stdout)


class Accepted(unittest.TestCase):
    def test_smaller_ones_are_accepted_and_larger_ones_refused(self):
        for case in accepted.all_cases()[::3]:
            edge = accepted.answers(case)[1].volatility
            if edge is None:
                continue
            below = {edge, max(edge - 1, 0), *range(0, edge, edge // 9 + 1)}
            above = {edge + 1, edge + 2, *range(edge + 1, 50_001, (50_000 - edge) // 9 + 1)}
            self.assertEqual({accepted.job_number(case, s) for s in below}, {0}, case)
            self.assertNotIn(0, {accepted.job_number(case, s) for s in above}, case)

    def test_where_8_begins(self):
        for case in accepted.all_cases()[::5]:
            least = accepted.first_refused_by_width(case)
            if least is not None and accepted.answers(case)[0].volatility is not None:
                self.assertEqual(accepted.fit_number(case, least)[0], 8, case)
                self.assertNotEqual(accepted.fit_number(case, least - 1)[0], 8, case)


class Formula(unittest.TestCase):
    def test_call_less_put_is_the_forward(self):
        for terms in study.SPANS:
            for a in study.REVERSIONS:
                spread = study.deviation(terms, a, study.VOLATILITY)
                for place in (-2, -1, 0, 0.5, 2):
                    strike = study.strike_at(terms, a, place)
                    call, put = (study.formula(terms, strike, spread, side) for side in (1, -1))
                    self.assertAlmostEqual(call - put, study.discount(terms.end) - strike * study.discount(terms.expiry), 14)

    def test_little_reversion_is_none(self):
        for terms in study.SPANS:
            none, little = (study.deviation(terms, a, study.VOLATILITY) for a in (0.0, 1e-6))
            self.assertLess(abs(little / none - 1), 1e-5)

    def test_it_is_the_limit_of_the_tree(self):
        terms = study.Terms(2, 5)
        for a in (0.0, 0.05, 0.2):
            strike, wanted = study.at_the_money(terms, a)
            found = float_tree.call(96, terms, a, study.VOLATILITY, study.YIELD, strike)
            self.assertLess(abs(study.difference(found, wanted)), 10)

    def test_short_steps_take_the_step_out(self):
        terms = study.Terms(2, 5)
        stepped = study.stepped_deviation(terms, 100_000, 0.1, study.VOLATILITY)
        self.assertLess(abs(stepped / study.deviation(terms, 0.1, study.VOLATILITY) - 1), 2e-6)

    def test_adjusted_inputs_keep_the_deviation(self):
        for f in common.FREQUENCIES:
            for terms in study.SPANS:
                b, volatility = study.adjusted(f, 0.1)
                stepped = study.stepped_deviation(terms, f, b * f / 10_000, volatility)
                rounding = 5e-5 * f * terms.end
                self.assertLess(abs(stepped / study.deviation(terms, 0.1, study.VOLATILITY) - 1), rounding)


class Versions(unittest.TestCase):
    def test_the_step_alone(self):
        """What version 2 leaves is the same for every option: the rate stands for a step and not for an instant."""
        for f in common.FREQUENCIES:
            for a in study.REVERSIONS[1:]:
                left = -(a / f) / math.expm1(-a / f)
                for terms in study.SPANS:
                    found = study.stepped_deviation(terms, f, a, study.VOLATILITY, 2) / study.deviation(terms, a, study.VOLATILITY)
                    self.assertAlmostEqual(found, left, 12)
                    self.assertAlmostEqual(study.averaged(f, a) * found, study.VOLATILITY, 12)

    def test_moments_of_every_reversion(self):
        """Means and variances as the study tells them; the variance from the spacing, which the reference works out."""
        volatility, near = 50_000, {1: 0.000_015, 100: 0.000_000_2}
        for b in range(1, m.MAX_REVERSION + 1):
            kept = 1 - m.working_reversion(2, b) / 10_000
            self.assertLess(abs(kept - study.kept_by_a_step(b / 10_000, 2)), 0.000_05)
            spacing = reference.version_spacing(2, 1, volatility, b)
            share = (spacing / reference.spacing(1, volatility)) ** 2
            self.assertLess(abs(share - study.variance_share(b / 10_000, 2)), near[100 if b >= 100 else 1] + 5e-8)

    def test_which_is_nearer(self):
        counts = []
        for a in study.REVERSIONS[1:]:
            cases = [(terms, f, a) for terms in study.SPANS for f in common.FREQUENCIES if terms.end * f <= study.MOST_STEPS]
            greatest = [[max(map(abs, study.tree_range(*case, version))) for version in (1, 2)] for case in cases]
            self.assertEqual(len(greatest), 15)
            counts.append(sum(second < first for first, second in greatest))
        self.assertEqual(counts, [8, 8, 12, 14, 15])

    def test_without_reversion_they_are_one(self):
        for terms in study.SPANS:
            for f in (f for f in common.FREQUENCIES if terms.end * f <= study.MOST_STEPS):
                self.assertEqual(*(study.tree_difference(terms, f, 0.0, version=version) for version in (1, 2)))

    def test_the_averaged_volatility_leaves_what_the_other_inputs_leave(self):
        """Where b is whole; a working reversion and a volatility are whole too, which is worth a few basis points."""
        for terms in study.SPANS:
            for f in (f for f in common.FREQUENCIES if terms.end * f <= study.MOST_STEPS):
                for a in (0.01 * f, 0.03):
                    self.assertLess(abs(study.averaged_difference(terms, f, a) - study.adjusted_difference(terms, f, a)), 3)


class Fine(unittest.TestCase):
    """The fine tree of the sensitivities against the tree in floats, which is written apart."""

    FREQUENCY, YEARS, COUPON = 6, 5, 0.03
    FLOWS, DAYS = {6: 0.03, 12: 0.03, 18: 0.03, 24: 0.03, 30: 1.03}, {12, 18, 24}

    def curve(self, move=0.0):
        return [
            math.exp(-(0.02 + 0.004 * t / self.FREQUENCY + move) * t / self.FREQUENCY)
            for t in range(1, self.YEARS * self.FREQUENCY + 1)]

    def test_it_is_the_tree_in_floats(self):
        """A callable note is bond less call, with reversion and without, and a move of the curve is a fit to the moved
        curve."""
        listed = [self.FLOWS.get(row, 0.0) for row in range(1, self.YEARS * self.FREQUENCY + 1)]
        for reversion in (0.0, 0.05, 0.3):
            tree = fine_tree.FineTree(self.curve(), self.FREQUENCY, reversion, 0.01)
            for move in (-50, 0, 25):
                bond, call = float_tree.bond_and_call(self.curve(move / 10_000), self.FREQUENCY, reversion, 0.01,
                                                      listed, self.DAYS, 1.0)
                self.assertAlmostEqual(tree.held(self.FLOWS, self.DAYS, 1.0, -1, move), bond - call, 12)

    def test_an_earlier_maturity(self):
        """On a longer tree a note is worth what it is on one that ends with it."""
        long, short = (fine_tree.FineTree(self.curve()[:years * self.FREQUENCY], self.FREQUENCY, 0.05, 0.01)
                       for years in (5, 3))
        flows, days = {year * self.FREQUENCY: self.COUPON + (year == 3) for year in (1, 2, 3)}, {2 * self.FREQUENCY}
        self.assertAlmostEqual(long.held(flows, days, 1.0, 1, steps=3 * self.FREQUENCY),
                               short.held(flows, days, 1.0, 1), 14)


class Engine(unittest.TestCase):
    def test_the_rule_near_the_money(self):
        """2,500 over the steps to expiry below the formula for a strike on a node, some 1,500 above it between two."""
        for terms in (study.Terms(1, 2), study.Terms(2, 3), study.Terms(4, 5)):
            expiry = terms.expiry * 12
            node = (expiry / 3) ** -0.5
            found = [expiry * study.tree_difference(terms, 12, 0.0, k / 100 * node) for k in range(-50, 51)]
            self.assertTrue(-2_700 < min(found) < -2_400 and 1_250 < max(found) < 1_800, (min(found), max(found)))

    def test_it_is_the_tree_in_floats(self):
        """Only where b is whole are the two the same tree."""
        for terms in study.SPANS:
            for f in common.FREQUENCIES:
                for a in (0.0, 0.03, 0.06):
                    if terms.end * f <= study.MOST_STEPS:
                        strike = study.strike_at(terms, a, 0)
                        price = study.engine(terms, f, round(a * 10_000 / f), study.VOLATILITY, strike, m.EUROPEAN_CALL)
                        floats = float_tree.call(f, terms, a, study.VOLATILITY, study.YIELD, strike)
                        self.assertLess(abs(study.difference(price, floats)), 2)

    def test_call_less_put_is_the_forward_of_its_own_bonds(self):
        for terms in study.SPANS:
            for f in (f for f in common.FREQUENCIES if terms.end * f <= study.MOST_STEPS):
                steps, expiry, strike = terms.end * f, terms.expiry * f, 900_000_000
                found = study.tree(f, steps, 100, 6_000)
                bond, paid = ([m.ONE * (t == row) for t in range(1, steps + 1)] for row in (steps, expiry))
                call, put = (found.option_price(bond, kind, expiry, strike) for kind in (m.EUROPEAN_CALL, m.EUROPEAN_PUT))
                forward = found.bond_price(bond).value - found.bond_price([strike * flow // m.ONE for flow in paid]).value
                self.assertLessEqual(abs(call.value - put.value - forward), 4 * call.bound)


if __name__ == '__main__':
    unittest.main()
