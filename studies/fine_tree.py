"""A fine tree in floats for many notes and moves of one curve: the tree of float_tree with its rows as lists.

The factors of a row's nodes are the same in every row but for the row's level, and a parallel move of the continuous
zero rates changes the levels alone: so one fit serves every move of its curve.
"""
import math

import float_tree


class FineTree:
    """The tree that is fitted to the discounts of rows 1 to n."""

    def __init__(self, curve, frequency, reversion, volatility):
        self.steps, self.frequency, pull = len(curve), frequency, reversion / frequency
        self.top = math.floor(0.184 / pull) + 1 if pull else self.steps + 1
        spacing, most = volatility * math.sqrt(3 / frequency) / frequency, min(self.steps, self.top)
        factors = [math.exp(-j * spacing) for j in range(-most, most + 1)]
        self.branches = [float_tree.branch(pull, self.top, j) for j in range(-most, most + 1)]
        # of each node the factor times the probabilities of its three branches
        self.weights = [
            tuple(factor * chance for chance in chances) for factor, (_, chances) in zip(factors, self.branches)]
        self.most, self.levels = most, []
        self._fit(curve, factors)

    def _width(self, row):
        return min(row, self.top)

    def _part(self, listed, width):
        """What belongs to the nodes of a row of this half width, out of a list for the widest."""
        return listed[self.most - width:self.most + width + 1]

    def _fit(self, curve, factors):
        prices = [1.0]
        for row, quote in enumerate(curve):
            width, wider = self._width(row), self._width(row + 1)
            level = quote / sum(map(float.__mul__, prices, self._part(factors, width)))
            self.levels.append(level)
            later = [0.0] * (2 * wider + 1)
            for price, (middle, _), (down, same, up) in zip(prices, self._part(self.branches, width),
                                                            self._part(self.weights, width)):
                place, worth = middle + wider, price * level
                later[place - 1] += worth * down
                later[place] += worth * same
                later[place + 1] += worth * up
            prices = later

    def _rolled(self, row, level, later):
        """The values of a row before its own flow, from those of the next."""
        width, wider = self._width(row), self._width(row + 1)
        weights = self._part(self.weights, width)
        if wider > width:
            return [
                level * (down * x + same * y + up * z)
                for (down, same, up), x, y, z in zip(weights, later, later[1:], later[2:])]
        inner = [
            level * (down * x + same * y + up * z)
            for (down, same, up), x, y, z in zip(weights[1:-1], later, later[1:], later[2:])]
        edges = [
            level * sum(map(float.__mul__, weights[side], part)) for side, part in ((0, later[:3]), (-1, later[-3:]))]
        return [edges[0], *inner, edges[1]]

    def held(self, flows, days, strike, side, move_bp=0.0, steps=None):
        """What is held of a bond with flows by their rows, the last row being the tree's or an earlier one, which may
        be called (side -1) or sold back (side 1) on these days, under a parallel move."""
        last = self.steps if steps is None else steps
        factor, values = math.exp(-move_bp / 10_000 / self.frequency), [0.0] * (2 * self._width(last) + 1)
        for row in range(last - 1, -1, -1):
            flow = flows.get(row + 1)
            values = self._rolled(row, self.levels[row] * factor,
                                  [value + flow for value in values] if flow else values)
            if row in days:
                values = [min(value, strike)
                          for value in values] if side < 0 else [max(value, strike) for value in values]
        return values[0]
