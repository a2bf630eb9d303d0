"""The tree of the engine in floats, for any number of steps: the limit that the closed formula is held against.

The same means, variances, widths and fit as the engine's, with nothing rounded; only J is the least whole number above 0.184 / (a dt).
"""
import math


def branch(pull, top, node):
    """The middle node that a node leads to, and the probabilities of the node below it, of it and of the node above."""
    middle = max(1 - top, min(top - 1, node)) if pull else node
    mean = node * (1 - pull) - middle
    square = 1 / 3 + mean * mean
    return middle, ((square - mean) / 2, 1 - square, (square + mean) / 2)


def fitted(frequency, steps, reversion, volatility, curve_yield):
    """The tree of a flat yield."""
    return fitted_to([math.exp(-curve_yield * (row + 1) / frequency) for row in range(steps)], frequency, reversion, volatility)


def fitted_to(curve, frequency, reversion, volatility):
    """Discounts of rows 0 to n - 1 by node, each lowest first, and the branches by node; the curve has the discounts of rows 1 to n."""
    steps, step, pull = len(curve), 1 / frequency, reversion / frequency
    top = math.floor(0.184 / pull) + 1 if pull else steps + 1
    spacing = volatility * math.sqrt(3 * step) * step
    branches = {j: branch(pull, top, j) for j in range(-min(steps, top), min(steps, top) + 1)}
    prices, rows = {0: 1.0}, []
    for i in range(steps):
        total = sum(price * math.exp(-j * spacing) for j, price in prices.items())
        level = curve[i] / total
        row = {j: level * math.exp(-j * spacing) for j in prices}
        later = dict.fromkeys(range(-min(i + 1, top), min(i + 1, top) + 1), 0.0)
        for j, price in prices.items():
            middle, chances = branches[j]
            for k, chance in enumerate(chances):
                later[middle + k - 1] += price * row[j] * chance
        rows.append(row)
        prices = later
    return rows, branches


def rolled(row, branches, later):
    found = {}
    for j, discount in row.items():
        middle, chances = branches[j]
        found[j] = discount * sum(chance * later[middle + k - 1] for k, chance in enumerate(chances))
    return found


def call(frequency, terms, reversion, volatility, curve_yield, strike):
    """The European call on the zero bond."""
    steps, expiry = round(terms.end * frequency), round(terms.expiry * frequency)
    rows, branches = fitted(frequency, steps, reversion, volatility, curve_yield)
    values = dict.fromkeys(branches, 1.0)
    for i in range(steps - 1, -1, -1):
        values = rolled(rows[i], branches, values)
        if i == expiry:
            values = {j: max(value - strike, 0.0) for j, value in values.items()}
    return values[0]


def bond_and_call(curve, frequency, reversion, volatility, flows, days, strike):
    """A bond with these flows of rows 1 to n, and the right to buy it without the row's flow on these rows."""
    rows, branches = fitted_to(curve, frequency, reversion, volatility)
    bond, option = dict.fromkeys(branches, 0.0), dict.fromkeys(branches, 0.0)
    for i in range(len(curve) - 1, -1, -1):
        bond = rolled(rows[i], branches, {j: value + flows[i] for j, value in bond.items()})
        option = rolled(rows[i], branches, option)
        if i in days:
            option = {j: max(value, bond[j] - strike) for j, value in option.items()}
    return bond[0], option[0]
