"""A rate tree and a spread tree together (document 02, request (xiii)): bonds and dated options, their allowance and their exact price.

A tree is n, b and its discounts as a caller lends them, row after row, lowest node first. A node is a pair of a rate's node and a spread's; a row of values
is a dictionary by pair. Each entry gives value and allowance, or raises Refused with its number.
"""
from collections import namedtuple
from fractions import Fraction

import reference as rules
from reference import D, DISCOUNT_LIMIT, FLOW_LIMIT, ONE, VALUE_LIMIT, Option, Refused, branches, half_up, nodes, refuse_if, up

MOST_STEPS = 20

Tree = namedtuple('Tree', 'n b discounts')


def needed(tree):
    return sum(len(nodes(tree.b, i)) for i in range(tree.n))


def rows_of(tree):
    """The discounts of each row, by node."""
    rows, start = [], 0
    for i in range(tree.n):
        row = nodes(tree.b, i)
        rows.append(dict(zip(row, tree.discounts[start:start + len(row)])))
        start += len(row)
    return rows


def combined(rates, spreads):
    """The discounts of the pairs of each row: the product of the two / one, down."""
    return [{(j, k): rate * spread // ONE for j, rate in row.items() for k, spread in other.items()}
            for row, other in zip(rows_of(rates), rows_of(spreads))]


def accepted(rates, spreads, flows):
    """The discounts of the pairs; refused with 3, 19, 4, 6, 9 of either tree, 9 of a pair, 10, in this order."""
    trees = rates, spreads
    refuse_if(any(not 1 <= tree.n <= 60 for tree in trees), 3)
    refuse_if(rates.n > MOST_STEPS or rates.n != spreads.n, 19)
    refuse_if(any(tree.b > 6_000 for tree in trees), 4)
    refuse_if(any(len(tree.discounts) < needed(tree) for tree in trees) or len(flows) != rates.n, 6)
    refuse_if(any(not 1 <= v <= DISCOUNT_LIMIT for tree in trees for v in tree.discounts[:needed(tree)]), 9)
    discounts = combined(rates, spreads)
    refuse_if(any(v == 0 for row in discounts for v in row.values()), 9)
    refuse_if(any(flow > FLOW_LIMIT for flow in flows), 10)
    return discounts


# The roll, and the exact one: fractions, no rounding

def rolled(b, c, discounts, later):
    """Along the rate side, then along the spread side, each divided to nearest; then discounted to nearest."""
    columns = {k for _, k in later}
    lines = {j for j, _ in discounts}
    middle = {(j, k): half_up(sum(p * later[to, k] for to, p in branches(b, j)), D) for j in lines for k in columns}
    mean = {(j, k): half_up(sum(p * middle[j, to] for to, p in branches(c, k)), D) for j, k in discounts}
    return {pair: half_up(mean[pair] * discounts[pair], ONE) for pair in discounts}


def exact_roll(b, c, discounts, later):
    """Independent branches: the probability of a pair is the product of the two."""
    def mean(j, k):
        return sum(p * q * later[to, other] for to, p in branches(b, j) for other, q in branches(c, k))
    return {(j, k): Fraction(mean(j, k)) / D / D * v / ONE for (j, k), v in discounts.items()}


def bond_rows(n, b, c, discounts, flows, roll):
    rows = [None] * n + [{(j, k): flows[n - 1] for j in nodes(b, n) for k in nodes(c, n)}]
    for i in range(n - 1, -1, -1):
        values = roll(b, c, discounts[i], rows[i + 1])
        rows[i] = {pair: value + rules.flow_of(flows, i) for pair, value in values.items()}
    return rows


def option_rows(b, c, discounts, flows, bonds, option, roll):
    """Rows 0 to the last listed one; on the day of exercise the coupon stays with the seller."""
    last = option.dates[-1]
    rows = [None] * last + [rules.exercise_row(option, bonds, flows, last)]
    for i in range(last - 1, -1, -1):
        rows[i] = roll(b, c, discounts[i], rows[i + 1])
        if i in option.dates:
            now = rules.exercise_row(option, bonds, flows, i)
            rows[i] = {pair: max(value, now[pair]) for pair, value in rows[i].items()}
    return rows


def within_limit(rows):
    refuse_if(any(value > VALUE_LIMIT for row in rows for value in row.values()), 12)
    return rows[0][0, 0]


def allowance(discounts):
    """The rule of request (vi) with the greatest combined discount of each row."""
    found = 0
    for row in reversed(discounts):
        found = up(max(row.values()) * found, ONE) + 2
    return found


# The entries, and what their prices are held against

def bond_price(rates, spreads, flows):
    discounts = accepted(rates, spreads, flows)
    return within_limit(bond_rows(rates.n, rates.b, spreads.b, discounts, flows, rolled)), allowance(discounts)


def dated_option_price(rates, spreads, flows, side, dates, strike):
    discounts = accepted(rates, spreads, flows)
    option = rules.accepted_option(rates.n, Option(side, strike, dates))
    bonds = bond_rows(rates.n, rates.b, spreads.b, discounts, flows, rolled)
    within_limit(bonds)
    options = option_rows(rates.b, spreads.b, discounts, flows, bonds, option, rolled)
    return within_limit(options), allowance(discounts)


def exact_bond(rates, spreads, flows):
    return bond_rows(rates.n, rates.b, spreads.b, combined(rates, spreads), flows, exact_roll)[0][0, 0]


def exact_dated_option(rates, spreads, flows, side, dates, strike):
    discounts = combined(rates, spreads)
    bonds = bond_rows(rates.n, rates.b, spreads.b, discounts, flows, exact_roll)
    return option_rows(rates.b, spreads.b, discounts, flows, bonds, Option(side, strike, dates), exact_roll)[0][0, 0]


def number_of(entry, *given):
    """The refusal of a call, 0 where it has a price."""
    try:
        entry(*given)
    except Refused as refused:
        return refused.number
    return 0
