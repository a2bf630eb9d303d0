"""What pricing_cases must write, by the rules of reference/: whole numbers for the engine, fractions for the exact pricer.

    python3 vectors.py > stdout

Each price is also held against its exact price: within its error bound, and bonds lie on both sides of it.
"""
import os
import sys

sys.dont_write_bytecode = True
sys.path.insert(0, os.path.join(os.path.dirname(os.path.abspath(__file__)), "..", "..", "reference"))
import reference as rules

ONE = rules.ONE

# On which sides of their exact prices bonds lay: -1 below, 1 above, 0 neither.
sides = set()


def rows(n, b, discounts):
    """the discount of each node, by row and node"""
    numbers = iter(discounts)
    return [{j: next(numbers) for j in rules.nodes(b, i)} for i in range(n)]


def needed(n, b):
    return sum(len(rules.nodes(b, i)) for i in range(n))


def judged(n, b, discounts, flows, terms):
    """The price and its bound on lent discounts, or a refusal."""
    for number, wrong in rules.tree_causes(n, b):
        rules.refuse_if(wrong, number)
    rules.refuse_if(len(flows) != n or len(discounts) < needed(n, b), 6)
    rules.refuse_if(any(not 1 <= d <= rules.DISCOUNT_LIMIT for d in discounts[:needed(n, b)]), 9)
    rules.refuse_if(any(flow > rules.FLOW_LIMIT for flow in flows), 10)
    option = None if terms is None else rules.accepted_option(n, terms)
    tree = rows(n, b, discounts)
    found = rules.option_value(n, b, tree, flows, option) if option else rules.bond_rows(n, b, tree, flows)[0][0]
    exact = rules.exact_option(n, b, tree, flows, option) if option else rules.exact_bond_rows(n, b, tree, flows)[0][0]
    bound = rules.price_allowance(tree)
    assert abs(found - exact) <= bound
    if option is None:
        sides.add((found > exact) - (found < exact))
    if all(d <= ONE for row in tree for d in row.values()):
        assert bound <= 2 * n
    return found, bound


def price(n, b, discounts, flows, terms=None):
    return rules.answer(lambda given: judged(n, b, discounts, flows, given), terms)


def bond(n, b, discounts, flows):
    print("bond", n, b, *price(n, b, discounts, flows))


def option(n, b, discounts, flows, kind, expiry, strike):
    print("option", n, b, kind, expiry, strike, *price(n, b, discounts, flows, rules.Kind(kind, expiry, strike)))


def dated(n, b, discounts, flows, side, dates, strike):
    print("dated", n, b, side, len(dates), strike, *price(n, b, discounts, flows, rules.Option(side, strike, dates)))


def strip(n, b, discounts, flows, side, dates, strikes):
    found = rules.strip(rules.tree_causes(n, b), strikes, lambda strike: judged(n, b, discounts, flows, rules.Option(side, strike, dates)))
    places = found.prices + [(0, 0, 0)] * (rules.MOST_STRIKES - len(found.prices))
    print("strip", n, b, side, len(dates), len(strikes), found.number, *(x for place in places for x in place))


def strips(n, b, discounts, flows, side):
    strikes = [100000000 + k * 97531000 % 700000000 for k in range(17)]
    strikes[3], strikes[5] = strikes[1], 4000000001
    for count in (0, 1, 2, 15, 16, 17):
        strip(n, b, discounts, flows, side, list(range(n // 2 + 1)), strikes[:count])


def tree(n, b, discounts, flows):
    bond(n, b, discounts, flows)
    for kind in range(1, 5):
        option(n, b, discounts, flows, kind, 0, 900000000)
        option(n, b, discounts, flows, kind, n // 2, 500000000)
        option(n, b, discounts, flows, kind, n - 1, 30000000)
    for side in (1, 2):
        dated(n, b, discounts, flows, side, [0], 900000000)
        dated(n, b, discounts, flows, side, list(range(n // 2)), 500000000)
        dated(n, b, discounts, flows, side, list(range(1, 60, 3))[:n // 3], 500000000)
        dated(n, b, discounts, flows, side, [n - 1], 30000000)


def five_lists(discounts, flows, side, strike):
    for dates in ([2], [1], [0], [0, 2], [1, 2]):
        dated(3, 0, discounts, flows, side, dates, strike)


bond(1, 0, [1002500000], [ONE])
option(1, 0, [1002500000], [ONE], 4, 1, 1010000000)
option(1, 0, [1002500000], [ONE], 4, 0, 1010000000)
discounts = [930000000 + k * 7919003 % 150000001 for k in range(3600)]
flows = [20000000 + k * 31415927 % 80000009 for k in range(60)]
for n, b in ((1, 0), (3, 0), (60, 0), (4, 1000), (12, 1840), (12, 1841), (30, 100), (60, 6000)):
    tree(n, b, discounts, flows[:n])

most = [2 * ONE] * 4
bond(4, 0, [ONE] * 16, most)
option(4, 0, [ONE] * 16, most, 3, 3, 0)
dated(4, 0, [ONE] * 16, most, 1, [0, 3], 0)
bond(4, 0, [ONE + 1] + [ONE] * 15, most)
option(4, 0, [ONE + 1] + [ONE] * 15, most, 2, 0, 4000000000)
dated(4, 0, [ONE + 1] + [ONE] * 15, most, 2, [0], 4000000000)

coupon = [100000000, ONE]
for kind, expiry, strike in ((1, 1, 900000000), (3, 1, 900000000), (2, 1, 1050000000), (4, 1, 1050000000), (1, 2, 900000000), (4, 2, 1050000000)):
    option(2, 0, [ONE] * 4, coupon, kind, expiry, strike)

coupons = [100000000, 100000000, ONE]
low, later = [900000000] + [ONE] * 8, [ONE] + [900000000] * 3 + [ONE] * 5
option(3, 0, low, coupons, 3, 2, ONE)
five_lists(low, coupons, 1, ONE)
option(3, 0, later, coupons, 4, 2, 1050000000)
five_lists(later, coupons, 2, 1050000000)

steep = [1100000000] * 36
late = [0] + [2 * ONE] * 5
bond(6, 0, steep, late)
option(6, 0, steep, late, 2, 1, 0)
dated(6, 0, steep, late, 2, [1], 0)
bond(6, 0, [1] * 4 + steep[4:], late)

twos, long = [2 * ONE] * 5, [7] * 256
for dates in ([1], [5], [1, 1], [], [4, 3], [0, 255], long):
    dated(5, 0, [ONE] * 25, twos, 1, dates, ONE)
dated(5, 0, [ONE] * 25, twos, 1, [5], 4000000001)
dated(5, 0, [ONE] * 25, twos, 3, [], 0)
dated(5, 0, [ONE] * 25, twos, 0, [1], 0)

bond(0, 0, discounts, [])
bond(61, 7000, discounts, flows)
bond(2, 6001, discounts, flows)
bond(2, 0, discounts, flows[:3])
bond(2, 0, discounts[:3], flows[:2])
dated(61, 0, discounts, flows, 1, long, 0)
dated(2, 0, discounts[:3], flows[:2], 1, [2], 0)

over = [2 * ONE + 1, 0]
bond(2, 0, [ONE, ONE, ONE, 0], over)
bond(2, 0, [ONE, 1100000001, ONE, ONE], over)
bond(2, 0, discounts, over)
option(2, 0, discounts, over, 0, 1, 0)
option(2, 0, discounts, flows[:2], 0, 1, 0)
option(2, 0, discounts, flows[:2], 5, 1, 0)
option(2, 0, discounts, flows[:2], 1, 3, 0)
option(2, 0, discounts, flows[:2], 1, 2, 0)
option(2, 0, discounts, flows[:2], 1, 1, 4000000001)
option(2, 0, discounts, flows[:2], 2, 1, 4000000000)
dated(2, 0, discounts, over, 1, [2], 0)
dated(2, 0, discounts, flows[:2], 2, [1], 4000000000)

for n, b, side in ((1, 0, 1), (12, 0, 2), (60, 0, 2), (12, 1841, 1), (60, 6000, 1)):
    strips(n, b, discounts, flows[:n], side)
nines, puts, high = [1100000000] * 81, [4 * ONE, 3 * ONE, 4 * ONE, ONE], [5 * ONE, ONE, 5 * ONE]
strip(9, 0, nines, [0] * 9, 2, [8], puts)
strip(9, 0, nines, [0] * 9, 2, [3, 3], high)
strip(9, 0, nines, [0] * 9, 3, [3], high)
strip(5, 0, [ONE] * 25, twos, 1, [1], high)
strip(9, 0, nines[:80], [0] * 9, 2, [8], puts[:2])
strip(9, 0, nines, flows, 2, [8], puts[:2])
strip(0, 6001, nines, flows, 1, [0], [])
strip(61, 0, nines, flows, 1, [0], puts[:2])
strip(9, 6001, nines, flows, 1, [0], [])
strip(9, 0, nines, flows, 3, [9], [])
assert {-1, 1} <= sides
