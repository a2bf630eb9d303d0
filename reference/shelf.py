"""The shelf of document 02, requests (vii) and (viii), with strips by (x), as a desk sees it: under each name a tree with its own list of discounts, or none.

The rules are those of reference.py; nothing here says where in a memory a tree is kept, but for `part` and `stored`, which put the
trees behind each other in the order of their names. A call returns its answer or raises Refused with its number.
"""
from collections import namedtuple

import reference as rules
from reference import ONE, Kind, Option, refuse_if

NAMES = range(1, 9)
MEMORY = 3_600
MOST_ROWS = 60

# What a tree carries: its price allowance, and the greatest discount of each of 60 rows, 0 for rows that it has not.
Carried = namedtuple('Carried', 'allowance greatest')
NOTHING = Carried(0, [0] * MOST_ROWS)
# The discounts are row after row, lowest node first; None stands for a tree that awaits a commit.
Tree = namedtuple('Tree', 'n b discounts carried')
# Status 0 no tree, 1 awaiting a commit, 2 fitted.
Slot = namedtuple('Slot', 'status n b allowance greatest')
Price = namedtuple('Price', 'value allowance')


def nodes_needed(n, b):
    return sum(len(rules.nodes(b, i)) for i in range(n))


def listed(rows):
    return [row[j] for row in rows for j in sorted(row)]


def rows_of(n, b, discounts):
    """The rows that a list of discounts stands for."""
    rest = iter(discounts)
    return [{j: next(rest) for j in rules.nodes(b, i)} for i in range(n)]


def tree_bounds(n, b, discounts):
    """What a tree carries, for any lent discounts; those past the needed part count for nothing."""
    refuse_if(not 1 <= n <= MOST_ROWS, 3)
    refuse_if(b > 6_000, 4)
    refuse_if(len(discounts) < nodes_needed(n, b), 6)
    rows = rows_of(n, b, discounts)
    refuse_if(not all(1 <= discount <= rules.DISCOUNT_LIMIT for discount in listed(rows)), 9)
    return Carried(rules.price_allowance(rows), [max(row.values()) for row in rows] + [0] * (MOST_ROWS - n))


def fitted(tree, f, s, rows, kinds, figures):
    """The list of discounts of a fit; figures are given by their 64 bits. Limits of n and b were kept at the asking."""
    n, b = tree.n, tree.b
    refuse_if(f not in (1, 2, 4, 12), 2)
    refuse_if(s > 50_000, 5)
    refuse_if(len(kinds) != n or len(figures) != n or list(rows) != list(range(1, n + 1)), 6)
    quotes = [rules.quote(f, *point) for point in zip(rows, kinds, figures)]
    h = rules.spacing(f, s)
    refuse_if(rules.half_width(b, n - 1) * h > ONE, 8)
    return listed(rules.fit(n, b, h, quotes)[0])


class Shelf:
    def __init__(self):
        self.trees = {}

    def held(self):
        return sum(nodes_needed(tree.n, tree.b) for tree in self.trees.values())

    def tree(self, name):
        refuse_if(name not in self.trees, 15)
        return self.trees[name]

    def ask(self, name, n, b):
        refuse_if(name not in NAMES or name in self.trees, 15)
        refuse_if(not 1 <= n <= MOST_ROWS, 3)
        refuse_if(b > 6_000, 4)
        refuse_if(self.held() + nodes_needed(n, b) > MEMORY, 14)
        self.trees[name] = Tree(n, b, None, NOTHING)

    def commit(self, name, f, s, rows, kinds, figures):
        tree = self.tree(name)
        refuse_if(tree.discounts is not None, 15)
        discounts = fitted(tree, f, s, rows, kinds, figures)
        self.trees[name] = tree._replace(discounts=discounts, carried=tree_bounds(tree.n, tree.b, discounts))

    def release(self, name):
        self.tree(name)
        del self.trees[name]

    def priced(self, name, flows):
        """A name's tree and its rows, once the causes about it and the flows have been tried."""
        tree = self.tree(name)
        refuse_if(len(flows) != tree.n, 6)
        refuse_if(tree.discounts is None, 9)
        refuse_if(any(flow > rules.FLOW_LIMIT for flow in flows), 10)
        return tree, rows_of(tree.n, tree.b, tree.discounts)

    def bond(self, name, flows):
        tree, rows = self.priced(name, flows)
        return Price(rules.bond_rows(tree.n, tree.b, rows, flows)[0][0], tree.carried.allowance)

    def option_by(self, name, flows, terms):
        tree, rows = self.priced(name, flows)
        option = rules.accepted_option(tree.n, terms)
        return Price(rules.option_value(tree.n, tree.b, rows, flows, option), tree.carried.allowance)

    def option(self, name, flows, kind, expiry, strike):
        return self.option_by(name, flows, Kind(kind, expiry, strike))

    def dated_option(self, name, flows, side, dates, strike):
        return self.option_by(name, flows, Option(side, strike, list(dates)))

    def strip_of_kind(self, name, flows, kind, expiry, strikes):
        return self.strip(name, strikes, lambda strike: self.option(name, flows, kind, expiry, strike))

    def dated_strip(self, name, flows, side, dates, strikes):
        return self.strip(name, strikes, lambda strike: self.dated_option(name, flows, side, dates, strike))

    def strip(self, name, strikes, single):
        """A shelved tree's steps and reversion were judged at its asking, so that 15 and 6 alone are the strip's own."""
        return rules.strip([(15, name not in self.trees)], strikes, single)

    # Where the discounts stand

    def discounts(self, name):
        """A name's discounts: zeros for a tree that awaits a commit, none without a tree."""
        tree = self.trees.get(name)
        if tree is None:
            return []
        return [0] * nodes_needed(tree.n, tree.b) if tree.discounts is None else tree.discounts

    def part(self, name):
        """Where a name's discounts start and how many they are; zeros without a tree."""
        if name not in self.trees:
            return 0, 0
        return sum(len(self.discounts(earlier)) for earlier in range(1, name)), len(self.discounts(name))

    def stored(self):
        """The used part of the memory."""
        return [discount for name in NAMES for discount in self.discounts(name)]

    def slot(self, name):
        """What a name's slot holds: zeros without a tree."""
        tree = self.trees.get(name)
        if tree is None:
            return Slot(0, 0, 0, *NOTHING)
        return Slot(1 if tree.discounts is None else 2, tree.n, tree.b, *tree.carried)
