#!/usr/bin/env python3
"""Numbers that would pass for valid ones if they were cut to 8, 16 or 32 bits: each argument of each export of the library, and what the rules answer.

    widths.py            writes widths.txt beside itself
    widths.py --check    compares widths.txt with what it would write, and the entries with c/mixegorta.h

A line of widths.txt is the name of an export, its arguments in the header's order, `=` and the answer. An argument is a number, a list [3,5,0*256], which
ends in 256 zeros here, or @9, a memory of nine numbers to be written. Figures stand as their 64 bits. A shelf is a list of 512 numbers, status, steps,
reversion, bound and sixty greatest discounts of each name, beside its memory of 3,600. An answer is a refusal's number alone, or its fields; a memory's part
that was written comes as a list, a shelf's changed memory whole, and the numbers, values and bounds of a strip as three lists. What is said of haircut
bands has all its fields, refused or not. A job record is a list of 5,447 numbers, each of its places in the header's order, and memory for a job has bytes. A report is a list of 22.
Tests in C, Rust and Python read the lines. Each entry's first line is the call that the others change.
"""
import os
import re
import sys
from collections import namedtuple
from itertools import groupby

HERE = os.path.dirname(os.path.abspath(__file__))
sys.path.insert(0, HERE)
sys.dont_write_bytecode = True
import bands
import pair
import records
import reports
import reference as rules
from reference import ONE, Kind, Option, Refused, refuse_if

TABLE, HEADER = os.path.join(HERE, 'widths.txt'), os.path.join(HERE, '..', 'c', 'mixegorta.h')
BITS = 8, 16, 32
# Of a count, 2^32 more would be memory that no test has.
COUNT_BITS = 8, 16


# What each entry answers: a list of numbers and lists, or Refused

def judged_tree(n, b):
    refuse_if(not 1 <= n <= 60, 3)
    refuse_if(b > 6_000, 4)


def count(b, row):
    return len(rules.nodes(b, row))


def start(b, row):
    return sum(count(b, i) for i in range(row))


def judged_row(b, row):
    refuse_if(b > 6_000, 4)
    refuse_if(row > 60, 6)


def half_width(b, row):
    judged_row(b, row)
    return [rules.half_width(b, row)]


def node_count(b, row):
    judged_row(b, row)
    return [count(b, row)]


def row_start(b, row):
    judged_row(b, row)
    return [start(b, row)]


def discounts_needed(n, b):
    judged_tree(n, b)
    return [start(b, n)]


def state_prices_needed(n, b):
    judged_tree(n, b)
    return [start(b, n + 1)]


def branches(b, row, node):
    judged_row(b, row)
    refuse_if(row > 59 or abs(node) > rules.half_width(b, row), 6)
    (_, up), (_, middle), (lowest, down) = rules.branches(b, node)
    return [lowest, up, middle, down]


def judged_frequency(f):
    refuse_if(f not in (1, 2, 4, 12), 2)


def quote_discount(f, kind, row, figure):
    judged_frequency(f)
    refuse_if(not 1 <= row <= 60, 6)
    return [rules.quote(f, row, kind, figure)]


def quoted(f, n, rows, kinds, figures, short):
    """The discounts of a curve; 6 where it is not in its places, or where a memory is short."""
    refuse_if({len(rows), len(kinds), len(figures)} != {n} or rows != list(range(1, n + 1)) or short, 6)
    return [rules.quote(f, *each) for each in zip(rows, kinds, figures)]


def curve_discounts(f, n, rows, kinds, figures, memory):
    judged_frequency(f)
    refuse_if(not 1 <= n <= 60, 3)
    return [quoted(f, n, rows, kinds, figures, memory < n)]


def working_reversion(version, b):
    refuse_if(b > 6_000, 4)
    refuse_if(version not in rules.VERSIONS, 7)
    return [rules.working_reversion(version, b)]


def fit_version(version, f, n, b, s, rows, kinds, figures, discounts, state_prices):
    """An unknown version is judged with the quotes, where the memories were judged by b itself."""
    judged_frequency(f)
    judged_tree(n, b)
    refuse_if(s > 50_000, 5)
    known = version in rules.VERSIONS
    working = rules.working_reversion(version, b) if known else b
    quotes = quoted(f, n, rows, kinds, figures, discounts < start(working, n) or state_prices < start(working, n + 1))
    refuse_if(not known, 7)
    h = rules.version_spacing(version, f, s, b)
    refuse_if(rules.half_width(working, n - 1) * h > ONE, 8)
    return [[row[j] for row in rows_of for j in sorted(row)] for rows_of in rules.fit(n, working, h, quotes)]


def fit(*given):
    return fit_version(1, *given)


def row_range(discounts, state_prices, kind, n, b, row):
    """A refusal has no number: start and count are 0."""
    fits = 1 <= n <= 60 and b <= 6_000 and discounts >= start(b, n) and state_prices >= start(b, n + 1)
    return [start(b, row), count(b, row)] if fits and (kind == 1 and row < n or kind == 2 and row <= n) else [0, 0]


def step_rate(discount):
    refuse_if(not 1 <= discount <= rules.DISCOUNT_LIMIT, 9)
    return [rules.step_rate(discount)]


def continuous_rate(discount):
    return [rules.continuous_rate(discount)]


def lent(n, b, discounts, wrong):
    """The rows of lent discounts; wrong is a cause for 6 beside too few of them."""
    judged_tree(n, b)
    refuse_if(len(discounts) < start(b, n) or wrong, 6)
    refuse_if(any(not 1 <= v <= rules.DISCOUNT_LIMIT for v in discounts[:start(b, n)]), 9)
    return [dict(zip(rules.nodes(b, i), discounts[start(b, i):])) for i in range(n)]


def state_price_error_bound(n, b, discounts, row):
    return [rules.state_price_allowance(b, lent(n, b, discounts, row > n), row)]


def price_error_bound(n, b, discounts):
    return [rules.price_allowance(lent(n, b, discounts, False))]


def tree_bounds(n, b, discounts):
    rows = lent(n, b, discounts, False)
    return [rules.price_allowance(rows), [max(row.values()) for row in rows] + [0] * (60 - n)]


def judged_flows(n, b, discounts, flows):
    rows = lent(n, b, discounts, len(flows) != n)
    refuse_if(any(flow > rules.FLOW_LIMIT for flow in flows), 10)
    return rows


def bond_price(n, b, discounts, flows):
    rows = judged_flows(n, b, discounts, flows)
    return [rules.bond_rows(n, b, rows, flows)[0][0], rules.price_allowance(rows)]


def priced_option(n, b, discounts, flows, terms):
    rows = judged_flows(n, b, discounts, flows)
    return [rules.option_value(n, b, rows, flows, rules.accepted_option(n, terms)), rules.price_allowance(rows)]


def option_price(n, b, discounts, flows, kind, expiry, strike):
    return priced_option(n, b, discounts, flows, Kind(kind, expiry, strike))


def dated_option_price(n, b, discounts, flows, side, dates, strike):
    return priced_option(n, b, discounts, flows, Option(side, strike, dates))


def strip(causes, strikes, single, *given):
    """Sixteen numbers, values and bounds; single takes a strike behind what is given."""
    number, prices = rules.strip(causes, strikes, lambda strike: single(*given, strike))
    refuse_if(number != 0, number)
    return list(map(list, zip(*prices, *[(0, 0, 0)] * (rules.MOST_STRIKES - len(prices)))))


def option_strip(n, b, discounts, flows, side, dates, strikes):
    return strip(rules.tree_causes(n, b), strikes, dated_option_price, n, b, discounts, flows, side, dates)


def option_strip_of_kind(n, b, discounts, flows, kind, expiry, strikes):
    return strip(rules.tree_causes(n, b), strikes, option_price, n, b, discounts, flows, kind, expiry)


def with_zeros(rule, *given):
    """Number, price and bound: of two answers side by side, each has its own number."""
    try:
        return [0] + rule(*given)
    except Refused as refusal:
        return [refusal.number, 0, 0]


def bond_and_option(*given):
    return with_zeros(bond_price, *given[:4]) + with_zeros(option_price, *given)


def bond_and_dated_option(*given):
    return with_zeros(bond_price, *given[:4]) + with_zeros(dated_option_price, *given)


def value_by_state_prices(state_prices, payoffs):
    return [rules.weighing(state_prices, payoffs)]


def valuation_error_bound(n, b, discounts, row, payoffs):
    tree = 1 <= n <= 60 and b <= 6_000
    rows = lent(n, b, discounts, row > n or tree and len(payoffs) != count(b, row))
    refuse_if(max(payoffs) > rules.VALUE_LIMIT, 12)
    return [rules.weighing_allowance(b, rows, row, payoffs)]


# A shelf is a list of numbers, 64 for each of its eight names: status, steps, reversion, bound and the greatest discounts of sixty rows

def nodes_of(status, n, b, *_):
    """The nodes of a slot; more than there are where no calls lead to it."""
    if status == 0:
        return 0
    return start(b, n) if status <= 2 and 1 <= n <= 60 and b <= 6_000 else 3_601


def slot_of(shelf, name):
    return shelf[64 * name - 64:64 * name]


def nodes_before(shelf, name):
    return sum(nodes_of(*slot_of(shelf, other)) for other in range(1, name))


def judged_name(shelf, name, *statuses):
    """Where the nodes of a name stand or would stand, and how many they are; 15 where its status is none of these."""
    refuse_if(not 1 <= name <= 8 or nodes_before(shelf, 9) > 3_600 or slot_of(shelf, name)[0] not in statuses, 15)
    return nodes_before(shelf, name), nodes_of(*slot_of(shelf, name))


def slot(status, n, b, bound=0, greatest=(0,) * 60):
    return [status, n, b, bound, *greatest]


def with_slot(shelf, name, *fields):
    return shelf[:64 * name - 64] + slot(*fields) + shelf[64 * name:]


def shelf_part(shelf, name):
    """A refusal has no number: start and count are 0."""
    try:
        return list(judged_name(shelf, name, 1, 2))
    except Refused:
        return [0, 0]


def shelf_ask(shelf, memory, name, n, b):
    at, _ = judged_name(shelf, name, 0)
    judged_tree(n, b)
    refuse_if(nodes_before(shelf, 9) + start(b, n) > 3_600, 14)
    return [with_slot(shelf, name, 1, n, b), (memory[:at] + [0] * start(b, n) + memory[at:])[:3_600]]


def shelf_commit(shelf, memory, name, f, s, rows, kinds, figures):
    at, nodes = judged_name(shelf, name, 1)
    _, n, b, *_ = slot_of(shelf, name)
    discounts, _ = fit(f, n, b, s, rows, kinds, figures, nodes, start(b, n + 1))
    return [with_slot(shelf, name, 2, n, b, *tree_bounds(n, b, discounts)), memory[:at] + discounts + memory[at + nodes:]]


def shelf_release(shelf, memory, name):
    at, nodes = judged_name(shelf, name, 1, 2)
    return [with_slot(shelf, name, 0, 0, 0), memory[:at] + memory[at + nodes:] + [0] * nodes]


def on_shelf(rule):
    """A price on lent discounts for those of a name, with the bound that its slot carries."""
    def shelved(shelf, memory, name, *given):
        at, nodes = judged_name(shelf, name, 1, 2)
        _, n, b, bound, *_ = slot_of(shelf, name)
        value, _ = rule(n, b, memory[at:at + nodes], *given)
        return [value, bound]
    shelved.__name__ = 'shelf_' + rule.__name__
    return shelved


shelf_bond_price, shelf_option_price, shelf_dated_option_price = map(on_shelf, (bond_price, option_price, dated_option_price))


def shelf_bond_and_option(*given):
    return with_zeros(shelf_bond_price, *given[:4]) + with_zeros(shelf_option_price, *given)


def shelf_bond_and_dated_option(*given):
    return with_zeros(shelf_bond_price, *given[:4]) + with_zeros(shelf_dated_option_price, *given)


def shelf_option_strip(shelf, memory, name, flows, side, dates, strikes):
    """15 is the strip's own; the steps and the reversion of a slot that has a tree are within their limits."""
    judged_name(shelf, name, 1, 2)
    return strip([], strikes, shelf_dated_option_price, shelf, memory, name, flows, side, dates)


def shelf_option_strip_of_kind(shelf, memory, name, flows, kind, expiry, strikes):
    judged_name(shelf, name, 1, 2)
    return strip([], strikes, shelf_option_price, shelf, memory, name, flows, kind, expiry)


def prices_of_job(job, discounts, state_prices):
    """The bond, whether there is an option, the option, and both memories of the tree."""
    f, n, b, s, version, quotes, flows, terms = rules.read(bytes(job))
    kinds, figures = ([quote[part] for quote in quotes] for part in (0, 1))
    working = rules.working_reversion(version or 1, b)
    tree = fit_version(version or 1, f, n, b, s, list(range(1, n + 1)), kinds, figures, discounts, state_prices)
    option = [1, *priced_option(n, working, tree[0], flows, terms)] if terms else [0, 0, 0]
    return [*bond_price(n, working, tree[0], flows), *option, *tree]


def check_bands(*lists):
    return list(bands.verdict(*lists))


def lending_worth(*given):
    number, worth, *shown = bands.lending_worth(*given)
    return [worth, number, *shown]


def joined_reports(*given):
    """A report is its 22 numbers, thirteen counts from the fourth on."""
    found = reports.joined(*(reports.Report(*each[:3], tuple(each[3:16]), *each[16:]) for each in given))
    return [*found[:3], *found.refused, *found[4:]]


# Places of a job record: its first five numbers, the first and the last figure and flow, and the numbers of its option.
FIGURES_AT, FLOWS_AT, OPTION_AT = 5 + records.STEPS, 5 + 2 * records.STEPS, 5 + 3 * records.STEPS
RECORD_PLACES = (*range(5), FIGURES_AT, FLOWS_AT - 1, FLOWS_AT, OPTION_AT - 1, *range(OPTION_AT, OPTION_AT + 5))


def places(record):
    """All numbers of a record in one list."""
    return [*record[:5], *record.kinds, *record.figures, *record.flows, *record[8:13], *record.dates]


def record_of(numbers):
    return records.Record(*numbers[:5], numbers[5:FIGURES_AT], numbers[FIGURES_AT:FLOWS_AT], numbers[FLOWS_AT:OPTION_AT],
                          *numbers[OPTION_AT:OPTION_AT + 5], numbers[OPTION_AT + 5:])


def read_job(job):
    return [places(records.reading(bytes(job)))]


def write_job(numbers, room):
    job = records.written(record_of(numbers), room)
    return [len(job), list(job)]


def pair_bond_price(n, b, rates, m, c, spreads, flows):
    return list(pair.bond_price(pair.Tree(n, b, rates), pair.Tree(m, c, spreads), flows))


def pair_dated_option_price(n, b, rates, m, c, spreads, flows, side, dates, strike):
    return list(pair.dated_option_price(pair.Tree(n, b, rates), pair.Tree(m, c, spreads), flows, side, dates, strike))


# The calls. A list is exact where its length must be just so, and least where it may be longer; a byte is no number that 256 more would fit into.

Argument = namedtuple('Argument', 'name kind value')
Entry = namedtuple('Entry', 'rule numbered arguments')
Memory = namedtuple('Memory', 'length')
# Answers that show their numbers among their fields.
UNNUMBERED = row_range, bond_and_option, bond_and_dated_option, shelf_part, shelf_bond_and_option, shelf_bond_and_dated_option, check_bands, lending_worth


def entry(rule, *arguments):
    return Entry(rule, rule not in UNNUMBERED, [Argument(*argument) for argument in arguments])


def figures_of(*figures):
    return [rules.pattern_of(figure) for figure in figures]


def field(tag, data):
    return bytes([tag]) + len(data).to_bytes(2, 'big') + data


def job_of(f, n, b, s, version, curve, flows, option):
    """The bytes of a job with an option on listed dates."""
    (_, _, kinds), (_, _, figures) = curve[1:]
    (_, _, side), (_, _, dates), (_, _, strike) = option
    parts = [(1, bytes([f])), (2, bytes([n])), (3, b.to_bytes(2, 'big')), (4, s.to_bytes(4, 'big')), (11, bytes([version]))]
    parts += [(kind, figure.to_bytes(8, 'big')) for kind, figure in zip(kinds, figures)] + [(7, flow.to_bytes(4, 'big')) for flow in flows]
    return b''.join(field(*part) for part in [*parts, (10, bytes([side]) + strike.to_bytes(4, 'big') + bytes(dates))])


REVERSION, STEPS, ROW = ('reversion', 'number', 800), ('steps', 'number', 3), ('row', 'number', 60)
VERSION, FREQUENCY, VOLATILITY = ('version', 'number', 2), ('frequency', 'number', 2), ('volatility', 'number', 10_000)
CURVE = (('rows', 'exact', [1, 2, 3]), ('kinds', 'bytes', [5, 6, 9]), ('figures', 'figures', figures_of(0.98, 0.03, 0.02)))
DISCOUNTS = ('discounts', 'least', [970_000_000, 985_000_000, 968_000_000, 952_000_000, 999_000_000, 982_000_000, 965_000_000, 948_000_000, 932_000_000])
LEVEL = ('discounts', 'least', [ONE] * 9)
# Row 3 has its greatest discount in the last two of its seven nodes, which a tree of more reversion has not.
LONGER, STEEP = ('steps', 'number', 5), ('discounts', 'least', [ONE] * 14 + [1_050_000_000] * 2 + [ONE] * 7)
FLOWS = ('flows', 'exact', [40_000_000, 40_000_000, ONE + 40_000_000])
STRIKE, DATES = ('strike', 'number', 2 * ONE), ('dates', 'bytes', [1, 2])
MEMORIES = (('discounts', 'memory', Memory(9)), ('state_prices', 'memory', Memory(16)))
BOND = (STEPS, REVERSION, DISCOUNTS, FLOWS)
OPTION = (('kind', 'number', 2), ('expiry', 'number', 2), STRIKE)
DATED = (('side', 'number', 2), DATES, STRIKE)
# Three strikes, of which the second is refused, and as many as a strip takes.
STRIP = (*DATED[:2], ('strikes', 'exact', [2 * ONE, rules.STRIKE_LIMIT + 1, ONE]))
STRIP_OF_KIND = (*OPTION[:2], ('strikes', 'exact', [2 * ONE - 100_000_000 * place for place in range(rules.MOST_STRIKES)]))

# Under 2 a tree that awaits its commit, under 3 a fitted one of the same shape, no others: an asking under 1 moves both.
FITTED = fit(FREQUENCY[2], STEPS[2], REVERSION[2], VOLATILITY[2], *(column[2] for column in CURVE), 9, 16)[0]
SHAPE = STEPS[2], REVERSION[2]
SHELF = ('shelf', 'slots', slot(0, 0, 0) + slot(1, *SHAPE) + slot(2, *SHAPE, *tree_bounds(*SHAPE, FITTED)) + slot(0, 0, 0) * 5)
ROOM = ('memory', 'room', [0] * 9 + FITTED + [0] * (3_600 - 18))
SHELVED, AWAITING, FREE = ((SHELF, ROOM, ('name', 'number', name)) for name in (3, 2, 1))

# The curve and the bond as a job of version 2, with an option on listed dates.
PRICED_JOB = ('job', 'bytes', list(job_of(FREQUENCY[2], STEPS[2], REVERSION[2], VOLATILITY[2], VERSION[2], CURVE, FLOWS[2], DATED)))

# Three bands of rows, two of them with two bands of prices.
BANDS = (('first_rows', 'exact', [1, 1, 21, 21, 41]), ('last_rows', 'exact', [20, 20, 40, 40, 60]), ('lowest_prices', 'exact', [0, ONE, 0, ONE + 1, 0]),
         ('highest_prices', 'exact', [ONE - 1, 8 * ONE, ONE, 8 * ONE, 8 * ONE]), ('haircuts', 'exact', [100, 200, 300, 400, 500]))

# A job of three steps with a version and an option of a kind, and one whose option has a list, 255 first; no limit is asked of either.
HEAD = records.padded([], records.STEPS)
JOB = records.written(records.Record(3, 3, 800, 10_000, 2, [5, 6, 9] + HEAD[3:], figures_of(0.98, -0.0, float('nan')) + HEAD[3:], [1, 0, ONE] + HEAD[3:],
                                     records.OF_KIND, 4, 2, ONE, 0, records.padded([], records.DATES)), rules.LONGEST_JOB)
DATED_JOB = records.written(records.Record(12, 1, 0, 0, 0, [9] + HEAD[1:], figures_of(0.01) + HEAD[1:], [ONE] + HEAD[1:], records.DATED, 2, 0, ONE, 3,
                                           records.padded([255, 0, 7], records.DATES)), rules.LONGEST_JOB)

# Three books with a broken end among them, and two of which the second has the dearer bond.
REPORTS = (('first', 'report', [3, 7, 5, 1, 0, 0, 0, 0, 0, 0, 0, 1, 0, 0, 0, 1, 5 * ONE, ONE, 40, ONE + 300, 2, 3]),
           ('second', 'report', [2, 4, 4] + [0] * 13 + [5 * ONE, 0, 20, 2 * ONE, 1, 2]))

# The rate tree of the prices above, and a narrower spread tree of as many steps.
PAIR = (('rate_steps', 'number', 3), ('rate_reversion', 'number', 800), ('rate_discounts', 'least', DISCOUNTS[2]), ('spread_steps', 'number', 3),
        ('spread_reversion', 'number', 2_000),
        ('spread_discounts', 'least', [990_000_000, 995_000_000, 987_000_000, 979_000_000, 996_000_000, 986_000_000, 976_000_000]), FLOWS)

ENTRIES = [
    entry(half_width, REVERSION, ROW), entry(node_count, REVERSION, ROW), entry(row_start, REVERSION, ROW),
    entry(discounts_needed, STEPS[:2] + (60,), REVERSION), entry(state_prices_needed, STEPS[:2] + (60,), REVERSION),
    entry(branches, REVERSION, ('row', 'number', 20), ('node', 'signed', 2)),
    entry(working_reversion, VERSION, REVERSION),
    entry(quote_discount, FREQUENCY, ('kind', 'byte', 6), ('point.row', 'number', 3), ('point.figure', 'figure', figures_of(0.03)[0])),
    entry(curve_discounts, FREQUENCY, STEPS, *CURVE, ('discounts', 'memory', Memory(3))),
    entry(fit, FREQUENCY, STEPS, REVERSION, VOLATILITY, *CURVE, *MEMORIES),
    entry(fit_version, VERSION, FREQUENCY, STEPS, REVERSION, VOLATILITY, *CURVE, *MEMORIES),
    entry(row_range, ('discounts', 'memory', Memory(128)), ('state_prices', 'memory', Memory(135)), ('kind', 'number', 1), STEPS[:2] + (20,), REVERSION,
          ('row', 'number', 10)),
    entry(step_rate, ('discount', 'number', 900_000_000)), entry(continuous_rate, ('discount', 'number', 900_000_000)),
    entry(state_price_error_bound, STEPS, REVERSION, LEVEL, ('row', 'number', 3)),
    entry(price_error_bound, LONGER, REVERSION, STEEP), entry(tree_bounds, LONGER, REVERSION, STEEP),
    entry(bond_price, *BOND), entry(option_price, *BOND, *OPTION), entry(bond_and_option, *BOND, *OPTION),
    entry(dated_option_price, *BOND, *DATED), entry(bond_and_dated_option, *BOND, *DATED),
    entry(option_strip, *BOND, *STRIP), entry(option_strip_of_kind, *BOND, *STRIP_OF_KIND),
    entry(value_by_state_prices, ('state_prices', 'exact', [160_000_000, 640_000_000, 160_000_000]), ('payoffs', 'exact', [ONE, ONE // 2, 2 * ONE])),
    entry(valuation_error_bound, STEPS, REVERSION, LEVEL, ('row', 'number', 3), ('payoffs', 'exact', [ONE] * 7)),
    entry(prices_of_job, PRICED_JOB, *MEMORIES),
    entry(shelf_part, SHELF, ('name', 'number', 3)), entry(shelf_ask, *FREE, STEPS, REVERSION),
    entry(shelf_commit, *AWAITING, FREQUENCY, VOLATILITY, *CURVE), entry(shelf_release, *AWAITING),
    entry(shelf_bond_price, *SHELVED, FLOWS), entry(shelf_option_price, *SHELVED, FLOWS, *OPTION),
    entry(shelf_bond_and_option, *SHELVED, FLOWS, *OPTION), entry(shelf_dated_option_price, *SHELVED, FLOWS, *DATED),
    entry(shelf_bond_and_dated_option, *SHELVED, FLOWS, *DATED),
    entry(shelf_option_strip, *SHELVED, FLOWS, *STRIP), entry(shelf_option_strip_of_kind, *SHELVED, FLOWS, *STRIP_OF_KIND),
    entry(check_bands, *BANDS), entry(lending_worth, *BANDS, ROW, ('price', 'number', ONE)),
    entry(read_job, ('bytes', 'bytes', list(JOB))),
    entry(write_job, ('job', 'record', places(records.reading(JOB))), ('out', 'memory', Memory(len(JOB)))),
    entry(write_job, ('job', 'record', places(records.reading(DATED_JOB))), ('out', 'memory', Memory(len(DATED_JOB)))),
    entry(joined_reports, *REPORTS),
    entry(pair_bond_price, *PAIR), entry(pair_dated_option_price, *PAIR, *DATED),
]
# A job is bytes, and the room for its sheet has one size: crates/sheet_cases has both, and crates/book_cases a book and the room for its report. Version,
# empty shelf and empty report are asked for without arguments.
WITHOUT_NUMBERS = {'sheet', 'book_report', 'report_of_file', 'version', 'empty_shelf', 'empty_report'}


# The lines

def multiple(length, bits):
    """The least multiple of a power of two that is enough: cut to so many bits it is 0."""
    return -(-length // 2 ** bits) * 2 ** bits


def changed_places(kind, value):
    """The places of a list's numbers that are changed: the first, the middle and the last, of a memory those of its fitted tree, of a shelf the numbers of two
    trees, of what they carry the bounds and, of the fitted one, the first, the last and the last place's greatest discount, of a record those that have 64 bits, of
    a report all."""
    if kind in ('exact', 'least'):
        return sorted({0, len(value) // 2, len(value) - 1})
    return {'record': RECORD_PLACES, 'report': range(22), 'room': (9, 13, 17), 'slots': (*range(64, 68), *range(128, 133), 134, 191)}.get(kind, ())


def changes(argument):
    """Each way to change an argument by a power of two that a narrower number loses."""
    kind, value = argument.kind, argument.value
    if kind in ('number', 'signed'):
        yield from (value + sign * 2 ** bits for bits in BITS for sign in ((1, -1) if kind == 'signed' else (1,)))
    for place in changed_places(kind, value):
        yield from (value[:place] + [value[place] + 2 ** bits] + value[place + 1:] for bits in BITS)
    if kind in ('exact', 'bytes', 'figures'):
        yield from (value + [0] * 2 ** bits for bits in COUNT_BITS)
    if kind == 'least':
        yield from (value + [0] * (multiple(len(value), bits) - len(value)) for bits in COUNT_BITS)
    if kind == 'memory':
        yield from (Memory(multiple(value.length, bits)) for bits in COUNT_BITS)


def token(value):
    if isinstance(value, Memory):
        return '@%d' % value.length
    if not isinstance(value, list):
        return str(value)
    runs = [(each, len(list(run))) for each, run in groupby(value)]
    return '[%s]' % ','.join('0*%d' % times if each == 0 and times > 1 else ','.join([str(each)] * times) for each, times in runs)


def answer(entry, values):
    given = [value.length if isinstance(value, Memory) else value for value in values]
    try:
        found = entry.rule(*given)
    except Refused as refusal:
        return [refusal.number]
    return [0] + found if entry.numbered else found


def line(entry, values):
    return '%s %s = %s' % (entry.rule.__name__, ' '.join(map(token, values)), ' '.join(map(token, answer(entry, values))))


def lines_of(entry):
    """The entry's own call, which is accepted, then each change of each argument. A changed number must give another answer, or a cut would not show."""
    values = [argument.value for argument in entry.arguments]
    own = answer(entry, values)
    if len(own) == 1:
        raise SystemExit('refused: %s' % line(entry, values))
    yield line(entry, values)
    for place, argument in enumerate(entry.arguments):
        made = [values[:place] + [changed] + values[place + 1:] for changed in changes(argument)]
        same = [each for each in made if answer(entry, each) == own]
        if argument.kind in ('number', 'signed') and same or argument.kind == 'exact' and len(same) == len(made):
            raise SystemExit('a cut would not show: %s' % line(entry, same[0]))
        yield from (line(entry, each) for each in made)


def named():
    """The exports, of which one may have several calls of its own."""
    return {entry.rule.__name__ for entry in ENTRIES}


def table():
    return ''.join(each + '\n' for entry in ENTRIES for each in lines_of(entry))


def declared(header):
    """The exports of the header by name, with the names of their arguments; the count that follows a pointer is none."""
    found = re.findall(r'\bmixegorta_(\w+)\(([^)]*)\);', re.sub(r'/\*.*?\*/', '', header, flags=re.S))
    names = {name: [argument.split()[-1].lstrip('*').partition('[')[0] for argument in arguments.split(',')] for name, arguments in found}
    return {name: [each for each in arguments if not each.endswith('_len')] for name, arguments in names.items()}


def faults(header, stored, made):
    """What is wrong of the table: an export or an argument that it has not, or lines that the rules do not give."""
    known = {entry.rule.__name__: list(dict.fromkeys(argument.name.split('.')[0] for argument in entry.arguments)) for entry in ENTRIES}
    for name, arguments in declared(header).items():
        if name not in WITHOUT_NUMBERS and known.get(name) != arguments:
            yield 'mixegorta_%s has the arguments %s, here %s' % (name, arguments, known.get(name))
    if stored != made:
        yield 'widths.txt is not what the rules give: run reference/widths.py'


def content(path):
    with open(path, encoding='utf-8') as file:
        return file.read()


def main(arguments):
    if arguments not in ([], ['--check']):
        print(__doc__.strip())
        return 0 if arguments in (['-h'], ['--help']) else 2
    made = table()
    if arguments == ['--check']:
        found = list(faults(content(HEADER), content(TABLE), made))
        print(*found or ['%d lines of %d exports' % (made.count('\n'), len(named()))], sep='\n')
        return 1 if found else 0
    with open(TABLE, 'w', encoding='utf-8') as file:
        file.write(made)
    print(made.count('\n'), 'lines of', len(named()), 'exports')
    return 0


if __name__ == '__main__':
    sys.exit(main(sys.argv[1:]))
