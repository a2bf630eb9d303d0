#!/usr/bin/env python3
"""Document 01, as the requests of document 02 changed it, in whole numbers and
fractions, written from the two documents alone.

    reference.py < job > sheet

Words are those of the documents: f, n, b, s, J, w, h, U, Z, P, R, y, q, F, B, c. Amounts
are billionths. Every rule returns its value or raises Refused with its number.
"""
import struct
import sys
from collections import namedtuple
from fractions import Fraction
from math import isqrt

ONE = 10 ** 9
D = 600_000_000
M = D * ONE
LONGEST_JOB = 4_700
VALUE_LIMIT = 8 * ONE
DISCOUNT_LIMIT = 1_100_000_000
FLOW_LIMIT = 2 * ONE
STRIKE_LIMIT = 4 * ONE
WEIGHED_LIMIT = 2_000_000_100
FOURFOLD_LIMIT = 4 * ONE
VERSIONS = 1, 2
CALL, PUT = 1, 2
MOST_STRIKES = 16
CALLS, AMERICAN = (1, 3), (3, 4)


class Refused(Exception):
    def __init__(self, number):
        super().__init__(number)
        self.number = number


def refuse_if(wrong, number):
    if wrong:
        raise Refused(number)


# Rounding

def up(numerator, denominator):
    return -(-numerator // denominator)


def half_up(numerator, denominator):
    """Nearest of a quotient without a sign."""
    whole, rest = divmod(numerator, denominator)
    return whole + 1 if 2 * rest >= denominator else whole


def nearest(x):
    """Halves away from zero."""
    x = Fraction(x)
    size = half_up(abs(x.numerator), x.denominator)
    return size if x >= 0 else -size


# The series, and discounts by continuous compounding

def series(x, alternating):
    term = total = ONE
    for k in range(1, 13):
        term = term * x // (k * ONE)
        total += -term if alternating and k % 2 else term
    return total


def exact_series(x, alternating):
    term = total = Fraction(ONE)
    for k in range(1, 13):
        term = term * x / (k * ONE)
        total += -term if alternating and k % 2 else term
    return total


def continuous(y):
    """F of y: P before any range test."""
    root = series(abs(y) // 4, y >= 0)
    square = root * root // ONE
    return square * square // ONE


def exact_continuous(y):
    """What a P in range is within 100 of."""
    return exact_series(abs(y) // 4, y >= 0) ** 4 / ONE ** 3


# Quotes

def whole_billionths(pattern):
    """The number of a float given by its 64 bits: NaN, infinity and figures beyond ten give 7."""
    exponent = pattern >> 52 & 0x7FF
    fraction = pattern & (1 << 52) - 1
    if exponent == 0x7FF:
        raise Refused(7)
    if exponent == 0:
        size = Fraction(fraction, 2 ** 1074)
    else:
        size = Fraction(2 ** 52 + fraction) * Fraction(2) ** (exponent - 1075)
    if size > 10:
        raise Refused(7)
    return nearest(-size * ONE if pattern >> 63 else size * ONE)


def quote(f, row, kind, pattern):
    refuse_if(kind not in (5, 6, 9), 7)
    figure = whole_billionths(pattern)
    if kind == 5:
        p = figure
    elif kind == 6:
        divisor = f * ONE + row * figure
        refuse_if(divisor <= 0, 7)
        p = ONE * ONE * f // divisor
    else:
        y = figure * row // f
        refuse_if(abs(y) > FOURFOLD_LIMIT, 7)
        p = continuous(y)
    refuse_if(not 100_000_000 <= p <= 2_000_000_000, 7)
    return p


def pattern_of(figure):
    return struct.unpack('>Q', struct.pack('>d', figure))[0]


# Branching

def highest(b):
    """J, or None where there is no J."""
    return 1_840 // b + 1 if b else None


def half_width(b, i):
    return min(i, highest(b)) if b else i


def nodes(b, i):
    w = half_width(b, i)
    return range(-w, w + 1)


def branches(b, j):
    """Three pairs of target node and probability over D: up, middle, down."""
    z = j * b
    top = highest(b)
    if b and j == top:
        return ((j, 7 * 10 ** 8 + 3 * z * z - 90_000 * z),
                (j - 1, -2 * 10 ** 8 - 6 * z * z + 120_000 * z),
                (j - 2, 10 ** 8 + 3 * z * z - 30_000 * z))
    if b and j == -top:
        return ((j + 2, 10 ** 8 + 3 * z * z + 30_000 * z),
                (j + 1, -2 * 10 ** 8 - 6 * z * z - 120_000 * z),
                (j, 7 * 10 ** 8 + 3 * z * z + 90_000 * z))
    return ((j + 1, 10 ** 8 + 3 * z * z - 30_000 * z),
            (j, 4 * 10 ** 8 - 6 * z * z),
            (j - 1, 10 ** 8 + 3 * z * z + 30_000 * z))


# Spacing and fit

def spacing(f, s):
    return isqrt(3 * (1_000 * s) ** 2 // f ** 3)


def working_reversion(version, b):
    """The working pull, which stands for b in J, branching, rows and prices: b itself in version 1."""
    return half_up(10_000 * (ONE - continuous(100_000 * b)), ONE) if version == 2 else b


def version_spacing(version, f, s, b):
    """h by the job's own b, which for b = 0 is that of version 1."""
    if version == 1 or b == 0:
        return spacing(f, s)
    twice = 2 * 100_000 * b
    c = ONE * (ONE - continuous(twice)) // twice
    return isqrt(3 * (1_000 * s) ** 2 * c // ONE // f ** 3)


def factor(j, h):
    return series(abs(j) * h, j >= 0)


def fit(n, b, h, quotes):
    """Rows of discounts and of state prices, each a dictionary by node."""
    prices = [{0: ONE}]
    discounts = []
    for i in range(n):
        row = prices[i]
        z = sum(row[j] * factor(j, h) for j in row) // ONE
        shown = {j: quotes[i] * factor(j, h) // z for j in row}
        if any(not 1 <= v <= DISCOUNT_LIMIT for v in shown.values()):
            raise Refused(9)
        later = {j: 0 for j in nodes(b, i + 1)}
        for j in row:
            carried = row[j] * shown[j] // ONE
            for target, probability in branches(b, j):
                later[target] += probability * carried
        discounts.append(shown)
        prices.append({j: later[j] // D for j in later})
    return discounts, prices


def step_rate(discount):
    return nearest(Fraction((ONE - discount) * ONE, discount))


def crossing(discount):
    """Some k with F(4k) at the discount or above it and F(4k + 4) below it, or the last k of all."""
    low, high = -ONE, ONE + 1
    while high - low > 1:
        middle = (low + high) // 2
        low, high = (middle, high) if continuous(4 * middle) >= discount else (low, middle)
    return low


def continuous_rate(discount):
    """All y of one q share one F, and 4q or -4q is the least of them. F falls as y grows, give or take
    200: up to 1.2 x one it is within 100 of the exact one, and below y = 0 it never turns. So past an F
    that is further from the discount than the best by more than 200 no y is as near."""
    refuse_if(not 1 <= discount <= DISCOUNT_LIMIT, 9)

    def judged(k):
        return abs(continuous(4 * k) - discount), abs(4 * k), 4 * k

    start = crossing(discount)
    best = judged(start)
    for way in (range(start + 1, ONE + 1), range(start - 1, -ONE - 1, -1)):
        for k in way:
            found = judged(k)
            best = min(best, found)
            if found[0] > best[0] + 200:
                break
    return best[2]


# Prices

def rolled(b, discounts, later):
    """Two divisions, each to nearest on its own."""
    means = {j: half_up(sum(p * later[k] for k, p in branches(b, j)), D) for j in discounts}
    return {j: half_up(means[j] * discounts[j], ONE) for j in discounts}


def within_limit(row):
    if any(v > VALUE_LIMIT for v in row.values()):
        raise Refused(12)
    return row


def flow_of(flows, i):
    """flows[t] is the flow of row t + 1; row 0 has none."""
    return flows[i - 1] if i else 0


def bond_rows(n, b, discounts, flows):
    """Bond values on rows 0 to n."""
    rows = [None] * n + [within_limit({j: flows[n - 1] for j in nodes(b, n)})]
    for i in range(n - 1, -1, -1):
        roll = rolled(b, discounts[i], rows[i + 1])
        rows[i] = within_limit({j: roll[j] + flow_of(flows, i) for j in roll})
    return rows


# An option as a job names it by a kind, and as any option is: the right to buy or sell at the strike on the listed rows.
Kind = namedtuple('Kind', 'kind expiry strike')
Option = namedtuple('Option', 'side strike dates')


def option_of_kind(kind, expiry, strike):
    """European: the expiry alone. American: every row from 0 to it."""
    return Option(CALL if kind in CALLS else PUT, strike, list(range(expiry + 1)) if kind in AMERICAN else [expiry])


def dates_wrong(n, dates):
    rising = all(earlier < later for earlier, later in zip(dates, dates[1:]))
    return not dates or not rising or dates[-1] >= n


def accepted_option(n, terms):
    """The option of a Kind or an Option. A kind's expiry is judged by 11, any other list by 13."""
    if isinstance(terms, Kind):
        refuse_if(terms.kind not in (1, 2, 3, 4) or terms.expiry >= n or terms.strike > STRIKE_LIMIT, 11)
        return option_of_kind(*terms)
    refuse_if(terms.side not in (CALL, PUT) or terms.strike > STRIKE_LIMIT, 11)
    refuse_if(dates_wrong(n, terms.dates), 13)
    return terms


def exercise(option, bond):
    return max(bond - option.strike if option.side == CALL else option.strike - bond, 0)


def exercise_row(option, bonds, flows, i):
    """Exercise values of row i: the day's flow stays with the seller of the bond."""
    return {j: exercise(option, v - flow_of(flows, i)) for j, v in bonds[i].items()}


def option_rows(b, discounts, flows, bonds, option, roll):
    """Option values on rows 0 to the last listed one."""
    last = option.dates[-1]
    rows = [exercise_row(option, bonds, flows, last)]
    for i in range(last - 1, -1, -1):
        row = roll(b, discounts[i], rows[-1])
        if i in option.dates:
            now = exercise_row(option, bonds, flows, i)
            row = {j: max(v, now[j]) for j, v in row.items()}
        rows.append(row)
    return rows[::-1]


def option_value(n, b, discounts, flows, option):
    bonds = bond_rows(n, b, discounts, flows)
    rows = [within_limit(row) for row in option_rows(b, discounts, flows, bonds, option, rolled)]
    return rows[0][0]


# Up to 16 strikes of one kind or date list: the strip's own number and, where that is 0, each strike's number, value and allowance in order.
Strip = namedtuple('Strip', 'number prices')


def answer(single, strike):
    """What a call for one strike gives, whole: single returns value and allowance, or refuses, which comes with zeros."""
    try:
        return 0, *single(strike)
    except Refused as refusal:
        return refusal.number, 0, 0


def strip(causes, strikes, single):
    """The strip's own causes before its 6 are pairs of number and whether it applies, in their order; every other cause stands in the answers."""
    own = [number for number, applies in (*causes, (6, not 1 <= len(strikes) <= MOST_STRIKES)) if applies]
    return Strip(own[0], []) if own else Strip(0, [answer(single, strike) for strike in strikes])


def tree_causes(n, b):
    return (3, not 1 <= n <= 60), (4, b > 6_000)


def price_allowance(discounts):
    allowance = 0
    for row in reversed(discounts):
        allowance = up(max(row.values()) * allowance, ONE) + 2
    return allowance


def state_price_allowance(b, discounts, row):
    allowance = 0
    for i in range(row):
        counts = len(nodes(b, i)) + len(nodes(b, i + 1))
        allowance = up(max(discounts[i].values()) * allowance, ONE) + counts
    return allowance


def weighing(prices, payoffs):
    if len(prices) != len(payoffs) or len(prices) % 2 == 0 or len(prices) > 121:
        raise Refused(6)
    value = sum(q * x for q, x in zip(prices, payoffs)) // ONE
    if max(payoffs) > VALUE_LIMIT or sum(prices) > WEIGHED_LIMIT or value > VALUE_LIMIT:
        raise Refused(12)
    return value


def weighing_allowance(b, discounts, row, payoffs):
    return up(max(payoffs) * state_price_allowance(b, discounts, row), ONE) + 1


# The exact pricer: fractions, no rounding, no refusals

def exact_roll(b, discounts, later):
    return {j: Fraction(sum(p * later[k] for k, p in branches(b, j))) / D * discounts[j] / ONE
            for j in discounts}


def exact_bond_rows(n, b, discounts, flows):
    rows = [None] * n + [{j: Fraction(flows[n - 1]) for j in nodes(b, n)}]
    for i in range(n - 1, -1, -1):
        roll = exact_roll(b, discounts[i], rows[i + 1])
        rows[i] = {j: roll[j] + flow_of(flows, i) for j in roll}
    return rows


def exact_option(n, b, discounts, flows, option):
    bonds = exact_bond_rows(n, b, discounts, flows)
    return option_rows(b, discounts, flows, bonds, option, exact_roll)[0][0]


def exact_payoffs(b, discounts, row, payoffs):
    values = dict(zip(nodes(b, row), payoffs))
    for i in range(row - 1, -1, -1):
        values = exact_roll(b, discounts[i], values)
    return values[0]


# Job and sheet

class Fields:
    def __init__(self, job):
        self.job = job
        self.at = 0

    def tag(self):
        return self.job[self.at] if self.at < len(self.job) else None

    def take(self, tags, lengths):
        """The tag and data of the next field, which must be one of the tags and have one of the lengths."""
        head = self.job[self.at:self.at + 3]
        refuse_if(len(head) < 3 or head[0] not in tags, 1)
        length = head[1] * 256 + head[2]
        end = self.at + 3 + length
        refuse_if(length not in lengths or end > len(self.job), 1)
        data = self.job[self.at + 3:end]
        self.at = end
        return head[0], data

    def number(self, tag, length):
        return int.from_bytes(self.take((tag,), (length,))[1], 'big')

    def version(self):
        """1 or 2 from 0B, or None where it does not stand, which means version 1 but is told apart from it."""
        if self.tag() != 0x0B:
            return None
        number = self.number(0x0B, 1)
        refuse_if(number not in VERSIONS, 1)
        return number

    def option(self):
        """A Kind from 08, an Option from 0A, or None where neither stands."""
        if self.tag() == 0x08:
            data = self.take((0x08,), (6,))[1]
            return Kind(data[0], data[1], int.from_bytes(data[2:], 'big'))
        if self.tag() == 0x0A:
            data = self.take((0x0A,), range(5, LONGEST_JOB))[1]
            return Option(data[0], int.from_bytes(data[1:5], 'big'), list(data[5:]))
        return None


# What a job says: the version as Fields gives it, quotes as (kind, pattern).
Job = namedtuple('Job', 'f n b s version quotes flows option')


def read(job):
    if len(job) > LONGEST_JOB:
        raise Refused(1)
    fields = Fields(job)
    f, n = fields.number(0x01, 1), fields.number(0x02, 1)
    b, s = fields.number(0x03, 2), fields.number(0x04, 4)
    version = fields.version()
    quotes = [fields.take((0x05, 0x06, 0x09), (8,)) for _ in range(n)]
    quotes = [(kind, int.from_bytes(data, 'big')) for kind, data in quotes]
    flows = [fields.number(0x07, 4) for _ in range(n)]
    option = fields.option()
    refuse_if(fields.at != len(job), 1)
    return Job(f, n, b, s, version, quotes, flows, option)


def amount(x):
    return '%d.%09d' % divmod(x, ONE)


def percent(rate):
    return ('-' if rate < 0 else '') + '%d.%07d' % divmod(abs(rate), 10 ** 7)


# A job's tree of its working reversion, and its prices; option is None where the job has none.
Worked = namedtuple('Worked', 'b quotes discounts state_prices bond option allowance')


def worked(job):
    """Causes are judged over the whole job, lowest number first but for 13, which is tried before 12."""
    f, n, b, s, version, quoted, flows, terms = read(job)
    refuse_if(f not in (1, 2, 4, 12), 2)
    refuse_if(not 1 <= n <= 60, 3)
    refuse_if(b > 6_000, 4)
    refuse_if(s > 50_000, 5)
    quotes = [quote(f, t, kind, pattern) for t, (kind, pattern) in enumerate(quoted, 1)]
    h = version_spacing(version or 1, f, s, b)
    working = working_reversion(version or 1, b)
    refuse_if(half_width(working, n - 1) * h > ONE, 8)
    discounts, prices = fit(n, working, h, quotes)
    refuse_if(any(flow > FLOW_LIMIT for flow in flows), 10)
    option = terms and accepted_option(n, terms)
    bond = bond_rows(n, working, discounts, flows)[0][0]
    price = option_value(n, working, discounts, flows, option) if option else None
    return Worked(working, quotes, discounts, prices, bond, price, price_allowance(discounts))


def lines(job):
    """The sheet's lines."""
    found = worked(job)
    out = ['node %d %d %s %s' % (i, j, amount(v), percent(step_rate(v)))
           for i, row in enumerate(found.discounts) for j, v in sorted(row.items())]
    for t, p in enumerate(found.quotes, 1):
        out.append('row %d %s %s %d' % (t, amount(p), amount(sum(found.state_prices[t].values())),
                                        state_price_allowance(found.b, found.discounts, t)))
    out.append('bond %s %d' % (amount(found.bond), found.allowance))
    if found.option is not None:
        out.append('option %s %d' % (amount(found.option), found.allowance))
    return out


def sheet(job):
    try:
        out = lines(job)
    except Refused as refusal:
        out = ['refused %d' % refusal.number]
    return ''.join(line + '\n' for line in out).encode()


if __name__ == '__main__':
    if sys.argv[1:]:
        sys.exit(print(__doc__.strip()))
    sys.stdout.buffer.write(sheet(sys.stdin.buffer.read()))
