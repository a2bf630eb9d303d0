#!/usr/bin/env python3
"""The jobs of this crate and the sheet of each, worked out by reference/reference.py from documents 01 and 02 alone.

    vectors.py    writes the files stdin and stdout beside itself

stdin: jobs one after the other, each after its length in two bytes, high byte first. stdout: their sheets one after the other.
"""
import os
import struct
import sys

HERE = os.path.dirname(os.path.abspath(__file__))
sys.path.insert(0, os.path.join(HERE, '..', '..', 'reference'))
sys.dont_write_bytecode = True
import reference

ONE = reference.ONE
EXAMPLE = bytes.fromhex('01000101' '02000101' '0300020000' '04000400000000' '0500083FF00A3D70A3D70A' '0700043B9ACA00' '08000604013C336080')
TODAY = EXAMPLE[:42] + b'\x00' + EXAMPLE[43:]
NAN, INFINITY = 0x7FF8000000000000, 0x7FF0000000000000
MOST_WIDE_JOBS = 2


def field(tag, data):
    return struct.pack('>BH', tag, len(data)) + data


def of_kind(kind, expiry, strike):
    return field(8, struct.pack('>BBI', kind, expiry, strike))


def dated(side, strike, dates):
    return field(10, struct.pack('>BI', side, strike) + bytes(dates))


def job(f=4, n=None, b=0, s=5_000, quotes=(), flows=None, option=None, dates=None):
    """A job in good form; a quote is (kind, float) or (kind, 64 bits). With dates the option is (side, strike), else (kind, expiry, strike)."""
    n = len(quotes) if n is None else n
    flows = [50_000_000] * (n - 1) + [ONE + 50_000_000] if flows is None else flows
    out = field(1, bytes([f])) + field(2, bytes([n])) + field(3, struct.pack('>H', b)) + field(4, struct.pack('>I', s))
    for kind, figure in quotes:
        pattern = figure if isinstance(figure, int) else reference.pattern_of(figure)
        out += field(kind, struct.pack('>Q', pattern))
    for flow in flows:
        out += field(7, struct.pack('>I', flow))
    if dates is not None:
        return out + dated(*option, dates)
    return out + (of_kind(*option) if option else b'')


def rates(n, first, slope=0.0):
    return [(6, first + slope * t) for t in range(1, n + 1)]


def yields(n, first, slope=0.0):
    return [(9, first + slope * t) for t in range(1, n + 1)]


def factors(n, step):
    return [(5, step ** t) for t in range(1, n + 1)]


FOUR = factors(4, 0.99)
WIDE_FLOWS = [20_000_000] * 59 + [ONE + 20_000_000]


def good():
    yield 0, TODAY
    yield on_the_border(0, 'bond 1.002500000 2', EXAMPLE[:-9])
    yield 0, job(f=12, b=0, s=10_000, quotes=rates(60, 0.02, 0.0002), flows=WIDE_FLOWS, option=(4, 48, 1_400_000_000))
    yield 0, job(f=12, b=83, s=10_000, quotes=rates(60, 0.03), flows=WIDE_FLOWS, option=(3, 36, 1_300_000_000))
    yield 0, job(f=4, b=6_000, s=12_000, quotes=factors(60, 0.991), flows=WIDE_FLOWS, option=(4, 59, 1_000_000_000))
    yield 0, job(f=2, b=1_840, s=9_999, quotes=factors(20, 0.985), option=(3, 19, 1_000_000_000))
    yield 0, job(f=2, b=1_841, s=9_999, quotes=factors(20, 0.985), option=(3, 19, 1_000_000_000))
    yield 0, job(f=1, b=1_000, s=10_000, quotes=rates(8, -0.0025), option=(3, 5, 1_100_000_000))
    yield 0, job(f=4, b=0, s=800, quotes=rates(9, -0.0025), option=(2, 8, 1_000_000_000))
    yield 0, job(f=12, b=0, s=10_000, quotes=rates(12, 0.01, 0.003))
    yield 0, job(f=1, b=100, s=15_000, quotes=rates(5, 0.04), option=(1, 3, 1_000_000_000))
    yield 0, job(f=1, b=100, s=15_000, quotes=rates(5, 0.04), option=(2, 3, 1_200_000_000))
    yield 0, job(f=1, b=100, s=15_000, quotes=rates(5, 0.04), option=(4, 0, 2_000_000_000))
    yield 0, job(f=1, b=100, s=15_000, quotes=rates(5, 0.04), option=(1, 4, 0))
    yield 0, job(f=2, s=0, quotes=factors(3, 0.98), option=(2, 2, 4 * ONE))
    yield 0, job(f=12, s=50_000, quotes=[(6, 0.05)], option=(4, 0, ONE))
    yield 0, job(f=1, s=50_000, quotes=rates(3, 0.1), flows=[0] * 3, option=(1, 2, 0))
    yield 0, job(f=1, s=10_000, quotes=[(5, 1.0), (6, 0.0), (5, 0.97), (6, -0.0)])
    yield 0, job(f=1, s=0, quotes=[(5, 0.1)], flows=[2 * ONE])
    yield 0, job(f=1, s=0, quotes=factors(4, 0.999), flows=[2 * ONE] * 4, option=(3, 3, 0))
    yield 0, job(f=1, s=0, quotes=[(5, 1.1)], flows=[2 * ONE], option=(4, 0, 4 * ONE))
    yield 0, job(f=1, b=6_000, s=50_000, quotes=factors(13, 0.93), option=(4, 7, ONE))
    yield 0, job(f=1, b=1_000, s=10_000, quotes=yields(5, 0.032, 0.006), option=(3, 4, ONE))
    yield 0, job(f=12, b=83, s=8_000, quotes=yields(24, 0.02, 0.0003), option=(4, 18, 2 * ONE))
    yield 0, job(f=4, b=0, s=800, quotes=yields(9, -0.0025), option=(2, 8, ONE))
    yield 0, job(f=2, b=500, s=5_000, quotes=[(9, 0.02), (6, 0.02), (5, 0.97), (9, -0.0), (9, 0.005)], option=(1, 3, ONE))


def exercise_days():
    """Options that are exercised on a coupon's row, on their expiry and before it. The fit puts the bond without its coupon at 1.000000002 there, then
    at 1.1, then at 0.990000006."""
    coupon, flows = [100_000_000, ONE], [100_000_000, 100_000_000, ONE]
    for kind, strike, line in ((1, 900_000_000, 'option 0.100000002 4'), (2, 1_050_000_000, 'option 0.049999998 4'), (3, 900_000_000, 'option 0.200000002 4'),
                               (4, 1_050_000_000, 'option 0.049999998 4')):
        yield on_the_border(0, line, job(f=1, s=0, quotes=[(5, 1.0)] * 2, flows=coupon, option=(kind, 1, strike)))
        yield 11, job(f=1, s=0, quotes=[(5, 1.0)] * 2, flows=coupon, option=(kind, 2, strike))
    yield on_the_border(0, 'option 0.090000000 6', job(f=1, s=0, quotes=[(5, 0.9)] * 3, flows=flows, option=(3, 2, ONE)))
    yield on_the_border(0, 'option 0.059999994 6', job(f=1, s=0, quotes=[(5, 1.0), (5, 0.9), (5, 0.9)], flows=flows, option=(4, 2, 1_050_000_000)))
    for kind in (1, 2, 3, 4):
        yield 0, job(f=2, b=500, s=8_000, quotes=rates(12, 0.044, 0.0006), flows=[25_000_000] * 11 + [ONE + 25_000_000], option=(kind, 11, ONE))


def malformed():
    whole = job(quotes=FOUR, option=(1, 2, ONE))
    plain = job(quotes=FOUR)
    yield b''
    yield b'\x01'
    yield bytes(4_701)
    yield EXAMPLE + bytes(4_701 - len(EXAMPLE))
    yield EXAMPLE + bytes(4_700 - len(EXAMPLE))
    yield bytes(range(256))
    yield b'\xff' * 60
    yield b'refused 1\n'
    for end in (1, 3, 4, 8, 10, 20, 60, len(whole) - 9, len(whole) - 1):
        yield whole[:len(whole) - end]
    yield plain[:-1]
    yield plain + b'\x00'
    yield whole + b'\x08'
    yield whole + of_kind(1, 2, ONE)
    yield plain[4:8] + plain[:4] + plain[8:]
    yield plain[:20] + plain[20 + 44:] + plain[20:20 + 44]
    yield b'\x01\x00\x02\x04\x04' + plain[4:]
    yield plain[:20] + b'\x05\x00\x07' + plain[24:]
    yield plain[:20] + b'\x05\x01\x08' + plain[23:]
    yield plain[:20] + b'\x07' + plain[21:]
    yield plain[:20] + b'\x0c' + plain[21:]
    yield job(quotes=FOUR, flows=[ONE] * 3)
    yield job(quotes=FOUR, flows=[ONE] * 5)
    yield job(n=5, quotes=FOUR, flows=[ONE] * 5)
    yield job(n=0, quotes=[]) + b'\x00'
    yield job(f=3, n=255, quotes=factors(254, 0.999))
    yield job(f=3, b=9_999, s=99_999, quotes=[(5, NAN)], flows=[3 * ONE]) + b'\x08'


def each_cause():
    for f in (0, 3, 5, 6, 11, 13, 255):
        yield 2, job(f=f, quotes=FOUR)
    yield 3, job(n=0, quotes=[], flows=[])
    yield 3, job(n=0, quotes=[], flows=[], option=(1, 0, ONE))
    yield 3, job(quotes=factors(61, 0.995))
    yield 3, job(quotes=factors(255, 0.999), option=(1, 1, ONE))
    for b in (6_001, 65_535):
        yield 4, job(b=b, quotes=FOUR)
    for s in (50_001, 0xFFFFFFFF):
        yield 5, job(s=s, quotes=FOUR)
    for kind in (5, 6):
        for pattern in (NAN, NAN | 1 << 63, INFINITY, INFINITY | 1 << 63, INFINITY + 1, reference.pattern_of(10.0) + 1,
                        reference.pattern_of(-10.0) + 1, reference.pattern_of(1e300)):
            yield 7, job(quotes=FOUR[:3] + [(kind, pattern)])
    for pattern in (NAN, NAN | 1 << 63, INFINITY, INFINITY | 1 << 63, reference.pattern_of(10.0) + 1, reference.pattern_of(-10.0) + 1):
        yield 7, job(f=12, quotes=yields(3, 0.03) + [(9, pattern)])
    # y of exactly four times one, to either side, and one more: within the limit it is the discount that is out of range.
    for figure in (4.0, -4.0, 4.000000001, -4.000000001):
        yield 7, job(f=1, quotes=[(9, figure)])
    for figure in (0.8, -0.8, 10.0, -10.0):
        yield 7, job(f=12, quotes=yields(59, 0.03) + [(9, figure)])
    yield 7, job(f=1, quotes=[(6, -1.0)])
    yield 7, job(f=1, quotes=[(6, 0.01), (6, -0.5)])
    yield 7, job(f=1, quotes=[(6, 0.01), (6, -0.6)])
    yield 7, job(f=1, quotes=[(6, 10.0)])
    yield 7, job(f=1, quotes=[(6, -0.51)])
    for figure in (0.0, -0.0, -0.98, 0.0999999994, 2.0000000006, 10.0, -10.0):
        yield 7, job(quotes=[(5, figure)])
    yield 8, job(f=1, s=50_000, quotes=factors(13, 0.95))
    yield 8, job(f=1, b=20, s=50_000, quotes=factors(60, 0.97))
    yield 9, job(f=1, s=50_000, quotes=factors(12, 0.95))
    yield 9, job(quotes=[(5, 1.2)])
    yield 9, job(quotes=[(5, 2.0)])
    yield 9, job(f=1, s=0, quotes=[(5, 0.5), (5, 0.99)])
    yield 9, job(f=4, s=5_000, quotes=rates(4, -0.3))
    yield 10, job(quotes=FOUR, flows=[0, 0, 0, 2 * ONE + 1])
    yield 10, job(quotes=FOUR, flows=[0xFFFFFFFF, 0, 0, 0])
    for kind in (0, 5, 255):
        yield 11, job(quotes=FOUR, option=(kind, 2, ONE))
    yield 11, EXAMPLE
    for expiry in (4, 5, 255):
        yield 11, job(quotes=FOUR, option=(1, expiry, ONE))
    yield 11, job(quotes=FOUR[:1], option=(2, 1, ONE))
    for strike in (4 * ONE + 1, 0xFFFFFFFF):
        yield 11, job(quotes=FOUR, option=(2, 2, strike))
    yield 12, job(f=1, s=0, quotes=factors(5, 0.999), flows=[2 * ONE] * 5)
    yield 12, job(f=1, s=0, quotes=factors(5, 0.999), flows=[2 * ONE] * 5, option=(2, 1, ONE))
    rising = [(5, 0.5 * 1.0999 ** t) for t in range(10)]
    yield 12, job(f=1, s=0, quotes=rising, flows=[0] * 10, option=(2, 9, 4 * ONE))
    yield 12, job(f=1, s=0, quotes=rising, flows=[0] * 10, option=(4, 9, 4 * ONE))
    yield 0, job(f=1, s=0, quotes=rising, flows=[0] * 10, option=(2, 8, 4 * ONE - 500_000_000))
    low = [(5, 0.101)] + [(5, 0.1)] * 5
    yield 12, job(f=1, s=0, quotes=low, flows=[2 * ONE] * 6)
    yield 12, job(f=1, s=0, quotes=low, flows=[2 * ONE] * 6, option=(4, 0, ONE))
    yield 12, job(f=4, b=500, s=10_000, quotes=factors(30, 0.99), flows=[ONE] * 30, option=(3, 2, ONE))


def pairs():
    """Two or more causes in one job: the lowest number wins, wherever each stands."""
    strange = [(5, NAN)]
    yield 2, job(f=3, quotes=factors(61, 0.99))
    yield 2, job(f=0, n=0, quotes=[], flows=[])
    yield 2, job(f=7, b=6_001, s=50_001, quotes=FOUR + strange, flows=[3 * ONE] * 5, option=(9, 9, 0xFFFFFFFF))
    yield 3, job(b=6_001, s=50_001, quotes=factors(61, 0.99))
    yield 4, job(b=6_001, s=50_001, quotes=FOUR)
    yield 4, job(b=7_000, quotes=strange)
    yield 5, job(s=50_001, quotes=strange)
    yield 5, job(f=1, s=50_001, quotes=factors(14, 0.95), option=(0, 0, 0))
    yield 7, job(f=1, s=50_000, quotes=factors(12, 0.95) + strange)
    yield 7, job(quotes=[(5, 1.2)] + strange)
    yield 7, job(f=1, s=50_000, quotes=yields(12, 0.05) + [(9, NAN)], option=(0, 0, 0))
    yield 8, job(f=1, s=50_000, quotes=yields(13, -0.2)[:2] + yields(13, 0.05)[2:], flows=[3 * ONE] * 13)
    yield 9, job(f=1, quotes=[(9, -0.1)], option=(0, 0, 0))
    yield 7, job(quotes=FOUR[:3] + strange, flows=[3 * ONE, 0, 0, 0])
    yield 8, job(f=1, s=50_000, quotes=[(5, 1.2)] + factors(12, 0.95))
    yield 8, job(f=1, s=50_000, quotes=factors(13, 0.95), flows=[3 * ONE] * 13, option=(0, 0, 0))
    yield 9, job(quotes=FOUR[:3] + [(5, 1.2)], flows=[3 * ONE, 0, 0, 0])
    yield 9, job(quotes=[(5, 1.2)], option=(0, 0, 0))
    yield 9, job(quotes=[(5, 1.2)] * 5, flows=[2 * ONE] * 5)
    yield 10, job(quotes=FOUR, flows=[0, 0, 0, 3 * ONE], option=(0, 2, ONE))
    yield 10, job(quotes=FOUR, flows=[0, 0, 0, 3 * ONE], option=(1, 4, ONE))
    yield 10, job(quotes=factors(6, 0.99), flows=[2 * ONE] * 5 + [3 * ONE])
    yield 11, job(quotes=factors(6, 0.999), flows=[2 * ONE] * 6, option=(1, 6, ONE))
    yield 11, job(quotes=factors(6, 0.999), flows=[2 * ONE] * 6, option=(1, 7, ONE))
    yield 11, job(quotes=factors(6, 0.999), flows=[2 * ONE] * 6, option=(5, 1, ONE))


def on_the_border(number, line, made, whole=True):
    """A job whose sheet has this line, or one that begins so: without the line it would not stand on its border."""
    if (line + '\n' * whole).encode() not in reference.sheet(made):
        raise SystemExit('no line %r in the sheet of %s' % (line, made.hex()))
    return number, made


def borders():
    """Each limit met exactly, and passed by the least that a job can say."""
    half, ten = 1 / 1_024, reference.pattern_of(10.0)
    for figure, line in ((1 - half, 'row 1 0.999023438 0.999023437 4'), (reference.pattern_of(1 - half) - 1, 'row 1 0.999023437 0.999023436 4')):
        yield on_the_border(0, line, job(f=1, s=0, quotes=[(5, figure)]))
    for figure, line in ((half, 'row 1 0.999024389 0.999024387 4'), (reference.pattern_of(half) - 1, 'row 1 0.999024390 0.999024390 4'),
                         (-half, 'row 1 1.000977517 1.000977516 4'), (reference.pattern_of(-half) - 1, 'row 1 1.000977516 1.000977516 4')):
        yield on_the_border(0, line, job(f=1, s=0, quotes=[(6, figure)]))
    yield on_the_border(0, 'node 0 0 0.327680000 205.1757813', job(f=1, s=0, quotes=[(5, 0.32768)]))
    # Yields whose y is rounded down, away from zero below it; and the last in range, to either side.
    for figure, line in ((7e-9, 'row 1 1.000000000 0.999999998 4'), (-7e-9, 'row 1 1.000000004 1.000000003 4'), (-8e-9, 'row 1 1.000000004 1.000000003 4'),
                         (8e-9, 'row 1 0.999999996 0.999999996 4'), (-0.0, 'row 1 1.000000000 0.999999998 4')):
        yield on_the_border(0, line, job(f=2, s=0, quotes=[(9, figure)]))
    yield on_the_border(0, 'row 1 0.100000001 0.099999999 4', job(f=1, s=0, quotes=[(9, 2.302585083)]))
    yield 7, job(f=1, s=0, quotes=[(9, 2.302585084)])
    yield 9, job(f=1, s=0, quotes=[(9, -0.693147195)])
    yield 7, job(f=1, s=0, quotes=[(9, -0.693147196)])
    yield on_the_border(0, 'node 0 0 1.099999997 -9.0909088', job(f=1, s=0, quotes=[(9, -0.095310191)]))
    yield 9, job(f=1, s=0, quotes=[(9, -0.095310192)])
    yield on_the_border(0, 'row 1 0.545454545 0.545454543 4', job(f=12, s=0, quotes=[(6, ten)]))
    yield 7, job(f=12, s=0, quotes=[(6, ten + 1)])
    # No volatility gives a product of exactly one: these two come nearest, 151 below and 1,100 above. So steep a tree is refused with 9.
    yield 9, job(f=2, s=28_649, quotes=factors(58, 0.98))
    yield 8, job(f=2, s=46_657, quotes=factors(36, 0.98))
    # The lowest node of the last row alone has 1,100,000,000, and more.
    yield on_the_border(0, 'node 3 -3 1.100000000 -9.0909091', job(quotes=factors(3, 0.99) + [(5, 1.063870137)]))
    yield 9, job(quotes=factors(3, 0.99) + [(5, 1.063870138)])
    # A bond and a call of exactly 8, then a bond of one billionth more.
    level, flow = [(5, 1.0)] * 4, 1_999_999_960
    yield on_the_border(0, 'bond 8.000000000 10', job(f=1, s=0, quotes=level, flows=[flow] + [2 * ONE] * 3))
    for kind, expiry in ((1, 0), (3, 3)):
        yield on_the_border(0, 'option 8.000000000 10', job(f=1, s=0, quotes=level, flows=[flow] + [2 * ONE] * 3, option=(kind, expiry, 0)))
    yield 12, job(f=1, s=0, quotes=level, flows=[flow + 1] + [2 * ONE] * 3)
    # A put of exactly 8 on row 1, its bond 0; the next strike gives more, and by rolls rounded down would not.
    rising = [(5, 0.5 * 1.0994 ** t) for t in range(10)]
    for kind in (2, 4):
        yield on_the_border(0, 'option 4.000000000 19', job(f=1, s=0, quotes=rising, flows=[0] * 10, option=(kind, 9, 3_748_384_116)))
        yield 12, job(f=1, s=0, quotes=rising, flows=[0] * 10, option=(kind, 9, 3_748_384_117))


def halves():
    """Rolls that end in one half, which goes up: a flow by a discount of 0.5, then the mean of 1,062, 973 and 893 on row 1, which is 974.5."""
    for flow, line in ((1, 'bond 0.000000001 2'), (2, 'bond 0.000000001 2'), (3, 'bond 0.000000002 2'), (5, 'bond 0.000000003 2')):
        yield on_the_border(0, line, job(f=1, s=0, quotes=[(5, 0.5)], flows=[flow]))
    mean = dict(f=1, s=50_000, quotes=[(5, 1.0), (5, 0.9)], flows=[0, 1_083])
    yield on_the_border(0, 'bond 0.000000975 4', job(**mean))
    yield on_the_border(0, 'option 0.000000975 4', job(option=(1, 1, 0), **mean))
    yield on_the_border(0, 'option 0.000000975 4', job(option=(1, 0), dates=[1], **mean))


def dated_options():
    """Rows that may be exercised on one by one: coupon days, today, the last row before the bond's, all of them; on growing and on capped trees."""
    level, yearly = [(5, 1.0)] * 2, rates(12, 0.044, 0.0006)
    note = [0, 50_000_000] * 5 + [0, ONE + 50_000_000]
    for side, strike in ((1, ONE), (2, 1_050_000_000), (1, 0), (2, 4 * ONE)):
        for dates in ([2, 4, 6, 8, 10], [10], [0, 10], [1, 3, 5, 7, 9, 11], [0], [11], [0, 11], range(12)):
            yield 0, job(f=4, b=500, s=8_000, quotes=yearly, flows=note, option=(side, strike), dates=dates)
    yield 0, job(f=12, b=83, s=10_000, quotes=rates(60, 0.03), flows=WIDE_FLOWS, option=(1, 1_300_000_000), dates=range(5, 60, 6))
    yield 0, job(f=4, b=6_000, s=12_000, quotes=factors(60, 0.991), flows=WIDE_FLOWS, option=(2, ONE), dates=range(60))
    yield 0, job(f=4, b=0, s=800, quotes=rates(9, -0.0025), option=(2, ONE), dates=[3, 4, 8])
    yield 0, job(f=1, s=50_000, quotes=[(6, 0.05)], option=(1, ONE), dates=[0])
    # The bond without its coupon is 1.000000002 on row 1 and 1.100000002 today.
    for side, strike, dates, line in ((1, 900_000_000, [1], 'option 0.100000002 4'), (1, 900_000_000, [0], 'option 0.200000002 4'),
                                      (2, 1_050_000_000, [0, 1], 'option 0.049999998 4'), (2, 1_050_000_000, [0], 'option 0.000000000 4')):
        yield on_the_border(0, line, job(f=1, s=0, quotes=level, flows=[100_000_000, ONE], option=(side, strike), dates=dates))


def one_right_twice():
    """The same rights by 08 and by 0A, whose sheets must be equal."""
    for kind, expiry, strike in ((1, 3, ONE), (2, 3, 1_200_000_000), (3, 3, ONE), (4, 3, 1_200_000_000), (1, 0, 0), (4, 0, 2 * ONE), (3, 4, 0), (2, 4, 4 * ONE)):
        side, _, dates = reference.option_of_kind(kind, expiry, strike)
        made = [job(f=1, b=100, s=15_000, quotes=rates(5, 0.04), option=(kind, expiry, strike)),
                job(f=1, b=100, s=15_000, quotes=rates(5, 0.04), option=(side, strike), dates=dates)]
        if reference.sheet(made[0]) != reference.sheet(made[1]):
            raise SystemExit('a kind and its list differ: %s' % made[1].hex())
        yield from ((0, one) for one in made)


def malformed_dates():
    plain, kind, dates = job(quotes=FOUR), of_kind(1, 2, ONE), dated(1, ONE, [1, 2])
    yield from (plain + first + second for first in (kind, dates) for second in (kind, dates))
    for size in range(5):
        yield plain + field(10, struct.pack('>BI', 1, ONE)[:size])
    yield plain + dates[:-1]
    yield plain + dates + b'\x03'
    yield plain + dates[:2] + bytes([dates[2] - 1]) + dates[3:]
    yield plain + dates[:2] + bytes([dates[2] + 1]) + dates[3:]
    yield plain + dates[:1] + b'\x01' + dates[2:]
    yield plain[:-7] + dates
    yield plain + field(16, dates[3:])
    yield job(quotes=FOUR, flows=[ONE] * 3) + dates
    yield plain[:20] + dates + plain[20:]
    # One byte more than the longest job.
    yield job(n=0, quotes=[], flows=[], option=(1, ONE), dates=[0] * 4_673)
    yield job(quotes=FOUR, option=(1, ONE), dates=bytes(4_601))


def wrong_dates():
    for dates in ([], [4], [5], [255], [1, 1], [0, 0], [2, 1], [0, 1, 3, 2], [0, 1, 2, 2], [0, 1, 2, 3, 4], [4, 1], [3, 255], [1, 0, 2],
                  range(62), range(256), [2] * 300, range(255, -1, -1), bytes(4_600)):
        yield 13, job(quotes=FOUR, option=(1, ONE), dates=dates)
    yield 13, job(quotes=FOUR[:1], option=(2, ONE), dates=[1])
    yield 13, job(f=12, s=8_000, b=500, quotes=rates(60, 0.03), option=(2, ONE), dates=range(61))
    for side in (0, 3, 4, 255):
        yield 11, job(quotes=FOUR, option=(side, ONE), dates=[1, 2])
    for strike in (4 * ONE + 1, 0xFFFFFFFF):
        yield 11, job(quotes=FOUR, option=(2, strike), dates=[1, 2])


def order_of_dates():
    """13 is tried after 11 and before 12; form comes first, and every lower number before 13."""
    much, listed = [2 * ONE] * 5, dict(quotes=[(5, 1.0)] * 5, f=1, s=0)
    for dates, number in (([1], 12), ([5], 13), ([1, 1], 13), ([], 13)):
        yield number, job(flows=much, option=(2, ONE), dates=dates, **listed)
    yield 11, job(flows=much, option=(2, 4 * ONE + 1), dates=[5], **listed)
    yield 11, job(flows=much, option=(3, ONE), dates=[], **listed)
    yield 10, job(flows=[3 * ONE] * 5, option=(3, ONE), dates=[1, 1], **listed)
    yield 9, job(quotes=[(5, 1.2)], option=(1, ONE), dates=[1])
    yield 8, job(f=1, s=50_000, quotes=factors(13, 0.95), option=(1, ONE), dates=[])
    yield 7, job(quotes=[(5, NAN)], option=(1, ONE), dates=[])
    yield 5, job(s=50_001, quotes=FOUR, option=(1, ONE), dates=[4])
    yield 4, job(b=6_001, quotes=FOUR, option=(1, ONE), dates=[4])
    yield 3, job(quotes=factors(61, 0.995), option=(1, ONE), dates=range(62))
    yield 3, job(n=0, quotes=[], flows=[], option=(1, ONE), dates=bytes(4_672))
    yield 2, job(f=3, n=0, quotes=[], flows=[], option=(3, 0xFFFFFFFF), dates=[9] * 4_672)
    yield 3, job(n=0, quotes=[], flows=[], option=(1, ONE), dates=[])
    # A put of exactly 8 on row 1, on a row that is listed and on one that is not; the next strike gives more.
    rising = [(5, 0.5 * 1.0994 ** t) for t in range(10)]
    for dates in ([9], [0, 1, 9]):
        yield on_the_border(0, 'option 4.000000000 19', job(f=1, s=0, quotes=rising, flows=[0] * 10, option=(2, 3_748_384_116), dates=dates))
        yield 12, job(f=1, s=0, quotes=rising, flows=[0] * 10, option=(2, 3_748_384_117), dates=dates)


def greatest_discounts():
    """A node discount of 1.1 and of one billionth more, on row 0 and on row 1, whose state prices sum to two less than one."""
    for quotes, line in (([(5, 1.1)], 'node 0 0 1.100000000 -9.0909091'), ([(5, 1.0), (5, 1.099999998)], 'node 1 1 1.100000000 -9.0909091')):
        yield on_the_border(0, line, job(f=1, s=0, quotes=quotes))
    yield 9, job(f=1, s=0, quotes=[(5, 1.100000001)])
    yield 9, job(f=1, s=0, quotes=[(5, 1.0), (5, 1.099999999)])


def cliff(rise, s):
    """A curve that rises by the same part to 2 and falls to 0.1 on its last row."""
    quotes = [(5, figure) for figure in (rise ** t for t in range(1, 59)) if figure < 2] + [(5, 2.0), (5, 0.1)]
    return job(f=1, s=s, quotes=quotes, flows=[0] * (len(quotes) - 1) + [ONE])


def cliffs():
    """Step rates of 1,000 percent and more, and the two next to 1,000."""
    for figure, line in ((1.1, 'node 2 0 0.090909091 999.9999989'), (1.100000005, 'node 2 0 0.090909090 1000.0000110')):
        yield on_the_border(0, line, job(f=1, s=0, quotes=[(5, 1.1), (5, figure), (5, 0.1)]))
    yield on_the_border(0, 'node 10 10 0.050000000 1900.0000000', cliff(1.08, 0))
    yield on_the_border(0, 'node 15 15 0.048610161 1957.1830651', cliff(1.05, 1_080))
    yield on_the_border(0, 'node 15 15 0.047446914 2007.6186325', cliff(1.05, 2_000))


def of_version(version, made):
    """The same job with 0B straight after 04."""
    return made[:20] + field(11, bytes([version])) + made[20:]


def versions():
    """Jobs of both versions: version 1 in a tag is the job without it; b = 0 is the same in both; in version 2 a tree may be wider, and one is as wide as it
    was at another reversion. Then the causes, of which 4 is about b itself and 8 about the spacing of the version."""
    for made in (TODAY, EXAMPLE, job(f=1, b=100, s=15_000, quotes=rates(5, 0.04), option=(1, 3, ONE)), job(f=3, quotes=FOUR)):
        if reference.sheet(of_version(1, made)) != reference.sheet(made):
            raise SystemExit('version 1 in a tag differs: %s' % made.hex())
        yield number_of(reference.sheet(made)), of_version(1, made)
    for b in (0, 1, 100, 101, 103, 1_000, 2_034, 2_035, 6_000):
        flat = dict(f=4, b=b, s=8_000, quotes=rates(12, 0.03, 0.0005), flows=[12_000_000] * 11 + [ONE])
        yield 0, of_version(2, job(option=(4, 9, ONE), **flat))
        yield 0, of_version(2, job(option=(1, ONE), dates=[2, 5, 9], **flat))
    yield on_the_border(0, 'node 2 2 ', of_version(2, job(f=1, b=2_034, s=8_000, quotes=rates(4, 0.03))), whole=False)
    yield 0, of_version(2, job(f=1, b=1_000, s=10_000, quotes=rates(8, -0.0025), option=(3, 5, 1_100_000_000)))
    yield 0, of_version(2, job(f=12, b=103, s=10_000, quotes=rates(60, 0.03), flows=WIDE_FLOWS, option=(2, ONE), dates=range(5, 60, 6)))
    yield 2, of_version(2, job(f=3, quotes=FOUR))
    yield 3, of_version(2, job(n=0, quotes=[], flows=[]))
    for version in (1, 2):
        yield 4, of_version(version, job(b=6_001, quotes=FOUR))
        yield 4, of_version(version, job(b=6_001, s=50_001, quotes=[(5, NAN)]))
        yield 5, of_version(version, job(s=50_001, b=6_000, quotes=FOUR))
        yield 7, of_version(version, job(b=6_000, quotes=[(5, NAN)]))
        yield 9, of_version(version, job(b=500, quotes=[(5, 1.2)]))
        yield 10, of_version(version, job(b=500, quotes=FOUR, flows=[0, 0, 0, 3 * ONE]))
    # 8 by the version's own rows and spacing: J is 11 in version 1 and 12 in version 2; then as many rows with nodes further apart in version 1.
    for b, s, numbers in ((168, 50_000, (9, 8)), (100, 48_200, (8, 9))):
        yield from ((number, of_version(version, job(f=1, b=b, s=s, quotes=factors(13, 0.95)))) for version, number in zip((1, 2), numbers))


def malformed_versions():
    plain, whole = job(b=1_000, quotes=FOUR), job(b=1_000, quotes=FOUR, option=(1, 2, ONE))
    for version in (0, 3, 4, 255):
        yield of_version(version, plain)
        yield of_version(version, job(f=3, b=9_999, quotes=[(5, NAN)]))
    for content in (b'', b'\x00\x02', b'\x02\x00'):
        yield plain[:20] + field(11, content) + plain[20:]
    for first in (1, 2):
        yield from (of_version(first, of_version(second, plain)) for second in (1, 2))
    for place in (0, 4, 8, 13, 31, len(plain) - 7, len(plain), len(whole)):
        yield whole[:place] + field(11, b'\x02') + whole[place:]
    yield of_version(2, plain)[:23]
    yield of_version(2, job(n=0, quotes=[], flows=[]))[:-1]


def jobs():
    yield from good()
    yield from exercise_days()
    yield from ((1, made) for made in malformed())
    yield from each_cause()
    yield from pairs()
    yield from borders()
    yield from halves()
    yield from dated_options()
    yield from one_right_twice()
    yield from ((1, made) for made in malformed_dates())
    yield from wrong_dates()
    yield from order_of_dates()
    yield from greatest_discounts()
    yield from cliffs()
    yield from versions()
    yield from ((1, made) for made in malformed_versions())


def number_of(sheet):
    return int(sheet.split()[1]) if sheet.startswith(b'refused ') else 0


def main():
    stdin, stdout, count, wide, numbers = b'', b'', 0, 0, set()
    for number, made in jobs():
        sheet = reference.sheet(made)
        if number_of(sheet) != number:
            raise SystemExit('a job meant to give %d gives %d: %s' % (number, number_of(sheet), made.hex()))
        wide += sheet.count(b'\nnode') >= 3_599
        numbers.add(number)
        count += 1
        stdin += struct.pack('>H', len(made)) + made
        stdout += sheet
    if wide > MOST_WIDE_JOBS or numbers != {0, 1, 2, 3, 4, 5, 7, 8, 9, 10, 11, 12, 13}:
        raise SystemExit('too wide or a number missing')
    for name, content in (('stdin', stdin), ('stdout', stdout)):
        with open(os.path.join(HERE, name), 'wb') as file:
            file.write(content)
    print(count, 'jobs,', len(stdin), 'bytes of jobs,', len(stdout), 'bytes of sheets')


if __name__ == '__main__':
    main()
