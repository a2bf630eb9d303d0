"""The picture of scenarios: how far each is from the base, as bars, the worst on top. Places are floats."""
from xml.sax.saxutils import escape

LABEL, BARS, NUMBER, LINE, MOST_BARS = 190, 400, 300, 22, 60
LOSS, GAIN, LACKING = '#b5462f', '#2f6fb5', '#6b6b6b'
LONGEST_LABEL = 26


def label_of(name):
    return escape(name if len(name) <= LONGEST_LABEL else name[:LONGEST_LABEL - 1] + '…')


def bar_parts(place, row, zero, scale, total):
    """The name, the bar and the numbers of a scenario; one that lacks jobs of the base has the bar of what is compared,
    in grey, and says so."""
    top, value = LINE * place + 6, float(row.from_base or 0)
    wide, colour = abs(value) * scale, LACKING if row.not_priced else LOSS if value < 0 else GAIN
    numbers = f'{total}, {"" if value < 0 else "+"}{row.from_base}' if row.from_base is not None else total
    lacking = f'; {row.not_priced:,} not priced' if row.not_priced else ''
    left = zero - wide if value < 0 else zero
    return [f'<text x="{LABEL - 8}" y="{top + 13}" text-anchor="end">{label_of(row.scenario)}</text>',
            f'<rect x="{left:.2f}" y="{top + 2}" width="{wide:.2f}" height="{LINE - 6}" fill="{colour}"/>',
            f'<text x="{LABEL + BARS + 8}" y="{top + 13}">{numbers}{lacking}</text>']


def picture_of(rows, bonds):
    """The picture of the base, which is the first row, and the scenarios behind it."""
    what = 'bonds' if bonds else 'held'
    base, drawn = rows[0], rows[1:MOST_BARS + 1]
    total, values = getattr(base, what), [float(row.from_base or 0) for row in drawn]
    low, high = min([0.0, *values]), max([0.0, *values])
    scale = BARS / (high - low) if high > low else 0.0
    zero, left_out, lacking = LABEL - low * scale, len(rows) - 1 - len(drawn), any(row.not_priced for row in drawn)
    width, height = LABEL + BARS + NUMBER, LINE * (len(drawn) + 2 + bool(left_out) + lacking) + 8
    words = 'sum of bonds' if bonds else 'bonds less calls and with puts'
    parts = [
        f'<svg xmlns="http://www.w3.org/2000/svg" width="{width}" height="{height}" viewBox="0 0 {width} {height}" '
        'font-family="sans-serif" font-size="13" role="img">',
        f'<title>Totals of a book under {len(rows) - 1} scenarios, from a base of {total}</title>',
        '<rect width="100%" height="100%" fill="white"/>',
        f'<text x="8" y="{LINE - 6}">From the base of {total}, the greatest loss first</text>',
        f'<text x="{LABEL + BARS + 8}" y="{LINE - 6}">{words}, from the base</text>']
    for place, row in enumerate(drawn, 1):
        parts += bar_parts(place, row, zero, scale, getattr(row, what))
    parts.append(
        f'<line x1="{zero:.2f}" x2="{zero:.2f}" y1="{LINE + 6}" y2="{LINE * (len(drawn) + 1) + 6}" stroke="black"/>')
    below = LINE * (len(drawn) + 2)
    if lacking:
        parts.append(f'<text x="8" y="{below}">Grey: jobs that the base prices are refused, and the difference is over '
                     'the others</text>')
    if left_out:
        parts.append(
            f'<text x="8" y="{below + LINE * lacking}">and {left_out:,} scenarios that lose less or gain more</text>')
    return '\n'.join([*parts, '</svg>', ''])
