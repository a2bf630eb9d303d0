"""Pictures of a sheet's tree, alone or with what the reference worked out from its job."""
import math
from collections import namedtuple
from decimal import Decimal

from .sheets import branch_ends, refusal_words

# Two of the Okabe-Ito colours, which stay apart for every common kind of colour blindness; shapes differ too.
POSITIVE, NEGATIVE = '#0072B2', '#D55E00'
INK, SOFT, GRID, BRANCH = '#1f2430', '#5b6270', '#e6e8ec', '#9aa1ad'
GROUND, TINT = '#ffffff', '#fdf0e6'
# What stands for each where a screen is dark; paper is never.
DARK = {INK: '#e8eaee', SOFT: '#a9b0bc', GRID: '#2b313b', BRANCH: '#78808f', POSITIVE: '#56b4e9', NEGATIVE: '#ff9447', GROUND: '#14171c', TINT: '#30231a'}
FONT = 'font-family="Helvetica, Arial, sans-serif"'
DIGITS = 'font-family="DejaVu Sans Mono, Menlo, Consolas, monospace"'

WIDTH, RIGHT, TOP, JOB_LINE, PLOT_HEIGHT = 1040, 28, 104, 22, 440
LIST_COLUMNS, LIST_LINE = 4, 15
MOST_LABELLED_ROWS, MOST_TICKS = 4, 12
EDGE, EDGE_OF_LABELS, LABEL_HEIGHT = 24, 64, 17
LARGEST_MARK, SMALLEST_MARK, SMALLEST_PART = 14, 0.9, 0.15
# A row's state price that may lie beyond each end of the scale, the height in which what is beyond is pressed together, and how much of the whole range a cut must save.
BEYOND, CUT_HEIGHT, LEAST_SAVED = 0.005, 34, 0.15
STEP_NAMES = {1: 'yearly', 2: 'half-yearly', 4: 'quarterly', 12: 'monthly'}

Frame = namedtuple('Frame', 'left right top bottom lowest low high highest last_row')


def signed(text):
    """A number's text with the sign for minus."""
    return text.replace('-', '\u2212')


class Drawing:
    """A sheet's tree and the places of its nodes. With the job's tree rates are a year's, else a step's."""

    def __init__(self, sheet, job):
        self.sheet, self.job = sheet, job
        self.nodes = [node for row in sheet.rows for node in row]
        self.frame = self.frame_of_rates([float(self.rate(node)) for node in self.nodes] + [0.0])
        self.base_size = self.size_by_neighbours()

    def frame_of_rates(self, rates):
        """The scale goes from low to high; an end that is cut goes on to the lowest or highest rate."""
        low, high = self.scale(min(rates), max(rates))
        lowest, highest = (extreme if cut else end for extreme, end, cut in ((min(rates), low, min(rates) < low), (max(rates), high, max(rates) > high)))
        longest = max(len(text) for _, text in (*rate_ticks(low, high), *end_ticks(lowest, low, high, highest)))
        top = TOP + (JOB_LINE if self.job else 0)
        return Frame(60 + 6.5 * longest, WIDTH - RIGHT, top, top + PLOT_HEIGHT, lowest, low, high, highest, len(self.sheet.rows) - 1)

    def scale(self, lowest, highest):
        """Both ends of the scale with some room: of all rates, or where it saves enough of those that have nearly all of each row's state price."""
        low, high = self.held() if self.job else (lowest, highest)
        least = LEAST_SAVED * (highest - lowest)
        low, high = (low if low - lowest > least else lowest), (high if highest - high > least else highest)
        room = (high - low or 1.0) * 0.06
        return low - room, high + room

    def held(self):
        """The rates, zero among them, between which each row has all its state price but for a small part on either side."""
        low = high = 0.0
        for row in self.sheet.rows:
            prices = [float(self.state_price(node)) for node in row]
            part = sum(prices) * BEYOND
            low = min(low, float(self.rate(row[first_past(prices, part)])))
            high = max(high, float(self.rate(row[len(row) - 1 - first_past(prices[::-1], part)])))
        return low, high

    def beyond(self):
        """How many nodes stand above and below the scale."""
        sides = [self.cut(node) for node in self.nodes]
        return sides.count(1), sides.count(-1)

    def cut(self, node):
        """1 above the scale, -1 below it, 0 on it."""
        rate = float(self.rate(node))
        return (rate > self.frame.high) - (rate < self.frame.low)

    def exercised(self, row):
        return bool(self.job) and row in self.job.dates

    def rate(self, node):
        """In percent, exactly: the step rate, or with a job the simple yearly rate of the same step."""
        return Decimal(node.rate) * (self.job.frequency if self.job else 1)

    def rate_text(self, node):
        return f'{self.rate(node):f}'

    def years(self, row):
        return f'{row / self.job.frequency:.3f}'.rstrip('0').rstrip('.')

    def state_price(self, node):
        row = self.job.state_prices[node.row]
        return row[node.number + len(row) // 2]

    def x(self, row):
        """Rows keep a distance from both edges; a lone row stands in the middle."""
        frame = self.frame
        inner = EDGE_OF_LABELS if frame.last_row < MOST_LABELLED_ROWS else EDGE
        if frame.last_row == 0:
            return (frame.left + frame.right) / 2
        return frame.left + inner + row * (frame.right - frame.left - 2 * inner) / frame.last_row

    def y(self, rate):
        """Even within the scale; beyond a cut end, where it is marked, pressed together."""
        frame = self.frame
        top = frame.top + CUT_HEIGHT * (frame.highest > frame.high)
        bottom = frame.bottom - CUT_HEIGHT * (frame.lowest < frame.low)
        if rate > frame.high:
            return top - 6 - (CUT_HEIGHT - 12) * (rate - frame.high) / (frame.highest - frame.high)
        if rate < frame.low:
            return bottom + 6 + (CUT_HEIGHT - 12) * (frame.low - rate) / (frame.low - frame.lowest)
        return bottom - (rate - frame.low) * (bottom - top) / (frame.high - frame.low)

    def place(self, node):
        return self.x(node.row), self.y(float(self.rate(node)))

    def size_by_neighbours(self):
        """Half a mark's width: as large as the neighbours leave room for. With a job it is that of a state price of one."""
        across = (self.frame.right - self.frame.left) / (self.frame.last_row + 1)
        widest = [self.place(node)[1] for node in self.sheet.rows[-1] if self.frame.low <= float(self.rate(node)) <= self.frame.high] or [0]
        upwards = (max(widest) - min(widest)) / max(1, len(widest) - 1) or across
        if self.job:
            return min(LARGEST_MARK, 0.5 * across, 1.5 * upwards)
        return max(1.3, min(6.5, 0.27 * min(across, upwards)))

    def mark_size(self, node):
        """With a job the mark's area is the state price, but for the smallest, which stay visible."""
        if not self.job:
            return self.base_size
        return max(SMALLEST_MARK, self.base_size * max(SMALLEST_PART, math.sqrt(float(self.state_price(node)))))

    def words_of(self, node):
        words = f'row {node.row}, node {node.number}: discount {node.discount}, rate {node.rate}%'
        if self.job:
            words += f'; {self.years(node.row)} years, {self.rate_text(node)}% a year, state price {self.state_price(node)}'
        return words


def first_past(numbers, part):
    """The place at which the sum of the numbers so far is above a part of them all, or the last one."""
    total = 0.0
    for place, number in enumerate(numbers):
        total += number
        if total > part:
            return place
    return len(numbers) - 1


# Ticks

def nice_step(span, most):
    """The least of 1, 2 and 5 times a power of ten that divides the span into at most so many parts."""
    power = 10.0 ** math.floor(math.log10(span / most))
    return next(k * power for k in (1, 2, 5, 10) if span <= k * power * most * (1 + 1e-9))


def rate_ticks(lowest, highest):
    step = nice_step(highest - lowest, 8)
    decimals = max(0, -math.floor(math.log10(step) + 1e-9))
    first, last = math.ceil(lowest / step - 1e-9), math.floor(highest / step + 1e-9)
    return [(k * step, signed(f'{k * step:,.{decimals}f}')) for k in range(first, last + 1)]


def end_ticks(lowest, low, high, highest):
    """The ends of a scale that is cut there, with their texts."""
    return [(rate, signed(f'{rate:,.1f}')) for rate, cut in ((lowest, lowest < low), (highest, highest > high)) if cut]


def row_ticks(drawing):
    """Pairs of a row and its text: rows, or with a job years."""
    last = drawing.frame.last_row
    if not drawing.job:
        step = max(1, round(nice_step(last, 15))) if last else 1
        return [(row, row) for row in range(0, last + 1, step)]
    year = drawing.job.frequency
    steps = [1, *(year // part for part in (4, 2) if year % part == 0 and year > part), *(year * k for k in (1, 2, 5, 10))]
    step = next(step for step in steps if last <= step * MOST_TICKS)
    return [(row, drawing.years(row)) for row in range(0, last + 1, step)]


# Parts of the picture

def words(x, y, text, size=12, colour=INK, anchor='start', more=FONT):
    return f'<text x="{x:.1f}" y="{y:.1f}" font-size="{size}" fill="{colour}" text-anchor="{anchor}" {more}>{text}</text>'


def line(x1, y1, x2, y2, colour, width=1, more=''):
    return f'<line x1="{x1:.1f}" y1="{y1:.1f}" x2="{x2:.1f}" y2="{y2:.1f}" stroke="{colour}" stroke-width="{width}"{more}/>'


def mark(x, y, size, negative, what='', kind='node'):
    """A circle from zero upwards, below it a square, with an outline, so that it is told apart without colours too."""
    title = f'<title>{what}</title>' if what else ''
    outline = f' stroke="{INK}" stroke-width="0.8"' if size >= 2 else ''
    if negative:
        side = 1.8 * size
        return (f'<rect class="{kind}" x="{x - side / 2:.1f}" y="{y - side / 2:.1f}" width="{side:.1f}" height="{side:.1f}" '
                f'fill="{NEGATIVE}"{outline}>{title}</rect>')
    return f'<circle class="{kind}" cx="{x:.1f}" cy="{y:.1f}" r="{size:.1f}" fill="{POSITIVE}">{title}</circle>'


def price_text(name, price):
    return f'{name} {price[0]} (at most {price[1]} billionths from exact on this tree)'


def counted(count, name):
    return f'{count:,} {name}{"s" * (count != 1)}'


def title(drawing):
    steps = counted(len(drawing.sheet.rows), f'{STEP_NAMES[drawing.job.frequency]} step' if drawing.job else 'step')
    return f'Fitted rate tree: {steps}, {counted(len(drawing.nodes), "node")}'


def prices(sheet):
    return [price_text('Bond', sheet.bond)] + ([price_text('Option', sheet.option)] if sheet.option else [])


def job_terms(job):
    """The inputs of the tree, and the option."""
    working = f', working as {job.working_reversion / 10_000:g} by version {job.version}' if job.version != 1 else ''
    terms = f'Reversion {job.reversion / 10_000:g} a step{working} \u00b7 volatility {job.volatility / 10_000:g}% a year'
    return terms + (f' \u00b7 {job.option}' if job.option else '')


def head(drawing):
    left = drawing.frame.left
    yield words(left, 34, title(drawing), 20, more=FONT + ' font-weight="bold"')
    yield words(left, 58, ' \u00b7 '.join(prices(drawing.sheet)), 13, SOFT)
    if drawing.job:
        yield words(left, 58 + JOB_LINE, cut(job_terms(drawing.job), 140), 13, SOFT)


def cut(text, most):
    return text if len(text) <= most else text[:most - 2].rstrip() + ' \u2026'


def legend(drawing):
    yield '<g class="legend">'
    x, y = drawing.frame.left, drawing.frame.top - 22
    below = sum(node.rate.startswith('-') for node in drawing.nodes)
    for negative, text in ((False, f'rate zero or above ({len(drawing.nodes) - below:,})'), (True, f'rate below zero ({below:,})')):
        yield mark(x + 5, y - 4, 5, negative, kind='legend')
        yield words(x + 16, y, text, 12, SOFT)
        x += 34 + 6.6 * len(text)
    yield line(x, y - 4, x + 22, y - 4, INK, 1.2)
    yield words(x + 28, y, 'rate zero', 12, SOFT)
    yield line(x + 100, y - 4, x + 122, y - 4, BRANCH)
    yield words(x + 128, y, 'branch', 12, SOFT)
    if drawing.job:
        yield words(x + 190, y, 'area of a mark: state price; the smallest are dots', 12, SOFT)
    yield '</g>'


def tinted(drawing):
    """The ground below zero."""
    frame, zero = drawing.frame, drawing.y(0.0)
    return (f'<rect class="ground" x="{frame.left:.1f}" y="{zero:.1f}" width="{frame.right - frame.left:.1f}" height="{frame.bottom - zero:.1f}" '
            f'fill="{TINT}"/>')


def axes(drawing):
    frame, job = drawing.frame, drawing.job
    for rate, text in rate_ticks(frame.low, frame.high):
        y = drawing.y(rate)
        yield line(frame.left, y, frame.right, y, GRID)
        yield line(frame.left - 5, y, frame.left, y, SOFT)
        yield words(frame.left - 9, y + 4, text, 11, SOFT, 'end')
    for place, (row, text) in enumerate(row_ticks(drawing)):
        x = drawing.x(row)
        yield line(x, frame.bottom, x, frame.bottom + 5, SOFT)
        yield words(x, frame.bottom + 19, text, 11, SOFT, 'middle', FONT + ' class="odd"' * (place % 2))
    yield from cuts(drawing)
    yield line(frame.left, frame.top, frame.left, frame.bottom, SOFT)
    yield line(frame.left, frame.bottom, frame.right, frame.bottom, SOFT)
    yield words((frame.left + frame.right) / 2, frame.bottom + 40, 'years from today' if job else 'row', 13, INK, 'middle')
    x, y = 26, (frame.top + frame.bottom) / 2
    yield words(x, y, rate_name(job), 13, INK, 'middle', f'{FONT} transform="rotate(-90 {x} {y:.1f})"')


def cuts(drawing):
    """A torn line where the scale ends and rates go on, with the last of them, and how many nodes stand beyond."""
    frame, (above, below) = drawing.frame, drawing.beyond()
    for rate, text in end_ticks(frame.lowest, frame.low, frame.high, frame.highest):
        upper = rate > frame.high
        y, end, count = (frame.top + CUT_HEIGHT, drawing.y(rate), above) if upper else (frame.bottom - CUT_HEIGHT, drawing.y(rate), below)
        teeth, tip = round((frame.right - frame.left) / 16), -3 if upper else 3
        half = (frame.right - frame.left) / teeth / 2
        path = f'l{half:.3f} {tip}l{half:.3f} {-tip}' * teeth
        yield f'<path class="cut" d="M{frame.left:.1f} {y:.1f}{path}" fill="none" stroke="{SOFT}" stroke-width="1"/>'
        yield words(frame.left - 9, end + 4, text, 11, SOFT, 'end')
        yield words(frame.left + 6, end + 4, f'cut: {counted(count, "node")} {"above" if upper else "below"}, not to scale', 11, SOFT,
                    more=f'{FONT} stroke="{GROUND}" stroke-width="3" paint-order="stroke"')


def rate_name(job):
    if not job:
        return 'step rate, percent'
    return 'yearly rate, percent' + (f' ({job.frequency} \u00d7 step rate)' if job.frequency > 1 else '')


def branches(drawing):
    path = []
    for row, later in zip(drawing.sheet.rows, drawing.sheet.rows[1:]):
        for start, end in branch_ends(row, later):
            if drawing.cut(start) and drawing.cut(start) == drawing.cut(end):
                continue
            path.append('M%.1f %.1fL%.1f %.1f' % (drawing.place(start) + drawing.place(end)))
    width = max(0.25, min(1.0, drawing.base_size / 6))
    yield f'<path id="branches" d="{"".join(path)}" fill="none" stroke="{BRANCH}" stroke-width="{width:.2f}" stroke-opacity="0.6"/>'


def labels_fit(drawing):
    """Whether rates can stand above their marks: few rows, and room below the next mark."""
    def clear(lower, upper):
        return drawing.place(lower)[1] - drawing.mark_size(lower) - LABEL_HEIGHT >= drawing.place(upper)[1] + drawing.mark_size(upper)

    rows = drawing.sheet.rows
    return len(rows) <= MOST_LABELLED_ROWS and all(clear(*pair) for row in rows for pair in zip(row, row[1:]))


def today(drawing):
    """The rate of row 0 beside its mark, with its sign."""
    node = drawing.sheet.rows[0][0]
    (x, y), size = drawing.place(node), drawing.mark_size(node)
    down = y + size + 15
    return words(x - 16, down if down < drawing.frame.bottom - 4 else y - size - 8, f'today {signed(drawing.rate_text(node))}%', 12, INK,
                 more=f'{FONT} stroke="{GROUND}" stroke-width="3" paint-order="stroke"')


def marks(drawing, titled=True):
    labelled = labels_fit(drawing)
    for node in drawing.nodes:
        (x, y), size = drawing.place(node), drawing.mark_size(node)
        yield mark(x, y, size, node.rate.startswith('-'), drawing.words_of(node) if titled else '')
        if labelled:
            yield words(x, y - size - 5, f'{signed(drawing.rate_text(node))}%', 11, INK, 'middle')
    if not labelled:
        yield today(drawing)


def tree_parts(drawing, titled=True):
    """Axes, branches and nodes, and over them the line at zero, so that no node hides it; it is thin, so that it hides none."""
    zero, left, right = drawing.y(0.0), drawing.frame.left, drawing.frame.right
    return [tinted(drawing), *axes(drawing), *branches(drawing), *marks(drawing, titled), line(left - 6, zero, left, zero, INK, 3),
            line(left, zero, right, zero, INK, 1, ' id="zero"')]


def price_list(drawing, top):
    """Row lines of the sheet in columns, read downwards."""
    quotes, left, job = drawing.sheet.quotes, drawing.frame.left, drawing.job
    each = math.ceil(len(quotes) / LIST_COLUMNS)
    across = (WIDTH - RIGHT - left) / LIST_COLUMNS
    edges = (18, 97, 178, 216)
    length = f'; {counted(job.frequency, "row")} a year' if job else ''
    yield words(left, top, f'Discount curve: quote, sum of the row\u2019s state prices, and to how many billionths that is exact on this tree{length}', 13)
    for k in range(math.ceil(len(quotes) / each)):
        for edge, name in zip(edges, ('row', 'quote', 'sum', 'bound')):
            yield words(left + k * across + edge, top + 22, name, 10.5, SOFT, 'end')
    for k, values in enumerate(quotes):
        x, y = left + k // each * across, top + 38 + k % each * LIST_LINE
        for edge, value in zip(edges, values):
            yield words(x + edge, y, value, 10.5, INK, 'end', DIGITS)


def sources(drawing, y):
    """Where the numbers come from, with a job beside the sheet."""
    if drawing.job:
        yield words(drawing.frame.left, y, 'Rates, discounts, prices and this table are the sheet\u2019s; state prices are not in a sheet and were worked out from '
                    'its job by reference/reference.py', 11, SOFT)


# Pictures

def style():
    """The colours of a dark screen in the place of those of paper."""
    rules = ''.join(f'svg [{what}="{paper}"]{{{what}:{dark}}}' for paper, dark in DARK.items() for what in ('fill', 'stroke'))
    return f'<style>@media screen and (prefers-color-scheme:dark){{{rules}}}</style>'


def picture(width, height, label, parts):
    start = (f'<svg xmlns="http://www.w3.org/2000/svg" width="{width}" height="{height}" viewBox="0 0 {width} {height}" '
             f'role="img" aria-label="{label}">')
    return '\n'.join([start, style(), f'<rect width="{width}" height="{height}" fill="{GROUND}"/>', *parts, '</svg>']) + '\n'


def tree_picture(drawing):
    list_top = drawing.frame.bottom + 78
    list_end = list_top + 38 + math.ceil(len(drawing.sheet.quotes) / LIST_COLUMNS) * LIST_LINE
    parts = [*head(drawing), *legend(drawing), *tree_parts(drawing), *price_list(drawing, list_top), *sources(drawing, list_end + 12)]
    return picture(WIDTH, list_end + (28 if drawing.job else 8), f'Fitted rate tree of {len(drawing.sheet.rows)} steps', parts)


def refusal_picture(number):
    cause, _ = refusal_words(number)
    return picture(560, 110, f'Refused {number}: {cause}', [
        '<rect x="0.5" y="0.5" width="559" height="109" fill="none" stroke="#c9cdd4"/>',
        f'<rect width="8" height="110" fill="{NEGATIVE}"/>',
        words(32, 48, f'Refused {number}', 22, more=FONT + ' font-weight="bold"'), words(32, 78, cause, 14, SOFT)])
