"""The table of curves: a line for each scenario and frequency, read into the bytes that a job has for its quotes."""
import csv
import io
import math
import re
import struct

from . import kinds
from .streams import Stop, content_of, named, tell
from .texts import MOST_ERRORS, QUOTE_KINDS, odd_quote

HEAD = ['scenario', 'frequency', 'kind']
FREQUENCIES = (1, 2, 4, 12)
BASE = 'base'
# A quote of a job: its tag, the length of its figure in two bytes, and the eight bytes of the figure.
QUOTE_BYTES = 11
FIGURE = struct.Struct('>d')
ZERO_FIRST = re.compile(r'[+-]?0\d')
ANY_ZERO_FIRST = re.compile(r'(?:^| )[+-]?0\d')


def figure(word, place):
    """A figure with a decimal point or a decimal comma."""
    try:
        value = float(word.replace(',', '.', 1) if '.' not in word else word)
    except ValueError:
        value = math.nan
    if ZERO_FIRST.match(word):
        raise Stop(f'{place}: {word!r} is no figure; with decimal commas the cells of a table stand between semicolons')
    if not math.isfinite(value):
        raise Stop(f'{place}: {word!r} is no figure')
    return value


def figures_of(words, place):
    """The figures of a line: all at once where each is plain, else one by one, which names the one that is none."""
    try:
        found = list(map(float, words))
    except ValueError:
        found = []
    if found and all(map(math.isfinite, found)) and not ANY_ZERO_FIRST.search(' '.join(words)):
        return found
    return [figure(word, place) for word in words]


def oddest(kind, figures):
    """What is odd about the figures of a line; None where nothing is."""
    largest = max(figures, key=abs, default=0.0)
    return next(filter(None, (odd_quote(kind, value) for value in figures)), None) if odd_quote(kind, largest) else None


def written(kind, figures):
    """The quotes of a job, one for each figure, as its bytes have them."""
    head = bytes([QUOTE_KINDS[kind], 0, FIGURE.size])
    return b''.join([head + FIGURE.pack(value) for value in figures])


class Table:
    """The lines of a table, and what of them looks like another unit."""

    def __init__(self, name):
        self.name, self.found, self.odd = named(name), {}, []

    def add(self, place, cells):
        """Takes a line: the name of a scenario, the steps a year, the kind and a figure for each row."""
        scenario, frequency, kind, *words = (cell.strip() for cell in cells)
        kind = kind.lower()
        if not scenario or scenario.lower() == BASE:
            raise Stop(f'{place}: a scenario needs a name, and {BASE!r} is the book as it is')
        if frequency not in map(str, FREQUENCIES):
            raise Stop(f'{place}: the steps a year are 1, 2, 4 or 12, not {frequency!r}')
        if kind not in QUOTE_KINDS:
            raise Stop(f'{place}: a kind is {", ".join(QUOTE_KINDS)}, not {kind!r}')
        while words and not words[-1]:
            words.pop()
        figures = figures_of(words, place)
        curves = self.found.setdefault(scenario, {})
        if int(frequency) in curves:
            raise Stop(f'{place}: scenario {scenario!r} has a line of frequency {frequency} already')
        curves[int(frequency)] = written(kind, figures)
        if oddest(kind, figures):
            self.odd.append((place, oddest(kind, figures)))

    def tell_odd(self):
        """Tells what looks like another unit; it is taken as it stands."""
        for place, words in self.odd[:MOST_ERRORS]:
            tell(f'{place}: warning: {words}')
        if len(self.odd) > MOST_ERRORS:
            tell(f'{self.name}: {len(self.odd) - MOST_ERRORS} more warnings')


def lines_of(name):
    """The cells of each line of a table, with the number of the line; cells stand between commas, or between
    semicolons."""
    content = kinds.expected(content_of(name), named(name), 'table of curves', kinds.CURVES, kinds.PLAIN)
    delimiter = ';' if b';' in content.partition(b'\n')[0] else ','
    # decoded line by line: a table of many curves is larger as a text than all that is kept of it
    text = io.TextIOWrapper(io.BytesIO(content), encoding='utf-8-sig', newline='')
    try:
        reader = csv.reader(text, strict=True, delimiter=delimiter)
        for cells in reader:
            yield reader.line_num, cells
    except (UnicodeDecodeError, csv.Error):
        raise Stop(f'{named(name)}: the table of curves is no CSV')


def curves_of(name):
    """The quotes of each scenario by the steps a year, in the order of the table."""
    lines, table = lines_of(name), Table(name)
    head = [cell.strip().lower() for cell in next(lines, (1, []))[1]]
    if head[:3] != HEAD or head[3:] != [str(row) for row in range(1, len(head) - 2)] or len(head) < 4:
        raise Stop(f'{named(name)}:1: the head of the table is {",".join(HEAD)},1,2,..')
    for number, cells in lines:
        place = f'{named(name)}:{number}'
        if not any(cell.strip() for cell in cells):
            continue
        if not 4 <= len(cells) <= len(head):
            raise Stop(f'{place}: {len(cells)} cells, and the head has {len(head)}')
        table.add(place, cells)
    if not table.found:
        raise Stop(f'{named(name)}: the table has no scenario')
    table.tell_odd()
    return table.found
