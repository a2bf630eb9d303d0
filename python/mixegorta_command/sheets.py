"""Sheets as the sheet program prints them, and what the numbers of refusals mean."""
import re
from collections import namedtuple

from .words import REFUSALS

AMOUNT = r'\d\.\d{9}'
LINES = {
    'node': re.compile(rf'node (\d{{1,2}}) (-?\d{{1,2}}) ({AMOUNT}) (-?\d{{1,11}}\.\d{{7}})', re.ASCII),
    'row': re.compile(rf'row (\d{{1,2}}) ({AMOUNT}) ({AMOUNT}) (\d+)', re.ASCII),
    'bond': re.compile(rf'bond ({AMOUNT}) (\d+)', re.ASCII),
    'option': re.compile(rf'option ({AMOUNT}) (\d+)', re.ASCII),
    'refused': re.compile(r'refused (\d{1,2})', re.ASCII),
}
ORDER = ('node', 'row', 'bond', 'option')

Node = namedtuple('Node', 'row number discount rate')
Sheet = namedtuple('Sheet', 'rows quotes bond option')


class NoSheet(Exception):
    """Why bytes are no whole sheet."""


def lines_of(content):
    """The lines of a sheet's bytes. Without its newline a line may have lost its last digits."""
    if not content.isascii():
        raise NoSheet('not in ASCII')
    if content and not content.endswith(b'\n'):
        raise NoSheet('the last line has no end')
    return content.decode('ascii').splitlines()


def matched(content):
    """Pairs of a line's first word and its values, in the sheet's order."""
    found = []
    for number, line in enumerate(lines_of(content), 1):
        word = line.partition(' ')[0]
        values = word in LINES and LINES[word].fullmatch(line)
        if not values:
            raise NoSheet(f'line {number} is no line of a sheet: {line[:60]!r}')
        found.append((word, values.groups()))
    kinds = [word for word, _ in found]
    if not kinds:
        raise NoSheet('there are no lines')
    if 'refused' in kinds and len(kinds) > 1:
        raise NoSheet('a refusal stands alone')
    if 'refused' not in kinds and kinds != sorted(kinds, key=ORDER.index):
        raise NoSheet('the lines are not in the order of a sheet')
    return found


def tree_rows(nodes):
    """The nodes by row, each row from -w to w, and w growing by one or staying from some row on."""
    rows = []
    for node in nodes:
        if node.row == len(rows):
            rows.append([])
        if node.row != len(rows) - 1:
            raise NoSheet(f'node {node.row} {node.number} is out of order')
        rows[-1].append(node)
    widths = [len(row) // 2 for row in rows]
    cap = max(widths, default=0)
    for i, row in enumerate(rows):
        if [node.number for node in row] != list(range(-widths[i], widths[i] + 1)) or widths[i] != min(i, cap):
            raise NoSheet(f'the nodes of row {i} are not those of a tree')
    return rows


def read(content):
    """The sheet of these bytes, or the number of a refusal."""
    found = matched(content)
    if found[0][0] == 'refused':
        return int(found[0][1][0])
    by_word = {word: [values for kind, values in found if kind == word] for word in ORDER}
    rows = tree_rows([Node(int(i), int(j), v, r) for i, j, v, r in by_word['node']])
    quotes = by_word['row']
    if [int(values[0]) for values in quotes] != list(range(1, len(rows) + 1)):
        raise NoSheet('the row lines are not those of the rows of nodes')
    if not rows or len(by_word['bond']) != 1 or len(by_word['option']) > 1:
        raise NoSheet('a sheet has nodes, one bond and at most one option')
    return Sheet(rows, quotes, by_word['bond'][0], by_word['option'][0] if by_word['option'] else None)


def branch_ends(row, later):
    """Pairs of a node and where it leads."""
    half_width = len(later) // 2
    for node in row:
        middle = max(1 - half_width, min(half_width - 1, node.number))
        for end in (middle - 1, middle, middle + 1):
            yield node, later[end + half_width]


def refusal_words(number):
    """The cause of a refusal and what to do about it."""
    return REFUSALS.get(number, ('an unknown cause', 'look it up in docs/MANUAL.md'))
