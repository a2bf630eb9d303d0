"""Line charts as SVG: panels side by side, each with axes, lines, marks and a legend."""
import math
from collections import namedtuple

INK, SOFT, GRID = '#1f2430', '#5b6270', '#e6e8ec'
# Okabe-Ito colours, which stay apart for every common kind of colour blindness; dashes and marks differ too.
COLOURS = ('#0072B2', '#D55E00', '#009E73', '#CC79A7', '#56B4E9', '#E69F00')
FONT = 'font-family="Helvetica, Arial, sans-serif"'
MINUS = '\u2212'

# values of an axis: what is drawn, which ticks with which words, and whether by logarithm
Axis = namedtuple('Axis', 'name low high ticks logarithmic')
# points as pairs; mark is circle, ring, square, triangle or ''; dash as SVG has it, '' for a whole line and None for marks alone
Line = namedtuple('Line', 'name points colour mark dash')
Panel = namedtuple('Panel', 'title x y lines')
Box = namedtuple('Box', 'left right top bottom')

TOP, LEGEND_LINE, BOTTOM, PLOT = 92, 20, 62, 320


def number(value):
    return f'{value:,g}'.replace('-', MINUS)


def axis(name, low, high, ticks, logarithmic=False):
    return Axis(name, low, high, tuple((tick, number(tick)) for tick in ticks), logarithmic)


def share(axis_, value):
    """Where on the axis, 0 to 1."""
    low, high = axis_.low, axis_.high
    if axis_.logarithmic:
        low, high, value = math.log(low), math.log(high), math.log(value)
    return (value - low) / (high - low)


def words(x, y, text, size=12, colour=INK, anchor='start', more=''):
    return f'<text x="{x:.1f}" y="{y:.1f}" font-size="{size}" fill="{colour}" text-anchor="{anchor}" {FONT}{more}>{text}</text>'


def stroke(x1, y1, x2, y2, colour, width=1.0, dash=''):
    dashed = f' stroke-dasharray="{dash}"' if dash else ''
    return f'<line x1="{x1:.1f}" y1="{y1:.1f}" x2="{x2:.1f}" y2="{y2:.1f}" stroke="{colour}" stroke-width="{width}"{dashed}/>'


def mark(x, y, kind, colour):
    if kind == 'circle':
        return f'<circle cx="{x:.1f}" cy="{y:.1f}" r="3.4" fill="{colour}"/>'
    if kind == 'square':
        return f'<rect x="{x - 3:.1f}" y="{y - 3:.1f}" width="6" height="6" fill="{colour}"/>'
    if kind == 'ring':
        return f'<circle cx="{x:.1f}" cy="{y:.1f}" r="3.6" fill="white" stroke="{colour}" stroke-width="1.4"/>'
    if kind == 'triangle':
        return f'<path d="M{x:.1f} {y - 4.2:.1f}L{x + 4:.1f} {y + 3:.1f}L{x - 4:.1f} {y + 3:.1f}Z" fill="{colour}"/>'
    return ''


def place(panel, box, point):
    x = box.left + share(panel.x, point[0]) * (box.right - box.left)
    return x, box.bottom - share(panel.y, point[1]) * (box.bottom - box.top)


def axes(panel, box, names_y):
    for value, text in panel.y.ticks:
        y = place(panel, box, (panel.x.low, value))[1]
        yield stroke(box.left, y, box.right, y, SOFT if value == 0 else GRID)
        yield words(box.left - 8, y + 4, text, 11, SOFT, 'end')
    for value, text in panel.x.ticks:
        x = place(panel, box, (value, panel.y.low))[0]
        yield stroke(x, box.bottom, x, box.bottom + 5, SOFT)
        yield words(x, box.bottom + 18, text, 11, SOFT, 'middle')
    yield stroke(box.left, box.top, box.left, box.bottom, SOFT)
    yield stroke(box.left, box.bottom, box.right, box.bottom, SOFT)
    yield words((box.left + box.right) / 2, box.bottom + 40, panel.x.name, 12, INK, 'middle')
    yield words(box.left, box.top - 12, panel.title, 13, INK, more=' font-weight="bold"')
    if names_y:
        x, y = box.left - 48, (box.top + box.bottom) / 2
        yield words(x, y, panel.y.name, 12, INK, 'middle', f' transform="rotate(-90 {x:.1f} {y:.1f})"')


def drawn(panel, box):
    for line in panel.lines:
        places = [place(panel, box, point) for point in line.points]
        if line.dash is not None:
            path = 'M' + 'L'.join(f'{x:.1f} {y:.1f}' for x, y in places)
            dashed = f' stroke-dasharray="{line.dash}"' if line.dash else ''
            yield f'<path d="{path}" fill="none" stroke="{line.colour}" stroke-width="1.8"{dashed}/>'
        for x, y in places:
            yield mark(x, y, line.mark, line.colour)


def legend(panels, left, width):
    """The parts, each name once, in lines that stay within the width; and where the last line stands."""
    x, y, parts, seen = left, TOP, [], set()
    for line in (line for panel in panels for line in panel.lines):
        if not line.name or line.name in seen:
            continue
        seen.add(line.name)
        room = 44 + 6.3 * len(line.name)
        if x + room > left + width:
            x, y = left, y + LEGEND_LINE
        if line.dash is not None:
            parts.append(stroke(x, y - 4, x + 24, y - 4, line.colour, 1.8, line.dash))
        parts += [mark(x + 12, y - 4, line.mark, line.colour), words(x + 30, y, line.name, 12, SOFT)]
        x += room
    return parts, y


def chart(title, subtitle, panels, width=1040):
    """The picture; panels share its width."""
    left, gap, right = 74, 80 if len({panel.y for panel in panels}) > 1 else 34, 24
    each = (width - left - right - gap * (len(panels) - 1)) / len(panels)
    keys, last = legend(panels, left, width - left - right)
    top = last + 44
    height = top + PLOT + BOTTOM
    parts = [f'<svg xmlns="http://www.w3.org/2000/svg" width="{width}" height="{height}" viewBox="0 0 {width} {height}">',
             f'<rect width="{width}" height="{height}" fill="white"/>',
             words(left, 34, title, 20, more=' font-weight="bold"'), words(left, 58, subtitle, 13, SOFT), *keys]
    for k, panel in enumerate(panels):
        start = left + k * (each + gap)
        box = Box(start, start + each, top, top + PLOT)
        parts += axes(panel, box, k == 0 or panel.y != panels[0].y)
        parts += drawn(panel, box)
    return '\n'.join(part for part in parts if part) + '\n</svg>\n'
