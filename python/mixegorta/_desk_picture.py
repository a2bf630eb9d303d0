"""Small pictures of a curve and of a tree for a notebook, as SVG. Beside the proved core; places in a picture are floats.

The rates of a tree are scaled to where its state price lies; nodes beyond stand as arrows on the edge. A rate below zero is a square of another
colour on a tinted ground, and the line at zero is drawn over all nodes."""
import math
from typing import List, Sequence, Tuple

WIDTH, HEIGHT, LEFT, RIGHT, TOP, BOTTOM = 720, 360, 58, 16, 30, 40
POSITIVE, NEGATIVE, TINT, INK, SOFT, GRID, BRANCH = "#0072B2", "#D55E00", "#fdf1e7", "#1f2430", "#5b6270", "#e6e8ec", "#9aa1ad"
# the part of a row's state price that may lie beyond each edge
BEYOND = 0.005
Pairs = Sequence[Tuple[float, float]]


class Frame:
    """Where times and rates stand."""

    def __init__(self, last: float, lowest: float, highest: float) -> None:
        room = (highest - lowest or 1.0) * 0.08
        self.last, self.lowest, self.highest = last or 1.0, lowest - room, highest + room

    def x(self, time: float) -> float:
        return LEFT + 10 + time / self.last * (WIDTH - LEFT - RIGHT - 20)

    def y(self, rate: float) -> float:
        return TOP + (self.highest - rate) / (self.highest - self.lowest) * (HEIGHT - TOP - BOTTOM)

    def holds(self, rate: float) -> bool:
        return self.lowest <= rate <= self.highest


def span(rows: Sequence[Sequence[float]], weights: Sequence[Sequence[float]]) -> Tuple[float, float]:
    """The rates, zero among them, between which nearly all of each row's weight lies. A row's rates rise or are all the same."""
    lowest = highest = 0.0
    for rates, shares in zip(rows, weights):
        most = sum(shares) * BEYOND
        for order, least in ((range(len(rates)), True), (range(len(rates) - 1, -1, -1), False)):
            gone = 0.0
            for place in order:
                gone += shares[place]
                if gone > most:
                    lowest, highest = (min(lowest, rates[place]), highest) if least else (lowest, max(highest, rates[place]))
                    break
    return lowest, highest


def ticks(low: float, high: float, most: int) -> List[Tuple[float, str]]:
    """Round numbers of the range, at most so many parts, with their texts."""
    power = 10.0 ** math.floor(math.log10((high - low) / most))
    step = next(k * power for k in (1, 2, 5, 10) if high - low <= k * power * most * (1 + 1e-9))
    digits = max(0, -math.floor(math.log10(step) + 1e-9))
    first, last = math.ceil(low / step - 1e-9), math.floor(high / step + 1e-9)
    return [(k * step, f"{k * step:.{digits}f}".replace("-", "\u2212")) for k in range(first, last + 1)]


def _text(x: float, y: float, words: str, anchor: str = "start", colour: str = SOFT, size: int = 11) -> str:
    return (f'<text x="{x:.1f}" y="{y:.1f}" font-size="{size}" fill="{colour}" text-anchor="{anchor}" '
            f'font-family="Helvetica, Arial, sans-serif">{words}</text>')


def _line(x1: float, y1: float, x2: float, y2: float, colour: str, width: float) -> str:
    return f'<line x1="{x1:.1f}" y1="{y1:.1f}" x2="{x2:.1f}" y2="{y2:.1f}" stroke="{colour}" stroke-width="{width}"/>'


def _ground(frame: Frame) -> List[str]:
    """The tint below zero, the axes and their numbers."""
    right, bottom = WIDTH - RIGHT, HEIGHT - BOTTOM
    zero = min(max(frame.y(0), TOP), bottom)
    parts = [f'<rect class="below-zero" x="{LEFT}" y="{zero:.1f}" width="{right - LEFT}" height="{bottom - zero:.1f}" fill="{TINT}"/>']
    for rate, words in ticks(frame.lowest, frame.highest, 8):
        parts += [_line(LEFT, frame.y(rate), right, frame.y(rate), GRID, 1), _text(LEFT - 7, frame.y(rate) + 4, words, "end")]
    for time, words in ticks(0, frame.last, 10):
        parts += [_line(frame.x(time), bottom, frame.x(time), bottom + 5, SOFT, 1), _text(frame.x(time), bottom + 18, words, "middle")]
    return [*parts, _text((LEFT + right) / 2, HEIGHT - 6, "years from today", "middle", INK)]


def _zero(frame: Frame) -> List[str]:
    """The line at zero, over the nodes, so that none hides it, and thin, so that it hides none."""
    y = frame.y(0)
    return [_line(LEFT - 6, y, LEFT, y, INK, 3), f'<g class="zero">{_line(LEFT, y, WIDTH - RIGHT, y, INK, 1)}</g>',
            _text(WIDTH - RIGHT - 2, y - 4, "0 %", "end", INK, 10)]


def _mark(x: float, y: float, size: float, below: bool) -> str:
    if below:
        return f'<rect class="below" x="{x - size:.1f}" y="{y - size:.1f}" width="{2 * size:.1f}" height="{2 * size:.1f}" fill="{NEGATIVE}"/>'
    return f'<circle class="above" cx="{x:.1f}" cy="{y:.1f}" r="{size:.1f}" fill="{POSITIVE}"/>'


def _cut(x: float, upwards: bool) -> str:
    """An arrow on the edge for nodes beyond it."""
    y, tip = (TOP + 6, -6) if upwards else (HEIGHT - BOTTOM - 6, 6)
    return f'<path class="cut" d="M{x - 3:.1f} {y}L{x + 3:.1f} {y}L{x:.1f} {y + tip}Z" fill="{BRANCH}"/>'


def _picture(title: str, parts: Sequence[str]) -> str:
    start = (f'<svg xmlns="http://www.w3.org/2000/svg" width="{WIDTH}" height="{HEIGHT}" viewBox="0 0 {WIDTH} {HEIGHT}" role="img" '
             f'aria-label="{title}" style="max-width:100%;height:auto">')
    return "\n".join([start, f'<rect width="{WIDTH}" height="{HEIGHT}" fill="white"/>', _text(LEFT, 18, title, "start", INK, 13), *parts, "</svg>"])


def curve_svg(line: Pairs, marks: Pairs) -> str:
    """Continuous zero rates in percent by years, with a mark at each point that was asked."""
    rates = [rate for _, rate in (*line, *marks)]
    frame = Frame(max(time for time, _ in line), min(0.0, *rates), max(0.0, *rates))
    path = "".join(f"{'L' if place else 'M'}{frame.x(time):.1f} {frame.y(rate):.1f}" for place, (time, rate) in enumerate(line))
    parts = [f'<path d="{path}" fill="none" stroke="{BRANCH}" stroke-width="1.5"/>', *_zero(frame),
             *(_mark(frame.x(time), frame.y(rate), 4, rate < 0) for time, rate in marks)]
    return _picture("Continuous zero rates, percent a year", [*_ground(frame), *parts])


def tree_svg(rates: Sequence[Sequence[float]], weights: Sequence[Sequence[float]], frequency: int) -> str:
    """Yearly rates of nodes in percent by row; weights are their state prices, which are the areas of the marks."""
    frame = Frame((len(rates) - 1) / frequency, *span(rates, weights))
    across = (WIDTH - LEFT - RIGHT) / len(rates)
    parts: List[str] = []
    for row, (nodes, shares) in enumerate(zip(rates, weights)):
        x = frame.x(row / frequency)
        for rate, share in zip(nodes, shares):
            if frame.holds(rate):
                parts.append(_mark(x, frame.y(rate), max(1.2, min(9.0, 0.6 * across) * math.sqrt(share)), rate < 0))
        parts += [_cut(x, upwards) for upwards in (True, False) if any(rate > frame.highest if upwards else rate < frame.lowest for rate in nodes)]
    return _picture("Yearly rates of the tree, percent; areas are state prices, arrows nodes beyond the edge", [*_ground(frame), *parts, *_zero(frame)])
