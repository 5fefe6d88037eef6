"""The pictures: SVG without a background of its own, whose colours are read on a light page and on a dark one."""

from __future__ import annotations

import math
import textwrap
from dataclasses import dataclass
from typing import Callable, Optional
from xml.sax.saxutils import escape

from figures import ENGINES, FROM_C, OURS, ROWS, Results, caption, missing

TEXT = "#777777"
LINE = "#8a8a8a"
FONT = "DejaVu Sans, Verdana, Helvetica, Arial, sans-serif"
# By their numbers of keys, the smallest first.
SIZES = ("#0e86c7", "#d1621a", "#0a9a70", "#b3609b")


@dataclass(frozen=True)
class Look:
    colour: str
    mark: str
    dashes: str = ""
    width: float = 1.6


LOOKS = {
    OURS: Look("#d1621a", "circle", width=3),
    FROM_C: Look("#d1621a", "circle", "5 3"),
    "leveldb": Look("#0e86c7", "square"),
    "leveldb-buffer": Look("#0e86c7", "square", "5 3"),
    "rocksdb": Look("#0a9a70", "triangle"),
    "rocksdb-buffer": Look("#0a9a70", "triangle", "5 3"),
    "lmdb": Look("#b3609b", "diamond"),
    "sqlite": Look("#8c7a1e", "cross"),
}


class Picture:
    """Shapes and texts, in pixels from the upper left corner."""

    def __init__(self, width: float, title: str) -> None:
        self.width = width
        self.height = 0.0
        self.shapes: list[str] = []
        self.title = title

    def text(self, x: float, y: float, text: str, size: int = 12, at: str = "start", bold: bool = False) -> None:
        weight = ' font-weight="bold"' if bold else ""
        self.shapes.append(f'<text x="{x:.1f}" y="{y:.1f}" font-size="{size}" text-anchor="{at}"{weight}>{escape(text)}</text>')

    def line(self, x1: float, y1: float, x2: float, y2: float, width: float = 1, colour: str = LINE, dashes: str = "", faint: bool = False) -> None:
        more = (f' stroke-dasharray="{dashes}"' if dashes else "") + (' stroke-opacity="0.35"' if faint else "")
        self.shapes.append(f'<line x1="{x1:.1f}" y1="{y1:.1f}" x2="{x2:.1f}" y2="{y2:.1f}" stroke="{colour}" stroke-width="{width}"{more}/>')

    def bar(self, x1: float, x2: float, y: float, height: float, colour: str) -> None:
        left, width = min(x1, x2), max(abs(x2 - x1), 1)
        self.shapes.append(f'<rect x="{left:.1f}" y="{y:.1f}" width="{width:.1f}" height="{height:.1f}" fill="{colour}"/>')

    def mark(self, x: float, y: float, look: Look, size: float = 4) -> None:
        """A sign of an engine. That of one with dashes is empty."""
        shapes: dict[str, list[tuple[float, float]]] = {
            "square": [(-1, -1), (1, -1), (1, 1), (-1, 1)],
            "triangle": [(0, -1.2), (1.2, 1), (-1.2, 1)],
            "diamond": [(0, -1.4), (1.4, 0), (0, 1.4), (-1.4, 0)],
        }
        corners = shapes.get(look.mark)
        drawn = f'fill="{"none" if look.dashes else look.colour}" stroke="{look.colour}" stroke-width="1.4"'
        if look.mark == "circle":
            self.shapes.append(f'<circle cx="{x:.1f}" cy="{y:.1f}" r="{size}" {drawn}/>')
        elif corners is None:
            self.line(x - size, y - size, x + size, y + size, 2, look.colour)
            self.line(x - size, y + size, x + size, y - size, 2, look.colour)
        else:
            points = " ".join(f"{x + size * a:.1f},{y + size * b:.1f}" for a, b in corners)
            self.shapes.append(f'<polygon points="{points}" {drawn}/>')

    def caption(self, y: float, text: str) -> None:
        """The lines of a caption, at the lower end."""
        lines = textwrap.wrap(text, int((self.width - 40) / 6.6))
        for place, line in enumerate(lines):
            self.text(20, y + 15 * place, line, 11)
        self.height = y + 15 * len(lines)

    def svg(self) -> str:
        head = (
            f'<svg xmlns="http://www.w3.org/2000/svg" width="{self.width:.0f}" height="{self.height:.0f}" '
            f'viewBox="0 0 {self.width:.0f} {self.height:.0f}" font-family="{FONT}" fill="{TEXT}">'
        )
        return "\n".join([head, f"<title>{escape(self.title)}</title>", *self.shapes, "</svg>"]) + "\n"


# ---- scales


def steps(low: float, high: float, most: int = 9) -> list[float]:
    """The numbers 1, 2 and 5 by powers of ten between two numbers, or the powers alone where they are too many."""
    powers = range(math.floor(math.log10(low)), math.ceil(math.log10(high)) + 1)
    for digits in ((1, 2, 5), (1, 3), (1,)):
        found = [digit * 10.0**power for power in powers for digit in digits]
        found = [it for it in found if low * 0.999 <= it <= high * 1.001]
        if len(found) <= most:
            break
    return found


def scale(low: float, high: float, start: float, end: float) -> Callable[[float], float]:
    """Where a number stands on a logarithmic axis."""
    span = math.log(high / low)
    return lambda number: start + (end - start) * math.log(number / low) / span


def number_of(it: float) -> str:
    return f"{it:,.0f}" if it >= 1 else f"{it:g}"


# ---- ratios


@dataclass(frozen=True)
class Bar:
    row: str
    keys: int
    ratio: float
    peer: str


def bars_of(results: Results, peer: Optional[str]) -> list[Bar]:
    """Our ratios to a peer, or where none is named to the best one."""
    bars = []
    for row in ROWS:
        for keys in results.sizes():
            beside = peer or results.best(row, keys)
            ratio = results.ratio(row, keys, beside)
            if beside and ratio:
                bars.append(Bar(row, keys, ratio, beside))
    return bars


def ratios(results: Results, peer: Optional[str] = None) -> Optional[str]:
    """A picture of our rates by those of a peer, or of the best one. There is none without figures of ours."""
    bars = bars_of(results, peer)
    if not bars:
        return None
    whose = f"{ENGINES[peer]}’s" if peer else "the best peer’s"
    picture = Picture(760, f"Our operations a second by {whose}")
    picture.text(20, 26, f"{ENGINES[results.ours()]}: operations a second by {whose}", 16, bold=True)
    picture.text(20, 46, "The line is 1.0: a bar to its right is ahead, one to its left behind. The scale is logarithmic.", 12)
    low = min(0.1, min(it.ratio for it in bars) / 1.8)
    high = max(10.0, max(it.ratio for it in bars) * 1.8)
    x_of = scale(low, high, 200, picture.width - (100 if peer is None else 30))
    top = y = 90.0
    for row in dict.fromkeys(it.row for it in bars):
        of_row = [it for it in bars if it.row == row]
        picture.text(20, y + 8 * len(of_row) + 4, row, 13)
        for it in of_row:
            draw_bar(picture, it, x_of, y, SIZES[results.sizes().index(it.keys) % len(SIZES)], peer is None)
            y += 16
        y += 10
    draw_axis(picture, low, high, x_of, top - 6, y - 4)
    lacking = missing(results)
    told = f" No figure of ours: {'; '.join(lacking)}." if lacking else ""
    picture.caption(y + 20, caption(results) + told)
    return picture.svg()


def draw_bar(picture: Picture, bar: Bar, x_of: Callable[[float], float], y: float, colour: str, tells_peer: bool) -> None:
    end, ahead = x_of(bar.ratio), bar.ratio >= 1
    picture.text(196, y + 10, f"{bar.keys:,}", 10, "end")
    picture.bar(x_of(1), end, y, 13, colour)
    picture.text(end + (5 if ahead else -5), y + 11, f"{bar.ratio:.2f}", 11, "start" if ahead else "end")
    if tells_peer:
        picture.text(picture.width - 20, y + 10, ENGINES[bar.peer], 10, "end")


def draw_axis(picture: Picture, low: float, high: float, x_of: Callable[[float], float], top: float, bottom: float) -> None:
    """Numbers above the bars, and a line at 1. There is no line at others, which would go through the numbers at the bars."""
    for step in steps(low, high):
        picture.text(x_of(step), top - 8, number_of(step), 10, "middle")
        picture.line(x_of(step), top - 5, x_of(step), top)
    picture.line(x_of(low), top, x_of(high), top)
    picture.line(x_of(1), top, x_of(1), bottom, width=2)


# ---- growth

PANEL, HEIGHT, COLUMNS = 250, 170, 3


def growth(results: Results) -> Optional[str]:
    """A picture of how the time of an operation grows with the keys: a panel for each row. There is none of one size alone."""
    rows = [row for row in ROWS if len({it.keys for it in results.figures if it.row == row}) > 1]
    if not rows:
        return None
    sizes = results.sizes()
    picture = Picture(COLUMNS * PANEL + 30, "Microseconds an operation by number of keys")
    picture.text(20, 26, f"Microseconds an operation, from {sizes[0]:,} to {sizes[-1]:,} keys", 16, bold=True)
    picture.text(20, 46, "The time of a row divided by all its operations: lower is faster. Both scales are logarithmic.", 12)
    top = draw_legend(picture, results.engines(), 68)
    for place, row in enumerate(rows):
        x, y = 20 + PANEL * (place % COLUMNS), top + HEIGHT * (place // COLUMNS)
        draw_panel(picture, results, row, x, y)
    picture.caption(top + HEIGHT * math.ceil(len(rows) / COLUMNS) + 20, caption(results))
    return picture.svg()


def draw_legend(picture: Picture, engines: list[str], y: float) -> float:
    """The signs of the engines, in lines of as many as have room. It answers where the picture goes on."""
    x = 20.0
    for engine in engines:
        width = 48 + 7 * len(ENGINES[engine])
        if x > 20 and x + width > picture.width - 20:
            x, y = 20.0, y + 20
        look = LOOKS[engine]
        picture.line(x, y, x + 26, y, look.width, look.colour, look.dashes)
        picture.mark(x + 13, y, look)
        picture.text(x + 32, y + 4, ENGINES[engine], 11)
        x += width
    return y + 24


def bounds(costs: list[float]) -> tuple[float, float]:
    """The ends of an axis around some numbers, at least three times apart."""
    low, high = min(costs) / 1.25, max(costs) * 1.25
    wider = max(1.0, math.sqrt(3 * low / high))
    return low / wider, high * wider


def draw_panel(picture: Picture, results: Results, row: str, x: float, y: float) -> None:
    of_row = [it for it in results.figures if it.row == row]
    low, high = bounds([1e6 / it.middle.rate for it in of_row])
    left, right, upper, lower = x + 42, x + PANEL - 26, y + 22, y + HEIGHT - 30
    sizes = sorted({it.keys for it in of_row})
    x_of, y_of = scale(sizes[0], sizes[-1], left + 8, right), scale(low, high, lower, upper)
    picture.text(x, y + 12, row, 13, bold=True)
    for step in steps(low, high, 6):
        picture.line(left, y_of(step), right + 8, y_of(step), faint=True)
        picture.text(left - 5, y_of(step) + 4, number_of(step), 10, "end")
    for keys in sizes:
        picture.line(x_of(keys), lower, x_of(keys), lower + 4)
        picture.text(x_of(keys), lower + 16, f"{keys:,}", 10, "middle")
    picture.line(left, lower, right + 8, lower)
    for engine in reversed(results.engines()):
        costs = sorted((it.keys, 1e6 / it.middle.rate) for it in of_row if it.engine == engine)
        points = [(x_of(keys), y_of(cost)) for keys, cost in costs]
        look = LOOKS[engine]
        for (x1, y1), (x2, y2) in zip(points, points[1:]):
            picture.line(x1, y1, x2, y2, look.width, look.colour, look.dashes)
        for at in points:
            picture.mark(at[0], at[1], look)
