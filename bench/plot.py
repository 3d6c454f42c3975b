"""Plots as SVG: panels of lines over a few named places, with a logarithmic scale from below to above."""

from __future__ import annotations

import math
from html import escape
from typing import NamedTuple

WIDTH, HEIGHT = 420, 280
LEFT, TOP, RIGHT, BELOW = 84, 34, 16, 44
LINE = 18
# They can be told apart by people who do not see all colours.
COLOURS = ["#0072b2", "#d55e00", "#009e73", "#cc79a7", "#e69f00", "#56b4e9", "#555555"]
MARK = 3


class Line(NamedTuple):
    """Points at places, which count from 0. Lines of one name have one colour."""

    name: str
    dashed: bool
    points: list[tuple[int, float]]


class Panel(NamedTuple):
    title: str
    places: list[str]
    lines: list[Line]


def tag(name: str, text: str = "", **fields: object) -> str:
    words = "".join(f' {key.replace("_", "-")}="{escape(str(value))}"' for key, value in fields.items())
    return f"<{name}{words}>{text}</{name}>" if text else f"<{name}{words}/>"


def words(text: str, x: float, y: float, **fields: object) -> str:
    return tag("text", escape(text), x=f"{x:.1f}", y=f"{y:.1f}", **fields)


def short(value: float) -> str:
    """A power of ten as people write it."""
    return f"{value:,.0f}" if value >= 1 else f"{value:g}"


class Scale:
    """Where values lie: from the power of ten below all to the one above all."""

    def __init__(self, panel: Panel) -> None:
        values = [value for line in panel.lines for _, value in line.points if value > 0] or [1]
        self.low = math.floor(math.log10(min(values)))
        self.high = max(math.ceil(math.log10(max(values))), self.low + 1)
        self.step = (WIDTH - LEFT - RIGHT) / max(1, len(panel.places) - 1)

    def x(self, place: int) -> float:
        return LEFT + place * self.step

    def y(self, value: float) -> float:
        share = (math.log10(max(value, 10**self.low)) - self.low) / (self.high - self.low)
        return HEIGHT - BELOW - share * (HEIGHT - TOP - BELOW)


def axes(panel: Panel, scale: Scale) -> list[str]:
    parts = [words(panel.title, LEFT, TOP - 14, font_weight="bold")]
    for power in range(scale.low, scale.high + 1):
        y = f"{scale.y(10**power):.1f}"
        parts.append(tag("line", x1=LEFT, x2=WIDTH - RIGHT, y1=y, y2=y, stroke="#dddddd"))
        parts.append(words(short(10**power), LEFT - 8, float(y) + 4, text_anchor="end"))
    for place, name in enumerate(panel.places):
        parts.append(words(name, scale.x(place), HEIGHT - BELOW + 18, text_anchor="middle"))
    parts.append(words("clients", (LEFT + WIDTH - RIGHT) / 2, HEIGHT - 8, text_anchor="middle"))
    return parts


def drawn(line: Line, scale: Scale, colour: str) -> list[str]:
    points = [(f"{scale.x(place):.1f}", f"{scale.y(value):.1f}") for place, value in line.points]
    if not points:
        return []
    path = " ".join(",".join(point) for point in points)
    dashes = {"stroke_dasharray": "5 4"} if line.dashed else {}
    marks = [tag("circle", cx=x, cy=y, r=MARK, fill=colour) for x, y in points]
    return [tag("polyline", points=path, fill="none", stroke=colour, stroke_width=2, **dashes), *marks]


def drawn_panel(panel: Panel, colours: dict[str, str], x: float, y: float) -> str:
    scale = Scale(panel)
    parts = axes(panel, scale)
    for line in panel.lines:
        parts += drawn(line, scale, colours[line.name])
    return tag("g", "\n".join(parts), transform=f"translate({x} {y})")


def svg(rows: list[list[Panel]], legend: dict[str, str], notes: list[str]) -> str:
    """The panels in rows, below them the colour of each name with a word on it, and the notes."""
    colours = {name: COLOURS[number % len(COLOURS)] for number, name in enumerate(legend)}
    width, y = WIDTH * max(map(len, rows)), HEIGHT * len(rows) + LINE
    parts = [
        drawn_panel(panel, colours, WIDTH * across, HEIGHT * down)
        for down, row in enumerate(rows)
        for across, panel in enumerate(row)
    ]
    for name, text in legend.items():
        parts.append(tag("rect", x=LEFT, y=y - 10, width=12, height=12, fill=colours[name]))
        parts.append(words(f"{name}: {text}", LEFT + 20, y))
        y += LINE
    for note in notes:
        parts.append(words(note, LEFT, y, fill="#555555"))
        y += LINE
    ground = tag("rect", width=width, height=y, fill="#ffffff")
    size = {"xmlns": "http://www.w3.org/2000/svg", "viewBox": f"0 0 {width} {y}", "width": width, "height": y}
    letters = {"font_family": "sans-serif", "font_size": 12, "fill": "#222222"}
    return tag("svg", "\n".join([ground, *parts]), **size, **letters) + "\n"
