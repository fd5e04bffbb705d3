"""Pictures of timings as SVG, by the standard library alone."""
from __future__ import annotations

import math
import pathlib
from html import escape
from typing import Iterable, Mapping, Sequence

# One for each program of bench/floor.py; what has no colour isn't drawn.
COLOURS = ("#1f5fa8", "#d9822b", "#4c9a52", "#b8393c", "#7a5aa6", "#8a6a4f", "#c95fa0", "#6f7f8c", "#2aa198")
# Heights of a line of text, of a bar and of the space between groups, and the width of a letter.
LINE, BAR, SPACE, LETTER = 18, 7, 9, 6.6


def text(x: float, y: float, words: str, anchor: str = "start") -> str:
    return f'<text x="{x:.0f}" y="{y:.0f}" text-anchor="{anchor}">{escape(words)}</text>'


def box(x: float, y: float, width: float, height: float, colour: str) -> str:
    return f'<rect x="{x:.1f}" y="{y:.1f}" width="{width:.1f}" height="{height:.1f}" fill="{colour}"/>'


def grid(x: float, top: float, bottom: float, words: str) -> list[str]:
    return [f'<path d="M{x:.1f} {top:.0f}V{bottom:.0f}" stroke="#ccc"/>', text(x, bottom + LINE, words, "middle")]


def legend(names: Sequence[str], y: float, width: float) -> tuple[list[str], float]:
    """Names beside their colours, in as many lines as they need, and where these end."""
    found, x = [], 10.0
    for name, colour in zip(names, COLOURS):
        wide = 30 + LETTER * len(name)
        if x + wide > width:
            x, y = 10.0, y + LINE
        found += [box(x, y - 9, 10, 10, colour), text(x + 15, y, name)]
        x += wide
    return found, y + LINE / 2


def written(path: pathlib.Path, width: float, height: float, parts: Iterable[str]) -> None:
    """The file, on white, so that it can be read on a dark page."""
    begins = (f'<svg xmlns="http://www.w3.org/2000/svg" viewBox="0 0 {width:.0f} {height:.0f}" width="{width:.0f}" height="{height:.0f}" '
              'font-family="sans-serif" font-size="12">')
    path.write_text("\n".join([begins, box(0, 0, width, height, "#fff"), *parts, "</svg>"]) + "\n", "utf-8")


def bars(path: pathlib.Path, rows: Mapping[str, Mapping[str, float]], names: Sequence[str], label: str) -> None:
    """A group of bars for each row, one for each name that the row has, on a logarithmic scale."""
    left, right, top, width = 160.0, 740.0, 10.0, 780.0
    least = 10 ** math.floor(math.log10(min(value for row in rows.values() for value in row.values())))
    most = 10 ** math.ceil(math.log10(max(value for row in rows.values() for value in row.values())))

    def place(value: float) -> float:
        return left + (right - left) * math.log(value / least) / math.log(most / least)

    marks, y = [], top
    for kind, row in rows.items():
        found = [(name, colour) for name, colour in zip(names, COLOURS) if name in row]
        marks.append(text(left - 8, y + BAR * len(found) / 2 + 4, kind, "end"))
        for name, colour in found:
            marks.append(box(left, y, place(row[name]) - left, BAR - 1, colour))
            y += BAR
        y += SPACE
    powers = range(round(math.log10(least)), round(math.log10(most)) + 1)
    lines = [part for power in powers for part in grid(place(10.0 ** power), top, y, f"{10.0 ** power:,g}")]
    keys, end = legend(names, y + 3.5 * LINE, width)
    written(path, width, end + 5, [*lines, *marks, text((left + right) / 2, y + 2 * LINE, label, "middle"), *keys])


def lines(path: pathlib.Path, series: Mapping[str, Sequence[float]], across: float, x_label: str, y_label: str) -> None:
    """A line for each name, whose values are spread evenly from 0 to `across`, from 0 upwards."""
    left, right, top, bottom, width = 60.0, 740.0, 20.0, 300.0, 760.0
    greatest = max(max(values) for values in series.values())
    step = 10.0 ** math.floor(math.log10(greatest))
    most = step * math.ceil(greatest / step)

    def point(place: int, value: float, values: Sequence[float]) -> str:
        return f"{left + (right - left) * place / max(1, len(values) - 1):.1f} {bottom - (bottom - top) * value / most:.1f}"

    parts = []
    for number in range(round(most / step) + 1):
        y = bottom - (bottom - top) * number * step / most
        parts += [f'<path d="M{left:.0f} {y:.1f}H{right:.0f}" stroke="#ccc"/>', text(left - 8, y + 4, f"{number * step:,g}", "end")]
    for (name, values), colour in zip(series.items(), COLOURS):
        points = "L".join(point(place, value, values) for place, value in enumerate(values))
        parts.append(f'<path d="M{points}" fill="none" stroke="{colour}" stroke-width="2"/>')
    keys, end = legend(list(series), bottom + 3.5 * LINE, width)
    parts += [text(left, bottom + LINE, "0", "middle"), text(right, bottom + LINE, f"{across:,g}", "end"),
              text((left + right) / 2, bottom + 2 * LINE, x_label, "middle"), text(left, top - 6, y_label), *keys]
    written(path, width, end + 5, parts)
