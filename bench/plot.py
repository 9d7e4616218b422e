#!/usr/bin/env python3
"""Draws the table of bench/serve.sh: sets a second against clients, a line for each system, a panel for each size of a batch.

    bench/plot.py docs/performance.csv docs/performance.svg
    bench/plot.py TABLE.csv TABLE.svg --transport socket

Both axes are logarithmic. SQLite, which has no transport, is drawn beside each.
"""
import argparse
import csv
import math
import pathlib
from collections.abc import Iterator
from typing import NamedTuple

LIBRARY = "library"
COLORS = {"zigzag": "#0b6e4f", "pingpong": "#5aa469", "Redis": "#c0392b", "PostgreSQL": "#2c5d8a", "SQLite": "#8a6d3b"}
OTHER = "#666666"
WIDTH, HEIGHT = 380, 300
LEFT, RIGHT, TOP, BOTTOM = 70, 120, 40, 50
FONT = 'font-family="sans-serif" font-size="12"'
SUFFIXES = (1_000_000, " M"), (1_000, " k"), (1, "")
# Names at the ends of lines are so many pixels apart.
APART = 14

Points = list[tuple[int, float]]
Lines = dict[str, Points]


class Scale(NamedTuple):
    """A logarithmic scale, from values to pixels."""

    low: float
    high: float
    first: float
    last: float

    def at(self, value: float) -> float:
        """Where a value is."""
        part = (math.log(value) - math.log(self.low)) / (math.log(self.high) - math.log(self.low))
        return self.first + part * (self.last - self.first)


def read_panels(table: pathlib.Path, transport: str) -> dict[int, Lines]:
    """The points of each system, for each size of a batch."""
    panels: dict[int, Lines] = {}
    with table.open() as file:
        for row in csv.DictReader(file):
            if row["transport"] in (transport, LIBRARY):
                lines = panels.setdefault(int(row["lines"]), {})
                lines.setdefault(row["system"], []).append((int(row["clients"]), float(row["sets"])))
    return {size: {name: sorted(points) for name, points in lines.items()} for size, lines in sorted(panels.items())}


def short(number: float) -> str:
    """A number in few characters, as 200 k."""
    unit, suffix = next(pair for pair in SUFFIXES if number >= pair[0] or pair[0] == 1)
    return f"{number / unit:g}{suffix}"


def steps(low: float, high: float) -> list[int]:
    """The numbers 1, 2 and 5 times a power of 10, from the last not above `low` to the first that isn't below `high`."""
    all_steps = [digit * 10**power for power in range(10) for digit in (1, 2, 5)]
    first = max(step for step in all_steps if step <= low)
    last = min(step for step in all_steps if step >= high)
    return [step for step in all_steps if first <= step <= last]


def text(x: float, y: float, words: str, more: str = "") -> str:
    """A text."""
    return f'<text x="{x:.1f}" y="{y:.1f}" {FONT} {more}>{words}</text>'


def rule(x1: float, y1: float, x2: float, y2: float, color: str) -> str:
    """A straight line."""
    return f'<line x1="{x1:.1f}" y1="{y1:.1f}" x2="{x2:.1f}" y2="{y2:.1f}" stroke="{color}"/>'


def label_places(ends: list[float]) -> list[float]:
    """Places for names at the ends of lines, far enough apart, in the order of the ends."""
    order = sorted(range(len(ends)), key=ends.__getitem__)
    places, last = [0.0] * len(ends), -math.inf
    for index in order:
        last = places[index] = max(ends[index], last + APART)
    return places


def axes(across: Scale, up: Scale, clients: list[int], sets: list[int], size: int) -> Iterator[str]:
    """The frame of a panel."""
    title = "1 set a batch" if size == 1 else f"{size} sets a batch"
    yield text(across.first, TOP - 18, title, 'font-weight="bold"')
    for count in clients:
        yield rule(across.at(count), up.first, across.at(count), up.last, "#eeeeee")
        yield text(across.at(count), up.first + 16, f"{count:,}", 'text-anchor="middle"')
    for number in sets:
        yield rule(across.first, up.at(number), across.last, up.at(number), "#dddddd")
        yield text(across.first - 6, up.at(number) + 4, short(number), 'text-anchor="end"')
    yield text((across.first + across.last) / 2, up.first + 36, "clients", 'text-anchor="middle"')
    middle = (up.first + up.last) / 2
    turned = f'text-anchor="middle" transform="rotate(-90 {across.first - 52:.1f} {middle:.1f})"'
    yield text(across.first - 52, middle, "sets a second", turned)


def color_of(name: str) -> str:
    """The color of a system."""
    return COLORS.get(name.split()[0], OTHER)


def panel(left: float, size: int, lines: Lines) -> Iterator[str]:
    """One panel, whose left edge is here."""
    clients = sorted({count for points in lines.values() for count, _ in points})
    rates = [rate for points in lines.values() for _, rate in points]
    sets = steps(min(rates), max(rates))
    across = Scale(clients[0], max(clients[-1], clients[0] + 1), left + LEFT, left + LEFT + WIDTH)
    up = Scale(sets[0], sets[-1], TOP + HEIGHT, TOP)
    yield from axes(across, up, clients, sets, size)
    places = label_places([up.at(points[-1][1]) for points in lines.values()])
    for (name, points), place in zip(lines.items(), places):
        color = color_of(name)
        path = " ".join(f"{across.at(count):.1f},{up.at(rate):.1f}" for count, rate in points)
        yield f'<polyline points="{path}" fill="none" stroke="{color}" stroke-width="2"/>'
        for count, rate in points:
            yield f'<circle cx="{across.at(count):.1f}" cy="{up.at(rate):.1f}" r="3" fill="{color}"/>'
        yield text(across.last + 8, place + 4, name, f'fill="{color}"')


def drawing(panels: dict[int, Lines]) -> str:
    """The whole picture."""
    each = LEFT + WIDTH + RIGHT
    width, height = each * len(panels), TOP + HEIGHT + BOTTOM
    parts = [f'<svg xmlns="http://www.w3.org/2000/svg" width="{width}" height="{height}" viewBox="0 0 {width} {height}">']
    parts.append(f'<rect width="{width}" height="{height}" fill="white"/>')
    for index, (size, lines) in enumerate(panels.items()):
        parts += panel(index * each, size, lines)
    return "\n".join([*parts, "</svg>", ""])


def main() -> None:
    """Draws the table."""
    parser = argparse.ArgumentParser(description=__doc__, formatter_class=argparse.RawDescriptionHelpFormatter)
    parser.add_argument("table", type=pathlib.Path)
    parser.add_argument("picture", type=pathlib.Path)
    parser.add_argument("--transport", choices=("port", "socket"), default="port")
    given = parser.parse_args()
    panels = read_panels(given.table, given.transport)
    if not panels:
        parser.error(f"{given.table} has no row over a {given.transport}")
    given.picture.write_text(drawing(panels))


main()
