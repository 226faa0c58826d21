"""Draws a board in SVG, or in text. In SVG each house is a circle with its number of seeds, and a store stands at each end. The small
numbers at the edges are those of the houses, as their owner counts them, or stand above what the move of each house is worth.
"""

from __future__ import annotations

import html
from collections.abc import Mapping
from typing import Optional

from .rules import Side

CELL, STORE, MARGIN, EDGE = 60, 54, 10, 16
# The room for values below the board.
VALUES = 18
# How far the middles of the two rows of houses are from the upper edge.
ABOVE, BELOW = EDGE + CELL / 2, EDGE + CELL * 3 / 2
FONT = 'font-family="sans-serif" text-anchor="middle" dominant-baseline="central"'
DARK, GOOD = "#5a3a1e", "#0a5c2b"


def signed(value: int) -> str:
    """Returns a margin with its sign; of 0 there is none."""
    return f"{value:+d}" if value else "0"


def text(x: float, y: float, words: object, size: int = 20, color: str = "#222", more: str = "") -> str:
    return f'<text x="{x}" y="{y}" font-size="{size}" fill="{color}" {FONT}{more}>{html.escape(str(words))}</text>'


def house(x: float, y: float, seeds: int, is_marked: bool) -> str:
    color = "#e8a33d" if is_marked else "#fff8ea"
    number = text(x, y, seeds, color="#222" if seeds else "#999")
    return f'<circle cx="{x}" cy="{y}" r="24" fill="{color}" stroke="#7a5230" stroke-width="2"/>{number}'


def store(x: float, seeds: int) -> str:
    box = f'<rect x="{x}" y="{EDGE + 4}" width="{STORE}" height="{2 * CELL - 8}" rx="24" fill="#fff8ea" stroke="#7a5230" stroke-width="2"/>'
    return box + text(x + STORE / 2, EDGE + CELL, seeds, 24)


def value(x: float, y: float, worth: int, is_best: bool) -> str:
    """What a move is worth, in bold if it is a best one."""
    return text(x, y, signed(worth), 14, GOOD if is_best else DARK, ' font-weight="bold"' if is_best else "")


def svg(
    below: Side,
    above: Side,
    marked: Optional[tuple[str, int]] = None,
    title: str = "A position of Kalah",
    values: Optional[Mapping[int, int]] = None,
) -> str:
    """The board with these sides. The marked house is one of ("below", H) and ("above", H); the values are those of houses below. The
    houses above go from right to left, as that player sees them."""
    m, values = len(below.houses), values or {}
    width, high = 2 * MARGIN + 2 * STORE + CELL * m, 2 * EDGE + 2 * CELL
    height = high + VALUES * bool(values)
    parts = [
        f'<svg xmlns="http://www.w3.org/2000/svg" width="{width}" height="{height}" viewBox="0 0 {width} {height}" role="img">',
        f"<title>{html.escape(title)}</title>",
        f'<rect width="{width}" height="{high}" rx="28" fill="#c98f4e"/>',
        store(MARGIN, above.store),
        store(width - MARGIN - STORE, below.store),
    ]
    for place in range(m):
        x, number = MARGIN + STORE + CELL * place + CELL / 2, place + 1
        parts.append(text(x, EDGE / 2 + 2, m - place, 12, DARK) + text(x, high - EDGE / 2 - 2, number, 12, DARK))
        parts.append(house(x, ABOVE, above.houses[m - 1 - place], marked == ("above", m - place)))
        parts.append(house(x, BELOW, below.houses[place], marked == ("below", number)))
        if number in values:
            parts.append(value(x, high + VALUES / 2, values[number], values[number] == max(values.values())))
    return "\n".join([*parts, "</svg>"])


def picture(below: Side, above: Side) -> str:
    """The board with these sides in text, as `kalah show --plain` draws it."""
    rows = ["".join(f"{seeds:4}" for seeds in houses) for houses in (above.houses[::-1], below.houses)]
    return f"    {rows[0]}\n{above.store:4}{' ' * len(rows[0])}{below.store:4}\n    {rows[1]}"
