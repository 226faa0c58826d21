"""Draws a position as a board in SVG, with the player to move below.

    python3 -m kalah board [--values] LINE > board.svg

Each house is a circle with its number of seeds, and a store stands at each end. The small numbers at the edges are those of the houses, as
their owner counts them. There may be any number of seeds, up to 99 in a house. It needs no `kalah`, but for --values.
"""

from __future__ import annotations

from .. import rules
from ..answers import Values
from ..board import Board
from ..client import Client
from ..script import arguments, position


def main() -> None:
    parser = arguments(__doc__)
    parser.add_argument("--values", action="store_true", help="with what each move is worth below its house")
    parser.add_line()
    asked = parser.parse_args()
    board = Board(position(asked.line))
    if asked.values:
        with Client(Values) as client:
            board = board.with_values(rules.ask(client, str(board)))
    print(board.svg())
