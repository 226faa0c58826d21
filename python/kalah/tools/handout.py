"""A game of best play as a page to print: one HTML file with a drawn board for each position.

    python3 -m kalah handout [--first H] LINE > game.html

South, who moves first, always sits below. Below each board stands the move that leads to the next one, with its value: the margin
that the move gets in best play, for the player who makes it. The house that is moved is marked. With --first H the game begins with
house H, to see what that move leads to. There may be any number of seeds, up to 99 in a house. Above 31 in houses a move has no value:
then each player looks a few moves ahead, and the page says so. It needs `kalah`, as `help(kalah)` says.
"""

from __future__ import annotations

import html
from typing import Optional

from .. import rules
from ..client import find
from ..game import Game
from ..script import arguments, position
from ..solver import Solver
from .page import page, steps
from .played import UNPROVED, Played, played_in, result, unvalued, values_of


def best_game(solver: Solver, line: str, first: Optional[int]) -> Game:
    """Returns the game of best moves, or of those that seem best if there are too many seeds. Fails with ValueError if it can't begin
    so."""
    game = Game(line)
    if first is not None:
        game.push(first)
    while not game.is_over:
        values = values_of(solver, game.board)
        game.push(rules.best_of(values) if values else rules.guess(str(game.board)))
    return game


def intro(moves: list[Played], first: Optional[int]) -> str:
    """What stands above the boards."""
    begins = "Both" if first is None else f"South begins with house {first}; then both"
    said = f"South sits below and moves first. {begins} always make a best move."
    if left := unvalued(moves):
        said += f" {left} {UNPROVED} There each move is the best one that a search of {rules.LOOKED_AHEAD} moves sees."
    return said


def main() -> None:
    parser = arguments(__doc__)
    parser.add_argument("--first", type=int, metavar="H", help="the house that South moves first")
    parser.add_line()
    asked = parser.parse_args()
    line, title = position(asked.line), f"Kalah: {asked.line}"
    find()
    with Solver() as solver:
        game = best_game(solver, line, asked.first)
        moves = played_in(game, solver)
    print(page(title, f"<h1>{html.escape(title)}</h1>\n<p>{intro(moves, asked.first)}</p>\n{steps(game, moves, result(game), [])}"))
