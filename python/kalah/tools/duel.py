"""Play against the solver in a terminal.

    python3 -m kalah duel [--second] LINE

You sit below and begin, or the solver does with --second. Type the number of a house, counted from your left. At the end of the
input, or with q, the game ends. There may be any number of seeds, up to 99 in a house. Above 31 in houses the solver has no values: it
looks a few moves ahead, and says so. It needs `kalah`, as `help(kalah)` says.
"""

from __future__ import annotations

import sys
from typing import Optional

from ..answers import Over
from ..board import Board
from ..client import find
from ..game import Game
from ..rules import TooMany, guess, guessed
from ..script import arguments, position
from ..solver import Solver


def typed(possible: list[int]) -> Optional[int]:
    """The house that is typed, one of these, or None if the game is given up."""
    words = {str(house): house for house in possible}
    while True:
        print(f"your house, {' '.join(words)}, or q: ", end="", flush=True)
        word = sys.stdin.readline()
        if not word or word.strip() == "q":
            print("given up")
            return None
        if word.strip() in words:
            return words[word.strip()]
        print("that house can't be moved")


def answered(solver: Solver, board: Board) -> tuple[int, str]:
    """The house that the solver moves, and what it says of that."""
    try:
        answer = solver.best(board)
    except TooMany as why:
        return guess(str(board)), f" ({guessed(why)})"
    assert not isinstance(answer, Over)
    return answer.house, ""


def duel(solver: Solver, game: Game, person: int) -> None:
    """Plays to the end, and says who won."""
    while not game.is_over:
        is_person = game.player == person
        if is_person:
            print(game.board.picture())
        house, said = (typed(game.board.legal), "") if is_person else answered(solver, game.board)
        if house is None:
            return
        print(f"{'you' if is_person else 'the solver'}: house {house}{said}")
        game.push(house)
    margin = (game.margin or 0) * (-1 if person else 1)
    print("a draw" if margin == 0 else f"{'you' if margin > 0 else 'the solver'} won by {abs(margin)}")


def main() -> None:
    parser = arguments(__doc__)
    parser.add_argument("--second", action="store_true", help="the solver begins")
    parser.add_line()
    asked = parser.parse_args()
    line = position(asked.line)
    find()
    with Solver() as solver:
        duel(solver, Game(line), int(asked.second))
