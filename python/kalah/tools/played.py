"""What is said of the moves of a game: what each is worth, and what it loses."""

from __future__ import annotations

from collections.abc import Sequence
from dataclasses import dataclass
from typing import Optional

from .. import rules
from ..answers import Values
from ..board import Board
from ..drawing import signed
from ..game import PLAYERS, Game
from ..solver import Solver

UNPROVED = f"With more than {rules.MOST_SEEDS} seeds in houses nothing is proved, and no move has a value."


@dataclass(frozen=True)
class Played:
    """A move: the board and the player before it, its house, `again`, `turn` or `over`, and the values of all moves there; None if there
    are too many seeds."""

    board: Board
    player: int
    house: int
    word: str
    values: Optional[dict[int, int]]

    @property
    def lost(self) -> int:
        return max(self.values.values()) - self.values[self.house] if self.values else 0


def values_of(solver: Solver, board: Board) -> Optional[dict[int, int]]:
    """What the moves of a board are worth, by their houses; None if there are too many seeds."""
    try:
        answer = solver.values(board)
    except rules.TooMany:
        return None
    return answer.by_house if isinstance(answer, Values) else {}


def played_in(game: Game, solver: Solver) -> list[Played]:
    """Returns the moves of a game."""
    boards, moves = game.boards, game.moves
    players = [PLAYERS.index(player) for player, _ in moves] + [game.player]
    found = []
    for number, (_, house) in enumerate(moves):
        word = "over" if boards[number + 1].is_over else "turn" if players[number] != players[number + 1] else "again"
        found.append(Played(boards[number], players[number], house, word, values_of(solver, boards[number])))
    return found


def caption(number: int, played: Played) -> str:
    """What is said of a move, in HTML."""
    said, values = f"<b>{number}. {PLAYERS[played.player]}</b> moves house {played.house}", played.values
    if values:
        best = rules.best_of(values)
        said += f", worth {signed(values[played.house])}"
        if played.lost:
            said += f', <span class="loss">which loses {played.lost} (house {best} is worth {signed(values[best])})</span>'
    return said + {"again": ", and moves again.", "turn": ".", "over": ", and the game is over."}[played.word]


def unvalued(moves: Sequence[Played]) -> str:
    """What is said of the moves that have no value; they are the first ones, as there are never more seeds in houses later."""
    count = sum(played.values is None for played in moves)
    said = f"no value above {rules.MOST_SEEDS} seeds."
    return f"Moves 1 to {count}: {said}" if count > 1 else f"Move 1: {said}" if count else ""


def result(game: Game) -> str:
    """What is said of the end."""
    houses, stores = game.board.houses, game.board.stores
    own, other = (sum(houses[side]) + stores[side] for side in (0, 1))
    south, north = (other, own) if game.player else (own, other)
    words = "It is a draw" if south == north else f"{PLAYERS[south < north]} wins"
    return f"{words}, {max(south, north)} to {min(south, north)}."
