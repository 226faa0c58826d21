"""The answers to the questions of the page, beside those of `kalah`: games that are opened, lines of best play, and moves looked ahead."""

from __future__ import annotations

import html
import queue
import time
from dataclasses import asdict, dataclass, field
from typing import Any, Union

from .. import rules
from ..answers import Best, Gone, Move, Over, Values
from ..board import Board, IllegalMove
from ..client import Client, Kind, Run
from ..game import Record, check_move, split, written
from ..solver import BoardOrLine, Solver, line_of
from ..tools.page import page
from ..tools.review import Review, body

# How many moves the weakest of the solver's strengths looks ahead.
AHEAD = 2
# What stands after a record if North moves first, and at the first move of one in letters.
NORTH_FIRST, NORTH_MOVES = "&first=North", "1..."


@dataclass(frozen=True)
class Guess:
    """The house that seems best to a search of a few moves, and what is said of that."""

    house: int
    guessed: str


@dataclass(frozen=True)
class Line:
    """The moves of best play, each a house and `again`, `turn` or `over`; if there was no time for all, `is_whole` is false."""

    houses: list[int]
    words: list[str]
    is_whole: bool


@dataclass(frozen=True)
class Place:
    """A position of a game: its line, who moves there, 0 for South and 1 for North, and its moves."""

    line: str
    player: int
    is_over: bool
    moves: list[Move]


@dataclass
class Opened:
    """A game: its positions, the houses that were moved, and why it goes no further, if it doesn't."""

    positions: list[Place]
    houses: list[int] = field(default_factory=list)
    flaw: str = ""


class Busy(Exception):
    """No run is free."""


class Pool(Client[Kind]):
    """Some runs of `kalah`. A question waits up to `patience` seconds for a free one, and then fails with `Busy`."""

    def __init__(self, clients: list[Client[Kind]], patience: float):
        Run.__init__(self, None)
        self._clients: list[Client[Kind]] = clients
        self.patience = patience
        # The one that was used last is used next, as it has learnt most.
        self._free: queue.LifoQueue[Client[Kind]] = queue.LifoQueue()
        for client in reversed(self._clients):
            self._free.put(client)

    def ask(self, line: str) -> Union[Kind, Over]:
        try:
            client = self._free.get(timeout=self.patience)
        except queue.Empty:
            raise Busy from None
        try:
            return client.ask(line)
        finally:
            self._free.put(client)

    def close(self) -> None:
        for client in self._clients:
            client.close()


class Shared(Solver):
    """A solver that asks a pool for values."""

    def __init__(self, pool: Client[Values]):
        super().__init__()
        self.pool = pool

    def values(self, board: BoardOrLine) -> Union[Values, Over]:
        return rules.ask(self.pool, line_of(board))


def best(client: Client[Best], line: str) -> Union[Best, Over, Guess]:
    """Returns the best house, or a guess if there are too many seeds."""
    try:
        return rules.ask(client, line)
    except rules.TooMany as why:
        return Guess(rules.guess(line), rules.guessed(why))


def ahead(line: str) -> Union[Guess, Over]:
    """Returns the house that seems best to a search of `AHEAD` moves."""
    position = rules.read(line)
    if rules.is_over(position):
        return Over(rules.final_margin(position))
    return Guess(rules.best_of(rules.seen_of_moves(position, AHEAD)), f"it looks {AHEAD} moves ahead")


def best_play(client: Client[Best], seconds: float, line: str) -> Line:
    """Returns the moves of best play from a position that are found in these seconds, and one at least."""
    moves: list[Move] = []
    end, is_whole = time.monotonic() + seconds, False
    try:
        while time.monotonic() <= end and not is_whole:
            answer = rules.ask(client, line)
            is_whole = isinstance(answer, Over)
            if isinstance(answer, Best):
                moves.append(next(move for move in place(line, 0).moves if move.house == answer.house))
                line = moves[-1].position
    except Gone:
        if not moves:
            raise
    return Line([move.house for move in moves], [move.word for move in moves], is_whole)


def place(line: str, player: int) -> Place:
    answer = rules.steps(line)
    return Place(line, player, isinstance(answer, Over), [] if isinstance(answer, Over) else answer.moves)


def opened(text: str) -> Opened:
    """Returns the game of a record, as far as its moves can be made. Fails with `Fault` if its position has one. South moves first; North
    does if `NORTH_FIRST` stands at the end, or `NORTH_MOVES` at the first move."""
    record, north, _ = " ".join(text.split()).partition(NORTH_FIRST)
    line, moves = split(record)
    game = Opened([place(rules.start_line(line), int(bool(north) or moves.strip().startswith(NORTH_MOVES)))])
    for move in written(moves):
        now = game.positions[-1]
        try:
            check_move(Board(now.line), now.player, move)
        except IllegalMove as why:
            game.flaw = f"move {len(game.houses) + 1}: {why}"
            break
        found = next(one for one in now.moves if one.house == move.house)
        game.houses.append(move.house)
        game.positions.append(place(found.position, now.player ^ (found.word == "turn")))
    return game


def review(client: Client[Values], text: str) -> bytes:
    """Returns the page of a review of a record, to print. A review calls the player who moves first South."""
    record, north, _ = text.partition(NORTH_FIRST)
    one = Review(Record(1, {}, record), Shared(client))
    title = f"Kalah: {one.line}"
    exchanged = "<p>North moved first in this game: here South and North are exchanged.</p>\n" * bool(north)
    return page(title, f"<h1>{html.escape(title)}</h1>\n{exchanged}{body([one])}").encode()


def as_dict(answer: Any) -> dict[str, Any]:
    return {"is_over": isinstance(answer, Over), **asdict(answer)}
