"""Games: who moves, what was moved, and how games are written down.

A record has the moves by house, South's as letters from A to F and North's from a to f, or all as numbers: `1. CF ba 2. D` and
`1. 3-6 2-1 2. 4` are one game. The numbers of moves, `1.` or before letters also `1`, commas and `{comments}` are passed over. `1...` says
that North moves. `C4` is house C, which has 4 seeds or is the fourth.
"""

from __future__ import annotations

import re
from collections.abc import Iterable, Iterator
from dataclasses import dataclass
from typing import NamedTuple, Optional, Union
from urllib.parse import unquote_plus, urlsplit

from .board import Board, IllegalMove

PLAYERS = ["South", "North"]
LETTERS = "ABCDEF"
USUAL = Board.start()
# What stands at the beginning of a record: its position, alone or in the address of a page.
POSITION = re.compile("(?<![0-9,])[0-9]{1,3}(?:,[0-9]{1,3}){0,6}/[0-9]{1,3} [0-9]{1,3}(?:,[0-9]{1,3}){0,6}/[0-9]{1,3}(?: e(?![^ ]))?")
ADDRESS = re.compile("https?://[^ ]*")
TAG = re.compile(r'\[(\w+) "([^"]*)"\]|(\w+): *(.*)')
LETTERED = re.compile("[A-Fa-f]+|[A-Fa-f][0-9]+")
NUMBER_OF_MOVE = re.compile(r"[0-9]+(\.{3}|…|[.)]*)")
RESULT = re.compile(r"1-0|0-1|1/2-1/2|\*")


class Written(NamedTuple):
    """A move as it is written: the word, the house, the player if the word names one, and the number that stands beside a letter."""

    word: str
    house: int
    player: Optional[int]
    beside: Optional[int] = None


class Game:
    """A game from a position, in which South moves first, and the houses that were moved so far. The same game is
    `Game(game.start, game.houses)`. Games of the same start and the same moves are equal."""

    def __init__(self, start: Union[Board, str] = USUAL, moves: Iterable[int] = ()):
        self.start = start if isinstance(start, Board) else Board(start)
        # Tuples, so that a copy goes on alone.
        self._boards: tuple[Board, ...] = (self.start,)
        self._players: tuple[int, ...] = (0,)
        self._houses: tuple[int, ...] = ()
        for house in moves:
            self.push(house)

    @classmethod
    def read(cls, record: str) -> Game:
        """Returns the game of a record, which begins with a position, or else at the usual board. Fails with `Fault` if that is no
        position, and with `IllegalMove` at a move that can't be made, or is another player's."""
        start, moves = split(record)
        game = cls(start)
        for move in written(moves):
            game._push_written(move)
        return game

    @property
    def boards(self) -> list[Board]:
        """The positions so far, each seen by its mover; that of the end, if the game is over, by who moved last."""
        return [*self._boards]

    @property
    def board(self) -> Board:
        """The position that is reached, seen by the mover, or, if the game is over, by who moved last."""
        return self._boards[-1]

    @property
    def player(self) -> int:
        """Who moves, or has moved last if the game is over: 0 is South."""
        return self._players[-1]

    @property
    def mover(self) -> str:
        """Who moves: `South` or `North`."""
        return PLAYERS[self.player]

    @property
    def moves(self) -> list[tuple[str, int]]:
        """The moves so far: the player and the house of each."""
        return [(PLAYERS[player], house) for player, house in zip(self._players, self._houses)]

    @property
    def houses(self) -> list[int]:
        """The houses that were moved so far."""
        return [*self._houses]

    @property
    def is_over(self) -> bool:
        """Whether a player's houses are all empty."""
        return self.board.is_over

    @property
    def margin(self) -> Optional[int]:
        """South's final margin if the game is over; otherwise None."""
        margin = self.board.margin
        return -margin if margin is not None and self.player else margin

    def push(self, house: int) -> None:
        """Moves a house. Fails with `IllegalMove`, a ValueError, if it can't be moved."""
        self._check(Written(repr(house), house, None))
        board, word = self.board.after(house)
        self._boards += (board,)
        self._players += (self.player ^ (word == "turn"),)
        self._houses += (house,)

    def pop(self) -> int:
        """Takes the last move back, and returns its house. Fails with IndexError if there is none."""
        house = self._houses[-1]
        self._boards, self._players, self._houses = self._boards[:-1], self._players[:-1], self._houses[:-1]
        return house

    def _check(self, move: Written) -> None:
        """Fails with `IllegalMove` if the next move can't be this one."""
        try:
            check_move(self.board, self.player, move)
        except IllegalMove as why:
            raise IllegalMove(f"move {len(self._houses) + 1}: {why}") from None

    def _push_written(self, move: Written) -> None:
        """Moves what is written, if the mover may. Fails as `push` does."""
        self._check(move)
        self.push(move.house)

    def record(self, numbers: bool = False) -> str:
        """Returns the moves as `read` reads them after the position: in letters, or in numbers."""
        turns: list[tuple[int, list[int]]] = []
        for player, house in zip(self._players, self._houses):
            if not turns or turns[-1][0] != player:
                turns.append((player, []))
            turns[-1][1].append(house)
        texts = []
        for number, (player, houses) in enumerate(turns):
            letters = LETTERS.lower() if player else LETTERS
            turn = "-".join(map(str, houses)) if numbers else "".join(letters[house - 1] for house in houses)
            texts.append(turn if player else f"{number // 2 + 1}. {turn}")
        return " ".join(texts)

    def __eq__(self, other: object) -> bool:
        return isinstance(other, Game) and (self.start, self._houses) == (other.start, other._houses)

    def __str__(self) -> str:
        return f"{self.start} {self.record()}".strip()

    def __repr__(self) -> str:
        return f"Game({str(self.start)!r}, {self.houses})"

    def _repr_html_(self) -> str:
        return self.board.svg(f"{self.mover} sits below: {self.board}")


def check_move(board: Board, player: int, move: Written) -> None:
    """Fails with `IllegalMove` if a move can't be made on the board of a player, or is written as no move of this player there."""
    if not board.is_over and move.player not in (None, player):
        raise IllegalMove(f"{PLAYERS[player]} moves, and {move.word} is a move of {PLAYERS[1 - player]}")
    board._check(move.house, f"{PLAYERS[player]} can't move house {move.word}")
    seeds = board.houses[0][move.house - 1]
    if move.beside not in (None, move.house, seeds):
        raise IllegalMove(f"house {move.word[0]} has {seeds} seed{'s' * (seeds != 1)}, and its number is {move.house}")


def of_address(text: str) -> str:
    """Returns the record that the address of a page has after its `#` or `?`, in the place of the address."""

    def record(address: re.Match[str]) -> str:
        parts = urlsplit(address[0])
        found = unquote_plus(f"{parts.fragment} {parts.query}")
        form = POSITION.search(found)
        return found[form.start() :].split("&")[0] if form else found

    return ADDRESS.sub(record, text)


def split(text: str) -> tuple[str, str]:
    """Returns the position with which a record begins, or that of the usual board, and the moves after it."""
    text = of_address(text).strip()
    form = POSITION.match(text)
    if form:
        return form[0], text[form.end() :]
    words = text.split()
    # What looks like a position is one, and has its fault.
    if words and "/" in words[0]:
        count = 3 if words[2:3] == ["e"] else 2
        return " ".join(words[:count]), " ".join(words[count:])
    return str(USUAL), text


def written(text: str) -> Iterator[Written]:
    """Yields the moves of a record."""
    words = re.sub(r"\{[^}]*\}|,", " ", re.sub(r"(?<!\S)([0-9]+(?:\.{1,3}|…|\)))", r"\1 ", text)).split()
    player = None
    for word, following in zip(words, [*words[1:], ""]):
        number = NUMBER_OF_MOVE.fullmatch(word)
        if number and (number[1] or LETTERED.fullmatch(following)):
            player = 1 if number[1] in ("...", "…") else None
            continue
        yield from moves_of(word, player)
        player = None


def moves_of(word: str, player: Optional[int]) -> Iterator[Written]:
    """Yields the moves of a turn, which is written as one word. Fails with `IllegalMove` if a number before it is of the other player."""
    if player is not None and LETTERED.fullmatch(word) and word[0].islower() != player:
        raise IllegalMove(f"{word} is a move of {PLAYERS[1 - player]}, and `...` before it says {PLAYERS[player]}")
    if beside := re.fullmatch("([A-Fa-f])([0-9]+)", word):
        yield Written(word, number_of(beside[1]), int(beside[1].islower()), int(beside[2]))
    elif re.fullmatch("[A-Fa-f]+", word):
        for letter in word:
            yield Written(letter, number_of(letter), int(letter.islower()))
    elif re.fullmatch("[0-9]+(-[0-9]+)*", word):
        for number in word.split("-"):
            yield Written(number, int(number[:9]), player)
    else:
        yield Written(word, 0, None)


def number_of(letter: str) -> int:
    return LETTERS.index(letter.upper()) + 1


@dataclass(frozen=True)
class Record:
    """A game in a file: the number of its first line, what is said of it, as players and date, and its position and moves."""

    line: int
    tags: dict[str, str]
    text: str


def records(lines: Iterable[str]) -> Iterator[Record]:
    """Yields the games of a file: each is a line, or, below tags as `[South "Ada"]` or `Date: 2026-11-28`, all lines up to the next tag.
    The tag Position has where that game starts."""
    tags: dict[str, str] = {}
    moves: list[str] = []
    first = 0

    def made() -> Iterator[Record]:
        if tags or moves:
            rest = {name: value for name, value in tags.items() if name != "Position"}
            yield Record(first, rest, " ".join([tags.get("Position", ""), *moves]).strip())

    for number, line in enumerate(lines, 1):
        tag = TAG.fullmatch(line.strip())
        if tag and not ADDRESS.match(line.strip()):
            if moves or not tags:
                yield from made()
                tags, moves, first = {}, [], number
            tags[tag[1] or tag[3]] = tag[2] if tag[1] else tag[4]
        elif tags:
            moves += [word for word in line.split() if not RESULT.fullmatch(word)]
        elif line.strip():
            yield Record(number, {}, line.strip())
    yield from made()
