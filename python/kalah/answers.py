"""What `kalah` answers, and why there may be no answer."""

from __future__ import annotations

import re
from collections.abc import Iterable
from dataclasses import dataclass
from typing import TYPE_CHECKING, ClassVar, Optional

if TYPE_CHECKING:
    from .board import Board

NUMBER = "(?:0|-?[1-9][0-9]{0,2})"
SIDE = "[0-9]{1,2}(?:,[0-9]{1,2}){0,5}/[0-9]{1,3}"
OVER = re.compile(f"({NUMBER}) over")
BEST = re.compile(f"({NUMBER}) house ([1-6])")
VALUES = re.compile("".join(f"(?: {house}:({NUMBER}))?" for house in range(1, 7)))
MOVE = re.compile(f"([1-6]) ({SIDE} {SIDE}(?: e)?) (again|turn|over)")
# What is wrong with a line, by the word of its fault, and how many characters of the line an error shows.
MEANINGS = {
    "long": "has more than 80 bytes",
    "empty": "is empty",
    "shape": "is not of the form '1,2/3 4,5/6', or has a number above 99",
    "houses": "has sides of different numbers of houses, or of more than 6",
    "seeds": "has more than 31 seeds in houses",
}
FAULT = re.compile(f"fault ({'|'.join(MEANINGS)})")
MOST_SHOWN = 40


class KalahError(Exception):
    """Any error of this package, but for TypeError, ValueError and IndexError, which a wrong call gets."""


class Fault(KalahError, ValueError):
    """The line is not a position that `kalah` solves. `word` says why, and `line` is the line, if it is known:

        long      it has more than 80 bytes
        empty     it has no bytes
        shape     it is not of the form `1,2/3 4,5/6` or `1,2/3 4,5/6 e`, with numbers of up to 99
        houses    its sides have different numbers of houses, or more than 6
        seeds     its houses have more than 31 seeds together
    """

    def __init__(self, word: str, line: Optional[str] = None):
        super().__init__(word)
        self.word, self.line = word, line

    def __str__(self) -> str:
        line = self.line or ""
        shown = repr(line if len(line) <= MOST_SHOWN else f"{line[:MOST_SHOWN]}..") if line else "the line"
        return f"fault {self.word}: {shown} {MEANINGS[self.word]}"


class Gone(KalahError):
    """`kalah` is missing, too old, fails, ends, takes too long, or writes something other than an answer."""


class Late(Gone):
    """`kalah` takes more time than the question has."""


@dataclass(frozen=True)
class Over:
    """The game is over: the final margin, for the player who is seen first."""

    margin: int

    def _plus(self, lead: int) -> Over:
        """Returns the answer with this much more in the store of the player who is seen first."""
        return Over(self.margin + lead)

    @classmethod
    def _read(cls, text: str) -> Optional[Over]:
        form = OVER.fullmatch(text)
        return cls(int(form[1])) if form else None


@dataclass(frozen=True)
class Best:
    """The margin of best play for the player to move, and the lowest-numbered best house."""

    margin: int
    house: int

    _options: ClassVar[list[str]] = []

    def _plus(self, lead: int) -> Best:
        """As `Over._plus`."""
        return Best(self.margin + lead, self.house)

    @classmethod
    def _read(cls, text: str) -> Optional[Best]:
        form = BEST.fullmatch(text)
        return cls(int(form[1]), int(form[2])) if form else None


@dataclass(frozen=True)
class Values:
    """The margin that the move of each legal house gets in best play, for the player to move."""

    by_house: dict[int, int]

    _options: ClassVar[list[str]] = ["--values"]

    def _plus(self, lead: int) -> Values:
        """As `Over._plus`."""
        return Values({house: value + lead for house, value in self.by_house.items()})

    @property
    def margin(self) -> int:
        """The margin of best play."""
        return max(self.by_house.values())

    @property
    def house(self) -> int:
        """The lowest-numbered best house."""
        return max(self.by_house, key=lambda house: (self.by_house[house], -house))

    @classmethod
    def _read(cls, text: str) -> Optional[Values]:
        form = VALUES.fullmatch(" " + text)
        return cls({house: int(value) for house, value in enumerate(form.groups(), 1) if value}) if form else None


@dataclass(frozen=True)
class Move:
    """A move: its house, the position after it, and `again`, `turn` or `over`. The position is seen by who moves next, or, if the game is
    over, by who has moved."""

    house: int
    position: str
    word: str

    @property
    def board(self) -> Board:
        """The position as a `Board`."""
        from .board import Board

        return Board(self.position)


@dataclass(frozen=True)
class Steps:
    """The legal moves, houses ascending."""

    moves: list[Move]

    _options: ClassVar[list[str]] = ["--steps"]

    @classmethod
    def _read(cls, text: str) -> Optional[Steps]:
        moves = read_moves(text.split("; "))
        return cls(moves) if moves and all(one.house < next.house for one, next in zip(moves, moves[1:])) else None


def read_moves(texts: Iterable[str]) -> Optional[list[Move]]:
    """Returns the moves of these texts, or None if one is not a move."""
    moves = []
    for text in texts:
        form = MOVE.fullmatch(text)
        if not form:
            return None
        moves.append(Move(int(form[1]), form[2], form[3]))
    return moves


def read_fault(text: str) -> Optional[Fault]:
    form = FAULT.fullmatch(text)
    return Fault(form[1]) if form else None


def one_line(line: str) -> str:
    """Returns a line that may be asked: a line feed would begin another question, and no argument has a NUL. Fails with TypeError if it is
    no text, and with ValueError if it isn't one line."""
    if not isinstance(line, str):
        raise TypeError(f"a position is a line of text, not {type(line).__name__}")
    if re.search("[\n\0\ud800-\udfff]", line):
        raise ValueError("a position is one line of text")
    return line
