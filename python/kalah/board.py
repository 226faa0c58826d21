"""Boards: positions of Kalah that are looked at, played on and drawn, by the rules alone."""

from __future__ import annotations

from collections.abc import Iterable, Mapping
from dataclasses import dataclass, field, replace
from typing import Optional, Union

from . import drawing, rules
from .answers import KalahError, Over, Values

RULES = ["classic", "empty-capture"]


class IllegalMove(KalahError, ValueError):
    """A move that can't be made, and why."""


@dataclass(frozen=True)
class Board:
    """A position of Kalah, made of its line. Boards of the same line are equal. The player to move sees it: in each pair that player's part
    comes first, and houses count from 1. There may be any number of seeds; numbers have at most three digits.

    Fails with `Fault` if the line is not a position, with TypeError if it is no text, and with ValueError if it is more than one line."""

    line: str
    # What each move is worth, drawn below its house.
    values: Optional[Mapping[int, int]] = field(default=None, compare=False, repr=False)
    _position: rules.Position = field(init=False, compare=False, repr=False)

    def __post_init__(self) -> None:
        position = rules.read(self.line)
        object.__setattr__(self, "line", rules.text(position))
        object.__setattr__(self, "_position", position)

    @classmethod
    def start(cls, houses: int = 6, seeds: int = 4, rule: str = "classic") -> Board:
        """Returns the board with this number of houses a side, and of seeds in each. The rule is `classic` or `empty-capture`."""
        if houses not in range(1, rules.MOST_HOUSES + 1):
            raise ValueError(f"a side has 1 to {rules.MOST_HOUSES} houses, not {houses!r}")
        if seeds not in range(rules.MOST_IN_A_HOUSE + 1):
            raise ValueError(f"a start has 0 to {rules.MOST_IN_A_HOUSE} seeds in each house, not {seeds!r}")
        return cls.of((seeds,) * houses, (seeds,) * houses, rule=rule)

    @classmethod
    def of(cls, own: Iterable[int], other: Iterable[int], own_store: int = 0, other_store: int = 0, rule: str = "classic") -> Board:
        """Returns the board with these seeds in the houses of the player to move, in those of the other player, and in their stores. The
        same board is `Board.of(*board.houses, *board.stores, board.rule)`."""
        if rule not in RULES:
            raise ValueError(f"the rule is 'classic' or 'empty-capture', not {rule!r}")
        sides = rules.Side(tuple(own), own_store), rules.Side(tuple(other), other_store)
        return cls(rules.text(rules.Position(*sides, rule != RULES[0])))

    @property
    def houses(self) -> tuple[tuple[int, ...], tuple[int, ...]]:
        """The seeds in the houses of the player to move, and in those of the other player."""
        return self._position.own.houses, self._position.other.houses

    @property
    def stores(self) -> tuple[int, int]:
        """The seeds in the store of the player to move, and in that of the other player."""
        return self._position.own.store, self._position.other.store

    @property
    def seeds(self) -> int:
        """The number of seeds in houses. `kalah` solves up to 31."""
        return rules.seeds_in(self._position)

    @property
    def rule(self) -> str:
        """`classic`, or `empty-capture`."""
        return RULES[self._position.takes_empty]

    @property
    def legal(self) -> list[int]:
        """The houses that may be moved, ascending."""
        return rules.legal(self._position)

    @property
    def is_over(self) -> bool:
        """Whether a player's houses are all empty."""
        return rules.is_over(self._position)

    @property
    def margin(self) -> Optional[int]:
        """The final margin, for the player who is seen first, if the game is over; otherwise None."""
        return rules.final_margin(self._position) if self.is_over else None

    def play(self, house: int) -> tuple[Board, bool]:
        """Returns the board after the move of a house, and whether the mover moves again. If the game is over then, the board is seen by
        the mover, as `kalah moves` prints it. Fails with `IllegalMove`, a ValueError, if the house can't be moved."""
        reached, word = self.after(house)
        return reached, word == "again"

    def after(self, house: int) -> tuple[Board, str]:
        """As `play`, with `again`, `turn` or `over` in place of whether the mover moves again."""
        self._check(house, f"house {house!r} can't be moved")
        position, word = rules.after(self._position, house)
        return Board(rules.text(position)), word

    def _check(self, house: int, said: str) -> None:
        """Fails with what is said if a house can't be moved, and with why it can't."""
        if house in self.legal:
            return
        count = len(self._position.own.houses)
        why = "the game is over" if self.is_over else "it is empty" if house in range(1, count + 1) else f"houses are 1 to {count}"
        raise IllegalMove(f"{said}: {why}")

    def with_values(self, values: Union[Values, Over, Mapping[int, int], None]) -> Board:
        """Returns this board, on which each move's value is drawn below its house. The values are those of `Solver.values`, or by house."""
        if not (values is None or isinstance(values, (Values, Over, Mapping))):
            raise TypeError(f"values are what `Solver.values` returns, or numbers by house, not {values!r}")
        return replace(self, values=values.by_house if isinstance(values, Values) else None if isinstance(values, Over) else values)

    def svg(self, title: Optional[str] = None) -> str:
        """Returns the board drawn in SVG, with the player to move below."""
        return drawing.svg(*self._position[:2], title=title or f"Kalah, the player below moves: {self}", values=self.values)

    def picture(self) -> str:
        """Returns the board drawn in text, with the player to move below, as `kalah show --plain` draws it."""
        return drawing.picture(*self._position[:2])

    def __str__(self) -> str:
        return self.line

    def __repr__(self) -> str:
        return f"Board({self.line!r})"

    def _repr_html_(self) -> str:
        return self.svg()
