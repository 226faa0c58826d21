"""The rules of Kalah for boards of any number of seeds, the values of moves as soon as `kalah` solves them, and before that a plain search.

    steps("4,4,4,4,4,4/0 4,4,4,4,4,4/0")    # Steps(moves=[Move(house=1, ..), ..])
    with Client(Values) as client:
        ask(client, "1,1/200 1,1/0")        # Values(by_house={1: 198, 2: 202})
        ask(client, "17,0/0 0,17/0")        # raises TooMany("34 seeds in houses: no values above 31 seeds")

There may be any number of seeds, and, in the course of a game, numbers of three digits; in all else a line is one that `kalah` reads.
Nothing here is proved; the answers of `kalah` are.
"""

from __future__ import annotations

import os
import re
from dataclasses import replace
from functools import lru_cache
from typing import NamedTuple, Optional, Union

from .answers import Fault, Move, Over, Steps, one_line
from .client import Client, Kind

MOST_HOUSES, MOST_BYTES = 6, 80
# How many seeds in houses `kalah` solves, and the largest number in a line that it reads.
MOST_SEEDS, MOST_IN_A_HOUSE = 31, 99
# How many moves a search looks ahead where there are more seeds, and how many margins it remembers.
LOOKED_AHEAD, MOST_MARGINS = 4, 1 << 16

NUMBER = "(?:0|[1-9][0-9]{0,2})"
SIDE = f"({NUMBER}(?:,{NUMBER})*)/({NUMBER})"
FORM = re.compile(f"{SIDE} {SIDE}( e)?")


class Side(NamedTuple):
    houses: tuple[int, ...]
    store: int


class Position(NamedTuple):
    """A position as the player to move sees it. The empty-capture rule holds if `takes_empty`."""

    own: Side
    other: Side
    takes_empty: bool


class TooMany(Fault):
    """There are more seeds in houses than `kalah` solves."""

    def __init__(self, seeds: int, line: Optional[str] = None):
        super().__init__("seeds", line)
        self.args, self.seeds = (seeds,), seeds

    def __str__(self) -> str:
        return f"{self.seeds} seeds in houses: no values above {MOST_SEEDS} seeds"


def read(line: str, largest: int = 999) -> Position:
    """Returns the position that a line writes, with no number above the largest. Fails with `Fault`, as `kalah` does but for the number of
    seeds, and with TypeError or ValueError if it isn't one line of text."""
    start = one_line(line)[: 4 * MOST_BYTES].removesuffix("\r")
    form = FORM.fullmatch(start)
    if len(os.fsencode(start)) > MOST_BYTES:
        raise Fault("long", line)
    if not start:
        raise Fault("empty", line)
    if not form or any(int(number) > largest for number in re.findall("[0-9]+", start)):
        raise Fault("shape", line)
    own, other = (Side(tuple(map(int, form[houses].split(","))), int(form[houses + 1])) for houses in (1, 3))
    if len(own.houses) != len(other.houses) or len(own.houses) > MOST_HOUSES:
        raise Fault("houses", line)
    return Position(own, other, form[5] is not None)


def start_line(line: str) -> str:
    """Returns a line in which a game may start: one whose numbers have at most two digits. Fails as `read` does."""
    return text(read(line, MOST_IN_A_HOUSE))


def text(position: Position) -> str:
    """Returns the line that writes a position."""
    own, other = (",".join(map(str, side.houses)) + f"/{side.store}" for side in position[:2])
    return f"{own} {other}" + " e" * position.takes_empty


def seeds_in(position: Position) -> int:
    """Returns the number of seeds in houses."""
    return sum(position.own.houses) + sum(position.other.houses)


def is_over(position: Position) -> bool:
    return not any(position.own.houses) or not any(position.other.houses)


def final_margin(position: Position) -> int:
    """Returns the margin if all seeds in houses go to the stores of their owners."""
    own, other = (sum(side.houses) + side.store for side in position[:2])
    return own - other


def legal(position: Position) -> list[int]:
    """Returns the houses that may be moved, ascending."""
    return [] if is_over(position) else [house for house, seeds in enumerate(position.own.houses, 1) if seeds]


def after(position: Position, house: int) -> tuple[Position, str]:
    """Returns the position after a move, and `again`, `turn` or `over`. If the game is over, the player who moved is the first."""
    own, other, takes_empty = position
    m = len(own.houses)
    # The cells of a lap, counted from 0: the own houses, the own store (cell m), and the houses of the other player.
    cells, at = [*own.houses, own.store, *other.houses], house - 1
    seeds, cells[at] = cells[at], 0
    for _ in range(seeds):
        at = (at + 1) % (2 * m + 1)
        cells[at] += 1
    across = 2 * m - at
    if at < m and cells[at] == 1 and (cells[across] or takes_empty):
        cells[m] += cells[at] + cells[across]
        cells[at] = cells[across] = 0
    own, other = Side(tuple(cells[:m]), cells[m]), Side(tuple(cells[m + 1 :]), other.store)
    if not any(own.houses) or not any(other.houses):
        own, other = (Side((0,) * m, sum(side.houses) + side.store) for side in (own, other))
        return Position(own, other, takes_empty), "over"
    return (Position(own, other, takes_empty), "again") if at == m else (Position(other, own, takes_empty), "turn")


def steps(line: str) -> Union[Steps, Over]:
    """Returns what a `Client` of `Steps` answers, for any number of seeds. Fails as `read` does."""
    position = read(line)
    reached = ((house, *after(position, house)) for house in legal(position))
    moves = [Move(house, text(to), word) for house, to, word in reached]
    return Steps(moves) if moves else Over(final_margin(position))


def with_stores(position: Position, own: int, other: int) -> Position:
    return Position(Side(position.own.houses, own), Side(position.other.houses, other), position.takes_empty)


def end_of(position: Position) -> Optional[Over]:
    """Returns the answer to a game that is over, for which nobody asks `kalah`; None if it goes on. Fails with `TooMany` if it goes on with
    too many seeds."""
    if is_over(position):
        return Over(final_margin(position))
    if seeds_in(position) > MOST_SEEDS:
        raise TooMany(seeds_in(position), text(position))
    return None


def ask(client: Client[Kind], line: str) -> Union[Kind, Over]:
    """Returns the answer of a client, which is asked with empty stores, as a store may have three digits: what was in them is added. Fails
    as `read` and the client do, and with `TooMany` if there are too many seeds."""
    position = read(line)
    if over := end_of(position):
        return over
    answer, lead = client.ask(text(with_stores(position, 0, 0))), position.own.store - position.other.store
    if isinstance(answer, Steps):
        return Steps([filled(move, position, move.word == "turn") for move in answer.moves])
    return answer._plus(lead)


def filled(move: Move, start: Position, is_other: bool) -> Move:
    """Returns a move that was made with empty stores, with those of this start. `is_other` says that the other player is first after it."""
    reached, stores = read(move.position), (start.own.store, start.other.store)
    own, other = stores[::-1] if is_other else stores
    return replace(move, position=text(with_stores(reached, reached.own.store + own, reached.other.store + other)))


@lru_cache(MOST_MARGINS)
def seen(position: Position, depth: int) -> int:
    """Returns the margin as it is seen by a plain search that looks this many moves ahead: where it stops, it takes that of the stores."""
    if is_over(position):
        return final_margin(position)
    return max(seen_of_moves(position, depth).values()) if depth else position.own.store - position.other.store


def seen_of_moves(position: Position, depth: int) -> dict[int, int]:
    """Returns what the move of each house seems to be worth to that search."""
    found = {}
    for house in legal(position):
        reached, word = after(position, house)
        margin = seen(reached, depth - 1)
        found[house] = -margin if word == "turn" else margin
    return found


def best_of(found: dict[int, int]) -> int:
    """Returns the lowest-numbered house of the greatest value."""
    return max(found, key=lambda house: (found[house], -house))


def guess(line: str) -> int:
    """Returns the house that seems best to a search of `LOOKED_AHEAD` moves, the lowest-numbered one of those."""
    return best_of(seen_of_moves(read(line), LOOKED_AHEAD))


def guessed(why: object) -> str:
    """Returns what is said of a guess, and why there are no values."""
    return f"{why}; it looks {LOOKED_AHEAD} moves ahead"
