"""Picks puzzles among the positions of a file: those in which exactly one move wins, and others may be chosen. The hardest come first.

    python3 -m kalah puzzles [--depth N] [--again] [--greedy] FILE

Each line has the level, 1 to 3, the number of moves that a plain search must look ahead to find the winning move and to stay with it, by
how much the best other move falls short, the position, and what its moves are worth. A plain search takes the stores for the margin where
it stops. It looks at most N moves ahead, or 8: a position in which the last search is wrong is left out. The level adds that number and the
number of moves that lose: 1 up to a sum of 5, 2 up to 8, and 3 above.

What anybody tries first is no puzzle: the winning move must not be one after which the player moves again, but with --again; nor the one
that puts most seeds into the store at once, but with --greedy.

It needs `kalah`, as `help(kalah)` says. A line with a fault is named on standard error, and the status is then 1. On a terminal that
shows how many lines are done.
"""

from __future__ import annotations

from typing import NamedTuple, Optional

from ..answers import Over, Values
from ..client import Client
from ..rules import Position, after, ask, read, seen, seen_of_moves
from ..script import arguments, of_lines, whole

DEPTH = 8
# The greatest sums of the levels but for the last one.
LEVELS = [5, 8]


class Puzzle(NamedTuple):
    """A puzzle, in the order in which they are printed: its level, how far a search must look, and by how much the other moves fall
    short."""

    level: int
    far: int
    gap: int
    line: str
    values: dict[int, int]

    def __str__(self) -> str:
        worth = " ".join(f"{house}:{value}" for house, value in self.values.items())
        return f"level {self.level}, {self.far} move{'s' * (self.far != 1)} ahead, by {self.gap}: {self.line} {worth}"


def how_far(position: Position, values: dict[int, int], most: int) -> Optional[int]:
    """How many moves the search must look ahead until its best moves are among those that are best; None if that is more than `most`."""
    seen.cache_clear()
    far, best = 1, {house for house, value in values.items() if value == max(values.values())}
    for depth in range(1, most + 1):
        found = seen_of_moves(position, depth)
        if not {house for house, value in found.items() if value == max(found.values())} <= best:
            far = depth + 1
    return far if far <= most else None


def level_of(far: int, values: dict[int, int]) -> int:
    """Returns the level of a position whose best moves a search finds that looks so far."""
    total = far + sum(value < 0 for value in values.values())
    return 1 + sum(total > most for most in LEVELS)


def is_greedy(position: Position, winner: int, values: dict[int, int]) -> bool:
    """Whether the winning move is the one that puts most seeds into the store at once."""
    gains = {house: gain(position, house) for house in values}
    return all(gains[winner] > gains[house] for house in values if house != winner)


def gain(position: Position, house: int) -> int:
    reached, word = after(position, house)
    return (reached.other if word == "turn" else reached.own).store - position.own.store


def puzzle_of(line: str, client: Client[Values], most: int, with_again: bool, with_greedy: bool) -> Optional[Puzzle]:
    """Returns the puzzle of a position; None if it is none."""
    answer, position = ask(client, line), read(line)
    if isinstance(answer, Over):
        return None
    values = answer.by_house
    best, *others = sorted(values.values(), reverse=True)
    if not others or not best > 0 >= others[0]:
        return None
    if after(position, answer.house)[1] == "again" and not with_again or is_greedy(position, answer.house, values) and not with_greedy:
        return None
    far = how_far(position, values, most)
    return Puzzle(level_of(far, values), far, best - others[0], line, values) if far else None


def main() -> bool:
    parser = arguments(__doc__)
    parser.add_argument("--depth", type=whole(1, 40, "a number from 1 to 40"), default=DEPTH, metavar="N", help="how far it looks (8)")
    parser.add_argument("--again", action="store_true", help="with winning moves after which the player moves again")
    parser.add_argument("--greedy", action="store_true", help="with winning moves that take most at once")
    parser.add_argument("file", metavar="FILE", help="a file of positions")
    asked = parser.parse_args()
    with Client(Values) as client:
        puzzles, has_failed = of_lines(asked.file, lambda line: puzzle_of(line, client, asked.depth, asked.again, asked.greedy))
    for puzzle in sorted(puzzles, key=lambda one: (-one.level, -one.far, one.gap, one.line)):
        print(puzzle)
    return has_failed
