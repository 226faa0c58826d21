"""Makes positions of M houses a side with S seeds in houses, in which both players have seeds. S is a number, or a range as 8-20.

    python3 -m kalah positions M S                                    all of them, with empty stores
    python3 -m kalah positions M S --sample N [--seed K]              N of them, drawn at random
    python3 -m kalah positions M S --sample N --games [random|good]   N of them, out of games, with their stores

Of a range each number of seeds is equally likely to be drawn, and then each position. None is drawn twice. With the same K the same ones
are drawn. With --games each comes out of a game of its own, from the start board of 4 seeds a house (more if S needs them) or from
--start LINE: in a good game three moves of four are those that a search of 2 moves finds best, and the rest is random, as all are in a
random game.

With --balanced B only positions are taken whose margin of best play is at most B for either player. That needs `kalah`, as
`help(kalah)` says; all else needs none.
"""

from __future__ import annotations

import argparse
import random
import re
from argparse import ArgumentTypeError
from collections.abc import Callable, Iterable, Iterator, Sequence
from functools import lru_cache
from itertools import islice
from math import comb
from typing import Optional, Union, overload

from .. import rules
from ..answers import Best
from ..client import Client
from ..script import arguments, position, whole

# How often a good game has the move that the search finds best, and how far that looks.
GOOD, AHEAD = 3 / 4, 2
# How many positions in a row may be drawn in vain.
PATIENCE = 20_000


def ways(houses: int, seeds: int) -> int:
    """How many ways there are to put the seeds into the houses."""
    return comb(seeds + houses - 1, houses - 1)


@lru_cache(1 << 16)
def side(houses: int, seeds: int, rank: int) -> str:
    """The way of this rank, counted from 0, as a side with an empty store."""
    row = []
    while houses > 1:
        houses, first = houses - 1, 0
        while rank >= ways(houses, seeds - first):
            rank -= ways(houses, seeds - first)
            first += 1
        row.append(first)
        seeds -= first
    return ",".join(map(str, [*row, seeds])) + "/0"


class Positions(Sequence[str]):
    """All positions of a number of houses and of seeds, by their ranks: they are sorted by how many seeds the player to move has."""

    def __init__(self, houses: int, seeds: int):
        self.houses = houses
        self.splits = [(own, seeds - own, ways(houses, own) * ways(houses, seeds - own)) for own in range(1, seeds)]
        self.ranks = range(sum(count for _, _, count in self.splits))

    def __len__(self) -> int:
        return len(self.ranks)

    @overload
    def __getitem__(self, rank: int) -> str: ...
    @overload
    def __getitem__(self, rank: slice) -> list[str]: ...
    def __getitem__(self, rank: Union[int, slice]) -> Union[str, list[str]]:
        ranks = self.ranks[rank]
        return self.at(ranks) if isinstance(ranks, int) else [self.at(one) for one in ranks]

    def at(self, rank: int) -> str:
        """Returns the position of a rank, counted from 0, which there is."""
        splits = iter(self.splits)
        own, other, count = next(splits)
        while rank >= count:
            rank -= count
            own, other, count = next(splits)
        own_rank, other_rank = divmod(rank, ways(self.houses, other))
        return f"{side(self.houses, own, own_rank)} {side(self.houses, other, other_rank)}"


def drawn(chance: random.Random, houses: int, sizes: Sequence[int]) -> Iterator[str]:
    """Yields positions of these numbers of seeds, without end."""
    populations = [Positions(houses, seeds) for seeds in sizes]
    while True:
        yield chance.choice(chance.choice(populations))


def of_games(chance: random.Random, start: rules.Position, sizes: Sequence[int], often: float) -> Iterator[Optional[str]]:
    """Yields a position with one of these numbers of seeds for each game that reaches it, and None for each other game, without end.
    `often` is how often a move is what a search finds best."""
    while True:
        seeds, position, word = chance.choice(sizes), start, ""
        while word != "over" and rules.seeds_in(position) > seeds:
            found = rules.seen_of_moves(position, AHEAD) if chance.random() < often else None
            position, word = rules.after(position, rules.best_of(found) if found else chance.choice(rules.legal(position)))
        yield rules.text(position) if word != "over" and rules.seeds_in(position) == seeds else None


def different(lines: Iterable[Optional[str]], is_wanted: Callable[[str], bool]) -> Iterator[str]:
    """Yields the wanted ones of these lines, each once, until too many are drawn in vain."""
    known, vain = set[Optional[str]](), 0
    for line in lines:
        if line is None or line in known or not is_wanted(line):
            vain += 1
            if vain == PATIENCE:
                return
        else:
            vain = 0
            yield line
        known.add(line)


def sizes_in(text: str) -> Sequence[int]:
    """Returns the numbers of seeds that a number or a range names."""
    form = re.fullmatch("([0-9]{1,2})(?:-([0-9]{1,2}))?", text)
    sizes: Sequence[int] = range(int(form[1]), int(form[2] or form[1]) + 1) if form else []
    if not sizes or not 2 <= sizes[0] <= sizes[-1] <= rules.MOST_SEEDS:
        raise ArgumentTypeError(f"{text!r} is not a number from 2 to {rules.MOST_SEEDS}, or a range of these as 8-20")
    return sizes


def start_of(line: Optional[str], houses: int, sizes: Sequence[int]) -> rules.Position:
    """Returns the position in which games start."""
    filled = rules.Side((max(4, -(-sizes[-1] // (2 * houses))),) * houses, 0)
    start = rules.read(position(line)) if line else rules.Position(filled, filled, False)
    if rules.is_over(start) or len(start.own.houses) != houses or rules.seeds_in(start) < sizes[-1]:
        raise ValueError(f"no game starts there with {houses} houses a side and {sizes[-1]} seeds or more")
    return start


def sample(asked: argparse.Namespace, is_wanted: Callable[[str], bool]) -> list[str]:
    """Returns the positions that are drawn."""
    chance, count = random.Random(asked.seed), sum(len(Positions(asked.houses, seeds)) for seeds in asked.seeds)
    if asked.games:
        start, often = start_of(asked.start, asked.houses, asked.seeds), GOOD if asked.games == "good" else 0
        lines: Iterator[Optional[str]] = of_games(chance, start, asked.seeds, often)
    elif asked.sample > count:
        raise ValueError(f"--sample {asked.sample}: there are only {count} positions")
    else:
        lines = drawn(chance, asked.houses, asked.seeds)
    found = [*islice(different(lines, is_wanted), asked.sample)]
    if len(found) < asked.sample:
        raise ValueError(f"--sample {asked.sample}: only {len(found)} positions are found")
    return found


def main() -> None:
    parser = arguments(__doc__)
    parser.add_argument("houses", type=int, choices=range(1, 7), metavar="M", help="1 to 6")
    parser.add_argument("seeds", type=sizes_in, metavar="S", help="2 to 31, or a range of these")
    parser.add_argument("--sample", type=whole(0, 10**8, "a number from 0 on"), metavar="N", help="how many are drawn")
    parser.add_argument("--seed", type=int, metavar="K", help="draws the same positions each time")
    parser.add_argument("--games", nargs="?", const="good", choices=["random", "good"], help="takes them out of games")
    parser.add_argument("--start", metavar="LINE", help="where games start")
    parser.add_argument("--balanced", type=whole(0, 10**8, "a number from 0 on"), metavar="B", help="takes those of a margin of at most B")
    asked = parser.parse_args()
    if (asked.games and asked.sample is None) or (asked.start and not asked.games):
        parser.error("--start needs --games, and --games needs --sample")
    with Client(Best) as client:
        is_wanted = lambda line: asked.balanced is None or abs(rules.ask(client, line).margin) <= asked.balanced
        every = (line for seeds in asked.seeds for line in Positions(asked.houses, seeds))
        for line in filter(is_wanted, every) if asked.sample is None else sample(asked, is_wanted):
            print(line)
