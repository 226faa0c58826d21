"""Grades the moves of an engine by what `kalah` finds each move to be worth.

    python3 -m kalah grade --engine 'COMMAND' [--timeout S] [--csv CSV] FILE
    python3 -m kalah grade --houses HOUSES [--csv CSV] FILE

FILE has a position in each line. The command is started once, gets these lines, and answers each with a line that has a house, which it
flushes; or HOUSES has these lines. Printed are, by the number of seeds in houses: the share of best moves, the share that random moves
would have on average, and the margin that the moves lose on average, with an error that covers 95 %. They count the positions with a
choice: those in which some move is not a best one. The ten worst moves follow. CSV gets a row for each position, with the engine's house
and the best one.

An answer that is illegal, missing or late is named on standard error. It counts as no best move, and the run goes on. So it does after a
line with a fault, or of more than 31 seeds. In both cases the status is 1. A terminal shows how many lines are done. The engine and all
that it started end with this tool. It needs `kalah`, as `help(kalah)` says.
"""

from __future__ import annotations

import csv
from collections.abc import Iterable, Iterator
from contextlib import ExitStack
from itertools import groupby
from math import sqrt
from statistics import mean, stdev
from typing import NamedTuple, Optional, TextIO, Union

from .. import rules
from ..answers import Over, Values
from ..board import Board
from ..client import Client
from ..drawing import signed
from ..player import NoMove, Player, player, seconds
from ..script import arguments, lines_of, of_lines

WORST = 10
COLUMNS = ["line", "position", "seeds", "moves", "house", "value", "best", "margin", "lost", "chance"]


class Graded(NamedTuple):
    """What is known of a position: its line, by number and text, the seeds in houses, the values of its moves, and the house that was
    named."""

    number: int
    line: str
    seeds: int
    values: dict[int, int]
    house: Optional[int]

    @property
    def margin(self) -> int:
        return max(self.values.values())

    @property
    def best(self) -> int:
        return rules.best_of(self.values)

    @property
    def lost(self) -> Optional[int]:
        """The margin that the move loses; None if there was none."""
        return None if self.house is None else self.margin - self.values[self.house]

    @property
    def chance(self) -> float:
        """The share of best moves among all moves."""
        return [*self.values.values()].count(self.margin) / len(self.values)


class Named:
    """Lines that name houses, in the place of an engine: the next one is for the line of this number."""

    def __init__(self, words: list[str]):
        self.words, self.number = words, 0

    def close(self) -> None:
        pass

    def house(self, line: str) -> int:
        word = self.words[self.number - 1].strip() if self.number <= len(self.words) else ""
        possible = {str(house): house for house in rules.legal(rules.read(line))}
        if word not in possible:
            raise NoMove(f"{word[:40]!r} is not one of {' '.join(possible)}" if word else "no house is named")
        return possible[word]


class Grader:
    """Grades the houses that are named for the positions of a file, line by line."""

    def __init__(self, client: Client[Values], named: Union[Player, Named]):
        self.client, self.named, self.number, self.over = client, named, 0, 0
        self.graded: list[Graded] = []

    def grade(self, line: str) -> None:
        """Notes what the answer to the next line is worth. Fails with ValueError if there is none."""
        self.number += 1
        if isinstance(self.named, Named):
            self.named.number = self.number
        answer, house = rules.ask(self.client, line), None
        if isinstance(answer, Over):
            self.over += 1
            return
        try:
            house = self.named.house(line)
        finally:
            self.graded.append(Graded(self.number, line, rules.seeds_in(rules.read(line)), answer.by_house, house))


def error(numbers: list[float]) -> Optional[float]:
    """Returns how far from their mean the true one is in 5 % of cases; None of fewer than two numbers."""
    return 1.96 * stdev(numbers) / sqrt(len(numbers)) if len(numbers) > 1 else None


def row(graded: list[Graded]) -> str:
    """What is said of positions with a choice: how many there are, the shares of best moves, and the mean of what is lost."""
    losses = [one.lost for one in graded if one.lost is not None]
    best, wide = losses.count(0), error([*map(float, losses)])
    lost = (f"{mean(losses):.2f}" if losses else "-") + (f" ± {wide:.2f}" if wide is not None else "")
    share, chance = 100 * best / len(graded), 100 * mean(one.chance for one in graded)
    return f"{len(graded):9} {best:5} {share:7.1f} % {chance:6.1f} % {lost:>13} {max(losses, default='-'):>6}"


def summary(name: str, graded: list[Graded], over: int) -> Iterator[str]:
    """Yields the lines that are printed."""
    choices, single = [one for one in graded if one.chance < 1], sum(len(one.values) == 1 for one in graded)
    equal = len(graded) - len(choices) - single
    yield f"{name}: {len(choices)} positions with a choice, {equal} in which all moves are best, {single} with one move, {over} over"
    if unanswered := sum(one.house is None for one in graded):
        yield f"without a legal answer in time: {unanswered}"
    if choices:
        yield "seeds  positions  best    share   chance     mean loss  worst"
        for seeds, some in groupby(sorted(choices, key=lambda one: one.seeds), key=lambda one: one.seeds):
            yield f"{seeds:5}  {row([*some])}"
        yield f"  all  {row(choices)}"
    worst = sorted((-one.lost, one.number, one) for one in graded if one.lost)[:WORST]
    for _, _, one in worst:
        assert one.house
        yield f"\n{name}:{one.number} {one.line}\n{Board(one.line).picture()}\n" + (
            f"house {one.house} is worth {signed(one.values[one.house])}, which loses {one.lost}; "
            f"house {one.best} is worth {signed(one.margin)}"
        )


def write(file: TextIO, graded: Iterable[Graded]) -> None:
    """Writes a row for each position that isn't over."""
    table = csv.writer(file)
    table.writerow(COLUMNS)
    for one in graded:
        value = None if one.house is None else one.values[one.house]
        known = [one.number, one.line, one.seeds, len(one.values)]
        table.writerow([*known, one.house, value, one.best, one.margin, one.lost, f"{one.chance:.3f}"])


def main() -> bool:
    parser = arguments(__doc__)
    answers = parser.add_mutually_exclusive_group(required=True)
    answers.add_argument("--engine", metavar="COMMAND", help="answers each position with a line")
    answers.add_argument("--houses", metavar="HOUSES", help="has a line for each position")
    parser.add_argument("--timeout", type=seconds, default=10, metavar="S", help="the seconds that an answer may take (10)")
    parser.add_argument("--csv", metavar="CSV", help="gets a row for each position")
    parser.add_argument("file", metavar="FILE", help="a file of positions")
    asked = parser.parse_args()
    named: Union[Player, Named] = Named(lines_of(asked.houses)) if asked.houses else player(asked.engine, asked.timeout)
    with ExitStack() as stack:
        table = stack.enter_context(open(asked.csv, "w", newline="")) if asked.csv else None
        grader = Grader(stack.enter_context(Client(Values)), named)
        stack.callback(named.close)
        _, has_failed = of_lines(asked.file, grader.grade)
        if table:
            write(table, grader.graded)
    if isinstance(named, Named) and len(named.words) > grader.number:
        raise ValueError(f"{asked.houses} has {len(named.words)} lines for {grader.number} positions")
    print(*summary(asked.file, grader.graded, grader.over), sep="\n")
    return has_failed
