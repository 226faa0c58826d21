"""Lets two players play against each other, from each position twice: each begins once.

    python3 -m kalah match A B --positions FILE [--games N] [--concurrency N] [--sprt E0 E1] [--timeout S] [--record RECORD]

A and B are commands of engines, which are started once, get a position a line and answer with a line that has a house; or `kalah`, which
moves a best house, and looks a few moves ahead where more than 31 seeds are in houses. Printed are A's score, its wins, draws and losses
(W-D-L), and the margin by which it wins on average, each with an error over pairs of games that covers 95 %. RECORD gets a line after each
game, which `review --games` reads: of the two games of a position first the one that A begins.

With --games N there are N games; if the file has fewer positions, they begin anew. With --sprt E0 E1 the match stops as soon as it is known
whether A is at most E0 or at least E1 Elo points better, each wrongly in 5 % of cases. Its test is the sequential probability ratio test
over pairs of games: at a log-likelihood ratio of -2.94 A is no more than E0 better, at 2.94 it is at least E1 better.

A player who names no house that can be moved, or takes more than S seconds, loses that game, which counts for no margin. Standard error
names it, and the status is 1, as for a position that can't be played. A terminal shows how many games are done. Engines and all that they
started end with this tool. It needs `kalah`, as `help(kalah)` says, if a player is `kalah`.
"""

from __future__ import annotations

import sys
import threading
from collections import Counter, deque
from collections.abc import Iterator
from concurrent.futures import Future, ThreadPoolExecutor
from contextlib import ExitStack
from math import log
from statistics import mean
from typing import NamedTuple, Optional, TextIO

from .. import rules
from ..player import Kalah, NoMove, Player, player, seconds
from ..script import arguments, of_lines, say, whole
from .grade import error

# The log-likelihood ratio at which the test of --sprt is decided, if each error has 5 %.
DECIDED = log(0.95 / 0.05)


class Played(NamedTuple):
    """A game: the houses that were moved, the margin of the player who began, and who lost it by no answer, and why. The margin or the
    loser is None."""

    houses: list[int]
    margin: Optional[int]
    loser: Optional[int]
    why: str = ""


def played_game(players: list[Player], line: str, stopped: threading.Event) -> Played:
    """Returns the game of two players from a position, as far as it goes until it is stopped."""
    position, word, mover, houses = rules.read(line), "", 0, list[int]()
    while word != "over" and not stopped.is_set():
        try:
            houses.append(players[mover].house(rules.text(position)))
        except NoMove as why:
            return Played(houses, None, mover, str(why))
        position, word = rules.after(position, houses[-1])
        mover ^= word == "turn"
    margin = rules.final_margin(position)
    return Played(houses, -margin if mover else margin, None)


class Players:
    """The two players, anew for each thread."""

    def __init__(self, commands: list[str], timeout: float):
        self.commands, self.timeout, self.own, self.all = commands, timeout, threading.local(), list[Player]()
        self.get()

    def get(self) -> list[Player]:
        if not hasattr(self.own, "players"):
            self.own.players = [player(command, self.timeout) for command in self.commands]
            self.all += self.own.players
        players: list[Player] = self.own.players
        return players

    def close(self) -> None:
        for one in self.all:
            one.close()

    def guesses(self) -> int:
        return sum(one.guesses for one in self.all if isinstance(one, Kalah))


class Match:
    """What is known of the games so far. Game 2 i is the one of position i that A begins, and game 2 i + 1 the one that B begins."""

    def __init__(self, file: str, positions: list[tuple[int, str]], record: Optional[TextIO]):
        self.file, self.positions, self.record, self.has_failed = file, positions, record, False
        # Of each game A's score, 0, 0.5 or 1, and A's margin, if there is one.
        self.scores: list[float] = []
        self.margins: list[Optional[int]] = []

    def position(self, game: int) -> tuple[int, str]:
        return self.positions[game // 2 % len(self.positions)]

    def count(self, played: Played) -> None:
        """Counts the next game."""
        beginner, (number, line) = len(self.scores) % 2, self.position(len(self.scores))
        if self.record:
            print(line, *played.houses, file=self.record, flush=True)
        margin = -played.margin if played.margin and beginner else played.margin
        if played.loser is not None:
            loser = played.loser ^ beginner
            self.has_failed = True
            say(f"{self.file}:{number}: {'AB'[beginner]} begins, and {'AB'[loser]} loses: {played.why}")
            self.scores.append(float(loser))
        else:
            assert margin is not None
            self.scores.append((1 + (margin > 0) - (margin < 0)) / 2)
        self.margins.append(margin)

    def pairs(self) -> list[float]:
        """Returns A's score in each pair of games."""
        return [mean(pair) for pair in zip(self.scores[::2], self.scores[1::2])]

    def summary(self) -> Iterator[str]:
        """Yields the lines that are printed."""
        pairs, both = self.pairs(), zip(self.margins[::2], self.margins[1::2])
        margins = [(one + other) / 2 for one, other in both if one is not None and other is not None]
        score = f"A scores {100 * mean(self.scores):.1f} %{plus_minus(100, pairs)} ({counts(self.scores)})"
        margin = f", margin {mean(margins):+.1f}{plus_minus(1, margins)}".replace("+0.0", "0.0") if margins else ""
        yield f"{score}{margin}, over {len(pairs)} pair{'s' * (len(pairs) != 1)} of games"
        yield f"A begins: {counts(self.scores[::2])}"
        yield f"B begins: {counts(self.scores[1::2])}"


def plus_minus(unit: float, numbers: list[float]) -> str:
    wide = error(numbers)
    return "" if wide is None else f" ± {unit * wide:.1f}"


def counts(scores: list[float]) -> str:
    return f"{scores.count(1)}-{scores.count(0.5)}-{scores.count(0)}"


def ratio(pairs: list[float], elo: list[float]) -> float:
    """Returns the log-likelihood ratio of the second of two differences in Elo to the first, by the normal approximation. Half a pair of
    each score is added, so that a few equal pairs decide nothing."""
    first, second = (1 / (1 + 10 ** (-one / 400)) for one in elo)
    seen = Counter(pairs)
    weights = {score / 4: seen[score / 4] + 0.5 for score in range(5)}
    total = sum(weights.values())
    middle = sum(score * weight for score, weight in weights.items()) / total
    variance = sum((score - middle) ** 2 * weight for score, weight in weights.items()) / total
    return total * (second - first) * (2 * middle - first - second) / (2 * variance)


def tested(pairs: list[float], elo: list[float]) -> str:
    """Returns what the test of --sprt finds."""
    found = ratio(pairs, elo)
    said = f"at most {elo[0]:g} better" if found <= -DECIDED else f"at least {elo[1]:g} better" if found >= DECIDED else "not decided"
    return f"SPRT: llr {found:.2f}, lbound -{DECIDED:.2f}, ubound {DECIDED:.2f}: " + (f"A is {said}" if said[0] == "a" else said)


def is_decided(pairs: list[float], elo: Optional[list[float]]) -> bool:
    return elo is not None and abs(ratio(pairs, elo)) >= DECIDED


def playable(line: str) -> str:
    if rules.is_over(rules.read(line)):
        raise ValueError("the game is over")
    return line


def run_games(match: Match, players: Players, games: int, concurrency: int, elo: Optional[list[float]]) -> None:
    """Plays and counts the games, in order, up to the last one or until the test is decided."""
    pool, stopped, waiting = ThreadPoolExecutor(concurrency), threading.Event(), deque[Future[Played]]()

    def game(number: int) -> Played:
        both = players.get()
        return played_game(both[::-1] if number % 2 else both, match.position(number)[1], stopped)

    try:
        for number in range(games):
            while len(waiting) <= concurrency and number + len(waiting) < games:
                waiting.append(pool.submit(game, number + len(waiting)))
            match.count(waiting.popleft().result())
            if sys.stderr.isatty():
                print(f"\r{number + 1} of {games} games" if number + 1 < games else "\r\033[K", end="", file=sys.stderr, flush=True)
            if number % 2 and is_decided(match.pairs(), elo):
                break
        stopped.set()
    finally:
        # After Ctrl-C nothing is waited for: the engines end with this process.
        pool.shutdown(wait=stopped.is_set(), cancel_futures=True)
    players.close()


def main() -> bool:
    parser = arguments(__doc__)
    parser.add_argument("a", metavar="A", help="a command, or kalah")
    parser.add_argument("b", metavar="B", help="a command, or kalah")
    parser.add_argument("--positions", required=True, metavar="FILE", help="has a position in each line")
    parser.add_argument("--games", type=whole(2, 10**8, "an even number of games", 2), metavar="N", help="how many games (two a position)")
    parser.add_argument("--concurrency", type=whole(1, 64, "a number from 1 to 64"), default=1, metavar="N", help="games at a time (1)")
    parser.add_argument("--sprt", type=float, nargs=2, metavar=("E0", "E1"), help="stops if A is at most E0 or at least E1 Elo better")
    parser.add_argument("--timeout", type=seconds, default=10, metavar="S", help="the seconds that an answer may take (10)")
    parser.add_argument("--record", metavar="RECORD", help="gets the games")
    asked = parser.parse_args()
    if asked.sprt and not asked.sprt[0] < asked.sprt[1]:
        parser.error("E0 is less than E1")
    numbers = iter(range(1, sys.maxsize))
    positions, has_failed = of_lines(asked.positions, lambda line: (next(numbers), playable(line)))
    if not positions:
        raise ValueError(f"{asked.positions} has no position to play")
    with ExitStack() as stack:
        record = stack.enter_context(open(asked.record, "w")) if asked.record else None
        match, players = Match(asked.positions, positions, record), Players([asked.a, asked.b], asked.timeout)
        run_games(match, players, asked.games or 2 * len(positions), asked.concurrency, asked.sprt)
    print(*match.summary(), sep="\n")
    if asked.sprt:
        print(tested(match.pairs(), asked.sprt))
    if players.guesses():
        print(f"kalah has looked {rules.LOOKED_AHEAD} moves ahead in {players.guesses()} moves, above {rules.MOST_SEEDS} seeds")
    return has_failed or match.has_failed
