"""Asks `kalah` for the best move, the values of all moves and the play that follows: one board at a time, or many at once."""

from __future__ import annotations

import os
import re
import select
import subprocess
import tempfile
import time
import weakref
from collections.abc import Iterable, Iterator
from contextlib import suppress
from itertools import islice
from typing import Literal, Optional, Union, overload

from . import rules
from .answers import Best, Fault, Gone, Late, Move, Over, Steps, Values, one_line, read_fault
from .board import Board
from .client import Client, Program, Seconds, end, find, game_of_best_play

BoardOrLine = Union[Board, str]
BestOrValues = Union[type[Best], type[Values]]
MOST_WORKERS = 64
COMMANDS = {"best": "solve", "values": "values"}
KINDS: dict[str, BestOrValues] = {"best": Best, "values": Values}
# How many boards the first run of a batch gets, how many times as many the next one, and the most.
FIRST, GROWTH, MOST = 1024, 8, 65_536
# A number of a board that `kalah` doesn't read, though the board may be solved with empty stores.
LARGE = re.compile("[0-9]{3}")
NAME = "/dev/stdin"
# How many bytes of answers are taken at a time.
SOME = 1 << 16


class Solver:
    """Runs of `kalah`, which are started at the first question and keep what they learn. A board is a `Board` or its line. `program` is the
    path of `kalah`, and `timeout` the seconds that a question may take; None is any time. Threads may share a solver.

        with Solver() as solver:
            solver.best("1,1/0 1,1/0")      # Best(margin=2, house=2)
            solver.values("1,1/0 1,1/0")    # Values(by_house={1: -2, 2: 2})

    A question fails with `Fault` if the line is not a position, and with `TooMany`, which is one, if it has too many seeds; with `Gone` if
    there is no answer, and with `Late`, which is one, if it takes too long. All of these are a `KalahError`.
    """

    def __init__(self, program: Program = None, timeout: Seconds = 60):
        self._best, self._values = Client(Best, program, timeout), Client(Values, program, timeout)
        self._steps = Client(Steps, program, timeout)

    @property
    def program(self) -> Program:
        """The program that is asked; None is the one that `help(kalah)` says."""
        return self._best.program

    @property
    def timeout(self) -> Seconds:
        """The seconds that a question may take; None is any time. It may be changed."""
        return self._best.timeout

    @timeout.setter
    def timeout(self, seconds: Seconds) -> None:
        self._best.timeout = self._values.timeout = self._steps.timeout = seconds

    def __repr__(self) -> str:
        return f"Solver(program={self.program!r}, timeout={self.timeout})"

    def __enter__(self) -> Solver:
        return self

    def __exit__(self, *_: object) -> None:
        self.close()

    def close(self) -> None:
        """Ends the runs. The next question starts another."""
        self._best.close()
        self._values.close()
        self._steps.close()

    def best(self, board: BoardOrLine) -> Union[Best, Over]:
        """Returns the margin of best play and the lowest-numbered best house, or the final margin."""
        return rules.ask(self._best, line_of(board))

    def values(self, board: BoardOrLine) -> Union[Values, Over]:
        """Returns what the move of each house is worth, or the final margin."""
        return rules.ask(self._values, line_of(board))

    def steps(self, board: BoardOrLine) -> Union[Steps, Over]:
        """Returns what each move leads to, or the final margin."""
        return rules.ask(self._steps, line_of(board))

    def best_play(self, board: BoardOrLine, first: Optional[int] = None) -> list[Move]:
        """Returns the moves of best play, of which there are none if the game is over. With `first` the game begins with that house. Fails
        with `IllegalMove` if it can't be moved."""
        start = rules.read(line_of(board))
        if first is not None:
            Board(rules.text(start)).after(first)
        if rules.end_of(start):
            return []
        moves, player = [], 0
        for move in game_of_best_play(rules.text(rules.with_stores(start, 0, 0)), first, self.program, self.timeout):
            player ^= move.word == "turn"
            moves.append(rules.filled(move, start, player == 1))
        return moves

    # Its older name.
    line = best_play


@overload
def solve_many(
    boards: Iterable[BoardOrLine], workers: int = 4, question: Literal["best"] = "best", program: Program = None, timeout: Seconds = None
) -> Iterator[Union[Best, Over, Fault]]: ...
@overload
def solve_many(
    boards: Iterable[BoardOrLine], workers: int, question: Literal["values"], program: Program = None, timeout: Seconds = None
) -> Iterator[Union[Values, Over, Fault]]: ...
@overload
def solve_many(
    boards: Iterable[BoardOrLine], workers: int = 4, *, question: Literal["values"], program: Program = None, timeout: Seconds = None
) -> Iterator[Union[Values, Over, Fault]]: ...
def solve_many(
    boards: Iterable[BoardOrLine],
    workers: int = 4,
    question: Literal["best", "values"] = "best",
    program: Program = None,
    timeout: Seconds = None,
) -> Iterator[Union[Best, Values, Over, Fault]]:
    """Yields the answer to each board, in order: what `Solver` returns for the question `best` or `values`, or the `Fault` that it raises.
    There may be any number of boards. They are taken some time before their answers are yielded, in runs of up to 65,536, which up to 64
    workers solve in the background.

    A board that is no line of text fails with TypeError or ValueError, once those before it are answered. If `kalah` is missing, the call
    fails with `Gone`. If it fails later, or if the next answer takes more than `timeout` seconds, so does the iterator, then with `Gone` or
    `Late`; None is any time."""
    if isinstance(boards, str):
        raise TypeError(f"solve_many takes a list of boards, as [{boards!r}]")
    if question not in COMMANDS:
        raise ValueError(f"the question is 'best' or 'values', not {question!r}")
    if workers not in range(1, MOST_WORKERS + 1):
        raise ValueError(f"there are 1 to {MOST_WORKERS} workers, not {workers}")
    return answers(iter(boards), [find(program), COMMANDS[question], "--workers", str(workers), NAME], KINDS[question], timeout)


class Batch:
    """Boards that one run of `kalah` solves, once it is started."""

    def __init__(self, boards: Iterator[BoardOrLine], size: int):
        self.lines: list[str] = []
        # What the stores of a board that is solved with empty ones add to its margin, by its number.
        self.leads: dict[int, int] = {}
        self.why: Optional[Exception] = None
        try:
            for board in islice(boards, size):
                self.lines.append(self.question(line_of(board)))
        except Exception as why:
            # It comes after the answers to the boards before.
            self.why = why

    def question(self, line: str) -> str:
        if LARGE.search(line):
            with suppress(Fault):
                position = rules.read(line)
                self.leads[len(self.lines) + 1] = position.own.store - position.other.store
                return rules.text(rules.with_stores(position, 0, 0))
        return line

    def start(self, words: list[str]) -> None:
        """Starts the run. It is ended with this object, or with the interpreter."""
        pipe = subprocess.PIPE
        with tempfile.TemporaryFile() as file:
            file.write("".join(line + "\n" for line in self.lines).encode())
            file.seek(0)
            self.process = subprocess.Popen(words, stdin=file, stdout=pipe, stderr=pipe)
        self.end = weakref.finalize(self, end, self.process)

    def rows(self, timeout: Seconds) -> Iterator[bytes]:
        """Yields the lines that the run writes. Fails with `Late` if the next one takes more seconds."""
        assert self.process.stdout
        poller, rows, rest = select.poll(), list[bytes](), b""
        poller.register(self.process.stdout, select.POLLIN)
        while True:
            last = time.monotonic() + (timeout or 0)
            while not rows:
                if not poller.poll(None if timeout is None else max(0, 1000 * (last - time.monotonic()))):
                    raise Late(f"kalah has not answered in {timeout} seconds")
                piece = os.read(self.process.stdout.fileno(), SOME)
                if not piece:
                    return
                *rows, rest = (rest + piece).split(b"\n")
            yield from rows
            rows = []

    def answers(self, kind: BestOrValues, timeout: Seconds) -> Iterator[Union[Best, Values, Over, Fault]]:
        assert self.process.stderr
        number = 0
        for number, row in zip(range(1, len(self.lines) + 1), self.rows(timeout)):
            place, _, text = row.decode(errors="backslashreplace").partition(" ")
            answer = kind._read(text) or Over._read(text) or read_fault(text)
            if place != f"{NAME}:{number}" or not answer:
                raise Gone(f"kalah writes {row!r}, which isn't the answer to line {number}")
            if isinstance(answer, Fault):
                answer = refused(self.lines[number - 1], answer)
            yield answer if isinstance(answer, Fault) else answer._plus(self.leads.get(number, 0))
        said = self.process.stderr.read().decode(errors="backslashreplace").strip()
        if self.process.wait() not in (0, 1) or number < len(self.lines):
            status, count = self.process.returncode, len(self.lines)
            raise Gone(said or f"kalah ends with status {status} after {number} of {count} answers")


def refused(line: str, fault: Fault) -> Union[Over, Fault]:
    """Returns what `Solver` answers to a line that `kalah` refuses: it may have large numbers, and be over."""
    fault.line = line
    try:
        return rules.end_of(rules.read(line)) or fault
    except Fault as known:
        return known


def answers(
    boards: Iterator[BoardOrLine], words: list[str], kind: BestOrValues, timeout: Seconds
) -> Iterator[Union[Best, Values, Over, Fault]]:
    size, batch = FIRST, Batch(boards, FIRST)
    while batch.lines:
        batch.start(words)
        try:
            size = min(GROWTH * size, MOST)
            # While these are solved, the next ones are taken.
            following = Batch(boards, 0 if batch.why else size)
            yield from batch.answers(kind, timeout)
        finally:
            batch.end()
        if batch.why:
            raise batch.why
        batch = following
    if batch.why:
        raise batch.why


def line_of(board: BoardOrLine) -> str:
    return board.line if isinstance(board, Board) else one_line(board)
