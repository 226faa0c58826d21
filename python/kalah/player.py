"""Engines of Kalah as players: commands that are started once, get a position a line, and answer each with a line that has a house.

    from kalah.player import player

    with player("./engine --depth 6", timeout=10) as engine:
        engine.house("1,1/0 1,1/0")     # 2

Positions are lines as `kalah` reads them, seen by the player to move, whose houses count from 1. An engine flushes each answer, and writes
nothing else to its standard output. It ends with this process, and so does all that it has started. The word `kalah` in place of a command
is the solver itself, which looks a few moves ahead where there are more than 31 seeds in houses.
"""

from __future__ import annotations

import re
import shlex
import subprocess
from argparse import ArgumentTypeError
from shutil import which
from typing import Union

from . import rules
from .answers import Best, Gone, KalahError, Over
from .client import Client, Run, find
from .guard import Guarded


class NoMove(KalahError, ValueError):
    """An engine has named no house that can be moved, or has not answered in time."""


class Engine(Run[str]):
    """A run of an engine. After an answer that is none it is ended, and the next question starts another."""

    def __init__(self, command: str, timeout: float):
        super().__init__(timeout)
        try:
            self.name, self.words = command, shlex.split(command)
        except ValueError:
            raise Gone(f"the quotes of {command!r} don't close") from None
        if not self.words or not which(self.words[0]):
            raise Gone(f"there is no program {command!r}")

    def _start(self) -> subprocess.Popen[bytes]:
        return Guarded(self.words)

    def _read(self, text: str) -> str:
        return text.strip()

    def house(self, line: str) -> int:
        """Returns the house that the engine moves. Fails with `NoMove`."""
        try:
            answer = self.ask(line)
        except Gone as why:
            raise NoMove(str(why)) from None
        possible = {str(house): house for house in rules.legal(rules.read(line))}
        if answer not in possible:
            self.close()
            raise NoMove(f"{self.name} answers {answer[:40]!r}, not one of {' '.join(possible)}")
        return possible[answer]


class Kalah(Client[Best]):
    """The solver as a player: it moves the lowest-numbered best house. `guesses` counts the moves that were looked ahead to instead."""

    def __init__(self, timeout: float):
        super().__init__(Best, timeout=timeout)
        self.guesses = 0
        find()

    def house(self, line: str) -> int:
        """Returns the house that it moves. Fails with `NoMove`."""
        try:
            answer = rules.ask(self, line)
        except rules.TooMany:
            self.guesses += 1
            return rules.guess(line)
        except Gone as why:
            raise NoMove(str(why)) from None
        if isinstance(answer, Over):
            raise NoMove("the game is over")
        return answer.house


Player = Union[Engine, Kalah]


def player(command: str, timeout: float) -> Player:
    """Returns the player of this name: `kalah`, or the command of an engine."""
    return Kalah(timeout) if command == "kalah" else Engine(command, timeout)


def seconds(text: str) -> float:
    """Returns the seconds that an engine may take for an answer."""
    if not re.fullmatch(r"[0-9]{1,6}(\.[0-9]+)?", text) or not float(text):
        raise ArgumentTypeError(f"{text!r} is not a number of seconds above 0")
    return float(text)
