"""What the tools share: their help is the text at their top, what is typed wrong is named, and they end without a traceback."""

from __future__ import annotations

import argparse
import os
import re
import signal
import sys
from collections.abc import Iterator
from itertools import islice
from typing import Callable, NoReturn, Optional, TextIO, TypeVar

from . import rules
from .answers import Fault, Gone

# The statuses of a tool: it has done all, or it has done but for some lines, or it has done nothing.
DONE, SOME_FAILED, NOT_DONE = 0, 1, 2
# The most characters of a line that are read, and the most lines of a file.
LONGEST, MOST_LINES = 4096, 1_000_000
# A side of a position.
SIDE = re.compile("[0-9,]+/[0-9]+")

Made = TypeVar("Made")


class FileForLine(Fault):
    """A file stands in the place of a position."""

    def __str__(self) -> str:
        return f"fault {self.word}: {self.line} is a file, and LINE a position, as '1,1/0 1,1/0'"


class Arguments(argparse.ArgumentParser):
    def add_line(self) -> None:
        """Adds the argument LINE."""
        form = "'1,2/3 4,5/6' has 1 and 2 seeds in the houses of the player to move and 3 in that store, then the other player's"
        self.add_argument("line", metavar="LINE", help=f"a position, in quotes: {form}")

    def error(self, message: str) -> NoReturn:
        """Names a position that has no quotes, as the shell passes it in parts."""
        for own, other in zip(sys.argv[1:], sys.argv[2:]):
            if SIDE.fullmatch(own) and SIDE.fullmatch(other):
                message = f"a position is one argument, in quotes: '{own} {other}'"
        super().error(message)


def arguments(text: Optional[str]) -> Arguments:
    """Returns a parser of arguments whose help is this text."""
    return Arguments(description=text, formatter_class=argparse.RawDescriptionHelpFormatter)


def name() -> str:
    """Returns the name of what runs: the last word of `python3 -m kalah NAME`, or that of a script."""
    return os.path.basename(sys.argv[0]).rpartition(" ")[2]


def run(main: Callable[[], Optional[bool]]) -> NoReturn:
    """Runs a tool, which returns whether some line has failed: the status is then 1. Ctrl-C ends it, and so does a reader that has seen
    enough, as `head`. If the tool fails, standard error says why, and the status is 1 for a line that is not a position, otherwise 2."""
    try:
        has_failed = main()
        print(end="", flush=True)
        sys.exit(SOME_FAILED if has_failed else DONE)
    except KeyboardInterrupt:
        end_by(signal.SIGINT)
    except BrokenPipeError:
        end_by(signal.SIGPIPE)
    except (Gone, OSError, ValueError) as why:
        reasons = [why.filename, str(why.strerror or why).lower()] if isinstance(why, OSError) else [why]
        print(name(), *filter(None, reasons), sep=": ", file=sys.stderr, flush=True)
        # What is still in a buffer can't be written either.
        os._exit(SOME_FAILED if isinstance(why, Fault) else NOT_DONE)


def end_by(number: int) -> NoReturn:
    """Ends this process by a signal, as a program ends that doesn't handle it."""
    signal.signal(number, signal.SIG_DFL)
    signal.raise_signal(number)
    os._exit(NOT_DONE)


def say(why: object) -> None:
    """Says on standard error what has failed. On a terminal that ends what is shown of the lines that are done."""
    print("\r\033[K" * sys.stderr.isatty() + f"{name()}: {why}", file=sys.stderr, flush=True)


def whole(least: int, most: int, what: str, step: int = 1) -> Callable[[str], int]:
    """Returns what reads such a number."""

    def read(text: str) -> int:
        if not re.fullmatch("[0-9]{1,9}", text) or not least <= int(text) <= most or int(text) % step:
            raise argparse.ArgumentTypeError(f"{text!r} is not {what}")
        return int(text)

    return read


def position(text: str) -> str:
    """Returns the line of a position that was typed, in which a game may start. Fails with `Fault`."""
    try:
        return rules.start_line(text)
    except Fault as fault:
        if os.path.exists(text):
            raise FileForLine(fault.word, text) from None
        raise


def opened(name: str) -> TextIO:
    """Returns a file to read lines from. Fails with ValueError if it can't be read."""
    try:
        return open(name, newline="\n", errors="replace")
    except OSError as why:
        reasons: dict[type[OSError], str] = {FileNotFoundError: "there is no such file", IsADirectoryError: "it is a folder"}
        reason = reasons.get(type(why), str(why.strerror).lower())
        if rules.FORM.fullmatch(name):
            reason = "it is a position, and FILE has one in each line"
        raise ValueError(f"cannot read {name}: {reason}" + "; standard input is /dev/stdin" * (name == "-")) from None


def lines_in(file: TextIO) -> Iterator[str]:
    """Yields the lines of a file, without their ends. Of a longer one than `LONGEST` only the beginning is kept."""
    while line := file.readline(LONGEST):
        rest = line
        while len(rest) == LONGEST and not rest.endswith("\n"):
            rest = file.readline(LONGEST)
        yield line.removesuffix("\n").removesuffix("\r")


def lines_of(name: str) -> list[str]:
    """Returns the lines of a file. Fails with ValueError if there are too many."""
    with opened(name) as file:
        lines = [*islice(lines_in(file), MOST_LINES + 1)]
    if len(lines) > MOST_LINES:
        raise ValueError(f"{name} has more than {MOST_LINES} lines")
    return lines


def of_lines(name: str, make: Callable[[str], Optional[Made]]) -> tuple[list[Made], bool]:
    """Returns what `make` returns for each line of a file, without None, and whether some line failed, which standard error then names.
    If that is a terminal, it shows how many lines are done."""
    lines, made, has_failed, is_shown = lines_of(name), [], False, sys.stderr.isatty()
    for number, line in enumerate(lines, 1):
        try:
            made.append(make(line))
        except ValueError as why:
            has_failed = True
            say(f"{name}:{number}: {why}")
        if is_shown:
            print(f"\r{number} of {len(lines)}" if number < len(lines) else "\r\033[K", end="", file=sys.stderr, flush=True)
    return [one for one in made if one is not None], has_failed
