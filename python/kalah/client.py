"""Asks a run of `kalah ask` about positions, line by line.

    from kalah.answers import Values
    from kalah.client import Client

    with Client(Values) as client:
        client.ask("1,1/0 1,1/0")       # Values(by_house={1: -2, 2: 2})
        client.ask("0,0/3 1,2/4")       # Over(margin=-4)
        client.ask("1/0")               # raises Fault("shape")

A client is one run, which keeps what it learns. An answer is returned only if it is whole and has its form. If not, the question fails
with `Gone`, that run is ended, and the next question starts another. So no question gets the answer to another one, whatever interrupts
it. Threads may share a client; a forked process starts a run of its own.
"""

from __future__ import annotations

import functools
import os
import re
import select
import shutil
import subprocess
import threading
import time
from pathlib import Path
from typing import Any, Generic, Optional, TypeVar, Union

from .answers import Best, Fault, Gone, Late, Move, Over, Steps, Values, one_line, read_fault, read_moves

OLDEST = 1, 2, 0
# An answer has fewer bytes, and what `kalah` prints of one position.
LONGEST, MOST_PRINTED = 1000, 1 << 20

Answer = TypeVar("Answer")
Kind = TypeVar("Kind", Best, Values, Steps)
Self = TypeVar("Self", bound="Run[Any]")
# The path of a program, or its name on the path; None is the usual one.
Program = Union[str, "os.PathLike[str]", None]
# How long a question may take; None is any time.
Seconds = Optional[float]


class Run(Generic[Answer]):
    """A program that answers each line with a line, and is started if there is none. A question fails if the answer takes more than
    `timeout` seconds; if that is None, it never does."""

    name = "kalah"

    def __init__(self, timeout: Seconds):
        self.timeout = timeout
        self._lock = threading.Lock()
        self._process: Optional[subprocess.Popen[bytes]] = None
        self._owner: Optional[int] = None

    def __enter__(self: Self) -> Self:
        return self

    def __exit__(self, *_: object) -> None:
        self.close()

    def __del__(self) -> None:
        if hasattr(self, "_owner"):
            self.close()

    def close(self) -> None:
        """Ends the program. The next question starts another."""
        with self._lock:
            end(self._take())

    def ask(self, line: str) -> Answer:
        """Returns the answer. Fails with `Fault` if the line is not a position, with TypeError or ValueError if it isn't one line of text,
        and with `Gone` if there is no answer."""
        question = one_line(line).encode() + b"\n"
        with self._lock:
            # It is kept only with its answer, so that an interrupted question leaves no process whose answer is still to come.
            process = self._take() or self._started()
            try:
                answer = self._read(exchange(process, question, self.timeout, self.name))
            except BaseException:
                end(process)
                raise
            self._process = process
        if isinstance(answer, Fault):
            answer.line = line
            raise answer
        return answer

    def _started(self) -> subprocess.Popen[bytes]:
        self._owner = os.getpid()
        try:
            process = self._start()
        except OSError as why:
            raise Gone(str(why)) from None
        assert process.stdin
        os.set_blocking(process.stdin.fileno(), False)
        return process

    def _start(self) -> subprocess.Popen[bytes]:
        raise NotImplementedError

    def _read(self, text: str) -> Union[Answer, Fault]:
        raise NotImplementedError

    def _take(self) -> Optional[subprocess.Popen[bytes]]:
        """Returns the process, which is kept no longer, if this process has started it."""
        process, self._process = self._process, None
        return process if self._owner == os.getpid() else None


class Client(Run[Union[Kind, Over]]):
    """A run of `kalah ask`. `kind` is the class of its answers, `Best`, `Values` or `Steps`."""

    def __init__(self, kind: type[Kind], program: Program = None, timeout: Seconds = 60):
        super().__init__(timeout)
        self.kind: type[Kind] = kind
        self.program, self.options = program, kind._options

    def _start(self) -> subprocess.Popen[bytes]:
        return subprocess.Popen([find(self.program), "ask", *self.options], stdin=subprocess.PIPE, stdout=subprocess.PIPE, bufsize=0)

    def _read(self, text: str) -> Union[Kind, Over, Fault]:
        answer = Over._read(text) or read_fault(text) or self.kind._read(text)
        if answer is None:
            raise Gone(f"kalah writes {text!r}, which isn't an answer")
        return answer


def game_of_best_play(line: str, first: Optional[int] = None, program: Program = None, timeout: Seconds = 60) -> list[Move]:
    """Returns the moves of a game of best play, which begins with house `first` if there is one. Fails as `Run.ask` does."""
    options = [] if first is None else [f"--first={first}"]
    text = printed([find(program), "play", *options, "--", one_line(line)], timeout)
    *lines, rest = text.split("\n")
    moves = read_moves(lines)
    if rest or moves is None:
        raise Gone(f"kalah prints {text!r}, which isn't a list of moves")
    return moves


def find(program: Program = None) -> str:
    """Returns the path of `kalah`: of this program, or else of the one that the environment variable KALAH names now, or else of the first
    one that is found. Fails with `Gone` if there is none, or an older one than this package needs."""
    name = program or os.environ.get("KALAH")
    return found(os.fspath(name) if name else None)


@functools.lru_cache(maxsize=None)
def found(name: Optional[str]) -> str:
    folder = Path(__file__).resolve().parent
    # On the path; in a checkout; and where `make install`, a package or pip puts it.
    places = [name] if name else ["kalah", str(folder / "../../kalah"), str(folder / "../../../../bin/kalah")]
    path = next((path for place in places if (path := shutil.which(place))), None)
    if not path:
        raise Gone(f"there is no program {name or 'kalah'}: put it on the path, or name it in the environment variable KALAH")
    said = printed([path, "--version"], 10)
    version = re.fullmatch(r"kalah ([0-9]+)\.([0-9]+)\.([0-9]+)\n", said)
    if not version or tuple(map(int, version.groups())) < OLDEST:
        raise Gone(f"{path} is not kalah {'.'.join(map(str, OLDEST))} or newer: its version is {said[:LONGEST]!r}")
    return os.path.abspath(path)


def printed(words: list[str], timeout: Seconds) -> str:
    """Returns what `kalah` prints for these words. Fails with `Fault` if it reports one, and with `Gone` if it fails."""
    try:
        with subprocess.Popen(words, stdin=subprocess.DEVNULL, stdout=subprocess.PIPE, stderr=subprocess.STDOUT) as process:
            assert process.stdout
            timer = threading.Timer(threading.TIMEOUT_MAX if timeout is None else timeout, process.kill)
            timer.start()
            try:
                data = process.stdout.read(MOST_PRINTED)
                if len(data) < MOST_PRINTED:
                    process.wait()
            finally:
                is_late = not timer.is_alive()
                timer.cancel()
                process.kill()
    except OSError as why:
        raise Gone(str(why)) from None
    said = data.decode(errors="backslashreplace")
    if is_late:
        raise Late(f"kalah has not answered in {timeout} seconds")
    if len(data) == MOST_PRINTED:
        raise Gone(f"{words[0]} prints more than kalah ever does")
    if process.returncode == 1 and (fault := read_fault(said.strip())):
        raise fault
    if process.returncode:
        raise Gone(said.strip()[:LONGEST] or f"{words[0]} ends with status {process.returncode}")
    return said


def exchange(process: subprocess.Popen[bytes], question: bytes, timeout: Seconds, name: str) -> str:
    """Writes a question to a process and returns the line that answers it. An error names the program."""
    assert process.stdin and process.stdout
    questions, answers, poller, rest, answer = process.stdin.fileno(), process.stdout.fileno(), select.poll(), memoryview(question), b""
    last = time.monotonic() + (timeout or 0)
    poller.register(answers, select.POLLIN)
    poller.register(questions, select.POLLOUT)
    while not answer.endswith(b"\n"):
        ready = poller.poll(None if timeout is None else max(0, 1000 * (last - time.monotonic())))
        if not ready:
            raise Late(f"{name} has not answered in {timeout} seconds")
        if answers in dict(ready):
            piece = os.read(answers, LONGEST)
            answer += piece
            if rest or not piece or len(answer) > LONGEST:
                raise Gone(f"{name} has ended, or has written what isn't an answer: {answer!r}")
            continue
        try:
            rest = rest[os.write(questions, rest) :]
        except BrokenPipeError:
            raise Gone(f"{name} has ended") from None
        if not rest:
            poller.unregister(questions)
    return answer[:-1].decode(errors="backslashreplace")


def end(process: Optional[subprocess.Popen[bytes]]) -> None:
    if process:
        with process:
            process.kill()
