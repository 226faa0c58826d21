"""The trials of `kalah ask` for tests/agree: lines are sent while it runs, and each is answered before the next is read."""

import os
import pty
import socket
import subprocess
import tempfile
import termios
from contextlib import suppress
from itertools import product

from lib import reference
from lib.failing import PATIENCE, Failed, read_soon
from lib.output_trials import before_more
from lib.processes import in_memory
from lib.random_data import FILE_SUBCOMMANDS, HARD_LINE, LONG_GAME, SEARCHING, TABLES
from lib.reference import Run

# The number of lines that are sent one by one to a run.
QUESTIONS = 500

# The source of the lines, and the size of the pieces in bytes; None is all at once.
INPUTS = [*product(["pipe", "sockets"], [1, 7, None]), ("file", None), ("terminal", None)]

# The number of bytes without a line feed before an answer, and the most memory that may be used then, in kilobytes.
LONG = 100_000_000
ROOM = 16_384

# What is said once to somebody who types.
HINT = b"kalah: waits for positions, one a line, as 1,1/0 1,1/0; Ctrl-D ends\n"


def terminal():
    """Returns the two ends of a terminal that does not echo what is typed."""
    keyboard, screen = pty.openpty()
    modes = termios.tcgetattr(screen)
    modes[3] &= ~termios.ECHO
    termios.tcsetattr(screen, termios.TCSANOW, modes)
    return screen, keyboard


def ends_of_input(place):
    """Returns the end of such a source that is read, and the end that is written."""
    if place == "sockets":
        return tuple(end.detach() for end in socket.socketpair())
    return terminal() if place == "terminal" else os.pipe()


def write_in_pieces(writer, data, size):
    with suppress(BrokenPipeError):
        while data:
            data = data[os.write(writer, data[: size or len(data)]) :]


def drawn_form(runs):
    """Returns `solve`, `values` or `steps`, and the arguments of `ask` for it."""
    form = runs.drawn.card("asked forms", FILE_SUBCOMMANDS)
    table = runs.drawn.card("asked tables", TABLES) if form in SEARCHING else None
    options = [[] if form == "solve" else [f"--{form}"], [] if table is None else [f"--table={table}"]]
    runs.drawn.chance.shuffle(options)
    return form, ["ask", *options[0], *options[1]]


def asked_one_by_one(runs):
    """Each line is sent once the answer to the previous one has come. A run that buffers an answer hangs."""
    form, words = drawn_form(runs)
    runs.put({})
    reader, writer = ends_of_input(runs.drawn.card("asked through", ["pipe", "sockets"]))
    with runs.start(words, stdin=reader, bufsize=0) as process:
        os.close(reader)
        want = got = b""
        for _ in range(QUESTIONS):
            line = runs.drawn.line() + runs.drawn.chance.choice([b"", b"\r"])
            answer = reference.in_one_line(form, line) + b"\n"
            os.write(writer, line + b"\n")
            want, got = want + answer, got + read_soon(process.stdout.fileno(), len(answer))
            if got != want:
                break
        os.close(writer)
        end = runs.end_of(process)
        runs.compare(Run(want, b"", int(b"fault" in want)), end._replace(out=got + end.out))


def asked_at_once(runs):
    """Lines from each source, in pieces of each size, are answered as those of a file."""
    place, size = runs.drawn.card("asked places", INPUTS)
    form, words = drawn_form(runs)
    data = runs.drawn.file(runs.drawn.chance.randint(0, 20 if place == "terminal" else 500))
    if place == "terminal":
        # Only keys that a terminal does not take for commands; the key that ends its input follows.
        lines = [line for line in reference.lines_of(data) if len(line) < 1000 and all(32 <= byte < 127 for byte in line)]
        data = b"".join(b"%b\n" % line for line in lines)
    runs.put({"asked": data})
    want = reference.asked(form, data)
    if place == "file":
        with open(runs.files / "asked", "rb") as file:
            runs.compare(want, runs.run(words, stdin=file))
        return
    reader, writer = ends_of_input(place)
    with tempfile.TemporaryFile() as out, runs.start(words, stdin=reader, stdout=out) as process:
        os.close(reader)
        write_in_pieces(writer, data, size)
        if place == "terminal":
            os.write(writer, b"\x04")
        else:
            os.close(writer)
        end = runs.end_of(process)
        out.seek(0)
        runs.compare(want._replace(err=HINT if place == "terminal" else b""), end._replace(out=out.read()))
    if place == "terminal":
        os.close(writer)


def asked_with_a_hard_one(runs):
    """An easy line is answered before the hard one that was sent with it is."""
    form, place = runs.drawn.card("asked with a hard one", list(product(SEARCHING, ["pipe", "terminal", "file"])))
    line = runs.drawn.line()
    runs.put({})
    words = ["ask", "--table", "1", *["--values"] * (form == "values")]
    want = reference.answer(form, line) + b"\n"
    runs.compare(Run(want, b"", 0), Run(before_more(runs, words, place, line + b"\n" + LONG_GAME + b"\n"), b"", 0))


def asked_in_vain(runs):
    """Input that can't be read is reported, after the answers to what could; and nothing is read after an answer can't be written."""
    what = runs.drawn.card("asked in vain", ["closed", "folder", "unheard"])
    runs.put({})
    if what == "closed":
        runs.compare(reference.failed(b"cannot read standard input"), runs.run_in_shell(["ask"], "<&-"))
    elif what == "folder":
        runs.compare(reference.failed(b"cannot read standard input"), runs.run_in_shell(["ask"], "<folder"))
    else:
        hear_one_answer(runs)


def hear_one_answer(runs):
    """The reader of the output closes it after the first answer."""
    reader, writer = os.pipe()
    with runs.start(["ask"], stdin=subprocess.PIPE, stdout=writer, bufsize=0) as process:
        os.close(writer)
        process.stdin.write(b"1/0 1/0\n")
        got = read_soon(reader, 10)
        os.close(reader)
        # It doesn't wait for the end of its input.
        with suppress(BrokenPipeError):
            process.stdin.write(b"3/0 3/0\n")
        said = read_soon(process.stderr.fileno(), 20)
        if not said:
            process.kill()
        try:
            status = process.wait(PATIENCE)
        except subprocess.TimeoutExpired:
            process.kill()
            raise Failed(f"the run goes on {PATIENCE} seconds after a failed write") from None
        runs.compare(Run(b"0 house 1\n", b"kalah: write failed\n", 2), Run(got, said, status))


def asked_at_length(runs):
    """A line of any length takes no more memory than any other."""
    runs.put({})
    process = runs.start(["ask", "--table", "1"], stdin=subprocess.PIPE)
    piece = b"1" * (1 << 20)
    with suppress(BrokenPipeError):
        for _ in range(LONG // len(piece)):
            process.stdin.write(piece)
    most = in_memory(process, "VmHWM")
    runs.compare(Run(b"fault long\n0 house 1\n", b"", 1), runs.end_of(process, more=b"\n1/0 1/0"))
    if most > ROOM:
        raise Failed(f"{most} kB were taken for a long line, more than {ROOM}")


def asked_again(runs):
    """What was learned for a line is kept for the next: a hundred equal lines take little longer than one."""
    runs.put({})
    spent = []
    for times in (1, 100):
        process = runs.start(["ask"], stdin=subprocess.PIPE)
        run, seconds = runs.timed(lambda: runs.end_of(process, more=HARD_LINE * times))
        spent.append(seconds)
        if len(set(run.out.splitlines())) != 1 or run.out.count(b"\n") != times:
            raise Failed(f"{times} times the same is not answered by {times} equal lines, but by {run.out[:200]}")
    if spent[1] > 10 * spent[0] + 0.5:
        raise Failed(f"one question took {spent[0]:.2f} s, and a hundred times the same {spent[1]:.2f} s")


# How often each of these trials is made in one round of all of them.
ASK_TRIALS = {
    asked_one_by_one: 20, asked_at_once: 2 * len(INPUTS), asked_with_a_hard_one: 6, asked_in_vain: 3,
    asked_at_length: 1, asked_again: 1,
}
