"""The trials of files, and of subcommands that take one line."""

import os
import subprocess
import time
from contextlib import suppress

from lib import reference
from lib.crates import TOP
from lib.message_trials import is_text
from lib.processes import fill
from lib.random_data import BYTES, DEPTHS, FILES, LINES, LINES_OF_MOVES, MORE, NO_FILES, PLAIN, TABLES

# The names that a subcommand is given which answers files, and the size of the file `a`, which is all there is. Its last line is one
# that is read.
LIMITS = [
    (["a"] * 256 + ["./a"], 8), (["a"] * 398 + ["b"], 8), (["a"] * 398 + ["a\na"], 8), (["a\n", "b"], 8),
    (["./" * 2045 + "a"] * 256, 8), (["a"], reference.MOST_BYTES_OF_A_FILE), (["a"], reference.MOST_BYTES_OF_A_FILE + 1),
    (["a", "b"], reference.MOST_BYTES_OF_A_FILE + 1), (["b", "a"], reference.MOST_BYTES_OF_A_FILE + 1),
]


def stored_lines():
    """Returns the lines of tests/data/answers.txt, and makes their answers known to the reference."""
    rows = [row.split("\t") for row in (TOP / "tests/data/answers.txt").read_text().splitlines() if not row.startswith("#")]
    for line, answer in rows:
        margin, _, house = answer.split()
        reference.known[reference.read(line.encode())] = int(margin), int(house)
    return [line.encode() for line, _ in rows]


STORED = stored_lines()


def answer(runs, named, subcommand=None):
    """Files of these names are answered. One that has no bytes can't be read."""
    subcommand = subcommand or runs.subcommand()
    runs.put({os.path.normpath(name): data for name, data in named if data is not None})
    want = reference.answers(subcommand, [(name.encode(), data) for name, data in named])
    runs.compare(want, runs.run(runs.drawn.words(subcommand, [name for name, _ in named])))


def many_files(runs):
    names = runs.drawn.names(runs.drawn.card("files", FILES))
    there = {os.path.normpath(name): runs.drawn.file(runs.drawn.chance.choice([0, 1, 1, 2, 5])) for name in names}
    answer(runs, [(name, there[os.path.normpath(name)]) for name in names])


def many_bytes(runs):
    size = runs.drawn.card("bytes", BYTES)
    size = runs.drawn.chance.randint(1, 300_000) if size is None else size
    answer(runs, [("a", runs.drawn.file_of_bytes(size)), ("b", runs.drawn.file(3))])


def many_lines(runs):
    lines = runs.drawn.card("lines", LINES) or runs.drawn.chance.randint(1, 200_000)
    first = runs.drawn.chance.choice([lines, lines - 1, lines // 2])
    answer(runs, [("a", runs.drawn.file(first)), ("b", runs.drawn.file(lines - first))])


def stored_answers(runs):
    lines = [runs.drawn.with_stores(runs.drawn.card("stored", STORED)) for _ in range(60)]
    answer(runs, [("a", b"\n".join(lines))], runs.drawn.card("of stored", ["solve", "steps"]))


def unread_files(runs):
    """The first name that can't be opened is reported; there are files before it, and more names after it."""
    there = ("a", runs.drawn.file(2))
    behind = runs.drawn.chance.choices([there, *((name, None) for name in NO_FILES)], k=runs.drawn.chance.randint(0, 3))
    answer(runs, [there] * runs.drawn.chance.randint(0, 10) + [(runs.drawn.card("no files", NO_FILES), None), *behind])


def limits(runs):
    names, size = runs.drawn.card("limits", LIMITS)
    there = {"a": b"\n1/0 1/0".rjust(size, b"0")}
    answer(runs, [(name, there.get(os.path.normpath(name))) for name in names])


def a_pipe_as_file(runs):
    """The bytes of a file arrive in pieces."""
    data = rest = runs.drawn.file(runs.drawn.chance.randint(0, 500))
    runs.put({})
    subcommand = runs.subcommand()
    process = runs.start(runs.drawn.words(subcommand, ["/dev/stdin"]), stdin=subprocess.PIPE, bufsize=0)
    with suppress(BrokenPipeError):
        while rest:
            size = runs.drawn.chance.randint(1, 6000)
            process.stdin.write(rest[:size])
            rest = rest[size:]
            time.sleep(0.002)
    runs.compare(reference.answers(subcommand, [(b"/dev/stdin", data)]), runs.end_of(process))


def one_pipe_twice(runs):
    """A file is read for each time that it is named: of a pipe, all there is the first time, and nothing more."""
    data, subcommand = runs.drawn.file(runs.drawn.chance.randint(1, 50)), runs.subcommand()
    runs.put({})
    process = runs.start([subcommand, *["/dev/stdin"] * 3], stdin=subprocess.PIPE)
    with suppress(BrokenPipeError):
        process.stdin.write(data)
    want = reference.answers(subcommand, [(b"/dev/stdin", data), (b"/dev/stdin", b""), (b"/dev/stdin", b"")])
    runs.compare(want, runs.end_of(process))


def a_named_pipe_twice(runs):
    """A pipe with a name is opened for each time that it is named, and read to the end of that time's bytes."""
    contents, subcommand = [runs.drawn.file(runs.drawn.chance.randint(1, 50)) for _ in range(2)], runs.subcommand()
    runs.put({})
    os.mkfifo(runs.files / "a")
    process = runs.start([subcommand, "a", "a"])
    for data in contents:
        fill(runs.files / "a", data, process)
    runs.compare(reference.answers(subcommand, [(b"a", data) for data in contents]), runs.end_of(process))


def moves(runs):
    line = runs.drawn.line_of_moves(runs.drawn.card("lines of moves", LINES_OF_MOVES))
    run_on_line(runs, line, runs.drawn.words_of_line("moves", line, []), reference.moves)


def play(runs):
    line = runs.drawn.line_of_play(runs.drawn.card("lines of play", LINES_OF_MOVES))
    table = runs.drawn.card("tables of play", TABLES)
    options = [] if table is None else [f"--table={table}"]
    first = runs.drawn.first(line)
    options += [] if first is None else runs.drawn.chance.choice([[f"--first={first}"], ["--first", f"{first}"]])
    values = runs.drawn.card("values of play", MORE)
    options += ["--values"] * values
    run_on_line(runs, line, runs.drawn.words_of_line("play", line, options), reference.play, first, values)


def show(runs):
    line = runs.drawn.line_of_play(runs.drawn.card("lines of show", LINES_OF_MOVES))
    line = runs.drawn.wide(line) if runs.drawn.happens(0.5) else line
    table = runs.drawn.card("tables of show", TABLES)
    lines = runs.drawn.card("lines of best play", MORE)
    options = ["--lines"] * lines + ([] if table is None else [f"--table={table}"])
    run_on_line(runs, line, runs.drawn.words_of_line("show", line, options, "plain", PLAIN), reference.show, lines)


def count(runs):
    """Of lines of both rules, up to five moves on."""
    line = runs.drawn.line_of_moves(runs.drawn.card("lines of count", LINES_OF_MOVES))
    depth = runs.drawn.card("depths", DEPTHS)
    run_on_line(runs, line, (runs.drawn.words_of_count(depth, line), depth), reference.count)


def plain_positions(runs):
    """Of any position a plain picture comes at once: nothing is searched for it."""
    line = runs.drawn.position(31)
    run_on_line(runs, line, (["show", "--plain", "--table=1", line], True), reference.show)


def run_on_line(runs, line, drawn, answer, *more):
    words, flag = drawn
    runs.put({})
    want = answer(line, flag, *more) if is_text(line) else reference.failed(b"a word is not UTF-8")
    runs.compare(want, runs.run(words))


# How often each trial is made in one round of all of them.
FILE_TRIALS = {
    many_files: len(FILES), many_bytes: len(BYTES), many_lines: len(LINES), stored_answers: 18,
    unread_files: len(NO_FILES), limits: len(LIMITS), a_pipe_as_file: 10, one_pipe_twice: 2, a_named_pipe_twice: 2,
    moves: len(LINES_OF_MOVES), play: len(LINES_OF_MOVES), show: len(LINES_OF_MOVES),
    count: 4 * len(DEPTHS) + len(LINES_OF_MOVES), plain_positions: 10,
}
