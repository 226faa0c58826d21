"""The trials of when output goes out and to whom: standard streams that are closed or full, readers that leave, and answers that are read
while the run goes on."""

import os
import socket
import subprocess
import time
from itertools import product

from lib import reference
from lib.failing import SOON, Failed, piece_in, read_piece, read_soon
from lib.processes import spent_by, two_ends
from lib.random_data import EASY, HARD, LONG_GAME, QUICK, SEARCHING
from lib.reference import Run

# Redirections of the standard streams, and those among them that accept no answer.
NO_READER = "a pipe that nobody reads"
TAKE_NO_ANSWER = [">&-", ">/dev/full", "<&- >&- 2>&-", NO_READER]
STREAMS = ["<&-", "2>&-", "2>/dev/full", *TAKE_NO_ANSWER]

# Runs that answer, that have a line which can't be read, and that fail, each with each of the redirections.
A_AND_FAULT = b"1/0 1/0\n1/0"
RUNS = [
    (["moves", "1,1/0 1,1/0"], reference.moves(b"1,1/0 1,1/0")),
    (["moves", "1/0"], reference.moves(b"1/0")),
    (["play", "--boards", "3,3/0 3,3/0"], reference.play(b"3,3/0 3,3/0", True)),
    (["play", "1/0"], reference.play(b"1/0")),
    (["play", "--first=2", "3,3/0 3,3/0"], reference.play(b"3,3/0 3,3/0", False, 2)),
    (["play", "--first=1", "0,3/0 3,3/0"], reference.play(b"0,3/0 3,3/0", False, 1)),
    (["play", "--values", "--first=2", "3,3/0 3,3/0"], reference.play(b"3,3/0 3,3/0", False, 2, True)),
    (["show", "3,3/0 3,3/0"], reference.show(b"3,3/0 3,3/0")),
    (["show", "--plain", "3,3/0 3,3/0"], reference.show(b"3,3/0 3,3/0", True)),
    (["show", "--lines", "3,3/0 3,3/0"], reference.show(b"3,3/0 3,3/0", False, True)),
    (["show", "1/0"], reference.show(b"1/0")),
    (["count", "3", "3,3/0 3,3/0"], reference.count(b"3,3/0 3,3/0", 3)),
    (["count", "0", "3,3/0 3,3/0"], reference.count(b"3,3/0 3,3/0", 0)),
    (["count", "3", "1/0"], reference.count(b"1/0", 3)),
    (["solve", "a", "a"], reference.answers("solve", [(b"a", A_AND_FAULT), (b"a", A_AND_FAULT)])),
    (["solve", "a", "b"], reference.answers("solve", [(b"a", A_AND_FAULT), (b"b", None)])),
    (["values", "a", "a"], reference.answers("values", [(b"a", A_AND_FAULT), (b"a", A_AND_FAULT)])),
    (["steps", "a", "a"], reference.answers("steps", [(b"a", A_AND_FAULT), (b"a", A_AND_FAULT)])),
]
STREAMS_OF_RUNS = list(product(STREAMS, RUNS))

# Runs whose output soon takes no more: after a first line, or at once.
NO_READER_IS_LEFT = list(product(SEARCHING, ["1", "4"], ["pipe", "/dev/full"]))

# The numbers of workers of a run whose reader leaves late.
LEFT_AFTER_A_PAUSE = [64, 8]

# The output from which answers are read while the run goes on, and the number of lines before one that takes long.
FIRST_ANSWERS = list(product(["pipe", "terminal", "file"], [1, 64, 65, 1000]))

# Where the first position of a game, or a picture, is read; its first move takes a second with a table of one entry.
FIRST_PICTURES = [["play", "--boards"], ["play", "--boards", "--values"], ["show"], ["show", "--lines"]]
FIRST_PICTURES = list(product(["pipe", "terminal", "file"], FIRST_PICTURES))

# Where the first move of a game is read: one that is found, and one that is given, after which the long game is played.
# Of the first, the second move takes half as long to find as the first one, and the third no time.
FIRST_MOVES = [["play", b"1,2,0,1,4,5/0 3,4,1,3,0,5/0"], ["play", "--first=2", b"1,2,0,2,4,5/0 3,2,1,4,4,3/0"]]
FIRST_MOVES = list(product(["pipe", "terminal", "file"], FIRST_MOVES))

# Runs whose first rows take a small part of their time.
ROW_BY_ROW = [["count", "12", LONG_GAME], ["play", "--table", "1", "--first=2", b"1,2,0,2,4,5/0 3,2,1,4,4,3/0"]]

# Runs whose lines go out together, and the share of the lines that the writes may be.
FEW_WRITES = [(["solve", "--workers=1", "a"], 4), (["solve", "--workers=2", "a"], 4), (["ask"], 50)]


def streams(runs):
    """Standard streams are closed, or accept nothing."""
    streams, (words, want) = runs.drawn.card("streams", STREAMS_OF_RUNS)
    runs.put({"a": A_AND_FAULT})
    if want.out and streams in TAKE_NO_ANSWER:
        want = reference.failed(b"write failed")
    if "2>" in streams:
        want = want._replace(err=b"")
    runs.compare(want, run_without_reader(runs, words) if streams == NO_READER else runs.run_in_shell(words, streams))


def run_without_reader(runs, words):
    reader, writer = os.pipe()
    os.close(reader)
    try:
        return runs.run(words, stdout=writer)
    finally:
        os.close(writer)


def no_reader_is_left(runs):
    """A run whose output takes no more begins no further line. It takes at most a fifth of the processor time that all its lines
    would take, by that of some of them. The first lines are easy, as an early hard one holds back the first write."""
    subcommand, workers, place = runs.drawn.card("no reader is left", NO_READER_IS_LEFT)
    words = [subcommand, "--workers", workers, "a"]
    lines = [runs.drawn.full_position() + b"\n" for _ in range(2000)]
    runs.put({"a": b"".join(lines[:60])})
    _, of_some = runs.timed(lambda: runs.run(words))
    runs.put({"a": EASY * 64 + b"".join(lines)})
    first = reference.answers(subcommand, [(b"a", EASY)]).out if place == "pipe" else b""
    got, spent = runs.timed(lambda: run_into(runs, place, words, len(first)))
    runs.compare(Run(first, b"kalah: write failed\n", 2), got)
    if spent > of_some / 60 * len(lines) / 5:
        raise Failed(f"60 lines took {of_some:.2f} s of processor, and {len(lines)} that nobody reads {spent:.2f} s")


def left_after_a_pause(runs):
    """A run ends though its reader leaves only once the pipe and all that holds answers are full. There are more workers than
    processors, so that many of them sleep."""
    workers = runs.drawn.card("left after a pause", LEFT_AFTER_A_PAUSE)
    runs.put({"a": EASY * 200_000})
    reader, writer = os.pipe()
    two = sorted(os.sched_getaffinity(0))[:2]
    words = [runs.subcommand(), "--workers", f"{workers}", "a"]
    with runs.start(words, stdout=writer, preexec_fn=lambda: os.sched_setaffinity(0, two)) as process:
        os.close(writer)
        time.sleep(1)
        os.close(reader)
        runs.compare(Run(b"", b"kalah: write failed\n", 2), runs.end_of(process)._replace(out=b""))


def run_into(runs, place, words, size):
    """Returns the result of a run into a file that is full, or into a pipe that is closed after `size` bytes."""
    reader, writer = os.pipe() if place == "pipe" else (os.open(os.devnull, os.O_RDONLY), os.open(place, os.O_WRONLY))
    with runs.start(words, stdout=writer) as process:
        os.close(writer)
        got = read_soon(reader, size)
        os.close(reader)
        return runs.end_of(process)._replace(out=got)


def first_answers(runs):
    """Answers are read while a later line is being solved."""
    place, lines = runs.drawn.card("first answers", FIRST_ANSWERS)
    data = runs.drawn.file(lines)
    runs.put({"a": data, "b": HARD})
    subcommand = runs.searching()
    want = reference.answers(subcommand, [(b"a", data)]).out
    reader, writer = two_ends(place)
    workers = f"{runs.drawn.chance.randint(1, 16)}"
    with runs.start([subcommand, "--table", "1", "--workers", workers, "a", "b"], stdout=writer) as process:
        got = read_soon(reader, len(want))
        has_ended = process.poll() is not None
        process.kill()
    os.close(reader)
    os.close(writer)
    runs.compare(Run(want, b"", 0), Run(got, b"", 0))
    if has_ended:
        raise Failed("the run has ended, though its last lines take long")


def first_picture(runs):
    """The first position of a game is read before its first move is found, and a picture before its values are."""
    place, words = runs.drawn.card("first pictures", FIRST_PICTURES)
    want = reference.picture(reference.read(LONG_GAME)).encode()
    runs.put({})
    got = before_more(runs, [*words, "--table", "1", LONG_GAME], place, rows=want.count(b"\n"))
    runs.compare(Run(want, b"", 0), Run(got, b"", 0))


def first_move(runs):
    """The first move of a game is read before the second is found."""
    place, words = runs.drawn.card("first moves", FIRST_MOVES)
    rows = reference.moves(words[-1]).out.splitlines(keepends=True)
    runs.put({})
    got = before_more(runs, [*words, "--table", "1"], place)
    if got not in rows:
        raise Failed(f"the first move came with the next ones: {got}, not one of {rows}")


def before_more(runs, words, place, lines=b"", rows=1):
    """Returns what a run that is asked these lines writes at first, which should have this number of rows. What follows must take a
    quarter more processor time. On a busy machine a piece may be read late, or with the next one: then it is tried again."""
    for _ in range(3):
        got, is_early = first_piece(runs, words, place, lines)
        if got.count(b"\n") == rows and is_early:
            return got
    if is_early:
        return got
    raise Failed(f"what is written first came as late as what follows: {got.decode()!r}")


def first_piece(runs, words, place, lines):
    """Returns what the run writes at first, and whether nothing follows until the run has spent a quarter more processor time."""
    reader, writer = two_ends(place)
    with runs.start(words, stdin=subprocess.PIPE, stdout=writer, bufsize=0) as process:
        process.stdin.write(lines)
        got = read_piece(reader)
        spent, end = spent_by(process), time.monotonic() + SOON
        while not (follows := piece_in(reader)) and spent_by(process) < 1.25 * spent and time.monotonic() < end:
            time.sleep(0.001)
        process.kill()
    os.close(reader)
    os.close(writer)
    return got, not follows


def ends_at_a_failed_write(runs):
    """A run that writes row by row ends at the first row that can't be written, and so takes a small part of its time."""
    words = runs.drawn.card("row by row", ROW_BY_ROW)
    runs.put({})
    _, of_all = runs.timed(lambda: runs.run(words))
    got, spent = runs.timed(lambda: run_into(runs, "/dev/full", words, 0))
    runs.compare(reference.failed(b"write failed"), got)
    if spent > of_all / 3:
        raise Failed(f"the run took {of_all:.2f} s of processor, and {spent:.2f} s where its first row can't be written")


def few_writes(runs):
    """Lines that are answered quickly go out together."""
    lines = 10_000
    data = QUICK * lines
    runs.put({"a": data})
    words, share = runs.drawn.card("few writes", FEW_WRITES)
    want = reference.asked("solve", data) if words == ["ask"] else reference.answers("solve", [(b"a", data)])
    reader, writer = socket.socketpair(socket.AF_UNIX, socket.SOCK_SEQPACKET)
    with reader, open(runs.files / "a", "rb") as file, runs.start(words, stdin=file, stdout=writer) as process:
        writer.close()
        pieces = list(iter(lambda: reader.recv(1 << 20), b""))
        runs.compare(want, runs.end_of(process)._replace(out=b"".join(pieces)))
    if len(pieces) > lines // share:
        raise Failed(f"{lines} lines went out in {len(pieces)} writes, more than {lines // share}")


# How often each of these trials is made in one round of all of them.
OUTPUT_TRIALS = {
    streams: len(STREAMS_OF_RUNS), no_reader_is_left: len(NO_READER_IS_LEFT),
    left_after_a_pause: 2 * len(LEFT_AFTER_A_PAUSE), first_answers: len(FIRST_ANSWERS),
    first_picture: len(FIRST_PICTURES), first_move: len(FIRST_MOVES), ends_at_a_failed_write: len(ROW_BY_ROW),
    few_writes: len(FEW_WRITES),
}
