"""The trials of workers and tables: that as many threads work as are asked for, what memory they take, and what they keep."""

import os
import subprocess
import time
from contextlib import suppress

from lib import reference
from lib.failing import SOON, Failed
from lib.processes import busy_threads, bytes_in, in_memory, soon, ticks_of
from lib.random_data import HARD, LONG_GAME, QUICK, SEARCHING, FILE_SUBCOMMANDS

# The subcommands that search a position at once, and one that takes a hundred times as long if no ending is kept.
ENDINGS_KEPT = ["play", "show"]
MANY_ENDINGS = b"1,2,1,1,4,0/0 3,1,3,4,3,2/0"

# The numbers of workers that are observed at work.
BUSY_WORKERS = [2, 3, 5, 16, 64]

# The numbers of lines, with more workers than lines.
FEW_LINES = [1, 2, 3, 7]

# The subcommands that search with one table, after how many ticks of the clock it is measured, and the kB that the largest one takes then,
# at least, beside one with a single entry.
ONE_SEARCH = ["ask", "play", "show", "solve", "values"]
SEARCHED = 20
FILLED = 7_000

# The address space of runs, in kB: of one with few lines, and of one with as many workers and as large tables as there may be. Each needs
# about half of that or less. And the most that the second may have in memory at once, in kB, if its lines are quick.
LITTLE_SPACE = 24_000
SPACE_OF_MANY = 64_000
MEMORY_OF_MANY = 16_000


def endings_are_kept(runs):
    """A search that reaches the same few endings again and again takes a small part of the time of a count, as it keeps each."""
    runs.put({})
    _, of_count = runs.timed(lambda: runs.run(["count", "12", LONG_GAME]))
    subcommand = runs.drawn.card("endings kept", ENDINGS_KEPT)
    _, spent = runs.timed(lambda: runs.run([subcommand, "--table", "1", MANY_ENDINGS]))
    if spent > of_count / 2:
        raise Failed(f"{subcommand} took {spent:.2f} s of processor, and a count {of_count:.2f} s")


def busy_workers(runs):
    """The number of threads that work in parallel is the requested number of workers. They share one table of endings: with a
    small table of its own, each takes less memory than those endings."""
    workers = runs.drawn.card("busy workers", BUSY_WORKERS)
    runs.put({"a": HARD})
    with runs.start([runs.searching(), "--table", "1", "--workers", f"{workers}", "a"]) as process:
        end = time.monotonic() + SOON
        while busy_threads(process) < workers and time.monotonic() < end:
            time.sleep(0.05)
        busy, kilobytes = busy_threads(process), in_memory(process)
        process.kill()
    if busy < workers:
        raise Failed(f"{busy} threads are at work, of {workers}")
    if kilobytes > 4000 + 200 * workers:
        raise Failed(f"{workers} workers take {kilobytes} kB, more than {4000 + 200 * workers}")


def few_lines(runs):
    """A run with fewer lines than workers starts one thread, which starts at most one for each line. Each line takes so long that all
    threads are seen at work."""
    lines = runs.drawn.card("few lines", FEW_LINES)
    runs.put({"a": (LONG_GAME + b"\n") * lines})
    with runs.start([runs.searching(), "--table", "1", "--workers", "64", "a"]) as process:
        end = time.monotonic() + SOON
        while busy_threads(process) < lines and time.monotonic() < end:
            time.sleep(0.01)
        busy, threads = busy_threads(process), len(os.listdir(f"/proc/{process.pid}/task"))
        process.kill()
    if busy < lines or threads > lines + 2:
        raise Failed(f"of {threads} threads {busy} are at work on {lines} lines")


def many_large_tables(runs):
    """As many workers as there may be, each with as large a table as there may be. A table takes memory as it is used."""
    data = runs.drawn.file(200)
    runs.put({"a": data, "b": QUICK * 10_000})
    words = [runs.searching(), "--workers=64", "--table=1048576"]
    want = reference.answers(words[0], [(b"a", data)])
    runs.compare(want, runs.run([*words, "a"]))
    runs.compare(want, run_within(runs, SPACE_OF_MANY, [*words, "a"]))
    kilobytes = memory_of(runs, [*words, "b"])
    if kilobytes > MEMORY_OF_MANY:
        raise Failed(f"64 workers with large tables take {kilobytes} kB for quick lines, more than {MEMORY_OF_MANY}")


def memory_of(runs, words):
    """Returns the most that a run has in memory, in kB, until its output has filled a pipe that nobody reads: until no more comes."""
    reader, writer = os.pipe()
    with runs.start(words, stdout=writer) as process:
        os.close(writer)
        try:
            soon("the run writes", lambda: bytes_in(reader))
            before = None
            while before != bytes_in(reader):
                before = bytes_in(reader)
                time.sleep(0.1)
            return in_memory(process, "VmHWM")
        finally:
            process.kill()
            os.close(reader)


def tables_as_asked(runs):
    """The table is as large as it is asked to be: a search fills it."""
    subcommand = runs.drawn.card("one search", ONE_SEARCH)
    runs.put({"a": LONG_GAME})
    small, large = (memory_of_search(runs, subcommand, entries) for entries in (1, 1 << 20))
    if large < small + FILLED:
        raise Failed(f"{subcommand} takes {small} kB with a table of one entry, and {large} kB with the largest, not {FILLED} more")


def memory_of_search(runs, subcommand, entries):
    """Returns the most that a long search has in memory, in kB, after some time at work or shortly before its end."""
    rest = {"ask": [], "play": [LONG_GAME], "show": [LONG_GAME]}.get(subcommand, ["--workers=1", "a"])
    with runs.start([subcommand, f"--table={entries}", *rest], stdin=subprocess.PIPE, bufsize=0) as process:
        process.stdin.write(LONG_GAME + b"\n")
        process.stdin.close()
        found = [0]

        def was_at_work():
            with suppress(FileNotFoundError, TypeError):  # It has ended.
                found.append(in_memory(process, "VmHWM"))
            return process.poll() is not None or sum(ticks_of(process).values()) >= SEARCHED

        soon(f"{SEARCHED} ticks of the clock at work", was_at_work)
        process.kill()
    return found[-1]


def few_lines_in_little_space(runs):
    """A run of few lines requests little memory."""
    data = runs.drawn.file(runs.drawn.chance.randint(0, 7))
    runs.put({"a": data})
    subcommand = runs.drawn.card("in little space", FILE_SUBCOMMANDS)
    runs.compare(reference.answers(subcommand, [(b"a", data)]), run_within(runs, LITTLE_SPACE, [subcommand, "--workers=1", "a"]))


def run_within(runs, kilobytes, words):
    """Returns the result of a run with so much address space."""
    return runs.run(["-c", f'ulimit -v {kilobytes}; exec "$@"', "sh", runs.program, *words], executable="/bin/sh")


# How often each of these trials is made in one round of all of them.
WORKER_TRIALS = {
    endings_are_kept: len(ENDINGS_KEPT), busy_workers: len(BUSY_WORKERS), few_lines: len(FEW_LINES),
    many_large_tables: len(SEARCHING), tables_as_asked: len(ONE_SEARCH),
    few_lines_in_little_space: len(FILE_SUBCOMMANDS),
}
