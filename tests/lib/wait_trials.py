"""The trials of runs whose threads wait for one another: no thread sleeps on beside what it waits for, or spins until it comes."""

import fcntl
import os
import re
import subprocess
import sys
import time
from contextlib import contextmanager, suppress
from pathlib import Path

from lib import reference
from lib.failing import SOON, Failed, piece_in
from lib.processes import ticks_of
from lib.random_data import EASY, HARD, HARD_LINE
from lib.reference import Run

# The numbers of workers of a run whose reader leaves after a second at most, and how many hard lines it has.
LEFT_WITH_LINES_UNDER_WAY = [*[(4, 10), (8, 10)] * 7, *[(4, 0), (8, 0)] * 2, *[(64, 10), (64, 0)]]

# How often outcomes are put late, by how many workers, and for how many ticks of the clock these may be at work until all have come.
LATE_OUTCOMES, LATE_WORKERS, LATE_TICKS = 12, 4, 20

# For how many ticks of the clock a worker is observed.
AT_WORK = 100

# The places of the results queue.
LIMITS = Path(__file__).resolve().parents[2] / "crates/kalah_run/src/limits.rt"
if not (found := re.search(r"const QUEUE_CAPACITY: u32 = (\d+);", LIMITS.read_text())):
    sys.exit(f"late_outcomes needs to know the places of the results queue: {LIMITS} has no QUEUE_CAPACITY in the form that is known here")
CAPACITY = int(found[1])

# The call that sets the size of a pipe, and the least and a great size.
F_SETPIPE_SZ, SMALL, LARGE = 1031, 1 << 12, 1 << 20


def workers_of(process):
    """Returns the processor time of each thread of the process but its first."""
    return {thread: ticks for thread, ticks in ticks_of(process).items() if thread != process.pid}


@contextmanager
def hardly_runs(threads):
    """Lets these threads run only where another program is at work, and only if that lets them. One that has ended is left out."""
    processor = {max(os.sched_getaffinity(0))}
    for thread in threads:
        with suppress(ProcessLookupError):
            os.sched_setaffinity(thread, processor)
            os.sched_setscheduler(thread, os.SCHED_IDLE, os.sched_param(0))
    with subprocess.Popen([sys.executable, "-c", "while True: pass"], preexec_fn=lambda: os.sched_setaffinity(0, processor)) as other:
        try:
            time.sleep(0.1)
            yield
        finally:
            other.kill()


def left_with_lines_under_way(runs):
    """A run ends soon once its reader has left, if its workers then wait for room as well as if they solve a line that takes long while
    the calling thread sleeps."""
    workers, hard = runs.drawn.card("left with lines under way", LEFT_WITH_LINES_UNDER_WAY)
    runs.put({"a": EASY * 4000 + (HARD_LINE + EASY * 200) * hard + EASY * 100_000})
    reader, writer = os.pipe()
    with runs.start(["solve", "--table=1", f"--workers={workers}", "a"], stdout=writer) as process:
        os.close(writer)
        time.sleep(runs.drawn.chance.uniform(0.1, 1))
        os.close(reader)
        runs.compare(Run(b"", b"kalah: write failed\n", 2), runs.end_of(process, SOON)._replace(out=b""))


def late_outcomes(runs):
    """Easy lines are answered though the last outcomes were put late, as there was no room, and the workers are at work on hard lines
    then. Once there is room, the workers hardly run, so that the calling thread finds the queue empty and sleeps before."""
    easy = 1 + CAPACITY + LATE_WORKERS
    runs.put({"a": EASY * easy + HARD})
    want = reference.answers("solve", [(b"a", EASY * easy)]).out
    for _ in range(LATE_OUTCOMES):
        reader, writer = os.pipe()
        os.write(writer, bytes(fcntl.fcntl(writer, F_SETPIPE_SZ, SMALL)))
        with runs.start(["solve", "--table=1", f"--workers={LATE_WORKERS}", "a"], stdout=writer) as process:
            os.close(writer)
            try:
                got = read_late(runs, process, reader, SMALL + len(want))
            finally:
                process.kill()
                os.close(reader)
        runs.compare(Run(want, b"", 0), Run(got[SMALL:], b"", 0))


def read_late(runs, process, reader, size):
    """Reads so much of a full pipe and of what is written to it, once the workers wait for room, as long as they take little time."""
    time.sleep(0.5)
    with hardly_runs(workers_of(process)):
        fcntl.fcntl(reader, F_SETPIPE_SZ, LARGE)
        time.sleep(0.1)
    got, end, until = b"", sum(workers_of(process).values()) + LATE_TICKS, time.monotonic() + SOON
    while len(got) < size and sum(workers_of(process).values()) < end and time.monotonic() < until:
        got += piece_in(reader, 0.01)
    return got[:size]


def waits_at_rest(runs):
    """While one worker is at work, the other threads together take at most a tenth of its processor time. A thread that spins beside
    the worker on one processor may yield to it each time, so it isn't seen in each trial."""
    runs.put({"a": HARD})
    with runs.start([runs.searching(), "--table", "1", "--workers", "1", "a"]) as process:
        end = time.monotonic() + SOON
        worker = waiting = 0
        while worker < AT_WORK and time.monotonic() < end:
            time.sleep(0.05)
            *others, worker = sorted(ticks_of(process).values())
            waiting = sum(others)
        process.kill()
    if worker < AT_WORK or waiting > worker // 10:
        raise Failed(f"while the worker took {worker} ticks of the clock, the threads that wait took {waiting}")


# How often each of these trials is made in one round of all of them.
WAIT_TRIALS = {
    left_with_lines_under_way: 2 * len(LEFT_WITH_LINES_UNDER_WAY), late_outcomes: 1, waits_at_rest: 3,
}
