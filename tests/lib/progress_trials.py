"""The trials of `--progress`: what it shows on pipes, terminals and files, and that the answers are the same as without it."""

import os
import re
import tempfile
import time
from itertools import product

from lib import reference
from lib.failing import PATIENCE, Failed
from lib.message_trials import tip_for_marks
from lib.processes import read_all, two_ends
from lib.random_data import QUICK
from lib.reference import Run

# The standard error on which progress is shown, and the lines of the run: none, many quick ones with as many workers as there may be, or
# any.
PROGRESS = list(product(["pipe", "terminal", "file", "/dev/full", "closed"], ["none", "quick", "any"]))

# The standard streams that are terminals in a run that shows its progress.
TERMINALS = [("stdout", "stderr"), ("stdin", "stderr"), ("stdin", "stdout")]


def in_seconds(left):
    """Returns the seconds of a time left as progress shows it."""
    _, count, unit, _ = left.split()
    return int(count) * {"s": 1, "min": 60, "h": 3600}[unit]


def progress(runs):
    """Standard error shows how many lines are answered, and standard output is the same as without."""
    place, lines = runs.drawn.card("progress", PROGRESS)
    files = files_of_progress(runs, lines)
    runs.put(dict(files))
    subcommand = runs.subcommand()
    want = reference.answers(subcommand, [(name.encode(), data) for name, data in files])
    words = runs.drawn.words(subcommand, [name for name, _ in files])
    if lines == "quick":
        words = [subcommand, "--workers=64", *(name for name, _ in files)]
    words.insert(1 if "--" in words else runs.drawn.chance.choice([1, len(words)]), "--progress")
    if place in ("/dev/full", "closed"):
        got = runs.run_in_shell(words, "2>&-" if place == "closed" else f"2>{place}")
        runs.compare(want, got)
        return
    reader, writer = two_ends(place)
    begun = time.monotonic()
    with tempfile.TemporaryFile() as out, runs.start(words, stdout=out, stderr=writer) as process:
        os.close(writer)
        if place == "file":
            process.wait(PATIENCE)
        shown = read_all(reader, process)
        process.wait(PATIENCE)
        took = time.monotonic() - begun
        out.seek(0)
        runs.compare(want._replace(err=shown), Run(out.read(), shown, process.returncode))
    os.close(reader)
    tip = tip_for_marks(data for _, data in files) if place == "terminal" else b""
    look_at_progress(runs, shown, sum(len(reference.lines_of(data)) for _, data in files), place == "terminal", took, tip)


def progress_beside_answers(runs):
    """One line of progress is rewritten on a terminal only if the answers go elsewhere. What is typed at doesn't count."""
    terminals = runs.drawn.card("terminals", TERMINALS)
    data = runs.drawn.file(runs.drawn.chance.randint(1, 7))
    runs.put({"a": data})
    subcommand = runs.subcommand()
    begun = time.monotonic()
    ends = {stream: two_ends("terminal" if stream in terminals else "pipe") for stream in ("stdin", "stdout", "stderr")}
    streams = {stream: ends[stream][stream != "stdin"] for stream in ends}
    if "stdin" in terminals:
        streams["stdin"] = ends["stdin"][1]
    with runs.start([subcommand, "--progress", "a"], **streams) as process:
        for stream in ("stdout", "stderr"):
            os.close(ends[stream][1])
        got = {stream: read_all(ends[stream][0], process) for stream in ("stdout", "stderr")}
        status = process.wait(PATIENCE)
    for end in (*ends["stdin"], ends["stdout"][0], ends["stderr"][0]):
        os.close(end)
    want = reference.answers(subcommand, [(b"a", data)])
    runs.compare(want._replace(err=got["stderr"]), Run(got["stdout"], got["stderr"], status))
    tip = tip_for_marks([data]) if "stderr" in terminals else b""
    took = time.monotonic() - begun
    look_at_progress(runs, got["stderr"], len(reference.lines_of(data)), terminals == ("stdin", "stderr"), took, tip)


def progress_is_ended(runs):
    """If a write fails, the line of progress that is rewritten on a terminal is ended before that is said."""
    runs.put({"a": b"".join(runs.drawn.full_position() + b"\n" for _ in range(200))})
    reader, writer = two_ends("terminal")
    with open("/dev/full", "wb") as full, runs.start([runs.searching(), "--progress", "a"], stdout=full, stderr=writer) as process:
        os.close(writer)
        said = read_all(reader, process)
        status = process.wait(PATIENCE)
    os.close(reader)
    rows = rb"(\rkalah: \d+ of 200 lines, \d+ %(, \d+ \w+ left)?\x1b\[K)+\nkalah: write failed\n"
    tip = rb"  tip: the disk is full, or the reader of the output has left\n"
    if status != 2 or not re.fullmatch(rows + tip, said) or b" 200 of " in said:
        raise Failed(f"status {status}, and progress is shown as {said[-200:]!r}, not as 2 and {(rows + tip).decode()}")


def files_of_progress(runs, lines):
    """Returns two files for a run with `--progress`."""
    if lines == "quick":
        return [("a", QUICK * 2500), ("b", b"")]
    sizes = [0] if lines == "none" else [0, 1, 7, 150, 2500]
    return [(name, runs.drawn.file(runs.drawn.chance.choice(sizes))) for name in ("a", "b")]


def look_at_progress(runs, said, lines, in_place, took, tip):
    """The shown numbers rise from none to all lines, each with its share: a line for each per cent, or one line that is rewritten.
    The time left is what the other lines take at the rate so far, in a run that took so many seconds. Behind it stands this tip."""
    if not said.endswith(tip):
        raise Failed(f"{tip} is missing after {said[-100:]!r}")
    shown = said.removesuffix(tip).decode()
    begin, end = ("\r", "\x1b[K") if in_place else ("", "\n")
    rows = [(int(answered), left) for answered, left in re.findall(r"kalah: (\d+) of \d+ lines, \d+ %(, \d+ (?:s|min|h) left)?", shown)]
    again = [f"{begin}kalah: {n} of {lines} lines, {100 * n // lines if lines else 100} %{left}{end}" for n, left in rows]
    counts = [n for n, _ in rows]
    if shown != "".join(again) + "\n" * in_place or counts != sorted(set(counts)) or rows[0] != (0, "") or rows[-1] != (lines, ""):
        form = f"{again[:2]} .. {again[-2:]}, from 0 to {lines}"
        raise Failed(f"progress is shown as {shown[:300]!r} .. {shown[-100:]!r}, in place of {form}")
    for answered, left in rows:
        if left and in_seconds(left) > took * (lines - answered) / answered:
            raise Failed(f"{left} is shown after {answered} of {lines} lines, in a run of {took:.1f} s")
    parts = 1000 if in_place else 100
    steps = {-(-lines * part // parts) for part in range(parts + 1)}
    if steps - set(counts) or (set(counts) - steps and not in_place):
        raise Failed(f"progress leaves out {sorted(steps - set(counts))} of {lines} lines, or shows a share twice: {counts}")


# How often each of these trials is made in one round of all of them.
PROGRESS_TRIALS = {
    progress: len(PROGRESS), progress_beside_answers: len(TERMINALS), progress_is_ended: 1,
}
