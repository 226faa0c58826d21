"""Runs of the program that tests/agree tries, and how their results are compared."""

import os
import resource
import shutil
import subprocess
from itertools import zip_longest

from lib.failing import PATIENCE, Failed
from lib.random_data import FILE_SUBCOMMANDS, SEARCHING, Drawn
from lib.reference import Run


def difference(want, got):
    """Returns the first difference between two runs."""
    for stream, wanted, found in (("output", want.out, got.out), ("error", want.err, got.err)):
        for number, (line, other) in enumerate(zip_longest(wanted.split(b"\n"), found.split(b"\n")), 1):
            if line != other:
                return f"standard {stream}, line {number}:\n  {shown(line)} is wanted\n  {shown(other)} has come"
    return f"status {want.status} is wanted, and {got.status} has come"


def shown(line):
    return "no line" if line is None else f"{line[:200]}{' ..' * (len(line) > 200)}"


class Runs:
    """Runs of a program, in a folder with files. A trial draws arguments and files, runs the program and compares the result."""

    def __init__(self, program, seed, folder):
        self.program, self.folder, self.files = program, folder, folder / "files"
        self.drawn = Drawn(seed)
        self.made = self.lines = 0
        self.executable = ""

    def put(self, files):
        """Makes a folder with only these files and a folder `folder`."""
        shutil.rmtree(self.files, ignore_errors=True)
        (self.files / "folder").mkdir(parents=True)
        for name, data in files.items():
            (self.files / name).write_bytes(data)

    def start(self, words, name="kalah", executable=None, **streams):
        """Starts the program, and stores its arguments, each followed by a byte of 0."""
        (self.folder / "words").write_bytes(b"".join(os.fsencode(word) + b"\0" for word in words))
        self.made += 1
        self.executable = executable or self.program
        streams = {"stdin": subprocess.DEVNULL, "stdout": subprocess.PIPE, "stderr": subprocess.PIPE} | streams
        return subprocess.Popen([name, *words], executable=self.executable, cwd=self.files, **streams)

    def words(self):
        """Returns the arguments of the last run."""
        return (self.folder / "words").read_bytes().split(b"\0")[:-1]

    def run(self, words, name="kalah", **streams):
        """Returns the result of a run."""
        return self.end_of(self.start(words, name, **streams))

    def run_in_shell(self, words, streams):
        return self.run(["-c", f'exec "$@" {streams}', "sh", self.program, *words], executable="/bin/sh")

    def timed(self, run):
        """Returns the result of a run, and the processor time that it took, in seconds."""
        before = resource.getrusage(resource.RUSAGE_CHILDREN)
        result = run()
        after = resource.getrusage(resource.RUSAGE_CHILDREN)
        return result, after.ru_utime + after.ru_stime - before.ru_utime - before.ru_stime

    def end_of(self, process, patience=PATIENCE, more=None):
        """Writes more to the run's standard input, if it is a pipe, and returns the result of the run."""
        try:
            out, err = process.communicate(more, timeout=patience)
        except subprocess.TimeoutExpired:
            process.kill()
            raise Failed(f"the run has not ended after {patience} seconds") from None
        return Run(out or b"", err or b"", process.returncode)

    def compare(self, want, got):
        self.lines += want.out.count(b"\n")
        if want != got:
            raise Failed(difference(want, got))

    def subcommand(self):
        return self.drawn.card("subcommands", FILE_SUBCOMMANDS)

    def searching(self):
        return self.drawn.card("searching", SEARCHING)
