"""What the trials see of a process while it runs, and the pipes, terminals and files that it writes to."""

import ctypes
import fcntl
import os
import pty
import re
import select
import sys
import tempfile
import termios
import time
import tty
from contextlib import suppress
from pathlib import Path

from lib.failing import PATIENCE, SOON, Failed


def two_ends(place):
    """Returns the two ends of a pipe, of a terminal or of a new file: what is written to the second is read from the first."""
    if place == "pipe":
        return os.pipe()
    if place == "terminal":
        reader, writer = pty.openpty()
        tty.setraw(writer)
        return reader, writer
    writer, name = tempfile.mkstemp()
    reader = os.open(name, os.O_RDONLY)
    os.remove(name)
    return reader, writer


def read_all(reader, process):
    """Reads until all writers are closed. If that takes too long, ends the process."""
    got, end = b"", time.monotonic() + PATIENCE
    with suppress(OSError):
        while select.select([reader], [], [], max(0.0, end - time.monotonic()))[0]:
            piece = os.read(reader, 65536)
            if not piece:
                return got
            got += piece
        process.kill()
        raise Failed(f"what the run writes has not ended after {PATIENCE} seconds")
    return got


def spent_by(process):
    """Returns the processor time of the process's first thread, in nanoseconds."""
    return int(Path(f"/proc/{process.pid}/schedstat").read_text().split()[0])


def ticks_of(process):
    """Returns the processor time of each thread of the process, in ticks of the clock."""
    ticks = {}
    for thread in Path(f"/proc/{process.pid}/task").iterdir():
        with suppress(FileNotFoundError):
            numbers = (thread / "stat").read_text().rpartition(")")[2].split()
            ticks[int(thread.name)] = int(numbers[11]) + int(numbers[12])
    return ticks


def busy_threads(process):
    """How many threads of the process, but for its first, were at work for two ticks of the clock or more."""
    return sum(thread != process.pid and ticks >= 2 for thread, ticks in ticks_of(process).items())


def in_memory(process, which="VmRSS"):
    """Returns how much of the process is in memory, in kB; `VmHWM` is the most there was so far."""
    return int(re.search(rf"{which}:\s*(\d+)", Path(f"/proc/{process.pid}/status").read_text())[1])


def bytes_in(reader):
    """Returns how many bytes of a pipe are there to be read."""
    return int.from_bytes(fcntl.ioctl(reader, termios.FIONREAD, bytes(4)), sys.byteorder)


def has_open(process, path):
    """Whether the process has the file open."""
    opened = set()
    with suppress(FileNotFoundError):
        for descriptor in Path(f"/proc/{process.pid}/fd").iterdir():
            with suppress(FileNotFoundError):
                opened.add(os.readlink(descriptor))
    return str(path) in opened


def give_up_reading():
    """From the next program on, root reads no more than its files permit: it lacks the capabilities to override that."""
    for capability in (1, 2):
        ctypes.CDLL(None).prctl(24, capability, 0, 0, 0)


def soon(what, holds):
    """Waits until this holds."""
    end = time.monotonic() + SOON
    while not holds():
        if time.monotonic() > end:
            raise Failed(f"{SOON} seconds have passed without this: {what}")
        time.sleep(0.001)


def fill(pipe, data, process):
    """Writes the data to a pipe with a name, which the process opens next, and waits until it has closed it again."""
    opened = []

    def is_opened():
        with suppress(OSError):
            opened.append(os.open(pipe, os.O_WRONLY | os.O_NONBLOCK))
        return opened

    soon(f"the run opens {pipe}", is_opened)
    os.set_blocking(opened[0], True)
    with open(opened[0], "wb", buffering=0) as writer, suppress(BrokenPipeError):
        writer.write(data)
        soon(f"the run has {pipe} open", lambda: has_open(process, pipe))
    soon(f"the run closes {pipe}", lambda: not has_open(process, pipe))
