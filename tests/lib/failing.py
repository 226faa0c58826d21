"""How a trial fails, and how long trials wait for the output and the end of a run."""

import os
import select
import time

# The seconds after which an answer is considered missing while the run goes on.
SOON = 30

# The seconds after which a run counts as endless.
PATIENCE = 120


class Failed(Exception):
    """A trial has failed: a run did something else than it must."""


def must(holds, what):
    if not holds:
        raise Failed(what)


def equal(got, want, what):
    """Two values must be equal. Both are shown if they aren't."""
    must(got == want, f"{what}:\n  {want!r} is wanted\n  {got!r} has come")


def read_soon(reader, size):
    """Reads up to `size` bytes, as far as they come soon."""
    got, end = b"", time.monotonic() + SOON
    while len(got) < size and time.monotonic() < end:
        if select.select([reader], [], [], 0.01)[0]:
            piece = os.read(reader, size - len(got))
            got += piece
            if not piece:
                # The end of a file, so far.
                time.sleep(0.01)
    return got


def piece_in(reader, wait=0.0):
    """Reads what there is, or nothing if nothing comes within the seconds of `wait`."""
    return os.read(reader, 1 << 16) if select.select([reader], [], [], wait)[0] else b""


def read_piece(reader):
    """Reads what there is, once something has come, or nothing if nothing comes soon."""
    end = time.monotonic() + SOON
    while time.monotonic() < end:
        if piece := piece_in(reader, 0.01):
            return piece
        # The end of a file, so far.
        time.sleep(0.001)
    return b""
