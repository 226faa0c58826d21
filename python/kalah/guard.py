"""Ends an engine and all that it started when this process ends, however that is: a shell waits for the end of a pipe."""

from __future__ import annotations

import os
import signal
import subprocess
from contextlib import suppress

# Starts the engine with what this shell reads and writes, waits until nobody can write to the other pipe, and ends the group of processes.
START = 'exec 4< "/dev/fd/$0" 3<&0; "$@" <&3 3<&- 4<&- & exec < /dev/null > /dev/null 3<&-; read -r _ <&4; kill -s KILL -- "-$$"'


class Guarded(subprocess.Popen[bytes]):
    """An engine, in a group of processes that the shell leads."""

    def __init__(self, words: list[str]):
        reader, self._writer = os.pipe()
        pipe = subprocess.PIPE
        try:
            guarded = ["sh", "-c", START, str(reader), *words]
            super().__init__(guarded, stdin=pipe, stdout=pipe, bufsize=0, start_new_session=True, pass_fds=(reader,))
        finally:
            os.close(reader)

    def kill(self) -> None:
        """Ends the group. Its leader was not waited for, so no other group has its number."""
        with suppress(ProcessLookupError):
            os.killpg(self.pid, signal.SIGKILL)
        os.close(self._writer)
