"""What `web` allows its clients: how many questions a minute, how many connections, how much time for a request, and which address."""

from __future__ import annotations

import argparse
import fcntl
import io
import ipaddress
import resource
import socket
import struct
import sys
import threading
import time
from collections import Counter
from contextlib import suppress
from typing import Any, Callable

# What all clients together may ask, as a multiple of what one may.
IN_ALL = 20
# The most connections, if the process may open as many files, and the files that it needs for anything else.
MOST_CONNECTIONS, OTHER_FILES = 400, 56
# The request of Linux for the address of a network interface.
SIOCGIFADDR = 0x8915
TYPED = "ADDRESS is the one by which the others reach this machine"


class Quota:
    """Counts the questions of each client in a minute. `most` is what one client may ask; 0 is any number."""

    def __init__(self, most: int, clock: Callable[[], float] = time.monotonic):
        self.most, self.clock, self.minute, self.lock = most, clock, 0.0, threading.Lock()
        self.asked: Counter[str] = Counter()

    def takes(self, client: str) -> bool:
        """Returns whether a client may ask one more, and counts it then."""
        with self.lock:
            minute = self.clock() // 60
            if minute != self.minute:
                self.minute, self.asked = minute, Counter()
            may = not self.most or (self.asked[client] < self.most and sum(self.asked.values()) < IN_ALL * self.most)
            self.asked[client] += may
            return may


class Connections:
    """Counts the connections of each client that are open. One client may have three quarters of all."""

    def __init__(self, in_all: int = MOST_CONNECTIONS):
        files, _ = resource.getrlimit(resource.RLIMIT_NOFILE)
        self.in_all = in_all if files == resource.RLIM_INFINITY else min(in_all, files - OTHER_FILES)
        self.of_one, self.lock = self.in_all * 3 // 4, threading.Lock()
        self.open: Counter[str] = Counter()

    def takes(self, client: str) -> bool:
        """Returns whether a client may open one more, and counts it then."""
        with self.lock:
            may = self.open[client] < self.of_one and sum(self.open.values()) < self.in_all
            self.open[client] += may
            return may

    def ends(self, client: str) -> None:
        with self.lock:
            self.open[client] -= 1
            # Clients that are gone are not kept.
            self.open += Counter()


class Notices:
    """Says on standard error who gets no answer, of each client the same thing once a minute."""

    def __init__(self) -> None:
        self.minute, self.lock = 0.0, threading.Lock()
        self.said: set[str] = set()

    def say(self, text: str) -> None:
        with self.lock:
            minute = time.monotonic() // 60
            if minute != self.minute:
                self.minute, self.said = minute, set()
            if text not in self.said:
                self.said.add(text)
                print(f"web: {text}", file=sys.stderr, flush=True)


class Timed(io.RawIOBase):
    """Reads from a connection. All that is read must come within this many seconds."""

    def __init__(self, connection: socket.socket, seconds: float):
        self.connection, self.end = connection, time.monotonic() + seconds

    def readable(self) -> bool:
        return True

    def readinto(self, buffer: Any) -> int:
        left = self.end - time.monotonic()
        if left <= 0:
            raise socket.timeout("timed out")
        self.connection.settimeout(left)
        return self.connection.recv_into(buffer)


def addresses() -> list[str]:
    """Returns the addresses of this machine, those for itself alone last."""
    found = set()
    with socket.socket(socket.AF_INET, socket.SOCK_DGRAM) as one:
        for _, name in socket.if_nameindex():
            with suppress(OSError):
                answer = fcntl.ioctl(one, SIOCGIFADDR, struct.pack("256s", name.encode()[:15]))
                found.add(socket.inet_ntoa(answer[20:24]))
    return sorted(found, key=lambda address: (ipaddress.ip_address(address).is_loopback, address))


def host(text: str) -> str:
    """Returns an address of this machine that others can type, or its name. Any spelling of all addresses is none."""
    there = ", ".join(addresses()) or "none that is known"
    try:
        found = {ipaddress.ip_address(info[4][0]) for info in socket.getaddrinfo(text or "0", None, socket.AF_INET)}
    except (OSError, UnicodeError):
        raise argparse.ArgumentTypeError(f"{TYPED}: it has {there}, and no {text!r}") from None
    if any(address.is_unspecified or address.is_multicast for address in found):
        raise argparse.ArgumentTypeError(f"{TYPED}: it has {there}, and {text!r} is none of them")
    try:
        with socket.socket(socket.AF_INET, socket.SOCK_STREAM) as one:
            one.bind((text, 0))
    except OSError:
        raise argparse.ArgumentTypeError(f"{TYPED}: it has {there}, and no {text!r}") from None
    return text.lower()
