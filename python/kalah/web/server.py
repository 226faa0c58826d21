"""A board to think at, in a browser.

    python3 -m kalah web [--port N] [--host ADDRESS] [--per-minute N] LINE

It prints the address of a page that shows this position, and serves it to this machine alone until Ctrl-C. There one plays, alone or
against the solver, tries other moves, opens a game that was played, and sees what each move is worth and what it lost. The address has
the game after its `#`, so a link opens it at the move that is shown. The page links the rules, and a review of the game to print.

With --host it serves a class: all who reach this machine by ADDRESS. Then a position that takes more than a second is refused, and so
are more than 300 questions a minute from one address, and twenty times as many from all; --per-minute N sets that number for one address.
A move of a game costs one to four questions, so a class behind one address, as in many schools, needs some 100 for each pupil. A client has
ten seconds for a request, and 300 connections; 400 are open at most, or fewer if the system allows fewer files. Standard error says whom
that shuts out.

The page posts lines to /moves, /values, /best, /line and /ahead, and records to /game. Each of these gets one JSON object: an answer, or
an `error` and a status that is not 200. There may be any number of seeds, up to 99 in a house at the start. With more than 31 in houses
/values is refused, and /best names the house that seems best to a search of a few moves, and says so. Each reply has the version of
the page, which takes no answer of another. It needs `kalah`, as `help(kalah)` says.
"""

from __future__ import annotations

import hashlib
import html
import io
import json
import re
import socket
import sys
import threading
from contextlib import suppress
from functools import partial
from http import HTTPStatus
from http.server import BaseHTTPRequestHandler, ThreadingHTTPServer
from pathlib import Path
from typing import Any, Callable, Optional
from urllib.parse import quote, unquote

from .. import __version__, rules
from ..answers import Best, Fault, Gone, Late, Values
from ..client import Client, Run, find
from ..script import arguments, position, whole
from .answers import Busy, Pool, ahead, as_dict, best, best_play, opened, review
from .limits import Connections, Notices, Quota, Timed, host

# The files of the page, each with its kind.
FILES = {
    "/": ("web.html", "text/html"),
    "/rules": ("rules.html", "text/html"),
    "/web.css": ("web.css", "text/css"),
    "/board.js": ("board.js", "text/javascript"),
    "/web.js": ("web.js", "text/javascript"),
    "/rules.js": ("rules.js", "text/javascript"),
}
PAGES = {path: Path(__file__).with_name(name).read_bytes() for path, (name, _) in FILES.items()}
# A page that was kept takes no answers of a program that serves another one.
VERSION = f"{__version__}-{hashlib.sha256(b''.join(PAGES.values())).hexdigest()[:8]}"
# What the page shows if its address has no position, and its version, as they stand there.
USUAL, UNKNOWN = b'data-start="4,4,4/0 4,4,4/0"', b'data-version=""'
# Only this machine gets an answer, if no other host is named, and of its pages only the one that is served here.
NAMES = ["127.0.0.1", "localhost"]
# The seconds of a question, and the questions of a client in a minute (0: any number): of a class, and of this machine.
OF_A_CLASS, OF_THIS_MACHINE = (1, 300), (60, 0)
# The seconds that a client has for its whole request, and for taking the reply.
SECONDS_OF_A_REQUEST = 10
HEADERS = {
    "Content-Security-Policy": "default-src 'none'; script-src 'self'; style-src 'self' 'unsafe-inline'; img-src data:; "
    "connect-src 'self'; base-uri 'none'; form-action 'none'; frame-ancestors 'none'",
    "X-Content-Type-Options": "nosniff",
    "Referrer-Policy": "no-referrer",
    "Cache-Control": "no-store",
    "Kalah-Version": VERSION,
}
# How many runs of `kalah` answer each kind of question, how many questions are answered or wait at a time, and how many seconds one waits.
RUNS, MOST_AT_ONCE, PATIENCE = 2, 100, 30.0
# The most bytes of a line and of a record that are asked, and of what is too long the most that are read before it is refused.
LONGEST, LONGEST_GAME, MOST_READ = 200, 4000, 1 << 20


class Refused(Exception):
    """A request that gets no answer: its status, and why."""

    def __init__(self, status: int, why: str):
        super().__init__(why)
        self.status = status


class Handler(BaseHTTPRequestHandler):
    """One request."""

    server: Server
    timeout = SECONDS_OF_A_REQUEST
    # What is no request gets a reply with headers, too.
    default_request_version = request_version = "HTTP/1.0"
    command, requestline = "", ""

    def setup(self) -> None:
        super().setup()
        self.rfile.close()
        self.rfile = io.BufferedReader(Timed(self.connection, self.server.seconds_of_a_request))

    def do_GET(self) -> None:
        self.serve(self.page)

    def do_POST(self) -> None:
        self.serve(self.answer)

    def serve(self, find: Callable[[bytes], tuple[str, bytes]]) -> None:
        try:
            body = self.body()
            self.check_sender()
            kind, content = find(body)
        except Refused as why:
            self.refuse(why.status, str(why))
        else:
            self.reply(200, kind, content)

    def body(self) -> bytes:
        """Returns the bytes after the headers. They are read even if the request is refused then, as many clients read no reply before."""
        lengths: list[str] = self.headers.get_all("Content-Length", [])
        if self.command == "GET" and not lengths:
            return b""
        if "Transfer-Encoding" in self.headers or len(lengths) != 1 or not re.fullmatch("[0-9]{1,18}", lengths[0]):
            raise Refused(411, "a question has one Content-Length")
        length, longest = int(lengths[0]), LONGEST_GAME if self.path == "/game" else LONGEST
        try:
            body = self.rfile.read(min(length, MOST_READ))
        except socket.timeout:
            raise Refused(408, "the question has not come in time") from None
        if length > longest:
            raise Refused(413, f"a question has at most {longest} bytes")
        if len(body) < length:
            raise Refused(400, "the question is cut")
        return body

    def check_sender(self) -> None:
        """Another page may have this machine's address under a name of its own, or post to it."""
        hosts: list[str] = self.headers.get_all("Host", [])
        origins: list[str] = self.headers.get_all("Origin", [])
        if len(hosts) != 1 or hosts[0].lower() not in self.server.hosts:
            raise Refused(403, "this host is not served")
        if any(origin not in [f"http://{host}" for host in self.server.hosts] for origin in origins):
            raise Refused(403, "a page of another origin gets no answer")

    def page(self, body: bytes) -> tuple[str, bytes]:
        path, _, record = str(self.path).partition("?")
        if path == "/review" and record:
            return "text/html; charset=utf-8", self.asked(self.server.review, unquote(record))
        if self.path not in FILES:
            raise Refused(404, "there is no such page")
        return f"{FILES[self.path][1]}; charset=utf-8", self.server.pages[self.path]

    def answer(self, body: bytes) -> tuple[str, bytes]:
        ask = self.server.ask.get(self.path)
        if not ask:
            raise Refused(404, "there is no such question")
        try:
            return "application/json", as_json(as_dict(self.asked(ask, body.decode())))
        except UnicodeDecodeError:
            raise Refused(400, "a question is text in UTF-8") from None

    def asked(self, ask: Callable[[str], Any], text: str) -> Any:
        """Returns the answer to a question, if this client may ask it."""
        client = self.client_address[0]
        if not self.server.quota.takes(client):
            self.server.notices.say(f"{client} is shut out: too many questions in this minute")
            raise Refused(429, f"too many questions from here: at most {self.server.quota.most} a minute")
        if not self.server.room.acquire(blocking=False):
            raise Refused(503, "too many questions at once")
        try:
            return ask(text)
        except Busy:
            raise Refused(503, "too many questions at once") from None
        except Gone as why:
            raise Refused(503, f"too large here: {why}" if isinstance(why, Late) else str(why)) from None
        except ValueError as why:
            raise Refused(422 if isinstance(why, (Fault, rules.TooMany)) else 400, str(why)) from None
        finally:
            self.server.room.release()

    def log_error(self, *_: object) -> None:
        """A request that has not come in time, which http.server would drop without a word."""
        with suppress(OSError):
            self.refuse(408, "the request has not come in time")

    def send_error(self, code: int, *_: Any) -> None:
        """What http.server itself refuses, whose words may be those of the client."""
        self.refuse(code, HTTPStatus(code).phrase)

    def refuse(self, status: int, why: str) -> None:
        self.reply(status, "application/json", as_json({"error": why}))

    def reply(self, status: int, kind: str, content: bytes) -> None:
        self.connection.settimeout(self.timeout)
        self.send_response(status)
        for name, value in {**HEADERS, "Content-Type": kind, "Content-Length": len(content)}.items():
            self.send_header(name, str(value))
        self.end_headers()
        if self.command != "HEAD":
            self.wfile.write(content)

    def log_message(self, *_: object) -> None:
        pass


class Server(ThreadingHTTPServer):
    """Serves the page, and answers its questions: those of this machine, or, if `host` is its address for others, those of a class."""

    request_queue_size = 128
    seconds_of_a_request: float = SECONDS_OF_A_REQUEST

    def __init__(self, port: int, program: Optional[str] = None, timeout: float = 0, host: str = "", most: int = 0):
        of_one, usual = OF_A_CLASS if host else OF_THIS_MACHINE
        seconds = timeout or of_one
        self.quota, self.connections, self.notices = Quota(most or usual), Connections(), Notices()
        # While one question has all the time of this machine, others wait for it.
        patience = max(PATIENCE, seconds)
        values = Pool([Client(Values, program, seconds) for _ in range(RUNS)], patience)
        bests = Pool([Client(Best, program, seconds) for _ in range(RUNS)], patience)
        self.pools: list[Run[Any]] = [values, bests]
        self.ask: dict[str, Callable[[str], Any]] = {
            "/game": opened,
            "/moves": rules.steps,
            "/values": partial(rules.ask, values),
            "/best": partial(best, bests),
            "/line": partial(best_play, bests, seconds),
            "/ahead": ahead,
        }
        self.review = partial(review, values)
        self.pages = {path: page.replace(UNKNOWN, f'data-version="{VERSION}"'.encode()) for path, page in PAGES.items()}
        self.names = [host.lower()] if host else NAMES
        super().__init__((self.names[0], port), Handler)
        self.room = threading.BoundedSemaphore(MOST_AT_ONCE)
        # A browser leaves out the port that is usual.
        self.hosts = [name + port for name in self.names for port in (f":{self.server_port}", "")[: 1 + (self.server_port == 80)]]

    def begin_with(self, line: str) -> None:
        """Makes this the position of the page whose address has none."""
        self.pages["/"] = self.pages["/"].replace(USUAL, f'data-start="{html.escape(line)}"'.encode())

    def process_request(self, request: Any, client_address: Any) -> None:
        """Begins a thread for a connection, if there may be one more."""
        client = client_address[0]
        if not self.connections.takes(client):
            self.notices.say(f"{client} is shut out: too many connections are open")
            self.turn_away(request)
            return
        try:
            super().process_request(request, client_address)
        except BaseException:
            self.connections.ends(client)
            raise

    def process_request_thread(self, request: Any, client_address: Any) -> None:
        try:
            super().process_request_thread(request, client_address)
        finally:
            self.connections.ends(client_address[0])

    def turn_away(self, request: socket.socket) -> None:
        """Says why a connection is closed, without a wait for its client."""
        said = as_json({"error": "too many connections from here"})
        head = f"HTTP/1.0 503 Service Unavailable\r\nContent-Type: application/json\r\nContent-Length: {len(said)}\r\n\r\n"
        with suppress(OSError):
            request.setblocking(False)
            request.send(head.encode() + said)
        self.shutdown_request(request)

    def server_close(self) -> None:
        super().server_close()
        for pool in self.pools:
            pool.close()

    def handle_error(self, request: Any, client_address: Any) -> None:
        why = sys.exc_info()[1]
        if not isinstance(why, OSError):
            return super().handle_error(request, client_address)
        print(f"web: a client has gone away: {why}", file=sys.stderr, flush=True)

    def address(self, line: str) -> str:
        return f"http://{self.names[0]}:{self.server_port}/#{quote(line, safe=',/&=:')}"


def as_json(answer: Any) -> bytes:
    return json.dumps(answer).encode()


def served_at(port: int, host: str, most: int) -> Server:
    """Returns a server that listens. Fails with `Gone` if the port can't be had."""
    try:
        return Server(port, host=host, most=most)
    except OSError as why:
        raise Gone(f"port {port}: {str(why.strerror).lower()}; with --port 0 it takes one that is free") from None


def main() -> None:
    parser = arguments(__doc__)
    of_class = "the questions of one address in a minute (300 with --host)"
    of_port = "the port of the address (8000); with 0 any that is free"
    questions, ports = whole(1, 1_000_000, "a number from 1 to 1000000"), whole(0, 65_535, "a port from 0 to 65535")
    parser.add_argument("--host", type=host, metavar="ADDRESS", help="the address of this machine, or its name, for a class")
    parser.add_argument("--per-minute", type=questions, default=0, metavar="N", help=of_class)
    parser.add_argument("--port", type=ports, default=8000, metavar="N", help=of_port)
    parser.add_line()
    asked = parser.parse_args()
    line = position(asked.line)
    find()
    with served_at(asked.port, asked.host or "", asked.per_minute) as server:
        server.begin_with(line)
        print(server.address(line), flush=True)
        server.serve_forever()
