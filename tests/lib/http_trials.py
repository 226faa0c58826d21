"""The trials of `web` over HTTP, for tests/examples: each question gets its own answer or a clear error, also between bad requests.
"""

import io
import json
import os
import random
import re
import signal
import socket
import subprocess
import threading
import time
from argparse import ArgumentTypeError
from concurrent.futures import ThreadPoolExecutor
from contextlib import ExitStack, contextmanager, redirect_stderr
from urllib.parse import quote

from lib import reference
from lib.client_trials import LINES, MISBEHAVING, SHORT, command, fake
from lib.failing import equal, must
from lib.tool_trials import drawn_game, drawn_line

from kalah import Fault
from kalah.web import server as web
from kalah.web.limits import IN_ALL, Connections, Quota, host

DRAWN, THREADS, MOST, GAMES = 200, 40, 10, 20
# A class behind one address: its pupils, the moves that each makes, and the questions that they have in a minute.
PUPILS, MOVES, A_MINUTE = 30, 30, 4000
SOON = 30
# The seconds for a request, and between its bytes, of a client that is slow.
SHORT_TIME, A_PAUSE = 0.6, 0.1
LINE = "1,1/0 1,1/0"
# Two more addresses of this machine.
OTHER, CLIENT = "127.0.0.2", "127.0.0.3"
PATHS = ["/best", "/values", "/moves"]
# Each is an address by which nobody reaches this machine, or another one's, or none.
NOT_HERE = ["0.0.0.0", "::", "0x0", "0", "00.0", "::ffff:0.0.0.0", "", "224.0.0.1", "203.0.113.5", "no.such.invalid", "." * 70]
# What reads a text as HTML.
RISKY = ["innerHTML", "outerHTML", "insertAdjacentHTML", "document.write", "eval(", "new Function", "setTimeout("]


@contextmanager
def served(program, timeout=0, host="", most=0):
    """A server in this process, on a port that is free. It may say only that clients have gone away, or are shut out."""
    with redirect_stderr(io.StringIO()) as said, web.Server(0, str(program), timeout, host, most) as server:
        thread = threading.Thread(target=server.serve_forever)
        thread.start()
        try:
            yield server
        finally:
            server.shutdown()
            thread.join()
    look_at_errors(said.getvalue())


def look_at_errors(said):
    form = r"web: (a client has gone away: .*|[0-9.]+ is shut out: too many (connections are open|questions in this minute))"
    must(all(re.fullmatch(form, line) for line in said.splitlines()), f"web prints {said}")


def sent(port, data, to="127.0.0.1", source=""):
    """Sends these bytes, and returns the status of the reply, its headers and its body."""
    with socket.create_connection((to, port), SOON, (source, 0)) as client:
        client.sendall(data)
        reply = b"".join(iter(lambda: client.recv(1 << 16), b""))
    head, _, body = reply.partition(b"\r\n\r\n")
    first, *headers = head.decode().split("\r\n")
    return int(first.split(" ")[1]), dict(header.split(": ", 1) for header in headers), body


def request(port, body, path="/best", method="POST", host=None, more=()):
    host = f"127.0.0.1:{port}" if host is None else host
    lines = [f"{method} {path} HTTP/1.1", f"Host: {host}", *more, f"Content-Length: {len(body)}", "", ""]
    return "\r\n".join(lines).encode() + body


def asked(port, path, line):
    status, headers, body = sent(port, request(port, line.encode(), path))
    equal(headers["Content-Type"], "application/json", f"web, {path}, {line}: {headers}")
    equal((headers["Cache-Control"], headers["Kalah-Version"]), ("no-store", web.VERSION), f"web, {path}, {line}: {headers}")
    return status, json.loads(body)


def wanted(path, line):
    """Returns the status and the answer that a question must get."""
    position = reference.read(line.encode())
    if isinstance(position, str):
        return 422, {"error": str(Fault(position, line))}
    margin, house = reference.best_play(position)
    if house is None:
        return 200, {"is_over": True, "margin": margin}
    reached = {legal: reference.after(position, legal) for legal in reference.legal(position)}
    answers = {
        "/best": {"margin": margin, "house": house},
        "/values": {"by_house": {str(legal): reference.value(position, legal) for legal in reached}},
        "/moves": {"moves": [{"house": legal, "position": reference.text(to), "word": word} for legal, (to, word) in reached.items()]},
    }
    return 200, {"is_over": False, **answers[path]}


def compare(path, line, got):
    equal(got, wanted(path, line), f"web, {path}, {line}")


def places_of(line, houses, player):
    """Returns the positions of a game, as /game answers them."""
    position, places = reference.read(line.encode()), []
    for house in [*houses, None]:
        _, moves = wanted("/moves", reference.text(position))
        places.append({"line": reference.text(position), "player": player, "is_over": moves["is_over"], "moves": moves.get("moves", [])})
        if house:
            position, word = reference.after(position, house)
            player ^= word == "turn"
    return places


def record_of(line, houses, places):
    """Returns a game in letters."""
    letters = ["ABCDEF"[house - 1].lower() if place["player"] else "ABCDEF"[house - 1] for house, place in zip(houses, places)]
    return f"{line} 1{'...' if places[0]['player'] else '.'} {' '.join(letters)}"


def compare_line(line, got):
    """A line of best play makes best moves, up to the end."""
    position, (status, answer) = reference.read(line.encode()), got
    must(status == 200 and answer["is_whole"], f"web, /line, {line}: {got}")
    for house, word in zip(answer["houses"], answer["words"]):
        equal(house, reference.best_play(position)[1], f"web, /line, {line}: {answer}")
        position, reached = reference.after(position, house)
        equal(word, reached, f"web, /line, {line}: {answer}")
    must(reference.is_over(position) and len(answer["houses"]) == len(answer["words"]), f"web, /line, {line}: {answer}")


def seen(position, depth):
    """Returns the margin that a search of `depth` moves sees, which takes that of the stores where it stops."""
    if reference.is_over(position):
        return reference.best_play(position)[0]
    if not depth:
        return position.own.store - position.other.store
    reached = (reference.after(position, house) for house in reference.legal(position))
    return max(seen(to, depth - 1) * (-1 if word == "turn" else 1) for to, word in reached)


def compare_ahead(line, got):
    position = reference.read(line.encode())
    reached = {house: reference.after(position, house) for house in reference.legal(position)}
    seems = {house: seen(to, 1) * (-1 if word == "turn" else 1) for house, (to, word) in reached.items()}
    want = {"is_over": False, "house": max(seems, key=seems.get), "guessed": "it looks 2 moves ahead"}
    equal(got, (200, want), f"web, /ahead, {line}: {got}, and {seems}")


def is_host(address):
    """Whether --host takes an address. If not, it says by which one this machine is reached."""
    try:
        return bool(host(address))
    except ArgumentTypeError as why:
        must("127.0.0.1" in str(why), f"web --host {address}: {why}")
        return False


def refusals(port):
    """Yields requests that must be refused, each with its status and a part of the error."""
    own = f"127.0.0.1:{port}"
    line = LINE.encode()
    for host in ("evil.example", f"evil.example:{port}", "127.0.0.1", f"127.0.0.1:{port + 1}", f"127.0.0.1:{port}.evil.example", ""):
        yield request(port, line, host=host), 403, "host"
        yield request(port, b"", "/", "GET", host=host), 403, "host"
    yield request(port, line, more=["Host: " + own]), 403, "host"
    yield b"POST /best HTTP/1.1\r\nContent-Length: 1\r\n\r\nx", 403, "host"
    for origin in ("null", "http://evil.example", f"https://{own}", "http://127.0.0.1", f"http://{own}.evil.example", f"http://{own}/"):
        yield request(port, line, more=["Origin: " + origin]), 403, "origin"
    yield request(port, line, more=[f"Origin: http://{own}", "Origin: http://evil.example"]), 403, "origin"
    yield request(port, b"1" * 201), 413, "200 bytes"
    yield request(port, b"1" * 1_000_000), 413, "200 bytes"
    for body in (line + b"\n", b"\n", line + b"\n" + line, line + b"\0"):
        yield request(port, body), 400, "one line"
    for body in (b"\xff\xfe1\x00", bytes(range(128, 256)), line + b"\xed\xa0\x80"):
        yield request(port, body), 400, "UTF-8"
    for more in (["Content-Length: 3"], ["Transfer-Encoding: chunked"]):
        yield request(port, line, more=more), 411, "Content-Length"
    for length in ("-1", "x", "1.0", "+1", "", "1" * 19):
        yield f"POST /best HTTP/1.1\r\nHost: {own}\r\nContent-Length: {length}\r\n\r\n".encode(), 411, "Content-Length"
    yield f"POST /best HTTP/1.1\r\nHost: {own}\r\n\r\n".encode(), 411, "Content-Length"
    yield request(port, b"1" * 4001, "/game"), 413, "4000 bytes"
    for path in ("/", "/Best", "/best/", "/best?1", "/../best", "/review?1,1/0%201,1/0"):
        yield request(port, line, path), 404, "no such"
    for path in ("/best", "/web.py", "/../web.py", "/web.html", "/<script>alert(1)</script>", "/?x", "/review", "/review?", "/rules?x"):
        yield request(port, b"", path, "GET"), 404, "no such"
    for method in ("PUT", "DELETE", "HEAD", "OPTIONS", "<script>"):
        yield request(port, line, method=method), 501, "Not Implemented"
    for data in (b"\x16\x03\x01\x02\x00", b"x", b"POST /best HTTP/9", b"GET / HTTP/1.1\r\n" + b"A: b\r\n" * 200):
        yield data + b"\r\n\r\n", None, ""


class ServerTrials:
    def __init__(self, program, folder, draw):
        self.program, self.folder, self.draw = program, folder, draw

    def run(self):
        with served(self.program) as server:
            self.page(server.server_port)
            self.refused(server.server_port)
            self.answers(server.server_port)
            self.games(server.server_port)
            self.many(server.server_port)
        self.misbehaving()
        self.too_many()
        self.quota()
        self.slow_clients()
        self.connections()
        self.a_class()
        self.pupils()
        self.as_script()

    def page(self, port):
        for host in (f"127.0.0.1:{port}", f"localhost:{port}"):
            for path, (_, kind) in web.FILES.items():
                status, headers, body = sent(port, request(port, b"", path, "GET", host))
                want = web.PAGES[path].replace(web.UNKNOWN, f'data-version="{web.VERSION}"'.encode())
                equal((status, body), (200, want), f"web, {path}")
                equal(body != web.PAGES[path], path == "/", f"web, {path}: whether it names its version")
                policy = "default-src 'none'; script-src 'self'; "
                is_guarded = headers["Content-Security-Policy"].startswith(policy)
                must(headers["Content-Type"] == f"{kind}; charset=utf-8" and is_guarded, f"web, {path}: {headers}")
                equal((headers["Cache-Control"], headers["Kalah-Version"]), ("no-store", web.VERSION), f"web, {path}: {headers}")
                text = body.decode()
                elsewhere = "(?:src|href|action)=\"(?!data:,|/[a-z])|(?<!\\^)https?:|url\\(|\\bimport\\b"
                risky = [word for word in RISKY if word in text] + re.findall(elsewhere, text)
                must(not risky, f"web, {path}: {risky}")
                missing = {*re.findall("(?:src|href)=\"(/[^\"]*)\"", text)} - {*web.FILES}
                must(not missing, f"web, {path}: its {missing} isn't served")
        self.pictures(web.PAGES["/rules"].decode())

    def pictures(self, page):
        """The rules show what the moves of their pictures lead to."""
        found = re.findall('data-line="([^"]*)" data-house="([1-6])" data-after="([^"]*)"', page)
        must(len(found) == page.count("data-house") == 5, f"rules.html: {found}")
        for line, house, after in found:
            reached, word = reference.after(reference.read(line.encode()), int(house))
            south = reached._replace(own=reached.other, other=reached.own) if word == "turn" else reached
            equal(after, reference.text(south), f"rules.html: house {house} of {line} leads to {after}")

    def refused(self, port):
        for data, status, part in refusals(port):
            got, headers, body = sent(port, data)
            is_right = status in (got, None) and got >= 400 and headers["Content-Type"] == "application/json" and b"<" not in body
            must(is_right and part in json.loads(body)["error"] if body else is_right, f"web: {got} {body} for {data[:300]}")
            compare("/best", LINE, asked(port, "/best", LINE))

    def answers(self, port):
        for _ in range(DRAWN):
            line = self.draw.choice([drawn_line(self.draw, 4, 8), *LINES, "1" * 81, "1,1/0 1,1", "é", ""])
            path = self.draw.choice(PATHS)
            compare(path, line, asked(port, path, line))

    def games(self, port):
        """Games are opened, as they were played or as far as they go, and reviewed; lines of best play are those of the reference."""
        for number in range(GAMES):
            line, first = drawn_line(self.draw, 4, 8).replace("/99", "/9"), number % 2
            if reference.is_over(reference.read(line.encode())):
                continue
            houses = [house for _, house, _ in drawn_game(self.draw, line)[0]]
            places = places_of(line, houses, first)
            record, north = " ".join([line, *map(str, houses)]), "&first=North" * first
            want = {"is_over": False, "positions": places, "houses": houses, "flaw": ""}
            for text in (record + north, record_of(line, houses, places)):
                status, answer = asked(port, "/game", text)
                equal((status, answer), (200, want), f"web, /game, {text}")
            status, answer = asked(port, "/game", f"{record} 1{north}")
            mover = ["South", "North"][places[-1]["player"]]
            want["flaw"] = f"move {len(houses) + 1}: {mover} can't move house 1: the game is over"
            equal((status, answer), (200, want), f"web, /game, {record} 1")
            compare_line(line, asked(port, "/line", line))
            compare_ahead(line, asked(port, "/ahead", line))
            status, headers, body = sent(port, request(port, b"", f"/review?{quote(record + north)}", "GET"))
            must(status == 200 and headers["Content-Type"].startswith("text/html"), f"web, /review, {record}: {status} {body}")
            must(body.count(b"moves house") == len(houses) and b"<script" not in body, f"web, /review, {record}: {body}")
        for text, status, why in (
            ("1,1/0 1,1/0 e 1 7", 200, "move 2: North can't move house 7: houses are 1 to 2"),
            ("1,1/0 1,1/0 B B", 200, "move 2: South can't move house B: it is empty"),
            ("1,1/0 1,1/0 B a", 200, "move 2: South moves, and a is a move of North"),
            ("1,1/0 1,1/0 1... b A", 200, "move 2: North moves, and A is a move of South"),
            ("1,1/0 1,1/0 B1 A3", 200, "move 2: house A has 1 seed, and its number is 1"),
            ("x/0 1 2", 422, str(Fault("shape", "x/0 1"))),
        ):
            got, answer = asked(port, "/game", text)
            equal((got, answer.get("flaw", answer.get("error"))), (status, why), f"web, /game, {text}: {got} {answer}")
        for text in ("1,1/0 1,1/0 <script>", "<script>"):
            _, _, body = sent(port, request(port, b"", f"/review?{quote(text)}", "GET"))
            must(b"<script" not in body or body.startswith(b"{"), f"web, /review, {text}: {body}")

    def many(self, port):
        """Many ask at once, and some go away: each gets its own answer, or the error that there are too many."""
        questions = [(self.draw.choice(PATHS), drawn_line(self.draw, 3, 8)) for _ in range(DRAWN)]
        cuts = [self.draw.random() for _ in questions]

        def ask(question, cut):
            path, line = question
            with socket.create_connection(("127.0.0.1", port)) as leaver:
                data = request(port, line.encode(), path)
                leaver.sendall(data[: int(cut * (len(data) + 1))])
            return asked(port, path, line)

        with ThreadPoolExecutor(THREADS) as pool:
            for question, got in zip(questions, pool.map(ask, questions, cuts)):
                if got != (503, {"error": "too many questions at once"}):
                    compare(*question, got)

    def misbehaving(self):
        """A question to a run that misbehaves fails, and the next one gets its own answer from another run."""
        with served(fake(self.folder, self.program, MISBEHAVING), SHORT) as server:
            for _ in MISBEHAVING:
                status, answer = asked(server.server_port, "/best", LINE)
                must(status == 503 and "kalah" in answer["error"], f"web, misbehaving: {status}, {answer}")
            for line in LINES:
                compare("/best", line, asked(server.server_port, "/best", line))

    def too_many(self):
        """While runs are busy, questions wait for some time, up to a number of questions; the rest is refused."""
        loop = f'while read -r line; do sleep 0.3; echo "$line" | "{self.program}" ask; done'
        for most, patience in ((web.MOST_AT_ONCE, 0.7), (5, 60)):
            with served(fake(self.folder, self.program, [loop] * web.RUNS)) as server, ThreadPoolExecutor(THREADS) as threads:
                server.room = threading.BoundedSemaphore(most)
                for pool in server.pools:
                    pool.patience = patience
                lines = [drawn_line(self.draw, 3, 8) for _ in range(THREADS)]
                got = [*threads.map(lambda line: asked(server.server_port, "/best", line), lines)]
                refused = 503, {"error": "too many questions at once"}
                answered = [(line, one) for line, one in zip(lines, got) if one != refused]
                must(web.RUNS <= len(answered) < THREADS, f"web: of {THREADS} at once {len(answered)} are answered")
                for line, one in answered:
                    compare("/best", line, one)

    def quota(self):
        """A minute after the first question a client may ask again, however many it has asked; and so may all."""
        now = [1000.0]
        quota = Quota(MOST, lambda: now[0])
        for _ in range(3):
            taken = [quota.takes("one") for _ in range(2 * MOST)]
            equal(taken, [True] * MOST + [False] * MOST, "web: a client's questions")
            taken = [quota.takes(f"client {number}") for number in range(IN_ALL * MOST)]
            equal(taken.count(True), (IN_ALL - 1) * MOST, "web: questions of others in a minute")
            now[0] += 60
        must(all(Quota(0).takes("one") for _ in range(1000)), "web: this machine may ask any number of questions")

    def slow_clients(self):
        """A client has some time for its request, however it spends that. Then it hears so, and is gone."""
        with served(self.program) as server:
            port, server.seconds_of_a_request = server.server_port, SHORT_TIME
            whole = request(port, LINE.encode())
            for data in (whole[:-3], whole[:40], whole[:1], b""):
                self.is_late(port, data, b"")
            for data, more in ((whole[:-10], b"1"), (b"", b"POST /best HTTP/1.1\r\n" + b"A" * 100)):
                self.is_late(port, data, more)
            compare("/best", LINE, asked(port, "/best", LINE))

    def is_late(self, port, data, more):
        """Sends this, and then a byte of more at a time."""
        begun = time.monotonic()
        with socket.create_connection(("127.0.0.1", port), SOON) as client:
            client.sendall(data)
            client.settimeout(A_PAUSE)
            reply, at = b"", 0
            while time.monotonic() < begun + 5 * SHORT_TIME:
                try:
                    piece = client.recv(1 << 16)
                    if not piece:
                        break
                    reply += piece
                except socket.timeout:
                    at += bool(more)
                    client.sendall(more[at - 1 : at])
                except ConnectionResetError:
                    break
        must(SHORT_TIME <= time.monotonic() - begun < 4 * SHORT_TIME, f"web, slow after {data}: {time.monotonic() - begun} seconds")
        must(reply.startswith(b"HTTP/1.0 408 ") and b"not come in time" in reply, f"web, slow after {data}: {reply}")

    def connections(self):
        """A client's connections are bounded. One more is refused; others have theirs; and when they end, it may have new ones."""
        with served(self.program, host=OTHER) as server, ExitStack() as open_ones:
            server.connections = Connections(2 * MOST)
            port, asks = server.server_port, request(server.server_port, LINE.encode(), host=f"{OTHER}:{server.server_port}")
            for _ in range(server.connections.of_one):
                open_ones.enter_context(socket.create_connection((OTHER, port), SOON, ("127.0.0.4", 0)))
            refused = socket.create_connection((OTHER, port), SOON, ("127.0.0.4", 0))
            said = refused.recv(1000)
            must(b" 503 " in said, f"web: one connection more than a client has is not refused, but gets {said}")
            refused.close()
            status, _, body = sent(port, asks, OTHER, CLIENT)
            compare("/best", LINE, (status, json.loads(body)))
            open_ones.close()
            end = time.monotonic() + SOON
            while b" 503 " in (got := self.first_bytes(port, asks)):
                must(time.monotonic() < end, f"web: after its connections have ended, a client gets {got}")
            must(b" 200 " in got, f"web, a client whose connections have ended: {got}")

    def first_bytes(self, port, data):
        try:
            with socket.create_connection((OTHER, port), SOON, ("127.0.0.4", 0)) as client:
                client.sendall(data)
                return client.recv(1000)
        except ConnectionError:
            return b" 503 "

    def pupils(self):
        """A class behind one address plays: each question gets its answer, and none is refused."""
        with served(self.program, host=OTHER, most=A_MINUTE) as server, ThreadPoolExecutor(PUPILS) as pool:
            port = server.server_port

            def asks(path, text):
                status, _, body = sent(port, request(port, text.encode(), path, host=f"{OTHER}:{port}"), OTHER)
                equal(status, 200, f"web, a class, {path}, {text}: {status} {body}")
                return json.loads(body)

            def plays(draw):
                moves = 0
                while moves < MOVES:
                    line = asks("/game", "3,3,3,3/0 3,3,3,3/0")["positions"][0]["line"]
                    while moves < MOVES and not (answer := asks("/moves", line))["is_over"]:
                        values, moves = asks("/values", line)["by_house"], moves + 1
                        equal({*values}, {str(move["house"]) for move in answer["moves"]}, f"web, a class, {line}: {values}")
                        line = draw.choice(answer["moves"])["position"]
                return moves

            made = [*pool.map(plays, [random.Random(self.draw.random()) for _ in range(PUPILS)])]
            equal(made, [MOVES] * PUPILS, "web, a class")

    def a_class(self):
        """By the address that is named, others ask. What takes long is refused, as are too many questions of one client."""
        with served(fake(self.folder, self.program, ["read -r line; exec sleep 600"]), host=OTHER) as server:
            port, server.quota.most = server.server_port, MOST

            def asks(source="", host=f"{OTHER}:{port}"):
                status, _, body = sent(port, request(port, LINE.encode(), host=host), OTHER, source)
                return status, json.loads(body)

            late = asks(CLIENT)
            equal(late, (503, {"error": "too large here: kalah has not answered in 1 seconds"}), "web --host")
            for host in (f"127.0.0.1:{port}", f"localhost:{port}", OTHER):
                equal(asks(CLIENT, host)[0], 403, f"web --host serves {host}")
            # A minute may end in between.
            got = [asks() for _ in range(2 * MOST + 1)]
            refused = 429, {"error": f"too many questions from here: at most {MOST} a minute"}
            answered = [one for one in got if one != refused]
            must(MOST <= len(answered) < len(got), f"web --host answers {len(answered)} of {len(got)} questions")
            for one in [*answered, asks(CLIENT)]:
                compare("/best", LINE, one)
        script = self.start(self.program, "--port=0", f"--host={OTHER}", LINE)
        address = script.stdout.readline()
        must(re.fullmatch(rf"http://{OTHER}:[0-9]+/#1,1/0%201,1/0\n", address), f"web --host prints {address!r}")
        self.ends(script)
        for address in NOT_HERE:
            must(not is_host(address), f"web --host takes {address!r}")
        must(is_host(OTHER) and is_host("localhost"), "web --host takes no address of this machine")
        for address in ("0x0", "203.0.113.5"):
            _, err = self.start(self.program, f"--host={address}", LINE).communicate(timeout=SOON)
            is_told = "usage:" in err and "reach this machine" in err and "127.0.0.1" in err.rpartition("usage:")[2]
            must(is_told and "Traceback" not in err, f"web --host {address}: {err}")

    def as_script(self):
        """It says where the page is. If a client goes away it goes on; and it ends on Ctrl-C, also while a question is under way."""
        script = self.start(self.program, "--port=0", LINE)
        address = script.stdout.readline()
        port = re.fullmatch(r"http://127\.0\.0\.1:([0-9]+)/#1,1/0%201,1/0\n", address)
        must(port, f"web prints {address!r}")
        usual, (_, _, page) = web.PAGES["/"], sent(int(port[1]), request(int(port[1]), b"", "/", "GET"))
        page = re.sub(b'data-version="[^"]+"', web.UNKNOWN, page)
        must(page == usual.replace(web.USUAL, f'data-start="{LINE}"'.encode()) != usual, "web: the page does not begin with the position")
        _, err = self.start(self.program, f"--port={port[1]}", LINE).communicate(timeout=SOON)
        want = f"web: port {port[1]}: address already in use; with --port 0 it takes one that is free\n"
        equal(err, want, "web, with a port that is taken")
        for name, most in (("port", 65535), ("per-minute", 1000000)):
            for number in (f"{most + 1}", "-1", "x"):
                _, err = self.start(self.program, f"--{name}={number}", LINE).communicate(timeout=SOON)
                must("usage:" in err and f"'{number}' is not a " in err and f" to {most}\n" in err, f"web --{name}={number}: {err}")
        self.ends(script, int(port[1]))
        script = self.start(fake(self.folder, self.program, [': > "$0.begun"; exec sleep 600']), "--port=0", LINE)
        port = int(re.search(":([0-9]+)/", script.stdout.readline())[1])
        with socket.create_connection(("127.0.0.1", port)) as client:
            client.sendall(request(port, LINE.encode()))
            while not (self.folder / "fake.begun").exists():
                must(script.poll() is None, "web has ended")
            self.ends(script)

    def start(self, program, *words):
        how = {"env": {**os.environ, "KALAH": str(program)}, "stdout": subprocess.PIPE, "stderr": subprocess.PIPE, "text": True}
        return subprocess.Popen([*command("web"), *words], start_new_session=True, **how)

    def ends(self, script, port=None):
        if port:
            compare("/moves", LINE, asked(port, "/moves", LINE))
        os.killpg(script.pid, signal.SIGINT)
        _, err = script.communicate(timeout=SOON)
        equal(script.returncode, -signal.SIGINT, f"web, on Ctrl-C: status {script.returncode}\n{err}")
        look_at_errors(err)


def try_server(program, folder, draw):
    ServerTrials(program, folder, draw).run()
