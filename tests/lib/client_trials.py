"""The trials of the clients, for tests/examples: the Python package, `ask.js` and `ask.c` are asked random lines, and run on programs
that misbehave. Each question must get its own answer, or fail; the question after a failure must be answered.
"""

import json
import os
import signal
import subprocess
import sys
import time
from concurrent.futures import ThreadPoolExecutor
from contextlib import suppress
from functools import partial
from itertools import groupby, zip_longest
from pathlib import Path

from lib.failing import Failed
from lib.random_data import Drawn

TOP = Path(__file__).resolve().parents[2]
EXAMPLES, PACKAGE = TOP / "examples", TOP / "python"
sys.path.insert(0, str(PACKAGE))
# The processes of the trials have the package, and what they print waits in a buffer, as it does for a user.
os.environ["PYTHONPATH"] = str(PACKAGE)
os.environ.pop("PYTHONUNBUFFERED", None)

import kalah
from kalah.client import Client

QUESTIONS = 10_000
LINES = ["1,1/30 1,1/0", "0,0/3 1,2/4", "1/0", "2,2,2/0 2,2,2/0"]
# The first one is answered twice, and the second answer takes a while.
REFUSED = ["1/0 1/0\n2,3,2,3,2,3/0 3,2,3,2,3,3/0", "\n", "1/0 1/0\0", "1/0 1/0\ud800"]
GONE, INVALID = "no answer", "no question"
# The seconds after which an answer is missing, where it is.
SHORT = 1
# The seconds after which a client counts as endless.
PATIENCE = 60

# Programs in the shell that misbehave once they are asked.
MISBEHAVING = [
    "exit", "read -r line; exit", "read -r line; printf '2 hou'; exit", "read -r line; printf '2 house 2'; exit",
    "read -r line; printf '2 house 2\\n2 house 2\\n'; exec sleep 600", "read -r line; printf '2 hou'; exec sleep 600", "exec sleep 600",
    "exec cat 3>&1 > /dev/null",
    "read -r line; sleep 1.2; echo '2 house 2'; exec cat 3>&1 > /dev/null", "exec < /dev/null; sleep 2", "read -r line; exec yes 2",
    "read -r line; exec tr '\\0' 2 < /dev/zero", "read -r line; while printf 2; do sleep 0.3; done", "exec cat > /dev/null",
]

# Programs that don't read a question that is longer than a pipe.
DEAF = ["exec sleep 600", "echo '4 over'; exec sleep 600", "exit", "exec < /dev/null; exec sleep 600"]

# A program that takes the first text out of a folder and runs it; if there is none, or its version is asked, it is the program itself.
FAKE = """#!/bin/sh
exec 2> /dev/null
if [ "$1" != --version ]; then
    for text in "$0.starts"/*; do
        [ -e "$text" ] || break
        mv "$text" "$0.now"
        . "$0.now"
        exit
    done
fi
exec "{program}" "$@"
"""

# Prints the next line of a file for each line that it reads. The last one may be cut; then it ends.
CUT = """
while read -r line; do
    if read -r answer <&3; then echo "$answer"; else printf '%s' "$answer"; exit; fi
done 3< "{answers}"
"""

# What is no answer, whichever question is asked.
GARBAGE = [
    *(b"", b"2", b"2 house", b"2 house ", b"2 house 0", b"2 house 7", b"2 house 22", b"02 house 2", b"+2 house 2"),
    *(b"-0 over", b"1000 over", b"2 house 2 ", b" 2 house 2", b"2  house 2", b"2\thouse 2", b"2 house 2\r", b"2 house 2\0"),
    *(b"\xd9\xa2 house 2", b"2 house 2\xff", b"1:2 ", b"1:2 3", b"0:1", b"7:1", b"1:2,2:3", b"1:", b"1:+2", b"1:1000"),
    *(b"x:1 2 house 2", b"fault", b"fault none", b"fault shape ", b"FAULT shape", b"over", b"2 over house 2", b"2 house 2\n2 house 2"),
]
# What is no answer to one of the questions.
GARBAGE_OF = {
    "solve": [b"1:2", b"1:-2 2:2", b"1 1,1/0 0,2/0 turn"],
    "values": [b"2 house 2", b"2:1 1:2", b"1:1 1:1", b"1:12:1", b"1 1,1/0 0,2/0 turn"],
    "steps": [
        *(b"2 house 2", b"1:2", b"1 1,1/0 0,2/0 turn;", b"1 1,1/0 0,2/0 turn; ", b"1 1,1/0 0,2/0 turn 2 1,0/1 1,1/0 again"),
        *(b"2 1,0/1 1,1/0 again; 1 1,1/0 0,2/0 turn", b"1 1,1/0 0,2/0 turn; 1 1,1/0 0,2/0 turn", b"1 1,1/0 0,2/0 end", b"7 1/0 1/0 turn"),
    ],
}

# Asks the lines of a list in Node, all at once, and prints the list of outcomes. Between two lists it waits for a while.
ASK_IN_NODE = """
const { Gone, Solver } = require(process.argv[1]);
(async () => {
  const solver = new Solver(Number(process.argv[2])), said = [];
  const ask = (line) => solver.ask(line).catch((why) => (why instanceof Gone ? "no answer" : "no question"));
  for (const lines of JSON.parse(require("node:fs").readFileSync(0))) {
    said.push(...(await Promise.all(lines.map(ask))));
    await new Promise((resolve) => setTimeout(resolve, 500));
  }
  solver.close();
  console.log(JSON.stringify(said));
})();
"""


def command(name):
    """Returns the words that run a tool, or a script of the examples, with warnings as errors."""
    return [sys.executable, "-B", "-W", "error", *([str(EXAMPLES / name)] if name.endswith(".py") else ["-m", "kalah", name])]


def text_of(answer):
    """Returns the line that an answer was read from."""
    if isinstance(answer, kalah.Steps):
        return "; ".join(f"{move.house} {move.position} {move.word}" for move in answer.moves)
    if isinstance(answer, kalah.Values):
        return " ".join(f"{house}:{value}" for house, value in answer.by_house.items())
    return f"{answer.margin} over" if isinstance(answer, kalah.Over) else f"{answer.margin} house {answer.house}"


def outcome(solver, line):
    """Returns the outcome of a question to a solver of the package."""
    try:
        return text_of(solver.ask(line))
    except kalah.Fault as fault:
        return f"fault {fault.word}"
    except ValueError:
        return INVALID
    except kalah.Gone:
        return GONE


class Python:
    refused, longest = REFUSED, 1_000_000

    def __init__(self, kind, form):
        self.kind, self.form, self.name = kind, form, f"Python, {kind.__name__}"

    def ask(self, program, lines, seconds=60):
        """Returns the outcome of each question to one solver that runs the program."""
        return self.ask_and_wait(program, [lines], seconds)

    def ask_and_wait(self, program, lists, seconds=60):
        """Returns the outcomes of lists of questions, between which it waits for a while."""
        said = []
        with Client(self.kind, str(program), seconds) as solver:
            for number, lines in enumerate(lists):
                time.sleep(0.5 if number else 0)
                said += [outcome(solver, line) for line in lines]
        return said


class Node:
    form, name, refused, longest = "values", "ask.js", REFUSED, 1_000_000

    def ask(self, program, lines, seconds=60):
        return self.ask_and_wait(program, [lines], seconds)

    def ask_and_wait(self, program, lists, seconds=60):
        words = ["node", "-e", ASK_IN_NODE, EXAMPLES / "ask.js", str(seconds)]
        how = {"env": {**os.environ, "KALAH": str(program)}, "stdout": subprocess.PIPE, "timeout": PATIENCE}
        return json.loads(subprocess.run(words, input=json.dumps(lists).encode(), **how).stdout)


class C:
    """It takes its lines as arguments, which can't have a NUL, and prints each before its answer; its time is set when it is built. Its
    standard input is closed."""

    form, name, refused, longest = "solve", "ask.c", [line for line in REFUSED if "\n" in line], 100_000

    def __init__(self, folder):
        self.built = {seconds: folder / f"ask-{seconds}" for seconds in (60, SHORT)}
        for seconds, path in self.built.items():
            options = ["-std=c11", "-Wall", "-Wextra", "-Werror", f"-DMILLISECONDS={int(1000 * seconds)}"]
            subprocess.run(["cc", *options, "-o", path, EXAMPLES / "ask.c"], check=True)

    def ask(self, program, lines, seconds=60):
        how = {"env": {**os.environ, "KALAH": str(program)}, "stdout": subprocess.PIPE, "stderr": subprocess.STDOUT, "timeout": PATIENCE}
        how["preexec_fn"] = partial(os.close, 0)
        out, said = subprocess.run([self.built[seconds], *lines], **how).stdout.decode(), []
        for line in lines:
            refusal = f"ask: no answer to {line}\n"
            is_answered = out.startswith(f"{line}: ")
            answer, _, out = out[len(line) + 2 :].partition("\n") if is_answered else (GONE, "", out.removeprefix(refusal))
            said.append(answer)
        return said + [out] if out else said


def compare(client, what, want, got):
    for number, (wanted, found) in enumerate(zip_longest(want, got), 1):
        if wanted != found:
            raise Failed(f"{client.name}, {what}, question {number}: {found!r} in place of {wanted!r}")


def answers(program, form, lines):
    """Returns what the program answers to the lines of a file, each in one line."""
    data = "".join(line + "\n" for line in lines).encode()
    out = subprocess.run([program, form, "/dev/stdin"], input=data, stdout=subprocess.PIPE).stdout
    said = [line.partition(" ") for line in out.decode().split("\n")[:-1]]
    return ["; ".join(text for _, _, text in texts) for _, texts in groupby(said, lambda parts: parts[0])]


def fake(folder, program, texts):
    """Returns a program that runs these texts of the shell, one at each start, and is then `program`."""
    path, starts = folder / "fake", folder / "fake.starts"
    starts.mkdir(exist_ok=True)
    for number, text in enumerate(texts):
        (starts / f"{number:03}").write_text(text)
    path.write_text(FAKE.format(program=program))
    path.chmod(0o755)
    return path


class ClientTrials:
    """The trials of a client. `program` is the real one."""

    def __init__(self, client, program, folder, seed):
        self.client, self.program, self.folder, self.drawn = client, program, folder, Drawn(seed)
        self.want = answers(program, client.form, LINES)

    def run(self):
        self.random_lines()
        self.refused_lines()
        self.misbehaving()
        self.at_length()
        self.cut()
        self.garbage()

    def random_lines(self):
        lines = []
        while len(lines) < QUESTIONS:
            with suppress(UnicodeDecodeError):
                lines.append(self.drawn.new_line().replace(b"\0", b"").decode())
        compare(self.client, "random lines", answers(self.program, self.client.form, lines), self.client.ask(self.program, lines))

    def refused_lines(self):
        """A line that is no question is refused, and the next one gets its own answer."""
        refusal = GONE if self.client.name == "ask.c" else INVALID
        for line in self.client.refused:
            got = self.client.ask(self.program, [LINES[0], line, *LINES])
            compare(self.client, repr(line), [self.want[0], refusal, *self.want], got)

    def misbehaving(self):
        """Each of the first runs misbehaves. Its question fails, and the next one starts another run."""
        program = fake(self.folder, self.program, MISBEHAVING)
        got = self.client.ask(program, [*LINES[-1:] * len(MISBEHAVING), *LINES], SHORT)
        compare(self.client, "misbehaving", [*[GONE] * len(MISBEHAVING), *self.want], got)

    def at_length(self):
        """A line that fills the pipe is answered, or fails if it is not read."""
        line = "1" * self.client.longest
        got = self.client.ask(fake(self.folder, self.program, DEAF), [line] * len(DEAF) + [line, *LINES], SHORT)
        compare(self.client, "at length", [*[GONE] * len(DEAF), "fault long", *self.want], got)

    def cut(self):
        """The program ends after each number of bytes: the questions that it has answered by then are answered, and the next one fails."""
        whole = "".join(answer + "\n" for answer in self.want)
        starts, lines, want = [], [], []
        for size in range(len(whole)):
            answers = self.folder / f"cut-{size}"
            answers.write_text(whole[:size])
            starts.append(CUT.format(answers=answers))
            answered = whole[:size].count("\n")
            lines += LINES[: answered + 1]
            want += [*self.want[:answered], GONE]
        compare(self.client, "cut", want, self.client.ask(fake(self.folder, self.program, starts), lines))

    def garbage(self):
        """Each text that is no answer fails its question."""
        texts = [*GARBAGE, *GARBAGE_OF[self.client.form]]
        starts = []
        for number, text in enumerate(texts):
            (self.folder / f"garbage-{number}").write_bytes(text + b"\n")
            starts.append(f"read -r line; exec cat '{self.folder}/garbage-{number}'")
        got = self.client.ask(fake(self.folder, self.program, starts), LINES[:1] * len(texts))
        compare(self.client, "garbage", [GONE] * len(texts), got)


def unasked(client, program, folder):
    """What a program writes though nobody has asked is no answer to the next question. In Node the run is ended at once."""
    want = answers(program, client.form, LINES)
    faulty = fake(folder, program, [f"read -r line; echo '{want[0]}'; sleep 0.2; echo '9 over'; exec sleep 600"])
    got = client.ask_and_wait(faulty, [LINES[:1], LINES[1:2], LINES])
    compare(client, "unasked", [want[0], want[1] if client.name == "ask.js" else GONE, *want], got)


class Interrupted(BaseException):
    """What a signal raises in the middle of a question, as Ctrl-C does."""


class SolverTrials:
    """The trials of one solver of the package that is interrupted, forked or shared by threads, and of programs of other versions."""

    def __init__(self, program, folder):
        self.client = Python(kalah.Best, "solve")
        self.program, self.folder = program, folder
        self.want = answers(program, "solve", LINES)

    def run(self):
        self.interrupted()
        self.forked()
        self.shared()
        self.versions()
        self.no_house()

    def interrupted(self):
        """An exception leaves a question whose answer is still to come: the next question doesn't get it, and its run is ended."""

        def interrupt(*_):
            raise Interrupted

        signal.signal(signal.SIGALRM, interrupt)
        late = f'echo $$ > "$0.pid"; read -r line; kill -ALRM $PPID; sleep 0.3; echo "$line" | "{self.program}" ask; exec sleep 600'
        with Client(kalah.Best, str(fake(self.folder, self.program, [late]))) as solver:
            try:
                raise Failed(f"{outcome(solver, LINES[-1])} has come in spite of a signal")
            except Interrupted:
                with suppress(ProcessLookupError):
                    os.kill(int((self.folder / "fake.pid").read_text()), signal.SIGKILL)
                    raise Failed("Python: an interrupted question leaves its run")
                compare(self.client, "interrupted", self.want, [outcome(solver, line) for line in LINES])

    def forked(self):
        """Both processes ask at once after a fork, and each gets its own answers."""
        with Client(kalah.Best, str(self.program)) as solver:
            outcome(solver, LINES[0])
            child = os.fork()
            got = [outcome(solver, line) for line in (LINES if child else LINES[::-1]) * 100]
            if child == 0:
                (self.folder / "forked").write_text("\n".join(got))
                os._exit(0)
            compare(self.client, "after a fork", self.want * 100, got)
            os.waitpid(child, 0)
            compare(self.client, "forked", self.want[::-1] * 100, (self.folder / "forked").read_text().split("\n"))

    def shared(self):
        """Threads ask one solver, which is one run."""
        program = fake(self.folder, self.program, [f'exec "{self.program}" "$@"', "exit"])
        with Client(kalah.Best, str(program)) as solver, ThreadPoolExecutor(8) as pool:
            lines = LINES * 200
            compare(self.client, "shared by threads", self.want * 200, pool.map(lambda line: outcome(solver, line), lines))

    def versions(self):
        """A program of this version or a newer one is asked, and no other."""
        older = "kalah 1.1.9", "kalah 0.9.9", "kalah 1.2", "kalah 1.2.0 ", "kalah 1.2.0\\n", "calah 1.2.0", ""
        newer = "kalah 1.10.0", "kalah 1.2.10", "kalah 2.0.0", "kalah 10.0.0"
        for version, want in [*((version, GONE) for version in older), *((version, self.want[0]) for version in newer)]:
            program = self.folder / f"version {version}"
            program.write_text(f"#!/bin/sh\nif [ \"$1\" = --version ]; then printf '{version}\\n'; else exec '{self.program}' \"$@\"; fi\n")
            program.chmod(0o755)
            compare(self.client, repr(version), [want], self.client.ask(program, LINES[:1]))
        compare(self.client, "missing", [GONE], self.client.ask(self.folder / "no program", LINES[:1]))

    def no_house(self):
        """No game begins with a house that can't be moved."""
        with kalah.Solver(str(self.program)) as solver:
            for house in (-1, 0, 3, 7, 9):
                with suppress(ValueError):
                    raise Failed(f"Python: a game begins with house {house}: {solver.line(LINES[0], house)}")
