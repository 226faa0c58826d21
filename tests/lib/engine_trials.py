"""The trials of `grade` and `match`, for tests/examples: engines that are right, wrong, late and gone."""

import csv
import os
import re
import signal
import subprocess
import sys
from collections import Counter
from contextlib import suppress
from pathlib import Path
from statistics import mean, stdev

from lib import reference
from lib.client_trials import command, fake
from lib.failing import equal, must
from lib.game_trials import USUAL, output
from lib.processes import soon
from lib.tool_trials import drawn_line, fault

from kalah import rules
from kalah.tools import match

GRADED, MATCHES = 60, 12
# An engine that answers with the next word of a file; but for `late` it waits, for `gone` it ends, and for `twice` it answers twice. It
# notes each of its starts.
TOLD = """import pathlib, sys, time
words = pathlib.Path("words")
with open("starts", "a") as starts:
    print("started", file=starts)
for _ in sys.stdin:
    word, *rest = words.read_text().split()
    words.write_text(" ".join(rest))
    if word == "gone":
        sys.exit()
    time.sleep(600 if word == "late" else 0)
    print({"twice": "1\\n1"}.get(word, word), flush=True)
"""
# An engine that moves the first or the last house that has seeds, and names no house from a number of questions on.
SIMPLE = """import sys
which, most = int(sys.argv[1]), int(sys.argv[2])
for number, line in enumerate(sys.stdin):
    houses = [house for house, seeds in enumerate(line.split("/")[0].split(","), 1) if seeds != "0"]
    print(houses[which] if number < most else "?", flush=True)
"""
# What is said of an answer that is none.
WRONG = {
    "late": "has not answered in 10.0 seconds",
    "gone": "has ended",
    "twice": "",
    **{word: f"answers '{word}', not one of " for word in "9?"},
}


# A shell that has started loops, which go on if it alone is ended, and answers nothing.
LOOPS = """#!/bin/sh
for _ in 1 2 3; do (while :; do sleep 0.1; done) & echo $! >> loops; done
echo $$ >> loops
read -r line
wait
"""


def score(margin):
    return (1 + (margin > 0) - (margin < 0)) / 2


def values_of(line):
    position = reference.read(line.encode())
    return {house: reference.value(position, house) for house in reference.legal(position)}


class GradeTrials:
    """An engine is graded by the values of the reference, and by nothing else."""

    def __init__(self, draw, folder):
        self.draw, self.folder = draw, folder

    def run(self):
        (self.folder / "told.py").write_text(TOLD)
        lines = [*{drawn_line(self.draw, 5, 8) for _ in range(GRADED)}]
        words = [str(self.draw.choice([*values_of(line)])) for line in lines]
        for place, word in zip(self.draw.sample(range(len(words)), len(WRONG)), WRONG):
            words[place] = word
        # A house without seeds.
        place, house = self.draw.choice([
            (place, house)
            for place, line in enumerate(lines)
            for house, seeds in enumerate(rules.read(line).own.houses, 1)
            if seeds == 0 and words[place] not in WRONG
        ])
        words[place] = str(house)
        # What is not graded, and whether the engine is asked for it.
        for line in ("0,0/3 1,2/4", "1/0", USUAL):
            place = self.draw.randrange(len(lines))
            lines.insert(place, line)
            words.insert(place, None)
        (self.folder / "a b.txt").write_text("\n".join(lines))
        self.engine(lines, words)
        self.houses(lines, words)

    def engine(self, lines, words):
        (self.folder / "words").write_text(" ".join(filter(None, words)))
        command = f"{sys.executable} -B told.py"
        out, err = output(self.folder, "grade", "--engine", command, "--timeout", "10", "--csv", "a.csv", "a b.txt", status=1)
        self.compare(lines, words, out)
        said = err.splitlines()
        for number, (line, word) in enumerate(zip(lines, words), 1):
            is_none = {"1/0": "fault shape", USUAL: "48 seeds in houses: no values above 31 seeds"}.get(line)
            if word and word not in WRONG and int(word) not in values_of(line):
                is_none = f"{command} answers '{word}', not one of "
            if why := is_none or (word in WRONG and f"{command} {WRONG[word]}"):
                must(any(one.startswith(f"grade: a b.txt:{number}: {why}") for one in said), f"grade: line {number}, {word}, {err}")
        wrong = len(WRONG) + 1
        equal(len(said), wrong + 2, f"grade says {err}")
        starts = len((self.folder / "starts").read_text().split())
        must(starts <= wrong + 1, f"grade: the engine was started {starts} times")

    def houses(self, lines, words):
        """A file of houses gets the same grade as an engine that names them."""
        named = [word if word and word.isdigit() else "" for word in words]
        (self.folder / "houses").write_text("\n".join(named))
        out, err = output(self.folder, "grade", "--houses", "houses", "--csv", "a.csv", "a b.txt", status=1)
        self.compare(lines, words, out)
        must("no house is named" in err or "is not one of" in err, f"grade --houses: {err}")
        (self.folder / "houses").write_text("1\n" * (len(lines) + 1))
        _, err = output(self.folder, "grade", "--houses", "houses", "a b.txt", status=2)
        must(err.endswith(f"grade: houses has {len(lines) + 1} lines for {len(lines)} positions\n"), f"grade: {err}")

    def compare(self, lines, words, out):
        """Compares what is printed, and the table, with the values of the reference."""
        want, choices, kinds = [], [], Counter()
        for number, (line, word) in enumerate(zip(lines, words), 1):
            if not word:
                continue
            values = values_of(line)
            house = int(word) if word.isdigit() and int(word) in values else None
            margin, seeds = max(values.values()), rules.seeds_in(rules.read(line))
            lost = "" if house is None else margin - values[house]
            best, good = max(values, key=values.get), [*values.values()].count(margin) / len(values)
            worth = "" if house is None else values[house]
            want.append([number, line, seeds, len(values), house or "", worth, best, margin, lost, f"{good:.3f}"])
            kinds["one move" if len(values) == 1 else "all best" if good == 1 else "a choice"] += 1
            if good < 1:
                choices.append((seeds, lost, number, good))
        with open(self.folder / "a.csv", newline="") as file:
            rows = [*csv.reader(file)][1:]
        equal(rows, [[*map(str, row)] for row in want], "grade --csv")
        first = f"a b.txt: {kinds['a choice']} positions with a choice, {kinds['all best']} in which all moves are best, "
        equal(out.splitlines()[0], f"{first}{kinds['one move']} with one move, 1 over", "grade")
        rows = out.partition("worst\n")[2].partition("\n\n")[0].splitlines()
        table = [row.replace(" %", "").replace("± ", "").split() for row in rows]
        want = [self.row(name, choices) for name in [*sorted({seeds for seeds, *_ in choices}), "all"]]
        equal(table, want, f"grade: {out}")
        worst = sorted((-lost, number) for _, lost, number, _ in choices if lost)[:10]
        got = [block.splitlines() for block in out.split("\n\n")[1:]]
        numbers = [int(block[0].split(":")[1].split(" ")[0]) for block in got]
        equal(numbers, [number for _, number in worst], f"grade: the worst of {out}")
        for block, (lost, number) in zip(got, worst):
            position, values = reference.read(lines[number - 1].encode()), values_of(lines[number - 1])
            best, house = reference.best_play(position)[1], int(words[number - 1])
            said = [f"house {one} is worth " + f"{values[one]:+d}".replace("+0", "0") for one in (house, best)]
            equal("\n".join(block[1:4]) + "\n", reference.picture(position), "grade")
            equal(block[4], f"{said[0]}, which loses {-lost}; {said[1]}", "grade")

    def row(self, name, choices):
        """A row of the table, as words: of a number of seeds, or of all."""
        some = [(lost, good) for seeds, lost, _, good in choices if name in (seeds, "all")]
        answered = [lost for lost, _ in some if lost != ""]
        error = [f"{1.96 * stdev(answered) / len(answered) ** 0.5:.2f}"] if len(answered) > 1 else []
        said = [f"{mean(answered):.2f}", *error, str(max(answered))] if answered else ["-", "-"]
        best, chance = answered.count(0), mean(good for _, good in some)
        return [str(name), str(len(some)), str(best), f"{100 * best / len(some):.1f}", f"{100 * chance:.1f}", *said]


class MatchTrials:
    """The games of simple engines, and what is counted."""

    def __init__(self, draw, folder):
        self.draw, self.folder = draw, folder

    def run(self):
        (self.folder / "simple.py").write_text(SIMPLE)
        lines = [drawn_line(self.draw, 5, 8) for _ in range(MATCHES)]
        (self.folder / "a b.txt").write_text("\n".join(lines))
        self.simple(lines)
        self.forfeits(lines)
        self.kalah(lines)
        self.many(lines)
        self.test()
        self.late()
        self.record()

    def match(self, a, b, status=0):
        """Returns what is printed, and the houses of each game."""
        record = self.folder / "record"
        out, err = output(self.folder, "match", a, b, "--positions", "a b.txt", "--record", record, "--timeout", 60, status=status)
        return out, err, record.read_text().splitlines()

    def simple(self, lines):
        """Games, counts, mean and error are those that the rules of the reference make of two engines."""
        games, margins = [], []
        for line in lines:
            for beginner in (0, 1):
                houses, margin = self.played(line, beginner)
                games.append(" ".join([line, *map(str, houses)]))
                margins.append(-margin if beginner else margin)
        out, _, record = self.match(self.command(0), self.command(-1))
        equal(record, games, "match")
        means = [mean(pair) for pair in zip(margins[::2], margins[1::2])]
        scores = [mean(map(score, pair)) for pair in zip(margins[::2], margins[1::2])]
        said = f"A scores {100 * mean(scores):.1f} % ± {196 * stdev(scores) / len(scores) ** 0.5:.1f} ({self.counts(margins)})"
        margin = f"margin {mean(means):+.1f}".replace("+0.0", "0.0") + f" ± {1.96 * stdev(means) / len(means) ** 0.5:.1f}"
        want = [f"{said}, {margin}, over {len(means)} pairs of games"]
        want += [f"{name}: {self.counts(some)}" for name, some in (("A begins", margins[::2]), ("B begins", margins[1::2]))]
        equal(out.splitlines(), want, "match")
        reviewed, _ = output(self.folder, "review", "--games", "record")
        equal(reviewed.count("and the game is over."), len(games), f"review doesn't read a record: {reviewed}")

    def command(self, which, most=10_000):
        return f"{sys.executable} -B simple.py {which} {most}"

    def counts(self, margins):
        wins, losses = (sum(margin * sign > 0 for margin in margins) for sign in (1, -1))
        return f"{wins}-{margins.count(0)}-{losses}"

    def played(self, line, beginner):
        """The houses of a game in which A moves the first house that has seeds, and B the last one; and the margin of who begins."""
        position, word, mover, houses = reference.read(line.encode()), "", 0, []
        while word != "over":
            houses.append(reference.legal(position)[-1 if mover ^ beginner else 0])
            position, word = reference.after(position, houses[-1])
            mover ^= word == "turn"
        margin = reference.best_play(position)[0]
        return houses, -margin if mover else margin

    def forfeits(self, lines):
        """Who names no house loses, and the other games go on."""
        out, err, record = self.match(self.command(0), self.command(0, 0), status=1)
        must(f"B begins: {len(lines)}-0-0\n" in out and ", margin" not in out, f"match: {out}{err}")
        begun = sum("B begins, and B loses: " in line for line in err.splitlines())
        must(begun == len(lines) and record[1::2] == lines and len(record) == 2 * len(lines), f"match: {err}")

    def kalah(self, lines):
        """Who plays with best moves never gets less than best play gives, and says if it has looked ahead instead."""
        _, _, record = self.match("kalah", self.command(0))
        for number, game in enumerate(record):
            line, houses = lines[number // 2], game[len(lines[number // 2]) :].split()
            position, mover = reference.read(line.encode()), 0
            for house in houses:
                position, word = reference.after(position, int(house))
                mover ^= word == "turn"
            margin, best = reference.best_play(position)[0] * (-1 if mover else 1), reference.best_play(reference.read(line.encode()))[0]
            must(margin <= best if number % 2 else margin >= best, f"match: kalah gets {margin} in {game}")
        (self.folder / "a b.txt").write_text(f"{USUAL}\n0,0/3 1,2/4\n1/0\n{lines[0]}\n")
        out, err, _ = self.match("kalah", self.command(0), status=1)
        want = ["a b.txt:2: the game is over", f"a b.txt:3: {fault('shape', '1/0')}"]
        is_right = "over 2 pairs of games" in out and "kalah has looked 4 moves ahead in " in out
        must(err == "".join(f"match: {one}\n" for one in want) and is_right, f"match: {out}{err}")
        (self.folder / "a b.txt").write_text(f"{USUAL}\n")
        out, _, record = self.match(self.command(0), self.command(-1))
        must(len(record) == 2 and "over 1 pair of games" in out and "±" not in out and "looked" not in out, f"match: {out}")
        _, err = output(self.folder, "match", "no such engine", "kalah", "--positions", "a b.txt", status=2)
        equal(err, "match: there is no program 'no such engine'\n", "match")


    def many(self, lines):
        """Games in parallel, and more of them than two a position, are those of one by one."""
        (self.folder / "a b.txt").write_text("\n".join(lines))
        out, _, record = self.match(self.command(0), self.command(-1))
        more = ["--games", 2 * len(lines) + 4], record + record[:4]
        for options, want in ((["--concurrency", 4], record), more, (["--games", 4], record[:4])):
            words = [self.command(0), self.command(-1), "--positions", "a b.txt", "--record", "record", *options]
            again, _ = output(self.folder, "match", *words)
            got = (self.folder / "record").read_text().splitlines()
            must(got == want and (want != record or again == out), f"match {options}: {again}{got} in place of {want}")
        for options in (["--games", 3], ["--games", 0], ["--concurrency", 0], ["--sprt", 5, 5]):
            _, err = output(self.folder, "match", "kalah", "kalah", "--positions", "a b.txt", *options, status=2)
            must("usage:" in err, f"match {options}: {err}")

    def test(self):
        """The test of --sprt is that of pairs of games whose scores are known, and stops a match."""
        for pairs, elo, want in (([1, 0.5, 0.75], [0, 100], 0.5376), ([0] * 9, [0, 50], -5.0346), ([0.5] * 40, [0, 30], -5.3601)):
            got = match.ratio(pairs, elo)
            must(abs(got - want) < 1e-3, f"match: the ratio of {pairs} for {elo} is {got}, not {want}")
        (self.folder / "a b.txt").write_text(output(self.folder, "positions", 3, 8, "--sample", 60, "--seed", 1)[0])
        for players, found in ((["kalah", self.command(0)], "at least 20 better"), ([self.command(0), "kalah"], "at most 0 better")):
            out, _ = output(self.folder, "match", *players, "--positions", "a b.txt", "--games", 1000, "--sprt", 0, 20)
            pairs = int(re.search("over ([0-9]+) pairs", out)[1])
            must(f": A is {found}\n" in out and pairs < 400, f"match --sprt: {out}")

    def late(self):
        """Who is late loses, as A and as B, and so does `kalah`."""
        (self.folder / "a b.txt").write_text("3,3/0 3,3/0\n")
        (self.folder / "slow.sh").write_text("while read -r line; do sleep 30; echo 1; done\n")
        for players, who in ((["sh slow.sh", self.command(0)], "A"), ([self.command(0), "sh slow.sh"], "B")):
            out, err = output(self.folder, "match", *players, "--positions", "a b.txt", "--timeout", 3, status=1)
            said = f"and {who} loses: sh slow.sh has not answered in 3.0 seconds\n"
            must(err.count(said) == 2 and {"A": "(0-0-2)", "B": "(2-0-0)"}[who] in out, f"match --timeout: {out}{err}")
        program = os.environ["KALAH"]
        os.environ["KALAH"] = str(fake(self.folder, program, ["exec sleep 600"] * 2))
        _, err = output(self.folder, "match", "kalah", self.command(0), "--positions", "a b.txt", "--timeout", 3, status=1)
        os.environ["KALAH"] = program
        must("A loses: kalah has not answered in 3.0 seconds" in err, f"match --timeout, kalah: {err}")

    def record(self):
        """A game is in the record as soon as it is played, though the next one hangs."""
        (self.folder / "a b.txt").write_text("1,1/0 1,1/0\n" * 3)
        (self.folder / "hangs.sh").write_text("read -r line; echo 2; read -r line; echo 1; read -r line; sleep 600\n")
        words = [*command("match"), "sh hangs.sh", self.command(0), "--positions", "a b.txt", "--record", "record", "--timeout", "500"]
        with subprocess.Popen(words, cwd=self.folder, stdout=subprocess.DEVNULL, stderr=subprocess.DEVNULL) as running:
            try:
                record = self.folder / "record"
                soon("a record of one game", lambda: record.exists() and record.read_text() == "1,1/0 1,1/0 2 1\n")
            finally:
                running.kill()


class EndTrials:
    """An engine and all that it has started end with the tool, however that ends."""

    def __init__(self, folder):
        self.folder = folder
        (folder / "loops.sh").write_text(LOOPS)
        (folder / "one.txt").write_text("1,1/0 1,1/0\n")

    def run(self):
        self.ends(["grade", "--engine", "sh loops.sh", "--timeout", "0.5", "one.txt"], None)
        for tool in (["grade", "--engine", "sh loops.sh", "one.txt"], ["match", "sh loops.sh", "kalah", "--positions", "one.txt"]):
            for number in (signal.SIGINT, signal.SIGTERM, signal.SIGKILL):
                self.ends(tool, number)

    def ends(self, words, number):
        loops = self.folder / "loops"
        loops.unlink(missing_ok=True)
        quiet = {"stdout": subprocess.DEVNULL, "stderr": subprocess.DEVNULL}
        with subprocess.Popen([*command(words[0]), *words[1:]], cwd=self.folder, start_new_session=True, **quiet) as tool:
            soon("four processes", lambda: loops.exists() and len(loops.read_text().split()) == 4)
            if number:
                tool.send_signal(number)
            tool.wait()
        must(number in (None, -tool.returncode), f"{words}: it ends with {tool.returncode}, not by {number}")
        pids = [int(pid) for pid in loops.read_text().split()]
        soon("their end", lambda: not any(map(is_running, pids)))


def is_running(pid):
    with suppress(OSError):
        return Path(f"/proc/{pid}/stat").read_text().rpartition(") ")[2][0] != "Z"
    return False


def try_worst(folder):
    """Of more than ten losing moves the worst ten are shown, those that lose most first; and of equal best houses the first."""
    lines, houses = ["1,1/0 1,1/0"] * 6 + ["3,3,3/0 3,3,3/0"] * 6, ["1"] * 6 + ["3"] * 6
    (folder / "a b.txt").write_text("\n".join(lines))
    (folder / "houses").write_text("\n".join(houses))
    out, _ = output(folder, "grade", "--houses", "houses", "a b.txt")
    blocks = out.split("\n\n")[1:]
    numbers = [int(re.match("a b.txt:([0-9]+) ", block)[1]) for block in blocks]
    equal(numbers, [*range(7, 13), *range(1, 5)], f"grade: the worst of {out}")
    must(blocks[0].rstrip().endswith("house 3 is worth -4, which loses 6; house 1 is worth +2"), f"grade: {blocks[0]}")
    must("  all         12     0     0.0 %   58.3 %   5.00 ± 0.59      6\n" in out, f"grade: {out}")


def try_engines(folder, draw):
    """Makes all trials."""
    try_worst(folder)
    GradeTrials(draw, folder).run()
    MatchTrials(draw, folder).run()
    EndTrials(folder).run()
