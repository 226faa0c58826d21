"""The trials of the tools that make something of answers, for tests/examples: certificates, reviews of games, positions,
puzzles, booklets and tables.
"""

import csv
import json
import os
import random
import re
import sqlite3
import subprocess
from collections import namedtuple
from itertools import product
from xml.dom import minidom

from lib import reference
from lib.client_trials import EXAMPLES, Client, command, kalah
from lib.failing import Failed, equal, must

from kalah import check, rules
from kalah.game import Record
from kalah.tools import certify, positions, review

CERTIFICATES, CUTS, GAMES = 100, 5, 30
RULES = ["", " e"]
# A claim of seven houses a side.
SEVEN = "1,0,0,0,0,0,0/0 1,0,0,0,0,0,0/0 at least -9 house 1"
# A search of 3 moves sees what each move is worth here, and one of 4 moves sees something else.
STRAYS = "4,0,1/0 0,1,1/9 e"
HOSTILE = "</title><script>alert(1)</script>"
# The most memory of a script, in kilobytes.
KILOBYTES = 100_000


def fault(word, line):
    """Returns what the package says of a line with this fault."""
    return str(kalah.Fault(word, line))


def drawn_line(draw, houses, seeds):
    """A line of either rule, up to these numbers of houses a side and of seeds, in which both players have seeds."""
    position = draw.choice(positions.Positions(draw.randint(1, houses), draw.randint(2, seeds)))
    return re.sub("/0", lambda _: f"/{draw.choice([0, 0, 1, 9, 99])}", position) + draw.choice(RULES)


class Truth:
    """In the place of the claims that were proved, the margins of the reference."""

    def get(self, claim, _):
        (own, other, takes_empty), is_first = claim
        sides = (reference.Side(cells[:-1], cells[-1]) for cells in (own, other))
        margin, _ = reference.best_play(reference.Position(*sides, takes_empty))
        return margin if is_first else -margin


def try_each_step():
    """A line follows from true claims if and only if it is true."""
    for line, rule in product((EXAMPLES / "small.txt").read_text().split("\n")[:-1], RULES):
        position = reference.read((line + rule).encode())
        margin, _ = reference.best_play(position)
        (cells, _, _), _ = check.read(f"{line}{rule} at most 0")
        for bound, house in product(range(margin - 1, margin + 2), [None, *range(1, len(cells[0]) + 1)]):
            for is_first in (True, False):
                needed = check.needs((cells, is_first, bound if is_first else -bound), house)
                follows = needed != [] and all(check.holds(one, Truth()) for one in needed)
                is_legal = house in reference.legal(position)
                is_true = is_legal and reference.value(position, house) >= bound if is_first else margin <= bound
                equal(follows, is_true, f"check, {line}{rule}, {is_first}, {bound}, {house}")


class CertificateTrials:
    """The certificates of drawn positions prove their margins, and what is changed in one is refused."""

    def __init__(self, draw, solver, best):
        self.draw, self.solver, self.best = draw, solver, best

    def run(self):
        for _ in range(CERTIFICATES):
            line = drawn_line(self.draw, 6, 13)
            margin, lines = self.best.ask(line).margin, list(certify.certificate(line, self.solver))
            for asked in ([], [line, str(margin)]):
                got = check.check(lines, *asked)
                equal(got, f"{line} has the margin {margin}: all {len(lines)} lines follow", f"certificate of {line}")
            self.change(line, margin, lines)
            self.cut(line, str(margin), lines)
            for wrong in (f"{margin} house 1", f"{margin}\n", f"{margin} ", f"0{margin}"):
                self.refuse(lines, "", line, wrong)

    def change(self, line, margin, lines):
        most, least = f"{line} at most {margin}", lines[-1]
        half = lines[: lines.index(most) + 1]
        equal(check.check(half), f"{most}: all {len(half)} lines follow", f"check: half a certificate of {line}")
        weaker = f"{line} at least {margin - 1}"
        got = check.check([*lines[:-1], least.replace(f"{line} at least {margin}", weaker)])
        equal(got, f"{weaker}: all {len(lines)} lines follow", f"check: bounds of {line} that don't meet")
        for root, stronger in ((most, f"{line} at most {margin - 1}"), (least, least.replace(f"least {margin}", f"least {margin + 1}"))):
            self.refuse([stronger if one == root else one for one in lines], "no line proves")
        changed = least.replace(" at least", ""), least.replace("/", ",0/", 1)
        for bad in (SEVEN, "", least + " ", least.upper(), *changed, f"0{least}", f"{least}0"):
            self.refuse([*lines[:-1], bad, least], f"line {len(lines)} is neither `POSITION at least MARGIN house H` nor ")
        inner = [number for number, one in enumerate(lines[:-1]) if one != most]
        if inner:
            self.change_inner(lines, self.draw.choice(inner))

    def cut(self, line, margin, lines):
        """What is left of a certificate that is cut, with whole lines or not, proves no margin; nor does a whole one another margin."""
        text = "".join(one + "\n" for one in lines)
        for size in (*(self.draw.randrange(len(text) - 1) for _ in range(CUTS)), len(text) - len(lines[-1]) - 1):
            self.refuse(text[:size].splitlines(), "", line, margin)
        self.refuse(lines, "no line proves", line, str(int(margin) + self.draw.choice([-1, 1])))
        self.refuse(lines, "no line proves", re.sub("/[0-9]+", "/100", line), margin)

    def change_inner(self, lines, number):
        """Another line needs this one, so it can't be missing, follow later, or claim less or something else."""
        above, one, below = lines[:number], lines[number], lines[number + 1 :]
        (position, is_first, margin), house = check.read(one)
        self.refuse([*above, *below], "no line proves")
        self.refuse([*above, *below, one], f"only line {len(lines)} proves")
        weaker = check.said((position, is_first, margin - 1)) + (f" house {house}" if house else "")
        self.refuse([*above, weaker, *below], "no line proves")
        must("has the margin" in check.check([*above, one, weaker, *below]), f"check: a weaker line after {one}")
        self.refuse([*above, re.sub("^[0-9]+", lambda seeds: str(int(seeds[0]) + 1), one), *below], "")
        values = certify.values(self.solver, position) if is_first else {}
        for other in range(1, 7):
            if is_first and values.get(other, -1000) < margin:
                self.refuse([*above, one.replace(f"house {house}", f"house {other}"), *below], "" if other in values else "names no house")

    def refuse(self, lines, why, *asked):
        try:
            said = check.check(lines, *asked)
        except ValueError as refusal:
            must(why in str(refusal), f"check: {refusal}, in place of {why}")
            return
        raise Failed(f"check: {said}, for\n" + "\n".join(lines))


def drawn_game(draw, line):
    """The houses of a game that is played at random, and for each the player and the values there; and the final margin for South."""
    position, word, player, moved = reference.read(line.encode()), "", 0, []
    while word != "over":
        house = draw.choice(reference.legal(position))
        moved.append((player, house, {legal: reference.value(position, legal) for legal in reference.legal(position)}))
        position, word = reference.after(position, house)
        player ^= word == "turn"
    margin, _ = reference.best_play(position)
    return moved, -margin if player else margin


class ReviewTrials:
    def __init__(self, draw, solver):
        self.draw, self.solver = draw, solver

    def run(self):
        for _ in range(GAMES):
            line = drawn_line(self.draw, 4, 8)
            self.best_game(line)
            self.random_game(line)

    def review(self, line, houses):
        return review.Review(Record(1, {}, " ".join([line, *map(str, houses)])), self.solver)

    def best_game(self, line):
        game = self.review(line, [move.house for move in self.solver.line(line)])
        must(game.game.is_over and not game.flaw and not any(played.lost for played in game.played), f"review: best play of {line} loses")

    def random_game(self, line):
        moved, margin = drawn_game(self.draw, line)
        houses = [house for _, house, _ in moved]
        game = self.review(line, houses)
        got = [(played.player, played.house, played.values) for played in game.played]
        must(got == moved and game.game.is_over and not game.flaw, f"review: {line} {houses}: {got}")
        lost = [sum(played.lost for played in game.of(player)) for player in (0, 1)]
        equal(margin, self.solver.best(line).margin - lost[0] + lost[1], f"review: {line} {houses}, which loses {lost}")
        must("draw" in game.end() if margin == 0 else f"{'North' if margin < 0 else 'South'} wins" in game.end(), f"{line}: {game.end()}")
        worst = [max(played.lost for played in game.of(player)) > 0 for player in (0, 1) if game.of(player)]
        equal(game.html().count("worst move"), sum(worst), f"review --html: {line} {houses}")
        self.flaws(line, houses, moved)

    def flaws(self, line, houses, moved):
        number = self.draw.randrange(len(houses))
        player, _, values = moved[number]
        house = self.draw.choice(sorted({*range(8)} - {*values}))
        game = self.review(line, [*houses[:number], house, *houses[number:]])
        houses_there = line.partition("/")[0].count(",") + 1
        why = "it is empty" if house in range(1, houses_there + 1) else f"houses are 1 to {houses_there}"
        want = f"move {number + 1}: {['South', 'North'][player]} can't move house {house}: {why}"
        must(game.flaw == want and len(game.played) == number, f"review: {game.flaw} in place of {want}")
        game = self.review(line, [*houses, 1])
        want = f"move {len(houses) + 1}: {game.game.mover} can't move house 1: the game is over"
        equal(game.flaw, want, f"review: {line} {houses} 1")
        must(not number or "isn't over" in self.review(line, houses[:number]).end(), f"review: {line} {houses[:number]}")


def try_board():
    """The numbers of a board, from left to right and downwards: North's houses are counted from the right."""
    texts = minidom.parseString(kalah.Board("1,2,3/4 5,6,7/8").svg()).getElementsByTagName("text")
    placed = sorted((float(text.getAttribute("y")), float(text.getAttribute("x")), text.firstChild.data) for text in texts)
    equal("".join(words for _, _, words in placed), "321" "765" "84" "123" "123", f"board: the words of {placed}")


def try_pictures(draw):
    """A board is drawn in text as the program draws it."""
    for _ in range(GAMES):
        line = drawn_line(draw, 6, 31)
        picture = kalah.Board(line).picture()
        equal(f"{picture}\n", reference.picture(reference.read(line.encode())), f"Board: the picture of {line}")


def try_positions():
    """The positions of each small size are all there are, and a sample has each once at most."""
    for m, seeds in product(range(1, 4), range(2, 7)):
        every = [row for row in product(range(seeds + 1), repeat=2 * m) if sum(row) == seeds and any(row[:m]) and any(row[m:])]
        want = {" ".join(",".join(map(str, row[place : place + m])) + "/0" for place in (0, m)) for row in every}
        got = [*positions.Positions(m, seeds)]
        must(len(got) == len(want) and {*got} == want, f"positions {m} {seeds}: {len(got)} in place of {len(want)}")


def solution_of(position):
    """What a booklet says of a position: the outcome of each move, the best first, and the game of best play."""
    values = {house: reference.value(position, house) for house in reference.legal(position)}
    words = {house: f"{'wins' if value > 0 else 'loses'} by {abs(value)}" if value else "draws" for house, value in values.items()}
    outcomes = [f"house {house} {words[house]}" for house in sorted(values, key=lambda house: -values[house])]
    turns, player, word, names = [], 0, "turn", ["South", "North"]
    while word != "over":
        _, house = reference.best_play(position)
        if word == "turn":
            turns.append(f"{names[player]} {house}")
        else:
            turns[-1] += f", {house}"
        position, word = reference.after(position, house)
        player ^= word == "turn"
    south, north = (side.store for side in position[:2][:: -1 if player else 1])
    won = f"{names[south < north]} wins" if south != north else "It is a draw"
    return f"H{'; '.join(outcomes)[1:]}.<br>Best play: {'; '.join(turns)}. {won}, {max(south, north)} to {min(south, north)}."


Puzzle = namedtuple("Puzzle", "line level far gap again greedy text")


def far_of(position, values, most=8):
    """How many moves, at most `most`, a plain search looks ahead until its best moves are best, and stay so; None if it never does."""
    best = {house for house, value in values.items() if value == max(values.values())}
    wrong = 0
    for depth in range(1, most + 1):
        seen = rules.seen_of_moves(position, depth)
        wrong = wrong if {house for house, value in seen.items() if value == max(seen.values())} <= best else depth
    return None if wrong == most else wrong + 1


def level_of(far, values):
    """The levels as `puzzles --help` says: by the number of moves ahead and of those that lose."""
    total = far + len([value for value in values.values() if value < 0])
    return 1 if total <= 5 else 2 if total <= 8 else 3


def puzzle_of(line, most=8):
    """What is known of a puzzle by the reference; None if the position is none."""
    position = reference.read(line.encode())
    values = {} if isinstance(position, str) else {house: reference.value(position, house) for house in reference.legal(position)}
    far = len(values) > 1 and sum(value > 0 for value in values.values()) == 1 and far_of(rules.read(line), values, most)
    if not far:
        return None
    best, second = sorted(values.values(), reverse=True)[:2]
    reached = {house: reference.after(position, house) for house in values}
    gains = {house: to[word == "turn"].store - position.own.store for house, (to, word) in reached.items()}
    winner = max(values, key=values.get)
    is_greedy = gains[winner] > max(gains[house] for house in values if house != winner)
    level, moves = level_of(far, values), f"{far} move{'s' if far > 1 else ''}"
    text = f"level {level}, {moves} ahead, by {best - second}: {line} {' '.join(f'{house}:{value}' for house, value in values.items())}"
    return Puzzle(line, level, far, best - second, reached[winner][1] == "again", is_greedy, text)


class ScriptTrials:
    """The tools as they are run, in a folder of their own, on files whose names have spaces."""

    def __init__(self, folder, draw):
        self.folder, self.draw = folder, draw

    def run(self):
        self.sample()
        self.puzzles()
        self.real_boards()
        self.booklet()
        self.drawn_booklet()
        self.table()
        self.empty()
        self.games()

    def script(self, name, *words, status=0):
        """Returns what a script prints, on both outputs."""
        done = subprocess.run([*command(name), *map(str, words)], cwd=self.folder, capture_output=True, text=True)
        must(done.returncode == status and "Traceback" not in done.stderr, f"{name} {words}: status {done.returncode}\n{done.stderr}")
        return done.stdout, done.stderr

    def sample(self):
        sizes = 3, 5, "--sample", 100, "--seed"
        first, again, other = (self.script("positions", *sizes, seed)[0].splitlines() for seed in (1, 1, 2))
        must(first == again != other and len({*first}) == 100, "positions: a sample is not that of its seed")
        _, err = self.script("positions", 3, 5, "--sample", 1000, status=2)
        equal(err, "positions: --sample 1000: there are only 210 positions\n", "positions")

    def puzzles(self):
        """Each puzzle has exactly one move that wins, and others; no other position has; and faults are named."""
        lines = [*positions.Positions(2, 6), "1,1,1/0 3,0,0/0 e", "2,1/0 3,0/0 e", "1,1/0", "0,0/3 1,2/4"]
        (self.folder / "a b.txt").write_text("".join(line + "\n" for line in lines))
        out, err = self.script("puzzles", "--again", "--greedy", "a b.txt", status=1)
        equal(err, f"puzzles: a b.txt:{len(lines) - 1}: {fault('shape', '1,1/0')}\n", "puzzles")
        rows, near = ([one for line in lines if (one := puzzle_of(line, most))] for most in (8, 2))
        for some in (rows, near):
            some.sort(key=lambda one: (-one.level, -one.far, one.gap, one.line))
        equal(out.splitlines(), [one.text for one in rows], "puzzles")
        for options, kept in (
            ([], [one for one in rows if not one.again and not one.greedy]),
            (["--again"], [one for one in rows if not one.greedy]),
            (["--greedy", "--depth", "2"], [one for one in near if not one.again]),
        ):
            got, _ = self.script("puzzles", *options, "a b.txt", status=1)
            must(got.splitlines() == [one.text for one in kept] != out.splitlines(), f"puzzles {options}: {got} in place of {kept}")
            must(kept, f"puzzles {options}: no position tries this")
        _, err = self.script("puzzles", "--depth", 41, "a b.txt", status=2)
        must(err.endswith("error: argument --depth: '41' is not a number from 1 to 40\n"), f"puzzles --depth 41: {err}")

    def real_boards(self):
        """Puzzles and certificates of six houses take little time and memory."""
        (self.folder / "real.txt").write_text(self.script("positions", 6, 20, "--sample", 40)[0])
        self.measured("puzzles", "real.txt", seconds=40)
        for rule in RULES:
            position = self.script("positions", 6, 20, "--sample", 1)[0].rstrip("\n") + rule
            (self.folder / "certificate").write_text(self.measured("certify", position, seconds=120))
            must(f"{position} has the margin " in self.script("check", "certificate")[0], f"certify {position}")
        (self.folder / "certificate").write_text("1,1/0 1,1/0 at least 3 house 2\n")
        _, err = self.script("check", "certificate", status=1)
        equal(err, "check: line 1 doesn't follow: it needs 1,0/1 1,1/0 at least 3, which no line proves\n", "check")
        _, err = self.script("check", "no file", status=2)
        equal(err, "check: cannot read no file: No such file or directory\n", "check")

    def measured(self, name, *words, seconds):
        """Returns what a script prints within these seconds, with little memory."""
        words = ["sh", "-c", f'ulimit -d {KILOBYTES}; exec "$@"', "sh", *command(name), *words]
        done = subprocess.run(words, cwd=self.folder, capture_output=True, text=True, timeout=seconds)
        must(done.returncode == 0 and not done.stderr, f"{name}: status {done.returncode}\n{done.stderr}")
        return done.stdout

    def booklet(self):
        """It has a board and a solution for each puzzle, and no text gets in unescaped."""
        lines = ["level 1, 4 moves ahead, by 2: 1,3/0 1,1/0 1:2 2:0", "1,3/0 2,0/0", "1,0/0 0,2/0 e", "by 1: 1,0/0 0,2/0 e 1:-1"]
        (self.folder / "a b.txt").write_text("\n".join(lines))
        page, _ = self.script("booklet", "--title", HOSTILE, "a b.txt")
        parts = "<section>", "<svg", "<li>", "moves and wins", "house 2 draws", "North wins, 2 to 1"
        counts = [page.count(part) for part in parts]
        must(counts == [4, 4, 4, 2, 2, 2] and "<script" not in page, f"booklet: {counts}")
        (self.folder / "c.txt").write_text("0,0/3 1,2/4\n1,1/0 1,1/0\n1/0\n")
        page, err = self.script("booklet", "c.txt", status=1)
        want = f"booklet: c.txt:1: the game is over\nbooklet: c.txt:3: {fault('shape', '1/0')}\n"
        must(page.count("<svg") == 1 and err == want, f"booklet: {err}")

    def drawn_booklet(self):
        """The puzzles come by level, numbered from 1, each with its question and its solution: the outcome of every move, the best first,
        and the game of best play: who moves, and who wins. A page has four of them, and pages are numbered."""
        lines = [STRAYS, *(drawn_line(self.draw, 4, 8).replace("/99", "/9") for _ in range(GAMES - 1))]
        (self.folder / "drawn.txt").write_text("\n".join(lines))
        page, _ = self.script("booklet", "--paper", "Letter", "drawn.txt")
        found = re.findall(r"<section><p><b>(\d+)\.</b> (.*?) <i>Level (\d)\.</i></p>\n.*?<title>(.*?)</title>", page, re.DOTALL)
        equal([int(number) for number, *_ in found], [*range(1, GAMES + 1)], f"booklet: the numbers of {found}")
        equal(sorted(line for *_, line in found), sorted(lines), f"booklet: the positions of {found}")
        levels, solutions = [int(level) for _, _, level, _ in found], re.findall("<li>(.*)</li>", page)
        equal(levels, sorted(levels), "booklet: the levels")
        for (_, question, level, line), solution in zip(found, solutions, strict=True):
            position = reference.read(line.encode())
            values = {house: reference.value(position, house) for house in reference.legal(position)}
            wins = sum(value > 0 for value in values.values())
            asked = "South moves and wins." if wins == 1 else "South moves. Which house is best?"
            asked += " The empty-capture rule holds." * line.endswith(" e")
            equal((question, solution), (asked, solution_of(position)), f"booklet: question and solution of {line}")
            equal(int(level), level_of(far_of(rules.read(line), values) or 9, values), f"booklet: the level of {line}")
        pages = page.split('<div class="page')[1:]
        counts = [one.count("<section>") for one in pages]
        equal(counts, [0, *[4] * 7, 2, 0, 0, 0], "booklet: the puzzles of its pages")
        numbers = [re.findall("<footer>(.*)</footer>", one) for one in pages]
        equal(numbers, [[str(number)] for number in range(1, 13)], "booklet: the numbers of its pages")
        starts = [int(number) for number in re.findall('<ol start="(.*?)">', page)]
        must(starts == [1, 11, 21] and "size: Letter" in page, f"booklet: solutions begin with {starts}")
        must(".page { break-after: page; }" in page and 'name="viewport"' in page, "booklet: a page begins nowhere")

    def table(self):
        """It has a row for each position, as CSV and in a database, of the answers of kalah or of others."""
        lines = ["1,1/0 1,1/0", "1,0/0 0,2/9 e\r", "0,0/3 1,2/4", "1/0", "0,0,1,2,0,3/7 1,0,0,0,0,2/0", "3,3,3/0 3,3,3/0"]
        (self.folder / "a b.txt").write_bytes("\n".join(lines).encode())
        out, err = self.script("table", "a b.txt", status=1)
        rows = [*csv.reader(out.splitlines())]
        want = [
            [lines[0], "4", "2", "2", "-2", "2", "", "", "", ""],
            ["1,0/0 0,2/9 e", "3", "-10", "1", "-10", "", "", "", "", ""],
            [lines[2], "3", "-4", "", "", "", "", "", "", ""],
            [lines[4], "9", "10", "4", "", "", "6", "10", "", "0"],
            [lines[5], "18", "2", "1", "2", "2", "-4", "", "", ""],
        ]
        columns = ["position", "seeds", "margin", "best", *(f"house{house}" for house in range(1, 7))]
        shape = f"table: a b.txt:4: {fault('shape', '1/0')}\n"
        must(rows == [columns, *want] and err == shape, f"table: {out}{err}")
        out, err = self.script("table", "--json", "a b.txt", status=1)
        objects = [json.loads(line) for line in out.splitlines()]
        wanted = [{"position": "1/0", "fault": "shape"}]
        for position, seeds, margin, house, *worth in want:
            values = {str(number): int(value) for number, value in enumerate(worth, 1) if value}
            best = int(house) if house else None
            known = {"seeds": int(seeds), "margin": int(margin), "best": best, "house": best}
            wanted.append({"position": position, **known, "values": values})
        wanted.insert(3, wanted.pop(0))
        must(objects == wanted and err == shape, f"table --json: {out}{err} in place of {wanted}")
        answers = ["x:1 1:-2 2:2", "y:2 1:-10", "x:3 -4 over", "x:4 too large: 20 seeds", "a b:5 3:6 4:10 6:0", "x:6 1:2 2:2 3:-4"]
        (self.folder / "answers").write_text("\n".join(answers))
        for words in (["--name", "kalah"], ["--name", 'a "b', "--answers", "answers"], ["--name", "kalah"]):
            self.script("table", "--sqlite", "data.db", *words, "a b.txt", status=1)
        for name in ("kalah", 'a "b'):
            quoted = name.replace('"', '""')
            stored = sqlite3.connect(self.folder / "data.db").execute(f'SELECT {", ".join(columns)} FROM "{quoted}"')
            found = [["" if cell is None else str(cell) for cell in row] for row in stored]
            equal(found, want, f"table, {name}")
        for wrong, why in (
            (answers[:5], "answers has 5 answers, and a b.txt 6 lines"),
            ([*answers, "x:7 0 over"], "answers has 7 answers, and a b.txt 6 lines"),
            ([answers[1], answers[0], *answers[2:]], "answer 1 of answers is not that to a b.txt:1: y:2 1:-10"),
        ):
            (self.folder / "answers").write_text("\n".join(wrong))
            got = self.script("table", "--answers", "answers", "a b.txt", status=2)
            equal(got, ("", f"table: {why}\n"), f"table, {wrong}")
        (self.folder / "a b.txt").write_text(f"{lines[5]}\n\n")
        out, err = self.script("table", "a b.txt", status=1)
        rows = [*csv.reader(out.splitlines())]
        empty = f"table: a b.txt:2: {fault('empty', '')}\n"
        must(rows == [columns, want[4]] and err == empty, f"table, an empty line at the end: {out}{err}")

    def empty(self):
        """Of a file without a line there is nothing, or that is said."""
        (self.folder / "empty").write_text("")
        for name, *options in (["table", "--json"], ["puzzles"]):
            equal(self.script(name, *options, "empty"), ("", ""), f"{name} {options} of an empty file")
        equal(self.script("table", "empty")[0].count("\n"), 1, "table of an empty file")
        for name, *options in (["booklet"], ["review", "--games"], ["match", "kalah", "kalah", "--positions"]):
            out, err = self.script(name, *options, "empty", status=2)
            must(out == "" and err.startswith(f"{name}: empty has no "), f"{name} {options} of an empty file: {out}{err}")
        _, err = self.script("puzzles", "-", status=2)
        equal(err, "puzzles: cannot read -: there is no such file; standard input is /dev/stdin\n", "puzzles -")

    def games(self):
        (self.folder / "a b.txt").write_text("1,1/0 1,1/0 2 1\n\n1,1/0 1,1/0 1 2 2\n1/0 1 2\n")
        out, err = self.script("review", "--games", "a b.txt", status=1)
        lines = out.splitlines()
        want = ["a b.txt:1 1,1/0 1,1/0", "1. South moves house 2, worth +2, and moves again.", "a b.txt:4 1/0 1"]
        must([lines[0], lines[1], lines[-1]] == want and len(lines) == 12, f"review: {out}")
        want = "1. South moves house 1, worth -2, which loses 4 (house 2 is worth +2).\n"
        must(want in out and "\nSouth: moves 1, mistakes 1, lost 4.\n" in out, f"review: {out}")
        want = "review: a b.txt:3: move 3: North can't move house 2: it is empty\nreview: a b.txt:4: " + fault("shape", "1/0 1") + "\n"
        equal(err, want, "review")
        page, _ = self.script("review", "--html", "--games", "a b.txt", status=1)
        counts = [page.count(part) for part in ("<h2>", "<svg xmlns", '<svg class="curve"', "worst move", "which loses 4")]
        equal(counts, [3, 6, 2, 1, 1], "review --html")
        page, _ = self.script("review", "--html", HOSTILE, status=1)
        must("<script" not in page, f"review --html: {page}")


def try_scripts(program, folder, seed):
    """Makes all trials."""
    os.environ["KALAH"] = str(program)
    draw = random.Random(seed)
    try_each_step()
    try_board()
    try_pictures(draw)
    try_positions()
    with Client(kalah.Values) as values, Client(kalah.Best) as best, kalah.Solver() as solver:
        CertificateTrials(draw, values, best).run()
        ReviewTrials(draw, solver).run()
    ScriptTrials(folder, draw).run()
