"""The trials of the package's rules and of what uses its rules, for tests/examples: games from boards of any number of seeds.

The rules are compared with `kalah steps`, and above its limit with tests/lib/reference.py, where each cell gets its seeds by a formula.
To have games whose values the reference finds, some trials lower the limit.
"""

import re
import subprocess
from argparse import Namespace
from collections import Counter
from contextlib import contextmanager
from itertools import groupby, product
from urllib.parse import quote, quote_plus
from xml.dom import minidom

from lib import reference
from lib.client_trials import Client, command, kalah
from lib.failing import Failed, equal, must
from lib.random_data import FAULTS, Drawn
from lib.tool_trials import HOSTILE, drawn_game, drawn_line, fault
from lib.http_trials import asked, served

from kalah import Board, Game, rules
from kalah.game import Record
from kalah.tools import handout, positions, review
from kalah.tools.played import played_in, values_of

# The positions that are compared with the program's moves, those above its limit, and the lines that may have a fault.
BELOW, ABOVE, READ = 20_000, 2_000, 1_000
GAMES = 20
USUAL = "4,4,4,4,4,4/0 4,4,4,4,4,4/0"
# Where searches of 3, 4 and 5 moves see different best houses.
FAR = "0,2,2,3,2,1/0 4,0,1,0,0,3/0"
# A start of 32 seeds, games from there of which the first moves are looked at, and positions that are found among many in vain.
START, SAMPLES, VAIN = "4,4,4,4/0 4,4,4,4/0", 200, 3_000
# The limit of the trials that lower it, and positions of as many seeds in which a guess is not the best house.
LOW = 6
GUESSED_WRONG = ["1,1,1/0 2,1,0/0", "2,1,0/0 0,1,2/0"]


@contextmanager
def lower_limit():
    """The scripts take `LOW` for the number of seeds that `kalah` solves."""
    usual, rules.MOST_SEEDS = rules.MOST_SEEDS, LOW
    try:
        yield
    finally:
        rules.MOST_SEEDS = usual


def try_rules(program, folder, drawn):
    """The moves of drawn positions of both rules are those of `kalah steps`."""
    lines = [drawn.position(31).decode() for _ in range(BELOW)]
    (folder / "drawn").write_text("\n".join(lines))
    out = subprocess.run([program, "steps", "drawn"], cwd=folder, capture_output=True, text=True, check=True).stdout
    want = [[] for _ in lines]
    for row in out.splitlines():
        number, _, words = row.removeprefix("drawn:").partition(" ")
        want[int(number) - 1].append(words)
    for line, words in zip(lines, want):
        answer = rules.steps(line)
        over = isinstance(answer, kalah.Over)
        got = [f"{answer.margin} over"] if over else [f"{move.house} {move.position} {move.word}" for move in answer.moves]
        equal(got, words, f"rules, {line}")


def position_above(draw):
    """A position with more seeds than `kalah` solves, up to 99 in a house."""
    while True:
        m, most = draw.randint(1, 6), draw.choice([6, 20, 99])
        sides = [reference.Side(tuple(draw.randint(0, most) for _ in range(m)), draw.choice([0, 9, 99])) for _ in range(2)]
        if sum(sum(side.houses) for side in sides) > reference.MOST_SEEDS:
            return reference.Position(*sides, draw.random() < 0.5)


def try_rules_above(draw):
    """Above the limit each cell gets what the formula of the reference gives it, and a line is read as what it writes."""
    for _ in range(ABOVE):
        position = position_above(draw)
        line = reference.text(position)
        must(rules.start_line(line) == line and rules.read(line) == position, f"rules, {line}: {rules.read(line)}")
        for house in reference.legal(position):
            got, want = rules.after(rules.read(line), house), reference.after(position, house)
            equal(got, want, f"rules, {line}, house {house}")
            equal(rules.read(rules.text(got[0])), want[0], f"rules, {line}, house {house}: it is not read again")


def try_faults(drawn):
    """A line has the fault that it has for `kalah`, but for the number of seeds."""
    lines = [drawn.faulty(drawn.card("faults", FAULTS)) for _ in range(READ)]
    ends = [b"1/0 1/0 E", b"1/0 1/0 ", b"1/0 1/0\r", b"1/0 1/0 e\r", b"1/0 1/0\r\r"]
    for line in [*lines, *ends, b"100,1/0 1,1/0", b"1,1/100 1,1/0", b"1" * 81, b"", b"01/0 1/0"]:
        want = reference.read(line)
        try:
            rules.start_line(line.decode(errors="surrogateescape"))
            got = None
        except kalah.Fault as fault:
            got = fault.word
        except ValueError:
            got = "no question"
        if not isinstance(want, str) or want == "seeds":
            want = None
        must(got == want or (got == "no question" and b"\xff" in line), f"rules, {line}: {got} in place of {want}")


def seen(position, depth):
    """The margin that a plain search sees over the rules of the reference."""
    if reference.is_over(position):
        return reference.best_play(position)[0]
    return max(seen_of(position, depth).values()) if depth else position.own.store - position.other.store


def seen_of(position, depth):
    reached = {house: reference.after(position, house) for house in reference.legal(position)}
    return {house: seen(to, depth - 1) * (-1 if word == "turn" else 1) for house, (to, word) in reached.items()}


def try_values(draw, solver, client):
    """Values are those of best play if there are few enough seeds, also with large stores; else there are none, and a guess is what a plain
    search sees."""
    for _ in range(GAMES):
        line = drawn_line(draw, 4, 8)
        position = reference.read(line.encode())
        values = {house: reference.value(position, house) for house in reference.legal(position)}
        equal(values_of(solver, Board(line)), values, f"rules, {line}")
        large = re.sub("/[0-9]+", "/900", line, 1)
        lead = 900 - position.own.store
        got = rules.ask(client, large).by_house
        equal(got, {house: value + lead for house, value in values.items()}, f"rules, {large}")
        found = seen_of(position, rules.LOOKED_AHEAD)
        equal(rules.seen_of_moves(rules.read(line), rules.LOOKED_AHEAD), found, f"rules, {line}: what it sees")
        equal(rules.guess(line), max(found, key=found.get), f"rules, {line}: its guess")
    equal(rules.guess(FAR), max(seen_of(reference.read(FAR.encode()), 4).items(), key=lambda one: one[1])[0], f"rules, {FAR}: its guess")
    for line, seeds in ((USUAL, 48), ("16,0/3 0,16/0 e", 32)):
        equal(values_of(solver, Board(line)), None, f"rules, {line}: its values")
        try:
            raise Failed(f"rules, {line}: {rules.ask(client, line)}")
        except rules.TooMany as why:
            must(str(why) == f"{seeds} seeds in houses: no values above 31 seeds" and why.word == "seeds", f"rules, {line}: {why}")
    equal(rules.ask(client, "16,0/3 0,15/0").by_house, {1: -4}, "rules: values of 31 seeds")
    equal(rules.ask(client, "0,0/3 40,0/1"), kalah.Over(-38), "rules: the end of a game above the limit")


def try_plain(draw, folder):
    """The plain engine names the house that a search sees as best."""
    lines = [drawn_line(draw, 4, 8) for _ in range(GAMES)]
    seen_best = []
    for line in lines:
        found = seen_of(reference.read(line.encode()), 3)
        seen_best.append(str(max(found, key=found.get)))
    text = "\n".join([*lines, USUAL, "0,0/3 1,2/4", ""])
    out = output(folder, "plain.py", 3, text=text)[0].splitlines()
    must(out[:-2] == seen_best and out[-2] in "123456" and out[-1] == "none", f"plain.py: {out} in place of {seen_best}")
    (folder / "a b.txt").write_text(text + "1/0\n")
    again, err = output(folder, "plain.py", 3, "a b.txt", status=1)
    must(again.splitlines() == out and err == f"plain.py: {fault('shape', '1/0')}\n", f"plain.py: {again}{err}")


class GameTrials:
    """What the scripts say of games, above the limit and below it."""

    def __init__(self, draw, solver):
        self.draw, self.solver = draw, solver

    def run(self):
        with lower_limit():
            for _ in range(GAMES):
                line = drawn_line(self.draw, 4, 9)
                self.review(line)
                self.handout(line)
            for line in GUESSED_WRONG:
                self.handout(line)
        for _ in range(GAMES):
            self.written()

    def reviewed(self, text):
        return review.Review(Record(1, {}, text), self.solver)

    def review(self, line):
        """Moves have values as soon as the seeds fit, and the curve has each of these, as South sees it. Of the others one sentence says
        why they have none."""
        moved, margin = drawn_game(self.draw, line)
        game = self.reviewed(" ".join([line, *(str(house) for _, house, _ in moved)]))
        must(len(game.played) == len(moved) and game.game.is_over, f"review: {line} {moved}: {game.flaw}")
        course, without = [], 0
        for number, (played, said, (player, house, values)) in enumerate(zip(game.played, game.captions(), moved)):
            fits = played.board.seeds <= LOW
            must(played.values == (values if fits else None), f"review, {played.board}: {played.values}")
            must(("worth " + f"{values[house]:+d}".replace("+0", "0") in said) if fits else "worth" not in said, f"review: {said}")
            without += not fits
            if fits:
                best = max(values.values())
                course.append((number, -best if player else best, best - values[house]))
        course.append((len(moved), margin, 0))
        equal([*game.course()], course, f"review, {line} {moved}")
        self.curve(game, course)
        first, page = game.text().splitlines()[0], game.html()
        want = f"Moves 1 to {without}: no value above {LOW} seeds." if without > 1 else f"Move 1: no value above {LOW} seeds."
        is_said = (first == want) == (want in page) == ("nothing is proved" in page) == bool(without)
        must(is_said, f"review, {line}: {first} in place of {want}")

    def curve(self, game, course):
        """The points of the curve rise with their values, and stand in the order of the moves."""
        drawn = minidom.parseString(re.search('<svg class="curve".*?</svg>', game.html(), re.DOTALL)[0])
        points = drawn.getElementsByTagName("circle")
        said = [point.getElementsByTagName("title")[0].firstChild.data for point in points]
        want = [f"after {number} move{'s' * (number != 1)} " + f"{value:+d}".replace("+0", "0") for number, value, _ in course]
        want = [one + f"; the next one loses {lost}" * (lost > 0) for one, (_, _, lost) in zip(want, course)]
        equal(said, want, "review: what the curve says")
        placed = [(float(point.getAttribute("cx")), float(point.getAttribute("cy"))) for point in points]
        line = drawn.getElementsByTagName("polyline")[0].getAttribute("points")
        equal([tuple(map(float, point.split(","))) for point in line.split()], placed, f"review: the curve goes through {line}")
        for one, (left, above) in zip(course, placed):
            for other, (right, below) in zip(course, placed):
                holds = (one[0] < other[0]) == (left < right) and (one[1] > other[1]) == (above < below)
                must(holds, f"review: the curve of {course} is at {placed}")

    def handout(self, line):
        """Above the limit the moves are those that seem best, and below it best ones."""
        game = handout.best_game(self.solver, line, None)
        position = reference.read(line.encode())
        for played in played_in(game, self.solver):
            fits = rules.seeds_in(position) <= LOW
            best = reference.best_play(position)[1] if fits else rules.guess(reference.text(position))
            is_right = played.house == best and str(played.board) == reference.text(position) and bool(played.values) == fits
            must(is_right, f"handout, {played.board}: house {played.house}, {played.values}")
            position, _ = reference.after(position, best)
        must(reference.is_over(position) and str(game.board) == reference.text(position), f"handout, {line}: the game ends at {game.board}")

    def written(self):
        """A game is the same, however it is written down; a letter or a side that isn't the mover's is an error."""
        line = drawn_line(self.draw, 4, 8).replace("/99", "/9")
        moved, _ = drawn_game(self.draw, line)
        houses, players = [house for _, house, _ in moved], [player for player, _, _ in moved]
        letters = [("abcdef" if player else "ABCDEF")[house - 1] for player, house in zip(players, houses)]
        turns = [[*some] for _, some in groupby(zip(players, houses, letters), key=lambda one: one[0])]
        game = Game(line, houses)
        seeds = [board.houses[0][house - 1] for board, house in zip(game.boards, houses)]
        texts = [
            " ".join(map(str, houses)), ", ".join(map(str, houses)), " ".join(letters),
            " ".join(f"{number}. {house}" for number, house in enumerate(houses, 1)),
            " ".join(f"{number}.{letter}" for number, letter in enumerate(letters, 1)),
            " ".join(f"{number} {letter}," for number, letter in enumerate(letters, 1)),
            " ".join(f"{number}) {letter}" for number, letter in enumerate(letters, 1)),
            " ".join("".join(letter for _, _, letter in turn) for turn in turns),
            " ".join("-".join(str(house) for _, house, _ in turn) for turn in turns),
            " ".join(f"{letter}{count}" for letter, count in zip(letters, seeds)),
            " ".join(f"{letter}{house}" for letter, house in zip(letters, houses)),
            " ".join(f"1{'...' if player else '.'} {house} {{so}}" for player, house in zip(players, houses)), game.record(),
            game.record(numbers=True),
        ]
        games = [self.reviewed(f"{line} {text}") for text in texts]
        games.append(self.reviewed(f"http://127.0.0.1:8000/#{quote(' '.join([line, *map(str, houses)]), safe=',/')}"))
        games.append(self.reviewed(f"http://127.0.0.1:8000/?game={quote_plus(str(game))}&x=1"))
        for text, one in zip([*texts, "an address", "a query"], games):
            got = [played.house for played in one.played]
            must(got == houses and one.game.is_over and not one.flaw, f"review, {line} {text}: {got}, {one.flaw}")
        equal(len({one.text() for one in games}), 1, f"review, {line}: {texts} are not one game")
        place = self.draw.randrange(len(houses))
        swapped = [*letters[:place], letters[place].swapcase()]
        wrong = [" ".join(swapped), " ".join([*map(str, houses[:place]), "1." if players[place] else "1...", str(houses[place])])]
        mover, other = ["South", "North"][:: -1 if players[place] else 1]
        for text, word in zip(wrong[: 1 if players[place] else 2], (swapped[-1], str(houses[place]))):
            want = f"move {place + 1}: {mover} moves, and {word} is a move of {other}"
            flaw = self.reviewed(f"{line} {text}").flaw
            equal(flaw, want, f"review, {line} {text}")


def output(folder, name, *words, text="", status=0):
    """Returns what a script prints, on both outputs."""
    done = subprocess.run([*command(name), *map(str, words)], cwd=folder, input=text, capture_output=True, text=True)
    said = f"{done.stdout}{done.stderr}"
    must(done.returncode == status and "Traceback" not in said, f"{name} {words}: status {done.returncode}\n{said}")
    return done.stdout, done.stderr


def try_usual_board(program, folder):
    """The scripts take the board of 48 seeds, and say where there are no values yet."""
    must(">99<" in output(folder, "board", "99,4/0 4,4/0")[0], "board: 99 seeds in a house are not drawn")
    _, err = output(folder, "board", "100,4/0 4,4/0", status=1)
    equal(err, f"board: {fault('shape', '100,4/0 4,4/0')}\n", "board")
    out, _ = output(folder, "duel", "--second", USUAL, text="6\n")
    said = f"the solver: house {rules.guess(USUAL)} (48 seeds in houses: no values above 31 seeds; it looks 4 moves ahead)\n"
    must(out.startswith(said) and "your house, " in out, f"duel: {out}")
    page, _ = output(folder, "handout", "--first", 1, "9,9/0 9,9/0")
    for said in ("moves house 1.", "no value above 31 seeds", "nothing is proved", ", worth "):
        must(said in page, f"handout: {said} is not in {page}")
    for first, line, why in (
        (2, "1,0/0 1,1/0", "move 1: South can't move house 2: it is empty"),
        (0, "1,1/0 1,1/0", "move 1: South can't move house 0: houses are 1 to 2"),
        (1, "0,0/1 1,1/0", "move 1: South can't move house 1: the game is over"),
    ):
        out, err = output(folder, "handout", "--first", first, line, status=2)
        must(out == "" and err == f"handout: {why}\n", f"handout --first {first} {line}: {err}")
    out, _ = output(folder, "review", USUAL, "3", "6")
    must(out.startswith("Moves 1 to 2: no value above 31 seeds.\n1. South moves house 3, and moves again.\n"), f"review: {out}")
    must(out.endswith("South: moves 2, with values 0, mistakes 0, lost 0.\nNorth: moves 0, mistakes 0, lost 0.\n"), f"review: {out}")
    page, _ = output(folder, "review", "--html", USUAL, "3", HOSTILE, status=1)
    must("<script" not in page and "can&#x27;t move house &lt;/title&gt;" in page, f"review --html: {page}")
    with served(program) as server:
        reached = asked(server.server_port, "/moves", USUAL)[1]["moves"][2]
        equal(reached, {"house": 3, "position": "4,4,0,5,5,5/1 4,4,4,4,4,4/0", "word": "again"}, "web, a move of the usual board")
        status, answer = asked(server.server_port, "/values", USUAL)
        equal((status, answer), (422, {"error": "48 seeds in houses: no values above 31 seeds"}), "web, /values")
        status, answer = asked(server.server_port, "/best", USUAL)
        why = "48 seeds in houses: no values above 31 seeds; it looks 4 moves ahead"
        want = {"is_over": False, "house": rules.guess(USUAL), "guessed": why}
        equal((status, answer), (200, want), "web, /best")
        status, answer = asked(server.server_port, "/best", "1,1/200 1,1/0")
        equal(answer, {"is_over": False, "margin": 202, "house": 2}, f"web, with large stores: status {status}")


def reachable(line):
    """All positions that games reach from one, with that one."""
    known, new = set(), {reference.read(line.encode())}
    while new:
        known |= new
        new = {reference.after(position, house)[0] for position in new for house in reference.legal(position)} - known
    return {reference.text(position) for position in known}


def try_good_games(draw):
    """Three moves of four of a good game are the best that a search of 2 moves sees, and of a random game each is as likely. The first move
    that puts a seed into a store is such a move, after which its player moves again."""
    start = rules.read(START)
    found = seen_of(start, 2)
    best = max(found, key=found.get)
    reached, word = reference.after(start, best)
    must(word == "again" and rules.seeds_in(reached) == 31, f"positions: {START} is no start for this")
    for kind, least, most in (("good", 0.62, 0.95), ("random", 0, 0.4)):
        asked = Namespace(houses=4, seeds=[31], sample=1, games=kind, start=START, seed=None)
        drawn = []
        for _ in range(SAMPLES):
            asked.seed = draw.randrange(10**9)
            drawn += positions.sample(asked, lambda line: True)
        share = drawn.count(reference.text(reached)) / SAMPLES
        must(least <= share <= most, f"positions --games {kind}: {share} of the games begin with the best move")


def try_drawn_positions(folder, draw):
    """Positions of a range, of games and of a small margin are what they are said to be."""
    lines = output(folder, "positions", 3, "4-6", "--sample", 90, "--seed", draw.randrange(1000))[0].splitlines()
    counts = Counter(rules.seeds_in(rules.read(line)) for line in lines)
    must(len({*lines}) == 90 and [*sorted(counts)] == [4, 5, 6] and min(counts.values()) >= 10, f"positions 3 4-6: {counts}")
    for rule, kind in product(["", " e"], ["random", "good"]):
        line = "2,2/0 2,2/0" + rule
        words = 2, "3-6", "--games", kind, "--start", line, "--sample", 8, "--seed", draw.randrange(1000)
        lines = output(folder, "positions", *words)[0].splitlines()
        sizes = {rules.seeds_in(rules.read(line)) for line in lines}
        is_right = len({*lines}) == 8 and sizes <= {3, 4, 5, 6} and {*lines} <= reachable(line)
        must(is_right and not any(reference.is_over(reference.read(one.encode())) for one in lines), f"positions {words}: {lines}")
    words = 6, "8-14", "--games", "--sample", 5, "--seed", 1
    one, again = (output(folder, "positions", *words)[0] for _ in range(2))
    must(one == again != "", f"positions {words}: {one}{again}")
    try_good_games(draw)
    lines = output(folder, "positions", 6, 12, "--sample", VAIN, "--balanced", 0, "--seed", 1)[0].splitlines()
    equal(len({*lines}), VAIN, "positions --balanced 0: how many there are")
    start = rules.read(USUAL)
    for often, least, most in ((0, 8, 30), (1, 1, 1)):
        games = positions.of_games(draw, start, [40], often)
        found = {next(games) for _ in range(30)}
        must(least <= len(found) <= most, f"positions: games with {often} of best moves reach {found}")
    every = [*positions.Positions(2, 5)]
    margins = {line: reference.best_play(reference.read(line.encode()))[0] for line in every}
    want = [line for line in every if abs(margins[line]) <= 1]
    equal(output(folder, "positions", 2, 5, "--balanced", 1)[0].splitlines(), want, "positions --balanced")
    lines = output(folder, "positions", 2, "4-7", "--games", "--balanced", 2, "--sample", 10, "--seed", 1)[0].splitlines()
    must(all(abs(reference.best_play(reference.read(line.encode()))[0]) <= 2 for line in lines), f"positions: {lines} are not balanced")
    for words, why in (
        ((2, "x"), "'x' is not a number from 2 to 31"), ((2, "9-8"), "'9-8' is not a number from 2 to 31"),
        ((2, "1-4"), "'1-4' is not a number"), ((2, "30-32"), "'30-32' is not a number"), ((2, 4, "--games"), "--games needs --sample"),
        ((2, 4, "--sample", 3, "--start", USUAL), "--start needs --games"),
        ((2, 4, "--sample", 3, "--games", "--start", USUAL), "no game starts there with 2 houses a side and 4 seeds or more"),
        ((2, 4, "--balanced", "-1"), "'-1' is not a number from 0 on"),
        ((1, 31, "--sample", 3, "--games", "random"), "--sample 3: only 0 positions are found"),
    ):
        out, err = output(folder, "positions", *words, status=2)
        must(out == "" and why in err, f"positions {words}: {err}")


def try_booklet(folder):
    """The rules stand before the first puzzle; that of the empty capture only where a puzzle has it."""
    for rule in ("", " e"):
        (folder / "puzzles").write_text(f"1,3/0 1,1/0{rule}\n")
        page, _ = output(folder, "booklet", "puzzles")
        first, _, rest = page.partition("<section>")
        must("<h3>The rules of Kalah</h3>" in first and "<b>Capture.</b>" in first and "<svg" in rest, f"booklet: {page}")
        must(("empty-capture" in first) == bool(rule), f"booklet: {page}")


def try_games(program, folder, seed):
    """Makes all trials."""
    drawn = Drawn(seed)
    try_rules(program, folder, drawn)
    try_rules_above(drawn.chance)
    try_faults(drawn)
    with kalah.Solver() as solver, Client(kalah.Values) as client:
        try_values(drawn.chance, solver, client)
        GameTrials(drawn.chance, solver).run()
    try_plain(drawn.chance, folder)
    try_usual_board(program, folder)
    try_drawn_positions(folder, drawn.chance)
    try_booklet(folder)
