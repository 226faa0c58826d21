"""The trials of the Python library, for tests/examples: boards, games, solvers, and many boards at once."""

import copy
import os
import pickle
import re
import signal
import subprocess
import sys
import tempfile
from collections import Counter
from itertools import count, islice
from pathlib import Path
from shutil import which
from types import FunctionType

from lib import reference
from lib.client_trials import PACKAGE, fake, kalah
from lib.failing import Failed, equal, must
from lib.skipping import skip
from lib.game_trials import position_above
from lib.processes import soon
from lib.tool_trials import drawn_game, drawn_line

from kalah import Best, Board, Fault, Game, Gone, IllegalMove, KalahError, Late, Over, Solver, TooMany, Values, solve_many
from kalah.client import Client, find
from kalah.player import NoMove
from kalah.tools.positions import Positions

DRAWN, MANY, SOLVED = 300, 3_000, 60
LINE = "1,1/0 1,1/0"
NO_LINES = [None, b"1/0 1/0", 7, ["1/0 1/0"]]
# What a user runs with warnings as errors: a solver is dropped, and boards are solved that nobody waits for.
DROPPED = """
from kalah import Solver, solve_many
solver = Solver()
solver.best("1,1/0 1,1/0"), solver.values("1,1/0 1,1/0")
del solver
answers = solve_many(["1,1/0 1,1/0"] * 5000)
next(answers)
del answers
print("done")
"""
# Takes answers of hard boards until it is ended.
ENDLESS = """
from itertools import repeat
from kalah import solve_many
for answer in solve_many(repeat("3,2,1,4,4,3/0 1,0,1,3,4,5/0"), workers=2):
    print(answer, flush=True)
"""


def refuses(kind, make, why=""):
    """Returns the error of this kind that a call fails with."""
    try:
        made = make()
    except kind as error:
        must(why in str(error), f"Python: {error}, in place of {why}")
        return error
    raise Failed(f"Python: {made}, in place of {kind}")


def try_boards(draw):
    """A board has what its line has, and its moves are those of the reference."""
    for number in range(DRAWN):
        position = position_above(draw) if number % 2 else reference.read(drawn_line(draw, 6, 31).encode())
        line = reference.text(position)
        board, same = Board(line), Board(line + "\r")
        must(str(board) == line and board == same and hash(board) == hash(same) and eval(repr(board)) == board, f"Board: {board!r}")
        must(pickle.loads(pickle.dumps(board)) == copy.deepcopy(board) == board, f"Board: {line} is not copied")
        equal(board.houses, tuple(side.houses for side in position[:2]), f"Board: the houses of {line}")
        equal(board.stores, tuple(side.store for side in position[:2]), f"Board: the stores of {line}")
        must(board.seeds == sum(map(sum, board.houses)) and board.legal == reference.legal(position), f"Board: {line}: {board.legal}")
        must(board.rule == ("empty-capture" if line.endswith(" e") else "classic"), f"Board: {line}: {board.rule}")
        must(board.is_over == reference.is_over(position) and (board.margin is None) != board.is_over, f"Board: {line}: {board.margin}")
        made = Board.of(*([*side.houses] for side in position[:2]), *board.stores, board.rule)
        must(made == board == Board.of(*board.houses, *board.stores, board.rule), f"Board.of: {made} in place of {line}")
        for house in range(8):
            if house in board.legal:
                reached, word = reference.after(position, house)
                got = board.play(house)
                equal(got, (Board(reference.text(reached)), word == "again"), f"Board: {line}, house {house}")
                must(not got[0].is_over or got[0].margin == reference.best_play(reached)[0], f"Board: {line}, {house}: {got[0].margin}")
            else:
                m = len(board.houses[0])
                why = "the game is over" if board.is_over else "it is empty" if 0 < house <= m else f"houses are 1 to {m}"
                refuses(IllegalMove, lambda: board.play(house), f"house {house} can't be moved: {why}")
    equal([str(Board.start()), str(Board.start(2, 1, "empty-capture"))], ["4,4,4,4,4,4/0 4,4,4,4,4,4/0", f"{LINE} e"], "Board.start")
    sides, seeds = "a side has 1 to 6 houses, not ", "a start has 0 to 99 seeds in each house, not "
    rule = "the rule is 'classic' or 'empty-capture', not "
    for wrong, why in (((0,), sides), ((7,), sides), (("2",), sides), ((2, -1), seeds), ((2, 100), seeds), ((2, 2, "other"), rule)):
        refuses(ValueError, lambda: Board.start(*wrong), f"{why}{wrong[-1]!r}")
    refuses(ValueError, lambda: Board.of([1], [1], rule="other"), rule)
    for wrong, word in ((([1], [1, 1]), "houses"), (([], []), "shape"), (([-1], [1]), "shape"), (([1], [1], 1000), "shape")):
        equal(refuses(Fault, lambda: Board.of(*wrong)).word, word, f"Board.of{wrong}: its fault")
    for line in NO_LINES:
        refuses(TypeError, lambda: Board(line), "a position is a line of text")
    equal(refuses(Fault, lambda: Board("1/0 1,1/0")).word, "houses", "Board: the word of a fault")
    for line in ("1/0\n1/0", "1/0 1/0\0"):
        refuses(ValueError, lambda: Board(line), "one line")
    refuses(AttributeError, lambda: setattr(Board(LINE), "line", ""))
    refuses(IllegalMove, lambda: Board("0,0/3 1,2/4").play(1), "house 1 can't be moved: the game is over")


def try_pictures():
    """A notebook shows the board, and with its values what each move is worth below its house."""
    board = Board("1,2,3/4 5,6,7/8")
    plain, valued = board._repr_html_(), board.with_values(Values({1: -2, 2: 0, 3: 4}))._repr_html_()
    texts = [re.findall(">([^<]+)</text>", picture) for picture in (plain, valued)]
    equal(sorted(texts[1]), sorted([*texts[0], "-2", "0", "+4"]), "Board: the texts of its picture")
    placed = [float(re.search(f'x="([0-9.]+)"[^>]*>{re.escape(value)}<', valued)[1]) for value in ("-2", "0", "+4")]
    must(placed == sorted(placed) and len({*placed}) == 3, f"Board: values at {placed}")
    refuses(TypeError, lambda: board.with_values(Best(1, 1)), "values are what `Solver.values` returns")
    equal(re.search('font-weight="bold">([^<]+)<', valued)[1], "+4", "Board: the best value")
    equal(board.with_values({1: 1}), board, "Board: with values")


def try_game_values(draw):
    """A game has who moves, the moves so far and the margin of its end; moves are taken back; and a record is read back."""
    for _ in range(SOLVED):
        line = drawn_line(draw, 4, 8).replace("/99", "/9")
        moved, margin = drawn_game(draw, line)
        game, seen = Game(line), []
        for player, house, _ in moved:
            seen.append((game.mover, str(game.board), game.moves))
            must(game.mover == ["South", "North"][player] and not game.is_over and game.margin is None, f"Game: {game}: {game.mover}")
            refuses(IllegalMove, lambda: game.push(9), f"{game.mover} can't move house 9: houses are 1 to ")
            game.push(house)
        must(game.is_over and game.margin == margin, f"Game: {game} ends with {game.margin}, not {margin}")
        refuses(IllegalMove, lambda: game.push(1), "the game is over")
        equal(game.houses, [house for _, house, _ in moved], f"Game: the houses of {game}")
        records = [Game.read(text) for text in (str(game), f"{line} {game.record()}", f"{line} {game.record(numbers=True)}")]
        must(all(one.moves == game.moves and str(one.board) == str(game.board) for one in records), f"Game: {game} is not read back")
        must(eval(repr(game)) == game == Game(game.start, game.houses), f"Game: {game!r}")
        other = copy.copy(game)
        other.pop()
        must(other != game == records[0] and other == Game(line, game.houses[:-1]), f"Game: {game} and its copy {other}")
        for (_, house, _), want in zip(moved[::-1], seen[::-1]):
            equal((game.pop(), game.mover, str(game.board), game.moves), (house, *want), f"Game: {game} after pop")
        refuses(IndexError, game.pop)
    equal(str(Game.read("1. CF ba 2. D")), "4,4,4,4,4,4/0 4,4,4,4,4,4/0 1. CF ba 2. D", "Game: the usual board")
    for record, why in (
        ("1.C 1...b", "move 2: South moves, and b is a move of North"),
        ("C F B", "move 3: North moves, and B is a move of South"),
        ("CFD", "move 3: North moves, and D is a move of South"),
        ("3-6-2 x", "move 4: North can't move house x"),
        ("1. C 1... F", "F is a move of South, and `...` before it says North"),
        ("1. C F 1... B", "B is a move of South, and `...` before it says North"),
        ("C5", "move 1: house C has 4 seeds, and its number is 3"),
        ("1,1/0 1,1/0 1. 2 1... 1", "move 2: South moves, and 1 is a move of North"),
    ):
        refuses(IllegalMove, lambda: Game.read(record), why)
    must(Game(LINE, [1]) != Game(f"{LINE} e", [1]), "Game: games of two rules are equal")
    refuses(IllegalMove, lambda: Game(LINE, "21"), "move 1: South can't move house '2': houses are 1 to 2")


def try_solver(draw):
    """A solver answers as the reference does, also with large stores, and says what is wrong with a question."""
    with Solver() as solver:
        for _ in range(SOLVED):
            line = drawn_line(draw, 4, 8)
            position = reference.read(line.encode())
            margin, house = reference.best_play(position)
            values = {legal: reference.value(position, legal) for legal in reference.legal(position)}
            for text, more in ((line, 0), (Board(line), 0), (re.sub("/[0-9]+", "/300", line, 1), 300 - position.own.store)):
                got = solver.best(text), solver.values(text)
                want = Best(margin + more, house), Values({legal: value + more for legal, value in values.items()})
                must(got == want and got[1].margin == margin + more and got[1].house == house, f"Solver: {text}: {got}")
                steps = [(move.house, move.position, move.word) for move in solver.steps(text).moves]
                reached = ((legal, *Board(str(text)).after(legal)) for legal in values)
                equal(steps, [(legal, str(to), word) for legal, to, word in reached], f"Solver: {text}")
                game = Game(text)
                for move in solver.best_play(text):
                    equal(solver.best(game.board).house, move.house, f"Solver: {text}: {move} is not best")
                    game.push(move.house)
                    equal(str(game.board), move.position, f"Solver: {text}: where {move} leads")
                must(game.is_over and game.margin == margin + more, f"Solver: {text}: best play ends with {game.margin}")
        equal((solver.best_play(LINE, first=1)[0].house, solver.line("0,0/3 1,2/4")), (1, []), "Solver: the first house of a game")
        for question in (solver.best, solver.values, solver.steps, solver.line):
            equal(refuses(Fault, lambda: question("1/0")).word, "shape", "Solver: the word of a fault")
            equal(refuses(Fault, lambda: question(Board.start()), "48 seeds").word, "seeds", "Solver: too many seeds")
            for line in NO_LINES:
                refuses(TypeError, lambda: question(line), "a position is a line of text")
        refuses(IllegalMove, lambda: solver.line(LINE, first=3), "house 3 can't be moved: houses are 1 to 2")
        for question in (solver.best, solver.values, solver.steps):
            equal(question("0,0/3 1,2/4"), Over(-4), "Solver: a game that is over")
        for move in solver.steps("2,1/0 1,1/0").moves:
            equal(move.board, Board(move.position), f"Move: the board of {move}")
        solver.close()
        equal(solver.best(LINE), Best(2, 2), "Solver: after close")


def try_timeouts(program, folder):
    """A solver's time is that of all its questions, also once it is changed; and many boards have one for the next answer alone."""
    with Solver(fake(folder, program, ["exec sleep 600"] * 4), timeout=9) as solver:
        solver.timeout = 0.3
        for question in (solver.best, solver.values, solver.steps, solver.line):
            refuses(Late, lambda: question(LINE), "kalah has not answered in 0.3 seconds")
    slow = "for n in 1 2 3 4 5; do sleep 0.5; echo /dev/stdin:$n 2 house 2; done; exec sleep 600"
    some = solve_many([LINE] * 6, program=fake(folder, program, [slow]), timeout=2)
    equal([next(some) for _ in range(5)], [Best(2, 2)] * 5, "solve_many: the answers before a late one")
    refuses(Late, lambda: next(some), "kalah has not answered in 2 seconds")


def try_errors():
    """Each error is a `KalahError`, says what is wrong, and is the same after pickling."""
    words = {"long": "1" * 81, "empty": "", "shape": "1,1/0", "houses": "1/0 1,1/0", "seeds": ""}
    meanings = {
        "long": f"fault long: '{'1' * 40}..' has more than 80 bytes",
        "empty": "fault empty: the line is empty",
        "shape": "fault shape: '1,1/0' is not of the form '1,2/3 4,5/6', or has a number above 99",
        "houses": "fault houses: '1/0 1,1/0' has sides of different numbers of houses, or of more than 6",
        "seeds": "fault seeds: the line has more than 31 seeds in houses",
    }
    for word, line in words.items():
        equal(str(Fault(word, line)), meanings[word], f"Python: the text of a fault {word}")
        if word != "seeds":
            for ask in (Board, Solver().best, Client(Best).ask, lambda line: raises(next(solve_many([line])))):
                fault = refuses(Fault, lambda: ask(line), meanings[word])
                equal((fault.word, fault.line), (word, line), f"Python: the fault of {line!r}")
    errors = [Fault("shape", "1/0"), TooMany(48), Gone("gone"), Late("late"), IllegalMove("no"), NoMove("none")]
    for error in errors:
        same = pickle.loads(pickle.dumps(error))
        must(isinstance(error, KalahError) and (repr(same), str(same), vars(same)) == (repr(error), str(error), vars(error)), f"{error!r}")
    others = [type(one) for one in errors if not isinstance(one, ValueError)]
    equal(others, [Gone, Late], "Python: the errors that are no ValueError")
    equal((isinstance(errors[1], Fault), errors[1].seeds, isinstance(errors[3], Gone)), (True, 48, True), "Python: TooMany and Late")


def raises(error):
    raise error


def try_find(program, folder):
    """The program is the one that KALAH names when it is asked for."""
    usual, other = os.environ["KALAH"], folder / "another kalah"
    other.symlink_to(program)
    equal(find(), usual, "Python: what it finds")
    os.environ["KALAH"] = str(other)
    try:
        must(find() == str(other) and find(program) == str(program), f"Python: it finds {find()} when KALAH names {other}")
    finally:
        os.environ["KALAH"] = usual


def try_positions():
    """All positions of a size are a sequence, with slices and places from its end."""
    every, listed = Positions(3, 5), [*Positions(3, 5)]
    equal([every[place] for place in range(-len(every), 0)], listed, "Positions: places from the end")
    for some in (slice(None), slice(3, 9), slice(-4, None), slice(None, None, -7), slice(1000, None)):
        equal(every[some], listed[some], f"Positions: {some}")
    for place in (len(every), -len(every) - 1):
        refuses(IndexError, lambda: every[place])


def try_many(draw, program, folder):
    """Answers to many boards come in order, with faults, of any number and in any form; and others are refused."""
    others = ["1/0", "", "0,0/3 1,2/4", "1,1/300 1,1/0", "0,0/0 40,0/0", "0/0 100/0", "0,0/300 100,1/0", "16,0/0 0,16/0", "100,1/0 1,1/0"]
    lines = [draw.choice([drawn_line(draw, 3, 7), drawn_line(draw, 6, 12), *others]) for _ in range(MANY)]
    with Solver() as solver:

        def wanted(question, line):
            try:
                return question(line)
            except Fault as fault:
                return f"{fault!r} {fault}"

        known = {line: (wanted(solver.best, line), wanted(solver.values, line)) for line in {*lines}}
    for place, question in enumerate(("best", "values")):
        got = [f"{one!r} {one}" if isinstance(one, Fault) else one for one in solve_many(iter(lines), 3, question)]
        equal(got, [known[line][place] for line in lines], f"solve_many, {question}")
    boards = (Board(LINE) for _ in count())
    equal(Counter(islice(solve_many(boards), 12_000)), {Best(2, 2): 12_000}, "solve_many: many boards")
    equal([*solve_many([])], [], "solve_many: no board")
    some = solve_many([LINE, LINE, None, LINE])
    equal([next(some), next(some)], [Best(2, 2)] * 2, "solve_many: what comes before a mistake")
    refuses(TypeError, lambda: next(some), "a position is a line of text")
    refuses(TypeError, lambda: solve_many(LINE), f"solve_many takes a list of boards, as ['{LINE}']")
    for words in ({"workers": 0}, {"workers": 65}, {"question": "moves"}):
        refuses(ValueError, lambda: solve_many([LINE], **words))
    for text in ("exit 3", f"echo '{'/dev/stdin'}:2 2 house 2'", "echo '/dev/stdin:1 2 hou'", "echo 'kalah: cannot' >&2; exit 2"):
        refuses(Gone, lambda: [*solve_many([LINE, LINE], program=str(fake(folder, program, [text])))])
    cut = fake(folder, program, ["printf '/dev/stdin:1 1:-2 2:1'; exit 1"])
    refuses(Gone, lambda: next(solve_many([LINE], question="values", program=cut)), "after 0 of 1 answers")


def try_ends(program):
    """Nothing is left and nothing warned of when a solver is dropped; and Ctrl-C ends all processes of a batch."""
    environment = {**os.environ, "KALAH": str(program)}
    words = [sys.executable, "-B", "-W", "error", "-X", "dev", "-c", DROPPED]
    done = subprocess.run(words, env=environment, capture_output=True, text=True)
    equal((done.stdout, done.stderr), ("done\n", ""), "Python: a solver that is dropped")
    with tempfile.TemporaryDirectory() as folder:
        # The program under a name that no other process has.
        own = Path(folder) / "kalah-of-this-trial"
        own.symlink_to(program)
        how = {"env": {**environment, "KALAH": str(own)}, "stdout": subprocess.PIPE, "stderr": subprocess.DEVNULL}
        with subprocess.Popen([sys.executable, "-B", "-c", ENDLESS], start_new_session=True, **how) as running:
            must(running.stdout.readline(), "solve_many: no answer")
            running.send_signal(signal.SIGINT)
            running.stdout.read()
            running.wait()
        soon("the end of each run", lambda: not [path for path in Path("/proc").glob("[0-9]*/cmdline") if str(own).encode() in read(path)])


def read(path):
    try:
        return path.read_bytes()
    except OSError:
        return b""


def try_types():
    """The types hold, if there is a checker, and all that is public has a name."""
    must({*kalah.__all__} <= {*dir(kalah)} and (PACKAGE / "kalah/py.typed").exists(), "Python: __all__")
    pages = re.findall(r"[\w/]+\.md", kalah.__doc__)
    must(not pages, f"help(kalah) names {pages}")
    for one in (getattr(kalah, name) for name in kalah.__all__ if isinstance(getattr(kalah, name), type)):
        parts = {name: part for name, part in vars(one).items() if name[0] != "_" and name not in getattr(one, "__dataclass_fields__", ())}
        unsaid = [name for name, part in parts.items() if not (isinstance(part, (FunctionType, classmethod, property)) and part.__doc__)]
        must(one.__doc__ and not unsaid, f"help(kalah) says nothing of {one.__name__} or its {unsaid}")
    if not which("mypy"):
        return skip("mypy", "the types of the Python package")
    with tempfile.TemporaryDirectory() as folder:
        done = subprocess.run(["mypy", "--strict", "--cache-dir", folder, "kalah"], cwd=PACKAGE, capture_output=True, text=True)
    equal(done.returncode, 0, f"mypy --strict: {done.stdout}{done.stderr}")


def try_library(program, folder, draw):
    """Makes all trials."""
    try_boards(draw)
    try_pictures()
    try_game_values(draw)
    try_solver(draw)
    try_timeouts(program, folder)
    try_errors()
    try_find(program, folder)
    try_positions()
    try_many(draw, program, folder)
    try_ends(program)
    try_types()
