"""Makes a booklet of puzzles to print: one HTML file with the rules on its first page, then four drawn boards a page, and the solutions
at the end.

    python3 -m kalah booklet [--title TITLE] [--paper A4|Letter] FILE > booklet.html

Each line of FILE has a position, alone or within what `puzzles` prints. The puzzles come in order of their level, 1 to 3: how many moves a
plain search must look ahead, and how many moves lose, as `puzzles --help` says. A solution has the values of all moves, and a game of best
play. A line without such a position is named on standard error, and the status is then 1. It needs `kalah`, as `help(kalah)` says.
"""

from __future__ import annotations

import html
from collections import Counter
from collections.abc import Iterator, Sequence
from dataclasses import dataclass
from itertools import groupby
from typing import TypeVar

from ..answers import Over
from ..board import Board
from ..game import POSITION, Game
from ..rules import read
from ..script import arguments, of_lines
from ..solver import Solver
from .page import page
from .played import result
from .puzzles import DEPTH, how_far, level_of

# How many puzzles and how many solutions a page has.
PUZZLES, SOLUTIONS = 4, 10
# How high the part of a page is that is printed on, in millimetres.
PAPERS = {"A4": 262, "Letter": 244}
STYLE = """.page {{ break-after: page; }}
.page:last-child {{ break-after: auto; }}
section {{ break-inside: avoid; margin: 0.6em 0; }}
section svg {{ width: 100%; max-height: 50mm; }}
section p {{ margin: 0 0 0.3em; }}
li {{ break-inside: avoid; margin-bottom: 0.6em; }}
footer {{ text-align: center; color: #5a3a1e; }}
@page {{ size: {paper}; margin: 15mm; }}
@media print {{
  body {{ margin: 0; padding: 0; max-width: none; }}
  .page {{ height: {high}mm; display: flex; flex-direction: column; justify-content: space-between; }}
}}"""
RULES = """<h3>The rules of Kalah</h3>
<p>Each player has the houses of one row, and the store at its right end, as that player sees it. Who has more seeds at the end wins.</p>
<p><b>A move</b> lifts all seeds of one of the player's own houses. They are sown one by one, against the clock: into the houses after it,
the player's own store, the other player's houses, and so on round the board. The other player's store is passed over.</p>
<p><b>Another move.</b> If the last seed falls into the player's own store, the same player moves again.</p>
<p><b>Capture.</b> If the last seed falls into one of the player's own houses that was empty, and the house across has seeds, then that
seed and those across go to the player's own store. The house whose seeds were lifted counts as empty.</p>
<p><b>The end.</b> The game is over as soon as all houses of one player are empty. The seeds that are left go to the store of the player in
whose houses they are.</p>"""
EMPTY = """
<p>Where <b>the empty-capture rule</b> holds, the last seed goes to the player's own store also if the house across is empty.</p>"""
LEVELS = {1: "Level 1", 2: "Level 2", 3: "Level 3"}

One = TypeVar("One")


@dataclass(frozen=True)
class Puzzle:
    """A puzzle of the booklet: its level, its board, the question, and the solution."""

    level: int
    board: Board
    question: str
    solution: str


def outcome(house: int, value: int) -> str:
    return f"house {house} " + (f"wins by {value}" if value > 0 else f"loses by {-value}" if value else "draws")


def best_play(solver: Solver, board: Board) -> str:
    """The houses that the players move in best play, and the end."""
    game = Game(board, [move.house for move in solver.best_play(board)])
    turns = [f"{name} {', '.join(str(house) for _, house in turn)}" for name, turn in groupby(game.moves, key=lambda one: one[0])]
    return f"{'; '.join(turns)}. {result(game)}"


def puzzle(line: str, solver: Solver) -> Puzzle:
    """Returns the puzzle of a position that stands in a line."""
    form = POSITION.search(line)
    board = Board(form[0] if form else line)
    answer = solver.values(board)
    if isinstance(answer, Over):
        raise ValueError("the game is over")
    values = answer.by_house
    level = level_of(how_far(read(str(board)), values, DEPTH) or DEPTH + 1, values)
    question = "South moves and wins." if sum(value > 0 for value in values.values()) == 1 else "South moves. Which house is best?"
    rule = " The empty-capture rule holds." if board.rule != "classic" else ""
    outcomes = "; ".join(outcome(house, values[house]) for house in sorted(values, key=lambda house: (-values[house], house)))
    solution = f"{outcomes[0].upper()}{outcomes[1:]}.<br>Best play: {best_play(solver, board)}"
    return Puzzle(level, board, question + rule, solution)


def parts(some: Sequence[One], size: int) -> Iterator[Sequence[One]]:
    for begin in range(0, len(some), size):
        yield some[begin : begin + size]


def pages(title: str, puzzles: Sequence[Puzzle]) -> Iterator[str]:
    """Yields what stands on each page, but for its number."""
    rules = RULES + EMPTY * any("empty-capture" in one.question for one in puzzles)
    counts = Counter(one.level for one in puzzles)
    levels = "; ".join(f"{LEVELS[level]}: {count} puzzle{'s' * (count != 1)}" for level, count in sorted(counts.items()))
    intro = "South sits below and moves. Each player's houses have numbers, as that player counts them."
    yield f"<h1>{html.escape(title)}</h1>\n<p>{intro} {levels}.</p>\n{rules}"
    numbered = [*enumerate(puzzles, 1)]
    for some in parts(numbered, PUZZLES):
        yield "\n".join(
            f"<section><p><b>{number}.</b> {one.question} <i>{LEVELS[one.level]}.</i></p>\n{one.board.svg(str(one.board))}</section>"
            for number, one in some
        )
    for some in parts(numbered, SOLUTIONS):
        solutions = "\n".join(f"<li>{one.solution}</li>" for _, one in some)
        yield f'<h2>Solutions</h2>\n<ol start="{some[0][0]}">\n{solutions}\n</ol>'


def main() -> bool:
    parser = arguments(__doc__)
    parser.add_argument("--title", default="Kalah puzzles", help="stands on the first page (Kalah puzzles)")
    parser.add_argument("--paper", choices=PAPERS, default="A4", help="A4 or Letter (A4)")
    parser.add_argument("file", metavar="FILE", help="has a position in each line")
    asked = parser.parse_args()
    with Solver() as solver:
        made, has_failed = of_lines(asked.file, lambda line: puzzle(line, solver))
    if not made:
        raise ValueError(f"{asked.file} has no position for a puzzle")
    puzzles = sorted(made, key=lambda one: one.level)
    numbered = enumerate(pages(asked.title, puzzles), 1)
    body = "\n".join(f'<div class="page">\n<div>\n{text}\n</div>\n<footer>{number}</footer>\n</div>' for number, text in numbered)
    print(page(asked.title, body, STYLE.format(paper=asked.paper, high=PAPERS[asked.paper])))
    return has_failed
