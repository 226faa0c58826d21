"""An exact solver of small positions of Kalah.

    from kalah import Board, Game, Solver, solve_many

    board = Board.start(houses=3, seeds=3)          # Board('3,3,3/0 3,3,3/0')
    Board.of([1, 2], [4, 5], 3, 6)                  # Board('1,2/3 4,5/6')
    board.legal, board.seeds                        # ([1, 2, 3], 18)
    after, again = board.play(1)                    # the board after house 1, and whether its player moves again
    print(board.picture())                          # draws it

    with Solver() as solver:
        solver.best(board)                          # Best(margin=2, house=1)
        solver.values(board)                        # Values(by_house={1: 2, 2: 2, 3: -4})
        solver.best_play(board)                     # the moves of a game of best play
        solver.best("1/0")                          # raises Fault("shape"), a KalahError with a `word`
        board.with_values(solver.values(board))     # a notebook draws it with its values

    for answer in solve_many(boards, workers=4):    # any number of boards; answers in order
        ...

A line has the seeds in the houses of the player to move and in that player's store, and after a space the other player's: `1,2/3 4,5/6`.
Houses count from 1. A line that ends in ` e` is played by the empty-capture rule. Margins and values are those of the player to move.
`kalah` solves boards of up to 6 houses a side and 31 seeds in houses; `Board` and `Game` also play with more seeds, in numbers of up to
three digits.

Each error is a `KalahError`, but for TypeError, ValueError and IndexError, which a wrong call gets: `Fault`, if a line is not a position;
`TooMany`, a `Fault`, if it has too many seeds; `IllegalMove`; `Gone`, if `kalah` gives no answer; `Late`, a `Gone`, if it takes too long.

`python3 -m kalah` lists the tools: they grade an engine, let two play, review games, make puzzles, tables and pages to print.

It needs Linux, Python 3.9 or newer, and the program `kalah`: the one that is named, or that the environment variable KALAH names, or else
on the path, at the top of the checkout, or where `make install`, a package or pip puts it.
"""

from .answers import Best, Fault, Gone, KalahError, Late, Move, Over, Steps, Values
from .board import Board, IllegalMove
from .game import Game
from .rules import TooMany
from .solver import Solver, solve_many

__version__ = "1.4.0"
__all__ = ["Best", "Board", "Fault", "Game", "Gone", "IllegalMove", "KalahError", "Late", "Move", "Over", "Solver", "Steps", "TooMany"]
__all__ += ["Values", "solve_many"]
