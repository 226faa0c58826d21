"""Asks one run of kalah about positions one by one: each answer is there before the next position is known.

    python3 examples/ask.py LINE..

It needs `kalah`, as `help(kalah)` says.
"""

from kalah import Fault, Over, Solver
from kalah.script import arguments, run


def said(solver, line):
    """What is printed of a line."""
    try:
        answer = solver.best(line)
    except Fault as fault:
        return f"fault {fault.word}"
    return f"{answer.margin} over" if isinstance(answer, Over) else f"{answer.margin} house {answer.house}"


def main():
    parser = arguments(__doc__)
    parser.add_argument("line", nargs="+", metavar="LINE", help="a position, in quotes")
    with Solver() as solver:
        for line in parser.parse_args().line:
            print(f"{line}: {said(solver, line)}")


run(main)
