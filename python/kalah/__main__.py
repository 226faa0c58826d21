"""The tools, as commands: `python3 -m kalah NAME ..`."""

import sys
from importlib import import_module
from typing import NoReturn

from . import __version__
from .script import NOT_DONE, run

TOOLS = {
    "grade": "grades the moves of an engine",
    "match": "lets two engines play",
    "review": "reviews games that were played",
    "puzzles": "picks puzzles among positions",
    "booklet": "makes a booklet of puzzles to print",
    "handout": "makes a page to print of a game of best play",
    "board": "draws a position",
    "positions": "makes positions",
    "table": "makes a table of positions and their values",
    "certify": "writes a certificate of a position's margin",
    "check": "checks a certificate, without kalah",
    "duel": "plays against you in a terminal",
    "web": "serves a board to click in a browser",
}
# The modules of the tools that are not in `tools`.
PLACES = {"check": ".check", "web": ".web.server"}
USAGE = "usage: python3 -m kalah NAME ..\n\n" + "".join(f"  {name:10} {what}\n" for name, what in TOOLS.items())
USAGE += """
`python3 -m kalah NAME --help` says more, and what the tool needs. For the package, `import kalah` and `help(kalah)` in Python; for the
commands of the program, such as `kalah solve`, `kalah --help`.
"""


def main() -> NoReturn:
    name, *words = sys.argv[1:] or [""]
    if name in TOOLS:
        sys.argv = [f"python3 -m kalah {name}", *words]
        run(import_module(PLACES.get(name, f".tools.{name}"), __package__).main)
    if name in ("-h", "--help"):
        run(lambda: print(USAGE, end=""))
    if name == "--version":
        run(lambda: print(f"kalah {__version__} for Python"))
    print(f"python3 -m kalah: there is no tool {name!r}\n\n" * bool(name) + USAGE, end="", file=sys.stderr)
    sys.exit(NOT_DONE)


if __name__ == "__main__":
    main()
