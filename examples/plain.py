"""An engine, as `grade` and `match` start one: it names the house that seems best to a plain search.

    python3 examples/plain.py N [FILE]

It reads FILE or standard input, and answers each position there with a line. The search looks N moves ahead, and takes the stores for the
margin where it stops. It needs no `kalah`.
"""

import sys
from contextlib import nullcontext

from kalah.rules import read, seen_of_moves
from kalah.script import arguments, run, whole


def main():
    parser = arguments(__doc__)
    parser.add_argument("depth", type=whole(1, 20, "a number from 1 to 20"), metavar="N", help="1 to 20 moves")
    parser.add_argument("file", nargs="?", metavar="FILE", help="a file of positions")
    asked = parser.parse_args()
    with open(asked.file) if asked.file else nullcontext(sys.stdin) as lines:
        for line in lines:
            found = seen_of_moves(read(line.rstrip("\n")), asked.depth)
            print(max(found, key=found.get) if found else "none", flush=True)


if __name__ == "__main__":
    run(main)
