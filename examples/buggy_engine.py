"""A small engine, as a user might write it: the value of each move of a position, by recursion over all that can follow. It has a mistake,
which docs/COOKBOOK.md finds. It answers lines of both rules with up to 16 seeds in houses; of a larger position it says so.

    python3 examples/buggy_engine.py FILE

It needs no other program.
"""

import argparse
import signal
import sys
from functools import cache

MOST_SEEDS = 16


def read(line):
    """Returns the houses and the store of the player to move, those of the other player, and whether a last seed that is alone is
    captured also if the house across is empty."""
    words = line.split()
    own, other = (side.split("/") for side in words[:2])
    return [(tuple(int(seeds) for seeds in houses.split(",")), int(store)) for houses, store in (own, other)], words[2:] == ["e"]


def after(own, other, house, takes_alone):
    """Returns the two rows after a move, what the mover's store gains, and whether the mover has another move."""
    m = len(own)
    cells = [*own, 0, *other]
    seeds, cells[house] = cells[house], 0
    was_empty = [cell == 0 for cell in own]
    at = house
    while seeds:
        at = (at + 1) % len(cells)
        cells[at] += 1
        seeds -= 1
    across = 2 * m - at
    if at < m and was_empty[at] and (cells[across] or takes_alone):
        cells[m] += cells[at] + cells[across]
        cells[at] = cells[across] = 0
    return tuple(cells[:m]), tuple(cells[m + 1 :]), cells[m], at == m


def values(own, other, takes_alone):
    """Returns each legal house with the margin that its move gets, from empty stores on."""
    found = {}
    for house, seeds in enumerate(own):
        if seeds:
            mine, theirs, gain, again = after(own, other, house, takes_alone)
            if again or not (any(mine) and any(theirs)):
                found[house + 1] = gain + worth(mine, theirs, takes_alone)
            else:
                found[house + 1] = gain - worth(theirs, mine, takes_alone)
    return found


@cache
def worth(own, other, takes_alone):
    """Returns the margin of best play, from empty stores on."""
    if not (any(own) and any(other)):
        return sum(own) - sum(other)
    return max(values(own, other, takes_alone).values())


def answer(line):
    """Returns what `kalah values` prints of a line after its place."""
    [(own, own_store), (other, other_store)], takes_alone = read(line)
    ahead = own_store - other_store
    if not (any(own) and any(other)):
        return f"{ahead + worth(own, other, takes_alone)} over"
    if sum(own + other) > MOST_SEEDS:
        return f"too large: {sum(own + other)} seeds"
    return " ".join(f"{house}:{ahead + value}" for house, value in values(own, other, takes_alone).items())


def main():
    parser = argparse.ArgumentParser(description=__doc__, formatter_class=argparse.RawDescriptionHelpFormatter)
    parser.add_argument("file", metavar="FILE", help="a file of positions")
    name = parser.parse_args().file
    # Ctrl-C ends it, and so does a reader that has seen enough, as `head`.
    for number in (signal.SIGINT, signal.SIGPIPE):
        signal.signal(number, signal.SIG_DFL)
    try:
        with open(name) as lines:
            for number, line in enumerate(lines, 1):
                try:
                    print(f"{name}:{number} {answer(line)}")
                except (ValueError, IndexError):
                    sys.exit(f"buggy_engine.py: {name}:{number} is not a position")
    except OSError as why:
        sys.exit(f"buggy_engine.py: {why}")


main()
