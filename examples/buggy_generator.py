"""A move generator, as somebody might write it, that prints what each move leads to in the form of `kalah steps`. It has a mistake, which
docs/COOKBOOK.md finds. It takes lines of both rules.

    python3 examples/buggy_generator.py FILE

It needs no other program.
"""

import argparse
import signal
import sys


def read(line):
    """The houses and the store of the player to move, those of the other player, and whether a last seed that is alone is captured
    also where the house across is empty."""
    words = line.split()
    sides = (side.split("/") for side in words[:2])
    return *((list(map(int, houses.split(","))), int(store)) for houses, store in sides), words[2:] == ["e"]


def side(houses, store):
    return f"{','.join(map(str, houses))}/{store}"


def after(own, other, house, takes_alone):
    """Both sides after a move, the side to move next first, and the word for what comes then."""
    (mine, store), (theirs, their_store) = own, other
    m = len(mine)
    cells = [*mine, store, *theirs]
    seeds, cells[house] = cells[house], 0
    at = house
    while seeds:
        at = (at + 1) % len(cells)
        if at != house:
            cells[at] += 1
            seeds -= 1
    across = 2 * m - at
    if at < m and cells[at] == 1 and (cells[across] or takes_alone):
        cells[m] += cells[at] + cells[across]
        cells[at] = cells[across] = 0
    mine, store, theirs = cells[:m], cells[m], cells[m + 1 :]
    if not (any(mine) and any(theirs)):
        empty = [0] * m
        return (empty, store + sum(mine)), (empty, their_store + sum(theirs)), "over"
    if at == m:
        return (mine, store), (theirs, their_store), "again"
    return (theirs, their_store), (mine, store), "turn"


def steps(line):
    """Yields what stands after the place in each line that answers this one."""
    own, other, takes_alone = read(line)
    if not (any(own[0]) and any(other[0])):
        yield f"{sum(own[0]) + own[1] - sum(other[0]) - other[1]} over"
        return
    for house, seeds in enumerate(own[0]):
        if seeds:
            mine, theirs, word = after(own, other, house, takes_alone)
            yield f"{house + 1} {side(*mine)} {side(*theirs)}{' e' * takes_alone} {word}"


def main():
    parser = argparse.ArgumentParser(description=__doc__, formatter_class=argparse.RawDescriptionHelpFormatter)
    parser.add_argument("file", metavar="FILE", help="a file of positions")
    name = parser.parse_args().file
    # Ctrl-C ends it, and so does a reader that has seen enough, as `head`.
    for number in (signal.SIGINT, signal.SIGPIPE):
        signal.signal(number, signal.SIG_DFL)
    try:
        with open(name) as lines:
            for number, line in enumerate(lines, 1):
                try:
                    for words in steps(line):
                        print(f"{name}:{number} {words}")
                except (ValueError, IndexError):
                    sys.exit(f"buggy_generator.py: {name}:{number} is not a position")
    except OSError as why:
        sys.exit(f"buggy_generator.py: {why}")


main()
