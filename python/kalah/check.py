"""Checks a certificate: lines that prove the margin of best play of a position, each by lines above it.

    python3 check.py FILE [LINE MARGIN]

It needs no other program or file. It prints what the lines prove of the last one's position; or, with status 1, which line doesn't follow,
and why. With LINE and MARGIN it fails unless they prove that this position has this margin. So it refuses a certificate that lacks a needed
line, or another position's. docs/RULES.md has the rules, docs/CERTIFICATES.md the form of a line.
"""

from __future__ import annotations

import argparse
import re
import signal
import sys
from collections.abc import Iterable, Iterator
from typing import Optional, TextIO

SEEDS, MARGIN = "(?:0|[1-9][0-9]?)", "(?:0|-?[1-9][0-9]{0,2})"
SIDE = f"({SEEDS}(?:,{SEEDS}){{0,5}}/(?:0|[1-9][0-9]{{0,2}}))"
LINE = re.compile(f"{SIDE} {SIDE}( e)? at (least|most) ({MARGIN})(?: house ([1-6]))?\n?")
# No line is longer. What is said of a line that is, or has no form of a line.
LONGEST, OTHER_FORM = 200, "is neither `POSITION at least MARGIN house H` nor `POSITION at most MARGIN`"

# A player's houses and then the store. A position has the cells of the player to move, those of the other player, and whether the
# empty-capture rule holds. A claim has a position, whether its first player has a strategy, or else the other one, and the margin that this
# player gets by it. What is known are the greatest margins of claims that are proved.
Cells = tuple[int, ...]
Position = tuple[Cells, Cells, bool]
Claim = tuple[Position, bool, int]
Known = dict[tuple[Position, bool], int]


# The rules.
def is_over(own: Cells, other: Cells) -> bool:
    return not any(own[:-1]) or not any(other[:-1])


def after(own: Cells, other: Cells, takes_empty: bool, house: int) -> tuple[Position, bool]:
    """Returns the position after a move, and whether the mover comes first in it, who moves again if the game isn't over."""
    m = len(own) - 1
    cells, at = [*own, *other[:m]], house - 1
    seeds, cells[at] = cells[at], 0
    for _ in range(seeds):
        at = (at + 1) % (2 * m + 1)
        cells[at] += 1
    across = 2 * m - at
    if at < m and cells[at] == 1 and (cells[across] or takes_empty):
        cells[m] += cells[at] + cells[across]
        cells[at] = cells[across] = 0
    own, other = tuple(cells[: m + 1]), (*cells[m + 1 :], other[m])
    return ((own, other, takes_empty), True) if at == m else ((other, own, takes_empty), False)


# The claims.
def holds(claim: Claim, known: Known) -> bool:
    (own, other, _), is_first, margin = claim
    mine, theirs = (own, other) if is_first else (other, own)
    # At the worst, all that is left goes to the other player.
    surely = sum(mine) - sum(theirs) if is_over(own, other) else 2 * mine[-1] - sum(own + other)
    return margin <= max(surely, known.get(claim[:2], surely))


def needs(claim: Claim, house: Optional[int]) -> list[Claim]:
    """Returns the claims that prove one: of the position after the strategy's move, or after each move of the other player."""
    (own, other, takes_empty), is_first, margin = claim
    if is_over(own, other):
        return [claim]
    houses = [number for number, seeds in enumerate(own[:-1], 1) if seeds and (not is_first or number == house)]
    moves = (after(own, other, takes_empty, number) for number in houses)
    return [(reached, is_first == is_same, margin) for reached, is_same in moves]


def read(line: str) -> tuple[Optional[Claim], Optional[int]]:
    """Returns the claim of a line and its house; no claim if the line has another form."""
    form = LINE.fullmatch(line)
    if not form or form[1].count(",") != form[2].count(","):
        return None, None
    own, other = (tuple(map(int, re.split("[,/]", side))) for side in form.group(1, 2))
    is_first, margin = form[4] == "least", int(form[5])
    return ((own, other, bool(form[3])), is_first, margin if is_first else -margin), int(form[6]) if form[6] else None


def said(claim: Claim) -> str:
    (*sides, takes_empty), is_first, margin = claim
    own, other = (",".join(map(str, cells[:-1])) + f"/{cells[-1]}" for cells in sides)
    return f"{own} {other}{' e' * takes_empty} at {'least' if is_first else 'most'} {margin if is_first else -margin}"


def follow(lines: Iterable[str]) -> tuple[Known, Claim, int]:
    """Returns all that the lines prove, the last one's claim, and how many there are. Fails with the first line that doesn't follow."""
    known: Known = {}
    claim: Optional[Claim] = None
    number, numbered = 0, enumerate(lines, 1)
    for number, line in numbered:
        found, house = read(line)
        needed = needs(found, house) if found else []
        if not found or not needed:
            raise ValueError(f"line {number} {'names no house that can be moved' if found else OTHER_FORM}")
        for lacking in needed:
            if not holds(lacking, known):
                claims = ((below, read(line)[0]) for below, line in numbered)
                below = next((below for below, one in claims if one and holds(lacking, {one[:2]: one[2]})), None)
                where = f"only line {below} proves, below it: they could go round in a circle" if below else "no line proves"
                raise ValueError(f"line {number} doesn't follow: it needs {said(lacking)}, which {where}")
        claim = found
        known[claim[:2]] = max(claim[2], known.get(claim[:2], claim[2]))
    if not claim:
        raise ValueError("there is no line")
    return known, claim, number


def bounds(position: str, margin: str) -> list[Claim]:
    """Returns the two claims that a position has this margin, if they have the form of claims."""
    claims = [read(f"{position} at {bound} {margin}")[0] for bound in ("most", "least")]
    return [claim for claim in claims if claim and re.fullmatch(MARGIN, margin)]


def check(lines: Iterable[str], position: Optional[str] = None, margin: str = "") -> str:
    """Returns what the lines prove of the last one's position. Fails with the first line that doesn't follow; and if a position is named,
    unless they prove that it has this margin."""
    known, claim, number = follow(lines)
    is_whole = known.get((claim[0], not claim[1])) == -claim[2]
    proved = re.sub("at (least|most)", "has the margin", said(claim)) if is_whole else said(claim)
    if position is not None:
        claims = bounds(position, margin)
        if not claims:
            raise ValueError("LINE is a position, in quotes, and MARGIN a whole number")
        if lacking := [one for one in claims if known.get(one[:2], one[2] - 1) < one[2]]:
            raise ValueError(f"no line proves {said(lacking[0])}; the last one's position: {proved}")
        proved = f"{position} has the margin {margin}"
    return f"{proved}: all {number} lines follow"


def lines_in(file: TextIO) -> Iterator[str]:
    """Yields the lines of a file, of which none is longer than a line may be: a longer one comes in parts, which have another form."""
    return iter(lambda: file.readline(LONGEST), "")


def main() -> None:
    parser = argparse.ArgumentParser(
        usage="%(prog)s [-h] FILE [LINE MARGIN]", description=__doc__, formatter_class=argparse.RawDescriptionHelpFormatter
    )
    parser.add_argument("file", metavar="FILE", help="a certificate")
    parser.add_argument("line", nargs="?", metavar="LINE", help="the position that it must be of")
    parser.add_argument("margin", nargs="?", metavar="MARGIN", help="the margin that it must prove")
    asked = parser.parse_args()
    if asked.line is not None and asked.margin is None:
        parser.error("LINE and MARGIN stand together: the position, in quotes, and its margin")
    if asked.line is not None and not bounds(asked.line, asked.margin):
        parser.error("LINE is a position, in quotes, and MARGIN a whole number")
    signal.signal(signal.SIGINT, signal.SIG_DFL)
    try:
        with open(asked.file, errors="replace") as file:
            print(check(lines_in(file), asked.line, asked.margin or ""), flush=True)
    except OSError as why:
        parser.exit(2, f"check: cannot read {asked.file}: {why.strerror}\n")
    except ValueError as why:
        sys.exit(f"check: {why}")


if __name__ == "__main__":
    main()
