"""Writes a certificate of a position: for each player a strategy that gets the margin of best play, as lines that prove it.

    python3 -m kalah certify LINE > FILE

`python3 -m kalah check FILE` checks them without `kalah`, which is asked here for the moves of the strategies alone. docs/CERTIFICATES.md
has the form of the lines, and how many there are. It needs `kalah`, as `help(kalah)` says.
"""

from __future__ import annotations

from collections.abc import Iterator
from typing import Optional

from ..answers import Over, Values
from ..check import Claim, Known, Position, holds, is_over, needs, read, said
from ..client import Client
from ..script import arguments, position


def values(client: Client[Values], position: Position) -> dict[int, int]:
    """Returns the margin that the move of each house gets. The position is asked with empty stores, as stores have at most two digits."""
    (*own, own_store), (*other, other_store), takes_empty = position
    sides = (",".join(map(str, houses)) + "/0" for houses in (own, other))
    answer = client.ask(" ".join(sides) + " e" * takes_empty)
    assert isinstance(answer, Values)
    return answer._plus(own_store - other_store).by_house


def house_of(claim: Claim, known: Known, client: Client[Values]) -> int:
    """Returns the house that a strategy moves: one after which nothing is left to prove, or else one of the greatest value."""
    found = values(client, claim[0])
    enough = [house for house, value in found.items() if value >= claim[2]]
    if not enough:
        raise ValueError(f"kalah has no move for {said(claim)}")
    done = (house for house in enough if all(holds(needed, known) for needed in needs(claim, house)))
    return next(done, 0) or max(enough, key=lambda house: (found[house], house))


def lines_of(claim: Claim, known: Known, client: Client[Values]) -> Iterator[str]:
    """Yields the lines that a claim needs and that aren't there yet, and then its own."""
    (own, other, _), is_first, margin = claim
    house = house_of(claim, known, client) if is_first and not is_over(own, other) else None
    for needed in needs(claim, house):
        if not holds(needed, known):
            yield from lines_of(needed, known, client)
    known[claim[:2]] = margin
    yield said(claim) + (f" house {house}" if house else "")


def certificate(line: str, client: Client[Values]) -> Iterator[str]:
    """Yields the lines that prove the margin of a position."""
    answer = client.ask(line)
    known: Known = {}
    claim, _ = read(f"{line} at most {answer.margin}")
    assert claim
    yield from lines_of((claim[0], False, -answer.margin), known, client)
    yield from lines_of((claim[0], True, answer.margin), known, client)


def main() -> None:
    parser = arguments(__doc__)
    parser.add_line()
    line = position(parser.parse_args().line)
    with Client(Values, timeout=None) as client:
        for text in certificate(line, client):
            print(text)
