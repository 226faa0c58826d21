"""Reviews games that were played: the value of each move, what it loses, and the best move.

    python3 -m kalah review [--html] [LINE] MOVE ..
    python3 -m kalah review [--html] --games FILE

LINE is the position at the start, in which South moves; without it that is the usual board, of six houses with 4 seeds in each. A MOVE is
one or more houses, as they are written down: `C` or `3` for South, `c` or `3` for North; `CF ba` and `3-6 2-1` for turns of two moves;
`C4`, where house C has 4 seeds. An `e` right after LINE names the rule, so a first move there is `E` or 5. Commas and the numbers of moves,
`1.` or before letters also `1`, are passed over; `1...` says that North moves. The address of the page of `web` is a game, too.

FILE has a game in each line, in the same form; or above each game tags, as `[South "Ada"]` or `Date: 2026-11-28`, of which Position has
LINE. With --html the games are a page to print. It marks the worst move of each player, and a curve shows the value through the game. There
may be any number of seeds, up to 99 in a house. Above 31 in houses a move has no value, and the review says so. If a move is illegal, or is
another player's, or a line has a fault, the review ends there, standard error has the reason, and the status is 1. It needs `kalah`, as
`help(kalah)` says.
"""

from __future__ import annotations

import html
import os
import re
import sys
from collections.abc import Iterator

from .. import rules
from ..client import find
from ..drawing import signed
from ..game import PLAYERS, Game, Record, records, split, written
from ..script import arguments, lines_of, name
from ..solver import Solver
from .page import page, steps
from .played import UNPROVED, Played, caption, played_in, result, unvalued

# The curve: how wide a move is and how high the whole, and the room around it.
WIDE, HIGH, LEFT, EDGE = 24, 160, 44, 24
CURVE = "The curve shows South's margin in best play; a red point is a position whose move loses something."


class Review:
    """A game that was played, reviewed as far as its moves are legal. `flaw` is why it goes no further, if it doesn't."""

    def __init__(self, record: Record, solver: Solver):
        self.tags, self.flaw = record.tags, ""
        self.line, moves = split(record.text)
        self.game, self.played = None, list[Played]()
        try:
            self.game = Game(rules.start_line(self.line))
            for move in written(moves):
                self.game._push_written(move)
        except ValueError as why:
            self.flaw = str(why)
        if self.game:
            self.played = played_in(self.game, solver)

    def captions(self) -> list[str]:
        return [caption(number, played) for number, played in enumerate(self.played, 1)]

    def head(self) -> str:
        """Who has played, and what else is said of the game."""
        names = {player: self.tags[player] for player in PLAYERS if player in self.tags}
        rest = [f"{tag}: {value}" for tag, value in self.tags.items() if tag not in names]
        return ", ".join([" and ".join(f"{value} ({player})" for player, value in names.items())] * bool(names) + rest)

    def end(self) -> str:
        """What is said of the position after the last move."""
        if self.flaw or not self.game:
            return self.flaw
        return result(self.game) if self.game.is_over else f"The game isn't over; {self.game.mover} is to move."

    def of(self, player: int) -> list[Played]:
        return [played for played in self.played if played.player == player]

    def totals(self) -> Iterator[str]:
        """What is said of each player, once there is a move."""
        for player, name in enumerate(PLAYERS if self.played else []):
            moves, lost = self.of(player), [played.lost for played in self.of(player) if played.lost]
            valued = sum(played.values is not None for played in moves)
            yield f"{name}: moves {len(moves)}{f', with values {valued}' * (valued < len(moves))}, mistakes {len(lost)}, lost {sum(lost)}."

    def course(self) -> Iterator[tuple[int, int, int]]:
        """Yields South's margin of best play before each move that has values, and at the end of a game that is over, each with the number
        of moves before it and what the next one loses."""
        for number, played in enumerate(self.played):
            if played.values:
                value = max(played.values.values())
                yield number, -value if played.player else value, played.lost
        if self.game and self.game.margin is not None:
            yield len(self.played), self.game.margin, 0

    def text(self) -> str:
        moves = [re.sub("<[^>]*>", "", line) for line in self.captions()]
        return "\n".join([*filter(None, [unvalued(self.played)]), *moves, *([] if self.flaw else [self.end()]), *self.totals()])

    def html(self) -> str:
        worst = [max(self.of(player), key=lambda played: played.lost) for player in range(len(PLAYERS)) if self.of(player)]
        intro = ["South sits below and moves first.", *[CURVE] * bool(self.played)]
        if left := unvalued(self.played):
            intro += [left, UNPROVED]
        said = f"<p>{html.escape(' '.join([*intro, *self.totals()]))}</p>\n"
        if not self.game or (self.flaw and not self.played):
            return f"{said}<p><b>{html.escape(self.flaw)}</b></p>"
        drawn = curve([*self.course()], len(self.played)) if self.played else ""
        return drawn + said + steps(self.game, self.played, self.end(), [played for played in worst if played.lost])


def curve(course: list[tuple[int, int, int]], moves: int) -> str:
    """The value through a game, in SVG: above the line in the middle South wins. A red point is a position whose move loses something."""
    most = max([1, *(abs(value) for _, value, _ in course)])
    width, middle, unit = LEFT + WIDE * moves + EDGE, EDGE + HIGH / 2, HIGH / 2 / most
    placed = [(LEFT + WIDE * number, middle - unit * value, number, value, lost) for number, value, lost in course]
    parts = [
        f'<svg class="curve" xmlns="http://www.w3.org/2000/svg" viewBox="0 0 {width} {HIGH + 2 * EDGE}" width="{width}" role="img">',
        "<title>South's margin in best play, before each move and at the end</title>",
        f'<path d="M{LEFT} {middle}H{width - EDGE}" stroke="#999"/>',
        *(label(LEFT - 8, middle - unit * value, signed(value), "end") for value in (most, 0, -most)),
        *(label(LEFT + WIDE * number, HIGH + 2 * EDGE - 6, number, "middle") for number in range(0, moves + 1, 5)),
        f'<polyline points="{" ".join(f"{x:g},{y:g}" for x, y, *_ in placed)}" fill="none" stroke="#7a5230" stroke-width="2"/>',
    ]
    for x, y, number, value, lost in placed:
        said = f"after {number} move{'s' * (number != 1)} {signed(value)}" + f"; the next one loses {lost}" * (lost > 0)
        color = "#b00020" if lost else "#7a5230"
        parts.append(f'<circle cx="{x:g}" cy="{y:g}" r="{5 if lost else 3}" fill="{color}"><title>{said}</title></circle>')
    return "\n".join([*parts, "</svg>\n"])


def label(x: float, y: float, text: object, anchor: str) -> str:
    font = f'font-family="sans-serif" font-size="12" text-anchor="{anchor}" dominant-baseline="central"'
    return f'<text x="{x:g}" y="{y:g}" {font}>{text}</text>'


def body(reviews: list[Review]) -> str:
    """What stands in the page of these games."""
    parts = []
    for one in reviews:
        parts += [f"<h2>{html.escape(one.line)}</h2>"] * (len(reviews) > 1)
        parts += [f"<p>{html.escape(one.head())}.</p>"] * bool(one.tags) + [one.html()]
    return "\n".join(parts)


def main() -> bool:
    parser = arguments(__doc__)
    parser.add_argument("--html", action="store_true", help="makes a page")
    parser.add_argument("--games", metavar="FILE", help="has games")
    parser.add_argument("words", nargs="*", metavar="LINE MOVE", help="a position, and the houses that were moved")
    asked = parser.parse_args()
    if bool(asked.games) == bool(asked.words):
        parser.error("either a game or a file of games is needed")
    if len(asked.words) == 1 and os.path.exists(asked.words[0]):
        parser.error(f"{asked.words[0]} is a file: --games {asked.words[0]}")
    games = [*records(lines_of(asked.games))] if asked.games else [Record(1, {}, " ".join(asked.words))]
    if not games:
        raise ValueError(f"{asked.games} has no game")
    reviews = []
    find()
    with Solver() as solver:
        for record in games:
            review = Review(record, solver)
            reviews.append(review)
            place = f"{asked.games}:{record.line}" if asked.games else ""
            if not asked.html:
                texts = filter(None, [place and f"{place} {review.line}", review.head(), review.text()])
                print("".join(f"{text}\n" for text in texts), end="", flush=True)
            if review.flaw:
                print(name(), *filter(None, [place]), review.flaw, sep=": ", file=sys.stderr)
    if asked.html:
        title = f"Kalah: {reviews[0].line}" if len(reviews) == 1 else f"Kalah: {len(reviews)} games"
        print(page(title, f"<h1>{html.escape(title)}</h1>\n{body(reviews)}"))
    return any(review.flaw for review in reviews)
