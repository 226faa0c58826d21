"""Pages to print, that a phone shows, too: the moves of games with a drawn board for each position."""

from __future__ import annotations

import html
from typing import Optional

from .. import drawing
from ..board import Board
from ..game import Game
from .played import Played, caption

PAGE = """<!DOCTYPE html>
<html lang="en">
<head>
<meta charset="utf-8">
<meta name="viewport" content="width=device-width, initial-scale=1">
<title>{title}</title>
<style>
body {{ font-family: sans-serif; margin: 1em auto; max-width: 46em; padding: 0 min(1em, 2vw); overflow-wrap: break-word; }}
svg {{ max-width: 100%; height: auto; }}
{style}
</style>
</head>
<body>
{body}
</body>
</html>"""
# A frame lies within its move, so that no edge of the paper cuts it.
STYLE = """ol.moves { list-style: none; padding: 0; margin-top: 1.5em; display: flex; flex-wrap: wrap; gap: 1em; }
ol.moves li { break-inside: avoid; box-sizing: border-box; width: 20.5em; max-width: 100%; padding: 6px; border: 3px solid transparent; }
p { margin: 0.4em 0 0; }
.loss { color: #b00020; }
ol.moves li.worst { border-color: #b00020; border-radius: 6px; }
.curve { overflow: visible; }
@media print { body { margin: 0; padding: 0; } }"""


def page(title: str, body: str, style: str = STYLE) -> str:
    """Returns a page with this title, which is text, and this body."""
    return PAGE.format(title=html.escape(title), body=body, style=style)


def drawn(board: Board, player: int, marked: Optional[int] = None) -> str:
    """The board of a position, with South below, and a house of the player to move marked."""
    sides, rows = board._position[:2], ["below", "above"]
    return drawing.svg(*(sides[::-1] if player else sides), marked=marked and (rows[player], marked) or None, title=str(board))


def step(picture: str, said: str, name: str = "") -> str:
    """A board with what is said below it."""
    return f"<li{name and f' class={name}'}>{picture}\n<p>{said}</p></li>"


def steps(game: Game, moves: list[Played], end: str, worst: list[Played]) -> str:
    """A board for each move of a game, of which some are the worst, and one for its end."""
    found = []
    for number, played in enumerate(moves, 1):
        is_worst, said = any(played is one for one in worst), caption(number, played)
        said += f" <b>{['South', 'North'][played.player]}'s worst move.</b>" * is_worst
        found.append(step(drawn(played.board, played.player, played.house), said, "worst" * is_worst))
    found.append(step(drawn(game.board, game.player), f"<b>{html.escape(end)}</b>"))
    return '<ol class="moves">\n' + "\n".join(found) + "\n</ol>"
