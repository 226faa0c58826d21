"""What the program must answer, by docs/RULES.md and docs/FORMAT.md and nothing else.

Best play is a plain memoized recursion, quick for few seeds. Each subcommand is a function of what its arguments ask for.
"""

import re
import sys
from collections import namedtuple
from functools import lru_cache

# The recursion of best play is as deep as a game has moves.
sys.setrecursionlimit(100_000)

MOST_HOUSES = 6
MOST_SEEDS = 31
MOST_BYTES_OF_A_LINE = 80
MOST_BYTES_OF_A_FILE = 67_108_864
MOST_FILES = 256
MOST_LINES = 1_000_000

NUMBER = b"(?:0|[1-9][0-9]?)"
SIDE = b"(%b(?:,%b)*)/(%b)" % (NUMBER, NUMBER, NUMBER)
FORM = re.compile(b"%b %b( e)?" % (SIDE, SIDE))

# A position is seen by the player to move, and played by the empty-capture rule if `takes_empty`.
Side = namedtuple("Side", "houses store")
Position = namedtuple("Position", "own other takes_empty")

# The result of a run of the program: the bytes of its two outputs, and its status.
Run = namedtuple("Run", "out err status")

# The margin of best play and the best house of positions with empty stores.
known = {}


def read(line):
    """Returns the position that a line writes, or the word for its fault."""
    line = line.removesuffix(b"\r")
    if len(line) > MOST_BYTES_OF_A_LINE:
        return "long"
    if not line:
        return "empty"
    form = FORM.fullmatch(line)
    if not form:
        return "shape"
    own, other = (Side(tuple(map(int, form[houses].split(b","))), int(form[houses + 1])) for houses in (1, 3))
    if len(own.houses) != len(other.houses) or len(own.houses) > MOST_HOUSES:
        return "houses"
    if sum(own.houses + other.houses) > MOST_SEEDS:
        return "seeds"
    return Position(own, other, form[5] is not None)


def text(position):
    """Returns the line that writes a position."""
    own, other = (",".join(map(str, side.houses)) + f"/{side.store}" for side in position[:2])
    return f"{own} {other}" + " e" * position.takes_empty


def is_over(position):
    return not any(position.own.houses) or not any(position.other.houses)


def legal(position):
    """Returns the houses that may be moved, in ascending order."""
    return [] if is_over(position) else [house for house, seeds in enumerate(position.own.houses, 1) if seeds]


def after(position, house):
    """Returns the position that a move leads to, and the word for what comes then."""
    own, other, takes_empty = position
    m, lap = len(own.houses), 2 * len(own.houses) + 1
    # The cells of a lap, counted from 0: the own houses, the own store (cell m), the other player's houses.
    cells = [*own.houses, own.store, *other.houses]
    seeds, cells[house - 1] = cells[house - 1], 0
    for cell in range(lap):
        distance = (cell - house) % lap + 1
        cells[cell] += seeds // lap + (distance <= seeds % lap)
    last = (house - 1 + seeds) % lap
    across = 2 * m - last
    if last < m and cells[last] == 1 and (cells[across] or takes_empty):
        cells[m] += 1 + cells[across]
        cells[last] = cells[across] = 0
    own, other = Side(tuple(cells[:m]), cells[m]), Side(tuple(cells[m + 1 :]), other.store)
    if is_over(Position(own, other, takes_empty)):
        own, other = (Side((0,) * m, sum(side.houses) + side.store) for side in (own, other))
        return Position(own, other, takes_empty), "over"
    return (Position(own, other, takes_empty), "again") if last == m else (Position(other, own, takes_empty), "turn")


def value(position, house):
    """Returns the margin that a move leads to, for the player who makes it."""
    reached, word = after(position, house)
    margin, _ = best_play(reached)
    return -margin if word == "turn" else margin


def best_play(position):
    """Returns the margin of best play and the lowest-numbered best house; the final margin and None if the game is over."""
    own, other, takes_empty = position
    if is_over(position):
        return sum(own.houses) + own.store - sum(other.houses) - other.store, None
    bare = Position(Side(own.houses, 0), Side(other.houses, 0), takes_empty)
    if bare not in known:
        values = {house: value(bare, house) for house in legal(bare)}
        best = max(values, key=values.get)
        known[bare] = values[best], best
    margin, house = known[bare]
    return own.store - other.store + margin, house


@lru_cache(1 << 17)
def answer(subcommand, line):
    """Returns the answer of `solve` or `values` to a line of a file, after the file's name and the line's number."""
    position = read(line)
    if isinstance(position, str):
        return b"fault %b" % position.encode()
    if subcommand == "values" and not is_over(position):
        return b" ".join(b"%d:%d" % (house, value(position, house)) for house in legal(position))
    margin, house = best_play(position)
    return b"%d over" % margin if house is None else b"%d house %d" % (margin, house)


@lru_cache(1 << 17)
def texts(subcommand, line):
    """What stands after the file's name and the line's number in each of the lines that answer a line of a file."""
    position = read(line)
    if subcommand != "steps" or isinstance(position, str) or is_over(position):
        return [answer(subcommand, line)]
    return [move_text(house, *after(position, house), False).encode().removesuffix(b"\n") for house in legal(position)]


def lines_of(data):
    return data.removesuffix(b"\n").split(b"\n") if data else []


def failed(why):
    return Run(b"", b"kalah: %b\n" % why, 2)


def picture(position):
    """Returns the position as a board, with the player to move below: each number at the right of a column of four."""
    own, other, _ = position
    above, below = ("".join(f"{seeds:4}" for seeds in houses) for houses in (other.houses[::-1], own.houses))
    return f"    {above}\n{other.store:4}{' ' * len(below)}{own.store:4}\n    {below}\n"


def move_text(house, reached, word, boards, worth=None):
    """Returns what `moves` and `play` print of a move, with this value if there is one, and the board below it if boards are drawn."""
    return f"{house} {text(reached)} {word}" + ("" if worth is None else f" {worth}") + "\n" + picture(reached) * boards


def moves(line, boards=False):
    """`kalah moves LINE`."""
    position = read(line)
    if isinstance(position, str):
        return Run(b"", f"fault {position}\n".encode(), 1)
    return Run("".join(move_text(house, *after(position, house), boards) for house in legal(position)).encode(), b"", 0)


def line_below(position):
    """What stands below the picture of a position: the margin of a game that is over, or the value of each move below its house, and
    nothing after the last one."""
    if is_over(position):
        return f"over, margin {best_play(position)[0]}\n"
    row = ["    "] * (1 + len(position.own.houses))
    for house in legal(position):
        row[house] = f"{value(position, house):4}"
    return "".join(row).rstrip() + "\n"


def played(position):
    """Yields the house of each move of best play from a position on, with the margin of best play before it, and what it leads to."""
    word = ""
    while word != "over" and not is_over(position):
        margin, house = best_play(position)
        position, word = after(position, house)
        yield house, margin, position, word


def variation(position, house):
    """The line of `show --lines` for a move."""
    reached, word = after(position, house)
    houses = [house, *(move[0] for move in (played(reached) if word != "over" else []))]
    return f"{house}  {value(position, house)}  {' '.join(map(str, houses))}\n"


def show(line, plain=False, lines=False):
    """`kalah show LINE`."""
    position = read(line)
    if isinstance(position, str):
        return Run(b"", f"fault {position}\n".encode(), 1)
    said = picture(position)
    if not plain:
        said += line_below(position)
        if lines:
            said += "".join(variation(position, house) for house in sorted(legal(position), key=lambda house: -value(position, house)))
    return Run(said.encode(), b"", 0)


@lru_cache(maxsize=1 << 16)
def ways(depth, position):
    """Returns how many sequences of exactly `depth` moves the rules allow from the position on."""
    return sum(ways_by(depth, position).values()) if depth else 1


def ways_by(depth, position):
    """Returns for each legal house how many of these sequences begin with its move."""
    return {house: ways(depth - 1, after(position, house)[0]) for house in legal(position)}


def count(line, depth):
    """`kalah count DEPTH LINE`."""
    position = read(line)
    if isinstance(position, str):
        return Run(b"", f"fault {position}\n".encode(), 1)
    lines = [f"{house} {number}\n" for house, number in ways_by(depth, position).items()] if depth else []
    return Run(("".join(lines) + f"total {ways(depth, position)}\n").encode(), b"", 0)


def play(line, boards=False, first=None, values=False):
    """`kalah play LINE`, which begins with house `first` if there is one."""
    position = read(line)
    if isinstance(position, str):
        return Run(b"", f"fault {position}\n".encode(), 1)
    if first is not None and first not in legal(position):
        return failed(b"house %d can't be moved" % first)
    said, word = picture(position) * boards, ""
    if first is not None:
        margin, (position, word) = best_play(position)[0], after(position, first)
        said += move_text(first, position, word, boards, margin if values else None)
    for house, margin, reached, end in played(position) if word != "over" else []:
        said += move_text(house, reached, end, boards, margin if values else None)
    return Run(said.encode(), b"", 0)


def in_one_line(subcommand, line):
    """Returns what `kalah ask` answers to a line, if it answers as `solve`, `values` or `steps`."""
    return b"; ".join(texts(subcommand, line))


def asked(subcommand, data):
    """`kalah ask`, with the answers of `solve`, `values` or `steps` to the lines of these bytes."""
    said = [in_one_line(subcommand, line) for line in lines_of(data)]
    return Run(b"".join(words + b"\n" for words in said), b"", int(any(words.startswith(b"fault") for words in said)))


def answers(subcommand, files):
    """`kalah solve FILE..`, `kalah values FILE..` or `kalah steps FILE..`, of pairs of a name and the bytes there, which are None
    where they can't be read."""
    if any(b"\n" in name for name, _ in files):
        return failed(b"line feed in a file name")
    for name, data in files:
        if data is None or len(data) > MOST_BYTES_OF_A_FILE:
            return failed(b"cannot read " + name)
    if len(files) > MOST_FILES:
        return failed(b"too many files")
    batch = [(name, lines_of(data)) for name, data in files]
    if sum(len(lines) for _, lines in batch) > MOST_LINES:
        return failed(b"too many lines")
    said = [(name, number, words) for name, lines in batch for number, line in enumerate(lines, 1) for words in texts(subcommand, line)]
    has_fault = any(words.startswith(b"fault") for _, _, words in said)
    return Run(b"".join([b"%b:%d %b\n" % line for line in said]), b"", int(has_fault))
