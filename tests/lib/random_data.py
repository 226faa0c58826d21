"""The random data of tests/agree, all from one seed: numbers, lines, files, names, and the order of arguments.

Each list in capitals is a deck: every card of it is drawn before any is repeated.
"""

import random
from collections import Counter
from itertools import chain

from lib.reference import Position, Side, read, text

# Numbers of files; of the bytes of a file; of the lines of a batch; of workers; of entries in a table. None is any number.
FILES = range(1, 257)
BYTES = [0, 1, 2, 79, 80, 81, 82, *range(4094, 4099), *range(8190, 8195), *range(65_534, 65_539), 131_072, None]
LINES = [65_535, 65_536, 65_537, None, 1_000_000, 1_000_001]
WORKERS = range(1, 65)
TABLES = [1, 2, 3, 15, 16, 17, 255, 256, 4096, 65_535, 65_536, 65_537, 1_000_000, 1_048_575, 1_048_576, None]

# How the lines of a file end, and whether the last one has its line feed.
ENDINGS = [(ending, last) for ending in ([b"\n"], [b"\r\n"], [b"\n", b"\r\n"]) for last in (True, False)]

# What answers files, by a search or without one.
SEARCHING = ["solve", "values"]
FILE_SUBCOMMANDS = [*SEARCHING, "steps"]

# How often a name is that of the previous file, and how often that of some earlier file.
REPEATS = [(0, 0), (0.5, 0), (0, 0.5), (0.3, 0.3), (1, 0)]

NAMES = [
    *(" ", " a", "a ", "  a  ", "a b", "\ta", "a\t", "a\r", "\u00a0a", "a\u2028", "a:1", "a:1 0 house 1", "a.txt", "4", "=", "+4"),
    *("é", "日本語", "🌱", "e\u0301", "\u202ea", "\ufeffa", "%s{}", "$HOME", "*?[a]", "\\", "'\"`", "#", "~", "\x01\x1b[2J\x7f"),
    *("-", "--", "-a", "--workers", "--table=1", "--help", "-h", "--version", "-V", "-1", "moves", "solve", "values", "steps", "help"),
    *("./a", "folder/a", "./folder//a", "n" * 255, "./" * 600 + "a", "./" * 2045 + "whole", "folder/" + "../folder/" * 408 + "a"),
]

# Names that can't be opened as a file, or not be read, if there is only a file `a` and a folder `folder`.
NO_FILES = ["b", "", "a ", "A", "a/", "a/b", "folder", ".", "/", "/proc/self/mem", "no/a", "n" * 256, "n" * 5000, "./" * 2048 + "a"]
NO_FILES += ["1,1/0 1,1/0", "1/99 1/0 e", "1/0", "1/0 1,1/0", "16/0 16/0"]
# Names with spaces that are no positions.
NO_FILES += ["a b", " b", "no such file", "1/0 1/0 x", "1/0  1/0", "1 1"]

# Lines just within the limits and just past them, and lines that are almost of the form.
LINES_AT_LIMITS = [
    *(b"", b"\r", b"\r\r", b" ", b"x" * 79, b"x" * 80, b"x" * 80 + b"\r", b"x" * 80 + b"\r\r", b"x" * 81, b"x" * 5000),
    *(b"0,0,0,0,0,0/0 0,0,0,0,0,0/0", b"0,0,0,0,0,0,0/0 0,0,0,0,0,0,0/0", b"1/0 1,1/0", b"/0 /0", b"1 1", b"1/0", b"1/0 1/0 1/0"),
    *(b"31/0 0/0", b"16/0 15/0", b"16/0 16/0", b"0/0 32/0", b"99/0 99/0", b"100/0 1/0", b"1/99 1/99", b"1/100 1/0"),
    *(b"01/0 1/0", b"1/00 1/0", b"1/0  1/0", b" 1/0 1/0", b"1/0 1/0 ", b"1/0\t1/0", b"1,,1/0 1,1/0", b"-1/0 1/0", b"+1/0 1/0"),
    *(b"1/0 1/0 e", b"1/0 1/0  e", b"1/0 1/0e", b"1/0 1/0 E", b"1/0 1/0 e ", b"1/0 1/0 ee", b"1/0 1/0 x", b"1/0 1/0 e\r"),
    *(b"\xef\xbb\xbf1/0 1/0", b"1/0 1/0\0", b"\xff\xfe", "１/0 1/0".encode(), b"1/0 1/0\x0b", b"# 1/0 1/0"),
]

# Moves after which a store has up to 130 seeds.
FULL_STORES = [b"3/99 %d/0" % seeds for seeds in range(23, 29)] + [b"1/0 %d/99" % seeds for seeds in range(25, 31)]

# The faults of a line, one or two at once: a line of more than 80 bytes always has some other fault too.
FAULTS = ["shape", "houses", "seeds", "long shape", "long houses", "long seeds", "shape houses", "shape seeds", "houses seeds"]

# The lines of `moves`: these, lines with these faults, or any. No argument has a byte of 0.
LINES_OF_MOVES = [*(line for line in LINES_AT_LIMITS if b"\0" not in line), *FULL_STORES, *FAULTS, *[None] * 80]

# A game whose first moves take long, each about a second with a table of one entry.
LONG_GAME = b"3,2,1,4,4,3/0 1,0,1,3,4,5/0"

# Lines that are answered at once.
QUICK = b"1/0 1/0\n"
EASY = b"1,1/0 1,1/0\n"

# With a table of one entry the first takes about a tenth of a second, and the second more than any trial waits for.
HARD_LINE = b"2,3,2,3,2,3/0 3,2,3,2,3,3/0\n"
HARD = HARD_LINE * 1000

# The place of `--boards` among the arguments: missing, before the line or after it.
BOARDS = [None, 0, 1]

# The house that a game is asked to begin with: none, one that has seeds or any of the six, which may be empty or not there.
FIRST = [None, "a house with seeds", *range(1, 7)]

# How `--plain` stands among the words of `show`.
PLAIN = [None, 0, 1]

# Whether `show --lines` or `play --values` is asked for.
MORE = [False, True]

# How many moves are played on where ways are counted: the reference is quick up to 5.
DEPTHS = range(6)

# Stores with which values are wide.
WIDE = [(99, 0), (0, 99), (98, 0), (0, 98), (99, 1), (1, 99), (99, 99)]

# The bytes that are put into a line, in place of a byte of it or before one.
BITS = [b"", b"0", b"1", b"9", b",", b"/", b" ", b" e", b"\r", b"x", b"-", b"\t", b"\0", b"\xff"]

# The most entries of the tables of all workers together, so that they fit in memory.
MOST_ENTRIES = 1 << 24


def is_quick(position):
    """Whether a line has few seeds, or few houses, or can't be read."""
    return isinstance(position, str) or len(position.own.houses) < 3 or sum(position.own.houses + position.other.houses) < 10


class Deck:
    """Cards in random order, each once before any is repeated."""

    def __init__(self, cards):
        self.cards, self.left, self.is_through = list(cards), [], False

    def draw(self, chance):
        self.left = self.left or chance.sample(self.cards, len(self.cards))
        self.is_through = self.is_through or len(self.left) == 1
        return self.left.pop()


class Drawn:
    """All that is drawn from a seed."""

    def __init__(self, seed):
        self.chance = random.Random(seed)
        self.decks = {}
        self.pool = []

    def card(self, name, cards):
        """Returns the next card of the deck of this name, which has these cards."""
        return self.decks.setdefault(name, Deck(cards)).draw(self.chance)

    def is_through(self):
        """Whether each deck was drawn completely."""
        return bool(self.decks) and all(deck.is_through for deck in self.decks.values())

    def happens(self, often):
        return self.chance.random() < often

    def store(self):
        return self.chance.choice([0, 0, 99, self.chance.randint(0, 99)])

    def position(self, most_seeds):
        """Returns the line of a position of up to `most_seeds` seeds."""
        m = self.chance.randint(1, 6)
        heaps = self.chance.choices(range(2 * m), k=self.chance.randint(1, 2 * m))
        cells = [0] * (2 * m)
        for _ in range(self.chance.randint(0, most_seeds)):
            cells[self.chance.choice(heaps)] += 1
        own, other = Side(tuple(cells[:m]), self.store()), Side(tuple(cells[m:]), self.store())
        return text(Position(own, other, self.happens(0.5))).encode()

    def full_position(self):
        """Returns the line of a position of six houses a side and 27 to 31 seeds."""
        cells = Counter(self.chance.choices(range(12), k=self.chance.randint(27, 31)))
        houses = tuple(cells[house] for house in range(12))
        return text(Position(Side(houses[:6], 0), Side(houses[6:], 0), False)).encode()

    def with_stores(self, line):
        """Returns the line of the same houses with stores."""
        own, other, takes_empty = read(line)
        own, other = own._replace(store=self.store()), other._replace(store=self.store())
        return text(Position(own, other, takes_empty)).encode()

    def mutated(self, line, bits=BITS):
        at = self.chance.randint(0, len(line))
        return line[:at] + self.chance.choice(bits) + line[at + self.chance.randint(0, 1) :]

    def faulty(self, faults):
        """Returns a line with these faults."""
        m = self.chance.randint(1, 6)
        sizes = [m, m]
        if "houses" in faults:
            sizes = self.chance.choice([[m, m % 6 + 1], [7, 7], [7, m], [m, 9]])
        if "long" in faults:
            sizes = [m, 40]
        sides = [[self.chance.randint(0, 30 // sum(sizes)) for _ in range(size)] for size in sizes]
        if "seeds" in faults:
            self.chance.choice(sides)[0] = self.chance.randint(32, 99)
        line = text(Position(Side(sides[0], self.store()), Side(sides[1], self.store()), self.happens(0.5))).encode()
        return self.mutated(line, [b"x", b"-", b"\t", b"\xff"]) if "shape" in faults else line

    def line(self):
        """Returns a line that was drawn before, or a new one."""
        if len(self.pool) < 500 or self.happens(0.02):
            self.pool.append(self.new_line())
        return self.chance.choice(self.pool)

    def new_line(self):
        """Returns a line that the reference answers quickly."""
        if self.happens(0.6):
            return self.position(9)
        if self.happens(0.3):
            return self.faulty(self.card("faults", FAULTS))
        if self.happens(0.3):
            return self.card("lines at limits", LINES_AT_LIMITS)
        line = self.mutated(self.position(31))
        return line if is_quick(read(line)) else self.new_line()

    def line_of_moves(self, card):
        """Returns the line that is the card, a line with these faults, or any line."""
        if card is None:
            return self.chance.choice([self.position(31), self.mutated(self.position(31))]).replace(b"\0", b"")
        return self.faulty(card) if card in FAULTS else card

    def line_of_play(self, card):
        """Returns the line that is the card, a line with these faults, or a line that the reference answers quickly."""
        line = self.line() if card is None else self.line_of_moves(card)
        return self.line_of_play(card) if b"\0" in line else line

    def wide(self, line):
        """The line of the same houses with stores that make its values wide, if it is read."""
        position = read(line)
        if isinstance(position, str):
            return line
        own, other = self.card("wide", WIDE)
        sides = position.own._replace(store=own), position.other._replace(store=other)
        return text(Position(*sides, position.takes_empty)).encode()

    def first(self, line):
        """A house for a game to begin with, or None."""
        house, position = self.card("first", FIRST), read(line)
        if house != "a house with seeds":
            return house
        houses = [1] if isinstance(position, str) else [i for i, seeds in enumerate(position.own.houses, 1) if seeds] or [1]
        return self.chance.choice(houses)

    def words_of_line(self, subcommand, line, options, name="boards", places=BOARDS):
        """The words of `moves`, `play` or `show` for this line, and whether the flag of this name is set."""
        boards = self.card(name, places)
        flag = [] if boards is None else [f"--{name}"]
        dashes = ["--"] if line.startswith(b"-") or self.happens(0.2) else []
        words = [*flag, *options, *dashes, line] if dashes or not boards else [*options, line, *flag]
        return [subcommand, *words], bool(flag)

    def words_of_count(self, depth, line):
        """The words of `count`: a number may begin with zeros or a plus."""
        dashes = ["--"] if line.startswith(b"-") or self.happens(0.2) else []
        return ["count", *dashes, self.chance.choice(["", "", "0", "+", "+00"]) + str(depth), line]

    def lines(self, count):
        """Returns `count` lines; the last is not empty."""
        lines = [self.line() for _ in range(min(count, 200))]
        if count > len(lines):
            lines += self.chance.choices(lines, k=count - len(lines))
        if lines and not lines[-1].strip():
            lines[-1] = b"1/0 1/0"
        return lines

    def file(self, count):
        """Returns the bytes of a file of `count` lines."""
        endings, has_last = self.card("endings", ENDINGS)
        lines = self.lines(count)
        data = b"".join(chain(*zip(lines, self.chance.choices(endings, k=len(lines)))))
        return data if has_last else data.removesuffix(b"\n")

    def file_of_bytes(self, size):
        """Returns the bytes of a file of `size` bytes."""
        data = b""
        while len(data) < size:
            data += self.file(200) + b"\n"
        return data[: size - 1] + self.chance.choice([data[size - 1 : size], b"\n"]) if size else b""

    def names(self, count):
        """Returns the names of `count` files."""
        last_one, any_one = self.card("repeats", REPEATS)
        names = []
        for number in range(count):
            again = self.chance.random() if names else 1
            if again < last_one:
                names.append(names[-1])
            elif again < last_one + any_one:
                names.append(self.chance.choice(names))
            else:
                names.append(self.card("names", NAMES) if self.happens(0.3) else f"file {number}")
        return names

    def options(self, subcommand):
        """Options of a subcommand that answers files, each as one word or two. Only those that search have a table."""
        table = self.card("tables", TABLES) if subcommand in SEARCHING else None
        numbers = {"--table": table}
        if self.happens(0.9):
            few = MOST_ENTRIES // len(WORKERS) < (table or 0)
            numbers["--workers"] = self.chance.randint(1, 16) if few else self.card("workers", WORKERS)
        for option, number in numbers.items():
            if number is not None:
                digits = self.chance.choice(["%d", "%d", "%d", "+%d", "0%d", "000%d"]) % number
                yield [f"{option}={digits}"] if self.happens(0.5) else [option, digits]

    def words(self, subcommand, names):
        """The words of a subcommand for these files, in one of the orders that are taken."""
        flag = next((at for at, name in enumerate(names) if name.startswith("-") and name != "-"), None)
        cut = len(names) if flag is None else flag
        if flag is not None or self.happens(0.3):
            cut = self.chance.randint(0, cut)
        pieces = [[name] for name in names[:cut]]
        for option in self.options(subcommand):
            pieces.insert(self.chance.randint(0, len(pieces)), option)
        return [subcommand, *chain(*pieces), *(["--"] if cut < len(names) else []), *names[cut:]]
