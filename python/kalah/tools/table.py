"""Makes a table of positions: for each its margin of best play, its lowest-numbered best house, and what the move of each house is worth.

    python3 -m kalah table FILE > table.csv
    python3 -m kalah table --json FILE > table.jsonl
    python3 -m kalah table --sqlite DATABASE [--name NAME] FILE

The columns are position, seeds (in houses), margin, best (the house), and house1 to house6; where there is nothing to say, they are empty.
With --json each line of FILE gets an object in one line: position, seeds, margin, best (and house, its older name) and values, by house; or
position and fault. In the database the table NAME, or `kalah`, is made anew. With --answers ANSWERS the answers are read from there, in the
form of `kalah values`, as another engine may have printed them. A line without values, such as one with a fault, has no row; standard error
has it, and the status is 1.

It needs `kalah`, as `help(kalah)` says, except with --answers.
"""

from __future__ import annotations

import csv
import json
import re
import sqlite3
import subprocess
import sys
from collections.abc import Iterable, Iterator, Sequence
from contextlib import closing
from typing import Any, NamedTuple, Optional, Union

from .. import rules
from ..answers import Fault, Gone, Over, Values, read_fault
from ..client import find
from ..script import arguments, opened, say, whole

HOUSES = range(1, 7)
# The most bytes of a file that `kalah` reads.
MOST_BYTES = 1 << 26
COLUMNS = ["position", "seeds", "margin", "best", *(f"house{house}" for house in HOUSES)]


class Row(NamedTuple):
    """A line of the file: its number and text, and its answer, which is a text if it is none of the program's."""

    number: int
    line: str
    answer: Union[Values, Over, Fault, str]

    @property
    def seeds(self) -> int:
        return rules.seeds_in(rules.read(self.line))

    def cells(self) -> Optional[list[Any]]:
        """The cells of the table; None if the answer has no values."""
        if isinstance(self.answer, Over):
            return [self.line, self.seeds, self.answer.margin, *[None] * (1 + len(HOUSES))]
        if isinstance(self.answer, Values):
            return [self.line, self.seeds, self.answer.margin, self.answer.house, *map(self.answer.by_house.get, HOUSES)]
        return None

    def json(self) -> str:
        """The object of a line."""
        known: dict[str, Any] = {"position": self.line}
        if isinstance(self.answer, (Over, Values)):
            values = self.answer.by_house if isinstance(self.answer, Values) else {}
            house = self.answer.house if isinstance(self.answer, Values) else None
            known.update(seeds=self.seeds, margin=self.answer.margin, best=house, house=house, values=values)
        else:
            known["fault"] = self.answer.word if isinstance(self.answer, Fault) else self.answer
        return json.dumps(known)


def lines_of(data: bytes) -> list[str]:
    """The lines of a file's bytes."""
    return [line.removesuffix("\r") for line in data.decode(errors="replace").removesuffix("\n").split("\n")] if data else []


def answers_to(data: bytes, workers: int) -> list[str]:
    """What `kalah values` prints for a file of these bytes."""
    options = ["--workers", str(workers), *(["--progress"] if sys.stderr.isatty() else [])]
    done = subprocess.run([find(), "values", *options, "/dev/stdin"], input=data, stdout=subprocess.PIPE)
    if done.returncode not in (0, 1):
        # It has said why.
        raise Gone(f"kalah ends with status {done.returncode}")
    return lines_of(done.stdout)


def read(name: str, most: int) -> bytes:
    with opened(name) as file:
        data = file.buffer.read(most + 1)
    if len(data) > most:
        raise ValueError(f"{name} has more than {most} bytes")
    return data


def answer_of(line: str, text: str) -> Union[Values, Over, Fault, str]:
    values, fault = Values._read(text) if text else None, read_fault(text)
    if fault:
        fault.line = line
    return values or Over._read(text) or fault or text


def rows(file: str, lines: Sequence[str], source: str, answers: Sequence[str]) -> Iterator[Row]:
    """Yields the rows of the lines of a file, whose answers come from this source."""
    if len(answers) != len(lines):
        raise ValueError(f"{source} has {len(answers)} answers, and {file} {len(lines)} lines")
    for number, (line, answer) in enumerate(zip(lines, answers), 1):
        _, place, words = answer.partition(f":{number} ")
        if not place:
            raise ValueError(f"answer {number} of {source} is not that to {file}:{number}: {answer}")
        yield Row(number, line, answer_of(line, words))


def store(found: Iterable[list[Any]], database: str, name: str) -> None:
    table = '"' + name.replace('"', '""') + '"'
    columns = ", ".join([f"{COLUMNS[0]} TEXT", *(f"{column} INTEGER" for column in COLUMNS[1:])])
    try:
        with closing(sqlite3.connect(database)) as connection, connection:
            connection.execute(f"DROP TABLE IF EXISTS {table}")
            connection.execute(f"CREATE TABLE {table} ({columns})")
            connection.executemany(f"INSERT INTO {table} VALUES ({', '.join('?' * len(COLUMNS))})", found)
    except sqlite3.Error as why:
        raise ValueError(f"{database}: {why}") from None


def main() -> bool:
    parser = arguments(__doc__)
    form = parser.add_mutually_exclusive_group()
    form.add_argument("--json", action="store_true", help="an object a line, in place of a table")
    form.add_argument("--sqlite", metavar="DATABASE", help="a file of SQLite that gets the table, in place of standard output")
    parser.add_argument("--name", default="kalah", help="the name of the table in the database")
    parser.add_argument("--answers", metavar="ANSWERS", help="a file of answers, in place of those of kalah")
    parser.add_argument("--workers", type=whole(1, 64, "a number from 1 to 64"), default=4, metavar="N", help="workers of kalah (4)")
    parser.add_argument("file", metavar="FILE", help="has a position in each line")
    asked = parser.parse_args()
    data = read(asked.file, MOST_BYTES)
    answers = lines_of(read(asked.answers, 4 * MOST_BYTES)) if asked.answers else answers_to(data, asked.workers)
    found = [*rows(asked.file, lines_of(data), asked.answers or "kalah", answers)]
    made = [(row, row.cells()) for row in found]
    if asked.sqlite:
        store([cells for _, cells in made if cells], asked.sqlite, asked.name)
    elif asked.json:
        for row in found:
            print(row.json())
    else:
        csv.writer(sys.stdout, lineterminator="\n").writerows([COLUMNS, *(cells for _, cells in made if cells)])
    rest = [row for row, cells in made if not cells]
    for row in rest:
        say(f"{asked.file}:{row.number}: {row.answer}")
    return bool(rest)
