"""Edits of the code that must be refused, as `crates/*/mistakes` and `tests/data/slips.edits` have them.

A file `NAME.edits` has edits with an empty line between any two. An edit begins with a line `# NAME`. Lines `# refused: WORD..` state what
refuses it. Below them stands `file: PATH`, followed by pairs of `old: TEXT` and `new: TEXT`, each TEXT one line; another `file: PATH` may
follow.
"""

from dataclasses import dataclass, field


@dataclass
class Edit:
    """The name of an edit, the words of each line that states what refuses it, and its changes: a path, the old text, and the new one."""

    name: str
    refused: list = field(default_factory=list)
    changes: list = field(default_factory=list)


def edit_of(lines):
    """Returns the edit that these lines have."""
    edit, path, old = Edit(lines[0].removeprefix("# ")), None, None
    for line in lines[1:]:
        word, _, text = line.partition(" ")
        if line.startswith("# refused: "):
            edit.refused.append(tuple(line.split()[2:]))
        elif word == "file:":
            path = text
        elif word == "old:":
            old = text
        elif word == "new:":
            edit.changes.append((path, old, text))
    return edit


def edits_in(file):
    """Returns the edits of a file."""
    return [edit_of(block.split("\n")) for block in file.read_text().rstrip("\n").split("\n\n")]
