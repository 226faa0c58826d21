"""The crates of the repository, as `crates.txt` lists them."""

from pathlib import Path

TOP = Path(__file__).resolve().parents[2]


def crates():
    """Returns the name of each crate, with those of the libraries that it depends on, lowest first."""
    rows = [line.partition(":") for line in (TOP / "crates.txt").read_text().splitlines()]
    return {head.split()[0]: below.split() for head, _, below in rows}
