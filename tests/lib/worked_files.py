"""Four worked files, as `batch/tests.rt` and `run/tests.rt` have them, and their answers."""

FILES = {"a.txt": "", "b.txt": "1/0 1/0\n2/0 2/0", "c.txt": "3/0 3/0\r\n\r\n01/0 1/0\r\n"}
NAMES = ["a.txt", "b.txt", "c.txt", "b.txt"]
LINES = (
    "b.txt:1 0 house 1\nb.txt:2 -2 house 1\n"
    "c.txt:1 6 house 1\nc.txt:2 fault empty\nc.txt:3 fault shape\n"
    "b.txt:1 0 house 1\nb.txt:2 -2 house 1\n"
)
VALUES = LINES.replace("0 house 1", "1:0").replace("-2 house 1", "1:-2").replace("6 house 1", "1:6")
STEPS = (
    "b.txt:1 1 0/1 0/1 over\nb.txt:2 1 0/1 0/3 over\n"
    "c.txt:1 1 0/6 0/0 over\nc.txt:2 fault empty\nc.txt:3 fault shape\n"
    "b.txt:1 1 0/1 0/1 over\nb.txt:2 1 0/1 0/3 over\n"
)
