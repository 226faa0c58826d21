"""The steps by which threads of kalah_run wait for others, read from its functions. Each must have its form of tests/data/wakes.forms."""

import re
import sys
from collections import namedtuple
from itertools import pairwise

from lib.crates import TOP

SOURCES, FORMS = "crates/kalah_run/src", "tests/data/wakes.forms"
WHAT_TO_DO = f"""If it takes the same steps as before, write its new body into {FORMS}.
If it takes others, make sure that no thread can sleep beside what it waits for. Then mark the steps there, have tests/lib/wake_orders.py
take them, and add mistakes in them to tests/wakes (CHANGES, NEVER_ENDS)."""
NUMBER, COMPARED = r"(\d+)", r"(==|!=|<=|>=|<|>) (\d+)"
# How the code writes each step. Its groups are the operands.
STEPS = {
    "try": r"self\.try_(?:put|get)\(pass(?:, &?outcome)?\)",
    "start": r"Waiting::new\(&self\.(getters|putters)\)",
    "drop": r"drop\(waiting\)",
    "owe": r"WakeUp::owed_to\(&self\.(getters|putters)\)",
    "send": r"wake_up\.send\(\)",
    "wake_next": r"WakeUp::owed_to\((waiters)\)\.send\(\)",
    "pause": r"waiting\.pause\(rt\)",
    "load": rf"waiters\.announced\.load\(SeqCst\) {COMPARED}",
    "swap": rf"waiters\.announced\.swap\({NUMBER}, SeqCst\) {COMPARED}",
    "wake": r"waiters\.announced\.wake_one\(\)",
    "announce": rf"self\.waiters\.announced\.store\({NUMBER}, SeqCst\)",
    "park": rf"self\.waiters\.announced\.park\(rt, {NUMBER}\)",
    "first": rf"AtomicU64::new\({NUMBER}\)",
}
# The words by which a step could be left out or come too often.
CONTROL = re.compile(
    r"\b(?:if|else|match|for|while|loop|break|continue|return|true|false|queue|get_\w+|to_come|prepare_next|draw_rest|draw|join)\b"
    r"|\?;|&&|(?<!move) \|\|"
)
GAP, MARK = rf"(?:(?= )(?:(?!{CONTROL.pattern}).)*?)?", re.compile(r"\[(\w+)(?:@(\w+))?\]")
# A step of the code, with its operands and the condition under which it is taken.
Step = namedtuple("Step", "name operands under")


class Form:
    """The form of a function."""

    def __init__(self, text):
        head, *lines = text.splitlines()
        self.file, _, self.function = head.partition(": ")
        self.pieces = [piece for line in lines if line for piece in pieces_of(" " + line.strip())]
        self.marks = [mark for line in lines for mark in MARK.findall(line)]

    def body(self):
        """Returns the body of the function in the source."""
        body = body_of(self.function, (TOP / SOURCES / self.file).read_text())
        return body or sys.exit(f"FAILED: there is no function `{self.function}` in {SOURCES}/{self.file}\n{WHAT_TO_DO}")

    def steps(self, body):
        """Returns the steps of a function with this body, in the order of the code, or None if it hasn't this form."""
        found = re.fullmatch("".join(map(pattern_of, self.pieces)), body)
        operands = iter(found.groups() if found else ())
        return found and [Step(name, tuple(next(operands) for _ in range(re.compile(STEPS[name]).groups)), under or None)
                          for name, under in self.marks]

    def difference(self, body):
        """Returns where a body leaves this form."""
        for count in range(len(self.pieces), -1, -1):
            if begins := re.match("".join(map(pattern_of, self.pieces[:count])), body):
                break
        rest, wanted = body[begins.end():], "".join(self.pieces[count:])
        if count and self.pieces[count - 1] == " .." and (hidden := CONTROL.search(rest)):
            rest = rest[hidden.start():]
        wanted, found = (text.strip()[:120] or "its end" for text in (wanted, rest))
        return f"`{self.function}` of {SOURCES}/{self.file} differs from its form:\n  wanted: {wanted}\n  found:  {found}"


def pieces_of(line):
    """Returns the words and the marks of a line of a form, with the blanks before them."""
    if line == " ..":
        return [line]
    begins = [0, *(place for mark in MARK.finditer(line) for place in mark.span()), len(line)]
    texts = [line[begin:end] for begin, end in pairwise(begins)]
    return [piece for i, text in enumerate(texts) for piece in ([text] if i % 2 else re.findall(r" *[^ ]+| +$", text))]


def pattern_of(piece):
    """Returns the regular expression of a piece of a form."""
    mark = MARK.fullmatch(piece)
    return STEPS[mark[1]] if mark else GAP if piece == " .." else re.escape(piece)


def body_of(name, text):
    """Returns the body of a function, each word of it after one blank, without comments; `Type::name` is a function of that type."""
    text = re.sub(r"//.*|\n *(?:requires|ensures) .*", "", text)
    of, _, name = name.rpartition("::")
    of_type = rf"\nimpl\b[^\n]*\b{of}\b.*?" if of else ""
    found = re.search(rf"{of_type}\n( *)(?:pub(?:\(crate\))? )?fn {name}\b.*?{{\n(.*?)\n\1}}\n", text, re.DOTALL)
    return found and re.sub(r" \.(?=\w)", ".", " " + " ".join(found[2].split()))


def functions_in_code():
    """Returns each function's form, body and steps. Ends the script if one has another form, or if a form has room for a `return`."""
    found = {}
    for form in map(Form, (TOP / FORMS).read_text().split("\n== ")[1:]):
        body = form.body()
        steps = form.steps(body)
        if steps is None:
            sys.exit(f"FAILED: {form.difference(body)}\n{WHAT_TO_DO}")
        for place in re.finditer(r"[;{}]|$", body):
            if form.steps(f"{body[:place.end()]} return;{body[place.end():]}") is not None:
                sys.exit(f"FAILED: a `return` in `{form.function}` is not noticed behind: {body[:place.end()]}")
        found[form.function] = form, body, steps
    return found
