"""The trials of what the program says of itself and of what it refuses: its help and version, the errors of arguments, and tips."""

import codecs
import os
import sys

from lib import reference
from lib.crates import TOP
from lib.failing import PATIENCE
from lib.processes import give_up_reading, read_all, two_ends
from lib.random_data import SEARCHING, FILE_SUBCOMMANDS
from lib.reference import Run

# The lists down to `REFUSED_ARGUMENTS` have words that are refused, or are no text, where there is a file `a`.

# Words that begin with no subcommand.
NO_SUBCOMMAND = [
    # No word, and words that are no subcommand.
    [], [""], ["stop"], ["stop", "-V"], ["help"], ["Solve", "a"], ["--", "solve", "a"], [b"\xff"],
    # Options that are not taken before a subcommand.
    ["-x"], ["--versio"], ["--version=1"], ["--workers", "1", "solve", "a"],
]

# Words behind each subcommand that answers files.
REFUSED_WITH_FILES = [
    # No file.
    [], ["--"], ["--workers", "1"],
    # An option that is not taken.
    ["a", "-b"], ["a", "-V"], ["--version", "a"], ["--worker", "1", "a"],
    # An option without a number, or twice; a number that is out of range, or is no number.
    ["--workers", "a"], ["a", "--table"], ["a", "--workers", "1", "--workers", "1"], ["a", "--table=1", "--table=1"],
    *([f"--workers={n}", "a"] for n in ("", "0", "65", "-1", "four", "4.0", " 4", "4 ", "1e1", "0x4", "４", 2**32 + 4, 2**64 + 4)),
    *(["a", f"--table={n}"] for n in ("", "0", "1048577", "-1", "1_000", 2**32 + 1, 2**64 + 1)),
    # Words that are no text.
    ["a", b"\xed\xa0\x80"], ["a", "--workers", b"4\xc3"],
]

# Words behind each subcommand.
REFUSED_AFTER = {
    "solve": REFUSED_WITH_FILES, "values": REFUSED_WITH_FILES,
    "steps": [
        *REFUSED_WITH_FILES,
        # Options of other subcommands.
        ["--table", "1", "a"], ["a", "--table=65536"], ["--boards", "a"],
    ],
    "moves": [
        # No line, two lines, one that begins as an option does, and one that is no text.
        [], ["--"], ["1/0 1/0", "1/0 1/0"], ["-1/0 1/0"], [b"1/0 1/0\x80"],
        # An option without a line, with a value, or twice.
        ["--boards"], ["--boards=true", "1/0 1/0"], ["--boards", "--boards", "1/0 1/0"],
        # Options of other subcommands, and one that stands before a subcommand.
        ["--workers", "1", "1/0 1/0"], ["--table", "1", "1/0 1/0"], ["--first=1", "1/0 1/0"], ["--lines", "1/0 1/0"],
        ["--values", "1/0 1/0"], ["--version"],
    ],
    "play": [
        # No line, and two lines.
        [], ["--"], ["1/0 1/0", "1/0 1/0"],
        # A first house that is out of range, no number or missing, or that stands twice.
        *([f"--first={n}", "1/0 1/0"] for n in ("", "0", "7", "-1", "a", "1.0", 2**32 + 1)), ["--first", "1/0 1/0"],
        ["--first=1", "--first=1", "1/0 1/0"],
        # A table without a number, or with one that is out of range.
        ["--table", "1/0 1/0"], ["--table=0", "1/0 1/0"], ["--table=1048577", "1/0 1/0"],
        # An option with a value, twice, or cut short.
        ["--boards=1", "1/0 1/0"], ["--board", "1/0 1/0"], ["--values=1", "1/0 1/0"], ["--values", "--values", "1/0 1/0"],
        # Options of other subcommands, and one that stands before a subcommand.
        ["--workers", "1", "1/0 1/0"], ["--lines", "1/0 1/0"], ["-V", "1/0 1/0"],
    ],
    "show": [
        # No line, two lines, one that begins as an option does, and one that is no text.
        [], ["--"], ["1/0 1/0", "1/0 1/0"], ["-1/0 1/0"], [b"1/0 1/0\x80"],
        # An option with a value, or twice; a number that is out of range.
        ["--plain=1", "1/0 1/0"], ["--plain", "--plain", "1/0 1/0"], ["--lines=1", "1/0 1/0"], ["--lines", "--lines", "1/0 1/0"],
        ["--table=0", "1/0 1/0"],
        # Options of other subcommands.
        ["--boards", "1/0 1/0"], ["--first=1", "1/0 1/0"], ["--values", "1/0 1/0"], ["--workers", "1", "1/0 1/0"],
    ],
    "count": [
        # A depth that is out of range, or is no number.
        *([str(depth), "1/0 1/0"] for depth in ("", "21", "-1", "a", "1.0", " 1", "1 ", "0x1", "++1", "１", 256, 2**32, 2**64, 2**64 + 1)),
        ["--", "-1", "1/0 1/0"],
        # No depth, no line, two lines, and a line before the depth.
        [], ["1"], ["--", "1"], ["1/0 1/0"], ["1/0 1/0", "1"], ["1", "1/0 1/0", "1/0 1/0"],
        # A line that begins as an option does, one that is no text, and an option of other subcommands.
        ["1", "-1/0 1/0"], ["1", b"1/0 1/0\x80"], ["--table=1", "1", "1/0 1/0"],
    ],
    "ask": [
        # A file: lines come from the standard input.
        ["a"],
        # An option with a value, twice, cut short, or of other subcommands.
        ["--values=1"], ["--values", "--values"], ["--steps=1"], ["--steps", "--steps"], ["--step"], ["--workers", "1"], ["-V"],
        # A number that is out of range, or is no number.
        ["--table", "a"], ["--table=", "--values"], ["--table=0"],
        # `--steps` beside `--values` or `--table`.
        ["--values", "--steps"], ["--table=1", "--steps"], ["--table", "65536", "--values", "--steps"],
    ],
}

# All of them.
REFUSED_ARGUMENTS = NO_SUBCOMMAND + [[name, *words] for name, rows in REFUSED_AFTER.items() for words in rows]

# The subcommands, and arguments that ask for help.
NAMED = ["moves", "play", "solve", "values", "ask", "steps", "show", "count"]
BEFORE_HELP = [[], *([name] for name in NAMED), *([name, "a"] for name in FILE_SUBCOMMANDS)]
HELP = [[*words, option] for words in BEFORE_HELP for option in ("--help", "-h")]

# Arguments that ask for the version before anything else.
VERSION = [["--version"], ["-V"], ["-V", "-h"], ["--version", "stop"], ["-V", "solve", "a"], ["--version", "--version"], ["-V", "--", "a"]]

# The first word of a run.
PROGRAM_NAMES = ["kalah", "./kalah", "/bin/kalah", "k l", "é", "-", "--help"]

# Words that are not taken, and all that is said of them.
FOR_MORE = "\n\nFor more information, try '--help'.\n"
CONFLICT = "error: the argument '--steps' cannot be used with '--values' or '--table <N>'\n\nUsage: kalah ask [OPTIONS]"
USAGES = [
    (["best"], f"error: unrecognized subcommand 'best'\n\nUsage: kalah <COMMAND>{FOR_MORE}"),
    (["stop"], f"error: unrecognized subcommand 'stop'\n\n  tip: a similar subcommand exists: 'steps'\n\nUsage: kalah <COMMAND>{FOR_MORE}"),
    (["moves"], f"error: the following required arguments were not provided:\n  <LINE>\n\nUsage: kalah moves <LINE>{FOR_MORE}"),
    (["solve"], f"error: the following required arguments were not provided:\n  <FILE>...\n\nUsage: kalah solve <FILE>...{FOR_MORE}"),
    (["solve", "--workers=0", "a"], f"error: invalid value '0' for '--workers <N>': 0 is not in 1..=64{FOR_MORE}"),
    (["values", "a", "--table=0"], f"error: invalid value '0' for '--table <N>': 0 is not in 1..=1048576{FOR_MORE}"),
    *((["ask", "--steps", option], f"{CONFLICT}{FOR_MORE}") for option in ("--values", "--table=65536")),
    (["play", "--board", "1/0 1/0"],
     "error: unexpected argument '--board' found\n\n  tip: a similar argument exists: '--boards'\n\n"
     f"Usage: kalah play --boards <LINE>{FOR_MORE}"),
]


def mistake(what, usage=None):
    """Returns what is said of a mistake in the arguments, with the usage if that is shown."""
    return f"error: {what}" + (f"\n\nUsage: kalah {usage}" if usage else "") + FOR_MORE


# Words that are refused, what is said of them, and the tip that follows on a terminal, if there is one.
POSITION = "1,1/0 1,1/0"
FORM = "the form is `1,1/0 1,1/0`; numbers are 0 to 99, without a zero before them"
QUOTES = "a position is one argument, so put it in quotes: '1,1/0 1,1/0'"
DEPTH_FIRST = "DEPTH comes first, as in `kalah count 3 '1,1/0 1,1/0'`"
NO_POSITION = "it is no position; for a file of positions, use `kalah solve FILE`"
MISSING = "the following required arguments were not provided:\n"
EXCESS = "unexpected argument '{0}' found"
AS_VALUE = EXCESS + "\n\n  tip: to pass '{0}' as a value, use '-- {0}'"
OF_FILES = "{0} [OPTIONS] <FILE>..."
VERSIONED = [("solve", OF_FILES.format("solve")), ("play", "play [OPTIONS] <LINE>"), ("count", "count <DEPTH> <LINE>")]


def as_value(words, usage, tip):
    """Returns a row of TIPS for words with an option that the command line takes for a value, the second of them."""
    return words, mistake(AS_VALUE.format(words[1]), usage), tip


TIPS = [
    *((["solve", name], f"kalah: cannot read {name}\n", "there is no such file") for name in ("b", "", "a/b", "a b", "1,0")),
    *(
        ([name, "1,1/0", "1,1/0"], "kalah: cannot read 1,1/0\n",
         "for a position, use `kalah show '1,1/0 1,1/0'`, in quotes, or `kalah ask`")
        for name in FILE_SUBCOMMANDS
    ),
    (["values", "a", "folder"], "kalah: cannot read folder\n", "it is a folder; name the files in it"),
    (["steps", "locked"], "kalah: cannot read locked\n", "you have no permission to read it"),
    (["solve", "large"], "kalah: cannot read large\n",
     "it has more than 67108864 bytes; `kalah ask` has no limit, or split it (docs/LARGE.md)"),
    *((["steps", name], f"kalah: cannot read {name}\n", "it can't be opened, or a read failed") for name in ("/proc/self/mem", "n" * 256)),
    (["values", "-"], "kalah: cannot read -\n", "for standard input, use /dev/stdin"),
    (["solve", POSITION], f"kalah: cannot read {POSITION}\n", f"for a position, use `kalah show '{POSITION}'`, or `kalah ask`"),
    (["solve", *["a"] * 257], "kalah: too many files\n", "at most 256 files a run; give them to several runs (docs/LARGE.md)"),
    (["values", "lines"], "kalah: too many lines\n",
     "at most 1000000 lines a run; `kalah ask` has no limit, or split the files (docs/LARGE.md)"),
    (["steps", "a\n"], "kalah: line feed in a file name\n", None),
    (["play", "--first=3", POSITION], "kalah: house 3 can't be moved\n", None),
    (["moves", "4,4,4,4,4,4/0 4,4,4,4,4,4/0"], "fault seeds\n", "48 seeds in houses; at most 31 are accepted"),
    (["play", "--first=1", "99,99/98 0,10/97 e"], "fault seeds\n", "208 seeds in houses; at most 31 are accepted"),
    (["show", "1,1/0,1,1/0"], "fault shape\n", "one space between the sides, as in `1,1/0 1,1/0`"),
    (["moves", "1,1/0  1,1/0"], "fault shape\n", "exactly one space between the sides, as in `1,1/0 1,1/0`"),
    (["play", "1,1/0 1,1/0 E"], "fault shape\n", "the empty-capture rule is a small ` e` at the end, as in `1,1/0 1,1/0 e`"),
    *((["count", "0", line], "fault shape\n", NO_POSITION) for line in ("x", "p.txt", "a/p.txt")),
    *((["count", "0", line], "fault shape\n", FORM) for line in ("1 1", "01/0 1/0", "1/0 1/0 x")),
    (["show", "--plain", ""], "fault empty\n", FORM),
    (["play", "--boards", "1/0 1,1/0"], "fault houses\n", "each side has the same number of houses, 1 to 6"),
    (["moves", "--boards", "x" * 81], "fault long\n", "a line has at most 80 bytes"),
    *(
        ([name], mistake(f"{MISSING}  <FILE>...", f"{name} <FILE>..."),
         "for standard input, use /dev/stdin, as in `kalah solve /dev/stdin`")
        for name in FILE_SUBCOMMANDS
    ),
    *(
        ([name], mistake(f"{MISSING}  <LINE>", f"{name} <LINE>"), f"as in `kalah {name} '{POSITION}'`")
        for name in ("moves", "play", "show")
    ),
    (["count"], mistake(f"{MISSING}  <DEPTH>\n  <LINE>", "count <DEPTH> <LINE>"), DEPTH_FIRST),
    (["count", "3"], mistake(f"{MISSING}  <LINE>", "count <DEPTH> <LINE>"), DEPTH_FIRST),
    ([POSITION],
     mistake(f"unrecognized subcommand '{POSITION}'", "<COMMAND>"),
     f"for a position, use `kalah show '{POSITION}'`, or `kalah ask`"),
    (["1,1/0", "1,1/0"], mistake("unrecognized subcommand '1,1/0'", "<COMMAND>"), QUOTES),
    (["p.txt"], mistake("unrecognized subcommand 'p.txt'", "<COMMAND>"), "for a file of positions, use `kalah solve p.txt`"),
    (["help", "solve"], mistake("unrecognized subcommand 'help'", "<COMMAND>"), "use `kalah solve --help`"),
    (["help"], mistake("unrecognized subcommand 'help'", "<COMMAND>"), "use `kalah --help`"),
    (["version"], mistake("unrecognized subcommand 'version'", "<COMMAND>"), "use `kalah --version`"),
    (["-v"], mistake(EXCESS.format("-v"), "<COMMAND>"), "use `kalah --version`"),
    *(as_value([name, option], usage, "use `kalah --version`") for name, usage in VERSIONED for option in ("-V", "--version")),
    (["ask", "-V"], mistake(EXCESS.format("-V"), "ask [OPTIONS]"), "use `kalah --version`"),
    (["perft", "3", POSITION], mistake("unrecognized subcommand 'perft'", "<COMMAND>"), "use `kalah count DEPTH LINE`"),
    (["best", POSITION], mistake("unrecognized subcommand 'best'", "<COMMAND>"), "use `kalah show LINE`, or `kalah solve FILE`"),
    (["go"], mistake("unrecognized subcommand 'go'", "<COMMAND>"), None),
    (["ask", "--steps", POSITION], mistake(EXCESS.format(POSITION), "ask [OPTIONS]"),
     f"`kalah ask` reads standard input; for one position, use `kalah show '{POSITION}'`"),
    (["ask", "p.txt"], mistake(EXCESS.format("p.txt"), "ask [OPTIONS]"), "`kalah ask` reads standard input: use `kalah ask < p.txt`"),
    (["ask", "--best"], mistake(EXCESS.format("--best"), "ask [OPTIONS]"), None),
    (["ask", "--values", "--steps"], CONFLICT + FOR_MORE, None),
    (["count", POSITION, "3"], mistake(f"invalid value '{POSITION}' for '<DEPTH>': invalid digit found in string"), DEPTH_FIRST),
    as_value(["count", "--depth", "3", POSITION], "count <DEPTH> <LINE>", DEPTH_FIRST),
    (["count", "21", POSITION], mistake("invalid value '21' for '<DEPTH>': 21 is not in 0..=20"), None),
    (["play", POSITION, "1"], mistake(EXCESS.format("1"), "play [OPTIONS] <LINE>"), "for the first move, use `--first 1`"),
    *(
        ([*words, "a"], mistake(f"invalid value 'a' for '{name}': invalid digit found in string"), tip)
        for words, name, tip in (
            (["solve", "--workers"], "--workers <N>", "N is a number from 1 to 64"),
            (["ask", "--table"], "--table <N>", "N is a number from 1 to 1048576"),
            (["play", "--first"], "--first <H>", "H is a house from 1 to 6"),
        )
    ),
    (["solve", "--values", "a"],
     mistake(f"{EXCESS.format('--values')}\n\n  tip: a similar argument exists: '--table'", "solve --table <N> <FILE>..."),
     "use `kalah values FILE`"),
    (["show", "--values", POSITION],
     mistake(f"{EXCESS.format('--values')}\n\n  tip: a similar argument exists: '--table'", "show --table <N> <LINE>"),
     "use `kalah show --lines LINE`, or `kalah values FILE`"),
    as_value(["steps", "--values", "a"], OF_FILES.format("steps"), "use `kalah values FILE`"),
    *(as_value([name, "--steps", "a"], OF_FILES.format(name), "use `kalah steps FILE`") for name in SEARCHING),
    *(
        as_value(["solve", option, "4", "a"], OF_FILES.format("solve"), "use `--workers N`")
        for option in ("-w", "-j", "--jobs", "--threads")
    ),
    as_value(["values", "--json", "a"], OF_FILES.format("values"), "`python3 -m kalah table --json FILE` prints JSON"),
    as_value(["show", "--boards", POSITION], "show [OPTIONS] <LINE>", "`kalah show` draws the board without it"),
    (["show", POSITION, "e"], mistake(EXCESS.format("e"), "show [OPTIONS] <LINE>"), "` e` stands inside the quotes, as in '1,1/0 1,1/0 e'"),
    *(
        ([*words, "1,1/0", "1,1/0"], mistake(EXCESS.format("1,1/0"), usage), QUOTES)
        for words, usage in (
            (["moves"], "moves [OPTIONS] <LINE>"), (["moves", "--boards"], "moves [OPTIONS] <LINE>"),
            (["show"], "show [OPTIONS] <LINE>"), (["count", "2"], "count <DEPTH> <LINE>"),
        )
    ),
    (["count", "1,1/0", "1,1/0", "3"], mistake("invalid value '1,1/0' for '<DEPTH>': invalid digit found in string"), QUOTES),
    (["solve", "a/b", "c/d", "--board"], mistake(AS_VALUE.format("--board"), "solve <FILE>..."), None),
]

# Names and arguments with control characters, as pairs of what is typed and what a terminal shows.
HIDDEN = [("a\x1b]0;b\a", r"a\033]0;b\007"), ("\x7f\r\t", r"\177\015\011"), ("é\x9b2J", r"é\302\2332J")]

# The byte order marks with which a file may begin, and the tip for each.
UTF_16 = "a file is UTF-16; convert it, as in `iconv -f UTF-16 -t UTF-8 FILE | kalah ask`"
MARKS = {
    codecs.BOM_UTF8: "a file begins with a byte order mark, which is no part of a position",
    codecs.BOM_UTF16_LE: UTF_16,
    codecs.BOM_UTF16_BE: UTF_16,
}


def is_text(word):
    try:
        return os.fsencode(word).decode() is not None
    except UnicodeDecodeError:
        return False


def version_line():
    """Returns what the program prints for `--version`, as docs/FORMAT.md shows it."""
    _, rest = (TOP / "docs/FORMAT.md").read_text().split("    $ kalah --version\n")
    return (rest.partition("\n")[0].strip() + "\n").encode()


def help_text(words, name):
    """Returns the help that arguments ask for, of a program of this name: a copy in tests/data/help, with `kalah` in its usage line."""
    subject = "kalah" if words[0].startswith("-") else words[0]
    file = f"{subject}{'-h' * (words[-1] == '-h')}.txt"
    return (TOP / "tests/data/help" / file).read_bytes().replace(b"Usage: kalah ", b"Usage: " + name + b" ")


def tip_for_marks(contents):
    """Returns what is said on a terminal after the answers to files with these bytes: a tip if one begins with a byte order mark."""
    tips = [tip for data in contents for mark, tip in MARKS.items() if data.startswith(mark)]
    return f"  tip: {tips[0]}\n".encode() if tips else b""


def refused_arguments(runs):
    """Of the message for refused arguments only the start is compared: the rest is the command line's own."""
    runs.put({"a": b"1/0 1/0"})
    words = runs.drawn.card("refused_arguments", REFUSED_ARGUMENTS)
    got = runs.run(words, runs.drawn.card("program names", PROGRAM_NAMES))
    if all(map(is_text, words)):
        runs.compare(Run(b"", b"error: ", 2), got._replace(err=got.err[:7]))
    else:
        runs.compare(reference.failed(b"a word is not UTF-8"), got)


def help(runs):
    """Help names the program by the last part of its first word. It is compared whole."""
    runs.put({"a": b"1/0 1/0"})
    words, name = runs.drawn.card("help", HELP), runs.drawn.card("names in help", PROGRAM_NAMES)
    own_name = os.path.basename(name).encode()
    runs.compare(Run(help_text(words, own_name), b"", 0), runs.run(words, name))


def version(runs):
    """The version names the program `kalah`, for any first argument."""
    runs.put({"a": b"1/0 1/0"})
    words, name = runs.drawn.card("version", VERSION), runs.drawn.card("names in version", PROGRAM_NAMES)
    runs.compare(Run(version_line(), b"", 0), runs.run(words, name))


def usage(runs):
    """All that is said of words that are not taken."""
    words, said = runs.drawn.card("usages", USAGES)
    runs.put({"a": b"1/0 1/0"})
    runs.compare(Run(b"", said.encode(), 2), runs.run(words))


def no_word(runs):
    """Without any word, not even a name, nothing is written to the standard output. Newer systems hand over an empty word."""
    runs.put({})
    none = "(ctypes.c_char_p * 1)()"
    code = f"import ctypes, sys; ctypes.CDLL(None).execve(sys.argv[1].encode(), {none}, {none})"
    got = runs.run(["-c", code, str(runs.program)], executable=sys.executable)
    runs.compare(Run(b"", got.err, 2), got)


def tips(runs):
    """A tip follows a refusal if standard error is a terminal, and only then; standard output has nothing."""
    words, said, tip = runs.drawn.card("tips", TIPS)
    runs.put({"a": b"1/0 1/0", "locked": b"", "lines": b"\n" * 1_000_001, "large": b""})
    (runs.files / "locked").chmod(0)
    os.truncate(runs.files / "large", reference.MOST_BYTES_OF_A_FILE + 1)
    status = 1 if said.startswith("fault") else 2
    runs.compare(Run(b"", said.encode(), status), run_on_terminal(runs, words, "stdout", "stderr"))
    if tip:
        said += "\n" * said.startswith("error") + f"  tip: {tip}\n"
    runs.compare(Run(b"", said.encode(), status), run_on_terminal(runs, words, "stderr", "stdout"))


def hidden_names(runs):
    """Control characters of a name or an argument are escaped on a terminal, and only there. Answers have them as they are."""
    name, seen = runs.drawn.card("hidden", HIDDEN)
    runs.put({f"{name}.txt": b"1/0 1/0"})
    for word, said, tip in (
        (["steps", name], "kalah: cannot read {0}\n", "  tip: there is no such file\n"),
        ([f"{name}.b"], mistake("unrecognized subcommand '{0}.b'", "<COMMAND>"),
         "\n  tip: for a file of positions, use `kalah solve {0}.b`\n"),
    ):
        runs.compare(Run(b"", said.format(name).encode(), 2), run_on_terminal(runs, word, "stdout", "stderr"))
        runs.compare(Run(b"", (said + tip).format(seen).encode(), 2), run_on_terminal(runs, word, "stderr", "stdout"))
    said = "kalah: cannot read 1/0 1/0\\015\n  tip: for a position, use `kalah show '1/0 1/0\\015'`, or `kalah ask`\n"
    runs.compare(Run(b"", said.encode(), 2), run_on_terminal(runs, ["solve", "1/0 1/0\r"], "stderr", "stdout"))
    want = reference.answers("solve", [(f"{name}.txt".encode(), b"1/0 1/0")])
    runs.compare(want, run_on_terminal(runs, ["solve", f"{name}.txt"], "stdout", "stderr"))


def marked_files(runs):
    """A file that begins with a byte order mark gets a tip on a terminal, beside its answers."""
    mark = runs.drawn.card("marks", list(MARKS))
    data = mark + b"1/0 1/0\n"
    runs.put({"a": b"1/0", "b": data})
    subcommand = runs.subcommand()
    want = reference.answers(subcommand, [(b"a", b"1/0"), (b"b", data)])
    runs.compare(want, run_on_terminal(runs, [subcommand, "a", "b"], "stdout", "stderr"))
    want = want._replace(err=tip_for_marks([data]))
    runs.compare(want, run_on_terminal(runs, [subcommand, "a", "b"], "stderr", "stdout"))


def run_on_terminal(runs, words, stream, other):
    """Returns the result of a run in which this standard stream is a terminal, and the other one a pipe."""
    (screen, terminal), (reader, pipe) = two_ends("terminal"), two_ends("pipe")
    with runs.start(words, **{stream: terminal, other: pipe}, preexec_fn=give_up_reading) as process:
        os.close(terminal)
        os.close(pipe)
        got = {stream: read_all(screen, process), other: read_all(reader, process)}
        status = process.wait(PATIENCE)
    os.close(screen)
    os.close(reader)
    return Run(got["stdout"], got["stderr"], status)


# How often each of these trials is made in one round of all of them.
MESSAGE_TRIALS = {
    refused_arguments: len(REFUSED_ARGUMENTS), help: len(HELP), version: len(VERSION), usage: len(USAGES), no_word: 1,
    tips: len(TIPS), hidden_names: len(HIDDEN), marked_files: len(MARKS),
}
