"""The completions of the shells, for tests/pages: each shell that is there is asked what it offers, and all offer what the help has."""

import re
import subprocess
import tempfile
from concurrent.futures import ThreadPoolExecutor
from pathlib import Path
from shutil import which

from lib.crates import TOP

FOLDER = TOP / "completions"
FILE = "one.txt"
# Options with a value, and those of `ask` that exclude others.
VALUES = {"--workers": "4", "--table": "5", "--first": "1"}
EXCLUDED = {"--steps": {"--values", "--table"}, "--values": {"--steps"}, "--table": {"--steps"}}
HELP = {"-h", "--help"}

BASH = 'source "$1"; shift; COMP_WORDS=("$@"); COMP_CWORD=$(($# - 1)); _kalah; printf "%s\\n" "${COMPREPLY[@]}"'
FISH = "source {file}; complete -C '{line}'"
# Zsh completes only at a terminal: one that is typed into, and prints what its completions add.
ZSH = """
zmodload zsh/zpty
zpty z zsh -f -i
zpty -w z 'fpath=("{folder}" $fpath); source "{folder}/init"'
while zpty -r z line; do [[ $line == ready* ]] && break; done
zpty -w -n z '{line}'$'\\t'
while zpty -r z line; do print -r -- $line; done
"""
ZSH_INIT = """
PROMPT=
autoload -Uz compinit
compinit -u -D
bindkey '^I' complete-word
zstyle ':completion:*' insert-tab false
comppostfuncs=( exit )
compadd () {
    typeset -a added
    if [[ ${@[1,(i)(-|--)]} == *-(O|A|D)\\ * ]]; then builtin compadd "$@"; return; fi
    builtin compadd -A added "$@"
    for word in $added; do print -r -- "<$word>"; done
}
print ready
"""


def printed(words, folder):
    return subprocess.run(words, cwd=folder, capture_output=True, text=True, errors="replace", timeout=60).stdout


def of_bash(words, folder):
    return set(printed(["bash", "-c", BASH, "bash", FOLDER / "kalah.bash", "kalah", *words], folder).split())


def of_zsh(words, folder):
    text = ZSH.format(folder=folder.parent / "zsh", line=" ".join(["kalah", *words]))
    return set(re.findall("<([^<>]+)>", printed(["zsh", "-f", "-c", text], folder)))


def of_fish(words, folder):
    line = FISH.format(file=FOLDER / "kalah.fish", line=" ".join(["kalah", *words]))
    return {offer.split("\t")[0] for offer in printed(["fish", "--no-config", "-c", line], folder).splitlines()}


SHELLS = {"bash": of_bash, "zsh": of_zsh, "fish": of_fish}
# The forms in which the file of a shell names long options and subcommands.
NAMES = {"zsh": (r"--(\w+)", r"^ +'(\w+):"), "fish": (r"^complete .* -l (\w+)", r"^complete .* -a (\w+)")}


def lines_of(of_subcommands, of_program):
    """Yields the words after `kalah`, and what must be offered for the last, which is being typed."""
    yield [""], set(of_subcommands)
    yield ["-"], {word for word in of_program if word.startswith("-")}
    for subcommand, options in of_subcommands.items():
        yield [subcommand, ""], options & {FILE}
        options = options - {FILE}
        yield [subcommand, "-"], options
        for option in options:
            excluded = options if option in HELP else EXCLUDED.get(option, set()) if subcommand == "ask" else set()
            given = [option, *([VALUES[option]] if option in VALUES else [])]
            yield [subcommand, *given, "-"], options - excluded - {option}
            if option in VALUES:
                yield [subcommand, option, ""], set("123456") if option == "--first" else set()


def names_differ(shell, of_subcommands, of_program):
    """Returns how the options and subcommands that the file of a shell names differ from the help, or None."""
    text = (FOLDER / f"kalah.{shell}").read_text()
    option, subcommand = NAMES[shell]
    named = set(re.findall(option, text, re.MULTILINE)), set(re.findall(subcommand, text, re.MULTILINE))
    options = {word[2:] for words in (of_program, *of_subcommands.values()) for word in words if word.startswith("--")}
    return None if named == (options, set(of_subcommands)) else f"{shell} names {named}, and the help {options, set(of_subcommands)}"


def completions_differ(of_subcommands, of_program):
    """Returns how what a shell offers differs from the help, or None; and if a shell is missing, how what its file names does. A subcommand
    that takes files has FILE among its options."""
    lines = [*lines_of(of_subcommands, of_program)]
    with tempfile.TemporaryDirectory(prefix="completions-") as name, ThreadPoolExecutor() as pool:
        folder, zsh = Path(name, "files"), Path(name, "zsh")
        folder.mkdir(), zsh.mkdir()
        (folder / FILE).touch()
        (zsh / "_kalah").write_bytes((FOLDER / "kalah.zsh").read_bytes())
        (zsh / "init").write_text(ZSH_INIT)
        for shell, offered in SHELLS.items():
            if not which(shell) and (differs := names_differ(shell, of_subcommands, of_program)):
                return differs
            said = pool.map(lambda line: offered(line[0], folder), lines) if which(shell) else []
            for (words, want), got in zip(lines, said):
                if got != want:
                    return f"{shell} offers {sorted(got)} after {words}, and the help has {sorted(want)}"
    return None
