"""What pages say of the sources: docs/INTERFACE.md lists all that the crates export, with the signatures that are kept and the parts of
each type; docs/PROOFS.md names the clauses and laws that carry each promise; CONTRIBUTING.md quotes lines of files; docs/CERTIFICATES.md
counts those of the checker; and all pages name files, lemmas, types and calls. The functions that compare these return how they differ, or
None."""

import re

from lib.crates import TOP, crates

INTERFACE = "docs/INTERFACE.md"
PROMISES, EXCERPTS = "docs/PROOFS.md", "CONTRIBUTING.md"
TESTS = "tests"
CERTIFICATES, CHECKER = "docs/CERTIFICATES.md", "python/kalah/check.py"
# Pages that also name what is not there: what has gone, and what a caller has added.
CHANGELOG = "CHANGELOG.md"
ADDED = {"docs/CALLING.md": {"may_wait", "tests_may"}}
# What stands for the name of a file, and a file that the reader makes.
FORMS = {"MODULE.edits", "NAME.edits", "array.sh"}
# A comment of a line, in any of the languages.
COMMENT = re.compile(r"(?m)(?:^|(?<=\s))(?://|--|#(?!\[)).*$")
# Where an implementation or a trait begins, and where a function begins.
ROOT = re.compile(r"(?:impl(?:<[^{]*?>)? (?:\w+(?:<.*?>)? for )?&?|pub trait )(\w+)")
FUNCTION = re.compile(r"( *)(pub )?(?:const )?fn (\w+)")
# What ends a signature, and what is the signature of a law: a function that takes nothing and returns nothing.
END = re.compile(r" \{|;$|\n *(?:requires|ensures|//|\{)", re.MULTILINE)
LAW = re.compile(r"\w+(<[^(]*>)?\(\)")
# A public type, with its variants or fields, and what else stands between these. The page has a type in one line, which ends in `..` if
# another line has further parts.
TYPE = re.compile(r"^pub (enum|struct) (\w+)(?:<[^>]*>)?(?:;| \{\n((?s:.*?))^\})", re.MULTILINE)
NO_PART = re.compile(r"///.*|//.*|#\[.*\]|ghost .*")
ON_PAGE = re.compile(r"(enum|struct) (\w+)(?:<[^>]*>)?(?:;| \{ (.*) \})")


def in_one_form(signature):
    """Returns a signature without what only its layout has."""
    return re.sub(r",? ([)>])", r"\1", re.sub(r"([(<]) ", r"\1", " ".join(signature.split())))


def signatures_of(file):
    """Yields the signature of each public function of a file and of each function of its public traits, after its type or trait."""
    root, is_trait, lines = "", False, file.read_text().splitlines()
    for number, line in enumerate(lines):
        if found := ROOT.match(line):
            root, is_trait = f"{found[1]}::", line.startswith("pub trait")
        elif line.startswith("}"):
            root, is_trait = "", False
        if (found := FUNCTION.match(line)) and (found[2] or is_trait):
            text = "\n".join([line[found.start(3):], *lines[number + 1:]])
            yield root * bool(found[1]) + in_one_form(END.split(text, maxsplit=1)[0])


def name_of(signature):
    """Returns the name in a signature."""
    return re.match(r"[\w:]+", signature)[0]


def parts_of(text):
    """Returns the variants or fields of a type as a list, split at the commas that stand in no bracket."""
    return [part for part in re.split(r",\s*(?![^({]*[)}])", in_one_form(NO_PART.sub("", text))) if part]


def types_of(file):
    """Yields the kind and name of each public type of a file whose parts are all public, and then its parts."""
    for kind, name, text in TYPE.findall(file.read_text()):
        parts = parts_of(text)
        if kind == "enum" or all(part.startswith("pub ") for part in parts):
            yield kind, name, *(part.removeprefix("pub ") for part in parts)


def exported_by(crate):
    """Returns the signatures that a library exports, but for those of laws; the names that it exports without a function; and the types
    whose parts are public. A program exports nothing."""
    root = TOP / "crates" / crate / "src/lib.rt"
    rows = re.findall(r"^pub use ([^;]+);", root.read_text(), re.MULTILINE) if root.exists() else []
    names = {name for row in rows for name in re.findall(r"\w+", row.partition("{")[2] or row.rpartition("::")[2])}
    files = [file for file in root.parent.rglob("*.rt") if "tests" not in file.parts]
    found = [text for file in files for text in signatures_of(file) if name_of(text).partition("::")[0] in names]
    types = {a_type for file in files for a_type in types_of(file) if a_type[1] in names}
    return {text for text in found if not LAW.fullmatch(text)}, names - {name_of(text).partition("::")[0] for text in found}, types


def functions_named(text):
    """Returns the functions that a text names: as `f`, as `T::f`, or after a type, as `T`: `f`, `g`."""
    lists = re.findall(r"`(\w+)`: ((?:`\w+`(?:,\s+)?)+)", text)
    of_types = {f"{root}::{name}" for root, names in lists for name in re.findall(r"\w+", names)}
    return of_types | set(re.findall(r"`([\w:]+)`", text))


def has_type(lines, kind, name, *parts):
    """Returns whether these lines have the type, each of its parts once, those of a line in the order of the source."""
    found = [parts_of(text) for a_kind, a_name, text in ON_PAGE.findall("\n".join(lines)) if (a_kind, a_name) == (kind, name)]
    listed = [[part for part in line if part != ".."] for line in found]
    is_whole = bool(listed) and sorted(sum(listed, [])) == sorted(parts)
    return is_whole and all(line == sorted(line, key=parts.index) for line in listed)


def interface_differs():
    """The page has the signature of each function that is kept, and each type with its parts; in its last section it names each other
    function; and it names each other thing that is exported."""
    signatures, others, types = (set().union(*parts) for parts in zip(*map(exported_by, crates())))
    page = (TOP / INTERFACE).read_text()
    further_part = page.partition("\n## Further")[2]
    lines = [line for block in re.findall(r"^```rust\n((?s:.*?))^```", page, re.MULTILINE) for line in block.split("\n") if line]
    kept = {line for line in lines if not ON_PAGE.fullmatch(line)}
    lost = kept ^ (signatures - {text for text in signatures if name_of(text) in functions_named(further_part)})
    lost |= {a_type for a_type in types if not has_type(lines, *a_type)}
    lost |= {line for line in lines if (found := ON_PAGE.fullmatch(line)) and found[2] not in {a_type[1] for a_type in types}}
    lost |= {name for name in others if not name.startswith("MOST_")} - set(re.findall(r"\w+", page))
    lost |= {name for name in functions_named(further_part) if "::" in name} - set(map(name_of, signatures - kept))
    return f"{INTERFACE} differs from the sources in {sorted(map(str, lost))}" if lost else None


def items_named(name, files):
    """Returns the text of each function, type or trait of this name, and of each implementation for it."""
    begins = re.compile(rf"^( *)(?:pub(?:\(crate\))? )?(?:fn|struct|enum|trait|impl\b.*?) {name}\b(?s:.*?)^\1\}}", re.MULTILINE)
    return [found[0] for text in files.values() for found in begins.finditer(text)]


def promises_differ():
    """Each item of the list names functions, types or files, and then clauses there, laws, or definitions. A clause is an `ensures`, or a
    `requires` if the item says that it is required. A definition has a capital, or stands after `over`."""
    files = {path: path.read_text() for path in (TOP / "crates").glob("*/src/**/*.rt") if "tests" not in path.parts}
    laws = "\n".join(text for path, text in files.items() if path.name in ("laws.rt", "limits.rt"))
    specs = "\n".join(path.read_text() for path in (TOP / "crates").glob("*/specs/**/*.antt"))
    items = re.findall(r"^- ((?:.|\n  )*)$", (TOP / PROMISES).read_text().partition("\n## What carries each promise\n")[2], re.MULTILINE)
    for item in (" ".join(item.split()) for item in items):
        if not (found := re.fullmatch(r"(.*)\. At (.*?): (.*)", item)):
            return f"{PROMISES}: this has not the form `PROMISE. At PLACES: CLAUSES`: {item}"
        promise, places, carried = found.groups()
        code = ""
        for place in re.findall(r"`([\w:.]+)`", places):
            there = [text for path, text in files.items() if path.name == place] or items_named(place.rpartition("::")[2], files)
            if not there:
                return f"{PROMISES}: {promise}: there is no {place}"
            code += "\n".join(there)
        for name, required in re.findall(r"`(\w+)`( \(required\))?", carried):
            is_clause = re.search(rf"\b{'requires' if required else 'ensures'} {name} ", code)
            is_law = not required and re.search(rf"\bfn {name}\b", laws)
            is_definition = (name[0].isupper() or f"over `{name}`" in carried) and re.search(rf"\bpub (record )?{name}\b", specs)
            if not (is_clause or is_law or is_definition):
                return f"{PROMISES}: {promise}: there is no {name}"
    return None if items else f"{PROMISES}: no promise"


def pages():
    """Returns the pages of the repository."""
    return [page for folder in (".", "docs", "tests", "packaging", "bench") for page in (TOP / folder).glob("*.md")]


def excerpts_differ():
    """Each block stands whole in the file that the line above it names."""
    parts = re.split(r"^```\w*\n", (TOP / EXCERPTS).read_text(), flags=re.MULTILINE)
    for prose, block in zip(parts[::2], parts[1::2]):
        file = re.findall(r"`([\w/.]+)`:\n\n?$", prose)
        if not file or block.strip("\n") not in (TOP / file[0]).read_text():
            return f"{EXCERPTS}: {file or 'no file'} doesn't have this:\n{block}"
    return None if len(parts) > 1 else f"{EXCERPTS}: no excerpt"


def checker_differs():
    """Where the page names the checker of certificates it has the number of its lines that are rules, and perhaps that of all its lines."""
    checker = (TOP / CHECKER).read_text()
    rules = checker.partition("# The rules.\n")[2].partition("# The claims.\n")[0]
    counts = [len(re.findall("^.", rules, re.MULTILINE)), checker.count("\n")]
    named = re.search(rf"`{CHECKER}`,([^;]*);", (TOP / CERTIFICATES).read_text())
    numbers = [int(number) for number in re.findall(r"\d+", named[1])] if named else []
    return None if counts[0] in numbers and {*numbers} <= {*counts} else f"{CERTIFICATES}: {CHECKER} has {counts} lines, not {numbers}"


def files_differ():
    """Each file of the repository that a page names in backticks is there, with as many of its folders as are named. `MODULE.edits` and the
    like are no files. The page of the tests names each file of their library."""
    tops = [TOP / folder for folder in ("crates", "tests", "docs", "examples", "python", "bench", "packaging", "completions")]
    paths = [f"/{path.relative_to(TOP)}" for top in tops for path in top.rglob("*.*") if "/out/" not in f"{path}"]
    for page in pages():
        for name in set(re.findall(r"`([\w/.]+\.(?:rt|antt|py|c|js|sh|gp|svg|css|html|txt|md|edits))`", page.read_text())):
            if name.rpartition("/")[2] not in FORMS and not (TOP / name).exists() and not any(path.endswith(f"/{name}") for path in paths):
                return f"{page.relative_to(TOP)}: there is no file {name}"
    named = (TOP / TESTS / "README.md").read_text()
    unnamed = sorted(path.name for path in (TOP / TESTS / "lib").iterdir() if path.is_file() and f"`{path.name}`" not in named)
    return f"{TESTS}/README.md doesn't name {unnamed}" if unnamed else None


def names_differ():
    """Each name that a page has in backticks, and that has the form of a lemma, a type or a call, occurs in the code of the sources, not
    only in comments. Blocks of code of the page don't count, nor does the changelog."""
    kinds = ("*.rt", "*.antt", "*.py", "*.c", "*.js")
    files = [path for top in ("crates", "tests", "examples", "python", "bench") for kind in kinds for path in (TOP / top).rglob(kind)]
    files += [path for path in (TOP / "tests").iterdir() if path.is_file()]
    files.remove(TOP / "tests/lib/sources.py")  # It has the names that are not there.
    words = {word for path in files if "/out/" not in f"{path}" for word in re.findall(r"\w+", COMMENT.sub("", path.read_text()))}
    for page in pages():
        name_of_page = f"{page.relative_to(TOP)}"
        prose = re.sub(r"^```(?s:.*?)^```|^    .*$", "", page.read_text(), flags=re.MULTILINE)
        for name in re.findall(r"`([A-Za-z][\w:]*)(?:\(\))?`", prose) if page.name != CHANGELOG else ():
            if re.search(r"_|::|[a-z][A-Z]", name) and not set(name.split("::")) <= words | ADDED.get(name_of_page, set()):
                return f"{name_of_page}: there is no {name}"
    return None
