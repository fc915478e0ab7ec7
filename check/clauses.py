"""Reads the clauses of the crates here, and the definitions in specs/ that they reach.

The names in a clause are followed through the imports of its file to the definitions in specs/, and from there on.
"""
import collections
import pathlib
import re
import shutil

CRATES = pathlib.Path(__file__).resolve().parent.parent / "crates"
TOOLCHAIN = pathlib.Path(shutil.which("rt") or "bin/rt").resolve().parent.parent / "rattle"
NAME = r"[A-Za-z_][A-Za-z_0-9']*"
WORD = re.compile(rf"{NAME}(?:\.{NAME})?")
WHOLE = re.compile(rf"Rattle\.(\w+)\.specs\.([\w.]+)\.({NAME})")
IMPORT = re.compile(r"(?:ghost |pub )?use Rattle\.(\w+)\.specs\.([\w.]+?)(?:\.\{([^}]*)\})?(?: as (\w+))?;?$")
KEYWORD = r"(?:abbrev|pub|opaque|unfoldable|record(?! \{)|data)\b"
LEMMA = re.compile(rf"pub {NAME} :")
HEAD = re.compile(rf"(?:(?:abbrev|pub|opaque|unfoldable)\s+)*(record\s+|data\s+)?(?!{KEYWORD})({NAME})")


class Scope:
    """What the names of a file stand for: definitions, each by its crate, its file and its name."""

    def __init__(self, lines):
        self.names, self.files = {}, {}
        # An import may go over several lines.
        text = re.sub(r"\{\n([^{}]*?),?\n\}", lambda items: "{" + " ".join(items[1].split()) + "}", "\n".join(lines))
        for line in text.split("\n"):
            match = IMPORT.match(line.strip())
            if not match:
                continue
            crate, file, items, alias = match.groups()
            if items is None:
                self.files[alias or file.split(".")[-1]] = (crate, file)
            for item in filter(None, map(str.split, (items or "").split(","))):
                self.names[item[-1]] = (crate, file, item[0])

    def reached(self, text):
        yield from WHOLE.findall(text)
        for word in WORD.findall(text):
            first, _, rest = word.partition(".")
            if rest and first in self.files:
                yield (*self.files[first], rest)
            elif first in self.names:
                yield self.names[first]


class Definitions:
    """A file of specs/: the lines of each definition, the file's scope, whose case a name is, and which are lemmas."""

    def __init__(self, crate, file, path):
        lines = path.read_text().split("\n")
        self.place, self.scope, self.cases, self.lemmas = (crate, file), Scope(lines), {}, set()
        self.lines = collections.defaultdict(list)
        name, depth, is_block, is_data = None, 0, False, False
        for line in filter(str.strip, lines):
            if re.match(r"\s*(--|(pub )?(use|mod|module)\b)", line):
                is_block = is_block and line.lstrip().startswith("--")
                continue
            indent, text = len(line) - len(line.lstrip()), line.strip()
            case = re.match(rf"(?:pub )?({NAME}) :", text)
            if not (is_block and indent > depth):
                head = HEAD.match(text)
                is_new, is_more = re.match(KEYWORD, text), indent <= depth and head and head[2] in self.lines
                if is_new and not head:
                    name = None  # An operator.
                elif is_new or is_more:
                    name, depth, is_block = head[2], indent, head[1] is not None
                    self.lemmas.update([name] if LEMMA.match(text) else [])
                    is_data = is_block and head[1].startswith("data")
            elif is_data and case:
                self.cases[case[1]] = name
            if name:
                self.lines[name].append(line)
        for name in [*self.lines, *self.cases]:
            self.scope.names.setdefault(name, (crate, file, name))


def given_by(crate):
    """The names that a crate gives to the crates above it, and its open modules."""
    library = CRATES / crate / "src" / "lib.rt"
    text = library.read_text() if library.exists() else ""
    lists = re.findall(r"^pub use [\w:]+::\{?([\w,\s]+)\}?;", text, re.M)
    names = {name for items in lists for name in re.findall(r"\w+", items)}
    functions = re.findall(r'^pub (?:extern "C" )?fn (\w+)', text, re.M)
    return names.union(functions), set(re.findall(r"^pub mod (\w+);", text, re.M))


def functions_of(path, names, is_open):
    """The public functions of a file, each with the lines up to its body."""
    owner = is_trait = function = None
    for line in path.read_text().split("\n"):
        block = re.match(r"(?:pub )?(?:unsafe )?(impl|trait)\b(?:<[^{]*?>)? (?:[^{]* for )?(\w+)", line)
        if block:
            owner, is_trait = block[2], block[1] == "trait"
        elif re.match(r'(pub )?(extern "C" )?(fn|struct|enum)', line):
            owner, is_trait = None, False
        start = re.match(r'\s*(pub )?(?:const |extern "C" )?fn (\w+)', line)
        if start:
            is_public = (start[1] or is_trait) and (is_open or (owner or start[2]) in names)
            function, lines = (start[2] if is_public else None), []
        if function:
            lines.append(line)
        if function and re.match(r"\s*\{\}?$|.*;$", line):
            yield function, lines
            function = None


def ghosts_of(path, names, is_open):
    """The public ghost members of a file's types and traits, each as the one line of its text."""
    for item in re.findall(r"^(?:pub )?(?:unsafe )?(?:impl|trait|struct|enum)\b.*?^\}", path.read_text(), re.M | re.S):
        header = " ".join(item.partition("{")[0].split())
        kind, owner = re.match(r"(?:pub )?(?:unsafe )?(\w+)(?:<[^{]*?>)? (?:[^{]* for )?(\w+)", header).groups()
        # What is said of each type is said of the public ones.
        if not (is_open or owner in names or len(owner) == 1):
            continue
        for member in re.finditer(r"^ +(pub )?ghost \w+ ?[:=] ?(\{.*?\})[,;]$", item, re.M | re.S):
            if member[1] or kind in ("impl", "trait"):
                yield " ".join(member[2].split())


def clauses_in(lines, name):
    """The lines of the clauses among those of a function, or of the clause with this name."""
    depth, is_clause = 0, False
    for line in lines:
        if depth == 0:
            clause = re.match(r"\s*(?:ensures|requires)\b\s*(\w*)", line)
            is_clause = clause is not None and name in (None, clause[1])
        if is_clause:
            yield line
            depth += line.count("{") - line.count("}")


def clauses_of(crate, asked):
    """The lines of the clauses of a crate's public functions, each function's with its scope; and those of the public
    ghost members, where none is asked for."""
    names, modules = given_by(crate)
    for path in sorted((CRATES / crate / "src").rglob("*.rt")):
        if "tests" in (*path.parts, path.stem):
            continue
        scope = Scope(path.read_text().split("\n"))
        for function, lines in functions_of(path, names, path.stem in modules):
            for name in [None] if not asked else asked.get(f"{crate}::{function}", []):
                yield scope, list(clauses_in(lines, name))
        for member in [] if asked else ghosts_of(path, names, path.stem in modules):
            yield scope, [member]


class Files(dict):
    """The files of specs/, by crate and name: those of the crates here, and the toolchain's as they are asked for."""

    def __init__(self, crates):
        for crate in crates:
            folder = CRATES / crate / "specs"
            for path in folder.rglob("*.antt"):
                file = ".".join(path.relative_to(folder).with_suffix("").parts)
                self[crate, file] = Definitions(crate, file, path)

    def __missing__(self, place):
        crate, file = place
        specs = TOOLCHAIN / crate / "specs"
        path = specs.joinpath(*file.split(".")).with_suffix(".antt")
        self[place] = Definitions(crate, file, path) if path.exists() else self.passed_on(specs / "Lib.antt", file)
        return self[place]

    def passed_on(self, library, file):
        """The file that a crate has from another one, where it has one."""
        first, dot, rest = file.partition(".")
        files = Scope(library.read_text().split("\n")).files if library.exists() else {}
        return self[files[first][0], files[first][1] + dot + rest] if first in files else None


def reach(files, todo):
    """All definitions that are reached from some. What a lemma says is proved, so that it is none."""
    seen, passed = set(), set()
    while todo:
        crate, file, name = place = todo.pop()
        definitions = files[crate, file]
        if place in passed or definitions is None:
            continue
        passed.add(place)
        name = definitions.cases.get(name, name)
        if name in definitions.lemmas:
            continue
        if name in definitions.lines:
            seen.add((*definitions.place, name))
            todo += definitions.scope.reached("\n".join(definitions.lines[name]))
        elif name in definitions.scope.names:
            todo.append(definitions.scope.names[name])  # Passed on by an import.
    return seen
