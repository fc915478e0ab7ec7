"""Weakens checks in Python, for bench/mutants: what is expected is what came, a filter takes all or nothing, a loop
goes over one less, a pattern finds more or less, one of a list is left out.

Such an edit of a check is refused where one of its tests fails or makes fewer trials, or where a test with it lets an
edit of page/must-fail pass that it has to refuse. All runs in a copy of the repository, each edit in a process of its
own; one of a function is tried by the tests that go through its lines."""
import argparse
import ast
import importlib
import os
import pathlib
import pickle
import random
import re
import resource
import shutil
import sys
import tempfile
import unittest

ROOT = pathlib.Path(__file__).resolve().parent.parent
# So much time of a processor a test with an edit gets.
SECONDS = 5
OTHER = {ast.Eq: ("==", "!="), ast.NotEq: ("!=", "=="), ast.Lt: ("<", "<="), ast.LtE: ("<=", "<"), ast.Gt: (">", ">="),
         ast.GtE: (">=", ">"), ast.In: ("in", "not in"), ast.NotIn: ("not in", "in")}
# What stands in a pattern, and what finds more or less.
IN_PATTERNS = [(r"\\b", ""), (r"(?<=[\"'])\^", ""), (r"\$(?=[\"'])", ""), (r"(?<=[\])\w])\+", "?"),
               (r"\(\?<?![^()]*\)", ""), (r"\|[^|()\[\]]+(?=[|)\"'])", ""), (r"(?<=\[)\^", "")]


def nodes_of(tree):
    """The nodes of a tree, but for those in texts, which have no places."""
    yield tree
    for it in () if isinstance(tree, ast.JoinedStr) else ast.iter_child_nodes(tree):
        yield from nodes_of(it)


def places_of(text):
    """What gives from where to where a node stands, or that itself."""
    lines, starts = text.split("\n"), [0]
    for line in lines:
        starts.append(starts[-1] + len(line) + 1)

    def place(line, column):
        return starts[line - 1] + len(lines[line - 1].encode()[:column].decode())

    return lambda it: (place(it.lineno, it.col_offset), place(it.end_lineno, it.end_col_offset))


def weaker_calls(node, span, said):
    """Each edit that weakens a call: of a comparison, of a pattern, and of an order."""
    name, args = getattr(node.func, "attr", getattr(node.func, "id", "")), node.args
    if name in ("compare", "has") and len(args) > 2:
        yield *span(args[1]), said(args[2])
        yield *span(args[2]), said(args[1])
    if name == "says":
        yield *span(args[0]), '""'
    if name in ("sorted", "all", "any"):
        yield *span(node.func), {"sorted": "list", "all": "any", "any": "all"}[name]
    if said(node.func).startswith("re.") and args and isinstance(args[0], (ast.Constant, ast.JoinedStr)):
        yield *span(args[0]), 'r"(?!)"'
        for pattern, new in IN_PATTERNS:
            for it in re.finditer(pattern, said(args[0])):
                yield span(args[0])[0] + it.start(), span(args[0])[0] + it.end(), new


def weaker_values(node, span, said):
    """Each text that a value can be in place of its own."""
    if isinstance(node, ast.Compare) and type(node.ops[0]) in OTHER:
        old, new = OTHER[type(node.ops[0])]
        yield f"{said(node.left)} {new} {said(node.comparators[0])}"
    elif isinstance(node, ast.UnaryOp) and isinstance(node.op, ast.Not):
        yield said(node.operand)
    elif isinstance(node, ast.BoolOp):
        word = " and " if isinstance(node.op, ast.And) else " or "
        yield from (word.join(said(other) for other in node.values if other is not it) for it in node.values)
    elif isinstance(node, ast.IfExp):
        yield from (said(node.body), said(node.orelse))
    elif isinstance(node, ast.Constant) and type(node.value) is int:
        yield str(node.value + 1)
    elif isinstance(node, ast.Subscript) and isinstance(node.slice, ast.Slice):
        yield said(node.value)
    elif isinstance(node, ast.BinOp) and isinstance(node.op, (ast.Sub, ast.Add, ast.BitOr, ast.BitAnd, ast.BitXor)):
        yield said(node.left)
        yield from [f"{said(node.right)} - {said(node.left)}"] * isinstance(node.op, ast.Sub)
    elif isinstance(node, (ast.List, ast.Tuple, ast.Set)) and len(node.elts) > 1:
        signs = {ast.List: "[]", ast.Tuple: "()", ast.Set: "{}"}[type(node)]
        for it in node.elts if not isinstance(getattr(node, "ctx", None), ast.Store) else ():
            yield signs[0] + "".join(f"{said(other)}, " for other in node.elts if other is not it) + signs[1]


def weaker(text):
    """Each edit that weakens a check: from where to where, and what stands there then."""
    span = places_of(text)

    def said(it):
        return "({})".format(text[slice(*span(it))]) if isinstance(it, ast.GeneratorExp) else text[slice(*span(it))]

    for node in nodes_of(ast.parse(text)):
        if isinstance(node, (ast.For, ast.comprehension)):
            yield from ((*span(node.iter), f"list({said(node.iter)})[{it}]") for it in ("1:", ":-1"))
        for it in [node.test] if isinstance(node, ast.If) else getattr(node, "ifs", ()):
            yield from ((*span(it), new) for new in ("True", "False"))
        if isinstance(node, ast.Expr) and isinstance(node.value, ast.Call):
            yield *span(node), "pass"
        if isinstance(node, ast.Call):
            yield from weaker_calls(node, span, said)
        yield from ((*span(node), new) for new in weaker_values(node, span, said))


class Noted(unittest.TestResult):
    """How many trials were made, and which failed."""

    def __init__(self):
        super().__init__()
        self.tried, self.told = 0, []

    def addSubTest(self, test, subtest, error):
        self.tried, self.told = self.tried + 1, self.told + [subtest.params["what"]] * bool(error)

    def addFailure(self, test, error):
        self.tried, self.told = self.tried + 1, [*self.told, test.id()]

    addError = addFailure


class Checked:
    """A check in a copy of the repository, and what becomes of it there with edits of a file of check/."""

    def __init__(self, work, file, check, words):
        self.work, self.path, self.check, self.words = work, work / "check" / file, check, words
        self.text = self.path.read_text("utf-8")
        span, tree = places_of(self.text), ast.parse(self.text)
        # Each function, method and value of the file, by which it is made anew, and the class that it is in.
        self.units = [(*span(it), it, owner) for top in tree.body for it, owner in (
            [(one, top.name) for one in top.body] if isinstance(top, ast.ClassDef) else [(top, None)])
                      if isinstance(it, (ast.FunctionDef, ast.Assign))]

    def load(self, places=()):
        """Takes an edit of what the check reads, loads the check, and gives the names of its tests."""
        sys.dont_write_bytecode, sys.argv = True, [self.check]
        sys.path.insert(0, str(self.work / "check"))
        for file, old, new in places:
            path = self.work / "page" / file
            path.write_text(path.read_text("utf-8").replace(old, new), "utf-8")
        self.trials = importlib.import_module("trials")
        self.module = self.trials.loaded(self.check)
        names = [it.id().rpartition(".")[2] for it in self.trials.tests_of(self.module)]
        return [it for it in names if not self.words or any(word in it for word in self.words)]

    def run(self, name, trace=None):
        """What came of a test."""
        noted = Noted()
        sys.settrace(trace)
        unittest.TestSuite(it for it in self.trials.tests_of(self.module) if it.id().endswith(f".{name}")).run(noted)
        sys.settrace(None)
        return noted

    def gone_through(self):
        """Of each test how many trials it makes, and which lines of the file it goes through."""
        found, lines = {}, set()

        def trace(frame, *_):
            lines.add(frame.f_lineno)
            return trace if frame.f_code.co_filename == str(self.path) else None

        for name in self.load():
            lines.clear()
            noted = self.run(name, trace)
            found[name] = noted.tried, set(lines)
            if noted.told:
                print(f"{name} fails without an edit: {noted.told}")
        return found

    def refusing(self, places, wanted):
        """Of each test the trials that refuse an edit there, of those that have to."""
        told = {name: self.run(name).told for name in self.load(places)}
        those = {name: [it for it in wanted if any(one.startswith(it) for one in them)] for name, them in told.items()}
        return {name: it for name, it in those.items() if it}

    def unit_of(self, begin):
        return next((it for it in self.units if it[0] <= begin < it[1]), None)

    def weaken(self, begin, end, new):
        """Makes a part of the check anew, with an edit."""
        first, last, node, owner = self.unit_of(begin)
        module, made = sys.modules.get(self.path.stem) if self.path.suffix else self.module, {}
        code = f"if True:\n {' ' * node.col_offset}{self.text[first:begin]}{new}{self.text[end:last]}"
        exec(compile(code, str(self.path), "exec"), vars(module), made)
        for name, value in made.items():
            holder = getattr(module, owner) if owner else module
            old = vars(holder)[name]
            for it in [holder, *([] if owner else [self.module, *sys.modules.values()])]:
                for key in [key for key, other in list(vars(it).items()) if other is old]:
                    setattr(it, key, value)

    def survivors(self, edits, wanted, places=()):
        """Those edits of the check with which its tests make as many trials as wanted, or refuse what they have to."""
        self.load(places)
        return [it for it, names in edits if not self.is_refused(it, {name: wanted[name] for name in names})]

    def is_refused(self, edit, wanted):
        """Whether a process of its own ends as one where an edit is refused."""
        child = os.fork()
        if child:
            return os.waitstatus_to_exitcode(os.waitpid(child, 0)[1]) != 0
        try:
            resource.setrlimit(resource.RLIMIT_CPU, (SECONDS, SECONDS))
            os.dup2(os.open(os.devnull, os.O_WRONLY), 1)
            os.dup2(1, 2)
            self.weaken(*edit)
            os._exit(not all(self.is_so(name, it) for name, it in wanted.items()))
        finally:
            os._exit(1)

    def is_so(self, name, wanted):
        """Whether a test makes so many trials, and none fails; or else those fail that refuse an edit."""
        came = self.run(name)
        if isinstance(wanted, int):
            return not came.told and came.tried >= wanted
        return all(any(one.startswith(it) for one in came.told) for it in wanted)


def alone(call, *given):
    """What a call returns in a process of its own."""
    read, write = os.pipe()
    if os.fork():
        os.close(write)
        with open(read, "rb") as pipe:
            came = pipe.read()
        os.wait()
        return pickle.loads(came)
    try:
        came = pickle.dumps(call(*given))
        with open(write, "wb") as pipe:
            pipe.write(came)
    finally:
        os._exit(0)


def edits_for(check):
    """The edits of page/must-fail that a check has to refuse: what they change, and where they are refused."""
    for path in sorted((ROOT / "page/must-fail").glob("*.edit")):
        words, wanted, places = {}, [], []
        for line in path.read_text("utf-8").splitlines():
            key, _, words[key.rstrip(":")] = line.partition(": ")
            wanted += [words[key]] if key == "refused at" else []
            places += [(words["file"], words["old"], words["new"])] if key.startswith("new") else []
        if words["trial"] == check:
            yield places, wanted


def try_check(work, checked, given):
    """Prints each edit of a check that survives, and how many there are."""
    tests = alone(checked.gone_through)

    def names_of(begin, end, _):
        lines = {*range(checked.text.count("\n", 0, begin) + 1, checked.text.count("\n", 0, end) + 2)}
        unit = checked.unit_of(begin)
        return [it for it in tests if unit and (isinstance(unit[2], ast.Assign) or tests[it][1] & lines)]

    edits = [(it, names) for it in weaker(checked.text) if (names := names_of(*it))]
    chosen = random.Random(given.seed).sample(edits, min(given.count, len(edits)))
    left = alone(checked.survivors, chosen, {it: count for it, (count, _) in tests.items()})
    for places, wanted in list(edits_for(checked.check)):
        refusing = alone(checked.refusing, places, wanted)
        tried = [(it, those) for it, names in chosen if it in left and (those := {*names} & {*refusing})]
        for file, *_ in places:
            shutil.copyfile(ROOT / "page" / file, work / "page" / file)
        passed = alone(checked.survivors, tried, refusing, places) if tried else []
        left = [it for it in left if it in passed or it not in [one for one, _ in tried]]
        for file, *_ in places:
            shutil.copyfile(ROOT / "page" / file, work / "page" / file)
    for begin, end, new in sorted(left):
        line = checked.text.count("\n", 0, begin) + 1
        print(f"check/{checked.path.name}:{line}: {checked.text[begin:end]!r} -> {new!r}", flush=True)
    print(f"{len(left)} of {len(chosen)} survive, of {len(edits)} that there are")


def main(given):
    """Weakens files of check/, each for itself."""
    with tempfile.TemporaryDirectory() as folder:
        work = pathlib.Path(folder, "repository")
        shutil.copytree(ROOT, work, ignore=shutil.ignore_patterns("out", ".git", "__pycache__"))
        for file in given.files:
            name = pathlib.Path(file).name
            for check in given.trials.split(",") if given.trials else [name]:
                try_check(work, Checked(work, name, check, given.within.split(",") if given.within else []), given)
