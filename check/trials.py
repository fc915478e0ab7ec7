"""What the checks in Python have in common: tests by unittest of which each comparison is a trial, one way to start a
program, and the end of each check, main, which counts trials."""
import argparse
import csv
import dataclasses
import difflib
import functools
import importlib.machinery
import importlib.util
import io
import itertools
import json
import os
import pathlib
import pprint
import shutil
import signal
import subprocess
import sys
import tempfile
import time
import traceback
import unittest
import unittest.mock

ROOT = pathlib.Path(__file__).resolve().parent.parent

# What the product knows of itself. The gate compares it with what the program register_facts prints.
FACTS = json.loads((ROOT / "crates/register_facts/stdout").read_text("utf-8"))

# How a text here is written as bytes: \udcff is the byte FF, which is not UTF-8.
BYTES = ("utf-8", "surrogateescape")

# What the command line gave: the paths of programs by their names, and words for the names of trials.
GIVEN = {"cases": []}


@dataclasses.dataclass(frozen=True)
class Program:
    """A program that the checks go over, as check/programs.csv has it."""
    name: str
    arguments: str   # the crate of its arguments, where its page of help is
    options: tuple   # its options, as the product has them
    made: tuple      # the endings of what it makes of a file
    convert: tuple   # the arguments with which it converts a register

    @property
    def crate(self):
        return self.name.replace("-", "_")

    @property
    def built(self):
        return ROOT / f"crates/{self.crate}/out/current/{self.crate}"

    @property
    def path(self):
        """The program that the command line gave, or else what its launcher runs, which may build it first."""
        given = GIVEN.get(self.name)
        run_first(os.path.realpath(given or ROOT / self.name))
        return os.path.realpath(given or self.built)

    def help(self):
        """The page of help, as the program prints it, without its last end of a line."""
        return "\n".join(FACTS["help"][self.name])


def text_of(name):
    """What a file of the repository holds."""
    return (ROOT / name).read_text("utf-8")


def rows_of(name):
    """The rows of a list with a heading."""
    with open(ROOT / name, encoding="utf-8", newline="") as lines:
        return list(csv.DictReader(lines))


PROGRAMS = tuple(Program(it["name"], it["arguments"], tuple(FACTS[it["options"]]), tuple(it["made"].split()),
                         tuple(it["convert"].split())) for it in rows_of("check/programs.csv"))

def said_by_help():
    """What a page of help has to say of the refusals, the causes and the options with values, whatever its line breaks
    are: their sentences, and the values and defaults."""
    for it in [*FACTS["refusals"], *FACTS["causes"]]:
        yield f"{it['number']} {it['sentence']}"
    all_targets, calendars = FACTS["targets"]["all"], {it["name"] for it in FACTS["calendars"]}
    without = sorted(set(all_targets) - set(FACTS["targets"]["default"]))
    for it in FACTS["options"]:
        name, words, default = it["name"], it["words"], it["default"]
        if "," in (default or ""):
            yield (f"--{name} {it['value']} the columns, in the order wanted, separated by commas: calendars, "
                   f"{', '.join(it for it in all_targets if it not in calendars)}; or the word {words[-1]}. "
                   f"Without it: {'all but ' if without else 'all'}{', '.join(without)}, in the order above.")
        elif words:
            yield f"{', '.join(words[:-1])} or {words[-1]}. Without it: {default}."
        elif it["most"] is not None:
            yield f"{it['least']} to {it['most']}. Without it: {default or 'what fits the machine'}."


# ---- to start programs


@dataclasses.dataclass(frozen=True)
class Ran:
    """How a command ended, and what it wrote to standard output and standard error."""
    status: int
    output: str
    errors: str = ""


def run(words, text="", seconds=600, **how):
    """Runs a command on a text to its end. After ten minutes, or where this check is ended before, what it started is
    ended too."""
    words = [str(word).encode(*BYTES) for word in ("timeout", "--kill-after=10", seconds, *words)]
    how = {"stdin": subprocess.PIPE if text else subprocess.DEVNULL, "stdout": subprocess.PIPE,
           "stderr": subprocess.PIPE} | how
    with subprocess.Popen(words, **how) as process:
        try:
            written = process.communicate(text.encode(*BYTES) if text else None)
        except BaseException:
            process.terminate()
            raise
    output, errors = ((it or b"").decode(*BYTES) for it in written)
    return Ran(process.returncode, output + "no end in time\n" * (process.returncode in (124, 137)), errors)


def shown(words, **how):
    """The status of a command, and what it prints to standard output or standard error."""
    ran = run(words, stderr=subprocess.STDOUT, **how)
    return ran.status, ran.output


def told(status, output="", errors="", files=()):
    """What came of a run, in one text; of files, what they hold."""
    parts = [("standard output", output), ("standard error", errors), *sorted(dict(files).items())]
    return f"status {status}\n" + "\n".join(f"[{name}]\n{text}." for name, text in parts)


@functools.cache
def run_first(path):
    """Runs a program a first time, which ends in six hours, in a folder of its own: a wrong one may write."""
    with tempfile.TemporaryDirectory() as folder:
        if run([path, "--help"], seconds=6 * 3600, cwd=folder).status:
            raise OSError(f"{path} does not run")


def loaded(name):
    """A check, as a module."""
    loader = importlib.machinery.SourceFileLoader(name, str(ROOT / "check" / name))
    module = importlib.util.module_from_spec(importlib.util.spec_from_loader(name, loader))
    loader.exec_module(module)
    return module


def write_script(path, text):
    """Writes a program in another language, and gives its path."""
    path.write_text(text, "utf-8")
    path.chmod(0o755)
    return path


def wait_for(seconds, is_so):
    """Waits until something is so, and returns whether it is."""
    end = time.monotonic() + seconds
    while not is_so() and time.monotonic() < end:
        time.sleep(0.1)
    return is_so()


# ---- to try them


def note(what):
    """Writes for check/named what is compared, and the lines that led there in its test, where PLACES names a file."""
    if not os.environ.get("PLACES"):
        return
    lines, frame = [], sys._getframe(1)
    while frame:
        *_, folder, name = pathlib.Path(frame.f_code.co_filename).resolve().parts
        if folder in ("check", "page") and name != "trials.py" and frame.f_code.co_name != "<module>":
            lines.append(f"{folder}/{name}:{frame.f_lineno}")
        frame = None if frame.f_code.co_name.startswith("test_") else frame.f_back
    trial, name = "/".join(pathlib.Path(sys.argv[0]).resolve().parts[-2:]), what.partition("\n")[0]
    if lines:
        with open(os.environ["PLACES"], "a", encoding="utf-8", errors="backslashreplace") as places:
            places.write(f"{trial}\t{' '.join(lines)}\t{name}\n")


class Trials(unittest.TestCase):
    """Tests of which each comparison is a trial, named by what it shows."""

    def compare(self, what, expected, came):
        """Tries whether a value came, or comes of a call, and returns whether it did. Where the command line has words
        for the names of trials, those without are left out."""
        if GIVEN["cases"] and not any(word in what for word in GIVEN["cases"]):
            return True
        note(what)
        with self.subTest(what=what):
            came = came() if callable(came) else came
            if expected != came:
                self.fail(difference(expected, came))
            return True
        return False

    def new_folder(self, *programs):
        """A new folder, which goes with the test; with programs under their names, and then the examples too."""
        folder = tempfile.TemporaryDirectory()
        self.addCleanup(folder.cleanup)
        path = pathlib.Path(folder.name).resolve()
        for program in programs:
            (path / program.name).symlink_to(program.path)
            shutil.copytree(ROOT / "examples", path / "examples", dirs_exist_ok=True)
        return path

    def need(self, *tools):
        """Leaves out the rest of a test where a tool is not there."""
        for tool in tools:
            if not shutil.which(tool):
                self.skipTest(f"{tool} is not there")

    def fails(self, test, **given):
        """Whether a test of this kind fails with other programs, of which nothing is shown."""
        result = unittest.TestResult()
        with unittest.mock.patch.dict(GIVEN, {"cases": [], **given}):
            type(self)(test).run(result)
        return not result.wasSuccessful()


def difference(expected, came):
    """What differs between two values, by lines."""
    lines = [(it if isinstance(it, str) else pprint.pformat(it, width=120)).split("\n") for it in (expected, came)]
    told = difflib.unified_diff(*lines, "expected", "came", lineterm="")
    return "\n".join(line[:1000] for line in itertools.islice(told, 60)) or f"{expected!r} is not {came!r}"


class Counted(unittest.TextTestResult):
    """Counts trials, and tells at once which fail."""
    passed = failed = 0

    def count(self, name, error):
        self.passed, self.failed = self.passed + (not error), self.failed + bool(error)
        if error:
            is_told = issubclass(error[0], AssertionError)
            print(f"FAILED: {name}", str(error[1]) if is_told else "".join(traceback.format_exception(*error)),
                  sep="\n",
                  file=self.stream, flush=True)

    def addSubTest(self, test, subtest, error):
        self.count(subtest.params["what"], error)

    def addFailure(self, test, error):
        self.count(test.id(), error)

    addError = addFailure

    def addSkip(self, test, reason):
        print(f"not tried, since {reason}: {test.shortDescription()}", file=self.stream, flush=True)

    def wasSuccessful(self):
        return not self.failed


def counted(tests, stream):
    """Runs tests, and gives what was counted."""
    return unittest.TextTestRunner(stream, verbosity=0, resultclass=Counted).run(unittest.TestSuite(tests))


class Itself(Trials):
    """What tries the comparison itself."""

    def test_comparison(self):
        self.compare("two texts that differ", "one", "other")
        self.compare("two texts that are one", "one", "one")

    def test_left_out(self):
        """A test that a tool is missing for."""
        self.need("no such tool")
        self.compare("what is not tried", "one", "one")

    def test_broken(self):
        raise OSError("what breaks a test off")


def end_on_signals():
    """Lets this program end as by an interrupt where it is asked to end, so that it clears up. What it starts takes
    such signals, also where this program was started without."""
    for number in (signal.SIGINT, signal.SIGTERM, signal.SIGHUP):
        signal.signal(number, signal.default_int_handler)


def tests_of(check):
    """The tests of a check, in their order."""
    kinds = [it for it in vars(check).values() if isinstance(it, type) and issubclass(it, Trials)
             and it.__module__ == check.__name__]
    return [kind(name) for kind in kinds for name in vars(kind) if name.startswith("test_")]


def main():
    """Runs the tests of a check, prints the counts of its trials, and ends."""
    end_on_signals()
    sys.stdout.reconfigure(encoding="utf-8", errors="backslashreplace", line_buffering=True)
    check, itself = sys.modules["__main__"], io.StringIO()
    parser = argparse.ArgumentParser(description=check.__doc__, formatter_class=argparse.RawDescriptionHelpFormatter)
    parser.add_argument("cases", nargs="*", metavar="CASE",
                        help="only tests, or else trials, with such a word in their names")
    for program in PROGRAMS:
        parser.add_argument(f"--{program.name}", dest=program.name, metavar="FILE",
                            help="the program, in place of what its launcher builds")
    found = counted(tests_of(sys.modules[Itself.__module__]), itself)
    told = ("FAILED: two texts that differ\n", "not tried, since no such tool is not there: A test",
            "OSError: what breaks")
    if (found.passed, found.failed) != (1, 2) or any(it not in itself.getvalue() for it in told):
        print("FAILED: the comparison of texts", "0 passed, 1 failed", sep="\n")
        sys.exit(1)
    GIVEN.update(vars(parser.parse_args()))
    tests = tests_of(check)
    chosen = [test for test in tests if any(word in test.id().rpartition(".")[2] for word in GIVEN["cases"])]
    if chosen:
        GIVEN["cases"] = []
    try:
        found = counted(chosen or tests, sys.stdout)
    except KeyboardInterrupt:
        sys.exit(130)
    is_lost = bool(GIVEN["cases"]) and not found.passed + found.failed
    if is_lost:
        print("no trial has this in its name:", *GIVEN["cases"])
    print(f"{found.passed} passed, {found.failed} failed")
    sys.exit(found.failed > 0 or is_lost)
