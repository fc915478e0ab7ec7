"""Stand-ins for tools that are not there, of which the documents have command lines."""

# `parallel -a LIST --joblog JOBS COMMAND` runs the command for each line of the list, one after the other, and writes what
# came of each; with --retry-failed it runs those again that failed.
PARALLEL = r'''#!/usr/bin/env python3
import shlex, subprocess, sys
words = sys.argv[1:]
log = words[words.index("--joblog") + 1]
if "--retry-failed" in words:
    with open(log) as lines:
        last = {line.split("\t")[0]: line.rstrip("\n").split("\t") for line in list(lines)[1:]}
    jobs = [(seq, it[8]) for seq, it in last.items() if it[6:8] != ["0", "0"]]
else:
    with open(words[words.index("-a") + 1]) as lines:
        jobs = [(k, words[-1].replace("{}", shlex.quote(line.rstrip("\n")))) for k, line in enumerate(lines, 1)]
    with open(log, "w") as file:
        print(*"Seq Host Starttime JobRuntime Send Receive Exitval Signal Command".split(), sep="\t", file=file)
for seq, command in jobs:
    status = subprocess.run(["bash", "-c", command]).returncode
    ended = (status, 0) if status < 128 else (0, status - 128)
    with open(log, "a") as file:
        print(seq, ":", 0, 0, 0, 0, *(ended if status >= 0 else (0, -status)), command, sep="\t", file=file)
'''

# As much of pandas as examples/dates.py needs: tables of texts, rows by a condition, and columns by their names.
PANDAS = '''import csv, io


class Column(list):
    __eq__ = lambda self, other: [it == other for it in self]
    __ne__ = lambda self, other: [it != other for it in self]


class DataFrame:
    def __init__(self, rows, columns):
        self.rows, self.columns = rows, list(columns)

    def __getattr__(self, name):
        return Column(row[self.columns.index(name)] for row in self.rows)

    def __getitem__(self, asked):
        if set(map(type, asked)) == {bool}:
            return DataFrame([row for row, is_asked in zip(self.rows, asked) if is_asked], self.columns)
        return DataFrame([[row[self.columns.index(it)] for it in asked] for row in self.rows], asked)

    def astype(self, kinds):
        return DataFrame([[kinds.get(name, str)(it) for name, it in zip(self.columns, row)] for row in self.rows], self.columns)

    def to_csv(self, *, index):
        text = io.StringIO()
        csv.writer(text).writerows([self.columns, *self.rows])
        return "" if index else text.getvalue()

    def to_string(self, *, index):
        rows = [list(map(str, it)) for it in (self.columns, *self.rows)]
        widths = [max(map(len, it)) for it in zip(*rows)]
        return "" if index else "\\n".join(" ".join(map(str.rjust, it, widths)) for it in rows)


def read_csv(text, *, dtype, keep_default_na):
    columns, *rows = csv.reader(text)
    return DataFrame(rows if dtype is str and not keep_default_na else [], columns)
'''


def has_stand_in(tool, command):
    """Whether a stand-in can run a command line of a tool."""
    return tool == "parallel" and "--sshlogin" not in command and "::::" not in command


def make_stand_ins(folder, tools):
    """Makes those for tools that are not among these, in a folder for the front of PATH and PYTHONPATH."""
    if "parallel" not in tools:
        (folder / "parallel").write_text(PARALLEL, "utf-8")
        (folder / "parallel").chmod(0o755)
    if "pandas" not in tools:
        (folder / "pandas.py").write_text(PANDAS, "utf-8")
