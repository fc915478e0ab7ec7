"""Prints a record of a register by its number, which stands in the column `row` of its table.

Usage: python3 examples/record.py FILE NUMBER [comma|semicolon|tab]
"""

import csv, itertools, sys

DELIMITERS = {"comma": ",", "semicolon": ";", "tab": "\t", "\\t": "\t"}

arguments = sys.argv[1:]
if not 2 <= len(arguments) <= 3 or not arguments[1].isdecimal():
    sys.exit(__doc__)
file, number, word = (arguments + ["comma"])[:3]
delimiter = DELIMITERS.get(word, word)
if len(delimiter) != 1:
    sys.exit(__doc__)
csv.field_size_limit(sys.maxsize)
with open(file, newline="", encoding="utf-8-sig", errors="replace") as text:
    # A blank line is no record, and record 0 is the header.
    records = (record for record in csv.reader(text, delimiter=delimiter) if record)
    print(next(itertools.islice(records, int(number), None), "there is no such record"))
