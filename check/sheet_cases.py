"""What check/answers asks register-sheet, and what that has to answer. The days are worked by hand from the calendars'
rules and from published day numbers."""

VERSION = "register-sheet 1.2.0\n"
AT_ODDS = "--tree takes no --date, --three, --calendar, --all, --skip and --delimiter"
NOT_AS_MANY = "give --calendar COLUMN or --all CALENDAR, once or once for each --date"

# What holds where an option is not given, as the page of help says it.
DEFAULTS = {"id": "the number of the record", "order": "year", "short-years": "refuse", "skip": "0", "delimiter": "comma",
            "to": "weekday,gregorian"}

# The first fault of the arguments, whatever their order.
REFUSED = {
    "--all x": "no column of dates: give --date COLUMN",
    " ".join(["--date=1"] * 9): "more than 8 columns of dates",
    "--date=1": NOT_AS_MANY,
    "--date=1 --all=iso --calendar=2": NOT_AS_MANY,
    "--date=1 --date=2 --date=3 --all=iso --all=iso": NOT_AS_MANY,
    "--date=1 --all=mars": "unknown calendar: mars",
    "--date=1 --all=julian/gregorian:1582-02-30": "unknown calendar: julian/gregorian:1582-02-30",
    "--date=1 --all=julian/gregorian": "unknown calendar: julian/gregorian",
    "--date=1 --calendar=2 --else=mars": "unknown calendar: mars",
    "--date=1 --calendar=2 --else=": "unknown calendar: ",
    # A word that means something in dates alone, and the second of two.
    "--date=1 --all=Mai": "unknown calendar: Mai",
    "--date=1 --date=2 --all=O.S. --all=O.Z.": "unknown calendar: O.Z.",
    "--date=1 --all=iso --else=julian": "--else is for --calendar",
    "--date=1 --all=mars --else=julian": "--else is for --calendar",
    "--tree --date=1": AT_ODDS,
    "--tree --calendar=1 --order=x": AT_ODDS,
    "--all=mars --tree": AT_ODDS,
    "--tree --skip=0": AT_ODDS,
    "--tree --three=1,2,3": AT_ODDS,
    "--delimiter=x --tree --register": AT_ODDS,
    "--tree --order=x": "unknown order: x",
    "--tree --register": "--register is for files",
    "--date=1 --all=iso --order=Days": "unknown order: Days",
    "--date=1 --all=iso --short-years=1850": "bad short years: 1850",
    "--date=1 --all=iso --short-years=2100": "bad short years: 2100",
    "--date=1 --all=iso --short-years=0": "bad short years: 0",
    "--date=1 --all=iso --short-hebrew-years=4000": "bad short Hebrew years: 4000",
    "--date=1 --all=iso --short-other-years=1350": "bad short years of other calendars: 1350",
    "--date=1 --all=iso --short-other-years=2100": "bad short years of other calendars: 2100",
    "--date=1 --all=iso --short-other-years=0": "bad short years of other calendars: 0",
    "--date=1 --all=iso --skip=-1": "bad number of records to skip: -1",
    "--date=1 --all=iso --skip=00": "bad number of records to skip: 00",
    "--date=1 --all=iso --delimiter=,": "unknown delimiter: ,",
    "--date=1 --all=iso --to=rd,": "unknown column: ",
    "--date=1 --all=iso '--to=rd,iso, RD'": "column named twice: rd",
    "--date=1 --all=iso --to=none": "unknown column: none",
    "--date=1 --all=iso '--to=church,iso, Church'": "column named twice: church",
    # Three columns are one column of dates.
    "--three=1,2,3": NOT_AS_MANY,
    "--three=1,2,3 --date=1 --date=2 --all=iso --all=iso": NOT_AS_MANY,
    " ".join(["--date=1"] * 8) + " --three=1,2,3": "more than 8 columns of dates",
    "--three=1,2 --all=iso": "bad year, month and day: 1,2",
    "--three=1,2,3,4 --all=iso": "bad year, month and day: 1,2,3,4",
    "--three= --all=iso": "bad year, month and day: ",
    "--three=1 --all=iso --to=x": "unknown column: x",
    "--three=1 --all=iso --register": "bad year, month and day: 1",
    "--date=1 --all=iso --register": "--register is for files",
    "--date=1 --all=iso a b a": "file named twice: a",
    # The first fault in the order of the checks.
    "a a --date=1 --all=iso --to=x": "unknown column: x",
    "--skip=x --date=1 --all=iso --order=x": "unknown order: x",
    "--order=x --all=mars --date=1": "unknown order: x",
    "--short-years=y --order=x --date=1 --all=iso": "unknown order: x",
    "a a --date=1 --all=mars": "file named twice: a",
    "--register --all=mars --date=1": "--register is for files",
    "--short-years=x --short-hebrew-years=y --skip=z --date=1 --all=iso": "bad short years: x",
    "--skip=z --short-other-years=y --short-hebrew-years=x --date=1 --all=iso": "bad short Hebrew years: x",
    "--skip=z --delimiter=y --short-other-years=x --date=1 --all=iso": "bad short years of other calendars: x",
    "--to=x --delimiter=y --skip=z --date=1 --all=iso": "bad number of records to skip: z",
    "--register --to=x --delimiter=y --date=1 --all=iso": "unknown delimiter: y",
    "--register --to=x --date=1 --all=iso": "unknown column: x",
    # How a value is written.
    "--date=1 --all=": "unknown calendar: ",
    "--date=1 --all=iso --order=": "unknown order: ",
    "--date=1 --all=iso --short-years=KEEP": "bad short years: KEEP",
    "--date=1 --all=iso --short-years=": "bad short years: ",
    "--date=1 --all=iso --short-hebrew-years=100": "bad short Hebrew years: 100",
    "--date=1 --all=iso --short-other-years=Keep": "bad short years of other calendars: Keep",
    "--date=1 --all=iso --short-years=keep --short-other-years=": "bad short years of other calendars: ",
    "--date=1 --all=iso --skip=100000": "bad number of records to skip: 100000",
    "--date=1 --all=iso --skip=000001": "bad number of records to skip: 000001",
    "--date=1 --all=iso --skip=+1": "bad number of records to skip: +1",
    "--date=1 --all=iso --skip=": "bad number of records to skip: ",
    "--date=1 --all=iso --delimiter=Tab": "unknown delimiter: Tab",
    "--date=1 --all=iso --to=": "unknown column: ",
    "--date=1 --all=iso --to=weekday,Weekday,x": "column named twice: weekday",
}

# Options that are not written as they are taken: the message is clap's own, and comes before every other fault.
MISUSED = {
    "--bogus": "unexpected argument '--bogus' found",
    "--date=1 --all=mars --bogus": "unexpected argument '--bogus' found",
    "-x.csv": "unexpected argument '-x' found",
    "--date": "a value is required for '--date <COLUMN>' but none was supplied",
    "--three": "a value is required for '--three <YEAR,MONTH,DAY>' but none was supplied",
    "--order": "a value is required for '--order <year|day|month>' but none was supplied",
    "--order day --order day": "the argument '--order <year|day|month>' cannot be used multiple times",
    "--unknown --unknown": "the argument '--unknown' cannot be used multiple times",
    "--tree --tree": "the argument '--tree' cannot be used multiple times",
    "--register=x": "unexpected value 'x' for '--register' found; no more were expected",
}

# A sheet with a date in words and one with a name that is not known, and what comes of it in the order of day and month.
SHEET = "No,Calendar,Date\n7,greg.,12 Mai 1806\n8,greg.,1 Meyo 1700\n"
CONVERTED = """\
No,Calendar,Date,weekday,gregorian,refusal
7,greg.,12 Mai 1806,Monday,1806-05-12,
8,greg.,1 Meyo 1700,,,5
"""
REGISTER = "id,calendar,date\n7,gregorian,1806-5-12\n8,gregorian,1 Meyo 1700\n"
UNKNOWN = "name,means,in,count\nMeyo,?,gregorian,1\n"
COLUMNS = "--date Date --calendar Calendar"

# Options with which nothing is read.
VERSIONS = ("--version", "-V", "--version --help", "--skip=x --version --bogus")

# A date for each reason why dates stay, and a Roman one that is converted: 25 February 1944 in the Julian calendar, which is
# 9 March in the Gregorian one, a Thursday. 12 May 1806 was a Monday.
STAYING = """\
d,c
12 Mai 1806,
Mai 1806,gregorian
1806,gregorian
12 Mai,gregorian
12 Mai 1806 (,gregorian
15.3.-144,gregorian
-3 Mai 1806,gregorian
"Sonntag, 12. Mai 1806",gregorian
18.2.1799,french
12 Mai Mai 1806,gregorian
1944-3-K6B,roman
,gregorian
"""
STAYED = """\
d,c,weekday,gregorian,refusal
12 Mai 1806,,,,4
Mai 1806,gregorian,,,5
1806,gregorian,,,5
12 Mai,gregorian,,,5
12 Mai 1806 (,gregorian,,,5
15.3.-144,gregorian,,,5
-3 Mai 1806,gregorian,,,5
"Sonntag, 12. Mai 1806",gregorian,,,5
18.2.1799,french,,,5
12 Mai Mai 1806,gregorian,,,5
1944-3-K6B,roman,Thursday,1944-03-09,
,gregorian,,,5
"""
# How many dates each reason has here, where there is one more and where there is one less, is said in other words.
TWICE = [
    "12 Mai 1806,", "Mai 1806,gregorian", "12 Mai,gregorian", "12 Mai 1806 (,gregorian", "-3 Mai 1806,gregorian",
    '"Sonntag, 12. Mai 1806",gregorian', "18.2.1799,french", "12 Mai Mai 1806,gregorian"]
TWICE_REASONS = [f"standard input: {line}" for line in (
    "2 dates have no calendar", "1 date has no day", "2 dates have no year", "2 dates have a character that no date has",
    "1 date has a minus in front of a number", "2 dates name another weekday",
    "2 dates have a year that the French Republic did not have", "2 dates are no dates of their calendars")]
REASONS = [f"standard input: {line}" for line in (
    "1 date has no calendar", "2 dates have no day", "1 date has no year", "1 date has a character that no date has",
    "2 dates have a minus in front of a number", "1 date names another weekday",
    "1 date has a year that the French Republic did not have", "1 date is no date of its calendar")]
STAYING_COLUMNS = "--date d --calendar c --order day --names weekdays.csv"

# Short years of several calendars. Days of the years 41 and 1341 by the epochs and rules of docs/DEFINITIONS.md.
OTHERS = """\
d,c
12.5.41,islamic
12.5.41,coptic
12.5.41,ethiopic
12.5.41,armenian
12.5.41,julian
12.5.41,hebrew
"""
OTHERS_COLUMNS = "--date d --calendar c --order day --to gregorian"

TWO_DATES = "title\n a ;b\n1001-1-1;1001-1-1\nx;1001-1-1\n"
TWO_CONVERTED = """\
title
 a ;b; a  rd; a  refusal;b rd;b refusal
1001-1-1;1001-1-1;365249;;365243;
x;1001-1-1;;5;365243;
"""
TWO_COLUMNS = "--skip 1 --date a --date b --all julian --all gregorian --delimiter semicolon --to rd"

EIGHT = "a,b,c,d,e,f,g,h"
EIGHT_COLUMNS = " ".join(["--all=julian", *(f"--date={it}" for it in EIGHT.split(","))])

# Dates that say no single day; days and weekdays by Python's datetime.
SPANS = "No,Date\n1,12 Mai 1806\n2,Mai 1806\n3,ca. 1750\n4,vor 12.5.1806\n5,31.4.1801 bis 5.5.1801\n6,1755-1750\n7,\n"
SPANS_CONVERTED = """\
No,Date,first weekday,first gregorian,last weekday,last gregorian,edtf,mark,refusal
1,12 Mai 1806,Monday,1806-05-12,Monday,1806-05-12,1806-05-12,,
2,Mai 1806,Thursday,1806-05-01,Saturday,1806-05-31,1806-05,,
3,ca. 1750,Thursday,1750-01-01,Thursday,1750-12-31,1750~,about,
4,vor 12.5.1806,,,Sunday,1806-05-11,../1806-05-11,before,
5,31.4.1801 bis 5.5.1801,,,Tuesday,1801-05-05,,,6
6,1755-1750,,,,,,,5
7,,,,,,,,5
"""
SPANS_FIRST = ("id,calendar,date\n1,gregorian,1806-5-12\n2,gregorian,1806-5-1\n3,gregorian,1750-1-1\n4,gregorian,\n"
               "5,gregorian,1801-4-31\n6,gregorian,1755-1750\n7,gregorian,\n")
SPANS_LAST = ("id,calendar,date\n1,gregorian,1806-5-12\n2,gregorian,1806-5-31\n3,gregorian,1750-12-31\n"
              "4,gregorian,1806-05-11\n5,gregorian,1801-5-5\n6,gregorian,1755-1750\n7,gregorian,\n")
SPANS_COLUMNS = "--date Date --all gregorian --order day"

# Dates in both styles: of one day, with a month and a year for both; of one day; of two days; and in one style.
STYLES = "No,Style,Date\n1,stary/nowy,10/22 stycznia 1863\n2,both,29.12.1863/10.1.1864\n3,both,10/23 stycznia 1863\n"
STYLES_CONVERTED = """\
No,Style,Date,weekday,gregorian,refusal
1,stary/nowy,10/22 stycznia 1863,Thursday,1863-01-22,
2,both,29.12.1863/10.1.1864,Sunday,1864-01-10,
3,both,10/23 stycznia 1863,,,5
"""
STYLES_REGISTER = ("id,calendar,date\n1,gregorian,1863-1-22\n2,gregorian,1864-1-10\n"
                   "3,gregorian,10/23 stycznia 1863\n")
STYLES_COLUMNS = "--date Date --calendar Style --order day"

# A family tree with the mark of UTF-8 and dates of its file. The days are those of the reforms of 1700 and 1752, and of the
# calendar of the Republic.
TREE = """\
\ufeff0 HEAD
1 DATE 3 MAR 2020
0 @I1@ INDI
1 NAME Käthe, Böhm
1 BIRT
2 DATE @#DJULIAN@ 10 FEB 1699
2 PLAC Ri
3 CONC ga
1 DEAT
2 DATE @#DHEBREW@ 5 TSH 5507
1 CHAN
2 DATE 4 MAR 2020
0 @F1@ FAM
1 WIFE @I1@
1 MARR
2 DATE @#DFRENCH R@ 18 BRUM 8
1 EVEN
2 TYPE Umzug
2 DATE ABT 1720
1 EVEN
2 DATE 9.11.1799
0 TRLR
"""
TREE_CONVERTED = """\
record,name,partner,event,part,type,place,calendar,date,gregorian,refusal
@I1@,"Käthe, Böhm",,BIRT,,,Riga,julian,10 FEB 1699,1699-02-20,
@I1@,"Käthe, Böhm",,DEAT,,,,hebrew,5 TSH 5507,1746-09-19,
@F1@,,"Käthe, Böhm",MARR,,,,republican,18 BRUM 8,1799-11-09,
@F1@,,"Käthe, Böhm",EVEN,,Umzug,,gregorian,ABT 1720,,5
@F1@,,"Käthe, Böhm",EVEN,,,,gregorian,9.11.1799,1799-11-09,
"""
TREE_REGISTER = """\
id,calendar,date
@I1@,julian,1699-2-10
@I1@,hebrew,5507-7-5
@F1@,republican,8-2-18
@F1@,gregorian,ABT 1720
@F1@,gregorian,1799-11-9
"""

FILES = {
    "tree.ged": TREE,
    "spans.csv": SPANS, "styles.csv": STYLES, "old-style.csv": "name,means,in\nstary/nowy,julian,\nO.S.,both,\n",
    "a.csv": SHEET, "marked.csv": f"\ufeff{SHEET}", "c.csv": SHEET, "own.csv": SHEET, "two.csv": TWO_DATES, "empty.csv": "",
    "swedish.csv": "name,means,in\nschwedisch,julian,\n",
    "names.csv": "name,means,in\nMeyo,month 5,\n", "weekdays.csv": "name,means,in\nSonntag,weekday 0,\n",
    "other.csv": "name,means,in\nMeyo,month 6,\nJuno,month 7,\n",
    "periods.csv": "name,means,in\nJh,century 1,\nsiglo,century 0,\nLenz,months 3-5,\ns,decade,\n",
    "own.csv.unknown.csv": "name,means,in\nMeyo,month 5,\n",
    "bad.csv": "name,means,in\nMeyo,month 5,\nJuni,six,\n",
    "large.csv": "name,means,in\nviel,999999999,\n", "larger.csv": "name,means,in\nviel,1000000000,\n",
    "in.csv": "name,means,in\nMeyo,month 5,mars\n", "both.csv": "name,means,in\nMeyo,mai,mars\n",
    "sign.csv": "name,means,in\nMeyo(,julian,\nMai(,month 6,\n", "empty-name.csv": "name,means,in\n.,month 6,\n",
}
FOLDERS = ("c.csv.dates.csv",)


def lines(*said):
    return "".join(f"register-sheet: {line}\n" for line in said)


def not_known(name):
    return f"{name}: 1 date has a name that is not known: --unknown lists it"


def both_times():
    """The sheet of dates that stay, one or two for a reason, the status and what comes of it."""
    dates = [date for date in TWICE for _ in range(1 if date[0] in "M-" else 2)]
    refused = [f"{date},,,{'4' if date.endswith(',') else '5'}\n" for date in dates]
    return "d,c\n" + "".join(f"{date}\n" for date in dates), 0, "d,c,weekday,gregorian,refusal\n" + "".join(refused)


def unlisted(more):
    """A sheet with so many names more than are listed, the status and the list."""
    letters = "bcdfghjklm"
    names = [f"zz{a}{b}{c}" for a in letters for b in letters for c in letters] + ["zzy", "zzz"][:more]
    sheet = "d\n" + "".join(f"1. {name} 1700\n" for name in names)
    listed = "name,means,in,count\n" + "".join(f"{name},?,julian,1\n" for name in names[:1000])
    return "--date 1 --all julian --order day --unknown", sheet, 0, listed


# The arguments, standard input, the status, standard output and standard error.
STREAMS = [
    *((words, "", 0, VERSION, "") for words in VERSIONS),
    (f"{COLUMNS} --order day", SHEET, 0, CONVERTED, lines(not_known("standard input"))),
    # An order in letters of any case.
    ("--date d --all gregorian --order MONTH --to gregorian", "d\n5/12/1806\n", 0,
     "d,gregorian,refusal\n5/12/1806,1806-05-12,\n", ""),
    ("--date d --all gregorian --order Day --to gregorian", "d\n5/12/1806\n", 0,
     "d,gregorian,refusal\n5/12/1806,1806-12-05,\n", ""),
    ("--date d --all gregorian --order yeaR --to gregorian", "d\n1806/5/12\n", 0,
     "d,gregorian,refusal\n1806/5/12,1806-05-12,\n", ""),
    # A column by its number, one calendar for all, the columns asked, and what the user's list adds.
    ("--date=3 '--all= Gregorian' '--to=RD, iso' --names names.csv --summary", SHEET, 0,
     "No,Calendar,Date,rd,iso,refusal\n"
     "7,greg.,12 Mai 1806,659394,1806-W20-1,\n"
     "8,greg.,1 Meyo 1700,620668,1700-W17-6,\n", lines("standard input: 2 records, refused: 0, empty: 0")),
    # A change of calendars, as one for all, for empty fields, and by a list; the day before 15 October 1582 was 4 October.
    ("--date d --all julian/gregorian:1582-10-15 --order day --to rd,gregorian,julian",
     "d\n4.10.1582\n10.10.1582\n15.10.1582\n", 0,
     "d,rd,gregorian,julian,refusal\n4.10.1582,577735,1582-10-14,1582-10-04,\n10.10.1582,,,,6\n"
     "15.10.1582,577736,1582-10-15,1582-10-05,\n", ""),
    ("--date d --calendar c --else julian/gregorian:1752-09-14 --to rd",
     "d,c\n1752-09-02,\n1752-09-14, \n1752-09-02,gregorian\n", 0,
     "d,c,rd,refusal\n1752-09-02,,639796,\n1752-09-14, ,639797,\n1752-09-02,gregorian,639785,\n", ""),
    ("--date d --calendar c --else both --to gregorian", "d,c\n10/22 January 1863,\n", 0,
     "d,c,gregorian,refusal\n10/22 January 1863,,1863-01-22,\n", ""),
    # Calendars by the names of lists, as in a column of calendars: letters of any case, blanks at the ends, the user's list
    # before the built-in one. 1 January 1700 in the Julian calendar was 11 January in the Gregorian one.
    ("--date d --all O.S. --to gregorian", "d\n1700-1-1\n", 0, "d,gregorian,refusal\n1700-1-1,1700-01-11,\n", ""),
    ("--date d '--all= СТ. СТ. ' --to gregorian", "d\n1700-1-1\n", 0, "d,gregorian,refusal\n1700-1-1,1700-01-11,\n", ""),
    ("--date d --all=greg. --to julian", "d\n1700-1-11\n", 0, "d,julian,refusal\n1700-1-11,1700-01-01,\n", ""),
    ("--date d --calendar c --else o.s. --to gregorian", "d,c\n1700-1-1,\n1700-1-1,greg.\n", 0,
     "d,c,gregorian,refusal\n1700-1-1,,1700-01-11,\n1700-1-1,greg.,1700-01-01,\n", ""),
    ("--date d --all O.S. --to gregorian --names old-style.csv", "d\n10/22 stycznia 1863\n", 0,
     "d,gregorian,refusal\n10/22 stycznia 1863,1863-01-22,\n", ""),
    ("--date d --all Schwedisch --to gregorian --names swedish.csv", "d\n1700-1-1\n", 0,
     "d,gregorian,refusal\n1700-1-1,1700-01-11,\n", ""),
    # Lists of names: that of the first stands before the others. A word is month 5 by the one, and month 6 by the other.
    ("--date 1 --all gregorian --order day --to gregorian --names names.csv --names other.csv",
     "d\n2 Meyo 1806\n2 Juno 1806\n", 0, "d,gregorian,refusal\n2 Meyo 1806,1806-05-02,\n2 Juno 1806,1806-07-02,\n", ""),
    ("--date 1 --all gregorian --order day --to gregorian --names=other.csv --names=names.csv",
     "d\n2 Meyo 1806\n2 Juno 1806\n", 0, "d,gregorian,refusal\n2 Meyo 1806,1806-06-02,\n2 Juno 1806,1806-07-02,\n", ""),
    # Two columns of dates with a calendar for each, blanks round a name, records above, and a delimiter.
    (f"{TWO_COLUMNS} --summary", TWO_DATES, 0, TWO_CONVERTED,
     lines(not_known("standard input"), "standard input: 2 records, refused: 1, 0, empty: 0, 0")),
    # Short years.
    ("--date 1 --all julian --short-years 1800 --to julian", "d\n06-5-12\n", 0,
     "d,julian,refusal\n06-5-12,1806-05-12,\n", ""),
    ("--date 1 --all julian --to julian", "d\n06-5-12\n", 0, "d,julian,refusal\n06-5-12,,5\n",
     lines("standard input: 1 date has a short year and is left empty: see --short-years")),
    # The first and the last century that can be given.
    *((f"--date 1 --all julian --short-years {it} --to julian", "d\n06-5-12\n", 0,
       f"d,julian,refusal\n06-5-12,{year}-05-12,\n", "") for it, year in ((100, "0106"), (2000, "2006"))),
    *((f"--date 1 --all coptic --short-other-years {it} --to coptic", "d\n06-5-12\n", 0,
       f"d,coptic,refusal\n06-5-12,{year}-05-12,\n", "") for it, year in ((100, "0106"), (2000, "2006"))),
    # Of other calendars: a century for them alone; where short years are kept and nothing else is said; and where it is.
    (f"{OTHERS_COLUMNS} --short-other-years 1300", OTHERS, 0,
     "d,c,gregorian,refusal\n12.5.41,islamic,1922-12-31,\n12.5.41,coptic,1625-01-17,\n12.5.41,ethiopic,1349-01-15,\n"
     "12.5.41,armenian,1892-01-01,\n12.5.41,julian,,5\n12.5.41,hebrew,,5\n",
     lines("standard input: 2 dates have short years and are left empty: see --short-years")),
    (f"{OTHERS_COLUMNS} --short-years keep", OTHERS, 0,
     "d,c,gregorian,refusal\n12.5.41,islamic,0661-09-16,\n12.5.41,coptic,0325-01-08,\n12.5.41,ethiopic,0049-01-05,\n"
     "12.5.41,armenian,0592-11-11,\n12.5.41,julian,0041-05-10,\n12.5.41,hebrew,,5\n",
     lines("standard input: 1 date has a short year and is left empty: see --short-years")),
    (f"{OTHERS_COLUMNS} --short-years keep --short-other-years refuse", OTHERS, 0,
     "d,c,gregorian,refusal\n12.5.41,islamic,,5\n12.5.41,coptic,,5\n12.5.41,ethiopic,,5\n12.5.41,armenian,,5\n"
     "12.5.41,julian,0041-05-10,\n12.5.41,hebrew,,5\n",
     lines("standard input: 5 dates have short years and are left empty: see --short-years")),
    (f"{OTHERS_COLUMNS} --short-years 1700", OTHERS, 0,
     "d,c,gregorian,refusal\n12.5.41,islamic,,5\n12.5.41,coptic,,5\n12.5.41,ethiopic,,5\n12.5.41,armenian,,5\n"
     "12.5.41,julian,1741-05-23,\n12.5.41,hebrew,,5\n",
     lines("standard input: 5 dates have short years and are left empty: see --short-years")),
    # Years of the Spanish era and of the creation of the world, and one behind a word for year.
    ("--date d --calendar c --order day --to gregorian",
     "d,c\n5. Mai anno 75,greg.\n\"5 de mayo, era de 1381\",jul.\n7157 года от сотворения мира сентября 1,ст. ст.\n", 0,
     "d,c,gregorian,refusal\n5. Mai anno 75,greg.,0075-05-05,\n\"5 de mayo, era de 1381\",jul.,1343-05-13,\n"
     "7157 года от сотворения мира сентября 1,ст. ст.,1648-09-11,\n", ""),
    # The Sunday or feast of a day, in the church year of its calendar alone. Easter was on 9 April 1699, Julian, four weeks
    # after Oculi, and on 27 March 1712, Gregorian, which is that Coptic day.
    ("--date d --calendar c --order day --to weekday,church,gregorian",
     "d,c\n12 März 1699,julian\n12 März 1699,gregorian\n27 März 1712,gregorian\n20.7.1428,coptic\n,julian\n", 0,
     "d,c,weekday,church,gregorian,refusal\n12 März 1699,julian,Sunday,Dominica Oculi,1699-03-22,\n"
     "12 März 1699,gregorian,Thursday,,1699-03-12,\n27 März 1712,gregorian,Sunday,Pascha,1712-03-27,\n"
     "20.7.1428,coptic,Sunday,,1712-03-27,\n,julian,,,,5\n", ""),
    # The names that are not known.
    (f"{COLUMNS} --unknown", SHEET, 0, UNKNOWN, ""),
    # Why dates stay.
    (STAYING_COLUMNS, STAYING, 0, STAYED, lines(*REASONS)),
    # Of the dates that are refused one is empty; and nothing is said of records of blanks alone.
    (f"{STAYING_COLUMNS} --summary", STAYING, 0, STAYED,
     lines(*REASONS, "standard input: 12 records, refused: 10, empty: 1")),
    ("--date d --calendar c --to rd --summary", "d,c\n1 Mai 1806,gregorian\n , \n,\n,gregorian\n", 0,
     "d,c,rd,refusal\n1 Mai 1806,gregorian,659383,\n , ,,4\n,,,4\n,gregorian,,5\n",
     lines("standard input: 2 records, refused: 0, empty: 1")),
    (f"{STAYING_COLUMNS} --unknown", STAYING, 0, "name,means,in,count\n", lines(*REASONS)),
    (STAYING_COLUMNS, *both_times(), lines(*TWICE_REASONS)),
    # Years that stand last, of one date and of more, but for those that no order of numbers helps.
    ("--date d --all gregorian --to gregorian", "d\n12.5.1806\n1806-5-12\n12.5/1806\n", 0,
     "d,gregorian,refusal\n12.5.1806,,5\n1806-5-12,1806-05-12,\n12.5/1806,,5\n",
     lines("standard input: 1 date has the year last: see --order", "standard input: 1 date is no date of its calendar")),
    ("--date d --all gregorian --unknown", "d\n12.5.1806\n5/31/1806\n", 0, "name,means,in,count\n",
     lines("standard input: 2 dates have the year last: see --order")),
    # Short years, and names that are not known, of more than one date.
    ("--date 1 --all julian --to julian", "d\n06-5-12\n7-5-12\n", 0, "d,julian,refusal\n06-5-12,,5\n7-5-12,,5\n",
     lines("standard input: 2 dates have short years and are left empty: see --short-years")),
    (*unlisted(0), ""),
    (*unlisted(1), lines("standard input: 1 date has a name that is not among the first 1000, which are listed")),
    (*unlisted(2), lines("standard input: 2 dates have names that are not among the first 1000, which are listed")),
    ("--date d --all julian --order day --to julian", "d\n1. zza 1700\n2. zzb 1700\n", 0,
     "d,julian,refusal\n1. zza 1700,,5\n2. zzb 1700,,5\n",
     lines("standard input: 2 dates have names that are not known: --unknown lists them")),
    # Dates with a first and a last day, and without the text of EDTF.
    (f"{SPANS_COLUMNS} --spans --edtf", SPANS, 0, SPANS_CONVERTED,
     lines("standard input: 1 date is no date of its calendar")),
    (f"{SPANS_COLUMNS} --spans --to rd", "Date\nMai 1806\n", 0,
     "Date,first rd,last rd,mark,refusal\nMai 1806,659383,659413,,\n", ""),
    # Centuries, parts of years and tens of years, by a list; and a text that says no date, and so has no day.
    (f"{SPANS_COLUMNS} --spans --edtf --to gregorian --names periods.csv",
     "Date\n18. Jh.\nsiglo XVIII\nLenz 1806\n1790s\no. D.\n", 0,
     "Date,first gregorian,last gregorian,edtf,mark,refusal\n18. Jh.,1701-01-01,1800-12-31,[1701..1800],,\n"
     "siglo XVIII,1700-01-01,1799-12-31,[1700..1799],,\nLenz 1806,1806-03-01,1806-05-31,[1806-03..1806-05],,\n"
     "1790s,1790-01-01,1799-12-31,[1790..1799],,\no. D.,,,,undated,5\n", ""),
    # How many are no single day: a month, a year, and what ends before a day.
    (f"{SPANS_COLUMNS} --edtf --summary", SPANS, 0, SPANS_CONVERTED,
     lines("standard input: 1 date is no date of its calendar",
           "standard input: 7 records, refused: 2, empty: 1, spans: 3")),
    # Dates in both styles, and lists of names that hold before the built-in one.
    (f"{STYLES_COLUMNS} --summary", STYLES, 0, STYLES_CONVERTED,
     lines("standard input: 1 date is no date of its calendar", "standard input: 3 records, refused: 1, empty: 0")),
    (f"{STYLES_COLUMNS} --to gregorian --names old-style.csv",
     "Style,Date\nO.S.,10/22 stycznia 1863\nstary/nowy,10/22 stycznia 1863\n", 0,
     "Style,Date,gregorian,refusal\nO.S.,10/22 stycznia 1863,1863-01-22,\n"
     "stary/nowy,10/22 stycznia 1863,,5\n", lines("standard input: 1 date is no date of its calendar")),
    ("--date d --all julian --spans --to gregorian", "d\n12/24 Mai 1806\n12/25 Mai 1806\n", 0,
     "d,first gregorian,last gregorian,mark,refusal\n12/24 Mai 1806,1806-05-24,1806-05-24,,\n12/25 Mai 1806,,,,5\n",
     lines("standard input: 1 date is no date of its calendar")),
    # Family trees: a date by the order of its day and month, and of its month and day; and texts that are none.
    ("--tree --to gregorian --summary", TREE, 0, TREE_CONVERTED,
     lines("standard input: 1 date is no date of its calendar", "standard input: 5 records, refused: 1, empty: 0")),
    ("--tree --to gregorian --order month", "0 HEAD\n0 @A@ INDI\n1 BIRT\n2 DATE 9.11.1799", 0,
     "record,name,partner,event,part,type,place,calendar,date,gregorian,refusal\n"
     "@A@,,,BIRT,,,,gregorian,9.11.1799,1799-09-11,\n", ""),
    ("--tree --to rd --spans", "0 HEAD\n0 @A@ INDI\n1 BIRT\n2 DATE MAY 1806\n", 0,
     "record,name,partner,event,part,type,place,calendar,date,first rd,last rd,mark,refusal\n"
     "@A@,,,BIRT,,,,gregorian,MAY 1806,659383,659413,,\n", ""),
    ("--tree --unknown", "0 HEAD\n0 @A@ INDI\n1 BIRT\n2 DATE 9 Meyo 1799", 0, "name,means,in,count\nMeyo,?,gregorian,1\n", ""),
    ("--tree --id gender", "0 HEAD\n", 1, "",
     lines("standard input: no column gender: the columns are record, name, partner, event, part, type, place, calendar, date")),
    ("--tree", SHEET, 1, "", lines("standard input: is no family tree: its first line is not 0 HEAD")),
    ("--tree", "", 1, "", lines("standard input: is no family tree: its first line is not 0 HEAD")),
    ("--tree", "0 HEAD\n1 NOTE K\udce4the\n", 1, "", lines("standard input: is not UTF-8")),
    # As many columns of dates as there may be.
    (f"{EIGHT_COLUMNS} --to rd", f"{EIGHT}\n{','.join(8 * ['1001-1-1'])}\n", 0,
     f"{EIGHT},{','.join(f'{it} rd,{it} refusal' for it in EIGHT.split(','))}\n"
     f"{','.join(8 * ['1001-1-1'] + 8 * ['365249,'])}\n", ""),
    # Dates of three columns, behind all others: of digits, of a name, without blanks at the ends, without a day, of nothing.
    ("--three Jahr,Monat,Tag --all gregorian --order day --to gregorian --spans",
     "Tag,Monat,Jahr\n12,5,1806\n 12 ,Mai,1806\n,Mai,1806 \n,,\n", 0,
     "Tag,Monat,Jahr,Jahr-Monat-Tag,first gregorian,last gregorian,mark,refusal\n"
     "12,5,1806,1806-5-12,1806-05-12,1806-05-12,,\n 12 ,Mai,1806,12 Mai 1806,1806-05-12,1806-05-12,,\n"
     ",Mai,1806 ,Mai 1806,1806-05-01,1806-05-31,,\n,,,,,,,5\n", ""),
    # Beside another column of dates, by numbers, below a title, in records of another length, and in quotes.
    ("--three 1,2,3 --date Tod --skip 1 --all julian --all gregorian --delimiter semicolon --to rd",
     "title\ny;m;\"d;\";Tod\n1001;1;1;1001-1-1\n1001;Mai\n", 0,
     "title\ny;m;\"d;\";Tod;\"y-m-d;\";Tod rd;Tod refusal;\"y-m-d; rd\";\"y-m-d; refusal\"\n"
     "1001;1;1;1001-1-1;1001-1-1;365249;;365243;\n1001;Mai;;;Mai 1001;;5;;5\n",
     lines("standard input: 1 date has no day")),
    # A column of that name is another, and the mark of UTF-8 stays in front.
    ("--three y,m,d --all gregorian --to gregorian", "\ufeffy,m,d,y-m-d\n1806,5,12,x\n", 0,
     "\ufeffy,m,d,y-m-d,y-m-d,gregorian,refusal\n1806,5,12,x,1806-5-12,1806-05-12,\n", ""),
    ("--three y,m,x --all gregorian", "y,m,d\n", 1, "", lines("standard input: no column x: the columns are y, m, d")),
    ("--three y,m,d --date x --all gregorian", "y,m,d\n", 1, "",
     lines("standard input: no column x: the columns are y, m, d, y-m-d")),
    ("--three y,m,d --all gregorian", "", 1, "", lines("standard input: no record with names")),
    # The mark of UTF-8, as Excel writes and wants it: one comes back, above a title too and before a list; of two the second
    # is of the first name, which it makes another; none comes back of a sheet that breaks off before anything is written.
    ("--date d --all gregorian --to gregorian", "\ufeffd\n1806-5-12\n", 0,
     "\ufeffd,gregorian,refusal\n1806-5-12,1806-05-12,\n", ""),
    ("--date d --all gregorian --to gregorian --skip 1", "\ufeff\"a, b\"\nd\n1806-5-12\n", 0,
     "\ufeff\"a, b\"\nd,gregorian,refusal\n1806-5-12,1806-05-12,\n", ""),
    ("--date d --all gregorian --order day --unknown", "\ufeffd\n1. Meyo 1700\n", 0,
     "\ufeffname,means,in,count\nMeyo,?,gregorian,1\n", ""),
    ("--date 1 --all gregorian --to gregorian", "\ufeff\ufeffd\n1806-5-12\n", 0,
     "\ufeff\ufeffd,gregorian,refusal\n1806-5-12,1806-05-12,\n", ""),
    ("--date d --all gregorian", "\ufeff\ufeffd\n1806-5-12\n", 1, "",
     lines("standard input: no column d: the columns are \ufeffd")),
    ("--date a --all gregorian", "\ufeffd\n", 1, "", lines("standard input: no column a: the columns are d")),
    # Sheets that break off.
    ("--date Datum --calendar Calendar", SHEET, 1, "",
     lines("standard input: no column Datum: the columns are No, Calendar, Date")),
    # The first ten names are told.
    ("--date x --all iso", "a,b,c,d,e,f,g,h,i,j\n", 1, "",
     lines("standard input: no column x: the columns are a, b, c, d, e, f, g, h, i, j")),
    ("--date 12 --all iso", "a,b,c,d,e,f,g,h,i,j,k\n", 1, "",
     lines("standard input: no column 12: the columns are a, b, c, d, e, f, g, h, i, j, ..")),
    ("--date 1 --calendar Stil", "a,b\n", 1, "", lines("standard input: no column Stil: the columns are a, b")),
    *((f"--date 4 --all iso --skip {it}", SHEET, 1, "", lines("standard input: no record with names")) for it in (9, 99999)),
    # Lists of names that are none: the first fault in the order of the records, and of one record that of its means.
    ("--date 1 --all iso --names a.csv", "", 3, "", lines("not name,means,in at the head of a.csv")),
    ("--date 1 --all iso --names in.csv", "", 3, "", lines("bad list of names in.csv: in of record 1")),
    ("--date 1 --all iso --names both.csv", "", 3, "", lines("bad list of names both.csv: means of record 1")),
    ("--date 1 --all iso --names sign.csv", "", 3, "", lines("bad list of names sign.csv: name of record 2")),
    ("--date 1 --all iso --names empty-name.csv", "", 3, "", lines("bad list of names empty-name.csv: name of record 1")),
    ("--date 1 --all iso --names none.csv", "", 3, "", lines("cannot open none.csv")),
    # The largest number that a name may mean, which is no year of a date, and one that is larger.
    ("--date 1 --all iso --names large.csv", "", 1, "", lines("standard input: no record with names")),
    ("--date 1 --all iso --names larger.csv", "", 3, "", lines("bad list of names larger.csv: means of record 1")),
    # A list of names is read before calendars are looked up, and these before files are opened.
    ("--date 1 --all mars --names none.csv", "", 3, "", lines("cannot open none.csv")),
    ("--date 1 --all mars --names names.csv none.csv", "", 2, "", lines("unknown calendar: mars")),
    # The first list that is none, in their order.
    ("--date 1 --all iso --names names.csv --names both.csv --names none.csv", "", 3, "",
     lines("bad list of names both.csv: means of record 1")),
]

# The arguments, the status, the files that are made, and standard error.
MADE = [
    # A sheet with its register, and one that breaks off.
    (f"{COLUMNS} --id No --order day --register a.csv empty.csv", 1,
     {"a.csv.dates.csv": CONVERTED, "a.csv.register.csv": REGISTER, "empty.csv.dates.csv": "", "empty.csv.register.csv": ""},
     lines(not_known("a.csv"), "empty.csv: no record with names")),
    # A register for each column of dates.
    (f"{TWO_COLUMNS} --register two.csv", 0,
     {"two.csv.dates.csv": TWO_CONVERTED,
      "two.csv.register.1.csv": "id;calendar;date\n1;julian;1001-1-1\n2;julian;x\n",
      "two.csv.register.2.csv": "id;calendar;date\n1;gregorian;1001-1-1\n2;gregorian;1001-1-1\n"},
     lines(not_known("two.csv"))),
    (f"{COLUMNS} --unknown --register a.csv", 0, {"a.csv.unknown.csv": UNKNOWN}, ""),
    # A sheet with the mark of UTF-8, whose register has none.
    (f"{COLUMNS} --id No --order day --register marked.csv", 0,
     {"marked.csv.dates.csv": f"\ufeff{CONVERTED}", "marked.csv.register.csv": REGISTER}, lines(not_known("marked.csv"))),
    # Registers of the first and of the last days.
    (f"{SPANS_COLUMNS} --edtf --register spans.csv", 0,
     {"spans.csv.dates.csv": SPANS_CONVERTED, "spans.csv.first.register.csv": SPANS_FIRST,
      "spans.csv.last.register.csv": SPANS_LAST}, lines("spans.csv: 1 date is no date of its calendar")),
    (f"{STYLES_COLUMNS} --id No --register styles.csv", 0,
     {"styles.csv.dates.csv": STYLES_CONVERTED, "styles.csv.register.csv": STYLES_REGISTER},
     lines("styles.csv: 1 date is no date of its calendar")),
    # A family tree with its register, and a sheet that is none.
    ("--tree --to gregorian --id record --register tree.ged a.csv", 1,
     {"tree.ged.dates.csv": TREE_CONVERTED, "tree.ged.register.csv": TREE_REGISTER, "a.csv.dates.csv": "", "a.csv.register.csv": ""},
     lines("tree.ged: 1 date is no date of its calendar", "a.csv: is no family tree: its first line is not 0 HEAD")),
    # Files that cannot be opened or made: all are opened before any is made.
    ("--date 1 --all iso a.csv none.csv", 3, {}, lines("cannot open none.csv")),
    ("--date 1 --all iso a.csv c.csv", 3, {"a.csv.dates.csv.part": ""}, lines("cannot make c.csv.dates.csv")),
    # An input is kept, and a list of names is read first.
    ("--date 1 --all iso --unknown --names own.csv.unknown.csv own.csv", 3, {}, lines("cannot make own.csv.unknown.csv")),
    ("--date 1 --all iso --unknown --names names.csv --names own.csv.unknown.csv own.csv", 3, {},
     lines("cannot make own.csv.unknown.csv")),
    ("--date 1 --all iso --names bad.csv a.csv", 3, {}, lines("bad list of names bad.csv: means of record 2")),
]
