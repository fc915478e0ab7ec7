#!/usr/bin/env python3
"""Prints the sheet of examples/church.csv, or with --days the days of its dates: page/church.py [--days].

The days are found by the formulas here, from the year, month and day that each date means; nothing of this project is
asked. Those of Hebrew dates count the moons (molad) from the epoch of Maimonides, those of the French Republic the years
as they were lived: III, VII and XI were leap years. A date that nobody can convert has no day.
"""
import datetime, sys

TITLE = ["Kirchenbuch-Auszüge der Familie Vogel", "Stand: Frühjahr; Abschrift nach Film 11"]
HEAD = ["Nr.", "Name", "Ort", "Kalender", "Datum", "Bemerkung"]
# The calendar and the date as they are written, and what they mean.
ENTRIES = [
    ("gregorianisch", "12. Mai 1806", "gregorian", 1806, 5, 12),
    ("gregorianisch", "14.10.1782", "gregorian", 1782, 10, 14),
    ("gregorianisch", "Sonntag, 3. März 1799", "gregorian", 1799, 3, 3),
    ("n. St.", "28.2.1700", "gregorian", 1700, 2, 28),
    ("n. St.", "5. Jänner 1812", "gregorian", 1812, 1, 5),
    ("gregorianisch", "1848-03-18", "gregorian", 1848, 3, 18),
    ("gregorianisch", "29. Hornung 1704", "gregorian", 1704, 2, 29),
    ("gregorianisch", "6. Christmonat 1755", "gregorian", 1755, 12, 6),
    ("greg.", "12.V.1806", "gregorian", 1806, 5, 12),
    ("greg.", "den 3ten October 1811", "gregorian", 1811, 10, 3),
    ("gregorianisch", "1. Rosenmonat 1790", "gregorian", 1790, 6, 1),
    ("gregorianisch", "am zwölften April 1803", "gregorian", 1803, 4, 12),
    ("gregorianisch", "9. Nov. 1799, früh", "gregorian", 1799, 11, 9),
    ("julianisch", "29.2.1700", "julian", 1700, 2, 29),
    ("julianisch", "25. Dezember 1699", "julian", 1699, 12, 25),
    ("a. St.", "6.1.1701", "julian", 1701, 1, 6),
    ("alter Kal.", "11. Wintermonat 1685", "julian", 1685, 11, 11),
    ("alter Kal.", "7. Wonnemond 1690", "julian", 1690, 5, 7),
    ("alter Kal.", "31/10/1517", "julian", 1517, 10, 31),
    ("gregoriański", "12 maja 1806", "gregorian", 1806, 5, 12),
    ("gregoriański", "3 stycznia 1793", "gregorian", 1793, 1, 3),
    ("gregoriański", "30 kwietnia 1869 r.", "gregorian", 1869, 4, 30),
    ("starego stylu", "18 kwietnia 1869", "julian", 1869, 4, 18),
    ("gregoriański", "7 października 1772", "gregorian", 1772, 10, 7),
    ("gregoriański", "1 września 1830 roku", "gregorian", 1830, 9, 1),
    ("gregoriański", "dnia 15 sierpnia 1841", "gregorian", 1841, 8, 15),
    ("juliański", "25 grudnia 1811", "julian", 1811, 12, 25),
    ("stylo novo", "die 12 Maii 1702", "gregorian", 1702, 5, 12),
    ("stylo novo", "14. 7bris 1699", "gregorian", 1699, 9, 14),
    ("stylo veteri", "3. 8bris 1582", "julian", 1582, 10, 3),
    ("stylo novo", "1 Ianuarii 1701", "gregorian", 1701, 1, 1),
    ("stylo novo", "die 24 Decembris anno 1683", "gregorian", 1683, 12, 24),
    ("römisch", "III. Non. Apr. 1511", "julian", 1511, 4, 3),
    ("römisch", "Id. Mart. 1490", "julian", 1490, 3, 15),
    ("römisch", "VIII. Id. Iul. 1415", "julian", 1415, 7, 8),
    ("römisch", "III. Kal. Nov. 1582", "julian", 1582, 10, 30),
    ("römisch", "XVI. Kal. Ian. 1500", "julian", 1499, 12, 17),
    ("républicain", "18 Brumaire VIII", "republican", 8, 2, 18),
    ("républicain", "15 Ventôse an VI", "republican", 6, 6, 15),
    ("républicain", "9 Thermidor II", "republican", 2, 11, 9),
    ("républicain", "1 Vendémiaire an I", "republican", 1, 1, 1),
    ("républicain", "11 nivôse an IV", "republican", 4, 4, 11),
    ("républicain", "22 prairial an XII", "republican", 12, 9, 22),
    ("hicrî", "1 Muharrem 1215", "islamic", 1215, 1, 1),
    ("hicrî", "12 Ramazan 1290", "islamic", 1290, 9, 12),
    ("hicrî", "3 Cemaziyelevvel 1256", "islamic", 1256, 5, 3),
    ("Hedschra", "27. Radschab 1230", "islamic", 1230, 7, 27),
    ("hicrî", "10 Zilhicce 1300", "islamic", 1300, 12, 10),
    ("hicrî", "29 Rebiülahir 1277", "islamic", 1277, 4, 29),
    ("jüdisch", "5 Tischri 5507", "hebrew", 5507, 7, 5),
    ("jüdisch", "14 Nissan 5530", "hebrew", 5530, 1, 14),
    ("jüdisch", "9 Aw 5563", "hebrew", 5563, 5, 9),
    ("jüdisch", "25 Kislew 5571", "hebrew", 5571, 9, 25),
    ("jüdisch", "7 Adar II 5603", "hebrew", 5603, 13, 7),
    ("żydowski", "1 Elul 5600", "hebrew", 5600, 6, 1),
    ("gregorianisch", "ca. 1750", None),
    ("gregorianisch", "Mai 1806", None),
    ("a. St.", "10.2.1700/01", None),
    ("gregorianisch", "31.6.1801", None),
    ("jüdisch", "5 Tischri 507", None),
]
NAMES = ["Vogel, Karl", "Vogel, Käthe", "Müller, Jörg", "Żak, Zofia", "Levi, Dov", "Böhm, Anna", "Père Benoît"]
PLACES = ["Köln", "Zürich", "Łódź", "Saloniki", "Prag", "Mainz"]
# Python's day 1 is 1 January 1; this is the day before it as a Julian day number.
DAY_0 = 1721425


def gregorian(year, month, day):
    return datetime.date(year, month, day).toordinal()


def julian(year, month, day):
    past = 1 if month < 3 else 0
    years, months = year + 4800 - past, month + 12 * past - 3
    return day + (153 * months + 2) // 5 + 365 * years + years // 4 - 32083 - DAY_0


def islamic(year, month, day):
    return day + 29 * (month - 1) + month // 2 + 354 * (year - 1) + (3 + 11 * year) // 30 + julian(622, 7, 15)


def republican(year, month, day):
    leaps = sum(1 for it in (3, 7, 11) if it < year)
    return gregorian(1792, 9, 22) + 365 * (year - 1) + leaps + 30 * (month - 1) + day - 1


def hebrew_new_year(year):
    """The days from 7 October of the Julian year -3760, the first new year, to this one, but for what its neighbours delay."""
    moons = (235 * year - 234) // 19
    parts = 12084 + 13753 * moons
    day = 29 * moons + parts // 25920
    return day + 1 if 3 * (day + 1) % 7 < 3 else day


def hebrew_start(year):
    before, now, after = (hebrew_new_year(year + k) for k in (-1, 0, 1))
    late = 2 if after - now == 356 else 1 if now - before == 382 else 0
    return julian(-3760, 10, 7) + now + late


def hebrew(year, month, day):
    length = hebrew_start(year + 1) - hebrew_start(year)
    is_leap = (7 * year + 1) % 19 < 7
    days = {7: 30, 8: 30 if length % 10 == 5 else 29, 9: 29 if length % 10 == 3 else 30, 10: 29, 11: 30,
            12: 30 if is_leap else 29, 13: 29, 1: 30, 2: 29, 3: 30, 4: 29, 5: 30, 6: 29}
    order = [7, 8, 9, 10, 11, 12] + ([13] if is_leap else []) + [1, 2, 3, 4, 5, 6]
    return hebrew_start(year) + sum(days[it] for it in order[: order.index(month)]) + day - 1


def sheet():
    """The lines of the sheet, with tabs between the fields."""
    yield from TITLE
    yield "\t".join(HEAD)
    for i, (calendar, date, *_) in enumerate(ENTRIES):
        fields = [str(i + 1), NAMES[i % len(NAMES)], PLACES[i % len(PLACES)], calendar, date, "" if i % 9 else "siehe Film"]
        yield "\t".join(fields)


def days():
    """For each entry its weekday and Gregorian date, or a blank line."""
    for _, _, rule, *parts in ENTRIES:
        if rule is None:
            yield ""
            continue
        # The rule of a calendar is the function of its name.
        day = datetime.date.fromordinal(globals()[rule](*parts))
        yield f"{day:%A}\t{day.isoformat()}"


if __name__ == "__main__":
    sys.stdout.reconfigure(encoding="utf-8")
    for line in days() if "--days" in sys.argv else sheet():
        print(line)
