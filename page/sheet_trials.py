"""The trials of sheets, a part of page/try-page."""
import datetime, io, os, re, subprocess, time, zipfile

import church
from browsers import wait_for

HERE = os.path.dirname(os.path.abspath(__file__))
ROOT = os.path.dirname(HERE)
# What stands before a table that is saved, so that spreadsheets read it as UTF-8.
MARK = b"\xef\xbb\xbf"


def workbook(sheets):
    """A workbook (.xlsx) whose sheets each have a name over a date."""
    made, row = io.BytesIO(), '<row><c t="inlineStr"><is><t>{}</t></is></c></row>'
    links = "".join(f'<Relationship Id="r{i}" Target="worksheets/{i}.xml"/>' for i, _ in enumerate(sheets))
    listed = "".join(f'<sheet name="{name}" r:id="r{i}"/>' for i, name in enumerate(sheets))
    parts = {"xl/workbook.xml": f"<workbook><sheets>{listed}</sheets></workbook>",
        "xl/_rels/workbook.xml.rels": f"<Relationships>{links}</Relationships>",
        **{f"xl/worksheets/{i}.xml": row.format(head) + row.format("1.1.1700") for i, head in enumerate(sheets.values())}}
    with zipfile.ZipFile(made, "w") as archive:
        for name, text in parts.items():
            archive.writestr(name, text)
    return made.getvalue()


class SheetTrials:
    """What a trial does with sheets."""

    def dropped_sheet(self):
        return self.page.run(
            "const it = document.querySelector('#sheet-chosen'), rows = document.querySelector('#sheet-rows table');"
            "return [it.innerText.split(',')[0], Boolean(rows)]"
        )

    def choose_sheet(self, *files):
        """Gives files, of which none is taken for a register."""
        self.give(*files)
        self.take("register", "sheet", *files)

    def wait_for_sheet(self):
        wait_for("the sheet", lambda: "under the names" in self.text("#sheet-said"))

    def wait_for_counts(self):
        wait_for("what is not read",
            lambda: self.text("#sheet-made") and "looked through" not in self.text("#sheet-counts"))

    def sheet(self, file, encoding, delimiter, id, calendar, date, order="year", names=()):
        self.choose_sheet(file)
        self.choose("#sheet-encoding", encoding)
        self.page.run(
            "const it = document.querySelector(`input[name=sheet-delimiter][value='${arguments[0]}']`);"
            "it.checked = true; it.dispatchEvent(new Event('change'))",
            delimiter,
        )
        self.wait_for_sheet()
        for which, value in (("id", id), ("date-0", date), ("calendar-0", calendar)):
            self.choose(f"#sheet-{which}", str(value))
        self.page.run(
            "const it = document.querySelector(`input[name=sheet-order][value=${arguments[0]}]`);"
            "it.checked = true; it.dispatchEvent(new Event('change'))",
            order,
        )
        for name, value in names:
            self.name(name, value)
        wait_for("the register", lambda: self.text("#sheet-made"))

    def name(self, name, value):
        """Gives a name, or a word, its meaning."""
        which = f'select[data-name="{name}"]'
        wait_for(f"the name {name}", lambda: self.text(which) is not None)
        self.choose(which, value)

    def convert_sheet(self):
        self.click("#sheet-start")
        wait_for(
            "the sheet's conversion", lambda: self.page.run("return document.querySelector('#sheet-stop').disabled")
        )
        return self.text("#sheet-results")

    def save_with_register(self, place=0):
        """Makes the register of a column of dates, and saves all that there is."""
        self.click(f"#make-{place}")
        wait_for("the register", lambda: self.page.run("return document.querySelector(`#make-${arguments[0]}`).href",
            place))
        links = self.page.run("return document.querySelectorAll('#sheet-results a.save').length")
        return self.save("#sheet-results", links)

    def try_sheets(self):
        self.sheet(f"{ROOT}/page/book.csv", "utf-8", 59, 0, 2, 3, names=[("Swedish", "gregorian")])
        wait_for("the register with the name", lambda: "KB-4\tgregorian\t1712-02-30" in self.text("#sheet-made"))
        back = self.text("#sheet-register").split("The sheet as it comes back")[1]
        self.check("how the sheet will come back",
            re.compile("KB-1\tShaw, Anna\tJulian\t1699-11-30\tBristol\tThursday\t1699-12-10"), back)
        said = self.convert_sheet()
        self.shot("sheet")
        self.check("a sheet is converted", re.compile("4 rows, 2 refused"), said)
        wanted = "Record\tCalendar\tDate\trefused because\n3\tGregorian\t1700-02-29\t6: the calendar has no such date"
        self.check("the refused dates", re.compile(f"The 2 refused dates\n{wanted}"), said)
        href = "return document.querySelector('#sheet-results a.save').href"
        before = self.page.run(href)
        self.page.run(
            "const it = document.querySelector('#sheet-results a.save');"
            "it.addEventListener('click', (event) => event.preventDefault(), { once: true }); it.click()"
        )
        self.check("a sheet's table stays when it is saved", before, self.page.run(href))
        files = self.save_with_register()
        wanted = (
            "\ufeffSignature;Name;Calendar;Date;Place;weekday;gregorian;refusal\n"
            "KB-1;Shaw, Anna;Julian;1699-11-30;Bristol;Thursday;1699-12-10;\n"
            "KB-2;Shaw, Peter;Julian;1700-02-29;Bristol;Thursday;1700-03-11;\n"
            "KB-3;Vogel, Karin;Gregorian;1700-02-29;Lübeck;;;6\n"
            "KB-4;Lund, Nils;Swedish;1712-02-30;Stockholm;;;6\n"
        )
        self.check("the sheet with its dates", wanted, files.get("book.dates.csv", b"").decode())
        wanted = (
            "id;calendar;date\nKB-1;julian;1699-11-30\nKB-2;julian;1700-02-29\n"
            "KB-3;gregorian;1700-02-29\nKB-4;gregorian;1712-02-30\n"
        )
        self.check("the register of the sheet", wanted, files.get("book.register.csv", b"").decode())
        text = 'Nr\tName\tDatum\n1\tMüller, "Hans"\t4.10.1582\n2\t"zwei\nZeilen"\t30/11/1699\n3\n'
        self.sheet(
            self.file("german.txt", text.encode("windows-1252")), "windows-1252", 9, -1, "julian", 2, order="day"
        )
        self.check("one calendar for all", re.compile("3 rows, none refused, 1 empty"), self.convert_sheet())
        wanted = (
            "\ufeffNr\tName\tDatum\tweekday\tgregorian\trefusal\n"
            '1\t"Müller, ""Hans"""\t4.10.1582\tThursday\t1582-10-14\t\n'
            '2\t"zwei\nZeilen"\t30/11/1699\tThursday\t1699-12-10\t\n3\t\t\t\t\t5\n'
        )
        saved = self.save("#sheet-results", 1).get("german.dates.csv", b"").decode()
        self.check("a sheet of Windows-1252", wanted, saved)
        self.sheet(self.file("short.csv", "d\n82-1-1\n1882-1-1\n"), "utf-8", 44, -1, "julian", 0)
        self.wait_for_counts()
        self.check("years of two digits", "1 date has a short year, and is left out.", self.text("#sheet-counts"))
        self.check("they are refused", re.compile("2 rows, 1 refused"), self.convert_sheet())
        self.choose("#sheet-short", "1800")
        self.check("a sheet's table goes with another choice", "", self.text("#sheet-results"))
        self.wait_for_counts()
        self.check("a century that is added", re.compile("1\tjulian\t1882-1-1"), self.text("#sheet-made"))
        self.check("they are converted", re.compile("2 rows, none refused"), self.convert_sheet())
        wide = [f"c{i}" for i in range(250)], ["1700-1-1"] + ["5"] * 249
        self.sheet(self.file("wide.csv", "\n".join(map(",".join, wide))), "utf-8", 44, -1, "julian", 0)
        said = self.convert_sheet()
        self.check("a sheet of 250 columns", re.compile(r"1 row, none refused[\s\S]*weekday\tgregorian\trefusal"),
            said)
        self.check("its row is not refused", re.compile(r"5\tMonday\t1700-01-11"), said)
        self.choose_sheet(self.file("wide.csv", "\n".join(map(",".join, wide))))
        wait_for("columns that cannot be chosen", lambda: "Only the first 200 columns" in self.text("#sheet-said"))
        self.choose_sheet(self.file("empty.csv", ""))
        wait_for("an empty sheet", lambda: "it is empty" in self.text("#sheet-said"))
        self.choose_sheet(self.file("cell.csv", "Date,Calendar\n,julian\n1700-1-1,\n1700-1-1,julian\n"))
        self.wait_for_sheet()
        self.wait_for_counts()
        self.check("empty cells", re.compile("3 rows, 1 refused, 1 empty"), self.convert_sheet())
        self.choose_sheet(self.file("wrong.csv", "Id\nMüller\n".encode("windows-1252")))
        self.choose("#sheet-encoding", "utf-8")
        wait_for("the wrong encoding", lambda: "choose another encoding" in self.text("#sheet-said"))
        is_hidden = self.page.run("return document.querySelector('#sheet-choices').hidden")
        self.check("no choices of a sheet that cannot be read", True, is_hidden)

    def try_church(self):
        """A church book in UTF-16 with title lines, and an estate, as their owners wrote them; each date has its day."""
        self.open()
        with open(f"{ROOT}/examples/church.csv", encoding="utf-8") as it:
            text = it.read()
        with open(f"{HERE}/church.days", encoding="utf-8") as it:
            days = it.read().split("\n")[:-1]
        self.check("the church book is that of page/church.py", [*church.sheet()], text.split("\n")[:-1])
        self.check("and so are its days", [*church.days()], days)
        self.choose_sheet(self.file("church.txt", b"\xff\xfe" + text.replace("\n", "\r\n").encode("utf-16-le")))
        self.wait_for_sheet()
        looks = "Proposed: tabs, UTF-16 (“Unicode text”), 2 lines above the names."
        self.check("what a church book looks like", re.compile(re.escape(looks)), self.text("#sheet-chosen"))
        self.check("its titles", re.compile("^Above the names: Kirchenbuch-Auszüge"), self.text("#sheet-titles"))
        self.label_of("sheet-order", "day")
        for name, value in (("Rosenmonat", "month 6"), ("früh", "nothing"), ("alter Kal.", "julian")):
            self.name(name, value)
        self.page.press("\ue004")
        self.wait_for_counts()
        self.check("60 dates are converted", re.compile("60 rows, 5 refused"), self.convert_sheet())
        self.shot("church")
        lines = self.save("#sheet-results", 1)["church.dates.csv"].decode("utf-8-sig").split("\n")
        self.check("its title lines stay", text.split("\n")[:2], lines[:2])
        came = ["\t".join(line.split("\t")[6:8]).strip() for line in lines[3:-1]]
        wrong = [(line, day) for line, one, day in zip(lines[3:], came, days) if one != day]
        self.check("each date of the church book has its day", (60, []), (len(came), wrong))
        self.choose_sheet(f"{ROOT}/examples/estate.csv")
        self.wait_for_sheet()
        self.label_of("sheet-order", "day")
        self.wait_for_counts()
        self.check("an estate", re.compile("40 rows, 4 refused"), self.convert_sheet())
        rows = self.save("#sheet-results", 1)["estate.dates.csv"].decode("utf-8-sig").split("\n")
        with open(f"{ROOT}/check/recipes", encoding="utf-8") as it:
            known = re.search('ESTATE_DAYS = """([^"]*)"""', it.read()).group(1).split()
        wanted = [f"{day};" for day in known] + [f";{refusal}" for refusal in (4, 6, 5, 5)]
        # Easter 1712, Julian, as in check/recipes.
        wanted.append("1712-05-01;")
        self.check("each date of the estate has its day", wanted, [";".join(row.split(";")[6:]) for row in rows[1:-1]])

    def label_of(self, name, value):
        """Chooses a value among those of a name, as a click does."""
        self.click(f"input[name={name}][value={value}]")

    def try_two_dates(self):
        """Columns of dates are added and removed by keys, and each has its own calendars."""
        self.open()
        lines = "Born,Style,Died,Kalender\n1700-2-29,julian,1701-3-1,gregorian\n1700-2-29,gregorian,1701-3-1,hijri\n"
        self.choose_sheet(self.file("two.csv", lines))
        self.wait_for_sheet()
        picks = (
            "return [...document.querySelectorAll('#sheet-dates select')].map((it) => it.value)"
        )
        self.check("what is proposed", ["0", "1", "2", "3"], self.page.run(picks))
        self.choose("#sheet-calendar-1", "gregorian")
        self.page.run("document.querySelector('#sheet-add').focus()")
        self.page.press("\ue007")
        focused = "return document.activeElement.id"
        self.check("a column more, with the calendar of the last", ["0", "1", "2", "gregorian", "", "gregorian"],
            self.page.run(picks))
        self.check("the keys are in it", "sheet-date-2", self.page.run(focused))
        self.click("#sheet-start")
        self.check("it has to be chosen", "Choose a column with dates, and its calendar.", self.text("#sheet-said"))
        self.check("and the keys are there", "sheet-date-2", self.page.run(focused))
        self.page.run("document.querySelector('[data-remove=\"2\"]').focus()")
        self.page.press("\ue007")
        self.check("a column less", (["0", "1", "2", "gregorian"], "sheet-add"), (self.page.run(picks),
            self.page.run(focused)))
        self.choose("#sheet-calendar-1", "3")
        self.wait_for_counts()
        register = self.text("#sheet-made").split("The register that is made of Died")[1]
        self.check("the second has its calendars", re.compile("1\tgregorian\t1701-3-1\n2\tislamic\t1701-3-1"),
            register)
        self.choose("#sheet-calendar-1", "julian")
        self.wait_for_counts()
        said = self.convert_sheet()
        self.check("refused of each", re.compile("2 rows. Born: 1 refused; Died: none refused."), said)
        self.check("the reason by its column", re.compile("Born 6: the calendar has no such date"), said)
        counts = self.text("#sheet-results .counts")
        self.check("dates by the reason", re.compile("Refused dates, by the reason[\\s\\S]*1\tBorn 6: the calendar has no such date\tLook"),
            counts)
        self.click("#sheet-picture-1-save")
        wait_for("the picture", lambda: "Julian: 2 entries in 1701." in self.text("#sheet-results"))
        saved = self.save_with_register(1)
        self.check("a picture stays beside a register", re.compile("The dates of Died in two.csv on a line of time"),
            self.text("#sheet-results"))
        wanted = (
            "\ufeffBorn,Style,Died,Kalender,Born weekday,Born gregorian,Born refusal,Died weekday,Died gregorian,Died refusal\n"
            "1700-2-29,julian,1701-3-1,gregorian,Thursday,1700-03-11,,Saturday,1701-03-12,\n"
            "1700-2-29,gregorian,1701-3-1,hijri,,,6,Saturday,1701-03-12,\n"
        )
        self.check("the sheet with both", wanted, saved.get("two.dates.csv", b"").decode())
        wanted = "id,calendar,date\n1,julian,1701-3-1\n2,julian,1701-3-1\n"
        self.check("the register of the second", wanted, saved.get("two.2.register.csv", b"").decode())
        self.page.run("for (let i = 0; i < 9; i += 1) document.querySelector('#sheet-add').click()")
        shown = "return [document.querySelectorAll('[data-remove]').length, document.querySelector('#sheet-add').disabled]"
        self.check("eight at most", [8, True], self.page.run(shown))

    def try_names(self):
        """Names and words that are not known are shown with what they can mean, and stay where they are."""
        self.open()
        rows = ["Xyz,1.1.1700", "julian,früh 2. Mai 1700", "roman,Kalx. Mart. 1500", "julian,2.1.1700",
            "Xyz,3.1.1700"]
        self.choose_sheet(self.file("names.csv", "\n".join(["Kalender,Datum", *rows])))
        self.wait_for_sheet()
        self.label_of("sheet-order", "day")
        self.wait_for_counts()
        self.check("a calendar that is not known", re.compile("^Xyz, in 2 dates"), self.text("#sheet-names"))
        self.check("words that are not known",
            re.compile(r"früh, in 1 date \(Julian\)[\s\S]*Kalx, in 1 date \(Roman\)"), self.text("#sheet-words"))
        self.check("what is not read", re.compile("4 dates cannot be read, and stay as they are written"),
            self.text("#sheet-counts"))
        options = "return [...document.querySelector(`select[data-name=${arguments[0]}]`).options].map((it) => it.textContent)"
        found = self.page.run(options, "früh")
        self.check("what a word can mean", ["leave it", "month 1, January", "month 2, February", 16],
            [*found[:3], len(found)])
        self.check("and a Roman one", ["a number", "Kalends", "Nones", "Ides", "nothing: pass it over"], self.page.run(options, "Kalx")[-5:])
        self.page.run("document.querySelector('select[data-name=früh]').focus()")
        self.name("früh", "number")
        focused = "return [document.activeElement.localName, document.activeElement.dataset.name]"
        self.check("a number is typed beside it", ["input", "früh"], self.page.run(focused))
        typed = "const it = document.querySelector('input[data-name=früh]');"
        self.page.run(f"{typed} it.value = '1 806'; it.dispatchEvent(new Event('change', {{ bubbles: true }})); it.blur()")
        self.wait_for_counts()
        self.check("a number with a blank", "1806", self.page.run(f"{typed} return it.value"))
        self.name("früh", "nothing")
        self.name("Kalx", "K")
        self.name("Xyz", "julian")
        self.wait_for_counts()
        self.check("all is read", "All dates can be read.", self.text("#sheet-counts"))
        chosen = "return [...document.querySelectorAll('.names select')].map((it) => [it.dataset.name, it.value])"
        self.check("names stay shown", [["Xyz", "julian"], ["früh", "nothing"], ["Kalx", "K"]], self.page.run(chosen))
        self.check("and are converted", re.compile("5 rows, none refused"), self.convert_sheet())
        self.name("Xyz", "")
        self.wait_for_counts()
        self.check("a name that is left again", re.compile("^Xyz, in 2 dates"), self.text("#sheet-names"))
        many = "\n".join(f"c{i:03},1700-1-1" for i in range(250))
        self.choose_sheet(self.file("many.csv", f"Kalender,Datum\n{many}"))
        self.wait_for_sheet()
        self.wait_for_counts()
        self.check("more names than are shown", "Others, in 50 dates, are not shown: are these the right columns?",
            self.text("#sheet-more"))
        self.choose_sheet(self.file("some.csv", "\n".join(["Kalender,Datum", *many.split("\n")[:9]])))
        self.wait_for_sheet()
        self.wait_for_counts()
        self.audited("nine names")

    def try_changes(self):
        """A change of calendars is chosen for all dates of a column, with its day; and what is meant where none stands."""
        self.open()
        self.choose_sheet(self.file("change.csv", "Datum,Land\n18.2.1700,\n1.3.1700,\n12.11.1583,julian"))
        self.wait_for_sheet()
        self.label_of("sheet-order", "day")
        shown = "return ['#sheet-empty-field', '#sheet-empty-day'].map((it) => !document.querySelector(it).closest('[hidden]'))"
        self.choose("#sheet-calendar-0", "julian")
        self.check("no question where one calendar is for all", [False, False], self.page.run(shown))
        self.choose("#sheet-calendar-0", "as empty")
        self.check("a change is asked for", [True, False], self.page.run(shown))
        self.click("#sheet-start")
        self.check("which is missing", "sheet-empty-0", self.page.run("return document.activeElement.id"))
        self.choose("#sheet-empty-0", "julian/gregorian:1700-03-01")
        self.wait_for_counts()
        wanted = re.compile(r"julian\s+1700-2-18[\s\S]*gregorian\s+1700-3-1[\s\S]*julian\s+1583-11-12")
        self.check("one change for all", wanted, self.text("#sheet-made"))
        self.choose("#sheet-empty-0", "change")
        self.check("another day is typed", [[True, True], "sheet-empty-day"],
            [self.page.run(shown), self.page.run("return document.activeElement.id")])
        self.choose("#sheet-empty-day", "1583-11-22")
        self.wait_for_counts()
        self.check("and held", ["change", "1583-11-22"],
            self.page.run("return ['0', 'day'].map((it) => document.querySelector(`#sheet-empty-${it}`).value)"))
        self.choose("#sheet-calendar-0", "1")
        self.wait_for_counts()
        self.check("what is meant where no calendar stands", re.compile("3 rows, none refused"), self.convert_sheet())

    def try_kept_choices(self):
        """Choices that were saved are filled in for the next sheet."""
        self.open()
        self.choose_sheet(self.file("one.csv", "Book 1\nNr;Datum;Stil\n1;früh 2.5.06;Xyz\n"))
        self.wait_for_sheet()
        self.label_of("sheet-order", "day")
        self.choose("#sheet-short", "1700")
        for name, value in (("Xyz", "julian"), ("früh", "nothing")):
            self.name(name, value)
        self.click("#sheet-columns [value=hebrew]")
        self.choose("#sheet-hebrew", "5000")
        self.choose("#sheet-other", "1300")
        self.click("#sheet-charters")
        self.wait_for_counts()
        self.check("the first sheet", re.compile("1\tjulian\t1706-5-2"), self.text("#sheet-made"))
        self.click("#sheet-keep")
        [(name, kept)] = self.saved_files(1).items()
        self.check("the name of the choices", "one.choices.json", name)
        self.open()
        self.choose_sheet(self.file(name, kept), self.file("next.csv",
            "Book 2\nStil;Ort;Datum\nXyz;Bonn;früh 3.5.07\n"))
        self.wait_for_sheet()
        self.wait_for_counts()
        self.check("they are filled in",
            "The choices of one.choices.json are filled in, but for what does not fit: the column “Nr”.",
            self.text("#sheet-fit"))
        self.check("the next sheet", re.compile("1\tjulian\t1707-5-3"), self.text("#sheet-made"))
        drawn = self.page.run("const of = (it) => document.querySelector(`#sheet-${it}`); return [of('id').value, of('short').value,"
            "of('hebrew').value, of('other').value, of('charters').checked, document.querySelector('input[name=sheet-order]:checked').value]")
        self.check("they are drawn", ["-1", "1700", "5000", "1300", True, "day"], drawn)
        self.check("its columns", re.compile("weekday\tgregorian\thebrew\trefusal"), self.text("#sheet-register"))
        self.choose_sheet(self.file("none.json", "{}"))
        self.check("choices that are none", re.compile("none.json, 2 bytes: .*is none that this page saved"), self.text("#files-list"))
        self.check("the sheet stays", re.compile("^next.csv"), self.text("#sheet-chosen"))
        self.open()

    def try_proposals(self):
        """What a sheet looks like is chosen and said; a choice of one's own stays."""
        self.open()
        chosen = (
            "return [document.querySelector('#sheet-encoding').value,"
            "document.querySelector('input[name=sheet-delimiter]:checked').value]"
        )
        self.give(self.file("a.txt", "Nr;Müller\n1;2\n".encode("windows-1252")))
        wait_for("the sheet", lambda: "1 record of 2 columns" in self.text("#sheet-said"))
        self.check("what is proposed", ["windows-1252", "59"], self.page.run(chosen))
        wanted = "a.txt, 14 bytes. Proposed: semicolons, Western Europe (Windows-1252)."
        self.check("what is said of it", wanted, self.text("#sheet-chosen"))
        self.check("how it is read", re.compile("Nr\tMüller\n1\t2"), self.text("#sheet-rows"))
        self.choose("#sheet-encoding", "windows-1250")
        self.label("sheet-delimiter", "a tab")
        wait_for("another delimiter", lambda: "1 record of 1 column " in self.text("#sheet-said"))
        self.check("a choice of one's own", ["windows-1250", "9"], self.page.run(chosen))
        self.check("nothing is said of it", "a.txt, 14 bytes.", self.text("#sheet-chosen"))
        self.give(f"{ROOT}/page/book.csv")
        wait_for("the next sheet", lambda: "4 records of 5 columns" in self.text("#sheet-said"))
        self.check("what is proposed for the next", ["utf-8", "59"], self.page.run(chosen))
        self.give(self.file("two.xlsx", workbook({"One": "Born", "Two": "Died"})))
        wait_for("a workbook", lambda: "Born" in self.text("#sheet-rows"))
        self.option("#sheet-page", "^Two$")
        wait_for("its second sheet", lambda: "Died" in self.text("#sheet-rows"))
        shown = "const it = document.querySelector('#sheet-page'); return [...it.options].map(({ text }) => text).concat(it.value)"
        self.check("the sheet of a workbook that is chosen", ["One", "Two", "1"], self.page.run(shown))
        self.open()

    def try_three(self):
        """Where year, month and day stand in columns of their own, these are chosen, and a column of their dates comes."""
        self.open()
        is_shown = "return document.querySelector('#sheet-three').checkVisibility()"
        self.give(self.file("two.csv", "Jahr,Tag\n1806,1\n"))
        self.wait_for_sheet()
        self.check("two columns have no three", False, self.page.run(is_shown))
        self.give(self.file("three.csv", "Tag,Monat,Jahr,Stil\n12,5,1806,julian\n,Mai,1807,julian\n"))
        wait_for("the sheet", lambda: "2 records of 4 columns" in self.text("#sheet-said"))
        options = "return [...document.querySelectorAll('#sheet-three select')].map(({ value, options }) => [value, options.length])"
        self.check("none of three is chosen", (True, [["", 5]] * 3), (self.page.run(is_shown), self.page.run(options)))
        self.choose("#sheet-three-0", "2")
        self.choose("#sheet-three-1", "1")
        self.page.run("document.querySelector('#sheet-three-2').focus()")
        self.page.press("\ue015")
        wait_for("the column of dates", lambda: "1806-5-12" in (self.text("#sheet-rows") or ""))
        self.check("the keys stay at the last of three", "sheet-three-2", self.page.run("return document.activeElement.id"))
        self.check("three that are chosen", [["2", 5], ["1", 5], ["0", 5]], self.page.run(options))
        chosen = "return ['date', 'calendar'].map((it) => document.querySelector(`#sheet-${it}-0`).value)"
        self.check("their dates are dates", ["4", "3"], self.page.run(chosen))
        self.wait_for_counts()
        self.convert_sheet()
        lines = self.save("#sheet-results", 1)["three.dates.csv"].removeprefix(MARK).decode().split("\n")
        self.check("dates of three columns", ["Tag,Monat,Jahr,Stil,Jahr-Monat-Tag,weekday,gregorian,refusal",
            "12,5,1806,julian,1806-5-12,Saturday,1806-05-24,", ",Mai,1807,julian,Mai 1807,,,5", ""], lines)
        self.open()

    def try_sorted(self):
        """A family tree comes back by the days of its dates where that is chosen, by keys, and stays so when it is saved."""
        self.open()
        tree = subprocess.run(["node", f"{HERE}/trees.cjs", "7.0", "40"], capture_output=True, check=True).stdout
        self.choose_sheet(self.file("tree.ged", tree))
        self.wait_for_sheet()
        self.wait_for_counts()
        self.click("#sheet-columns [value=rd]")
        self.wait_for_counts()
        self.convert_sheet()
        stands = self.save("#sheet-results", 1)["tree.dates.csv"].decode().split("\n")
        self.page.run("document.querySelector('#sheet-sorted').focus()")
        self.page.press("\ue015")
        wait_for("the order", lambda: "stand by the day of date;" in self.text("#sheet-results [role=status]"))
        self.check("the keys stay where they are", "sheet-sorted", self.page.run("return document.activeElement.id"))
        rows = self.page.run("return [...document.querySelectorAll('#sheet-results .rows tbody tr')].slice(0, 10).map((it) => it.innerText)")
        lines = self.save("#sheet-results", 1)["tree.dates.csv"].decode().split("\n")
        self.check("the same records", sorted(stands), sorted(lines))
        days = [int(line.rsplit(",", 2)[1] or 10**9) for line in lines[1:-1]]
        self.check("by their days", (sorted(days), True), (days, days != [int(line.rsplit(",", 2)[1] or 10**9) for line in stands[1:-1]]))
        shown = [int(re.search(r"\t(-?\d+)\t?$", row).group(1)) for row in rows]
        self.check("and shown so", days[:10], shown)
        self.page.press("\ue013")
        wait_for("as it stands", lambda: self.text("#sheet-results [role=status]") == "")
        self.check("as it stands again", stands, self.save("#sheet-results", 1)["tree.dates.csv"].decode().split("\n"))
        self.open()

    def try_spans(self):
        """Months, years and ranges are proposed and read; both ends come back, are saved, sorted and drawn; in each language."""
        self.open()
        self.date_spans()
        self.choose_sheet(self.file("spans.csv", "Nr,Datum\n1,Mai 1806\n2,12.5.1806\n3,vor 1800\n4,1803-1805\n5,x\n"))
        self.wait_for_sheet()
        self.choose("#sheet-calendar-0", "gregorian")
        self.label_of("sheet-order", "day")
        wait_for("what is proposed", lambda: self.text("#sheet-take-spans"))
        self.check("spans are proposed", re.compile("^3 more dates can be read as months, years or ranges. *Months, years and ranges too$"),
            self.text("#sheet-orders"))
        ticks = ("return ['spans', 'edtf'].map((it) => document.querySelector(`#sheet-${it}`))"
            ".map((it) => [it.checked, it.checkVisibility()])")
        self.check("no EDTF before the tick", [[False, True], [False, False]], self.page.run(ticks))
        self.page.run("document.querySelector('#sheet-take-spans').focus()")
        self.page.press("\ue007")
        wait_for("both ends", lambda: "first gregorian" in self.text("#sheet-register"))
        self.wait_for_counts()
        self.check("both ticks", [[True, True], [False, True]], self.page.run(ticks))
        self.check("nothing is proposed then", "", self.text("#sheet-orders"))
        self.click("#sheet-edtf")
        wait_for("EDTF", lambda: "edtf" in self.text("#sheet-register"))
        self.check("both registers before", re.compile("with the first days[^\n]*\n[^\n]*\n1\tgregorian\t1806-5-1\n[\\s\\S]*with the last days[^\n]*"
            "\n[^\n]*\n1\tgregorian\t1806-5-31\n"), self.text("#sheet-made"))
        self.check("what came of spans", re.compile("5 rows, 1 refused, 3 are no single day"), self.convert_sheet())
        self.drawn_spans()
        self.choose("#sheet-sorted", "0")
        wait_for("the order", lambda: "stand by the first day of Datum" in self.text("#sheet-results [role=status]"))
        numbers = "return [...document.querySelectorAll('#sheet-results .rows:not(.picture) tbody tr:not(.below)')].map((it) => it.children[0].innerText)"
        self.check("spans by their days", ["3", "4", "1", "2", "5"], self.page.run(numbers)[:5])
        self.audited("spans")
        self.choose("#sheet-sorted", "")
        wait_for("as it stands", lambda: self.text("#sheet-results [role=status]") == "")
        self.saved_spans()
        self.click("#languages [lang=de]")
        self.check("the tick in German", "Auch Monate, Jahre und Zeiträume", self.labels("#sheet-spans")[0])
        self.click("#sheet-spans")
        wait_for("a proposal in German", lambda: "Als Monate, Jahre oder Zeiträume" in (self.text("#sheet-orders") or ""))
        self.open()

    def saved_spans(self):
        """What is saved of spans: the sheet with both ends, and a register of each."""
        weekday = lambda *day: datetime.date(*day).strftime("%A")
        self.click("#make-0")
        wait_for("the register", lambda: self.page.run("return document.querySelector('#make-0').href"))
        saved = self.save_with_register(1)
        wanted = (
            "\ufeffNr,Datum,first weekday,first gregorian,last weekday,last gregorian,edtf,mark,refusal\n"
            f"1,Mai 1806,{weekday(1806, 5, 1)},1806-05-01,{weekday(1806, 5, 31)},1806-05-31,1806-05,,\n"
            f"2,12.5.1806,{weekday(1806, 5, 12)},1806-05-12,{weekday(1806, 5, 12)},1806-05-12,1806-05-12,,\n"
            f"3,vor 1800,,,{weekday(1799, 12, 31)},1799-12-31,../1799-12-31,before,\n"
            f"4,1803-1805,{weekday(1803, 1, 1)},1803-01-01,{weekday(1805, 12, 31)},1805-12-31,1803/1805,,\n5,x,,,,,,,5\n"
        )
        self.check("the sheet with both ends", wanted, saved.get("spans.dates.csv", b"").decode())
        registers = [saved.get(f"spans.{end}.register.csv", b"").decode().split("\n")[1:4] for end in ("first", "last")]
        self.check("the register of each end", [["1,gregorian,1806-5-1", "2,gregorian,1806-5-12", "3,gregorian,"],
            ["1,gregorian,1806-5-31", "2,gregorian,1806-5-12", "3,gregorian,1799-12-31"]], registers)

    def drawn_spans(self):
        """What is no single day is drawn as a stroke below the bars, with an arrow at an open end."""
        self.click("#sheet-picture-0-save")
        wait_for("the picture", lambda: self.page.run("return document.querySelector('.picture svg') !== null"))
        begin, days = datetime.date(1799, 1, 1), (datetime.date(1807, 1, 1) - datetime.date(1799, 1, 1)).days
        place = lambda *day: (datetime.date(*day) - begin).days * 200 // days
        stroke = lambda one, other: f"M{200 + 3 * one} 40H{200 + 3 * other}v2H{200 + 3 * one}z"
        wanted = (stroke(0, place(1799, 12, 31) + 1) + "M200 41l5 -3v6z" + stroke(place(1803, 1, 1), place(1805, 12, 31) + 1) +
            stroke(place(1806, 5, 1), place(1806, 5, 31) + 1))
        drawn = self.page.run("const it = document.querySelector('.picture svg'); return [it.getAttribute('viewBox'),"
            "(it.querySelector('.spans') || it).getAttribute('d')]")
        self.check("strokes below the bars", ["0 0 960 76", wanted], drawn)
        self.check("the same in words", re.compile("Gregorian: 4 entries from 1799 to 1806, 3 are no single day; 1 refused."),
            self.text("#sheet-results ul"))
        self.shot("spans")

    def date_spans(self):
        """One date of no single day has two cells beside one another in each calendar; a feast is told; in German and in English."""
        self.click("#languages [lang=de]")
        said = self.date("gregorian", "Mai 1806")
        wanted = "31 Tage, Tagesnummern 659383 bis 659413; EDTF 1806-05; gelesen als 1806-5-1 – 1806-5-31\nGregorianisch\n1806-05-01\n1806-05-31\n"
        self.check("a month in German", re.compile(f"^{wanted}1. Mai 1806\n31. Mai 1806"), said)
        self.check("no first day in German", re.compile("Gregorianisch\nkein erster Tag\n1806-05-11"), self.retyped("vor 12.5.1806"))
        self.click("#languages [lang=en]")
        self.check("a month", re.compile("^31 days, day numbers 659383 to 659413; EDTF 1806-05; read as 1806-5-1 – 1806-5-31\nGregorian\n"),
            self.retyped("Mai 1806"))
        beside = ("const [one, other] = [...document.querySelectorAll('#date-cells div:first-child dd')].map((it) => it.getBoundingClientRect());"
            "return [one.top === other.top, one.right <= other.left]")
        self.check("its ends stand beside one another", [True, True], self.page.run(beside))
        for width, size in ((320, "100%"), (640, "200%")):
            self.check(f"a month in {width} points at {size}", [], self.over(width, size))
        self.page.run("document.documentElement.style.fontSize = ''")
        self.page.width(1100)
        self.audited("a month")
        self.check("no last day", re.compile("no last day[\\s\\S]*Gregorian\n1801-01-01\nno last day"), self.retyped("nach 1800"))
        self.check("a day again has one cell", re.compile("Gregorian\n1806-05-12\n12 May 1806\nISO week"), self.retyped("12.5.1806"))
        self.check("a feast", re.compile("Sunday or feast\nDominica Oculi$"), self.date("julian", "Dom. Oculi 1699"))
        self.retyped(" ")

    def paste(self, text):
        """Pastes by keys what was copied by keys."""
        self.page.run(
            "const it = document.body.appendChild(document.createElement('textarea')); it.id = 'copied';"
            "it.value = arguments[0]; it.focus(); it.select()",
            text,
        )
        self.page.press("\ue009", "c")
        self.page.run("document.querySelector('#copied').remove(); document.querySelector('#paste').focus()")
        self.page.press("\ue009", "v")

    def try_paste(self):
        """Cells of a spreadsheet are the sheet from when they are pasted."""
        self.open()
        self.sheet(f"{ROOT}/page/book.csv", "utf-8", 59, 0, 2, 3)
        self.paste("Nr\tDatum\n1\t30.11.1699\n")
        wait_for("the pasted cells", lambda: "1 record of 2 columns" in self.text("#sheet-said"))
        self.check("what was pasted is chosen", "pasted.csv, 22 bytes.", self.text("#sheet-chosen"))
        shown = self.page.run(
            "const of = (id) => document.querySelector(`#${id}`);"
            "return [of('paste').value, of('files').files.length, of('sheet-encoding').value,"
            "document.querySelector('input[name=sheet-delimiter]:checked').value]"
        )
        self.check("the fields beside it", ["", 0, "utf-8", "9"], shown)
        self.page.press("x")
        self.page.press("\ue004")
        wait_for("what is typed, when the field is left", lambda: self.text("#sheet-chosen") == "pasted.csv, 1 byte.")
        self.page.run(
            "const value = new DataTransfer(); value.setData('text/plain', arguments[0]);"
            "const event = Object.defineProperty(new Event('paste', { cancelable: true }), 'clipboardData', { value });"
            "document.querySelector('#paste').dispatchEvent(event)",
            'Nr\tName\tDatum\r\n1\t"zwei\r\nZeilen"\t1699-11-30\r\n2\t"Müller, ""Hans"""\t1582-10-4\r\n',
        )
        wait_for("cells that are pasted again", lambda: "2 records of 3 columns" in self.text("#sheet-said"))
        for which, value in (("id", -1), ("date-0", 2), ("calendar-0", "julian")):
            self.choose(f"#sheet-{which}", str(value))
        self.check("pasted cells are converted", re.compile("2 rows, none refused"), self.convert_sheet())
        wanted = (
            "\ufeffNr\tName\tDatum\tweekday\tgregorian\trefusal\n"
            '1\t"zwei\r\nZeilen"\t1699-11-30\tThursday\t1699-12-10\t\n'
            '2\t"Müller, ""Hans"""\t1582-10-4\tThursday\t1582-10-14\t\n'
        )
        saved = self.save("#sheet-results", 1).get("pasted.dates.csv", b"").decode()
        self.check("nothing is lost of pasted cells", wanted, saved)
        self.give(f"{ROOT}/page/book.csv")
        wait_for("a file behind pasted cells", lambda: "book.csv" in self.text("#sheet-chosen"))
        self.open()
