"""The trials of what labels say, and of the ways that the page has to be gone, a part of page/try-page."""
import datetime, re, time

from browsers import wait_for

# The day that the example beside each calendar is, in the Gregorian calendar; known from elsewhere.
DAYS = {
    "gregorian": "1699-11-30", "iso": "1945-11-12", "julian": "1699-12-10", "coptic": "1944-11-12", "ethiopic": "1945-11-12",
    "egyptian": "1945-11-12", "armenian": "1945-11-12", "islamic": "1945-11-12", "hebrew": "1945-11-12", "longcount": "1945-11-12",
    "french": "1799-11-08", "roman": "1945-11-12", "republican": "1799-11-09",
}
# The same calendars in the order in which they are offered: what each is called is known, in both languages, by its stem.
STEMS = {
    "gregorian": "Gregorian", "iso": "ISO", "julian": "Julian", "coptic": "[CK]opti", "ethiopic": "[EÄ]thiopi", "egyptian": "[EÄ]g[y]pti",
    "armenian": "Armeni", "islamic": "Islami", "hebrew": "Hebr", "longcount": "Maya", "french": "arithmetic|nach der Rechnung",
    "roman": "Roman|Römisch", "republican": "Republican|Revolution",
}
FIRST = {"year": "1699", "jahr": "1699", "day": "30", "tag": "30", "month": "11", "monat": "11"}
SIGNS = {"a comma": ",", "ein komma": ",", "a semicolon": ";", "ein strichpunkt": ";", "a tab": "\t", "ein tabulator": "\t"}
MONTHS = {"en": ("January", "September"), "de": ("Januar", "September")}
CENTURIES = [100 * (20 - i) for i in range(20)]


class LabelTrials:
    """What a trial does by what it sees: nothing is chosen by its value."""

    def option(self, which, label):
        """Chooses what a list calls so, or what its name begins with."""
        found = self.page.run(
            "const it = document.querySelector(arguments[0]), pattern = new RegExp(arguments[1]);"
            "const one = [...it.options].find(({ text }) => pattern.test(text));"
            "if (!one) return null; it.selectedIndex = one.index;"
            "it.dispatchEvent(new Event('change', { bubbles: true })); return one.text",
            which,
            label,
        )
        self.check(f"{which} has {label}", True, found is not None)
        return found

    def labels(self, which):
        return self.page.run("return [...document.querySelectorAll(arguments[0])].map((it) => it.labels[0].innerText.trim())", which)

    def options(self, which):
        return self.page.run("return [...document.querySelector(arguments[0]).options].map(({ text }) => text)", which)

    def press_label(self, which, place):
        self.page.run("document.querySelectorAll(arguments[0])[arguments[1]].labels[0].click()", which, place)

    def register_of(self, first=None):
        """The dates of the register that would be made, once they rest."""
        self.wait_for_counts_in_each()
        time.sleep(0.1)
        rows = self.page.run("return [...document.querySelectorAll('#sheet-made tbody tr')].map((it) => it.children[2].textContent)")
        return rows if first is None else rows[:first]

    def wait_for_counts_in_each(self):
        looking = ("looked through", "werden durchgesehen")
        wait_for("what is not read", lambda: self.text("#sheet-made") and not any(it in self.text("#sheet-counts") for it in looking))

    def given(self, name, text, calendar="Julian"):
        self.anew()
        self.give(self.file(name, text))
        wait_for("the columns", lambda: self.page.run("return !document.querySelector('#sheet-end').hidden"))
        self.page.run("document.querySelector('#sheet-fold').open = true")
        self.option("#sheet-date-0", "^D$")
        self.option("#sheet-calendar-0", f"^{calendar}")

    def try_labels(self):
        """Each choice does what its label says, in each language: what comes is worked from the label."""
        for language in ("en", "de"):
            self.open()
            self.click(f"#languages [lang={language}]")
            self.page.run("document.querySelector('#sheet-fold').open = true")
            for part in (self.calendars, self.orders, self.years, self.spans, self.signs, self.meanings, self.columns, self.lines):
                part(language)
        self.open()

    def calendars(self, language):
        called = self.options("#date-calendar")
        self.check(f"calendars by their names, {language}", (len(DAYS), []), (len(called), [it for it, stem in STEMS.items() if sum(
            bool(re.search(stem, one)) for one in called) != 1]))
        gregorian = next(it for it in called if it.startswith("Gregorian"))
        for calendar, day in DAYS.items():
            name = self.option("#date-calendar", STEMS[calendar])
            example = re.search(r"[\d.WKNIB-]{6,}", self.text("#date-form-is"))[0].rstrip(".:")
            self.type(example)

            def cells():
                shown = self.page.run("return [...document.querySelectorAll('#date-cells div')].map((it) => [...it.children].map((one) => one.textContent))")
                return dict((cell[0], cell[1]) for cell in shown) or None

            wait_for("the day", lambda: (cells() or {}).get(gregorian) == day)
            own = re.sub(r"(?<![\d])0+(?=\d)", "", (cells() or {}).get(name, ""))
            self.check(f"{name} has its example, {language}", re.sub(r"(?<![\d])0+(?=\d)", "", example), own)

    def orders(self, language):
        which = "input[name=sheet-order]"
        for place, label in enumerate(self.labels(which)):
            examples = re.findall(r"\d+[./-]\d+[./-]\d+", label)
            first = next(FIRST[it] for it in re.findall(r"\w+", label.lower()) if it in FIRST)
            self.check(f"{label} has such examples", True, bool(examples) and all(re.match(r"\d+", it)[0] == first for it in examples))
            self.given("order.csv", "D\n" + "\n".join(examples) + "\n")
            self.press_label(which, place)
            self.check(f"dates in numbers, {label}", ["1699-11-30"] * len(examples), self.register_of())

    def years(self, language):
        self.given("short.csv", "D\n82-5-12\n")
        added = [it for it in self.options("#sheet-short") if re.search(r"\d+: 82|^\d+ ", it) and "Jahr 82" not in it and "year 82" not in it]
        numbers = [int(re.search(r"\d+", it)[0]) for it in added]
        self.check(f"what is added to short years, {language}", CENTURIES, numbers)
        for label in (added[0], added[2], added[-1]):
            self.option("#sheet-short", f"^{re.escape(label)}$")
            self.check(f"short years: {label}", [f"{label.split()[-1]}-5-12"], self.register_of())
        for pattern, wanted in (("82$", ["82-5-12"]), ("weglassen|leave", [""])):
            label = self.option("#sheet-short", f"(?:{pattern})" if "|" in pattern else "(Jahr|year) 82$")
            self.check(f"short years: {label}", wanted, self.register_of())
        self.given("hebrew.csv", "D\n5 Tischri 507\n", "Hebr")
        self.press_label("input[name=sheet-order]", 1)
        for label in self.options("#sheet-hebrew"):
            self.option("#sheet-hebrew", f"^{re.escape(label)}$")
            year = re.search(r"(\d+)$", label)
            self.check(f"Hebrew years: {label}", [f"{year[1]}-7-5" if year else ""], self.register_of())
        self.given("islamic.csv", "D\n82-5-12\n", "Islami")
        offered = self.options("#sheet-other")
        self.check(f"what can be done with short Islamic years, {language}", self.options("#sheet-short"), offered)
        for label in (offered[0], offered[1], offered[9]):
            self.option("#sheet-other", f"^{re.escape(label)}$")
            year = re.search(r"(\d+)$", label)
            self.check(f"Islamic years: {label}", [f"{year[1]}-5-12" if year else ""], self.register_of())
        self.given("roman.csv", "D\nXVI. Kal. Ian. 1499\n", "(Roman|Römisch)")
        self.press_label("input[name=sheet-order]", 1)
        self.tick("julian")
        said = self.page.run("return document.querySelector('#sheet-charters-is').textContent")
        by_day = re.search(r"17\S* (December|Dezember) (\d+)", said)[2]
        for year in ("1498", by_day):
            self.check(f"the year of a Roman date, {language}, {year}", f"{year}-12-17", self.cell_back("julian"))
            self.press_label("#sheet-charters", 0)
            self.wait_for_counts_in_each()

    def spans(self, language):
        which = "#sheet-choices input[type=checkbox]"
        self.given("spans.csv", "D\nMai 1806\n", "Gregorian")
        for label, name, cell in (("months, years|Monate, Jahre", "first gregorian", "1806-05-01"), ("EDTF", "edtf", "1806-05")):
            self.check(f"no {name} before its tick, {language}", None, self.cell_back(name))
            self.press_label(which, next(place for place, it in enumerate(self.labels(which)) if re.search(label, it, re.IGNORECASE)))
            wait_for(name, lambda: self.cell_back(name))
            self.check(f"{label}, {language}", (cell, ["1806-5-1", "1806-5-31"]), (self.cell_back(name), self.register_of()))

    def tick(self, name):
        self.page.run("[...document.querySelectorAll('#sheet-columns label')].find((it) => it.innerText.trim() === arguments[0]).click()", name)

    def cell_back(self, name):
        """What stands in the first row of the sheet that comes back, in the column of this name."""
        self.wait_for_counts_in_each()
        time.sleep(0.1)
        return self.page.run(
            "const table = document.querySelector('#sheet-register table');"
            "const place = [...table.querySelectorAll('th')].findIndex((it) => it.textContent === arguments[0]);"
            "return place < 0 ? null : table.querySelector('tbody tr').children[place].textContent",
            name,
        )

    def signs(self, language):
        which = "input[name=sheet-delimiter]"
        for place, label in enumerate(self.labels(which)):
            sign = SIGNS[label.lower()]
            others = [it for it in ",;\t" if it != sign]
            self.anew()
            self.give(self.file("sign.csv", f"a{others[0]}b{others[1]}c{sign}d\n1{others[0]}2{others[1]}3{sign}4\n"))
            wait_for("the sheet", lambda: self.text("#sheet-rows") or self.page.run("document.querySelector('#sheet-fold').open = true"))
            self.press_label(which, place)
            wait_for(label, lambda: self.page.run("return document.querySelectorAll('#sheet-rows th').length") == 2)
            wanted = [f"a{others[0]}b{others[1]}c", "d"]
            self.check(f"{label} is one, {language}", wanted, self.page.run("return [...document.querySelectorAll('#sheet-rows th')].map((it) => it.textContent)"))

    def meanings(self, language):
        self.given("names.csv", "D\n7 Qqx 1700\nQqy 3 1700\n")
        self.press_label("input[name=sheet-order]", 1)
        wait_for("the word", lambda: self.text("select[data-name=Qqx]") is not None)
        for number, name in zip((1, 9), MONTHS[language]):
            label = self.option("select[data-name=Qqx]", f"{name}$")
            self.check(f"{label}, {language}", (str(number), [f"1700-{number}-7"]), (re.search(r"\d+", label)[0], self.register_of(1)))
        self.anew()
        self.given("number.csv", "D\n7.5. Qqz\n")
        self.press_label("input[name=sheet-order]", 1)
        wait_for("the word", lambda: self.text("select[data-name=Qqz]") is not None)
        self.option("select[data-name=Qqz]", "^(a number|eine Zahl)$")
        self.page.keys("input[data-name=Qqz]", "1806")
        self.page.press("\ue004")
        self.check(f"a number that is typed, {language}", ["1806-5-7"], self.register_of())
        self.given("nothing.csv", "D\nQqw 7.5.1806\n")
        self.press_label("input[name=sheet-order]", 1)
        wait_for("the word", lambda: self.text("select[data-name=Qqw]") is not None)
        self.option("select[data-name=Qqw]", "^(nothing|nichts)")
        self.check(f"a word that is passed over, {language}", ["1806-5-7"], self.register_of())

    def columns(self, language):
        self.given("columns.csv", "D\n1699-11-30\n")
        for name, day in (("hebrew", "5460-09-18"), ("rd", "620526")):
            self.tick(name)
            self.check(f"the column {name}, {language}", day, self.cell_back(name))

    def lines(self, language):
        for typed in ("5000", "", "-1", "1.5", "x"):
            self.page.run("const it = document.querySelector('#sheet-above'); it.value = arguments[0];"
                "it.dispatchEvent(new Event('change', { bubbles: true }))", typed)
            self.check(f"lines above the names that are no number, {typed}, {language}", ("0", True), (self.page.run(
                "return document.querySelector('#sheet-above').value"), "0" in self.text("#sheet-said") and "999" in self.text("#sheet-said")))

    # ---- The ways that have to be gone ----

    def church_book(self):
        """A sheet of 60 records with title lines, quotes, and two columns of dates, each of which has its calendars."""
        lines = ['"Kirchenbuch St. Anna";"";"";"";"";""', '"Band 3";"";"";"";"";""', '"Nr";"Name";"Geburtsdatum";"Kalender";"Todesdatum";"Stil"']
        for i in range(60):
            died = f"{i % 28 + 1}. Mai {1780 + i % 20}" if i % 3 else ""
            lines.append(f'"{i + 1}";"Müller, ""Hans"" {i}";"{i % 28 + 1}.{i % 12 + 1}.{1700 + i}";"{("julianisch", "gregorianisch")[i % 2]}";"{died}";"greg."')
        return self.file("kirche.csv", ("\r\n".join(lines) + "\r\n").encode("windows-1252"))

    def is_saved(self, what):
        saved = self.saved_files(1)["kirche.dates.csv"].decode("utf-8-sig").replace("\r\n", "\n").split("\n")
        self.check(f"{what}: titles and records", (64, 'Kirchenbuch St. Anna;;;;;'), (len(saved), saved[0]))
        born, died = (datetime.date(*it).strftime("%A;%Y-%m-%d") for it in ((1701, 2, 2), (1781, 5, 2)))
        self.check(f"{what}: days", (True, True), (saved[3].endswith(";Monday;1700-01-11;;;;5"), saved[4].endswith(f";{born};;{died};")))

    def try_six_clicks(self):
        """From drop to saved: on one screen, in at most six clicks; and by keys alone."""
        self.open()
        self.page.size(1280, 800)
        self.page.run("document.querySelector('#sheet-fold').open = false")
        self.give(self.church_book())
        wait_for("what is proposed", lambda: self.text("#sheet-orders") and self.text("#sheet-register"))
        said = self.text("#sheet-summary")
        self.check("what is proposed, in one line", "kirche.csv: semicolons, Western Europe (Windows-1252), 2 title lines, Geburtsdatum by Kalender, "
            "Todesdatum by Stil, year first, with weekday, gregorian behind them", said)
        sight = self.page.run(
            "const of = (which) => document.querySelector(which).getBoundingClientRect();"
            "return [of('.drop').top >= 0, of('#sheet-start').bottom <= innerHeight, of('#sheet-register').height > 100, of('#sheet-summary').height < 60]")
        self.check("one screen from what is given to Convert", [True] * 4, sight)
        self.shot("six-clicks", False)
        clicks = 0
        for which, shown in (("#sheet-order-day", lambda: "any" in self.text("#sheet-counts") or "All dates" in self.text("#sheet-counts")),
                ("#sheet-start", lambda: self.text("#sheet-results a.save")), ("#sheet-results a.save", lambda: True)):
            self.click(which)
            clicks += 1
            wait_for(which, shown)
        self.is_saved("by clicks")
        self.check("at most six clicks", True, clicks <= 6)
        self.check("what is empty is not refused", re.compile("60 rows. Geburtsdatum: none refused; Todesdatum: none refused, 20 empty"),
            self.text("#sheet-said"))
        self.by_keys()
        self.page.size(1100, 1400)
        self.open()

    def tabbed_to(self, which, most=60):
        for _ in range(most):
            if self.page.run("return document.activeElement.matches(arguments[0])", which):
                return True
            self.page.press("\ue004")
        return False

    def by_keys(self):
        self.open()
        self.page.run("document.querySelector('#sheet-fold').open = false")
        self.page.run("document.querySelector('#date-text').focus()")
        self.check("keys reach what chooses files", True, self.tabbed_to("#files"))
        self.give(self.church_book())
        wait_for("what is proposed", lambda: self.text("#sheet-orders") and self.text("#sheet-register"))
        for which, shown in (("#sheet-order-day", lambda: "All dates" in self.text("#sheet-counts")),
                ("#sheet-start", lambda: self.text("#sheet-results a.save")), ("#sheet-results a.save", lambda: True)):
            self.check(f"keys reach {which}", True, self.tabbed_to(which))
            self.page.press("\ue007")
            wait_for(which, shown)
        self.is_saved("by keys")

    def try_print(self):
        """What is printed fits on a sheet, and is tables alone."""
        self.open()
        head, row = ",".join(f"Spalte mit Namen {i}" for i in range(14)), ",".join(["ein Wort und noch eines"] * 13)
        self.sheet(self.file("wide.csv", f"D,{head}\n1700-1-1,{row},x\n1700-2-30,{row},y\n"), "utf-8", 44, -1, "julian", 0)
        self.convert_sheet()
        self.check("the reason beside a wide table is in sight, below its row", [True, True], self.reasons("#sheet-results", 150)[0])
        if not hasattr(self.page, "cdp"):
            return
        self.page.cdp("Emulation.setEmulatedMedia", media="print")
        self.page.width(700)
        wide = self.page.run("return [document.documentElement.scrollWidth, document.querySelector('#sheet-results table').getBoundingClientRect().right]")
        self.check("a table that is printed", [True, True], [it <= 701 for it in wide])
        shown = self.page.run("return ['nav', '#files-part', '#sheet-form'].map((it) => document.querySelector(it).checkVisibility())")
        self.check("what is not printed", [False] * 3, shown)
        self.page.cdp("Emulation.setEmulatedMedia", media="")
        self.page.width(1100)
        self.open()
