// Random texts of dates: most are dates of some form, with names of a list and a slip here and there; others are words.
"use strict";
const { dayOf, placed, weekdayOf } = require("./day_counts.cjs");

let state = 3n;

function seed(number) {
  state = BigInt(number) * 2n + 1n;
}

// A number below n.
function below(n) {
  state = (state * 6364136223846793005n + 1442695040888963407n) & 0xffffffffffffffffn;
  return Number(state >> 33n) % n;
}

const one = list => list[below(list.length)];
const chance = n => below(n) === 0;
const from = (low, high) => low + below(high - low + 1);
const words = text => text.split(" ");

const BLANKS = [" ", " ", " ", " ", "  ", "\t", "\r", "\n", "\u00a0", "\u202f"];
const DASHES = ["-", "-", "-", "\u2010", "\u2011", "\u2012", "\u2013", "\u2014", "\u2212"];
const SIGNS = [".", ".", ". ", ", ", "/", ...DASHES, " - ", " -", "- ", "--", ". -", ",", ".,", "", " / "];
const SAME_SIGNS = [".", ".", "/", "-", " ", ". ", ", ", " - "];
const OTHERS = [..."?(*xäKN:[&", "ca.", "\u2019", "\u200b", "\u2015", "\u00b7", "\u0308"];
const TIMES = [" 14:30", " 00:00:00", "T14:30", ", 10 Uhr", " 3 p.m.", ", 3.30 PM", " 24:00", " 25:00", " 14:60", "T14:30Z",
  " 4:3", " 12:00:00 AM", " 00:00:00.000", ", 10 h", " h", " 10 Uhr -", "\t7:05 ", " 10:30:00 - 11:00", "14:30",
  ",09:05:07 uhr\u00a0"];
const ROMANS = words("I II III IV V VI IX X XII XIV XVI XXIV XXXI XCIX C CD MDCCC MMMCMXCIX IIII VX iv Iv IC MM");
// The forms of dates: d, m and y a day, a month by name and a year, n and r a month in digits and as a Roman number.
const ORDERS = words("dmy dmy dmy dmy dmy dmy mdy mdy ymd dny dny ndy ynd dry dry yrd rdy dym my ym y ddmy mdd dnn");
const DECADES = words("admy admy dmya admya damy amy awdmy");
const FORMS = words("date date date signed signed register weekdayInMonth feast feast sunday minus inWords anything");
const ROMAN_FORMS = words("kalends kalends kalends date anything");
// The feasts behind which Sundays are numbered.
const NUMBERED = words("1,6,0 easter,0 easter,49 easter,56");
// A year of records in other calendars than those of churches.
const NEAR = {
  hebrew: 5507, islamic: 1200, coptic: 1500, ethiopic: 1798, egyptian: 2500, armenian: 1200, french: 1, republican: 1,
};
// The years of other eras, and a few before and behind these.
const ERAS = { spanish: [30, 1470], creation: [5500, 7220] };
const ODD_YEARS = [0, 100, 507, 806, 1582, 1583, 1800, 1900, 9999, 10000, 99999, 100000];

function romanOf(number) {
  const digits = [[1000, "M"], [900, "CM"], [500, "D"], [400, "CD"], [100, "C"], [90, "XC"], [50, "L"], [40, "XL"],
    [10, "X"], [9, "IX"], [5, "V"], [4, "IV"], [1, "I"]];
  let rest = number, text = "";
  for (const [value, letters] of digits) for (; rest >= value; rest -= value) text += letters;
  return text || "0";
}

// Another way to write a text, which for names mostly means the same.
function changed(text) {
  switch (below(20)) {
    case 0: return text.toLowerCase();
    case 1: return text.toUpperCase();
    case 2: return text.normalize("NFD");
    case 3: return text.replace(/s(?=.)/g, "\u017f").replace(/k/gi, "\u212a");
    case 4: return text.replace(/ss/g, "ß").replace(/ß/g, "\u1e9e");
    case 5: return text.replace(/ /g, () => one([...BLANKS, ".", "-"]));
    case 6: return text.replace(/i/g, "\u0131");
    default: return text;
  }
}

// The texts for a list of names in one calendar.
class Texts {
  constructor(list, calendar) {
    this.calendar = calendar;
    this.all = list.names;
    const names = list.names.filter(it => it.calendars.has(calendar));
    const saying = key => names.filter(it => it.item !== null && key in it.item);
    this.kinds = {
      m: saying("month"), k: saying("mark"), w: saying("weekday"), a: saying("decade"), r: saying("relation"),
      f: saying("feast"), s: saying("season"), n: saying("value"), o: names.filter(it => it.item === null),
      y: saying("yearWord"), t: saying("dayWord"), p: saying("months"), c: saying("century"), z: saying("tens"),
      q: saying("part"), l: saying("lastDay"),
      u: names.filter(it => it.item !== null && it.item.word === "undated"),
    };
  }

  // A name of a kind, of which a test holds if there is one.
  name(kind, test = () => true) {
    const fit = this.kinds[kind].filter(it => test(it.item));
    return changed(one(fit.length > 0 ? fit : this.all).text);
  }

  number(value) {
    switch (below(20)) {
      case 0: return String(value).padStart(2, "0");
      case 1: return romanOf(value);
      case 2: return String(value).padStart(4, "0");
      case 3: return this.named(value);
      default: return String(value);
    }
  }

  // The names of a number, or of its thousands, hundreds and rest; or else its digits.
  named(value) {
    const meaning = it => this.kinds.n.filter(({ item }) => item.value === it);
    const parts = [value - value % 1000, value % 1000 - value % 100, value % 100].filter(it => it > 0).map(meaning);
    if (meaning(value).length > 0) return changed(one(meaning(value)).text);
    if (parts.some(it => it.length === 0)) return String(value);
    return parts.map(it => changed(one(it).text)).join(one([" ", "-", " "]));
  }

  // A number, now and then beside a word for year or for day; beside one for the years of another era mostly one of these.
  besideWord(kind, text) {
    if (this.kinds[kind].length === 0 || !chance(8)) return text;
    const other = this.kinds[kind].filter(it => it.item.yearWord in ERAS);
    const { text: name, item } = one(other.length > 0 && chance(3) ? other : this.kinds[kind]);
    const word = changed(name), era = ERAS[item.yearWord];
    const number = era !== undefined && below(6) ? this.number(from(...era)) : text;
    return chance(4) ? `${number} ${word}` : `${word} ${number}`;
  }

  year() {
    const near = NEAR[this.calendar] || 1750, years = near < 100 ? 14 : 300;
    return [from(1, 2100), from(1, 99), one(ODD_YEARS)][below(7)] ?? near + below(years);
  }

  day() {
    return chance(12) ? from(0, 33) : from(1, 30);
  }

  month() {
    return chance(12) ? from(0, 14) : from(1, 12);
  }

  joined(...parts) {
    const between = () => this.sign ?? one(chance(6) ? SIGNS : BLANKS);
    return parts.map(it => chance(25) ? `${this.name("o")} ${it}` : it)
      .reduce((text, it, k) => text + (k > 0 ? between() : "") + it, "");
  }

  // A weekday or a day of the decade, which is mostly that of a date.
  beside(year, month, day) {
    if (this.kinds.a.length > 0 && chance(2)) return this.decadeDay(day);
    const number = dayOf(this.calendar, year, month, day), isAny = number === null || chance(4);
    return this.name("w", it => isAny || it.weekday === weekdayOf(number));
  }

  decadeDay(day) {
    return this.name("a", it => chance(4) || it.decade % 10 === day % 10);
  }

  date() {
    const year = this.year(), month = this.month(), day = this.day(), order = one(ORDERS);
    const parts = {
      y: this.besideWord("y", this.number(year)), m: this.name("m", it => it.month === month), n: this.number(month),
      d: this.besideWord("t", this.number(day)),
      r: romanOf(month), w: this.beside(year, month, day),
    };
    const odd = one([`w${order}w`, `${order[0]}w${order.slice(1)}`]);
    return this.joined(...[...one([order, order, `w${order}`, `w${order}`, `${order}w`, odd])].map(it => parts[it]));
  }

  // Three numbers, mostly with the same sign between them.
  signed() {
    const same = one(SAME_SIGNS), [a, b] = chance(4) ? [one(SIGNS), one(SIGNS)] : [same, same];
    const numbers = [this.day(), this.month(), chance(3) ? below(100) : this.year()];
    const [x, y, z] = (chance(3) ? numbers.reverse() : numbers).map(it => this.number(it));
    return `${chance(6) ? `${this.name("w")}, ` : ""}${x}${a}${y}${b}${z}`;
  }

  register() {
    const odd = ["0012", "123456789", "1234567890", ""];
    const part = () => chance(20) ? one(odd) : String(one([below(100), below(32), this.year()]));
    const text = [part(), part(), part()].join(chance(15) ? one(DASHES) : "-");
    return one(["", "", "", "-", " ", "\u00a0", " -", "- "]) + text + one(["", "", "", " ", "\n", ".", "-"]);
  }

  weekdayInMonth() {
    const count = chance(9) ? 0 : from(1, chance(5) ? 9 : 5);
    return this.joined(this.number(count), this.name("w"), this.name("m"), this.number(this.year()));
  }

  dayOfDecade() {
    const month = from(1, 13), day = from(1, 30);
    const parts = {
      a: this.decadeDay(day), d: this.number(day), m: this.name("m", it => it.month === month),
      y: this.number(from(1, 14)), w: this.name("w"),
    };
    return this.joined(...[...one(DECADES)].map(it => parts[it]));
  }

  feast() {
    const feast = one([...this.kinds.f, ...this.kinds.s]), year = chance(2) ? from(1300, 1950) : this.year();
    if (feast === undefined) return this.date();
    const relation = chance(2) ? this.name("r") : null, number = chance(4) ? this.number(from(1, 27)) : null;
    const front = [number, this.onFeast(feast.item, year, relation)], parts = chance(2) ? front : front.reverse();
    parts.push(relation, changed(feast.text), chance(20) ? this.name("f") : null, this.number(year));
    return this.joined(...parts.filter(it => it !== null && !chance(30)));
  }

  // A weekday beside a feast: without a relation, mostly that of the feast.
  onFeast({ feast }, year, relation) {
    if (chance(2)) return null;
    const isOn = feast && feast.day && relation === null && year > 0 && year < 9999;
    const isKept = isOn && ["gregorian", "julian"].includes(this.calendar);
    const day = isKept ? placed(this.calendar, year, feast.day) : null;
    return this.name("w", it => day === null || it.weekday === weekdayOf(day));
  }

  sunday() {
    const feasts = this.kinds.f.filter(it => NUMBERED.includes(String(it.item.feast.day)));
    const season = one([...this.kinds.s, ...feasts]);
    const number = this.besideWord("t", this.number(from(1, chance(4) ? 28 : 6)));
    if (season === undefined) return this.weekdayInMonth();
    const weekday = chance(2) ? [this.name("w", it => it.weekday === 0 || chance(20))] : [];
    const after = season.item.feast ? [this.name("r", it => it.relation === "after")] : [];
    const front = chance(2) ? [...weekday, number] : [number, ...weekday];
    return this.joined(...front, ...after, changed(season.text), this.number(from(1500, 1900)));
  }

  minus() {
    const day = this.day(), month = this.month(), year = this.year(), name = this.name("m"), dash = one(DASHES);
    return one([`${day}.${month}.-${year}`, `${day} ${name} ${dash}${year}`, `${dash} ${day} ${name} ${year}`,
      `${year}--${month}--${day}`, `${day} ${name} ${dash} ${year}`, `${year} -${month}-${day}`]);
  }

  inWords() {
    const month = this.name("m"), day = this.named(this.day());
    const year = this.named(one([this.year(), from(1000, 1999), from(1500, 1900)]));
    return this.joined(...one([[day, month, year], [year, month, day], [month, day, year],
      [this.number(this.day()), month, year]]));
  }

  kalends() {
    const count = chance(4) ? [] : [this.number(from(1, 19))], weekday = chance(15) ? [this.name("w")] : [];
    return this.joined(...count, this.name("k"), this.name("m"), this.number(from(900, 1700)), ...weekday);
  }

  anything() {
    const parts = Array.from({ length: from(1, 6) }, () => {
      const kind = one([..."mwarfsnokpczuql", "digits", "digits", "digits", "other", "Roman"]);
      if (kind === "digits") return String(one([below(32), below(2000), this.year(), "1234567890", "00"]));
      return kind === "other" ? one(OTHERS) : kind === "Roman" ? one(ROMANS) : this.name(kind);
    });
    return this.joined(...parts);
  }

  text() {
    const forms = this.calendar === "roman" ? ROMAN_FORMS : FORMS;
    const end = () => chance(12) ? one([one(BLANKS), ..."..,-?"]) : "";
    this.sign = chance(3) ? one([" ", " ", ". ", "-", ".", " - "]) : null;
    const form = this.kinds.a.length > 0 && chance(4) ? "dayOfDecade" : one(forms);
    return end() + this[form]() + (chance(10) ? one(TIMES) : "") + end();
  }
}

module.exports = { BLANKS, Texts, below, one, seed };
