// A second reading of the rules for texts that say no single day: their first and last day and their marks, by regular
// expressions and counted days; and the text of EDTF for two days. It shares nothing with the crates.
"use strict";
const { readFileSync } = require("fs");
const { join } = require("path");
const { dateIn, dayOf, monthsOf, placed, sundayOf } = require("./day_counts.cjs");
const {
  added, bareOf, byYear, counted, formOf, hasMixedSigns, hasOther, isBeside, isDecadeDay, isHalfYear, isLong, isOnWeekday,
  isOtherEra, itemsOf, ofThree, withoutTime, written,
} = require("./reading.cjs");

const { calendars } = JSON.parse(readFileSync(join(__dirname, "..", "crates", "register_facts", "stdout"), "utf8"));
// Calendars whose dates are not written by year, month and day.
const WITHOUT_MONTHS = calendars.filter(it => it.grammar !== calendars[0].grammar).map(it => it.name);
const REPUBLICAN = ["french", "republican"];
const BLANK = " \\t\\r\\n\\u00a0\\u202f", DASH = "\\-\\u2010-\\u2014\\u2212", SIGN = `.,/${DASH}`;
const pattern = (text, flags = "s") => new RegExp(text, flags);
const MARK = pattern("^(.*?)(?:[(]([?~%])[)]|([?~%]))$"), OPEN_END = pattern(`[/${DASH}][${BLANK}]*$`), OPEN_FRONT = pattern(`^[${BLANK}]*[/${DASH}]`);
// Three digits and a question mark right behind them, which may stand for a fourth.
const MISSING_DIGIT = /(?:^|[^0-9])[0-9]{3}[?]$/;
const MINUS = pattern(`(^|[${BLANK}${SIGN}])[${DASH}][0-9]`), ONLY_SLASH = pattern("^([^/]*)/([^/]*)$");
const ONLY_DASH = pattern(`^([^${DASH}]*)[${DASH}]([^${DASH}]*)$`), WIDE_DASH = pattern(`(^|[${BLANK}])[${DASH}]`, "gs");
const signsBetween = text => (text.replace(/^[^0-9]*|[^0-9]*$/g, "").match(pattern(`[${SIGN}]`, "g")) || [])
  .map(it => pattern(`[${DASH}]`).test(it) ? "-" : it);
const barsOf = text => (text.match(pattern(`[/${DASH}]`, "g")) || []).length;

// ---- how much items say: `{year, from, to, day, beside}`, where a month is from one to another, and a day stands in it; a
// part of a year `isPart` too, and `years` is how many years there are of a century or ten years

const isOneLetter = ({ era, digits, value }) => era === undefined && digits === 0 && [100, 500, 1000].includes(value);

// A part of a year, from a month to a month. None of a year that begins in September has its last month before its first.
function partOf({ months: [from, to] }, year) {
  return year.era === "creation" && from < 9 && to >= 9 ? null : { year, from, to, isPart: true };
}

// A half, a third or a quarter of a year, none of one that begins in September.
function shareOf([place, parts], year) {
  const [from, to] = [12 * (place - 1) / parts + 1, 12 * place / parts];
  return year.era === "creation" ? null : { year, from, to, isPart: true, isShare: true };
}

// A century, by a number that counts neither years nor days: from 100 of its years on, or from the year behind it; and of it
// the part of a place among so many.
function centuryOf({ century }, number, [place, parts] = [1, 1]) {
  if (isLong(number) || number.isDay || number.value < 2 || number.value > 30) return null;
  const [from, to] = [place - 1, place].map(it => Math.floor(100 * it / parts));
  return { year: { value: 100 * (number.value - 1) + century + from, digits: 4 }, years: to - from };
}

// Ten years from 100 on, that are no hundred.
function tensOf(year) {
  const isOne = year.value > 100 && year.value % 10 === 0 && year.value % 100 !== 0;
  return isOne && !isOtherEra(year.era) ? { year, years: 10 } : null;
}

// What items say of which one is a part of a year or a century, a century, ten years, or the last day of a month.
function period(items) {
  const [a, b, c] = items, [place, parts] = a.part ?? [1, 1], isOne = place <= parts;
  switch (formOf(items)) {
    case "pn": return partOf(a, b);
    case "np": return partOf(b, a);
    case "cn": return centuryOf(a, b);
    case "nc": return centuryOf(b, a);
    case "nz": return tensOf(a);
    case "qn": return isOne ? shareOf(a.part, b) : null;
    case "qcn": return isOne ? centuryOf(b, c, a.part) : null;
    case "qnc": return isOne ? centuryOf(c, b, a.part) : null;
    case "lmn": return { year: c, from: b.month, to: b.month, isLast: true };
    default: return null;
  }
}

function plain(items, { order, slashed, mixed }) {
  const months = items.map(it => it.adar ? { month: 12 } : it), isAdar = items.some(it => it.adar);
  const month = number => isAdar ? { from: 12, to: 13 } : { from: number, to: number };
  const small = it => !isLong(it) && !it.isNamed && !it.isDay;
  const [a, b] = months;
  switch (formOf(months)) {
    case "n": return { year: a };
    case "mn": return { year: b, ...month(a.month) };
    case "nm": return { year: a, ...month(b.month) };
    case "nn":
      if (order === "y") return small(b) && !slashed ? { year: a, from: b.value, to: b.value } : null;
      return small(a) ? { year: b, from: a.value, to: a.value } : null;
    case "nnn": if (mixed) return null;
  }
  const said = period(months);
  if (said !== null) return isAdar ? null : said;
  const three = ofThree("", order, months);
  if (three === null) return null;
  const { month: number, day } = three.find();
  return { year: three.year, ...month(number), day };
}

// A feast, or a Sunday by its number, in a year that is never short: the day on which it is, where a church reckons.
function ofFeast(items, year, { calendar, isDual }) {
  const form = formOf(items), isWhole = year.value >= 1 && (year.value >= 100 || year.digits >= 3), inYear = year.value;
  if (isDual || !isWhole || isOtherEra(year.era) || inYear > 9999 || !["gregorian", "julian"].includes(calendar)) return null;
  const [a, b] = items;
  const feast = form === "ns" && !isLong(a) && !a.isDay ? { sunday: [b.season, a.value] } : form === "f" ? a.feast : null;
  if (feast === null) return null;
  const found = feast.sunday ? sundayOf(calendar, inYear, ...feast.sunday) : placed(calendar, inYear, feast.day);
  const date = found === null ? null : dateIn(calendar, inYear, found);
  return date === null ? null : { year, from: date.month, to: date.month, day: date.day };
}

const endOf = items => items.length > 0 && "value" in items[items.length - 1] ? items[items.length - 1] : null;
const feastSide = (items, by) => endOf(items) === null ? null : ofFeast(items.slice(0, -1), endOf(items), by);

function parted(items) {
  if (items.length > 0 && isBeside(items[0])) return { beside: items[0], rest: items.slice(1) };
  return items.length === 4 && isBeside(items[3]) ? { beside: items[3], rest: items.slice(0, 3) } : { rest: items };
}

function extent(items, beside, by) {
  return checked(items.length > 0 ? plain(items, by) ?? feastSide(items, by) : null, beside, by);
}

// A part of a Hebrew year, which begins with the seventh month, does not go over the sixth; and what is a third of a year, or
// the like, is one of twelve months.
const hasTwelve = calendar =>
  monthsOf(calendar, 1).length === 12 && monthsOf(calendar, 1).every(([month], i) => month === i + 1);
const isInOrder = ({ isPart, isShare, from, to }, calendar) =>
  (!isPart || calendar !== "hebrew" || (from < 7) === (to < 7)) && (!isShare || hasTwelve(calendar));

// What is said, where its year is long and one that the calendar can have, and a weekday beside it is that of a day.
function checked(found, beside, by) {
  if (found !== null && !isInOrder(found, by.calendar)) return null;
  if (found === null || !isLong(found.year) || isOneLetter(found.year) || beside && !found.day && found.day !== 0) return null;
  const inRepublic = counted(found.year, found.from ?? 9) <= 99 || !REPUBLICAN.includes(by.calendar);
  return !inRepublic || isHalfYear(found.year, by.calendar) ? null : { ...found, beside };
}

const own = (items, by) => { const { beside, rest } = parted(items); return extent(rest, beside, by); };

// What a left side says, if need be with what it lacks of the right one.
function leftOf(left, right, by, shared) {
  const alone = own(left, by);
  if (alone !== null) return alone;
  const { beside, rest } = parted(left), more = parted(right).rest.slice(rest.length);
  if (rest.length === 0) return null;
  const last = endOf(parted(right).rest), inYear = last === null ? null : ofFeast(rest, last, shared);
  return extent([...rest, ...more], beside, shared) ?? checked(inYear, beside, shared);
}

// ---- sayings: a kind, and what it is said of

const isWord = (item, ...words) => item !== undefined && words.includes(item.word);
const withoutAbout = items => isWord(items[0], "about") ? items.slice(1) : items;
const one = (kind, said) => said === null ? null : { kind, first: said, last: said };
// Two years of which a word for the years of another era stands beside one alone say nothing: the other may be of it too.
const isOfOther = ({ year }) => isOtherEra(year.era);
const two = (kind, first, last) =>
  first === null || last === null || isOfOther(first) !== isOfOther(last) ? null : { kind, first, last };

function range(kind, left, right, byLeft, shared, byRight) {
  const bare = withoutAbout(right);
  return two(kind, leftOf(withoutAbout(left), bare, byLeft, shared), own(bare, byRight));
}

// What items say where the text is one side, or a word parts it.
function byWords(items, single, double) {
  const [first, ...rest] = items, alone = kind => one(kind, own(withoutAbout(kind === "" ? items : rest), single));
  if (first === undefined) return null;
  if (first.relation === "before" || first.relation === "after") return alone(first.relation);
  if (isWord(first, "to")) return alone("to");
  if (isWord(first, "undated")) return rest.length === 0 ? { kind: "undated" } : null;
  if (isWord(first, "and")) return null;
  const between = isWord(first, "between"), whole = between || isWord(first, "from") ? rest : items;
  const at = whole.findIndex(it => isWord(it, "to") || between && isWord(it, "and"));
  if (at >= 0) return range(between ? "between" : "", whole.slice(0, at), whole.slice(at + 1), double, double, double);
  return between ? null : alone(isWord(first, "from") ? "from" : "");
}

// The items of a text, in which those that belong together are one; null where there are more than sixteen.
function words(text, names) {
  const found = itemsOf(text, names), all = found === null ? null : added(found);
  return all !== null && all.length <= 16 ? all : null;
}

const sideItems = (text, names) =>
  MINUS.test(text) || OPEN_FRONT.test(text) || OPEN_END.test(text) ? null : words(text, names);

function atDash(text, left, right, names, by) {
  const before = sideItems(left, names), behind = sideItems(right, names);
  if (before === null || behind === null) return null;
  const byLeft = { ...by, mixed: hasMixedSigns(left) }, byRight = { ...by, mixed: hasMixedSigns(right) };
  const shared = { ...by, mixed: byRight.mixed || barsOf(left) + barsOf(right) === 1 };
  const kind = isWord(before[0], "between") ? "between" : "";
  const rest = isWord(before[0], "between", "from") ? before.slice(1) : before;
  return range(kind, rest, behind, byLeft, shared, byRight);
}

// The sides of a text at its only dash behind a blank.
function wideSides(text) {
  const found = [...text.matchAll(WIDE_DASH)];
  if (found.length !== 1) return null;
  const at = found[0].index + found[0][1].length;
  return [text.slice(0, at), text.slice(at + 1)];
}

// ---- dual years

// Two years can be those of a day, a month or a year of the calendar.
const canBeDual = ({ year, years, isPart, isLast }) =>
  year.value < 99999 && !isPart && !years && !isLast && !isOtherEra(year.era);

function dualSides(text, names, by) {
  const cut = ONLY_SLASH.exec(text);
  if (cut === null) return null;
  const before = sideItems(cut[1], names), behind = sideItems(cut[2], names);
  if (before === null || behind === null || formOf(behind) !== "n") return null;
  const left = own(withoutAbout(before), { ...by, slashed: false, mixed: hasMixedSigns(cut[1]), isDual: true });
  if (left === null || !canBeDual(left)) return null;
  const [next] = behind, later = left.year.value + 1;
  const isNext = next.value === later || next.digits === 2 && next.value === later % 100;
  return isNext ? { left, later: { ...left.year, value: later } } : null;
}

function ofDual({ left, later }, calendar) {
  if (!left.from && left.from !== 0) return { kind: "", first: left, last: { year: later } };
  const isBefore = left.from < 3 || left.from === 3 && left.day !== undefined && left.day < 25;
  const isOfOld = calendar === "julian" && left.to === left.from && isBefore;
  return isOfOld ? one("", { ...left, year: later }) : null;
}

// A day or a month of the old year before a slash, or a dash that no blank is before, and a number by which English books
// write the year after: its last digit, while the tens stay, or its last two.
function ofOldYear(text, names, by) {
  const cut = ONLY_SLASH.exec(text) ?? (wideSides(text) === null ? ONLY_DASH.exec(text) : null);
  if (by.calendar !== "julian" || cut === null) return null;
  const before = sideItems(cut[1], names), behind = sideItems(cut[2], names), ending = before && endOf(before);
  if (!ending || !isLong(ending) || behind === null || formOf(behind) !== "n") return null;
  const left = own(withoutAbout(before), { ...by, slashed: false, mixed: hasMixedSigns(cut[1]), isDual: true });
  if (left === null || left.from === undefined || !canBeDual(left)) return null;
  const [{ digits, value }] = behind, later = String(left.year.value + 1), old = String(left.year.value);
  const isShort = digits === 1 ? later === old.slice(0, -1) + value : digits === 2 && Number(later.slice(-2)) === value;
  return isShort ? ofDual({ left, later: { ...left.year, value: Number(later) } }, by.calendar) : null;
}

// ---- the days

// The year by the rule for short ones, in which what is said begins; null where it is refused or too large. A year from the
// creation of the world begins in September.
function yearOf({ year, from, years = 1 }, calendar, choice) {
  const found = byYear(year, choice, calendar, from ?? 9);
  return found === null || found + years - 1 > 99999 ? null : found;
}

const monthsIn = (calendar, year) => calendar === "gregorian" && year === 0
  ? monthsOf(calendar, 2000) : monthsOf(calendar, year);
const daysOf = (calendar, year, month) => (monthsIn(calendar, year).find(([number]) => number === month) || [0, 0])[1];

function ends(said, calendar, year) {
  if (said.day !== undefined) return Array(2).fill([year, said.from, said.day]);
  if (said.isLast) return Array(2).fill([year, said.from, daysOf(calendar, year, said.from)]);
  if (said.isPart) return [[year, said.from, 1], [year, said.to, daysOf(calendar, year, said.to)]];
  if (said.from !== undefined) {
    const last = said.to !== said.from && daysOf(calendar, year, said.to) > 0 ? said.to : said.from;
    return [[year, said.from, 1], [year, last, daysOf(calendar, year, last)]];
  }
  if (said.year.era === "creation") return [[year, 9, 1], [year + 1, 8, daysOf(calendar, year + 1, 8)]];
  const later = year + (said.years ?? 1) - 1, [first] = monthsIn(calendar, year)[0] || [0];
  const [last, days] = monthsIn(calendar, later).at(-1) || [0, 0];
  return [[year, first, 1], [later, last, days]];
}

// Whether a day is on the weekday beside it, and in no Adar of which there are two.
function isSo(said, calendar, year) {
  if (said.day === undefined || year === null) return true;
  const date = { month: said.from, day: said.day }, { beside } = said;
  if (said.to !== said.from && daysOf(calendar, year, said.to) > 0) return false;
  if (!beside) return true;
  return "weekday" in beside ? isOnWeekday(calendar, year, date, beside.weekday) : isDecadeDay(calendar, date, beside.decade);
}

const numberOf = (calendar, date) => date === null ? null : dayOf(calendar, ...date);
const padded = (number, width) => String(number).padStart(width, "0");

// The date beside a day, in a register's own form.
function beside(calendar, date, step) {
  const number = numberOf(calendar, date);
  if (number === null) return date.join("-");
  for (const year of [date[0] - 1, date[0], date[0] + 1]) {
    const found = year >= 1 ? dateIn(calendar, year, number + step) : null;
    if (found !== null) return `${padded(year, 4)}-${padded(found.month, 2)}-${padded(found.day, 2)}`;
  }
  return "";
}

function datesOf({ kind, first, last }, calendar, choice) {
  if (kind === "undated") return ["", ""];
  const years = [first, last].map(it => yearOf(it, calendar, choice));
  if (![first, last].every((it, i) => isSo(it, calendar, years[i]))) return null;
  const from = years[0] === null ? null : ends(first, calendar, years[0])[0];
  const to = years[1] === null ? null : ends(last, calendar, years[1])[1];
  const text = date => date === null ? "" : date.join("-");
  switch (kind) {
    case "before": return ["", from === null ? "" : beside(calendar, from, -1)];
    case "after": return [to === null ? "" : beside(calendar, to, 1), ""];
    case "from": return [text(from), ""];
    case "to": return ["", text(to)];
  }
  if (from === null || to === null) return ["", ""];
  const [n, k] = [numberOf(calendar, from), numberOf(calendar, to)];
  return n !== null && k !== null && k < n ? null : [text(from), text(to)];
}

// ---- a day in both styles

const OLD = "julian", NEW = "gregorian";

// Before the only slash of a text the Julian date of a day, with what it lacks of what is behind, and behind it the Gregorian
// one: that of the calendar, where both are one day.
function inStyles(text, names, calendar, choice) {
  const cut = [OLD, NEW].includes(calendar) && !hasOther(text) ? ONLY_SLASH.exec(text) : null;
  if (cut === null) return null;
  const before = sideItems(cut[1], names.all.get(OLD)), behind = sideItems(cut[2], names.all.get(NEW));
  if (before === null || behind === null) return null;
  const by = (side, own) => ({ order: choice.order, calendar: own, slashed: false, mixed: hasMixedSigns(side) });
  const said = [[leftOf(before, behind, by(cut[1], OLD), by(cut[2], OLD)), OLD], [own(behind, { ...by(cut[2], NEW), isDual: true }), NEW]];
  if (said.some(([it]) => it === null || it.day === undefined)) return null;
  const dates = said.map(([it, style]) => datesOf(one("", it), style, choice));
  if (dates.some(it => it === null || it[0] === "")) return null;
  const days = dates.map(([date], i) => dayOf(said[i][1], ...date.split("-").map(Number)));
  return days[0] !== null && days[0] === days[1] ? dates[calendar === OLD ? 0 : 1][0] : null;
}

// ---- all of it

function sayingOf(text, names, by, dual) {
  if (hasOther(text) || OPEN_FRONT.test(text) || OPEN_END.test(text)) return null;
  if (dual !== null) return ofDual(dual, by.calendar);
  const items = sideItems(text, names), bars = barsOf(text), slashed = text.includes("/");
  const all = { ...by, slashed }, differ = new Set(signsBetween(text)).size > 1;
  const whole = items === null ? null : byWords(items, { ...all, mixed: hasMixedSigns(text) },
    { ...all, mixed: differ || bars === 1 || bars === 2 });
  if (whole !== null) return whole;
  const cut = ONLY_DASH.exec(text), narrow = cut === null ? null : atDash(text, cut[1], cut[2], names, all);
  const wide = narrow === null ? wideSides(text) : null;
  return narrow ?? (wide === null ? null : atDash(text, ...wide, names, all)) ?? ofOldYear(text, names, by);
}

// One pair of square brackets, with more than blanks in it, is not there, if what is left says something.
const SUPPLIED = pattern("^([^\\[\\]]*)\\[([^\\[\\]]*)\\]([^\\[\\]]*)$"), ONLY_BLANKS = pattern(`^[${BLANK}]*$`);

// The first and the last day of a text, and its marks.
function spanOf(text, calendar, choice, names) {
  const cut = SUPPLIED.exec(text), stays = { first: text, last: text, marks: "unread" };
  if (calendar === null) return stays;
  if (cut === null || ONLY_BLANKS.test(cut[2]) || WITHOUT_MONTHS.includes(calendar)) {
    return plainSpanOf(text, calendar, choice, names);
  }
  const left = plainSpanOf(cut.slice(1).join(""), calendar, choice, names);
  return left.marks === "unread" ? stays : { ...left, marks: `${left.marks} inferred`.trimStart() };
}

// Those of a text in which no brackets count.
function plainSpanOf(text, calendar, choice, names) {
  const stays = { first: text, last: text, marks: "unread" };
  if (WITHOUT_MONTHS.includes(calendar)) {
    const date = written(text, calendar, choice, names).text;
    return { first: date, last: date, marks: "" };
  }
  const bare = bareOf(text), found = MARK.exec(bare);
  const isMarked = found !== null && !OPEN_END.test(found[1]) && !MISSING_DIGIT.test(bare);
  const kept = withoutTime(isMarked ? found[1] : bare, calendar, choice, names), sign = isMarked ? found[2] ?? found[3] : "";
  const by = { order: choice.order, calendar };
  const dual = dualSides(kept, names, by), date = written(kept, calendar, choice, names);
  const marksOf = (kind, isAbout) => [kind, isAbout || "~%".includes(sign) && sign ? "about" : "",
    "?%".includes(sign) && sign ? "uncertain" : ""].filter(it => it !== "").join(" ");
  if (dual === null && (date.rule !== null || date.reason === "short year")) {
    return { first: date.text, last: date.text, marks: marksOf("", false) };
  }
  const said = sayingOf(kept, names, by, dual), dates = said === null ? null : datesOf(said, calendar, choice);
  if (dates === null) {
    const day = said === null ? inStyles(kept, names, calendar, choice) : null;
    return day === null ? stays : { first: day, last: day, marks: marksOf("", false) };
  }
  const all = words(kept, names), isAbout = all !== null && all.some(it => isWord(it, "about"));
  return { first: dates[0], last: dates[1], marks: marksOf(said.kind, isAbout), isRange: said.first !== said.last };
}

// ---- EDTF, of days that are Gregorian texts, or empty where an end is open

function edtfOf(first, last, marks, isRange) {
  const isAbout = marks.includes("about"), isUncertain = marks.includes("uncertain");
  const mark = isAbout && isUncertain ? "%" : isAbout ? "~" : isUncertain ? "?" : "";
  if (first === "" && last === "") return "";
  if (first === "") return `../${last}${mark}`;
  if (last === "") return `${first}${mark}/..`;
  const [a, b] = [first, last].map(it => /^(-?\d+)-(\d\d)-(\d\d)$/.exec(it).slice(1));
  const isMonthEnd = new Date(Date.UTC(2000 + ((Number(b[0]) % 400) + 400) % 400, Number(b[1]), 0)).getUTCDate() === Number(b[2]);
  const isFromMonth = a[2] === "01" && isMonthEnd, isFromYear = isFromMonth && a[1] === "01" && b[1] === "12";
  const size = isFromYear ? 1 : isFromMonth ? 2 : 3, [x, y] = [a, b].map(it => it.slice(0, size).join("-"));
  if (x === y) return `${x}${mark}`;
  return isRange && !marks.includes("between") ? `${x}${mark}/${y}${mark}` : `[${x}${mark}..${y}${mark}]`;
}

module.exports = { edtfOf, spanOf };
