// A second reading of the rules of dates in words: what is written for a text, by which rule it was read, and why it
// stays. It is by characters, regular expressions and counted days, and shares nothing with the crates.
"use strict";
const { dayOf, dateIn, placed, sundayOf, weekdayOf } = require("./day_counts.cjs");

const WITHOUT_WORDS = ["iso", "longcount"], CHURCHES = ["gregorian", "julian"], REPUBLICAN = ["french", "republican"];
const KEEP_SHORT = [...WITHOUT_WORDS, ...REPUBLICAN, "egyptian", "roman"];
const BEGIN_AT_MIDNIGHT = [...CHURCHES, ...REPUBLICAN];
const BLANKS = " \\t\\r\\n\\u00a0\\u202f", DASHES = "\\-\\u2010-\\u2014\\u2212";
const ENDS = new RegExp(`^[${BLANKS}]+|[${BLANKS}]+$`, "g");
const OTHER = new RegExp(`[\\x00-\\x7f]`), KNOWN = new RegExp(`[A-Za-z0-9'.,/${DASHES}${BLANKS}]`);
const PART = new RegExp(`[0-9]+|(?:[A-Za-z']|[^\\x00-\\x7f\\u00a0\\u202f\\u2010-\\u2014\\u2212])+`, "g");
const BEGINS_WITH_DASH = new RegExp(`^[${DASHES}]`);
const MINUS = new RegExp(`(?:^|[${BLANKS}.,/${DASHES}])[${DASHES}][0-9]`);
const BAR = new RegExp(`[0-9].*[/${DASHES}].*[0-9]`, "s");
const SIGN = new RegExp(`[.,/${DASHES}]`, "g"), DASH = new RegExp(`[${DASHES}]`);
const HOUR = "(?:[01][0-9]|2[0-4]|[0-9](?![0-9]))", MINUTE = "[0-5][0-9]";
const HOUR_WORD = `[${BLANKS}]*(?:[aApP](?:[mM]|\\.[mM]\\.)|[uU][hH][rR]|[hH])[${BLANKS}]*`;
const CLOCK = `${HOUR}:${MINUTE}(?:[ \\t]*|${HOUR_WORD}|:${MINUTE}(?:[ \\t]*|${HOUR_WORD}|\\.[0-9]+))`;
const TIME = new RegExp(`^(.*?)(?:T${CLOCK}|[, \\t][ \\t]*(?:${CLOCK}|${HOUR}(?:\\.${MINUTE})?${HOUR_WORD}))$`, "s");

const bareOf = text => text.replace(ENDS, "");
const partsOf = text => text.match(PART) || [];
const hasOther = text => [...text].some(it => OTHER.test(it) && !KNOWN.test(it));

// A word as canonical caseless matching has it. The letters' own capitals do it, but for the dotless i, whose capital
// is that of another letter.
const foldOne = letter => letter === "\u0131" ? letter : letter.toLowerCase().toUpperCase().toLowerCase();
const folded = word => [...word.normalize("NFD")].map(foldOne).join("").normalize("NFD");

// ---- items

const ROMAN = new Map();
for (let n = 1; n < 4000; n += 1) {
  const digit = (d, i, v, x) => ["", i, i + i, i + i + i, i + v, v, v + i, v + i + i, v + i + i + i, i + x][d];
  const tens = digit((n / 100 | 0) % 10, "C", "D", "M") + digit((n / 10 | 0) % 10, "X", "L", "C");
  ROMAN.set("M".repeat(n / 1000 | 0) + tens + digit(n % 10, "I", "V", "X"), n);
}

// A number is `{value, digits}`, with 0 digits if it is a Roman one or a name, and `isNamed` for a name; `era` beside a word
// for year, with the era of its years, `isDay` beside a word for day. Other items have what they mean: `{month}`, `{mark}`,
// `{weekday}`, `{decade}`, `{relation}`, `{feast}`, `{season}`, `{yearWord}`, `{dayWord}`, `{word}`, `{adar}`, `{months}`,
// `{century}`, `{tens}`, `{part}`, `{lastDay}`.
function numberOf(part) {
  if (/^[0-9]/.test(part)) return part.length > 9 ? null : { value: Number(part), digits: part.length };
  return ROMAN.has(part) ? { value: ROMAN.get(part), digits: 0, isNamed: false } : null;
}

function longestName(names, words, at) {
  let best = null;
  for (const name of names.get(words[at]) || []) {
    const stands = name.words.every((word, k) => word === words[at + k]);
    if (stands && (best === null || name.words.length > best.words.length)) best = name;
  }
  return best;
}

// The items of a text, or null where a word is not known.
function itemsOf(text, names) {
  const parts = partsOf(text), words = parts.map(folded), found = [];
  for (let at = 0; at < parts.length;) {
    const name = longestName(names, words, at), item = name ? name.item : numberOf(parts[at]);
    if (item === null && !name) return null;
    if (item !== null) found.push(item);
    at += name ? name.words.length : 1;
  }
  return found;
}

const addsTo = (a, b) => a.value >= 1000 && a.value % 1000 === 0 && b.value < 1000
  || a.value >= 100 && a.value % 100 === 0 && b.value < 100;

const isLong = n => n.era !== undefined || n.digits >= 3 || n.digits === 0 && n.value >= 100;

// The first and the last year of other eras than that of the calendar.
const YEARS_OF = { spanish: [39, 1460], creation: [5509, 7208] };
const isOtherEra = era => era in YEARS_OF;
const hasYear = (era, year) => !isOtherEra(era) || year >= YEARS_OF[era][0] && year <= YEARS_OF[era][1];

// A year beside its word, or null where its era has no such year.
const inEra = (era, number) => hasYear(era, number.value) ? { ...number, era } : null;

// What a number is beside a word for year or for day, or null where they do not belong together. Before a word for year it
// is long, and its own years are those of the calendar anyway.
function besideWord(number, { yearWord: era }, isBehind) {
  if (era === undefined) return isLong(number) ? null : { ...number, isDay: true };
  if (isBehind) return inEra(era, number);
  return !isLong(number) ? null : isOtherEra(era) ? inEra(era, number) : number;
}

// The sum of two numbers by name, which still is a year of its era; or null.
function sumOf(a, b) {
  const value = a.value + b.value;
  return a.isNamed && b.isNamed && addsTo(a, b) && hasYear(a.era, value) ? { ...a, value } : null;
}

// The one item that two items are, or null. A word for day before a weekday or a feast says nothing more.
function togetherOf(a, b) {
  if ("value" in a && "value" in b) return sumOf(a, b);
  if ("value" in b && (a.yearWord || a.dayWord)) return besideWord(b, a, true);
  if ("value" in a && (b.yearWord || b.dayWord)) return besideWord(a, b, false);
  return a.dayWord && ("weekday" in b || "feast" in b) ? b : null;
}

// Numbers by name that stand directly behind one another add up, and words for year and day belong to their numbers.
function added(items) {
  const all = [];
  for (const item of items) {
    const together = all.length > 0 ? togetherOf(all[all.length - 1], item) : null;
    if (together !== null) all[all.length - 1] = together;
    else all.push(item);
  }
  return all;
}

const LETTERS = {
  value: "n", month: "m", mark: "k", weekday: "w", decade: "d", relation: "r", feast: "f", season: "s", yearWord: "y",
  dayWord: "t", word: "o", adar: "a", months: "p", century: "c", tens: "z", part: "q",
  lastDay: "l",
};
const letterOf = item => LETTERS[Object.keys(LETTERS).find(key => key in item)];
const formOf = items => items.map(letterOf).join("");

// ---- the rules: what they read is a rule's name, the year, and what finds the month and the day in a year

const plain = (rule, year, month, day) => ({ rule, year, month, find: () => ({ month, day }) });

function byOrder(rule, order, [a, b, c]) {
  if (order === "y") return plain(rule, a, b.value, c.value);
  return order === "d" ? plain(rule, c, b.value, a.value) : plain(rule, c, a.value, b.value);
}

function monthBetween(rule, order, a, month, c) {
  if (isLong(a) && isLong(c)) return null;
  const isFirst = isLong(a) || !isLong(c) && order === "y";
  return isFirst ? plain(rule, a, month, c.value) : plain(rule, c, month, a.value);
}

function monthInFront(text, [{ month }, day, year]) {
  if (isLong(day) || !isLong(year) && BAR.test(text)) return null;
  return plain("month in front", year, month, day.value);
}

// Whether the signs are not those of one date in three numbers. One dash is like another.
function hasMixedSigns(text) {
  const signsOf = part => (part.match(SIGN) || []).map(it => DASH.test(it) ? "-" : it);
  const between = signsOf(text.replace(/^[^0-9]*|[^0-9]*$/g, "")), bars = signsOf(text).filter(it => "-/".includes(it));
  return new Set(between).size > 1 || ![0, 2].includes(bars.length);
}

function threeNumbers(text, order, numbers) {
  const [a, b, c] = numbers, signs = text.match(SIGN) || [];
  if (hasMixedSigns(text) || isLong(b) || isLong(a) && isLong(c)) return null;
  if (a.digits && !b.digits && c.digits) return monthBetween("Roman month", order, a, b.value, c);
  if (isLong(a)) return byOrder("three numbers", "y", numbers);
  if (isLong(c)) return order === "y" ? null : byOrder("three numbers", order, numbers);
  const isDashed = numbers.every(it => it.digits) && signs.length === 2 && signs.every(it => DASH.test(it));
  return byOrder("three numbers", isDashed ? "y" : order, numbers);
}

function ofThree(text, order, items) {
  switch (formOf(items)) {
    case "nmn": return monthBetween("month between", order, items[0], items[1].month, items[2]);
    case "mnn": return monthInFront(text, items);
    case "nnn": return threeNumbers(text, order, items);
    default: return null;
  }
}

// The day of a weekday of a number in a month, unless this number is another day of the month on the same weekday.
function weekdayInMonth(calendar, [count, { weekday }, { month }, year]) {
  if (isLong(count)) return null;
  const isOn = (inYear, day) => isOnWeekday(calendar, inYear, { month, day }, weekday);
  const find = inYear => {
    if (count.value < 1 || count.value > 5) return null;
    const day = [1, 2, 3, 4, 5, 6, 7].map(it => it + 7 * (count.value - 1)).find(it => isOn(inYear, it));
    const isAnother = isOn(inYear, count.value) && day !== count.value;
    return day === undefined || isAnother ? null : { month, day };
  };
  return { rule: "weekday in a month", year, month, find };
}

// The season of Sundays behind a feast.
const SEASONS = { "1,6,0": "epiphany", "easter,0": "easter", "easter,49": "pentecost", "easter,56": "trinity" };
const MOVED = { eve: -1, morrow: 1, octave: 7 };

// What finds the day's number in a year, by a feast and what stands before it: a number, a weekday, a relation.
function feastFinder(calendar, number, weekday, relation, { feast, season }) {
  const ofFeast = year => feast.sunday ? sundayOf(calendar, year, ...feast.sunday) : placed(calendar, year, feast.day);
  if (number !== null) {
    const of = season || relation === "after" && SEASONS[String(feast.day)];
    if (!of || isLong(number) || number.isDay || season && relation !== null) return null;
    return year => sundayOf(calendar, year, of, number.value);
  }
  if (season) return null;
  const moved = by => year => { const day = ofFeast(year); return day === null ? null : by(day); };
  if (relation === null) return ofFeast;
  if (relation in MOVED) return weekday === null ? moved(day => day + MOVED[relation]) : null;
  if (weekday === null) return null;
  const step = relation === "after" ? 1 : -1;
  return moved(day => [1, 2, 3, 4, 5, 6, 7].map(it => day + it * step).find(it => weekdayOf(it) === weekday));
}

function byFeast(calendar, items) {
  const parted = /^(wn|nw|w|n|)(r?)([fs])n$/.exec(formOf(items));
  if (parted === null || !CHURCHES.includes(calendar)) return null;
  const front = items.slice(0, parted[1].length), [last, year] = items.slice(-2);
  const number = front.find(it => "value" in it) || null, weekdays = front.filter(it => "weekday" in it);
  const weekday = weekdays.length > 0 ? weekdays[0].weekday : null;
  const relation = parted[2] ? items[items.length - 3].relation : null;
  const finder = feastFinder(calendar, number, weekday, relation, last);
  if (finder === null) return null;
  const find = inYear => {
    const day = inYear < 1 || inYear > 9999 ? null : finder(inYear);
    return day === null ? null : dateIn(calendar, inYear, day);
  };
  return { rule: number ? "Sunday by number" : relation ? "day by a feast" : "feast", year, find };
}

const isBeside = item => "weekday" in item || "decade" in item;
const nameOf = item => "weekday" in item ? "beside a weekday" : "beside a day of the decade";

// What items say as a day of a year.
function civil(text, calendar, order, items) {
  const isBehind = items.length > 0 && isBeside(items[0]), isBefore = items.length === 4 && isBeside(items[3]);
  const three = ofThree(text, order, isBehind ? items.slice(1) : isBefore ? items.slice(0, 3) : items);
  const beside = isBehind ? items[0] : isBefore ? items[3] : null;
  if (three !== null) return beside === null ? three : { ...three, rule: `${three.rule}, ${nameOf(beside)}` };
  return formOf(items) === "nwmn" ? weekdayInMonth(calendar, items) : byFeast(calendar, items);
}

function isOnWeekday(calendar, year, { month, day }, weekday) {
  const number = dayOf(calendar, year, month, day);
  return number !== null && weekdayOf(number) === weekday;
}

// A month of the Republic has three decades, but for the days behind the last month.
function isDecadeDay(calendar, { month, day }, decade) {
  return REPUBLICAN.includes(calendar) && month <= 12 && [decade, decade + 10, decade + 20].includes(day);
}

// ---- the year, and what is written

const stays = (text, reason) => ({ text, rule: null, reason });

// What is done with a year that stands alone: it is kept, the date is left empty, or years are added.
function ruleAlone({ value, digits }, choice, calendar) {
  const ofTwo = value < 100 && digits <= 2;
  if (CHURCHES.includes(calendar) && ofTwo) return choice.short;
  if (calendar === "hebrew") return value < 1000 && digits <= 3 ? choice.hebrew : "k";
  return ofTwo && !KEEP_SHORT.includes(calendar) ? choice.other : "k";
}

// Beside a word for year it is kept and not refused; years of another era are never short.
function ruleOf(year, choice, calendar) {
  const rule = isOtherEra(year.era) ? "k" : ruleAlone(year, choice, calendar);
  return rule === "r" && year.era !== undefined ? "k" : rule;
}

// The year of the calendar that a year is in a month; null where the month has to be known, and is not. The Spanish era is
// 38 years ahead. Years from the creation of the world begin in September of the year 5509 before theirs.
function counted({ value, era }, month) {
  if (era === "spanish") return value - 38;
  if (era !== "creation") return value;
  return month === undefined ? null : value - (month >= 9 ? 5509 : 5508);
}

function byYear(year, choice, calendar, month) {
  const rule = ruleOf(year, choice, calendar), number = counted(year, month);
  if (rule === "r" || number === null) return null;
  return rule === "k" ? number : number + rule;
}

// A date as registers have it, or null.
function ofRegister(bare, calendar, { order, ...choice }) {
  if (/^-[0-9]+-[0-9]+-[0-9]+$/.test(bare)) return { text: bare, rule: "a register's date" };
  const runs = /^([0-9]+)-([0-9]+)-([0-9]+)$/.exec(bare);
  if (runs === null || order !== "y" && runs[3].length >= 3 && runs[1].length < 3) return null;
  const number = { value: Number(runs[1]), digits: runs[1].length }, year = byYear(number, choice, calendar);
  const isKept = year === number.value || runs.slice(1).some(run => run.length > 9);
  if (isKept) return { text: bare, rule: "a register's date" };
  if (year === null) return stays("", "short year");
  return { text: `${year}-${Number(runs[2])}-${Number(runs[3])}`, rule: "a register's date, with a longer year" };
}

function roman(text, items, charters) {
  const form = formOf(items);
  if (form !== "nkmn" && form !== "kmn") return stays(text, "no date");
  const [{ mark }, { month }, year] = items.slice(-3);
  if (isOtherEra(year.era)) return stays(text, "another era");
  const count = form === "nkmn" ? items[0].value : 1;
  const later = charters && mark === "K" && month === 1 && count >= 2 ? 1 : 0;
  return { text: `${year.value + later}-${month}-${mark}${count}`, rule: "Roman date" };
}

// What is missing where no rule reads items.
function missing(items) {
  const form = formOf(items), hasNoDay = form === "mn" && isLong(items[1]) || form === "nm" && isLong(items[0]);
  return hasNoDay || form === "n" && isLong(items[0]) ? "no day" : "no date";
}

// A Gregorian or Julian year in words is written whole.
const isHalfYear = (year, calendar) => CHURCHES.includes(calendar) && year.isNamed === true && year.value < 100;

// The date that a reading names, if all weekdays and days of decades in the text are its.
function dated(text, calendar, choice, items, { rule, year: number, month, find }) {
  if (isHalfYear(number, calendar)) return stays(text, "no date");
  if (counted(number, month) === null) return stays(text, "a feast in a year of the creation");
  const year = byYear(number, choice, calendar, month);
  if (year === null) return stays("", "short year");
  if (REPUBLICAN.includes(calendar) && year > 99) return stays(text, "no such year");
  const date = find(year);
  if (date === null) return stays(text, "no date");
  const agrees = item => "weekday" in item ? isOnWeekday(calendar, year, date, item.weekday)
    : isDecadeDay(calendar, date, item.decade);
  if (!items.filter(isBeside).every(agrees)) return stays(text, "another weekday");
  return { text: `${year}-${date.month}-${date.day}`, rule };
}

// What is written for a text with all that stands in it: `{text, rule}`, or `{text, rule: null, reason}` where no date is
// read; also, whether
// numbers add up. The calendar is null where it is not known, and `names` are those that hold in it, by their first
// words.
function whole(text, calendar, choice, names) {
  if (calendar === null || WITHOUT_WORDS.includes(calendar)) return stays(text, "no words");
  const bare = bareOf(text), registered = calendar === "roman" ? null : ofRegister(bare, calendar, choice);
  if (registered !== null) return registered;
  if (hasOther(text)) return stays(text, "a character");
  if (BEGINS_WITH_DASH.test(bare) || MINUS.test(text)) return stays(text, "a minus");
  const found = itemsOf(text, names);
  if (found === null) return stays(text, "an unknown word");
  const items = added(found);
  if (calendar === "roman") return roman(text, items, choice.charters);
  const reading = civil(text, calendar, choice.order, items);
  if (reading === null) return stays(text, missing(items));
  return { ...dated(text, calendar, choice, items, reading), isSum: items.length < found.length };
}

// The text before a time of day at its end; null where it has none, or a minus.
function beforeTime(text) {
  const found = MINUS.test(text) ? null : TIME.exec(text);
  return found === null ? null : found[1];
}

const isDate = found => found.rule !== null || found.reason === "short year";

// A text, or the date that stands before a time of day at its end, where it is none with it.
function withoutTime(text, calendar, choice, names) {
  if (!BEGIN_AT_MIDNIGHT.includes(calendar)) return text;
  const before = beforeTime(text);
  if (before === null || isDate(whole(text, calendar, choice, names))) return text;
  return isDate(whole(before, calendar, choice, names)) ? before : text;
}

// The same, where a time of day behind a date is left out.
function written(text, calendar, choice, names) {
  const kept = withoutTime(text, calendar, choice, names), found = whole(kept, calendar, choice, names);
  return kept === text || found.rule === null ? found : { ...found, rule: `${found.rule}, with a time` };
}

module.exports = {
  added, bareOf, byYear, counted, folded, formOf, hasMixedSigns, hasOther, isBeside, isDecadeDay, isHalfYear, isLong,
  isOnWeekday, isOtherEra, itemsOf, ofThree, partsOf, withoutTime, written,
};
