// The days of calendars by counting: years from their first one on, months of a year, days of a month; Easter, and the
// days of the church year. Days are numbered from 1 January of the Gregorian year 1 on, as in Reingold and Dershowitz,
// *Calendrical Calculations*, from which the first days of the calendars are.
"use strict";

// The last year that is counted, and the days that a register can have.
const LAST_YEAR = 99999, FIRST_DAY = -3652424, LAST_DAY = 3652059;

const LENGTHS = [31, 28, 31, 30, 31, 30, 31, 31, 30, 31, 30, 31];
const numbered = lengths => lengths.map((days, i) => [i + 1, days]);
const civil = isLeap => year => numbered(LENGTHS.map((days, i) => days + (i === 1 && isLeap(year) ? 1 : 0)));
const thirteen = isLeap => year => numbered([...Array(12).fill(30), isLeap(year) ? 6 : 5]);
const isGregorianLeap = year => year % 400 === 0 || year % 4 === 0 && year % 100 !== 0;
const everyFourth = rest => year => year % 4 === rest;

// 11 years of 30 have a leap day, those of the common tables.
const ISLAMIC_LEAPS = new Set([2, 5, 7, 10, 13, 16, 18, 21, 24, 26, 29]);
const islamic = year => numbered([30, 29, 30, 29, 30, 29, 30, 29, 30, 29, 30, ISLAMIC_LEAPS.has(year % 30) ? 30 : 29]);

// ---- the Hebrew calendar, by its new moons: a month has 29 days, 12 hours and 793 of 1080 parts of an hour; the first
// one was 5 hours and 204 parts behind the evening with which a Monday began. A year begins on the day of its new moon,
// if that is before noon, else a day later; never on Sunday, Wednesday or Friday; and a day later too by a new moon on
// Tuesday from 9 hours and 204 parts on in a common year, and on Monday from 15 hours and 589 parts on after a leap
// year.

const HOUR = 1080, DAY = 24 * HOUR;
const HEBREW_LEAPS = new Set([3, 6, 8, 11, 14, 17, 0]);
const isHebrewLeap = year => HEBREW_LEAPS.has(year % 19);
const moons = [0, 0];

function monthsBefore(year) {
  while (moons.length <= year) moons.push(moons[moons.length - 1] + (isHebrewLeap(moons.length - 1) ? 13 : 12));
  return moons[year];
}

// The day on which a Hebrew year begins, from a Sunday on, by the four rules.
function newYear(year) {
  const parts = DAY + 5 * HOUR + 204 + monthsBefore(year) * (29 * DAY + 12 * HOUR + 793);
  let day = Math.floor(parts / DAY);
  const weekday = day % 7, rest = parts % DAY;
  const isLate = rest >= 18 * HOUR || weekday === 2 && rest >= 9 * HOUR + 204 && !isHebrewLeap(year)
    || weekday === 1 && rest >= 15 * HOUR + 589 && isHebrewLeap(year - 1 + 19);
  if (isLate) day += 1;
  return [0, 3, 5].includes(day % 7) ? day + 1 : day;
}

function hebrew(year) {
  const days = newYear(year + 1) - newYear(year), isLeap = isHebrewLeap(year), over = days - (isLeap ? 383 : 353);
  const adar = isLeap ? [[12, 30], [13, 29]] : [[12, 29]];
  return [[7, 30], [8, over === 2 ? 30 : 29], [9, over === 0 ? 29 : 30], [10, 29], [11, 30], ...adar,
    [1, 30], [2, 29], [3, 30], [4, 29], [5, 30], [6, 29]];
}

// ----

// The months of a year in order, with their days; and the first day of year 1.
const RULES = {
  gregorian: [civil(isGregorianLeap), 1],
  julian: [civil(everyFourth(0)), -1],
  coptic: [thirteen(everyFourth(3)), 103605],
  ethiopic: [thirteen(everyFourth(3)), 2796],
  egyptian: [thirteen(() => false), -272787],
  armenian: [thirteen(() => false), 201443],
  islamic: [islamic, 227015],
  hebrew: [hebrew, -1373427],
  french: [thirteen(year => isGregorianLeap(year) && year % 4000 !== 0), 654415],
  republican: [thirteen(everyFourth(3)), 654415],
};

const starts = {};

// The first day of a year.
function startOf(calendar, year) {
  const [months, first] = RULES[calendar], known = starts[calendar] = starts[calendar] || [0, first];
  while (known.length <= year) {
    const last = known.length - 1;
    known.push(known[last] + months(last).reduce((sum, [, days]) => sum + days, 0));
  }
  return known[year];
}

// The number of a day, or null where the calendar has no such date, or a register not this day.
function dayOf(calendar, year, month, day) {
  if (!(calendar in RULES) || year < 1 || year > LAST_YEAR) return null;
  let number = startOf(calendar, year);
  for (const [name, days] of RULES[calendar][0](year)) {
    if (name === month) {
      number += day - 1;
      return day >= 1 && day <= days && number >= FIRST_DAY && number <= LAST_DAY ? number : null;
    }
    number += days;
  }
  return null;
}

// The months of a year and their days, in order; none where the calendar has no such year.
const monthsOf = (calendar, year) => year >= 1 && year <= LAST_YEAR ? RULES[calendar][0](year) : [];

// The date of a day that is in a year, or null.
function dateIn(calendar, year, number) {
  for (const [month, days] of RULES[calendar][0](year)) {
    const first = dayOf(calendar, year, month, 1);
    if (first !== null && number >= first && number < first + days) return { month, day: number - first + 1 };
  }
  return null;
}

// 0 for Sunday.
const weekdayOf = number => ((number % 7) + 7) % 7;
const sundayAfter = number => number + 7 - weekdayOf(number);

// Easter: the first Sunday after the full moon of Dionysius' table; in the Gregorian calendar by the rule that Nature
// printed in 1876, from 1583 on.
const MOONS = [405, 325, 413, 402, 322, 410, 330, 418, 407, 327, 415, 404, 324, 412, 401, 321, 409, 329, 417];

function easterOf(calendar, year) {
  if (calendar === "julian") {
    const moon = MOONS[year % 19];
    return sundayAfter(dayOf("julian", year, moon / 100 | 0, moon % 100));
  }
  if (year < 1583) return null;
  const a = year % 19, b = year / 100 | 0, c = year % 100, d = b / 4 | 0, e = b % 4, f = (b + 8) / 25 | 0;
  const g = (b - f + 1) / 3 | 0, h = (19 * a + b - d - g + 15) % 30, i = c / 4 | 0, k = c % 4;
  const l = (32 + 2 * e + 2 * i - h - k) % 7, m = (a + 11 * h + 22 * l) / 451 | 0, n = h + l - 7 * m + 114;
  return dayOf("gregorian", year, n / 31 | 0, n % 31 + 1);
}

// A day by its place to a day of the year, or to Easter.
function placed(calendar, year, [from, days]) {
  const anchor = from === "easter" ? easterOf(calendar, year) : dayOf(calendar, year, ...from);
  return anchor === null ? null : anchor + days;
}

// The seasons of Sundays that are numbered: behind which day they begin, and before which they end.
const ADVENT = [[11, 26], 0];
const SEASONS = {
  epiphany: [[[1, 6], 0], ["easter", -63]],
  lent: [["easter", -46], ["easter", 0]],
  easter: [["easter", 0], ["easter", 49]],
  pentecost: [["easter", 49], ADVENT],
  trinity: [["easter", 56], ADVENT],
  advent: [ADVENT, [[12, 25], 0]],
};

// The Sunday of a number in a season, if it has so many.
function sundayOf(calendar, year, season, number) {
  const [begin, end] = SEASONS[season].map(it => placed(calendar, year, it));
  if (begin === null || end === null || number < 1) return null;
  const day = sundayAfter(begin) + 7 * (number - 1), before = SEASONS[season][1] === ADVENT ? sundayAfter(end) : end;
  return day < before ? day : null;
}

module.exports = { dayOf, dateIn, monthsOf, placed, sundayOf, weekdayOf };
