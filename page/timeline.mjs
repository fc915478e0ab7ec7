// What a picture of a register shows: its entries along one line of time by their days, for each calendar. What the day of
// a record is, and what a year is, comes from the proved module: this script reads no register, and knows no calendar.

import { NO_CALENDAR, NO_DAY } from './module.mjs';
import { EVERY, range, rowsOf } from './tables.mjs';

const COMMA = 44;
// The places of the id, the calendar and the date in a register.
const TOLD = [0, 1, 2];
/** Into so many parts the line of time is cut. */
export const BINS = 200;
// So many entries and gaps are told one by one.
const MOST_FAR = 20, MOST_GAPS = 5;
// Parts of the line that a mark of a year stands at, at most, and in how many years such marks can stand.
const MOST_MARKS = 8, STEPS = [1, 2, 5].flatMap((it) => [it, 10 * it, 100 * it, 1000 * it]).sort((a, b) => a - b);
const [FIRST_YEAR, LAST_YEAR] = [-9999, 9999];

/** The first days of Gregorian years, as the module finds them. */
function yearsOf(module) {
  const years = range(LAST_YEAR - FIRST_YEAR + 1).map((i) => FIRST_YEAR + i);
  const fields = years.flatMap((year) => ['', 'gregorian', `${year}-1-1`]);
  const register = module.write(['id', 'calendar', 'date', ...fields], 3, COMMA);
  const { days } = module.registerDays(register, COMMA, false);
  module.free(register);
  return { start: (year) => days[year - FIRST_YEAR], of: (day) => FIRST_YEAR + placeOf(days, day) };
}

// The place of the last number that is not over this one, in numbers in order.
function placeOf(numbers, wanted) {
  let [low, high] = [0, numbers.length - 1];
  while (low < high) {
    const middle = Math.ceil((low + high) / 2);
    if (numbers[middle] <= wanted) low = middle;
    else high = middle - 1;
  }
  return low;
}

/**
 * From which day to which entries are not far from the others: no further from the middle four fifths of all than these
 * are long, or 50 years.
 */
export function nearOf(sorted, fiftyYears) {
  const last = sorted.length - 1, cut = sorted.length < 3 ? 0 : Math.max(1, Math.floor(sorted.length / 10));
  const [low, high] = [sorted[cut], sorted[last - cut]], most = Math.max(high - low, fiftyYears);
  return [low - most, high + most];
}

/**
 * The longest times without an entry: five times as long as lies between two entries on the average, and over a year. Beside
 * each day stands the last one that an entry that begins on it reaches.
 */
export function gapsOf(sorted, year, reached = sorted) {
  const least = Math.max(year, 5 * (sorted[sorted.length - 1] - sorted[0]) / sorted.length), found = [];
  for (let i = 1, before = reached[0]; i < sorted.length; i += 1) {
    if (sorted[i] - before > least) found.push([before, sorted[i]]);
    before = Math.max(before, reached[i]);
  }
  const longest = found.sort(([a, b], [c, d]) => d - c - (b - a)).slice(0, MOST_GAPS);
  return longest.sort(([a], [b]) => a - b);
}

function marksOf(years, from, to) {
  const span = to - from, step = STEPS.find((it) => span / it <= MOST_MARKS) || STEPS[STEPS.length - 1];
  const first = Math.ceil(from / step) * step;
  return range(Math.floor((to - first) / step) + 1).map((i) => first + i * step)
    .map((year) => ({ year, day: years.start(year) }));
}

const emptyRow = (calendar) =>
  ({ calendar, count: 0, spans: 0, refused: 0, first: NO_DAY, last: 0, bins: Array(BINS).fill(0), lines: new Set() });

/**
 * The first and the last day of each entry, which are one where an end is open; none of one that is refused.
 * @typedef {{ firsts: Uint32Array, lasts: Uint32Array, calendars: Uint8Array, empty: Uint8Array | null,
 *   isHalf: Uint8Array | null }} Entries
 * @returns {{ lows: Uint32Array, highs: Uint32Array }}
 */
function endsOf(/** @type {Entries} */ { firsts, lasts, isHalf }) {
  if (firsts === lasts) return { lows: firsts, highs: firsts };
  const lows = firsts.slice(), highs = lasts.slice();
  for (let i = 0; i < lows.length; i += 1) {
    if (lows[i] === NO_DAY) lows[i] = highs[i];
    if (highs[i] === NO_DAY) highs[i] = lows[i];
    if (isHalf && isHalf[i]) lows[i] = highs[i] = NO_DAY;
  }
  return { lows, highs };
}

// What is more than a line, by its number: an arrow before it, or behind it, where that end is open or far from the others.
const BEFORE = 1, BEHIND = 2;

// Tells a row the line of an entry of no single day: from which part of the line of time to which it goes.
function addLine(row, { firsts, lasts }, i, low, high, /** @type {number[]} */ [from, to]) {
  if (high < from || low >= to) return;
  const binOf = (day) => Math.floor((day - from) / (to - from) * BINS);
  const isBefore = firsts[i] === NO_DAY || low < from, isBehind = lasts[i] === NO_DAY || high >= to;
  const begin = isBefore ? 0 : binOf(low), end = isBehind ? BINS : binOf(high) + 1;
  row.lines.add(4 * (begin * (BINS + 1) + end) + (isBefore ? BEFORE : 0) + (isBehind ? BEHIND : 0));
}

// The lines of a row, each once: those that begin first, and of these the longest, stand first.
function linesOf(lines) {
  const all = [...lines].map((line) => {
    const parts = Math.floor(line / 4), [begin, end] = [Math.floor(parts / (BINS + 1)), parts % (BINS + 1)];
    return { begin, end, isBefore: (line & BEFORE) > 0, isBehind: (line & BEHIND) > 0 };
  });
  return all.sort((one, other) => one.begin - other.begin || other.end - one.end);
}

// A row for each calendar that occurs, by its number, and behind them one for the records without a known calendar: how many
// entries were converted, how many of them are no single day, how many were refused, how many days stand in each part of the
// line, and the lines of the others.
function binned(entries, { lows, highs }, /** @type {number[]} */ [from, to]) {
  const { calendars, empty } = entries, all = range(NO_CALENDAR + 1).map(emptyRow);
  for (let i = 0; i < lows.length; i += 1) {
    const row = all[calendars[i]], low = lows[i], high = highs[i];
    if (low === NO_DAY) row.refused += empty && empty[i] ? 0 : 1;
    else {
      row.count += 1;
      if (low < row.first) row.first = low;
      if (high > row.last) row.last = high;
      if (entries.firsts[i] !== entries.lasts[i]) {
        row.spans += 1;
        addLine(row, entries, i, low, high, [from, to]);
      } else if (low >= from && low < to) row.bins[Math.floor((low - from) / (to - from) * BINS)] += 1;
    }
  }
  return all.filter(({ count, refused }) => count || refused).map((row) => ({ ...row, lines: linesOf(row.lines) }));
}

/**
 * The days of entries that have one, in order. They are counted: there are not many more days than in 20,000 years.
 * @param {Uint32Array} days
 */
export function sortedDays(days) {
  let [first, last] = [NO_DAY, 0];
  for (let i = 0; i < days.length; i += 1) {
    if (days[i] < first) first = days[i];
    if (days[i] > last && days[i] !== NO_DAY) last = days[i];
  }
  const counts = new Uint32Array(Math.max(0, last - first + 1)), sorted = new Uint32Array(days.length);
  for (let i = 0; i < days.length; i += 1) if (days[i] !== NO_DAY) counts[days[i] - first] += 1;
  let at = 0;
  for (let i = 0; i < counts.length; i += 1) if (counts[i]) sorted.fill(first + i, at, at += counts[i]);
  return sorted.subarray(0, at);
}

const isFar = (day, /** @type {number[]} */ [low, high]) => day !== NO_DAY && (day < low || day > high);

// The entries of which an end is far from the others.
function farOf({ lows, highs }, near) {
  const first = [];
  let all = 0;
  for (let i = 0; i < lows.length; i += 1) {
    if (!isFar(lows[i], near) && !isFar(highs[i], near)) continue;
    all += 1;
    if (first.length < MOST_FAR) first.push(i);
  }
  return { first, all };
}

// The days of entries, and of those that are no single day the last ones too.
function pointsOf({ lows, highs }) {
  if (lows === highs) return lows;
  const points = new Uint32Array(2 * lows.length).fill(NO_DAY);
  points.set(lows);
  for (let i = 0; i < highs.length; i += 1) if (highs[i] !== lows[i]) points[lows.length + i] = highs[i];
  return points;
}

// The days of entries that are near, in order, and beside each the last one that an entry that begins on it reaches;
// `points` are all days in order.
function reachesOf({ lows, highs }, near, points) {
  if (lows === highs) {
    const sorted = points.subarray(points[0] < near[0] ? placeOf(points, near[0] - 1) + 1 : 0, placeOf(points, near[1]) + 1);
    return { sorted, reached: sorted };
  }
  const own = lows.map((low, i) => (isFar(low, near) || isFar(highs[i], near) ? NO_DAY : low)), sorted = sortedDays(own);
  const most = new Uint32Array(sorted.length ? sorted[sorted.length - 1] - sorted[0] + 1 : 0);
  for (let i = 0; i < own.length; i += 1) {
    if (own[i] !== NO_DAY) most[own[i] - sorted[0]] = Math.max(most[own[i] - sorted[0]], highs[i]);
  }
  return { sorted, reached: sorted.map((day) => most[day - sorted[0]]) };
}

// What is near the others, and what that reaches: all, where nothing would be.
function nearestOf(ends, points, fiftyYears) {
  const near = nearOf(points, fiftyYears), reaches = reachesOf(ends, near, points), all = [0, NO_DAY];
  return reaches.sorted.length ? { near, ...reaches } : { near: all, ...reachesOf(ends, all, points) };
}

const NO_PICTURE = { from: 0, to: 1, marks: [], far: [], allFar: 0, gaps: [] };

// What is drawn of entries. `fieldsOf` gives the fields of the id, the calendar and the date of those that are told.
function drawn(entries, years, fieldsOf) {
  const ends = endsOf(entries), { lows, highs } = ends, points = sortedDays(pointsOf(ends));
  if (points.length === 0) return { rows: binned(entries, ends, [0, 1]), ...NO_PICTURE };
  const { near, sorted, reached } = nearestOf(ends, points, years.start(1950) - years.start(1900));
  const { first: farPlaces, all: allFar } = farOf(ends, near), last = reached.reduce((most, day) => Math.max(most, day), 0);
  const [first, final] = [sorted[0], last].map(years.of), from = years.start(first);
  const to = final < LAST_YEAR ? years.start(final + 1) : last + 1;
  const gaps = gapsOf(sorted, years.start(1901) - years.start(1900), reached)
    .map(([before, behind]) => [[highs.indexOf(before), before], [lows.indexOf(behind), behind]]);
  const far = farPlaces.map((place) => [place, isFar(lows[place], near) ? lows[place] : highs[place]]);
  const told = [...new Set([...far, ...gaps.flat()].map(([place]) => place))], fields = fieldsOf(told);
  const entryOf = ([place, day]) => {
    const [id, written, date] = fields[told.indexOf(place)];
    return { row: place + 1, id, calendar: entries.calendars[place], written, date, day, year: years.of(day) };
  };
  const withYears = (row) => (row.count ? { ...row, years: [years.of(row.first), years.of(row.last)] } : row);
  return {
    rows: binned(entries, ends, [from, to]).map(withYears), from, to,
    marks: marksOf(years, first, Math.min(final + 1, LAST_YEAR)),
    far: far.map(entryOf), allFar, gaps: gaps.map((pair) => pair.map(entryOf)),
  };
}

// What is told of the records at these places of a register, below its header.
function toldOf(module, register, delimiter, places) {
  const records = module.sheetRecords(register, delimiter, places.map((place) => place + 1));
  const { fields } = module.pick(records, delimiter, TOLD, EVERY);
  module.free(records);
  return rowsOf(fields, TOLD.length);
}

const bothEnds = (first, last) => (first === last ? first : `${first} – ${last}`.trim());

/**
 * What a picture shows of a register, whose records have these days and calendars, or of two, of their first and of their
 * last days: those that are told one by one are read by the module. The header stands before the first one. `empty` says
 * which have no date, and so are not refused, and `isHalf` which have an end that is refused.
 * @param {import('./module.mjs').Part[]} registers
 * @param {Entries} entries
 */
export function timelineOf(module, registers, delimiter, entries) {
  const fieldsOf = (places) => {
    if (places.length === 0) return [];
    const [own, last = own] = registers.map((register) => toldOf(module, register, delimiter, places));
    return own.map(([id, calendar, date], i) => [id, calendar, bothEnds(date, last[i][2])]);
  };
  return drawn(entries, yearsOf(module), fieldsOf);
}
