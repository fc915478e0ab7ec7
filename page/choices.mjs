// What is chosen of a sheet: as the module takes it, and as a file that is kept for the next sheet.

import { BESIDE, CALENDARS } from './calendars.mjs';

export const MOST_DATES = 8;
// It stands for no column; and a place that no record has, where nothing stands.
const NONE = 2 ** 32 - 1, ABSENT = NONE - 1;
/** The calendar of a column of dates where it is what no calendar means, by the name without letters. */
export const AS_EMPTY = 'as empty';
const ORDERS = ['year', 'day', 'month'];
const DELIMITERS = [['comma', 44], ['semicolon', 59], ['tab', 9]];
// Where the numbers of a choice say whether spans are read, and where those of its columns of dates begin.
const SPANS_AT = 8;
export const DATES_AT = 9;
// What the file of choices begins with.
const KIND = 'choices of a sheet';
const OTHER_YEARS = 'short years of other calendars';
/** No columns with years, months and days are chosen. */
export const NO_THREE = ['', '', ''];

/**
 * Columns are places, from 0. `date` is '' where none is chosen yet, and `calendar` too, which is a column or the name of
 * one calendar for all, or `AS_EMPTY`. An `id` of '-1' is the number of the record. Short years are `refuse`, `keep`, or
 * what is added; `other` are those of the Islamic, Coptic, Ethiopic and Armenian calendars. A name says what it means: a calendar, `both`, `julian/gregorian:` and the first Gregorian day, or `change`
 * while that day is not typed yet; `month 1` to `month 13`, `number N`, `K`, `N`, `I` or `nothing`; `where` is the calendar in
 * whose dates it stands, or '' for a name of a calendar. The calendar's name '' says what no calendar means. `spans` are
 * months, years and ranges, whose texts of EDTF are put beside them where `edtf`.
 * @typedef {{ date: string, calendar: string }} DateColumn
 * @typedef {{ name: string, where: string, means: string }} Name
 * @typedef {{ order: string, short: string, hebrew: string, other: string, charters: boolean, spans: boolean,
 *   edtf: boolean, names: Name[] }} Rules
 * @typedef {Rules & { id: string, dates: DateColumn[] }} Picks
 */

/** @returns {Picks} */
export const noPicks = () => ({
  id: '-1', dates: [{ date: '', calendar: '' }], order: 'year', short: 'refuse', hebrew: 'refuse', other: 'refuse',
  charters: false, spans: false, edtf: false, names: [],
});

/** Whether the columns with years, months and days are all chosen, each another: then there is one of their dates. */
export const isThree = (three) => Boolean(three) && !three.includes('') && new Set(three).size === 3;

/**
 * How dates are read, whatever columns they stand in.
 * @returns {Rules}
 */
export const rulesOf = ({ order, short, hebrew, other, charters, spans, edtf, names }) =>
  ({ order, short, hebrew, other, charters, spans, edtf, names });

export const isColumn = (calendar) => /^\d+$/.test(calendar);

// ---- For the module ----

const yearRule = (rule) => ({ refuse: 0, keep: 1 })[rule] ?? Number(rule);

/** The choice as the module takes it. */
export function numbersOf({ delimiter, above }, { id, dates, order, short, hebrew, other, charters, spans, edtf }) {
  const triples = dates.flatMap(({ date, calendar }) => {
    if (calendar === AS_EMPTY) return [Number(date), ABSENT, 0];
    return isColumn(calendar) ? [Number(date), Number(calendar), 0] : [Number(date), NONE, CALENDARS.indexOf(calendar)];
  });
  return [delimiter, above, Number(id) < 0 ? NONE : Number(id), ORDERS.indexOf(order), yearRule(short), yearRule(hebrew),
    yearRule(other), charters ? 1 : 0, spans ? 1 + Number(edtf) : 0, ...triples];
}

/** Whether months, years and ranges are read by a choice: 0, 1, or 2 with their texts of EDTF. */
export const spansIn = (choice) => choice[SPANS_AT];

/** A choice by which months, years and ranges are read too. */
export const withSpans = (choice) => choice.map((number, i) => (i === SPANS_AT ? Math.max(1, number) : number));

/** The ends of a date, each with a register of its own: with spans its first day and its last. */
export const endsOf = ({ spans }) => (spans ? ['first', 'last'] : [null]);

/** So many columns come behind a sheet for each column of dates, where so many are asked: with spans those of both ends. */
export const widthOf = (choice, asked) => (spansIn(choice) === 0 ? asked + 1 : 2 * asked + 1 + spansIn(choice));

/** Columns that are put behind a sheet, as the module numbers them. */
export const columnNumbers = (columns) => columns.map((name) => BESIDE.indexOf(name));

const quoted = (field) => `"${field.replace(/"/g, '""')}"`;
const inList = (means) => (means === 'nothing' ? '' : means.replace(/^number /, ''));

/** What a change of calendars on this day means, as it is typed. */
export const changeOf = (day) => (/^\s*\d{1,4}-\d{1,2}-\d{1,2}\s*$/.test(day) ? `julian/gregorian:${day.trim()}` : 'change');

/** The first Gregorian day of a change of calendars, or null. */
export const dayOfChange = (means) => (means === 'change' ? '' : /^julian\/gregorian:(.*)$/.exec(means)?.[1] ?? null);

const isWhole = ({ means }) => means !== 'number' && means !== 'change';

/** What no calendar means, or ''. */
export const meantByEmpty = (names) => (names.find(({ name, where }) => name === '' && where === '') || { means: '' }).means;

/** Whether a column of dates has what no calendar means, which is not chosen yet. */
export const lacksMeaning = ({ names }, { calendar }) =>
  calendar === AS_EMPTY && ['', 'change'].includes(meantByEmpty(names));

/** Lines of a list of names. A number, or a day, that is not typed yet makes none. */
export function namesText(names) {
  return names.filter(isWhole)
    .map(({ name, where, means }) => `${quoted(name)},${inList(means)},${where}\n`).join('');
}

// ---- As a file ----

// A column by its name, and which of that name it is, from 1, where others have it too.
function columnCalled(heading, column) {
  const place = Number(column), name = heading[place];
  const number = heading.slice(0, place + 1).filter((it) => it === name).length;
  return { column: name, ...(number > 1 ? { number } : {}) };
}

const calendarCalled = (heading, calendar) =>
  (calendar === '' ? {} : { calendar: isColumn(calendar) ? columnCalled(heading, calendar) : calendar });

/** The choices as a text that can be read and kept. */
export function choicesText({ encoding, delimiter, above, three }, heading, picks, columns) {
  const { id, dates, order, short, hebrew, other, charters, spans, edtf, names } = picks;
  return `${JSON.stringify({
    what: KIND, encoding, delimiter: DELIMITERS.find(([, byte]) => byte === delimiter)[0], 'records above the names': above,
    ...(isThree(three) ? { 'year, month and day': three.map((it) => columnCalled(heading, it)) } : {}),
    dates: dates.filter(({ date }) => date !== '').map(({ date, calendar }) =>
      ({ ...columnCalled(heading, date), ...calendarCalled(heading, calendar) })),
    id: Number(id) < 0 ? 'number of the record' : columnCalled(heading, id),
    order, 'short years': short, 'short Hebrew years': hebrew, [OTHER_YEARS]: other, 'charter years': charters,
    'months, years and ranges': spans, EDTF: edtf, columns,
    names: names.map(({ name, where, means }) => ({ name, means, in: where })),
  }, null, 2)}\n`;
}

const isText = (it) => typeof it === 'string';
const isColumnCalled = (it) => Boolean(it) && isText(it.column);
const isWhere = (it) => it === '' || CALENDARS.includes(it);
const isMeaning = (it) => CALENDARS.includes(it) ||
  /^(nothing|both|julian\/gregorian:\d{1,4}-\d{1,2}-\d{1,2}|[KNI]|month ([1-9]|1[0-3])|number \d{0,9})$/.test(it);
const isRule = (it) => /^(refuse|keep|[1-9]\d{2,3})$/.test(it);

/** The choices that a text has, or null where it has none. What is no choice in it is left out. */
export function choicesOf(text) {
  let kept;
  try {
    kept = JSON.parse(text);
  } catch {
    return null;
  }
  if (!kept || kept.what !== KIND) return null;
  const listOf = (it) => (Array.isArray(it) ? it : []);
  const either = (it, isOne, other) => (isOne(it) ? it : other), own = noPicks();
  const [, delimiter] = DELIMITERS.find(([name]) => name === kept.delimiter) || [null, null];
  return {
    encoding: either(kept.encoding, isText, null), delimiter,
    above: either(kept['records above the names'], (it) => Number.isInteger(it) && it >= 0, null),
    three: either(kept['year, month and day'], (it) => listOf(it).length === 3 && it.every(isColumnCalled), null),
    dates: listOf(kept.dates).filter(isColumnCalled).slice(0, MOST_DATES),
    id: either(kept.id, isColumnCalled, null),
    order: either(kept.order, (it) => ORDERS.includes(it), own.order),
    short: either(kept['short years'], isRule, own.short),
    hebrew: either(kept['short Hebrew years'], isRule, own.hebrew),
    // Before they had a choice of their own they were kept where short years were.
    other: either(kept[OTHER_YEARS], isRule, kept['short years'] === 'keep' ? 'keep' : own.other),
    charters: kept['charter years'] === true,
    spans: kept['months, years and ranges'] === true,
    edtf: kept.EDTF === true,
    columns: listOf(kept.columns).filter((it, i, all) => BESIDE.includes(it) && all.indexOf(it) === i),
    names: listOf(kept.names).filter((it) => Boolean(it) && isText(it.name) && isWhere(it.in) && isMeaning(it.means))
      .map(({ name, means, in: where }) => ({ name, where, means })),
  };
}

// The place of a column by its name, or null.
function placeOf(heading, { column, number = 1 }) {
  const places = heading.flatMap((name, i) => (name === column ? [i] : []));
  return places.length < number ? null : String(places[number - 1]);
}

/** The kept columns with years, months and days, in a sheet with this heading: none where it does not have all of them. */
export function threeIn({ three }, heading) {
  const places = (three || []).map((it) => placeOf(heading, it));
  return isThree(places) && !places.includes(null) ? places : NO_THREE;
}

/**
 * Kept choices for a sheet with this heading, and the names of the columns that it does not have. Where it has none of
 * the columns with dates, those that are proposed stand there.
 * @param {Picks} proposed
 * @returns {{ picks: Picks, absent: string[] }}
 */
export function fitted(kept, heading, proposed) {
  const absent = [];
  const fit = (it) => {
    const place = placeOf(heading, it);
    if (place === null && !absent.includes(it.column)) absent.push(it.column);
    return place;
  };
  const dates = kept.dates.flatMap((it) => {
    const date = fit(it), calendar = isColumnCalled(it.calendar) ? fit(it.calendar) || '' : it.calendar;
    const isOne = isColumn(calendar) || [...CALENDARS, AS_EMPTY].includes(calendar);
    return date === null ? [] : [{ date, calendar: isOne ? calendar : '' }];
  });
  const id = kept.id === null ? '-1' : fit(kept.id) || '-1';
  return { picks: { id, dates: dates.length ? dates : proposed.dates, ...rulesOf(kept) }, absent };
}
