// One date, as a sheet of this record alone has it: its first and its last day in all calendars, and why it has none.

import { BESIDE, CALENDARS } from './calendars.mjs';
import { columnNumbers, noPicks, numbersOf } from './choices.mjs';
import { REASONS, instantiate } from './module.mjs';
import { Table, range } from './tables.mjs';
import { NAMES } from './unbuilt.mjs';

const COMMA = 44, ROOM = 2 ** 16;
// Where a register has its dates; the refusal of a date that is not written as its calendar wants it.
const DATE_AT = 2, NOT_WRITTEN = 5;
const ENDS = [0, 1];

// The day stands first, and short years are as they are written.
const choiceFor = (calendar) => numbersOf({ delimiter: COMMA, above: 0 }, {
  ...noPicks(), order: 'day', short: 'keep', hebrew: 'keep', other: 'keep', spans: true, edtf: true,
  dates: [{ date: '0', calendar }],
});

/**
 * A date: the columns that both of its ends have, and their cells; how registers have these ends, which is nothing where one
 * is open; its text of EDTF, its marks and its refusal.
 */
export async function date({ compiled, calendar, text }) {
  const module = await instantiate(compiled), choice = choiceFor(calendar), width = BESIDE.length;
  const sheet = module.write(['date', text], 1, COMMA);
  const { ending, table } = module.convertSheet(sheet, choice, columnNumbers(BESIDE), NAMES, ROOM);
  if (ending !== 0) return { ending };
  const all = module.pick(table, COMMA, range(2 * width + 4), 2).fields.slice(2 * width + 5);
  const ends = ENDS.map((end) => all.slice(end * width, (end + 1) * width)), [edtf, mark, refusal] = all.slice(2 * width);
  return {
    ending, columns: BESIDE, ends, edtf, mark, refusal, written: ENDS.map((end) => writtenOf(module, sheet, choice, end)),
    isLeap: ends.map((cells) => hasThirteenMonths(module, cells[BESIDE.indexOf('hebrew')])),
    stop: Number(refusal) === NOT_WRITTEN ? stopOfDate(module, calendar, text) : null,
  };
}

// An end of the only date of a sheet, as a register has it.
function writtenOf(module, sheet, choice, end) {
  const { table } = module.sheetRegister(sheet, choice, 0, NAMES, end);
  return module.pick(table, COMMA, [DATE_AT], 2).fields[1];
}

// Whether the year of a Hebrew date has thirteen months, as the module knows it.
function hasThirteenMonths(module, hebrew) {
  const [, year] = /^(\d+)-/.exec(hebrew) || [];
  if (year === undefined) return false;
  return converted(module, 'hebrew', `${year}-13-1`).refused === 0;
}

// A register of one date, converted.
function converted(module, calendar, date) {
  const register = module.write(['id', 'calendar', 'date', '1', calendar, date], 3, COMMA);
  return module.convert(register, { columns: [], delimiter: COMMA, sealed: false }, ROOM);
}

// Why a date is not read: a reason, or null for a name that is not known; what is to blame; and the weekday of the date
// that the text says beside another one.
function stopOfDate(module, calendar, text) {
  const { stop, blamed } = module.dateStop(text, CALENDARS.indexOf(calendar), NAMES);
  if (stop === 0) return null;
  const reason = REASONS[stop - 1] || null;
  return { reason, blamed, weekday: reason === 'otherWeekday' ? weekdayOf(module, calendar, blamed) : '' };
}

// The weekday of a date as registers have it; empty where its calendar does not have it.
function weekdayOf(module, calendar, date) {
  const { table } = converted(module, calendar, date);
  const { heading, rows: [row] } = new Table(module, table, COMMA).firstRows();
  return row[heading.indexOf('weekday')];
}
