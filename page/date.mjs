// One date: what is typed, what was asked, and what came of it. Each step takes the state and gives the next.

import { NO_TARGETS } from './calendars.mjs';
import { WORDS } from './language.mjs';

// The refusal of a field that is too long; here that can only be the date. What is said of a day beside its cells.
const TOO_LONG = 2, CHURCH = 'church', NO_CELLS = [...NO_TARGETS, CHURCH];

/**
 * `result` is what came of `choice`, or null.
 * @typedef {{ calendar: string, text: string }} DateChoice
 * @typedef {{ choice: DateChoice, asked: number, result: { choice: DateChoice, reply: any } | null }} DateState
 */

/** @returns {DateState} */
export const initial = () => ({ choice: { calendar: 'gregorian', text: '' }, asked: 0, result: null });

/**
 * A calendar or a text is chosen.
 * @param {DateState} state
 * @returns {DateState}
 */
export function chosen(state, change) {
  return { ...state, choice: { ...state.choice, ...change }, asked: state.asked + 1 };
}

const isEmpty = ({ choice }) => choice.text.trim() === '';
const hasResult = ({ choice, result }) => result !== null && result.choice === choice;
const keyOf = ({ asked }) => `date ${asked}`;

/** What a worker is to be asked now. */
export function tasks(state) {
  if (isEmpty(state) || hasResult(state)) return [];
  return [{ key: keyOf(state), worker: 'date', name: 'date', words: state.choice }];
}

/** The worker that stays for the next date. */
export const keptWorkers = () => ['date'];

/**
 * An answer came. That to an older question is dropped.
 * @param {DateState} state
 * @returns {DateState}
 */
export function replied(state, key, reply) {
  if (key !== keyOf(state)) return state;
  return { ...state, result: { choice: state.choice, reply } };
}

// What an end of a date has in a column: nothing at all where it is open.
const cellOf = ({ columns, ends }, end, name) => ends[end][columns.indexOf(name)];
const isOpen = (answer, end) => cellOf(answer, end, 'rd') === '';

// The cells of a date in each calendar, each with its words; of what is no single day those of its first and of its last.
function cellsOf(answer, shownEnds) {
  const { columns, ends, isLeap } = answer, ofEnd = (name, i) => (end) =>
    (isOpen(answer, end) ? [null, ''] : [ends[end][i], WORDS.inWords(name, ends[end][i], isLeap[end])]);
  return columns.flatMap((name, i) => (NO_CELLS.includes(name) ? []
    : [[WORDS.calendars[name] || name, ...shownEnds.flatMap(ofEnd(name, i))]]));
}

// The texts of a register as they are shown: where these are not what was typed.
function readOf({ written: [first, last] }, typed) {
  const read = first === last ? [first] : [first, last].filter(Boolean);
  return read.length === 1 && read[0].trim() === typed.trim() ? '' : read.join('` – `');
}

const marksOf = ({ mark }) => mark.split(' ').filter(Boolean);

function shownDay(answer, read) {
  const of = (name) => cellOf(answer, 0, name), church = of(CHURCH), cells = cellsOf(answer, [0]);
  return { line: WORDS.isDay(of('weekday'), of('rd'), read, marksOf(answer)), kind: 'day',
    cells: church ? [...cells, [WORDS.church, church, '']] : cells };
}

function shownSpan(answer, read) {
  const [first, last] = [0, 1].map((end) => cellOf(answer, end, 'rd'));
  const days = first === '' || last === '' ? 0 : Number(last) - Number(first) + 1;
  const line = WORDS.isSpan(days, first, last, answer.edtf, marksOf(answer), read);
  return { line, kind: 'day', cells: cellsOf(answer, [0, 1]) };
}

// Why a date is not read: letters between digits, as in `18o6`, are told first where nothing else is known of it.
function stopWords({ reason, blamed, weekday }, text) {
  const mixed = /[0-9]+\p{L}+[0-9]+/u.exec(text);
  if (mixed !== null && (reason === null || reason === 'noDate')) return WORDS.isNoNumber(mixed[0]);
  return reason === null ? WORDS.unknownInDate(blamed) : WORDS.dateStops[reason](blamed, WORDS.weekdays[weekday]);
}

/**
 * What is shown: a line, what kind of line it is, and the cells, each with its name and its date in words; of what is no
 * single day those of its first and of its last day, which are null where it has none.
 */
export function shown(state) {
  if (isEmpty(state)) return { line: WORDS.waits, kind: 'empty', cells: [] };
  if (!hasResult(state)) return { line: '', kind: 'empty', cells: [] };
  const { answer, fault, why } = state.result.reply, { text } = state.choice;
  const wrong = (line) => ({ line, kind: 'wrong', cells: [] });
  if (fault) return wrong(WORDS.fault(why));
  if (answer.ending !== 0) return wrong(WORDS.isNoDay(WORDS.sheetFaults[answer.ending] || WORDS.noMemory));
  const read = readOf(answer, text), refusal = Number(answer.refusal);
  if (refusal) {
    if (marksOf(answer).includes('undated')) return wrong(WORDS.isNoDay(WORDS.spanMarks.undated));
    const why = answer.stop ? stopWords(answer.stop, text) : WORDS.refusals[refusal - 1];
    const reason = refusal === TOO_LONG ? WORDS.isTooLong : why;
    return wrong(WORDS.isNoDay(reason, read));
  }
  return cellOf(answer, 0, 'rd') === cellOf(answer, 1, 'rd') ? shownDay(answer, read) : shownSpan(answer, read);
}
