// A sheet: which file is chosen and how it is to be read, what its columns are, what was found in it, and what came of
// its conversion. Each step takes the state and gives the next.

import {
  MOST_DATES, NO_THREE, choicesOf, choicesText, endsOf, fitted, isColumn, isThree, lacksMeaning, namesText, noPicks, numbersOf,
  rulesOf, widthOf,
} from './choices.mjs';
import { isSameFile } from './files.mjs';
import { likelyPicks } from './heads.mjs';
import { WORDS } from './language.mjs';
import { isEarlyBy } from './registers.mjs';

// A file that is larger is not read.
export const MOST_BYTES = 2 ** 28;

/**
 * An encoding, a delimiter or a number of records above the names that is null is proposed when the sheet is read, and so
 * is whether it is a family tree;
 * `proposed` has what was for this file. `kept` has choices of an earlier sheet, and null in them until their file is
 * read, and `isFilled` once they were filled in; `fit` says what of them did not fit. `listed` has the names that are not
 * known, and those that have a meaning of the user's own; a count is null while it is not known. A result of `picks`,
 * `columns` or `source` holds what it came from. `gathered` has what a picture shows of the first columns of dates, whose days
 * take long to find: at the same time as the conversion where the state `isEarly`, once its text is `told`. `given` is the
 * number of the sheet among what was given and what it is taken for, and `held` has what was chosen for others by theirs,
 * and what came of it: it is there again when one comes back to them. Readings are numbered through all sheets. `three` are
 * the columns with years, months and days, of which the sheet has one more; where one of these is chosen, `stays` says that
 * the other columns are read again as they were.
 * @typedef {import('./choices.mjs').Picks} Picks
 * @typedef {{ encoding: string | null, delimiter: number | null, above: number | null }} Proposed
 * @typedef {{ file: File | null, isTree: boolean | null, hasFileDates: boolean, page: number | null, three: string[] | null }
 *   & Proposed} Source
 * @typedef {{ source: Source, picks: Picks, columns: string[], status: 'runs' | 'ended' | 'stopped', key: string,
 *   reply: any, told: any, isSaved: boolean, gathered: any[], sorted: { place: number, reply: any } | null,
 *   registers: Record<number, { reply: any }>, pictures: Record<number, { reply: any }> }} Run
 * @typedef {{ name: string, where: string, count: number | null }} Listed
 * @typedef {{ source: Source, proposed: Proposed, kept: { file: File, choices: any, isFilled: boolean } | null,
 *   fit: { absent: string[], other: string[] } | null, reading: number, begins: any, picks: Picks, columns: string[],
 *   unknown: any, orders: any, listed: Listed[], preview: any, run: Run | null, runs: number, worker: number, notice: string,
 *   isEarly: boolean, given: { number: number, as: string } | null, held: Record<string, any>, readings: number,
 *   stays: boolean }} SheetState
 */

/** @type {Proposed} */
const NOTHING = { encoding: null, delimiter: null, above: null };
// A sheet of which nothing is chosen.
const ANEW = { ...NOTHING, three: null };

/**
 * `processors` says how many workers can be busy at the same time.
 * @returns {SheetState}
 */
export function initial(processors) {
  return {
    source: {
      file: null, isTree: null, hasFileDates: false, page: null, three: null, encoding: 'utf-8', delimiter: 44, above: 0,
    },
    proposed: NOTHING, kept: null, fit: null,
    reading: 0, begins: null, picks: noPicks(), columns: ['weekday', 'gregorian'], unknown: null, orders: null, listed: [],
    preview: null, run: null, runs: 0, worker: 0, notice: '',
    isEarly: isEarlyBy(processors), given: null, held: {}, readings: 0, stays: false,
  };
}

/**
 * No sheet is chosen any more, and nothing was converted.
 * @param {SheetState} state
 * @returns {SheetState}
 */
export const emptied = ({ isEarly, runs, readings, worker }) =>
  ({ ...initial(1), isEarly, runs, readings, reading: readings, worker: worker + 1 });

export const isRunning = ({ run }) => run !== null && run.status === 'runs';

// ---- What is chosen: the file, and how it is read ----

// What is chosen of the columns is proposed anew; what holds for the same file stays.
function readAnew(state, source) {
  const reading = state.readings + 1;
  return {
    ...state, source, reading, readings: reading, worker: state.worker + 1, begins: null, fit: null, notice: '', stays: false,
  };
}

/**
 * An encoding, a delimiter or the number of records above the names is chosen: the columns are to be chosen again. For
 * records above the names the file is not read again, unless it has the dates of three columns. With another delimiter these
 * are others.
 * @param {SheetState} state
 * @returns {SheetState}
 */
export function sourceChosen(state, change) {
  if (isRunning(state)) return { ...state, notice: 'stopFirst' };
  const others = 'page' in change ? ANEW : 'delimiter' in change ? { three: null } : {};
  const source = { ...state.source, ...others, ...change };
  const isAlike = 'above' in change && !isThree(source.three);
  return isAlike ? { ...state, source, begins: null, fit: null, notice: '', stays: false } : readAnew(state, source);
}

/**
 * The column with years, months or days is chosen, by its place among these three. Where all are chosen, or were, the sheet is
 * read again, with a column of their dates or without.
 * @param {SheetState} state
 * @returns {SheetState}
 */
export function partChosen(state, place, column) {
  if (isRunning(state)) return { ...state, notice: 'stopFirst' };
  const { three: before } = state.source, three = (before || NO_THREE).map((it, i) => (i === place ? column : it));
  const source = { ...state.source, three };
  return isThree(before) || isThree(three) ? { ...readAnew(state, source), stays: true } : { ...state, source, notice: '' };
}

/**
 * Something is typed that is no choice: what was chosen stays.
 * @param {SheetState} state
 * @returns {SheetState}
 */
export const wronglyTyped = (state, what) => ({ ...state, notice: `wrong ${what}` });

// What is chosen of the columns is chosen again, for this file.
function chosenAnew(state, source, kept) {
  const next = readAnew({ ...state, picks: noPicks(), listed: [] }, source);
  return { ...next, proposed: NOTHING, kept };
}

// What is chosen for the sheet that is there, and what came of it.
const HELD = ['source', 'proposed', 'kept', 'fit', 'reading', 'stays', 'begins', 'picks', 'columns', 'unknown', 'orders',
  'listed', 'preview', 'run', 'given'];
const heldOf = (state) => Object.fromEntries(HELD.map((name) => [name, state[name]]));

// Choices as they would be kept and read again, for another text of the same sheet. What was proposed alone is no choice.
function ownChoices(held) {
  const first = beginning(held);
  if (first === null) return null;
  const { source, picks, columns } = held, own = choicesOf(choicesText(source, first.heading, picks, columns));
  const shown = shownProposed(held), isOwn = (name) => shown[name] === null;
  return { ...own, encoding: isOwn('encoding') ? own.encoding : null, delimiter: isOwn('delimiter') ? own.delimiter : null };
}

const keyOf = ({ number, as }) => `${number} ${as}`;

/** What was chosen for each sheet, by what it was taken for, and that of the one that is there. */
function heldWith({ held, ...state }) {
  return state.given === null || state.source.file === null ? held : { ...held, [keyOf(state.given)]: heldOf(state) };
}

/**
 * A sheet or a family tree is chosen, as it is given; or none. What was chosen for it before is there again, also for another
 * file in its place. Else what it looks like is proposed anew, unless it comes with it. Choices that wait for a sheet are for
 * it.
 * @param {SheetState} state
 * @returns {SheetState}
 */
export function fileChosen(state, given) {
  if (isRunning(state)) return { ...state, notice: 'stopFirst' };
  const none = { file: null, as: 'sheet', proposed: null, number: null };
  const held = heldWith(state), { file, as, proposed, number } = given || none;
  const own = given && held[keyOf({ number, as })];
  const next = { ...state, held, given: given && number !== undefined ? { number, as } : null };
  if (own && isSameFile(own.source.file, file)) return { ...next, ...own, worker: state.worker + 1, notice: '' };
  const { hasFileDates, page } = own ? own.source : { hasFileDates: false, page: null };
  const source = { file, isTree: as === undefined ? null : as === 'tree', hasFileDates, page, ...ANEW, ...proposed };
  const waits = state.source.file === null ? state.kept : null, choices = own ? ownChoices(own) : null;
  if (choices === null) return chosenAnew(next, source, waits);
  return { ...chosenAnew(next, source, { file: own.source.file, choices, isFilled: false }), columns: own.columns };
}

/**
 * The sheets of these numbers have other files now: what was chosen for them stays, and what came of it goes.
 * @param {SheetState} state
 * @param {number[]} numbers
 * @returns {SheetState}
 */
export function tablesGone(state, numbers) {
  if (numbers.length === 0) return state;
  const withoutRun = (it) => (it.given !== null && numbers.includes(it.given.number) ? { ...it, run: null } : it);
  const held = Object.fromEntries(Object.entries(state.held).map(([key, it]) => [key, withoutRun(it)]));
  return withoutRun({ ...state, held });
}

/**
 * Choices that were kept are chosen: for the sheet that is there, or else for the next one.
 * @param {SheetState} state
 * @param {File} file
 * @returns {SheetState}
 */
export function choicesChosen(state, file) {
  if (isRunning(state)) return { ...state, notice: 'stopFirst' };
  const { file: ownFile, isTree, hasFileDates, page } = state.source;
  const own = { file: ownFile, isTree, hasFileDates, page, ...ANEW };
  return chosenAnew(state, own, { file, choices: null, isFilled: false });
}

// ---- What is chosen: the columns and their dates ----

/**
 * A choice is made. What was counted of names before it is counted anew, unless only a name was given a meaning.
 * @param {SheetState} state
 * @returns {SheetState}
 */
export function picked(state, change) {
  if (isRunning(state)) return { ...state, notice: 'stopFirst' };
  const listed = 'names' in change ? state.listed : state.listed.map((it) => ({ ...it, count: null }));
  return { ...state, picks: { ...state.picks, ...change }, listed, notice: '' };
}

/**
 * A column of dates, or its calendar, is chosen.
 * @param {SheetState} state
 */
export function datePicked(state, place, change) {
  return picked(state, { dates: state.picks.dates.map((it, i) => (i === place ? { ...it, ...change } : it)) });
}

/**
 * A further column of dates, with the calendars of the last one.
 * @param {SheetState} state
 */
export function dateAdded(state) {
  const { dates } = state.picks;
  if (dates.length >= MOST_DATES) return state;
  return picked(state, { dates: [...dates, { date: '', calendar: dates[dates.length - 1].calendar }] });
}

/**
 * One column of dates less; one stays.
 * @param {SheetState} state
 */
export function dateRemoved(state, place) {
  const { dates } = state.picks;
  return dates.length === 1 ? state : picked(state, { dates: dates.filter((_, i) => i !== place) });
}

const isName = (one) => (other) => one.name === other.name && one.where === other.where;

// The names, of which one has a meaning now, or '' for none.
function namesWith(names, made) {
  const isIt = isName(made);
  if (made.means === '') return names.filter((it) => !isIt(it));
  return names.some(isIt) ? names.map((it) => (isIt(it) ? made : it)) : [...names, made];
}

// Whether a meaning is the same in each calendar.
const isOfAll = (means) => means === '' || /^(nothing|number( \d+)?)$/.test(means);

/**
 * A name is given a meaning, or '' leaves it as it is. A sign or a number, which means the same in the dates of each calendar,
 * has it in all that are listed.
 * @param {SheetState} state
 */
export function namePicked(state, name, where, means) {
  const { picks: { names }, listed } = state, meansNow = (it) => (names.find(isName(it)) || { means: '' }).means;
  const before = meansNow({ name, where });
  const isAlso = (it) => it.name === name && it.where !== '' && it.where !== where && meansNow(it) === before;
  const others = where !== '' && isOfAll(means) && isOfAll(before) ? listed.filter(isAlso) : [];
  const all = [{ name, where }, ...others].reduce((made, it) => namesWith(made, { name, where: it.where, means }), names);
  return picked(state, { names: all });
}

/**
 * Columns to be put behind the sheet's own are chosen.
 * @param {SheetState} state
 * @returns {SheetState}
 */
export function columnsChosen(state, columns) {
  if (isRunning(state)) return { ...state, notice: 'stopFirst' };
  return { ...state, columns, notice: '' };
}

// ---- What is known of it ----

export const isTooLarge = ({ source }) => source.file !== null && source.file.size > MOST_BYTES;

/** What was proposed, and not chosen otherwise. */
export function shownProposed({ source, proposed }) {
  const own = (name) => (proposed[name] === source[name] ? proposed[name] : null);
  return { encoding: own('encoding'), delimiter: own('delimiter'), above: own('above') };
}

/** How the sheet begins, or null while that is not known. */
export const beginning = ({ begins }) => (begins !== null && begins.reply.answer && begins.reply.answer.records > 0 ?
  begins.reply.answer : null);

/** The columns among which those with years, months and days are chosen: the sheet's own, unless these are fewer than three. */
export function partColumns(state) {
  const { heading, isOfTree, joined } = beginning(state) || { heading: [], isOfTree: false, joined: null };
  const own = heading.slice(0, joined ?? heading.length);
  return isOfTree || own.length < NO_THREE.length ? [] : own;
}

/** The first choice that is missing, and of which column of dates; or null. */
export function missing({ picks }) {
  const ofOne = (it, place) => ['date', 'calendar'].filter((which) => it[which] === '').map((which) => ({ which, place }));
  const lacking = picks.dates.some((it) => lacksMeaning(picks, it)) ? [{ which: 'empty', place: 0 }] : [];
  return [...picks.dates.flatMap(ofOne), ...lacking][0] || null;
}

const isOfNow = (state, it) => it !== null && it.begins === state.begins && it.picks === state.picks;

/** What is not known in the columns that are chosen, or null. */
export const shownUnknown = (state) => (isOfNow(state, state.unknown) ? state.unknown.reply : null);

/** What other orders of numbers would read, and months, years and ranges, or null. */
export const shownOrders = (state) => (isOfNow(state, state.orders) ? state.orders.reply : null);

/** How the registers begin that would be made, and the sheet that would come back, or null. */
export function shownPreview(state) {
  const { columns, preview } = state;
  return isOfNow(state, preview) && preview.columns === columns ? preview.reply : null;
}

/** The conversion that is shown: none whose choices are others than those of now. */
export function shownRun({ source, picks, columns, run }) {
  const isSame = run !== null && run.source === source && run.picks === picks && run.columns === columns;
  return isSame ? run : null;
}

// ---- What runs ----

/**
 * The conversion of what is chosen begins, unless one goes on.
 * @param {SheetState} state
 * @returns {SheetState}
 */
export function started(state) {
  if (isRunning(state) || beginning(state) === null) return state;
  if (missing(state)) return { ...state, notice: 'chooseDates' };
  const { source, picks, columns } = state, runs = state.runs + 1;
  const run = {
    source, picks, columns, status: /** @type {'runs'} */ ('runs'), key: `sheet ${runs}`, reply: null, told: null,
    isSaved: false, gathered: [], sorted: null, registers: {}, pictures: {},
  };
  return { ...state, runs, run, notice: '' };
}

/**
 * The conversion is stopped, and its worker ends: the next one reads the sheet again.
 * @param {SheetState} state
 * @returns {SheetState}
 */
export function stopped(state) {
  if (!isRunning(state)) return state;
  const run = { ...state.run, status: /** @type {'stopped'} */ ('stopped'), told: null };
  return { ...state, run, worker: state.worker + 1, notice: '' };
}

const isWhole = (run) => run !== null && run.status === 'ended' && Boolean(run.reply.answer && run.reply.answer.table);

// What is made of a column of dates when it is wanted, by the task that makes it.
const PARTS = { registers: 'sheetRegister', pictures: 'sheetPicture' };

function partWanted(state, part, place, found = null) {
  const run = shownRun(state);
  if (!isWhole(run) || run[part][place]) return state;
  return { ...state, run: { ...run, [part]: { ...run[part], [place]: { reply: found } } } };
}

/**
 * The register of a column of dates is wanted too. They are numbered through: of each column one, or with spans two, of its
 * first and of its last days.
 * @param {SheetState} state
 * @returns {SheetState}
 */
export const registerWanted = (state, place) => partWanted(state, 'registers', place);

/**
 * A picture of a column of dates is wanted too.
 * @param {SheetState} state
 * @returns {SheetState}
 */
export const pictureWanted = (state, place) => partWanted(state, 'pictures', place, state.run && state.run.gathered[place]);

/**
 * The sheet is wanted with its records by the days of a column of dates; or as they stand, for null.
 * @param {SheetState} state
 * @returns {SheetState}
 */
export function sortWanted(state, place) {
  const run = shownRun(state);
  if (!isWhole(run)) return state;
  return { ...state, run: { ...run, sorted: place === null ? null : { place, reply: null } } };
}

// The choices as a worker takes them, with the reading that they were made from.
const wordsOf = ({ source, reading, picks }) =>
  ({ ...source, number: reading, kept: null, choice: numbersOf(source, picks), names: namesText(picks.names) });

const workerOf = ({ worker }) => `sheet ${worker}`;
// The worker that finds days has the text of a conversion.
const daysWorkerOf = (run) => `days of ${run.key}`;
const choicesKey = ({ reading }) => `sheet choices ${reading}`;
const readingKey = ({ reading, source }) => `sheet reading ${reading} ${source.above}`;
const picksKey = (state) => `${readingKey(state)} ${JSON.stringify(state.picks)}`;
const unknownKey = (state) => `names ${picksKey(state)}`;
const ordersKey = (state) => `orders ${picksKey(state)}`;
const previewKey = (state) => `preview ${picksKey(state)} ${state.columns}`;

// The text that is or was converted, once it is known.
const textOf = (run) => (run.status === 'runs' ? run.told : isWhole(run) && run.reply.answer);

// A task about the days of a column of dates of what was converted.
function daysTask({ source, picks }, run, key, name, place, more = {}) {
  const words = { conversion: run.key, text: textOf(run).text, choice: numbersOf(source, picks), names: namesText(picks.names),
    delimiter: source.delimiter, above: source.above, place, ...more };
  return { key, worker: daysWorkerOf(run), name, words };
}

// What is wanted of columns of dates, and was not made yet, each with its key.
function wantedParts(state) {
  const run = shownRun(state);
  if (run === null) return [];
  return Object.keys(PARTS).flatMap((part) => Object.entries(run[part]).filter(([, { reply }]) => reply === null)
    .map(([place]) => ({ part, place, key: `${run.key} ${part} ${place}` })));
}

function partTasks(state, task) {
  return wantedParts(state).map(({ part, place, key }) => {
    if (part === 'pictures') return daysTask(state, state.run, key, PARTS[part], Number(place));
    const ends = endsOf(state.picks).length;
    return task(key, PARTS[part], { ...wordsOf(state), place: Math.floor(Number(place) / ends), end: Number(place) % ends });
  });
}

const sortKey = (run) => `${run.key} sorted by ${run.sorted.place}`;
const isSorting = (run) => run !== null && run.sorted !== null && run.sorted.reply === null;

function sortTasks(state) {
  const run = shownRun(state);
  if (!isSorting(run)) return [];
  const { picks: { dates }, columns } = run, { table } = run.reply.answer;
  const behind = dates.length * widthOf(numbersOf(run.source, run.picks), columns.length);
  return [daysTask(state, run, sortKey(run), 'sortedSheet', run.sorted.place, { table, behind })];
}

const gatherKey = (run) => `${run.key} gathers ${run.gathered.length}`;

// The days of the next column of dates are gathered while nothing else is wanted of its worker.
function gatherTasks(state) {
  const run = shownRun(state);
  if (run === null || !textOf(run) || run.gathered.length === run.picks.dates.length) return [];
  return [daysTask(state, run, gatherKey(run), 'sheetPicture', run.gathered.length)];
}

/** What the worker of the sheet is to be asked now. */
export function tasks(state) {
  const { source, kept, reading, picks, columns, run } = state, { dates } = picks;
  const task = (key, name, words) => ({ key, worker: workerOf(state), name, words });
  if (kept !== null && kept.choices === null) return [task(choicesKey(state), 'choices', { file: kept.file })];
  if (source.file === null || isTooLarge(state)) return [];
  if (state.begins === null) {
    const words = { ...source, number: reading, kept: kept && kept.choices };
    return [task(readingKey(state), 'beginning', words)];
  }
  const first = beginning(state);
  if (first === null) return [];
  if (isRunning(state)) {
    const { heading, records } = first;
    const places = dates.map(({ date, calendar }) => [Number(date), isColumn(calendar) ? Number(calendar) : null]);
    const words = { ...wordsOf(state), columns, places, heading, records, isTold: state.isEarly };
    return [task(run.key, 'convertSheet', words), ...gatherTasks(state)];
  }
  if (missing(state)) return [];
  const wanted = [...partTasks(state, task), ...sortTasks(state)];
  if (shownPreview(state) === null) {
    wanted.push(task(previewKey(state), 'preview', { ...wordsOf(state), dates: dates.length, columns }));
  }
  if (shownUnknown(state) === null) wanted.push(task(unknownKey(state), 'unknownNames', wordsOf(state)));
  else if (shownOrders(state) === null && shownRun(state) === null) {
    wanted.push(task(ordersKey(state), 'orders', ordersWords(state)));
  }
  return wanted.length ? wanted : gatherTasks(state);
}

const ordersWords = (state) => ({ ...wordsOf(state), dates: state.picks.dates.map(({ date }) => Number(date)) });

/** The workers that stay: one has read the sheet, and one has the days of what is shown. */
export function keptWorkers(state) {
  const run = shownRun(state);
  return [workerOf(state), ...(run !== null && textOf(run) ? [daysWorkerOf(run)] : [])];
}

// The conversion ended. Where the file was read anew, what is shown of the sheet is what was converted.
function runReplied(state, reply) {
  const run = { ...state.run, status: /** @type {'ended'} */ ('ended'), reply, told: null };
  const ended = { ...state, run, notice: '' };
  if (reply.fault === 'otherColumns') return { ...readAnew({ ...state, run: null }, state.source), notice: 'otherColumns' };
  if (reply.fault || !reply.answer.sheetBegins) return ended;
  const { sheetBegins } = reply.answer;
  const isSame = JSON.stringify(sheetBegins) === JSON.stringify(beginning(state));
  return isSame ? ended : { ...ended, begins: { reply: { answer: sheetBegins } } };
}

const listedNames = ({ names }) => names.filter(({ name, where }) => name !== '' || where !== '')
  .map(({ name, where }) => ({ name, where, count: null }));

// The columns that were chosen of a sheet, but for that of the dates of three columns, which is chosen where it is there now.
function columnsStay(picks, { heading, three, joined }, proposed) {
  const own = joined ?? heading.length, isOwn = (column) => !isColumn(column) || Number(column) < own;
  const calendarOf = ({ calendar }) => (isOwn(calendar) ? calendar : '');
  const isPart = (date) => joined !== null && three.includes(date);
  const stay = picks.dates.filter(({ date }) => date !== '' && isOwn(date) && !isPart(date))
    .map((it) => ({ ...it, calendar: calendarOf(it) }));
  const last = calendarOf(picks.dates[picks.dates.length - 1]);
  const more = proposed.dates.filter(({ date }) => joined !== null && date === String(joined))
    .map((it) => ({ ...it, calendar: last || it.calendar }));
  const dates = [...stay, ...more].slice(0, MOST_DATES);
  return { ...picks, id: isOwn(picks.id) ? picks.id : '-1', dates: dates.length ? dates : proposed.dates };
}

// The columns, as they are proposed by their names or were kept. What was chosen for the dates of this file stays. In a
// family tree the day stands first.
function columnsProposed(state, answer) {
  const { heading, encoding, delimiter, isOfTree, three, joined } = answer, { kept, picks } = state, rules = rulesOf(picks);
  const proposed = likelyPicks(heading, joined === null ? [] : three, joined);
  if (state.stays) return { ...state, picks: columnsStay(picks, answer, proposed) };
  if (kept === null) {
    const own = { ...proposed, ...rules, order: isOfTree ? 'day' : rules.order };
    return { ...state, picks: own, listed: listedNames(own), fit: null };
  }
  const { picks: fit, absent } = fitted(kept.choices, heading, proposed), own = kept.isFilled ? { ...fit, ...rules } : fit;
  const isOther = (name, now) => (kept.choices[name] !== null && kept.choices[name] !== now ? [name] : []);
  const other = [...isOther('encoding', encoding), ...isOther('delimiter', delimiter)];
  return { ...state, picks: own, listed: listedNames(own), kept: { ...kept, isFilled: true }, fit: { absent, other } };
}

// The sheet was read, and what was not chosen is as it was proposed.
function readingReplied(state, reply) {
  const { source, proposed } = state, begins = { reply };
  if (reply.fault) return { ...state, begins };
  const { encoding, delimiter, above, three } = reply.answer;
  const found = { encoding, delimiter, above }, isOfNow = isThree(source.three) || source.three === null;
  const ofNow = { ...source, ...found, three: isOfNow ? three : source.three };
  const lookOf = (name) => (source[name] === null ? found[name] : proposed[name]);
  const looks = { encoding: lookOf('encoding'), delimiter: lookOf('delimiter'), above: lookOf('above') };
  return { ...columnsProposed(state, reply.answer), begins, source: ofNow, proposed: looks };
}

// The choices that were kept were read, or are none. An encoding that the page does not offer is none.
function choicesReplied(state, { answer, fault }) {
  if (fault) return { ...state, kept: null, notice: fault };
  const encoding = answer.encoding in WORDS.encodings ? answer.encoding : null;
  const notice = state.source.file === null ? 'choicesWait' : state.notice;
  return { ...state, kept: { ...state.kept, choices: { ...answer, encoding } }, columns: answer.columns, notice };
}

// Names were looked for: those that are not known, behind those that were listed before and are known by the user now.
function unknownReplied(state, reply) {
  const { begins, picks, listed } = state, unknown = { begins, picks, reply };
  if (reply.fault) return { ...state, unknown };
  const found = reply.answer.names, isIn = (list, it) => list.some(isName(it));
  const stays = listed.filter((it) => isIn(found, it) || isIn(picks.names, it)).map((it) => found.find(isName(it)) || it);
  return { ...state, unknown, listed: [...stays, ...found.filter((it) => !isIn(stays, it))] };
}

const gatherReplied = ({ run, ...state }, reply) => ({ ...state, run: { ...run, gathered: [...run.gathered, reply] } });

// While a sheet is converted, its text may be told, and days be gathered.
function replyWhileRuns(state, key, reply) {
  const { run } = state;
  if (key === run.key) return reply.news ? { ...state, run: { ...run, told: reply.news } } : runReplied(state, reply);
  return run.told && key === gatherKey(run) ? gatherReplied(state, reply) : state;
}

function partReplied(state, key, reply) {
  const found = wantedParts(state).find((it) => it.key === key), run = shownRun(state);
  if (isSorting(run) && key === sortKey(run)) return { ...state, run: { ...run, sorted: { ...run.sorted, reply } } };
  if (run !== null && key === gatherKey(run)) return gatherReplied(state, reply);
  if (!found) return state;
  return { ...state, run: { ...run, [found.part]: { ...run[found.part], [found.place]: { reply } } } };
}

/**
 * An answer came. One to a question that is not asked any more is dropped.
 * @param {SheetState} state
 * @returns {SheetState}
 */
export function replied(state, key, reply) {
  const { begins, picks, columns, kept } = state;
  if (isRunning(state)) return replyWhileRuns(state, key, reply);
  if (kept !== null && kept.choices === null) return key === choicesKey(state) ? choicesReplied(state, reply) : state;
  if (begins === null) return key === readingKey(state) ? readingReplied(state, reply) : state;
  if (key === unknownKey(state)) return unknownReplied(state, reply);
  if (key === ordersKey(state)) return { ...state, orders: { begins, picks, reply } };
  if (key === previewKey(state)) return { ...state, preview: { begins, picks, columns, reply } };
  return partReplied(state, key, reply);
}

/**
 * The table was saved.
 * @param {SheetState} state
 * @returns {SheetState}
 */
export const saved = (state) => ({ ...state, run: { ...state.run, isSaved: true } });

const isUnsavedRun = (held) => isWhole(shownRun(held)) && !shownRun(held).isSaved;

/** Whether there is a table of a sheet that was not saved. */
export const isUnsaved = (state) => Object.values(heldWith(state)).some(isUnsavedRun) || isUnsavedRun(state);

/** Whether the sheet of this number has a table that was not saved. */
export const isUnsavedOf = (state, number) =>
  Object.values(heldWith(state)).some((held) => held.given.number === number && isUnsavedRun(held));
