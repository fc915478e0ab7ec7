// What is given to the page: files and pasted cells, each with what it looks like and what it is taken for. What is given
// later is added; a file of a name that is there takes its place. Each step takes the state and gives the next.

import { WORDS } from './language.mjs';

/** What a file can be taken for, whatever it looks like; as nothing it is left out. */
export const CHOICES = ['register', 'sheet', 'tree', 'nothing'];
// What stands between the fields of cells that are copied from a spreadsheet.
const TAB = 9;
// More files than can be given at once.
const MOST_FILES = 1e6;

/**
 * A look says the kind of a file, of a register also its delimiter and whether it is sealed, and of a sheet its first line.
 * `proposed` is how pasted cells are to be read. `coming` has what was given and is not told yet: its looks are null until
 * they are known. `open` is the number of the sheet or family tree that is worked at. `question` is what is asked before
 * something that was not saved goes: `anew`, or `replace` with the names of the files whose place others are to take.
 * @typedef {{ kind: string, delimiter?: number, sealed?: boolean, firstLine?: string, isWorkbook?: boolean }} Look
 * @typedef {{ file: File, proposed: any }} Given
 * @typedef {Given & { number: number, look: Look, as: string }} Entry
 * @typedef {{ what: 'anew' | 'replace', names: string[] }} Question
 * @typedef {{ entries: Entry[], coming: { given: Given[], looks: Look[] | null } | null, asked: number, open: number | null,
 *   folders: string[], notice: string, question: Question | null }} DoorState
 */

/** @returns {DoorState} */
export const initial = () =>
  ({ entries: [], coming: null, asked: 0, open: null, folders: [], notice: '', question: null });

/**
 * Something is given. What was given before and is not told yet is told with it.
 * @param {DoorState} state
 * @param {Given[]} given
 * @returns {DoorState}
 */
function given(state, given, folders = []) {
  const before = state.coming === null ? [] : state.coming.given;
  const coming = given.length ? { given: [...before, ...given], looks: null } : state.coming;
  return { ...state, coming, asked: state.asked + 1, folders, notice: '', question: null };
}

/**
 * Files are chosen. Folders among what was dropped are named, and left out.
 * @param {DoorState} state
 * @param {File[]} files
 */
export const chosen = (state, files, folders = []) =>
  given(state, files.map((file) => ({ file, proposed: null })), folders);

/**
 * Cells of a spreadsheet are pasted, with tabs between them: they are as a file with this text would be.
 * @param {DoorState} state
 */
export const pasted = (state, text) =>
  given(state, [{ file: new File([text], WORDS.pasted), proposed: { encoding: 'utf-8', delimiter: TAB, above: null } }]);

/** What an entry can be taken for: nothing where it cannot be taken at all. */
export function choicesOf({ look }) {
  if (look.isWorkbook) return ['sheet', 'nothing'];
  return CHOICES.includes(look.kind) ? CHOICES : [];
}

export const canBeOther = (entry) => choicesOf(entry).length > 0;
/** Whether an entry is a sheet that is a text, and so can be a register that lacks its header. */
export const isTextSheet = ({ as, look }) => as === 'sheet' && !look.isWorkbook;
const isOfSheet = ({ as }) => as === 'sheet' || as === 'tree';

// The sheet that is worked at stays so; else it is the first one.
function withOpen(state) {
  const sheets = state.entries.filter(isOfSheet);
  if (sheets.some(({ number }) => number === state.open)) return state;
  return { ...state, open: sheets.length ? sheets[0].number : null };
}

// What each of those that came takes the place of, or null: of a name that is there more than once, each at most once.
// Pasted cells have no name of their own, so those with another first line are no mended ones.
function replacedBy({ entries, coming: { given, looks } }) {
  const left = [...entries];
  return given.map(({ file, proposed }, i) => {
    const isIt = (it) => it.file.name === file.name && (proposed === null) === (it.proposed === null) &&
      (proposed === null || it.look.firstLine === looks[i].firstLine);
    const place = left.findIndex(isIt);
    return place < 0 ? null : left.splice(place, 1)[0];
  });
}

/** The entries whose place others are to take, each with the file that it is to be. */
export const replaced = (state) => replacedBy(state).flatMap((entry, i) =>
  (entry === null ? [] : [{ entry, file: state.coming.given[i].file }]));

// What a file in the place of another one is taken for: what the user took that one for, if it can be.
const takenAs = (look, before) =>
  (before && choicesOf({ look }).includes(before.as) && before.as !== 'nothing' && before.as !== before.look.kind
    ? before.as : look.kind);

/**
 * What came is told, each in the place of what it replaces or behind all others. The first sheet of it is worked at.
 * @param {DoorState} state
 * @returns {DoorState}
 */
export function arrived(state) {
  const { coming, asked } = state, places = replacedBy(state);
  const made = coming.given.map((it, i) => {
    const look = coming.looks[i], before = places[i];
    return { ...it, number: before ? before.number : asked * MOST_FILES + i, look, as: takenAs(look, before) };
  });
  const stay = state.entries.map((it) => (places.includes(it) ? made[places.indexOf(it)] : it));
  const entries = [...stay, ...made.filter((_, i) => places[i] === null)], first = made.find(isOfSheet);
  const next = { ...state, entries, coming: null, question: null };
  return withOpen(first ? { ...next, open: first.number } : next);
}

/**
 * Something is asked before what was not saved goes.
 * @param {DoorState} state
 * @param {Question} question
 * @returns {DoorState}
 */
export const asked = (state, question) => ({ ...state, question });

/**
 * What is to take the place of something unsaved stays out; all else comes.
 * @param {DoorState} state
 * @returns {DoorState}
 */
export function refused(state) {
  const { question, coming } = state, next = { ...state, question: null };
  if (question === null || question.what === 'anew') return next;
  const stays = coming.given.map(({ file }) => !question.names.includes(file.name));
  if (!stays.some(Boolean)) return { ...next, coming: null };
  const given = coming.given.filter((_, i) => stays[i]), looks = coming.looks.filter((_, i) => stays[i]);
  return { ...next, coming: { given, looks } };
}

/**
 * A file is taken off the list.
 * @param {DoorState} state
 */
export const removed = (state, number) =>
  withOpen({ ...noticed(state, ''), entries: state.entries.filter((it) => it.number !== number) });

/** Whether what came can be told. */
export const hasArrived = ({ coming }) => coming !== null && coming.looks !== null;

/**
 * Nothing is told any more, but perhaps why nothing is given now.
 * @param {DoorState} state
 * @returns {DoorState}
 */
export const noticed = (state, notice) => ({ ...state, folders: [], notice, question: null });

const takenBy = (state, isIt, as) =>
  withOpen({ ...noticed(state, ''), entries: state.entries.map((it) => (isIt(it) ? { ...it, as } : it)) });

/**
 * A file is taken for something else than it looks like, or for nothing.
 * @param {DoorState} state
 */
export const taken = (state, number, as) => takenBy(state, (it) => it.number === number, as);

/**
 * All sheets are taken for registers, as where one of many lacks its header.
 * @param {DoorState} state
 */
export const sheetsTaken = (state) => takenBy(state, isTextSheet, 'register');

/**
 * Another sheet is worked at.
 * @param {DoorState} state
 * @returns {DoorState}
 */
export const opened = (state, number) => ({ ...noticed(state, ''), open: number });

/**
 * Files of registers are others now, in the same order: one was chosen in place of a broken one.
 * @param {DoorState} state
 * @param {File[]} files
 */
export function followed(state, files) {
  const before = state.entries.filter(({ as }) => as === 'register');
  const fileOf = (it) => files[before.indexOf(it)] || it.file;
  return { ...state, entries: state.entries.map((it) => (it.file === fileOf(it) ? it : { ...it, file: fileOf(it) })) };
}

/**
 * What there is for each part of the page: registers and beside them what was left out, the sheet that is worked at, and
 * choices for it.
 */
export function partsOf({ entries, open }) {
  const last = (isIt) => entries.filter(isIt).pop() || null;
  return {
    registers: entries.filter(({ as }) => as === 'register').map(({ file }) => file),
    left: entries.filter(({ as }) => as !== 'register' && as !== 'choices'),
    sheet: last(({ number }) => number === open), choices: last(({ as }) => as === 'choices'),
  };
}

const keyOf = ({ asked }) => `door ${asked}`;

/** What a worker is to be asked now. */
export function tasks(state) {
  const { coming } = state;
  if (coming === null || coming.looks !== null) return [];
  return [{ key: keyOf(state), worker: 'date', name: 'looks', words: { files: coming.given.map(({ file }) => file) } }];
}

/**
 * An answer came. That to an older question is dropped.
 * @param {DoorState} state
 * @returns {DoorState}
 */
export function replied(state, key, { answer, fault, why }) {
  if (key !== keyOf(state) || tasks(state).length === 0) return state;
  if (fault) return { ...state, coming: null, notice: fault === 'fault' ? WORDS.fault(why) : WORDS[fault] };
  return { ...state, coming: { ...state.coming, looks: answer.looks } };
}
