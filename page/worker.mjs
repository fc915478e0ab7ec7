// What a worker does: a task for each message, one after the other. Each is given its words, and how to tell news meanwhile.

import { TooLarge, archiveOf } from './archive.mjs';
import { TARGETS } from './calendars.mjs';
import { DATES_AT, NO_THREE, choicesOf, columnNumbers, isThree, spansIn, threeIn, widthOf, withSpans } from './choices.mjs';
import { ChangedFile, NoReading, checkUnchanged, readFile } from './files.mjs';
import { formulasAmong } from './formulas.mjs';
import { NO_DAY, NoMemory, checkEnding, expectedLength, instantiate } from './module.mjs';
import { date } from './one-date.mjs';
import {
  isAnsel, isDelimiterOf, isIbmPc, isJson, isObject, isTree, kindOf, likelyAbove, likelyDelimiter, likelyEncodings, markedEncoding,
} from './proposals.mjs';
import { EVERY, LOOKED_AT, OF_EMPTY, REFUSED_SHOWN, SHOWN, Table, isOfEmpty, range, rowsOf } from './tables.mjs';
import { NoArchive, filesIn } from './packed.mjs';
import { Scan, scanned } from './scans.mjs';
import { timelineOf } from './timeline.mjs';
import { NAMES } from './unbuilt.mjs';
import { NoWorkbook, cellsOf, kindOfBook } from './workbook.mjs';

const COMMA = 44, TAB = 9;
const PIECE = 2 ** 22;
// More columns or names than these are not offered.
const MOST_COLUMNS = 200, MOST_NAMES = 200;
// Columns of the first records that are shown converted; more bytes than a file of choices has; how much of a text is
// looked at for what is proposed.
const MOST_CUT = 1000, MOST_CHOICES = 1e6, FRONT = 2 ** 16;
// The cause of a register without its header; how long one may be, in bytes; how much is shown of a first line, in letters.
const NO_HEADER = 6, HEADER = 256, LINE_SHOWN = 100;
// Where a register has its dates.
const DATE_AT = 2;
// How registers can be written.
const FORMS = [false, true].flatMap((sealed) => [44, 59, 9].map((delimiter) => ({ delimiter, sealed })));
// Fields that are looked through at once.
const FIELDS_AT_ONCE = 2 ** 22;

// Events of a family tree that tell of its file alone: when a record was changed, or made.
const OF_FILE = ['CHAN', '_CHAN', 'CREA', '_CREA'], LONGEST = 5;

// What is given does not fit; the message says how. The file is no text, or none in UTF-8 where it has to be; it is
// written in no encoding that is likely; the sheet has other columns than those that were chosen from; or the file has
// no choices of a sheet.
class Unfit extends Error {}

// Spreadsheets open a text of UTF-8 by this mark.
const MARK = '\ufeff', MARK_LENGTH = 3;

/**
 * Copies a part of the memory out. The browser takes each piece over before the next one is made, which keeps memory
 * low.
 * @returns {Promise<Blob>}
 */
async function blobOf(module, part, ...first) {
  const pieces = [...first];
  for (let at = 0; at < part.length; at += PIECE) {
    const piece = { pointer: part.pointer + at, length: Math.min(PIECE, part.length - at) };
    pieces.push(new Blob([module.bytes(piece)]));
    await new Promise((done) => { setTimeout(done); });
  }
  return new Blob(pieces, { type: 'text/csv' });
}

// Takes the bytes of a file into the module's memory, and looks at each piece of them. The answer has them, and how
// they are read.
async function taken(module, file, look = (_) => {}) {
  const part = module.malloc(file.size), bytesAt = (at, length) => module.bytes({ pointer: part.pointer + at, length });
  await readFile(file, bytesAt, look);
  return { part, bytesAt };
}

const partOf = async (module, blob, look) => (await taken(module, blob, look)).part;

const numbersOf = (targets) => targets.map((name) => TARGETS.indexOf(name));

// ---- A register ----

// What is like a formula in the first `width` columns of a table that was made of a text of so many records, where that was
// seen to have such a field at all: some columns at a time, so that it takes no more memory than they do.
function formulasOf(module, seen, text, table, delimiter, width, records) {
  const all = { count: 0, example: '' }, most = Math.max(1, Math.floor(FIELDS_AT_ONCE / (records + 1)));
  if (!seen.mayHaveFormula) return all;
  for (let from = 0; from < width; from += most) {
    const columns = range(Math.min(most, width - from)).map((i) => from + i), fields = (records + 1) * columns.length;
    const guess = { fields, bytes: Math.min(text.length, 32 * fields) + 64 };
    const { count, example } = module.pickAll(table, delimiter, columns, guess, formulasAmong);
    if (all.count === 0) all.example = example;
    all.count += count;
  }
  return all;
}

// A text's first line, as far as it is shown. What is no letter in it stands as the sign for that.
const firstLineOf = (text) => text.split(/[\r\n]/, 1)[0].slice(0, LINE_SHOWN).replace(/[\0-\x08\x0e-\x1f]/g, '\ufffd');

// How the text of bytes begins: what is neither UTF-8 nor marked is taken as a sheet would be.
function beginningOf(bytes) {
  const front = bytes.subarray(0, FRONT), marked = markedEncoding(front);
  try {
    return new TextDecoder(marked || 'utf-8', { fatal: marked === null }).decode(front, { stream: true });
  } catch (fault) {
    if (!(fault instanceof TypeError)) throw fault;
    return new TextDecoder('windows-1252').decode(front);
  }
}

const isLineEnd = (byte) => byte === 10 || byte === 13;

// How a register with this front is written, by its header, as the module reads it; or null where it has none. Empty lines
// may stand above it.
function formOf(module, bytes) {
  const own = bytes.subarray(Math.max(0, bytes.findIndex((byte) => !isLineEnd(byte)))).slice(0, HEADER);
  const end = own.findIndex(isLineEnd), header = module.put(end < 0 ? own : own.slice(0, end + 1));
  const isIt = (form) => {
    const { ending, table } = module.convert(header, { columns: [], ...form }, HEADER);
    module.free(table);
    return ending !== NO_HEADER;
  };
  const found = FORMS.find(isIt) || null;
  module.free(header);
  return found;
}

// What an archive is: a workbook that can be read is a sheet.
async function lookOfBook(file) {
  try {
    const kind = kindOfBook(filesIn(new Uint8Array(await file.arrayBuffer())));
    return kind === null || kind === 'xlsb' ? { kind: kind || 'workbook' } : { kind: 'sheet', firstLine: '', isWorkbook: true };
  } catch (fault) {
    return { kind: fault instanceof NoArchive ? 'cutWorkbook' : 'noReading' };
  }
}

// What a file looks like, by its first bytes and lines.
async function lookOf(module, file) {
  const bytes = await file.slice(0, FRONT).arrayBuffer().then((it) => new Uint8Array(it), () => null);
  if (bytes === null) return { kind: 'noReading' };
  const kind = kindOf(bytes), marked = markedEncoding(bytes), form = marked === null ? formOf(module, bytes) : null;
  if (kind === 'workbook') return lookOfBook(file);
  if (kind !== null && form === null) return { kind };
  const text = beginningOf(bytes);
  if (isTree(text)) return { kind: 'tree' };
  if (isJson(file.name) || isObject(text)) {
    if (file.size <= MOST_CHOICES && choicesOf(await file.text()) !== null) return { kind: 'choices' };
    if (isJson(file.name)) return { kind: 'noChoices' };
  }
  return form === null ? { kind: 'sheet', firstLine: firstLineOf(text) } : { kind: 'register', ...form };
}

/** What each of these files looks like. */
async function looks({ compiled, files }) {
  const module = await instantiate(compiled), found = [];
  for (const file of files) found.push(await lookOf(module, file));
  return { looks: found };
}

// A register. Its text is told when it is read where `isTold`, so that its days are found at the same time.
async function register({ compiled, file, columns, isTold }, tell) {
  const module = await instantiate(compiled), seen = new Scan();
  const { part: text, bytesAt } = await taken(module, file, (piece) => seen.look(piece));
  const bytes = bytesAt(0, text.length), kind = kindOf(bytes) || (markedEncoding(bytes) && 'utf16');
  const form = formOf(module, bytes);
  if (kind !== null && form === null) throw new Unfit(kind === 'workbook' ? 'book' : kind);
  if (isTree(frontOf(module, text))) throw new Unfit('tree');
  const { delimiter, sealed } = form || FORMS[0];
  const setup = { columns: numbersOf(columns), delimiter, sealed };
  const told = isTold ? await blobOf(module, text) : null;
  if (told) tell({ text: told, delimiter, sealed });
  const converted = module.convert(text, setup, expectedLength(text.length, seen.lines, columns.length));
  await checkUnchanged(file, bytesAt);
  const answer = { ...converted, delimiter, sealed };
  if (answer.ending === NO_HEADER) return { ...answer, table: null, firstLine: firstLineOf(beginningOf(bytesAt(0, text.length))) };
  if (answer.table.length === 0) return { ...answer, table: null };
  const table = new Table(module, answer.table, delimiter);
  const first = table.firstRows(), refused = answer.ending === 0 && answer.refused === 0 ? null : table.refusedRows();
  const counted = withoutEmpty(module, seen, text, setup, answer);
  const formulas = formulasOf(module, seen, text, answer.table, delimiter, first.from, answer.rows);
  const own = told || await blobOf(module, text), made = await blobOf(module, answer.table, MARK);
  return { ...answer, ...counted, first, refusedRows: refused, formulas, text: own, table: made };
}

// The refusals of a register without those of records that have no date.
function withoutEmpty(module, seen, text, setup, { refused, counts }) {
  if (OF_EMPTY.every((refusal) => counts[refusal - 1] === 0)) return { empty: 0 };
  const { refusals } = emptyOf(module, seen, text, setup), now = [...counts];
  for (const refusal of refusals) now[refusal - 1] -= 1;
  return { refused: refused - refusals.length, counts: now, empty: refusals.length };
}

// The records of a register that have no date, from 0, and why each is refused. Those whose dates are blank are converted
// again, by themselves.
function emptyOf(module, seen, text, { delimiter, sealed }) {
  if (!seen.mayHaveBlank) return { records: [], refusals: [] };
  const fields = seen.lines + 1, guess = { fields, bytes: Math.min(text.length, 12 * fields) };
  const blank = module.pickAll(text, delimiter, [DATE_AT], guess, blankRecords);
  const own = module.sheetRecords(text, delimiter, blank), columns = [];
  const { table } = module.convert(own, { columns, delimiter, sealed }, expectedLength(own.length, blank.length, 0));
  const rows = new Table(module, table, delimiter).rows(['refusal'], EVERY).map(([refusal]) => Number(refusal));
  module.free(table, own);
  const isEmpty = (_, i) => OF_EMPTY.includes(rows[i]);
  return { records: blank.slice(1).map((record) => record - 1).filter(isEmpty), refusals: rows.filter(isEmpty) };
}

// The header of a register, and its records whose dates are blank: these are all dates, and the length of each.
function blankRecords(bytes, lengths) {
  const found = [0];
  for (let i = 0, at = 0; i < lengths.length; at += lengths[i], i += 1) {
    if (i > 0 && isBlank(bytes, at, at + lengths[i])) found.push(i);
  }
  return found;
}

/** An archive of files, with a comment. */
async function archive({ files, comment }) {
  return { archive: await archiveOf(files, comment, new Date()) };
}

/** What a picture of a register shows, by the text that was converted. One that broke off has the records before. */
async function picture({ compiled, text, delimiter, sealed }) {
  const module = await instantiate(compiled), seen = new Scan(), own = await partOf(module, text, (piece) => seen.look(piece));
  const entries = module.registerDays(own, delimiter, sealed), empty = new Uint8Array(entries.days.length);
  if (entries.ending === 1) throw new NoMemory();
  if (entries.days.includes(NO_DAY)) for (const record of emptyOf(module, seen, own, { delimiter, sealed }).records) empty[record] = 1;
  const { days, calendars } = entries;
  return timelineOf(module, [own], delimiter, { firsts: days, lasts: days, calendars, empty, isHalf: null });
}

// ---- Sheets ----

/**
 * What a sheet is read from: `number` is that of the reading. An encoding, a delimiter or a number of records above the
 * names that is null is to be proposed, by `kept` choices where they fit, and so is whether it is a family tree. `three` are
 * the columns with years, months and days, or null where they are those of `kept` choices.
 * @typedef {{ compiled: WebAssembly.Module, number: number, file: File, isTree?: boolean | null, encoding: string | null,
 *   delimiter: number | null, above: number | null, kept: any, hasFileDates?: boolean, page?: number | null,
 *   three?: string[] | null }} Source
 */

// The sheet that was read last, in the module's memory.
let sheet = null;

// Takes a file into the module's memory. The answer has its bytes, and whether these are UTF-8, or even ASCII alone.
async function rawOf(module, file) {
  const decoder = new TextDecoder('utf-8', { fatal: true });
  let isUtf8 = true, isAscii = true;
  const look = (piece, isLast) => {
    try {
      if (decoder.decode(piece, { stream: !isLast }).length !== piece.length) isAscii = false;
    } catch (fault) {
      if (!(fault instanceof TypeError)) throw fault;
      isUtf8 = false;
    }
  };
  const { part: raw, bytesAt } = await taken(module, file, (piece) => isUtf8 && look(piece, false));
  if (isUtf8) look(new Uint8Array(), true);
  return { raw, bytesAt, isUtf8, isAscii: isUtf8 && isAscii };
}

// The text that bytes are in an encoding, in UTF-8, or null where they are not written in it.
function decodedBy(module, raw, encoding) {
  const decoder = new TextDecoder(encoding, { fatal: true }), encoder = new TextEncoder();
  const room = module.malloc(3 * raw.length + 16);
  let length = 0;
  try {
    for (let at = 0; at <= raw.length; at += PIECE) {
      const piece = { pointer: raw.pointer + at, length: Math.min(PIECE, raw.length - at) };
      const letters = decoder.decode(module.bytes(piece), { stream: at + PIECE <= raw.length });
      const rest = { pointer: room.pointer + length, length: room.length - length };
      length += encoder.encodeInto(letters, module.bytes(rest)).written;
    }
  } catch (fault) {
    module.free(room);
    if (fault instanceof TypeError) return null;
    throw fault;
  }
  return module.shrink(room, length);
}

// The text of UTF-8 without its mark.
function withoutMark(module, raw) {
  const [one, two, three] = module.bytes(raw), isMarked = one === 0xef && two === 0xbb && three === 0xbf;
  return isMarked ? { pointer: raw.pointer + 3, length: raw.length - 3 } : raw;
}

// The text, in the encoding that is chosen, or else in the first that is likely in which it is written.
function textOf(module, { raw, bytesAt, isUtf8, isAscii }, chosen, kept) {
  const ownKept = kept && kept.encoding, likely = likelyEncodings(bytesAt(0, raw.length));
  const likelier = isAscii && ownKept ? [ownKept, ...likely] : [...likely.slice(0, -1), ownKept, ...likely.slice(-1)];
  for (const encoding of chosen === null ? likelier.filter(Boolean) : [chosen]) {
    if (encoding === 'utf-8' && !isUtf8) continue;
    const text = encoding === 'utf-8' ? withoutMark(module, raw) : decodedBy(module, raw, encoding);
    if (text !== null) return { encoding, text };
  }
  throw new Unfit('notEncoded');
}

// How the text begins, for what is proposed.
function frontOf(module, text) {
  return new TextDecoder().decode(module.bytes({ ...text, length: Math.min(FRONT, text.length) }));
}

// The delimiter that was chosen, or kept, or is likely.
function delimiterOf(front, { delimiter, kept }) {
  const isKept = kept && kept.delimiter !== null && isDelimiterOf(front, kept.delimiter);
  return delimiter ?? (isKept ? kept.delimiter : likelyDelimiter(front));
}

// A sheet of a workbook, as a text in which a tab stands between two cells, as in cells that are copied.
async function readBook(module, { raw, bytesAt }, { number, file, page }) {
  const { pages, width, fields } = await cellsOf(module.bytes(raw).slice(), page || 0);
  const text = fields.length ? module.write(fields, width, TAB) : module.put(new Uint8Array());
  return {
    number, file, bytesAt, module, text, front: frontOf(module, text), encoding: 'utf-8', delimiter: TAB, isOfTree: false,
    book: { pages, page: page || 0 },
  };
}

// The sheet as it is in its file.
/** @param {Source} source */
async function readOwn(source) {
  const { compiled, number, file, encoding: chosen } = source;
  const module = await instantiate(compiled), read = await rawOf(module, file);
  const kind = kindOf(read.bytesAt(0, read.raw.length));
  if (kind === 'workbook') return readBook(module, read, { number, file, page: source.page });
  if (kind !== null) throw new Unfit(kind);
  const { encoding, text: own } = textOf(module, read, chosen, source.kept), beginning = frontOf(module, own);
  const isOfTree = source.isTree ?? isTree(beginning);
  if (isOfTree && !read.isAscii && isAnsel(beginning)) throw new Unfit('ansel');
  if (isOfTree && !read.isAscii && chosen === null && isIbmPc(beginning)) throw new Unfit('ibmpc');
  const text = isOfTree ? datesOfTree(module, own, source.hasFileDates) : own;
  const front = isOfTree ? frontOf(module, text) : beginning;
  const delimiter = isOfTree ? COMMA : delimiterOf(front, source);
  const { bytesAt } = read;
  return { number, file, bytesAt, module, text, front, encoding, delimiter, isOfTree };
}

/** @param {Source} source */
async function readSheet(source) {
  sheet = null;
  const own = await readOwn(source), above = aboveOf(own, source), three = threeOf(own, above, source);
  const { module, delimiter } = own, isJoined = isThree(three);
  const text = isJoined ? module.joinedDates(own.text, delimiter, above, three.map(Number)) : own.text;
  sheet = { ...own, text, above, three, counted: null };
  return sheet;
}

// The dates of a family tree: without those of the file itself, of its header and of when its records were changed, unless
// they are wanted too.
function datesOfTree(module, tree, hasFileDates) {
  const dates = module.treeDates(tree);
  if (hasFileDates) return dates;
  const place = module.pick(dates, COMMA, range(MOST_COLUMNS), 1).fields.indexOf('event');
  const guess = Math.ceil(dates.length / 8) + 64;
  const indices = module.pickAll(dates, COMMA, [0, place], { fields: guess, bytes: guess }, ownDates);
  const own = module.sheetRecords(dates, COMMA, indices);
  module.free(dates);
  return own;
}

// The records, from 0, of a heading and of dates that are no file's own: each has the number of what it is in, which the
// header of the file has none of, and an event.
function ownDates(bytes, lengths) {
  const found = [];
  for (let at = 0, i = 0; i < lengths.length; i += 2) {
    const event = at + lengths[i], end = event + lengths[i + 1];
    const isOfFile = end - event <= LONGEST && OF_FILE.includes(String.fromCharCode(...bytes.subarray(event, end)));
    if (i === 0 || (lengths[i] > 0 && !isOfFile)) found.push(i / 2);
    at = end;
  }
  return found;
}

// The sheet of this reading, which a new worker reads again.
const sheetOf = async (source) => (sheet && sheet.number === source.number ? sheet : readSheet(source));

// A column of the dates of three others stands behind all, so that no fewer are looked at.
const mostOf = ({ three }, most) => (isThree(three) ? Infinity : most);

// The first records and columns of a sheet under its names, and what stands above these; and where the dates of three columns
// stand, or null.
function begins({ module, text, encoding, delimiter, isOfTree, three = NO_THREE, book = {} }, above, records, widest) {
  const width = Math.max(1, Math.min(widest, mostOf({ three }, MOST_COLUMNS)));
  const first = rowsOf(module.pick(text, delimiter, range(width), above + SHOWN + 1).fields, width);
  const titles = first.slice(0, Math.min(above, SHOWN)).map((fields) => fields.filter(Boolean).join(' '));
  const [heading = [], ...rows] = first.slice(above);
  // The name of that column is the last, and is never empty.
  const joined = isThree(three) && heading.length ? heading.map(Boolean).lastIndexOf(true) : null;
  return { encoding, delimiter, above, records, widest, heading, rows, titles, isOfTree, three, joined, ...book };
}

// The most fields of the first records, so many.
const widestOf = ({ module, text, delimiter }, most) => module.pick(text, delimiter, [], most).widest;

// The names of the columns of a sheet as it is in its file.
const headingOf = (read, above) => begins(read, above, 0, widestOf(read, above + 1)).heading;

// The three columns with years, months and days that are chosen, or were kept, where the sheet has them.
function threeOf(read, above, { three = null, kept }) {
  if (read.isOfTree) return NO_THREE;
  const own = three ?? (kept ? threeIn(kept, headingOf(read, above)) : NO_THREE);
  return isThree(own) && Math.max(...own.map(Number)) >= widestOf(read, EVERY) ? NO_THREE : own;
}

// The records above the names, so many as were chosen, or kept where a column that was kept has its name below, or are
// likely.
function aboveOf(read, { above, kept }) {
  if (above !== null) return above;
  if (read.isOfTree) return 0;
  if (kept && kept.above !== null) {
    const heading = headingOf(read, kept.above);
    if ([...kept.dates, ...(kept.three || [])].some(({ column }) => heading.includes(column))) return kept.above;
  }
  return likelyAbove(read.front, read.delimiter);
}

/** How a sheet begins, and how it was read. */
async function beginning(source) {
  const read = await sheetOf(source), above = source.above ?? read.above;
  read.counted ??= read.module.pick(read.text, read.delimiter, [], EVERY);
  const { records, widest } = read.counted;
  return begins(read, above, Math.max(0, records - above), widest);
}

/** The choices that were kept in a file. */
async function choices({ file }) {
  const kept = file.size > MOST_CHOICES ? null : choicesOf(await file.text().catch(() => ''));
  if (kept === null) throw new Unfit('noChoices');
  return kept;
}

// The list of names, with lines of the user's own before all others.
const namesWith = (lines) => NAMES.replace('\n', () => `\n${lines}`);

/**
 * The names that are not known, each with the calendar in whose dates it stands (none for a name of a calendar), and how
 * often; how often others stand there; how many dates are left out as their year is short, and how many stay as they are.
 */
async function unknownNames({ choice, names, ...source }) {
  const { module, text } = await sheetOf(source);
  const { ending, list, more, short, kept } = module.unknownNames(text, choice, namesWith(names), MOST_NAMES);
  const { fields } = ending === 0 ? module.pick(list, COMMA, [0, 2, 3], EVERY) : { fields: [] };
  if (ending === 0) module.free(list);
  const found = rowsOf(fields, 3).slice(1).map(([name, where, count]) => ({ name, where, count: Number(count) }));
  return { ending, names: found, more, short, kept };
}

// How many dates another order of numbers reads, of which the first is decided by a number over 12: a proposal, for which
// so much of a text is looked at, and so many dates of it.
const ORDERS_LOOKED_AT = 2 ** 21, DATES_LOOKED_AT = 20000, ORDER_AT = 3, MONTHS = 12;
const THREE_NUMBERS = /^\D*(\d{1,2})[^\d\p{L}]+(\d{1,2})[^\d\p{L}]+\d{3,4}\D*$/u;

// Which order a date in numbers with the year last has, where one of its numbers is no month: 1 for the day first, 2 for the
// month first; else 0.
function decidedOrder(date) {
  const [, first, second] = (THREE_NUMBERS.exec(date) || []).map(Number);
  if (first > MONTHS && second <= MONTHS) return 1;
  return second > MONTHS && first <= MONTHS ? 2 : 0;
}

/**
 * For each order of the numbers of dates, how many more dates it reads than the one that is chosen, and the first date that
 * decides for it, or null; and how many more are read as months, years and ranges.
 */
async function orders({ choice, dates, names, ...source }) {
  const { module, text, delimiter } = await sheetOf(source), { above } = source;
  const front = { ...text, length: Math.min(text.length, ORDERS_LOOKED_AT) }, list = namesWith(names);
  const unreadBy = (other) => {
    const { ending, list: found, short, kept } = module.unknownNames(front, other, list, 0);
    module.free(found);
    return ending === 0 ? kept + short : Infinity;
  };
  const unread = (order) => unreadBy(choice.map((number, i) => (i === ORDER_AT ? order : number)));
  const fields = module.pick(front, delimiter, dates, above + 1 + DATES_LOOKED_AT).fields.slice((above + 1) * dates.length);
  const now = unread(choice[ORDER_AT]);
  const ofOrders = [0, 1, 2].map((order) => ({ more: order === choice[ORDER_AT] ? 0 : Math.max(0, now - unread(order)),
    decides: order === 0 ? null : fields.find((date) => decidedOrder(date) === order) || null }));
  return { orders: ofOrders, spans: spansIn(choice) ? 0 : Math.max(0, now - unreadBy(withSpans(choice))) };
}

/**
 * The first rows of a sheet that came back, with what was put behind its own columns for each of so many columns of dates.
 */
function firstJoined(module, table, delimiter, above, behind) {
  const { widest } = module.pick(table, delimiter, [], above + 1);
  // The last name is none that the records above the names could have.
  const names = module.pick(table, delimiter, range(widest), above + 1).fields.slice(above * widest);
  while (names.length && names[names.length - 1] === '') names.pop();
  const width = names.length, own = width - behind, shown = Math.min(own, MOST_COLUMNS);
  const columns = [...range(shown), ...range(behind).map((i) => own + i)];
  const { fields } = module.pick(table, delimiter, columns, above + 1 + SHOWN);
  const [heading, ...rows] = rowsOf(fields, columns.length).slice(above);
  return { heading, rows, own, from: shown };
}

// The first records of the sheet, as a text of their own.
function frontRecords({ module, text, delimiter, three }, above) {
  const { widest } = module.pick(text, delimiter, [], above + 1 + SHOWN), most = mostOf({ three }, MOST_CUT);
  const width = Math.max(1, Math.min(widest, most));
  return module.write(module.pick(text, delimiter, range(width), above + 1 + SHOWN).fields, width, delimiter);
}

// The ends of dates, by their numbers: with spans both have a register.
const endsBy = (choice) => (spansIn(choice) ? [0, 1] : [0]);

/** How the registers of the columns of dates begin that would be made, and the sheet that would come back. */
async function preview({ choice, dates, columns, names, ...source }) {
  const read = await sheetOf(source), { module, delimiter } = read, list = namesWith(names);
  const front = frontRecords(read, source.above);
  const registers = range(dates).flatMap((place) => endsBy(choice).map((end) => {
    const { ending, table } = module.sheetRegister(front, choice, place, list, end);
    if (ending !== 0) return { heading: [], rows: [] };
    const [heading, ...rows] = rowsOf(module.pick(table, delimiter, range(3), EVERY).fields, 3);
    module.free(table);
    return { heading, rows };
  }));
  const behind = dates * widthOf(choice, columns.length), guess = expectedLength(front.length, SHOWN, behind);
  const { ending, table } = module.convertSheet(front, choice, columnNumbers(columns), list, guess);
  if (ending !== 0) return { ending, registers, first: null };
  const first = firstJoined(module, table, delimiter, source.above, behind);
  module.free(table, front);
  return { ending, registers, first };
}

/**
 * The dates that were refused first: the number of the record, which column of dates, the calendar where the sheet has
 * one, the date, and the refusal. Where there is no date, nothing is refused.
 */
function refusedDates(module, table, delimiter, { above, dates, places, own }, width) {
  for (let most = LOOKED_AT / 16; ; most *= 4) {
    const front = { ...table, length: Math.min(table.length, most) };
    const columns = range(dates).flatMap((k) => [places[k][0], places[k][1] ?? places[k][0], own + (k + 1) * width - 1]);
    const rows = rowsOf(module.pick(front, delimiter, columns, EVERY).fields, columns.length).slice(above + 1);
    // The last record may be cut.
    if (front.length < table.length) rows.pop();
    const found = rows.flatMap((row, i) => rowsOf(row, 3).flatMap(([date, calendar, refusal], k) =>
      (refusal === '' || isOfEmpty(refusal, date) ? []
        : [{ number: i + 1, place: k, calendar, date, refusal: Number(refusal) }])));
    if (found.length || front.length === table.length || most >= LOOKED_AT) return found.slice(0, REFUSED_SHOWN);
  }
}

// Whether nothing but blanks stands in these bytes.
function isBlank(bytes, from, to) {
  for (let i = from; i < to; i += 1) if (bytes[i] !== 32 && bytes[i] !== 9) return false;
  return true;
}

// Whether the sheet has other names of columns than these.
function hasOtherColumns({ module, text, delimiter }, above, heading) {
  const width = heading.length < MOST_COLUMNS ? heading.length + 1 : MOST_COLUMNS;
  const now = module.pick(text, delimiter, range(width), above + 1).fields.slice(above * width);
  return range(width).some((i) => (now[i] || '') !== (heading[i] || ''));
}

/**
 * The sheet with columns of the tables of its dates behind its own. The file is read anew, and what was chosen has to fit
 * to it still: `heading` is that of the reading that it was chosen from, and `records` so many it had. `places` has the
 * column of each date and that of its calendar, or null. Its text is told when it is read where `isTold`.
 */
async function convertSheet({ choice, places, columns, names, heading, records, isTold, ...source }, tell) {
  const read = await readSheet(/** @type {Source} */ (source)), { module, text, delimiter } = read, { above } = source;
  if (hasOtherColumns(read, above, heading)) throw new Unfit('otherColumns');
  const told = isTold ? await blobOf(module, text) : null;
  if (told) tell({ text: told });
  const dates = places.length, width = widthOf(choice, columns.length), behind = dates * width;
  const guess = expectedLength(text.length, records, behind);
  const { ending, rows, dates: of, blank, table, stopped, reasons } =
    module.convertSheet(text, choice, columnNumbers(columns), namesWith(names), guess);
  await checkUnchanged(read.file, read.bytesAt);
  const ofDates = of.slice(0, dates), refused = ofDates.map((it) => it.refused);
  const whole = { ending, rows, refused, counts: ofDates.map((it) => it.counts), empty: ofDates.map((it) => it.empty), blank,
    spans: ofDates.map((it) => it.spans), first: null, refusedDates: [], table: null, stopped, reasons };
  if (ending !== 0) return whole;
  const first = firstJoined(module, table, delimiter, above, behind);
  const found = foundOf(read, table, { above, dates, places, own: first.own, rows }, refused, width);
  const own = told || await blobOf(module, text), made = await blobOf(module, table, MARK);
  module.free(table);
  return { ...whole, ...found, first, text: own, table: made, sheetBegins: begins(read, above, rows + 1, first.own) };
}

// What is found in a sheet that came back: the dates that were refused, and what is like a formula.
function foundOf({ module, text, delimiter }, table, made, refused, width) {
  const seen = scanned(module.bytes(text));
  const formulas = formulasOf(module, seen, text, table, delimiter, made.own, made.above + made.rows);
  if (!refused.some(Boolean)) return { formulas };
  return { formulas, refusedDates: refusedDates(module, table, delimiter, made, width) };
}

/** The register of one column of dates of the sheet that was converted last, and of one end of these. */
async function sheetRegister({ choice, place, end = 0, names, ...source }) {
  const { module, text } = await sheetOf(source);
  const { ending, table } = module.sheetRegister(text, choice, place, namesWith(names), end);
  if (ending !== 0) return { ending, register: null };
  const made = await blobOf(module, table);
  module.free(table);
  return { ending, register: made };
}

// The text of a conversion of a sheet, in the module's memory, and what was found of each column of dates.
let dated = null;

async function datedOf({ compiled, conversion, text }) {
  if (dated === null || dated.conversion !== conversion) {
    dated = null;
    const module = await instantiate(compiled);
    dated = { conversion, module, text: await partOf(module, text), found: new Map() };
  }
  return dated;
}

// Which of so many records of a sheet have no date, which stands in this column, under the records of its head.
function emptyAmong(module, text, delimiter, column, head, records) {
  const fields = head + records + 1, empty = new Uint8Array(records), guess = { fields, bytes: Math.min(text.length, 12 * fields) };
  return module.pickAll(text, delimiter, [column], guess, (bytes, lengths) => {
    for (let i = 0, at = 0; i < lengths.length && i < head + records; at += lengths[i], i += 1) {
      if (i >= head && isBlank(bytes, at, at + lengths[i])) empty[i - head] = 1;
    }
    return empty;
  });
}

// Whether records without a day may have no date, by the register of an end.
const mayBeEmpty = (module, { register, days }) => days.includes(NO_DAY) && scanned(module.bytes(register)).mayHaveBlank;

// The register of an end of one column of dates, and the days and calendars of its records.
function endOf({ module, text }, { choice, place, names, delimiter }, end) {
  const { ending, table: register } = module.sheetRegister(text, choice, place, namesWith(names), end);
  checkEnding('sheet_register', ending);
  const entries = module.registerDays(register, delimiter, false);
  checkEnding('register_days', entries.ending);
  return { register, ...entries, hasBlank: mayBeEmpty(module, { register, ...entries }) };
}

// Which records have an end that is refused: it has no day, and is not open. Of an open one a register has no date.
function halfRefused(module, delimiter, ends) {
  const found = new Uint8Array(ends[0].days.length);
  for (const { register, days, hasBlank } of ends) {
    const open = hasBlank ? emptyAmong(module, register, delimiter, DATE_AT, 1, days.length) : null;
    for (let i = 0; i < days.length; i += 1) if (days[i] === NO_DAY && !(open && open[i])) found[i] = 1;
  }
  return found;
}

// The days of one column of dates, by which its records stand in order, and what a picture of them shows, by its registers.
function gathered(own, words) {
  const { module, text } = own, { choice, place, delimiter, above } = words;
  const ends = endsBy(choice).map((end) => endOf(own, words, end)), last = ends[ends.length - 1];
  const [{ register, calendars }] = ends;
  const days = ends.length === 1 ? last.days : module.spanDays(ends[0].days, last.days);
  const hasEmpty = ends.every(({ hasBlank }) => hasBlank), column = choice[DATES_AT + 3 * place];
  const empty = hasEmpty ? emptyAmong(module, text, delimiter, column, above + 1, days.length) : null;
  const isHalf = ends.length === 1 ? null : halfRefused(module, delimiter, ends);
  const entries = { firsts: ends[0].days, lasts: last.days, calendars, empty, isHalf };
  const picture = timelineOf(module, ends.map((it) => it.register), delimiter, entries);
  module.free(...new Set([last.register, register]));
  return { days, picture };
}

// What was found of a column of dates stays, for a picture and for an order.
async function daysOf(words) {
  const own = await datedOf(words), { place } = words;
  if (!own.found.has(place)) own.found.set(place, gathered(own, words));
  return own.found.get(place);
}

/** What a picture of one column of dates shows, by the text that was converted. */
const sheetPicture = async (words) => (await daysOf(words)).picture;

/**
 * The sheet that came back, with its records by the days of one column of dates, and how it begins. `behind` columns were put
 * behind its own.
 */
async function sortedSheet({ table, behind, delimiter, above, ...words }) {
  const { days } = await daysOf({ ...words, delimiter, above }), head = above + 1;
  const module = await instantiate(words.compiled), own = await partOf(module, table.slice(MARK_LENGTH));
  const indices = new Uint32Array(head + days.length);
  indices.set(range(head));
  indices.set(module.dayOrder(days).map((record) => head + record), head);
  const sorted = module.sheetRecords(own, delimiter, indices);
  // The same records have the same bytes in all.
  if (sorted.length !== own.length) throw new Error(`sheet_records: ${sorted.length} bytes of ${own.length}`);
  const first = firstJoined(module, sorted, delimiter, above, behind);
  return { table: await blobOf(module, sorted, MARK), first };
}

const TASKS = {
  date, looks, register, archive, picture, choices, beginning, unknownNames, orders, preview, convertSheet, sheetRegister, sheetPicture,
  sortedSheet,
};

function faultOf(fault) {
  if (fault instanceof Unfit || fault instanceof NoWorkbook) return fault.message;
  if (fault instanceof NoReading) return 'noReading';
  if (fault instanceof ChangedFile) return 'changedFile';
  if (fault instanceof TooLarge) return 'archiveTooLarge';
  return fault instanceof NoMemory || fault instanceof RangeError ? 'noMemory' : 'fault';
}

/**
 * Answers each message to `port`, in turn: `task` is its name, `number` comes back with the answer, or with the kind of
 * fault, and with news before it.
 */
export function serve(port) {
  let last = Promise.resolve();
  port.onmessage = ({ data }) => {
    const tell = (news) => port.postMessage({ number: data.number, news });
    last = last.then(() => TASKS[data.task](data.words, tell)).then(
      (answer) => port.postMessage({ number: data.number, answer }),
      (fault) => port.postMessage({ number: data.number, fault: faultOf(fault), why: String(fault) }),
    );
  };
}

if ('WorkerGlobalScope' in globalThis) serve(self);
