// The cells of a workbook, .xlsx or .ods, as the texts that they have: a date as `year-month-day`, and a formula by the value
// that was saved beside it. What a date means is not known here.

import { readMarkup } from './markup.mjs';
import { NoArchive, filesIn, textIn } from './packed.mjs';

const XLSX = 'xl/workbook.xml', XLSB = 'xl/workbook.bin', ODS = 'content.xml', MANIFEST = 'META-INF/manifest.xml';
// Formats of dates that every workbook has, by their numbers, and those with a time alone.
const DATES = [14, 15, 16, 17, 22, 27, 28, 29, 30, 31, 36, 50, 51, 52, 53, 54, 55, 56, 57, 58];
const TIMES = [18, 19, 20, 21, 32, 33, 34, 35, 45, 46, 47];
// Days are counted from here, in milliseconds: where 1900 is the first year, one day too many is counted in it.
const DAY = 864e5, FROM_1900 = Date.UTC(1899, 11, 30), FROM_1904 = Date.UTC(1904, 0, 1), NO_DAY_OF_1900 = 60;
// Before this day programs count by other calendars.
const FIRST_DAY = Date.UTC(1582, 9, 15), FIRST_TEXT = '1582-10-15';
// What made a workbook that counts the days of 1900 as they are.
const EXACT = /<Application>[^<]*(LibreOffice|OpenOffice)/;
const LETTERS = 26, A = 64;

/** What a workbook is that cannot be read; the message names it: locked, xlsb, cut, or workbook for what has no cells. */
export class NoWorkbook extends Error {}

/** What kind of workbook an archive with these files is, or null. */
export const kindOfBook = (files) => (files.has(XLSX) ? 'xlsx' : files.has(XLSB) ? 'xlsb' : files.has(ODS) ? 'ods' : null);

// ---- Dates ----

const two = (number) => String(number).padStart(2, '0');

function dayAndTime(time, hasDay, hasTime) {
  const at = new Date(time), year = String(at.getUTCFullYear()).padStart(4, '0');
  const day = `${year}-${two(at.getUTCMonth() + 1)}-${two(at.getUTCDate())}`;
  const clock = [at.getUTCHours(), at.getUTCMinutes(), at.getUTCSeconds()].map(two).join(':');
  if (!hasDay) return clock;
  return hasTime && clock !== '00:00:00' ? `${day} ${clock}` : day;
}

// From where a number of days is counted: Excel takes 1900 for a leap year, and so counts the days before its 1 March from a
// day later; programs that know better do not.
function beginOf(number, { is1904, isExact }) {
  if (is1904) return FROM_1904;
  return isExact || number >= NO_DAY_OF_1900 || number < 0 ? FROM_1900 : FROM_1900 + DAY;
}

/**
 * A number of days as the date that a workbook shows for it; one that it shows in no certain way stays a number, and so does
 * a day or more that has passed.
 */
export function dateOfNumber(text, { hasDay, hasTime, isElapsed, is1904, isExact }) {
  const number = Number(text);
  if (text === '' || !Number.isFinite(number) || (isElapsed && !(number >= 0 && number < 1))) return text;
  if (hasDay && Math.floor(number) === NO_DAY_OF_1900 && !is1904 && !isExact) return '1900-02-29';
  const time = beginOf(number, { is1904, isExact }) + Math.round(number * DAY);
  return hasDay && time < FIRST_DAY ? text : dayAndTime(time, hasDay, hasTime);
}

/**
 * Whether a format shows a day, and a time, or how much time has passed, as [h]:mm; what else stands in quotes or brackets, or
 * behind \, shows nothing.
 */
export function formatOf(code) {
  const said = code.split(';')[0].replace(/"[^"]*"|\\.|_./g, '').toLowerCase(), own = said.replace(/\[[^\]]*\]/g, '');
  if (/general|standard/.test(own)) return { hasDay: false, hasTime: false };
  if (/\[(?:h+|m+|s+)\]/.test(said)) return { hasDay: false, hasTime: true, isElapsed: true };
  const hasTime = /[hs]/.test(own);
  return { hasDay: /[yd]/.test(own) || (/m/.test(own) && !hasTime), hasTime };
}

const NUMBER = { hasDay: false, hasTime: false };
const formatById = (id) => ({ hasDay: DATES.includes(id), hasTime: TIMES.includes(id) || id === 22, isElapsed: id === 46 });

// ---- .xlsx ----

// The formats of cells, by the number of their style.
function stylesOf(text) {
  const codes = new Map(), styles = [];
  let isOfCells = false;
  readMarkup(text || '', {
    begins(name, { numFmtId, formatCode }) {
      if (name === 'numFmt') codes.set(numFmtId, formatOf(formatCode || ''));
      if (name === 'cellXfs') isOfCells = true;
      if (name === 'xf' && isOfCells) styles.push(codes.get(numFmtId) || formatById(Number(numFmtId)));
    },
    ends(name) { if (name === 'cellXfs') isOfCells = false; },
  });
  return styles;
}

// The texts that cells share. How a word is spoken stands beside it, and is none.
function sharedTexts(text) {
  const texts = [];
  let own = '', isText = false, isSpoken = false;
  readMarkup(text || '', {
    begins(name) {
      if (name === 'si') own = '';
      if (name === 'rPh') isSpoken = true;
      isText = name === 't' && !isSpoken;
    },
    ends(name) {
      if (name === 'si') texts.push(own);
      if (name === 'rPh') isSpoken = false;
      if (name === 't') isText = false;
    },
    text(more) { if (isText) own += more; },
  });
  return texts;
}

// The place of a cell, from 0, by its name, as C7.
function placeOf(name) {
  const [, letters, row] = /^([A-Z]+)(\d+)$/.exec(name) || [];
  if (row === undefined) return null;
  return { column: [...letters].reduce((sum, it) => sum * LETTERS + it.charCodeAt(0) - A, 0) - 1, row: Number(row) - 1 };
}

const isoDay = (text) => text.replace(/T00:00(:00(\.0+)?)?Z?$/, '');

function cellText({ t: type, s: style }, value, { shared, styles, counted }) {
  if (type === 's') return shared[Number(value)] ?? '';
  if (type === 'b') return value === '1' ? 'TRUE' : 'FALSE';
  if (type === 'd') return isoDay(value);
  if (type !== undefined && type !== 'n') return value;
  const format = styles[Number(style ?? 0)] || NUMBER;
  return format.hasDay || format.hasTime ? dateOfNumber(value, { ...counted, ...format }) : value;
}

// The rows of a sheet, each a list of texts.
function rowsOfXlsx(text, book) {
  const rows = [];
  let cell = null, value = '', isValue = false, row = -1, column = -1, isSpoken = false;
  readMarkup(text, {
    begins(name, attributes) {
      if (name === 'row') [row, column] = [attributes.r === undefined ? row + 1 : Number(attributes.r) - 1, -1];
      if (name === 'rPh') isSpoken = true;
      isValue = name === 'v' || (name === 't' && cell !== null && !isSpoken);
      if (name !== 'c') return;
      ({ row, column } = placeOf(attributes.r || '') || { row, column: column + 1 });
      [cell, value] = [attributes, ''];
    },
    ends(name) {
      isValue = false;
      if (name === 'rPh') isSpoken = false;
      if (name !== 'c' || cell === null) return;
      const own = value === '' ? '' : cellText(cell, value, book);
      if (own !== '') (rows[row] ??= [])[column] = own;
      cell = null;
    },
    text(more) { if (isValue) value += more; },
  });
  return rows;
}

// The sheets of a workbook, each with its file, and whether its days are counted from 1904.
function sheetsOfXlsx(text, links) {
  const sheets = [], targets = new Map();
  let is1904 = false;
  readMarkup(links || '', { begins(_, { Id, Target }) { if (Id) targets.set(Id, Target); } });
  readMarkup(text, {
    begins(name, attributes) {
      if (name === 'workbookPr') is1904 = /^(1|true)$/.test(attributes.date1904 || '');
      const target = name === 'sheet' && targets.get(attributes.id);
      if (target) sheets.push({ name: attributes.name, file: target.startsWith('/') ? target.slice(1) : `xl/${target}` });
    },
  });
  return { sheets: sheets.filter(({ file }) => /worksheets\//.test(file)), is1904 };
}

async function readXlsx(bytes, files, page) {
  const of = (name) => textIn(bytes, files, name);
  const { sheets, is1904 } = sheetsOfXlsx(await of(XLSX), await of('xl/_rels/workbook.xml.rels'));
  const text = sheets[page] ? await of(sheets[page].file) : null;
  if (text === null) throw new NoWorkbook('workbook');
  const shared = sharedTexts(await of('xl/sharedStrings.xml')), styles = stylesOf(await of('xl/styles.xml'));
  const counted = { is1904, isExact: EXACT.test((await of('docProps/app.xml')) || '') };
  return { pages: sheets.map(({ name }) => name), rows: rowsOfXlsx(text, { shared, styles, counted }) };
}

// ---- .ods ----

// What stands in a cell in place of its text. A date before 1582 stays as it is shown, since what is saved beside it can be of
// another calendar.
function valueOf(attributes, text) {
  const { 'value-type': type, 'date-value': date = '', value, 'boolean-value': isTrue } = attributes;
  if (type === 'date') return date.startsWith('-') || date < FIRST_TEXT ? text : isoDay(date).replace('T', ' ');
  if (type === 'float' || type === 'percentage' || type === 'currency') return value ?? text;
  return type === 'boolean' ? String(isTrue).toUpperCase() : text;
}

const times = (text) => Number(text || 1);

// All sheets of a document: each its name, and its rows where it is the one of this number. Empty rows and cells that are
// repeated to the end of the sheet are none.
class OdsSheets {
  constructor(page) {
    /** @type {any} */
    this.cell = null;
    /** @type {string[] | null} */
    this.row = null;
    this.page = page;
    this.names = [];
    this.rows = [];
    this.text = '';
    this.inNote = this.place = this.paragraphs = this.at = 0;
    this.repeated = 1;
    this.isSpreadsheet = this.isIn = false;
  }

  begins(name, attributes) {
    if (name === 'spreadsheet') this.isSpreadsheet = true;
    if (name === 'annotation') this.inNote += 1;
    if (this.inNote || !this.isSpreadsheet) return;
    if (name === 'table') this.names.push(attributes.name);
    else if (name === 'table-row') [this.row, this.place, this.repeated] = [[], 0, times(attributes['number-rows-repeated'])];
    else if (name === 'table-cell' || name === 'covered-table-cell') this.beginCell(attributes);
    else if (this.cell !== null) this.inCell(name, attributes);
  }

  beginCell(attributes) {
    this.cell = attributes;
    this.text = '';
    this.paragraphs = 0;
  }

  inCell(name, { c }) {
    if (name === 'p' || name === 'h') {
      if (this.paragraphs > 0) this.text += '\n';
      this.paragraphs += 1;
      this.isIn = true;
    }
    if (name === 's') this.text += ' '.repeat(times(c));
    if (name === 'tab') this.text += '\t';
    if (name === 'line-break') this.text += '\n';
  }

  ends(name) {
    if (name === 'annotation') this.inNote -= 1;
    if (this.inNote) return;
    if (name === 'p' || name === 'h') this.isIn = false;
    if (name === 'table-row' && this.row !== null) this.endRow();
    if ((name === 'table-cell' || name === 'covered-table-cell') && this.cell !== null) this.endCell();
  }

  endCell() {
    const count = times(this.cell['number-columns-repeated']), value = valueOf(this.cell, this.text);
    if (value !== '') for (let i = 0; i < count; i += 1) this.row[this.place + i] = value;
    this.place += count;
    this.cell = null;
  }

  endRow() {
    if (this.names.length - 1 === this.page) {
      if (this.row.length) for (let i = 0; i < this.repeated; i += 1) this.rows[this.at + i] = this.row;
      this.at += this.repeated;
    }
    this.row = null;
  }

  // Of paragraphs alone: what stands between them is space of the file.
  takeText(more) {
    if (this.cell !== null && !this.inNote && this.isIn) this.text += more;
  }
}

async function readOds(bytes, files, page) {
  if (/encryption-data/.test((await textIn(bytes, files, MANIFEST)) || '')) throw new NoWorkbook('locked');
  const sheets = new OdsSheets(page), text = await textIn(bytes, files, ODS);
  readMarkup(text, { begins: (name, attributes) => sheets.begins(name, attributes), ends: (name) => sheets.ends(name),
    text: (more) => sheets.takeText(more) });
  if (sheets.names.length === 0) throw new NoWorkbook('workbook');
  return { pages: sheets.names, rows: sheets.rows };
}

/**
 * The cells of the sheet of this number in a workbook, from 0: as texts, of which each `width` are a row; and what all sheets
 * are called.
 * @param {Uint8Array} bytes
 */
export async function cellsOf(bytes, page) {
  try {
    const files = filesIn(bytes), kind = kindOfBook(files);
    if (kind === null || kind === 'xlsb') throw new NoWorkbook(kind || 'workbook');
    const { pages, rows } = kind === 'xlsx' ? await readXlsx(bytes, files, page) : await readOds(bytes, files, page);
    const width = rows.reduce((most, row) => Math.max(most, row.length), 0);
    const fields = Array.from(rows).flatMap((row) => Array.from({ length: width }, (_, i) => (row && row[i]) ?? ''));
    return { pages, width, fields };
  } catch (fault) {
    if (fault instanceof NoArchive) throw new NoWorkbook(fault.message === 'locked' ? 'locked' : 'cutWorkbook');
    throw fault;
  }
}
