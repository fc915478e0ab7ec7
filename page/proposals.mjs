// What a file looks like by its bytes: its kind, its encoding, its delimiter, and the records above its names.

// How files begin that are no texts, and texts in UTF-16.
const KINDS = [['PK\x03\x04', 'workbook'], ['\xd0\xcf\x11\xe0', 'oldWorkbook'], ['SQLite format 3\0', 'database'],
  ['%PDF', 'pdf'], ['{\\rtf', 'rtf']];
// How texts begin that are no tables, behind blanks and a mark.
const MARKUP = [{ begins: /^<!doctype html|^<html/i, kind: 'html' }, { begins: /^<\?xml/i, kind: 'xml' }];
// So many bytes tell whether a text is in UTF-16 without a mark: one of two is 0 there in each third letter at least.
const TOLD_BY = 512, THIRD = 3;
const MARKS = [['\xff\xfe', 'utf-16le'], ['\xfe\xff', 'utf-16be']];

// What stands beside the text that the bytes begin with, or null.
function found(beginnings, bytes) {
  const [, what] = beginnings.find(([text]) => String.fromCharCode(...bytes.subarray(0, text.length)) === text) || [];
  return what || null;
}

// How many bytes are 0 among the first, at even places and at odd ones.
function zerosOf(bytes) {
  const zeros = [0, 0];
  bytes.subarray(0, TOLD_BY).forEach((byte, i) => { if (byte === 0) zeros[i % 2] += 1; });
  return zeros;
}

// The encoding of a text in UTF-16 that has no mark, or null.
function unmarkedEncoding(bytes) {
  const [even, odd] = zerosOf(bytes), most = Math.min(bytes.length, TOLD_BY) / 2;
  if (most < THIRD || Math.min(even, odd) > 0 || Math.max(even, odd) < most / THIRD) return null;
  return odd > 0 ? 'utf-16le' : 'utf-16be';
}

// The kind of a text that is no table, by its first letters.
function markupOf(bytes) {
  const text = String.fromCharCode(...bytes.subarray(0, TOLD_BY)).replace(/^\xef\xbb\xbf/, '').trimStart();
  const { kind = null } = MARKUP.find(({ begins }) => begins.test(text)) || {};
  return kind;
}

/** The kind of file that begins with these bytes, or null for a text: that has no byte 0, or is in UTF-16. */
export function kindOf(bytes) {
  const kind = found(KINDS, bytes) || markupOf(bytes);
  if (kind !== null || markedEncoding(bytes) !== null) return kind;
  return bytes.subarray(0, LETTERS).includes(0) ? 'binary' : null;
}

/** Whether a text begins as a family tree in GEDCOM does. */
export const isTree = (text) => /^\ufeff?\s*0 +HEAD\s/.test(text);

/** Whether a file is called as choices are that were saved. */
export const isJson = (name) => /\.json$/i.test(name);

/** Whether a text begins as such choices do. */
export const isObject = (text) => /^\ufeff?\s*\{/.test(text);

/** Whether a family tree says that it is written in ANSEL, which no browser reads. */
export const isAnsel = (text) => /^\s*1 +CHAR +ANSEL\b/m.test(text);

/** Whether a family tree says that it is written in IBMPC, whose letters have no certain meaning. */
export const isIbmPc = (text) => /^\s*1 +CHAR +(IBMPC|IBM DOS|MSDOS|IBM)\b/m.test(text);

/** The encoding that these bytes begin with the mark of, but for UTF-8, or of UTF-16 without one; or null. */
export const markedEncoding = (bytes) => found(MARKS, bytes) || unmarkedEncoding(bytes);

/** The encodings that a sheet may have, of which the first one that its bytes are written in is proposed. */
export const likelyEncodings = (bytes) =>
  [markedEncoding(bytes), 'utf-8', 'windows-1252'].filter((encoding) => encoding !== null);

// The delimiters, of which the first is proposed where others stand in as many lines as often.
const DELIMITERS = ['\t', ';', ','];
// What is looked at, in letters and lines.
const LETTERS = 2 ** 16, LINES = 50;

// In how many lines the delimiter stands as often as in most of those that have it, and how often.
function regularity(lines, delimiter) {
  const counts = lines.map((line) => line.split(delimiter).length - 1).filter((count) => count > 0);
  const withCount = counts.map((count) => counts.filter((other) => other === count).length);
  const most = Math.max(0, ...withCount);
  return [most, most === 0 ? 0 : counts[withCount.indexOf(most)]];
}

// The first lines of a text, with what `put` makes of what is in quotes.
const firstLines = (text, put) =>
  text.slice(0, LETTERS).replace(/"[^"]*("|$)/g, put).split(/[\r\n]+/).slice(0, LINES);

const nothing = () => '';
// What is in quotes, as far as it tells a name from a date.
const ofQuotes = (field) => (/\d/.test(field) ? '0' : /[^"\s]/.test(field) ? 'x' : '');

/** Whether this byte stands in the first lines, outside quotes. */
export const isDelimiterOf = (text, delimiter) =>
  firstLines(text, nothing).some((line) => line.includes(String.fromCharCode(delimiter)));

/** The byte of the delimiter that stands most regularly in the first lines, outside quotes; a comma where none does. */
export function likelyDelimiter(text) {
  const lines = firstLines(text, nothing);
  const found = DELIMITERS.map((delimiter) => ({ delimiter, of: regularity(lines, delimiter) }));
  const [first] = found.sort(({ of: one }, { of: other }) => other[0] - one[0] || other[1] - one[1]);
  return (first.of[0] === 0 ? ',' : first.delimiter).charCodeAt(0);
}

// The fields of a line up to the last one that is not empty, and how many of them are full.
function widthOf(line, delimiter) {
  const fields = line.split(delimiter);
  while (fields.length && fields[fields.length - 1].trim() === '') fields.pop();
  return { width: fields.length, full: fields.filter((field) => field.trim() !== '').length, hasDigit: /\d/.test(line) };
}

// Whether this line has the names of the columns of the next one, of which the last are without: it has no digit.
const isHeading = (one, next) => one !== undefined && one.full > 1 && one.full === next.width - 1 && one.full === one.width &&
  !one.hasDigit && next.hasDigit;

/**
 * How many records are likely to stand above the names: those before the first that is as wide as most are, or before the
 * names of a line above it that has none for the last column.
 */
export function likelyAbove(text, delimiter) {
  const lines = firstLines(text.replace(/^\ufeff/, ''), ofQuotes).filter((line) => line !== '');
  const found = lines.map((line) => widthOf(line, String.fromCharCode(delimiter))), widths = found.map(({ width }) => width);
  const often = (width) => widths.filter((it) => it === width).length;
  const [most] = widths.filter((width) => width > 0).sort((one, other) => often(other) - often(one) || other - one);
  const first = Math.max(0, widths.findIndex((width) => width >= most));
  return isHeading(found[first - 1], found[first] || {}) ? first - 1 : first;
}
