// What stands between the page, or Node, and the WebAssembly module: a heap, and the module's calls.

import { FACTS } from './unbuilt.mjs';

const PAGE = 65536;
// What the module's memory can have: pointers of 32 bits, without the last page.
const MOST = 2 ** 32 - PAGE;
// Fields that are turned into bytes, or back, at once; bytes that a record may have where some of many are wanted, and that
// each has.
const AT_ONCE = 256, FEW = 1024, LEAST_RECORD = 2;
/** The day of an entry without one. Others are counted from the first day that a table can have, which is 0. */
export const NO_DAY = 2 ** 32 - 1;
/** The calendar of an entry whose calendar is not known. */
export const NO_CALENDAR = 255;
// Of three numbers the day stands first.
const DAY_FIRST = 1;
// The columns of dates that a sheet can have, and the numbers of each in a report: how many dates were refused, how many by
// each reason, how many are empty, and how many are no single day.
const MOST_DATES = 8, COUNTS = FACTS.refusals.length + 3;
// What the module is asked by, field by field as it stands in memory, with the bytes of each: a number, or a list, which
// is a pointer and a length. Longer fields come first, so that there is no gap between two.
const LIST = 16;
const REQUESTS = {
  register: { text: LIST, delimiter: 1, sealed: 1 },
  pick: { sheet: LIST, places: LIST, most: 8, delimiter: 1 },
  write: { bytes: LIST, lengths: LIST, width: 8, delimiter: 1 },
  join: { sheet: LIST, above: 4, year: 4, month: 4, day: 4, delimiter: 1 },
  stop: { text: LIST, names: LIST, calendar: 1, order: 1 },
  sheet: { sheet: LIST, dates: LIST, columns: LIST, names: LIST, above: 4, id: 4, order: 4, years: 4, hebrew: 4,
    others: 4, spans: 4, delimiter: 1, charters: 1 },
};
// The numbers of a column of dates in a choice.
const OF_DATES = 3;
/** Why dates stay as they are written, in the order of the module's counts, from number 1 on. */
export const REASONS = ['noCalendar', 'character', 'minus', 'otherWeekday', 'noDay', 'noYear', 'noSuchYear', 'noDate',
  'yearLast'];

// How many dates were stopped by names, left empty for a short year, and stay for each reason.
function unreadOf(/** @type {number[]} */ [stopped, short, ...counts]) {
  return { stopped, short, reasons: Object.fromEntries(REASONS.map((reason, i) => [reason, counts[i]])) };
}

// How many dates of a column were refused, by the reason, how many are empty, and how many are no single day.
function dateCountsOf(/** @type {number[]} */ [refused, ...counts]) {
  return { refused, counts: counts.slice(0, -2), empty: counts[COUNTS - 3], spans: counts[COUNTS - 2] };
}

// A number as it is, and a part as the module takes it: a request by its pointer, a list by its pointer and its length.
function wordsOf(/** @type {any} */ word) {
  if (typeof word !== 'object') return [word];
  return [word.pointer, ...(word.isRequest ? [] : [word.items ?? word.length])].map(BigInt);
}

/** Memory ran out: what the module answers by an ending 1, and what the heap of this script throws. */
export class NoMemory extends Error {}

/** Throws where a call of the module was not ended as it should. */
export function checkEnding(name, ending) {
  if (ending === 1) throw new NoMemory();
  if (ending !== 0) throw new Error(`${name}: ${ending}`);
}

/**
 * A heap above the module's stack and data. Each block has 16 bytes before it, with its size. A block that is freed
 * waits for one of its size, and the last block grows and shrinks in place. A memory that cannot grow gives 0.
 */
class Heap {
  constructor(most) {
    this.most = most;
    this.freed = new Map();
  }

  begin(exports) {
    this.memory = exports.memory;
    this.top = Math.ceil(Number(exports.__heap_base.value) / 16) * 16;
  }

  // Whether the memory has so many bytes, which it grows to have, by an eighth at least.
  reaches(end) {
    const has = this.memory.buffer.byteLength;
    if (end <= has) return true;
    if (end > this.most) return false;
    const pages = Math.ceil(Math.max(end - has, Math.min(has / 8, this.most - has)) / PAGE);
    // A memory of 64-bit pointers takes a BigInt; one of 32-bit pointers, and older engines, a number.
    for (const wanted of [BigInt(pages), pages]) {
      try {
        this.memory.grow(wanted);
        return true;
      } catch (fault) {
        if (!(fault instanceof TypeError)) return false;
      }
    }
    return false;
  }

  sizeOf(pointer) {
    return Number(new DataView(this.memory.buffer).getBigUint64(pointer - 16, true));
  }

  setSize(pointer, size) {
    new DataView(this.memory.buffer).setBigUint64(pointer - 16, BigInt(size), true);
  }

  malloc(bytes) {
    let size = 32;
    if (bytes > PAGE) size = Math.ceil(bytes / PAGE) * PAGE;
    else while (size < bytes) size *= 2;
    const freed = this.freed.get(size);
    if (freed && freed.length) return freed.pop();
    const pointer = this.top + 16;
    if (!this.reaches(pointer + size)) return 0;
    this.setSize(pointer, size);
    this.top = pointer + size;
    return pointer;
  }

  free(pointer) {
    const size = this.sizeOf(pointer);
    if (pointer + size === this.top) {
      this.top = pointer - 16;
    } else if (this.freed.has(size)) {
      this.freed.get(size).push(pointer);
    } else {
      this.freed.set(size, [pointer]);
    }
  }

  // A block of so many bytes that begins with the first `kept` of this one, which is freed; or 0, and it stays.
  realloc(pointer, kept, bytes) {
    const size = this.sizeOf(pointer);
    if (bytes <= size) return pointer;
    if (pointer + size === this.top) {
      const wanted = Math.ceil(bytes / 16) * 16;
      if (!this.reaches(pointer + wanted)) return 0;
      this.setSize(pointer, wanted);
      this.top = pointer + wanted;
      return pointer;
    }
    const next = this.malloc(bytes);
    if (next === 0) return 0;
    new Uint8Array(this.memory.buffer).copyWithin(next, pointer, pointer + kept);
    this.free(pointer);
    return next;
  }

  // The last block keeps so many bytes.
  shrink(pointer, bytes) {
    const size = Math.ceil(bytes / 16) * 16;
    if (pointer + this.sizeOf(pointer) !== this.top) return;
    this.setSize(pointer, size);
    this.top = pointer + size;
  }

  // The answer is two words, an option of a pointer, put where the module wants it.
  answer(to, pointer) {
    const view = new DataView(this.memory.buffer);
    view.setBigUint64(Number(to), pointer === 0 ? 0n : 1n, true);
    view.setBigUint64(Number(to) + 8, BigInt(pointer), true);
  }

  imports() {
    return {
      env: {
        rattle_alloc: (to, bytes) => this.answer(to, this.malloc(Number(bytes))),
        rattle_realloc: (to, pointer, kept, bytes) =>
          this.answer(to, this.realloc(Number(pointer), Number(kept), Number(bytes))),
        rattle_dealloc: (pointer) => this.free(Number(pointer)),
      },
    };
  }
}

/**
 * A part of the module's memory, in bytes. Views are of no use after the memory grew, so it is given like this.
 * @typedef {{ pointer: number, length: number, items?: number, isRequest?: boolean }} Part
 */

/** An instance of the module, for one task, and dropped with it: what was cut off leaves nothing behind. */
export class Module {
  constructor(instance, heap) {
    this.exports = instance.exports;
    this.heap = heap;
    heap.begin(instance.exports);
  }

  /** @returns {Part} */
  malloc(length) {
    const pointer = this.heap.malloc(length);
    if (pointer === 0) throw new NoMemory();
    return { pointer, length };
  }

  /** @param {Part[]} parts */
  free(...parts) {
    for (const part of parts) this.heap.free(part.pointer);
  }

  /**
   * The bytes of a part, to be used before the next call.
   * @param {Part} part
   */
  bytes({ pointer, length }) {
    return new Uint8Array(this.exports.memory.buffer, pointer, length);
  }

  put(bytes) {
    const part = this.malloc(bytes.length);
    this.bytes(part).set(bytes);
    return part;
  }

  /** The first so many bytes of a part; what stood behind them is given back where nothing was lent since. */
  shrink({ pointer }, length) {
    this.heap.shrink(pointer, length);
    return { pointer, length };
  }

  // The fields of CSV go in and out as the bytes of all, and the length of each. Some hundred are turned into bytes at
  // once, which is far faster; where one is not of ASCII alone, letters and bytes are not as many, and each is turned
  // by itself.
  putFields(fields) {
    const { pointer } = this.malloc(fields.reduce((sum, field) => sum + 3 * field.length, 0));
    const lengths = this.malloc(4 * fields.length);
    const to = new Uint8Array(this.exports.memory.buffer), encoder = new TextEncoder();
    const counts = new Uint32Array(this.exports.memory.buffer, lengths.pointer, fields.length);
    let at = pointer;
    for (let i = 0; i < fields.length; i += AT_ONCE) {
      const some = fields.slice(i, i + AT_ONCE), all = some.join(''), encoded = encoder.encode(all);
      const isAscii = encoded.length === all.length;
      if (isAscii) to.set(encoded, at);
      some.forEach((field, k) => {
        const bytes = isAscii ? field : encoder.encode(field);
        if (typeof bytes !== 'string') to.set(bytes, at);
        counts[i + k] = bytes.length;
        at += bytes.length;
      });
    }
    return { bytes: { pointer, length: at - pointer }, lengths: { ...lengths, items: fields.length } };
  }

  fieldsOf(bytes, lengths, count) {
    const from = this.bytes(bytes), decoder = new TextDecoder('utf-8', { ignoreBOM: true });
    const counts = new Uint32Array(this.exports.memory.buffer, lengths.pointer, count);
    const fields = [];
    let at = 0;
    for (let i = 0; i < count; i += AT_ONCE) {
      const some = counts.subarray(i, i + AT_ONCE), length = some.reduce((sum, n) => sum + n, 0);
      const all = decoder.decode(from.subarray(at, at + length));
      const isAscii = all.length === length;
      let begin = 0;
      for (const n of some) {
        const end = begin + n;
        fields.push(isAscii ? all.slice(begin, end) : decoder.decode(from.subarray(at + begin, at + end)));
        begin = end;
      }
      at += length;
    }
    return fields;
  }

  // A request of this kind, with these fields, as the module reads it.
  ask(kind, fields) {
    const sizes = Object.entries(REQUESTS[kind]), request = this.malloc(sizes.reduce((sum, [, size]) => sum + size, 0));
    const view = new DataView(this.exports.memory.buffer, request.pointer, request.length);
    let at = 0;
    for (const [name, size] of sizes) {
      const field = fields[name];
      if (size === 1) view.setUint8(at, field);
      else if (size === 4) view.setUint32(at, field, true);
      else wordsOf(field).forEach((word, i) => view.setBigUint64(at + 8 * i, BigInt(word), true));
      at += size;
    }
    return { ...request, isRequest: true };
  }

  // Calls the export `name` and returns the numbers of its report. A BigInt stands for each pointer and length.
  call(name, numbers, words) {
    const report = this.malloc(8 * numbers);
    this.exports[name](...words.flatMap(wordsOf), BigInt(report.pointer));
    const view = new DataView(this.exports.memory.buffer, report.pointer, report.length);
    const reported = Array.from({ length: numbers }, (_, i) => Number(view.getBigUint64(8 * i, true)));
    this.free(report);
    return reported;
  }

  registerText(text, { delimiter, sealed }) {
    return this.ask('register', { text, delimiter, sealed: sealed ? 1 : 0 });
  }

  /**
   * Converts the register `text`. `setup` has the numbers of the columns, the byte of the delimiter, and whether the
   * register is sealed; `guess` is how long the table may be.
   * @param {Part} text
   */
  convert(text, setup, guess) {
    const columns = this.put(Uint8Array.from(setup.columns)), register = this.registerText(text, setup);
    const { ending, others: [rows, refused, ...counts], text: table } = this.makeFrom('register_convert', 9,
      [register, columns], [register, columns], guess);
    return { ending, rows, refused, counts, table };
  }

  /**
   * What `use` makes of the fields in these columns, from 0, of the first `most` records: it is given their bytes, and the
   * length of each. `guess` says how many fields there may be, and bytes of them. How many records there are comes beside
   * it, and how many fields the widest has.
   * @param {Part} text
   * @param {{ fields: number, bytes: number }} guess
   * @param {(bytes: Part, lengths: Part, count: number) => any} use
   */
  pickBytes(text, delimiter, columns, most, guess, use) {
    const places = this.putNumbers(columns), request = this.ask('pick', { sheet: text, places, most, delimiter });
    let bytes = this.malloc(guess.bytes), lengths = this.malloc(4 * guess.fields);
    for (;;) {
      lengths.items = lengths.length / 4;
      const [ending, length, count, records, widest] = this.call('sheet_pick', 5, [request, bytes, lengths]);
      checkEnding('sheet_pick', ending);
      if (length <= bytes.length && count <= lengths.items) {
        const used = use({ ...bytes, length }, lengths, count);
        this.free(lengths, bytes, request, places);
        return { records, widest, used };
      }
      this.free(lengths, bytes);
      bytes = this.malloc(length);
      lengths = this.malloc(4 * count);
    }
  }

  /**
   * What stands in these columns, from 0, of the first `most` records.
   * @param {Part} text
   */
  pick(text, delimiter, columns, most) {
    const { records, widest, used: fields } = this.pickBytes(text, delimiter, columns, most, { fields: 1024, bytes: 4096 },
      (bytes, lengths, count) => this.fieldsOf(bytes, lengths, count));
    return { records, widest, fields };
  }

  /**
   * What `use` makes of the bytes of all fields in these columns, and of the length of each. It is fast where they are
   * many.
   * @param {Part} text
   * @param {{ fields: number, bytes: number }} guess
   * @param {(bytes: Uint8Array, lengths: Uint32Array) => any} use
   */
  pickAll(text, delimiter, columns, guess, use) {
    return this.pickBytes(text, delimiter, columns, 2 ** 53, guess, (bytes, lengths, count) =>
      use(this.bytes(bytes), new Uint32Array(this.exports.memory.buffer, lengths.pointer, count))).used;
  }

  /**
   * Why a date, as it is typed in the calendar of this number, is not read: the number of what stops it, which is 0 for nothing,
   * 1 to 9 for a reason of `REASONS`, and 10 for a name that is not known; and what is to blame, which is that name, or the date
   * beside another weekday. `names` is the text of a list of names.
   */
  dateStop(text, calendar, names) {
    const [typed, list] = [text, names].map((it) => this.put(new TextEncoder().encode(it)));
    const request = this.ask('stop', { text: typed, names: list, calendar, order: DAY_FIRST });
    const { ending, others: [stop], text: blamed } = this.makeFrom('date_stop', 1, [request], [request, list, typed],
      typed.length + 64);
    checkEnding('date_stop', ending);
    const words = new TextDecoder().decode(this.bytes(blamed));
    this.free(blamed);
    return { stop, blamed: words };
  }

  // Numbers of 32 bits, as a part.
  putNumbers(numbers) {
    const part = this.malloc(4 * numbers.length);
    new Uint32Array(this.exports.memory.buffer, part.pointer, numbers.length).set(numbers);
    return { ...part, items: numbers.length };
  }

  // Calls the export `name`, whose report begins with an ending and the length of a text, and then has so many numbers,
  // with `words` before the room for that text; `guess` is how long it may be. What was `lent` to the call is freed.
  makeFrom(name, numbers, words, lent, guess) {
    let buffer = this.malloc(guess);
    for (;;) {
      const [ending, length, ...others] = this.call(name, 2 + numbers, [...words, buffer]);
      if (length <= buffer.length) {
        this.free(...lent);
        return { ending, others, text: { pointer: buffer.pointer, length } };
      }
      this.free(buffer);
      buffer = this.malloc(length);
    }
  }

  // What is asked of a sheet by the numbers of a choice and of columns, and by the text of a list of names; and the
  // parts that it is made of.
  askSheet(sheet, choice, columns, names) {
    const [delimiter, above, id, order, years, hebrew, others, charters, spans, ...triples] = choice;
    const dates = { ...this.putNumbers(triples), items: Math.floor(triples.length / OF_DATES) };
    const asked = this.put(Uint8Array.from(columns)), list = this.put(new TextEncoder().encode(names));
    const request = this.ask('sheet', { sheet, dates, columns: asked, names: list, above, id, order, years, hebrew,
      others, spans, delimiter, charters });
    return [request, list, asked, dates];
  }

  /**
   * Converts a sheet by the numbers of a choice and of the columns asked; `names` is the text of a list of names, and
   * `guess` how long the sheet that comes back may be.
   * @param {Part} text
   */
  convertSheet(text, choice, columns, names, guess) {
    const lent = this.askSheet(text, choice, columns, names), ofDates = MOST_DATES * COUNTS;
    const { ending, others: [rows, ...counts], text: table } = this.makeFrom('sheet_convert', 13 + ofDates, [lent[0]],
      lent, guess);
    const dates = Array.from({ length: MOST_DATES }, (_, k) => dateCountsOf(counts.slice(k * COUNTS, (k + 1) * COUNTS)));
    return { ending, rows, dates, blank: counts[ofDates], table, ...unreadOf(counts.slice(ofDates + 1)) };
  }

  /**
   * The register of the column of dates of this place in the choice, from 0: of first days, or for the `end` 1 of last ones.
   * @param {Part} text
   */
  sheetRegister(text, choice, column, names, end = 0) {
    const lent = this.askSheet(text, choice, [], names);
    const { ending, text: table } = this.makeFrom('sheet_register', 0, [lent[0], BigInt(column), end], lent,
      text.length + PAGE);
    return { ending, table };
  }

  /**
   * The names that are not known, at most so many, as a list to fill in.
   * @param {Part} text
   */
  unknownNames(text, choice, names, most) {
    const lent = this.askSheet(text, choice, [], names);
    const { ending, others: [more, ...counts], text: found } = this.makeFrom('sheet_unknown', 12,
      [lent[0], BigInt(most)], lent, PAGE);
    const { stopped, short, reasons } = unreadOf(counts);
    // Dates stay as they are written for a name that is not known, or for another reason.
    const kept = Object.values(reasons).reduce((sum, count) => sum + count, stopped);
    return { ending, list: found, more, short, kept, stopped, reasons };
  }

  // So many numbers of 32 bits that stand in a part, copied out.
  numbersOf({ pointer }, count) {
    return new Uint32Array(this.exports.memory.buffer, pointer, count).slice();
  }

  /**
   * The days of a register's records and the numbers of their calendars, and how its reading ended; where it broke off, they
   * are those of the records before. `guess` is how many there may be.
   * @param {Part} text
   * @returns {{ ending: number, days: Uint32Array, calendars: Uint8Array }}
   */
  registerDays(text, delimiter, sealed, guess = expectedRecords(text.length)) {
    const register = this.registerText(text, { delimiter, sealed });
    const days = { ...this.malloc(4 * guess), items: guess }, calendars = this.malloc(guess);
    const [ending, length] = this.call('register_days', 2, [register, days, calendars]);
    const found = length > guess ? null : { ending, days: this.numbersOf(days, length),
      calendars: this.bytes({ ...calendars, length }).slice() };
    this.free(calendars, days, register);
    return found || this.registerDays(text, delimiter, sealed, length);
  }

  /**
   * The days by which entries with these first and last days stand in order.
   * @param {Uint32Array} first
   * @param {Uint32Array} last
   */
  spanDays(first, last) {
    return this.numbersFrom('span_days', first, last);
  }

  /**
   * The numbers of entries, from 0, by their days. Those of the same day, and those without one, which stand at the end, are in
   * the order in which they came.
   * @param {Uint32Array} days
   */
  dayOrder(days) {
    return this.numbersFrom('day_order', days);
  }

  // What the export `name` makes of lists of numbers: a list of as many.
  numbersFrom(name, ...lists) {
    const [{ length }] = lists, lent = lists.map((numbers) => this.putNumbers(numbers));
    const room = { ...this.malloc(4 * length), items: length };
    const [ending] = this.call(name, 2, [...lent, room]);
    if (ending !== 0) throw new NoMemory();
    const made = this.numbersOf(room, length);
    this.free(room, ...lent.reverse());
    return made;
  }

  /**
   * The records of a sheet at these indices, from 0, in this order.
   * @param {Part} text
   */
  sheetRecords(text, delimiter, indices) {
    const numbers = this.putNumbers(indices), guess = PAGE + Math.min(text.length, FEW * indices.length);
    const { ending, text: records } = this.makeFrom('sheet_records', 0, [text, delimiter, numbers], [numbers], guess);
    checkEnding('sheet_records', ending);
    return records;
  }

  /**
   * The dates of a family tree in GEDCOM, as a sheet with commas.
   * @param {Part} tree
   */
  treeDates(tree) {
    const { ending, text } = this.makeFrom('tree_dates', 0, [tree], [], PAGE + Math.ceil(tree.length / 4));
    if (ending !== 0) throw new NoMemory();
    return text;
  }

  /**
   * The sheet with one column more behind all others, of the dates whose years, months and days stand in these three columns.
   * @param {Part} text
   * @param {number[]} three
   */
  joinedDates(text, delimiter, above, three) {
    const [year, month, day] = three, request = this.ask('join', { sheet: text, above, year, month, day, delimiter });
    const { ending, text: joined } = this.makeFrom('joined_dates', 0, [request], [request],
      PAGE + text.length + Math.ceil(text.length / 4));
    if (ending !== 0) throw new NoMemory();
    return joined;
  }

  /** A CSV text of the fields, of which each `width` are a record. */
  write(fields, width, delimiter) {
    const { bytes, lengths } = this.putFields(fields);
    const request = this.ask('write', { bytes, lengths, width, delimiter });
    const { ending, text } = this.makeFrom('sheet_write', 0, [request], [request, lengths, bytes], 4096);
    checkEnding('sheet_write', ending);
    return text;
  }
}

/** An instance of the compiled module; `most` is what its memory may have. */
export async function instantiate(compiled, most = MOST) {
  const heap = new Heap(most);
  return new Module(await WebAssembly.instantiate(compiled, heap.imports()), heap);
}

// How many records a register of so many bytes can be expected to have, at most.
const expectedRecords = (size) => Math.min(FACTS.limits.records, Math.ceil(size / LEAST_RECORD));

/** How long the table of a register can be expected to be: what a record has, and a line's further cells. */
export function expectedLength(size, lines, columns) {
  return PAGE + size + Math.min(lines, 1000001) * (28 + 12 * columns);
}
