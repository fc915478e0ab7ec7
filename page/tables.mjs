// Tables in the module's memory, whose columns are found by the names in their heading.

// Rows that are shown, refused ones too, and how far into a table these are looked for.
export const SHOWN = 10;
export const REFUSED_SHOWN = 100;
export const LOOKED_AT = 2 ** 24;
// Every record.
export const EVERY = 2 ** 53;

export const range = (count) => [...Array(count).keys()];

/** Fields, of which each `width` are a row. */
export function rowsOf(fields, width) {
  return range(Math.ceil(fields.length / width)).map((i) => fields.slice(i * width, (i + 1) * width));
}

/**
 * Rows to be shown, under their heading. A row with a number in the column `refusal` was refused, and its fields from
 * the column `from` on are empty up to there; but where its `date` is empty, nothing is refused.
 * @typedef {{ heading: string[], rows: string[][], from: number, refusal: number, date: number }} ShownRows
 */

/** Refusals of a record without a date: its calendar is not known, or the date is not written as it wants. */
export const OF_EMPTY = [4, 5];

/** Whether a refusal is only that there is no date, which is then empty and not refused. */
export const isOfEmpty = (refusal, date) => date.trim() === '' && OF_EMPTY.includes(Number(refusal));

/** The table of a register. */
export class Table {
  constructor(module, text, delimiter) {
    this.module = module;
    this.text = text;
    this.delimiter = delimiter;
    const { widest } = module.pick(text, delimiter, [], 1);
    this.heading = module.pick(text, delimiter, range(widest), 1).fields;
  }

  /** The number of the column of this name; one that the table does not have is a fault of the page. */
  column(name) {
    const number = this.heading.indexOf(name);
    if (number < 0) throw new Error(`the table has no column ${name}`);
    return number;
  }

  /** The columns of these names, of the first `most` rows. */
  rows(names, most) {
    const columns = names.map((name) => this.column(name));
    const more = most === EVERY ? EVERY : most + 1;
    return rowsOf(this.module.pick(this.text, this.delimiter, columns, more).fields, columns.length).slice(1);
  }

  /**
   * The first rows.
   * @returns {ShownRows}
   */
  firstRows() {
    const { heading } = this;
    return { heading, rows: this.rows(heading, SHOWN), from: this.column('rd'), refusal: this.column('refusal'),
      date: this.column('date') };
  }

  /**
   * The first of the refused rows, with what the register has of them and the refusal. Where all stand among the first
   * rows, there are none here: once is enough.
   * @returns {ShownRows}
   */
  refusedRows() {
    const front = { ...this.text, length: Math.min(this.text.length, LOOKED_AT) };
    const table = new Table(this.module, front, this.delimiter);
    const refusals = table.rows(['refusal', 'date'], EVERY);
    // The last record may be cut.
    if (front.length < this.text.length) refusals.pop();
    const isRefused = ([refusal, date]) => refusal !== '' && !isOfEmpty(refusal, date);
    const numbers = refusals.flatMap((it, i) => (isRefused(it) ? [i] : [])).slice(0, REFUSED_SHOWN);
    const heading = [...this.heading.slice(0, this.column('rd')), 'refusal'];
    const last = heading.length - 1, shown = { heading, rows: [], from: last, refusal: last, date: this.column('date') };
    if (numbers.length === 0 || numbers[numbers.length - 1] < SHOWN) return shown;
    const rows = table.rows(heading, numbers[numbers.length - 1] + 1);
    return { ...shown, rows: numbers.map((i) => rows[i]) };
  }
}
