// What is seen of a text in one walk over its bytes, while it is read: what needs a closer look, and what does not.

const SIGN = 1, BLANK = 2, PARTS = 3, ENDS = 4;

const kindsOf = (/** @type {[string, number][]} */ ...pairs) => {
  const kinds = new Uint8Array(256);
  for (const [letters, kind] of pairs) for (const letter of letters) kinds[letter.charCodeAt(0)] = kind;
  return kinds;
};
const KINDS = kindsOf(['=+-@', SIGN], [' "', BLANK], [',;\t', PARTS], ['\n\r', ENDS]);
// Before a field stand a delimiter, the end of a line, a quote or blanks, or the mark of UTF-8.
const IS_BEFORE = kindsOf([',;\t\n\r" \xbf', 1]);

/**
 * Counts the lines of a text, one behind the last end of a line too, and finds whether a field may begin like a formula, and
 * whether one that is not the first of its line may be empty or blank. Most texts have none of these, and are not read for
 * them.
 */
export class Scan {
  constructor() {
    this.lines = 1;
    this.mayHaveFormula = false;
    this.hasBlank = false;
    // Whether what came of a field is blank, and the byte before.
    this.isBare = false;
    this.before = 10;
  }

  /** Takes the next piece of the text. */
  look(piece) {
    let { lines, mayHaveFormula, hasBlank, isBare, before } = this;
    for (let i = 0; i < piece.length; i += 1) {
      const byte = piece[i], kind = KINDS[byte];
      if (kind <= SIGN) {
        isBare = false;
        if (kind === SIGN && IS_BEFORE[before]) mayHaveFormula = true;
      } else if (kind !== BLANK) {
        if (isBare) hasBlank = true;
        isBare = kind === PARTS;
        if (kind === ENDS) lines += 1;
      }
      before = byte;
    }
    Object.assign(this, { lines, mayHaveFormula, hasBlank, isBare, before });
  }

  /** Whether a field may be empty or blank, at the end of the text. */
  get mayHaveBlank() {
    return this.hasBlank || this.isBare;
  }
}

/** What is seen of these bytes. */
export function scanned(bytes) {
  const scan = new Scan();
  scan.look(bytes);
  return scan;
}
