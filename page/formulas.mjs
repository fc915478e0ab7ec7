// What spreadsheets take for a formula when they open a table.

const BEGINS = /^[=+\-@]/, HAS_MORE = /[\p{L}\d]/u;
const NUMBER = /^[+-][\d.,]+$/, DATE = /^-\d+-W?\d+-[KNI]?\d+B?$/, RECORD = /^@[^@\s]+@$/;

/**
 * Whether a field is like a formula: it begins with `=`, `+`, `-` or `@`, has a letter or a digit, and is no number, no date
 * that registers have, and no number of a record of a family tree, as `@I1@`.
 */
export const isFormula = (field) =>
  BEGINS.test(field) && HAS_MORE.test(field) && !NUMBER.test(field) && !DATE.test(field) && !RECORD.test(field);

const IS_SIGN = new Uint8Array(256);
for (const sign of '=+-@') IS_SIGN[sign.charCodeAt(0)] = 1;

// The text of bytes. Short ones of ASCII alone are many, and a decoder takes long for each.
function textOfBytes(bytes, decoder) {
  const isShort = bytes.length < 64 && bytes.every((byte) => byte < 128);
  return isShort ? String.fromCharCode(...bytes) : decoder.decode(bytes);
}

/** How many fields are like formulas, of which `bytes` has all and `lengths` the length of each, and the first of them. */
export function formulasAmong(bytes, lengths) {
  const decoder = new TextDecoder();
  let at = 0, count = 0, example = '';
  for (const length of lengths) {
    if (length && IS_SIGN[bytes[at]]) {
      const field = textOfBytes(bytes.subarray(at, at + length), decoder), isOne = isFormula(field);
      if (isOne && count === 0) example = field;
      count += isOne ? 1 : 0;
    }
    at += length;
  }
  return { count, example };
}
