// An archive of files: a ZIP in which each file is stored as it is.

// Sizes and places have 32 bits in it, and numbers of files 16.
const MOST_BYTES = 2 ** 32 - 1, MOST_FILES = 2 ** 16 - 1;
const LOCAL = 0x04034b50, CENTRAL = 0x02014b50, END = 0x06054b50;
// The version that reads it, the flag of names in UTF-8, and the method of a file that is stored.
const VERSION = 20, IN_UTF_8 = 0x800, STORED = 0;

/** The files are too many or too large for an archive. */
export class TooLarge extends Error {}

const CRC_TABLE = Uint32Array.from({ length: 256 }, (_, byte) => {
  let crc = byte;
  for (let i = 0; i < 8; i += 1) crc = crc & 1 ? 0xedb88320 ^ (crc >>> 1) : crc >>> 1;
  return crc;
});

/** The CRC-32 of bytes that stand behind others, whose CRC-32 is `before`. */
export function crcOf(bytes, before = 0) {
  let crc = ~before;
  for (let i = 0; i < bytes.length; i += 1) crc = CRC_TABLE[(crc ^ bytes[i]) & 255] ^ (crc >>> 8);
  return ~crc >>> 0;
}

async function crcOfFile(blob) {
  const reader = blob.stream().getReader();
  for (let crc = 0; ;) {
    const { done, value } = await reader.read();
    if (done) return crc;
    crc = crcOf(value, crc);
  }
}

/** Names of files that can stand in one folder: each once, whether or not its letters are capital. */
export function uniqueNames(names) {
  const taken = new Set();
  return names.map((name) => {
    const own = name.replace(/[/\\]/g, '_'), at = own.lastIndexOf('.') < 1 ? own.length : own.lastIndexOf('.');
    let unique = own;
    for (let i = 2; taken.has(unique.toLowerCase()); i += 1) unique = `${own.slice(0, at)} (${i})${own.slice(at)}`;
    taken.add(unique.toLowerCase());
    return unique;
  });
}

// The bytes of numbers, each with its count of bytes, the lowest byte first.
const bytesOf = (numbers) => Uint8Array.from(numbers.flatMap(([number, count]) =>
  Array.from({ length: count }, (_, i) => Math.floor(number / 256 ** i) % 256)));

// What stands of a file before its bytes and in the list at the end: version to its name's length, and no further field.
function numbersOf({ name, blob, crc }, date) {
  const time = (date.getHours() << 11) | (date.getMinutes() << 5) | (date.getSeconds() >> 1);
  const day = ((date.getFullYear() - 1980) << 9) | ((date.getMonth() + 1) << 5) | date.getDate();
  return [[VERSION, 2], [IN_UTF_8, 2], [STORED, 2], [time, 2], [day, 2], [crc, 4], [blob.size, 4], [blob.size, 4],
    [name.length, 2], [0, 2]];
}

/**
 * The archive of files, with a comment in ASCII. `date` is that of each.
 * @param {{ name: string, blob: Blob }[]} files
 * @returns {Promise<Blob>}
 */
export async function archiveOf(files, comment, date) {
  if (files.length > MOST_FILES) throw new TooLarge();
  const names = uniqueNames(files.map(({ name }) => name)), parts = [], list = [];
  let at = 0, length = 0;
  for (const [i, { blob }] of files.entries()) {
    const name = new TextEncoder().encode(names[i]);
    const numbers = numbersOf({ name, blob, crc: await crcOfFile(blob) }, date);
    const entry = bytesOf([[CENTRAL, 4], [VERSION, 2], ...numbers, [0, 2], [0, 2], [0, 2], [0, 4], [at, 4]]);
    const front = bytesOf([[LOCAL, 4], ...numbers]);
    parts.push(front, name, blob);
    list.push(entry, name);
    at += front.length + name.length + blob.size;
    length += entry.length + name.length;
    if (at + length > MOST_BYTES) throw new TooLarge();
  }
  const count = files.length, said = new TextEncoder().encode(comment);
  const end = bytesOf([[END, 4], [0, 2], [0, 2], [count, 2], [count, 2], [length, 4], [at, 4], [said.length, 2]]);
  return new Blob([...parts, ...list, end, said], { type: 'application/zip' });
}
