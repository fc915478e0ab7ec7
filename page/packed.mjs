// What is packed in an archive (ZIP), as workbooks are.

const END = 0x06054b50, ENTRY = 0x02014b50, LOCAL = 0x04034b50;
// The end of an archive has so many bytes, and before it at most a comment of this length.
const END_LENGTH = 22, MOST_COMMENT = 2 ** 16, ENTRY_LENGTH = 46, LOCAL_LENGTH = 30;
const STORED = 0, DEFLATED = 8, ENCRYPTED = 1;

/** An archive is cut, locked by a password, or packed in another way; the message says which. */
export class NoArchive extends Error {}

const viewOf = (bytes) => new DataView(bytes.buffer, bytes.byteOffset, bytes.byteLength);

function placeOfEnd(view) {
  const last = view.byteLength - END_LENGTH;
  for (let at = last; at >= Math.max(0, last - MOST_COMMENT); at -= 1) if (view.getUint32(at, true) === END) return at;
  throw new NoArchive('cut');
}

/**
 * The files in an archive, by their names: how each is packed and where.
 * @param {Uint8Array} bytes
 * @returns {Map<string, { method: number, isLocked: boolean, length: number, at: number }>}
 */
export function filesIn(bytes) {
  const view = viewOf(bytes), end = placeOfEnd(view), found = new Map();
  const count = view.getUint16(end + 10, true), decoder = new TextDecoder();
  for (let i = 0, at = view.getUint32(end + 16, true); i < count; i += 1) {
    if (at + ENTRY_LENGTH > view.byteLength || view.getUint32(at, true) !== ENTRY) throw new NoArchive('cut');
    const name = view.getUint16(at + 28, true), more = view.getUint16(at + 30, true) + view.getUint16(at + 32, true);
    found.set(decoder.decode(bytes.subarray(at + ENTRY_LENGTH, at + ENTRY_LENGTH + name)), {
      method: view.getUint16(at + 10, true), isLocked: (view.getUint16(at + 8, true) & ENCRYPTED) !== 0,
      length: view.getUint32(at + 20, true), at: view.getUint32(at + 42, true) });
    at += ENTRY_LENGTH + name + more;
  }
  return found;
}

/**
 * The text in UTF-8 of a file in an archive, or null where there is none of this name.
 * @param {Uint8Array} bytes
 */
export async function textIn(bytes, files, name) {
  const file = files.get(name), view = viewOf(bytes);
  if (!file) return null;
  if (file.isLocked) throw new NoArchive('locked');
  const isThere = file.at + LOCAL_LENGTH <= view.byteLength && view.getUint32(file.at, true) === LOCAL;
  if (!isThere) throw new NoArchive('cut');
  const from = file.at + LOCAL_LENGTH + view.getUint16(file.at + 26, true) + view.getUint16(file.at + 28, true);
  const packed = bytes.subarray(from, from + file.length);
  if (packed.length < file.length) throw new NoArchive('cut');
  if (file.method === STORED) return new TextDecoder().decode(packed);
  if (file.method !== DEFLATED) throw new NoArchive('other');
  // @ts-ignore: the checker of today knows no DecompressionStream.
  const unpacked = new Blob([packed]).stream().pipeThrough(new DecompressionStream('deflate-raw'));
  return new Response(unpacked).text().catch(() => { throw new NoArchive('cut'); });
}
