// Files of a user, which may change at any time: each is read from its beginning to its end, whatever it said that it
// has, and once more when the work is done.

/** The file cannot be read: it is a folder, say, or was moved, or the browser saw that it was changed. */
export class NoReading extends Error {}

/** The file has more or fewer bytes than it said when it was chosen, or others when it is read again. */
export class ChangedFile extends Error {}

/** Whether a file that is given again is as it was. */
export const isSameFile = (one, other) =>
  one === other || (one.name === other.name && one.size === other.size && one.lastModified === other.lastModified);

/**
 * Gives the pieces of a file to `take`, in order, each with its place. They have to be as many bytes as the file says.
 * @param {Blob} file
 * @param {(at: number, piece: Uint8Array) => void} take
 */
export async function readPieces(file, take) {
  const reader = file.stream().getReader();
  let at = 0;
  for (;;) {
    const { done, value } = await reader.read().catch((fault) => {
      throw new NoReading(fault.message);
    });
    if (done) break;
    if (at + value.length > file.size) throw new ChangedFile();
    take(at, value);
    at += value.length;
  }
  if (at !== file.size) throw new ChangedFile();
}

/**
 * Reads a file into bytes that `bytesAt(at, length)` gives, in pieces, of which each is also given to `look`.
 * @param {Blob} file
 */
export function readFile(file, bytesAt, look = (_) => {}) {
  return readPieces(file, (at, piece) => {
    bytesAt(at, piece.length).set(piece);
    look(piece);
  });
}

/**
 * Reads a file again, and throws unless it has the bytes that `bytesAt` gives.
 * @param {Blob} file
 */
export function checkUnchanged(file, bytesAt) {
  return readPieces(file, (at, piece) => {
    if (!areSame(piece, bytesAt(at, piece.length))) throw new ChangedFile();
  });
}

// The numbers of four bytes each that stand in these bytes from their beginning, where memory lets them be read so.
const inFours = ({ buffer, byteOffset, length }) =>
  (byteOffset % 4 ? [] : new Int32Array(buffer, byteOffset, Math.floor(length / 4)));

// Whether two pieces of one length have the same bytes.
function areSame(one, other) {
  const [fours, others] = [one, other].map(inFours), whole = Math.min(fours.length, others.length);
  for (let i = 0; i < whole; i += 1) if (fours[i] !== others[i]) return false;
  for (let i = 4 * whole; i < one.length; i += 1) if (one[i] !== other[i]) return false;
  return true;
}
