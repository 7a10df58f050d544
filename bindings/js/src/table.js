// The table of a frame.

const WORD = 8;
/** The most segments of a frame. */
export const MAX_SEGMENTS = 512;
/** The most bytes of a table. */
export const MAX_TABLE = WORD * (MAX_SEGMENTS / 2 + 1);

/** The number of 32 bits at a place. */
function numberAt(input, from) {
  return (input[from] | (input[from + 1] << 8) | (input[from + 2] << 16) | (input[from + 3] << 24)) >>> 0;
}

/**
 * How many bytes a call needs of those that start with a table: the frame, or so much of it that the call finds what is wrong.
 * Until the table has come, they are the bytes that get further.
 *
 * The calls read the table again, in the copy that they get. So a wrong number here is an error there.
 */
export function frameLength(input, messageWords) {
  if (input.length < WORD) return WORD;
  const count = numberAt(input, 0) + 1;
  if (count > MAX_SEGMENTS) return WORD;
  const table = WORD * Math.floor(count / 2) + WORD;
  if (input.length < table) return table;
  let words = 0;
  for (let from = 4; from <= 4 * count; from += 4) words += numberAt(input, from);
  return words > messageWords ? table : table + WORD * words;
}

/** The segments of a frame, in place. */
export function segmentsOf(frame) {
  const count = numberAt(frame, 0) + 1, segments = [];
  for (let index = 0, from = WORD * Math.floor(count / 2) + WORD; index < count; index++) {
    const size = WORD * numberAt(frame, 4 * index + 4);
    segments.push(frame.subarray(from, from + size));
    from += size;
  }
  return segments;
}
