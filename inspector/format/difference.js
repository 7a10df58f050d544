// Explains why an accepted message isn't canonical: the first difference from its canonical copy, and the words that differ.

import { Found, STRUCTS, follow } from "./pointer.js";

/** The sentences of the program. */
const SENTENCES = {
  Segments: "the message has more than one segment, and a canonical message has one",
  Far: "the pointer is a far pointer, and a canonical message has none",
  Capability: "the pointer is a capability, so the message has no canonical copy",
  EmptyStruct: "the target is a struct without words, and the pointer of a canonical message to it is fcffffff00000000",
  Place: "the target is not where the canonical copy has it: it is out of preorder, after a gap, or used twice",
  Bits: "bits are set after the last value of the list, and a canonical message has zeros there",
  EmptyList: "the list of structs has no elements, and a canonical message has no sizes in the tag of such a list",
  Surplus: "the list of structs has words after its last element, and a canonical message has none",
  DataZero: "the last data word of the struct, or of all structs of the list, is zero, and a canonical message leaves it out",
  PointerNull: "the last pointer of the struct, or of all structs of the list, is null, and a canonical message leaves it out",
  Trailing: "words come after the last object, and a canonical message ends with it",
};

/** One word at a time of each struct that a pointer leads to, by its place in the struct. */
function ofEach({ kind, size, data, pointers }, start, place) {
  return kind === STRUCTS ? { start: start + 1 + place, count: size, step: data + pointers } : { start: start + place, count: 1, step: 1 };
}

/** The words that differ: `count` words, each `step` words after the one before. */
function wordsOf(message, reason, at, found) {
  const some = (start, count = 1) => ({ start, count, step: 1 }), start = message.starts[found.segment] + found.start;
  const { data, pointers, size, words } = found, structs = 1 + size * (data + pointers);
  switch (reason) {
    case "Segments": return some(0, message.table);
    case "Far": return some(message.starts[found.padSegment] + found.padWord, found.pads);
    case "Place": return words ? some(start, words) : some(at);
    case "Bits": return some(start + words - 1);
    case "EmptyList": return some(start);
    case "Surplus": return some(start + structs, words - structs);
    case "DataZero": return ofEach(found, start, data - 1);
    case "PointerNull": return ofEach(found, start, data + pointers - 1);
    case "Trailing": return some(at, message.total - at);
    default: return some(at);
  }
}

/**
 * What the page says of a first difference, as the library has it: its `reason` and `path`, a `sentence`, the word `at` its place, and
 * the `words` that differ.
 */
export function explainedDifference(message, { reason, position, path }) {
  const at = message.starts[position.segment] + position.word, found = new Found(), text = SENTENCES[reason];
  if (path !== null) follow(message, at, position.segment, found);
  return { reason, path, sentence: `${text[0].toUpperCase()}${text.slice(1)}.`, at, words: wordsOf(message, reason, at, found) };
}

/** Whether a word is among those that differ. */
export function isDiffering({ start, count, step }, at) {
  return at >= start && at < start + count * step && (at - start) % step === 0;
}
