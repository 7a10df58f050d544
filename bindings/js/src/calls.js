// The calls about bytes: frames, canonical words, and packed words.
import {
  BUFFER_TOO_SMALL, NOT_CANONICAL, OK, TOO_LARGE, TRUNCATED, UnpackError, frameError, isAboutFrame, placeOf, refusalOf,
} from "./answers.js";
import { PREFIX, checkNames, limitsOf, limitsOfCopies, numberOf, tableLimitsOf, writeLimits } from "./limits.js";
import {
  REPORT, REQUIRED, address, after, at, bytes, bytesOf, calls, number, place, plainBytesOf, reserve, view,
} from "./module.js";
import { MAX_SEGMENTS, MAX_TABLE, frameLength } from "./table.js";

// The most bytes of the space for a copy whose length is not known.
const MAX_GUESS = 2 ** 30;

export function version() {
  const packed = calls.capvet_version();
  return `${packed >>> 16}.${(packed >>> 8) & 255}.${packed & 255}`;
}

/** What capvet_frame answers for these bytes. It reads the table only, so only that is copied. The limits are written. */
export function frameAnswer(input) {
  reserve(after(input.length));
  place(input.subarray(0, MAX_TABLE));
  return calls.capvet_frame(at.input, input.length, at.limits, at.report);
}

/** The frame that bytes start with, or if there is none, enough of them for every call to find that. */
export function firstFrame(input, limits) {
  return input.subarray(0, frameLength(input, limits.messageWords));
}

/** The bytes of which a call needs a copy. Writes the limits. */
export function inputOf(input, limits) {
  writeLimits(limits);
  return limits.form === PREFIX ? firstFrame(input, limits) : input;
}

/** What the module answers about a message. Writes the limits. */
export function vetAnswer(input, limits) {
  writeLimits(limits);
  if (limits.isExclusive) return vetExclusiveAnswer(input);
  place(input);
  return calls.capvet_vet(at.input, input.length, at.limits, at.report);
}

function vetExclusiveAnswer(input) {
  const count = Math.floor(input.length / 512) + 1;
  place(input, 8 * count);
  const marks = address(after(input.length));
  return calls.capvet_vet_exclusive(at.input, input.length, at.limits, marks, count, at.required, at.report);
}

// The bytes of what is said of a segment.
const EXTENT_SIZE = 16;

export function frame(data, options) {
  const limits = tableLimitsOf(options), input = firstFrame(bytesOf(data), limits), start = after(input.length);
  writeLimits(limits);
  reserve(start + EXTENT_SIZE * MAX_SEGMENTS);
  place(input.subarray(0, MAX_TABLE));
  const answer = calls.capvet_segments(at.input, input.length, at.limits, address(start), MAX_SEGMENTS, at.required, at.report);
  if (answer !== OK) throw frameError(answer);
  const extent = (from) => ({ offset: number(from), length: number(from + 8) });
  return { length: number(REPORT), segments: Array.from({ length: number(REQUIRED) }, (_, index) => extent(start + EXTENT_SIZE * index)) };
}

export function isCanonicalWords(words, options) {
  const limits = limitsOf(options), input = plainBytesOf(words);
  writeLimits(limits);
  place(input);
  const answer = calls.capvet_check_canonical_words(at.input, input.length, at.limits, at.report);
  if (isAboutFrame(answer)) throw frameError(answer);
  if (answer !== OK && answer !== NOT_CANONICAL) throw refusalOf(answer, input, limitsOfCopies(limits));
  return answer === OK;
}

/** What capvet_check_canonical answers. */
export function isCanonicalAnswer(input, limits) {
  writeLimits(limits);
  place(input);
  return calls.capvet_check_canonical(at.input, input.length, at.limits, at.report);
}

/** What capvet_first_difference answers. */
export function firstDifferenceAnswer(input, limits) {
  writeLimits(limits);
  place(input);
  return calls.capvet_first_difference(at.input, input.length, at.limits, at.report);
}

// The most steps of a path: one for each level.
const MAX_STEPS = 256;

/** The path to the pointer of this number in preorder, or null. */
export function pathOf(data, pointer, limits) {
  const input = inputOf(data, limits), start = after(input.length);
  place(input, 8 * MAX_STEPS);
  const answer = calls.capvet_pointer_path(at.input, input.length, at.limits, pointer, address(start), MAX_STEPS, at.required, at.report);
  if (answer !== OK) return null;
  const field = (index) => view.getUint32(start + 4 * index, true);
  const steps = Array.from({ length: number(REQUIRED) }, (_, index) => `${field(2 * index) ? "i" : "p"}${field(2 * index + 1)}`);
  return `/${steps.join("/")}`;
}

/** The first pointer that uses a word which the one of this number uses too, or null. */
export function earlierPointer(data, pointer, limits) {
  const input = inputOf(data, limits);
  place(input);
  const answer = calls.capvet_earlier_pointer(at.input, input.length, at.limits, pointer, at.report);
  return answer === OK ? { pointer: number(REPORT + 32), ...placeOf() } : null;
}

// The most bytes of an explanation.
const MAX_EXPLANATION = 6144;

/** The lines that explain a refusal by this answer, or null if the message has another verdict. */
export function explanation(data, limits, refused) {
  const input = inputOf(data, limits), text = address(after(input.length));
  place(input, MAX_EXPLANATION);
  const answer = calls.capvet_explain(at.input, input.length, at.limits, text, MAX_EXPLANATION, at.required, at.report);
  return answer === refused ? String.fromCharCode(...written(input.length)) : null;
}

// The most bytes of the lines of an overlap.
const MAX_OVERLAP = 12288;

/** The lines that explain an overlap, or null if the message has no such pointer. */
export function overlapExplanation(data, limits, { segment, word }, pointer) {
  const input = inputOf(data, limits), text = address(after(input.length));
  place(input, MAX_OVERLAP);
  const answer = calls.capvet_explain_overlap(at.input, input.length, at.limits, segment, word, pointer, text, MAX_OVERLAP,
    at.required, at.report);
  return answer === OK ? String.fromCharCode(...written(input.length)) : null;
}

/** The bytes that a call wrote after an input of this length. The next call writes others there. */
function written(length) {
  const start = after(length);
  return bytes.subarray(start, start + number(REQUIRED));
}

/** What capvet_canonical answers, and the canonical words, in the module. */
export function canonicalWords(input, limits) {
  writeLimits(limits);
  const { length } = input;
  // (few copies are longer than their message)
  const guess = Math.min(length, MAX_GUESS);
  place(input, guess);
  let answer = canonicalAnswer(length, guess);
  if (answer === BUFFER_TOO_SMALL) {
    const size = number(REQUIRED);
    reserve(after(length) + size);
    answer = canonicalAnswer(length, size);
  }
  return { answer, words: answer === OK ? written(length) : null };
}

/** What capvet_canonical answers about the input that was placed, with so many bytes for its result. */
function canonicalAnswer(length, size) {
  return calls.capvet_canonical(at.input, length, at.limits, address(after(length)), size, at.required, at.report);
}

/** The most bytes that packing gives. */
function packBound(length) {
  return Math.floor(length / 8) * 10;
}

export function packWords(words) {
  const input = bytesOf(words), size = packBound(input.length);
  place(input, size);
  const answer = calls.capvet_pack_words(at.input, input.length, address(after(input.length)), size, at.required);
  if (answer !== OK) throw new RangeError(`the length has to be a multiple of 8, and is ${input.length}`);
  return written(input.length).slice();
}

export function packMessage(data, options) {
  const input = bytesOf(data), size = packBound(input.length), out = address(after(input.length));
  writeLimits(tableLimitsOf(options));
  place(input, size);
  const answer = calls.capvet_pack_message(at.input, input.length, at.limits, out, size, at.required, at.report);
  if (answer !== OK) throw frameError(answer);
  return written(input.length).slice();
}

// The largest frame within the default limits.
const MAX_SIZE = 67110920;

export function unpackWords(data, options = {}) {
  checkNames(options, ["maxSize"]);
  const most = numberOf("maxSize", options.maxSize ?? MAX_SIZE, Number.MAX_SAFE_INTEGER);
  const input = bytesOf(data), { length } = input;
  // (few packed bytes give more than four times as many)
  const guess = Math.min(4 * length, most, MAX_GUESS);
  place(input, guess);
  let answer = unpackAnswer(length, guess);
  const size = number(REQUIRED);
  if (answer === BUFFER_TOO_SMALL && size <= most) {
    reserve(after(length) + size);
    answer = unpackAnswer(length, size);
  }
  if (answer === TRUNCATED) throw new UnpackError("Truncated: the data end inside a group", TRUNCATED);
  if (answer !== OK) throw new UnpackError("TooLarge: more than maxSize bytes", TOO_LARGE);
  return written(length).slice();
}

/** What capvet_unpack_words answers about the input that was placed, with so many bytes for its result. */
function unpackAnswer(length, size) {
  return calls.capvet_unpack_words(at.input, length, address(after(length)), size, at.required);
}
