// The answers of the calls, and the error that each one throws.
import { earlierPointer, explanation, overlapExplanation, pathOf } from "./calls.js";
import { numberOf } from "./limits.js";
import { REPORT, at, calls, number, setNumber, view } from "./module.js";

export const OK = 0, NO_MESSAGE = 1, TOO_LARGE = 3, TRUNCATED = 4, TRAILING = 5, BUFFER_TOO_SMALL = 9, BAD_PATH = 10,
  NOT_CANONICAL = 16, HAS_CAPABILITY = 17, OVERLAP = 18, NO_NODE = 21, MANY_SEGMENTS = 23, NO_ROOT = 32;

// The names of the header, by number.
const NAMES = new Map([
  [1, "NoMessage"], [2, "TooManySegments"], [3, "TooLarge"], [4, "Truncated"], [5, "Trailing"], [8, "BadLimits"],
  [9, "BufferTooSmall"], [10, "BadPath"], [12, "BadSegment"], [16, "NotCanonical"], [17, "HasCapability"],
  [18, "Overlap"], [19, "NullPad"], [20, "EmptySegment"], [21, "NoNode"], [22, "CapabilityPad"], [23, "ManySegments"],
  [32, "NoRoot"], [33, "Reserved"],
  [34, "SegmentMissing"], [35, "PadOutside"], [36, "PadIsFar"], [37, "PadNotFar"], [38, "TagKind"], [39, "TagOffset"],
  [40, "OutOfSegment"], [41, "CompositeTag"], [42, "CompositeOverrun"], [43, "DepthLimit"], [44, "WordLimit"],
]);

export function nameOf(answer) {
  return NAMES.get(answer) ?? "Unknown";
}

export class CapvetError extends Error {
  constructor(text, answer, fields) {
    super(text);
    this.answer = answer;
    this.reason = nameOf(answer);
    Object.assign(this, fields);
  }

  toObject() {
    return { name: this.name, message: this.message, ...this };
  }
}

export class FrameError extends CapvetError {}
export class CapabilityError extends CapvetError {}
export class UnpackError extends CapvetError {}
export class PathError extends CapvetError {}

export class Refusal extends CapvetError {
  #limits;

  constructor(text, answer, fields, limits) {
    super(text, answer, fields);
    this.#limits = limits;
  }

  get path() {
    return this.pointer === null ? null : pathOf(this.unvetted, this.pointer, this.#limits);
  }

  get earlierPath() {
    const earlier = this.pointer === null ? null : earlierPointer(this.unvetted, this.pointer, this.#limits);
    return earlier && pathOf(this.unvetted, earlier.pointer, this.#limits);
  }

  explain() {
    if (this.position !== null && this.pointer === null) {
      throw new RangeError("a refusal of peek is about one path: vet finds the first pointer, and explains it");
    }
    const lines = this.answer === OVERLAP
      ? overlapExplanation(this.unvetted, this.#limits, this.position, this.pointer)
      : explanation(this.unvetted, this.#limits, this.answer);
    if (lines === null) throw new Error("the bytes have changed after they were refused");
    return lines;
  }

  toObject() {
    return { ...super.toObject(), limits: { ...this.#limits } };
  }
}

const KINDS_OF_ERRORS = { CapvetError, FrameError, Refusal, CapabilityError, UnpackError, PathError };

/** The error of an object that `toObject` made. */
export function errorOf(object) {
  const { name, message, answer, reason, limits, ...fields } = object ?? {};
  if (!Object.hasOwn(KINDS_OF_ERRORS, name)) throw new TypeError("the object has to be what toObject() of an error returned");
  if (fields.report) fields.report = Object.assign(Object.create(Report.prototype), fields.report);
  return new KINDS_OF_ERRORS[name](message, answer, fields, limits);
}

for (const [name, kind] of Object.entries(KINDS_OF_ERRORS)) {
  Object.defineProperty(kind.prototype, "name", { value: name, configurable: true, writable: true });
}

const MAX_READINGS = 2 ** 32 - 1;

/** What is known of an accepted message. */
export class Report {
  constructor() {
    const capabilities = number(REPORT + 40);
    this.length = number(REPORT);
    this.words = number(REPORT + 64);
    this.segments = view.getUint32(REPORT + 52, true);
    this.charge = number(REPORT + 24);
    this.depth = view.getUint32(REPORT + 48, true);
    this.pointers = number(REPORT + 32);
    this.capabilities = capabilities;
    this.firstCapability = capabilities > 0 ? placeOf() : null;
  }

  readerWords(readings = 1) {
    setNumber(REPORT + 24, this.charge);
    setNumber(REPORT + 64, this.words);
    // (the module returns at most 32 bits, which suffice for one reading)
    return calls.capvet_reader_words(at.report, 1) * numberOf("readings", readings, MAX_READINGS);
  }

  readerNesting() {
    view.setUint32(REPORT + 48, this.depth, true);
    return calls.capvet_reader_nesting(at.report) >>> 0;
  }
}

export function placeOf() {
  return { segment: view.getUint32(REPORT + 56, true), word: view.getUint32(REPORT + 60, true) };
}

// The field of a FrameError that has the number of an answer, where the report has it, and the text.
const FRAMES = new Map([
  [1, ["required", 8, () => "no message: the data are empty"]],
  [2, ["segments", 16, (count) => `TooManySegments: ${count} segments`]],
  [3, ["words", 16, (count) => `TooLarge: ${count} words`]],
  [4, ["required", 8, (count) => `Truncated: at least ${count} bytes are required`]],
  [5, ["trailing", 16, (count) => `Trailing: ${count} bytes follow the message`]],
  [12, ["segment", 16, (which) => `BadSegment: the length of segment ${which} is no multiple of 8`]],
]);

/** Whether an answer is about the frame, and not about a pointer. */
export function isAboutFrame(answer) {
  return FRAMES.has(answer);
}

/** The error of an answer about the frame, of the message with this number and offset. */
export function frameError(answer, index = 0, offset = 0) {
  const [field, place, text] = FRAMES.get(answer), found = number(REPORT + place);
  const none = { required: null, segments: null, words: null, trailing: null, segment: null };
  const length = answer === TRAILING ? number(REPORT) : null;
  return new FrameError(text(found), answer, { ...none, [field]: found, length, number: index, offset });
}

/** The error of an answer about a pointer. Its numbers are those of the report. */
export function refusalOf(answer, unvetted, limits, index = 0, offset = 0) {
  const place = placeOf(), pointers = number(REPORT + 32), hasPointer = answer !== NO_ROOT && answer !== MANY_SEGMENTS;
  const text = `refused ${nameOf(answer)} at ${place.segment}:${place.word} pointers ${pointers}`;
  const fields = { position: hasPointer ? place : null, pointer: hasPointer ? pointers : null };
  return new Refusal(text, answer, { ...fields, length: unvetted.length, number: index, offset, unvetted }, limits);
}

/** The error of bytes that have another verdict than before. */
export function changedError() {
  return new Error("the bytes have changed after they were vetted");
}

export function pathError(path, position) {
  return new PathError(`bad path at ${position}: ${JSON.stringify(path)}`, BAD_PATH, { path, position });
}
