// Messages that were vetted, and the calls that vet.
import {
  CapabilityError, HAS_CAPABILITY, OK, Report, changedError, frameError, isAboutFrame, placeOf, refusalOf,
} from "./answers.js";
import { canonicalWords, firstFrame, isCanonicalAnswer, vetAnswer } from "./calls.js";
import { differenceOf } from "./difference.js";
import { LARGEST, LIMIT_NAMES, PREFIX, WORDS, checkNames, flagOf, limitsOf, writeLimits } from "./limits.js";
import { INPUT, address, at, bytes, calls, place, plainBytesOf, setNumber } from "./module.js";
import { getNode, getNodes } from "./nodes.js";
import { segmentsOf } from "./table.js";

// (what only this file can pass to the constructor)
const VETTED = Symbol("vetted");

export class Message {
  // (one object, since each private field of its own takes as long as a short message)
  #it;

  constructor(key, it) {
    if (key !== VETTED) throw new TypeError("only vet() and the like make a message");
    this.#it = it;
  }

  get data() {
    return this.#it.data;
  }

  get report() {
    return this.#it.report;
  }

  get number() {
    return this.#it.index;
  }

  get offset() {
    return this.#it.offset;
  }

  get segments() {
    return this.#it.isWords ? [this.#it.data] : segmentsOf(this.#it.data);
  }

  get(path) {
    return getNode(sourceOf(this.#it), path);
  }

  getRange(path, options = {}) {
    checkNames(options, ["first", "count"]);
    return getNodes(sourceOf(this.#it), path, options);
  }

  canonical() {
    return canonicalOf(this.#it).slice();
  }

  canonicalInto(out) {
    if (!(out instanceof Uint8Array)) throw new TypeError("out has to be a Uint8Array");
    const words = canonicalOf(this.#it);
    if (words.length > out.length) throw new RangeError(`the result has ${words.length} bytes, and out has ${out.length}`);
    out.set(words);
    return words.length;
  }

  isCanonical() {
    return isCanonicalAnswer(this.#it.data, largestOf(this.#it)) === OK;
  }

  firstDifference() {
    return differenceOf(this.#it.data, largestOf(this.#it));
  }
}

const LARGEST_WORDS = Object.freeze({ ...LARGEST, form: WORDS });

/** What each message of its form is within. */
function largestOf({ isWords }) {
  return isWords ? LARGEST_WORDS : LARGEST;
}

/** Where the nodes of a message are read. Words get a table, once. */
function sourceOf(it) {
  const { data, isWords } = it;
  if (isWords) it.framed ??= framed([data]);
  return { frame: isWords ? it.framed : data, data, shift: isWords ? 8 : 0, limits: LARGEST, isVetted: true };
}

/** The canonical words of a message, in the module. */
function canonicalOf(it) {
  const { answer, words } = canonicalWords(it.data, largestOf(it));
  if (answer === OK) return words;
  if (answer !== HAS_CAPABILITY) throw changedError();
  const { segment, word } = placeOf();
  throw new CapabilityError(`HasCapability at ${segment}:${word}`, answer, { report: it.report });
}

/** The message of an input, or its refusal. Throws FrameError if it is no message. */
function verdictOf(input, limits, index, offset) {
  const answer = vetAnswer(input, limits), isWords = limits.form === WORDS;
  if (answer === OK) return new Message(VETTED, { data: input, report: new Report(), index, offset, isWords, framed: null });
  if (isAboutFrame(answer)) throw frameError(answer, index, offset);
  return refusalOf(answer, input, limits, index, offset);
}

/** The message of an input. Throws FrameError or Refusal. */
function vetted(data, limits) {
  const all = plainBytesOf(data), verdict = verdictOf(limits.form === PREFIX ? firstFrame(all, limits) : all, limits, 0, 0);
  if (verdict instanceof Message) return verdict;
  throw verdict;
}

export function vet(data, limits) {
  return vetted(data, limitsOf(limits));
}

export function vetPrefix(data, limits) {
  const message = vetted(data, limitsOf(limits, PREFIX));
  return { message, rest: plainBytesOf(data).subarray(message.data.length) };
}

export function vetWords(words, limits) {
  return vetted(words, limitsOf(limits, WORDS));
}

export function vetSegments(segments, options) {
  const parts = Array.from(segments, plainBytesOf), limits = limitsOf(options);
  // (with these limits the call looks at the sizes, and at no pointer but the root)
  writeLimits({ ...limits, charge: 0, depth: 0 });
  const answer = segmentsAnswer(parts);
  if (isAboutFrame(answer)) throw frameError(answer);
  return vetted(framed(parts), limits);
}

/** What capvet_vet_segments answers. The limits are written. */
function segmentsAnswer(parts) {
  const total = parts.reduce((sum, part) => sum + part.length, 0);
  place(new Uint8Array(16 * parts.length), total);
  let next = INPUT + 16 * parts.length;
  parts.forEach((part, index) => {
    bytes.set(part, next);
    setNumber(INPUT + 16 * index, address(next));
    setNumber(INPUT + 16 * index + 8, part.length);
    next += part.length;
  });
  return calls.capvet_vet_segments(at.input, parts.length, at.limits, at.report);
}

/** The frame of these segments. */
function framed(parts) {
  const table = 8 * (Math.floor(parts.length / 2) + 1), sizes = new DataView(new ArrayBuffer(table));
  const frame = new Uint8Array(parts.reduce((sum, part) => sum + part.length, table));
  sizes.setUint32(0, parts.length - 1, true);
  let next = table;
  parts.forEach((part, index) => {
    sizes.setUint32(4 * index + 4, part.length / 8, true);
    frame.set(part, next);
    next += part.length;
  });
  frame.set(new Uint8Array(sizes.buffer));
  return frame;
}

const STREAM_NAMES = [...LIMIT_NAMES, "packed"];

/** What the messages of a stream have to be, by the options of a call. */
export function kindOf(options = {}) {
  const limits = limitsOf(options, PREFIX, STREAM_NAMES), { packed = false } = options;
  return { limits, isPacked: flagOf("packed", packed) };
}

/** The message of a frame, or its refusal, which is not thrown: it has no stack, since that takes longer than vetting. */
export function streamed(frame, { limits }, index, offset) {
  const before = Error.stackTraceLimit;
  Error.stackTraceLimit = 0;
  try {
    return verdictOf(frame, limits, index, offset);
  } finally {
    Error.stackTraceLimit = before;
  }
}
