// Reading nodes at a path.
import { BAD_PATH, NO_NODE, OK, changedError, frameError, isAboutFrame, pathError, refusalOf } from "./answers.js";
import { LARGEST, LIMIT_NAMES, limitsOf, numberOf, writeLimits } from "./limits.js";
import {
  BLOCK, NODES, NODE_SIZE, REPORT, REQUIRED, address, after, at, bytes, calls, generation, number, place, plainBytesOf, view,
} from "./module.js";

const KINDS = ["null", "struct", "values", "pointers", "structs", "capability"];
// Elements have numbers below this.
const NUMBERS = 2 ** 32;
const NODES_NAMES = [...LIMIT_NAMES, "first", "count"];

// The code of an element of one byte.
const BYTE = 2;

const ENCODER = new TextEncoder(), DECODER = new TextDecoder("utf-8", { fatal: true, ignoreBOM: true });

export class Node {
  // (each field by itself, since that takes a tenth of the time of Object.assign)
  constructor({ kind, element, count, dataWords, pointers, capability, offset, data }) {
    this.kind = kind;
    this.element = element;
    this.count = count;
    this.dataWords = dataWords;
    this.pointers = pointers;
    this.capability = capability;
    this.offset = offset;
    this.data = data;
  }

  text() {
    const { kind, element, data } = this;
    if (kind !== "values" || element !== BYTE || data.length === 0 || data.indexOf(0) !== data.length - 1) return null;
    try {
      return DECODER.decode(data.subarray(0, -1));
    } catch {
      return null;
    }
  }
}

/** The node that a call wrote at a place. */
function nodeAt(from, { data, shift }) {
  const field = (index) => view.getUint32(from + 4 * index, true), offset = number(from + 24) - shift;
  return new Node({
    kind: KINDS[field(0)], element: field(1), count: field(2), dataWords: field(3), pointers: field(4), capability: field(5),
    offset, data: data.subarray(offset, offset + number(from + 32)),
  });
}

/** Writes a path, and returns how many bytes it takes. */
function writePath(path, start) {
  for (let index = 0; index < path.length; index++) {
    const code = path.charCodeAt(index);
    // (no path has such a letter, and an encoder takes longer than the call)
    if (code > 127) return ENCODER.encodeInto(path, bytes.subarray(start)).written;
    bytes[start + index] = code;
  }
  return path.length;
}

/** What capvet_get answers. */
function getAnswer(frame, path, limits) {
  if (typeof path !== "string") throw new TypeError("the path has to be a string");
  const start = after(frame.length);
  writeLimits(limits);
  // (a letter takes at most three bytes)
  place(frame, 3 * path.length);
  return calls.capvet_get(at.input, frame.length, at.limits, address(start), writePath(path, start), at.nodes, at.report);
}

/** The error of an answer about a path. */
function pathAnswerError(answer, path, { frame, limits, isVetted }) {
  if (answer === BAD_PATH) return pathError(path, number(REPORT + 16));
  if (isVetted) return changedError();
  if (isAboutFrame(answer)) return frameError(answer);
  const refusal = refusalOf(answer, frame.subarray(0, number(REPORT)), limits);
  // (only the pointers on the path were counted)
  refusal.pointer = null;
  return refusal;
}

/** The node at a path, or null. A source has a frame, the data of which nodes are parts, and the limits. */
export function getNode(source, path) {
  const answer = getAnswer(source.frame, path, source.limits);
  if (answer === NO_NODE) return null;
  if (answer !== OK) throw pathAnswerError(answer, path, source);
  return nodeAt(NODES, source);
}

function unvettedSource(data, limits) {
  const frame = plainBytesOf(data);
  return { frame, data: frame, shift: 0, limits, isVetted: false };
}

export function peek(data, path, limits) {
  return getNode(unvettedSource(data, limitsOf(limits)), path);
}

export function peekRange(data, path, options = {}) {
  return getNodes(unvettedSource(data, limitsOf(options, 0, NODES_NAMES)), path, options);
}

/** The steps of a path with one star, as pairs of numbers in bytes, and which of them has the star. */
function stepsOf(path) {
  // (without a message, so that only the path is looked at)
  const answer = getAnswer(new Uint8Array(0), typeof path === "string" ? path.replace("*", "0") : path, LARGEST);
  if (answer === BAD_PATH) throw pathError(path, number(REPORT + 16));
  const parts = path.split("/").slice(1), varying = parts.findIndex((part) => part.slice(1) === "*");
  // ("/p1*" has a star, and no step that is one)
  if (varying < 0) throw pathError(path, path.includes("*") ? path.indexOf("*") : path.length);
  const pairs = parts.flatMap((part, index) => [part[0] === "p" ? 0 : 1, index === varying ? 0 : Number(part.slice(1))]);
  const steps = new DataView(new ArrayBuffer(4 * pairs.length));
  pairs.forEach((value, index) => steps.setUint32(4 * index, value, true));
  return { steps: new Uint8Array(steps.buffer), varying };
}

export function getNodes(source, path, { first = 0, count = NUMBERS }) {
  const begin = numberOf("first", first, Number.MAX_SAFE_INTEGER);
  const end = Math.min(begin + numberOf("count", count, Number.MAX_SAFE_INTEGER), NUMBERS);
  return walkNodes(source, path, stepsOf(path), begin, end);
}

/** Reads the block of nodes from a number on, and returns the answer. What is in the module from the last block stays there. */
function reader({ frame, limits }, { steps, varying }) {
  let own = -1;
  return (first, count) => {
    const start = after(frame.length);
    if (own !== generation) {
      place(frame, steps.length);
      bytes.set(steps, start);
      own = generation;
    }
    writeLimits(limits);
    view.setUint32(start + 8 * varying + 4, first, true);
    return calls.capvet_get_range(at.input, frame.length, at.limits, address(start), steps.length / 8,
      varying, at.nodes, count, at.required, at.report);
  };
}

function* walkNodes(source, path, steps, begin, end) {
  const read = reader(source, steps);
  let size = null;
  for (let next = begin; next < end;) {
    const answer = read(next, Math.min(BLOCK, end - next)), found = number(REQUIRED);
    const error = answer === OK || answer === NO_NODE ? null : pathAnswerError(answer, path, source);
    const block = Array.from({ length: found }, (_, index) => nodeAt(NODES + NODE_SIZE * index, source));
    yield* block;
    next += found;
    if (error !== null) throw error;
    if (answer === NO_NODE) {
      // (after the last number, or below a null element)
      size ??= sizeOf(source, path);
      end = Math.min(end, size);
      if (next < end) yield null;
      next++;
    }
  }
}

/** How many numbers the star of a path can have. */
function sizeOf(source, path) {
  const holder = getNode(source, path.slice(0, path.lastIndexOf("/", path.indexOf("*"))) || "/");
  if (holder === null) return 0;
  const { kind, count, pointers } = holder;
  if (path[path.indexOf("*") - 1] === "p") return kind === "struct" ? pointers : 0;
  return kind === "pointers" || kind === "structs" ? count : 0;
}
