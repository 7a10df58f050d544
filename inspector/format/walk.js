// Walks the pointers of a message in preorder, and finds out which object uses which words.

import { Found, POINTERS, STRUCT, STRUCTS, follow } from "./pointer.js";

/** What a word is used for, in the low bits of its mark. */
export const UNUSED = 0, ROOT = 1, PAD = 2, DATA = 3, POINTER = 4, VALUE = 5, TAG = 6, SURPLUS = 7, TABLE = 8, UNSEEN = 9;
export const KIND = 15;
/** Bits of a mark: the pointer word was looked at; it was looked at by another path too; the word is used twice. */
export const LOOKED = 64, TWICE = 128;
const AGAIN = 32;

const SLICE = 1 << 15;
// (a walk is at most one level deeper than the greatest depth limit)
const DEEPEST = 260;

/** Which object uses which words. Objects are numbered from 1 in preorder. Object 1 is the root pointer. */
export class WordMap {
  constructor(message) {
    this.marks = new Uint8Array(message.total).fill(TABLE, 0, message.table);
    /** For each word the first object that uses it, or 0. */
    this.owners = new Uint32Array(message.total);
    /** For each object: the word of the pointer to it, the object with this pointer, its first word, and its words. */
    this.pointerAt = new Uint32Array(64);
    this.parent = new Uint32Array(64);
    this.start = new Uint32Array(64);
    this.words = new Uint32Array(64);
    this.count = 1;
  }

  add(pointerAt, parent, start, words) {
    if (this.count === this.start.length) {
      for (const name of ["pointerAt", "parent", "start", "words"]) {
        const larger = new Uint32Array(2 * this.count);
        larger.set(this[name]);
        this[name] = larger;
      }
    }
    const number = this.count++;
    this.pointerAt[number] = pointerAt;
    this.parent[number] = parent;
    this.start[number] = start;
    this.words[number] = words;
    return number;
  }

  paint(start, words, kind, owner) {
    const { marks, owners } = this;
    for (let at = start; at < start + words; at++) {
      if (owners[at]) {
        marks[at] |= TWICE;
      } else {
        marks[at] = kind;
        owners[at] = owner;
      }
    }
  }

  /** The words that following a pointer uses. */
  object(message, found, at, parent) {
    const start = message.starts[found.segment] + found.start, owner = this.add(at, parent, start, found.words);
    if (found.pads) this.paint(message.starts[found.padSegment] + found.padWord, found.pads, PAD, owner);
    if (found.kind === STRUCT) {
      this.paint(start, found.data, DATA, owner);
      this.paint(start + found.data, found.pointers, POINTER, owner);
    } else if (found.kind === STRUCTS) {
      this.structs(start, found, owner);
    } else {
      this.paint(start, found.words, found.kind === POINTERS ? POINTER : VALUE, owner);
    }
    return owner;
  }

  /** The words that following a pointer by another path uses again. */
  again(message, found) {
    const pad = found.pads && message.starts[found.padSegment] + found.padWord, start = message.starts[found.segment] + found.start;
    for (let at = pad; at < pad + found.pads; at++) this.marks[at] |= TWICE;
    for (let at = start; at < start + found.words; at++) this.marks[at] |= TWICE;
  }

  structs(start, { size, data, pointers, words }, owner) {
    this.paint(start, 1, TAG, owner);
    let at = start + 1;
    if (data && pointers) {
      for (let i = 0; i < size; i++, at += data + pointers) {
        this.paint(at, data, DATA, owner);
        this.paint(at + data, pointers, POINTER, owner);
      }
    } else if (data || pointers) {
      this.paint(at, size * (data + pointers), data ? DATA : POINTER, owner);
      at += size * (data + pointers);
    }
    this.paint(at, start + words - at, SURPLUS, owner);
  }
}

/** The rows of pointers of an object that a walk still has to look at. */
class Rows {
  number = 0;
  segment = 0;
  first = 0;
  data = 0;
  pointers = 0;
  count = 0;
  row = 0;
  index = 0;
  level = 0;
  isStructs = false;

  set(message, found, number, level) {
    this.number = number;
    this.segment = found.segment;
    this.isStructs = found.kind === STRUCTS;
    this.first = message.starts[found.segment] + found.start + (this.isStructs ? 1 : 0);
    this.data = found.kind === POINTERS ? 0 : found.data;
    this.pointers = found.kind === POINTERS ? found.size : found.pointers;
    this.count = this.isStructs ? found.size : 1;
    this.row = 0;
    this.index = -1;
    this.level = level + (this.isStructs ? 1 : 0);
  }

  /** Goes on to the next pointer. Returns its word, or -1 after the last one. */
  next() {
    if (++this.index >= this.pointers) {
      this.index = 0;
      if (++this.row >= this.count) return -1;
    }
    return this.first + this.row * (this.data + this.pointers) + this.data + this.index;
  }

  /** The steps from this object to the pointer where the rows are. */
  steps(isPointers) {
    const at = this.first + this.row * (this.data + this.pointers);
    const step = { label: `${isPointers ? "i" : "p"}${this.index}`, at: at + this.data + this.index };
    return this.isStructs ? [{ label: `i${this.row}`, at, isElement: true }, step] : [step];
  }
}

/**
 * Walks a message in preorder, up to and including pointer number `last`, counted from 1, or the first pointer at the word `until`.
 * The library has to have accepted the pointers before it. What is found goes to `map`, if
 * there is one. With `isOnce` a pointer word to which two paths have led is then passed over.
 *
 * Yields after some pointers, with their number. Returns null if it came to the end, and otherwise the way to the last pointer:
 * its number, word, segment, level, steps, and the charge of all pointers before it.
 */
export function* walk(message, { last = Infinity, until = -1, isOnce = false, map = null }) {
  const stack = Array.from({ length: DEEPEST }, () => new Rows()), lists = [], found = new Found();
  let depth = 0, charge = 0, count = 0;
  stack[0].set(message, { segment: 0, start: 0, kind: POINTERS, size: 1 }, 0, 0);
  if (map && last >= 1) {
    map.paint(message.starts[0], 1, ROOT, map.add(0, 0, message.starts[0], 1));
    stack[0].number = 1;
  }
  while (depth >= 0) {
    const rows = stack[depth], at = rows.next();
    if (at < 0) {
      depth--;
      continue;
    }
    if (++count % SLICE === 0) yield count;
    const mark = map ? map.marks[at] : 0, isAgain = (mark & LOOKED) !== 0, isThird = (mark & AGAIN) !== 0;
    if (map) map.marks[at] |= isAgain ? LOOKED | AGAIN : LOOKED;
    if (count === last || at === until) {
      return { number: count, at, segment: rows.segment, level: rows.level + 1, charge, steps: stepsTo(stack, lists, depth) };
    }
    if (isThird && isOnce || message.halves[2 * at] === 0 && message.halves[2 * at + 1] === 0) continue;
    follow(message, at, rows.segment, found);
    charge += found.charge;
    const number = map && !isAgain && (found.words || found.pads) ? map.object(message, found, at, rows.number) : rows.number;
    if (isAgain && !isThird) map.again(message, found);
    if (hasPointers(found)) {
      lists[++depth] = found.kind === POINTERS;
      stack[depth].set(message, found, number, rows.level + 1);
    }
  }
  return null;
}

function hasPointers(found) {
  if (found.kind === POINTERS) return found.size > 0;
  return found.kind === STRUCT && found.pointers > 0 || found.kind === STRUCTS && found.pointers > 0 && found.size > 0;
}

function stepsTo(stack, lists, depth) {
  const steps = [];
  for (let i = 1; i <= depth; i++) steps.push(...stack[i].steps(lists[i]));
  return steps;
}
