// The nodes of a message's tree, found step by step, and the texts that they may be.

import { Found, NULL, POINTERS, STRUCT, STRUCTS, VALUES, follow, foundText } from "./pointer.js";

/** How many characters of a text are shown, and how many bytes of it are decoded. */
const MOST_TEXT = 400, MOST_BYTES = 1 << 16;

/** What a path leads to. `at` is the word of the pointer, or the first word of an element of a list of structs. */
export class Node {
  constructor(message, at, segment, reason) {
    Object.assign(this, { message, at, segment, reason });
  }

  static root(message) {
    return Node.pointer(message, message.starts[0], 0);
  }

  /** What a pointer word leads to. */
  static pointer(message, at, segment) {
    const found = new Found(), reason = follow(message, at, segment, found);
    const node = new Node(message, at, found.segment, reason);
    node.found = found;
    node.pads = reason ? [] : message.padsOf(found);
    node.kind = reason ? NULL : found.kind;
    node.start = found.kind >= STRUCT ? message.starts[found.segment] + found.start : at;
    node.words = found.words;
    node.text = reason ?? foundText(found);
    return node;
  }

  /** An element of a list of structs. */
  static element(list, index) {
    const { data, pointers } = list.found, at = list.start + 1 + index * (data + pointers);
    const node = new Node(list.message, at, list.segment, null);
    node.found = Object.assign(new Found(), { kind: STRUCT, data, pointers, segment: list.segment });
    node.isElement = true;
    node.pads = [];
    node.kind = STRUCT;
    node.start = at;
    node.words = data + pointers;
    node.text = foundText(node.found);
    return node;
  }

  /** How many rows there are below this node: own words, and nodes. */
  get children() {
    const { kind, found, words } = this;
    if (kind === STRUCT || kind === VALUES) return words;
    if (kind === POINTERS) return found.size;
    return kind === STRUCTS && found.data + found.pointers ? found.size : 0;
  }

  /** How many of these rows are own words. */
  get ownWords() {
    return this.kind === STRUCT ? this.found.data : this.kind === VALUES ? this.words : 0;
  }

  /** The last step to a child. Own words have the labels of `capvet dump`. */
  label(index) {
    if (index < this.ownWords) return `${this.kind === STRUCT ? "d" : "w"}${index}`;
    return this.kind === STRUCT ? `p${index - this.ownWords}` : `i${index}`;
  }

  /** The word of a child. */
  childAt(index) {
    const { data, pointers } = this.found;
    return this.kind === STRUCTS ? this.start + 1 + index * (data + pointers) : this.start + index;
  }

  child(index) {
    if (this.kind === STRUCTS) return Node.element(this, index);
    return Node.pointer(this.message, this.start + index, this.segment);
  }

  /** The number of the child of a step such as "p3", or -1. */
  indexOf(label) {
    const number = Number(label.slice(1));
    if (label[0] === "p" && this.kind === STRUCT) return number < this.found.pointers ? this.ownWords + number : -1;
    return label[0] === "i" && this.kind >= POINTERS && number < this.children ? number : -1;
  }

  /** The text that a list of bytes may be, or null. */
  get guess() {
    if (this.kind !== VALUES || this.found.element !== 2) return null;
    this.guessed ??= { text: guessedText(this.message.bytes.subarray(8 * this.start, 8 * this.start + this.found.size)) };
    return this.guessed.text;
  }
}

/** The text of bytes that may be one: valid UTF-8 that ends in its one zero byte. Of a long one only the beginning is decoded. */
function guessedText(bytes) {
  if (!bytes.length || bytes.indexOf(0) !== bytes.length - 1) return null;
  try {
    const isCut = bytes.length > MOST_BYTES, decoder = new TextDecoder("utf-8", { fatal: true });
    const text = decoder.decode(bytes.subarray(0, isCut ? MOST_BYTES : -1), { stream: isCut });
    return text.length > MOST_TEXT ? `${text.slice(0, MOST_TEXT)}…` : text;
  } catch {
    return null;
  }
}

const isDigit = (character) => character >= "0" && character <= "9";

/** The end of the number at a place of a text, or of what can be the beginning of one up to `most`. */
function endOfNumber(text, at, most) {
  if (text[at] === "0") return at + 1;
  for (let value = 0; isDigit(text[at]); at++) {
    value = 10 * value + Number(text[at]);
    if (value > most) break;
  }
  return at;
}

/** The steps of a path, or the number of the first bad character. */
export function parsePath(text) {
  const labels = [];
  let at = 0;
  while (at < text.length) {
    const start = at + 1;
    if (text[at] !== "/") return { bad: at };
    if (text[start] !== "p" && text[start] !== "i") return text === "/" ? { labels } : { bad: start };
    at = endOfNumber(text, start + 1, text[start] === "p" ? 65535 : 4294967295);
    if (at === start + 1 || isDigit(text[at])) return { bad: at };
    labels.push(text.slice(start, at));
  }
  return labels.length ? { labels } : { bad: 0 };
}
