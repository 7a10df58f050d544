// A message in memory. Its words are numbered through the segment table and all segments: word `at` is at byte 8 * at.

import { decode } from "./pointer.js";

const BYTES_OF_WORD = 8;

/** One message, with or without a segment table. Its frame is already checked. */
export class Message {
  /** @param {Uint8Array} bytes the whole frame, at an address that is a multiple of 4 */
  constructor(bytes, hasTable = true) {
    this.bytes = bytes;
    this.length = bytes.length;
    this.hasTable = hasTable;
    this.total = bytes.length / BYTES_OF_WORD;
    /** Each word as two numbers of 32 bits, the low one first. */
    this.halves = new Uint32Array(bytes.buffer, bytes.byteOffset, 2 * this.total);
    this.sizes = hasTable ? sizesOfTable(this.halves) : [this.total];
    this.table = hasTable ? (this.sizes.length >> 1) + 1 : 0;
    this.starts = [];
    let start = this.table;
    for (const size of this.sizes) {
      this.starts.push(start);
      start += size;
    }
  }

  get words() {
    return this.total - this.table;
  }

  /** What its part with this number is called. */
  partName(segment) {
    return `segment ${segment}`;
  }

  /** How many bytes of a word don't exist. */
  lacking(at) {
    return Math.max(0, 8 * at + 8 - this.length);
  }

  /** The segment of a word, or -1 for a word of the table. */
  segmentOf(at) {
    if (at < this.table) return -1;
    let low = 0, high = this.starts.length;
    while (high - low > 1) {
      const middle = (low + high) >> 1;
      if (this.starts[middle] <= at) low = middle; else high = middle;
    }
    return low;
  }

  /** The place of a word as the program prints it. */
  place(at) {
    const segment = this.segmentOf(at);
    return segment < 0 ? `table:${at}` : `${segment}:${at - this.starts[segment]}`;
  }

  /** The form of a pointer word and its fields. */
  decode(at) {
    return decode(this.halves[2 * at], this.halves[2 * at + 1]);
  }

  /** The landing pad of a pointer that was followed, as words. */
  padsOf(found) {
    return Array.from({ length: found.pads }, (_, i) => this.starts[found.padSegment] + found.padWord + i);
  }

  /** The bytes of a word. */
  word(at) {
    return this.bytes.subarray(8 * at, 8 * at + 8 - this.lacking(at));
  }

  /** The eight bytes of a word as hexadecimal digits, in the order of the stream. */
  hex(at) {
    let text = "";
    for (let i = 8 * at; i < 8 * at + 8 - this.lacking(at); i++) text += this.bytes[i].toString(16).padStart(2, "0");
    return text;
  }
}

/** The bytes from where an input stops being messages. The last word may have fewer than eight. */
export class Rest extends Message {
  /** `table` words are those of a table that was read. */
  constructor(bytes, table) {
    const padded = new Uint8Array(Math.ceil(bytes.length / BYTES_OF_WORD) * BYTES_OF_WORD);
    padded.set(bytes);
    super(padded, false);
    this.isRest = true;
    this.length = bytes.length;
    this.table = table;
    this.sizes = [this.total - table];
    this.starts = [table];
  }

  partName() {
    return this.table ? "what follows" : "bytes";
  }

  place(at) {
    return at < this.table ? `table:${at}` : `word ${at}`;
  }
}

function sizesOfTable(halves) {
  return Array.from({ length: halves[0] + 1 }, (_, segment) => halves[1 + segment]);
}
