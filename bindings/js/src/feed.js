// Finds the messages in the chunks of a stream.
import { NO_MESSAGE, OK, TRUNCATED, frameError } from "./answers.js";
import { frameAnswer } from "./calls.js";
import { MAX_WORDS, writeLimits } from "./limits.js";
import { kindOf, streamed } from "./message.js";
import {
  PIECE_LIMITS, SECOND, STATE, address, after, at, bytes, calls, number, place, plainBytesOf, setNumber, view,
} from "./module.js";
import { frameLength } from "./table.js";

// The most bytes of the first buffer for a message, and of the words that are unpacked at once.
const PIECE = 65536;
// The most packed bytes of a word.
const PACKED_WORD = 10;

/** The bytes of a message as they come. It grows with what has come, and never beyond `required`. */
class Held {
  bytes = new Uint8Array(0);
  length = 0;
  required = 8;

  get missing() {
    return this.required - this.length;
  }

  append(part) {
    if (this.length + part.length > this.bytes.length) {
      const larger = new Uint8Array(Math.min(this.required, Math.max(2 * this.length, this.length + part.length, PIECE)));
      larger.set(this.bytes.subarray(0, this.length));
      this.bytes = larger;
    }
    this.bytes.set(part, this.length);
    this.length += part.length;
  }
}

/** The bytes of a plain stream that have come and are in no message yet. */
class Plain {
  rest = new Uint8Array(0);
  taken = 0;

  add(chunk) {
    this.rest = chunk;
  }

  /** A copy of the message that begins here, if all of it has come, or null. */
  whole(messageWords) {
    const length = frameLength(this.rest, messageWords);
    if (length > this.rest.length) return null;
    const raw = this.rest.slice(0, length);
    this.rest = this.rest.subarray(length);
    this.taken += length;
    return raw;
  }

  /** Moves up to `held.missing` bytes. */
  fill(held) {
    const part = this.rest.subarray(0, held.missing);
    held.append(part);
    this.rest = this.rest.subarray(part.length);
    this.taken += part.length;
  }

  get isInside() {
    return false;
  }
}

/**
 * The same of a packed stream. It is unpacked a piece at a time: for the module each piece is a message of one segment, which has
 * as many words as are needed next. The module keeps nothing of a stream between two pieces.
 */
class Packed {
  rest = new Uint8Array(0);
  taken = 0;
  zeroWords = 0;
  literalWords = 0;

  add(chunk) {
    // (at most 9 bytes are left over, the start of a group)
    const rest = new Uint8Array(this.rest.length + chunk.length);
    rest.set(this.rest);
    rest.set(chunk, this.rest.length);
    this.rest = rest;
  }

  /** A packed message shows its length only as it is unpacked. */
  whole() {
    return null;
  }

  fill(held) {
    for (let done = true; done && held.missing > 0;) {
      const words = Math.min(held.missing, PIECE) / 8, unpacked = this.unpack(words);
      held.append(unpacked);
      done = unpacked.length === 8 * words;
    }
  }

  /** At most so many words. They are fewer if the rest ends before. */
  unpack(words) {
    const packed = this.rest.subarray(0, PACKED_WORD * words), out = after(packed.length), size = 8 + 8 * words;
    place(packed, size);
    writeLimits({ messageWords: MAX_WORDS, charge: 0, depth: 0, flags: 0, form: 0 }, PIECE_LIMITS);
    setNumber(out, words * 2 ** 32);
    setNumber(STATE, 8);
    view.setUint32(STATE + 8, this.zeroWords, true);
    view.setUint32(STATE + 12, this.literalWords, true);
    const answer = calls.capvet_unpack_message(at.input, packed.length, at.pieceLimits, address(out), size,
      at.state, at.second, at.required, at.report);
    if (answer !== OK && answer !== TRUNCATED && answer !== NO_MESSAGE) throw frameError(answer);
    const consumed = number(SECOND);
    this.rest = this.rest.subarray(consumed);
    this.taken += consumed;
    this.zeroWords = view.getUint32(STATE + 8, true);
    this.literalWords = view.getUint32(STATE + 12, true);
    return bytes.slice(out + 8, out + (answer === OK ? size : number(STATE)));
  }

  get isInside() {
    return this.rest.length > 0 || this.literalWords > 0;
  }
}

/** Finds the messages in the chunks of a stream. */
export class Feed {
  #kind;
  #source;
  #held = new Held();
  #index = 0;
  #offset = 0;

  constructor(options) {
    this.#kind = kindOf(options);
    this.#source = this.#kind.isPacked ? new Packed() : new Plain();
  }

  /** Adds a chunk, after `next` has returned null. */
  add(chunk) {
    this.#source.add(plainBytesOf(chunk));
  }

  /** The next message, or null if more bytes are required. */
  next() {
    const { messageWords } = this.#kind.limits, held = this.#held, whole = held.length > 0 ? null : this.#source.whole(messageWords);
    if (whole !== null) return this.#message(whole);
    for (;;) {
      this.#source.fill(held);
      if (held.missing > 0) return null;
      const required = frameLength(held.bytes, messageWords);
      if (required <= held.length) break;
      held.required = required;
    }
    this.#held = new Held();
    return this.#message(held.bytes);
  }

  #message(raw) {
    const message = streamed(raw, this.#kind, this.#index, this.#offset);
    this.#index++;
    this.#offset = this.#source.taken;
    return message;
  }

  /** Throws FrameError if the stream may not end here. */
  end() {
    if (this.#held.length === 0 && !this.#source.isInside) return;
    writeLimits(this.#kind.limits);
    const answer = frameAnswer(this.#held.bytes.subarray(0, this.#held.length));
    throw frameError(answer === NO_MESSAGE ? TRUNCATED : answer, this.#index, this.#offset);
  }
}
