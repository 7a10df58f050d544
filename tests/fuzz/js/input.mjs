// The arguments of an input, as fuzz.h says them, and changes of inputs by words.

export const ARGUMENTS = 16;
// The most bytes of an input, and the most charge of amplified messages, since a walk would take seconds.
const MOST = 20000, AMPLIFIED = 2 ** 16;

// The form of the bytes, by its flag.
const FORMS = { 0: "whole", 1: "prefix", 8: "words" };

/** Numbers that follow from a seed. */
export class Chance {
  constructor(seed) {
    this.state = seed >>> 0;
  }

  /** A whole number below `most`. */
  below(most) {
    this.state = (this.state + 0x6d2b79f5) >>> 0;
    let mixed = Math.imul(this.state ^ (this.state >>> 15), 1 | this.state);
    mixed ^= mixed + Math.imul(mixed ^ (mixed >>> 7), 61 | mixed);
    return ((mixed ^ (mixed >>> 14)) >>> 0) % most;
  }

  /** One of some values. */
  of(...values) {
    return values[this.below(values.length)];
  }
}

/** The arguments and the bytes of an input. Null if it has no arguments, or flags that exclude each other. */
export function inputOf(whole) {
  if (whole.length < ARGUMENTS || (whole[0] & 9) === 9) return null;
  const view = new DataView(whole.buffer, whole.byteOffset), number = (value, otherwise) => (value > 0 ? value - 1 : otherwise);
  const flags = whole[0], limits = {
    messageWords: number(view.getUint32(4, true), 8388608), charge: number(view.getUint32(8, true), 8388608),
    depth: number(view.getUint16(2, true), 64), allowNonstrict: (flags & 2) > 0, allowAmplified: (flags & 4) > 0,
  };
  if (limits.allowAmplified && limits.charge <= 2 ** 28) limits.charge = Math.min(limits.charge, AMPLIFIED);
  // (at any address)
  const slack = whole[1] & 7, data = new Uint8Array(whole.length - ARGUMENTS + slack).subarray(slack);
  data.set(whole.subarray(ARGUMENTS));
  return { limits, data, form: FORMS[flags & 9], chance: new Chance(view.getUint32(12, true)) };
}

/** A pointer of small numbers, as two halves. */
function pointer(chance) {
  const kind = chance.below(4), ahead = chance.below(16) > 0 ? chance.below(12) - chance.of(0, 0, 0, 6) : chance.below(2 ** 29);
  if (kind === 2) return [2 | chance.of(0, 4) | chance.below(6) << 3, chance.below(4)];
  if (kind === 1) return [1 | ahead << 2, chance.below(8) | (chance.below(8) > 0 ? chance.below(24) : chance.below(2 ** 29)) << 3];
  return [kind | (kind === 3 ? 0 : ahead << 2), chance.below(4) | chance.below(4) << 16];
}

/** A change of one word. */
function changeWord(view, chance) {
  const words = Math.floor(view.byteLength / 8);
  if (words === 0) return;
  const at = 8 * chance.below(words), from = 8 * chance.below(words);
  const [low, high] = chance.of(() => [view.getUint32(from, true), view.getUint32(from + 4, true)],
    () => [0, 0], () => pointer(chance),
    () => [view.getUint32(at, true) + chance.of(4, -4), view.getUint32(at + 4, true) + chance.of(0, 1, -1, 8, -8)],
    () => [view.getUint32(at, true), view.getUint32(at + 4, true) ^ 2 ** chance.below(32)])();
  view.setUint32(at, low, true);
  view.setUint32(at + 4, high, true);
}

/** Bytes without some words, or with more. */
function spliced(bytes, chance) {
  const at = 8 * chance.below(Math.floor(bytes.length / 8) + 1), words = 1 + chance.below(4);
  if (chance.below(2) === 0) return Uint8Array.from([...bytes.subarray(0, at), ...bytes.subarray(at + 8 * words)]);
  const more = new Uint32Array(Array.from({ length: words }, () => pointer(chance)).flat());
  return Uint8Array.from([...bytes.subarray(0, at), ...new Uint8Array(more.buffer), ...bytes.subarray(at)]);
}

/** Other arguments of an input. */
function changeArguments(view, chance) {
  chance.of(() => view.setUint8(0, chance.below(16)), () => view.setUint8(1, chance.below(256)),
    () => view.setUint16(2, chance.below(300), true),
    () => view.setUint32(4, chance.below(60), true), () => view.setUint32(8, chance.below(90), true),
    () => view.setUint32(12, chance.below(2 ** 32), true), () => { for (let at = 0; at < 12; at += 4) view.setUint32(at, 0, true); })();
}

/** Makes the first segment of a frame of one segment take all words. */
function fitTable(view) {
  if (view.byteLength >= 8 && view.getUint32(0, true) === 0) view.setUint32(4, Math.floor(view.byteLength / 8) - 1, true);
}

/** An input that is changed in some ways, or begins as one and ends as another. */
export function changed(one, other, chance) {
  const head = one.slice(0, ARGUMENTS), headView = new DataView(head.buffer);
  let bytes = one.slice(ARGUMENTS);
  for (let times = 1 + chance.below(4); times > 0; times--) {
    const kind = chance.below(12);
    if (kind < 5) changeWord(new DataView(bytes.buffer), chance);
    else if (kind < 7) bytes = spliced(bytes, chance);
    else if (kind < 9) changeArguments(headView, chance);
    else if (kind < 10 && bytes.length > 0) bytes[chance.below(bytes.length)] = chance.of(0, 1, 255, chance.below(256));
    else if (kind < 11) bytes = bytes.slice(0, chance.below(bytes.length + 1));
    else bytes = Uint8Array.from([...bytes, ...other.subarray(ARGUMENTS)]);
  }
  if (chance.below(2) === 0) fitTable(new DataView(bytes.buffer));
  return Uint8Array.from([...head, ...bytes]).subarray(0, MOST);
}
