// Decodes pointer words: the form of one word, and what it leads to in a message.

export const NULL = 0, CAPABILITY = 1, STRUCT = 2, VALUES = 3, POINTERS = 4, STRUCTS = 5;
export const COMPOSITE = 7;

// (the word for an element, and what comes after it)
const ELEMENTS = [["value", " without bits"], ["bit", ""], ["byte", ""], ["value", " of 2 bytes"], ["value", " of 4 bytes"],
  ["value", " of 8 bytes"], ["pointer", ""]];
const BITS = [0, 1, 8, 16, 32, 64, 64];

/** The number and the word for it, as in "1 data word" and "6 pointers". */
export function amount(count, name) {
  return `${grouped(count)} ${name}${count === 1 ? "" : "s"}`;
}

/** A number with commas between its thousands. */
export function grouped(count) {
  return String(count).replace(/\B(?=(\d{3})+$)/g, ",");
}

/** The form of one word and its fields. */
export function decode(low, high) {
  if (low === 0 && high === 0) return { form: "null" };
  const offset = low >> 2, kind = low & 3;
  if (kind === 0) return { form: "struct", offset, data: high & 0xffff, pointers: high >>> 16 };
  if (kind === 1) return { form: "list", offset, element: high & 7, size: high >>> 3 };
  if (kind === 2) return { form: "far", pads: low & 4 ? 2 : 1, segment: high, word: low >>> 3 };
  return low === 3 ? { form: "capability", index: high } : { form: "reserved" };
}

/** A list in words, by the code of its elements. */
export function listText(element, size) {
  if (element === COMPOSITE) return `list of structs in ${amount(size, "word")}`;
  const [name, rest] = ELEMENTS[element];
  return `list of ${amount(size, name)}${rest}`;
}

export function structText(data, pointers) {
  return `struct of ${amount(data, "data word")} and ${amount(pointers, "pointer")}`;
}

/** The elements of a list of structs. */
export function structsText(size, data, pointers) {
  return `${amount(size, "struct")} of ${amount(data, "data word")} and ${amount(pointers, "pointer")}`;
}

/** The form and every field of a decoded pointer word, in one line. */
export function pointerText(it) {
  switch (it.form) {
    case "struct": return `${structText(it.data, it.pointers)}, offset ${grouped(it.offset)}`;
    case "list": return `${listText(it.element, it.size)}, offset ${grouped(it.offset)}`;
    case "far": return `far pointer to ${it.segment}:${it.word}, landing pad of ${amount(it.pads, "word")}`;
    case "capability": return `capability ${it.index}`;
    case "reserved": return "reserved kind";
    default: return "null";
  }
}

/** What a pointer word leads to. Fields that don't apply to its kind keep what they had. */
export class Found {
  /** NULL, CAPABILITY, STRUCT, VALUES, POINTERS or STRUCTS. */
  kind = NULL;
  /** The landing pad: how many words, and the place of the first. */
  pads = 0;
  padSegment = 0;
  padWord = 0;
  /** The segment of the target, and its first word there: of the tag, if it is a list of structs. */
  segment = 0;
  start = 0;
  /** How many words the target has, tag and surplus included. */
  words = 0;
  data = 0;
  pointers = 0;
  element = 0;
  /** A list: how many elements. */
  size = 0;
  index = 0;
  /** What following the pointer adds to the charge. */
  charge = 0;
}

/**
 * Follows the pointer word `at` of a segment, and fills in `found`.
 *
 * Returns the name of the first reason why it can't be followed, and otherwise null.
 */
export function follow(message, at, segment, found) {
  const { halves, starts, sizes } = message;
  let low = halves[2 * at], high = halves[2 * at + 1];
  let start = at - starts[segment] + 1 + (low >> 2);
  found.kind = NULL;
  found.pads = found.words = found.charge = 0;
  if ((low & 3) === 2) {
    const pads = found.pads = low & 4 ? 2 : 1, place = found.padWord = low >>> 3;
    found.padSegment = high;
    if (high >= sizes.length) return "SegmentMissing";
    if (place + pads > sizes[high]) return "PadOutside";
    const pad = starts[high] + place;
    found.charge = pads;
    segment = high;
    low = halves[2 * pad];
    high = halves[2 * pad + 1];
    if (pads === 1) {
      if ((low & 3) === 2) return "PadIsFar";
      start = place + 1 + (low >> 2);
    } else {
      if ((low & 7) !== 2) return "PadNotFar";
      if (high >= sizes.length) return "SegmentMissing";
      segment = high;
      start = low >>> 3;
      low = halves[2 * pad + 2];
      high = halves[2 * pad + 3];
      if ((low & 3) >= 2) return "TagKind";
      if (low >> 2 !== 0) return "TagOffset";
    }
  }
  found.segment = segment;
  found.start = start;
  return described(message, low, high, found);
}

/** Fills in what a word describes, once the place of its target is known. */
function described(message, low, high, found) {
  const kind = low & 3;
  if (low === 0 && high === 0 && found.pads < 2) return null;
  if (kind === 3) {
    found.index = high;
    found.kind = CAPABILITY;
    return low === 3 ? null : "Reserved";
  }
  if (kind === 0) {
    found.kind = STRUCT;
    found.data = high & 0xffff;
    found.pointers = high >>> 16;
    found.words = found.data + found.pointers;
  } else {
    const element = found.element = high & 7, size = found.size = high >>> 3;
    found.kind = element === COMPOSITE ? STRUCTS : element === 6 ? POINTERS : VALUES;
    found.words = element === COMPOSITE ? 1 + size : Math.ceil(BITS[element] * size / 64);
    if (element === 0) found.charge += size;
  }
  found.charge += found.words;
  if (found.start < 0 || found.start + found.words > message.sizes[found.segment]) return "OutOfSegment";
  return found.kind === STRUCTS ? tagged(message, found) : null;
}

/** Reads the tag of a list of structs, which is inside its segment. */
function tagged(message, found) {
  const tag = message.starts[found.segment] + found.start, low = message.halves[2 * tag], high = message.halves[2 * tag + 1];
  if ((low & 3) !== 0) return "CompositeTag";
  found.size = low >>> 2;
  found.data = high & 0xffff;
  found.pointers = high >>> 16;
  const step = found.data + found.pointers;
  if (step === 0) found.charge += found.size;
  return found.size * step > found.words - 1 ? "CompositeOverrun" : null;
}

/** The form that common readers reject, of a pointer that can be followed, or null. */
export function laxForm(message, found) {
  if (found.pads === 1 && found.kind === NULL) return "NullPad";
  if (found.pads === 1 && found.kind === CAPABILITY) return "CapabilityPad";
  return found.pads === 2 && message.sizes[found.segment] === 0 ? "EmptySegment" : null;
}

/** What was found, in one line. */
export function foundText(found) {
  switch (found.kind) {
    case CAPABILITY: return `capability ${found.index}`;
    case STRUCT: return structText(found.data, found.pointers);
    case VALUES: return listText(found.element, found.size);
    case POINTERS: return `list of ${amount(found.size, "pointer")}`;
    case STRUCTS: return `list of ${structsText(found.size, found.data, found.pointers)}`;
    default: return "null";
  }
}
