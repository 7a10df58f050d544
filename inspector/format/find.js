// Finds text, bytes and numbers.

/** The bytes of a whole number in as few bytes as hold it, and their number. */
function bytesOfInteger(number) {
  for (const size of [1, 2, 4, 8]) {
    const bits = BigInt(8 * size), isSigned = number >= -(1n << bits - 1n) && number < 0n;
    if (!isSigned && (number < 0n || number >= 1n << bits)) continue;
    const value = BigInt.asUintN(8 * size, number);
    return [{ bytes: Uint8Array.from({ length: size }, (_, i) => Number(value >> BigInt(8 * i) & 255n)), step: size }];
  }
  return null;
}

function bytesOfFloating(number) {
  return [["setFloat32", 4], ["setFloat64", 8]].map(([write, size]) => {
    const bytes = new Uint8Array(size);
    new DataView(bytes.buffer)[write](0, number, true);
    return { bytes, step: size };
  });
}

/** What to look for: bytes, each at a multiple of its step. Null if the text is none of its kind. */
export function patternsOf(kind, text) {
  if (!text) return null;
  if (kind === "text") return [{ bytes: new TextEncoder().encode(text), step: 1 }];
  const trimmed = text.trim();
  if (kind === "number") {
    if (/^([+-]?\d+|0x[0-9a-f]+)$/i.test(trimmed)) return bytesOfInteger(BigInt(trimmed.replace("+", "")));
    return /\d/.test(trimmed) && !Number.isNaN(Number(trimmed)) ? bytesOfFloating(Number(trimmed)) : null;
  }
  const digits = trimmed.replace(/^0x|\s/gi, "");
  if (!digits || digits.length % 2 || /[^0-9a-f]/i.test(digits)) return null;
  return [{ bytes: Uint8Array.from(digits.match(/../g), (it) => parseInt(it, 16)), step: 1 }];
}

/** The first place from a byte on where bytes are, or the last one up to it, or -1. */
function findOne(data, { bytes, step }, from, isBack) {
  // (zeros are common, so the first byte that isn't zero is looked for)
  const anchor = Math.max(0, bytes.findIndex((byte) => byte !== 0)), move = isBack ? -1 : 1, search = isBack ? "lastIndexOf" : "indexOf";
  for (let at = from + anchor; at >= anchor;) {
    const found = data[search](bytes[anchor], at), start = found - anchor;
    if (found < 0 || start < 0) return -1;
    if (start % step === 0 && start + bytes.length <= data.length && bytes.every((byte, i) => data[start + i] === byte)) return start;
    at = found + move;
  }
  return -1;
}

/** The next place of one of the patterns after a byte, or before it, and beyond the end from the other end on. -1 if there is none. */
export function find(data, patterns, from, isBack) {
  const nearest = (start) => {
    const found = patterns.map((it) => findOne(data, it, start, isBack)).filter((it) => it >= 0);
    return found.length ? found.reduce((a, b) => (isBack ? Math.max(a, b) : Math.min(a, b))) : -1;
  };
  const found = from < 0 || from >= data.length ? -1 : nearest(from);
  return found >= 0 ? found : nearest(isBack ? data.length - 1 : 0);
}
