// The bytes literals of Python, as `repr` writes them.

const LITERAL = /b(?:"((?:[^"\\]|\\.)*)"|'((?:[^'\\]|\\.)*)')/gs;
const NAMED = { n: 10, r: 13, t: 9, a: 7, b: 8, f: 12, v: 11, "\\": 92, "'": 39, '"': 34 };

/** Whether a text is such a literal, or some one after another. */
export function isLiteral(text) {
  return text.search(LITERAL) >= 0 && !text.replace(LITERAL, "").replace(/bytearray|[\s()+]/g, "");
}

export function bytesOfLiteral(text) {
  const bytes = [];
  for (const [, double, single] of text.matchAll(LITERAL)) {
    for (const [it, hex, octal, named] of (double ?? single).matchAll(/\\x([0-9a-f]{2})|\\([0-7]{1,3})|\\(.)|[^\\]/gis)) {
      if (hex !== undefined) bytes.push(parseInt(hex, 16));
      else if (octal !== undefined) bytes.push(parseInt(octal, 8) & 255);
      else if (named !== undefined) bytes.push(...(named in NAMED ? [NAMED[named]] : [92, ...new TextEncoder().encode(named)]));
      else bytes.push(...new TextEncoder().encode(it));
    }
  }
  return Uint8Array.from(bytes);
}
