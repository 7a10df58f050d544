// The bytes of an input: from a file, or from pasted text.

import { bytesOfBase64 } from "../format/base64.js";
import { TextFault } from "../format/fault.js";
import { bytesOfDump, isDump } from "../format/dump.js";
import { bytesOfLiteral, isLiteral } from "../format/literal.js";
import { frame } from "./library.js";

const SPACE = /[\s,;:]|0x|\\x/gi;

function bytesOfHex(digits) {
  return Uint8Array.from({ length: digits.length >> 1 }, (_, i) => parseInt(digits.slice(2 * i, 2 * i + 2), 16));
}

function bytesOfEncoded(text) {
  const base64 = text.replace(/\s/g, "").replace(/-/g, "+").replace(/_/g, "/");
  try {
    return base64 ? bytesOfBase64(base64) : null;
  } catch {
    return null;
  }
}

/** Whether bytes begin with a whole frame. */
function isFrame(bytes) {
  try {
    return frame(bytes, { messageWords: 2 ** 28 }).length > 0;
  } catch (error) {
    if (!error.reason) throw error;
    return false;
  }
}

/** The bytes of a text. Digits that are base64 too are those whose bytes begin with a message. Throws TextFault. */
export function bytesOfText(text) {
  if (isDump(text)) return bytesOfDump(text);
  if (isLiteral(text)) return bytesOfLiteral(text);
  const digits = text.replace(SPACE, ""), isHex = /^[0-9a-f]+$/i.test(digits), encoded = bytesOfEncoded(text);
  const plain = isHex && digits.length % 2 === 0 ? bytesOfHex(digits) : null;
  const found = [plain, encoded].filter((bytes) => bytes !== null), message = found.find(isFrame);
  if (message) return message;
  if (isHex && !plain) throw new TextFault(`The text has ${digits.length} hexadecimal digits, which is an odd number.`);
  if (!found.length) throw new TextFault("This text is neither hexadecimal digits nor base64.");
  return found[0];
}

/** Reads a file, and reports how many bytes have come. */
export async function bytesOfFile(file, progress) {
  const bytes = new Uint8Array(file.size), reader = file.stream().getReader();
  for (let at = 0; ;) {
    const { done, value } = await reader.read();
    if (done) return at === bytes.length ? bytes : bytes.subarray(0, at);
    bytes.set(value, at);
    at += value.length;
    progress(at);
  }
}
