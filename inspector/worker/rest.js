// What follows the last message of an input, where the input stops being messages: why, and what it may be.

import { Message, messages, readMessages, vetWords } from "./library.js";

const MOST_SEGMENTS = 512;
/** How many bytes of it are shown, and how many are looked at for a guess. */
const MOST_SHOWN = 1 << 20, LOOKED_AT = 4096;

/** What begins with which bytes. */
const BEGINNINGS = [["gzip", "1f8b"], ["zstd", "28b52ffd"], ["xz", "fd377a585a00"], ["bzip2", "425a68"], ["lz4", "04224d18"],
  ["a zip file", "504b0304"], ["a PNG image", "89504e47"], ["a PDF file", "25504446"], ["an ELF file", "7f454c46"],
  ["SQLite", "53514c697465"], ["Parquet", "50415231"]];

/** The first bytes of whole words that packed bytes give, at most so many, and whether the packed bytes end inside a group. */
export function unpackedPart(packed, most) {
  const plain = new Uint8Array(most);
  let size = 0, at = 0;
  const put = (bytes) => { plain.set(bytes.subarray(0, most - size), size); size = Math.min(most, size + bytes.length); };
  while (at < packed.length) {
    const tag = packed[at++], word = new Uint8Array(8);
    for (let bit = 0; bit < 8; bit++) if (tag >> bit & 1) word[bit] = packed[at++];
    if (at > packed.length) break;
    put(word);
    if (tag !== 0 && tag !== 255) continue;
    // (without its last byte a group ends beyond the input)
    const count = 8 * (packed[at++] ?? 0), words = tag ? packed.subarray(at, at + count) : new Uint8Array(count);
    put(words.subarray(0, words.length - words.length % 8));
    if (tag) at += count;
  }
  return { plain: plain.subarray(0, size), isCut: at > packed.length };
}

/** What the table of a message says, as far as it is there. `isWhole` says whether all of it is. */
function tableOf(plain) {
  const number = (index) => new DataView(plain.buffer, plain.byteOffset).getUint32(4 * index, true);
  if (plain.length < 4) return { segments: 0, tableWords: 0, words: 0, isWhole: false };
  const segments = number(0) + 1, tableWords = (segments >> 1) + 1, isWhole = segments <= MOST_SEGMENTS && 8 * tableWords <= plain.length;
  let words = 0;
  for (let i = 1; isWhole && i <= segments; i++) words += number(i);
  return { segments, tableWords, words, isWhole };
}

function cutSentence({ isWhole }, isPacked, isCut) {
  const unit = isPacked ? "packed group" : "word", end = isCut ? `and inside a ${unit}` : `between two ${unit}s`;
  return `the input ends inside the segment${isWhole ? "s" : " table"}, ${end}`;
}

/** The lines of `capvet explain` after the line of a fault. */
function breakLines({ reason, offset }, bytes, table, limits, isPacked, isCut) {
  const { segments, tableWords, words, isWhole } = table, there = bytes.length, packed = isPacked ? " packed" : "";
  const head = [`message at byte ${offset} of the${packed} input`, ...(isWhole ? [`table segments ${segments}, words ${words}`] : [])];
  const needed = isWhole ? `, needed ${8 * (tableWords + words)}${isPacked ? " unpacked" : ""}` : "";
  const lines = {
    TooManySegments: [head[0], `segments ${segments}, limit ${MOST_SEGMENTS}`,
      "reason the first word of the message says more segments than a message may have"],
    TooLarge: [...head, `words ${words}, limit ${limits.words}`, "reason the segments together have more words than the limit allows"],
    Truncated: [...head, `bytes there ${there}${packed}${needed}`, `reason ${cutSentence(table, isPacked, isCut)}`],
  }[reason];
  return lines.map((line) => `  ${line}\n`).join("");
}

/** Whether the first message of an input is accepted, and has more than a null pointer. */
async function hasMessage(source) {
  try {
    for await (const it of source) return it instanceof Message && it.report.pointers > 1;
  } catch (error) {
    if (!error.reason) throw error;
  }
  return false;
}

function isWords(bytes) {
  try {
    return vetWords(bytes.subarray(0, bytes.length - bytes.length % 8)).report.pointers > 1;
  } catch (error) {
    if (!error.reason) throw error;
    return false;
  }
}

function textGuess(head) {
  const isText = head.every((byte) => byte >= 32 && byte < 127 || byte >= 9 && byte <= 13);
  if (!isText) return null;
  const text = String.fromCharCode(...head).trim();
  if (/^([A-Z]+ \S+ HTTP\/|HTTP\/\d)/.test(text)) return "This is text, and begins as HTTP.";
  if (/^(0x|[\s0-9a-f])+$/i.test(text)) return "These are hexadecimal digits: paste them, and the page reads them.";
  if (/^[\sA-Za-z0-9+/=_-]+$/.test(text)) return "This may be base64: paste it, and the page reads it.";
  return text.startsWith("{") ? "This is text, and begins as JSON." : "This is text.";
}

/** What bytes may be that are no message, as a sentence, or null. */
export async function guessOf(bytes, isPacked) {
  const head = bytes.subarray(0, LOOKED_AT), hex = Array.from(head.subarray(0, 8), (it) => it.toString(16).padStart(2, "0")).join("");
  const known = BEGINNINGS.find(([, digits]) => hex.startsWith(digits));
  if (known) return `This begins as ${known[0]} does.`;
  if (!head.length) return null;
  if (head.every((byte) => byte === 0)) return "The first bytes are all zero.";
  const text = textGuess(head);
  if (text) return text;
  const other = isPacked ? messages(bytes) : readMessages([bytes], { packed: true });
  if (await hasMessage(other)) return `Read as ${isPacked ? "plain" : "packed"}, this begins with a message: choose that in Limits.`;
  if (isWords(bytes)) return "As words without a segment table this is a message: choose that in Limits.";
  for (const start of [4, 5, 8, 2]) {
    if (await hasMessage(messages(bytes.subarray(start)))) return `From byte ${start} on this is a message: a length may be before it.`;
  }
  return null;
}

/** What the page shows of an input from the byte of a fault on. */
export async function restOf(fault, input, limits, isPacked) {
  const { reason, offset } = fault, bytes = input.subarray(offset), shown = bytes.slice(0, MOST_SHOWN);
  const { plain, isCut } = isPacked ? unpackedPart(bytes, 8 * MOST_SEGMENTS) : { plain: bytes, isCut: bytes.length % 8 > 0 };
  const table = tableOf(plain), isFrame = /^(TooManySegments|TooLarge|Truncated)$/.test(reason) && limits.hasTable;
  const cut = reason === "Truncated" ? "  reason the input ends inside a word\n" : "";
  const lines = isFrame ? breakLines(fault, bytes, table, limits, isPacked, isCut) : cut;
  // (of packed bytes the table is not seen)
  const known = !isFrame || isPacked ? 0 : reason === "TooManySegments" ? 1 : Math.min(table.tableWords, Math.ceil(bytes.length / 8));
  return { ...fault, bytes: shown, length: bytes.length, table: known, lines, guess: await guessOf(bytes, isPacked) };
}
