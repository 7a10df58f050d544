// The output of programs that show bytes: `xxd`, `hexdump -C`, and `od -A x -t x1`.

import { TextFault } from "./fault.js";

/** A row: where it begins, and its digits. A row with a star stands for rows that are like the one before. */
const ROW = /^([0-9a-f]{4,16})(?::|(?=\s|$))\s*(.*)$/i;

function rowsOf(text) {
  return text.trim().split(/\r?\n/).map((line) => (line.trim() === "*" ? { isStar: true } : rowOf(line.trim())));
}

function rowOf(line) {
  const row = ROW.exec(line);
  if (!row) return null;
  // (the characters of `hexdump -C` are between bars, and those of `xxd` after two spaces)
  const isColon = line[row[1].length] === ":", shown = isColon ? row[2].split(/ {2,}/)[0] : row[2].replace(/\s*(\|.*|>.*<)$/, "");
  return { start: parseInt(row[1], 16), digits: shown.replace(/\s/g, "") };
}

const isDigits = (text) => text.length % 2 === 0 && /^[0-9a-f]*$/i.test(text);

/** Whether a text is such output: its first row begins at 0, and has a colon or characters, or the next one begins where it ends. */
export function isDump(text) {
  const [first, second] = rowsOf(text);
  if (!first || first.start !== 0 || !first.digits) return false;
  if (/^[0-9a-f]+(:|\s.*[|>]$)/im.test(text.trim())) return true;
  return isDigits(first.digits) && Boolean(second) && (second.isStar || second.start === first.digits.length / 2);
}

/** The bytes of such output. Throws an error that says which line is wrong. */
export function bytesOfDump(text) {
  const bytes = [];
  let last = [], isRepeated = false;
  for (const [number, row] of rowsOf(text).entries()) {
    if (row?.isStar) {
      isRepeated = true;
      continue;
    }
    if (!row || !isDigits(row.digits)) throw new TextFault(`Line ${number + 1} is not one of a dump.`);
    while (isRepeated && last.length && bytes.length < row.start) bytes.push(...last);
    isRepeated = false;
    if (bytes.length !== row.start) throw new TextFault(`Line ${number + 1} begins at byte ${row.start}, and ${bytes.length} bytes are before it.`);
    last = row.digits.match(/../g)?.map((it) => parseInt(it, 16)) ?? [];
    bytes.push(...last);
  }
  return Uint8Array.from(bytes);
}
