// The rows in which the words of a message are shown, section by section: the table, and each segment. A refused pointer may name
// words that don't exist. They have rows too, after or before those of their segment.

import { amount } from "../format/pointer.js";

/** How many words that don't exist are shown. */
const MOST_GHOSTS = 8;

export class Layout {
  /** `columns` words are in a row. Where `isApart`, each word that doesn't exist has a row of its own. */
  constructor(message, explanation, columns, isApart) {
    Object.assign(this, { columns, isApart, sections: [], rows: 0 });
    const ghosts = ghostsOf(message, explanation);
    if (message.table) this.add("table", 0, message.table, []);
    message.sizes.forEach((size, segment) => {
      this.add(message.partName(segment), message.starts[segment], size, ghosts.filter((it) => it.segment === segment), segment);
    });
    for (const ghost of ghosts.filter((it) => it.segment >= message.sizes.length)) {
      this.add(`segment ${ghost.segment}`, message.total, 0, [ghost], ghost.segment, true);
    }
    this.firstRows = this.sections.map((it) => it.firstRow);
  }

  add(name, first, count, ghosts, segment = -1, isMissing = false) {
    const before = ghosts.filter((it) => it.start < 0).flatMap((it) => this.ghostRows(it));
    const after = ghosts.filter((it) => it.start >= 0).flatMap((it) => this.ghostRows(it));
    const cells = Math.ceil(count / this.columns), firstRow = this.rows;
    const firstCells = firstRow + 1 + before.length;
    this.sections.push({ name, first, count, segment, isMissing, before, after, firstRow, firstCells, cells });
    this.rows += 1 + before.length + cells + after.length;
  }

  ghostRows(ghost) {
    if (!this.isApart) return [ghost];
    const rows = Array.from({ length: ghost.shown }, (_, i) => ({ ...ghost, start: ghost.start + i, shown: 1 }));
    if (ghost.shown < ghost.words) rows.push({ ...ghost, shown: 0, rest: ghost.words - ghost.shown });
    return ghost.gap ? [{ ...ghost, shown: 0 }, ...rows] : rows;
  }

  /** The row of the first word that doesn't exist, or -1. */
  get ghostRow() {
    for (const { before, after, firstRow, firstCells, cells } of this.sections) {
      if (before.length) return firstRow + 1;
      if (after.length) return firstCells + cells;
    }
    return -1;
  }

  /** What is in a row: { section, title } or { section, ghost } or { section, first, count }. */
  row(number) {
    let low = 0, high = this.firstRows.length;
    while (high - low > 1) {
      const middle = (low + high) >> 1;
      if (this.firstRows[middle] <= number) low = middle; else high = middle;
    }
    const section = this.sections[low], row = number - section.firstCells;
    if (number === section.firstRow) return { section, title: titleOf(section) };
    if (row < 0) return { section, ghost: section.before[number - section.firstRow - 1] };
    if (row >= section.cells) return { section, ghost: section.after[row - section.cells] };
    const first = section.first + row * this.columns;
    return { section, first, count: Math.min(this.columns, section.first + section.count - first) };
  }

  sectionOf(at) {
    return this.sections.find((it) => at >= it.first && at < it.first + it.count);
  }

  /** The row of a word. */
  rowOf(at) {
    const section = this.sectionOf(at);
    return section.firstCells + Math.floor((at - section.first) / this.columns);
  }
}

function titleOf({ name, count, isMissing }) {
  return isMissing ? `${name} does not exist` : `${name}, ${count ? amount(count, "word") : "no words"}`;
}

/** Runs of words that the refused pointer names and that don't exist. */
function ghostsOf(message, explanation) {
  const ghosts = [];
  for (const [what, it] of [["landing pad", explanation?.pad], ["target", explanation?.target]]) {
    if (!it) continue;
    const size = message.sizes[it.segment] ?? 0, end = it.start + it.words;
    if (it.start < 0) ghosts.push(ghost(what, it.segment, it.start, Math.min(it.words, -it.start) || 1, 0));
    const start = Math.max(it.start, size);
    if (end > size) ghosts.push(ghost(what, it.segment, start, end - start, start - size));
  }
  return ghosts;
}

function ghost(what, segment, start, words, gap) {
  return { what, segment, start, words, gap, shown: Math.min(words, MOST_GHOSTS), rest: 0 };
}
