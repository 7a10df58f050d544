// The bytes of a message: one word in a row, in hexadecimal digits and as characters, with what it is.

import { make, span } from "./dom.js";
import { Scroller } from "./scroller.js";
import { isTextSelected } from "../controls/copy.js";
import { Layout } from "./layout.js";
import { KINDS } from "./map.js";
import { asciiText } from "./tree.js";
import { numbersText } from "../format/numbers.js";
import { Found, amount, follow, foundText, grouped, pointerText, structsText } from "../format/pointer.js";
import { DATA, KIND, LOOKED, PAD, POINTER, ROOT, SURPLUS, TABLE, TAG, TWICE, UNSEEN, UNUSED, VALUE } from "../format/walk.js";

const HEIGHT = 20;

export class BytesView {
  constructor(view, select) {
    Object.assign(this, { view, select, message: null });
    this.scroller = new Scroller(view, HEIGHT, (first, count) => this.rows(first, count));
    view.addEventListener("keydown", (event) => this.key(event));
    view.addEventListener("click", (event) => this.click(event));
  }

  show(message, map, explanation, isPartial, offset) {
    Object.assign(this, { message, map, explanation, isPartial, offset, selection: null });
    this.layout = message && new Layout(message, explanation, 1, true);
    if (message) this.setWidths();
    this.scroller.resize(message ? this.layout.rows : 0);
    this.scroller.moveTo(0);
  }

  /** Columns as wide as the greatest offset and place. */
  setWidths() {
    const { message, offset, view } = this, most = Math.max(...message.sizes);
    view.style.setProperty("--offset-width", `${Math.max(6, (8 * message.total + offset).toString(16).length)}ch`);
    view.style.setProperty("--place-width", `${Math.max(5, `${message.sizes.length}:${most}`.length)}ch`);
  }

  point(selection) {
    this.selection = selection;
    this.view.setAttribute("aria-activedescendant", `word-${selection.at}`);
    this.scroller.reveal(this.layout.rowOf(selection.at));
  }

  rows(first, count) {
    if (!this.message) return [];
    return Array.from({ length: Math.max(0, count) }, (_, i) => this.element(this.layout.row(first + i)));
  }

  element(row) {
    if (row.title) return make("div", { className: "bytes-row title", role: "presentation" }, row.title);
    return row.ghost ? this.ghost(row) : this.word(row.first, row.section);
  }

  ghost({ ghost, section }) {
    const isWord = ghost.shown > 0;
    const missing = isWord ? `${ghost.what}: no such word` : `⋯ ${amount(ghost.gap, "word")} further ⋯`;
    const text = ghost.rest ? `and ${grouped(ghost.rest)} more words` : missing;
    return make("div", { className: "bytes-row ghost", role: "presentation" }, span("offset"),
      span("place", isWord ? `${section.segment}:${ghost.start}` : ""), span("hex", isWord ? "-- -- -- -- -- -- -- --" : ""),
      span("ascii"), span("note", text));
  }

  word(at, section) {
    const { message } = this, mark = this.map.marks[at], kind = (mark & KIND) || (this.isPartial ? UNSEEN : UNUSED);
    const place = section.segment < 0 ? "table" : message.isRest ? "" : `${section.segment}:${at - section.first}`;
    const hex = message.hex(at).replace(/../g, "$& ").trim(), note = this.note(at, kind, mark);
    return make("div", {
      className: this.names(at, kind, mark).join(" "), role: "option", id: `word-${at}`,
      "aria-selected": String(this.selection?.at === at), "aria-label": `${place}, ${hex}, ${note}`,
      "aria-setsize": String(message.total), "aria-posinset": String(at + 1),
    }, span("offset", (8 * at + this.offset).toString(16).padStart(6, "0")), span("place", place),
    span("hex", hex.slice(0, 11), make("i", {}, hex.slice(11))), span("ascii", asciiText(message, at, message.lacking(at))), span("note", note));
  }

  /** The classes of the row of a word. */
  names(at, kind, mark) {
    const { selection, explanation } = this, names = ["bytes-row", `k-${KINDS[kind]}`];
    const add = (name, holds) => { if (holds) names.push(name); };
    add("twice", mark & TWICE);
    add("refused", explanation?.at === at);
    if (!selection) return names;
    const { target, pads, chainSet } = selection, isChosen = selection.at === at;
    add("chosen", isChosen);
    add("chain", !isChosen && chainSet.has(at));
    add("target", target && at >= target.start && at < target.start + target.words);
    add("on-way", pads.includes(at));
    return names;
  }

  /** What a word is, in a few words. */
  note(at, kind, mark) {
    const { message } = this, low = message.halves[2 * at], high = message.halves[2 * at + 1];
    const twice = mark & TWICE ? " (used twice)" : "";
    if (this.explanation?.at === at) return `refused: ${this.explanation.reason}`;
    switch (kind) {
      case TABLE: return at ? "sizes of segments" : `${amount(low + 1, "segment")}, first of ${amount(high, "word")}`;
      case ROOT: case POINTER: return (mark & LOOKED ? this.pointerNote(at) : "not looked at") + twice;
      case PAD: return `landing pad: ${pointerText(message.decode(at))}${twice}`;
      case TAG: return `tag: ${structsText(low >>> 2, high & 0xffff, high >>> 16)}${twice}`;
      case DATA: return `data ${numbersText(message.word(at), 8, "unsigned")}${twice}`;
      case VALUE: return `values${twice}`;
      case SURPLUS: return `after the last element${twice}`;
      case UNSEEN: return message.isRest ? "" : "not looked at";
      default: return "unused";
    }
  }

  pointerNote(at) {
    const { message } = this, found = new Found(), reason = follow(message, at, message.segmentOf(at), found);
    if (reason) return reason;
    const text = foundText(found);
    return found.words ? `→ ${found.segment}:${found.start} ${text}` : text;
  }

  click(event) {
    const row = this.scroller.rowAt(event.clientY);
    if (!this.message || row >= this.layout.rows || isTextSelected(this.view)) return;
    const it = this.layout.row(row);
    if (it.count) this.select(it.first);
    else if (it.ghost && this.explanation) this.select(this.explanation.at);
  }

  key(event) {
    if (!this.message || event.ctrlKey || event.altKey || event.metaKey) return;
    const at = this.selection?.at ?? 0, page = this.scroller.rowsOfPage, last = this.message.total - 1;
    const moves = { ArrowUp: at - 1, ArrowDown: at + 1, PageUp: at - page, PageDown: at + page, Home: 0, End: last };
    if (!(event.key in moves)) return;
    event.preventDefault();
    this.select(Math.max(0, Math.min(last, moves[event.key])));
  }
}
