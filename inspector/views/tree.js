// The tree of a message, opened step by step.

import { make, span } from "./dom.js";
import { Scroller } from "./scroller.js";
import { isTextSelected } from "../controls/copy.js";
import { Node } from "../format/nodes.js";
import { bitsText, numbersText } from "../format/numbers.js";
import { POINTERS, STRUCT, STRUCTS, VALUES } from "../format/pointer.js";
import { LOOKED } from "../format/walk.js";

// (below so many levels rows are not indented any further)
const HEIGHT = 22, INDENT = 14, MOST_INDENTED = 11;
/** How many rows are opened when a message is shown. */
const FIRST_ROWS = 40;

/** A node whose rows are shown, with those of its children that are open too. */
class Open {
  constructor(node, parent, index, level) {
    Object.assign(this, { node, parent, index, level, rows: node.children, opened: [] });
  }

  get label() {
    return this.parent ? this.parent.node.label(this.index) : "root";
  }

  /** The open child with this number, or undefined. */
  child(index) {
    return this.opened.find((it) => it.index === index);
  }

  add(index, node) {
    const made = new Open(node, this, index, this.level + 1);
    this.opened.push(made);
    this.opened.sort((a, b) => a.index - b.index);
    for (let it = this; it; it = it.parent) it.rows += made.rows;
    return made;
  }

  remove(child) {
    this.opened.splice(this.opened.indexOf(child), 1);
    for (let it = this; it; it = it.parent) it.rows -= child.rows;
  }

  /** The open node and the number of its child at a row below this one. */
  find(row) {
    for (const it of this.opened) {
      if (row <= it.index) break;
      const inside = row - it.index - 1;
      if (inside < it.rows) return it.find(inside);
      row -= it.rows;
    }
    return { open: this, index: row };
  }

  /** The row of a child below the root's row. */
  rowOf(index) {
    let row = index;
    for (const it of this.opened) {
      if (it.index >= index) break;
      row += it.rows;
    }
    return this.parent ? this.parent.rowOf(this.index) + 1 + row : row;
  }
}

export class Tree {
  constructor(view, select) {
    Object.assign(this, { view, select, root: null, cursor: null, way: "unsigned" });
    this.scroller = new Scroller(view, HEIGHT, (first, count) => this.rows(first, count));
    view.addEventListener("keydown", (event) => this.key(event));
    view.addEventListener("click", (event) => this.click(event));
  }

  show(message, map, explanation) {
    Object.assign(this, { message, map, explanation, cursor: null, root: null });
    if (message && message.sizes[0] > 0) {
      const node = Node.root(message);
      this.root = new Open(node, null, 0, 1);
      if (!this.canOpen(node, 1)) this.root.rows = 0;
      if (!explanation) this.openSome();
    }
    this.resize();
  }

  /** Opens the first levels, as long as they have few rows. */
  openSome() {
    for (let waiting = [this.root], it = waiting.shift(); it; it = waiting.shift()) {
      for (let i = it.node.ownWords; i < Math.min(it.node.children, FIRST_ROWS) && this.root.rows < FIRST_ROWS; i++) {
        const node = it.node.child(i);
        const isSmall = node.children < FIRST_ROWS && node.found.element !== 2;
        if (isSmall && this.canOpen(node, it.level + 1)) waiting.push(it.add(i, node));
      }
    }
  }

  resize() {
    this.scroller.resize(this.root ? this.root.rows + 1 : 0);
  }

  /** Whether a pointer was looked at and can be followed. */
  isKnown(node) {
    return node.isElement || (this.map.marks[node.at] & LOOKED) !== 0;
  }

  /** Whether this is the refused pointer, at the end of its path. (a circle comes to it before) */
  isRefused(node, level) {
    const { explanation } = this;
    return explanation !== null && !node.isElement && node.at === explanation.at && level === explanation.steps.length + 1;
  }

  canOpen(node, level) {
    return node.children > 0 && !node.reason && this.isKnown(node) && (!this.isRefused(node, level) || this.explanation.isAccepted);
  }

  /** The item of a row. An own word has no node. */
  item(row) {
    const { root } = this;
    if (row === 0) return { row, open: null, index: 0, node: root.node, label: "root", level: 1, at: root.node.at, opened: root };
    const { open, index } = root.find(row - 1), isWord = index < open.node.ownWords;
    const opened = open.child(index), node = isWord ? null : opened?.node ?? open.node.child(index);
    return { row, open, index, node, opened, label: open.node.label(index), level: open.level + 1, at: open.node.childAt(index) };
  }

  steps(item) {
    const steps = [];
    for (let open = item.open, index = item.index; open; index = open.index, open = open.parent) {
      steps.unshift({ label: open.node.label(index), at: open.node.childAt(index) });
    }
    return steps;
  }

  rows(first, count) {
    this.items = Array.from({ length: Math.max(0, count) }, (_, i) => this.item(first + i));
    return this.items.map((item) => this.element(item));
  }

  element(item) {
    const { node } = item, isOpen = this.isOpen(item), canOpen = node && this.canOpen(node, item.level);
    const isChosen = this.cursor === item.row, isRefused = node && this.isRefused(node, item.level);
    const unseen = node && !this.isKnown(node), inChain = !isChosen && this.chain?.has(item.at) && node !== null;
    const names = ["item", isChosen && "chosen", inChain && "chain", isRefused && "refused", unseen && "unseen", !node && "word"];
    const made = make("div", {
      className: names.filter(Boolean).join(" "), role: "treeitem", id: `item-${item.row}`, "aria-level": String(item.level),
      "aria-selected": String(isChosen), "aria-expanded": canOpen ? String(isOpen) : null,
      "aria-setsize": String(item.open ? item.open.node.children : 1), "aria-posinset": String(item.index + 1),
    }, make("span", { className: "twist", "aria-hidden": "true" }, canOpen ? (isOpen ? "▾" : "▸") : ""),
    span("label", item.label, item.level > MOST_INDENTED + 1 ? make("sub", {}, `level ${item.level}`) : ""),
    ...this.content(item, isRefused, unseen));
    made.style.paddingLeft = `${6 + INDENT * Math.min(item.level - 1, MOST_INDENTED)}px`;
    return made;
  }

  content({ node, at, index, open }, isRefused, unseen) {
    if (!node) return this.ownWord(open.node, at, index);
    if (isRefused) return [chip("refused"), span("head", this.explanation.text), span("flag", this.explanation.reason)];
    if (unseen) return [chip("unseen"), span("head", "not looked at")];
    const text = node.guess, pads = node.pads.length;
    return [chip(kindName(node)), span("head", node.text), text === null ? null : make("q", { className: "text" }, text),
      pads ? span("dim pad-note", `by pad ${this.message.place(node.pads[0])}`) : null];
  }

  ownWord({ kind, found }, at, index) {
    const text = kind === STRUCT ? numbersText(this.message.word(at), 8, this.way) : this.listText(at, found, index);
    return [span("hex", this.message.hex(at).replace(/../g, "$& ")), span("dim", text)];
  }

  /** A word of a list of values: characters, bits, or numbers. */
  listText(at, { element, size }, index) {
    const bytes = this.message.word(at), width = [0, 0, 1, 2, 4, 8][element];
    if (element === 1) return bitsText(bytes, Math.min(64, size - 64 * index));
    if (element === 2) return asciiText(this.message, at, 8 * (index + 1) - size);
    return numbersText(bytes.subarray(0, Math.min(8, width * size - 8 * index)), width, this.way);
  }

  /** Shows numbers in this way: unsigned, signed or floating. */
  showNumbers(way) {
    this.way = way;
    this.scroller.paint();
  }

  isOpen(item) {
    return item.row ? Boolean(item.opened) : this.root.rows > 0;
  }

  /** Opens or closes the node of a row. */
  toggle(item, isOpen = !this.isOpen(item)) {
    if (!item.node || !this.canOpen(item.node, item.level) || isOpen === this.isOpen(item)) return;
    const { rows } = this.root;
    if (item.row === 0) {
      this.root.rows = isOpen ? item.node.children : 0;
      this.root.opened = [];
    } else if (isOpen) {
      item.open.add(item.index, item.node);
    } else {
      item.open.remove(item.opened);
    }
    this.keep(item.row, this.root.rows - rows);
    this.resize();
  }

  /** Leaves the cursor at its node where a row above it gets more or fewer rows. From a row that goes it moves to the one above. */
  keep(row, more) {
    if (this.cursor === null || this.cursor <= row) return;
    this.cursor = Math.max(row, this.cursor + more);
    this.view.setAttribute("aria-activedescendant", `item-${this.cursor}`);
  }

  /** Opens the way to a node or one of its own words, as far as it can be opened, and puts the cursor there. */
  reveal(labels, detail) {
    if (!this.root) return;
    if (!labels) return this.point(null);
    this.toggle(this.item(0), true);
    let open = this.root, index = -1;
    for (const label of detail ? [...labels, detail] : labels) {
      const next = index < 0 ? open : this.opened(open, index);
      const expected = !next ? -1 : label === detail ? Number(label.slice(1)) : next.node.indexOf(label);
      if (expected < 0) break;
      open = next;
      index = expected;
    }
    this.resize();
    this.point(index < 0 ? 0 : open.rowOf(index) + 1);
  }

  /** The child of an open node, opened, or null. */
  opened(open, index) {
    const known = open.child(index);
    if (known) return known;
    const node = open.node.child(index);
    return this.canOpen(node, open.level + 1) ? open.add(index, node) : null;
  }

  /** Puts the cursor to a row, or to none. */
  point(row) {
    this.cursor = row;
    if (row === null) return this.scroller.paint();
    this.view.setAttribute("aria-activedescendant", `item-${row}`);
    this.scroller.reveal(row);
  }

  choose(row) {
    if (!this.root || row < 0 || row > this.root.rows) return;
    const item = this.item(row);
    this.point(row);
    this.select(item.at, this.steps(item).filter((_, i, all) => item.node || i < all.length - 1), item.node ? null : item.label);
  }

  click(event) {
    const row = this.scroller.rowAt(event.clientY);
    if (!this.root || row > this.root.rows || isTextSelected(this.view)) return;
    if (event.target.classList.contains("twist")) this.toggle(this.item(row));
    else this.choose(row);
  }

  key(event) {
    if (!this.root || event.ctrlKey || event.altKey || event.metaKey) return;
    const row = this.cursor ?? 0, page = this.scroller.rowsOfPage;
    const moves = { ArrowDown: row + 1, ArrowUp: row - 1, PageDown: row + page, PageUp: row - page, Home: 0, End: this.root.rows };
    if (event.key in moves) {
      this.choose(Math.max(0, Math.min(this.root.rows, moves[event.key])));
    } else if (event.key === "ArrowRight" || event.key === "ArrowLeft") {
      this.sideways(this.item(row), event.key === "ArrowRight");
    } else {
      return;
    }
    event.preventDefault();
  }

  sideways(item, isRight) {
    const isOpen = this.isOpen(item);
    if (isRight && isOpen) this.choose(item.row + 1);
    else if (isRight || isOpen && item.opened) this.toggle(item, isRight);
    else if (item.open) this.choose(item.open.parent ? item.open.parent.rowOf(item.open.index) + 1 : 0);
  }
}

function chip(name) {
  return make("span", { className: `chip ${name}`, "aria-hidden": "true" });
}

/** The name of the colour of a node. */
function kindName({ kind }) {
  return { [STRUCT]: "data", [VALUES]: "value", [POINTERS]: "pointer", [STRUCTS]: "tag" }[kind] ?? "null";
}

/** The bytes of a word as characters, with points for those that aren't printable. The last word of a list may have fewer bytes. */
export function asciiText(message, at, surplus = 0) {
  let text = "";
  for (const byte of message.bytes.subarray(8 * at, 8 * at + 8 - Math.max(0, Math.min(7, surplus)))) {
    text += byte >= 32 && byte < 127 ? String.fromCharCode(byte) : "·";
  }
  return text;
}
