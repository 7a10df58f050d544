// The map: each word of the message is a cell, with a colour for its use.

import { Scroller } from "./scroller.js";
import { Layout } from "./layout.js";
import { isDiffering } from "../format/difference.js";
import { grouped } from "../format/pointer.js";
import { KIND, LOOKED, POINTER, TWICE, UNSEEN, UNUSED, VALUE } from "../format/walk.js";

/** The side of a cell, and of one that is for fingers. */
const SIDE = 12, LARGE_SIDE = 17, GAP = 1;
export const KINDS = ["unused", "root", "pad", "data", "pointer", "value", "tag", "surplus", "table", "unseen"];

export class MapView {
  constructor(view, select) {
    Object.assign(this, { view, select, message: null });
    this.canvas = document.createElement("canvas");
    this.canvas.setAttribute("aria-hidden", "true");
    this.side = matchMedia("(pointer: coarse)").matches ? LARGE_SIDE : SIDE;
    this.scroller = new Scroller(view, this.side, (first, count, top) => this.drawRows(first, count, top));
    this.scroller.layer.append(this.canvas);
    view.addEventListener("keydown", (event) => this.key(event));
    view.addEventListener("click", (event) => this.click(event));
    new ResizeObserver(() => this.arrange()).observe(view);
  }

  show(message, map, explanation, isPartial) {
    Object.assign(this, { message, map, explanation, isPartial, difference: null, selection: null, layout: null });
    this.arrange();
    this.scroller.moveTo(0);
  }

  /** Marks the words in which the message first differs from its canonical copy, or none. */
  mark(difference) {
    this.difference = difference;
    this.scroller.paint();
  }

  /** Works out the rows for this width. */
  arrange() {
    if (!this.message) return this.scroller.resize(0);
    // (the rows of a view that isn't shown are not known)
    if (!this.view.clientWidth) return;
    const digits = String(Math.max(...this.message.sizes)).length;
    this.left = 12 + 7 * Math.max(4, digits + Math.floor((digits - 1) / 3));
    const fitting = Math.floor((this.view.clientWidth - this.left - 6) / this.side);
    const columns = fitting >= 16 ? fitting - fitting % 8 : Math.max(4, fitting), isOther = !this.layout || columns !== this.columns;
    this.columns = columns;
    this.layout = new Layout(this.message, this.explanation, columns, false);
    this.scroller.resize(this.layout.rows);
    this.readColours();
    if (isOther && this.selection) this.point(this.selection);
  }

  readColours() {
    const style = getComputedStyle(document.documentElement), colour = (name) => style.getPropertyValue(`--${name}`).trim();
    this.colours = KINDS.map((name) => colour(`k-${name}`));
    this.twice = colour("k-twice");
    this.ink = Object.fromEntries(["text", "dim", "cell-line", "accent", "bad", "panel"].map((name) => [name, colour(name)]));
    this.scroller.paint();
  }

  point(selection) {
    this.selection = selection;
    if (this.layout) this.scroller.reveal(this.layout.rowOf(selection.at), 3);
  }

  kind(at) {
    const kind = this.map.marks[at] & KIND;
    return kind === UNUSED && this.isPartial ? UNSEEN : kind;
  }

  drawRows(first, count, top) {
    const { canvas, scroller, view } = this, width = view.clientWidth, { height } = scroller;
    const scale = window.devicePixelRatio || 1;
    canvas.width = width * scale;
    canvas.height = height * scale;
    canvas.style.width = `${width}px`;
    canvas.style.height = `${height}px`;
    const pen = this.pen = canvas.getContext("2d");
    pen.scale(scale, scale);
    pen.clearRect(0, 0, width, height);
    pen.font = "10px ui-monospace, monospace";
    pen.textBaseline = "middle";
    if (!this.layout) return;
    for (let row = first; row < first + count; row++) this.drawRow(this.layout.row(row), row * this.side - top);
    if (this.selection) this.drawSelection(top);
  }

  drawRow(row, y) {
    const { pen, ink } = this;
    if (row.title) {
      pen.fillStyle = row.section.isMissing ? ink.bad : ink.text;
      pen.fillText(row.title, 6, y + this.side / 2 - 1);
    } else if (row.ghost) {
      this.drawGhost(row.ghost, y);
    } else {
      pen.fillStyle = ink.dim;
      pen.textAlign = "right";
      pen.fillText(grouped(row.first - row.section.first), this.left - 6, y + this.side / 2 + 1);
      pen.textAlign = "left";
      for (let i = 0; i < row.count; i++) this.drawCell(row.first + i, this.left + i * this.side, y);
    }
  }

  drawCell(at, x, y) {
    const { pen, ink } = this, mark = this.map.marks[at], kind = this.kind(at), side = this.side - GAP;
    // (a pointer that was not looked at is hollow: its word is used all the same)
    const isHollow = kind === UNUSED || kind === POINTER && !(mark & LOOKED);
    pen.fillStyle = mark & TWICE ? this.twice : isHollow ? ink.panel : this.colours[kind];
    pen.fillRect(x, y, side, side);
    if (isHollow) {
      pen.strokeStyle = kind === UNUSED ? ink["cell-line"] : this.colours[kind];
      pen.lineWidth = 1;
      pen.strokeRect(x + 0.5, y + 0.5, side - 1, side - 1);
    } else if (kind === UNSEEN) {
      this.line(ink["cell-line"], 1, [[x + 2, y + side - 2], [x + side - 2, y + 2]]);
    } else if (kind === VALUE && !(mark & TWICE)) {
      // (not by its colour alone)
      pen.fillStyle = ink.panel;
      pen.fillRect(x + 2, y + side / 2 - 1, side - 4, 2);
    }
    if (this.difference && isDiffering(this.difference.words, at)) this.dot(x, y, side);
  }

  /** A mark that is seen on each colour. */
  dot(x, y, side) {
    const { pen, ink } = this, inset = Math.floor(side / 2) - 2;
    pen.fillStyle = ink.panel;
    pen.fillRect(x + inset - 1, y + inset - 1, side - 2 * inset + 2, side - 2 * inset + 2);
    pen.fillStyle = ink.text;
    pen.fillRect(x + inset, y + inset, side - 2 * inset, side - 2 * inset);
  }

  line(colour, width, points) {
    const { pen } = this;
    pen.strokeStyle = colour;
    pen.lineWidth = width;
    pen.beginPath();
    points.forEach(([x, y], i) => (i ? pen.lineTo(x, y) : pen.moveTo(x, y)));
    pen.stroke();
  }

  /** Words that the refused pointer names and that don't exist. */
  drawGhost(ghost, y) {
    const { pen, ink } = this, gap = gapText(ghost), x = this.ghostLeft(ghost);
    pen.fillStyle = pen.strokeStyle = ink.bad;
    pen.fillText(gap, this.left, y + this.side / 2 + 1);
    pen.lineWidth = 1;
    pen.setLineDash([3, 2]);
    const side = this.side - GAP - 2;
    for (let i = 0; i < ghost.shown; i++) pen.strokeRect(x + i * this.side + 0.5, y + 0.5, side, side);
    pen.setLineDash([]);
    const rest = ghost.words - ghost.shown, text = `${ghost.what}${rest ? `, ${grouped(rest)} words more` : ""}`;
    pen.fillText(text, x + ghost.shown * this.side + 4, y + this.side / 2 + 1);
  }

  /** Where the cells of words that don't exist begin. */
  ghostLeft(ghost) {
    return this.left + (ghost.gap ? this.pen.measureText(gapText(ghost)).width + 4 : 0);
  }

  /** The middle of a word's cell on the screen. */
  centre(at, top) {
    const section = this.layout.sectionOf(at), column = (at - section.first) % this.columns, half = (this.side - GAP) / 2;
    return [this.left + column * this.side + half, this.layout.rowOf(at) * this.side - top + half];
  }

  drawSelection(top) {
    const { selection, ink, explanation } = this, { chain, target, pads, at, isRefused } = selection;
    const colour = isRefused ? ink.bad : ink.accent;
    if (target) this.outline(target.start, target.words, top, colour);
    for (const pad of pads) this.ring(pad, top, ink.text, 1.5);
    const way = chain.map((it) => this.centre(it, top));
    for (let i = 1; i < way.length; i++) this.link(way[i - 1], way[i], ink.text, 1);
    for (const it of chain.slice(0, -1)) this.ring(it, top, ink.text, 1.5);
    const fault = explanation?.at ?? this.difference?.at;
    if (fault !== undefined && fault !== null) this.ring(fault, top, ink.bad, 2);
    const after = [at, ...pads.slice(0, 1), ...(target?.words && !selection.isElement ? [target.start] : [])];
    const ghost = isRefused ? this.ghostRow() : null;
    this.links([...after.map((it) => this.centre(it, top)), ...(ghost ? [this.ghostCentre(ghost, top)] : [])], colour);
    this.edgeText(after, ghost, top, colour);
    this.ring(at, top, ink.panel, 4);
    this.ring(at, top, colour, 2);
  }

  /** Arcs from place to place, with an arrow at the last. */
  links(after, colour) {
    for (let i = 1; i < after.length; i++) this.link(after[i - 1], after[i], colour, 1.5, i === after.length - 1);
  }

  /** The row of the first word that doesn't exist, and its number, or null. */
  ghostRow() {
    const { ghostRow } = this.layout;
    return ghostRow < 0 ? null : { ...this.layout.row(ghostRow), number: ghostRow };
  }

  /** The middle of the first cell of that row. */
  ghostCentre({ ghost, number }, top) {
    const half = this.side / 2;
    return [this.ghostLeft(ghost) + half, number * this.side - top + half];
  }

  /** Says where the last arrow leads, at the edge where it leaves the view. */
  edgeText(after, ghost, top, colour) {
    const { pen, scroller, view, ink } = this, last = after[after.length - 1], from = ghost ? last : after[after.length - 2];
    if (from === undefined) return;
    const [x1, y1] = this.centre(from, top), [x2, y2] = ghost ? this.ghostCentre(ghost, top) : this.centre(last, top);
    const isBelow = y2 > scroller.height;
    if (!isBelow && y2 > 0) return;
    const text = `${isBelow ? "↓" : "↑"} ${ghost ? ghostText(ghost) : this.message.place(last)}`;
    const y = isBelow ? scroller.height - 8 : 8;
    const { width } = pen.measureText(text), crossing = x1 + (x2 - x1) * (y - y1) / (y2 - y1);
    const x = Math.max(4, Math.min(crossing + 12, view.clientWidth - width - 8));
    pen.fillStyle = ink.panel;
    pen.fillRect(x - 3, y - 7, width + 6, 14);
    pen.fillStyle = colour;
    pen.fillText(text, x, y);
  }

  /** An arc from one place to another, with an arrow at its end. */
  link([x1, y1], [x2, y2], colour, width, isArrow = false) {
    const { pen } = this, length = Math.hypot(x2 - x1, y2 - y1) || 1, bend = Math.min(24, length / 6);
    const x = (x1 + x2) / 2 + (y2 - y1) / length * bend, y = (y1 + y2) / 2 - (x2 - x1) / length * bend;
    pen.strokeStyle = colour;
    pen.lineWidth = width;
    pen.beginPath();
    pen.moveTo(x1, y1);
    pen.quadraticCurveTo(x, y, x2, y2);
    pen.stroke();
    if (!isArrow) return;
    const angle = Math.atan2(y2 - y, x2 - x), wing = (turn) => [x2 - 7 * Math.cos(angle + turn), y2 - 7 * Math.sin(angle + turn)];
    this.line(colour, width, [wing(0.45), [x2, y2], wing(-0.45)]);
  }

  ring(at, top, colour, width) {
    const [x, y] = this.centre(at, top), side = this.side - GAP;
    this.pen.strokeStyle = colour;
    this.pen.lineWidth = width;
    this.pen.strokeRect(x - side / 2 - 0.5, y - side / 2 - 0.5, side + 1, side + 1);
  }

  /** The edges of a run of words, where they are seen. */
  outline(start, words, top, colour) {
    const { pen, columns, layout } = this, section = layout.sectionOf(start), end = start + words;
    if (!words || !section) return;
    const firstRow = Math.max(layout.rowOf(start), Math.floor(top / this.side));
    const lastRow = Math.min(layout.rowOf(end - 1), Math.ceil((top + this.scroller.height) / this.side));
    pen.strokeStyle = colour;
    pen.lineWidth = 1.5;
    pen.beginPath();
    for (let row = firstRow; row <= lastRow; row++) {
      const first = section.first + (row - section.firstCells) * columns, y = row * this.side - top - 0.5;
      const from = Math.max(first, start), to = Math.min(first + columns, end);
      const x = (at) => this.left + (at - first) * this.side - 0.5;
      const edge = (x1, y1, x2, y2) => { pen.moveTo(x1, y1); pen.lineTo(x2, y2); };
      const above = Math.max(from, Math.min(to, start + columns)), below = Math.max(from, Math.min(to, end - columns));
      edge(x(from), y, x(above), y);
      edge(x(below), y + this.side, x(to), y + this.side);
      edge(x(from), y, x(from), y + this.side);
      edge(x(to), y, x(to), y + this.side);
    }
    pen.stroke();
  }

  click(event) {
    const row = this.scroller.rowAt(event.clientY);
    if (!this.layout || row >= this.layout.rows) return;
    const it = this.layout.row(row), x = event.clientX - this.view.getBoundingClientRect().left - this.left;
    const column = Math.floor(x / this.side);
    if (it.count && column >= 0 && column < it.count) this.select(it.first + column);
    else if (it.ghost && this.explanation) this.select(this.explanation.at);
  }

  key(event) {
    if (!this.message || event.ctrlKey || event.altKey || event.metaKey) return;
    const at = this.selection?.at ?? 0, page = this.scroller.rowsOfPage * this.columns, last = this.message.total - 1;
    const moves = { ArrowLeft: at - 1, ArrowRight: at + 1, ArrowUp: at - this.columns, ArrowDown: at + this.columns,
      PageUp: at - page, PageDown: at + page, Home: 0, End: last };
    if (!(event.key in moves)) return;
    event.preventDefault();
    this.select(Math.max(0, Math.min(last, moves[event.key])));
  }
}

/** Where the words that don't exist would be. */
function ghostText({ section, ghost }) {
  if (section.isMissing) return `${section.name} does not exist`;
  return `${ghost.what}, ${ghost.start < 0 ? "before the start" : "after the end"} of ${section.name}`;
}

function gapText(ghost) {
  return ghost.gap ? `⋯ ${grouped(ghost.gap)} more ⋯ ` : "";
}
