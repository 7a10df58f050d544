// The list of messages, with a verdict and the numbers of the tree of each.

import { make, span } from "./dom.js";
import { Scroller } from "./scroller.js";
import { isTextSelected } from "../controls/copy.js";
import { grouped } from "../format/pointer.js";

const HEIGHT = 40;

export class MessageList {
  constructor(view, messages, choose) {
    Object.assign(this, { view, messages, choose, chosen: -1, shown: null });
    this.scroller = new Scroller(view, HEIGHT, (first, count) => this.rows(first, count));
    view.addEventListener("keydown", (event) => this.key(event));
    view.addEventListener("click", (event) => { if (!isTextSelected(view)) this.pick(this.scroller.rowAt(event.clientY)); });
  }

  /** Shows all messages, or the refused ones. */
  filter(isRefusedOnly) {
    this.isRefusedOnly = isRefusedOnly;
    this.update();
  }

  /** There are more messages, or other ones. */
  update() {
    this.shown = this.isRefusedOnly ? this.messages.refused : null;
    this.scroller.resize(this.length);
  }

  get length() {
    return this.shown ? this.shown.length + this.messages.entries - this.messages.count : this.messages.entries;
  }

  number(row) {
    return this.shown ? this.shown[row] ?? this.messages.count : row;
  }

  row(number) {
    return !this.shown ? number : number === this.messages.count ? this.shown.length : this.shown.indexOf(number);
  }

  select(number) {
    this.chosen = number;
    const row = this.row(number);
    this.view.setAttribute("aria-activedescendant", `message-${number}`);
    if (row >= 0) this.scroller.reveal(row, 1);
    else this.scroller.paint();
  }

  pick(row) {
    if (row >= 0 && row < this.length) this.choose(this.number(row));
  }

  key(event) {
    const row = this.row(this.chosen), page = this.scroller.rowsOfPage;
    const moves = { ArrowDown: 1, ArrowUp: -1, PageDown: page, PageUp: -page, Home: -Infinity, End: Infinity };
    if (event.ctrlKey || event.altKey || event.metaKey || !(event.key in moves)) return;
    event.preventDefault();
    this.pick(Math.max(0, Math.min(this.length - 1, row + moves[event.key])));
  }

  rows(first, count) {
    return Array.from({ length: Math.max(0, count) }, (_, i) => this.element(this.number(first + i)));
  }

  element(number) {
    if (number === this.messages.count) return this.restElement(this.messages.rest, number);
    const it = this.messages.get(number), said = it.reason || "accepted";
    const names = ["charge", "depth", "pointers", ...(it.caps ? ["caps"] : [])];
    const numbers = it.reason ? [["at", it.place], ["pointers", grouped(it.pointers)]]
      : names.map((name) => [name, grouped(it[name])]);
    const label = `message ${number}, ${said}, ${numbers.map(([name, value]) => `${name} ${value}`).join(", ")}`;
    return this.entry(number, it.reason ? "refused" : "accepted", label, span("number", grouped(number)), span("said", said),
      span("size", `${grouped(it.length)} B`), span("numbers", ...numbers.flatMap(([name, value]) => [make("i", {}, name), ` ${value} `])));
  }

  /** What follows the last message. */
  restElement({ reason, offset, length }, number) {
    return this.entry(number, "refused", `rest of the input, ${reason}, from byte ${grouped(offset)}`, span("number", "⋯"),
      span("said", reason), span("size", `${grouped(length)} B`), span("numbers", make("i", {}, "no message, from byte"), ` ${grouped(offset)}`));
  }

  entry(number, name, label, ...parts) {
    const isChosen = number === this.chosen;
    return make("div", {
      className: `message ${name}${isChosen ? " chosen" : ""}`, id: `message-${number}`, role: "option", "aria-selected": String(isChosen),
      "aria-setsize": String(this.length), "aria-posinset": String(this.row(number) + 1), "aria-label": label,
    }, ...parts);
  }
}
