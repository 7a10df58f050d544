// Draws the rows of a long list that are seen. Lists may be higher than what a browser can scroll.

/** Browsers can't scroll more than some ten million pixels. */
const HIGHEST = 8_000_000;
/** Rows are placed from a multiple of this on. */
const PLACED = 1024;

export class Scroller {
  /** `draw(first, count)` returns the elements of these rows, or draws them itself. */
  constructor(view, rowHeight, draw) {
    Object.assign(this, { view, rowHeight, draw, count: 0, top: 0, set: -1, waiting: null });
    this.layer = document.createElement("div");
    this.layer.className = "layer";
    this.layer.setAttribute("role", "presentation");
    this.rows = document.createElement("div");
    this.rows.className = "rows";
    this.rows.setAttribute("role", "presentation");
    this.layer.append(this.rows);
    this.space = document.createElement("div");
    this.space.className = "space";
    view.append(this.layer, this.space);
    view.addEventListener("scroll", () => this.scrolled(), { passive: true });
    view.addEventListener("wheel", (event) => this.wheeled(event), { passive: false });
    new ResizeObserver(() => this.resize()).observe(view);
  }

  get height() {
    return this.view.clientHeight;
  }

  /** The greatest top in pixels of the whole list, and of what the browser scrolls. */
  get most() {
    return Math.max(0, this.count * this.rowHeight - this.height);
  }

  get mostScrolled() {
    return Math.max(0, Math.min(HIGHEST, this.count * this.rowHeight) - this.height);
  }

  get isScaled() {
    return this.count * this.rowHeight > HIGHEST;
  }

  resize(count = this.count) {
    this.count = count;
    if (!this.height) return;
    this.space.style.height = `${this.mostScrolled}px`;
    this.layer.style.height = `${this.height}px`;
    this.moveTo(this.top);
    if (this.waiting) this.reveal(...this.waiting);
  }

  scrolled() {
    const at = this.view.scrollTop;
    if (!this.height || Math.abs(at - this.set) < 1) return;
    this.set = at;
    this.top = this.isScaled ? at / this.mostScrolled * this.most : at;
    this.paint();
  }

  wheeled(event) {
    if (!this.isScaled || event.ctrlKey || event.deltaY === 0) return;
    event.preventDefault();
    this.moveTo(this.top + event.deltaY * (event.deltaMode === 1 ? this.rowHeight : 1));
  }

  moveTo(top) {
    // (a view that isn't shown can't scroll)
    if (!this.height) {
      this.top = top;
      return;
    }
    this.top = Math.max(0, Math.min(this.most, top));
    this.view.scrollTop = this.isScaled ? this.top / this.most * this.mostScrolled : this.top;
    this.set = this.view.scrollTop;
    if (!this.isScaled) this.top = this.set;
    this.paint();
  }

  /** Makes a row visible, with some rows around it. A row that is far away comes to the upper third. */
  reveal(row, around = 2) {
    this.waiting = this.height ? null : [row, around];
    if (this.waiting) return;
    const y = row * this.rowHeight, margin = Math.min(around * this.rowHeight, this.height / 3);
    if (y < this.top - this.height / 2 || y > this.top + 1.5 * this.height) return this.moveTo(y - this.height / 3);
    if (y - margin < this.top) this.moveTo(y - margin);
    else if (y + this.rowHeight + margin > this.top + this.height) this.moveTo(y + this.rowHeight + margin - this.height);
    else this.paint();
  }

  get rowsOfPage() {
    return Math.max(1, Math.floor(this.height / this.rowHeight) - 1);
  }

  paint() {
    if (this.waits) return;
    this.waits = true;
    requestAnimationFrame(() => this.paintNow());
  }

  paintNow() {
    this.waits = false;
    const first = Math.floor(this.top / this.rowHeight), count = Math.ceil(this.height / this.rowHeight) + 1;
    const rows = this.draw(first, Math.min(count, this.count - first), this.top);
    if (!rows) return;
    // (no row moves while others come into view)
    const base = first - first % PLACED;
    rows.forEach((row, i) => { row.style.transform = `translateY(${(first + i - base) * this.rowHeight}px)`; });
    this.rows.style.transform = `translateY(${base * this.rowHeight - this.top}px)`;
    this.put(rows);
  }

  /** Shows rows. One that is there already stays, with what is selected of its text. */
  put(rows) {
    const before = new Map(Array.from(this.rows.children, (it) => [it.outerHTML, it]));
    const shown = rows.map((row) => before.get(row.outerHTML) ?? row), stays = new Set(shown);
    for (const it of before.values()) if (!stays.has(it)) it.remove();
    shown.forEach((it, i) => { if (this.rows.children[i] !== it) this.rows.insertBefore(it, this.rows.children[i] ?? null); });
  }

  /** The row at a place of the screen. */
  rowAt(clientY) {
    return Math.floor((clientY - this.view.getBoundingClientRect().top - this.view.clientTop + this.top) / this.rowHeight);
  }
}
