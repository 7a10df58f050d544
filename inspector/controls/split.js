// Lines between views, by which their sizes change: with the mouse, or with the arrow keys.

import { $ } from "../views/dom.js";

const LEAST = 10, STEP = 2;

/** Each line: the views before and after it, whether it moves up and down, and what it sets. */
const LINES = [
  { id: "split-list", views: ["messages-panel", "verdict-panel"], set: (part) => [["--list", `${part}%`]] },
  { id: "split-tree", views: ["tree-panel", "map-panel"], set: (part) => [["--tree", `${part}fr`], ["--beside-tree", `${100 - part}fr`]] },
  { id: "split-map", views: ["map-panel", "bytes-panel"], isRow: true, set: (part) => [["--map", `${part}fr`], ["--bytes", `${100 - part}fr`]] },
];

function startLine({ id, views, isRow = false, set }) {
  const line = $(id), box = (view) => $(view).getBoundingClientRect(), [near, far] = isRow ? ["top", "bottom"] : ["left", "right"];
  /** What part of both views the first one has. */
  const partAt = (place) => 100 * (place - box(views[0])[near]) / (box(views[1])[far] - box(views[0])[near]);
  const move = (part) => {
    const kept = Math.round(10 * Math.max(LEAST, Math.min(100 - LEAST, part))) / 10;
    for (const [name, value] of set(kept)) document.querySelector("main").style.setProperty(name, value);
    line.setAttribute("aria-valuenow", String(Math.round(kept)));
  };
  const placeOf = (event) => (isRow ? event.clientY : event.clientX);
  let held = 0;
  line.addEventListener("pointerdown", (event) => {
    held = placeOf(event) - box(views[0])[far];
    line.setPointerCapture(event.pointerId);
    event.preventDefault();
    line.focus();
  });
  line.addEventListener("pointermove", (event) => { if (line.hasPointerCapture(event.pointerId)) move(partAt(placeOf(event) - held)); });
  line.addEventListener("keydown", (event) => {
    const steps = isRow ? { ArrowUp: -STEP, ArrowDown: STEP } : { ArrowLeft: -STEP, ArrowRight: STEP };
    if (!(event.key in steps)) return;
    event.preventDefault();
    move(partAt(box(views[0])[far]) + steps[event.key]);
  });
  line.addEventListener("focus", () => line.setAttribute("aria-valuenow", String(Math.round(partAt(box(views[0])[far])))));
}

export function startLines() {
  LINES.forEach(startLine);
}
