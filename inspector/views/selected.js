// The strip with the way to the selected word, and what it is.

import { $, make } from "./dom.js";
import { isDiffering } from "../format/difference.js";
import { Node } from "../format/nodes.js";
import { allNumbers } from "../format/numbers.js";
import { grouped } from "../format/pointer.js";
import { pathOf } from "../format/refusal.js";
import { KIND, LOOKED, TWICE, UNUSED } from "../format/walk.js";

const DETAILS = { d: "data", w: "values", t: "tag of a list of structs" };

/** Shows a selection of a message. `select` is called with a word of the way, and the steps to it. */
export function showSelection(selection, shown, select) {
  const { message } = shown, { at, steps, detail } = selection;
  const crumbs = steps ? [{ label: "root", at: message.starts[0] }, ...steps] : [];
  $("crumbs").replaceChildren(...crumbs.map((step, i) => make("button", {
    type: "button", className: i === crumbs.length - 1 && !detail ? "here" : "", onclick: () => select(step.at, steps.slice(0, i)),
    "aria-label": `Go to ${pathOf(steps.slice(0, i))}`,
  }, step.label)), detail ? make("span", { className: "here" }, detail) : "");
  $("path").value = steps ? pathOf(steps) : "";
  $("selected").replaceChildren(...textOf(selection, shown));
  $("follow").disabled = !selection.target?.words && !selection.pads.length;
  showNumbers(selection, message);
  $("crumbs").lastElementChild?.scrollIntoView({ block: "nearest", inline: "end" });
}

/** Shows the numbers that a word may be, if they are asked for. */
export function showNumbers(selection, message) {
  if (!$("numbers").open || !selection) return;
  const pairs = allNumbers(message.word(selection.at));
  $("numbers").lastElementChild.replaceChildren(...pairs.map(([name, text]) => (
    make("div", { className: text.length > 20 ? "long" : "" }, make("dt", {}, name), make("dd", {}, text)))));
}

/** What a selection is, in words. */
function textOf({ at, isRefused, target, pads, text, isElement, detail }, shown) {
  const { message, map: words, explanation, difference, offset, isPacked, isPartial } = shown;
  const mark = words.marks[at], ofInput = `${grouped(8 * at + offset)} of the input`;
  if (message.isRest) return [make("b", {}, message.place(at)), ` byte ${ofInput}`];
  const parts = [make("b", {}, message.place(at)), ` byte ${grouped(8 * at)} of the message`];
  if (!isPacked && offset) parts.push(`, ${ofInput}`);
  if (isRefused) return [...parts, "  ", make("strong", {}, `refused: ${explanation.reason}`)];
  if (text) parts.push(`  ${text}`);
  if (target?.words && !isElement) parts.push(` → ${message.place(target.start)}${pads.length ? " through a landing pad" : ""}`);
  const guess = text && !isElement && mark & LOOKED ? Node.pointer(message, at, message.segmentOf(at)).guess : null;
  if (guess) parts.push("  ", make("q", {}, guess));
  if (detail && !text) parts.push(`  ${DETAILS[detail[0]] ?? detail}`);
  if (!text && !detail && (mark & KIND) === UNUSED) parts.push(isPartial ? "  not looked at" : "  unused");
  if (mark & TWICE) parts.push("  ", make("em", {}, "used twice"));
  if (difference?.at === at) parts.push("  ", make("strong", {}, `not canonical: ${difference.reason}`));
  else if (difference && isDiffering(difference.words, at)) parts.push("  not as in the canonical copy");
  return parts;
}
