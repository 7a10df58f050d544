// What a selected word is: the way to it from the root, and what it leads to.

import { Found, POINTERS, STRUCT, STRUCTS, follow, foundText } from "./pointer.js";
import { KIND, LOOKED, PAD, TABLE } from "./walk.js";

/** The steps inside an object to one of its words, and the label of an own word of the object or of its element. */
function inside(message, found, at) {
  const start = message.starts[found.segment] + found.start;
  if (found.kind === POINTERS) return { steps: [{ label: `i${at - start}`, at }], detail: null };
  if (found.kind === STRUCT) return inStruct(found, at, start);
  if (found.kind !== STRUCTS) return { steps: [], detail: `w${at - start}` };
  if (at === start) return { steps: [], detail: "tag" };
  const step = found.data + found.pointers, index = step ? Math.floor((at - start - 1) / step) : 0;
  if (!step || index >= found.size) return { steps: [], detail: "surplus" };
  const first = start + 1 + index * step, { steps, detail } = inStruct(found, at, first);
  return { steps: [{ label: `i${index}`, at: first }, ...steps], detail };
}

function inStruct(found, at, start) {
  const index = at - start;
  if (index < found.data) return { steps: [], detail: `d${index}` };
  return { steps: [{ label: `p${index - found.data}`, at }], detail: null };
}

/** What the pointer of an object leads to. */
function foundOf(message, at) {
  const found = new Found();
  follow(message, at, message.segmentOf(at), found);
  return found;
}

/** The steps to an object, by the first pointers in preorder, and then to one of its words. */
function wayTo(message, map, owner, at) {
  if (owner === 1) return { steps: [], detail: null };
  const pointerAt = map.pointerAt[owner], outer = wayTo(message, map, map.parent[owner], pointerAt);
  if (at === null) return outer;
  const { steps, detail } = inside(message, foundOf(message, pointerAt), at);
  return { steps: [...outer.steps, ...steps], detail };
}

/**
 * What the page shows of a word: `steps` from the root, `detail` for a word that is no node, `chain` with the words of the
 * pointers on the way, `pads`, and `target` with the first word and the number of words that it leads to.
 */
export function selectionOf(message, map, explanation, at, steps = null, detail = null) {
  const kind = map.marks[at] & KIND, owner = map.owners[at], isRefused = explanation !== null && explanation.at === at && !detail;
  if (!steps && isRefused) {
    steps = explanation.steps;
  } else if (!steps && kind === PAD) {
    ({ steps } = wayTo(message, map, owner, null));
    detail = "landing pad";
  } else if (!steps && owner) {
    ({ steps, detail } = wayTo(message, map, owner, at));
  } else if (!steps) {
    detail = kind === TABLE ? "segment table" : null;
  }
  const selection = { at, steps, detail, isRefused, pads: [], target: null, text: null };
  if (steps && !detail) lead(message, map, explanation, selection);
  selection.chain = steps ? [message.starts[0], ...steps.map((step) => step.at)] : [];
  if (!selection.chain.includes(at)) selection.chain.push(at);
  selection.chainSet = new Set(selection.chain);
  return selection;
}

/** What the node at the end of the steps leads to. */
function lead(message, map, explanation, selection) {
  const { at, steps, isRefused } = selection;
  if (isRefused) {
    selection.pads = explanation.pads;
    selection.target = clipped(message, explanation.target);
    return;
  }
  const element = elementOf(message, steps);
  if (element) {
    selection.target = { start: at, words: element.data + element.pointers };
    selection.text = foundText(Object.assign(new Found(), { kind: STRUCT, data: element.data, pointers: element.pointers }));
    selection.isElement = true;
    return;
  }
  if (!(map.marks[at] & LOOKED)) return;
  const found = new Found(), reason = follow(message, at, message.segmentOf(at), found);
  if (reason) return;
  selection.pads = message.padsOf(found);
  selection.text = foundText(found);
  selection.found = found;
  if (found.kind >= STRUCT) selection.target = { start: message.starts[found.segment] + found.start, words: found.words };
}

/** The list of structs whose element the steps lead to, or null. */
function elementOf(message, steps) {
  const last = steps.at(-1);
  if (!last || last.label[0] !== "i") return null;
  const list = foundOf(message, steps.length > 1 ? steps.at(-2).at : message.starts[0]);
  return list.kind === STRUCTS ? list : null;
}

/** The part of a target that exists. */
function clipped(message, target) {
  if (!target || target.segment >= message.sizes.length) return null;
  const start = Math.max(0, target.start), end = Math.min(message.sizes[target.segment], target.start + target.words);
  return end > start ? { start: message.starts[target.segment] + start, words: end - start } : null;
}
