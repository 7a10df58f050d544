// The keys, and the colours of words.

import { $, make } from "./dom.js";
import { grouped } from "../format/pointer.js";
import { DATA, PAD, POINTER, SURPLUS, TAG, VALUE } from "../format/walk.js";

const NAMES = [["table", "segment table"], ["root", "root pointer"], ["pointer", "pointer"], ["data", "data of a struct"],
  ["value", "values of a list"], ["tag", "tag of a list of structs"], ["pad", "landing pad"], ["surplus", "after the last element"],
  ["unused", "unused"], ["unseen", "not looked at"], ["twice", "used twice"], ["differs", "not as in the canonical copy"]];
/** The colours that the legend of a message may have, with their kinds of words. */
const COUNTED = { pointer: POINTER, data: DATA, value: VALUE, tag: TAG, pad: PAD, surplus: SURPLUS };

const MOVES = [[["↑", "↓", "←", "→"], "Move. In the tree → opens a node and ← closes it"],
  [["Page Up", "Page Down", "Home", "End"], "Move further"]];

/** Shows the colours of the kinds that a message has, with how many words have each. */
export function showLegend(counts, isPartial, difference = null) {
  const amounts = { [isPartial ? "unseen" : "unused"]: counts.unused, twice: counts.twice, differs: difference?.words.count };
  for (const [name, kind] of Object.entries(COUNTED)) amounts[name] = counts.kinds[kind];
  $("legend").replaceChildren(...NAMES.filter(([name]) => amounts[name]).map(([name, text]) => (
    entry(name, SHORT[name] ?? name, `${text}: ${grouped(amounts[name])} words`))));
}

const SHORT = { unseen: "not looked at", twice: "used twice", differs: "not canonical" };

function entry(name, text, title = "") {
  return make("span", { className: "entry", title }, make("i", { className: `k-${name}`, "aria-hidden": "true" }), text);
}

export function showHelp(keys) {
  const named = Object.entries(keys).filter(([, [text]]) => text).map(([key, [text]]) => [[key], text]);
  const pair = ([all, text]) => [make("dt", {}, ...all.flatMap((key) => [make("kbd", {}, key), " "])), make("dd", {}, text)];
  $("keys").replaceChildren(...[...MOVES, ...named].flatMap(pair));
  $("colours").replaceChildren(...NAMES.map(([name, text]) => entry(name, text)));
}
