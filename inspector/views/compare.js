// Two messages side by side, where they differ.

import { $, make } from "./dom.js";
import { amount, grouped } from "../format/pointer.js";

/** Shows differences. `go` is called with a path, or with a word of the message on the left. */
export function showDifferences({ rows, isMore, name }, number, go) {
  const many = isMore ? `${grouped(rows.length)} differences or more` : amount(rows.length, "difference");
  $("compared").textContent = rows.length ? many : "There is no difference.";
  $("differences").hidden = !rows.length;
  const head = ["path", `message ${grouped(number)}`, name].map((text) => make("th", { scope: "col" }, text));
  $("differences").replaceChildren(make("thead", {}, make("tr", {}, ...head)), make("tbody", {}, ...rows.map((row) => line(row, go))));
}

function line({ path, left, right, isNode, at }, go) {
  const to = isNode ? path : at ?? null, shown = to === null ? path : make("button", { type: "button", className: "code", onclick: () => go(to) }, path);
  return make("tr", {}, make("th", { scope: "row" }, shown), make("td", {}, left || "nothing"), make("td", {}, right || "nothing"));
}
