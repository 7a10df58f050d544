// The verdict of the chosen message: why it is refused, or the numbers of its words.

import { $, make } from "./dom.js";
import { lineOf } from "./verdicts.js";
import { amount, grouped } from "../format/pointer.js";
import { explainedStop } from "../format/refusal.js";

/** Shows the verdict. `select` is called with the word of a fact. */
export function showVerdict(shown, select) {
  const { explanation, verdict } = shown;
  $("line").textContent = lineOf(verdict);
  $("verdict-panel").classList.toggle("bad", explanation !== null);
  $("verdict-panel").classList.toggle("good", explanation === null);
  $("save-canonical").disabled = true;
  $("save-packed").disabled = !shown.limits.hasTable;
  $("verdict").replaceChildren(...(explanation ? refused(explanation, shown, select) : accepted(shown)));
}

/** Shows why an input stops being messages. */
export function showStop(rest) {
  const { sentence, facts } = explainedStop(rest);
  $("line").textContent = rest.text;
  $("verdict-panel").classList.remove("good");
  $("verdict-panel").classList.add("bad");
  $("verdict").replaceChildren(make("p", { className: "title" }, make("b", {}, rest.reason), ` at byte ${grouped(rest.offset)} of the input`),
    make("p", { className: "sentence" }, sentence), factList(facts.map((it) => ({ ...it, at: null }))));
}

function refused(explanation, { counts, message, offset, isPacked, isPartial }, select) {
  const { path, sentence, facts, at } = explanation, unseen = counts.unused;
  const place = path === null ? [] : [" at ", code(shortened(path), () => select(at))];
  const title = make("p", { className: "title" }, make("b", {}, explanation.reason), ...place);
  const rows = [...facts];
  // (packed input has no such byte)
  const ofInput = isPacked ? "" : `, ${grouped(8 * at + offset)} of the input`;
  if (at !== null) rows.unshift({ name: "byte", text: `${grouped(8 * at)} of the message${ofInput}`, at });
  const unseenText = `${amount(unseen, "word")} of ${grouped(message.words)}`;
  if (isPartial && unseen) rows.push({ name: "not looked at", text: unseenText, at: null });
  return [title, make("p", { className: "sentence" }, sentence), factList(rows, select)];
}

/** A path without the steps in its middle, if there are many. */
function shortened(path) {
  const steps = path.split("/").slice(1);
  return steps.length > 16 ? `/${steps.slice(0, 6).join("/")}/…/${steps.slice(-6).join("/")} (${steps.length} steps)` : path;
}

function code(text, onclick) {
  return make("button", { type: "button", className: "code", onclick }, text);
}

function factList(facts, select) {
  return make("dl", { className: "facts" }, ...facts.flatMap(({ name, text, at }) => [make("dt", {}, name),
    make("dd", {}, at === null ? text : code(text, () => select(at)))]));
}

function accepted({ verdict, counts, message }) {
  const { charge, depth, pointers, caps } = verdict;
  const numbers = { charge, depth, pointers, capabilities: caps, segments: message.sizes.length, words: message.words,
    unused: counts.unused, "used twice": counts.twice };
  const figure = ([name, value]) => {
    const id = `number-${name.replace(" ", "-")}`;
    return make("div", {}, make("dt", {}, name), make("dd", { id }, grouped(value)));
  };
  return [make("p", { className: "title" }, make("b", {}, "Accepted")),
    make("dl", { className: "figures" }, ...Object.entries(numbers).map(figure)),
    make("dl", { className: "facts", id: "canonical" }, make("dt", {}, "canonical"), make("dd", {}, "…"))];
}

/** Shows what is known of the canonical form. `select` is called with the word of the first difference. */
export function showCanonical({ words, hash, difference }, { message }, select) {
  $("save-canonical").disabled = words === null;
  const rows = difference ? [...differing(difference, message, select), ["canonical copy", copyText(words, message)]] : [["canonical", "yes"]];
  $("canonical").replaceChildren(...rows.flatMap(([name, ...said]) => [make("dt", {}, name), make("dd", {}, ...said)]));
  if (words === null) return;
  const shown = hash ?? "not available: open the page as a file or by https";
  $("canonical").append(make("dt", {}, "SHA-256"), make("dd", { className: "hash", id: "hash" }, shown));
}

function copyText(words, message) {
  if (words === null) return "none: the message has a capability";
  const saved = message.words - words;
  return `${amount(words, "word")}${saved ? `, ${grouped(Math.abs(saved))} ${saved > 0 ? "fewer" : "more"}` : ""}`;
}

/** The rows about the first difference. */
function differing({ reason, path, sentence, at, words }, message, select) {
  const { start, count, step } = words, last = start + (count - 1) * step;
  const place = [code(message.place(at), () => select(at)), ...(path === null ? [] : [", path ", code(shortened(path), () => select(at))])];
  const range = count > 1 ? `${message.place(start)} to ${message.place(last)}` : message.place(start);
  return [["canonical", "no: ", make("b", {}, reason), " at ", ...place], ["why", make("span", { className: "why" }, sentence)],
    ["differs", code(range, () => select(start)), `, ${amount(count, "word")}`]];
}
