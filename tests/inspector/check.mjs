// Compares what the page finds out by itself with the program's verdicts: check.mjs FILE
//
// Each line of FILE is a JSON object: `hex`, the message; `lines`, by `vet`, `vet --strict` and `vet --exclusive`, each a verdict;
// `texts`, the lines that `explain` adds to each; `uses`, how many words nothing uses and how many are used twice, or null if it is refused;
// `first`, the first difference of an accepted message from its canonical copy, or null if it has none. The last line is how many checks
// passed and how many failed.
import { readFileSync } from "node:fs";
import { explainedDifference, isDiffering } from "../../inspector/format/difference.js";
import { Message } from "../../inspector/format/message.js";
import { Node, parsePath } from "../../inspector/format/nodes.js";
import { Found, follow, laxForm } from "../../inspector/format/pointer.js";
import { explained } from "../../inspector/format/refusal.js";
import { selectionOf } from "../../inspector/format/selection.js";
import { KIND, LOOKED, PAD, SURPLUS, TABLE, TAG, TWICE, UNUSED, VALUE, WordMap, walk } from "../../inspector/format/walk.js";

const LIMITS = { words: 8388608, charge: 8388608, depth: 64, isStrict: false, isUnamplified: false };
// (these are about limits, or about no pointer)
const OTHERS = new Set(["DepthLimit", "WordLimit", "NoRoot", "ManySegments", "Overlap"]);
let passed = 0, failed = 0;

function check(name, holds, it) {
  if (holds) passed++;
  else if (failed++ < 5) console.log(`FAILED: ${name}\n${it.hex} ${JSON.stringify(it.lines)}`);
}

function result(steps) {
  let step = steps.next();
  while (!step.done) step = steps.next();
  return step.value;
}

function followed(message, way) {
  const found = new Found(), reason = follow(message, way.at, way.segment, found);
  return { found, reason };
}

/** The node to which a path leads, step by step. */
function nodeAt(message, path) {
  let node = Node.root(message);
  for (const label of parsePath(path).labels) node = node.child(node.indexOf(label));
  return node;
}

/** A path as a line has it: of more than 24 steps the first and the last 8. */
function shown(path) {
  const steps = path.split("/").slice(1);
  if (steps.length <= 24) return path;
  return `/${steps.slice(0, 8).join("/")}/.. ${steps.length - 16} steps ../${steps.slice(-8).join("/")}`;
}

function wordAt(message, path) {
  return nodeAt(message, path).at;
}

/** Whether two paths lead to one pointer. */
function isCircle(message, { text, at }) {
  const [, ...paths] = /^(\S+) leads to \S+ again, first at (\S+)$/.exec(text), nodes = paths.map((path) => nodeAt(message, path));
  return nodes.every((node) => node.at === at && !node.isElement);
}

function checkAccepted(it, message, { charge, pointers }) {
  const way = result(walk(message, { last: pointers })), { found, reason } = followed(message, way);
  check("the charge", reason === null && way.charge + found.charge === charge, it);
  check("the pointers", result(walk(message, { last: pointers + 1 })) === null, it);
  const map = new WordMap(message);
  result(walk(message, { isOnce: true, map }));
  const marks = [...map.marks], unused = marks.filter((mark) => (mark & KIND) === UNUSED).length;
  check("the words", JSON.stringify([unused, marks.filter((mark) => mark & TWICE).length]) === JSON.stringify(it.uses), it);
  check("the table", marks.filter((mark) => (mark & KIND) === TABLE).length === message.table, it);
  if (it.first) checkDifference(it, message, map);
  for (let at = message.table; at < message.total; at++) {
    const { steps, detail } = selectionOf(message, map, null, at);
    if (steps === null || detail || !(map.marks[at] & LOOKED)) continue;
    check(`the way to ${message.place(at)}`, wordAt(message, steps.map((step) => `/${step.label}`).join("") || "/") === at, it);
  }
}

/** What holds of each word that differs, by the reason. */
const DIFFERS = {
  Segments: ({ kind }) => kind === TABLE,
  Far: ({ kind, isTwice }) => kind === PAD || isTwice,
  Capability: ({ form }) => form === "capability",
  EmptyStruct: ({ form, hex }) => form === "struct" && hex.endsWith("00000000") && hex !== "fcffffff00000000",
  Place: ({ kind, isPointer }) => kind !== UNUSED && kind !== TABLE || isPointer,
  Bits: ({ kind, hex }) => kind === VALUE && hex !== "0".repeat(16),
  EmptyList: ({ kind, hex }) => kind === TAG && hex.startsWith("00000000") && hex !== "0".repeat(16),
  Surplus: ({ kind, isTwice }) => kind === SURPLUS || isTwice,
  DataZero: ({ hex }) => hex === "0".repeat(16),
  PointerNull: ({ form }) => form === "null" || form === "far",
  Trailing: ({ kind }) => kind === UNUSED,
};

/** The words that differ are those that the reason is about. */
function checkDifference(it, message, map) {
  const { reason, position: { segment, word }, path } = it.first, { at, words, sentence } = explainedDifference(message, it.first);
  check("the place of the first difference", message.place(at) === `${segment}:${word}` && (path === null || wordAt(message, path) === at), it);
  const all = Array.from({ length: message.total }, (_, place) => place).filter((place) => isDiffering(words, place));
  check("the words that differ", all.length === words.count && all.length > 0 && all[0] === words.start, it);
  const holds = all.every((place) => DIFFERS[reason]({
    kind: map.marks[place] & KIND, isTwice: (map.marks[place] & TWICE) !== 0, isPointer: place === at, hex: message.hex(place),
    form: message.decode(place).form,
  }));
  check(`each of the words that differ by ${reason}`, holds && sentence.endsWith("."), it);
}

/** What the text of a fact begins with, by the word that it is about. */
function beginning(message, { name, at }) {
  const place = message.place(at), hex = message.hex(at);
  return { pointer: `${hex} `, target: `${place} to `, pad: `${place} ${hex} `, tag: `${place} ${hex} ` }[name] ?? "";
}

function checkRefused(it, message, verdict, text) {
  const { reason, place, pointers } = verdict;
  const way = pointers ? result(walk(message, { last: pointers })) : null;
  const { sentence, facts, path } = explained(message, verdict, way, reason === "Overlap" ? null : text, null);
  const said = `  reason ${sentence[0].toLowerCase()}${sentence.slice(1, -1)}\n`;
  check("the sentence", sentence.endsWith(".") && (reason === "Overlap" || text.endsWith(said)), it);
  if (!way) return;
  const names = facts.filter((fact) => fact.at !== null).map((fact) => fact.name);
  check("the words of the facts", facts.every((fact) => fact.at === null || fact.text.startsWith(beginning(message, fact))), it);
  check("the pointer is a fact", names[0] === "pointer", it);
  const hasFact = (expected) => facts.some(({ name }) => name === expected);
  check("the segment is a fact", reason === "Overlap" || hasFact("leads into"), it);
  check("the charge is a fact", (reason === "WordLimit") === hasFact("charge up to here"), it);
  check("a circle", facts.every((fact) => fact.name !== "circle" || isCircle(message, fact)), it);
  check("each pad is a fact with a word", facts.every(({ name, at }) => name !== "pad" || at !== null), it);
  check("the place", message.place(way.at) === place, it);
  check("the path", wordAt(message, path) === way.at && (reason === "Overlap" || text.startsWith(`  path ${shown(path)}\n`)), it);
  const followedWay = followed(message, way);
  if (!OTHERS.has(reason)) check("the reason", (followedWay.reason ?? laxForm(message, followedWay.found)) === reason, it);
  const charge = way.charge + followedWay.found.charge;
  if (reason === "WordLimit") check("the charge", way.charge <= LIMITS.charge && charge > LIMITS.charge, it);
}

function verdictOf(line) {
  const accepted = /accepted charge (\d+) depth \d+ pointers (\d+)/.exec(line);
  if (accepted) return { charge: Number(accepted[1]), pointers: Number(accepted[2]) };
  const [, reason, place, pointers] = /refused (\w+) at (\S+) pointers (\d+)/.exec(line);
  return { reason, place, pointers: Number(pointers) };
}

for (const text of readFileSync(process.argv[2], "utf8").trimEnd().split("\n")) {
  const it = JSON.parse(text), message = new Message(new Uint8Array(Buffer.from(it.hex, "hex")).slice());
  for (const [number, line] of it.lines.entries()) {
    const verdict = verdictOf(line);
    if (it.lines.indexOf(line) < number) continue;
    if (verdict.reason) checkRefused(it, message, verdict, it.texts[number]);
    else if (it.uses) checkAccepted(it, message, verdict);
  }
}
console.log(`${passed} passed, ${failed} failed`);
