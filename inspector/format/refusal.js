// Explains a refusal: the lines of the library, the words that they are about, and the way to the refused pointer.

import { Found, STRUCT, follow, pointerText } from "./pointer.js";

/** Reasons of messages that are accepted within other demands. */
const DEMANDS = new Set(["ManySegments", "NullPad", "EmptySegment", "CapabilityPad", "Overlap"]);

/** Reasons that come before the place of the target is known. */
const NO_TARGET = new Set(["NoRoot", "ManySegments", "Reserved", "SegmentMissing", "PadOutside", "PadIsFar", "PadNotFar", "TagKind",
  "TagOffset"]);

/** Lines that the page shows elsewhere. */
const ELSEWHERE = new Set(["path", "byte", "reason"]);

export function isDemand(reason) {
  return DEMANDS.has(reason);
}

export function pathOf(steps) {
  return steps.length ? steps.map((step) => `/${step.label}`).join("") : "/";
}

/** A line of an explanation: its name, which is its first word or one of these, and the rest. */
function lineOf(text) {
  const [, name, rest] = /^ {2}(leads into|charge up to here|\w+):? (.*)$/.exec(text);
  return { name, text: rest };
}

/** What the lines about the end of a stream say: a sentence, and facts. */
export function explainedStop({ lines, said, guess }) {
  const all = lines ? lines.trimEnd().split("\n").map(lineOf) : [], reason = all.find(({ name }) => name === "reason");
  const facts = all.filter(({ name }) => name !== "reason");
  if (guess) facts.push({ name: "guess", text: guess });
  return { sentence: sentenceOf(reason?.text ?? said), facts };
}

/** The words that a refused pointer leads to. */
class Target {
  constructor(message, way, reason) {
    const found = new Found(), { sizes, starts } = message;
    // (what a pointer leads to is read also where only a limit refuses it)
    if (way) follow(message, way.at, way.segment, found);
    const { pads, padSegment, padWord, segment, start, words, kind } = found;
    const hasPad = pads > 0 && padSegment < sizes.length && padWord + pads <= sizes[padSegment];
    this.pads = hasPad ? message.padsOf(found) : [];
    this.missingPad = pads && !hasPad ? { segment: padSegment, start: padWord, words: pads } : null;
    this.range = way && !NO_TARGET.has(reason) && kind >= STRUCT ? { segment, start, words } : null;
    const isInside = this.range && start >= 0 && start + words <= sizes[segment] && words > 0;
    this.first = isInside ? starts[segment] + start : null;
  }

  /** The words that the lines of each name are about, in their order. */
  get named() {
    return { pad: this.pads, target: [this.first], tag: [this.first] };
  }
}

/** The first pointer that is at the same word as an earlier one, or null. */
function circleOf(way) {
  const seen = new Map();
  for (const [number, step] of way.steps.entries()) {
    // (an element begins with its first pointer, if it has no data)
    if (step.isElement) continue;
    if (seen.has(step.at)) return { from: seen.get(step.at), to: number };
    seen.set(step.at, number);
  }
  return null;
}

/** What the library says nothing of: where pointers lead in a circle. */
function circleFacts(message, way) {
  const circle = circleOf(way);
  if (!circle) return [];
  const [first, again] = [circle.from, circle.to].map((number) => pathOf(way.steps.slice(0, number + 1)));
  const { at } = way.steps[circle.from];
  return [{ name: "circle", text: `${again} leads to ${message.place(at)} again, first at ${first}`, at }];
}

/** The lines about an overlap, which the library does not look for. */
function overlapText(message, way, earlier) {
  const used = earlier ? `word ${earlier.place}, which ${earlier.path} uses too` : "a word twice";
  return `  pointer ${message.hex(way.at)} ${pointerText(message.decode(way.at))}\n  reason the pointer uses ${used}\n`;
}

function sentenceOf(reason) {
  return `${reason[0].toUpperCase()}${reason.slice(1)}.`;
}

/**
 * What the page says of a refusal: `path`, a `sentence`, and `facts`, each a name, a text, and the word that it is about or null.
 * `target` and `pad` have the places that the pointer names, also if nothing is there. `way` is where the walk stopped, or null.
 * `text` is what the library says, and `earlier` the earlier pointer of an overlap.
 */
export function explained(message, refusal, way, text, earlier) {
  const { reason } = refusal, lines = (text ?? overlapText(message, way, earlier)).trimEnd().split("\n").map(lineOf);
  const target = new Target(message, way, reason), named = { pointer: [way?.at], ...target.named };
  const facts = lines.filter(({ name }) => !ELSEWHERE.has(name));
  for (const fact of facts) fact.at = named[fact.name]?.shift() ?? null;
  if (way) facts.push(...circleFacts(message, way));
  if (earlier) facts.push({ name: "earlier", text: `${earlier.path} at ${earlier.pointer} uses ${earlier.place} too`, at: earlier.at });
  return {
    reason, sentence: sentenceOf(lines.find(({ name }) => name === "reason").text), facts, pads: target.pads,
    at: way ? way.at : null, steps: way ? way.steps : [], path: way ? pathOf(way.steps) : null,
    text: way ? pointerText(message.decode(way.at)) : "", pad: target.missingPad, target: target.range,
  };
}
