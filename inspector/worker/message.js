// What the page shows of one message.

import { packMessage } from "./library.js";
import { explainedDifference } from "../format/difference.js";
import { Message } from "../format/message.js";
import { Found, follow } from "../format/pointer.js";
import { explained, isDemand, pathOf } from "../format/refusal.js";
import { KIND, TABLE, TWICE, UNUSED, WordMap, walk } from "../format/walk.js";
import { vetted } from "./stream.js";

/** Walks a message, with pauses. */
async function walked(message, options, progress) {
  const steps = walk(message, options);
  for (let step = steps.next(); ; step = steps.next()) {
    if (step.done) return step.value;
    await progress(step.value);
  }
}

/** The map of a message, the lines that explain its refusal, and what the page says of it, or null. */
export async function analyse(bytes, verdict, limits, progress) {
  const lines = verdict.reason ? linesOf(bytes, limits) : "";
  return { ...await explainedBy(lines, bytes, verdict, limits, progress), lines };
}

async function explainedBy(lines, bytes, verdict, limits, progress) {
  const message = new Message(bytes, limits.hasTable), map = new WordMap(message), { reason, pointers } = verdict;
  const isPartial = reason !== "" && !isDemand(reason);
  if (!reason) {
    await walked(message, { isOnce: true, map }, progress);
    return { map, explanation: null, isPartial };
  }
  const text = reason === "Overlap" ? null : lines;
  if (pointers === 0) {
    if (!isPartial) await walked(message, { isOnce: true, map }, progress);
    return { map, explanation: explained(message, verdict, null, text, null), isPartial };
  }
  const way = await walked(message, isPartial ? { last: pointers, map } : { last: pointers }, progress);
  const earlier = reason === "Overlap" ? await overlap(message, way, progress) : null;
  if (!isPartial) await walked(message, { isOnce: true, map }, progress);
  const explanation = { ...explained(message, verdict, way, text, earlier), isAccepted: !isPartial };
  return { map, explanation, isPartial };
}

/** The first word of a pointer that an earlier pointer in preorder uses, and the path of that pointer. */
async function overlap(message, way, progress) {
  const before = new WordMap(message), found = new Found();
  await walked(message, { last: way.number, map: before }, progress);
  follow(message, way.at, way.segment, found);
  const start = message.starts[found.segment] + found.start, pad = message.starts[found.padSegment] + found.padWord;
  const used = function* () {
    for (let i = 0; i < found.pads; i++) yield pad + i;
    for (let i = 0; i < found.words; i++) yield start + i;
  };
  for (const at of used()) {
    const owner = before.owners[at];
    if (!owner) continue;
    const pointerAt = before.pointerAt[owner], path = owner === 1 ? "the root pointer" : await pathTo(message, pointerAt, progress);
    return { place: message.place(at), path, pointer: message.place(pointerAt), at: pointerAt };
  }
  return null;
}

/** The path of the first pointer in preorder at a word. */
async function pathTo(message, at, progress) {
  const way = await walked(message, { until: at }, progress);
  return pathOf(way.steps);
}

/** The numbers of a message's words. */
export function countWords(map, total) {
  const counts = new Array(16).fill(0);
  let twice = 0;
  for (let at = 0; at < total; at++) {
    counts[map.marks[at] & KIND]++;
    if (map.marks[at] & TWICE) twice++;
  }
  return { kinds: counts, unused: counts[UNUSED], twice, table: counts[TABLE] };
}

/** What a call returns, or null for a message that is refused or has a capability. */
function unlessRefused(call) {
  try {
    return call();
  } catch (error) {
    if (!error.reason) throw error;
    return null;
  }
}

/** The lines that explain a refusal. */
function linesOf(bytes, limits) {
  try {
    vetted(bytes, limits);
    return "";
  } catch (error) {
    if (!error.reason) throw error;
    return error.explain();
  }
}

/** The canonical words of an accepted message without capabilities, or null. */
export function canonicalOf(bytes, limits) {
  return unlessRefused(() => vetted(bytes, limits).canonical());
}

/** What the page says of the first difference of an accepted message from its canonical copy, or null. */
export function differenceOf(bytes, limits) {
  const found = vetted(bytes, limits).firstDifference();
  return found && explainedDifference(new Message(bytes, limits.hasTable), found);
}

/** A canonical copy as a framed message of one segment. */
export function framed(words) {
  const bytes = new Uint8Array(8 + words.length);
  new DataView(bytes.buffer).setUint32(4, words.length / 8, true);
  bytes.set(words, 8);
  return bytes;
}

export function packed(bytes) {
  return packMessage(bytes, { messageWords: 2 ** 28 });
}

export async function sha256(bytes) {
  if (!globalThis.crypto?.subtle) return null;
  const digest = new Uint8Array(await crypto.subtle.digest("SHA-256", bytes));
  return Array.from(digest, (byte) => byte.toString(16).padStart(2, "0")).join("");
}
