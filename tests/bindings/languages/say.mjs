// Writes a JSON object for each message of a file, as say.c does, by the package capvet.
//
//     say.mjs FILE WORDS CHARGE DEPTH FLAGS EXCLUSIVE
import { readFileSync, writeSync } from "node:fs";

import { CapabilityError, FrameError, Refusal, vet } from "capvet";

const [name, ...numbers] = process.argv.slice(2);
const [messageWords, charge, depth, flags, exclusive] = numbers.map(Number);
const limits = { messageWords, charge, depth, allowNonstrict: (flags & 1) !== 0, allowAmplified: (flags & 2) !== 0, exclusive: exclusive === 1 };

function broken({ reason, required, segments, words, trailing }) {
  const numbers = { required, segments, words, trailing_bytes: trailing };
  const there = Object.entries(numbers).filter(([, number]) => number !== null);
  return { verdict: "broken", reason, ...Object.fromEntries(there) };
}

function refused(it) {
  const { length, reason, position, pointer } = it, about = { length, verdict: "refused", reason };
  if (pointer !== null) Object.assign(about, { ...position, pointer, path: it.path });
  // (the package finds one for other reasons too)
  if (reason === "Overlap" && it.earlierPath !== null) about.earlier_path = it.earlierPath;
  return { ...about, explain: it.explain() };
}

function adler32(bytes) {
  let low = 1, high = 0;
  for (const byte of bytes) {
    low = (low + byte) % 65521;
    high = (high + low) % 65521;
  }
  return high * 65536 + low;
}

function differing(it) {
  if (it === null) return {};
  const { reason, position, pointers, path } = it;
  return { difference: { reason, ...position, pointers, ...(path === null ? {} : { path }) } };
}

function accepted(message) {
  const { length, segments, words, charge, depth, pointers, capabilities } = message.report;
  const about = { length, verdict: "accepted", segments, words, charge, depth, pointers, capabilities };
  try {
    about.canonical = adler32(message.canonical());
  } catch (error) {
    if (!(error instanceof CapabilityError)) throw error;
  }
  return { ...about, is_canonical: message.isCanonical(), ...differing(message.firstDifference()) };
}

function said(data) {
  try {
    return accepted(vet(data, limits));
  } catch (error) {
    if (error instanceof Refusal) return refused(error);
    if (error instanceof FrameError) return broken(error);
    throw error;
  }
}

const file = readFileSync(name), lines = [];
for (let at = 0, message = 0; at < file.length; message++) {
  const end = at + 4 + file.readUInt32LE(at);
  lines.push(JSON.stringify({ message, ...said(Uint8Array.from(file.subarray(at + 4, end))) }));
  at = end;
}
const text = Buffer.from(lines.map((line) => `${line}\n`).join(""));
for (let at = 0; at < text.length;) at += writeSync(1, text, at);
