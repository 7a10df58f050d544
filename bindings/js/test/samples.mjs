// What the tests have in common: the samples of the repository, and messages that are made here.
import { readFileSync } from "node:fs";
import { join } from "node:path";

const FOLDER = process.env.CAPVET_EXAMPLES ?? join(import.meta.url.slice("file://".length), "../../../../examples");

export const sample = (name) => new Uint8Array(readFileSync(join(FOLDER, name)));

export function joined(...parts) {
  return new Uint8Array(Buffer.concat(parts));
}

export const word = (low, high = 0) => new Uint8Array(new Uint32Array([low, high]).buffer);

/** A message of these segments. */
export function framed(...segments) {
  const sizes = [segments.length - 1, ...segments.map((it) => it.length / 8)];
  if (sizes.length % 2) sizes.push(0);
  return joined(new Uint8Array(new Uint32Array(sizes).buffer), ...segments);
}

export const NULL_ROOT = framed(word(0));
// a struct of one data word, and one whose only pointer leads to the capability 5
export const STRUCT = framed(joined(word(0, 1), word(7)));
export const CAPABILITY = framed(joined(word(0, 1 << 16), word(3, 5)));

/** A message with a list of `count` bytes, by default of many kinds. */
export function withBytes(count, byte = (at) => (at * 7 + 1) % 256) {
  const words = Math.ceil(count / 8), list = new Uint8Array(8 * words);
  for (let at = 0; at < count; at++) list[at] = byte(at);
  return framed(joined(word(0, 1 << 16), word(1, 2 | (count << 3)), list));
}

/** What an error of a call is, and its fields. */
export function thrown(call) {
  try {
    call();
  } catch (error) {
    return error;
  }
  throw new Error("nothing was thrown");
}

/** All of an iterator, synchronous or not. */
export async function all(iterator) {
  const found = [];
  for await (const it of iterator) found.push(it);
  return found;
}
