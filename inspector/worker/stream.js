// The messages of an input, with their verdicts, as columns of numbers.

import { Message, messages, readMessages, vet, vetWords } from "./library.js";

/** The most bytes that packed input may give. */
const MOST_UNPACKED = 2 ** 30;
/** How many messages are reported together, and how many are vetted before the worker looks for other requests. */
const BATCH = 2048, SLICE_MS = 12;

const NUMBERS = ["offset", "length", "segments", "charge", "depth", "pointers", "caps", "segment", "word"];

/** Verdicts of messages, in columns. */
export class Batch {
  constructor(first) {
    this.first = first;
    this.count = 0;
    this.reason = [];
    for (const name of NUMBERS) this[name] = new Float64Array(BATCH);
  }

  add(verdict, offset) {
    const i = this.count++, report = verdict instanceof Message ? verdict.report : null;
    const numbers = report ? { ...report, caps: report.capabilities } : { pointers: verdict.pointer, ...verdict.position };
    this.offset[i] = offset;
    this.length[i] = bytesOf(verdict).length;
    for (const name of NUMBERS.slice(2)) this[name][i] = numbers[name] ?? 0;
    this.reason.push(report ? "" : verdict.reason);
  }

  get isFull() {
    return this.count === BATCH;
  }
}

/** The bytes of a message, accepted or refused. */
function bytesOf(verdict) {
  return verdict instanceof Message ? verdict.data : verdict.unvetted;
}

/** The options of the package for the limits of the page. */
function optionsOf({ words, charge, depth, isStrict, isUnamplified, isExclusive = false }) {
  return { messageWords: words, charge, depth, allowNonstrict: !isStrict, allowAmplified: !isUnamplified, exclusive: isExclusive };
}

/** The message that bytes are, within the limits of the page. */
export function vetted(bytes, limits) {
  return (limits.hasTable ? vet : vetWords)(bytes, optionsOf(limits));
}

/** Bytes that grow as messages are added to them. */
class Growing {
  bytes = new Uint8Array(1 << 16);
  length = 0;

  add(part) {
    if (this.length + part.length > this.bytes.length) {
      const larger = new Uint8Array(Math.max(2 * this.bytes.length, this.length + part.length));
      larger.set(this.bytes.subarray(0, this.length));
      this.bytes = larger;
    }
    this.bytes.set(part, this.length);
    this.length += part.length;
  }
}

/** What ends a stream, where it is, and what it is called, as the program's line on standard error has it. */
function faultOf(error, count, offset, size) {
  const { reason } = error;
  if (!reason) throw error;
  const more = reason === "Truncated" ? `at byte ${size}` : error.segments ?? error.words ?? `of segment ${error.segment}`;
  return { reason, offset, said: error.message, text: `message ${count}: ${reason} ${more}` };
}

/** The one message of an input without a segment table. */
function* single(bytes, limits) {
  if (!bytes.length) return;
  let verdict;
  try {
    verdict = vetted(bytes, limits);
  } catch (error) {
    if (error.unvetted === undefined) throw error;
    verdict = error;
  }
  yield verdict;
}

/** Iterates over the messages of an input. Packed input is unpacked into `plain`. */
async function* all(input, isPacked, limits, plain) {
  const options = optionsOf(limits);
  if (!limits.hasTable) {
    yield* single(input, limits);
  } else if (isPacked) {
    for await (const verdict of readMessages([input], { ...options, packed: true })) {
      plain.add(bytesOf(verdict));
      yield verdict;
      if (plain.length > MOST_UNPACKED) throw Object.assign(new Error("the page unpacks no more"), { reason: "Unpacked", words: "1 GiB" });
    }
  } else {
    yield* messages(input, options);
  }
}

/**
 * Vets the messages of an input. `report(batch, done, bytes)` gets verdicts as they are found, how many bytes of the input are
 * done, and the plain bytes so far. `pause()` lets other work be done. Returns the fault that ended the stream, or null.
 */
export async function vetStream(input, isPacked, limits, report, pause) {
  const plain = new Growing(), bytes = () => (isPacked ? plain.bytes : input);
  let batch = new Batch(0), next = performance.now() + SLICE_MS, offset = 0, fault = null;
  try {
    for await (const verdict of all(input, isPacked, limits, plain)) {
      batch.add(verdict, offset);
      offset += bytesOf(verdict).length;
      if (batch.isFull || performance.now() > next) {
        report(batch, isPacked ? verdict.offset : offset, bytes());
        batch = new Batch(batch.first + batch.count);
        await pause();
        next = performance.now() + SLICE_MS;
      }
    }
  } catch (error) {
    // (bytes of packed input are counted packed)
    fault = faultOf(error, batch.first + batch.count, isPacked ? error.offset ?? input.length : offset, input.length);
  }
  report(batch, input.length, bytes());
  return fault;
}

/** Whether the first message of an input has no fault but that it exceeds a limit. */
async function beginsWell(source) {
  try {
    for await (const verdict of source) return verdict instanceof Message || /^(Word|Depth)Limit$/.test(verdict.reason);
  } catch (error) {
    if (!error.reason) throw error;
  }
  return false;
}

/** Whether an input looks packed: as plain bytes it doesn't begin with a message, and as packed bytes it does. */
export async function looksPacked(input) {
  // (the charge bounds the time)
  const lax = { messageWords: 2 ** 28, charge: 2 ** 20, allowNonstrict: true, allowAmplified: true };
  return !await beginsWell(messages(input, lax)) && await beginsWell(readMessages([input], { ...lax, packed: true }));
}
