// The worker: it holds the input, and does what takes time. Requests and answers are objects with a `type`.

import { load } from "./library.js";
import { bytesOfFile, bytesOfText } from "./input.js";
import { TextFault } from "../format/fault.js";
import { differences } from "../format/compare.js";
import { find } from "../format/find.js";
import { Message } from "../format/message.js";
import { looksPacked, vetStream } from "./stream.js";
import { restOf } from "./rest.js";
import { analyse, canonicalOf, countWords, differenceOf, framed, packed, sha256 } from "./message.js";

/** Work that takes less than this shows no progress. */
const QUIET_MS = 150;
let ready, input = null, isPacked = false, limits = null, verdicts = [], bytes = null;
/** The newest request to open an input, or to vet it again. Answers are about it, or are not sent. */
let asked = {};
// (a newer request ends what an older one of its kind has begun)
const newest = { open: 0, select: 0 };

class Outdated extends Error {}

function post(message, transfer = []) {
  self.postMessage({ run: asked.run, ...message }, transfer);
}

const channel = new MessageChannel();
const waiting = [];
channel.port1.onmessage = () => waiting.shift()();

/** Lets other requests be answered, and ends this one if it is outdated. */
async function pause(kind, number) {
  await new Promise((resume) => { waiting.push(resume); channel.port2.postMessage(null); });
  if (newest[kind] !== number) throw new Outdated();
}

function progress(job, done, total) {
  post({ type: "progress", job, done, total });
}

/** The bytes of a request to open a file, bytes or a text. */
function bytesOf({ file, bytes: given, text }, number) {
  const report = (at) => {
    if (newest.open !== number) throw new Outdated();
    progress("Reading", at, file.size);
  };
  return file ? bytesOfFile(file, report) : given ?? bytesOfText(text);
}

/** Forgets the verdicts of the last input, or within the last limits. */
function forget(request) {
  asked = request;
  newest.select++;
  verdicts = [];
  bytes = null;
}

const REQUESTS = {
  load({ module }) {
    ready = load(module);
  },

  async open(request) {
    const number = ++newest.open;
    forget(request);
    input = null;
    let source;
    try {
      source = await bytesOf(request, number);
    } catch (error) {
      throw newest.open === number ? error : new Outdated();
    }
    if (newest.open !== number) return;
    input = source;
    await vetAll(number);
  },

  /** The same input, with other limits. */
  async reopen(request) {
    forget(request);
    // (an input that is still read is vetted within them afterwards)
    if (input) await vetAll(++newest.open);
  },

  async select({ number, run }) {
    if (run !== asked.run) return;
    const request = ++newest.select, verdict = verdicts[number], { offset, length } = verdict;
    const own = bytes.slice(offset, offset + length), begin = performance.now();
    const { map, explanation, isPartial, lines } = await analyse(own, verdict, limits, async (count) => {
      if (performance.now() - begin > QUIET_MS) progress("Looking at pointers", count, verdict.pointers);
      await pause("select", request);
    });
    const counts = countWords(map, length / 8), { marks, owners, pointerAt, parent, start, words, count } = map;
    const arrays = { marks, owners, pointerAt, parent, start, words, count };
    const copy = verdict.reason ? null : own.slice();
    post({ type: "message", number, bytes: own, map: arrays, explanation, isPartial, counts, offset, lines },
      [own.buffer, marks.buffer, owners.buffer, pointerAt.buffer, parent.buffer, start.buffer, words.buffer]);
    if (copy) {
      await pause("select", request);
      await copies(number, copy, request);
    }
  },

  /** The byte where patterns are next. Of packed input it is one of the unpacked messages. */
  async find({ patterns, from, isBack, run }) {
    if (run !== asked.run || !bytes) return;
    const last = verdicts.at(-1), data = isPacked ? bytes.subarray(0, last ? last.offset + last.length : 0) : bytes;
    post({ type: "found", byte: find(data, patterns, from, isBack) });
  },

  /** Where a message differs from its canonical copy, or from another message. */
  async compare({ number, other, run }) {
    if (run !== asked.run || !verdicts[number] || other !== null && !verdicts[other]) return;
    const part = ({ offset, length }) => bytes.slice(offset, offset + length), own = part(verdicts[number]);
    const words = other === null ? canonicalOf(own, limits) : null, name = other === null ? "canonical copy" : `message ${other}`;
    if (other === null && !words) return post({ type: "compared", number, fault: "There is no canonical copy of this message." });
    const beside = words ? new Message(words.slice(), false) : new Message(part(verdicts[other]), limits.hasTable);
    post({ type: "compared", number, name, ...differences(new Message(own, limits.hasTable), beside) });
  },

  async save({ number, form, name, run }) {
    if (run !== asked.run) return;
    const { offset, length } = verdicts[number], own = bytes.slice(offset, offset + length);
    const made = form === "canonical" ? framed(canonicalOf(own, limits)) : form === "packed" ? packed(own) : own;
    post({ type: "file", name, bytes: made, run: undefined }, [made.buffer]);
  },
};

/** The canonical form of an accepted message, its hash, and the first difference. */
async function copies(number, own, request) {
  const words = canonicalOf(own, limits), hash = words && await sha256(words);
  if (newest.select !== request) return;
  post({ type: "canonical", number, words: words && words.length / 8, hash, difference: differenceOf(own, limits) });
}

async function vetAll(number) {
  const { format } = asked;
  ({ limits } = asked);
  const looks = format === "packed" || format === "auto" && await looksPacked(input);
  if (newest.open !== number) return;
  isPacked = looks;
  post({ type: "opened", size: input.length, isPacked });
  const report = (batch, done, plain) => {
    bytes = plain;
    for (let i = 0; i < batch.count; i++) {
      verdicts.push({ reason: batch.reason[i], offset: batch.offset[i], length: batch.length[i], pointers: batch.pointers[i],
        segment: batch.segment[i], word: batch.word[i] });
    }
    post({ type: "verdicts", batch, done, total: input.length });
  };
  const fault = await vetStream(input, isPacked, limits, report, () => pause("open", number));
  const nothing = { reason: "NoMessage", offset: 0, said: "the input has no bytes", text: "The input has no message." };
  const stop = fault ?? (verdicts.length ? null : nothing), rest = stop && await restOf(stop, input, limits, isPacked);
  if (newest.open === number) post({ type: "end", rest });
}

self.onmessage = async ({ data }) => {
  try {
    if (data.type !== "load") await ready;
    await REQUESTS[data.type](data);
  } catch (error) {
    const text = error instanceof RangeError ? "Out of memory." : error instanceof TextFault ? error.message : String(error?.stack ?? error);
    if (!(error instanceof Outdated)) post({ type: "fault", text });
  }
  post({ type: "done", run: undefined });
};
