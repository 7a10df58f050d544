import assert from "node:assert/strict";
import { createHash } from "node:crypto";
import { test } from "node:test";
import * as capvet from "capvet";
import { CAPABILITY, NULL_ROOT, STRUCT, framed, joined, sample, thrown, withBytes, word } from "./samples.mjs";

const { CapabilityError, CapvetError, FrameError, PathError, Refusal, UnpackError } = capvet;
const contacts = sample("contacts.bin"), many = sample("contacts-many-segments.bin"), four = sample("stream-of-four.bin");
const { frame, vet } = capvet;
const NO_FRAME = { required: null, segments: null, words: null, trailing: null, segment: null, length: null, number: 0, offset: 0 };

/** Compares an error with its class and fields. */
function is(error, kind, fields) {
  assert.equal(error.constructor, kind);
  assert.equal(error.name, kind.name);
  assert.deepEqual({ ...error }, fields);
}

test("the version is that of the package", () => {
  assert.match(capvet.version(), /^2\.\d+\.\d+$/);
});

test("vet reports an accepted message", () => {
  const report = { length: 3144, words: 392, segments: 1, charge: 391, depth: 11, pointers: 125, capabilities: 0, firstCapability: null };
  assert.deepEqual({ ...vet(contacts).report }, report);
  const firstCapability = { segment: 0, word: 1 };
  assert.deepEqual({ ...vet(CAPABILITY).report },
    { length: 24, words: 2, segments: 1, charge: 1, depth: 1, pointers: 2, capabilities: 1, firstCapability });
});

test("bytes of each kind are taken", () => {
  const shared = new SharedArrayBuffer(contacts.length);
  new Uint8Array(shared).set(contacts);
  const shifted = joined(new Uint8Array(3), contacts, new Uint8Array(5));
  const copy = () => contacts.slice().buffer, part = shifted.subarray(3, 3 + contacts.length);
  for (const data of [copy(), Buffer.from(contacts), new DataView(copy()), new BigUint64Array(copy()), part]) {
    assert.equal(vet(data).report.charge, 391);
    assert.deepEqual(vet(data).data, contacts);
    assert.equal(Object.getPrototypeOf(vet(data).data), Uint8Array.prototype);
  }
  for (const data of [undefined, null, "text", 3, [...contacts], {}, { length: 8 }]) assert.throws(() => vet(data), TypeError);
  // (another thread could change shared memory after the verdict)
  const calls = [vet, capvet.vetPrefix, capvet.vetWords, (data) => capvet.vetSegments([data]), capvet.messages, frame, capvet.packWords,
    capvet.packMessage, capvet.unpackWords, capvet.isCanonicalWords, (data) => capvet.peek(data, "/"),
    (data) => capvet.peekRange(data, "/p*")];
  for (const data of [shared, new Uint8Array(shared), new DataView(shared), Buffer.from(shared)]) {
    for (const call of calls) assert.match(thrown(() => [...call(data)]).message, /shared memory/);
  }
});

test("only vetting makes a message", () => {
  const message = vet(contacts);
  for (const make of [() => new capvet.Message(), () => new capvet.Message(Symbol("vetted"), contacts), () => capvet.Message(contacts)]) {
    assert.throws(make, TypeError);
  }
  for (const name of ["data", "report", "number", "offset", "segments"]) {
    assert.throws(() => { "use strict"; message[name] = contacts; }, TypeError);
    assert.throws(() => Object.create(capvet.Message.prototype)[name], TypeError);
  }
  assert.equal(message.data.buffer, contacts.buffer);
  assert.deepEqual([message.number, message.offset, message instanceof capvet.Message], [0, 0, true]);
});

test("bytes that have changed are noticed", () => {
  const bytes = framed(joined(word(0, 1 << 16), word(0))), message = vet(bytes);
  bytes[16] = 7;
  for (const call of [() => message.canonical(), () => message.get("/p0"), () => [...message.getRange("/p*")]]) {
    assert.match(thrown(call).message, /have changed/);
  }
});

test("the limits of a reader", () => {
  const flat = framed(joined(word(0, 1 << 16), word(0xfffffffc), new Uint8Array(800))), { report } = vet(flat);
  assert.deepEqual([report.charge, report.words, report.depth], [1, 102, 2]);
  assert.deepEqual([report.readerWords(), report.readerWords(2), report.readerNesting()], [102, 204, 5]);
  assert.equal(vet(contacts).report.readerWords(10), (3 * 391 + 2) * 10);
});

test("a refusal has its reason and its place", () => {
  const error = thrown(() => vet(sample("cycle.bin")));
  const unvetted = sample("cycle.bin"), place = { number: 0, offset: 0 };
  is(error, Refusal, { answer: 43, reason: "DepthLimit", position: { segment: 0, word: 0 }, pointer: 65, length: 16, ...place, unvetted });
  assert.equal(error.path, "/p0".repeat(64));
  assert.equal(error.message, "refused DepthLimit at 0:0 pointers 65");
  assert.ok(error instanceof CapvetError && error instanceof Error);
  const none = framed(new Uint8Array(0)), noRoot = thrown(() => vet(none));
  is(noRoot, Refusal, { answer: 32, reason: "NoRoot", position: null, pointer: null, length: 8, ...place, unvetted: none });
  assert.deepEqual([noRoot.path, noRoot.earlierPath, noRoot.message], [null, null, "refused NoRoot at 0:0 pointers 0"]);
  // (each place is that of a pointer in another segment)
  const pad = framed(word(2, 1), joined(word(0), word(1, 8)));
  const fields = { answer: 19, reason: "NullPad", position: { segment: 0, word: 0 }, pointer: 1, length: 40, ...place, unvetted: pad };
  is(thrown(() => vet(pad)), Refusal, fields);
});

test("a frame error has its numbers", () => {
  is(thrown(() => vet(new Uint8Array(0))), FrameError, { answer: 1, reason: "NoMessage", ...NO_FRAME, required: 8 });
  is(thrown(() => vet(contacts.subarray(0, 9))), FrameError, { answer: 4, reason: "Truncated", ...NO_FRAME, required: 3144 });
  is(thrown(() => vet(four)), FrameError, { answer: 5, reason: "Trailing", ...NO_FRAME, trailing: 1328, length: 3144 });
  is(thrown(() => vet(word(512))), FrameError, { answer: 2, reason: "TooManySegments", ...NO_FRAME, segments: 513 });
  is(thrown(() => vet(word(0, 4294967295))), FrameError, { answer: 3, reason: "TooLarge", ...NO_FRAME, words: 4294967295 });
  const table = new Uint32Array(514).fill(4294967295);
  table[0] = 511;
  is(thrown(() => vet(table)), FrameError, { answer: 3, reason: "TooLarge", ...NO_FRAME, words: 512 * 4294967295 });
});

test("each limit and flag has its effect", () => {
  assert.equal(vet(contacts, { messageWords: 392, charge: 391, depth: 11 }).report.charge, 391);
  assert.equal(thrown(() => vet(contacts, { messageWords: 391 })).reason, "TooLarge");
  assert.equal(thrown(() => vet(contacts, { charge: 390 })).reason, "WordLimit");
  assert.equal(thrown(() => vet(contacts, { depth: 10 })).reason, "DepthLimit");
  const pad = framed(word(2, 1), joined(word(0)));
  assert.equal(thrown(() => vet(pad)).reason, "NullPad");
  assert.equal(vet(pad, { allowNonstrict: true }).report.pointers, 1);
  // (a list of 5,000 structs without words)
  const amplified = framed(joined(word(1, 7), word(20000)));
  assert.equal(thrown(() => vet(amplified)).reason, "WordLimit");
  assert.equal(vet(amplified, { allowAmplified: true }).report.charge, 5001);
  const shared = sample("shared.bin");
  assert.equal(vet(shared).report.charge, 4);
  assert.equal(thrown(() => vet(shared, { exclusive: true })).reason, "Overlap");
  assert.deepEqual(vet(many, { exclusive: true }).report, vet(many).report);
  // (the limits of one call are not those of the next)
  assert.equal(vet(contacts).report.charge, 391);
});

test("the form of the input is a call", () => {
  const { message, rest } = capvet.vetPrefix(four, { messageWords: 392 });
  assert.deepEqual([message.data, message.report, rest], [contacts, vet(contacts).report, four.subarray(3144)]);
  assert.equal(rest.buffer, four.buffer);
  assert.equal(capvet.vetPrefix(contacts).rest.length, 0);
  assert.equal(capvet.vetPrefix(Buffer.from(four)).message.data.length, 3144);
  const words = contacts.subarray(8), alone = capvet.vetWords(words);
  assert.deepEqual({ ...alone.report }, { ...vet(contacts).report, length: 3136 });
  assert.deepEqual([alone.data, alone.segments], [words, [words]]);
  const node = alone.get("/p0/i1/p4"), other = vet(contacts).get("/p0/i1/p4");
  assert.deepEqual({ ...node, offset: node.offset + 8 }, { ...other });
  assert.equal(node.data.buffer, contacts.buffer);
  const names = (of) => [...of.getRange("/p0/i*/p0")].map((it) => it.text());
  assert.deepEqual(names(alone), names(vet(contacts)));
  assert.deepEqual(alone.canonical(), vet(contacts).canonical());
  assert.equal(thrown(() => capvet.vetWords(contacts.subarray(8, 17))).required, 16);
  assert.equal(thrown(() => capvet.vetWords(new Uint8Array(0))).reason, "NoMessage");
  const refusal = thrown(() => capvet.vetWords(sample("cycle.bin").subarray(8)));
  assert.deepEqual([refusal.unvetted.length, refusal.path], [8, "/p0".repeat(64)]);
  assert.match(refusal.explain(), /^ {2}byte 0 of the message$/m);
  const shared = sample("shared.bin"), exclusive = { exclusive: true };
  for (const call of [() => vet(shared, exclusive), () => capvet.vetPrefix(joined(shared, four), exclusive),
    () => capvet.vetWords(shared.subarray(8), exclusive), () => capvet.vetSegments([shared.subarray(8)], exclusive)]) {
    assert.deepEqual([thrown(call).reason, thrown(call).path, thrown(call).earlierPath], ["Overlap", "/p1", "/p0"]);
  }
});

test("wrong limits throw TypeError or RangeError", () => {
  const wrongs = [null, 3, "text", { dept: 3 }, { depth: "3" }, { depth: 3n }, { exclusive: 1 }, { noTable: false }, { first: 1 },
    { packed: true }];
  for (const limits of wrongs) {
    assert.equal(thrown(() => vet(contacts, limits)).constructor, TypeError);
  }
  const most = { messageWords: 268435456, charge: 268435456, depth: 256 };
  for (const [name, value] of Object.entries(most)) {
    assert.equal(vet(NULL_ROOT, { [name]: value }).report.pointers, 1);
    for (const wrong of [value + 1, -1, 0.5, NaN, Infinity]) {
      assert.equal(thrown(() => vet(NULL_ROOT, { [name]: wrong })).constructor, RangeError);
    }
  }
  for (const call of [frame, capvet.packMessage]) {
    assert.equal(thrown(() => call(contacts, { messageWords: 391 })).reason, "TooLarge");
    assert.equal(thrown(() => call(contacts, { messageWords: -1 })).constructor, RangeError);
    assert.equal(thrown(() => call(contacts, { depth: 3 })).constructor, TypeError);
  }
  assert.equal(vet(contacts, undefined).report.charge, 391);
  assert.equal(vet(contacts, { depth: undefined }).report.charge, 391);
});

test("limits are read before the call, even if reading them calls the package", () => {
  const limits = { depth: 64, get charge() { return vet(STRUCT, { charge: 1 }).report.charge + 390; } };
  assert.equal(vet(contacts, limits).report.charge, 391);
});

test("frame has the segments, and vetSegments checks them", () => {
  const { length, segments } = frame(joined(many, contacts));
  assert.equal(length, many.length);
  assert.equal(segments.length, 105);
  let next = 424;
  for (const segment of segments) {
    assert.equal(segment.offset, next);
    next += segment.length;
  }
  assert.equal(next, length);
  const parts = segments.map((it) => many.subarray(it.offset, it.offset + it.length));
  assert.deepEqual(vet(many).segments, parts);
  for (const given of [parts, new Set(parts)]) {
    const vetted = capvet.vetSegments(given);
    assert.deepEqual([vetted.data, vetted.report], [many, vet(many).report]);
  }
  assert.equal(thrown(() => capvet.vetSegments(parts.slice(0, 9))).reason, "SegmentMissing");
  is(thrown(() => capvet.vetSegments([])), FrameError, { answer: 1, reason: "NoMessage", ...NO_FRAME, required: 0 });
  const odd = [parts[0], parts[1].subarray(1)];
  is(thrown(() => capvet.vetSegments(odd)), FrameError, { answer: 12, reason: "BadSegment", ...NO_FRAME, segment: 1 });
  const tooMany = Array(513).fill(word(0));
  is(thrown(() => capvet.vetSegments(tooMany)), FrameError, { answer: 2, reason: "TooManySegments", ...NO_FRAME, segments: 513 });
  const few = { messageWords: 2 };
  is(thrown(() => capvet.vetSegments(parts, few)), FrameError, { answer: 3, reason: "TooLarge", ...NO_FRAME, words: (length - 424) / 8 });
  const most = framed(...Array(510).fill(word(0)), new Uint8Array(16), new Uint8Array(24));
  assert.deepEqual(frame(most).segments.slice(-2), [{ offset: 6136, length: 16 }, { offset: 6152, length: 24 }]);
  assert.equal(thrown(() => frame(many.subarray(0, 100))).required, 424);
  assert.equal(thrown(() => frame(many.subarray(0, 500))).required, many.length);
});

test("canonical gives equal bytes for equal content", () => {
  const words = vet(contacts).canonical(), digest = createHash("sha256").update(words).digest("hex");
  assert.equal(digest, "da5b2d724a838dca43e56e40db89de68bba3d3772cd838de0fa7e9029481403e");
  assert.deepEqual(vet(many).canonical(), words);
  assert.equal(words.byteLength, words.buffer.byteLength);
  assert.equal(capvet.isCanonicalWords(words), true);
  assert.deepEqual(capvet.vetWords(words).canonical(), words);
  assert.deepEqual([vet(contacts), vet(framed(words)), capvet.vetWords(words)].map((it) => it.isCanonical()), [false, true, true]);
  assert.equal(capvet.isCanonicalWords(contacts.subarray(8)), false);
  assert.equal(capvet.isCanonicalWords(joined(words, new Uint8Array(8))), false);
  assert.equal(thrown(() => capvet.isCanonicalWords(words, { depth: 3 })).reason, "DepthLimit");
  assert.equal(thrown(() => capvet.isCanonicalWords(words.subarray(1))).reason, "Truncated");
});

test("canonicalInto writes what canonical returns", () => {
  for (const message of [vet(contacts), vet(many), capvet.vetPrefix(four).message, capvet.vetWords(contacts.subarray(8))]) {
    const words = message.canonical(), out = new Uint8Array(words.length + 3).fill(9);
    assert.equal(message.canonicalInto(out), words.length);
    assert.deepEqual(out, joined(words, new Uint8Array(3).fill(9)));
    assert.equal(message.canonicalInto(out.subarray(3)), words.length);
    assert.deepEqual(out.subarray(3), words);
    const short = new Uint8Array(words.length - 1).fill(9);
    assert.equal(thrown(() => message.canonicalInto(short)).constructor, RangeError);
    assert.ok(short.every((byte) => byte === 9));
  }
  for (const out of [undefined, null, new ArrayBuffer(9999), [], 9]) assert.throws(() => vet(contacts).canonicalInto(out), TypeError);
});

test("a capability has no canonical form", () => {
  const message = vet(CAPABILITY), { report } = message;
  is(thrown(() => message.canonical()), CapabilityError, { answer: 17, reason: "HasCapability", report });
  assert.equal(message.isCanonical(), false);
});

// For each reason a message, the word and the number of the pointer, and its path.
const DIFFERENCES = [
  ["Segments", framed(word(0), word(0)), 0, 0, null],
  ["Far", framed(joined(word(2 | 1 << 3), word(0, 1), word(7))), 0, 1, "/"],
  ["Capability", framed(joined(word(0, 1 | 1 << 16), word(7), word(3, 7))), 2, 2, "/p0"],
  ["EmptyStruct", framed(joined(word(1 << 2), word(0))), 0, 1, "/"],
  ["Place", framed(joined(word(0, 2 << 16), word(1 << 2, 1), word(0, 1), word(7))), 2, 3, "/p1"],
  ["Bits", framed(joined(word(1, 1 | 1 << 3), word(3))), 0, 1, "/"],
  ["EmptyList", framed(joined(word(1, 7), word(0, 1))), 0, 1, "/"],
  ["Surplus", framed(joined(word(1, 7 | 2 << 3), word(1 << 2, 1), word(5), word(0))), 0, 1, "/"],
  ["DataZero", framed(joined(word(0, 2), word(7), word(0))), 0, 1, "/"],
  ["PointerNull", framed(joined(word(0, 1 | 1 << 16), word(7), word(0))), 0, 1, "/"],
  ["Trailing", framed(joined(word(0), word(0))), 1, 1, null],
];

test("a message that is not canonical has its first difference", () => {
  for (const [reason, data, place, pointers, path] of DIFFERENCES) {
    const message = vet(data), difference = { reason, position: { segment: 0, word: place }, pointers, path };
    assert.deepEqual([message.firstDifference(), message.isCanonical()], [difference, false]);
    assert.deepEqual(structuredClone(message.firstDifference()), difference);
    if (reason !== "Segments") assert.deepEqual(capvet.vetWords(data.subarray(8)).firstDifference(), difference);
  }
  const canonical = vet(contacts).canonical();
  for (const message of [vet(STRUCT), vet(framed(canonical)), capvet.vetWords(canonical)]) {
    assert.deepEqual([message.firstDifference(), message.isCanonical()], [null, true]);
  }
  const lax = { allowNonstrict: true, depth: 256 };
  assert.equal(vet(framed(joined(word(2 | 1 << 3), word(0))), lax).firstDifference().reason, "Far");
  const changing = STRUCT.slice(), changed = vet(changing);
  changing[8] = 7;
  assert.match(thrown(() => changed.firstDifference()).message, /have changed/);
});

test("the canonical form of an amplified message, within the same limits", () => {
  // (two pointers to one list of 300 bytes, many times over)
  const bytes = new Uint8Array(304).fill(3), pointers = 200;
  const words = [word(0, pointers << 16)];
  for (let index = 0; index < pointers; index++) words.push(word(1 | ((pointers - 1 - index) << 2), 2 | (300 << 3)));
  const message = framed(joined(...words, bytes));
  assert.equal(thrown(() => vet(message)).reason, "WordLimit");
  const { words: messageWords, charge, depth } = vet(message, { allowAmplified: true }).report, limits = { messageWords, charge, depth };
  const copy = vet(message, { ...limits, allowAmplified: true }).canonical();
  assert.equal(copy.length, 8 + pointers * 8 + pointers * 304);
  assert.equal(capvet.isCanonicalWords(copy, limits), true);
  assert.equal(thrown(() => capvet.isCanonicalWords(copy, { ...limits, charge: charge - 2 })).reason, "TooLarge");
});

test("get and peek read at a path", () => {
  for (const node of [vet(contacts).get("/p0/i1/p4"), capvet.peek(contacts, "/p0/i1/p4")]) {
    assert.ok(node instanceof capvet.Node);
    assert.deepEqual({ ...node, data: Buffer.from(node.data).toString("hex") },
      { kind: "struct", element: 0, count: 0, dataWords: 1, pointers: 0, capability: 0, offset: node.offset, data: "245b0f0000000000" });
    assert.equal(node.data.buffer, contacts.buffer);
    assert.equal(node.data.byteOffset, contacts.byteOffset + node.offset);
  }
  assert.equal(vet(CAPABILITY).get("/p0").capability, 5);
  assert.equal(vet(NULL_ROOT).get("/").kind, "null");
  assert.equal(vet(contacts).get("/p0/i1000"), null);
  // (of messages that were not vetted only the pointers on the path are checked)
  assert.equal(thrown(() => capvet.peek(four, "/p0")).reason, "Trailing");
  const refusal = thrown(() => capvet.peek(sample("cycle.bin"), `/p0${"/p0".repeat(80)}`));
  assert.deepEqual([refusal.reason, refusal.pointer, refusal.path], ["DepthLimit", null, null]);
  assert.throws(() => refusal.explain(), RangeError);
  assert.equal(capvet.peek(sample("cycle.bin"), "/p0/p0").kind, "struct");
});

test("a path error has its position", () => {
  const positions = [["", 0], ["p0", 0], ["/p", 2], ["/p0/", 4], ["/p00", 3], ["/p0/x1", 4], ["/p65536", 6], ["/é", 1], ["/p0\ud800", 3]];
  for (const [path, position] of positions) {
    is(thrown(() => vet(contacts).get(path)), PathError, { answer: 10, reason: "BadPath", path, position });
  }
  // (before what is wrong with the message)
  is(thrown(() => capvet.peek(new Uint8Array(0), "x")), PathError, { answer: 10, reason: "BadPath", path: "x", position: 0 });
  for (const path of [undefined, 3, null, ["/"]]) assert.throws(() => vet(contacts).get(path), TypeError);
});

test("a refusal has the path to its pointer", () => {
  // a struct of two pointers: null, and to a list of two structs of a word and two pointers, the last to a list of two pointers
  const deep = [word(0, 2 << 16), word(0), word(1, 7 | 6 << 3), word(2 << 2, 1 | 2 << 16), word(5), word(0), word(0),
    word(6), word(0), word(1, 6 | 2 << 3), word(0), word(0, 4)];
  const paths = [[0, "/"], [1, "/p0"], [2, "/p1"], [5, "/p1/i0/p0"], [6, "/p1/i0/p1"], [8, "/p1/i1/p0"], [9, "/p1/i1/p1"],
    [10, "/p1/i1/p1/i0"], [11, "/p1/i1/p1/i1"]];
  for (const [at, path] of paths) {
    // (a pointer of a reserved kind in the place of each)
    const error = thrown(() => vet(framed(joined(...deep.slice(0, at), word(7), ...deep.slice(at + 1)))));
    assert.deepEqual([error.reason, error.position.word, error.path], ["Reserved", at, path]);
  }
  assert.equal(thrown(() => vet(sample("cycle.bin"), { depth: 256 })).path, "/p0".repeat(256));
});

test("a refusal is explained", () => {
  const damaged = contacts.slice();
  damaged[66] = 0x40;
  const lines = ["path /p0/i0/p0", "byte 64 of the message", "pointer bd0040000a010000 list of bytes, offset 1048623, elements 33",
    "target 0:1048631 to 0:1048635, words 5", "leads into segment 0, words 392", "reason the target runs past the end of its segment"];
  assert.equal(thrown(() => vet(damaged)).explain(), lines.map((it) => `  ${it}\n`).join(""));
  lines[1] = "byte 56 of the message";
  assert.equal(thrown(() => capvet.vetWords(damaged.subarray(8))).explain(), lines.map((it) => `  ${it}\n`).join(""));
  assert.match(thrown(() => vet(sample("cycle.bin"), { depth: 9 })).explain(), /^  level 10, limit 9$/m);
  const changing = sample("cycle.bin"), error = thrown(() => vet(changing));
  changing.fill(0, 8);
  assert.match(thrown(() => error.explain()).message, /have changed/);
  const overlap = ["path /p1", "byte 24 of the message",
    "pointer 0000000001000000 struct, offset 0, data words 1, pointers 0", "target 0:3 to 0:3, words 1",
    "leads into segment 0, words 4",
    "reason the pointer uses a word twice, the root word, or one that an earlier pointer uses; --exclusive forbids all three",
    "first used by /p0 at 0:1"];
  assert.equal(thrown(() => vet(sample("shared.bin"), { exclusive: true })).explain(), overlap.map((it) => `  ${it}\n`).join(""));
});

test("errors keep their fields between workers", async () => {
  const errors = [() => vet(sample("cycle.bin")), () => vet(four), () => vet(CAPABILITY).canonical(), () => vet(contacts).get("x"),
    () => capvet.unpackWords(new Uint8Array([1])), () => vet(sample("shared.bin"), { exclusive: true })].map(thrown);
  for (const error of errors) {
    const { port1, port2 } = new MessageChannel(), coming = new Promise((resolve) => { port2.onmessage = resolve; });
    port1.postMessage(error.toObject());
    const again = capvet.errorOf((await coming).data);
    port1.close();
    is(again, error.constructor, { ...error });
    assert.equal(again.message, error.message);
    if (again instanceof Refusal) assert.deepEqual([again.path, again.explain()], [error.path, error.explain()]);
  }
  for (const wrong of [undefined, {}, { name: "Error" }, { name: "toString" }, new Error("x")]) {
    assert.throws(() => capvet.errorOf(wrong), TypeError);
  }
});

test("a text is guessed", () => {
  assert.equal(vet(contacts).get("/p0/i0/p2/i0/p0").text(), "fjord zephyr amber");
  const padding = (bytes) => new Uint8Array((8 - (bytes.length % 8)) % 8);
  const node = (bytes) => capvet.peek(framed(joined(word(1, 2 | (bytes.length << 3)), bytes, padding(bytes))), "/");
  const texts = [["a\0", "a"], ["\0", ""], ["a", null], ["", null], ["a\0b\0", null], ["\ufeffa\0", "\ufeffa"], ["Ω\0", "Ω"]];
  for (const [text, guess] of texts) assert.equal(node(new TextEncoder().encode(text)).text(), guess);
  assert.equal(node(new Uint8Array([255, 0])).text(), null);
  assert.equal(vet(contacts).get("/").text(), null);
});

test("pack and unpack", () => {
  const packed = capvet.packMessage(contacts);
  assert.deepEqual(capvet.unpackWords(packed), contacts);
  assert.deepEqual(capvet.unpackWords(capvet.packWords(four)), four);
  assert.deepEqual(packed, sample("contacts.packed"));
  assert.equal(thrown(() => capvet.packMessage(four)).reason, "Trailing");
  assert.equal(thrown(() => capvet.packMessage(contacts, { messageWords: 391 })).reason, "TooLarge");
  assert.equal(thrown(() => capvet.packWords(new Uint8Array(9))).constructor, RangeError);
  assert.deepEqual(capvet.packWords(new Uint8Array(0)), new Uint8Array(0));
  assert.deepEqual(capvet.unpackWords(new Uint8Array(0)), new Uint8Array(0));
  is(thrown(() => capvet.unpackWords(packed.subarray(0, packed.length - 1))), UnpackError, { answer: 4, reason: "Truncated" });
  is(thrown(() => capvet.unpackWords(packed, { maxSize: 3143 })), UnpackError, { answer: 3, reason: "TooLarge" });
  assert.deepEqual(capvet.unpackWords(packed, { maxSize: 3144 }), contacts);
  for (const maxSize of ["1", 1n]) assert.equal(thrown(() => capvet.unpackWords(packed, { maxSize })).constructor, TypeError);
  for (const maxSize of [-1, 0.5, NaN]) assert.equal(thrown(() => capvet.unpackWords(packed, { maxSize })).constructor, RangeError);
  // (256 zero words for each two bytes, which are more than is allowed)
  const zeros = new Uint8Array(80000).map((_, at) => (at % 2) * 255);
  is(thrown(() => capvet.unpackWords(zeros)), UnpackError, { answer: 3, reason: "TooLarge" });
});

test("results are copies, which no other call changes", () => {
  const first = vet(contacts).canonical(), copy = first.slice();
  vet(sample("telemetry.bin")).canonical();
  vet(withBytes(100000));
  assert.deepEqual(first, copy);
});

test("options of an unknown name are refused, and inherited ones are read", () => {
  const unpack = capvet.unpackWords, wrong = [() => unpack(contacts, { maxsize: 3 }), () => unpack(contacts, null),
    () => vet(contacts, { toString: 1 })];
  for (const call of wrong) {
    assert.equal(thrown(call).constructor, TypeError);
  }
  assert.equal(thrown(() => vet(contacts, Object.create({ depth: 3 }))).reason, "DepthLimit");
  assert.equal(thrown(() => vet(contacts, new (class { get depth() { return 3; } })())).reason, "DepthLimit");
});
