import assert from "node:assert/strict";
import { Readable } from "node:stream";
import { setImmediate as turn } from "node:timers/promises";
import { test } from "node:test";
import {
  FrameError, Message, MessageStream, Refusal, frame, messages, packMessage, packWords, readMessages, vet, vetPrefix,
  VettedByteStream,
} from "capvet";
import { CAPABILITY, NULL_ROOT, STRUCT, all, framed, joined, sample, thrown, withBytes, word } from "./samples.mjs";

const contacts = sample("contacts.bin"), many = sample("contacts-many-segments.bin");
const four = sample("stream-of-four.bin"), cycle = sample("cycle.bin");
// (the long runs of zeros and of other bytes are longer than what is unpacked at once)
const long = [withBytes(70000), withBytes(70000, () => 0)];
const stream = joined(contacts, cycle, many, NULL_ROOT, CAPABILITY, ...long, STRUCT);
const packedWhole = packWords(stream), packedEach = joined(...[...messages(stream)].map((it) => packMessage(bytesOf(it))));

/** The bytes of a message that is accepted or refused. */
function bytesOf(verdict) {
  return verdict instanceof Refusal ? verdict.unvetted : verdict.data;
}

/** The bytes in chunks of a size. */
function* chunks(bytes, size) {
  for (let at = 0; at < bytes.length; at += size) yield bytes.subarray(at, at + size);
}

const hex = (bytes) => Buffer.from(bytes).toString("hex");
const brief = (it) => (
  { number: it.number, bytes: hex(bytesOf(it)), report: it.report, message: it.message, isAccepted: it instanceof Message });
const expected = [...messages(stream)].map(brief);

test("messages of a buffer, in place", () => {
  const found = [...messages(stream)];
  assert.deepEqual(found.map((it) => it.number), [0, 1, 2, 3, 4, 5, 6, 7]);
  let offset = 0;
  for (const it of found) {
    assert.equal(it.offset, offset);
    assert.equal(bytesOf(it).buffer, stream.buffer);
    offset += bytesOf(it).length;
  }
  const [first, second] = found;
  assert.ok(first instanceof Message && second instanceof Refusal && second instanceof Error);
  assert.deepEqual([first.data, first.report, first.unvetted], [contacts, vet(contacts).report, undefined]);
  assert.deepEqual([second.unvetted, second.data, second.reason, second.path], [cycle, undefined, "DepthLimit", "/p0".repeat(64)]);
  assert.deepEqual([...messages(new Uint8Array(0))], []);
  assert.equal([...messages(sample("shared.bin"), { exclusive: true })][0].reason, "Overlap");
  assert.equal([...messages(contacts, { depth: 5 })][0].reason, "DepthLimit");
});

test("messages of a buffer end where it stops being a stream", () => {
  const walk = messages(joined(contacts, cycle, contacts.subarray(0, 100)));
  assert.equal(walk.next().value.number, 0);
  assert.equal(walk.next().value.number, 1);
  const error = thrown(() => walk.next());
  assert.ok(error instanceof FrameError);
  assert.deepEqual([error.reason, error.required, error.number, error.offset], ["Truncated", 3144, 2, 3160]);
  assert.equal(thrown(() => [...messages(joined(contacts, contacts), { messageWords: 391 })]).reason, "TooLarge");
  assert.equal(thrown(() => messages(contacts, { packed: true })).constructor, TypeError);
  assert.equal(thrown(() => messages(contacts, { packed: 1 })).constructor, TypeError);
});

test("a buffer takes memory for one message at a time", async () => {
  const large = new Uint8Array(1 << 25), grow = WebAssembly.Memory.prototype.grow;
  for (let at = 0; at < large.length; at += STRUCT.length) large.set(STRUCT.subarray(0, large.length - at), at);
  let pages = 0, count = 0;
  WebAssembly.Memory.prototype.grow = function (more) {
    pages += more;
    return grow.call(this, more);
  };
  try {
    for (const it of messages(large)) {
      assert.deepEqual(it.data, STRUCT);
      if (++count === 1000) break;
      if (count % 100 === 0) await turn();
    }
    assert.equal(vetPrefix(large).message.data.length, STRUCT.length);
    assert.equal(frame(large).length, STRUCT.length);
  } finally {
    WebAssembly.Memory.prototype.grow = grow;
  }
  assert.equal(count, 1000);
  assert.ok(pages <= 4, `${pages} pages`);
});

test("streams in chunks of any size have the messages of the buffer", async () => {
  for (const [bytes, packed] of [[stream, false], [packedWhole, true], [packedEach, true]]) {
    for (const size of [1, 2, 3, 7, 8, 9, 64, 1000, 4096, 65536, bytes.length]) {
      const found = await all(readMessages(chunks(bytes, size), { packed }));
      assert.deepEqual(found.map(brief), expected, `${packed} ${size}`);
    }
  }
});

test("each kind of source is read", async () => {
  const sources = [
    () => [stream], () => [stream.slice().buffer], () => [new Uint8Array(0), stream, new Uint8Array(0)],
    () => Readable.from(chunks(Buffer.from(stream), 1000)), () => (async function* () { yield* chunks(stream, 999); })(),
    () => new Blob([stream]).stream(), () => new Response(stream).body];
  for (const source of sources) assert.deepEqual((await all(readMessages(source()))).map(brief), expected);
  for (const source of [undefined, null, "text", 3, {}, stream]) assert.throws(() => readMessages(source), TypeError);
  await assert.rejects(all(readMessages(["text"])), TypeError);
  assert.deepEqual(await all(readMessages([])), []);
});

test("offsets count the bytes of the stream", async () => {
  const plain = await all(readMessages(chunks(stream, 100)));
  assert.deepEqual(plain.map((it) => it.offset), [...messages(stream)].map((it) => it.offset));
  let offset = 0;
  for (const it of await all(readMessages(chunks(packedEach, 100), { packed: true }))) {
    assert.equal(it.offset, offset);
    offset += packMessage(bytesOf(it)).length;
  }
});

test("a message has bytes of its own", async () => {
  const chunk = joined(contacts, cycle), walk = readMessages([chunk]);
  const { value } = await walk.next();
  chunk.fill(0);
  assert.deepEqual(value.data, contacts);
  assert.equal(value.data.buffer.byteLength, contacts.length);
});

/** A source whose chunks are given one by one. It counts how many were asked for. */
class Hand {
  waiting = [];
  asked = 0;
  returned = 0;

  next() {
    this.asked++;
    return new Promise((resolve, reject) => { this.waiting.push({ resolve, reject }); });
  }

  give(value) {
    this.waiting.shift().resolve({ done: value === undefined, value });
  }

  return() {
    this.returned++;
    return Promise.resolve({ done: true, value: undefined });
  }

  [Symbol.asyncIterator]() {
    return this;
  }
}

test("a message comes with its last byte, whatever of the next one comes with it", async () => {
  const next = many;
  for (const packed of [false, true]) {
    const zeros = framed(joined(word(0, 3), new Uint8Array(24))), nines = framed(joined(word(0, 3), new Uint8Array(24).fill(9)));
    // (a message of one word, which takes as many packed bytes as a word can)
    const one = framed(word(0x01010101, 0x01010101));
    for (const message of [STRUCT, contacts, zeros, nines, one]) {
      const first = packed ? packMessage(message) : message, second = packed ? packMessage(next) : next;
      for (const part of [0, 1, 4, 7, 8, 9, 100, second.length - 1]) {
        for (const cut of [0, 1, first.length - 1]) {
          const hand = new Hand(), walk = readMessages(hand, { packed }), coming = walk.next();
          hand.give(first.subarray(0, cut));
          await turn();
          hand.give(joined(first.subarray(cut), second.subarray(0, part)));
          const { value } = await coming;
          assert.deepEqual(bytesOf(value), message);
          assert.equal(hand.asked, 2);
          const two = walk.next();
          await turn();
          assert.equal(hand.asked, 3);
          hand.give(second.subarray(part));
          assert.deepEqual((await two).value.data, next);
        }
      }
    }
  }
});

test("a chunk with many messages is not read ahead of", async () => {
  const hand = new Hand(), walk = readMessages(hand), first = walk.next();
  hand.give(joined(four, four));
  await first;
  for (let index = 1; index < 8; index++) assert.equal((await walk.next()).value.number, index);
  assert.equal(hand.asked, 1);
  const last = walk.next();
  await turn();
  hand.give(undefined);
  assert.deepEqual(await last, { done: true, value: undefined });
});

test("a stream that is cut ends in a FrameError with the offset of the message", async () => {
  const short = joined(STRUCT, cycle, contacts.subarray(0, 200)), starts = [0, 24, 40];
  for (let at = 0; at <= short.length; at++) {
    const found = [], last = Math.max(...starts.filter((it) => it <= at));
    const read = async () => { for await (const it of readMessages(chunks(short.subarray(0, at), 11))) found.push(it.offset); };
    if (starts.includes(at)) await read();
    else await assert.rejects(read, (error) => error instanceof FrameError && error.reason === "Truncated" && error.offset === last);
    assert.deepEqual(found, starts.filter((it) => it < last));
  }
});

test("a packed stream that is cut ends in a FrameError", async () => {
  const parts = [STRUCT, cycle, many].map((it) => packMessage(it)), packed = joined(...parts);
  const ends = [0, parts[0].length, parts[0].length + parts[1].length, packed.length];
  for (let at = 0; at <= packed.length; at++) {
    const found = [], walk = readMessages(chunks(packed.subarray(0, at), 11), { packed: true });
    const read = async () => { for await (const it of walk) found.push(it.offset); };
    if (ends.includes(at)) await read();
    else await assert.rejects(read, (error) => error instanceof FrameError && error.reason === "Truncated");
    assert.deepEqual(found, ends.slice(0, 3).filter((_, index) => ends[index + 1] <= at));
  }
});

test("a packed stream that ends before the words of its last run is cut", async () => {
  const message = framed(joined(word(0, 1), word(0x01010101, 0x01010101))), packed = packMessage(message);
  assert.deepEqual([...packed.subarray(-10)], [255, 1, 1, 1, 1, 1, 1, 1, 1, 0]);
  packed[packed.length - 1] = 1;
  const walk = readMessages([packed], { packed: true });
  assert.deepEqual((await walk.next()).value.data, message);
  await assert.rejects(walk.next(), (error) => error.reason === "Truncated" && error.offset === packed.length);
});

test("a table above the limits ends the stream", async () => {
  for (const packed of [false, true]) {
    const bad = joined(STRUCT, word(0, 4294967295), contacts), source = packed ? packWords(bad) : bad;
    const walk = readMessages([source], { packed });
    assert.equal((await walk.next()).value.number, 0);
    await assert.rejects(walk.next(), (error) => error.reason === "TooLarge" && error.words === 4294967295 && error.number === 1);
    assert.deepEqual(await walk.next(), { done: true, value: undefined });
  }
});

test("an error of the source passes, and a source is left when the iteration is", async () => {
  const fault = new Error("the line is cut"), hand = new Hand(), walk = readMessages(hand), first = walk.next();
  hand.give(joined(STRUCT, STRUCT.subarray(0, 9)));
  await first;
  const second = walk.next();
  await turn();
  hand.waiting.shift().reject(fault);
  await assert.rejects(second, fault);
  const other = new Hand(), early = readMessages(other), one = early.next();
  other.give(STRUCT);
  await one;
  await early.return();
  assert.equal(other.returned, 1);
  const file = Readable.from(chunks(Buffer.from(stream), 1000));
  for await (const it of readMessages(file)) if (it.number === 1) break;
  assert.equal(file.destroyed, true);
  let reason;
  const web = new ReadableStream({ start(it) { it.enqueue(stream); }, cancel(it) { reason = [it]; } });
  for await (const it of readMessages(web)) if (it.number === 1) break;
  assert.deepEqual(reason, [undefined]);
});

test("a MessageStream has the same messages", async () => {
  for (const [bytes, packed] of [[stream, false], [packedWhole, true], [packedEach, true]]) {
    for (const size of [64, 1000, bytes.length]) {
      const source = new ReadableStream({ start(it) { for (const chunk of chunks(bytes, size)) it.enqueue(chunk); it.close(); } });
      const found = await all(source.pipeThrough(new MessageStream({ packed })));
      assert.deepEqual(found.map(brief), expected);
    }
  }
});

test("a MessageStream makes no message before it is asked for, and takes no second chunk", async () => {
  const pair = new MessageStream(), writer = pair.writable.getWriter();
  let taken = 0;
  const writes = [four, four, four].map((chunk) => writer.write(chunk).then(() => taken++));
  await turn();
  assert.equal(taken, 0);
  const reader = pair.readable.getReader();
  for (let index = 0; index < 4; index++) assert.equal((await reader.read()).value.number, index);
  await turn();
  assert.ok(taken <= 1);
  for (let index = 4; index < 12; index++) assert.equal((await reader.read()).value.number, index);
  await Promise.all(writes);
  const closed = writer.close();
  assert.equal((await reader.read()).done, true);
  await closed;
});

test("a refusal of a stream has no stack, and one that is thrown has", async () => {
  const [refusal] = await all(readMessages([cycle]));
  assert.equal(refusal.stack.trim(), `Refusal: ${refusal.message}`);
  assert.match(thrown(() => vet(cycle)).stack, /streams\.test\.mjs/);
});

test("errors and cancellation pass through a MessageStream", async () => {
  const pair = new MessageStream(), writer = pair.writable.getWriter(), reader = pair.readable.getReader();
  const write = writer.write(joined(STRUCT, word(0, 4294967295)));
  assert.equal((await reader.read()).value.number, 0);
  await assert.rejects(reader.read(), FrameError);
  await write.catch(() => {});
  await assert.rejects(writer.closed, FrameError);
  const cut = new MessageStream(), cutWriter = cut.writable.getWriter(), cutReader = cut.readable.getReader();
  cutWriter.write(STRUCT.subarray(0, 20)).catch(() => {});
  cutWriter.close().catch(() => {});
  await assert.rejects(cutReader.read(), (error) => error.reason === "Truncated" && error.required === 24);
  const left = new MessageStream(), leftWriter = left.writable.getWriter(), why = new Error("enough");
  await left.readable.cancel(why);
  await assert.rejects(leftWriter.closed, why);
  const broken = new MessageStream(), brokenWriter = broken.writable.getWriter(), fault = new Error("the line is cut");
  const read = broken.readable.getReader().read();
  brokenWriter.abort(fault).catch(() => {});
  await assert.rejects(read, fault);
});

test("a VettedByteStream has the bytes of accepted messages", async () => {
  const accepted = [...messages(stream)].filter((it) => it instanceof Message).map((it) => it.data);
  for (const [bytes, packed] of [[stream, false], [packedEach, true]]) {
    for (const size of [7, 1000, bytes.length]) {
      const source = () => new ReadableStream({ start(it) { for (const part of chunks(bytes, size)) it.enqueue(part); it.close(); } });
      const refused = [], onRefused = (refusal) => refused.push(refusal);
      assert.deepEqual(await all(source().pipeThrough(new VettedByteStream({ packed, onRefused }))), accepted);
      assert.deepEqual(refused.map((it) => [it.number, it.reason, hex(it.unvetted)]), [[1, "DepthLimit", hex(cycle)]]);
      // (by default nothing passes after a refused message)
      const found = [], passed = source().pipeThrough(new VettedByteStream({ packed }));
      await assert.rejects(async () => { for await (const it of passed) found.push(it); }, (error) => error instanceof Refusal && error.number === 1);
      assert.deepEqual(found, [contacts]);
    }
  }
  const cut = new Blob([contacts.subarray(0, 99)]).stream().pipeThrough(new VettedByteStream());
  await assert.rejects(all(cut), (error) => error instanceof FrameError && error.reason === "Truncated");
  for (const wrong of [{ onRefused: 1 }, { depth: "3" }, { onrefused() {} }]) assert.throws(() => new VettedByteStream(wrong), TypeError);
});

test("many streams take turns", async () => {
  const walks = [false, true, false, true].map((packed, index) => {
    return readMessages(chunks(packed ? packedWhole : stream, 500 + 77 * index), { packed });
  });
  const found = await Promise.all(walks.map(all));
  for (const it of found) assert.deepEqual(it.map(brief), expected);
});
