import assert from "node:assert/strict";
import { test } from "node:test";
import { PathError, peek, peekRange, vet } from "capvet";
import { framed, joined, sample, thrown, word } from "./samples.mjs";

const contacts = sample("contacts.bin");
const plain = (it) => it && { ...it, data: Buffer.from(it.data).toString("hex") };

/** A list of pointers, of which each third is null and the others lead to a struct of one word. */
function pointers(count) {
  const words = [word(1, 6 | (count << 3))];
  for (let index = 0; index < count; index++) words.push(index % 3 === 0 ? word(0) : word((count - 1 - index) << 2, 1));
  return framed(joined(...words, word(99)));
}

test("peekRange has what peek has for each path, and a message has the same", () => {
  const count = peek(contacts, "/p0").count;
  for (const [path, size] of [["/p0/i*", count], ["/p0/i*/p2", count], ["/p0/i1/p*", 6], ["/p*", peek(contacts, "/").pointers]]) {
    const found = [...peekRange(contacts, path)];
    assert.equal(found.length, size);
    found.forEach((it, index) => assert.deepEqual(plain(it), plain(peek(contacts, path.replace("*", String(index))))));
    const message = vet(contacts);
    assert.deepEqual([...message.getRange(path)].map(plain), found.map(plain));
    found.forEach((it, index) => assert.deepEqual(plain(it), plain(message.get(path.replace("*", String(index))))));
    assert.deepEqual([...message.getRange(path, { first: 1, count: 2 })].map(plain), found.slice(1, 3).map(plain));
    assert.throws(() => message.getRange(path, { depth: 3 }), TypeError);
  }
  assert.deepEqual([...peekRange(contacts, "/p0/i*/p0")].map((it) => it.text()).length, count);
});

test("lists that are longer than a block, with gaps", () => {
  const long = pointers(1000), found = [...peekRange(long, "/i*/p0", { allowNonstrict: true })];
  assert.equal(found.length, 1000);
  assert.ok(found.every((it) => it === null));
  const elements = [...peekRange(long, "/i*")];
  assert.equal(elements.length, 1000);
  elements.forEach((it, index) => assert.equal(it.kind, index % 3 === 0 ? "null" : "struct"));
});

test("first and count choose a part", () => {
  const long = pointers(600), offsets = [...peekRange(long, "/i*")].map((it) => it.offset);
  const parts = [[0, 0], [0, 1], [599, 5], [600, 5], [300, 257], [5, undefined], [4294967295, 3], [9007199254740991, 1]];
  for (const [first, count] of parts) {
    const found = [...peekRange(long, "/i*", { first, count })].map((it) => it.offset);
    assert.deepEqual(found, offsets.slice(first, count === undefined ? undefined : first + count));
  }
  const kindOf = (options) => thrown(() => peekRange(long, "/i*", options)).constructor;
  for (const wrong of [{ first: -1 }, { count: -1 }, { first: 0.5 }, { count: NaN }]) assert.equal(kindOf(wrong), RangeError);
  for (const wrong of [{ first: "1" }, { count: null }, { number: 1 }, { packed: true }]) assert.equal(kindOf(wrong), TypeError);
});

test("nothing is yielded where there is no list and no struct", () => {
  const nowhere = ["/i*", "/p0/p*", "/p0/i999/p*", "/p9/i*", "/p0/i0/p0/i*", "/p9/i*/p1"];
  for (const path of nowhere) assert.deepEqual([...peekRange(contacts, path)], []);
});

test("a path without a star, or with a wrong one, is an error of the call", () => {
  const positions = [
    ["/p0", 3], ["/p*/i*", 5], ["/p1*", 3], ["/p*1", 3], ["/*", 1], ["*", 0], ["/p*/", 4], ["/p*/x", 4], ["/", 1], ["", 0]];
  for (const [path, position] of positions) {
    const error = thrown(() => peekRange(contacts, path));
    assert.ok(error instanceof PathError, path);
    assert.equal(error.position, position, path);
  }
  for (const path of [undefined, 3]) assert.throws(() => peekRange(contacts, path), TypeError);
});

test("errors about the message come in the iteration, after the nodes before", () => {
  assert.equal(thrown(() => peekRange(contacts.subarray(0, 99), "/p*").next()).reason, "Truncated");
  const bad = pointers(10);
  // (a reserved kind in place of pointer 4)
  bad.set(word(3, 0).map((byte, at) => (at === 0 ? 7 : byte)), 8 + 8 + 8 * 4);
  const found = [], walk = peekRange(bad, "/i*");
  const error = thrown(() => { for (const it of walk) found.push(it); });
  assert.equal(error.reason, "Reserved");
  assert.deepEqual(error.position, { segment: 0, word: 5 });
  assert.equal(found.length, 4);
  assert.equal([...peekRange(bad, "/i*", { first: 5 })].length, 5);
});

test("other calls may come between, and iterations may take turns", () => {
  const long = pointers(700), alone = [...peekRange(long, "/i*")].map(plain), other = [...peekRange(contacts, "/p0/i*")].map(plain);
  const one = [], two = [], walk = peekRange(long, "/i*"), mate = peekRange(contacts, "/p0/i*", { depth: 200 });
  for (const it of walk) {
    one.push(plain(it));
    vet(contacts, { depth: 11 });
    vet(contacts).canonical();
    const next = mate.next();
    if (!next.done) two.push(plain(next.value));
  }
  assert.deepEqual(one, alone);
  assert.deepEqual(two, other);
});

test("an iteration goes on after the memory was replaced", async () => {
  const long = pointers(700), walk = peekRange(long, "/i*"), found = [];
  // (which takes so much memory that another instance of the module follows)
  assert.equal(thrown(() => vet(new Uint8Array(40 << 20))).reason, "Trailing");
  found.push(walk.next().value);
  await new Promise((resolve) => setTimeout(resolve, 50));
  found.push(...walk);
  assert.deepEqual(found.map(plain), [...peekRange(long, "/i*")].map(plain));
});
