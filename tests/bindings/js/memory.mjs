// Prints a length and bytes of the process: memory.mjs PACKAGE packed|plain|back
//
// `packed` and `plain` read a stream of a gigabyte, and print the most memory. `back` vets a large message, and prints the memory
// before it and some time after it. It needs the option --expose-gc.
import { setTimeout } from "node:timers/promises";
import { pathToFileURL } from "node:url";

const [name, form] = process.argv.slice(2), GIGABYTE = 2 ** 30, LARGE = 2 ** 28;
const { packWords, readMessages, vet } = await import(pathToFileURL(name).href);
const memory = () => process.memoryUsage().rss;

/** A message with a list of bytes, which take so many bytes in all. */
function message(size) {
  const words = new Uint8Array(size).fill(7), view = new DataView(words.buffer), length = size - 24;
  for (const [at, value] of [[0, 0], [4, size / 8 - 1], [8, 0], [12, 1 << 16], [16, 1], [20, 2 | (length << 3)]]) {
    view.setUint32(at, value, true);
  }
  return words;
}

async function* chunks(bytes, times) {
  for (let time = 0; time < times; time++) {
    // (new chunks, as a socket has)
    for (let at = 0; at < bytes.length; at += 65536) yield bytes.slice(at, at + 65536);
  }
}

async function stream() {
  const one = message(2 ** 20), bytes = form === "packed" ? packWords(one) : one;
  let length = 0, most = 0;
  for await (const it of readMessages(chunks(bytes, GIGABYTE / one.length), { packed: form === "packed" })) {
    length += it.data.length;
    most = Math.max(most, memory());
  }
  console.log(length, most);
}

async function back() {
  const large = message(LARGE), before = memory(), { length } = vet(large, { messageWords: LARGE / 8, charge: LARGE / 8 }).data;
  const during = memory();
  for (let time = 0; time < 3_600 && memory() > before + LARGE / 8; time++) {
    await setTimeout(50);
    gc();
  }
  console.log(length, before, during, memory());
}

await (form === "back" ? back() : stream());
