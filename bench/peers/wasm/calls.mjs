// Times calls of the module over the messages of a file, as calls.c does: calls.mjs MODULE FILE SECONDS.
import { readFileSync } from "node:fs";

// (the least milliseconds between two looks at the clock)
const PAGE = 65536, SPAN = 0.1, LIMITS = 0, REPORT = 80, REQUIRED = 200, INPUT = 208;

const [name, file, seconds] = process.argv.slice(2);
const { instance } = await WebAssembly.instantiate(readFileSync(name), {});
const { memory, __heap_base, capvet_vet, capvet_canonical } = instance.exports;
const bytes = readFileSync(file), base = __heap_base.value;
const out = base + INPUT + bytes.length, size = 2 * bytes.length + 64;
memory.grow(Math.ceil((out + size - memory.buffer.byteLength) / PAGE));
new Uint8Array(memory.buffer, base + INPUT).set(bytes);
const view = new DataView(memory.buffer, base);
// (both flags, and the form of a prefix)
[2n ** 28n, 2n ** 28n, 256n | (3n << 32n), 1n].forEach((word, i) => view.setBigUint64(LIMITS + 8 * i, word, true));

const input = base + INPUT, [limits, report, required] = [LIMITS, REPORT, REQUIRED].map((place) => base + place);
const calls = [
  (at, left) => capvet_vet(input + at, left, limits, report),
  (at, left) => capvet_canonical(input + at, left, limits, out, size, required, report),
];
const least = [Infinity, Infinity];
let messages = 0;
calls.forEach((call, i) => {
  const first = performance.now();
  let end, passes = 1;
  do {
    const begin = performance.now();
    for (let pass = 0; pass < passes; pass++) {
      messages = 0;
      for (let at = 0; at < bytes.length; at += view.getUint32(REPORT, true), messages++)
        if (call(at, bytes.length - at) !== 0) process.exit(1);
    }
    end = performance.now();
    least[i] = Math.min(least[i], ((end - begin) * 1e6) / (passes * messages));
    if (end - begin < SPAN) passes *= 2;
  } while (end - first < 1000 * Number(seconds));
});
console.log(messages, ...least.map((it) => it.toFixed(1)));
