// Prints the least nanoseconds of a call of vet, canonicalInto and canonical for the message of a file: call_times.mjs PACKAGE FILE SECONDS
// The two copies are timed with vet before them, as the call from C vets first.
import { readFileSync } from "node:fs";
import { pathToFileURL } from "node:url";

const [name, file, seconds] = process.argv.slice(2), ROUND = 200;
const { vet } = await import(pathToFileURL(name).href);
const message = new Uint8Array(readFileSync(file)), out = vet(message).canonical();

function least(call) {
  let found = Infinity;
  for (const first = performance.now(); performance.now() - first < 1000 * seconds;) {
    const begin = performance.now();
    for (let time = 0; time < ROUND; time++) call(message);
    found = Math.min(found, ((performance.now() - begin) * 1e6) / ROUND);
  }
  return found.toFixed(1);
}

console.log(least(vet), least((it) => vet(it).canonicalInto(out)), least((it) => vet(it).canonical()));
