// Fuzz target: the package for JavaScript beside the native library.
//
//     fuzz.mjs PACKAGE NATIVE CORPUS KEPT [SECONDS [SEED [LINES]]]
//
// PACKAGE is capvet.js of the package, and NATIVE the program that native.c is. Each input of the folders CORPUS and KEPT runs once.
// For SECONDS inputs are then changed. Those that run something new of the package, by the blocks that Node counts, are kept in
// KEPT and changed further. The SEED 0 is another one each time. LINES is a file for the lines that were run. An input is 16 bytes
// of arguments and then a message or a stream: see fuzz.h. A difference ends the process, with status 1. The last line is
// 'Done N runs'.
import { createHash } from "node:crypto";
import { mkdirSync, readFileSync, readdirSync, writeFileSync } from "node:fs";
import { join } from "node:path";
import { pathToFileURL } from "node:url";
import { Asks, difference } from "./asks.mjs";
import { Chance, changed, inputOf } from "./input.mjs";
import { Native } from "./native.mjs";
import { Reached } from "./reached.mjs";

const [name, program, corpus, kept, seconds = "0", seed = "0", lines] = process.argv.slice(2);
const source = pathToFileURL(name).href;
const reached = new Reached(source.slice(0, source.lastIndexOf("/") + 1));
const capvet = await import(source), native = new Native(program);
const found = [];
let runs = 0;

/** Runs an input, and keeps it if it reaches something new. Returns what is wrong, or null. */
async function runOne(whole) {
  const input = inputOf(whole);
  if (input === null) return null;
  runs++;
  const asks = new Asks(capvet, input);
  await asks.run();
  const wrong = difference(asks.all, await native.answers(input, asks.all));
  let isNew = reached.take();
  // (and what the answers are, since the module is not counted)
  for (const { call, line, lines: several } of asks.all) {
    isNew = reached.add(`${call} ${(line ?? several[0] ?? "").split(" ")[0]}`) || isNew;
  }
  if (isNew) found.push(whole);
  return wrong;
}

/** Runs an input. A finding is written to a file, and ends the process. */
async function check(whole) {
  let wrong;
  try {
    wrong = await runOne(whole);
  } catch (error) {
    wrong = String(error.stack);
  }
  if (wrong === null) return;
  const folder = `${kept}-findings`, file = join(folder, createHash("sha1").update(whole).digest("hex"));
  mkdirSync(folder, { recursive: true });
  writeFileSync(file, whole);
  const said = wrong.startsWith("Error: RULE") ? wrong.slice(7) : `RULE BROKEN js: ${wrong}`;
  console.log(`${said}\nTest unit written to ${file}\nDone ${runs} runs`);
  process.exit(1);
}

const inputsOf = (folder) => readdirSync(folder).sort().map((file) => new Uint8Array(readFileSync(join(folder, file))));

mkdirSync(kept, { recursive: true });
for (const whole of [...inputsOf(corpus), ...inputsOf(kept)]) await check(whole);
const chance = new Chance(Number(seed) || Date.now()), end = performance.now() + 1000 * Number(seconds);
while (performance.now() < end) {
  const before = found.length, [one, other] = [0, 0].map(() => found[chance.below(before)]);
  const whole = changed(one, other, chance);
  await check(whole);
  if (found.length > before) writeFileSync(join(kept, createHash("sha1").update(whole).digest("hex")), whole);
}
if (lines !== undefined) writeFileSync(lines, JSON.stringify(reached.lines()));
native.end();
console.log(`Done ${runs} runs`);
