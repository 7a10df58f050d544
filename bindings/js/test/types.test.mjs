import assert from "node:assert/strict";
import { readFileSync } from "node:fs";
import { createRequire } from "node:module";
import { test } from "node:test";
import * as capvet from "capvet";
import { CAPABILITY, sample, thrown } from "./samples.mjs";

const manifest = createRequire(import.meta.url).resolve("capvet/package.json");
const types = readFileSync(manifest.replace("package.json", "capvet.d.ts"), "utf8");
const contacts = sample("contacts.bin");

/** The fields that a class or an interface declares, and the getters and methods. */
function declared(name) {
  const [, body] = types.match(new RegExp(`^(?:export )?(?:class|interface) ${name} .*\\{\\n([^]*?)^\\}`, "m"));
  const found = (pattern) => [...body.matchAll(pattern)].map((it) => it[1]).filter((it) => it !== "constructor");
  return { fields: found(/^ {2}(?:readonly )?(\w+)\??:/gm), others: found(/^ {2}(?:get )?(\w+)\(/gm) };
}

const keys = (value) => Object.keys(value).sort();

test("the types declare each export", () => {
  assert.deepEqual([...types.matchAll(/^export (?:class|function) (\w+)/gm)].map((found) => found[1]).sort(), keys(capvet));
});

test("the types declare each field and method of what is returned", () => {
  const cycle = sample("cycle.bin"), message = capvet.vet(contacts);
  const values = {
    Report: message.report, Position: capvet.vet(CAPABILITY).report.firstCapability, Frame: capvet.frame(contacts), Node: message.get("/"),
    Difference: message.firstDifference(),
    Message: message, Refusal: thrown(() => capvet.vet(cycle)), FrameError: thrown(() => capvet.vet(new Uint8Array(0))),
    CapabilityError: thrown(() => capvet.vet(CAPABILITY).canonical()), PathError: thrown(() => message.get("")),
    UnpackError: thrown(() => capvet.unpackWords(new Uint8Array(1))),
  };
  for (const [name, value] of Object.entries(values)) {
    const { fields, others } = declared(name), inherited = value instanceof Error ? declared("CapvetError").fields : [];
    assert.deepEqual([...new Set([...fields, ...inherited])].sort(), keys(value), name);
    const all = Object.getOwnPropertyNames(Object.getPrototypeOf(value));
    const methods = all.filter((it) => !["constructor", "name", "toObject"].includes(it));
    if (!["Position", "Frame", "Difference"].includes(name)) assert.deepEqual(others.sort(), methods.sort(), name);
  }
});

test("the types declare each limit", () => {
  assert.equal(declared("Limits").fields.length, 6);
  const numbers = { messageWords: 400, charge: 400, depth: 60 };
  for (const name of declared("Limits").fields) {
    assert.equal(capvet.vet(contacts, { [name]: numbers[name] ?? true }).report.charge, 391);
  }
});

test("the types declare each reason", () => {
  const reasons = (name) => [...types.match(new RegExp(`type ${name} =([^;]*);`))[1].matchAll(/"(\w+)"/g)].map((it) => it[1]);
  const about = createRequire(import.meta.url).resolve("capvet/package.json").replace("package.json", "src/answers.js");
  const numbers = [...readFileSync(about, "utf8").matchAll(/\[(\d+), "(\w+)"\]/g)].map(([, number, name]) => [Number(number), name]);
  const named = (are) => numbers.filter(([number]) => are(number)).map(([, name]) => name).sort();
  assert.deepEqual(reasons("FrameReason").sort(), named((it) => it < 8 || it === 12));
  assert.deepEqual(reasons("RefusalReason").sort(), named((it) => it > 17 && it !== 21));
  const [, listed] = readFileSync(about.replace("answers.js", "difference.js"), "utf8").match(/^const DIFFERENCES = \[([^\]]*)\]/m);
  assert.deepEqual(reasons("DifferenceReason"), [...listed.matchAll(/"(\w+)"/g)].map((it) => it[1]));
});
