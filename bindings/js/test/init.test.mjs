// The package without top-level await, each time in another process.
import assert from "node:assert/strict";
import { execFileSync } from "node:child_process";
import { createRequire } from "node:module";
import { test } from "node:test";

const wasm = createRequire(import.meta.url).resolve("capvet/capvet.wasm"), about = JSON.stringify(wasm);

/** What a program prints, in the folder of the package. */
function ran(kind, program) {
  return execFileSync(process.execPath, [`--input-type=${kind}`, "-e", program], { cwd: new URL(".", import.meta.url), encoding: "utf8" });
}

const MESSAGE = "new Uint8Array([0, 0, 0, 0, 1, 0, 0, 0, 0, 0, 0, 0, 0, 0, 0, 0])";
const SAID = `console.log(vet(${MESSAGE}).report.pointers);`;

test("init takes the module from each source", () => {
  const bytes = `readFileSync(${about})`, sources = ["", bytes, `${bytes}.buffer.slice(0)`, `WebAssembly.compile(${bytes})`,
    `new WebAssembly.Module(${bytes})`, `new URL("file://" + ${about})`, `"file://" + ${about}`, `new Response(${bytes})`,
    `Promise.resolve(new Response(${bytes}))`];
  for (const source of sources.filter((it) => !it.includes("slice"))) {
    const imports = 'import { readFileSync } from "node:fs"; import { init, initSync, vet } from "capvet/init";';
    assert.equal(ran("module", `${imports} await init(${source}); await init(3); initSync(3); ${SAID}`), "1\n", source);
  }
  for (const source of [bytes, `new WebAssembly.Module(${bytes})`]) {
    const imports = 'import { readFileSync } from "node:fs"; import { initSync, vet } from "capvet/init";';
    assert.equal(ran("module", `${imports} initSync(${source}); ${SAID}`), "1\n", source);
  }
});

test("a module of CommonJS requires it", () => {
  const bytes = `require("node:fs").readFileSync(${about})`;
  assert.equal(ran("commonjs", `const { initSync, vet } = require("capvet/init"); initSync(${bytes}); ${SAID}`), "1\n");
  assert.equal(ran("commonjs", `const { init, vet } = require("capvet/init"); init().then(() => { ${SAID} });`), "1\n");
});

test("an engine that compiles no bytes takes a module", () => {
  const refusing = `import { readFileSync } from "node:fs";
    const bytes = readFileSync(${about}), given = new WebAssembly.Module(bytes), refuse = () => { throw new WebAssembly.CompileError("no"); };
    const { instantiate } = WebAssembly;
    WebAssembly.Module = new Proxy(WebAssembly.Module, { construct: refuse });
    WebAssembly.compile = WebAssembly.compileStreaming = WebAssembly.instantiateStreaming = async () => refuse();
    WebAssembly.instantiate = async (source, ...more) => (source instanceof WebAssembly.Module ? instantiate(source, ...more) : refuse());
    const { init, initSync, vet } = await import("capvet/init");
    const failed = await init(bytes).then(() => "compiled", (error) => error.message);`;
  for (const call of ["await init(given);", "initSync(given);"]) {
    assert.equal(ran("module", `${refusing} ${call} console.log(failed); ${SAID}`), "no\n1\n");
  }
});

test("a call before init says so", () => {
  const program = `import { vet } from "capvet/init"; try { vet(${MESSAGE}); } catch (error) { console.log(error.message); }`;
  assert.equal(ran("module", program), "capvet is not loaded: call init() first\n");
});
