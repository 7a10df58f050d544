#!/usr/bin/env node
// Puts the files of the package into a folder: build.mjs MODULE FOLDER [PROGRAM]
//
// MODULE is build/capvet.wasm. The folder gets the files that package.json names, package.json itself and README.md. Among them
// is capvet-inlined.js: the whole package as one file, with the module in it as base64. It imports nothing and loads nothing.
//
// PROGRAM is the program as a module for WASI, which packaging/plain_builds.py builds. Without it the package has only the library.
import { cpSync, mkdirSync, readFileSync, writeFileSync } from "node:fs";
import { join } from "node:path";
import { fileURLToPath } from "node:url";

const HERE = fileURLToPath(new URL(".", import.meta.url));
// (each file after those whose constants it uses)
const SOURCES = ["module", "table", "limits", "answers", "calls", "nodes", "difference", "message", "feed", "streams"];

const text = (name) => readFileSync(join(HERE, name), "utf8");

/** A file without its imports, and with names that are no longer exported. */
function joined(name) {
  const alone = text(`src/${name}.js`).replace(/^import [^;]*;\n/gm, "");
  return alone.replace(/^export (?=(async )?(class|const|function|let)\b)/gm, "");
}

const NAMES = [...text("src/index.js").matchAll(/^export \{([^}]*)\} from /gm)].flatMap((found) => found[1].match(/\w+/g));
const [COMMENT] = text("capvet.js").match(/^(\/\/.*\n)+/);

/** The package as one file, with the module inside. */
function inlined(module) {
  return [COMMENT, ...SOURCES.map(joined),
    `await load(Uint8Array.from(atob("${module.toString("base64")}"), (letter) => letter.charCodeAt(0)));\n`,
    `export { ${NAMES.join(", ")} };\n`].join("\n");
}

/** The package with init() as one file for `require`. */
function common() {
  const all = [...SOURCES, "init"].map(joined).join("\n");
  const here = 'new URL("capvet.wasm", require("node:url").pathToFileURL(__filename))';
  return `"use strict";\n${all.replace('new URL("../capvet.wasm", import.meta.url)', here)}
module.exports = { ${[...NAMES, "init", "initSync"].join(", ")} };\n`;
}

/** The text of package.json. It names the program only if there is one. */
function about(isProgramThere) {
  const { bin, files, ...more } = JSON.parse(text("package.json"));
  const all = isProgramThere ? { ...more, bin, files } : { ...more, files: files.filter((name) => name !== "bin") };
  return `${JSON.stringify(all, null, 2)}\n`;
}

const [module, folder, program] = process.argv.slice(2);
if (folder === undefined) {
  console.error("usage: build.mjs MODULE FOLDER [PROGRAM]");
  process.exit(2);
}
mkdirSync(folder, { recursive: true });
writeFileSync(join(folder, "package.json"), about(program !== undefined));
for (const name of ["README.md", "capvet.js", "capvet.d.ts", "init.js", "init.d.ts", "src", ...(program === undefined ? [] : ["bin"])]) {
  cpSync(join(HERE, name), join(folder, name), { recursive: true });
}
if (program !== undefined) writeFileSync(join(folder, "bin/capvet.wasm"), readFileSync(program));
cpSync(module, join(folder, "capvet.wasm"));
writeFileSync(join(folder, "capvet-inlined.js"), inlined(readFileSync(module)));
writeFileSync(join(folder, "capvet-init.cjs"), common());
// (a module of CommonJS can't take the types of one of the other kind)
writeFileSync(join(folder, "init.d.cts"), text("capvet.d.ts") + text("init.d.ts").replace(/^(import|export \*) .*\n/gm, ""));
