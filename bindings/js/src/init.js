// Loads the module.
import { isLoaded, load, loadSync } from "./module.js";

// (a name that bundlers for browsers don't look for)
const FILES = "node:fs/promises";

async function readModule(url) {
  if (url.protocol === "file:") return (await import(/* webpackIgnore: true */ /* @vite-ignore */ FILES)).readFile(url);
  return responseBytes(await fetch(url));
}

function responseBytes(response) {
  if (!response.ok) throw new Error(`${response.url}: status ${response.status}`);
  return response.arrayBuffer();
}

export async function init(source = new URL("../capvet.wasm", import.meta.url)) {
  if (isLoaded()) return;
  const given = await source;
  if (typeof given === "string" || given instanceof URL) await load(await readModule(new URL(given, globalThis.location?.href)));
  else await load(typeof given?.arrayBuffer === "function" ? await responseBytes(given) : given);
}

export function initSync(source) {
  if (!isLoaded()) loadSync(source);
}
