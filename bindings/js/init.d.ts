import type { Bytes } from "./capvet.js";
export * from "./capvet.js";

/** What init() loads: the bytes of capvet.wasm, the compiled module, the response of `fetch`, or an address. */
export type ModuleSource = Bytes | WebAssembly.Module | Response | URL | string;

/**
 * Loads the module. Call it before any other function, and wait for it. Later calls do nothing.
 *
 * By default it loads `capvet.wasm` from the folder of the package: by `fetch`, or from a file in Node. Rejects with the error
 * of the engine, of `fetch` or of the file.
 */
export function init(source?: ModuleSource | Promise<ModuleSource>): Promise<void>;

/** The same at once. Browsers compile only small modules so, except in a worker: there pass a compiled module. */
export function initSync(source: Bytes | WebAssembly.Module): void;
