// The package without top-level await: call init() or initSync() before any other function.
export * from "./src/index.js";
export { init, initSync } from "./src/init.js";
