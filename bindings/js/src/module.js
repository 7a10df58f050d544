// The WebAssembly module: its calls, its memory, and the places of arguments in it.

const PAGE = 65536;
// A memory above this size is given back: another instance takes the place of the one that has it.
const KEPT = 16 << 20;

// Places, counted from the first byte that the module does not use itself. Inputs begin at INPUT, and outputs follow them.
export const LIMITS = 0, PIECE_LIMITS = 80, REPORT = 160, REQUIRED = 288, SECOND = 296, STATE = 304, NODES = 352, INPUT = 16384;
// How many nodes have space between NODES and INPUT, and the bytes of one.
export const BLOCK = 256, NODE_SIZE = 56;

let compiledModule, base, isReplacing = false;

// (so that a call before the module is loaded says so)
const UNLOADED = new Proxy({}, { get() { throw new Error("capvet is not loaded: call init() first"); } });

/** The calls of the header, by name. */
export let calls = UNLOADED;
/** The memory from place 0 on. Both are others after `reserve`. */
export let bytes = UNLOADED, view = UNLOADED;
/** The addresses of the places. */
export let at = UNLOADED;
/** A number that changes whenever other bytes are placed at INPUT. */
export let generation = 0;

/** Compiles bytes, unless that was done, and takes an instance of them or of a module. */
export async function load(source) {
  const compiled = source instanceof WebAssembly.Module ? source : await WebAssembly.compile(source);
  const instance = await WebAssembly.instantiate(compiled, {});
  if (compiledModule === undefined) begin(compiled, instance);
}

/** The same at once. */
export function loadSync(source) {
  const compiled = source instanceof WebAssembly.Module ? source : new WebAssembly.Module(source);
  if (compiledModule === undefined) begin(compiled, new WebAssembly.Instance(compiled, {}));
}

export function isLoaded() {
  return compiledModule !== undefined;
}

function begin(compiled, instance) {
  compiledModule = compiled;
  use(instance);
}

function use(instance) {
  calls = instance.exports;
  base = Math.ceil(calls.__heap_base.value / 16) * 16;
  at = {
    limits: address(LIMITS), pieceLimits: address(PIECE_LIMITS), report: address(REPORT), required: address(REQUIRED),
    second: address(SECOND), state: address(STATE), nodes: address(NODES), input: address(INPUT),
  };
  generation++;
  grow(INPUT);
}

/** The address of a place. */
export function address(place) {
  return base + place;
}

function grow(size) {
  const lacking = base + size - calls.memory.buffer.byteLength;
  if (lacking > 0) calls.memory.grow(Math.ceil(lacking / PAGE));
  bytes = new Uint8Array(calls.memory.buffer, base);
  view = new DataView(calls.memory.buffer, base);
}

/** Grows the memory until it has places up to `size`. Throws RangeError if the engine has no more. */
export function reserve(size) {
  if (size <= bytes.length) return;
  grow(size);
  if (calls.memory.buffer.byteLength > KEPT) replaceLater();
}

/** Takes another instance, after the call that is running. The memory of a module never shrinks. */
function replaceLater() {
  if (isReplacing) return;
  isReplacing = true;
  const end = () => { isReplacing = false; };
  // (without memory for another instance this one goes on)
  WebAssembly.instantiate(compiledModule, {}).then(use).then(end, end);
}

/** Copies bytes to INPUT, and reserves `capacity` bytes after them. */
export function place(input, capacity = 0) {
  reserve(after(input.length) + capacity);
  bytes.set(input, INPUT);
  generation++;
}

/** The first place after an input of this length where a number may be. */
export function after(length) {
  return INPUT + Math.ceil(length / 8) * 8;
}

/** The number of 64 bits at a place. Each one that the calls return is below 2^53. */
export function number(from) {
  return view.getUint32(from, true) + 4294967296 * view.getUint32(from + 4, true);
}

/** Writes a number of 64 bits. */
export function setNumber(from, value) {
  view.setUint32(from, value % 4294967296, true);
  view.setUint32(from + 4, value / 4294967296, true);
}

/** Any bytes as a Uint8Array over the same memory, or one of a class below it. */
export function bytesOf(data) {
  return data instanceof Uint8Array && !isShared(data.buffer) ? data : plainBytesOf(data);
}

/** The same as a Uint8Array that is of no class below it: what the package returns parts of. */
export function plainBytesOf(data) {
  // (a view takes longer to make than most calls do)
  if (data instanceof Uint8Array && Object.getPrototypeOf(data) === Uint8Array.prototype && !isShared(data.buffer)) return data;
  const isView = ArrayBuffer.isView(data), buffer = isView ? data.buffer : data;
  if (isShared(buffer)) throw new TypeError("another thread could change shared memory after it was vetted: copy it first");
  if (isView) return new Uint8Array(buffer, data.byteOffset, data.byteLength);
  if (buffer instanceof ArrayBuffer) return new Uint8Array(buffer);
  throw new TypeError("the data have to be an ArrayBuffer, or a view of one such as a Uint8Array");
}

function isShared(buffer) {
  // (the first comparison takes a third of the time of the second one, and not every page has shared memory)
  if (Object.getPrototypeOf(Object(buffer)) === ArrayBuffer.prototype) return false;
  return typeof SharedArrayBuffer !== "undefined" && buffer instanceof SharedArrayBuffer;
}
