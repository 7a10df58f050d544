// Makes the calls that a list of bytes describes with the module, and returns what each one left, as replay.c does.

const FILLED = 0xee, PAGE = 65536;

// For each call of replay.c its name, and for each argument whether it is a place, a size or number of 64 bits in C, or a number of
// 32 bits. The module takes 32 bits for each: a number above them is passed as the greatest one, which no message reaches either.
const CALLS = [
  ["capvet_version", ""], ["capvet_limits_default", "p"], ["capvet_vet", "pspp"], ["capvet_vet_exclusive", "psppspp"],
  ["capvet_vet_segments", "pspp"], ["capvet_frame", "pspp"], ["capvet_segments", "psppspp"], ["capvet_canonical", "psppspp"],
  ["capvet_check_canonical", "pspp"], ["capvet_get", "psppspp"], ["capvet_get_range", "psppsspspp"], ["capvet_pack_words", "pspsp"],
  ["capvet_unpack_words", "pspsp"], ["capvet_pack_message", "psppspp"], ["capvet_unpack_message", "psppspppp"],
  ["capvet_pointer_path", "pspspspp"], ["capvet_explain", "psppspp"], ["capvet_marks_bound", "s"], ["capvet_frame_bound", "s"],
  ["capvet_canonical_bound", "s"], ["capvet_pack_bound", "s"], ["capvet_earlier_pointer", "pspsp"],
  ["capvet_check_canonical_words", "pspp"], ["capvet_explain_overlap", "pspnnspspp"],
  ["capvet_first_difference", "pspp"],
];
const NOTHING = 0xffffffffffffffffn, MOST = 0xffffffffn;

// The module's bytes, the described calls, and how long the arena is. The answers are given to `write` in order.
export async function replay(module, calls, arenaSize, write) {
  const { instance } = await WebAssembly.instantiate(module, {});
  const { memory, __heap_base, ...exported } = instance.exports;
  const base = __heap_base.value;
  const lacking = base + arenaSize - memory.buffer.byteLength;
  if (lacking > 0) memory.grow(Math.ceil(lacking / PAGE));
  const arena = new Uint8Array(memory.buffer, base, arenaSize), view = new DataView(memory.buffer, base, arenaSize);
  const input = new DataView(calls.buffer, calls.byteOffset, calls.byteLength);
  let next = 0;
  const number = () => input.getUint32((next += 4) - 4, true);

  const prepare = () => {
    for (let left = number(); left > 0; left--) {
      const place = number(), length = number();
      arena.set(calls.subarray(next, next + length), place);
      next += length;
    }
    for (let left = number(); left > 0; left--) {
      const place = number();
      view.setBigUint64(place, BigInt(base + number()), true);
    }
  };
  const as = {
    p: (value) => (value === NOTHING ? 0 : base + Number(value)),
    s: (value) => Number(value > MOST ? MOST : value),
    n: (value) => Number(BigInt.asIntN(32, value)),
  };
  while (next < calls.length) {
    const kind = String.fromCharCode(calls[next++]);
    if (kind === "w") {
      prepare();
      continue;
    }
    const [name, kinds] = CALLS[number()];
    const words = Array.from({ length: number() }, () => input.getBigUint64((next += 8) - 8, true));
    const start = number(), end = number();
    arena.fill(FILLED, start, end);
    prepare();
    const answer = exported[name](...words.map((word, i) => as[kinds[i]](word)));
    const left = new Uint8Array(4 + end - start);
    new DataView(left.buffer).setUint32(0, answer ?? 0, true);
    left.set(arena.subarray(start, end), 4);
    write(left);
  }
}
