// The numbers that bytes may be. The lowest byte comes first.

/** The name of each kind of number, how many bytes it has, and how it is read. */
const KINDS = [["u64", 8, "getBigUint64"], ["i64", 8, "getBigInt64"], ["f64", 8, "getFloat64"], ["u32", 4, "getUint32"], ["i32", 4, "getInt32"],
  ["f32", 4, "getFloat32"], ["u16", 2, "getUint16"], ["i16", 2, "getInt16"], ["u8", 1, "getUint8"], ["i8", 1, "getInt8"]];

/** The kinds for the numbers of each size, by what the tree shows. */
const SHOWN = { unsigned: { 1: "u8", 2: "u16", 4: "u32", 8: "u64" }, signed: { 1: "i8", 2: "i16", 4: "i32", 8: "i64" },
  floating: { 1: "u8", 2: "u16", 4: "f32", 8: "f64" } };

function numbers(bytes, size, read) {
  const view = new DataView(bytes.buffer, bytes.byteOffset, bytes.length);
  // (a number of 32 bits has at most nine digits that mean something)
  const text = (it) => (read === "getFloat32" && Number.isFinite(it) ? String(Number(it.toPrecision(9))) : Object.is(it, -0) ? "-0" : String(it));
  return Array.from({ length: Math.floor(bytes.length / size) }, (_, i) => text(view[read](size * i, true)));
}

/** All kinds of numbers of some bytes: pairs of a name and a text. */
export function allNumbers(bytes) {
  const bits = Array.from(bytes, (byte) => byte.toString(2).padStart(8, "0")).join(" ");
  return [...KINDS.map(([name, size, read]) => [name, numbers(bytes, size, read).join(" ")]), ["bits", bits]];
}

/** Bytes as numbers of this size, in the way that is chosen: unsigned, signed or floating. */
export function numbersText(bytes, size, way) {
  const [, , read] = KINDS.find(([name]) => name === SHOWN[way][size]);
  return numbers(bytes, size, read).join(" ");
}

/** Bits of a list, the first one first. */
export function bitsText(bytes, count) {
  let text = "";
  for (let i = 0; i < count; i++) text += `${i && i % 8 === 0 ? " " : ""}${bytes[i >> 3] >> (i & 7) & 1}`;
  return text;
}
