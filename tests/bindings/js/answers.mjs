// Answers requests by the package as the program answers its commands. It runs in Node, in a page and in a worker.
//
// A request is { command, options, path, cut } and a stream. An answer is what the program writes to standard output, and then the line
// that it writes to standard error.

const encoder = new TextEncoder();

/** Requests from number 0 on: `get` returns the request and the stream, or null after the last one; `put` takes the answer. */
export async function answerAll(capvet, get, put) {
  for (let index = 0; ; index++) {
    const asked = await get(index);
    if (asked === null) return index;
    await put(index, joined(await COMMANDS[asked.command](capvet, asked)));
  }
}

function joined(parts) {
  const all = parts.map((part) => (typeof part === "string" ? encoder.encode(part) : part));
  const whole = new Uint8Array(all.reduce((sum, part) => sum + part.length, 0));
  let at = 0;
  for (const part of all) {
    whole.set(part, at);
    at += part.length;
  }
  return whole;
}

const hex = (bytes) => Array.from(bytes, (byte) => byte.toString(16).padStart(2, "0")).join("");

/** The words of the program about a message or a refusal. */
function verdict(it) {
  const { report } = it;
  if (report) return `accepted charge ${report.charge} depth ${report.depth} pointers ${report.pointers} caps ${report.capabilities}`;
  const { segment, word } = it.position ?? { segment: 0, word: 0 };
  return `refused ${it.reason} at ${segment}:${word} pointers ${it.pointer ?? 0}`;
}

/** The bytes of a message that is accepted or refused. */
const bytesOf = (it) => it.data ?? it.unvetted;

/** The line about bytes that are no message. */
function fault(error, index, length) {
  const said = error.reason === "Truncated" ? `Truncated at byte ${length}` : `${error.reason} ${error.segments ?? error.words}`;
  return `capvet: message ${index}: ${said}\n`;
}

/** A stream in chunks of up to `most` bytes, some of which are empty. Each is overwritten when the next one is asked for. */
async function* chunks(stream, most) {
  for (let at = 0, step = 1; at < stream.length; step = (step * 16807) % 2147483647) {
    const chunk = stream.slice(at, at + (step % (most + 1)));
    at += chunk.length;
    yield chunk;
    chunk.fill(0xee);
  }
}

/** The messages of a request, in one of three ways. */
function messagesOf(capvet, { options, stream, cut }) {
  if (cut === "buffer") return capvet.messages(stream, options);
  const source = chunks(stream, cut.size);
  return cut.by === "iterator" ? capvet.readMessages(source, options) : piped(capvet, source, options);
}

async function* piped(capvet, source, options) {
  const readable = new ReadableStream({
    async pull(controller) {
      const { done, value } = await source.next();
      if (done) controller.close();
      // (a chunk without bytes is of no use here, but allowed)
      else controller.enqueue(value.slice());
    },
  });
  const reader = readable.pipeThrough(new capvet.MessageStream(options)).getReader();
  for (let next; !(next = await reader.read()).done;) yield next.value;
}

/** What `lines` gives for each message, and the fault that ends the stream. */
async function overAll(capvet, asked, lines) {
  const parts = [];
  let index = 0;
  try {
    for await (const message of messagesOf(capvet, asked)) {
      if (message.number !== index) parts.push(`the message has number ${message.number}\n`);
      index++;
      parts.push(...lines(message));
    }
  } catch (error) {
    if (!(error instanceof capvet.FrameError)) throw error;
    parts.push(fault(error, index, asked.stream.length));
  }
  return parts;
}

function* segmentLines(capvet, message) {
  const { number } = message, raw = bytesOf(message), { length, segments } = capvet.frame(raw);
  const words = segments.map((it) => it.length / 8), [first] = segments;
  if (length !== raw.length) yield `the frame has ${length} bytes\n`;
  yield `message ${number}: segments ${words.length} words ${words.reduce((sum, it) => sum + it, 0)}\n`;
  for (const [index, count] of words.entries()) yield `segment ${index}: ${count}\n`;
  yield first.length === 0 ? "root none\n" : `root ${hex(raw.subarray(first.offset, first.offset + 8))}\n`;
}

/** A message by calls about one message: they have to agree with what the stream said. */
function* singleLines(capvet, { options }, message) {
  const limits = limitsOf(options), raw = bytesOf(message);
  const parts = () => capvet.frame(raw).segments.map((it) => raw.subarray(it.offset, it.offset + it.length));
  for (const call of [() => capvet.vet(raw, limits), () => capvet.vetPrefix(raw, limits).message, () => capvet.vetSegments(parts(), limits)]) {
    let found;
    try {
      found = call();
    } catch (error) {
      if (!(error instanceof capvet.Refusal)) throw error;
      found = error;
    }
    if (verdict(found) !== verdict(message)) yield `by itself: ${verdict(found)}\n`;
  }
}

function headOf(node) {
  const { kind, element, count, dataWords, pointers, capability } = node;
  return {
    null: "null", struct: `struct ${dataWords} ${pointers}`, values: `list ${element} ${count}`, pointers: `pointers ${count}`,
    structs: `structs ${count} ${dataWords} ${pointers}`, capability: `cap ${capability}`,
  }[kind];
}

function* ownWords(node, indent) {
  if (node.kind !== "struct" && node.kind !== "values") return;
  const words = new Uint8Array(Math.ceil(node.data.length / 8) * 8);
  words.set(node.data);
  // (bits after the last one of a list of bits may be anything, and are printed as zeros)
  if (node.element === 1 && node.count % 8 > 0) words[node.data.length - 1] &= (1 << node.count % 8) - 1;
  for (let at = 0; at < words.length; at += 8) yield `${indent}${node.kind === "struct" ? "d" : "w"}${at / 8} ${hex(words.subarray(at, at + 8))}\n`;
}

/** The lines of a node and of all below it. Its children are read by `getRange`, and each of them by `get` and `peek` again. */
function* tree(capvet, message, limits, node, path, label, indent) {
  yield `${indent}${label} ${headOf(node)}\n`;
  yield* ownWords(node, `${indent}  `);
  const kind = node.kind === "struct" ? "p" : "i", above = path === "/" ? "" : path;
  const isEmpty = node.kind === "structs" && node.dataWords + node.pointers === 0;
  if (!["struct", "pointers", "structs"].includes(node.kind) || isEmpty) return;
  let index = 0;
  for (const child of message.getRange(`${above}/${kind}*`)) {
    const below = `${above}/${kind}${index}`;
    for (const again of [message.get(below), capvet.peek(message.data, below, limits)]) {
      if (again === null || again.offset !== child.offset || headOf(again) !== headOf(child)) yield `the nodes differ at ${below}\n`;
    }
    yield* tree(capvet, message, limits, child, below, `${kind}${index}`, `${indent}  `);
    index++;
  }
}

function limitsOf({ packed, ...limits }) {
  return limits;
}

function* dumpLines(capvet, { options }, message) {
  yield `message ${message.number}: ${verdict(message)}\n`;
  if (message instanceof capvet.Message) yield* tree(capvet, message, limitsOf(options), message.get("/"), "/", "root", "");
}

function* getLines(capvet, { path }, message) {
  const about = `message ${message.number}:`;
  if (message instanceof capvet.Refusal) {
    yield `${about} ${verdict(message)}\n`;
    return;
  }
  const node = message.get(path);
  yield `${about} ${node === null ? "none" : "found"}\n`;
  if (node === null) return;
  yield `node ${headOf(node)}\n`;
  yield* ownWords(node, "  ");
}

function* checkLines(capvet, message) {
  const said = message instanceof capvet.Refusal ? verdict(message) : `${message.isCanonical() ? "" : "not "}canonical`;
  yield `message ${message.number}: ${said}\n`;
}

/** The canonical copy with a table, if the message is accepted and has no capability. */
function canonParts(capvet, { options }, message) {
  if (message instanceof capvet.Refusal) return [];
  try {
    const words = message.canonical(), table = new DataView(new ArrayBuffer(8));
    table.setUint32(4, words.length / 8, true);
    const out = new Uint8Array(words.length), count = message.canonicalInto(out);
    const isForm = capvet.isCanonicalWords(words, limitsOf(options)) && capvet.vetWords(words, limitsOf(options)).isCanonical();
    const isCopy = count === words.length && isForm;
    return [new Uint8Array(table.buffer), isCopy ? out : `message ${message.number}: a wrong copy\n`];
  } catch (error) {
    const isSame = error instanceof capvet.CapabilityError && error.report === message.report && message.report.capabilities > 0;
    return isSame ? [] : [`message ${message.number}: ${error}\n`];
  }
}

/** The results for packed texts, each with its length before it. Of a cut one it is all ones. */
function unpacked(capvet, stream) {
  const view = new DataView(stream.buffer, stream.byteOffset, stream.length), parts = [];
  for (let at = 0, length; at < stream.length; at += 4 + length) {
    length = view.getUint32(at, true);
    const size = new Uint8Array(4);
    let words = new Uint8Array(0);
    try {
      words = capvet.unpackWords(stream.subarray(at + 4, at + 4 + length));
      new DataView(size.buffer).setUint32(0, words.length, true);
    } catch (error) {
      if (error.reason !== "Truncated") throw error;
      size.fill(255);
    }
    parts.push(size, words);
  }
  return parts;
}

const each = (lines) => (capvet, asked) => overAll(capvet, asked, (message) => lines(capvet, asked, message));

const COMMANDS = {
  vet: each((capvet, asked, message) => [`message ${message.number}: ${verdict(message)}\n`, ...singleLines(capvet, asked, message)]),
  segments: each((capvet, asked, message) => segmentLines(capvet, message)),
  dump: each(dumpLines),
  get: each(getLines),
  check: each((capvet, asked, message) => checkLines(capvet, message)),
  explain: each((capvet, asked, message) => (
    [`message ${message.number}: ${verdict(message)}\n`, message instanceof capvet.Refusal ? message.explain() : ""])),
  canon: each(canonParts),
  // (the program writes accepted messages here, and the lines of the others to standard error)
  filter: each((capvet, asked, message) => (message instanceof capvet.Message ? [capvet.packMessage(message.data)] : [])),
  pack: (capvet, { stream }) => [capvet.packWords(stream)],
  unpack: (capvet, { stream }) => [capvet.unpackWords(stream)],
  texts: (capvet, { stream }) => unpacked(capvet, stream),
};
