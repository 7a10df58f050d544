// The calls of the package for an input. Each has the lines that native.c has to write for it.

const CALLS = ["vet", "exclusive", "segments", "frame", "isCanonical", "canonical", "pointerPath", "get", "range", "pack", "packMessage",
  "unpack", "plain", "plainExclusive", "packed", "packedExclusive", "explain", "firstDifference"];
// A struct without words.
const EMPTY = Uint8Array.of(0, 0, 0, 0, 1, 0, 0, 0, 252, 255, 255, 255, 0, 0, 0, 0);
// The most messages of a stream that are looked at.
const MESSAGES = 300;
const decoder = new TextDecoder("latin1"), encoder = new TextEncoder();

/** A hash of a result, to compare it by. */
function sumOf(bytes) {
  let hash = 2166136261;
  for (const byte of bytes) hash = Math.imul(hash ^ byte, 16777619);
  return `${bytes.length}:${hash >>> 0}`;
}

const placeOf = ({ segment, word }) => `${segment}:${word}`;

function treeOf(it) {
  const first = it.firstCapability === null ? "" : ` ${placeOf(it.firstCapability)}`;
  return `${it.length} ${it.segments} ${it.charge} ${it.depth} ${it.pointers} ${it.capabilities}${first}`;
}

const KINDS = ["null", "struct", "values", "pointers", "structs", "capability"];

function nodeLine(it) {
  if (it === null) return "NoNode";
  const { element, count, dataWords, pointers, capability, offset, data } = it;
  return `Ok ${KINDS.indexOf(it.kind)} ${element} ${count} ${dataWords} ${pointers} ${capability} ${offset} ${sumOf(data)}`;
}

function differenceLine(it) {
  if (it === null) return "Ok";
  const { reason, position, pointers, path } = it;
  return `${reason} ${placeOf(position)} ${pointers} ${path === null ? "NoNode" : `Ok ${path}`}`;
}

/** A text is that of the bytes, without the zero after it. */
function checkText(node) {
  const text = node?.text() ?? null;
  if (text !== null) rule(sumOf(encoder.encode(`${text}\0`)) === sumOf(node.data), "a text has the bytes of its node");
}

function rule(holds, text) {
  if (!holds) throw new Error(`RULE BROKEN js: ${text}`);
}

/** The calls for one input. */
export class Asks {
  constructor(capvet, { limits, data, form, chance }) {
    Object.assign(this, { capvet, limits, data, form, chance });
    this.all = [];
  }

  /** The message of the data, in its form. Throws FrameError or Refusal. */
  vetted(data = this.data, limits = this.limits) {
    const { capvet, form } = this;
    return form === "prefix" ? capvet.vetPrefix(data, limits).message : (form === "words" ? capvet.vetWords : capvet.vet)(data, limits);
  }

  /** The message of the data, or null if it is none or refused. */
  get message() {
    try {
      return this.vetted();
    } catch {
      return null;
    }
  }

  /** Whether the limits that a call by its table alone doesn't take are valid. */
  get isValid() {
    return this.limits.charge <= 2 ** 28 && this.limits.depth <= 256;
  }

  /** The line of an error. */
  errorLine(error) {
    const { CapabilityError, FrameError, PathError, Refusal, UnpackError } = this.capvet;
    if (error instanceof PathError) return `${error.reason} ${error.position}`;
    if (error instanceof FrameError) {
      const { required, segments, words, trailing, segment, length } = error;
      return `${error.reason} ${required ?? 0} ${segments ?? words ?? trailing ?? segment ?? 0} ${length ?? 0}`;
    }
    if (error instanceof CapabilityError) return `${error.reason} ${treeOf(error.report)}`;
    if (error instanceof Refusal) {
      this.checkRefusal(error);
      // (of a refusal of `peek` the text alone has how many pointers were checked)
      const [, place, pointers] = error.message.match(/ at (.*) pointers (.*)$/);
      return `${error.reason} ${place} ${pointers} ${error.length}`;
    }
    if (error instanceof UnpackError) return error.reason;
    if (error instanceof RangeError) return "BadLimits";
    throw error;
  }

  /** A refusal keeps its fields between workers. */
  checkRefusal(error) {
    const again = this.capvet.errorOf(structuredClone(error.toObject()));
    const isSame = again.path === error.path && again.message === error.message && sumOf(again.unvetted) === sumOf(error.unvetted);
    rule(isSame && (error.position === null || `${placeOf(error.position)}` === error.message.match(/ at (\S*)/)[1]), "a refusal is kept");
  }

  /** Runs a call, and keeps its line. Returns the result, or undefined after an error. */
  ask(call, run, lineOf, { first = 0, second = 0, text = "" } = {}) {
    let result, line;
    try {
      result = run();
      line = lineOf(result);
    } catch (error) {
      line = this.errorLine(error);
    }
    this.all.push({ call: CALLS.indexOf(call), first, second, text, line });
    return result;
  }

  async run() {
    this.verdicts();
    this.copies();
    this.paths();
    this.packing();
    this.wrongArguments();
    await this.streams();
  }

  /** Wrong arguments throw the errors of the language. */
  wrongArguments() {
    const { capvet, data, chance } = this;
    const call = chance.of(() => capvet.vet("text"), () => capvet.vet(data, { dept: 3 }), () => capvet.vet(data, null),
      () => capvet.vet(data, { depth: "3" }), () => capvet.vet(data, { depth: 257 }), () => capvet.vet(data, { noTable: true }),
      () => capvet.peek(data, 7), () => capvet.peekRange(data, "/p*", { first: -1 }), () => capvet.readMessages("text"),
      () => capvet.messages(data, { packed: true }), () => capvet.vet(new Uint8Array(new SharedArrayBuffer(8))), () => new capvet.Message(),
      () => capvet.vet(EMPTY).canonicalInto([]), () => capvet.vet(EMPTY).canonicalInto(new Uint8Array(7)));
    let thrown = null;
    try {
      call();
    } catch (error) {
      thrown = error;
    }
    rule(thrown instanceof TypeError || thrown instanceof RangeError, `wrong arguments give ${thrown}`);
    rule(/^\d+\.\d+\.\d+$/.test(capvet.version()), "the version has three numbers");
  }

  verdicts() {
    const { capvet, data, limits, chance } = this;
    const treeLine = ({ report }) => `Ok ${treeOf(report)}`;
    // (as a view of any kind)
    const view = new DataView(data.buffer, data.byteOffset, data.length);
    const given = chance.of(data, data, data, data, data, view, data.slice().buffer);
    this.ask("vet", () => this.vetted(given), treeLine);
    this.ask("exclusive", () => this.vetted(given, { ...limits, exclusive: true }), treeLine);
    if (this.form === "words" || !this.isValid) return;
    const frame = this.ask("frame", () => capvet.frame(data, { messageWords: limits.messageWords }),
      ({ length, segments }) => `Ok ${length} ${segments.map((it) => `${it.offset}+${it.length}`).join(" ")}`.trim());
    const parts = (frame?.segments ?? []).map(({ offset, length }) => data.subarray(offset, offset + length));
    this.segments(parts, 0);
    const piece = 1 + chance.below(40), pieces = Math.min(Math.ceil(data.length / piece), 513);
    const cut = Array.from({ length: pieces }, (_, at) => data.subarray(piece * at, piece * (at + 1)));
    this.segments(cut, piece);
  }

  /** A message of separate segments. The library counts no table. */
  segments(parts, first) {
    const { capvet, limits } = this;
    this.ask("segments", () => {
      try {
        return capvet.vetSegments(parts, limits);
      } catch (error) {
        if (error instanceof capvet.Refusal) error.length = 8 * Math.floor(parts.reduce((sum, part) => sum + part.length, 0) / 8);
        throw error;
      }
    }, ({ report }) => `Ok ${treeOf({ ...report, length: 8 * report.words })}`, { first });
  }

  copies() {
    const { capvet, limits } = this;
    if (this.form !== "prefix") {
      this.ask("isCanonical", () => this.vetted().isCanonical(), (it) => (it ? "Ok" : "NotCanonical"));
      this.ask("firstDifference", () => this.vetted().firstDifference(), differenceLine);
    }
    const form = this.ask("canonical", () => this.vetted().canonical(), (it) => `Ok ${sumOf(it)}`);
    if (form === undefined) return;
    const out = new Uint8Array(form.length + this.chance.below(9));
    rule(this.vetted().canonicalInto(out) === form.length && sumOf(out.subarray(0, form.length)) === sumOf(form),
      "a form is written to the front of an array");
    const words = { ...limits, allowAmplified: true, messageWords: 2 ** 28 };
    const again = capvet.vetWords(form, words).canonical();
    rule(capvet.isCanonicalWords(form, limits) && sumOf(again) === sumOf(form), "a form is its own form");
  }

  paths() {
    const { capvet, data, limits, chance, message } = this;
    let refusal = null;
    this.ask("explain", () => {
      try {
        this.vetted();
        return null;
      } catch (error) {
        if (!(error instanceof capvet.Refusal)) throw error;
        refusal = error;
        return error.explain();
      }
    }, (it) => `Ok ${sumOf(encoder.encode(it ?? ""))}`);
    if (refusal !== null && refusal.pointer !== null) {
      this.ask("pointerPath", () => refusal.path, (it) => (it === null ? "NoNode" : `Ok ${it}`), { first: refusal.pointer });
    }
    // (the library reads nodes of no words without a table, and `peek` allows no bytes after the message)
    if (this.form === "words" || this.form === "prefix" && message === null) return;
    const get = (text) => (this.form === "prefix" ? message.get(text) : capvet.peek(data, text, limits));
    for (let path = "", level = 0; level < 5; level++) {
      const text = path || "/", node = this.ask("get", () => get(text), nodeLine, { text });
      rule(message === null || nodeLine(message.get(text)) === nodeLine(node ?? null), "a message has the nodes that peek finds");
      const letter = node?.kind === "struct" ? "p" : "i";
      this.range(`${path}/${letter}*${chance.of("", "", "/p0", "/i1")}`);
      path += `/${letter}${chance.below(6)}`;
    }
    const text = decoder.decode(data.subarray(0, chance.below(12))) + chance.of("", "/p0", "/i*", "*/p1");
    this.ask("get", () => get(text), nodeLine, { text });
    try {
      [...capvet.peekRange(data, text, { ...limits, count: 3 })].forEach(nodeLine);
    } catch (error) {
      this.errorLine(error);
    }
  }

  /** The nodes of a range, up to an error. */
  range(text) {
    const { capvet, data, limits, chance, message } = this;
    const first = chance.below(4), second = chance.below(40) > 0 ? chance.below(6) : 300, lines = [];
    const part = { first, count: second };
    try {
      for (const it of message?.getRange(text, part) ?? capvet.peekRange(data, text, { ...limits, ...part })) {
        lines.push(nodeLine(it));
        checkText(it);
        // (another call, so that the module has other bytes)
        if (chance.below(8) === 0) capvet.packWords(new Uint8Array(8));
      }
    } catch (error) {
      lines.push(this.errorLine(error));
    }
    this.all.push({ call: CALLS.indexOf("range"), first, second, text, lines });
  }

  packing() {
    const { capvet, data, limits, chance } = this;
    const part = (bytes) => `Ok ${sumOf(bytes)}`, isWhole = data.length % 8 === 0;
    const packed = this.ask("pack", () => {
      try {
        return capvet.packWords(data);
      } catch (error) {
        if (error instanceof RangeError && !isWhole) return null;
        throw error;
      }
    }, (it) => (it === null ? "Truncated" : part(it)));
    if (packed) rule(sumOf(capvet.unpackWords(packed, { maxSize: data.length })) === sumOf(data), "what is packed is unpacked");
    const { messageWords } = limits;
    if (this.form === "whole" && this.isValid) this.ask("packMessage", () => capvet.packMessage(data, { messageWords }), part);
    for (const most of [chance.of(0, 64, 1 << 14), 1 << 25]) {
      this.ask("unpack", () => capvet.unpackWords(data, { maxSize: most }), part, { first: most });
    }
  }

  async streams() {
    if (this.form === "words") return;
    const { capvet, data, limits, chance } = this;
    const exclusive = chance.below(2) === 0, options = { ...limits, exclusive };
    const name = (kind) => (exclusive ? `${kind}Exclusive` : kind);
    await this.stream(name("plain"), () => capvet.messages(data, options));
    await this.stream(name("plain"), () => this.chunked({ ...options, packed: false }));
    await this.stream(name("packed"), () => this.chunked({ ...options, packed: true }));
  }

  /** The messages of the data in chunks, which are overwritten afterwards, by one of the ways to pass them. */
  chunked(options) {
    const { capvet, data, chance } = this, sizes = chance.of([1], [7, 8, 9], [0, 50], [20000]);
    const chunks = function* () {
      for (let at = 0; at < data.length;) {
        const chunk = data.slice(at, at + chance.of(...sizes));
        at += chunk.length;
        yield chunk;
        chunk.fill(0xee);
      }
    };
    const way = chance.below(4), source = chunks();
    if (way === 0) return capvet.readMessages(source, options);
    const readable = new ReadableStream({
      pull(controller) {
        const { done, value } = source.next();
        if (done) controller.close();
        else controller.enqueue(value.slice());
      },
    });
    if (way === 1) return capvet.readMessages(readable, options);
    const piped = readable.pipeThrough(new capvet.MessageStream(options));
    return way === 2 ? piped : { [Symbol.asyncIterator]: () => ({ next: () => this.reader(piped).read() }) };
  }

  reader(stream) {
    this.open ??= new WeakMap();
    if (!this.open.has(stream)) this.open.set(stream, stream.getReader());
    return this.open.get(stream);
  }

  async stream(call, messages) {
    const lines = [];
    try {
      for await (const it of messages()) {
        const { Message, Refusal } = this.capvet, isRefused = it instanceof Refusal;
        rule(it instanceof Message !== isRefused && (it.data === undefined) === isRefused, "a message is accepted or refused");
        const verdict = isRefused ? this.errorLine(it) : `Ok ${treeOf(it.report)}`;
        lines.push(`${it.number} ${it.offset} ${verdict} ${sumOf(isRefused ? it.unvetted : it.data)}`);
        if (lines.length === MESSAGES) break;
      }
      if (lines.length < MESSAGES) lines.push("end");
    } catch (error) {
      lines.push(error instanceof this.capvet.FrameError ? `${error.reason} ${error.offset}` : `${this.errorLine(error)} 0`);
    }
    this.all.push({ call: CALLS.indexOf(call), first: 0, second: 0, text: "", line: lines.join("\n") });
  }
}

/** What is wrong with the lines of native.c for these asks, or null. */
export function difference(asks, answers) {
  for (const [at, it] of asks.entries()) {
    const name = `${CALLS[it.call]} ${it.first} ${it.second} ${it.text}`;
    if (it.lines === undefined) {
      if (it.line !== answers[at].trimEnd()) return `${name}: ${it.line}, and by the native library ${answers[at]}`;
      continue;
    }
    const expected = answers[at].split("\n").slice(0, it.second);
    const isSame = expected.every((line, index) => line === it.lines[index] || (index >= it.lines.length && line === "NoNode") ||
      (index >= it.lines.length && !/^(Ok|NoNode)/.test(it.lines.at(-1) ?? "Ok")));
    if (!isSame) return `${name}: ${it.lines}, and by the native library ${expected}`;
  }
  return null;
}
