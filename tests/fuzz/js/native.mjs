// The native library, as a process that answers asks: see native.c.
import { spawn } from "node:child_process";

const LIMITS = 80, encoder = new TextEncoder();
const FLAGS = ["allowNonstrict", "allowAmplified"], FORMS = ["whole", "prefix", "words"];

/** A record: the limits with the form of the data, the data, and the asks. */
function recordOf({ limits, data, form }, asks) {
  const texts = asks.map((it) => encoder.encode(it.text));
  const size = LIMITS + 8 + data.length + texts.reduce((sum, it) => sum + 16 + it.length, 0);
  const record = new Uint8Array(size), view = new DataView(record.buffer);
  view.setBigUint64(0, BigInt(limits.messageWords), true);
  view.setBigUint64(8, BigInt(limits.charge), true);
  view.setUint32(16, limits.depth, true);
  view.setUint32(20, FLAGS.reduce((sum, name, at) => sum | (limits[name] ? 1 << at : 0), 0), true);
  view.setUint32(24, FORMS.indexOf(form), true);
  view.setUint32(LIMITS, data.length, true);
  record.set(data, LIMITS + 4);
  let at = LIMITS + 4 + data.length;
  view.setUint32(at, asks.length, true);
  at += 4;
  for (const [index, { call, first, second }] of asks.entries()) {
    for (const number of [call, first, second, texts[index].length]) {
      view.setUint32(at, number, true);
      at += 4;
    }
    record.set(texts[index], at);
    at += texts[index].length;
  }
  return record;
}

export class Native {
  constructor(program) {
    this.child = spawn(program, { stdio: ["pipe", "pipe", "inherit"] });
    this.held = Buffer.alloc(0);
    this.child.stdout.on("data", (chunk) => this.take(chunk));
    const onExit = (status) => this.fail?.(new Error(`RULE BROKEN js: the native library ended with ${status}`));
    this.child.on("exit", onExit);
  }

  take(chunk) {
    this.held = Buffer.concat([this.held, chunk]);
    if (this.held.length < 4 || this.held.length < 4 + this.held.readUInt32LE(0)) return;
    const text = this.held.toString("utf8", 4);
    this.held = Buffer.alloc(0);
    this.done(text.split("\n\f"));
  }

  /** The lines for each ask. */
  answers(input, asks) {
    return new Promise((done, fail) => {
      Object.assign(this, { done, fail });
      this.child.stdin.write(recordOf(input, asks));
    });
  }

  end() {
    this.fail = null;
    this.child.stdin.end();
  }
}
