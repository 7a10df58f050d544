// What of the package was run, as Node counts it.
import { readFileSync } from "node:fs";
import { Session } from "node:inspector";
import { fileURLToPath } from "node:url";

/** The counts of a file. A count belongs to each character; Node leaves out a block that runs as often as what is around it. */
class File {
  constructor(url) {
    this.text = readFileSync(fileURLToPath(url), "utf8");
    this.counts = new Uint32Array(this.text.length);
    this.total = new Uint32Array(this.text.length);
    this.starts = new Set();
  }

  /** Sets the counts to those of these functions, outer ones first. */
  set(functions) {
    this.counts.fill(0);
    for (const { startOffset, endOffset, count } of functions.flatMap((it) => it.ranges)) {
      this.counts.fill(count, startOffset, endOffset);
      this.starts.add(startOffset);
    }
    for (let at = 0; at < this.total.length; at++) this.total[at] += this.counts[at];
  }

  /** The times that each line with code ran. */
  lines() {
    const lines = {};
    let at = 0;
    for (const [index, line] of this.text.split("\n").entries()) {
      const code = line.trim(), begin = at + line.length - line.trimStart().length;
      const isCode = /\w/.test(code) && !/^(\/\/|\/?\*)/.test(code);
      if (isCode) lines[index + 1] = Math.max(...this.total.subarray(begin, begin + code.length));
      at += line.length + 1;
    }
    return lines;
  }
}

/** Counts what runs of the files below a URL. */
export class Reached {
  constructor(url) {
    this.url = url;
    this.session = new Session();
    this.session.connect();
    this.post("Profiler.enable");
    this.post("Profiler.startPreciseCoverage", { callCount: true, detailed: true });
    this.files = new Map();
    this.known = new Set();
  }

  post(method, parameters) {
    let result;
    // (in the same process the answer comes at once)
    this.session.post(method, parameters, (error, value) => {
      if (error) throw new Error(error.message);
      result = value;
    });
    return result;
  }

  /** Takes what ran since the last call. Returns whether a block ran, or ran so often, for the first time. */
  take() {
    let isNew = false;
    for (const { url, functions } of this.post("Profiler.takePreciseCoverage").result) {
      if (!url.startsWith(this.url)) continue;
      const name = url.slice(this.url.length), file = this.file(name);
      file.set(functions);
      for (const start of file.starts) {
        const count = file.counts[start];
        if (count > 0) isNew = this.add(`${name} ${start} ${32 - Math.clz32(count)}`) || isNew;
      }
    }
    return isNew;
  }

  file(name) {
    if (!this.files.has(name)) this.files.set(name, new File(this.url + name));
    return this.files.get(name);
  }

  /** Adds something that was reached, and returns whether it is new. */
  add(name) {
    const before = this.known.size;
    return this.known.add(name).size > before;
  }

  /** For each file the times that each of its lines ran. */
  lines() {
    return Object.fromEntries([...this.files].map(([name, file]) => [name, file.lines()]));
  }
}
