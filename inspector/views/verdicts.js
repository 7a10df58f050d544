// The verdicts of all messages, in columns of numbers.

const NUMBERS = ["offset", "length", "segments", "charge", "depth", "pointers", "caps", "segment", "word"];

export class Verdicts {
  constructor() {
    this.clear();
  }

  clear() {
    this.count = 0;
    /** What follows the last message, or null: the input stops being messages there. */
    this.rest = null;
    this.reason = [];
    /** The numbers of the refused messages. */
    this.refused = [];
    for (const name of NUMBERS) this[name] = new Float64Array(1024);
  }

  add(batch) {
    const count = this.count + batch.count;
    for (const name of NUMBERS) {
      if (count > this[name].length) {
        const larger = new Float64Array(Math.max(count, 2 * this[name].length));
        larger.set(this[name].subarray(0, this.count));
        this[name] = larger;
      }
      this[name].set(batch[name].subarray(0, batch.count), this.count);
    }
    for (let i = 0; i < batch.count; i++) {
      this.reason.push(batch.reason[i]);
      if (batch.reason[i]) this.refused.push(this.count + i);
    }
    this.count = count;
  }

  /** How many messages there are, and one more for the rest. */
  get entries() {
    return this.count + (this.rest ? 1 : 0);
  }

  /** The number of the message that has a byte of the plain input, or of the rest, or -1. */
  numberAt(byte) {
    let low = 0, high = this.count;
    while (low < high) {
      const middle = (low + high) >> 1;
      if (this.offset[middle] + this.length[middle] <= byte) low = middle + 1; else high = middle;
    }
    if (low < this.count) return low;
    return this.rest && byte >= this.rest.offset && byte < this.rest.offset + this.rest.length ? low : -1;
  }

  get(number) {
    const it = { number, reason: this.reason[number] };
    for (const name of NUMBERS) it[name] = this[name][number];
    it.place = it.reason ? `${it.segment}:${it.word}` : "";
    return it;
  }
}

/** The line of a message, as `capvet vet` prints it. */
export function lineOf(it) {
  if (it.reason) return `message ${it.number}: refused ${it.reason} at ${it.place} pointers ${it.pointers}`;
  return `message ${it.number}: accepted charge ${it.charge} depth ${it.depth} pointers ${it.pointers} caps ${it.caps}`;
}
