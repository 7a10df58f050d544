// The messages of a buffer, and of a stream.
import { firstFrame } from "./calls.js";
import { Feed } from "./feed.js";
import { Message, kindOf, streamed } from "./message.js";
import { plainBytesOf } from "./module.js";

export function messages(data, options) {
  const kind = kindOf(options);
  if (kind.isPacked) throw new TypeError("packed bytes are a stream: pass them to readMessages");
  return walkMessages(plainBytesOf(data), kind);
}

function* walkMessages(input, kind) {
  for (let index = 0, offset = 0; offset < input.length; index++) {
    const frame = firstFrame(input.subarray(offset), kind.limits);
    yield streamed(frame, kind, index, offset);
    offset += frame.length;
  }
}

/** The next message, or null at the end. `read` returns a chunk as an iterator does. */
async function nextMessage(feed, read) {
  for (;;) {
    const message = feed.next();
    if (message !== null) return message;
    const { done, value } = await read();
    if (done) {
      feed.end();
      return null;
    }
    feed.add(value);
  }
}

function iteratorOf(source) {
  if (typeof source?.getReader === "function") {
    // (not every engine iterates over these)
    const reader = source.getReader();
    return { next: () => reader.read(), return: () => reader.cancel() };
  }
  const start = source?.[Symbol.asyncIterator] ?? source?.[Symbol.iterator];
  if (typeof start !== "function" || typeof source === "string" || ArrayBuffer.isView(source)) {
    throw new TypeError("the source has to be a ReadableStream, or an iterable of chunks of bytes");
  }
  return start.call(source);
}

export function readMessages(source, options) {
  const feed = new Feed(options);
  return readAll(iteratorOf(source), feed);
}

async function* readAll(chunks, feed) {
  try {
    for (let message; (message = await nextMessage(feed, () => chunks.next())) !== null;) yield message;
  } finally {
    await chunks.return?.();
  }
}

export class MessageStream {
  constructor(options) {
    const feed = new Feed(options), pipe = new TransformStream(), reader = pipe.readable.getReader();
    this.writable = pipe.writable;
    // (a message is made when it is asked for, so there is at most one)
    this.readable = new ReadableStream({
      async pull(controller) {
        try {
          const message = await nextMessage(feed, () => reader.read());
          if (message === null) controller.close();
          else controller.enqueue(message);
        } catch (error) {
          await reader.cancel(error);
          throw error;
        }
      },
      cancel: (reason) => reader.cancel(reason),
    }, { highWaterMark: 0 });
  }
}

export class VettedByteStream {
  constructor({ onRefused, ...options } = {}) {
    if (onRefused !== undefined && typeof onRefused !== "function") throw new TypeError("onRefused has to be a function");
    const verdicts = new MessageStream(options);
    this.writable = verdicts.writable;
    this.readable = verdicts.readable.pipeThrough(new TransformStream({
      transform(verdict, controller) {
        if (verdict instanceof Message) controller.enqueue(verdict.data);
        else if (onRefused === undefined) throw verdict;
        else onRefused(verdict);
      },
    }));
  }
}
