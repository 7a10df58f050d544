/**
 * Checks untrusted Cap'n Proto messages without a schema.
 *
 * Every function takes an ArrayBuffer, or a view of one such as a Uint8Array or a Buffer. Shared memory throws TypeError,
 * since another thread could change it after it was vetted. The bytes are copied into the WebAssembly module. Its memory
 * grows with the largest input and output. A memory of more than 16 MiB is left to the garbage collector after the call,
 * when the program next waits for a promise.
 *
 * Every number is a `number`. Those that have 64 bits in C are below 2^53 too, so none of them is a `bigint`.
 *
 * A wrong argument throws TypeError or RangeError. If the engine has no memory for an input, RangeError is thrown. No
 * state is left after an error.
 */

/** Bytes of any kind, but of no shared memory. */
export type Bytes = ArrayBuffer | ArrayBufferView;

/** What to accept. By default a message has to be strict and unamplified. */
export interface Limits {
  /** Most words (8 bytes each) in all segments of a message: at most 268435456, by default 8388608 (64 MiB). */
  messageWords?: number;
  /** Most words that one full traversal reads: at most 268435456, by default 8388608. */
  charge?: number;
  /** Deepest level of an object: at most 256, by default 64. */
  depth?: number;
  /** Whether to accept four forms that common readers reject: NullPad, EmptySegment, CapabilityPad, ManySegments. */
  allowNonstrict?: boolean;
  /** Whether a full traversal may read more than 4,096 words above those of the segments. */
  allowAmplified?: boolean;
  /** Whether to refuse a message that uses a word twice. This takes a bit of memory for each word. */
  exclusive?: boolean;
}

/** The place of a word: the number of its segment, and of the word in that segment, both from 0. */
export interface Position {
  segment: number;
  word: number;
}

/** What is known of an accepted message. */
export class Report {
  private constructor();
  /** Bytes of the message, with its table if it has one. */
  readonly length: number;
  /** Words (8 bytes each) in all segments: what `messageWords` bounds. */
  readonly words: number;
  /** How many segments. */
  readonly segments: number;
  /** Words that one full traversal reads. An object that two pointers reach counts twice. */
  readonly charge: number;
  /** Deepest level of an object. */
  readonly depth: number;
  /** Pointers, null ones included. */
  readonly pointers: number;
  /** Capabilities. */
  readonly capabilities: number;
  /** The place of the first capability in preorder, or null without one. */
  readonly firstCapability: Position | null;
  /** The traversal limit, in words, that libcapnp needs for so many readings of a strict message, by default one. */
  readerWords(readings?: number): number;
  /** The nesting limit that libcapnp needs for a strict message. */
  readerNesting(): number;
}

/** Why the data hold no frame, or more than one. */
export type FrameReason = "NoMessage" | "TooManySegments" | "TooLarge" | "Truncated" | "Trailing" | "BadSegment";

/** Why a message is refused. */
export type RefusalReason =
  | "Overlap" | "NullPad" | "EmptySegment" | "CapabilityPad" | "ManySegments" | "NoRoot" | "Reserved" | "SegmentMissing"
  | "PadOutside" | "PadIsFar" | "PadNotFar" | "TagKind" | "TagOffset" | "OutOfSegment" | "CompositeTag" | "CompositeOverrun"
  | "DepthLimit" | "WordLimit";

/** Base class: the data are not what was asked for. */
export class CapvetError extends Error {
  protected constructor();
  /** The number of the answer in capvet.h. */
  readonly answer: number;
  /** The name of the answer, as the program `capvet` prints it: "Truncated", "DepthLimit", ... */
  readonly reason: string;
  /**
   * An object with all fields, which `postMessage` and `structuredClone` keep. They keep only the text of an error itself.
   * `errorOf` makes the error again.
   */
  toObject(): ErrorObject;
}

/** What `toObject` of an error returns. */
export interface ErrorObject {
  name: string;
  message: string;
  answer: number;
  reason: string;
  [field: string]: unknown;
}

/** The error of an object that `toObject` returned, perhaps in another worker. Throws TypeError for other objects. */
export function errorOf(object: ErrorObject): CapvetError;

/** The data hold no complete frame within the limits, or more than the frame. Fields that do not apply are null. */
export class FrameError extends CapvetError {
  readonly reason: FrameReason;
  /** NoMessage, Truncated: the least length of the data that gets further. */
  readonly required: number | null;
  /** TooManySegments: how many segments the table claims. */
  readonly segments: number | null;
  /** TooLarge: how many words the table claims. */
  readonly words: number | null;
  /** Trailing: how many bytes follow the message. */
  readonly trailing: number | null;
  /** Trailing: bytes of the message. */
  readonly length: number | null;
  /** BadSegment: which segment has a length that is no multiple of 8. */
  readonly segment: number | null;
  /** The number of the message in its buffer or stream, from 0. */
  readonly number: number;
  /** Where the message starts in its buffer or stream, in bytes. */
  readonly offset: number;
}

/**
 * A message that is refused: why, where, and its bytes.
 *
 * `vet` throws it. Streams yield it in place of a `Message` and go on; throw it yourself to end there.
 */
export class Refusal extends CapvetError {
  readonly reason: RefusalReason;
  /**
   * The place of the first pointer that is wrong or exceeds a limit. Null if the refusal is about no pointer: NoRoot and
   * ManySegments.
   */
  readonly position: Position | null;
  /** The number of that pointer in preorder, from 1. Null if the refusal is about no pointer, or from `peek`. */
  readonly pointer: number | null;
  /** Bytes of the message: the next one of a buffer starts after them. */
  readonly length: number;
  /** The number of the message in its buffer or stream, from 0. */
  readonly number: number;
  /** Where the message starts in its buffer or stream, in bytes as they came (packed bytes if the stream is packed). */
  readonly offset: number;
  /** The bytes of the refused message, unpacked, for a log. Do not read them as a message. */
  readonly unvetted: Uint8Array;
  /** The path to the pointer, such as "/p0/i7/p2": which field is refused. It is found by one more walk. Null if `pointer` is. */
  get path(): string | null;
  /** The path to the other pointer of an overlap: the first that uses a word which this one uses too. Null if there is none. */
  get earlierPath(): string | null;
  /**
   * Why the message is refused, as lines for a log: those of the program's command `explain`. Of an overlap there are the
   * paths to both pointers, their places, and the reason. Each line begins with two blanks and ends with a line feed.
   * Throws RangeError for a refusal of `peek`, which is about one path, and an Error if the bytes have changed.
   */
  explain(): string;
}

/** From `canonical`: the message is accepted, but has a capability and so no canonical form. */
export class CapabilityError extends CapvetError {
  readonly reason: "HasCapability";
  readonly report: Report;
}

/** From `unpackWords`: the packed data end inside a group (Truncated), or give more than `maxSize` bytes (TooLarge). */
export class UnpackError extends CapvetError {
  readonly reason: "Truncated" | "TooLarge";
}

/** The text is not a path, or one of its numbers is too great. */
export class PathError extends CapvetError {
  readonly reason: "BadPath";
  /** The text. */
  readonly path: string;
  /** Where it stops being a path, counted from 0. */
  readonly position: number;
}

/** The version of the module, such as "2.0.0". */
export function version(): string;

/**
 * A message that was vetted. Only `vet` and the like make one, so a function that takes it needs no other check.
 *
 * It is a view of the bytes that were passed: do not change them.
 */
export class Message {
  private constructor();
  /** The bytes of the message: a frame, or the words of `vetWords`. */
  get data(): Uint8Array;
  /** What is known of the message. */
  get report(): Report;
  /** The number of the message in its buffer or stream, from 0. */
  get number(): number;
  /** Where the message starts in its buffer or stream, in bytes as they came (packed bytes if the stream is packed). */
  get offset(): number;
  /** The bytes of each segment, in place. */
  get segments(): Uint8Array[];
  /**
   * The node at a path such as "/p0/i1/p2", or null if the path leads to nothing.
   *
   * "/" is the root. /p steps from a struct to one of its pointers, /i from a list of pointers or structs to an element.
   * A node whose kind is "null" means the field's default. null does only if each node before it on the path is of the
   * kind that the schema has: readers also take lists of other kinds, so check the kind of each list first.
   *
   * Throws PathError, and an Error if the bytes have changed after they were vetted.
   */
  get(path: string): Node | null;
  /**
   * Iterates over the nodes at a path with one `*`, such as "/p0/i*\/p2": here pointer 2 of each element of a list.
   *
   * The star is the number of an element or of a pointer. It is replaced by `first`, `first` + 1, and so on, to the end
   * of the list or of the struct's pointers, but at most `count` times. Each result is that of `get` for its path. So it
   * is null where the path leads to nothing, for example below a null element. Nothing is yielded if there is no such
   * list or struct. Neither means a default before you have checked the kind of the list: see `get`.
   *
   * PathError, TypeError and RangeError are thrown by this call. The iteration reads up to 256 nodes in one call of the
   * module, and copies the message again only if another function of this package was called since the last block.
   */
  getRange(path: string, options?: RangeOptions): IterableIterator<Node | null>;
  /** The canonical words, without a table: equal content gives equal bytes. To hash or to sign. Throws CapabilityError. */
  canonical(): Uint8Array;
  /**
   * Writes the canonical words into `out`, and returns how many bytes they take: at most `8 * (report.charge + 1)`. So a
   * program that hashes many messages allocates nothing for each.
   *
   * Throws CapabilityError, and RangeError if `out` is too small. Then `out` is as it was.
   */
  canonicalInto(out: Uint8Array): number;
  /** Whether the message is its own canonical form. A message with a capability is not. */
  isCanonical(): boolean;
  /**
   * Why the message is not its own canonical form, or null if it is.
   *
   * It takes the time of `isCanonical`, and for a message that is not canonical two more walks up to the pointer. Throws an Error
   * if the bytes have changed after they were vetted.
   */
  firstDifference(): Difference | null;
}

/** Why a message is not its own canonical form, in the order in which the reasons are tried. */
export type DifferenceReason =
  | "Segments" | "Far" | "Capability" | "EmptyStruct" | "Place" | "Bits" | "EmptyList" | "Surplus" | "DataZero" | "PointerNull"
  | "Trailing";

/** Why a message is not canonical: the first pointer in preorder that is not as the canonical form has it, with its object. */
export interface Difference {
  /** The name of the reason. */
  reason: DifferenceReason;
  /** The place of the pointer. For Trailing it is the first word after all objects, and for Segments it is word 0 of segment 0. */
  position: Position;
  /** The number of the pointer in preorder, from 1. For Trailing it is that of all pointers, and for Segments it is 0. */
  pointers: number;
  /** The path to the pointer, such as "/p0/i7/p2". "/" is the root. Null for Segments and Trailing, which name no pointer. */
  path: string | null;
}

/** What a stream yields: a vetted message, or why it is refused. `it instanceof Message` says which. */
export type Verdict = Message | Refusal;

/**
 * Checks that `data` are one message that is safe to traverse, and nothing else. Throws FrameError or Refusal if they are
 * not.
 *
 * The work is bounded by the length of the data, unless `allowAmplified` is set: then `charge` bounds it.
 */
export function vet(data: Bytes, limits?: Limits): Message;

/**
 * Checks the message that `data` start with, and returns it and the bytes after it, which are not looked at. Throws
 * FrameError or Refusal.
 */
export function vetPrefix(data: Bytes, limits?: Limits): { message: Message; rest: Uint8Array };

/**
 * Checks a message that was stored without a table: the words of one segment, such as `Message.canonical` returns. Throws
 * FrameError or Refusal.
 */
export function vetWords(words: Bytes, limits?: Limits): Message;

/** Checks a message whose segments are separate buffers. They are copied into one frame. Throws FrameError or Refusal. */
export function vetSegments(segments: Iterable<Bytes>, limits?: Limits): Message;

/**
 * Whether words without a table are the canonical form of a message: what `Message.canonical` returns.
 *
 * True for each such result, with the limits that the message was vetted with. Amplified words are accepted, since copies
 * of shared objects may make them so. `charge` bounds the work, and the words may be one more than that. Throws FrameError
 * or Refusal.
 */
export function isCanonicalWords(words: Bytes, limits?: Limits): boolean;

/** The most words of a message, by default 8388608. */
export interface TableOptions {
  messageWords?: number;
}

/** A frame, and where its segments are. */
export interface Frame {
  /** Bytes of the frame, table included. */
  length: number;
  /** For each segment where it starts, counted from the first byte of the data, and its length in bytes. */
  segments: { offset: number; length: number }[];
}

/**
 * The frame that `data` start with. Reads the table only, and checks no pointer.
 *
 * Throws FrameError: its `required` says how many bytes to receive first.
 */
export function frame(data: Bytes, options?: TableOptions): Frame;

/** Packs one message as libcapnp does: its table and each segment by itself. Checks no pointer. Throws FrameError. */
export function packMessage(data: Bytes, options?: TableOptions): Uint8Array;

/**
 * Packs words. Throws RangeError if the length is not a multiple of 8. To send a message use `packMessage`: some readers
 * refuse a message whose table and segments are packed together.
 */
export function packWords(words: Bytes): Uint8Array;

/**
 * Unpacks packed words, up to `maxSize` bytes, by default 67110920, the largest frame within the default limits.
 *
 * Throws UnpackError, before memory for the words is reserved.
 */
export function unpackWords(data: Bytes, options?: { maxSize?: number }): Uint8Array;

/** A node of a message. Fields that do not apply to its kind are 0. */
export class Node {
  private constructor();
  /** Texts are lists of values. */
  readonly kind: "null" | "struct" | "values" | "pointers" | "structs" | "capability";
  /** A list: the element's code in the format, 0 to 7. */
  readonly element: number;
  /** A list: how many elements. */
  readonly count: number;
  /** A struct: its data words. A list of structs: those of each element. */
  readonly dataWords: number;
  /** A struct: its pointers. A list of structs: those of each element. */
  readonly pointers: number;
  /** A capability: its index. */
  readonly capability: number;
  /** Where `data` starts in the bytes of the message. */
  readonly offset: number;
  /** The node's own bytes, in place: data words, values, or elements. */
  readonly data: Uint8Array;
  /**
   * The text, if this is a list of bytes that is valid UTF-8 and ends in its one zero byte, or null. A guess: only a
   * schema says whether a list of bytes is a text.
   */
  text(): string | null;
}

/** Which of the nodes to read. */
export interface RangeOptions {
  /** The first number of the star, by default 0. */
  first?: number;
  /** How many nodes at most. */
  count?: number;
}

/**
 * The node at a path of a message that was not vetted: what `Message.get` returns if it is accepted.
 *
 * Only the pointers on the path are checked. Throws FrameError, PathError, or Refusal for a pointer on the path.
 */
export function peek(data: Bytes, path: string, limits?: Limits): Node | null;

/**
 * Iterates over the nodes at a path with one `*`, of a message that was not vetted: see `Message.getRange`.
 *
 * Only the pointers on the paths are checked. PathError, TypeError and RangeError are thrown by this call. FrameError is
 * thrown by the first step of the iteration. Refusal is thrown after all nodes before that of the refused path. To go on
 * after it, call `peekRange` again with the next number as `first`. The data may not change until the iteration ends.
 */
export function peekRange(data: Bytes, path: string, options?: RangeOptions & Limits): IterableIterator<Node | null>;

/**
 * Iterates over the messages of a buffer, and goes on after a refused one. The bytes of a message are a view of the buffer.
 *
 * The iteration throws FrameError where the buffer stops being messages.
 */
export function messages(data: Bytes, limits?: Limits): IterableIterator<Verdict>;

/** What the messages of a stream have to be. */
export interface StreamOptions extends Limits {
  /** Whether the stream is packed. */
  packed?: boolean;
}

/** A stream of chunks of bytes, of any sizes: a ReadableStream, a readable stream of Node, an array. */
export type Source = ReadableStream<Bytes> | AsyncIterable<Bytes> | Iterable<Bytes>;

/**
 * Iterates over the messages of a stream, and goes on after a refused one.
 *
 * Each message is yielded as soon as its last byte has come, whatever comes after it. Its bytes are a copy of their
 * own. The iterator keeps at most one message: the part of the next one that has come, which `messageWords` bounds, and
 * the rest of a chunk. It reads the next chunk when it is asked for a message that is not whole.
 *
 * Throws FrameError where the stream ends in the middle of a message or stops being one. An error of the source passes
 * through. If the iteration is left early, the source is cancelled.
 */
export function readMessages(source: Source, options?: StreamOptions): AsyncIterableIterator<Verdict>;

/** The same for `pipeThrough`: a pair of streams, of which one takes chunks of bytes and the other one has the messages. */
export class MessageStream {
  constructor(options?: StreamOptions);
  readonly writable: WritableStream<Bytes>;
  readonly readable: ReadableStream<Verdict>;
}

/** What passes through a `VettedByteStream`. */
export interface ByteStreamOptions extends StreamOptions {
  /** Gets each refusal, and the stream goes on. Without it the stream ends with the first refusal as its error. */
  onRefused?: (refusal: Refusal) => void;
}

/**
 * Bytes in, vetted bytes out: a pair of streams for `pipeThrough`. Each chunk that comes out is one accepted message, unpacked.
 *
 * It ends with FrameError where the bytes stop being messages, and with the first Refusal unless `onRefused` is passed.
 */
export class VettedByteStream {
  constructor(options?: ByteStreamOptions);
  readonly writable: WritableStream<Bytes>;
  readonly readable: ReadableStream<Uint8Array>;
}
