// Checks untrusted Cap'n Proto messages without a schema. capvet.d.ts documents each function.
//
//     import { vet, Refusal } from "capvet";
//     try {
//       const message = vet(bytes);
//     } catch (error) {
//       if (error instanceof Refusal) console.log(error.reason, error.position, error.path);
//     }
//
//   check      vet(data, limits?), vetPrefix(data, limits?), vetWords(words, limits?), vetSegments(segments, limits?)   a Message
//   buffers    messages(data, limits?)                             an iterator of messages and refusals
//   streams    readMessages(source, { packed?, ..limits }?)        the same, an async iterator
//              new MessageStream({ packed?, ..limits }?)           the same, for pipeThrough
//              new VettedByteStream({ onRefused?, packed?, ..limits }?)   the bytes of accepted messages, for pipeThrough
//   Message    data, report, number, offset, segments, get(path), getRange(path, { first?, count? }?), canonical(),
//              canonicalInto(out), isCanonical(), firstDifference()
//   Report     length, words, segments, charge, depth, pointers, capabilities, firstCapability: { segment, word } | null,
//              readerWords(readings?), readerNesting()
//   canonical  isCanonicalWords(words, limits?)
//   frames     frame(data, { messageWords? }?)                     { length, segments: [{ offset, length }] }
//   unvetted   peek(data, path, limits?), peekRange(data, path, { first?, count?, ..limits }?)
//   packing    packMessage(data, { messageWords? }?), packWords(words), unpackWords(data, { maxSize? }?)
//   other      version(), errorOf(object)
//
// Limits: { messageWords, charge, depth, allowNonstrict, allowAmplified, exclusive }, each of them optional.
//
// Differences: { reason, position, pointers, path }
//
// Nodes: { kind, element, count, dataWords, pointers, capability, offset, data, text() }
//
// Errors: CapvetError, with `answer`, `reason` and toObject(), is the base class of
//   Refusal { position, pointer, length, number, offset, unvetted, path, earlierPath, explain() },
//   FrameError { required, segments, words, trailing, length, segment, number, offset }, CapabilityError { report },
//   PathError { path, position } and UnpackError. Wrong arguments throw TypeError or RangeError.
//
// Every number is a `number`: those of 64 bits in C are below 2^53 too.
import { init } from "./src/init.js";

export * from "./src/index.js";

await init();
