// What the package exports.
export { CapabilityError, CapvetError, FrameError, PathError, Refusal, Report, UnpackError, errorOf } from "./answers.js";
export { frame, isCanonicalWords, packMessage, packWords, unpackWords, version } from "./calls.js";
export { Message, vet, vetPrefix, vetSegments, vetWords } from "./message.js";
export { Node, peek, peekRange } from "./nodes.js";
export { MessageStream, VettedByteStream, messages, readMessages } from "./streams.js";
