// What the worker calls of the package for JavaScript.

export { Refusal } from "../../bindings/js/src/answers.js";
export { frame, packMessage } from "../../bindings/js/src/calls.js";
export { Message, vet, vetWords } from "../../bindings/js/src/message.js";
export { load } from "../../bindings/js/src/module.js";
export { messages, readMessages } from "../../bindings/js/src/streams.js";
