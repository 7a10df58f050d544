/** What is wrong with a text that is pasted, as a sentence. */
export class TextFault extends Error {}
