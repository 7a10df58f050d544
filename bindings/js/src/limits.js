// The limits of a call, as options of JavaScript and as the module has them.
import { LIMITS, view } from "./module.js";

/** The forms of an input: one message, a buffer that starts with one, and words without a table. */
export const WHOLE = 0, PREFIX = 1, WORDS = 2;
export const MAX_WORDS = 2 ** 28;

const MAX_CHARGE = 2 ** 28, MAX_DEPTH = 256, ALLOW_NONSTRICT = 1, ALLOW_AMPLIFIED = 2;
const DEFAULT = Object.freeze({ messageWords: 8388608, charge: 8388608, depth: 64, flags: 0, form: WHOLE, isExclusive: false });
/** The names of limits and flags. */
export const LIMIT_NAMES = ["messageWords", "charge", "depth", "allowNonstrict", "allowAmplified", "exclusive"];

/** What each message is within that was ever accepted. */
export const LARGEST = Object.freeze({
  messageWords: MAX_WORDS, charge: MAX_CHARGE, depth: MAX_DEPTH, flags: ALLOW_NONSTRICT | ALLOW_AMPLIFIED, form: WHOLE,
  isExclusive: false,
});

/** A whole number from 0 to `most`, or an error that names it. */
export function numberOf(name, value, most) {
  if (typeof value !== "number") throw new TypeError(`${name} has to be a number`);
  if (Number.isInteger(value) && value >= 0 && value <= most) return value;
  throw new RangeError(`${name} has to be a whole number from 0 to ${most}, and is ${value}`);
}

export function flagOf(name, value) {
  if (typeof value !== "boolean") throw new TypeError(`${name} has to be true or false`);
  return value;
}

/** Throws TypeError unless the options have no other names than these. */
export function checkNames(options, names) {
  if (options === null || typeof options !== "object") throw new TypeError("the options have to be an object");
  for (const name in options) if (!names.includes(name)) throw new TypeError(`this call has no option ${name}`);
}

/** The limits among the options of a call, which may have options of these names, for an input of a form. */
export function limitsOf(options, form = WHOLE, names = LIMIT_NAMES) {
  if (options === undefined) return form === WHOLE ? DEFAULT : { ...DEFAULT, form };
  checkNames(options, names);
  const { messageWords = DEFAULT.messageWords, charge = DEFAULT.charge, depth = DEFAULT.depth } = options;
  const { allowNonstrict = false, allowAmplified = false, exclusive = false } = options;
  return {
    messageWords: numberOf("messageWords", messageWords, MAX_WORDS),
    charge: numberOf("charge", charge, MAX_CHARGE),
    depth: numberOf("depth", depth, MAX_DEPTH),
    flags: (flagOf("allowNonstrict", allowNonstrict) ? ALLOW_NONSTRICT : 0) |
      (flagOf("allowAmplified", allowAmplified) ? ALLOW_AMPLIFIED : 0),
    form,
    isExclusive: flagOf("exclusive", exclusive),
  };
}

/** The limits of a call that looks at the table alone. */
export function tableLimitsOf(options = {}) {
  checkNames(options, ["messageWords"]);
  return limitsOf(options);
}

/**
 * Limits that accept the canonical words of each message that is accepted within these. They are those of the module for such words,
 * which may be amplified, and have at most one word more than the charge.
 */
export function limitsOfCopies({ messageWords, charge, depth, flags }) {
  const most = Math.min(Math.max(messageWords, charge + 1), MAX_WORDS);
  return { messageWords: most, charge, depth, flags: flags | ALLOW_AMPLIFIED, form: WORDS, isExclusive: false };
}

/** Writes limits for the next call. (the upper halves of numbers and the reserved fields are never written, so they are 0) */
export function writeLimits(limits, place = LIMITS) {
  view.setUint32(place, limits.messageWords, true);
  view.setUint32(place + 8, limits.charge, true);
  view.setUint32(place + 16, limits.depth, true);
  view.setUint32(place + 20, limits.flags, true);
  view.setUint32(place + 24, limits.form, true);
}
