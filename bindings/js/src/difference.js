// Why a message is not canonical.
import { NOT_CANONICAL, OK, changedError, placeOf } from "./answers.js";
import { firstDifferenceAnswer, pathOf } from "./calls.js";
import { REPORT, number } from "./module.js";

// The names of the header, in the order of their numbers. The first is 1.
const DIFFERENCES = ["Segments", "Far", "Capability", "EmptyStruct", "Place", "Bits", "EmptyList", "Surplus", "DataZero", "PointerNull",
  "Trailing"];
const WITHOUT_POINTER = ["Segments", "Trailing"];

/** Why an accepted message is not canonical, or null if it is. */
export function differenceOf(input, limits) {
  const answer = firstDifferenceAnswer(input, limits);
  if (answer === OK) return null;
  if (answer !== NOT_CANONICAL) throw changedError();
  const reason = DIFFERENCES[number(REPORT + 16) - 1] ?? "Unknown", position = placeOf(), pointers = number(REPORT + 32);
  return { reason, position, pointers, path: WITHOUT_POINTER.includes(reason) ? null : pathOf(input, pointers, limits) };
}
