// The form with the kind of input and the limits.

import { $ } from "../views/dom.js";
import { grouped } from "../format/pointer.js";

const fields = () => $("limits").elements;

export function formatOfForm() {
  return fields().format.value;
}

export function limitsOfForm() {
  const form = fields(), number = (name) => Number(form[name].value), flag = (name) => form[name].checked;
  return { words: number("words"), charge: number("charge"), depth: number("depth"), isStrict: flag("isStrict"),
    isUnamplified: flag("isUnamplified"), isExclusive: flag("isExclusive"), hasTable: formatOfForm() !== "table" };
}

/** The limits at first. (a browser may have kept others in the form) */
$("limits").reset();
export const USUAL = limitsOfForm();

export function fillForm({ hasTable, ...limits }, format) {
  for (const [name, value] of Object.entries(limits)) fields()[name][typeof value === "boolean" ? "checked" : "value"] = value;
  fields().format.value = format;
}

/** What differs from the limits at first, in words. */
export function unusual(limits, format) {
  const said = { packed: ["read as packed"], table: ["no segment table"] }[format] ?? [];
  for (const [name, text] of [["words", "words"], ["charge", "words of charge"], ["depth", "levels"]]) {
    if (limits[name] !== USUAL[name]) said.push(`${grouped(limits[name])} ${text}`);
  }
  if (!limits.isStrict) said.push("not strict");
  if (!limits.isUnamplified) said.push("may be amplified");
  if (limits.isExclusive) said.push("exclusive");
  return said.join(", ");
}

/** The command line that vets within these limits. */
export function commandOf(limits, isPacked) {
  const words = ["capvet", "vet"], add = (name, value, usual) => { if (value !== usual) words.push(name, String(value)); };
  if (formatOfForm() === "packed" || isPacked) words.push("--packed");
  add("--size", limits.words, 8388608);
  add("--words", limits.charge, 8388608);
  add("--depth", limits.depth, 64);
  for (const flag of ["Strict", "Unamplified", "Exclusive"]) {
    if (limits[`is${flag}`]) words.push(`--${flag.toLowerCase()}`);
  }
  return words.join(" ");
}
