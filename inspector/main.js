// The page: it passes inputs to the worker, and shows the chosen message in linked views.

import { Message, Rest } from "./format/message.js";
import { parsePath, Node } from "./format/nodes.js";
import { selectionOf } from "./format/selection.js";
import { grouped } from "./format/pointer.js";
import { isDemand, pathOf } from "./format/refusal.js";
import { KIND, LOOKED, TABLE, TWICE, UNUSED } from "./format/walk.js";
import { bytesOfBase64 } from "./format/base64.js";
import { patternsOf } from "./format/find.js";
import { copyRows, copyText } from "./controls/copy.js";
import { takeFiles } from "./controls/drop.js";
import { startLines } from "./controls/split.js";
import { USUAL, commandOf, fillForm, formatOfForm, limitsOfForm, unusual } from "./controls/limits.js";
import { startTabs } from "./controls/tabs.js";
import { $, make } from "./views/dom.js";
import { BytesView } from "./views/bytes.js";
import { MapView } from "./views/map.js";
import { MessageList } from "./views/list.js";
import { showDifferences } from "./views/compare.js";
import { showNumbers, showSelection } from "./views/selected.js";
import { Tree } from "./views/tree.js";
import { Verdicts, lineOf } from "./views/verdicts.js";
import { showCanonical, showStop, showVerdict } from "./views/verdict.js";
import { showHelp, showLegend } from "./views/help.js";

const state = {
  // (the number of the input that is shown, with its limits: what the worker says of an older one is passed over)
  run: 0, name: "", size: 0, format: "auto", limits: USUAL, isPacked: false,
  working: null, number: -1, expected: null, shown: null, selection: null, history: [],
};
/** How many selections the key that goes back has. */
const MOST_HISTORY = 500;
/** How long the page says what was copied. */
const SAID_MS = 4000;
const verdicts = new Verdicts();
const worker = startWorker();

function startWorker() {
  const url = URL.createObjectURL(new Blob([$("worker").textContent], { type: "text/javascript" }));
  const made = new Worker(url);
  made.onmessage = ({ data }) => { if (data.run === undefined || data.run === state.run) ANSWERS[data.type](data); };
  made.onerror = (event) => showFault(event.message);
  made.postMessage({ type: "load", module: bytesOfBase64($("module").textContent) });
  state.asked = 1;
  return made;
}

/** Sends a request. The page is busy until each of them is done. */
function ask(request) {
  state.asked++;
  document.querySelector("main").setAttribute("aria-busy", "true");
  worker.postMessage({ run: state.run, ...request });
}

const list = new MessageList($("messages"), verdicts, (number) => chooseMessage(number, true));
const tree = new Tree($("tree"), (at, steps, detail) => select(at, steps, detail));
const map = new MapView($("map"), (at) => select(at));
const bytes = new BytesView($("bytes"), (at) => select(at));

// ------------------------------------------------------------------ inputs

function open(source, name) {
  const isFirst = document.body.classList.contains("empty");
  state.name = name;
  state.size = 0;
  document.body.classList.remove("empty");
  document.title = `${name} - capvet inspector`;
  $("name").textContent = name;
  begin({ type: "open", ...source });
  // (the control that had the focus is gone)
  if (isFirst) focusView();
}

/** Forgets all that is known of the last input, and asks for the verdicts of the next one. */
function begin(request) {
  state.run++;
  state.number = -1;
  state.expected = null;
  state.isChosen = false;
  verdicts.clear();
  showMessage(null);
  showFault(null);
  showRefusedOnly(false);
  showProgress(null);
  showInForce();
  ask({ ...request, format: state.format, limits: state.limits });
}

/** Puts the focus to the view that was used last, or to the first one that is seen. */
function focusView() {
  const views = [state.view ?? $("tree"), $("messages"), document.querySelector("[role=tab][aria-selected=true]")];
  views.find((it) => it.checkVisibility())?.focus({ preventScroll: true });
}

/** Opens a file, or some as one stream. */
function openFiles(files) {
  const all = [...files];
  if (all.length) open({ file: all.length > 1 ? new Blob(all) : all[0] }, all.map((it) => it.name).join(" + "));
}

const ANSWERS = {
  opened({ size, isPacked }) {
    state.isPacked = isPacked;
    state.size = size;
    showCounts();
  },

  verdicts({ batch, done, total }) {
    verdicts.add(batch);
    list.update();
    showProgress("Vetting", done, total);
    if (state.expected === null && verdicts.count) chooseMessage(0);
  },

  end({ rest }) {
    verdicts.rest = rest;
    list.update();
    showProgress(null);
    showFault(rest && rest.text);
    // (what is wrong comes first, unless somebody has chosen)
    const wrong = verdicts.refused[0] ?? (rest ? verdicts.count : 0);
    if (!state.isChosen && wrong !== state.expected && verdicts.entries) chooseMessage(wrong);
  },

  message(answer) {
    showProgress(null);
    if (answer.number === state.expected) showMessage(answer);
  },

  canonical(answer) {
    const { shown, selection } = state, { difference } = answer;
    if (!shown || answer.number !== state.number) return;
    shown.difference = difference;
    showCanonical(answer, shown, (at) => select(at));
    showLegend(shown.counts, shown.isPartial, difference);
    map.mark(difference);
    if (selection) showSelection(selection, shown, select);
  },

  compared(answer) {
    if (!state.shown || answer.number !== state.number) return;
    if (answer.fault) $("compared").textContent = answer.fault;
    else showDifferences(answer, answer.number, goFromDifference);
  },

  found({ byte }) {
    const fault = byte < 0 ? "This is not in the input." : goToInput(byte);
    if (fault) complain($("find"), fault);
  },

  done() {
    if (--state.asked === 0) document.querySelector("main").setAttribute("aria-busy", "false");
  },

  progress({ job, done, total }) {
    // (what takes long is not shown below another message)
    if (state.shown && state.number !== state.expected) showMessage(null);
    showProgress(job, done, total);
  },

  fault: ({ text }) => showFault(text),

  file({ name, bytes: made }) {
    const link = make("a", { href: URL.createObjectURL(new Blob([made])), download: name });
    link.click();
    setTimeout(() => URL.revokeObjectURL(link.href), 1000);
  },
};

function showFault(text) {
  $("fault").hidden = text === null;
  $("fault").textContent = text ?? "";
  if (text !== null) showProgress(null);
}

function showProgress(job, done = 0, total = 1) {
  const part = Math.min(100, Math.floor(100 * done / Math.max(1, total))), bar = $("progress");
  bar.hidden = job === null || part >= 100;
  bar.setAttribute("aria-valuenow", String(part));
  bar.setAttribute("aria-valuetext", `${job ?? ""} ${part} %`);
  bar.firstChild.style.width = `${part}%`;
  state.working = bar.hidden ? null : `${job} ${part} %`;
  showCounts();
}

function showCounts() {
  const refused = verdicts.refused.length;
  $("messages-count").textContent = grouped(verdicts.count);
  $("refused-count").textContent = grouped(refused);
  $("refused-only").disabled = !refused;
  const form = state.limits.hasTable ? state.isPacked ? "packed" : "plain" : "no segment table";
  $("about").textContent = state.working ?? (state.size ? `${grouped(state.size)} bytes, ${form}` : "");
}

function showRefusedOnly(isOn) {
  $("refused-only").checked = isOn;
  list.filter(isOn);
  if (state.expected !== null) list.select(state.expected);
}

/** Shows which limits are others than at first. */
function showInForce() {
  const said = unusual(state.limits, state.format);
  $("in-force").hidden = !said;
  $("in-force").textContent = `Limits: ${said}`;
}

// ------------------------------------------------------------------ the chosen message

/** The buttons that need a message. */
const OF_MESSAGE = ["compare", "copy-lines", "save-message", "save-packed", "save-canonical", "back", "follow"];

/** Shows a message, and selects a word of it, or the first one that matters. */
function chooseMessage(number, isChosen = false, at = null) {
  state.next = at;
  state.expected = number;
  state.isChosen = isChosen;
  list.select(number);
  if (number === verdicts.count) showRest(verdicts.rest);
  else ask({ type: "select", number });
}

/** Shows what is no message. */
function showRest(rest) {
  const message = new Rest(rest.bytes, rest.table), marks = new Uint8Array(message.total).fill(TABLE, 0, rest.table);
  const map = { marks, owners: new Uint32Array(message.total) };
  showMessage(null);
  state.number = verdicts.count;
  state.shown = { number: state.number, message, map, explanation: null, offset: rest.offset, limits: state.limits, isPartial: true };
  bytes.show(message, map, null, true, rest.offset);
  document.body.classList.add("no-message");
  showStop(rest);
  $("copy-lines").disabled = false;
  if (message.total) select(state.next ?? 0);
}

function showMessage(answer) {
  state.history = [];
  state.selection = null;
  state.shown = null;
  if (answer === null) {
    document.body.classList.remove("no-message");
    for (const view of [tree, map, bytes]) view.show(null, null, null, false, 0);
    for (const id of ["crumbs", "selected", "verdict", "line", "legend"]) $(id).replaceChildren();
    for (const id of OF_MESSAGE) $(id).disabled = true;
    $("path").value = "";
    $("verdict-panel").classList.remove("good", "bad");
    return;
  }
  for (const id of ["save-message", "copy-lines"]) $(id).disabled = false;
  $("compare").disabled = hindrance(answer.number) !== "";
  const message = new Message(answer.bytes, state.limits.hasTable), { explanation, isPartial } = answer;
  state.number = answer.number;
  state.shown = { ...answer, verdict: verdicts.get(answer.number), message, limits: state.limits, isPacked: state.isPacked };
  tree.show(message, answer.map, explanation);
  map.show(message, answer.map, explanation, isPartial);
  bytes.show(message, answer.map, explanation, isPartial, state.isPacked ? 0 : answer.offset);
  showVerdict(state.shown, (at) => select(at));
  showLegend(answer.counts, isPartial);
  if (message.total) select(state.next ?? explanation?.at ?? (message.sizes[0] ? message.starts[0] : 0));
}

// ------------------------------------------------------------------ selection

/** Selects a word in all views. Without steps the way is that of the first pointers in preorder. */
function select(at, steps = null, detail = null, isBack = false) {
  const { shown } = state;
  if (!shown) return;
  const selection = selectionOf(shown.message, shown.map, shown.explanation, at, steps, detail);
  if (state.selection && !isBack && state.selection.at !== at) {
    state.history = [...state.history.slice(-MOST_HISTORY), state.selection];
  }
  state.selection = selection;
  tree.chain = selection.chainSet;
  tree.reveal(selection.steps?.map((step) => step.label), /^[dw]\d/.test(selection.detail ?? "") ? selection.detail : null);
  map.point(selection);
  bytes.point(selection);
  showSelection(selection, shown, select);
  $("back").disabled = !state.history.length;
}

function follow() {
  const { selection } = state;
  if (!selection || $("follow").disabled) return;
  const to = selection.target?.words ? selection.target.start : selection.pads[0];
  select(to);
}

function back() {
  const last = state.history.pop();
  if (last) select(last.at, last.steps, last.detail, true);
}

/** Says below a field what is wrong with its text. */
function complain(input, said) {
  input.setCustomValidity(said);
  input.reportValidity();
}

/** Goes to a path, a place or a byte, or says why there is no way. */
function goTo(text) {
  const place = /^(?:(\d+)|table):(\d+)$/.exec(text), isByte = /^(0x[0-9a-f]+|\d+)$/i.test(text);
  $("path").setCustomValidity("");
  if (!state.shown) return;
  const fault = isByte ? goToByte(Number(text)) : place ? goToPlace(place, text) : goToPath(text.replace(/^(?=[pi]\d)/, "/"));
  if (fault) complain($("path"), fault);
  else focusView();
}

function goToPath(path) {
  const { message, map } = state.shown, { labels, bad } = parsePath(path), steps = [];
  if (bad !== undefined) return `Not a path: see character ${bad}.`;
  if (message.isRest || !message.sizes[0]) return "There is no path here.";
  let node = Node.root(message);
  for (const label of labels) {
    const index = node.indexOf(label);
    if (index < 0) return `${pathOf(steps)} has no ${label}.`;
    if (!node.isElement && !(map.marks[node.at] & LOOKED)) return `${pathOf(steps)} was not looked at.`;
    steps.push({ label, at: node.childAt(index) });
    node = node.child(index);
  }
  select(node.at, steps);
  return null;
}

function goToPlace([, segment, word], text) {
  const { message } = state.shown, isTable = segment === undefined;
  const size = isTable ? message.table : message.isRest ? 0 : message.sizes[segment] ?? 0;
  if (Number(word) >= size) return `There is no word ${text}.`;
  select((isTable ? 0 : message.starts[segment]) + Number(word));
  return null;
}

/** Goes to a byte of the input, or of the message if the input is packed. */
function goToByte(byte) {
  const { message } = state.shown, isOwn = state.isPacked && !message.isRest;
  if (!isOwn) return goToInput(byte);
  if (byte >= message.length) return `The message has no byte ${byte}.`;
  select(byte >> 3);
  return null;
}

/** Goes to a byte of the plain input, in whichever message it is. */
function goToInput(byte) {
  const number = verdicts.numberAt(byte), { rest } = verdicts;
  if (number < 0) return `The input has no byte ${byte}.`;
  const at = Math.floor((byte - (number === verdicts.count ? rest.offset : verdicts.offset[number])) / 8);
  if (number === verdicts.count && 8 * at >= rest.bytes.length) return `Byte ${byte} is not shown.`;
  if (state.shown && number === state.number) select(at);
  else chooseMessage(number, true, at);
  return null;
}

/** Finds what the form says, after the selection or before it. */
function findNext(isBack = false) {
  const { shown, selection, number } = state, input = $("find"), patterns = patternsOf($("find-kind").value, input.value);
  input.setCustomValidity("");
  if (!shown) return;
  if (!patterns) return complain(input, input.value ? `This is no ${$("find-kind").selectedOptions[0].text}.` : "Say what to find.");
  const first = number === verdicts.count ? verdicts.rest.offset : verdicts.offset[number];
  ask({ type: "find", patterns, from: first + 8 * (selection?.at ?? 0) + (isBack ? -1 : 8), isBack });
}

/** Selects the next word that `find(from, to)` finds, and begins again after the last. */
function next(find) {
  const { shown, selection } = state;
  if (!shown) return;
  const from = (selection?.at ?? -1) + 1, found = find(from, shown.message.total);
  const at = found < 0 ? find(0, from) : found;
  if (at >= 0) select(at);
}

/** The next word that has this value in these bits of its mark. */
function nextMark(bits, value) {
  next((from, to) => {
    const { marks } = state.shown.map;
    for (let at = from; at < to; at++) if ((marks[at] & bits) === value) return at;
    return -1;
  });
}

function nextObject() {
  const { owners } = state.shown?.map ?? {}, here = owners?.[state.selection?.at ?? 0];
  next((from, to) => {
    for (let at = from; at < to; at++) if (owners[at] !== 0 && owners[at] !== here) return at;
    return -1;
  });
}

function nextRefused() {
  const { refused } = verdicts, all = verdicts.rest ? [...refused, verdicts.count] : refused;
  const found = all.find((number) => number > (state.expected ?? -1)) ?? all[0];
  if (found !== undefined) chooseMessage(found, true);
}

// ------------------------------------------------------------------ keys and controls

/** Opens the dialog with the differences to the canonical copy, or to another message. */
function openComparison() {
  if ($("compare").disabled) return;
  const isAlone = verdicts.count < 2;
  $("other").max = String(verdicts.count - 1);
  $("other").disabled = isAlone;
  $("beside").lastElementChild.disabled = isAlone;
  if (isAlone) $("beside").value = "canonical";
  $("compare-heading").textContent = `Message ${grouped(state.number)} beside another one`;
  $("compared").textContent = "";
  $("differences").hidden = true;
  $("compare-dialog").showModal();
  compareNow();
}

function compareNow() {
  const isCanonical = $("beside").value === "canonical", other = Number($("other").value);
  $("differences").hidden = true;
  $("compared").textContent = isCanonical ? "" : hindrance(other);
  if (!$("compared").textContent) ask({ type: "compare", number: state.number, other: isCanonical ? null : other });
}

/** Why a message can't be compared, or nothing. (a comparison follows pointers, and those of a refused message lead anywhere) */
function hindrance(number) {
  const reason = verdicts.reason[number];
  if (reason === undefined) return `There is no message ${number}.`;
  return reason && !isDemand(reason) ? `Message ${number} is refused.` : "";
}

/** Shows where a difference is in the message on the left: at a path, or a word. */
function goFromDifference(to) {
  $("compare-dialog").close();
  if (typeof to === "number") select(to);
  else goToPath(to);
  focusView();
}

/** Copies a text, and says so. */
function copy(text) {
  if (text === "") return;
  say(copyText(text) ? `Copied: ${text.trim().split("\n", 1)[0]}` : "This browser copies nothing by a key.");
}

function say(text) {
  $("said").textContent = text;
  clearTimeout(state.saying);
  state.saying = setTimeout(() => { $("said").textContent = ""; }, SAID_MS);
}

/** Selects the pointer that is refused, or at which the message isn't canonical. */
function selectFault() {
  const at = state.shown?.explanation?.at ?? state.shown?.difference?.at;
  if (at !== undefined && at !== null) select(at);
}

/** Copies some of what is known of the selected word. */
function copyOf(...names) {
  const { shown, selection } = state;
  if (!selection) return;
  const { message } = shown, { at, steps } = selection;
  const parts = { path: steps ? pathOf(steps) : "", place: message.place(at), bytes: message.hex(at) };
  copy(names.map((name) => parts[name]).filter(Boolean).join(" "));
}

/** Copies the line of the verdict, and those that explain it. */
function copyLines() {
  const { shown, number } = state;
  if (!shown) return;
  const { rest } = verdicts;
  copy(number === verdicts.count ? `${rest.text}\n${rest.lines}` : `${lineOf(verdicts.get(number))}\n${shown.lines}`);
}

/** Shows the keys from their beginning. (the button has the focus otherwise, which is at their end) */
function showKeys() {
  $("help-dialog").showModal();
  $("help-heading").focus();
}

const KEYS = {
  f: ["Follow the selected pointer", follow], Enter: ["", follow],
  b: ["Go back", back], Backspace: ["", back],
  "/": ["Go to a path, a place or a byte", () => $("path").select()],
  s: ["Find text, hexadecimal digits or a number", () => $("find").select()],
  ".": ["Find the next one", () => findNext()], ",": ["Find the one before", () => findNext(true)],
  r: ["Select the refused pointer, or the first difference from the canonical copy", selectFault],
  o: ["Next object", nextObject],
  u: ["Next word that nothing uses, or that was not looked at", () => nextMark(KIND, UNUSED)],
  t: ["Next word that is used twice", () => nextMark(TWICE, TWICE)],
  n: ["Next refused message", nextRefused],
  c: ["Copy the path, the place and the bytes of the word", () => copyOf("path", "place", "bytes")],
  p: ["Copy the path", () => copyOf("path")], a: ["Copy the place", () => copyOf("place")], x: ["Copy the bytes", () => copyOf("bytes")],
  d: ["Compare with the canonical copy, or with another message", openComparison],
  l: ["Copy the line of the verdict, and those that explain it", copyLines],
  "?": ["Keys and colours", showKeys],
};

document.addEventListener("keydown", (event) => {
  const isPressed = event.key === "Enter" && event.target.closest("button, summary");
  const isTyping = isPressed || event.target.closest("input, textarea, select, dialog");
  const hasModifier = event.ctrlKey || event.altKey || event.metaKey;
  if (event.defaultPrevented || hasModifier || isTyping || !(event.key in KEYS)) return;
  event.preventDefault();
  KEYS[event.key][1]();
});

$("search").addEventListener("submit", (event) => { event.preventDefault(); goTo($("path").value.trim()); });
$("find-form").addEventListener("submit", (event) => { event.preventDefault(); findNext(); });
$("find").addEventListener("input", () => $("find").setCustomValidity(""));
$("find").addEventListener("keydown", (event) => {
  if (event.key === "Escape") focusView();
  if (event.key !== "Enter" || !event.shiftKey) return;
  event.preventDefault();
  findNext(true);
});
$("copy-lines").onclick = copyLines;
$("compare").onclick = openComparison;
// (the Enter key in a field presses the first button of its form that submits: that is never one that cancels)
$("compare-now").onclick = (event) => { event.preventDefault(); compareNow(); };
for (const it of document.querySelectorAll("dialog .cancel")) it.onclick = () => it.closest("dialog").close("");
$("beside").onchange = compareNow;
$("other").onchange = () => { $("beside").value = "message"; compareNow(); };
$("way").onchange = ({ target }) => tree.showNumbers(target.value);
$("numbers").ontoggle = () => showNumbers(state.selection, state.shown?.message);
$("path").addEventListener("input", () => $("path").setCustomValidity(""));
$("path").addEventListener("keydown", (event) => { if (event.key === "Escape") focusView(); });
document.addEventListener("focusin", ({ target }) => { if (target.classList.contains("view")) state.view = target; });
$("back").onclick = back;
$("follow").onclick = follow;
$("refused-only").onchange = ({ target }) => showRefusedOnly(target.checked);
for (const id of ["open", "open-first"]) $(id).onclick = () => $("file").click();
$("file").onchange = ({ target }) => { openFiles(target.files); target.value = ""; };
$("help").onclick = showKeys;
for (const form of ["message", "packed", "canonical"]) {
  $(`save-${form}`).onclick = () => {
    const name = `${state.name.replace(/\.[^.]*$/, "") || "message"}-${state.number}${form === "message" ? "" : `-${form}`}.bin`;
    ask({ type: "save", number: state.number, form, name });
  };
}

// (an Escape leaves the value of the last time)
for (const id of ["paste", "paste-first"]) $(id).onclick = () => { $("paste-dialog").returnValue = ""; $("paste-dialog").showModal(); };
$("paste-dialog").addEventListener("close", ({ target }) => {
  if (target.returnValue === "ok" && $("text").value.trim()) open({ text: $("text").value }, "pasted text");
});
for (const id of ["options", "in-force"]) {
  $(id).onclick = () => {
    fillForm(state.limits, state.format);
    showCommand();
    $("options-dialog").returnValue = "";
    $("options-dialog").showModal();
  };
}
$("limits").addEventListener("input", showCommand);
$("options-dialog").addEventListener("close", ({ target }) => {
  if (target.returnValue === "ok") useLimits(limitsOfForm(), formatOfForm());
});

function useLimits(limits, format) {
  Object.assign(state, { limits, format });
  if (!document.body.classList.contains("empty")) begin({ type: "reopen" });
}

function showCommand() {
  $("command").textContent = commandOf(limitsOfForm(), state.isPacked);
}

takeFiles(openFiles);
copyRows();
startLines();
startTabs();
showHelp(KEYS);
matchMedia("(prefers-color-scheme: dark)").addEventListener("change", () => map.readColours());

// A page that was written with a message inside shows it, within the limits that came with it.
if ($("given")) {
  const { name, limits, bytes: base64 } = JSON.parse($("given").textContent);
  useLimits({ ...USUAL, ...limits }, "plain");
  open({ bytes: bytesOfBase64(base64) }, name);
}
