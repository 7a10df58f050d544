// Where two messages differ, node by node.

import { Node } from "./nodes.js";
import { NULL, STRUCT } from "./pointer.js";

/** How many differences are found, how many nodes are looked at, and how deep. */
const MOST_ROWS = 1000, MOST_NODES = 1_000_000, DEEPEST = 260;

function nodeText(node) {
  return node === null ? "" : node.guess === null || node.guess === undefined ? node.text : `${node.text} "${node.guess}"`;
}

/** The own word of a node with this number, or zeros: what is not there is zero. */
function ownWord(node, index) {
  return index < node.ownWords ? node.message.hex(node.start + index) : "0".repeat(16);
}

const isNothing = (node) => node === null || node.kind === NULL && !node.reason;

/** The children of two nodes that have the same label. A pointer that is not there is null. */
function* children(left, right) {
  const count = (node) => node.children - node.ownWords;
  for (let i = 0; i < Math.max(count(left), count(right)); i++) {
    const [one, other] = [left, right].map((node) => (i < count(node) ? node.child(node.ownWords + i) : null));
    const from = i < count(left) ? left : right;
    yield { label: from.label(from.ownWords + i), left: one, right: other };
  }
}

/**
 * The rows where two messages differ, in preorder: the path, what each has there, and whether it is a node. `isMore` says
 * whether there may be others.
 */
export function differences(first, second) {
  const rows = [], waiting = [[{ label: "", left: Node.root(first), right: Node.root(second) }].values()], labels = [];
  let nodes = 0;
  while (waiting.length && rows.length < MOST_ROWS && nodes++ < MOST_NODES) {
    const { value, done } = waiting.at(-1).next();
    if (done) {
      waiting.pop();
      labels.pop();
      continue;
    }
    const { label, left, right } = value, path = `${labels.join("/")}/${label}`;
    if (isNothing(left) && isNothing(right)) continue;
    const texts = [left, right].map(nodeText);
    if (texts[0] !== texts[1]) rows.push({ path, left: texts[0], right: texts[1], isNode: left !== null });
    if (!left || !right || left.kind !== right.kind || waiting.length > DEEPEST) continue;
    if (left.guess === null || left.guess === undefined) addWords(rows, path, left, right);
    labels.push(label);
    waiting.push(children(left, right));
  }
  return { rows: rows.slice(0, MOST_ROWS), isMore: waiting.length > 0 };
}

/** The own words in which two nodes differ. */
function addWords(rows, path, left, right) {
  const letter = left.kind === STRUCT ? "d" : "w", begin = path === "/" ? "" : path;
  for (let i = 0; i < Math.max(left.ownWords, right.ownWords) && rows.length < MOST_ROWS; i++) {
    const [one, other] = [ownWord(left, i), ownWord(right, i)];
    if (one !== other) rows.push({ path: `${begin}/${letter}${i}`, left: one, right: other, isNode: false, at: i < left.ownWords ? left.start + i : null });
  }
}
