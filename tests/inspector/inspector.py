#!/usr/bin/env python3
"""Opens build/inspector.html in a headless Chromium that has no network, and compares what it shows with the program.

    inspector.py PROGRAM ARCHIVE [--full]

The page is built here. Its decoder and walk run in Node, by tests/inspector/check.mjs, over MANY changed messages and made-up ones. They
are compared by the way to a refused pointer, the reason there, the use of each word, and the words of a first difference. The other tests
are in the browser, by its keys and controls: the samples, damaged, cut and packed streams, limits, files that are saved, and a name for
each control. For each reason why a message isn't canonical the page has the place, the path and the sentence, and the words that differ are
marked in the map. Nothing of an input is shown for the next one. Cut streams have the lines of the program's `explain`. What is found,
copied, pasted and compared is what the bytes have. All that the page does is done by keys alone too, but for the choice of a file. Small
windows, contrasts and forced colours are measured. No request leaves the page, and its console stays empty. With --full a stream of 100,000
messages and a message of 64 MiB are opened too. With --idle as well, the view of each selection there is drawn within 50 ms, for which the
machine may do nothing else.

If CAPVET_PICTURES names a folder, the pictures of docs/ are written there. If CAPVET_SCREENS does, pictures for people to look at come
there: each view and dialog on a desk, on a phone, and at a zoom of 200 % and 400 %, in light, dark and forced colours. The last line is 'N
passed, M failed'.
"""
import array
import base64
import gzip
import hashlib
import json
import os
import random
import re
import shutil
import struct
import subprocess
import sys
import tempfile
import time
from collections import Counter
from itertools import product
from pathlib import Path

sys.path[1:1] = map(str, Path(__file__).resolve().parents[1].iterdir())

import made
import model
from amount import IS_FULL, IS_IDLE, cases
from browser import Browser
from harness import PROGRAM, TOP, compare, ended, expect, framed
from needs import missing
from paths import up_to

PAGE = TOP / "build/inspector.html"
MANY = cases(2_000, full=50_000)  # changed messages, in Node
SHOWN = cases(60, full=1_000)  # changed messages, in the browser
SEED = 20261126
SECONDS = 300
# How many milliseconds a selection may take. (beside other work a time means little, and only a hang takes longer than that)
LATEST = 50 if IS_IDLE else 1_000 * SECONDS
DEFAULT = ["--strict", "--unamplified"]
# How often each of these first differences has to be found at least. Far pointers are rare among accepted messages.
LEAST_DIFFERENCES = {"Segments": 20, "Far": 1, "Place": 20, "Bits": 1, "DataZero": 20, "PointerNull": 10, "Trailing": 1}


def program(words, stream):
    """The lines of the program on both outputs."""
    ran = subprocess.run([PROGRAM, *map(str, words)], input=stream, capture_output=True)
    return ran.stdout.decode().splitlines(), ran.stderr.decode().splitlines()


def explanations(words, stream):
    """For each message the line of its verdict, and the lines that explain it, without the byte in the input."""
    text = re.sub(r", byte \d+ of the input$", "", output(["explain", *words], stream, False).decode(), flags=re.M)
    found = re.findall(r"^(message .*)\n((?:  .*\n)*)", text, re.M)
    assert found, "the program explains nothing"
    return found


def output(words, stream, must=True):
    return subprocess.run([PROGRAM, *map(str, words)], input=stream, capture_output=True, check=must).stdout


def many(count, seed):
    chance = random.Random(seed)
    small = [message for message in made.samples() if len(message) < 1000]
    return [made.made_up(chance) if chance.randrange(3) == 0 else made.changed(chance.choice(small), chance) for _ in range(count)]


def uses(message):
    """How many words of an accepted message nothing uses, and how many are used twice, by the model."""
    segments, _ = model.unframed(message, model.Limits())
    counts = {(0, 0): 1}
    for _, found in model.vetted(segments, 1 << 23, 64).steps:
        for place in found.used:
            counts[place] = counts.get(place, 0) + 1
    return sum(map(len, segments)) - len(counts), sum(count > 1 for count in counts.values())


def difference_of(message):
    """The first difference of an accepted message from its canonical copy, by the model, or None."""
    segments, _ = model.unframed(message, model.Limits())
    first = model.difference(segments, model.vetted(segments, 1 << 23, 64))
    if first is None:
        return None
    reason, segment, word, number = first
    has_path = reason not in ("Segments", "Trailing")
    steps = ["pi"[kind] + str(index) for kind, index in up_to(segments, model.Limits(), number)[-1][1]] if has_path else []
    return dict(reason=reason, position=dict(segment=segment, word=word), path="/" + "/".join(steps) if has_path else None)


# ------------------------------------------------------------------ without a browser

def test_decoder(folder):
    messages = many(MANY, SEED)
    found = Counter()
    explained = zip(*(explanations(words, b"".join(messages)) for words in ([], ["--strict"], ["--exclusive"])))
    with open(folder / "messages", "w") as file:
        for message, pairs in zip(messages, explained):
            lines, texts = zip(*pairs)
            charge = re.search(r"accepted charge (\d+)", lines[0])
            numbers, first = (uses(message), difference_of(message)) if charge and int(charge[1]) < 5000 else (None, None)
            found[first and first["reason"]] += 1
            file.write(json.dumps(dict(hex=message.hex(), lines=lines, texts=texts, uses=numbers, first=first)) + "\n")
    ran = subprocess.run(["node", TOP / "tests/inspector/check.mjs", folder / "messages"], capture_output=True, text=True)
    for reason, least in LEAST_DIFFERENCES.items():
        expect(f"{reason} among the first differences", found[reason] >= least, found)
    counted = re.search(r"^(\d+) passed, (\d+) failed$", ran.stdout, re.M)
    holds = counted and counted[2] == "0" and int(counted[1]) > 5 * MANY
    expect(f"what the page finds out: {counted and counted[0]}", holds, ran.stdout + ran.stderr)


# ------------------------------------------------------------------ the page

class Inspector(Browser):
    """The page, and what a test does with it."""

    def __init__(self):
        super().__init__()
        self.call("DOM.enable")

    def fresh(self, width=1440, height=900, is_dark=False, scale=1):
        """Opens the page anew, in a window of this size."""
        self.media(is_dark)
        self.call("Emulation.setDeviceMetricsOverride", width=width, height=height, deviceScaleFactor=scale, mobile=False)
        self.errors.clear()
        self.requests.clear()
        self.open(PAGE)

    def media(self, is_dark=False, is_forced=False):
        features = [dict(name="prefers-color-scheme", value="dark" if is_dark else "light"),
                    dict(name="forced-colors", value="active" if is_forced else "none")]
        self.call("Emulation.setEmulatedMedia", features=features)

    def wait(self, expression, seconds=SECONDS):
        end = time.monotonic() + seconds
        while not self.value(expression):
            assert time.monotonic() < end, f"not within {seconds} seconds: {expression}; {self.errors}"
            time.sleep(0.01)

    def settle(self):
        """Waits until the worker has answered, and what it changes is drawn."""
        # (a view whose size has changed is drawn a frame later)
        drawn = "requestAnimationFrame(() => requestAnimationFrame(() => setTimeout(done)))"
        look = f"requestAnimationFrame(() => document.querySelector('main').ariaBusy === 'true' ? look() : {drawn})"
        waits = f"new Promise((done) => {{ const look = () => {look}; setTimeout(look); }})"
        self.call("Runtime.evaluate", expression=waits, awaitPromise=True)

    def load(self, file):
        root = self.call("DOM.getDocument")["root"]["nodeId"]
        node = self.call("DOM.querySelector", nodeId=root, selector="#file")["nodeId"]
        self.call("DOM.setFileInputFiles", files=[str(file)], nodeId=node)
        self.wait(f"document.getElementById('name').textContent === {Path(file).name!r}")
        self.settle()

    def paste(self, text):
        self.value("document.getElementById('paste').click()")
        self.value(f"document.getElementById('text').value = {text!r}")
        self.value("document.querySelector('#paste-dialog .primary').click()")
        self.settle()

    def limits(self, **values):
        self.value("document.getElementById('options').click()")
        for name, value in values.items():
            field = "checked" if isinstance(value, bool) else "value"
            self.value(f"document.getElementById('limits').elements[{name!r}].{field} = {json.dumps(value)}")
        self.value("document.querySelector('#options-dialog .primary').click()")
        self.settle()

    def show(self, view):
        """Chooses a view by its tab."""
        self.value(f"document.querySelector('[role=tab][data-view={view}]').click()")
        self.settle()

    def focus(self, name):
        self.value(f"document.getElementById({name!r}).focus()")

    def keys(self, *keys):
        for key in keys:
            self.press(key, key if len(key) == 1 else "")
        self.settle()

    def drag(self, selector, clicks=0, to=None):
        """Drags the mouse over an element, or to the end of another one, or clicks so many times at its first character."""
        boxes = [self.value(f"(() => {{ const it = document.querySelector({it!r}).getBoundingClientRect(); return [it.left, it.right, it.top + it.height / 2]; }})()")
                 for it in (selector, to or selector)]
        (left, _, top), (_, right, end) = boxes
        mouse = lambda kind, x, y, count: self.call("Input.dispatchMouseEvent", type=kind, x=x, y=y, button="left", buttons=1, clickCount=count)
        for count in range(1, max(1, clicks) + 1):
            mouse("mousePressed", left + 2, top, count)
            if not clicks:
                mouse("mouseMoved", (left + right) / 2, end, 1)
                mouse("mouseMoved", right - 1, end, 1)
            mouse("mouseReleased", left + 2 if clicks else right - 1, top if clicks else end, count)
            self.settle()

    def command(self, name, key, code):
        """A key with what the browser does at it, such as to copy."""
        for kind in ("keyDown", "keyUp"):
            self.call("Input.dispatchKeyEvent", type=kind, key=key, windowsVirtualKeyCode=code, modifiers=2, commands=[name] * (kind == "keyDown"))

    def copied(self):
        """The text that was copied last."""
        self.value("document.getElementById('paste').click(); document.getElementById('text').value = ''; document.getElementById('text').focus()")
        self.command("paste", "v", 86)
        self.settle()
        text = self.value("document.getElementById('text').value")
        self.keys("Escape")
        return text

    def texts(self, selector):
        return self.value(f"[...document.querySelectorAll({selector!r})].map((it) => it.textContent)")

    def place(self):
        return self.value("document.querySelector('#selected b')?.textContent")

    def chosen(self):
        """What is selected in the tree and in the bytes: the place of the word, as the bytes have it."""
        return self.value("document.querySelector('#bytes .chosen .place')?.textContent")

    def is_quiet(self, name):
        """Nothing left the page, and the console is empty."""
        compare(f"{name}: the console", [], self.errors)
        own = (PAGE.as_uri(), "blob:")
        compare(f"{name}: requests", [], [it for it in self.requests if not it.startswith(own)])


def spoken(line):
    """What the list says of a message, as the line of the program has it."""
    numbers = re.fullmatch(r"message (\d+): accepted charge (\d+) depth (\d+) pointers (\d+) caps (\d+)", line)
    if numbers:
        number, charge, depth, pointers, caps = numbers.groups()
        some = f", caps {caps}" if caps != "0" else ""
        return f"message {number}, accepted, charge {charge}, depth {depth}, pointers {pointers}{some}"
    number, reason, place, pointers = re.fullmatch(r"message (\d+): refused (\w+) at (\S+) pointers (\d+)", line).groups()
    return f"message {number}, {reason}, at {place}, pointers {pointers}"


def listed(page):
    """What the list says of the messages that are seen, without commas in numbers."""
    labels = page.value("[...document.querySelectorAll('.message')].map((it) => it.ariaLabel)")
    return [re.sub(r"(\d),(?=\d{3})", r"\1", it) for it in labels]


def test_samples(page):
    page.fresh()
    for file in sorted([*(TOP / "examples").glob("*.bin"), TOP / "examples/contacts.packed"]):
        stream, words = file.read_bytes(), DEFAULT + ["--packed"] * (file.suffix == ".packed")
        lines, _ = program(["vet", *words], stream)
        page.load(file)
        compare(f"{file.name}: the list", [spoken(line) for line in lines], listed(page))
        for number, line in enumerate(lines):
            page.focus("messages")
            page.keys("Home", *["ArrowDown"] * number)
            compare(f"{file.name}: the line", line, page.text("line"))
    page.is_quiet("the samples")


def shown_path(path):
    """A path as the program's lines have it: one of more than 24 steps is shortened in its middle. The page has it whole."""
    steps = path.split("/")[1:]
    return path if len(steps) <= 24 else f"/{'/'.join(steps[:8])}/.. {len(steps) - 16} steps ../{'/'.join(steps[-8:])}"


def as_lines(page):
    """What the page says of a refused message, as the program writes it."""
    names, texts = (page.texts(f"#verdict {part}") for part in ("dt", "dd"))
    found = [("path", shown_path(page.value("document.getElementById('path').value")))] if page.texts("#verdict .title button") else []
    for name, text in zip(names, texts):
        if name == "byte":
            text = re.sub(r",.*", "", re.sub(r"(\d),(?=\d{3})", r"\1", text))
        if name not in ("circle", "not looked at", "guess"):
            found.append(("cycle:" if name == "cycle" else name, text))
    sentence = page.texts("#verdict .sentence")[0]
    found.append(("reason", sentence[0].lower() + sentence[1:-1]))
    return "".join(f"  {name} {text}\n" for name, text in found)


def test_numbers(page, folder):
    """The numbers of words, and the hash, of messages that are accepted; and the way of those that are refused."""
    messages = [*made.samples(), *many(SHOWN, SEED + 1)]
    (folder / "changed.bin").write_bytes(b"".join(messages))
    lines, texts = zip(*explanations(DEFAULT, b"".join(messages)))
    page.fresh()
    page.load(folder / "changed.bin")
    for number, (message, line) in enumerate(zip(messages, lines)):
        page.focus("messages")
        page.keys("Home" if number == 0 else "ArrowDown")
        compare("the line", line, page.text("line"))
        if "refused" in line:
            compare(f"{line}: the explanation", texts[number], as_lines(page))
            place = re.search(r"at (\S+)", line)[1]
            if " pointers 0" not in line:
                compare(f"{line}: the selected word", (place, place), (page.place(), page.chosen()))
            continue
        got = [int(page.text(f"number-{name}").replace(",", "")) for name in ("unused", "used-twice", "words")]
        compare(f"{line}: words", [*uses(message), (len(message) - model_table(message)) // 8], got)
        if line.endswith("caps 0"):
            page.wait("document.getElementById('hash') !== null")
            compare(f"{line}: the hash", hashlib.sha256(output(["canon"], message)[8:]).hexdigest(), page.text("hash"))
        page.wait("document.querySelectorAll('#canonical dt').length > 1")
        compare(f"{line}: canonical", canonical_text(message), page.texts("#canonical dd")[0])
    page.is_quiet("changed messages")


def model_table(message):
    return 8 * ((struct.unpack_from("<I", message)[0] + 1) // 2 + 1)


def canonical_text(message):
    """What the page says of whether an accepted message is canonical, by the model."""
    first = difference_of(message)
    if first is None:
        return "yes"
    place = "{segment}:{word}".format_map(first["position"])
    return f"no: {first['reason']} at {place}" + (f", path {shortened(first['path'])}" if first["path"] else "")


def shortened(path):
    """A path as the page writes it."""
    steps = path.split("/")[1:]
    return f"/{'/'.join(steps[:6])}/…/{'/'.join(steps[-6:])} ({len(steps)} steps)" if len(steps) > 16 else path


# For each reason a message of one segment, or of more, the place of the first difference, its path, the words that differ as the page
# writes them, the columns of the map that are marked, and a part of the sentence. The map has all words of a segment in one row.
DIFFERENCES = (
    ("Segments", [[0], [0]], "0:0", None, "table:0 to table:1, 2 words", (0, 1), "more than one segment"),
    ("Far", [[2 | 2 << 3, 7, 1 << 32 | 0xFFFFFFF8]], "0:0", "/", "0:2, 1 word", (2,), "far pointer"),
    ("Far", [[6 | 2 << 3, 7, 2 | 1 << 3, 1 << 32]], "0:0", "/", "0:2 to 0:3, 2 words", (2, 3), "far pointer"),
    ("Capability", [[1 << 32 | 1 << 48, 7, 3 | 7 << 32]], "0:2", "/p0", "0:2, 1 word", (2,), "a capability"),
    ("EmptyStruct", [[1 << 2, 0]], "0:0", "/", "0:0, 1 word", (0,), "fcffffff00000000"),
    ("Place", [[2 << 48, 1 << 2 | 1 << 32, 1 << 32, 7]], "0:2", "/p1", "0:3, 1 word", (3,), "out of preorder"),
    ("Place", [[1 << 2 | 2 << 32, 0, 7, 7]], "0:0", "/", "0:2 to 0:3, 2 words", (2, 3), "out of preorder"),
    ("Place", [[1 | 1 << 2 | 2 << 32, 0]], "0:0", "/", "0:0, 1 word", (0,), "out of preorder"),
    ("Bits", [[1 | 2 << 32 | 9 << 35, 7, 1 << 8]], "0:0", "/", "0:2, 1 word", (2,), "set after the last value"),
    ("EmptyList", [[1 | 7 << 32, 1 << 32]], "0:0", "/", "0:1, 1 word", (1,), "no elements"),
    ("Surplus", [[1 | 7 << 32 | 3 << 35, 1 << 2 | 1 << 32, 5, 0, 0]], "0:0", "/", "0:3 to 0:4, 2 words", (3, 4), "after its last element"),
    ("DataZero", [[2 << 32 | 1 << 48, 7, 0, 0]], "0:0", "/", "0:2, 1 word", (2,), "last data word"),
    ("DataZero", [[1 | 7 << 32 | 6 << 35, 2 << 2 | 2 << 32 | 1 << 48, 7, 0, 0, 7, 0, 0]], "0:0", "/", "0:3 to 0:6, 2 words", (3, 6),
     "last data word"),
    ("PointerNull", [[1 << 32 | 2 << 48, 7, 0, 0]], "0:0", "/", "0:3, 1 word", (3,), "last pointer"),
    ("PointerNull", [[1 | 7 << 32 | 6 << 35, 2 << 2 | 1 << 32 | 2 << 48, 7, 0, 0, 7, 0, 0]], "0:0", "/", "0:4 to 0:7, 2 words", (4, 7),
     "last pointer"),
    ("Trailing", [[0, 0, 7]], "0:1", None, "0:1 to 0:2, 2 words", (1, 2), "after the last object"),
    (None, [[1 << 32, 7]], None, None, None, (), None),
)
# The columns of the map that have a mark, in the order of its rows. A mark is a square of the colour of texts.
MARKED = """(() => { const map = document.querySelector('#map canvas'), { width, height } = map, found = [];
  // (the console warns of a canvas that is read twice)
  const copy = Object.assign(document.createElement('canvas'), { width, height }), pen = copy.getContext('2d', { willReadFrequently: true });
  pen.drawImage(map, 0, 0);
  const { data } = pen.getImageData(0, 0, width, height);
  const [r, g, b] = [1, 3, 5].map((at) => parseInt(getComputedStyle(document.documentElement).getPropertyValue('--text').trim().slice(at, at + 2), 16));
  const is = (x, y) => { const at = 4 * (y * width + x); return data[at] === r && data[at + 1] === g && data[at + 2] === b; };
  for (let y = 0; y < height - 5; y++) for (let x = 40; x < width - 5; x++) {
    let all = !is(x - 1, y) && !is(x, y - 1);
    for (let i = 0; all && i < 25; i++) all = is(x + i % 5, y + (i - i % 5) / 5);
    if (all) found.push((x - 43) / 12);
  }
  return found; })()"""


def compare_difference(page, name, row, copy):
    """The rows about the first difference of the message that is shown, whose canonical words are `copy`, and where they lead."""
    reason, segments, place, path, words, _, sentence = row
    names, texts = page.texts("#canonical dt"), page.texts("#canonical dd")
    compare(f"{name}: the rows", ["canonical", "why", "differs", "canonical copy", *["SHA-256"] * bool(copy)], names)
    compare(f"{name}: the first difference", f"no: {reason} at {place}" + (f", path {path}" if path else ""), texts[0])
    expect(f"{name}: the sentence", sentence in texts[1] and texts[1].endswith("."), texts[1])
    compare(f"{name}: the words that differ", words, texts[2])
    many, own = len(copy) // 8, sum(map(len, segments))
    said = f"{many} word{'s' * (many != 1)}" + f", {own - many} fewer" * (own > many) + f", {many - own} more" * (many > own)
    compare(f"{name}: the copy", said if copy else "none: the message has a capability", texts[3])
    for at, target in enumerate([place] * (2 if path else 1) + [re.split("[ ,]", words)[0]]):
        go_to(page, "table:0")
        page.value(f"document.querySelectorAll('#canonical button')[{at}].click()")
        page.settle()
        compare(f"{name}: button {at}", target, page.place())
    go_to(page, "table:0")
    page.keys("r")
    compare(f"{name}: the key to it", place, page.place())
    said = page.text("selected")
    expect(f"{name}: the selected word", f"not canonical: {reason}" in said, said)


def test_differences(page, folder):
    """Why a message isn't canonical: the reason, the place, the path, the sentence, and the words that are marked."""
    messages = [framed(*segments) for _, segments, *_ in DIFFERENCES]
    (folder / "differences.bin").write_bytes(b"".join(messages))
    page.fresh()
    page.load(folder / "differences.bin")
    for number, (message, row) in enumerate(zip(messages, DIFFERENCES)):
        reason, columns = row[0], list(row[5])
        name = f"{reason} of message {number}"
        page.focus("messages")
        page.keys("Home", *["ArrowDown"] * number)
        page.wait("document.querySelectorAll('#canonical dt').length > 1")
        go_to(page, "table:0")
        compare(f"{name}: the words that are marked", columns, page.value(MARKED))
        compare(f"{name}: the legend", reason is not None, "not canonical" in page.texts("#legend .entry"))
        if reason is not None:
            compare_difference(page, name, row, output(["canon"], message, False)[8:])
            sentence = json.loads(output(["explain", "--canonical", "--json"], message, False))["difference"]["sentence"]
            compare(f"{name}: the sentence of the program", f"{sentence[0].upper()}{sentence[1:]}.", page.texts("#canonical dd")[1])
            continue
        compare(f"{name}: canonical", ["canonical", "SHA-256"], page.texts("#canonical dt"))
        compare(f"{name}: canonical, what it says", "yes", page.texts("#canonical dd")[0])
        page.keys("r")
        compare(f"{name}: the key to nothing", "table:0", page.place())
    (folder / "canonical.bin").write_bytes(framed([1 << 32, 7]))
    page.load(folder / "canonical.bin")
    compare("the marks of the input before", ("yes", []), (page.texts("#canonical dd")[0], page.value(MARKED)))
    page.is_quiet("first differences")


def damaged():
    data = bytearray((TOP / "examples/contacts.bin").read_bytes())
    data[66] = 0x40
    return bytes(data)


# How many points are red in the last rows of the map.
RED = """(() => { const map = document.querySelector('#map canvas'), rows = 16 * devicePixelRatio;
  const { data } = map.getContext('2d').getImageData(0, map.height - rows, map.width, rows);
  let count = 0;
  for (let i = 0; i < data.length; i += 4) if (data[i] > data[i + 1] + 80) count++;
  return count; })()"""


def test_refusal(page, folder):
    """What the page says of a refused message, and the words that aren't there."""
    (folder / "damaged.bin").write_bytes(damaged())
    page.fresh()
    page.load(folder / "damaged.bin")
    compare("the reason and the path", ["OutOfSegment", "/p0/i0/p0"], page.texts("#verdict .title b, #verdict .title button"))
    compare("the sentence", ["The target runs past the end of its segment."], page.texts(".sentence"))
    compare("the facts", ["byte", "pointer", "target", "leads into", "not looked at"], page.texts("#verdict dt"))
    compare("the crumbs", ["root", "p0", "i0", "p0"], page.texts("#crumbs > *"))
    compare("the tree", ["OutOfSegment"], page.texts(".item.refused .flag"))
    compare("rows that were not looked at", 7, len(page.texts(".item.unseen")))
    compare("the chain in the bytes", ["0:0", "0:2", "0:6"], page.texts(".bytes-row.chain .place"))
    page.focus("bytes")
    page.keys("End")
    ghosts = page.texts(".bytes-row.ghost")
    expect("words that aren't there", len(ghosts) == 6 and "1,048,239 words further" in ghosts[0] and "0:1048631" in ghosts[1], ghosts)
    page.keys("r")
    compare("the key to the refused pointer", ("0:7", "0:7"), (page.place(), page.chosen()))
    many = bytearray((TOP / "examples/contacts-many-segments.bin").read_bytes())
    many[630] = 0x67
    (folder / "missing.bin").write_bytes(many)
    page.load(folder / "missing.bin")
    compare("a missing segment", "message 0: refused SegmentMissing at 2:19 pointers 24", page.text("line"))
    # (the arrow alone has some 40 red points there)
    red = page.value(RED)
    expect("the map says at its edge where the arrow leads", red > 120, red)
    page.is_quiet("a damaged message")


def heads(dump):
    """The rows of the tree, as `capvet dump` has them: level, label, and the numbers of the head or the bytes."""
    found = []
    for line in dump:
        label, *rest = line.split()
        found.append(((len(line) - len(line.lstrip())) // 2 + 1, label, rest))
    return found


def said(rest):
    """The text of a row of the tree, of the words of a line of `capvet dump`."""
    def amount(count, name):
        return f"{int(count):,} {name}{'' if count == '1' else 's'}"
    shape = lambda data, pointers: f"{amount(data, 'data word')} and {amount(pointers, 'pointer')}"
    elements = [("value", " without bits"), ("bit", ""), ("byte", ""), *(("value", f" of {size} bytes") for size in (2, 4, 8))]
    kind, *numbers = rest
    if kind == "struct":
        return f"struct of {shape(*numbers)}"
    if kind == "list":
        name, more = elements[int(numbers[0])]
        return f"list of {amount(numbers[1], name)}{more}"
    if kind == "pointers":
        return f"list of {amount(numbers[0], 'pointer')}"
    if kind == "structs":
        return f"list of {amount(numbers[0], 'struct')} of {shape(*numbers[1:])}"
    return f"capability {numbers[0]}" if kind == "cap" else kind if kind == "null" else None


def test_tree(page):
    """Each row of the tree, opened by keys, is the line of `capvet dump`."""
    file = TOP / "examples/telemetry.bin"
    dump = heads(program(["dump"], file.read_bytes())[0][1:])
    row = """(() => { const it = document.querySelector('.item.chosen'), text = (name) => it.querySelector(name).textContent;
      return [Number(it.ariaLevel), text('.label'), text('.head, .hex'), it.ariaExpanded]; })()"""
    page.fresh()
    page.load(file)
    page.focus("tree")
    page.keys("Home")
    got = []
    for number in range(len(dump)):
        if number:
            page.keys("ArrowDown")
        level, label, text, is_open = page.value(row)
        if is_open == "false":
            page.keys("ArrowRight")
        got.append((level, label, text.replace(" ", "") if re.match(r"[dw]\d", label) else text))
    compare("the tree", [(level, label, said(rest) or rest[0]) for level, label, rest in dump], got)
    page.load(TOP / "examples/contacts.bin")
    page.focus("tree")
    page.keys("End")
    chosen = page.place(), page.value(row)
    for title, is_open in (("opens", "false"), ("closes", "true")):
        twist = f"document.querySelector('.item[aria-expanded={is_open}]:not(#item-0) .twist').getBoundingClientRect()"
        page.click(page.value(f"{twist}.left") + 2, page.value(f"{twist}.top") + 2)
        page.settle()
        page.keys("ArrowUp", "ArrowDown")
        compare(f"the selection where a row above it {title}", chosen, (page.place(), page.value(row)))
    page.is_quiet("the tree")


def go_to(page, text):
    page.focus("path")
    page.value(f"document.getElementById('path').value = {text!r}")
    page.value("document.getElementById('search').requestSubmit()")
    page.settle()


def test_links(page):
    """A selected word shows in all views; keys follow and go back; paths are found."""
    file = TOP / "examples/contacts-many-segments.bin"
    page.fresh()
    page.load(file)
    compare("the root", ("0:0", "0:0", ["root"]), (page.place(), page.chosen(), page.texts("#crumbs > *")))
    page.focus("map")
    page.keys("f")
    compare("a key follows", "1:1", page.place())
    page.keys("ArrowRight")
    compare("the next word", ("1:2", "1:2", ["p0"]), (page.place(), page.chosen(), page.texts(".item.chosen .label")))
    compare("the landing pad in the bytes", ["2:0"], page.texts(".bytes-row.on-way .place"))
    page.keys("b", "b")
    compare("a key goes back", "0:0", page.place())
    page.keys("/")
    compare("a key goes to the path", "path", page.value("document.activeElement.id"))
    # (after a pad and a tag, each element has a data word and six pointers)
    for path, place in (("/p0/i1/p4", f"2:{2 + 7 + 1 + 4}"), ("/", "0:0")):
        go_to(page, path)
        compare(f"the path {path}", (place, place, ["root", *path.split("/")[1:]] if path != "/" else ["root"]),
                (page.place(), page.chosen(), page.texts("#crumbs > *")))
    for path, fault in (("/p01", "Not a path: see character 3."), ("q0", "Not a path: see character 0."), ("/p9", "/ has no p9.")):
        go_to(page, path)
        compare(f"the path {path}", fault, page.value("document.getElementById('path').validationMessage"))
    page.focus("map")
    left, top = page.value("(() => { const it = document.getElementById('map').getBoundingClientRect(); return [it.left, it.top]; })()")
    page.keys("Home")
    # (the second row has the first words of the table)
    page.click(left + 60, top + 18)
    page.settle()
    expect("a click in the map", page.place().startswith("table:") and page.place() != "table:0", page.place())
    page.is_quiet("linked views")


def test_places(page, folder):
    """The field for paths takes places, and bytes of the input in whichever message."""
    first, second = ((TOP / f"examples/{name}.bin").read_bytes() for name in ("contacts", "contacts-many-segments"))
    (folder / "two.bin").write_bytes(first + second)
    page.fresh()
    page.load(folder / "two.bin")
    for text, place in (("0:7", "0:7"), ("64", "0:7"), ("0x40", "0:7"), ("p0/i0", "0:6"), ("table:0", "table:0"), ("71", "0:7")):
        go_to(page, "/")
        go_to(page, text)
        compare(f"the place {text}", (place, place.replace("table:0", "table")), (page.place(), page.chosen()))
    go_to(page, f"{len(first) + 8 * (model_table(second) // 8)}")
    compare("a byte of the next message", ("message 1: ", "0:0"), (page.text("line")[:11], page.place()))
    go_to(page, "2:7")
    compare("another segment", "2:7", page.place())
    for text, fault in (("2:9999999", "There is no word 2:9999999."), (str(len(first + second)), f"The input has no byte {len(first + second)}."),
                        ("0x", "Not a path: see character 0.")):
        go_to(page, text)
        compare(f"the place {text}", fault, page.value("document.getElementById('path').validationMessage"))
    drop(page, (TOP / "examples/contacts.packed").read_bytes())
    go_to(page, "64")
    compare("a byte of packed input is one of its message", "0:7", page.place())
    page.is_quiet("places")


def find(page, kind, text, key="Enter"):
    """Finds something, and says where the selection is then, in the input."""
    page.value(f"document.getElementById('find-kind').value = {kind!r}; document.getElementById('find').value = {text!r}")
    page.focus("find")
    page.press(key, "\r")
    page.settle()
    return int(page.texts(".bytes-row.chosen .offset")[0], 16)


def test_find(page, folder):
    """Text, digits and numbers are found in all messages, in both directions."""
    stream = (TOP / "examples/stream-of-four.bin").read_bytes() + struct.pack("<II", 0, 5) + bytes.fromhex("0000000004000000") + struct.pack(
        "<qddfi", -5, 1.25, -0.0, 2.5, 123456789)
    page.fresh()
    page.load((folder / "find.bin", (folder / "find.bin").write_bytes(stream))[0])
    word = lambda at: at - at % 8
    for kind, text, pattern, step in (("text", "fjord", b"fjord", 1), ("hex", "c3 bc c3 9f", b"\xc3\xbc\xc3\x9f", 1), ("number", "123456789", struct.pack("<i", 123456789), 4),
                                      ("number", "-5", b"\xfb", 1), ("number", "1.25", struct.pack("<d", 1.25), 4), ("number", "2.5", struct.pack("<f", 2.5), 4)):
        places = [at for at in range(0, len(stream), step) if stream.startswith(pattern, at)]
        words = sorted({word(at) for at in places})
        go_to(page, "0")
        got = [find(page, kind, text) for _ in range(min(6, len(words)))]
        compare(f"the {kind} {text}", (words[1:] + words[:1] if words[0] == 0 else words)[:6], got)
    words = sorted({word(at) for at in range(len(stream)) if stream.startswith(b"fjord", at)})
    go_to(page, "0")
    found = find(page, "text", "fjord")
    page.focus("tree")
    # (a find begins at the selection, so each waits for the one before)
    for key in (".", ".", ","):
        page.keys(key)
    compare("keys find on and back", (words[0], words[1]), (found, int(page.texts(".bytes-row.chosen .offset")[0], 16)))
    for kind, text, fault in (("text", "not there", "This is not in the input."), ("hex", "abc", "This is no hex."), ("number", "x", "This is no number.")):
        find(page, kind, text)
        compare(f"the {kind} {text}", fault, page.value("document.getElementById('find').validationMessage"))
    drop(page, (TOP / "examples/contacts.packed").read_bytes())
    plain = (TOP / "examples/contacts.bin").read_bytes()
    compare("in packed input", word(plain.index(b"fjord")), find(page, "text", "fjord"))
    page.is_quiet("find")


def test_copy(page, folder):
    """Text that the mouse selects stays selected, and keys copy what is known of the selection."""
    (folder / "damaged.bin").write_bytes(damaged())
    page.fresh()
    page.load(folder / "damaged.bin")
    hexes = "#word-3 .hex"
    before = page.place()
    page.drag(hexes)
    selected = page.value("getSelection().toString()")
    expect("dragging selects digits", re.match(r"[0-9a-f]{2} [0-9a-f ]+$", selected) and len(selected) > 15, selected)
    compare("and no word", before, page.place())
    page.command("copy", "c", 67)
    compare("it is copied", re.sub(r"\s+", " ", selected).strip(), re.sub(r"\s+", " ", page.copied()).strip())
    page.drag("#word-5 .hex", clicks=2)
    compare("a double click selects one byte", 2, len(page.value("getSelection().toString()").strip()))
    page.drag("#word-1 .offset", to="#word-3 .hex")
    page.command("copy", "c", 67)
    lines = page.copied().splitlines()
    compare("rows are lines", (3, ["000008", "0:0"], ["000018", "0:2"]), (len(lines), lines[0].split()[:2], lines[-1].split()[:2]))
    page.drag("#item-0 .head")
    compare("text of the tree", True, len(page.value("getSelection().toString()")) > 10)
    page.value("getSelection().removeAllRanges()")
    page.focus("tree")
    page.keys("r")
    line, lines = explanations(DEFAULT, damaged())[0]
    page.value(KEEPS_SAID)
    for key, expected in (("p", "/p0/i0/p0"), ("a", "0:7"), ("x", "bd0040000a010000"), ("c", "/p0/i0/p0 0:7 bd0040000a010000"), ("l", f"{line}\n{lines}")):
        page.focus("tree")
        page.keys(key)
        compare(f"the key {key} copies", expected, re.sub(r", byte \d+ of the input", "", page.copied()))
        compare("it says so", f"Copied: {expected.splitlines()[0]}", page.value("lastSaid"))
    page.value("document.getElementById('copy-lines').click()")
    page.load(TOP / "examples/contacts.bin")
    page.focus("tree")
    page.keys("l")
    compare("the line of an accepted message", program(["vet"], (TOP / "examples/contacts.bin").read_bytes())[0][0], page.copied().strip())
    drop(page, damaged()[:100])
    page.focus("bytes")
    page.keys("l")
    compare("the lines of a fault", "{0}\n{2}".format(*why(damaged()[:100])), page.copied())
    page.is_quiet("copies")


def test_pasted(page, folder):
    """Texts of other programs that show bytes."""
    page.fresh()
    for name in ("contacts", "telemetry", "shared"):
        file = TOP / f"examples/{name}.bin"
        data, line = file.read_bytes(), program(["vet"], file.read_bytes())[0][0]
        for command in (["xxd"], ["hexdump", "-C"], ["od", "-A", "x", "-t", "x1z"], [sys.executable, "-c", "import sys; print(open(sys.argv[1], 'rb').read())"]):
            if shutil.which(command[0]):
                page.paste(subprocess.run([*command, file], capture_output=True, check=True, text=True).stdout)
                compare(f"{name} by {command[0]}", (line, f"{len(data):,} bytes, plain"), (page.text("line"), page.text("about")))
    for text, fault in (("00000", "The text has 5 hexadecimal digits, which is an odd number."), ("zz!", "This text is neither hexadecimal digits nor base64."),
                        ("00000000: 0000 zz", "Line 1 is not one of a dump."),
                        ("00000000: 0000 0000\n00000004: 0000 0000\n00000010: 0000", "Line 3 begins at byte 16, and 8 bytes are before it.")):
        page.paste(text)
        compare(f"the text {text}", fault, page.text("fault"))
    page.is_quiet("pasted texts")


def differences(page):
    rows = page.value("[...document.querySelectorAll('#differences tbody tr')].map((row) => [...row.children].map((it) => it.textContent))")
    return page.text("compared"), [tuple(row) for row in rows]


def nodes_of(dump):
    """The text of each node of a tree by its path, as `capvet dump` has it, and the digits of each own word."""
    found, steps = {}, []
    for level, label, rest in heads(dump):
        steps = [*steps[:level - 1], *([label] if level > 1 else [""])]
        found["/".join(steps) or "/"] = said(rest) or rest[0]
    return found


def test_compare(page, folder):
    """A message beside its canonical copy, and beside another message, where they differ."""
    page.fresh()
    for name in ("contacts", "telemetry"):
        file = TOP / f"examples/{name}.bin"
        page.load(file)
        page.focus("tree")
        page.keys("d")
        count, rows = differences(page)
        left, right = (nodes_of(program(["dump"], data)[0][1:]) for data in (file.read_bytes(), output(["canon"], file.read_bytes())))
        expected = {path: (text, right[path]) for path, text in left.items() if path in right and text != right[path]}
        compare(f"{name} and its canonical copy", expected, {path: (one, other) for path, one, other in rows})
        compare(f"{name}: how many", f"{len(expected)} difference{'s' * (len(expected) != 1)}", count)
        page.keys("Escape")
    first, second = (bytearray((TOP / "examples/contacts.bin").read_bytes()) for _ in range(2))
    second[8 * 7] ^= 0xff  # (the data word of /p0/i0)
    (folder / "pair.bin").write_bytes(first + second + (TOP / "examples/cycle.bin").read_bytes())
    page.load(folder / "pair.bin")
    page.focus("messages")
    page.keys("Home")
    page.value("document.getElementById('compare').click()")
    choose = "document.getElementById('other').value = {0}; document.getElementById('other').onchange()"
    for other, expected in ((1, ("1 difference", [("/p0/i0/d0", "0" * 16, "ff" + "0" * 14)])), (0, ("There is no difference.", []))):
        page.value(choose.format(other))
        page.settle()
        compare(f"beside message {other}", expected, differences(page) if other else (page.text("compared"), []))
    page.value(choose.format(2))
    page.settle()
    compare("beside a refused one", "Message 2 is refused.", page.text("compared"))
    page.value(choose.format(9))
    compare("no such message", "There is no message 9.", page.text("compared"))
    page.value(choose.format(1))
    page.settle()
    page.value("document.querySelector('#differences button').click()")
    page.settle()
    compare("a difference is selected", ("0:6", "0:6"), (page.place(), page.chosen()))
    drop_both(page, ("one.bin", bytes(first)), ("two.bin", bytes(second)))
    page.value("document.getElementById('compare').click()")
    page.value(choose.format(1))
    page.settle()
    compare("two files", ("one.bin + two.bin", "1 difference"), (page.text("name"), page.text("compared")))
    page.keys("Escape")
    page.load(folder / "pair.bin")
    page.focus("messages")
    page.keys("End")
    compare("a refused message is not compared", [True], page.value("[document.getElementById('compare').disabled]"))
    page.is_quiet("comparisons")


def test_panes(page, folder):
    """The lines between views move, by keys and by the mouse."""
    size = lambda name: page.value(f"(({{ width, height }}) => [width, height])(document.getElementById('{name}-panel').getBoundingClientRect())")
    page.fresh()
    page.load(TOP / "examples/contacts.bin")
    for line, view, keys, axis in (("split-list", "messages", ("ArrowRight", "ArrowLeft"), 0), ("split-tree", "tree", ("ArrowRight", "ArrowLeft"), 0),
                                   ("split-map", "map", ("ArrowDown", "ArrowUp"), 1)):
        before = size(view)[axis]
        page.focus(line)
        page.keys(*keys[:1] * 3)
        wider = size(view)[axis]
        now = int(page.value(f"document.getElementById('{line}').getAttribute('aria-valuenow')"))
        page.keys(*keys[1:] * 6)
        expect(f"keys move {line}", wider > before + 5 and size(view)[axis] < before, before, wider, size(view), now)
        left, top = page.value(f"(({{ left, top, width, height }}) => [left + width / 2, top + height / 2])(document.getElementById('{line}').getBoundingClientRect())")
        before, to = size(view)[axis], (left + 60 * (1 - axis), top + 60 * axis)
        for kind, (x, y) in (("mousePressed", (left, top)), ("mouseMoved", to), ("mouseReleased", to)):
            page.call("Input.dispatchMouseEvent", type=kind, x=x, y=y, button="left", buttons=1, clickCount=1)
        page.settle()
        expect(f"the mouse moves {line}", abs(size(view)[axis] - before - 60) < 4, before, size(view))
    page.is_quiet("panes")


def test_word_numbers(page, folder):
    """The numbers that a word may be, and lists as numbers."""
    values = struct.pack("<hhhhh", 1, -2, 300, -32768, 7) + bytes(6)
    floats = struct.pack("<ff", 1.5, -0.1)
    words = struct.pack("<QQQQ", 3 << 48, 1 | 2 << 2 | 3 << 32 | 5 << 35, 1 | 3 << 2 | 4 << 32 | 2 << 35, 1 | 3 << 2 | 1 << 32 | 11 << 35)
    message = struct.pack("<II", 0, (len(words) + 32) // 8) + words + values + floats + b"\x05\x06" + bytes(6)
    compare("the message is accepted", True, "accepted" in program(["vet"], message)[0][0])
    page.fresh()
    drop(page, message)
    page.value("document.getElementById('numbers').open = true")
    page.settle()
    go_to(page, "0:4")
    shown = dict(zip(page.texts("#numbers dt"), page.texts("#numbers dd")))
    (u64,), (i64,), (f64,) = (struct.unpack_from(f"<{it}", values) for it in "Qqd")
    several = lambda form: " ".join(map(str, struct.unpack_from(form, values)))
    compare("the numbers of a word", [str(u64), str(i64), several("<2I"), several("<2i"), several("<4H"), several("<4h"), several("<8B"), several("<8b"),
                                      " ".join(f"{it:08b}" for it in values[:8])],
            [shown[it] for it in ("u64", "i64", "u32", "i32", "u16", "i16", "u8", "i8", "bits")])
    compare("a floating one", f64, float(shown["f64"]))
    for way, first, second in (("unsigned", "1 65534 300 32768", "1069547520 3184315597"), ("signed", "1 -2 300 -32768", "1069547520 -1110651699"),
                               ("floating", "1 65534 300 32768", "1.5 -0.100000001")):
        page.value(f"document.getElementById('way').value = {way!r}; document.getElementById('way').onchange({{ target: document.getElementById('way') }})")
        page.settle()
        compare(f"lists, {way}", [first, "7", second, "10100000 011"], page.texts(".item.word .dim"))
    page.is_quiet("numbers")


def test_keys(page, folder):
    """Keys that look for words, and for messages."""
    shared, cycle = ((TOP / f"examples/{name}.bin").read_bytes() for name in ("shared", "cycle"))
    (folder / "keys.bin").write_bytes(cycle + shared + shared + cycle)
    page.fresh()
    page.load(folder / "keys.bin")
    compare("the first refused message", "message 0: refused DepthLimit at 0:0 pointers 65", page.text("line"))
    page.focus("map")
    page.keys("n")
    compare("the next refused message", "message 3: refused DepthLimit at 0:0 pointers 65", page.text("line"))
    page.focus("messages")
    page.keys("ArrowUp")
    page.focus("map")
    page.keys("t")
    compare("the word that is used twice", "0:3", page.place())
    page.keys("o")
    compare("the next object", "0:0", page.place())
    page.value("document.getElementById('refused-only').click()")
    page.settle()
    compare("the refused messages alone", [f"message {number}, DepthLimit, at 0:0, pointers 65" for number in (0, 3)], listed(page))
    page.load(TOP / "examples/contacts.bin")
    page.is_quiet("keys")


def dropping(data, name="dropped.bin"):
    """A script that drops a file with these bytes on the page."""
    return f"""(() => {{ const dropped = new DataTransfer(), bytes = Uint8Array.from({list(data)});
      dropped.items.add(new File([bytes], {name!r}));
      const event = (type) => new DragEvent(type, {{ dataTransfer: dropped, cancelable: true }});
      for (const type of ['dragenter', 'dragover', 'drop']) dispatchEvent(event(type)); }})();"""


def drop_both(page, *files):
    """Drops some files at once."""
    added = "".join(f"dropped.items.add(new File([Uint8Array.from({list(data)})], {name!r}));" for name, data in files)
    page.value(f"""(() => {{ const dropped = new DataTransfer(); {added}
      for (const type of ['dragenter', 'dragover', 'drop']) dispatchEvent(new DragEvent(type, {{ dataTransfer: dropped, cancelable: true }})); }})()""")
    page.settle()


def drop(page, data):
    page.value(dropping(data))
    page.settle()


# Keeps what the page says last, which is there for four seconds: a busy machine may take longer to ask.
KEEPS_SAID = """(() => { const said = document.getElementById('said'), keep = () => { if (said.textContent) window.lastSaid = said.textContent; };
  new MutationObserver(keep).observe(said, { childList: true, characterData: true, subtree: true }); })()"""
# What the page shows of a message: the line, the path, whether anything can be done with it, and how many rows each view has.
SHOWN_NOW = """(() => { const by = (id) => document.getElementById(id), rows = (id) => by(id).querySelectorAll('.rows > div').length;
  const buttons = ['save-message', 'save-packed', 'save-canonical', 'back', 'follow'];
  return [by('name').textContent, by('line').textContent, by('verdict').textContent, by('selected').textContent, by('path').value,
    buttons.filter((id) => !by(id).disabled).length]; })()"""


def nothing_of(name):
    return [name, "", "", "", "", 0]


def test_moments(page, folder):
    """Nothing of the last input is shown for the next one, and nothing of the last limits within the next ones."""
    contacts, cycle = ((TOP / f"examples/{name}.bin").read_bytes() for name in ("contacts", "cycle"))
    page.fresh()
    page.load(TOP / "examples/contacts.bin")
    page.wait("!document.getElementById('save-canonical').disabled")
    compare("the title", "contacts.bin - capvet inspector", page.value("document.title"))
    page.paste("00000000: 0000 zz")
    compare("a text that is none", nothing_of("pasted text"), page.value(SHOWN_NOW))
    compare("its views", [0, 0, 0], [len(page.texts(f"#{view} .rows > div")) for view in ("messages", "tree", "bytes")])
    page.load(TOP / "examples/contacts.bin")
    compare("as soon as a file is there", nothing_of("dropped.bin"), page.value(dropping(cycle) + SHOWN_NOW))
    page.settle()
    compare("then", "message 0: refused DepthLimit at 0:0 pointers 65", page.text("line"))
    # (the worker has many verdicts of the first one on their way)
    page.value(dropping(cycle * 20_000) + dropping(contacts, "second.bin"))
    page.settle()
    compare("one input after another", ("1", program(["vet"], contacts)[0][0]), (page.text("messages-count"), page.text("line")))
    narrow = """document.getElementById('options').click(); document.getElementById('limits').elements.depth.value = 3;
      document.querySelector('#options-dialog .primary').click();"""
    page.value(dropping(contacts, "third.bin") + narrow)
    page.settle()
    within = program(["vet", *DEFAULT, "--depth", 3], contacts)[0][0]
    compare("other limits while an input is read", within, page.text("line"))
    compare("the limits beside the verdict", "Limits: 3 levels", page.text("in-force"))
    page.limits(depth=64)
    compare("the usual limits", True, page.value("document.getElementById('in-force').hidden"))
    page.value("document.getElementById('options').click(); document.getElementById('limits').elements.depth.value = 1")
    page.keys("Escape")
    page.load(TOP / "examples/contacts.bin")
    compare("limits that are not applied", program(["vet"], contacts)[0][0], page.text("line"))
    page.limits(format="plain", isExclusive=True, isStrict=False)
    compare("all that is other", "Limits: not strict, exclusive", page.text("in-force"))
    page.is_quiet("moments")


def test_refused_only(page, folder):
    """The list of refused messages, and an input without any."""
    label = "document.querySelector('.check').textContent.trim()"
    box = "(() => { const it = document.getElementById('refused-only'); return [it.checked, it.disabled]; })()"
    (folder / "both.bin").write_bytes((TOP / "examples/cycle.bin").read_bytes() + (TOP / "examples/shared.bin").read_bytes())
    page.fresh()
    page.load(folder / "both.bin")
    compare("the label", ("Refused only (1)", [False, False]), (page.value(label), page.value(box)))
    page.value("document.getElementById('refused-only').click()")
    page.settle()
    compare("one is refused", 1, len(listed(page)))
    page.load(TOP / "examples/contacts.bin")
    compare("the next file", ("Refused only (0)", [False, True], 1), (page.value(label), page.value(box), len(listed(page))))
    page.is_quiet("refused messages alone")


# Whether a row is chosen, and seen whole in its view.
CHOSEN_SEEN = """(() => { const it = document.querySelector('#%s .chosen')?.getBoundingClientRect();
  const view = document.getElementById('%s').getBoundingClientRect();
  return it !== undefined && it.top >= view.top && it.bottom <= view.bottom; })()"""


def test_tabs(page, folder):
    """A view that is opened shows what is selected, and everything can be reached on small screens."""
    (folder / "damaged.bin").write_bytes(damaged())
    for width, height in ((390, 844), (640, 400), (320, 256), (960, 540)):
        at = f"at {width} x {height}"
        page.fresh(width, height)
        page.load(folder / "damaged.bin")
        for path in (None, "/p0/i6"):
            if path:
                go_to(page, path)
            for view in ("bytes", "tree"):
                page.show(view)
                compare(f"the selection {path} in {view} {at}", True, page.value(CHOSEN_SEEN % (view, view)))
            page.show("verdict")
        page.show("bytes")
        seen = page.value("['.offset', '.note'].map((name) => document.querySelector('.bytes-row.k-data ' + name).checkVisibility())")
        compare(f"the columns {at}", [width > 560] * 2, seen)
        page.show("verdict")
        page.value("document.querySelector('.sentence').scrollIntoView()")
        box = page.value("(() => { const it = document.querySelector('.sentence').getBoundingClientRect(); return [it.top, it.bottom]; })()")
        expect(f"the sentence can be read {at}", box[0] >= -1 and box[1] <= height and box[1] > box[0], box)
        compare(f"nothing is wider {at}", True, page.value("document.documentElement.scrollWidth <= innerWidth"))
        page.show("tree")
        expect(f"the tree has room {at}", page.value("document.getElementById('tree').clientHeight") >= min(150, height - 100))
        page.is_quiet(f"tabs {at}")


# How many points the choice of the form is wider than its longest text.
SPARE = """(() => { const it = document.querySelector('#limits select'), pen = document.createElement('canvas').getContext('2d');
  pen.font = getComputedStyle(it).font;
  return it.clientWidth - Math.max(...[...it.options].map((option) => pen.measureText(option.text).width)); })()"""


def test_sizes(page, folder):
    """Of what is no message each tab says so, and dialogs begin at their top, with each choice in sight."""
    (folder / "text").write_bytes(b"GET / HTTP/1.1\r\n\r\n")
    for width, height in ((390, 844), (960, 540)):
        page.fresh(width, height)
        page.load(folder / "text")
        for view in ("tree", "map", "bytes"):
            page.show(view)
            box = page.value(f"(({{ top, bottom }}) => [top, bottom])(document.getElementById('{view}-panel').getBoundingClientRect())")
            nav = page.value("document.querySelector('[role=tablist]').getBoundingClientRect().bottom")
            expect(f"{view} has its place at {width} x {height}", box[0] < 60 and box[1] > box[0] + 200 and abs(nav - height) < 2, box, nav)
            said = page.value(f"getComputedStyle(document.getElementById('{view}-panel'), '::after').content")
            expected = f'"This is no message, and has no {view}."' if view != "bytes" else "none"
            compare(f"what {view} says at {width} x {height}", expected, said)
    for width, height in ((1280, 800), (390, 844), (640, 400), (320, 256)):
        page.fresh(width, height)
        page.value("document.getElementById('help').click()")
        compare(f"the top of the keys at {width} x {height}", 0, page.value("document.getElementById('help-dialog').scrollTop"))
        page.keys("Escape")
        page.value("document.getElementById('options').click()")
        spare = page.value(SPARE)
        expect(f"the choice at {width} x {height}", spare > (34 if width > 320 else -40), spare)
        page.keys("Escape")
    page.is_quiet("sizes")


CONTRAST = """(() => { const style = getComputedStyle(document.documentElement), light = (name) => {
    const [r, g, b] = [1, 3, 5].map((at) => parseInt(style.getPropertyValue('--' + name).trim().slice(at, at + 2), 16) / 255)
      .map((it) => (it <= 0.03928 ? it / 12.92 : ((it + 0.055) / 1.055) ** 2.4));
    return 0.2126 * r + 0.7152 * g + 0.0722 * b; };
  return (a, b) => { const [low, high] = [light(a), light(b)].sort((x, y) => x - y); return (high + 0.05) / (low + 0.05); }; })()"""


def test_colours(page, folder):
    """Contrasts, and what is seen where the user chooses the colours."""
    (folder / "damaged.bin").write_bytes(damaged())
    for is_dark in (False, True):
        page.fresh(is_dark=is_dark)
        for back in ("accent-soft", "panel", "bad-soft"):
            ratio = page.value(f"{CONTRAST}('dim', '{back}')")
            expect(f"dim text on {back}, dark: {is_dark}", ratio >= 4.5, ratio)
        for name in ("table", "root", "pointer", "data", "value", "tag", "pad", "surplus", "twice"):
            ratio = page.value(f"{CONTRAST}('k-{name}', 'panel')")
            expect(f"the colour of {name}, dark: {is_dark}", ratio >= 3, ratio)
    page.fresh()
    page.media(is_forced=True)
    page.load(folder / "damaged.bin")
    for view in ("messages", "tree", "bytes"):
        style = page.value(f"(({{ outlineStyle, outlineWidth }}) => [outlineStyle, outlineWidth])(getComputedStyle(document.querySelector('#{view} .chosen')))")
        compare(f"the selection in {view}, forced colours", ["solid", "2px"], style)
    for name in (".entry i", ".chip.data"):
        kept = page.value(f"getComputedStyle(document.querySelector({name!r})).forcedColorAdjust")
        compare(f"the colour of {name}, forced colours", "none", kept)
    page.value("document.getElementById('options').click()")
    button = page.value("(({ color, backgroundColor, forcedColorAdjust }) => [forcedColorAdjust, color !== backgroundColor])"
                        "(getComputedStyle(document.querySelector('#options-dialog .primary')))")
    compare("the text of a button, forced colours", ["none", True], button)
    page.keys("Escape")
    page.media()
    page.is_quiet("colours")


def test_focus(page, folder):
    """By keys alone the focus is never lost."""
    focus = "document.activeElement.id"
    page.fresh()
    page.value("document.getElementById('open-first').focus()")
    page.load(TOP / "examples/contacts.bin")
    compare("after the first file", "tree", page.value(focus))
    page.focus("map")
    page.keys("/")
    page.value("document.getElementById('path').value = '/p0/i1'")
    page.press("Enter", "\r")
    page.settle()
    compare("after a path", "map", page.value(focus))
    page.keys("ArrowRight", "f")
    compare("the next key is not typed", ("/p0/i1/p0", "map"), (page.value("document.getElementById('path').value"), page.value(focus)))
    named = "(it) => it.id || it.textContent || it.dataset.view"
    controls = f"""[...document.querySelectorAll('button, input, select, summary, .view, .split')].filter((it) => it.checkVisibility() && !it.disabled
      && it.tabIndex >= 0).map({named})"""
    for width in (1440, 390):
        page.fresh(width)
        page.load(TOP / "examples/contacts.bin")
        page.value("document.getElementById('open').focus()")
        expected, reached = page.value(controls), set()
        for _ in range(len(expected) + 4):
            reached.add(page.value(f"({named})(document.activeElement)"))
            page.press("Tab")
        compare(f"Tab comes to each control at {width}", set(), set(expected) - reached)
        expect("there are many", len(expected) > 15, expected)
    page.is_quiet("the focus")


def tab_to(page, name, key="Tab"):
    """Presses Tab until a control has the focus, which is named as its element or by its text."""
    named = "(document.activeElement.id || document.activeElement.name || document.activeElement.textContent)"
    for _ in range(60):
        if page.value(named) == name:
            return True
        page.press(key)
    expect(f"Tab comes to {name}", False, page.value(named))
    return False


def typed(page, text):
    """Types a text in place of the one that the field has."""
    page.command("selectAll", "a", 65)
    page.call("Input.insertText", text=text)


def enter(page):
    page.press("Enter", "\r")
    page.settle()


def test_by_keys(page, folder):
    """All that the page does with a message is done by keys, from the beginning. Only a file is chosen outside of the page."""
    page.fresh()
    page.call("Page.setDownloadBehavior", behavior="allow", downloadPath=str(folder))
    tab_to(page, "paste-first")
    enter(page)
    cycle = (TOP / "examples/cycle.bin").read_bytes()
    page.call("Input.insertText", text=(damaged() + (TOP / "examples/contacts.bin").read_bytes() + cycle).hex())
    tab_to(page, "Look at it")
    enter(page)
    compare("what is refused first, and the focus", ("message 0: refused OutOfSegment at 0:7 pointers 3", "tree"),
            (page.text("line"), page.value("document.activeElement.id")))
    page.keys("Home", "ArrowDown", "ArrowDown")
    compare("a row of the tree", ["p0"], page.texts(".item.chosen .label"))
    page.keys("f", "b", "r")
    compare("the refused pointer", "0:7", page.place())
    for key, text, place in (("/", "/p0/i6", "0:48"), ("/", "0:3", "0:3"), ("s", "fjord", None)):
        page.keys(key)
        typed(page, text)
        enter(page)
        compare(f"what {key} and {text} select", place or True, page.place() if place else page.place() != "0:3")
    page.press("Escape")
    compare("the focus is back", "tree", page.value("document.activeElement.id"))
    page.keys("n")
    compare("the next refused message", f"message 2: {program(['vet'], cycle)[0][0].partition(': ')[2]}", page.text("line"))
    tab_to(page, "messages")
    page.keys("ArrowUp")
    compare("the message before", "message 1", page.text("line")[:9])
    tab_to(page, "save-message")
    enter(page)
    page.wait("document.getElementById('refused-count').textContent === '2'")
    end = time.monotonic() + SECONDS
    while not (folder / "pasted text-1.bin").exists() and time.monotonic() < end:
        page.settle()
    compare("the file", (TOP / "examples/contacts.bin").read_bytes(), (folder / "pasted text-1.bin").read_bytes())
    page.is_quiet("keys alone")


def test_dialogs_by_keys(page, folder):
    """The Enter key in a field of a dialog does what the dialog is for, and Escape cancels."""
    line = "document.activeElement.id"
    (folder / "two.bin").write_bytes((TOP / "examples/contacts.bin").read_bytes() * 2)
    page.fresh()
    page.load(folder / "two.bin")
    for depth, key, limits in (("3", "Enter", "Limits: 3 levels"), ("4", "Escape", "Limits: 3 levels"), ("64", "Enter", "")):
        tab_to(page, "options")
        enter(page)
        tab_to(page, "depth")
        typed(page, depth)
        page.press(key, "\r" if key == "Enter" else "")
        page.settle()
        shown = page.value("document.getElementById('in-force').hidden ? '' : document.getElementById('in-force').textContent")
        compare(f"{key} after {depth} levels", (limits, False), (shown, page.value("document.getElementById('options-dialog').open")))
        compare(f"the focus after {key}", "options", page.value(line))
    tab_to(page, "tree")
    page.keys("d")
    tab_to(page, "other")
    typed(page, "1")
    enter(page)
    is_open = page.value("document.getElementById('compare-dialog').open")
    compare("Enter compares", ("There is no difference.", True), (page.text("compared"), is_open))
    tab_to(page, "Close")
    enter(page)
    compare("the focus after a comparison", "tree", page.value(line))
    tab_to(page, "way")
    page.keys("ArrowDown")
    compare("a choice", "signed", page.value("document.getElementById('way').value"))
    tab_to(page, "Numbers")
    enter(page)
    expect("the numbers of the word", page.value("document.getElementById('numbers').open"))
    page.is_quiet("dialogs by keys")


def test_tabs_by_keys(page, folder):
    """In a narrow window the arrow keys go from view to view."""
    file = TOP / "examples/contacts.bin"
    page.fresh(390, 844)
    page.load(file)
    tab_to(page, "Verdict")
    for key, view in (*(("ArrowRight", it) for it in ("tree", "map", "bytes", "messages")), ("ArrowLeft", "bytes")):
        page.keys(key)
        compare(f"{key} shows {view}", True, page.value(f"document.getElementById('{view}').checkVisibility()"))
    tab_to(page, "bytes")
    page.keys("End")
    compare("the last word", f"0:{(len(file.read_bytes()) - model_table(file.read_bytes())) // 8 - 1}", page.place())
    page.is_quiet("tabs by keys")


def test_inputs(page, folder):
    """Pasted text, packed bytes, cut streams, faults, and limits."""
    contacts, packed = (TOP / "examples/contacts.bin").read_bytes(), (TOP / "examples/contacts.packed").read_bytes()
    line = program(["vet"], contacts)[0][0]
    page.fresh()
    page.paste(" ".join(f"{byte:02x}" for byte in contacts))
    compare("hexadecimal digits", line, page.text("line"))
    drop(page, (TOP / "examples/cycle.bin").read_bytes())
    dropped = ("dropped.bin", "message 0: refused DepthLimit at 0:0 pointers 65")
    compare("a file that is dropped", dropped, (page.text("name"), page.text("line")))
    page.paste(subprocess.run(["base64"], input=packed, capture_output=True, check=True).stdout.decode())
    compare("packed base64", (line, f"{len(packed):,} bytes, packed"), (page.text("line"), page.text("about")))
    # (32 letters that are hexadecimal digits too)
    page.paste("AAAAAAIAAAAAAAAAAAAAAAAAAAAAAAAA")
    compare("base64 that may be hexadecimal digits", "message 0: accepted charge 0 depth 0 pointers 1 caps 0", page.text("line"))
    page.paste("no message!")
    compare("another text", "This text is neither hexadecimal digits nor base64.", page.text("fault"))
    stream = (TOP / "examples/stream-of-four.bin").read_bytes()
    for name, data, words in (("cut", stream[:-40], []), ("cut.packed", packed[:-3], ["--packed"]),
                              ("text", b"GET / HTTP/1.1\r\n", []), ("short", stream[:5], [])):
        (folder / name).write_bytes(data)
        page.limits(format="packed" if words else "plain")
        page.load(folder / name)
        lines, faults = program(["vet", *DEFAULT, *words], data)
        rest = re.match(r"rest of the input, (\w+), from byte (\d+)", listed(page)[-1])
        compare(f"{name}: the list", [spoken(line) for line in lines], listed(page)[:-1])
        compare(f"{name}: the fault", faults[0].removeprefix("capvet: "), page.text("fault"))
        compare(f"{name}: the rest in the list", faults[0].split()[3], rest and rest[1])
    (folder / "empty").write_bytes(b"")
    page.load(folder / "empty")
    compare("no bytes", "The input has no message.", page.text("fault"))
    page.limits(format="auto")
    page.load(TOP / "examples/contacts.bin")
    for values, words in ((dict(depth=3), ["--depth", 3]), (dict(depth=64, charge=300), ["--words", 300]),
                          (dict(words=100, charge=8388608), ["--size", 100])):
        page.limits(**values)
        lines, faults = program(["vet", *DEFAULT, *words], contacts)
        compare(f"{values}: the list", [spoken(line) for line in lines], listed(page)[:len(listed(page)) - len(faults)])
        compare(f"{values}: the fault", faults[0].removeprefix("capvet: ") if faults else "", page.text("fault"))
    page.limits(words=8388608, isExclusive=True)
    page.load(TOP / "examples/shared.bin")
    compare("exclusive", program(["vet", "--exclusive"], (TOP / "examples/shared.bin").read_bytes())[0][0], page.text("line"))
    compare("the earlier path", True, "/p0 at 0:1 uses 0:3 too" in page.text("verdict"))
    page.limits(isExclusive=False, format="table")
    copy = output(["canon"], contacts)
    (folder / "words").write_bytes(copy[8:])
    page.load(folder / "words")
    compare("no table", (program(["vet"], copy)[0][0], ["yes"]), (page.text("line"), page.texts("#canonical dd")[:1]))
    page.is_quiet("inputs")


def why(data, *words):
    """The fault of a stream, where its last message begins, and the lines that explain it."""
    ran = subprocess.run([PROGRAM, "explain", *DEFAULT, *words], input=data, capture_output=True, text=False)
    said = (ran.stdout + ran.stderr).decode()
    line, lines = re.search(r"^capvet: (message .*)\n((?:  .*\n)*)", said, re.M).groups()
    return line, int(re.search(r"message at byte (\d+)", lines)[1]), lines


def test_faults(page, folder):
    """Where an input stops being messages, its bytes are shown, with the lines of the program."""
    chance = random.Random(SEED)
    stream, packed = ((TOP / f"examples/{name}").read_bytes() for name in ("stream-of-four.bin", "contacts.packed"))
    many = (TOP / "examples/contacts-many-segments.bin").read_bytes()
    cuts = [(form, data[:at]) for form, data in (("plain", many), ("packed", packed), ("plain", stream), ("packed", output(["pack"], many)))
            for at in [*range(1, 26), *(chance.randrange(26, len(data)) for _ in range(15 * (1 + IS_FULL)))]]
    page.fresh()
    shown = None
    for form, data in [*cuts, ("plain", chance.randbytes(5000)), ("plain", b"\0\0\0\0\xff\xff\xff\0" + bytes(9))]:
        words = ["--packed"] * (form == "packed")
        if not program(["vet", *words], data)[1]:
            continue
        if form != shown:
            page.limits(format=form)
            shown = form
        drop(page, data)
        line, start, lines = why(data, *words)
        name = f"{form}, {len(data)} bytes, {line}"
        compare(f"{name}: the line and the lines", (line, lines), (page.text("line"), as_lines(page)))
        compare(f"{name}: where the bytes begin", f"{start:06x}", page.texts(".bytes-row.chosen .offset")[0])
        digits = data[start:start + 8].hex(" ")
        compare(f"{name}: the first bytes", digits, re.sub(r"\s+", " ", page.texts(".bytes-row.chosen .hex")[0]).strip())
    page.is_quiet("faults")


def test_guesses(page, folder):
    """What bytes may be that are no message. The page says that it is a guess."""
    contacts, packed = ((TOP / f"examples/{name}").read_bytes() for name in ("contacts.bin", "contacts.packed"))
    guesses = {"gzip": (gzip.compress(contacts), "This begins as gzip does."), "nothing": (b"", None), "random": (b"\xff" * 40, None),
               "http": (b"GET / HTTP/1.1\r\n\r\n", "This is text, and begins as HTTP."), "text": (b"Hello, world", "This is text."),
               "hex": (contacts.hex().encode(), "These are hexadecimal digits: paste them, and the page reads them."),
               "json": (b'{"a": 1, "b": [2, 3]}', "This is text, and begins as JSON."),
               "base64": (base64.b64encode(contacts), "This may be base64: paste it, and the page reads it."),
               "grpc": (b"\1\2\3\4\5" + contacts, "From byte 5 on this is a message: a length may be before it."),
               "packed": (packed, "Read as packed, this begins with a message: choose that in Limits."),
               "words": (output(["canon"], contacts)[8:], "As words without a segment table this is a message: choose that in Limits.")}
    page.fresh()
    page.limits(format="plain")
    for name, (data, expected) in guesses.items():
        drop(page, data)
        names, texts = (page.texts(f"#verdict {part}") for part in ("dt", "dd"))
        compare(f"the guess of {name}", expected, dict(zip(names, texts)).get("guess"))
        compare(f"the buttons for {name}", 0, page.value(SHOWN_NOW)[-1])
    compare("no bytes", "The input has no message.", (drop(page, b""), page.text("line"))[1])
    page.limits(format="table")
    drop(page, contacts[:-3])
    compare("words that are cut", "The input ends inside a word.", page.texts(".sentence")[0])
    page.is_quiet("guesses")


def test_files(page, folder):
    """Files that are saved are those of the program."""
    message = made.samples()[1]
    (folder / "one.bin").write_bytes(message)
    page.fresh()
    page.call("Page.setDownloadBehavior", behavior="allow", downloadPath=str(folder))
    page.load(folder / "one.bin")
    page.wait("!document.getElementById('save-canonical').disabled")
    for form, name, expected in (("message", "one-0.bin", message), ("canonical", "one-0-canonical.bin", output(["canon"], message)),
                               ("packed", "one-0-packed.bin", output(["filter", "--pack"], message))):
        page.value(f"document.getElementById('save-{form}').click()")
        end = time.monotonic() + SECONDS
        while not (folder / name).exists() and time.monotonic() < end:
            page.settle()
        expect(f"the file {name}", (folder / name).exists() and (folder / name).read_bytes() == expected)
    page.is_quiet("saved files")


ROLES = {"button", "textbox", "checkbox", "combobox", "spinbutton", "tab", "tree", "treeitem", "listbox", "option", "application", "dialog",
         "progressbar", "tablist",
         "navigation", "region", "PopUpButton", "searchbox", "link"}


def unnamed(page):
    """The controls of the accessibility tree that have no name."""
    nodes = page.call("Accessibility.getFullAXTree")["nodes"]
    shown = [it for it in nodes if not it["ignored"] and it["role"]["value"] in ROLES]
    return len(shown), [it["role"]["value"] for it in shown if not it.get("name", {}).get("value")]


def test_accessible(page, folder):
    (folder / "damaged.bin").write_bytes(damaged())
    for width, is_dark in ((1440, False), (390, True)):
        page.fresh(width, is_dark=is_dark)
        compare("the start has names", [], unnamed(page)[1])
        page.load(folder / "damaged.bin")
        for view in page.value("[...document.querySelectorAll('[role=tab]')].map((it) => it.dataset.view)"):
            if width < 700:
                page.show(view)
                compare(f"the view {view}", True, page.value(f"document.getElementById('{view}-panel').offsetHeight > 200"))
            count, without = unnamed(page)
            expect(f"controls of {view} at {width}: {count}", count > 8 and not without, without)
        for name in ("paste", "options", "help"):
            page.value(f"document.getElementById('{name}').click()")
            page.settle()
            compare(f"the dialog {name} has names", [], unnamed(page)[1])
            page.keys("Escape")
        compare("nothing is wider than the page", True, page.value("document.documentElement.scrollWidth <= innerWidth"))
        page.is_quiet(f"controls at {width}")


# ------------------------------------------------------------------ large inputs

LATE = """new Promise((done) => { const begin = performance.now(); %s; requestAnimationFrame(() => {
  const channel = new MessageChannel(); channel.port1.onmessage = () => done(performance.now() - begin); channel.port2.postMessage(0); }); })"""


def latencies(page, moves):
    """How many milliseconds each key takes until the page is drawn."""
    found = {}
    for view, key in moves:
        event = f"new KeyboardEvent('keydown', {{ key: '{key}', bubbles: true, cancelable: true }})"
        press = f"document.getElementById('{view}').dispatchEvent({event})"
        for _ in range(3):
            answer = page.call("Runtime.evaluate", expression=LATE % press, awaitPromise=True, returnByValue=True)
            found.setdefault((view, key), []).append(answer["result"]["value"])
            page.settle()
    return {move: sorted(times)[1] for move, times in found.items()}


MOVES = [(view, key) for view in ("map", "bytes", "tree") for key in ("End", "PageUp", "ArrowUp", "Home", "PageDown", "ArrowDown")]


def test_many_messages(page, folder):
    """100,000 messages: the rows that are seen are those of the program, wherever one looks."""
    chance, small = random.Random(SEED), [message for message in made.samples() if len(message) < 5000]
    messages = [made.changed(chance.choice(small), chance) for _ in range(100_000)]
    (folder / "many.bin").write_bytes(b"".join(messages))
    lines, _ = program(["vet", *DEFAULT], b"".join(messages))
    page.fresh()
    page.load(folder / "many.bin")
    page.wait("document.getElementById('messages-count').textContent === '100,000' && document.getElementById('progress').hidden")
    compare("how many are refused", f"{sum('refused' in line for line in lines):,}", page.text("refused-count"))
    for _ in range(50):
        page.value(f"document.getElementById('messages').scrollTop = {chance.randrange(4_000_000)}")
        page.settle()
        rows = listed(page)
        first = int(re.match(r"message (\d+)", rows[0])[1])
        compare(f"rows from {first}", [spoken(line) for line in lines[first:first + len(rows)]], rows)
    times = latencies(page, [("messages", "End"), ("messages", "ArrowUp"), ("messages", "PageUp"), ("messages", "Home")])
    expect(f"a selection takes at most {LATEST} ms", max(times.values()) < LATEST, times)
    page.is_quiet("100,000 messages")


def large_message():
    """64 MiB: a list of structs, each with a pointer to a text of two words."""
    count = (8_388_608 - 4) // 4
    elements = array.array("Q", bytes(16 * count))
    for i in range(count):
        elements[2 * i], elements[2 * i + 1] = i, 1 | (2 * count - 2) << 2 | 2 << 32 | 9 << 35
    texts = array.array("Q", [0x6161616161616161, 0]) * count
    head = struct.pack("<QQ", 1 | 7 << 32 | 2 * count << 35, count << 2 | 1 << 32 | 1 << 48)
    words = head + elements.tobytes() + texts.tobytes()
    return struct.pack("<II", 0, len(words) // 8) + words


def test_large_message(page, folder):
    message = large_message()
    (folder / "large.bin").write_bytes(message)
    page.fresh()
    page.load(folder / "large.bin")
    page.wait("document.getElementById('hash') !== null")
    compare("the line", program(["vet"], message)[0][0], page.text("line"))
    compare("the hash", hashlib.sha256(output(["canon"], message)[8:]).hexdigest(), page.text("hash"))
    times = latencies(page, [*MOVES, ("map", "o"), ("map", "u"), ("map", "b")])
    expect(f"a selection takes at most {LATEST} ms", max(times.values()) < LATEST, times)
    page.focus("bytes")
    page.keys("End")
    compare("the last word", (f"0:{len(message) // 8 - 2}",) * 2, (page.place(), page.chosen()))
    page.is_quiet("64 MiB")


# ------------------------------------------------------------------ pictures

def pictures(page, folder):
    """The pictures of docs/."""
    to = Path(os.environ["CAPVET_PICTURES"])
    (folder / "damaged.bin").write_bytes(damaged())
    segments = TOP / "examples/contacts-many-segments.bin"
    for name, width, height, is_dark, file in (("light", 1280, 800, False, folder / "damaged.bin"), ("dark", 1280, 800, True, segments),
                                               ("narrow", 390, 720, False, folder / "damaged.bin")):
        page.fresh(width, height, is_dark)
        page.load(file)
        if name == "dark":
            page.wait("document.getElementById('hash') !== null")
            page.focus("tree")
            page.keys(*["ArrowDown"] * 5)
        (to / f"inspector-{name}.png").write_bytes(page.picture())


# The windows of the screens: width, height, and how many points a pixel of the page has. A zoom of 200 % is half the window.
WINDOWS = {"1280": (1280, 800, 1), "phone": (390, 844, 2), "zoom200": (640, 400, 2), "zoom200-1920": (960, 540, 2),
           "zoom400": (320, 256, 4)}
COLOURS = {"light": (False, False), "dark": (True, False), "forced": (False, True)}


def screens(page, folder):
    """Pictures for people to look at: what is refused, accepted, and no message, and the dialogs, in each window and colour."""
    to = Path(os.environ["CAPVET_SCREENS"])
    accepted = (TOP / "examples/contacts-many-segments.bin").read_bytes()
    inputs = {"refused": damaged(), "accepted": accepted, "text": b"GET / HTTP/1.1\r\n\r\n" * 9}
    for name, data in inputs.items():
        (folder / name).write_bytes(data)
    for (window, size), (colour, (is_dark, is_forced)) in product(WINDOWS.items(), COLOURS.items()):
        keep = lambda name: (to / f"{window}-{colour}-{name}.png").write_bytes(page.picture())
        page.fresh(*size[:2], is_dark, size[2])
        page.media(is_dark, is_forced)
        keep("start")
        for name in inputs:
            page.load(folder / name)
            for view in (["messages", "verdict", "tree", "map", "bytes"] if window != "1280" else ["verdict"]):
                if page.value(f"document.querySelector('[data-view={view}][role=tab]').checkVisibility()") or view == "verdict":
                    page.show(view)
                    keep(f"{name}-{view}")
        for name in ("paste", "options", "help"):
            page.value(f"document.getElementById('{name}').click()")
            page.settle()
            keep(name)
            page.keys("Escape")
        page.load(folder / "accepted")
        page.value("document.getElementById('numbers').open = true")
        page.focus("tree")
        page.keys("ArrowDown", "ArrowDown")
        keep("numbers")
        page.keys("d")
        keep("compare")


def build():
    """Builds the module and the page. Whether both are there."""
    steps = ["packaging/targets.py", "wasm"], ["packaging/make_inspector.py"]
    ran = [subprocess.run([sys.executable, *words], cwd=TOP, capture_output=True, text=True) for words in steps]
    for it in ran:
        expect(" ".join(it.args[1:]), it.returncode == 0, it.stdout + it.stderr)
    return all(it.returncode == 0 for it in ran)


def test_page(page, folder):
    for test in (test_samples, test_tree, test_links):
        test(page)
    large = (test_many_messages, test_large_message) * IS_FULL
    small = (test_numbers, test_differences, test_refusal, test_keys, test_places, test_find, test_copy, test_pasted, test_word_numbers, test_compare, test_panes,
             test_moments, test_refused_only, test_inputs, test_faults, test_guesses, test_files)
    by_people = (test_tabs, test_sizes, test_colours, test_focus, test_by_keys, test_dialogs_by_keys, test_tabs_by_keys, test_accessible)
    for test in (*small, *by_people, *large):
        test(page, folder)
    for name, make in (("CAPVET_PICTURES", pictures), ("CAPVET_SCREENS", screens)):
        if os.environ.get(name):
            make(page, folder)


def main():
    with tempfile.TemporaryDirectory() as scratch:
        folder = Path(scratch)
        if not missing("what the inspector finds out", "node"):
            test_decoder(folder)
        if not missing("the inspector", "esbuild", "wasm-opt", "chromium") and build():
            with Inspector() as page:
                test_page(page, folder)
    return ended()


if __name__ == "__main__":
    sys.exit(main())
