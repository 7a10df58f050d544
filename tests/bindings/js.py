#!/usr/bin/env python3
"""Takes the package in bindings/js as its users do: put together in a folder, and imported by its name.

    js.py [PROGRAM [ARCHIVE]] [--full] [--idle]

`node --test` runs its tests. `tsc` checks its types, each program of the pages, and that wrong programs are refused. The programs
and commands of docs/js.md write what the page shows.

The package answers requests in Node, and in a page and a worker of headless Chromium. They are the commands of PROGRAM over MANY
changed messages of a fixed seed, packed and cut streams, and changed tables. Each answer has to be what PROGRAM writes. Packed texts are
unpacked as the library for C does. The worker has the form with the module inlined.

Calls of messages of about 4 KiB are timed beside the same calls from C. With --idle they take at most MOST times as long, or
MOST_FLAT times where there is next to nothing to check. For that the machine may do nothing else. With --full there are more
messages, and streams of 1 GB are read in bounded memory. The last line is 'N passed, M failed', and the status is 1 if a case failed.
"""
import json
import os
import random
import re
import shutil
import struct
import subprocess
import sys
import tempfile
from pathlib import Path

sys.path[1:1] = map(str, Path(__file__).resolve().parents[1].iterdir())

import reading
from amount import IS_FULL, IS_IDLE
from harness import ARCHIVE, TOP, compare, count, ended, run
from js_browser import in_chromium
from js_requests import HERE, SEED, in_node, unpacker
from needs import is_kept, missing

BINDING, MODULE = TOP / "bindings/js", TOP / "build/capvet.wasm"
# The most that a call may take, as a multiple of the time from C. (to copy a flat list into the module takes longer than to vet it)
MOST, MOST_FLAT = 3, 9
# The bytes of a flat list.
LENGTH = 4072
# The most bytes of the process that reads a gigabyte, and the bytes of a large message.
MEMORY, LARGE = 200 << 20, 1 << 28


# ------------------------------------------------------------------ the package

def package(folder):
    """The package in a folder, as npm would install it there."""
    where = folder / "node_modules/capvet"
    compare("build.mjs", ("", 0), run(["node", BINDING / "build.mjs", MODULE, where]))
    about = json.loads((where / "package.json").read_text())
    listed = sorted(["README.md", "package.json", *about["files"]])
    compare("the files of the package", listed, sorted(file.name for file in where.iterdir()))
    version = re.search(r'CAPVET_VERSION_STRING "(.*)"', (TOP / "include/capvet.h").read_text())[1]
    compare("the version of package.json", version, about["version"])
    script = 'import { version } from "capvet"; import * as it from "capvet/inlined"; console.log(version(), it.version())'
    compare("the version of the module", (f"{version} {version}\n", 0), run(["node", "--input-type=module", "-e", script], cwd=folder))
    return where


def names_of_header():
    """The names of answers in the package are those of the header, and so are the names of first differences."""
    header = (TOP / "include/capvet.h").read_text()
    numbers = dict(re.findall(r"^  CAPVET_(\w+) = (\d+)", header, re.M))
    named = {name: text for name, text in re.findall(r'case CAPVET_(\w+): return "(\w+)"', header) if name != "OK"}
    differences = {numbers[name]: named.pop(name) for name in [*named] if name.startswith("DIFFERENCE_")}
    names = dict(re.findall(r'\[(\d+), "(\w+)"\]', (BINDING / "src/answers.js").read_text()))
    compare("the names of the answers", {numbers[name]: text for name, text in named.items()}, names)
    listed = re.search(r"^const DIFFERENCES = \[(.*?)\]", (BINDING / "src/difference.js").read_text(), re.M | re.S)[1]
    compare("the names of first differences", differences,
            {str(number): text for number, text in enumerate(re.findall(r'"(\w+)"', listed), 1)})


def tested(folder):
    """The tests of the package, by Node."""
    shutil.copytree(BINDING / "test", folder / "test")
    environment = {**os.environ, "CAPVET_EXAMPLES": str(TOP / "examples")}
    files = sorted(str(file) for file in (folder / "test").glob("*.test.mjs"))
    text, status = run(["node", "--test", "--test-reporter=tap", *files], env=environment, cwd=folder)
    counted = {word: int(number) for word, number in re.findall(r"^# (pass|fail|cancelled|skipped) (\d+)$", text, re.M)}
    count(counted.get("pass", 0), counted.get("fail", 0) + counted.get("cancelled", 0))
    compare("node --test", (0, True, 0), (status, counted.get("pass", 0) > 0, counted.get("skipped")))
    if status:
        print(text[-5000:])


# ------------------------------------------------------------------ types

# The parts of Node that the programs use, since Debian has no package with their types.
NODE_TYPES = """declare module "node:fs" {
  export function readFileSync(name: string): Uint8Array;
  export function createReadStream(name: string): AsyncIterable<Uint8Array>;
}
declare module "node:fs/promises" { export function readFile(name: string): Promise<Uint8Array>; }
declare module "node:crypto" {
  interface Hmac { update(data: string | Uint8Array): Hmac; digest(): Uint8Array; }
  export function createHmac(name: string, key: string): Hmac;
  export function timingSafeEqual(one: Uint8Array, two: Uint8Array): boolean;
}
declare const process: { argv: string[] };
declare const message: Uint8Array;
"""
RIGHT = """import * as capvet from "capvet";
import { vet as inlined } from "capvet/inlined";
const bytes = new Uint8Array(8);
const report: capvet.Report = inlined(bytes.buffer, { depth: 3 }).report;
const first: capvet.Position | null = report.firstCapability;
for (const it of capvet.messages(bytes, { exclusive: true })) {
  if (it instanceof capvet.Refusal) console.log(it.pointer, it.unvetted.length, it.reason === "DepthLimit");
  else console.log(it.data.length, it.report.charge);
}
const { message, rest } = capvet.vetPrefix(bytes);
export async function all(body: ReadableStream<Uint8Array>, file: AsyncIterable<Uint8Array>) {
  for await (const it of capvet.readMessages(body, { packed: true })) console.log(it.number);
  for await (const it of capvet.readMessages(file)) console.log(it.offset);
  const reader = body.pipeThrough(new capvet.MessageStream()).getReader();
  const { value } = await reader.read();
  if (value instanceof capvet.Message) console.log(value.report.depth);
}
const count: number = message.canonicalInto(new Uint8Array(9));
console.log(count, rest, report.readerWords(2));
const difference: capvet.Difference | null = message.firstDifference();
if (difference?.reason === "Place") console.log(difference.position.word, difference.pointers, difference.path?.length);
for (const it of message.getRange("/p*", { first: 1, count: 2 })) console.log(it?.kind, it?.data.length, first);
for (const it of capvet.peekRange(bytes, "/p*", { first: 1, depth: 2 })) console.log(it?.kind);
"""
# Each of these lines has a fault.
WRONG = """import * as capvet from "capvet";
capvet.vet("text");
capvet.vet(new Uint8Array(8), { dept: 3 });
capvet.vet(new Uint8Array(8), { depth: 3n });
capvet.vet(new Uint8Array(8)).report.charge.length;
capvet.vet(new Uint8Array(8)).get("/").kind;
new capvet.Message();
capvet.vet(new Uint8Array(8)).canonicalInto(new ArrayBuffer(8));
capvet.readMessages(new Uint8Array(8));
capvet.messages(new Uint8Array(8), { packed: true });
for (const it of capvet.messages(new Uint8Array(8))) console.log(it.report.charge);
for (const it of capvet.messages(new Uint8Array(8))) console.log(it instanceof capvet.Refusal ? it.data.length : 0);
new capvet.Refusal();
for (const it of capvet.messages(new Uint8Array(8))) console.log(it instanceof capvet.Refusal && it.reason === "DepthLimits");
capvet.vet(new Uint8Array(8)).data = new Uint8Array(8);
capvet.vet(new Uint8Array(8), { noTable: true });
capvet.vet(new Uint8Array(8)).firstDifference().reason;
capvet.vet(new Uint8Array(8)).firstDifference()?.reason === "NoRoot";
"""
TSC = ("tsc", "--noEmit", "--strict", "--target", "es2022", "--lib", "es2022,dom,dom.iterable", "--module", "nodenext",
       "--moduleResolution", "nodenext", "--allowJs", "--checkJs", "--maxNodeModuleJsDepth", "0")


def programs():
    """The programs of the pages, by name."""
    pages = ("docs/js.md", "README.md", "bindings/js/README.md")
    found = {f"{re.sub(r'[^a-z]', '_', page.lower())}_{number}.mjs": block for page in pages
             for number, block in enumerate(re.findall(r"^```js\n(.*?)^```$", (TOP / page).read_text(), re.M | re.S))}
    compare("the pages have programs", True, len(found) >= 6)
    return found


def typed(folder):
    """tsc finds no fault in the types and in the programs of the pages, and it finds the faults above."""
    if missing("the types of the package for JavaScript", "tsc"):
        return
    here = folder / "types"
    here.mkdir()
    files = {"node.d.ts": NODE_TYPES, "right.mts": RIGHT, "wrong.mts": WRONG, **programs()}
    for name, text in files.items():
        (here / name).write_text(text)
    right = sorted(name for name in files if name != "wrong.mts")
    # (the functions of the programs do not say what types their arguments have)
    compare("tsc of the programs", ("", 0), run([*TSC, "--noImplicitAny", "false", *right], cwd=here))
    text, status = run([*TSC, "wrong.mts"], cwd=here)
    lines = sorted({int(line) for line in re.findall(r"^wrong.mts\((\d+),", text, re.M)})
    compare("tsc of what is wrong", (True, list(range(2, 19))), (status != 0, lines))
    for name, how in (("init.mts", "import { init, initSync, vet } from"), ("init.cts", "import { init, initSync, vet } from")):
        (here / name).write_text(f'{how} "capvet/init";\ninit(new URL("x:")).then(() => vet(new Uint8Array(8)));\n'
                                 'initSync(new Uint8Array(8));\n')
    compare("tsc of capvet/init, as a module of both kinds", ("", 0), run([*TSC, "init.mts", "init.cts"], cwd=here))
    for name, path in (("vet.mts", "capvet"), ("inlined.mts", "capvet/inlined")):
        (here / name).write_text(f'import {{ vet }} from "{path}";\nvet(new Uint8Array(8));\n')
    without = ["es2022" if word.startswith("es2022,") else word for word in TSC]
    text, status = run([*without, "vet.mts"], cwd=here)
    compare("tsc without the library dom", (True, 5), (status != 0, text.count("error TS2304")))
    compare("tsc without the library dom, by skipLibCheck", ("", 0), run([*without, "--skipLibCheck", "vet.mts", "inlined.mts"], cwd=here))
    older = ["node" if word == "nodenext" and TSC[at - 1] == "--moduleResolution" else "es2022" if word == "nodenext" else word
             for at, word in enumerate(TSC)]
    compare("tsc with moduleResolution node", ("", 0), run([*older, "vet.mts"], cwd=here))
    text, status = run([*older, "inlined.mts"], cwd=here)
    compare("capvet/inlined with moduleResolution node", (True, 1), (status != 0, text.count("error TS2307")))
    newer = ["node16" if word == "nodenext" else word for word in TSC]
    compare("capvet/inlined with moduleResolution node16", ("", 0), run([*newer, "inlined.mts"], cwd=here))


# ------------------------------------------------------------------ costs

def flat():
    """A message of 4 KiB that has one list of bytes. There is next to nothing to check."""
    content = random.Random(SEED).randbytes(LENGTH)
    words = struct.pack("<QII", 1 << 48, 1, 2 | LENGTH << 3) + content
    return struct.pack("<II", 0, len(words) // 8) + words


def timed(folder, where):
    """Prints the times of calls of messages of about 4 KiB. With --idle they take at most so many times as long as from C."""
    if missing("the time of a call beside that from C", "cc"):
        return
    built = folder / "calls"
    words = ["cc", "-O2", "-std=c11", "-D_POSIX_C_SOURCE=200809L", f"-I{TOP / 'include'}", TOP / "bench/peers/wasm/calls.c", ARCHIVE]
    compare("calls.c", ("", 0), run([*words, "-o", built]))
    seconds = "2" if IS_IDLE else "0.3"
    (folder / "flat.bin").write_bytes(flat())
    examples = TOP / "examples"
    for file, most in ((examples / "contacts.bin", MOST), (examples / "contacts-many-segments.bin", MOST), (folder / "flat.bin", MOST_FLAT)):
        from_c = run([built, file, seconds])[0].split()[1:]
        text, status = run(["node", TOP / "bench/peers/wasm/call_times.mjs", where / "capvet.js", file, seconds])
        compare("call_times.mjs", 0, status)
        # (canonical also makes an array for its result, which the caller from C has)
        for call, one, other in zip(("vet", "canonicalInto", "canonical"), [*from_c, from_c[-1]], text.split()):
            ratio = float(other) / float(one)
            print(f"{call} of {file.name} takes {one} ns from C and {other} ns from JavaScript: {ratio:.2f} times")
            if IS_IDLE and call != "canonical":
                compare(f"{call} of {file.name} takes at most {most} times as long", True, ratio <= most)


def given_back(where):
    """The memory for a message of 256 MiB is given back."""
    text, status = run(["node", "--expose-gc", HERE / "memory.mjs", where / "capvet.js", "back"])
    length, before, during, later = (int(word) for word in text.split()) if status == 0 else (0, 0, 0, 0)
    compare("a message of 256 MiB", (0, LARGE), (status, length))
    # (other memory is given back meanwhile)
    compare(f"a message of 256 MiB takes memory: {before}, {during}", True, during >= before + LARGE // 2)
    compare(f"the memory for it is given back: {before}, {during}, {later}", True, later <= before + LARGE // 8)


def bounded(where):
    """Streams of a gigabyte take little memory."""
    for form in ("plain", "packed"):
        text, status = run(["node", HERE / "memory.mjs", where / "capvet.js", form])
        length, most = (int(word) for word in text.split()) if status == 0 else (0, 0)
        compare(f"a {form} stream of 1 GB", (0, 1 << 30), (status, length))
        compare(f"a {form} stream of 1 GB, in at most {MEMORY} bytes", True, 0 < most <= MEMORY)
        print(f"js: a {form} stream of 1 GB took {most >> 20} MiB")


# ------------------------------------------------------------------ the page

def sized():
    """The page on the module has its size, to 10 KB."""
    size = re.search(r"a module of (\d+) KB", (TOP / "docs/wasm.md").read_text())
    compare("the size of the module on docs/wasm.md", round(MODULE.stat().st_size / 10_000) * 10, int(size[1]) if size else 0)


# Calls the service at the begin of the page, with a reader that prints what it gets.
SERVED = """import { readFileSync } from "node:fs";
import { receive } from "./service.mjs";

for (const file of process.argv.slice(2)) {
  try {
    receive(readFileSync(file), (data, limits) => console.log(data.length, limits));
  } catch (error) {
    console.log(error.reason);
  }
}
"""


def served(folder):
    """The service at the begin of docs/js.md passes a message to its reader, and nothing else."""
    first = re.search(r"^```(\w*)\n(.*?)^```$", (TOP / "docs/js.md").read_text(), re.M | re.S)
    compare("docs/js.md begins with a service", ("javascript", True), (first[1], "export function receive" in first[2]))
    (folder / "service.mjs").write_text(first[2])
    (folder / "served.mjs").write_text(SERVED)
    files = [TOP / f"examples/{name}.bin" for name in ("contacts", "cycle", "stream-of-four")]
    expected = "3144 { words: 8388608, nesting: 64 }\nDepthLimit\nTrailing\n"
    compare("the service of docs/js.md", (expected, 0), run(["node", "served.mjs", *files], cwd=folder))


def as_shown(folder):
    """The commands and programs of docs/js.md write what the page shows."""
    # (the module is built already)
    page = (TOP / "docs/js.md").read_text().replace("make build TARGET=wasm\n", "")
    top = folder / "top"
    for part in ("bindings/js", "examples"):
        shutil.copytree(TOP / part, top / part)
    (top / "build").mkdir()
    shutil.copy(MODULE, top / "build")
    text, _ = run(["bash", "-c", reading.script(page)], cwd=top)
    reading.read("docs/js.md", page, text, compare)
    compare("the last program of docs/js.md", True, f"\ntrue\n{reading.MARK} 0\n" in text)


def main():
    # (a root of another release has no `rt`, and the module that was built outside of it)
    if missing("the package for JavaScript", "node", *["wasm-opt"] * (not is_kept("wasm"))):
        return ended()
    compare("the module is built", 0, subprocess.run([sys.executable, TOP / "packaging/targets.py", "wasm"]).returncode)
    with tempfile.TemporaryDirectory() as scratch:
        folder = Path(scratch)
        where = package(folder)
        names_of_header()
        tested(folder)
        typed(folder)
        texts = unpacker(folder)
        in_node(folder, where, texts)
        if not missing("the package for JavaScript in a browser", "chromium"):
            in_chromium(folder, where, texts)
        timed(folder, where)
        given_back(where)
        if IS_FULL:
            bounded(where)
        sized()
        served(folder)
        as_shown(folder)
    return ended()


if __name__ == "__main__":
    sys.exit(main())
