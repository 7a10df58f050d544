#!/usr/bin/env python3
"""Compares the builds for other machines with the program and the library for this one.

    machines.py PROGRAM ARCHIVE [--full]

`packaging/targets.py` builds them, where build/ hasn't got them yet. The programs are those for arm64, by qemu, and the static
ones in an empty root, which has the file alone (and for arm64 qemu). Their input is each stream of tests/shared/tables.py, the samples,
and a stream of MANY changed messages, by each command. Outputs and statuses have to be equal.

The libraries are the archive for arm64, by qemu, and the WebAssembly module, in Node and in headless Chromium. Both make the
calls of tests/machines/replay.c and replay.mjs: every call of the header that takes bytes, over MANY changed messages and packed
texts of a fixed seed. Limits, flags, paths and sizes of buffers are of all kinds. tests/calls/c/calls.c runs over the archive for arm64.
Each call has to leave, byte for byte, what it leaves by the archive for this machine.

A described call is `c`, the number of the call, how many arguments there are, and 8 bytes for each. Then comes the range of the
arena that is filled before the call and written after it. The preparation follows: a list of bytes, each with its place and
length, and a list of places that get the address of another place. `w` only prepares. All numbers but the arguments take 4
bytes. A place is an offset from the start of the arena, and all ones are NULL.

The last line is 'N passed, M failed', and the status is 1 where a case failed.
"""
import itertools
import random
import shutil
import struct
import subprocess
import sys
import tempfile
from concurrent.futures import ThreadPoolExecutor
from http.server import BaseHTTPRequestHandler, ThreadingHTTPServer
from pathlib import Path
from threading import Event, Thread

sys.path[1:1] = map(str, Path(__file__).resolve().parents[1].iterdir())

import tables
from amount import cases
from harness import ARCHIVE, PROGRAM, TOP, compare, ended, expect, outputs, run
from made import changed, made_up, samples
from needs import missing
from unpacking import made_text

BUILT, HERE = TOP / "build", TOP / "tests/machines"
MANY = cases(1_000, full=50_000)  # changed messages by each command and each call, on each build
# How many messages are described at once.
PIECE = 1_000
SEED = 20260801
ARM_ROOT = "/usr/aarch64-linux-gnu"
ARENA, OUT, INPUT, SECOND, LIMITS = 1 << 24, 1 << 20, 1 << 13, 128, 0
# The range that a call fills: a report, two numbers, a state, and a buffer.
REPORT, REQUIRED, CONSUMED, STATE, BUFFER = OUT, OUT + 120, OUT + 128, OUT + 136, OUT + 168
NULL = 2**64 - 1
# The calls that give a size for a length, and lengths of 32 bits for them.
BOUNDS = range(17, 21)
SIZES = (0, 1, 511, 512, 3144, 2**31, 3435973836, 3435973840, 2**32 - 32777, 2**32 - 32776, 2**32 - 1)
COMMANDS = ("vet", "vet --strict --unamplified", "vet --exclusive", "explain", "explain --exclusive", "segments", "dump", "check", "canon", "hash", "filter --exclusive",
            "get /p0/i1/p4", "vet --words 40 --depth 3", "pack", "unpack", "vet --packed")


# ------------------------------------------------------------------ calls

def prepared(writes, addresses=()):
    listed = b"".join(struct.pack("<II", place, len(data)) + data for place, data in writes)
    pointers = b"".join(struct.pack("<II", *pair) for pair in addresses)
    return struct.pack("<I", len(writes)) + listed + struct.pack("<I", len(addresses)) + pointers


def call(number, arguments, size=0, writes=(), addresses=()):
    """A described call, after which the report and `size` bytes of the buffer are written."""
    return (struct.pack("<cII", b"c", number, len(arguments)) + struct.pack(f"<{len(arguments)}Q", *arguments)
            + struct.pack("<II", OUT, BUFFER + size) + prepared(writes, addresses))


def some_limits(chance):
    words, charge = chance.choice((8388608, 8388608, 2**28, 400, 20, 2**28 + 1)), chance.choice((8388608, 8388608, 2**31, 300, 9))
    depth, flags = chance.choice((64, 64, 256, 5, 257)), chance.choice((0, 3, 3, 3, 3, 1, 2, 4))
    form = chance.choice((0, 0, 1, 1, 1, 1, 2, 2, 3))
    return struct.pack("<QQIIII6Q", words, charge, depth, flags, form, 0, 0, 0, 0, 0, 0, chance.choice((0,) * 30 + (1,)))


def some_path(chance):
    steps = "".join(f"/{chance.choice('ppi')}{chance.choice((0, 0, 0, 1, 1, 2, 4))}" for _ in range(chance.randrange(5)))
    return chance.choice((steps or "/", steps or "/", steps + "/", steps + "/p70000", "/p00")).encode()


def some_steps(chance):
    count = chance.randrange(1, 5)
    pairs = [(chance.choice((0, 0, 1)), chance.choice((0, 0, 0, 1, 2))) for _ in range(count)]
    return count, b"".join(struct.pack("<II", *pair) for pair in pairs)


def slices(message, where):
    """Some of the words of a message as separate segments: the array of capvet_segment, and its addresses."""
    count = min(4, max(1, len(message) // 400))
    size = len(message) // count // 8 * 8
    array = b"".join(struct.pack("<QQ", 0, size) for _ in range(count))
    return count, array, [(SECOND + 16 * i, where + 8 + size * i) for i in range(count)]


def described(message, text, chance):
    """Every call over a message, and those over packed bytes over a packed text."""
    where = INPUT + chance.randrange(8)
    limits, size = some_limits(chance), chance.choice((0, 8, 64, len(message), 2 * len(message) + 64))
    over, frame = (where, len(message), LIMITS), (REQUIRED, REPORT)
    path, (count, steps), nodes = some_path(chance), some_steps(chance), chance.randrange(6)
    parts, array, addresses = slices(message, where)
    extents = chance.choice((0, 1, 2, 512))
    yield b"w" + prepared([(LIMITS, limits), (where, message)])
    yield call(2, (*over, REPORT))
    yield call(3, (*over, BUFFER, size // 8, *frame), size // 8 * 8)
    yield call(4, (SECOND, parts, LIMITS, REPORT), 0, [(SECOND, array)], addresses)
    yield call(5, (*over, REPORT))
    yield call(6, (*over, BUFFER, extents, *frame), 16 * extents)
    yield call(7, (*over, BUFFER, size, *frame), size)
    yield call(8, (*over, REPORT))
    yield call(22, (*over, REPORT))
    yield call(24, (*over, REPORT))
    yield call(9, (*over, SECOND, len(path), BUFFER, REPORT), 56, [(SECOND, path)])
    yield call(10, (*over, SECOND, count, chance.randrange(count + 1), BUFFER, nodes, *frame), 56 * nodes, [(SECOND, steps)])
    yield call(15, (*over, chance.choice((0, 1, 2, 3, 5, 9, 20, 2**40)), BUFFER, size // 8, *frame), size // 8 * 8)
    yield call(21, (*over, chance.choice((0, 1, 2, 3, 5, 9, 20, 2**40)), REPORT))
    yield call(16, (*over, BUFFER, size, *frame), size)
    number = chance.choice((0, 1, 2, 3, 5, 9, 20, 2**40))
    yield call(23, (*over, chance.randrange(2), chance.randrange(9), number, BUFFER, size, *frame), size)
    yield call(11, (where, len(message), BUFFER, size, REQUIRED), size)
    yield call(13, (*over, BUFFER, size, *frame), size)
    yield b"w" + prepared([(where, text)])
    yield call(12, (where, len(text), BUFFER, size, REQUIRED), size)
    state = struct.pack("<QIIQQ", 0, 0, 0, 0, chance.choice((0,) * 30 + (1,)))
    yield call(14, (where, len(text), LIMITS, BUFFER, size, STATE, CONSUMED, *frame), size, [(STATE, state)])


def pieces():
    """The described calls, for PIECE messages at a time. The first ones take no bytes."""
    chance, whole = random.Random(SEED), samples()
    small = [message for message in whole if len(message) < 5000]
    bounds = b"".join(call(number, (size,)) for number in BOUNDS for size in SIZES)
    first = call(0, ()) + call(1, (BUFFER,), 80) + bounds
    for _ in range(0, MANY, PIECE):
        listed = [first]
        for _ in range(min(MANY, PIECE)):
            message = made_up(chance) if chance.randrange(3) == 0 else changed(chance.choice(small), chance)
            message = message[:chance.randrange(len(message) + 1)] if chance.randrange(20) == 0 else message
            text = chance.randbytes(20) if chance.randrange(20) == 0 else made_text(chance)
            listed += described(message, text, chance)
        yield b"".join(listed)


def compiled(folder, compiler, source, archive, name, *runner):
    """The command that runs a program in C over an archive."""
    out = folder / name
    words = [compiler, "-std=c11", "-O1", "-Wall", "-Wextra", "-Werror", f"-I{TOP / 'include'}", source, archive, "-o", out]
    it = subprocess.run(words, capture_output=True, text=True)
    expect(f"{source.name} by {compiler}", it.returncode == 0, it.stderr)
    return [*runner, out]


def answers(command, described):
    ran = subprocess.run([str(word) for word in command], input=described, capture_output=True)
    return ran.stdout if ran.returncode == 0 else f"status {ran.returncode}: {ran.stderr[:500]}".encode()


NODE = """
import { readFileSync } from "node:fs";
import { replay } from "%s";
const [module, calls] = process.argv.slice(1).map((name) => readFileSync(name));
const answers = [];
await replay(module, calls, %d, (left) => answers.push(left));
process.stdout.write(Buffer.concat(answers));
"""


def in_node(folder, described):
    """What the module's calls leave in Node."""
    (folder / "calls").write_bytes(described)
    program = NODE % ((HERE / "replay.mjs").as_uri(), ARENA)
    return answers(["node", "--input-type=module", "-e", program, BUILT / "capvet.wasm", folder / "calls"], b"")


PAGE = """<!doctype html><script type="module">
import { replay } from "/replay.mjs";
const module = await (await fetch("/capvet.wasm")).arrayBuffer();
for (let piece = 0; ; piece++) {
  const response = await fetch(`/calls/${piece}`), answers = [];
  if (!response.ok) break;
  await replay(module, new Uint8Array(await response.arrayBuffer()), %d, (left) => answers.push(left));
  await fetch(`/answers/${piece}`, { method: "POST", body: new Blob(answers) });
}
await fetch("/end", { method: "POST", body: "" });
</script>"""


def in_chromium(folder, native):
    """Compares what the module's calls leave in a page, piece by piece, by a server on this machine."""
    described, expected, ended = pieces(), [], Event()
    files = {"/": (PAGE % ARENA).encode(), "/replay.mjs": (HERE / "replay.mjs").read_bytes(), "/capvet.wasm": (BUILT / "capvet.wasm").read_bytes()}

    class Page(BaseHTTPRequestHandler):
        def do_GET(self):
            kinds, body = {"/": "text/html", "/replay.mjs": "text/javascript"}, files.get(self.path)
            if self.path.startswith("/calls/"):
                body = next(described, None)
                expected[:] = [] if body is None else [answers(native, body)]
            self.send_response(404 if body is None else 200)
            self.send_header("Content-Type", kinds.get(self.path, "application/octet-stream"))
            self.end_headers()
            self.wfile.write(body or b"")

        def do_POST(self):
            # (the page asks for the next calls only after the response)
            got = self.rfile.read(int(self.headers["Content-Length"]))
            if self.path == "/end":
                ended.set()
            else:
                compare("WebAssembly in Chromium", got, expected[0])
            self.send_response(204)
            self.end_headers()

        def log_message(self, *_):
            pass

    with ThreadingHTTPServer(("127.0.0.1", 0), Page) as server:
        Thread(target=server.serve_forever, daemon=True).start()
        words = ["chromium", "--headless", "--no-sandbox", "--disable-gpu", "--remote-debugging-port=0", f"--user-data-dir={folder}/profile"]
        with subprocess.Popen([*words, f"http://127.0.0.1:{server.server_port}/"], stdout=subprocess.DEVNULL, stderr=subprocess.DEVNULL) as browser:
            expect("Chromium came to the end of the calls", ended.wait(300 + MANY // 20), "it did not")
            browser.terminate()
        server.shutdown()


def test_calls(folder, archive):
    """The libraries for other machines, beside the one for this machine."""
    if missing("the calls of the libraries for other machines", "cc"):
        return
    native, others = compiled(folder, "cc", HERE / "replay.c", archive, "native"), {}
    if not missing("the library for arm64", "aarch64-linux-gnu-gcc", "qemu-aarch64"):
        known, arm = (compiled(folder, "aarch64-linux-gnu-gcc", source, BUILT / "aarch64/libcapvet.a", source.stem, "qemu-aarch64", "-L", ARM_ROOT)
                      for source in (TOP / "tests/calls/c/calls.c", HERE / "replay.c"))
        text, status = run(known)
        expect("calls.c over the library for arm64", status == 0, text)
        others["arm64"] = lambda piece: answers(arm, piece)
    if not missing("the module in Node", "wasm-opt", "node"):
        others["WebAssembly in Node"] = lambda piece: in_node(folder, piece)
    for piece in pieces() if others else ():
        expected = answers(native, piece)
        for name, by in others.items():
            compare(f"{name}: {len(expected)} bytes", expected, by(piece))
    if not missing("the module in a browser", "wasm-opt", "chromium"):
        in_chromium(folder, native)


# ------------------------------------------------------------------ programs

def rows():
    """Each command line of the tables that reads standard input, with its input."""
    found = {(row.words, row.stream) for value in vars(tables).values() if isinstance(value, tuple) for row in value
             if isinstance(row, tables.Row)}
    return [(words.split(), bytes.fromhex(stream)) for words, stream in sorted(found)]


def streams():
    """Changed messages, PIECE at a time, the samples, and nothing."""
    chance, whole = random.Random(SEED + 1), samples()
    small = [message for message in whole if len(message) < 5000]
    for _ in range(0, MANY, PIECE):
        yield b"".join(changed(chance.choice(small), chance) for _ in range(PIECE))
    yield from whole
    yield b""


def test_program(name, program, command):
    """A program for another machine, beside the one for this machine."""
    others = [(["--version"], b""), (["help"], b""), (["vet", "no-such-file"], b""), (["vet", "--wrong"], b"")]
    inputs = ((words.split(), stream) for stream in streams() for words in COMMANDS)
    for words, stream in itertools.chain(rows(), others, inputs):
        compare(f"{name}: {' '.join(words)}", *(outputs([*start, *words], stream, 600) for start in ([program], command)))


def empty_root(folder, file, *more):
    """A folder that has the program and nothing else but these files, and the command that runs the program there."""
    root = folder / f"root-{file.parent.name}"
    root.mkdir()
    shutil.copy(file, root / "capvet")
    for it in more:
        shutil.copy(it, root / it.name)
    return ["chroot", root, *(f"/{it.name}" for it in more), "/capvet"]


def test_programs(folder, program):
    arm, here = BUILT / "aarch64", BUILT / "x86_64"
    if not missing("the program for arm64", "aarch64-linux-gnu-gcc", "qemu-aarch64"):
        test_program("arm64", program, ["qemu-aarch64", "-L", ARM_ROOT, arm / "capvet"])
    if not missing("the static program for arm64 in an empty root", "root", "aarch64-linux-gnu-gcc", "qemu-aarch64-static"):
        emulator = Path(shutil.which("qemu-aarch64-static"))
        test_program("static arm64", program, empty_root(folder, arm / "capvet-static", emulator))
    if not missing("the static program in an empty root", "root", "gcc"):
        test_program("static x86-64", program, empty_root(folder, here / "capvet-static"))


def build():
    """Builds each target whose tools are there, side by side."""
    names = [name for name, tool in (("static", "gcc"), ("aarch64", "aarch64-linux-gnu-gcc"), ("wasm", "wasm-opt"))
             if not missing(f"the target {name}", tool)]
    with ThreadPoolExecutor(len(names) or 1) as beside:
        built = list(beside.map(lambda name: run([sys.executable, TOP / "packaging/targets.py", name]), names))
    for name, (text, status) in zip(names, built):
        expect(f"the target {name}", status == 0, text)


def main():
    build()
    with tempfile.TemporaryDirectory() as scratch:
        folder = Path(scratch)
        test_programs(folder, PROGRAM)
        test_calls(folder, ARCHIVE)
    return ended()


if __name__ == "__main__":
    sys.exit(main())
