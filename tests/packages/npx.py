#!/usr/bin/env python3
"""Runs the program that the package for JavaScript has, as its users do: by npx, in an empty folder with the tarball.

    npx.py [PROGRAM] [--full]

The tarball is packed as `make dist` packs it, with the program that Debian's Rust builds for WASI. `npm install` and `npx` take
it without a network. Then Node runs it beside PROGRAM. Both write the same, on standard error too, with the same status, but
for two things: the texts of clap 4.0.32, and the numbers of the system's errors.

- Each command reads each sample, from a file and from a pipe, plain and packed.
- The streams of tables.py have what is written there: one in eight, or all with --full.
- Help comes in each form, and command lines are wrong.
- 2,000 made messages go through the commands, in streams, from a file and from a pipe.
- Files are named in each way, and are missing, folders, pipes and links.
- Texts come while the input stays open. Outputs fail. A message of 64 MiB fits.

docs/js.md says rightly what WASI can't do. The last line is 'N passed, M failed', and the status is 1 if a case failed.
"""
import os
import struct
import subprocess
import sys
import tempfile
import time
from pathlib import Path

sys.path[1:1] = map(str, Path(__file__).resolve().parents[1].iterdir())

import beside
from beside import NULL, READERS, Both
from harness import PROGRAM, TOP, compare, ended, expect, framed, outputs, run
from needs import missing

MESSAGES = 2_000
CYCLE = framed("fcffffff00000100")
# A message of 2 GiB, which is more than one buffer of a module can have.
TWO_GIB = ("vet --size 268435456", "0000000000000010")
FAILED = b"capvet: output failed\n"


# ------------------------------------------------------------------ the package

def packed_package(folder):
    """The tarball, as `make dist` packs it. The module of the library isn't looked at here, so an empty one will do."""
    module, tarball = TOP / "build/capvet.wasm", folder / "capvet-2.0.0.tgz"
    if not module.is_file():
        module = folder / "empty.wasm"
        module.write_bytes(b"\0asm\1\0\0\0")
    said, status = run([sys.executable, "packaging/javascript.py", module, tarball], cwd=TOP)
    expect("packaging/javascript.py", status == 0, said)
    return tarball


def installed(folder, tarball):
    """The program's file, after npm has installed the tarball in an empty folder. npx runs it there, and in a folder without it."""
    own = {**os.environ, "npm_config_cache": str(folder / "cache"), "npm_config_update_notifier": "false", "npm_config_offline": "true"}
    (folder / "app").mkdir()
    (folder / "empty").mkdir()
    said, status = run(["npm", "install", "--no-audit", "--no-fund", tarball], cwd=folder / "app", env=own)
    expect("npm install", status == 0, said)
    sample = TOP / "examples/contacts.bin"
    expected = (*outputs([PROGRAM, "vet", sample])[:2], 0)
    compare("npx capvet vet", expected, outputs(["npx", "capvet", "vet", sample], cwd=folder / "app", env=own))
    compare("npx capvet vet of a pipe", expected, outputs(["npx", "capvet", "vet"], sample.read_bytes(), cwd=folder / "app", env=own))
    compare("npx of the tarball", expected, outputs(["npx", "--yes", "--package", tarball, "capvet", "vet", sample], cwd=folder / "empty", env=own))
    refused = outputs(["npx", "capvet", "vet"], CYCLE, cwd=folder / "app", env=own)
    compare("npx capvet vet of a cycle", (b"message 0: refused DepthLimit at 0:0 pointers 65\n", 1), (refused[0], refused[2]))
    return folder / "app/node_modules/capvet/bin/capvet.js"


# ------------------------------------------------------------------ files, pipes and memory

def files(both, folder):
    """Names of files, in the folder of the run and elsewhere."""
    here = folder / "files"
    (here / "real/below").mkdir(parents=True)
    sample = (TOP / "examples/contacts.bin").read_bytes()
    for name in ("plain.bin", "a b.bin", "ä☃.bin", "--x", "real/up.bin", "391"):
        (here / name).write_bytes(sample)
    (here / "link").symlink_to("real/below")
    names = ("plain.bin", "./plain.bin", ".//plain.bin", "real/../plain.bin", "link/../up.bin", "a b.bin", "ä☃.bin", str(here / "plain.bin"),
             f"/{here}/plain.bin", f"../{here.name}/plain.bin", "391", "missing", "/missing", "plain.bin/x", "", ".", "real", "/dev/null",
             "/dev/stdin")
    for name in names:
        both.compare(["filter", name], sample, cwd=here)
    both.compare(["filter", "--", "--x"], cwd=here)
    both.compare(["filter", "391", "--size", "392"], cwd=here)
    out, err, status = outputs([*both.command, "filter", "x" * 5000])
    compare("npx capvet filter of a long name", (b"", b"capvet: Filename too long (os error 37)", 3), (out, err.splitlines()[-1], status))
    line = f"exec \"$@\" filter <(cat {TOP / 'examples/contacts.bin'})"
    compare("npx capvet filter <(..)", (sample, b"", 0), outputs(["bash", "-c", line, "sh", *both.command]))
    with open(here / "plain.bin", "rb") as file:
        compare("npx capvet filter, of a file as its input", (sample, b"", 0), outputs([*both.command, "filter"], file))


def live(both):
    """The text of a message comes while the input is still open after it."""
    sample = (TOP / "examples/contacts.bin").read_bytes()
    for command in READERS:
        words = command.split()
        expected = outputs([PROGRAM, *words], sample)
        with subprocess.Popen([*both.command, *words], cwd=TOP, stdin=subprocess.PIPE, stdout=subprocess.PIPE, stderr=subprocess.PIPE) as ran:
            ran.stdin.write(sample)
            ran.stdin.flush()
            text = ran.stdout.read(len(expected[0]))
            is_open = ran.poll() is None
            ran.stdin.close()
            compare(f"npx capvet {command}, with an input that stays open", (*expected, True),
                    (text + ran.stdout.read(), ran.stderr.read(), ran.wait(60), is_open))


def failing_outputs(both):
    """Outputs that are closed or full."""
    reader, writer = os.pipe()
    os.close(reader)
    with open("/dev/full", "wb") as full, os.fdopen(writer, "wb") as closed:
        for stdout in (full, closed):
            for command in (*READERS[1:], "pack", "help", "--version"):
                got = outputs([*both.command, *command.split()], NULL * 2000, stdout=stdout)
                compare(f"npx capvet {command}, with an output that fails", (b"", FAILED, 3), got)
        both.has_to_be("vet, with a standard error that fails", (b"", b"", 3), outputs([*both.command, "vet", "examples"], stderr=full))


def large(both):
    """A message of 64 MiB, as the default limits allow, and the deepest tree."""
    words = (64 << 17) - 1
    stream = struct.pack("<IIII", 0, words + 1, 1, 8 * words << 3 | 2) + bytes(8 * words)
    for command in ("vet --exclusive", "check"):
        both.compare(command.split(), stream, "of a message of 64 MiB", timeout=600)
    deepest = framed(("010000000f000000" + "0400000000000100") * 128 + "0000000000000000")
    both.compare(["dump", "--depth", "256"], deepest, "of the deepest tree")


def differences(both, folder):
    """What is not as with PROGRAM, as docs/js.md says: Node opens /dev/null in the place of a closed stream, and gives words that
    aren't UTF-8 in another form. And what ends the module itself."""
    empty = {"<&-": ["vet"], ">&-": ["vet", "examples/contacts.bin"]}
    for closed, words in empty.items():
        compare(f"npx capvet {words[0]} {closed}", (b"", b"", 0), outputs(["sh", "-c", f'exec "$@" {closed}', "sh", *both.command, *words]))
    compare("npx capvet of a word that isn't UTF-8", (b"", "capvet: cannot open a\ufffd\n".encode(), 3),
            outputs([*both.command, "vet", b"a\xff"]))
    words, stream = TWO_GIB
    compare("npx capvet vet of 2 GiB", (b"", b"capvet: message 0: Memory\n", 3), outputs([*both.command, *words.split()], bytes.fromhex(stream)))
    alone = folder / "alone"
    alone.mkdir()
    (alone / "capvet.mjs").write_bytes(Path(both.command[1]).read_bytes())
    out, err, status = outputs(["node", alone / "capvet.mjs", "vet"], NULL)
    compare("the program without its module", (b"", b"capvet: ENOENT", 3), (out, err[:14], status))


def sized(both, tarball):
    """Prints the sizes and the times to start."""
    def milliseconds(command):
        times = []
        for _ in range(9):
            began = time.monotonic()
            outputs([*command, "--version"])
            times.append(time.monotonic() - began)
        return round(1000 * min(times))

    module = Path(both.command[1]).with_name("capvet.wasm").stat().st_size
    print(f"npx: the module has {module} bytes, the tarball {tarball.stat().st_size}; --version takes {milliseconds(both.command)} ms, "
          f"`node -e 0` {milliseconds(['node', '-e', '0', '--'])}, PROGRAM {milliseconds([PROGRAM])}")


def main():
    if missing("the program by npx", "node", "npm", "oldest-rust", "rust-for-wasi", "crates", "crate-clap", "crate-sha2"):
        return ended()
    with tempfile.TemporaryDirectory() as scratch:
        folder = Path(scratch)
        tarball = packed_package(folder)
        both = Both(["node", installed(folder, tarball)], "npx capvet", rb"(?<=os error )\d+")
        beside.of_samples(both, folder)
        beside.of_tables(both, lambda row: row[:2] == TWO_GIB)
        beside.command_lines(both)
        beside.streams(both, folder, MESSAGES)
        files(both, folder)
        live(both)
        failing_outputs(both)
        large(both)
        differences(both, folder)
        sized(both, tarball)
    return ended()


if __name__ == "__main__":
    sys.exit(main())
