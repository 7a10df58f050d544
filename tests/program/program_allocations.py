#!/usr/bin/env python3
"""Makes each allocation of the built program fail in turn, and compares what it then writes and its status.

    program_allocations.py [PROGRAM]

A small library (refuse.c), loaded into the program, refuses the allocation of one number and reports that it did. The
numbers go up from 1 until a run makes fewer allocations. Each run has to end as one of which nothing is refused, or out
of memory. Then it writes the line that says so, after the texts of the messages before it, and no more. How a run ended
is a case, and so is that each such line of a command was seen. Failures are printed as they come. The last line is
'N passed, M failed', and the status is 1 where a case failed.
"""
import os
import shutil
import subprocess
import sys
import tempfile
from pathlib import Path

sys.path[1:1] = map(str, Path(__file__).resolve().parents[1].iterdir())

from harness import PROGRAM, TOP, ended, expect, framed, outputs
from packing import packed

KIT = Path(shutil.which("rt") or "/").resolve().parent.parent
# This machine's C compiler, or else the one that the kit links programs with.
COMPILERS = (
    ["cc"],
    [KIT / "toolchain/bin/clang", "--target=x86_64-unknown-linux-gnu", f"--sysroot={KIT}/toolchain", "-nostdlib", "-fuse-ld=lld"],
)
# More allocations than any run makes.
MOST = 20000


def library(folder):
    """The library that refuses an allocation, made in this folder."""
    made = Path(folder) / "refuse.so"
    for compiler in COMPILERS:
        if shutil.which(compiler[0]):
            subprocess.run([*compiler, "-shared", "-fPIC", "-O1", "-o", made, TOP / "tests/program/refuse.c"], check=True)
            return made
    sys.exit("no C compiler\n0 passed, 1 failed")


def run(program, words, stream, refusing, number):
    """What a program wrote and its status, and whether the allocation of this number was refused."""
    reported, report = os.pipe()
    environment = {"LD_PRELOAD": str(refusing), "REFUSE": str(number), "REPORT": str(report)}
    got = outputs([program, *words], stream, env=environment, pass_fds=[report])
    os.close(report)
    with open(reported, "rb") as pipe:
        return got, pipe.read() != b""


OUT_OF_MEMORY = (b"", b"capvet: out of memory\n", 3)


def ends_of(program, words, stream, refusing):
    """How the runs of a program end in which each allocation is refused in turn, with the numbers of these: the last run, of which
    none is refused, is under the number 0."""
    ends = {}
    for number in range(1, MOST):
        end, was_refused = run(program, words, stream, refusing, number)
        if not was_refused:
            ends.setdefault(end, []).append(0)
            break
        ends.setdefault(end, []).append(number)
    return ends


def ends_after(texts):
    """How a run may end that is out of memory: before all messages, or for one after each of these texts."""
    return [OUT_OF_MEMORY] + [(text, b"capvet: message %d: Memory\n" % at, 3) for at, text in enumerate(texts)]


def refuse(command, stream, refusing, texts=()):
    """Each allocation of a command refused in turn. Where it holds messages, a run is out of memory for one after each
    of these texts."""
    words = command.split()
    whole, _ = run(PROGRAM, words, stream, refusing, 0)
    found, ends = ends_of(PROGRAM, words, stream, refusing), ends_after(texts)
    expect(f"capvet {command}", 0 in found.get(whole, ()), f"expected {whole} in the end")
    for end, numbers in found.items():
        expect(f"capvet {command}, allocations {numbers}", end in (whole, *ends), f"got {end}", cases=len(numbers))
    for end in ends:
        expect(f"capvet {command}", end in found, f"never ended with {end}")
    print(f"capvet {command}: {sum(map(len, found.values())) - 1} allocations refused", flush=True)


# A null root, and two pointers to one struct: the second message needs a larger buffer. Their packed encoding.
NULL = framed("0000000000000000")
SHARED = framed("0000000000000200 0400000001000000 0000000001000000 0700000000000000")
PACKED = packed(NULL + SHARED)
# The commands that hold messages.
HOLDING = ("vet", "vet --exclusive", "explain", "explain --exclusive", "filter", "filter --exclusive", "dump", "get /p1", "check", "canon", "hash")


def main():
    with tempfile.TemporaryDirectory() as folder:
        refusing = library(folder)
        for command in HOLDING:
            first, _ = run(PROGRAM, command.split(), NULL, refusing, 0)
            refuse(command, NULL + SHARED, refusing, (b"", first[0]))
        first, _ = run(PROGRAM, ["vet"], NULL, refusing, 0)
        refuse("vet --packed", PACKED, refusing, (b"", first[0]))
        refuse("vet examples/contacts.bin", b"", refusing, (b"",))
        # These hold nothing of a message, or read none.
        refuse("segments", NULL + SHARED, refusing)
        refuse("pack", NULL + SHARED, refusing)
        refuse("unpack", PACKED, refusing)
        for command in ("help vet", "vet --depth 257", "vat", "get /p01", "vet examples/missing.bin"):
            refuse(command, b"", refusing)
    return ended()


if __name__ == "__main__":
    sys.exit(main())
