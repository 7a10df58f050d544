#!/usr/bin/env python3
"""Times the calls of the built library beside Cap'n Proto's own C++ library, in one process, and prints a table.

    in_process.py [--rounds N] [--archive PATH] [FILE..]

The inputs are files of messages. Where none is given, they are generated in a temporary folder. They are those of
bench.py that are messages, and `lists`, 16 messages of 4 MiB with one list of bytes each. peers/cpp/in_process.cpp says
what is timed. Where it can't be built, without the archive, the C++ library or a compiler, a line says why.
"""
import argparse
import os
import random
import struct
import subprocess
import sys
import tempfile
from pathlib import Path

import bench
from bench import MIB, TOP


def write_lists(path):
    """16 messages of 4 MiB in all: a struct with one list of random bytes."""
    rng = random.Random(6)
    words = MIB // 2 - 3
    with open(path, "wb") as out:
        for _ in range(16):
            out.write(struct.pack("<II", 0, 2 + words) + bench.struct_pointer(0, 0, 1))
            out.write(bench.list_pointer(0, 2, 8 * words) + rng.randbytes(8 * words))


INPUTS = bench.MESSAGES | {"lists": write_lists}


def options():
    parser = argparse.ArgumentParser()
    parser.add_argument("--rounds", type=int, default=11)
    parser.add_argument("--archive", default=str(TOP / "build/libcapvet.a"))
    parser.add_argument("files", nargs="*", metavar="FILE")
    return parser.parse_args()


def why_not_built(archive, program, folder):
    """Builds the program, and gives None; or why it can't be built, in a few words."""
    if not Path(archive).is_file():
        return f"{archive} isn't there: build it by `make build`"
    words = [*os.environ.get("CXX", "g++").split(), "-O2", "-DNDEBUG", f"-I{TOP / 'include'}", TOP / "bench/peers/cpp/in_process.cpp",
             Path(archive).resolve(), "-o", program, "-lcapnp", "-lkj", "-lpthread"]
    return bench.why_not_built(words, folder)


def made(folder):
    """The inputs, made in a folder."""
    for name, write in INPUTS.items():
        bench.apart(write, folder / name)
    return [str(folder / name) for name in INPUTS]


def main():
    args = options()
    with tempfile.TemporaryDirectory() as scratch:
        folder = Path(scratch)
        program = folder / "in_process"
        reason = why_not_built(args.archive, program, folder)
        if reason is not None:
            print(f"without the calls in process: {reason}")
            return 0
        return subprocess.run([program, str(args.rounds), *(args.files or made(folder))]).returncode


if __name__ == "__main__":
    sys.exit(main())
