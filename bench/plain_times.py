#!/usr/bin/env python3
"""Times the calls of the text without contracts, as rustc builds it, beside those of the proved library, and prints a table.

    plain_times.py [--rounds N] [--archive PATH] [--only WORD] [--instructions]

Of each call over each input the table has the milliseconds of the text without contracts, those of the proved library, and the
ratio. They are the least of N rounds in each of three processes, in turn. With --instructions the columns have instructions instead,
in thousands, which valgrind counts; these stay the same on a busy machine. `vet` to `pack_message` get each message of a file,
`unpack_message` the packed text of each, and `pack` and `unpack` the words of the whole file at once. The inputs are those of
bench.py, of the sizes that SIZES has for instructions, and two samples of examples/. The crate is built in cargo's profile
`release` by the Rust of the path. peers/plain says what is timed.
"""
import argparse
import os
import re
import shutil
import subprocess
import sys
import tempfile
from pathlib import Path

import bench
from bench import TOP
from node_times import instructions, run

SAMPLES = ("contacts.bin", "telemetry.bin")
# Sizes of inputs for counts of instructions, in the units of their parameters: the ratios are those of larger ones.
SIZES = {"big": 1 << 16, "small": 5, "wide": 100_000, "tree": 15, "random": 1, "zero": 1, "mixed": 1}
OF_MESSAGES = ("vet", "check_canonical", "first_difference", "canonical", "get", "vet_exclusive", "pack_message", "unpack_message")
OF_WORDS = ("pack", "unpack")
# Where Debian's packages of crates put them.
CRATES = Path("/usr/share/cargo/registry")
MAKES = ("plain", "proved")


def options():
    parser = argparse.ArgumentParser()
    parser.add_argument("--rounds", type=int, default=11)
    parser.add_argument("--archive", default=str(TOP / "build/libcapvet.a"))
    parser.add_argument("--only", default="", help="the rows whose call or input has this word")
    parser.add_argument("--instructions", action="store_true")
    return parser.parse_args()


def built(archive, folder):
    """The program that calls both."""
    debian = ("--config", 'source.crates-io.replace-with="debian"', "--config", f'source.debian.directory="{CRATES}"')
    words = ["cargo", "build", "--quiet", "--release", "--offline", "--target-dir", folder, *(debian if CRATES.is_dir() else ())]
    subprocess.run(words, cwd=TOP / "bench/peers/plain", check=True, env={**os.environ, "CAPVET_LIB_DIR": str(archive.parent)})
    return folder / "release/plain-times"


def rows(only):
    """Each call with each of its inputs."""
    every = [(call, name) for call in OF_MESSAGES for name in (*bench.MESSAGES, *SAMPLES)]
    every += [(call, name) for call in OF_WORDS for name in ("small", "tree", *bench.WORDS)]
    return [row for row in every if any(only in word for word in row)]


def measured(args, program, call, file):
    """The milliseconds of both makes, or their thousands of instructions: those of a second round alone."""
    if args.instructions:
        return [(instructions([program, make, call, file, 2]) - instructions([program, make, call, file, 1])) / 1e3 for make in MAKES]
    least = dict.fromkeys(MAKES, float("inf"))
    for _ in range(3):
        for make in MAKES:
            nanoseconds = int(re.match(r"\d+", run([program, make, call, file, args.rounds]).stdout)[0])
            least[make] = min(least[make], nanoseconds / 1e6)
    return list(least.values())


def main():
    args = options()
    archive = Path(args.archive).resolve()
    if not archive.is_file():
        sys.exit(f"{archive} isn't there: build it by `make build`")
    if not shutil.which("cargo"):
        print("without the text without contracts: cargo isn't there")
        return 0
    with tempfile.TemporaryDirectory() as scratch:
        folder = Path(scratch)
        program = built(archive, folder / "target")
        files = {name: TOP / "examples" / name for name in SAMPLES}
        print("| call | input | plain | proved | ratio |\n| --- | --- | ---: | ---: | ---: |", flush=True)
        for call, name in rows(args.only):
            if name not in files:
                files[name] = folder / name
                bench.apart(bench.INPUTS[name], files[name], *([SIZES[name]] if args.instructions else []))
            plain, proved = measured(args, program, call, files[name])
            print(f"| {call} | {name} | {plain:.4g} | {proved:.4g} | {plain / proved:.2f} |", flush=True)
    return 0


if __name__ == "__main__":
    sys.exit(main())
