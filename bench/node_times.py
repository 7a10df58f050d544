#!/usr/bin/env python3
"""Times the calls of the library that read nodes, and prints tables.

    node_times.py [--rounds N] [--archive PATH] [--instructions]

The first table has `capvet_get` of /p0 beside `capvet_vet`, on the small messages of bench.py. The second has a node of a
range over a list of 100,000: an element, or what a pointer of each leads to. peers/c/nodes.c says what is timed. The times
are the least of the rounds, in nanoseconds. With --instructions the tables have instructions instead, which valgrind
counts; these stay the same on a busy machine.
"""
import argparse
import os
import re
import subprocess
import sys
import tempfile
from pathlib import Path

import bench
from bench import TOP

COUNT = 100_000
MESSAGES = ("vet", "get")
RANGES = ("elements", "structs", "lists", "nulls", "texts")


def options():
    parser = argparse.ArgumentParser()
    parser.add_argument("--rounds", type=int, default=11)
    parser.add_argument("--archive", default=str(TOP / "build/libcapvet.a"))
    parser.add_argument("--instructions", action="store_true")
    return parser.parse_args()


def run(words):
    return subprocess.run([str(word) for word in words], capture_output=True, text=True, check=True)


def instructions(words):
    """How many instructions a run takes, by valgrind."""
    reported = run(["valgrind", "--tool=callgrind", "--callgrind-out-file=/dev/null", *words]).stderr
    return int(re.search(r"Collected : (\d+)", reported).group(1))


def measured(args, program, mode, of, count):
    """The time of a message or a node; or its instructions, those of a second round alone."""
    if args.instructions:
        return (instructions([program, mode, of, 2]) - instructions([program, mode, of, 1])) / count
    return float(run([program, mode, of, args.rounds]).stdout.split()[1])


def main():
    args = options()
    with tempfile.TemporaryDirectory() as scratch:
        program, small = Path(scratch) / "nodes", Path(scratch) / "small"
        if not Path(args.archive).is_file():
            print(f"without the calls for nodes: {args.archive} isn't there: build it by `make build`")
            return 0
        words = [*os.environ.get("CC", "cc").split(), "-O2", f"-I{TOP / 'include'}", TOP / "bench/peers/c/nodes.c",
                 Path(args.archive).resolve(), "-o", program]
        reason = bench.why_not_built(words, Path(scratch))
        if reason is not None:
            print(f"without the calls for nodes: {reason}")
            return 0
        bench.apart(bench.write_small, small)
        unit = "instructions" if args.instructions else "ns"
        print(f"{'a message':12} {unit:>12}")
        for mode in MESSAGES:
            print(f"{mode:12} {measured(args, program, mode, small, 300_000):12.1f}")
        print(f"\n{'a node':12} {unit:>12}")
        for mode in RANGES:
            print(f"{mode:12} {measured(args, program, mode, COUNT, COUNT):12.1f}")
    return 0


if __name__ == "__main__":
    sys.exit(main())
