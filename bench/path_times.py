#!/usr/bin/env python3
"""Times `capvet_vet` of messages that are refused, and `capvet_pointer_path` of the pointer that it names, and prints a table.

    path_times.py [--rounds N] [--archive PATH] [--positions N,..]

peers/c/paths.c says what is timed. The position of the code in the program decides a fifth of these times, so each message is
timed over several programs. In each of them so many bytes of code are linked before the library. The table has the times of
both calls in nanoseconds for each position, then the ratio.
"""
import argparse
import os
import subprocess
import sys
import tempfile
from pathlib import Path

import bench
from bench import TOP

SHAPES = (("chain", 8), ("chain", 33), ("chain", 61), ("chain", 80), ("chain", 200), ("tree", 3), ("tree", 31), ("tree", 511),
          ("tree", 2047), ("list", 30), ("list", 300), ("far", 500), ("caps", 500), ("nulls", 2000))
# Linkers put cold functions first, so there are as many bytes in their section.
PADDING = """\
    .section .text.unlikely, "ax"
    .skip {bytes}
    .text
    .skip {bytes}
    .section .note.GNU-stack, "", @progbits
"""


def options():
    parser = argparse.ArgumentParser()
    parser.add_argument("--rounds", type=int, default=101)
    parser.add_argument("--archive", default=str(TOP / "build/libcapvet.a"))
    parser.add_argument("--positions", default="0,16,32,48")
    return parser.parse_args()


def built(folder, archive, position):
    """The program with so many bytes of code before the library, or why it can't be built."""
    padding, program = folder / "padding.s", folder / f"paths-{position}"
    padding.write_text(PADDING.format(bytes=position))
    words = [*os.environ.get("CC", "cc").split(), "-O2", f"-I{TOP / 'include'}", padding, TOP / "bench/peers/c/paths.c",
             Path(archive).resolve(), "-o", program]
    return program, bench.why_not_built(words, folder)


def main():
    args = options()
    if not Path(args.archive).is_file():
        print(f"without the paths: {args.archive} isn't there: build it by `make build`")
        return 0
    with tempfile.TemporaryDirectory() as scratch:
        programs = []
        for position in args.positions.split(","):
            program, reason = built(Path(scratch), args.archive, int(position))
            if reason is not None:
                print(f"without the paths: {reason}")
                return 0
            programs.append((position, program))
        print(f"{'message':12}" + "".join(f"{f'at {position}: vet':>14} {'path':>9} {'ratio':>6}" for position, _ in programs))
        for shape, count in SHAPES:
            row = f"{f'{shape} {count}':12}"
            for _, program in programs:
                ran = subprocess.run([program, shape, str(count), str(args.rounds)], capture_output=True, text=True, check=True)
                vet, path = (float(it) for it in ran.stdout.split())
                row += f"{vet:14.1f} {path:9.1f} {path / vet:6.2f}"
            print(row, flush=True)
    return 0


if __name__ == "__main__":
    sys.exit(main())
