#!/usr/bin/env python3
"""Times small messages that take long to vet, with and without --unamplified, and prints tables.

    amplified.py [--rounds N] [--program PATH] [--archive PATH]

The times are microseconds for one message: those of a run over copies of it, without those of a run over an empty input. In
each round every run takes place once, in turn, and the table has the median of the rounds. With the option there are 100
copies, since a single message takes less than the start of a program varies.

Then come the calls of the library, by the default limits and with CAPVET_ALLOW_AMPLIFIED, as peers/c/amplified.c says.
Where that can't be built, without the archive or a compiler, a line says why.
"""
import argparse
import os
import statistics
import subprocess
import sys
import tempfile
from pathlib import Path

import bench
from bench import framed, list_pointer, struct_pointer, word

FAR, COPIES = 1000, 100


def doubling(levels, end):
    """Structs of two pointers, each pair of which leads to the next struct, and the words after them."""
    return framed(struct_pointer(0, 0, 2) + (levels - 1) * (struct_pointer(1, 0, 2) + struct_pointer(0, 0, 2)) + end)


def far_pointer(place):
    return word(2 | place << 3)


def far_lists():
    """A list of 1,000 far pointers to one pad, which leads to such a list. Its pad leads to a struct without words."""
    first, second = 1 + FAR, 2 + 2 * FAR
    return framed(list_pointer(0, 6, FAR) + FAR * far_pointer(first) + list_pointer(0, 6, FAR) + FAR * far_pointer(second)
                  + struct_pointer(-1, 0, 0))


MESSAGES = {
    "doubling, 22 levels": doubling(22, bytes(16)),
    "lists of far pointers": far_lists(),
    "doubling, 10 levels": doubling(10, struct_pointer(1, 1, 0) + struct_pointer(0, 1, 0) + word(7)),
}
# (a refusal ends `canon`, so it would not come to the copies)
COMMANDS = ("vet", "vet --strict", "vet --exclusive", "check")


def by_program(args, folder):
    rows = []
    (folder / "empty").write_bytes(b"")
    for at, (name, message) in enumerate(MESSAGES.items()):
        (folder / f"{at}-1").write_bytes(message)
        (folder / f"{at}-{COPIES}").write_bytes(COPIES * message)
        rows += [(name, len(message), command, copies, bench.Timed(name, f"PROGRAM {command} {options} FILE", statuses=(0, 1)), at)
                 for command in COMMANDS for options, copies in (("", 1), ("--unamplified", COPIES))]
    programs, seconds = {"PROGRAM": [args.program]}, [[] for _ in rows]
    for _ in range(args.rounds):
        for taken, (*_, copies, timed, at) in zip(seconds, rows):
            empty, _ = bench.run(timed, programs, folder / "empty")
            whole, _ = bench.run(timed, programs, folder / f"{at}-{copies}")
            taken.append((whole - empty) / copies)
    print(f"{'message':22} {'bytes':>6}  {'command':20} {'us':>10} {'unamplified':>12}")
    for row, plain, bounded in zip(rows[::2], seconds[::2], seconds[1::2]):
        name, size, command, *_ = row
        print(f"{name:22} {size:6}  {command:20} {1e6 * statistics.median(plain):10.0f} {1e6 * statistics.median(bounded):12.1f}")


def in_process(args, folder):
    program, archive = folder / "amplified", Path(args.archive).resolve()
    reason = f"{archive} isn't there: build it by `make build`"
    if archive.is_file():
        reason = bench.why_not_built([os.environ.get("CC", "cc"), "-O2", f"-I{bench.TOP / 'include'}",
                                      bench.TOP / "bench/peers/c/amplified.c", archive, "-o", program], folder)
    if reason is not None:
        print(f"without the calls in process: {reason}")
        return
    print(f"\n{'message':22} {'bytes':>6}  {'call':20} {'amplified':>10} {'default':>12}")
    for name, message in MESSAGES.items():
        (folder / "message").write_bytes(message)
        ran = subprocess.run([program, str(args.rounds), folder / "message"], stdout=subprocess.PIPE, text=True, check=True)
        for call, bounded, plain in (line.split() for line in ran.stdout.splitlines()):
            print(f"{name:22} {len(message):6}  {call:20} {float(plain):10.0f} {float(bounded):12.1f}")


def main():
    parser = argparse.ArgumentParser()
    parser.add_argument("--rounds", type=int, default=11)
    parser.add_argument("--program", default=str(bench.TOP / "build/capvet"))
    parser.add_argument("--archive", default=str(bench.TOP / "build/libcapvet.a"))
    args = parser.parse_args()
    if not Path(args.program).is_file():
        sys.exit(f"{args.program} isn't there: build it by `make build`")
    with tempfile.TemporaryDirectory() as scratch:
        by_program(args, Path(scratch))
        in_process(args, Path(scratch))


if __name__ == "__main__":
    main()
