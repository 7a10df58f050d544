#!/usr/bin/env python3
"""Times `capvet hash` beside `canon` whose bytes go to `sha256sum`, and prints a table.

    hashes.py [--rounds N] [--program PATH]

The inputs are single messages of 64 MiB of bench.py: `big` is canonical, and `tree` is not. In each round both run once, in turn, and
both have to print the same digits. The table has the least seconds of the rounds, the least processor seconds, and the ratio of each.
`beside` is the largest resident memory of `hash`, in MiB, without the size of the message.
"""
import argparse
import os
import re
import subprocess
import sys
import tempfile
import time
from pathlib import Path

import bench
from bench import MIB, TOP

COMMANDS = ('exec "$0" hash "$1"', '"$0" canon "$1" | tail -c +9 | sha256sum')


def options():
    parser = argparse.ArgumentParser()
    parser.add_argument("--rounds", type=int, default=11)
    parser.add_argument("--program", default=str(TOP / "build/capvet"))
    return parser.parse_args()


def timed(command, program, file):
    """The digits that a command prints, its seconds, its processor time and those of its children, and its memory in KiB."""
    start = time.monotonic()
    ran = subprocess.Popen(["sh", "-c", command, program, file], stdout=subprocess.PIPE, text=True)
    digits = re.search("[0-9a-f]{64}", ran.stdout.read())[0]
    _, status, usage = os.wait4(ran.pid, 0)
    seconds = time.monotonic() - start
    assert status == 0, command
    return digits, seconds, usage.ru_utime + usage.ru_stime, usage.ru_maxrss


def main():
    args = options()
    program = str(Path(args.program).resolve())
    print("| input | `hash` | `canon` and `sha256sum` | ratio | processor | processor | ratio | beside |")
    print("| --- | ---: | ---: | ---: | ---: | ---: | ---: | ---: |", flush=True)
    with tempfile.TemporaryDirectory() as scratch:
        for name in ("big", "tree"):
            file = Path(scratch) / name
            bench.apart(bench.INPUTS[name], file)
            rounds = [[timed(command, program, file) for command in COMMANDS] for _ in range(args.rounds)]
            assert len({digits for row in rounds for digits, *_ in row}) == 1, name
            (one, two), (mine, theirs) = ([min(row[which][at] for row in rounds) for which in (0, 1)] for at in (1, 2))
            beside = max(row[0][3] for row in rounds) / 1024 - file.stat().st_size / MIB
            print(f"| {name} | {one:.2f} | {two:.2f} | {one / two:.2f} | {mine:.2f} | {theirs:.2f} | "
                  f"{mine / theirs:.2f} | {beside:.1f} |", flush=True)
    return 0


if __name__ == "__main__":
    sys.exit(main())
