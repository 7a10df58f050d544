#!/usr/bin/env python3
"""Times the program as rustc builds it beside the proved one, and prints a table.

    plain_program_times.py [--rounds N] [--program PATH] [--plain PATH] [--only WORD] [--instructions]

A cell has the processor time of the plain program over that of the proved one, for a command over an input. Each time is the least of
N rounds, in which the two take turns. With --instructions it has the ratio of instructions, which valgrind counts, without those for
an empty input. These stay the same on a busy machine. A line after the table has those of `vet` for an empty input. The inputs are
those of bench.py, made smaller, and streams of two samples of examples/. Without --plain the program is built in cargo's profile
`release` by the Rust of the path.
"""
import argparse
import os
import re
import subprocess
import sys
import tempfile
from pathlib import Path

import bench
from bench import TOP
from plain_times import CRATES

# Sizes of inputs, in the units of their parameters, for times and for instructions.
SIZES = {"big": (1 << 19, 1 << 15), "small": (150, 5), "wide": (1_000_000, 50_000), "tree": (18, 13)}
# How often a sample is repeated.
SAMPLES = {"contacts.bin": (5000, 150), "telemetry.bin": (8000, 250)}
COMMANDS = ("vet", "canon", "check", "dump", "pack", "unpack", "vet --packed", "filter")
LIMITS = ("--size", "268435456", "--words", "268435456")


def options():
    parser = argparse.ArgumentParser()
    parser.add_argument("--rounds", type=int, default=21)
    parser.add_argument("--program", default=str(TOP / "build/capvet"))
    parser.add_argument("--plain")
    parser.add_argument("--only", default="", help="the inputs whose name has this word")
    parser.add_argument("--instructions", action="store_true")
    return parser.parse_args()


def built(folder):
    """The plain program."""
    debian = ("--config", 'source.crates-io.replace-with="debian"', "--config", f'source.debian.directory="{CRATES}"')
    words = ["cargo", "build", "--quiet", "--release", "--offline", "--target-dir", folder, *(debian if CRATES.is_dir() else ())]
    subprocess.run(words, cwd=TOP / "rust/capvet-cli", check=True)
    return folder / "release/capvet"


def write(name, path, is_small):
    """Writes an input."""
    if name in SAMPLES:
        path.write_bytes((TOP / "examples" / name).read_bytes() * SAMPLES[name][is_small])
    else:
        bench.apart(bench.INPUTS[name], path, SIZES[name][is_small])


def seconds(words):
    """The processor time of a run."""
    null = os.open(os.devnull, os.O_WRONLY)
    ran = os.posix_spawn(words[0], words, os.environ, file_actions=[(os.POSIX_SPAWN_DUP2, null, 1), (os.POSIX_SPAWN_DUP2, null, 2)])
    _, status, used = os.wait4(ran, 0)
    os.close(null)
    if os.waitstatus_to_exitcode(status) not in (0, 1):
        sys.exit(f"{' '.join(words)} failed")
    return used.ru_utime + used.ru_stime


def instructions(words):
    """How many instructions a run takes, by valgrind."""
    counting = ["valgrind", "--tool=callgrind", "--callgrind-out-file=/dev/null", *words]
    reported = subprocess.run(counting, stdout=subprocess.DEVNULL, stderr=subprocess.PIPE, text=True).stderr
    return int(re.search(r"Collected : (\d+)", reported)[1])


def ratio(args, programs, command, file):
    """What the plain program takes over what the proved one does."""
    more = LIMITS if command.split()[0] not in ("pack", "unpack") else ()
    runs = [[str(it), *command.split(), *more, str(file)] for it in programs]
    if args.instructions:
        plain, proved = (instructions(it) - instructions([*it[:-1], "/dev/null"]) for it in runs)
        return plain / proved
    least = [min(times) for times in zip(*([seconds(it) for it in runs] for _ in range(args.rounds)))]
    return least[0] / least[1]


def main():
    args = options()
    if not Path(args.program).is_file():
        sys.exit(f"{args.program} isn't there: build it by `make build`")
    with tempfile.TemporaryDirectory() as scratch:
        folder = Path(scratch)
        programs = [args.plain or built(folder / "target"), args.program]
        print(f"| Input | {' | '.join(f'`{it}`' for it in COMMANDS)} |\n|---|{'---|' * len(COMMANDS)}", flush=True)
        for name in filter(lambda it: args.only in it, (*bench.MESSAGES, *SAMPLES)):
            file, packed = folder / name, folder / f"{name}.packed"
            write(name, file, args.instructions)
            bench.apart(bench.write_packed, args.program, file, packed)
            cells = (ratio(args, programs, it, packed if "packed" in it or it == "unpack" else file) for it in COMMANDS)
            print(f"| {name} | {' | '.join(f'{it:.2f}' for it in cells)} |", flush=True)
        if args.instructions:
            print("an empty input: {:.0f} and {:.0f} thousand".format(*(instructions([it, "vet", "/dev/null"]) / 1e3 for it in programs)))
    return 0


if __name__ == "__main__":
    sys.exit(main())
