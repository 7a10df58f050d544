#!/usr/bin/env python3
"""Times calls of the WebAssembly module in Node beside the archive's, over the inputs of in_process.py and the samples.

    wasm.py [--seconds N] [--module PATH]

The rows have nanoseconds a message, of capvet_vet and capvet_canonical, and the module's time over the archive's.
"""
import argparse
import subprocess
import sys
import tempfile
from pathlib import Path

import in_process
from bench import TOP

HERE = TOP / "bench/peers/wasm"
SAMPLES = ("contacts.bin", "contacts-many-segments.bin", "telemetry.bin")


def times(*command):
    ran = subprocess.run([str(word) for word in command], capture_output=True, text=True, check=True)
    return [float(word) for word in ran.stdout.split()]


def main():
    parser = argparse.ArgumentParser()
    parser.add_argument("--seconds", type=float, default=1.0)
    parser.add_argument("--module", default=TOP / "build/capvet.wasm")
    args = parser.parse_args()
    with tempfile.TemporaryDirectory() as scratch:
        folder = Path(scratch)
        built = ["gcc", "-O2", "-std=c11", "-D_POSIX_C_SOURCE=200809L", f"-I{TOP / 'include'}", HERE / "calls.c",
                 TOP / "build/libcapvet.a", "-o", folder / "calls"]
        if not Path(args.module).is_file() or subprocess.run(built).returncode:
            print("without the module: build it by `make build TARGET=wasm`; it also needs gcc and node")
            return 0
        files = [*in_process.made(folder), *(TOP / "examples" / name for name in SAMPLES)]
        print("| Input | Messages | `capvet_vet` | module | ratio | `capvet_canonical` | module | ratio |\n" + "|---" * 8 + "|")
        for file in map(Path, files):
            messages, *native = times(folder / "calls", file, args.seconds)
            module = times("node", HERE / "calls.mjs", args.module, file, args.seconds)[1:]
            cells = [f"{a:,.0f} | {b:,.0f} | {b / a:.2f}" for a, b in zip(native, module)]
            print(f"| {file.name} | {messages:,.0f} | {' | '.join(cells)} |", flush=True)
    return 0


if __name__ == "__main__":
    sys.exit(main())
