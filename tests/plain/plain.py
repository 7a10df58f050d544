#!/usr/bin/env python3
"""Compares the calls of the text without contracts, as rustc builds it, with those of the proved library.

    plain.py [--long] [PROGRAM [ARCHIVE]]

For 20,000 made messages each call returns and writes what the call of ARCHIVE does: the answer, the whole report, each buffer, node
and step. With --full they are 100,000, and with --long 1,000,000. The last line is 'N passed, M failed', and the status is 1 where a
case failed.
"""
import re
import sys
import tempfile
from pathlib import Path

sys.path[1:1] = map(str, Path(__file__).resolve().parents[1].iterdir())

import amount
from cargo import CARGO, environment
from harness import TOP, compare, count, ended, expect, run
from header import calls
from needs import missing

LONG = amount.has("--long")
MESSAGES = 1_000_000 if LONG else amount.cases(20_000, 100_000)  # made messages
# The calls that take no message and no number. Each has one result, which tests/calls/c looks at.
CONSTANT = {"capvet_abi_2", "capvet_limits_default", "capvet_version"}


def beside_the_proved_library(folder):
    """Each call returns and writes what that of the proved library does."""
    variables, crate = environment(folder), TOP / "tests/plain"
    compared = set(re.findall(r"\bcapvet_\w+", (crate / "src/calls.rs").read_text()))
    compare("the calls of the header that aren't compared", CONSTANT, set(calls()) - compared)
    built = run(["cargo", "build", *CARGO, "--release", "--features", "proved"], cwd=crate, env=variables)
    compare("cargo build of tests/plain", ("", 0), built)
    said, status = run([folder / "target/release/plain", str(MESSAGES)], timeout=36_000)
    print(said)
    made = re.match(rf"{MESSAGES} messages, (\d+) calls, digest [0-9a-f]{{16}}, 0 differences\n", said)
    expect("the calls beside those of the proved library", status == 0 and made, said)
    count(int(made[1]) if made else 0)
    # (a call that always answers the same is compared with nothing)
    for name, answers in re.findall(r"^  (\w+): (.*)$", said, re.M):
        expect(f"{name} gives several answers", name in ("bounds", "unpack_message") or len(answers.split()) >= 3, answers)


def main():
    if not missing("the calls of both builds", "cargo", "rustc", "crates"):
        with tempfile.TemporaryDirectory() as scratch:
            beside_the_proved_library(Path(scratch))
    return ended()


if __name__ == "__main__":
    sys.exit(main())
