#!/usr/bin/env python3
"""Compares the program and the library with the model in tests/shared/model.py, over as many changed messages as are asked for.

    changes.py PROGRAM ARCHIVE [--messages N] [--seed S] [--until SECONDS]

A message is a small sample with changed bytes, or one that is made up. The gate's scripts have other seeds. In batches of
BATCH messages, each with other options, the program vets a stream of them all. Each of its lines has to be the model's. For each
message the library makes a call, of which the answer, the report and the bytes have to be those of the model too. With
--until no batch begins after that number of seconds. The last line is 'N passed, M failed'.
"""
import argparse
import random
import subprocess
import sys
import tempfile
import time
from pathlib import Path

sys.path[1:1] = map(str, Path(__file__).resolve().parents[1].iterdir())

import flags
import harness
import model
from harness import TOP, compare, ended
from made import changed, made_up, samples
from model import AMPLIFIED, ANSWERS, CANONICAL, EXCLUSIVE, CHECK, NONSTRICT, TRAILING, VET, VET_SEGMENTS, Limits

BATCH = 20_000
NAMES = {number: "".join(part.title() for part in name.split("_")) if name.isupper() else name for name, number in ANSWERS.items()}


def batch_of(chance, small):
    """The messages of a batch, and its limits."""
    messages = [made_up(chance) if chance.randrange(3) == 0 else changed(chance.choice(small), chance) for _ in range(BATCH)]
    limits = Limits(8388608, chance.choice((30000, 30000, 6, 40)), chance.choice((64, 64, 2, 5)), chance.choice((0, 2, 4, 6)))
    return messages, limits, chance.randrange(3) == 0


def line_of(number, message, limits, is_exclusive):
    """What the program writes of a message, by the model."""
    call = EXCLUSIVE if is_exclusive else VET
    answer, _, report, _ = model.called(call, message, limits, 1 << 20)
    _, _, _, charge, pointers, capabilities, depth, _, segment, word = report
    if answer == ANSWERS["OK"]:
        return f"message {number}: accepted charge {charge} depth {depth} pointers {pointers} caps {capabilities}"
    return f"message {number}: refused {NAMES[answer]} at {segment}:{word} pointers {pointers}"


def by_program(program, path, messages, limits, is_exclusive):
    """Compares the program's lines."""
    path.write_bytes(b"".join(messages))
    words = ["vet", "--words", str(limits.charge), "--depth", str(limits.depth), *["--exclusive"] * is_exclusive]
    words += ["--strict"] * (not limits.flags & NONSTRICT) + ["--unamplified"] * (not limits.flags & AMPLIFIED)
    got = subprocess.run([program, *words, path], capture_output=True, text=True).stdout.splitlines()
    compare("lines", len(messages), len(got))
    for number, (line, message) in enumerate(zip(got, messages)):
        compare(lambda: f"{words} of {message.hex()}", line_of(number, message, limits, is_exclusive), line)


def requests(messages, limits, chance):
    """A call for each message."""
    for message in messages:
        call = chance.choice((VET, VET, EXCLUSIVE, CANONICAL, CANONICAL, CHECK, VET_SEGMENTS))
        more = limits if chance.randrange(4) else Limits(limits.message_words, limits.charge, limits.depth, limits.flags | TRAILING)
        yield flags.asked(call, message + bytes(chance.choice((0, 0, 0, 8))), more, chance.choice((1 << 12, 1 << 12, 0)))


def built(folder, archive):
    """The program of tests/calls/c/flags.c over the archive."""
    out = Path(folder) / "flags"
    words = ["cc", "-O1", f"-I{TOP}/include", TOP / "tests/calls/c/flags.c", archive, "-o", out]
    subprocess.run([str(word) for word in words], check=True)
    return out


def main():
    parser = argparse.ArgumentParser(usage=__doc__)
    parser.add_argument("program")
    parser.add_argument("archive")
    parser.add_argument("--messages", type=int, default=10_000_000)
    parser.add_argument("--seed", type=int, default=1)
    parser.add_argument("--until", type=float, default=1e9)
    asked, begin, small, count = parser.parse_args(), time.monotonic(), [it for it in samples() if len(it) < 1000], 0
    with tempfile.TemporaryDirectory() as folder:
        calls, path = built(folder, asked.archive), Path(folder) / "stream"
        while count < asked.messages and time.monotonic() - begin < asked.until:
            chance = random.Random(f"changes {asked.seed} {count}")
            messages, limits, is_exclusive = batch_of(chance, small)
            by_program(asked.program, path, messages, limits, is_exclusive)
            flags.compare_calls(calls, list(requests(messages, limits, chance)))
            count += len(messages)
            print(f"changes: {count} messages in {time.monotonic() - begin:.0f} seconds, {harness.failed} differences", flush=True)
    return ended()


if __name__ == "__main__":
    sys.exit(main())
