#!/usr/bin/env python3
"""Runs the commands of the program with `--one`, and compares all that they write and their exit status.

    one.py [PROGRAM] [--full]

The last line is 'N passed, M failed', and the status is 1 where a case failed. The program gives the lines for one message
without `--one`: the other scripts compare these with what they have to be. `--one` may change nothing of them, except that `hash`
writes its digits alone. The lines after them are written here, from docs/output.md.

- Messages that are made up, and changed samples, come alone, before another message, before a part of one, and before bytes
  that are none. They are plain and packed.
- There is no message. The first one is cut at each byte, is too large, or has too many segments.
- The output fails, and the input can't be read. A refused message comes before others, in each command.
- The text of the message comes while the input stays open. A message of 64 MiB takes twice its size and 3 MiB, and in `canon` and
  `hash` once more for a copy.
"""
import random
import struct
import subprocess
import sys
import tempfile
from concurrent.futures import ThreadPoolExecutor
from pathlib import Path

sys.path[1:1] = map(str, Path(__file__).resolve().parents[1].iterdir())

from amount import cases
from clap_texts import spare
from harness import PROGRAM, TOP, compare, ended, expect, framed, outputs
from made import changed, made_up, samples
from packing import packed

COMMANDS = ("vet", "vet --exclusive", "vet --strict --unamplified", "explain", "explain --exclusive --strict", "explain --canonical", "check", "canon", "hash",
            "hash --strict", "get /", "get /p0", "dump", "filter", "filter --pack", "filter --allow-nonstrict --allow-amplified")
NO_MESSAGE = (b"", b"capvet: no message\n", 1)
NULL, CYCLE = framed("0000000000000000"), framed("fcffffff00000100")
CAPABILITY = framed("0300000000000000")
MIB = 1 << 20
# How many MiB it has resident beside its messages.
SPARE = spare(PROGRAM)


def ran(command, given, *more):
    """What a command wrote to both outputs, and its status."""
    return outputs([PROGRAM, *command.split(), *more], given)


def with_one(command, text):
    """A text of a command without `--one` as it is with it: the line of a hash is its digits alone."""
    prefix = b"message 0: sha256 "
    return text.removeprefix(prefix) if command.startswith("hash") else text


def trailing(at):
    """The line for an input that goes on after its first message."""
    return f"capvet: message 1: Trailing at byte {at}\n".encode()


def expected(command, alone, at=None):
    """What a command has to write with `--one`, by what it writes for the message alone. `at` is where the input goes on."""
    out, err, status = alone
    err += trailing(at) if at is not None else b""
    return with_one(command, out), err, status or int(at is not None)


def tail(chance, messages):
    """Bytes that come after a message."""
    other = chance.choice(messages)
    return chance.choice((other, other[:chance.randrange(1, len(other))], chance.randbytes(chance.randrange(1, 24)), bytes(8), b"\0",
                          NULL, CYCLE))


def one_case(number, message, messages):
    """A message alone and before other bytes, by one command."""
    chance = random.Random(number)
    command = COMMANDS[number % len(COMMANDS)]
    more = tail(chance, messages)
    alone = ran(command, message)
    name = f"capvet {command} --one of {message[:64].hex()}"
    compare(name, expected(command, alone), ran(command, message, "--one"))
    compare(f"{name}, and {more[:32].hex()}", expected(command, alone, len(message)), ran(command, message + more, "--one"))
    text = packed(message)
    if command.startswith("explain"):
        alone = ran(command, text, "--packed")
    compare(f"{name}, packed", expected(command, alone), ran(command, text, "--one", "--packed"))
    compare(f"{name}, packed, and {more[:32].hex()}", expected(command, alone, len(text)),
            ran(command, text + packed(more + bytes(-len(more) % 8)), "--one", "--packed"))


def made(count):
    """Framed messages: samples that are changed, and messages that are made up."""
    chance = random.Random(90)
    whole = [it for it in samples() if len(it) < 5000]
    found = [NULL, CYCLE, CAPABILITY, *whole]
    while len(found) < count:
        found.append(changed(chance.choice(whole), chance) if chance.randrange(2) else made_up(chance))
    return found


def only_messages(found):
    """Those of them that are one framed message each, by the program's lines of segments."""
    with ThreadPoolExecutor(4) as pool:
        lines = list(pool.map(lambda it: ran("segments", it), found))
    return [it for it, (out, _, status) in zip(found, lines) if status == 0 and out.count(b"message ") == 1]


def messages_made():
    """Messages that are made up, by all commands."""
    most = cases(700, 20_500)  # messages that are made
    found = only_messages(made(most))
    expect("there are enough messages", 40 * len(found) >= 39 * most, len(found))
    with ThreadPoolExecutor(4) as pool:
        list(pool.map(lambda it: one_case(*it, found[:400]), enumerate(found)))


def edges():
    """No message, a first message that can't be read, and messages after a refused one, by each command."""
    contacts = (TOP / "examples/contacts.bin").read_bytes()
    for command in COMMANDS:
        for options, given in ("", b""), ("--packed", b""):
            compare(f"capvet {command} --one of nothing", NO_MESSAGE, ran(f"{command} --one {options}", given))
        for at in (*range(1, 30), len(contacts) - 9, len(contacts) - 1):
            compare(f"capvet {command} --one, cut at {at}", ran(command, contacts[:at]), ran(command, contacts[:at], "--one"))
        for given in struct.pack("<I", 512), struct.pack("<II", 0xffffffff, 0), struct.pack("<II", 0, 0xffffffff):
            compare(f"capvet {command} --one of {given.hex()}", ran(command, given), ran(command, given, "--one"))
        compare(f"capvet {command} --one --size 3", ran(f"{command} --size 3", contacts), ran(f"{command} --size 3 --one", contacts))
        for first in CYCLE, CAPABILITY:
            alone = ran(command, first)
            compare(f"capvet {command} --one of {first.hex()} and more", expected(command, alone, len(first)),
                    ran(command, first + NULL + b"\1\2\3", "--one"))
    # the position in a packed input is that of the bytes read: a run of zeros is read at once, and may go on
    for given, line in ((packed(NULL) + packed(NULL), trailing(4)), (packed(NULL) + b"\0", trailing(4)), (packed(NULL) + b"\1", trailing(4)),
                        (bytes.fromhex("10010001"), trailing(4))):
        compare(f"capvet vet --one --packed of {given.hex()}", ("", line), ("", ran("vet --one --packed", given)[1]))


def devices():
    """Outputs that fail, and an input that can't be read."""
    for command in COMMANDS:
        with open("/dev/full", "wb") as full:
            got = outputs([PROGRAM, *command.split(), "--one"], NULL + NULL, stdout=full)
        expect(f"capvet {command} --one, to a full device", got[1].endswith(b"capvet: output failed\n") and got[2] == 3, got)
        got = ran(command, b"", "--one", ".")
        expect(f"capvet {command} --one, of a folder", got[1].startswith(b"capvet: message 0: Device\n") and got[2] == 3, got)
        compare(f"capvet {command} --one, of a folder", ran(command, b"", "."), got)


def open_inputs():
    """The text of the message comes while the input stays open, and the status once it is closed."""
    contacts = (TOP / "examples/contacts.bin").read_bytes()
    pipes = {"stdin": subprocess.PIPE, "stdout": subprocess.PIPE, "stderr": subprocess.PIPE}
    for command in COMMANDS:
        for more in b"", b"\1":
            text, err, status = expected(command, ran(command, contacts), len(contacts) if more else None)
            with subprocess.Popen([PROGRAM, *command.split(), "--one"], cwd=TOP, **pipes) as process:
                process.stdin.write(contacts)
                process.stdin.flush()
                got = process.stdout.read(len(text))
                process.stdin.write(more)
                process.stdin.close()
                compare(f"capvet {command} --one, with an input that stays open", (text, b"", err, status),
                        (got, process.stdout.read(), process.stderr.read(), process.wait(60)))


def memory():
    """The most memory resident for a message of 64 MiB."""
    size = 64 * MIB
    words = size // 8 - 1
    message = struct.pack("<IIQ", 0, words + 1, 1 | (words << 35) | (5 << 32)) + bytes(8 * words)
    for command, times in ("vet", 2), ("filter", 2), ("check", 2), ("hash", 3), ("canon", 3):
        with tempfile.TemporaryFile() as given:
            given.write(message)
            given.seek(0)
            with subprocess.Popen(["/usr/bin/env", "python3", "-c", MEASURES, PROGRAM, command, "--one"], stdin=given,
                                  stdout=subprocess.PIPE) as process:
                most = int(process.communicate()[0].split()[-1])
        expect(f"capvet {command} --one of 64 MiB, and its memory", most <= times * (size >> 10) + (SPARE << 10), most)


MEASURES = """
import resource, subprocess, sys
ran = subprocess.run(sys.argv[1:], stdout=subprocess.DEVNULL)
print(resource.getrusage(resource.RUSAGE_CHILDREN).ru_maxrss)
"""

if __name__ == "__main__":
    messages_made()
    edges()
    devices()
    open_inputs()
    memory()
    sys.exit(ended())
