#!/usr/bin/env python3
"""Runs the commands of the program with `--json`, and compares all that they write and their exit status.

    json_lines.py [PROGRAM] [--full]

The program gives the lines for a message without `--json`: the other scripts compare these with what they have to be.
The object of each line is made of it here, by docs/output.md. The line has to be the compact JSON text of that object, as Python writes
it. All else has to be as without `--json`: what comes on standard error, and the exit status.

The messages are samples that are changed, and messages that are made up, 50 in a stream: 22 streams, or with --full 420, which are more
than 20,000 messages. Each stream goes through one of COMMANDS, plain and packed. Some streams end within a message. Where `jq` is, it
reads the lines too. The last line is 'N passed, M failed', and the status is 1 where a case failed.
"""
import json
import random
import re
import sys
from concurrent.futures import ThreadPoolExecutor
from pathlib import Path

sys.path[1:1] = map(str, Path(__file__).resolve().parents[1].iterdir())

import explain
from amount import cases
from harness import PROGRAM, compare, ended, expect, framed, outputs
from made import changed, made_up, samples
from needs import missing
from packing import packed

COMMANDS = ("vet", "vet --strict", "vet --strict --unamplified", "vet --exclusive", "vet --exclusive --strict --unamplified", "check",
            "check --strict", "hash", "hash --strict --unamplified", "vet --depth 3", "vet --words 20", "explain",
            "explain --strict --unamplified", "explain --exclusive", "explain --depth 3", "explain --exclusive --words 20",
            "explain --canonical", "explain --canonical --exclusive", "explain --canonical --strict --unamplified")
STREAM = 50
BLOCK = re.compile(r"message .*\n(?:  .*\n)*")
ACCEPTED = re.compile(r"accepted charge (\d+) depth (\d+) pointers (\d+) caps (\d+)")
REFUSED = re.compile(r"refused (\w+) at (\d+):(\d+) pointers (\d+)")
NO_FORM = re.compile(r"no canonical form, capability at (\d+):(\d+)")
FILTERED = re.compile(r"  filter, the guard and the libraries refuse it: (\w+) at (\d+):(\d+) pointers (\d+)")
CYCLE = re.compile(r"^  cycle: the path reaches pointer word (\d+):(\d+) at level (\d+), and returns to it at level (\d+)$", re.M)
DIFFERS = re.compile(r"not canonical: (\w+) at (\d+):(\d+) pointers (\d+)")


def refusal(reason, segment, word, pointers):
    """The members of a refusal: the reason and the place, if a pointer is named."""
    place = {"segment": int(segment), "word": int(word), "pointer": int(pointers)}
    return {"reason": reason, **(place if place["pointer"] else {})}


def explained(lines):
    """The members that the lines of `explain` on a refusal give it."""
    given = dict(line.split(" ", 3)[2:] for line in lines if line.startswith(("  path ", "  reason ")))
    cycle = CYCLE.search("\n".join(lines))
    return {**({"path": given["path"]} if "path" in given else {}), **({"sentence": given["reason"]} if "reason" in given else {}),
            **({"cycle": dict(zip(("segment", "word", "from_level", "to_level"), map(int, cycle.groups())))} if cycle else {})}


def canonical(text, lines):
    """The members that the line of `explain --canonical` gives, by the lines that explain it."""
    if text == "canonical":
        return {"canonical": True}
    return {"canonical": False, "difference": {**refusal(*DIFFERS.fullmatch(text).groups()), **explained(lines)}}


def members(text, lines=(), more=None):
    """The members of a line, by what comes after the number of its message, and by the lines that explain it. `more` is the second
    line of the same message, and its lines."""
    if found := ACCEPTED.fullmatch(text):
        numbers = dict(zip(("charge", "depth", "pointers", "capabilities"), map(int, found.groups())))
        filtered = {"filter": {**refusal(*FILTERED.fullmatch(lines[0]).groups()), **explained(lines[1:])}} if lines else {}
        return {"verdict": "accepted", **numbers, **(canonical(*more) if more else {}), **filtered}
    if found := REFUSED.fullmatch(text):
        return {"verdict": "refused", **refusal(*found.groups()), **explained(lines)}
    if found := NO_FORM.fullmatch(text):
        return {"verdict": "accepted", "sha256": None, "segment": int(found[1]), "word": int(found[2])}
    if text.startswith("sha256 "):
        return {"verdict": "accepted", "sha256": text.removeprefix("sha256 ")}
    return {"verdict": "accepted", "canonical": {"canonical": True, "not canonical": False}[text]}


def as_json(lines):
    """The lines of a command as it writes them with `--json`."""
    blocks = {}
    for head, *more in map(str.splitlines, BLOCK.findall(lines.decode())):
        number, _, text = head.removeprefix("message ").partition(": ")
        blocks.setdefault(int(number), []).append((text, more))
    return "".join(json.dumps({"message": number, **members(*first, *others)}, separators=(",", ":")) + "\n"
                   for number, (first, *others) in blocks.items()).encode()


def stream_of(chance, bases):
    """Messages, and the stream of them, which may end within the last one."""
    messages = [changed(chance.choice(bases), chance) if chance.randrange(3) else made_up(chance) for _ in range(STREAM)]
    stream = b"".join(messages)
    return messages, stream[:-chance.randrange(1, 9)] if chance.randrange(8) == 0 else stream


def with_shown_paths(name, lines, messages):
    """The objects of messages, with each path as the lines of `explain` have it. A long one has to be that of tests/program/explain.py."""
    written = []
    for line in lines.splitlines(True):
        given = json.loads(line)
        for found in (given, given.get("filter", {}), given.get("difference", {})):
            path = found.get("path", "")
            if path != explain.shown(path):
                message = explain.segments_of(messages[given["message"]])
                compare(f"{name}, a long path", explain.path_to(message, found["pointer"]), path)
                line = line.replace(f'"{path}"'.encode(), f'"{explain.shown(path)}"'.encode())
        written.append(line)
    return b"".join(written)


def one_stream(number, bases):
    """What each command writes for a stream, with and without `--json`. Gives the lines with it."""
    chance = random.Random(number)
    (messages, stream), written = stream_of(chance, bases), b""
    command = COMMANDS[number % len(COMMANDS)]
    for options, given in (("", stream), ("--packed", packed(stream + bytes(-len(stream) % 8)))):
        words = [PROGRAM, *command.split(), *options.split()]
        out, err, status = outputs(words, given)
        name = f"capvet {command} --json {options} of stream {number}"
        objects, *others = outputs([*words, "--json"], given)
        compare(name, (as_json(out), err, status), (with_shown_paths(name, objects, messages), *others))
        written += as_json(out)
    return written


def kinds(lines):
    """Each kind of object occurs."""
    objects = [json.loads(line) for line in lines.splitlines()]
    for name, holds in (("accepted", lambda it: "charge" in it), ("refused at a pointer", lambda it: "pointer" in it),
                        ("refused at none", lambda it: it["verdict"] == "refused" and "pointer" not in it),
                        ("an overlap", lambda it: it.get("reason") == "Overlap"), ("canonical", lambda it: it.get("canonical") is True),
                        ("not canonical", lambda it: it.get("canonical") is False), ("a hash", lambda it: it.get("sha256")),
                        ("no form", lambda it: it.get("sha256", "") is None), ("a sentence", lambda it: "sentence" in it),
                        ("a path", lambda it: "path" in it),
                        ("a cycle", lambda it: "cycle" in it),
                        ("a depth limit without a cycle", lambda it: it.get("reason") == "DepthLimit" and "path" in it
                         and "cycle" not in it),
                        ("a sentence without a path", lambda it: "sentence" in it and "path" not in it),
                        ("an overlap with its path", lambda it: it.get("reason") == "Overlap" and "path" in it),
                        ("accepted and filtered", lambda it: "path" in it.get("filter", {})),
                        ("explained and canonical", lambda it: "charge" in it and it.get("canonical") is True),
                        ("a difference at a pointer", lambda it: "path" in it.get("difference", {})),
                        ("a difference at none", lambda it: "pointer" not in it.get("difference", {"pointer": 0})),
                        ("a difference, and filtered", lambda it: "difference" in it and "filter" in it)):
        expect(f"an object: {name}", any(map(holds, objects)))
    expect("each reason of a refusal but rare ones", len({it["reason"] for it in objects if "reason" in it}) > 8)


def edges():
    """No message, a message that can't be read, and other commands."""
    null = framed("0000000000000000")
    for command in COMMANDS:
        for given in (b"", null[:9], null + null[:5], b"\xff" * 8):
            out, err, status = outputs([PROGRAM, *command.split()], given)
            compare(f"capvet {command} --json of {given.hex()}", (as_json(out), err, status), outputs([PROGRAM, *command.split(), "--json"], given))
    many = framed(bytes(8), *[b""] * 511)
    compare("a message of 512 segments", (b'{"message":0,"verdict":"refused","reason":"ManySegments"}\n', b"", 1),
            outputs([PROGRAM, "vet", "--strict", "--json"], many))
    sentence = "the message has 512 segments, and common readers take at most 511"
    refused = f'"reason":"ManySegments","sentence":"{sentence}"}}'.encode()
    compare("explain of a message of 512 segments", (b'{"message":0,"verdict":"refused",' + refused + b"\n", b"", 1),
            outputs([PROGRAM, "explain", "--strict", "--json"], many))
    numbers = b'{"message":0,"verdict":"accepted","charge":0,"depth":0,"pointers":1,"capabilities":0,'
    compare("explain of the same, accepted", (numbers + b'"filter":{' + refused + b"}\n", b"", 0),
            outputs([PROGRAM, "explain", "--json"], many))
    for command in ("dump", "get /", "canon", "segments", "pack", "unpack", "filter"):
        _, err, status = outputs([PROGRAM, *command.split(), "--json"], null)
        compare(f"capvet {command} --json", (True, 2), (b"'--json'" in err, status))


def main():
    bases = [it for it in samples() if len(it) < 5000] + [framed("0300000000000000"), framed("0000000000000000")]
    count = cases(22, 420)  # streams of 50 messages
    with ThreadPoolExecutor(4) as pool:
        lines = b"".join(pool.map(lambda number: one_stream(number, bases), range(count)))
    kinds(lines)
    edges()
    if not missing("the lines by jq", "jq"):
        out, _, status = outputs(["jq", "-c", "."], lines)
        compare("the lines by jq", (lines, 0), (out, status))
    return ended()


if __name__ == "__main__":
    sys.exit(main())
