#!/usr/bin/env python3
"""Compares what each language says of changed messages with what the program prints of them: the same JSON object, line by line.

    languages.py PROGRAM ARCHIVE [--full]

2,000 messages, or 50,000 with --full, are samples of which some words are changed, messages that are made up, and messages whose
pointers overlap. All are plain. Some are cut, have bytes after them, or claim other segments. They are in one file for each line of
OPTIONS, which tests/bindings/languages/say.c, say.cpp, rust, go, say.py and say.mjs read in one go each. They vet each message by itself, with
the library for C, the headers for libcapnp, the crate for Rust, and the packages for Go, Python and JavaScript.

The object has `message`, the number of the message, and `verdict`. Of an accepted message it has the report, the Adler-32 checksum of
the canonical words, unless there are none, and whether the message is canonical. If it isn't, it has the first difference from its
canonical form: the reason, the place and the number of the pointer, and its path. Of a refused one it has the reason, and the pointer
with its place and its path. It also has the path to the other pointer of an overlap, and the lines that explain it. Of a broken one
it has the reason and its number.

The same objects are made here of what PROGRAM prints by `explain`, `segments`, `check` and `canon` of the messages that are whole. The
first difference is that of `difference` in tests/shared/model.py. A
broken one goes through PROGRAM alone, and its number is found here in its table. Where a tool is missing, a line says which language
is left out. The last line is 'N passed, M failed', and the status is 1 if a case failed.
"""
import json
import os
import random
import re
import shutil
import struct
import sys
import tempfile
import zlib
from collections import Counter
from pathlib import Path

sys.path[1:1] = map(str, Path(__file__).resolve().parents[1].iterdir())

import cargo
import made
import model
import needs
from amount import cases
from explain import of_libraries
from harness import ARCHIVE, PROGRAM, TOP, compare, differ, ended, expect, outputs, run, with_lengths
from install import make
from needs import missing
from paths import up_to
from python import environment as fresh_python, wheel_of

MANY = cases(2_000, full=50_000)  # changed messages
HERE = TOP / "tests/bindings/languages"
STRICT = ("-O1", "-Wall", "-Wextra", "-Wpedantic", "-Wconversion", "-Werror")
# The limits of a run, each with the options of the program: the words, the charge and the depth, the flags, and whether no word may
# be used twice.
OPTIONS = (
    ((8388608, 8388608, 64, 0, 0), "--strict --unamplified"),
    ((8388608, 8388608, 64, 3, 1), "--exclusive"),
    ((400, 60, 4, 3, 0), "--size 400 --words 60 --depth 4"),
    ((8388608, 2000, 256, 1, 1), "--unamplified --exclusive --words 2000 --depth 256"),
)
# How often each of these verdicts has to be found among 2,000 messages.
LEAST = {"accepted": 200, "Overlap": 50, "Truncated": 10, "Trailing": 10, "TooManySegments": 3, "TooLarge": 3, "NoMessage": 1,
         "DepthLimit": 10, "WordLimit": 10, "OutOfSegment": 50, "NoRoot": 1}
# The same for first differences, by their reasons.
LEAST_DIFFERENCES = {"Segments": 50, "Place": 50, "DataZero": 50, "PointerNull": 20, "EmptyStruct": 5, "Bits": 3, "Trailing": 1}


# ------------------------------------------------------------------ messages

def broken(message, chance):
    """The message, cut, with bytes after it, or with another table."""
    kind = chance.randrange(5)
    if kind == 0:
        return message[:chance.choice((0, 5, chance.randrange(len(message))))]
    if kind == 1:
        return message + bytes(chance.randrange(1, 9))
    if kind == 2:
        return struct.pack("<I", chance.choice((511, 512, 600, 1, 0xFFFFFFFF))) + message[4:]
    if kind == 3:
        return message[:4] + struct.pack("<I", chance.choice((0xFFFFFFFF, 8388609, 401, 0))) + message[8:]
    return message + message


def messages(many):
    """As many messages, of a fixed seed."""
    chance, known = random.Random("languages"), made.samples()
    for number in range(many):
        kind = number % 10
        if kind < 5:
            yield made.changed(chance.choice(known), chance)
        elif kind < 7:
            yield made.made_up(chance)
        elif kind < 9:
            yield made.shared(chance)
        else:
            yield broken(chance.choice((made.changed(chance.choice(known), chance), made.made_up(chance))), chance)


def break_of(data, most):
    """Why bytes are no message and nothing else, with the number that belongs to it, or nothing if they are one."""
    if not data:
        return "NoMessage", "required", 8
    if len(data) < 8:
        return "Truncated", "required", 8
    count = struct.unpack_from("<I", data)[0] + 1
    if count > 512:
        return "TooManySegments", "segments", count
    table = 8 * (count // 2 + 1)
    if len(data) < table:
        return "Truncated", "required", table
    words = sum(struct.unpack_from(f"<{count}I", data, 4))
    if words > most:
        return "TooLarge", "words", words
    whole = table + 8 * words
    if len(data) < whole:
        return "Truncated", "required", whole
    return ("Trailing", "trailing_bytes", len(data) - whole) if len(data) > whole else None


# ------------------------------------------------------------------ the program

# The options for the commands that neither vet with demands nor look for overlaps. Any accepted message passes them.
LARGEST = ("--size", "268435456", "--words", "268435456", "--depth", "256")
WIDEST = model.Limits(268435456, 268435456, 256)


def parts_of(command, stream, folder):
    """What a command of the program prints of each message of a stream."""
    (folder / "stream").write_bytes(b"".join(stream))
    text = outputs([PROGRAM, *command, folder / "stream"], timeout=3600)[0].decode()
    return re.split(r"^message \d+: ", text, flags=re.M)[1:]


def refused_object(length, verdict, lines, path):
    """The members about a refused message, by its verdict, the lines that explain it, and the path to the pointer, if there is one."""
    reason, segment, word, pointer = re.fullmatch(r"refused (\w+) at (\d+):(\d+) pointers (\d+)", verdict).groups()
    about = {"length": length, "verdict": "refused", "reason": reason}
    if path is not None:
        about |= {"segment": int(segment), "word": int(word), "pointer": int(pointer), "path": path}
    if earlier := re.search(r"^  first used by (\S+) at ", lines, re.M):
        about["earlier_path"] = earlier[1]
    return {**about, "explain": lines}


def difference_of(data):
    """The members about the first difference of an accepted message from its canonical form, by the model."""
    message, _ = model.unframed(data, WIDEST)
    first = model.difference(message, model.vetted(message, WIDEST.charge, WIDEST.depth))
    if first is None:
        return {}
    about = dict(zip(("reason", "segment", "word", "pointers"), first))
    if first[0] not in ("Segments", "Trailing"):
        about["path"] = "/" + "/".join(f"{'pi'[kind]}{number}" for kind, number in up_to(message, WIDEST, first[3])[-1][1])
    return {"difference": about}


def accepted_object(data, verdict, segments, form, copy):
    """The members about an accepted message, by what the commands print of it. `copy` is its canonical words, if it has some."""
    charge, depth, pointers, caps = map(int, re.findall(r"\d+", verdict))
    count, words = map(int, re.match(r"segments (\d+) words (\d+)\n", segments).groups())
    canonical = {} if copy is None else {"canonical": zlib.adler32(copy)}
    return {"length": len(data), "verdict": "accepted", "segments": count, "words": words, "charge": charge, "depth": depth,
            "pointers": pointers, "capabilities": caps, **canonical, "is_canonical": form == "canonical\n", **difference_of(data)}


def copies_of(stream, folder):
    """The canonical words of these messages, by `canon`."""
    (folder / "stream").write_bytes(b"".join(stream))
    rest = outputs([PROGRAM, "canon", *LARGEST, folder / "stream"], timeout=3600)[0]
    at = 0
    while at < len(rest):
        end = at + 8 + 8 * struct.unpack_from("<I", rest, at + 4)[0]
        yield rest[at + 8:end]
        at = end


def whole_objects(stream, options, folder):
    """The objects about messages that are whole, by the program."""
    verdicts = list(of_libraries("".join(f"message 0: {part}" for part in parts_of(["explain", *options], stream, folder))))
    # (the lines shorten a long path, and the objects of `explain --json` have it whole)
    objects = outputs([PROGRAM, "explain", "--json", *options, folder / "stream"], timeout=3600)[0].splitlines()
    paths = [json.loads(line).get("path") for line in objects]
    accepted = [message for message, (verdict, _) in zip(stream, verdicts) if verdict.startswith("accepted")]
    of_accepted = zip(parts_of(["segments", *LARGEST[:2]], accepted, folder), parts_of(["check", *LARGEST], accepted, folder))
    # (only the line of an accepted message has its capabilities)
    copies = copies_of([message for message, (verdict, _) in zip(stream, verdicts) if verdict.endswith("caps 0")], folder)
    compare("messages of which the program has a verdict", len(stream), len(verdicts))
    for message, (verdict, lines), path in zip(stream, verdicts, paths):
        if verdict.startswith("refused"):
            yield refused_object(len(message), verdict, lines, path)
        else:
            yield accepted_object(message, verdict, *next(of_accepted), next(copies) if verdict.endswith("caps 0") else None)


def broken_object(data, reason, member, number, size):
    """The members about bytes that are no message, if the program says so too."""
    out, error, _ = outputs([PROGRAM, "vet", "--size", str(size)], data)
    said = (re.search(rb"^capvet: message \d+: (\w+)(?: (\d+)$)?", error) or [b"", b"", None])
    if reason == "Trailing":
        # (the bytes after a message may be another one)
        expect("the program has a verdict of the message before other bytes", out.startswith(b"message 0: "), data.hex()[:400])
    elif reason == "NoMessage":
        compare("the program, of nothing", (b"", b""), (out, error))
    else:
        compare(f"the program, of {data.hex()[:400]}", (b"", reason), (out, said[1].decode()))
    if said[2] and reason != "Trailing":
        compare("the number of the program", number, int(said[2]))
    return {"verdict": "broken", "reason": reason, member: number}


def expected_of(stream, numbers, options, folder):
    """The lines of a run, by the program."""
    breaks = [break_of(message, numbers[0]) for message in stream]
    wholes = whole_objects([message for message, why in zip(stream, breaks) if why is None], options, folder)
    for number, (message, why) in enumerate(zip(stream, breaks)):
        about = next(wholes) if why is None else broken_object(message, *why, numbers[0])
        yield {"message": number, **about}


# ------------------------------------------------------------------ the readers

def from_c(folder, link):
    if missing("the verdicts in C", "cc"):
        return None
    compare("cc say.c", ("", 0), run(["cc", "-std=c99", *STRICT, HERE / "say.c", *link("capvet"), "-o", folder / "say-c"]))
    return [folder / "say-c"]


def from_cplusplus(folder, link):
    if missing("the verdicts in C++", "c++", "libcapnp"):
        return None
    built = run(["c++", "-std=c++17", *STRICT, HERE / "say.cpp", *link("capvet-kj"), "-o", folder / "say-cpp"])
    compare("c++ say.cpp", ("", 0), built)
    return [folder / "say-cpp"]


def from_rust(folder, _):
    if missing("the verdicts in Rust", "cargo", "rustc", "crates"):
        return None
    variables, copy = cargo.environment(folder), cargo.copied(folder / "copy", "rust", "tests/bindings/languages")
    built = run(["cargo", "build", *cargo.CARGO, "--release"], cwd=copy / "tests/bindings/languages/rust", env=variables)
    compare("cargo build of the reader", ("", 0), built)
    return [folder / "target/release/say"]


def from_go(folder, _):
    if missing("the verdicts in Go", "go", "cc"):
        return None
    cache = run(["go", "env", "GOCACHE"])[0].strip()
    variables = {**os.environ, "HOME": str(folder), "GOCACHE": cache, "GOPROXY": "off", "GOFLAGS": "", "GOWORK": "off"}
    for part in ("bindings/go", "tests/bindings/languages/go"):
        shutil.copytree(TOP / part, folder / "go" / part)
    built = run(["go", "build", "-o", folder / "say-go", "."], cwd=folder / "go/tests/bindings/languages/go", env=variables)
    compare("go build of the reader", ("", 0), built)
    return [folder / "say-go"]


def from_python(folder, _):
    if missing("the verdicts in Python", "wheel", "cc"):
        return None
    wheel = wheel_of(folder / "wheels")
    python = fresh_python(needs.python_with(needs.MODULES["wheel"][0]), folder / "fresh")
    words = ["-m", "pip", "--disable-pip-version-check", "install", "-q", "--no-index", wheel]
    compare("pip install of the wheel", ("", 0), run([python, *words], cwd=folder))
    return [python, HERE / "say.py"]


def from_javascript(folder, _):
    # (its module is built of the proved crates alone)
    if missing("the verdicts in JavaScript", "node", "wasm-opt", "proved-crates"):
        return None
    compare("the module is built", 0, run([sys.executable, TOP / "packaging/targets.py", "wasm"])[1])
    package = ["node", TOP / "bindings/js/build.mjs", TOP / "build/capvet.wasm", folder / "js/node_modules/capvet"]
    compare("build.mjs", ("", 0), run(package))
    shutil.copy(HERE / "say.mjs", folder / "js")
    return ["node", folder / "js/say.mjs"]


LANGUAGES = {"C": from_c, "C++": from_cplusplus, "Rust": from_rust, "Go": from_go, "Python": from_python, "JavaScript": from_javascript}


def line_of(about):
    return json.dumps(about, separators=(",", ":"))


def compared(commands, folder):
    """Each run of each language, beside the program."""
    stream, found, differing, told = list(messages(MANY)), Counter(), Counter(), Counter()
    part = len(stream) // len(OPTIONS)
    # (a reader that wasn't built has failed already)
    commands = {language: command for language, command in commands.items() if shutil.which(command[0])}
    for index, (numbers, options) in enumerate(OPTIONS):
        some = stream[index * part:(index + 1) * part]
        expected = list(expected_of(some, numbers, options.split(), folder))
        found.update(about.get("reason", "accepted") for about in expected)
        differing.update(about["difference"]["reason"] for about in expected if "difference" in about)
        (folder / "messages").write_bytes(with_lengths(some))
        for language, command in commands.items():
            out, error, status = outputs([*command, folder / "messages", *map(str, numbers)], timeout=3600)
            name = f"{language}, {options}"
            compare(f"{name}, the end", (b"", 0), (error, status))
            lines = [line_of(about) for about in expected]
            got = out.decode().splitlines()
            differ(name, lines, got)
            told[language] += sum(one == other for one, other in zip(lines, got))
    for language in commands:
        print(f"{language}: {told[language]} of {len(stream)} messages are as the program says, {len(stream) - told[language]} differ")
    for verdict, least in LEAST.items():
        expect(f"{verdict} among the messages", found[verdict] * 2_000 >= least * MANY, found)
    for reason, least in LEAST_DIFFERENCES.items():
        expect(f"{reason} among the first differences", differing[reason] * 2_000 >= least * MANY, differing)
    for counted in (found, differing):
        print(", ".join(f"{name} {count}" for name, count in sorted(counted.items())))


def main():
    with tempfile.TemporaryDirectory() as scratch:
        folder = Path(scratch)
        if missing("what each language says", "pkg-config"):
            return ended()
        compare("make install", ("", 0), make("install", scratch, f"PREFIX={folder / 'x'}"))
        os.environ["PKG_CONFIG_PATH"] = str(folder / "x/lib/pkgconfig")

        def link(package):
            return run(["pkg-config", "--cflags", "--libs", package])[0].split()

        commands = {language: command for language, build in LANGUAGES.items() if (command := build(folder, link)) is not None}
        compared(commands, folder)
    return ended()


if __name__ == "__main__":
    sys.exit(main())
