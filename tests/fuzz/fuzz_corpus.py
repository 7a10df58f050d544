#!/usr/bin/env python3
"""The inputs that fuzzing begins with: the corpus.

    fuzz_corpus.py FOLDER     writes them into a folder, a file each

An input is 16 bytes of arguments, which are 0 here, and then a message or a stream: see tests/fuzz/fuzz.h. Made here are the
samples, the least message for each reason and for each set of forms that a message of the tables has, and packed texts. Those that
fuzzing found are in tests/fuzz/found.zip.
"""
import hashlib
import struct
import sys
import zipfile
from pathlib import Path

sys.path[1:1] = map(str, Path(__file__).resolve().parents[1].iterdir())

import messages
import model
import strict
import tables
from harness import TOP, framed
from made import samples

FOUND = TOP / "tests/fuzz/found.zip"
ARGUMENTS = bytes(16)
# The words of a message that is larger than 8 KiB.
LARGE = 1100
# Flags and kinds of runs of a guard: see guard/fuzz_run_test.go.
RUNS = (10, 0), (12, 8), (14, 16), (78, 1), (76, 2), (74, 0), (26, 24), (8, 25), (46, 3), (15, 24)


def tried():
    """The messages of the tables."""
    yield from messages.each()
    yield from (framed(words) for words, _ in strict.CASES)
    yield from (bytes.fromhex(digits) for digits, _ in tables.USED_TWICE)
    yield from tables.two_lists()


def features(message):
    """The answer for a message, and the forms of its pointers: kinds, elements, and landing pads."""
    limits = model.Limits()
    parts, fault = model.unframed(message, limits)
    if parts is None:
        return fault[0], frozenset()
    try:
        tree = model.vetted(parts, limits.charge, limits.depth)
        model.strictly(parts, tree)
        model.exclusively(tree)
    except model.Refused as refused:
        return refused.args[0], frozenset()
    pads = {place: len(found.used) - found.words for place, found in tree.steps}
    forms = {(found.kind, found.sizes[0] if found.kind == "list" else 0, pads[place]) for place, found in tree.steps}
    return "OK", frozenset(forms)


def least():
    """The least message for each answer and each set of forms, by a name."""
    found = {}
    for message in tried():
        key = features(message)
        if key not in found or len(message) < len(found[key]):
            found[key] = message
    by_name = {}
    for (answer, _), message in sorted(found.items(), key=lambda it: (it[0][0], len(it[1]), it[1])):
        number = sum(name.startswith(f"{answer.lower()}-") for name in by_name)
        by_name[f"{answer.lower()}-{number}"] = message
    return by_name


def packed_word(word):
    """A word as packing writes it, if it is neither zero nor without a zero byte."""
    data = word.to_bytes(8, "little")
    return bytes([sum((byte > 0) << at for at, byte in enumerate(data))]) + bytes(byte for byte in data if byte)


def packed_zeros(count):
    """So many words of zeros, packed."""
    return b"".join(bytes([0, min(count - done, 256) - 1]) for done in range(0, count, 256))


def packed_list(words):
    """A packed message of so many words: a list of zeros after its pointer."""
    return packed_word(words << 32) + packed_word(1 | 5 << 32 | words - 1 << 35) + packed_zeros(words - 1)


def argued(flags, kind, number):
    """Arguments: flags, a kind of test, and a seed that follows from a number."""
    return struct.pack("<BBHIII", flags, kind << 3 | number % 8, 0, 0, 0, number * 0x9E3779B1 & 0xFFFFFFFF)


def each_way():
    """For each kind of test: the table of a large message and the start of its segments, and a packed stream of large messages."""
    cut = struct.pack("<IIQ", 0, LARGE, 1 | 5 << 32 | LARGE - 1 << 35)
    packed = packed_list(9000) + packed_list(9001) + packed_list(3)
    for kind in range(32):
        yield f"cut-short-{kind}", argued(0, kind, kind) + cut
        yield f"packed-large-{kind}", argued(0, kind, kind + 32) + packed
    # (each flag of a guard, with the headers that come before a stream)
    stream = (TOP / "examples/stream-of-four.bin").read_bytes()
    for number, flags in enumerate((1, 2, 4, 8, 16, 32, 33, 96, 97, 40, 48, 112)):
        yield f"flags-{number}", argued(flags, 5 * number % 32, 3 * number + 64) + stream
    # (TLS and metrics of a guard, in each way to end it)
    for number, (flags, kind) in enumerate(RUNS):
        yield f"run-{number}", argued(flags, kind, 3 * number + 128) + stream


def made():
    """The inputs that are made here, by their names."""
    found = {f"sample-{number}": message for number, message in enumerate(dict.fromkeys(samples()))}
    found |= {f"sample-{path.stem}{path.suffix}": path.read_bytes() for path in sorted((TOP / "examples").glob("*.packed"))}
    found |= {f"sample-{name}": (TOP / "examples" / f"{name}.bin").read_bytes() for name in ("stream-of-four", "shared", "cycle")}
    found |= least()
    found |= {f"packed-{number}": tables.word(row[1]) for number, row in enumerate(tables.SPELLINGS)}
    # (more than the streams for libcapnp hold at once: several messages, and one, accepted and refused)
    found["large-stream"] = b"".join(samples()[:3]) + (TOP / "examples/stream-of-four.bin").read_bytes()
    for name, root in (("accepted", 1 | 5 << 32 | LARGE - 1 << 35), ("refused", 2 << 2 | LARGE << 32)):
        found[f"large-{name}"] = struct.pack("<IIQ", 0, LARGE, root) + bytes(8 * (LARGE - 1)) + samples()[0]
    # (a packed message for a buffer of more than 1 MiB, and more words than the JavaScript module keeps)
    found["packed-huge"] = packed_list(200000) + packed_list(3)
    found["packed-zeros"] = packed_zeros((1 << 21) + 1)
    # (a list of bytes that is a text, one whose characters are escaped, and one that isn't valid UTF-8)
    for name, text in (("text", b"\xc2\xa7"), ("text-escaped", b"\"\n"), ("text-wrong", b"\xff\xc2")):
        found[name] = struct.pack("<IIQ8s", 0, 2, 1 | 2 << 32 | 3 << 35, text)
    # (a struct of null pointers, more than bindings find at once)
    found["pointers"] = struct.pack("<IIQ", 0, 41, 40 << 48) + bytes(8 * 40)
    found["segments-511"] = strict.many(511)
    found["segments-512"] = strict.many(512)
    found["empty"] = b""
    return {name: ARGUMENTS + data for name, data in found.items()} | dict(each_way())


def found():
    """The inputs that fuzzing found, by their names."""
    with zipfile.ZipFile(FOUND) as archive:
        return {name: archive.read(name) for name in archive.namelist()}


def add(inputs):
    """Adds inputs to those that were found. The same inputs give the same archive."""
    whole = found() | {f"found-{hashlib.sha1(data).hexdigest()[:10]}": data for data in inputs}
    with zipfile.ZipFile(FOUND, "w", zipfile.ZIP_DEFLATED) as archive:
        for name, data in sorted(whole.items()):
            archive.writestr(zipfile.ZipInfo(name), data, zipfile.ZIP_DEFLATED)


def write(folder):
    """Writes the corpus into a new folder."""
    folder.mkdir(parents=True)
    for name, data in (found() | made()).items():
        (folder / name).write_bytes(data)


if __name__ == "__main__":
    write(Path(sys.argv[1]))
