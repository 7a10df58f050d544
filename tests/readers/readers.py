#!/usr/bin/env python3
"""Reads messages by Cap'n Proto's own C++ library and by the Rust crate `capnp`, beside the built program.

    readers.py PROGRAM [--full] [--long]

A message is strict if it is accepted, has at most 511 segments, and none of its pointers is of three constructs that a
reader fails on. Messages of fixed seeds are changed: 20,000, or 200,000 with --full. With --long they go on until 1,000,000 strict
ones were read. Each strict one is read under the limits that the guide gives for a reader. No reading may fail. The readers have to
find the bytes, the pointers and the capabilities that tests/shared/model.py finds, and to make the canonical copy that the program makes.

Messages of the C++ library's own encoder, and those under examples/, have to be strict and unamplified. What is not strict
has to be refused by the option --strict, with the reason, the place and the count of the model. The option --unamplified has
to do what the word limit of each message by itself does.

The messages under examples/readers/ are read as libcapnp reads them, by the types that a schema may have (tests/readers/samples.cpp,
and `capnp decode`). So are a list of each encoding, and a root that is a list. `isCanonical` of libcapnp accepts several segments
if the second is empty, and `check` refuses them. Within its default limits libcapnp reads six million words of the 44 that README.md
speaks of. It counts them again when they are read again, and then throws.

What isn't installed is said in a line of its own. The last line is 'N passed, M failed', and the status is 1 if a case failed.
"""
import itertools
import random
import re
import struct
import sys
import tempfile
from collections import Counter, defaultdict
from dataclasses import dataclass
from pathlib import Path

sys.path[1:1] = map(str, Path(__file__).resolve().parents[1].iterdir())

import amount
import cargo
import model
import trees
from amount import cases
from harness import PROGRAM, TOP, ended, expect, framed, outputs, over_file, run
from made import made_up
from model import SLACK
from needs import missing

HERE = TOP / "tests/readers"
MANY = cases(20_000, full=200_000)  # changed messages
STRICT = 1_000_000 if amount.has("--long") else 0  # the fewest strict ones among them
BATCH = 50_000
CONTENTS = 30
# The limit of the charge, which a reader goes through word by word.
WORDS = 65536
# The smallest message of each construct, how many pointers are looked at, and the readers that fail on it or read it wrong.
# The place that is named is 0:0 for each.
CONSTRUCTS = {
    "NullPad": ("0a00000000000000 0000000000000000", 1, ("C++", "Rust")),
    "EmptySegment": ("0600000001000000 | 0200000002000000 0000000000000000 | ", 1, ("C++",)),
    "CapabilityPad": ("0a00000000000000 0300000000000000", 1, ("C++", "Rust")),
    "ManySegments": ("0000000000000000" + 511 * " | ", 0, ("C++", "Rust")),
}
# The messages under examples/readers/, with what libcapnp reads at the pointer of a list, by the type of the schema. The last is
# what `capnp decode` says, or its beginning.
SAMPLES = {
    "people-as-texts": ("p0", {"structs": "(0 'A') (0 'B')", "texts": "'A' 'B'"}, """(people = [(id = 0, name = "A","""),
    "people-as-numbers": ("p0", {"structs": "(7 '') (9 '')", "numbers": "7 9"}, "(people = [(id = 7, job ="),
    "people-without-names": ("p0", {"structs": "(7 '') (9 '')", "numbers": "7 9"}, "(people = [(id = 7, job ="),
    "tags-as-structs": ("p2", {"structs": "(0 'A') (0 'B')", "texts": "'A' 'B'"}, """(tags = ["A", "B"], revision = 0)\n"""),
}
# Pointers at 0 of the root: to a struct, and to a list of two elements of each encoding. They have the words of the pointer and of
# its target, and what libcapnp reads there. docs/format.md has the same as a table.
TEXTS = "0500000012000000 0500000012000000 4100000000000000 4200000000000000"
OBJECTS = {
    "a struct": ("0000000001000000 0700000000000000", {"struct": "(7 '')"}),
    "a list of no bits": ("0100000010000000", {"structs": "(0 '') (0 '')"}),
    "a list of bits": ("0100000011000000 0300000000000000", {}),
    "a list of 1 byte": ("0100000012000000 0709000000000000", {"structs": "(7 '') (9 '')"}),
    "a list of 2 bytes": ("0100000013000000 0700090000000000", {"structs": "(7 '') (9 '')"}),
    "a list of 4 bytes": ("0100000014000000 0700000009000000", {"structs": "(7 '') (9 '')", "numbers": "7 9"}),
    "a list of 8 bytes": ("0100000015000000 0700000000000000 0900000000000000", {"structs": "(7 '') (9 '')", "numbers": "7 9"}),
    "a list of pointers": (f"0100000016000000 {TEXTS}", {"structs": "(0 'A') (0 'B')", "texts": "'A' 'B'"}),
    "a list of structs of pointers": (f"0100000017000000 0800000000000100 {TEXTS}", {"structs": "(0 'A') (0 'B')", "texts": "'A' 'B'"}),
    "a list of structs of words": ("0100000017000000 0800000001000000 0700000000000000 0900000000000000",
                         {"structs": "(7 '') (9 '')", "numbers": "7 9"}),
}
TYPES = ("struct", "structs", "texts", "numbers")


def no_faults(name, faults):
    """A case, which fails if there are faults. The first few are shown."""
    faults = list(faults)
    expect(name, not faults, f"{len(faults)} times", *faults[:3])


# Messages, as lists of lists of words

def near(word, offset):
    """The struct or list pointer with another offset."""
    return word & ~0xFFFFFFFC | (offset & 0x3FFFFFFF) << 2


def far(segment, at, two_words=False):
    return 2 | two_words << 2 | at << 3 | segment << 32


class Tree:
    """What is to be found in an accepted message, by tests/shared/model.py: the place of each pointer in preorder, how many of them are
    capabilities, the sum of all bytes, and the first pointer that isn't strict."""

    def __init__(self, segments):
        self.segments = segments
        tree = model.vetted(segments, 1 << 28, 256)
        self.places, self.caps, self.lax = [place for place, _ in tree.steps], tree.capabilities, None
        self.sum = sum(sum(own_bytes(segments, found)) for _, found in tree.steps)
        try:
            model.strictly(segments, tree)
        except model.Refused as fault:
            form, segment, at, pointers = fault.args
            self.lax = f"{'ManySegments' if form == 'MANY_SEGMENTS' else form} at {segment}:{at} pointers {pointers}"


def own_bytes(segments, found):
    """The bytes of the values of an object: the data of structs, and the elements of other lists."""
    words, count = segments[found.segment][found.start:found.start + found.words], None
    if found.kind == "struct":
        words = words[:found.sizes[0]]
    elif found.kind == "structs":
        elements, data, pointers = found.sizes
        starts = range(1, 1 + elements * (data + pointers), data + pointers) if data else ()
        words = [word for start in starts for word in words[start:start + data]]
    else:
        count = (model.ELEMENT_BITS[found.sizes[0]] * found.sizes[1] + 7) // 8 if found.kind == "list" else 0
    return struct.pack(f"<{len(words)}Q", *words)[:count]


# Changes of a message. Each is at one of its pointers.

def turn_bit(segments, segment, at, chance):
    words = segments[segment]
    at = chance.choice((at, chance.randrange(len(words))))
    words[at] ^= 1 << chance.randrange(64)


def take_other_word(segments, segment, at, chance):
    other = segments[chance.randrange(len(segments))]
    if other:
        segments[segment][at] = chance.choice(other)


def make_up(segments, segment, at, chance):
    sizes = chance.choice((chance.randrange(6) | chance.randrange(6) << 16, chance.randrange(8) | chance.randrange(40) << 3))
    segments[segment][at] = chance.randrange(4) | (chance.randrange(-4, 40) & 0x3FFFFFFF) << 2 | sizes << 32


def capability(segments, segment, at, chance):
    segments[segment][at] = 3 | chance.choice((0, 1, 0xFFFFFFFF)) << 32


def one_pad(segments, segment, at, chance):
    """A landing pad at the end of the segment: null, a capability, or the pointer, which leads to the same place."""
    words, pad = segments[segment], len(segments[segment])
    word = words[at]
    moved = near(word, trees.offset(word) + at - pad) if word & 3 < 2 and word else word
    words[at] = far(segment, pad)
    words.append(chance.choice((moved, moved, moved, 0, 3)))


def two_pads(segments, segment, at, chance):
    """A landing pad of two words at the end of any segment. It leads to the same place, or to a place with a tag of zeros."""
    word, start = segments[segment][at], at + 1 + trees.offset(segments[segment][at])
    to = chance.randrange(len(segments))
    segments[segment][at] = far(to, len(segments[to]), True)
    segments[to] += [far(segment, start & 0x1FFFFFFF), chance.choice((near(word, 0), near(word, 0), near(word, 0), 0))]


def to_empty_segment(segments, segment, at, chance):
    """A landing pad of two words to an object without words in a segment without words."""
    if len(segments) < 512:
        tag = chance.choice((0, 0, 1 | chance.randrange(8) << 32, 1 | chance.randrange(100) << 35))
        segments[segment][at] = far(segment, len(segments[segment]), True)
        segments[segment] += [far(len(segments), chance.choice((0, 0, 0, 1))), tag]
        segments.append([])


def cut(segments, segment, at, chance):
    words = segments[chance.randrange(len(segments))]
    del words[len(words) - chance.randrange(1, 3):]


def add_segments(segments, segment, at, chance):
    if chance.randrange(20) == 0:
        segments += [[] for _ in range(chance.choice((511, 512)) - len(segments))]
    elif len(segments) < 512:
        segments.append([0] * chance.randrange(2))


CHANGES = (turn_bit, turn_bit, take_other_word, make_up, capability, one_pad, one_pad, two_pads, to_empty_segment, cut,
           add_segments)


def changed(tree, chance):
    segments = [list(words) for words in tree.segments]
    for _ in range(chance.choice((0, 1, 1, 1, 2, 3))):
        segment, at = chance.choice(tree.places)
        if at < len(segments[segment]):
            chance.choice(CHANGES)(segments, segment, at, chance)
    return segments


# Programs, and what they find

def build(folder):
    """The programs over the libraries that are installed, by name. A line says what isn't."""
    programs = {}
    if not missing("strict messages by libcapnp", "c++", "pkg-config", "libcapnp"):
        flags = run(["pkg-config", "--cflags", "--libs", "capnp-rpc"])[0].split()
        for name, file in (("C++", "read"), ("encoder", "encode"), ("samples", "samples")):
            command = ["c++", "-std=c++17", "-O2", "-Wall", "-Wextra", HERE / f"{file}.cpp", "-o", folder / file, *flags]
            no_faults(f"{file}.cpp", run(command)[0].splitlines())
            programs[name] = folder / file
    if not missing("strict messages by the crate capnp", "cargo", "rustc", "crate-capnp"):
        cargo.copied(folder / "copy", "tests/readers")
        command = ["cargo", "build", "--quiet", "--release", "--offline"]
        text, status = run(command, cwd=folder / "copy/tests/readers/rust", env=cargo.environment(folder))
        no_faults("cargo build of the reader", text.splitlines() if status else [])
        programs["Rust"] = folder / "target/release/read"
    return programs


@dataclass
class Accepted:
    """An accepted message: its bytes, its tree by the model, and its charge and depth by the program."""
    message: bytes
    tree: Tree
    charge: int
    depth: int

    def words(self):
        return sum(map(len, self.tree.segments))

    def for_reader(self):
        """The message after the traversal limit and the nesting limit that serve a reader of any strict message."""
        traversal, nesting = max(self.words(), 3 * self.charge + 2), 2 * self.depth + 1
        return struct.pack("<QII", traversal, nesting, len(self.message)) + self.message


class Tests:
    def __init__(self, programs):
        self.encoder = programs.pop("encoder", None)
        self.samples = programs.pop("samples", None)
        self.readers = programs
        self.counts = Counter()

    def lines(self, command, stream):
        """The lines that a command writes for a file of these bytes."""
        return over_file(command, stream)[0].decode(errors="replace").splitlines()

    def vet(self, stream, *options):
        return self.lines([PROGRAM, "vet", "--words", str(WORDS), *options], stream)

    def copies(self, stream):
        """The words of the canonical copies of messages that have one, in hexadecimal."""
        copies = over_file([PROGRAM, "canon", "--words", str(WORDS)], stream)[0]
        at = 0
        while at < len(copies):
            end = at + 8 + 8 * struct.unpack_from("<I", copies, at + 4)[0]
            yield copies[at + 8:end].hex()
            at = end

    def accepted(self, name, messages):
        """Those of the messages that are accepted. The model and the program have to agree about them."""
        messages = [(segments, framed(*segments)) for segments in messages]
        stream = b"".join(message for _, message in messages)
        plain, accepted, faults = self.vet(stream), [], []
        no_faults(f"{name}: a verdict for each", [len(plain)] if len(plain) != len(messages) else [])
        verdicts = list(plain)
        for number, ((segments, message), verdict) in enumerate(zip(messages, plain)):
            _, _, word, *numbers = verdict.split()
            if word == "accepted":
                charge, depth, pointers, caps = map(int, numbers[1::2])
                tree = Tree(segments)
                accepted.append(Accepted(message, tree, charge, depth))
                if (pointers, caps) != (len(tree.places), tree.caps):
                    faults.append(f"{message.hex()}: {verdict}, and not {len(tree.places)} and {tree.caps}")
                if tree.lax:
                    verdicts[number] = f"message {number}: refused {tree.lax}"
        no_faults(f"{name}: the counts of the model", faults)
        bounded = self.bounded(messages)
        self.counts["amplified"] += sum(" accepted " in line and line != bounded[n] for n, line in enumerate(plain))
        # (where both apply, the word limit is what is named)
        both = [strict if " accepted " in line else line for strict, line in zip(verdicts, bounded)]
        for options, lines in (("--strict", verdicts), ("--unamplified", bounded), ("--strict --unamplified", both)):
            got = self.vet(stream, *options.split())
            no_faults(f"{name}: verdicts by {options}", [pair for pair in itertools.zip_longest(got, lines) if pair[0] != pair[1]])
        return accepted

    def bounded(self, messages):
        """The verdicts of messages, each under the word limit of an unamplified message, by runs with that limit."""
        by_limit, verdicts = defaultdict(list), {}
        for number, (segments, message) in enumerate(messages):
            by_limit[min(WORDS, sum(map(len, segments)) + SLACK)].append((number, message))
        for words, group in by_limit.items():
            lines = self.lines([PROGRAM, "vet", "--words", str(words)], b"".join(message for _, message in group))
            verdicts |= {number: f"message {number}:{line.partition(':')[2]}" for (number, _), line in zip(group, lines)}
        return [verdicts.get(number, "") for number in range(len(messages))]

    def read(self, accepted):
        """The lines that readers should write for accepted messages, and for each reader those that it writes."""
        copies = self.copies(b"".join(it.message for it in accepted if it.tree.caps == 0))
        right = [f"sum {it.tree.sum} pointers {len(it.tree.places)} caps {it.tree.caps}"
                 + ("" if it.tree.caps else f" copy {next(copies, None)}") for it in accepted]
        stream = b"".join(it.for_reader() for it in accepted)
        return right, {name: self.lines([reader], stream) for name, reader in self.readers.items()}

    def compare(self, name, messages):
        """Vets messages, reads the strict ones, and gives them."""
        accepted = self.accepted(name, messages)
        strict = [it for it in accepted if not it.tree.lax]
        self.counts["messages"] += len(messages)
        self.counts.update(it.tree.lax.split()[0] if it.tree.lax else "strict" for it in accepted)
        right, lines = self.read(strict)
        for reader, got in lines.items():
            no_faults(f"{name}: a line of {reader} for each", [len(got)] if len(got) != len(strict) else [])
            no_faults(f"{name}: {reader} reads strict messages", [
                f"{it.message.hex()}\n    {line}\n    {expected}"
                for it, line, expected in zip(strict, got, right) if line != expected])
        return strict

    def constructs(self):
        """Each construct alone: its name, place and count. `compare` would notice what readers make of it."""
        for name, (text, pointers, failing) in CONSTRUCTS.items():
            accepted = self.accepted(name, [next(trees.messages(framed(text)))])
            no_faults(f"{name}: accepted, and not strict", {it.tree.lax for it in accepted} ^ {f"{name} at 0:0 pointers {pointers}"})
            right, lines = self.read(accepted)
            for reader, got in lines.items():
                no_faults(f"{name}: {reader} reads it", [got] if (got == right) == (reader in failing) else [])

    def of_samples(self):
        """What libcapnp reads where the schema has another kind of list."""
        folder = TOP / "examples/readers"
        no_faults("the samples", {path.stem for path in folder.iterdir()} ^ {*SAMPLES, "empty-segment"})
        self.accepted("the samples", [next(trees.messages(path.read_bytes())) for path in sorted(folder.iterdir())])
        if self.samples is None:
            return
        print(f"readers: the samples are read by libcapnp {run(['pkg-config', '--modversion', 'capnp'])[0].strip()}")
        decodes = not missing("the samples by capnp decode", "capnp")
        for name, (pointer, readings, text) in SAMPLES.items():
            message = (folder / f"{name}.bin").read_bytes()
            self.reads(name, message, [f"{pointer} {kind} {readings.get(kind, 'throws')}" for kind in TYPES])
            if decodes:
                got = outputs(["capnp", "decode", "--short", TOP / "examples/contacts.capnp", "Book"], message)[0].decode()
                no_faults(f"capnp decode of {name}", [] if got.startswith(text) else [got])
        for name, (found, readings) in OBJECTS.items():
            self.reads(name, framed(f"0000000000000100 {found}"),
                       [f"p0 {kind} {readings.get(kind, 'throws')}" for kind in TYPES])
        self.reads("a list as the root", framed("0100000007000000 0000000000000000"), ["root throws"])
        self.canonical_messages((folder / "empty-segment.bin").read_bytes())
        self.amplified()

    def amplified(self):
        """Each of 21 structs leads to the next one by two pointers. docs/guide.md writes the same message."""
        link, last = "0400000000000200 0000000000000200", "0400000001000000 0000000001000000 0700000000000000"
        message = framed(" ".join(["0000000000000200", *[link] * 20, last]))
        command = re.search(r"^\$ (\{ printf .*\}) > amplified$", (TOP / "docs/guide.md").read_text(), re.M)[1]
        got = (outputs(["bash", "-c", command])[0], self.lines([self.samples, "--walk"], message), self.lines([PROGRAM, "vet"], message))
        walks = ["walked 6291454 of 44", "again throws"]
        expected = (message, walks, ["message 0: accepted charge 6291454 depth 22 pointers 4194303 caps 0"])
        no_faults("the words that libcapnp reads of 44", [] if got == expected else [got])

    def canonical_messages(self, empty):
        """Which messages of several segments libcapnp takes for canonical. One has an empty second segment."""
        many = (TOP / "examples/contacts-many-segments.bin").read_bytes()
        words = (TOP / "examples/canonical/contacts.bin").read_bytes().hex()
        no_faults("empty-segment.bin", [] if empty == framed(f"{words} | ") else [empty.hex()])
        for name, message, theirs, ours in (
            ("one segment", framed(words), "yes", "canonical"), ("an empty second segment", empty, "yes", "not canonical"),
            ("an empty second segment and a third", framed(f"{words} |  | 0000000000000000"), "yes", "not canonical"),
            ("a second segment of a word", framed(f"{words} | 0000000000000000"), "no", "not canonical"),
            ("a second segment and an empty third", framed(f"{words} | 0000000000000000 | "), "no", "not canonical"),
            ("many segments", many, "no", "not canonical")):
            got = self.lines([self.samples], message)[0], *self.lines([PROGRAM, "check"], message)
            expected = f"canonical {theirs}", f"message 0: {ours}"
            no_faults(f"isCanonical and check of {name}", [] if got == expected else [got, expected])

    def reads(self, name, message, expected):
        """libcapnp reads a message so."""
        got = self.lines([self.samples], message)[1:]
        no_faults(f"{name} by libcapnp", [] if got == expected else [got, expected])

    def of_encoders(self):
        """The messages under examples/ but the cycle, and those of the library's encoder. All are strict and unamplified."""
        files = [path for path in sorted((TOP / "examples").glob("*.bin")) if path.name != "cycle.bin"]
        messages = [message for path in files for message in trees.messages(path.read_bytes())]
        if self.encoder:
            encoded = list(trees.messages(outputs([self.encoder, str(CONTENTS)])[0]))
            no_faults("messages of the encoder", [len(encoded)] if len(encoded) < 200 else [])
            no_faults("their segments", set(range(1, 21)) ^ {len(segments) for segments in encoded})
            messages += encoded
        strict = self.compare("messages of encoders", messages)
        no_faults("messages of encoders that aren't strict", [len(strict)] if len(strict) != len(messages) else [])
        no_faults("messages of encoders that are amplified", (it.message.hex() for it in strict if it.charge > it.words() + SLACK))
        return [it.tree for it in strict]

    def many(self, bases):
        """Changed messages, most of them small, and made-up ones of few words. Each construct occurs, and strict ones do."""
        self.counts.clear()
        small = [tree for tree in bases if sum(map(len, tree.segments)) < 130]
        for batch in itertools.count(0, BATCH):
            if batch >= MANY and self.counts["strict"] >= STRICT:
                break
            chance = random.Random(batch)
            messages = [next(trees.messages(made_up(chance))) if chance.randrange(4) == 0
                        else changed(chance.choice(small if chance.randrange(4) else bases), chance)
                        for _ in range(min(BATCH, MANY - batch) if batch < MANY else BATCH)]
            self.compare(f"messages {batch} to {batch + len(messages) - 1}", messages)
        made = self.counts["messages"]
        for name in CONSTRUCTS:
            no_faults(f"{name} occurs", [self.counts[name]] if 2000 * self.counts[name] < made else [])
        no_faults("strict messages occur", [self.counts["strict"]] if 4 * self.counts["strict"] < made else [])
        no_faults("amplified messages occur", [self.counts["amplified"]] if 2000 * self.counts["amplified"] < made else [])
        print(f"readers: {dict(self.counts)}, the strict ones read by {', '.join(self.readers) or 'none'}")


def main():
    with tempfile.TemporaryDirectory() as folder:
        tests = Tests(build(Path(folder)))
        tests.constructs()
        tests.of_samples()
        tests.many(tests.of_encoders())
    return ended()


if __name__ == "__main__":
    sys.exit(main())
