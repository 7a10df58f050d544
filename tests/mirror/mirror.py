#!/usr/bin/env python3
"""Tests the definitions in Coq, of mirror/coq, and compares the reference vetter that is proved there with the program.

    mirror.py [--long] [PROGRAM..]

- The files of mirror/coq/definitions are what generate.py makes of the definitions and laws, to the byte. It refuses what it doesn't
  know, and with --check it finds a change of one number in each file of definitions.
- No file there leaves a proof out, adds an axiom, or turns a check off. Each clause of a law of crates/cap_laws has a theorem there.
- With --full and with --long Coq checks all proofs. The reference vetter, which is extracted from them, writes of each sample and of
  5,000 made messages what each PROGRAM writes, under several limits. Its command `difference` writes what `explain --canonical` has
  at the start of lines, and says `canonical` exactly of the messages that its `check` finds canonical.
- With --long coqchk checks the compiled proofs too, and names no axiom. No proof depends on a name that Coq made up. There are 80,000
  made messages. All messages of two or three words out of 33 are compared too. So are extreme messages: chains as deep as a limit,
  cycles, large counts of empty elements, and structs that many paths reach.

The last line is 'N passed, M failed', and the status is 1 where a case failed.
"""
import collections
import itertools
import os
import random
import re
import resource
import shutil
import sys
import tempfile
from concurrent.futures import ThreadPoolExecutor
from pathlib import Path

sys.path[1:1] = map(str, Path(__file__).resolve().parents[1].iterdir())

import amount
from harness import COUNTING, PROGRAM, TOP, compare, ended, expect, framed, outputs, run
from made import changed, made_up, samples, shared
from needs import missing

LONG = amount.has("--long")
HERE = TOP / "mirror/coq"
# The crates whose definitions are in Coq.
CRATES = ("cap_spec", "cap_difference", "cap_laws")
CORES = len(os.sched_getaffinity(0))
# Texts of a file of definitions that generate.py has to refuse, each by what it says.
REFUSED = (
    ("abbrev pub f : ℕ → ℕ\nf x = x & 1\n", "no token at '& 1'"),
    ("abbrev pub f : ℕ → ℕ\nf x = (x + 1\n", ") was expected, and not ''"),
    ("abbrev pub f : ℕ → ℕ\ng x = x\n", "an equation of g, which has no type"),
    ("abbrev pub f : ℕ → ℕ\nf x = x\nf y z = y\n", "f has equations of different lengths"),
    ("abbrev pub f : ℕ → ℕ\nf x = x\nf x = x + 1\n", "f has an equation after one that always fits"),
    ("abbrev pub f : ℕ → ℕ\nf x = x.part\n", "the type of ('id', 'x') for .part"),
    ("pub type T = ℕ\n", "pub type T = ℕ"),
)
# What leaves out a proof in Coq, or makes a check weaker.
LEFT_OUT = re.compile(r"\b(Admitted|admit|Abort|Axioms?|Parameters?|Conjecture|give_up|bypass_check|Extract Constant|"
                      r"Unset (?:Guard|Positivity|Universe) Checking)\b")
# The limits of made messages. Heavy messages take the reference vetter long, so they are low.
WORDS, DEPTHS = (20_000, 5_000, 1_000, 100, 20, 5, 2, 0), (64, 64, 256, 5, 3, 2, 1, 0)
# Commands beside `vet` and `canon`, of which each file of messages gets one.
COMMANDS = (("dump",), ("check",), ("segments",), ("get", "/p0"), ("get", "/p1/i0/p0"), ("get", "/"), ("vet", "--strict"),
            ("vet", "--unamplified"), ("vet", "--exclusive"), ("vet", "--strict", "--unamplified", "--exclusive"), ("pack",))
# The first difference from a canonical copy, by the reference vetter and by a program.
DIFFERENCE, EXPLAINED = ("difference",), ("explain", "--canonical")
# Why made messages aren't canonical: each reason at least once, and no reason.
DIFFERENCES = {"Segments", "Far", "Capability", "EmptyStruct", "Place", "Bits", "EmptyList", "Surplus", "DataZero", "PointerNull",
               "Trailing", "canonical"}
# What `vet` says of made messages: each reason at least once.
KINDS = {"accepted", "NoRoot", "Reserved", "SegmentMissing", "PadOutside", "PadIsFar", "PadNotFar", "TagKind", "TagOffset", "OutOfSegment",
         "CompositeTag", "CompositeOverrun", "DepthLimit", "WordLimit", "NullPad", "EmptySegment", "CapabilityPad", "Overlap"}


# ---- the text

def generated(folder):
    """The definitions are what the sources give, and the script that makes them refuses what it doesn't know."""
    command = [sys.executable, HERE / "generate.py"]
    compare("mirror/coq/generate.py --check", ("", 0), run([*command, "--check"]))
    for crate in CRATES:
        shutil.copytree(TOP / "crates" / crate, folder / crate, ignore=shutil.ignore_patterns("out"))
    specs, command = folder / "cap_spec/specs", [*command, "--crates", folder, "--to", folder / "to"]
    for text, said in REFUSED:
        (specs / "Added.antt").write_text(f"-- Added.\n\n{text}")
        printed, status = run(command)
        expect(f"generate.py refuses {text!r}", status == 1 and printed.startswith(f"generate.py: Added.antt: {said}"), printed)
    (specs / "Added.antt").unlink()
    compare("generate.py --to", ("", 0), run(command))
    for path in sorted([*specs.glob("*.antt"), *(folder / "cap_difference/specs").glob("*.antt")]):
        text = path.read_text()
        number = re.search(r"^(?!--|use |pub use )[^\"\n]*(?:=|≡|≤|<|\+|\^) (\d+)", text, re.M)
        if number and path.stem not in ("Lib", "SpecNames", "ReadWords", "Searching"):
            path.write_text(f"{text[:number.start(1)]}{int(number[1]) + 1}{text[number.end(1):]}")
            said, status = run([*command, "--check"])
            expect(f"generate.py --check sees a change in {path.name}", status == 1 and said.startswith(f"{path.stem}.v isn't"), said)
            path.write_text(text)


def whole():
    """No file leaves a proof out."""
    files = sorted(HERE.glob("*/*.v"))
    expect("files of Coq", len(files) > 40, len(files))
    for file in files:
        text = re.sub(r"\(\*.*?\*\)", "", file.read_text(), flags=re.S)
        compare(f"what {file.name} leaves out", [], LEFT_OUT.findall(text))


def laws():
    """Each clause of a law has a theorem of its name, and the page says how many there are."""
    sys.path.insert(0, str(HERE))
    import antt
    found = [law for path in sorted((TOP / "crates/cap_laws/src").glob("*.rt")) for law in antt.laws(path.read_text())]
    clauses = [law.name + (clause and f"_{clause}") for law in found for clause, _ in law.clauses]
    texts = "".join(path.read_text() for path in (HERE / "theories").glob("*.v"))
    proofs = re.findall(r"^Theorem (\w+) : Laws\.(\w+)\.$", texts, re.M)
    compare("theorems that aren't of the law of their name", [], [both for both in proofs if both[0] != both[1]])
    compare("clauses of laws without a proof in Coq", [], [it for it in clauses if it not in dict(proofs)])
    said = re.search(r"^All (\d+) clauses are proved here\.$", (HERE / "README.md").read_text(), re.M)
    compare("clauses of laws, by mirror/coq/README.md", str(len(clauses)), said and said[1])


# ---- the proofs

def copy(folder):
    """Copies mirror/coq, without what Coq or OCaml made there."""
    shutil.copytree(HERE, folder, ignore=shutil.ignore_patterns("*.vo*", "*.glob", "*.aux", "Makefile.coq*", ".Makefile*", "vetter*"))


def proved(folder):
    """Coq checks a copy of all files, and OCaml builds the reference vetter. The vetter, if that went well."""
    copy(folder)
    command = re.search(r"^make -C mirror/coq$", (TOP / "docs/guide.md").read_text(), re.M)[0].split()
    said, status = run([folder if word == "mirror/coq" else word for word in command] + [f"-j{CORES}"])
    expect("Coq checks all proofs", status == 0, said)
    if status == 0 and LONG:
        said, status = run(["make", "check"], cwd=folder)
        expect("coqchk names no axiom", status == 0 and re.search(r"^\* Axioms: <none>$", said, re.M), said)
        said, status = run(["make", f"-j{CORES}", "renamed"], cwd=folder)
        expect("no proof depends on a name that Coq made up", status == 0, said)
    return folder / "program/vetter" if status == 0 else None


# ---- messages

class Grown:
    """A message that is grown at random: a tree in one or several segments, with landing pads, and at times words that are used twice."""

    def __init__(self, chance):
        self.chance = chance
        self.segments = [[0], *([] for _ in range(chance.choice((0, 0, 1, 2))))]
        # (what is left to grow)
        self.left = chance.randrange(1, 14)
        self.grow(0, 0, 0)

    def take(self, segment, count):
        """Adds words to a segment: where they start."""
        start = len(self.segments[segment])
        self.segments[segment] += [0] * count
        return start

    def grow(self, segment, at, level):
        """Something that the word at this place leads to."""
        chance, kind = self.chance, self.chance.randrange(9)
        if not self.left or level > 8:
            return
        self.left -= 1
        target = chance.randrange(len(self.segments))
        if kind == 0:
            self.segments[segment][at] = 3 | chance.randrange(5) << 32
            return
        if kind < 4:
            data, pointers = chance.randrange(3), chance.randrange(4)
            start, word = self.take(target, data + pointers), data << 32 | pointers << 48
            places = range(start + data, start + data + pointers)
            self.fill(target, start, data)
        elif kind < 6:
            code, count = chance.randrange(6), chance.choice((0, 1, 2, 3, 9, 65))
            words = ((0, 1, 8, 16, 32, 64)[code] * count + 63) // 64
            start, word, places = self.take(target, words), 1 | code << 32 | count << 35, ()
            self.fill(target, start, words)
        elif kind < 7:
            count = chance.randrange(4)
            start, word = self.take(target, count), 1 | 6 << 32 | count << 35
            places = range(start, start + count)
        else:
            count, data, pointers = chance.randrange(4), chance.randrange(3), chance.randrange(3)
            size = data + pointers
            start, word = self.take(target, 1 + count * size + chance.choice((0, 0, 2))), 1 | 7 << 32
            word |= len(self.segments[target]) - start - 1 << 35
            self.segments[target][start] = count << 2 | data << 32 | pointers << 48
            places = [start + 1 + at * size + data + it for at in range(count) for it in range(pointers)]
        self.point(segment, at, target, start, word)
        for place in places:
            self.grow(target, place, level + 1)

    def fill(self, segment, start, count):
        """Random values, of which some are zero."""
        for at in range(start, start + count):
            self.segments[segment][at] = self.chance.choice((0, 1, self.chance.randrange(1 << 64)))

    def point(self, segment, at, target, start, word):
        """Writes a pointer, with its landing pad if it needs one. At times it has one that it doesn't need."""
        chance, offset = self.chance, lambda place: (start - place - 1 & 0x3FFFFFFF) << 2
        if segment == target and chance.random() < 0.85:
            self.segments[segment][at] = word | offset(at)
        elif chance.random() < 0.6:
            pad = self.take(target, 1)
            self.segments[target][pad] = word | offset(pad)
            self.segments[segment][at] = 2 | pad << 3 | target << 32
        else:
            other = chance.randrange(len(self.segments))
            pad = self.take(other, 2)
            # (at times a tag that can't be one)
            tag = word if chance.random() < 0.9 else chance.choice((2, 3, word | 4))
            self.segments[other][pad:pad + 2] = 2 | start << 3 | target << 32, tag
            self.segments[segment][at] = 6 | pad << 3 | other << 32


def made(chance):
    """A message of one of five kinds."""
    kind = chance.randrange(8)
    if kind == 0:
        return changed(chance.choice(SAMPLES), chance)
    if kind == 1:
        return shared(chance)
    if kind == 2:
        return made_up(chance)
    message = framed(*Grown(chance).segments)
    return message if kind < 6 else changed(message, chance)


# Words of small messages: each kind of pointer, with small sizes and offsets, and two that no pointer should be.
def struct_word(offset, data, pointers):
    return offset << 2 & 0xFFFFFFFF | data << 32 | pointers << 48


def list_word(offset, code, size):
    return 1 | offset << 2 & 0xFFFFFFFF | code << 32 | size << 35


def far_word(pad, segment, is_two=0):
    return 2 | is_two << 2 | pad << 3 | segment << 32


SMALL = (
    0, 1, 7 | 1 << 40, 1 << 63, 3, 3 | 5 << 32,
    *(struct_word(*it) for it in ((-1, 0, 0), (0, 1, 0), (0, 0, 1), (0, 0, 2), (1, 1, 0), (-2, 0, 1), (0, 2, 1), (2, 0, 0), (1, 0, 1),
                                  (1, 1, 1), (2, 1, 0))),
    *(list_word(*it) for it in ((0, 0, 3), (0, 1, 65), (0, 2, 8), (0, 6, 1), (0, 6, 2), (0, 7, 0), (0, 7, 1), (0, 7, 2), (-1, 7, 1))),
    *(far_word(*it) for it in ((1, 0), (2, 0), (1, 0, 1), (0, 1, 1), (0, 1), (1, 1), (0, 2))),
)


def small():
    """All messages of two or three of these words, in one segment or in two."""
    yield from (framed(it) for it in itertools.product(SMALL, repeat=3))
    yield from (framed(it[:1], it[1:]) for it in itertools.product(SMALL, repeat=3))
    yield from (framed(it) for it in itertools.product(SMALL, repeat=2))


def chain(levels, count=1):
    """Structs one below another, each with `count` pointers to the next one."""
    words = [struct_word(0, 0, count)]
    for level in range(levels - 1):
        size = count if level < levels - 2 else 0
        words += [struct_word(count - at - 1, 0, size) for at in range(count)] if size else [0] * count
    return framed(words)


def extreme():
    """Messages about the greatest limits, each with the limits for it."""
    for depth in (64, 128, 255, 256):
        yield [chain(levels) for levels in range(depth - 3, min(depth + 4, 259))], 1_000_000, depth
    for levels in (3, 8, 12, 14):
        yield [chain(levels, 2)], 1_000_000, 64
    yield [chain(levels, 2) for levels in (30, 60)], 20_000, 64
    counts = (1, 1000, 19_998, 19_999, 20_000, (1 << 29) - 1)
    yield [framed([struct_word(0, 0, 1), list_word(0, 0, count)]) for count in counts], 20_000, 64
    yield [framed([list_word(0, 7, 0), struct_word(count, 0, 0)]) for count in counts], 20_000, 64
    yield [framed([struct_word(0, 0, size), *[struct_word(-1 - at, 0, size) for at in range(size)]]) for size in range(1, 9)], 50_000, 256


def edges():
    """Messages about the limits of strict and unamplified messages, and those of wide structs."""
    yield from (framed([list_word(0, 0, count)]) for count in range(4094, 4099))
    yield from (framed(*[[0]] * count) for count in (510, 511, 512))
    yield framed([far_word(0, 1, 1)], [far_word(0, 2), struct_word(0, 0, 0)], [])
    yield framed([far_word(0, 1)], [0])
    yield framed([far_word(0, 1)], [3])
    yield framed([struct_word(0, 100, 0), *range(1, 101)])
    yield framed([struct_word(0, 0, 100), *[struct_word(-1, 0, 0)] * 100])
    yield framed([list_word(0, 7, 200), struct_word(2, 50, 50), *[*range(1, 51), *[struct_word(-1, 0, 0)] * 50] * 2])


# ---- the comparison

def written(program, words, path):
    """What a program writes of a file, and whether its status is that of a whole stream. (a function of Coq may need a large stack)"""
    large = resource.RLIM_INFINITY, resource.RLIM_INFINITY
    out, _, status = outputs([program, *words, path], timeout=3600, preexec_fn=lambda: resource.setrlimit(resource.RLIMIT_STACK, large))
    return out, status in (0, 1)


def differing(ours, program, theirs):
    """The first lines in which the vetter and a program differ."""
    both = itertools.zip_longest(*(it[0].decode(errors="replace").splitlines() for it in (ours, theirs)))
    return next((f"the vetter has {our!r}, and {program} {their!r}" for our, their in both if our != their), f"{ours[1]}, {theirs[1]}")


class Comparison:
    """The reference vetter beside programs, with files in a folder, and how often `vet` and `difference` said what."""

    def __init__(self, vetter, folder, programs):
        self.vetter, self.folder, self.programs = vetter, folder, programs
        self.kinds, self.differences = collections.Counter(), collections.Counter()

    def same(self, name, data, words, cases):
        """The vetter and each program write the same of a file of these bytes: what they write. Of the first difference a program
        also writes details, in lines that begin with a space."""
        with tempfile.NamedTemporaryFile(dir=self.folder) as file:
            file.write(data)
            file.flush()
            ours = written(self.vetter, words, file.name)
            is_difference = words[0] == DIFFERENCE[0]
            for program in self.programs:
                theirs = written(program, [*EXPLAINED, *words[1:]] if is_difference else words, file.name)
                if is_difference:
                    theirs = re.sub(rb"^ .*\n", b"", theirs[0], flags=re.M), theirs[1]
                expect(lambda: f"{name}: {' '.join(words)}", ours == theirs, lambda: differing(ours, program, theirs), cases=cases)
        return ours[0]

    def under(self, name, messages, words, depth, commands):
        """The same of messages within limits, for `vet`, for these commands, and for `canon` of those that have a copy."""
        limits, data, count = ["--words", str(words), "--depth", str(depth)], b"".join(messages), len(messages)
        verdicts = self.same(name, data, ["vet", *limits], count).decode().splitlines()
        for command in commands:
            said = self.same(name, data, [*command, *(limits if command[0] not in ("segments", "pack") else [])], count)
            if command[0] == "vet":
                self.count(said.decode().splitlines())
            if command == DIFFERENCE:
                self.agrees(name, said.decode().splitlines(), self.same(name, data, ["check", *limits], count).decode().splitlines())
            if command[0] == "pack":
                self.same(name, said, ["unpack"], count)
                self.same(name, said, ["vet", "--packed", *limits], count)
        self.count(verdicts)
        whole = [message for message, line in zip(messages, verdicts) if line.endswith(" caps 0")]
        if whole:
            self.same(name, b"".join(whole), ["canon", *limits], len(whole))

    def count(self, lines):
        with COUNTING:
            self.kinds.update(line.split()[2 if " accepted " in line else 3] for line in lines)

    def agrees(self, name, differences, checked):
        """The first difference says `canonical` exactly where `check` does, and nothing where `check` refuses a message."""
        found = {line.split(": ")[0]: line for line in differences if ": canonical" in line or ": not canonical" in line}
        said = {line.split(": ")[0]: line for line in checked if "canonical" in line}
        short = {message: line.partition("canonical")[0] + "canonical" for message, line in found.items()}
        compare(f"{name}: what difference and check say is canonical", said, short)
        with COUNTING:
            self.differences.update(line.split()[4] if ": not " in line else "canonical" for line in found.values())

    def made(self, number):
        """40 messages that are made at random."""
        chance = random.Random(f"mirror {number}")
        messages = [made(chance) for _ in range(40)]
        self.under(f"made messages {number}", messages, chance.choice(WORDS), chance.choice(DEPTHS),
                   [COMMANDS[number % len(COMMANDS)], DIFFERENCE])


def compared(vetter, folder):
    """The reference vetter writes what each program does."""
    comparison = Comparison(vetter, folder, [Path(word).resolve() for word in sys.argv[1:]] or [PROGRAM])
    comparison.under("the samples", SAMPLES, 8388608, 64, (*COMMANDS, DIFFERENCE))
    comparison.under("messages about limits", list(edges()), 8388608, 64, (*COMMANDS, DIFFERENCE))
    with ThreadPoolExecutor(CORES if LONG else 1) as cores:
        list(cores.map(comparison.made, range((80_000 if LONG else MESSAGES) // 40)))
        compare("what vet never said of made messages", set(), KINDS - comparison.kinds.keys())
        compare("reasons that no made message has not to be canonical", set(), DIFFERENCES - comparison.differences.keys())
        if LONG:
            parts = list(iter(lambda them=small(): list(itertools.islice(them, 2000)), []))
            commands = [DIFFERENCE, ("vet", "--exclusive")]
            for words, depth in ((1000, 64), (3, 2)):
                list(cores.map(lambda part: comparison.under("small messages", part, words, depth, commands), parts))
            list(cores.map(lambda it: comparison.under("extreme messages", *it, []), extreme()))
    print(f"what vet said: {dict(sorted(comparison.kinds.items()))}")
    print(f"first differences: {dict(sorted(comparison.differences.items()))}", flush=True)


def main():
    with tempfile.TemporaryDirectory() as scratch:
        folder = Path(scratch)
        generated(folder)
        whole()
        laws()
        if not missing("the proofs in Coq, and their vetter beside the program", "coqc", "ocamlopt") and (amount.IS_FULL or LONG):
            vetter = proved(folder / "coq")
            if vetter:
                compared(vetter, folder)
    return ended()


SAMPLES = samples()
MESSAGES = 5_000

if __name__ == "__main__":
    sys.exit(main())
