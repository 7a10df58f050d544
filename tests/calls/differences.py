#!/usr/bin/env python3
"""Compares the first differences of messages from their canonical copies: those of the model, of the copies, and of C.

    differences.py ARCHIVE [--full]

The model has the reasons: `difference` of tests/shared/model.py. The copy of an accepted message is a message itself. The pointers of both
are compared in preorder: the place of each pointer, its word, and the words of its object that aren't pointers. The first pointer at
which they differ has to be the one that the model names, and the words have to be equal exactly if it names none. The messages are
made up, most of them nearly canonical. Each reason occurs 20 times at least. MANY is 20,000, and with --full 100,000.

tests/calls/c/differences.c asks capvet_first_difference of the same messages. Its answer has to be that of capvet_check_canonical. Each field
of its report has to be that of the model, and so have the name of the reason and the path by capvet_pointer_path. UPSTREAM has what it
says of each message that is not canonical by the tests of libcapnp and of the crate `capnp`. The page on testing has the same.

With --full valgrind counts instructions. For a canonical message capvet_first_difference takes at most MOST times those of
capvet_check_canonical. The messages are SHAPES.

The last line is 'N passed, M failed', and the status is 1 where something failed.
"""
import random
import re
import struct
import sys
import tempfile
from collections import Counter
from pathlib import Path

sys.path[1:1] = map(str, Path(__file__).resolve().parents[1].iterdir())

from amount import IS_FULL, cases
from calls import CHECKS, compiled
from harness import ARCHIVE, TOP, compare, ended, expect, framed, instructions, over_file, under_valgrind, with_lengths
from made import changed, made_up, shared
from model import (ANSWERS, DIFFERENCES, ELEMENT_BITS, FIELDS, REPORT, RESERVED, Limits, Refused, canonical, children, difference,
                   unframed, vetted)
from needs import missing
from paths import walked
from upstream import CASES, NOT_CANONICAL, OTHER_REFUSALS

MANY = cases(20_000, full=100_000)  # messages
SEED = 20261130
LIMITS = Limits()


class Writer:
    """Writes a message as its canonical copy has it, but for flaws. Each flaw has this chance."""

    def __init__(self, chance, flaw):
        self.chance, self.flaw, self.words, self.starts = chance, flaw, [0], []

    def flawed(self):
        return self.chance.random() < self.flaw

    def put(self, at, level):
        """The pointer at this word, and what it leads to."""
        chance = self.chance
        if self.flawed():
            self.words[at] = chance.choice((3 | chance.randrange(9) << 32, 2 | chance.randrange(1 + len(self.words)) << 3))
            return
        if self.flawed() and self.starts:
            start, word = chance.choice(self.starts)
            self.words[at] = word & ~0xFFFFFFFC | (start - at - 1 << 2 & 0xFFFFFFFC)
            return
        kind = chance.choice(("null", "struct", "list", "pointers", "structs", "struct") if level else ("null", "list"))
        if self.flawed() and kind != "null":
            self.words.append(chance.randrange(2))
        start = len(self.words)
        ahead = start - at - 1 << 2
        if kind == "struct":
            self.put_struct(at, ahead, level)
        elif kind == "list":
            code, count = chance.randrange(6), chance.randrange(12)
            size = ELEMENT_BITS[code] * count
            self.words[at] = 1 | ahead | code << 32 | count << 35
            for i in range((size + 63) // 64):
                used = 64 if self.flawed() else min(64, size - 64 * i)
                self.words.append(chance.randrange(1 << used))
        elif kind == "pointers":
            count = chance.randrange(4)
            self.words[at] = 1 | ahead | 6 << 32 | count << 35
            self.words.extend([0] * count)
            for i in range(count):
                self.put(start + i, level - 1)
        elif kind == "structs":
            self.put_structs(at, ahead, level)
        self.starts.append((start, self.words[at]))

    def sizes(self):
        return self.chance.randrange(3), self.chance.randrange(3)

    def data(self, count):
        """Data words of which the last isn't zero, but for flaws."""
        words = [self.chance.choice((0, 1, 1 << 40)) for _ in range(count)]
        if words and not self.flawed():
            words[-1] = self.chance.randrange(1, 9)
        return words

    def put_struct(self, at, ahead, level):
        data, pointers = self.sizes()
        start = len(self.words)
        if data + pointers == 0:
            ahead = ahead if self.flawed() else 0xFFFFFFFC
        self.words[at] = ahead | data << 32 | pointers << 48
        self.words.extend([*self.data(data), *[0] * pointers])
        self.put_pointers([start + data + i for i in range(pointers)], level, True)

    def put_structs(self, at, ahead, level):
        chance, (data, pointers), count = self.chance, self.sizes(), self.chance.randrange(4)
        if count == 0 and not self.flawed():
            data = pointers = 0
        surplus = chance.randrange(1, 3) if self.flawed() else 0
        step, start = data + pointers, len(self.words)
        self.words[at] = 1 | ahead | 7 << 32 | count * step + surplus << 35
        self.words.append(count << 2 | data << 32 | pointers << 48)
        needed, places = chance.randrange(count) if count else 0, []
        for element in range(count):
            own = self.data(data) if element == needed or chance.randrange(2) else [0] * data
            self.words.extend([*own, *[0] * pointers])
            places.append([start + 1 + element * step + data + i for i in range(pointers)])
        self.words.extend([0] * surplus)
        for element, row in enumerate(places):
            self.put_pointers(row, level, element == needed)

    def put_pointers(self, places, level, needed):
        """The last of them isn't null if it is needed, but for flaws."""
        for at in places:
            self.put(at, level - 1)
            if at == places[-1] and needed and not self.words[at] and not self.flawed():
                self.words[at] = 0xFFFFFFFC


def nearly_canonical(chance):
    """The frame of a message that is canonical but for few flaws."""
    writer = Writer(chance, chance.choice((0, 0.01, 0.03, 0.1)))
    writer.put(0, 4)
    words = writer.words + [0] * writer.flawed()
    second = [0] * writer.flawed()
    sizes = [len(words), 1] if second else [len(words)]
    table = struct.pack("<II", 0, sizes[0]) if len(sizes) == 1 else struct.pack("<IIII", 1, *sizes, 0)
    return table + struct.pack(f"<{sum(sizes)}Q", *words, *second)


def copied(message):
    """The frame of the canonical words of a message, which may be changed then."""
    words = canonical(message)
    return struct.pack(f"<II{len(words)}Q", 0, len(words), *words)


def made(chance):
    """A message, nearly canonical or not."""
    kind = chance.randrange(8)
    if kind == 0:
        return made_up(chance)
    if kind == 1:
        return shared(chance)
    frame = nearly_canonical(chance)
    if kind < 4:
        message, _ = unframed(frame, LIMITS)
        try:
            vetted(message, LIMITS.charge, LIMITS.depth)
        except Refused:
            return frame
        frame = copied(message)
    return changed(frame, chance) if kind in (3, 4) else frame


def own_words(message, found):
    """The words of an object that aren't pointers, by their places."""
    below = set(children(found)[0])
    return {(found.segment, at): message[found.segment][at] for at in range(found.start, found.start + found.words)
            if (found.segment, at) not in below}


def reason_by_copy(word, found, same, end):
    """The reason of a difference at a pointer word, by the object that it leads to and by that of the copy, which is at word `end`."""
    if word & 3 > 1:
        return "Far" if word & 3 == 2 else "Capability"
    if found.kind == "struct" and not found.words:
        return "EmptyStruct"
    if found.start != end:
        return "Place"
    if found.kind == "list":
        return "Bits"
    if found.kind == "structs" and not found.sizes[0] and found.sizes != same.sizes:
        return "EmptyList"
    if found.kind == "structs" and found.words != 1 + found.sizes[0] * sum(found.sizes[1:]):
        return "Surplus"
    return "DataZero" if found.sizes[-2] != same.sizes[-2] else "PointerNull"


def by_copy(message, tree):
    """The first difference, by the words of the copy: the reason, the place and the number."""
    copy = [canonical(message)]
    if len(message) == 1 and list(message[0]) == copy[0] and not tree.capabilities:
        return None
    if len(message) > 1:
        return "Segments", 0, 0, 0
    other, end = vetted(copy, LIMITS.charge, LIMITS.depth), 1
    for number, ((place, found), (where, same)) in enumerate(zip(tree.steps, other.steps), 1):
        words = message[place[0]][place[1]], copy[where[0]][where[1]]
        if place != where or words[0] != words[1] or own_words(message, found) != own_words(copy, same):
            return reason_by_copy(words[0], found, same, end), *place, number
        end += same.words
    return "Trailing", 0, end, tree.pointers


def accepted():
    """MANY accepted messages: the segments of each, and its tree."""
    chance = random.Random(SEED)
    for _ in range(MANY):
        while True:
            message, _ = unframed(made(chance), LIMITS)
            try:
                tree = vetted(message, LIMITS.charge, LIMITS.depth)
            except Refused:
                continue
            yield message, tree
            break


def number_of(reason):
    """The number of a reason in the header."""
    return DIFFERENCES.index(reason) + 1


def as_numbers(message, tree, first):
    """The fields of both reports: of the first difference, and of the check."""
    frame = 8 * (len(message) // 2 + 1 + sum(map(len, message)))
    check = dict(length=frame, segments=len(message), words=sum(map(len, message)), charge=tree.charge, pointers=tree.pointers,
                 capabilities=tree.capabilities, depth=tree.depth, segment=tree.first[0], word=tree.first[1])
    named = dict(zip(("detail", "segment", "word", "pointers"), (number_of(first[0]), *first[1:]))) if first else {}
    return [tuple(fields.get(name, 0) for name in FIELDS) + (0,) * RESERVED for fields in (check | named, check)]


def path_to(message, number):
    """The steps to the pointer of this number, or None without one."""
    for at, (_, path) in enumerate(walked(message, 256), 1):
        if at == number:
            return path
    return None


def replies(program, frames):
    """What C answers for these messages: of both calls the answer and the report, the name of the reason, and the path."""
    out, err, status = over_file([program], with_lengths(frames))
    compare("first differences, with the compiler's checks", (b"", 0), (err, status))
    head, at = struct.Struct(f"<I{REPORT}I{REPORT}16sII"), 0
    while at < len(out):
        answer, *fields, name, traced, count = head.unpack_from(out, at)
        at += head.size
        steps = tuple(struct.unpack_from("<II", out, at + 8 * step) for step in range(count))
        at += 8 * count
        half = len(fields) // 2
        yield (answer, tuple(fields[:half]), *fields[half:half + 1], tuple(fields[half + 1:]), name.rstrip(b"\0").decode(),
               steps if traced == 0 else None)


def expected_of(message, tree, first):
    """What C has to answer."""
    answer = ANSWERS["NOT_CANONICAL" if first else "OK"]
    report, check = as_numbers(message, tree, first)
    return answer, report, answer, check, first[0] if first else "Unknown", path_to(message, report[FIELDS.index("pointers")])


def by_calls(asking, watched, known):
    """Compares what C answers for each of these messages, which come with their trees and their first differences."""
    frames = [framed(*map(list, message)) for message, _, _ in known]
    if watched and not missing("first differences under valgrind", "valgrind"):
        under_valgrind("first differences, under valgrind", watched, asking, with_lengths(frames[:500]))
    got = list(replies(asking, frames))
    compare("replies for messages", len(known), len(got))
    for (message, tree, first), reply in zip(known, got):
        compare(lambda: f"capvet_first_difference of {message}", expected_of(message, tree, first), reply)


# Each message that isn't canonical by the tests of libcapnp and of the crate `capnp`, by the name of its test. A row has the reason, the
# segment, the word and the number of the pointer, and the path to it. Where no pointer is named, no path is compared.
ROOT, FIRST, SECOND = (), ((0, 0),), ((0, 1),)
UPSTREAM = {
    "for pointers to empty structs, preorder is not canonical": ("EmptyStruct", 0, 2, 3, SECOND),
    "isCanonical requires pointer preorder": ("Place", 0, 1, 2, FIRST),
    "isCanonical requires dense packing": ("Capability", 0, 0, 1, ROOT),
    "isCanonical rejects multi-segment messages": ("Segments", 0, 0, 0, None),
    "isCanonical requires truncation of 0-valued struct fields": ("DataZero", 0, 0, 1, ROOT),
    "isCanonical rejects unused trailing words": ("Trailing", 0, 2, 1, None),
    "isCanonical rejects inline composite list with inaccurate word-length": ("Surplus", 0, 1, 2, FIRST),
    "isCanonical requires truncation of 0-valued struct fields in all list members": ("DataZero", 0, 0, 1, ROOT),
    "primitive list with nonzero padding": ("Bits", 0, 1, 2, FIRST),
    "bit list with nonzero padding": ("Bits", 0, 1, 2, FIRST),
    "dont_truncate_struct_too_far": ("DataZero", 0, 0, 1, ROOT),
    "dont_truncate_struct_list_too_far": ("DataZero", 0, 1, 2, FIRST),
    "pointer_to_empty_struct_preorder_not_canonical": ("EmptyStruct", 0, 2, 3, SECOND),
    "is_canonical_requires_pointer_preorder": ("Place", 0, 1, 2, FIRST),
    "is_canonical_requires_dense_packing": ("Capability", 0, 0, 1, ROOT),
    "simple_multisegment_message": ("Segments", 0, 0, 0, None),
    "multisegment_only_first_segment_used": ("Segments", 0, 0, 0, None),
    "is_canonical_requires_truncation_of_0_valued_struct_fields": ("DataZero", 0, 0, 1, ROOT),
    "is_canonical_rejects_unused_trailing_words": ("Trailing", 0, 2, 1, None),
    "is_canonical_rejects_inline_composite_list_with_inaccurate_word_length": ("Surplus", 0, 1, 2, FIRST),
    "truncate_data_section_inline_composite": ("DataZero", 0, 0, 1, ROOT),
    "truncate_pointer_section_inline_composite": ("PointerNull", 0, 0, 1, ROOT),
    "list_padding_must_be_zero": ("Bits", 0, 0, 1, ROOT),
    "bit_list_padding_must_be_zero": ("Bits", 0, 0, 1, ROOT),
}


def rows_of_page():
    """What the page on testing says of each of these messages, by the name of its test: the text of `explain`, and the path."""
    page = (TOP / "docs/internals/testing.md").read_text()
    rows = re.findall(r"^\| (.*?) ?\| (.*?) ?\| `((?:not canonical:|refused) .*)` \| (.*?) ?\|$", page, re.M)
    return {name.strip("`"): (said, path.strip("`")) for *names, said, path in rows for name in names if name}


def by_upstream(asking):
    """Compares what C answers for these messages with the table, and the table with that of the page."""
    said = {name: (f"not canonical: {reason} at {segment}:{word} pointers {pointers}",
                   "" if steps is None else "/" + "/".join(f"{'pi'[kind]}{number}" for kind, number in steps))
            for name, (reason, segment, word, pointers, steps) in UPSTREAM.items()}
    compare("the rows of the page on testing", said | {name: (text, "") for name, text in OTHER_REFUSALS.items()}, rows_of_page())
    rows = [(name, words) for tests in CASES.values() for name, words, says, *_ in tests
            if says == NOT_CANONICAL and name not in OTHER_REFUSALS]
    compare("the tests that expect a message that isn't canonical", sorted(UPSTREAM), sorted(name for name, _ in rows))
    got = list(replies(asking, [framed(words) for _, words in rows]))
    compare("replies for the messages of these tests", len(rows), len(got))
    for (name, _), (answer, report, _, _, reason, path) in zip(rows, got):
        fields = dict(zip(FIELDS, report))
        expected = UPSTREAM[name]
        compare(f"capvet_first_difference of {name}", (ANSWERS["NOT_CANONICAL"], *expected),
                (answer, reason, fields["segment"], fields["word"], fields["pointers"], path if expected[4] is not None else None))


# ------------------------------------------------------------------ the cost of a canonical message

# The most instructions that it takes, as a part of those of the check.
MOST = 1.3


def tree(levels):
    """A binary tree of structs of two data words, in preorder."""
    words = [0]

    def put(at, level):
        start, pointers = len(words), 2 if level > 1 else 0
        words[at] = start - at - 1 << 2 | 2 << 32 | pointers << 48
        words.extend([start, 7, *[0] * pointers])
        for i in range(pointers):
            put(start + 2 + i, level - 1)

    put(0, levels)
    return words


def wide(count):
    """A list of pointers, of which each tenth leads to a struct of two words, and the others are null."""
    words = [1 | 6 << 32 | count << 35, *[0] * count]
    for at in range(1, count + 1, 10):
        words[at] = len(words) - at - 1 << 2 | 2 << 32
        words += [at, 7]
    return words


# Canonical messages, each by the words of its segment or by the name of a file.
SHAPES = {
    "a null root": [0],
    "a struct of one word": [1 << 32, 7],
    "a list of 4096 bytes": [1 | 2 << 32 | 4096 << 35, *[~0 & 2**64 - 1] * 512],
    "a list of 300 structs": [1 | 7 << 32 | 600 << 35, 300 << 2 | 2 << 32, *[5, 7] * 300],
    "a list of 3000 pointers": wide(3000),
    "a tree of 1023 structs": tree(10),
    "a copy of contacts.bin": "contacts.bin",
    "a copy of telemetry.bin": "telemetry.bin",
}


def costs(folder):
    """Compares the instructions of both calls for each of SHAPES."""
    program = compiled(folder, "comparing", "gcc", "c99", ARCHIVE, "-O2")
    if not program or missing("the cost of first differences", "valgrind"):
        return
    for name, words in SHAPES.items():
        file = folder / "message"
        file.write_bytes(framed((TOP / "examples/canonical" / words).read_bytes() if isinstance(words, str) else words))
        check, first = ((instructions([program, call, file, "3"]) - instructions([program, call, file, "1"])) / 2
                        for call in ("check", "difference"))
        expect(f"{name}: at most {MOST} of the instructions of the check", 0 < check and first <= MOST * check, first, check)
        print(f"differences: {name} takes {first / max(check, 1):.3f} of the {check:.0f} instructions of the check")


def main():
    found, known = Counter(), []
    for message, tree in accepted():
        first = difference(message, tree)
        found[first and first[0]] += 1
        compare(lambda: f"the first difference of {message}, which is {first}", by_copy(message, tree), first)
        known.append((message, tree, first))
    print("differences:", ", ".join(f"{reason or 'canonical'} {found[reason]}" for reason in (None, *DIFFERENCES)))
    for reason in (None, *DIFFERENCES):
        expect(f"the reason {reason} occurs 20 times", found[reason] >= 20, f"it occurs {found[reason]} times")
    with tempfile.TemporaryDirectory(prefix="capvet-") as folder:
        watched = compiled(Path(folder), "differences", "gcc", "c99", ARCHIVE)
        asking = compiled(Path(folder), "differences", "gcc", "c11", ARCHIVE, "-O1", *CHECKS)
        if asking:
            by_calls(asking, watched, known)
            by_upstream(asking)
        if IS_FULL:
            costs(Path(folder))
    return ended()


if __name__ == "__main__":
    sys.exit(main())
