#!/usr/bin/env python3
"""Compares what `capvet explain` and capvet_explain write of changed messages with the lines that this script writes of them.

    explain.py PROGRAM ARCHIVE [--full]

The verdict of a message is that of tests/shared/model.py. The lines after it are written here as docs/output.md defines them, from
the words of the message alone. Messages of a fixed seed are changed or made up: 6,000, or 100,000 with --full. Each
goes through the program once with one of the lines of OPTIONS. Each reason has to be among the refusals, as often as LEAST says
for 6,000 messages. So have those for which `filter` refuses an accepted message, as often as FILTERED says.

As many messages in which most pointers lead to words of one another go through the program with --exclusive. The
first pointer that uses a word of an overlap is found here by its definition, from the words that each pointer uses.

With --canonical go three times as many messages that are nearly canonical: those of tests/calls/differences.py. The first difference of each is that of
tests/shared/model.py, and the words beside it are those of its copy. Each reason has to occur 20 times, and so do canonical messages.

Streams that break off go through the program too, plain and packed, a fifth as many. Its lines on their ends are compared
with what this script finds in their bytes. As many are of another format, or in the other form. `hash` and `filter` guess the format
of each too: by its first bytes, or by the place where reading it ended.

tests/calls/c/explain.c explains each of these messages too, with the limits and flags of the same options. Its buffers have various
sizes, one of them just the length of the text. It writes the lines after that of the verdict. Its answer and report are those of
capvet_vet, by tests/shared/model.py and by the call. It looks for no overlap. Half of the messages of one segment have no table there. A
tenth of the inputs are cut, have bytes after them, or claim other segments.

tests/calls/c/overlaps.c explains pointers as overlaps by capvet_explain_overlap, of as many messages in which most pointers lead to words
of one another. Most are the pointer that overlaps. Others are a pointer before it, or none. The last line is
'N passed, M failed', and the status is 1 if a case failed.
"""
import gzip
import json
import random
import re
import struct
import sys
import tempfile
from collections import Counter
from pathlib import Path

sys.path[1:1] = map(str, Path(__file__).resolve().parents[1].iterdir())

import differences
import model
from amount import cases
from calls import CHECKS, compiled
from harness import ARCHIVE, PROGRAM, compare, ended, expect, framed, outputs, over_file
from made import changed, made_up, samples, shared
from needs import missing
from packing import packed
from trees import bits, offset

MANY = cases(6_000, full=100_000)  # changed messages
# The most bytes of a text.
BOUND = 6144
REPLY = struct.Struct(f"<IQ{model.REPORT}")
# How many messages a run of the program has.
RUN = 500
OPTIONS = ("", "--strict --unamplified", "--exclusive", "--strict --exclusive", "--words 60 --depth 4", "--packed",
           "--depth 2 --unamplified")
LEAST = {"NoRoot": 5, "Reserved": 50, "SegmentMissing": 50, "PadOutside": 50, "PadIsFar": 5, "PadNotFar": 5, "TagKind": 5,
         "TagOffset": 5, "OutOfSegment": 100, "CompositeTag": 20, "CompositeOverrun": 20, "DepthLimit": 50, "WordLimit": 50,
         "ManySegments": 2, "NullPad": 5, "EmptySegment": 5, "CapabilityPad": 5, "Overlap": 20}
CANONICAL = ("--canonical", "--canonical --packed", "--canonical --exclusive", "--canonical --strict --unamplified",
             "--canonical --words 60 --depth 4")
# The reasons for which `filter` refuses messages that are accepted by the options of a run.
FILTERED = {"WordLimit": 5, "ManySegments": 1, "NullPad": 5, "EmptySegment": 5, "CapabilityPad": 5}
ELEMENTS = ("empty elements", "bits", "bytes", "2 bytes each", "4 bytes each", "8 bytes each", "pointers", "structs")
# The sentences that depend on the reason alone.
SENTENCES = {
    "NoRoot": "segment 0 has no words, so the message has no root pointer",
    "PadOutside": "the landing pad is not all inside its segment",
    "PadIsFar": "the only word of the landing pad is a far pointer again",
    "PadNotFar": "the first word of the landing pad is not a far pointer to a pad of one word",
    "TagKind": "the second word of the landing pad is neither a struct pointer nor a list pointer",
    "TagOffset": "the second word of the landing pad has an offset other than 0",
    "CompositeTag": "the first word of the list of structs is not a struct tag",
    "CompositeOverrun": "the elements that the tag gives need more words than the list has",
    "WordLimit": "the charge up to this pointer and its target is more than the limit",
    "ManySegments": "the message has 512 segments, and common readers take at most 511",
    "NullPad": "the only word of the landing pad is null, which common readers reject",
    "EmptySegment": "the target is in a segment without words, which common readers reject",
    "CapabilityPad": "the only word of the landing pad is a capability, which common readers reject",
    "Overlap": "the pointer uses a word twice, the root word, or one that an earlier pointer uses; --exclusive forbids all three",
}
# Cycles, each by the options and the words of its message: the pointer word that the path reaches twice, and the two levels, by hand.
# None: the path reaches no word twice.
CYCLES = (
    # of one struct, two and three
    ("", "fcffffff00000100", ("0:0", 64, 65)),
    ("", "0000000000000100 0000000000000100 f8ffffff00000100", ("0:2", 63, 65)),
    ("", "0000000000000100 0000000000000100 0000000000000100 f4ffffff00000100", ("0:1", 62, 65)),
    # through landing pads of one word and of two
    ("", "0a00000000000000 f8ffffff00000100", ("0:0", 64, 65)),
    ("", "0200000001000000 | 0000000000000100 0600000002000000 | 0200000000000000 0000000000000100", ("0:0", 63, 65)),
    ("", "0000000000000100 0600000001000000 f8ffffff00000100 | 0200000002000000 0000000000000100 | 0000000000000100 1200000000000000",
     ("0:1", 62, 65)),
    # through a list of pointers, and a list of structs, which has one level more
    ("", "0000000000000100 0200000001000000 f8ffffff00000100 | 0100000016000000 0000000000000000 0000000000000100 1200000000000000 | ",
     ("0:1", 62, 65)),
    ("", "0000000000000100 0200000001000000 f8ffffff00000100 | 0100000017000000 0800000000000100 0000000000000000 0000000000000100 "
     "1200000000000000 | ", ("1:4", 61, 65)),
    # where the path leaves the cycle: a pointer beside the one of the cycle is refused first, or one two steps below that
    ("", "0000000000000200 0400000001000000 f8ffffff00000200 2a00000000000000", ("0:2", 63, 64)),
    ("", "0000000000000200 0400000000000100 f8ffffff00000200 0000000001000000 2a00000000000000", ("0:2", 62, 63)),
    # the path to the word limit
    ("--words 10", "fcffffff00000100", ("0:0", 10, 11)),
    ("--words 20", "0000000000000200 0400000001000000 f8ffffff00000200 2a00000000000000", ("0:2", 6, 7)),
    ("--words 5", "0000000000000200 0400000001000000 f8ffffff00000200 2a00000000000000", None),
    # once round, and once less
    ("--depth 1", "fcffffff00000100", ("0:0", 1, 2)),
    ("--depth 1", "0000000000000100 f8ffffff00000100", None),
    # other paths without one
    ("--depth 1", "0000000000000100 0000000000000000", None),
    ("--words 0", "0000000000000100 0000000000000000", None),
)
# Those of the first difference from the canonical copy.
DIFFERENCES = {
    "Segments": "the message has more than one segment, and a canonical message has one",
    "Far": "the pointer is a far pointer, and a canonical message has none",
    "Capability": "the pointer is a capability, so the message has no canonical copy",
    "EmptyStruct": "the target is a struct without words, and the pointer of a canonical message to it is fcffffff00000000",
    "Place": "the target is not where the canonical copy has it: it is out of preorder, after a gap, or used twice",
    "Bits": "bits are set after the last value of the list, and a canonical message has zeros there",
    "EmptyList": "the list of structs has no elements, and a canonical message has no sizes in the tag of such a list",
    "Surplus": "the list of structs has words after its last element, and a canonical message has none",
    "DataZero": "the last data word of the struct, or of all structs of the list, is zero, and a canonical message leaves it out",
    "PointerNull": "the last pointer of the struct, or of all structs of the list, is null, and a canonical message leaves it out",
    "Trailing": "words come after the last object, and a canonical message ends with it",
}


# The lines of docs/output.md

def sizes(word):
    return f", data words {bits(word, 32, 16)}, pointers {bits(word, 48, 16)}"


def form(word):
    """A pointer word's form and fields."""
    kind = bits(word, 0, 2)
    if word == 0:
        return "null"
    if kind == 0:
        return f"struct, offset {offset(word)}{sizes(word)}"
    if kind == 1:
        code = bits(word, 32, 3)
        return f"list of {ELEMENTS[code]}, offset {offset(word)}, {'words' if code == 7 else 'elements'} {bits(word, 35, 29)}"
    if kind == 2:
        return f"far pointer to {bits(word, 32, 32)}:{bits(word, 3, 29)}, pad words {1 + bits(word, 2, 1)}"
    return "reserved" if bits(word, 2, 30) else f"capability, index {bits(word, 32, 32)}"


def tag_form(word):
    return f"struct, elements {bits(word, 2, 30)}{sizes(word)}" if bits(word, 0, 2) == 0 else f"not a struct tag: {form(word)}"


def hexed(word):
    return word.to_bytes(8, "little").hex()


def extent(word):
    """The words of a struct or list pointer's target, a tag with them."""
    if bits(word, 0, 2) == 0:
        return bits(word, 32, 16) + bits(word, 48, 16)
    code, count = bits(word, 32, 3), bits(word, 35, 29)
    return 1 + count if code == 7 else -(-model.ELEMENT_BITS[code] * count // 64)


def pads(message, word):
    """The words of a landing pad that is all inside its segment, each with its place."""
    if bits(word, 0, 2) != 2:
        return []
    segment, at, count = bits(word, 32, 32), bits(word, 3, 29), 1 + bits(word, 2, 1)
    if segment >= len(message) or at + count > len(message[segment]):
        return []
    return [(segment, place, message[segment][place]) for place in range(at, at + count)]


def led_to(segment, at, word, landing):
    """The segment, the first word and the pointer word of the target, or nothing, and the segment that the pointer leads into."""
    def near(segment, at, word):
        return (segment, at + 1 + offset(word), word) if word and bits(word, 0, 2) < 2 else None
    if bits(word, 0, 2) != 2:
        return near(segment, at, word), segment
    if len(landing) == 1:
        return near(*landing[0]), landing[0][0]
    into = bits(word, 32, 32)
    if not landing or bits(landing[0][2], 0, 3) != 2:
        return None, into
    far, tag = landing[0][2], landing[1][2]
    is_tag = bits(tag, 0, 2) < 2 and bits(tag, 2, 30) == 0
    return (bits(far, 32, 32), bits(far, 3, 29), tag) if is_tag else None, bits(far, 32, 32)


def is_structs(word):
    return bits(word, 0, 2) == 1 and bits(word, 32, 3) == 7


def target_lines(message, target):
    segment, start, word = target
    words, note = extent(word), " with the tag" if is_structs(word) else ""
    last = f" to {segment}:{start + words - 1}" if words else ""
    yield f"target {segment}:{start}{last}, words {words}{note}"
    if is_structs(word) and segment < len(message) and 0 <= start < len(message[segment]):
        tag = message[segment][start]
        yield f"tag {segment}:{start} {hexed(tag)} {tag_form(tag)}"


def below(found, path):
    """The places of the pointers of an object at a path, each with its path."""
    places, _ = model.children(found)
    if found.kind == "structs":
        count = found.sizes[2]
        return [(f"{path}/i{number // count}/p{number % count}", place) for number, place in enumerate(places)]
    return [(f"{path}/{'p' if found.kind == 'struct' else 'i'}{number}", place) for number, place in enumerate(places)]


def path_to(message, number):
    """The path to the pointer of this number in preorder, where the root pointer has number 1."""
    ahead = [("", (0, 0))]
    while True:
        path, place = ahead.pop()
        number -= 1
        if number == 0:
            return path or "/"
        ahead += reversed(below(model.followed(message, *place), path))


def shown(path):
    """A path as the lines have it: of more than 24 steps, the first and the last eight, and how many are between."""
    steps = path.split("/")[1:]
    if len(steps) <= 24:
        return path
    return "".join(f"/{it}" for it in steps[:8]) + f"/.. {len(steps) - 16} steps .." + "".join(f"/{it}" for it in steps[-8:])


def charge_to(message, number):
    """What following the first pointers in preorder costs, up to the one of this number."""
    ahead, charge = [("", (0, 0))], 0
    for _ in range(number):
        path, place = ahead.pop()
        found = model.followed(message, *place)
        charge += found.charge
        ahead += reversed(below(found, path))
    return charge


def input_place(start, byte):
    """Which byte of an input a byte of a message is that begins at a byte of it. Those of a packed input are counted unpacked."""
    return f", byte {start[0] + byte} of the {'unpacked ' * start[1]}input" if start else ""


def pointer_lines(message, segment, at, start, has_table):
    """The lines on a pointer word, its landing pad, and its target. `start` says where the message begins, and whether in a
    packed input. It is None for a message in no input. `has_table` says whether a segment table comes first."""
    word = message[segment][at]
    byte = 8 * ((len(message) // 2 + 1 if has_table else 0) + sum(map(len, message[:segment])) + at)
    yield f"byte {byte} of the message{input_place(start, byte)}"
    yield f"pointer {hexed(word)} {form(word)}"
    landing = pads(message, word)
    for place in landing:
        yield f"pad {place[0]}:{place[1]} {hexed(place[2])} {form(place[2])}"
    target, into = led_to(segment, at, word, landing)
    if target:
        yield from target_lines(message, target)
    yield (f"leads into segment {into}, words {len(message[into])}" if into < len(message)
           else f"leads into segment {into}, which does not exist, segments 0 to {len(message) - 1}")


def sentence(message, reason, segment, at):
    """The reason as a sentence."""
    if reason in SENTENCES:
        return SENTENCES[reason]
    word = message[segment][at]
    landing = pads(message, word)
    if reason == "Reserved":
        what = "landing pad" if landing else "pointer"
        return (f"the low two bits of the {what} are 3, but it is not a valid capability pointer; "
                "the format reserves such words")
    if reason == "SegmentMissing":
        what = "first word of the landing pad" if landing else "far pointer"
        return f"the {what} names a segment that the message does not have"
    _, start, shape = led_to(segment, at, word, landing)[0]
    if reason == "DepthLimit":
        what = "list of structs, or its structs, are" if is_structs(shape) else "target is"
        return f"the {what} at a deeper level than the limit allows"
    return f"the target {'begins before the start' if start < 0 else 'runs past the end'} of its segment"


def elements_line(message, segment, at):
    """The words that the elements of an overrun list need, beside those that it has."""
    word = message[segment][at]
    its, start, shape = led_to(segment, at, word, pads(message, word))[0]
    tag = message[its][start]
    needed = bits(tag, 2, 30) * (bits(tag, 32, 16) + bits(tag, 48, 16))
    return f"elements need words {needed}, list has words {bits(shape, 35, 29)}"


def earlier_lines(message, number):
    """The line of the first pointer that uses a word which the pointer of this number uses too, if there is one."""
    steps = model.vetted(message, 1 << 28, 256).steps
    for count, ((segment, at), found) in enumerate(steps[:number - 1], 1):
        if set(found.used) & set(steps[number - 1][1].used):
            yield f"first used by {shown(path_to(message, count))} at {segment}:{at}"
            return


def cycle_lines(message, number):
    """The line of the last pointer word that the path to the pointer of this number reaches twice, if there is one."""
    ahead = [((), (0, 0), 1)]
    for _ in range(number - 1):
        before, place, level = ahead.pop()
        places, levels = model.children(model.followed(message, *place))
        ahead += [((*before, (place, level)), below, level + levels) for below in reversed(places)]
    before, place, level = ahead.pop()
    known, last = {}, None
    for place, level in (*before, (place, level)):
        if place in known:
            last = f"cycle: the path reaches pointer word {place[0]}:{place[1]} at level {known[place]}, and returns to it at level {level}"
        known[place] = level
    if last:
        yield last


def explanation(message, reason, segment, at, pointers, words, depth, start, has_table):
    if reason not in ("NoRoot", "ManySegments"):
        yield f"path {shown(path_to(message, pointers))}"
        yield from pointer_lines(message, segment, at, start, has_table)
    if reason == "CompositeOverrun":
        yield elements_line(message, segment, at)
    if reason == "DepthLimit":
        yield f"level {depth + 1}, limit {depth}"
    if reason == "WordLimit":
        yield f"charge up to here {charge_to(message, pointers)} words, limit {words} words"
    if reason in ("DepthLimit", "WordLimit"):
        yield from cycle_lines(message, pointers)
    yield f"reason {sentence(message, reason, segment, at)}"
    if reason == "Overlap":
        yield from earlier_lines(message, pointers)


def words_under(message, options, words):
    """The limit of the charge."""
    return min(words, sum(map(len, message)) + model.SLACK) if "--unamplified" in options else words


def vetted(message, options, words, depth):
    """The tree of a message, or the error of the first reason why it is refused."""
    tree = model.vetted(message, words_under(message, options, words), depth)
    if "--strict" in options:
        model.strictly(message, tree)
    if "--exclusive" in options:
        model.exclusively(tree)
    return tree


def refused_lines(message, refused, options, words, depth, start, has_table):
    """The reason of an error, what the line of `vet` says after it, and the lines that explain it."""
    answer, segment, at, pointers = refused.args
    reason = answer.title().replace("_", "") if answer.isupper() else answer
    limit = words_under(message, options, words)
    lines = explanation(message, reason, segment, at, pointers, limit, depth, start, has_table)
    return reason, f"{reason} at {segment}:{at} pointers {pointers}", [f"  {it}" for it in lines]


def filter_lines(message, words, depth, start, has_table):
    """What comes after the line of an accepted message: why `filter` refuses it, if it does."""
    options = ("--strict", "--unamplified")
    try:
        vetted(message, options, words, depth)
    except model.Refused as refused:
        _, what, lines = refused_lines(message, refused, options, words, depth, start, has_table)
        return [f"  filter, the guard and the libraries refuse it: {what}", *lines]
    return []


def beside_line(message, tree, first):
    """What the message has at its first difference, and what its copy has in the same place: a word of each, or two numbers."""
    reason, segment, at, pointers = first
    if reason == "Segments":
        return f"segments {len(message)}, the copy has 1"
    copy = model.canonical(message)
    if reason == "Trailing":
        return f"words {len(message[0])}, the copy has {len(copy)}"
    found = tree.steps[pointers - 1][1]
    if found.kind == "cap":
        return f"word {segment}:{at} {hexed(message[segment][at])}, there is no copy"
    if reason in ("Far", "EmptyStruct", "Place"):
        return f"word {segment}:{at} {hexed(message[segment][at])}, the copy has {hexed(copy[at])}"
    if reason in ("Bits", "EmptyList"):
        at = found.start if reason == "EmptyList" else found.start + found.words - 1
        return f"word {segment}:{at} {hexed(message[segment][at])}, the copy has {hexed(copy[at])}"
    count, data, pointers = found.sizes if found.kind == "structs" else (1, *found.sizes)
    at = found.start + (found.kind == "structs")
    at += {"Surplus": count * (data + pointers), "DataZero": data - 1, "PointerNull": data + pointers - 1}[reason]
    return f"word {segment}:{at} {hexed(message[segment][at])}, the copy has none"


def difference_lines(number, message, tree, first, start):
    """The line on whether an accepted message is canonical, by its first difference, and the lines that explain that."""
    if not first:
        return [f"message {number}: canonical"]
    reason, segment, at, pointers = first
    lines = [f"reason {DIFFERENCES[reason]}", beside_line(message, tree, first)]
    if reason not in ("Segments", "Trailing"):
        lines = [f"path {shown(path_to(message, pointers))}", *pointer_lines(message, segment, at, start, True), *lines]
    return [f"message {number}: not canonical: {reason} at {segment}:{at} pointers {pointers}", *(f"  {it}" for it in lines)]


def lines_of(number, message, options, start, has_table=True):
    """All lines of a message that begins there in an input, as in `pointer_lines`, and the reason if it is refused or, where that
    is asked, not canonical."""
    words = int(options[options.index("--words") + 1]) if "--words" in options else 8388608
    depth = int(options[options.index("--depth") + 1]) if "--depth" in options else 64
    try:
        tree = vetted(message, options, words, depth)
    except model.Refused as refused:
        reason, what, lines = refused_lines(message, refused, options, words, depth, start, has_table)
        return [f"message {number}: refused {what}", *lines], reason
    lines = [f"message {number}: accepted charge {tree.charge} depth {tree.depth} pointers {tree.pointers} "
             f"caps {tree.capabilities}", *filter_lines(message, words, depth, start, has_table)]
    first = model.difference(message, tree) if "--canonical" in options else None
    if "--canonical" in options:
        lines += difference_lines(number, message, tree, first, start)
    return lines, first[0] if first else "accepted"


# Messages

def segments_of(frame):
    """The segments of a framed message, as lists of words."""
    count = struct.unpack_from("<I", frame)[0] + 1
    at, segments = 8 * (count // 2 + 1), []
    for size in struct.unpack_from(f"<{count}I", frame, 4):
        segments.append(struct.unpack_from(f"<{size}Q", frame, at))
        at += 8 * size
    return segments


def word_of(chance):
    """A pointer word with small fields."""
    kind, low = chance.randrange(4), chance.randrange(-3, 6) << 2 & 0xFFFFFFFC
    if kind == 1:
        return 1 | low | chance.randrange(8) << 32 | chance.randrange(8) << 35
    if kind == 2:
        return 2 | chance.randrange(2) << 2 | chance.randrange(4) << 3 | chance.randrange(4) << 32
    if kind == 3:
        return 3 | (low if chance.random() < 0.3 else 0) | chance.randrange(4) << 32
    return low | chance.randrange(3) << 32 | chance.randrange(3) << 48


def far_message(chance):
    """A message of small segments, in which far pointers and pads of two words are common."""
    segments = [[word_of(chance) if chance.random() < 0.8 else 0 for _ in range(chance.randrange(5))]
                for _ in range(chance.choice((1, 2, 3, 3)))]
    if segments[0] and chance.random() < 0.7:
        segments[0][0] = 2 | chance.randrange(2) << 2 | chance.randrange(3) << 3 | chance.randrange(3) << 32
        for segment in segments[1:]:
            if segment and chance.random() < 0.7:
                segment[0] = 2 | chance.randrange(4) << 3 | chance.randrange(4) << 32
    return framed(*segments)


def double_far_message(chance):
    """A message whose root leads over a landing pad of two words into a segment that may be empty."""
    tag = chance.choice((0, chance.randrange(2), word_of(chance)))
    return framed([6 | 1 << 32], [2 | chance.randrange(2) << 3 | 2 << 32, tag], [0] * chance.randrange(3))


def structs_message(chance):
    """A message whose root is a list of structs, or should be."""
    count = chance.randrange(5)
    tag = chance.randrange(4) << 2 | chance.choice((0, 0, 0, 1, 3)) | chance.randrange(3) << 32 | chance.randrange(3) << 48
    return framed([1 | 7 << 32 | count << 35, tag, *(word_of(chance) for _ in range(count))])


def cyclic_message(chance):
    """A message in which most pointers lead to any words of their segment, or over a landing pad into another, so that there are cycles."""
    segments = [[0] * chance.randrange(1, 7) for _ in range(chance.choice((1, 1, 2)))]
    for segment in segments:
        for at in range(len(segment)):
            kind, start = chance.randrange(8), chance.randrange(len(segment))
            left, skip = len(segment) - start, start - at - 1 << 2 & 0xFFFFFFFC
            if kind == 1:
                segment[at] = 2 | chance.randrange(6) << 3 | chance.randrange(len(segments)) << 32
            elif kind == 2:
                segment[at] = 1 | skip | 6 << 32 | chance.randrange(left + 1) << 35
            elif kind == 3 and left > 1:
                segment[at] = 1 | skip | 7 << 32 | left - 1 << 35
                segment[start] = left - 1 << 2 | 1 << 48
            elif kind > 3:
                segment[at] = skip | chance.randrange(1, min(left, 2) + 1) << 48
    return framed(*segments)


def messages():
    """As many framed messages as are asked for, of a fixed seed."""
    chance, known = random.Random("explain"), samples()
    # (few of these, since they are large)
    many = framed([0], *[[]] * 511)
    for number in range(MANY):
        kind = number % 8
        if number % 1000 == 0:
            yield many
        elif kind < 3:
            yield changed(chance.choice(known), chance)
        elif kind == 3:
            yield made_up(chance)
        elif kind == 4:
            yield structs_message(chance)
        elif kind == 5:
            yield double_far_message(chance)
        elif number % 16 == 7:
            yield cyclic_message(chance)
        else:
            yield far_message(chance)


def compare_lines(options, stream, first, seen, filtered):
    """One run of the program over some messages, of which the first has this number in all. The reasons are counted in `seen`,
    and in `filtered` those for which `filter` refuses an accepted message."""
    words = options.split()
    given = b"".join(stream)
    out, err, status = outputs([PROGRAM, "explain", *words], packed(given) if "--packed" in words else given)
    got = re.split(r"^(?=message \d+: (?:accepted|refused) )", out.decode(), flags=re.M)[1:]
    compare(f"{options}: messages from {first}", (len(stream), b""), (len(got), err))
    reasons, start = Counter(), 0
    for number, (frame, text) in enumerate(zip(stream, got)):
        lines, reason = lines_of(number, segments_of(frame), words, (start, "--packed" in words))
        start += len(frame)
        reasons[reason] += 1
        seen["cycle"] += any(line.startswith("  cycle: ") for line in lines)
        if lines[1:] and lines[1].startswith("  filter"):
            filtered[lines[1].split()[8]] += 1
        compare(f"capvet explain {options}, {frame.hex()[:400]}", "\n".join(lines) + "\n", text)
    compare(f"the status with {options}", int(reasons.total() > reasons["accepted"]), status)
    seen += reasons


def compare_cycles():
    """The line of a cycle, and its member with --json, by what was worked out by hand."""
    for options, words, expected in CYCLES:
        given = framed(words)
        lines = outputs([PROGRAM, "explain", *options.split()], given)[0].decode().splitlines()
        found = re.search(r"^  cycle: the path reaches pointer word (\d+:\d+) at level (\d+), and returns to it at level (\d+)$",
                          "\n".join(lines), re.M)
        member = json.loads(outputs([PROGRAM, "explain", "--json", *options.split()], given)[0]).get("cycle")
        compare(f"the line of a cycle, {options} {words}", expected, found and (found[1], int(found[2]), int(found[3])))
        compare(f"the member of a cycle, {options} {words}", expected,
                member and (f"{member['segment']}:{member['word']}", member["from_level"], member["to_level"]))
        compare(f"the lines of a cycle, {options} {words}", lines_of(0, segments_of(given), options.split(), (0, False))[0], lines)


def compare_other_paths(many):
    """The path to a pointer that is refused for another reason than a limit reaches each word once, so no line of a cycle is lacking."""
    chance, found = random.Random("other paths"), 0
    frames = [cyclic_message(chance) for _ in range(many)]
    lines = outputs([PROGRAM, "vet"], b"".join(frames))[0].decode().splitlines()
    for frame, line in zip(frames, lines, strict=True):
        refused = re.search(r" refused (\w+) at \d+:\d+ pointers ([1-9]\d*)$", line)
        if refused and refused[1] not in ("DepthLimit", "WordLimit", "NoRoot"):
            found += 1
            compare(f"a cycle on the path, {frame.hex()}", [], list(cycle_lines(segments_of(frame), int(refused[2]))))
    expect("paths to other faults", found >= many // 10, found)


def compare_overlaps(many):
    """Runs of the program over messages in which most pointers lead to words of one another."""
    chance, seen = random.Random("overlaps"), Counter()
    stream = [shared(chance) for _ in range(many)]
    for at in range(0, many, RUN):
        compare_lines("--exclusive", stream[at:at + RUN], at, seen, Counter())
    print(f"overlaps: {seen['Overlap']} among {many} messages, {seen['accepted']} accepted")
    expect("overlaps among these messages", 2 * seen["Overlap"] >= many, seen)


def compare_differences(many):
    """Runs of the program over messages that are nearly canonical."""
    chance, seen = random.Random("differences"), Counter()
    stream = [differences.made(chance) for _ in range(many)]
    for at in range(0, many, RUN):
        compare_lines(CANONICAL[at // RUN % len(CANONICAL)], stream[at:at + RUN], at, seen, Counter())
    print("differences:", ", ".join(f"{reason} {seen[reason]}" for reason in DIFFERENCES), "and", seen["accepted"], "canonical")
    for reason in (*DIFFERENCES, "accepted"):
        expect(f"{reason} among the differences", seen[reason] >= 20, f"{seen[reason]} times")


# Streams that break off

def words_of_input(text, is_packed):
    """The words of an input, each with the place after it, and whether the input ends inside a word or a packed group."""
    if not is_packed:
        return [(text[at:at + 8], at + 8) for at in range(0, len(text) - 7, 8)], len(text) % 8 > 0
    words, at = [], 0
    while at < len(text):
        tag = text[at]
        head = at + 1 + tag.bit_count() + (tag in (0x00, 0xff))
        if head > len(text):
            return words, True
        own = iter(text[at + 1:head])
        words.append((bytes(next(own) if tag >> place & 1 else 0 for place in range(8)), head))
        more, at = text[head - 1] if tag in (0x00, 0xff) else 0, head
        for _ in range(more):
            if tag and at + 8 > len(text):
                return words, True
            words.append((text[at:at + 8] if tag else bytes(8), at + 8 if tag else at))
            at += 8 if tag else 0
    return words, False


def table_of(words):
    """How many segments the table at the start of words gives, how many words it has, and the sizes, if they are all there."""
    if not words:
        return None, None, None
    count = struct.unpack_from("<I", words[0][0])[0] + 1
    long = count // 2 + 1
    if count > 512 or len(words) < long:
        return count, long, None
    return count, long, struct.unpack_from(f"<{count}I", b"".join(word for word, _ in words[:long]), 4)


# The bytes of text.
TEXT = frozenset(b"\t\n\r") | frozenset(range(0x20, 0x7f))


def first_guess(head, is_packed):
    """What an input may be, by the four bytes with which it begins: those of its first word, if it is read as packed."""
    if is_packed:
        # (the first byte of gzip and of TLS is a tag, and says where in the word those after it are)
        return "like gzip: decompress it first" if head[:2] == b"\x8b\x08" else (
            "like TLS: decrypt it first" if head[:2] == b"\0\3" and head[2] <= 4 and head[3] == 0 else None)
    if head[:3] == b"\x1f\x8b\x08":
        return "like gzip: decompress it first"
    if 20 <= head[0] <= 23 and head[1] == 3 and head[2] <= 4:
        return "like TLS: decrypt it first"
    if TEXT.issuperset(head) and (head[:1], head[3:]) != (b"0", b"P"):
        return "like text"
    # (the tag of a table of at most 256 segments, and the first byte of what it says)
    return "packed: try --packed" if head[0] & 0x8e == 0 and head[0] & 0x70 and head[1] else None


def guess_lines(number, start, head, is_packed):
    """The line of what an input may be that breaks off at a message of this number and place, in a list. `head` has the first four
    bytes of that message if they say too many segments."""
    guess = first_guess(head, is_packed) if head and number == 0 else None
    if is_packed and start < 4 * number:
        guess = "unpacked: try it without --packed"
    return [f"capvet: the input looks {guess}"] if guess else []


def break_lines(text, is_packed, limit):
    """How many messages of an input are whole, and what standard error says of the one at which it breaks off, if it does. A guess
    may come last. The third result is the guess of a command that doesn't know where this message begins, in a list."""
    words, is_cut = words_of_input(text, is_packed)
    number, start = 0, 0
    while words or is_cut:
        count, long, sizes = table_of(words)

        # (a packed word of the table, which was read, has two bytes or more)
        def ended(lines, place, head=b""):
            return number, [*lines, *guess_lines(number, start, head, is_packed)], guess_lines(number, place, head, is_packed)
        where = f"  message at byte {start} of the {'packed ' * is_packed}input"
        if count is not None and count > 512:
            return ended([f"capvet: message {number}: TooManySegments {count}", where, f"  segments {count}, limit 512",
                          "  reason the first word of the message says more segments than a message may have"],
                         words[0][1] - 2, words[0][0][:4])
        reported = [] if sizes is None else [f"  table segments {count}, words {sum(sizes)}"]
        if sizes is not None and sum(sizes) > limit:
            return ended([f"capvet: message {number}: TooLarge {sum(sizes)}", where, *reported, f"  words {sum(sizes)}, limit {limit}",
                          "  reason the segments together have more words than the limit allows"], words[long - 1][1] - 2)
        if sizes is None or len(words) < long + sum(sizes):
            needed = "" if sizes is None else f", needed {8 * (long + sum(sizes))}{' unpacked' * is_packed}"
            place, part = "segment table" if sizes is None else "segments", "packed group" if is_packed else "word"
            end = f", and inside a {part}" if is_cut else f", between two {part}s"
            return ended([f"capvet: message {number}: Truncated at byte {len(text)}", where, *reported,
                          f"  bytes there {len(text) - start}{' packed' * is_packed}{needed}",
                          f"  reason the input ends inside the {place}{end}"], len(text))
        start, words, number = words[long + sum(sizes) - 1][1], words[long + sum(sizes):], number + 1
    return number, [], []


def broken_stream(chance, stream):
    """A stream that often breaks off at one of its messages."""
    text = b"".join(chance.choice(stream) for _ in range(chance.randrange(3)))
    kind = chance.randrange(6)
    if kind == 0:
        # (a table of many segments, or of too many)
        count = chance.choice((1, 2, 3, 511, 512, 513, 1 << 31))
        sizes = struct.pack("<I", count - 1) + bytes(4 * chance.randrange(4)) + struct.pack("<I", chance.choice((0, 5, 1 << 25)))
        text += sizes + bytes(-len(sizes) % 8) + bytes(8 * chance.randrange(300))
    elif kind == 1:
        text += chance.randbytes(chance.randrange(40))
    elif text:
        text = text[:chance.randrange(len(text))] if kind < 5 else text
    return text


def foreign(chance, stream, is_packed):
    """Bytes that are no stream of messages in this form."""
    text = b"".join(chance.choice(stream) for _ in range(chance.randrange(1, 4)))
    return chance.choice((
        gzip.compress(text), bytes((chance.randrange(20, 24), 3, chance.randrange(6))) + chance.randbytes(40),
        bytes(chance.choice(sorted(TEXT)) for _ in range(chance.randrange(1, 40))),
        b"0" + bytes(chance.choice(sorted(TEXT)) for _ in range(2)) + b"P" + chance.randbytes(20), chance.randbytes(40),
        text if is_packed else packed(text)))


def in_form(chance, text, is_packed):
    """A stream in the form that is asked for. A packed one is often cut."""
    if not is_packed:
        return text
    text = packed(text + bytes(-len(text) % 8))
    return text[:chance.randrange(len(text) + 1)] if chance.random() < 0.7 else text


# The commands that guess as `explain` does, and explain nothing.
GUESSING = (["hash"], ["filter"], ["hash", "--json"], ["filter", "--exclusive"])
# What the first bytes may say of an input that is read as it is, and of one that is read as packed.
GUESSES = {False: ("like gzip: decompress it first", "like TLS: decrypt it first", "like text", "packed: try --packed"),
           True: ("like gzip: decompress it first", "like TLS: decrypt it first", "unpacked: try it without --packed")}


def compare_guesses(command, text, lines, guess):
    """One run of a command that guesses, over a stream on which `explain` writes these lines."""
    _, err, status = outputs([PROGRAM, *command], text)
    got = [line for line in err.decode().splitlines() if line.startswith("capvet: ")]
    compare(f"capvet {command}, {text.hex()[:400]}", ([*lines[:1], *guess], True), (got, status == 1 or not lines))


def compare_breaks(stream, many):
    """Runs of the program over streams that break off."""
    chance, seen, guessed, short = random.Random("breaks"), Counter(), Counter(), Counter()
    small = [frame for frame in stream if len(frame) < 2000]
    for number in range(2 * many):
        limit, is_packed = chance.choice((8388608, 8388608, 3, 20)), number % 2 == 1
        options = ["--exclusive"] * (number % 3 == 0) + ["--size", str(limit)]
        text = in_form(chance, broken_stream(chance, small), is_packed) if number < many else foreign(chance, small, is_packed)
        out, err, status = outputs([PROGRAM, "explain", *options, *["--packed"] * is_packed], text)
        whole, lines, guess = break_lines(text, is_packed, limit)
        compare(f"capvet explain {options}, packed {is_packed}, {text.hex()[:400]}",
                (whole, "".join(f"{line}\n" for line in lines)), (len(re.findall(rb"^message ", out, re.M)), err.decode()))
        expect("the status of a stream that breaks off", not lines or status == 1, status)
        compare_guesses([*GUESSING[number // 2 % len(GUESSING)], "--size", str(limit), *["--packed"] * is_packed], text, lines, guess)
        expect("what `hash` and `filter` guess, `explain` guesses", not guess or guess == lines[-1:], text.hex()[:400])
        short["unpacked" in "".join(lines[-1:]), len(guess)] += 1
        reason = [line for line in lines if line.startswith("  reason ")]
        seen[re.sub(r"\d+", "N", " ".join((lines or ["whole"])[0].split()[3:4] + reason))] += 1
        guessed[is_packed, lines[-1].partition(" looks ")[2] if lines else ""] += 1
    for is_packed, guesses in GUESSES.items():
        for guess in guesses:
            expect(f"guesses, packed {is_packed}: {guess}", guessed[is_packed, guess] >= many // 100, guessed)
    print(f"{short[True, 1]} of {short[True, 0] + short[True, 1]} unpacked streams look so to `hash` and `filter` too")
    expect("unpacked streams for `hash` and `filter`", short[True, 1] >= many // 100, short)
    for name, times in sorted(seen.items()):
        print(f"{times} {name}")
    expect("each end of a stream", len(seen) >= 11 and min(seen.values()) >= many // 200, seen)


def of_libraries(text):
    """What the libraries say of each message, by what `capvet explain` prints of a stream: the verdict, and the lines that explain it.
    They know no input."""
    text = re.sub(r", byte \d+ of the (unpacked )?input$", "", text, flags=re.M)
    for part in re.split(r"^message \d+: ", text, flags=re.M)[1:]:
        verdict, *lines = part.splitlines()
        if verdict.startswith("accepted"):
            lines = []
        yield verdict, "".join(f"{line}\n" for line in lines)


def limits_of(words, has_table):
    """The limits and flags of a call by the options of a run."""
    flags = model.NONSTRICT * ("--strict" not in words) | model.AMPLIFIED * ("--unamplified" not in words)
    flags |= model.NO_TABLE * (not has_table)
    charge, depth = (int(words[words.index(name) + 1]) if name in words else default
                     for name, default in (("--words", 8388608), ("--depth", 64)))
    return model.Limits(charge=charge, depth=depth, flags=flags)


# The lines of inputs that are no message and nothing else.
FRAME_SENTENCES = {"NO_MESSAGE": "the input is empty",
                   "TOO_MANY_SEGMENTS": "the first word of the message says more segments than a message may have",
                   "TOO_LARGE": "the segments together have more words than the limit allows",
                   "TRUNCATED": "the input ends inside the message", "TRAILING": "bytes follow the message"}
FRAME_LINES = {model.ANSWERS[name]: f"  reason {sentence}\n" for name, sentence in FRAME_SENTENCES.items()}


def text_of(frame, words, has_table):
    """The text on a message, which is nothing if it is accepted."""
    lines, reason = lines_of(0, segments_of(frame), words, None, has_table)
    return "" if reason == "accepted" else "".join(f"{line}\n" for line in lines[1:])


def input_of(frame, has_table, chance):
    """The bytes that a call gets of a message. Some are cut, some have more bytes after them, and some claim other segments."""
    given, kind = frame if has_table else frame[8:], chance.randrange(30)
    if kind == 0:
        return given[:chance.choice((0, chance.randrange(len(given) + 1)))]
    if kind == 1:
        return given + bytes(chance.randrange(1, 9))
    if kind == 2 and has_table:
        return struct.pack("<I", chance.choice((511, 512, 600, 1, 0xFFFFFFFF))) + given[4:]
    if kind == 3 and has_table:
        return given[:4] + b"\xff" * 4 + given[8:]
    return given


def reply_of(given, words, limits, size, has_table):
    """What a call replies, with the answer and the report of capvet_vet."""
    answer, _, report, _ = model.called(model.VET, given, limits, 0)
    text = FRAME_LINES.get(answer, "")
    if answer >= model.ANSWERS["NOT_CANONICAL"]:
        text = text_of(given if has_table else struct.pack("<II", 0, len(given) // 8) + given, words, has_table)
    # (a size below zero is counted from the length of the text)
    size = max(0, len(text) + 1 + size) if size < 0 else size
    return size, answer, REPLY.pack(answer, len(text), *report, *[0] * model.RESERVED) + text.encode() * (len(text) <= size)


def compare_calls(built, options, stream, first, chance, answers):
    """One run of tests/calls/c/explain.c over some messages. Half of those of one segment, if it has words, have no table."""
    words = [word for word in options.split() if word != "--exclusive"]
    tables = [len(frame) == 8 or frame[:4] != bytes(4) or chance.random() < 0.5 for frame in stream]
    inputs = [input_of(frame, has_table, chance) for frame, has_table in zip(stream, tables)]
    limits = [limits_of(words, has_table) for has_table in tables]
    replies = [reply_of(given, words, limit, chance.choice((BOUND, 1000, 400, 250, 90, 0, -1, -2)), has_table)
               for given, limit, has_table in zip(inputs, limits, tables)]
    out, err, status = over_file([built], b"".join(
        limit.packed() + struct.pack("<3I", size, chance.randrange(8), len(given)) + given
        for (size, _, _), given, limit in zip(replies, inputs, limits)))
    compare(f"capvet_explain, {options}: messages from {first}", (0, b""), (status, err))
    expect("messages without a table", not all(tables), tables)
    at = 0
    for given, (size, answer, reply) in zip(inputs, replies):
        compare(f"capvet_explain {options} {size}, {given.hex()[:400]}", reply, out[at:at + len(reply)])
        at += len(reply)
        answers[answer] += 1
    compare(f"capvet_explain, {options}: replies from {first}", at, len(out))


def explained_in_c(stream):
    """All messages, explained by the call."""
    if missing("explanations from C", "cc"):
        return
    chance, checks, answers = random.Random("calls"), CHECKS, Counter()
    if missing("explanations from C with the compiler's checks", "checks-gcc"):
        checks = []
    with tempfile.TemporaryDirectory() as folder:
        built = compiled(Path(folder), "explain", "cc", "c11", ARCHIVE, *checks)
        for at in range(0, len(stream) if built else 0, RUN):
            compare_calls(built, OPTIONS[at // RUN % len(OPTIONS)], stream[at:at + RUN], at, chance, answers)
        for name in FRAME_SENTENCES:
            expect(f"inputs that are {name}", not built or answers[model.ANSWERS[name]] >= 3, answers)


# The most bytes of the lines of an overlap, and the answers of their call.
OVERLAP_BOUND = 12288
OVERLAP_ANSWERS = model.ANSWERS | dict(NO_NODE=21)


def overlap_request(chance):
    """A message, the limits, a pointer with its place, and what the call replies to it, for a buffer of a size."""
    frame = shared(chance)
    has_table = frame[:4] != bytes(4) or len(frame) == 8 or chance.random() < 0.5
    limits = model.Limits(flags=model.NONSTRICT | model.AMPLIFIED | model.NO_TABLE * (not has_table), depth=chance.choice((64, 64, 256, 3)))
    given = input_of(frame, has_table, chance)
    answer, _, fields, _ = model.called(model.EXCLUSIVE, given, limits, 1 << 20)
    report = dict(zip(model.FIELDS, fields))
    if answer != model.ANSWERS["OVERLAP"]:
        return None
    number = report["pointers"] if chance.randrange(5) else chance.randrange(report["pointers"] + 1)
    message = segments_of(given if has_table else struct.pack("<II", 0, len(given) // 8) + given)
    lines, (segment, at) = "", (0, 0)
    if number > 0:
        (segment, at), _ = model.vetted(message, 1 << 28, limits.depth).steps[number - 1]
        lines = "".join(f"  {line}\n" for line in explanation(message, "Overlap", segment, at, number, 0, 0, None, has_table))
    size = chance.choice((OVERLAP_BOUND, 1000, 0, len(lines), max(len(lines) - 1, 0)))
    name = "NO_NODE" if number == 0 else "OK" if len(lines) <= size else "BUFFER_TOO_SMALL"
    extent = (report[name] if name in ("length", "segments", "words") else 0 for name in model.FIELDS)
    reply = REPLY.pack(OVERLAP_ANSWERS[name], len(lines), *extent, *[0] * model.RESERVED) + lines.encode() * (name == "OK")
    head = limits.packed() + struct.pack("<Q5I", number, segment, at, size, chance.randrange(8), len(given)) + given
    return name, has_table, head, reply


def overlaps_in_c(many):
    """Pointers that are explained as overlaps by the call."""
    if missing("overlaps from C", "cc"):
        return
    chance, checks, seen = random.Random("overlaps in C"), CHECKS, Counter()
    if missing("overlaps from C with the compiler's checks", "checks-gcc"):
        checks = []
    requests = [it for it in (overlap_request(chance) for _ in range(many)) if it]
    with tempfile.TemporaryDirectory() as folder:
        built = compiled(Path(folder), "overlaps", "cc", "c11", ARCHIVE, *checks)
        if not built:
            return
        out, err, status = over_file([built], b"".join(head for _, _, head, _ in requests))
    compare("capvet_explain_overlap", (0, b""), (status, err))
    at = 0
    for name, has_table, head, reply in requests:
        compare(f"capvet_explain_overlap {head.hex()[:600]}", reply, out[at:at + len(reply)])
        at += len(reply)
        seen[name, has_table] += 1
    compare("capvet_explain_overlap: the replies", at, len(out))
    for name in ("OK", "NO_NODE", "BUFFER_TOO_SMALL"):
        for has_table in (True, False):
            expect(f"{name} of messages with a table: {has_table}", seen[name, has_table] >= many // 200, seen)
    print("capvet_explain_overlap:", ", ".join(f"{name} {count}" for (name, _), count in sorted(seen.items())))


def main():
    seen, filtered, stream = Counter(), Counter(), list(messages())
    for at in range(0, len(stream), RUN):
        compare_lines(OPTIONS[at // RUN % len(OPTIONS)], stream[at:at + RUN], at, seen, filtered)
    compare_cycles()
    compare_other_paths(MANY // 10)
    compare_overlaps(MANY)
    compare_differences(3 * MANY)
    explained_in_c(stream)
    overlaps_in_c(MANY)
    compare_breaks(stream, MANY // 5)
    for reason, least in LEAST.items():
        expect(f"{reason} among the refusals", seen[reason] >= least, f"{seen[reason]} times, and not {least}")
    expect("depth limits with a cycle and without one", 20 <= seen["cycle"] <= seen["DepthLimit"] - 5, seen)
    for reason, least in FILTERED.items():
        expect(f"accepted messages that filter refuses for {reason}", filtered[reason] >= least, filtered)
    print(", ".join(f"{reason} {count}" for reason, count in sorted(seen.items())))
    print("refused by filter:", ", ".join(f"{reason} {count}" for reason, count in sorted(filtered.items())))
    return ended()


if __name__ == "__main__":
    sys.exit(main())
