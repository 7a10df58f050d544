#!/usr/bin/env python3
"""Measures how much of the stack each call of the header takes, and compares it with the number in the header.

    stack.py ARCHIVE [--full]

tests/calls/c/stack.c paints a stack before each call. The messages are the ones that take most: one of eleven segments in which each
landing pad is of two words, the deepest trees, and the most segments. Others are made: 2,000, or 20,000 with --full. In these each
pointer is near, or far over a pad of one word or two. Some are changed, so that they are refused. The message of eleven
segments is also vetted on a thread with 24 KiB of stack. The figure of each call is printed.

The last line is 'N passed, M failed', and the status is 1 if one failed.
"""
import random
import re
import struct
import sys
import tempfile
from pathlib import Path

sys.path[1:1] = map(str, Path(__file__).resolve().parents[1].iterdir())

from amount import cases
from calls import SEED, compiled
from harness import ARCHIVE, TOP, compare, ended, expect, framed, run
from made import changed, samples
from model import AMPLIFIED, NO_TABLE, NONSTRICT
from needs import missing
from readers import far, near

MANY = cases(2_000, full=20_000)  # made messages
THREAD = 24 * 1024
FLAGS = (0, 0, NONSTRICT | AMPLIFIED, NONSTRICT | AMPLIFIED | 1, NO_TABLE | AMPLIFIED)
COMPOSITE = 7


def eleven():
    """A chain of structs, each in a segment of its own after a pad of two words, and a list of structs at its end."""
    segments = [[far(1, 0, True)]]
    for segment in range(1, 10):
        own = [far(segment + 1, 0, True), 0] if segment < 9 else [0, far(10, 0, True)]
        segments.append([far(segment, 2), 2 << 48, *own])
    segments.append([far(10, 2), 1 | COMPOSITE << 32 | 1 << 35, 1 << 2 | 1 << 32, 7])
    return segments


def deep(levels, two_words):
    """A chain of structs of one pointer."""
    segments = [[0]]
    for level in range(levels):
        last = len(segments) - 1
        if two_words:
            segments.append([far(last + 1, 2), 1 << 48, 0])
            segments[last][-1] = far(last + 1, 0, True)
        else:
            segments[0][-1] = near(1 << 48, 0)
            segments[0].append(0)
    return segments


class Made:
    """A random message. Each object is laid out in one of its segments."""

    def __init__(self, chance):
        self.chance, self.left = chance, chance.choice((3, 10, 40, 200))
        self.segments = [[0]] + [[] for _ in range(chance.choice((0, 1, 3, 10, 30)))]
        self.path = ""
        # (objects that wait for their pointers to be set: the last one first, so that trees are deep, or the first one)
        ahead, at = [(0, 0, 1, "")], chance.choice((0, -1, -1))
        while ahead:
            segment, word, level, path = ahead.pop(at)
            ahead += self.fill(segment, word, level, path)

    def fill(self, segment, word, level, path):
        """Makes the pointer at a place lead to an object, and returns the places of the object's pointers."""
        chance = self.chance
        if self.left == 0 or level > 250 or chance.randrange(12) == 0:
            self.segments[segment][word] = chance.choice((0, 0, 3 | 5 << 32))
            return []
        self.left -= 1
        to = chance.randrange(len(self.segments))
        words, start = self.segments[to], len(self.segments[to])
        kind = chance.randrange(5)
        if kind < 2:
            data, pointers = chance.randrange(3), chance.randrange(1, 4)
            tag, below = data << 32 | pointers << 48, [(start + data + i, f"/p{i}") for i in range(pointers)]
            words += [chance.choice((0, 1, 9)) for _ in range(data)] + [0] * pointers
        elif kind == 2:
            count = chance.randrange(4)
            tag, below = 1 | 6 << 32 | count << 35, [(start + i, f"/i{i}") for i in range(count)]
            words += [0] * count
        elif kind == 3:
            count, data, pointers = chance.randrange(4), chance.randrange(2), chance.randrange(3)
            tag = 1 | COMPOSITE << 32 | count * (data + pointers) << 35
            below = [(start + 1 + i * (data + pointers) + data + j, f"/i{i}/p{j}") for i in range(count) for j in range(pointers)]
            words += [count << 2 | data << 32 | pointers << 48] + [0] * (count * (data + pointers))
        else:
            code, count = chance.randrange(6), chance.randrange(70)
            tag, below = 1 | code << 32 | count << 35, []
            words += [7] * (((0, 1, 8, 16, 32, 64)[code] * count + 63) // 64)
        self.path = max(path, self.path, key=len)
        self.point(segment, word, to, start, tag)
        return [(to, at, level + 2 if kind == 3 else level + 1, path + step) for at, step in below]

    def point(self, segment, word, to, start, tag):
        """Sets a pointer to an object: near if it can be, or over a pad of one word or two."""
        form = self.chance.randrange(3)
        if form == 0 and segment == to:
            self.segments[segment][word] = near(tag, start - word - 1)
        elif form < 2:
            pad = len(self.segments[to])
            self.segments[to].append(near(tag, start - pad - 1))
            self.segments[segment][word] = far(to, pad)
        else:
            pads = self.chance.randrange(len(self.segments))
            self.segments[segment][word] = far(pads, len(self.segments[pads]), True)
            self.segments[pads] += [far(to, start), tag]


def messages(chance):
    """Each message with its flags and a path in it."""
    allowed = NONSTRICT | AMPLIFIED
    yield 0, "/p0/p0/p0/p0/p0/p0/p0/p0/p1/i0", framed(*eleven())
    for levels, two_words in ((255, False), (256, False), (64, True), (256, True)):
        yield 0, "/p0" * (levels - 1), framed(*deep(levels, two_words))
    for count in (510, 511):
        yield allowed, "/p0", framed([far(count, 0, True)], *[[]] * (count - 1), [far(count, 2), 1 << 48, 0])
    for message in samples():
        for flags in FLAGS:
            yield flags, "/p0/i0/p1", message
    for _ in range(MANY):
        made = Made(chance)
        message = framed(*made.segments)
        message = changed(message, chance) if chance.randrange(5) == 0 else message
        if len(made.path) < 4000:
            yield chance.choice(FLAGS), made.path or "/", message


def main():
    header = (TOP / "include/capvet.h").read_text()
    most = 1024 * int(re.search(r"at most (\d+) KiB of stack", header)[1])
    if missing("the stack of the calls", "cc"):
        return ended()
    with tempfile.TemporaryDirectory() as folder:
        # (all names are bound at the start, since binding one takes stack too)
        built = compiled(Path(folder), "stack", "cc", "c11", ARCHIVE, "-O1", "-pthread", "-Wl,-z,now")
        if built is not None:
            measure(built, Path(folder), most, header)
    return ended()


def measure(built, folder, most, header):
    path, count = folder / "messages", 0
    with path.open("wb") as file:
        for flags, steps, message in messages(random.Random(SEED)):
            file.write(struct.pack("<III", flags, len(steps), len(message)) + steps.encode() + message)
            count += 1
    text, status = run([built, path])
    expect("the calls on painted stacks", status == 0, status, text)
    taken = {name: int(size) for name, size in map(str.split, text.splitlines())}
    for name, size in sorted(taken.items(), key=lambda pair: -pair[1]):
        print(f"stack: {name} takes at most {size:,} bytes")
        expect(f"the stack of {name}", size <= most, f"{size} bytes, and the header has {most}")
    named = set(re.findall(r"\b(capvet_\w+)\(", header)) - {"capvet_answer_name", "capvet_difference_name", "capvet_cpu_supported"}
    has = {name for name in named if name in taken or name.endswith("_bound")} | {"capvet_limits_default", "capvet_abi_2"}
    expect("each call of the header is measured", named <= has, str(named - has))
    compare(f"capvet_vet_exclusive on a thread of {THREAD} bytes", ("Ok\n", 0), run([built, "--thread", THREAD, path]))
    print(f"stack: measured over {count} messages")


if __name__ == "__main__":
    sys.exit(main())
