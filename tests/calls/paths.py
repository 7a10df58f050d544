"""Compares capvet_pointer_path and capvet_earlier_pointer, from C, with a model that keeps the path to each pointer.
tests/calls/calls.py runs it.

The messages are the samples, changed, cut and made ones, each with limits and flags. Most numbers are those that the model of
tests/shared/model.py has for the pointer that a verdict names: a refusal, one that common readers reject, or an overlap. Others are
any number up to a few past the last pointer, and one that is too high for any. tests/calls/c/paths.c checks that each path but its
last step leads to some place by capvet_get, which follows only the path. The paths of BY_HAND have known answers. The earlier
pointer of each number is found here by its definition, from the words that each pointer uses."""
import struct
from collections import Counter
from itertools import islice

import model
from amount import cases
from harness import compare, expect, framed, over_file, under_valgrind
from made import changed, made_up, shared
from model import EXCLUSIVE, FIELDS, REPORT, RESERVED, VET, Limits, Refused, children, followed
from needs import missing

ANSWERS = model.ANSWERS | dict(NO_NODE=21)
HEAD, EARLIER = struct.Struct(f"<IQ{REPORT}"), struct.Struct(f"<I{REPORT}")
MANY = cases(10_000, full=100_000)  # numbers of pointers
POINTER, ELEMENT = 0, 1
NAMED = ("OVERLAP", "NullPad", "EmptySegment", "CapabilityPad", "RESERVED", "SEGMENT_MISSING", "PAD_OUTSIDE", "PAD_IS_FAR",
         "PAD_NOT_FAR", "TAG_KIND", "TAG_OFFSET", "OUT_OF_SEGMENT", "COMPOSITE_TAG", "COMPOSITE_OVERRUN", "DEPTH_LIMIT", "WORD_LIMIT")

# A root of two pointers: null, and to a list of two structs of a word and two pointers. The last pointer of these is to a
# list of two pointers, the second of which is out of bounds.
DEEP = framed([2 << 48, 0, 1 | 7 << 32 | 6 << 35, 2 << 2 | 1 << 32 | 2 << 48, 5, 0, 0, 6, 0, 1 | 6 << 32 | 2 << 35, 0, 1 << 34])
# Structs whose pointer is far: to null, to an object in a segment without words, to a capability, and to pads whose tag has a
# wrong kind or an offset. Changed messages have few of these.
RARE = (framed([1 << 48, 2 | 2 << 3, 0]), framed([1 << 48, 2 | 1 << 2 | 2 << 3, 2 | 1 << 32, 0], []),
        framed([1 << 48, 2 | 2 << 3, 3 | 5 << 32]), framed([1 << 48, 2 | 1 << 2 | 2 << 3, 2, 3]), framed([1 << 48, 2 | 1 << 2 | 2 << 3, 2, 4]))
# A struct whose pointer leads to it again.
CYCLE = framed([1 << 48, 0xFFFFFFFC | 1 << 48])
# The same of two pointers: the depth limit alone leaves more pointers than any machine could look at.
TWICE = framed([2 << 48, 0xFFFFFFFC | 2 << 48, 0xFFFFFFF8 | 2 << 48])
# The bytes, the limits, the number and the capacity; the answer, `required` and the steps.
BY_HAND = (
    (DEEP, Limits(), 1, 0, "OK", 0, ()), (DEEP, Limits(), 2, 1, "OK", 1, ((POINTER, 0),)),
    (DEEP, Limits(), 3, 1, "OK", 1, ((POINTER, 1),)),
    (DEEP, Limits(), 4, 3, "OK", 3, ((POINTER, 1), (ELEMENT, 0), (POINTER, 0))),
    (DEEP, Limits(), 5, 9, "OK", 3, ((POINTER, 1), (ELEMENT, 0), (POINTER, 1))),
    (DEEP, Limits(), 7, 3, "OK", 3, ((POINTER, 1), (ELEMENT, 1), (POINTER, 1))),
    (DEEP, Limits(), 9, 4, "OK", 4, ((POINTER, 1), (ELEMENT, 1), (POINTER, 1), (ELEMENT, 1))),
    (DEEP, Limits(), 9, 3, "BUFFER_TOO_SMALL", 4, ()), (DEEP, Limits(), 9, 0, "BUFFER_TOO_SMALL", 4, ()),
    (DEEP, Limits(), 10, 9, "NO_NODE", 0, ()), (DEEP, Limits(), 0, 9, "NO_NODE", 0, ()),
    (DEEP, Limits(), (1 << 64) - 1, 9, "NO_NODE", 0, ()),
    (DEEP, Limits(depth=2), 3, 9, "OK", 1, ((POINTER, 1),)), (DEEP, Limits(depth=2), 4, 9, "NO_NODE", 0, ()),
    (DEEP, Limits(charge=8), 9, 4, "OK", 4, ((POINTER, 1), (ELEMENT, 1), (POINTER, 1), (ELEMENT, 1))),
    (DEEP, Limits(charge=7), 9, 4, "NO_NODE", 0, ()), (DEEP, Limits(charge=0), 1, 0, "OK", 0, ()),
    (DEEP[8:], Limits(flags=8), 3, 1, "OK", 1, ((POINTER, 1),)), (DEEP, Limits(flags=9), 3, 1, "BAD_LIMITS", 0, ()),
    (DEEP + bytes(1), Limits(), 3, 1, "TRAILING", 0, ()), (DEEP + bytes(1), Limits(flags=1), 3, 1, "OK", 1, ((POINTER, 1),)),
    (DEEP[:-1], Limits(), 3, 1, "TRUNCATED", 0, ()), (b"", Limits(), 1, 1, "NO_MESSAGE", 0, ()),
    (framed([]), Limits(), 1, 1, "NO_NODE", 0, ()),
    (CYCLE, Limits(depth=256), 257, 256, "OK", 256, ((POINTER, 0),) * 256), (CYCLE, Limits(depth=256), 258, 256, "NO_NODE", 0, ()),
    (TWICE, Limits(depth=256), (1 << 64) - 1, 256, "NO_NODE", 0, ()),
    (TWICE, Limits(depth=256), 257, 256, "OK", 256, ((POINTER, 0),) * 256))


def steps_below(found):
    """The steps from an object to its pointers, in order."""
    if found.kind == "struct":
        return [((POINTER, i),) for i in range(found.sizes[1])]
    if found.kind == "pointers":
        return [((ELEMENT, i),) for i in range(found.sizes[1])]
    if found.kind == "structs":
        return [((ELEMENT, i), (POINTER, j)) for i in range(found.sizes[0]) for j in range(found.sizes[2])]
    return []


def walked(message, depth):
    """Each pointer in preorder, as its place and its path, up to one that can't be followed or leads too deep."""
    stack = [(0, 0, 1, ())] if message[0] else []
    while stack:
        segment, at, level, path = stack.pop()
        yield (segment, at), path
        try:
            found = followed(message, segment, at)
        except Refused:
            return
        if found.kind not in ("null", "cap") and level + (found.kind == "structs" and found.sizes[0] > 0) > depth:
            return
        places, levels = children(found)
        below = [(*place, level + levels, path + steps) for place, steps in zip(places, steps_below(found))]
        stack.extend(reversed(below))


def up_to(message, limits, number):
    """The pointers up to that of this number, or none if it has no path."""
    # (no verdict counts more pointers, and a message of few words may have many more)
    first = list(islice(walked(message, limits.depth), number)) if number <= limits.charge + 1 else []
    return first if len(first) == number else []


def words_used(message, place):
    """The places that following a pointer uses."""
    try:
        return set(followed(message, *place).used)
    except Refused:
        return set()


def opened(data, limits):
    """The message that bytes are and the extent of its frame, or an answer and the fields of its report."""
    if not limits.are_good(VET):
        return None, ("BAD_LIMITS", {})
    message, frame = model.taken(VET, data, limits, 0)
    if message is None:
        return None, frame
    extent = dict(length=frame, segments=len(message), words=sum(map(len, message)))
    if len(data) > frame and not limits.flags & model.TRAILING:
        return None, ("TRAILING", dict(detail=len(data) - frame, **extent))
    return message, extent


def numbers_of(fields):
    """The fields of a report, of which the others are 0."""
    return tuple(fields.get(name, 0) for name in FIELDS)


def earlier(data, limits, number):
    """The answer of capvet_earlier_pointer, and the fields of its report."""
    message, reported = opened(data, limits)
    if message is None:
        return ANSWERS[reported[0]], numbers_of(reported[1])
    *others, named = [place for place, _ in up_to(message, limits, number)] or [None]
    words = words_used(message, named) if named else set()
    for count, place in enumerate(others, 1):
        if words and words & words_used(message, place):
            return ANSWERS["OK"], numbers_of(dict(reported, pointers=count, segment=place[0], word=place[1]))
    return ANSWERS["NO_NODE"], numbers_of(reported)


def got(data, limits, number, capacity):
    """The answer of capvet_pointer_path, what it sets `required` to, the fields of its report, and the steps that it writes."""

    def result(answer, count=0, steps=(), **fields):
        return ANSWERS[answer], count, numbers_of(fields), steps

    message, reported = opened(data, limits)
    if message is None:
        return result(reported[0], **reported[1])
    extent, first = reported, up_to(message, limits, number)
    path = first[-1][1] if first else None
    if path is None:
        return result("NO_NODE", **extent)
    if len(path) > capacity:
        return result("BUFFER_TOO_SMALL", len(path), **extent)
    return result("OK", len(path), path, **extent)


def requests(samples, chance):
    """Calls for a path, each with the answer of the verdict that names the pointer, or 0 for any pointer."""
    small = [message for message in samples if len(message) < 1000]
    while True:
        kind = chance.randrange(12)
        data = (changed(chance.choice(small), chance) if kind < 6 else made_up(chance) if kind < 9 else
                shared(chance) if kind < 11 else chance.choice((*samples, *RARE)))
        if chance.randrange(20) == 0:
            data = data[:chance.randrange(len(data) + 1)]
        if chance.randrange(20) == 0:
            data += bytes(chance.randrange(1, 9))
        flags = chance.choice((0, 0, 0, 1, 2, 4, 6, 7, 8, 14, 9, 16)) if chance.randrange(4) == 0 else 0
        if flags == 8 and chance.randrange(2):
            data = data[8:]
        limits = Limits(charge=chance.choice((8388608, 8388608, 8388608, 4, 20, 60)), flags=flags,
                        depth=chance.choice((64, 64, 64, 256, 1, 2, 3, 5, 257)))
        call = chance.choice((VET, EXCLUSIVE))
        answer, _, fields, _ = model.called(call, data, limits, 1 << 20)
        number = fields[FIELDS.index("pointers")]
        # (of an accepted message that is the number of its last pointer)
        if chance.randrange(8) == 0 or number == 0:
            answer, number = 0, chance.choice((0, 1, 2, 5, number + 1, number + 2, chance.randrange(number + 3), 1 << 63))
        yield (data, limits, number, chance.choice((0, 1, 2, 3, 4, 8, 256)), chance.randrange(8)), answer


def described(many):
    """The calls, as tests/calls/c/paths.c reads them."""
    return b"".join(limits.packed() + struct.pack("<Q3I", number, capacity, odd, len(data)) + data
                    for data, limits, number, capacity, odd in many)


def replies(program, many):
    """What C answers to these calls: the answer, `required`, the report and the steps, and the answer and report of the
    earlier pointer. What it writes on standard error, and its status."""
    out, *end = over_file([program], described(many))
    found, at = [], 0
    while at < len(out):
        answer, required, *report = HEAD.unpack_from(out, at)
        at += HEAD.size
        count = required if answer == 0 else 0
        steps = tuple(struct.unpack_from("<II", out, at + 8 * k) for k in range(count))
        at += 8 * count
        other, *its = EARLIER.unpack_from(out, at)
        at += EARLIER.size
        found.append((answer, required, tuple(report), steps, (other, tuple(its))))
    return found, *end


def compare_paths(program, many):
    """The calls beside the model, and what each of them answers and writes."""
    found, err, status = replies(program, many)
    compare("paths, with the compiler's checks", (0, b""), (status, err))
    compare("replies to calls for a path", len(many), len(found))
    for (data, limits, number, capacity, _), (answer, required, report, steps, other) in zip(many, found):
        expected, written = got(data, limits, number, capacity), (answer, required, report, steps)
        answered, fields = earlier(data, limits, number)
        compare(lambda: f"the pointer before {number} of {data.hex()} in {limits}", (answered, fields + (0,) * RESERVED), other)
        expect(lambda: f"path {number} {capacity} of {data.hex()} in {limits}",
               (answer, required, report[:len(FIELDS)], steps) == expected and not any(report[len(FIELDS):]), written, expected)
    return found


def test(asking, watched, samples, chance):
    known = [(row[:4] + (odd,), row[4:]) for row in BY_HAND for odd in range(8)]
    for (request, expected), (answer, required, _, steps, _) in zip(known, compare_paths(asking, [request for request, _ in known])):
        compare(f"the path {request}", (ANSWERS[expected[0]], *expected[1:]), (answer, required, steps))
    asked = requests(samples, chance)
    if watched is not None and not missing("paths of pointers under valgrind", "valgrind"):
        under_valgrind("paths, under valgrind", watched, asking, described([next(asked)[0] for _ in range(2000)]))
    many = [next(asked) for _ in range(MANY)]
    found = compare_paths(asking, [request for request, _ in many])
    answers = Counter(answer for answer, *_ in found)
    for name in ("OK", "BAD_LIMITS", "BUFFER_TOO_SMALL", "NO_NODE", "TRAILING", "TRUNCATED"):
        expect(f"calls for a path that answer {name}", answers[ANSWERS[name]] >= 10, answers[ANSWERS[name]])
    longer = sum(len(steps) > 2 for _, _, _, steps, _ in found)
    expect("paths of three steps and more", longer >= MANY // 50, longer)
    traced = of_verdicts(many, found)
    shared = sum(other == ANSWERS["OK"] for *_, (other, _) in found)
    expect("pointers that share a word with an earlier one", shared >= MANY // 50, shared)
    print(f"calls: {len(many)} paths of pointers compared with the model, {traced} of them of a pointer that a verdict names, "
          f"and {shared} with an earlier pointer")


def of_verdicts(many, found):
    """Each pointer that a verdict names has its path. How many there are."""
    named, are_found = {ANSWERS[name]: name for name in NAMED}, (ANSWERS["OK"], ANSWERS["BUFFER_TOO_SMALL"])
    traced = Counter()
    for (request, verdict), (answer, *_) in zip(many, found):
        if verdict in named:
            expect(lambda: f"the path of {named[verdict]} of {request}", answer in are_found, answer)
            traced[named[verdict]] += 1
    for name in NAMED:
        expect(f"paths of {name}", traced[name] >= 5, traced[name])
    return traced.total()
