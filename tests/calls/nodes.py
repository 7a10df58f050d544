"""Compares capvet_get and capvet_get_range, from C, field by field with a model that follows the path only. tests/calls/calls.py
runs it.

The messages are the samples, changed, cut and made ones, each with some paths: most lead along the pointers that are
there, others to what isn't, and some are no paths. Of the messages that are accepted, no path is refused, and the nodes
are compared with what the program's `get` prints. The bytes of each node are those of its object.

Of a range one step varies, often from 0 and at times from near the highest number. At times a step has an unknown kind, or
there is no varying step. tests/calls/c/ranges.c compares each node with that of capvet_get too. The ranges of BY_HAND have known
answers."""
import struct
from collections import Counter

import model
from amount import cases
from harness import compare, expect, framed, over_file, under_valgrind
from made import changed, made_up
from model import FIELDS, REPORT as REPORTED, SLACK, Limits, Refused, followed, lax_form, unframed
from needs import missing
from trees import BITS, bits, hexadecimal

ANSWERS = model.ANSWERS | dict(BAD_PATH=10, NO_NODE=21)
KINDS = dict(null=0, struct=1, list=2, pointers=3, structs=4, cap=5)
NODE = ("kind", "element", "count", "data_words", "pointers", "capability", "offset", "length")
# the answer, the node and the report, with the reserved fields
REPLY = struct.Struct(f"<I6I2Q2Q{REPORTED}")
NODE_FIELDS, REPORT = struct.Struct("<6I2Q2Q"), struct.Struct(f"<{REPORTED}")
MANY = cases(20_000, full=100_000)  # paths
RANGES = cases(10_000, full=40_000)  # ranges of paths
LEAST = MANY // 5
HIGHEST = 0xFFFFFFFF
# A root of two pointers. The first is to a list of three structs of a word and a pointer: to a byte, null, and out of bounds.
THREE = framed([2 << 48, 1 | 1 << 2 | 7 << 32 | 6 << 35, 3 | 5 << 32, 3 << 2 | 1 << 32 | 1 << 48,
                    10, 1 | 4 << 2 | 2 << 32 | 1 << 35, 11, 0, 12, 1 | 1000 << 2 | 2 << 32 | 1 << 35, 7])
# Roots of two pointers, the first of which is null. The second is to a struct of five words, or far to a null landing pad.
DEEPER, FAR = framed([2 << 48, 0, 5 << 32, 1, 2, 3, 4, 5]), framed([2 << 48, 0, 2 | 1 << 32], [0])
# A root of a list of three pointers: to a struct of a null pointer, null, and to such a struct.
GAP = framed([1 << 48, 1 | 6 << 32 | 3 << 35, 2 << 2 | 1 << 48, 0, 1 << 2 | 1 << 48, 0, 0])
# The steps, which of them varies, how many nodes are asked for; the answer, how many are found, and `detail`.
BY_HAND = (
    (((0, 0), (1, 0)), 1, 3, "OK", 3, 0), (((0, 0), (1, 0)), 1, 4, "NO_NODE", 3, 0), (((0, 0), (1, 2)), 1, 9, "NO_NODE", 1, 0),
    (((0, 0), (1, 0), (0, 0)), 1, 2, "OK", 2, 0), (((0, 0), (1, 0), (0, 0)), 1, 3, "OUT_OF_SEGMENT", 2, 0),
    (((0, 0), (1, 1), (0, 0)), 2, 2, "NO_NODE", 1, 0), (((0, 0), (1, 0)), 0, 2, "NO_NODE", 1, 0),
    (((0, 0),), 0, 2, "OK", 2, 0), (((0, 1),), 0, 2, "NO_NODE", 1, 0), (((0, 0), (1, 3)), 1, 0, "OK", 0, 0),
    (((0, 65535),), 0, 2, "NO_NODE", 0, 0), (((0, 65536),), 0, 2, "NO_NODE", 0, 0), (((0, HIGHEST),), 0, 3, "NO_NODE", 0, 0),
    (((0, 0), (1, HIGHEST)), 1, 3, "NO_NODE", 0, 0), (((0, 65536), (1, 0)), 1, 3, "NO_NODE", 0, 0),
    ((), 0, 2, "BAD_PATH", 0, 0), (((2, 0),), 0, 2, "BAD_PATH", 0, 0), (((0, 0), (7, 1), (HIGHEST, 0)), 9, 1, "BAD_PATH", 0, 1),
    (((0, 0), (1, 0)), 2, 1, "BAD_PATH", 0, 2), (((0, 0), (1, 0)), (1 << 64) - 1, 0, "BAD_PATH", 0, 2))


def steps_of(text):
    """The steps of a path's text, as letters and numbers, or the first byte at which it is none."""
    if text == b"/":
        return []
    steps, at = [], 0
    while at < len(text) or not steps:
        if text[at:at + 1] != b"/":
            return at
        letter, at = text[at + 1:at + 2], at + 1
        if letter not in (b"p", b"i"):
            return at
        first = at = at + 1
        most = 65535 if letter == b"p" else 4294967295
        while text[at:at + 1].isdigit() and str(int(text[first:at + 1])) == text[first:at + 1].decode() and int(
                text[first:at + 1]) <= most:
            at += 1
        if at == first or text[at:at + 1] not in (b"", b"/"):
            return at
        steps.append((letter.decode(), int(text[first:at])))
    return steps


class Walk:
    """Where a path has come to, and what following the pointers on it costs."""

    def __init__(self, message, words, depth):
        self.message, self.words, self.depth = message, words, depth
        self.level = self.charge = self.pointers = 0
        self.lax = None
        if not message[0]:
            raise Refused("NO_ROOT", 0, 0, 0)
        self.follow(0, 0)

    def follow(self, segment, at):
        self.level, self.pointers = self.level + 1, self.pointers + 1
        place = segment, at, self.pointers
        try:
            self.found = followed(self.message, segment, at)
        except Refused as fault:
            raise Refused(*fault.args, *place) from None
        has_levels = self.found.kind == "structs" and self.found.sizes[0] > 0
        if self.found.kind not in ("null", "cap") and self.level + has_levels > self.depth:
            raise Refused("DEPTH_LIMIT", *place)
        self.charge += self.found.charge
        if self.charge > self.words:
            raise Refused("WORD_LIMIT", *place)
        form = lax_form(self.message, self.found)
        if form and not self.lax:
            self.lax = form, *place
        if self.found.kind == "cap":
            word = self.message[segment][at]
            if bits(word, 0, 2) == 2:
                word = self.message[bits(word, 32, 32)][bits(word, 3, 29)]
            self.found.sizes = (bits(word, 32, 32),)

    def step(self, letter, number):
        """Whether the step leads anywhere."""
        found, sizes = self.found, self.found.sizes
        if letter == "p" and found.kind == "struct" and number < sizes[1]:
            self.follow(found.segment, found.start + sizes[0] + number)
        elif letter == "i" and found.kind == "pointers" and number < sizes[1]:
            self.follow(found.segment, found.start + number)
        elif letter == "i" and found.kind == "structs" and number < sizes[0]:
            start = found.start + 1 + number * (sizes[1] + sizes[2])
            self.found = model.Object("struct", found.segment, start, sizes[1] + sizes[2], sizes[1:])
            self.level += 1
        else:
            return False
        return True


def node_fields(message, found):
    """The fields of the node, by their names."""
    sizes = found.sizes
    before = 8 * (len(message) // 2 + 1 + sum(map(len, message[:found.segment])) + found.start)
    fields = dict(kind=KINDS[found.kind])
    if found.kind == "cap":
        return fields | dict(capability=sizes[0])
    if found.kind == "struct":
        return fields | dict(data_words=sizes[0], pointers=sizes[1], offset=before, length=8 * sizes[0])
    if found.kind == "list":
        return fields | dict(element=sizes[0], count=sizes[1], offset=before, length=(BITS[sizes[0]] * sizes[1] + 7) // 8)
    if found.kind == "pointers":
        return fields | dict(element=6, count=sizes[1], offset=before)
    if found.kind == "structs":
        return fields | dict(element=7, count=sizes[0], data_words=sizes[1], pointers=sizes[2], offset=before + 8,
                             length=8 * sizes[0] * (sizes[1] + sizes[2]))
    return fields


def result(answer, node=None, **fields):
    """An answer, the fields of a node and those of a report."""
    return (ANSWERS[answer], tuple((node or {}).get(name, 0) for name in NODE),
            tuple(fields.get(name, 0) for name in FIELDS))


def got(data, limits, path):
    """The answer of capvet_get, the fields of its node and of its report."""
    steps = steps_of(path)
    opened = frame_of(data, limits, steps if isinstance(steps, int) else None)
    return along(*opened, limits, steps) if len(opened) == 2 else opened


def frame_of(data, limits, bad_step):
    """The message and the fields of its frame, or the result of a call without them. Of a bad path, the place is given."""
    if not limits.are_good(model.FRAME):
        return result("BAD_LIMITS")
    if bad_step is not None:
        return result("BAD_PATH", detail=bad_step)
    message, frame = unframed(data, limits)
    if message is None:
        answer, fields = frame
        return result(answer, **fields)
    extent = dict(length=frame, segments=len(message), words=sum(map(len, message)))
    if len(data) > frame and not limits.flags & model.TRAILING:
        return result("TRAILING", detail=len(data) - frame, **extent)
    return message, extent


def along(message, extent, limits, steps):
    """The answer for a path of these steps, with the fields of the node and the report."""
    words = limits.charge if limits.flags & model.AMPLIFIED else min(limits.charge, sum(map(len, message)) + SLACK)
    try:
        walk = Walk(message, words, limits.depth)
        leads = all(walk.step(*step) for step in steps)
        if not limits.flags & model.NONSTRICT:
            if len(message) > 511:
                raise Refused("MANY_SEGMENTS", 0, 0, 0)
            if walk.lax:
                raise Refused(*walk.lax)
    except Refused as fault:
        answer, segment, word, pointers = fault.args
        # (of a charge above the limit that limit)
        detail = words if answer == "WORD_LIMIT" else 0
        return result(answer, segment=segment, word=word, pointers=pointers, detail=detail, **extent)
    return result("OK", node_fields(message, walk.found), **extent) if leads else result("NO_NODE", **extent)


def path_in(data, limits, chance):
    """A path of a few steps, most of which lead to some place."""
    message, _ = unframed(data, limits)
    try:
        walk = Walk(message, 1 << 28, 256)
    except (Refused, TypeError):
        return b"/p0" * chance.randrange(3) or b"/"
    text = ""
    for _ in range(chance.choice((0, 1, 1, 2, 2, 3, 3, 4, 5, 8))):
        found, sizes = walk.found, walk.found.sizes
        letter, count = {"struct": ("p", (*sizes, 0, 0)[1]), "pointers": ("i", (*sizes, 0, 0)[1]),
                         "structs": ("i", (*sizes, 0)[0])}.get(found.kind, ("p", 0))
        odd = chance.randrange(40)
        number = chance.randrange(count) if count and odd else count + chance.choice((0, 1, 65535 - count % 65536))
        letter = "pi"[letter == "p"] if odd == 1 else letter
        text += f"/{letter}{min(number, 65535)}"
        try:
            if not walk.step(letter, number):
                break
        except Refused:
            break
    return text.encode() or b"/"


def spoiled(path, chance):
    """A text that is near a path."""
    text = bytearray(path)
    at = chance.randrange(len(text) + 1)
    text[at:at + chance.randrange(2)] = chance.choice((b"", b"/", b"0", b"9", b"p", b"i", b"65536", b"x", b"\0", b"-1"))
    return bytes(text)


def requests(samples, chance):
    """Calls with their message, limits and path."""
    small = [message for message in samples if len(message) < 1000]
    known = [*samples, *strict_messages()]
    while True:
        kind = chance.randrange(12)
        data = chance.choice(known) if kind < 2 else made_up(chance) if kind < 4 else changed(chance.choice(small), chance)
        if kind == 11:
            data = data[:chance.randrange(len(data) + 1)]
        flags = chance.choice((0, 0, 0, 2, 4, 6, 7))
        limits = Limits(flags=flags)
        if chance.randrange(8) == 0:
            limits = Limits(charge=chance.randrange(40), depth=chance.randrange(5), flags=flags)
        if chance.randrange(200) == 0:
            limits = chance.choice((Limits(flags=8), Limits(depth=257), Limits(charge=1 << 28 | 1), Limits(reserved=(0, 1, 0, 0, 0, 0))))
        if chance.randrange(50) == 0:
            data += chance.randbytes(chance.choice((1, 7, 8, 16)))
        for _ in range(4):
            path = path_in(data, limits, chance)
            yield data, limits, spoiled(path, chance) if chance.randrange(25) == 0 else path


def strict_messages():
    """Messages that aren't strict, each for another reason, and one of 512 segments."""
    yield framed([2 | 1 << 32], [0, 0])
    yield framed([2 | 1 << 32], [3 | 9 << 32])
    yield framed([1 << 48, 2 | 1 << 32], [3 | 9 << 32])
    yield framed([1 << 48, 6 | 1 << 32], [2 | 2 << 32, 0], [])
    yield framed([1 << 48, 0], *[[] for _ in range(511)])


def described(many):
    """The calls as tests/calls/c/nodes.c reads them."""
    return b"".join(limits.packed() + struct.pack("<II", len(text), len(data)) + text + data for data, limits, text in many)


def replies(program, many):
    """What C answers to these calls, what it writes on standard error, and its status."""
    out, *end = over_file([program], described(many))
    return list(REPLY.iter_unpack(out[:len(out) // REPLY.size * REPLY.size])), *end


def is_beside(data, limits):
    """Whether the message has a fault, for the same limits and flags."""
    return model.called(model.VET, data, limits, 0)[0] != ANSWERS["OK"]


def object_bytes(data, node):
    """The own bytes of a node, or nothing where they are not inside the input."""
    kind, element, count, data_words, pointers, capability, offset, length = node
    return data[offset:offset + length] if offset + length <= len(data) else None


def own_lines(data, node):
    """The lines that the program prints for a node."""
    kind, element, count, data_words, pointers, capability, offset, length = node
    own = object_bytes(data, node)
    heads = ("null", f"struct {data_words} {pointers}", f"list {element} {count}", f"pointers {count}",
             f"structs {count} {data_words} {pointers}", f"cap {capability}")
    lines = [f"node {heads[kind]}"]
    if kind == KINDS["struct"]:
        lines += [f"  d{i} {own[8 * i:8 * i + 8].hex()}" for i in range(data_words)]
    if kind == KINDS["list"]:
        used = BITS[element] * count
        padded = own + bytes(-len(own) % 8)
        words = struct.unpack(f"<{len(padded) // 8}Q", padded)
        lines += [f"  w{i} {hexadecimal(bits(word, 0, min(64, used - 64 * i)))}" for i, word in enumerate(words)]
    return lines


def compare_nodes(program, many):
    """The calls beside the model. How often each answer came, and paths with a fault beside them and on them."""
    found, *end = replies(program, many)
    compare("nodes, with the compiler's checks", [b"", 0], end)
    compare("a reply to each call", len(many), len(found))
    answers, beside, on, seen = Counter(), 0, 0, {}
    for (data, limits, path), reply in zip(many, found):
        expected = got(data, limits, path)
        node, report = reply[1:11], reply[11:]
        expect(lambda: f"get {path} of {data.hex()} in {limits}",
               (reply[0], node[:8], report[:len(FIELDS)]) == expected and not any(node[8:] + report[len(FIELDS):]), lambda: f"{reply}\n  {expected}")
        answers[reply[0]] += 1
        if reply[0] >= 18 and reply[0] != ANSWERS["NO_NODE"]:
            on += 1
        if (data, limits) not in seen:
            seen = {(data, limits): is_beside(data, limits)}
        if reply[0] in (0, ANSWERS["NO_NODE"]):
            beside += seen[data, limits]
        elif reply[0] not in (ANSWERS["BAD_LIMITS"], ANSWERS["BAD_PATH"]):
            expect(lambda: f"{path} of {data.hex()} in {limits} is refused, so the message is", seen[data, limits],
                   lambda: f"{reply}")
        if reply[0] == 0:
            expect(lambda: f"bytes of {path} of {data.hex()}", object_bytes(data[:report[0]], node[:8]) is not None,
                   lambda: f"{reply}")
    return answers, beside, on


def compare_with_program(asking, program, samples, chance):
    """The nodes of accepted messages, beside what the program prints for them."""
    small = [message for message in samples if len(message) < 1000]
    limits, nodes, times = Limits(flags=6), 0, cases(40, full=200)  # runs of `get` beside the nodes
    for _ in range(times):
        messages = samples + [made_up(chance) if chance.randrange(3) == 0 else changed(chance.choice(small), chance)
                              for _ in range(120)]
        good = [data for data in messages if model.called(model.VET, data, limits, 0)[0] == 0]
        text = path_in(chance.choice(good), limits, chance)
        out = over_file([program, "get", text], b"".join(good))[0].decode()
        lines = []
        for number, (data, reply) in enumerate(zip(good, replies(asking, [(data, limits, text) for data in good])[0])):
            is_node = reply[0] == 0
            nodes += is_node
            lines += [f"message {number}: {'found' if is_node else 'none'}", *(own_lines(data, reply[1:9]) if is_node else ())]
        compare(f"get {text} of {len(good)} messages", "".join(line + "\n" for line in lines), out)
    expect("nodes of accepted messages", nodes >= 10 * times, f"{nodes}")
    return nodes


def test(asking, watched, program, samples, chance):
    calls = requests(samples, chance)
    first = [next(calls) for _ in range(2000)]
    if watched is not None and not missing("nodes under valgrind", "valgrind"):
        under_valgrind("nodes, under valgrind", watched, asking, described(first))
    answers, beside, on, paths = Counter(), 0, 0, 0
    while paths < MANY:
        many = [next(calls) for _ in range(min(20_000, MANY))]
        more, off, at = compare_nodes(asking, many)
        answers, beside, on, paths = answers + more, beside + off, on + at, paths + len(many)
    expect("paths with a fault beside them", beside >= LEAST, f"{beside}")
    expect("paths with a fault on them", on >= LEAST, f"{on}")
    for name in ("OK", "BAD_LIMITS", "BAD_PATH", "NO_NODE", "TRAILING", "TRUNCATED", "NullPad", "EmptySegment",
                 "CapabilityPad", "MANY_SEGMENTS", "NO_ROOT", "DEPTH_LIMIT", "WORD_LIMIT", "OUT_OF_SEGMENT"):
        expect(f"paths that answer {name}", answers[ANSWERS[name]] >= 10, f"{answers[ANSWERS[name]]}")
    nodes = compare_with_program(asking, program, samples, chance)
    print(f"calls: {paths} paths compared with the model, {beside} with a fault beside them, {on} with one on them; "
          f"{nodes} nodes with the program's")


# Ranges

def by_hand():
    """The calls of BY_HAND at each alignment, each with what it answers; then null elements, bad limits, faults after a node,
    and no input."""
    for steps, varying, count, *expected in BY_HAND:
        for odd in range(8):
            yield (THREE, Limits(), steps, varying, count, odd), expected
    for first, count, *expected in (0, 3, "NO_NODE", 1, 0), (1, 2, "NO_NODE", 0, 0), (2, 1, "OK", 1, 0), (2, 2, "NO_NODE", 1, 0):
        yield (GAP, Limits(), ((0, 0), (1, first), (0, 0)), 1, count, 0), expected
    for limits in (Limits(flags=8), Limits(flags=16), Limits(depth=257), Limits(reserved=(0, 1, 0, 0, 0, 0))):
        yield (THREE, limits, ((2, 0),), 3, 2, 0), ["BAD_LIMITS", 0, 0]
    for data, limits, *expected in (
            (DEEPER, Limits(), "OK", 2, 0), (DEEPER, Limits(charge=4), "WORD_LIMIT", 1, 4),
            (DEEPER, Limits(depth=1), "DEPTH_LIMIT", 1, 0), (FAR, Limits(), "NullPad", 1, 0), (FAR, Limits(flags=2), "OK", 2, 0),
            (DEEPER + bytes(3), Limits(), "TRAILING", 0, 3), (DEEPER + bytes(3), Limits(flags=1), "OK", 2, 0),
            (DEEPER[:-1], Limits(), "TRUNCATED", 0, 0)):
        yield (data, limits, ((0, 0),), 0, 2, 0), expected
    yield (b"", Limits(), ((0, 0),), 0, 2, 0), ["NO_MESSAGE", 0, 0]
    yield (b"", Limits(), ((0, 0),), 0, 0, 0), ["NO_MESSAGE", 0, 0]
    yield (b"", Limits(), (), 0, 0, 0), ["BAD_PATH", 0, 0]


def got_range(data, limits, steps, varying, count):
    """The answer of capvet_get_range, the fields of the nodes that are found, and those of the report."""
    unknown = [at for at, (kind, _) in enumerate(steps) if kind > 1]
    bad = unknown[0] if unknown else len(steps) if varying >= len(steps) else None
    opened = frame_of(data, limits, bad)
    if len(opened) == 3:
        return opened[0], [], opened[2]
    message, extent = opened
    answer, _, report = result("OK", **extent)
    found = []
    for k in range(count):
        path = [("pi"[kind], number + (k if at == varying else 0)) for at, (kind, number) in enumerate(steps)]
        answer, node, report = along(message, extent, limits, path)
        if answer:
            break
        found.append(node)
    return answer, found, report


def range_requests(calls, chance):
    """Calls for a range, from those for a node."""
    while True:
        data, limits, path = next(calls)
        steps = steps_of(path)
        if isinstance(steps, int):
            continue
        steps = [["pi".index(letter), number] for letter, number in steps] or [[chance.randrange(2), 0]]
        varying, odd = chance.randrange(len(steps)), chance.randrange(100)
        if odd < 70:
            steps[varying][1] = chance.choice((0, 0, 0, 1, max(0, steps[varying][1] - 2)))
        elif odd < 80:
            chance.choice(steps)[1] = chance.choice((65533, 65534, 65535, 65536, 65537, 1 << 31, HIGHEST - 1, HIGHEST))
        elif odd < 84:
            chance.choice(steps)[0] = chance.choice((2, 3, 255, 256, 1 << 16, 1 << 31, HIGHEST))
        # (at 83 the path is bad for both reasons)
        if odd in (83, 84):
            varying = chance.choice((len(steps), len(steps) + 1, 1 << 32, (1 << 64) - 1))
        count = chance.choice((0, 1, 2, 2, 3, 5, 8, 8, 20))
        yield data, limits, tuple(map(tuple, steps)), varying, count, chance.randrange(8)


def described_ranges(many):
    """The calls as tests/calls/c/ranges.c reads them."""
    return b"".join(limits.packed() + struct.pack("<Q4I", varying, len(steps), count, odd, len(data))
                    + b"".join(struct.pack("<II", *step) for step in steps) + data
                    for data, limits, steps, varying, count, odd in many)


def compare_ranges(program, many):
    """The calls beside the model. What each of them answers, how many nodes it finds, and its report."""
    replies, err, status = over_file([program], described_ranges(many))
    compare("ranges, with the compiler's checks", (b"", 0), (err, status))
    made, at = [], 0
    for data, limits, steps, varying, count, odd in many if status == 0 else ():
        answer, number = struct.unpack_from("<IQ", replies, at)
        found = [NODE_FIELDS.unpack_from(replies, at + 12 + k * NODE_FIELDS.size) for k in range(number)]
        at += 12 + number * NODE_FIELDS.size
        report = REPORT.unpack_from(replies, at)
        at += REPORT.size
        expected = got_range(data, limits, steps, varying, count)
        # (the fields of a node and of a report are followed by reserved ones)
        reserved = [*report[len(FIELDS):], *(field for node in found for field in node[len(NODE):])]
        expect(lambda: f"range {steps} {varying} {count} of {data.hex()} in {limits}",
               (answer, [node[:len(NODE)] for node in found], report[:len(FIELDS)]) == expected and not any(reserved),
               lambda: f"{answer} {found} {report}\n  {expected}")
        made.append((answer, number, report))
    expect("a reply to each call for a range", (len(made), at) == (len(many), len(replies)), len(made))
    return made


def test_ranges(asking, watched, samples, chance):
    known = list(by_hand())
    for (request, expected), (answer, found, report) in zip(known, compare_ranges(asking, [request for request, _ in known])):
        compare(f"the range {request}", [ANSWERS[expected[0]], *expected[1:]], [answer, found, report[2]])
    asked = range_requests(requests(samples, chance), chance)
    if watched is not None and not missing("ranges of paths under valgrind", "valgrind"):
        under_valgrind("ranges, under valgrind", watched, asking, described_ranges([next(asked) for _ in range(2000)]))
    many = [next(asked) for _ in range(RANGES)]
    made = compare_ranges(asking, many)
    answers, stops = Counter(answer for answer, _, _ in made), Counter(answer for answer, found, _ in made if found)
    for name in ("OK", "BAD_LIMITS", "BAD_PATH", "NO_NODE", "TRAILING", "TRUNCATED", "OUT_OF_SEGMENT"):
        expect(f"ranges that answer {name}", answers[ANSWERS[name]] >= 10, f"{answers[ANSWERS[name]]}")
    for name in ("OK", "NO_NODE", "OUT_OF_SEGMENT"):
        expect(f"ranges that answer {name} after a node", stops[ANSWERS[name]] >= 10, f"{stops[ANSWERS[name]]}")
    longer = sum(found > 1 for _, found, _ in made)
    expect("ranges of two nodes and more", longer >= RANGES // 20, f"{longer}")
    print(f"calls: {len(many)} ranges compared with the model and with capvet_get, {longer} of them with two nodes and more")
