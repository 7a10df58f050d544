"""What the calls from C answer and report for bytes, as docs/format.md and include/capvet.h define it, field by field.
It shares no code with the library, and only `bits` and `offset` of tests/shared/trees.py with other tests."""
import struct
from dataclasses import dataclass, replace

from trees import bits, offset

ANSWERS = dict(
    OK=0, NO_MESSAGE=1, TOO_MANY_SEGMENTS=2, TOO_LARGE=3, TRUNCATED=4, TRAILING=5, BAD_LIMITS=8, BUFFER_TOO_SMALL=9,
    BAD_SEGMENT=12, NOT_CANONICAL=16, HAS_CAPABILITY=17, OVERLAP=18, NullPad=19, EmptySegment=20, CapabilityPad=22, MANY_SEGMENTS=23,
    NO_ROOT=32, RESERVED=33, SEGMENT_MISSING=34, PAD_OUTSIDE=35, PAD_IS_FAR=36, PAD_NOT_FAR=37, TAG_KIND=38,
    TAG_OFFSET=39, OUT_OF_SEGMENT=40, COMPOSITE_TAG=41, COMPOSITE_OVERRUN=42, DEPTH_LIMIT=43, WORD_LIMIT=44)
FRAME, VET, EXCLUSIVE, CANONICAL, CHECK, SEGMENTS, VET_SEGMENTS, CHECK_WORDS, DIFFERENCE = range(9)
# The reasons of first differences, in the order of their numbers. The first is 1.
DIFFERENCES = ("Segments", "Far", "Capability", "EmptyStruct", "Place", "Bits", "EmptyList", "Surplus", "DataZero", "PointerNull",
               "Trailing")
# What limits allow and what form the input has, as bits of these tests. The bits 1 and 8 together are an unknown form, and those
# above are unknown flags.
TRAILING, NONSTRICT, AMPLIFIED, NO_TABLE = 1, 2, 4, 8
FIELDS = ("length", "input_required", "detail", "charge", "pointers", "capabilities", "depth", "segments", "segment", "word",
          "words")
# The layout of a report: its fields, and how many reserved numbers follow them.
REPORT, RESERVED = "6Q4IQ6Q", 6
ELEMENT_BITS = (0, 1, 8, 16, 32, 64, 64)
# How many segments a strict message may have, and how many words more than its own an unamplified one may be charged.
MOST_SEGMENTS = 511
SLACK = 4096


@dataclass(frozen=True)
class Limits:
    message_words: int = 8388608
    charge: int = 8388608
    depth: int = 64
    flags: int = 0
    reserved: tuple = (0,) * 6
    padding: int = 0

    def packed(self):
        form, flags = self.flags & TRAILING | (self.flags & NO_TABLE) >> 2, self.flags >> 1 & 3 | self.flags >> 4 << 2
        return struct.pack("<QQIIII6Q", self.message_words, self.charge, self.depth, flags, form, self.padding, *self.reserved)

    def of_copy(self):
        """Those for the words of a canonical form, which have no table, may be amplified, and may be one more than the charge."""
        if self.flags & TRAILING and self.flags & NO_TABLE:
            return self
        words = max(self.message_words, min(self.charge, (1 << 28) - 1) + 1)
        return replace(self, message_words=words, flags=self.flags & NONSTRICT | NO_TABLE | AMPLIFIED | self.flags >> 4 << 4)

    def are_good(self, call):
        known = self.flags <= 7 or (call not in (FRAME, SEGMENTS, VET_SEGMENTS) and self.flags in (NO_TABLE, NO_TABLE | NONSTRICT, NO_TABLE | AMPLIFIED,
                                                                    NO_TABLE | NONSTRICT | AMPLIFIED))
        return (self.message_words <= 1 << 28 and self.charge <= 1 << 28 and self.depth <= 256 and known
                and not any(self.reserved) and not self.padding)


class Refused(Exception):
    """The message isn't accepted, for this answer at this place, after this many pointers."""


@dataclass
class Object:
    """What a pointer leads to: its kind ('null', 'cap', 'struct', 'list', 'pointers', 'structs'), where it starts, the
    words that it has, its sizes, the charge of following it, and the words that following it uses."""
    kind: str
    segment: int = 0
    start: int = 0
    words: int = 0
    sizes: tuple = ()
    charge: int = 0
    used: tuple = ()


def described(message, segment, start, word, pads):
    """The object of a struct's or list's word, which starts here."""
    if bits(word, 0, 2) == 0:
        data, pointers = bits(word, 32, 16), bits(word, 48, 16)
        kind, sizes, words, more = "struct", (data, pointers), data + pointers, 0
    else:
        code, count = bits(word, 32, 3), bits(word, 35, 29)
        kind, sizes, more = ("pointers" if code == 6 else "list"), (code, count), 0 if code else count
        words = 1 + count if code == 7 else (ELEMENT_BITS[code] * count + 63) // 64
    if not 0 <= start <= start + words <= len(message[segment]):
        raise Refused("OUT_OF_SEGMENT")
    if kind == "list" and sizes[0] == 7:
        tag = message[segment][start]
        elements, data, pointers = bits(tag, 2, 30), bits(tag, 32, 16), bits(tag, 48, 16)
        if bits(tag, 0, 2) != 0:
            raise Refused("COMPOSITE_TAG")
        if elements * (data + pointers) > words - 1:
            raise Refused("COMPOSITE_OVERRUN")
        kind, sizes, more = "structs", (elements, data, pointers), elements if data + pointers == 0 else 0
    used = pads + tuple((segment, at) for at in range(start, start + words))
    return Object(kind, segment, start, words, sizes, len(pads) + words + more, used)


def near(message, segment, at, word, pads):
    """What a word that isn't far leads to, from this place."""
    if word == 0:
        return Object("null", charge=len(pads), used=pads)
    if bits(word, 0, 2) == 3:
        if bits(word, 2, 30):
            raise Refused("RESERVED")
        return Object("cap", charge=len(pads), used=pads)
    return described(message, segment, at + 1 + offset(word), word, pads)


def followed(message, segment, at):
    word = message[segment][at]
    if bits(word, 0, 2) != 2:
        return near(message, segment, at, word, ())
    segment, at, two = bits(word, 32, 32), bits(word, 3, 29), bits(word, 2, 1)
    if segment >= len(message):
        raise Refused("SEGMENT_MISSING")
    if at + 1 + two > len(message[segment]):
        raise Refused("PAD_OUTSIDE")
    pad = message[segment][at]
    if not two:
        if bits(pad, 0, 2) == 2:
            raise Refused("PAD_IS_FAR")
        return near(message, segment, at, pad, ((segment, at),))
    if bits(pad, 0, 3) != 2:
        raise Refused("PAD_NOT_FAR")
    target, tag = bits(pad, 32, 32), message[segment][at + 1]
    if target >= len(message):
        raise Refused("SEGMENT_MISSING")
    if bits(tag, 0, 2) >= 2:
        raise Refused("TAG_KIND")
    if bits(tag, 2, 30):
        raise Refused("TAG_OFFSET")
    return described(message, target, bits(pad, 3, 29), tag, ((segment, at), (segment, at + 1)))


def children(found):
    """The places of the pointers of an object, and how many levels they are below its own."""
    segment, start, sizes = found.segment, found.start, found.sizes
    if found.kind == "struct":
        return [(segment, start + sizes[0] + i) for i in range(sizes[1])], 1
    if found.kind == "pointers":
        return [(segment, start + i) for i in range(sizes[1])], 1
    if found.kind == "structs" and sizes[2]:
        step = sizes[1] + sizes[2]
        return [(segment, start + 1 + i * step + sizes[1] + j) for i in range(sizes[0]) for j in range(sizes[2])], 2
    return [], 1


@dataclass
class Tree:
    """The tree numbers of a message, the first capability, and each pointer in preorder with what it leads to."""
    charge: int = 0
    pointers: int = 0
    capabilities: int = 0
    depth: int = 0
    first: tuple = (0, 0)
    steps: list = None


def vetted(message, words, depth):
    """The tree of a message within these limits. Otherwise `Refused` with the answer, the place and the pointers."""
    if not message[0]:
        raise Refused("NO_ROOT", 0, 0, 0)
    tree, rows = Tree(steps=[]), [(iter([(0, 0)]), 1)]
    while rows:
        row, level = rows[-1]
        place = next(row, None)
        if place is None:
            rows.pop()
            continue
        tree.pointers += 1
        try:
            found = followed(message, *place)
        except Refused as fault:
            raise Refused(*fault.args, *place, tree.pointers) from None
        is_object = found.kind not in ("null", "cap")
        deepest = level + (found.kind == "structs" and found.sizes[0] > 0)
        if is_object and deepest > depth:
            raise Refused("DEPTH_LIMIT", *place, tree.pointers)
        tree.charge += found.charge
        if tree.charge > words:
            raise Refused("WORD_LIMIT", *place, tree.pointers)
        tree.depth = max(tree.depth, deepest) if is_object else tree.depth
        if found.kind == "cap":
            tree.first = tree.first if tree.capabilities else place
            tree.capabilities += 1
        tree.steps.append((place, found))
        below, levels = children(found)
        rows.append((iter(below), level + levels))
    return tree


def lax_form(message, found):
    """The form that common readers reject, of a pointer that leads to this, or None."""
    if found.kind in ("null", "cap"):
        # (no landing pad of two words leads to one)
        return {"null": "NullPad", "cap": "CapabilityPad"}[found.kind] if found.used else None
    return None if message[found.segment] else "EmptySegment"


def strictly(message, tree):
    """Refuses a message that is accepted and isn't strict."""
    if len(message) > MOST_SEGMENTS:
        raise Refused("MANY_SEGMENTS", 0, 0, 0)
    for count, (place, found) in enumerate(tree.steps, 1):
        form = lax_form(message, found)
        if form:
            raise Refused(form, *place, count)


def exclusively(tree):
    """Refuses a message at the first pointer that uses a word twice."""
    used = {(0, 0)}
    for count, (place, found) in enumerate(tree.steps, 1):
        if len(set(found.used)) < len(found.used) or used & set(found.used):
            raise Refused("OVERLAP", *place, count)
        used |= set(found.used)


def canonical(message):
    """The words of the canonical form of an accepted message without capabilities."""
    out = [0]

    def trimmed(words):
        while words and not words[-1]:
            words = words[:-1]
        return words

    def is_null(segment, at):
        return followed(message, segment, at).kind == "null"

    def put(at, segment, place):
        found = followed(message, segment, place)
        words, start = message[found.segment] if found.kind != "null" else (), found.start
        there = len(out)
        ahead = there - at - 1 << 2 & 0xFFFFFFFF
        if found.kind == "struct":
            data, pointers = found.sizes
            own = trimmed(words[start:start + data])
            count = pointers
            while count and is_null(found.segment, start + data + count - 1):
                count -= 1
            out[at] = (ahead if own or count else 0xFFFFFFFC) | len(own) << 32 | count << 48
            out.extend([*own, *[0] * count])
            for i in range(count):
                put(there + len(own) + i, found.segment, start + data + i)
        elif found.kind == "list":
            code, count = found.sizes
            size = ELEMENT_BITS[code] * count
            own = [bits(word, 0, min(64, size - 64 * i)) for i, word in enumerate(words[start:start + found.words])]
            out[at] = 1 | ahead | code << 32 | count << 35
            out.extend(own)
        elif found.kind == "pointers":
            count = found.sizes[1]
            out[at] = 1 | ahead | 6 << 32 | count << 35
            out.extend([0] * count)
            for i in range(count):
                put(there + i, found.segment, start + i)
        elif found.kind == "structs":
            count, data, pointers = found.sizes
            step, keep, kept = data + pointers, 0, 0
            elements = [start + 1 + i * step for i in range(count if step else 0)]
            for element in elements:
                keep = max(keep, len(trimmed(words[element:element + data])))
                kept = max([kept, *(j + 1 for j in range(pointers) if not is_null(found.segment, element + data + j))])
            out[at] = 1 | ahead | 7 << 32 | count * (keep + kept) << 35
            out.append(count << 2 | keep << 32 | kept << 48)
            for element in elements:
                out.extend([*words[element:element + keep], *[0] * kept])
            for i, element in enumerate(elements):
                for j in range(kept):
                    put(there + 1 + i * (keep + kept) + keep + j, found.segment, element + data + j)

    put(0, 0, 0)
    return out


def ends_in_null(message, found, element):
    """Whether the struct of this list, or this struct, has a last pointer that denotes null."""
    data, pointers = found.sizes[-2:]
    return pointers and followed(message, found.segment, element + data + pointers - 1).kind == "null"


def differs(message, place, found, end):
    """Why this pointer isn't as a canonical copy has it, with its object at word `end`, or None. The first reason that holds."""
    segment, at = place
    word = message[segment][at]
    if bits(word, 0, 2) == 2:
        return "Far"
    if found.kind == "cap":
        return "Capability"
    if found.kind == "null":
        return None
    if found.kind == "struct" and found.words == 0:
        return None if word == 0xFFFFFFFC else "EmptyStruct"
    if found.start != end:
        return "Place"
    words = message[segment]
    if found.kind == "list":
        left = ELEMENT_BITS[found.sizes[0]] * found.sizes[1] % 64
        return "Bits" if left and words[end + found.words - 1] >> left else None
    elements = []
    if found.kind == "struct":
        elements = [end]
    if found.kind == "structs":
        count, step = found.sizes[0], sum(found.sizes[1:])
        if count == 0 and step:
            return "EmptyList"
        if 1 + count * step != found.words:
            return "Surplus"
        elements = range(end + 1, end + found.words, step) if step else []
    if elements:
        data = found.sizes[-2]
        if data and all(words[element + data - 1] == 0 for element in elements):
            return "DataZero"
        if all(ends_in_null(message, found, element) for element in elements):
            return "PointerNull"
    return None


def difference(message, tree):
    """The first difference of an accepted message from its canonical copy, or None: the reason, the segment, the word and the
    number of the pointer."""
    if len(message) != 1:
        return "Segments", 0, 0, 0
    end = 1
    for number, (place, found) in enumerate(tree.steps, 1):
        reason = differs(message, place, found, end)
        if reason:
            return reason, *place, number
        end += found.words
    return ("Trailing", 0, end, tree.pointers) if end < len(message[0]) else None


def unframed(data, limits):
    """The segments that the bytes start with, and the length of their frame. Otherwise the answer with its fields."""
    if not data:
        return None, ("NO_MESSAGE", dict(input_required=8))
    if len(data) < 8:
        return None, ("TRUNCATED", dict(input_required=8))
    count = struct.unpack_from("<I", data)[0] + 1
    if count > 512:
        return None, ("TOO_MANY_SEGMENTS", dict(detail=count))
    table = 8 * (count // 2 + 1)
    if len(data) < table:
        return None, ("TRUNCATED", dict(input_required=table))
    sizes = struct.unpack_from(f"<{count}I", data, 4)
    if sum(sizes) > limits.message_words:
        return None, ("TOO_LARGE", dict(detail=sum(sizes)))
    frame = table + 8 * sum(sizes)
    if len(data) < frame:
        return None, ("TRUNCATED", dict(input_required=frame))
    message, at = [], table
    for size in sizes:
        message.append(struct.unpack_from(f"<{size}Q", data, at))
        at += 8 * size
    return message, frame


def of_words(data, limits):
    """The one segment whose words the bytes are, and their length. Otherwise the answer with its fields."""
    words = (len(data) + 7) // 8
    if not data:
        return None, ("NO_MESSAGE", dict(input_required=8))
    if words > limits.message_words:
        return None, ("TOO_LARGE", dict(detail=words))
    if len(data) % 8:
        return None, ("TRUNCATED", dict(input_required=8 * words))
    return [struct.unpack(f"<{words}Q", data)], len(data)


def separate(data, count):
    """The segments whose lengths come first, four bytes each."""
    parts, at = [], 4 * count
    for length in struct.unpack_from(f"<{count}I", data):
        parts.append(data[at:at + length])
        at += length
    return parts


def of_parts(parts, limits):
    """The message of separate segments, and their length. Otherwise the answer with its fields."""
    bad = [number for number, part in enumerate(parts) if len(part) % 8]
    words = sum(map(len, parts)) // 8
    if not parts:
        return None, ("NO_MESSAGE", {})
    if len(parts) > 512:
        return None, ("TOO_MANY_SEGMENTS", dict(detail=len(parts)))
    if bad:
        return None, ("BAD_SEGMENT", dict(detail=bad[0]))
    if words > limits.message_words:
        return None, ("TOO_LARGE", dict(detail=words))
    return [struct.unpack(f"<{len(part) // 8}Q", part) for part in parts], 8 * words


def taken(call, data, limits, size):
    """The message of a call's input, and its length. Otherwise the answer with its fields."""
    if call == VET_SEGMENTS:
        return of_parts(separate(data, size), limits)
    return (of_words if limits.flags & NO_TABLE else unframed)(data, limits)


def called(call, data, limits, size):
    """The answer of a call, what it sets `required` to, the fields of its report, and the bytes that it writes. Of separate
    segments `size` is how many they are."""

    def result(answer, count=0, out=b"", **fields):
        return ANSWERS[answer], count, tuple(fields.get(name, 0) for name in FIELDS), out

    if call == CHECK_WORDS:
        return called(CHECK, data, limits.of_copy(), size)
    if not limits.are_good(call):
        return result("BAD_LIMITS")
    message, frame = taken(call, data, limits, size)
    if message is None:
        answer, fields = frame
        return result(answer, **fields)
    extent = dict(length=frame, segments=len(message), words=sum(map(len, message)))
    if call == FRAME:
        return result("OK", **extent)
    if call == SEGMENTS:
        if size < len(message):
            return result("BUFFER_TOO_SMALL", len(message), **extent)
        ends = [frame - 8 * sum(map(len, message[number:])) for number in range(len(message))]
        places = b"".join(struct.pack("<QQ", end, 8 * len(words)) for end, words in zip(ends, message))
        return result("OK", len(message), places, **extent)
    if call != VET_SEGMENTS and len(data) > frame and (call in (CHECK, DIFFERENCE) or not limits.flags & TRAILING):
        return result("TRAILING", detail=len(data) - frame, **extent)
    words = sum(map(len, message))
    charge = limits.charge if limits.flags & AMPLIFIED else min(limits.charge, words + SLACK)
    marks = words // 64 + 1
    try:
        tree = vetted(message, charge, limits.depth)
        if not limits.flags & NONSTRICT:
            strictly(message, tree)
        numbers = dict(charge=tree.charge, pointers=tree.pointers, capabilities=tree.capabilities, depth=tree.depth,
                       segment=tree.first[0], word=tree.first[1], **extent)
        if call == EXCLUSIVE:
            if size < marks:
                return result("BUFFER_TOO_SMALL", marks, **numbers)
            exclusively(tree)
            return result("OK", marks, **numbers)
    except Refused as fault:
        answer, segment, word, pointers = fault.args
        # (of a charge above the limit that limit)
        detail = charge if answer == "WORD_LIMIT" else 0
        return result(answer, marks if answer == "OVERLAP" else 0, segment=segment, word=word, pointers=pointers, detail=detail, **extent)
    if call in (VET, VET_SEGMENTS):
        return result("OK", **numbers)
    copy = None if tree.capabilities else canonical(message)
    if call in (CHECK, DIFFERENCE):
        if len(message) == 1 and list(message[0]) == copy:
            return result("OK", **numbers)
        if call == DIFFERENCE:
            reason, segment, word, pointers = difference(message, tree)
            numbers |= dict(detail=DIFFERENCES.index(reason) + 1, segment=segment, word=word, pointers=pointers)
        return result("NOT_CANONICAL", **numbers)
    if copy is None:
        return result("HAS_CAPABILITY", **numbers)
    if size < 8 * len(copy):
        return result("BUFFER_TOO_SMALL", 8 * len(copy), **numbers)
    return result("OK", 8 * len(copy), struct.pack(f"<{len(copy)}Q", *copy), **numbers)
