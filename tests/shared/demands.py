"""The rows of tests/program/program.py for the options --strict and --unamplified, as tables.py has those without them. Each of them
is a row of `filter` too.

Lines were written from docs/output.md, and places and counts were worked out by hand. Nothing here was computed by the
program.
"""
import struct

from harness import framed
from strict import CASES, many
from tables import BITLESS, CAPABILITY, CYCLE, NULL, Row, SHARED, STRUCT, hashed, word

TEXTS = ("vet", "vet --exclusive", "dump", "get /", "check", "hash")
DEMANDS = {"--strict": "--allow-nonstrict", "--unamplified": "--allow-amplified"}
NULL_COPY = NULL
EMPTY_COPY = "0000000001000000 fcffffff00000000"


def filtering(options):
    """The filter with these options. It has both demands, unless an option lifts one."""
    others = [word for word in options.split() if word not in DEMANDS]
    return " ".join(["filter", *others, *(lifts for demand, lifts in DEMANDS.items() if demand not in options)])


def refused(options, stream, said):
    """What each command writes of a message that it refuses."""
    at, _, _ = said.partition(" pointers")
    return (*(Row(f"{command} {options}", stream, f"message 0: refused {said}\n", status=1) for command in TEXTS),
            Row(filtering(options), stream, "", f"message 0: refused {said}\n", 1),
            Row(f"canon {options}", stream, "", f"capvet: message 0: refused {at}\n", 1))


def accepted(options, stream, numbers, head, copy, below=""):
    """What each command writes of a message that it accepts. Where there is no copy, the root is a capability."""
    verdict = f"message 0: accepted {numbers}\n"
    is_canonical = copy == stream
    return (Row(f"vet {options}", stream, verdict),
            Row(f"vet --exclusive {options}", stream, verdict),
            Row(filtering(options), stream, word(stream)),
            Row(f"dump {options}", stream, f"{verdict}root {head}\n{below}"),
            Row(f"get / {options}", stream, f"message 0: found\nnode {head}\n{below}"),
            Row(f"check {options}", stream, f"message 0: {'' if is_canonical else 'not '}canonical\n", status=int(not is_canonical)),
            Row(f"canon {options}", stream, word(copy)) if copy else
            Row(f"canon {options}", stream, "", "capvet: message 0: HasCapability at 0:0\n", 1),
            Row(f"hash {options}", stream, hashed(copy)) if copy else
            Row(f"hash {options}", stream, "message 0: no canonical form, capability at 0:0\n", status=1))


def words(*numbers):
    """Words of which each number is one, in digits."""
    return struct.pack(f"<{len(numbers)}Q", *numbers).hex()


# ------------------------------------------------------------------ strict messages

NULL_PAD = "0000000002000000 0a00000000000000 0000000000000000"
EMPTY_SEGMENT = "0200000001000000 0200000000000000 0600000001000000 0200000002000000 0000000000000000"
CAPABILITY_PAD = "0000000002000000 0a00000000000000 0300000000000000"
MANY_SEGMENTS = many(512).hex()

# Each construct alone: what --strict says, and what is said and written without it.
NOT_STRICT = (
    (NULL_PAD, "NullPad at 0:0 pointers 1", "charge 1 depth 0 pointers 1 caps 0", "null", NULL_COPY),
    (EMPTY_SEGMENT, "EmptySegment at 0:0 pointers 1", "charge 2 depth 1 pointers 1 caps 0", "struct 0 0", EMPTY_COPY),
    (CAPABILITY_PAD, "CapabilityPad at 0:0 pointers 1", "charge 1 depth 0 pointers 1 caps 1", "cap 0", None),
    (MANY_SEGMENTS, "ManySegments at 0:0 pointers 0", "charge 0 depth 0 pointers 1 caps 0", "null", NULL_COPY),
)

# Strict messages that are near to those.
STRICT = (
    # pads of two words to an object without words in a segment with words, where the tag is zero and where it isn't
    ("0100000001000000 0300000000000000 0600000001000000 0200000001000000 0000000000000000 0000000000000000",
     "charge 2 depth 1 pointers 1 caps 0", "struct 0 0", EMPTY_COPY, ""),
    ("0100000001000000 0300000000000000 0600000001000000 1200000001000000 0100000018000000 0000000000000000",
     "charge 5 depth 1 pointers 1 caps 0", "list 0 3", BITLESS, ""),
    # a pad of one word to an object without words
    ("0000000002000000 0a00000000000000 fcffffff00000000",
     "charge 1 depth 1 pointers 1 caps 0", "struct 0 0", EMPTY_COPY, ""),
    # the most segments
    (many(511).hex(), "charge 0 depth 0 pointers 1 caps 0", "null", NULL_COPY, ""),
    # an empty segment that no pointer names
    ("0100000001000000 0000000000000000 0000000000000000", "charge 0 depth 0 pointers 1 caps 0", "null", NULL_COPY, ""),
    # a far pointer to a pad of zeros in a word of data, which no path reaches
    ("0000000003000000 0000000001000000 0a00000000000000 0000000000000000", "charge 1 depth 1 pointers 1 caps 0", "struct 1 0",
     "0000000002000000 0000000001000000 0a00000000000000", "  d0 0a00000000000000\n"),
    # a capability without a pad
    (CAPABILITY, "charge 0 depth 0 pointers 1 caps 1", "cap 5", None, ""),
    (NULL, "charge 0 depth 0 pointers 1 caps 0", "null", NULL_COPY, ""),
    (STRUCT, "charge 1 depth 1 pointers 1 caps 0", "struct 1 0", STRUCT, "  d0 2a00000000000000\n"),
)

# Structs of pointers, each with a pad of zeros at its end. Its pointers lead to the pad and are reserved, lead to the pad
# twice, to a struct twice and then the pad, or are a capability and lead to the pad.
PAD_AND_RESERVED = "0000000004000000 0000000000000200 1a00000000000000 0700000000000000 0000000000000000"
PAD_TWICE = "0000000004000000 0000000000000200 1a00000000000000 1a00000000000000 0000000000000000"
STRUCT_TWICE_AND_PAD = ("0000000006000000 0000000000000300 0800000001000000 0400000001000000 2a00000000000000 "
                        "2a00000000000000 0000000000000000")
CAPABILITY_AND_PAD = "0000000004000000 0000000000000200 0300000005000000 1a00000000000000 0000000000000000"
PAD_AND_CYCLE = ("0100000003000000 0100000000000000 0000000000000200 0200000001000000 f8ffffff00000200 "
                 "0000000000000000")
# 512 segments: of a struct that isn't inside, of no root, of a cycle, and of a pad of zeros. And 511 with such a pad.
MANY_AND_OUTSIDE = MANY_SEGMENTS[:-16] + "0000000001000000"
MANY_AND_NO_ROOT = MANY_SEGMENTS.replace("01000000", "00000000", 1)[:-16]
MANY_AND_CYCLE = MANY_SEGMENTS[:-16] + "fcffffff00000100"
MANY_AND_PAD = MANY_SEGMENTS.replace("01000000", "02000000", 1)[:-16] + "0a00000000000000 0000000000000000"
MOST_AND_PAD = many(511).hex().replace("01000000", "02000000", 1)[:-16] + "0a00000000000000 0000000000000000"



def doubled(last, *more):
    """A struct of two pointers. The first leads to 12 structs, each with two pointers to the next, and the last with two null ones.
    These take 8,190 pointers, so the second pointer of the first struct is number 8,193."""
    pairs = 11 * ["0400000000000200", "0000000000000200"]
    chain = ["0000000000000200", "0400000000000200", last, *pairs, *2 * ["0000000000000000"], *more]
    return f"00000000{len(chain):02x}000000" + "".join(chain)


DOUBLED = doubled("0000000000000000")
DOUBLED_AND_RESERVED = doubled("0700000000000000")
DOUBLED_AND_PAD = doubled("da00000000000000", "0000000000000000")

# What comes first where several faults are there.
ORDER = (
    # a refusal before each construct
    *refused("--strict", PAD_AND_RESERVED, "Reserved at 0:2 pointers 3"),
    *refused("--strict", MANY_AND_CYCLE, "DepthLimit at 0:0 pointers 65"),
    *refused("--strict", MANY_AND_OUTSIDE, "OutOfSegment at 0:0 pointers 1"),
    *refused("--strict", MANY_AND_NO_ROOT, "NoRoot at 0:0 pointers 0"),
    *refused("--strict", "0000000000000000", "NoRoot at 0:0 pointers 0"),
    *refused("--strict", "0000000001000000 0700000005000000", "Reserved at 0:0 pointers 1"),
    *refused("--strict", PAD_AND_CYCLE, "DepthLimit at 0:2 pointers 129"),
    *refused("--strict --words 0", NULL_PAD, "WordLimit at 0:0 pointers 1"),
    *refused("--strict --words 1", EMPTY_SEGMENT, "WordLimit at 0:0 pointers 1"),
    *refused("--strict --depth 0", EMPTY_SEGMENT, "DepthLimit at 0:0 pointers 1"),
    # each of these before words that are used twice, also long after them
    *refused("", DOUBLED_AND_RESERVED, "Reserved at 0:2 pointers 8193"),
    *refused("--strict", DOUBLED_AND_RESERVED, "Reserved at 0:2 pointers 8193"),
    *refused("--strict", DOUBLED_AND_PAD, "NullPad at 0:2 pointers 8193"),
    *refused("--words 8192", DOUBLED_AND_PAD, "WordLimit at 0:2 pointers 8193"),
    Row("vet --exclusive", DOUBLED, "message 0: refused Overlap at 0:24 pointers 16\n", status=1),
    Row("vet --exclusive", DOUBLED_AND_PAD, "message 0: refused Overlap at 0:24 pointers 16\n", status=1),
    # 512 segments before a pointer
    *refused("--strict", MANY_AND_PAD, "ManySegments at 0:0 pointers 0"),
    *refused("--strict", MOST_AND_PAD, "NullPad at 0:0 pointers 1"),
    # the first of two pointers
    *refused("--strict", PAD_TWICE, "NullPad at 0:1 pointers 2"),
    # the pointer before words that are used twice: here, and before it in preorder
    Row("vet --exclusive", PAD_TWICE, "message 0: refused Overlap at 0:2 pointers 3\n", status=1),
    Row("vet --exclusive", STRUCT_TWICE_AND_PAD, "message 0: refused Overlap at 0:2 pointers 3\n", status=1),
    *refused("--strict", STRUCT_TWICE_AND_PAD, "NullPad at 0:3 pointers 4"),
    Row("vet --exclusive --strict", SHARED, "message 0: refused Overlap at 0:2 pointers 3\n", status=1),
    # the pointer before a capability, also one that comes before it in preorder
    Row("canon", CAPABILITY_AND_PAD, "", "capvet: message 0: HasCapability at 0:1\n", 1),
    Row("hash", CAPABILITY_AND_PAD, "message 0: no canonical form, capability at 0:1\n", status=1),
    *refused("--strict", CAPABILITY_AND_PAD, "NullPad at 0:2 pointers 3"),
    # a message that isn't canonical comes after all of these
    Row("check --strict", SHARED, "message 0: not canonical\n", status=1),
    Row("check --strict", DOUBLED, "message 0: not canonical\n", status=1),
    Row("check", DOUBLED_AND_PAD, "message 0: not canonical\n", status=1),
)

# A message that isn't strict ends no run but that of `canon`.
AFTER_IT = (
    Row("vet --strict", f"{NULL} {CAPABILITY_PAD} {CYCLE} {MANY_SEGMENTS} {STRUCT}",
        "message 0: accepted charge 0 depth 0 pointers 1 caps 0\n"
        "message 1: refused CapabilityPad at 0:0 pointers 1\n"
        "message 2: refused DepthLimit at 0:0 pointers 65\n"
        "message 3: refused ManySegments at 0:0 pointers 0\n"
        "message 4: accepted charge 1 depth 1 pointers 1 caps 0\n", status=1),
    Row("filter", f"{NULL} {CAPABILITY_PAD} {CYCLE} {MANY_SEGMENTS} {STRUCT}", word(f"{NULL} {STRUCT}"),
        "message 1: refused CapabilityPad at 0:0 pointers 1\n"
        "message 2: refused DepthLimit at 0:0 pointers 65\n"
        "message 3: refused ManySegments at 0:0 pointers 0\n", 1),
    Row("get /p0 --strict", f"{NULL} {NULL_PAD} {SHARED}",
        "message 0: none\n"
        "message 1: refused NullPad at 0:0 pointers 1\n"
        "message 2: found\nnode struct 1 0\n  d0 0700000000000000\n", status=1),
    Row("canon --strict", f"{STRUCT} {EMPTY_SEGMENT} {STRUCT}", word(STRUCT),
        "capvet: message 1: refused EmptySegment at 0:0\n", 1),
)

# ------------------------------------------------------------------ unamplified messages

def elements(count, more=0):
    """A list of elements without bits, in one segment with zero words after it."""
    return f"00000000{struct.pack('<I', 1 + more).hex()}" + words(1 | count << 35) + more * "0000000000000000"


def apart(count):
    """The same in the first of three segments, of one, two and no words."""
    return "02000000010000000200000000000000" + words(1 | count << 35, 0, 0)


def chain(levels):
    """Structs of two pointers to the next one, and at the end a struct of a word."""
    return (f"00000000{struct.pack('<I', 2 + 2 * levels).hex()}" + words(2 << 48)
            + (levels - 1) * words(1 << 2 | 2 << 48, 2 << 48) + words(1 << 2 | 1 << 32, 1 << 32) + words(7))


# A struct of 99 words and a pointer to itself: it is charged 100 at each level, and has 101 words.
WIDE_CYCLE = "0000000065000000" + words(99 << 32 | 1 << 48) + 99 * words(0) + words((-100 & 0x3FFFFFFF) << 2 | 99 << 32 | 1 << 48)
# 5,000 structs of a word of zeros, and their canonical copy, in which they have no words.
DEFAULTS = "000000008a130000" + words(1 | 7 << 32 | 5000 << 35, 5000 << 2 | 1 << 32) + 5000 * words(0)
DEFAULTS_COPY = "0000000002000000" + words(1 | 7 << 32, 5000 << 2)
# A pad of zeros, and then more elements than an unamplified message has.
PAD_AND_ELEMENTS = "0000000004000000" + words(2 << 48, 3 << 3 | 2, 1 | 4101 << 35, 0)

# The most that an unamplified message is charged is the words of its segments and 4096, and what is one more is refused.
UNAMPLIFIED = (
    *accepted("--unamplified", elements(4097), "charge 4097 depth 1 pointers 1 caps 0", "list 0 4097", elements(4097)),
    *refused("--unamplified", elements(4098), "WordLimit at 0:0 pointers 1"),
    *accepted("", elements(4098), "charge 4098 depth 1 pointers 1 caps 0", "list 0 4098", elements(4098)),
    # the words of all segments count, and those of the table don't
    *accepted("--unamplified", apart(4099), "charge 4099 depth 1 pointers 1 caps 0", "list 0 4099", elements(4099)),
    *refused("--unamplified", apart(4100), "WordLimit at 0:0 pointers 1"),
    # words that no path reaches count, and packed bytes count by their words
    *accepted("--unamplified", elements(9097, 5000), "charge 9097 depth 1 pointers 1 caps 0", "list 0 9097", elements(9097)),
    *refused("--unamplified", elements(9098, 5000), "WordLimit at 0:0 pointers 1"),
    # of two limits the smaller one counts
    *accepted("--unamplified --words 4097", elements(4097), "charge 4097 depth 1 pointers 1 caps 0", "list 0 4097", elements(4097)),
    *refused("--unamplified --words 4096", elements(4097), "WordLimit at 0:0 pointers 1"),
    *refused("--unamplified --words 268435456", elements(4098), "WordLimit at 0:0 pointers 1"),
    *refused("--words 268435456 --unamplified", elements(1 << 28), "WordLimit at 0:0 pointers 1"),
    # each message of a stream has its own limit
    Row("vet --unamplified", f"{elements(4097)} {elements(4098)} {elements(4098, 1)} {apart(4100)} {elements(4097)} {NULL}",
        "message 0: accepted charge 4097 depth 1 pointers 1 caps 0\n"
        "message 1: refused WordLimit at 0:0 pointers 1\n"
        "message 2: accepted charge 4098 depth 1 pointers 1 caps 0\n"
        "message 3: refused WordLimit at 0:0 pointers 1\n"
        "message 4: accepted charge 4097 depth 1 pointers 1 caps 0\n"
        "message 5: accepted charge 0 depth 0 pointers 1 caps 0\n", status=1),
    # what is shared is charged again: 22 words that are charged 3070, and 24 that would be charged 6142
    Row("vet --unamplified", chain(10), "message 0: accepted charge 3070 depth 11 pointers 2047 caps 0\n"),
    Row("vet", chain(11), "message 0: accepted charge 6142 depth 12 pointers 4095 caps 0\n"),
    # (the pointers that lead to 4121 words were counted by another program)
    Row("vet --unamplified", chain(11), "message 0: refused WordLimit at 0:21 pointers 2746\n", status=1),
    # a cycle comes to the limit of levels or to that of words
    Row("vet --unamplified", CYCLE, "message 0: refused DepthLimit at 0:0 pointers 65\n", status=1),
    Row("vet", WIDE_CYCLE, "message 0: refused DepthLimit at 0:100 pointers 65\n", status=1),
    Row("vet --unamplified", WIDE_CYCLE, "message 0: refused WordLimit at 0:100 pointers 42\n", status=1),
    # structs that have no words in the copy
    *accepted("", DEFAULTS_COPY, "charge 5001 depth 2 pointers 1 caps 0", "structs 5000 0 0", DEFAULTS_COPY),
    *refused("--unamplified", DEFAULTS_COPY, "WordLimit at 0:0 pointers 1"),
    Row("canon --unamplified", DEFAULTS, word(DEFAULTS_COPY)),
    Row("vet --unamplified", DEFAULTS, "message 0: accepted charge 5001 depth 2 pointers 1 caps 0\n"),
    # with both options the charge comes before strictness
    *refused("--strict", PAD_AND_ELEMENTS, "NullPad at 0:1 pointers 2"),
    *refused("--unamplified --strict", PAD_AND_ELEMENTS, "WordLimit at 0:2 pointers 3"),
)

ROWS = (
    *(row for stream, said, *_ in NOT_STRICT for options in ("--strict", "--strict --unamplified")
      for row in refused(options, stream, said)),
    *(row for stream, _, *plain in NOT_STRICT for options in ("", "--unamplified") for row in accepted(options, stream, *plain)),
    *(row for stream, *said in STRICT for options in ("--strict", "--unamplified --strict")
      for row in accepted(options, stream, *said)),
    *(Row("vet --strict", framed(digits).hex(), "message 0: refused {} at {}:{} pointers {}\n".format(*fault), status=1)
      for digits, fault in CASES if fault),
    *ORDER,
    *AFTER_IT,
    *UNAMPLIFIED,
)
