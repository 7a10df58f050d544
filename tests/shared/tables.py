"""The tables of tests/program/program.py: command lines, what goes in, and what the built program has to write for it.

Streams are in hexadecimal digits, in words as far as they have such, and texts are as they are written. The expected
texts were written from docs/output.md, and those of a wrong command line are the library clap's. Nothing here was
computed by the program.
"""
import hashlib
import struct
from typing import NamedTuple

word = bytes.fromhex


class Row(NamedTuple):
    """A command with its options, its input, both outputs and the exit status."""
    words: str
    stream: str
    out: str | bytes
    err: str = ""
    status: int = 0


def hashed(copy, number=0):
    """The line of a message with this canonical copy, which has a table."""
    return f"message {number}: sha256 {hashlib.sha256(word(copy)[8:]).hexdigest()}\n"


# ------------------------------------------------------------------ streams

# one null pointer, a struct without words, and one of a word
NULL = "0000000001000000 0000000000000000"
EMPTY = "0000000001000000 fcffffff00000000"
STRUCT = "0000000002000000 0000000001000000 2a00000000000000"

# a struct that points at itself
CYCLE = "0000000001000000 fcffffff00000100"

# two pointers to one struct
SHARED = "0000000004000000 0000000000000200 0400000001000000 0000000001000000 0700000000000000"

# two structs of a word in three words
SURPLUS = "0000000005000000 010000001f000000 0800000001000000 0500000000000000 0000000000000000 ff00000000000000"

# two structs of a word and a null pointer
STRUCTS = (
    "0000000006000000 0100000027000000 0800000001000100 0100000000000000 0000000000000000 0000000000000000 "
    "0000000000000000"
)

# a list of one struct, which points at a struct of a word
BELOW_A_LIST = "0000000004000000 010000000f000000 0400000000000100 0000000001000000 2a00000000000000"

# structs of two pointers, each pair of which leads to the next struct
DOUBLING = (
    "0000000008000000 0000000000000200 0400000000000200 0000000000000200 0400000000000200 0000000000000200 "
    "0400000001000000 0000000001000000 0700000000000000"
)

# a list without structs, one of three without words, and one of five
NO_STRUCTS = "0000000002000000 0100000007000000 0000000000000000"
THREE_EMPTIES = "0000000002000000 0100000007000000 0c00000000000000"
FIVE_EMPTIES = "0000000002000000 0100000007000000 1400000000000000"

# structs without words, more of them than any word limit allows
EMPTY_STRUCTS = "0000000002000000 0100000007000000 fcffffff00000000"

# three elements without bits, and 268435455 of them
BITLESS = "0000000001000000 0100000018000000"
EMPTY_ELEMENTS = "0000000001000000 01000000f8ffff7f"

# three bits, the others of their word set too
BITS = "0000000002000000 0100000019000000 ffffffffffffffff"

# two pointers, the first of them null
POINTERS = "0000000004000000 0100000016000000 0000000000000000 0000000001000000 0900000000000000"

# a capability
CAPABILITY = "0000000001000000 0300000005000000"

# ------------------------------------------------------------------ vet, segments and check

# What `vet` says within its limits.
VERDICTS = (
    Row("vet", "0000000001000000 0000000000000000", "message 0: accepted charge 0 depth 0 pointers 1 caps 0\n"),
    Row("vet", "0000000001000000 fcffffff00000000", "message 0: accepted charge 0 depth 1 pointers 1 caps 0\n"),
    Row("vet --words 1", STRUCT, "message 0: accepted charge 1 depth 1 pointers 1 caps 0\n"),
    Row("vet --words 0", STRUCT, "message 0: refused WordLimit at 0:0 pointers 1\n", status=1),
    Row("vet --charge 0", STRUCT, "message 0: refused WordLimit at 0:0 pointers 1\n", status=1),
    Row("vet --depth 0", STRUCT, "message 0: refused DepthLimit at 0:0 pointers 1\n", status=1),
    Row("vet", CYCLE, "message 0: refused DepthLimit at 0:0 pointers 65\n", status=1),
    Row("vet --words 10", CYCLE, "message 0: refused WordLimit at 0:0 pointers 11\n", status=1),
    Row("vet", "0000000001000000 0300000005000000", "message 0: accepted charge 0 depth 0 pointers 1 caps 1\n"),
    Row("vet", "0000000001000000 0700000005000000", "message 0: refused Reserved at 0:0 pointers 1\n", status=1),
    # a shared target is charged at each pointer
    Row("vet", SHARED, "message 0: accepted charge 4 depth 2 pointers 3 caps 0\n"),
    Row("vet --words 3", SHARED, "message 0: refused WordLimit at 0:2 pointers 3\n", status=1),
    Row("vet", BELOW_A_LIST, "message 0: accepted charge 3 depth 3 pointers 2 caps 0\n"),
    Row("vet --depth 2", BELOW_A_LIST, "message 0: refused DepthLimit at 0:2 pointers 2\n", status=1),
    Row("vet --words 2", BELOW_A_LIST, "message 0: refused WordLimit at 0:2 pointers 2\n", status=1),
    Row("vet", DOUBLING, "message 0: accepted charge 22 depth 4 pointers 15 caps 0\n"),
    Row("vet --words 22", DOUBLING, "message 0: accepted charge 22 depth 4 pointers 15 caps 0\n"),
    Row("vet --words 10", DOUBLING, "message 0: refused WordLimit at 0:5 pointers 7\n", status=1),
    # elements without words or bits are charged one by one
    Row("vet", EMPTY_STRUCTS, "message 0: refused WordLimit at 0:0 pointers 1\n", status=1),
    Row("vet --words 268435456", EMPTY_STRUCTS, "message 0: refused WordLimit at 0:0 pointers 1\n", status=1),
    Row("vet --words 268435455", EMPTY_ELEMENTS, "message 0: accepted charge 268435455 depth 1 pointers 1 caps 0\n"),
    Row("vet --words 268435454", EMPTY_ELEMENTS, "message 0: refused WordLimit at 0:0 pointers 1\n", status=1),
    # two faults, of which the first is named
    Row("vet", "0000000003000000 0000000000000200 0800000001000000 0700000005000000",
        "message 0: refused OutOfSegment at 0:1 pointers 2\n", status=1),
    # a capability that a landing pad leads to
    Row("vet", "0100000001000000 0100000000000000 0200000001000000 0300000005000000",
        "message 0: accepted charge 1 depth 0 pointers 1 caps 1\n"),
    # both limits are passed, and the depth limit is named
    Row("vet --words 0 --depth 0", STRUCT, "message 0: refused DepthLimit at 0:0 pointers 1\n", status=1),
    # two segments, with padding that isn't zero
    Row("vet", "0100000001000000 02000000deadbeef 0200000001000000 0000000001000000 2a00000000000000",
        "message 0: accepted charge 2 depth 1 pointers 1 caps 0\n"),
    # a refused message doesn't end the run
    Row("vet", "0000000000000000 0000000002000000 0000000001000000 2a00000000000000",
        "message 0: refused NoRoot at 0:0 pointers 0\n"
        "message 1: accepted charge 1 depth 1 pointers 1 caps 0\n", status=1),
)

# The greatest and the least of each limit, and options together.
OTHER_LIMITS = (
    Row("segments --size=268435456", "0000000000000010", "", "capvet: message 0: Truncated at byte 8\n", 1),
    Row("vet --size 268435456", "0000000000000010", "", "capvet: message 0: Truncated at byte 8\n", 1),
    Row("vet --size 268435456", "0000000001000010", "", "capvet: message 0: TooLarge 268435457\n", 1),
    Row("segments --size 0", NULL, "", "capvet: message 0: TooLarge 1\n", 1),
    Row("vet --size 0", NULL, "", "capvet: message 0: TooLarge 1\n", 1),
    Row("vet --size 0", "0000000000000000", "message 0: refused NoRoot at 0:0 pointers 0\n", status=1),
    Row("vet --words 268435456", "0000000001000000 0100000000000080",
        "message 0: accepted charge 268435456 depth 1 pointers 1 caps 0\n"),
    Row("vet --words 0", BITLESS, "message 0: refused WordLimit at 0:0 pointers 1\n", status=1),
    # each of the three options in one line
    Row("vet --depth=3 --size=1 --words=2", STRUCT, "", "capvet: message 0: TooLarge 2\n", 1),
    Row("vet --depth=3 --size=4 --words=2", BELOW_A_LIST, "message 0: refused WordLimit at 0:2 pointers 2\n", status=1),
    Row("vet --depth=2 --size=4 --words=3", BELOW_A_LIST, "message 0: refused DepthLimit at 0:2 pointers 2\n", status=1),
    Row("get --depth=3 --size=1 --words=2 /", STRUCT, "", "capvet: message 0: TooLarge 2\n", 1),
    # a table that claims more words than are there, after a whole message
    Row("segments", "0000000001000000 0700000000000000 0000000000008000",
        "message 0: segments 1 words 1\nsegment 0: 1\nroot 0700000000000000\n",
        "capvet: message 1: Truncated at byte 24\n", 1),
    Row("get /", "0000000001000000 0000000000000000 0000000000008000", "message 0: found\nnode null\n",
        "capvet: message 1: Truncated at byte 24\n", 1),
)

# Streams that end, or that aren't one of framed messages within the limits.
ENDS = (
    # no message
    Row("vet", "", ""),
    # more segments than there may be, and more than there can be
    Row("vet", "ffffffff00000000", "", "capvet: message 0: TooManySegments 4294967296\n", 1),
    Row("vet", "0002000000000000", "", "capvet: message 0: TooManySegments 513\n", 1),
    # cut in the first word, in the table, and in the contents
    Row("vet", "ffffffff", "", "capvet: message 0: Truncated at byte 4\n", 1),
    Row("vet", "ff01000000000000", "", "capvet: message 0: Truncated at byte 8\n", 1),
    Row("vet", "0000000002000000 0000000001000000", "", "capvet: message 0: Truncated at byte 16\n", 1),
    # cut in a table whose sizes are past the limit so far
    Row("vet", "02000000ffffffff", "", "capvet: message 0: Truncated at byte 8\n", 1),
    # larger than the limit, whether the contents are there or not
    Row("vet", "00000000ffffffff", "", "capvet: message 0: TooLarge 4294967295\n", 1),
    Row("vet --size 1", STRUCT, "", "capvet: message 0: TooLarge 2\n", 1),
    Row("vet --message-words=1", STRUCT, "", "capvet: message 0: TooLarge 2\n", 1),
)

# Streams of one message, and what is said of it.
MESSAGES = (
    # a struct of two words
    Row("vet", "0000000003000000 0000000002000000 2a00000000000000 0000000000000000",
        "message 0: accepted charge 2 depth 1 pointers 1 caps 0\n"),
    # elements without bits are charged one by one
    Row("vet", "0000000001000000 01000000f8ffffff", "message 0: refused WordLimit at 0:0 pointers 1\n", status=1),
    Row("vet", "0000000001000000 0100000018000000", "message 0: accepted charge 3 depth 1 pointers 1 caps 0\n"),
    # three bits
    Row("vet", "0000000002000000 0100000019000000 ffffffffffffffff",
        "message 0: accepted charge 1 depth 1 pointers 1 caps 0\n"),
    # two structs in three words, in one word, and after a tag that is no struct
    Row("vet", "0000000005000000 010000001f000000 0800000001000000 0500000000000000 0000000000000000 ff00000000000000",
        "message 0: accepted charge 4 depth 2 pointers 1 caps 0\n"),
    Row("vet", "0000000005000000 010000000f000000 0800000001000000 0500000000000000 0000000000000000 ff00000000000000",
        "message 0: refused CompositeOverrun at 0:0 pointers 1\n", status=1),
    Row("vet", "0000000005000000 010000001f000000 0900000001000000 0500000000000000 0000000000000000 ff00000000000000",
        "message 0: refused CompositeTag at 0:0 pointers 1\n", status=1),
    # two structs with a null pointer each
    Row("vet", "0000000006000000 0100000027000000 0800000001000100 0100000000000000 0000000000000000 0000000000000000 "
        "0000000000000000",
        "message 0: accepted charge 5 depth 2 pointers 3 caps 0\n"),
    # two pointers, one of them null
    Row("vet", "0000000004000000 0100000016000000 0000000000000000 0000000001000000 0900000000000000",
        "message 0: accepted charge 3 depth 2 pointers 3 caps 0\n"),
    # a landing pad in the pointer's own segment, and a pad that is null
    Row("vet", "0000000003000000 0a00000000000000 0000000001000000 2a00000000000000",
        "message 0: accepted charge 2 depth 1 pointers 1 caps 0\n"),
    Row("vet", "0100000001000000 0100000000000000 0200000001000000 0000000000000000",
        "message 0: accepted charge 1 depth 0 pointers 1 caps 0\n"),
    # landing pads of two words
    Row("vet", "0200000001000000 0200000000000000 0600000001000000 0200000002000000 0000000000000000",
        "message 0: accepted charge 2 depth 1 pointers 1 caps 0\n"),
    Row("vet", "0200000001000000 0200000001000000 0600000001000000 0200000002000000 0000000001000000 2a00000000000000",
        "message 0: accepted charge 3 depth 1 pointers 1 caps 0\n"),
    Row("vet", "0200000001000000 0200000001000000 0600000001000000 0200000002000000 0400000001000000 2a00000000000000",
        "message 0: refused TagOffset at 0:0 pointers 1\n", status=1),
    Row("vet", "0200000001000000 0200000001000000 0600000001000000 0200000002000000 0300000000000000 2a00000000000000",
        "message 0: refused TagKind at 0:0 pointers 1\n", status=1),
    Row("vet", "0200000001000000 0200000001000000 0600000001000000 0000000000000000 0000000001000000 2a00000000000000",
        "message 0: refused PadNotFar at 0:0 pointers 1\n", status=1),
    # far pointers to a pad that is far, in no segment, outside its segment, or leads out of its segment
    Row("vet", "0100000001000000 0100000000000000 0200000001000000 0200000000000000",
        "message 0: refused PadIsFar at 0:0 pointers 1\n", status=1),
    Row("vet", "0100000001000000 0100000000000000 0200000007000000 0000000000000000",
        "message 0: refused SegmentMissing at 0:0 pointers 1\n", status=1),
    Row("vet", "0100000001000000 0100000000000000 0600000001000000 0000000000000000",
        "message 0: refused PadOutside at 0:0 pointers 1\n", status=1),
    Row("vet", "0100000001000000 0100000000000000 0200000001000000 0000000001000000",
        "message 0: refused OutOfSegment at 0:0 pointers 1\n", status=1),
)

# What `segments` writes.
SEGMENTS = (
    # one null root
    Row("segments", "0000000001000000 0000000000000000",
        "message 0: segments 1 words 1\nsegment 0: 1\nroot 0000000000000000\n"),
    # two segments, with padding that isn't zero
    Row("segments", "0100000001000000 02000000deadbeef 0200000001000000 0000000001000000 2a00000000000000",
        "message 0: segments 2 words 3\nsegment 0: 1\nsegment 1: 2\nroot 0200000001000000\n"),
    # a segment without words, which has no root
    Row("segments", "0000000000000000", "message 0: segments 1 words 0\nsegment 0: 0\nroot none\n"),
    # no message
    Row("segments", "", ""),
    # more segments than there may be, and more than there can be
    Row("segments", "ffffffff00000000", "", "capvet: message 0: TooManySegments 4294967296\n", 1),
    Row("segments", "0002000000000000", "", "capvet: message 0: TooManySegments 513\n", 1),
    # cut in the first word, after it, and in the contents
    Row("segments", "ffffffff", "", "capvet: message 0: Truncated at byte 4\n", 1),
    Row("segments", "ff01000000000000", "", "capvet: message 0: Truncated at byte 8\n", 1),
    Row("segments", "0000000002000000 0000000001000000", "", "capvet: message 0: Truncated at byte 16\n", 1),
    # larger than the limit that no option changes
    Row("segments", "00000000ffffffff", "", "capvet: message 0: TooLarge 4294967295\n", 1),
    # a segment without words between others
    Row("segments", "0200000001000000 0000000001000000 0000000000000000 fcffffff00000000",
        "message 0: segments 3 words 2\nsegment 0: 1\nsegment 1: 0\nsegment 2: 1\nroot 0000000000000000\n"),
    # two messages, and then two and the beginning of a third
    Row("segments", "0000000000000000 0000000002000000 0000000001000000 2a00000000000000",
        "message 0: segments 1 words 0\n"
        "segment 0: 0\n"
        "root none\n"
        "message 1: segments 1 words 2\n"
        "segment 0: 2\n"
        "root 0000000001000000\n"),
    Row("segments", "0000000000000000 0000000002000000 0000000001000000 2a00000000000000 00000000",
        "message 0: segments 1 words 0\n"
        "segment 0: 0\n"
        "root none\n"
        "message 1: segments 1 words 2\n"
        "segment 0: 2\n"
        "root 0000000001000000\n", "capvet: message 2: Truncated at byte 36\n", 1),
    # a size limit below that of the message, and at it
    Row("segments --size 1", STRUCT, "", "capvet: message 0: TooLarge 2\n", 1),
    Row("segments --size 2", STRUCT, "message 0: segments 1 words 2\nsegment 0: 2\nroot 0000000001000000\n"),
)

# The level of the structs of a list: one below their list, where it has any.
LEVELS = (
    Row("vet --depth 64", SURPLUS, "message 0: accepted charge 4 depth 2 pointers 1 caps 0\n"),
    Row("vet --depth 1", SURPLUS, "message 0: refused DepthLimit at 0:0 pointers 1\n", status=1),
    Row("vet --depth 64", STRUCTS, "message 0: accepted charge 5 depth 2 pointers 3 caps 0\n"),
    Row("vet --depth 3", BELOW_A_LIST, "message 0: accepted charge 3 depth 3 pointers 2 caps 0\n"),
    Row("vet --depth 2", BELOW_A_LIST, "message 0: refused DepthLimit at 0:2 pointers 2\n", status=1),
    Row("vet --depth 1", BELOW_A_LIST, "message 0: refused DepthLimit at 0:0 pointers 1\n", status=1),
    Row("vet --depth 1", NO_STRUCTS, "message 0: accepted charge 1 depth 1 pointers 1 caps 0\n"),
    Row("vet --depth 0", NO_STRUCTS, "message 0: refused DepthLimit at 0:0 pointers 1\n", status=1),
    Row("vet --depth 2", FIVE_EMPTIES, "message 0: accepted charge 6 depth 2 pointers 1 caps 0\n"),
    Row("vet --depth 1", FIVE_EMPTIES, "message 0: refused DepthLimit at 0:0 pointers 1\n", status=1),
    Row("vet --depth 1", EMPTY, "message 0: accepted charge 0 depth 1 pointers 1 caps 0\n"),
    Row("vet --depth 1", BITLESS, "message 0: accepted charge 3 depth 1 pointers 1 caps 0\n"),
    Row("vet --depth 2", POINTERS, "message 0: accepted charge 3 depth 2 pointers 3 caps 0\n"),
    Row("check --depth 1", NO_STRUCTS, "message 0: canonical\n"),
    Row("check --depth 2", FIVE_EMPTIES, "message 0: canonical\n"),
    Row("check --depth 1", FIVE_EMPTIES, "message 0: refused DepthLimit at 0:0 pointers 1\n", status=1),
    Row("check --depth 3", BELOW_A_LIST, "message 0: canonical\n"),
)

# Streams of one message, what `vet --exclusive` says of it, and what is said without the option.
EXCLUSIVES = (
    # two pointers to one struct, of which the second overlaps
    ("0000000004000000 0000000000000200 0400000001000000 0000000001000000 0700000000000000",
     "refused Overlap at 0:2 pointers 3", "accepted charge 4 depth 2 pointers 3 caps 0"),
    # a struct on the root word, and one on its own landing pad
    ("0000000001000000 fcffffff01000000",
     "refused Overlap at 0:0 pointers 1", "accepted charge 1 depth 1 pointers 1 caps 0"),
    ("0000000002000000 0a00000000000000 fcffffff01000000",
     "refused Overlap at 0:0 pointers 1", "accepted charge 2 depth 1 pointers 1 caps 0"),
    # an empty struct that starts inside another
    ("0000000003000000 0000000001000100 2a00000000000000 f8ffffff00000000",
     "accepted charge 2 depth 2 pointers 2 caps 0", "accepted charge 2 depth 2 pointers 2 caps 0"),
    # a null root, a struct without words, and one of a word
    ("0000000001000000 0000000000000000",
     "accepted charge 0 depth 0 pointers 1 caps 0", "accepted charge 0 depth 0 pointers 1 caps 0"),
    ("0000000001000000 fcffffff00000000",
     "accepted charge 0 depth 1 pointers 1 caps 0", "accepted charge 0 depth 1 pointers 1 caps 0"),
    ("0000000002000000 0000000001000000 2a00000000000000",
     "accepted charge 1 depth 1 pointers 1 caps 0", "accepted charge 1 depth 1 pointers 1 caps 0"),
    # two structs in three words
    ("0000000005000000 010000001f000000 0800000001000000 0500000000000000 0000000000000000 ff00000000000000",
     "accepted charge 4 depth 2 pointers 1 caps 0", "accepted charge 4 depth 2 pointers 1 caps 0"),
    # landing pads of one word and of two
    ("0100000001000000 02000000deadbeef 0200000001000000 0000000001000000 2a00000000000000",
     "accepted charge 2 depth 1 pointers 1 caps 0", "accepted charge 2 depth 1 pointers 1 caps 0"),
    ("0200000001000000 0200000000000000 0600000001000000 0200000002000000 0000000000000000",
     "accepted charge 2 depth 1 pointers 1 caps 0", "accepted charge 2 depth 1 pointers 1 caps 0"),
    ("0200000001000000 0200000001000000 0600000001000000 0200000002000000 0000000001000000 2a00000000000000",
     "accepted charge 3 depth 1 pointers 1 caps 0", "accepted charge 3 depth 1 pointers 1 caps 0"),
    ("0000000003000000 0a00000000000000 0000000001000000 2a00000000000000",
     "accepted charge 2 depth 1 pointers 1 caps 0", "accepted charge 2 depth 1 pointers 1 caps 0"),
    # a list of two pointers
    ("0000000004000000 0100000016000000 0000000000000000 0000000001000000 0900000000000000",
     "accepted charge 3 depth 2 pointers 3 caps 0", "accepted charge 3 depth 2 pointers 3 caps 0"),
    # a cycle, and a message without a root
    ("0000000001000000 fcffffff00000100",
     "refused DepthLimit at 0:0 pointers 65", "refused DepthLimit at 0:0 pointers 65"),
    ("0000000000000000", "refused NoRoot at 0:0 pointers 0", "refused NoRoot at 0:0 pointers 0"),
)

# Messages that `vet` accepts, and the first pointer that overlaps, if one does.
USED_TWICE = (
    # two structs, the second on the last word of the first, and after it
    ("0000000005000000 0000000000000200 0400000002000000 0400000001000000 0100000000000000 0200000000000000",
     "0:2 pointers 3"),
    ("0000000006000000 0000000000000200 0400000002000000 0800000001000000 0100000000000000 0200000000000000 "
     "0300000000000000", None),
    # a list of one struct, and a struct on its element, on its tag, and after the list
    ("0000000005000000 0000000000000200 050000000f000000 0400000001000000 0400000001000000 0700000000000000",
     "0:2 pointers 3"),
    ("0000000005000000 0000000000000200 050000000f000000 0000000001000000 0400000001000000 0700000000000000",
     "0:2 pointers 3"),
    ("0000000006000000 0000000000000200 050000000f000000 0800000001000000 0400000001000000 0700000000000000 "
     "0800000000000000", None),
    # a struct, and a list of one struct whose element lies on it
    ("0000000005000000 0000000000000200 0800000001000000 010000000f000000 0400000001000000 0700000000000000",
     "0:2 pointers 3"),
    # two pointers to one pad of null, and of a capability
    ("0000000004000000 0000000000000200 1a00000000000000 1a00000000000000 0000000000000000", "0:2 pointers 3"),
    ("0000000004000000 0000000000000200 1a00000000000000 1a00000000000000 0300000005000000", "0:2 pointers 3"),
    # two structs without words at one place, and one list of elements without bits for two pointers
    ("0000000003000000 0000000000000200 fcffffff00000000 f8ffffff00000000", None),
    ("0000000003000000 0000000000000200 0500000018000000 0100000018000000", None),
    # words that no pointer uses
    ("0000000004000000 0000000001000000 2a00000000000000 2b00000000000000 2c00000000000000", None),
    # a struct that is reached through a pad of one word, before a segment without words
    ("0200000001000000 0200000000000000 0200000001000000 0000000001000000 2a00000000000000", None),
    # a struct on the first word of its pad, on the second, and on the root word
    ("0200000001000000 0200000000000000 0600000001000000 0200000001000000 0000000001000000", "0:0 pointers 1"),
    ("0200000001000000 0200000000000000 0600000001000000 0a00000001000000 0000000001000000", "0:0 pointers 1"),
    ("0200000001000000 0200000000000000 0600000001000000 0200000000000000 0000000001000000", "0:0 pointers 1"),
    # the last word of a segment, and the first of the next
    ("0200000004000000 0200000000000000 0000000000000200 0400000001000000 0200000001000000 0700000000000000 "
     "0000000001000000 0900000000000000", None),
)

# Lists of words, by two pointer words and a count of words, of which the second begins after the first or on its last
# word. Their marks are in one number or in several.
TWO_LISTS = (
    (0x000001e500000005, 0x00000015000000f1, 62, None),
    (0x000001e500000005, 0x00000015000000ed, 61, "0:2 pointers 3"),
    (0x000001ed00000005, 0x00000015000000f5, 63, None),
    (0x000001ed00000005, 0x00000015000000f1, 62, "0:2 pointers 3"),
    (0x000001f500000005, 0x00000015000000f9, 64, None),
    (0x000001f500000005, 0x00000015000000f5, 63, "0:2 pointers 3"),
    (0x000001fd00000005, 0x00000015000000fd, 65, None),
    (0x000001fd00000005, 0x00000015000000f9, 64, "0:2 pointers 3"),
    (0x000003ed00000005, 0x00000015000001f5, 127, None),
    (0x000003ed00000005, 0x00000015000001f1, 126, "0:2 pointers 3"),
    (0x000003f500000005, 0x00000015000001f9, 128, None),
    (0x000003f500000005, 0x00000015000001f5, 127, "0:2 pointers 3"),
    (0x000005f500000005, 0x00000015000002f9, 192, None),
    (0x000005f500000005, 0x00000015000002f5, 191, "0:2 pointers 3"),
)


def two_lists():
    """The messages of these lists: a struct of their two pointers, and so many words of zeros."""
    for first, second, count, _ in TWO_LISTS:
        yield struct.pack("<IIQQQ", 0, 3 + count, 2 << 48, first, second) + bytes(8 * count)


# Messages of a struct on the root word, of none, and of a null root.
OVERLAPS = (
    Row("vet --exclusive", "0000000001000000 fcffffff01000000 0000000000000000 0000000001000000 0000000000000000",
        "message 0: refused Overlap at 0:0 pointers 1\n"
        "message 1: refused NoRoot at 0:0 pointers 0\n"
        "message 2: accepted charge 0 depth 0 pointers 1 caps 0\n", status=1),
)

# Tables of too many words: of one segment, and of 512, each of the most words that a table can state. Each
# command that reads messages refuses them.
TOO_LARGE = (
    ("00000000ffffffff", "capvet: message 0: TooLarge 4294967295\n"),
    ("ff010000" + 512 * "ffffffff" + "00000000", "capvet: message 0: TooLarge 2199023255040\n"),
)

# A struct of one pointer, to a struct of three words: five words, a charge of four, and two levels.
LIMITED = (
    "0000000005000000 0000000000000100 0000000003000000 2a00000000000000 0000000000000000 0700000000000000"
)

# What each command writes of it within its limits.
WITHIN_LIMITS = {
    "vet": "message 0: accepted charge 4 depth 2 pointers 2 caps 0\n",
    "vet --exclusive": "message 0: accepted charge 4 depth 2 pointers 2 caps 0\n",
    "dump": "message 0: accepted charge 4 depth 2 pointers 2 caps 0\n"
            "root struct 0 1\n"
            "  p0 struct 3 0\n"
            "    d0 2a00000000000000\n"
            "    d1 0000000000000000\n"
            "    d2 0700000000000000\n",
    "get /p0": "message 0: found\n"
               "node struct 3 0\n"
               "  d0 2a00000000000000\n"
               "  d1 0000000000000000\n"
               "  d2 0700000000000000\n",
    "check": "message 0: canonical\n",
    "canon": word(LIMITED),
    "hash": hashed(LIMITED),
    "filter": word(LIMITED),
}

# Each limit at what that message takes, the limit that is one less, and what is then said.
LIMITS = (
    ("--size 5", "--size 4", "TooLarge 5"),
    ("--words 4", "--words 3", "refused WordLimit at 0:1"),
    ("--depth 2", "--depth 1", "refused DepthLimit at 0:1"),
)

# Lists of elements without bits: as many as the default limit of words, and one more. Structs in one another: as many
# as the default limit of levels, and one more.
MOST_ELEMENTS = "0000000001000000 0100000000000004"
TOO_MANY_ELEMENTS = "0000000001000000 0100000008000004"
MOST_LEVELS = "0000000040000000" + 63 * " 0000000000000100" + " fcffffff00000000"
TOO_MANY_LEVELS = "0000000041000000" + 64 * " 0000000000000100" + " fcffffff00000000"

# Messages at a default limit: what is said of each, its root, and what `dump` writes below the root. Messages past it:
# what is said of each, and how many pointers were looked at.
WITHIN_DEFAULTS = (
    (MOST_ELEMENTS, "accepted charge 8388608 depth 1 pointers 1 caps 0", "list 0 8388608", ""),
    (MOST_LEVELS, "accepted charge 63 depth 64 pointers 64 caps 0", "struct 0 1",
     "".join(f"{'  ' * level}p0 struct 0 {int(level < 63)}\n" for level in range(1, 64))),
)
PAST_DEFAULTS = (
    (TOO_MANY_ELEMENTS, "refused WordLimit at 0:0", 1),
    (TOO_MANY_LEVELS, "refused DepthLimit at 0:64", 65),
)

# Tables that claim the default limit of words, and one word more. No word follows them.
SIZE_DEFAULTS = (
    ("0000000000008000", "Truncated at byte 8"),
    ("0000000001008000", "TooLarge 8388609"),
)

# 44 words that are reached by more than four million ways.
DOUBLED = (
    Row("vet",
        "000000002c000000 0000000000000200" + 20 * " 0400000000000200 0000000000000200"
        + " 0400000001000000 0000000001000000 0700000000000000",
        "message 0: accepted charge 6291454 depth 22 pointers 4194303 caps 0\n"),
    Row("vet --words 6291454 --depth 22",
        "000000002c000000 0000000000000200" + 20 * " 0400000000000200 0000000000000200"
        + " 0400000001000000 0000000001000000 0700000000000000",
        "message 0: accepted charge 6291454 depth 22 pointers 4194303 caps 0\n"),
    Row("vet --words 6291453 --depth 22",
        "000000002c000000 0000000000000200" + 20 * " 0400000000000200 0000000000000200"
        + " 0400000001000000 0000000001000000 0700000000000000",
        "message 0: refused WordLimit at 0:42 pointers 4194303\n", status=1),
)

# 128 lists of one struct of one pointer, each below the struct of the one before it.
NESTED_LISTS = "0000000001010000" + 128 * " 010000000f000000 0400000000000100" + " 0000000000000000"
NESTED = (
    Row("vet --depth 256", NESTED_LISTS, "message 0: accepted charge 256 depth 256 pointers 129 caps 0\n"),
    Row("vet --depth 255", NESTED_LISTS, "message 0: refused DepthLimit at 0:254 pointers 128\n", status=1),
    Row("check --depth 255", NESTED_LISTS, "message 0: refused DepthLimit at 0:254 pointers 128\n", status=1),
)

# Structs of two pointers. The first pointer of each leads to the next struct, and the second is a capability.
def ladder(count):
    words = 2 * count + 3
    return (f"00000000{words.to_bytes(4, 'little').hex()} 0000000000000200" + count * " 0400000000000200 0300000000000000"
            + " 0000000000000000 0300000000000000")


LEVELS_WITH_A_POINTER_LEFT = (
    Row("vet --words 268435456 --depth 256", ladder(255), "message 0: accepted charge 512 depth 256 pointers 513 caps 256\n"),
    Row("vet --words 512 --depth 256", ladder(255), "message 0: accepted charge 512 depth 256 pointers 513 caps 256\n"),
    Row("vet --words 511 --depth 256", ladder(255), "message 0: refused WordLimit at 0:509 pointers 256\n", status=1),
    Row("vet --words 268435456 --depth 255", ladder(255), "message 0: refused DepthLimit at 0:509 pointers 256\n", status=1),
    Row("vet --words 268435456 --depth 256", ladder(256), "message 0: refused DepthLimit at 0:511 pointers 257\n", status=1),
    # one list of a struct too many
    Row("vet --depth 256", "0000000003010000" + 129 * " 010000000f000000 0400000000000100" + " 0000000000000000",
        "message 0: refused DepthLimit at 0:256 pointers 129\n", status=1),
)

# ------------------------------------------------------------------ dump and get

STRUCTS_DUMP = """\
message 0: accepted charge 5 depth 2 pointers 3 caps 0
root structs 2 1 1
  i0 struct 1 1
    d0 0100000000000000
    p0 null
  i1 struct 1 1
    d0 0000000000000000
    p0 null
"""

# What `dump` writes.
DUMPS = (
    Row("dump", NULL, "message 0: accepted charge 0 depth 0 pointers 1 caps 0\nroot null\n"),
    Row("dump", EMPTY, "message 0: accepted charge 0 depth 1 pointers 1 caps 0\nroot struct 0 0\n"),
    # two pointers to one struct
    Row("dump", SHARED,
        "message 0: accepted charge 4 depth 2 pointers 3 caps 0\n"
        "root struct 0 2\n"
        "  p0 struct 1 0\n"
        "    d0 0700000000000000\n"
        "  p1 struct 1 0\n"
        "    d0 0700000000000000\n"),
    # two elements in three words
    Row("dump", SURPLUS,
        "message 0: accepted charge 4 depth 2 pointers 1 caps 0\n"
        "root structs 2 1 0\n"
        "  i0 struct 1 0\n"
        "    d0 0500000000000000\n"
        "  i1 struct 1 0\n"
        "    d0 0000000000000000\n"),
    # the unused bits of three are zeros
    Row("dump", BITS,
        "message 0: accepted charge 1 depth 1 pointers 1 caps 0\nroot list 1 3\n  w0 0700000000000000\n"),
    # structs of one word and one pointer
    Row("dump", STRUCTS, STRUCTS_DUMP),
    # messages that are refused
    Row("dump", CYCLE, "message 0: refused DepthLimit at 0:0 pointers 65\n", status=1),
    Row("dump --words 3", SHARED, "message 0: refused WordLimit at 0:2 pointers 3\n", status=1),
    # numbers of each length: lists of elements without bits, each of which costs a word
    *(Row("dump --words 268435456", f"0000000001000000 01000000{(8 * count).to_bytes(4, 'little').hex()}",
          f"message 0: accepted charge {count} depth 1 pointers 1 caps 0\nroot list 0 {count}\n")
      for count in (12, 123, 1234, 12345, 123456, 1234567, 12345678, 123456789)),
    # other nodes
    Row("dump", CAPABILITY, "message 0: accepted charge 0 depth 0 pointers 1 caps 1\nroot cap 5\n"),
    Row("dump", STRUCT,
        "message 0: accepted charge 1 depth 1 pointers 1 caps 0\nroot struct 1 0\n  d0 2a00000000000000\n"),
    # elements without bits have no words
    Row("dump", BITLESS, "message 0: accepted charge 3 depth 1 pointers 1 caps 0\nroot list 0 3\n"),
    # nine bytes
    Row("dump", "0000000003000000 010000004a000000 0102030405060708 ffffffffffffffff",
        "message 0: accepted charge 2 depth 1 pointers 1 caps 0\n"
        "root list 2 9\n"
        "  w0 0102030405060708\n"
        "  w1 ff00000000000000\n"),
    # a list of pointers
    Row("dump", POINTERS,
        "message 0: accepted charge 3 depth 2 pointers 3 caps 0\n"
        "root pointers 2\n"
        "  i0 null\n"
        "  i1 struct 1 0\n"
        "    d0 0900000000000000\n"),
    # structs without words aren't shown
    Row("dump", THREE_EMPTIES, "message 0: accepted charge 4 depth 2 pointers 1 caps 0\nroot structs 3 0 0\n"),
    # no structs have sizes
    Row("dump", "0000000002000000 0100000007000000 0000000001000200",
        "message 0: accepted charge 1 depth 1 pointers 1 caps 0\nroot structs 0 1 2\n"),
    # a far pointer into its own segment
    Row("dump", "0000000003000000 0a00000000000000 0000000001000000 2a00000000000000",
        "message 0: accepted charge 2 depth 1 pointers 1 caps 0\nroot struct 1 0\n  d0 2a00000000000000\n"),
)

# The deepest of all dumps: 128 lists of one struct of one word and one pointer, each below the struct before it.
LADDER = (
    Row("dump --depth 256",
        "0000000081010000 "
        + " ".join(f"0100000017000000 0400000001000100 {step:02x}00000000000000" for step in range(128))
        + " 0000000000000000",
        "message 0: accepted charge 384 depth 256 pointers 129 caps 0\nroot structs 1 1 1\n"
        + "".join(
            "  " * (2 * step + 1) + "i0 struct 1 1\n"
            + "  " * (2 * step + 2) + f"d0 {step:02x}00000000000000\n"
            + "  " * (2 * step + 2) + ("p0 structs 1 1 1\n" if step < 127 else "p0 null\n")
            for step in range(128))),
)

# What `get` writes.
GETS = (
    Row("get /p1", SHARED, "message 0: found\nnode struct 1 0\n  d0 0700000000000000\n"),
    Row("get /p2", SHARED, "message 0: none\n"),
    Row("get /i0", SHARED, "message 0: none\n"),
    Row("get /p0/p0", SHARED, "message 0: none\n"),
    # a node without what its pointers lead to
    Row("get /", SHARED, "message 0: found\nnode struct 0 2\n"),
    Row("get /", NULL, "message 0: found\nnode null\n"),
    Row("get /", BITS, "message 0: found\nnode list 1 3\n  w0 0700000000000000\n"),
    Row("get /", CAPABILITY, "message 0: found\nnode cap 5\n"),
    Row("get /", POINTERS, "message 0: found\nnode pointers 2\n"),
    Row("get /i1", STRUCTS, "message 0: found\nnode struct 1 1\n  d0 0000000000000000\n"),
    Row("get /i1/p0", STRUCTS, "message 0: found\nnode null\n"),
    # an element that a dump doesn't show
    Row("get /i2", THREE_EMPTIES, "message 0: found\nnode struct 0 0\n"),
    Row("get /i3", THREE_EMPTIES, "message 0: none\n"),
    Row("get /p0", CYCLE, "message 0: refused DepthLimit at 0:0 pointers 65\n", status=1),
    Row("get /p0 --words 3", SHARED, "message 0: refused WordLimit at 0:2 pointers 3\n", status=1),
)

# A null pointer, a message that is refused, and two pointers.
AFTER_A_REFUSAL = (
    Row("dump", f"{NULL} {CYCLE} {SHARED}",
        "message 0: accepted charge 0 depth 0 pointers 1 caps 0\n"
        "root null\n"
        "message 1: refused DepthLimit at 0:0 pointers 65\n"
        "message 2: accepted charge 4 depth 2 pointers 3 caps 0\n"
        "root struct 0 2\n"
        "  p0 struct 1 0\n"
        "    d0 0700000000000000\n"
        "  p1 struct 1 0\n"
        "    d0 0700000000000000\n", status=1),
    Row("get /p1", f"{NULL} {CYCLE} {SHARED}",
        "message 0: none\n"
        "message 1: refused DepthLimit at 0:0 pointers 65\n"
        "message 2: found\n"
        "node struct 1 0\n"
        "  d0 0700000000000000\n", status=1),
)

# ------------------------------------------------------------------ canon, pack and unpack

# A message, its canonical copy, and whether it is that itself.
COPIES = (
    # a null root
    ("0000000001000000 0000000000000000",
     "0000000001000000 0000000000000000", True),
    # a struct without words
    ("0000000001000000 fcffffff00000000",
     "0000000001000000 fcffffff00000000", True),
    # a struct of one word
    ("0000000002000000 0000000001000000 2a00000000000000",
     "0000000002000000 0000000001000000 2a00000000000000", True),
    # a zero word at the end of a struct
    ("0000000003000000 0000000002000000 2a00000000000000 0000000000000000",
     "0000000002000000 0000000001000000 2a00000000000000", False),
    # two pointers to one struct
    ("0000000004000000 0000000000000200 0400000001000000 0000000001000000 0700000000000000",
     "0000000005000000 0000000000000200 0400000001000000 0400000001000000 0700000000000000 0700000000000000", False),
    # elements without bits
    ("0000000001000000 0100000018000000",
     "0000000001000000 0100000018000000", True),
    # surplus words
    ("0000000005000000 010000001f000000 0800000001000000 0500000000000000 0000000000000000 ff00000000000000",
     "0000000004000000 0100000017000000 0800000001000000 0500000000000000 0000000000000000", False),
    # two segments
    ("0100000001000000 02000000deadbeef 0200000001000000 0000000001000000 2a00000000000000",
     "0000000002000000 0000000001000000 2a00000000000000", False),
    # a pad of zeros
    ("0100000001000000 0100000000000000 0200000001000000 0000000000000000",
     "0000000001000000 0000000000000000", False),
    # a struct without words in an empty segment
    ("0200000001000000 0200000000000000 0600000001000000 0200000002000000 0000000000000000",
     "0000000001000000 fcffffff00000000", False),
    # bits after the last value
    ("0000000002000000 0100000019000000 ffffffffffffffff",
     "0000000002000000 0100000019000000 0700000000000000", False),
    # a pad of two words
    ("0200000001000000 0200000001000000 0600000001000000 0200000002000000 0000000001000000 2a00000000000000",
     "0000000002000000 0000000001000000 2a00000000000000", False),
    # a list of pointers
    ("0000000004000000 0100000016000000 0000000000000000 0000000001000000 0900000000000000",
     "0000000004000000 0100000016000000 0000000000000000 0000000001000000 0900000000000000", True),
    # words and pointers that no element needs
    ("0000000006000000 0100000027000000 0800000001000100 0100000000000000 0000000000000000 0000000000000000 "
     "0000000000000000",
     "0000000004000000 0100000017000000 0800000001000000 0100000000000000 0000000000000000", False),
    # a far pointer into its own segment
    ("0000000003000000 0a00000000000000 0000000001000000 2a00000000000000",
     "0000000002000000 0000000001000000 2a00000000000000", False),
    # a zero word of what an element leads to
    ("0000000005000000 010000000f000000 0400000000000100 0000000002000000 2a00000000000000 0000000000000000",
     "0000000004000000 010000000f000000 0400000000000100 0000000001000000 2a00000000000000", False),
    # an element's pointer
    ("0000000004000000 010000000f000000 0400000000000100 0000000001000000 2a00000000000000",
     "0000000004000000 010000000f000000 0400000000000100 0000000001000000 2a00000000000000", True),
    # a word after the tree
    ("0000000003000000 0000000001000000 2a00000000000000 0000000000000000",
     "0000000002000000 0000000001000000 2a00000000000000", False),
    # a second segment without words
    ("0100000002000000 0000000000000000 0000000001000000 2a00000000000000",
     "0000000002000000 0000000001000000 2a00000000000000", False),
    # children in the wrong order
    ("0000000005000000 0000000000000200 0800000001000000 0000000001000000 0700000000000000 0900000000000000",
     "0000000005000000 0000000000000200 0400000001000000 0400000001000000 0900000000000000 0700000000000000", False),
    # a struct without words of another offset
    ("0000000003000000 0000000001000100 2a00000000000000 f8ffffff00000000",
     "0000000003000000 0000000001000100 2a00000000000000 fcffffff00000000", False),
)

# A struct with a zero word at its end, its copy, and a message without a root.
LONG = "0000000003000000 0000000002000000 2a00000000000000 0000000000000000"
SHORT = "0000000002000000 0000000001000000 2a00000000000000"
ROOTLESS = "0000000000000000"

# The first message without a copy ends the copies, and none ends the check or the hashes.
COPY_ENDS = (
    Row("canon", f"{LONG} {CAPABILITY} {LONG}", word(SHORT), "capvet: message 1: HasCapability at 0:0\n", 1),
    Row("canon", f"{LONG} {CYCLE} {LONG}", word(SHORT), "capvet: message 1: refused DepthLimit at 0:0\n", 1),
    Row("canon", f"{LONG} {ROOTLESS} {LONG}", word(SHORT), "capvet: message 1: refused NoRoot at 0:0\n", 1),
    Row("check", f"{SHORT} {CYCLE} {LONG} {CAPABILITY} {ROOTLESS}",
        "message 0: canonical\n"
        "message 1: refused DepthLimit at 0:0 pointers 65\n"
        "message 2: not canonical\n"
        "message 3: not canonical\n"
        "message 4: refused NoRoot at 0:0 pointers 0\n", status=1),
    # (the hashes were computed by sha256sum)
    Row("hash", f"{SHORT} {CYCLE} {LONG} {CAPABILITY} {ROOTLESS} {NULL}",
        "message 0: sha256 9a8603f739d25a881287ef8c3fdad74c3ca1caa41983f09f83acf1506750b94e\n"
        "message 1: refused DepthLimit at 0:0 pointers 65\n"
        "message 2: sha256 9a8603f739d25a881287ef8c3fdad74c3ca1caa41983f09f83acf1506750b94e\n"
        "message 3: no canonical form, capability at 0:0\n"
        "message 4: refused NoRoot at 0:0 pointers 0\n"
        "message 5: sha256 af5570f5a1810b7af78caf4bc70a660f0df51e42baf91d4de5b2328de0e83dfc\n", status=1),
    Row("hash", f"{LONG} {SHORT}", f"{hashed(SHORT)}{hashed(SHORT, 1)}"),
)

# Words, and their packed encoding. The first and the fourth are texts of the encoding specification's section on packing.
SPELLINGS = (
    ("0800000003000200 19000000aa010000", "51080302 3119aa01"),
    ("", ""),
    ("0000000000000000", "0000"),
    ("0000000000000000 0000000000000000 0000000000000000 0000000000000000", "0003"),
    ("8a8a8a8a8a8a8a8a 8a8a8a8a8a8a8a8a 8a8a8a8a8a8a8a8a 8a8a8a8a8a8a8a8a",
     "ff 8a8a8a8a8a8a8a8a 03 8a8a8a8a8a8a8a8a 8a8a8a8a8a8a8a8a 8a8a8a8a8a8a8a8a"),
    ("0101010101010101 0100010101010101 0000010101010101", "ff 0101010101010101 01 0100010101010101 fc010101010101"),
    ("0000000002000000 0000000001000000 2a00000000000000", "1002 1001 012a"),
    ("0000000004000000 0000000000000200 0400000001000000 0000000001000000 0700000000000000",
     "1004 4002 110401 1001 0107"),
    # a run of zero words has at most 256 of them
    (257 * "0000000000000000", "00ff 0000"),
    # words with one zero byte, of which the first follows no word without one
    ("6161616161616100 6162636465666700 0800000003000200", "7f61616161616161 7f61626364656667 51080302"),
    ("0800000003000200 6161616161616161 6162636465666768", "51080302 ff6161616161616161 01 6162636465666768"),
    ("0000000001000000 0000000000000000", "1001 0000"),
    ("0000000000000000 0000000000000000", "0001"),
)

# Packed streams of messages.
PACKED_STREAMS = (
    Row("vet --packed", "10010000", "message 0: accepted charge 0 depth 0 pointers 1 caps 0\n"),
    # the run of zero words goes on into a second message
    Row("vet --packed", "10010001",
        "message 0: accepted charge 0 depth 0 pointers 1 caps 0\n"
        "message 1: refused NoRoot at 0:0 pointers 0\n", status=1),
    # and the same with further messages after it
    Row("vet --packed", "10010001100440021104011001010710044002110401100101071004400211040110010107",
        "message 0: accepted charge 0 depth 0 pointers 1 caps 0\n"
        "message 1: refused NoRoot at 0:0 pointers 0\n"
        "message 2: accepted charge 4 depth 2 pointers 3 caps 0\n"
        "message 3: accepted charge 4 depth 2 pointers 3 caps 0\n"
        "message 4: accepted charge 4 depth 2 pointers 3 caps 0\n", status=1),
    Row("vet --packed", "100100", "", "capvet: message 0: Truncated at byte 3\n", 1),
    Row("vet --packed", "1004400211040110010107", "message 0: accepted charge 4 depth 2 pointers 3 caps 0\n"),
)

# Inputs of words, and packed streams, through other commands.
WORDS = (
    # a byte that is marked may be zero
    Row("unpack", "0100", bytes(8)),
    # two words as they are, and then half a word
    Row("unpack", "ff8a8a8a8a8a8a8a8a028a8a8a8a8a8a8a8a8a8a8a8a", 16 * b"\x8a", "capvet: Truncated at byte 22\n", 1),
    # a message of a struct of one word without its last two bytes
    Row("pack", "0000000002000000 0000000001000000 2a0000000000", word("1002 1001"),
        "capvet: Truncated at byte 22\n", 1),
    Row("vet --packed", "1002 1001 012a", "message 0: accepted charge 1 depth 1 pointers 1 caps 0\n"),
    Row("canon --packed", "1002 1001 012a", word(STRUCT)),
    Row("segments --packed", "10010001",
        "message 0: segments 1 words 1\n"
        "segment 0: 1\n"
        "root 0000000000000000\n"
        "message 1: segments 1 words 0\n"
        "segment 0: 0\n"
        "root none\n"),
)

# One case for each thing that a command does with a stream, or writes of a fault, by what it shows. The whole of both outputs and
# the status are compared: the commands without `explain`, `filter` and `hash` write one line for a fault, and nothing after it.
SHOWN = {
    "a refused message, and the numbers of the next ones, before a fault": Row(
        "vet", f"{SHARED} {CYCLE} {NULL} ffffffff00000000",
        "message 0: accepted charge 4 depth 2 pointers 3 caps 0\n"
        "message 1: refused DepthLimit at 0:0 pointers 65\n"
        "message 2: accepted charge 0 depth 0 pointers 1 caps 0\n",
        "capvet: message 3: TooManySegments 4294967296\n", 1),
    "a message of each verdict": Row(
        "check", f"{STRUCT} {CYCLE} {LONG}",
        "message 0: canonical\nmessage 1: refused DepthLimit at 0:0 pointers 65\nmessage 2: not canonical\n", status=1),
    "a dump goes on after a refused message": Row(
        "dump", f"{CYCLE} {NULL}",
        "message 0: refused DepthLimit at 0:0 pointers 65\nmessage 1: accepted charge 0 depth 0 pointers 1 caps 0\nroot null\n",
        status=1),
    "a node is found after a refused message": Row(
        "get /", f"{CYCLE} {NULL}", "message 0: refused DepthLimit at 0:0 pointers 65\nmessage 1: found\nnode null\n", status=1),
    "copies before a message that is cut": Row("canon", f"{LONG} 00000000", word(SHORT), "capvet: message 1: Truncated at byte 36\n", 1),
    "copies before a capability": Row("canon", f"{LONG} {CAPABILITY}", word(SHORT), "capvet: message 1: HasCapability at 0:0\n", 1),
    "copies before a refused message": Row("canon", f"{LONG} {CYCLE}", word(SHORT), "capvet: message 1: refused DepthLimit at 0:0\n", 1),
    "hashes before a message that is cut": Row("hash", f"{LONG} 00000000", hashed(SHORT), "capvet: message 1: Truncated at byte 36\n", 1),
    "no guess of a packed stream": Row("vet", "1002 1001 012a 0000", "", "capvet: message 0: TooManySegments 17826321\n", 1),
    "a hash of a packed stream": Row(
        "hash", "1002 1001 012a 0000", "",
        "capvet: message 0: TooManySegments 17826321\ncapvet: the input looks packed: try --packed\n", 1),
    "a hash of one packed message": Row(
        "hash --one", "1002 1001 012a 0000", "",
        "capvet: message 0: TooManySegments 17826321\ncapvet: the input looks packed: try --packed\n", 1),
    "an object of a packed stream": Row(
        "hash --json --one", "1002 1001 012a 0000", "",
        "capvet: message 0: TooManySegments 17826321\ncapvet: the input looks packed: try --packed\n", 1),
    "no guess after a message": Row(
        "hash", f"{SHORT} 1002 1001 012a 0000", hashed(SHORT), "capvet: message 1: TooManySegments 17826321\n", 1),
    "text in a filter": Row(
        "filter --one", b"GET / HTTP/1.1\r\n".hex(), "",
        "capvet: message 0: TooManySegments 542393672\ncapvet: the input looks like text\n", 1),
    "gzip in a filter for packed streams": Row(
        "filter --packed", "1f8b0800 00000000", "",
        "capvet: message 0: TooManySegments 2188\ncapvet: the input looks like gzip: decompress it first\n", 1),
    # (two messages of two bytes without words, and a third table, of which one word has three bytes)
    "a plain stream in a filter for packed ones": Row(
        "filter --packed", "00000000 88010000", "",
        "message 0: refused NoRoot at 0:0 pointers 0\nmessage 1: refused NoRoot at 0:0 pointers 0\n"
        "capvet: message 2: TooManySegments 16777217\ncapvet: the input looks unpacked: try it without --packed\n", 1),
    "a plain stream of more words in a hash of packed ones": Row(
        "hash --packed", "00000000 1e01020301", "message 0: refused NoRoot at 0:0 pointers 0\nmessage 1: refused NoRoot at 0:0 pointers 0\n",
        "capvet: message 2: TooManySegments 50462977\ncapvet: the input looks unpacked: try it without --packed\n", 1),
    "no guess where the word that was read is too long": Row(
        "hash --packed", "00000000 1f0102030101", "message 0: refused NoRoot at 0:0 pointers 0\nmessage 1: refused NoRoot at 0:0 pointers 0\n",
        "capvet: message 2: TooManySegments 16974338\n", 1),
    "a plain stream whose third table is too large": Row(
        "hash --packed --size 1", "00000000 1002", "message 0: refused NoRoot at 0:0 pointers 0\nmessage 1: refused NoRoot at 0:0 pointers 0\n",
        "capvet: message 2: TooLarge 2\ncapvet: the input looks unpacked: try it without --packed\n", 1),
    "no guess after packed messages": Row(
        "filter --packed", "10010000 10010000 0202", word(f"{NULL} {NULL}"), "capvet: message 2: TooManySegments 513\n", 1),
    "a plain stream that ends in the third message": Row(
        "hash --packed", "00000000 1002", "message 0: refused NoRoot at 0:0 pointers 0\nmessage 1: refused NoRoot at 0:0 pointers 0\n",
        "capvet: message 2: Truncated at byte 6\ncapvet: the input looks unpacked: try it without --packed\n", 1),
    "a packed message that ends in the third byte": Row(
        "hash --packed", "0000 1001 00", "message 0: refused NoRoot at 0:0 pointers 0\n", "capvet: message 1: Truncated at byte 5\n", 1),
    "a message with a capability has no hash": Row("hash", CAPABILITY, "message 0: no canonical form, capability at 0:0\n", status=1),
    "no hash without a root": Row("hash", "0000000000000000", "message 0: refused NoRoot at 0:0 pointers 0\n", status=1),
    "no copy without a root": Row("canon", "0000000000000000", "", "capvet: message 0: refused NoRoot at 0:0\n", 1),
    "no verdict on the form without a root": Row("check", "0000000000000000", "message 0: refused NoRoot at 0:0 pointers 0\n", status=1),
    "a message with a capability is not canonical": Row("check", CAPABILITY, "message 0: not canonical\n", status=1),
    "whole words before a part of one": Row("pack", f"{STRUCT} 0102", word("1002 1001 012a"), "capvet: Truncated at byte 26\n", 1),
    "whole groups before a part of one": Row("unpack", "1002 1001 012a 00", word(STRUCT), "capvet: Truncated at byte 7\n", 1),
    "a packed message of one zero word": Row("segments --packed", "10010000",
                                             "message 0: segments 1 words 1\nsegment 0: 1\nroot 0000000000000000\n"),
    "a missing segment goes before the pad in another": Row(
        "vet", "0100000001000000 0100000000000000 0200000007000000 ffffffffffffffff",
        "message 0: refused SegmentMissing at 0:0 pointers 1\n", status=1),
    "a pad outside its segment goes before its word": Row(
        "vet", "0100000001000000 0100000000000000 0600000001000000 0200000000000000",
        "message 0: refused PadOutside at 0:0 pointers 1\n", status=1),
    "a reserved word in a pad": Row("vet", "0100000001000000 0100000000000000 0200000001000000 0700000005000000",
                                    "message 0: refused Reserved at 0:0 pointers 1\n", status=1),
    "a missing segment that a pad of two words names": Row(
        "vet", "0100000001000000 0200000000000000 0600000001000000 0200000007000000 0000000001000000",
        "message 0: refused SegmentMissing at 0:0 pointers 1\n", status=1),
    "a pad of two words in one of two": Row(
        "vet", "0100000001000000 0200000000000000 0600000001000000 0600000001000000 0000000001000000",
        "message 0: refused PadNotFar at 0:0 pointers 1\n", status=1),
    "a pad of two words into its own segment": Row(
        "vet", "0100000001000000 0200000000000000 0600000001000000 0200000001000000 0000000001000000",
        "message 0: accepted charge 3 depth 1 pointers 1 caps 0\n"),
    "a struct that is its own pointer": Row("vet", "0100000001000000 0100000000000000 fcffffff01000000 0000000000000000",
                                            "message 0: accepted charge 1 depth 1 pointers 1 caps 0\n"),
    "a struct that begins before its segment": Row("vet", "0100000001000000 0100000000000000 f8ffffff00000000 0000000000000000",
                                                   "message 0: refused OutOfSegment at 0:0 pointers 1\n", status=1),
    "a list without structs is charged its tag": Row("vet", NO_STRUCTS, "message 0: accepted charge 1 depth 1 pointers 1 caps 0\n"),
    "a list without structs is canonical": Row("check", NO_STRUCTS, "message 0: canonical\n"),
    "a list of structs without words is canonical": Row("check", FIVE_EMPTIES, "message 0: canonical\n"),
    "an element past the end": Row("get /i4294967295", SHARED, "message 0: none\n"),
    "the greatest size of an empty stream": Row("segments --size 268435456", "", ""),
    "the least size of an empty stream": Row("segments --size 0", "", ""),
    "the greatest limits": Row("vet --words 268435456 --depth 256 --size 268435456", "", ""),
    "the least limits": Row("vet --words 0 --depth 0 --size 0", "", ""),
    "limits after an equals sign": Row("vet --words=0 --depth=0", "", ""),
    "a limit of a dump": Row("dump --words 0", "", ""),
    "a limit of a check": Row("check --words 0", "", ""),
    "a limit of copies": Row("canon --words 0", "", ""),
    "a limit of hashes": Row("hash --words 0", "", ""),
    "a limit after a path": Row("get / --words 0", "", ""),
    "a limit before a path": Row("get --depth 0 /", "", ""),
    "a file that isn't there": Row("vet no-such-file", NULL, "", "capvet: cannot open no-such-file\n", 3),
    "a file to pack that isn't there": Row("pack no-such-file", NULL, "", "capvet: cannot open no-such-file\n", 3),
    "a folder in place of a file": Row("segments .", NULL, "", "capvet: message 0: Device\n", 3),
    "a folder to pack": Row("pack .", NULL, "", "capvet: Device\n", 3),
    "a bad path goes before a missing file": Row("get /p01 no-such-file", "", "", "capvet: bad path at 3\n", 2),
    "a bad path of a message": Row("get /p65536", SHARED, "", "capvet: bad path at 6\n", 2),
}

# Files by their names, what is in them, and what a command writes of them. `-` is a file like any other.
FILES = (
    ("a file", "0000000000000000", ("segments", "a file"), "message 0: segments 1 words 0\nsegment 0: 0\nroot none\n"),
    ("-", SHARED, ("vet", "-"), "message 0: accepted charge 4 depth 2 pointers 3 caps 0\n"),
    ("shared.bin", SHARED, ("get", "/p1", "shared.bin"), "message 0: found\nnode struct 1 0\n  d0 0700000000000000\n"),
    ("shared.bin", SHARED, ("pack", "shared.bin"), word("1004 4002 110401 1001 0107")),
    ("shared.packed", "1004 4002 110401 1001 0107", ("unpack", "shared.packed"), word(SHARED)),
    ("shared.packed", "1004 4002 110401 1001 0107", ("vet", "--packed", "shared.packed"),
     "message 0: accepted charge 4 depth 2 pointers 3 caps 0\n"),
)

# ------------------------------------------------------------------ command lines

# Sizes with units, and their numbers of words.
SIZES = (
    ("0kB", 0), ("1kB", 125), ("3kB", 375), ("4kB", 500), ("007kB", 875), ("1KiB", 128), ("3KiB", 384), ("4KiB", 512),
    ("1MB", 125_000), ("40MB", 5_000_000), ("1MiB", 131_072), ("64MiB", 8_388_608), ("1GB", 125_000_000), ("2GB", 250_000_000),
    ("1GiB", 134_217_728), ("2GiB", 268_435_456), ("2147483kB", 268_435_375), ("2097152KiB", 268_435_456),
)

# Command lines that are wrong, and what is said of them.
MISTAKES = (
    ("vet --size 268435457", "invalid value '268435457' for '--size <N>': 268435457 is not in 0..=268435456\n"),
    ("vet --words 268435457", "invalid value '268435457' for '--words <N>': 268435457 is not in 0..=268435456\n"),
    ("vet --depth 257", "invalid value '257' for '--depth <N>': 257 is not in 0..=256\n"),
    ("vet --depth deep", "invalid value 'deep' for '--depth <N>': invalid digit found in string\n"),
    ("vet --words", "a value is required for '--words <N>' but none was supplied\n"),
    ("get", "the following required arguments were not provided:\n  <PATH>\n\nUsage: capvet get <PATH> [FILE]\n"),
    ("dump --depth 257", "invalid value '257' for '--depth <N>': 257 is not in 0..=256\n"),
    ("vet one --files two", "the argument '[FILE]' cannot be used with '--files <FILE>...'\n\nUsage: capvet vet <FILE>\n"),
    ("vet --files", "a value is required for '--files <FILE>...' but none was supplied\n"),
    ("vet one two", "unexpected argument 'two' found\n\nUsage: capvet vet [OPTIONS] [FILE]\n"),
    ("vet --deep 1",
     "unexpected argument '--deep' found\n"
     "\n"
     "  tip: a similar argument exists: '--depth'\n"
     "\n"
     "Usage: capvet vet --depth <N> [FILE]\n"),
    ("",
     "'capvet' requires a subcommand but one was not provided\n"
     "  [subcommands: segments, vet, explain, filter, dump, get, check, canon, hash, pack, unpack, help]\n"
     "\n"
     "Usage: capvet <COMMAND>\n"),
    ("vat",
     "unrecognized subcommand 'vat'\n"
     "\n"
     "  tip: a similar subcommand exists: 'vet'\n"
     "\n"
     "Usage: capvet <COMMAND>\n"),
    ("pack --packed",
     "unexpected argument '--packed' found\n"
     "\n"
     "  tip: to pass '--packed' as a value, use '-- --packed'\n"
     "\n"
     "Usage: capvet pack [FILE]\n"),
    ("vet --size 64M", "invalid value '64M' for '--size <N>': it is a number of words of 8 bytes, or a size such as 64MiB or 40MB\n"),
    ("vet --charge=1.5MiB", "invalid value '1.5MiB' for '--words <N>': it is a number of words of 8 bytes, or a size such as 64MiB or 40MB\n"),
    ("vet --message-words 3GiB", "invalid value '3GiB' for '--size <N>': it is more than 2GiB, which is 268435456 words of 8 bytes\n"),
    ("hash --words 99999999999999999999kB",
     "invalid value '99999999999999999999kB' for '--words <N>': it is more than 2GiB, which is 268435456 words of 8 bytes\n"),
    ("segments --size x", "invalid value 'x' for '--size <N>': invalid digit found in string\n"),
    ("segments --size 268435457", "invalid value '268435457' for '--size <N>': 268435457 is not in 0..=268435456\n"),
)

# Others, and how what is said of them begins.
MISTAKE_BEGINNINGS = (
    ("segment", "error: unrecognized subcommand 'segment'"),
    ("segments --nothing 1", "error: unexpected argument '--nothing' found"),
    ("segments --size many", "error: invalid value 'many' for '--size <N>'"),
    ("segments --words 1", "error: unexpected argument '--words' found"),
    ("vet --pack", "error: unexpected argument '--pack' found"),
    ("dump --exclusive", "error: unexpected argument '--exclusive' found"),
    ("dump --files one", "error: unexpected argument '--files' found"),
    ("filter --files one", "error: unexpected argument '--files' found"),
    ("check --canonical", "error: unexpected argument '--canonical' found"),
    ("vet --exclusive=1", "error: unexpected value '1' for '--exclusive' found"),
    ("canon --strict=1", "error: unexpected value '1' for '--strict' found"),
    ("segments --strict", "error: unexpected argument '--strict' found"),
    ("pack --unamplified", "error: unexpected argument '--unamplified' found"),
    ("unpack --size 1", "error: unexpected argument '--size' found"),
    ("filter --strict --allow-nonstrict", "error: the argument '--strict' cannot be used with '--allow-nonstrict'"),
    ("filter --allow-amplified --unamplified", "error: the argument '--allow-amplified' cannot be used with '--unamplified'"),
    ("vet --allow-nonstrict", "error: unexpected argument '--allow-nonstrict' found"),
)

# Paths that are none, and where they go wrong.
BAD_PATHS = (
    ("", 0),
    ("x", 0),
    ("p0", 0),
    ("p1", 0),
    ("é", 0),
    ("//", 1),
    ("/é", 1),
    ("/x", 1),
    ("/x0", 1),
    ("/p", 2),
    ("/pé", 2),
    ("/i", 2),
    ("/p00", 3),
    ("/p01", 3),
    ("/p0p", 3),
    ("/p0/", 4),
    ("/p1/", 4),
    ("/p1//", 4),
    ("/p65536", 6),
    ("/p99999", 6),
    ("/p100000", 7),
    ("/p1/i2/q", 7),
    ("/i4294967296", 11),
)

# Command lines that are taken, each of a file that isn't there, and its name.
NAMES = (
    ("segments some.bin", "some.bin"),
    ("segments a.bin", "a.bin"),
    ("segments --size 0 -", "-"),
    ("segments --size 268435456 -", "-"),
    ("segments f --size 1", "f"),
    ("vet some.bin", "some.bin"),
    ("vet -", "-"),
    ("vet --depth=3 --size=1 some.bin --words=2", "some.bin"),
    ("vet a --packed", "a"),
    ("vet --exclusive a", "a"),
    ("vet --strict --exclusive --unamplified a", "a"),
    ("canon a --unamplified --packed --strict", "a"),
    ("filter --allow-nonstrict a --allow-amplified --packed --stop --pack --exclusive", "a"),
    ("filter --strict a --unamplified", "a"),
    ("filter --one a --stop", "a"),
    ("hash a --one --packed", "a"),
    ("explain --canonical a --exclusive", "a"),
    ("get --one /p0 a", "a"),
    ("filter --allow-amplified --strict a", "a"),
    ("get /p65535 some.bin --packed", "some.bin"),
    ("get --size=1 --words=2 --depth=3 /i4294967295 -", "-"),
    ("pack a", "a"),
    ("unpack a", "a"),
    ("vet --size 2GiB --words=2147483kB a", "a"),
    ("vet --message-words 64MiB --charge=40MB 64M", "64M"),
    ("vet --size 8MB -- 1.5MiB", "1.5MiB"),
)
