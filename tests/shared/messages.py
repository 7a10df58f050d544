"""Messages by the words of their segments, with the verdicts, canonical copies and nodes that tests/program/program.py expects.

Words are digits from the first byte on, and ' | ' comes between segments. Verdicts, copies and nodes were worked out by hand,
from docs/format.md and docs/output.md. Nothing here was computed by the program.
"""
from harness import framed

# A message, and what `vet` says of it with these options.
VERDICTS = (
    # a null root and a struct of a word, at the least limits
    ("0000000000000000", {"--words 0 --depth 0": "accepted charge 0 depth 0 pointers 1 caps 0"}),
    ("0000000001000000 2a00000000000000", {"--words 1 --depth 1": "accepted charge 1 depth 1 pointers 1 caps 0"}),
    # cycles of two and of three structs, and one through a landing pad
    ("0000000000000100 0000000000000100 f8ffffff00000100",
     {"": "refused DepthLimit at 0:2 pointers 65", "--words 10": "refused WordLimit at 0:2 pointers 11"}),
    ("0000000000000100 0000000000000100 0000000000000100 f4ffffff00000100",
     {"": "refused DepthLimit at 0:1 pointers 65",
      "--words 268435456 --depth 256": "refused DepthLimit at 0:1 pointers 257"}),
    ("0a00000000000000 f8ffffff00000100",
     {"": "refused DepthLimit at 0:0 pointers 65", "--words 10": "refused WordLimit at 0:0 pointers 6"}),
    # what is reached twice is charged twice
    ("0000000000000200 0400000001000000 0000000001000000 0700000000000000",
     {"--words 4 --depth 2": "accepted charge 4 depth 2 pointers 3 caps 0",
      "--depth 1": "refused DepthLimit at 0:1 pointers 2"}),
    ("0000000000000200 0400000000000200 0000000000000200 0400000000000200 0000000000000200 0400000001000000 0000000001000000 "
     "0700000000000000",
     {"--words 22 --depth 4": "accepted charge 22 depth 4 pointers 15 caps 0",
      "--words 21": "refused WordLimit at 0:6 pointers 15"}),
    # five structs without words, and two structs of a word and a null pointer before a word that is left
    ("0100000007000000 1400000000000000", {"": "accepted charge 6 depth 2 pointers 1 caps 0"}),
    ("0100000027000000 0800000001000100 0100000000000000 0000000000000000 0000000000000000 0000000000000000 0000000000000000",
     {"": "accepted charge 5 depth 2 pointers 3 caps 0"}),
    # capabilities: a deeper one before a later one, and in a list of structs
    ("0000000000000200 0400000000000100 0300000001000000 0300000002000000",
     {"": "accepted charge 3 depth 2 pointers 4 caps 2"}),
    ("0100000037000000 0800000001000200 0100000000000000 0000000000000000 0300000001000000 0100000000000000 0300000002000000 "
     "0000000000000000", {"": "accepted charge 7 depth 2 pointers 5 caps 2"}),
    # of two faults the first in preorder is named
    ("0000000000000200 0400000000000100 0700000005000000 0700000001000000", {"": "refused Reserved at 0:3 pointers 3"}),
    ("0100000037000000 0800000001000200 0100000000000000 0000000000000000 0000000000000000 0100000000000000 0700000002000000 "
     "0800000001000000", {"": "refused Reserved at 0:6 pointers 4"}),
    # words before the segment, past its end and at its end, and the least and the greatest offset
    ("f8ffffff00000000", {"": "refused OutOfSegment at 0:0 pointers 1"}),
    ("0000000001000000", {"": "refused OutOfSegment at 0:0 pointers 1"}),
    ("0500000000000000", {"": "refused OutOfSegment at 0:0 pointers 1"}),
    ("0100000000000000", {"": "accepted charge 0 depth 1 pointers 1 caps 0"}),
    ("0000008001000000", {"": "refused OutOfSegment at 0:0 pointers 1"}),
    ("fcffff7f01000000", {"": "refused OutOfSegment at 0:0 pointers 1"}),
    # as many elements of each size as a list can have, and 65 bits, which take two words
    *((f"01000000f{8 + code:x}ffffff 0000000000000000 0000000000000000", {"": "refused OutOfSegment at 0:0 pointers 1"})
      for code in range(1, 8)),
    ("0100000009020000 0000000000000000 0000000000000000", {"": "accepted charge 2 depth 1 pointers 1 caps 0"}),
    ("0100000009020000 0000000000000000", {"": "refused OutOfSegment at 0:0 pointers 1"}),
    ("0100000016000000 0000000000000000 0000000000000000", {"": "accepted charge 2 depth 1 pointers 3 caps 0"}),
    # pointers that need no other segment
    ("fcffffff01000000 | 0000000000000000 | ", {"": "accepted charge 1 depth 1 pointers 1 caps 0"}),
    ("f8ffffff00000000 | 0000000000000000 | ", {"": "refused OutOfSegment at 0:0 pointers 1"}),
    # landing pads of one word, which are charged
    ("0200000001000000 | 0000000001000000 2a00000000000000 | ",
     {"": "accepted charge 2 depth 1 pointers 1 caps 0", "--words 2": "accepted charge 2 depth 1 pointers 1 caps 0",
      "--words 1": "refused WordLimit at 0:0 pointers 1"}),
    ("0200000001000000 | 0000000000000000 | ",
     {"--words 1": "accepted charge 1 depth 0 pointers 1 caps 0", "--words 0": "refused WordLimit at 0:0 pointers 1"}),
    ("0200000001000000 | 0300000005000000 | ",
     {"--words 1": "accepted charge 1 depth 0 pointers 1 caps 1", "--words 0": "refused WordLimit at 0:0 pointers 1"}),
    ("0a00000001000000 | 2a00000000000000 f8ffffff01000000 | ", {"": "accepted charge 2 depth 1 pointers 1 caps 0"}),
    # pads of one word: far, reserved, of no segment, outside their segment, and to words outside it
    ("0200000001000000 | 0200000000000000 | ", {"": "refused PadIsFar at 0:0 pointers 1"}),
    ("0200000001000000 | 0700000005000000 | ", {"": "refused Reserved at 0:0 pointers 1"}),
    ("0200000003000000 | 0000000000000000 | ", {"": "refused SegmentMissing at 0:0 pointers 1"}),
    ("0200000007000000 | 0000000000000000 | ", {"": "refused SegmentMissing at 0:0 pointers 1"}),
    ("0a00000001000000 | 0000000000000000 | ", {"": "refused PadOutside at 0:0 pointers 1"}),
    ("0200000001000000 | 0000000001000000 | ", {"": "refused OutOfSegment at 0:0 pointers 1"}),
    ("0200000001000000 | f8ffffff01000000 2a00000000000000 | ", {"": "refused OutOfSegment at 0:0 pointers 1"}),
    # and to two structs in one word, and to a list whose tag is no struct's
    ("0200000001000000 | 010000000f000000 0800000001000000 0000000000000000 | ",
     {"": "refused CompositeOverrun at 0:0 pointers 1"}),
    ("0200000001000000 | 010000000f000000 0900000001000000 0000000000000000 | ",
     {"": "refused CompositeTag at 0:0 pointers 1"}),
    # pads of two words in the segment of their target: before it, and where it isn't inside
    ("0600000001000000 | 0200000001000000 0000000001000000 | ", {"": "accepted charge 3 depth 1 pointers 1 caps 0"}),
    ("0600000001000000 | 0200000001000000 0000000003000000 | ", {"": "refused OutOfSegment at 0:0 pointers 1"}),
    # pads of two words: of no segment, to no segment, and outside their segment
    ("0600000003000000 | 0000000000000000 0000000000000000 | ", {"": "refused SegmentMissing at 0:0 pointers 1"}),
    ("0600000007000000 | 0000000000000000 0000000000000000 | ", {"": "refused SegmentMissing at 0:0 pointers 1"}),
    ("0600000001000000 | 0200000003000000 0000000001000000 | 2a00000000000000",
     {"": "refused SegmentMissing at 0:0 pointers 1"}),
    ("0600000001000000 | 0200000007000000 0000000001000000 | ", {"": "refused SegmentMissing at 0:0 pointers 1"}),
    ("0600000001000000 | 0000000000000000 | ", {"": "refused PadOutside at 0:0 pointers 1"}),
    ("0e00000001000000 | 0000000000000000 0000000000000000 | ", {"": "refused PadOutside at 0:0 pointers 1"}),
    ("0e00000001000000 | 0200000002000000 0000000000000000 | ", {"": "refused PadOutside at 0:0 pointers 1"}),
    # whose first word is no far pointer to one word, and whose second is far
    ("0600000001000000 | 0000000000000000 0000000001000000 | ", {"": "refused PadNotFar at 0:0 pointers 1"}),
    ("0600000001000000 | 0600000001000000 0000000001000000 | ", {"": "refused PadNotFar at 0:0 pointers 1"}),
    ("0600000001000000 | 0600000002000000 0000000001000000 | 2a00000000000000 2a00000000000000",
     {"": "refused PadNotFar at 0:0 pointers 1"}),
    ("0600000001000000 | 0200000002000000 0200000000000000 | 2a00000000000000", {"": "refused TagKind at 0:0 pointers 1"}),
    # and to words outside the segment
    ("0600000001000000 | 0200000002000000 0000000002000000 | 2a00000000000000",
     {"": "refused OutOfSegment at 0:0 pointers 1"}),
    ("0600000001000000 | 0a00000002000000 0000000001000000 | 2a00000000000000",
     {"": "refused OutOfSegment at 0:0 pointers 1"}),
    # and to lists of one struct and of two in one word, and to a list whose tag is no struct's
    ("0600000001000000 | 0200000002000000 010000000f000000 | 0400000001000000 0000000000000000",
     {"": "accepted charge 4 depth 2 pointers 1 caps 0"}),
    ("0600000001000000 | 0200000002000000 010000000f000000 | 0800000001000000 0000000000000000",
     {"": "refused CompositeOverrun at 0:0 pointers 1"}),
    ("0600000001000000 | 0200000002000000 010000000f000000 | 0900000001000000 0000000000000000",
     {"": "refused CompositeTag at 0:0 pointers 1"}),
    # five structs without words: by a near pointer, and through pads of one word and of two
    ("0100000007000000 1400000000000000 | | ",
     {"--words 6": "accepted charge 6 depth 2 pointers 1 caps 0", "--words 5": "refused WordLimit at 0:0 pointers 1"}),
    ("0200000001000000 | 0100000007000000 1400000000000000 | ",
     {"": "accepted charge 7 depth 2 pointers 1 caps 0", "--words 7": "accepted charge 7 depth 2 pointers 1 caps 0"}),
    ("0600000001000000 | 0200000002000000 0100000007000000 | 1400000000000000",
     {"--words 8": "accepted charge 8 depth 2 pointers 1 caps 0"}),
    # a cycle of two structs through pads of one word and of two
    ("0200000001000000 | 0000000000000100 0600000002000000 | 0200000000000000 0000000000000100",
     {"": "refused DepthLimit at 0:0 pointers 65", "--words 9": "refused WordLimit at 1:1 pointers 4"}),
    # cycles of three objects, through pads of one word, and through one of two words and one of one
    ("0200000001000000 | 0000000000000100 0200000002000000 0000000000000100 0200000001000000 | "
     "0000000000000100 1200000001000000",
     {"": "refused DepthLimit at 1:1 pointers 65", "--words 10": "refused WordLimit at 2:1 pointers 6"}),
    ("0000000000000100 0600000001000000 f8ffffff00000100 | 0200000002000000 0000000000000100 | 0000000000000100 1200000000000000",
     {"": "refused DepthLimit at 0:1 pointers 65", "--words 9": "refused WordLimit at 0:1 pointers 5"}),
    # and one of whose objects is a list of two pointers, or a list of two structs
    ("0000000000000100 0200000001000000 f8ffffff00000100 | 0100000016000000 0000000000000000 0000000000000100 "
     "1200000000000000 | ",
     {"": "refused DepthLimit at 0:1 pointers 86", "--words 10": "refused WordLimit at 1:2 pointers 8"}),
    ("0000000000000100 0200000001000000 f8ffffff00000100 | 0100000017000000 0800000000000100 0000000000000000 "
     "0000000000000100 1200000000000000 | ",
     {"": "refused DepthLimit at 1:4 pointers 65", "--words 10": "refused WordLimit at 0:1 pointers 6"}),
)

# A message, and its canonical copy, or None where the message is that.
COPIES = (
    # a word of zeros, and one of zeros in the middle of the data
    ("0000000001000000 0000000000000000", "fcffffff00000000"),
    ("0000000003000000 0100000000000000 0000000000000000 0100000000000000", None),
    # elements without bits, three bits that are zeros, and a null pad in a list of pointers
    ("01000000f8ffff7f", None),
    ("0100000019000000 00000000000000ff", "0100000019000000 0000000000000000"),
    ("0100000016000000 1200000000000000 0000000000000000", "0100000016000000 0000000000000000 0000000000000000"),
    # pads of one word, before a segment without words
    ("0200000001000000 | 0000000001000000 2a00000000000000 | ", "0000000001000000 2a00000000000000"),
    ("0200000001000000 | 0000000000000000 | ", "0000000000000000"),
    # words between objects and after them
    ("0000000000000200 0800000001000000 0c00000001000000 ffffffffffffffff 0700000000000000 ffffffffffffffff 0900000000000000 "
     "ffffffffffffffff", "0000000000000200 0400000001000000 0400000001000000 0700000000000000 0900000000000000"),
    # the children of two children: level by level in the message, child by child in the copy
    ("0000000000000200 0400000000000100 0400000000000100 0400000001000000 0400000001000000 0700000000000000 0900000000000000",
     "0000000000000200 0400000000000100 0800000000000100 0000000001000000 0700000000000000 0000000001000000 0900000000000000"),
    # a struct of a pointer for two pointers: the struct below it is copied twice too
    ("0000000000000200 0400000000000100 0000000000000100 0000000001000000 0700000000000000",
     "0000000000000200 0400000000000100 0800000000000100 0000000001000000 0700000000000000 0000000001000000 0700000000000000"),
    # two pointers to one empty list, and to one empty struct
    ("0000000000000200 0500000002000000 0100000002000000", None),
    ("0000000000000200 0400000000000000 0000000000000000", "0000000000000100 fcffffff00000000"),
    # a list of pointers keeps the null at its end
    ("0100000016000000 0800000001000000 0000000000000000 ffffffffffffffff 0900000000000000",
     "0100000016000000 0400000001000000 0000000000000000 0900000000000000"),
    # a struct keeps the zero inside its data, and the null before its last pointer
    ("0000000004000300 0100000000000000 0000000000000000 0200000000000000 0000000000000000 0000000000000000 fcffffff00000000 "
     "0000000000000000",
     "0000000003000200 0100000000000000 0000000000000000 0200000000000000 0000000000000000 fcffffff00000000"),
    # no elements, with sizes in the tag, with a word after the tag and without
    ("010000000f000000 0000000001000100 ffffffffffffffff", "0100000007000000 0000000000000000"),
    ("0100000007000000 0000000001000100", "0100000007000000 0000000000000000"),
    # the last pointers are a null pad in one element, and zero in the other
    ("0100000027000000 0800000000000200 1000000001000000 3200000000000000 0000000000000000 0000000000000000 0000000000000000 "
     "2a00000000000000", "0100000017000000 0800000000000100 0400000001000000 0000000000000000 2a00000000000000"),
    # one element needs two data words, and the other one two pointers
    ("0100000057000000 0800000003000200 0000000000000000 0500000000000000 0000000000000000 0000000000000000 0000000000000000 "
     "0600000000000000 0000000000000000 0000000000000000 0000000000000000 fcffffff00000000",
     "0100000047000000 0800000002000200 0000000000000000 0500000000000000 0000000000000000 0000000000000000 0600000000000000 "
     "0000000000000000 0000000000000000 fcffffff00000000"),
    # the targets of the elements' pointers are cut, each by itself, and follow element by element
    ("0100000017000000 0800000000000100 0c00000002000000 0000000002000000 0700000000000000 0000000000000000 0800000000000000 "
     "0900000000000000",
     "0100000017000000 0800000000000100 0400000002000000 0800000001000000 0800000000000000 0900000000000000 0700000000000000"),
    # structs of two pointers, each at the first pointer of the one before it, which has an empty struct too
    *(("0000000000000200 " + between * "0400000000000200 fcffffff00000000 " + "0000000000000000 fcffffff00000000", None)
      for between in (0, 6, 7, 62, 63, 254)),
    # structs of one pointer, each below the one before it, of which the last is null
    *((above * "0000000000000100 " + "0000000000000100 0000000000000000", above * "0000000000000100 " + "fcffffff00000000")
      for above in (0, 7, 8, 63, 64, 255)),
)

ONES = " ffffffffffffffff"

# A list of values, how many words it has, and the last of them if bits of it aren't used. All bits of its words are set.
VALUES = (
    ("0100000018000000", 0, None),
    # no bits, 65 bits, and 64
    ("0100000001000000", 0, None),
    ("0100000009020000", 2, "0100000000000000"),
    ("0100000001020000", 1, None),
    # values of one byte, of two, of four and of eight
    ("010000004a000000", 2, "ff00000000000000"),
    ("0100000042000000", 1, None),
    ("010000002b000000", 2, "ffff000000000000"),
    ("0100000023000000", 1, None),
    ("010000001c000000", 2, "ffffffff00000000"),
    ("0100000014000000", 1, None),
    ("0100000015000000", 2, None),
    ("0100000005000000", 0, None),
)

# A message, and the place of the first capability in preorder.
CAPABILITIES = (
    ("0300000005000000", "0:0"),
    ("0000000000000200 0400000000000100 0300000007000000 0300000005000000", "0:3"),
    ("0000000000000200 0400000000000100 0300000001000000 0300000002000000", "0:3"),
    ("0100000037000000 0800000001000200 0100000000000000 0000000000000000 0300000001000000 0100000000000000 0300000002000000 "
     "0000000000000000", "0:4"),
    ("0200000001000000 | 0300000005000000 | ", "0:0"),
)

# A message, and what `get` writes of the node at a path, if there is one.
NODES = (
    ("0000000000000000", {"/": "null\n", "/p0": None}),
    ("0300000005000000", {"/": "cap 5\n", "/p0": None}),
    ("fcffffff00000000", {"/": "struct 0 0\n", "/p0": None}),
    # two pointers to one struct
    ("0000000000000200 0400000001000000 0000000001000000 0700000000000000",
     {"/": "struct 0 2\n", "/p0": "struct 1 0\n  d0 0700000000000000\n", "/p1": "struct 1 0\n  d0 0700000000000000\n",
      "/p2": None, "/p65535": None, "/i0": None, "/p0/p0": None, "/p2/p0": None}),
    # a struct of another segment, through a pad of two words
    ("0600000001000000 | 0200000002000000 0000000001000000 | 2a00000000000000",
     {"/": "struct 1 0\n  d0 2a00000000000000\n", "/p0": None}),
    # two structs in three words
    ("010000001f000000 0800000001000000 0500000000000000 0000000000000000 ff00000000000000",
     {"/": "structs 2 1 0\n", "/i0": "struct 1 0\n  d0 0500000000000000\n", "/i1": "struct 1 0\n  d0 0000000000000000\n",
      "/i2": None, "/i4294967295": None, "/p0": None, "/i0/p0": None, "/i0/i0": None}),
    # two structs of a word and a null pointer
    ("0100000027000000 0800000001000100 0100000000000000 0000000000000000 0000000000000000 0000000000000000",
     {"/": "structs 2 1 1\n", "/i0": "struct 1 1\n  d0 0100000000000000\n", "/i0/p0": "null\n",
      "/i1": "struct 1 1\n  d0 0000000000000000\n", "/i1/p0": "null\n", "/i1/p1": None, "/i1/p0/p0": None, "/i2": None}),
    # three bits, and two pointers
    ("0100000019000000 ffffffffffffffff", {"/": "list 1 3\n  w0 0700000000000000\n", "/i0": None, "/p0": None}),
    ("0100000016000000 0000000000000000 0000000001000000 0900000000000000",
     {"/": "pointers 2\n", "/i0": "null\n", "/i1": "struct 1 0\n  d0 0900000000000000\n", "/i2": None, "/p1": None}),
)


def copies():
    """The messages that have a canonical copy, each with its copy as a frame. Those of values come with a word after them too."""
    for digits, copy in COPIES:
        yield framed(digits), framed(copy or digits)
    for pointer, count, last in VALUES:
        copy = framed(pointer + (count - 1) * ONES + " " + last if last else pointer + count * ONES)
        for more in range(2):
            yield framed(pointer + (count + more) * ONES), copy


def each():
    """Every message of these tables."""
    for table in (VERDICTS, COPIES, CAPABILITIES, NODES):
        for digits, _ in table:
            yield framed(digits)
    for message, copy in copies():
        yield message
