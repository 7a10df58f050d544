"""The rows of tests/program/program.py for `capvet filter`, as tables.py has those of the other commands.

A message that is accepted goes to standard output as it came, with zero padding in its table. The lines of the others go
to standard error; they were written from docs/output.md, and places and counts were worked out by hand. Rows for what
isn't strict or unamplified are in demands.py.
"""
from tables import (BELOW_A_LIST, BITS, CAPABILITY, CYCLE, EMPTY, NULL, ROOTLESS, SHARED, SHORT, STRUCT, SURPLUS, Row,
                    word)

# Two segments, with padding that isn't zero, and with zero padding; three segments, the first of them without words; and
# a word that no path reaches.
PADDED = "0100000001000000 02000000deadbeef 0200000001000000 0000000001000000 2a00000000000000"
ZERO_PADDED = "0100000001000000 0200000000000000 0200000001000000 0000000001000000 2a00000000000000"
EMPTY_FIRST = "0200000000000000 0100000001000000 0000000000000000 0000000000000000"
EMPTY_LATER = "0200000001000000 0000000001000000 fcffffff00000000 0700000000000000"
UNREACHED = "0000000003000000 0000000001000000 2a00000000000000 0700000000000000"

# What goes on of streams of whole messages.
WHOLE = (
    *(Row("filter", it, word(it)) for it in (NULL, EMPTY, STRUCT, SHARED, BELOW_A_LIST, BITS, CAPABILITY, SURPLUS, ZERO_PADDED,
                                             EMPTY_LATER, UNREACHED)),
    Row("filter", PADDED, word(ZERO_PADDED)),
    Row("filter", f"{NULL} {PADDED} {EMPTY_LATER} {NULL} {SHARED}", word(f"{NULL} {ZERO_PADDED} {EMPTY_LATER} {NULL} {SHARED}")),
    # each message is refused, and nothing goes on
    Row("filter", ROOTLESS, "", "message 0: refused NoRoot at 0:0 pointers 0\n", 1),
    Row("filter", f"{CYCLE} {EMPTY_FIRST}", "",
        "message 0: refused DepthLimit at 0:0 pointers 65\n"
        "message 1: refused NoRoot at 0:0 pointers 0\n", 1),
    # one first, one last, and two between others
    Row("filter", f"{CYCLE} {STRUCT}", word(STRUCT), "message 0: refused DepthLimit at 0:0 pointers 65\n", 1),
    Row("filter", f"{STRUCT} {ROOTLESS}", word(STRUCT), "message 1: refused NoRoot at 0:0 pointers 0\n", 1),
    Row("filter --words 3", f"{NULL} {SHARED} {PADDED} {CYCLE} {EMPTY} {BELOW_A_LIST}",
        word(f"{NULL} {ZERO_PADDED} {EMPTY} {BELOW_A_LIST}"),
        "message 1: refused WordLimit at 0:2 pointers 3\n"
        "message 3: refused WordLimit at 0:0 pointers 4\n", 1),
    Row("filter --depth 1", f"{STRUCT} {SHARED} {NULL} {CAPABILITY} {BELOW_A_LIST}", word(f"{STRUCT} {NULL} {CAPABILITY}"),
        "message 1: refused DepthLimit at 0:1 pointers 2\n"
        "message 4: refused DepthLimit at 0:0 pointers 1\n", 1),
    # faults of the stream, after exactly the messages before them
    Row("filter --size 2", f"{STRUCT} {CYCLE} {SHORT} {SHARED} {NULL}", word(f"{STRUCT} {SHORT}"),
        "message 1: refused DepthLimit at 0:0 pointers 65\n"
        "capvet: message 3: TooLarge 4\n", 1),
)

# The three options by themselves and together.
FORMS = (
    # a message that uses a word twice
    Row("filter --exclusive", f"{STRUCT} {SHARED} {CYCLE} {NULL}", word(f"{STRUCT} {NULL}"),
        "message 1: refused Overlap at 0:2 pointers 3\n"
        "message 2: refused DepthLimit at 0:0 pointers 65\n", 1),
    # nothing of the stream counts after the first refused message, and without one all of it does
    Row("filter --stop", f"{STRUCT} {CYCLE} {NULL} {ROOTLESS}", word(STRUCT), "message 1: refused DepthLimit at 0:0 pointers 65\n", 1),
    Row("filter --stop", f"{ROOTLESS} {STRUCT}", "", "message 0: refused NoRoot at 0:0 pointers 0\n", 1),
    Row("filter --stop", f"{NULL} {CYCLE} 0002000000000000", word(NULL), "message 1: refused DepthLimit at 0:0 pointers 65\n", 1),
    Row("filter --stop", f"{NULL} {PADDED} {SHARED}", word(f"{NULL} {ZERO_PADDED} {SHARED}")),
    Row("filter --stop", f"{NULL} 0002000000000000", word(NULL), "capvet: message 1: TooManySegments 513\n", 1),
    # the table and each segment are packed by themselves, and no run goes on from one into the next
    Row("filter --pack", NULL, word("1001 0000")),
    Row("filter --pack", f"{STRUCT} {CYCLE} {NULL}", word("1002 1001 012a 1001 0000"),
        "message 1: refused DepthLimit at 0:0 pointers 65\n", 1),
    Row("filter --pack", PADDED, word("110101 0102 110201 1001 012a")),
    Row("filter --pack", f"{NULL} {NULL}", word("10010000 10010000")),
    Row("filter --pack --stop --exclusive", f"{STRUCT} {SHARED} {NULL}", word("1002 1001 012a"),
        "message 1: refused Overlap at 0:2 pointers 3\n", 1),
)

# Streams that end inside a message, plain and packed, and one with too many segments. Packed it looks as a plain one would.
CUT = (
    Row("filter", f"{STRUCT} {CYCLE} {NULL} 0000000002000000 0000000001000000", word(f"{STRUCT} {NULL}"),
        "message 1: refused DepthLimit at 0:0 pointers 65\n"
        "capvet: message 3: Truncated at byte 72\n", 1),
    Row("filter --packed", "1002 1001 012a 1001 4ffcffffff01 10010000 1002 1001", word(f"{STRUCT} {NULL}"),
        "message 1: refused DepthLimit at 0:0 pointers 65\n"
        "capvet: message 3: Truncated at byte 22\n", 1),
    Row("filter", f"{NULL} 010000000100", word(NULL), "capvet: message 1: Truncated at byte 22\n", 1),
    Row("filter --packed", "10010000 11", word(NULL), "capvet: message 1: Truncated at byte 5\n", 1),
    Row("filter", f"{NULL} {ROOTLESS} 0002000000000000 {NULL}", word(NULL),
        "message 1: refused NoRoot at 0:0 pointers 0\n"
        "capvet: message 2: TooManySegments 513\n", 1),
    Row("filter --packed", "10010001 0202 10010000", word(NULL),
        "message 1: refused NoRoot at 0:0 pointers 0\n"
        "capvet: message 2: TooManySegments 513\n"
        "capvet: the input looks unpacked: try it without --packed\n", 1),
)
