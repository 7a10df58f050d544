"""Messages that `vet` accepts, each with the fault that makes it not strict, or None.

tests/shared/demands.py has them as rows for the built program. tests/calls/flags.py passes them to the calls from C and to the model."""
from harness import framed

# Accepted messages by their words, with the fault of each, worked out by hand: the reason, the place, and how many pointers are
# looked at.
CASES = (
    # each form by itself, and again over other places
    ("0a00000000000000 0000000000000000", ("NullPad", 0, 0, 1)),
    ("0400000002000100 fcffffff01000100 0000000000000000 010000001787bae0 1200000000000000", ("NullPad", 0, 4, 2)),
    ("0600000001000000 | 0200000002000000 0000000000000000 | ", ("EmptySegment", 0, 0, 1)),
    ("0600000002000000 | | 0200000001000000 0000000000000000", ("EmptySegment", 0, 0, 1)),
    # (a list of three elements without bits)
    ("0600000001000000 | 0200000002000000 0100000018000000 | ", ("EmptySegment", 0, 0, 1)),
    ("0a00000000000000 0300000000000000", ("CapabilityPad", 0, 0, 1)),
    # the first of two in preorder, below the first pointer of a struct
    ("0000000000000200 0400000000000100 2a00000000000000 2200000000000000 0300000007000000 "
     "0000000000000000", ("CapabilityPad", 0, 3, 3)),
    # in the second struct of a list, and in a list of pointers
    ("0100000017000000 0800000000000100 0000000000000000 2200000000000000 0000000000000000", ("NullPad", 0, 3, 3)),
    ("0100000016000000 1a00000000000000 0000000000000000 0000000000000000", ("NullPad", 0, 1, 2)),
    # below a struct of another segment, at its only pointer
    ("0200000001000000 | 0000000000000100 1200000001000000 0000000000000000", ("NullPad", 1, 1, 2)),
    # a pad of two words: to an object without words in a segment with words, where the tag is zero and where it isn't
    ("0600000001000000 | 0200000001000000 0000000000000000 0000000000000000", None),
    ("0600000001000000 | 1200000001000000 0100000018000000 0000000000000000", None),
    # a pad of one word that leads to an object without words
    ("0a00000000000000 fcffffff00000000", None),
    # a segment without words that no pointer names, a pad of zeros that no path reaches, and a capability without a pad
    ("0000000000000000 | ", None),
    ("0000000001000000 0a00000000000000 0000000000000000", None),
    ("0300000005000000", None),
    # pads of another segment: of null and of a capability, and one of two words for an empty list in a segment without words
    ("0200000001000000 | 0000000000000000", ("NullPad", 0, 0, 1)),
    ("0200000001000000 | 0300000005000000", ("CapabilityPad", 0, 0, 1)),
    ("0600000001000000 | 0200000002000000 0100000002000000 | ", ("EmptySegment", 0, 0, 1)),
    # the second pointer of a struct, and then the third too: the first is named
    ("0000000000000300 0000000000000000 0200000001000000 0000000000000000 | 0000000000000000 "
     "0300000005000000", ("NullPad", 0, 2, 3)),
    ("0000000000000300 0000000000000000 0a00000001000000 0200000001000000 | 0000000000000000 "
     "0300000005000000", ("CapabilityPad", 0, 2, 3)),
    ("0000000000000300 1200000001000000 0600000001000000 1200000001000000 | 0200000002000000 0000000000000000 "
     "0000000000000000 | ", ("NullPad", 0, 1, 2)),
    # below the first pointer, before the second
    ("0000000000000200 0400000000000100 0200000001000000 0a00000001000000 | 0000000000000000 "
     "0300000005000000", ("CapabilityPad", 0, 3, 3)),
    # strict: null, a pad to a struct of a word, and pads to an empty struct and to an empty list
    ("0000000000000000", None),
    ("0200000001000000 | 0000000001000000 2a00000000000000", None),
    ("0600000001000000 | 0200000000000000 0000000000000000", None),
    ("0600000001000000 | 0a00000000000000 0100000002000000", None),
    ("0200000001000000 | fcffffff00000000", None),
    # a pad of another segment that no path reaches
    ("0000000000000000 0200000001000000 | 0000000000000000", None),
)


def many(count):
    """A message of this many segments, of which the first has a null root and the others nothing."""
    return framed(bytes(8), *[b""] * (count - 1))
