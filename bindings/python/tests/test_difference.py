"""Why a message is not canonical."""
import copy
import pickle
import re
import struct
import typing

import pytest

import capvet
from support import CASES, LAX, TOP, framed, many, samples

# Two segments, of which the first one has a null root.
TWO_SEGMENTS = struct.pack("<IIIIQQ", 1, 1, 1, 0, 0, 0)
# For each reason a message, the word and the number of the pointer, and its path.
ROWS = [
    ("Segments", TWO_SEGMENTS, 0, 0, None),
    ("Far", framed(2 | 1 << 3, 1 << 32, 7), 0, 1, "/"),
    ("Capability", framed(1 << 32 | 1 << 48, 7, 3 | 7 << 32), 2, 2, "/p0"),
    ("EmptyStruct", framed(1 << 2, 0), 0, 1, "/"),
    ("Place", framed(2 << 48, 1 << 2 | 1 << 32, 1 << 32, 7), 2, 3, "/p1"),
    ("Bits", framed(1 | 1 << 32 | 1 << 35, 3), 0, 1, "/"),
    ("EmptyList", framed(1 | 7 << 32, 1 << 32), 0, 1, "/"),
    ("Surplus", framed(1 | 7 << 32 | 2 << 35, 1 << 2 | 1 << 32, 5, 0), 0, 1, "/"),
    ("DataZero", framed(2 << 32, 7, 0), 0, 1, "/"),
    ("PointerNull", framed(1 << 32 | 1 << 48, 7, 0), 0, 1, "/"),
    ("Trailing", framed(0, 0), 1, 1, None),
]


@pytest.mark.parametrize("reason, data, word, pointers, path", ROWS, ids=[row[0] for row in ROWS])
def test_each_reason(reason, data, word, pointers, path):
    message = capvet.vet(data)
    difference = message.first_difference()
    assert difference == capvet.Difference(reason, capvet.Position(0, word), pointers, path)
    assert str(difference) == f"not canonical: {reason} at 0:{word}"
    assert not message.is_canonical()
    assert pickle.loads(pickle.dumps(difference)) == copy.deepcopy(difference) == difference
    with pytest.raises(AttributeError):
        difference.reason = "Far"


def test_a_canonical_message_has_none():
    for message in (capvet.vet(framed(1 << 32, 7)), capvet.vet_words(framed(1 << 32, 7)[8:])):
        assert message.is_canonical() and message.first_difference() is None


def test_words_are_counted_without_a_table():
    """A message of words has the differences of its frame."""
    for reason, data, *_ in ROWS[1:]:
        assert capvet.vet_words(data[8:]).first_difference() == capvet.vet(data).first_difference()


def test_names_are_those_of_the_header():
    header = (TOP / "include/capvet.h").read_text()
    numbers = {name: int(number) for name, number in re.findall(r"^  (CAPVET_DIFFERENCE_\w+) = (\d+)", header, re.M)}
    names = dict(re.findall(r"case (CAPVET_DIFFERENCE_\w+): return \"(\w+)\"", header))
    named = tuple(names[name] for name in sorted(numbers, key=numbers.__getitem__))
    assert typing.get_args(capvet.DifferenceReason) == named == tuple(row[0] for row in ROWS)


def test_a_difference_is_where_the_message_is_not_canonical():
    found = 0
    for data in samples() + many(CASES):
        verdict = next(capvet.messages(data, limits=LAX))
        if isinstance(verdict, capvet.Refusal):
            continue
        difference = verdict.first_difference()
        assert (difference is None) == verdict.is_canonical()
        if difference is None:
            continue
        found += 1
        assert (difference.path is None) == (difference.reason in ("Segments", "Trailing"))
        if difference.path is not None:
            kind = verdict.get(difference.path).kind
            assert (kind == "capability") == (difference.reason == "Capability") or difference.reason == "Far"
    assert found > CASES // 20


def test_bytes_that_changed_are_noticed():
    data = bytearray(framed(1 << 32, 7))
    message = capvet.vet(memoryview(data).toreadonly())
    data[8:16] = b"\7" + bytes(7)
    with pytest.raises(RuntimeError):
        message.first_difference()
