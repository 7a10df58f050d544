"""The path of a refusal: which field is refused."""
import struct

import pytest

import capvet
from support import CASES, many


def framed(*words):
    """The message of one segment of these words."""
    return struct.pack(f"<II{len(words)}Q", 0, len(words), *words)


def refusal_of(data, limits=capvet.Limits()):
    with pytest.raises(capvet.Refusal) as error:
        capvet.vet(data, limits=limits)
    return error.value


@pytest.mark.parametrize("data, limits, path", [
    (framed(1 << 34), capvet.Limits(), "/"),
    (framed(2 << 48, 0, 1 << 34), capvet.Limits(), "/p1"),
    (framed(1 | 7 << 32 | 4 << 35, 2 << 2 | 2 << 48, 0, 0, 0, 1 << 34), capvet.Limits(), "/i1/p1"),
    (framed(0xFFFFFFFC | 1 << 48), capvet.Limits(depth=256), "/p0" * 256),
    (framed(1 << 48, 2 | 2 << 3, 0), capvet.Limits(), "/p0"),
    (framed(), capvet.Limits(), None),
], ids=["root", "pointer", "element", "longest", "nonstrict", "no_root"])
def test_paths(data, limits, path):
    for buffer in (data, bytearray(data), memoryview(data)):
        assert refusal_of(buffer, limits).path == path


def test_overlap():
    # (two pointers to one struct of one word)
    data = framed(2 << 48, 1 << 2 | 1 << 32, 1 << 32, 7)
    refusal = refusal_of(data, capvet.Limits(exclusive=True))
    assert (refusal.reason, refusal.path) == ("Overlap", "/p1")
    assert refusal.earlier_path == "/p0"


def test_overlap_with_the_root_word():
    # (no pointer uses that word)
    data = framed(1 << 48, 0xFFFFFFF8 | 1 << 32)
    refusal = refusal_of(data, capvet.Limits(exclusive=True))
    assert (refusal.reason, refusal.path, refusal.earlier_path) == ("Overlap", "/p0", None)


def test_the_object_of_the_pointer_is_found():
    """The path without its last step leads to an object, which has the pointer."""
    limits, paths = capvet.Limits(allow_nonstrict=True, allow_amplified=True), 0
    for data in many(CASES):
        try:
            capvet.vet(data)
        except capvet.Refusal as refusal:
            path = refusal.path
            assert (path is None) == (refusal.pointer is None) == (refusal.position is None)
            assert (path is None) == (refusal.reason in ("NoRoot", "ManySegments"))
            if path not in (None, "/"):
                paths += 1
                assert capvet.peek(data, path.rpartition("/")[0] or "/", limits=limits).kind in ("struct", "pointers", "structs")
    assert paths >= CASES // 20
