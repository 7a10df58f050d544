"""`peek_range` beside `peek` for each path, and the getters of vetted messages beside both."""
import random
from collections import Counter

import pytest

import capvet
from support import CASES, LAX, TOP, framed, many, samples

CONTACTS = (TOP / "examples/contacts.bin").read_bytes()
TEXT = (2 << 32 | 4 << 35, int.from_bytes(b"Ada\0", "little"))
LAST = (1 << 32) - 1


def one_by_one(data, path, limits=capvet.Limits(), first=0, count=LAST):
    """What `peek` returns for each path, up to the first element or pointer that isn't there, and its error."""
    got, upto = [], path[:path.index("*") + 1]
    try:
        for number in range(first, min(first + count, LAST + 1)):
            one = capvet.peek(data, path.replace("*", str(number)), limits=limits)
            if one is None and capvet.peek(data, upto.replace("*", str(number)), limits=limits) is None:
                break
            got.append(one)
    except capvet.CapvetError as error:
        return got, (type(error), str(error), vars(error))
    return got, None


def iterated(data, path, limits=capvet.Limits(), **which):
    """What `peek_range` yields, and its error. The iteration has ended after an error."""
    got, stream = [], capvet.peek_range(data, path, limits=limits, **which)
    try:
        for it in stream:
            got.append(it)
    except capvet.CapvetError as error:
        assert next(stream, "ended") == "ended"
        return got, (type(error), str(error), vars(error))
    return got, None


def starred(data, limits, chance):
    """A path with a star, mostly one that leads to some place: the numbers of its steps are those of the message's objects."""
    steps, path = [], ""
    while len(steps) < 9:
        try:
            here = capvet.peek(data, path or "/", limits=limits)
        except capvet.CapvetError:
            here = None
        size = 0 if here is None else here.pointers if here.kind == "struct" else here.count
        if here is None or here.kind not in ("struct", "pointers", "structs") or not size or steps and chance.randrange(6) == 0:
            break
        steps.append(("p" if here.kind == "struct" else "i") + str(chance.randrange(min(size, 40))))
        path = "/" + "/".join(steps)
    steps += [chance.choice("pi") + str(chance.randrange(3)) for _ in range(chance.choice((0, 0, 1, 2)) or not steps)]
    at = chance.randrange(len(steps))
    steps[at] = steps[at][0] + "*"
    return "/" + "/".join(steps)


def listed(*pointers):
    """A message of a list of pointers, with the text "Ada" after it. None is a pointer to that text."""
    words = [1 | (len(pointers) - 1 - at) << 2 | TEXT[0] if it is None else it for at, it in enumerate(pointers)]
    return framed(1 | 6 << 32 | len(pointers) << 35, *words, TEXT[1])


def test_contacts():
    names = [it and it.text() for it in capvet.peek_range(CONTACTS, "/p0/i*/p0")]
    assert names[:1] + names[3:5] == ["fjord Ω Grüße lantern Grüße", "señal harbor thicket lantern fjord", "señal salt"]
    assert [it.kind for it in capvet.peek_range(CONTACTS, "/p0/i*")] == ["struct"] * 7
    assert [it.kind for it in capvet.peek_range(CONTACTS, "/p*")] == [capvet.peek(CONTACTS, f"/p{at}").kind for at in range(3)]


def test_samples_and_changed():
    chance, seen = random.Random(5), Counter()
    for number, message in enumerate(samples() * 20 + many(CASES)):
        limits = chance.choice((capvet.Limits(), LAX, capvet.Limits(depth=chance.randrange(6)), capvet.Limits(charge=40)))
        path = starred(message, LAX, chance)
        which = dict(first=chance.choice((0, 0, 1, 5))) if chance.randrange(2) else {}
        which.update(dict(count=chance.randrange(8)) if chance.randrange(3) == 0 else {})
        expected = one_by_one(message, path, limits, **which)
        assert iterated(message, path, limits, **which) == expected, (message.hex(), path, limits, which)
        seen.update(many=len(expected[0]) > 1, refused=expected[1] is not None, refused_later=bool(expected[0] and expected[1]),
                    gaps=None in expected[0], ended=not expected[1])
    assert all(seen[name] >= 20 for name in ("many", "refused", "gaps", "ended")) and seen["refused_later"] >= 3, seen


@pytest.mark.parametrize("size", [0, 1, 2, 255, 256, 257, 511, 512, 513, 3000])
def test_long_lists(size):
    """Blocks of texts, null pointers and structs in a list of pointers."""
    chance = random.Random(size)
    mixed = listed(*(chance.choice((None, None, 0, 0xFFFFFFFC)) for _ in range(size)))
    for data in (listed(*[None] * size), mixed):
        for path in ("/i*", "/i*/p0", "/i*/i0"):
            for which in ({}, dict(first=255), dict(first=1, count=256), dict(first=200, count=57), dict(count=size)):
                assert iterated(data, path, **which) == one_by_one(data, path, **which)
    assert [it.text() for it in capvet.peek_range(listed(*[None] * size), "/i*")] == ["Ada"] * size


def test_structs_and_pointers():
    # (three structs, each with one pointer, of which the middle one is null)
    message = framed(1 | 7 << 32 | 3 << 35, 3 << 2 | 1 << 48, 0xFFFFFFFC, 0, 0xFFFFFFFC)
    assert [it.kind for it in capvet.peek_range(message, "/i*/p0")] == ["struct", "null", "struct"]
    # (no element has pointer 1, and each of them has its default)
    assert list(capvet.peek_range(message, "/i*/p1")) == [None] * 3
    assert [it.kind for it in capvet.peek_range(message, "/i1/p*")] == ["null"]
    assert [list(capvet.peek_range(message, path)) for path in ("/p*", "/i9/p*", "/i0/i*", "/i1/p0/p*")] == [[]] * 4
    # (the bytes of a text are no elements to step to)
    assert list(capvet.peek_range(listed(None), "/i0/i*")) == [] and capvet.peek(listed(None), "/i0/i0") is None
    assert list(capvet.peek_range(framed(0), "/p*")) == list(capvet.peek_range(framed(0), "/i*/p0")) == []


def test_null_elements_keep_their_numbers():
    message = framed(1 | 6 << 32 | 4 << 35, 0, 2 << 2 | 1 << 48, 0, 1 << 2 | 1 << 48, 0xFFFFFFFC, 0)
    assert [it and it.kind for it in capvet.peek_range(message, "/i*/p0")] == [None, "struct", None, "null"]
    assert [it.kind for it in capvet.peek_range(message, "/i*")] == ["null", "struct", "null", "struct"]
    assert [at for at, it in enumerate(capvet.peek_range(message, "/i*/p0", first=1), 1) if it] == [1, 3]


def test_refused_elements():
    # (element 1 is out of the segment, and element 3 has a reserved kind)
    message = listed(None, 1 | 99 << 2 | TEXT[0], None, 7, None)
    stream = capvet.peek_range(message, "/i*")
    assert next(stream).text() == "Ada"
    with pytest.raises(capvet.Refusal) as error:
        next(stream)
    assert (error.value.position, str(error.value)) == ((0, 2), "refused OutOfSegment at 0:2 pointers 2")
    assert list(stream) == []
    assert next(capvet.peek_range(message, "/i*", first=2)).text() == "Ada"
    assert [it.text() for it in capvet.peek_range(message, "/i*", first=4)] == ["Ada"]
    assert [it.text() for it in capvet.peek_range(message, "/i*", count=1)] == ["Ada"]
    with pytest.raises(capvet.Refusal):
        next(capvet.peek_range(framed(1 | 99 << 2 | 6 << 32), "/i*"))


def test_first_and_count():
    message = listed(*[None] * 5)
    for first in (0, 1, 4, 5, 6, 65535, LAST, LAST + 1, 1 << 70):
        for count in (0, 1, 4, 5, LAST, 1 << 70):
            got = list(capvet.peek_range(message, "/i*", first=first, count=count))
            assert got == [capvet.peek(message, f"/i{at}") for at in range(5)][first:first + count]
            assert list(capvet.peek_range(message, "/p*", first=first, count=count)) == []
    for which in (dict(first=-1), dict(count=-1)):
        with pytest.raises(ValueError) as error:
            capvet.peek_range(message, "/i*", **which)
        assert not isinstance(error.value, capvet.CapvetError)
    for which in (dict(first=1.0), dict(count="1"), dict(first=None), dict(count=True)):
        with pytest.raises(TypeError):
            capvet.peek_range(message, "/i*", **which)


def test_bad_paths():
    """They are refused by the call itself, where `peek` refuses the path with a number for the star."""
    for path in ("", "*", "/*", "/x*", "i*", "/p01/i*", "/p65536/i*", "/i*/p65536", "/i*/x", "/i*/", "/i*2", "/i4*5/p", "//i*",
                 "/i4294967296/p*", "/ö*", "/i*/p\0"):
        with pytest.raises(capvet.PathError) as error:
            capvet.peek_range(b"", path)
        with pytest.raises(capvet.PathError) as expected:
            capvet.peek(b"", path.replace("*", "0", 1))
        assert (error.value.reason, error.value.position, error.value.path) == ("BadPath", expected.value.position, path)
        assert repr(path) in str(error.value)
    for path, position in (("/", 1), ("/p0", 3), ("/p1*", 3), ("/p0/i1*/p1", 6), ("/i*/p*", 5), ("/i**", 3)):
        with pytest.raises(capvet.PathError) as error:
            capvet.peek_range(b"", path)
        assert (error.value.position, error.value.reason) == (position, "BadPath"), path


def test_frames_and_limits():
    for data in (b"", b"123", CONTACTS[:-1], CONTACTS + b"1"):
        stream = capvet.peek_range(data, "/p0/i*")
        with pytest.raises(capvet.FrameError) as error:
            next(stream)
        with pytest.raises(capvet.FrameError) as expected:
            capvet.peek(data, "/p0/i0")
        assert vars(error.value) == vars(expected.value)
    with pytest.raises(TypeError):
        capvet.peek_range(CONTACTS, "/p0/i*", limits=7)
    with pytest.raises(TypeError):
        capvet.peek_range("text", "/p0/i*")


def test_buffers():
    """A buffer that Python can write is copied by the call, and nodes of a read-only one are views of it."""
    changing = bytearray(CONTACTS)
    copied, shared = capvet.peek_range(changing, "/p0/i*"), capvet.peek_range(memoryview(changing).toreadonly(), "/p0/i*")
    changing[:] = bytes(len(changing))
    assert [bytes(it.data) for it in copied] == [bytes(it.data) for it in capvet.peek_range(CONTACTS, "/p0/i*")]
    with pytest.raises(capvet.FrameError):
        next(shared)
    two = zip(capvet.peek_range(CONTACTS, "/p0/i*/p0"), capvet.peek_range(CONTACTS, "/p0/i*/p4"))
    assert [(one, other) for one, other in two] == [
        tuple(capvet.peek(CONTACTS, f"/p0/i{at}/p{number}") for number in (0, 4)) for at in range(7)]
