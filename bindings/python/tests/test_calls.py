"""The calls about one message and about the messages of a buffer, beside the program."""
import array
import copy
import dataclasses
import gc
import io
import mmap
import pickle
import re
from pathlib import Path

import pytest

import capvet
from support import CASES, FILES, LAX, STRICT, TOP, bytes_of, framed, lines, many, program, samples

CYCLE = framed(0xFFFFFFFC | 1 << 48)
EXCLUSIVE = capvet.Limits(exclusive=True)
CAPABILITY = framed(1 << 48, 3 | 9 << 32)
NULL = framed(0)


@pytest.mark.parametrize("file", FILES, ids=lambda file: file.name)
@pytest.mark.parametrize("limits, options", [(capvet.Limits(), STRICT), (LAX, []),
                                             (dataclasses.replace(LAX, depth=3, charge=30), ["--depth", 3, "--words", 30])])
@pytest.mark.parametrize("exclusive", [False, True])
def test_samples(file, limits, options, exclusive):
    data, limits = file.read_bytes(), dataclasses.replace(limits, exclusive=exclusive)
    text, error, status = program("vet", *options, *["--exclusive"] * exclusive, file)
    assert lines(capvet.messages(data, limits=limits)) == (text, None)
    with open(file, "rb") as stream:
        assert lines(capvet.read_messages(stream, limits=limits)) == (text, None)
    packed = io.BytesIO(capvet.pack_words(data))
    assert lines(capvet.read_messages(packed, packed=True, limits=limits)) == (text, None)


@pytest.mark.parametrize("limits, options", [(capvet.Limits(), STRICT), (LAX, [])])
@pytest.mark.parametrize("exclusive", [False, True])
def test_changed(limits, options, exclusive):
    data, limits = b"".join(many(CASES)), dataclasses.replace(limits, exclusive=exclusive)
    text, error, status = program("vet", *options, *["--exclusive"] * exclusive, data=data)
    assert text.count(b"\n") == CASES and b"refused" in text and b"accepted" in text
    assert lines(capvet.messages(data, limits=limits)) == (text, None)


def test_cut():
    small = min(samples(), key=len)
    for end in range(len(small)):
        text, error, status = program("vet", data=small + small[:end])
        reason = (re.search(r"message 1: (\w+)", error) or [None, None])[1]
        for messages in (capvet.messages(small + small[:end]), capvet.read_messages(io.BytesIO(small + small[:end]))):
            assert lines(messages) == (text, reason)
        if end:
            with pytest.raises(capvet.FrameError) as error:
                capvet.vet(small[:end])
            assert (error.value.reason, end < error.value.required <= len(small)) == ("Truncated", True)


def test_single_messages():
    for message in samples():
        vetted, segments = capvet.vet(message), [message[at:at + size] for at, size in capvet.frame(message).segments]
        report = vetted.report
        assert (report.length, report.words, report.segments) == (len(message), sum(map(len, segments)) // 8, len(segments))
        assert bytes(vetted.data) == message and list(map(bytes, vetted.segments)) == segments
        assert capvet.vet(message, limits=EXCLUSIVE).report == report
        for limits in (capvet.Limits(), EXCLUSIVE):
            again = capvet.vet_segments(segments, limits=limits)
            assert (bytes(again.data), again.report) == (message, report)
        assert capvet.unpack_words(capvet.pack_message(message)) == message


def test_forms():
    """The form of the input is a call: one message, a buffer that starts with one, and words without a table."""
    message, *others = samples()
    report = capvet.vet(message).report
    for rest in (b"", b"1", *others):
        found, after = capvet.vet_prefix(message + rest)
        assert (bytes(found.data), found.report, bytes(after)) == (message, report, rest)
        if rest:
            with pytest.raises(capvet.FrameError) as error:
                capvet.vet(message + rest)
            assert (error.value.reason, error.value.length) == ("Trailing", len(message))
    words = capvet.vet(message).canonical()
    again = capvet.vet_words(words)
    found = again.report
    assert (found.length, found.words, found.segments, found.depth) == (len(words), len(words) // 8, 1, report.depth)
    assert (bytes(again.data), list(map(bytes, again.segments)), again.canonical()) == (words, [words], words)
    node, other = again.get("/p0/i1/p0"), capvet.vet(message).get("/p0/i1/p0")
    assert node.data == other.data == words[node.offset:node.offset + len(node.data)]
    assert all(it.data == words[it.offset:][:len(it.data)] for it in again.get_range("/p0/i*/p0"))
    with pytest.raises(capvet.Refusal) as error:
        capvet.vet_words(CYCLE[8:])
    assert (bytes(error.value.unvetted), error.value.path[:6]) == (CYCLE[8:], "/p0/p0")
    assert "byte 0 of the message" in error.value.explain() and pickle.loads(pickle.dumps(again)).data == words
    for data, reason, required in ((b"", "NoMessage", 8), (words[:-1], "Truncated", len(words)),
                                   (words + b"1", "Truncated", len(words) + 8)):
        with pytest.raises(capvet.FrameError) as error:
            capvet.vet_words(data)
        assert (error.value.reason, error.value.required) == (reason, required)


def test_shared_words_are_refused_in_every_form():
    shared = framed(2 << 48, 1 << 2 | 1 << 32, 1 << 32, 7)
    for call in (lambda limits: capvet.vet(shared, limits=limits), lambda limits: capvet.vet_prefix(shared + b"1", limits=limits),
                 lambda limits: capvet.vet_words(shared[8:], limits=limits),
                 lambda limits: capvet.vet_segments([shared[8:]], limits=limits)):
        assert call(capvet.Limits())
        with pytest.raises(capvet.Refusal) as error:
            call(EXCLUSIVE)
        assert (error.value.reason, error.value.position, error.value.pointer) == ("Overlap", (0, 2), 3)
    assert [it.reason for it in capvet.messages(shared * 2, limits=EXCLUSIVE)] == ["Overlap"] * 2


def test_copies_are_canonical_within_the_same_limits():
    # (a copy has more words than its message, and is amplified, where objects are shared)
    shared, copied = framed(3 << 48, 2 << 2 | 1 << 32, 1 << 2 | 1 << 32, 1 << 32, 7), 0
    amplified = framed(1 | 7 << 32 | 5000 << 35, 5000 << 2 | 1 << 32, *[0] * 5000)
    for message in [shared, amplified, *samples(), *many(CASES)]:
        if not is_accepted(message):
            continue
        report = capvet.vet(message, limits=LAX).report
        tight = dataclasses.replace(LAX, message_words=report.words, charge=report.charge, depth=report.depth)
        try:
            words = capvet.vet(message, limits=tight).canonical()
        except capvet.CapabilityError:
            continue
        copied += 1
        for limits in (tight, dataclasses.replace(tight, allow_nonstrict=False, allow_amplified=False, exclusive=True)):
            assert capvet.is_canonical_words(words, limits=limits)
        assert not capvet.is_canonical_words(words + bytes(8), limits=LAX)
    assert copied > CASES // 10
    with pytest.raises(capvet.Refusal):
        capvet.is_canonical_words(capvet.vet(shared).canonical(), limits=capvet.Limits(charge=3))
    with pytest.raises(capvet.FrameError):
        capvet.is_canonical_words(shared[:-1])


def test_canonical():
    accepted = [message for message in many(CASES) + samples() if is_accepted(message)]
    assert len(accepted) > CASES // 10
    for message in accepted:
        status = program("check", data=message)[2] if len(message) < 200 else None
        vetted = capvet.vet(message, limits=LAX)
        try:
            words = vetted.canonical()
        except capvet.CapabilityError as error:
            assert error.report == vetted.report and error.report.first_capability and not vetted.is_canonical()
            continue
        assert capvet.is_canonical_words(words) and capvet.vet_words(words, limits=LAX).is_canonical()
        assert status is None or vetted.is_canonical() == (status == 0)
    for message in samples():
        assert capvet.vet(message).canonical() == program("canon", data=message)[0][8:]


def is_accepted(message):
    try:
        return bool(capvet.vet(message, limits=LAX))
    except capvet.CapvetError:
        return False


def test_nodes():
    data = (TOP / "examples/contacts.bin").read_bytes()
    for path in ("/", "/p0", "/p0/i1", "/p0/i1/p4", "/p0/i1/p0", "/p0/i99", "/p7"):
        expected = program("get", path, TOP / "examples/contacts.bin")[0].decode().splitlines()
        found = capvet.peek(data, path)
        assert found == capvet.vet(data).get(path)
        assert (found is None) == (expected == ["message 0: none"])
        if found is not None:
            assert bytes(found.data) == data[found.offset:found.offset + len(found.data)]
            words = re.findall(r"^  \w+ (\w+)$", "\n".join(expected[2:]), re.M)
            assert bytes(found.data).hex().ljust(16 * len(words), "0") == "".join(words) or found.kind == "structs"
    for path, position in (("", 0), ("/x", 1), ("/p01", 3), ("/p65536", 6)):
        with pytest.raises(capvet.PathError) as error:
            capvet.peek(data, path)
        assert program("get", path, data=b"")[1].startswith(f"capvet: bad path at {error.value.position}\n")
    assert capvet.peek(CAPABILITY, "/p0").capability == 9


def test_text():
    def text(letters):
        words = letters.ljust((len(letters) + 7) // 8 * 8, b"\0")
        numbers = array.array("Q", words)
        return capvet.peek(framed(1 | 2 << 32 | len(letters) << 35, *numbers), "/").text()

    assert text("Grüße\0".encode()) == "Grüße" and text(b"\0") == ""
    assert text(b"") is None and text(b"abc") is None and text(b"a\0b\0") is None and text(b"\xff\0") is None


@pytest.mark.parametrize("make", [bytes, bytearray, memoryview, lambda data: array.array("Q", data),
                                  lambda data: memoryview(data).cast("H"), lambda data: memoryview(data + b"")[::1]])
def test_buffers(make):
    message = samples()[0]
    vetted = capvet.vet(make(message))
    assert (bytes(vetted.data), vetted.report) == (message, capvet.vet(message).report)
    assert vetted.canonical() == capvet.vet(message).canonical()
    assert [bytes_of(it) for it in capvet.messages(make(message))] == [message]
    assert capvet.vet_segments([make(message[8:])]).report == vetted.report


def test_read_only_buffers_are_not_copied():
    message = bytearray(samples()[0])
    for call in (capvet.vet, lambda data: next(capvet.messages(data)), lambda data: capvet.vet_all(data)[0]):
        data = call(memoryview(message).toreadonly()).data
        message[100] ^= 1
        assert data[100] == message[100]
        data = call(message).data
        message[100] ^= 1
        assert data[100] != message[100]
        with pytest.raises(TypeError):
            data[100] = 0


def test_other_arguments():
    for argument in ("text", 7, None, [1]):
        with pytest.raises(TypeError):
            capvet.vet(argument)
    for call in (lambda: capvet.peek(NULL, None), lambda: capvet.vet(NULL).get(b"/"), lambda: capvet.peek_range(NULL, 7),
                 lambda: capvet.read_messages("name"), lambda: capvet.read_messages(7), lambda: capvet.unpack_words(b"", max_size=None),
                 lambda: capvet.vet(NULL, limits=None), lambda: capvet.messages(NULL, limits=None),
                 lambda: capvet.vet_all(NULL, limits=7), lambda: capvet.vet(NULL, limits={"depth": 3}),
                 lambda: capvet.vet_segments(7), lambda: capvet.vet_segments(["text"]),
                 lambda: capvet.MessageFeed(limits=[]), lambda: list(capvet.read_messages(io.StringIO("text")))):
        with pytest.raises(TypeError):
            call()
    with pytest.raises(capvet.PathError):
        capvet.peek(NULL, "/\udcff")
    for fields in (dict(depth=257), dict(charge=-1), dict(message_words=1 << 29)):
        with pytest.raises(ValueError):
            capvet.Limits(**fields)
    for fields in (dict(depth=3.5), dict(depth=True), dict(exclusive=1), dict(no_table=False)):
        with pytest.raises(TypeError):
            capvet.Limits(**fields)
    with pytest.raises(TypeError):
        capvet.Limits(1, 2, 3)
    with pytest.raises(ValueError):
        capvet.pack_words(b"1234567")
    for call in (capvet.frame, capvet.pack_message):
        for number, kind in ((-1, ValueError), (1 << 29, ValueError), (1.5, TypeError)):
            with pytest.raises(kind) as error:
                call(NULL, message_words=number)
            assert not isinstance(error.value, capvet.CapvetError)
        with pytest.raises(capvet.FrameError) as error:
            call(NULL, message_words=0)
        assert error.value.reason == "TooLarge"


def test_version():
    header = (TOP / "include/capvet.h").read_text()
    assert capvet.version() == re.search(r'CAPVET_VERSION_STRING "(.*)"', header)[1] == capvet.__version__


def test_limits():
    """Limits are values: they are compared, hashed, changed and pickled."""

    class Number:
        def __index__(self):
            return 7

    limits = capvet.Limits(depth=Number(), exclusive=True)
    assert capvet.vet(NULL, limits=limits).canonical() == bytes(8)
    for again in (pickle.loads(pickle.dumps(limits)), copy.deepcopy(limits), dataclasses.replace(capvet.Limits(depth=7), exclusive=True)):
        assert again == limits and hash(again) == hash(limits) and again != capvet.Limits() and type(again.depth) is int
    with pytest.raises(dataclasses.FrozenInstanceError):
        limits.depth = 8


def test_frame_errors():
    for data, reason, fields in (
            (b"", "NoMessage", dict(required=8)), (b"123", "Truncated", dict(required=8)),
            (b"\1\0\0\0\1\0\0\0", "Truncated", dict(required=16)), (NULL[:-1], "Truncated", dict(required=16)),
            (b"\0\2\0\0\0\0\0\0", "TooManySegments", dict(segments=513, required=None)),
            (NULL + b"123", "Trailing", dict(trailing=3, length=16)),
            (b"\0\0\0\0\1\0\x80\0", "TooLarge", dict(words=8388609))):
        with pytest.raises(capvet.FrameError) as error:
            capvet.vet(data)
        assert error.value.reason == reason
        assert {name: getattr(error.value, name) for name in fields} == fields
    with pytest.raises(capvet.FrameError) as error:
        capvet.vet_segments([bytes(8), bytes(7)])
    assert (error.value.reason, error.value.segment) == ("BadSegment", 1)
    for count, reason in ((0, "NoMessage"), (513, "TooManySegments")):
        with pytest.raises(capvet.FrameError) as error:
            capvet.vet_segments([bytes(8)] * count)
        assert error.value.reason == reason
    with pytest.raises(capvet.FrameError) as error:
        capvet.vet_segments([bytes(8)] * 2, limits=capvet.Limits(message_words=1))
    assert error.value.words == 2
    with pytest.raises(capvet.UnpackError):
        capvet.unpack_words(b"\xff")
    assert capvet.unpack_words(b"\0\xff", max_size=2048) == bytes(2048)
    with pytest.raises(capvet.UnpackError) as error:
        capvet.unpack_words(b"\0\xff", max_size=2047)
    assert error.value.reason == "TooLarge"


def test_errors_can_be_pickled():
    calls = (lambda: capvet.vet(b""), lambda: capvet.vet((TOP / "examples/cycle.bin").read_bytes()),
             lambda: capvet.vet(CAPABILITY).canonical(), lambda: capvet.unpack_words(b"\1"), lambda: capvet.peek(NULL, "/z"))
    for call in calls:
        with pytest.raises(capvet.CapvetError) as error:
            call()
        again = pickle.loads(pickle.dumps(error.value))
        assert (type(again), str(again), vars(again)) == (type(error.value), str(error.value), vars(error.value))
        assert (again, hash(again)) == (error.value, hash(error.value))
        again.reason = "Other"
        assert again != error.value
        again.reason = error.value.reason
        if isinstance(again, capvet.Refusal):
            assert (again.path, again.explain()) == (error.value.path, error.value.explain())
    assert str(capvet.Position(0, 7)) == "0:7"


def test_errors_in_cycles_are_collected():
    """Such an error keeps the variables of the call that raised it, until Python looks for cycles."""
    data, flat = (TOP / "examples/cycle.bin").read_bytes(), capvet.Limits(depth=1)
    for call in (capvet.vet, capvet.vet_prefix, lambda data: capvet.vet_words(data[8:]), lambda data: capvet.vet_all(data[:-1]),
                 lambda data: capvet.is_canonical_words(data[8:]),
                 lambda data: capvet.peek(data, "/p0", limits=flat), lambda data: list(capvet.peek_range(data, "/p*", limits=flat)),
                 lambda data: capvet.frame(data[:-1]), lambda data: list(capvet.messages(data[:-1])),
                 lambda data: list(capvet.read_messages(io.BytesIO(data[:-1]))), lambda data: capvet.vet_segments([data[8:]])):
        with pytest.raises(capvet.CapvetError) as raised:
            call(data)
        raised.value.itself = raised.value
        del raised
        gc.collect()


def declared(text):
    """The calls that a text in C declares, each on one line."""
    text = re.sub(r"/\*.*?\*/|^#.*?$", "", text.replace("\\\n", " "), flags=re.S | re.M)
    calls = re.findall(r"((?:const )?\w+ \*?capvet_\w+\([^()]*\))", text)
    return sorted(re.sub(r"\s+", " ", call) for call in calls)


def test_declarations():
    """The package declares each call of the header, as the header does."""
    header = declared((TOP / "include/capvet.h").read_text())
    text = (Path(__file__).resolve().parents[1] / "capvet_build.py").read_text()
    assert len(header) >= 17 and any("capvet_get_range(" in call for call in header)
    assert declared(re.search(r'^DECLARATIONS = """(.*?)"""', text, re.S | re.M)[1]) == header


def test_mapped_file():
    with open(TOP / "examples/contacts.bin", "rb") as file, mmap.mmap(file.fileno(), 0, access=mmap.ACCESS_READ) as mapped:
        assert capvet.vet(mapped).report == capvet.vet(samples()[0]).report
