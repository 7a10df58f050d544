#!/usr/bin/env python3
"""Fuzz target: the package for Python. hypothesis makes the inputs: those of a corpus, changed by bytes and by words, and made
messages.

    python_fuzz.py CORPUS [SECONDS [SEED]]

Without SECONDS each input of the corpus runs once. An input is 16 bytes of arguments and then a message or a stream: see fuzz.h.
The last line is 'Done N runs'. A broken rule is an AssertionError, with the smallest input that hypothesis finds.

- What is accepted is accepted by just the limits that it needs, and in separate segments.
- Streams give the same messages from a buffer, all at once, from a file, from a coroutine, from a feed, and packed, in pieces of any size.
- `peek_range` and the getters of vetted messages give what `peek` gives.
- The canonical form of a canonical form is the same, and unpacking gives what was packed.
- Each refusal is explained, with its path.
- What is pickled is the same afterwards, and so is the path of a refusal.
- The commands of `python -m capvet` say the same: see python_commands.py.
"""
import array
import ctypes
import dataclasses
import io
import pickle
import random
import re
import struct
import sys
import time
from pathlib import Path

from hypothesis import HealthCheck, Phase, given, seed, settings
from hypothesis import strategies as st

import capvet
import python_commands

ARGUMENTS, MOST = 16, 1 << 14
# The most messages of a stream that are looked at. (a short packed stream may have many)
MESSAGES = 300
runs = 0


def limits_of(data):
    """The limits of an input, and the call that vets it. None if the package refuses the numbers, or has no such call."""
    flags, depth, words, charge = data[0], *struct.unpack_from("<HII", data, 2)
    is_amplified = bool(flags & 4)
    charge = charge - 1 if charge else 8388608
    numbers = dict(depth=depth - 1 if depth else 64, message_words=words - 1 if words else 8388608,
                   charge=min(charge, 1 << 16) if is_amplified else charge)
    calls = {0: capvet.vet, 1: lambda data, limits: capvet.vet_prefix(data, limits=limits)[0], 8: capvet.vet_words}
    try:
        return capvet.Limits(**numbers, allow_nonstrict=bool(flags & 2), allow_amplified=is_amplified), calls[flags & 9]
    except (ValueError, KeyError):
        return None


def result(call, *words, **options):
    """What a call returns, or the exception that says why the message isn't accepted."""
    try:
        return call(*words, **options)
    except (capvet.CapvetError, ValueError) as error:
        return error


def raised(call, *words, **options):
    """The exception about a wrong argument."""
    try:
        return call(*words, **options)
    except (TypeError, ValueError, OverflowError) as error:
        return error


def check_arguments(data, limits, chance):
    """Wrong arguments raise TypeError or ValueError themselves."""
    wrong, kind = chance.choice((
        (lambda: capvet.vet(7, limits=limits), TypeError), (lambda: capvet.vet(data, limits=7), TypeError),
        (lambda: capvet.Limits(depth=True), TypeError), (lambda: capvet.Limits(depth=-1), ValueError),
        (lambda: capvet.Limits(exclusive=1), TypeError), (lambda: capvet.Limits(1, 2), TypeError), (capvet.Message, TypeError),
        (lambda: capvet.peek(data, b"/"), TypeError), (lambda: capvet.peek_range(data, "/p*", first=-1), ValueError),
        (lambda: capvet.peek_range(data, "/p*", count="1"), TypeError), (lambda: capvet.read_messages(data), TypeError),
        (lambda: capvet.frame(data, message_words=-1), ValueError)))
    found = raised(wrong)
    assert isinstance(found, kind) and not isinstance(found, capvet.CapvetError)


def is_error(it):
    return isinstance(it, Exception)


def same(one, other):
    """Whether two results are equal: the same values, messages of the same bytes, or exceptions of the same text."""
    if isinstance(one, capvet.Message) and isinstance(other, capvet.Message):
        return one.data == other.data and one.report == other.report
    return str(one) == str(other) if is_error(one) or is_error(other) else one == other


def check_verdict(data, limits, vet):
    message = result(vet, data, limits=limits)
    exclusive = result(vet, data, limits=dataclasses.replace(limits, exclusive=True))
    assert is_error(exclusive) or same(message, exclusive)
    assert same(message, result(vet, memoryview(bytearray(data)), limits=limits))
    frame = result(capvet.frame, data, message_words=limits.message_words)
    if vet is not capvet.vet_words and not is_error(frame) and not isinstance(message, capvet.FrameError):
        separate = result(capvet.vet_segments, [data[at:at + size] for at, size in frame.segments], limits=limits)
        # (their table has zeros where that of the message may have other padding)
        assert same(separate, message) if is_error(message) else separate.report == message.report
    if is_error(message):
        check_refusal(data, limits, message)
        check_refusal(data, limits, exclusive)
        return message
    tight = dataclasses.replace(limits, message_words=message.report.words, charge=message.report.charge, depth=message.report.depth)
    assert same(message, result(vet, data, limits=tight)) and pickle.loads(pickle.dumps(message)).data == message.data
    assert message.report.length == len(message.data) and message.report.words == sum(map(len, message.segments)) // 8
    if vet is not capvet.vet_words:
        assert frame.length == message.report.length and len(frame.segments) == message.report.segments
    return message


def shown(path):
    """A path as a line has it: of more than 24 steps the first and the last 8."""
    steps = path.split("/")[1:]
    if len(steps) <= 24:
        return path
    return f"/{'/'.join(steps[:8])}/.. {len(steps) - 16} steps ../{'/'.join(steps[-8:])}"


def check_refusal(data, limits, error):
    """The path of a refusal leads to what is refused, and its lines explain it."""
    if not isinstance(error, capvet.Refusal):
        return
    kept = pickle.loads(pickle.dumps(error))
    assert (str(kept), kept.path, kept.unvetted) == (str(error), error.path, error.unvetted) and data.startswith(error.unvetted)
    assert (error.path is None) == (error.pointer is None) == (error.position is None)
    if error.path is not None:
        found = result(capvet.peek, data, error.path, limits=limits)
        # (other reasons than those of a pointer come later)
        assert not isinstance(found, capvet.PathError), error.path
    lines = error.explain()
    assert lines.startswith("  " if error.path is None else f"  path {shown(error.path)}\n") and lines.endswith("\n")
    place = re.search(r"^  byte (\d+) of the message\n  pointer (\w{16}) ", lines, re.M)
    assert place is None or bytes(data[int(place[1]):][:8]).hex() == place[2]
    *before, last = lines.splitlines()
    assert all(line.startswith("  ") and line.isascii() for line in before)
    assert last.startswith(("  reason ", "  first used by ") if error.reason == "Overlap" else "  reason ")


def check_buffers(data, limits):
    """Buffers of other kinds have the same bytes: with gaps, of other items, and of structs."""
    report = result(capvet.vet, data, limits=limits)
    gaps = memoryview(bytes(byte for byte in data for _ in range(2)))[::2]
    assert same(report, result(capvet.vet, gaps, limits=limits))
    if len(data) % 8 == 0 and data:
        swapped = (ctypes.c_uint64.__ctype_be__ * (len(data) // 8)).from_buffer_copy(data)
        for other in (array.array("Q", data), memoryview(data).cast("Q"), memoryview(data).cast("Q", (1, len(data) // 8)),
                      memoryview(swapped).toreadonly()):
            assert same(report, result(capvet.vet, other, limits=limits))


def check_canonical(limits, message):
    if is_error(message):
        return
    first = message.first_difference()
    assert (first is None) == message.is_canonical()
    assert first is None or (first.path is None) == (first.reason in ("Segments", "Trailing"))
    form = result(message.canonical)
    if is_error(form):
        assert isinstance(form, capvet.CapabilityError) and form.report == message.report and not message.is_canonical()
        return
    assert not message.is_canonical() or bytes(message.data).endswith(form)
    assert capvet.is_canonical_words(form, limits=limits)
    words = dataclasses.replace(limits, allow_amplified=True, message_words=max(limits.message_words, len(form) // 8))
    assert capvet.vet_words(form, limits=words).canonical() == form


def seen(messages):
    """The messages of an iterator, and the text of the exception at its end."""
    found = []
    try:
        for it in messages:
            if len(found) == MESSAGES:
                return found, "more"
            data = it.unvetted if is_error(it) else it.data
            if not found:
                kept = pickle.loads(pickle.dumps(it))
                assert (kept.unvetted if is_error(it) else kept.data) == data and type(kept) is type(it)
            found.append((it.number, bytes(data), str(it if is_error(it) else it.report)))
    except capvet.FrameError as error:
        return found, error.reason
    return found, None


class Pieces(io.RawIOBase):
    """A file that gives its bytes in pieces of any size, and sometimes fails once."""

    def __init__(self, data, chance):
        self.data, self.chance, self.has_failed = data, chance, False

    def readable(self):
        return True

    def readinto(self, buffer):
        if not self.has_failed and self.chance.randrange(4) == 0:
            self.has_failed = True
            if self.chance.randrange(2) == 0:
                # (a file that is not blocking)
                return None
            raise TimeoutError
        self.has_failed = False
        count = min(len(buffer), len(self.data), self.chance.choice((1, 7, 8, 50, MOST)))
        buffer[:count], self.data = self.data[:count], self.data[count:]
        return count


def again(reader):
    """The items of a reader that is asked again after a timeout."""
    while True:
        try:
            yield next(reader)
        except (TimeoutError, BlockingIOError):
            continue
        except StopIteration:
            return


def fed(data, chance, **options):
    """The messages of a feed, by pieces, and what `close` says."""
    feed, at, number = capvet.MessageFeed(**options), 0, 0
    while at < len(data):
        size = chance.choice((1, 7, 8, 50, MOST))
        for it in feed.feed(data[at:at + size]):
            assert it.number == number
            number += 1
            yield it
        at += size
        assert feed.received == min(at, len(data)) and feed.missing > 0
    try:
        feed.close()
    finally:
        assert isinstance(raised(feed.feed, data), ValueError)


def check_streams(data, limits, chance):
    options = dict(limits=dataclasses.replace(limits, exclusive=chance.randrange(2) == 0))
    expected = seen(capvet.messages(data, **options))
    at_once = result(capvet.vet_all, data, **options)
    assert is_error(at_once) == (expected[1] not in (None, "more")) or expected[1] == "more"
    assert is_error(at_once) or seen(at_once) == expected
    assert expected == seen(received(Pieces(data, chance), **options))
    assert expected == seen(again(capvet.read_messages(Pieces(data, chance), read_ahead=chance.randrange(2) == 0, **options)))
    assert expected == seen(again(capvet.read_messages(io.BufferedReader(Pieces(data, chance), 16), **options)))
    assert expected == seen(fed(data, chance, **options))
    left = capvet.MessageFeed(**options)
    left.feed(data)
    assert not expected[0] or "were not read" in str(raised(left.close))
    # (any bytes as a packed stream, and this stream packed)
    for packed in (data, capvet.pack_words(data[:len(data) // 8 * 8])):
        one = seen(capvet.read_messages(io.BytesIO(packed), packed=True, **options))
        assert one == seen(again(capvet.read_messages(Pieces(packed, chance), packed=True, **options)))
        assert one == seen(fed(packed, chance, packed=True, **options))
    # (of a part of a word nothing is packed, so then the end may be another one)
    assert one[0] == expected[0] and (one[1] == expected[1] or len(data) % 8 > 0)


def received(file, **options):
    """The messages of a coroutine that reads a file."""
    class Reader:
        async def read(self, size):
            while True:
                try:
                    if (piece := file.read(size)) is not None:
                        return piece
                except TimeoutError:
                    pass

    messages = capvet.async_read_messages(Reader(), **options)
    while True:
        try:
            # (no step waits)
            messages.__anext__().send(None)
        except StopIteration as step:
            yield step.value
        except StopAsyncIteration:
            return


def check_nodes(data, limits, chance, message):
    path = ""
    for _ in range(5):
        found = result(capvet.peek, data, path or "/", limits=limits)
        assert is_error(message) or not is_error(found) and same(found, message.get(path or "/"))
        if is_error(found) or found is None:
            return
        assert found.offset + len(found.data) <= len(data)
        assert pickle.loads(pickle.dumps(found)) == found and (found.text() is None or found.text().encode() + b"\0" == found.data)
        beyond = capvet.peek_range(data, f"{path}/p{found.pointers}/i*", limits=limits)
        assert found.kind != "struct" or result(list, beyond) == []
        letter = "p" if found.kind == "struct" else "i"
        first, rest = chance.randrange(3), chance.choice(("", "", "/p0", "/i1"))
        iterator = result(capvet.peek_range, data, f"{path}/{letter}*{rest}", first=first, count=chance.choice((5, None)), limits=limits)
        for number, node in enumerate(iterator, first):
            one = result(capvet.peek, data, f"{path}/{letter}{number}{rest}", limits=limits)
            assert same(one, node)
            if number > 600:
                break
        path += f"/{letter}{chance.randrange(6)}"


def check_nodes_or_refusal(data, limits, chance, message, vet):
    # (`peek` takes a message with its table and nothing after it)
    if not is_error(message):
        data = framed(data) if vet is capvet.vet_words else bytes(message.data)
        message = capvet.vet(data, limits=limits)
    try:
        check_nodes(data, limits, chance, message)
    except capvet.CapvetError as error:
        assert is_error(message), error
    text = data[:chance.randrange(12)].decode("latin-1") + chance.choice(("", "/p0", "/i*", "*/p1"))
    for call in (capvet.peek, capvet.peek_range):
        found = result(call, data, text, limits=limits)
        assert not isinstance(found, capvet.PathError) or found.position <= len(text.encode())


def framed(words):
    """The message of one segment of these words."""
    return struct.pack("<II", 0, len(words) // 8) + words


def check_packing(data, limits):
    words = data[:len(data) // 8 * 8]
    assert capvet.unpack_words(capvet.pack_words(words)) == words
    for wrong in ("8", None, 1.5):
        assert isinstance(raised(capvet.unpack_words, data, max_size=wrong), TypeError)
    if words != data:
        assert is_error(result(capvet.pack_words, data))
    unpacked = result(capvet.unpack_words, data, max_size=MOST)
    assert is_error(unpacked) or (len(unpacked) <= MOST and capvet.unpack_words(capvet.pack_words(unpacked)) == unpacked)
    message = result(capvet.pack_message, data, message_words=limits.message_words)
    if not is_error(message):
        frame = capvet.frame(data, message_words=limits.message_words)
        assert len(capvet.unpack_words(message)) == frame.length


def check(data):
    """The rules for one input."""
    global runs
    runs += 1
    if len(data) < ARGUMENTS or len(data) > 1 << 16:
        return
    found, chance, data = limits_of(data), random.Random(data[12:ARGUMENTS]), data[ARGUMENTS:]
    if found is None:
        return
    limits, vet = found
    message = check_verdict(data, limits, vet)
    check_canonical(limits, message)
    check_streams(data, limits, chance)
    check_nodes_or_refusal(data, limits, chance, message, vet)
    check_packing(data, limits)
    check_buffers(data, limits)
    check_arguments(data, limits, chance)
    python_commands.check(data, limits, chance)


WORDS = st.one_of(st.just(0), st.integers(0, 2**64 - 1), st.builds(
    lambda kind, ahead, low, high: (kind | ahead << 2) & 0xFFFFFFFF | low << 32 | high << 48, st.integers(0, 3), st.integers(-3, 8),
    st.integers(0, 9), st.integers(0, 3)))
ARGUED = st.one_of(st.just(bytes(12)), st.builds(
    lambda flags, depth, words, charge: struct.pack("<BBHII", flags, 0, depth, words, charge), st.integers(0, 15),
    st.integers(0, 300), st.integers(0, 60), st.integers(0, 90)))


@st.composite
def inputs(draw, corpus):
    """Inputs of the corpus with changed words and bytes, or made messages, sometimes several."""
    data = draw(st.sampled_from(corpus))[ARGUMENTS:] if draw(st.integers(0, 3)) else b""
    data = bytearray(data)
    for place, word in draw(st.lists(st.tuples(st.integers(0, 400), WORDS), max_size=4)):
        if len(data) >= 8:
            at = place * 8 % (len(data) // 8 * 8)
            data[at:at + 8] = struct.pack("<Q", word)
    for words in draw(st.lists(st.lists(WORDS, max_size=8), max_size=2)):
        data += struct.pack(f"<II{len(words)}Q", 0, len(words), *words)
    end = draw(st.integers(0, 30))
    data = data[:len(data) - end % 9] if end < 9 else data
    return draw(ARGUED) + draw(st.integers(0, 2**32 - 1)).to_bytes(4, "little") + bytes(data)


def search(corpus, seconds, number):
    """Makes inputs until the time is over. The seed 0 is another one each time."""
    small = [data for data in corpus if len(data) < 1000]
    end, number = time.monotonic() + seconds, number or random.SystemRandom().randrange(2**32)
    phases = (Phase.generate, Phase.shrink)
    while time.monotonic() < end:
        number += 1
        made = given(inputs(small))(check)
        made = settings(max_examples=200, deadline=None, database=None, phases=phases, suppress_health_check=list(HealthCheck))(made)
        seed(number)(made)()


def main(folder, seconds=0, number=0):
    corpus = [path.read_bytes() for path in sorted(Path(folder).iterdir())]
    for data in corpus:
        check(data)
    if float(seconds) > 0:
        search(corpus, float(seconds), int(number))
    print(f"Done {runs} runs")


if __name__ == "__main__":
    main(*sys.argv[1:])
