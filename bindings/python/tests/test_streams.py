"""Streams that arrive in pieces, plain and packed."""
import array
import asyncio
import io
import pickle
import socket
import tracemalloc

import pytest

import capvet
from support import LAX, bytes_of, framed, lines, many, program, samples

CYCLE = b"\0\0\0\0\1\0\0\0\xfc\xff\xff\xff\0\0\1\0"


class Pieces(io.RawIOBase):
    """A file whose reads give at most some bytes each, and that counts what was read."""

    def __init__(self, data, most):
        self.data, self.most, self.at = data, most, 0

    def readable(self):
        return True

    def readinto(self, buffer):
        piece = self.data[self.at:self.at + min(self.most, len(buffer))]
        buffer[:len(piece)] = piece
        self.at += len(piece)
        return len(piece)


@pytest.mark.parametrize("most", [1, 3, 7, 64, 100_000])
def test_pieces(most):
    data = b"".join(samples() + many(50))
    text = program("vet", data=data)[0]
    file = Pieces(data, most)
    for message in capvet.read_messages(file, limits=LAX, read_ahead=False):
        # (no byte after a message is read before the next one is asked for)
        assert file.at == message.offset + len(bytes_of(message))
    assert lines(capvet.read_messages(Pieces(data, most), limits=LAX)) == (text, None)
    packed = program("pack", data=data)[0]
    assert lines(capvet.read_messages(Pieces(packed, most), packed=True, limits=LAX)) == (text, None)


def test_packed_and_cut():
    data = b"".join(capvet.pack_message(message) for message in samples()[-3:])
    for end in range(len(data)):
        text, error, status = program("vet", "--packed", data=data[:end])
        got = lines(capvet.read_messages(io.BytesIO(data[:end]), packed=True, limits=LAX))
        assert got == (text, "Truncated" if "Truncated" in error else None)


class Received:
    """What a socket receives, as a file that can be read again after a timeout."""

    def __init__(self, connection):
        self.read = connection.recv


MADE = {"buffered": lambda here: here.makefile("rb"), "unbuffered": lambda here: here.makefile("rb", buffering=0),
        "received": Received}


@pytest.mark.parametrize("packed", [False, True], ids=["plain", "packed"])
@pytest.mark.parametrize("make", MADE.values(), ids=MADE)
def test_a_message_is_yielded_before_the_next_one_arrives(make, packed):
    frames = samples()[:2]
    first, second = map(capvet.pack_message, frames) if packed else frames
    here, there = socket.socketpair()
    with here, there:
        stream = capvet.read_messages(make(here), packed=packed)
        there.sendall(first + second[:len(second) // 2])
        assert bytes_of(next(stream)) == frames[0]
        there.sendall(second[len(second) // 2:])
        assert bytes_of(next(stream)) == frames[1]
        there.sendall(second[:20])
        there.shutdown(socket.SHUT_WR)
        for _ in range(3):
            with pytest.raises(capvet.FrameError) as error:
                next(stream)
            assert (error.value.reason, error.value.offset) == ("Truncated", len(first + second))


@pytest.mark.parametrize("packed", [False, True], ids=["plain", "packed"])
def test_a_timeout_loses_nothing(packed):
    frames = samples()[:2]
    data = b"".join(map(capvet.pack_message, frames) if packed else frames)
    here, there = socket.socketpair()
    with here, there:
        here.settimeout(0.001)
        stream, got = capvet.read_messages(Received(here), packed=packed), []
        for at in range(0, len(data), 500):
            there.sendall(data[at:at + 500])
            with pytest.raises(TimeoutError):
                while True:
                    got.append(bytes_of(next(stream)))
        assert got == frames
        there.close()
        for _ in range(2):
            with pytest.raises(StopIteration):
                next(stream)


@pytest.mark.parametrize("packed", [False, True], ids=["plain", "packed"])
@pytest.mark.parametrize("buffering", [0, -1, 8])
def test_a_file_that_is_not_blocking(packed, buffering):
    frames = samples()[:2]
    data = b"".join(map(capvet.pack_message, frames) if packed else frames)
    here, there = socket.socketpair()
    with here, there:
        here.setblocking(False)
        stream, got = capvet.read_messages(here.makefile("rb", buffering=buffering), packed=packed), []
        for at in range(0, len(data), 500):
            there.sendall(data[at:at + 500])
            with pytest.raises(BlockingIOError):
                while True:
                    got.append(bytes_of(next(stream)))
        assert got == frames
        there.close()
        assert list(stream) == []


class Failing(io.RawIOBase):
    """A file whose every third read fails. The others give some bytes."""

    def __init__(self, data, most):
        self.data, self.most, self.at, self.count = data, most, 0, 0

    def readable(self):
        return True

    def readinto(self, buffer):
        self.count += 1
        if self.count % 3 == 1:
            raise InterruptedError
        piece = self.data[self.at:self.at + min(self.most, len(buffer))]
        buffer[:len(piece)] = piece
        self.at += len(piece)
        return len(piece)


def again_and_again(stream):
    """What a stream yields, where a step that fails is taken again."""
    while True:
        try:
            message = next(stream, None)
        except OSError:
            continue
        if message is None:
            return
        yield message


@pytest.mark.parametrize("most", [1, 7, 64])
@pytest.mark.parametrize("buffered", [False, True])
def test_a_read_that_raises_loses_nothing(most, buffered):
    data = b"".join(many(50))
    text = program("vet", data=data)[0]
    for packed, stream in ((False, data), (True, program("pack", data=data)[0])):
        file = io.BufferedReader(Failing(stream, most)) if buffered else Failing(stream, most)
        assert lines(again_and_again(capvet.read_messages(file, packed=packed, limits=LAX))) == (text, None)
        cut = io.BufferedReader(Failing(stream[:-3], most))
        assert lines(again_and_again(capvet.read_messages(cut, packed=packed, limits=LAX)))[1] == "Truncated"


def fed(data, most, packed=False):
    """The messages of a feed that gets pieces of some bytes."""
    feed = capvet.MessageFeed(packed=packed, limits=LAX)
    for at in range(0, len(data), most):
        yield from feed.feed(data[at:at + most])
    assert feed.received == len(data)
    feed.close()


@pytest.mark.parametrize("most", [1, 3, 7, 64, 1000, 1 << 30])
def test_feed(most):
    data = b"".join(samples() + many(50))
    text, packed = program("vet", data=data)[0], program("pack", data=data)[0]
    assert lines(fed(data, most)) == lines(fed(packed, most, packed=True)) == (text, None)
    assert b"".join(bytes_of(it) for it in fed(data, most)) == b"".join(bytes_of(it) for it in fed(packed, most, True)) == data
    starts = [it.offset for it in capvet.messages(data, limits=LAX)]
    assert [it.offset for it in fed(data, most)] == starts


def test_feed_of_cut_streams():
    stream = b"".join(samples()[-3:])
    packed = b"".join(map(capvet.pack_message, samples()[-3:]))
    for data, is_packed in ((stream, False), (packed, True)):
        for end in range(len(data)):
            # (which test_cut and test_packed_and_cut compare with the program)
            expected = lines(capvet.read_messages(io.BytesIO(data[:end]), packed=is_packed, limits=LAX))
            assert lines(fed(data[:end], 100, is_packed)) == expected


def test_feed_yields_a_message_with_its_last_byte():
    for packed in (False, True):
        feed, sizes = capvet.MessageFeed(packed=packed), []
        for message in samples()[-3:]:
            data = capvet.pack_message(message) if packed else message
            for at, byte in enumerate(data):
                missing = feed.missing
                assert 0 < missing <= len(data) - at
                found = list(feed.feed(bytes([byte])))
                assert [bytes_of(it) for it in found] == [message] * (at == len(data) - 1)
                sizes.append(missing)
        assert max(sizes) > (2 if packed else 16)
        feed.close()


def test_feed_that_is_not_read():
    first, second = samples()[-2:]
    feed = capvet.MessageFeed()
    feed.feed(first + second[:-1])
    assert next(feed.feed(second[-1:])).number == 0
    # (the second message waits)
    with pytest.raises(ValueError) as error:
        feed.close()
    assert not isinstance(error.value, capvet.CapvetError)
    with pytest.raises(ValueError):
        feed.feed(b"")
    feed = capvet.MessageFeed()
    feed.feed(first)
    assert [it.number for it in feed.feed(second)] == [0, 1]
    feed.close()


@pytest.mark.parametrize("packed", [False, True], ids=["plain", "packed"])
def test_a_stream_that_stops_being_one(packed):
    good, bad = samples()[-1], b"\0\0\0\0\1\0\x80\0"
    data = capvet.pack_message(good) + capvet.pack_words(bad) if packed else good + bad
    at = len(data) - len(capvet.pack_words(bad) if packed else bad)
    reader, feed = capvet.read_messages(io.BytesIO(data), packed=packed), capvet.MessageFeed(packed=packed)
    assert next(reader).offset == next(feed.feed(data)).offset == 0
    for _ in range(3):
        for step in (lambda: next(reader), lambda: next(feed.feed(bytes(1000))), feed._complete().__next__):
            with pytest.raises(capvet.FrameError) as error:
                step()
            assert (error.value.reason, error.value.number, error.value.offset, error.value.words) == ("TooLarge", 1, at, 8388609)
    with pytest.raises(capvet.FrameError):
        feed.close()


def test_feed_of_buffers_of_all_kinds():
    message = samples()[0]
    with_gaps = bytearray(2 * len(message))
    with_gaps[::2] = message
    for data in (message, bytearray(message), array.array("Q", message), memoryview(message).cast("H"), memoryview(with_gaps)[::2]):
        assert [bytes_of(it) for it in capvet.MessageFeed().feed(data)] == [message]
    with pytest.raises(TypeError):
        capvet.MessageFeed().feed("text")


def test_asyncio():
    async def verdicts(data):
        reader, feed, found = asyncio.StreamReader(), capvet.MessageFeed(packed=True), []

        async def send():
            for at in range(0, len(data), 100):
                reader.feed_data(data[at:at + 100])
                await asyncio.sleep(0)
            reader.feed_eof()

        sending = asyncio.create_task(send())
        while piece := await reader.read(1000):
            found += [bytes_of(message) for message in feed.feed(piece)]
        feed.close()
        await sending
        return found

    assert asyncio.run(verdicts(b"".join(map(capvet.pack_message, samples())))) == samples()


@pytest.mark.parametrize("packed", [False, True], ids=["plain", "packed"])
def test_one_message_is_held(packed):
    size = 4 << 20
    # (a list of bytes, none of which is zero)
    message = framed(1 | 2 << 32 | size << 35, *[0x0101010101010101] * (size // 8))
    data = (capvet.pack_message(message) if packed else message) * 3
    stream = capvet.read_messages(io.BytesIO(data), packed=packed)
    tracemalloc.start()
    for _ in range(3):
        # (the message is dropped before the next one is read)
        next(stream)
    most = tracemalloc.get_traced_memory()[1]
    tracemalloc.stop()
    assert most < 1.6 * size


def test_messages_can_be_pickled():
    for message in capvet.messages(CYCLE + samples()[0]):
        again = pickle.loads(pickle.dumps(message))
        assert type(again) is type(message) and bytes_of(again) == bytes_of(message) and lines([again]) == lines([message])
        assert (again.number, again.offset) == (message.number, message.offset)
        assert (again, hash(again), {again: 1}) == (message, hash(message), {message: 1})
    assert again.report == message.report
    node = capvet.peek(samples()[0], "/p0/i1/p0")
    assert pickle.loads(pickle.dumps(node)) == node


def test_messages_are_values():
    """They are equal if their bytes, limits, numbers and offsets are, and else not."""
    first, sample, deeper = CYCLE + samples()[0], samples()[0], capvet.Limits(depth=65)
    for one, other in zip(capvet.messages(first), capvet.messages(first)):
        assert one == other and one is not other and one != str(one)
    one, other = capvet.vet(sample), next(capvet.messages(sample[:-1] + b"\1"))
    assert one not in (None, other, capvet.vet(sample, limits=deeper), [*capvet.messages(first)][1], capvet.vet_words(sample[8:]))
    assert one in (other, capvet.vet(sample)) and len({one, other, capvet.vet(sample)}) == 2
    refusals = [[*capvet.messages(data, limits=limits)][-1] for data, limits in (
        (CYCLE, capvet.Limits()), (CYCLE, deeper), (samples()[1] + CYCLE, capvet.Limits()), (framed(0xFFFFFFFC | 1 << 48, 1), capvet.Limits()))]
    assert all(isinstance(it, capvet.Refusal) for it in refusals)
    assert [[one == other for other in refusals] for one in refusals] == [[row == column for column in range(4)] for row in range(4)]


def test_bytes_of_a_refused_message_are_unvetted():
    first, second = capvet.messages(CYCLE + samples()[0])
    assert (bytes(first.unvetted), first.reason, first.number, first.offset, first.length) == (CYCLE, "DepthLimit", 0, 0, 16)
    assert isinstance(first, capvet.Refusal) and not hasattr(first, "data") and first.path == "/" + "p0/" * 63 + "p0"
    assert isinstance(second, capvet.Message) and not hasattr(second, "unvetted") and (second.number, second.offset) == (1, 16)
    with pytest.raises(capvet.Refusal) as error:
        raise first
    assert error.value is first


def test_claims_make_no_large_buffer():
    tracemalloc.start()
    for data, packed in ((b"\0\0\0\0\0\0\x80\0" + bytes(100), False), (b"\x40\x80" + b"\1\1" * 10, True)):
        with pytest.raises(capvet.FrameError):
            list(capvet.read_messages(io.BytesIO(data), packed=packed))
    most = tracemalloc.get_traced_memory()[1]
    tracemalloc.stop()
    assert most < 4 << 20


def test_a_feed_that_closes_itself():
    message = samples()[-1]
    with capvet.MessageFeed() as feed:
        assert [it.number for it in feed.feed(message * 2)] == [0, 1]
    with pytest.raises(ValueError):
        feed.feed(b"")
    with pytest.raises(capvet.FrameError) as error, capvet.MessageFeed() as feed:
        list(feed.feed(message + message[:-1]))
    assert (error.value.reason, error.value.number, error.value.offset) == ("Truncated", 1, len(message))
    with pytest.raises(ValueError) as error, capvet.MessageFeed() as feed:
        feed.feed(message)
    assert "were not read" in str(error.value)
    # (another exception stays the one that is raised)
    with pytest.raises(KeyError), capvet.MessageFeed() as feed:
        feed.feed(message)
        raise KeyError
    with capvet.MessageFeed() as feed:
        list(feed.feed(message))
        feed.close()


class Counted:
    """A file of the kind that has `read` alone. It counts what was asked for."""

    def __init__(self, data):
        self.file, self.sizes = io.BytesIO(data), []

    def read(self, size):
        self.sizes.append(size)
        return self.file.read(size)


def test_what_is_read_ahead():
    message = samples()[-1]
    for file, most in ((io.BytesIO(message * 1000), 65536), (io.BufferedReader(Pieces(message * 1000, 65536)), 8192),
                       (Pieces(message * 1000, 65536), 65536)):
        reader = capvet.read_messages(file)
        assert next(reader).number == 0 and reader.received == min(most, 1000 * len(message)) and len(list(reader)) == 999
    for file in (io.BytesIO(message * 3), io.BufferedReader(Pieces(message * 3, 65536)), Pieces(message * 3, 65536)):
        assert next(capvet.read_messages(file, read_ahead=False)).number == 0
        assert file.read() == message * 2
    # (a file that may wait for all bytes that it was asked for)
    file = Counted(message * 2)
    for number, message in enumerate(capvet.read_messages(file)):
        assert sum(file.sizes) == message.offset + len(message.data) and number < 2
    with pytest.raises(ValueError):
        capvet.read_messages(io.BytesIO(b""), packed=True, read_ahead=False)
