"""Streams of messages."""

from __future__ import annotations

import io
from collections import deque
from types import TracebackType
from typing import AsyncIterator, Deque, Iterator, Optional, Type

from .buffers import AsyncReadable, Buffer, Readable
from .frames import PIECE, frames_of
from .message import Verdict
from .reports import DEFAULT, Limits


class MessageReader(Iterator[Verdict]):
    """The iterator that read_messages() returns."""

    def __init__(self, file: Readable, packed: bool, read_ahead: bool, limits: Limits) -> None:
        self._frames, self._ready = frames_of(packed, limits), deque()  # type: ignore[var-annotated]
        if not callable(getattr(file, "read", None)):
            raise TypeError("the file has to have a method read, as binary files and socket.makefile('rb') have")
        if packed and not read_ahead:
            raise ValueError("a packed stream is read ahead: only its bytes say where a message ends")
        # (`read` of a buffered file loses its bytes if the device fails, and `read1` returns nothing of one that is not
        # blocking, as at the end)
        self._peek = getattr(file, "peek", None)
        self._read = file.read if self._peek else getattr(file, "read1", file.read)
        # (`read` of other files may wait until all bytes are there that were asked for)
        has_parts = self._peek is not None or hasattr(file, "read1") or isinstance(file, io.RawIOBase)
        self._least = PIECE if packed or read_ahead and has_parts else 1
        self._is_at_end, self._piece = False, b""

    @property
    def received(self) -> int:
        """How many bytes were read."""
        return self._frames.received

    def __iter__(self) -> MessageReader:
        return self

    def __next__(self) -> Verdict:
        if not self._ready:
            self._receive()
        verdict: Verdict = self._ready.popleft()
        return verdict

    def _receive(self) -> None:
        """Reads until a message is whole."""
        frames = self._frames
        while not (records := frames.find()):
            if frames.is_at_fault or self._is_at_end and frames.is_cut:
                raise frames.fault()
            if self._is_at_end:
                raise StopIteration
            if not self._piece:
                # (in pieces, so that a table that claims much makes no large buffer)
                self._piece = self._some(max(self._least, min(frames.missing, 16 * PIECE)))
                self._is_at_end = not self._piece
            # (which may find no memory, and then the piece is still there)
            frames.add(self._piece)
            self._piece = b""
        self._ready.extend(frames.take(records))

    def _some(self, size: int) -> bytes:
        """At most so many bytes, and none at the end. If this raises, the file has lost none of them.

        So a buffered file reads its device at most once, and before it takes anything from its buffer.
        """
        if self._peek is not None:
            # (`peek` gives nothing at the end, and of a file that is not blocking: then `read` says which)
            size = min(size, len(self._peek(1)) or 1)
        piece: Optional[bytes] = self._read(size)
        if piece is None:
            raise BlockingIOError("the file has no bytes now: call next() again when it has")
        return piece


def read_messages(file: Readable, *, packed: bool = False, read_ahead: bool = True, limits: Limits = DEFAULT) -> MessageReader:
    """Iterate over the messages of a binary file, of gzip.open() or of socket.makefile("rb"), and go on after a refused one.

    Each message is yielded as soon as its last byte has come. The iterator then keeps nothing of it. It holds at most 64 KiB
    of messages that were read with it, and what has come of one more, never more than Limits.message_words allows. Pass read_ahead=False if the file is read by others after a message: then no byte after
    that message is read. A file that has `read`, but neither `read1` nor `peek`, is never read ahead.

    Raises FrameError where the stream ends in the middle of a message or stops being one, and again if it is asked again.

    If `read` raises, for example TimeoutError, the exception passes through and nothing is lost: the next step goes on.
    A file that is not blocking raises BlockingIOError so. (After a timeout socket.makefile() can't be read any more. Use
    MessageFeed with socket.recv there.)
    """
    return MessageReader(file, packed, read_ahead, limits)


class MessageFeed:
    """The messages of a stream whose bytes you receive yourself.

        with capvet.MessageFeed() as feed:
            while data := connection.recv(65536):
                for verdict in feed.feed(data):
                    ...

    The block closes the feed at its end, unless it ends by an exception: so a stream that is cut raises FrameError.

    It holds the bytes that are not yet yielded. They are at most those of one call of feed() and of one message, and
    Limits.message_words bounds the message. Use a feed from one thread at a time.
    """

    def __init__(self, *, packed: bool = False, limits: Limits = DEFAULT) -> None:
        self._frames, self._is_closed = frames_of(packed, limits), False
        self._ready: Deque[Verdict] = deque()

    def __enter__(self) -> MessageFeed:
        return self

    def __exit__(self, kind: Optional[Type[BaseException]], error: Optional[BaseException], trace: Optional[TracebackType]) -> None:
        if kind is None and not self._is_closed:
            self.close()

    @property
    def received(self) -> int:
        """How many bytes were fed."""
        return self._frames.received

    @property
    def missing(self) -> int:
        """How many bytes have to come at least before there is a next message. It is asked after feed() has no more."""
        return self._frames.missing

    def feed(self, data: Buffer) -> Iterator[Verdict]:
        """Add the next bytes of the stream, any number of them, and iterate over the messages that are then complete.

        The call itself copies the bytes. Messages that the iteration does not reach are yielded by that of the next call.

        The iteration raises FrameError where the stream stops being one. It does so again after each later call.
        ValueError is raised after close().
        """
        if self._is_closed:
            raise ValueError("the feed is closed")
        self._frames.add(data)
        return self._complete()

    def _complete(self) -> Iterator[Verdict]:
        frames, ready = self._frames, self._ready
        while True:
            while ready:
                yield ready.popleft()
            records = frames.find()
            if not records:
                break
            ready.extend(frames.take(records))
        if frames.is_at_fault:
            raise frames.fault()

    def close(self) -> None:
        """Say that the stream has ended.

        Raises FrameError if it ends inside a message, or has stopped being a stream of messages. Raises ValueError if the
        last iteration was left before its end: then there are messages that nobody has seen.
        """
        self._is_closed = True
        if self._ready or self._frames.find():
            raise ValueError("the last messages were not read: go through all that feed() yields")
        if self._frames.is_at_fault or self._frames.is_cut:
            raise self._frames.fault()


class AsyncMessageReader(AsyncIterator[Verdict]):
    """The asynchronous iterator that async_read_messages() returns."""

    def __init__(self, reader: AsyncReadable, packed: bool, limits: Limits) -> None:
        if not callable(getattr(reader, "read", None)):
            raise TypeError("the reader has to have a coroutine read, as asyncio.StreamReader has")
        self._read, self._frames, self._is_at_end = reader.read, frames_of(packed, limits), False
        self._ready: Deque[Verdict] = deque()

    @property
    def received(self) -> int:
        """How many bytes were read."""
        return self._frames.received

    def __aiter__(self) -> AsyncMessageReader:
        return self

    async def __anext__(self) -> Verdict:
        frames = self._frames
        while not self._ready:
            if records := frames.find():
                self._ready.extend(frames.take(records))
            elif frames.is_at_fault or self._is_at_end and frames.is_cut:
                raise frames.fault()
            elif self._is_at_end:
                raise StopAsyncIteration
            else:
                piece = await self._read(PIECE)
                self._is_at_end = not piece
                frames.add(piece)
        return self._ready.popleft()


def async_read_messages(reader: AsyncReadable, *, packed: bool = False, limits: Limits = DEFAULT) -> AsyncMessageReader:
    """Iterate asynchronously over the messages of an asyncio.StreamReader, and go on after a refused one.

    Each message is yielded as soon as its last byte has come. The iterator holds at most 64 KiB of messages that came with
    it, and what has come of one more, never more than Limits.message_words allows.

    Raises FrameError where the stream ends in the middle of a message or stops being one, and again if it is asked again.
    If a step is cancelled, for example by asyncio.wait_for(), or if `read` raises, no byte is lost: the next step goes on.
    """
    return AsyncMessageReader(reader, packed, limits)
