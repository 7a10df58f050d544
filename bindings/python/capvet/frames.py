"""Finds the messages in bytes of a stream as they come, plain and packed, and vets each.

Both classes keep what has come of the next messages. `add` takes more bytes. `find` vets the next messages that are whole. Then
`take` returns them, or `drop` goes on without them.
"""

from __future__ import annotations

from typing import List, Union

from ._capvet import ffi, lib
from .buffers import Buffer, pointer_to
from .errors import FrameError, frame_error
from .message import Verdict, Vetter, verdict_of
from .reports import Limits, Record

PIECE = 65536
_ZEROS = memoryview(bytes(1 << 20))
_MORE = (lib.CAPVET_NO_MESSAGE, lib.CAPVET_TRUNCATED)


class _Frames:
    """What both kinds of streams have in common."""

    _LEAST = 1
    """How many bytes a message has at least."""

    def __init__(self, vetter: Vetter) -> None:
        self.number = 0
        """The number of the next message."""
        self.offset = 0
        """The byte of the stream at which the next message starts."""
        self.received = 0
        """How many bytes have come."""
        self.is_at_fault = False
        """Whether the stream has stopped being one, at the next message."""
        self._vetter, self._report, self._answer = vetter, vetter.report, lib.CAPVET_TRUNCATED
        self._data, self._at = bytearray(), 0
        self._required = 0

    @property
    def missing(self) -> int:
        """How many bytes have to come at least before the next message can be found."""
        return max(max(self._required, self._LEAST) - (len(self._data) - self._at), 1)

    def add(self, data: Buffer) -> None:
        """Adds the next bytes of the stream. If this raises, none of them is added."""
        view = memoryview(data)
        if not self.is_at_fault:
            del self._data[:self._at]
            self._at = 0
            self._data += view if view.c_contiguous else view.tobytes()
        self.received += view.nbytes

    def _break(self, answer: int) -> None:
        """Goes no further than the frame that has this answer."""
        self._answer, self.is_at_fault = answer, True

    def fault(self) -> FrameError:
        """Why the stream has stopped being one, or why it may not end here."""
        return frame_error(self._answer, self._report, self.number, self.offset)


class PlainFrames(_Frames):
    """The messages of a plain stream."""

    _LEAST = 8

    def find(self) -> List[Record]:
        """The records of some next messages that are whole. Empty if the next one is not, or if the stream is at fault."""
        length = len(self._data) - self._at
        if self.is_at_fault or not length or length < self._required:
            return []
        with memoryview(self._data) as view:
            records = self._vetter.records(view, self._at, self.offset)
        answer, self._required = self._vetter.answer, 0
        if not records and answer in _MORE:
            self._required = self._report.input_required
        elif not records:
            self._break(answer)
        return records

    @property
    def is_cut(self) -> bool:
        """Whether the stream may not end here. All messages before have been found."""
        return not self.is_at_fault and len(self._data) > self._at

    def drop(self, records: List[Record]) -> None:
        """Goes on after messages that were found."""
        length = sum(record[1] for record in records)
        self._at += length
        self.offset += length
        self.number += len(records)

    def take(self, records: List[Record]) -> List[Verdict]:
        """The messages that were found. Each has bytes of its own. Goes on after them."""
        if len(records) == 1 and len(self._data) - self._at < 2 * records[0][1]:
            taken = [verdict_of(self._split(records[0][1]), self.number, records[0], self._vetter.rules)]
        else:
            # (a slice of bytes takes half the time of a copy of a view)
            with memoryview(self._data) as view:
                data = bytes(view[self._at:self._at + sum(record[1] for record in records)])
            rules, at, taken = self._vetter.rules, 0, []
            for number, record in enumerate(records, self.number):
                end = at + record[1]
                taken.append(verdict_of(memoryview(data[at:end]), number, record, rules))
                at = end
        self.drop(records)
        return taken

    def _split(self, length: int) -> memoryview:
        """The next bytes of the buffer, in place. The rest, which is shorter, is copied to another one."""
        end = self._at + length
        frame, self._data = self._data, self._data[end:]
        del frame[end:]
        del frame[:self._at]
        self._at = -length
        return memoryview(frame).toreadonly()


class PackedFrames(_Frames):
    """The messages of a packed stream. Offsets count packed bytes."""

    def __init__(self, vetter: Vetter) -> None:
        super().__init__(vetter)
        self._report = ffi.new("capvet_report *")
        self._state, self._out = ffi.new("capvet_unpacking *"), bytearray(4096)
        self._consumed, self._size = ffi.new("size_t *"), ffi.new("size_t *")
        self._is_inside, self._gone = False, 0
        self._found: List[Record] = []

    def find(self) -> List[Record]:
        """The record of the next message, if it is whole. Empty if it is not, or if the stream is at fault."""
        while not self._found and not self.is_at_fault and len(self._data) - self._at >= self._required:
            answer = self._unpacked()
            if answer == lib.CAPVET_BUFFER_TOO_SMALL:
                self._grow(self._size[0])
            elif answer in _MORE:
                # (10 bytes at most)
                self._required = max(self._report.input_required, 1) if answer == lib.CAPVET_TRUNCATED else 1
                self._is_inside = answer == lib.CAPVET_TRUNCATED
                break
            elif answer == lib.CAPVET_OK:
                with memoryview(self._out) as out:
                    self._found = self._vetter.records(out[:self._size[0]], 0, self.offset)
            else:
                self._break(answer)
        return self._found

    def _unpacked(self) -> int:
        """Unpacks what has come of the next message."""
        with memoryview(self._data) as data, memoryview(self._out) as out:
            answer: int = lib.capvet_unpack_message(pointer_to(data) + self._at, len(data) - self._at, self._vetter.rules.raw,
                                                    pointer_to(out), len(out), self._state, self._consumed, self._size,
                                                    self._report)
        self._at += self._consumed[0]
        self._gone += self._consumed[0]
        return answer

    def _grow(self, size: int) -> None:
        while len(self._out) < size:
            self._out += _ZEROS[:size - len(self._out)]

    @property
    def is_cut(self) -> bool:
        """Whether the stream may not end here. All messages before have been found."""
        return not self.is_at_fault and not self._found and self._is_inside

    def drop(self, records: List[Record]) -> None:
        """Goes on after the message that was found."""
        self.offset = self._gone
        self.number += len(records)
        self._required, self._is_inside, self._found = 0, False, []

    def take(self, records: List[Record]) -> List[Verdict]:
        """The message that was found, which has bytes of its own. Goes on after it."""
        record, = records
        length = record[1]
        if 2 * length > len(self._out):
            frame, self._out = memoryview(self._out).toreadonly()[:length], bytearray(4096)
        else:
            with memoryview(self._out) as out:
                frame = memoryview(bytes(out[:length]))
        taken = [verdict_of(frame, self.number, record, self._vetter.rules)]
        self.drop(records)
        return taken


Frames = Union[PlainFrames, PackedFrames]


def frames_of(packed: bool, limits: Limits) -> Frames:
    """The messages of a stream of this kind."""
    vetter = Vetter(limits)
    return PackedFrames(vetter) if packed else PlainFrames(vetter)
