"""Messages that were vetted, and the calls that vet."""

from __future__ import annotations

import struct
from typing import Any, Callable, Iterator, List, Optional, Sequence, Tuple, TypeVar, Union, overload

from ._capvet import ffi, lib
from .buffers import Buffer, pointer_to, read_only, uncleared
from .difference import Difference, first_difference
from .errors import CapabilityError, Refusal, frame_error, is_about_frame, name_of, refusal
from .nodes import Node, Source, get, get_range
from .reports import (ANSWER, DEFAULT, LARGEST, PREFIX, RECORD, WORDS, Limits, Position, Record, Report, Rules, report_of,
                      rules_of, rules_of_copies)

T = TypeVar("T")

BLOCK = 64
"""How many messages one call of the library vets."""
BLOCK_BYTES = 1 << 16
"""After so many bytes the call ends too, so that a large message is yielded before the next one is vetted."""


class Message:
    """A message that was vetted. Only vet() and the like make one, so a function that takes it needs no other check.

    It never changes. It can be pickled, with a copy of its bytes, and is vetted again where it is unpickled. Two are equal if
    their bytes, limits, numbers and offsets are.
    """

    __slots__ = ("_frame", "_number", "_record", "_rules")
    _frame: memoryview
    """With a table, also if the message came without one."""
    _number: int
    _record: Record
    _rules: Rules

    def __init__(self) -> None:
        raise TypeError("only vet() and the like make a message")

    def __init_subclass__(cls) -> None:
        raise TypeError("Message has no subclasses")

    @property
    def data(self) -> memoryview:
        """The bytes of the message, which nobody can write through this view: a frame, or the words of vet_words()."""
        return self._frame[8:] if self._rules.form == WORDS else self._frame

    @property
    def report(self) -> Report:
        """What is known of the message."""
        return report_of(self._record)

    @property
    def number(self) -> int:
        """The number of the message in its buffer or stream, from 0."""
        return self._number

    @property
    def offset(self) -> int:
        """Where the message starts in its buffer or stream, in bytes as they came (packed bytes if the stream is packed)."""
        return self._record[0]

    @property
    def segments(self) -> Tuple[memoryview, ...]:
        """The bytes of each segment, in place."""
        count = struct.unpack_from("<I", self._frame)[0] + 1
        segments, at = [], 8 * (count // 2 + 1)
        for words in struct.unpack_from(f"<{count}I", self._frame, 4):
            segments.append(self._frame[at:at + 8 * words])
            at += 8 * words
        return tuple(segments)

    def read_with(self, from_bytes: Callable[..., T], *, readings: int = 1) -> T:
        """What a reader makes of the message: Message.read_with(Book.from_bytes) for a type of pycapnp.

        from_bytes() is called with the bytes, and with the limits of Report.reader_options() by name.
        """
        return from_bytes(self.data, **self.report.reader_options(readings))

    def get(self, path: str) -> Optional[Node]:
        """The node at a path such as "/p0/i1/p2", or None if the path leads to nothing.

        "/" is the root. /p steps from a struct to one of its pointers, /i from a list of pointers or structs to an element.
        A node whose kind is "null" means the field's default. None does only if each node before it on the path is of the
        kind that the schema has: readers also take lists of other kinds, so check the kind of each list first.

        Raises PathError.
        """
        return get(self._source(), path)

    def get_range(self, path: str, *, first: int = 0, count: Optional[int] = None) -> Iterator[Optional[Node]]:
        """Iterate over the nodes at a path with one `*`, such as "/p0/i*/p2": here pointer 2 of each element of a list.

        The star is the number of an element or of a pointer. It is replaced by `first`, `first` + 1, and so on, to the end
        of the list or of the struct's pointers, but at most `count` times. Each result is that of get() for its path. So it
        is None where the path leads to nothing, for example below a null element, and enumerate() and zip() keep the
        numbers. Nothing is yielded if there is no such list or struct. Neither means a default before you have checked the
        kind of the list: see get().

        PathError, and ValueError for `first` or `count`, are raised by this call.
        """
        return get_range(self._source(), path, first, count)

    def _source(self) -> Source:
        return Source(self._frame, LARGEST, True, 8 if self._rules.form == WORDS else 0)

    def canonical(self) -> bytes:
        """The canonical words of the message, without a table: equal content gives equal bytes. To hash or to sign.

        Raises CapabilityError.
        """
        report, required, size = ffi.new("capvet_report *"), ffi.new("size_t *"), 8 * (self.report.charge + 1)
        out = uncleared("uint8_t[]", size)
        answer = lib.capvet_canonical(pointer_to(self._frame), len(self._frame), LARGEST.raw, out, size, required, report)
        if answer == lib.CAPVET_HAS_CAPABILITY:
            text = f"HasCapability at {report.segment}:{report.word}"
            raise CapabilityError(text, answer=answer, reason=name_of(answer), report=self.report)
        if answer != lib.CAPVET_OK:
            raise RuntimeError("the bytes have changed after they were vetted")
        return bytes(ffi.buffer(out, required[0]))

    def is_canonical(self) -> bool:
        """Whether the message is its own canonical form. A message with a capability is not."""
        report = ffi.new("capvet_report *")
        answer = lib.capvet_check_canonical(pointer_to(self._frame), len(self._frame), LARGEST.raw, report)
        return bool(answer == lib.CAPVET_OK)

    def first_difference(self) -> Optional[Difference]:
        """Why the message is not its own canonical form, or None if it is.

        It takes the time of is_canonical(), and for a message that is not canonical two more walks up to the pointer.
        """
        return first_difference(self._frame)

    def __repr__(self) -> str:
        return f"<capvet.Message number={self.number} offset={self.offset} {self.report}>"

    def __eq__(self, other: object) -> bool:
        if not isinstance(other, Message):
            return NotImplemented
        return self is other or (self._number, self._record, self._rules) == (other._number, other._record, other._rules) and (
            self._frame == other._frame)

    def __hash__(self) -> int:
        return hash((self._number, self._record))

    def __copy__(self) -> Message:
        return self

    def __deepcopy__(self, _: object) -> Message:
        return self

    def __reduce__(self) -> Tuple[Any, ...]:
        return _message_again, (bytes(self.data), self._rules, self._number, self.offset)


Verdict = Union[Message, Refusal]
"""What a stream yields: a vetted message, or why it is refused. `isinstance(it, capvet.Message)` says which."""

_new = object.__new__


def message_of(frame: memoryview, number: int, record: Record, rules: Rules) -> Message:
    """The message of an accepted frame."""
    message = _new(Message)
    message._frame = frame
    message._number = number
    message._record = record
    message._rules = rules
    return message


def refusal_of(unvetted: memoryview, number: int, record: Record, rules: Rules) -> Refusal:
    """The refusal of a frame."""
    offset, _, _, pointers, _, _, _, segment, word, answer, _ = record
    return refusal(answer, Position(segment, word), pointers, unvetted, rules, number, offset)


def verdict_of(frame: memoryview, number: int, record: Record, rules: Rules) -> Verdict:
    """The message of a frame, or its refusal."""
    if record[9]:
        return refusal_of(frame, number, record, rules)
    message = _new(Message)
    message._frame = frame
    message._number = number
    message._record = record
    message._rules = rules
    return message


def _message_again(data: bytes, rules: Rules, number: int, offset: int) -> Message:
    """A message that was pickled."""
    message = _vetted(memoryview(data), rules)
    return message_of(message._frame, number, (offset, *message._record[1:]), rules)


class Vetter:
    """Vets the messages of buffers, one after the other."""

    def __init__(self, limits: Limits) -> None:
        self.rules, self._marks = rules_of(limits, PREFIX), ffi.NULL
        self._run, self._block = ffi.new("capvet_python_run *"), uncleared("capvet_python_record[]", BLOCK)

    @property
    def answer(self) -> int:
        """What the library answered last."""
        answer: int = self._run.answer
        return answer

    @property
    def report(self) -> Any:
        """What the library reported last."""
        return self._run.report

    @property
    def accepted(self) -> int:
        """How many messages of the last block are accepted."""
        accepted: int = self._run.accepted
        return accepted

    @property
    def end(self) -> int:
        """The byte of the buffer after the messages of the last block."""
        end: int = self._run.end
        return end

    def block(self, view: memoryview, start: int, offset: int) -> memoryview:
        """The records of the next messages from a byte of a buffer on, until other ones are asked for.

        There are none if the next message is not whole, or is none: `answer` says which. `offset` is where the first of
        them starts in the stream.
        """
        run = self._run
        self._marks = vetted_by_library(view, start, self.rules, self._marks, offset, self._block, BLOCK, run)
        return memoryview(ffi.buffer(self._block, RECORD.size * run.found))

    def records(self, view: memoryview, start: int, offset: int) -> List[Record]:
        """The same, as a list."""
        return list(RECORD.iter_unpack(self.block(view, start, offset)))  # type: ignore[arg-type]


def vetted_by_library(view: memoryview, start: int, rules: Rules, marks: Any, offset: int, block: Any, count: int, run: Any) -> Any:
    """Vets some messages. Returns the marks, which are others if they had to be more."""
    bytes_of, is_exclusive = ffi.from_buffer, rules.limits.exclusive
    while True:
        lib.capvet_python_vet(bytes_of("uint8_t[]", view), len(view), start, BLOCK_BYTES, rules.raw, is_exclusive, marks, offset,
                              block, count, run)
        if run.found or run.answer != lib.CAPVET_BUFFER_TOO_SMALL:
            return marks
        marks = uncleared("uint64_t[]", run.required)
        run.marks = run.required


def _vetted(view: memoryview, rules: Rules) -> Message:
    """The one message of a buffer. Raises FrameError or Refusal."""
    run = ffi.new("capvet_python_run *")
    vetted_by_library(view, 0, rules, ffi.NULL, 0, ffi.NULL, 1, run)
    if not run.found:
        raise frame_error(run.answer, run.report)
    record: Record = RECORD.unpack(ffi.buffer(run, RECORD.size))  # type: ignore[assignment]
    frame = view[:record[1]] if rules.form == PREFIX else view
    if record[ANSWER]:
        raise refusal_of(frame, 0, record, rules)
    return message_of(framed([view]) if rules.form == WORDS else frame, 0, record, rules)


def framed(views: Sequence[memoryview]) -> memoryview:
    """The frame of these segments."""
    table = struct.pack(f"<{len(views) + 1}I", len(views) - 1, *(len(view) // 8 for view in views))
    return memoryview(b"".join((table.ljust((len(table) + 7) // 8 * 8, b"\0"), *views)))


def vet(data: Buffer, *, limits: Limits = DEFAULT) -> Message:
    """Check that `data` are one message that is safe to traverse, and nothing else.

    Raises FrameError or Refusal if they are not. The work is bounded by the length of the data, unless
    Limits.allow_amplified is set: then Limits.charge bounds it.
    """
    return _vetted(read_only(data), rules_of(limits))


def vet_prefix(data: Buffer, *, limits: Limits = DEFAULT) -> Tuple[Message, memoryview]:
    """Check the message that `data` start with, and return it and the bytes after it.

    Raises FrameError or Refusal. The bytes after the message are not looked at.
    """
    view = read_only(data)
    message = _vetted(view, rules_of(limits, PREFIX))
    return message, view[len(message._frame):]


def vet_words(words: Buffer, *, limits: Limits = DEFAULT) -> Message:
    """Check a message that was stored without a table: the words of one segment, such as Message.canonical() returns.

    Message.data are these words, which are copied. Raises FrameError or Refusal.
    """
    return _vetted(read_only(words), rules_of(limits, WORDS))


def vet_segments(segments: Sequence[Buffer], *, limits: Limits = DEFAULT) -> Message:
    """Check a message whose segments are separate buffers.

    Message.data are a frame of them, so they are copied. Raises FrameError or Refusal.
    """
    rules, views, report = rules_of(limits), [read_only(segment) for segment in segments], ffi.new("capvet_report *")
    raw = ffi.new("capvet_segment[]", [(pointer_to(view), len(view)) for view in views])
    # (with these limits the call looks at the sizes, and at no pointer but the root)
    sizes = Limits(message_words=limits.message_words, charge=0, depth=0)
    answer = lib.capvet_vet_segments(raw, len(views), rules_of(sizes).raw, report)
    if is_about_frame(answer):
        raise frame_error(answer, report)
    return _vetted(framed(views), rules)


def is_canonical_words(words: Buffer, *, limits: Limits = DEFAULT) -> bool:
    """Whether words without a table are the canonical form of a message: what Message.canonical() returns.

    True for each such result, with the limits that the message was vetted with. Amplified words are accepted, since copies
    of shared objects may make them so. Limits.charge bounds the work, and the words may be one more than that. Raises
    FrameError or Refusal.
    """
    rules, view, report = rules_of(limits), read_only(words), ffi.new("capvet_report *")
    answer = lib.capvet_check_canonical_words(pointer_to(view), len(view), rules.raw, report)
    if is_about_frame(answer):
        raise frame_error(answer, report)
    if answer not in (lib.CAPVET_OK, lib.CAPVET_NOT_CANONICAL):
        raise refusal(answer, Position(report.segment, report.word), report.pointers, view, rules_of_copies(limits))
    return bool(answer == lib.CAPVET_OK)


def messages(data: Buffer, *, limits: Limits = DEFAULT) -> Iterator[Verdict]:
    """Iterate over the messages of a buffer, and go on after a refused one. Copies no message.

    Raises FrameError where the buffer stops being messages.

    `data` that Python can write are copied once, by this call. Pass memoryview(data).toreadonly() if no thread writes them.
    """
    return _messages(read_only(data), Vetter(limits))


def _messages(view: memoryview, vetter: Vetter) -> Iterator[Verdict]:
    number, offset, rules = 0, 0, vetter.rules
    while offset < len(view):
        records = vetter.records(view, offset, offset)
        if not records:
            raise frame_error(vetter.answer, vetter.report, number, offset)
        for number, record in enumerate(records, number):
            offset, end = record[0], record[0] + record[1]
            yield verdict_of(view[offset:end], number, record, rules)
        number, offset = number + 1, end


class Verdicts(Sequence[Verdict]):
    """What vet_all() returns: a message or a refusal for each message of a buffer. They are made when they are asked for."""

    def __init__(self, view: memoryview, records: bytes, accepted: int, rules: Rules) -> None:
        self._view, self._records, self._rules = view, memoryview(records), rules
        self.accepted = accepted
        """How many messages are accepted."""

    def __len__(self) -> int:
        return len(self._records) // RECORD.size

    @overload
    def __getitem__(self, index: int) -> Verdict: ...

    @overload
    def __getitem__(self, index: slice) -> List[Verdict]: ...

    def __getitem__(self, index: Union[int, slice]) -> Union[Verdict, List[Verdict]]:
        if isinstance(index, slice):
            return [self[at] for at in range(*index.indices(len(self)))]
        number = range(len(self))[index]
        record: Record = RECORD.unpack_from(self._records, RECORD.size * number)  # type: ignore[assignment]
        return verdict_of(self._view[record[0]:record[0] + record[1]], number, record, self._rules)

    def refused(self) -> Iterator[Refusal]:
        """Iterate over the refusals alone."""
        for number, answer in enumerate(self.column("answer")):
            if answer:
                verdict = self[number]
                assert isinstance(verdict, Refusal)
                yield verdict

    def column(self, name: str) -> memoryview:
        """A number of each message, in place: numpy.asarray() takes it.

        "answer" is the number of capvet.h, 0 for an accepted message; "offset" and "length" are in bytes. "charge",
        "depth", "segments", "pointers" and "capabilities" are as in Report, and 0 for a refused message, but "segments".
        "pointer" is the number of the pointer that is refused. It has the same numbers as "pointers": those of the refused
        messages are meant in one, and those of the accepted ones in the other.
        """
        code, place = _COLUMNS[name]
        column = self._records.cast(code)
        return column[place::RECORD.size // column.itemsize]


_COLUMNS = {"offset": ("Q", 0), "length": ("Q", 1), "charge": ("Q", 2), "pointers": ("Q", 3), "pointer": ("Q", 3), "capabilities": ("Q", 4),
            "depth": ("I", 10), "segments": ("I", 11), "answer": ("I", 14)}


def vet_all(data: Buffer, *, limits: Limits = DEFAULT) -> Verdicts:
    """Vet all messages of a buffer at once: the fastest way for many small ones.

    Raises FrameError if the buffer stops being messages: `number` and `offset` say where.

    `data` that Python can write are copied. Pass memoryview(data).toreadonly() if no thread writes them.
    """
    view, blocks, accepted, number, offset, vetter = read_only(data), [], 0, 0, 0, Vetter(limits)
    while offset < len(view):
        block = vetter.block(view, offset, offset)
        if not block:
            raise frame_error(vetter.answer, vetter.report, number, offset)
        blocks.append(bytes(block))
        accepted, number, offset = accepted + vetter.accepted, number + len(block) // RECORD.size, vetter.end
    return Verdicts(view, b"".join(blocks), accepted, vetter.rules)
