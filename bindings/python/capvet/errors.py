"""The exceptions, and which one an answer of the library raises."""

from __future__ import annotations

from typing import Any, Dict, Literal, Optional, Tuple

from ._capvet import ffi, lib
from .buffers import pointer_to, uncleared
from .paths import path_of
from .reports import OVERLAP, Position, Report, Rules

FrameReason = Literal["NoMessage", "TooManySegments", "TooLarge", "Truncated", "Trailing", "BadSegment"]
"""Why the data hold no frame, or more than one."""
RefusalReason = Literal[
    "Overlap", "NullPad", "EmptySegment", "CapabilityPad", "ManySegments", "NoRoot", "Reserved", "SegmentMissing", "PadOutside",
    "PadIsFar", "PadNotFar", "TagKind", "TagOffset", "OutOfSegment", "CompositeTag", "CompositeOverrun", "DepthLimit", "WordLimit"]
"""Why a message is refused."""

_WITHOUT_POINTER = (lib.CAPVET_NO_ROOT, lib.CAPVET_MANY_SEGMENTS)


class CapvetError(ValueError):
    """Base class: the data are not what was asked for.

    A wrong argument raises ValueError or TypeError itself, which `except CapvetError` does not catch. Instances can be
    pickled, so they cross process boundaries. Two are equal if all that they say is: of refusals also the bytes and the limits.
    """

    answer: int = 0
    """The number in capvet.h."""
    reason: str = ""
    """The name of the answer as the program `capvet` prints it: "Truncated", "DepthLimit", ..."""

    def __init__(self, text: str = "", **fields: Any) -> None:
        super().__init__(text)
        self.__dict__.update(fields)

    def __eq__(self, other: object) -> bool:
        return self is other or type(self) is type(other) and str(self) == str(other) and vars(self) == vars(other)

    def __hash__(self) -> int:
        return hash((type(self), str(self)))


class FrameError(CapvetError):
    """The data hold no complete frame within the limits, or more than the frame. The fields that do not apply are None."""

    reason: FrameReason
    required: Optional[int] = None
    """NoMessage, Truncated: the least length of the data that gets further."""
    segments: Optional[int] = None
    """TooManySegments: how many segments the table claims."""
    words: Optional[int] = None
    """TooLarge: how many words the table claims."""
    trailing: Optional[int] = None
    """Trailing: how many bytes follow the message."""
    length: Optional[int] = None
    """Trailing: bytes of the message."""
    segment: Optional[int] = None
    """BadSegment: which segment has a length that is no multiple of 8."""
    number: int = 0
    """The number of the message in its buffer or stream, from 0."""
    offset: int = 0
    """Where the message starts in its buffer or stream, in bytes."""


class Refusal(CapvetError):
    """A message that is refused: why, where, and its bytes.

    vet() raises it. Streams yield it in place of a Message and go on; `raise` it yourself to end there.
    """

    reason: RefusalReason
    position: Optional[Position] = None
    """The place of the first pointer that is wrong or exceeds a limit. None if the refusal is about no pointer: NoRoot and
    ManySegments."""
    pointer: Optional[int] = None
    """The number of that pointer in preorder, from 1. None if the refusal is about no pointer, or from peek()."""
    length: int = 0
    """Bytes of the message: the next one of a buffer starts after them."""
    number: int = 0
    """The number of the message in its buffer or stream, from 0."""
    offset: int = 0
    """Where the message starts in its buffer or stream, in bytes as they came (packed bytes if the stream is packed)."""
    unvetted: memoryview
    """The bytes of the refused message, unpacked, for a log. Do not read them as a message."""
    _rules: Rules

    @property
    def path(self) -> Optional[str]:
        """The path to the pointer, such as "/p0/i7/p2": which field is refused. "/" is the root.

        It is found by one more walk up to the pointer. None if `pointer` is None.
        """
        return None if self.pointer is None else path_of(self.unvetted, self._rules, self.pointer)

    @property
    def earlier_path(self) -> Optional[str]:
        """The path to the first pointer that uses a word which this one uses too: the other pointer of an overlap.

        It is found by three more walks up to the pointer. None if no pointer before this one uses such a word.
        """
        earlier = self._earlier()
        return None if earlier is None else path_of(self.unvetted, self._rules, earlier.pointers)

    def explain(self) -> str:
        """Why the message is refused, as lines for a log.

        They are the lines that the program `capvet explain` writes after the line of the verdict, without the byte in its
        input: the path to the pointer, its place in bytes, the pointer word with its fields, where it leads, what is
        exceeded, and the reason as a sentence. Each begins with two blanks and ends with a line feed. Of an overlap the last
        line has the path to the earlier pointer and its place, if there is one. Vets the message again. Raises ValueError
        for a refusal of peek(), which is about one path.
        """
        if self.position is not None and self.pointer is None:
            raise ValueError("a refusal of peek() is about one path: vet() finds the first pointer, and explains it")
        if self.answer == OVERLAP:
            return self._overlap()
        view, report, required = self.unvetted, ffi.new("capvet_report *"), ffi.new("size_t *")
        text = uncleared("char[]", lib.CAPVET_EXPLANATION_BOUND)
        answer = lib.capvet_explain(pointer_to(view), len(view), self._rules.raw, text, len(text), required, report)
        if answer != self.answer:
            raise RuntimeError("the bytes have changed after they were refused")
        return str(ffi.buffer(text, required[0]), "ascii")

    def _overlap(self) -> str:
        """The lines of an overlap."""
        assert self.position is not None and self.pointer is not None
        view, report, required = self.unvetted, ffi.new("capvet_report *"), ffi.new("size_t *")
        text = uncleared("char[]", lib.CAPVET_OVERLAP_BOUND)
        answer = lib.capvet_explain_overlap(pointer_to(view), len(view), self._rules.raw, self.position.segment, self.position.word,
                                            self.pointer, text, len(text), required, report)
        if answer != lib.CAPVET_OK:
            raise RuntimeError("the bytes have changed after they were refused")
        return str(ffi.buffer(text, required[0]), "ascii")

    def _earlier(self) -> Any:
        """What the library reports of the earlier pointer."""
        view, report = self.unvetted, ffi.new("capvet_report *")
        if self.pointer is None or lib.capvet_earlier_pointer(pointer_to(view), len(view), self._rules.raw, self.pointer,
                                                              report) != lib.CAPVET_OK:
            return None
        return report

    def __reduce__(self) -> Tuple[Any, ...]:
        return _refusal_again, (str(self), {**vars(self), "unvetted": bytes(self.unvetted)})


def _refusal_again(text: str, fields: Dict[str, Any]) -> Refusal:
    """A refusal that was pickled."""
    return Refusal(text, **{**fields, "unvetted": memoryview(fields["unvetted"])})


class CapabilityError(CapvetError):
    """The message has a capability, and so no canonical form."""

    reason: Literal["HasCapability"]
    report: Report


class UnpackError(CapvetError):
    """The packed data end inside a group (Truncated), or give more than max_size bytes (TooLarge)."""

    reason: Literal["Truncated", "TooLarge"]


class PathError(CapvetError):
    """The text is not a path, or one of its numbers is too great."""

    reason: Literal["BadPath"]
    path: str = ""
    """The text."""
    position: int = 0
    """Where it stops being a path, counted in bytes from 0."""


_FRAMES = {
    lib.CAPVET_NO_MESSAGE: (("required", "input_required"), "no message: the data are empty"),
    lib.CAPVET_TOO_MANY_SEGMENTS: (("segments", "detail"), "TooManySegments {0.detail}"),
    lib.CAPVET_TOO_LARGE: (("words", "detail"), "TooLarge: {0.detail} words"),
    lib.CAPVET_TRUNCATED: (("required", "input_required"), "Truncated: at least {0.input_required} bytes are required"),
    lib.CAPVET_TRAILING: (("trailing", "detail"), "Trailing: {0.detail} bytes follow the message"),
    lib.CAPVET_BAD_SEGMENT: (("segment", "detail"), "BadSegment: the length of segment {0.detail} is no multiple of 8"),
}
"""The field of FrameError, the field of the report that it has, and the text."""


def name_of(answer: int) -> str:
    """The name of an answer."""
    return str(ffi.string(lib.capvet_answer_name(answer)), "ascii")


def is_about_frame(answer: int) -> bool:
    """Whether an answer is about the frame, and not about a pointer."""
    return answer in _FRAMES


def frame_error(answer: int, report: Any, number: int = 0, offset: int = 0) -> FrameError:
    """The exception for an answer about the frame."""
    (field, source), text = _FRAMES[answer]
    more = {"length": report.length} if answer == lib.CAPVET_TRAILING else {}
    return FrameError(text.format(report), answer=answer, reason=name_of(answer), number=number, offset=offset,
                      **{field: getattr(report, source)}, **more)


def refusal(answer: int, place: Position, pointers: int, unvetted: memoryview, rules: Rules, number: int = 0,
            offset: int = 0) -> Refusal:
    """The exception for an answer about a pointer."""
    has_pointer = answer not in _WITHOUT_POINTER
    return Refusal(f"refused {name_of(answer)} at {place} pointers {pointers}", answer=answer, reason=name_of(answer),
                   position=place if has_pointer else None, pointer=pointers if has_pointer else None, length=len(unvetted),
                   number=number, offset=offset, unvetted=unvetted, _rules=rules)
