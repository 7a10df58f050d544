"""The calls about frames and packed words."""

from __future__ import annotations

from typing import NamedTuple, Tuple

from ._capvet import ffi, lib
from .buffers import Buffer, pointer_to, read_only, uncleared
from .errors import UnpackError, frame_error, name_of
from .reports import DEFAULT, Limits, rules_of


def version() -> str:
    """The version of the library that is linked in, such as "2.0.0". __version__ is that of the package."""
    number = lib.capvet_version()
    return f"{number >> 16}.{number >> 8 & 255}.{number & 255}"


class Frame(NamedTuple):
    """A frame: its length in bytes, and the offset and size in bytes of each segment."""

    length: int
    """Bytes of the frame, table included."""
    segments: Tuple[Tuple[int, int], ...]
    """For each segment where it starts, counted from the first byte of the data, and its size."""


def frame(data: Buffer, *, message_words: int = DEFAULT.message_words) -> Frame:
    """Return the frame that `data` start with, of at most so many words. Reads the table only, and checks no pointer.

    Raises FrameError; its `required` says how many bytes to receive first.
    """
    view, report, required = read_only(data), ffi.new("capvet_report *"), ffi.new("size_t *")
    extents, rules = uncleared("capvet_extent[]", lib.CAPVET_MAX_SEGMENTS), rules_of(Limits(message_words=message_words))
    answer = lib.capvet_segments(pointer_to(view), len(view), rules.raw, extents, len(extents), required, report)
    if answer != lib.CAPVET_OK:
        raise frame_error(answer, report)
    return Frame(report.length, tuple((it.offset, it.length) for it in extents[0:required[0]]))


def pack_message(data: Buffer, *, message_words: int = DEFAULT.message_words) -> bytes:
    """Pack one message of at most so many words as libcapnp does: its table and each segment by itself. Checks no pointer.

    Raises FrameError.
    """
    view, report, required = read_only(data), ffi.new("capvet_report *"), ffi.new("size_t *")
    size = len(view) // 8 * 10
    out, rules = uncleared("uint8_t[]", size), rules_of(Limits(message_words=message_words))
    answer = lib.capvet_pack_message(pointer_to(view), len(view), rules.raw, out, size, required, report)
    if answer != lib.CAPVET_OK:
        raise frame_error(answer, report)
    return bytes(ffi.buffer(out, required[0]))


def pack_words(words: Buffer) -> bytes:
    """Pack words. Raises ValueError if the length is not a multiple of 8.

    To send a message use pack_message(): some readers refuse a message whose table and segments are packed together.
    """
    view, required = read_only(words), ffi.new("size_t *")
    size = len(view) // 8 * 10
    out = uncleared("uint8_t[]", size)
    if lib.capvet_pack_words(pointer_to(view), len(view), out, size, required) != lib.CAPVET_OK:
        raise ValueError(f"the length has to be a multiple of 8, and is {len(view)}")
    return bytes(ffi.buffer(out, required[0]))


def unpack_words(data: Buffer, *, max_size: int = 67_110_920) -> bytes:
    """Unpack packed words, up to `max_size` bytes. The default is the largest frame within Limits().

    Raises UnpackError, before anything is allocated.
    """
    if not isinstance(max_size, int):
        raise TypeError("max_size has to be an int")
    view, required = read_only(data), ffi.new("size_t *")
    start = pointer_to(view)
    answer = lib.capvet_unpack_words(start, len(view), ffi.NULL, 0, required)
    if answer == lib.CAPVET_BUFFER_TOO_SMALL and required[0] > max_size:
        answer = lib.CAPVET_TOO_LARGE
    if answer in (lib.CAPVET_TRUNCATED, lib.CAPVET_TOO_LARGE):
        text = "Truncated: the data end inside a group" if answer == lib.CAPVET_TRUNCATED else "TooLarge: more than max_size"
        raise UnpackError(text, answer=answer, reason=name_of(answer))
    size = required[0]
    out = uncleared("uint8_t[]", size)
    lib.capvet_unpack_words(start, len(view), out, size, required)
    return bytes(ffi.buffer(out, size))
