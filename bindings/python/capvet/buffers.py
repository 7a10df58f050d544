"""Buffers and files on the way in, and buffers on the way out."""

from __future__ import annotations

from typing import TYPE_CHECKING, Any, Awaitable, Optional, Protocol

from ._capvet import ffi

if TYPE_CHECKING:
    from _typeshed import ReadableBuffer

    Buffer = ReadableBuffer
else:
    Buffer = Any
    """Any object with the buffer protocol: bytes, bytearray, memoryview, array, mmap, numpy.ndarray, ..."""


class Readable(Protocol):
    """What read_messages() reads: a binary file, gzip.open(), socket.makefile("rb"), or any other object with `read`."""

    def read(self, size: int, /) -> Optional[bytes]:
        """At most `size` bytes, and none at the end. None if the file is not blocking and has no bytes now."""


class AsyncReadable(Protocol):
    """What async_read_messages() reads: an asyncio.StreamReader, or any other object with a coroutine `read`."""

    def read(self, size: int, /) -> Awaitable[bytes]:
        """At most `size` bytes as soon as some have come, and none at the end."""


uncleared = ffi.new_allocator(should_clear_after_alloc=False)
"""Memory whose bytes are not set: for outputs that the library fills in."""


def read_only(data: Buffer) -> memoryview:
    """The bytes of a buffer. They are copied only if Python could write them during a call, or if they have gaps."""
    view = memoryview(data)
    if type(data) is bytes and data:
        return view
    if view.readonly and view.c_contiguous and view.nbytes:
        return view if view.format == "B" and view.ndim == 1 else view.cast("B")
    return memoryview(view.tobytes())


def pointer_to(view: memoryview) -> Any:
    """The address of bytes, for C. The caller keeps the view as long as the address is used.

    The address itself holds no buffer of the view. If both were in one cycle of garbage, such as an error with a traceback,
    Python could clear the view before its buffer is released, and end in a segmentation fault.
    """
    return ffi.cast("uint8_t *", ffi.from_buffer("uint8_t[]", view))
