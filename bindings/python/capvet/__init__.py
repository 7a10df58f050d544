"""Checks untrusted Cap'n Proto messages without a schema.

    >>> import capvet
    >>> message = capvet.vet(data)         # raises CapvetError if `data` is not one safe message
    >>> message.get("/p0/i1/p2").text()
    'Ada'
    >>> [it and it.text() for it in message.get_range("/p0/i*/p2")]
    ['Grace', 'Ada']
    >>> Book.from_bytes(message.data, **message.report.reader_options())      # with pycapnp

Every function takes any object with the buffer protocol. The interpreter lock is released while a call runs. So a
buffer that Python can write (bytearray, array, most memoryviews) is copied first, and a read-only one (bytes) is not.
Pass memoryview(buffer).toreadonly() if no thread writes it, and it is not copied either. A read-only view of memory that
somebody else writes is your mistake: pass bytes() of a mapped file or of shared memory.

Exceptions, reports, messages and nodes can be pickled, so they cross process boundaries as multiprocessing and Dask need.

`python -m capvet --help` has the commands.
"""

from ._capvet import lib as _lib
from .buffers import AsyncReadable, Buffer, Readable
from .calls import Frame, frame, pack_message, pack_words, unpack_words, version
from .difference import Difference, DifferenceReason
from .errors import CapabilityError, CapvetError, FrameError, FrameReason, PathError, Refusal, RefusalReason, UnpackError
from .message import Message, Verdict, Verdicts, is_canonical_words, messages, vet, vet_all, vet_prefix, vet_segments, vet_words
from .nodes import Kind, Node, peek, peek_range
from .reports import Limits, Position, Report
from .streams import AsyncMessageReader, MessageFeed, MessageReader, async_read_messages, read_messages

__version__ = "2.0.0"

__all__ = ["AsyncMessageReader", "AsyncReadable", "Buffer", "CapabilityError", "CapvetError", "Difference", "DifferenceReason",
           "Frame", "FrameError", "FrameReason", "Kind", "Limits", "Message", "MessageFeed", "MessageReader", "Node", "PathError",
           "Position", "Readable", "Refusal", "RefusalReason", "Report", "UnpackError", "Verdict", "Verdicts",
           "async_read_messages", "frame", "is_canonical_words", "messages", "pack_message", "pack_words", "peek", "peek_range",
           "read_messages", "unpack_words", "version", "vet", "vet_all", "vet_prefix", "vet_segments", "vet_words"]

_lib.capvet_abi_2()
if not _lib.capvet_cpu_supported():
    # (or some messages would end the process)
    raise ImportError("this processor lacks a feature of x86-64-v2, which the library needs")
