"""Reading nodes at a path."""

from __future__ import annotations

from dataclasses import dataclass, field
from typing import Any, Dict, Iterator, Literal, NamedTuple, Optional, Tuple

from ._capvet import ffi, lib
from .buffers import Buffer, pointer_to, read_only, uncleared
from .errors import PathError, frame_error, is_about_frame, name_of, refusal
from .reports import DEFAULT, LARGEST, Limits, Position, Rules, number_of, rules_of

Kind = Literal["null", "struct", "values", "pointers", "structs", "capability"]
KINDS: Tuple[Kind, ...] = ("null", "struct", "values", "pointers", "structs", "capability")

_BLOCK = 256
"""How many nodes one call of the library reads."""
_NUMBERS = 1 << 32
"""Elements have numbers below this."""


def text_of(data: bytes) -> Optional[str]:
    """The text of valid UTF-8 that ends in its one zero byte."""
    if data.find(0) != len(data) - 1 or not data:
        return None
    try:
        return data[:-1].decode()
    except UnicodeDecodeError:
        return None


@dataclass(frozen=True)
class Node:
    """A node of a message. Fields that do not apply to its kind are 0. It can be pickled, with a copy of its bytes."""

    kind: Kind
    """"null", "struct", "values", "pointers", "structs" or "capability". Texts are lists of values."""
    element: int
    """A list: the element's code in the format, 0 to 7."""
    count: int
    """A list: how many elements."""
    data_words: int
    """A struct: its data words. A list of structs: those of each element."""
    pointers: int
    """A struct: its pointers. A list of structs: those of each element."""
    capability: int
    """A capability: its index."""
    offset: int
    """Where `data` starts in the bytes of the message."""
    data: memoryview = field(repr=False)
    """The node's own bytes, in place: data words, values, or elements. Use struct.unpack_from() on it."""

    def text(self) -> Optional[str]:
        """The text, if this is a list of bytes that is valid UTF-8 and ends in its one zero byte. A guess.

        Only a schema says whether a list of bytes is a text.
        """
        is_bytes = self.kind == "values" and self.element == 2
        return text_of(bytes(self.data)) if is_bytes else None

    def __getstate__(self) -> Dict[str, Any]:
        return {**vars(self), "data": bytes(self.data)}

    def __setstate__(self, state: Dict[str, Any]) -> None:
        vars(self).update(state, data=memoryview(state["data"]))


def _encoded(path: str) -> bytes:
    if not isinstance(path, str):
        raise TypeError(f"the path has to be a str, and is a {type(path).__name__}")
    # (what is no text is no path either, and the library says where)
    return path.encode(errors="surrogatepass")


class Source(NamedTuple):
    """Where nodes are read."""

    view: memoryview
    """The frame."""
    rules: Rules
    is_vetted: bool = False
    shift: int = 0
    """The byte of the frame from which offsets are counted."""


def get(source: Source, path: str) -> Optional[Node]:
    """The node at a path."""
    view, report, found = source.view, ffi.new("capvet_report *"), ffi.new("capvet_node *")
    text = _encoded(path)
    answer = lib.capvet_get(pointer_to(view), len(view), source.rules.raw, text, len(text), found, report)
    if answer == lib.CAPVET_NO_NODE:
        return None
    if answer == lib.CAPVET_BAD_PATH:
        raise _path_error(path, report.detail)
    if answer != lib.CAPVET_OK:
        raise _error_of(answer, report, source)
    return _node_of(found, source)


def peek(data: Buffer, path: str, *, limits: Limits = DEFAULT) -> Optional[Node]:
    """Return the node at a path of a message that wasn't vetted: what Message.get() returns if it is accepted.

    Only the pointers on the path are checked. Raises FrameError, PathError, or Refusal for a pointer on the path.
    """
    return get(Source(read_only(data), rules_of(limits)), path)


def _path_error(path: str, position: int) -> PathError:
    answer = lib.CAPVET_BAD_PATH
    text = f"bad path at {position}: {path!r}"
    return PathError(text, answer=answer, reason=name_of(answer), path=path, position=position)


def _error_of(answer: int, report: Any, source: Source) -> Exception:
    """The exception for a pointer on a path that can't be followed, or for the frame."""
    if source.is_vetted:
        return RuntimeError("the bytes have changed after they were vetted")
    if is_about_frame(answer):
        return frame_error(answer, report)
    unvetted = source.view[:report.length]
    error = refusal(answer, Position(report.segment, report.word), report.pointers, unvetted, source.rules)
    # (only the pointers on the path were counted)
    error.pointer = None
    return error


def _node_of(raw: Any, source: Source) -> Node:
    """A node of C as a dataclass."""
    return Node(KINDS[raw.kind], raw.element, raw.count, raw.data_words, raw.pointers, raw.capability,
                raw.offset - source.shift, source.view[raw.offset:raw.offset + raw.length])


def peek_range(data: Buffer, path: str, *, first: int = 0, count: Optional[int] = None,
               limits: Limits = DEFAULT) -> Iterator[Optional[Node]]:
    """Iterate over the nodes at a path with one `*`, of a message that wasn't vetted: see Message.get_range().

    Only the pointers on the paths are checked. PathError, and ValueError for `first` or `count`, are raised by this call.
    FrameError is raised by the first step of the iteration. Refusal is raised after all nodes before that of the refused
    path. To go on after it, call peek_range() again with the next number as `first`.

    Reads up to 256 nodes in one call of the library. `data` that Python can write are copied once, by this call.
    """
    return get_range(Source(read_only(data), rules_of(limits)), path, first, count)


def get_range(source: Source, path: str, first: int, count: Optional[int]) -> Iterator[Optional[Node]]:
    """The nodes at a path with a star."""
    steps, varying = _steps(path)
    begin = number_of("first", first, None)
    end = _NUMBERS if count is None else min(begin + number_of("count", count, None), _NUMBERS)
    return _nodes(source, path, steps, varying, range(begin, end))


def _steps(path: str) -> Tuple[Any, int]:
    """The steps of a path with one star as C has them, and which of them has the star."""
    text, report, found = _encoded(path).replace(b"*", b"0", 1), ffi.new("capvet_report *"), ffi.new("capvet_node *")
    # (without a message, so that only the path is looked at)
    if lib.capvet_get(ffi.NULL, 0, LARGEST.raw, text, len(text), found, report) == lib.CAPVET_BAD_PATH:
        raise _path_error(path, report.detail)
    parts, star = path.split("/")[1:], path.find("*")
    # ("/p1*" has a star, and no step that is one)
    if all(part[1:] != "*" for part in parts):
        raise _path_error(path, len(path) if star < 0 else star)
    kinds = {"p": lib.CAPVET_STEP_POINTER, "i": lib.CAPVET_STEP_ELEMENT}
    steps = [(kinds[part[0]], 0 if part[1:] == "*" else int(part[1:])) for part in parts]
    return ffi.new("capvet_step[]", steps), path.count("/", 0, star) - 1


def _nodes(source: Source, path: str, steps: Any, varying: int, numbers: range) -> Iterator[Optional[Node]]:
    view, number, end, size = source.view, numbers.start, numbers.stop, None
    start, raw_limits = pointer_to(view), source.rules.raw
    block, found, report = uncleared("capvet_node[]", _BLOCK), ffi.new("size_t *"), ffi.new("capvet_report *")
    while number < end:
        steps[varying].number = number
        answer = lib.capvet_get_range(start, len(view), raw_limits, steps, len(steps), varying, block,
                                      min(_BLOCK, end - number), found, report)
        for index in range(found[0]):
            yield _node_of(block[index], source)
        number += found[0]
        if answer not in (lib.CAPVET_OK, lib.CAPVET_NO_NODE):
            raise _error_of(answer, report, source)
        if answer == lib.CAPVET_NO_NODE:
            # (after the last number, or below a null element)
            if size is None:
                size = _size(source, path)
                end = min(end, size)
            if number < end:
                yield None
            number += 1


def _size(source: Source, path: str) -> int:
    """How many numbers the star of a path can have."""
    above, _, kind = path[:path.index("*")].rpartition("/")
    holder = get(source, above or "/")
    if holder is None:
        return 0
    if kind == "p":
        return holder.pointers if holder.kind == "struct" else 0
    return holder.count if holder.kind in ("pointers", "structs") else 0
