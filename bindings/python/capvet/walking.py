"""Follows the pointers of a message that the library has checked. Nothing is checked again here."""

from __future__ import annotations

import codecs
from typing import Iterator, List, NamedTuple, Optional, Sequence, Tuple

from .message import Message
from .nodes import Kind

_ELEMENT_BITS = (0, 1, 8, 16, 32, 64, 64)

Place = Tuple[int, int]
Segments = List[Sequence[int]]

PIECE = 1 << 16
"""How many bytes of a list are looked at together."""


class Spot(NamedTuple):
    """What a pointer leads to, or an element of a list of structs. Fields that do not apply to its kind are 0."""

    level: int
    """How many steps the path has."""
    label: str
    """The last step of the path: "p0" or "i7", and "root" for the root."""
    kind: Kind
    """As in Node."""
    segment: int
    start: int
    """The first own word: of the elements in a list of structs, after its tag."""
    element: int = 0
    size: int = 0
    """A list: how many elements."""
    data_words: int = 0
    pointers: int = 0
    capability: int = 0
    place: Place = (0, 0)
    """The word of the pointer, or the first word of an element of a list of structs."""


def segments_of(message: Message) -> Segments:
    """The words of each segment of a message."""
    return [data.cast("Q") if data else () for data in message.segments]


def _offset(word: int) -> int:
    return (word >> 2 & 0x3FFFFFFF) - (0x40000000 if word & 0x80000000 else 0)


def _followed(segments: Segments, level: int, label: str, segment: int, at: int) -> Spot:
    """What the pointer word at a place leads to."""
    word, place = segments[segment][at], (segment, at)
    start = at + 1 + _offset(word)
    if word & 3 == 2:
        segment, at = word >> 32, word >> 3 & 0x1FFFFFFF
        if word & 4:
            first, word = segments[segment][at], segments[segment][at + 1]
            segment, start = first >> 32, first >> 3 & 0x1FFFFFFF
            if word == 0:
                return Spot(level, label, "struct", segment, start, place=place)
        else:
            word = segments[segment][at]
            start = at + 1 + _offset(word)
    if word == 0:
        return Spot(level, label, "null", 0, 0, place=place)
    if word & 3 == 0:
        return Spot(level, label, "struct", segment, start, data_words=word >> 32 & 0xFFFF, pointers=word >> 48, place=place)
    if word & 3 == 3:
        return Spot(level, label, "capability", 0, 0, capability=word >> 32, place=place)
    return _list(segments, Spot(level, label, "values", segment, start, element=word >> 32 & 7, size=word >> 35, place=place))


def _list(segments: Segments, spot: Spot) -> Spot:
    """The list of a pointer word with this element and count."""
    if spot.element == 7:
        tag = segments[spot.segment][spot.start]
        return spot._replace(kind="structs", start=spot.start + 1, size=tag >> 2 & 0x3FFFFFFF,
                             data_words=tag >> 32 & 0xFFFF, pointers=tag >> 48)
    return spot._replace(kind="pointers") if spot.element == 6 else spot


def _children(spot: Spot) -> Iterator[Tuple[str, int, bool]]:
    """The last step to each child, its word in the segment of this spot, and whether it is a pointer word."""
    start, step = spot.start, spot.data_words + spot.pointers
    if spot.kind == "struct":
        for i in range(spot.pointers):
            yield f"p{i}", start + spot.data_words + i, True
    elif spot.kind == "pointers":
        for i in range(spot.size):
            yield f"i{i}", start + i, True
    elif spot.kind == "structs" and step:
        for i in range(spot.size):
            yield f"i{i}", start + i * step, False


def walk(segments: Segments) -> Iterator[Spot]:
    """The spots of a message in preorder. Not recursive. The library has to have accepted the message."""
    root = Spot(-1, "", "pointers", 0, 0, size=1)
    stack = [(root, iter((("root", 0, True),)))]
    while stack:
        parent, children = stack[-1]
        child = next(children, None)
        if child is None:
            stack.pop()
            continue
        label, at, is_pointer = child
        if is_pointer:
            spot = _followed(segments, parent.level + 1, label, parent.segment, at)
        else:
            spot = Spot(parent.level + 1, label, "struct", parent.segment, at, data_words=parent.data_words, pointers=parent.pointers,
                        place=(parent.segment, at))
        yield spot
        stack.append((spot, _children(spot)))


def own_bytes(segments: Segments, spot: Spot) -> Iterator[bytes]:
    """The data words of a struct, or the values of a list, in pieces of whole words; bits after the last value are zero."""
    if spot.kind not in ("struct", "values"):
        return
    bits = 64 * spot.data_words if spot.kind == "struct" else _ELEMENT_BITS[spot.element] * spot.size
    words, size, step = segments[spot.segment], (bits + 7) // 8, PIECE // 8
    for at in range(0, (bits + 63) // 64, step):
        data = bytes(words[spot.start + at:spot.start + min(at + step, (bits + 63) // 64)])[:size - 8 * at]
        if bits % 8 and len(data) == size - 8 * at:
            data = data[:-1] + bytes((data[-1] & (1 << bits % 8) - 1,))
        yield data


def text_pieces(segments: Segments, spot: Spot) -> Optional[Iterator[str]]:
    """The pieces of the text of a list of bytes that may be one: valid UTF-8 that ends in its one zero byte."""
    if spot.kind != "values" or spot.element != 2 or not spot.size:
        return None
    at = 0
    try:
        decoder = codecs.getincrementaldecoder("utf-8")()
        for data in own_bytes(segments, spot):
            zero, at = data.find(0), at + len(data)
            if zero >= 0 and (at != spot.size or zero != len(data) - 1) or zero < 0 and at == spot.size:
                return None
            decoder.decode(data, final=at == spot.size)
    except UnicodeDecodeError:
        return None
    return _decoded(segments, spot)


def _decoded(segments: Segments, spot: Spot) -> Iterator[str]:
    decoder = codecs.getincrementaldecoder("utf-8")()
    for data in own_bytes(segments, spot):
        # (all but the zero byte, which is the last one)
        yield decoder.decode(data.rstrip(b"\0"))
