"""`python -m capvet tree`: the tree of each message, as text or as JSON. Both are written in pieces, so large trees and long
lists need no memory."""

from __future__ import annotations

import json
from typing import Any, Callable, Dict, Iterator, List

from .errors import Refusal
from .message import Verdict
from .walking import Segments, Spot, own_bytes, segments_of, text_pieces, walk

_OWN = {"struct": "d", "values": "w"}
_CHILDREN = {"struct": "pointers", "pointers": "elements", "structs": "elements"}


def verdict(message: Verdict) -> str:
    """The line about a message, as `capvet vet` prints it."""
    if isinstance(message, Refusal):
        return f"message {message.number}: {message}\n"
    report = message.report
    return (f"message {message.number}: accepted charge {report.charge} depth {report.depth} pointers {report.pointers} "
            f"caps {report.capabilities}\n")


def _words(segments: Segments, spot: Spot) -> Iterator[List[str]]:
    """The own words of a node in hexadecimal digits, some at a time."""
    for data in own_bytes(segments, spot):
        digits = data.hex()
        yield [digits[at:at + 16].ljust(16, "0") for at in range(0, len(digits), 16)]


def _head(spot: Spot) -> str:
    return {
        "null": "null",
        "capability": f"cap {spot.capability}",
        "struct": f"struct {spot.data_words} {spot.pointers}",
        "values": f"list {spot.element} {spot.size}",
        "pointers": f"pointers {spot.size}",
        "structs": f"structs {spot.size} {spot.data_words} {spot.pointers}",
    }[spot.kind]


def text_lines(message: Verdict) -> Iterator[str]:
    """The lines of `capvet dump` about a message, and the guessed texts."""
    yield verdict(message)
    if isinstance(message, Refusal):
        return
    segments = segments_of(message)
    for spot in walk(segments):
        indent = "  " * spot.level
        yield f"{indent}{spot.label} {_head(spot)}"
        yield from _guess(segments, spot, ' guess "', quoted)
        yield "\n"
        number = 0
        for words in _words(segments, spot):
            yield "".join(f"{indent}  {_OWN[spot.kind]}{at} {word}\n" for at, word in enumerate(words, number))
            number += len(words)


def _guess(segments: Segments, spot: Spot, begin: str, escaped: Callable[[str], str]) -> Iterator[str]:
    """The guessed text of a node in quotes, after some words, if there is one."""
    pieces = text_pieces(segments, spot)
    if pieces is not None:
        yield begin
        yield from map(escaped, pieces)
        yield '"'


def quoted(text: str) -> str:
    """The text as it is between quotes. Characters that a terminal would not show are escaped as in JSON."""
    if text.isprintable() and "\\" not in text and '"' not in text:
        return text
    return "".join(it if it.isprintable() else _in_json(it) for it in text.replace("\\", "\\\\").replace('"', '\\"'))


def _in_json(text: str) -> str:
    return json.dumps(text)[1:-1]


def json_pieces(message: Verdict) -> Iterator[str]:
    """One JSON object about a message, on one line."""
    about: Dict[str, Any] = {"message": message.number, "offset": message.offset, "accepted": not isinstance(message, Refusal)}
    if isinstance(message, Refusal):
        segment, word = message.position or (0, 0)
        about.update(reason=message.reason, segment=segment, word=word, pointer=message.pointer or 0)
        yield json.dumps(about) + "\n"
        return
    report = message.report
    about.update(charge=report.charge, depth=report.depth, pointers=report.pointers, capabilities=report.capabilities)
    yield json.dumps(about)[:-1] + ', "root": '
    segments = segments_of(message)
    closers: List[str] = []
    path: List[str] = []
    for spot in walk(segments):
        is_next = len(closers) > spot.level
        while len(closers) > spot.level:
            yield closers.pop()
        if is_next:
            yield ", "
        path[max(spot.level - 1, 0):] = [spot.label] if spot.level else []
        yield from _opening(segments, spot, "/" + "/".join(path))
        closers.append("]}" if spot.kind in _CHILDREN else "}")
    yield "".join(reversed(closers)) + "}\n"


def _opening(segments: Segments, spot: Spot, path: str) -> Iterator[str]:
    """The JSON object of a node, up to its first child."""
    node: Dict[str, Any] = {"kind": spot.kind, "path": path, "segment": spot.place[0], "word": spot.place[1]}
    if spot.kind == "capability":
        node["index"] = spot.capability
    elif spot.kind == "values":
        node.update(element=spot.element, count=spot.size)
    elif spot.kind == "structs":
        node.update(count=spot.size, data_words=spot.data_words, pointer_words=spot.pointers)
    yield json.dumps(node)[:-1]
    if spot.kind in _OWN:
        yield from _listed("data" if spot.kind == "struct" else "words", _words(segments, spot))
    yield from _guess(segments, spot, ', "text_guess": "', _in_json)
    if spot.kind in _CHILDREN:
        yield f', "{_CHILDREN[spot.kind]}": ['


def _listed(name: str, pieces: Iterator[List[str]]) -> Iterator[str]:
    """A member of a JSON object: a list of strings of digits."""
    yield f', "{name}": ['
    for number, words in enumerate(pieces):
        yield (", " if number else "") + ", ".join(f'"{word}"' for word in words)
    yield "]"
