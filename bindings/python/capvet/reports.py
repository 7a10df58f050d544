"""Limits and reports."""

from __future__ import annotations

import struct
from dataclasses import dataclass, fields
from operator import index
from typing import Any, Dict, NamedTuple, Optional, SupportsIndex, Tuple

from ._capvet import ffi, lib

WHOLE, PREFIX, WORDS = lib.CAPVET_FORM_WHOLE, lib.CAPVET_FORM_PREFIX, lib.CAPVET_FORM_WORDS
"""The forms of an input: one message, a buffer that starts with one, and the words of one segment without a table."""

OVERLAP = lib.CAPVET_OVERLAP

_MOST = {"message_words": lib.CAPVET_MAX_MESSAGE_WORDS, "charge": lib.CAPVET_MAX_CHARGE, "depth": lib.CAPVET_MAX_DEPTH}


def number_of(name: str, number: SupportsIndex, most: Optional[int]) -> int:
    """A number from 0 on, perhaps to a greatest one."""
    if isinstance(number, bool) or not hasattr(number, "__index__"):
        raise TypeError(f"{name} has to be an int")
    found = index(number)
    if found < 0 or most is not None and found > most:
        raise ValueError(f"{name} has to be {'at least 0' if most is None else f'from 0 to {most}'}, and is {found}")
    return found


@dataclass(frozen=True, init=False)
class Limits:
    """What to accept. By default a message has to be strict and unamplified.

    Raises ValueError if a number is negative or above its maximum, and TypeError if it is no int. Use
    dataclasses.replace() to change one field.
    """

    message_words: int
    """Most words (8 bytes each) in all segments of a message: at most 268435456."""
    charge: int
    """Most words that one full traversal reads: at most 268435456."""
    depth: int
    """Deepest level of an object: at most 256."""
    allow_nonstrict: bool
    """Whether to accept four forms that common readers reject: NullPad, EmptySegment, CapabilityPad, ManySegments."""
    allow_amplified: bool
    """Whether a full traversal may read more than 4,096 words above those of the segments."""
    exclusive: bool
    """Whether to refuse a message that uses a word twice. This takes one bit of memory for each word."""

    def __init__(self, *, message_words: SupportsIndex = 8_388_608, charge: SupportsIndex = 8_388_608, depth: SupportsIndex = 64,
                 allow_nonstrict: bool = False, allow_amplified: bool = False, exclusive: bool = False) -> None:
        numbers = {"message_words": message_words, "charge": charge, "depth": depth}
        flags = {"allow_nonstrict": allow_nonstrict, "allow_amplified": allow_amplified, "exclusive": exclusive}
        for name, flag in flags.items():
            if not isinstance(flag, bool):
                raise TypeError(f"{name} has to be a bool")
        rules: Dict[int, Rules] = {}
        self.__dict__.update({name: number_of(name, number, _MOST[name]) for name, number in numbers.items()}, **flags, _rules=rules)

    def __reduce__(self) -> Tuple[Any, ...]:
        return _limits_again, tuple(getattr(self, it.name) for it in fields(self))


def _limits_again(*values: Any) -> Limits:
    """Limits that were pickled."""
    return Limits(**dict(zip((it.name for it in fields(Limits)), values)))


class Rules:
    """Limits, and the form of the input that they are for."""

    __slots__ = ("limits", "form", "raw")

    def __init__(self, limits: Limits, form: int) -> None:
        self.limits, self.form = limits, form
        flags = lib.CAPVET_ALLOW_NONSTRICT * limits.allow_nonstrict | lib.CAPVET_ALLOW_AMPLIFIED * limits.allow_amplified
        self.raw = ffi.new("capvet_limits *", (limits.message_words, limits.charge, limits.depth, flags, form))
        """The limits as C has them."""

    def __eq__(self, other: object) -> bool:
        return isinstance(other, Rules) and (self.limits, self.form) == (other.limits, other.form)

    def __hash__(self) -> int:
        return hash((self.limits, self.form))

    def __reduce__(self) -> Tuple[Any, ...]:
        return rules_of, (self.limits, self.form)


def rules_of(limits: Limits, form: int = WHOLE) -> Rules:
    """The limits for an input of this form. They are made once, and nothing writes them, so threads share them."""
    if not isinstance(limits, Limits):
        raise TypeError("limits has to be a capvet.Limits")
    rules: Dict[int, Rules] = limits.__dict__["_rules"]
    return rules.get(form) or rules.setdefault(form, Rules(limits, form))


def rules_of_copies(limits: Limits) -> Rules:
    """Limits that accept the canonical words of each message that is accepted within these.

    They are those of the library for such words, which may be amplified, and have at most one word more than the charge.
    """
    words = min(max(limits.message_words, limits.charge + 1), _MOST["message_words"])
    return rules_of(Limits(message_words=words, charge=limits.charge, depth=limits.depth, allow_nonstrict=limits.allow_nonstrict,
                           allow_amplified=True), WORDS)


DEFAULT = Limits()
"""64 MiB, as many words of charge, 64 levels."""
LARGEST = rules_of(Limits(**_MOST, allow_nonstrict=True, allow_amplified=True))
"""What each message is within that was ever accepted."""


class Position(NamedTuple):
    """A word of a message. str() gives "0:7"."""

    segment: int
    word: int

    def __str__(self) -> str:
        return f"{self.segment}:{self.word}"


@dataclass(frozen=True)
class Report:
    """What is known of an accepted message."""

    length: int
    """Bytes of the message, with its table if it has one."""
    words: int
    """Words (8 bytes each) in all segments: what Limits.message_words bounds."""
    segments: int
    """How many segments."""
    charge: int
    """Words that one full traversal reads. An object that two pointers reach counts twice."""
    depth: int
    """Deepest level of an object."""
    pointers: int
    """How many pointers, null ones included."""
    capabilities: int
    """How many capabilities."""
    first_capability: Optional[Position]
    """The place of the first capability in preorder, or None without one."""

    def reader_words(self, readings: int = 1) -> int:
        """The traversal limit, in words, that libcapnp needs for so many readings of a strict message."""
        return int(lib.capvet_reader_words(self._raw(), readings))

    def reader_nesting(self) -> int:
        """The nesting limit that libcapnp needs for a strict message."""
        return int(lib.capvet_reader_nesting(self._raw()))

    def _raw(self) -> Any:
        """The numbers that a reader's limits depend on, as C has them."""
        return ffi.new("capvet_report *", {"charge": self.charge, "words": self.words, "depth": self.depth})

    def reader_options(self, readings: int = 1) -> Dict[str, int]:
        """Both limits as the options of pycapnp's from_bytes() and the like, but none below libcapnp's default.

        pycapnp counts each reading of an object again: `readings` is how often you go through the message.
        """
        return {"traversal_limit_in_words": max(self.reader_words(readings), 8 << 20),
                "nesting_limit": max(self.reader_nesting(), 64)}


Record = Tuple[int, int, int, int, int, int, int, int, int, int, int]
"""What the library found out about one message: offset, length, charge, pointers, capabilities, depth, segments, segment, word,
answer, words."""
RECORD = struct.Struct("=5Q6I")
ANSWER = 9


def report_of(record: Record) -> Report:
    """The report of an accepted message."""
    _, length, charge, pointers, capabilities, depth, segments, segment, word, _, words = record
    first = Position(segment, word) if capabilities else None
    report = object.__new__(Report)
    # (the constructor of a frozen dataclass takes as long as the call of the library)
    report.__dict__.update(length=length, words=words, segments=segments, charge=charge, depth=depth, pointers=pointers,
                           capabilities=capabilities, first_capability=first)
    return report
