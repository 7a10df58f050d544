"""Why a message is not canonical."""

from __future__ import annotations

from dataclasses import dataclass
from typing import Literal, Optional

from ._capvet import ffi, lib
from .buffers import pointer_to
from .paths import path_of
from .reports import LARGEST, Position

DifferenceReason = Literal["Segments", "Far", "Capability", "EmptyStruct", "Place", "Bits", "EmptyList", "Surplus", "DataZero",
                           "PointerNull", "Trailing"]
"""Why a message is not its own canonical form, in the order in which the reasons are tried."""

_WITHOUT_POINTER = ("Segments", "Trailing")


@dataclass(frozen=True)
class Difference:
    """Why a message is not canonical: the first pointer in preorder that is not as the canonical form has it, with its object.

    str() gives "not canonical: Place at 0:2".
    """

    reason: DifferenceReason
    """The name of the reason."""
    position: Position
    """The place of the pointer. For Trailing it is the first word after all objects, and for Segments it is 0:0."""
    pointers: int
    """The number of the pointer in preorder, from 1. For Trailing it is that of all pointers, and for Segments it is 0."""
    path: Optional[str]
    """The path to the pointer, such as "/p0/i7/p2". "/" is the root. None for Segments and Trailing, which name no pointer."""

    def __str__(self) -> str:
        return f"not canonical: {self.reason} at {self.position}"


def first_difference(frame: memoryview) -> Optional[Difference]:
    """Why an accepted message is not canonical, or None if it is."""
    report = ffi.new("capvet_report *")
    answer = lib.capvet_first_difference(pointer_to(frame), len(frame), LARGEST.raw, report)
    if answer == lib.CAPVET_OK:
        return None
    if answer != lib.CAPVET_NOT_CANONICAL:
        raise RuntimeError("the bytes have changed after they were vetted")
    reason = str(ffi.string(lib.capvet_difference_name(report.detail)), "ascii")
    path = None if reason in _WITHOUT_POINTER else path_of(frame, LARGEST, report.pointers)
    return Difference(reason, Position(report.segment, report.word), report.pointers, path)  # type: ignore[arg-type]
