"""The path to a pointer of a message."""

from __future__ import annotations

from typing import Optional

from ._capvet import ffi, lib
from .buffers import pointer_to
from .reports import Rules


def path_of(view: memoryview, rules: Rules, number: int) -> Optional[str]:
    """The path to the pointer of this number in preorder, or None if there is no such pointer."""
    report, required = ffi.new("capvet_report *"), ffi.new("size_t *")
    steps = ffi.new("capvet_step[]", lib.CAPVET_MAX_DEPTH)
    answer = lib.capvet_pointer_path(pointer_to(view), len(view), rules.raw, number, steps, len(steps), required, report)
    if answer != lib.CAPVET_OK:
        return None
    return "/" + "/".join(f"{'pi'[step.kind]}{step.number}" for step in steps[0:required[0]])
