"""Builds the guard for each machine, by `make guard`: for Debian, and as one file for any Linux.

What was built of the same sources and archive is kept."""
import hashlib
import os
import re

from common import BUILT, TOP, run, tracked

PLAIN = '-buildmode=pie -ldflags "-s -w -buildid= -linkmode external -extldflags=-Wl,-z,now"'
STATIC = '-tags netgo,osusergo -ldflags "-s -w -buildid= -linkmode external -extldflags -static"'
SOURCES = ("guard", "bindings/go", "include", "Makefile", "capvet.pc.in", "packaging/guards.py")

# The first Go of each line that bounds the keys of certificates before it verifies by them (CVE-2023-29409). Later lines do.
FIRST_BOUNDED = {(1, 19): 12, (1, 20): 7}
UNBOUNDED = "put Go 1.19.12, 1.20.7 or later on the path, since older ones verify certificates by keys of any size"


def is_bounded(text):
    """Whether what `go version` prints is of a Go that bounds the keys of certificates."""
    found = re.search(r"\bgo(\d+)\.(\d+)(?:\.(\d+))?", text)
    if not found:
        return False
    line, patch = (int(found[1]), int(found[2])), int(found[3] or 0)
    return line > max(FIRST_BOUNDED) or patch >= FIRST_BOUNDED.get(line, patch + 1)


def stamp(archive):
    """The checksum of what a guard is built of. (Go's libraries and its compiler are those of the machine)"""
    whole = hashlib.sha256(archive.read_bytes() + run("go", "version").encode())
    for name in tracked(*SOURCES):
        whole.update((TOP / name).read_bytes())
    return whole.hexdigest()


def guard(machine, is_static):
    """The guard for a machine, built if need be."""
    built = BUILT / machine.name / f"capvet-guard{'-static' * is_static}"
    archive, mark = machine.folder / "libcapvet.a", built.with_suffix(".of")
    if not (built.is_file() and mark.is_file() and mark.read_text() == stamp(archive)):
        built.parent.mkdir(exist_ok=True)
        # (a guard that was built for an older archive is no guard)
        mark.unlink(missing_ok=True)
        words = [f"BUILT_ARCHIVE={archive.relative_to(TOP)}", f"BUILT_GUARD={built.relative_to(TOP)}",
                 f"GUARD_FLAGS={STATIC if is_static else PLAIN}"]
        run("make", "-s", "guard", *words, env={**os.environ, "CGO_ENABLED": "1", "GOARCH": machine.go, "CC": machine.compiler})
        mark.write_text(stamp(archive))
    return built
