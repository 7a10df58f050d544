#!/usr/bin/env python3
"""Runs the built program and the library on emulated processors, with and without the level x86-64-v2.

    processors.py [PROGRAM [ARCHIVE]]

On an old one the program ends with status 127 and one line. The library reads some messages there, and others end the process
by SIGILL, as docs/install.md says. The crate for Rust vets each sample there. Without qemu a line says what isn't tested. The last line is 'N passed, M failed', and the
status is 1 if a case failed.
"""
import shutil
import signal
import sys
import tempfile
from pathlib import Path

sys.path[1:1] = map(str, Path(__file__).resolve().parents[1].iterdir())

import cargo
from harness import ARCHIVE, PROGRAM, TOP, compare, ended, run
from needs import missing

OLD, NEW = ("qemu64", "Conroe", "Penryn"), ("Nehalem", "max")
LINE = "this machine lacks a feature of x86-64-v2, "
ACCEPTED = "message 0: accepted charge {} depth {} pointers {} caps 0\n"
CONTACTS, MANY = ACCEPTED.format(391, 11, 125), ACCEPTED.format(495, 11, 125)
SAMPLES = {"contacts.bin": CONTACTS, "contacts-many-segments.bin": MANY}


def emulated(processor, *command):
    """What a command writes on an emulated processor, and its status."""
    return run(["qemu-x86_64", "-cpu", processor, *map(str, command)])


def program():
    for processor in OLD:
        text, status = emulated(processor, PROGRAM, "vet", TOP / "examples/contacts.bin")
        compare(f"the program on {processor}", (True, 1, 127), (text.startswith(LINE), text.count("\n"), status))
    for processor in NEW:
        compare(f"the program on {processor}", (CONTACTS, 0), emulated(processor, PROGRAM, "vet", TOP / "examples/contacts.bin"))


def library(folder):
    """A message ends the process or not, but no verdict is wrong."""
    vet = folder / "vet"
    built = run(["cc", "-O1", f"-I{TOP / 'include'}", TOP / "examples/c/vet.c", ARCHIVE, "-o", vet])
    compare("cc vet.c", ("", 0), built)
    source, supported = folder / "supported.c", folder / "supported"
    source.write_text("#include <capvet.h>\nint main(void) { return !capvet_cpu_supported(); }\n")
    compare("cc supported.c", ("", 0), run(["cc", f"-I{TOP / 'include'}", source, "-o", supported]))
    ends = set()
    for processor in OLD + NEW:
        compare(f"capvet_cpu_supported on {processor}", ("", int(processor in OLD)), emulated(processor, supported))
        for name, expected in SAMPLES.items():
            text, status = emulated(processor, vet, TOP / "examples" / name)
            # (qemu ends by the signal of its program, after a line of its own)
            killed = status == -signal.SIGILL
            compare(f"the library on {processor}, {name}", True, killed and processor in OLD or (text, status) == (expected, 0))
            ends |= {(name, killed)} if processor == "Conroe" else set()
    compare("the library on Conroe", {("contacts.bin", False), ("contacts-many-segments.bin", True)}, ends)


def from_rust(folder):
    """The crate vets each sample on an old processor too."""
    environment = cargo.environment(folder)
    # (cargo writes a lock file beside a crate)
    for part in ("rust", "examples"):
        shutil.copytree(TOP / part, folder / "copy" / part, ignore=shutil.ignore_patterns("target", "Cargo.lock"))
    compare("cargo build", ("", 0), run(["cargo", "build", *cargo.CARGO], cwd=folder / "copy/examples/rust", env=environment))
    for processor in OLD:
        for name, expected in SAMPLES.items():
            got = emulated(processor, folder / "target/debug/vet", TOP / "examples" / name)
            compare(f"the example in Rust on {processor}, {name}", (expected, 0), got)


def main():
    if not missing("the program and the library on old processors", "qemu-x86_64"):
        program()
        if not missing("the library on old processors", "cc"):
            with tempfile.TemporaryDirectory() as scratch:
                library(Path(scratch))
        if not missing("the crate for Rust on old processors", "cargo", "rustc", "crates"):
            with tempfile.TemporaryDirectory() as scratch:
                from_rust(Path(scratch))
    return ended()


if __name__ == "__main__":
    sys.exit(main())
