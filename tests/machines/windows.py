#!/usr/bin/env python3
"""Tests the library for Windows that cargo builds: calls.py over build/cargo/x86_64-pc-windows-gnu, by MinGW and under wine.

    windows.py [PROGRAM] [--full]

`packaging/by_cargo.py` builds it, by Debian's own Rust, which has a std for Windows. The programs of tests/calls/c are compiled by MinGW and
linked with the archive. Each runs under wine, with the cases of calls.py: known buffers, the lines and canonical copies of many
messages, packed bytes, packed messages, flags and reports, nodes, and the paths of pointers. PROGRAM, for this machine, writes what is
expected. `calls` is also linked with the DLL, which exports the calls of the header.

Nothing runs with checks of memory here, and the stack isn't measured. `allocations` isn't linked, since it replaces functions
of the C library by a way of ELF. Nothing here runs on Windows itself.

The last line is 'N passed, M failed', and the status is 1 where a case failed.
"""
import os
import re
import shutil
import subprocess
import sys
import tempfile
from pathlib import Path

sys.path[1:1] = map(str, Path(__file__).resolve().parents[1].iterdir())

import calls as by_c
import needs
from cargo import environment
from harness import PROGRAM, TOP, compare, ended, expect, run
from header import calls
from needs import missing

TARGET, MINGW = "x86_64-pc-windows-gnu", "x86_64-w64-mingw32-gcc"
OUT = TOP / "build/cargo" / TARGET
# Files and streams have the bytes that are written, and no ends of lines of Windows.
BINARY = """#include <fcntl.h>
#include <io.h>
#include <stdlib.h>
__attribute__((constructor)) static void use_bytes(void) {
  _fmode = _O_BINARY;
  for (int file = 0; file < 3; file++) _setmode(file, _O_BINARY);
}
"""
# A program of Windows as a command of this machine.
COMMAND = '#!/bin/sh\nexec wine "$0.exe" "$@"\n'


def compiled(folder, name, compiler, standard, archive, *options):
    """The command that runs a program of tests/calls/c, or nothing where there is no program. (those of C99 are for valgrind)"""
    if standard == "c99":
        return None
    out, binary = folder / f"{name}-{standard}-{archive.name}", folder / "binary.c"
    binary.write_text(BINARY)
    words = [it for it in options if it not in by_c.CHECKS]
    compare("binary.c", ("", 0), run([compiler, "-c", binary, "-o", folder / "binary.o"]))
    text, status = run([compiler, f"-std={standard}", *by_c.WARN, *words, TOP / f"tests/calls/c/{name}.c", folder / "binary.o", archive,
                        "-o", f"{out}.exe"])
    expect(f"{compiler} {name}.c", status == 0, text)
    out.write_text(COMMAND)
    out.chmod(0o755)
    return out if status == 0 else None


def built(folder):
    """Whether the library is built, by Debian's Rust."""
    variables = {**environment(folder), "CARGO_TARGET_DIR": str(TOP / "build/cargo/target-oldest"), "PATH": f"{needs.OLDEST_RUST}:{os.environ['PATH']}"}
    said, status = run([sys.executable, "packaging/by_cargo.py", "--library", TARGET], cwd=TOP, env=variables)
    expect(f"packaging/by_cargo.py {TARGET}", status == 0, said)
    return status == 0


def exports():
    """What the DLL and the archive export."""
    table = run(["x86_64-w64-mingw32-objdump", "-p", OUT / "capvet-2.dll"])[0].partition("[Ordinal/Name Pointer] Table")[2]
    compare("the exports of the DLL", sorted(calls()), sorted(re.findall(r"^\t\[ *\d+\] (?:\+base\[ *\d+\] +\w+ )?(\w+)$", table, re.M)))
    symbols = run(["x86_64-w64-mingw32-nm", "--extern-only", OUT / "libcapvet.a"])[0]
    compare("the archive's global symbols", sorted(calls()), sorted(re.findall(r" T (\w+)$", symbols, re.M)))
    expect("what it needs", set(re.findall(r" U (\w+)$", symbols, re.M)) <= {"abort", "memcmp", "memcpy", "memmove", "memset"}, symbols)


def known(folder, program):
    """The calls on known buffers, over the archive and over the DLL, and the names of answers and of differences."""
    shutil.copy(OUT / "capvet-2.dll", folder)
    for library in (OUT / "libcapvet.a", OUT / "libcapvet.dll.a"):
        buffers = compiled(folder, "calls", MINGW, "c11", library, "-O1")
        if buffers is not None:
            by_c.clean(f"calls over {library.name}", buffers)
    by_c.named(folder, MINGW, ["c11"], OUT / "libcapvet.a", program)


def messages(folder, program):
    """The lines and the canonical copies of many messages."""
    lines = compiled(folder, "lines", MINGW, "c11", OUT / "libcapvet.a", "-O1")
    if lines is not None:
        by_c.compare_lines(lines, program)
        by_c.compare_copies(lines, program)
        by_c.compare_words(lines, program)


def packed(folder, program):
    """Packing and unpacking words."""
    by_c.test_packing(folder, MINGW, OUT / "libcapvet.a", program)
    texts = compiled(folder, "texts", MINGW, "c11", OUT / "libcapvet.a", "-O1")
    if texts is not None:
        by_c.compare_texts(texts, None, program)


def main():
    if missing("the library for Windows", "x86_64-w64-mingw32-gcc", "wine", "oldest-rust", "rust-for-windows", "crates"):
        return ended()
    by_c.compiled = compiled
    with tempfile.TemporaryDirectory() as scratch:
        folder = Path(scratch)
        (folder / "wine").mkdir()
        os.environ.update(WINEPREFIX=str(folder / "wine"), WINEDEBUG="-all")
        # (its server stays until the end, or each program would begin by starting Windows; what it starts gets no pipe of ours)
        for words in (["wineserver", "--persistent"], ["wine", "wineboot", "--init"]):
            subprocess.run(words, stdin=subprocess.DEVNULL, stdout=subprocess.DEVNULL, stderr=subprocess.DEVNULL)
        if built(folder):
            exports()
            known(folder, PROGRAM)
            messages(folder, PROGRAM)
            packed(folder, PROGRAM)
            for part in (by_c.test_streams, by_c.test_flags, by_c.test_nodes, by_c.test_paths):
                part(folder, [MINGW], OUT / "libcapvet.a", PROGRAM)
        run(["wineserver", "--kill", "--wait"])
    return ended()


if __name__ == "__main__":
    sys.exit(main())
