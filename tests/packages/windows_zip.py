#!/usr/bin/env python3
"""Runs the program of the zip for Windows under wine, beside the proved one, and by the scripts of the program.

    windows_zip.py [PROGRAM [ARCHIVE]] [--full] [--long]

The zip is packed as `make dist` packs it, and unpacked. The program writes what PROGRAM writes, but for the texts of clap 4.0.32 and
for those of the system's errors:

- of each sample, from a file and from a pipe, plain and packed;
- of the streams of tables.py: one in eight, or all with --full;
- help, and what is wrong with a command line;
- of 500 made messages, or 2,000 with --full.

A program in C is compiled by MinGW with the header and the import library of the zip, and vets with the DLL.

With --long program.py, filter.py and explain.py run over the program instead. Their failures have to be those of UNTRIED alone,
which says what wine can't do.

Nothing here runs on Windows itself. The last line is 'N passed, M failed', and the status is 1 if a case failed.
"""
import os
import re
import shutil
import subprocess
import sys
import tempfile
import zipfile
from pathlib import Path

sys.path[1:1] = map(str, Path(__file__).resolve().parents[1].iterdir())

import amount
import beside
from harness import ARCHIVE, TOP, compare, count, ended, expect, file_of, run
from needs import missing

LONG = amount.has("--long")
MESSAGES = amount.cases(500, 2_000)
FILES = ("README.md", "capvet-2.dll", "capvet.exe", "capvet.h", "libcapvet.dll.a")
# The system's own words for an error.
ERROR = rb"(?<=\ncapvet: ).* \(os error \d+\)"
# Command lines that name a folder, which Windows doesn't open.
FOLDERS = ("segments .", "pack .")
# A command that runs the program. A process of wine doesn't start in the little memory that a case allows, and would be tried with
# each amount of it. It would wait for an input that doesn't wait. (the flags of an open file have 04000 then)
COMMAND = """#!/bin/sh
[ "$(ulimit -v)" = unlimited ] || exit 0
while read -r name value; do
  case $name$value in flags:*[4567]???) exit 0 ;; esac
done 9<&0 < /proc/$$/fdinfo/9
exec wine "${0%/*}/wine/capvet" "$@"
"""
# A program that vets what it reads.
VET = """#include <capvet.h>
#include <fcntl.h>
#include <io.h>
#include <stdio.h>
int main(void) {
  static unsigned char message[1 << 16];
  _setmode(0, _O_BINARY);
  capvet_limits limits = CAPVET_LIMITS_INIT;
  capvet_report report;
  int answer = capvet_vet(message, fread(message, 1, sizeof message, stdin), &limits, &report);
  printf("%d %llu\\n", answer, (unsigned long long)report.charge);
}
"""
# What fails in each script, as patterns of the cases' names, each for a reason.
UNTRIED = {
    "program.py": (
        (r", and its memory: \d+ KiB$", "wine's own memory is counted with the program's"),
        (r"^a folder in place of a file: |^a folder to pack: |^capvet .*\bexamples, of ", "Windows opens no folder"),
        (r"^capvet (explain|filter) (-|examples/missing\.bin|.* a( .*)?), of ", "Windows has other words and numbers for an error"),
        (r", of an input that doesn't wait$", "wine waits for it"),
        (r"^capvet vet of a file, with an output that fails$", "wine doesn't say that an input without a name is a file"),
        (r", with more and more memory$", "wine doesn't start with so little"),
        (r"^capvet b'", "wine gives such words in another form, and none of 100,000 bytes"),
    ),
    "filter.py": (
        (r"^filter.*, (a message|511 segments) of 64 MiB$", "wine's own memory is counted with the program's"),
        (r"^filter, with too little memory for a message$", "wine doesn't start with so little"),
        (r"^filter, with a standard error that took no line before$", "wine waits until an output takes more"),
        (r"^filter of (a directory|no file)$", "Windows opens no folder, and has other words and numbers for an error"),
    ),
    "explain.py": (),
}


def unpacked(folder):
    """The files of the zip, in a folder."""
    file = folder / "capvet.zip"
    said, status = run([sys.executable, "packaging/make_windows_zip.py", file], cwd=TOP)
    expect("packaging/make_windows_zip.py", status == 0, said)
    with zipfile.ZipFile(file) as packed:
        packed.extractall(folder)
    root, = folder.glob("capvet-*-windows")
    names = sorted(it.name for it in root.iterdir())
    compare("the files of the zip", sorted([*FILES, "licences"]), names)
    compare("its header", (TOP / "include/capvet.h").read_text(), (root / "capvet.h").read_text())
    licences = [it.stem for it in (root / "licences").iterdir()]
    expect("its licences", {"librust-clap-dev", "librust-itoa-dev", "libstd-rust-dev-windows"} <= set(licences), licences)
    return root


def started(folder, root):
    """The command that runs the program. (under a name without an ending, which it shows in its usage)"""
    (folder / "wine").mkdir()
    shutil.copy(root / "capvet.exe", folder / "wine/capvet")
    command = folder / "capvet"
    command.write_text(COMMAND)
    command.chmod(0o755)
    return command


def library(folder, root):
    """A program in C over the DLL, beside which it lies."""
    (root / "vet.c").write_text(VET)
    said = run(["x86_64-w64-mingw32-gcc", "-Wall", "-Wextra", "-Werror", "-I.", "vet.c", "-L.", "-lcapvet", "-o", "vet.exe"], cwd=root)
    compare("MinGW compiles a program over the zip", ("", 0), said)
    for sample, expected in (("contacts.bin", b"0 391\r\n"), ("cycle.bin", b"43 0\r\n")):
        with open(TOP / "examples" / sample, "rb") as given:
            ran = subprocess.run(["wine", root / "vet.exe"], stdin=given, stdout=subprocess.PIPE)
        compare(f"it vets {sample}", (expected, 0), (ran.stdout, ran.returncode))


def scripts(command):
    """The scripts of the program over it."""
    for name, untried in UNTRIED.items():
        words = [command, *[ARCHIVE] * (name == "explain.py")]
        said, status = run([sys.executable, file_of(name), *words], cwd=TOP, timeout=7200)
        counted = re.search(r"^(\d+) passed, (\d+) failed$", said, re.M)
        failures = re.findall(r"^FAILED: (.*)", said, re.M)
        known = [it for it in failures if any(re.search(pattern, it) for pattern, _ in untried)]
        print(f"{name} under wine: {counted[0] if counted else status}, {len(known)} of these are left out", flush=True)
        compare(f"{name} under wine: what fails", [], [it for it in failures if it not in known])
        compare(f"{name} under wine: what is left out", [], [pattern for pattern, _ in untried if not any(re.search(pattern, it) for it in known)])
        expect(f"{name} ends", counted and int(counted[2]) == len(failures), said[-2000:])
        count(int(counted[1]) if counted else 0)


def main():
    if missing("the zip for Windows", "x86_64-w64-mingw32-gcc", "wine", "oldest-rust", "rust-for-windows", "crates", "crate-clap", "crate-sha2"):
        return ended()
    with tempfile.TemporaryDirectory() as scratch:
        folder = Path(scratch)
        (folder / "prefix").mkdir()
        os.environ.update(WINEPREFIX=str(folder / "prefix"), WINEDEBUG="-all")
        # (its server stays until the end, or each program would begin by starting Windows; what it starts gets no pipe of ours)
        for words in (["wineserver", "--persistent"], ["wine", "wineboot", "--init"]):
            subprocess.run(words, stdin=subprocess.DEVNULL, stdout=subprocess.DEVNULL, stderr=subprocess.DEVNULL)
        root = unpacked(folder)
        command = started(folder, root)
        if LONG:
            scripts(command)
        else:
            library(folder, root)
            both = beside.Both([command], "wine capvet", ERROR)
            beside.of_samples(both, folder)
            beside.of_tables(both, lambda row: row[0] in FOLDERS)
            beside.command_lines(both)
            beside.streams(both, folder, MESSAGES)
        run(["wineserver", "--kill", "--wait"])
    return ended()


if __name__ == "__main__":
    sys.exit(main())
