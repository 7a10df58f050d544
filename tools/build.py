#!/usr/bin/env python3
"""Builds the program and the library for C by cargo, for the scripts to run over: build/cargo.

    build.py

packaging/by_cargo.py does it. As Debian's superuser it installs cargo and the crates first, if they are missing. The program then vets
the sample of `make run`, and a program in C vets it by the library. Where this machine has no cargo, or cargo gets no crates, nothing
is built. The last line is 'N passed, M failed', and the status is 1 where a case failed.
"""
import subprocess
import sys
import tempfile
from pathlib import Path

sys.path[1:1] = map(str, (Path(__file__).resolve().parents[1] / "tests").iterdir())

import needs
from harness import TOP, compare, ended, run

OUT, SAMPLE = TOP / "build/cargo", TOP / "examples/contacts.bin"
ACCEPTED = "accepted charge 391 depth 11 pointers 125 caps 0\n"


def main():
    status = subprocess.run([sys.executable, "packaging/by_cargo.py", "--install"], cwd=TOP).returncode
    if status == 2:
        # (by_cargo.py has said it too. It may be a Rust that is too old)
        if not needs.missing("the build by cargo", "cargo", "rustc", "crates", "crate-clap", "crate-sha2"):
            print(needs.line("the build by cargo", "cargo"))
        return ended()
    compare("packaging/by_cargo.py", 0, status)
    compare("the program", (f"message 0: {ACCEPTED}", 0), run([OUT / "capvet", "vet", SAMPLE]))
    if not needs.missing("a program in C over the library by cargo", "cc"):
        with tempfile.TemporaryDirectory() as folder:
            built = run(["cc", f"-I{TOP / 'include'}", TOP / "examples/c/vet.c", OUT / "libcapvet.a", "-o", Path(folder) / "vet"])
            compare("cc examples/c/vet.c", ("", 0), built)
            compare("examples/c/vet.c", 0, run([Path(folder) / "vet", SAMPLE])[1])
    return ended()


if __name__ == "__main__":
    sys.exit(main())
