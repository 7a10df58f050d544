#!/usr/bin/env python3
"""Runs the text without contracts on other machines, and shows that each call returns and writes there what it does here.

    plain_targets.py [FOLDER]

The program of tests/plain makes 20,000 messages on each machine, and prints a digest of all that the calls return and write, with
the number of calls for each answer. Both have to be those of this machine. The machines are:

- wasm32, of 32 bits, by Node
- i686 Linux, of 32 bits
- s390x Linux, which is big-endian, by qemu

For thumbv7em-none-eabi, which has no std, the crate capvet is built, and nothing is run.

All are built by Debian's Rust. Its libraries for these machines and the linkers are packages of Debian, some 200 MB. apt fetches
them with lists of its own, and they are unpacked into FOLDER, or else into a temporary folder. So nothing of this machine is changed,
and a FOLDER that has them already is used as it is. The last line is 'N passed, M failed', and the status is 1 where a case failed.
"""
import os
import re
import subprocess
import sys
import tempfile
from pathlib import Path
from typing import NamedTuple

sys.path[1:1] = map(str, Path(__file__).resolve().parents[1].iterdir())

import needs
from cargo import CARGO, environment
from harness import TOP, compare, count, ended, expect, run
from needs import missing

MESSAGES = 20_000
# The packages for all machines, and those of one architecture.
PACKAGES = ("libstd-rust-dev-wasm32", "wasi-libc", "lld-14", "rust-src", "libstd-rust-dev:i386", "libstd-rust-dev:s390x") + tuple(
    it.format(*names) for names in (("i686", "i386"), ("s390x", "s390x"))
    for it in ("gcc-12-{0}-linux-gnu", "binutils-{0}-linux-gnu", "libgcc-12-dev-{1}-cross", "libc6-dev-{1}-cross"))
ARCHITECTURES = ("amd64", "i386", "s390x")
LACKING_STD = "thumbv7em-none-eabi"


class Machine(NamedTuple):
    """A machine: rustc's name of it, what runs a program for it, and what the script needs for that."""
    target: str
    runner: tuple = ()
    need: str = "cargo"

    @property
    def file(self):
        return "plain.wasm" if "wasm" in self.target else "plain"

    def flags(self, root):
        """What rustc needs to build for it: its libraries, and for Linux the linker. (a program with the C library in it needs no
        other file)"""
        flags = f"--sysroot {root}/usr"
        if "linux" in self.target:
            linker = self.target.replace("-unknown", "") + "-gcc-12"
            flags += f" -C linker={root}/usr/bin/{linker} -C target-feature=+crt-static"
        return flags


MACHINES = (
    Machine("wasm32-wasi", ("node", "--no-warnings", TOP / "tests/plain/wasi.mjs"), "node"),
    Machine("i686-unknown-linux-gnu"),
    Machine("s390x-unknown-linux-gnu", ("qemu-s390x",), "qemu-s390x"),
)


def fetch(root, scratch, suite="bookworm", packages=PACKAGES, architectures=ARCHITECTURES):
    """Unpacks packages of a release of Debian into a folder."""
    (scratch / "lists/partial").mkdir(parents=True)
    (scratch / "sources.list").write_text(f"deb {needs.mirror()} {suite} main\n")
    options = [f"Dir::State::Lists={scratch}/lists", f"Dir::Cache={scratch}", f"Dir::Etc::SourceList={scratch}/sources.list",
               "Dir::Etc::SourceParts=-", "APT::Sandbox::User=root", "Acquire::Languages=none", "Acquire::Check-Valid-Until=false"]
    options += [f"APT::Architectures::={it}" for it in architectures]
    apt = ["apt-get", "-q", *(word for it in options for word in ("-o", it))]
    for words in (["update"], ["download", *packages]):
        said, status = run([*apt, *words], cwd=scratch)
        expect(f"apt-get {words[0]}", status == 0, said)
    for package in scratch.glob("*.deb"):
        subprocess.run(["dpkg-deb", "-x", package, root], check=True)
        package.unlink()


def digest(machine, folder, root, variables):
    """What the program of a machine prints: of this one, where there is none."""
    words, to = (["--target", machine.target], machine.target) if machine else ([], "")
    flags = {"RUSTFLAGS": machine.flags(root)} if machine else {}
    built = run(["cargo", "build", *CARGO, "--release", *words], cwd=TOP / "tests/plain", env={**variables, **flags})
    compare(f"cargo build of tests/plain {to}", ("", 0), built)
    program = folder / "target" / to / "release" / (machine.file if machine else "plain")
    return run([*(machine.runner if machine else ()), program, MESSAGES])


def without_std(root, variables):
    """The crate is built for a machine that has no std. Of Rust's own libraries `core` alone is built, out of Debian's rust-src. (That
    has no Cargo.lock, so cargo can't do it. A library links nothing of `compiler_builtins`, so an empty one is enough)"""
    libraries, empty = root / f"usr/lib/rustlib/{LACKING_STD}/lib", root / "compiler_builtins.rs"
    libraries.mkdir(parents=True, exist_ok=True)
    empty.write_text("#![feature(compiler_builtins)]\n#![compiler_builtins]\n#![no_std]\n")
    core, = root.glob("usr/src/rustc-*/library/core/src/lib.rs")
    for name, source in (("core", core), ("compiler_builtins", empty)):
        said = run(["rustc", "--edition", "2021", "--crate-type", "rlib", "--crate-name", name, "--target", LACKING_STD, "--sysroot",
                    root / "usr", "-O", "-C", "panic=abort", "-A", "warnings", "--out-dir", libraries, source],
                   env={**variables, "RUSTC_BOOTSTRAP": "1"})
        compare(f"rustc of {name} for {LACKING_STD}", ("", 0), said)
    said = run(["cargo", "build", *CARGO, "--release", "--package", "capvet", "--no-default-features", "--target", LACKING_STD],
               cwd=TOP / "rust", env={**variables, "RUSTFLAGS": f"--sysroot {root}/usr -D warnings"})
    compare(f"cargo build of the crate for {LACKING_STD}", ("", 0), said)


def machines(folder, root):
    """Builds and runs for each machine that something here can run."""
    variables = environment(folder)
    variables |= {"PATH": f"{needs.OLDEST_RUST}:{variables['PATH']}:{root}/usr/bin",
                  "LD_LIBRARY_PATH": f"{root}/usr/lib/x86_64-linux-gnu"}
    here = digest(None, folder, root, variables)
    made = re.match(rf"({MESSAGES} messages, (\d+) calls, digest [0-9a-f]{{16}}), 0 differences\n", here[0])
    expect("the digest of this machine", made and here[1] == 0, here[0])
    print(f"here: {made[1] if made else here[0]}", flush=True)
    for machine in MACHINES:
        if not missing(f"the text without contracts on {machine.target}", machine.need):
            there = digest(machine, folder, root, variables)
            print(f"{machine.target}: {there[0].partition(', 0 differences')[0]}", flush=True)
            compare(f"what the calls return on {machine.target}", here, there)
            count(int(made[2]) if made and here == there else 0)
    without_std(root, variables)


def main():
    if missing("the text without contracts on other machines", "cargo", "oldest-rust", "crates", "dpkg-deb"):
        return ended()
    with tempfile.TemporaryDirectory() as scratch:
        folder = Path(scratch)
        root = Path(sys.argv[1]).resolve() if len(sys.argv) > 1 else folder / "root"
        if not (root / "usr").exists():
            if missing("the text without contracts on other machines", "debian-mirror"):
                return ended()
            root.mkdir(parents=True, exist_ok=True)
            fetch(root, folder / "apt")
        machines(folder, root)
    return ended()


if __name__ == "__main__":
    sys.exit(main())
