#!/usr/bin/env python3
"""Runs scripts of tests/ in fresh roots of other releases of Debian, with the compilers, interpreters and libraries of each.

    releases.py PROGRAM ARCHIVE [--long] [--roots FOLDER]

Debian 13 (trixie) and unstable (sid) have newer versions of libcapnp, of the crate `capnp`, and of the tools. The scripts say what
they test. The program and the archive are those that were built on this machine. A root has the same packages of developers in each
release, and its versions are printed.

Without --long it is the root of Debian 13, and the scripts of SHORT. With --long it is every root, and all scripts. With --roots
FOLDER the roots are kept there, and those that are there aren't made again.

What a script doesn't test in a root is said in a line. A root that can't be made is a case that failed. The last line is 'N passed, M
failed', and the status is 1 if a case failed.
"""
import argparse
import re
import shutil
import sys
import tempfile
import time
from pathlib import Path

sys.path[1:1] = map(str, (Path(__file__).resolve().parents[1] / "tests").iterdir())

import chroots
from harness import ARCHIVE, PROGRAM, TOP, compare, count, ended, file_of
from needs import missing

SUITES = ("trixie", "sid")
PACKAGES = ("capnproto", "cargo", "clang", "cmake", "g++", "git", "golang-go", "libcapnp-dev", "libclang-rt-dev", "librust-arrayvec-dev",
            "librust-byteorder-dev", "librust-capnp-dev", "librust-capnp-futures-dev", "librust-capnp-rpc-dev", "librust-capnpc-dev",
            "librust-clap-dev", "librust-futures-dev", "librust-hex-dev", "librust-itoa-dev", "librust-sha2-dev", "librust-tokio-dev",
            "librust-tokio-util-dev", "jq", "make", "nodejs", "npm", "pkgconf", "procps", "python3-cffi", "python3-dev", "python3-hypothesis", "python3-pip",
            "python3-pytest", "python3-setuptools", "python3-venv", "python3-wheel", "rust-clippy", "rustc", "rustfmt", "valgrind")
# The scripts, each with its words: PROGRAM and ARCHIVE are the built ones.
SHORT = (["before_readers.py", "PROGRAM", "ARCHIVE"], ["attacks.py", "PROGRAM", "ARCHIVE"])
LONG = (["before_readers.py", "PROGRAM", "ARCHIVE"], ["attacks.py", "PROGRAM", "ARCHIVE", "--full"],
        ["readers.py", "PROGRAM", "--full", "--long"], ["upstream.py", "PROGRAM"], ["library.py", "PROGRAM", "ARCHIVE"],
        ["go.py", "PROGRAM", "ARCHIVE"], ["python.py", "PROGRAM", "ARCHIVE"], ["js.py", "PROGRAM", "ARCHIVE"], ["crates.py", "PROGRAM"],
        ["adapters.py"], ["plain_program.py", "PROGRAM"], ["rust_rpc.py", "PROGRAM", "ARCHIVE", "--full"])
# What is printed of a root: the versions that its tests are over.
VERSIONS = "libcapnp-dev librust-capnp-dev librust-capnp-rpc-dev g++ clang cmake rustc golang-go nodejs python3"
COUNTED = re.compile(r"(\d+) passed, (\d+) failed")
# (a script that hangs ends here, and the last line is missing)
MINUTES = 90


def versions(base, layer):
    """The versions of packages in a root."""
    text, _ = chroots.session(base, layer, f"dpkg-query -W -f '${{Package}} ${{Version}}, ' {VERSIONS}")
    shutil.rmtree(layer)
    return text.rstrip(", ")


def run(base, layer, words):
    """Runs a script in a root, over the tree of this script. What it writes there is in a layer too. The versions of crates that cargo
    has chosen on this machine are left out, since a root has others."""
    built = {"PROGRAM": "/srv/built/capvet", "ARCHIVE": "/srv/built/libcapvet.a"}
    mounts = f"""mkdir -p "$merged/srv/tree" "$merged/srv/built" '{layer}/tree' '{layer}/work-of-tree'
mount -t overlay overlay -o lowerdir='{TOP}',upperdir='{layer}/tree',workdir='{layer}/work-of-tree' "$merged/srv/tree"
find "$merged/srv/tree/rust" -name Cargo.lock -delete
cp '{PROGRAM}' "$merged/srv/built/capvet"
cp '{ARCHIVE}' "$merged/srv/built/libcapvet.a"
mount -t devpts -o newinstance,ptmxmode=0666 devpts "$merged/dev/pts" """
    script = f"""export HOME=/root LC_ALL=C.UTF-8
cd /tmp && exec timeout {60 * MINUTES} python3 /srv/tree/{file_of(words[0]).relative_to(TOP)} {' '.join(built.get(it, it) for it in words[1:])}"""
    text, _ = chroots.session(base, layer, script, mounts, 60 * MINUTES + 60)
    shutil.rmtree(layer)
    return text


def in_root(base, folder, scripts):
    """Runs scripts in a root. Their cases count as cases of this one."""
    print(f"== {base.name}: {versions(base, folder / 'layer')}", flush=True)
    for words in scripts:
        begin = time.monotonic()
        text = run(base, folder / "layer", words)
        counted = COUNTED.fullmatch(text.rstrip().rpartition("\n")[2])
        compare(f"{words[0]} on {base.name} ends with its last line", (True, ""), (counted is not None, "" if counted else text[-2000:]))
        if counted:
            count(int(counted[1]), int(counted[2]))
        for line in text.splitlines()[:-1]:
            if line.startswith("not tested"):
                print(f"{base.name}: {line}")
        if counted and int(counted[2]):
            print(text)
        print(f"{base.name}: {words[0]}: {counted[0] if counted else 'no last line'}, {time.monotonic() - begin:.0f} s", flush=True)


def main():
    parser = argparse.ArgumentParser(usage=__doc__.splitlines()[2].strip())
    parser.add_argument("built", nargs="*")
    parser.add_argument("--long", action="store_true")
    parser.add_argument("--roots", type=Path)
    asked = parser.parse_args()
    if missing("other releases of Debian", "root", "mmdebstrap", "debian-mirror"):
        return ended()
    with tempfile.TemporaryDirectory(prefix="releases-") as scratch:
        folder = Path(scratch)
        for suite in SUITES if asked.long else SUITES[:1]:
            base = (asked.roots or folder) / suite
            error = "" if base.is_dir() else chroots.make(base, suite, PACKAGES)
            # (the mirror may lack a package of unstable for some days)
            compare(f"the root of Debian's {suite}", "", error)
            if not error:
                in_root(base, folder, LONG if asked.long else SHORT)
            if not asked.roots:
                shutil.rmtree(base, ignore_errors=True)
    return ended()


if __name__ == "__main__":
    sys.exit(main())
