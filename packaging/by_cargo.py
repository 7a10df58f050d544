#!/usr/bin/env python3
"""Builds the program and the library for C by cargo, of the proved text without its contracts: rust/capvet-cli and rust/capvet-c.

    by_cargo.py [--install] [--library | --program] [TARGET]
    by_cargo.py --can-build

TARGET is a target of Rust, such as x86_64-pc-windows-gnu. Without it this machine is the target. The files go to build/cargo, or to
build/cargo/TARGET. On Linux they are capvet, libcapvet.a and libcapvet.so.2. For MinGW they are capvet.exe, libcapvet.a, capvet-2.dll
and its import library libcapvet.dll.a. For others, as for macOS, they are what cargo makes. With --library or --program only this is
built.

Cargo and rustc are those of the path. The crates are those of Debian's packages where this machine has them. Else cargo takes them
from where its configuration says, which is crates.io at first. With --install a superuser of Debian installs what is missing of all
this, after a line that says so. If something is still missing, the status is 2, and one sentence says what. With --can-build nothing is
built, and the status says whether all is there.

cargo's archive has hundreds of objects with global symbols. Two archives of crates without std, as rustc makes them, may have the
same symbols, and don't link into one program then. So what the calls need becomes one object here, in which the calls alone are
global. The shared library is linked from that object, and on Linux with the name and the version node of the one that common.py
links from the proved archive.
"""
import argparse
import os
import re
import shutil
import subprocess
import sys
import tempfile
from pathlib import Path

from common import BUILT, TOP, calls, version

OUT, MINGW = BUILT / "cargo", "x86_64-pc-windows-gnu"
# What begins the names of the binary utilities and of gcc, for each target whose archive is made into one object.
PREFIXES = {"": "", MINGW: "x86_64-w64-mingw32-"} if sys.platform.startswith("linux") else {}
# LLVM's form of the code, for which Debian's tools take an object that has it, and what has a program for Windows export the calls.
SECTIONS = (".llvmbc", ".llvmcmd", ".drectve")
# The minor version of Rust that the crates need, the crates that they use, and where Debian's packages put these.
LEAST_RUST, CRATES, DEBIAN = 63, ("arrayvec", "byteorder", "clap", "hex", "itoa", "sha2"), Path("/usr/share/cargo/registry")
PACKAGES = ("cargo", "rustc", *(f"librust-{name}-dev" for name in CRATES))


def run(*command):
    subprocess.run([str(word) for word in command], check=True)


def is_rust_there():
    """Whether cargo is on the path, and a Rust that is new enough."""
    if not shutil.which("cargo") or not shutil.which("rustc"):
        return False
    printed = subprocess.run(["rustc", "--version"], capture_output=True, text=True).stdout
    found = re.match(r"rustc 1\.(\d+)", printed)
    return found is not None and int(found[1]) >= LEAST_RUST


def are_crates_installed():
    """Whether Debian's packages of all crates are installed."""
    return all(any(DEBIAN.glob(f"{name}-[0-9]*")) for name in CRATES)


def environment():
    """The variables for cargo. Where Debian's folder has the crates, they come from it."""
    if not are_crates_installed():
        return dict(os.environ)
    home = OUT / "home"
    home.mkdir(parents=True, exist_ok=True)
    (home / "config.toml").write_text(
        f'[source.crates-io]\nreplace-with = "debian"\n[source.debian]\ndirectory = "{DEBIAN}"\n[net]\noffline = true\n')
    return {**os.environ, "CARGO_HOME": str(home)}


def are_crates_there():
    """Whether cargo gets the crates, from Debian's folder or from elsewhere."""
    if are_crates_installed():
        return True
    words = ["cargo", "fetch", "--quiet", "--manifest-path", TOP / "rust/capvet-cli/Cargo.toml"]
    return subprocess.run(words, env={**os.environ, "CARGO_NET_RETRY": "0"}, capture_output=True).returncode == 0


def is_there():
    """Whether this machine has all that a build here needs."""
    return is_rust_there() and are_crates_there()


def install():
    """Installs what is missing, if that is Debian and its superuser asks."""
    if not shutil.which("apt-get") or os.geteuid() != 0:
        return
    packages = PACKAGES[2:] if is_rust_there() else PACKAGES
    print(f"by_cargo.py installs {' '.join(packages)}", flush=True)
    for words in (["update"], ["install", "--yes", "--no-install-recommends", *packages]):
        made = subprocess.run(["apt-get", "-q", *words], env={**os.environ, "DEBIAN_FRONTEND": "noninteractive"},
                              stdin=subprocess.DEVNULL, stdout=subprocess.PIPE, stderr=subprocess.STDOUT, text=True)
        if made.returncode:
            print(made.stdout, end="", file=sys.stderr)


def cargo(package, target):
    """Builds a package, and gives the folder of what cargo made."""
    made = Path(os.environ.get("CARGO_TARGET_DIR") or OUT / "target")
    folder = "rust/capvet-cli" if package == "capvet-cli" else "rust"
    words = ["cargo", "build", "--quiet", "--release", "--package", package, "--manifest-path", TOP / folder / "Cargo.toml",
             "--target-dir", made, *(["--target", target] if target else [])]
    subprocess.run(words, check=True, env=environment())
    return made / target / "release"


def one_object(whole, folder, prefix):
    """The object of all that the calls need of cargo's archive. No other symbol of it is global."""
    made, kept = folder / "capvet.o", folder / "calls"
    kept.write_text("".join(f"{name}\n" for name in calls()))
    run(f"{prefix}ld", "-r", "--gc-sections", *(word for name in calls() for word in ("-u", name)), whole, "-o", made)
    run(f"{prefix}objcopy", "--strip-debug", *(f"--remove-section={name}" for name in SECTIONS), made)
    run(f"{prefix}objcopy", f"--keep-global-symbols={kept}", made)
    return made


def shared(made, out, folder, target):
    """Links the object into a shared library that exports the calls of the header and nothing else."""
    major = version().split(".", maxsplit=1)[0]
    link = (f"{PREFIXES[target]}gcc", "-shared", "-s", made)
    if target == MINGW:
        # (the linker would write the time into the file, and make its address of the name of the folder)
        run(*link, f"-Wl,--no-insert-timestamp,--disable-auto-image-base,--out-implib,{out / 'libcapvet.dll.a'}",
            "-o", out / f"capvet-{major}.dll")
        return
    exports = folder / "exports"
    exports.write_text(f"CAPVET_{major} {{ global: {'; '.join(calls())}; local: *; }};\n")
    run(*link, f"-Wl,-soname,libcapvet.so.{major}", f"-Wl,--version-script={exports}",
        "-Wl,--no-undefined,-z,noexecstack,-z,relro,-z,now,--build-id=none,--hash-style=gnu", "-o", out / f"libcapvet.so.{major}")


def take(out, files):
    """Puts files into the folder, each under its name only once it is whole: others may read what was there."""
    for file in files:
        shutil.copy(file, out / f"{file.name}.new")
        (out / f"{file.name}.new").replace(out / file.name)


def library(out, target):
    made = cargo("capvet-c", target)
    if target not in PREFIXES:
        take(out, [file for file in made.glob("*capvet.*") if file.suffix != ".d"])
        return
    with tempfile.TemporaryDirectory() as scratch:
        folder, result = Path(scratch), Path(scratch) / "result"
        result.mkdir()
        whole = one_object(made / "libcapvet.a", folder, PREFIXES[target])
        run(f"{PREFIXES[target]}ar", "rcsD", result / "libcapvet.a", whole)
        shared(whole, result, folder, target)
        take(out, result.iterdir())


def program(out, target):
    made = cargo("capvet-cli", target)
    take(out, [made / name for name in ("capvet", "capvet.exe") if (made / name).is_file()])


def main(words):
    parser = argparse.ArgumentParser(usage=__doc__)
    parser.add_argument("--can-build", action="store_true")
    parser.add_argument("--install", action="store_true")
    parser.add_argument("--library", action="store_true")
    parser.add_argument("--program", action="store_true")
    parser.add_argument("target", nargs="?", default="")
    asked = parser.parse_args(words)
    if asked.can_build:
        return not is_there()
    if asked.install and not is_there():
        install()
    if not is_there():
        print(f"by_cargo.py: this needs cargo, Rust 1.{LEAST_RUST} or later, and the crates {', '.join(CRATES)}: "
              f"install Debian's packages {' '.join(PACKAGES)}, or let cargo reach crates.io", file=sys.stderr)
        return 2
    out = OUT / asked.target
    out.mkdir(parents=True, exist_ok=True)
    if not asked.program:
        library(out, asked.target)
    if not asked.library:
        program(out, asked.target)
    return 0


if __name__ == "__main__":
    try:
        sys.exit(main(sys.argv[1:]))
    except (OSError, subprocess.CalledProcessError) as failed:
        sys.exit(f"by_cargo.py: {failed}")
