#!/usr/bin/env python3
"""The tools and libraries that the scripts need, and the packages of Debian 12 that have them.

    needs.py            prints the packages that this machine lacks, one a line

A script prints a line for each part that it doesn't test for lack of something:

    not tested, without go (install golang-go): the Go package

The name after 'without' is a name of NEEDS. tools/all.py collects these lines. The status of needs.py is 1 if something is
missing that no package has, and a line on standard error names it.
"""
import functools
import os
import re
import resource
import shutil
import subprocess
import sys
import tempfile
import urllib.request
from pathlib import Path

TOP = Path(__file__).resolve().parents[2]
# The folder of crates: where Debian's packages put them, or the one that the variable CAPVET_CRATES names.
CRATES = Path(os.environ.get("CAPVET_CRATES", "/usr/share/cargo/registry"))
# The minor version of Rust that the crates need.
LEAST_RUST = 63
# Commands, each with its package.
COMMANDS = {"aarch64-linux-gnu-gcc": "gcc-aarch64-linux-gnu libc6-dev-arm64-cross", "arch-test": "arch-test", "bash": "bash",
            "buildah": "buildah", "c++": "g++", "capnp": "capnproto", "cargo": "cargo", "cargo-clippy": "rust-clippy",
            "cc": "gcc libc6-dev", "chromium": "chromium", "clang": "clang", "clang++": "clang", "cmake": "cmake", "coqc": "coq", "dpkg": "dpkg",
            "dpkg-deb": "dpkg", "dpkg-scanpackages": "dpkg-dev", "esbuild": "esbuild", "fish": "fish", "g++": "g++", "gcc": "gcc libc6-dev", "git": "git",
            "go": "golang-go", "go-staticcheck": "go-staticcheck", "haproxy": "haproxy", "jq": "jq", "lintian": "lintian", "llvm-cov-14": "llvm-14",
            "make": "make", "man": "man-db", "mmdebstrap": "mmdebstrap", "mypy": "mypy", "node": "nodejs", "npm": "npm", "ocamlopt": "ocaml", "openssl": "openssl",
            "parallel": "parallel", "pkg-config": "pkg-config", "qemu-aarch64": "qemu-user",
            "qemu-aarch64-static": "qemu-user-static", "qemu-s390x": "qemu-user", "qemu-x86_64": "qemu-user", "readelf": "binutils", "rt": "",
            "rustc": "rustc", "rustfmt": "rustfmt", "socat": "socat", "systemd-analyze": "systemd", "tsc": "node-typescript", "twine": "twine", "unzip": "unzip", "valgrind": "valgrind",
            "wasm-opt": "binaryen", "wine": "wine wine64", "x86_64-w64-mingw32-gcc": "gcc-mingw-w64-x86-64", "zsh": "zsh"}
# Modules of Python, by the name of what they are for.
MODULES = {"wheel": ("cffi, setuptools, venv, wheel", "python3-cffi python3-setuptools python3-venv python3-wheel"),
           "pytest": ("hypothesis, pytest", "python3-pytest python3-hypothesis"),
           "coverage": ("coverage", "python3-coverage"),
           "dask": ("distributed, fsspec, _cffi_backend", "python3-distributed python3-cffi")}
# Libraries, by a command that succeeds where they are there.
LIBRARIES = {"libcapnp": (("pkg-config", "--exists", "capnp-rpc"), "libcapnp-dev"),
             "libcrypto": (("pkg-config", "--exists", "libcrypto"), "libssl-dev")}
# Crates, by their folders.
SOURCES = {"crates": ("itoa-1.*", "librust-arrayvec-dev librust-byteorder-dev librust-hex-dev librust-itoa-dev"),
           "crate-clap": ("clap-4.*", "librust-clap-dev"),
           "crate-sha2": ("sha2-0.1[01].*", "librust-sha2-dev"),
           "crate-capnp": ("capnp-0.*", "librust-capnp-dev"),
           "crate-capnp-rpc": ("capnp-rpc-0.*", "librust-capnp-rpc-dev librust-futures-dev"),
           "crate-capnpc": ("capnpc-0.*", "librust-capnpc-dev"),
           "crate-tokio": ("tokio-util-0.7.*", "librust-tokio-dev librust-tokio-util-dev")}
# Compilers, each with its language. (their packages only recommend the headers and libraries that a program needs)
COMPILERS = {"aarch64-linux-gnu-gcc": "c", "cc": "c", "gcc": "c", "clang": "c", "c++": "c++", "g++": "c++", "clang++": "c++"}
# Where Debian's packages of Go libraries put them, and the libraries of the guard.
GOCODE = Path("/usr/share/gocode/src")
GO_LIBRARIES = {"go-prometheus": ("github.com/prometheus/client_golang", "golang-github-prometheus-client-golang-dev"),
                "go-proxyproto": ("github.com/pires/go-proxyproto", "golang-github-pires-go-proxyproto-dev"),
                "go-systemd": ("github.com/coreos/go-systemd/activation", "golang-github-coreos-go-systemd-dev")}
# How many descriptors a process has to get for a test of many connections. (`ulimit -Hn` says how many it gets)
DESCRIPTORS = 10100
# Debian's own Rust, which is the oldest one that the crates are written for. Another may be before it on the path.
OLDEST_RUST = Path("/usr/bin")
# The compilers' own libraries for checks of memory.
CHECKS = {"checks-clang": ("clang++", "libclang-rt-14-dev"), "checks-gcc": ("c++", "libgcc-12-dev")}
# What is made of this tree, each with the command that makes it.
MADE = {"proved-crates": "make build"}
# The packages of each name.
NEEDS = COMMANDS | dict.fromkeys(MADE, "") | {"oldest-rust": "cargo rustc", "rust-for-wasi": "libstd-rust-dev-wasm32 wasi-libc lld-14",
                    "rust-for-windows": "libstd-rust-dev-windows", "root": "", "descriptors": "", "debian-mirror": ""} | {
    name: packages for part in (MODULES, LIBRARIES, SOURCES, GO_LIBRARIES, CHECKS) for name, (_, packages) in part.items()}


def output(*command):
    """What a command writes, or nothing where it isn't there."""
    return subprocess.run(command, capture_output=True, text=True).stdout if shutil.which(command[0]) else ""


def succeeds(command, **how):
    """Whether a command is there and ends with status 0."""
    if not shutil.which(command[0]):
        return False
    return subprocess.run(command, capture_output=True, text=True, **how).returncode == 0


def is_there(address):
    """Whether a server has a file."""
    try:
        urllib.request.urlopen(address, timeout=120).close()
    except OSError:
        return False
    return True


@functools.cache
def mirror():
    """The server that apt has Debian's packages from on this machine, for roots of Debian. Nothing if there is none."""
    sites = output("apt-get", "indextargets", "--format", "$(SITE)").split()
    return next((site for site in sites if site.endswith("/debian")), "")


@functools.cache
def python_with(modules):
    """The first interpreter that has these modules: Debian's, the one on the path, or this one."""
    for name in ("/usr/bin/python3", "python3", sys.executable):
        if succeeds((name, "-c", f"import {modules}")):
            return shutil.which(name)
    return None


def minors(folder=CRATES):
    """The minor versions of the crate `capnp` in a folder of crates, the newest first."""
    found = {int(it[1]) for path in folder.glob("capnp-0.*") if (it := re.fullmatch(r"capnp-0\.(\d+)\.\d+", path.name))}
    return [f"0.{number}" for number in sorted(found, reverse=True)]


@functools.cache
def capnp():
    """The minor version of the crate `capnp` that the tests use on this machine."""
    return minors()[0]


def compiles(compiler, language, *options):
    """Whether a compiler is there, and makes a program that the C library is linked into."""
    text = "#include <stdlib.h>\nint main(void) { exit(0); }\n"
    with tempfile.TemporaryDirectory() as folder:
        return succeeds((compiler, *options, "-x", language, "-", "-o", "empty"), input=text, cwd=folder)


@functools.cache
def has(name):
    """Whether this machine has what is meant by a name of NEEDS."""
    if name in MODULES:
        return python_with(MODULES[name][0]) is not None
    if name in LIBRARIES:
        return succeeds(LIBRARIES[name][0])
    if name in COMPILERS:
        return compiles(name, COMPILERS[name])
    if name == "debian-mirror":
        return mirror() != "" and is_there(f"{mirror()}/dists/bookworm/Release")
    if name == "root":
        return os.geteuid() == 0
    if name == "proved-crates":
        return is_kept("wasm") or has("rt") and (TOP / "crates/cap_calls/out/rlib/cap_calls.rlib").is_file()
    if name == "oldest-rust":
        return all((OLDEST_RUST / tool).exists() for tool in ("cargo", "rustc"))
    if name == "rust-for-wasi":
        return any(Path("/usr/lib/rustlib/wasm32-wasi/lib").glob("libcore-*")) and has("lld-14") and Path("/usr/lib/wasm32-wasi").is_dir()
    if name == "rust-for-windows":
        return any(Path("/usr/lib/rustlib/x86_64-pc-windows-gnu/lib").glob("libcore-*"))
    if name == "crate-capnpc" and minors() in ([], ["0.14"]):
        # (Debian 12 has no package of it. For its `capnp` the tests have the code, written by hand)
        return True
    if name in SOURCES:
        return any(CRATES.glob(SOURCES[name][0]))
    if name == "descriptors":
        return resource.getrlimit(resource.RLIMIT_NOFILE)[1] >= DESCRIPTORS
    if name in GO_LIBRARIES:
        return (GOCODE / GO_LIBRARIES[name][0]).is_dir()
    if name in CHECKS:
        return compiles(CHECKS[name][0], "c++", "-fsanitize=address,undefined")
    if name == "rustc":
        version = re.match(r"rustc 1\.(\d+)", output("rustc", "--version"))
        return version is not None and int(version[1]) >= LEAST_RUST
    return shutil.which(name) is not None


def path_without(tool, folder):
    """Makes a folder the only one of a path that has all commands of this machine but one."""
    for part in reversed(os.environ["PATH"].split(":")):
        for file in Path(part).glob("*") if part else ():
            if file.name != tool:
                (folder / file.name).unlink(missing_ok=True)
                (folder / file.name).symlink_to(file)
    return str(folder)


def line(what, name):
    """The line that says what isn't tested without the thing of this name."""
    remedy = f"install {NEEDS[name]}" if NEEDS[name] else MADE.get(name, "no package has it")
    return f"not tested, without {name} ({remedy}): {what}"


def is_kept(target):
    """Whether build/ has what is built for another machine, beside the proved program and library that are there now."""
    # (the source distribution for Python has this file without packaging/)
    sys.path.append(str(TOP / "packaging"))
    try:
        import targets
    except ImportError:
        return False
    return targets.is_kept(target)


def missing(what, *names):
    """Whether this machine lacks one of these. A line then says what isn't tested, without the first that is missing."""
    absent = next((name for name in names if not has(name)), None)
    if absent is not None:
        print(line(what, absent))
    return absent is not None


def main():
    lacking = [name for name in NEEDS if name not in MADE and not has(name)]
    print("".join(f"{it}\n" for it in sorted({it for name in lacking for it in NEEDS[name].split()})), end="")
    unpackaged = [name for name in lacking if not NEEDS[name]]
    for name in unpackaged:
        print(f"needs.py: {name} is missing, and no package has it", file=sys.stderr)
    return len(unpackaged) > 0


if __name__ == "__main__":
    sys.exit(main())
