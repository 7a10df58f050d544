"""Builds the plain program, the proved text without its contracts, for targets that Rattle's compiler builds no program for.

    plain_builds.py TARGET

TARGET is wasm32-wasi or x86_64-pc-windows-gnu. The program is put into build/cargo/TARGET, and its name is printed.

Debian's Rust builds it, which has a std for these targets, of Debian's crates.
"""
import os
import shutil
import subprocess
import sys
from pathlib import Path

from common import BUILT, TOP

RUST, CRATES, LIBRARIES = Path("/usr/bin"), Path("/usr/share/cargo/registry"), Path("/usr/lib/rustlib")
WASI, WINDOWS = "wasm32-wasi", "x86_64-pc-windows-gnu"
# For each target the name of the program, and what has to be there, each with its Debian package.
PROGRAMS = {WASI: "capvet.wasm", WINDOWS: "capvet.exe"}
NEEDED = {"cargo": RUST / "cargo", "rustc": RUST / "rustc"}
NEEDED_FOR = {WASI: {"libstd-rust-dev-wasm32": LIBRARIES / WASI, "wasi-libc": Path("/usr/lib/wasm32-wasi"), "lld-14": Path("/usr/bin/lld-14")},
              WINDOWS: {"libstd-rust-dev-windows": LIBRARIES / WINDOWS, "gcc-mingw-w64-x86-64": Path("/usr/bin/x86_64-w64-mingw32-gcc")}}
CRATES_NEEDED = ("arrayvec", "byteorder", "clap", "hex", "itoa", "sha2")


def lacking(target):
    """The Debian packages that a build for this target lacks."""
    files = [name for name, path in {**NEEDED, **NEEDED_FOR[target]}.items() if not path.exists()]
    return files + [f"librust-{name}-dev" for name in CRATES_NEEDED if not any(CRATES.glob(f"{name}-[0-9]*"))]


def environment():
    """The variables for cargo: crates come from Debian's folder, the linker for Windows writes no time into a file, and no text of a
    panic has the folder in it. (a folder may have a blank, so the flags are not those of RUSTFLAGS)"""
    home = BUILT / "cargo/home"
    home.mkdir(parents=True, exist_ok=True)
    (home / "config.toml").write_text(
        f'[source.crates-io]\nreplace-with = "debian"\n[source.debian]\ndirectory = "{CRATES}"\n[net]\noffline = true\n')
    flags = [f"--remap-path-prefix={folder}=rust" for folder in (BUILT / "cargo/workspace", TOP / "rust")]
    return {**os.environ, "PATH": f"{RUST}:{os.environ['PATH']}", "CARGO_HOME": str(home), "SOURCE_DATE_EPOCH": "0",
            "CARGO_ENCODED_RUSTFLAGS": "\x1f".join(flags)}


def linked(link, to):
    link.parent.mkdir(parents=True, exist_ok=True)
    if not link.is_symlink():
        link.symlink_to(to)


def workspace():
    """The manifest of a workspace that has the program and rust/core as members. rust/capvet-cli is a workspace of its own, so that
    cargo names rust/core by its whole path. This gets into the symbols, and so into the order of the functions: two clones would
    make different files. (links keep the times of the sources, by which cargo knows what has changed)"""
    root = BUILT / "cargo/workspace"
    linked(root / "core", TOP / "rust/core")
    linked(root / "capvet-cli/src", TOP / "rust/capvet-cli/src")
    package, profile, settings = (TOP / "rust/capvet-cli/Cargo.toml").read_text().partition("[profile.release]\n")
    for file, text in ((root / "capvet-cli/Cargo.toml", package), (root / "Cargo.toml", f'{profile}{settings}members = ["capvet-cli"]\n')):
        if not file.is_file() or file.read_text() != text:
            file.write_text(text)
    return root / "Cargo.toml"


def program(target):
    """Builds the program for a target, and gives its file in build/cargo/TARGET."""
    made, out = BUILT / "cargo/target-debian", BUILT / "cargo" / target
    subprocess.run(["cargo", "build", "--quiet", "--release", "--package", "capvet-cli", "--manifest-path", workspace(), "--target-dir", made,
                    "--target", target], check=True, env={**environment(), "CARGO_PROFILE_RELEASE_STRIP": "symbols"})
    out.mkdir(parents=True, exist_ok=True)
    return Path(shutil.copy(made / target / "release" / PROGRAMS[target], out))


def library(target):
    """Builds the library for C for a target, and gives its folder."""
    own = {**environment(), "CARGO_TARGET_DIR": str(BUILT / "cargo/target-debian")}
    subprocess.run([sys.executable, TOP / "packaging/by_cargo.py", "--library", target], check=True, env=own)
    return BUILT / "cargo" / target


def packages(target):
    """The Debian packages of the crates that are linked into the program for a target."""
    words = ["cargo", "tree", "--package", "capvet-cli", "--manifest-path", workspace(), "--target", target, "--edges", "normal",
             "--prefix", "none", "--format", "{p}"]
    printed = subprocess.run(words, check=True, env=environment(), stdout=subprocess.PIPE, text=True).stdout
    names = sorted({line.split()[0] for line in printed.splitlines()} - {"capvet-cli", "capvet-core"})
    return [f"librust-{name.replace('_', '-')}-dev" for name in names]


if __name__ == "__main__":
    needed = lacking(sys.argv[1])
    if needed:
        sys.exit(f"plain_builds.py: install {' '.join(needed)}")
    print(program(sys.argv[1]).relative_to(TOP))
