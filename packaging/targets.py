#!/usr/bin/env python3
"""Builds the proved program and library for other machines, over what `make build` has proved.

    targets.py TARGET..

    static     build/x86_64/capvet-static: the program for any Linux on x86-64, as one file without a loader
    aarch64    build/aarch64: capvet and libcapvet.a for Linux on arm64, and capvet-static
    wasm       build/capvet.wasm: the library as a WebAssembly module with 32-bit memory

Rattle's compiler makes the object files; it builds only proved code, and proves again what the crate of the program or of the
exports has itself. The other steps are not proved: the linkers of gcc, packaging/host.c, and packaging/lowering.py, which turns
64-bit memory into 32-bit memory by binaryen's `wasm-opt`. A target whose tools are missing ends in status 2, with the package to
install. Files that were made of the same program and library are kept.
"""
import fcntl
import hashlib
import re
import shutil
import subprocess
import sys
import tempfile
from pathlib import Path

from lowering import lower

TOP = Path(__file__).resolve().parent.parent
BUILT = TOP / "build"
KIT = Path(shutil.which("rt") or "/").resolve().parent.parent
HOST, LOWERING = TOP / "packaging/host.c", TOP / "packaging/lowering.py"
ARM, WASM = "aarch64-unknown-linux-gnu", "wasm64-unknown-unknown"
# For each target what it makes, and the tools that it needs with their Debian packages.
TARGETS = {
    "static": (("x86_64/capvet-static",), {"gcc": "gcc libc6-dev"}),
    "aarch64": (("aarch64/capvet", "aarch64/capvet-static", "aarch64/libcapvet.a"),
                {"aarch64-linux-gnu-gcc": "gcc-aarch64-linux-gnu libc6-dev-arm64-cross"}),
    "wasm": (("capvet.wasm",), {"wasm-opt": "binaryen"}),
}


def keep_report(crate, text):
    """Keeps the lines of the prover that say what a crate's verdict rests on, as docs/proofs.md quotes them. (if nothing has changed,
    `rt` checks nothing, and writes none)"""
    lines = re.findall(r"^(?:axioms|statements|logic=proved).*$", text, re.M)
    if any(line.startswith("logic=proved") for line in lines):
        BUILT.mkdir(exist_ok=True)
        (BUILT / f"{crate}.report").write_text("".join(f"{line}\n" for line in lines))


def externs(root, crate):
    """The options that name the libraries of a crate, with those below them."""
    lines = (TOP / "crates.txt").read_text().splitlines()
    uses = next(line.partition(":")[2].split() for line in lines if line.split(":")[0].split()[:1] == [crate])
    words = ["--extern", f"std={KIT}/rlibs/std.rlib", "-L", f"dependency={KIT}/rlibs"]
    for name in uses:
        words += ["--extern", f"{name}={root}/crates/{name}/out/rlib/{name}.rlib"]
    for folder in sorted(root.glob("crates/*/out/rlib")):
        words += ["-L", f"dependency={folder}"]
    return words


def compile_crate(root, crate, out, scratch, *words):
    """Builds the program `capvet` or the library `capvet_c`, whose libraries are proved below root. What is proved here begins
    with a copy of what `rt` kept there, and is kept in `scratch` for the next target. Whether it is built."""
    kept = root / "crates" / crate / "out/incremental"
    if kept.is_dir() and not (scratch / crate).is_dir():
        shutil.copytree(kept, scratch / crate)
    kind = [] if crate == "capvet" else ["--crate-type", "staticlib"]
    source = "src/main.rt" if crate == "capvet" else "src/lib.rt"
    command = [KIT / "bin/rattle", "build", "--crate-name", crate, source, *kind, "--links", f"{crate}=", *externs(root, crate),
               "--antt-project", KIT / "rattle/logic/antt-project.json", "--logic-built", KIT / "logic_built",
               "--incremental", scratch / crate, "--toolchain", KIT / "toolchain", "--jobs", "4", *words, "-o", out]
    ran = subprocess.run(command, cwd=root / "crates" / crate, stdout=subprocess.PIPE, text=True, errors="replace")
    print(ran.stdout, end="", flush=True)
    if ran.returncode == 0 and not words:
        keep_report(crate, ran.stdout)
    return ran.returncode == 0


def link(compiler, options, objects, out):
    words = [compiler, "-O2", "-std=c11", "-Wall", "-Wextra", "-Werror", *options, HOST, *objects, "-Wl,-z,noexecstack", "-s", "-o", out]
    return subprocess.run(words).returncode == 0


def aligned(made):
    """Lets each function of an object file begin at a cache line. (Without this `unpack` took 1.15 times as long.)"""
    return subprocess.run(["objcopy", "--set-section-alignment", ".text.*=64", made]).returncode == 0


def static(root, scratch):
    made = scratch / "capvet-x86_64.o"
    return (compile_crate(root, "capvet", made, scratch) and aligned(made)
            and link("gcc", ["-static"], [made], BUILT / "x86_64/capvet-static"))


def aarch64(root, scratch):
    made, folder, compiler = scratch / "capvet-aarch64.o", BUILT / "aarch64", "aarch64-linux-gnu-gcc"
    return (compile_crate(root, "capvet", made, scratch, "--target", ARM)
            and compile_crate(root, "capvet_c", folder / "libcapvet.a", scratch, "--target", ARM)
            and link(compiler, [], [made], folder / "capvet") and link(compiler, ["-static"], [made], folder / "capvet-static"))


def wasm(root, scratch):
    archive, module = scratch / "libcapvet-wasm.a", scratch / "capvet-64.wasm"
    if not compile_crate(root, "capvet_c", archive, scratch, "--target", WASM):
        return False
    words = [KIT / "bin/rattle-link", "--target", WASM, "--toolchain", KIT / "toolchain", "-o", module, archive]
    return not subprocess.run(words).returncode and lower(module, scratch, BUILT / "capvet.wasm")


def is_there(tool):
    """Whether this machine has a tool. Of a compiler it also needs the headers and the static C library, which are packages of
    their own."""
    if not shutil.which(tool) or not tool.endswith("gcc"):
        return shutil.which(tool) is not None
    with tempfile.TemporaryDirectory() as folder:
        words, text = [tool, "-static", "-x", "c", "-", "-o", f"{folder}/empty"], "#include <stdlib.h>\nint main(void) { exit(0); }\n"
        return subprocess.run(words, input=text, text=True, capture_output=True).returncode == 0


def lacking(name):
    """The tools that a target needs and this machine has not, each with its Debian packages."""
    return {tool: packages for tool, packages in TARGETS[name][1].items() if not is_there(tool)}


def stamp():
    """The checksum of what is built for this machine, which changes with the code and the toolchain."""
    whole = hashlib.sha256(b"".join(file.read_bytes() for file in (HOST, LOWERING, Path(__file__))))
    for name in ("capvet", "libcapvet.a"):
        whole.update((BUILT / name).read_bytes())
    return whole.hexdigest()


def is_kept(name):
    """Whether the files of a target are there, and were made beside the program and the library that are in build/ now."""
    mark = BUILT / f"{name}.of"
    return all((BUILT / it).is_file() for it in TARGETS[name][0]) and mark.is_file() and mark.read_text() == stamp()


def build(names, root, scratch):
    """Builds the targets over the libraries that are proved below root. Whether all were built."""
    for name in names:
        (BUILT / f"{name}.of").unlink(missing_ok=True)
        for it in TARGETS[name][0]:
            (BUILT / it).parent.mkdir(parents=True, exist_ok=True)
        if not {"static": static, "aarch64": aarch64, "wasm": wasm}[name](root, scratch):
            return False
        (BUILT / f"{name}.of").write_text(stamp())
    return True


def main(names):
    if not names or not set(names) <= set(TARGETS):
        sys.exit(__doc__)
    for name in names:
        # (scripts that run side by side build a target once)
        with open(BUILT / f"{name}.lock", "w") as lock:
            fcntl.flock(lock, fcntl.LOCK_EX)
            if is_kept(name):
                continue
            for tool, package in lacking(name).items():
                print(f"targets: {name} needs {tool}: install {package}", file=sys.stderr)
                return 2
            with tempfile.TemporaryDirectory(prefix="capvet-targets-") as folder:
                if not build([name], TOP, Path(folder)):
                    return 1
    return 0


if __name__ == "__main__":
    sys.exit(main(sys.argv[1:]))
