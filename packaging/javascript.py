"""Packs the package for JavaScript as npm does: one folder `package`, with what its `package.json` lists.

    javascript.py MODULE FILE

FILE becomes the tarball, with MODULE as the library and with the program, if that can be built.
"""
import shutil
import sys
import tempfile
from pathlib import Path

import plain_builds
from licences import of_debian
from common import BUILT, DIST, TOP, run, tarball, version, when

BUILDER = TOP / "bindings/js/build.mjs"


def pack(module, program, file, epoch):
    """Packs it with the module for WebAssembly and the program for WASI. Of the program it has the licences."""
    with tempfile.TemporaryDirectory() as scratch:
        root = Path(scratch) / "package"
        run("node", str(BUILDER), str(module), str(root), *([str(program)] if program else []))
        if program:
            packages = ["libstd-rust-dev-wasm32", "wasi-libc", *plain_builds.packages(plain_builds.WASI)]
            (root / "bin/LICENCES").write_text("\n".join(f"==== {name}\n\n{text}" for name, text in of_debian(packages).items()))
        tarball(root, file, epoch)


def program():
    """Builds the program for WASI, if its tools are there."""
    lacking = plain_builds.lacking(plain_builds.WASI)
    if lacking:
        print(f"dist: the package for JavaScript has no program: install {' '.join(lacking)}")
    return None if lacking else plain_builds.program(plain_builds.WASI)


def build(epoch):
    """Packs it, if it and Node are there, and the module for WebAssembly. The plain builds that it has."""
    if not BUILDER.is_file() or not (DIST / f"capvet-{version()}.wasm").is_file():
        return []
    if not shutil.which("node"):
        print("dist: the package for JavaScript isn't packed: install nodejs")
        return []
    made = program()
    pack(BUILT / "capvet.wasm", made, DIST / f"capvet-{version()}.tgz", epoch)
    return [made] if made else []


if __name__ == "__main__":
    pack(Path(sys.argv[1]), program(), Path(sys.argv[2]), when())
