"""Packs the zip for Windows: the plain program and the plain library for C, which Debian's Rust and MinGW build.

    make_windows_zip.py FILE
"""
import shutil
import sys
import tempfile
import time
import zipfile
from pathlib import Path

import plain_builds
from licences import of_debian
from common import DIST, HERE, TOP, entries, version, when

# What the program and the DLL have inside, beside the crates.
RUNTIME = ("libstd-rust-dev-windows", "mingw-w64-x86-64-dev", "gcc-mingw-w64-x86-64")


def collect(root):
    """Puts the files of the zip into a folder. The plain builds among them."""
    library = plain_builds.library(plain_builds.WINDOWS)
    made = [plain_builds.program(plain_builds.WINDOWS), library / "capvet-2.dll"]
    for file in (*made, library / "libcapvet.dll.a", TOP / "include/capvet.h"):
        shutil.copyfile(file, root / file.name)
    page = (HERE / "README-windows.md").read_text().replace("@version@", version())
    (root / "README.md").write_text(page)
    for name, text in of_debian([*RUNTIME, *plain_builds.packages(plain_builds.WINDOWS)]).items():
        (root / "licences").mkdir(exist_ok=True)
        (root / f"licences/{name}.txt").write_text(text)
    return made


def pack(file, epoch):
    """Packs it, with all that depends on the machine and the time set to one value. The plain builds in it."""
    with tempfile.TemporaryDirectory() as scratch:
        root = Path(scratch) / f"capvet-{version()}-x86_64-windows"
        root.mkdir()
        made = collect(root)
        with zipfile.ZipFile(file, "w") as packed:
            for name, path in entries(root):
                entry = zipfile.ZipInfo(f"{root.name}/{name}", time.gmtime(epoch)[:6])
                entry.compress_type, entry.external_attr = zipfile.ZIP_DEFLATED, 0o644 << 16
                if path.is_file():
                    packed.writestr(entry, path.read_bytes(), compresslevel=9)
    return made


def build(epoch):
    """Packs it into dist/, if its tools are there. The plain builds in it."""
    lacking = plain_builds.lacking(plain_builds.WINDOWS)
    if lacking:
        print(f"dist: nothing for Windows is packed: install {' '.join(lacking)}")
        return []
    return pack(DIST / f"capvet-{version()}-x86_64-windows.zip", epoch)


if __name__ == "__main__":
    pack(Path(sys.argv[1]), when())
