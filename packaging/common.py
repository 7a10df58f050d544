"""What the scripts that pack have in common: the machines, commands, sums, and files that say nothing of the machine or the time."""
import gzip
import hashlib
import io
import os
import re
import shutil
import subprocess
import tarfile
import tempfile
from pathlib import Path
from typing import NamedTuple

from targets import BUILT, KIT, TOP

HERE, DIST = TOP / "packaging", TOP / "dist"
# What is linked into the program or the library, by its name in the kit. (The kit has no licence for its own libraries.)
LINKED = ("arrayvec", "byteorder", "clap", "hex", "itoa", "sha2", "strsim", "thiserror")
# The crates for Rust, and what is built from its sources by who uses it.
CRATES = ("rust/core", "rust/capvet")
BINDINGS = ("bindings/go", *CRATES, "rust/capvet-capnp", "rust/capvet-capnp-rpc")


class Machine(NamedTuple):
    """A kind of processor: its name, Debian's name for it, the targets that it needs, where its program and archive are built, the C
    library that its shared library is linked against, its C compiler, its name in Go, and what its processors need."""
    name: str
    debian: str
    targets: tuple
    folder: Path
    libc: Path
    compiler: str
    go: str
    processor: str

    def built(self):
        """What is proved and built for it, each file with its name in BUILT."""
        names = {"capvet": self.folder / "capvet", "libcapvet.a": self.folder / "libcapvet.a"}
        return {f"{self.name}/{name}": path for name, path in names.items()} | {f"{self.name}/capvet-static": self.static()}

    def static(self):
        return BUILT / self.name / "capvet-static"


MACHINES = (
    Machine("x86_64", "amd64", ("static",), BUILT, KIT / "toolchain/lib/libc.so.6", "gcc", "amd64",
            "a processor with SSSE3, SSE4.1 and POPCNT (x86-64-v2)"),
    Machine("aarch64", "arm64", ("aarch64",), BUILT / "aarch64", Path("/usr/aarch64-linux-gnu/lib/libc.so.6"),
            "aarch64-linux-gnu-gcc", "arm64", "a processor of 64 bits (armv8-a)"),
)


def run(*command, **how):
    """The standard output of a command, which has to succeed."""
    return subprocess.run(command, cwd=how.pop("cwd", TOP), check=True, stdout=subprocess.PIPE, text=True, **how).stdout


def digest(path):
    return hashlib.sha256(path.read_bytes()).hexdigest()


def version():
    header = (TOP / "include/capvet.h").read_text()
    return ".".join(re.findall(r"^#define CAPVET_VERSION_(?:MAJOR|MINOR|PATCH) (\d+)$", header, re.M))


def version_text():
    """The version as the program prints it: with -dev while it isn't released."""
    return re.search(r"^## (\S+)", (TOP / "CHANGELOG.md").read_text(), re.M)[1]


def debian_version():
    """The version of Debian's packages: 2.0.0~dev is before 2.0.0 there."""
    return version_text().replace("-", "~")


def calls():
    """The calls of the header that the library exports."""
    header = re.sub(r"/\*.*?\*/", "", (TOP / "include/capvet.h").read_text(), flags=re.S)
    return re.findall(r"^(?!CAPVET_INLINE)\w+ \*?(capvet_\w+)\([^)]*\) CAPVET_NOEXCEPT;", header, re.M)


def when():
    """The time of every file, in seconds: SOURCE_DATE_EPOCH, or that of the commit."""
    return int(os.environ.get("SOURCE_DATE_EPOCH") or run("git", "log", "-1", "--format=%ct"))


def install(stage, program, archive, *variables):
    """What `make install` puts below a folder. (make reads no path with a blank, so that these are relative)"""
    built = (f"BUILT_{name}={path.relative_to(TOP)}" for name, path in (("PROGRAM", program), ("ARCHIVE", archive)))
    run("make", "-s", "install", f"DESTDIR={stage}", *built, *variables)


def shared(machine, file):
    """Links the objects of an archive into a shared library that exports the calls of the header and nothing else."""
    with tempfile.TemporaryDirectory() as folder:
        exports = Path(folder) / "exports"
        exports.write_text(f"CAPVET_2 {{ global: {'; '.join(calls())}; local: *; }};\n")
        run(str(KIT / "toolchain/bin/ld.lld"), "-shared", "--whole-archive", str(machine.folder / "libcapvet.a"),
            "--no-whole-archive", str(machine.libc), "-soname", "libcapvet.so.2", "--version-script", str(exports), "--no-undefined",
            "-z", "noexecstack", "-z", "relro", "-z", "now", "--build-id=none", "--hash-style=gnu", "--strip-all", "-o", str(file))
    file.chmod(0o644)


def tracked(*parts):
    """The files that git has of these files and folders."""
    return [Path(name) for name in run("git", "ls-files", "-z", "--", *parts).split("\0")[:-1]]


def copy_tracked(folder, *parts, below=""):
    """Copies what git has of these files and folders, each under its name without what is `below`."""
    for name in tracked(*parts):
        copy = folder / name.relative_to(below)
        copy.parent.mkdir(parents=True, exist_ok=True)
        shutil.copy(TOP / name, copy)


def copy_program(source, place):
    """Copies a program, which anybody may then run, whatever the mode of the source."""
    shutil.copyfile(source, place)
    place.chmod(0o755)


def entries(root):
    """The files below a folder in one order, each with its name there."""
    return sorted((path.relative_to(root).as_posix(), path) for path in root.rglob("*"))


def is_file(path):
    """Whether this is a file of its own, and no link."""
    return path.is_file() and not path.is_symlink()


def tarball(root, file, epoch):
    """Packs a folder under its own name, with all that depends on the machine set to one value."""
    text = io.BytesIO()
    with tarfile.open(fileobj=text, mode="w", format=tarfile.USTAR_FORMAT) as archive:
        for name, path in [("", root), *entries(root)]:
            entry = archive.gettarinfo(path, f"{root.name}/{name}".rstrip("/"))
            entry.mtime, entry.uid, entry.gid, entry.uname, entry.gname = epoch, 0, 0, "", ""
            entry.mode = 0o755 if path.is_dir() or path.stat().st_mode & 0o100 else 0o644
            with (open(path, "rb") if entry.isreg() else io.BytesIO()) as content:
                archive.addfile(entry, content)
    compress(text.getvalue(), file)


def compress(text, file):
    """Writes bytes compressed, without a name and a time."""
    with open(file, "wb") as out, gzip.GzipFile("", "wb", 9, out, mtime=0) as packed:
        packed.write(text)
