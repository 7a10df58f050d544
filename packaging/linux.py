"""Makes the archive for any Linux: the static programs, the library, its bindings, and pages."""
import shutil
import sys

import licences
import shipped_pages
from common import BINDINGS, BUILT, DIST, HERE, TOP, copy_program, copy_tracked, entries, install, shared, tarball, version

# Prefix of the staged tree. It doesn't stay in any file of the archive.
STAGED = "/staged-capvet"


def relocate(root):
    """Makes each description find its files from its own place."""
    for file in root.glob("lib/pkgconfig/*.pc"):
        text = file.read_text().replace(f"prefix={STAGED}\n", "prefix=@\n", 1).replace(STAGED, "${prefix}")
        file.write_text(text.replace("prefix=@\n", "prefix=${pcfiledir}/../..\n"))
    left = [name for name, path in entries(root) if path.is_file() and STAGED.encode() in path.read_bytes()]
    if left:
        sys.exit(f"dist: {left} have the folder of the staged tree")


def licences_of(root, has_guard):
    """The licences of what is linked into the programs and the library."""
    for name, texts in licences.of_crates().items():
        (root / name).mkdir(parents=True)
        for text in texts:
            shutil.copyfile(text, root / name / text.name)
    linked = {"libc6": open("/usr/share/doc/libc6/copyright", encoding="utf-8").read()} | (licences.of_go() if has_guard else {})
    for name, text in linked.items():
        (root / name).mkdir()
        (root / name / "copyright").write_text(text)


def archive(scratch, machine, guard, others, built, epoch):
    """The archive for a machine. `others` are files of dist/ that it has too, each with its folder."""
    root = scratch / f"capvet-{version()}-{machine.name}-linux"
    install(scratch / "stage", machine.static(), machine.folder / "libcapvet.a", f"PREFIX={STAGED}")
    shutil.move(scratch / f"stage{STAGED}", root)
    shared(machine, root / "lib/libcapvet.so.2")
    relocate(root)
    if guard:
        copy_program(guard, root / "bin/capvet-guard")
        shutil.copy(TOP / "docs/capvet-guard.1", root / "share/man/man1")
        copy_tracked(root / "share/systemd", "guard/systemd", below="guard/systemd")
    copy_tracked(root, *BINDINGS)
    for place, file in others:
        (root / place).mkdir(exist_ok=True)
        shutil.copy(file, root / place)
    if (BUILT / "inspector.html").is_file():
        shutil.copy(BUILT / "inspector.html", root / "share")
    shutil.copy(HERE / "Containerfile", root)
    shipped_pages.write(root, "archive", {"machine": machine.name, "processor": machine.processor})
    licences_of(root / "licences", guard is not None)
    (root / "BUILT").write_text(built)
    tarball(root, DIST / f"{root.name}.tar.gz", epoch)
