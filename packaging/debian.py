"""Makes the Debian packages, and a repository of them for apt.

Everything that is packed is put below one folder first, as it is installed. A folder debian/NAME describes a package: `control` has
its fields, and `install` the paths of the files that it takes. A file of the folder that no package takes, or that two take, is an
error. A package is left out if nothing of it is built. Other files of debian/NAME go into the package as they are: scripts of the
maintainer, `symbols`, `shlibs`, `triggers`, and `overrides` for lintian. In each of them @version@ and the like get their values.
"""
import hashlib
import os
import re
import shutil
import sys
import zipfile
from email.utils import formatdate

import adapter_manifests
import licences
import shipped_pages
from common import (BUILT, CRATES, DIST, HERE, TOP, compress, copy_program, copy_tracked, debian_version, digest, entries, install, is_file,
                     run, shared)

# Who packs it. (No mail reaches a domain `invalid`.)
MAINTAINER = os.environ.get("MAINTAINER", "The owner of the repository <owner@capvet.invalid>")
# Files of debian/NAME that have another place in the package than DEBIAN/.
DESCRIPTIONS = ("control", "install", "overrides")
REGISTRY, GOCODE = "usr/share/cargo/registry", "usr/share/gocode/src/capvet.invalid/capvet"


def stage(root, machine, guard, wheel):
    """Puts all that is packed below a folder, as it is installed."""
    libraries = f"usr/lib/{machine.name}-linux-gnu"
    install(root, machine.folder / "capvet", machine.folder / "libcapvet.a", "PREFIX=/usr", f"libdir=/{libraries}",
            "zshdir=/usr/share/zsh/vendor-completions")
    shared(machine, root / libraries / "libcapvet.so.2")
    (root / libraries / "libcapvet.so").symlink_to("libcapvet.so.2")
    if guard:
        copy_program(guard, root / "usr/bin/capvet-guard")
        copy_tracked(root / "usr/lib/systemd/system", "guard/systemd", below="guard/systemd")
        shutil.copy(TOP / "docs/capvet-guard.1", root / "usr/share/man/man1")
    if wheel:
        with zipfile.ZipFile(wheel) as archive:
            names = [name for name in archive.namelist() if not name.endswith("/RECORD")]
            archive.extractall(root / "usr/lib/python3/dist-packages", names)
        # (what runs needs only the part of cffi that python3-cffi-backend has, of which pip knows nothing)
        metadata = next(root.glob("usr/lib/python3/dist-packages/*.dist-info/METADATA"))
        metadata.write_text(re.sub(r"^Requires-Dist: cffi.*\n", "", metadata.read_text(), flags=re.M))
    crates(root / REGISTRY)
    copy_tracked(root / GOCODE, "bindings/go", below="bindings/go")
    if (BUILT / "inspector.html").is_file():
        (root / "usr/share/capvet").mkdir()
        shutil.copy(BUILT / "inspector.html", root / "usr/share/capvet")
    shipped_pages.write(root / "usr/share/doc/capvet", "debian", {})
    for page in root.glob("usr/share/man/man?/*"):
        compress(page.read_bytes(), f"{page}.gz")
        page.unlink()


def crates(registry):
    """The crates, as cargo's folder of crates has them. The versions of an adapter have one source, in the folder of the newest."""
    for folder in CRATES:
        # (the documentation of a crate may begin with its README)
        parts = [f"{folder}/src", *[f"{folder}/README.md"] * (TOP / folder / "README.md").exists()]
        copy_tracked(add_crate(registry, (TOP / folder / "Cargo.toml").read_text()), *parts, below=folder)
    for folder, _, _ in adapter_manifests.ADAPTERS:
        *older, newest = (add_crate(registry, (TOP / folder / minor / "Cargo.toml").read_text()) for minor in adapter_manifests.MINORS)
        copy_tracked(newest, f"{folder}/src", below=folder)
        for crate in older:
            (crate / "src").symlink_to(f"../{newest.name}/src")


def add_crate(registry, manifest):
    """Makes the folder of a crate, with a list of sums. Its manifest names other crates by their versions, and by no path."""
    name, number = (re.search(rf'^{field} = "(.*)"$', manifest, re.M)[1] for field in ("name", "version"))
    crate = registry / f"{name}-{number}"
    crate.mkdir(parents=True)
    (crate / "Cargo.toml").write_text(re.sub(r', path = "[^"]*"', "", manifest).replace('"../src/lib.rs"', '"src/lib.rs"'))
    (crate / ".cargo-checksum.json").write_text('{"files":{}}\n')
    return crate


def needed_libc(files):
    """The version of the C library that these files need."""
    found = (re.findall(rb"GLIBC_([\d.]+)\0", path.read_bytes()) for path in files)
    return ".".join(map(str, max((tuple(map(int, it.split(b"."))) for names in found for it in names), default=(2, 17))))


def take(whole, root, patterns):
    """Moves the files of these patterns into the folder of a package. Whether there are any."""
    for path in sorted(path for pattern in patterns for path in whole.glob(pattern)):
        place = root / path.relative_to(whole)
        place.parent.mkdir(parents=True, exist_ok=True)
        path.rename(place)
    return root.is_dir()


def describe(root, name, machine, architecture, epoch):
    """Adds what each package has: its fields, scripts, log of changes, licences, and sums."""
    files = {file.name: file.read_text() for file in (HERE / "debian" / name).iterdir()}
    values = {"version": debian_version(), "date": formatdate(epoch), "maintainer": MAINTAINER, "processor": machine.processor,
              "libc": needed_libc(path for _, path in entries(root) if is_file(path))}
    texts = {kind: re.sub(r"@(\w+)@", lambda word: values[word[1]], text) for kind, text in files.items()}
    changes = re.sub(r"@(\w+)@", lambda word: values[word[1]], (HERE / "debian/changelog").read_text())
    pages_of_it = root / "usr/share/doc" / name
    pages_of_it.mkdir(parents=True, exist_ok=True)
    (pages_of_it / "copyright").write_text(licences.copyright_of(name))
    compress(changes.encode(), pages_of_it / "changelog.gz")
    if "overrides" in texts:
        (root / "usr/share/lintian/overrides").mkdir(parents=True)
        (root / "usr/share/lintian/overrides" / name).write_text(texts["overrides"])
    inside = [(it, path) for it, path in entries(root) if not path.is_dir()]
    size = sum(-(-path.stat().st_size // 1024) if is_file(path) else 1 for _, path in entries(root))
    (root / "DEBIAN").mkdir()
    for kind in texts.keys() - set(DESCRIPTIONS):
        (root / "DEBIAN" / kind).write_text(texts[kind])
    sums = (f"{hashlib.md5(path.read_bytes()).hexdigest()}  {it}\n" for it, path in inside if is_file(path))
    (root / "DEBIAN/md5sums").write_text("".join(sums))
    fields = re.sub(r"^Architecture: .*\n", "", texts["control"], flags=re.M)
    source = "" if name == "capvet" else "Source: capvet\n"
    (root / "DEBIAN/control").write_text(f"Package: {name}\n{source}Version: {debian_version()}\nArchitecture: {architecture}\n"
                                         f"Maintainer: {MAINTAINER}\nInstalled-Size: {size}\nPriority: optional\n{fields}")


def pack(root, file, epoch):
    """Packs the folder of a package, with all that depends on the machine set to one value."""
    for _, path in [("", root), *entries(root)]:
        if not path.is_symlink():
            is_script = path.parent.name == "DEBIAN" and path.name in ("postinst", "prerm", "postrm")
            path.chmod(0o755 if path.is_dir() or is_script or path.stat().st_mode & 0o100 else 0o644)
        os.utime(path, (epoch, epoch), follow_symlinks=False)
    run("dpkg-deb", "--root-owner-group", "-Zxz", "--threads-max=1", "--build", str(root), str(file),
        env={**os.environ, "SOURCE_DATE_EPOCH": str(epoch)})


def packages(scratch, machine, guard, wheel, is_first, epoch):
    """Makes the packages for a machine, and with the first one those for all machines."""
    whole = scratch / "debian"
    stage(whole, machine, guard, wheel)
    for folder in sorted(path for path in (HERE / "debian").iterdir() if path.is_dir()):
        root, is_common = scratch / folder.name, "Architecture: all\n" in (folder / "control").read_text()
        if not take(whole, root, (folder / "install").read_text().split()):
            print(f"dist: nothing of {folder.name} is built for {machine.debian}, so it isn't packed")
        elif is_first or not is_common:
            architecture = "all" if is_common else machine.debian
            describe(root, folder.name, machine, architecture, epoch)
            pack(root, DIST / "apt" / f"{folder.name}_{debian_version()}_{architecture}.deb", epoch)
    if left := [name for name, path in entries(whole) if not path.is_dir()]:
        sys.exit(f"dist: no package has {left}")


def repository(epoch):
    """Makes the folder of the packages a repository for apt: one list of all, and the sums of that list."""
    folder = DIST / "apt"
    listed = run("dpkg-scanpackages", "--multiversion", ".", cwd=folder)
    (folder / "Packages").write_text(listed)
    compress(listed.encode(), folder / "Packages.gz")
    sums = "".join(f" {digest(folder / name)} {(folder / name).stat().st_size} {name}\n" for name in ("Packages", "Packages.gz"))
    (folder / "Release").write_text(f"Origin: capvet\nLabel: capvet\nSuite: stable\nArchitectures: amd64 arm64\n"
                                    f"Date: {formatdate(epoch, usegmt=True)}\nSHA256:\n{sums}")
