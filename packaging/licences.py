"""The licences of what is linked into a program or a library, as text for Debian's packages and as files for the archive."""
import functools
import os
import re
import sys
import tempfile
from pathlib import Path

from common import KIT, LINKED, copy_tracked, run

# The licence of capvet itself.
OWN = """Format: https://www.debian.org/doc/packaging-manuals/copyright-format/1.0/
Upstream-Name: capvet

Files: *
Copyright: 2026 the owner of the repository
License: none
 There is no licence of capvet yet: its owner has to choose one.
"""
# The packages that have no code of others linked in.
UNLINKED = ("golang-capvet-dev", "capvet-doc")
GOCODE = Path("/usr/share/gocode")


def of_crates():
    """The licences of what is linked in, as the kit has them: the files of each by its name in the kit."""
    found = {name: sorted((KIT / "rattle" / name).glob("LICENSE*")) for name in LINKED}
    for name in (name for name, texts in found.items() if not texts):
        sys.exit(f"dist: the kit has no licence of {name}")
    return found


def stanza(name, text):
    """A part of a `copyright` file about a crate under the MIT licence, which Debian calls Expat."""
    lines = [line.rstrip() for line in text.splitlines()]
    holders = [re.sub(r"^Copyright (\(c\) )?", "", line) for line in lines if line.startswith("Copyright")] or [f"the authors of {name}"]
    terms = "\n".join(f" {line}" if line else " ." for line in lines if not line.startswith("Copyright"))
    terms = re.sub(r"\A( \.\n)+|(\n \.)+\Z", "", re.sub(r"( \.\n){2,}", " .\n", terms))
    copyright_lines = "\n           ".join(holders)
    return f"\nFiles: linked/{name}/*\nCopyright: {copyright_lines}\nLicense: Expat~{name}\n{terms}\n"


def crates():
    """The parts of a `copyright` file about what is linked in. Where a crate has two licences, it is used under the MIT licence."""
    parts = []
    for name, files in of_crates().items():
        file = next(it for it in files if not it.name.endswith("APACHE"))
        parts.append(stanza(name, file.read_text()))
    return "".join(parts)


@functools.cache
def of_go():
    """The `copyright` files of the Debian packages of what the guard links in, by their names."""
    names = ["golang-1.19-src" if Path("/usr/share/doc/golang-1.19-src").is_dir() else "golang-src"]
    with tempfile.TemporaryDirectory() as scratch:
        sources = Path(scratch) / "src/capvet.invalid"
        copy_tracked(sources / "capvet", "bindings/go", below="bindings/go")
        copy_tracked(sources / "guard", "guard", below="guard")
        environment = {**os.environ, "GO111MODULE": "off", "GOFLAGS": "", "GOPATH": f"{scratch}:{GOCODE}"}
        with_guard = run("go", "list", "-deps", "-f", "{{.Dir}}", ".", cwd=sources / "guard", env=environment).split("\n")
    folders = [it for it in with_guard if it.startswith(str(GOCODE))]
    owners = run("dpkg", "-S", *folders)
    names += sorted({owner for line in owners.splitlines() for owner in line.rpartition(": ")[0].split(", ")})
    return of_debian(names)


def of_debian(packages):
    """The `copyright` files of Debian packages, by their names."""
    return {name: Path(f"/usr/share/doc/{name}/copyright").read_text() for name in packages}


def copyright_of(package):
    """The `copyright` file of a Debian package."""
    if package in UNLINKED or package.startswith("librust-"):
        return OWN
    text = OWN + crates()
    if package == "capvet-guard":
        text += "".join(f"\n\n==== Linked in, from Debian's package {name}:\n\n{its}" for name, its in of_go().items())
    return text
