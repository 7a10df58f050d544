#!/usr/bin/env python3
"""Runs the scripts as on a new machine, which has nothing beside git, make, gcc, Python and `rt`.

    bare.py

The scripts of tools/all.py run over what is in build/, as `make prove` runs them, in a copy of this folder. Below /usr they see only
what PACKAGES of Debian have, and the packages that these depend on. A layer over it hides all other files, also from a script that
names a place. The path has these and `rt`, and no other variable of this environment is left. So each name of tests/shared/needs.py but BARE
is missing. Then no script may fail, and each one that asks for such a name says what it leaves out.

What the scripts print is shown after a '|'. The last line is 'N passed, M failed', and the status is 1 if a case failed.
"""
import ast
import os
import re
import shutil
import subprocess
import sys
import tempfile
from pathlib import Path

sys.path[1:1] = map(str, (Path(__file__).resolve().parents[1] / "tests").iterdir())

import all as every
import dist
import needs
from harness import TOP, compare, ended, file_of, run
from prove import KIT
from untested import names_of

SCRIPTS = (*every.SCRIPTS, *every.OVER_PROVED)
# What a new machine has. (`apt` comes with each Debian)
PACKAGES = ("apt", "git", "make", "gcc", "libc6-dev", "python3")
BARE = {"bash", "cc", "dpkg", "dpkg-deb", "gcc", "git", "make", "readelf", "root", "rt"}
# Those that no package has are there as far as they are on this machine.
BARE |= {name for name in ("descriptors", "debian-mirror") if needs.has(name)}
# Without the crate `capnp` its compiler isn't asked for.
BARE |= {"crate-capnpc"}
# A layer over /usr, of which $0 is the upper folder, in a mount namespace of its own.
LAYER = """set -e
mount -t overlay overlay -o lowerdir=/usr,upperdir="$0/upper",workdir="$0/work" /usr
exec "$@"
"""
FIELDS = "${Package}\t${db:Status-Status}\t${Essential}\t${Priority}\t${Provides}\t${Pre-Depends}, ${Depends}\n"
NAMES = re.compile(r"^== (.*?)(?:, again and alone)?$", re.M)


def listed(text):
    """The names of a field of packages, for each part of it those of which one is enough."""
    return [[re.split(r"[ :(]", it.strip())[0] for it in part.split("|")] for part in text.split(",") if part.strip()]


def packages():
    """The packages of a new machine: PACKAGES, those that Debian needs itself, and what all of these depend on."""
    lines = subprocess.run(["dpkg-query", "-W", "-f", FIELDS], capture_output=True, text=True, check=True).stdout.splitlines()
    known = {name: it for name, *it in (line.split("\t") for line in lines) if it[0] == "installed"}
    of = {name: [name] for name in known}
    for name, (_, _, _, provided, _) in known.items():
        for (virtual,) in listed(provided):
            of.setdefault(virtual, []).append(name)
    found, ahead = set(), [name for name, it in known.items() if name in PACKAGES or it[1] == "yes" or it[2] == "required"]
    while ahead:
        name = ahead.pop()
        if name not in found:
            found.add(name)
            ahead += [next(of[it][0] for it in part if it in of) for part in listed(known[name][4])]
    return found


def whole(path):
    """A path without links to folders, as in /bin."""
    folder, _, name = path.rpartition("/")
    return os.path.join(os.path.realpath(folder or "/"), name)


def files():
    """The files below /usr of a new machine. (of the links that Debian keeps in /etc/alternatives, those to such a file)"""
    listing = subprocess.run(["dpkg-query", "-L", *packages()], capture_output=True, text=True).stdout
    kept = {whole(line) for line in listing.splitlines() if line.startswith("/")}
    for folder in ("bin", "sbin", "share/man/man1"):
        for file in Path("/usr", folder).iterdir():
            if file.is_symlink() and os.readlink(file).startswith("/etc/alternatives/") and os.path.realpath(file) in kept:
                kept.add(str(file))
    return kept


def hide(upper, kept):
    """Makes a layer over /usr that has a mark of a removed file for each one that isn't kept."""
    folders = kept | {str(folder) for file in kept for folder in Path(file).parents}
    for folder, inner, names in os.walk("/usr"):
        here = upper / os.path.relpath(folder, "/usr")
        here.mkdir(exist_ok=True)
        shutil.copystat(folder, here)
        hidden = [name for name in names if f"{folder}/{name}" not in kept]
        hidden += [name for name in inner if f"{folder}/{name}" not in folders]
        for name in hidden:
            os.mknod(here / name, 0o600 | 0o020000, os.makedev(0, 0))
        inner[:] = [name for name in inner if name not in hidden]


def imports(script):
    """A script and the files of tests/ and tools/ that it imports."""
    found, ahead = set(), [script]
    while ahead:
        name = ahead.pop()
        if name not in found and file_of(name):
            found.add(name)
            nodes = list(ast.walk(ast.parse(file_of(name).read_text())))
            ahead += [f"{node.module}.py" for node in nodes if isinstance(node, ast.ImportFrom)]
            ahead += [f"{it.name}.py" for node in nodes if isinstance(node, ast.Import) for it in node.names]
    return found


def asks(script):
    """Whether a script asks for a name that a new machine lacks: itself, or by a file that it imports if it asks for none itself."""
    own = set(names_of(file_of(script)))
    return bool(own - BARE if own else {it for name in imports(script) for it in names_of(file_of(name))} - BARE)


def said(text):
    """The output of the scripts, each with its name."""
    names, parts = NAMES.findall(text), NAMES.split(text)[2::2]
    return dict(zip(names, parts))


def compared(text, status):
    """The scripts have passed, and each that leaves out something says so."""
    compare("the scripts on a new machine", 0, status)
    parts = said(text)
    compare("scripts that ran", {name for name, _ in SCRIPTS}, set(parts))
    for name, words in SCRIPTS:
        if asks(words[0]):
            compare(f"{name}: it says what it leaves out", True, "\nnot tested, without " in parts.get(name, ""))


def machine(folder):
    """Copies this folder with what is built, and hides what a new machine lacks. Returns a call that runs a command there."""
    for name in ("layer/upper", "layer/work", "capvet", "bin", "home"):
        (folder / name).mkdir(parents=True)
    dist.clone(folder / "capvet", ["static"])
    for program in ("capvet", "x86_64/capvet-static"):
        (folder / "capvet/build" / program).chmod(0o755)
    for report in (TOP / "build").glob("*.report"):
        shutil.copy(report, folder / "capvet/build")
    (folder / "bin/rt").symlink_to(KIT / "bin/rt")
    hide(folder / "layer/upper", files())
    environment = {"PATH": f"{folder}/bin:/usr/sbin:/usr/bin:/sbin:/bin", "HOME": str(folder / "home"), "LANG": "C.UTF-8"}
    words = ("unshare", "--mount", "--propagation", "private", "sh", "-c", LAYER, folder / "layer")
    return lambda *command: run([*words, *command], cwd=folder / "capvet", env=environment)


def main():
    if needs.missing("the scripts on a new machine", "root", "dpkg", "git", "make", "cc", "rt"):
        return ended()
    dist.targets.main(["static"])
    with tempfile.TemporaryDirectory(prefix="capvet-bare-") as folder:
        run_there = machine(Path(folder))
        text, status = run_there("python3", "-c", "import sys; sys.path.insert(0, 'tests/shared'); import needs; print(*filter(needs.has, needs.NEEDS))")
        compare("what a new machine has", (sorted(BARE), 0), (sorted(text.split()), status))
        text, status = run_there("make", "run")
        compare("make run on a new machine", (True, 0), (text.endswith("\nThis build is proved.\n"), status))
        text, status = run_there("python3", "tools/all.py", "--prove", "--scripts", *sorted({words[0] for _, words in SCRIPTS}))
        print("".join(f"| {line}\n" for line in text.splitlines()), end="", flush=True)
        compared(text, status)
    return ended()


if __name__ == "__main__":
    sys.exit(main())
