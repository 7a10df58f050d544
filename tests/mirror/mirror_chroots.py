#!/usr/bin/env python3
"""Checks the definitions in Coq as a reader of their page does, in fresh roots of Debian 12 and of Debian 13.

    mirror_chroots.py [PROGRAM]

A root has what Debian itself needs, and then what the first command of mirror/coq/README.md installs, without what these packages only
recommend. The other commands of the page run word for word in a copy of that folder: `make`, the reference vetter over a sample, and
what a theorem rests on. The vetter has to print what PROGRAM prints, and the theorem rests on no axiom. Then `make check` has to name
no axiom of all that was compiled. No file leaves a proof out.

The versions are printed, and the time and the processor time of each command. A root that can't be made is a case that failed. The
last line is 'N passed, M failed', and the status is 1 where a case failed.
"""
import re
import shutil
import sys
import tempfile
from pathlib import Path

sys.path[1:1] = map(str, Path(__file__).resolve().parents[1].iterdir())

import chroots
import mirror
import reading
from harness import PROGRAM, TOP, compare, ended, expect, run
from needs import missing

SUITES = ("bookworm", "trixie")
PAGE = TOP / "mirror/coq/README.md"
# Where a root has its folder.
FOLDER = "srv/capvet/mirror/coq"
# What is before each command, and what a command wrote, its status and its times.
MARK = "@@ step"
END = re.compile(rf"(.*?){MARK} (\d+)\n{MARK} ([\d.]+) ([\d.]+) ([\d.]+)\n", re.S)


def steps():
    """The commands of the page, one by one, and `make check`. Each is a block or a line of one."""
    blocks = [text for language, text in reading.BLOCK.findall(PAGE.read_text()) if language == "sh"]
    compare("blocks of commands of mirror/coq/README.md", 3, len(blocks))
    made, vetter, theorem = blocks
    install, make = made.splitlines()
    return {"install": install.replace("install", "-qq install -y --no-install-recommends", 1), "make": make, "make check": "make check",
            "vetter": vetter, "theorem": theorem}


def script(asked):
    """A script that runs these commands in the folder of the page. It notes the status and the times of each."""
    parts = [f"echo '{MARK}'\ntime {{\n{command}\necho \"{MARK} $?\"\n}}\n" for command in asked.values()]
    return f"""export LC_ALL=C.UTF-8 HOME=/root
TIMEFORMAT="{MARK} %R %U %S"
cd /{FOLDER}
apt-get -qq update
{"".join(parts)}echo '{MARK}'
dpkg-query -W -f '${{Package}} ${{Version}}, ' coq ocaml make
"""


def in_root(base, folder, asked):
    """Runs the commands in a root, and compares what they print."""
    text, _ = chroots.session(base, folder / "layer", script(asked), seconds=4 * 3600)
    shutil.rmtree(folder / "layer")
    parts = text.split(f"{MARK}\n")[1:]
    is_whole = len(parts) == len(asked) + 1
    expect(f"all commands ran on {base.name}", is_whole, text[-2000:])
    if not is_whole:
        return
    print(f"{base.name}: {parts[-1].rstrip(', ')}", flush=True)
    said = {}
    for name, part in zip(asked, parts):
        said[name], status, *times = END.search(part).groups()
        expect(f"{name} on {base.name}", status == "0", said[name][-2000:])
        if name in ("make", "make check"):
            took, user, system = map(float, times)
            print(f"{base.name}: {asked[name]}: {took:.0f} s, {user + system:.0f} s of processor time", flush=True)
    expect(f"coqchk names no axiom on {base.name}", re.search(r"^\* Axioms: <none>$", said["make check"], re.M), said["make check"])
    # (Coq also writes which files it reads)
    closed = re.search(r"\bClosed under the global context$", said["theorem"], re.M)
    expect(f"the theorem on {base.name} rests on no axiom", closed, said["theorem"][-2000:])
    words = asked["vetter"].split()[1:]
    compare(f"the reference vetter on {base.name}", run([PROGRAM, *words], cwd=PAGE.parent)[0], said["vetter"])


def main():
    mirror.whole()
    if missing("the definitions in Coq on fresh machines", "root", "mmdebstrap", "debian-mirror"):
        return ended()
    asked = steps()
    with tempfile.TemporaryDirectory(prefix="mirror-") as scratch:
        folder = Path(scratch)
        for suite in SUITES:
            base = folder / suite
            error = chroots.make(base, suite)
            compare(f"a root of {suite}", "", error)
            if not error:
                mirror.copy(base / FOLDER)
                shutil.copytree(TOP / "examples", base / "srv/capvet/examples")
                in_root(base, folder, asked)
            shutil.rmtree(base, ignore_errors=True)
    return ended()


if __name__ == "__main__":
    sys.exit(main())
