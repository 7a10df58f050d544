#!/usr/bin/env python3
"""Tries wrong bodies of public functions, and compares what the contracts let through with the accepted list.

    plant.py [CRATE ...]

With no words it takes the crates of tools/planted.txt. `rt plant` makes the wrong bodies, for example one that gives up, or one
that calls the real function with an argument changed. A body that meets the contract is a line of that list, with the reason why
it may. A line that isn't on the list fails, and so does a line of the list that no longer comes. It takes 1 to 40 processor
minutes for each crate.

A crate of the list is a line [NAME]. Each line below it has a kind, a file, a function with the body, and after ' -- ' the reason.
The kinds are those of `rt plant`: `proves`, `no-ensures` and `untested`. The last line is 'N passed, M failed', and the status is
1 if one failed.
"""
import re
import subprocess
import sys
from pathlib import Path

sys.path[1:1] = map(str, (Path(__file__).resolve().parents[1] / "tests").iterdir())

import prove

LIST = Path(__file__).with_name("planted.txt")
FOUND = re.compile(r"(proves|no-ensures|untested) +(\S+?):\d+ (.*)")
MINUTES = "60"


def accepted():
    """The lines of the list for each of its crates. A line without a reason is none."""
    lines, crate = {}, None
    for line in LIST.read_text().splitlines():
        if line.startswith("["):
            crate = line.strip("[]")
            lines[crate] = []
        elif line and not line.startswith("#"):
            known, _, reason = line.partition(" -- ")
            lines[crate] += [known] * bool(reason)
    return lines


def found(crate):
    """What `rt plant` lists for a crate, without the numbers of lines, or None where it stopped or tried only some bodies."""
    ran = subprocess.run(["rt", "plant", "--minutes", MINUTES, "--max", "4000"], cwd=prove.TOP / "crates" / crate,
                         stdin=subprocess.DEVNULL, capture_output=True, text=True, errors="replace")
    counts = re.search(rf"(?m)^plants crate={crate} .* not-run=0$", ran.stdout)
    if ran.returncode or counts is None:
        print(f"{crate}: {(ran.stdout + ran.stderr).strip().splitlines()[-1:]}")
        return None
    print(counts[0], flush=True)
    lines = (FOUND.match(line) for line in ran.stdout.splitlines())
    return [f"{it[1]} {it[2]} {it[3]}" for it in lines if it]


def main(given):
    known = accepted()
    passed = failed = 0
    for crate in given or known:
        lines, expected = found(crate), known.get(crate, [])
        wrong = ["not judged"] if lines is None else [f"not on the list: {line}" for line in lines if line not in expected]
        wrong += [f"no longer let through: {line}" for line in expected if lines is not None and line not in lines]
        passed, failed = passed + (not wrong), failed + len(wrong)
        for line in wrong:
            print(f"FAILED: {crate}: {line}")
    print(f"{passed} passed, {failed} failed")
    return 1 if failed or not passed else 0


if __name__ == "__main__":
    sys.exit(main(sys.argv[1:]))
