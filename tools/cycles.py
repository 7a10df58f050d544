#!/usr/bin/env python3
"""Looks for cycles between the modules of a crate, by their lines `use crate::`. A crate that has one is a case that failed.

    cycles.py [CRATE..]

A module that only passes names of others on is no part of a cycle. The last line is 'N passed, M failed', and the status is 1 if a
crate has a cycle.
"""
import re
import sys
from pathlib import Path

sys.path[1:1] = map(str, (Path(__file__).resolve().parents[1] / "tests").iterdir())

from harness import TOP, compare, ended

USE = re.compile(r"^(?:pub(?:\(crate\))? )?use (crate|super)::([\w:]+?)(?:::\{([^{}]*)\})?;", re.M)
# The files of a crate that is made up, with a cycle through a folder, and what belongs to none.
MADE_UP = {"lib": "mod a;\npub use a::A;\n", "a": "use crate::b::c::{C, d};\nfn a() {}\n", "b": "mod c;\npub use crate::b::c::C;\n",
           "b::c": "use super::e::E;\nfn c() {}\n", "b::e": "use crate::a::A;\nfn e() {}\n", "f": "use crate::a::A;\nfn f() {}\n"}


def uses(name, text, modules):
    """The modules of a crate that one of them uses, without those that only pass names on."""
    for start, path, names in USE.findall(text):
        for last in names.split(","):
            parts = [*(name.split("::")[:-1] if start == "super" else []), *path.split("::"), last.strip()]
            found = next(("::".join(parts[:count]) for count in range(len(parts), 0, -1) if "::".join(parts[:count]) in modules), "")
            if re.search(r"\b(?:fn|struct|enum|trait|impl|const)\b", re.sub("//.*", "", modules.get(found, ""))):
                yield found


def cycles(modules):
    """The cycles of a crate, each as the names of its modules. `modules` has their texts by their names."""
    reached = {name: set(uses(name, text, modules)) for name, text in modules.items()}
    for through in modules:
        for name in modules:
            reached[name] |= reached[through] if through in reached[name] else set()
    return sorted({" ".join(sorted(it for it in reached[name] if name in reached[it])) for name in modules if name in reached[name]})


def main(crates):
    compare("cycles of a crate that is made up", ["a b::c b::e"], cycles(MADE_UP))
    for source in (TOP / "crates" / name / "src" for name in crates or sorted(it.name for it in TOP.glob("crates/*"))):
        files = {file.relative_to(source).with_suffix(""): file.read_text() for file in source.rglob("*.rt")}
        compare(f"cycles of {source.parent.name}", [], cycles({"::".join(file.parts): text for file, text in files.items()}))
    return ended()


if __name__ == "__main__":
    sys.exit(main(sys.argv[1:]))
