#!/usr/bin/env python3
"""Finds each name of docs/names.md in the interface of its language.

    names.py PROGRAM

A cell has one name at most. Where the pages say which name replaces one of version 1.0, it is in the interface too. The interfaces are the headers, the sources of the crate for Rust and of the packages for Go and Python, and
the types for JavaScript. The program has help, the manual page, and the lines that it prints of the samples. The last line is
'N passed, M failed', and the status is 1 where a case failed.
"""
import re
import sys
from pathlib import Path

sys.path[1:1] = map(str, Path(__file__).resolve().parents[1].iterdir())

from harness import PROGRAM, TOP, compare, ended, run
from helps import HELPS

SOURCES = {"C": "include/capvet.h", "C++": "include/capvet/*.h", "Rust": "rust/capvet/src/*.rs", "Go": "bindings/go/*.go",
           "Python": "bindings/python/capvet/*.py", "JavaScript": "bindings/js/*.d.ts"}
# What doesn't count as an interface.
PRIVATE = re.compile(r"_test\.go|/tests\.rs|/calls\.rs")


def interfaces():
    """The text of each interface, by the head of its column."""
    texts = {name: "\n".join(path.read_text() for path in sorted(TOP.glob(files)) if not PRIVATE.search(str(path)))
             for name, files in SOURCES.items()}
    lines = [run([PROGRAM, "explain", path])[0] for path in sorted((TOP / "examples").glob("*.bin"))]
    # (help lists the commands, and the manual page the other names of options)
    texts["Command line"] = "\n".join([*(text for _, text in HELPS), *lines, (TOP / "docs/capvet.1").read_text().replace("\\-", "-")])
    # (C++ has the fields and flags of C)
    texts["C++"] += texts["C"]
    return texts


def replaced(texts):
    """The names that replace those of version 1.0, in docs/names.md and docs/rust.md."""
    texts["Rust"] += "\n".join(path.read_text() for path in sorted(TOP.glob("rust/capvet-capnp/src/*.rs")))
    count = 0
    for page in ("names", "rust"):
        table = (TOP / f"docs/{page}.md").read_text().partition("\n## Names of 1.0\n")[2]
        for row in re.findall(r"^\| (.*) \|$", table, re.M):
            cells = row.split(" | ")
            language = cells[0] if page == "names" else "Rust"
            for name in re.findall(r"`([A-Za-z]\w+)(?:\([^`]*\))?`", cells[-1]):
                compare(f"{language} has {name}, which replaces a name of 1.0", True, re.search(rf"\b{name}\b", texts[language]) is not None)
                count += 1
    compare("the pages have names that replace those of 1.0", True, count > 50)


def main():
    texts, count = interfaces(), 0
    page = (TOP / "docs/names.md").read_text().partition("\n## Names of 1.0\n")[0]
    for table in re.findall(r"(?:^\|.*\n)+", page, re.M):
        head, _, *rows = ([cell.strip() for cell in line.strip("|\n").split("|")] for line in table.splitlines())
        for row in rows:
            compare(f"the cells of '{row[0]}'", len(head), len(row))
            for language, cell in list(zip(head, row))[1:]:
                name = re.fullmatch(r"`([\w-]+)`|", cell)
                compare(f"{language}, '{row[0]}': a name or nothing", True, name is not None)
                if name and name[1]:
                    found = re.search(rf"(?<![\w-]){re.escape(name[1])}(?![\w-])", texts[language])
                    compare(f"{language} has {name[1]}", True, found is not None)
                    count += 1
    compare("docs/names.md has names", True, count > 100)
    replaced(texts)
    return ended()


if __name__ == "__main__":
    sys.exit(main())
