#!/usr/bin/env python3
"""Writes the pages that are made from the sources: docs/accepted.md and docs/believe.md, and in docs/internals promises.md, clauses.md
and tests.md. In docs/proofs.md it writes what the prover reported of the program and of the archive, if build/ was proved here.

    write.py [--check]

With --check it writes nothing, and its status is 1 if a page isn't what it would write.
"""
import re
import sys
from pathlib import Path

import definition_pages
import clauses
import promises
import scripts
from source import TOP

HERE = Path(__file__).resolve().parent
PAGES = {"internals/promises.md": promises.Page, "internals/clauses.md": clauses.Page, "internals/tests.md": scripts.Page}


def with_reports(text):
    """A page with the last lines of the prover's reports in the blocks after the comments that name a crate."""
    for file in sorted((TOP / "build").glob("*.report")):
        lines = "".join(re.findall(r"^(?:axioms|logic=).*\n", file.read_text(), re.M))
        text = re.sub(rf"(<!-- report of {file.stem} -->\n```\n).*?^```$", lambda it: f"{it[1]}{lines}```", text, flags=re.M | re.S)
    return text


def definitions():
    """The templates of both pages of definitions, by the names of the pages."""
    return {name: (HERE / f"{name}.in").read_text() for name in ("accepted.md", "believe.md")}


def stale():
    """The pages that aren't what they should be: each with its text."""
    texts = {TOP / "docs" / name: page((HERE / f"{Path(name).name}.in").read_text()).write() for name, page in PAGES.items()}
    texts |= {TOP / "docs" / name: text for name, text in definition_pages.both(definitions()).items()}
    texts[TOP / "docs/proofs.md"] = with_reports((TOP / "docs/proofs.md").read_text())
    return {file: text for file, text in texts.items() if not file.exists() or file.read_text() != text}


def main(words):
    for file, text in (found := stale()).items():
        if "--check" in words:
            print(f"{file.relative_to(TOP)} is stale: run make pages")
        else:
            file.write_text(text)
    return "--check" in words and len(found) > 0


if __name__ == "__main__":
    try:
        sys.exit(main(sys.argv[1:]))
    except LookupError as fault:
        sys.exit(f"write.py: {fault.args[0]}")
