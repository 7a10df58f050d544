#!/usr/bin/env python3
"""Makes the Coq text of the definitions and of the laws about them: definitions/*.v, of crates/cap_spec, crates/cap_difference and
crates/cap_laws.

    generate.py [--check] [--crates FOLDER] [--to FOLDER]

With --check nothing is written, and each file that isn't what the sources give is named. The status is then 1. FOLDER is a folder
with other copies of the three crates, or another place for the text. A definition that the script doesn't know is an error.
"""
import argparse
import re
import sys
import textwrap
from pathlib import Path

import antt
from coq import Library, Writer, declared, statements

HERE = Path(__file__).resolve().parent
CRATES = HERE.parent.parent / "crates"
# Files of specs/ that declare nothing, two that are about the code of their crate, and two that only pass names on.
LEFT, OF_CODE = ("Lib",), ("cap_difference/specs/ReadWords.antt", "cap_difference/specs/Searching.antt")
PASSING = ("SpecNames", "LawNames")
# The types of the code that definitions speak of, by the file of Coq that has them.
DECLARED = {"Declared": ["cap_spec/src/lib.rt"], "DeclaredDifference": ["cap_difference/src/reason.rt", "cap_difference/src/difference.rt"]}
HEAD = """(* Made by mirror/coq/generate.py of crates/{source}. Don't edit. *)
From Capvet Require Import {imports}.
Open Scope N_scope.
Open Scope list_scope.

"""


def ordered(files):
    """The names of files, each after those that it uses."""
    found = []

    def visit(name):
        for used in files[name].uses:
            if used in files:
                visit(used)
        if name not in found:
            found.append(name)

    for name in files:
        visit(name)
    return found


def naming(name, call, *given):
    """What a call returns. A fault names the file."""
    try:
        return call(*given)
    except antt.Unknown as fault:
        raise antt.Unknown(f"{name}: {fault}") from None


class Sources:
    """The files of definitions and of laws, as they are read."""

    def __init__(self, crates):
        paths = [path for name in ("cap_spec", "cap_difference", "cap_laws") for path in sorted((crates / name / "specs").glob("*.antt"))]
        paths = [path for path in paths if path.stem not in LEFT and path.relative_to(crates).as_posix() not in OF_CODE]
        texts = {path.stem: path.read_text() for path in paths}
        if len(texts) < len(paths):
            raise antt.Unknown("two files of specs have one name")
        passed_on = {name: {it: file for file, names in antt.uses(texts[name]).items() for it in names} for name in PASSING}
        self.paths = {path.stem: path.relative_to(crates) for path in paths}
        read = {name: text for name, text in texts.items() if name not in PASSING}
        self.files = {name: naming(f"{name}.antt", antt.read, text, passed_on) for name, text in read.items()}
        codes = {path.stem: path.read_text() for path in sorted((crates / "cap_laws/src").glob("*.rt")) if path.stem != "lib"}
        self.laws = {name: (antt.uses(text, passed_on), naming(f"{name}.rt", antt.laws, text)) for name, text in codes.items()}
        self.declared = {name: "\n".join((crates / path).read_text() for path in paths) for name, paths in DECLARED.items()}
        # (names after a dot: parts of records that something takes)
        whole = "\n".join([*texts.values(), *codes.values()])
        whole = re.sub(r"--[^\n]*|//[^\n]*|^(?:ghost |pub )*use [^\n]*", "", whole, flags=re.M)
        self.taken = set(re.findall(r"\.([a-z_]+)\b", whole))


def made(crates):
    """The text of each file."""
    sources, library = Sources(crates), Library()
    library.taken = sources.taken
    texts = {}
    for name, text in sources.declared.items():
        source = " and crates/".join(DECLARED[name])
        texts[name] = head(source, []) + declared(text, library, name, source)
    names = ordered(sources.files)
    for name in names:
        uses = sorted(sources.files[name].uses, key=[*DECLARED, *names].index)
        body = naming(f"{name}.antt", Writer(library, name, sources.files[name]).write)
        texts[name] = head(sources.paths[name], uses) + body
    uses = sorted({it for used, _ in sources.laws.values() for it in used}, key=[*DECLARED, *names].index)
    texts["Laws"] = head("cap_laws/src", uses) + laws(sources, library)
    return texts


def head(source, uses):
    return HEAD.format(source=source, imports="\n  ".join(textwrap.wrap(" ".join(["Prelude", *uses]), 90)))


def laws(sources, library):
    """The laws of all files."""
    parts = []
    for name, (uses, found) in sources.laws.items():
        writer = Writer(library, name, antt.File(uses, []))
        parts.append(f"(* ---- {name}.rt *)")
        parts += [naming(f"{name}.rt", statements, law, writer) for law in found]
    return "\n\n".join(parts) + "\n"


def stale(texts, folder):
    """The files of a folder that aren't as they should be. One that nothing makes is among them."""
    for path in sorted({*(folder / f"{name}.v" for name in texts), *folder.glob("*.v")}):
        if not path.exists() or path.read_text() != texts.get(path.stem):
            yield path


def main(words):
    parser = argparse.ArgumentParser(usage=__doc__)
    parser.add_argument("--check", action="store_true")
    parser.add_argument("--crates", type=Path, default=CRATES)
    parser.add_argument("--to", type=Path, default=HERE / "definitions")
    asked = parser.parse_args(words)
    texts, status = made(asked.crates), 0
    asked.to.mkdir(exist_ok=True)
    for path in stale(texts, asked.to):
        if asked.check:
            print(f"{path.name} isn't what the definitions give: run mirror/coq/generate.py")
            status = 1
        elif path.stem in texts:
            path.write_text(texts[path.stem])
        else:
            path.unlink()
    return status


if __name__ == "__main__":
    try:
        sys.exit(main(sys.argv[1:]))
    except antt.Unknown as fault:
        sys.exit(f"generate.py: {fault}")
