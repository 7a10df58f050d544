#!/usr/bin/env python3
"""Writes the crates of Rattle as plain Rust, without their contracts: the library as rust/core, and the program over it.

    erase.py [--check]

Each crate becomes a module of its name. All that is taken out is a whole clause, ghost item or ghost member, and the files of
theorems and of vectors. All that is rewritten is in rules.py and here, and `erased.txt` of each package counts it. Anything else
is an error. `--check` writes nothing, and says whether the files of the packages are those that it would write.
"""
import argparse
import filecmp
import re
import shutil
import subprocess
import sys
import tempfile
from collections import Counter
from pathlib import Path
from typing import NamedTuple

from rules import by_table
from tokens import Refused, Token, tokens_of, without

TOP = Path(__file__).resolve().parent.parent.parent
HERE = Path(__file__).resolve().parent
LIBRARY = ("cap_spec", "cap_words", "cap_path", "cap_buffer", "cap_frame", "cap_pack", "cap_ptr", "cap_walk", "cap_vet", "cap_trace", "cap_canon",
           "cap_difference", "cap_explain", "cap_calls")


class Package(NamedTuple):
    """A package of cargo: its folder, the crates that become its modules, the files that are written by hand, and the paths in
    it of what has another form in Rattle: modules of std, names of the prelude, and libraries."""
    folder: str
    crates: tuple
    by_hand: tuple
    std: dict
    prelude: dict
    libraries: dict


PACKAGES = (
    Package("rust/core", LIBRARY, ("src/lib.rs", "src/rattle.rs"),
            {"convert": "core::convert", "fmt": "core::fmt", "io": "std::io", "alloc": "crate::rattle::alloc"},
            {"Vec": "crate::rattle"},
            {**{name: f"crate::rattle::{name}" for name in ("hex", "itoa")}, **{name: f"crate::{name}" for name in LIBRARY}}),
    Package("rust/capvet-cli", ("cap_text", "cap_run", "cap_commands", "cap_cmd", "capvet"),
            ("src/main.rs", "src/clap.rs", "src/closed.rs", "src/rattle.rs"),
            {"alloc": "capvet_core::rattle::alloc", "{": "crate::rattle::{",
             **{name: f"crate::rattle::{name}" for name in ("env", "fs", "io", "process")}},
            {"Vec": "capvet_core::rattle", **{name: "crate::rattle" for name in ("String", "HostRuntime", "format", "eprintln")}},
            {"clap": "crate::clap", "sha2": "crate::rattle::sha2",
             **{name: f"capvet_core::{name}" for name in LIBRARY},
             **{name: f"crate::{name}" for name in ("cap_text", "cap_run", "cap_commands", "cap_cmd")}}),
)
# Kernels over vectors, which stable Rust hasn't. The rules take those of the module `scalars` in their place.
VECTORS = ("cap_pack/lanes/vectors.rt", "cap_pack/lanes/vectors/spread.rt", "cap_pack/lanes/vectors/squeeze.rt")
CONDITION = '#[cfg(feature = "std")]'
# The attributes that mean the same in Rust, and words of a source that don't.
ATTRIBUTES = ("cold", "default", "derive", "inline", "repr")
NOT_RUST = ("Drop", "Model", "asm", "extern", "final", "ghost", "macro_rules", "prove", "prove_eq", "prove_ne", "unsafe")
FIRST_LINE = "// crates/{} without its contracts, by tools/erase: that text is proved, this one is only tested.\n"


def paths(tokens, crate, package, counts):
    """The tokens with the paths of a module: `crate` is a module, and so are other crates."""
    made, at = [], 0
    while at < len(tokens):
        token, to, count = tokens[at], None, 1
        is_head = token.kind == "word" and (at == 0 or tokens[at - 1].text != "::") and tokens[at + 1].text == "::"
        if is_head and token.text == "crate":
            to, name = f"crate::{crate}", "path `crate::`"
        elif is_head and token.text in package.libraries:
            to, name = package.libraries[token.text], "path of another crate"
        elif is_head and token.text == "std":
            module = tokens[at + 2].text
            if module not in package.std:
                raise Refused(f"the path std::{module} isn't known")
            to, name, count = package.std[module], "path `std::`", 3
        if to is None or to == f"std::{tokens[at + 2].text}":
            made.append(token)
            at += 1
            continue
        counts[name] += 1
        made.append(Token("word", to, token.before))
        at += count
    return made


def prelude(tokens, package, counts):
    """The tokens with an import of what Rattle's prelude has in another form than Rust's."""
    used = {token.text for token in tokens if token.kind == "word"}
    for path in sorted(set(package.prelude.values())):
        names = sorted(name for name, it in package.prelude.items() if it == path and name in used)
        if not names:
            continue
        counts["import of what has another form in Rattle's prelude"] += 1
        first = next(at for at, token in enumerate(tokens) if token.text in ("use", "pub", "fn", "struct", "const", "static", "#"))
        condition = CONDITION if package.folder == "rust/core" else ""
        added = tokens_of(f"{condition} use {path}::{{{', '.join(names)}}};")[:-1]
        added[0].before = "\n"
        tokens = [*tokens[:first], *added, *tokens[first:]]
    return tokens


def item_start(tokens, at):
    """The first token of the item in which the token at `at` is one of the first, with its attributes."""
    while at and tokens[at - 1].text not in (";", "{", "}"):
        at -= 1
    return at


def gated(tokens, gates, counts):
    """The tokens with a condition before each item that needs std. Of an import it may be a name alone."""
    for pattern in gates:
        pattern, names = (pattern[:pattern.index("{")], pattern[pattern.index("{") + 1:]) if "{" in pattern else (pattern, ())
        places = [at for at in range(len(tokens)) if [it.text for it in tokens[at:at + len(pattern)]] == pattern]
        if len(places) != 1:
            raise Refused(f"{len(places)} items begin with: {' '.join(pattern)}")
        start = item_start(tokens, places[0])
        if names:
            end = next(at for at in range(start, len(tokens)) if tokens[at].text == ";") + 1
            tokens, start = parted(tokens, start, end, names)
        counts["item for the feature `std`"] += 1
        condition = tokens_of(CONDITION)[:-1]
        condition[0].before, tokens[start].before = tokens[start].before, "\n"
        tokens = [*tokens[:start], *condition, *tokens[start:]]
    return tokens


def parted(tokens, start, end, names):
    """The tokens with an import as two, of which the second has these names, and where the second is."""
    text = "".join(token.before + token.text for token in tokens[start:end])
    head, listed, tail = re.fullmatch(r"(.*\{)([^{}]*)(\}\s*;)", text, re.S).groups()
    listed = [it.strip() for it in listed.split(",") if it.strip()]
    if not set(names) < set(listed):
        raise Refused(f"an import doesn't have {', '.join(names)}, or nothing else: {text}")
    first, second = (tokens_of(head + ", ".join(it for it in listed if (it in names) == chosen) + tail)[:-1] for chosen in (False, True))
    second[0].before = "\n"
    return [*tokens[:start], *first, *second, *tokens[end:]], start + len(first)


def theorems(tokens, modules, counts):
    """The tokens without the modules of theorems, and without the names that these pass on."""
    at = 0
    while at < len(tokens):
        if tokens[at].text in ("mod", "use") and tokens[at + 1].text in modules:
            end = next(index for index in range(at, len(tokens)) if tokens[index].text == ";") + 1
            at = item_start(tokens, at)
            tokens = without(tokens, at, end)
            counts["item that names a file of theorems"] += 1
            continue
        at += 1
    return tokens


def refuse_others(tokens):
    """Refuses attributes and words that aren't known to mean the same in Rust."""
    for at, token in enumerate(tokens):
        if token.text == "#" and (tokens[at + 1].text != "[" or tokens[at + 2].text not in ATTRIBUTES):
            raise Refused(f"an unknown attribute: {' '.join(it.text for it in tokens[at:at + 5])}")
        if token.kind == "word" and token.text in NOT_RUST:
            raise Refused(f"`{token.text}` is left")


def has_theorems_alone(tokens):
    """Whether all that a file has is functions without arguments, results and code."""
    texts = " ".join(token.text for token in tokens if token.kind not in ("clause", "ghost use"))
    return re.fullmatch(r"(pub fn \w+ \( \) \{ \} )+", texts) is not None


def erased(path, crate, package, gates, counts):
    """A source as plain Rust, or None for one that has theorems alone."""
    text = path.read_text()
    head = re.match(r"(?://![^\n]*\n)*", text)[0]
    tokens = tokens_of(text[len(head):])
    if has_theorems_alone(tokens):
        counts["file of theorems"] += 1
        return None
    modules = {it.stem for it in theorem_files(path.parent)} if path.name == "lib.rt" else ()
    at = 0
    while at < len(tokens):
        if tokens[at].kind in ("clause", "ghost use", "ghost member"):
            counts[tokens[at].kind] += 1
            tokens = without(tokens, at, at + 1)
        else:
            at += 1
    tokens = theorems(tokens, modules, counts)
    tokens = by_table(tokens, counts)
    refuse_others(tokens)
    tokens = gated(tokens, gates, counts)
    tokens = prelude(paths(tokens, crate, package, counts), package, counts)
    return head + "".join(token.before + token.text for token in tokens)


def theorem_files(folder):
    """The files of a folder that have theorems alone."""
    for path in folder.glob("*.rt"):
        text = path.read_text()
        if has_theorems_alone(tokens_of(re.sub(r"\A(?://![^\n]*\n)*", "", text))):
            yield path


def read_gates():
    """The items that need std, by their files."""
    gates = {}
    for line in (HERE / "gates.txt").read_text().splitlines():
        if line and not line.startswith("#"):
            file, *pattern = line.split()
            gates.setdefault(file, []).append(pattern)
    return gates


def write(package, folder):
    """Writes the files of a package below a folder. What is by hand in the package has to be there already."""
    counts, gates = Counter(), read_gates() if package.folder == "rust/core" else {}
    for crate in package.crates:
        source = TOP / "crates" / crate / "src"
        for path in sorted(source.rglob("*.rt")):
            inside = path.relative_to(source)
            if f"{crate}/{inside}" in VECTORS:
                counts["file of vectors"] += 1
                continue
            try:
                text = erased(path, crate, package, gates.pop(f"{crate}/{inside}", ()), counts)
            except Refused as refused:
                raise Refused(f"crates/{crate}/src/{inside}: {refused}") from None
            if text is None:
                continue
            counts["file"] += 1
            target = folder / "src" / (f"{crate}.rs" if path.stem in ("lib", "main") else Path(crate) / inside.with_suffix(".rs"))
            target.parent.mkdir(parents=True, exist_ok=True)
            target.write_text(FIRST_LINE.format(f"{crate}/src/{inside}") + text)
    if gates:
        raise Refused(f"no source has the items of {', '.join(gates)}")
    subprocess.run(["rustfmt", "--edition", "2021", folder / package.by_hand[0]], check=True)
    lines = [f"{count:6} {name}\n" for name, count in sorted(counts.items())]
    (folder / "erased.txt").write_text("What tools/erase took out and rewrote, by its names.\n\n" + "".join(lines))


def files_of(package, folder):
    """The files of a package that are written here, by their paths in it."""
    files = [path.relative_to(folder) for path in (folder / "src").rglob("*.rs")] + [Path("erased.txt")]
    return {it for it in files if str(it) not in package.by_hand and (folder / it).exists()}


def update(package, checks):
    """Writes a package, or only compares it. The number of files that are not as they should be."""
    there = TOP / package.folder
    with tempfile.TemporaryDirectory() as scratch:
        folder = Path(scratch)
        for name in package.by_hand:
            (folder / name).parent.mkdir(parents=True, exist_ok=True)
            shutil.copy(there / name, folder / name)
        write(package, folder)
        old, new = files_of(package, there), files_of(package, folder)
        differ = {it for it in new if it not in old or not filecmp.cmp(there / it, folder / it, shallow=False)}
        for it in sorted(differ | old - new) if checks else ():
            print(f"{package.folder}/{it} isn't what tools/erase makes of the sources")
        for it in () if checks else old - new:
            (there / it).unlink()
        for it in () if checks else differ:
            (there / it).parent.mkdir(parents=True, exist_ok=True)
            shutil.copy(folder / it, there / it)
    if not checks:
        print(f"{package.folder}: {len(new)} files, {len(differ)} new or changed, {len(old - new)} gone")
    return len(differ | old - new)


def main():
    parser = argparse.ArgumentParser(description=__doc__, formatter_class=argparse.RawDescriptionHelpFormatter)
    parser.add_argument("--check", action="store_true")
    checks = parser.parse_args().check
    try:
        wrong = sum(update(package, checks) for package in PACKAGES)
    except Refused as refused:
        print(f"erase: {refused}", file=sys.stderr)
        return 2
    return int(checks and wrong > 0)


if __name__ == "__main__":
    sys.exit(main())
