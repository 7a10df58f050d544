#!/usr/bin/env python3
"""Shows that the text in rust/core and rust/capvet-cli is that of crates/, but for contracts and a table of rewrites.

    compare.py [TOP]

TOP is the folder of the repository, by default that of this file. It shares nothing with erase.py. Both texts are taken as lists of
words. Those of a clause or a ghost item are left out of the source, and both lists are brought to one form by the tables below. Then
they have to be equal, and so have the imports and modules of a file, as sets, since rustfmt sorts these. It prints the number of each
rewrite, and has status 1 if a file differs.
"""
import re
import sys
from collections import Counter
from pathlib import Path

TOP = Path(sys.argv[1] if len(sys.argv) > 1 else Path(__file__).parents[2]).resolve()
LIBRARY = "cap_spec cap_words cap_path cap_buffer cap_frame cap_pack cap_ptr cap_walk cap_vet cap_trace cap_canon cap_difference cap_explain cap_calls"
PROGRAM = "cap_text cap_run cap_commands cap_cmd capvet"
# Each package: its folder, its crates, its files by hand, and paths that are other ones in the sources.
PACKAGES = (
    ("rust/core/src", LIBRARY.split(), {"lib.rs", "rattle.rs"},
     (("core", "std"), ("crate :: rattle :: alloc", "std :: alloc"), ("crate :: rattle :: hex", "hex"), ("crate :: rattle :: itoa", "itoa"),
      *((f"crate :: {name}", name) for name in LIBRARY.split()))),
    ("rust/capvet-cli/src", PROGRAM.split(), {"main.rs", "clap.rs", "closed.rs", "rattle.rs"},
     (("capvet_core :: rattle :: alloc", "std :: alloc"), ("crate :: clap", "clap"),
      ("crate :: rattle :: sha2", "sha2"),
      ("core :: str", "str"), *((f"crate :: rattle :: {name}", f"std :: {name}") for name in ("env", "fs", "io", "process")),
      *((f"capvet_core :: {name}", name) for name in LIBRARY.split()), *((f"crate :: {name}", name) for name in PROGRAM.split()))),
)
# Sources without a counterpart: theorems, in files whose names end in `laws`, have no code, and stable Rust has no vectors.
WITHOUT = re.compile(r"cap_\w+/\w*laws\.rt|cap_pack/lanes/vectors(\.rt|/\w+\.rt)")
THEOREMS = r"\w*laws"

WORDS = re.compile(r"""//[^\n]*|"(?:\\.|[^"\\])*"|'(?:\\.[^']*|[^'\\])'|\w+|->|=>|::|\.\.=|\.\.|&&|\|\||[=!<>]=|\S""")
# What the source has more, or in another form. A `~` is words without a bracket or a semicolon.
OF_SOURCE = (
    (r"# ! \[ tactic \( ~ \) \] ", ""),
    (r'# \[ error \( "[^"]*" \) \] ', ""),
    (r"# \[ derive \( Drop \) \] ", ""),
    (r"(?<=[(,] )(Drop|Error) , (?=(\w+ ,? ?)*\) \])", ""),
    (r"(?<=\w) , (Drop|Error)(?= \) \])", ""),
    (r"impl (< const N : usize > )?Model for ~ { } ", ""),
    (r"\+ Drop ", ""),
    (r"where R : Drop , (?={)", ""),
    (r"type (\w+) : Drop ;", r"type \1 ;"),
    (r"pub mod vectors ; ", ""),
    (r"use vectors ::", "use scalars ::"),
    (r"fn main \( rt : HostRuntime \)", "pub ( crate ) fn main ( rt : HostRuntime )"),
    (r"trait FirstTurn : Turn {", "trait FirstTurn : Turn + Sized {"),
    (r"-> Result < (\w+ < ' ?m , M >) , AllocError > { Ok \( \* self \) }", r"-> \1 { * self }"),
)
# What the written text has more.
OF_TEXT = (
    (r'# \[ cfg \( feature = "std" \) \] ', ""),
)
# What both are brought to: no comma before a bracket that closes, none after a block that is an arm.
OF_BOTH = ((r", (?=[)\]}>])", ""),)
counts = Counter()


def words_of(text):
    """The words of a text, without comments. (A string is one word, so its spaces are written in another way)"""
    return [re.sub(r"\s", "\0", word) for word in WORDS.findall(text) if not word.startswith("//")]


def closing(words, at):
    """The place after the bracket that closes the one at `at`."""
    depth = 0
    for place in range(at, len(words)):
        depth += (words[place] in "([{") - (words[place] in ")]}")
        if depth == 0:
            return place + 1
    raise SystemExit("a bracket without its end")


def without_ghosts(words):
    """The words that aren't of clauses and ghost items."""
    out, at = [], 0
    while at < len(words):
        word = words[at]
        if word in ("requires", "ensures"):
            at = closing(words, at + 1 + (words[at + 1] != "{"))
        elif word == "ghost" and words[at + 1] == "use":
            at = words.index(";", at) + 1
        elif word == "ghost":
            at = closing(words, at + 3)
            if words[at] == "by":
                at = closing(words, at + 1)
            at += words[at] in (";", ",")
        else:
            out.append(word)
            at += 1
            continue
        counts["clauses and ghost items"] += 1
    return out


def named(text, crate, paths):
    """A text whose paths are as the source of a crate has them."""
    for here, there in ((f"crate :: {crate}", "crate"), *paths):
        text = re.sub(rf"(?<!:: )\b{here} ::", f"{there} ::", text)
        text = re.sub(rf"(?<!:: )\b{here}$", there, text)
    return text


def imports(words, crate, paths):
    """What the imports and modules of these words are, as a set, and the words without them."""
    found, out, at = set(), [], 0
    while at < len(words):
        if words[at] not in ("use", "mod"):
            out.append(words[at])
            at += 1
            continue
        end = words.index(";", at)
        before = "pub ( crate )" if out[-4:] == ["pub", "(", "crate", ")"] else "pub" if out[-1:] == ["pub"] else ""
        del out[len(out) - len(before.split()):]
        text = " ".join(words[at + 1:end])
        listed = re.fullmatch(r"(.*:: ){ (.*?) ,? ?}|(.*)", text).groups()
        names = [listed[0] + name for name in listed[1].split(" , ")] if listed[1] else [listed[2]]
        found |= {f"{before} {words[at]} {named(name, crate, paths)}" for name in names}
        at = end + 1
    return found, out


def arms(words):
    """The words with each arm that is one expression in braces as that expression, and without commas after blocks."""
    at = 0
    while at < len(words):
        if words[at] == "=>" and words[at + 1] == "{":
            end = closing(words, at + 1)
            inside, depth, plain = words[at + 2:end - 1], 0, True
            for word in inside:
                depth += (word in "([{") - (word in ")]}")
                plain = plain and not (depth == 0 and word == ";")
            comma = words[end:end + 1] == [","]
            body = [*inside, ","] if plain and inside else ["{", *inside, "}"]
            words[at + 1:end + comma] = body
        at += 1
    return words


def let_else(text):
    """The text with each `let N = if let P = E { N } else { B } ;` as `let P = E else { B } ;`."""
    names = r"(?:\( )?(?:mut )?\w+(?: , \w+)*(?: \))?|\( \)"
    form = re.compile(rf"let ({names}) = if let ([^=;]*?) = ([^{{}};]*?) {{ ({names}) }} else {{")

    def undone(found):
        names, pattern, value, inner = found.groups()
        bound = re.findall(r"(?<!:: )\b[a-z]\w*\b(?! [({:])", pattern)
        if names.replace("mut ", "") != inner or set(re.findall(r"\b[a-z]\w*", inner)) != set(bound):
            return found[0]
        if "mut" in names:
            pattern = pattern.replace(inner, f"mut {inner}")
        counts["let .. else"] += 1
        return f"let {pattern} = {value} else {{"

    return form.sub(undone, text)


def substituted(text, table):
    """The text after a table of rewrites."""
    for old, new in table:
        old = old.replace("~", r"[^(){}\[\];]*?")
        text, count = re.subn(old, new, text)
        counts[old] += count
    return text


def form(text, crate, paths, is_source):
    """The imports and modules of a file, and its other words in the form in which both are compared."""
    words = words_of(text)
    words = without_ghosts(words) if is_source else words
    text = substituted(" ".join(words) + " ", OF_SOURCE if is_source else OF_TEXT)
    found, words = imports(text.split(" "), crate, () if is_source else paths)
    text = " ".join(arms([word for word in words if word]))
    if is_source:
        found = {it for it in found if not re.search(rf"use thiserror|marker :: Model$|(mod|use) ({THEOREMS})\b", it)}
    else:
        text = named(let_else(text), crate, paths)
        found = {it for it in found if "rattle ::" not in it}
    return found, substituted(text, OF_BOTH)


def compared(source, target, crate, paths):
    """What differs between a source and what is written of it."""
    (imported, text), (here, other) = form(source.read_text(), crate, paths, True), form(target.read_text(), crate, paths, False)
    for it in sorted(imported ^ here):
        yield f"only {'in the source' if it in imported else 'here'}: {it}"
    if text != other:
        at = next((at for at, pair in enumerate(zip(text, other)) if pair[0] != pair[1]), min(len(text), len(other)))
        yield f"source ..{text[max(0, at - 80):at + 120]}\n  here   ..{other[max(0, at - 80):at + 120]}"


def package(folder, crates, by_hand, paths):
    """How many files of a package were compared, and how many differ."""
    known, differ = set(by_hand), 0
    for crate in crates:
        sources = TOP / "crates" / crate / "src"
        for source in sorted(sources.rglob("*.rt")):
            inside = source.relative_to(sources)
            if WITHOUT.fullmatch(f"{crate}/{inside}"):
                continue
            name = f"{crate}.rs" if inside.stem in ("lib", "main") else f"{crate}/{inside.with_suffix('.rs')}"
            known.add(name)
            for line in compared(source, TOP / folder / name, crate, paths):
                differ += 1
                print(f"{folder}/{name}: {line}")
    for path in (TOP / folder).rglob("*.rs"):
        if str(path.relative_to(TOP / folder)) not in known:
            differ += 1
            print(f"{path}: no source")
    return len(known - by_hand), differ


def counted(names):
    """How often the eraser says that it did what these lines of its counts are about."""
    texts = [(TOP / folder).parent.joinpath("erased.txt").read_text() for folder, *_ in PACKAGES]
    return sum(int(count) for text in texts for count, name in re.findall(r"^ *(\d+) (.*)$", text, re.M) if name in names)


def main():
    compared_files, differ = map(sum, zip(*(package(*it) for it in PACKAGES)))
    for name, names in (("clauses and ghost items", ("clause", "ghost use", "ghost member")), ("let .. else", ("`let .. else`",))):
        if counts[name] != counted(names):
            differ += 1
            print(f"{name}: {counts[name]} here, and {counted(names)} by the eraser")
    for name, count in counts.items():
        print(f"{count:6} {name}")
    print(f"{compared_files} files compared, {differ} differences")
    return int(differ > 0)


if __name__ == "__main__":
    sys.exit(main())
