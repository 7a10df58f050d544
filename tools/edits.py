#!/usr/bin/env python3
"""Tries the must-fail edits: the prover has to refuse each, and at a clause of a contract.

    edits.py [--proved ROOT] [--anew] [CRATE | EDIT ...]

With no words it tries the edits of every crate, else those of the crates and files that are named, as cap_vet or
crates/cap_vet/must-fail/NAME.edit. It first proves what has changed of the libraries that these crates use. With --proved all
are proved already below ROOT, a copy of the tree. Each edit is tried on a copy of its crate.

A refusal alone shows little, since a right body is refused too if the written proofs no longer fit it. So the whole output of
the prover is judged. An edit is bad

  - if the code isn't read, or the crate is still proved;
  - if a proof file names a goal, a fact or a field that the edit took away: then the names decide, and not the contract;
  - if no goal of a clause, of a loop's invariant or of a `requires` of a function of ours is refused, but only one of an overflow,
    a bound, or a call of the toolchain's libraries.

So an edit changes one value, and keeps branches and names.

Most of a try is that the prover reads the libraries. So edits in the bodies of different functions are tried together, in one copy of
the crate. A function is proved from the contracts of those that it calls, so the other edits change nothing for it. The prover looks
at no function that calls a refused one, and says so: such an edit is tried again after the others. Together an edit is only ever
refused, and by errors of its own function. In every other case it is tried alone, and that decides.

What was refused is kept on this machine, in ~/.cache/capvet/edits or below XDG_CACHE_HOME. It is kept by the checksum of all that
the try depends on: see `inputs`. A later run, in any checkout, tries only the others. A line says how many it took from there. With
--anew it tries all. The last line is 'N passed, M failed', and the status is 1 if one failed.
"""
import argparse
import contextlib
import functools
import hashlib
import json
import os
import re
import shutil
import stat
import subprocess
import sys
import tempfile
from concurrent.futures import ThreadPoolExecutor
from dataclasses import dataclass
from pathlib import Path

sys.path[1:1] = map(str, (Path(__file__).resolve().parents[1] / "tests").iterdir())

import prove

PARTS = ("src", "specs", "proofs")
KEPT = Path(os.environ.get("XDG_CACHE_HOME") or Path.home() / ".cache") / "capvet/edits"
# A line about a place in the crate, with the name of the goal or of the answer that it is about: `(GOAL)` ends a note.
ERROR = re.compile(r"(?:\./)?((?:src|specs|proofs)/\S+?):\d+:\d+: error: (?:`([^`]*)`: )?(.*)")
NOTE = re.compile(r"note: (?:\./)?(src/\S+?):\d+:\d+: (.*) \(`([^`]*)`\)")
LOST = re.compile(r"has no field|is not in scope|can be named from here|\bhas no `")
UNREAD = re.compile(r"is not in scope|has no field|is no name|operand is missing|expected the end|cannot continue")
# The goals of a clause, of a type's invariant, of a ghost value, and of a loop's invariant, which is also named as the loop's
# ghost is. The others are named after a check or after a callee.
CLAUSE = re.compile(r"returns|invariant|ghost|.*-(init|preserved)(-|$)")
# What is said of a function that was looked at and isn't proved. (where it calls such a one, it wasn't looked at)
REFUSED = re.compile(r"(?m)^fn \S+: (?:not proved$|no proof: (?!it calls ))")
# The line with a function's name, and its indentation.
HEAD = re.compile(r'( *)(?:pub(?:\([a-z]+\))? )?(?:const )?(?:unsafe )?(?:extern "C" )?fn (\w+)')
# A public function or a method whose first clause is a `requires`: no other line of its head begins a block or ends a statement.
ASKS = re.compile(r"(?:\bpub |\n {4})fn (\w+)(?:[^{};]|;(?!\n)|\{\})*?\n +requires\b")


class BadEdit(Exception):
    """Why an edit can't be applied."""


def edited(crate, edit, before=()):
    """The texts of the files of a crate that this text of an edit changes, by their paths in it. `before` has the texts of those that
    other edits have changed."""
    texts, before, path, old = {}, dict(before), None, None
    for line in edit.split("\n"):
        if line.startswith("file: "):
            path = line.removeprefix("file: ").strip()
            if path.split("/")[0] not in PARTS or ".." in path.split("/"):
                raise BadEdit(f"{path} is no file of {', '.join(PARTS)}")
        elif line.startswith("old: "):
            old = line.removeprefix("old: ")
        elif line.startswith("new:"):
            text = texts.get(path) or before.get(path) or (crate / path).read_text()
            if text.count(old) != 1:
                raise BadEdit(f"an old text is in {path} {text.count(old)} times, and not once")
            texts[path] = text.replace(old, line.removeprefix("new:").removeprefix(" "))
    if not texts:
        raise BadEdit("it has no old and new text")
    return texts


def rows_of(crate):
    """The rows of crates.txt for a crate and for those below it, the crate first: what each uses."""
    known, names, ahead = prove.crates(crate.parent.parent), [], [crate.name]
    while ahead:
        names.append(ahead.pop())
        ahead += [it for it in known[names[-1]] if it in known and it not in names + ahead]
    return {name: known[name] for name in names}


def words(crate, kept):
    """The command that checks a crate over the proved libraries beside it."""
    rows = rows_of(crate)
    uses, libraries = rows[crate.name], {name: crate.parent / name / "out/rlib" for name in rows}
    start = next(name for name in ("src/main.rt", "src/lib.rt") if (crate / name).exists())
    command = [prove.KIT / "bin/rattle", "check", "--crate-name", crate.name, start, "--extern", f"std={prove.KIT}/rlibs/std.rlib"]
    for name in [name for name in uses if name != "staticlib"]:
        command += ["--extern", f"{name}={libraries.get(name, prove.KIT / 'rlibs')}/{name}.rlib"]
    for folder in [prove.KIT / "rlibs", *[folder for folder in libraries.values() if folder.is_dir()]]:
        command += ["-L", f"dependency={folder}"]
    command += ["--antt-project", f"{prove.KIT}/rattle/logic/antt-project.json", "--logic-built", f"{prove.KIT}/logic_built"]
    command += ["--links", f"{crate.name}=", *["--crate-type", "staticlib"] * ("staticlib" in uses)]
    return [*command, "--jobs", "1", "--incremental", kept]


def checked(crate, texts, kept, beside=False):
    """What the prover writes for a copy of the crate with these texts, and its status. It has less priority if it works beside
    others."""
    with tempfile.TemporaryDirectory(prefix="capvet-edit-") as copy:
        for part in PARTS:
            if (crate / part).is_dir():
                shutil.copytree(crate / part, Path(copy) / part)
        for path, text in texts.items():
            (Path(copy) / path).write_text(text)
        ran = subprocess.run(["nice"] * beside + words(crate, kept), cwd=copy, stdin=subprocess.DEVNULL, stdout=subprocess.PIPE,
                             stderr=subprocess.STDOUT, text=True, errors="replace")
    return ran.stdout, ran.returncode


def functions(crate):
    """The names of a crate's functions, and of those with a `requires` of our crates below it."""
    texts = [file.read_text() for file in crate.glob("src/**/*.rt")]
    below = [file.read_text() for name in rows_of(crate) if name != crate.name for file in (crate.parent / name).glob("src/**/*.rt")]
    return set(re.findall(r"\bfn (\w+)", "\n".join(texts))) | set(ASKS.findall("\n".join(below)))


def judged(output, status, changed, own):
    """Whether this output shows that a contract refuses the edit of these files, and why (not). `own` has the names of functions
    whose `requires` count."""
    lines = output.splitlines()
    errors = [found.groups() for found in map(ERROR.match, lines) if found]
    for path, name, said in errors:
        if (path in changed or path.startswith(("src/", "specs/"))) and (not name or UNREAD.search(re.sub("`[^`]*`", "", said))):
            return False, f"the prover can't read it: {path}: {said[:160]}"
    if status == 0:
        return False, "the crate is still proved"
    if status != 1 or not any(line.startswith("logic=not-proved") for line in lines):
        return False, f"the prover ended with status {status}: {' '.join(lines[-2:])[:300]}"
    for path, name, said in errors:
        if LOST.search(said):
            return False, f"it takes away a name that {path} cites, in `{name}`: {said[:200]}"
    goals = [name for _, name, _ in errors if name] + [found[3] for found in map(NOTE.match, lines) if found]
    refused = re.findall(r"(?m)^fn (\S+): not proved$", output)
    where = f"{', '.join(refused)}: {', '.join(dict.fromkeys(goals))}"
    called = (re.match(r"(\w+)-requires", goal) for goal in goals)
    if not any(map(CLAUSE.match, goals)) and not any(call and call[1] in own for call in called):
        return False, f"no clause refuses it, but only another goal: {where}"
    return True, f"refused at {where}"


@dataclass(frozen=True)
class Function:
    """A function of a crate: its file, its lines there from the first to the last, and the modules and the name that the prover has
    of it. The type of a method is missing."""
    file: str
    first: int
    last: int
    modules: tuple
    name: str

    def lines_of(self, output):
        """Which lines of the prover's are about this function: its errors and notes, whether it is proved, and the last line."""
        at = "/".join(["proofs", *self.modules])
        ours = re.compile(rf"(?:note: )?(?:\./)?(?:{at}/(?:\w+/)?{self.name}/|{self.file}:(\d+):)")
        verdict = re.compile(rf"fn \w+::{''.join(f'{it}::' for it in self.modules)}(?:\w+::)?{self.name}: .*|logic=.*")
        places = ((line, ours.match(line)) for line in output.splitlines())
        return "\n".join(line for line, place in places if verdict.fullmatch(line) or
                         place and (not place[1] or self.first <= int(place[1]) <= self.last))


def function_at(file, lines, at):
    """The function of a file in whose body a line is. It is None where there is none, or where others have its name."""
    heads = {number: found.groups() for number, line in enumerate(lines) if (found := HEAD.match(line))}
    first = max((number for number in heads if number < at), default=None)
    if first is None or [name for _, name in heads.values()].count(heads[first][1]) > 1:
        return None
    # (each clause of the head has more indentation than the line that opens the body)
    outer = [number for number in range(first, len(lines)) if re.match(heads[first][0] + r"\S", lines[number])]
    opens = next((number for number in outer if lines[number].endswith("{")), len(lines))
    closes = next((number for number in outer if number > opens and lines[number].strip() == "}"), len(lines))
    modules = tuple(it for it in Path(file).with_suffix("").parts[1:] if it not in ("lib", "main"))
    return Function(file, first + 1, closes + 1, modules, heads[first][1]) if opens < at < closes else None


def function_of(crate, edit):
    """The one function whose body an edit changes. It is None where the edit changes more, or something else."""
    try:
        edited(crate, edit)
    except BadEdit:
        return None
    found, file = set(), None
    for line in edit.split("\n"):
        if line.startswith("file: "):
            file = line.removeprefix("file: ").strip()
        elif line.startswith("old: "):
            before, _, _ = (crate / file).read_text().partition(line.removeprefix("old: "))
            found.add(function_at(file, (crate / file).read_text().splitlines(), before.count("\n")))
    return found.pop() if len(found) == 1 else None


def refused_together(crate, texts, kept, beside):
    """Tries edits of different functions in one copy of the crate. Gives those that a clause of their own function refuses, and why.
    One whose old text another edit writes too is left out."""
    files, applied = {}, {}
    for name, text in texts.items():
        with contextlib.suppress(BadEdit):
            files |= edited(crate, text, files)
            applied[name] = text
    output, status = checked(crate, files, kept, beside)
    own, found = functions(crate), {}
    for name, text in applied.items():
        lines = function_of(crate, text).lines_of(output)
        holds, why = judged(lines, status, files, own)
        if holds and REFUSED.search(lines):
            found[name] = why
    return found


def results(crate, texts, kept, beside):
    """Tries edits, and yields for each its name, whether it is refused at a clause, and what to say. Those of different functions are
    tried together as long as that refuses some, and the others alone."""
    texts, refused = dict(texts), True
    while refused:
        apart = {function_of(crate, text): name for name, text in texts.items()}
        apart.pop(None, None)
        refused = refused_together(crate, {name: texts[name] for name in apart.values()}, kept, beside) if len(apart) > 1 else {}
        for name, why in refused.items():
            del texts[name]
            yield name, True, why
    for name, text in texts.items():
        yield name, *tried(crate, text, kept, beside)


def tried(crate, edit, kept, beside=False):
    """Whether the prover refuses this text of an edit at a clause, and what to say."""
    try:
        texts = edited(crate, edit)
    except BadEdit as error:
        return False, f"{error}"
    return judged(*checked(crate, texts, kept, beside), texts, functions(crate))


@functools.cache
def kit():
    """The checksum of the prover, and of the libraries and the logic that come with it."""
    version = subprocess.run(["rt", "version"], capture_output=True, check=True).stdout
    files = [prove.KIT / "bin/rattle", *sorted(prove.KIT.glob("rlibs/*.rlib/format")),
             *files_of(prove.KIT / "logic_built"), *files_of(prove.KIT / "rattle/logic")]
    return checksum([("rt version", version), *((str(file), file.read_bytes()) for file in files)])


def files_of(folder):
    """All files below a folder, in order."""
    return sorted(Path(at) / file for at, _, files in os.walk(folder, followlinks=True) for file in files)


def inputs(crate, name, edit):
    """All that the try of an edit of this name and text depends on, each part with a name: the prover, and of the crate and those
    below it the rows of crates.txt and the files. Built libraries are made of these, so it doesn't matter who built them. Nor does
    the work that a check kept: the prover looks at each part of it again."""
    rows = rows_of(crate)
    yield "kit", kit().encode()
    # (what prove.py gives is the kit and the rows)
    yield "edits.py", Path(__file__).read_bytes()
    yield f"edit {name}", edit.encode()
    for it, uses in rows.items():
        yield f"row of {it}", " ".join(uses).encode()
        folder = crate.parent / it
        yield from ((f"{it}/{file.relative_to(folder)}", file.read_bytes()) for part in PARTS for file in files_of(folder / part))


def checksum(parts):
    """The checksum of named parts. Each is counted with its lengths, so that no two lists of parts are the same bytes."""
    whole = hashlib.sha256()
    for name, data in parts:
        name = os.fsencode(name)
        whole.update(b"%d %d " % (len(name), len(data)) + name + data)
    return whole.hexdigest()


def is_ours(folder):
    """Whether a folder is there that only this user writes to. It is made if it can be."""
    try:
        folder.mkdir(0o700, parents=True, exist_ok=True)
        found = folder.stat()
    except OSError:
        return False
    return found.st_uid == os.geteuid() and not found.st_mode & (stat.S_IWGRP | stat.S_IWOTH)


def taken(key):
    """What an earlier run said of an edit that was refused, or None. A file that isn't whole counts for nothing."""
    try:
        found = json.loads((KEPT / key).read_text()) if is_ours(KEPT) else {}
        return str(found["said"]) if found["key"] == key else None
    except (OSError, ValueError, KeyError, TypeError):
        return None


def keep(key, said):
    """Keeps that an edit was refused, under its name only once the file is whole."""
    if is_ours(KEPT):
        with tempfile.NamedTemporaryFile("w", dir=KEPT, prefix="new-", delete=False) as file:
            json.dump({"key": key, "said": said}, file)
        Path(file.name).replace(KEPT / key)


def try_edits(crate, files, is_anew=False, is_proved=False, beside=False, say=print):
    """Tries edits of one crate in turn, each over what the checks before it proved. Returns how many hold, and how many of
    them were taken from an earlier run. `say` gets a line for each that was tried. The crate without an edit is checked first, unless
    it is known to be proved."""
    texts = {file.name: file.read_text() for file in files}
    keys = {name: checksum(inputs(crate, name, text)) for name, text in texts.items()}
    left = [name for name in texts if is_anew or taken(keys[name]) is None]
    passed = known = len(texts) - len(left)
    with tempfile.TemporaryDirectory(prefix="capvet-edits-") as folder:
        kept = Path(folder) / "kept"
        if left and (crate / "out/incremental").is_dir():
            shutil.copytree(crate / "out/incremental", kept)
        output, status = checked(crate, {}, kept, beside) if left and not is_proved else ("", 0)
        if status:
            say(f"{crate.name}: not proved without an edit: {' '.join(output.splitlines()[-1:])}")
            return known, known
        for name, holds, why in results(crate, {name: texts[name] for name in left}, kept, beside):
            say(f"{crate.name}/{name}: {'' if holds else 'BAD EDIT: '}{why}")
            # (not if a file has changed meanwhile)
            if holds and checksum(inputs(crate, name, texts[name])) == keys[name]:
                keep(keys[name], why)
            passed += holds
    return passed, known


def edits(given):
    """The edits that are named, or all, by the name of their crate. The crates with the most edits come first."""
    every = {crate.name: sorted(crate.glob("must-fail/*")) for crate in prove.TOP.glob("crates/*")}
    named = {name: [file for file in files if not given or name in given or str(file) in given] for name, files in every.items()}
    return sorted(((name, files) for name, files in named.items() if files), key=lambda pair: -len(pair[1]))


def main(given):
    """Tries the edits, the crates side by side."""
    sys.stdout.reconfigure(line_buffering=True)
    parser = argparse.ArgumentParser(usage=__doc__)
    parser.add_argument("--proved", type=Path)
    parser.add_argument("--anew", action="store_true")
    parser.add_argument("names", nargs="*")
    asked = parser.parse_args(given)
    pairs = edits([str(Path(word).resolve()) if word.endswith(".edit") else word for word in asked.names])
    known = prove.crates()
    if not asked.proved and not prove.prove_crates(prove.below({it for name, _ in pairs for it in known[name] if it in known}), prove.rt):
        print("0 passed, 1 failed")
        return 1
    root = asked.proved or prove.TOP
    with ThreadPoolExecutor(len(os.sched_getaffinity(0))) as cores:
        found = list(cores.map(lambda pair: try_edits(root / "crates" / pair[0], pair[1], asked.anew, bool(asked.proved)), pairs))
    passed, known, all_of_them = sum(it[0] for it in found), sum(it[1] for it in found), sum(len(files) for _, files in pairs)
    if known:
        print(f"edits: {known} of {all_of_them} were refused by an earlier run on this machine, which read the same: --anew tries them too")
    print(f"{passed} passed, {all_of_them - passed} failed")
    return 1 if passed < all_of_them or not passed else 0


if __name__ == "__main__":
    sys.exit(main(sys.argv[1:]))
