#!/usr/bin/env python3
"""Changes each input of the try of a must-fail edit: no edit may pass by what tools/edits.py kept of another input.

The tree has three small crates, one above the other. Nothing is proved: a function answers in place of the prover, and counts how
often it is asked. The last line is 'N passed, M failed', and the status is 1 if a case failed.
"""
import contextlib
import io
import json
import sys
import tempfile
from pathlib import Path

sys.path[1:1] = map(str, (Path(__file__).resolve().parents[1] / "tests").iterdir())

import edits
import prove
from harness import compare, ended, expect
from needs import missing

EDIT = "file: src/lib.rt\nold: one\nnew: two\n"
# The tree's crates.txt, the files that the try of an edit of `middle` depends on, and others.
ROWS = "low:\nmiddle: low\nhigh: middle\n"
READ = {f"crates/{name}/{part}": f"one fn of {name}\n" for name in ("low", "middle")
        for part in ("src/lib.rt", "src/deeper/more.rt", "specs/Lib.antt", "proofs/Lib.antt", "proofs/deeper/Answers.antt")}
UNREAD = {"README.md": "", "crates/high/src/lib.rt": "one\n", "crates/low/README.md": "", "crates/middle/must-fail/other.edit": EDIT,
          "crates/middle/out/incremental/work": "", "crates/low/out/rlib/low.rlib/format": "sum 1\n"}
REFUSED = "src/lib.rt:1:1: error: `returns`: it doesn't hold\nfn one: not proved\nlogic=not-proved\n", 1


def made(root):
    """The tree below root. Its crate `middle`."""
    for name, text in {"crates.txt": ROWS, **READ, **UNREAD}.items():
        (root / name).parent.mkdir(parents=True, exist_ok=True)
        (root / name).write_text(text)
    return root / "crates/middle"


def key(crate, name="an.edit", text=EDIT):
    return edits.checksum(edits.inputs(crate, name, text))


def changes(file):
    """Changes a file in several ways, one after the other, with a name for each. The file is the same in the end."""
    before = file.read_bytes()
    for at in range(len(before)):
        file.write_bytes(before[:at] + bytes([before[at] ^ 1]) + before[at + 1:])
        yield f"byte {at}"
    for what, text in (("one byte more", before + b"\n"), ("one byte less", before[:-1]), ("nothing", b"")):
        file.write_bytes(text)
        yield what
    file.write_bytes(before)


def of_files(root, crate):
    """Each byte of each file that the try reads is in the key, and so is each file's name. No other file is."""
    first = key(crate)
    for name in READ:
        for what in changes(root / name):
            expect(f"the key, with {what} of {name}", key(crate) != first)
        other = (root / name).with_stem("other")
        (root / name).rename(other)
        expect(f"the key, with another name for {name}", key(crate) != first)
        other.rename(root / name)
    for name in ("low", "middle"):
        for part in edits.PARTS:
            more = root / f"crates/{name}/{part}/New"
            more.write_text("")
            expect(f"the key, with one file more in {part} of {name}", key(crate) != first)
            more.unlink()
    for name in UNREAD:
        for what in changes(root / name):
            compare(f"the key, with {what} of {name}", first, key(crate))
    for name, text in (("an.edit", EDIT + "\n"), ("an.edit", EDIT.replace("two", "twO")), ("another.edit", EDIT)):
        expect(f"the key of {name} with {text!r}", key(crate, name, text) != first)
    compare("the key of the same once more", first, key(crate))


def of_rows(root, crate):
    """The rows of crates.txt for the crate and those below it are in the key. No other row is."""
    first, file = key(crate), root / "crates.txt"
    for rows in ("low: std\nmiddle: low\n", "low:\nmiddle: low std\n", "low:\nmiddle: std low\n", "low:\nmiddle:\n",
                 "other:\nlow: other\nmiddle: low\n", "low:\nmiddle staticlib: low\n"):
        file.write_text(rows)
        expect(f"the key, with the rows {rows!r}", key(crate) != first)
    for rows in ("low:\nmiddle: low\n", "# a comment\n" + ROWS, ROWS + "highest: high low\n"):
        file.write_text(rows)
        compare(f"the key, with the rows {rows!r}", first, key(crate))
    file.write_text(ROWS)


def of_parts(crate):
    """Each part is in the key with its name and its place, and so are the script and the kit."""
    parts = list(edits.inputs(crate, "an.edit", EDIT))
    first = edits.checksum(parts)
    for at, (name, data) in enumerate(parts):
        for other in ((name + "x", data), (name, data + b"x"), (name, b"x" + data[1:])):
            expect(f"the key, with another {name}", edits.checksum([*parts[:at], other, *parts[at + 1:]]) != first)
        expect(f"the key, without {name}", edits.checksum(parts[:at] + parts[at + 1:]) != first)
    expect("the lengths are in the key", edits.checksum([("a", b"bc")]) != edits.checksum([("ab", b"c")]))
    expect("two parts aren't one", edits.checksum([("a", b""), ("b", b"")]) != edits.checksum([("a", b"1 0 b")]))
    compare("what all tries read", ["kit", "edits.py"], [name for name, _ in parts[:2]])


def of_the_kit(folder):
    """The prover, its libraries and its logic are in the key."""
    kit, prove.KIT = prove.KIT, folder
    files = [folder / name for name in ("bin/rattle", "rlibs/std.rlib/format", "logic_built/deep/Base", "rattle/logic/Base")]
    for file in files:
        file.parent.mkdir(parents=True)
        file.write_text("kit")
    first = edits.kit.__wrapped__()
    for file in files:
        for what in changes(file):
            expect(f"the key, with {what} of the kit's {file.name}", edits.kit.__wrapped__() != first)
    compare("the kit once more", first, edits.kit.__wrapped__())
    prove.KIT = kit


class Prover:
    """What answers in place of the prover. `asked` has how often it was, and `meanwhile` is done at each try."""

    def __init__(self, answer=REFUSED, meanwhile=lambda: None):
        self.asked, self.answer, self.meanwhile = 0, answer, meanwhile

    def __call__(self, crate, texts, kept, beside):
        self.asked += 1
        self.meanwhile()
        return self.answer if texts else ("logic=proved\n", 0)


def tried(name, crate, expected, prover=None, **how):
    """A run over the edit. What it returns, and how often it asks the prover: twice where the edit is tried, else never."""
    edits.checked = prover or Prover()
    got = edits.try_edits(crate, [crate / "must-fail/other.edit"], **how)
    compare(name, expected, (got, edits.checked.asked))


def of_runs(crate, folder):
    """What a run takes from an earlier one, and what it doesn't."""
    edits.KEPT = folder / "deep/kept"
    source, again, taken = crate / "src/lib.rt", ((1, 0), 2), ((1, 1), 0)
    tried("a first run", crate, again)
    tried("a second run", crate, taken)
    tried("a run that takes nothing", crate, again, is_anew=True)
    tried("a run of a proved crate", crate, ((1, 0), 1), is_anew=True, is_proved=True)
    before = source.read_text()
    source.write_text(before + "\n")
    tried("a run with one byte more", crate, again)
    source.write_text(before)
    tried("a run with the byte taken away", crate, taken)
    file = edits.KEPT / key(crate, "other.edit")
    whole = file.read_text()
    for text in ("", whole[:-1], whole.replace(file.name, file.name[::-1]), json.dumps([1]), "{}", json.dumps({"key": file.name})):
        file.write_text(text)
        compare(f"a kept file that is {text!r}", None, edits.taken(file.name))
    file.unlink()
    tried("a run where the file is gone", crate, again)
    edits.KEPT.chmod(0o777)
    tried("a run where everyone may write", crate, again)
    edits.KEPT.chmod(0o700)
    edits.KEPT = folder / "second"
    for answer in (("logic=proved\n", 0), ("rattle was killed\n", 2)):
        tried(f"a bad edit: {answer}", crate, ((0, 0), 2), Prover(answer))
    tried("a file that changes meanwhile", crate, again, Prover(meanwhile=lambda: source.write_text(source.read_text() + "\n")))
    source.write_text(before)
    tried("a run after those", crate, again)


# Three functions in two files, of which one calls another, and a constant. What the prover says of each that is changed.
FUNCTIONS = {
    "src/lib.rt": "const SIZE: u32 = 1;\n\npub fn called() -> u32\n    ensures is { result \u2261 1 }\n{\n    called_1\n}\n\n"
                  "fn calling() -> u32 {\n    calling_1\n}\n",
    "src/deeper/more.rt": "impl Some {\n    fn method(\n        &self,\n    ) -> u32 {\n        method_1\n    }\n}\n"}
SAID = {
    "called_": ("./proofs/called/Answers.antt:1:1: error: `returns-is`: no\n", "fn middle::called: not proved"),
    "calling_": ("note: src/lib.rt:9:1: it is not proved (`returns`)\n", "fn middle::calling: no proof: expected answers"),
    "method_": ("proofs/deeper/more/Some/method/Answers.antt:1:1: error: `returns`: no\n", "fn middle::deeper::more::Some::method: not proved"),
    "SIZE: u32 = ": ("./proofs/called/Answers.antt:1:1: error: `returns-is`: no\n", "fn middle::called: not proved")}
WAITING = "fn middle::calling: no proof: it calls `middle::called`, which is not proved"


def of_functions(said):
    """A prover that says this of each changed function. Of one that calls a changed one it says that it didn't look."""
    def answer(_, texts, *__):
        asked.append(changed := [word for word in said if f"{word}2" in "".join(texts.values())])
        waits = "called_" in changed and said["called_"][0]
        errors = "".join(said[word][0] for word in changed if word != "calling_" or not waits)
        ends = [WAITING if word == "calling_" and waits else said[word][1] for word in changed]
        return "\n".join([errors, *ends, "logic=not-proved" if errors else "logic=proved"]), 1 if errors else 0
    asked = []
    return answer, asked


def of_edits_together(crate):
    """Edits of different functions are tried together, and each is refused by errors of its own function alone."""
    for name, text in FUNCTIONS.items():
        (crate / name).write_text(text)
    texts = {word: f"file: {'src/deeper/more.rt' if word == 'method_' else 'src/lib.rt'}\nold: {word}1\nnew: {word}2\n" for word in SAID}
    nothing = ("", "fn middle::called: proved")
    overflow = ("./proofs/called/Answers.antt:1:1: error: `overflow-add`: no\n", "fn middle::called: not proved")
    lost = ("./proofs/called/Answers.antt:1:1: error: `returns-is`: `c` has no field `x`\n", "fn middle::called: not proved")
    # (the constant is of no function, and the function that calls a changed one waits for the next try)
    all_of_them, alone = ["called_", "calling_", "method_"], [["called_"], ["calling_"], ["SIZE: u32 = "]]
    none_more = [all_of_them, ["called_", "calling_"], *alone]
    for what, said, bad, tries in (("all refused", SAID["called_"], set(), [all_of_them, *alone[1:]]),
                                   ("one proved", nothing, {"called_"}, [all_of_them, *alone[::2]]),
                                   ("one overflows", overflow, {"called_"}, none_more), ("one loses a name", lost, {"called_"}, none_more)):
        edits.checked, asked = of_functions({**SAID, "called_": said})
        got = {name: holds for name, holds, _ in edits.results(crate, texts, None, False)}
        compare(f"edits together, {what}", {word: word not in bad for word in texts}, got)
        compare(f"what is tried together, {what}", sorted(tries), sorted(asked))
    # (what one edit writes is what another one looks for, so that it would be there twice)
    texts = {"called_": texts["called_"].replace("called_2", "called_2 + calling_1"), "calling_": texts["calling_"]}
    edits.checked, asked = of_functions(SAID)
    compare("edits that meet", [("called_", True), ("calling_", True)], [it[:2] for it in edits.results(crate, texts, None, False)])
    compare("what is tried together, where edits meet", [["called_"], ["calling_"]], asked)


def of_the_end():
    """The last lines of prove.py name each bad edit, and a crate that isn't proved without one."""
    lines = ("low/right.edit: refused at one: returns", "low/wrong.edit: BAD EDIT: the crate is still proved",
             "middle: not proved without an edit: logic=not-proved")
    bad = [f"FAILED: {line}\n" for line in lines[1:]]
    for shown, status, passed, expected in ((lines, 1, None, [*bad, "0 passed, 1 failed\n"]), (lines[:1], 0, 3, ["3 passed, 0 failed\n"])):
        program = "".join(f"print({line!r})\n" for line in (*shown, f"{'2' if status else '3'} passed, {status} failed"))
        prove.FAILURES.clear()
        with contextlib.redirect_stdout(io.StringIO()) as out:
            got = prove.counted([sys.executable, "-c", f"{program}raise SystemExit({status})"], ".")
        with contextlib.redirect_stdout(io.StringIO()) as end:
            ended_with = prove.ended(got)
        compare(f"what passed of {len(shown)} edits", (passed, status), (got, ended_with))
        compare(f"the lines of {len(shown)} edits", (True, "".join(expected)), (all(line in out.getvalue() for line in shown), end.getvalue()))
    prove.FAILURES.clear()


def main():
    if missing("what tools/edits.py keeps", "rt"):
        return ended()
    with tempfile.TemporaryDirectory() as scratch:
        root = Path(scratch)
        crate = made(root / "tree")
        of_files(root / "tree", crate)
        of_rows(root / "tree", crate)
        of_parts(crate)
        of_the_kit(root / "kit")
        of_runs(crate, root / "cache")
        of_edits_together(crate)
        of_the_end()
    return ended()


if __name__ == "__main__":
    sys.exit(main())
