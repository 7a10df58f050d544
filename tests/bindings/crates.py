#!/usr/bin/env python3
"""Tests the text without contracts and the crates over it: rust/core, rust/capvet and their tests, as rustc builds them.

    crates.py [PROGRAM] [--full]

- The text is what tools/erase makes of the sources, to the byte. By a comparison of another kind it has their words, and this
  comparison sees a change of one word in each file. The eraser refuses what it doesn't know.
- The crates' tests pass with overflow checks and debug assertions, by the Rust of the path and by the least one that they name.
  They build without std. They are formatted, and clippy finds nothing that isn't named there.
- Each cast of which clippy says that it may change a number is in tests/plain/casts.txt, with the reason why it doesn't.
- The crate returns what PROGRAM prints, for the samples and for 500 changed messages under five sets of limits. It explains 2,000 as
  PROGRAM does.
- A new crate that adds rust/capvet by its path is built, and vets a file. With --full this is also done in a fresh root of Debian 12,
  which has Debian's cargo and crates, and nothing else of this project.

The last line is 'N passed, M failed', and the status is 1 where a case failed.
"""
import json
import os
import random
import re
import shutil
import sys
import tempfile
from pathlib import Path

sys.path[1:1] = map(str, Path(__file__).resolve().parents[1].iterdir())

import amount
import chroots
import needs
import package_chroots
from cargo import CARGO, environment
from harness import TOP, compare, count, ended, expect, run
from needs import missing

# What clippy says of a cast that may change a number, and the crates with their options.
CASTS = ("possible_truncation", "possible_wrap", "sign_loss", "precision_loss")
CRATES = (("rust", "capvet-core", ("--features", "std")), ("rust", "capvet", ()), ("rust", "capvet-c", ()), ("rust/capvet-cli", "capvet-cli", ()))


# Sources that the eraser has to refuse, each by what its message says.
REFUSED = (
    ("fn f()\n    ensures { x\n{}\n", "a clause without an end"),
    ("fn f()\n    ensures { x } let\n{}\n", "what follows a clause isn't known"),
    ("fn f() ensures + {}\n", "an unknown ghost item"),
    ("ghost fn f() {}\n", "an unknown ghost item"),
    ("struct S { ghost x: { 0 } y: u8 }\n", "a ghost member without an end"),
    ("fn f() { a ≡ b }\n", "what is this?"),
    ("fn f() { 'x }\n\n//! About all.\n", "an inner comment"),
    ("use std::thread::spawn;\n", "the path std::thread isn't known"),
    ("#[cycle(x)]\nfn f() {}\n", "an unknown attribute"),
    ("fn f() { unsafe { g() } }\n", "`unsafe` is left"),
    ("fn f<T: Drop>() {}\n", "`Drop` is left"),
    ("fn f(s: S) { let S { a: b, .. } = s else { return; }; }\n", "a field that is renamed"),
)


def refusals(folder):
    """The eraser refuses a source that has something unknown, and writes nothing."""
    for part in ("crates", "rust", "tools"):
        shutil.copytree(TOP / part, folder / part, ignore=shutil.ignore_patterns("out", "target", "must-fail", "proofs", "specs"))
    file, edited = folder / "crates/cap_spec/src/lib.rt", set()
    whole = file.read_text()
    for text, said in REFUSED:
        file.write_text(whole + text)
        printed, status = run([sys.executable, "tools/erase/erase.py"], cwd=folder, timeout=60)
        compare(f"the eraser refuses {text!r}", (2, True), (status, f"cap_spec/src/lib.rt: {said}" in printed or said in printed))
    file.write_text(whole)
    # (the change of a word in each file)
    words, chosen = re.compile(r"(?<=[ (])(\d+|>|<|\+|==)(?=[ );,])"), random.Random(7)
    texts = {path: path.read_text() for path in sorted(folder.glob("rust/c*/src/cap_*/**/*.rs"))}
    for path, text in texts.items():
        places = [it for it in words.finditer(text) if not text[:it.start()].rpartition("\n")[2].lstrip().startswith("//")]
        if places:
            it = chosen.choice(places)
            path.write_text(text[:it.start()] + {">": "<", "<": ">", "+": "-", "==": "!="}.get(it[0], it[0] + "1") + text[it.end():])
            edited.add(str(path.relative_to(folder)))
    said = run([sys.executable, TOP / "tools/erase/compare.py", folder])[0]
    compare("compare.py sees a changed word in each file", edited, set(re.findall(r"(?m)^(\S+\.rs): ", said)))
    expect("words were changed", len(edited) > 100, len(edited))


def text():
    """What is committed is what the sources give."""
    if not missing("the text of rust/core", "rustfmt"):
        compare("tools/erase/erase.py --check", ("", 0), run([sys.executable, "tools/erase/erase.py", "--check"], cwd=TOP))
    said, status = run([sys.executable, "tools/erase/compare.py"], cwd=TOP)
    compared = re.search(r"(\d+) files compared, 0 differences", said)
    expect("tools/erase/compare.py", status == 0 and compared, said)
    count(int(compared[1]) if compared else 0)


def crates(folder):
    """The crates build, are tidy, and pass their tests."""
    variables = environment(folder)

    def cargo(*words, folder="rust", **more):
        said, status = run(["cargo", *words], cwd=TOP / folder, env={**variables, **more})
        expect(f"cargo {' '.join(words)} in {folder}", status == 0, said)
        return said

    passed = re.findall(r"(\d+) passed; 0 failed", cargo("test", "--offline", "--workspace", "--", "--include-ignored"))
    count(sum(map(int, passed)))
    for features in (("--no-default-features",), ("--no-default-features", "--features", "alloc")):
        cargo("build", *CARGO, "--package", "capvet", *features, RUSTFLAGS="-D warnings")
    cargo("build", *CARGO, "--package", "capvet-core", "--features", "std", RUSTFLAGS="-D warnings")
    cargo("doc", *CARGO, "--package", "capvet", "--no-deps")
    if not missing("the layout of the crates", "rustfmt"):
        cargo("fmt", "--check", "--all")
        cargo("fmt", "--check", folder="tests/plain")
    if not missing("clippy of the crates", "cargo-clippy"):
        cargo("clippy", *CARGO, "--package", "capvet-core", "--all-targets", "--features", "std", "--", "-D", "warnings")
        cargo("clippy", *CARGO, "--package", "capvet", "--all-targets", "--", "-D", "warnings", "-A", "clippy::format_push_string")
        cargo("clippy", *CARGO, "--package", "capvet-c", "--", "-D", "warnings")
    if not missing("the crates by Rust 1.63", "oldest-rust"):
        older = {"PATH": f"{needs.OLDEST_RUST}:{variables['PATH']}", "CARGO_TARGET_DIR": str(folder / "target-oldest")}
        cargo("test", "--offline", "--workspace", "--", "--include-ignored", **older)


# A program of somebody who begins, and what it prints of examples/contacts.bin.
HELLO = """fn main() {
    let bytes = std::fs::read(std::env::args().nth(1).unwrap()).unwrap();
    println!("{}", capvet::vet(&bytes, capvet::Limits::DEFAULT).unwrap().report());
}
"""
VETTED = "accepted charge 391 depth 11 pointers 125 caps 0\n"


def newcomer(folder):
    """A new crate that adds the crate by its path is built, and vets a file."""
    variables, crate = environment(folder), folder / "hello"
    if needs.has("oldest-rust"):
        variables["PATH"] = f"{needs.OLDEST_RUST}:{variables['PATH']}"
        variables["CARGO_TARGET_DIR"] = str(folder / "target-oldest")
    compare("cargo new", 0, run(["cargo", "new", "--quiet", "--vcs", "none", crate], env=variables)[1])
    compare("cargo add", 0, run(["cargo", "add", "--quiet", "--offline", "--path", TOP / "rust/capvet"], cwd=crate, env=variables)[1])
    (crate / "src/main.rs").write_text(HELLO)
    said = run(["cargo", "run", *CARGO, "--", TOP / "examples/contacts.bin"], cwd=crate, env=variables)
    compare("a new crate vets a file", (VETTED, 0), said)


def in_a_fresh_root(folder):
    """The same in a root of Debian 12, by what docs/install.md says about crates of Debian."""
    if missing("a new crate in a fresh root of Debian 12", "root", "mmdebstrap", "debian-mirror"):
        return
    base, packages = folder / "root", f"cargo {needs.SOURCES['crates'][1]}".split()
    compare("mmdebstrap", "", chroots.make(base, "bookworm", packages))
    shutil.copytree(TOP / "rust", base / "srv/rust", ignore=shutil.ignore_patterns("target", "Cargo.lock"))
    shutil.copy(TOP / "examples/contacts.bin", base / "srv")
    (base / "srv/.cargo").mkdir()
    (base / "srv/.cargo/config.toml").write_text(package_chroots.crates_of_debian((TOP / "docs/install.md").read_text()))
    said = chroots.session(base, folder / "session", f"""set -e
cd /srv
cargo new --quiet --vcs none hello
cd hello
cargo add --quiet --path ../rust/capvet
cat > src/main.rs <<'END-OF-PROGRAM'
{HELLO}END-OF-PROGRAM
cargo build --quiet
target/debug/hello ../contacts.bin
""")
    compare("a new crate in a fresh root of Debian 12 vets a file", (VETTED, 0), said)


def found_casts(folder):
    """The casts that clippy finds, each with its file, and whether it ran over all crates."""
    found, variables = set(), environment(folder)
    for inner, name, options in CRATES:
        words = ["cargo", "clippy", *CARGO, "--package", name, *options, "--message-format", "json", "--", "-A", "clippy::all"]
        said, status = run([*words, *(word for it in CASTS for word in ("-W", f"clippy::cast_{it}"))], cwd=TOP / inner, env=variables)
        compare(f"clippy of the casts in {name}", 0, status)
        lines = [json.loads(line) for line in said.splitlines() if line.startswith("{")]
        spans = [span for line in lines if line["reason"] == "compiler-message" for span in line["message"]["spans"] if span["is_primary"]]
        for span in spans:
            (line,) = span["text"]
            file = os.path.relpath(os.path.join(TOP, inner, span["file_name"]), TOP)
            found.add(f"{file}: {line['text'][line['highlight_start'] - 1:line['highlight_end'] - 1]}")
    return found


def casts(folder):
    """The list of casts is what clippy finds, and each has a reason."""
    if missing("the casts of the crates", "cargo-clippy", "crate-clap", "crate-sha2"):
        return
    lines = [line for line in (TOP / "tests/plain/casts.txt").read_text().splitlines() if not line.startswith("#")]
    parts = [line.partition("  # ") for line in lines]
    compare("casts without a reason", [], [cast for cast, _, reason in parts if len(reason.split()) < 3])
    compare("the list of casts", sorted(found_casts(folder)), sorted(cast for cast, _, _ in parts))


def main():
    with tempfile.TemporaryDirectory() as scratch:
        folder = Path(scratch)
        text()
        refusals(folder / "refusals")
        if not missing("the plain crates", "cargo", "rustc", "crates"):
            crates(folder)
            casts(folder)
            newcomer(folder)
            if amount.IS_FULL:
                in_a_fresh_root(folder)
    return ended()


if __name__ == "__main__":
    sys.exit(main())
