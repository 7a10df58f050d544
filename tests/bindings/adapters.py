#!/usr/bin/env python3
"""Takes the crate `capvet_capnp` as a new user does, for each minor version of `capnp` that this machine has.

    adapters.py [--crates FOLDER]..

- The manifests of rust/capvet-capnp and rust/capvet-capnp-rpc are what packaging/adapter_manifests.py writes.
- A new crate names a minor version of `capnp`, and `capvet_capnp` by the path of the same number. It begins as rust/capvet/README.md
  does. It is built, reads an accepted message, and refuses another one. Without the line that vets it isn't built. It is built by Debian's Rust where there is one, such as Rust 1.63 of Debian 12.
- Where there are several minor versions, a program of one uses a library of another. Each has its own version of the adapter. One
  version for a range of minor versions serves a user of the newest alone, until `cargo update` chooses another one.

Crates come from Debian's folder, or from each FOLDER, such as those of several releases. The last line is 'N passed, M failed', and
the status is 1 where a case failed.
"""
import os
import re
import sys
import tempfile
from pathlib import Path

sys.path[1:1] = map(str, Path(__file__).resolve().parents[1].iterdir())

import needs
from cargo import CARGO, environment
from harness import TOP, compare, ended, expect, run
from needs import missing

CONTACTS, CYCLE = TOP / "examples/contacts.bin", TOP / "examples/cycle.bin"
MANIFEST = """[package]
name = "{name}"
version = "0.0.0"
edition = "2021"

[dependencies]
capnp = "{minor}"
capvet = {{ path = "{top}/rust/capvet" }}
capvet_capnp = {{ path = "{adapter}" }}
{more}
[workspace]
"""
# A function over both crates, which begins as the page of the crate does. With a schema the root is asked for as its type.
(BEGIN,) = [it for it in re.findall(r"^```rust\n(.*?)^```$", (TOP / "rust/capvet/README.md").read_text(), re.M | re.S) if "capnp" in it]
READ = "#![allow(dead_code)]\n" + BEGIN.replace("fn receive", "pub fn receive") + """
pub fn words(bytes: Vec<u8>) -> Result<u64, String> {
    let read = || receive(bytes)?.get_root::<capnp::any_pointer::Reader>()?.target_size();
    Ok(read().map_err(|error: capnp::Error| error.to_string())?.word_count)
}
"""
MAIN = """
fn main() {
    for file in std::env::args().skip(1) {
        println!("{:?}", words(std::fs::read(file).unwrap()));
    }
}
"""
BOTH = """
fn main() {
    for file in std::env::args().skip(1) {
        let bytes = std::fs::read(file).unwrap();
        println!("{:?}", (words(bytes.clone()), library::words(bytes)));
    }
}
"""
ACCEPTED, REFUSED = "Ok(391)", 'Err("Failed: refused DepthLimit at 0:0 pointers 65")'


def merged(folder, folders):
    """One folder of the crates of several."""
    folder.mkdir()
    for crate in (crate for it in folders for crate in Path(it).iterdir()):
        if not (folder / crate.name).exists():
            (folder / crate.name).symlink_to(crate)
    return folder


def crate(folder, minor, source, adapter=None, more=""):
    """Writes a crate over a minor version of `capnp`, and gives its folder."""
    name, adapter = folder.name.replace(".", "-"), adapter or TOP / "rust/capvet-capnp" / minor
    (folder / "src").mkdir(parents=True)
    (folder / "Cargo.toml").write_text(MANIFEST.format(name=name, minor=minor, top=TOP, adapter=adapter, more=more))
    (folder / "src" / ("main.rs" if "fn main" in source else "lib.rs")).write_text(source)
    return folder


def versions(place):
    """The minor versions of `capnp` that cargo chose for a crate."""
    return re.findall(r'^name = "capnp"\nversion = "(0\.\d+)\.', (place / "Cargo.lock").read_text(), re.M)


def new_users(folder, minors, variables):
    """A new crate for each minor version."""
    for minor in minors:
        place = crate(folder / f"user-{minor}", minor, READ + MAIN)
        said = run(["cargo", "run", *CARGO, "--", CONTACTS, CYCLE], cwd=place, env=variables)
        compare(f"a new crate over capnp {minor}", (f"{ACCEPTED}\n{REFUSED}\n", 0), said)
        if said[1] == 0:
            compare(f"versions of capnp beside {minor}", [minor], versions(place))


def left_out(folder, minor, variables):
    """Without the call that vets, or the one that makes the reader with its limits, the program isn't built."""
    for text, instead in (("capvet_capnp::vetted(received, capvet::Limits::DEFAULT)?", "received"), (".into_reader()", "")):
        expect(f"the page has {text}", text in READ, READ)
        place = crate(folder / f"without-{len(instead)}", minor, READ.replace(text, instead) + MAIN)
        said, status = run(["cargo", "check", *CARGO], cwd=place, env=variables)
        expect(f"the program without {text} isn't built", status == 101 and "error[E" in said, said)


def two_minors(folder, newer, older, variables):
    """A program and a library of two minor versions."""
    library = crate(folder / "library", older, READ)
    place = crate(folder / "program", newer, READ + BOTH, more=f'library = {{ path = "{library}" }}')
    said = run(["cargo", "run", *CARGO, "--", CONTACTS, CYCLE], cwd=place, env=variables)
    expected = "".join(f"({it}, {it})\n" for it in (ACCEPTED, REFUSED))
    compare(f"a program of capnp {newer} over a library of {older}", (expected, 0), said)
    if said[1] == 0:
        compare("versions of capnp of both", sorted([newer, older]), sorted(versions(place)))


def with_range(folder, newer, older, variables):
    """The same adapter with a range of minor versions: a user of the newest is served, and another one only after `cargo update`."""
    adapter, text = folder / "adapter", (TOP / f"rust/capvet-capnp/{newer}/Cargo.toml").read_text()
    adapter.mkdir()
    for old, new in ((f'capnp = "{newer}"', f'capnp = ">={older}, <0.{int(newer[2:]) + 1}"'), ("../..", str(TOP / "rust")),
                     ("../src", str(TOP / "rust/capvet-capnp/src"))):
        text = text.replace(old, new)
    (adapter / "Cargo.toml").write_text(text)
    for minor, status in ((newer, 0), (older, 101)):
        place = crate(folder / f"range-{minor}", minor, READ + MAIN, adapter)
        text, got = run(["cargo", "check", *CARGO], cwd=place, env=variables)
        expect(f"a new crate over capnp {minor} and a range", got == status and (got == 0 or "`capnp::Error`" in text), text)
        compare(f"versions of capnp beside {minor} and a range", sorted({newer, minor}), sorted(versions(place)))
    locked = (place / "Cargo.lock").read_text()
    chosen, wanted = (re.search(rf'^name = "capnp"\nversion = "({it}\.\d+)"', locked, re.M)[1] for it in (newer, older))
    words = ["cargo", "update", *CARGO, "--package", f"capnp@{chosen}", "--precise", wanted]
    compare("cargo update to the older version", 0, run(words, cwd=place, env=variables)[1])
    compare("then it is built", 0, run(["cargo", "check", *CARGO], cwd=place, env=variables)[1])


def main():
    compare("packaging/adapter_manifests.py --check", ("", 0), run([sys.executable, "packaging/adapter_manifests.py", "--check"], cwd=TOP))
    if missing("the adapters to the crate capnp", "cargo", "rustc", "crates", "crate-capnp"):
        return ended()
    folders = [word for before, word in zip(sys.argv, sys.argv[1:]) if before == "--crates"]
    with tempfile.TemporaryDirectory() as scratch:
        folder = Path(scratch)
        crates = merged(folder / "crates", folders) if folders else needs.CRATES
        minors, variables = needs.minors(crates), environment(folder, crates)
        if needs.has("oldest-rust") and minors == ["0.14"]:
            variables["PATH"] = f"{needs.OLDEST_RUST}:{os.environ['PATH']}"
        print(f"adapters: {', '.join(minors)} by {run(['rustc', '--version'], env=variables)[0].strip()}")
        new_users(folder, minors, variables)
        left_out(folder, minors[0], variables)
        if len(minors) > 1:
            two_minors(folder, minors[0], minors[-1], variables)
            with_range(folder, minors[0], minors[-1], variables)
    return ended()


if __name__ == "__main__":
    sys.exit(main())
