#!/usr/bin/env python3
"""Writes the manifests of the adapters, the crates `capvet_capnp` and `capvet_capnp_rpc`: one for each minor version of `capnp`.

    adapter_manifests.py [--check]

The readers and errors of `capnp` are in the calls of the adapters, and each minor version has other types. So an adapter has a
version for each of them, with the same minor number, as `capnp-rpc` and `capnp-futures` have. All versions of an adapter have one
source. A manifest is in a folder that is named by the version of `capnp`, such as rust/capvet-capnp/0.27.

With --check it writes nothing, prints the manifests that it would change, and its status is 1 if there are any.
"""
import sys

from common import TOP, version

# The minor versions of `capnp` that there is an adapter for. (Debian 12 has 0.14, Debian 13 has 0.19, and unstable 0.27)
MINORS = [f"0.{number}" for number in range(14, 28)]
# What the version of an adapter has after the minor version. It grows with each release that changes an adapter.
PATCH = 0

PACKAGE = """\
# Written by packaging/adapter_manifests.py.
[package]
name = "{name}"
version = "{minor}.{patch}"
edition = "2021"
rust-version = "1.63"
publish = false
description = "{description}"
{words}

[lib]
path = "../src/lib.rs"

[dependencies]
capnp = "{minor}"
capvet = {{ version = "{version}", path = "../../capvet" }}
"""
CAPNP = PACKAGE + """
[workspace]
"""
RPC = PACKAGE + """\
capvet_capnp = {{ version = "{minor}.{patch}", path = "../../capvet-capnp/{minor}" }}
futures-io = "0.3"

[dev-dependencies]
capnp-futures = "{minor}"
capnp-rpc = "{minor}"
futures = "0.3"

[workspace]
"""
# The adapters: the folder of each, the text of its manifests, and what is only its own there.
ADAPTERS = (
    ("rust/capvet-capnp", CAPNP, {
        "name": "capvet_capnp", "description": "Checks untrusted Cap'n Proto messages before the crate capnp reads them",
        "words": 'keywords = ["capnproto", "validation", "security"]\ncategories = ["encoding"]'}),
    ("rust/capvet-capnp-rpc", RPC, {
        "name": "capvet_capnp_rpc",
        "description": "Checks untrusted Cap'n Proto messages before an RPC system of the crate capnp-rpc receives them",
        "words": 'keywords = ["capnproto", "rpc", "validation", "security"]\ncategories = ["encoding", "network-programming"]'}),
)


def manifests():
    """Each manifest with its text."""
    return {TOP / folder / minor / "Cargo.toml": text.format(minor=minor, patch=PATCH, version=version(), **own)
            for folder, text, own in ADAPTERS for minor in MINORS}


def main():
    wanted = manifests()
    there = {file for folder, _, _ in ADAPTERS for file in (TOP / folder).glob("*/Cargo.toml")}
    wrong = [file for file, text in wanted.items() if file not in there or file.read_text() != text]
    wrong += sorted(there - wanted.keys())
    if sys.argv[1:] == ["--check"]:
        print("".join(f"{file.relative_to(TOP)}\n" for file in wrong), end="")
        return len(wrong) > 0
    for file in wrong:
        if file in wanted:
            file.parent.mkdir(exist_ok=True)
            file.write_text(wanted[file])
        else:
            file.unlink()
    return 0


if __name__ == "__main__":
    sys.exit(main())
