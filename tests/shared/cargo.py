"""How the scripts call cargo: the words that each call has, the variables, and copies of crates."""
import os
import re
import shutil

import needs
from harness import ARCHIVE, PROGRAM, TOP

CARGO = ("--offline", "--quiet")
# The minor version of `capnp` that the manifests of the examples and of the tests name.
NEWEST = re.compile(r'(?<=["/])0\.27(?=")')


def environment(folder, crates=needs.CRATES):
    """The variables for cargo. Where Debian's folder of crates is, crates come from it or another one, else from where cargo finds
    them."""
    made = {**os.environ, "CARGO_TARGET_DIR": str(folder / "target"), "CAPVET_LIB_DIR": str(ARCHIVE.parent), "CAPVET_PROGRAM": str(PROGRAM),
            "RUSTDOCFLAGS": "-D warnings"}
    if needs.has("crates"):
        (folder / "cargo").mkdir(exist_ok=True)
        (folder / "cargo/config.toml").write_text(
            f'[source.crates-io]\nreplace-with = "debian"\n[source.debian]\ndirectory = "{crates}"\n')
        made["CARGO_HOME"] = str(folder / "cargo")
    return made


def copied(folder, *parts):
    """Copies parts of the repository, with manifests for the minor version of `capnp` that this machine has. (cargo writes a lock
    file beside each crate)"""
    for part in parts:
        shutil.copytree(TOP / part, folder / part, ignore=shutil.ignore_patterns("target", "Cargo.lock"))
        if part != "rust":
            for file in (folder / part).rglob("Cargo.toml"):
                file.write_text(NEWEST.sub(needs.capnp(), file.read_text()))
    walk = folder / "tests/readers/rust"
    if walk.exists() and needs.capnp() == "0.27":
        # (what the walk needs of a list is private there)
        shutil.copy(walk / "structs-0.27.rs", walk / "src/structs.rs")
    return folder
