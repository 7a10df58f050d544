#!/usr/bin/env python3
"""Compiles a test that uses a node after its message was dropped, which has to be refused.

The crates that nodes come from are copied into a folder of their own, with a crate of one test beside them, which
`rt try` compiles and proves nothing of. Where the test keeps its message, it has to pass. Where it drops the message
first, the one error has to be that the message doesn't live long enough. Failures are printed as they come. The last
line is 'N passed, M failed', and the status is 1 where a case failed.
"""
import shutil
import sys
import tempfile
from pathlib import Path

sys.path[1:1] = map(str, Path(__file__).resolve().parents[1].iterdir())

from harness import TOP, compare, ended, run

LEFT_OUT = shutil.ignore_patterns("out", "must-fail")
ROOT = """//! A node and its message.
#![tactic(auto)]

#[cfg(test)]
mod tests;
"""
TEST = """//! A node of a message, used after the block that it was made in.

use cap_frame::WordMessage;
use cap_vet::{{Kind, Limits, vet}};
use std::test::Fail;

#[test]
fn the_root_is_null(rt: HostRuntime) -> Result<(), Fail> {{
    let alloc = rt.alloc();
    let mut segments = Vec::new(alloc);
    segments.push(vec![in alloc; 0]?)?;
    let message = WordMessage::new(segments).ok_or("no message")?;
    let limits = Limits::new(0, 0).ok_or("no limits")?;
    let node = {{
        {first}
        match vet(&message, limits) {{
            Ok(vetted) => vetted.root(),
            Err(_) => return Err("refused".into()),
        }}
    }};
    assert!(rt; node.view().kind() == Kind::Null);
    Ok(())
}}
"""
# What the inner block does first, and the error that is expected.
CASES = (
    ("a node of a message that is kept", "let limits = limits;", None),
    ("a node of a message that is dropped", "let message = message;", "error[borrow-e0597]: `message` does not live long enough"),
)


def listed(root):
    """The lines of crates.txt by the crate that each is of, with the words after its name."""
    lines = [line for line in (root / "crates.txt").read_text().splitlines() if line and not line.startswith("#")]
    return {line.replace(":", " ").split()[0]: line for line in lines}


def below(names, lines):
    """These crates of the repository and all that they depend on."""
    found, left = set(), list(names)
    while left:
        name = left.pop()
        if name in lines and name not in found:
            found.add(name)
            left += lines[name].partition(":")[2].split()
    return found


def errors(folder, first):
    """The lines of errors that compiling and running the test gives."""
    (folder / "src/tests.rt").write_text(TEST.format(first=first))
    text, status = run(["rt", "try", "--test"], cwd=folder)
    found = [line for line in text.splitlines() if "error" in line]
    return found or ([f"no error, and the status {status}"] if status else [])


def main():
    with tempfile.TemporaryDirectory(prefix="capvet-") as root:
        root = Path(root)
        lines = listed(TOP)
        names = below(["cap_vet"], lines)
        for name in names:
            shutil.copytree(TOP / "crates" / name, root / "crates" / name, ignore=LEFT_OUT)
        (root / "crates.txt").write_text("\n".join([lines[name] for name in names] + ["lifetimes: cap_frame cap_vet", ""]))
        shutil.copy(TOP / "HANDLES", root)
        folder = root / "crates/lifetimes"
        (folder / "src").mkdir(parents=True)
        (folder / "src/lib.rt").write_text(ROOT)
        for name, first, expected in CASES:
            found = errors(folder, first)
            # (where one is expected, its line begins with the place)
            compare(name, [expected] if expected else [], [expected if expected and expected in line else line for line in found])
    return ended()


if __name__ == "__main__":
    sys.exit(main())
