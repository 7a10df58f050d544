#!/usr/bin/env python3
"""Plants changes in the text without contracts, and shows that its comparisons with the proved builds see each of them.

    plain_faults.py [PROGRAM [ARCHIVE]]

A change is of one constant or one comparison. (Where a first look is too strict, a second one decides.)

- Those of CHANGES change what some call returns. Each is planted in a copy of rust/core, and the program of tests/plain is built
  over that copy and run as `make prove` runs it. It has to find a difference.
- Those of CHANGES_OF_PROGRAM change what the program writes, or its status. Each is planted in a copy of rust/capvet-cli, and
  plain_program.py compares that as in `make prove`. Some case has to fail.

Without a change nothing may differ. The last line is 'N passed, M failed', and the status is 1 where a case failed.
"""
import re
import shutil
import signal
import subprocess
import sys
import tempfile
from pathlib import Path
from typing import NamedTuple

sys.path[1:1] = map(str, Path(__file__).resolve().parents[1].iterdir())

from cargo import CARGO, environment
from harness import PROGRAM, TOP, compare, ended, expect, run
from needs import missing

# As many messages as `make prove` compares.
MESSAGES = 20_000


class Change(NamedTuple):
    """What is changed, the file in `src`, the text that is there once, and the text in its place."""
    name: str
    file: str
    old: str
    new: str


CHANGES = (
    Change("the slack of a traversal", "cap_walk/demands.rs", "SLACK: u64 = 4096", "SLACK: u64 = 4097"),
    Change("the depth limit", "cap_walk/looking.rs", "|| level > limits.depth() {", "|| level > limits.depth() + 1 {"),
    Change("the charge limit", "cap_walk/looking.rs", "if consumed + cost > limits.words()", "if consumed + cost > limits.words() + 1"),
    Change("the charge after a far pointer", "cap_walk/looking.rs", "if followed.charge() > left", "if followed.charge() >= left"),
    Change("the end of an object after a far pointer", "cap_ptr/following.rs", "if start + u64::from(words) > u64::from(message.len(segment))",
           "if start + u64::from(words) >= u64::from(message.len(segment))"),
    Change("the end of a struct", "cap_ptr/near.rs", "if pointers_start + pointer_count > u64::from(len)",
           "if pointers_start + pointer_count > u64::from(len) + 1"),
    Change("the end of a landing pad of two words", "cap_ptr/following.rs", "if start + 2 > message.len(segment)",
           "if start + 1 > message.len(segment)"),
    Change("the words of a list of structs", "cap_ptr/near.rs", "if words_of_elements(tag) > u64::from(words)",
           "if words_of_elements(tag) >= u64::from(words)"),
    Change("the most separate segments", "cap_calls/slices.rs", "if slices.len() > 512", "if slices.len() > 513"),
    Change("the literal words that a state may have", "cap_calls/calls/unpack_message.rs", "state.literal_words <= 255",
           "state.literal_words <= 256"),
    Change("the longest path that is explained", "cap_trace/naming.rs", "STEPS: usize = 256", "STEPS: usize = 255"),
    Change("the greatest number of a pointer in a path", "cap_path/reading.rs", "letter + 1, 65535)", "letter + 1, 65534)"),
    Change("the segments of a strict message", "cap_vet/strictness/path_strictness.rs", "message.count() > MOST_SEGMENTS",
           "message.count() >= MOST_SEGMENTS"),
    Change("the length of a list of values in bytes", "cap_calls/node.rs", "u64::from(count) + 7) / 8", "u64::from(count) + 8) / 8"),
    Change("the bits of a tag", "cap_pack/lanes/scalars.rs", "HIGH_BITS: u64 = 0x8080_8080_8080_8080",
           "HIGH_BITS: u64 = 0x8080_8080_8080_8000"),
    Change("the digits of a number", "cap_buffer/text_buffer.rs", "if n < 10 {", "if n <= 10 {"),
    Change("the bits of one mark", "cap_vet/exclusiveness/marks.rs", "(words / 64 + 1)", "(words / 65 + 1)"),
)


CHANGES_OF_PROGRAM = (
    Change("the greatest value of --size", "cap_commands/commands.rs", "MOST_WORDS: i64 = 268435456", "MOST_WORDS: i64 = 268435455"),
    Change("the greatest value of --depth", "cap_commands/commands.rs", "MOST_DEPTH: i64 = 256", "MOST_DEPTH: i64 = 255"),
    Change("the default of --depth", "cap_commands/commands.rs", 'DEFAULT_DEPTH_TEXT: &str = "64"', 'DEFAULT_DEPTH_TEXT: &str = "65"'),
    Change("the status of a message that isn't canonical", "cap_cmd/running.rs", "&& outcome.noncanonical == 0", "&& outcome.noncanonical <= 1"),
    Change("the status of words that are cut", "cap_cmd/running.rs", "SourceFault::Truncated { byte: _ } => 1", "SourceFault::Truncated { byte: _ } => 3"),
    Change("the last word of a packed segment", "cap_run/engines/passing.rs", "bytes.len() - done >= 8", "bytes.len() - done > 8"),
    Change("the table of a copy", "cap_run/engines/canon.rs", "words * 0x1_0000_0000", "words * 0x1_0000_0001"),
    Change("the byte at which a message begins", "cap_run/engines/explain.rs", "byte: 8 * before", "byte: 7 * before"),
    Change("which elements of a list are shown", "cap_text/tree.rs", "if data_words == 0 && pointers == 0", "if data_words <= 1 && pointers == 0"),
    Change("the level of a tree's lines", "cap_text/tree.rs", "put_children(page, out, &root, 1, levels)", "put_children(page, out, &root, 2, levels)"),
    Change("the most segments in an explanation", "cap_text/breaks.rs", "limit 512", "limit 511"),
    Change("the status of a path that is none", "capvet.rs", 'bad path at {at}");\n    USAGE', 'bad path at {at}");\n    FAILED'),
    Change("the error of a stream that is closed", "rattle.rs", "from_raw_os_error(9)", "from_raw_os_error(8)"),
)


def compared(folder, variables):
    """What the program over the copy of the text says, and whether it could be built."""
    crate = folder / "tests/plain"
    said, status = run(["cargo", "build", *CARGO, "--release", "--features", "proved"], cwd=crate, env=variables)
    if status:
        return said, False
    return run([folder / "target/release/plain", MESSAGES])[0], True


def first_difference(folder, variables):
    """The first case that fails where plain_program.py compares the program over the copy of the text, or else its last line."""
    said, status = run(["cargo", "build", *CARGO], cwd=folder / "rust/capvet-cli", env=variables)
    if status:
        return f"not built: {said}"
    words = [sys.executable, TOP / "tests/plain/plain_program.py", PROGRAM, folder / "target/debug/capvet"]
    with subprocess.Popen(words, stdout=subprocess.PIPE, stderr=subprocess.DEVNULL, text=True, errors="replace") as ran:
        line = ""
        for line in ran.stdout:
            if line.startswith("FAILED"):
                # (so that it removes its folder, and ends)
                ran.send_signal(signal.SIGINT)
                break
    return line.rstrip()


def planted(folder, crate, changes):
    """Plants each change in the copy of a crate in turn."""
    for change in changes:
        file = folder / "rust" / crate / "src" / change.file
        text = file.read_text()
        compare(f"{change.name} is there once", 1, text.count(change.old))
        file.write_text(text.replace(change.old, change.new))
        yield change
        file.write_text(text)


def calls(folder, variables):
    """The changes of what calls return."""
    said, is_built = compared(folder, variables)
    expect("the text as it is", is_built and " 0 differences" in said, said)
    for change in planted(folder, "core", CHANGES):
        said, is_built = compared(folder, variables)
        # (an overflow that ends the program is seen too)
        found = re.search(r", (\d+) differences\n", said)
        print(f"{change.name}: {found[1] + ' differences' if found else said.splitlines()[-1:]}", flush=True)
        expect(f"{change.name} is seen", is_built and (not found or int(found[1]) > 0), said)


def program(folder, variables):
    """The changes of what the program does."""
    found = first_difference(folder, variables)
    expect("the program as it is", re.fullmatch(r"\d+ passed, 0 failed", found), found)
    for change in planted(folder, "capvet-cli", CHANGES_OF_PROGRAM):
        found = first_difference(folder, variables)
        print(f"{change.name}: {found}", flush=True)
        expect(f"{change.name} is seen", found.startswith("FAILED"), found)


def main():
    if missing("changes in the text without contracts", "cargo", "rustc", "crates"):
        return ended()
    with tempfile.TemporaryDirectory() as scratch:
        folder = Path(scratch)
        for part in ("rust/core", "rust/capvet-cli", "tests/plain"):
            shutil.copytree(TOP / part, folder / part, ignore=shutil.ignore_patterns("target", "Cargo.lock"))
        variables = environment(folder)
        calls(folder, variables)
        if not missing("changes in the plain program", "crate-clap", "crate-sha2"):
            program(folder, variables)
    return ended()


if __name__ == "__main__":
    sys.exit(main())
