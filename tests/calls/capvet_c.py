#!/usr/bin/env python3
"""Tests the library for C that cargo builds, of the text without contracts: build/cargo.

    capvet_c.py

`packaging/by_cargo.py` builds it. The calls are tested by the scripts of `make test`, which run over its archive. The shared library
exports the calls of the header at the version node of the proved one, has its name, and needs the C library alone.

- A C program links the archive beside one of another crate without std. Two such archives that rustc made don't link so.
- A program in Rust links the archive by two crates.
- The calls on known buffers run on emulated processors without SSSE3, SSE4.1 and POPCNT. The archive has unwind tables.
- Each function of its border that is exported is one of the header. Each block of `unsafe` says why it is safe.

The last line is 'N passed, M failed', and the status is 1 where a case failed.
"""
import os
import re
import sys
import tempfile
from pathlib import Path

sys.path[1:1] = map(str, Path(__file__).resolve().parents[1].iterdir())

from cargo import environment
from harness import TOP, compare, count, ended, expect, run
from header import calls
from needs import missing
from processors import OLD

BUILT, CRATE = TOP / "build/cargo", TOP / "rust/capvet-c"
# A crate without std that exports a call, as an archive. It has a panic handler, as each of these has.
OTHER = """#![no_std]
#[panic_handler]
fn panic(_: &core::panic::PanicInfo) -> ! {{ loop {{}} }}
#[no_mangle]
pub extern "C" fn {name}(text: *const u8) -> u32 {{
    let digits = unsafe {{ core::slice::from_raw_parts(text, 2) }};
    core::str::from_utf8(digits).unwrap().parse::<u32>().unwrap()
}}
"""
# A program in C over the library and another archive. (what rustc has of the core library names a function that unwinds)
BOTH = """#include <capvet.h>
#include <stdio.h>
uint32_t other(const char *text);
void rust_eh_personality(void);
void rust_eh_personality(void) {}
int main(void) {
  printf("%u %u\\n", capvet_version(), other("42"));
  return 0;
}
"""
TWICE = """unsigned other(const char *text), another(const char *text);
void rust_eh_personality(void) {}
int main(void) { return other("42") != another("42"); }
"""
# A crate that links the archive, and a program over two of these.
LINKING = """#[link(name = "capvet", kind = "static")]
extern "C" {{ fn capvet_version() -> u32; fn capvet_{call}(length: usize) -> usize; }}
pub fn sizes() -> (u32, usize) {{ unsafe {{ (capvet_version(), capvet_{call}(1024)) }} }}
"""
OVER_BOTH = 'fn main() { println!("{:?} {:?}", first::sizes(), second::sizes()); }\n'


def built(folder):
    """Whether it is built, by the crates and the Rust that plain.py takes."""
    variables = {**environment(folder), "CARGO_TARGET_DIR": str(BUILT / "target")}
    said, status = run([sys.executable, "packaging/by_cargo.py", "--library"], cwd=TOP, env=variables)
    expect("packaging/by_cargo.py", status == 0, said)
    return status == 0


def exports():
    """What the shared library exports and needs, and its name."""
    library = BUILT / "libcapvet.so.2"
    symbols = run(["readelf", "--dyn-syms", "--wide", library])[0]
    found = re.findall(r" (\w+) +DEFAULT +(\w+) (\S+)$", symbols, re.M)
    defined = {name for _, section, name in found if section not in ("UND", "ABS")}
    compare("the exports", {f"{name}@@CAPVET_2" for name in calls()}, defined)
    needed = {name.split("@")[0] for bind, section, name in found if section == "UND"}
    weak = {"__cxa_finalize", "__gmon_start__", "_ITM_deregisterTMCloneTable", "_ITM_registerTMCloneTable"}
    expect("what it needs of the C library", needed - weak <= {"abort", "memcmp", "memcpy", "memmove", "memset"}, needed)
    dynamic = run(["readelf", "--dynamic", "--wide", library])[0]
    compare("its name", ["libcapvet.so.2"], re.findall(r"\(SONAME\).*\[(.*)\]", dynamic))
    compare("the libraries that it needs", ["libc.so.6"], re.findall(r"\(NEEDED\).*\[(.*)\]", dynamic))
    compare("it has no executable stack", ["RW"], re.findall(r"GNU_STACK(?: +0x0+){5} (\w+) ", run(["readelf", "-lW", library])[0]))
    members = run(["ar", "t", BUILT / "libcapvet.a"])[0].split()
    compare("the archive is one object", ["capvet.o"], members)
    expect("the archive has unwind tables", ".eh_frame" in run(["readelf", "--sections", BUILT / "libcapvet.a"])[0])
    symbols = run(["nm", "--defined-only", "--extern-only", BUILT / "libcapvet.a"])[0]
    compare("its global symbols", set(calls()), set(re.findall(r" T (\w+)$", symbols, re.M)))
    named = re.findall(r"\(SONAME\).*\[(.*)\]", run(["readelf", "--dynamic", BUILT / "target/release/libcapvet.so"])[0])
    compare("the name of cargo's own shared library", ["libcapvet.so.2"], named)


def beside_another(folder):
    """The archive links beside that of another crate without std, and by two crates of one program."""
    for name, text in (("both", BOTH), ("twice", TWICE)):
        (folder / f"{name}.c").write_text(text)
    for name in ("other", "another"):
        (folder / f"{name}.rs").write_text(OTHER.format(name=name))
        words = ["rustc", "--edition=2021", "--crate-type=staticlib", "-Cpanic=abort", "-O", f"{name}.rs"]
        compare(f"rustc of {name}", ("", 0), run(words, cwd=folder))
    words = ["cc", "-Wall", "-Werror", f"-I{TOP / 'include'}"]
    archives = [folder / "libother.a", folder / "libanother.a"]
    said, status = run([*words, folder / "twice.c", *archives, "-o", folder / "twice"])
    expect("two archives of rustc don't link", status != 0 and "multiple definition" in said, said)
    compare("a program with two archives", ("", 0), run([*words, folder / "both.c", BUILT / "libcapvet.a", archives[0], "-o", folder / "both"]))
    compare("what it prints", ("131072 42\n", 0), run([folder / "both"]))
    for name, call in (("first", "marks_bound"), ("second", "pack_bound")):
        (folder / f"{name}.rs").write_text(LINKING.format(call=call))
        compare(f"rustc of the {name} crate", ("", 0), run(["rustc", "--edition=2021", "--crate-type=rlib", "-L", BUILT, f"{name}.rs"], cwd=folder))
    (folder / "program.rs").write_text(OVER_BOTH)
    compare("rustc of a program over both", ("", 0), run(["rustc", "--edition=2021", "--extern", "first=libfirst.rlib", "--extern",
                                                          "second=libsecond.rlib", "-L", BUILT, "program.rs"], cwd=folder))
    compare("what it prints", ("(131072, 3) (131072, 1280)\n", 0), run([folder / "program"]))


def old_processors(folder):
    """The calls on known buffers, on processors without x86-64-v2."""
    if missing("the library for C by cargo on an old processor", "qemu-x86_64"):
        return
    words = ["cc", "-O1", f"-I{TOP / 'include'}", TOP / "tests/calls/c/calls.c", BUILT / "libcapvet.a", "-o", folder / "calls"]
    compare("cc calls.c", ("", 0), run(words))
    for processor in OLD:
        said, status = run(["qemu-x86_64", "-cpu", processor, folder / "calls"])
        expect(f"the calls on {processor}", status == 0, status, said)


def border():
    """The functions of the border, and its blocks of unsafe code."""
    text = "".join(file.read_text() for file in sorted((CRATE / "src").glob("*.rs")))
    names = re.findall(r'^#\[no_mangle\]\npub (?:unsafe )?extern "C" fn (\w+)', text, re.M)
    compare("the border's functions", sorted(calls()), sorted(names))
    lines = text.splitlines()
    blocks = [at for at, line in enumerate(lines) if re.search(r"\bunsafe \{", line)]
    bare = [lines[at] for at in blocks if not lines[at - 1].lstrip().startswith("// SAFETY: ")]
    compare("blocks of unsafe code without a reason", [], bare)
    count(len(blocks))


def main():
    border()
    if not missing("the library for C by cargo", "cargo", "rustc", "crates", "cc", "readelf"):
        with tempfile.TemporaryDirectory() as folder:
            if built(Path(folder)):
                exports()
                beside_another(Path(folder))
                old_processors(Path(folder))
    return ended()


if __name__ == "__main__":
    sys.exit(main())
