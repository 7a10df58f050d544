#!/usr/bin/env python3
"""Takes the installed library as its users do, through pkg-config, from C and C++, and the crate for Rust by its path.

    library.py [PROGRAM [ARCHIVE]]

Each example in C is built against an installed tree, without a warning, and each one in Rust over rust/capvet. It has to write
what PROGRAM writes of the same bytes: of samples, of cut streams and of messages with a bit turned.

- Each program of docs/c.md is built by gcc and clang, and prints what the page shows. The page has each call. The service that it
  begins with doesn't compile, or gives a warning, without any of its lines.
- `sign.c` verifies what it signs, and refuses other words. `route.c` sorts made messages.
- `packed_server.c` answers peers on a socket (connections.py): cut streams, messages at its limit and
  above, slow peers, a signal within a message. Every second call to the system is interrupted. Its memory
  is bounded while a gigabyte comes in a packed megabyte.
- The examples in Rust are formatted, clippy finds nothing, and Rust 1.63 compiles them. The programs of the pages are built.

What a machine has no compiler for is said in a line of its own. The last line is 'N passed, M failed', and the status is 1 where a
case failed.
"""
import hashlib
import os
import random
import re
import shutil
import struct
import subprocess
import sys
import tempfile
from pathlib import Path

sys.path[1:1] = map(str, Path(__file__).resolve().parents[1].iterdir())

import cargo
import connections
import install
import needs
from harness import PROGRAM, TOP, compare, ended, framed, run
from install import make
from needs import missing

SAMPLES = ("contacts.bin", "contacts-many-segments.bin", "telemetry.bin", "stream-of-four.bin")
CYCLE = bytes.fromhex("0000000001000000fcffffff00000100")
CARGO = ("--offline", "--quiet")
STRICT = ("-Wall", "-Wextra", "-pedantic", "-Werror")
# Messages, each with the canonical words of its content, as Cap'n Proto's own tools write them.
COPIES = (("contacts.bin", "contacts.bin"), ("contacts-many-segments.bin", "contacts.bin"), ("telemetry.bin", "telemetry.bin"))
# Messages, each with the names that the programs of the pages print. None says that they refuse it.
NAMES = {
    "contacts.bin": ["fjord Ω Grüße lantern Grüße", "", "", "señal harbor thicket lantern fjord", "señal salt", "",
                     "lantern thicket 北京 zephyr"],
    "readers/people-without-names.bin": ["", ""],
    "readers/tags-as-structs.bin": [],
    "readers/people-as-texts.bin": None,
    "readers/people-as-numbers.bin": None,
}
# The lines of the service of docs/c.md that can't be left out.
NEEDED = re.compile(r"^  .*;\n", re.M)
# What comes after the blocks of docs/rust.md: a program over the one that reads a list.
NAMED = """\
fn main() {{
    let file = std::env::args().nth(1).unwrap();
    let bytes = std::fs::read(file).unwrap();
    match block1::names(capvet::vet(&bytes, capvet::Limits::DEFAULT).unwrap()) {{
        Ok(names) => names.iter().for_each(|name| println!("{{name}}")),
        Err(_) => println!("refused"),
    }}
}}
"""
SERVED = """\
accepted, 391 words in libcapnp
refused DepthLimit at 0:0 pointers 65
accepted, 391 words in libcapnp
closed: the peer has cut a message
closed: the peer is too slow
"""


def inputs(folder):
    """Streams to vet: the samples, a prefix of one, nothing, and messages of which one bit is turned."""
    streams = {name: (TOP / "examples" / name).read_bytes() for name in SAMPLES}
    streams["cut.bin"] = streams["stream-of-four.bin"][:3200]
    streams["empty.bin"] = b""
    turned, known = b"", random.Random(7)
    for _ in range(500):
        message = bytearray(streams[known.choice(("contacts.bin", "telemetry.bin"))])
        # (after its table, so that it stays a frame)
        message[known.randrange(8, len(message))] ^= 1 << known.randrange(8)
        turned += message
    streams["turned.bin"] = turned
    for name, stream in streams.items():
        (folder / name).write_bytes(stream)
    return [folder / name for name in streams]


def verdicts(command):
    """The standard output and the status of a command."""
    ran = subprocess.run(command, stdout=subprocess.PIPE, stderr=subprocess.DEVNULL, stdin=subprocess.DEVNULL, timeout=600)
    return ran.stdout, ran.returncode


def same(name, command, files):
    """The example writes of each file what the program writes of strict and unamplified messages, with the same status."""
    for file in files:
        expected = verdicts([PROGRAM, "vet", "--strict", "--unamplified", file])
        compare(f"{name}, of {file.name}", expected, verdicts([*command, file]))
    refused = verdicts([*command, files[-1]])[0].count(b"refused")
    compare(f"{name}, of turned bits, refuses some and accepts some", True, 0 < refused < 500)


def flags(environment, *packages):
    """The arguments that pkg-config gives for a compiler."""
    text, status = run(["pkg-config", "--cflags", "--libs", *packages], env=environment)
    compare(f"pkg-config {packages}", 0, status)
    return text.split()


def described(prefix, environment):
    """The description for pkg-config is a whole one, and has the folders and the version of the header."""
    compare("pkg-config --validate", ("", 0), run(["pkg-config", "--validate", prefix / install.DESCRIPTION], env=environment))
    header = (TOP / "include/capvet.h").read_text()
    version = ".".join(re.search(rf"#define CAPVET_VERSION_{part} (\d+)", header)[1] for part in ("MAJOR", "MINOR", "PATCH"))
    compare("the version", (f"{version}\n", 0), run(["pkg-config", "--modversion", "capvet"], env=environment))
    compare("the flags", [f"-I{prefix}/include", f"-L{prefix}/lib", "-lcapvet"], flags(environment, "capvet"))


def of_pages(language, folder, whole="{}", block="{}"):
    """What the pages show in a language, the blocks of each page as one file, by the forms of a file and of a block."""
    for page in {"c": ["docs/in-process.md"], "rust": ["docs/rust.md"]}[language]:
        blocks = re.findall(rf"^```{language}\n(.*?)^```$", (TOP / page).read_text(), re.M | re.S)
        # (tests/readers/before_readers.py and tests/network/rust_rpc.py build those that need other crates)
        blocks = [block for block in blocks if "capvet_capnp" not in block and "tokio" not in block]
        compare(f"{page} has blocks of {language}", True, len(blocks) > 0)
        file = folder / f"{Path(page).stem.lower()}.{language}"
        file.write_text(whole.format("".join(block.format(text, number=number) for number, text in enumerate(blocks))))
        yield file


def from_c(folder, environment, files):
    """The examples in C and what the pages show, by each compiler that is there."""
    for compiler in ("cc", "clang"):
        if missing(f"the examples in C, by {compiler}", compiler):
            continue
        build = [compiler, "-std=c99", *STRICT]
        link = flags(environment, "capvet")
        include = [it for it in link if it.startswith("-I")]
        programs = {name: folder / f"{name}-{compiler}" for name in ("vet", "route", "packed_server")}
        for name, program in programs.items():
            compare(f"{compiler} {name}.c", ("", 0), run([*build, TOP / f"examples/c/{name}.c", *link, "-o", program]))
        same(f"vet.c by {compiler}", [programs["vet"]], files)
        routed(f"route.c by {compiler}", programs["route"], folder / f"routed-{compiler}")
        connections.served(f"packed_server.c by {compiler}", programs["packed_server"], folder, interrupting(folder))
        for file in of_pages("c", folder):
            compare(f"{compiler} {file.name}", ("", 0), run([*build, *include, "-c", file, "-o", folder / "block.o"]))
        page_from_c(compiler, build, link, folder)
        service_from_c(compiler, [*build, *include], folder)
        manual_from_c(compiler, build, link, folder)


def manual_from_c(compiler, build, link, folder):
    """The program of the manual page for the calls prints the answer of capvet_vet."""
    page = (TOP / "docs/capvet.3").read_text()
    text = re.search(r"^\.EX\n(.*?)^\.EE$", page, re.M | re.S)[1]
    source, program = folder / "manual.c", folder / f"manual-{compiler}"
    source.write_text(text.replace("\\&\n", "\n").replace("\\e", "\\"))
    compare(f"{compiler} of the manual page", ("", 0), run([*build, source, *link, "-o", program]))
    for sample, expected in (("contacts.bin", ("Ok\n", 0)), ("cycle.bin", ("DepthLimit\n", 1)), ("stream-of-four.bin", ("Trailing\n", 1))):
        got = run(["sh", "-c", 'exec "$0" < "$1"', program, TOP / "examples" / sample])
        compare(f"the manual page by {compiler}, of {sample}", expected, got)


def interrupting(folder):
    """The library that interrupts calls to the system."""
    made = folder / "interrupt.so"
    if not made.exists():
        compare("cc interrupt.c", ("", 0), run(["cc", "-shared", "-fPIC", TOP / "tests/bindings/interrupt.c", "-ldl", "-o", made]))
    return made


def page_from_c(compiler, build, link, folder):
    """The programs of docs/c.md are built and run as the page shows, and each call of the header is in one of them."""
    text, place = (TOP / "docs/c.md").read_text(), folder / f"page-{compiler}"
    shutil.copytree(TOP / "examples", place / "examples")
    programs = dict(re.findall(r"^```c\n/\* (\w+)\.c: .*?\*/\n(.*?)^```$", text, re.M | re.S))
    # (the first block is the service)
    compare("each program of docs/c.md has a name", text.count("```c\n") - 1, len(programs))
    for name, program in programs.items():
        (place / f"{name}.c").write_text(program)
        compare(f"{compiler} {name}.c of docs/c.md", ("", 0), run([*build, place / f"{name}.c", *link, "-o", place / name]))
    declared = set(re.findall(r"\b(capvet_\w+)\([^()]*\) CAPVET_NOEXCEPT", (TOP / "include/capvet.h").read_text()))
    called = set(re.findall(r"\b(capvet_\w+)\(", "".join(programs.values())))
    compare("the calls that docs/c.md lacks", {"capvet_abi_2"}, declared - called)
    environment = {**os.environ, "PATH": f"{PROGRAM.parent}:{os.environ['PATH']}", "LC_ALL": "C.UTF-8", "HOME": str(folder)}
    for language, block in re.findall(r"^```(sh|console)\n(.*?)^```$", text, re.M | re.S):
        shown = re.findall(r"^\$ (.*)\n((?:(?!\$ ).*\n)*)", block, re.M) if language == "console" else [(block, "")]
        for command, expected in shown:
            compare(f"docs/c.md by {compiler}: {command}", expected, run(["bash", "-c", command], cwd=place, env=environment)[0])


def service_from_c(compiler, build, folder):
    """The service that docs/c.md begins with compiles without a warning, and so not without any of its lines."""
    text = re.search(r"^```c\n(.*?)^```$", (TOP / "docs/c.md").read_text(), re.M | re.S)[1]
    needed = list(NEEDED.finditer(text))
    compare("the lines of the service of docs/c.md", 5, len(needed))
    for line in (None, *needed):
        (folder / "service.c").write_text(text[:line.start()] + text[line.end():] if line else text)
        said, status = run([*build, "-c", folder / "service.c", "-o", folder / "service.o"])
        left_out = line[0].strip() if line else "nothing"
        compare(f"{compiler}, the service of docs/c.md without {left_out}", bool(line), bool(status or said))


def book(job, tags, owner=1 << 2 | 1 << 32):
    """A Book of examples/contacts.capnp: its owner has this job and is not active, and it has a number of null tags."""
    words = [1 << 32 | 3 << 48, 7, 0, owner, 1 | 1 << 2 | 6 << 32 | tags << 35, job << 32 | 1 << 48, *[0] * tags]
    return struct.pack(f"<II{len(words)}Q", 0, len(words), *words)


def routed(name, program, folder):
    """Each message of a stream is appended to the file that its fields say, as it is."""
    folder.mkdir()
    stream, found = folder / "stream", folder / "found"
    found.mkdir()
    contacts = (TOP / "examples/contacts.bin").read_bytes()
    # (without an owner, with one that has no data, and with a job of a later schema)
    messages = [("employer.bin", book(1, 0)), ("employer-tagged.bin", book(1, 2)), ("none.bin", book(0, 0)),
                ("school-tagged.bin", book(2, 1)), ("self.bin", book(3, 0)), ("other.bin", book(4, 0)),
                ("other-tagged.bin", book(0x8001, 3)), ("none.bin", book(1, 0, 0)), ("none-tagged.bin", book(1, 2, 1 << 2)),
                ("employer-tagged.bin", contacts)]
    # (with a pointer out of the segment, with tags that are structs, with a list as the owner, and with a list as the root)
    refused = [("refused.bin", book(1, 0, 1000 << 2 | 1 << 32)), ("self.bin", book(3, 0)),
               ("refused.bin", (TOP / "examples/readers/tags-as-structs.bin").read_bytes()),
               ("refused.bin", book(1, 0, 1 | 2 << 32)), ("refused.bin", framed("0100000007000000 0000000000000000"))]
    for part, status in ((messages, 0), (messages + refused, 1), (refused, 1)):
        for file in found.iterdir():
            file.unlink()
        stream.write_bytes(b"".join(message for _, message in part))
        lines = "".join(f"message {number}: {file}\n" for number, (file, _) in enumerate(part))
        for times in (1, 2):
            compare(f"{name}, {len(part)} messages", (lines, status), run([program, found, stream]))
            expected = {file: b"".join(message for it, message in part if it == file) * times for file, _ in part}
            compare(f"{name}, the files of {len(part)} messages", expected, {it.name: it.read_bytes() for it in found.iterdir()})
    stream.write_bytes(contacts + contacts[:-8])
    cut = ("message 0: employer-tagged.bin\nroute: message 1: no frame\n", 1)
    ran = run([program, found, stream])
    compare(f"{name}, of a cut stream", cut, ("".join(sorted(ran[0].splitlines(True))), ran[1]))
    compare(f"{name}, without a folder", ("route: cannot write employer-tagged.bin\n", 3), run([program, folder / "no", stream]))
    compare(f"{name}, without a file", (f"route: cannot read {folder}/no\n", 3), run([program, found, folder / "no"]))
    compare(f"{name}, without arguments", ("usage: route FOLDER FILE\n", 2), run([program]))


def signs_from_c(folder, environment):
    """What the example signs is the canonical words of the message and no others: openssl verifies it, and so does the example."""
    if missing("the example in C that signs", "cc", "openssl", "libcrypto"):
        return
    program, key, public, signature, words = (folder / name for name in ("sign", "key.pem", "public.pem", "signature", "words"))
    built = run(["cc", "-std=c99", *STRICT, TOP / "examples/c/sign.c", *flags(environment, "capvet", "libcrypto"), "-o", program])
    compare("cc sign.c", ("", 0), built)
    run(["openssl", "genpkey", "-algorithm", "EC", "-pkeyopt", "ec_paramgen_curve:P-256", "-out", key])
    run(["openssl", "pkey", "-in", key, "-pubout", "-out", public])
    for name, copy in COPIES:
        text, status = verdicts([program, key, TOP / "examples" / name])
        signature.write_bytes(text)
        compare(f"sign.c of {name}", 0, status)
        for other in ("contacts.bin", "telemetry.bin"):
            shutil.copy(TOP / "examples/canonical" / other, words)
            verified = run(["openssl", "dgst", "-sha256", "-verify", public, "-signature", signature, words])
            compare(f"sign.c of {name}, against the words of {other}", other == copy, verified == ("Verified OK\n", 0))
            expected = ("verified\n", 0) if other == copy else ("sign: not signed by this key\n", 1)
            compare(f"sign.c verifies {name} with the words of {other}", expected, run([program, public, words, signature]))
    # (signed, and yet no canonical form: words of another order, and words that are cut)
    message = (TOP / "examples/contacts.bin").read_bytes()
    for text, answer in ((message[8:], "NotCanonical"), (message[8:-8], "OutOfSegment"), (message[8:-1], "Truncated"),
                         (b"", "NoMessage")):
        words.write_bytes(text)
        run(["openssl", "dgst", "-sha256", "-sign", key, "-out", signature, words])
        compare(f"sign.c verifies {len(text)} bytes", (f"sign: signed, but {answer}\n", 1), run([program, public, words, signature]))
    compare("sign.c of a stream", ("sign: bytes follow the message\n", 1), run([program, key, TOP / "examples/stream-of-four.bin"]))


def signs_from_rust(program):
    """What the example hands to a command is the canonical words of the message, and its status is that of the command."""
    for name, copy in COPIES:
        digest = hashlib.sha256((TOP / "examples/canonical" / copy).read_bytes()).hexdigest()
        compare(f"sign of {name}, in Rust", (f"{digest}  -\n", 0), run([program, TOP / "examples" / name, "sha256sum"]))
    command = ["sh", "-c", "cat > /dev/null; exit 7"]
    compare("sign by a command that fails", ("", 7), run([program, TOP / "examples/contacts.bin", *command]))
    rest = len((TOP / "examples/stream-of-four.bin").read_bytes()) - 3144
    refused = (f"sign: Trailing {rest}\n", 1)
    compare("sign of a stream, in Rust", refused, run([program, TOP / "examples/stream-of-four.bin", "sha256sum"]))


def receives_from_rust(program, files, folder):
    """The example that reads a packed stream writes what the program writes of it, also of a stream that is cut."""
    packed = folder / "stream.packed"
    for file in files:
        # (the end of a cut stream may not be a whole word)
        words = folder / "words.bin"
        words.write_bytes(file.read_bytes()[:file.stat().st_size // 8 * 8])
        text = verdicts([PROGRAM, "pack", words])[0]
        for length in (len(text), len(text) * 2 // 3):
            packed.write_bytes(text[:length])
            expected = verdicts([PROGRAM, "vet", "--packed", "--strict", "--unamplified", packed])
            got = verdicts(["sh", "-c", 'exec "$0" < "$1"', program, packed])
            compare(f"receive, of {length} packed bytes of {file.name}", expected, got)


def from_cplusplus(folder, environment, files):
    """The server that vets messages before it passes them to libcapnp."""
    if missing("the server in front of libcapnp", "c++", "libcapnp"):
        return
    program, cycle = folder / "serve", folder / "cycle.bin"
    cycle.write_bytes(CYCLE)
    built = run(["c++", "-std=c++17", *STRICT, TOP / "examples/c/serve.cpp", *flags(environment, "capvet-kj"), "-o", program])
    compare("c++ serve.cpp", ("", 0), built)
    compare("serve", (SERVED, 0), run([program, files[0], cycle, files[1]]))
    interrupted = {**os.environ, "LD_PRELOAD": str(interrupting(folder))}
    compare("serve, interrupted", (SERVED, 0), run([program, files[0], cycle, files[1]], env=interrupted))


def names_from_cplusplus(folder, environment):
    """The program of docs/c.md that reads a list is one of C++ too. It refuses lists of another kind."""
    if missing("names.c of docs/c.md as C++", "c++"):
        return
    text = re.search(r"^```c\n(/\* names\.c: .*?)^```$", (TOP / "docs/c.md").read_text(), re.M | re.S)[1]
    source, program = folder / "names.cpp", folder / "names-c++"
    source.write_text(text)
    built = run(["c++", "-std=c++17", *STRICT, source, *flags(environment, "capvet"), "-o", program])
    compare("c++ names.c", ("", 0), built)
    for file, names in NAMES.items():
        lines = "refused\n" if names is None else "".join(f'{number} "{name}"\n' for number, name in enumerate(names))
        got = run(["sh", "-c", 'exec "$0" < "$1"', program, TOP / "examples" / file])
        compare(f"names.c as C++, of {file}", (lines, int(names is None)), got)


def names_from_rust(program):
    """The program of docs/rust.md that reads a list refuses lists of another kind."""
    for file, names in NAMES.items():
        lines = "refused\n" if names is None else "".join(f"{name}\n" for name in names)
        compare(f"names in Rust, of {file}", (lines, 0), run([program, TOP / "examples" / file]))


def tidy(crate, environment):
    """A crate is formatted, clippy finds nothing in it, and the oldest Rust that it is for compiles it."""
    name = f"{crate.parent.name}/{crate.name}"
    if not missing(f"the layout of {name}", "rustfmt"):
        # (the sources of an adapter are beside the folder of its manifest)
        sources = list(crate.glob("src/*.rs")) or list(crate.parent.glob("src/*.rs"))
        compare(f"rustfmt --check of {name}", ("", 0), run(["rustfmt", "--check", "--edition", "2021", *sources]))
    if not missing(f"clippy of {name}", "cargo-clippy"):
        # (in Rust 1.63 this lint is of the group that is on by default)
        words = ["cargo", "clippy", *CARGO, "--all-targets", "--", "-D", "warnings", "-A", "clippy::format_push_string"]
        compare(f"clippy of {name}", ("", 0), run(words, cwd=crate, env=environment))
    if not missing(f"{name} by Rust 1.63", "oldest-rust"):
        environment = {**environment, "PATH": f"{needs.OLDEST_RUST}:{environment['PATH']}",
                       "CARGO_TARGET_DIR": f"{environment['CARGO_TARGET_DIR']}-oldest"}
        (crate / "Cargo.lock").unlink(missing_ok=True)
        compare(f"{name} by Rust 1.63", ("", 0), run(["cargo", "check", *CARGO, "--all-targets"], cwd=crate, env=environment))


def from_rust(folder, files):
    """The examples over the crate, and what the pages show. (tests/bindings/crates.py runs the tests of the crate)"""
    if missing("the examples in Rust", "cargo", "rustc", "crates"):
        return
    environment = cargo.environment(folder)
    # (cargo writes a lock file beside a crate, so each is taken from a copy of the repository's files)
    for part in ("rust", "examples"):
        shutil.copytree(TOP / part, folder / "copy" / part, ignore=shutil.ignore_patterns("target", "Cargo.lock"))
    tidy(folder / "copy/examples/rust", environment)
    for file in of_pages("rust", folder, "#![allow(dead_code)]\n{}" + NAMED, "mod block{number} {{\n{}}}\n"):
        file.rename(folder / f"copy/examples/rust/src/bin/{file.stem}.rs")
    built = run(["cargo", "build", *CARGO], cwd=folder / "copy/examples/rust", env=environment)
    compare("cargo build of the example", ("", 0), built)
    same("the example in Rust", [folder / "target/debug/vet"], files)
    signs_from_rust(folder / "target/debug/sign")
    names_from_rust(folder / "target/debug/rust")
    receives_from_rust(folder / "target/debug/receive", files, folder)


def main():
    with tempfile.TemporaryDirectory() as scratch:
        folder = Path(scratch)
        prefix, stage = folder / "x", folder / "stage"
        compare("make install", ("", 0), make("install", scratch, f"PREFIX={prefix}"))
        compare("make install, staged", ("", 0), make("install", scratch, "PREFIX=/opt/capvet", f"DESTDIR={stage}"))
        if missing("the library, by pkg-config", "pkg-config"):
            return ended()
        files = inputs(folder)
        environment = {**os.environ, "PKG_CONFIG_PATH": str(prefix / "lib/pkgconfig")}
        described(prefix, environment)
        from_c(folder, environment, files)
        signs_from_c(folder, environment)
        from_cplusplus(folder, environment, files)
        names_from_cplusplus(folder, environment)
        from_rust(folder, files)
        environment["PKG_CONFIG_PATH"] = str(stage / "opt/capvet/lib/pkgconfig")
        environment["PKG_CONFIG_SYSROOT_DIR"] = str(stage)
        expected = [f"-I{stage}/opt/capvet/include", f"-L{stage}/opt/capvet/lib", "-lcapvet"]
        compare("the flags of a staged tree", expected, flags(environment, "capvet"))
    return ended()


if __name__ == "__main__":
    sys.exit(main())
