#!/usr/bin/env python3
"""Runs the commands of the program over several files, and compares all that they write and their exit status.

    files.py [PROGRAM] [--full]

The last line is 'N passed, M failed', and the status is 1 where a case failed. The program gives the lines for each file alone: the
other scripts compare these with what they have to be. Over several files each line begins with the name of its file, on standard
error too. In an object of JSON the name is the first member instead. The exit status is the greatest. So it is with one file after
`--files`.

- Messages that are made up, and changed samples, are in two to six files. They are plain and packed. Some files end within a message.
- A file doesn't open, or is a folder, or is named twice. Names have blanks, a colon, quotes, a backslash or a line feed, or are `-`.
- A name that isn't UTF-8 is refused, as with one file. Commands that take one file refuse a second one.
- The output is a full device, or a pipe that closes. A thousand files are read, and none stays open.
- A file is a pipe, and the text of a message comes while it stays open.
"""
import hashlib
import json
import os
import random
import resource
import subprocess
import sys
import tempfile
from concurrent.futures import ThreadPoolExecutor
from pathlib import Path

sys.path[1:1] = map(str, Path(__file__).resolve().parents[1].iterdir())

from amount import cases
from harness import PROGRAM, TOP, compare, ended, expect, framed, outputs
from made import changed, made_up, samples
from packing import packed

COMMANDS = ("explain", "explain --exclusive", "explain --exclusive --strict", "explain --strict --unamplified", "explain --json",
            "explain --canonical", "explain --canonical --json", "explain --canonical --one",
            "explain --exclusive --json", "explain --one", "explain --one --json", "explain --words 20 --depth 3", "explain --size 20",
            "hash", "hash --strict", "hash --json", "hash --one", "hash --one --json", "hash --size 20")
# Commands that read several files after `--files` alone, and commands that take one file without it.
NAMING = ("segments", "segments --size 20", "vet", "vet --strict --unamplified", "vet --exclusive", "vet --json", "vet --exclusive --json",
          "vet --one", "vet --one --json", "vet --words 20 --depth 3", "vet --size 20", "check", "check --strict", "check --json",
          "check --one", "check --one --json", "check --size 20")
ONE_FILE = ("segments", "vet", "check", "filter", "dump", "get /", "canon", "pack", "unpack")
NAMES = ("a.bin", "a b.bin", "a: b", "'\"", "\\", "ä☃", "\t\x1f", "x\ny", "-", "--x", "a.bin ")
NULL, CYCLE = framed("0000000000000000"), framed("fcffffff00000100")
DIGEST = hashlib.sha256(bytes(8)).hexdigest().encode()
NULL_LINE = b"null: message 0: sha256 " + DIGEST + b"\n"


def with_name(name, text):
    """The lines of a text, each with the name of its file in front of it."""
    lines = text.split(b"\n")
    return b"".join(name + b": " + line + b"\n" for line in lines[:-1]) + (name + b": " + lines[-1] if lines[-1] else b"")


def with_member(name, text):
    """Objects of JSON, each with the name of its file as the first member."""
    return b"".join(json.dumps({"file": name.decode(), **json.loads(line)}, separators=(",", ":"), ensure_ascii=False).encode() + b"\n"
                    for line in text.splitlines())


def escaped(text):
    """A text of objects with each name as Python's json reads and writes it: the program escapes each control by its number."""
    return b"".join(json.dumps(json.loads(line), separators=(",", ":"), ensure_ascii=False).encode() + b"\n" for line in text.splitlines())


def ran(folder, command, names, naming=False):
    """What a command wrote of files in a folder, and its status. The files may come after `--files`."""
    if naming:
        named = [b"./" + name if name.startswith(b"-") else name for name in (os.fsencode(name) for name in names)]
        return outputs([PROGRAM, *command.split(), "--files", *named], cwd=folder)
    return outputs([PROGRAM, *command.split(), "--", *names], cwd=folder)


def is_naming(command):
    """Whether a command needs `--files` for several files."""
    return command.partition(" ")[0] in ("segments", "vet", "check")


def expected(folder, command, names, naming=False):
    """What it has to write of several files, by what it writes of each alone."""
    out, err, greatest = b"", b"", 0
    for name in names:
        name = f"./{name}" if naming and name.startswith("-") else name
        alone = ran(folder, command, [name])
        name = name.encode() if isinstance(name, str) else name
        out += (with_member if "--json" in command else with_name)(name, alone[0])
        err += with_name(name, alone[1])
        greatest = max(greatest, alone[2])
    return out, err, greatest


def compare_files(folder, command, names):
    """A command over files, beside the same over each of them. All that takes files takes them after `--files` too, and one alone."""
    for naming in (True,) if is_naming(command) or len(names) < 2 else (False, True):
        got = ran(folder, command, names, naming)
        if "--json" in command:
            got = escaped(got[0]), *got[1:]
        compare(f"capvet {command}{' --files' * naming} of {names!r}", expected(folder, command, names, naming), got)


def stream_of(chance, bases):
    """Some messages, of which the last may be cut."""
    messages = [changed(chance.choice(bases), chance) if chance.randrange(3) else made_up(chance) for _ in range(chance.randrange(4))]
    stream = b"".join(messages)
    return stream[:-chance.randrange(1, 9)] if stream and chance.randrange(6) == 0 else stream


def one_case(number, bases):
    """Files with messages that are made up, by one command."""
    chance = random.Random(number)
    command = (*COMMANDS, *NAMING)[number % len((*COMMANDS, *NAMING))]
    with tempfile.TemporaryDirectory() as folder:
        names = chance.sample(NAMES, chance.randrange(1, 7))
        is_packed = chance.randrange(3) == 0
        for name in names:
            stream = stream_of(chance, bases)
            (Path(folder) / name).write_bytes(packed(stream + bytes(-len(stream) % 8)) if is_packed else stream)
        compare_files(folder, command + " --packed" * is_packed, names)


def edges(folder):
    """Files that don't open, names, and the status."""
    contents = {"null": NULL, "cycle": CYCLE, "cut": NULL[:9], "empty": b"", "both": CYCLE + NULL, "a b": NULL, "-": CYCLE, "x\ny": NULL}
    for name, content in contents.items():
        (folder / name).write_bytes(content)
    (folder / "folder").mkdir()
    for command in (*COMMANDS, *NAMING):
        for names in (["null"], ["cut"], ["missing"], ["null", "cycle"], ["cycle", "null"], ["null", "null"], ["null", "missing"], ["missing", "null"], ["missing", "missing"],
                      ["null", "folder"], ["folder", "cycle", "missing"], ["cut", "null"], ["empty", "empty"], ["a b", "-", "x\ny"],
                      ["both", "null", "both"], ["null", "cycle", "cut", "missing"], ["", "null"]):
            compare_files(folder, command, names)
    statuses = [ran(folder, "hash", names)[2] for names in (["null", "null"], ["null", "cycle"], ["cycle", "missing"], ["missing", "null"])]
    compare("the greatest status", [0, 1, 3, 3], statuses)
    compare("capvet hash of two files", (NULL_LINE +
                                        b"cycle: message 0: refused DepthLimit at 0:0 pointers 65\n", b"", 1), ran(folder, "hash", ["null", "cycle"]))
    compare("capvet hash --json of two files", (b'{"file":"null","message":0,"verdict":"accepted","sha256":"' + DIGEST + b'"}\n',
                                               b"missing: capvet: cannot open missing\n", 3), ran(folder, "hash --json", ["null", "missing"]))
    compare("a name in JSON", b'{"file":"x\\u000ay","message":0,', ran(folder, "hash --json", ["x\ny", "null"])[0][:31])
    compare("options between files", ran(folder, "explain --exclusive --depth 3", ["null", "both"]),
            outputs([PROGRAM, "explain", "null", "--exclusive", "both", "--depth", "3"], cwd=folder))
    explained = ran(folder, "explain", ["missing", "null"])[1].splitlines()
    expect("the system's reason has the name", len(explained) == 2 and explained[1].startswith(b"missing: capvet: "), explained)
    compare("names after --files, several times", ran(folder, "vet", ["null", "both", "cycle"], True),
            outputs([PROGRAM, "vet", "--files", "null", "--depth", "64", "--files", "both", "cycle", "--size=100"], cwd=folder))
    compare("capvet vet --files of one file", (b"null: message 0: accepted charge 0 depth 0 pointers 1 caps 0\n", b"", 0),
            ran(folder, "vet", ["null"], True))
    for words in (["vet", "null", "--files", "cycle"], ["hash", "--files", "null", "--", "cycle"], ["check", "--files", "null", "--strict", "cycle"]):
        out, err, status = outputs([PROGRAM, *words], cwd=folder)
        expect(f"capvet {' '.join(words)}", not out and b"cannot be used with" in err and status == 2, err)
    out, err, status = outputs([PROGRAM, "vet", "--files"], cwd=folder)
    expect("capvet vet --files without a name", not out and b"--files <FILE>..." in err and status == 2, err)
    for words in ([b"hash", b"null", b"\xff"], [b"hash", b"\xff", b"null"]):
        number = words.index(b"\xff") + 1
        compare("a name that is not UTF-8", (b"", f"capvet: argument {number} is not UTF-8; to read a file of such a name, use < FILE\n".encode(), 2), outputs([PROGRAM, *words], cwd=folder))
    for command in ONE_FILE:
        out, err, status = outputs([PROGRAM, *command.split(), "null", "cycle"], cwd=folder)
        expect(f"capvet {command} of two files", not out and err.startswith(b"error: ") and b"'cycle'" in err and status == 2, err)
        if not is_naming(command):
            out, err, status = outputs([PROGRAM, *command.split(), "--files", "null"], cwd=folder)
            expect(f"capvet {command} --files", not out and err.startswith(b"error: ") and b"'--files'" in err and status == 2, err)


def devices(folder):
    """Outputs that fail, many files, and a file that is a pipe."""
    for command in (*COMMANDS, *NAMING):
        with open("/dev/full", "wb") as full:
            words = [PROGRAM, *command.split(), *["--files"] * is_naming(command), "null", "cycle", "null"]
            _, err, status = outputs(words, cwd=folder, stdout=full)
        expect(f"capvet {command} of files, to a full device", err == b"null: capvet: output failed\n" and status == 3, err, status)
    many = [f"many{number}" for number in range(1000)]
    for name in many:
        (folder / name).write_bytes(NULL)
    got = subprocess.run([PROGRAM, "hash", *many], cwd=folder, capture_output=True,
                         preexec_fn=lambda: resource.setrlimit(resource.RLIMIT_NOFILE, (64, 64)))
    compare("a thousand files", (expected(folder, "hash", ["many0"])[0].replace(b"many0", b"many999"), 1000, 0),
            (got.stdout.splitlines(True)[-1], got.stdout.count(b"\n"), got.returncode))
    os.mkfifo(folder / "pipe")
    running = subprocess.Popen([PROGRAM, "hash", "null", "pipe"], cwd=folder, stdout=subprocess.PIPE, stderr=subprocess.PIPE)
    with open(folder / "pipe", "wb", buffering=0) as pipe:
        pipe.write(CYCLE)
        lines = [running.stdout.readline(), running.stdout.readline()]
    compare("the lines of a pipe that stays open", [NULL_LINE,
                                                    b"pipe: message 0: refused DepthLimit at 0:0 pointers 65\n"], lines)
    out, err = running.communicate()
    compare("and what comes after them", (b"", b"", 1), (out, err, running.returncode))
    both = subprocess.run(["sh", "-c", '"$0" hash cut missing null 2>&1', PROGRAM], cwd=folder, capture_output=True)
    compare("both outputs in one place", (b"cut: capvet: message 0: Truncated at byte 9\nmissing: capvet: cannot open missing\n" +
                                          NULL_LINE, 3), (both.stdout, both.returncode))


whole = [it for it in samples() if len(it) < 5000]
with ThreadPoolExecutor(4) as pool:
    list(pool.map(lambda number: one_case(number, whole), range(cases(400, 5_000))))  # groups of files
with tempfile.TemporaryDirectory() as place:
    edges(Path(place))
    devices(Path(place))
sys.exit(ended())
