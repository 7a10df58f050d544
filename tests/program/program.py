#!/usr/bin/env python3
"""Runs the built program as its users do, and compares all that it writes and its exit status.

    program.py [PROGRAM] [--full]

A case is one call of `case`. Failures are printed as they come. The last line is 'N passed, M failed', and
the status is 1 where a case failed. The expected texts were written from docs/output.md, and the numbers of the
samples counted by another program. The texts of a wrong command line are the library clap's. Streams and command
lines are in tables.py, with what the program has to write for them, and the texts of help are in helps.py.

- Each command runs over each sample, from a file and from standard input, plain, packed and back.
  tests/shared/trees.py reads the trees too. Canonical copies are those of Cap'n Proto's own tool.
- The deepest tree is dumped with a stack of 1 MiB.
- Inputs are cut at each byte of a message, and come one, three or seven bytes at a time.
- Hashes are those of `sha256sum` over the bytes of canonical copies. For messages that are made up, each line is that of
  tests/shared/model.py too.
- Each form that `--strict` refuses comes alone and before other faults, with messages near to it.
- Lists of up to 600 words of each kind are packed and unpacked, beside another packer in Python.
- Outputs and standard error fail after each number of bytes. Pipes are closed at each byte of a text.
- There is too little address space, for the program or for a message. A file is missing, or is a
  directory, and a device is full.
- Memory is bounded: less than 4 MiB for a table that claims 64 MiB without contents and for 64 MiB of
  small messages. A message of 64 MiB takes its size and 3 MiB, and a 64th of it for `--exclusive`.
"""
import fcntl
import hashlib
import os
import random
import resource
import select
import signal
import struct
import subprocess
import sys
import tempfile
import termios
import threading
import time
from pathlib import Path

sys.path[1:1] = map(str, Path(__file__).resolve().parents[1].iterdir())

import demands
import filtering
import messages
import model
import tables
from amount import cases
from clap_texts import BUILD, alike, clap_of, spare
from harness import PROGRAM, TOP, compare, ended, expect, framed, outputs
from helps import HELPS
from made import changed, made_up, shared
from made import samples as sample_messages
from packing import packed
from tables import word
from trees import dump_text, get_text

MIB = 1 << 20
# How many MiB it has resident beside its messages.
SPARE = spare(PROGRAM)
# The clap of the program, which has other texts in a plain build.
CLAP = clap_of(PROGRAM)
# Each case that was run: the arguments, the input, and what is expected. Tables share messages, and several rows pack the same one.
DONE = set()


def encoded(text):
    return text.encode() if isinstance(text, str) else text


def case(words, out="", err="", status=0, stdin=b"", stdout=subprocess.PIPE, shown=""):
    """The program with these arguments, split at spaces where they are a text. Where a `stdout` is given, what the
    program writes to it isn't looked at. A case that was run before isn't run again. `shown` is what it shows."""
    words = tuple(words.split() if isinstance(words, str) else words)
    expected = encoded(out), encoded(err), status
    if stdout == subprocess.PIPE and (words, stdin, expected) in DONE:
        return
    DONE.add((words, stdin, expected))
    name = (f"{shown}: " if shown else "") + "capvet " + " ".join(it if isinstance(it, str) else repr(it) for it in words)
    if stdin:
        name += f", of {stdin[:80].hex()}"
    if stdout != subprocess.PIPE:
        name += ", with an output that fails"
    compare(name, *alike(expected, outputs([PROGRAM, *words], stdin, stdout=stdout), CLAP))


def shell_case(line, out, status=0):
    """A line of shell, at the top of the repository and with the program on its path."""
    environment = {**os.environ, "PATH": f"{PROGRAM.parent}:{os.environ['PATH']}"}
    got = outputs(line, shell=True, env=environment)
    compare(line, (encoded(out), b"", status), got)


def mistake(words, text):
    """A command line that is wrong, and what clap says of it."""
    case(words, err=f"error: {text}\nFor more information, try '--help'.\n", status=2, stdin=NULL)


def mistake_beginning(words, beginning):
    """A command line that is wrong, and how what is said of it begins."""
    _, (out, err, status) = alike((b"", b"", 2), outputs([PROGRAM, *words.split()], NULL), CLAP)
    compare(f"capvet {words}", (b"", beginning.encode(), 2), (out, err[:len(beginning)], status))


def closed_pipe():
    """The writing end of a pipe that nobody reads any more."""
    reader, writer = os.pipe()
    os.close(reader)
    return writer


def rows(table, also_packed=False):
    """Each row of a table, and with `also_packed` the same over the packed encoding of its input."""
    for words, digits, out, err, status in table:
        stream = word(digits)
        case(words, out, err, status, stream)
        if also_packed:
            case("pack", packed(stream), stdin=stream)
            case(f"{words} --packed", out, err, status, packed(stream))


def segments_text(stream):
    """What `segments` has to write of a stream."""
    text, at, number = "", 0, 0
    while at < len(stream):
        count = struct.unpack_from("<I", stream, at)[0] + 1
        sizes = struct.unpack_from(f"<{count}I", stream, at + 4)
        at += 8 * (count // 2 + 1)
        text += f"message {number}: segments {count} words {sum(sizes)}\n"
        text += "".join(f"segment {s}: {size}\n" for s, size in enumerate(sizes))
        text += f"root {stream[at:at + 8].hex()}\n" if sizes[0] else "root none\n"
        at += 8 * sum(sizes)
        number += 1
    return text


def hashes_of(copies):
    """The lines of `hash` for messages with these canonical copies, each with its table. The digits are those of `sha256sum`."""
    text, at, number = "", 0, 0
    while at < len(copies):
        size = 8 * struct.unpack_from("<I", copies, at + 4)[0]
        digits, _, _ = outputs(["sha256sum"], copies[at + 8:at + 8 + size])
        text += f"message {number}: sha256 {digits.decode().split()[0]}\n"
        at, number = at + 8 + size, number + 1
    return text


NULL = framed("0000000000000000")
NULL_HASH = hashes_of(NULL)
NULL_ACCEPTED = "message 0: accepted charge 0 depth 0 pointers 1 caps 0\n"
NULL_DUMP = NULL_ACCEPTED + "root null\n"
NULL_FOUND = "message 0: found\nnode null\n"
CYCLE = framed("fcffffff00000100")
CAPABILITY = framed("0300000005000000")
SHARED = framed("0000000000000200 0400000001000000 0000000001000000 0700000000000000")
OVERLAP = "message 1: refused Overlap at 0:2 pointers 3\n"
CYCLE_REFUSED = "message 0: refused DepthLimit at 0:0 pointers 65\n"
CYCLE_EXPLAINED = f"""\
  path {"/p0" * 8}/.. 48 steps ..{"/p0" * 8}
  byte 8 of the message, byte 8 of the input
  pointer fcffffff00000100 struct, offset -1, data words 0, pointers 1
  target 0:0 to 0:0, words 1
  leads into segment 0, words 1
  level 65, limit 64
  cycle: the path reaches pointer word 0:0 at level 64, and returns to it at level 65
  reason the target is at a deeper level than the limit allows
"""

# ------------------------------------------------------------------ samples
CONTACTS = "message 0: accepted charge 391 depth 11 pointers 125 caps 0\n"
VERDICTS = {
    "contacts.bin": CONTACTS,
    "contacts-many-segments.bin": "message 0: accepted charge 495 depth 11 pointers 125 caps 0\n",
    "telemetry.bin": "message 0: accepted charge 234 depth 4 pointers 69 caps 0\n",
    "stream-of-four.bin": CONTACTS
    + "message 1: accepted charge 76 depth 4 pointers 34 caps 0\n"
    + "message 2: accepted charge 20 depth 2 pointers 7 caps 0\n"
    + "message 3: accepted charge 78 depth 7 pointers 21 caps 0\n",
}
CHECKS = {
    "contacts.bin": "message 0: not canonical\n",
    "contacts-many-segments.bin": "message 0: not canonical\n",
    "telemetry.bin": "message 0: not canonical\n",
    "stream-of-four.bin": "message 0: not canonical\n"
    + "message 1: canonical\n"
    + "message 2: not canonical\n"
    + "message 3: not canonical\n",
}
# The canonical words of each sample's messages, one after the other, as `capnp convert binary:canonical` writes them.
COPIES = {
    "contacts.bin": "contacts.bin",
    "contacts-many-segments.bin": "contacts.bin",
    "telemetry.bin": "telemetry.bin",
    "stream-of-four.bin": "stream-of-four.bin",
}
COMMANDS = ("segments", "vet", "explain", "filter", "dump", "get", "check", "canon", "hash", "pack", "unpack")
# Those that read messages, with what each of them needs besides its input; and all of them.
READERS = ("segments", "vet", "explain", "filter", "dump", "get /", "check", "canon", "hash")
RUNS = (*READERS, "pack", "unpack")
# Those that write one line for a message that can't be read. (tests/program/explain.py has the lines of `explain`)
BRIEF = (*(it for it in READERS if it != "explain"), "vet --exclusive")
PATHS = ("/", "/p0", "/p1/p0", "/p0/i0", "/p0/i1/p4", "/i0", "/p65535")


def sample(name):
    return (TOP / "examples" / name).read_bytes()


def contents(stream):
    """The words of all messages of a stream without their tables, up to one that has several segments."""
    text, at = b"", 0
    while at < len(stream) and stream[at:at + 4] == bytes(4):
        size = 8 * struct.unpack_from("<I", stream, at + 4)[0]
        text += stream[at + 8:at + 8 + size]
        at += 8 + size
    return text


def canonical_copies():
    """The copies of each sample's messages, plain and packed, against those of another program; each is canonical. And the hash of
    each message, which is that of its copy."""
    for name, copies in COPIES.items():
        expected = (sample(f"canonical/{copies}"), b"", 0)
        text, err, status = outputs([PROGRAM, "canon", f"examples/{name}"])
        compare(f"capvet canon examples/{name}", expected, (contents(text), err, status))
        case(f"hash examples/{name}", hashes_of(text))
        case("hash", hashes_of(text), stdin=text)
        case("hash --strict --unamplified --packed", hashes_of(text), stdin=packed(sample(name)))
        case("canon", text, stdin=text)
        shell_case(f"capvet pack examples/{name} | capvet canon --packed", text)
        shell_case(f"capvet canon examples/{name} | capvet check",
                   "".join(f"message {n}: canonical\n" for n in range(len(CHECKS[name].splitlines()))))


def samples():
    """Each command over each sample, from a file and from standard input, plain, packed and back."""
    with tempfile.TemporaryDirectory() as folder:
        for name, verdicts in VERDICTS.items():
            file, packed = f"examples/{name}", f"{folder}/{name}.packed"
            stream = sample(name)
            texts = {"vet": verdicts, "vet --exclusive": verdicts, "explain": verdicts, "segments": segments_text(stream), "dump": dump_text(stream, verdicts)}
            texts["check"] = CHECKS[name]
            texts |= {f"get {path}": get_text(stream, path) for path in PATHS}
            # (samples are strict and unamplified)
            texts |= {f"{command} --strict --unamplified": text for command, text in texts.items() if command != "segments"}
            texts |= {"filter": stream, "filter --allow-nonstrict --allow-amplified": stream}
            shell_case(f"capvet pack {file} > {packed}", "")
            text = Path(packed).read_bytes()
            for command, expected in texts.items():
                status = 1 if "not canonical" in str(expected) else 0
                case([*command.split(), file], expected, status=status)
                case(command, expected, status=status, stdin=stream)
                case([*command.split(), "--packed", packed], expected, status=status)
                case(f"{command} --packed", expected, status=status, stdin=text)
            case("pack", text, stdin=stream)
            case(["unpack", packed], stream)
            case("unpack", stream, stdin=text)


def text_of(process, length):
    """What a running process writes, up to `length` bytes, or until nothing came for a minute."""
    text, output = bytearray(), process.stdout.fileno()
    while len(text) < length and select.select([output], [], [], 60)[0]:
        part = os.read(output, min(length - len(text), MIB))
        if not part:
            break
        text += part
    return bytes(text)


def live_pipe(command, expected, status=0):
    """The text of a message comes while the input is still open after it, and not only at the end."""
    piped = {"stdin": subprocess.PIPE, "stdout": subprocess.PIPE, "stderr": subprocess.PIPE}
    with subprocess.Popen([PROGRAM, *command.split()], cwd=TOP, **piped) as ran:
        ran.stdin.write(sample("contacts.bin"))
        ran.stdin.flush()
        text = text_of(ran, len(expected))
        ran.stdin.close()
        text += ran.stdout.read()
        compare(f"capvet {command}, with an input that stays open", (expected, b"", status),
                (text, ran.stderr.read(), ran.wait(60)))


def of_file(command, given, stdout):
    """What a command does with a regular file as its input."""
    with tempfile.TemporaryFile() as file:
        file.write(given)
        file.seek(0)
        return outputs([PROGRAM, *command.split()], file, stdout=stdout)


def not_blocking(command, expected):
    """A command whose input has nothing yet, and doesn't wait for it."""
    reader, writer = os.pipe()
    os.set_blocking(reader, False)
    with os.fdopen(reader, "rb") as stdin, os.fdopen(writer, "wb"):
        got = outputs([PROGRAM, *command.split()], stdin)
    compare(f"capvet {command}, of an input that doesn't wait", (b"", encoded(expected), 3), got)


def most_memory(process):
    """The most memory that a running process ever had resident, in KiB."""
    status = Path(f"/proc/{process.pid}/status").read_text()
    return int(status.split("VmHWM:")[1].split()[0])


def waits_for_input(process):
    """Waits, for at most a minute, until a process has taken all that is in its input, and sleeps."""
    for _ in range(6000):
        unread = struct.unpack("i", fcntl.ioctl(process.stdin.fileno(), termios.FIONREAD, bytes(4)))[0]
        state = Path(f"/proc/{process.pid}/stat").read_text().rsplit(")", 1)[1].split()[0]
        if unread == 0 and state == "S":
            return
        time.sleep(0.01)


def resident(command, name, parts, expected, most):
    """A command that gets these parts of a stream, and whose input stays open after them. It has to write the parts of
    a text in `expected` and no more, with at most `most` KiB resident."""
    pipes = {"stdin": subprocess.PIPE, "stdout": subprocess.PIPE}
    with subprocess.Popen([PROGRAM, *command.split()], cwd=TOP, **pipes) as ran:
        writer = threading.Thread(target=lambda: [ran.stdin.write(part) for part in parts] + [ran.stdin.flush()])
        writer.start()
        differs = next(((part, text) for part in expected if (text := text_of(ran, len(part))) != part), None)
        if differs is None:
            writer.join()
            waits_for_input(ran)
        more = select.select([ran.stdout], [], [], 0)[0]
        memory = most_memory(ran)
        ran.kill()
        writer.join()
    compare(f"capvet {command} of {name}, and its memory: {memory} KiB", (None, [], True), (differs, more, memory <= most))


samples()
canonical_copies()
contacts = sample("contacts.bin")
for command, text in {
    "vet": CONTACTS,
    "segments": segments_text(contacts),
    "dump": dump_text(contacts, CONTACTS),
    "get /p0": get_text(contacts, "/p0"),
}.items():
    live_pipe(command, text.encode())
live_pipe("check", CHECKS["contacts.bin"].encode(), status=1)
copy = sample("canonical/contacts.bin")
live_pipe("canon", struct.pack("<II", 0, len(copy) // 8) + copy)
live_pipe("hash", hashes_of(struct.pack("<II", 0, len(copy) // 8) + copy).encode())
live_pipe("filter", contacts)
resident("vet", "a table that claims 64 MiB and has nothing after it", [word("0000000000008000")], [], 4 << 10)
COPIES = (64 << 20) // len(contacts)
resident("vet", "64 MiB of small messages", [contacts] * COPIES,
         ["".join(CONTACTS.replace("0", str(number), 1) for number in range(COPIES)).encode()], 4 << 10)


def zero_parts(size):
    """Zero bytes, `size` of them, in parts of a MiB."""
    return size // MIB * [bytes(MIB)] + [bytes(size % MIB)]


def large_message(words):
    """A message of one segment, in parts: a list of bytes, all of them zero. And what is said of it."""
    count = words - 1
    stream = [struct.pack("<IIII", 0, words, 1, 8 * count << 3 | 2), *zero_parts(8 * count)]
    return stream, [f"message 0: accepted charge {count} depth 1 pointers 1 caps 0\n".encode()]


def large_segments(words):
    """A message of 512 segments, in parts: the first has a far pointer to such a list in the last. And what is said."""
    sizes = [1, *510 * [1 << 14]]
    sizes.append(words - sum(sizes))
    count = sizes[-1] - 1
    stream = [struct.pack("<I512I4xQ", 511, *sizes, 511 << 32 | 2), *zero_parts(8 * sum(sizes[1:-1])),
              struct.pack("<II", 1, 8 * count << 3 | 2), *zero_parts(8 * count)]
    return stream, [f"message 0: accepted charge {count + 1} depth 1 pointers 1 caps 0\n".encode()]


def large_messages():
    """Messages of 64 MiB, which the default limits allow, and of 96 MiB. The memory is the message and SPARE MiB. With
    `--exclusive` the marks come to it, a 64th of the message, and in `canon` the copy, which equals the message. `hash` makes a
    copy only of a message that isn't canonical, as one with a zero word at the end."""
    stream, accepted = large_message(64 << 17)
    resident("vet", "a message of 64 MiB", stream, accepted, (64 + SPARE) << 10)
    resident("vet --exclusive", "a message of 64 MiB", stream, accepted, (64 + 1 + SPARE) << 10)
    resident("vet --strict --unamplified", "a message of 64 MiB", stream, accepted, (64 + SPARE) << 10)
    resident("filter", "a message of 64 MiB", stream, stream, (64 + SPARE) << 10)
    resident("canon", "a message of 64 MiB", stream, stream, (64 + 64 + SPARE) << 10)
    resident("hash", "a message of 64 MiB", stream, [hashes_of(b"".join(stream)).encode()], (64 + SPARE) << 10)
    copy, _ = large_message((64 << 17) - 1)
    resident("hash", "a message of 64 MiB with a zero word at the end", [struct.pack("<II", 0, 64 << 17), copy[0][8:], *copy[1:], bytes(8)],
             [hashes_of(b"".join(copy)).encode()], (64 + 64 + SPARE) << 10)
    words = 96 << 17
    limits = f"--size {words} --words {words}"
    for name, (stream, accepted) in {"a message": large_message(words), "512 segments": large_segments(words)}.items():
        resident(f"vet {limits}", f"{name} of 96 MiB", stream, accepted, (96 + SPARE) << 10)
        resident(f"vet --exclusive {limits}", f"{name} of 96 MiB", stream, accepted, (96 + 2 + SPARE) << 10)


large_messages()
case("unpack examples/contacts.packed", sample("contacts.bin"))
case("vet --packed examples/contacts.packed", CONTACTS)

# ------------------------------------------------------------------ inputs that are refused, cut short or past a limit
case("vet", CYCLE_REFUSED, status=1, stdin=CYCLE)
case("explain", CYCLE_REFUSED + CYCLE_EXPLAINED, status=1, stdin=CYCLE)
case("dump", CYCLE_REFUSED, status=1, stdin=CYCLE)
case("get /p0", CYCLE_REFUSED, status=1, stdin=CYCLE)
case("vet --strict --unamplified examples/cycle.bin", CYCLE_REFUSED, status=1)
case("vet --strict --unamplified examples/shared.bin", "message 0: accepted charge 4 depth 2 pointers 3 caps 0\n")
case("vet --exclusive", NULL_ACCEPTED + OVERLAP + CYCLE_REFUSED.replace("0", "2", 1), status=1, stdin=NULL + SHARED + CYCLE)
case("vet --words 100 examples/contacts.bin", "message 0: refused WordLimit at 0:21 pointers 22\n", status=1)
case("vet --size 391 examples/contacts.bin", err="capvet: message 0: TooLarge 392\n", status=1)
case("check", "message 0: canonical\n" + CYCLE_REFUSED.replace("0", "1", 1), status=1, stdin=NULL + CYCLE)
case("canon", NULL, "capvet: message 1: refused DepthLimit at 0:0\n", 1, NULL + CYCLE + NULL)
case("canon", NULL, "capvet: message 1: HasCapability at 0:0\n", 1, NULL + CAPABILITY)
case("hash", NULL_HASH + CYCLE_REFUSED.replace("0", "1", 1) + "message 2: no canonical form, capability at 0:0\n" + NULL_HASH.replace("0", "3", 1),
     status=1, stdin=NULL + CYCLE + CAPABILITY + NULL)
case("hash", NULL_HASH, "capvet: message 1: Truncated at byte 23\n", 1, NULL + NULL[:7])
case("canon --depth 3 examples/contacts.bin", err="capvet: message 0: refused DepthLimit at 0:7\n", status=1)
case("canon", NULL, "capvet: message 1: Truncated at byte 23\n", 1, NULL + NULL[:7])
case("vet", NULL_ACCEPTED, "capvet: message 1: Truncated at byte 23\n", 1, NULL + NULL[:7])
case("explain", NULL_ACCEPTED, "capvet: message 1: Truncated at byte 23\n  message at byte 16 of the input\n  bytes there 7\n"
     "  reason the input ends inside the segment table, and inside a word\n", 1, NULL + NULL[:7])
case("dump", NULL_DUMP, "capvet: message 1: Truncated at byte 23\n", 1, NULL + NULL[:7])
case("get /", NULL_FOUND, "capvet: message 1: Truncated at byte 23\n", 1, NULL + NULL[:7])
case("segments", segments_text(NULL), "capvet: message 1: TooManySegments 513\n", 1, NULL + word("0002000000000000"))
case("pack", word("0101"), "capvet: Truncated at byte 15\n", 1, word("0100000000000000") + bytes(7))
case("unpack", bytes(8), "capvet: Truncated at byte 3\n", 1, word("000001"))
for command in (*RUNS, *(f"{it} --packed" for it in READERS), "vet --exclusive", "vet --exclusive --packed"):
    case(command)


def deepest_dump():
    """The deepest of all trees, 128 lists of one struct, each the pointer of the struct before it, dumped with a
    stack of 8 MiB and of 1 MiB."""
    list_pointer, tag, null = "010000000f000000", "0400000000000100", "0000000000000000"
    stream = framed((list_pointer + tag) * 128 + null)
    expected = "message 0: accepted charge 256 depth 256 pointers 129 caps 0\nroot structs 1 0 1\n"
    for level in range(1, 256, 2):
        below = "structs 1 0 1" if level < 255 else "null"
        expected += "  " * level + "i0 struct 0 1\n" + "  " * (level + 1) + f"p0 {below}\n"
    with tempfile.TemporaryDirectory() as folder:
        file = Path(folder) / "deepest.bin"
        file.write_bytes(stream)
        for kibibytes in (8192, 1024):
            shell_case(f"ulimit -s {kibibytes} && capvet dump --depth 256 {file}", expected)


deepest_dump()

# ------------------------------------------------------------------ the streams of the tables
for table in (tables.VERDICTS, tables.OTHER_LIMITS, tables.ENDS, tables.MESSAGES, tables.SEGMENTS, tables.DOUBLED, tables.PACKED_STREAMS,
              tables.WORDS, filtering.CUT):
    rows(table)
for table in (tables.LEVELS, tables.NESTED, tables.LEVELS_WITH_A_POINTER_LEFT, tables.OVERLAPS, tables.DUMPS, tables.GETS, tables.LADDER,
              tables.AFTER_A_REFUSAL, tables.COPY_ENDS, demands.ROWS, filtering.WHOLE, filtering.FORMS):
    rows(table, also_packed=True)
for shown, row in tables.SHOWN.items():
    case(row.words, row.out, row.err, row.status, word(row.stream), shown=shown)
for row in tables.ENDS:
    for command in BRIEF:
        case(row.words.replace("vet", command, 1), row.out, row.err, row.status, word(row.stream))


def named_files():
    """Files by their names, in the folder of the run. Standard input has something else."""
    for name, digits, words, out in tables.FILES:
        with tempfile.TemporaryDirectory() as folder:
            (Path(folder) / name).write_bytes(word(digits))
            compare(f"capvet {' '.join(words)}", (encoded(out), b"", 0), outputs([PROGRAM, *words], NULL, cwd=folder))


named_files()


def overlaps(stream, overlap):
    """An accepted message, and what `vet --exclusive` writes of it: the overlap, or what `vet` writes."""
    text, err, status = outputs([PROGRAM, "vet"], stream)
    compare("capvet vet accepts a message", (b"message 0: accepted ", b"", 0), (text[:20], err, status))
    expected = text if overlap is None else f"message 0: refused Overlap at {overlap}\n"
    case("vet --exclusive", expected, status=0 if overlap is None else 1, stdin=stream)


for stream, overlap in tables.USED_TWICE:
    overlaps(word(stream), overlap)
for stream, (*_, overlap) in zip(tables.two_lists(), tables.TWO_LISTS, strict=True):
    overlaps(stream, overlap)
for stream, exclusive, plain in tables.EXCLUSIVES:
    for command, verdict in ("vet", plain), ("vet --exclusive", exclusive):
        row = (command, stream, f"message 0: {verdict}\n", "", 1 if verdict.startswith("refused") else 0)
        rows([row], also_packed=True)
for stream, copy, is_canonical in tables.COPIES:
    said = "message 0: canonical\n" if is_canonical else "message 0: not canonical\n"
    rows([
        ("canon", stream, word(copy), "", 0),
        ("canon", copy, word(copy), "", 0),
        ("hash", stream, hashes_of(word(copy)), "", 0),
        ("hash", copy, hashes_of(word(copy)), "", 0),
        ("check", stream, said, "", 0 if is_canonical else 1),
        ("check", copy, "message 0: canonical\n", "", 0),
    ], also_packed=True)


def known_messages():
    """The messages of messages.py: their verdicts, canonical copies and nodes."""
    for digits, verdicts in messages.VERDICTS:
        for options, said in verdicts.items():
            case(f"vet {options}", f"message 0: {said}\n", status=int(said.startswith("refused")), stdin=framed(digits))
    for message, copy in messages.copies():
        for given in message, copy:
            said = "canonical" if given == copy else "not canonical"
            case("canon --words 268435456 --depth 256", copy, stdin=given)
            case("hash --words 268435456 --depth 256", hashes_of(copy), stdin=given)
            case("check --words 268435456 --depth 256", f"message 0: {said}\n", status=int(given != copy), stdin=given)
    for digits, place in messages.CAPABILITIES:
        case("canon", err=f"capvet: message 0: HasCapability at {place}\n", status=1, stdin=framed(digits))
        case("hash", f"message 0: no canonical form, capability at {place}\n", status=1, stdin=framed(digits))
    for digits, nodes in messages.NODES:
        for path, text in nodes.items():
            case(f"get {path}", f"message 0: found\nnode {text}" if text else "message 0: none\n", stdin=framed(digits))


known_messages()


def hash_line(frame):
    """What `hash` has to write of a framed message after its number, by tests/shared/model.py. The bytes that it hashes, or None."""
    limits = model.Limits()
    message, _ = model.unframed(frame, limits)
    try:
        tree = model.vetted(message, limits.charge, limits.depth)
    except model.Refused as refused:
        answer, segment, at, pointers = refused.args
        return f"refused {answer.title().replace('_', '')} at {segment}:{at} pointers {pointers}", None
    if tree.capabilities:
        return "no canonical form, capability at {}:{}".format(*tree.first), None
    words = model.canonical(message)
    copy = struct.pack(f"<{len(words)}Q", *words)
    return f"sha256 {hashlib.sha256(copy).hexdigest()}", copy


def sums_of(copies):
    """The digits of `sha256sum` for the words of copies that `canon` wrote, each with its table."""
    with tempfile.TemporaryDirectory() as folder:
        names, at = [], 0
        while at < len(copies):
            end = at + 8 + 8 * struct.unpack_from("<I", copies, at + 4)[0]
            names.append(str(len(names)))
            (Path(folder) / names[-1]).write_bytes(copies[at + 8:end])
            at = end
        return [line.split()[0] for line in outputs(["sha256sum", *names], cwd=folder)[0].decode().splitlines()]


def made_hashes():
    """Messages that are made up, or that are changed samples. The line of `hash` is that of tests/shared/model.py. Where it has a hash, that is
    what `sha256sum` prints of the bytes that `canon` writes, without their table."""
    chance, known = random.Random("hashes"), [it for it in sample_messages() if len(it) < 6000]
    count = cases(1000, full=20_000)  # messages that are hashed
    made = [chance.choice((made_up, shared, lambda it: changed(it.choice(known), it)))(chance) for _ in range(count)]
    expected, copies = zip(*map(hash_line, made))
    lines = outputs([PROGRAM, "hash"], b"".join(made))[0].decode().splitlines()
    compare("capvet hash of made messages, and how many lines", count, len(lines))
    for number, (message, text, line) in enumerate(zip(made, expected, lines)):
        compare(f"capvet hash of a made message, {message[:80].hex()}", f"message {number}: {text}", line)
    with_copy = [number for number, copy in enumerate(copies) if copy is not None]
    written = outputs([PROGRAM, "canon"], b"".join(made[number] for number in with_copy))[0]
    compare("capvet canon of the messages that have a hash", b"".join(framed(copies[number]) for number in with_copy), written)
    digits = [line.split()[-1] for line, copy in zip(lines, copies) if copy is not None]
    compare("capvet hash, and sha256sum of what canon writes", sums_of(written), digits)
    expect("a quarter of the made messages have a hash", 4 * len(with_copy) >= count, len(with_copy))


made_hashes()
for plain, text in tables.SPELLINGS:
    rows([("pack", plain, word(text), "", 0), ("unpack", text, word(plain), "", 0)])
for stream, line in tables.TOO_LARGE:
    rows([(command, stream, "", line, 1) for command in BRIEF], also_packed=True)


def limits():
    """Each command with each limit: at what a message takes, and at one less. And the default limits in the same way.
    `canon` ends at a message that is refused. The other commands write the refusal, `filter` to standard error."""
    for command, text in tables.WITHIN_LIMITS.items():
        for allows, forbids, said in tables.LIMITS:
            refused = said.startswith("refused") and command != "canon"
            out, err = (f"message 0: {said} pointers 2\n", "") if refused else ("", f"capvet: message 0: {said}\n")
            out, err = (out, err) if command != "filter" else ("", out + err)
            rows([(f"{command} {allows}", tables.LIMITED, text, "", 0),
                  (f"{command} {forbids}", tables.LIMITED, out, err, 1)], also_packed=True)
    for stream, said in tables.SIZE_DEFAULTS:
        rows([(command, stream, "", f"capvet: message 0: {said}\n", 1) for command in BRIEF])
    for stream, verdict, head, below in tables.WITHIN_DEFAULTS:
        verdict = f"message 0: {verdict}\n"
        rows([("vet", stream, verdict, "", 0),
              ("vet --exclusive", stream, verdict, "", 0),
              ("dump", stream, f"{verdict}root {head}\n{below}", "", 0),
              ("get /", stream, f"message 0: found\nnode {head}\n", "", 0),
              ("check", stream, "message 0: canonical\n", "", 0),
              ("filter --allow-amplified", stream, word(stream), "", 0),
              ("hash", stream, hashes_of(word(stream)), "", 0),
              ("canon", stream, word(stream), "", 0)], also_packed=True)
    for stream, said, pointers in tables.PAST_DEFAULTS:
        text = f"message 0: {said} pointers {pointers}\n"
        rows([*((command, stream, text, "", 1) for command in ("vet", "vet --exclusive", "dump", "get /", "check", "hash")),
              ("filter --allow-amplified", stream, "", text, 1),
              ("canon", stream, "", f"capvet: message 0: {said}\n", 1)], also_packed=True)


limits()

# ------------------------------------------------------------------ long runs, long messages and cut texts
FULL, SPARSE, END = b"\x8a" * 8, b"\1" * 7 + b"\0", word("0100020003000400")


def kind_at(kind, place):
    """The word at a place of a list: zero, without a zero byte, these in turn, with one zero byte, or each kind in
    turn, in runs of 31 words."""
    turn = place // 31 % 5
    return (bytes(8), FULL, (bytes(8), FULL)[place % 2], SPARSE,
            (bytes(8), FULL, SPARSE, bytes(8), word("01002a0000000700"))[turn])[kind]


def long_runs():
    """Lists of up to 600 words of each kind, packed and unpacked, each with a word after it that no run takes in."""
    for kind in range(5):
        words = b"".join(kind_at(kind, place) for place in range(600))
        plain = b"".join(words[:8 * count] + END for count in range(601))
        text = packed(plain)
        case("pack", text, stdin=plain)
        case("unpack", plain, stdin=text)
    # after a word without a zero byte, up to 255 words with one zero byte belong to its group, and no more
    for count, further in (0, 0), (1, 0), (254, 0), (255, 0), (255, 1), (255, 2):
        text = b"\xff" + FULL + bytes((count,)) + count * SPARSE + further * (b"\x7f" + SPARSE[:7])
        plain = FULL + (count + further) * SPARSE
        case("pack", text, stdin=plain)
        case("unpack", plain, stdin=text)
    # words of every tag
    plain = b"".join(bytes((tag >> place & 1) * (0x81 + place) for place in range(8)) for tag in range(256))
    case("pack", packed(plain), stdin=plain)
    case("unpack", plain, stdin=packed(plain))
    # texts longer than the buffer of the input, in which a group or a run begins at each place before the buffer's end
    for length in range(8):
        first = b"\1" * (7 - length) + bytes(1 + length)
        for words in FULL * 9000, (bytes(8) + FULL + SPARSE) * 4000, word("0201000000000000") * 24000:
            case("unpack", first + words, stdin=packed(first + words))


def cut_texts():
    """Each front of a packed text with groups of each kind: the words before the group that is cut, and those of a
    run that are whole."""
    text = word("1001 0002 ff8a8a8a8a8a8a8a8a02 8a8a8a8a008a8a8a 0909090909090909 0f01020304 f005060708")
    plain = word("0000000001000000") + bytes(24) + FULL + word("8a8a8a8a008a8a8a 0909090909090909 0102030400000000 0000000005060708")
    ends = {0: (0, True), 2: (1, True), 4: (4, True), 14: (5, False), 22: (6, False), 30: (7, True), 35: (8, True), 40: (9, True)}
    given = 0
    for size in range(len(text) + 1):
        given, is_whole = ends.get(size, (given, False))
        err = "" if is_whole else f"capvet: Truncated at byte {size}\n"
        case("unpack", plain[:8 * given], err, 1 if err else 0, text[:size])


def list_in_second(count, first):
    """A message of two segments: a pad in the second and a list of `count` words, which count up from `first`."""
    pad = struct.pack("<II", 1, count << 3 | 5)
    words = struct.pack(f"<{count}Q", *range(first, first + count))
    return struct.pack("<IIII", 1, 1, 1 + count, 0) + word("0200000001000000") + pad + words


def long_messages():
    """Long messages and short ones in turn, which show no word of one before; and as many segments as there may be."""
    stream = text = b""
    for number, (count, first) in enumerate(((40_000, 1_000_000), (2, 2_000_000), (60_000, 3_000_000), (1, 4_000_000))):
        message = list_in_second(count, first)
        stream += message
        verdict = f"message {number}: accepted charge {count + 1} depth 1 pointers 1 caps 0\n"
        lines = "".join(f"  w{at} {struct.pack('<Q', first + at).hex()}\n" for at in range(count))
        text += f"{verdict}root list 5 {count}\n{lines}".encode()
    case("dump", text, stdin=stream)
    case("dump --packed", text, stdin=packed(stream))
    # a far pointer to a pad and a struct of a word, in the last of 512 segments of one word or two
    sizes = [1] * 511 + [2]
    many = struct.pack("<514I", 511, *sizes, 0) + word("02000000ff010000") + bytes(8 * 510) + word("0000000001000000 2a00000000000000")
    case("segments", segments_text(many), stdin=many)
    case("dump", "message 0: accepted charge 2 depth 1 pointers 1 caps 0\nroot struct 1 0\n  d0 2a00000000000000\n", stdin=many)
    # messages of about the length of the pieces that skip words, whole and cut inside the last word
    for size in 64, 65, 66, 129, 130:
        stream = struct.pack("<II", 0, size) + struct.pack(f"<{size}Q", *range(size))
        case("segments", segments_text(stream + NULL), stdin=stream + NULL)
        case("segments", "", f"capvet: message 0: Truncated at byte {8 * size + 7}\n", 1, stream[:-1])


def in_sips(command, stream, expected, status, most):
    """A stream that comes through a pipe, `most` bytes at a time."""
    pipes = {"stdin": subprocess.PIPE, "stdout": subprocess.PIPE, "stderr": subprocess.PIPE}
    with subprocess.Popen([PROGRAM, *command.split()], cwd=TOP, **pipes) as ran:
        for at in range(0, len(stream), most):
            ran.stdin.write(stream[at:at + most])
            ran.stdin.flush()
        out, err = ran.communicate(timeout=60)
        compare(f"capvet {command}, in sips of {most} bytes", (encoded(expected), b"", status), (out, err, ran.returncode))


def edged(kind, first, run):
    """A message of two segments, one of `first` words and one of three. Its root is null, and the words after it are of
    one kind up to word `run` of both segments together. `kind` has the bytes of such a word."""
    words = [bytes(8)] + [kind if place < run else word("0201000000000000") for place in range(1, first + 3)]
    return struct.pack("<IIII", 1, first, 3, 0) + b"".join(words)


def runs_about_edges():
    """Packed messages whose runs of words end about a segment's end, or go on past the piece of a buffer that is
    prepared first. Their frames are passed on, also where few bytes come at once."""
    for kind in bytes(8), FULL, b"\x8a" * 4 + b"\0" + b"\x8a" * 3:
        stream = b"".join(edged(kind, first, run) for first in (1, 2, 63, 64, 65, 255, 256, 257, 300)
                          for run in range(first - 1, first + 4))
        case("filter --packed", stream, stdin=packed(stream))
        for most in 1, 10:
            in_sips("filter --packed", packed(stream), stream, 0, most)
        stream = edged(kind, 17_300, 17_100)
        case("filter --packed", stream, stdin=packed(stream))
        for most in 1, 3, 7, 8, 9:
            in_sips("filter --packed", packed(stream), stream, 0, most)


def many_messages():
    """300 messages, of which each second one is refused, at once and in sips."""
    stream = (word("0000000000000000") + framed("0000000001000000 2a00000000000000")) * 150
    text = "".join(f"message {2 * at}: refused NoRoot at 0:0 pointers 0\n"
                   f"message {2 * at + 1}: accepted charge 1 depth 1 pointers 1 caps 0\n" for at in range(150))
    case("vet", text, status=1, stdin=stream)
    for most in 1, 3, 7:
        in_sips("vet", stream, text, 1, most)
    for row in tables.AFTER_A_REFUSAL:
        in_sips(row.words, word(row.stream), row.out, row.status, 1)


def tagged_sips():
    """The packed streams and texts of the tables, a byte at a time."""
    for row in tables.PACKED_STREAMS:
        if not row.err:
            in_sips(row.words, word(row.stream), row.out, row.status, 1)
    for plain, text in tables.SPELLINGS:
        in_sips("unpack", word(text), word(plain), 0, 1)


long_runs()
cut_texts()
long_messages()
runs_about_edges()
many_messages()
tagged_sips()

# ------------------------------------------------------------------ paths, which are read before any input is opened
def bad_path(at):
    return f"capvet: bad path at {at}\n"


for path, at in tables.BAD_PATHS:
    for words in (["get", path], ["get", "--packed", path, "examples/missing.bin"]):
        case(words, err=bad_path(at), status=2, stdin=NULL)
case("get /p0", "message 0: none\n", stdin=NULL)
# Paths to the deepest node of a message of 64 levels, and of 10,000 steps.
CHAIN = word(tables.MOST_LEVELS)
case(["get", 63 * "/p0"], "message 0: found\nnode struct 0 0\n", stdin=CHAIN)
case(["get", 10000 * "/p0"], "message 0: none\n", stdin=CHAIN)
case(["get", 9999 * "/p0" + "/p65536"], err=bad_path(30003), status=2, stdin=CHAIN)
case("get examples/shared.bin /p0", err=bad_path(0), status=2, stdin=NULL)

# ------------------------------------------------------------------ files and devices
# The commands that write the system's reason after the line of a fault. The others write one line.
REASONED = ("explain", "filter")


def reason(command, text):
    """The line of the system's reason, where a command writes it."""
    return f"capvet: {text}\n" if command.split()[0] in REASONED else ""


def cannot_open(command, name):
    return f"capvet: cannot open {name}\n" + reason(command, "No such file or directory (os error 2)")


FAILED = "capvet: output failed\n"
LONG = NULL * 20000
for command in RUNS:
    case(f"{command} examples/missing.bin", err=cannot_open(command, "examples/missing.bin"), status=3, stdin=NULL)
    case(f"{command} -", err=cannot_open(command, "-"), status=3, stdin=NULL)
    device = "capvet: Device\n" if command.endswith("pack") else "capvet: message 0: Device\n"
    case(f"{command} examples", err=device + reason(command, "Is a directory (os error 21)"), status=3, stdin=NULL)
    not_blocking(command, device + reason(command, "Resource temporarily unavailable (os error 11)"))
with open("/dev/full", "wb") as full:
    for stdout in (full, closed_pipe()):
        for command in (*READERS, "pack"):
            case(command, err=FAILED, status=3, stdin=NULL, stdout=stdout)
            case(command, err=FAILED, status=3, stdin=LONG, stdout=stdout)
        case("unpack", err=FAILED, status=3, stdin=word("0000"), stdout=stdout)
        case("vet", err=FAILED, status=3, stdin=CYCLE, stdout=stdout)
        # The line of the first message is flushed before the rest of the second one is waited for. From a file both come.
        case("vet", err=FAILED, status=3, stdin=NULL + b"\0", stdout=stdout)
        cut = "capvet: message 1: Truncated at byte 17\n"
        compare("capvet vet of a file, with an output that fails", (b"", encoded(cut + FAILED), 3),
                of_file("vet", NULL + b"\0", stdout))
        case("vet", stdout=stdout)
        for words in ("help", "help vet", "--version"):
            case(words, err=FAILED, status=3, stdout=stdout)

# ------------------------------------------------------------------ faults at each byte, and out of memory
# The packed encoding of SHARED, and what each command writes for it.
SHARED_PACKED = word("1004400211040110010107")
SHARED_VET = "message 0: accepted charge 4 depth 2 pointers 3 caps 0\n"
SHARED_TEXTS = {
    "segments": segments_text(SHARED),
    "vet": SHARED_VET,
    "vet --exclusive": "message 0: refused Overlap at 0:2 pointers 3\n",
    "dump": dump_text(SHARED, SHARED_VET),
    "get /p1": get_text(SHARED, "/p1"),
    "check": "message 0: not canonical\n",
    "canon": framed("0000000000000200 0400000001000000 0400000001000000 0700000000000000 0700000000000000"),
    "hash": hashes_of(framed("0000000000000200 0400000001000000 0400000001000000 0700000000000000 0700000000000000")),
    "filter": SHARED,
}


def cut_inputs():
    """Each prefix of a message, plain and packed, through each command that reads messages, and after a whole one."""
    for command, text in SHARED_TEXTS.items():
        for option, stream in ("", SHARED), (" --packed", SHARED_PACKED):
            for size in range(1, len(stream)):
                cut = f"capvet: message 0: Truncated at byte {size}\n"
                case(command + option, err=cut, status=1, stdin=stream[:size])
            status = 1 if "refused" in str(text) or "not canonical" in str(text) else 0
            case(command + option, text, status=status, stdin=stream)
    for size in range(1, len(SHARED)):
        cut = f"capvet: message 1: Truncated at byte {len(SHARED) + size}\n"
        case("vet", SHARED_VET, cut, 1, SHARED + SHARED[:size])


def limit_files(size):
    """For a process that is about to start: its files take `size` bytes, and a write past that fails."""
    signal.signal(signal.SIGXFSZ, signal.SIG_IGN)
    resource.setrlimit(resource.RLIMIT_FSIZE, (size, size))


def short_outputs():
    """An output that takes a number of bytes and no more, for each number up to the whole text."""
    runs = [(command, SHARED, encoded(text)) for command, text in SHARED_TEXTS.items()]
    runs += [("pack", SHARED, SHARED_PACKED), ("unpack", SHARED_PACKED, SHARED)]
    # 1154 zero words and three others: more than one piece of words
    many = word("00ff00ff00ff00ff00810f010203040f010203040f01020304")
    runs += [("unpack", many, bytes(9232) + 3 * word("0102030400000000"))]
    for command, stream, text in runs:
        for size in (0, 1, 8191, 8192, 8193, 9255) if stream == many else range(len(text)):
            with tempfile.TemporaryFile() as out:
                _, err, status = outputs([PROGRAM, *command.split()], stream, stdout=out, preexec_fn=lambda: limit_files(size))
                out.seek(0)
                compare(f"capvet {command}, to a file that takes {size} bytes", (text[:size], FAILED.encode(), 3),
                        (out.read(), err, status))


def short_errors():
    """Standard error that takes a number of bytes of the lines and no more. The standard output and the status are the
    same."""
    cut = b"capvet: message 1: Truncated at byte 20\n"
    refused = b"".join(b"message %d: refused DepthLimit at 0:0 pointers 65\n" % at for at in (1, 3))
    for command, stream, text, lines in (("vet", NULL + bytes(4), encoded(NULL_ACCEPTED), cut),
                                         ("filter", (NULL + CYCLE) * 2 + NULL, NULL * 3, refused)):
        for size in range(len(lines)):
            with tempfile.TemporaryFile() as err:
                out, _, status = outputs([PROGRAM, command], stream, stderr=err, preexec_fn=lambda: limit_files(size))
                err.seek(0)
                compare(f"capvet {command}, with standard error that takes {size} bytes", (text, lines[:size], 1),
                        (out, err.read(), status))
    with open("/dev/full", "wb") as full:
        # (a directory is a device that fails)
        got = outputs([PROGRAM, "vet", "examples"], stderr=full)
        compare("capvet vet examples, with standard error that takes nothing", (b"", b"", 3), got)


def closing_pipe(command, text):
    """A pipe whose reader takes a number of bytes of a message's text and closes it, for each number, while the input
    stays open. The text of the next message fails."""
    piped = {"stdin": subprocess.PIPE, "stdout": subprocess.PIPE, "stderr": subprocess.PIPE}
    for size in range(len(text) + 1):
        with subprocess.Popen([PROGRAM, *command.split()], cwd=TOP, **piped) as ran:
            ran.stdin.write(SHARED)
            ran.stdin.flush()
            taken = b""
            while len(taken) < size and (part := os.read(ran.stdout.fileno(), size - len(taken))):
                taken += part
            ran.stdout.close()
            _, err = ran.communicate(SHARED, 60)
            compare(f"capvet {command}, to a pipe that is closed after {size} bytes",
                    (text[:size], FAILED.encode(), 3), (taken, err, ran.returncode))


def limit_memory(kibibytes):
    """For a process that is about to start: this much address space, as by `ulimit -v`."""
    resource.setrlimit(resource.RLIMIT_AS, (kibibytes << 10, kibibytes << 10))


def needs_memory(command, stream, *expected):
    """The ends of runs with more and more memory, from too little for a start until a run ends with status 0."""
    seen, is_plain = [], BUILD in outputs([PROGRAM, "--version"])[0]
    for kibibytes in range(1 << 10, 64 << 10, 16):
        got = outputs([PROGRAM, *command.split()], stream, preexec_fn=lambda: limit_memory(kibibytes))
        # (a signal may end the plain program where memory runs out before the input is read: docs/install.md)
        if is_plain and got[0] == b"" and got[2] == -signal.SIGABRT:
            got = b"", b"capvet: out of memory\n", 3
        # (at first the loader has too little memory for the program itself)
        started = got[2] in (0, 1, 2, 3)
        if started and got not in seen[-1:]:
            seen.append(got)
        if got[2] == 0:
            break
    compare(f"capvet {command}, with more and more memory", [(encoded(out), encoded(err), status) for out, err, status in expected],
            seen)


def expects():
    """A small message, and then one of 1 MiB, for which the memory is too little at first. In `canon` its copy is as
    large. `hash` makes none, since the message is canonical."""
    words = 1 << 17
    large = struct.pack("<IIII", 0, 1 + words, 1, 8 * words << 3 | 2) + bytes(8 * words)
    nothing = ("", "capvet: out of memory\n", 3)
    accepted = f"message 1: accepted charge {words} depth 1 pointers 1 caps 0\n"
    firsts = {
        "vet": NULL_ACCEPTED,
        "vet --exclusive": NULL_ACCEPTED,
        "dump": NULL_DUMP,
        "get /": NULL_FOUND,
        "check": "message 0: canonical\n",
        "canon": NULL, "filter": NULL,
        "hash": NULL_HASH,
    }
    seconds = {
        "vet": accepted,
        "vet --exclusive": accepted,
        "dump": accepted + f"root list 2 {8 * words}\n" + "".join(f"  w{i} {'0' * 16}\n" for i in range(words)),
        "get /": f"message 1: found\nnode list 2 {8 * words}\n" + "".join(f"  w{i} {'0' * 16}\n" for i in range(words)),
        "check": "message 1: canonical\n",
        "canon": large, "filter": large,
        "hash": hashes_of(NULL + large).removeprefix(NULL_HASH),
    }
    for command, first in firsts.items():
        second = (first, "capvet: message 1: Memory\n", 3)
        needs_memory(command, NULL + large, nothing, second, (encoded(first) + encoded(seconds[command]), "", 0))
    # These hold nothing of a message.
    needs_memory("segments", NULL + large, nothing, (segments_text(NULL + large), "", 0))
    zeros = word("00ff") * (words // 256)
    needs_memory("unpack", zeros, nothing, (bytes(8 * words), "", 0))
    needs_memory("pack", bytes(8 * words), nothing, (zeros, "", 0))


cut_inputs()
short_outputs()
short_errors()
for command, text in SHARED_TEXTS.items():
    closing_pipe(command, encoded(text))
expects()

# ------------------------------------------------------------------ command lines
case([b"vet", b"\xff"], err="capvet: argument 2 is not UTF-8; to read a file of such a name, use < FILE\n", status=2, stdin=NULL)
case([b"get", b"/", b"examples/\xffshared.bin", b"\xfe"], err="capvet: argument 3 is not UTF-8; to read a file of such a name, use < FILE\n", status=2, stdin=NULL)
case([b"vet", 100_000 * b"a" + b"\xff"], err="capvet: argument 2 is not UTF-8; to read a file of such a name, use < FILE\n", status=2, stdin=NULL)
# Sizes with units: `explain` shows the limit of a message that is too large.
for size, number in tables.SIZES:
    for option in ((f"--size={size}",), ("--size", size), ("--message-words", size), (f"--message-words={size}",)):
        _, err, _ = outputs([PROGRAM, "explain", *option], struct.pack("<II", 0, 0xffffffff))
        compare(f"{' '.join(option)} is {number} words", [f"  words 4294967295, limit {number}"],
                [line for line in err.decode().splitlines() if ", limit " in line])
    for option in ("--words", "--charge"):
        compare(f"{option} {size} is {number} words", outputs([PROGRAM, "vet", option, str(number), "examples/contacts.bin"]),
                outputs([PROGRAM, "vet", option, size, "examples/contacts.bin"]))
for words, text in tables.MISTAKES:
    mistake(words, text)
for words, beginning in tables.MISTAKE_BEGINNINGS:
    mistake_beginning(words, beginning)
for words, name in tables.NAMES:
    case(words, err=cannot_open(words, name), status=3, stdin=NULL)
for lines, text in HELPS:
    for words in lines:
        case(words, text)


def help_example(command, status):
    """The example at the end of a command's help, run as it is there. It shows standard error too."""
    help_text, _, _ = outputs([PROGRAM, "help", *command.split()])
    _, _, example = help_text.decode().partition("\nExample:\n  $ ")
    line, _, expected = example.partition("\n")
    expected = expected.replace("  ", "", 1).replace("\n  ", "\n")
    shell_case(f"{{ {line}; }} 2>&1" if line else f"no example in the help of '{command}'", expected, status)


for command in ("", *COMMANDS):
    # (those of `vet` and `explain` are a refused message)
    help_example(command, status=1 if command in ("vet", "explain") else 0)
# Where both outputs go to one place, a fault's line comes after the texts of the messages before it.
shell_case(
    "head -c 3200 examples/stream-of-four.bin | capvet vet 2>&1",
    CONTACTS + "capvet: message 1: Truncated at byte 3200\n",
    status=1,
)

sys.exit(ended())
