#!/usr/bin/env python3
"""Vets messages before Cap'n Proto's own C++ library and the Rust crate `capnp` read them, by include/capvet/kj.h and
by rust/capvet-capnp.

    before_readers.py PROGRAM ARCHIVE [--full]

Many messages of fixed seeds are changed and vetted in process: 1,000, or 5,000 with --full. A refused one has to
have the line of `capvet vet --strict --unamplified`. An accepted one is read under no more than the limits that it needs,
and no reading may fail. The readers have to find the bytes, the pointers and the capabilities of the model in
tests/readers/readers.py. Of as many messages, and of as many in which pointers overlap, C++ has to say what `capvet check` and
`capvet explain --exclusive` say. Peers, callers and callbacks of the streams misbehave too (tests/readers/faults.cpp).
The server of examples/cpp goes on while nobody reads its lines.

tests/readers/faulty.cpp has what may not compile: bytes that are taken for vetted ones, verdicts that nobody looks at, streams without
a clock, and copies of what is borrowed. The service that docs/cpp.md begins with doesn't compile, or gives a warning, without any of its lines.

As many changed messages of RPC are also sent to a server over `VettingStream`, on loopback, each on a connection of its
own. Each has to be refused or accepted as the program does. No exception may come from reading pointers or from limits,
and a client has to get the same results afterwards. Calls have the same results with vetting and without.

All of it runs again with the checks of memory that clang has, or else gcc, with a tenth of the messages. With --full it
runs with the checks of both, and valgrind counts the instructions of calls, with vetting and without. What isn't installed
is said in a line of its own. The last line is 'N passed, M failed', and the status is 1 if a case failed.
"""
import functools
import itertools
import json
import os
import random
import re
import resource
import shutil
import socket
import struct
import subprocess
import sys
import tempfile
from collections import Counter
from pathlib import Path

sys.path[1:1] = map(str, Path(__file__).resolve().parents[1].iterdir())

import cargo
import explain
import made
import model
import needs
import readers
import trees
from amount import IS_FULL, cases
from harness import ARCHIVE, PROGRAM, TOP, compare, differ, ended, framed, instructions, outputs, run
from install import make
from library import tidy
from needs import missing
from paths import walked
from readers import Tree
from socat_proxy import SECONDS, until

CPP = TOP / "examples/cpp"
STRICT = ("-std=c++17", "-Wall", "-Wextra", "-Wpedantic", "-Wconversion", "-Werror")
CHECKED = ("-O0", "-g", "-fsanitize=address,undefined", "-fno-sanitize-recover=all")
# (from clang 15 on the check is on by default, and KJ's callbacks of exceptions compare addresses of two frames)
os.environ.setdefault("ASAN_OPTIONS", "detect_stack_use_after_return=0")
CARGO = ("--offline", "--quiet")
MANY = cases(1_000, full=5_000)  # changed messages, and as many connections
# The most instructions of a call to a server with vetting, as a part of those without, for each kind of call: over the proved library
# and libcapnp 0.9. (with `paced`, of which a small call takes 0.023, and waits that can be canceled)
MOST = {"with": {"small": 1.05, "list": 1.15}, "served": {"small": 1.05, "list": 1.15}, "bytes": {"small": 1.13, "list": 1.15}}
# How much more it may be over the library by cargo. Vetting takes 130 to 160 instructions a struct of the list there, as the version of
# Rust is, and 112 in the proved library: rustc checks each place in a message.
BY_CARGO = {"list": 0.03}
# How much more it may be over libcapnp from 1.0 on. With 1.1.0 a small call without vetting takes 0.67 of the instructions that it takes
# with 0.9.2, so what vetting adds is a larger part. A large message from a stream of bytes is copied once more, and valgrind counts each
# byte of such a copy as an instruction.
LATER = {"with": {"small": 0.02}, "served": {"small": 0.02}, "bytes": {"list": 0.05}}
# The seconds for a message that the example's server gives its peers here: only a hang takes longer.
PATIENCE = 600
UNREAD_LINES = 2_000  # lines of the example's server that nobody reads
# How many of the frames of valid calls come before a changed message.
VALID = 9
CALLED = """\
40.5 + 1.5 = 42
counted 7 and 8
received 10000 rows, stored 10000
failed: remote exception: this call always fails
"""
PROGRAMS = ("rpc_server", "rpc_client", "vetted", "faults", "rpc", "server")
# What tests/readers/rpc.cpp prints of each stream that reads file descriptors. Its limits are at least those that are
# asked for, mostly 10 words and 3 levels. A frame that is not accepted is libcapnp's where it reads the stream.
REFUSED = "  onEnded {0}\n" + 3 * "  {0}; 0 open\n"
FAILED = "  {0}; 2 open\n" + 2 * "  {0}; 0 open\n"
READ = "  {}; 2 open\n  0 words, 0 files, limits {}; 0 open\n  ended; 0 open\n"
STREAMS = {
    "null": READ.format("0 words, 2 files, limits 10 and 3", "10 and 3"),
    "default limits": READ.format("0 words, 2 files, limits 8388608 and 64", "8388608 and 64"),
    "default limits, two segments": READ.format("2 words, 2 files, limits 8388608 and 64", "8388608 and 64"),
    "default limits, two levels": READ.format("2 words, 2 files, limits 8388608 and 5", "8388608 and 4"),
    "two levels": READ.format("2 words, 2 files, limits 10 and 5", "10 and 3"),
    "two levels, four readings": READ.format("2 words, 2 files, limits 32 and 5", "10 and 3"),
    "two levels, exclusive": READ.format("2 words, 2 files, limits 10 and 5", "10 and 3"),
    "an overlap": REFUSED.format("refused Overlap at 0:2 pointers 3"),
    "cycle": REFUSED.format("refused DepthLimit at 0:0 pointers 65"),
    "one empty segment": REFUSED.format("refused NoRoot at 0:0 pointers 0"),
    "empty segments": REFUSED.format("refused NoRoot at 0:0 pointers 0"),
    "an empty first segment": REFUSED.format("refused NoRoot at 0:0 pointers 0"),
    "too large": REFUSED.format("refused TooLarge 100"),
    "511 segments": READ.format("0 words, 2 files, limits 511 and 3", "10 and 3"),
    "512 segments": REFUSED.format("refused ManySegments at 0:0 pointers 0"),
}
AROUND = {
    "too large": FAILED.format(
        "expected totalWords <= getOptions().traversalLimitInWords [100 <= 50]; Message is too large.  "
        "To increase the limit on the receiving end, see capnp::ReaderOptions."),
    "512 segments": FAILED.format("expected segmentCount() < 512 [512 < 512]; Message has too many segments."),
}
# The text of libcapnp 1.5.0 for the last one, and that of 0.9.2 and 1.1.0.
LATER_TEXT = "firstWord[0].get() < 511 [511 < 511]", "segmentCount() < 512 [512 < 512]"
# The same of messages that end too early, and of those that fit into the space that is passed.
HEAD = "  from 0 bytes on: 2 words; then ended; then ended;\n"
PARTS_AROUND = HEAD + """\
  from 1 bytes on: 2 words; then disconnected: Premature EOF.; then disconnected: Premature EOF.;
  from 8 bytes on: 2 words; then {0}; then {0};
""".format("disconnected: stream disconnected prematurely")
SPACE = "  1 words there; 4 words there; 5 words {0}; 4 words {0};\n"
# What tests/readers/faults.cpp prints of each case, for each kind of stream.
CYCLE, LATE = "refused DepthLimit at 0:0 pointers 65", "refused Truncated {}, late"
LOST = "capvet: a read was canceled inside a message, so the next one is lost; "


def after_message(text, length):
    """The line of a stream that ends with a refusal, after a message."""
    return f"0 words; {text}; {text};  [{text}, message 1 at 16, {length} bytes]"


FAULTS = {
    "a circle": after_message(CYCLE, 16),
    "2^32 segments": after_message("refused TooManySegments 4294967296", 8),
    "too large": after_message("refused TooLarge 2147483647", 8),
    "cut in the head": after_message("refused Truncated 8, cut", 3),
    "cut in the table": after_message("refused Truncated 24, cut", 16),
    "cut in a segment": after_message("refused Truncated 32, cut", 24),
    "a large circle": after_message(CYCLE, 24008),
    "a circle after a large message": f"0 words; 0 words; {CYCLE};  [{CYCLE}, message 2 at 24024, 16 bytes]",
    "a large message, cut": after_message("refused Truncated 24008, cut", 20001),
    "files": f"2 given, 2 open; 0 given, 0 open;  [{CYCLE}, message 1 at 16, 24008 bytes]",
    "the end": "0 words; end; end; ",
    "shared objects": "0 words; 4 words; 4 words; ",
    "shared objects, exclusive": "0 words; {0}; {0}; {0};   path /p1".format("refused Overlap at 0:2 pointers 3"),
    "a callback that throws": f"{CYCLE}; {CYCLE}; ",
    "a callback with a name": f"{CYCLE}; 8 of {CYCLE}",
    "a refusal that is kept": f"{CYCLE}, message 2 at 32, path of {3 * 64} letters, the bytes",
    "a callback that drops the stream": f"{CYCLE}; {CYCLE}, 0 letters of a peer",
    "limits": "throws; throws; throws; valid; ",
    "canceled reads": f"0 words; {LOST}{LOST}",
    "late in the head": after_message(LATE.format(8), 3),
    "late in a large message": after_message(LATE.format(65544), 30000),
    "slow": "0 words",
    "idle": "0 words; dropped, idle; dropped, idle;  [dropped, idle]",
    "busy": "0 words; waits; dropped, idle, in time",
    "idle, a callback that drops the stream": "dropped, idle; dropped, idle",
    "unread": "dropped, unread; dropped, unread; end; dropped, unread; [dropped, unread]",
    "unread after a circle": f"{CYCLE}; dropped, unread; dropped, unread; {CYCLE}; [{CYCLE}, message 0 at 0, 16 bytes]",
    "unread, a callback that drops the stream": "dropped, unread; dropped, unread",
    "paced": "0 words; waits; 0 words",
    "paced, a late write": "0 words; 0 words; waits; waits; 0 words; 0 words",
    "mixed": "1200 messages",
}
ALONE = ("bytes alone: the same", "bytes in pieces of 1000: the same", "bytes in pieces of 30000: the same",
         "idle, in memory: dropped, idle; dropped, idle", "limits, server: throws",
         "a /64: yes yes no no 2 turned away", "other networks: yes yes yes no 1 turned away",
         "mapped addresses: yes yes no yes 1 turned away", "other sockets: yes yes yes 0 turned away")
# What tests/readers/server.cpp prints.
SERVED = """\
a factory: 1, 2, 3; 3 made
a factory that fails: not made; 2
traces: [][a trace of 'this call fails']
files: no file; a file; 
files of a listener: a file
connections without files: capvet: this connection can't pass file descriptors; 1 failed, 0 bytes to the peer
calls before a refused message: return 0; return 1; return 3; abort: refused DepthLimit at 0:0 pointers 65; end
"""
# What the headers have for users. All else is in `detail`.
PUBLIC = {"Cause", "Counters", "Difference", "Ended", "OnEnded", "Options", "Refusal", "Server", "ServerOptions", "StreamOptions", "Vetted",
          "VettingCapabilityStream", "VettingIoStream", "VettingStream", "detail", "exceptionOf", "operator", "readerOptions", "tryVetted",
          "tryVettedPrefix", "vetted", "vettedPrefix"}
# A line of a service.
NEEDED = re.compile(r"^  .*;\n", re.M)
# A later KJ, as far as the headers can notice: KJ_IF_SOME in place of KJ_IF_MAYBE, and no Maybe of a null pointer.
LATER_KJ = """\
#include <capnp/rpc-twoparty.h>
#include <kj/async-io.h>
#include <kj/debug.h>
#include <kj/timer.h>
#undef KJ_IF_MAYBE
#define KJ_IF_SOME(name, maybe) if (auto found = ::kj::_::readMaybe(maybe)) if (auto &name = *found; true)
#include <capvet/kj-server.h>
"""


def flags(environment, package="capvet-kj"):
    return run(["pkg-config", "--cflags", "--libs", package], env=environment)[0].split()


def refusals(messages, folder, *options):
    """As `explained`, of messages that have to be strict and unamplified."""
    return explained(messages, folder, "--strict", "--unamplified", *options)


def explained(messages, folder, *options):
    """For each message the text of its refusal by the program, with the path to the pointer if there is one, or 'accepted'."""
    (folder / "stream").write_bytes(b"".join(messages))
    texts = re.findall(r"^message \d+: (.*)", run([PROGRAM, "explain", *options, folder / "stream"])[0], re.M)
    # (the lines shorten a long path, and the objects have it whole)
    objects = map(json.loads, run([PROGRAM, "explain", "--json", *options, folder / "stream"])[0].splitlines())
    paths = [f" path {it['path']}" if it["verdict"] == "refused" and "path" in it else "" for it in objects]
    return ["accepted" if text.startswith("accepted") else text + path for text, path in zip(texts, paths)]


def changed(bases, count, seed):
    """Changed messages, most of them of few segments."""
    chance = random.Random(seed)
    return [readers.changed(chance.choice(bases), chance) for _ in range(count)]


def with_lengths(messages, path):
    path.write_bytes(b"".join(struct.pack("<I", len(message)) + message for message in messages))
    return path


def samples():
    files = [path for path in sorted((TOP / "examples").glob("*.bin")) if path.name != "cycle.bin"]
    trees_of = [Tree(message) for path in files for message in trees.messages(path.read_bytes())]
    return [tree for tree in trees_of if sum(map(len, tree.segments)) < 130] * 2 + trees_of


def vetted(name, command, count, folder):
    """Changed messages through `vetted` or `reader`: the text of the refusal, or what the model finds."""
    found = Counter()
    for batch in range(0, count, 20_000):
        segments = changed(samples(), min(20_000, count - batch), batch)
        messages = [framed(*it) for it in segments]
        expected = refusals(messages, folder, "--words", 65536)
        for number, (text, it) in enumerate(zip(expected, segments)):
            if text == "accepted":
                tree = Tree(it)
                expected[number] = f"sum {tree.sum} pointers {len(tree.places)} caps {tree.caps}"
        found.update(text.split()[0] for text in expected)
        got, status = run([*command, with_lengths(messages, folder / "messages")])
        compare(f"{name}, status", 0, status)
        differ(f"{name}, messages from {batch}", expected, got.splitlines())
    compare(f"{name}, refuses some and accepts some", True, 10 * min(found.values()) > count)
    print(f"{name}: {found['sum']} accepted and read, {found['refused']} refused")


def form_of(said, frame):
    """What is said of an accepted message: that it is canonical, or its first difference, as tests/shared/model.py has it."""
    if said == "canonical":
        return "canonical\n"
    message, _ = model.unframed(frame, model.Limits())
    reason, segment, word, number = model.difference(message, model.vetted(message, 65536, 64))
    path = None if reason in ("Segments", "Trailing") else next(itertools.islice(walked(message, 64), number - 1, None))[1]
    text = "" if path is None else "".join(f"/{'pi'[kind]}{step}" for kind, step in path) or "/"
    return f"not canonical: {reason} at {segment}:{word} pointers {number} path {text}\n"


def said(name, program, count, folder):
    """Changed messages and overlaps through `vetted lines`: what the program says of them by `check`, or by `explain --exclusive`. Of
    those that aren't canonical it says the first difference, as the model does."""
    chance, found = random.Random("said"), Counter()
    messages = [framed(*it) for it in changed(samples(), count, 3)] + [made.shared(chance) for _ in range(count)]
    messages += [framed(path.read_bytes()) for path in (TOP / "examples/canonical").iterdir()]
    options = ("--strict", "--unamplified", "--words", 65536, folder / "stream")
    (folder / "stream").write_bytes(b"".join(messages))
    checked = run([PROGRAM, "check", *options])[0].splitlines()
    expected = []
    explained = explain.of_libraries(run([PROGRAM, "explain", "--exclusive", *options])[0])
    for frame, (verdict, lines), form in zip(messages, explained, checked):
        is_accepted, form = verdict.startswith("accepted"), form.partition(": ")[2]
        expected.append(form_of(form, frame) if is_accepted else f"{verdict}\n{lines}")
        found[form if is_accepted else " ".join(verdict.split()[:2])] += 1
    got, status = run([program, "lines", with_lengths(messages, folder / "messages")])
    compare(f"{name}, status", 0, status)
    compare(f"{name}, messages", len(messages), len(expected))
    differ(name, "".join(expected).splitlines(), got.splitlines())
    few = {it: number for it in ("canonical", "not canonical", "refused Overlap") if (number := found[it]) < 3}
    compare(f"{name}, each of these three times", {}, few)
    print(f"{name}: {found['refused Overlap']} overlaps among {len(messages)} messages, {found['canonical']} canonical")


def attacked(name, program, count, folder):
    """Changed messages of RPC to a server on loopback."""
    record = subprocess.run([program, "record"], capture_output=True, timeout=600).stdout
    frames = [framed(*message) for message in trees.messages(record)]
    compare(f"{name}, frames of valid calls", True, len(frames) > VALID)
    (folder / "valid").write_bytes(b"".join(frames[:VALID]))
    same = run([program, "same"])[0].splitlines()
    compare(f"{name}, servers", ["without", "with", "around", "bytes", "served"], [line.partition(":")[0] for line in same])
    compare(f"{name}, the same results", 1, len({line.partition(":")[2] for line in same}))
    segments = changed([Tree(message) for message in trees.messages(record)], count, 7)
    messages = [framed(*it) for it in segments]
    expected = refusals(messages, folder)
    for number, it in enumerate(segments):
        # (libcapnp reads every fourth one by itself)
        if number % 4 == 1 and len(it) > 511:
            expected[number] = "not read"
    text, status = run([program, "attack", with_lengths(messages, folder / "messages"), folder / "valid"])
    lines = text.splitlines()
    compare(f"{name}, status", 0, status)
    compare(f"{name}, exceptions from pointers or limits", [], [line for line in lines if line.startswith("threw")][:3])
    differ(f"{name}, verdicts", expected, [line for line in lines if re.match("refused|accepted|not read", line)])
    compare(f"{name}, a client afterwards", same[1], lines[-1] if lines else "")
    counts = Counter(it.split()[0] for it in expected)
    compare(f"{name}, refuses some and accepts some", True, 10 * min(counts["refused"], counts["accepted"]) > count)
    print(f"{name}: {dict(counts)}; " + ", ".join(line for line in lines if line.startswith("exceptions")))


def cuts(*stages):
    """What is printed of a message that ends too early: from each length on, what was required at least."""
    text = HEAD
    for start, end, least in stages:
        reported = f"disconnected: refused Truncated {least}, cut"
        line = f"  onEnded refused Truncated {least}, cut\n"
        text += line + f"  from {start} bytes on: 2 words; then {reported}; then {reported};\n" + line * (end - start - 1)
    return text


def expected_of_streams():
    """What is printed of each stream, by the line before."""
    expected = {}
    for part, read in STREAMS.items():
        read, around = (text + "  the same buffer: 1\n  left open: 0\n" for text in (read, AROUND.get(part, read)))
        not_read = read.replace("2 files", "0 files").replace("2 open", "0 open")
        expected |= {f"{part}, files read": read, f"{part}, files not read": not_read, f"{part}, around": around}
    for kind in ("files read", "files not read"):
        expected[f"one segment in parts, {kind}"] = cuts((1, 8, 8), (8, 32, 32))
        expected[f"two segments in parts, {kind}"] = cuts((1, 8, 8), (8, 16, 16), (16, 48, 48))
        expected[f"scratch space, {kind}"] = SPACE.format("elsewhere")
    expected |= {"one segment in parts, around": PARTS_AROUND, "two segments in parts, around": PARTS_AROUND,
               "scratch space, around": SPACE.format("there")}
    return expected


def streams(name, program):
    text, status = run([program, "streams"])
    text = text.replace(*LATER_TEXT)
    compare(f"{name}, status", 0, status)
    for part, expected in expected_of_streams().items():
        got = re.search(rf"^{part}\n((?:  .*\n)*)", text, re.M)
        compare(f"{name}, {part}", expected, got and got[1])


@functools.cache
def is_by_cargo():
    """Whether cargo has built the archive: only then a crate of this name is in it."""
    return "capvet_core" in run(["nm", ARCHIVE])[0]


@functools.cache
def is_later():
    """Whether this is libcapnp 1.0 or later."""
    return not run(["pkg-config", "--modversion", "capnp"])[0].startswith("0.")


def most_of(server, kind):
    """The most instructions of a call, as a part of those without vetting."""
    return MOST[server][kind] + is_by_cargo() * BY_CARGO.get(kind, 0) + is_later() * LATER[server].get(kind, 0)


def cost(program):
    """A call to a server with vetting and deadlines takes few instructions more than to one without, or fewer."""
    if missing("the cost of vetting in RPC", "valgrind"):
        return
    for kind, few, more in (("small", 300, 800), ("list", 2, 5)):
        costs = {}
        for server in ("without", "with", "bytes", "served", "around"):
            counts = [instructions([program, "calls", server, kind, str(calls)]) for calls in (few, more)]
            costs[server] = (counts[1] - counts[0]) / (more - few)
        ratios = {server: costs[server] / max(costs["without"], 1) for server in costs}
        for server in MOST:
            most = most_of(server, kind)
            name = f"a {kind} call of '{server}' takes at most {most:.2f} of the instructions: {ratios[server]:.4f}"
            compare(name, True, 0.9 < ratios[server] <= most)
        print(f"rpc: a {kind} call takes of the instructions without vetting: "
              + ", ".join(f"{server} {ratio:.4f}" for server, ratio in ratios.items()))


def faults(name, command):
    """Streams whose peers, callers and callbacks misbehave."""
    ran = subprocess.run([str(it) for it in command], capture_output=True, text=True, timeout=3600)
    expected = [f"{part}, {kind}: {line}" for part, line in FAULTS.items() for kind in ("messages", "bytes", "bytes and files")]
    # (a stream of bytes alone has no files)
    expected = [line.replace("2 given, 2 open", "0 given, 0 open") if line.startswith("files, bytes:") else line for line in expected]
    compare(f"{name}, status", 0, ran.returncode)
    differ(name, [*expected, *ALONE], ran.stdout.splitlines())
    compare(f"{name}, exceptions of callbacks are logged", 3, ran.stderr.count("onEnded threw"))


class Example:
    """The example's server, with the lines that it prints, in a process that may have few descriptors."""

    def __init__(self, folder, descriptors=1024):
        self.folder, self.path = folder, folder / "lines"
        limits = (descriptors, resource.getrlimit(resource.RLIMIT_NOFILE)[1])
        with open(self.path, "w") as lines, open(folder / "errors", "w") as errors:
            self.process = subprocess.Popen([folder / "rpc_server", "127.0.0.1:0", str(PATIENCE)], stdout=lines, stderr=errors,
                                            stdin=subprocess.DEVNULL,
                                            preexec_fn=lambda: resource.setrlimit(resource.RLIMIT_NOFILE, limits))
        until(lambda: self.path.read_text().endswith("\n"))
        self.port = int(self.path.read_text().split()[0])
        self.files = self.open_files()

    def __enter__(self):
        return self

    def __exit__(self, *_):
        self.process.kill()
        self.process.wait()

    def connect(self):
        return socket.create_connection(("127.0.0.1", self.port), timeout=SECONDS)

    def call(self, name):
        """The example's client gets its results."""
        compare(name, (CALLED, 0), run([self.folder / "rpc_client", f"127.0.0.1:{self.port}"], SECONDS))

    def open_files(self):
        return len(os.listdir(f"/proc/{self.process.pid}/fd"))

    def forgets(self, peers):
        """Whether it closes the connections of peers that end them."""
        for peer in peers:
            peer.close()
        return until(lambda: self.open_files() <= self.files)

    def lines(self, count):
        """Its lines, once there are so many."""
        until(lambda: self.path.read_text().count("\n") > count)
        return self.path.read_text().splitlines()[1:]

    def says(self, text):
        """Whether it says something on its standard error."""
        return until(lambda: text in (self.folder / "errors").read_text())


def example(folder):
    """The example's client gets its results from the example's server, and a peer ends its own connection alone."""
    with Example(folder) as server:
        server.call("rpc_client")
        with server.connect() as peer:
            address = "%s:%d" % peer.getsockname()
            peer.sendall((TOP / "examples/cycle.bin").read_bytes())
            reported = b"".join(iter(lambda: peer.recv(4096), b""))
        line = "refused DepthLimit at 0:0 pointers 33"
        compare("the reason that the peer gets", True, line.encode() in reported)
        with server.connect() as peer:
            other = "%s:%d" % peer.getsockname()
            peer.sendall(bytes(5))
        server.call("rpc_client, after a refused message")
        compare("the lines of rpc_server", [f"{address} {line} path {'/p0' * 32}", f"{other} refused Truncated 8, cut"],
                server.lines(2))
        text, status = run([folder / "rpc_server", f"127.0.0.1:{server.port}"], SECONDS)
        compare("an address in use", (True, 3), ("Address already in use" in text, status))
    with Example(folder, descriptors=40) as server:
        peers = [server.connect() for _ in range(60)]
        compare("the lack of descriptors is said", True, server.says("Too many open files"))
        compare("connections are closed after a lack of descriptors", True, server.forgets(peers))
        server.call("rpc_client, after a lack of descriptors")
    with Example(folder) as server:
        peers = [server.connect() for _ in range(110)]
        ended = [peer for peer in peers[100:] if peer.recv(1) == b""]
        compare("connections above the limit of an address", 10, len(ended))
        compare("connections are closed, also those above the limit", True, server.forgets(peers))
        server.call("rpc_client, after too many connections")


def ended_by_server(port, data):
    """Whether the server at a port ends a connection after these bytes."""
    with socket.create_connection(("127.0.0.1", port), timeout=SECONDS) as peer:
        try:
            peer.sendall(data)
            while peer.recv(4096):
                pass
        except TimeoutError:
            return False
        except OSError:
            pass
        return True


def unread_lines(folder):
    """The example's server goes on while nobody reads its lines, and says how many it has dropped. It goes on without a reader
    too."""
    pipe, cycle = subprocess.PIPE, (TOP / "examples/cycle.bin").read_bytes()
    words = [folder / "rpc_server", "127.0.0.1:0", str(PATIENCE)]
    with subprocess.Popen(words, stdout=pipe, stderr=pipe, stdin=subprocess.DEVNULL, text=True) as server:
        port = int(server.stdout.readline())
        client = ["timeout", str(SECONDS), folder / "rpc_client", f"127.0.0.1:{port}"]
        ended_ones = list(itertools.takewhile(bool, (ended_by_server(port, cycle) for _ in range(UNREAD_LINES))))
        compare("refused messages while lines are unread", UNREAD_LINES, len(ended_ones))
        if len(ended_ones) == UNREAD_LINES:
            compare("rpc_client, while lines are unread", (CALLED, 0), run(client))
            # (a pipe is full with fewer lines)
            read = [server.stdout.readline() for _ in range(UNREAD_LINES // 10)]
            compare("a refused message when lines are read", True, ended_by_server(port, cycle))
            while (line := server.stdout.readline()) and "dropped" not in line:
                read.append(line)
            dropped = re.fullmatch(r"(\d+) lines were dropped\n", line)
            compare("lines that were read and dropped", UNREAD_LINES, len(read) + int(dropped[1] if dropped else 0))
            are_whole = all("refused DepthLimit" in it for it in read)
            compare("lines that were read are whole", (True, True), (are_whole, len(read) > UNREAD_LINES // 10))
            server.stdout.close()
            server.stderr.close()
            compare("refused messages without a reader", [True] * 10, [ended_by_server(port, cycle) for _ in range(10)])
            compare("rpc_client, without a reader of lines", (CALLED, 0), run(client))
        server.kill()


def coroutines(folder, link):
    """The example with coroutines sends messages back, and a refused one ends its connection. (Debian builds libcapnp
    1.1.0 without coroutines)"""
    (folder / "probe.cpp").write_text("#include <kj/async.h>\n#if !KJ_HAS_COROUTINE\n#error none\n#endif\n")
    for compiler in filter(shutil.which, ("c++", "clang++")):
        if run([compiler, "-std=c++20", "-fsyntax-only", link[0], folder / "probe.cpp"])[1] != 0:
            print(f"the example with coroutines, by {compiler}: it or its KJ has none")
            continue
        program = folder / f"coroutine-{compiler}"
        made = run([compiler, *STRICT, "-std=c++20", "-O1", folder / "coroutine.cpp", *link, "-o", program])
        if fault := re.search("internal compiler error|undefined reference to `kj::_::CoroutineBase", made[0]):
            print(f"the example with coroutines, by {compiler}: {fault[0]}")
            continue
        compare(f"{compiler} coroutine.cpp", ("", 0), made)
        if not made[1]:
            echoed(folder, program)


def echoed(folder, program):
    """What the example with coroutines sends back."""
    sent = b"".join((TOP / f"examples/{name}.bin").read_bytes() for name in ("contacts", "stream-of-four", "contacts-many-segments"))
    pipe, words = subprocess.PIPE, [program, "127.0.0.1:0"]
    with subprocess.Popen(words, stdout=pipe, stderr=pipe, stdin=subprocess.DEVNULL, text=True) as server:
        port = int(server.stdout.readline())
        for data, is_whole in ((sent, True), (sent + (TOP / "examples/cycle.bin").read_bytes() + sent, False), (sent, True)):
            with socket.create_connection(("127.0.0.1", port), timeout=SECONDS) as peer:
                got = b""
                try:
                    peer.sendall(data)
                    peer.shutdown(socket.SHUT_WR)
                    while part := peer.recv(65536):
                        got += part
                except OSError:
                    pass
            if is_whole:
                canonical = [outputs([PROGRAM, "canon"], text)[::2] for text in (sent, got)]
                compare(f"{program.name}, messages that are sent back", *canonical)
        server.kill()
        compare(f"{program.name}, the refusal", "refused DepthLimit at 0:0 pointers 65\n", server.stderr.read())


# What projects for CMake look for, in order, and what makes CMake fail. The package of libcapnp that Autotools install can't be
# loaded twice.
FOUND_BY_CMAKE = {
    "capvet": (("capvet",), None),
    "libcapnp, then capvet": (("CapnProto", "capvet"), None),
    "capvet twice": (("capvet", "capvet"), None),
    "capvet, then libcapnp": (("capvet", "CapnProto"), "another target with the same name already exists"),
}
FIND = {"capvet": "find_package(capvet 2.0 REQUIRED COMPONENTS kj)\n", "CapnProto": "find_package(CapnProto REQUIRED)\n"}
WITHOUT_C = "libatomic not found"
PROJECT = """cmake_minimum_required(VERSION {least})
project(test {languages})
{found}if(TARGET capvet::kj)
  find_package(capvet 3.0 QUIET)
  if(capvet_FOUND)
    message(FATAL_ERROR "another major version is compatible")
  endif()
  include_directories(${{CMAKE_CURRENT_BINARY_DIR}})
  capnp_generate_cpp(sources headers calculator.capnp)
  add_executable(rpc_client rpc_client.cpp ${{sources}})
  target_link_libraries(rpc_client capvet::kj)
endif()
"""


def by_cmake(folder, prefix):
    """The package for CMake is found with that of libcapnp, and its target builds the example."""
    if missing("the package for CMake", "cmake"):
        return
    # (the package also serves a project that asks for an older CMake than it uses. CMake 4 serves none from before 3.5)
    least = "3.0" if re.search(r"cmake version [23]\.", run(["cmake", "--version"])[0]) else "3.5"
    project = folder / "project"
    project.mkdir()
    for name in ("rpc_client.cpp", "calculator.capnp", "calculator.h"):
        shutil.copy(folder / name, project)

    def configured(languages, packages):
        shutil.rmtree(project / "build", ignore_errors=True)
        text = PROJECT.format(least=least, languages=languages, found="".join(FIND[it] for it in packages))
        (project / "CMakeLists.txt").write_text(text)
        return run(["cmake", "-S", project, "-B", project / "build", f"-DCMAKE_PREFIX_PATH={prefix}"])

    # (up to libcapnp 1.1.0 its package looks for a library by a compiler for C)
    text, _ = configured("CXX", ["CapnProto"])
    needs_c = WITHOUT_C in text
    for order, (packages, error) in FOUND_BY_CMAKE.items():
        for languages in ("C CXX", "CXX"):
            expected = WITHOUT_C if needs_c and languages == "CXX" else error
            text, status = configured(languages, packages)
            compare(f"cmake, {languages}: {order}", (expected is not None, ""),
                    (status != 0, "" if (expected in text if expected else status == 0) else text))
    configured("C CXX", ["CapnProto", "capvet"])
    built = run(["cmake", "--build", project / "build"])
    compare("cmake --build", (0, ""), (built[1], built[0] if built[1] else ""))


def has_checks(compiler):
    """Whether a compiler is there, with its libraries for checks of memory."""
    checks = {"c++": "checks-gcc", "clang++": "checks-clang"}[compiler]
    return not missing(f"messages before libcapnp, with the checks of memory of {compiler}", compiler, checks)


def checkers():
    """The compilers with checks of memory. Without --full it is the first one, which is also the faster one."""
    found = (compiler for compiler in ("clang++", "c++") if has_checks(compiler))
    return list(found) if IS_FULL else list(found)[:1]


def headers(folder, link):
    """The headers compile without a warning, also about names that hide others, and as with a later KJ. With --full each
    compiles by itself."""
    later, place = folder / "later", run(["pkg-config", "--variable=includedir", "capnp"])[0].strip()
    for part in ("kj", "capnp"):
        shutil.copytree(Path(place) / part, later / part)
    common = later / "kj/common.h"
    text = common.read_text()
    compare("kj/common.h makes a Maybe from a null pointer", True, " Maybe(decltype(nullptr))" in text)
    common.write_text(re.sub(r"^.*\bMaybe\(decltype\(nullptr\)\)", r"[[deprecated]] \g<0>", text, flags=re.M))
    (folder / "later.cpp").write_text(LATER_KJ)
    for compiler in ("c++", "clang++"):
        if missing(f"the headers by {compiler}", compiler):
            continue
        # (the header of the server has all others)
        for name in sorted(path.name for path in (TOP / "include/capvet").iterdir()) if IS_FULL else ["kj-server.h"]:
            (folder / "alone.cpp").write_text(f"#include <capvet/{name}>\n")
            command = [compiler, *STRICT, "-Wshadow", "-fsyntax-only", link[0], folder / "alone.cpp"]
            compare(f"{compiler} {name}", ("", 0), run(command))
        command = [compiler, *STRICT, "-fsyntax-only", "-isystem", later, link[0], folder / "later.cpp"]
        compare(f"{compiler}, as a later KJ", ("", 0), run(command))


def faulty(link):
    """What may not compile: each marked line has an error with the words of its mark, and no other line has one."""
    source = TOP / "tests/readers/faulty.cpp"
    marks = {number: mark[1] for number, line in enumerate(source.read_text().splitlines(), 1) if (mark := re.search("// error: (.*)", line))}
    compare("faulty.cpp has marks", True, len(marks) > 20)
    for compiler, all_errors in (("c++", "-fmax-errors=0"), ("clang++", "-ferror-limit=0")):
        if missing(f"faulty.cpp by {compiler}", compiler):
            continue
        text, _ = run([compiler, "-std=c++17", "-Werror=unused-result", all_errors, "-fsyntax-only", link[0], source])
        found = {}
        for number, said in re.findall(r"faulty\.cpp:(\d+):\d+: error: (.*)", text):
            found.setdefault(int(number), []).append(said)
        compare(f"{compiler} faulty.cpp, lines with errors", sorted(marks), sorted(found))
        for number, mark in marks.items():
            said = found.get(number, [])
            compare(f"{compiler} faulty.cpp:{number}: {mark}", [], [] if any(re.search(mark, it) for it in said) else said or ["compiles"])


def service(folder, link):
    """The service that docs/cpp.md begins with compiles without a warning, and so not without any of its lines. (clang
    takes the least time)"""
    text = re.search(r"^```cpp\n(.*?)^```$", (TOP / "docs/cpp.md").read_text(), re.M | re.S)[1]
    compiler = next(filter(shutil.which, ("clang++", "c++")))
    needed = list(NEEDED.finditer(text))
    expected = ["nothing", "an error", "a warning"]
    compare("the lines of the service of docs/cpp.md", len(expected) - 1, len(needed))
    for line in (None, *needed):
        left_out = line[0].strip() if line else "nothing"
        (folder / "service.cpp").write_text(text[:line.start()] + text[line.end():] if line else text)
        text_of, status = run([compiler, "-std=c++17", "-fsyntax-only", "-I", folder, link[0], folder / "service.cpp"])
        said = "an error" if status else "a warning" if "warning: " in text_of else "nothing"
        compare(f"the service of docs/cpp.md without {left_out}", expected.pop(0), said)


def public_names(folder, *programs):
    """All names of the headers in these programs are for users, or in `detail`. (KJ_STRINGIFY makes an operator)"""
    names = set(re.findall(r"\bcapvet::v\d+_\d+_\d+::(\w+)", "".join(run(["nm", "-C", folder / name])[0] for name in programs)))
    compare("names of the headers that aren't for users", set(), names - PUBLIC)
    compare("names of the headers", set(), {"Refusal", "Server", "VettingStream", "detail"} - names)


def under_valgrind(folder):
    """The archive and libcapnp too, as they are, with valgrind's checks of memory."""
    if missing("libcapnp with checks of memory", "valgrind"):
        return
    valgrind = ["valgrind", "-q", "--error-exitcode=9", "--leak-check=full", "--errors-for-leak-kinds=definite"]
    faults("faults under valgrind", [*valgrind, folder / "faults"])
    text, status = run([*valgrind, folder / "rpc", "streams"])
    compare("rpc streams under valgrind", 0, status)


def from_cplusplus(folder, prefix, environment, count):
    if missing("messages before libcapnp", "c++", "pkg-config", "capnp", "libcapnp"):
        return
    link = flags(environment)
    for path in CPP.iterdir():
        shutil.copy(path, folder)
    made = run(["capnp", "compile", "-oc++", "calculator.capnp"], cwd=folder, env={**os.environ, "PWD": str(folder)})
    compare("capnp compile", ("", 0), made)
    shutil.copy(TOP / "tests/readers/service.capnp", folder)
    made = run(["capnp", "compile", "-oc++", "service.capnp"], cwd=folder, env={**os.environ, "PWD": str(folder)})
    compare("capnp compile of the tests", ("", 0), made)
    made = folder / "calculator.capnp.c++"
    others = {"vetted": [], "faults": [], "server": [folder / "service.capnp.c++"]}
    sources = {"rpc_server": folder / "rpc_server.cpp", "rpc_client": folder / "rpc_client.cpp",
               **{name: TOP / f"tests/readers/{name}.cpp" for name in ("vetted", "faults", "rpc", "server")}}
    shutil.copy(TOP / "examples/contacts.capnp", folder)
    compiled = run(["capnp", "compile", "-oc++", "contacts.capnp"], cwd=folder, env={**os.environ, "PWD": str(folder)})
    compare("capnp compile of contacts.capnp", ("", 0), compiled)
    for page in ("docs/cpp.md",):
        sources[page] = folder / f"{Path(page).stem}.cpp"
        sources[page].write_text("".join(re.findall(r"^```cpp\n(.*?)^```$", (TOP / page).read_text(), re.M | re.S)))
        compare(f"{page} has a block of C++", True, "capvet" in sources[page].read_text())
    for name, source in sources.items():
        files = [source, *others.get(name, [made])]
        output = ["-o", folder / name] if name in PROGRAMS else ["-fsyntax-only"]
        compare(f"c++ {name}", ("", 0), run(["c++", *STRICT, "-O1", "-I", folder, *files, *link, *output]))
        if not missing(f"{name} by clang++", "clang++"):
            command = ["clang++", *STRICT, "-fsyntax-only", "-I", folder, *link[:1], source]
            compare(f"clang++ {name}", ("", 0), run(command))
    headers(folder, link)
    faulty(link)
    service(folder, link)
    public_names(folder, "vetted", "faults", "server")
    suffixes = {"": count}
    for compiler in checkers():
        suffix = f"-checked-{compiler}"
        suffixes[suffix] = count // 10
        for name in ("vetted", "faults", "rpc", "server"):
            files = [sources[name], *others.get(name, [made])]
            command = [compiler, "-std=c++17", *CHECKED, "-I", folder, *files, *link, "-o", folder / f"{name}{suffix}"]
            compare(f"{compiler} {name}.cpp, checked", ("", 0), run(command))
    for suffix, many in suffixes.items():
        vetted(f"vetted{suffix}", [folder / f"vetted{suffix}"], many, folder)
        said(f"vetted{suffix} lines", folder / f"vetted{suffix}", many, folder)
        faults(f"faults{suffix}", [folder / f"faults{suffix}"])
        streams(f"rpc{suffix} streams", folder / f"rpc{suffix}")
        compare(f"server{suffix}", (SERVED, 0), run([folder / f"server{suffix}", folder / f"socket{suffix}"], 600))
        attacked(f"rpc{suffix}", folder / f"rpc{suffix}", many, folder)
    if IS_FULL:
        cost(folder / "rpc")
        under_valgrind(folder)
    example(folder)
    unread_lines(folder)
    coroutines(folder, link)
    by_cmake(folder, prefix)


def from_rust(folder, count):
    if missing("messages before the crate capnp", "cargo", "rustc", "crates", "crate-capnp"):
        return
    environment = cargo.environment(folder)
    cargo.copied(folder / "copy", "rust", "examples", "tests/readers")
    crate = folder / "copy/rust/capvet-capnp" / needs.capnp()
    tidy(crate, environment)
    tidy(folder / "copy/examples/rust/read", environment)
    for words in (["test"], ["doc", "--no-deps"]):
        text, status = run(["cargo", *words, *CARGO], cwd=crate, env=environment)
        compare(f"cargo {words[0]} in rust/capvet-capnp", (0, ""), (status, text if status else ""))
    rust_vetted = folder / "copy/tests/readers/rust-vetted"
    text, status = run(["cargo", "build", "--release", *CARGO], cwd=rust_vetted, env=environment)
    compare("cargo build of rust-vetted", ("", 0), (text, status))
    vetted("reader, in Rust", [folder / "target/release/vetted"], count, folder)
    blocks = re.findall(r"^```rust\n(.*?)^```$", (TOP / "docs/rust.md").read_text(), re.M | re.S)
    blocks = [block for block in blocks if "capvet_capnp::" in block]
    compare("docs/rust.md has a block with capvet_capnp", 1, len(blocks))
    (folder / "copy/examples/rust/read/src/bin").mkdir()
    guide = folder / "copy/examples/rust/read/src/bin/guide.rs"
    guide.write_text("#![allow(dead_code)]\n" + "".join(blocks) + "fn main() {}\n")
    text, status = run(["cargo", "build", *CARGO], cwd=folder / "copy/examples/rust/read", env=environment)
    compare("cargo build of the example", ("", 0), (text, status))
    for file, expected in (("contacts.bin", ("accepted, 391 words in capnp\n", 0)),
                         ("contacts-many-segments.bin", ("accepted, 391 words in capnp\n", 0)),
                         ("cycle.bin", ("read: refused DepthLimit at 0:0 pointers 65\n", 1))):
        compare(f"read of {file}, in Rust", expected, run([folder / "target/debug/read", TOP / "examples" / file]))


def main():
    with tempfile.TemporaryDirectory() as scratch:
        folder, prefix = Path(scratch), Path(scratch) / "x"
        compare("make install", ("", 0), make("install", scratch, f"PREFIX={prefix}"))
        environment = {**os.environ, "PKG_CONFIG_PATH": str(prefix / "lib/pkgconfig")}
        from_cplusplus(folder, prefix, environment, MANY)
        from_rust(folder, MANY)
    return ended()


if __name__ == "__main__":
    sys.exit(main())
