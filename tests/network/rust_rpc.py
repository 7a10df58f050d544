#!/usr/bin/env python3
"""Vets the messages of the crate capnp-rpc by rust/capvet-capnp-rpc, and attacks a server over it on loopback.

    rust_rpc.py [PROGRAM [ARCHIVE]] [--full]

The server is examples/rust/rpc. A codec of tokio beside it gives the messages of a stream. Its own client and one of libcapnp get the same results as from libcapnp's server. Changed
messages of RPC have connections of their own: 1,000, or 20,000 with --full. The server has to say of each what PROGRAM says.
Then come frames that are cut or too large, messages at which capnp-rpc panics, and peers that send slowly or don't read. There are
more connections than descriptors, connections that are reset, and lines of the server that nobody reads. HOSTILE connections of all
these kinds come while a client goes on to call (hostile.py). After each attack a client gets its results, and the server's memory
is within 10 % of that before. With --full valgrind counts the instructions of calls,
with vetting and without. Without the crates a line says what isn't tested. The last line is 'N passed, M failed', and the
status is 1 if a case failed.
"""
import os
import random
import re
import resource
import select
import shutil
import signal
import socket
import struct
import subprocess
import sys
import tempfile
import threading
import time
from pathlib import Path

sys.path[1:1] = map(str, Path(__file__).resolve().parents[1].iterdir())

import cargo
import harness
import needs
import readers
import socat_proxy
import trees
from amount import IS_FULL, cases
from before_readers import CALLED, VALID, refusals
from harness import PROGRAM, TOP, compare, ended, framed, instructions, run
from hostile import CYCLE, UNASKED, Hostile, beside_a_client
from library import CARGO, tidy
from needs import missing
from readers import Tree

MANY = cases(1_000, full=20_000)  # changed messages, and as many connections
LIMITS = ("--size", 1 << 17, "--words", 1 << 17, "--depth", 32)
# The limits of the server's command line. The last one is how many seconds it waits for a message, which a busy machine may need.
MOST, PER_PEER, SECONDS = 5_000, 5_000, 600
# The same in a case about that.
SHORT = 8
# How the copy of the server that is tested gets the seconds that it waits for a peer that reads no replies: without the variable it is
# as it is.
CONSTANT = "Some(sleep(UNREAD))"
VARIABLE = 'Some(sleep(std::env::var("UNREAD").map_or(UNREAD, |it| Duration::from_secs(it.parse().unwrap()))))'
# How long the server waits for the next message of a connection, in the case of idle ones.
IDLE = 6
# The server's memory after an attack, over that before it.
MOST_MEMORY = 1.1
# The instructions of a call to a server with vetting, over those without. (a list is vetted, and its bytes are copied once more)
MOST_COST = {"small": 1.05, "list": 1.15}
# The same with `capnp` 0.27, where by Rust 1.97 a list takes 26.6 million instructions without vetting, and 30.8 million with it.
MOST_COST_NEWEST = {"small": 1.05, "list": 1.17}
LINE = re.compile(r"127\.0\.0\.1:(\d+): (.*), after (\d+) messages and (\d+) bytes(?:,( path [/\w]+))?")
# The versions of capnp-rpc that panic at UNASKED.
PANICKING = ("0.14", "0.19")
PANICS = 500
HOSTILE = cases(400, full=10_000)  # hostile connections of all kinds, beside a client
# As many lines of two kinds: more than wait in a pipe and in the server.
UNREAD_LINES = 1000
# What the client prints: three results, and the reason why a call fails.
RESULTS = "".join(CALLED.splitlines(keepends=True)[:3])
REASON = {"0.14": "remote exception: this call always fails\n", "0.19": "remote exception: Failed: this call always fails\n",
          "0.27": "remote exception: this call always fails\n"}
# What the example has instead for older versions of `capnp`.
OLDER = TOP / "tests/readers/rust-rpc/older"
CIRCLE = "refused DepthLimit at 0:0 pointers 33 path " + "/p0" * 32


class Server:
    """The example's server, with what it has printed."""

    def __init__(self, folder, *limits, descriptors=None, unread=SECONDS):
        def limit():
            resource.setrlimit(resource.RLIMIT_NOFILE, (descriptors, descriptors))
        self.output, self.errors = folder / "server.lines", folder / "server.errors"
        with open(self.output, "w") as output, open(self.errors, "w") as errors:
            # (what glibc keeps for a thread would count as allocated, and keep it from returning what is freed below)
            environment = {**os.environ, "GLIBC_TUNABLES": "glibc.malloc.tcache_count=0",
                           "LD_PRELOAD": str(folder / "allocated.so"), **({"UNREAD": str(unread)} if unread else {})}
            self.ran = subprocess.Popen([folder / "target/debug/rpc_server", "127.0.0.1:0", *map(str, limits)],
                                        stdin=subprocess.DEVNULL, stdout=output, stderr=errors, env=environment,
                                        preexec_fn=limit if descriptors else None)
        self.is_hasty = not unread or limits[2] < SECONDS
        socat_proxy.until(lambda: self.output.read_text().endswith("\n") or self.ran.poll() is not None)
        self.port = int(self.output.read_text().split()[0])
        self.seen = len(self.output.read_text())

    def __enter__(self):
        return self

    def __exit__(self, *_):
        compare("the server still serves", None, self.ran.poll())
        self.ran.kill()
        self.ran.wait()

    def connect(self):
        return socket.create_connection(("127.0.0.1", self.port), timeout=socat_proxy.SECONDS)

    def lines(self):
        """What the server printed of connections since the last call: texts with paths, each with messages and bytes."""
        # (a thread writes the lines, and those of the counters are the last ones)
        self.counters()
        text = self.output.read_text()[self.seen:]
        self.seen += len(text)
        found = [LINE.fullmatch(line) for line in text.splitlines()]
        return [(line[2] + (line[5] or ""), line[3], line[4]) for line in found if line]

    def counters(self):
        """The counters by their names."""
        line = self.answer(signal.SIGUSR1, r"(?m)^open .*\n")
        return {name: int(count) for name, count in re.findall(r"([A-Za-z ]+?) (\d+) ?", line)}

    def answer(self, number, pattern):
        """What the server prints at a signal."""
        before, found = len(self.output.read_text()), []
        self.ran.send_signal(number)
        socat_proxy.until(lambda: found.extend(re.findall(pattern, self.output.read_text()[before:])) or found)
        return found[0]

    def memory(self):
        """The bytes that are allocated."""
        return int(self.answer(signal.SIGUSR2, r"(?m)^allocated (\d+)\n"))

    def resident(self):
        """The memory that is resident, in KiB."""
        return int(re.search(r"VmRSS:\s+(\d+)", Path(f"/proc/{self.ran.pid}/status").read_text())[1])

    def closes(self):
        """Whether all connections are closed."""
        return socat_proxy.until(lambda: not self.counters()["open"])


class Unread(Server):
    """The example's server, whose output are pipes that are read when a case does so."""

    def __init__(self, folder):
        pipe = subprocess.PIPE
        self.ran = subprocess.Popen([folder / "target/debug/rpc_server", "127.0.0.1:0", str(MOST), str(PER_PEER), str(SECONDS)],
                                    stdin=subprocess.DEVNULL, stdout=pipe, stderr=pipe, text=True,
                                    env={**os.environ, "UNREAD": str(SECONDS)})
        self.is_hasty = False
        self.port = int(self.ran.stdout.readline())


def called(name, folder, server):
    """A client gets its results."""
    client = [folder / "target/debug/rpc_client", f"127.0.0.1:{server.port}"]
    # (a busy machine may be too slow for a server that gives its peers little time)
    for _ in range(5 if server.is_hasty else 1):
        got = run(client, timeout=socat_proxy.SECONDS)
        if got == printed():
            break
    compare(f"rpc_client, {name}", printed(), got)


def printed():
    """What the client of the example prints, and its status."""
    return f"{RESULTS}Failed: {REASON[needs.capnp()]}", 0


def settled(folder, server):
    """The bytes that are allocated, after the first calls and connections: the runtime keeps tables of that size."""
    peers = [server.connect() for _ in range(150)]
    compare("connections at once", True, socat_proxy.until(lambda: server.counters()["open"] == len(peers)))
    for peer in peers:
        peer.close()
    compare("connections are closed, at first", True, server.closes())
    called("again", folder, server)
    compare("connections are closed, before the attacks", True, server.closes())
    return server.memory()


def survived(name, folder, server, memory):
    """After an attack a client gets its results, and no memory is held for it."""
    called(name, folder, server)
    compare(f"connections are closed, {name}", True, server.closes())
    # (an event lets the runtime drop what is over)
    socat_proxy.until(lambda: server.counters() and server.memory() <= MOST_MEMORY * memory)
    now = server.memory()
    print(f"rust rpc: {now} bytes are allocated {name}, {memory} before; {server.resident()} KiB are resident")
    compare(f"memory, {name}: {now} bytes, and {memory} before", True, now <= MOST_MEMORY * memory)


def recorded(folder, server):
    """The frames of valid calls, as the client sends them to the server."""
    sent = b""
    with socat_proxy.Listener() as listener:
        client = subprocess.Popen([folder / "target/debug/rpc_client", listener.address], stdin=subprocess.DEVNULL,
                                  stdout=subprocess.DEVNULL)
        with listener.accept() as peer, server.connect() as other:
            while ready := select.select([peer, other], [], [], socat_proxy.SECONDS)[0]:
                parts = {it: it.recv(65536) for it in ready}
                sent += parts.get(peer, b"")
                if not all(parts.values()):
                    break
                for it, part in parts.items():
                    (other if it is peer else peer).sendall(part)
        client.wait(socat_proxy.SECONDS)
    return [framed(*message) for message in trees.messages(sent)]


def exchanged(server, data):
    """What the server sends to a peer that sends these bytes and then nothing more, until both have ended."""
    return exchanged_by(server.connect(), data)


def exchanged_by(peer, data):
    """The same on a connection that is open."""
    with peer:
        try:
            peer.sendall(data)
            peer.shutdown(socket.SHUT_WR)
        except OSError:
            pass
        return socat_proxy.all_of(peer)


def all_close(server, parts, name):
    """Whether a connection for each of these bytes is closed."""
    for data in parts:
        ended = exchanged(server, data)[1]
        if ended != "closed":
            break
    compare(f"connections {name}", "closed", ended)
    return ended == "closed"


def returns(text):
    """How many messages of RPC are a Return."""
    # (the tag is in the first word of the root, after the root's pointer. `capnp` 0.27 writes a reply in two segments)
    return sum(first[1 + (first[0] >> 2 & 0x3FFFFFFF)] & 0xFFFF == 3 for first, *_ in trees.messages(text))


def attacked(folder, server, frames):
    """Changed messages, each on a connection of its own. The server says of each what the program says."""
    chance = random.Random(7)
    bases = [Tree(message) for frame in frames for message in trees.messages(frame) if len(frame) < 50_000]
    messages = [framed(*readers.changed(chance.choice(bases), chance)) for _ in range(MANY)]
    expected = [text for text in refusals(messages, folder, *map(str, LIMITS)) if text != "accepted"]
    closed, failed_before = 0, server.counters()["failed"]
    for number, message in enumerate(messages):
        before = b"".join(frames[:3]) if number % 3 == 0 else b""
        closed += exchanged(server, before + message)[1] == "closed"
    compare("connections of changed messages that end", len(messages), closed)
    compare("connections are closed after changed messages", True, server.closes())
    lines = [text for text, _, _ in server.lines()]
    got = [text for text in lines if text != "dropped"]
    # (capnp-rpc ends a connection at accepted messages that are no valid RPC)
    failed = server.counters()["failed"] - failed_before
    compare("changed messages at which the RPC system ends", (True, failed), (failed > 0, len(lines) - len(got)))
    compare("how many changed messages are refused", len(expected), len(got))
    compare("changed messages", [], [pair for pair in zip(expected, got) if pair[0] != pair[1]][:3])
    compare("it refuses some and accepts some", True, len(messages) // 10 < len(expected) < len(messages) * 9 // 10)
    print(f"rust rpc: {len(expected)} of {len(messages)} changed messages refused")


def frames_of(server, frames):
    """Frames that are cut or too large are reported, with what came of them, and their names are counted."""
    before = server.counters()
    hello = frames[0]
    for name, data, text in (
            ("cut in the table", hello[:5], "Truncated, 8 bytes are required"),
            ("cut in a segment", hello[:-1], f"Truncated, {len(hello)} bytes are required"),
            ("too many segments", struct.pack("<II", 512, 1), "TooManySegments 513"),
            ("2^32 segments", struct.pack("<II", 0xFFFFFFFF, 1), "TooManySegments 4294967296"),
            ("too large", struct.pack("<II", 0, (1 << 17) + 1), "TooLarge 131073"),
            ("512 segments", struct.pack("<I", 511) + struct.pack("<I", 1) * 512 + bytes(4 + 8 * 512),
             "refused ManySegments at 0:0 pointers 0")):
        for valid in (b"", hello):
            ended = exchanged(server, valid + data)[1]
            server.closes()
            expected = [(text, "1" if valid else "0", str(len(valid + data)))]
            compare(f"a frame, {name}, after {len(valid)} bytes", ("closed", expected), (ended, server.lines()))
    after = server.counters()
    counted = {word: after.get(word, 0) - before.get(word, 0) for word in ("Truncated", "TooManySegments", "TooLarge", "ManySegments")}
    compare("frames that are counted", {"Truncated": 4, "TooManySegments": 4, "TooLarge": 2, "ManySegments": 2}, counted)


def panicked(server, frames):
    """A message at which capnp-rpc panics, or fails, costs its connection alone: the end is reported, and the place is left."""
    before, seen = server.counters(), len(server.errors.read_text())
    others = [server.connect() for _ in range(5)]
    all_close(server, (UNASKED, frames[0] + UNASKED) * (PANICS // 2), "with a panic")
    socat_proxy.until(lambda: server.counters()["open"] == len(others))
    after = server.counters()
    compare("places while others are open", len(others), after["open"])
    compare("such connections that are counted", (PANICS + len(others), PANICS),
            tuple(after[name] - before[name] for name in ("accepted", "failed")))
    expected = [("dropped", messages, str(length)) for messages, length in (("1", len(UNASKED)), ("2", len(frames[0] + UNASKED)))]
    compare("lines of such connections", expected * (PANICS // 2), server.lines())
    panic = re.compile(r"panicked at .*capnp-rpc-[\d.]+/src/rpc\.rs")
    panics = PANICS if needs.capnp() in PANICKING else 0
    compare("panics of capnp-rpc", True, socat_proxy.until(lambda: len(panic.findall(server.errors.read_text()[seen:])) == panics))
    for peer in others:
        peer.sendall(frames[0])
        reply = peer.recv(65536)
        text, ended = exchanged_by(peer, b"")
        compare("a connection that was open before the panics", (1, "closed"), (returns(reply + text), ended))


def slow(server, frames):
    """Peers that send a byte a second are dropped at the deadline of their message, and idle ones stay."""
    late = server.counters()["late"]
    idle = [server.connect() for _ in range(5)]
    begin, peers = time.monotonic(), [server.connect() for _ in range(50)]
    left, sent = list(peers), 0
    while left and time.monotonic() < begin + SHORT + socat_proxy.SECONDS:
        for peer in list(left):
            try:
                peer.sendall(frames[0][sent:sent + 1])
            except OSError:
                left.remove(peer)
        sent += 1
        ended = time.monotonic() + 1
        while left and (rest := ended - time.monotonic()) > 0:
            for peer in select.select(left, [], [], rest)[0]:
                try:
                    if not peer.recv(65536):
                        left.remove(peer)
                except OSError:
                    left.remove(peer)
    took = time.monotonic() - begin
    compare("slow peers that stay", 0, len(left))
    compare(f"they are dropped at the deadline, and not before: {took:.2f} s", True, took >= SHORT)
    socat_proxy.until(lambda: server.counters()["open"] == len(idle))
    compare("late messages that are counted", 50, server.counters()["late"] - late)
    compare("connections that are idle", len(idle), server.counters()["open"])
    compare("lines of slow peers", {"late"}, {text.partition(",")[0] for text, _, _ in server.lines()})
    for peer in peers + idle:
        peer.close()
    compare("connections are closed after slow peers", True, server.closes())


def call_frame(frame, question):
    """A call or a bootstrap with the number of another question, which is at the start of the struct that the message's union is."""
    segment = bytearray(frame)
    at = 8 + 16
    word, = struct.unpack_from("<Q", frame, at)
    struct.pack_into("<I", segment, at + 8 + 8 * (word >> 2 & 0x3FFFFFFF), question)
    return bytes(segment)


def rows_frame(frames):
    """The call that asks for rows, of the frames of valid calls."""
    for frame in frames:
        word, = struct.unpack_from("<Q", frame, 24)
        kind, = struct.unpack_from("<H", frame, 16)
        at = 32 + 8 * (word >> 2 & 0x3FFFFFFF)
        # (a call of method 2)
        if kind == 2 and struct.unpack_from("<H", frame, at + 4)[0] == 2 and frame[:4] == bytes(4):
            return frame
    return None


def not_read(server, frames):
    """A peer that doesn't read its replies causes few of them, and is dropped soon, also if it ends or sends a refused message."""
    frame = rows_frame(frames)
    compare("there is a call for rows", True, frame is not None)
    if frame is None:
        return
    unread = server.counters()["unread"]
    for name, count, last in (("many calls", 3000, b""), ("a refused message", 300, CYCLE), ("an end", 300, None)) * 3:
        calls = b"".join(call_frame(frame, question) for question in range(100, 100 + count))
        with server.connect() as peer:
            peer.sendall(frames[0] + calls + (last or b""))
            if last is None:
                peer.shutdown(socket.SHUT_WR)
            compare(f"unread replies, {name}: the connection is dropped", True, server.closes())
    compare("lines of unread replies", {"replies unread"}, {text for text, _, _ in server.lines()})
    compare("connections with unread replies that are counted", 9, server.counters()["unread"] - unread)


def pipelined(server, frames, count):
    """Calls before a refused message are answered, but for what capnp-rpc loses, and no call after it."""
    frame = rows_frame(frames)
    adds = [it for it in frames if it[:4] == bytes(4) and struct.unpack_from("<H", it, 16)[0] == 2 and it is not frame][:1]
    calls = b"".join(call_frame(adds[0], question) for question in range(100, 100 + count))
    received = []
    with server.connect() as peer:
        reading = threading.Thread(target=lambda: received.append(socat_proxy.all_of(peer)))
        reading.start()
        try:
            peer.sendall(frames[0] + calls + CYCLE + calls)
        except OSError:
            pass
        reading.join(2 * socat_proxy.SECONDS)
    text, ended = received[0]
    server.closes()
    compare("pipelined calls before a refused message", ("closed", [(CIRCLE, str(count + 1))]),
            (ended, [line[:2] for line in server.lines()]))
    compare("replies to pipelined calls before a refused message", count + 1, returns(text))


def reset(server, frames):
    """Connections that are reset, within a message and between two."""
    for data in (b"", frames[0][:20], frames[0], b"".join(frames[:4])):
        for _ in range(25):
            peer = server.connect()
            peer.sendall(data)
            peer.setsockopt(socket.SOL_SOCKET, socket.SO_LINGER, struct.pack("ii", 1, 0))
            peer.close()
    compare("connections that are reset are closed", True, server.closes())
    server.lines()


class Plain:
    """A server without vetting."""

    def __init__(self, folder):
        self.ran = subprocess.Popen([folder / "target/debug/plain"], stdin=subprocess.DEVNULL, stdout=subprocess.PIPE, text=True)
        self.port = int(self.ran.stdout.readline())

    def __enter__(self):
        return self

    def __exit__(self, *_):
        self.ran.kill()
        self.ran.communicate()

    connect = Server.connect


def half_closed(folder, server, frames):
    """A peer that ends its side gets the replies to what it sent."""
    with Plain(folder) as plain:
        for name, it in (("with vetting", server), ("without", plain)):
            text, ended = exchanged(it, b"".join(frames[:2]))
            compare(f"a half-closed connection ends, {name}", "closed", ended)
            compare(f"replies to a half-closed peer, {name}", 2, returns(text))


def without_descriptors(folder):
    """More idle connections than the server has descriptors for. It accepts again when they have ended."""
    soft, hard = resource.getrlimit(resource.RLIMIT_NOFILE)
    resource.setrlimit(resource.RLIMIT_NOFILE, (min(4096, hard), hard))
    with Server(folder, MOST, PER_PEER, SECONDS, descriptors=1024) as server:
        called("before idle connections", folder, server)
        idle = [server.connect() for _ in range(1100)]
        compare("the server says so", True, socat_proxy.until(lambda: "accept: Too many open files" in server.errors.read_text()))
        compare("it still serves", None, server.ran.poll())
        for peer in idle:
            peer.close()
        compare("idle connections are closed", True, server.closes())
        called("after more connections than descriptors", folder, server)
    resource.setrlimit(resource.RLIMIT_NOFILE, (soft, hard))


def limited(folder):
    """Connections beyond the limits of all and of one address are closed at once, and counted."""
    for limits in ((20, 10), (10, 20)):
        with Server(folder, *limits, SECONDS) as server:
            peers = [server.connect() for _ in range(15)]
            compare(f"connections beyond {limits}", True, socat_proxy.until(lambda: server.counters()["turned away"] == 5))
            counters = server.counters()
            compare(f"connections within {limits}", (10, 10), (counters["open"], counters["accepted"]))
            for peer in peers:
                peer.close()
            compare(f"connections of {limits} are closed", True, server.closes())
            called(f"within {limits}", folder, server)


def idle(folder, frames):
    """A connection on which no message comes for the idle time is ended and counted, before its first message and after one. One
    with a message in each such time stays, and one with a part of a message is late."""
    with Server(folder, MOST, PER_PEER, 2 * IDLE, IDLE) as server:
        begin, stop = time.monotonic(), threading.Event()
        silent, called_once, talking, slow_peer = (server.connect() for _ in range(4))
        for peer, data in ((called_once, frames[0]), (talking, frames[0]), (slow_peer, frames[0][:5])):
            peer.sendall(data)

        def talk():
            question = 0
            while not stop.wait(IDLE / 4):
                question += 1
                talking.sendall(call_frame(frames[0], question))

        thread = threading.Thread(target=talk)
        thread.start()
        for name, peer in (("before a message", silent), ("after a message", called_once)):
            # (the reply to the first message, and the reason)
            text, ended = socat_proxy.all_of(peer)
            compare(f"an idle connection, {name}", ("closed", True), (ended, b"idle" in text))
        took = time.monotonic() - begin
        compare(f"they are ended at the idle time, and not before: {took:.1f} s", True, took >= IDLE)
        compare("a slow peer isn't idle", True, socat_proxy.until(lambda: server.counters()["late"] == 1))
        socat_proxy.until(lambda: server.counters()["open"] == 1)
        counters = server.counters()
        stop.set()
        thread.join()
        compare("idle connections that are counted", (2, 1), (counters["idle"], counters["open"]))
        expected = [("idle", "0", "0"), ("idle", "1", str(len(frames[0]))), ("late", "0", "5")]
        compare("lines of idle connections", expected, [(text.partition(",")[0], *rest) for text, *rest in sorted(server.lines())])
        for peer in (silent, called_once, talking, slow_peer):
            peer.close()
        called("after idle connections", folder, server)


def lines_unread(folder, frames):
    """Lines that nobody reads stop no server, and those that are dropped are counted. Nor does a reader that has ended."""
    with Unread(folder) as server:
        if not all_close(server, (frames[0] + CYCLE, UNASKED) * UNREAD_LINES, "while lines are unread"):
            return
        called("while lines are unread", folder, server)
        # (a pipe holds fewer lines, so there is space for more ones then)
        lines = [server.ran.stdout.readline() for _ in range(UNREAD_LINES)]
        server.ran.send_signal(signal.SIGUSR1)
        while (line := server.ran.stdout.readline()) and not line.startswith("open "):
            lines.append(line)
        lost = int(re.search(r" lines lost (\d+) ", line)[1])
        # (the place of the client may be left a little later)
        compare("places after lines were unread", True, bool(re.match(f"open [01] accepted {2 * UNREAD_LINES + 1} ", line)))
        compare("lines that are lost", (True, 2 * UNREAD_LINES), (lost > 0, len(lines) + lost))
        compare("lines that aren't lost", [], [it for it in lines if not LINE.fullmatch(it.rstrip("\n"))][:3])
        server.ran.stdout.close()
        server.ran.stderr.close()
        all_close(server, (frames[0] + CYCLE, UNASKED) * 10, "while nobody reads")
        called("while nobody reads", folder, server)


def of_all_kinds(folder, server, frames):
    """Hostile connections of all kinds beside a client. Afterwards no place is taken."""
    before = server.counters()
    bases = [Tree(message) for frame in frames for message in trees.messages(frame) if len(frame) < 50_000]
    client = [folder / "target/debug/rpc_client", f"127.0.0.1:{server.port}"]
    hostile = Hostile(server.connect, b"".join(frames[:VALID]), bases)
    beside_a_client("rust rpc", HOSTILE, hostile, lambda: run(client, timeout=socat_proxy.SECONDS), printed())
    compare("hostile connections are closed", True, server.closes())
    after = server.counters()
    print(f"rust rpc: places before {before['open']}, and after {after['open']}; {after}")
    compare("places before and after hostile connections", (0, 0), (before["open"], after["open"]))
    compare("hostile connections that are accepted, with those of the client", True, after["accepted"] - before["accepted"] > HOSTILE)


def wrong_words(folder):
    """Wrong command lines, and an address that is in use."""
    program = folder / "target/debug/rpc_server"
    usage = "usage: rpc_server ADDRESS [CONNECTIONS [PER_PEER [SECONDS [IDLE]]]]\n"
    for words in ([], ["127.0.0.1:0", "x"], ["127.0.0.1:0", "1", "2", "3", "4", "5"]):
        compare(f"rpc_server {words}", (usage, 2), run([program, *words]))
    with socat_proxy.Listener() as listener:
        text, status = run([program, listener.address])
        compare("rpc_server of an address in use", (True, 3), (text.startswith(f"rpc_server: {listener.address}: Address already"), status))


def attacks(folder):
    with Server(folder, MOST, PER_PEER, SECONDS) as server:
        called("at first", folder, server)
        frames = recorded(folder, server)
        compare("frames of valid calls", True, len(frames) > 8)
        compare("a cycle has its reason", True, b"refused DepthLimit at 0:0 pointers 33" in exchanged(server, frames[0] + CYCLE)[0])
        server.lines()
        memory = settled(folder, server)
        for name, attack in (("changed messages", lambda: attacked(folder, server, frames)),
                             ("frames that are cut or too large", lambda: frames_of(server, frames)),
                             ("messages at which capnp-rpc panics", lambda: panicked(server, frames)),
                             ("20000 pipelined calls", lambda: pipelined(server, frames, 20_000)),
                             ("resets", lambda: reset(server, frames)),
                             ("ends in half", lambda: half_closed(folder, server, frames)),
                             ("hostile connections of all kinds", lambda: of_all_kinds(folder, server, frames))):
            attack()
            survived(f"after {name}", folder, server, memory)
        print(f"rust rpc: {server.counters()}")
    hasty(folder, frames)
    idle(folder, frames)
    lines_unread(folder, frames)


def hasty(folder, frames):
    """Attacks on servers that give their peers little time."""
    for name, attack, seconds, unread in (("slow peers", slow, SHORT, SECONDS), ("peers that don't read", not_read, SECONDS, None)):
        with Server(folder, MOST, PER_PEER, seconds, unread=unread) as server:
            called(f"before {name}", folder, server)
            memory = settled(folder, server)
            server.lines()
            attack(server, frames)
            survived(f"after {name}", folder, server, memory)


def by_libcapnp(folder):
    """A client of libcapnp gets the same results as from libcapnp's server."""
    ez = socat_proxy.build(folder)
    if ez is not None:
        with Server(folder, MOST, PER_PEER, SECONDS) as server:
            results, failed, _ = socat_proxy.CALLED.partition("failed: ")
            compare("a client of libcapnp", (results + failed + REASON[needs.capnp()], 0), socat_proxy.called(ez, server.port))
            compare("lines of these calls", [], server.lines())


def cost(folder, environment):
    """A call to a server with vetting takes few instructions more than to one without."""
    if missing("the cost of vetting in RPC of Rust", "valgrind"):
        return
    words = ["cargo", "build", "--release", *CARGO]
    compare("cargo build of the calls that are counted", ("", 0), run(words, cwd=folder / "copy/tests/readers/rust-rpc", env=environment))
    for kind, few, more in (("small", 300, 800), ("list", 2, 5)):
        counts = {}
        for server in ("without", "with"):
            program = folder / "target/release/cost"
            one, other = (instructions([program, server, kind, str(calls)]) for calls in (few, more))
            counts[server] = (other - one) / (more - few)
        ratio = counts["with"] / max(counts["without"], 1)
        print(f"rust rpc: a {kind} call takes {ratio:.4f} of the instructions with vetting")
        most = (MOST_COST_NEWEST if needs.capnp() == "0.27" else MOST_COST)[kind]
        compare(f"a {kind} call takes at most {most} of the instructions", True, 0.9 < ratio <= most)


def with_older(example):
    """Changes the example for a version of `capnp` before that of its manifest: the service, and for 0.14 the generated code."""
    if needs.capnp() in ("0.14", "0.19"):
        shutil.copy(OLDER / "promises.rs", example / "src/lib.rs")
    if needs.capnp() == "0.14":
        for name in ("build.rs", "calculator_capnp.rs"):
            shutil.copy(OLDER / name, example)
        manifest = example / "Cargo.toml"
        manifest.write_text(re.sub(r"^\[build-dependencies\]\ncapnpc = .*\n", "", manifest.read_text(), flags=re.M))


def build(folder, environment):
    """The crate passes its tests, and the example is built."""
    cargo.copied(folder / "copy", "rust", "examples", "tests/readers")
    crate, example = folder / "copy/rust/capvet-capnp-rpc" / needs.capnp(), folder / "copy/examples/rust/rpc"
    with_older(example)
    text, status = run(["cargo", "test", *CARGO], cwd=crate, env=environment)
    compare("cargo test in rust/capvet-capnp-rpc", (0, ""), (status, text if status else ""))
    if IS_FULL:
        for it in (crate, example):
            tidy(it, environment)
        text, status = run(["cargo", "doc", "--no-deps", *CARGO], cwd=crate, env=environment)
        compare("cargo doc in rust/capvet-capnp-rpc", (0, ""), (status, text if status else ""))
    blocks = re.findall(r"^```rust\n(.*?)^```$", (TOP / "docs/rust.md").read_text(), re.M | re.S)
    blocks = [f"mod block{at} {{{it}}}\n" for at, it in enumerate(it for it in blocks if "tokio" in it)]
    compare("docs/rust.md has blocks with tokio", 2, len(blocks))
    words = ["cc", "-shared", "-fPIC", "-O1", "-Wall", "-Wextra", "-Werror", TOP / "tests/readers/allocated.c"]
    compare("cc allocated.c", ("", 0), run([*words, "-o", folder / "allocated.so"]))
    (example / "src/bin/guide.rs").write_text("#![allow(dead_code)]\n" + "".join(blocks) + "fn main() {}\n")
    source = example / "src/bin/rpc_server.rs"
    compare("the seconds for replies in rpc_server.rs", 1, source.read_text().count(CONSTANT))
    source.write_text(source.read_text().replace(CONSTANT, VARIABLE))
    compare("cargo build of the example", ("", 0), run(["cargo", "build", *CARGO], cwd=example, env=environment))
    words = ["cargo", "build", *CARGO, "--bin", "plain"]
    compare("cargo build of a server without vetting", ("", 0), run(words, cwd=folder / "copy/tests/readers/rust-rpc", env=environment))
    text, status = run(["cargo", "test", *CARGO, "--bin", "rpc_server"], cwd=example, env=environment)
    compare("cargo test of rpc_server", (0, "1 passed"), (status, text if status else re.search(r"(\d+ passed)", text)[1]))


def by_a_codec(folder):
    """The example with a codec of tokio prints what PROGRAM prints, and goes on after a refused message."""
    stream = folder / "stream.bin"
    for names in (["stream-of-four"], ["contacts", "cycle", "shared", "contacts-many-segments"], []):
        stream.write_bytes(b"".join((TOP / f"examples/{name}.bin").read_bytes() for name in names))
        got = run(["sh", "-c", 'exec "$0" < "$1"', folder / "target/debug/receive_async", stream])
        compare(f"receive_async of {names}", run([PROGRAM, "vet", "--strict", "--unamplified", stream]), got)


def main():
    if missing("RPC of Rust", "cc", "cargo", "rustc", "crates", "crate-capnp", "crate-capnp-rpc", "crate-capnpc", "crate-tokio"):
        return ended()
    if needs.capnp() != "0.14" and missing("RPC of Rust", "capnp"):
        return ended()
    with tempfile.TemporaryDirectory() as scratch:
        folder = Path(scratch)
        environment = cargo.environment(folder)
        build(folder, environment)
        if not harness.failed:
            by_a_codec(folder)
            wrong_words(folder)
            by_libcapnp(folder)
            attacks(folder)
            limited(folder)
            without_descriptors(folder)
            if IS_FULL:
                cost(folder, environment)
    return ended()


if __name__ == "__main__":
    sys.exit(main())
