#!/usr/bin/env python3
"""Attacks servers of libcapnp's RPC that have capvet before it, on loopback.

    attacks.py PROGRAM ARCHIVE [--full]

There is a server for each way that include/capvet has: over `VettingStream`, over `VettingIoStream` below `TwoPartyServer`,
and `capvet::Server` (tests/readers/served.cpp). After each attack a client gets the same results as before. The memory that
the server has allocated is back within 10 %, and so are its descriptors.

These are the attacks:

- changed messages, each on a connection of its own;
- frames that are cut, too large or of too many segments;
- more idle connections than there are descriptors, and peers that send a byte a second;
- peers that read no reply, or read them late, and a refused message after many calls at once;
- peers that send nothing for longer than they may;
- connections that end in half, or by a reset;
- all of these kinds at once, while a client goes on to call `capvet::Server`: HOSTILE connections (hostile.py).

Each refusal has to be reported, with the peer, the length of what came, the text of `capvet vet`, and the path of `capvet explain`.

With --full there are more of each. What isn't installed is said in a line of its own. The last line is 'N passed, M failed',
and the status is 1 if a case failed.
"""
import os
import re
import resource
import shutil
import socket
import struct
import subprocess
import sys
import tempfile
import time
from concurrent.futures import ThreadPoolExecutor
from pathlib import Path
from threading import Thread

sys.path[1:1] = map(str, Path(__file__).resolve().parents[1].iterdir())

import trees
from amount import cases
from before_readers import CPP, VALID, changed, refusals
from harness import TOP, compare, ended, framed, run
from hostile import CYCLE, Hostile, beside_a_client
from install import make
from needs import missing
from readers import Tree
from socat_proxy import SECONDS, until

WAYS = ("with", "bytes", "served")
FLAGS = ("-std=c++17", "-O1", "-Wall", "-Wextra", "-Wpedantic", "-Wconversion", "-Werror")
# What a server gives its peers, in seconds, in a case about that, and in others. A busy machine may take long for what isn't hostile.
TIME, LONG = 8, 600
MUTATED = cases(150, full=20_000)  # changed messages, each on a connection of its own
IDLE, DESCRIPTORS = cases((150, 128), full=(1_100, 1_024))  # idle connections, and descriptors of the server
SLOW = cases(8, full=50)  # peers that send a byte a second
FRAMES = cases(8, full=100)  # frames that are cut, too large or of too many segments
CALLS = cases(2_000, full=20_000)  # calls at once before a refused message
# Calls with large replies, and the bytes of the rows in one.
LARGE, REPLY = cases(100, full=300), 20_000 * 4 * 8  # calls with large replies that nobody reads
# A paced server holds as much for each of these numbers.
PACED_CALLS = cases((100,), full=(100, 1_000, 4_000))  # calls with large replies that nobody reads, to a paced server
# The most bytes that a paced server holds for them: it takes two calls when the replies before are written, and libcapnp allocates
# up to twice the bytes of each reply.
PACED = 6 * REPLY
SILENT = cases(10, full=200)  # peers that send nothing for longer than they may
HOSTILE = cases(400, full=10_000)  # hostile connections of all kinds, beside a client
# Kinds of messages of RPC.
CALL, RETURN, BOOTSTRAP = 2, 3, 8
CIRCLE = "refused DepthLimit at 0:0 pointers 33"
CIRCLE_LINE = f"{CIRCLE} path {'/p0' * 32}"


class Server:
    """A server of one way, and the lines that it prints."""

    def __init__(self, folder, way, connections=100_000, paced=0, descriptors=4_096, idle=0, seconds=LONG):
        self.folder, self.way = folder, way
        self.scratch = folder / f"way-{way}"
        self.scratch.mkdir(exist_ok=True)
        self.path = self.scratch / "lines"
        words = [folder / "served", "serve", way, str(seconds), str(connections), str(paced), str(idle)]
        # (what glibc keeps for a thread would count as allocated)
        environment = {**os.environ, "GLIBC_TUNABLES": "glibc.malloc.tcache_count=0"}
        with open(self.path, "w") as lines:
            self.process = subprocess.Popen(words, stdin=subprocess.PIPE, stdout=lines, text=True, env=environment)
        resource.prlimit(self.process.pid, resource.RLIMIT_NOFILE, (descriptors, descriptors))
        self.seen = 0
        self.port = int(self.wait("", 1)[0])
        self.results = self.call()
        # (the first calls allocate what stays)
        self.call()
        self.before = self.memory()
        self.files = self.open_files()

    def __enter__(self):
        return self

    def __exit__(self, *_):
        self.process.stdin.close()
        compare(f"{self.way}: the server's status", 0, self.process.wait(SECONDS))

    def lines(self, word):
        """The whole lines so far that begin with a word."""
        lines = self.path.read_text().splitlines(keepends=True)
        return [line[:-1] for line in lines if line.endswith("\n") and line.startswith(word)]

    def wait(self, word, count):
        """The lines that begin with a word, when there are that many, or when the time is over."""
        until(lambda: len(self.lines(word)) >= count)
        return self.lines(word)

    def refused(self, count):
        """The refusals since the last call: peer, length and text. Waits until there are so many."""
        lines = self.wait("refused ", self.seen + count)[self.seen:]
        self.seen += len(lines)
        return [line.split(" ", 3)[1:] for line in lines]

    def memory(self):
        """The bytes that the server has allocated."""
        count = len(self.lines("memory ")) + 1
        self.process.stdin.write("\n")
        self.process.stdin.flush()
        line = self.wait("memory ", count)[-1]
        self.counters = {name: int(number) for name, number in re.findall(r"([a-z][a-z ]*) (\d+)", line.partition("counters ")[2])}
        return int(line.split()[1])

    def settled(self):
        """The counters when no connection is open, or when the time is over."""
        until(lambda: self.memory() and not self.counters.get("open"))
        return dict(self.counters)

    def open_files(self):
        return len(os.listdir(f"/proc/{self.process.pid}/fd"))

    def resident(self, name="VmRSS"):
        """The KiB that are resident, or were at most (VmHWM)."""
        with open(f"/proc/{self.process.pid}/status") as status:
            return next(int(line.split()[1]) for line in status if line.startswith(name))

    def call(self):
        """What a client without vetting gets."""
        return run([self.folder / "ez", "call", f"127.0.0.1:{self.port}"], timeout=SECONDS)

    def connect(self):
        peer = socket.create_connection(("127.0.0.1", self.port), timeout=SECONDS)
        peer.setsockopt(socket.IPPROTO_TCP, socket.TCP_NODELAY, 1)
        return peer

    def survived(self, name):
        """After an attack a client is served, and nothing is left of it."""
        compare(f"{self.way}, after {name}: a client", self.results, self.call())
        until(lambda: self.open_files() <= self.files)
        compare(f"{self.way}, after {name}: descriptors", self.files, self.open_files())
        until(lambda: self.memory() <= 1.1 * self.before)
        now = self.memory()
        compare(f"{self.way}, after {name}: {now} bytes after {self.before}", True, now <= 1.1 * self.before)


def name_of(peer):
    return "%s:%d" % peer.getsockname()


def all_of(peer):
    """What comes until the server ends the connection, and whether it does."""
    text = []
    try:
        while part := peer.recv(1 << 16):
            text.append(part)
    except TimeoutError:
        return b"".join(text), False
    except ConnectionError:
        pass
    return b"".join(text), True


def send(peer, data):
    """Sends bytes. The server may end the connection before all are sent."""
    try:
        peer.sendall(data)
    except ConnectionError:
        pass


def mutated(server, frames, valid):
    """Changed messages, each on a connection of its own, every third one after valid ones."""
    segments = changed([Tree(message) for message in trees.messages(frames)], MUTATED, 11)
    messages = [framed(*it) for it in segments]
    expected, count = [], 0
    texts = refusals(messages, server.scratch, "--size", "131072", "--words", "131072", "--depth", "32")
    for number, (message, text) in enumerate(zip(messages, texts)):
        with server.connect() as peer:
            if text != "accepted":
                expected.append([name_of(peer), str(len(message)), text])
            send(peer, (valid if number % 3 == 0 else b"") + message)
            try:
                peer.shutdown(socket.SHUT_WR)
            except OSError:
                pass
            count += all_of(peer)[1]
    compare(f"{server.way}: connections of changed messages that ended", len(messages), count)
    # (calls in accepted messages may be anything, so their results can be too: only refusals are compared)
    compare(f"{server.way}: refused messages", expected, server.refused(len(expected)))
    server.survived(f"{len(messages)} changed messages, {len(expected)} of them refused")


def cut_and_large(server, valid):
    """Frames that are cut, too large or of too many segments. Each one is reported."""
    expected = []
    for number in range(FRAMES):
        words = 3 + number % 2000
        message = struct.pack("<II", 0, words) + bytes(8 * words)
        length = 1 + (7 * number) % (len(message) - 1)
        least = 8 if length < 8 else len(message)
        for data, text, came in (
                (message[:length], f"refused Truncated {least}, cut", length),
                (struct.pack("<II", 0, 131073 + number), f"refused TooLarge {131073 + number}", 8),
                (struct.pack("<II", 512 + number, 1), f"refused TooManySegments {513 + number}", 8),
                (struct.pack("<II", 0xffffffff, 1), "refused TooManySegments 4294967296", 8)):
            with server.connect() as peer:
                expected.append([name_of(peer), str(came), text])
                send(peer, (valid if number % 3 == 0 else b"") + data)
                if "cut" in text:
                    peer.shutdown(socket.SHUT_WR)
                compare(f"{server.way}: a connection with {text}", True, all_of(peer)[1])
    compare(f"{server.way}: frames that are cut or too large", expected, server.refused(len(expected)))
    server.survived("frames that are cut or too large")


def idle(folder, way):
    """More idle connections than the server has descriptors."""
    with Server(folder, way, descriptors=DESCRIPTORS) as server:
        peers = [server.connect() for _ in range(IDLE)]
        compare(f"{way}: descriptors that are taken", True, until(lambda: server.open_files() == DESCRIPTORS))
        for peer in peers:
            peer.close()
        server.survived(f"{IDLE} idle connections under {DESCRIPTORS} descriptors")


def slow(folder, way):
    """Peers that send a byte a second lose the connection at the deadline."""
    with Server(folder, way, seconds=TIME) as server:
        late(server)
        server.survived(f"{SLOW} slow peers")


def late(server):
    """The slow peers, and what is said and counted of them."""
    peers = [server.connect() for _ in range(SLOW)]
    names, begin = sorted(name_of(peer) for peer in peers), time.monotonic()
    message = struct.pack("<II", 0, 100) + bytes(800)
    dropped = {}
    while len(dropped) < len(peers) and time.monotonic() < begin + TIME + SECONDS:
        at = int(time.monotonic() - begin)
        for peer in peers:
            if peer in dropped:
                continue
            peer.setblocking(False)
            try:
                if dropped.get((peer, at)) is None and peer not in dropped:
                    peer.send(message[at:at + 1])
                while peer.recv(4096):
                    pass
                dropped[peer] = time.monotonic() - begin
            except BlockingIOError:
                pass
            except ConnectionError:
                dropped[peer] = time.monotonic() - begin
        time.sleep(1)
    for peer in peers:
        peer.close()
    compare(f"{server.way}: slow peers that are dropped", len(peers), len(dropped))
    compare(f"{server.way}: not before their time", True, min(dropped.values(), default=0) >= TIME)
    got = server.refused(len(peers))
    compare(f"{server.way}: slow peers that are reported", names, sorted(it[0] for it in got))
    compare(f"{server.way}: their texts", {"late"}, {it[2].rpartition(", ")[2] for it in got})
    print(f"{server.way}: {len(dropped)} peers at a byte a second were dropped after {max(dropped.values(), default=0):.1f} s at most")
    server.memory()
    compare(f"{server.way}: slow peers that are counted", SLOW * (server.way == "served"), server.counters["late"])


def silent(folder, way):
    """Peers that send nothing for TIME get the reason and lose their connections: at once, and after calls. One that calls now
    and then stays."""
    calls = subprocess.run([folder / "served", "frames", "999", "0"], capture_output=True, check=True).stdout
    calls = [framed(*message) for message in trees.messages(calls)]
    with Server(folder, way, idle=TIME, seconds=LONG) as server, server.connect() as busy:
        busy.sendall(calls[0])
        begin, peers = time.monotonic(), [server.connect() for _ in range(SILENT)]
        for peer in peers[::2]:
            peer.sendall(b"".join(calls[:3]))
        with ThreadPoolExecutor(SILENT) as readers:
            reading = [readers.submit(all_of, peer) for peer in peers]
            sent = 0
            while sent < 999 and (time.monotonic() - begin < 2 * TIME or not all(it.done() for it in reading)):
                sent += 1
                busy.sendall(calls[sent])
                time.sleep(TIME / 20)
            got, took = [it.result() for it in reading], time.monotonic() - begin
        compare(f"{way}: silent peers that are dropped", SILENT, sum(is_ended for _, is_ended in got))
        compare(f"{way}: silent peers, not before their time", True, took >= TIME)
        compare(f"{way}: silent peers that get the reason", SILENT, sum(b"dropped, idle" in data for data, _ in got))
        compare(f"{way}: replies to peers before they are silent", {3, 0}, {replies_of(data) for data, _ in got})
        names = sorted(name_of(peer) for peer in peers)
        compare(f"{way}: lines of silent peers", [[name, "0", "dropped, idle"] for name in names], sorted(server.refused(SILENT)))
        busy.shutdown(socket.SHUT_WR)
        data, is_ended = all_of(busy)
        compare(f"{way}: replies to a peer that calls now and then", (sent + 1, True), (replies_of(data), is_ended))
        server.memory()
        compare(f"{way}: silent peers that are counted", SILENT * (way == "served"), server.counters["idle"])
        for peer in peers:
            peer.close()
        server.survived(f"{SILENT} silent peers")


def of_all_kinds(folder, frames, valid):
    """Hostile connections of all kinds beside a client. Afterwards no place of capvet::Server is taken."""
    with Server(folder, "served", idle=LONG, seconds=30) as server:
        before = server.settled()
        bases = [Tree(message) for message in trees.messages(frames)]
        beside_a_client("served", HOSTILE, Hostile(server.connect, valid, bases), server.call, server.results)
        server.survived(f"{HOSTILE} hostile connections")
        after = server.settled()
        print(f"served: places before {before['open']}, and after {after['open']}; bytes before {server.before}, and after {server.memory()}; "
              f"{after}")
        compare("places before and after hostile connections", (0, 0), (before["open"], after["open"]))
        accepted = after["accepted"] - before["accepted"]
        compare(f"hostile connections that are accepted, with those of the client: {accepted}", True, accepted > HOSTILE)


def unread(folder, way, last, count=LARGE):
    """A peer that makes many calls with large replies, and reads nothing. It ends with a refused message, or in half, or
    the server is paced and so reads few of the calls."""
    calls = subprocess.run([folder / "served", "frames", str(count), "20000"], capture_output=True, check=True).stdout
    with Server(folder, way, paced=int(last == "paced"), seconds=TIME) as server:
        with server.connect() as peer:
            begin = time.monotonic()
            # (a paced server leaves calls in the buffers of the connection, which may be too small for all of them)
            sending = Thread(target=send, args=(peer, calls + CYCLE * (last == "refused")))
            sending.start()
            if last == "ended":
                sending.join()
                peer.shutdown(socket.SHUT_WR)
            name, most = name_of(peer), 0
            until(lambda: server.open_files() > server.files)
            while server.open_files() > server.files and time.monotonic() < begin + TIME + SECONDS:
                most = max(most, server.memory())
                time.sleep(0.05)
            took = time.monotonic() - begin
            sending.join()
            compare(f"{way}, {last}: the peer that reads nothing is dropped", server.files, server.open_files())
            compare(f"{way}, {last}: not before its time: {took:.2f} s", True, took >= TIME)
        line = [name, "16", CIRCLE_LINE] if last == "refused" else [name, "0", "dropped, unread"]
        compare(f"{way}, {last}: its line", [line], server.refused(1))
        if last == "paced":
            held = most - server.before
            compare(f"{way}: {held} bytes are held for a peer that reads nothing after {count} calls", True, held < PACED)
        print(f"{way}, {last}: a peer that read nothing was dropped after {took:.1f} s, with {most / 1e6:.1f} MB held at most "
              f"for {count} replies of {count * REPLY / 1e6:.0f} MB, and {server.resident('VmHWM') / 1024:.1f} MiB resident at most")
        server.survived(f"a peer that reads nothing, {last}")


def late_reader(folder, way):
    """A peer that reads its replies late, but in time, gets all of them from a paced server, which holds few."""
    calls = subprocess.run([folder / "served", "frames", str(LARGE), "20000"], capture_output=True, check=True).stdout
    with Server(folder, way, paced=1) as server:
        with server.connect() as peer:
            peer.sendall(calls)
            most, end = 0, time.monotonic() + TIME / 2
            while time.monotonic() < end:
                most = max(most, server.memory() - server.before)
                time.sleep(0.05)
            compare(f"{way}: {most} bytes are held for a peer that reads late", True, most < PACED)
            peer.shutdown(socket.SHUT_WR)
            data, is_ended = all_of(peer)
            compare(f"{way}: the replies to a peer that reads late", (LARGE + 1, True), (replies_of(data), is_ended))
        server.survived("a peer that reads late")


def count_of(data, *kinds):
    """How many whole messages of RPC are of these kinds, which are numbers of the union in rpc::Message."""
    count = 0
    at = 0
    while at + 8 <= len(data):
        segments = struct.unpack_from("<I", data, at)[0] + 1
        sizes = struct.unpack_from(f"<{segments}I", data, at + 4)
        length = 8 * (segments // 2 + 1) + 8 * sum(sizes)
        # (the union's tag is the first 16 bits of the root's data)
        root = at + 8 * (segments // 2 + 1)
        pointer = struct.unpack_from("<Q", data, root)[0]
        offset = (pointer & 0xffffffff) >> 2
        count += struct.unpack_from("<H", data, root + 8 + 8 * offset)[0] in kinds
        at += length
    return count


def replies_of(data):
    """How many returned calls are among the messages of a server."""
    return count_of(data, RETURN)


def pipelined(server):
    """A refused message after many calls at once: all of them are answered. Then one amid of them."""
    calls = subprocess.run([server.folder / "served", "frames", str(CALLS), "0"], capture_output=True, check=True).stdout
    with server.connect() as peer, ThreadPoolExecutor(1) as other:
        name, reading = name_of(peer), other.submit(all_of, peer)
        send(peer, calls + CYCLE)
        data, is_ended = reading.result(2 * SECONDS)
    # (one return is for the bootstrap)
    compare(f"{server.way}: calls that are answered before a refused message", (CALLS + 1, True), (replies_of(data), is_ended))
    compare(f"{server.way}: the peer gets the reason", True, CIRCLE.encode() in data)
    compare(f"{server.way}: its line", [[name, "16", CIRCLE_LINE]], server.refused(1))
    with server.connect() as peer, ThreadPoolExecutor(1) as other:
        name, reading = name_of(peer), other.submit(all_of, peer)
        send(peer, calls + CYCLE + calls)
        # (some replies may be lost, since the connection is closed with bytes that nobody reads)
        compare(f"{server.way}: a refused message amid calls ends the connection", True, reading.result(2 * SECONDS)[1])
    compare(f"{server.way}: its line, amid calls", [[name, "16", CIRCLE_LINE]], server.refused(1))
    server.survived(f"a refused message after {CALLS} calls")


def endings(server, valid):
    """Connections that end in half after valid calls, or by a reset: between messages and inside of one."""
    asked = count_of(valid, CALL, BOOTSTRAP)
    for number in range(FRAMES):
        with server.connect() as peer:
            send(peer, valid)
            peer.shutdown(socket.SHUT_WR)
            data, is_ended = all_of(peer)
            compare(f"{server.way}: the replies to a peer that ends in half", (asked, True), (replies_of(data), is_ended))
        for data in (valid, valid + CYCLE[:5 + number % 8], b""):
            peer = server.connect()
            send(peer, data)
            peer.setsockopt(socket.SOL_SOCKET, socket.SO_LINGER, struct.pack("ii", 1, 0))
            peer.close()
    server.survived("connections that end in half or by a reset")
    server.refused(0)


def counted(server):
    """The counters of capvet::Server, after all of this."""
    server.memory()
    lines = server.lines("refused ")
    texts = [line.split(" ", 3)[3] for line in lines]
    expected = {"open": 0, "turned away": 0, "late": 0, "idle": 0, "unread": 0, "refused": len(lines)}
    compare("the counters", expected, {name: number for name, number in server.counters.items() if name != "accepted"})
    compare("late messages among the lines", 0, sum(text.endswith(", late") for text in texts))
    compare("more connections are accepted than end by a refusal", True, server.counters["accepted"] > len(lines))


def limited(folder):
    """Connections above the limit of capvet::Server are closed at once. When others have ended, new ones are served."""
    with Server(folder, "served", connections=5) as server:
        # (its first clients may still have their places)
        compare("places at first", 0, server.settled()["open"])
        peers = [server.connect() for _ in range(8)]
        ended = [all_of(peer)[1] for peer in peers[5:]]
        compare("connections above the limit are closed", [True] * 3, ended)
        server.memory()
        compare("the counters at the limit", (5, 3), (server.counters["open"], server.counters["turned away"]))
        for peer in peers:
            peer.close()
        server.survived("connections above the limit")


def build(folder):
    """The servers and the client, or nothing without a compiler or libcapnp."""
    if missing("attacks on servers of RPC", "c++", "pkg-config", "capnp", "libcapnp"):
        return False
    prefix = folder / "x"
    compare("make install", ("", 0), make("install", folder, f"PREFIX={prefix}"))
    environment = {**os.environ, "PKG_CONFIG_PATH": str(prefix / "lib/pkgconfig"), "PWD": str(folder)}
    flags = run(["pkg-config", "--cflags", "--libs", "capvet-kj"], env=environment)[0]
    for name in ("calculator.capnp", "calculator.h"):
        shutil.copy(CPP / name, folder)
    compare("capnp compile", ("", 0), run(["capnp", "compile", "-oc++", "calculator.capnp"], cwd=folder, env=environment))
    for name in ("served", "ez", "rpc"):
        command = ["c++", *FLAGS, "-I", folder, TOP / f"tests/readers/{name}.cpp", folder / "calculator.capnp.c++", *flags.split(),
                   "-o", folder / name]
        compare(f"c++ {name}.cpp", ("", 0), run(command))
    return True


def attacked(folder, way):
    """All attacks on the servers of one way."""
    frames = subprocess.run([folder / "rpc", "record"], capture_output=True, check=True, timeout=SECONDS).stdout
    valid = b"".join([framed(*message) for message in trees.messages(frames)][:VALID])
    with Server(folder, way) as server:
        mutated(server, frames, valid)
        cut_and_large(server, valid)
        pipelined(server)
        endings(server, valid)
        if way == "served":
            counted(server)
    slow(folder, way)
    idle(folder, way)
    silent(folder, way)
    for last in ("refused", "ended"):
        unread(folder, way, last)
    for count in PACED_CALLS:
        unread(folder, way, "paced", count)
    if way == "served":
        limited(folder)
        of_all_kinds(folder, frames, valid)
    else:
        late_reader(folder, way)


def main():
    most = resource.getrlimit(resource.RLIMIT_NOFILE)[1]
    resource.setrlimit(resource.RLIMIT_NOFILE, (min(most, 8_192), most))
    with tempfile.TemporaryDirectory() as scratch:
        folder = Path(scratch)
        if build(folder):
            # (they mostly wait)
            with ThreadPoolExecutor(len(WAYS)) as side_by_side:
                list(side_by_side.map(attacked, [folder] * len(WAYS), WAYS))
    return ended()


if __name__ == "__main__":
    sys.exit(main())
