#!/usr/bin/env python3
"""Attacks the proxy in guard/, and compares what passes with what was sent.

    guard_attacks.py [PROGRAM [ARCHIVE]] [--full] [--long]

The reader of the guard's log ends or reads nothing, and no connection waits for it. Strangers begin handshakes of TLS that are
as long as they may be, connections have TLS at no side, at one or at both, clients fill the memory, and the guard keeps to its
bound. Streams of messages are sent in both directions in random pieces, some of which end with a refused message, inside a message
or with a reset. They pass in six modes: plain, packed, by TLS, and in a dry run. All that passes has to be right to the byte, also
where a second guard is slow. Good clients make calls beside hostile ones.

With --full there are more connections. With --long more clients fill the memory, and up to 1 GiB of it. The calls are made for ten
minutes then, and for one minute by a guard that is built with Go's race detector. The last line is 'N passed, M failed', and the
status is 1 if a case failed.
"""
import fcntl
import itertools
import os
import re
import signal
import socket
import struct
import subprocess
import sys
import tempfile
import threading
import time
from contextlib import ExitStack
from pathlib import Path

sys.path[1:1] = map(str, Path(__file__).resolve().parents[1].iterdir())

from amount import cases, has

# (before scripts are imported that have such an option too)
IS_LONG = has("--long")

import guard
from guard import EXCESS, MEMORY, Guard, Listener, certificate, send_quietly
from harness import ARCHIVE, TOP, compare, ended, run
from needs import missing
from socat_proxy import CYCLE, EMPTY, SECONDS, all_of, exactly, free_port, is_open, unread, until

# The bytes that docs/service.md gives for a side with TLS, and for a connection with packed messages.
TLS, PACKED = 160 << 10, 512 << 10
# The part of --memory for each connection where a bound is for connections. It has a message of 16 KiB, whose buffer may become one of
# 64 KiB, and has that for a second.
LITTLE = 80 << 10


class Piped:
    """A guard whose log is a small pipe, before a listener."""

    def __init__(self, listener, *options, **how):
        self.port, self.http = free_port(), free_port()
        self.reader, writer = os.pipe()
        fcntl.fcntl(writer, fcntl.F_SETPIPE_SZ, 4096)
        # (so much that only a hang exceeds it)
        patience = ["--connect-timeout", "60s", "--message-timeout", "10m", "--drain-timeout", "1h"]
        self.ran = subprocess.Popen([Guard.program, "--listen", f"127.0.0.1:{self.port}", "--connect", listener.address, "--metrics",
                                     f"127.0.0.1:{self.http}", *patience, *options], stdin=subprocess.DEVNULL, stderr=writer, **how)
        os.close(writer)
        compare("the guard listens", True, until(lambda: is_open(self.port) and is_open(self.http)))

    def connect(self):
        return socket.create_connection(("127.0.0.1", self.port), timeout=SECONDS)

    page, value, connections = Guard.page, Guard.value, Guard.connections

    def ends(self, what):
        """SIGTERM ends it, though nobody reads."""
        self.ran.send_signal(signal.SIGTERM)
        compare(f"{what}: it ends", True, until(lambda: self.ran.poll() is not None))
        compare(f"{what}: the status", 0, self.ran.returncode)
        self.ran.kill()
        self.ran.wait()


def refused_and_good(piped, listener, what):
    """A refused message ends its connection, and a later client is served."""
    with piped.connect() as peer, listener.accept() as server:
        peer.sendall(CYCLE)
        compare(f"{what}: a refused message", ((b"", "closed"), (b"", "closed")), (all_of(server), all_of(peer)))
    with piped.connect() as peer, listener.accept() as server:
        peer.sendall(EMPTY)
        compare(f"{what}: a good client", EMPTY, exactly(server, 16))


def readers_of_the_log():
    """The reader of the log ends, or reads nothing."""
    with Listener() as listener:
        for handler in (signal.SIG_DFL, signal.SIG_IGN):
            piped = Piped(listener, preexec_fn=lambda handler=handler: signal.signal(signal.SIGPIPE, handler))
            os.close(piped.reader)
            refused_and_good(piped, listener, f"without a reader, SIGPIPE {handler.name}")
            piped.ends("without a reader")
        piped = Piped(listener, "--log-rate", "0")
        count = cases(2000, 5000)  # connections that a log which nobody reads is about
        for _ in range(count):
            with piped.connect() as peer:
                peer.sendall(CYCLE)
        compare("connections end, though nobody reads the log", True, until(lambda: piped.connections() == 0))
        # (the line of a connection may be written after its end)
        label = 'capvet_guard_log_lines_dropped_total{cause="queue"}'
        until(lambda: piped.value(label) > count - 1200)
        dropped = piped.value(label)
        compare(f"{dropped} lines are dropped", True, count - 1200 < dropped < count)
        listener.forget()
        refused_and_good(piped, listener, "a stalled log")
        piped.ends("a stalled log")
        os.close(piped.reader)


def hello(length):
    """The records of a ClientHello that is announced as 65535 bytes long, of which so many are there."""
    body = b"\1\0\xff\xff" + bytes(length)
    parts = [body[at:at + 16000] for at in range(0, len(body), 16000)]
    return b"".join(b"\x16\3\1" + struct.pack(">H", len(part)) + part for part in parts)


def bound_of(connections, memory, sides=0, is_packed=False):
    """The memory that docs/service.md gives."""
    return int(EXCESS * (MEMORY[0] + memory * (1 + is_packed) + connections * (MEMORY[1] + sides * TLS + is_packed * PACKED)))


def within(what, guard, connections, *more):
    """Prints the memory that was in use, and compares it with the bound."""
    used, bound = guard.memory(), bound_of(connections, *more)
    print(f"{what}: {used >> 20} MiB, {used // connections >> 10} KiB for each connection, bound {bound >> 20} MiB")
    compare(f"memory for {what}: {used}, at most {bound}", True, used <= bound)


def little(count):
    """The options of a guard that has so little memory for the messages of these connections, of one peer."""
    return ["--memory", str(count * LITTLE), "--memory-per-peer", str(count * LITTLE), "--size", "4096"]


def long_handshakes(folder):
    """Strangers send as much of a handshake as they may."""
    count = cases(300, 3000)  # strangers in a handshake
    tls = ["--listen-cert", folder / "cert.pem", "--listen-key", folder / "key.pem"]
    for length, what in ((32000, "as long as it may be"), (65000, "too long")):
        with Listener() as listener, Guard(folder, listener.address, *tls, *little(count), "--connect-timeout", "20s") as guard:
            peers = [guard.connect() for _ in range(count)]
            for peer in peers:
                send_quietly(peer, hello(length))
            compare(f"handshakes that have come, {what}", True, until(lambda: unread(guard.port) == 0))
            within(f"{count} handshakes, {what}", guard, count, count * LITTLE, 1)
            compare(f"handshakes, {what}", True, until(lambda: guard.value('capvet_guard_handshakes_total{result="failed",side="client"}') == count))
            for peer in peers:
                peer.close()


class Chain(ExitStack):
    """Guards one after the other before a server. Each has options of its own."""

    def __init__(self, folder, server, *options):
        super().__init__()
        self.guards, to = [], server
        for number, its in reversed(list(enumerate(options))):
            self.guards.insert(0, self.enter_context(Guard(folder, to, *its, errors=f"errors-{number}")))
            to = f"127.0.0.1:{self.guards[0].port}"
        self.port = self.guards[0].port

    def connect(self, host="127.0.0.1"):
        return self.guards[0].connect(host)


def sides_of(folder):
    """The options for TLS towards clients, with their certificates, and towards a server."""
    files = {name: folder / f"{name}.pem" for name in ("cert", "key")}
    return (["--listen-cert", files["cert"], "--listen-key", files["key"], "--listen-client-ca", files["cert"]],
            ["--connect-tls", "--connect-ca", files["cert"], "--connect-cert", files["cert"], "--connect-key", files["key"]])


def established(folder):
    """Connections that have passed on a message of 16 KiB: without TLS, with TLS at one side, and at both."""
    count = cases(200, 2000)  # connections without TLS, and as many with it
    listen, connect = sides_of(folder)
    few = little(count)
    connected(folder, count, [few], [("without TLS", 0)])
    connected(folder, count, [[*connect, *few], [*listen, *connect, *few], [*listen, *few]],
              [("with TLS at the server's side", 1), ("with TLS at both sides", 2), ("with TLS at the client's side", 1)])


def connected(folder, count, options, sides):
    """Connections through guards, one after the other. Each guard has options, and a number of sides with TLS, which its bound is for."""
    large = struct.pack("<II", 0, 2000) + struct.pack("<II", 1, (1999 << 3) | 5) + bytes(8 * 1999)
    with Listener() as listener, Chain(folder, listener.address, *options) as chain:
        pairs, wrong = [], 0
        for _ in range(count):
            peer = chain.connect()
            pairs.append((peer, listener.accept()))
            peer.sendall(large)
            wrong += exactly(pairs[-1][1], len(large)) != large
        compare(f"messages that are wrong, {sides[-1][0]}", 0, wrong)
        for guard, (which, number) in zip(chain.guards, sides, strict=True):
            within(f"{count} connections {which}", guard, count, count * LITTLE, number)
        for peer, server in pairs:
            peer.close()
            server.close()


def full_memory(folder):
    """Peers fill the memory, with messages that are plain or packed."""
    # How many peers, the memory, the bytes of a message, and the options for packed messages
    rows = [(60, 256 << 20, 8 << 20), (60, 256 << 20, 8 << 20, "--listen-packed"),
            (60, 256 << 20, 8 << 20, "--listen-packed", "--connect-packed")]
    if IS_LONG:
        rows += [(20, 1 << 30, 64 << 20), (200, 512 << 20, 8 << 20), (200, 64 << 20, 4 << 20)]
    for count, memory, size, *options in rows:
        filled(folder, count, memory, size, options)


def filled(folder, count, memory, size, options):
    """Peers of three addresses send large messages but for the last word. Another one has a part of the memory. More addresses take the
    rest of it."""
    words, is_packed = size // 8, bool(options)
    part = struct.pack("<II", 0, words) + struct.pack("<II", 1, 5) + bytes(size - 16)
    sent = packed_zeros(part) if is_packed else part
    with Listener() as listener, Guard(folder, listener.address, "--memory", str(memory), "--size", str(words), *options) as guard:
        # (each address has at most a quarter)
        pairs = senders(guard, listener, [f"127.0.0.{2 + number % 3}" for number in range(3 * count // 4)], sent)
        with guard.connect("127.0.0.9") as peer, listener.accept() as server:
            message = struct.pack("<II", 0, 2001) + struct.pack("<II", 1, (2000 << 3) | 5) + bytes(8 * 2000)
            if not is_packed:
                peer.sendall(message)
                compare("another peer has memory for a message of 16 KiB", message, exactly(server, len(message)))
        pairs += senders(guard, listener, [f"127.0.0.{10 + number % 5}" for number in range(count - len(pairs))], sent)
        # (packed messages have come before they are unpacked)
        compare("what has come is unpacked", True, until(lambda: unread(guard.port) == 0 and is_at_rest(guard.ran.pid)))
        # (those that ended had more until then)
        held = int(guard.value("capvet_guard_buffer_bytes"))
        compare(f"bytes of messages that are held: {held} of {memory}", True, memory // 4 <= held <= memory)
        what = f"{count} peers that send messages of {size >> 20} MiB, {held >> 20} of {memory >> 20} MiB held in the end"
        within(" ".join([what, *options]), guard, count + 1, memory, 0, is_packed)
        for peer in itertools.chain(*pairs):
            peer.close()


def senders(guard, listener, hosts, text):
    """Peers of these addresses, each with its connection at the server. All that they can send of this text is sent."""
    pairs = [(guard.connect(host), listener.accept()) for host in hosts]
    threads = [threading.Thread(target=send_quietly, args=(peer, text)) for peer, _ in pairs]
    for thread in threads:
        thread.start()
    for thread in threads:
        thread.join()
    return pairs


def is_at_rest(process):
    """Whether a process takes no processor time for a second."""
    def used():
        return Path(f"/proc/{process}/stat").read_text().rpartition(")")[2].split()[11:13]

    before = used()
    time.sleep(1)
    return used() == before


def packed_zeros(text):
    """A message whose words after the first two are zeros, packed as runs."""
    head, (runs, rest) = text[:16], divmod((len(text) - 16) // 8, 256)
    packed = b"".join(bytes([sum((byte != 0) << at for at, byte in enumerate(word))]) + bytes(byte for byte in word if byte)
                      for word in (head[:8], head[8:]))
    return packed + b"\0\xff" * runs + (bytes([0, rest - 1]) if rest else b"")


def modes(folder):
    """The options of guards in each mode, and whether refused messages pass."""
    listen, connect = sides_of(folder)
    packed_in, packed_out = "--listen-packed", "--connect-packed"
    return {"plain": ([[]], "real"), "packed": ([[packed_out], [packed_in]], "real"),
            "packed at both sides": ([[packed_out], [packed_in, packed_out], [packed_in]], "real"), "TLS": ([connect, listen], "real"),
            "TLS, packed": ([[*connect, packed_out], [*listen, packed_in]], "real"), "a dry run": ([["--dry-run"]], "dry")}


def exact(folder, load):
    """What passes is right to the byte, in each mode."""
    count, messages = cases(300, 12000), 60  # connections in each mode
    for number, (mode, (options, kind)) in enumerate(modes(folder).items()):
        server = f"127.0.0.1:{free_port()}"
        with Chain(folder, server, *options) as chain:
            text, status = run([load, "exact", f"127.0.0.1:{chain.port}", server, str(count), str(messages), str(11 + number), kind], timeout=1200)
            found = [int(it) for it in (text.splitlines() or [""])[0].split()]
            compare(f"{count} connections, {mode}: {text}", ([2 * count, 0], True, 0), (found[:2], found[2] > count, status))
            print(f"{mode}: {found[0]} directions of {count} connections are right, {found[2]} of them whole, {found[1]} wrong")


def slow_chain(folder):
    """What comes before a refused message passes a second guard that is slower than the first, while replies go on."""
    words = 125
    message = struct.pack("<II", 0, words) + struct.pack("<II", 1, ((words - 1) << 3) | 5) + bytes(8 * (words - 1))
    requests = message * 100
    # (the second guard takes about 4 seconds more than the first)
    with Listener() as listener, Chain(folder, listener.address, [], ["--byte-rate", str(len(requests) // 5)]) as chain:
        with chain.connect() as peer, listener.accept() as server:
            is_over = threading.Event()

            def reply():
                while not is_over.wait(0.1):
                    send_quietly(server, EMPTY)

            replies = threading.Thread(target=reply)
            replies.start()
            peer.sendall(requests + CYCLE)
            got = all_of(server)
            is_over.set()
            replies.join()
            compare("a slow second guard", (len(requests), requests, "closed"), (len(got[0]), *got))


def dry_and_real(folder):
    """A dry run beside a guard that refuses, on the same streams: the same lines, and nothing is refused."""
    from filter import changed
    messages = list(changed(cases(500, 5000)))  # changed messages, each in a stream of its own
    lines = []
    for options in ([], ["--dry-run"]):
        with Listener() as listener, Guard(folder, listener.address, *options) as guard:
            for message in messages:
                stream = EMPTY + message
                with guard.connect() as peer, listener.accept() as server:
                    send_quietly(peer, stream)
                    peer.shutdown(socket.SHUT_WR)
                    got = all_of(server)
                    if options:
                        compare("a stream passes a dry run", (stream, "closed"), got)
            keys = ("direction", "event", "message", "offset", "path", "pointer", "reason", "segment", "text", "word")
            # (the line of a connection may come after that of the next one)
            lines.append(sorted(str([it.get(key) for key in keys]) for it in guard.records()))
            refused = re.findall(r'^capvet_guard_connections_ended_total\{cause="refused"\} (\d+)', guard.page(), re.M)
    compare("the lines of a dry run that differ", [], [pair for pair in zip(*lines) if pair[0] != pair[1]][:3])
    compare("the number of lines of a dry run", len(lines[0]), len(lines[1]))
    compare("some are refused", True, len(lines[0]) > len(messages) // 20)
    compare("connections that a dry run has ended", ["0"], refused)


def soak(folder, load, seconds, finds_races=False):
    """Good clients make calls beside hostile ones, while the certificates are read again. A guard that finds races takes more memory,
    and its status isn't 0 if it has found one."""
    least = 100 * seconds  # calls that are answered, however long it takes
    server, tls = f"127.0.0.1:{free_port()}", sides_of(folder)[0]
    options = ["--message-timeout", "20s", "--idle-timeout", "25s", "--memory", str(MEMORY[2]), "--size", str(1 << 20), "--memory-per-peer",
               str(MEMORY[2]), "--refused-folder", folder / "refused", "--refused-bytes", str(4 << 20), "--log-connections"]
    with Guard(folder, server, *options) as guard:
        words = [load, "soak", f"127.0.0.1:{guard.port}", server, str(seconds), str(least), "16", "60", "8"]
        ran = subprocess.Popen(words, stdout=subprocess.PIPE, text=True)
        while ran.poll() is None:
            time.sleep(1)
            guard.ran.send_signal(signal.SIGHUP)
        answered, wrong, connections, hostiles = map(int, ran.stdout.read().split())
        print(f"{seconds} s: {answered} calls of {connections} good connections, {wrong} wrong, beside {hostiles} hostile ones")
        compare(f"calls beside {hostiles} hostile connections that are wrong", 0, wrong)
        compare(f"calls that are answered: {answered}", True, answered >= least)
        for cause in ("message_timeout", "idle_timeout"):
            ended = guard.value(f'capvet_guard_connections_ended_total{{cause="{cause}"}}')
            compare(f"connections that end by {cause}: {ended}", True, ended > 0)
        if not finds_races:
            within("the soak", guard, 84, MEMORY[2])
        compare("connections end", True, until(lambda: guard.connections() == 0))
        values = {name: float(value) for name, value in re.findall(r"^capvet_guard_(\S+) (\S+)$", guard.page(), re.M)}
        ends = sum(value for name, value in values.items() if name.startswith("connections_ended_total"))
        refusals = sum(value for name, value in values.items() if name.startswith("refusals_total"))
        compare("connections and their ends", values["connections_total"], ends)
        compare("refused messages and connections that they end", refusals, values['connections_ended_total{cause="refused"}'])
        compare("some are refused", True, refusals > seconds)
    used = sum(-(-it.stat().st_size // 4096) * 4096 for it in (folder / "refused").iterdir())
    compare(f"bytes of the folder: {used}", True, used <= 4 << 20)


def built(folder, *flags):
    """A guard that is built with more words for `go build`."""
    program = folder / "-".join(["capvet-guard", *(flag.lstrip("-") for flag in flags)])
    words = ["make", "-s", "guard", f"BUILT_GUARD={program}", f"BUILT_ARCHIVE={ARCHIVE}", f"GUARD_FLAGS={' '.join(flags)}", "-o", ARCHIVE]
    compare(f"make guard {' '.join(flags)}", ("", 0), run(words, cwd=TOP))
    return program


def main():
    if missing("attacks on the guard", "go", "cc", "pkg-config", "openssl", "go-prometheus", "go-proxyproto", "go-systemd"):
        return ended()
    with tempfile.TemporaryDirectory() as scratch:
        folder = Path(scratch)
        Guard.program = built(folder)
        certificate(folder)
        load = guard.built_load(folder)
        readers_of_the_log()
        long_handshakes(folder)
        established(folder)
        full_memory(folder)
        exact(folder, load)
        slow_chain(folder)
        dry_and_real(folder)
        soak(folder, load, 600 if IS_LONG else cases(10, 30))  # least seconds of calls beside hostile clients
        if IS_LONG:
            Guard.program = built(folder, "-race")
            soak(folder, load, 60, finds_races=True)
    return ended()


if __name__ == "__main__":
    sys.exit(main())
