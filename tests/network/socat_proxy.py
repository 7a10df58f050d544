#!/usr/bin/env python3
"""Puts examples/rpc-guard.sh before servers on loopback, with the built program in it.

    socat_proxy.py PROGRAM

A server and a client over ez-rpc (tests/readers/ez.cpp) have to give the same results through the guard as without it.
Their calls have numbers, a returned capability with two pipelined calls on it, and a list of 20,000 structs in both
directions. One call fails. A message that is refused, in either direction, must not arrive. It has to end its connection
and no other one, with one line on the standard error of the guard. No process of a connection is left after its end.

What isn't installed is said in a line of its own. The last line is 'N passed, M failed', and the status is 1 if a case
failed.
"""
import os
import random
import shutil
import socket
import struct
import subprocess
import sys
import tempfile
import time
from pathlib import Path

sys.path[1:1] = map(str, Path(__file__).resolve().parents[1].iterdir())

from harness import PROGRAM, TOP, compare, ended, run
from needs import missing

STRICT = ("-std=c++17", "-O1", "-Wall", "-Wextra", "-Wpedantic", "-Wconversion", "-Werror")
# How long a case waits for what has to come. Only a hang takes longer, however busy the machine is.
SECONDS = 180
CALLED = """\
200 sums: 20000
200 counters: 19900 and 20100
20000 rows: ids 199990000, names of 168890 bytes, stored 20000
failed: remote exception: this call always fails
"""
# A struct without words, a struct with a pointer to itself, and a table of 513 segments.
EMPTY = bytes.fromhex("0000000001000000 fcffffff00000000")
CYCLE = bytes.fromhex("0000000001000000 fcffffff00000100")
TABLE = bytes.fromhex("0002000000000000")
LINE = "message {}: refused DepthLimit at 0:0 pointers 65\n"


def until(holds):
    """Waits until something holds, for a bounded time. Whether it does."""
    end = time.monotonic() + SECONDS
    while not (found := bool(holds())) and time.monotonic() < end:
        time.sleep(0.02)
    return found


# The ports of `free_port`. Each has a name that no other script on this machine can have, until this one ends.
TAKEN = []


def free_port():
    """A port at which nobody listens, and that no other script gets. The system gives no client a port as low, so none has it before it
    is used."""
    first = int(Path("/proc/sys/net/ipv4/ip_local_port_range").read_text().split()[0])
    while True:
        port = random.SystemRandom().randrange(10000, max(20000, first))
        name = socket.socket(socket.AF_UNIX)
        try:
            name.bind(f"\0capvet-port-{port}")
            with socket.create_server(("127.0.0.1", port)):
                TAKEN.append(name)
                return port
        except OSError:
            name.close()


def is_open(port):
    """Whether a process listens at this port of the loopback device."""
    return f" 0100007F:{port:04X} 00000000:0000 0A " in Path("/proc/net/tcp").read_text()


def unread(port):
    """The bytes that were sent to connections of this port, and that the process there has not taken."""
    name, count = f"0100007F:{port:04X}", 0
    for line in Path("/proc/net/tcp").read_text().splitlines()[1:]:
        _, here, there, state, queues, *_ = line.split()
        # (connections that are open, at least at their own end: what one has sent, and what the other one has got)
        if state in ("01", "04", "05", "08") and name in (here, there):
            count += int(queues.split(":")[here == name], 16)
    return count


class Guard:
    """The guard in front of a server, with the built program on its path."""

    def __init__(self, folder, server):
        self.port, self.errors = free_port(), folder / "errors"
        self.errors.unlink(missing_ok=True)
        (folder / "bin").mkdir(exist_ok=True)
        if not (folder / "bin/capvet").exists():
            (folder / "bin/capvet").symlink_to(PROGRAM)
        environment = {**os.environ, "PATH": f"{folder / 'bin'}:{os.environ['PATH']}"}
        with open(self.errors, "a") as errors:
            self.ran = subprocess.Popen([TOP / "examples/rpc-guard.sh", str(self.port), server], env=environment,
                                        stdin=subprocess.DEVNULL, stdout=errors, stderr=errors)

    def __enter__(self):
        compare("the guard listens", True, until(lambda: is_open(self.port)))
        return self

    def __exit__(self, *_):
        compare("processes of connections that have ended", True, until(lambda: not self.children()))
        self.ran.terminate()
        self.ran.wait(SECONDS)

    def children(self):
        return Path(f"/proc/{self.ran.pid}/task/{self.ran.pid}/children").read_text().split()

    def connect(self):
        return socket.create_connection(("127.0.0.1", self.port), timeout=SECONDS)

    def lines(self):
        """What was written since the last call. A line may come a little after the connection has ended."""
        until(lambda: not self.children())
        text = self.errors.read_text()
        os.truncate(self.errors, 0)
        return text


def all_of(peer):
    """What comes from a peer until it ends the connection, or what there is when the time is over."""
    text = b""
    try:
        while part := peer.recv(65536):
            text += part
    except TimeoutError:
        return text, "not closed"
    except ConnectionError:
        pass
    return text, "closed"


def exactly(peer, length):
    """This many bytes from a peer, or those that came before it ended the connection or the time was over."""
    text = b""
    try:
        while len(text) < length and (part := peer.recv(length - len(text))):
            text += part
    except (TimeoutError, ConnectionError):
        pass
    return text


def send(peer, *parts):
    """Sends bytes, with a pause after each part. The guard may end the connection before all are sent."""
    try:
        for part in parts:
            peer.sendall(part)
            time.sleep(0.05)
    except ConnectionError:
        pass


def of_capvet(lines):
    """The lines without those of socat. It writes one if it still has bytes for a command that has ended."""
    return "".join(line for line in lines.splitlines(keepends=True) if " socat[" not in line)


class Listener:
    """A server that is played by this script."""

    def __init__(self):
        self.listener = socket.create_server(("127.0.0.1", 0))
        self.listener.settimeout(SECONDS)
        self.address = f"127.0.0.1:{self.listener.getsockname()[1]}"

    def __enter__(self):
        return self

    def __exit__(self, *_):
        self.listener.close()

    def accept(self):
        peer, _ = self.listener.accept()
        peer.settimeout(SECONDS)
        return peer


def requests(guard, listener):
    """A refused request doesn't arrive. Those before it do, and both ends of its connection are closed."""
    for name, sent, first, said in (
            ("a circle", [EMPTY + CYCLE], EMPTY, LINE.format(1)),
            ("a circle between others", [EMPTY + EMPTY + CYCLE + EMPTY], EMPTY + EMPTY, LINE.format(2)),
            ("a circle at first", [CYCLE + EMPTY], b"", LINE.format(0)),
            ("a circle in two parts", [EMPTY + CYCLE[:11], CYCLE[11:]], EMPTY, LINE.format(1)),
            ("a circle before many others", [EMPTY + CYCLE + EMPTY * 200_000], EMPTY, LINE.format(1)),
            ("too many segments", [EMPTY + TABLE], EMPTY, "capvet: message 1: TooManySegments 513\n")):
        with guard.connect() as client, listener.accept() as server:
            send(client, *sent)
            got = all_of(server)
            server.close()
            compare(f"a request, {name}: what the server gets", (first, "closed"), got)
            compare(f"a request, {name}: what the client gets", (b"", "closed"), all_of(client))
        compare(f"a request, {name}: the line", said, of_capvet(guard.lines()))


def replies(guard, listener):
    """A refused reply doesn't arrive either, and both ends are closed though the client is silent."""
    for after in (EMPTY, EMPTY * 200_000):
        with guard.connect() as client, listener.accept() as server:
            client.sendall(EMPTY)
            compare("a request before a refused reply", EMPTY, exactly(server, len(EMPTY)))
            send(server, EMPTY + CYCLE + after)
            compare("a refused reply: what the client gets", (EMPTY, "closed"), all_of(client))
            compare("a refused reply: what the server gets", (b"", "closed"), all_of(server))
        compare("a refused reply: the line", LINE.format(1), of_capvet(guard.lines()))


def endings(guard, listener):
    """Each side ends a connection, after messages in both directions."""
    for closing in ("client", "server"):
        with guard.connect() as client, listener.accept() as server:
            client.sendall(EMPTY)
            server.sendall(EMPTY + EMPTY)
            got = exactly(server, len(EMPTY)), exactly(client, 2 * len(EMPTY))
            compare(f"messages before the {closing} ends", (EMPTY, EMPTY + EMPTY), got)
            (client if closing == "client" else server).shutdown(socket.SHUT_WR)
            other = server if closing == "client" else client
            compare(f"the {closing} ends: the other side", (b"", "closed"), all_of(other))
    with guard.connect() as client, listener.accept() as server:
        # (the server goes on after the last request)
        client.sendall(EMPTY)
        client.shutdown(socket.SHUT_WR)
        compare("the last request", (EMPTY, "closed"), all_of(server))
        server.sendall(EMPTY)
        server.close()
        compare("the reply to the last request", (EMPTY, "closed"), all_of(client))
    compare("lines of connections that end", "", guard.lines())


def side_by_side(guard, listener):
    """A refused message ends no other connection."""
    with guard.connect() as first, listener.accept() as first_server:
        first.sendall(EMPTY)
        compare("a connection", EMPTY, exactly(first_server, len(EMPTY)))
        with guard.connect() as second, listener.accept() as second_server:
            second.sendall(CYCLE)
            compare("another one, with a circle", (b"", "closed"), all_of(second_server))
        first.sendall(EMPTY)
        first_server.sendall(EMPTY)
        got = exactly(first_server, len(EMPTY)), exactly(first, len(EMPTY))
        compare("the connection afterwards", (EMPTY, EMPTY), got)
    compare("the line of the other one", LINE.format(0), guard.lines())


def without_server(folder):
    """A connection ends if nobody serves."""
    with Guard(folder, f"127.0.0.1:{free_port()}") as guard, guard.connect() as client:
        compare("a client without a server", (b"", "closed"), all_of(client))


def build(folder):
    """The server and client, or nothing without a compiler or libcapnp."""
    if missing("RPC through the guard", "c++", "pkg-config", "capnp", "libcapnp"):
        return None
    flags = run(["pkg-config", "--cflags", "--libs", "capnp-rpc"])[0]
    for name in ("calculator.capnp", "calculator.h"):
        shutil.copy(TOP / "examples/cpp" / name, folder)
    made = run(["capnp", "compile", "-oc++", "calculator.capnp"], cwd=folder, env={**os.environ, "PWD": str(folder)})
    compare("capnp compile", ("", 0), made)
    command = ["c++", *STRICT, "-I", folder, TOP / "tests/readers/ez.cpp", folder / "calculator.capnp.c++", *flags.split(),
               "-o", folder / "ez"]
    compare("c++ ez.cpp", ("", 0), run(command))
    return folder / "ez"


def called(ez, port):
    return run([ez, "call", f"127.0.0.1:{port}"], timeout=SECONDS)


def first_request(ez):
    """The first message that a client of RPC sends."""
    with Listener() as listener:
        client = subprocess.Popen([ez, "call", listener.address], stdin=subprocess.DEVNULL, stdout=subprocess.DEVNULL)
        with listener.accept() as peer:
            head = exactly(peer, 8)
            message = head + exactly(peer, 8 * struct.unpack_from("<I", head, 4)[0])
        client.wait(SECONDS)
    return message


def without_failed(lines):
    """The lines without those of replies that came after the client had left: the server sends one when it notices."""
    return [line for line in lines.splitlines() if line != "capvet: output failed"]


def rpc(folder, ez):
    """Calls through the guard, before and after a client that sends a circle after a valid message."""
    hello = first_request(ez)
    compare("the first request is of one segment", bytes(4), hello[:4])
    with open(folder / "port", "w") as port:
        server = subprocess.Popen([ez, "serve"], stdout=port, stdin=subprocess.DEVNULL)
    try:
        until(lambda: (folder / "port").read_text().endswith("\n"))
        port = int((folder / "port").read_text())
        compare("calls without the guard", (CALLED, 0), called(ez, port))
        with Guard(folder, f"127.0.0.1:{port}") as guard:
            compare("calls through the guard", (CALLED, 0), called(ez, guard.port))
            compare("calls through the guard, again", (CALLED, 0), called(ez, guard.port))
            compare("the lines of these calls", [], without_failed(guard.lines()))
            with guard.connect() as client:
                client.sendall(hello)
                reply = exactly(client, 8)
                compare("the reply to a valid message", 8, len(reply))
                client.sendall(CYCLE)
                compare("the connection after a circle", "closed", all_of(client)[1])
            compare("the line of the circle", LINE.format(1), of_capvet(guard.lines()))
            compare("calls afterwards", (CALLED, 0), called(ez, guard.port))
            compare("the lines of these calls", [], without_failed(guard.lines()))
    finally:
        server.kill()
        server.wait()


def main():
    if not missing("a proxy before a server", "socat"):
        with tempfile.TemporaryDirectory() as scratch:
            folder = Path(scratch)
            with Listener() as listener, Guard(folder, listener.address) as guard:
                for part in (requests, replies, endings, side_by_side):
                    part(guard, listener)
            without_server(folder)
            ez = build(folder)
            if ez is not None:
                rpc(folder, ez)
    return ended()


if __name__ == "__main__":
    sys.exit(main())
