"""Connects to examples/c/packed_server.c over a socket of this machine, as peers of all kinds do: honest ones, slow ones,
and those that cut a message or claim too much. `tests/bindings/library.py` calls it."""
import itertools
import os
import signal
import socket
import struct
import subprocess
import time

from harness import PROGRAM, TOP, compare
from socat_proxy import SECONDS, unread, until

# The seconds for a message, in cases about that and in others. A busy machine may need some for a message that isn't slow.
SHORT, LONG = 3, 600
# Words of a message that the server takes, and the KiB that it may have besides: its input, its stack and the C library.
LIMIT = 65536
SPARE_KIB = 640
CONTACTS = "accepted, charge 391"
ENDED = "closed: the peer has ended"
CUT = "closed: the peer has cut a message"


def packed(stream):
    """The words of a stream, packed as a whole."""
    return subprocess.run([PROGRAM, "pack"], input=stream, stdout=subprocess.PIPE, check=True, timeout=60).stdout


def of_words(count):
    """A message of this many words: the root is a list of all others."""
    return struct.pack("<IIQ", 0, count, 1 | 5 << 32 | count - 1 << 35) + bytes(8 * (count - 1))


class Server:
    """A server that listens at a free port. What it prints goes to a file, so that it never waits for a reader."""

    def __init__(self, program, folder, seconds, **environment):
        self.path = folder / "lines"
        with open(self.path, "w") as lines:
            self.process = subprocess.Popen([program, "0", str(seconds)], stdout=lines, stdin=subprocess.DEVNULL,
                                            env={**os.environ, **environment})
        until(lambda: self.path.read_text().endswith("\n"))
        self.port = int(self.path.read_text().split()[-1])

    def connect(self):
        peer = socket.create_connection(("127.0.0.1", self.port), timeout=SECONDS)
        peer.setsockopt(socket.IPPROTO_TCP, socket.TCP_NODELAY, 1)
        return peer

    def most_memory(self):
        """The most KiB that were resident at one time."""
        with open(f"/proc/{self.process.pid}/status") as status:
            return next(int(line.split()[1]) for line in status if line.startswith("VmHWM"))

    def stop(self):
        """Ends the server. Its lines after the first, and its status."""
        self.process.send_signal(signal.SIGTERM)
        status = self.process.wait(timeout=SECONDS)
        return self.path.read_text().splitlines()[1:], status

    def __enter__(self):
        return self

    def __exit__(self, *_):
        if self.process.poll() is None:
            self.process.kill()
            self.process.wait()


def replies(peer):
    """What the server sends until it closes the connection."""
    got = b""
    try:
        while piece := peer.recv(4096):
            got += piece
    except ConnectionResetError:
        pass
    except TimeoutError:
        got += b", and no end"
    return got


def send(server, pieces, ends=True):
    """Sends pieces of a packed stream, and ends if the server should see an end. What the server replies."""
    with server.connect() as peer:
        try:
            for piece in pieces:
                peer.sendall(piece)
            if ends:
                peer.shutdown(socket.SHUT_WR)
        except OSError:
            # (the server has closed the connection already)
            pass
        return replies(peer)


def cases():
    """Streams by pieces, each with the replies and the lines of the server."""
    contacts = (TOP / "examples/contacts.packed").read_bytes()
    four = packed((TOP / "examples/stream-of-four.bin").read_bytes())
    cycle = packed((TOP / "examples/cycle.bin").read_bytes())
    yield "nothing", [], b"", [ENDED]
    yield "two messages", [contacts * 2], b"++", [CONTACTS, CONTACTS, ENDED]
    yield "a message by bytes", [bytes([it]) for it in contacts[:-1]] + [contacts[-1:] + contacts], b"++", [CONTACTS] * 2 + [ENDED]
    yield "runs over messages", [four], b"++++", [f"accepted, charge {it}" for it in (391, 76, 20, 78)] + [ENDED]
    for cut in range(1, len(contacts), 61):
        yield f"a message cut at {cut}", [contacts[:cut]], b"", [CUT]
        yield f"a second message cut at {cut}", [contacts + contacts[:cut]], b"+", [CONTACTS, CUT]
    yield "a cycle", [contacts + cycle], b"+-", [CONTACTS, "refused DepthLimit at 0:0"]
    yield "a message at the limit", [packed(of_words(LIMIT))], b"+", [f"accepted, charge {LIMIT - 1}", ENDED]
    yield "a message above the limit", [packed(of_words(LIMIT + 1))], b"", ["closed: TooLarge"]
    yield "513 segments", [packed(struct.pack("<II", 512, 1))], b"", ["closed: TooManySegments"]


def answers(name, program, folder, **environment):
    """The server's replies and lines for each stream. It ends with status 0."""
    expected = []
    with Server(program, folder, LONG, **environment) as server:
        for what, pieces, reply, lines in cases():
            compare(f"{name}, {what}", reply, send(server, pieces))
            expected += lines
        compare(f"{name}, what it prints", (expected, 0), server.stop())


def drops(text, pause, until):
    """The bytes of a text, one after each pause."""
    begin = time.monotonic()
    for byte in text:
        if time.monotonic() - begin > until:
            return
        time.sleep(pause)
        yield bytes([byte])


def slow_peers(name, program, folder, **environment):
    """Peers that send nothing more, or a byte from time to time, lose the connection after the seconds for a message."""
    contacts = (TOP / "examples/contacts.packed").read_bytes()
    with Server(program, folder, SHORT, **environment) as server:
        for what, pieces in (("half a message", [contacts[:500]]), ("a message by drops", drops(contacts, 0.1, SECONDS))):
            begin = time.monotonic()
            compare(f"{name}, {what}", b"+", send(server, itertools.chain([contacts], pieces), ends=False))
            took = time.monotonic() - begin
            compare(f"{name}, {what} is dropped after its time: {took:.2f} s", True, SHORT - 0.1 < took < SECONDS)
        late = [CONTACTS, "closed: the peer is too slow"]
        compare(f"{name}, what it prints of slow peers", (late * 2, 0), server.stop())


def stopped_within_a_message(name, program, folder):
    """A signal in the middle of a message doesn't lose it. The server ends after the connection."""
    contacts = (TOP / "examples/contacts.packed").read_bytes()

    def pieces(server):
        yield contacts[:500]
        compare(f"{name}, a part of a message is taken", True, until(lambda: unread(server.port) == 0))
        server.process.send_signal(signal.SIGTERM)
        yield contacts[500:]

    with Server(program, folder, LONG) as server:
        compare(f"{name}, a signal within a message", b"+", send(server, pieces(server)))
        compare(f"{name}, what it prints after a signal", ([CONTACTS, ENDED], 0), server.stop())


def bounded(name, program, folder):
    """However much is sent, the server holds one message at its limit. A gigabyte takes a packed megabyte here."""
    largest, frame = packed(of_words(LIMIT)), 8 * LIMIT // 1024
    with Server(program, folder, LONG) as server:
        before = server.most_memory()
        compare(f"{name}, 2000 messages at the limit", b"+" * 2000, send(server, [largest] * 2000))
        compare(f"{name}, a claim of 32 GiB", b"", send(server, [packed(struct.pack("<II", 0, 0xffffffff)), b"\0\xff" * 1000000]))
        compare(f"{name}, empty messages", b"-", send(server, [b"\0\xff" * 2]))
        used = server.most_memory() - before
        compare(f"{name}, memory for a message at the limit, in KiB: {used}", True, frame // 4 < used <= frame + SPARE_KIB)
        lines = [f"accepted, charge {LIMIT - 1}"] * 2000 + [ENDED, "closed: TooLarge", "refused NoRoot at 0:0"]
        compare(f"{name}, what it prints of much", (lines, 0), server.stop())


def served(name, program, folder, interrupting):
    """All of it, and the replies once more where every second call to the system is interrupted."""
    answers(name, program, folder)
    slow_peers(name, program, folder)
    stopped_within_a_message(name, program, folder)
    bounded(name, program, folder)
    answers(f"{name}, interrupted", program, folder, LD_PRELOAD=str(interrupting))
    slow_peers(f"{name}, interrupted", program, folder, LD_PRELOAD=str(interrupting))
