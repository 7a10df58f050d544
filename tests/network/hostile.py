"""Hostile connections of many kinds to a server of RPC, while a client goes on to be served. `attacks.py` and `rust_rpc.py` make
them."""
import random
import socket
import struct
import subprocess
import threading
from collections import Counter
from concurrent.futures import ThreadPoolExecutor

import readers
from harness import TOP, compare, framed

CYCLE = (TOP / "examples/cycle.bin").read_bytes()
# A Return for a question that nobody asked: an accepted message at which capnp-rpc 0.14.1 panics.
UNASKED = framed([1 << 32 | 1 << 48, 3, 2 << 32 | 1 << 48, 2 << 48, 0, 0])
# How many hostile connections are made at a time.
AT_ONCE = 8
# How many connections are left open at a time, with nothing or half a message in them.
LEFT_OPEN = 60


def end_by_reset(peer):
    peer.setsockopt(socket.SOL_SOCKET, socket.SO_LINGER, struct.pack("ii", 1, 0))
    peer.close()


class Hostile:
    """Connections of each kind to a server. `valid` is the bytes of valid messages, and `bases` are the trees of those that are
    changed."""

    def __init__(self, connect, valid, bases):
        self.connect, self.valid, self.bases, self.chance = connect, valid, bases, random.Random(13)
        self.left, self.lock = [], threading.Lock()

    def ends(self, data):
        """Sends bytes and ends its side. Whether the server ends the connection then."""
        with self.connect() as peer:
            try:
                peer.sendall(data)
                peer.shutdown(socket.SHUT_WR)
                while peer.recv(1 << 16):
                    pass
            except TimeoutError:
                return False
            except OSError:
                pass
        return True

    def changed(self, number):
        with self.lock:
            message = framed(*readers.changed(self.chance.choice(self.bases), self.chance))
        return self.ends((self.valid if number % 3 == 0 else b"") + message)

    def circle(self, number):
        return self.ends((self.valid if number % 2 else b"") + CYCLE)

    def unasked_return(self, number):
        return self.ends((self.valid if number % 2 else b"") + UNASKED)

    def cut(self, number):
        return self.ends(self.valid[:1 + number % (len(self.valid) - 1)])

    def large(self, number):
        return self.ends((self.valid if number % 2 else b"") + struct.pack("<II", number % 2 * 600, 0x7fffffff))

    def other_bytes(self, number):
        return self.ends(random.Random(number).randbytes(1 + number % 3000))

    def reset(self, number):
        peer = self.connect()
        try:
            peer.sendall(self.valid[:number % (len(self.valid) + 1)])
            end_by_reset(peer)
        except OSError:
            pass
        return True

    def left_open(self, number):
        """Nothing more is sent, and the connection is closed much later."""
        peer = self.connect()
        try:
            peer.sendall(self.valid[:number % 2 * 11])
        except OSError:
            pass
        with self.lock:
            self.left.append(peer)
            first = self.left.pop(0) if len(self.left) > LEFT_OPEN else None
        if first:
            first.close()
        return True

    def close(self):
        for peer in self.left:
            peer.close()

    def make(self, count):
        """Makes this many connections. How many there were of each kind, and how many of all have ended."""
        kinds = (self.changed, self.circle, self.unasked_return, self.cut, self.large, self.other_bytes, self.reset, self.left_open)
        made = Counter({kind.__name__: (count + len(kinds) - 1 - at) // len(kinds) for at, kind in enumerate(kinds)})
        with ThreadPoolExecutor(AT_ONCE) as side_by_side:
            ended = sum(side_by_side.map(lambda number: kinds[number % len(kinds)](number // len(kinds)), range(count)))
        self.close()
        return made, ended


def beside_a_client(name, count, hostile, call, expected):
    """Makes hostile connections while a client goes on to call. Each of its runs has the results that are expected."""
    results, is_over = [], threading.Event()

    def calls():
        while not is_over.is_set():
            try:
                results.append(call())
            except subprocess.TimeoutExpired:
                results.append("no end")

    client = threading.Thread(target=calls)
    client.start()
    kinds, ended = hostile.make(count)
    is_over.set()
    client.join()
    compare(f"{name}: hostile connections that ended", count, ended)
    compare(f"{name}: a client runs beside them", True, len(results) > 0)
    compare(f"{name}: runs of a client beside them that had other results", [], [it for it in results if it != expected][:3])
    print(f"{name}: {count} hostile connections, {kinds['unasked_return']} of them with a Return that nobody asked for; "
          f"{len(results)} runs of a client beside them had their results")
