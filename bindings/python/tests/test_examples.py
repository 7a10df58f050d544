"""The server by asyncio of examples/python, over sockets of this machine."""
import signal
import socket
import subprocess
import sys
from contextlib import contextmanager

import pytest

import capvet
from support import SECONDS, TOP, line, many, samples

SERVER = TOP / "examples/python/vet_server.py"
CYCLE = (TOP / "examples/cycle.bin").read_bytes()
pytestmark = pytest.mark.skipif(not SERVER.exists(), reason="a source distribution has no examples: the server by asyncio")


@contextmanager
def server(*words):
    """A running server, and what connects to it."""
    command = [sys.executable, SERVER, *map(str, words)]
    with subprocess.Popen(command, stdout=subprocess.PIPE, stderr=subprocess.PIPE, text=True) as process:
        port = int(process.stdout.readline())
        try:
            yield process, lambda: socket.create_connection(("127.0.0.1", port), timeout=SECONDS)
        finally:
            process.send_signal(signal.SIGTERM)


def of(message, number):
    """The line about a message, and whether it is accepted."""
    verdict = next(capvet.messages(message))
    return line(verdict).replace("message 0", f"message {number}"), isinstance(verdict, capvet.Message)


@pytest.mark.parametrize("packed", [False, True], ids=["plain", "packed"])
def test_a_message_and_a_half(packed):
    frames = [message for message in samples() if of(message, 0)[1]][:2]
    first, second = map(capvet.pack_message, frames) if packed else frames
    with server(*["--packed"] * packed) as (process, connect):
        with connect() as peer, peer.makefile() as lines:
            peer.sendall(first + second[:len(second) // 2])
            assert lines.readline() == of(frames[0], 0)[0]
            peer.sendall(second[len(second) // 2:] + first[:-1])
            assert lines.readline() == of(frames[1], 1)[0]
            peer.shutdown(socket.SHUT_WR)
            assert lines.read() == ""
        assert "Truncated" in process.stderr.readline()
        with connect() as peer, peer.makefile() as lines:
            refused = capvet.pack_message(CYCLE) if packed else CYCLE
            peer.sendall(first + refused)
            assert lines.read() == of(frames[0], 0)[0] + of(CYCLE, 1)[0]
        assert "refused DepthLimit at 0:0" in process.stderr.readline()
    assert process.returncode == 0


def test_peers_that_are_slow_or_large():
    small = samples()[-1]
    # (a busy machine may need some time for the one that isn't slow)
    with server("--seconds", 8, "--size", 100) as (process, connect):
        with connect() as slow, connect() as large, connect() as other:
            slow.sendall(small[:-1])
            large.sendall(samples()[0])
            other.sendall(small)
            with other.makefile() as lines:
                assert lines.readline() == of(small, 0)[0]
            assert large.recv(100) == b"" and slow.recv(100) == b""
            said = process.stderr.readline() + process.stderr.readline()
            assert "TooLarge: 392 words" in said and "out of time" in said


def test_changed_messages():
    messages = many(300, seed=11)
    with server() as (process, connect):
        for message in messages:
            expected, is_accepted = of(message, 0)
            with connect() as peer, peer.makefile() as lines:
                peer.sendall(message)
                peer.shutdown(socket.SHUT_WR)
                assert lines.read() == expected
            assert is_accepted or process.stderr.readline().endswith(expected.partition(": ")[2])
    assert process.returncode == 0
