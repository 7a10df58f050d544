#!/usr/bin/env python3
"""Runs each command over a pipe that stays open. What can be said of the bytes that have come is said at once.

    live.py [PROGRAM]

A message and a part of the next one come in one write, for each length of the part, or for some if the message is long.
The result of the first has to come before the command waits for more input. So no case depends on how fast the machine is.
The command has to write what it writes of a file. Another case counts the writes of a command: small messages have to share
them. The last line is 'N passed, M failed', and the status is 1 if a case failed.
"""
import fcntl
import os
import random
import select
import socket
import struct
import subprocess
import sys
import tempfile
import termios
import time
from pathlib import Path

sys.path[1:1] = map(str, Path(__file__).resolve().parents[1].iterdir())

from amount import cases
from harness import PROGRAM, TOP, ended, expect, framed
from packing import packed

# How long a case waits for a command, in seconds: only a hang takes longer.
SECONDS, BUFFER = 180, 65536
COMMANDS = ("segments", "vet", "vet --exclusive", "explain", "dump", "get /p0", "check", "canon", "hash", "filter", "filter --pack")


def with_list(words):
    """A message with a list of random bytes."""
    return framed(struct.pack("<QQ", 1 << 48, 1 | 2 << 32 | 8 * words << 35) + random.Random(words).randbytes(8 * words))


MESSAGES = {
    "a null root": framed([0]),
    "a struct": framed([1 << 32, 7]),
    "zeros at the end": framed([3 << 32, 0, 0, 0]),
    "literal words at the end": framed([3 << 32, *3 * [0x0101010101010101]]),
    "five segments": framed([2 | 1 << 32], [1 << 32, 7], *3 * [[0]]),
    "a list": with_list(9),
    "more than is looked at ahead": with_list(700),
    "more than the buffers hold": with_list(10_000),
    "contacts.bin": (TOP / "examples/contacts.bin").read_bytes(),
    "contacts-many-segments.bin": (TOP / "examples/contacts-many-segments.bin").read_bytes(),
}


def parts_of(size):
    """The lengths of a part of this many bytes: each, or some if there are many."""
    if size <= cases(50, full=200):  # bytes of a part of which each length is tried
        return list(range(size))
    some = random.Random(size).sample(range(size), cases(10, full=60))  # other lengths of a longer part
    return sorted({0, 1, 4, 7, 8, 9, 16, size - 9, size - 8, size - 1, *some})


def decided(words):
    """The packed encoding of words, without a run at its end, which the next word may go on with."""
    text, at, last = packed(words), 0, 0
    while at < len(text):
        last, tag = at, text[at]
        at += 2 if tag == 0 else 10 + 8 * text[at + 9] if tag == 0xFF else 1 + tag.bit_count()
    return text[:last] if text and text[last] in (0, 0xFF) else text


# Pipes

class Live:
    """A command that is running, with pipes, and what has come of it so far. It ends with the block."""

    def __init__(self, command):
        pipes = {"stdin": subprocess.PIPE, "stdout": subprocess.PIPE, "stderr": subprocess.DEVNULL}
        self.ran = subprocess.Popen([PROGRAM, *command.split()], bufsize=0, **pipes)
        os.set_blocking(self.ran.stdin.fileno(), False)
        self.text = bytearray()

    def __enter__(self):
        return self

    def __exit__(self, *_):
        self.ran.kill()
        self.ran.wait()
        self.ran.stdin.close()
        self.ran.stdout.close()

    def take(self):
        """Takes what there is. Whether the output goes on."""
        part = os.read(self.ran.stdout.fileno(), 1 << 20)
        self.text += part
        return bool(part)

    def send(self, data):
        """Sends bytes, and takes what comes meanwhile."""
        while data:
            can_take, can_send, _ = select.select([self.ran.stdout], [self.ran.stdin], [])
            if can_take and not self.take():
                return
            if can_send:
                data = data[os.write(self.ran.stdin.fileno(), data[:BUFFER]):]

    def waits(self):
        """Whether the command has taken all of its input and sleeps, or has ended. What it has written by then is there."""
        unread = struct.unpack("i", fcntl.ioctl(self.ran.stdin.fileno(), termios.FIONREAD, bytes(4)))[0]
        state = Path(f"/proc/{self.ran.pid}/stat").read_text().rsplit(")", 1)[1].split()[0]
        return state == "Z" or unread == 0 and state == "S"

    def comes(self, length):
        """Whether this many bytes have come in all before the command waits."""
        end = time.monotonic() + SECONDS
        while len(self.text) < length and time.monotonic() < end:
            # (it may also sleep since its output is full)
            is_over = self.waits()
            if select.select([self.ran.stdout], [], [], 0 if is_over else 0.001)[0]:
                is_over = not self.take()
            if is_over:
                break
        return len(self.text) >= length


def late(command, given, parts, least):
    """Which part is the first before which something is held back, and how much. `given` is one message. `least` has
    what has to be there after each write."""
    with Live(command) as live:
        sent = 0
        for part, text in zip(parts, least):
            live.send(given[sent:] + given[:part])
            sent = part
            if not live.comes(len(text)) or not live.text.startswith(text):
                return part, len(text), bytes(live.text[-80:])
    return None


def halves(command, name, given, parts, least):
    found = late(command, given, parts, least)
    expect(f"capvet {command}, {name} and a part of the next", found is None, found)


def of_file(command, given):
    """What a command writes of a file."""
    with tempfile.NamedTemporaryFile() as file:
        file.write(given)
        file.flush()
        return subprocess.run([PROGRAM, *command.split(), file.name], stdout=subprocess.PIPE).stdout


def numbered(text, count):
    """The texts of this many messages, by the text of the first, as they are after each of them."""
    so_far, each = bytearray(), []
    for number in range(count):
        so_far += text.replace(b"message 0", b"message %d" % number, 1)
        each.append(bytes(so_far))
    return each


def results(name, message):
    """Each command that writes something of each message, plain and packed."""
    for command in COMMANDS:
        text = of_file(command, message)
        for option, given in ("", message), (" --packed", packed(message)):
            parts = parts_of(len(given))
            halves(command + option, name, given, parts, numbered(text, len(parts)))


def words(name, message):
    """`pack` and `unpack`, which don't look for messages."""
    parts = parts_of(len(message))
    sent = [message * (count + 1) + message[:part] for count, part in enumerate(parts)]
    halves("pack", name, message, parts, [decided(it[:len(it) // 8 * 8]) for it in sent])
    parts = parts_of(len(packed(message)))
    halves("unpack", name, packed(message), parts, [message * (count + 1) for count in range(len(parts))])


# Writes

def writes(command, stdin):
    """What a command writes, in its writes: a socket of packets keeps them apart."""
    ours, theirs = socket.socketpair(socket.AF_UNIX, socket.SOCK_SEQPACKET)
    with ours, subprocess.Popen([PROGRAM, *command.split()], stdin=stdin, stdout=theirs.fileno()) as ran:
        theirs.close()
        parts = []
        while part := ours.recv(1 << 20):
            parts.append(part)
        ran.wait()
    return parts


def shared_writes():
    """Small messages of a file fill whole buffers. Of a pipe they take a write for each time that the input is read."""
    message = with_list(9)
    count = 30_000
    for command, given in [(it, message) for it in (*COMMANDS, "pack")] + [(f"{it} --packed", packed(message)) for it in COMMANDS] + [("unpack", packed(message))]:
        with tempfile.TemporaryFile() as file:
            file.write(given * count)
            file.seek(0)
            parts = writes(command, file)
            text = b"".join(parts)
            expect(f"capvet {command}, how much of a file a write has", len(parts) <= len(text) // (BUFFER - 4096) + 1, len(parts), len(text))
            file.seek(0)
            with subprocess.Popen(["cat"], stdin=file, stdout=subprocess.PIPE) as cat:
                live = writes(command, cat.stdout)
                cat.stdout.close()
        expect(f"capvet {command}, the same of a pipe", b"".join(live) == text)
        print(f"{command}: {len(parts)} writes of a file, {len(live)} of a pipe, {len(given) * count // BUFFER} buffers")


for name, message in MESSAGES.items():
    results(name, message)
    words(name, message)
shared_writes()
sys.exit(ended())
