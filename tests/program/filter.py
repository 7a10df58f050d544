#!/usr/bin/env python3
"""Runs `capvet filter` over samples, changed messages, pipes and devices that fail, beside `capvet vet`.

    filter.py PROGRAM [--full]

`vet` with the same options writes a line for each message, and a reader of frames in this file cuts the stream. The
frames of the accepted messages, with zero padding, have to be the output. The lines of the others have to be standard
error. 5,000 messages of a fixed seed are changed, or 10,000 with --full. What is passed on has to be accepted by
`vet --strict --unamplified`. Packed output has to be each table and each segment packed by itself, and `capnp convert`
has to read it.

A message is passed on while the input stays open, with each length of the next one in the same write. So is the line of a refused
one. `--stop` ends a run after the first refused message, and doesn't look at what follows. Streams that are cut at each byte, or
have a message that is too large, have exactly the messages before.

Outputs are closed, full, or take a number of bytes: what was taken is a prefix, the status is 3, and nothing more is read. A
standard error that fails in these ways changes nothing else. Messages of 64 MiB have one segment and 511.

What isn't installed is said in a line of its own. The last line is 'N passed, M failed', and the status is 1 if a case
failed.
"""
import fcntl
import os
import random
import resource
import select
import signal
import struct
import subprocess
import sys
import tempfile
import termios
import time
from collections import Counter
from functools import cache
from pathlib import Path

sys.path[1:1] = map(str, Path(__file__).resolve().parents[1].iterdir())

import demands
import readers
import trees
from amount import cases
from clap_texts import spare
from harness import PROGRAM, TOP, compare, ended, expect, framed, outputs, table
from made import made_up
from needs import missing
from packing import packed

MANY = cases(5_000, full=10_000)  # changed messages
MIB = 1 << 20
# How many MiB the program has resident beside its messages.
SPARE = spare(PROGRAM)
SECONDS = 60
FAILED = b"capvet: output failed\n"
# The options over all changed messages. `vet` has the first two as --strict and --unamplified.
OPTIONS = ("", "--allow-nonstrict", "--allow-amplified", "--allow-nonstrict --allow-amplified", "--exclusive",
           "--exclusive --allow-nonstrict --allow-amplified", "--words 60 --depth 4", "--packed", "--pack",
           "--packed --pack --exclusive --allow-nonstrict")
# What `vet` says of changed messages that `filter` leaves out, and the least of each in 10,000.
REASONS = {"Reserved": 100, "OutOfSegment": 100, "PadOutside": 50, "NoRoot": 50, "NullPad": 20, "EmptySegment": 20,
           "CapabilityPad": 20, "ManySegments": 5, "WordLimit": 50, "Overlap": 20}


def run(words, stdin=b"", **how):
    """Both outputs of the program, and its status."""
    return outputs([PROGRAM, *words], stdin, **how)


def filtered(options, stream, **how):
    return run(["filter", *options.split()], stream, **how)


# What has to be passed on

def cut(stream):
    """The messages of a stream one after another, each as the list of its segments."""
    at = 0
    while at < len(stream):
        count = struct.unpack_from("<I", stream, at)[0] + 1
        sizes = struct.unpack_from(f"<{count}I", stream, at + 4)
        at += 8 * (count // 2 + 1)
        segments = []
        for size in sizes:
            segments.append(stream[at:at + 8 * size])
            at += 8 * size
        yield segments


def table_of(segments):
    return table([len(it) // 8 for it in segments])


@cache
def packed_part(part):
    return packed(part)


def packed_frame(segments):
    return b"".join(map(packed_part, (table_of(segments), *segments)))


def asked(options):
    """The words of `vet` for the options of `filter`."""
    words = ["vet"]
    if "--allow-nonstrict" not in options:
        words.append("--strict")
    if "--allow-amplified" not in options:
        words.append("--unamplified")
    return words + [it for it in options if it not in ("--allow-nonstrict", "--allow-amplified", "--pack", "--stop")]


def to_pass_on(options, stream, given):
    """What `filter` has to write of a stream that comes as these bytes: both outputs, and the status."""
    options = options.split()
    out, err, status = run(asked(options), given)
    write = packed_frame if "--pack" in options else lambda segments: framed(*segments)
    frames, lines = [], []
    for line, segments in zip(out.splitlines(keepends=True), cut(stream)):
        if b" accepted " in line:
            frames.append(write(segments))
            continue
        lines.append(line)
        if "--stop" in options:
            return b"".join(frames), b"".join(lines), 1
    return b"".join(frames), b"".join(lines) + err, status


def case(name, options, stream, given=None):
    """One run over a stream, and what it wrote."""
    given = stream if given is None else given
    got = filtered(options, given)
    compare(f"filter {options}, {name}", to_pass_on(options, stream, given), got)
    return got


# Messages

NULL, CYCLE = bytes.fromhex(demands.NULL), bytes.fromhex(demands.CYCLE)
SHARED = bytes.fromhex(demands.SHARED)
# A struct with a text, in the second of two segments. The padding of the table isn't zero.
PADDED = bytes.fromhex(
    "0100000001000000 04000000deadbeef 0200000001000000 0000000001000100 2a00000000000000 0100000042000000 "
    "6f6e652074776f00")
LINE = "message {}: refused DepthLimit at 0:0 pointers 65\n"


def lines_of(*numbers):
    """The lines of refused circles."""
    return "".join(map(LINE.format, numbers)).encode()


def accepted(*messages):
    """The frames of messages that are accepted."""
    return b"".join(framed(*segments) for message in messages for segments in cut(message))


def padded(message, chance):
    """The message with padding that isn't zero, if its table has padding."""
    count = struct.unpack_from("<I", message)[0] + 1
    return message if count % 2 else message[:4 + 4 * count] + chance.randbytes(4) + message[8 + 4 * count:]


def samples():
    """The messages of the samples that are strict, as trees. Small ones come often."""
    paths = [path for path in sorted((TOP / "examples").glob("*.bin")) if path.name != "cycle.bin"]
    all_trees = [readers.Tree(it) for path in paths for it in trees.messages(path.read_bytes())]
    return 4 * [tree for tree in all_trees if sum(map(len, tree.segments)) < 130] + all_trees


def amplified(chance):
    """A message that shares words, or has elements without words: at the limit of unamplified ones, and about it."""
    text = chance.choice((demands.chain(chance.randrange(9, 13)), demands.elements(4096 + chance.randrange(4)),
                          demands.elements(9096 + chance.randrange(4), 5000), demands.apart(4098 + chance.randrange(4))))
    return bytes.fromhex(text)


def runs():
    """Messages with a null root and runs of equal words, which would go on from one part of a frame into the next."""
    for word in (bytes(8), b"\x8a" * 8, b"\x8a" * 7 + b"\0"):
        for sizes in (0, 0), (0, 0, 0), (1, 2, 0), (3, 1), (254, 2, 255), (260, 0, 260), (5, 600):
            segments = [bytes(8) + sizes[0] * word, *(size * word for size in sizes[1:])]
            yield framed(*segments)


def changed(count):
    """Messages of a fixed seed, most of them changed samples."""
    chance, bases = random.Random(40), samples()
    for _ in range(count):
        kind = chance.randrange(40)
        if kind == 0:
            yield amplified(chance)
        elif kind < 10:
            yield padded(made_up(chance), chance)
        else:
            yield padded(framed(*readers.changed(chance.choice(bases), chance)), chance)


def over_samples():
    """Each sample, from a file and from standard input, plain and packed, with each set of options."""
    for path in sorted((TOP / "examples").rglob("*.bin")):
        stream = path.read_bytes()
        for options in OPTIONS:
            given = packed(stream) if "--packed" in options else stream
            expected = case(path.name, options, stream, given)
            with tempfile.NamedTemporaryFile() as file:
                file.write(given)
                file.flush()
                got = run(["filter", *options.split(), file.name])
                compare(f"filter {options}, {path.name} from a file", expected, got)
    path = TOP / "examples/contacts.packed"
    expected = (TOP / "examples/contacts.bin").read_bytes(), b"", 0
    compare("filter --packed, contacts.packed", expected, run(["filter", "--packed", path]))


def over_changed(messages):
    """All messages in one stream, with each set of options, and what `vet` says of the output."""
    stream = b"".join(messages)
    as_packed, reasons = packed(stream), Counter()
    for options in OPTIONS:
        is_packed, packs = "--packed" in options, "--pack " in f"{options} "
        out, err, _ = case(f"{len(messages)} messages", options, stream, as_packed if is_packed else stream)
        lines = err.decode().splitlines()
        if "--words" not in options:
            reasons |= Counter(line.split()[3] for line in lines)
        words = asked([it for it in options.split() if it != "--packed"]) + (["--packed"] if packs else [])
        again, faults, status = run(words, out)
        count = len(messages) - len(lines)
        again = again.count(b" accepted "), faults, status
        expect(f"filter {options}: all that is passed on is accepted once more", again == (count, b"", 0), count, again)
        few = 10 * min(count, len(lines)) < len(messages)
        expect(f"filter {options}: some are passed on, and some aren't", not few, count, len(lines))
    with_padding = sum(framed(*it) != message for it, message in zip(cut(stream), messages))
    expect("padding that isn't zero occurs", 20 * with_padding >= len(messages), with_padding)
    few = {name: reasons[name] for name, least in REASONS.items() if reasons[name] < least * len(messages) // 10_000}
    expect("each reason occurs", not few, few)
    print(f"filter: {len(messages)} messages, refused for {dict(reasons)}")


def stopping(messages):
    """Streams of a few changed messages with --stop, plain and packed."""
    ended = 0
    for at in range(0, len(messages), 50):
        stream = b"".join(messages[at:at + 1 + at // 50 % 7])
        for options in ("--stop", "--stop --pack", "--stop --packed --allow-nonstrict"):
            given = packed(stream) if "--packed" in options else stream
            _, err, _ = case(f"messages from {at}", options, stream, given)
            ended += err.count(b"\n")
    expect("--stop ends some runs", 200 * ended >= len(messages), ended)
    # what comes after the refused message isn't looked at
    broken = b"\xff" * 8
    for options, given in ("--stop", NULL + CYCLE + broken), ("--stop --packed", packed(NULL + CYCLE) + b"\xff"):
        compare(f"filter {options}, a refused message and then a fault", (NULL, lines_of(1), 1), filtered(options, given))
    case("all are accepted", "--stop", NULL + SHARED + PADDED)
    case("a fault and no refused message", "--stop", NULL + broken)


def has_struct(message):
    """Whether the root of a message is a struct or null: `capnp convert` copies no others."""
    return trees.node_of(message, 0, 0).head.split()[0] in ("struct", "null")


def converted(conversion, stream):
    """What `capnp convert` makes of a stream, what it says, and its status."""
    command = ["capnp", "convert", "--quiet", conversion]
    # (it warns where PWD is another folder, as after `make -C`)
    environment = {**os.environ, "PWD": os.getcwd()}
    out, err, status = outputs(command, stream, env=environment)
    return out, err[:300], status


def by_libcapnp(messages):
    """`capnp convert` reads packed output, and gets what it gets of the plain frames."""
    if missing("packed output by capnp convert", "capnp"):
        return
    lines = run(["vet", "--strict", "--unamplified"], b"".join(messages))[0].splitlines()
    some = [message for message, line in zip(messages, lines)
            if b" accepted " in line and line.endswith(b" caps 0") and has_struct(next(trees.messages(message)))]
    ran = filtered("--pack", b"".join(some))
    compare("filter --pack, for capnp convert", (b"".join(packed_frame(it) for it in cut(b"".join(some))), b"", 0), ran)
    expected = converted("binary:binary", accepted(*some))
    count = sum(1 for _ in cut(expected[0]))
    expect("capnp convert reads all of the frames", (count, *expected[1:]) == (len(some), b"", 0), count, len(some), expected[1:])
    compare("filter --pack, read by capnp convert", expected, converted("packed:binary", ran[0]))
    expect("these are many", 5 * count >= len(messages), count)


# Pipes that stay open

class Live:
    """A filter that is running, with pipes. What is left of it ends with the block."""

    def __init__(self, options, **how):
        pipes = {"stdin": subprocess.PIPE, "stdout": subprocess.PIPE, "stderr": subprocess.PIPE}
        self.ran = subprocess.Popen([PROGRAM, "filter", *options.split()], cwd=TOP, bufsize=0, **pipes | how)

    def __enter__(self):
        return self

    def __exit__(self, *_):
        self.ran.kill()
        self.ran.wait()
        for pipe in (self.ran.stdin, self.ran.stdout, self.ran.stderr):
            if pipe is not None:
                pipe.close()

    def send(self, data):
        """Sends bytes, in one write if the pipe takes them so. A filter that has ended gets nothing more."""
        try:
            while data:
                data = data[os.write(self.ran.stdin.fileno(), data):]
        except BrokenPipeError:
            pass

    def send_apart(self, data):
        """Starts a process that sends bytes, since the filter writes while it reads. Its number is for `os.waitpid`."""
        writer = os.fork()
        if writer == 0:
            self.send(data)
            os._exit(0)
        return writer

    def take(self, pipe, length):
        """What comes through a pipe, up to this many bytes, or until nothing came for a minute."""
        text = bytearray()
        while len(text) < length and select.select([pipe], [], [], SECONDS)[0]:
            part = os.read(pipe.fileno(), min(length - len(text), MIB))
            if not part:
                break
            text += part
        return bytes(text)

    def waits(self):
        """Waits until all input was taken and the process sleeps. Then both outputs have to be empty."""
        for _ in range(100 * SECONDS):
            unread = struct.unpack("i", fcntl.ioctl(self.ran.stdin.fileno(), termios.FIONREAD, bytes(4)))[0]
            state = Path(f"/proc/{self.ran.pid}/stat").read_text().rsplit(")", 1)[1].split()[0]
            if state == "Z" or unread == 0 and state == "S":
                break
            time.sleep(0.005)
        return select.select([self.ran.stdout, self.ran.stderr], [], [], 0)[0] == []

    def end(self):
        """Ends the input. The rest of both outputs, and the status."""
        self.ran.stdin.close()
        return self.take(self.ran.stdout, 64 * MIB), self.take(self.ran.stderr, MIB), self.status()

    def status(self):
        try:
            return self.ran.wait(SECONDS)
        except subprocess.TimeoutExpired:
            return "no end within a minute"


def halves(options, message, text):
    """A message and the beginning of the next one in one write, for each length of the beginning. The first is passed
    on before more comes. `text` is what is passed on of each."""
    given = packed(message) if "--packed" in options else message
    with Live(options) as live:
        sent, faults = 0, []
        for size in range(len(given)):
            live.send(given[sent:] + given[:size])
            sent = size
            if live.take(live.ran.stdout, len(text)) != text:
                faults.append(f"not passed on, with {size} bytes of the next")
                break
            if size % 16 == 0 and not live.waits():
                faults.append(f"more than the first, with {size} bytes of the next")
        live.send(given[sent:])
        rest = live.end()
    expect(f"filter {options}, a message and the beginning of the next, {message[:24].hex()}", not faults, *faults)
    compare(f"filter {options}, the last of them", (text, b"", 0), rest)


def refused_halves(options, given):
    """The same with a refused message: its line comes before the next one is read."""
    with Live(options) as live:
        sent, faults = 0, []
        for number in range(len(given)):
            live.send(given[sent:] + given[:number])
            sent = number
            line = lines_of(number)
            if live.take(live.ran.stderr, len(line)) != line:
                faults.append(f"no line, with {number} bytes of the next")
                break
        live.send(given[sent:])
        rest = live.end()
    expect(f"filter {options}, a refused message and the beginning of the next", not faults, *faults)
    compare(f"filter {options}, the last refused one", (b"", lines_of(len(given)), 1), rest)


def runs_of_zeros():
    """A packed run of zero words that ends a message, and goes on through messages without words."""
    first = bytes.fromhex("0000000003000000 0000000002000000 0100000000000000 0000000000000000")
    empty = bytes(8)
    line = "message {}: refused NoRoot at 0:0 pointers 0\n"
    for more in range(3):
        whole = packed(first + more * empty + NULL)
        with Live("--packed") as live:
            live.send(whole[:-1])
            out = live.take(live.ran.stdout, len(first))
            lines = "".join(line.format(1 + number) for number in range(more)).encode()
            err = live.take(live.ran.stderr, len(lines))
            live.send(whole[-1:])
            rest = live.end()
        expected = first, lines, (NULL, b"", int(more > 0))
        compare(f"filter --packed, a run of zeros through {more} messages", expected, (out, err, rest))


def both_outputs():
    """Messages of each kind and the beginning of one, in one write."""
    stream = NULL + CYCLE + PADDED + CYCLE + SHARED
    expected, lines = accepted(NULL, PADDED, SHARED), lines_of(1, 3)
    for options in ("", "--packed", "--pack"):
        given = packed(stream) + packed(SHARED)[:7] if "--packed" in options else stream + SHARED[:7]
        text = b"".join(map(packed_frame, cut(expected))) if options == "--pack" else expected
        with Live(options) as live:
            live.send(given)
            out, err = live.take(live.ran.stdout, len(text)), live.take(live.ran.stderr, len(lines))
            waits, rest = live.waits(), live.end()
        compare(f"filter {options}, messages of each kind in one write", (text, lines, True), (out, err, waits))
        broken = f"capvet: message 5: Truncated at byte {len(given)}\n".encode()
        compare(f"filter {options}, the end of that input", (b"", broken, 1), rest)


def whole_and_half():
    """Whole messages and the beginning of one in one write, for each length of the beginning. All that are whole come
    out before more comes. Plain ones share a write."""
    streams = {
        "three messages": (NULL + PADDED + SHARED, accepted(NULL, PADDED, SHARED), b""),
        "a refused one between two": (NULL + CYCLE + PADDED, accepted(NULL, PADDED), lines_of(1)),
        "a refused one after two": (NULL + PADDED + CYCLE, accepted(NULL, PADDED), lines_of(2)),
    }
    for name, (stream, expected, lines) in streams.items():
        for options in ("", "--packed", "--pack"):
            is_packed = "--packed" in options
            given, more = (packed(stream), packed(PADDED)) if is_packed else (stream, PADDED)
            text = b"".join(map(packed_frame, cut(expected))) if options == "--pack" else expected
            faults = []
            for size in range(len(more)):
                with Live(options) as live:
                    live.send(given + more[:size])
                    got = live.take(live.ran.stdout, len(text)), live.take(live.ran.stderr, len(lines)), live.waits()
                if got != (text, lines, True):
                    faults.append(f"{got}, with {size} bytes of the next")
            expect(f"filter {options}, {name} and the beginning of one more", not faults, *faults)
    for options in ("", "--pack"):
        text = b"".join(map(packed_frame, cut(3 * NULL))) if options else 3 * NULL
        with Live(options) as live:
            live.send(3 * NULL + NULL[:7])
            first = select.select([live.ran.stdout], [], [], SECONDS)[0] and os.read(live.ran.stdout.fileno(), MIB)
        expect(f"filter {options}, three messages share a write", first == text, first)


def many_at_once():
    """More messages than buffers hold, of which some are refused, and the beginning of one."""
    part = NULL + PADDED + SHARED
    stream = (50 * part + CYCLE) * 200
    expected, lines = accepted(part) * 10_000, lines_of(*range(150, 151 * 200, 151))
    for options in ("", "--packed", "--pack"):
        given = packed(stream + SHARED)[:-3] if "--packed" in options else stream + SHARED[:-3]
        text = b"".join(map(packed_frame, cut(accepted(part)))) * 10_000 if options == "--pack" else expected
        with Live(options) as live:
            writer = live.send_apart(given)
            out, err = live.take(live.ran.stdout, len(text)), live.take(live.ran.stderr, len(lines))
            os.waitpid(writer, 0)
            compare(f"filter {options}, many messages at once", (text, lines, True), (out, err, live.waits()))


def in_sips():
    """A stream of which one, three or seven bytes come at a time."""
    stream = NULL + PADDED + CYCLE + SHARED
    for options in ("", "--packed", "--pack", "--packed --pack"):
        given = packed(stream) if "--packed" in options else stream
        for most in 1, 3, 7:
            with Live(options) as live:
                for at in range(0, len(given), most):
                    live.send(given[at:at + most])
                compare(f"filter {options}, in sips of {most} bytes", to_pass_on(options, stream, given), live.end())


def live_pipes():
    for options in ("", "--packed"):
        for message in (NULL, SHARED, PADDED):
            halves(options, message, accepted(message))
            halves(f"{options} --pack".strip(), message, packed_frame(next(cut(message))))
    halves("", (TOP / "examples/telemetry.bin").read_bytes()[:1624], (TOP / "examples/telemetry.bin").read_bytes())
    refused_halves("", CYCLE)
    refused_halves("--packed", packed(CYCLE))
    runs_of_zeros()
    both_outputs()
    whole_and_half()
    many_at_once()
    in_sips()
    # with --stop it ends while the input stays open
    with Live("--stop") as live:
        live.send(PADDED + CYCLE + NULL[:3])
        status = live.status()
        got = live.take(live.ran.stdout, MIB), live.take(live.ran.stderr, MIB), status
    compare("filter --stop, with an input that stays open", (accepted(PADDED), lines_of(1), 1), got)


# Faults of the input

def broken_streams():
    """Streams that are cut at each byte, and messages larger than a limit, after some messages."""
    before = NULL + CYCLE + PADDED
    for options in ("", "--packed", "--pack", "--packed --pack", "--stop --exclusive"):
        is_packed = "--packed" in options
        first = NULL + PADDED if "--stop" in options else before
        last = len(packed(PADDED)) if is_packed else len(PADDED)
        for size in range(1, last):
            given = packed(first) + packed(PADDED)[:size] if is_packed else first + PADDED[:size]
            _, err, _ = case(f"cut after byte {size} of a message", options, first + PADDED, given)
            expect("the line of a cut frame", err.endswith(f"Truncated at byte {len(given)}\n".encode()), err)
    # (tables that say 513 segments, too many words, and a message that is too large for --size)
    for options, more, said in (("", "0002000000000000", b"TooManySegments 513"),
                                ("", "0000000001008000", b"TooLarge 8388609"),
                                ("--size 6", "0000000007000000", b"TooLarge 7"),
                                ("--size 6", demands.CYCLE, None)):
        for packs in ("", " --packed", " --pack"):
            stream = before + bytes.fromhex(more)
            _, err, _ = case(f"then {more}", options + packs, stream, packed(stream) if "packed" in packs else stream)
            last = lines_of(1) + (b"capvet: message 3: " + said + b"\n" if said else lines_of(3))
            expect(f"the lines before and of {more}", err == last, err)
    compare("filter of a directory", (b"", b"capvet: message 0: Device\ncapvet: Is a directory (os error 21)\n", 3), run(["filter", "examples"]))
    missing = "examples/missing.bin"
    compare("filter of no file", (b"", f"capvet: cannot open {missing}\ncapvet: No such file or directory (os error 2)\n".encode(), 3),
            run(["filter", missing]))
    compare("filter of nothing", (b"", b"", 0), run(["filter"]))


def limit_memory():
    resource.setrlimit(resource.RLIMIT_AS, (40 << 20, 40 << 20))


def out_of_memory():
    """A message of 64 MiB in less address space than that, after other messages."""
    stream = NULL + CYCLE + struct.pack("<II", 0, 64 << 17)
    compare("filter, with too little memory for a message", (NULL, lines_of(1) + b"capvet: message 2: Memory\n", 3),
            run(["filter"], stream, preexec_fn=limit_memory))


# Outputs that fail

def closed_pipe():
    """The writing end of a pipe that nobody reads any more."""
    reader, writer = os.pipe()
    os.close(reader)
    return os.fdopen(writer, "wb")


def closed_output():
    """Standard output is closed or full. Nothing more is read, of an input that stays open and of a long one."""
    for what, open_it in ("closed", closed_pipe), ("full", lambda: open("/dev/full", "wb")):
        with open_it() as stdout:
            for options in ("", "--pack", "--stop"):
                before, lines = (b"", b"") if "--stop" in options else (CYCLE, lines_of(0))
                with Live(options, stdout=stdout) as live:
                    live.send(before + NULL)
                    status = live.status()
                    got = b"", live.take(live.ran.stderr, MIB), status
                compare(f"filter {options}, with an output that is {what}", (b"", lines + FAILED, 3), got)
            # what is refused needs no output
            for stream, lines in (b"", b""), (CYCLE * 3, lines_of(0, 1, 2)):
                got = filtered("", stream, stdout=stdout)
                name = f"filter of {len(stream)} bytes, with an output that is {what}"
                compare(name, (b"", lines, int(bool(stream))), got)
            # (a frame goes out before the rest of a message is waited for)
            cut_one = b"capvet: message 0: Truncated at byte 4\n"
            for stream, err, status in (NULL + bytes(4), FAILED, 3), (bytes(4), cut_one, 1):
                got = filtered("", stream, stdout=stdout)
                compare(f"filter of {len(stream)} bytes, cut, with an output that is {what}", (b"", err, status), got)
    with tempfile.TemporaryFile() as file, closed_pipe() as stdout:
        file.write(large_message(MIB >> 3) * 8)
        file.seek(0)
        _, err, status = filtered("", file, stdout=stdout)
        taken = os.lseek(file.fileno(), 0, os.SEEK_CUR)
    compare("filter of eight messages, with an output that is closed", (b"", FAILED, 3), (b"", err, status))
    expect("what it read of them", taken <= MIB + 2 * 65536, taken)


def limit_files(size):
    """For a process that is about to start: its files take `size` bytes, and a write past that fails."""
    signal.signal(signal.SIGXFSZ, signal.SIG_IGN)
    resource.setrlimit(resource.RLIMIT_FSIZE, (size, size))


def short_outputs():
    """An output that takes a number of bytes, and a reader that takes a number of bytes and leaves."""
    # (the messages before the refused one, the refused one, and the rest)
    front, rest = NULL + PADDED, SHARED + NULL + PADDED
    stream = front + CYCLE + rest
    for options in ("", "--pack", "--packed"):
        given = packed(stream) if "--packed" in options else stream
        text, lines, _ = to_pass_on(options, stream, given)
        before = sum(len(packed_frame(it)) for it in cut(front)) if options == "--pack" else len(front)
        for size in range(len(text)):
            with tempfile.TemporaryFile() as out:
                _, err, status = filtered(options, given, stdout=out, preexec_fn=lambda: limit_files(size))
                out.seek(0)
                got = out.read()
            # (the frames before a refused message are flushed before its line is written)
            said = FAILED if size < before else lines + FAILED
            expect(f"filter {options}, to a file that takes {size} bytes",
                   (got, err, status) == (text[:size], said, 3), got, err, status)
            with Live(options) as live:
                live.send(given)
                got = live.take(live.ran.stdout, size)
                live.ran.stdout.close()
                live.ran.stdout = None
                live.send(given * 20_000)
                status = live.status()
            expect(f"filter {options}, to a reader that leaves after {size} bytes",
                   (got, status) == (text[:size], 3), got, status)


def closed_errors():
    """Standard error is closed, full, or takes a number of bytes: output and status are the same."""
    stream = CYCLE + NULL + CYCLE + PADDED + CYCLE
    for options in ("", "--pack", "--stop"):
        text, lines, status = to_pass_on(options, stream, stream)
        for what, open_it in ("closed", closed_pipe), ("full", lambda: open("/dev/full", "wb")):
            with open_it() as stderr:
                got = filtered(options, stream, stderr=stderr)
                compare(f"filter {options}, with a standard error that is {what}", (text, b"", status), got)
        # (its number is free, and the file of the stream may get it)
        with tempfile.NamedTemporaryFile() as file:
            file.write(stream)
            file.flush()
            words = ["sh", "-c", 'exec "$@" 2>&-', "sh", PROGRAM, "filter", *options.split(), file.name]
            ran = subprocess.run(words, stdout=subprocess.PIPE, stdin=subprocess.DEVNULL, timeout=SECONDS)
        compare(f"filter {options}, without a standard error", (text, b"", status), (ran.stdout, b"", ran.returncode))
        for size in range(len(lines)):
            with tempfile.TemporaryFile() as err:
                out, _, got = filtered(options, stream, stderr=err, preexec_fn=lambda: limit_files(size))
                err.seek(0)
                compare(f"filter {options}, with a standard error that takes {size} bytes", (text, lines[:size], status),
                        (out, err.read(), got))
    # a line that can't be written is the last one
    reader, writer = os.pipe()
    os.set_blocking(writer, False)
    while True:
        try:
            os.write(writer, bytes(4096))
        except BlockingIOError:
            break
    with Live("", stderr=writer) as live, os.fdopen(reader, "rb", 0) as lines:
        live.send(CYCLE + NULL)
        out = live.take(live.ran.stdout, len(NULL))
        while select.select([lines], [], [], 0)[0]:
            os.read(reader, MIB)
        live.send(CYCLE + NULL)
        out += live.take(live.ran.stdout, len(NULL))
        live.ran.stdin.close()
        status = live.status()
        more = select.select([lines], [], [], 0)[0] and os.read(reader, MIB)
    os.close(writer)
    # (the first line is buffered, so it may come at the end)
    got = out, (more or b"").removeprefix(lines_of(0)), status
    compare("filter, with a standard error that took no line before", (2 * NULL, b"", 1), got)


# Large messages

def large_message(words):
    """A message of one segment: a list of bytes, all of them zero."""
    count = words - 1
    return struct.pack("<IIII", 0, words, 1, 8 * count << 3 | 2) + bytes(8 * count)


def large_segments(words):
    """A message of 511 segments. The first has a far pointer to a list of bytes in the last. Each of the others has one
    kind of words, or none."""
    kinds = [bytes(8), b"\x8a" * 8, b"\x8a" * 7 + b"\0", b"\1" + bytes(7), b""]
    others = [kinds[at % 5] * (1 << 14) for at in range(509)]
    count = words - sum(map(len, others)) // 8 - 2
    return [struct.pack("<Q", 510 << 32 | 2), *others, struct.pack("<II", 1, 8 * count << 3 | 2) + bytes(8 * count)]


def zeros_packed(count):
    """A packed run of zero words."""
    return b"\0\xff" * (count // 256) + (bytes((0, count % 256 - 1)) if count % 256 else b"")


def large_packed(segments):
    """The packed frame of such segments. Of a kind of words that repeats, the text repeats too."""
    parts = [packed(table_of(segments))]
    for segment in segments:
        head = packed(segment[:8])
        same = segment[8:16] if len(segment) > 8 else b""
        rest = len(segment) // 8 - 1
        parts.append(head + zeros_packed(rest) if same == bytes(8) and segment[:8] != same else packed_part(segment))
    return b"".join(parts)


def most_memory(process):
    """The most memory that a running process ever had resident, in KiB."""
    status = Path(f"/proc/{process.pid}/status").read_text()
    return int(status.split("VmHWM:")[1].split()[0])


def large(name, options, stream, text, most):
    """A large message twice, from a pipe that stays open: its bytes, and the memory in KiB."""
    with Live(options) as live:
        writer = live.send_apart(stream + stream)
        faults = ["the text differs"] * (live.take(live.ran.stdout, len(text)) != text)
        faults += ["the second text differs"] * (live.take(live.ran.stdout, len(text)) != text)
        os.waitpid(writer, 0)
        memory = most_memory(live.ran)
        faults += [f"{memory} KiB"] * (memory > most) + ["there is more"] * (not live.waits())
        faults += [it for it in (live.end(),) if it != (b"", b"", 0)]
    expect(f"filter {options}, {name}", not faults, *faults)


def large_messages():
    """Messages of 64 MiB, which the default limits allow. The memory is the message and SPARE MiB, and with --exclusive a
    64th of the message more."""
    words = 64 << 17
    stream = large_message(words)
    kib = 1 << 10
    large("a message of 64 MiB", "", stream, stream, (64 + SPARE) * kib)
    large("a message of 64 MiB", "--exclusive", stream, stream, (64 + 1 + SPARE) * kib)
    text = packed(stream[:8]) + packed(stream[8:16]) + zeros_packed(words - 1)
    large("a message of 64 MiB", "--pack", stream, text, (64 + SPARE) * kib)
    large("a message of 64 MiB", "--packed", text, stream, (64 + SPARE) * kib)
    segments = large_segments(words)
    stream = framed(*segments)
    large("511 segments of 64 MiB", "", stream, stream, (64 + SPARE) * kib)
    large("511 segments of 64 MiB", "--pack", stream, large_packed(segments), (64 + SPARE) * kib)
    # from a file, through `cat`
    with tempfile.NamedTemporaryFile() as file:
        file.write(CYCLE + stream + CYCLE + stream + PADDED)
        file.flush()
        with subprocess.Popen([PROGRAM, "filter", file.name], stdout=subprocess.PIPE, stderr=subprocess.PIPE) as ran:
            out = subprocess.run(["cat"], stdin=ran.stdout, stdout=subprocess.PIPE, timeout=SECONDS).stdout
            expected = stream + stream + accepted(PADDED), lines_of(0, 2), 1
            compare("filter of large messages from a file, into cat", expected, (out, ran.stderr.read(), ran.wait(SECONDS)))


def main():
    messages = [*runs(), *changed(MANY)]
    over_samples()
    over_changed(messages)
    stopping(messages)
    by_libcapnp(messages)
    live_pipes()
    broken_streams()
    out_of_memory()
    closed_output()
    short_outputs()
    closed_errors()
    large_messages()
    return ended()


if __name__ == "__main__":
    sys.exit(main())
