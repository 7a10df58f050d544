"""The rules of tests/fuzz/python/python_fuzz.py for `python -m capvet`, whose commands run in this process.

- `tree` has a line for each message and node, and its JSON says of each node what `node` says.
- `vet` counts the messages that `messages` gives, and has a row for each refused one. If a process ends, only the file that it
  was at is lost.
- `map` writes a page about a message, if there is such a message.
- The status says whether an output fails, whether the user interrupts, and whether memory runs out.
"""
import contextlib
import csv
import dataclasses
import io
import json
import math
import os
import re
import signal
import sys
import tempfile
from pathlib import Path
from unittest import mock

import capvet
from capvet import commands, mapping, tree, vetting

# The most nodes of a message that are compared.
NODES = 60
WRONG = (["tree", "--depth", "257"], ["tree", "--size", "x"], ["vet"], ["vet", "--jobs", "0", "a"], ["map"], ["none"], [],
         ["vet", "--files0-from", "a", "b"])


def words_of(limits):
    """The options of a command line for these limits. (By default a command accepts what is not strict, and what is amplified)"""
    words = ["--size", str(limits.message_words), "--words", str(limits.charge), "--depth", str(limits.depth)]
    return words + ["--strict"] * (not limits.allow_nonstrict) + ["--unamplified"] * (not limits.allow_amplified)


class Terminal(io.StringIO):
    """An output that says that it is a terminal. It raises an error after some writes or flushes, as often as `times` says."""

    def __init__(self, error=None, writes=math.inf, flushes=math.inf, times=math.inf):
        super().__init__()
        self.error, self.writes, self.flushes, self.times = error, writes, flushes, times
        self.descriptor = os.memfd_create("terminal")

    def raise_at(self, left):
        if left < 0 and self.times > 0:
            self.times -= 1
            raise self.error

    def isatty(self):
        return True

    def write(self, text):
        self.writes -= 1
        self.raise_at(self.writes)
        return super().write(text)

    def flush(self):
        self.flushes -= 1
        self.raise_at(self.flushes)

    def fileno(self):
        return self.descriptor

    def __del__(self):
        os.close(self.descriptor)


class Ascii(io.TextIOWrapper):
    """A terminal that lacks most characters."""

    def __init__(self):
        super().__init__(io.BytesIO(), "ascii")

    def getvalue(self):
        self.flush()
        return self.buffer.getvalue().decode("ascii")


def ran(*words, out=io.StringIO, err=io.StringIO):
    """The status of a command, and what it writes on both outputs. One that is None is closed."""
    out, err = (it() if isinstance(it, type) else it for it in (out, err))
    with contextlib.redirect_stdout(out), contextlib.redirect_stderr(err):
        try:
            status = commands.main([str(it) for it in words])
        except SystemExit as end:
            status = end.code
    return (status, *(it.getvalue() if it else "" for it in (out, err)))


def seen(data, packed, limits):
    """The messages of a stream, and the error at its end."""
    found = []
    try:
        for it in capvet.read_messages(io.BytesIO(data), packed=packed, limits=limits):
            found.append(it)
    except capvet.FrameError as error:
        return found, error
    return found, None


def check_nodes(message, found):
    """The nodes of a tree in JSON are those at their paths."""
    left = [found["root"]]
    for _ in range(NODES):
        if not left:
            return
        one = left.pop()
        node = message.get(one["path"])
        assert node.kind == one["kind"] and node.text() in (None, one.get("text_guess"))
        assert one["kind"] != "struct" or len(one["data"]) == node.data_words
        assert one.get("count", node.count) == node.count and one.get("index", 0) == node.capability
        left += one.get("pointers", []) + one.get("elements", [])


def check_tree(file, data, packed, limits, words):
    found, end = seen(data, packed, limits)
    refused = end is not None or any(isinstance(it, capvet.Refusal) for it in found)
    status, text, said = ran("tree", *words, file)
    assert (status, text) == (int(refused), "".join("".join(tree.text_lines(it)) for it in found)) and bool(said) == (end is not None)
    status, text, _ = ran("tree", "--json", *words, file)
    lines = text.splitlines()
    assert status == int(refused) and len(lines) == len(found)
    for it, line in zip(found, map(json.loads, lines)):
        assert line["accepted"] == isinstance(it, capvet.Message) and line["offset"] == it.offset
        if isinstance(it, capvet.Message):
            check_nodes(it, line)


class Sent:
    """A connection that gives these names of files, keeps the parts that are sent, and is closed by its other end."""

    def __init__(self, *names):
        self.parts, self.names, self.is_closed = [], list(names), False

    def recv(self):
        if not self.names:
            raise EOFError
        return self.names.pop(0)

    def send(self, part):
        self.parts.append(part)

    def close(self):
        self.is_closed = True


def worked(names, how, most_rows):
    """The parts of one process for these files. It closes the connections of others, and leaves interrupts to the first process."""
    sent, other, handler = Sent([str(it) for it in names]), Sent(), signal.getsignal(signal.SIGINT)
    try:
        with mock.patch.object(vetting, "_MOST_ROWS", most_rows):
            vetting._work(sent, [other], how)
        assert other.is_closed and not sent.is_closed and signal.getsignal(signal.SIGINT) == signal.SIG_IGN
    finally:
        signal.signal(signal.SIGINT, handler)
    # (the last part alone says that nothing is left)
    assert [it.is_idle for it in sent.parts] == [False] * (len(sent.parts) - 1) + [True] and not sent.parts[-1].is_inside
    return sent.parts


def summed(parts):
    """What all parts count together, and their rows."""
    tally = vetting.Tally()
    for part in parts:
        tally.add(part.tally)
    return tally, "".join(part.rows for part in parts)


def check_vet(files, data, packed, limits, form, most_rows):
    """The parts of one process, over the same file and one that isn't there."""
    tally, rows = summed(worked(files, vetting.How(packed, limits, form), most_rows))
    found, end = seen(data, packed, limits)
    refused = [it for it in found if isinstance(it, capvet.Refusal)]
    assert (tally.files, tally.messages, tally.accepted) == (2, len(found), len(found) - len(refused))
    assert sum(tally.refused.values()) == len(refused) and sum(tally.failed.values()) == 1
    assert dict(tally.stopped) == ({end.reason: 1} if end else {})
    lines = list(csv.reader(io.StringIO(rows))) if form == "csv" else [list(json.loads(line).values()) for line in rows.splitlines()]
    assert len(lines) == (len(refused) + bool(end) + 1 if form else 0)
    for it, line in zip(refused, lines):
        assert [str(word) for word in line[1:5]] == [str(it.number), str(it.offset), it.reason, str((it.position or (0,))[0])]
    assert vetting.summary(tally).startswith(f"files 2 bytes {tally.bytes} messages {len(found)} ")


def check_map(file, data, packed, limits, words, folder):
    page, found = folder / "page.html", seen(data, packed, limits)[0]
    status, _, said = ran("map", "-o", page, "--message", 1, *words, file)
    # (the tests build no page without a message)
    mapping.PAGE = folder / "empty.html"
    mapping.PAGE.write_text("<p><!--given--></p>")
    if len(found) > 1:
        status, _, said = ran("map", "-o", page, "--message", 1, *words, file)
        assert page.read_text().startswith("<p><script") and status == int(isinstance(found[1], capvet.Refusal)) and not said
    else:
        assert status == 1 and said


def check_files(file, words):
    """The command `vet` by two processes: the bytes of the file are counted twice."""
    names = file.parent / "names"
    names.write_bytes(f"{file}\0{file}\0".encode())
    one, other = ran("vet", "--jobs", 2, *words, file, file), ran("vet", "--jobs", 2, *words, "--files0-from", names)
    assert one == other and one[1].startswith(f"files 2 bytes {2 * file.stat().st_size} ")
    status, _, said = ran("vet", "--json", *words, file, file, err=Terminal())
    assert status == one[0] and said.count("%") > 0 and said.endswith(one[1])
    # (standard input has nothing here)
    assert ran("tree") == (0, "", "") and ran("vet", "--files0-from", "-")[1].startswith("files 0 ")
    status, rows, said = ran("vet", "--csv", *words, file)
    assert rows.startswith("file,message,offset") and said.startswith("files 1 ") and status == one[0]


def check_ends(file, words):
    """What isn't about the input has a status of its own, and the first place that doesn't fail says it."""
    none, broken = file.parent / "n\u00f6ne", OSError("broken")
    said = ran("tree", none, err=Ascii())
    assert said[0] == 3 and said[1] == "" and "n\\xf6ne" in said[2]
    # (each file is a part, which hides the bar if there is a line about it)
    with mock.patch.object(vetting, "_SECONDS", 0):
        status, text, said = ran("vet", *words, file, none, err=Terminal())
    fault = f"capvet: [Errno 2] No such file or directory: '{none}'"
    assert status == 3 and "\r\x1b[K" in said and "failed FileNotFoundError 1\n" in text and said.count(fault) == 1
    for out in (Terminal(broken, writes=0), *(Terminal(broken, flushes=number) for number in range(4)), None):
        status, _, said = ran("vet", *words, file, none, out=out, err=Terminal())
        assert status == 3 and said.endswith("capvet: output failed\n") and not signal.pthread_sigmask(signal.SIG_BLOCK, ())
    out = Terminal(broken, flushes=1)
    assert ran("vet", *words, file, out=out, err=Terminal(broken, writes=0))[0] == 3
    # (nothing is written to it any more)
    assert os.fstat(out.fileno()).st_rdev == os.stat(os.devnull).st_rdev
    status, text, said = ran("vet", *words, file, err=Terminal(KeyboardInterrupt, writes=0, times=1))
    assert (status, text) == (130, "") and re.fullmatch(r"capvet: stopped after [01] files, \d+ messages and \d+ bytes\n", said)
    assert ran("vet", *words, file, out=Terminal(KeyboardInterrupt, writes=0, times=1))[0] == 130
    with mock.patch.object(sys, "stdin", None):
        assert ran("tree") == (3, "", "capvet: standard input is closed\n")
    for error, text in ((MemoryError, "capvet: out of memory\n"), (RuntimeError, "RuntimeError\n")):
        with mock.patch.object(commands, "read_messages", side_effect=error):
            status, _, said = ran("tree", file)
        assert status == 3 and said.endswith(text)


def check_killed(file, words, chance):
    """Processes that end at a file, inside of it, or once they have sent all. Each file is counted once, and at most one is lost."""
    names = [file.parent / f"copy-{number}" for number in range(3)]
    for name in names:
        name.write_bytes(file.read_bytes())
    lost, way, most = str(chance.choice(names)), chance.choice(("at", "inside", "after")), chance.choice((1, vetting._MOST_FILES))
    vet, vet_file, send = vetting._Run.vet, vetting._Run.vet_file, vetting._Run.send

    def vet_or_end(run, names, given):
        vet(run, names, given)
        if way == "after":
            run.connection.close()
            os._exit(1)

    def file_or_end(run, name, given):
        run.is_at_lost = name == lost
        return os._exit(9) if run.is_at_lost and way == "at" else vet_file(run, name, given)

    def send_or_end(run, is_inside, is_idle):
        send(run, is_inside, is_idle)
        if is_inside and run.is_at_lost and way == "inside":
            os._exit(9)
    expected = ran("vet", *words, *(it for it in names if way != "at" or str(it) != lost))
    with mock.patch.multiple(vetting._Run, vet=vet_or_end, vet_file=file_or_end, send=send_or_end), \
            mock.patch.multiple(vetting, _MOST_FILES=most, _SECONDS=0 if way == "inside" else vetting._SECONDS):
        status, text, said = ran("vet", *words, "--jobs", chance.choice((1, 2)), *names)
    if way == "after" or file.stat().st_size == 0:
        # (one that ends between two files may have got the second one)
        assert way == "after" and most == 1 and text.startswith("files 3 ") or way == "at" or (status, text, said) == expected
        return
    head, _, rest = expected[1].partition("\n")
    end = f"{head.replace('files 2', 'files 3')}\n{rest}failed KilledWorker 1\n"
    assert status == 3 and text.startswith("files 3 ") and text.endswith("failed KilledWorker 1\n")
    assert way == "inside" or text == end
    assert said == f"capvet: {lost}: the process that vetted it was killed (status 9)\n"


def check(data, limits, chance):
    """The rules of the commands for one input. Few inputs run commands with other processes."""
    if len(data) > 1 << 13:
        return
    packed, exclusive = chance.randrange(2) == 0, dataclasses.replace(limits, exclusive=chance.randrange(2) == 0)
    words = words_of(limits) + ["--packed"] * packed
    with tempfile.TemporaryDirectory() as name:
        folder = Path(name)
        file = folder / "data"
        file.write_bytes(data)
        if len(seen(data, packed, limits)[0]) < NODES:
            check_tree(file, data, packed, limits, words)
            check_vet((file, folder / "none"), data, packed, exclusive, chance.choice((None, "csv", "json")),
                      chance.choice((1, 1 << 16)))
            check_map(file, data, packed, limits, words, folder)
        if chance.randrange(50) == 0:
            check_files(file, words)
            check_ends(file, words)
            check_killed(file, words, chance)
    assert ran(*chance.choice(WRONG))[0] == 2
