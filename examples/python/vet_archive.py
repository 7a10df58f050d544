#!/usr/bin/env python3
"""Vets the messages of an archive over the processes of a machine or of a cluster, by Dask.

    vet_archive.py [--workers N | --scheduler ADDRESS] [--refused CSV] [--log LOG [--resume]] [OPTIONS] FILE..

Each FILE is a stream of messages that all workers can open by this name: a path, or a name for fsspec such as s3://bucket/name.
With --compression infer, or the name of a compression that fsspec knows, files are unpacked while they are read. All workers
need the Python package `capvet`. By default a message has to be strict and unamplified, as for the functions of the package.

A worker gets many small files at a time. A file of more than --bytes is split into ranges of whole messages of about so many
bytes, unless it is packed or compressed. CSV and the summary are those of `python -m capvet vet`: a row for each refused message,
for each file that stops being a stream of messages, and for each file that can't be read. Other files are still vetted.

CSV is written from the beginning, and grows. LOG gets a line for each task that is done, with its files or its range. If a run is
stopped, the same command with --resume goes on: it vets what LOG doesn't have. If a worker dies, others do its tasks again.

The status is 0 if all messages are accepted, 1 if one is refused or a file is cut, 2 if the command line is wrong, and 3 if a
file can't be read, if something is killed, if the output fails, or if there is no cluster.
"""
import argparse
import csv
import io
import json
import logging
import os
import signal
import sys
import time
from collections import Counter, deque
from contextlib import ExitStack, contextmanager, suppress
from dataclasses import asdict, dataclass, field
from functools import lru_cache
from multiprocessing import resource_tracker
from tempfile import TemporaryDirectory
from typing import Any, Dict, Iterable, Iterator, List, Optional, Sequence, Set, TextIO, Tuple

import capvet
import distributed
import fsspec
from dask import config
from fsspec.utils import infer_compression

# (it has types for few of its functions)
dask: Any = distributed

COLUMNS = ("file", "message", "offset", "reason", "segment", "word", "pointer")
FIRST_PIECE, PIECE = 1 << 16, 1 << 20
"""The bytes that are read of a file at first, and then. (a small file takes less time with a small buffer)"""
UNPACKED = 1 << 16
"""The bytes that are read at once of a file that fsspec opens. `python -m capvet vet` reads as many."""
MOST_FILES, SECONDS = 512, 1.0
"""What a task has: so many files, of which those are given back that it has not begun after this time."""
LONGEST_TABLE = 2056
SHOWN_EACH = 0.2


@dataclass(frozen=True)
class How:
    """How files are vetted."""

    packed: bool
    limits: capvet.Limits
    compression: Optional[str]
    bytes: int


@dataclass(frozen=True)
class Part:
    """A file, or a range of whole messages in it. The last range of a file has no length: it goes to the end."""

    file: str
    start: int = 0
    length: Optional[int] = None
    first: int = 0
    """The number of its first message."""


@dataclass
class Found:
    """What is known of parts that are done. `counts` has bytes, messages, accepted, and "refused DepthLimit" and so on. It has no
    more for many files than for one, since each object takes time on its way to the client."""

    parts: List[Part] = field(default_factory=list)
    counts: "Counter[str]" = field(default_factory=Counter)
    rows: List[str] = field(default_factory=list)
    faults: List[str] = field(default_factory=list)

    def add_failed(self, part: Part, error: BaseException, number: int, offset: int) -> None:
        """Adds a part that can't be read, or only as far as the message of this number, at this byte of the file."""
        reason = type(error).__name__
        self.parts.append(part)
        self.counts[f"failed {reason}"] += 1
        self.rows.append(row(part.file, number, offset, reason))
        self.faults.append(f"{part.file}: {reason}: {error}")


@dataclass(frozen=True)
class Work:
    """What a worker has done of its files, and what it leaves to others, as the tasks that these get."""

    found: Found
    left: List[List[Part]]


def row(*cells: object) -> str:
    line = io.StringIO()
    csv.writer(line, lineterminator="\n").writerow([*cells, *[""] * (len(COLUMNS) - len(cells))])
    return line.getvalue()


@lru_cache(maxsize=None)
def sizes_alone(words: int) -> capvet.Limits:
    return capvet.Limits(message_words=words, charge=0, depth=0)


def whole(data: bytes, limits: capvet.Limits) -> Tuple[int, int, Optional[capvet.FrameError]]:
    """How many whole messages bytes begin with, how many bytes these have, and what the rest is, or None without one. Reads
    tables and roots alone, so this is fast for small messages too."""
    try:
        found = capvet.vet_all(data, limits=sizes_alone(limits.message_words))
    except capvet.FrameError as error:
        return error.number, error.offset, error
    return len(found), len(data), None


class Vetting:
    """Vets the messages of a part."""

    def __init__(self, part: Part, how: How) -> None:
        self.part, self.how, self.at = part, how, part.start
        self.counts: Counter[str] = Counter()
        self.rows: List[str] = []
        self.fault: Optional[Exception] = None

    def read(self, file: Any, size: int) -> bytes:
        """The next bytes of the part, about so many if they are there. What comes before a fault of the file is returned first."""
        if self.fault is not None:
            raise self.fault
        left = size if self.part.length is None else min(size, self.part.length - self.counts["bytes"])
        pieces: List[bytes] = []
        try:
            while left > 0 and (piece := self.read_some(file, left)):
                pieces.append(piece)
                left -= len(piece)
        except Exception as error:
            self.fault = error
            if not pieces:
                raise
        data = b"".join(pieces)
        self.counts["bytes"] += len(data)
        return data

    def read_some(self, file: Any, left: int) -> bytes:
        """Some of the next bytes, and none at the end. It takes `read1` as `python -m capvet vet` does, since `read` of what unpacks a
        file loses the bytes before a fault."""
        is_exact = self.part.length is not None or isinstance(file, io.BufferedReader)
        data: bytes = file.read1(left if is_exact else UNPACKED) if hasattr(file, "read1") else file.read(left)
        return data

    def add(self, verdicts: Sequence[capvet.Verdict], refused: Iterable[capvet.Refusal], first: int) -> None:
        """Adds messages. `first` is the number of message 0 of them in the part."""
        before = len(self.rows)
        for it in refused:
            self.counts[f"refused {it.reason}"] += 1
            place, number = it.position or (0, 0), self.part.first + first + it.number
            self.rows.append(row(self.part.file, number, self.at + it.offset, it.reason, *place, it.pointer or 0))
        self.counts["messages"] += len(verdicts)
        self.counts["accepted"] += len(verdicts) - (len(self.rows) - before)

    def plain(self, file: Any) -> Optional[capvet.FrameError]:
        """Vets many messages at once. Returns why the part stops being messages, or None."""
        rest, wanted = b"", FIRST_PIECE
        if file.seekable():
            file.seek(self.part.start)
        while piece := self.read(file, wanted):
            data = rest + piece
            verdicts, end, stop = self.verdicts(data)
            self.add(verdicts, verdicts.refused() if verdicts.accepted < len(verdicts) else (), self.counts["messages"])
            rest, self.at = data[end:], self.at + end
            if stop is not None and stop.reason != "Truncated":
                return stop
            # (a large message is read at once, and its beginning is copied once)
            wanted = max(stop.required - len(rest) if stop is not None and stop.required else 0, PIECE)
        return whole(rest, self.how.limits)[2] if rest else None

    def verdicts(self, data: bytes) -> Tuple[capvet.Verdicts, int, Optional[capvet.FrameError]]:
        """The verdicts of the whole messages that bytes begin with, how many bytes these have, and what the rest is."""
        if len(data) < PIECE:
            # (most small files are whole messages)
            with suppress(capvet.FrameError):
                return capvet.vet_all(data, limits=self.how.limits), len(data), None
        _, end, stop = whole(data, self.how.limits)
        return capvet.vet_all(memoryview(data)[:end], limits=self.how.limits), end, stop

    def packed(self, file: Any) -> Optional[capvet.FrameError]:
        with capvet.MessageFeed(packed=True, limits=self.how.limits) as feed:
            try:
                while piece := self.read(file, PIECE):
                    for it in feed.feed(piece):
                        self.add([it], [it] if isinstance(it, capvet.Refusal) else [], 0)
                feed.close()
            except capvet.FrameError as error:
                self.at = error.offset
                return error
            except Exception:
                self.at = next_of(feed)
                raise
        return None

    def add_to(self, found: Found, file: Any) -> None:
        """Vets the part, and adds what is known of it, also if it can be read only as far as that."""
        fault: Optional[Exception] = None
        try:
            stop = self.packed(file) if self.how.packed else self.plain(file)
            if stop is not None:
                self.counts[f"stopped {stop.reason}"] += 1
                self.rows.append(row(self.part.file, self.part.first + self.counts["messages"], self.at, stop.reason))
        except Exception as error:
            fault = error
        found.counts.update(self.counts)
        found.rows += self.rows
        if fault is None:
            found.parts.append(self.part)
        else:
            found.add_failed(self.part, fault, self.part.first + self.counts["messages"], self.at)


def next_of(feed: capvet.MessageFeed) -> int:
    """The byte at which the next message starts, of which a part may have come."""
    try:
        feed.close()
    except capvet.FrameError as error:
        return error.offset
    return feed.received


def length_of(file: Any, at: int, limits: capvet.Limits) -> int:
    """The length of the message that begins at a byte of a file, of which the table alone is read. 0 at the end, or if there
    is no such message."""
    file.seek(at)
    head = file.read(LONGEST_TABLE)
    try:
        return capvet.frame(head, message_words=limits.message_words).length
    except capvet.FrameError as error:
        return error.required or 0 if error.reason == "Truncated" and len(head) == LONGEST_TABLE else 0


def ranges(name: str, file: Any, how: How) -> Iterator[Part]:
    """A file in ranges of whole messages. A range has at most how.bytes, unless it is one message or the last range."""
    start, first = 0, 0
    while True:
        file.seek(start)
        data = file.read(how.bytes)
        count, length, rest = whole(data, how.limits)
        if not length:
            count, length = 1, length_of(file, start, how.limits)
        # (the rest is one range if it is short, or no messages)
        if len(data) < how.bytes or not length or rest is not None and rest.reason != "Truncated":
            yield Part(name, start, None, first)
            return
        yield Part(name, start, length, first)
        start, first = start + length, first + count


def is_split(name: str, file: Any, how: How) -> bool:
    """Whether a file is vetted in ranges."""
    compression = infer_compression(name) if how.compression == "infer" else how.compression
    if how.packed or compression is not None or not file.seekable():
        return False
    file.seek(0, os.SEEK_END)
    size: int = file.tell()
    file.seek(0)
    return size > how.bytes


def opened(name: str, compression: Optional[str]) -> Any:
    """A file, which fsspec opens if it is elsewhere or compressed."""
    return fsspec.open(name, "rb", compression=compression) if compression or "://" in name else open(name, "rb")


def work(parts: List[Part], how: How) -> Work:
    """Vets some parts, at most about how.bytes of them, for about a second. Of a large file it finds the ranges."""
    left: List[List[Part]] = []
    found, end = Found(), time.monotonic() + SECONDS
    for at, part in enumerate(parts):
        if found.counts["bytes"] >= how.bytes or time.monotonic() >= end:
            # (the others are shared out by what this task could do)
            return Work(found, [*left, *in_lists(parts[at:], max(1, at))])
        try:
            with opened(part.file, how.compression) as file:
                is_whole = part == Part(part.file)
                split = list(ranges(part.file, file, how)) if is_whole and is_split(part.file, file, how) else []
                # (a file that is one range is not given back: it would be split again)
                if len(split) > 1:
                    left += in_lists(split, 1)
                else:
                    Vetting(part, how).add_to(found, file)
        except Exception as error:
            found.add_failed(part, error, part.first, part.start)
    return Work(found, left)


def in_lists(parts: Sequence[Part], count: int) -> Iterator[List[Part]]:
    """The parts in lists of so many."""
    return (list(parts[at:at + count]) for at in range(0, len(parts), count))


class Journal:
    """The rows, and the log by which a run is resumed. Each line of it has the length that the CSV has then. Its names have to be
    among those of this run, or the counts and the rows would be of other files too."""

    def __init__(self, rows: Optional[str], log: Optional[str], is_resumed: bool, how: How, names: List[str], stack: ExitStack) -> None:
        self.counts: Counter[str] = Counter()
        self.done: Set[Part] = set()
        about = json.dumps([rows, asdict(how)])
        lines = self.lines_of(log, about) if log and is_resumed and os.path.exists(log) else []
        for line in lines:
            self.counts.update(line["counts"])
            self.done.update(Part(*part) for part in line["parts"])
        others = {part.file for part in self.done}.difference(names)
        if others:
            raise ValueError(f"{log} is of a run with other files too, such as {min(others)}")
        self.rows = self.opened(rows, lines[-1]["size"] if lines else 0, row(*COLUMNS), stack)
        self.log = self.opened(log, os.path.getsize(log) if log and lines else 0, about + "\n", stack)

    @staticmethod
    def lines_of(log: str, about: str) -> List[Dict[str, Any]]:
        """The lines of a log, without a last one that was not written to its end."""
        with open(log, "r+", encoding="utf-8") as file:
            text = file.read()
            text = text[:text.rfind("\n") + 1]
            file.seek(0)
            file.truncate(len(text.encode()))
        lines = text.splitlines()
        if lines and lines[0] != about:
            raise ValueError(f"{log} is of a run with other options")
        return [json.loads(line) for line in lines[1:]]

    @staticmethod
    def opened(name: Optional[str], size: int, header: str, stack: ExitStack) -> Optional[TextIO]:
        """A file that is cut to a size, or begun with its header."""
        if name is None:
            return None
        file: TextIO = stack.enter_context(open(name, "r+" if size else "w", encoding="utf-8", errors="surrogateescape", newline=""))
        if size:
            file.truncate(size)
            file.seek(0, os.SEEK_END)
        else:
            file.write(header)
            file.flush()
        return file

    def add(self, found: Found) -> None:
        self.counts.update(found.counts)
        if self.rows is not None:
            self.rows.writelines(found.rows)
            self.rows.flush()
        if self.log is not None:
            size = self.rows.tell() if self.rows is not None else 1
            parts = [[part.file] if part == Part(part.file) else list(vars(part).values()) for part in found.parts]
            self.log.write(json.dumps({"parts": parts, "counts": found.counts, "size": size}) + "\n")
            self.log.flush()


def duration(seconds: float) -> str:
    """A time in two units at most, such as 2 h 5 min."""
    minutes, rest = divmod(int(seconds), 60)
    if minutes < 60:
        return f"{minutes} min {rest} s" if minutes else f"{rest} s"
    return f"{minutes // 60} h {minutes % 60} min"


class Progress:
    """How many files are done and how long the others take, in one line on a terminal alone, and lines on standard error."""

    def __init__(self) -> None:
        self.is_shown, self.begin, self.first, self.time = False, 0.0, 0.0, 0.0

    def show(self, done: float, total: int) -> None:
        """A file of which some ranges are done is a part of one."""
        now = time.monotonic()
        # (the ranges of a file add up to one, but for rounding)
        done = total if done > total - 1e-6 else done
        if not self.begin:
            self.begin, self.first = now, done
        if not sys.stderr.isatty() or now - self.time < SHOWN_EACH and done < total:
            return
        rate = (done - self.first) / (now - self.begin) if now > self.begin else 0
        left = f", {duration((total - done) / rate)} left" if rate and done < total else ""
        print(f"\r{done:.0f} of {total} files, {100 * done / max(1, total):.0f} %{left}\x1b[K", end="", file=sys.stderr, flush=True)
        self.is_shown, self.time = True, now

    def end(self) -> None:
        """Ends the line, so that others can be written."""
        if self.is_shown:
            print(file=sys.stderr, flush=True)
        self.is_shown = False

    def say(self, text: str) -> None:
        self.end()
        print(f"vet_archive: {text}", file=sys.stderr)


def grouped(names: List[str], workers: int, done: Set[Part]) -> Iterator[List[Part]]:
    """The files that are not done, in at least four lists for each worker."""
    parts = [part for part in map(Part, names) if part not in done]
    return in_lists(parts, max(1, min(MOST_FILES, len(parts) // (4 * workers))))


class Run:
    """Vets files on a cluster. Each part counts once, whichever workers have vetted it."""

    def __init__(self, client: Any, how: How, journal: Journal, progress: Progress) -> None:
        self.client, self.how, self.journal, self.progress = client, how, journal, progress
        self.results = dask.as_completed()
        self.running: Dict[Any, List[Part]] = {}
        self.left: "deque[List[Part]]" = deque()
        self.suspects: List[Part] = []
        self.is_alone, self.done, self.total = False, 0.0, 0
        self.ranges: Counter[str] = Counter()

    def submit(self, parts: List[Part]) -> None:
        future = self.client.submit(work, parts, self.how, pure=False)
        self.running[future] = parts
        self.results.add(future)

    def vet(self, names: List[str]) -> None:
        workers = max(sum(self.client.nthreads().values()), 1)
        self.total, self.done = len(names), sum(part == Part(part.file) for part in self.journal.done)
        self.progress.show(self.done, self.total)
        waiting = grouped(names, workers, self.journal.done)
        while True:
            # (more tasks than workers, so that none waits for this loop)
            while not self.is_alone and len(self.running) < 3 * workers and (
                    parts := self.left.popleft() if self.left else next(waiting, [])):
                self.submit(parts)
            if not self.running and self.suspects:
                self.is_alone = True
                self.submit([self.suspects.pop()])
            if not self.running:
                return
            self.receive(next(self.results))

    def receive(self, future: Any) -> None:
        """Takes what a worker has done."""
        if future.cancelled():
            raise ConnectionError("the scheduler is gone (--resume goes on where the log ends)")
        parts, error = self.running.pop(future), future.exception()
        if error is None:
            self.add(future.result())
        elif not isinstance(error, dask.scheduler.KilledWorker):
            raise error
        elif self.is_alone:
            found = Found()
            found.add_failed(parts[0], error, parts[0].first, parts[0].start)
            self.add(Work(found, []))
        else:
            # (the others of that worker are under suspicion too: in the end each of these parts is vetted alone)
            self.suspects += parts
        self.is_alone = False

    def add(self, result: Work) -> None:
        if result.found.parts:
            self.journal.add(result.found)
        for fault in result.found.faults:
            self.progress.say(fault)
        # (a file that is given back whole is not split)
        self.ranges.update(part.file for parts in result.left for part in parts if part != Part(part.file))
        over = [part for parts in result.left for part in parts if part in self.journal.done]
        self.done += sum(1 / max(1, self.ranges[part.file]) for part in [*result.found.parts, *over])
        self.left.extend(left for parts in result.left if (left := [part for part in parts if part not in self.journal.done]))
        self.progress.show(self.done, self.total)


def summary(files: int, counts: "Counter[str]") -> str:
    """How many files, messages and bytes there are, and how many messages are refused for each reason."""
    refused = sum(count for name, count in counts.items() if name.startswith("refused "))
    kinds = ("refused", "stopped", "failed")
    lines = sorted((kinds.index(name.split()[0]), -count, name) for name, count in counts.items() if " " in name)
    return (f"files {files} bytes {counts['bytes']} messages {counts['messages']} accepted {counts['accepted']} "
            f"refused {refused}\n" + "".join(f"{name} {-count}\n" for _, count, name in lines))


def at_least_1(text: str) -> int:
    if int(text) < 1:
        raise argparse.ArgumentTypeError("it has to be at least 1")
    return int(text)


def options() -> argparse.Namespace:
    default = capvet.Limits()
    parser = argparse.ArgumentParser(description="Vets the messages of an archive by Dask.", allow_abbrev=False)
    where = parser.add_mutually_exclusive_group()
    where.add_argument("--workers", metavar="N", type=at_least_1, default=2, help="processes on this machine (default: 2)")
    where.add_argument("--scheduler", metavar="ADDRESS", help="the address of a cluster, such as tcp://10.0.0.1:8786")
    parser.add_argument("--refused", metavar="CSV", help="where to write a row for each refused message")
    parser.add_argument("--log", metavar="LOG", help="where to write what is done")
    parser.add_argument("--resume", action="store_true", help="leave out what LOG says is done")
    parser.add_argument("--compression", metavar="NAME", help="how files are compressed: infer, gzip, bz2, xz, or another of fsspec")
    parser.add_argument("--bytes", metavar="N", type=at_least_1, default=16 << 20, help="the bytes of a range (default: 16 MiB)")
    parser.add_argument("--packed", action="store_true", help="the files are packed")
    parser.add_argument("--exclusive", action="store_true", help="refuse a message that uses a word twice")
    parser.add_argument("--size", metavar="N", type=int, default=default.message_words, help="most words of a message")
    parser.add_argument("--words", metavar="N", type=int, default=default.charge, help="most words that a traversal reads")
    parser.add_argument("--depth", metavar="N", type=int, default=default.depth, help="deepest level of an object")
    parser.add_argument("--allow-nonstrict", action="store_true", help="accept four forms that common readers reject")
    parser.add_argument("--allow-amplified", action="store_true",
                        help="accept a message whose traversal reads 4,096 words more than its segments have")
    parser.add_argument("--files0-from", metavar="F", dest="names",
                        help="vet the files whose names are in the file F, each ended by a zero byte; - is standard input")
    parser.add_argument("files", nargs="*", metavar="FILE")
    args = parser.parse_args()
    if args.resume and args.log is None:
        parser.error("--resume needs --log")
    if bool(args.files) == (args.names is not None):
        parser.error("give either FILE.. or --files0-from")
    try:
        args.limits = capvet.Limits(message_words=args.size, charge=args.words, depth=args.depth,
                                    allow_nonstrict=args.allow_nonstrict, allow_amplified=args.allow_amplified,
                                    exclusive=args.exclusive)
    except ValueError as error:
        parser.error(f"{error} (message_words is --size, charge is --words)")
    return args


def names_of(args: argparse.Namespace) -> List[str]:
    """The names of the files, each once."""
    if args.names is None:
        return list(dict.fromkeys(args.files))
    with open(0 if args.names == "-" else args.names, "rb") as file:
        return [os.fsdecode(name) for name in dict.fromkeys(file.read().split(b"\0")) if name]


@contextmanager
def without_interrupts() -> Iterator[None]:
    """Ctrl-C waits for the end of the block, and never comes to threads and processes that begin in it."""
    # (its own start would let the signal through again)
    resource_tracker.ensure_running()
    signal.pthread_sigmask(signal.SIG_BLOCK, {signal.SIGINT})
    try:
        yield
    finally:
        signal.pthread_sigmask(signal.SIG_UNBLOCK, {signal.SIGINT})


def run(args: argparse.Namespace, progress: Progress) -> int:
    how = How(args.packed, args.limits, args.compression, args.bytes)
    # (where the end of a cluster is late, its own tasks are still there at the end of the interpreter, and asyncio would report each)
    logging.getLogger("asyncio").setLevel(logging.CRITICAL)
    with ExitStack() as stack:
        names = names_of(args)
        # (first of all, so that no run ends because a file can't be written)
        journal = Journal(args.refused, args.log, args.resume, how, names, stack)
        # (by default a worker that has died and isn't back after 15 seconds is given up, and in the end the run would have none)
        stack.enter_context(config.set({"distributed.deploy.lost-worker-timeout": "30 days"}))
        with without_interrupts():
            cluster = args.scheduler or stack.enter_context(
                dask.LocalCluster(n_workers=args.workers, threads_per_worker=1, dashboard_address="127.0.0.1:0", silence_logs=50,
                                  local_directory=stack.enter_context(TemporaryDirectory())))
        client = stack.enter_context(dask.Client(cluster))
        stack.callback(progress.end)
        Run(client, how, journal, progress).vet(names)
    sys.stdout.write(summary(len(names), journal.counts))
    kinds = {name.split()[0] for name in journal.counts if " " in name}
    return 3 if "failed" in kinds else int(bool(kinds))


def tell(progress: Progress, text: str) -> None:
    """Says why a run has ended, if somebody reads it. The interpreter would write again to an output that has failed, and would have a
    status of its own then."""
    for out in filter(None, (sys.stdout, sys.stderr)):
        try:
            if text and out is sys.stderr:
                progress.say(text)
            out.flush()
        except OSError:
            with open(os.devnull, "wb") as nothing:
                os.dup2(nothing.fileno(), out.fileno())


def main() -> int:
    args, progress, text = options(), Progress(), ""
    for out in (sys.stdout, sys.stderr):
        if isinstance(out, io.TextIOWrapper):
            out.reconfigure(errors="backslashreplace")
    try:
        status = run(args, progress)
        sys.stdout.flush()
    except KeyboardInterrupt:
        status, text = 130, "stopped"
    except Exception as error:
        status, text = 3, f"{type(error).__name__}: {error}"
    tell(progress, text)
    return status


if __name__ == "__main__":
    sys.exit(main())
